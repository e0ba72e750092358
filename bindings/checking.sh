#!/usr/bin/env bash
# Common to the checks of bindings/: bindings/check and the `check` in each folder source it. A check passes with status
# 0; one that cannot run is reported as 'skipped: ..'; `finish` writes the last line, 'N passed, M failed'.

top=$(dirname "$(dirname "$(readlink -f "${BASH_SOURCE[0]}")")")
bindings=$top/bindings
work=$(mktemp -d)
trap 'rm -rf "$work"' EXIT
# shellcheck disable=SC2034 # for the scripts that source this one
warnings=(-Wall -Wextra -Wpedantic -Werror)
passed=0
failed=0

# check NAME COMMAND..: if the command fails, its output is shown. From two seconds on its time is printed.
check() {
    local name=$1 begun=$SECONDS
    shift
    if "$@" > "$work/output" 2>&1; then
        passed=$((passed + 1))
        name=$name$([ $((SECONDS - begun)) -lt 2 ] || echo ", $((SECONDS - begun)) s")
        echo "passed: $name"
    else
        failed=$((failed + 1))
        echo "failed: $name"
        tail -n 40 "$work/output"
    fi
}

# part NAME SCRIPT [WORD..]: runs the check of a folder, shows its lines, and adds its counts.
part() {
    local name=$1 count
    shift
    echo "-- $name"
    "$@" | tee "$work/part"
    count=$(tail -n 1 "$work/part")
    if [[ $count =~ ^([0-9]+)\ passed,\ ([0-9]+)\ failed$ ]]; then
        passed=$((passed + BASH_REMATCH[1]))
        failed=$((failed + BASH_REMATCH[2]))
    else
        failed=$((failed + 1))
        echo "failed: $name"
    fi
}

# has COMMAND..: whether these commands are installed.
has() {
    local command
    for command in "$@"; do
        command -v "$command" > /dev/null || { echo "skipped: $command is not installed"; return 1; }
    done
}

# same FILE COMMAND..: whether the command's output is the content of the file.
same() {
    local wanted=$1
    shift
    "$@" > "$work/given" && cmp "$wanted" "$work/given"
}

# refused TEXT COMMAND..: whether the command fails, with an output that matches this pattern of grep.
refused() {
    local wanted=$1
    shift
    if "$@" > "$work/given" 2>&1; then echo 'it does not fail'; return 1; fi
    grep -e "$wanted" "$work/given" || { cat "$work/given"; return 1; }
}

# needs_library: ends a folder's check if the library has not been built.
needs_library() {
    [ -e "$bindings/out/libriddlesage.a" ] || { echo 'failed: run bindings/build first'; exit 1; }
}

finish() {
    echo "$passed passed, $failed failed"
    [ "$failed" -eq 0 ]
}
