"""Completions for bash, zsh and fish, from the help texts of the programs."""

from __future__ import annotations

from making.programs import Program

# The effect of options without a command, and their short forms.
_DOES = {
    "--details": "print the parts of each bound",
    "--timeline": "print the worst case of a message",
    "--version": "print version",
}
_SHORT = {"--version": "-V"}


def bash(described: Program) -> str:
    """The completion for bash."""
    commands = " ".join(described.commands)
    helped = " ".join(it for it in described.commands if it != "help")
    options = " ".join(["--help", *described.options])
    return f"""\
# bash completion of {described.name}
_{described.name}() {{
    local words=
    case $COMP_CWORD,${{COMP_WORDS[1]}} in
        1,*) words='{commands} {options}' ;;
        2,help) words='{helped}' ;;
        2,-*) ;;
        2,*) words=--help ;;
    esac
    mapfile -t COMPREPLY < <(compgen -W "$words" -- "$2")
}}
complete -F _{described.name} {described.name}
"""


def zsh(described: Program) -> str:
    """The completion for zsh."""
    commands = "\n".join(f"    {_quoted(f'{name}:{does}')}" for name, does in described.commands.items())
    options = "".join(f" {_zsh_option(name, has_word)}" for name, has_word in described.options.items())
    return f"""\
#compdef {described.name}
local -a subcommands
subcommands=(
{commands}
)
if (( CURRENT == 2 )); then
    _describe command subcommands
elif (( CURRENT == 3 )) && [[ $words[2] == help ]]; then
    subcommands=(${{subcommands:#help:*}})
    _describe command subcommands
fi
_arguments '(-h --help)'{{-h,--help}}'[print help]'{options}
"""


def fish(described: Program) -> str:
    """The completion for fish."""
    name = described.name
    lines = [f"# fish completion of {name}", f"complete -c {name} -f"]
    lines += [
        f"complete -c {name} -n __fish_is_first_arg -a {command} -d {_quoted(does)}"
        for command, does in described.commands.items()
    ]
    if "help" in described.commands:
        helped = " ".join(it for it in described.commands if it != "help")
        lines.append(f"complete -c {name} -n '__fish_seen_subcommand_from help' -a '{helped}'")
    lines.append(f"complete -c {name} -s h -l help -d 'Print help'")
    for option, has_word in described.options.items():
        short = f" -s {_SHORT[option][1:]}" if option in _SHORT else ""
        word = " -x" * has_word
        does = _DOES[option].capitalize()
        lines.append(f"complete -c {name} -n __fish_is_first_arg{short} -l {option[2:]}{word} -d '{does}'")
    return "\n".join(lines) + "\n"


def _zsh_option(name: str, has_word: bool) -> str:
    """An option without a command, for zsh's `_arguments`."""
    names = f"{{{_SHORT[name]},{name}}}" if name in _SHORT else name
    return f"'(- *)'{names}'[{_DOES[name]}]{':word: ' * has_word}'"


def _quoted(text: str) -> str:
    """The text for a shell, in double quotes."""
    return '"' + "".join(f"\\{it}" if it in '\\"$`' else it for it in text) + '"'
