"""Integer instructions, and those of the flags, as statements of C.

Of the flags, the seven facts are kept that conditions ask for: each is computed from the operands, where the flags are
set, and left out if nothing reads it (liveness.py).

Values have 64 bits. A value that is written to a w register is cut to 32. So sums, differences, products, left shifts
and bitwise operations may be computed in 64 bits. What depends on the upper end of a value (flags, right shifts,
quotients, leading zeros) is computed in the type of the register.
"""

from __future__ import annotations

from collections.abc import Callable

from translating.instructions import Instruction
from translating.operands import EXTENSIONS, Immediate, Shift, Whole
from translating.refusal import Refused

Writer = Callable[[Instruction], list[str]]

SUMS = {"add": "+", "sub": "-"}
BITS = {"and": "&", "orr": "|", "eor": "^", "bic": "& ~", "orn": "| ~", "eon": "^ ~"}


# the value of the zero register
ZERO = "(u64)0"


def shifted(value: Whole | Immediate, shift: Shift | None) -> str:
    """An operand after its shift or widening, in the bits of the register."""
    if shift is None:
        return value.read()
    if shift.how in EXTENSIONS:
        return f"((u64)(i64)({EXTENSIONS[shift.how]}){value.read()} << {shift.by})"
    if shift.how == "lsl":
        return f"({value.read()} << {shift.by})"
    if isinstance(value, Immediate):
        raise Refused("a number with a right shift")
    if shift.how == "lsr":
        return f"({value.read()} >> {shift.by})"
    if shift.how == "asr":
        return f"(u64)(({value.signed}){value.read()} >> {shift.by})"
    if shift.how == "ror" and shift.by > 0:
        return f"({value.read()} >> {shift.by} | {value.read()} << {value.bits - shift.by})"
    raise Refused(f"the shift {shift.how}")


def last(i: Instruction, place: int) -> str:
    """The last operand, and the shift after it, if there is one."""
    if len(i.operands) > place + 2:
        raise Refused("it has too many operands")
    operand = i.operands[place]
    if not isinstance(operand, (Whole, Immediate)):
        raise Refused("its last operand is not known here")
    return shifted(operand, i.shift(place + 1))


def facts_of_difference(bits: int, a: str, b: str) -> dict[str, str]:
    """What a comparison leaves for the conditions: a difference sets the carry if there is no borrow."""
    first, second = f"(u{bits})({a})", f"(u{bits})({b})"
    result = f"(u{bits})({first} - {second})"
    signed_first, signed_second = f"(i{bits})({a})", f"(i{bits})({b})"
    return {
        "is_eq": f"{first} == {second}",
        "is_hs": f"{first} >= {second}",
        "is_hi": f"{first} > {second}",
        "is_mi": f"(i{bits}){result} < 0",
        "is_vs": f"(i{bits})(({first} ^ {second}) & ({first} ^ {result})) < 0",
        "is_ge": f"{signed_first} >= {signed_second}",
        "is_gt": f"{signed_first} > {signed_second}",
    }


def facts_of_sum(bits: int, a: str, b: str, carry: str = "") -> dict[str, str]:
    """What a sum leaves for the conditions (AddWithCarry of the manual); `carry` is a variable that is 0 or 1."""
    first, second = f"(u{bits})({a})", f"(u{bits})({b})"
    result = f"(u{bits})({first} + {second}{f' + (u{bits}){carry}' if carry else ''})"
    is_below, is_zero = f"(i{bits}){result} < 0", f"{result} == 0"
    carries = f"{result} < {first}"
    if carry:  # with 0 the sum carries only if it is 0 itself
        carries = f"({carry} ? {result} <= {first} : {carries})" if a != ZERO else f"({carry} && {is_zero})"
    overflows = f"(i{bits})(({first} ^ {result}) & ({second} ^ {result})) < 0"
    return {
        "is_eq": is_zero,
        "is_hs": carries,
        "is_hi": f"{carries} && !({is_zero})",
        "is_mi": is_below,
        "is_vs": overflows,
        "is_ge": f"({is_below}) == ({overflows})",
        "is_gt": f"!({is_zero}) && ({is_below}) == ({overflows})",
    }


def facts_of_bits(bits: int, value: str) -> dict[str, str]:
    """What a bitwise operation leaves for the conditions: it clears the carry and the overflow."""
    unsigned, signed = f"(u{bits})({value})", f"(i{bits})({value})"
    facts = {"is_eq": f"{unsigned} == 0", "is_mi": f"{signed} < 0", "is_ge": f"{signed} >= 0", "is_gt": f"{signed} > 0"}
    return {**facts, **dict.fromkeys(("is_hs", "is_hi", "is_vs"), "0")}


def facts_of_number(nzcv: int) -> dict[str, str]:
    """What these four flags mean for the conditions."""
    n, z, c, v = (bool(nzcv >> place & 1) for place in (3, 2, 1, 0))
    facts = {"is_eq": z, "is_hs": c, "is_hi": c and not z, "is_mi": n, "is_vs": v}
    facts.update({"is_ge": n == v, "is_gt": not z and n == v})
    return {name: str(int(value)) for name, value in facts.items()}


def write_facts(facts: dict[str, str]) -> list[str]:
    """A statement for each fact."""
    return [f"{name} = {value};" for name, value in facts.items()]


def sum_facts(name: str, of: Whole, first: str, second: str) -> dict[str, str]:
    """What a sum or a difference leaves for the conditions, by the name of the instruction."""
    if name in ("adds", "cmn", "ccmn"):
        return facts_of_sum(of.bits, first, second)
    return facts_of_difference(of.bits, first, second)


def sum_flags(name: str, of: Whole, first: str, second: str) -> list[str]:
    """Sets the flags of a sum or a difference."""
    return write_facts(sum_facts(name, of, first, second))


def write_sum(i: Instruction) -> list[str]:
    """`add` and `sub`, with or without flags."""
    first, second = i.whole(1).read(), last(i, 2)
    flags = sum_flags(i.name, i.whole(0), first, second) if i.name.endswith("s") else []
    return [*flags, *i.whole(0).write(f"{first} {SUMS[i.name[:3]]} {second}")]


def write_comparison(i: Instruction) -> list[str]:
    """The flags of a difference or a sum whose value is not used."""
    return sum_flags(i.name, i.whole(0), i.whole(0).read(), last(i, 1))


def write_negation(i: Instruction) -> list[str]:
    """The difference from 0, with flags or without."""
    flags = sum_flags("subs", i.whole(0), "0", last(i, 1)) if i.name == "negs" else []
    return [*flags, *i.whole(0).write(f"0 - ({last(i, 1)})")]


def write_bits(i: Instruction) -> list[str]:
    """Bitwise operations, with flags or without."""
    value = f"{i.whole(1).read()} {BITS[i.name if i.name in BITS else i.name[:3]]}({last(i, 2)})"
    flags = write_facts(facts_of_bits(i.whole(0).bits, value)) if i.name in ("ands", "bics") else []
    return [*flags, *i.whole(0).write(value)]


def write_test(i: Instruction) -> list[str]:
    """The flags of the bits that two operands share."""
    return write_facts(facts_of_bits(i.whole(0).bits, f"{i.whole(0).read()} & ({last(i, 1)})"))


def write_move(i: Instruction) -> list[str]:
    """A register or a number, or the complement of one."""
    value = last(i, 1)
    return i.whole(0).write(value if i.name in ("mov", "movz") else f"~({value})")


def write_move_16(i: Instruction) -> list[str]:
    """Sixteen bits of a register; the others stay."""
    shift = i.shift(2)
    by = shift.by if shift else 0
    return i.whole(0).write(f"({i.whole(0).read()} & ~(0xffffull << {by})) | {i.number(1)}ull << {by}")


def write_product(i: Instruction) -> list[str]:
    """A product, alone, negated, or added to a third register or subtracted from it."""
    product = f"{i.whole(1).read()} * {i.whole(2).read()}"
    if i.name in ("mul", "mneg"):
        return i.whole(0).write(product if i.name == "mul" else f"0 - {product}")
    return i.whole(0).write(f"{i.whole(3).read()} {'+' if i.name == 'madd' else '-'} {product}")


def write_wide_product(i: Instruction) -> list[str]:
    """The product of two w registers in 64 bits, alone, or added to a third register or subtracted from it."""
    cast = "(u64)(u32)" if i.name.startswith("u") else "(u64)(i64)(i32)"
    product = f"{cast}({i.whole(1).read()}) * {cast}({i.whole(2).read()})"
    if i.name in ("umull", "smull"):
        return i.whole(0).write(product)
    return i.whole(0).write(f"{i.whole(3).read()} {'+' if i.name[1:] == 'maddl' else '-'} {product}")


def write_high_product(i: Instruction) -> list[str]:
    """The upper 64 bits of a product."""
    return i.whole(0).write(
        f"{'high' if i.name == 'umulh' else 'high_signed'}({i.whole(1).read()}, {i.whole(2).read()})"
    )


def write_quotient(i: Instruction) -> list[str]:
    """A quotient, rounded towards 0; x / 0 is 0, and the least number / -1 is itself (C3.4.8)."""
    to, call = i.whole(0), "quotient" if i.name == "udiv" else "quotient_signed"
    return to.write(f"{call}_{to.bits}({i.whole(1).read()}, {i.whole(2).read()})")


def write_shift(i: Instruction) -> list[str]:
    """A shift by a number or a register, modulo the width of the first operand."""
    to, how = i.whole(0), i.name[:3]
    second = i.operands[2]
    if not isinstance(second, (Whole, Immediate)):
        raise Refused("its third operand is not known here")
    value, by = i.whole(1).read(), f"({second.read()} & {to.bits - 1})"
    if how == "ror":
        return to.write(f"rotated_{to.bits}(({to.unsigned}){value}, {by})")
    kind = to.signed if how == "asr" else to.unsigned
    return to.write(f"({to.unsigned})(({kind}){value} {'<<' if how == 'lsl' else '>>'} {by})")


def write_field(i: Instruction) -> list[str]:
    """Bits of a register that are extracted, moved, or inserted into another."""
    to, value, low, size = i.whole(0), i.whole(1).read(), i.number(2), i.number(3)
    mask = f"{(1 << size) - 1}ull"
    fields = {
        "ubfx": f"({value} >> {low}) & {mask}",
        "sbfx": f"(u64)((i64)({value} << {64 - low - size}) >> {64 - size})",
        "ubfiz": f"({value} & {mask}) << {low}",
        "sbfiz": f"(u64)((i64)({value} << {64 - size}) >> {64 - size}) << {low}",
        "bfi": f"({to.read()} & ~({mask} << {low})) | (({value} & {mask}) << {low})",
        "bfxil": f"({to.read()} & ~{mask}) | (({value} >> {low}) & {mask})",
    }
    return to.write(fields[i.name])


def write_extraction(i: Instruction) -> list[str]:
    """The bits of one register's width, from a place in the concatenation of two."""
    low, to = i.number(3), i.whole(0)
    if low == 0:
        return to.write(i.whole(2).read())
    return to.write(f"({i.whole(2).read()} >> {low}) | ({i.whole(1).read()} << {to.bits - low})")


def write_widening(i: Instruction) -> list[str]:
    """The low bits of a register, with their sign or without."""
    return i.whole(0).write(f"(u64)(i64)({EXTENSIONS[i.name]})({i.whole(1).read()})")


def write_count(i: Instruction) -> list[str]:
    """Leading zeros, or the bits or the bytes in reverse order."""
    to, value = i.whole(0), i.whole(1).read()
    if i.name == "clz":
        return to.write(f"leading_zeros_{to.bits}({value})")
    return to.write(f"{'reversed_bits' if i.name == 'rbit' else 'reversed_bytes'}_{to.bits}({value})")


def write_carried_sum(i: Instruction) -> list[str]:
    """A sum or a difference with the carry: a difference adds the complement (C6.2, `sbc`)."""
    to, is_sum = i.whole(0), i.name.startswith("adc")
    first = ZERO if i.name.startswith("ngc") else i.whole(1).read()
    second = f"{'' if is_sum else '~'}({i.whole(len(i.operands) - 1).read()})"
    flags = write_facts(facts_of_sum(to.bits, first, second, "carry")) if i.name.endswith("s") else []
    return ["carry = is_hs;", *flags, *to.write(f"{first} + {second} + (u64)carry")]


def write_choice(i: Instruction) -> list[str]:
    """One of two registers, depending on the flags; the second as it is, plus one, complemented or negated."""
    changes = {"csel": "{}", "csinc": "{} + 1", "csinv": "~{}", "csneg": "0 - {}"}
    other = changes[i.name].format(i.whole(2).read())
    return i.whole(0).write(f"{i.condition(3)} ? {i.whole(1).read()} : {other}")


def write_flag(i: Instruction) -> list[str]:
    """1, or all ones, if the flags satisfy a condition, and otherwise 0."""
    return i.whole(0).write(f"{'0 - ' if i.name == 'csetm' else ''}(u64)({i.condition(1)})")


def write_change(i: Instruction) -> list[str]:
    """A register; plus one, complemented or negated if the flags satisfy a condition."""
    value = i.whole(1).read()
    changed = {"cinc": f"{value} + 1", "cinv": f"~{value}", "cneg": f"0 - {value}"}[i.name]
    return i.whole(0).write(f"{i.condition(2)} ? {changed} : {value}")


def write_further_comparison(i: Instruction) -> list[str]:
    """The flags of a comparison if the flags satisfy a condition, and otherwise those of a number."""
    second = i.operands[1]
    if not isinstance(second, (Whole, Immediate)):
        raise Refused("its second operand is not known here")
    compared, given = sum_facts(i.name, i.whole(0), i.whole(0).read(), second.read()), facts_of_number(i.number(2))
    facts = {name: f"was ? {value} : {given[name]}" for name, value in compared.items()}
    return [f"was = {i.condition(3)};", *write_facts(facts)]


WRITERS: dict[str, Writer] = {
    **dict.fromkeys(("add", "sub", "adds", "subs"), write_sum),
    **dict.fromkeys(("cmp", "cmn"), write_comparison),
    **dict.fromkeys(("neg", "negs"), write_negation),
    **dict.fromkeys((*BITS, "ands", "bics"), write_bits),
    "tst": write_test,
    **dict.fromkeys(("mov", "movz", "movn", "mvn"), write_move),
    "movk": write_move_16,
    **dict.fromkeys(("mul", "mneg", "madd", "msub"), write_product),
    **dict.fromkeys(("umull", "umaddl", "umsubl", "smull", "smaddl", "smsubl"), write_wide_product),
    **dict.fromkeys(("umulh", "smulh"), write_high_product),
    **dict.fromkeys(("udiv", "sdiv"), write_quotient),
    **dict.fromkeys(("lsl", "lsr", "asr", "ror", "lslv", "lsrv", "asrv", "rorv"), write_shift),
    **dict.fromkeys(("ubfx", "sbfx", "ubfiz", "sbfiz", "bfi", "bfxil"), write_field),
    "extr": write_extraction,
    **dict.fromkeys(("sxtb", "sxth", "sxtw", "uxtb", "uxth", "uxtw"), write_widening),
    **dict.fromkeys(("clz", "rbit", "rev"), write_count),
    **dict.fromkeys(("adc", "adcs", "sbc", "sbcs", "ngc", "ngcs"), write_carried_sum),
    **dict.fromkeys(("csel", "csinc", "csinv", "csneg"), write_choice),
    **dict.fromkeys(("cset", "csetm"), write_flag),
    **dict.fromkeys(("cinc", "cinv", "cneg"), write_change),
    **dict.fromkeys(("ccmp", "ccmn"), write_further_comparison),
}
