"""Vector and floating-point instructions as statements of C.

A vector register is two variables of 64 bits, its halves, with the first lane in the lowest bits. Operations lane by
lane are functions of machine.h over one half each. The upper half is cleared if an instruction writes the lower one
alone (C1.2.5). Floating-point numbers have 64 bits, the rounding of C, and no exceptions.
"""

from __future__ import annotations

import struct
from collections.abc import Callable

from translating.instructions import Instruction
from translating.integers import Writer, write_facts
from translating.operands import Fraction, Immediate, Lanes, Part, Shift, Whole
from translating.refusal import Refused

# operations on the bits of two vectors, in C
BITWISE = {"and": "{a} & {b}", "orr": "{a} | {b}", "eor": "{a} ^ {b}", "bic": "{a} & ~{b}", "orn": "{a} | ~{b}"}
# functions of machine.h that compute each lane of one half from those of two, by the name of the instruction
LANE_WISE = ("add", "sub", "mul", "umax", "umin", "uqsub", "ushl", "cmeq", "cmhi", "cmhs", "cmgt", "cmge")
# the comparison with 0, as one of two vectors of which the second or the first is 0
WITH_ZERO = {
    "cmeq": "cmeq_{n}({a}, 0)",
    "cmgt": "cmgt_{n}({a}, 0)",
    "cmge": "cmge_{n}({a}, 0)",
    "cmlt": "cmgt_{n}(0, {a})",
    "cmle": "cmge_{n}(0, {a})",
}
PAIRED = ("zip1", "zip2", "uzp1", "uzp2", "trn1", "trn2")


def made(to: Lanes, low: str, high: str) -> list[str]:
    """Writes both halves; the upper one is cleared if the vector has no lanes there."""
    if to.is_one:
        raise Refused("its first operand is one lane")
    low_name, high_name = to.halves
    if to.is_half:
        high = "0"
    if low_name in high:
        return [f"{{ u64 low_ = {low}, high_ = {high}; {low_name} = low_; {high_name} = high_; }}"]
    return [f"{low_name} = {low};", f"{high_name} = {high};"]


def by_half(to: Lanes, value: Callable[[int], str]) -> list[str]:
    """Writes both halves by a function of the number of the half."""
    return made(to, value(0), value(1))


def all_lanes(i: Instruction, place: int, like: Lanes | None = None) -> Lanes:
    """The vector at a place, with the same number and width of lanes as another."""
    found = i.lanes(place)
    if found.is_one or (like is not None and (found.kind, found.count) != (like.kind, like.count)):
        raise Refused(f"the lanes of its operand {place + 1} are not known here")
    return found


def repeated(to: Lanes, value: int) -> str:
    """A number in each lane of a half."""
    lane = value & ((1 << to.bits) - 1)
    return f"{sum(lane << below for below in range(0, 64, to.bits)):#x}u"


def left_shift(shift: Shift | None, value: int) -> int:
    """A number that is shifted to the left, with zeros (`lsl`) or ones (`msl`) below it."""
    if shift is None:
        return value
    if shift.how not in ("lsl", "msl"):
        raise Refused(f"the shift {shift.how}")
    return (value << shift.by) | ((1 << shift.by) - 1 if shift.how == "msl" else 0)


def write_two(i: Instruction) -> list[str]:
    """An operation on two vectors lane by lane, or on one and zeros."""
    to = i.lanes(0)
    if i.has(Lanes, Lanes, Immediate):
        if i.name not in WITH_ZERO or i.number(2) != 0:
            raise Refused("its number is not known here")
        a = all_lanes(i, 1, to)
        return by_half(to, lambda half: WITH_ZERO[i.name].format(n=to.bits, a=a.halves[half]))
    if not i.has(Lanes, Lanes, Lanes):
        return write_with_number(i)
    a, b = all_lanes(i, 1, to), all_lanes(i, 2, to)
    if i.name in BITWISE:
        return by_half(to, lambda half: BITWISE[i.name].format(a=a.halves[half], b=b.halves[half]))
    return by_half(to, lambda half: f"{i.name}_{to.bits}({a.halves[half]}, {b.halves[half]})")


def write_with_number(i: Instruction) -> list[str]:
    """Bits that a number clears or sets in each lane."""
    to = i.lanes(0)
    value = repeated(to, left_shift(i.shift(2), i.number(1)))
    if i.name not in ("bic", "orr"):
        raise Refused("its operands are not known here")
    return by_half(to, lambda half: f"{to.halves[half]} {'& ~' if i.name == 'bic' else '| '}(u64){value}")


def write_number(i: Instruction) -> list[str]:
    """A number in each lane."""
    value = left_shift(i.shift(2), i.number(1))
    if i.name == "mvni":
        value = ~value
    if isinstance(i.operands[0], Part):
        return i.part(0).write(Immediate(value).read())
    to = i.lanes(0)
    return by_half(to, lambda _: repeated(to, value))


def write_selected(i: Instruction) -> list[str]:
    """Bits of one vector or another, selected by those of a third; the name says which of the three is overwritten."""
    vectors = i.lanes(0), all_lanes(i, 1, i.lanes(0)), all_lanes(i, 2, i.lanes(0))

    def chosen(half: int) -> str:
        to, a, b = (it.halves[half] for it in vectors)
        return {
            "bsl": f"({to} & {a}) | (~{to} & {b})",
            "bit": f"({b} & {a}) | (~{b} & {to})",
            "bif": f"(~{b} & {a}) | ({b} & {to})",
        }[i.name]

    return by_half(i.lanes(0), chosen)


def write_one(i: Instruction) -> list[str]:
    """An operation on one vector lane by lane."""
    to = i.lanes(0)
    from_ = all_lanes(i, 1, to)
    changes = {"mvn": "~{}", "not": "~{}", "neg": f"sub_{to.bits}(0, {{}})", "cnt": "count_8({})"}
    if i.name == "cnt" and to.kind != "u8":
        raise Refused("its lanes are not known here")
    return by_half(to, lambda half: changes[i.name].format(from_.halves[half]))


def write_shift(i: Instruction) -> list[str]:
    """Lanes that are shifted by a number."""
    to, from_, by = i.lanes(0), all_lanes(i, 1, i.lanes(0)), i.number(2)
    if by >= to.bits:  # all bits of the lane are shifted out, for which C has no shift
        raise Refused("its number is not known here")
    return by_half(to, lambda half: f"{i.name}_{to.bits}({from_.halves[half]}, {by})")


def write_widened(i: Instruction) -> list[str]:
    """The low or the high lanes with twice the bits, shifted to the left: `ushll2` and the like take the high ones."""
    to, from_ = i.lanes(0), i.lanes(1)
    is_high = i.name.endswith("2")
    if from_.is_one or to.bits != 2 * from_.bits or from_.count != to.count * (2 if is_high else 1):
        raise Refused("its lanes are not known here")
    kind = f"{'i' if i.name.startswith('s') else 'u'}{from_.bits}"
    by = i.number(2) if len(i.operands) > 2 else 0

    def widened(half: int) -> str:
        value = f"widened_{kind}({from_.halves[is_high]}{' >> 32' if half else ''})"
        return f"shl_{to.bits}({value}, {by})" if by else value

    return by_half(to, widened)


def write_narrowed(i: Instruction) -> list[str]:
    """The low half of each lane."""
    to, from_ = i.lanes(0), i.lanes(1)
    if from_.is_one or from_.bits != 2 * to.bits or from_.count != to.count or not to.is_half:
        raise Refused("its lanes are not known here")
    return made(to, evens(to.bits, *from_.halves), "0")


def evens(bits: int, low: str, high: str, below: int = 0) -> str:
    """Every second lane of two halves as one half, from the first lane on, or from the second one if it is `below`."""
    parts = [f"narrowed_{bits}({half}{f' >> {below}' if below else ''})" for half in (low, high)]
    return f"{parts[0]} | {parts[1]} << 32"


def paired(name: str, a: Lanes, b: Lanes) -> tuple[str, str]:
    """The lanes of two vectors in another order, as two halves."""
    bits, is_second = a.bits, name.endswith("2")
    if bits == 64:
        return a.halves[is_second], b.halves[is_second]
    if name.startswith("zip"):
        of = 0 if a.is_half else int(is_second)
        parts = [f"zipped_{bits}({a.halves[of]}{up}, {b.halves[of]}{up})" for up in ("", " >> 32")]
        return parts[a.is_half and is_second], parts[1]
    if name.startswith("uzp"):
        pairs = [(a.halves[0], b.halves[0])] * 2 if a.is_half else [a.halves, b.halves]
        low, high = (evens(bits, *pair, bits if is_second else 0) for pair in pairs)
        return low, high
    mask = sum(((1 << bits) - 1) << below for below in range(0, 64, 2 * bits))

    def turned(half: int) -> str:
        first, second = a.halves[half], b.halves[half]
        if is_second:
            return f"({first} >> {bits} & {mask:#x}u) | ({second} & ~(u64){mask:#x}u)"
        return f"({first} & {mask:#x}u) | ({second} & {mask:#x}u) << {bits}"

    return turned(0), turned(1)


def write_paired(i: Instruction) -> list[str]:
    """The lanes of two vectors in another order."""
    to = i.lanes(0)
    return made(to, *paired(i.name, all_lanes(i, 1, to), all_lanes(i, 2, to)))


def write_pair_sums(i: Instruction) -> list[str]:
    """The sums of adjacent lanes."""
    if i.has(Part, Lanes):
        from_ = i.lanes(1)
        if from_.is_one or (i.part(0).letter, from_.kind, from_.count) != ("d", "u64", 2):
            raise Refused("its lanes are not known here")
        return i.part(0).write(" + ".join(from_.halves))
    to, a, b = i.lanes(0), all_lanes(i, 1, i.lanes(0)), all_lanes(i, 2, i.lanes(0))
    firsts, seconds = paired("uzp1", a, b), paired("uzp2", a, b)
    return by_half(to, lambda half: f"add_{to.bits}({firsts[half]}, {seconds[half]})")


def write_across(i: Instruction) -> list[str]:
    """One number of all lanes."""
    from_ = i.lanes(1)
    if from_.is_one:
        raise Refused("its lanes are not known here")
    name = {"addv": "all_add", "uaddlv": "all_add", "umaxv": "all_max", "uminv": "all_min"}[i.name]
    each = [f"{name}_{from_.bits}({half})" for half in (from_.halves[:1] if from_.is_half else from_.halves)]
    if len(each) == 1:
        return i.part(0).write(each[0])
    together = {"all_add": "{} + {}", "all_max": "larger({}, {})", "all_min": "smaller({}, {})"}[name]
    return i.part(0).write(together.format(*each))


def write_cut_out(i: Instruction) -> list[str]:
    """The bytes of one vector's width, from a place in the concatenation of two."""
    to, a, b, from_ = i.lanes(0), all_lanes(i, 1, i.lanes(0)), all_lanes(i, 2, i.lanes(0)), i.number(3)
    if to.kind != "u8":
        raise Refused("its lanes are not known here")
    halves = [a.halves[0], b.halves[0]] if to.is_half else [*a.halves, *b.halves]
    first, by = from_ // 8, from_ % 8 * 8

    def cut(half: int) -> str:
        now = halves[half + first : half + first + 2]
        return f"({now[0]} >> {by}) | ({now[1]} << {64 - by})" if by else now[0]

    return made(to, cut(0), "0" if to.is_half else cut(1))


def write_repeated(i: Instruction) -> list[str]:
    """A register, or one lane, in each lane."""
    to, from_ = i.lanes(0), i.operands[1]
    if isinstance(from_, Whole):
        value = from_.read()
    elif isinstance(from_, Lanes) and from_.is_one and from_.kind == to.kind:
        value = from_.one()
    else:
        raise Refused("its second operand is not known here")
    each = value if to.bits == 64 else f"(u64)({to.kind})({value}) * (u64){repeated(to, 1)}"
    return by_half(to, lambda _: each)


def write_move(i: Instruction) -> list[str]:
    """A lane from an integer register or to one, from lane to lane, or a whole vector."""
    to, from_ = i.operands[0], i.operands[1]
    if isinstance(from_, Lanes) and from_.is_one:
        if isinstance(to, Whole):
            return to.write(from_.one())
        if isinstance(to, (Lanes, Part)) and to.kind == from_.kind:
            return to.write(from_.one()) if isinstance(to, Part) else to.write_one(from_.one())
    if isinstance(to, Lanes) and to.is_one and isinstance(from_, Whole):
        return to.write_one(from_.read())
    if isinstance(to, Lanes) and not to.is_one:
        vector = all_lanes(i, 1, to)
        return by_half(to, lambda half: vector.halves[half])
    raise Refused("its operands are not known here")


def write_bit_move(i: Instruction) -> list[str]:
    """The bits of a register of another kind, or a floating-point number."""
    to, from_ = i.operands[0], i.operands[1]
    if isinstance(to, Part) and isinstance(from_, (Whole, Part)) and to.letter in "sd":
        return to.write(from_.read())
    if isinstance(to, Whole) and isinstance(from_, Part) and from_.letter in "sd":
        return to.write(from_.read())
    if isinstance(to, Part) and isinstance(from_, Fraction) and to.letter == "d":
        return to.write(f"{struct.unpack('<Q', struct.pack('<d', float(from_.text)))[0]:#x}u")
    raise Refused("its operands are not known here")


def fraction(i: Instruction, place: int) -> str:
    """The floating-point number at a place."""
    found = i.operands[place] if place < len(i.operands) else None
    if isinstance(found, Fraction) and float(found.text) == 0:
        return "0.0"
    if isinstance(found, Part) and found.letter == "d":
        return f"fraction_of({found.read()})"
    raise Refused("only floating-point numbers of 64 bits are known here")


def write_fraction(to: Part, value: str) -> list[str]:
    """Writes a floating-point number to a register."""
    if to.letter != "d":
        raise Refused("only floating-point numbers of 64 bits are known here")
    return to.write(f"bits_of({value})")


def write_arithmetic(i: Instruction) -> list[str]:
    """A sum, difference, product or quotient of floating-point numbers."""
    operator = {"fadd": "+", "fsub": "-", "fmul": "*", "fdiv": "/"}[i.name]
    return write_fraction(i.part(0), f"{fraction(i, 1)} {operator} {fraction(i, 2)}")


def write_turned(i: Instruction) -> list[str]:
    """A floating-point number with the other sign, or without a sign; also of NaN, so with the bits."""
    if (i.part(0).letter, i.part(1).letter) != ("d", "d"):
        raise Refused("only floating-point numbers of 64 bits are known here")
    value = i.part(1).read()
    return i.part(0).write(f"{value} ^ (u64)1 << 63" if i.name == "fneg" else f"{value} & ~((u64)1 << 63)")


def write_fraction_choice(i: Instruction) -> list[str]:
    """The bits of one of two floating-point numbers, depending on the flags."""
    parts = [i.part(place) for place in range(3)]
    if len({part.letter for part in parts}) > 1:
        raise Refused("its operands are not known here")
    return parts[0].write(f"{i.condition(3)} ? {parts[1].read()} : {parts[2].read()}")


def write_fraction_comparison(i: Instruction) -> list[str]:
    """The flags of a comparison of two floating-point numbers (FPCompare): c and v alone are set if one is NaN."""
    a, b = fraction(i, 0), fraction(i, 1)
    facts = {"is_eq": f"{a} == {b}", "is_hs": f"!({a} < {b})", "is_hi": f"!({a} <= {b})", "is_mi": f"{a} < {b}"}
    facts.update({"is_vs": f"is_unordered({a}, {b})", "is_ge": f"{a} >= {b}", "is_gt": f"{a} > {b}"})
    return write_facts(facts)


def write_fraction_of(i: Instruction) -> list[str]:
    """An integer as a floating-point number."""
    from_ = i.whole(1)
    kind = from_.unsigned if i.name == "ucvtf" else from_.signed
    return write_fraction(i.part(0), f"(double)({kind}){from_.read()}")


WRITERS: dict[str, Writer] = {
    **dict.fromkeys((*BITWISE, *LANE_WISE, *WITH_ZERO), write_two),
    **dict.fromkeys(("movi", "mvni"), write_number),
    **dict.fromkeys(("bsl", "bit", "bif"), write_selected),
    **dict.fromkeys(("mvn", "not", "neg", "cnt"), write_one),
    **dict.fromkeys(("shl", "ushr", "sshr"), write_shift),
    **dict.fromkeys(("ushll", "sshll", "ushll2", "sshll2", "uxtl", "sxtl", "uxtl2", "sxtl2"), write_widened),
    "xtn": write_narrowed,
    **dict.fromkeys(PAIRED, write_paired),
    "addp": write_pair_sums,
    **dict.fromkeys(("addv", "uaddlv", "umaxv", "uminv"), write_across),
    "ext": write_cut_out,
    "dup": write_repeated,
    **dict.fromkeys(("mov", "umov", "ins"), write_move),
    "fmov": write_bit_move,
    **dict.fromkeys(("fadd", "fsub", "fmul", "fdiv"), write_arithmetic),
    **dict.fromkeys(("fneg", "fabs"), write_turned),
    "fcsel": write_fraction_choice,
    "fcmp": write_fraction_comparison,
    **dict.fromkeys(("ucvtf", "scvtf"), write_fraction_of),
}
