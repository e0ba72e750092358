"""Instructions of AArch64 in the forms that page/translate knows, in assembly.

Each form is a line or a few that read x2 to x7, v0 to v3, the flags and the 512 bytes at x0, and write these registers,
the flags and the 256 bytes at x1 + 256. Fractions stand at x0 + 128, and what is no number at x0 + 256.
"""

from __future__ import annotations

from collections.abc import Iterator

CONDITIONS = ("eq", "ne", "hs", "lo", "mi", "pl", "vs", "vc", "hi", "ls", "ge", "lt", "gt", "le")
ARRANGEMENTS = ("8b", "16b", "4h", "8h", "2s", "4s", "2d")
LANE_BITS = {"b": 8, "h": 16, "s": 32, "d": 64}
# what a load or a store of a register moves, in bytes
REGISTER_BYTES = {"x": 8, "w": 4, "q": 16, "d": 8, "s": 4, "h": 2, "b": 1}
NARROW_BYTES = {"ldrb": 1, "ldrh": 2, "ldrsb": 1, "ldrsh": 2, "ldrsw": 4, "strb": 1, "strh": 2}


def sums(w: str) -> Iterator[str]:
    """Sums and differences, with flags or without."""
    most = 63 if w == "x" else 31
    for name in ("add", "sub", "adds", "subs"):
        yield from (f"{name} {w}2, {w}3, {w}4", f"{name} {w}3, {w}3, {w}4", f"{name} {w}2, {w}3, #2748")
        yield from (f"{name} {w}2, {w}3, #1, lsl #12", f"{name} {w}2, {w}3, #1")
        yield from (f"{name} {w}2, {w}3, {w}4, {how} #{by}" for how in ("lsl", "lsr", "asr") for by in (1, 13, most))
        for how in ("uxtb", "uxth", "uxtw", "sxtb", "sxth", "sxtw"):
            yield from (f"{name} {w}2, {w}3, w4, {how}", f"{name} {w}2, {w}3, w4, {how} #3")
        if w == "x":
            yield from (f"{name} x2, x3, x4, {how} #2" for how in ("uxtx", "sxtx"))
    for name in ("cmp", "cmn"):
        yield from (f"{name} {w}3, {last}" for last in (f"{w}4", "#0", "#1", "#4095", "w4, uxtb", "w4, sxth"))
        yield from (f"{name} {w}3, {w}4, {how} #{by}" for how in ("lsl", "lsr", "asr") for by in (1, most))
    yield from (f"{name} {w}2, {w}3{how}" for name in ("neg", "negs") for how in ("", ", lsl #3", ", asr #5"))
    for name in ("adc", "adcs", "sbc", "sbcs"):
        yield from (f"{name} {w}2, {w}3, {w}4", f"{name} {w}3, {w}4, {w}3")
    yield from (f"ngc {w}2, {w}3", f"ngcs {w}2, {w}3")


def bits(w: str) -> Iterator[str]:
    """What is done bit by bit, moves, shifts and fields."""
    width = 64 if w == "x" else 32
    for name in ("and", "orr", "eor", "bic", "orn", "eon", "ands", "bics"):
        yield from (f"{name} {w}2, {w}3, {w}4", f"{name} {w}3, {w}3, {w}4")
        yield from (
            f"{name} {w}2, {w}3, {w}4, {how} #{by}" for how in ("lsl", "lsr", "asr", "ror") for by in (1, width - 1)
        )
    for name in ("and", "orr", "eor", "ands"):
        yield from (f"{name} {w}2, {w}3, #{value}" for value in ("0xff", "0xff00", "0x80000000", "0x7ffffffe"))
    yield from (f"tst {w}3, {last}" for last in (f"{w}4", "#0xf0", f"{w}4, lsr #9", f"{w}4, ror #7"))
    yield from (f"mvn {w}2, {w}3", f"mvn {w}2, {w}3, lsr #9", f"mov {w}2, {w}3", f"mov {w}2, {w}zr")
    yield from (f"mov {w}2, #{value}" for value in ("-5", "0x1234", "0x12340000"))
    yield from (f"movk {w}2, #0xabcd", f"movk {w}2, #0xabcd, lsl #16")
    for name in ("lsl", "lsr", "asr", "ror"):
        yield from (f"{name} {w}2, {w}3, {by}" for by in (f"{w}4", "#1", "#11", f"#{width - 1}"))
    for name in ("ubfx", "sbfx", "ubfiz", "sbfiz", "bfi", "bfxil"):
        yield from (
            f"{name} {w}2, {w}3, #{low}, #{size}" for low, size in ((0, 1), (3, 7), (5, width - 5), (width - 1, 1))
        )
    yield from (f"extr {w}2, {w}3, {w}4, #{low}" for low in (0, 1, 17, width - 1))
    yield from (f"{name} {w}2, {w}3" for name in ("clz", "rbit", "rev"))
    yield from (f"{name} {w}2, w3" for name in ("sxtb", "sxth"))


def products(w: str) -> Iterator[str]:
    """Products and quotients."""
    yield from (f"{name} {w}2, {w}3, {w}4" for name in ("mul", "mneg", "udiv", "sdiv"))
    yield from (f"madd {w}2, {w}3, {w}4, {w}5", f"msub {w}2, {w}3, {w}4, {w}5", f"madd {w}3, {w}3, {w}3, {w}3")


def choices(w: str) -> Iterator[str]:
    """What is done by the flags or a bit."""
    for at, condition in enumerate(CONDITIONS):
        yield from (f"{name} {w}2, {w}3, {w}4, {condition}" for name in ("csel", "csinc", "csinv", "csneg"))
        yield from (f"{name} {w}2, {condition}" for name in ("cset", "csetm"))
        yield from (f"{name} {w}2, {w}3, {condition}" for name in ("cinc", "cinv", "cneg"))
        for name in ("ccmp", "ccmn"):
            yield from (f"{name} {w}3, {w}4, #{at}, {condition}", f"{name} {w}3, #{at}, #{15 - at}, {condition}")
        yield f"b.{condition} 1f\nmov x2, #77\n1:"
    yield from (f"{name} {w}3, 1f\nmov x2, #77\n1:" for name in ("cbz", "cbnz"))
    bit_places = (0, 3, 63 if w == "x" else 31)
    yield from (f"{name} {w}3, #{bit}, 1f\nmov x2, #77\n1:" for name in ("tbz", "tbnz") for bit in bit_places)


def wide() -> Iterator[str]:
    """What x registers alone have."""
    yield from (f"{name} x2, w3, w4" for name in ("umull", "smull"))
    yield from (f"{name} x2, w3, w4, x5" for name in ("umaddl", "smaddl", "umsubl", "smsubl"))
    yield from (f"{name} x2, x3, x4" for name in ("umulh", "smulh"))
    yield from ("sxtw x2, w3", "uxtb w2, w3", "uxth w2, w3", "movk x2, #0xbeef, lsl #48", "mov x2, #0x7fff00000000")
    yield "mov x2, sp\nsub x2, sp, x2"


def loads(name: str, register: str) -> Iterator[str]:
    """A load, by the forms of its address."""
    size = NARROW_BYTES.get(name) or REGISTER_BYTES[register]
    to, unscaled = f"{register}2", name.replace("r", "ur", 1)
    yield from (f"{name} {to}, [x0]", f"{name} {to}, [x0, #{3 * size}]", f"{unscaled} {to}, [x0, #5]")
    yield from (f"add x5, x0, #40\n{name} {to}, {where}\nsub x5, x5, x0" for where in ("[x5, #-7]!", "[x5], #9"))
    yield f"and x5, x3, #15\n{name} {to}, [x0, x5]"
    by = size.bit_length() - 1
    yield f"and x5, x3, #3\n{name} {to}, [x0, w5, uxtw #{by}]"
    yield f"and x5, x3, #3\n{name} {to}, [x0, x5, lsl #{by}]"
    yield f"add x6, x0, #64\norr x5, x3, #0xfffffffffffffff8\n{name} {to}, [x6, w5, sxtw]\nsub x6, x6, x0"


def stores(name: str, register: str) -> Iterator[str]:
    """A store, by the forms of its address."""
    yield f"{name} {register}2, [x1, #256]"
    unscaled = name.replace("r", "ur", 1)
    for line in (f"{unscaled} {{}}, [x5, #-3]", f"{name} {{}}, [x5, #9]!", f"{name} {{}}, [x5], #-9"):
        yield f"add x5, x1, #256\n{line.format(register + '3')}\nsub x5, x5, x1"
    yield f"and x5, x3, #15\nadd x6, x1, #256\n{name} {register}2, [x6, x5]\nsub x6, x6, x1"


def memory() -> Iterator[str]:
    """Loads and stores."""
    for name in ("ldrb", "ldrh", "ldrsb", "ldrsh", "ldrsw"):
        yield from loads(name, "w" if name != "ldrsw" else "x")
    for register, size in REGISTER_BYTES.items():
        yield from loads("ldr", register)
        yield from stores("str", register)
        if register not in "hb":
            pair = f"{register}2, {register}3"
            yield from (f"{name} {pair}, [x0, #{size}]" for name in ("ldp", "ldnp"))
            for line in (f"ldp {pair}, [x5, #-{size}]!", f"ldp {pair}, [x5], #{size}"):
                yield f"add x5, x0, #64\n{line}\nsub x5, x5, x0"
            for line in (f"stp {pair}, [x5, #-{size}]!", f"stp {pair}, [x5], #{size}", f"stnp {pair}, [x5]"):
                yield f"add x5, x1, #288\n{line}\nsub x5, x5, x1"
    yield from (line for name in ("strb", "strh") for line in stores(name, "w"))
    yield from (
        "ldrsb x2, [x0, #1]",
        "ldrsh x2, [x0, #2]",
        "ldpsw x2, x3, [x0, #4]",
        "mov x5, x0\nldp x5, x6, [x5, #8]",
    )
    for lane, last in (("b", 15), ("h", 7), ("s", 3), ("d", 1)):
        yield f"ld1 {{ v2.{lane} }}[{last}], [x0]"
        yield f"add x5, x1, #256\nst1 {{ v2.{lane} }}[{last}], [x5]\nsub x5, x5, x1"


def lanes(form: str) -> Iterator[str]:
    """What is done lane by lane."""
    width = LANE_BITS[form[-1]]
    names = ["add", "sub", "cmeq", "cmhi", "cmhs", "cmgt", "cmge", "uqsub", "ushl"]
    names += ["zip1", "zip2", "uzp1", "uzp2", "trn1", "trn2", "addp"]
    names += [] if width == 64 else ["mul", "umax", "umin"]
    names += ["and", "orr", "eor", "bic", "orn", "bsl", "bit", "bif"] if width == 8 else []
    for name in names:
        yield from (f"{name} v2.{form}, v0.{form}, v1.{form}", f"{name} v0.{form}, v0.{form}, v1.{form}")
    yield from (f"{name} v2.{form}, v0.{form}, #0" for name in ("cmeq", "cmlt", "cmle", "cmgt", "cmge"))
    yield from (f"{name} v2.{form}, v0.{form}, #{by}" for name in ("shl", "ushr", "sshr") for by in (1, width - 1))
    yield from (f"neg v2.{form}, v0.{form}", f"dup v2.{form}, v0.{form[-1]}[1]")
    yield f"dup v2.{form}, {'x' if width == 64 else 'w'}3"
    if width == 8:
        yield from (f"{name} v2.{form}, v0.{form}" for name in ("cnt", "mvn", "mov"))
        yield from (f"ext v2.{form}, v0.{form}, v1.{form}, #3", f"movi v2.{form}, #0x5a")
    if width in (16, 32):
        for name in ("movi", "mvni", "bic", "orr"):
            yield from (f"{name} v2.{form}, #0x81", f"{name} v2.{form}, #0x81, lsl #8")
    if width == 32:
        yield from (f"movi v2.{form}, #0x81, msl #8", f"mvni v2.{form}, #0x81, msl #16")
    if form not in ("2s", "2d"):
        yield from (f"{name} {form[-1]}2, v0.{form}" for name in ("addv", "umaxv", "uminv"))
        yield f"uaddlv {dict(b='h', h='s', s='d')[form[-1]]}2, v0.{form}"


def other_lanes() -> Iterator[str]:
    """What widens and narrows lanes, moves one, or makes one number of two."""
    for low, high, to in (("8b", "16b", "8h"), ("4h", "8h", "4s"), ("2s", "4s", "2d")):
        for by in (0, 3):
            yield from (f"{name} v2.{to}, v0.{low}, #{by}" for name in ("ushll", "sshll"))
            yield from (f"{name} v2.{to}, v0.{high}, #{by}" for name in ("ushll2", "sshll2"))
        yield f"xtn v2.{low}, v0.{to}"
    for lane, last in (("b", 15), ("h", 7), ("s", 3), ("d", 1)):
        w = "x" if lane == "d" else "w"
        yield from (f"umov {w}2, v0.{lane}[{last}]", f"mov v2.{lane}[{last}], {w}3", f"mov v2.{lane}[{last}], {w}zr")
        yield from (f"mov v2.{lane}[0], v0.{lane}[{last}]", f"mov {lane}2, v0.{lane}[{last}]")
    yield from ("movi v2.2d, #0xff00ff0000ffff00", "movi d2, #0xff00ff0000ffff00", "movi v2.2d, #0", "addp d2, v0.2d")


def fractions() -> Iterator[str]:
    """Numbers with fractions."""
    yield from (
        "fmov d2, x3",
        "fmov s2, w3",
        "fmov x2, d0",
        "fmov w2, s0",
        "fmov d2, d0",
        "fmov s2, s1",
        "fmov d2, xzr",
    )
    yield from (f"fmov d2, #{value}" for value in ("1.0", "-0.125", "31.0"))
    yield from ("fcsel d2, d0, d1, gt", "fneg d2, d0", "fabs d2, d0")
    yield from (f"{name} d2, {w}3" for name in ("ucvtf", "scvtf") for w in "xw")
    for line in (
        "fadd d2, d0, d1",
        "fsub d2, d0, d1",
        "fmul d2, d0, d1",
        "fdiv d2, d0, d1",
        "fcmp d0, d1",
        "fcmp d0, #0.0",
    ):
        yield f"ldp d0, d1, [x0, #128]\n{line}"
    yield "ldr d0, [x0, #256]\nfcmp d0, d1"


def jump(entry: str, width: str) -> str:
    """A jump by a table of four entries."""
    table = f'.section .rodata.NAME,"a"\n.p2align 1\n9: {width} 4, 2, 0, 4\n.section .text.NAME'
    places = "2: mov x2, #1\nb 1f\nmov x2, #2\nb 1f\nmov x2, #3\n1: mov x6, #0\nmov x7, #0"
    begin = "and x5, x3, #3\nadrp x6, 9f\nadd x6, x6, :lo12:9f\nadr x7, 2f"
    return f"{begin}\n{entry}\nadd x7, x7, x9, lsl #2\nbr x7\n{places}\n{table}"


def places() -> Iterator[str]:
    """Jump tables, and addresses in data."""
    yield jump("ldrb w9, [x6, x5]", ".byte")
    yield jump("ldrh w9, [x6, x5, lsl #1]", ".hword")
    number = '.section .rodata.NAME,"a"\n.p2align 4\n.quad 5, 6\n9: .quad 0x123456789abcdef0, 77\n'
    back = ".section .text.NAME"
    for register in "xwqds":
        yield f"adrp x5, 9f\nldr {register}2, [x5, :lo12:9f]\nmov x5, #0\n{number}{back}"
    pointer = '.section .data.rel.ro.NAME,"aw"\n.p2align 3\n8: .quad 9b\n'
    through = "adrp x6, 8f\nadd x6, x6, :lo12:8f\nldr x6, [x6]\nldr x2, [x6]\nmov x6, #0"
    yield f"{through}\n{number}{pointer}{back}"
    step = '.section .rodata.NAME,"a"\n9: .word 8f - 9b\n.section .rodata.more_NAME,"a"\n.quad 1\n8: .quad 55\n'
    yield f"adrp x5, 9f\nadd x5, x5, :lo12:9f\nldrsw x6, [x5]\nldr x2, [x5, x6]\nmov x5, #0\nmov x6, #0\n{step}{back}"


def forms() -> Iterator[str]:
    """All of them. NAME stands for a name of each one's own."""
    for w in "xw":
        yield from (*sums(w), *bits(w), *products(w), *choices(w))
    yield from (*wide(), *memory())
    for form in ARRANGEMENTS:
        yield from lanes(form)
    yield from (*other_lanes(), *fractions(), *places())
