"""Reads SocketCAN frames from captures: pcap and pcapng, in both byte orders."""

from __future__ import annotations

import struct
from collections.abc import Iterator
from typing import BinaryIO, NamedTuple

from riddlesage._frames import Frame
from riddlesage.candump import Other, error_of

# The link type of SocketCAN frames, LINKTYPE_CAN_SOCKETCAN.
_SOCKETCAN = 227
# The first four bytes of a pcap, each with its byte order and how many nanoseconds its smaller time unit has.
_MAGICS = {
    struct.pack(order + "I", magic): (order, unit)
    for order in "<>"
    for magic, unit in ((0xA1B2C3D4, 1000), (0xA1B23C4D, 1))
}
# The first four bytes of a section of a pcapng, the same in both byte orders; the kinds of other blocks that are read.
_SECTION = b"\n\r\r\n"
_INTERFACE, _SIMPLE, _PACKET = 1, 3, 6
_ORDERS = {struct.pack(order + "I", 0x1A2B3C4D): order for order in "<>"}
_OPTION_NAME, _OPTION_UNIT, _OPTION_OFFSET = 2, 9, 14
_MOST_BYTES = 1 << 24

# Bits of the identifier, as SocketCAN has them; of the flags, the one of CAN FD; of the length, the one of CAN XL.
_EXTENDED, _REMOTE, _ERROR, _MASK = 1 << 31, 1 << 30, 1 << 29, (1 << 29) - 1
_FLAG_FD, _FLAG_XL = 0x04, 0x80
_HEADER, _FD_BYTES = struct.Struct(">IBBBB"), 72


class BadCapture(ValueError):
    """The rest of a capture cannot be read, and why."""


class Packet(NamedTuple):
    """A packet: its time in nanoseconds, the name of its interface, or its number, its link type, and its bytes."""

    time: int | None
    channel: str
    link: int
    content: bytes


def is_capture(begin: bytes) -> bool:
    """Whether a file that begins with these four bytes is a pcap or pcapng."""
    return begin in _MAGICS or begin == _SECTION


def packets(given: BinaryIO) -> Iterator[Packet]:
    """The packets of a pcap or pcapng. BadCapture is raised where it cannot be read on."""
    begin = _taken(given, 4, "it has no header")
    if begin in _MAGICS:
        yield from _pcap(given, *_MAGICS[begin])
    elif begin == _SECTION:
        yield from _pcapng(given)
    else:
        raise BadCapture("it is neither a pcap nor a pcapng")


def what_of(packet: Packet) -> Frame | Other:
    """The frame of a packet, or what else it reports. A packet of another kind raises ValueError."""
    if packet.link != _SOCKETCAN:
        raise ValueError(f"its link type is {packet.link}, not that of SocketCAN frames, {_SOCKETCAN}")
    if len(packet.content) < _HEADER.size:
        raise ValueError(f"it has {len(packet.content)} bytes, fewer than the header of a frame")
    identifier, length, flags, _, raw_dlc = _HEADER.unpack_from(packet.content)
    if length & _FLAG_XL:
        raise ValueError("it is a frame of CAN XL")
    if identifier & _ERROR:
        return error_of(identifier)
    if flags & _FLAG_FD or length > 8 or len(packet.content) == _FD_BYTES:
        return Other.FD
    is_remote, is_extended = bool(identifier & _REMOTE), bool(identifier & _EXTENDED)
    dlc = raw_dlc if length == 8 and 8 < raw_dlc < 16 else length
    data = b"" if is_remote else packet.content[_HEADER.size : _HEADER.size + length]
    return Frame(identifier & _MASK, data, is_extended, is_remote, dlc)


def _taken(given: BinaryIO, count: int, why: str) -> bytes:
    """The next bytes. BadCapture with this reason if there are not enough, or if the number cannot be right."""
    if not 0 <= count <= _MOST_BYTES:
        raise BadCapture("a length in it cannot be right")
    content = given.read(count)
    if len(content) < count:
        raise BadCapture(why)
    return content


def _pcap(given: BinaryIO, order: str, unit: int) -> Iterator[Packet]:
    """The packets after the first four bytes of a pcap."""
    *_, link = struct.unpack(order + "HHiIII", _taken(given, 20, "it ends within its header"))
    cut = "it ends within this packet"
    while begin := given.read(16):
        if len(begin) < 16:
            raise BadCapture(cut)
        seconds, part, length, _ = struct.unpack(order + "IIII", begin)
        # the upper bits of the link type are about a checksum
        yield Packet(seconds * 10**9 + part * unit, "0", link & 0xFFFF, _taken(given, length, cut))


class _Interface(NamedTuple):
    """An interface of a pcapng: its name or number, link type, units of time in a second, and offset in seconds."""

    name: str
    link: int
    units: int
    offset: int


def _pcapng(given: BinaryIO) -> Iterator[Packet]:
    """The packets after the first four bytes of a pcapng."""
    order = _section(given)
    interfaces: list[_Interface] = []
    while begin := given.read(4):
        if len(begin) < 4:
            raise BadCapture("it ends within a block's header")
        if begin == _SECTION:
            order, interfaces = _section(given), []
            continue
        (kind,) = struct.unpack(order + "I", begin)
        content = _block(given, order)
        if kind == _INTERFACE:
            interfaces.append(_interface(content, order, len(interfaces)))
        elif kind in (_PACKET, _SIMPLE):
            yield _packet(content, order, interfaces, kind == _SIMPLE)


def _section(given: BinaryIO) -> str:
    """The byte order of the section that begins."""
    length, magic = _taken(given, 4, "it ends within a section's header"), given.read(4)
    if magic not in _ORDERS:
        raise BadCapture("a section has no byte order")
    order = _ORDERS[magic]
    _taken(given, _number(length, order) - 12, "it ends within a section's header")
    return order


def _block(given: BinaryIO, order: str) -> bytes:
    """The content of a block, of which 4 bytes have been read; its length comes before and after it."""
    length = _number(_taken(given, 4, "it ends within a block's header"), order)
    return _taken(given, length - 8, "it ends within this block")[:-4]


def _number(content: bytes, order: str) -> int:
    return int.from_bytes(content, "little" if order == "<" else "big")


def _interface(content: bytes, order: str, number: int) -> _Interface:
    """The interface of a block."""
    if len(content) < 8:
        raise BadCapture("this description of an interface is too short")
    name, units, offset = str(number), 10**6, 0
    (link,) = struct.unpack_from(order + "H", content)
    for code, value in _options(content[8:], order):
        if code == _OPTION_NAME:
            name = value.decode("utf-8", "replace").rstrip("\0") or name
        elif code == _OPTION_UNIT and value:
            units = 2 ** (value[0] & 0x7F) if value[0] & 0x80 else 10 ** value[0]
        elif code == _OPTION_OFFSET and len(value) == 8:
            (offset,) = struct.unpack(order + "q", value)
    return _Interface(name, link, units, offset)


def _options(content: bytes, order: str) -> Iterator[tuple[int, bytes]]:
    """The options of a block: their codes and values."""
    place = 0
    while place + 4 <= len(content):
        code, length = struct.unpack_from(order + "HH", content, place)
        if code == 0:
            return
        yield code, content[place + 4 : place + 4 + length]
        # each is filled up to four bytes
        place += 4 + length + -length % 4


def _packet(content: bytes, order: str, interfaces: list[_Interface], is_simple: bool) -> Packet:
    """The packet of a block. A simple one is of the first interface, and has no time."""
    size = 4 if is_simple else 20
    if len(content) < size:
        raise BadCapture("this block is too short")
    number, high, low, length = 0, 0, 0, len(content) - size
    if not is_simple:
        number, high, low, length = struct.unpack_from(order + "IIII", content)
    if number >= len(interfaces) or len(content) < size + length:
        raise BadCapture("this block is too short, or of no interface")
    name, link, units, offset = interfaces[number]
    time = None if is_simple else offset * 10**9 + (high << 32 | low) * 10**9 // units
    return Packet(time, name, link, content[size : size + length])
