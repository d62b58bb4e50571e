"""OMCI frames, their texts, and files of captured packets: what the scripts beside share.

Standard library alone. Formats: docs/CAPTURES.md.
"""

import struct
from collections import namedtuple

#: The EtherType, one for local experiments, under which mirrors of an OMCI channel carry frames.
MIRROR_ETHERTYPE = 0x88B5

#: A packet of a file: its second, its link type, its bytes, its comments.
Packet = namedtuple("Packet", "second link data comments")

#: The comment of the first packet after a start of the unit.
START = "start"

BASELINE_BYTES = 48
CHECKED_BYTES = 44
CONTENTS_BYTES = 32

#: The names of message types, by their numbers.
TYPES = {
    4: "create", 6: "delete", 8: "set", 9: "get", 11: "alarms", 12: "alarms-next", 13: "upload",
    14: "upload-next", 15: "reset", 16: "alarm", 17: "change", 19: "start", 20: "section",
    21: "end", 22: "activate", 23: "commit", 25: "reboot",
}
AR, AK = 0x40, 0x20
NOTICES = (16, 17)
SECTION = 20


def kinds():
    """The type byte of each name in the text of a message."""
    names = {}
    for number, name in TYPES.items():
        if number in NOTICES:
            names[name] = number
            continue
        names[name] = AR | number
        names[name + "-r"] = AK | number
    names["section"] = SECTION
    names["section-ar"] = AR | SECTION
    return names


KINDS = kinds()


class Fault(Exception):
    """Why a file or a text can't be read."""


# ---- frames


def _table():
    table = []
    for byte in range(256):
        register = byte << 24
        for _ in range(8):
            register = (register << 1) ^ (0x04C11DB7 if register & 0x80000000 else 0)
        table.append(register & 0xFFFFFFFF)
    return table


_TABLE = _table()


def check_value(data):
    """The CRC-32 of ITU-T I.363.5."""
    register = 0xFFFFFFFF
    for byte in data:
        register = (register << 8 & 0xFFFFFFFF) ^ _TABLE[register >> 24 ^ byte]
    return register ^ 0xFFFFFFFF


def with_check(data):
    """Bytes with their check value after them."""
    return data + struct.pack(">I", check_value(data))


def frame_of(text):
    """The bytes of the message that a text spells, as `omci show` and traces write it."""
    words = text.split(" ")
    if len(words) != 6:
        raise Fault(f"no message: {text}")
    tci, device, kind, entity_class, instance, contents = words
    try:
        kind = int(kind[5:], 16) if kind.startswith("type-") else KINDS[kind]
        head = struct.pack(
            ">HBBHH", int(tci, 16), kind, int(device, 16), int(entity_class), int(instance)
        )
        data = b"" if contents == "-" else bytes.fromhex(contents)
    except (KeyError, ValueError, struct.error) as error:
        raise Fault(f"no message: {text}") from error
    if device == "0b":
        return with_check(head + struct.pack(">H", len(data)) + data)
    if device != "0a" or len(data) > CONTENTS_BYTES:
        raise Fault(f"no message: {text}")
    return with_check(head + data.ljust(CONTENTS_BYTES, b"\0") + bytes((0, 0, 0, 0x28)))


def is_up(frame):
    """Whether a frame came from the unit: a reply has AK, a notice TCI 0."""
    return bool(frame[2] & AK) or frame[:2] == b"\0\0"


# ---- files of packets

_SECTION_BLOCK = 0x0A0D0D0A
_BYTE_ORDER = 0x1A2B3C4D
_INTERFACE, _SIMPLE, _ENHANCED = 1, 3, 6
_COMMENT, _RESOLUTION = 1, 9
_ETHERNET = 1


def read_packets(data):
    """The packets of a file, pcap or pcapng."""
    if len(data) < 4:
        raise Fault("neither pcap nor pcapng")
    if struct.unpack("<I", data[:4])[0] == _SECTION_BLOCK:
        return _read_blocks(data)
    for order in "<>":
        for magic, parts in ((0xA1B2C3D4, 10**6), (0xA1B23C4D, 10**9)):
            if struct.unpack(order + "I", data[:4])[0] == magic:
                return _read_records(data, order, parts)
    raise Fault("neither pcap nor pcapng")


def _read_records(data, order, parts):
    if len(data) < 24:
        raise Fault("the header is cut off")
    link = struct.unpack(order + "I", data[20:24])[0] & 0xFFFF
    packets, place = [], 24
    while place < len(data):
        if place + 16 > len(data):
            raise Fault(f"a packet is cut off at byte {place}")
        second, part, size, _ = struct.unpack(order + "IIII", data[place : place + 16])
        place += 16
        if place + size > len(data):
            raise Fault(f"a packet is cut off at byte {place}")
        packets.append(Packet(second + part / parts, link, data[place : place + size], []))
        place += size
    return packets


def _read_blocks(data):
    packets, interfaces, order, place = [], [], "<", 0
    while place < len(data):
        if place + 12 > len(data):
            raise Fault(f"a block is cut off at byte {place}")
        kind = struct.unpack(order + "I", data[place : place + 4])[0]
        if kind == _SECTION_BLOCK:
            big = struct.unpack(">I", data[place + 8 : place + 12])[0] == _BYTE_ORDER
            order, interfaces = ">" if big else "<", []
        size = struct.unpack(order + "I", data[place + 4 : place + 8])[0]
        if size < 12 or size % 4 or place + size > len(data):
            raise Fault(f"a block is cut off at byte {place}")
        body = data[place + 8 : place + size - 4]
        if kind == _INTERFACE:
            interfaces.append(_interface(body, order))
        elif kind == _ENHANCED:
            packets.append(_enhanced(body, order, interfaces))
        elif kind == _SIMPLE:
            if not interfaces or len(body) < 4:
                raise Fault(f"a packet of no interface at byte {place}")
            length = struct.unpack(order + "I", body[:4])[0]
            packets.append(Packet(0.0, interfaces[0][0], body[4 : 4 + length], []))
        place += size
    return packets


def _options(body, order):
    place = 0
    while place + 4 <= len(body):
        kind, size = struct.unpack(order + "HH", body[place : place + 4])
        if kind == 0:
            return
        yield kind, body[place + 4 : place + 4 + size]
        place += 4 + (size + 3) // 4 * 4


def _interface(body, order):
    if len(body) < 8:
        raise Fault("an interface is cut off")
    resolution = 6
    for kind, value in _options(body[8:], order):
        if kind == _RESOLUTION and value:
            resolution = value[0]
    parts = 2 ** (resolution & 0x7F) if resolution & 0x80 else 10**resolution
    return struct.unpack(order + "H", body[:2])[0], parts


def _enhanced(body, order, interfaces):
    if len(body) < 20:
        raise Fault("a packet is cut off")
    number, high, low, size, _ = struct.unpack(order + "IIIII", body[:20])
    if number >= len(interfaces) or 20 + size > len(body):
        raise Fault("a packet of no interface, or one that is cut off")
    link, parts = interfaces[number]
    comments = [
        value.decode("utf-8", "replace")
        for kind, value in _options(body[20 + (size + 3) // 4 * 4 :], order)
        if kind == _COMMENT
    ]
    return Packet((high << 32 | low) / parts, link, body[20 : 20 + size], comments)


def _block(kind, body):
    body = body.ljust((len(body) + 3) // 4 * 4, b"\0")
    size = struct.pack("<I", len(body) + 12)
    return struct.pack("<I", kind) + size + body + size


def _option(kind, value):
    return struct.pack("<HH", kind, len(value)) + value.ljust((len(value) + 3) // 4 * 4, b"\0")


def write_packets(packets):
    """A pcapng file of packets over Ethernet, whose times have whole microseconds."""
    out = [
        _block(_SECTION_BLOCK, struct.pack("<IHHq", _BYTE_ORDER, 1, 0, -1)),
        _block(_INTERFACE, struct.pack("<HHI", _ETHERNET, 0, 0)),
    ]
    for packet in packets:
        time = round(packet.second * 10**6)
        size = len(packet.data)
        body = struct.pack("<IIIII", 0, time >> 32, time & 0xFFFFFFFF, size, size)
        body += packet.data.ljust((size + 3) // 4 * 4, b"\0")
        for comment in packet.comments:
            body += _option(_COMMENT, comment.encode())
        if packet.comments:
            body += _option(0, b"")
        out.append(_block(_ENHANCED, body))
    return b"".join(out)


# ---- what a packet carries

_VLANS = (0x8100, 0x88A8, 0x9100)
_IPV4, _IPV6, _UDP = 0x0800, 0x86DD, 17
#: Of other links than Ethernet: where the protocol stands, and where what it carries begins.
_COOKED = {113: (14, 16), 276: (0, 20)}


def carried(packet):
    """The EtherType of what a packet carries, and its bytes; None where it can't be told."""
    data = packet.data
    if packet.link in (101, 228, 229) and data:
        return (_IPV6 if data[0] >> 4 == 6 else _IPV4), data
    if packet.link == 0 and len(data) > 4:
        return (_IPV6 if data[4] >> 4 == 6 else _IPV4), data[4:]
    at, rest = _COOKED.get(packet.link, (12, 14))
    if packet.link != _ETHERNET and packet.link not in _COOKED or len(data) < rest:
        return None
    kind, data = int.from_bytes(data[at : at + 2], "big"), data[rest:]
    while kind in _VLANS and len(data) >= 4:
        kind, data = int.from_bytes(data[2:4], "big"), data[4:]
    return kind, data


def datagram(kind, data):
    """The ports and the bytes of a UDP datagram that isn't in fragments, or None."""
    if kind == _IPV4 and len(data) >= 20 and data[9] == _UDP:
        if int.from_bytes(data[6:8], "big") & 0x3FFF:
            return None
        data = data[(data[0] & 15) * 4 :]
    elif kind == _IPV6 and len(data) >= 40 and data[6] == _UDP:
        data = data[40:]
    else:
        return None
    if len(data) < 8:
        return None
    source, target, size = struct.unpack(">HHH", data[:6])
    return (source, target), data[8:size]
