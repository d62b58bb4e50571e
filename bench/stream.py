"""Writes a stream of frames to standard output: stream.py SET BYTES, where SET is `baseline` or
`both`.

Frames are drawn with a fixed seed from a pool of 400 baseline frames and, with `both`, 400 extended
ones of 0 to 300 contents bytes, over all kinds of messages. The stream has as many whole frames as
BYTES have room for, and `check` refuses none of them."""
import random
import struct
import sys

TABLE = []
for byte in range(256):
    register = byte << 24
    for _ in range(8):
        register = (register << 1) ^ (0x04C11DB7 if register & 0x80000000 else 0)
        register &= 0xFFFFFFFF
    TABLE.append(register)


def check_value(data):
    register = 0xFFFFFFFF
    for byte in data:
        register = ((register << 8) & 0xFFFFFFFF) ^ TABLE[(register >> 24) ^ byte]
    return register ^ 0xFFFFFFFF


def sealed(data):
    return data + struct.pack(">I", check_value(data))


def drawn(length):
    return bytes(random.randrange(256) for _ in range(length))


REQUESTS = [0x44, 0x46, 0x48, 0x49, 0x4B, 0x4C, 0x4D, 0x4E, 0x4F]
REQUESTS += [0x53, 0x54, 0x55, 0x56, 0x57, 0x59]
RESPONSES = [kind ^ 0x60 for kind in REQUESTS]
KINDS = REQUESTS + RESPONSES + [0x14, 0x10, 0x11]


def head(kind, device):
    tci, entity_class, instance = (random.randrange(65536) for _ in range(3))
    return struct.pack(">HBBHH", tci, kind, device, entity_class, instance)


def baseline():
    contents = drawn(random.randrange(33)).ljust(32, b"\0")
    return sealed(head(random.choice(KINDS), 0x0A) + contents + b"\0\0\0\x28")


def contents_of(kind):
    length = random.choice([0, 2, 8, 20, 40, 60, 100, 300])
    if kind == 0x2E:  # pieces of the database
        pieces = b""
        while len(pieces) < length:
            width = random.randrange(1, 27)
            pieces += struct.pack(">H", width) + drawn(6 + width)
        return pieces
    if kind == 0x2C:  # rows of the alarm table
        return drawn(32 * (length // 32))
    return drawn(max(length, 29 if kind == 0x10 else 11))


def extended():
    kind = random.choice(KINDS)
    contents = contents_of(kind)
    return sealed(head(kind, 0x0B) + struct.pack(">H", len(contents)) + contents)


random.seed(7)
pool = [baseline() for _ in range(400)]
if sys.argv[1] == "both":
    pool += [extended() for _ in range(400)]
room = int(sys.argv[2])
stream = bytearray()
while True:
    frame = random.choice(pool)
    if len(stream) + len(frame) > room:
        break
    stream += frame
sys.stdout.buffer.write(stream)
