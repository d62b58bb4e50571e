"""Writes the text of a capture to standard output: capture.py BYTES.

Gets of both priorities in turn, with random masks and replies (a fixed seed); each tenth command is
repeated and answered again. The text has at most BYTES bytes, and no line of it is a breach."""
import random
import sys
from pathlib import Path

sys.dont_write_bytecode = True
sys.path.insert(0, str(Path(__file__).resolve().parent.parent / "tools"))
import packets

most = int(sys.argv[1])
draw = random.Random(1)
trailer = bytes((0, 0, 0, 0x28))
out, size, number = ["capture 1"], 10, 0
while True:
    tci = number % 32_767 + 1 | (0x8000 if number % 3 == 0 else 0)
    head = tci.to_bytes(2, "big"), bytes((0x0A, 1, 0, 1, 1))
    get = packets.with_check(head[0] + b"\x49" + head[1] + draw.randbytes(2) + bytes(30) + trailer)
    reply = packets.with_check(head[0] + b"\x29" + head[1] + draw.randbytes(32) + trailer)
    lines = ["down " + get.hex(), "up " + reply.hex()] * (2 if number % 10 == 0 else 1)
    size += sum(len(line) + 1 for line in lines)
    if size > most:
        break
    out += lines
    number += 1
print("\n".join(out))
