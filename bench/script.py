#!/usr/bin/env python3
"""Writes a script that resynchronises and then has N commands on class 272, each followed by
`flow 2`: creates 40 %, sets 30 %, gets 20 %, deletes 10 % over 4,000 instances. The same N gives
the same script."""
import random
import sys

count = int(sys.argv[1])
draw = random.Random(count)
lines = ["omci 1 4096 1 1 ff", "resync", "flow 100"]
for _ in range(count):
    instance = draw.randrange(4000)
    kind = draw.random()
    if kind < 0.4:
        lines.append(f"create low 272 {instance} {draw.randrange(65536):04x}")
    elif kind < 0.7:
        lines.append(f"set low 272 {instance} 8000 {draw.randrange(65536):04x}")
    elif kind < 0.9:
        lines.append(f"get low 272 {instance} 8000")
    else:
        lines.append(f"delete low 272 {instance}")
    lines.append("flow 2")
sys.stdout.write("\n".join(lines) + "\n")
