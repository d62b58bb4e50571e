#!/usr/bin/env python3
"""Writes a script that downloads an image of N bytes into slot 1, in windows of 32 sections, and
commits it. The slots have room for just so many bytes. The same N gives the same script."""
import random
import sys

size = int(sys.argv[1])
image = random.Random(size).randbytes(size).hex()
lines = [f"omci 1 {size} 1 1 ff", "probe low", "flow 2"]
lines += [f"image 1 32 - {image}", "flow 65536", "commit low 1", "flow 2"]
sys.stdout.write("\n".join(lines) + "\n")
