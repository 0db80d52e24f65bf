"""Compares the blocks that block.c wrote with zlib's adler32. Usage: block.py FILE"""

import struct
import sys
import zlib

RECORD = 4 + 4 + 496 + 512 + 1 + 1 + 512 + 1
BLOCKS = 20000


def sums(data):
    """A and B over data, by zlib."""
    both = zlib.adler32(data)
    return both & 0xFFFF, both >> 16


def check(block):
    """What check has to answer to a block of 512 bytes."""
    return int(struct.unpack(">II", block[504:]) == sums(block[:504]))


def main():
    with open(sys.argv[1], "rb") as file:
        data = file.read()
    if len(data) != BLOCKS * RECORD:
        sys.exit(f"block.py: {len(data)} bytes, and not {BLOCKS} records of {RECORD}")
    holding = 0
    for i in range(BLOCKS):
        record = data[i * RECORD : (i + 1) * RECORD]
        front, block = record[:504], record[504:1016]
        damaged, answers = record[1018:1530], (record[1016], record[1017], record[1530])
        expected = front + struct.pack(">II", *sums(front))
        if block != expected:
            at = next(k for k in range(512) if block[k] != expected[k])
            sys.exit(f"block.py: block {i} differs at byte {at}: {block[at]}, by zlib {expected[at]}")
        if answers != (0, 1, check(damaged)):
            wanted = (0, 1, check(damaged))
            sys.exit(f"block.py: block {i}: seal, check and check after damage answered {answers}, by zlib {wanted}")
        holding += answers[2]
    if not 0 < holding < BLOCKS:
        sys.exit(f"block.py: {holding} of {BLOCKS} blocks hold after the damage: the test tests nothing")


main()
