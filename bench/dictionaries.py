#!/usr/bin/env python3
"""dictionaries.py KIND BYTES: a flat dictionary for timing the check, on standard output.

real      known tags, then messages of fields, a component and a group each, up to about so many bytes; it passes
doubling  5,000 components, each holding the one before twice, all empty; it lacks component 1's use and passes
chain     7,500 components, each holding the one before
deep      1,024 components, each holding a field and the one before, and a message of the last: what the build's stack is measured with
"""
import struct
import sys


def known(tag): return struct.pack("<BI", 1, tag)
def component(number): return struct.pack("<BH", 2, number)
def message(kind): return b"\x03" + kind.ljust(8, b"\0")
def field(tag, required=0): return struct.pack("<BIB", 4, tag, required)
def item(number, required=0): return struct.pack("<BHB", 5, number, required)
def group(tag, required=0): return struct.pack("<BIB", 6, tag, required)


CLOSE = b"\x07"


def real(size):
    tags = range(1, 1 + max(10, size * 912 // 30000 // 1))
    out = b"".join(known(t) for t in tags)
    out += component(0) + b"".join(field(t) for t in (8, 9)) + CLOSE + component(1) + field(10) + CLOSE
    out += component(2) + b"".join(field(t) for t in tags[2:6]) + group(tags[6]) + field(tags[7], 1) + field(tags[8]) + CLOSE + CLOSE
    number = 0
    while True:
        text = message(b"M%d" % number)
        text += b"".join(field(tags[(number * 7 + i) % len(tags)], i % 2) for i in range(20)) + item(2, 1) + CLOSE
        if len(out) + len(text) > size:
            return out
        out += text
        number += 1


def doubling(size):
    out = component(0) + CLOSE
    for number in range(1, 5000):
        out += component(number) + item(number - 1) + item(number - 1) + CLOSE
    return out[:size]


def chain(size):
    out = component(0) + CLOSE
    for number in range(1, 7500):
        out += component(number) + item(number - 1) + CLOSE
    return out[:size]


def deep(size):
    out = b"".join(known(t) for t in (1, 8, 9, 10, 35))
    out += component(0) + field(8) + field(9) + field(35) + CLOSE + component(1) + field(10) + CLOSE
    out += component(2) + field(1) + CLOSE
    for number in range(3, 1026):
        out += component(number) + field(1) + item(number - 1) + CLOSE
    return (out + message(b"0") + item(1025) + CLOSE)[:size]


if __name__ == "__main__":
    kinds = {"real": real, "doubling": doubling, "chain": chain, "deep": deep}
    if len(sys.argv) != 3 or sys.argv[1] not in kinds:
        sys.exit(__doc__)
    sys.stdout.buffer.write(kinds[sys.argv[1]](int(sys.argv[2])))
