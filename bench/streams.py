#!/usr/bin/env python3
"""streams.py KIND BYTES: a stream for timing the framers, on standard output. The same call writes the same bytes.

clean    frames of 60 to 400 body bytes, one behind the other
damaged  the clean stream with one byte in 500 replaced at random
hostile  damage made to be slow: starts every 22 bytes whose announced ends all fall on one `10=`, which no sum fits
"""
import random
import sys

ALPHABET = b"ABCDEFGHIJKLMNOPQRSTUVWXYZ0123456789."


def frame(body):
    head = b"8=FIX.4.4\x019=%d\x01" % len(body) + body
    return head + b"10=%03d\x01" % (sum(head) % 256)


def body(random_, size):
    text = b"35=D\x0149=DEALER\x0156=DESK\x0134=%d\x01" % random_.randrange(100000)
    while len(text) < size:
        value = bytes(random_.choice(ALPHABET) for _ in range(random_.randrange(1, 20)))
        text += b"%d=%s\x01" % (random_.randrange(1, 9999), value)
    return text


def clean(size):
    random_ = random.Random(1)
    pool = [frame(body(random_, random_.randrange(60, 400))) for _ in range(500)]
    out = bytearray()
    while len(out) < size:
        out += random_.choice(pool)
    return out


def damaged(size):
    random_ = random.Random(2)
    out = clean(size)
    for _ in range(size // 500):
        out[random_.randrange(len(out))] = random_.randrange(256)
    return out


def hostile(size):
    starts = (8192 - 40) // 22
    block = bytearray()
    for i in range(starts):
        length = 22 * (starts - i) - len("8=F|9=0000|")
        block += b"8=F\x019=%04d\x0135=abcdef\x01" % length + b"\x01"
    block += b"10=999\x01"
    out = bytearray()
    while len(out) < size:
        out += block
    return out


if __name__ == "__main__":
    kinds = {"clean": clean, "damaged": damaged, "hostile": hostile}
    if len(sys.argv) != 3 or sys.argv[1] not in kinds:
        sys.exit(__doc__)
    sys.stdout.buffer.write(kinds[sys.argv[1]](int(sys.argv[2])))
