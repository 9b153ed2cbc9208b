#!/usr/bin/env python3
"""Writes a capture of a busy link to standard output: the same bytes for the same words.

    capture.py MEGABYTES [--seed N] [--hex] [--control]

Data frames of five sizes, control frames and fill; of a hundred frames one has a changed byte, and behind
one of two hundred stands junk. A megabyte is drawn and repeated. With --control there are no data frames;
with --hex each byte is two digits.
"""
import argparse
import os
import random
import sys

sys.path.insert(0, os.path.dirname(os.path.dirname(os.path.realpath(__file__))))
from tests.wire import KINDS, SYN, control, data  # noqa: E402

SIZES = [8, 64, 200, 576, 1500]
DRAWN = 1_000_000


def frame(draw, number, has_data):
    kind = draw.random()
    if kind < 0.6 and has_data:
        return data(draw.randbytes(draw.choice(SIZES)), number + 3, number)
    if kind < 0.9:
        return control(KINDS[draw.choice(["ACK", "ACK", "ACK", "NAK", "REP"])], resp=number)
    return bytes([SYN]) * 4


def capture(seed, has_data):
    draw, drawn, number = random.Random(seed), bytearray(), 0
    while len(drawn) < DRAWN:
        number = (number + 1) % 256
        text = bytearray(frame(draw, number, has_data))
        if draw.random() < 0.01:
            text[draw.randrange(len(text))] ^= draw.randrange(1, 256)
        if draw.random() < 0.005:
            text += draw.randbytes(draw.randrange(1, 40))
        drawn += text
    return bytes(drawn)


def main():
    words = argparse.ArgumentParser(description=__doc__.split("\n", 1)[0])
    words.add_argument("megabytes", type=float)
    words.add_argument("--seed", type=int, default=1)
    words.add_argument("--hex", action="store_true")
    words.add_argument("--control", action="store_true")
    asked = words.parse_args()
    drawn = capture(asked.seed, not asked.control)
    times = max(1, round(asked.megabytes * 1_000_000 / len(drawn)))
    text = (drawn.hex() + "\n").encode() if asked.hex else drawn
    for _ in range(times):
        sys.stdout.buffer.write(text)


if __name__ == "__main__":
    main()
