#!/usr/bin/env python3
"""Lines that lie across the boundaries of reckon's reads of 65,536 bytes.

  reads.py FILE    writes to FILE its first 163 lines again, and behind them such lines; the same at every run
"""
import sys

from reference import PROPANE, random_lines

READ = 65536
KEPT = 163
# a line across each boundary, and how many of its characters stand before it: a case in mountain air of which the first 44
# characters alone would be accepted; the same in a line of 89; a case of which one character was read
ACROSS = ((PROPANE + b'1F40', 44), (PROPANE * 2 + b'0', 44), (PROPANE, 1))
LAST = PROPANE[:-2] + b'50'
NEAR = 40


def whole(lines):
    return b''.join(line + b'\n' for line in lines)


def text(kept, drawn):
    """`NEAR` lines on each side of a boundary, and one long line between two boundaries."""
    out = whole(kept)
    for number, (line, before) in enumerate(ACROSS, start=1):
        after, ahead = whole(drawn[:NEAR]), whole(drawn[NEAR:2 * NEAR])
        drawn = drawn[2 * NEAR:]
        room = number * READ - before - len(ahead) - len(out) - len(after) - 1
        out += after + (PROPANE * (room // 44 + 1))[:room] + b'\n' + ahead + line + b'\n'
    return out + whole(drawn[:NEAR]) + LAST


def main(words):
    if len(words) != 1:
        print(__doc__)
        return 2
    with open(words[0], 'rb') as file:
        kept = file.read().split(b'\n')[:KEPT]
    with open(words[0], 'wb') as file:
        file.write(text(kept, random_lines((2 * len(ACROSS) + 1) * NEAR, ['65536'])))
    return 0


if __name__ == '__main__':
    sys.exit(main(sys.argv[1:]))
