#!/usr/bin/env python3
"""report_input.py: writes to standard output the three large images of crates/report/stdin, of 511, 120 and 60 slots.
The first two are accepted: puts and removes, single and in baskets of two, two void records, broken and empty slots.
The third has two single records of one version and is refused with 7."""
import sys


def line(words, version, mark, is_open=False):
    first = mark ^ 1 if is_open else mark
    return [first] + words + [2 * version + mark]


def slot(s, key, kind, version, number, is_broken=False):
    length = 3 + s % 70 if kind == 1 else 0
    value = bytes((s + i) % 256 for i in range(length)) + bytes(80 - length)
    words = [int.from_bytes(value[i:i + 8], "little") for i in range(0, 80, 8)]
    words = [key, kind + 256 * length + 65536 * number] + words
    return line(words[:6], version, s % 2) + line(words[6:], version, s // 2 % 2, is_broken)


def image(slots, keys, shared):
    words = [slots, 1] + [0] * 14
    version = 1
    for s in range(1, slots + 1):
        key, kind, turn = 7 * s % keys, 2 if s % 7 == 0 else 1, s % 20
        if slots < s + 2:
            words += slot(s, key, kind, version, 3)
        elif turn == 3:
            words += [0] * 16
        elif turn == 4 and s < 120:
            words += slot(s, key, kind, version, 0, True)
        elif turn in (10, 11):
            words += slot(s, key, kind, version, 2)
            version += turn == 11
        else:
            words += slot(s, key, kind, version, 0)
            version += s != shared
    return b"".join(w.to_bytes(8, "little") for w in words)


for slots, keys, shared in ((511, 151, 0), (120, 37, 0), (60, 19, 41)):
    sys.stdout.buffer.write(image(slots, keys, shared))
