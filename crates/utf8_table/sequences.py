#!/usr/bin/env python3
"""Writes stdin and stdout beside itself: byte sequences, and whether each is a node's name.

The sequences are taken from the table of RFC 3629, section 4; the answers are not: they are those of
Python's own decoder of UTF-8, with the name's other rules."""
import os

TAIL = (0x80, 0xBF)
TABLE = [
    [(0x00, 0x7F)],
    [(0xC2, 0xDF), TAIL],
    [(0xE0, 0xE0), (0xA0, 0xBF), TAIL],
    [(0xE1, 0xEC), TAIL, TAIL],
    [(0xED, 0xED), (0x80, 0x9F), TAIL],
    [(0xEE, 0xEF), TAIL, TAIL],
    [(0xF0, 0xF0), (0x90, 0xBF), TAIL, TAIL],
    [(0xF1, 0xF3), TAIL, TAIL, TAIL],
    [(0xF4, 0xF4), (0x80, 0x8F), TAIL, TAIL],
]


def is_node_name(b):
    try:
        b.decode("utf-8")
    except UnicodeDecodeError:
        return False
    return 1 <= len(b) <= 255 and 0 not in b and 0x40 not in b


def sequences():
    for row in TABLE:
        for end in (0, 1):
            whole = [r[end] for r in row]
            # each position at its first and last byte, one below and one above
            for i, (lo, hi) in enumerate(row):
                for b in (lo - 1, lo, hi, hi + 1):
                    if 0 <= b <= 255:
                        yield bytes(whole[:i] + [b] + whole[i + 1 :])
            # cut short, at the end and before a plain byte; one tail too many
            for n in range(1, len(whole)):
                yield bytes(whole[:n])
                yield bytes(whole[:n] + [0x61])
                yield bytes([0x61] + whole[:n])
            yield bytes(whole + [0x80])
            yield bytes([0x61] + whole + [0x61])
    # a lone tail, and bytes that no sequence has
    for b in (0x80, 0xBF, 0xC0, 0xC1, 0xF5, 0xF8, 0xFC, 0xFE, 0xFF):
        yield bytes([b])
        yield bytes([b, 0x80])
        yield bytes([b, 0x80, 0x80, 0x80])
    # overlong: "/" and zero in two, three and four bytes; the greatest of each length too long
    for text in ("c0af", "e080af", "f08080af", "c080", "e08080", "f0808080", "c1bf", "e09fbf", "f08fbfbf"):
        yield bytes.fromhex(text)
    # surrogates, also as the pair of RFC 3629, section 10; and past 10FFFF
    for text in ("eda080", "edafbf", "edb080", "edbfbf", "eda18cedbeb4", "f4908080", "f5808080", "f7bfbfbf"):
        yield bytes.fromhex(text)
    # RFC 3629, section 7
    for text in ("41e289a2ce912e", "ed959ceab5adec96b4", "e697a5e69cace8aa9e", "efbbbff0a38eb4"):
        yield bytes.fromhex(text)
    # the name's other rules: the length, the zero byte, "@"
    yield b""
    for b in (0x01, 0x3F, 0x40, 0x41, 0x00):
        yield bytes([b])
        yield bytes([b]) + b"ab"
        yield b"a" + bytes([b]) + b"b"
        yield b"ab" + bytes([b])
        yield "\u00e4".encode() + bytes([b])
    for n in (254, 255, 256, 257, 511, 512):
        yield b"a" * n
        yield b"a" * (n - 2) + "\u00e4".encode()
        yield b"a" * (n - 3) + "\u65e5".encode()
        yield b"a" * (n - 4) + "\U000233b4".encode()
    for b in (0x00, 0x40, 0x80, 0xC3):
        yield b"a" * 254 + bytes([b])
        yield bytes([b]) + b"a" * 254
    # other bytes at every place of a plain name, which is passed eight bytes and more at a time
    for n in (7, 8, 9, 15, 16, 17, 24, 33, 48):
        for other in (b"\x00", b"@", b"\x80", "\u00e4".encode()):
            for at in range(n - len(other) + 1):
                yield b"a" * at + other + b"a" * (n - at - len(other))


here = os.path.dirname(os.path.abspath(__file__))
every = list(dict.fromkeys(sequences()))
with open(os.path.join(here, "stdin"), "wb") as f:
    f.writelines(len(b).to_bytes(2, "big") + b for b in every)
with open(os.path.join(here, "stdout"), "w") as f:
    f.writelines(b.hex() + (" yes\n" if is_node_name(b) else " no\n") for b in every)
