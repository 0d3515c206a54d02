#!/usr/bin/env python3
"""Writes stdin and stdout beside itself: challenges with cookies, and the digest of each.

Two other implementations gave what is expected. The digests of captured handshakes are the bytes
that nodes of Erlang/OTP 25 and their peers sent; all others are those of Python's hashlib, which
gives the captured ones too."""
import hashlib
import pathlib
import re
import struct

HERE = pathlib.Path(__file__).resolve().parent
CAPTURES = HERE.parent.parent / "rust" / "tests" / "captures"

# The texts then have 55 and 56, 63 and 64, 119 and 120 bytes, where MD5 takes another block, and others.
LENGTHS = (1, 16, 17, 45, 46, 53, 54, 55, 56, 62, 63, 109, 110, 118, 119, 245, 246, 254, 255)
# Every number of digits, 0 and both ends of the range.
CHALLENGES = [0, 9, 4294967295, 2147483648] + [10 ** n for n in range(1, 10)] + [10 ** n - 1 for n in range(2, 10)]
# Digits alone, some of which run together with a challenge; zero bytes; every byte there is.
DIGITS = (b"0", b"1", b"12", b"123", b"0123456789", b"9" * 54, b"7" * 255)
ZEROS = (b"\0", b"\0\0", b"a\0", b"\0a", b"a\0b", b"monster\0", b"\0" * 55, b"\0" * 255)
OTHERS = (b"monster", b"monster1", b"MONSTER", bytes(range(1, 256)), bytes(range(255)))
# Whose digest is not that of `monster`, by the captures' comments.
COOKIES = {"hs_04_wrong_cookie": b"other", "hs_11_alive": b"wrong"}


def digest(challenge, cookie):
    return hashlib.md5(cookie + str(challenge).encode()).digest()


def pattern(n):
    """Printable bytes, which repeat after 94."""
    return bytes(33 + (n + 31 * i) % 94 for i in range(n))


def made():
    for cookie in (*map(pattern, LENGTHS), *DIGITS, *ZEROS):
        for challenge in (0, 9, 10, 4294967295):
            yield challenge, cookie, digest(challenge, cookie)
    for cookie in OTHERS:
        for challenge in CHALLENGES:
            yield challenge, cookie, digest(challenge, cookie)
    # one text, two readings
    for challenge, cookie in ((345, b"12"), (45, b"123"), (2, b"monster1"), (12, b"monster")):
        yield challenge, cookie, digest(challenge, cookie)


def captured():
    for file in sorted(CAPTURES.glob("*.txt")):
        lines = file.read_text().splitlines()
        for check, frame in zip(lines, lines[1:]):
            found = re.match(r"# MD5 check: md5\('monster' \+\+ '(\d+)'\) = \w+ : (EQUAL|DIFFERS)", check)
            if found:
                challenge = int(found[1])
                cookie = b"monster" if found[2] == "EQUAL" else COOKIES[file.stem]
                sent = bytes.fromhex(frame[2:])[-16:]
                assert sent == digest(challenge, cookie), check
                yield challenge, cookie, sent


def record(case):
    return struct.pack(">H", len(case)) + case


def main():
    cases = [*captured(), *made()]
    records = [record(struct.pack(">I", challenge) + cookie) for challenge, cookie, _ in cases]
    # nothing is printed of a case without a whole challenge, of a cookie of 0 or 256 bytes, and of a case that is cut short
    for silent in (b"", bytes(3), bytes(4), bytes(260)):
        records.insert(1, record(silent))
    records.append(record(b"1234monster")[:-1])
    (HERE / "stdin").write_bytes(b"".join(records))
    lines = (f"{challenge} {cookie.hex()} {sent.hex()}\n" for challenge, cookie, sent in cases)
    (HERE / "stdout").write_text("".join(lines))


main()
