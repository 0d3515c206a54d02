#!/usr/bin/env python3
"""Writes stdin and stdout of the crate beside it: an input for the script program, and what it has to print.

The mapper below is written from 01's text alone (The mapper, Numbers that a refused caller sees, The script program).
Run it in this folder: python3 cases.py"""


class Mapper:
    def __init__(self, port, first):
        self.port, self.next, self.places = port, first, [None] * 64

    def request(self, conn, frame):
        """The refusal's number and no bytes, or 0 and the reply."""
        if len(frame) < 3 or len(frame) != 2 + int.from_bytes(frame[:2], "big"):
            return 3, b""
        body = frame[2:]
        tag = body[0]
        if tag in (100, 107, 115):
            return 8, b""
        if tag not in (120, 122, 110):
            return 4, b""
        return {120: self.alive2, 122: self.port_please2, 110: self.names}[tag](conn, body)

    def alive2(self, conn, body):
        def number(at, n):
            return int.from_bytes(body[at:at + n], "big")

        nlen = number(9, 2)
        elen = number(11 + nlen, 2)
        if len(body) < 13 + nlen or len(body) != 13 + nlen + elen or elen > 128:
            return 5, b""
        name = body[11:11 + nlen]
        if not is_name(name):
            return 6, b""
        highest, lowest = number(5, 2), number(7, 2)
        if not (lowest <= highest and lowest <= 6 and highest >= 5):
            return 7, b""
        taken = [p for p in self.places if p]
        result, creation = 1, 0
        if len(taken) < 64 and all(p["name"] != name and p["conn"] != conn for p in taken):
            result, creation = 0, self.next
            self.places[self.places.index(None)] = dict(
                conn=conn, port=number(1, 2), kind=body[3], protocol=body[4], highest=highest, lowest=lowest, name=name, extra=body[13 + nlen:])
            self.next = 1 if self.next == 4294967295 else self.next + 1
        if highest >= 6:
            return 0, bytes([118, result]) + creation.to_bytes(4, "big")
        short = 1 + creation % 3 if result == 0 else 0
        return 0, bytes([121, result]) + short.to_bytes(2, "big")

    def port_please2(self, conn, body):
        name = body[1:]
        if not is_name(name):
            return 6, b""
        for p in self.places:
            if p and p["name"] == name:
                fields = [(p["port"], 2), (p["kind"], 1), (p["protocol"], 1), (p["highest"], 2), (p["lowest"], 2), (len(name), 2)]
                return 0, bytes([119, 0]) + b"".join(v.to_bytes(n, "big") for v, n in fields) + name + len(p["extra"]).to_bytes(2, "big") + p["extra"]
        return 0, bytes([119, 1])

    def names(self, conn, body):
        if len(body) != 1:
            return 5, b""
        lines = [b"name %s at port %d\n" % (p["name"], p["port"]) for p in self.places if p]
        return 0, self.port.to_bytes(4, "big") + b"".join(lines)


def is_name(name):
    try:
        name.decode("utf-8")
    except UnicodeDecodeError:
        return False
    return 1 <= len(name) <= 255 and b"\0" not in name and b"@" not in name


def frame(body):
    return len(body).to_bytes(2, "big") + body


def alive2(port, name, extra=b"", highest=6, lowest=5, kind=77, protocol=0, nlen=None, elen=None, more=b""):
    nlen = len(name) if nlen is None else nlen
    elen = len(extra) if elen is None else elen
    fields = [(120, 1), (port, 2), (kind, 1), (protocol, 1), (highest, 2), (lowest, 2), (nlen, 2)]
    return frame(b"".join(v.to_bytes(n, "big") for v, n in fields) + name + elen.to_bytes(2, "big") + extra + more)


def long_name(i, n=255):
    """A name of n bytes; every third of them holds characters of two, three and four bytes."""
    head = b"node%d-" % i + ("é€\U0001f600".encode() if i % 3 == 0 else b"")
    return head + b"x" * (n - len(head))


def cases():
    # not a frame: nothing, a byte, no body, a length too great and too small
    for text in ("", "00", "0000", "0002 6e", "0001 6e6e"):
        yield 9, bytes.fromhex(text)
    # whole case of 01: no names yet
    yield 9, frame(b"\x6e")
    # tags that are not served, and those that are withheld
    for tag in (0, 109, 119, 121, 255, 100, 107, 115):
        yield 4294967295, frame(bytes([tag]))
    # lengths
    yield 1, frame(b"\x6e\x00")
    yield 1, frame(b"\x78")
    yield 1, alive2(10000, b"a", more=b"\0")
    yield 1, alive2(10000, b"a", nlen=2)
    yield 1, alive2(10000, b"a", elen=1)
    yield 1, alive2(10000, b"a", b"e" * 129)
    # names
    for name in (b"", b"\0", b"a@b", b"\x80", b"\xc0\x80", b"\xed\xa0\x80", b"\xf4\x90\x80\x80", long_name(0, 256)):
        yield 1, alive2(10000, name)
    yield 1, frame(b"\x7a")
    yield 1, frame(b"\x7aa@b")
    yield 1, frame(b"\x7a" + long_name(0, 256))
    # versions, and 6 before 7
    for highest, lowest in ((4, 4), (5, 6), (7, 7), (65535, 65535), (0, 0)):
        yield 1, alive2(10000, b"a", highest=highest, lowest=lowest)
    yield 1, alive2(10000, b"a@b", highest=4, lowest=5)
    # a name that nobody has
    yield 1, frame(b"\x7aride")
    # registrations: both forms of the reply, the longest name with the longest extra, a line of 800 characters
    yield 0, alive2(10000, long_name(0), b"e" * 128, highest=6, lowest=5)
    yield 0, frame(b"\x7a" + long_name(0))
    yield 5, alive2(65535, long_name(0), highest=6)
    yield 5, alive2(65535, long_name(0), highest=5)
    yield 0, alive2(65535, long_name(1), highest=6)
    yield 0, alive2(65535, long_name(1), highest=5)
    yield 1, frame(b"\x7a" + long_name(1))
    for i in range(1, 4):
        yield i, alive2(65535 - i, long_name(i), highest=5, lowest=i, kind=i, protocol=255)
        yield i, frame(b"\x7a" + long_name(i))
    yield 7, frame(b"\x6e")
    for i in range(4, 64):
        yield 4294967295 - i, alive2(10000 + i, long_name(i), bytes([i]), highest=5 + i % 2 * 60000, lowest=0)
    # all 64 are taken
    yield 64, alive2(10064, long_name(64), highest=6)
    yield 64, alive2(10064, long_name(64), highest=5)
    yield 64, frame(b"\x6e")
    yield 64, frame(b"\x7a" + long_name(63))
    yield 64, frame(b"\x7a" + long_name(64))


def main():
    mapper, given, printed = Mapper(4369, 1), "", ""
    for conn, lent in cases():
        given += "op=req\nconn=%d\nhex=%s\n" % (conn, lent.hex())
        result, reply = mapper.request(conn, lent)
        printed += "result=%d\nhex=%s\n" % (result, reply.hex())
    # a line out of order ends the run: nothing behind it is answered
    given += "op=req\nhex=00016e\nop=req\nconn=9\nhex=00016e"
    printed += "result=19\nhex=\n"
    assert max(len(l) for l in given.split("\n")) == 800 and max(len(l) for l in printed.split("\n")) == 4 + 2 * 17604
    open("stdin", "w").write(given)
    open("stdout", "w").write(printed)


main()
