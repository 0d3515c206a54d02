#!/usr/bin/env python3
"""Writes stdin and stdout beside itself: calls to two endpoints, and what each is to tell and write.

The answers are those of a model that is written here from the paper's sentences, with Python's own MD5:
nothing in it comes from the library."""
import hashlib
import os
import struct

FREE, NAME, ALIVE, REPLY, STATUS, CHALLENGE, ACK, CONNECTED = range(8)
ACCEPTED, STARTED = (NAME, ALIVE, REPLY), (STATUS, CHALLENGE, ACK)
REQUIRED = (2, 8, 24, 25, 34)
GOOD = sum(1 << bit for bit in REQUIRED)


# Every set of missing bits, with bit 33 and without; all other bits set; and the base's three bits.
FLAGS = [GOOD & ~sum(1 << bit for at, bit in enumerate(REQUIRED) if lost >> at & 1) | asks << 33 for asks in (0, 1) for lost in range(32)]
FLAGS += [0xFFFFFFFDFFFFFFFF, 0xFFFFFFFFFFFFFFFF, 0xFFFFFFFDFFFFFFFF ^ 1 << 24, 0xFFFFFFFC03000104, 0x1000104]


class Refused(Exception):
    """A refusal's number, whether the slot named is freed, and what is told of flags."""

    def __init__(self, number, frees=False, flaw=(0, 0)):
        self.number, self.frees, self.flaw = number, frees, flaw

    def __str__(self):
        return "refused %d %d %d" % (self.number, *self.flaw)


def full_name(n):
    return 3 <= len(n) <= 255 and n.count(b"@") == 1 and n[0] != 64 and n[-1] != 64


def test_flags(f, frees=False):
    """Missing bits are told first, by how many and the lowest; then bit 33."""
    missing = [bit for bit in REQUIRED if not f >> bit & 1]
    if missing:
        raise Refused(9, frees, (len(missing), min(missing)))
    if f >> 33 & 1:
        raise Refused(9, frees, (0, 33))


def digest(challenge, cookie):
    return hashlib.md5(cookie + str(challenge).encode()).digest()


def mistaken(challenge, cookie):
    """Digests of texts that could be taken for the right one: the challenge first, a leading zero, either alone."""
    text = str(challenge).encode()
    return [hashlib.md5(wrong).digest() for wrong in (text + cookie, cookie + b"0" + text, text, cookie)]


def framed(body):
    return struct.pack(">H", len(body)) + body


def name_message(e):
    return framed(b"N" + struct.pack(">QIH", e.flags, e.creation, len(e.name)) + e.name)


def challenge_message(e, challenge):
    return framed(b"N" + struct.pack(">QIIH", e.flags, challenge, e.creation, len(e.name)) + e.name)


def status_message(word):
    return framed(b"s" + word)


class Slot:
    def __init__(self, stage=FREE, name=b"", flags=0, creation=0, challenge=0):
        self.stage, self.name, self.flags, self.creation, self.challenge = stage, name, flags, creation, challenge


class Endpoint:
    def __init__(self, name=b"", flags=0, creation=0):
        self.name, self.flags, self.creation = name, flags, creation
        self.slots = [Slot() for _ in range(32)]

    def lowest(self, test):
        return next((i for i, s in enumerate(self.slots) if test(s)), None)

    def peer(self, stages, name):
        return self.lowest(lambda s: s.stage in stages and s.name == name)

    def start(self, name, room):
        if room < 300:
            raise Refused(1)
        if not full_name(name):
            raise Refused(6)
        if name == self.name or self.lowest(lambda s: s.stage != FREE and s.name == name) is not None:
            raise Refused(12)
        at = self.lowest(lambda s: s.stage == FREE)
        if at is None:
            raise Refused(13)
        self.slots[at] = Slot(STATUS, name)
        return at, name_message(self)

    def arrive(self):
        at = self.lowest(lambda s: s.stage == FREE)
        if at is None:
            raise Refused(13)
        self.slots[at] = Slot(NAME)
        return at

    def close(self, at):
        if at >= 32 or self.slots[at].stage == FREE:
            raise Refused(2)
        self.slots[at] = Slot()

    def message(self, at, frame, challenge, own, standard, room):
        """Answers the slot's next record, the other slot to be freed, and the bytes written."""
        if room < 300:
            raise Refused(1)
        if at >= 32 or self.slots[at].stage == FREE:
            raise Refused(2)
        slot = self.slots[at]
        if slot.stage == CONNECTED:
            raise Refused(10)
        cookie = own if own else standard
        if slot.stage in (CHALLENGE, REPLY, ACK) and not 1 <= len(cookie) <= 255:
            raise Refused(11)
        if len(frame) < 3 or len(frame) != 2 + struct.unpack(">H", frame[:2])[0]:
            raise Refused(3, True)
        body = frame[2:]
        tag = {NAME: b"N", ALIVE: b"s", REPLY: b"r", STATUS: b"s", CHALLENGE: b"N", ACK: b"a"}[slot.stage]
        if body[:1] != tag:
            raise Refused(4, True)
        rule = {NAME: self.on_name, ALIVE: self.on_alive, REPLY: self.on_reply, STATUS: self.on_status,
                CHALLENGE: self.on_challenge, ACK: self.on_ack}[slot.stage]
        return rule(at, slot, body, challenge, cookie)

    def hello(self, body, head, expected):
        """The flags and the name that stand behind a head of so many bytes; what follows the name is ignored."""
        if len(body) < head + 2:
            raise Refused(5, True)
        n = struct.unpack(">H", body[head:head + 2])[0]
        if len(body) < head + 2 + n:
            raise Refused(5, True)
        name = body[head + 2:head + 2 + n]
        if not full_name(name) or expected is not None and name != expected:
            raise Refused(6, True)
        flags = struct.unpack(">Q", body[1:9])[0]
        test_flags(flags, True)
        return flags, name

    def on_name(self, at, slot, body, challenge, cookie):
        flags, name = self.hello(body, 13, None)
        creation = struct.unpack(">I", body[9:13])[0]
        if name == self.name:
            return Slot(), None, status_message(b"not_allowed")
        if self.peer(ACCEPTED, name) is not None:
            return Slot(), None, status_message(b"nok")
        mine = self.peer(STARTED, name)
        if mine is not None:
            if name > self.name:
                return (Slot(REPLY, name, flags, creation, challenge), mine,
                        status_message(b"ok_simultaneous") + challenge_message(self, challenge))
            return Slot(), None, status_message(b"nok")
        if self.peer((CONNECTED,), name) is not None:
            return Slot(ALIVE, name, flags, creation), None, status_message(b"alive")
        return (Slot(REPLY, name, flags, creation, challenge), None, status_message(b"ok") + challenge_message(self, challenge))

    def on_alive(self, at, slot, body, challenge, cookie):
        if body[1:] == b"true":
            return Slot(REPLY, slot.name, slot.flags, slot.creation, challenge), None, challenge_message(self, challenge)
        if body[1:] == b"false":
            return Slot(), None, b""
        raise Refused(14, True)

    def on_reply(self, at, slot, body, challenge, cookie):
        if len(body) != 21:
            raise Refused(5, True)
        if body[5:] != digest(slot.challenge, cookie):
            raise Refused(15, True)
        theirs = struct.unpack(">I", body[1:5])[0]
        old = self.peer((CONNECTED,), slot.name)
        return (Slot(CONNECTED, slot.name, slot.flags, slot.creation, slot.challenge), old,
                framed(b"a" + digest(theirs, cookie)))

    def on_status(self, at, slot, body, challenge, cookie):
        after = Slot(CHALLENGE, slot.name, slot.flags, slot.creation, slot.challenge)
        if body[1:] in (b"ok", b"ok_simultaneous"):
            return after, None, b""
        if body[1:] == b"alive":
            return after, None, status_message(b"true")
        raise Refused(16 if body[1:] in (b"nok", b"not_allowed") else 14, True)

    def on_challenge(self, at, slot, body, challenge, cookie):
        flags, _ = self.hello(body, 17, slot.name)
        theirs, creation = struct.unpack(">II", body[9:17])
        return (Slot(ACK, slot.name, flags, creation, challenge), None,
                framed(b"r" + struct.pack(">I", challenge) + digest(theirs, cookie)))

    def on_ack(self, at, slot, body, challenge, cookie):
        if len(body) != 17:
            raise Refused(5, True)
        if body[1:] != digest(slot.challenge, cookie):
            raise Refused(15, True)
        return Slot(CONNECTED, slot.name, slot.flags, slot.creation, slot.challenge), None, b""


class Script:
    """The calls so far, what they are to print, and the two endpoints as the model has them."""

    def __init__(self):
        self.calls, self.lines, self.ends = [], [], [Endpoint(), Endpoint()]

    def put(self, op, e, rest, line):
        body = op + bytes([e]) + rest
        self.calls.append(struct.pack(">H", len(body)) + body)
        self.lines.append(line)

    def new(self, e, name, flags=GOOD, creation=7):
        try:
            if not full_name(name):
                raise Refused(6)
            test_flags(flags)
            line, self.ends[e] = "made", Endpoint(name, flags, creation)
        except Refused as r:
            line = str(r)
        self.put(b"n", e, struct.pack(">QI", flags, creation) + name, line)

    def start(self, e, name, room=300):
        written = b""
        try:
            at, written = self.ends[e].start(name, room)
            line = "begun %d %d" % (at, len(written))
        except Refused as r:
            line = str(r)
        self.put(b"s", e, struct.pack(">H", room) + name, "%s %s" % (line, output(written)))
        return written

    def arrive(self, e):
        try:
            line = "arrived %d" % self.ends[e].arrive()
        except Refused as r:
            line = str(r)
        self.put(b"a", e, b"", line)

    def close(self, e, at):
        try:
            self.ends[e].close(at)
            line = "closed"
        except Refused as r:
            line = str(r)
        self.put(b"c", e, struct.pack(">H", at), line)

    def message(self, e, at, frame, challenge=5, own=b"", standard=b"monster", room=300, look=True):
        end, written = self.ends[e], b""
        try:
            slot, other, written = end.message(at, frame, challenge, own, standard, room)
            if other is not None:
                end.slots[other] = Slot()
            end.slots[at] = slot
            line = "answered %d %s %d" % (slot.stage, "-" if other is None else other, len(written))
        except Refused as r:
            if r.frees:
                end.slots[at] = Slot()
            line = str(r)
        self.put(b"m", e, struct.pack(">HIHHH", at, challenge, room, len(own), len(standard)) + own + standard + frame,
                 "%s %s" % (line, output(written)))
        if look:
            self.show(e, at)
        return written

    def show(self, e, at):
        s = self.ends[e].slots[at] if at < 32 else Slot()
        self.put(b"d", e, struct.pack(">H", at), "slot %d %s %d %d %d" % (s.stage, s.name.hex(), s.flags, s.creation, s.challenge))


def output(written):
    """What is written, that nothing behind it is changed, and how many bytes are not as they were lent."""
    return "%s 0 %d" % (written.hex(), sum(b != 170 for b in written))


def first(written):
    return written[:2 + struct.unpack(">H", written[:2])[0]]


def rest(written):
    return written[len(first(written)):]


def handshake(s, a, b, cookies=(b"monster", b"monster"), slots=(0, 0)):
    """Endpoint a starts towards b; every message is carried."""
    name = s.start(a, s.ends[b].name)
    s.arrive(b)
    w = s.message(b, slots[1], name, 12345, standard=cookies[1])
    s.message(a, slots[0], first(w), standard=cookies[0])
    r = s.message(a, slots[0], rest(w), 54321, standard=cookies[0])
    k = s.message(b, slots[1], r, standard=cookies[1])
    if k:
        s.message(a, slots[0], k, standard=cookies[0])


def name_body(name, flags=GOOD, creation=9):
    return b"N" + struct.pack(">QIH", flags, creation, len(name)) + name


def challenge_body(name, flags=GOOD, challenge=6, creation=9):
    return b"N" + struct.pack(">QIIH", flags, challenge, creation, len(name)) + name


def main():
    s = Script()
    # making
    s.new(0, b"@ab")
    s.new(0, b"ab")
    s.new(0, b"a@" + b"b" * 254)
    for flags in FLAGS:
        s.new(0, b"a@b", flags)
    s.new(0, b"a@" + b"b" * 253)
    # one that is not made leaves what is there
    s.arrive(0)
    s.new(0, b"ab")
    s.show(0, 0)
    s.new(0, b"a@c", 0)
    s.show(0, 0)
    # a whole handshake, with one cookie, and with two
    s.new(0, b"a@b")
    s.new(1, b"a@bc", creation=4)
    handshake(s, 0, 1)
    s.new(0, b"a@b")
    s.new(1, b"a@bc")
    handshake(s, 0, 1, (b"monster", b"dragon"))
    # the same in slots other than the first, the peer's own cookie used where it has bytes
    s.new(0, b"a@b", GOOD | 1 << 63, 0xFFFFFFFF)
    s.new(1, b"a@bc")
    s.start(0, b"x@y")
    s.arrive(1)
    s.arrive(1)
    handshake(s, 0, 1, slots=(1, 2))
    s.message(0, 1, status_message(b"ok"))
    # start: 1, 6, 12, 13
    s.new(0, b"m@x")
    s.start(0, b"p@x", 299)
    s.start(0, b"px")
    s.start(0, b"m@x")
    s.start(0, b"p@x", 600)
    s.start(0, b"p@x")
    for i in range(31):
        s.arrive(0)
    s.arrive(0)
    s.start(0, b"q@x")
    s.close(0, 31)
    s.start(0, b"q@x")
    # close: 2
    s.close(0, 32)
    s.close(0, 31)
    s.close(0, 31)
    s.close(0, 65535)
    # message: 1 before 2 before 10 before 11 before 3
    s.new(0, b"m@x")
    s.message(0, 40, b"", room=299)
    s.message(0, 32, b"")
    s.message(0, 3, b"")
    # each stage in slot 2, behind a slot of another peer and a free one
    def stage(st, name=b"p@x"):
        s.new(0, b"m@x")
        s.start(0, b"z@z")
        if st in (STATUS, CHALLENGE, ACK, CONNECTED):
            s.arrive(0)
            s.start(0, name)
            s.close(0, 1)
            if st != STATUS:
                s.message(0, 2, status_message(b"ok"), look=False)
            if st in (ACK, CONNECTED):
                s.message(0, 2, framed(challenge_body(name)), 77, look=False)
            if st == CONNECTED:
                s.message(0, 2, framed(b"a" + digest(77, b"monster")), look=False)
        else:
            s.arrive(0)
            s.arrive(0)
            s.close(0, 1)
            if st == REPLY:
                s.message(0, 2, framed(name_body(name)), 88, look=False)
    ok = {NAME: name_body(b"p@x"), STATUS: b"sok", CHALLENGE: challenge_body(b"p@x"), ACK: b"a" + digest(77, b"monster"),
          REPLY: b"r" + struct.pack(">I", 6) + digest(88, b"monster")}
    stage(CONNECTED)
    s.message(0, 2, framed(b"sok"))
    for st in (REPLY, CHALLENGE, ACK):
        stage(st)
        s.message(0, 2, b"", standard=b"")
        s.message(0, 2, b"", standard=b"k" * 256)
        s.message(0, 2, b"", own=b"k" * 256)
        s.message(0, 2, framed(ok[st]), own=b"", standard=b"monster")
    for st in (REPLY, ACK):
        stage(st)
        s.message(0, 2, framed(ok[st]), own=b"dragon")
        stage(st)
        s.message(0, 2, framed(ok[st]), own=b"monster", standard=b"")
    for st in (NAME, STATUS):
        stage(st)
        s.message(0, 2, framed(ok[st]), standard=b"")
    for st in ok:
        for bad in (b"", b"\0", b"\0\0", b"\0\2s", b"\0\1ss", framed(b"")):
            stage(st)
            s.message(0, 2, bad)
        stage(st)
        s.message(0, 2, framed(b"x" + ok[st][1:]))
        stage(st)
        s.message(0, 2, framed(ok[st][:1]))
        stage(st)
        s.message(0, 2, framed(ok[st][:-1]))
        stage(st)
        s.message(0, 2, framed(ok[st] + b"\0"))
    for st, make in ((NAME, name_body), (CHALLENGE, challenge_body)):
        for name, flags in ((b"px", GOOD), (b"p@", GOOD), (b"px", 0), (b"q@x", GOOD), *((b"p@x", flags) for flags in FLAGS)):
            stage(st)
            s.message(0, 2, framed(make(name, flags)))
        stage(st)
        s.message(0, 2, framed(make(b"p@" + b"x" * 254)))
    # awaits name: the first rule that fits
    stage(NAME)
    s.message(0, 2, framed(name_body(b"m@x")))
    stage(REPLY)
    s.arrive(0)
    s.message(0, 1, framed(name_body(b"p@x")))
    s.show(0, 2)
    # two starts at once, with our attempt in each of its stages; whichever goes on comes to be connected
    for peer in (b"p@x", b"a@x"):
        for st in STARTED:
            stage(st, peer)
            s.arrive(0)
            w = s.message(0, 1, framed(name_body(peer)), 99)
            s.show(0, 2)
            if rest(w):
                s.message(0, 2, framed(b"a" + digest(77, b"monster")))
                s.message(0, 1, framed(b"r" + struct.pack(">I", 6) + digest(99, b"monster")))
            else:
                if st == STATUS:
                    s.message(0, 2, status_message(b"ok"), look=False)
                if st != ACK:
                    s.message(0, 2, framed(challenge_body(peer)), 77, look=False)
                s.message(0, 2, framed(b"a" + digest(77, b"monster")))
            s.show(0, 0)
    # and between two endpoints: both names cross
    s.new(0, b"a@b")
    s.new(1, b"a@bc")
    names = (s.start(0, b"a@bc"), s.start(1, b"a@b"))
    s.arrive(0)
    s.arrive(1)
    refused = s.message(1, 1, names[0], 11)
    w = s.message(0, 1, names[1], 12)
    s.show(0, 0)
    s.message(0, 0, refused)
    s.message(1, 0, first(w))
    r = s.message(1, 0, rest(w), 13)
    s.message(1, 0, s.message(0, 1, r))
    stage(CONNECTED)
    s.arrive(0)
    s.message(0, 1, framed(name_body(b"p@x")))
    s.arrive(0)
    s.message(0, 3, framed(name_body(b"p@x")))
    # awaits alive answer: `true` keeps the old connection until the digest, and a wrong digest keeps it for good
    s.message(0, 1, status_message(b"true"), 99)
    s.show(0, 2)
    s.message(0, 1, framed(b"r" + struct.pack(">I", 6) + digest(77, b"monster")))
    s.show(0, 2)
    s.arrive(0)
    s.message(0, 1, framed(name_body(b"p@x")), look=False)
    s.message(0, 1, status_message(b"true"), 99, look=False)
    s.message(0, 1, framed(b"r" + struct.pack(">I", 6) + digest(99, b"monster")))
    s.show(0, 2)
    for word in (b"false", b"ok", b"true ", b"tru", b""):
        stage(CONNECTED)
        s.arrive(0)
        s.message(0, 1, framed(name_body(b"p@x")), look=False)
        s.message(0, 1, status_message(word))
        s.show(0, 2)
    # awaits reply: not the challenge that the peer sent, not that of another slot, not another text
    for proof in [digest(challenge, b"monster") for challenge in (6, 88, 77, 0)] + mistaken(88, b"monster"):
        stage(REPLY)
        s.message(0, 2, framed(b"r" + struct.pack(">I", 6) + proof))
    # awaits status
    for word in (b"ok", b"ok_simultaneous", b"alive", b"nok", b"not_allowed", b"true", b"false", b"OK", b"ok_", b""):
        stage(STATUS)
        s.message(0, 2, status_message(word))
    # awaits acknowledgement
    for proof in [digest(challenge, b"monster") for challenge in (77, 6, 0)] + mistaken(77, b"monster"):
        stage(ACK)
        s.message(0, 2, framed(b"a" + proof))
    # the largest output: a name of 255 bytes, ok_simultaneous and the challenge
    long = b"m@" + b"x" * 253
    s.new(0, long)
    s.start(0, b"p@x")
    s.arrive(0)
    s.message(0, 1, framed(name_body(b"p@x", creation=0xFFFFFFFF)), 0xFFFFFFFF)
    # a call that is cut short: what is not there is 0 or empty; and one that is not whole is not made
    s.new(0, b"a@b")
    s.start(0, b"p@x")
    s.show(0, 0)
    for op, line in ((b"d", s.lines[-1]), (b"s", "refused 1 0 0 " + output(b"")), (b"m", "refused 1 0 0 " + output(b"")), (b"n", "refused 6 0 0"), (b"c", "closed"), (b"d\0\0", "slot 0  0 0 0")):
        s.calls.append(struct.pack(">H", len(op)) + op)
        s.lines.append(line)
    s.calls.append(b"\0\3d\0")
    here = os.path.dirname(os.path.abspath(__file__))
    with open(os.path.join(here, "stdin"), "wb") as f:
        f.write(b"".join(s.calls))
    with open(os.path.join(here, "stdout"), "w") as f:
        f.write("".join(x + "\n" for x in s.lines))


main()
