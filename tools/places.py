#!/usr/bin/env python3
"""Lists the places of each point of docs/DESIGN-PASS.md in src/: `python3 tools/places.py [POINT]`, a line a place, and the counts.

It goes by text. What it finds and a reader does not call a place is said in docs/DESIGN-PASS.md, with what it does not find.
"""
import collections
import glob
import re
import sys


def functions():
    """(file, line, name, head, body) of each function of src/."""
    for path in sorted(glob.glob("crates/*/src/*.rt")):
        lines = open(path).read().split("\n")
        for i, line in enumerate(lines):
            found = re.match(r"( *)((pub|pub\(crate\)|const|extern \"C\"|final) )*fn (\w+)", line)
            if not found:
                continue
            indent = found.group(1)
            j = i
            while j < len(lines) and lines[j] != indent + "{" and not (lines[j].startswith(indent) and lines[j].rstrip().endswith("{") and j >= i and not lines[j].strip().startswith(("requires", "ensures"))):
                j += 1
            k = j
            while k < len(lines) and lines[k] != indent + "}":
                k += 1
            yield path, i + 1, found.group(4), "\n".join(lines[i : j + 1]), "\n".join(lines[j : k + 1])


def enums():
    """(file, line, name, body) of each enum of src/."""
    for path in sorted(glob.glob("crates/*/src/*.rt")):
        text = open(path).read()
        for found in re.finditer(r"^(pub(\(crate\))? )?enum (\w+) \{\n(.*?)^\}", text, re.S | re.M):
            yield path, text[: found.start()].count("\n") + 1, found.group(3), found.group(4)


def own_options():
    """1: enums of the shape of Option or Result; functions that tell none by a number; numbers for kinds and refusals."""
    for path, line, name, body in enums():
        if re.search(r"^    (Refused|NotMade|Refuse|Bad)\((Refusal|Unreadable|FlagFlaw)\)|^    (Nothing|Missing),", body, re.M):
            yield path, line, "enum " + name
    for path, line, name, head, body in functions():
        if not re.search(r"-> (usize|u8|u32|Record)\b", head):
            continue
        if re.search(r"return (0|10|16|256);|^ +(0|i)$|_ => 0,|Record \{ start: 0", body, re.M):
            yield path, line, "none as a number: " + name
        elif re.search(r"\b(kind_of|kind_in|result_by|result_of)\b", name):
            yield path, line, "a number for a kind: " + name
        elif re.match(r"fn number\(self|pub fn number\(self", head.strip()):
            yield path, line, "a number for a kind: " + name
    for path in sorted(glob.glob("crates/*/src/*.rt")):
        for i, text in enumerate(open(path).read().split("\n")):
            if re.match(r"(pub(\(crate\))? )?const (NONE|ONE|LEAST|SEVERAL): u8", text):
                yield path, i + 1, "a number for a kind: " + text
            if re.match(r"    pub kind: u8,", text) and "Tally" in open(path).read():
                yield path, i + 1, "a flag with a value: Tally"


def shape(body):
    """A body with its numbers, names of calls and types told apart no more."""
    text = re.sub(r"//[^\n]*", "", body)
    text = re.sub(r"\b(0x[0-9A-Fa-f_]+|\d+)\b", "N", text)
    text = re.sub(r"\b(u8|u16|u32|u64|usize)\b", "T", text)
    text = re.sub(r"\b([a-z_]+?)(8|16|32|64)?\(", "f(", text)
    text = re.sub(r"\b[A-Z][A-Z_]+\b", "C", text)
    text = re.sub(r"\b(Request|Answer|Making|Check|Listing|Why|Numbers|\w+Reply|\w+Numbers)::\w+\b", "E", text)
    text = re.sub(r"\b[a-z_]\w*\b", "x", text)
    return re.sub(r"\s+", " ", text)


def twins():
    """2: functions of one crate or two whose bodies are alike but for types, numbers, constants and names."""
    groups = collections.defaultdict(list)
    for path, line, name, head, body in functions():
        if body.count("\n") >= 2:
            groups[shape(body)].append((path, line, name))
    for key, members in sorted(groups.items(), key=lambda g: g[1][0]):
        if len(members) > 1:
            for path, line, name in members:
                yield path, line, "alike (%d): %s" % (len(members), name)
    known = r"^(be(8|16|32|64)|put(8|16|32|64)|get(8|16|32|64)|num(16|32|64)|two|three|four|round[1-4]|creation_field|short_field|alive2_x_resp|alive2_resp|name_header|challenge_header|status_header|reply_header|put_name|put_extra|held|find_connection|find_free|same16|show_all|print_all)$"
    alike = {(p, l) for g in groups.values() if len(g) > 1 for p, l, _ in g}
    for path, line, name, head, body in functions():
        if re.match(known, name) and (path, line) not in alike:
            yield path, line, "of a family: " + name


def hand_loops():
    """3: loops that count by hand (while), and `for` over an index alone."""
    for path in sorted(glob.glob("crates/*/src/*.rt")):
        for i, text in enumerate(open(path).read().split("\n")):
            if re.match(r" *while ", text):
                yield path, i + 1, text.strip()
            elif re.match(r" *for \w+ in \w+\.\.", text):
                yield path, i + 1, text.strip()


def by_hand():
    """4: equality, order, conversion and printing written by hand; records built field by field from another."""
    names = r"^(number|numbers|number_of|making_number|making_why|numbers_of|freed_number|stage_of|order|compare|same_bytes|same_throughout|count_byte|put_bytes|starts_with|has|copy|count|bit|missing|lowest|why|flag|slot_number|refusal|signed|word|bytes|wide|join|rotate|sent|free_slot|refused|no_fields|unrefused|within|digit)$"
    for path, line, name, head, body in functions():
        if re.match(names, name):
            yield path, line, name
    for path, line, name, body in enums():
        if name == "Order":
            yield path, line, "enum Order"
    for path in sorted(glob.glob("crates/*/src/*.rt")):
        for i, text in enumerate(open(path).read().split("\n")):
            if "std::num::wrapping_add" in text:
                yield path, i + 1, text.strip()


def facts():
    """5: a fact in the contracts of three or more functions of one crate; parameters that travel together through three or more."""
    seen = collections.defaultdict(list)
    groups = collections.defaultdict(list)
    for path, line, name, head, body in functions():
        crate = path.split("/")[1]
        for clause in re.findall(r"requires(?: \w+)? \{ (.*) \}", head):
            for part in re.split(r" × ", clause):
                part = part.strip()
                while part.startswith("(") and part.endswith(")"):
                    part = part[1:-1].strip()
                part = re.sub(r"\b\w+\.(now|old)\b", "_", part)
                seen[crate, part].append((path, line, name))
        inside = re.search(r"\((.*)\)", re.sub(r"\n", " ", head.split("requires")[0].split("ensures")[0]))
        if inside and 'extern "C"' not in head:
            words = [re.sub(r"\s+", " ", w.strip()) for w in inside.group(1).split(",") if ":" in w]
            for a in range(len(words) - 1):
                groups[crate, words[a], words[a + 1]].append((path, line, name))
    for (crate, part), places in sorted(seen.items()):
        if len(places) >= 3:
            yield crate, len(places), "fact: %s: %s" % (part, ", ".join(p[2] for p in places))
    for (crate, a, b), places in sorted(groups.items()):
        if len(places) >= 3:
            yield crate, len(places), "parameters: %s, %s: %s" % (a, b, ", ".join(p[2] for p in places))


def beside():
    """6: a buffer with its length beside it, parallel arrays, searches by hand, offsets into a buffer handed on."""
    pattern = r"(kinds|few): |\bheld: usize|bytes: \[u8; (255|128)\],|^pub(\(crate\))? fn find|^fn find|let mut kinds|let mut few|let mut space"
    for path in sorted(glob.glob("crates/*/src/*.rt")):
        for i, text in enumerate(open(path).read().split("\n")):
            if re.search(pattern, text) and not text.strip().startswith("//"):
                yield path, i + 1, text.strip()


def switches():
    """7: a switch on which step to run, told by a number."""
    for path, line, name, head, body in functions():
        if re.search(r"if i < (17|33|49)|\bk == [0-3]\b|== (NONE|ONE|LEAST)\b", body):
            yield path, line, name


def answers():
    """8: answers and lemmas in proofs/, a crate a line."""
    for crate in sorted(glob.glob("crates/*")):
        files = glob.glob(crate + "/proofs/**/*.antt", recursive=True)
        text = "\n".join(open(f).read() for f in files)
        given = len(re.findall(r"^pub [\w'-]+ : goal\.", text, re.M))
        lemmas = len(re.findall(r"^(?:pub |abbrev )*[\w'-]+ : (?!goal\.)", text, re.M))
        if given + lemmas:
            yield crate, given + lemmas, "%d answers, %d lemmas" % (given, lemmas)


POINTS = [own_options, twins, hand_loops, by_hand, facts, beside, switches, answers]

for number, point in enumerate(POINTS, 1):
    if len(sys.argv) > 1 and sys.argv[1] != str(number):
        continue
    found = list(point())
    print("point", point.__doc__)
    for path, line, what in found:
        print("    %s:%s %s" % (path, line, what))
    print("point %d: %d" % (number, len(found)))
