#!/usr/bin/env python3
"""Brings this repository's own definitions and lemmas to snake case, by the table beside it (old name, tab, new name).

usage: python3 tools/respell.py, at the top, once, on what port.py left

It turns whole names in the crates' .rt, .antt and .edit files. In a comment a name with a dash may be plain English, so there only one behind a
dot is turned. Text between quotes in a .rt file is what a program reads or writes: it stays.
"""
import os
import re

HERE = os.path.dirname(os.path.realpath(__file__))
TABLE = dict(l.rstrip("\n").split("\t") for l in open(os.path.join(HERE, "respell.tsv"), encoding="utf-8"))
NAME = re.compile(r"(?<![\w'-])[a-z][\w'-]*")
COMMENT = {".antt": re.compile(r"(^|\s)--(\s|$)"), ".rt": re.compile(r"//"), ".edit": None}


def turned(text, prose):
    def one(m):
        name = m.group(0)
        if prose and "-" in name and text[m.start() - 1:m.start()] != ".":
            return name
        return TABLE.get(name, name)
    return NAME.sub(one, text)


def line(text, ending):
    mark = COMMENT[ending] and COMMENT[ending].search(text)
    code, prose = (text[:mark.start()], text[mark.start():]) if mark else (text, "")
    if ending == ".rt":
        code = "".join(p if p.startswith('"') else turned(p, False) for p in re.split(r'("(?:[^"\\]|\\.)*")', code))
    else:
        code = turned(code, False)
    return code + turned(prose, True)


def main():
    for folder, dirs, files in os.walk("crates"):
        dirs[:] = sorted(d for d in dirs if d != "out")
        for f in sorted(files):
            ending = os.path.splitext(f)[1]
            if ending in COMMENT:
                path = os.path.join(folder, f)
                old = open(path, encoding="utf-8").read()
                new = "".join(line(l, ending) for l in old.splitlines(keepends=True))
                if new != old:
                    open(path, "w", encoding="utf-8").write(new)


main()
