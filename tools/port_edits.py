#!/usr/bin/env python3
"""Turns the must-fail edits below crates/ to today's spelling, after port.py and port_names.py.

usage: tools/port_edits.py [ROOT]

What port.py does to a file of code it leaves undone in an edit: tight projections, `x.now` for `now x`, `x.new` for the
exit of a `&mut`, apostrophes, and the repository's own names that port.py respelled. An edit whose old text then does
not stand once in its file is printed; it is mended by hand.
"""

import os
import re
import sys

HERE = os.path.dirname(os.path.realpath(__file__))
ROOT = os.path.realpath(sys.argv[1] if len(sys.argv) > 1 else os.path.join(HERE, ".."))
CAMEL = re.compile(r"(?<![\w'])[a-z][a-z0-9]*(?:[A-Z][a-z0-9]*)+'*")
DASHED = re.compile(r"(?<![\w'\-])[a-z][a-z0-9]*(?:-[a-z0-9]+)+'*(?![\w'])")
CONSTRUCTED = {"allOf": "all_of", "anyOf": "any_of"}


def snake(name):
    return re.sub(r"(?<=[a-z0-9])([A-Z])", lambda m: "_" + m[1].lower(), name).replace("-", "_")


def turned(text, antt):
    text = text.replace("′", "'")
    text = re.sub(r" \.(?=[a-z0-9])", ".", text)
    text = re.sub(r"\bnow \((\w+)\.entry\)", r"\1.now", text)
    text = re.sub(r"\bnow \((\w+)\.exit\)", r"\1.new", text)
    text = re.sub(r"(?<![\w.])now (\w+)", r"\1.now", text)
    text = re.sub(r"\((\w[\w']*(?:\.\w+)+)\)", r"\1", text)
    text = CAMEL.sub(lambda m: snake(m[0]), text)
    return DASHED.sub(lambda m: snake(m[0]), text) if antt else text


def main():
    for folder, _, files in sorted(os.walk(os.path.join(ROOT, "crates"))):
        if os.path.basename(folder) != "must-fail":
            continue
        for f in sorted(files):
            path = os.path.join(folder, f)
            out, target, ok = [], None, True
            with open(path, encoding="utf-8") as it:
                lines = it.read().split("\n")
            for line in lines:
                if line.startswith("file: "):
                    target = line[6:].strip()
                    with open(os.path.join(folder, "..", target), encoding="utf-8") as it:
                        text = it.read()
                m = re.match(r"(old|new): ", line)
                if m and target:
                    plain = line
                    if m[1] == "new" or text.count(line[5:]) != 1:
                        line = turned(line, target.endswith(".antt"))
                    if m[1] == "old" and text.count(line[5:]) != 1:
                        ok = False
                        print(os.path.relpath(path, ROOT), text.count(line[5:]), line)
                out.append(line)
            new = "\n".join(out)
            if new != "\n".join(lines):
                with open(path, "w", encoding="utf-8") as it:
                    it.write(new)


if __name__ == "__main__":
    main()
