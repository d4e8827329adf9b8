#!/usr/bin/env python3
"""Spells the repository's own names of antt in snake case, by the table port_names.tsv beside this file.

usage: tools/port_names.py [ROOT]

Run once, after port.py of the toolchain, in the repository or in ROOT. A row of the table is: the old name, a tab, the
new name, and, where the row holds in some files alone, a tab and those files' beginnings, joined by commas. In .antt
files the code, code spans of comments and bare words without a dash turn; in .rt files and in must-fail edits the same
words; in pages (.md) only code spans and code blocks, but for the names of samples. Strings stay, and so do the pages
of samples/, whose plans have words of their own. A name that a library declares stays in each file that imports it
from there.
"""

import os
import re
import sys

HERE = os.path.dirname(os.path.realpath(__file__))
ROOT = os.path.realpath(sys.argv[1] if len(sys.argv) > 1 else os.path.join(HERE, ".."))
WORD = re.compile(r"(?<![\w'\-])[a-z](?:[\w']|-(?=\w))*")
STRING = re.compile(r'"(?:[^"\\\n]|\\.)*"')
SPAN = re.compile(r"(`+)[^`\n]+?\1")
FENCE = re.compile(r"(?ms)^( *```).*?^\1 *$")
LIBRARY = re.compile(r"\buse ((?!Rattle\.)[\w.]+|Rattle\.(?:std|core)\.[\w.]+)\.\{([^}]*)\}")
COMMENT = {".antt": "--", ".rt": "//"}


def rows():
    table = []
    with open(os.path.join(HERE, "port_names.tsv"), encoding="utf-8") as f:
        for line in f:
            cells = line.rstrip("\n").split("\t")
            table.append((cells[0], cells[1], cells[2].split(",") if len(cells) > 2 else None))
    return table


def table_of(path, table, text):
    """The rows that hold in the file. A row for some files stands over a row for all."""
    names = {old: new for old, new, files in table if files is None}
    names.update({old: new for old, new, files in table if files and any(path.startswith(f) for f in files)})
    for _, items in LIBRARY.findall(text):
        for item in items.split(","):
            names.pop(item.split(" as ")[0].strip(), None)
    return names


def turn(text, names):
    return WORD.sub(lambda m: names.get(m[0], m[0]), text)


def turn_code(text, names):
    out, at = [], 0
    for m in STRING.finditer(text):
        out += [turn(text[at : m.start()], names), m[0]]
        at = m.end()
    return "".join(out) + turn(text[at:], names)


def turn_comment(text, names):
    plain = {a: b for a, b in names.items() if "-" not in a}
    out, at = [], 0
    for m in SPAN.finditer(text):
        out += [turn(text[at : m.start()], plain), turn(m[0], names)]
        at = m.end()
    return "".join(out) + turn(text[at:], plain)


def turn_file(text, mark, names):
    lines = []
    for line in text.split("\n"):
        m = re.search(r"(?:^|(?<=[\s(){},;]))" + re.escape(mark), line)
        cut = m.start() if m else len(line)
        lines.append(turn_code(line[:cut], names) + turn_comment(line[cut:], names))
    return "\n".join(lines)


def turn_page(text, names):
    samples = {f.split(".")[0] for f in os.listdir(os.path.join(ROOT, "samples"))}
    names = {old: new for old, new in names.items() if old not in samples}
    out, at = [], 0
    for m in re.finditer(FENCE.pattern + "|" + SPAN.pattern.replace(r"\1", r"\2"), text, re.M | re.S):
        out += [text[at : m.start()], turn(m[0], names)]
        at = m.end()
    return "".join(out) + text[at:]


def main():
    table = rows()
    for folder, dirs, files in os.walk(ROOT):
        dirs[:] = [d for d in dirs if d not in (".git", "out", "target", "tools", "reference", "samples")]
        for f in files:
            full = os.path.join(folder, f)
            path = os.path.relpath(full, ROOT)
            kind = os.path.splitext(f)[1]
            if kind not in (".antt", ".rt", ".edit", ".md"):
                continue
            with open(full, encoding="utf-8") as it:
                text = it.read()
            names = table_of(path, table, text)
            if kind in COMMENT:
                new = turn_file(text, COMMENT[kind], names)
            elif kind == ".edit":
                new = turn_file(text, "#", names)
            else:
                new = turn_page(text, names)
            if new != text:
                with open(full, "w", encoding="utf-8") as it:
                    it.write(new)


if __name__ == "__main__":
    main()
