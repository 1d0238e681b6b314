#!/usr/bin/env python3
"""Brings the repository's own definitions and lemmas to today's spelling: snake case, a dash only between two names, facts in camel case.

usage: tools/respell.py [FOLDER]      at the top of the repository (or of FOLDER), once, right after the toolchain's own script

`respell.tsv` beside this file has each old name and its new one; `ported.tsv` has those of our names that the toolchain's script turns, which it does
not in edits and pages. Names are replaced as whole words: in .antt files everywhere but in comments, where
only words between backticks are names; in .rt files in `ghost use` lines and clauses; in must-fail edits in their 'old:' and 'new:' lines; in pages
between backticks. Functions of src/, exported names and strings keep theirs.
"""

import os
import re
import sys

HERE = os.path.dirname(os.path.realpath(__file__))
WORD = re.compile(r"[^\s(){}\[\],;.:\"`◌|]+")
TICKS = re.compile(r"`[^`\n]+`")

# Facts, which are spelled as types. Other crates have other things of these names.
FACTS = {"entries": {"inside": "IsInside", "placed": "IsPlaced"}, "catalogue": {"inside": "IsInside"}}


def table(name):
    with open(os.path.join(HERE, name), encoding="utf-8") as f:
        return dict(line.rstrip("\n").split("\t") for line in f)


def words(text, names):
    return WORD.sub(lambda m: names.get(m.group(0), m.group(0)), text)


def ticks(text, names):
    return TICKS.sub(lambda m: words(m.group(0), names), text)


def antt(line, names):
    code, mark, said = line, "", ""
    at = 0 if line.lstrip().startswith("--") else line.find(" -- ")
    if at >= 0:
        code, said = line[:at], line[at:]
    return words(code, names) + ticks(said, names)


def rattle(text, names):
    """`ghost use` items, and clauses: from their word to the brace that shuts them."""
    out, at = [], 0
    for m in re.finditer(r"\bghost use [^;]*;|//[^\n]*|\b(?:requires|ensures)(?: \w+)? \{", text):
        if m.start() < at:
            continue
        out.append(text[at:m.start()])
        end = m.end()
        if m.group(0).startswith("//"):
            out.append(ticks(m.group(0), names))
        else:
            if m.group(0).endswith("{"):
                depth = 1
                while depth:
                    depth += {"{": 1, "}": -1}.get(text[end], 0)
                    end += 1
            out.append(words(text[m.start():end], names))
        at = end
    return "".join(out) + text[at:]


def tight(line):
    """A projection is written tight."""
    return re.sub(r"(?<=[\w')]) \.(?=[a-z0-9])", ".", line)


def turned(path, text, names):
    if path.endswith(".antt"):
        return "".join(antt(l, names) for l in text.splitlines(keepends=True))
    if path.endswith(".rt"):
        return rattle(text, names)
    if path.endswith(".edit"):
        return "".join(tight(words(l, names)) if l.startswith(("old:", "new:")) else l for l in text.splitlines(keepends=True))
    return ticks(text, names)


def main(argv):
    root = argv[0] if argv else "."
    names, ported = table("respell.tsv"), table("ported.tsv")
    for folder, dirs, files in os.walk(root):
        dirs[:] = [d for d in dirs if d not in (".git", "out", "target", "tools")]
        for f in files:
            if not f.endswith((".antt", ".rt", ".edit", ".md")):
                continue
            path = os.path.join(folder, f)
            parts = os.path.relpath(path, root).split(os.sep)
            mine = names | FACTS.get(parts[1], {}) if parts[0] == "crates" else names
            if f.endswith((".edit", ".md")):
                mine = ported | mine
            with open(path, encoding="utf-8") as it:
                old = it.read()
            new = turned(path, old, mine)
            if new != old:
                with open(path, "w", encoding="utf-8") as it:
                    it.write(new)


if __name__ == "__main__":
    main(sys.argv[1:])
