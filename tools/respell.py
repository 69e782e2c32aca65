#!/usr/bin/env python3
"""Brings the definitions and lemmas of specs/ and proofs/ to snake case, by the table respelled.tsv beside this file.

usage: python3 tools/respell.py     at the top of the repository, once, after the kit's own script

A row is an old name and a new one; a third column says that the kit's script turns the name, but in no page and no edit.
A definition `fromBy01` becomes `from_by01`, a lemma `room-alone` `room_alone`. A dash stays where it joins two names of
definitions, as in `get-put`. A lemma that would get its function's name ends in `_lem`.
Whole words turn, in .antt files, in the clauses and imports of .rt files, in must-fail edits and in the code spans of the
pages. Names in Rust code, exported names, strings, inputs and outputs stay.
"""

import os
import re

HERE = os.path.dirname(os.path.realpath(__file__))
ROWS, IN_PAGES = {}, {}
for line in open(os.path.join(HERE, "respelled.tsv"), encoding="utf-8"):
    old, new, *only = line.rstrip("\n").split("\t")
    IN_PAGES[old] = new
    if not only:
        ROWS[old] = new
# Lemmas whose name, in their own file, would be that of their definition.
BESIDE = {
    "crates/connect/specs/ResponseLaws.antt": "too_short",
    "crates/connect/proofs/response/ConnectResponse/parse_standard/Proof.antt": "too_short",
    "crates/pci/specs/PciLaws.antt": "row_named",
    "crates/pci/proofs/application/is_named_in/Proof.antt": "row_named",
    "crates/wire/specs/PlaceLaws.antt": "stands_at",
}
WORD = re.compile(r"[^\s(){}.;,@\"«»]+")
IN_PROSE = re.compile(r"[A-Za-z0-9_'-]+")
SPAN = re.compile(r"`[^`\n]*`")
# A field of a proof's facts, as `c.code_in`, is a name of the source and never a lemma's.
OF_FACTS = re.compile(r"(?:^|[\s(){},;])[a-z][^\s(){};,]*\.$")
FIELD = re.compile(r"^(\s*)(file|old|new):")


def words(text, rows=ROWS):
    def one(it):
        new = rows.get(it[0], it[0])
        if new.endswith("_lem") and OF_FACTS.search(text[: it.start()]):
            return it[0].replace("-", "_")
        return new

    return WORD.sub(one, text)


def prose(text):
    """A comment: code spans, and the names that no English word looks like."""
    text = SPAN.sub(lambda it: IN_PROSE.sub(lambda w: ROWS.get(w[0], w[0]), it[0]), text)
    return IN_PROSE.sub(lambda w: ROWS[w[0]] if w[0] in ROWS and "-" not in w[0] else w[0], text)


def antt(text):
    out = []
    for line in text.split("\n"):
        at = re.search(r"(?<![^\s(){}.;,@\"«»])--", line)
        if at:
            out.append(words(line[: at.start()]) + prose(line[at.start() :]))
        else:
            out.append(words(line))
    return "\n".join(out)


def rt(text):
    out = []
    for line in text.split("\n"):
        if re.match(r"\s*//", line):
            out.append(prose(line))
        elif re.match(r"\s*(ghost\b|requires\b|ensures\b)", line):
            out.append(words(line))
        else:
            out.append(line)
    return "\n".join(out)


def edit(text):
    return "\n".join(words(line, IN_PAGES) if FIELD.match(line) else prose(line) for line in text.split("\n"))


def page(text):
    return SPAN.sub(lambda it: IN_PROSE.sub(lambda w: IN_PAGES.get(w[0], w[0]), it[0]), text)


def main():
    top = os.path.dirname(HERE)
    for folder, inner, files in os.walk(top):
        inner[:] = sorted(d for d in inner if d not in (".git", "out", "target", "tools"))
        for name in sorted(files):
            path = os.path.join(folder, name)
            turn = {".antt": antt, ".rt": rt, ".edit": edit, ".md": page}.get(os.path.splitext(name)[1])
            if not turn or os.path.islink(path):
                continue
            with open(path, encoding="utf-8", newline="") as f:
                old = f.read()
            new = old
            if os.path.relpath(path, top) in BESIDE:
                lemma = BESIDE[os.path.relpath(path, top)]
                new = "\n".join(words(line, {lemma: lemma + "_lem"}) for line in new.split("\n"))
            new = turn(new)
            if new != old:
                with open(path, "w", encoding="utf-8", newline="") as f:
                    f.write(new)


main()
