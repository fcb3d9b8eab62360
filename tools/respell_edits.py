#!/usr/bin/env python3
"""Brings the must-fail edits, crates/*/must-fail/*.edit, to the spelling that the edited files have now.

usage: python3 tools/respell_edits.py [--look] NAMES [FOLDER]

NAMES is a file of lines 'old -> new', as `tools/respell.py --look` prints them. Run it at the top of a checkout (or on FOLDER). Names, imports,
operators and projections are respelled in each 'old:' and 'new:' text, and each 'old:' must then stand once in its file as the pairs before
it left that. An edit for which that is not so stays as it was, and is printed: it is to be mended by hand. An edit that is in today's spelling
stays as it is. --look writes nothing.
"""

import glob
import os
import re
import sys

LETTER = r"[\w'′-]"
PRELUDE = "Rattle.std.specs.Prelude"
# Modules of the older library, and where their names stand now.
MODULES = {
    "mathlib.Core.Bool": PRELUDE,
    "mathlib.Core.List": PRELUDE,
    "Prim.Native.Nat": PRELUDE,
    "lib.Dec": PRELUDE,
    "lib.IntN": PRELUDE,
    "lib.ListN": PRELUDE,
    "lib.Signed": "Rattle.std.specs.Int.Signed",
}
LIBRARY = {"getD": "get_or", "natAbs": "nat_abs", "leZ": "le_z", "ltZ": "lt_z", "Bool·beq": "beq"}


def item(text, end):
    """Where the argument that ends at `end` begins: a word, a bracket, or these joined by dots; `end` if none ends there."""
    at = end
    while at:
        if text[at - 1] in ")]}":
            depth = 0
            while at:
                at -= 1
                depth += (text[at] in ")]}") - (text[at] in "([{")
                if not depth:
                    break
            else:
                return end
        elif re.match(r"[A-Za-z0-9_'.]", text[at - 1]):
            at -= 1
        else:
            break
    return at


def tight(text):
    """`r .row` is `r.row`, and `f x .row` is `(f x).row`, with no bracket round it where it stands alone."""
    while True:
        m = re.search(r" \.(\w+)", text)
        if not m:
            return text
        start = item(text, m.start())
        several = False
        while start and text[start - 1] == " ":
            before = item(text, start - 1)
            word = text[before : start - 1]
            if not word or word.endswith(".") or word in ("in", "let", "when"):
                break
            start, several = before, True
        head = text[start : m.start()]
        left, right = text[:start], text[m.end() :]
        if left.endswith("(") and right.startswith(")"):
            left, right = left[:-1], right[1:]
        text = left + ("(%s)" % head if several else head) + "." + m.group(1) + right


def respelled(text, pattern, names):
    text = re.sub(r"Rattle·(\w+)·specs\.specs\.", r"Rattle.\1.specs.", text)
    text = re.sub(r"Rattle·(\w+)\.specs\.", r"Rattle.\1.specs.", text)
    for old, new in MODULES.items():
        text = re.sub(r"(?<![\w.])%s\." % re.escape(old), new + ".", text)
    text = re.sub(r"(?<=[{ ])_([^\s_]+)_(?=[,}])", r"◌\1◌", text)
    text = pattern.sub(lambda m: names[m.group(0)], text).replace("′", "'")
    # port.py turned these, so that NAMES lacks them
    text = re.sub(r"(?<![\w.])[a-z0-9]+[A-Z]\w*", lambda m: re.sub(r"(?<=[a-z0-9])[A-Z]", r"_\g<0>", m.group(0)).lower(), text)
    return tight(text)


def import_of(old, new, text):
    """An import of more names, as a pair that writes them before those that the file imports from there; none if they are there already."""
    a, b = (re.fullmatch(r"use (\S+)\.\{(.*)\}", side) for side in (old, new))
    if not (a and b and a.group(1) == b.group(1)):
        return old, new
    head = "use %s.{" % a.group(1)
    here = re.search(r"^%s(.*)\}$" % re.escape(head), text, re.M)
    if not here:
        return old, new
    had = here.group(1).split(", ")
    more = [name for name in b.group(2).split(", ") if name not in had and name not in a.group(2).split(", ")]
    return (head + had[0], head + ", ".join(more + had[:1])) if more else (None, None)


def main(words):
    look = "--look" in words
    words = [w for w in words if w != "--look"]
    root = words[1] if len(words) > 1 else "."
    names = dict(LIBRARY)
    with open(words[0], encoding="utf-8") as f:
        names.update(line.rstrip("\n").split(" -> ") for line in f if " -> " in line)
    one_of = "|".join(re.escape(n) for n in sorted(names, key=len, reverse=True))
    pattern = re.compile(r"(?<!%s)(?:%s)(?!%s)" % (LETTER, one_of, LETTER))
    turned = left = 0
    for path in sorted(glob.glob(os.path.join(root, "crates/*/must-fail/*.edit"))):
        with open(path, encoding="utf-8") as f:
            edit = f.read()
        texts, out, missed = {}, [], []
        for file, old, new in re.findall(r"^file: (.*)$|^old: (.*)\nnew: (.*)$", edit, re.M):
            if file:
                at = file
                with open(os.path.join(os.path.dirname(os.path.dirname(path)), at), encoding="utf-8") as f:
                    texts.setdefault(at, f.read())
                out.append("file: " + at)
                continue
            if at.endswith(".antt"):
                old, new = respelled(old, pattern, names), respelled(new, pattern, names)
            if texts[at].count(old) != 1:
                old, new = import_of(old, new, texts[at])
            if old is None:
                continue
            if texts[at].count(old) != 1:
                missed.append((texts[at].count(old), at, old))
            texts[at] = texts[at].replace(old, new)
            out += ["old: " + old, "new: " + new]
        for found in missed:
            print("%s: stands %d times in %s: %s" % (os.path.relpath(path, root), *found))
        left += bool(missed)
        if not missed and out != edit.rstrip("\n").split("\n"):
            turned += 1
            if not look:
                with open(path, "w", encoding="utf-8") as f:
                    f.write("\n".join(out) + "\n")
    print("%d edits turned, %d to mend by hand" % (turned, left))


main(sys.argv[1:])
