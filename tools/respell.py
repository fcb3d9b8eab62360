#!/usr/bin/env python3
"""Respells the repository's own definitions and lemmas: words in snake case, facts and types in camel case.

usage: python3 tools/respell.py [--look] [FOLDER]

Run once, after /opt/rattle/port/port.py, at the top of a checkout (or on FOLDER). It takes the names that specs/*.antt and proofs/*.antt
define, and respells them in every .antt file and in the clauses of every .rt file. Functions, types and fields of src/, strings and data keep
their names. --look only prints the names, and those that would fall together or meet another name.
"""

import os
import re
import sys

# A lemma about two names keeps the dash between them.
KEPT = {
    "flatten-append", "abs-add", "abs-mul", "abs-plus", "abs-quot", "abs-sub", "neg-abs", "mag-abs", "sfits-abs", "u32-drop", "u32-little",
    "little-u32", "-ʰ◌", "◌-ᵍ◌",
}
# Facts that were spelled as words, and words that would fall together with another name.
GIVEN = {
    "boundedPeriod": "BoundedPeriod",
    "bad-at": "BadAt",
    "roundedTo0": "rounded_to_0",
    "half-hour": "begins_half_hour",
    "accepted-opening": "accepted_opening_lem",
    "counted-records": "counted_records_lem",
    "direction-ok": "direction_ok_lem",
    "is-accepted": "is_accepted_lem",
    "latest-half-hour": "latest_half_hour_lem",
    "next-number": "next_number_lem",
    "number-met": "number_met_lem",
    "record-length": "record_length_lem",
    "refused-opening": "refused_opening_lem",
    "row-shown": "row_shown_lem",
    "step-at": "step_at_lem",
    "suspension-ends": "suspension_ends_lem",
    "zero-bytes": "zero_bytes_lem",
    "in-table": "in_table_lem",
    "survivors-length": "survivors_length_lem",
}
LETTER = r"[\w'′-]"


def snake(name):
    if name in GIVEN:
        return GIVEN[name]
    if name in KEPT:
        return name
    out = re.sub(r"([a-z0-9])([A-Z])", r"\1_\2", name)
    out = re.sub(r"([A-Z]+)([A-Z][a-z])", r"\1_\2", out)
    return out.replace("-", "_").replace("′", "'").lower()


def files(root, ending):
    for folder, dirs, names in os.walk(os.path.join(root, "crates")):
        dirs[:] = sorted(d for d in dirs if d not in ("out", ".git"))
        for name in sorted(names):
            if name.endswith(ending):
                yield os.path.join(folder, name)


def own(path):
    """Whether a file is one of specs/, or a lemma file of proofs/, and not the proof of a function."""
    parts = path.split(os.sep)
    return "specs" in parts or (len(parts) >= 2 and parts[-2] == "proofs")


SIGNATURE = re.compile(r"^\s*(?:(?:abbrev|unfoldable|pub) )*([^\s:(){}.,;=∷]+) :(?: |$)(.*)$", re.M)
TYPE = re.compile(r"^\s*(?:pub )?(?:record|data) (?:pub )?(\S+)", re.M)


def names(root):
    words, types = {}, set()
    for path in files(root, ".antt"):
        with open(path, encoding="utf-8") as f:
            text = "\n".join(line.split("--")[0] if line.lstrip().startswith("--") else line for line in f.read().split("\n"))
        types |= set(TYPE.findall(text))
        for name, rest in SIGNATURE.findall(text):
            if own(path) or re.search(r"^[a-z]+[A-Z]", name):
                words.setdefault(name, []).append((path, rest))
    return words, types


def turned(root):
    words, types = names(root)
    out = {}
    for name, places in words.items():
        if name in types or name in KEPT:
            continue
        fact = any(re.search(r"→ Type|^Type", rest) for _, rest in places)
        if fact and name[0].isupper():
            continue
        if name[0].isupper() and len(name) > 1 and not re.match(r"(P\d+|N\d+)(-|$)", name):
            continue
        if re.fullmatch(r"[A-Z]|[A-Z]+\d", name) and not re.match(r"P\d", name):
            continue
        if not re.search(r"[A-Z-]|′", name):
            continue
        if re.search(r"[◌⟦⟧]", name):
            continue
        new = snake(name)
        if new != name:
            out[name] = new
    return out


def clauses(text):
    """The places of a .rt file that are clauses or imports of clauses: pairs of start and end."""
    for m in re.finditer(r"^\s*ghost use [^;]*;", text, re.M):
        yield m.start(), m.end()
    for m in re.finditer(r"\b(requires|ensures|invariant|ghost)\b\*?(?: \w+:?)? \{", text):
        depth, i = 1, m.end()
        while depth and i < len(text):
            depth += {"{": 1, "}": -1}.get(text[i], 0)
            i += 1
        yield m.end(), i


def respelled(text, pattern, to):
    """In a comment only names that are no plain words, as `rowAnswer`."""
    out = []
    for line in text.split("\n"):
        at = re.search(r"(^|\s)--(\s|$)", line)
        code, comment = (line[: at.start()], line[at.start() :]) if at else (line, "")
        code = pattern.sub(lambda m: to[m.group(0)], code)
        comment = pattern.sub(lambda m: to[m.group(0)] if re.search(r"[a-z][A-Z]", m.group(0)) else m.group(0), comment)
        out.append(code + comment)
    return "\n".join(out)


def main(words):
    look = "--look" in words
    words = [w for w in words if w != "--look"]
    root = words[0] if words else "."
    to = turned(root)
    pattern = re.compile(r"(?<!%s)(?:%s)(?!%s)" % (LETTER, "|".join(re.escape(n) for n in sorted(to, key=len, reverse=True)), LETTER))
    if look:
        together = {}
        for old, new in sorted(to.items()):
            together.setdefault(new, []).append(old)
            print(old, "->", new)
        used = {}
        for path in list(files(root, ".antt")) + list(files(root, ".rt")):
            with open(path, encoding="utf-8") as f:
                for token in set(re.findall(r"%s+" % LETTER, f.read())):
                    used.setdefault(token, []).append(path)
        for new, olds in sorted(together.items()):
            if len(olds) > 1:
                print("together:", new, olds)
            if new in used:
                print("meets:", new, olds, [os.path.relpath(p, root) for p in used[new]][:6])
        return
    for path in files(root, ".antt"):
        with open(path, encoding="utf-8") as f:
            text = f.read()
        new = respelled(text, pattern, to)
        if new != text:
            with open(path, "w", encoding="utf-8") as f:
                f.write(new)
    for path in files(root, ".rt"):
        with open(path, encoding="utf-8") as f:
            text = f.read()
        out, at = [], 0
        for start, end in sorted(clauses(text)):
            if start < at:
                continue
            out += [text[at:start], respelled(text[start:end], pattern, to)]
            at = end
        new = "".join(out) + text[at:]
        if new != text:
            with open(path, "w", encoding="utf-8") as f:
                f.write(new)


main(sys.argv[1:])
