#!/usr/bin/env python3
"""Sets the definitions and lemmas of two checkouts side by side, word by word, brackets, imports and comments aside.

usage: python3 tools/same_words.py OLD [NEW]

OLD is a checkout in the older spelling, NEW (here, if left out) one in today's. Printed are the words that changed by more than camel case to
snake case, with what stands for each, and the places where one has more words than the other: what is not printed differs in spelling alone.
"""

import collections
import difflib
import os
import re
import sys


def words(path):
    out = []
    with open(path, encoding="utf-8") as f:
        for line in f:
            if re.match(r"\s*((pub |unfoldable )*use |--)", line):
                continue
            line = re.split(r"(?:^|\s)--(?:\s|$)", line)[0]
            out += re.findall(r"\.(?=[\w«])|[^\s(){};,\.]+|[{};,]", line)
    return out


def snake(word):
    word = re.sub(r"([a-z0-9])([A-Z])", r"\1_\2", word)
    word = re.sub(r"([A-Z]+)([A-Z][a-z])", r"\1_\2", word)
    return word.replace("-", "_").replace("′", "'").lower()


def believed(root):
    """The files of specs/, and the lemma files of proofs/."""
    for folder, dirs, names in os.walk(os.path.join(root, "crates")):
        dirs[:] = sorted(d for d in dirs if d not in ("out", "must-fail", "src", "data"))
        for name in sorted(names):
            path = os.path.relpath(os.path.join(folder, name), root)
            if re.fullmatch(r"crates/\w+/(specs|proofs)/\w+\.antt", path):
                yield path


def main(old, new="."):
    turned, places = collections.defaultdict(collections.Counter), []
    olds, news = set(believed(old)), set(believed(new))
    places += [f"gone: {path}" for path in sorted(olds - news)] + [f"new: {path}" for path in sorted(news - olds)]
    for path in sorted(olds & news):
        a, b = words(os.path.join(old, path)), words(os.path.join(new, path))
        for tag, i, j, k, l in difflib.SequenceMatcher(None, a, b, autojunk=False).get_opcodes():
            if tag != "equal" and j - i == l - k:
                for one, other in zip(a[i:j], b[k:l]):
                    turned[one][other] += 1
            elif tag != "equal":
                places.append(f"{path}: {' '.join(a[max(0, i - 3):j + 3])}  =>  {' '.join(b[max(0, k - 3):l + 3])}")
    for one, others in sorted(turned.items()):
        if list(others) not in ([snake(one)], [one.replace("_", "◌")]):
            print(one, "=>", ", ".join(f"{other} ({count})" for other, count in others.items()))
    print(f"{len(olds & news)} files, {len(turned)} words respelled")
    print("\n".join(places))


main(*sys.argv[1:])
