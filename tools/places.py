#!/usr/bin/env python3
"""Lists the places in src/ that a pass over the design looks at, point by point.

usage: tools/places.py [FOLDER] [POINT ..]      FOLDER is a checkout, this one by default

1  own enums; structs of an outcome with a value beside; kinds and refusals as numbers
2  functions of one crate whose text is the same but for types, numbers, constants and the names of what they call
3  loops that count by hand
4  comparison, conversion, copying and printing by hand
5  facts that stand in the requires of three or more functions of a crate; flags that choose between two halves
6  buffers with a place beside them
7  a match or an if on which step to run
8  proof files of single functions, and their lines
"""
import collections
import glob
import os
import re
import sys

arguments = sys.argv[1:]
folder = '.'
if arguments and os.path.isdir(arguments[0]):
    folder = arguments.pop(0)
points = arguments or list('12345678')
sources = sorted(glob.glob(os.path.join(folder, 'crates/*/src/*.rt')))


def crate_of(path):
    return os.path.relpath(path, folder).split('/')[1]


def lines_with(pattern):
    found = []
    for path in sources:
        for number, line in enumerate(open(path), 1):
            if not line.lstrip().startswith('//') and re.search(pattern, line):
                found.append(f'{crate_of(path)}:{number}: {line.strip()}')
    return found


def functions():
    """Each function: crate, name, signature with clauses, body."""
    for path in sources:
        text = open(path).read()
        for match in re.finditer(r'^( *)(?:pub )?fn (\w+)', text, re.M):
            start = match.start()
            end = re.compile(r'^%s\}$' % match.group(1), re.M).search(text, start)
            if not end:
                continue
            whole = text[start:end.end()]
            cut = re.search(r'\n *\{\n', whole) or re.search(r'\{\n', whole)
            yield crate_of(path), match.group(2), whole[:cut.start()], whole[cut.end():]


def normal(text):
    text = re.sub(r'//.*', '', text)
    text = re.sub(r'\b\d[\d_]*\b', '0', text)
    text = re.sub(r"b'[^']*'", '0', text)
    text = re.sub(r'\b[A-Z][A-Z0-9_]+\b', 'K', text)
    text = re.sub(r'\b[A-Z]\w*\b', 'T', text)
    text = re.sub(r'\b(\w+::)*\w+\(', 'f(', text)
    return ' '.join(text.split())


def twins():
    groups = collections.defaultdict(list)
    for crate, name, head, body in functions():
        parameters = re.search(r'\((.*?)\)(.*?)(?=\n|$)', head, re.S)
        shape = normal(re.sub(r'\s*(requires|ensures).*', '', head, flags=re.S).replace(name, 'name'))
        groups[(crate, shape, normal(body))].append(name)
    return [f'{key[0]}: ' + ', '.join(names) for key, names in sorted(groups.items()) if len(names) > 1]


def facts():
    counts = collections.Counter()
    for crate, name, head, body in functions():
        atoms = set()
        for clause in re.findall(r'requires(?: \w+)? \{(.*)\}', head):
            for atom in re.split(r' × ', clause.replace('(', ' ').replace(')', ' ')):
                atoms.add(' '.join(atom.split()))
        for atom in atoms:
            counts[crate, atom] += 1
    return [f'{crate}: {atom}: {n} functions' for (crate, atom), n in sorted(counts.items()) if n >= 3]


def point(which):
    if which == '1':
        return (lines_with(r'\benum \w+ \{') + lines_with(r'\boutcome: [A-Z]')
                + lines_with(r'\b\w*[Rr]efused\w*(::Refused)?\(\d+')
                + lines_with(r'\b(status|notice|number|kind|which|from|to): u(8|32|size)\b')
                + lines_with(r'^const (UNBOUND|VIOLATED|[A-Z]{2,3}1|WRITE|SURVIVORS): '))
    if which == '2':
        return twins()
    if which == '3':
        return lines_with(r'\bwhile ') + lines_with(r'\bfor \w+ in [\w.() /+-]*\.\.')
    if which == '4':
        return (lines_with(r'\bfn (\w+::)?(plus|minus|times|negated|same|below|at_most|at_least|is_zero|is_within|is_negative|lower|higher|magnitude)\(')
                + lines_with(r'\bfn (byte|four_bytes|u32_at|int_at|cents_at|hundredths_at|put_byte|put_bytes|put_u32|put_\w+_before|mark)\(')
                + lines_with(r'\bfn (print_(number|bool|cents|hundredths|grains|outcome)|digits|one_or_two|two|signed)\b')
                + lines_with(r'\bfn (no_residue|no_row|fresh_direction)\('))
    if which == '5':
        return facts() + lines_with(r'\b(pre_dispatch|present|before): bool\b')
    if which == '6':
        return lines_with(r'&mut \[u8\], (at|end): usize') + lines_with(r'^    out: &mut \[u8\],$')
    if which == '7':
        return lines_with(r'\breader: Reader\b') + lines_with(r'match (word\(|reader|kind)') + lines_with(r'\bif (pre_dispatch|kind == )')
    files = sorted(glob.glob(os.path.join(folder, 'crates/*/proofs/**/*.antt'), recursive=True))
    single = [f for f in files if os.path.basename(f) in ('Answers.antt', 'Invariants.antt', 'Proof.antt')]
    lemmas = [f for f in files if f not in single]
    return [f'{len(single)} files of single functions, {sum(len(open(f).readlines()) for f in single)} lines',
            f'{len(lemmas)} files of lemmas, {sum(len(open(f).readlines()) for f in lemmas)} lines']


for which in points:
    places = point(which)
    print(f'== {which}: {len(places)}')
    for place in places:
        print(place)
