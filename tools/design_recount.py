#!/usr/bin/env python3
"""Counts the places of docs/DESIGN-PASS.md another way than design_places.py: by tokens and clauses, not by patterns of a line.

  tools/design_recount.py [--list] [ROOT]

Comments, strings and characters are blanked first. Twins are functions whose bodies are the same once numbers, types and local names are
numbered in the order in which they come; a repeated fact is a `requires` whose text stands at three functions or more of a crate.
"""
import collections
import glob
import os
import re
import sys

args = [a for a in sys.argv[1:] if a != '--list']
root = args[0] if args else '.'
listing = '--list' in sys.argv

TOKEN = re.compile(r"'?[A-Za-z_]\w*|\d[\w]*(?:\.\d+)?|\.\.=?|->|=>|::|[-+*/%&|^=!<>]=|&&|\|\||<<|>>|\S")
KEYWORDS = set('if else match for in while loop let mut ref return break continue fn pub self Self true false as move'.split())
TYPES = set('u8 i8 u16 i16 u32 i32 u64 i64 usize isize bool'.split())


def blank(text):
    """The text without comments, strings and characters."""
    def gone(m):
        return re.sub(r'[^\n]', ' ', m.group(0))
    return re.sub(r'//[^\n]*|b?"(?:\\.|[^"\\])*"|b?\'(?:\\[^\n]|[^\'\\\n])\'', gone, text)


def closing(text, i):
    deep = 0
    for k in range(i, len(text)):
        deep += (text[k] in '{([') - (text[k] in '})]')
        if deep == 0:
            return k + 1
    return len(text)


def functions(text):
    """Each function: its name, its parameters, its requires, its body, the place of its name."""
    for m in re.finditer(r'\bfn\s+(\w+)', text):
        i = text.find('(', m.end())
        end = closing(text, i)
        params = text[i + 1:end - 1]
        requires, k = [], end
        while k < len(text) and text[k] not in '{;':
            c = re.match(r'(requires|ensures)\*?\s*(\w+)?\s*\{', text[k:])
            if c and not text[k - 1].isalnum():
                stop = closing(text, k + c.end() - 1)
                if c.group(1) == 'requires':
                    requires.append(' '.join(text[k + c.end():stop - 1].split()))
                k = stop
            else:
                k += 1
        body = text[k:closing(text, k)] if k < len(text) and text[k] == '{' else ''
        yield m.group(1), params, requires, body, m.start()


def shape(body):
    """The body with numbers, types and names numbered as they come; None where it is too short to tell."""
    seen, out = {}, []
    for t in TOKEN.findall(body):
        if t in KEYWORDS or not re.match(r"[A-Za-z_\d]", t):
            out.append(t)
        elif t in TYPES:
            out.append('TYPE')
        elif t[0].isdigit():
            out.append('0')
        else:
            out.append('n%d' % seen.setdefault(t, len(seen)))
    return ' '.join(out) if len(out) >= 24 else None


counts = collections.Counter()
shapes = collections.defaultdict(list)
facts = collections.defaultdict(list)


def found(point, place, what):
    counts[point] += 1
    if listing:
        print(point, place, ' '.join(what.split())[:110])


for path in sorted(glob.glob(os.path.join(root, 'crates/*/src/*.rt'))):
    text = blank(open(path, encoding='utf-8').read())
    name = os.path.relpath(path, root)
    crate = name.split('/')[1]

    def at(i):
        return f'{name}:{text.count(chr(10), 0, i) + 1}'

    for m in re.finditer(r'\benum\s+\w+', text):
        found('1a', at(m.start()), m.group(0))
    for m in re.finditer(r'\bconst\s+(\w+)\s*:\s*(?:usize|u8|i8|u32|i32|Slot)\s*=\s*(?:Slot\()?-?\d+\)?;', text):
        found('1b', at(m.start()), m.group(0))
    for m in re.finditer(r'\bstruct\s+\w+[^{;(]*\{', text):
        fields = text[m.end():closing(text, m.end() - 1) - 1]
        for f in re.finditer(r'(\w+)\s*:\s*bool\b', fields):
            found('1c', at(m.end() + f.start()), f.group(0))
        arrays = re.findall(r'(\w+)\s*:\s*(?:&\S*\s+)?(?:mut\s+)?\[', fields)
        if arrays and re.search(r'\b(?:count|len|n|used|n_\w+)\s*:\s*(?:usize|u8|u32)\b', fields):
            found('6a', at(m.start()), m.group(0) + ' an array or slice with a count beside')
        if len(arrays) > 1:
            found('6b', at(m.start()), m.group(0) + ' parallel: ' + ' '.join(arrays))
    for m in re.finditer(r'\bwhile\b', text):
        found('3a', at(m.start()), text[m.start():m.start() + 80].split('\n')[0])
    for m in re.finditer(r'\bfor\s+[^;{}]*?\s+in\s+([^{]*)\{', text):
        if '..' in re.sub(r'\([^()]*\)|\[[^\[\]]*\]', '', m.group(1)):
            found('3b', at(m.start()), m.group(0))
    for m in re.finditer(r'\bas\s+(?:[ui](?:8|16|32|64|size))\b', text):
        found('4a', at(m.start()), text[max(0, m.start() - 40):m.end()])
    for m in re.finditer(r'\bimpl(?:<[^>]*>)?\s+(?:PartialEq|Eq|PartialOrd|Ord|Clone|Copy|Display|Debug)\b', text):
        found('4b', at(m.start()), m.group(0))
    for m in re.finditer(r'\bmatch\b', text):
        found('7', at(m.start()), text[m.start():m.start() + 60].split('{')[0])
    for fn, params, requires, body, i in functions(text):
        s = shape(body)
        if s:
            shapes[s].append(f'{at(i)} {fn}')
        for r in set(requires):
            facts[crate, r].append(f'{at(i)} {fn}')
        lists = re.findall(r'(\w+)\s*:\s*&\s*(?:\'\w+\s+)?(?:mut\s+)?\[', params)
        if len(lists) > 2:
            found('5b', at(i), f'{fn}: lists lent one by one: ' + ' '.join(lists))
        if re.search(r'&\s*mut\s*\[u8\][^)]*\b\w+\s*:\s*usize', params) or re.search(r'\b(\w+)\s*:\s*&(?:mut )?\[[^\]]*\]\s*,\s*(?:n|len|count|used|letters|to|end)\s*:\s*usize', params):
            found('6c', at(i), f'{fn}: a list and where it ends')

for s, places in sorted(shapes.items(), key=lambda x: x[1]):
    if len(places) > 1:
        found('2', places[0].split()[0], ' | '.join(places))
for (crate, r), places in sorted(facts.items()):
    if len(places) > 2:
        found('5a', crate, f'{len(places)} x {{ {r} }}')

for point, what in [('1a', 'enums'), ('1b', 'constants that are a bare number'), ('1c', 'flags in a struct'), ('2', 'groups of functions of one shape'),
                    ('3a', 'while'), ('3b', 'for over a range'), ('4a', 'conversions by as'), ('4b', 'derivable impls by hand'),
                    ('5a', 'facts that three or more functions of a crate ask for'), ('5b', 'functions that take three or more lists one by one'),
                    ('6a', 'structs with a list and its count'), ('6b', 'structs of parallel lists'), ('6c', 'functions with a list and its end'), ('7', 'match')]:
    print(f'{point:3} {counts[point]:4}  {what}')
