#!/usr/bin/env python3
"""Counts the places of docs/DESIGN-PASS.md in crates/*/src, point by point.

  tools/design_places.py [--list] [ROOT]

--list prints each place as POINT FILE:LINE TEXT. Point 2 (functions that differ only in a type, a size or a
constant) is counted by reading; its list stands in the document.
"""
import glob
import os
import re
import sys

args = [a for a in sys.argv[1:] if a != '--list']
root = args[0] if args else '.'
listing = '--list' in sys.argv

# a point's name, what is counted, a pattern for a line of code (comments and ghost lines are left out)
POINTS = [
    ('1a', 'enums of the crates\' own', r'^(pub )?enum \w+'),
    ('1b', 'numbers for kinds, ends and none', r'^(pub )?const (?!FIELD_|TRAJ_|MAP_|PLANES)[A-Z_]+: (usize|Slot) = (\d+|Slot\(\d+\));'),
    ('1c', 'flags, kinds and ends beside a value', r'^ +(pub )?(failed: bool|read_failed: bool|said: Said|ended: usize|found: usize|place: usize),'),
    ('1d', 'answers tested by their number', r'number\(.*\) != 0'),
    ('3a', 'while loops', r'^ *(\'\w+: )?while '),
    ('3b', 'for loops over a range', r'^ *(\'\w+: )?for \w+ in [^.]*\.\.'),
    ('4a', 'conversions by as', r' as (u8|i8|u16|i16|u32|i32|u64|i64|usize)\b'),
    ('4b', 'functions that only convert or compare', r'fn (to_(i32|i8|u32|u8|usize)|of_(u8|i8|i32|bool|u64)|as_(byte|u32|usize)|is_on|signed_byte|wide|one_if|slot_index|number|least|less|umax|imax|imin|iclip|iclip64to32|min31|same_sign|unsigned_abs)\('),
    ('5a', 'requires that repeat a fact of a value', r'requires.*(Sound t\b|FieldHeld|TrajHeld|MapHeld|nbits ≤ 8|n_refs ≤ 7|Slots |\.0 < 7|reciprocals\)|PassNumbers|f\.width ≤ 2048|Fair s)'),
    ('5b', 'lists of a store lent one by one', r'\b(field_x|traj_x|map_x): &(mut )?\[i(32|8)\]'),
    ('5c', 'tables lent', r'table: &\[u16; 32\]'),
    ('6a', 'a buffer and where its text ends', r'out: &mut \[u8\]'),
    ('6b', 'places of lists in one list', r'const (FIELD_|TRAJ_|MAP_|PLANES)\w*: usize'),
    ('6c', 'lists with a count beside', r'^ +(pub )?(count|n_mfmvs|letters|n_refs|setup|call): usize,'),
    ('7', 'switches on a step', r'\bmatch (kind|word|place|list)\b|if kind == \d'),
]

counts = {p[0]: 0 for p in POINTS}
for path in sorted(glob.glob(os.path.join(root, 'crates/*/src/*.rt'))):
    text = open(path, encoding='utf-8').read().split('\n')
    for number, line in enumerate(text, 1):
        if line.lstrip().startswith(('//', 'ghost use')):
            continue
        for point, _, pattern in POINTS:
            found = len(re.findall(pattern, line)) if point in ('4a', '5b') else (1 if re.search(pattern, line) else 0)
            counts[point] += found
            if found and listing:
                print(point, f'{os.path.relpath(path, root)}:{number}', line.strip()[:110])

for point, what, _ in POINTS:
    print(f'{point:3} {counts[point]:4}  {what}')
answers = glob.glob(os.path.join(root, 'crates/*/proofs/*/**/*.antt'), recursive=True)
lemmas = glob.glob(os.path.join(root, 'crates/*/proofs/*.antt'))
lines = lambda files: sum(len(open(f, encoding='utf-8').read().split('\n')) - 1 for f in files)
print(f'8a  {lines(answers):5}  lines of answers and invariants, in {len(answers)} files')
print(f'8b  {lines(lemmas):5}  lines of lemmas, in {len(lemmas)} files')
