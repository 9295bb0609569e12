#!/usr/bin/env python3
"""Counts the places of docs/DESIGN-PASS.md's points in crates/*/src at a commit: tools/count_places.py COMMIT [-v]

A place is one match of a pattern below; with -v each is printed. The patterns find the older forms by how they are written, so what
they find is a list to be read, and the page says of each place what became of it."""
import re, subprocess, sys

commit = sys.argv[1]
show = '-v' in sys.argv


def git(*words):
    return subprocess.run(['git', *words], capture_output=True, text=True, check=True).stdout


files = [f for f in git('ls-tree', '-r', '--name-only', commit).split('\n') if re.match(r'crates/\w+/src/.*\.rt$', f)]
texts = {f: git('show', f'{commit}:{f}') for f in files}

# a signature up to its clauses or its body
HEAD = r'fn \w+(?:<[^>]*>)?\([^)]*\)'
POINTS = {
    '1 own enums of the shape of Option or Result': r'^    (?:Nothing|Bad|AllOk),$',
    '1 a number or a flag beside a value': r'^    (?:pub )?(?:number: u16|bad: bool|left: u32),$',
    '1 functions that answer with a refusal as a number':
        r'fn (?:\w*_number|\w*_fault|refusal|load|check_lines|pass)\b[^{]*?-> u16\b',
    '1 a place or an item that may be lost': r'\bLOST\b(?=[,;\s)}])',
    '1 refusals and rights as constants': r'^pub const [A-Z_]+: (?:u16|u8) = \d+;$',
    '1 kinds as numbers': r'\bkind == \d+|\basked\[3\]',
    '3 loops that count by hand': r'^\s*while ',
    '4 equality by a match over all variants': r'^\s+(?:pub )?fn (?:not_cold|not_ready|idle|is_foreign|all_ok)\b|^(?:pub )?fn (?:not_cold|not_ready|idle|is_foreign|all_ok)\b',
    '4 conversions by hand': r'^\s*(?:pub )?fn (?:classify|direction_of|amount_of|bytes_of|number_of|wide|reader_of)\b',
    '4 printing by hand': r'^\s*(?:pub )?fn (?:digit_of|digit|put_hex|put_digit|put_decimal|kind_word|way|job|phase_words|say_byte|rest_of_line)\b',
    '5 a plan that is fine, in an image that holds it': r'PlanOk plan × \(total plan ≤ length image',
    '5 256 bytes, 47 bytes': r'length (?:payload|head)\.(?:now|old|new) ≡ (?:256|47)',
    '5 plan and phase, or buffer and how much is used, as parameters that travel together':
        r'fn \w+(?:<[^>]*>)?\((?=[^)]*\bplan: Plan\b)(?=[^)]*\bphase: Phase\b)[^)]*\)|fn \w+(?:<[^>]*>)?\((?=[^)]*\bout: &(?:mut )?\[u8\])(?=[^)]*\b(?:used|at): usize\b)[^)]*\)',
    '6 arrays filled place by place': r'^\s+\w+\[\d+\] = ',
    '7 a switch on which step to run': r'\b(?:pass|over|group): bool\b|\bkind: Kind\b',
}
# What stands in several places though it differs in a type, a size or a constant alone: of each kind all places but one count.
TWINS = {
    'a plan made by hand': r'(?<!struct )(?<!-> )(?<!Form::)\bPlan \{$',
    'the largest total': r'^const MOST: u64',
    'words and numbers printed by a function of one program': r'^fn (?:say|number|word|end_word|say_line|say_byte|say_bytes)\b.*&\[u8\]|^fn (?:say|number|say_byte)\b.*n: ',
    'two bytes as a number': r'^(?:pub )?fn (?:number_of|number_at)\b.*u8.*u16',
    'copy A as a part of the image': r'span\.base \+ span\.a\b',
    'hexadecimal digits': r"b'a' \+ \(|b'0' \+",
    'the bytes that a line lists': r'bytes_into\(line, at, count',
    'a walk over calls given as bytes': r'while 5 <= calls\.len\(\) - at',
    'a refused call gives the device back': r'return Answer \{\s*number: number,\s*device: self',
    'the same four fields taken out of a device': r'let plan = self\.plan;',
    'the room that a script takes': r'let mut out = \[0u8; 32768\]',
    'the head of a line of a curve': r'b"\(level "',
    'a line of rights or of widths read from bytes': r'\[at\] = (?:head|number_at)',
    'a save and a group that come back': r'fn (?:save_back|group_back)',
    'start and format of a plan for one program': r'^fn (?:first_save|grouped_device|opened|formatted)\b',
}
total = {}
for name, pattern in POINTS.items():
    found = []
    for f, text in texts.items():
        for m in re.finditer(pattern, text, re.M):
            line = text.count('\n', 0, m.start()) + 1
            found.append(f'{f}:{line}: ' + m.group(0).strip().split('\n')[0])
    total[name] = found
    print(f'{len(found):4}  {name}')
    if show:
        print('\n'.join('        ' + x for x in found))

twins = 0
lines = []
for name, pattern in TWINS.items():
    found = [f'{f}:{text.count(chr(10), 0, m.start()) + 1}' for f, text in texts.items() for m in re.finditer(pattern, text, re.M)]
    twins += max(0, len(found) - 1)
    lines.append(f'        {max(0, len(found) - 1):3}  {name}: ' + ' '.join(found))
print(f'{twins:4}  2 twins: the same code over a type, a size or a constant, beyond the first place of each kind')
if show:
    print('\n'.join(lines))
