#!/usr/bin/env python3
"""tools/places.py [POINT..]: the places in src/ that docs/DESIGN-PASS.md counts, each as FILE:LINE TEXT; run at the top.

What is printed are candidates: which of them are places of the point, and why one stays, that page says."""
import pathlib, re, sys
from collections import defaultdict

TOP = pathlib.Path(__file__).resolve().parent.parent
SOURCES = [(p.relative_to(TOP / 'crates'), p.read_text()) for p in sorted(TOP.glob('crates/*/src/*.rt'))]
PATTERNS = {
    '1 own enums': r'^(pub(\(crate\))? )?enum .*',
    '1 numbers and flags in structs': r'^ +(pub(\(crate\))? )?(number|index|ended|more|mode|kind|op|call): (u32|bool),',
    '1 numbers as parameters': r'\b(number|mode|kind|op|call|group|name|head): u32|\bw: u8',
    '1 tests of a number': r'\b(number|fault) [!=]= 0',
    '1 functions that answer a number': r'^ *(pub(\(crate\))? )?fn [a-z_]*(fault|number)[a-z_]*\(.*-> u32',
    '3 loops that count': r'^ *while .*',
    '4 by hand': r'^ *(pub(\(crate\))? )?(extern "C" )?fn (are_same|wide|signed|letter_of|mode_word|number|'
                 r'word_of|signed_reading|put_number|put_column|state_in|registers_in|masks_in|put_state|put_masks|state'
                 r'|order|part|last_part|copy_front|copy|front|opening)\b.*',
    '6 buffers and lists in lists': r'^ +(pub )?len: usize,|^ *(pub(\(crate\))? )?fn (entry|part|nth|front)\b'
                                    r'|^const (TABLES|PIECES|PROBED_B|PROBED_DEALS|JOBS|FAULTS|PLACES|SIZES|EDGES)\b',
    '7 switches': r'match (group|call|w|kind|op|quarter|readings|host)\b',
}


def behind(text, at, pair):
    """The place behind the bracket that closes what is open at a place."""
    depth = 1
    while depth and at < len(text):
        depth += (text[at] == pair[0]) - (text[at] == pair[1])
        at += 1
    return at


def functions():
    """Each function: file, line, name, its parameters, and its body's text."""
    for path, text in SOURCES:
        for m in re.finditer(r'\bfn ([a-z_0-9]+)(?:<[^(]*>)?\(', text):
            end = behind(text, m.end(), '()')
            names = re.findall(r'(?:^|,)\s*(?:mut )?([a-z_0-9]+)\s*(?::|(?=,|$))', text[m.end():end - 1])
            start = re.compile(r'^ *\{$|^[^\n]*\) *(-> [^{;]*)?\{$', re.M).search(text, text.rfind('\n', 0, end))
            body = text[start.end():behind(text, start.end(), '{}')] if start else ''
            yield path, text.count('\n', 0, m.start()) + 1, m.group(1), names, body


def twins():
    """Functions whose bodies are the same but for names and numbers, of twelve words or more."""
    alike = defaultdict(list)
    for path, line, name, _, body in functions():
        words = re.findall(r'[A-Za-z_][A-Za-z_0-9]*|\d+|\S', re.sub(r'//.*', '', body))
        kept = ['n' if w.isdigit() else w if w in ('if', 'else', 'while', 'for', 'match', 'return', 'let') or not w[0].isalpha()
                else 'x' for w in words]
        if len(kept) >= 12:
            alike[' '.join(kept)].append(f'{path}:{line} {name}')
    return [' | '.join(v) for v in alike.values() if len(v) > 1]


def facts():
    """Parts of a `requires` that stand in three functions or more, but for names."""
    seen = defaultdict(set)
    for path, text in SOURCES:
        for m in re.finditer(r'requires [a-z_]*\s*\{(.*?)\}\n', text, re.S):
            name = re.findall(r'\bfn ([a-z_0-9]+)', text[:m.start()])[-1]
            for part in m.group(1).split('×'):
                seen[re.sub(r'[\s()]+', ' ', part).strip()].add(f'{path} {name}')
    return [f'{len(v)} {k}: {", ".join(sorted(v))}' for k, v in sorted(seen.items()) if len(v) > 2]


def places(point):
    for name, pattern in PATTERNS.items():
        if name.startswith(point):
            yield name, [f'{p}:{text.count(chr(10), 0, m.start()) + 1} {m.group(0).strip()}'
                         for p, text in SOURCES for m in re.finditer(pattern, text, re.M)]
    if point == '2':
        yield '2 twins', twins()
    if point == '5':
        yield '5 seven parameters or more', [f'{p}:{l} {n} {len(a)}' for p, l, n, a, _ in functions() if len(a) > 6]
        yield '5 facts in three contracts or more', facts()
    if point == '8':
        answers = [(p.relative_to(TOP / 'crates'), p.read_text()) for p in sorted(TOP.glob('crates/*/proofs/**/Answers.antt'))]
        yield '8 names for what has one', [f'{p}:{i}' for p, text in answers for i, line in enumerate(text.split('\n'), 1)
                                           if re.match(r' *let [a-z]+ = [a-z]+ in$', line)]


for point in sys.argv[1:] or '12345678':
    for name, found in places(point):
        print(f'== {name}: {len(found)}')
        print('\n'.join(found))
