#!/usr/bin/env python3
"""Counts the places of docs/DESIGN-PASS.md in crates/*/src and crates/*/proofs of the tree it stands in. With a point's number it lists that point's places."""
import glob
import os
import re
import sys

os.chdir(os.path.join(os.path.dirname(os.path.abspath(__file__)), '..'))
want = sys.argv[1] if len(sys.argv) > 1 else ''
files = {p: open(p).read() for p in sorted(glob.glob('crates/*/src/**/*.rt', recursive=True))}
places = {}


def note(point, path, line, what):
    places.setdefault(point, []).append(f'{path}:{line}: {what}')


def each(point, pattern, keep=lambda m, text: True):
    for path, text in files.items():
        for m in re.finditer(pattern, text, re.M):
            if keep(m, text):
                note(point, path, text.count('\n', 0, m.start()) + 1, ' '.join(m.group(0).split())[:110])


# 1: own enums of two or three variants, one of them without a value or a refusal
for path, text in files.items():
    for m in re.finditer(r'^(?:pub )?enum (\w+) \{\n((?:    .*\n)*)\}', text, re.M):
        variants = re.findall(r'^    (\w+)( ?[({])?', re.sub(r'\{[^}]*\}', '{', m.group(2)), re.M)
        bare = [v for v, value in variants if not value]
        held = [v for v, value in variants if value]
        refusing = [v for v, _ in variants if re.match(r'Refus|Missing|Short|Bad|Unclear|Unread|No[A-Z]|Not|TooMany|Nothing$', v)]
        if held and len(variants) <= 3 and (len(bare) == 1 and len(variants) == 2 or refusing):
            note('1a own enum like Option or Result', path, text.count('\n', 0, m.start()) + 1, f'{m.group(1)}: ' + ', '.join(v for v, _ in variants))
each('1b flag beside a value', r'^    pub (?:taken|all|clear|same|over|shown|past|ended|none|cut|stray)\b: \w+')
each('1c number that stands for none or for a kind', r'^.*//.*(?:\b0 where\b|0: none|0 if\b|or 0\b|stands for none|10 for a number|4 where there are more).*$')
# 2: functions with one body, names aside
bodies = {}
for path, text in files.items():
    for m in re.finditer(r'^((?:pub )?(?:extern "C" )?fn (\w+)[^\n]*(?:\n(?!\{).*)*)\n\{\n((?:.*\n)*?)\}\n', text, re.M):
        body = m.group(3)
        if body.count('\n') < 3:
            continue
        shape = re.sub(r'b"[^"]*"|\b0x[0-9A-Fa-f_]+\b|\b\d+\b', '#', re.sub(r'//.*', '', body))
        shape = re.sub(r'\b[A-Za-z_]\w*\b', lambda w: w.group(0) if w.group(0) in ('if', 'else', 'while', 'for', 'in', 'let', 'mut', 'match', 'return', 'true', 'false', 'loop') else 'n', shape)
        bodies.setdefault(' '.join(shape.split()), []).append((path, text.count('\n', 0, m.start()) + 1, m.group(2)))
for group in bodies.values():
    if len(group) > 1:
        for path, line, name in group[1:]:
            note('2 body of the same shape as another', path, line, f'{name}, as {group[0][2]}')
each('3 loop by hand', r'^ *(?:while|loop)\b.*$')
each('4a arm that only says true or false', r'=> (?:true|false),')
each('4b return of true or false', r'return (?:true|false);')
each('4c field: field', r'^ *(\w+): \1,$')
each('4d if that returns and then the rest', r'^    if [^\n{]*\{\n        return [^\n]*;\n    \}\n    [^\n]*\n\}')
each('5a board, place together', r'board: Board, place: Place')
each('5b text and a place in it', r'\w+: &mut \[u8\],\s+(?:at|from): usize')
clauses = {}
for path, text in files.items():
    for m in re.finditer(r'^    requires (?:\w+ )?\{(.*)\}$', text, re.M):
        for part in m.group(1).split(' × '):
            clauses.setdefault(part.strip().strip('()'), []).append((path, text.count('\n', 0, m.start()) + 1))
for clause, where in clauses.items():
    if len(where) >= 3:
        for path, line in where:
            note('5c clause of three or more functions', path, line, clause)
each('6 slice or array with a count beside', r'(?:line|words|replies|entries|buffer): &(?:mut )?\[u\d+\], (?:held|count|n|used): usize')
each('7 table of calls', r'^    let (?:one|two|three|four|five|six|seven|eight) = check\(')
answers = 0
for path in glob.glob('crates/*/proofs/**/Answers.antt', recursive=True):
    answers += len(re.findall(r'^pub ', open(path).read(), re.M))
for point in sorted(places):
    if not want:
        print(f'{point}: {len(places[point])}')
    elif point.startswith(want):
        print(f'{point}:')
        print('\n'.join('  ' + p for p in places[point]))
if not want:
    print(f'8 answers in proofs: {answers}')
