#!/usr/bin/env python3
"""Counts the places of the design pass in crates/*/src: python3 tools/places.py [POINT]. docs/DESIGN-PASS.md says what came of each point.

A place is a line, or for twins a group of functions. With a number 1 to 7 the places of that point are listed."""
import collections
import glob
import os
import re
import sys

TOP = os.path.dirname(os.path.dirname(os.path.abspath(__file__)))
FILES = sorted(glob.glob(os.path.join(TOP, 'crates/*/src/*.rt')))
FUNCTION = re.compile(r'^( *)(?:#\[.*\]\n *)?(?:pub )?(?:extern "C" )?fn (\w+)[\s\S]*?^\1\}\n', re.M)


def short(path):
    return os.path.relpath(path, TOP)


def lines(pattern, only=lambda line: True):
    """The lines that match, with their file and number."""
    found = []
    for path in FILES:
        for number, line in enumerate(open(path), 1):
            if re.search(pattern, line) and only(line):
                found.append(f'{short(path)}:{number}: {line.strip()}')
    return found


def enums(with_value):
    """Own enums, by whether a variant carries a value."""
    found = []
    for path in FILES:
        text = open(path).read()
        for m in re.finditer(r'^(?:pub )?enum (\w+)[^{]*\{([\s\S]*?)^\}', text, re.M):
            carries = bool(re.search(r'^\s+\w+\s*[({]', m.group(2), re.M))
            if carries == with_value:
                found.append(f'{short(path)}: enum {m.group(1)}')
    return found


def functions():
    for path in FILES:
        text = open(path).read()
        for m in FUNCTION.finditer(text):
            yield path, m.group(2), m.group(0)


def shape(text):
    """A function with its names and numbers taken away: what is left is the same for twins."""
    text = re.sub(r'//.*', '', text)
    text = re.sub(r'^\s*(ensures|requires)\b.*$', '', text, flags=re.M)
    text = re.sub(r'^\s*#\[.*$', '', text, flags=re.M)
    keep = {'fn', 'let', 'mut', 'if', 'else', 'while', 'for', 'in', 'match', 'return', 'pub', 'as', 'true', 'false', 'self'}
    seen = {}

    def one(m):
        word = m.group(0)
        if word in keep:
            return word
        if word[0].isdigit():
            return '0'
        return seen.setdefault(word, f'v{len(seen)}')

    text = re.sub(r'[A-Za-z_]\w*(?:::\w+)*|\d\w*', one, text)
    return re.sub(r'\s+', ' ', text)


def twins(least=6):
    """Groups of functions of at least so many lines that are alike but for names and numbers."""
    groups = collections.defaultdict(list)
    for path, name, text in functions():
        body = [line for line in text.splitlines() if line.strip() and not re.match(r'\s*(//|ensures|requires)', line)]
        if len(body) >= least:
            groups[shape(text)].append(f'{short(path)}: fn {name}')
    return [' ~ '.join(g) for g in groups.values() if len(g) > 1]


def travelling(*names):
    """Functions that take all of these parameters."""
    found = []
    for path, name, text in functions():
        head = text.split('{')[0]
        if all(re.search(r'\b%s:' % n, head) for n in names):
            found.append(f'{short(path)}: fn {name}')
    return found


def answers():
    """Answers in proof files of functions, by crate."""
    count = 0
    for folder, _, files in os.walk(os.path.join(TOP, 'crates')):
        if '/out' in folder or 'Answers.antt' not in files:
            continue
        count += len(re.findall(r'^pub ', open(os.path.join(folder, 'Answers.antt')).read(), re.M))
    return count


POINTS = {
    1: [('own enums with a value in a variant', lambda: enums(True)),
        ('comments of a number that is 0 for none, or a refusal', lambda: lines(r'//.*(\b0,? (or|where|there)\b|or the number)'))],
    2: [('groups of functions alike but for names and numbers', twins)],
    3: [('while and loop', lambda: lines(r'^\s*(while|loop)\b'))],
    4: [('numbers of two kinds compared', lambda: lines(r'\.0 (==|!=|<|<=) [a-z_.]+\.0\b')),
        ('functions that only compare or convert', lambda: lines(r'^(pub )?fn (wide\w*|compare|same\w*|order\w*)\(')),
        ('1 or 0 by a test', lambda: lines(r'\{ [01] \} else \{ [01] \}'))],
    5: [('parameters ws, file, sets', lambda: travelling('ws', 'file', 'sets')),
        ('parameters paths, names', lambda: travelling('paths', 'names')),
        ('parameters nodes, entries, waits', lambda: travelling('nodes', 'entries', 'waits')),
        ('parameters counts, base', lambda: travelling('counts', 'base')),
        ('parameters ws, wires', lambda: travelling('ws', 'wires'))],
    6: [('arrays of a fixed size', lambda: lines(r'= \[\[?0u\d+; |array::repeat\(0\)'))],
    7: [('match on a kind, or a test of a tag', lambda: lines(r'match (part|pool|item|tag)\b|\btag (==|<) \d'))],
}


def main():
    if len(sys.argv) > 1 and sys.argv[1] != '8':
        for what, find in POINTS[int(sys.argv[1])]:
            places = find()
            print(f'{what}: {len(places)}')
            for place in places:
                print('  ' + place)
        return
    for point, counts in POINTS.items():
        for what, find in counts:
            print(f'{point}. {what}: {len(find())}')
    print(f'8. answers in proof files of functions: {answers()}')


main()
