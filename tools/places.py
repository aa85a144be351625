#!/usr/bin/env python3
"""places.py [POINT..]: the places of docs/DESIGN-PASS.md's points in crates/*/src, one a line, and how many they are.
It reads text, not types: what a line means is judged by reading it."""
import collections
import glob
import re
import sys

OTHER = {'Nothing', 'Nowhere', 'None', 'Empty', 'Refused', 'Bad', 'TooShort', 'TooLong', 'Incomplete', 'Short',
         'Unlabelled', 'OutOfRange', 'Failed', 'Wrong'}


def sources():
    for path in sorted(glob.glob('crates/*/src/**/*.rt', recursive=True)):
        yield path, open(path, encoding='utf-8').read()


def place(path, text, at):
    return f"{path.removeprefix('crates/').replace('/src/', ':')}:{text.count(chr(10), 0, at) + 1}"


def blocks(text, head):
    """Each item that begins with `head` at a line's start, up to its closing brace there."""
    for m in re.finditer(rf'^( *)(?:pub(?:\(crate\))? )?{head} (\w+)[^\n]*\{{\n(.*?)^\1\}}', text, re.M | re.S):
        yield m.start(), m.group(2), re.sub(r' *//.*', '', m.group(3))


def functions(text):
    for m in re.finditer(r'^ *(?:pub(?:\(crate\))? )?fn (\w+)(?:<[^>]*>)?\(', text, re.M):
        end, depth = m.end(), 1
        while depth:
            depth += {'(': 1, ')': -1}.get(text[end], 0)
            end += 1
        body = re.compile(r'^ *\{$|\{$', re.M).search(text, end)
        if body:
            stop = text.find('\n' + ' ' * (len(m.group(0)) - len(m.group(0).lstrip())) + '}', body.end())
            names = re.findall(r'(\w+):', text[m.end():end])
            yield m.start(), m.group(1), names, text[end:body.start()], text[body.end():stop]


def enums():
    """1: enums one of whose variants says that there is no answer, or why."""
    for path, text in sources():
        for at, name, body in blocks(text, 'enum'):
            if set(re.findall(r'^\s*(\w+)', body, re.M)) & OTHER and len(body.split('\n')) < 8:
                yield f'{place(path, text, at)} {name}'


def flags():
    """1: structs with a flag beside other fields."""
    for path, text in sources():
        for at, name, body in blocks(text, 'struct'):
            if re.search(r'\w+: bool,', body):
                yield f'{place(path, text, at)} {name}'


def numbers():
    """1: a refusal or a kind as a number, in a variant or a signature."""
    for path, text in sources():
        for m in re.finditer(r'Refused\(u32|\.number\(\)|kind: (?:usize|u32|i32)\b', text):
            yield f'{place(path, text, m.start())} {m.group(0)}'


def twins():
    """2: functions whose bodies are the same but for names and numbers, of four lines and more."""
    shapes = collections.defaultdict(list)
    for path, text in sources():
        for at, name, _, _, body in functions(text):
            if body.count('\n') < 4:
                continue
            seen = {}
            words = re.findall(r'[A-Za-z_]\w*|\d+|\S', re.sub(r'//.*', '', body))
            shape = tuple(seen.setdefault(w, len(seen)) if re.match(r'\w', w) else w for w in words)
            shapes[shape].append(f'{place(path, text, at)} {name}')
    for shape, found in sorted(shapes.items(), key=lambda x: x[1]):
        if len(found) > 1:
            yield ' = '.join(found)


def loops():
    """3: loops whose variable is stepped by one by hand."""
    for path, text in sources():
        for m in re.finditer(r'^( *)(?:\'\w+: )?(while|loop)\b([^\n]*)\{\n(.*?)^\1\}', text, re.M | re.S):
            names = set(re.findall(r'\b[a-z_]\w*', m.group(3)))
            if any(n in names for n in re.findall(r'^\s*(\w+) [+-]= 1;', m.group(4), re.M)):
                yield f'{place(path, text, m.start())} {m.group(2)}{m.group(3)}'


def others():
    """3: the other loops that are no `for`."""
    stepped = set(loops())
    for path, text in sources():
        for m in re.finditer(r'^ *(?:\'\w+: )?(while|loop)\b([^\n]*)\{$', text, re.M):
            line = f'{place(path, text, m.start())} {m.group(1)}{m.group(2)}'
            if line not in stepped:
                yield line


def hand():
    """4: functions named for an equality, a copy or a conversion, and types that are compared by hand."""
    for path, text in sources():
        for at, name, _, _, body in functions(text):
            if re.match(r'(same|still_same|equal|eq|is_same|copy|clone|number|wide|natural|code|coded|decoded)(_|$)', name):
                yield f'{place(path, text, at)} {name}'


def rows():
    """5: functions that take a row's cells, period and distance apart."""
    for path, text in sources():
        for at, name, names, _, _ in functions(text):
            if all(any(n.endswith(w) for n in names) for w in ('cells', 'period', 'distance')):
                yield f'{place(path, text, at)} {name}'


def sound():
    """5: clauses that ask for a sound row."""
    for path, text in sources():
        for m in re.finditer(r'^ *requires .*\bSound\b', text, re.M):
            yield place(path, text, m.start())


def many():
    """5: functions with more than seven parameters."""
    for path, text in sources():
        for at, name, names, _, _ in functions(text):
            if len(names) > 7:
                yield f'{place(path, text, at)} {name} {len(names)}'


def pools():
    """5, 6: functions that take a pool with the place of a row in it."""
    for path, text in sources():
        for at, name, names, _, _ in functions(text):
            if 'pool' in names and {'start', 'a', 'at', 'used', 'r'} & set(names):
                yield f'{place(path, text, at)} {name}'


def buffers():
    """6: structs with an array and a number that says how much of it counts."""
    for path, text in sources():
        for at, name, body in blocks(text, 'struct'):
            if re.search(r'\[\w+; ?\w+\]', body) and re.search(r': (usize|u32|u64),', body):
                yield f'{place(path, text, at)} {name}'


def steps():
    """7: a flag or a kind that is handed on to say which step to run."""
    for path, text in sources():
        for at, name, names, _, _ in functions(text):
            if 'back' in names:
                yield f'{place(path, text, at)} {name}'


POINTS = [enums, flags, numbers, twins, loops, others, hand, rows, sound, many, pools, buffers, steps]

if __name__ == '__main__':
    wanted = sys.argv[1:]
    for point in POINTS:
        found = list(point())
        if point.__name__ in wanted:
            print('\n'.join(found))
        if not wanted or point.__name__ in wanted:
            print(f'{point.__name__}: {len(found)}    {point.__doc__}')
