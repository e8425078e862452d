#!/usr/bin/env python3
"""Counts the places that docs/DESIGN-PASS.md speaks of.

    tools/count_places.py [-v] [COMMIT]

With no commit it reads the work tree. `-v` lists each place. It goes by text, so it finds places that are as they should be, too:
the page says which are which.
"""
import re
import subprocess
import sys
from collections import defaultdict

VERBOSE = '-v' in sys.argv
COMMIT = next((a for a in sys.argv[1:] if a != '-v'), None)


def git(*words):
    return subprocess.run(['git', *words], check=True, capture_output=True, text=True).stdout


def files(pattern):
    """(path, text) of each file of the tree whose path matches."""
    names = git('ls-tree', '-r', '--name-only', COMMIT) if COMMIT else git('ls-files', '--cached', '--others', '--exclude-standard')
    for name in sorted(set(names.split('\n'))):
        if re.fullmatch(pattern, name):
            try:
                yield name, git('show', f'{COMMIT}:{name}') if COMMIT else open(name, encoding='utf-8').read()
            except FileNotFoundError:
                pass


SOURCES = list(files(r'crates/\w+/src/.*\.rt'))


def said(point, what, places):
    places = list(places)
    print(f'{point}  {len(places):4}  {what}')
    if VERBOSE:
        for place in places:
            print('          ', place)


def lines(pattern, skip=None):
    """Each line of src/ that matches, comments and clauses left out."""
    for name, text in SOURCES:
        for number, line in enumerate(text.split('\n'), 1):
            bare = line.strip()
            if bare.startswith(('//', 'ghost ', 'requires', 'ensures')) or (skip and re.search(skip, line)):
                continue
            if re.search(pattern, line):
                yield f'{name}:{number}: {bare}'


def functions():
    """(place, name, head, clauses, body) of each function with a body."""
    for name, text in SOURCES:
        for m in re.finditer(r'^( *)(pub(?:\(crate\))? )?(?:extern "C" )?fn (\w+)', text, re.M):
            end = text.find('\n' + m[1] + '}', m.start())
            whole = text[m.start():end if end >= 0 else None]
            # the body begins at a brace that ends a line, or at a line that is a brace
            b = re.search(r'(\{|^ *\{)$', whole, re.M)
            if not b:
                continue
            head = whole[:b.start()]
            clauses = re.findall(r'^\s*((?:requires|ensures)\b.*)$', head, re.M)
            head = re.sub(r'^\s*(?:requires|ensures)\b.*$', '', head, flags=re.M)
            yield f'{name}:{text.count(chr(10), 0, m.start()) + 1}', m[3], head, clauses, whole[b.end():]


FUNCTIONS = list(functions())
WORDS = {'for', 'in', 'if', 'else', 'match', 'let', 'mut', 'return', 'while', 'self', 'Some', 'None', 'Ok', 'Err', 'true', 'false', 'as'}


def skeleton(body):
    tokens = re.findall(r'[A-Za-z_]\w*|\d[\w.]*|"[^"]*"|[^\s\w]', re.sub(r'//.*', '', body))
    return tuple('N' if t[0].isdigit() else t if t in WORDS or not (t[0].isalpha() or t[0] == '_') else 'I' for t in tokens)


def twins():
    groups = defaultdict(list)
    for place, name, _, _, body in FUNCTIONS:
        s = skeleton(body)
        if len(s) >= 12:
            groups[s].append(f'{place} {name}')
    return [' = '.join(g) for g in groups.values() if len(g) > 1]


def channels():
    """Three statements or fields one after another that differ only in x, y and b (or 0, 1 and 2)."""
    def turned(line, to):
        return re.sub(r'(?<![A-Za-z])x(?![a-z])|(?<=_)x\b', to, line)
    for name, text in SOURCES:
        rows = [r.strip() for r in text.split('\n')]
        for i in range(len(rows) - 2):
            a, b, c = rows[i:i + 3]
            if a.startswith(('//', 'ensures', 'requires', 'ghost')) or not re.search(r'(?<![A-Za-z])x(?![a-z])', a):
                continue
            if turned(a, 'y') == b and turned(a, 'b') == c:
                yield f'{name}:{i + 1}: {a}'


def facts():
    """A fact that stands in the `requires` of three or more functions, the names of the arguments left out."""
    where = defaultdict(set)
    for place, name, _, clauses, _ in FUNCTIONS:
        for clause in clauses:
            m = re.match(r'requires(?: \w+)? \{ (.*) \}$', clause)
            if m:
                fact = re.sub(r'\b(list|map|self|samples|strip|out|front|back|canvas|grid|x|y|b|g|patch)\b', '_', m[1])
                where[fact].add(f'{place} {name}')
    return [f'{len(v)} × {k}' for k, v in sorted(where.items(), key=lambda p: -len(p[1])) if len(v) > 2]


def together():
    """Two parameters side by side, by name and type, in three or more functions."""
    where = defaultdict(set)
    for place, name, head, _, _ in FUNCTIONS:
        head = re.sub(r"'\w+ ", '', head)
        m = re.search(r'\((.*?)\)(?: ->|\s*$|\s*where)', head, re.S)
        if m:
            params = [' '.join(p.split()) for p in re.split(r',\s*(?![^<\[(]*[>\])])', m[1]) if p.strip()]
            for a, b in zip(params, params[1:]):
                if 'self' not in a and 'HostRuntime' not in a and 'heap' not in a:
                    where[f'{a}, {b}'].add(f'{place} {name}')
    return [f'{len(v)} × {k}' for k, v in sorted(where.items(), key=lambda p: -len(p[1])) if len(v) > 2]


def answers():
    count = text_lines = 0
    for _, text in files(r'crates/\w+/proofs/.*\.antt'):
        text_lines += text.count('\n')
    for _, text in files(r'crates/\w+/proofs/.*/Answers\.antt'):
        count += len(re.findall(r'^pub \S+ :', text, re.M))
    return count, text_lines


said('1a', 'numbers for kinds, modes and channels, as parameters and fields', lines(r'\b(kind|mode|channel|first): (u32|usize)'))
said('1b', 'numbers for refusals, and numbers that stand for no answer', lines(r'const (SHAPE|KIND|NONE): u32|reason\.number\(\)|return (SHAPE|KIND);|\(99,|stage: 99|\(u32, usize, usize'))
said('1c', 'flags: a test that is handed on, or that says whether the value beside it counts', lines(r'\b\w+: bool\b|let mut \w+ = (true|false);', skip=r'^\s*(pub )?fn is_|-> bool$'))
said('1d', 'enums of our own', lines(r'^\s*(pub )?enum '))
said('2a', 'groups of functions with the same body but for names and numbers', twins())
said('2b', 'three lines alike but for the channel', channels())
said('3a', '`for` over a range', lines(r'\bfor \w+ in [^{]*\.\.'))
said('3b', '`while`', lines(r'\bwhile\b'))
said('3c', 'counts kept by hand', lines(r'wrapping_add\(1\)|\+= 1;|\bcount\b = '))
said('4a', 'tests of a variant by `match`, conversions by `match`', lines(r'=> (true|false),|Ok\((\w+)\) => Some\(\2\)|Some\((\w+)\) => Ok\(\3\)|Err\(_\) => None|None => Err'))
said('4b', 'names and numbers of variants by a method', lines(r'\bfn (name|number|told|three)\b|as u32$'))
said('5a', 'facts in the `requires` of three or more functions', facts())
said('5b', 'parameters side by side in three or more functions', together())
said('6', 'arrays of a fixed length in programs and tests', lines(r'\[[^\]]+; \d+\]', skip=r'^\s*(const|pub const)'))
said('7', '`match` on what to do', lines(r'\bmatch (direction|axis|kind|name|call|kernel|self|mode|\(place, value\)) \{'))
count, text_lines = answers()
print(f'8   {count:4}  answers; {text_lines} lines of proofs')
