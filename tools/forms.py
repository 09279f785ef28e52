#!/usr/bin/env python3
"""Counts the forms of docs/DESIGN-PASS.md in crates/*/src and, for point 8, in crates/*/proofs.

    tools/forms.py [--list] [FOLDER]

A line has the point, what is counted and how many places there are; with --list each place follows, as file:line and
what stands there. FOLDER is the top of a repository, this one if none is given.
"""
import collections
import glob
import os
import re
import sys

args = [a for a in sys.argv[1:] if a != '--list']
listed = '--list' in sys.argv
top = args[0] if args else os.path.join(os.path.dirname(os.path.abspath(__file__)), '..')
os.chdir(top)

files = sorted(f for f in glob.glob('crates/*/src/**/*.rt', recursive=True))
text = {f: open(f, encoding='utf-8').read() for f in files}


def line_of(f, at):
    return text[f].count('\n', 0, at) + 1


def match_brace(s, at):
    """The end of the block whose brace is at `at`."""
    depth = 0
    for i in range(at, len(s)):
        if s[i] in '{(':
            depth += 1
        elif s[i] in '})':
            depth -= 1
            if depth == 0:
                return i + 1
    return len(s)


Fn = collections.namedtuple('Fn', 'file line name params result clauses body')


def functions():
    for f in files:
        s = text[f]
        for m in re.finditer(r'^\s*(?:pub )?(?:const )?(?:extern "C" )?fn (\w+)', s, re.M):
            p = s.index('(', m.end())
            e = match_brace(s, p)
            params = [x.strip() for x in s[p + 1:e - 1].split(',') if x.strip()]
            head = e
            clauses = []
            result = ''
            while True:
                rest = s[head:]
                k = re.match(r'\s*->\s*([^\n{;]+)', rest)
                if k:
                    result = k.group(1).strip()
                    head += k.end()
                    continue
                k = re.match(r'\s*(requires|ensures\*?)\s*(\w+)?\s*\{', rest)
                if k:
                    b = head + k.end() - 1
                    end = match_brace(s, b)
                    clauses.append((k.group(1), s[b + 1:end - 1].strip()))
                    head = end
                    continue
                k = re.match(r'\s*where [^{]+', rest)
                if k:
                    head += k.end()
                    continue
                break
            k = re.match(r'\s*\{', s[head:])
            body = ''
            if k:
                b = head + k.end() - 1
                body = s[b:match_brace(s, b)]
            yield Fn(f, line_of(f, m.start(1)), m.group(1), params, result, clauses, body)


fns = list(functions())


def show(point, what, places):
    places = list(places)
    print(f'{point}\t{what}\t{len(places)}')
    if listed:
        for p in places:
            print(f'\t{p}')


def at(fn, more=''):
    return f'{fn.file}:{fn.line} {fn.name}{more}'


def enums():
    for f in files:
        for m in re.finditer(r'^\s*(?:pub )?enum (\w+)[^{]*\{', text[f], re.M):
            body = text[f][m.end():match_brace(text[f], m.end() - 1) - 1]
            body = re.sub(r'//[^\n]*', '', body)
            body = re.sub(r'\([^)]*\)', '', body)
            yield f, line_of(f, m.start(1)), m.group(1), [v for v in body.split(',') if v.strip()]


show(1, 'enums of two cases of the repository\'s own', (f'{f}:{n} {e}' for f, n, e, v in enums() if len(v) == 2))
show(1, 'other enums', (f'{f}:{n} {e}' for f, n, e, v in enums() if len(v) != 2))
show(1, 'functions that hand back 0 for "none"', (
    at(x) for x in fns if x.result in ('usize', 'u8', 'u64') and re.search(r'return 0;|=> 0,|else \{\s*0\s*\}', x.body)))
show(1, 'fields that say whether another holds', (
    f'{f}:{line_of(f, m.start())} {m.group(0).strip()}' for f in files
    for m in re.finditer(r'^    (?:pub )?(?:failed|number|line|step|commute): .*$', text[f], re.M)))
show(1, 'tests of a number that says none or refused', (
    f'{f}:{line_of(f, m.start())} {m.group(0)}' for f in files
    for m in re.finditer(r'\b(?:number|line|e|up|next|first|table\[q\]|slots\[m\]|parents\[\w+\])(?:\(\))? [!=]= 0\b', text[f])))

names = collections.defaultdict(list)
for x in fns:
    names[x.name].append(x)
show(2, 'names of functions that stand in several files', (
    f'{n}: ' + ', '.join(sorted({x.file for x in xs})) for n, xs in sorted(names.items())
    if len({x.file for x in xs}) > 1 and n not in ('main', 'fmt', 'from', 'eq')))
show(2, 'names that differ in a number, or in a word for a type or a size', (
    at(x) for x in fns if re.search(r'_(?:one|two|three|in|into|real|naive|flag)$', x.name)))

show(3, 'loops that are no `for`', (
    f'{f}:{line_of(f, m.start(1))} {m.group(1).strip()}' for f in files
    for m in re.finditer(r'^\s*((?:\'\w+: )?(?:while|loop)\b[^\n]*)', text[f], re.M)))

show(3, '`for` over a range of numbers', (
    f'{f}:{line_of(f, m.start(1))} {m.group(1).strip()}' for f in files
    for m in re.finditer(r'^\s*((?:\'\w+: )?for [^\n]* in [^\n]*\.\.[^\n]*)', text[f], re.M)))

show(4, 'functions of one cast, one comparison or one write', (
    at(x) for x in fns if re.fullmatch(
        r'\{\s*(?:\w+ as \w+|if (\w+) < (\w+) \{ \w+ \} else \{ \w+ \}|rt\.write_all\(\w+\)|print!\(rt; [^)]*\))\s*\}',
        x.body)))
show(4, 'writes of a byte string to a runtime', (
    f'{f}:{line_of(f, m.start())}' for f in files for m in re.finditer(r'\btext\(rt, b"', text[f])))
show(4, 'chains of `if .. return` that stand for `||` or `&&`', (
    at(x) for x in fns if x.result == 'bool' and re.search(r'\{\s*return (?:true|false);\s*\}', x.body)
    and not re.search(r'\b(?:while|loop|for)\b', x.body)))

show(5, 'functions of seven or more parameters', (at(x, f' {len(x.params)}') for x in fns if len(x.params) >= 7))
facts = collections.defaultdict(set)
for x in fns:
    crate = x.file.split('/')[1]
    for kind, c in x.clauses:
        if kind == 'requires':
            for part in re.split(r' × (?![^(]*\))', c):
                part = re.sub(r'\.(?:now|old|new|entry)\b', '', part.strip().strip('()'))
                facts[crate, part].add((x.file, x.name))
show(5, 'facts that three or more functions of a crate require', (
    f'{crate}: {part}: {len(xs)}' for (crate, part), xs in sorted(facts.items()) if len(xs) >= 3))

show(6, 'local arrays of a fixed length', (
    f'{f}:{line_of(f, m.start())} {m.group(0)}' for f in files
    for m in re.finditer(r'let mut \w+ = \[[^;\]]+; \w+\]', text[f])))
show(7, 'parameters that are a yes or no', (
    at(x, f' {p}') for x in fns for p in x.params if re.search(r': bool$', p)))


def lines(pattern):
    return sum(len(open(f, encoding='utf-8').read().splitlines()) for f in glob.glob(pattern, recursive=True))


own = sum(lines(p) for p in glob.glob('crates/*/proofs/*.antt'))
whole = lines('crates/*/proofs/**/*.antt')
print(f'8\tlines of proofs of functions\t{whole - own}')
print(f'8\tlines of lemmas\t{own}')
print(f'-\tfunctions\t{len(fns)}')
print(f'-\tlines of code\t{sum(len(t.splitlines()) for t in text.values())}')
print(f'-\tlines of definitions\t{lines("crates/*/specs/**/*.antt")}')
