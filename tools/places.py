#!/usr/bin/env python3
"""Counts places in src/ where an older form stands: tools/places.py [COMMIT], the working tree without one.

Each rule below is one of the rows that docs/DESIGN-PASS.md counts. A rule finds places to look at, no verdicts.
"""
import collections
import difflib
import re
import subprocess
import sys

COMMIT = sys.argv[1] if len(sys.argv) > 1 else None


def run(*args):
    return subprocess.run(args, capture_output=True, text=True, check=True).stdout


def sources():
    listed = run('git', 'ls-tree', '-r', '--name-only', COMMIT) if COMMIT else run('git', 'ls-files')
    for path in listed.split('\n'):
        if re.fullmatch(r'crates/\w+/src/.*\.rt', path):
            yield path, run('git', 'show', f'{COMMIT}:{path}') if COMMIT else open(path).read()


Fn = collections.namedtuple('Fn', 'path name params answer clauses body public')
HEAD = re.compile(r'^( *)(pub(?:\(crate\))? )?fn (\w+)(?:<.*?>)?\((?=\n|&|\)|\w+[:,)]|mut )', re.M)


def functions(path, text):
    """The functions of a file: a signature ends where its body's brace stands alone or ends its line."""
    for m in HEAD.finditer(text):
        depth, i = 1, m.end()
        while depth:
            depth += {'(': 1, ')': -1}.get(text[i], 0)
            i += 1
        params = text[m.end():i - 1]
        indent = m.group(1)
        opens = re.compile(r'\{\n(?=%s    |%s\})' % (indent, indent)).search(text, i)
        ends = text.find(';', i)
        if not opens or 0 <= ends < opens.start():
            continue
        close = text.find(f'\n{indent}}}\n', opens.end() - 1)
        between = text[i:opens.start()]
        answer = re.match(r'\s*->\s*([^\n{]*)', between)
        yield Fn(path, m.group(3), params, answer.group(1).strip() if answer else '',
                 re.findall(r'(?:requires|ensures)\*?(?: \w+)? \{ (.*) \}', between),
                 text[opens.end():close + 1], m.group(2) == 'pub ')


FILES = list(sources())
FNS = [f for path, text in FILES for f in functions(path, text)]


def show(point, rule, places):
    places = list(places)
    print(f'{point} {rule}: {len(places)}')
    for place in places:
        print(f'    {place}')


def where(f):
    return f'{f.path} {f.name}'


def lines(pattern):
    for path, text in FILES:
        for n, line in enumerate(text.split('\n'), 1):
            code = line.split('//')[0]
            if 'ghost' not in code and not re.match(r'\s*(requires|ensures)', code) and re.search(pattern, code):
                yield f'{path}:{n} {line.strip()}'


def two_way_enums():
    for path, text in FILES:
        for m in re.finditer(r'enum (\w+)[^{]*\{\n(.*?)\n\}', text, re.S):
            cases = re.findall(r'^    (\w+)(\([^)]*\))?,', m.group(2), re.M)
            if len(cases) == 2 and any(c[1] for c in cases):
                yield f'{path} {m.group(1)}: ' + ' | '.join(c[0] + c[1] for c in cases)


def shape(f):
    """A body with its names, numbers and texts as classes: what is left is its form."""
    code = re.sub(r'//.*', '', f.body)
    code = re.sub(r'"[^"]*"', '"', code)
    return re.findall(r'[A-Za-z_]\w*|\d+|\S', re.sub(r'\b(?!if\b|else\b|for\b|in\b|match\b|return\b|let\b|mut\b)[A-Za-z_]\w*', 'x', code))


def twins():
    forms = [(f, shape(f)) for f in FNS]
    for i, (f, a) in enumerate(forms):
        for g, b in forms[i + 1:]:
            if min(len(a), len(b)) < 14 or abs(len(a) - len(b)) > max(len(a), len(b)) // 8:
                continue
            if difflib.SequenceMatcher(None, a, b, autojunk=False).ratio() >= 0.93:
                yield f'{where(f)} ~ {where(g)}'


def pieces(clause):
    """The facts of a clause that are joined by ×, without the parentheses around them."""
    clause = re.sub(r'\(?[A-Z]\w*\.Ring\.ring [\w.]+\)?', 'R', clause)
    return [re.sub(r'\s+', ' ', p).strip('() ') for p in clause.split(' × ')]


def common_facts():
    seen = collections.defaultdict(set)
    for path, text in FILES:
        for m in re.finditer(r'requires(?: \w+)? \{ (.*) \}', text):
            fn = HEAD.findall(text[:m.start()])
            for piece in pieces(m.group(1)):
                seen[piece].add(f'{path} {fn[-1][2]}')
    for piece, fns in sorted(seen.items()):
        if len(fns) >= 3:
            yield f'{len(fns)} functions: {piece}'


def travelling():
    seen = collections.defaultdict(set)
    for f in FNS:
        names = [re.sub(r'^mut ', '', p.split(':')[0].strip()) for p in f.params.split(',') if ':' in p]
        for i in range(len(names)):
            for j in range(i + 2, len(names) + 1):
                seen[tuple(names[i:j])].add(where(f))
    most = {k: v for k, v in seen.items() if len(v) >= 3}
    for k, v in sorted(most.items(), key=lambda e: (-len(e[1]), e[0])):
        if not any(k != o and set(k) < set(o) and v <= w for o, w in most.items()):
            yield f'{len(v)} functions: {", ".join(k)}'


show('1', 'a bool beside a buffer that is written', (where(f) for f in FNS if f.answer == 'bool' and '&mut' in f.params and 'self' not in f.params.split(',')[0]))
show('1', 'a bool that means nothing', (where(f) for f in FNS if f.answer == 'bool' and f.body.strip() == 'true'))
show('1', 'an enum of two cases, with a value in one', two_way_enums())
show('1', 'a result inside a result or an option', (f'{where(f)}: {f.answer}' for f in FNS if re.search(r'(Option|Result)<(Option|Result)<', f.answer)))
show('1', 'a number that stands for a kind', lines(r'\b(layer|number): usize\b|(&Shape|&self), [kl]: usize|fn (group_of|layer_of)\b|named == \d|=> 99'))
show('2', 'functions of one form', twins())
show('2', 'a test that gives one refusal', lines(r'^\s*Some\(Refusal::'))
show('3', 'while and loop', lines(r'^\s*(while\b|loop\b)|= loop\b'))
show('3', 'for over a range', lines(r'^\s*for \w+ in [^{]*\.\.'))
show('3', 'a counter kept by hand', lines(r'^\s*\w+ \+= |^\s*\w+ = \w+\.saturating_add'))
show('4', 'an impl that a derive could stand for', lines(r'^impl.* (PartialEq|Eq|Ord|PartialOrd|Clone|Copy|Hash|Debug|Default) for'))
show('4', 'a conversion or a text made by hand', lines(r'\bfn (spell|parse_\w+|shape_of|room|first_byte|begins_with|number|said)\b|v1: (\*v1|key\[1\]) as'))
show('5', 'a fact that three or more functions require', common_facts())
show('5', 'parameters that three or more functions take one after the other', travelling())
show('6', 'an index into a table in place of a name', lines(r'SETS\[\d\]'))
show('6', 'a local array and the length of its used part', lines(r'= (zeros\(\)|\[0u8; PART\]);'))
show('7', 'a flag or a kind that picks the step', lines(r'\w+: bool\b|match mask\b|mask: Mask\b'))
