#!/usr/bin/env python3
"""Lists the places in crates/*/src that docs/DESIGN-PASS.md counts, point by point.

    tools/design_places.py [FOLDER] [POINT..]

FOLDER is the top of a checkout, by default this one. Without points it prints the counts alone, with points each place
of these. It reads text, so a place is a candidate: the page says of each whether it was changed or why it stays.
"""
import collections
import glob
import os
import re
import sys

args = sys.argv[1:]
top = args.pop(0) if args and os.path.isdir(args[0]) else os.path.join(os.path.dirname(__file__), '..')
wanted = args

NUMBER = r'\b(?:0x[0-9a-f]+|[0-9][0-9_]*)(?:u8|u16|u32|u64|usize)?\b'


def source_files():
    return sorted(glob.glob(os.path.join(top, 'crates/*/src/*.rt')))


def code(path):
    """The text of a file without comments, with strings as they are."""
    text = open(path).read()
    return re.sub(r'//[^\n]*', '', text)


def matching(text, at, pair):
    depth = 0
    for i in range(at, len(text)):
        if text[i] == pair[0]:
            depth += 1
        elif text[i] == pair[1]:
            depth -= 1
            if depth == 0:
                return i
    return len(text)


Function = collections.namedtuple('Function', 'path name parameters result clauses body line')


def functions(path):
    text = code(path)
    for m in re.finditer(r'\bfn (\w+)', text):
        at = text.find('(', m.end())
        if '<' in text[m.end():at]:
            pass
        end = matching(text, at, '()')
        parameters = [re.sub(r'\s+', ' ', p).strip() for p in re.split(r',(?![^<(\[]*[>)\]])', text[at + 1:end])]
        rest = text[end + 1:]
        # clauses stand between the signature and the body; each has its own braces
        clauses, i, result = [], 0, ''
        head = re.match(r'\s*(->\s*(?:\[[^\]]*\]|[^\n{;\[])*?)?(?=\s*(requires|ensures|where|\{|;|\n))', rest)
        if head:
            result = (head.group(1) or '').strip()
            i = head.end()
        while True:
            c = re.match(r'\s*(requires|ensures)\s*(\w+\s*)?\{', rest[i:])
            if c:
                start = i + c.end() - 1
                stop = matching(rest, start, '{}')
                clauses.append((c.group(1), re.sub(r'\s+', ' ', rest[start + 1:stop]).strip()))
                i = stop + 1
                continue
            w = re.match(r'\s*where[^{]*?(?=\s(requires|ensures)|\{)', rest[i:])
            if w and w.end() > 0:
                i += w.end()
                continue
            break
        b = re.match(r'\s*\{', rest[i:])
        if not b:
            continue
        start = i + b.end() - 1
        stop = matching(rest, start, '{}')
        yield Function(path, m.group(1), [p for p in parameters if p], result, clauses, rest[start:stop + 1],
                       text[:m.start()].count('\n') + 1)


def place(f):
    return '%s:%d %s' % (os.path.relpath(f.path, top), f.line, f.name)


all_functions = [f for path in source_files() for f in functions(path)]
found = collections.OrderedDict()


def note(point, what, where):
    found.setdefault(point, collections.OrderedDict()).setdefault(what, []).append(where)


def lines_with(pattern):
    for path in source_files():
        for number, line in enumerate(code(path).split('\n'), 1):
            for m in re.finditer(pattern, line):
                yield '%s:%d %s' % (os.path.relpath(path, top), number, line.strip())


# 1: own enums of the shape of Option or Result, flags with a value beside, numbers for kinds or refusals
for path in source_files():
    text = code(path)
    for m in re.finditer(r'\benum (\w+)[^{]*\{', text):
        body = text[m.end():matching(text, m.end() - 1, '{}')]
        variants = [v.strip() for v in re.split(r',(?![^(]*\))', body) if v.strip()]
        if len(variants) <= 3 and any('(' in v for v in variants):
            shown = '%s %s { %s }' % (os.path.relpath(path, top), m.group(1), ', '.join(variants))
            note('1', 'enum with few variants, one with a value', shown)
for w in lines_with(r'\b(code|fits|own|mark|done): (u64|bool|u8)\b'):
    note('1', 'flag or code in a struct', w)
for w in lines_with(r'\b(Refused|refused)\((\d+|number)\b(?!\w)'):
    note('1', 'refusal by its number', w)
for f in all_functions:
    words = f.body + f.name + str(f.clauses)
    if f.result == '-> u64' and re.search(r'return (1?\d|2[0-2]);', f.body) and re.search(r'refusal|code', words):
        note('1', 'function whose result is a refusal number or 0', place(f))

# 2: functions of one shape: the same tokens but for names, types and numbers
shapes = collections.defaultdict(list)
for f in all_functions:
    tokens = re.findall(r'"[^"]*"|\w+|[^\s\w]', f.body)
    keep = {'if', 'else', 'while', 'for', 'in', 'match', 'return', 'let', 'mut', 'true', 'false', 'Ok', 'Err', 'Some', 'None'}
    shape = ' '.join(t if t in keep or not re.match(r'[\w"]', t) else 'x' for t in tokens)
    if len(tokens) >= 14:
        shapes[shape].append(f)
for shape, group in shapes.items():
    if len(group) > 1:
        note('2', 'functions of one shape', ' = '.join(place(f) for f in group))

# 3: loops that count an index by hand
for f in all_functions:
    for m in re.finditer(r'\bwhile ([^{]*)\{', f.body):
        inside = f.body[m.end():matching(f.body, m.end() - 1, '{}')]
        counted = [v for v in re.findall(r'(\w+) [+-]= [^;]*;', inside) if re.search(r'\b%s\b' % v, m.group(1))]
        note('3', 'while loop that counts' if counted else 'other while loop', place(f) + ' while ' + m.group(1).strip())

# 4: by hand what derives or conversions give
for path in source_files():
    text = code(path)
    for m in re.finditer(r'(#\[derive\(([^)]*)\)\]\s*)?(pub )?(struct|enum) (\w+)', text):
        if not m.group(2) or 'Eq' not in m.group(2):
            note('4', 'type without derived equality', '%s %s' % (os.path.relpath(path, top), m.group(5)))
for w in lines_with(r'^\s*(\w+): \1,'):
    note('4', 'field written twice (x: x)', w)
for f in all_functions:
    if re.match(r'(same|is_text|is_zeros|all_marked|past)', f.name):
        note('4', 'comparison by hand', place(f))
for w in lines_with(r'\b18446744073709551615\b'):
    note('4', 'greatest number written out', w)

# 5: facts in the contracts of three or more functions, and parameters that travel together
facts = collections.defaultdict(set)
for f in all_functions:
    for kind, text in f.clauses:
        if kind == 'requires':
            for part in re.split(r' × ', text):
                part = part.strip()
                if not part.startswith('('):
                    part = part
                facts[re.sub(r'^\((.*)\)$', r'\1', part)].add(place(f))
for fact, where in sorted(facts.items(), key=lambda p: -len(p[1])):
    if len(where) >= 3:
        note('5', 'fact in the requires of three or more functions', '%d times: %s' % (len(where), fact))
together = collections.defaultdict(set)
for f in all_functions:
    if 'exports' in f.path or 'agreement' in f.path:
        continue
    ps = [p for p in f.parameters if re.match(r'\w+:', p)]
    for i in range(len(ps) - 2):
        for j in range(i + 3, len(ps) + 1):
            together[tuple(ps[i:j])].add(place(f))
groups = [(ps, w) for ps, w in together.items() if len(w) >= 3]
for ps, w in groups:
    if not any(set(ps) < set(q) and w == v for q, v in groups):
        note('5', 'three or more parameters together in three or more functions', '%d times: %s' % (len(w), ', '.join(ps)))

# 6: buffers with a length beside, lists that travel with an index
for path in source_files():
    text = code(path)
    for m in re.finditer(r'struct (\w+)[^{;]*\{', text):
        body = text[m.end():matching(text, m.end() - 1, '{}')]
        if re.search(r': \[\w+; \w+\]', body) and re.search(r'(count|receivers|size): (usize|u64)', body):
            note('6', 'struct of an array and a length', '%s %s' % (os.path.relpath(path, top), m.group(1)))
for f in all_functions:
    if re.match(r'-> \[', f.result) and any('length' in c and 'result' in c for k, c in f.clauses if k == 'ensures'):
        note('6', 'function that returns an array of which a part counts', place(f))
    names = ' '.join(f.parameters)
    if re.search(r'&mut \[u8\]', names) and re.search(r'\b(at|offset|start|end): usize', names):
        note('6', 'list and the index where to write in it', place(f))

# 7: a switch on which step to run
for f in all_functions:
    if len(re.findall(r'(if|else if) \w+(\[\d\])? == b', f.body)) >= 2:
        note('7', 'switch by a byte or a text', place(f))

# 8: proofs
old = 0
for path in sorted(glob.glob(os.path.join(top, 'crates/*/proofs/**/*.antt'), recursive=True)):
    if '/out/' in path:
        continue
    text = open(path).read()
    if re.search(r'^use (mathlib|lib|native|Prim|borrow)\.', text, re.M):
        note('8', 'proof file that imports below std', os.path.relpath(path, top))
    if '/proofs/' in path and path.endswith('Answers.antt'):
        for m in re.finditer(r'^pub ([\w-]+) : goal\.', text, re.M):
            note('8', 'answer', '%s %s' % (os.path.relpath(path, top), m.group(1)))

for point, kinds in found.items():
    for what, where in kinds.items():
        print('%s  %-62s %4d' % (point, what, len(where)))
        if point in wanted:
            for w in where:
                print('       ' + w)
