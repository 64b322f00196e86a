#!/usr/bin/env python3
"""Places of src/ that a newer form may serve, point by point of the issue that docs/DESIGN-PASS.md is about.

    tools/design_places.py [--list] [FOLDER]

counts them, or lists each as POINT FILE:LINE WHAT. It knows shapes and not meanings: what it finds is a place to look at.
A place with a comment line that begins with `// Kept:` in the twelve lines above it, or in it, counts as kept."""
import collections
import pathlib
import re
import sys

args = [a for a in sys.argv[1:] if a != '--list']
root = pathlib.Path(args[0] if args else '.')
found = []          # (point, file, line, what, kept)
functions = []      # (file, line, name, parameters, clauses, body)
CLOSERS = {'(': ')', '{': '}', '[': ']'}


def closing(text, at):
    """The place of the bracket that closes the one at `at`; brackets in octets and texts do not count."""
    depth = 0
    quote = ''
    i = at
    while i < len(text):
        c = text[i]
        if quote:
            if c == '\\':
                i += 1
            elif c == quote:
                quote = ''
        elif c == '"' or (c == "'" and re.match(r"'(\\.|[^\\'])'", text[i:])):
            quote = c
        elif text.startswith('//', i):
            i = text.find('\n', i)
            continue
        elif c in '({[':
            depth += 1
        elif c in ')}]':
            depth -= 1
            if depth == 0:
                return i
        i += 1
    return len(text)


def place(point, file, text, at, what, end=None):
    line = text.count('\n', 0, at) + 1
    lines = text.split('\n')
    last = text.count('\n', 0, end) + 1 if end else line
    kept = any('// Kept:' in row for row in lines[max(0, line - 6):last])
    found.append((point, str(file), line, what, kept))


def split(parameters):
    """Parameters at the commas outside of brackets."""
    parts, depth, one = [], 0, ''
    for c in parameters:
        if c in '([<{':
            depth += 1
        if c in ')]>}':
            depth -= 1
        if c == ',' and depth == 0:
            parts.append(one.strip())
            one = ''
        else:
            one += c
    return [p for p in parts + [one.strip()] if p]


def read(file):
    text = file.read_text()
    for m in re.finditer(r'^\s*(?:pub )?enum (\w+)[^{]*\{', text, re.M):
        body = re.sub(r'//.*', '', text[m.end():closing(text, m.end() - 1)])
        variants = split(body)
        plain = [v for v in variants if re.fullmatch(r'\w+', v)]
        holding = [v for v in variants if not re.fullmatch(r'\w+', v)]
        if len(plain) == 1 and holding and (len(variants) == 2 or plain[0] in ('Bad', 'Wrong', 'Unlabelled', 'Unknown', 'Neither', 'Strange', 'Nothing')):
            place('1 enum', file, text, m.start(1), m[1])
    for m in re.finditer(r'^\s*(?:pub )?struct (\w+)[^{;(]*\{', text, re.M):
        body = text[m.end():closing(text, m.end() - 1)]
        fields = [f for f in split(re.sub(r'//.*', '', body)) if not f.startswith('ghost')]
        if any(re.fullmatch(r'(pub )?(ok|fits|valid|holds|all): bool', f) for f in fields):
            place('1 flag', file, text, m.start(1), m[1])
        counted = [f for f in fields if re.search(r': \[.*; \d+\]', f)]
        if counted and any(re.fullmatch(r'(pub )?(count|len|n|used|rows): (u64|u8|usize)', f) for f in fields):
            place('6 length', file, text, m.start(1), m[1])
    for m in re.finditer(r'^(?:[ \t]*//[^\n]*\n)*[ \t]*(?:pub )?(?:final )?fn (\w+)(?:<[^>]*>)?\(', text, re.M):
        start = text.index('fn ' + m[1], m.start())
        end = closing(text, m.end() - 1)
        parameters = split(re.sub(r'//.*', '', text[m.end():end]))
        brace = re.compile(r'^\s*\{', re.M).search(text, end)
        semi = text.find(';', end)
        if not brace or (0 <= semi < brace.start() and 'ensures' not in text[end:semi] and '{' not in text[end:semi]):
            continue
        head = text[end + 1:brace.start()]
        single = re.search(r'\{\s*$', head)
        open_at = brace.end() - 1
        one = re.match(r'\s*(->[^{\n]*)?\{', text[end + 1:])
        if one:
            open_at = end + 1 + one.end() - 1
            head = text[end + 1:open_at]
        stop = closing(text, open_at)
        body = text[open_at:stop + 1]
        comment = text[m.start():start]
        functions.append((file, text, start, m[1], parameters, head, body, stop))
        gives = re.match(r'\s*->\s*([^\n{]*)', head)
        if gives and re.match(r'u8|u64|usize', gives[1]) and re.search(r'or 0\b|, 0 where|or n\b|or the last row|else `used`|; 0 where|not 0 where|1 or 0|1 for', comment):
            place('1 number', file, text, start, m[1], stop)
        for w in re.finditer(r'^\s*(while|loop)\b[^\n]*', body, re.M):
            rest = body[w.start():closing(body, body.index('{', w.start()))]
            counts = re.search(r'^\s*\w+ (\+|-)= \w+;', rest, re.M)
            place('3 loop' if counts else '3 other loop', file, text, open_at + w.start(1), m[1] + ': ' + w[0].strip(), open_at + w.end())
        flat = re.sub(r'\s+', ' ', re.sub(r'//.*', '', body)).strip()
        if re.fullmatch(r'\{ (\w+) as u?\w+ \}', flat):
            place('4 conversion', file, text, start, m[1], stop)
        if re.fullmatch(r'\{ if (\w+) \{ (return )?(true|\w+);? \} (else \{ )?(false|\w+)( \})? \}', flat) or re.fullmatch(r'\{ if (\w+) \{ (1|0) \} else \{ (1|0) \} \}', flat) \
                or re.fullmatch(r'\{ if (\w+) \{ return 1; \} 0 \}', flat) or re.fullmatch(r'\{ if \w+ (<|<=) \w+ \{ (return )?\w+;? \} (else \{ )?\w+( \})? \}', flat):
            place('4 by hand', file, text, start, m[1], stop)
        if flat.count('=> true') + flat.count('=> false') >= 4:
            place('4 match to bool', file, text, start, m[1], stop)
        names = [p.split(':')[0].replace('mut ', '').strip() for p in parameters]
        types = {p.split(':')[0].replace('mut ', '').strip(): p.split(':', 1)[1].strip() for p in parameters if ':' in p}
        if any(t == 'usize' and n in ('n', 'used', 'count', 'filled', 'end') for n, t in types.items()) and any('[' in t for t in types.values()):
            place('6 length', file, text, start, m[1], stop)
        if sum(bool(re.match(r'&(mut )?\[u\d+; 64\]', t)) for t in types.values()) >= 2:
            place('6 parallel', file, text, start, m[1], stop)
        if re.search(r'(if|match) (kind|scope|step|k|r|selector|place)( ==|\b \{)', flat) and len(re.findall(r'\b(kind|scope|step|k) == \d', flat)) >= 2:
            place('7 switch on a number', file, text, start, m[1], stop)


for file in sorted(root.glob('crates/*/src/**/*.rt')):
    read(file)

# twins: bodies that are the same but for names of functions and types, and numbers; of more than one step, or a test by hand
groups = collections.defaultdict(list)
for f in functions:
    file, text, start, name, parameters, head, body, stop = f
    flat = re.sub(r'\s+', ' ', re.sub(r'//.*', '', body))
    flat = re.sub(r'b"(\\.|[^"\\])*"', 'TEXT', flat)
    flat = re.sub(r"b'(\\.|[^'\\])'|\b\d+\b", 'NUMBER', flat)
    flat = re.sub(r'\b(?:\w+::)*\w+(?=\()', 'CALL', flat)
    flat = re.sub(r'\b[A-Z]\w*(::\w+)*', 'TYPE', flat)
    order = {}
    flat = re.sub(r'\b[a-z_]\w*\b', lambda m: m[0] if m[0] in ('if', 'else', 'while', 'let', 'mut', 'return', 'match', 'true', 'false', 'loop', 'for', 'in', 'as') else order.setdefault(m[0], 'v%d' % len(order)), flat)
    if len(flat) >= 24:
        groups[flat].append(f)
for flat, fs in groups.items():
    if len(fs) >= 2 and ('if' in flat or 'while' in flat or 'for ' in flat or len(flat) > 60):
        for file, text, start, name, parameters, head, body, stop in fs:
            place('2 twin', file, text, start, '%s, one of %d' % (name, len(fs)), stop)

# facts of `requires` that stand in three functions or more, and parameters that travel together through three or more
facts = collections.Counter()
together = collections.Counter()
for file, text, start, name, parameters, head, body, stop in functions:
    for clause in re.findall(r'requires(?: \w+)? \{(.*)\}', head):
        for fact in {re.sub(r'\.(now|old)\b', '', p.strip(' ()')) for p in clause.split('×')}:
            facts[fact] += 1
    ps = sorted({re.sub(r"\s+", ' ', p) for p in parameters if ':' in p})
    for i in range(len(ps)):
        for j in range(i + 1, len(ps)):
            for k in range(j + 1, len(ps)):
                together[(ps[i], ps[j], ps[k])] += 1
for file, text, start, name, parameters, head, body, stop in functions:
    mine = {re.sub(r'\.(now|old)\b', '', p.strip(' ()')) for clause in re.findall(r'requires(?: \w+)? \{(.*)\}', head) for p in clause.split('×')}
    if any(facts[f] >= 3 for f in mine):
        place('5 fact', file, text, start, name, stop)
    ps = sorted({re.sub(r"\s+", ' ', p) for p in parameters if ':' in p})
    if any(together[t] >= 3 for t in ((ps[i], ps[j], ps[k]) for i in range(len(ps)) for j in range(i + 1, len(ps)) for k in range(j + 1, len(ps)))):
        place('5 together', file, text, start, name, stop)

if '--list' in sys.argv:
    for point, file, line, what, kept in sorted(found):
        print(point, '%s:%d' % (file, line), what, '(kept)' if kept else '')
else:
    total = collections.Counter(p for p, *_ in found)
    kept = collections.Counter(p for p, *_, k in found if k)
    for point in sorted(total):
        print('%-22s %4d places, %d kept' % (point, total[point], kept[point]))
