#!/usr/bin/env python3
"""What changed in public functions, types and specs/ between two trees of this repository, old and new side by side, in Markdown.

    tools/design_changes.py functions|definitions OLD NEW

`functions` lists public functions and methods with their clauses, and public types; `definitions` the definitions, records and theorems of specs/. What only
moved, or is laid out otherwise, is not listed. Part of docs/DESIGN-PASS.md was made by it."""
import collections
import pathlib
import re
import sys

SIGNATURE = re.compile(r'^ *((?:#\[[^\n]*\]\n *)*)(pub (?:extern "C" )?fn (\w+)(?:<[^\n]*?>)?\([^{}]*?\)[^\n{]*)(\n(?: +[^\n]*\n)*?) *\{', re.M)
TYPE = re.compile(r'^(?:#\[[^\n]*\]\n)*pub (?:struct|enum|trait) (\w+)[^\n;{]*(?:;|\{\n.*?^\})', re.M | re.S)


def flat(text):
    text = re.sub(r'//[^\n]*', '', text)
    text = re.sub(r'\s+', ' ', text).strip()
    text = re.sub(r',\s*([)}\]])', r'\1', text)
    return re.sub(r'([(\[{]) ', r'\1', re.sub(r' ([)\]])', r'\1', text))


def functions(root):
    found = {}
    for path in sorted(pathlib.Path(root).glob('crates/*/src/**/*.rt')):
        crate, text = path.parts[-3] if path.parts[-2] == 'src' else path.parts[-4], path.read_text()
        impls = [(m.start(), m[1]) for m in re.finditer(r'^impl(?:<[^>]*>)? (?:\w+(?:<[^>]*>)? for )?(\w+)', text, re.M)]
        for m in SIGNATURE.finditer(text):
            name = m[3]
            if m[0].startswith('    '):
                inside = [i for at, i in impls if at < m.start()]
                name = (inside[-1] + '::' if inside else '') + name
            found[crate, name] = flat(m[2]) + ' ' + flat(m[4])
        for m in TYPE.finditer(text):
            found[crate, m[1]] = flat(re.sub(r'^ *(ensures|requires) .*$', lambda x: x[0], m[0], flags=re.M))
    return found


def definitions(root):
    found = {}
    for path in sorted(pathlib.Path(root).glob('crates/*/specs/**/*.antt')):
        crate = path.parts[path.parts.index('crates') + 1]
        for block in re.split(r'\n\s*\n', path.read_text()):
            text = '\n'.join(line for line in block.split('\n') if not line.lstrip().startswith('--') and not line.startswith('use '))
            m = re.search(r'^ *(?:abbrev |unfoldable )?pub (?:record |data |abbrev )?(\S+)', text, re.M)
            if m and m[1] not in ('mod', 'use'):
                found[crate, m[1]] = text.strip('\n')
    return found


def statement(text):
    """Of a theorem its statement alone: what stands before its first clause."""
    lines = text.split('\n')
    head = lines[0]
    if re.match(r' *(abbrev|unfoldable|pub record|pub data)', head):
        return '\n'.join(lines)
    out = [head]
    for line in lines[1:]:
        if re.match(r' *(→|×|\()', line):
            out.append(line)
        else:
            break
    return '\n'.join(out)


def main():
    what, old, new = sys.argv[1:]
    read = functions if what == 'functions' else definitions
    before, after = read(old), read(new)
    crates = collections.defaultdict(list)
    for key in sorted(set(before) | set(after)):
        a, b = before.get(key), after.get(key)
        if what == 'definitions':
            a, b = a and statement(a), b and statement(b)
        if a is None or (b is not None and flat(a) == flat(b)):
            continue
        if b is None and what == 'definitions':
            moved = [c for c, n in after if n == key[1] and flat(statement(after[c, n])) == flat(a)]
            if moved:
                continue
        crates[key[0]].append((key[1], a, b))
    for crate in crates:
        print(f'\n### {crate}\n')
        if what == 'functions':
            print('| Name | Old | New |\n|---|---|---|')
            for name, a, b in crates[crate]:
                cells = [('`' + x.replace('|', '\\|') + '`') if x else 'gone' for x in (a, b)]
                print(f'| `{name}` | {cells[0]} | {cells[1]} |')
        else:
            for name, a, b in crates[crate]:
                print(f'`{name}`: ' + ('gone; it was' if b is None else 'old, then new') + '\n\n```text\n' + a + ('' if b is None else '\n-- new\n' + b) + '\n```\n')


main()
