#!/usr/bin/env python3
"""Lays out the lines of a walk: steps that only bring something to the front, join it or split it share a line, and a line
above the width is broken behind `$` or `in`, before `∷`, `⊛` or `→`, or before an argument in brackets. Within a tuple nothing
is broken: the formatter would put each element on a line of its own.

    walk_lines.py FILE..        then `rt fmt`
"""
import re
import sys
from pathlib import Path

WIDTH = 240
STEP = r'(?:(?:move|keep) ! \([^()]*\)|(?:split|join|drop|f?split3|f?join3|fsplit|fjoin|free1|free0|nothing|frame|updating|at-once|pass0) !|lft-end ! tt|forget ! \d+ refl)'
# what begins a line within a walk; any other begins a declaration, and what follows is set in
WITHIN = re.compile(r' +(\w+[\w\-]* ! |[∷⊛→(]|use\d W |into\d W |qed W |\(λ )')
SMALL = re.compile(r'( *)(%s \$ ?)+$' % STEP)


def octets(text):
    return len(text.encode())


def shared(lines):
    """The lines with rows of small steps on one line, as far as the width goes."""
    out = []
    for line in lines:
        now, last = SMALL.match(line), out and SMALL.match(out[-1])
        if now and last and now[1] == last[1] and octets(out[-1] + line) - len(now[1]) < WIDTH:
            out[-1] += ' ' + line.strip()
        else:
            out.append(line)
    return out


def places(line):
    """Where the line may be broken, each with how little it is liked."""
    opened, tuples = [], set()
    for i, c in enumerate(line):
        if c in '({':
            opened.append(i)
            tuples |= {i} if c == '{' else set()
        elif c in ')}' and opened:
            opened.pop()
        elif c == ',' and opened:
            tuples.add(opened[-1])
    depth = []
    for i, c in enumerate(line):
        free = not tuples.intersection(depth)
        if free and (line[i - 2:i + 1] == ' $ ' or line[i - 3:i + 1] == ' in '):
            yield i + 1, 0
        elif free and c in '∷⊛→' and line[i - 1] == ' ' and not line.startswith('∷ []', i):
            yield i, 1 + len(depth)
        elif free and c == '(' and line[i - 1] == ' ' and re.search(r"[\w)!\]′]$", line[:i - 1]):
            yield i, 3 + len(depth)
        if c in '({':
            depth.append(i)
        elif c in ')}' and depth:
            depth.pop()


def broken(line):
    """The line in pieces within the width, where it can be broken."""
    start = len(line) - len(line.lstrip())
    rest = start if WITHIN.match(line) else start + 4
    out = []
    while octets(line) > WIDTH:
        fit = [(at, rank) for at, rank in places(line) if at > start + 20 and octets(line[:at].rstrip()) <= WIDTH]
        if not fit:
            break
        at = max(fit, key=lambda one: octets(line[:one[0]]) - 25 * min(one[1], 6))[0]
        out.append(line[:at].rstrip())
        line = ' ' * rest + line[at:].lstrip()
    return out + [line]


def laid_out(text):
    out = []
    for line in shared(text.split('\n')):
        plain = line.startswith('use ') or line.lstrip().startswith('--')
        out += [line] if plain or octets(line) <= WIDTH else broken(line)
    return '\n'.join(out)


def main():
    for name in sys.argv[1:]:
        text = Path(name).read_text()
        laid = laid_out(text)
        Path(name).write_text(laid)
        print(f'{name}: {laid.count(chr(10))} lines, {text.count(chr(10))} before')


if __name__ == '__main__':
    main()
