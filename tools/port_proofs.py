#!/usr/bin/env python3
"""Turns the proofs of functions from the older form, one Proof.antt over `tie.spec`, to Invariants.antt and Answers.antt.

usage: python3 tools/port_proofs.py CRATE [FUNCTION..]     at the top; it asks `rt check --generated --old-names` for the names

A goal keeps its proof; what a path reaches by `before` is a field of the goal's own record now, under its new name.
What it could not place stands behind 'left:' on its output.
"""
import json
import os
import re
import shutil
import subprocess
import sys
import tempfile

WORD = re.compile(r'"(?:[^"\\\n]|\\.)*"|--[^\n]*|[^\s(){}.;,@"«»\[\]]+|\.|[()\[\]{},;]|\s+')


def plain(name):
    return name.replace("_", "-")


def params_of(crate, where):
    """The names of a function's parameters, in order, as its source has them."""
    words = where.split("/")
    for folder, _, files in os.walk(os.path.join("crates", crate, "src")):
        for name in files:
            module = name[:-3]
            if len(words) > 1 and module != words[-2]:
                continue
            with open(os.path.join(folder, name), encoding="utf-8") as it:
                m = re.search(r"\bfn " + words[-1] + r"(?:<[^>]*>)?\(([^)]*)\)", it.read())
            if m:
                return re.findall(r"(\w+)\s*:", m[1])
    return []


def clauses_of(function):
    """The names of what a function ensures, in order."""
    words = function.split("::")
    for folder, _, files in os.walk(os.path.join("crates", words[0], "src")):
        for name in files:
            if len(words) > 2 and name[:-3] != words[-2]:
                continue
            with open(os.path.join(folder, name), encoding="utf-8") as it:
                m = re.search(r"\bfn " + words[-1] + r"(?:<[^>]*>)?\([^)]*\)[^\n]*\n((?:    (?:requires|ensures|ghost)[^\n]*\n)*)", it.read())
            if m:
                return re.findall(r"ensures (\w+) \{", m[1])
    return []


def names_of(crate):
    folder = tempfile.mkdtemp(prefix="names-")
    here = os.path.join("crates", crate)
    r = subprocess.run(["rt", "check", "--generated", folder, "--old-names"], cwd=here, capture_output=True, text=True)
    path = os.path.join(folder, "names.json")
    if not os.path.exists(path):
        print(r.stdout[-3000:], r.stderr[-2000:])
        raise SystemExit(1)
    with open(path, encoding="utf-8") as it:
        d = json.load(it)
    shutil.rmtree(folder)
    return d


def tokens(text):
    return [m[0] for m in WORD.finditer(text)]


def substituted(text, table):
    """The text with each word of the table that is no field replaced; a word that a binder hides stays."""
    out, before = [], ""
    toks = tokens(text)
    for i, t in enumerate(toks):
        # a field of a record that is written stays
        if t in table and before != "." and [x for x in toks[i + 1: i + 3] if not x.isspace()][:1] != ["="]:
            t = table[t]
        out.append(t)
        before = t
    return "".join(out)


class Function:
    def __init__(self, info, params, cycle=False):
        self.cycle = cycle
        self.info = info
        self.params = params
        self.places = {p[0]: p for p in info["places"]}
        self.arms = {p[0]: a for p, a in zip(info["places"], info["arms"])}
        self.needs = info["needs"]
        self.at = {plain(need[0]): (need[1], place[0]) for need, place in zip(info["needs"], info["asked_at"])}

    def ancestors(self, place):
        while place is not None and place in self.places:
            yield self.places[place]
            place = self.places[place][1]

    def turned(self, place, words):
        """An old path behind the context, as its new one; None where no step has the label."""
        if words[0] == "requires" and self.cycle and len(words) > 1:
            return ["requires"] + words[2:] if words[1] == "1" else ["decreases"] + words[2:]
        if words[0] == "well-formed":
            return ["well_formed"] + words[1:]
        if words[0] in ("requires", "ranges", "lifetimes", "type_inv", "well_formed", "auto", "typed"):
            return words
        if words[0] == "args":
            m = len(words) > 1 and re.fullmatch(r"t(\d+)", words[1])
            if m and words[1] not in self.params and int(m[1]) <= len(self.params):
                return ["args", self.params[int(m[1]) - 1]] + words[2:]
            return words
        for label in (words[0], words[0][:-4] if words[0].endswith("_lem") else words[0], words[0].replace("is_Is", "is_").lower()):
            for p in self.ancestors(place):
                arm = self.arms[p[0]]
                if arm:
                    best = None
                    for new, old, path in arm[2]:
                        if plain(old) == plain(label) and words[1: 1 + len(path)] == path:
                            if best is None or len(path) > len(best[1]):
                                best = (new, path)
                    if best:
                        return [arm[0], best[0]] + words[1 + len(best[1]):]
                if plain(p[2][0]) == plain(label):
                    tail = [w.replace("type-inv", "type_inv").replace("well-formed", "well_formed") for w in words[1:]]
                    variables = [x for (old, _), vs in self.info["loops"] if old == p[2][0] for x in vs]
                    for old, now in p[4]:
                        if tail and tail[0] == old and old not in variables:
                            tail[0] = now
                            break
                    if len(tail) > 1 and tail[0] in ("new", "auto") and tail[1].isdigit() and p[3] in self.info["params"]:
                        # a tuple of the parameters, nested to the right
                        names = self.info["params"][p[3]]
                        k = 0
                        while tail[1 + k: 2 + k] == ["1"]:
                            k += 1
                        if tail[1 + k: 2 + k] == ["0"] and k < len(names):
                            tail[1: 2 + k] = [names[k]]
                    if tail[:1] == ["ensures"] and len(tail) > 1 and p[3]:
                        # a tuple of the clauses, nested to the right
                        names, k = clauses_of(p[3]), 0
                        while tail[1 + k: 2 + k] == ["1"] and k + 2 < len(names):
                            k += 1
                        if len(names) > 1 and tail[1 + k: 2 + k] in (["0"], ["1"]):
                            tail[1: 2 + k] = [names[k + int(tail[1 + k])]]
                    return [p[2][1]] + tail
        return None


def of_context(text, f, place, left, c="c"):
    """A proof's text with its paths turned; place is where the goal stands."""
    alias = {c: []}   # what a name bound by let stands for: the old path behind the context, without `before`
    toks = tokens(text)
    out = []
    i = 0

    def path_at(i):
        """The dotted path that begins at i: its words, and where it ends."""
        words = [toks[i]]
        j = i + 1
        while j + 1 < len(toks) and toks[j] == "." and re.fullmatch(r"[^\s(){}.;,@\"«»\[\]]+", toks[j + 1]):
            words.append(toks[j + 1])
            j += 2
        return words, j

    def old_path(words):
        rest = alias[words[0]] + words[1:]
        while rest and rest[0] == "before":
            rest = rest[1:]
        return rest

    depth, hidden = 0, []
    while i < len(toks):
        t = toks[i]
        if t in ("(", "[", "{"):
            depth += 1
        if t in (")", "]", "}"):
            depth -= 1
        while hidden and (depth < hidden[-1][0] or t == "," and depth == hidden[-1][0]):
            alias.update(hidden.pop()[1])
        if t == "λ":
            j, bound = i + 1, []
            while toks[j] != ".":
                if toks[j] == ":":
                    pass
                elif toks[j] in alias:
                    bound.append(toks[j])
                j += 1
            if bound:
                hidden.append((depth, {n: alias.pop(n) for n in set(bound)}))
        if t == "let":
            j = i + 1
            while toks[j].isspace():
                j += 1
            name = toks[j]
            k = j + 1
            while k < len(toks) and toks[k].isspace():
                k += 1
            if k < len(toks) and toks[k] == "=":
                m = k + 1
                while toks[m].isspace():
                    m += 1
                words, end = path_at(m)
                e = end
                while e < len(toks) and toks[e].isspace():
                    e += 1
                if words[0] in alias and e < len(toks) and toks[e] == "in":
                    # what the name stands for goes where it is used
                    alias[name] = old_path(words)
                    i = e + 1
                    while i < len(toks) and toks[i].isspace():
                        i += 1
                    continue
                if name in alias and name != c:
                    # a name that is bound anew
                    rest = "".join(toks[m:])
                    out.append("let ")
                    i = j
                    out.append(name)
                    # its value may still speak of the old one
                    depth, q = 0, m
                    while q < len(toks) and not (depth == 0 and toks[q] == "in"):
                        depth += toks[q] in "([{" if toks[q].strip() else 0
                        depth -= toks[q] in ")]}" if toks[q].strip() else 0
                        if toks[q] == "let":
                            depth += 0
                        q += 1
                    value = "".join(toks[m:q])
                    keep = dict(alias)
                    out.append(" = " + of_value(value, f, place, left, keep))
                    del alias[name]
                    i = q
                    out.append("" if out[-1].endswith((" ", "\n")) else " ")
                    continue
        if re.fullmatch(r"[^\s(){}.;,@\"«»\[\]]+", t) and t in alias and (not out or out[-1] != ".") and [x for x in toks[i + 1: i + 3] if not x.isspace()][:1] != ["="]:
            words, end = path_at(i)
            rest = old_path(words)
            if not rest:
                if not re.search(r"λ[^.]*\b" + re.escape(words[0]) + r"\b", text):
                    left.append("whole context: " + ".".join(words))
                out.append(".".join(words))
            else:
                new = f.turned(place, rest)
                if new is None:
                    left.append("no step: " + ".".join(rest))
                    new = rest
                out.append(".".join(["c"] + new))
            i = end
            continue
        out.append(t)
        i += 1
    return "".join(out)


def of_value(text, f, place, left, alias):
    """A bound value, with the paths that the aliases stand for."""
    def one(m):
        words = m[0].split(".")
        if words[0] not in alias:
            return m[0]
        rest = alias[words[0]] + words[1:]
        while rest and rest[0] == "before":
            rest = rest[1:]
        new = f.turned(place, rest) if rest else None
        if new is None:
            left.append("no step: " + m[0])
            return m[0]
        return ".".join(["c"] + new)
    return re.sub(r"(?<![\w.'-])[^\s(){}.;,@\"«»\[\]]+(?:\.[^\s(){}.;,@\"«»\[\]]+)*", one, text)


def without_raw(text):
    """A test's fact by its name, where the proof made it from the test's own value."""
    text = re.sub(r"\bmapped _ \S+ (c\.well_formed)", r"\1", text)
    return re.sub(r"\(?not-(?:true|false) _ \(?([^\s()]+\.(?:true|false))-raw\)?\)?", lambda m: m[1] + ")" * (m[0].count(")") - m[0].count("(")), text)


def blocks(lines):
    """The declarations of a file, each with the lines before the next."""
    out, now = [], []
    for l in lines:
        starts = re.match(r"\S", l) and (not l.startswith("--"))
        if not l.strip():
            if now:
                out.append(now)
                now = []
            continue
        sig = re.match(r"(?:(?:abbrev|pub|unfoldable)\s+)*(\S+)((?: (?:\([^)]*\)|\{[^}]*\}))*) : ", l)
        if now and starts and sig and now[0].strip() and not now[0].startswith("--") and not now[0].startswith("module"):
            # an equation's own annotation is no new declaration
            out.append(now)
            now = []
        now.append(l)
    if now:
        out.append(now)
    return out


def spec_args(text, head="tie.spec"):
    """The arguments behind head, in order, each with the name that a comment gives it."""
    i = text.find(head) + len(head)
    args, depth, now, line, unnamed = [], 0, "", [], []

    def end():
        nonlocal now
        if now.strip():
            args.append([now.strip(), None])
            line.append(args[-1])
        now = ""

    while i < len(text):
        ch = text[i]
        if text.startswith("--", i) and depth == 0 and text[i - 1].isspace():
            j = text.find("\n", i)
            j = len(text) if j < 0 else j
            end()
            names = [n.strip() for n in text[i + 2: j].split(",")]
            ours = [x for x in line if SEARCH.fullmatch(x[0])]
            for x, n in zip(reversed(ours), reversed(names)):
                x[1] = n
            i = j
            continue
        if ch == "(":
            depth += 1
        if ch == ")":
            if depth == 0:
                break
            depth -= 1
        if depth == 0 and ch.isspace():
            end()
            if ch == "\n":
                line.clear()
        else:
            now += ch
        i += 1
    end()
    return args


# goals that need no answer any more
SETTLED = set()
SEARCH = re.compile(r"\(λ c(?: κs)?\. search rules\)")


def convert(crate, where, key, info, left_all):
    folder = os.path.join("crates", crate, "proofs", where)
    path = os.path.join(folder, "Proof.antt")
    with open(path, encoding="utf-8") as it:
        text = it.read()
    cycle = os.path.basename(where).startswith("+")
    if cycle:
        fns = {k: Function(i, params_of(crate, os.path.join(os.path.dirname(where), k)), True) for k, i in info.items()}
        heads = {a + ".spec": k for k, a in re.findall(r"\.Lts-(\S+) as (\S+)", text)}
    else:
        if "tie.spec" not in text:
            print(f"left: {path}: no tie.spec")
            return
        fns = {"": Function(info, params_of(crate, where))}
        heads = {"tie.spec": ""}
    many = len(fns) > 1
    named_answers = set()

    def prefix(fn):
        return fn + "-" if many else ""

    text = re.sub(r"(?m)^(abbrev \S+ : )(\S+)-lts\.(invariant|decreases)-(\S+)[ ]*$", r"\1tie.\3-\4 of \2", text)
    text = re.sub(r"(?m)^(\S+) :\s+\(t : ℕ\)\s*→\s*(\S+)-lts\.Need-(\S+)(?:[ \t(][\s\S]*?)?(?=\n(?:unfolding|\1 ))", r"\1 : tie.Need-\3 of \2", text)
    lines = text.split("\n")
    head = []
    while lines and (lines[0].startswith("--") or lines[0].startswith("use ") or not lines[0].strip()):
        if lines[0].startswith("use ") and "{" in lines[0] and "}" not in lines[0]:
            while "}" not in lines[0]:
                lines[0] = lines[0] + " " + lines.pop(1).strip()
        head.append(lines.pop(0))
    comments = [l for l in head if l.startswith("--")]
    uses = [l for l in head if l.startswith("use ") and ".Statement." not in l and not re.search(r"\.Tie as tie\b|\.Lts as|\.Code as|\.Lts-|\.(?:Reads|Kinds) as |^use borrow\.Fn\.|\.\{statement\}|\.Tie\.\{close\}", l)]
    dotted = where.replace("/", ".")
    left = []
    inv, ans, kept = [], [], []
    answered = set()
    for b in blocks(lines):
        body = "\n".join(b)
        pre = []
        while b and b[0].startswith("--"):
            pre.append(b.pop(0))
        if not b:
            kept.append("\n".join(pre))
            continue
        if cycle and re.match(r"abbrev \S+[-_](?:at|below|calls) : ℕ → ", b[0]):
            continue
        m = re.match(r"abbrev μ-(\S+) : Measures ", b[0])
        if m and cycle:
            fn = next(k for k in fns if plain(k) == plain(m[1]))
            names = fns[fn].params
            rhs = "\n".join(b[1:]).split("=", 1)[1].strip()
            rhs = re.sub(r"(?<![\w.])a((?:\.1)*)\.0(?!\d)", lambda q: "l." + names[len(q[1]) // 2], rhs)
            inv.append(f"abbrev pub decreases-{fn} : goal.decreases-{fn}\ndecreases-{fn} l = {rhs}")
            continue
        m = re.match(r"(?:(?:abbrev|pub|unfoldable)\s+)*(\S+) : tie\.(invariant|decreases)-(\S+)(?: of (\S+))?\s*$", b[0])
        if m:
            name, what, loop = m[1], m[2], m[3]
            fn = next(k for k in fns if plain(k) == plain(m[4] or ""))
            f, info = fns[fn], fns[fn].info
            new, vars_ = None, None
            for (old, now), vs in info["loops"]:
                if plain(old) == plain(loop):
                    new, vars_ = now, vs
                    changed = info["changed"][[l[0][0] for l in info["loops"]].index(old)]
            if new is None:
                left.append(f"loop {loop}")
                continue
            rest = "\n".join(b[1:])
            unf = ""
            u = re.match(r"(unfolding [^\n]*\n)", rest)
            if u:
                unf, rest = u[1], rest[len(u[1]):]
            eq = re.match(re.escape(name) + r"((?:\s+\S+)*?)\s*=\s?", rest)
            params = eq[1].split()
            table = {}
            v = next(x for x in ("l", "now", "at-turn") if x not in tokens(rest[eq.end():]))
            if len(params) != len(vars_) + sum(changed):
                left.append(f"{name}: {len(params)} parameters {params}, and the loop has {vars_} {changed}")
            k = len(vars_)
            for x, ch, p in zip(vars_, changed, params):
                table[p] = f"{v}.initial.{x}" if ch else f"{v}.{x}"
            later = [x for x, ch in zip(vars_, changed) if ch]
            for x, p in zip(later, params[k:]):
                table[p] = f"{v}.{x}"
            if what == "invariant":
                table.pop("_", None)
            newname = f"{what}-{prefix(fn)}{new}"
            rhs = substituted(rest[eq.end():], table)
            inv.append("\n".join(pre + [f"abbrev pub {newname} : goal.{newname}"]) + "\n" + unf + f"{newname} {v} = " + rhs.lstrip())
            continue
        m = re.match(r"(?:(?:abbrev|pub|unfoldable)\s+)*(\S+) : tie\.Need-(\S+)((?: \S+)*)\s*$", b[0])
        if m:
            name, need = m[1], m[2]
            of = re.search(r" of (\S+)", m[3])
            fn = next(k for k in fns if plain(k) == plain(of[1] if of and cycle else ""))
            f = fns[fn]
            named_answers.add(name)
            if plain(need) not in f.at:
                if plain(need) not in SETTLED and not re.match(r"overflow-|same-length", plain(need)):
                    left.append(f"goal {need}")
                continue
            new, place = f.at[plain(need)]
            new = prefix(fn) + new
            rest = "\n".join(b[1:])
            unf = ""
            u = re.match(r"((?:unfolding [^\n]*\n)+)", rest)
            if u:
                unf, rest = u[1], rest[len(u[1]):]
            eqs = re.split(r"(?m)^(?=" + re.escape(name) + r"(?:\s|$))", rest)
            eqs = [e for e in eqs if e.strip()]
            if len(eqs) != 1:
                left.append(f"{name}: {len(eqs)} equations")
            out = []
            for e in eqs:
                eq = re.match(re.escape(name) + r"((?:\s+[^\s=]+)*)\s*=[ ]?", e)
                if not eq:
                    left.append(f"{name}: no equation")
                    out.append(e)
                    continue
                params = eq[1].split()
                if cycle:
                    params = params[1:]
                c = params[0] if params else "c"
                rhs = of_context(e[eq.end():], f, place, left, c)
                lead = "" if rhs.startswith("\n") or not rhs.strip() else " "
                if not params:
                    out.append(f"{new} ={lead}" + rhs)
                else:
                    out.append(f"{new} {'t ' if cycle else ''}c ={lead}" + rhs)
            answered.add(plain(need))
            ans.append("\n".join(pre + [f"pub {new} : goal.{new}"]) + "\n" + unf + "\n".join(o.rstrip("\n") for o in out))
            continue
        if re.match(r"pub \S+-spec : |pub \S+_spec : ", b[0]):
            unf = "".join(l + "\n" for l in b if l.startswith("unfolding "))
            inline = []
            for head in heads:
                if head not in "\n".join(b):
                    continue
                fn = heads[head]
                f = fns[fn]
                args = spec_args("\n".join(b), head)
                args = [x for x in args if not re.fullmatch(r"(?:\S*-)?(?:invariant|decreases|Inv|μ)-\S+|\(\S+ t\)|\S+\.Post|\([^λ]*\)|λ|t\.", x[0], re.S) or re.fullmatch(r"\(\S+ t\)", x[0]) and x[0][1:-3] in named_answers]
                known = {plain(n[0]).replace("loop-smaller", "loop-less") for n in f.needs}
                base = lambda n: re.sub("^" + re.escape(plain(fn)) + "-", "", plain(n)) if fn else plain(n)
                strange = [x for x in args if x[1] is not None and base(x[1]).replace("loop-smaller", "loop-less") not in known]
                strange.sort(key=lambda x: not re.match("slice-aggregate|enum-|same-length|shape", base(x[1])))
                for x in strange:
                    if len(args) > len(f.needs):
                        args.remove(x)
                real = [x for x in args if x[0].startswith("(λ") and not SEARCH.fullmatch(x[0])]
                if not real:
                    continue
                if len(args) != len(f.needs):
                    left.append(f"{len(args)} arguments of {head}, {len(f.needs)} goals: {[x[0][:60] for x in args]} / {[n[0] for n in f.needs]}")
                    continue
                for (x, _), (old, new), place in zip(args, f.needs, f.info["asked_at"]):
                    if SEARCH.fullmatch(x) or not x.startswith("(λ"):
                        continue
                    m = re.fullmatch(r"\(λ (\S+?)(?: κs)?\. ?(.*)\)", x, re.S)
                    if not m:
                        m = re.fullmatch(r"\(λ (\S+?)(?: κs)?\.\s*(.*)\)", x, re.S)
                    if not m:
                        left.append(f"argument {x}")
                        continue
                    ans.append(f"pub {prefix(fn)}{new} : goal.{prefix(fn)}{new}\n{unf}{prefix(fn)}{new} {'t ' if cycle else ''}c = " + of_context(m[2], f, place[0], left, m[1]))
            continue
        kept.append("\n".join(pre + b))
    ans = [without_raw(a) for a in ans]
    usetext = "\n".join(uses)
    comment = "\n".join(comments)
    uses_of_ours = ""
    if inv:
        cited, named = [], {}
        for k in kept:
            m = re.search(r"(?m)^(?:(?:abbrev|pub|unfoldable)\s+)*(\S+)(?: \([^)]*\)| \{[^}]*\})* : ", k)
            if m:
                named[m[1]] = k
        todo = list(inv)
        while todo:
            words = set(tokens(todo.pop()))
            for n, k in named.items():
                if n in words and k not in cited:
                    cited.append(k)
                    todo.append(k)
        cited = [k for k in kept if k in cited]
        inv = [re.sub(r"(?m)^(abbrev|unfoldable) (?!pub )(?=\S+(?: \([^)]*\)| \{[^}]*\})* : )", r"\1 pub ", k) for k in cited] + inv
        if cited:
            kept = [k for k in kept if k not in cited]
            mine = sorted(n for n, k in named.items() if k in cited)
            rest = set(tokens("\n".join(kept + ans)))
            mine = [n for n in mine if n in rest]
            if mine:
                uses_of_ours = f"use Rattle.{crate}.proofs.{dotted}.Invariants.{{{', '.join(mine)}}}\n"
    if inv:
        with open(os.path.join(folder, "Invariants.antt"), "w", encoding="utf-8") as it:
            it.write(f"{comment}\n{usetext}\nuse Rattle.{crate}.proofs.{dotted}.Given as goal\n\n" + "\n\n".join(x.rstrip() for x in inv) + "\n")
    if ans:
        usetext += "\n" + uses_of_ours if uses_of_ours else ""
        usetext = usetext.rstrip("\n")
        with open(os.path.join(folder, "Answers.antt"), "w", encoding="utf-8") as it:
            it.write(f"{comment}\n{usetext}\nuse Rattle.{crate}.proofs.{dotted}.Goals as goal\n\n" + "\n\n".join(x.rstrip() for x in kept + ans) + "\n")
    os.remove(path)
    if not os.listdir(folder):
        os.rmdir(folder)
    for l in left:
        print(f"left: {crate} {where}: {l}")


def main():
    crate, only = sys.argv[1], sys.argv[2:]
    found = {}
    for key, info in sorted(names_of(crate).items()):
        m = re.fullmatch(r"Rattle-" + crate + r"-proofs\.(.+)\.Lts(?:-(\S+))?", key)
        if not m:
            continue
        where = m[1].replace(".", "/")
        if m[2]:
            found.setdefault(where, {})[m[2]] = info
        else:
            found[where] = info
    for where, info in found.items():
        if only and where not in only:
            continue
        if os.path.exists(os.path.join("crates", crate, "proofs", where, "Proof.antt")):
            convert(crate, where, "", info, None)


if __name__ == "__main__":
    main()
