#!/usr/bin/env python3
"""Brings the repository's own definitions and lemmas to the spelling of today's Rattle, after port.py.

usage: python3 tools/port_names.py [--all-the-same]     at the top, once, on what port.py left

Words are in snake case: a token in mixed case that begins with a small letter is one of ours, since the library has none left.
A dash joins two names: behind it stands the name of a definition of `model` or of the library; a plain word is joined by `_`.
A definition that is a fact is spelled as a type. Functions of src/, exported names, strings, inputs and outputs stay.
It says which names fall together in one file, and writes nothing then, but under --all-the-same: what it says of LANDED are ten pairs in files of
proofs/, a definition and the function (or goal) that is called like it, which the language tells apart by their places.
"""
import collections
import os
import re
import sys

# facts, which are types; and names that would meet a function's name or another definition in one file
GIVEN = {
    "unexcepted": "Unexcepted", "plainLine": "PlainLine", "fairLine": "FairLine", "unrefused": "Unrefused", "freely": "Freely", "Laid_out": "LaidOut",
    "dropAll": "drop_each", "flagWord": "word_of_flag", "numbersOf": "numbers_said", "oneMore": "counted_more", "partBy": "part_read", "readNumber": "number_read",
    "setAt": "number_set_at", "allBut": "all_without", "keysFound": "found_keys", "noRecord": "record_of_none", "takenOut": "rows_taken_out", "tooLarge": "command_too_large",
}
# words of the library that stand behind a dash
WORDS = "length append map drop take filter set cons snoc insert replicate concat reverse eqb leb ltb add sub mul div mod min max suc zero get_or nil".split()
MODIFIERS = r"(?:unfoldable|abbrev|pub|record|data|ruleset|opaque|inst|private|constructor)"
DECLARED = re.compile(r"^\s*(?:%s\s+)*([^\s(){}:;.,@\"]+)((?: (?:\([^)]*\)|\{[^}]*\}))*) : " % MODIFIERS, re.M)
TOKEN = re.compile(r'"(?:[^"\\\n]|\\.)*"|[^\s(){}.;,@"«»`\'\\|?!:/*=&<>\[\]#$%^+~]+(?:\'+(?![\w]))?')
CAMEL = re.compile(r"[a-z][a-z0-9]*[A-Z]\w*")


def files(top, ends):
    for folder, dirs, names in os.walk(top):
        dirs[:] = sorted(d for d in dirs if d not in ("out", "target", ".git"))
        for name in sorted(names):
            if name.endswith(ends):
                yield os.path.join(folder, name)


def read(path):
    with open(path, encoding="utf-8", errors="surrogateescape") as it:
        return it.read()


def in_snake(word):
    if not CAMEL.fullmatch(word):
        return word
    return re.sub(r"(?<=[a-z0-9])[A-Z]", lambda m: "_" + m[0].lower(), word).lower()


def tables():
    """The names that change: those declared outside a function's own proof, and each word in mixed case."""
    table, definitions = dict(GIVEN), set(WORDS)
    dashed, names = [], set()
    for path in files("crates", ".antt"):
        parts = path.split(os.sep)
        of_function = parts[2] == "proofs" and parts[-1] == "Proof.antt"
        for m in DECLARED.finditer(read(path)):
            name = m[1]
            names.add(name)
            if "-" in name and not name.startswith("-") and not of_function:
                dashed.append(name)
            elif parts[1] == "model" and parts[2] == "specs" and "-" not in name:
                definitions.add(table.get(name, in_snake(name)))
    for name in dashed:
        words = [table.get(w, in_snake(w)) for w in name.split("-")]
        new = words[0]
        for w in words[1:]:
            new += ("-" if w in definitions and w not in PLAIN or not re.fullmatch(r"\w+", w) else "_") + w
        table[name] = new
    # a lemma that would have a definition's name
    taken = {table.get(n, in_snake(n)) for n in names if "-" not in n}
    for name in set(dashed):
        if table[name] in taken:
            table[name] += "_lem"
    for name in names:
        table.setdefault(name, in_snake(name))
    for name in OF_LIBRARY:
        table.pop(name, None)
    return {old: new for old, new in table.items() if new != old}


# lemmas of the library that have the name of one of ours
OF_LIBRARY = ("and-true", "or-false")

# definitions whose names are plain words in a lemma's name
PLAIN = set("none one two some same all any no over end off left start past here first last next plain held given own out list open bare is of by at in on to with".split())


# a comment, by the file's kind
COMMENT = {".antt": r"(?<![^\s(){}.;,@\"«»])--[^\n]*", ".rt": r"//[^\n]*", ".edit": r"^#[^\n]*"}


def turned(text, table, path):
    """The text with the names of the table turned, and in code each word in mixed case: a comment's other words stay."""
    kind = os.path.splitext(path)[1]
    if kind not in COMMENT:
        return words_turned(text, table, False)
    whole = re.compile(r'"(?:[^"\\\n]|\\.)*"|' + COMMENT[kind], re.M)
    out, at = [], 0
    for m in whole.finditer(text):
        out.append(words_turned(text[at: m.start()], table, True))
        out.append(m[0] if m[0][0] == '"' else words_turned(m[0], table, False))
        at = m.end()
    return "".join(out) + words_turned(text[at:], table, True)


# fields of records, which turn behind a dot too: a function's labels there are Rattle's
FIELDS = set("waits-none many-nexts many-validities first-occasion lost-none many-attributes no-loss many-lens told-in-part many-counters silent-none".split())


def words_turned(text, table, code):
    """The text with the names of the table turned."""

    def one(m):
        word = m[0]
        if word[0] == '"':
            return word
        after_dot = text[m.start() - 1: m.start()] == "."
        if word in table:
            if after_dot and "-" in word and word not in FIELDS:
                head = re.search(r"([\w']+)\.$", text[max(0, m.start() - 80): m.start()])
                if not head or not (head[1][0].isupper() or head[1] == "places"):
                    return word
            return table[word]
        bare = word.rstrip("'")
        if bare in table:
            return table[bare] + word[len(bare):]
        if code and CAMEL.fullmatch(bare):
            return in_snake(bare) + word[len(bare):]
        return word

    return TOKEN.sub(one, text)


def main():
    table = tables()
    texts = {p: read(p) for p in files("crates", (".antt", ".rt", ".edit"))}
    bad = 0
    for path, text in texts.items():
        # what stands in a path is a crate, a function or a module
        words = {m[0] for m in TOKEN.finditer(text) if text[m.start() - 1: m.start()] != "." and text[m.end(): m.end() + 1] != "."}
        met = collections.defaultdict(set)
        for w in words:
            met[table.get(w, in_snake(w))].add(w)
        for new, olds in sorted(met.items()):
            if len(olds) > 1 and path.endswith(".antt"):
                print(f"falls together: {path}: {', '.join(sorted(olds))} -> {new}")
                bad += 1
    if bad and "--all-the-same" not in sys.argv:
        raise SystemExit(1)
    changed = 0
    docs = [p for p in list(files("docs", (".md",))) + ["README.md", "CHANGELOG.md"] + list(files("host", ("README.md",)))]
    for path in list(texts) + docs:
        old = read(path)
        new = turned(old, table, path)
        if new != old:
            changed += 1
            with open(path, "w", encoding="utf-8", errors="surrogateescape") as it:
                it.write(new)
    print(f"{len(table)} names, {changed} files")


if __name__ == "__main__":
    main()
