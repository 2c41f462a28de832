#!/usr/bin/env python3
"""Spells the repository's own definitions, fields and lemmas as today's Rattle does: words in snake case, types and modules in camel case.

usage: tools/spell.py [--list] [FOLDER]      FOLDER holds crates/ (default: this repository); --list prints the table and writes nothing

A name of specs/ or proofs/ that begins with a small letter and has a capital or a dash inside is spelled with underscores instead, in every
.antt file, in the clauses and comments of every .rt file, and in the pages. A dash stays between two names that are themselves definitions.
Names of goals, of libraries and of functions in src/ stay.
"""
import collections
import glob
import os
import re
import sys

TOKEN = re.compile(r"[^\s(){}.;,@\"«»⌜⌝⟦⟧]+")
NAME = re.compile(r"^[a-z][A-Za-z0-9]*(?:[-_][A-Za-z0-9ℕ]+)*'*$|^[a-z][A-Za-z0-9_-]*'*$")
DECLARED = re.compile(r"^( *)(?:(?:abbrev|unfoldable|pub|record|data|ruleset) )*([^\s(){}.;,]+)(?= (?::|\(|\{|where))")
GOAL = re.compile(r"^ *(?:(?:abbrev|pub) )*\S+ : (?:tie|goal|lts)\.(?:Need-|invariant-|decreases-)")
# Lemmas that would meet a library's name, as a lemma that would have its function's name does.
LEMMAS = {"bit-or", "bit-and"}
# Lemmas whose name has the new spelling already, which a definition that they speak of gets too.
MEETING = {
    "crates/images/proofs/Marking.antt": ("low-first", "low_second"),
    "crates/model/proofs/MoveRows.antt": ("in_place",),
    "crates/model/proofs/Capping.antt": ("same_answer",),
    "crates/model/proofs/WithoutRule.antt": ("same_answer",),
    "crates/model/proofs/PairLaws.antt": ("same_answer",),
}
# Words of the libraries that a lemma's name may join by a dash.
WORDS = set("length take drop set map append replicate get_or tab mem cond".split())


def snake(name):
    return re.sub(r"(?<=[a-z0-9])[A-Z]", lambda m: "_" + m[0].lower(), name)


def files(top):
    return sorted(p for p in glob.glob(os.path.join(top, "crates/*/**/*.antt"), recursive=True) if "/out/" not in p)


def sources(top):
    return sorted(p for p in glob.glob(os.path.join(top, "crates/*/src/**/*.rt"), recursive=True))


def pages(top):
    return sorted(p for p in glob.glob(os.path.join(top, "docs/*.md")) + [os.path.join(top, "README.md")] if os.path.isfile(p) and os.path.basename(p) != "PORT.md")


def read(path):
    with open(path, encoding="utf-8") as f:
        return f.read()


def declared(top):
    """The names that specs/ and proofs/ declare, and which of them are definitions of specs/."""
    names, specs = set(), set()
    for path in files(top):
        proof = re.search(r"/(Proof|Answers|Invariants)\.antt$", path)
        for line in read(path).split("\n"):
            m = DECLARED.match(line)
            if not m or line.lstrip().startswith(("use ", "--", "let ", "in ")):
                continue
            if proof and (m[1] or GOAL.match(line) or m[2].endswith("-spec") or m[2].endswith("_spec")):
                continue
            if m[1] and not re.match(r" +(?:abbrev |unfoldable )?pub ", line) and not re.match(r"^  \S+ :", line):
                continue
            names.add(m[2])
            if "/specs/" in path:
                specs.add(m[2])
    return names, specs


def table(top):
    names, specs = declared(top)
    known = {snake(n).replace("-", "_") for n in specs} | WORDS
    new = {}
    for n in sorted(names):
        if not NAME.match(n) or not re.search(r"[a-z0-9][A-Z]|-", n):
            continue
        parts = snake(n.replace("getD", "get_or")).split("-")
        text = ("-" if len(parts) == 2 and set(parts) <= known else "_").join(parts)
        if text != n:
            new[n] = text
    camel = {text for n, text in new.items() if "-" not in n}
    for n, text in new.items():
        if n in LEMMAS or "-" in n and (text in camel or text in specs):
            new[n] = text + "_lem"
    # What a file binds by itself, or has left from a name that was turned before.
    for path in files(top):
        for w in TOKEN.findall(read(path)):
            if re.fullmatch(r"[a-z][a-z0-9_]*[A-Z]\w*'*", w) and w not in new:
                new[w] = re.sub("_([A-Z])", lambda m: "_" + m[1].lower(), snake(w))
    return new


def foreign(text, new):
    """The names of the table that a file brings in from a library: they stay there."""
    out = set()
    for m in re.finditer(r"(?m)^ *(?:pub |ghost )?use (?!Rattle\.(?!std\b)|package\b)([\w.]+)\.\{([^}]*)\}", text):
        for item in m[2].split(","):
            if item.split(" as ")[0].strip() in new:
                out.add(item.split(" as ")[0].strip())
    return out


def turned(text, new, stay):
    def word(m):
        w = m[0]
        if w in stay or w not in new:
            return w
        before = text[: m.start()]
        if before.endswith("."):
            head = re.search(r"([^\s(){};,@\"«»]+)\.$", before)
            if head and head[1].split(".")[0] in ("tie", "goal", "lts", "Prim"):
                return w
        return new[w]

    return TOKEN.sub(word, text)


def turned_source(text, new, stay):
    """Clauses, ghost items and comments of a source."""
    out, at = [], 0
    pattern = re.compile(r"//[^\n]*|ghost\s+use\b[^;]*;|(?:requires|ensures)\*?\s*(?:\w+\s*)?\{|ghost\s+\w+\s*:\s*\{")
    while True:
        m = pattern.search(text, at)
        if not m:
            out.append(text[at:])
            return "".join(out)
        out.append(text[at : m.start()])
        end = m.end()
        if m[0].endswith("{"):
            depth = 1
            while depth:
                depth += {"{": 1, "}": -1}.get(text[end], 0)
                end += 1
        out.append(turned(text[m.start() : end], new, stay))
        at = end


def turned_page(text, new):
    return re.sub(r"`([^`\n]+)`", lambda m: "`" + turned(m[1], new, set()) + "`" if "/" not in m[1] else m[0], text)


def main(argv):
    listing = "--list" in argv
    rest = [a for a in argv if a != "--list"]
    top = rest[0] if rest else os.path.dirname(os.path.dirname(os.path.abspath(__file__)))
    new = table(top)
    back = collections.defaultdict(list)
    for old, spelled in new.items():
        back[spelled].append(old)
    for spelled, olds in back.items():
        if len(olds) > 1:
            print("look: two names fall together:", spelled, *olds)
    if listing:
        for old, spelled in new.items():
            print(old, spelled)
    for path in files(top) + sources(top) + pages(top):
        text = was = read(path)
        stay = foreign(text, new)
        for name in MEETING.get(os.path.relpath(path, top), ()):
            lemma = snake(name).replace("-", "_") + "_lem"
            text = TOKEN.sub(lambda m, name=name, lemma=lemma: lemma if m[0] == name else m[0], text)
        if path.endswith(".md"):
            done = turned_page(text, new)
        elif path.endswith(".rt"):
            done = turned_source(text, new, stay)
        else:
            done = turned(text, new, stay)
        words = set(TOKEN.findall(text))
        for old in words & set(new) - stay:
            if not path.endswith(".md") and new[old] in words and new[old] != old:
                print("look:", os.path.relpath(path, top), "has both", old, new[old])
        if done != was and not listing:
            with open(path, "w", encoding="utf-8") as f:
                f.write(done)


if __name__ == "__main__":
    main(sys.argv[1:])
