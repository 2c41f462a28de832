#!/usr/bin/env python3
"""Counts the places of docs/DESIGN-PASS.md in the sources.

usage: tools/places.py [--list] [FOLDER]      FOLDER holds crates/ (default: this repository); --list names each place

Point 1  enums, and structs with a flag or an answer beside a value, and the lines that name their variants or fields; constants that number kinds
Point 2  functions that are equal once names, types and numbers are left out of them (a group of n counts n - 1)
Point 3  loops by `while`
Point 4  functions that compare, copy, convert or print by hand, by name
Point 5  functions with more than eight parameters; facts that stand in the `requires` of three functions or more
Point 6  fields and parameters that are a column, or a number of elements beside a buffer, by name
Point 7  functions that choose a step by a number or a flag, by name
Point 8  proofs that walk the code by hand (Proof.antt); answers that are `search` alone
"""
import re
import sys
from collections import Counter, defaultdict
from pathlib import Path

KEYWORDS = set("fn let mut if else while for in match return as pub true false loop break continue struct enum impl const usize u8 u16 u32 u64 bool".split())
KEYWORDS -= {"u8", "u16", "u32", "u64", "usize"}


def functions(text):
    """name, parameters, clauses and body of each function of a file"""
    for m in re.finditer(r"^( *)(?:pub(?:\(crate\))? )?(?:extern \"C\" )?fn (\w+)", text, re.M):
        head = text[m.end():]
        body = head.index("\n" + m.group(1) + "{\n") if "\n" + m.group(1) + "{\n" in head else None
        one = re.match(r"[^\n]*\{\n", head)
        if one and not re.match(r"(<[^>]*>)?\($", head.split("\n")[0]) and one.end() < (body or 1 << 60):
            body = one.end() - 2
        if body is None:
            continue
        end = head.find("\n" + m.group(1) + "}", body)
        signature = head[:body]
        inner = signature[signature.index("(") + 1:]
        depth, params, cur = 1, [], ""
        for c in inner:
            if c in "([<":
                depth += 1
            if c in ")]>":
                depth -= 1
                if depth == 0:
                    break
            if c == "," and depth == 1:
                params.append(cur)
                cur = ""
            else:
                cur += c
        params = [p.strip() for p in params + [cur] if p.strip()]
        yield m.group(2), params, signature, head[body:end]


def shape(params, body):
    """what is left of a function without names, types and numbers"""
    seen = {}
    body = re.sub(r"//.*", "", body)

    def name(m):
        w = m.group(0)
        if w in KEYWORDS:
            return w
        return seen.setdefault(w, "a%d" % len(seen))

    body = re.sub(r"\b(u8|u16|u32|u64|usize)\b", "T", body)
    body = re.sub(r"\b\d[\w]*\b", "0", body)
    return str(len(params)) + re.sub(r"[A-Za-z_]\w*", name, body).replace(" ", "").replace("\n", "")


def main():
    args = [a for a in sys.argv[1:] if a != "--list"]
    root = Path(args[0]) if args else Path(__file__).resolve().parent.parent
    found = defaultdict(list)
    shapes = defaultdict(list)
    facts = defaultdict(set)
    for f in sorted(root.glob("crates/*/src/*.rt")):
        text = f.read_text()
        crate = f.parts[-3] + "/" + f.name
        for m in re.finditer(r"^(?:pub(?:\(crate\))? )?enum (\w+)", text, re.M):
            found["1 enums"].append(crate + " " + m.group(1))
        for m in re.finditer(r"^(?:pub(?:\(crate\))? )?struct (\w+)[^{;]*\{([^}]*)\}", text, re.M):
            if re.search(r"\b(answer: Reading|sound: bool|fired: bool|leads: bool)", m.group(2)):
                found["1 structs with a flag or an answer beside a value"].append(crate + " " + m.group(1))
        for i, line in enumerate(text.split("\n"), 1):
            code = line.split("//")[0]
            at = "%s:%d" % (crate, i)
            if re.search(r"\b(Reading|Writing|Checking|Heard|Attempt|Arrival|Trigger|Ended|Seen|Input)::\w|\.(fired|leads|sound)\b|\bsound\(|\bnowhere\(|Verdict::Refused|no_row\(", code):
                found["1 lines that use them"].append(at)
            if re.match(r"\s*(pub )?const (KEPT|REMOVED|ADDED|NO_TRANSITION|REST|FIRST_ADD|MOVE_LIMIT)\b", code):
                found["1 constants that number kinds"].append(at)
            if re.match(r"\s*while\b", code):
                found["3 while"].append(at)
        for name, params, signature, body in functions(text):
            at = crate + " " + name
            if len(body) > 60:
                shapes[shape(params, body)].append(at)
            if len(params) > 8:
                found["5 functions with more than eight parameters"].append("%s %d" % (at, len(params)))
            if re.search(r"(_numbers|^ruled|^equal|^copy|_bytes|^decimal|^numbers?|^emit|^put|_lines?|^print|^rule_of|_frame|^marked)$", name):
                found["4 by name"].append(at)
            if re.search(r"^(call|call_in|from_files|write|back|under_rule|in_first|next|added|kept|carry|fire_from|judge)$", name):
                found["7 by name"].append(at)
            for p in params:
                if re.match(r"(count|n|length|rows|len|wanted|scratch_wanted|long): (usize|u8|u16|u32)$", p) and any("[" in q for q in params):
                    found["6 a number beside a buffer"].append(at + " " + p)
            for clause in re.findall(r"requires(?: \w+)? \{(.*)\}", signature):
                for fact in clause.split(" × "):
                    fact = fact.strip().strip("()")
                    if re.search(r"[<≤≡]|^[A-Z]", fact):
                        facts[re.sub(r"\.(old|now|new)\b", "", fact)].add(at)
        for m in re.finditer(r"^    pub (\w+): \[u\d+;", text, re.M):
            found["6 columns of parts"].append(crate + " " + m.group(1))
    for names in shapes.values():
        for n in names[1:]:
            found["2 equal but for names, types, numbers"].append(names[0] + " = " + n)
    for fact, who in facts.items():
        if len(who) > 2:
            found["5 facts in three requires or more"].append("%s (%d)" % (fact, len(who)))
    for f in sorted(root.glob("crates/*/proofs/**/*.antt")):
        at = "/".join(f.parts[-4:])
        text = f.read_text()
        if f.name == "Proof.antt":
            found["8 proofs that walk the code"].append(at)
        for m in re.finditer(r"^(\S+)(?: \w)? = search rules$", text, re.M):
            found["8 answers that are a search alone"].append(at + " " + m.group(1))
    for key in sorted(found):
        print("%5d  %s" % (len(found[key]), key))
        if "--list" in sys.argv:
            for place in found[key]:
                print("         " + place)


main()
