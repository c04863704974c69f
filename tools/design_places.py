#!/usr/bin/env python3
"""design_places.py [COMMIT] [--list]: the places of docs/DESIGN-PASS.md's eight points in the sources, counted by text; --list prints each.

Without a commit it reads the files as they stand. What it counts, by point:
1 enums, sentinels and numbers: each `enum` that is shaped as Option or Result, each flag in a struct that says whether the values beside it
  count, each constant that numbers a kind, a verdict, a fault or a refusal (or stands for none), each refusal given by its number.
2 twins: groups of functions whose text is the same but for numbers, types, constants and the names of the functions called, or whose names
  differ only in a number, and pairs `x` and `x_in`.
3 loops: each `while`.
4 each function that is nothing but tests which return true or false, each minimum, each conversion of one value and each struct copied field by field.
5 each part of a `requires` that three functions or more have, and each row of three parameters or more that ten functions or more have.
6 each struct or walk with a buffer and its length beside it.
7 each function that chooses among three calls or more by comparing one number.
8 answers and lemmas in proofs/."""
import collections
import os
import re
import subprocess
import sys

COMMIT = next((a for a in sys.argv[1:] if not a.startswith("--")), None)
LIST = "--list" in sys.argv


def files(pattern):
    if COMMIT:
        names = subprocess.run(["git", "ls-tree", "-r", "--name-only", COMMIT, "crates"], capture_output=True, text=True, check=True).stdout.split("\n")
        for name in names:
            if re.fullmatch(pattern, name):
                yield name, subprocess.run(["git", "show", f"{COMMIT}:{name}"], capture_output=True, text=True, check=True).stdout
        return
    for top, folders, names in os.walk("crates"):
        folders[:] = sorted(f for f in folders if f != "out")
        for n in sorted(names):
            name = os.path.join(top, n)
            if re.fullmatch(pattern, name):
                yield name, open(name, encoding="utf-8").read()


def line_of(text, at):
    return text.count("\n", 0, at) + 1


def closing(text, at):
    deep = 0
    for k in range(at, len(text)):
        deep += (text[k] == "{") - (text[k] == "}")
        if deep == 0 and text[k] == "}":
            return k
    return len(text)


SOURCES = [(n, re.sub(r"//[^\n]*", "", t)) for n, t in files(r"crates/[^/]+/src/.*\.rt")]
found = {p: [] for p in range(1, 9)}


def note(point, name, text, at, what):
    found[point].append(f"{name}:{line_of(text, at)}: {what}")


class Function:
    def __init__(self, name, text, m):
        self.file, self.text, self.at, self.name = name, text, m.start(), m[1]
        # the body's brace begins a line behind the clauses, or ends the signature
        hit = re.compile(r"\n\s*\{[ \t]*\}?|\) (?:-> [^{\n]+ )?\{\s*$|\) \{\}", re.M).search(text, m.end())
        if hit is None:
            self.head, self.body = text[m.start():m.end()], ""
            return
        start = text.index("{", hit.start())
        self.head = text[m.start():start]
        self.body = text[start + 1:closing(text, start)]

    def parameters(self):
        m = re.search(r"\((.*?)\)\s*(?:->|\n|\{|$)", self.head, re.S)
        if not m:
            return []
        return [re.sub(r"\s+", " ", p.strip()) for p in re.split(r",(?![^\[<(]*[\]>)])", m[1]) if p.strip()]


FUNCTIONS = []
for n, t in SOURCES:
    for m in re.finditer(r"\bfn ([a-z_0-9]+)", t):
        FUNCTIONS.append(Function(n, t, m))

# 1
for n, t in SOURCES:
    for m in re.finditer(r"\benum (\w+)[^{]*\{", t):
        cases = [c.strip() for c in re.split(r",(?![^(]*\))", t[m.end():closing(t, m.end() - 1)]) if c.strip()]
        plain = [c for c in cases if "(" not in c and "{" not in c]
        two = len(cases) == 2 and (len(plain) == 1 or not plain)
        refusals = len(cases) == 3 and bool(re.match(r"(Taken|Written|Good|Done|Ok)\b", cases[0]))
        if two or refusals:
            note(1, n, t, m.start(), f"enum {m[1]}")
    for m in re.finditer(r"\bstruct (\w+) \{", t):
        for f in re.finditer(r"(?:pub )?(found|seen|fault|refusal|withheld|kind|role|outcome): (u8|u64|bool)", t[m.end():closing(t, m.end() - 1)]):
            note(1, n, t, m.start(), f"struct {m[1]}, {f[1]}")
    for m in re.finditer(r"^\s*(?:pub )?const ([A-Z_0-9]+): (?:u8|u64|usize) = (\d+|[A-Z_]+);", t, re.M):
        file = os.path.basename(n)
        numbered = {"verdict.rt", "outcome.rt", "search.rt", "types.rt", "heads.rt", "standing.rt", "arguments.rt"}
        if (file in numbered and m[1] not in {"START", "NUMBERS", "LAST_HOME", "LONGEST"}) or re.match(r"(NO_|BAD_|TOO_|UNREAD|ACTED_ON|MORE$|LENGTH$|DISTANCE$|SUM$|LAYOUT$|PARCELS$|TRAILER$|WHOLE$|ACCEPTED$|LIST_TOO)", m[1]):
            note(1, n, t, m.start(), f"number {m[1]}")
    for m in re.finditer(r"\b(refuse|told|done|replied|sized|no_readings)\((?:[1-9]\d*|[A-Z_]+)\b|\breturn [5-8];", t):
        note(1, n, t, m.start(), f"refusal by number: {m[0]}")

# 2
groups = collections.defaultdict(list)
for f in FUNCTIONS:
    if not f.body.strip():
        continue
    skeleton = re.sub(r"\b(u8|u16|u32|u64|usize|f32)\b", "T", f.body)
    skeleton = re.sub(r"\b\d[\w]*\b", "N", skeleton)
    skeleton = re.sub(r"\b(?:[a-z_0-9]+::)*[A-Z][A-Z_0-9]+\b", "C", skeleton)
    skeleton = re.sub(r"\b(?:[a-z_0-9]+::)*[a-z_0-9]+\(", "f(", skeleton)
    skeleton = re.sub(r"\s+", " ", skeleton)
    types = tuple(re.sub(r"\b(u8|u16|u32|u64|usize|f32|Words|Strings)\b", "T", p.split(":", 1)[-1]) for p in f.parameters())
    if len(skeleton) > 24:
        groups[skeleton, types].append(f)
NUMBER = r"_?(one|two|three|four|eight|sixteen|triple|long|byte|4|8)$"
named = collections.defaultdict(list)
for f in FUNCTIONS:
    if re.search(NUMBER, f.name):
        named[f.file, re.sub(NUMBER, "", f.name)].append(f)
for f in FUNCTIONS:
    twin = [g for g in FUNCTIONS if g.file == f.file and g.name == f.name + "_in" and re.fullmatch(rf"\s*{g.name}\([^;]*\);?\s*", f.body)]
    if twin:
        note(2, f.file, f.text, f.at, f"{f.name}, {twin[0].name}")
for members in list(groups.values()) + list(named.values()):
    if len(members) > 1 and not all(f.file.startswith("crates/hislip_c/") or "/examples/" in f.file for f in members):
        note(2, members[0].file, members[0].text, members[0].at, ", ".join(f.name for f in members))

# 3
for n, t in SOURCES:
    for m in re.finditer(r"\bwhile ", t):
        note(3, n, t, m.start(), t[m.start():t.index("\n", m.start())].strip())

# 4
for f in FUNCTIONS:
    flat = re.sub(r"\s+", " ", f.body).strip()
    if re.search(r"-> bool", f.head) and re.search(r"return (?:true|false);", flat) and re.fullmatch(r"(?:if [^{}]* \{ return [^;{}]*; \} )+[^;{}]*", flat):
        note(4, f.file, f.text, f.at, f"{f.name}: true or false by hand")
    if re.fullmatch(r"if (\w+) <=? .*? \{ return \1(?: as \w+)?; \} \w+(?: as \w+)?", flat):
        note(4, f.file, f.text, f.at, f"{f.name}: a minimum")
    if re.fullmatch(r"\(?\w+(?: as \w+)\)?", flat):
        note(4, f.file, f.text, f.at, f"{f.name}: a conversion")
    if re.fullmatch(r"if .{1,40} \{ return [01]; \} [01]", flat):
        note(4, f.file, f.text, f.at, f"{f.name}: a bool's number")
    for m in re.finditer(r"(\w+): (\w+)\.\1,\s*(\w+): \2\.\3,", f.body):
        note(4, f.file, f.text, f.at, f"{f.name}: fields copied from {m[2]}")
        break

# 5
facts = collections.defaultdict(list)
for f in FUNCTIONS:
    for m in re.finditer(r"requires(?: \w+)? \{(.*?)\}\s*(?=ensures|requires|\{|$)", f.head, re.S):
        parts, deep, last = [], 0, 0
        text = m[1]
        for k, ch in enumerate(text):
            deep += (ch == "(") - (ch == ")")
            if ch == "×" and deep == 0:
                parts.append(text[last:k])
                last = k + 1
        parts.append(text[last:])
        for part in parts:
            fact = re.sub(r"\s+", " ", part).strip()
            fact = re.sub(r"^\((.*)\)$", r"\1", fact)
            if fact:
                facts[fact].append(f)
for fact, members in sorted(facts.items(), key=lambda x: -len(x[1])):
    if len(members) >= 3:
        found[5].append(f"{len(members)} contracts: {fact[:110]}")
rows = collections.defaultdict(set)
for f in FUNCTIONS:
    if f.file.startswith(("crates/hislip_c/", "crates/examples/")):
        continue
    names = [p for p in f.parameters()]
    for k in range(3, len(names) + 1):
        for i in range(0, len(names) - k + 1):
            rows[tuple(names[i:i + k])].add((f.file, f.name))
widest = [r for r in rows if len(rows[r]) >= 10 and not any(len(o) > len(r) and len(rows[o]) >= len(rows[r]) and str(r)[1:-1] in str(o) for o in rows)]
for r in sorted(widest, key=lambda r: -len(rows[r])):
    found[5].append(f"{len(rows[r])} functions: ({', '.join(r)})")

# 6
for n, t in SOURCES:
    for m in re.finditer(r"\bstruct (\w+) \{", t):
        body = t[m.end():closing(t, m.end() - 1)]
        if re.search(r": \[\w+; ", body) or re.search(r"\b(begin|body|first|at|start): usize,\s*(?:pub )?(len|size|count)\b", body):
            note(6, n, t, m.start(), f"struct {m[1]}")
for f in FUNCTIONS:
    if re.search(r"\b(buf|src|rows|b): &(?:mut )?\[\w+\]?[^,]*, (have|n|len): usize", re.sub(r"\s+", " ", f.head)):
        note(6, f.file, f.text, f.at, f"{f.name}: a buffer and its length")

# 7
for f in FUNCTIONS:
    by = collections.Counter(re.findall(r"if ([\w.]+) == (?:[\w:]+) \{\s*(?:let told = |return )[\w:]+\(", f.body))
    if by and max(by.values()) >= 3:
        note(7, f.file, f.text, f.at, f"{f.name}: by {by.most_common(1)[0][0]}, {max(by.values())} calls")

# 8
answers = lemmas = 0
for n, t in files(r"crates/[^/]+/proofs/.*\.antt"):
    count = len(re.findall(r"^pub [\w«-].*? :", t, re.M))
    if n.endswith("/Answers.antt"):
        answers += count
    elif not n.endswith(("/Invariants.antt", "/Lib.antt")):
        lemmas += len(re.findall(r"^(?:pub )?[\w«][^\s=]* :", t, re.M))
NAMES = {
    1: "own enums, flags, numbers", 2: "twins", 3: "loops by hand", 4: "equality, conversion, copying by hand",
    5: "facts and parameters that go together", 6: "buffers with a length", 7: "switches", 8: "proofs",
}
for p in range(1, 8):
    print(f"{p} {NAMES[p]}: {len(found[p])}")
    if LIST:
        print("".join(f"    {x}\n" for x in found[p]), end="")
print(f"8 {NAMES[8]}: {answers} answers, {lemmas} lemmas beside them")
