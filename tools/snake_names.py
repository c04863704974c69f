#!/usr/bin/env python3
"""Turns the repository's own definitions and lemmas to snake case, as today's Rattle spells names.

usage: python3 tools/snake_names.py [--check] [FOLDER]

It reads the names that crates/*/specs and crates/*/proofs declare, and writes each that has a dash or a capital inside
(`rest-at`, `fedCall`) in snake case (`rest_at`, `fed_call`) wherever it stands: in proof files, in clauses, ghost items and
ghost use lines of sources, and in must-fail edits. Left alone: what begins with a capital (a type keeps its name), the names that
Rattle makes for goals and invariants, names that a file takes from a library, strings, and words of comments that are no names.
--check writes nothing. What falls together is printed on a line that begins with 'together:'.
"""

import collections
import os
import re
import sys

TOKEN = re.compile(r"[^\s(){}\[\],;.:\"`⌜⌝λ@\\]+")
HEAD = re.compile(r"^((?:abbrev|unfoldable|pub)\s+)*(data|record|syntax|module|ruleset)\s+(\S+)")
DECLARED = re.compile(r"^((?:abbrev|unfoldable|pub|opaque)\s+)*([^\s(){}:=,]+)\s*:(?!=)(.*)")
# A declaration in a module within a file.
INNER = re.compile(r"^\s+((?:abbrev|unfoldable|pub|module) )*([a-z][^\s(){}:=,]*) :(?!=)(.*)")
MEMBER = re.compile(r"^\s+([^\s(){}:=,]+(?:\s+[^\s(){}:=,]+)*)\s*:")
MADE = re.compile(r"\b(tie|\w*lts)\.|Need-|\bInv-|-lts\.|goal\.")
# Where a definition and what is said of it fall together, the plain name is the definition's, and the lemma ends in _lem; these are settled by hand.
SETTLED = {
    "acted-on": "acted_on",
    "actedOn": "acted_on_types",
    "any-command": "any_command",
    "anyCommand": "with_any_command",
    "answer-sent": "answer_sent",
    "async-initialize": "async_initialize",
    "by-delivery": "by_delivery",
    "error-sent": "error_sent",
    "errorSent": "error_frame",
    "release-of": "release_of",
    "releaseOf": "release_from",
    "byte_step": "byte_step_lem",
    "by_next": "by_next_lem",
    "rows_in": "rows_in_lem",
    "list_read": "list_read_lem",
    "bit-xor": "bit_xor_lem",
    "is-nan": "is_nan_lem",
    "no_span": "no_span_lem",
    "isLive": "IsLive",
}
LOWER = re.compile(r"^[a-z][A-Za-z0-9'₀-₉·-]*[A-Za-z0-9'₀-₉]$")


def snake(name):
    name = re.sub(r"(?<=[a-z0-9])([A-Z])", lambda m: "_" + m[1].lower(), name)
    return name.replace("-", "_")


def paths(root, ends):
    for folder, folders, files in os.walk(os.path.join(root, "crates")):
        folders[:] = sorted(it for it in folders if it != "out")
        for it in sorted(files):
            if it.endswith(ends):
                yield os.path.join(folder, it)


def declared(text):
    """The names that a file of antt declares at its head level, and of its data and records the members."""
    block = None
    for line in text.split("\n"):
        if not line.strip() or line.lstrip().startswith("--"):
            continue
        head = HEAD.match(line)
        if head:
            block = head[2]
            if block == "module":
                block = "inside"
            continue
        if line[0] not in " \t":
            it = DECLARED.match(line)
            if it and not MADE.search(it[3]):
                yield it[2]
            block = None
        elif block in ("data", "record"):
            it = MEMBER.match(line)
            if it:
                yield from it[1].split()
        elif block == "inside":
            it = INNER.match(line)
            if it and not MADE.search(it[3]):
                yield it[2]


def foreign(text, own):
    """The names that a file takes from a library."""
    for it in re.finditer(r"(?m)^(?:pub )?(?:ghost )?use ([\w.+'·-]+?)\.\{([^}]*)\}", text):
        crate = re.match(r"Rattle\.(\w+)", it[1])
        if crate and crate[1] in own:
            continue
        for name in it[2].split(","):
            yield from name.replace(" as ", " ").split()


def made(text):
    """The names that Rattle makes and this proof file answers to."""
    for line in text.split("\n"):
        it = DECLARED.match(line)
        if it and MADE.search(it[3]):
            yield it[2]


def replaced(line, names, comment):
    """The line with its names turned. In a comment only a name in backquotes, or one with a capital inside, is a name."""

    def turn(it):
        old = it[0]
        if old not in names:
            return old
        if comment and "-" in old:
            quoted = line.count("`", 0, it.start()) % 2 == 1
            if not quoted:
                return old
        return names[old]

    return TOKEN.sub(turn, line)


def turned(line, names, mark):
    """A line of code: strings stay, and what follows the mark of a comment is one."""
    parts = re.split(r'("(?:[^"\\]|\\.)*")', line)
    out, comment = [], False
    for part in parts:
        if part.startswith('"') and not comment:
            out.append(part)
            continue
        if not comment and mark in part:
            at = re.search(r"(^|\s)" + re.escape(mark), part)
            if at:
                out.append(replaced(part[: at.start()], names, False))
                part = part[at.start() :]
                comment = True
        out.append(replaced(part, names, comment))
    return "".join(out)


def main(argv):
    check = "--check" in argv
    rest = [it for it in argv if it != "--check"]
    root = rest[0] if rest else "."
    own = set(os.listdir(os.path.join(root, "crates")))
    texts = {p: open(p, encoding="utf-8").read() for p in paths(root, (".antt", ".rt", ".edit"))}
    names, where, goals = {}, collections.defaultdict(set), set()
    for p, text in texts.items():
        if p.endswith(".antt"):
            if p.endswith("Proof.antt"):
                goals.update(made(text))
            for name in declared(text):
                where[name].add(p)
    for name in where:
        if name in SETTLED:
            names[name] = SETTLED[name]
        elif name not in goals and LOWER.match(name) and snake(name) != name:
            names[name] = snake(name)
    together = collections.defaultdict(set)
    for old, new in names.items():
        together[new].add(old)
        if new in where and new not in names:
            together[new].add(new)
    for new, olds in sorted(together.items()):
        if len(olds) > 1:
            lemmas = [it for it in olds if "-" in it and it not in SETTLED]
            for it in lemmas:
                names[it] = new + "_lem"
            olds = [it for it in olds if it not in lemmas]
            files = set.intersection(*({p for p in texts if it in set(TOKEN.findall(texts[p]))} for it in olds))
            if len(olds) > 1 and files:
                print(f"together: {new}: {sorted(olds)}: in the same file: {sorted(files)}")
    count = 0
    for p, text in texts.items():
        outside = set(foreign(text, own))
        here = {k: v for k, v in names.items() if k not in outside}
        tokens = set(TOKEN.findall(text))
        for old in sorted(tokens & set(names) & outside):
            print(f"library's: {p}: {old}")
        for old in sorted(tokens & set(here)):
            if here[old] in tokens:
                print(f"there already: {p}: {old} -> {here[old]}")
        mark = "--" if p.endswith(".antt") else "//"
        lines = text.split("\n")
        if p.endswith(".edit"):
            of = next((it for it in lines if it.startswith("file: ")), "")
            mark = "--" if of.endswith(".antt") else "//"
            new = [turned(it, here, mark) if it.startswith(("old:", "new:")) else replaced(it, here, True) for it in lines]
        else:
            new = [turned(it, here, mark) for it in lines]
        new = "\n".join(new)
        if new != text:
            count += 1
            if not check:
                with open(p, "w", encoding="utf-8") as f:
                    f.write(new)
    print(f"{len(names)} names in {count} files")
    pages = [os.path.join(root, "README.md")]
    for folder, _, files in os.walk(os.path.join(root, "docs")):
        pages += [os.path.join(folder, it) for it in sorted(files) if it.endswith((".md", ".txt"))]
    for p in pages:
        with open(p, encoding="utf-8") as f:
            text = f.read()
        new = "\n".join(replaced(it, names, True) for it in text.split("\n"))
        if new != text and not check:
            with open(p, "w", encoding="utf-8") as f:
                f.write(new)
    return 0


if __name__ == "__main__":
    raise SystemExit(main(sys.argv[1:]))
