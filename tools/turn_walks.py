#!/usr/bin/env python3
"""Turns proof files of the older form, proofs/F/Proof.antt, into proofs/F/Invariants.antt and proofs/F/Answers.antt.

usage: python3 tools/turn_walks.py NAMES CRATE [FUNCTION..]

NAMES is the folder that `rt check --generated NAMES --old-names` wrote for the crate, and CRATE its folder. A FUNCTION is a path below
proofs/, as frame/put_bytes; with none, each Proof.antt is turned. An old goal `tie.Need-X` becomes today's goal of that name, a walk back
`c.before.before.step` becomes `c.STEP`, with the step's name of today, and an invariant reads its loop's record. Answers that only search go.
What it can't turn it prints on a line 'left:', and leaves that Proof.antt where it is.
"""

import json
import os
import re
import sys

NAME = r"[^\s(){}\[\],;.:\"`λ]+"
OUTER = {"args", "requires", "ranges", "type_inv", "utf8", "auto", "well_formed"}
SEARCH = re.compile(r"^(search rules|\(search rules\))$")


class Left(Exception):
    pass


def plain(name):
    """A name with its dashes, underscores and capitals alike."""
    return re.sub("_lem$", "", name).replace("_", "-").lower()


def unnumbered(name):
    return re.sub(r"-?[0-9]+$", "", plain(name))


def chunks(text):
    """The file's head comment, its use lines and its declarations: (name, signature, body) with the text of each."""
    head, uses, decls, current = [], [], [], None
    for line in text.split("\n"):
        if line.startswith("use "):
            uses.append(line)
            current = None
        elif line.startswith("--"):
            if not decls and not uses:
                head.append(line)
            else:
                current = [line] if current is None or current[-1:] == [""] else current + [line]
                if current == [line]:
                    decls.append(current)
        elif line and line[0] not in " \t)":
            fresh = current is None or (current and not current[-1].startswith("--") and starts(line))
            if fresh:
                current = []
                decls.append(current)
            current.append(line)
        elif current is not None:
            current.append(line)
    return head, uses, decls


def starts(line):
    return bool(re.match(r"^((abbrev|unfoldable|pub) )*\S+ :( |$)", line))


class Decl:
    def __init__(self, lines):
        while lines and not lines[-1].strip():
            lines.pop()
        self.comment = []
        while lines and lines[0].startswith("--"):
            self.comment.append(lines.pop(0))
        self.text = "\n".join(lines)
        it = re.match(r"^((?:abbrev |unfoldable |pub )*)(\S+) : ", self.text)
        if not it:
            raise Left(f"not read: {self.text[:60]}")
        self.words, self.name = it[1], it[2]
        # the body begins at the line that begins with the name again
        at = re.search(r"(?m)^" + re.escape(self.name) + r"(?=[ \n])(?! :)", self.text[it.end() :])
        if not at:
            raise Left(f"no body: {self.name}")
        cut = it.end() + at.start()
        self.type = self.text[it.end() : cut].strip()
        self.unfolding = ""
        u = re.search(r"(?m)^unfolding .*$", self.type)
        if u:
            self.unfolding = u[0]
            self.type = self.type[: u.start()].strip()
        rest = self.text[cut + len(self.name) :]
        params, eq, body = rest.partition("=")
        self.params = params.split()
        self.body = body.strip("\n")
        self.clauses = len(re.findall(r"(?m)^" + re.escape(self.name) + r"(?=[ \n])", self.text[cut:]))


class Walk:
    def __init__(self, names, crate, path):
        self.crate, self.path = crate, path
        key = f"Rattle-{crate}-proofs.{path.replace('/', '.')}.Lts"
        if key not in names:
            raise Left(f"no {key} in names.json")
        it = names[key]
        self.needs, self.asked = it["needs"], it["asked_at"]
        self.loops, self.changed = it["loops"], it["changed"]
        self.places, self.arms = {}, {}
        for row, arm in zip(it["places"], it["arms"] + [None] * len(it["places"])):
            self.places[row[0]] = (row[1], row[2])
            if arm:
                self.arms[row[0]] = arm

    def goal(self, old):
        for i, (a, b) in enumerate(self.needs):
            if plain(a) == plain(old):
                return i, b
        for i, (a, b) in enumerate(self.needs):
            if plain(b) == plain(old):
                return i, b
        short = re.sub(r"^(overflow|nonzero)-", "", plain(old))
        for i, (a, b) in enumerate(self.needs):
            if plain(a) == short:
                return i, b
        raise Left(f"no goal {old}")

    def up(self, place, n):
        for _ in range(n):
            if place is None or place not in self.places:
                return None
            place = self.places[place][0]
        return place

    def step(self, place, old, note):
        """Today's name of the step `old` that the walk has at a place or behind it, and that place."""
        at = place
        while at is not None and at in self.places:
            a, b = self.places[at][1]
            if a and (plain(a) == plain(old) or plain(b) == plain(old)):
                return b, at
            at = self.places[at][0]
        for at, (parent, (a, b)) in self.places.items():
            if a and plain(a) == plain(old):
                note(f"step {old} is not behind {place}; took {b}")
                return b, at
        at = place
        while at is not None and at in self.places:
            a, b = self.places[at][1]
            if a and unnumbered(a) == unnumbered(old):
                note(f"step {old} at {place}: took {b}")
                return b, at
            at = self.places[at][0]
        return None, None

    def arm(self, place, old, rest):
        """Today's path of a field of an arm, as `c.before.w.given.0.0`, or None."""
        at = place
        while at is not None and at in self.places:
            rows = self.arms.get(at)
            for row in rows[2] if rows else []:
                n = len(row[2])
                if n and plain(row[1]) == plain(old) and [plain(x) for x in rest[:n]] == [plain(x) for x in row[2]]:
                    return ["c", rows[0], row[0]] + rest[n:]
            for row in rows[2] if rows else []:
                if not row[2] and plain(row[1]) == plain(old) and rest:
                    return ["c", rows[0], row[0]] + rest
            at = self.places[at][0]
        return None

    def is_arm(self, place, old):
        at = place
        while at is not None and at in self.places:
            rows = self.arms.get(at)
            if rows and any(plain(row[1]) == plain(old) and row[2] for row in rows[2]):
                return True
            at = self.places[at][0]
        return False

    def body(self, text, c, place, note):
        """The body with each walk back turned."""
        alias, parts = {c: place}, {}
        chain = re.compile(r"\blet (" + NAME + r") = (" + NAME + r")((?:\.before)*)((?:\.(?!before\b)" + NAME + r")*) in(\n *| )?")
        at = 0
        while True:
            it = chain.search(text, at)
            if not it:
                break
            rest = [x for x in it[4].split(".") if x]
            if it[2] in alias and not rest:
                alias[it[1]] = self.up(alias[it[2]], it[3].count(".before"))
            elif it[2] in alias and self.is_arm(self.up(alias[it[2]], it[3].count(".before")), rest[0]):
                here = self.up(alias[it[2]], it[3].count(".before"))
                if self.arm(here, rest[0], rest[1:]):
                    at = it.end()
                    continue
                parts[it[1]] = (here, rest)
            else:
                at = it.end()
                continue
            text = text[: it.start()] + text[it.end() :]
            at = it.start()

        def turn(m):
            who, back = m[1], m[2]
            rest = [x for x in m[3].split(".") if x]
            if who in parts:
                at, head = parts[who]
                rest = head + rest
            elif who in alias:
                at = self.up(alias[who], back.count(".before"))
            else:
                return m[0]
            step, rest = rest[0], rest[1:]
            if step.replace("-", "_") in OUTER:
                step = step.replace("-", "_")
                return ".".join(["c", step] + rest)
            arm = self.arm(at, step, rest)
            if arm:
                return ".".join(arm)
            new, found = self.step(at, step, note)
            if new is None:
                note(f"no step {step} at {at}")
                return ".".join(["c", step] + rest)
            return ".".join(["c", new] + rest)

        text = re.sub(r"(?<![^\s(){}\[\],;])(" + NAME + r")((?:\.before)*)((?:\.(?!before\b)" + NAME + r")+)", turn, text)
        text = re.sub(r"\bnot-(?:true|false) (?:_|" + NAME + r"(?:\.[\w«»]+)*)\s+(c\.[^\s().]*\bnot-[^\s()]*)", r"\1", text)
        text = re.sub(r"c\.in-[\w-]+\.known_told[\w-]*-own\.given(?:\.[0-9]+)*", "(search rules)", text)
        alias.update(parts)
        for who in alias:
            if who != "c" and re.search(r"(?<![^\s(){}\[\],;])" + re.escape(who) + r"(?![^\s(){}\[\],;])", text):
                note(f"{who} is used as it is")
        if re.search(r"\.before\b", text):
            note("a .before is left")
        return text

    def invariant(self, name, params, body):
        old = re.match(r"(invariant|decreases)-(.*)$", name)
        for (a, b), variables in self.loops:
            if a == old[2] or b == old[2]:
                i = [x[0] for x in self.loops].index([a, b])
                changed = self.changed[i]
                if len(params) != len(variables) + sum(changed):
                    raise Left(f"{name}: {len(params)} parameters for {variables} {changed}")
                terms = {}
                for p, v, ch in zip(params, variables, changed):
                    terms[p] = f"l.initial.{v}" if ch else f"l.{v}"
                for p, v in zip(params[len(variables) :], [v for v, ch in zip(variables, changed) if ch]):
                    terms[p] = f"l.{v}"
                terms.pop("_", None)

                def turn(m):
                    head, dot, rest = m[0].partition(".")
                    return terms[head] + dot + rest if head in terms else m[0]

                body = re.sub(r"[^\s(){}\[\],;:\"`λ]+", turn, body)
                return f"{old[1]}-{b}", body
        raise Left(f"no loop {name}")


def arguments(text):
    """The arguments of a call, split at its outer blanks."""
    out, depth, word = [], 0, ""
    for ch in text:
        if ch in "({[":
            depth += 1
        elif ch in ")}]":
            depth -= 1
            if depth < 0:
                break
        if ch.isspace() and depth == 0:
            if word:
                out.append(word)
            word = ""
        else:
            word += ch
    if word:
        out.append(word)
    return out


def used(uses, text):
    """The use lines whose names stand in the text, each with only those."""
    tokens = set(re.findall(r"[^\s(){}\[\],;.:\"`λ]+", text)) | set(re.findall(r"[^\s(){}\[\],;:\"`λ]+", text))
    out = []
    for line in uses:
        it = re.match(r"^use (\S+?)\.\{(.*)\}$", line)
        if not it:
            alias = re.match(r"^use (\S+)(?: as (\S+))?$", line)
            head = alias[2] or alias[1].split(".")[-1]
            if any(t == head or t.startswith(head + ".") for t in tokens):
                out.append(line)
            continue
        keep = []
        for name in (x.strip() for x in it[2].split(",")):
            last = name.split(" as ")[-1].split(".")[-1]
            words = [w for w in last.split("◌") if w]
            if name == "[]":
                if "[]" in text:
                    keep.append(name)
            elif last.startswith("◌") or last.endswith("◌"):
                if all(w in text for w in words):
                    keep.append(name)
            elif last in tokens or name in tokens or (last == "zero" and "zero" in text):
                keep.append(name)
        if keep:
            out.append(f"use {it[1]}.{{{', '.join(keep)}}}")
    return out


def turn(names, crate, folder, path):
    p = os.path.join(folder, "proofs", path, "Proof.antt")
    with open(p, encoding="utf-8") as f:
        text = f.read()
    walk = Walk(names, crate, path)
    head, uses, rows = chunks(text)
    decls = [Decl(list(rows_)) for rows_ in rows]
    notes = []
    note = lambda s: notes.append(s)
    uses = [u for u in uses if not re.search(r"\.(Statement\.\{statement\}|Tie as tie)$", u)]
    invariants, answers, names_of = [], [], {}
    spec = decls[-1]
    if "tie.close" not in spec.body:
        raise Left("the last declaration is no tie.close")
    for d in decls[:-1]:
        need = re.match(r"^tie\.Need-(" + NAME + r")(.*)$", d.type, re.S)
        inv = re.match(r"^tie\.(invariant-|decreases-)(" + NAME + r")$", d.type)
        if need:
            known = [plain(a) for a, b in walk.needs]
            i, new = walk.goal(need[1] if plain(need[1]) in known or plain(d.name) not in known else d.name)
            names_of[d.name] = new
            if d.clauses > 1:
                raise Left(f"{d.name} has clauses")
            if not d.params or not re.match(r"^[a-z]\w*$", d.params[0]):
                raise Left(f"{d.name} {d.params}")
            body = walk.body(d.body, d.params[0], walk.asked[i][0], note)
            if SEARCH.match(body.strip()) and not d.unfolding:
                continue
            d.more = "".join(" " + x for x in d.params[1:] if x not in ("κs", "_"))
            answers.append((d, new, body))
        elif inv:
            new, body = walk.invariant(inv[1] + inv[2], d.params, d.body)
            invariants.append((d, new, body))
        elif "tie." in d.type:
            raise Left(f"{d.name} : {d.type[:80]}")
        else:
            answers.append((d, None, None))
    call = re.search(r"\(\s*tie\.spec\b(.*)\)\s*$", spec.body, re.S)
    if not call:
        raise Left("no tie.spec")
    given = arguments(call[1])
    n = len(invariants)
    if len(given) - n != len(walk.needs):
        note(f"{len(given) - n} arguments for {len(walk.needs)} goals")
    for i, arg in enumerate(given[n:]):
        it = re.match(r"^\(λ (\w+)(?: \w+s| _)?\. (.*)\)$", arg, re.S)
        if not it:
            if not re.match(r"^" + NAME + r"$", arg):
                note(f"argument {arg[:60]}")
            continue
        if (it[2].strip() == "search rules" and not spec.unfolding) or i >= len(walk.needs):
            continue
        new = walk.needs[i][1]
        body = walk.body(it[2], it[1], walk.asked[i][0], note)
        d = Decl(["x : y", spec.unfolding, "x c = z"] if spec.unfolding else ["x : y", "x c = z"])
        answers.append((d, new, " " + body))
    base = os.path.join(folder, "proofs", path)
    out = []
    defined = [d for d, new, b in answers if new is None]
    if invariants:
        parts = []
        for d, new, body in invariants:
            parts.append("\n".join(d.comment + [f"abbrev pub {new} : goal.{new}", f"{new} l ={body if body.startswith((' ', chr(10))) else ' ' + body}"]))
        whole = "\n\n".join(parts)
        first = [d for d in defined if re.search(r"(?<![^\s(){}\[\],;])" + re.escape(d.name) + r"(?![^\s(){}\[\],;])", whole)]
        more = "\n\n".join("\n".join(d.comment + [re.sub(r"^((?:abbrev |unfoldable )?)(?!.*pub )", r"\1pub ", d.text, count=1)]) for d in first)
        if first:
            note(f"shared with the invariants: {[d.name for d in first]}")
        whole = (more + "\n\n" if more else "") + whole
        file = "\n".join(head + used(uses, whole) + [f"use Rattle.{crate}.proofs.{path.replace('/', '.')}.Given as goal", "", whole, ""])
        out.append(("Invariants.antt", file))
        answers = [(d, new, b) for d, new, b in answers if d not in first]
        if first:
            uses = uses + [f"use Rattle.{crate}.proofs.{path.replace('/', '.')}.Invariants.{{{', '.join(d.name for d in first)}}}"]
    if answers:
        parts = []
        for d, new, body in answers:
            if new is None:
                parts.append("\n".join(d.comment + [d.text]))
                continue
            lines = d.comment + [f"pub {new} : goal.{new}"]
            if d.unfolding:
                lines.append(d.unfolding)
            body = body.replace("    let", " let", 1) if body.startswith("    let") else body
            lines.append(f"{new} c{getattr(d, 'more', '')} ={body if body.startswith((' ', chr(10))) else ' ' + body}")
            parts.append("\n".join(lines))
        whole = "\n\n".join(parts)
        file = "\n".join(head + used(uses, whole) + [f"use Rattle.{crate}.proofs.{path.replace('/', '.')}.Goals as goal", "", whole, ""])
        out.append(("Answers.antt", file))
    os.remove(p)
    for name, file in out:
        with open(os.path.join(base, name), "w", encoding="utf-8") as f:
            f.write(file)
    for it in notes:
        print(f"look: {crate} {path}: {it}")
    print(f"turned: {crate} {path}: {', '.join(n for n, _ in out) or 'no file'}")


def turn_cycle(names, crate, folder, path):
    """The proof of functions that call one another: each goal is named with its function's name before it, and takes the measure's value."""
    p = os.path.join(folder, "proofs", path, "Proof.antt")
    with open(p, encoding="utf-8") as f:
        head, uses, rows = chunks(f.read())
    notes = []
    module = f"Rattle.{crate}.proofs.{path.replace('/', '.')}"
    invariants, answers = [], []
    for d in [Decl(list(it)) for it in rows]:
        need = re.search(r"\b(" + NAME + r")-lts\.Need-(" + NAME + r")", d.type)
        measure = re.match(r"^μ-(" + NAME + r")$", d.name)
        if need:
            of = need[1].replace("-", "_")
            key = f"Rattle-{crate}-proofs.{path.replace('/', '.')}.Lts-{of}"
            it = dict(names[key])
            walk = Walk.__new__(Walk)
            walk.needs, walk.asked, walk.loops, walk.changed = it["needs"], it["asked_at"], it["loops"], it["changed"]
            walk.places = {row[0]: (row[1], row[2]) for row in it["places"]}
            walk.arms = {row[0]: arm for row, arm in zip(it["places"], it["arms"]) if arm}
            i, new = walk.goal(need[2])
            body = walk.body(d.body, d.params[1], walk.asked[i][0], lambda s: notes.append(f"{d.name}: {s}"))
            body = body.replace("    let", " let", 1) if body.startswith("    let") else body
            name = f"{of}-{new}"
            answers.append("\n".join(d.comment + [f"pub {name} : goal.{name}"] + ([d.unfolding] if d.unfolding else []) + [f"{name} t c ={body if body.startswith((' ', chr(10))) else ' ' + body}"]))
        elif measure:
            of = measure[1].replace("-", "_")
            key = f"Rattle-{crate}-proofs.{path.replace('/', '.')}.Lts-{of}"
            notes.append(f"write the measure of {of} by its parameters: {d.body}")
            invariants.append(f"abbrev pub decreases-{of} : goal.decreases-{of}\ndecreases-{of} l = {d.body.strip()}")
        elif re.search(r"kinds\.ps|\bstatement\b", d.type):
            continue
        else:
            answers.append("\n".join(d.comment + [d.text]))
    os.remove(p)
    whole = "\n\n".join(invariants)
    more = ["use Rattle.std.proofs.Common.{ℕ, ◌+◌, ◌-◌, ◌*◌, length}"]
    with open(os.path.join(os.path.dirname(p), "Invariants.antt"), "w", encoding="utf-8") as f:
        f.write("\n".join(head + used(more, whole) + [f"use {module}.Given as goal", "", whole, ""]))
    whole = "\n\n".join(answers)
    with open(os.path.join(os.path.dirname(p), "Answers.antt"), "w", encoding="utf-8") as f:
        f.write("\n".join(head + used(uses, whole) + [f"use {module}.Goals as goal", "", whole, ""]))
    for it in notes:
        print(f"look: {crate} {path}: {it}")


def main(argv):
    if len(argv) < 2:
        print(__doc__)
        return 2
    with open(os.path.join(argv[0], "names.json"), encoding="utf-8") as f:
        names = json.load(f)
    folder = argv[1].rstrip("/")
    crate = os.path.basename(os.path.realpath(folder))
    paths = argv[2:]
    if not paths:
        for at, folders, files in os.walk(os.path.join(folder, "proofs")):
            folders.sort()
            if "Proof.antt" in files:
                paths.append(os.path.relpath(at, os.path.join(folder, "proofs")))
    for path in sorted(paths):
        try:
            if os.path.basename(path).startswith("+") and "PlainCycle" in open(os.path.join(folder, "proofs", path, "Proof.antt"), encoding="utf-8").read():
                turn_cycle(names, crate, folder, path)
                continue
            turn(names, crate, folder, path)
        except Left as e:
            print(f"left: {crate} {path}: {e}")
    return 0


if __name__ == "__main__":
    raise SystemExit(main(sys.argv[1:]))
