#!/usr/bin/env python3
"""Brings must-fail edits over: the pairs old and new of an older tree, laid on the lines that stand for them in today's tree.

usage: python3 tools/turn_edits.py OLDER [CRATE..]

OLDER is a checkout of the older tree. For each of its crates/NAME/must-fail/*.edit the line that `old:` names is found in the older file, then
the line that stands for it in today's file of that name (the same code, respelled), and the change is made there. An edit whose `old:` texts each
stand once in today's files already is left as it is. What can't be laid on by the lines alone is printed on a line 'left:'.
"""

import difflib
import os
import re
import sys

sys.path.insert(0, os.path.dirname(os.path.realpath(__file__)))
import snake_names

WORD = re.compile(r"\s+|[(){}\[\],;]|[^\s(){}\[\],;]+")


def names_between(older, today):
    """Old name to new name, by the declarations of the two trees, file by file."""
    out = {}
    for p in snake_names.paths(older, (".antt",)):
        q = os.path.join(today, os.path.relpath(p, older))
        if not os.path.isfile(q):
            continue
        with open(p, encoding="utf-8") as f:
            a = list(snake_names.declared(f.read()))
        with open(q, encoding="utf-8") as f:
            b = list(snake_names.declared(f.read()))
        if len(a) == len(b):
            for x, y in zip(a, b):
                if x != y:
                    out.setdefault(x, y)
    return out


class Turner:
    def __init__(self, names):
        self.names = names

    def word(self, w):
        parts = re.split(r"([.:])", w)
        parts = [self.one(x) for x in parts]
        return "".join(parts)

    def one(self, x):
        if x in self.names:
            return self.names[x]
        x = x.replace("′", "'")
        m = re.fullmatch(r"_([^\w\s]+)_", x)
        if m:
            return f"◌{m[1]}◌"
        if re.fullmatch(r"[a-z][A-Za-z0-9]*[A-Z]\w*", x):
            return snake_names.snake(x)
        return x

    def text(self, t):
        t = t.replace("·specs.specs.", ".specs.").replace("Rattle·", "Rattle.")
        t = re.sub(r"(?<=[\w)\]'′₀-₉]) \.(?=[\w])", ".", t)
        # (x.f) stands without its parentheses, and so does now (x.entry)
        for _ in range(3):
            t = re.sub(r"\(((?:[^\s(){}\[\],;]+\.)[^\s(){}\[\],;]+)\)(?!\.)", r"\1", t)
            t = re.sub(r"\bnow ([\w']+)\.entry\b", r"\1.old", t)
            t = re.sub(r"\bnow ([\w']+)\.exit\b", r"\1.new", t)
        return "".join(self.word(w) if not w.isspace() else w for w in WORD.findall(t))


def parse(path):
    """The head's lines, and the pairs (file, old, new)."""
    head, pairs, file, old = [], [], None, None
    with open(path, encoding="utf-8") as f:
        for line in f.read().split("\n"):
            if line.startswith("file: "):
                file = line[6:].strip()
            elif line.startswith("old: "):
                old = line[5:]
            elif line.startswith("new:"):
                pairs.append((file, old, line[5:]))
            elif not pairs and file is None:
                head.append(line)
    return head, pairs


def standing(lines, i, today, turner):
    """The lines of today's text that stand for line i of the older one, best first."""
    want = turner.text(lines[i])
    key = lambda t: re.sub(r"[\s()]", "", t)
    same = [k for k, t in enumerate(today) if key(t) == key(want)]
    if same:
        return same, want
    best = sorted(range(len(today)), key=lambda k: -difflib.SequenceMatcher(None, key(today[k]), key(want), autojunk=False).quick_ratio())[:6]
    best = [(difflib.SequenceMatcher(None, key(today[k]), key(want), autojunk=False).ratio(), k) for k in best]
    best = [k for r, k in sorted(best, reverse=True) if r > 0.8]
    return best, want


def laid(line, want, changed):
    """Today's line with the change from want to changed made on its words."""
    a, b, c = WORD.findall(want), WORD.findall(changed), WORD.findall(line)
    # the words that the change leaves at both ends
    i = 0
    while i < min(len(a), len(b)) and a[i] == b[i]:
        i += 1
    j = 0
    while j < min(len(a), len(b)) - i and a[-1 - j] == b[-1 - j]:
        j += 1
    if line.strip() == want.strip():
        return changed if line == want else line[: len(line) - len(line.lstrip())] + changed.lstrip()
    head, tail = "".join(a[:i]), "".join(a[len(a) - j :])
    key = lambda t: re.sub(r"[\s()]", "", t)
    for x in range(len(c) + 1):
        if key("".join(c[:x])) == key(head):
            for y in range(len(c), x - 1, -1):
                if key("".join(c[y:])) == key(tail):
                    return "".join(c[:x]) + "".join(b[i : len(b) - j]) + "".join(c[y:])
    return None


def turn(older, today, crate, name, turner):
    path = os.path.join(older, "crates", crate, "must-fail", name)
    head, pairs = parse(path)
    was, now, out = {}, {}, []
    for file, old, new in pairs:
        p, q = os.path.join(older, "crates", crate, file), os.path.join(today, "crates", crate, file)
        if not os.path.isfile(q):
            return None, f"no file {file}"
        if file not in was:
            was[file] = open(p, encoding="utf-8").read()
            now[file] = open(q, encoding="utf-8").read()
        if old is None or was[file].count(old) != 1:
            return None, f"old stands {was[file].count(old or '')} times in the older {file}"
        at = was[file].index(old)
        i = was[file].count("\n", 0, at)
        lines = was[file].split("\n")
        start = was[file].rfind("\n", 0, at) + 1
        changed_line = lines[i][: at - start] + new + lines[i][at - start + len(old) :]
        o, n = turner.text(old), turner.text(new)
        if lines[i].startswith("use ") or lines[i].startswith("ghost use "):
            module = re.match(r"(?:ghost )?use (\S+)\.\{", turner.text(lines[i]))
            group = lambda t: [x.strip() for x in re.search(r"\{(.*)\}", turner.text(t))[1].split(",")]
            more = [x for x in group(changed_line) if x not in group(lines[i])]
            less = [x for x in group(lines[i]) if x not in group(changed_line)]
            m = module[1] if module else "?"
            line = next((x for x in now[file].split("\n") if re.match(r"(ghost )?use " + re.escape(m) + r"\.\{", x)), None)
            if line is None or less:
                return None, f"use line of {m}"
            have = [x.strip() for x in re.search(r"\{(.*)\}", line)[1].split(",")]
            more = [x for x in more if x not in have]
            if not more:
                was[file] = was[file].replace(old, new, 1)
                continue
            first = line.index("{") + 1
            o, n = line[:first], line[:first] + ", ".join(more) + ", "
        elif now[file].count(o) != 1 or not o.strip():
            found, want = standing(lines, i, now[file].split("\n"), turner)
            for k in found:
                line = now[file].split("\n")[k]
                got = laid(line, want, turner.text(changed_line))
                if got and now[file].count(line) == 1:
                    o, n = line, got
                    break
            else:
                return None, f"line {i + 1} of {file}: {want.strip()[:90]}"
        if now[file].count(o) != 1:
            return None, f"{o[:60]} stands {now[file].count(o)} times"
        was[file] = was[file].replace(old, new, 1)
        now[file] = now[file].replace(o, n, 1)
        out.append((file, o, n))
    text = head[:]
    file = None
    for f, o, n in out:
        if f != file:
            text.append(f"file: {f}")
            file = f
        text += [f"old: {o}", f"new: {n}"]
    return "\n".join(text) + "\n", None


def stands(today, crate, path):
    """Whether each old text of the edit stands once in today's files."""
    head, pairs = parse(path)
    now = {}
    for file, old, new in pairs:
        q = os.path.join(today, "crates", crate, file)
        if not os.path.isfile(q):
            return False
        now.setdefault(file, open(q, encoding="utf-8").read())
        if now[file].count(old) != 1 or re.search(r"(?<=[\w)]) \.[a-z]|·|\bnow \(", new):
            return False
        now[file] = now[file].replace(old, new, 1)
    return True


def main(argv):
    if not argv:
        print(__doc__)
        return 2
    older, today = argv[0], "."
    turner = Turner(names_between(older, today))
    count = 0
    for crate in argv[1:] or sorted(os.listdir(os.path.join(older, "crates"))):
        folder = os.path.join(older, "crates", crate, "must-fail")
        for name in sorted(os.listdir(folder)) if os.path.isdir(folder) else []:
            path = os.path.join(today, "crates", crate, "must-fail", name)
            if not name.endswith(".edit") or stands(today, crate, path):
                continue
            text, why = turn(older, today, crate, name, turner)
            if text is None:
                print(f"left: crates/{crate}/must-fail/{name}: {why}")
                continue
            with open(path, "w", encoding="utf-8") as f:
                f.write(text)
            count += 1
    print(f"turned: {count}")
    return 0


if __name__ == "__main__":
    raise SystemExit(main(sys.argv[1:]))
