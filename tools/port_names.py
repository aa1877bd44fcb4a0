#!/usr/bin/env python3
"""Brings the names of the repository's own definitions and lemmas to snake case.

usage: tools/port_names.py      at the top of the repository, once, after port.py

A name with a dash that some .antt file of crates/ defines is written with '_' wherever it stands: in the .antt files, in the clauses and
imports of the .rt files, in the must-fail edits, and between backticks in the documents. Names of the kit's libraries, and names that the
check makes of a function's code, stay.
"""
import collections
import os
import re
import sys

PART = r"[\w'₀-₉◌⊎]"
DASHED = r"[A-Za-z◌⊎ℕ]" + PART + r"*(?:-" + PART + r"+)+"
WORD = re.compile(r"(?<![\w'₀-₉◌⊎-])" + DASHED + r"(?![\w'₀-₉◌⊎-])")
QUOTED = re.compile(r"«(" + DASHED + r")»")
COMMENT = re.compile(r"(?m)--(?=\s|$).*$")
# where snake case would meet another name of the place
OTHER = {"bit-and": "bit_of_and", "bit-or": "bit_of_or"}
OWN_CRATES = [c for c in sorted(os.listdir("crates")) if os.path.isdir(os.path.join("crates", c))]
OWN_PATH = re.compile(r"Rattle\.(?:" + "|".join(OWN_CRATES) + r")\b")


def files(end, top="crates"):
    for folder, dirs, names in os.walk(top):
        dirs[:] = sorted(d for d in dirs if d != "out")
        for n in sorted(names):
            if n.endswith(end):
                yield os.path.join(folder, n)


def read(path):
    with open(path, encoding="utf-8") as f:
        return f.read()


def listed(text):
    """The names that each import of a file brings in, with the path."""
    for m in re.finditer(r"(?ms)^(?:pub )?use ([^\s{]+?)\.?(?:\{([^}]*)\}| as (\S+))", text):
        yield m.group(1), [n.strip() for n in (m.group(2) or m.group(3) or "").split(",")]


def defined():
    own = collections.Counter()
    for path in files(".antt"):
        text = COMMENT.sub("", read(path))
        walk = path.endswith("Proof.antt")
        for line in text.split("\n"):
            alias = re.match(r"(?:pub )?use (\S+) as (" + DASHED + r")$", line)
            if alias and OWN_PATH.match(alias.group(1)) and not walk:
                own[alias.group(2)] += 1
            if re.match(r"(?:pub )?use ", line):
                continue
            m = re.match(r"\s*(?:abbrev |unfoldable |pub |infixl \d+ )*((?:[\w'₀-₉◌⊎ℕ-]+ )+):", line)
            if m and not (walk and re.search(r": tie\.", line)):
                own.update(n for n in m.group(1).split() if WORD.fullmatch(n))
            for m in re.finditer(r"[({]((?:[\w'₀-₉◌⊎-]+ )+): ", line):
                own.update(n for n in m.group(1).split() if WORD.fullmatch(n))
            own.update(re.findall(r"let (" + DASHED + r")", line))
            for m in re.finditer(r"λ ((?:[\w'₀-₉◌⊎-]+ )*[\w'₀-₉◌⊎-]+)\.", line):
                own.update(n for n in m.group(1).split() if WORD.fullmatch(n))
            m = re.match(r"\s*(?:pub )?(?:module|mod) (" + DASHED + ")", line)
            if m:
                own[m.group(1)] += 1
    return own


def respell(name):
    return OTHER.get(name, name.replace("-", "_"))


def main():
    own = set(defined())
    # names that a library of the kit has too stay where they come from it
    for path in files(".antt"):
        text = read(path)
        foreign = {n for p, ns in listed(text) if not OWN_PATH.match(p) for n in ns}
        turn = lambda m: m.group(0) if m.group(0) in foreign or m.group(0) not in own else respell(m.group(0))
        out, at = [], 0
        for c in COMMENT.finditer(text):
            out += [WORD.sub(turn, text[at : c.start()]), c.group(0)]
            at = c.end()
        out.append(WORD.sub(turn, text[at:]))
        new = "".join(out)
        if new != text:
            open(path, "w", encoding="utf-8").write(new)
    turn = lambda m: respell(m.group(0)) if m.group(0) in own else m.group(0)
    bare = lambda m: respell(m.group(1)) if m.group(1) in own else m.group(0)
    for path in list(files(".rt")):
        new = []
        for line in read(path).split("\n"):
            code, mark, rest = line, "", ""
            k = re.search(r"(^|\s)//", line)
            if k:
                code, rest = line[: k.start()], line[k.start() :]
            pieces = re.split(r'("(?:[^"\\]|\\.)*")', code)
            new.append("".join(p if p.startswith('"') else WORD.sub(turn, QUOTED.sub(bare, p)) for p in pieces) + rest)
        open(path, "w", encoding="utf-8").write("\n".join(new))
    for path in list(files(".edit")) + list(files(".edit", "tests/edits")):
        new = []
        for line in read(path).split("\n"):
            if re.match(r"(old|new): ", line):
                line = WORD.sub(turn, QUOTED.sub(bare, line))
            new.append(line)
        open(path, "w", encoding="utf-8").write("\n".join(new))
    words = set()
    for path in files(".antt"):
        words.update(re.findall(r"[\w'₀-₉◌⊎]+", COMMENT.sub("", read(path))))
    turn = lambda m: respell(m.group(0)) if m.group(0) in own or respell(m.group(0)) in words else m.group(0)
    for path in ["README.md", "CONTRIBUTING.md"] + [p for p in files(".md", "docs") if not p.endswith(("PORT.md", "PORT-OTHER.md"))]:
        text = read(path)
        new = re.sub(r"`[^`\n]*`", lambda m: WORD.sub(turn, m.group(0)), text)
        if new != text:
            open(path, "w", encoding="utf-8").write(new)
    # what falls together
    seen = collections.defaultdict(set)
    for n in own:
        seen[respell(n)].add(n)
    for s, ns in sorted(seen.items()):
        if len(ns) > 1:
            print("look:", s, "was", ", ".join(sorted(ns)))
    return 0


if __name__ == "__main__":
    sys.exit(main())
