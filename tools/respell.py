#!/usr/bin/env python3
"""Brings the repository's own definitions and lemmas to snake case, once, after port.py.

usage: python3 tools/respell.py [--list]     at the top of the repository

Names that a specs/ or proofs/ file declares, and ghost members and fields, are respelled:
`inEffect` and `ascends-from` become `in_effect` and `ascends_from`. Types and facts keep their
capital; one whose parts a dash joins, as `At-place`, loses the dash. Goals that the check names,
names of the library, Rust's names, strings and outputs stay as they are. With --list nothing is
written: it prints the names, and those that would fall together with another.
"""

import collections
import os
import re
import sys

NAME = r"[^\s(){}\[\]:;,.=→λ≡×\"«»?]+"
MODS = r"(?:(?:pub|abbrev|unfoldable)\s+)*"
DECLARED = re.compile(rf"^\s*{MODS}(?:(?:record|data)\s+)?({NAME})(?:\s+[({{].*)?\s*:(?:\s|$)")
GOAL = re.compile(rf"^\s*{MODS}({NAME})\s*:\s*goal\.")
GHOST = re.compile(r"\bghost ([A-Za-z_][A-Za-z0-9_]*)(?: =|:)")
USE = re.compile(r"^\s*(?:ghost )?(?:pub )?use (Rattle\.[\w.]+|[\w.]+)(?:\.\{(.*)\})?(?: as (\S+?))?;?$")
# lemmas that fall together with a definition, and have its spelling since port.py
LEMMAS = ("row_on", "same_kind")
TOKEN = re.compile(r"[^\s(){}\[\]:;,.=→λ≡×\"«»?`]+")


def files(top):
    for folder, dirs, names in os.walk(os.path.join(top, "crates")):
        dirs[:] = sorted(d for d in dirs if d != "out")
        for name in sorted(names):
            if name.endswith((".rt", ".antt")):
                yield os.path.join(folder, name)


def read(path):
    with open(path, encoding="utf-8") as it:
        return it.read()


def snake(name):
    if name[0].isupper():
        return re.sub(r"-(\w)", lambda m: m[1].upper(), name)
    name = re.sub(r"([a-z0-9])([A-Z])", lambda m: m[1] + "_" + m[2].lower(), name)
    return re.sub(r"(?<=\w)-(?=\w)", "_", name)


def own_crates(top):
    return {c for c in os.listdir(os.path.join(top, "crates"))}


def declared(path, text):
    """The names that a file declares, and those of them that are goals."""
    if path.endswith(".rt"):
        return set(GHOST.findall(text)), set()
    names, goals = set(), set()
    for line in text.splitlines():
        if line.lstrip().startswith(("--", "let ", "use ", "pub use ", "|")):
            continue
        if m := GOAL.match(line):
            goals.add(m[1])
        elif m := DECLARED.match(line):
            names.add(m[1])
    return names, goals


def foreign(text, crates):
    """The names that a file takes from a library, and those that it takes from generated modules."""
    names = set()
    for line in text.splitlines():
        m = USE.match(line)
        if not m:
            continue
        path = m[1].split(".")
        generated = path[-1] in ("Goals", "Given") or "declared" in path
        if not (path[0] == "Rattle" and len(path) > 1 and path[1] in crates) or generated:
            names.update(n.split(" as ")[0].strip() for n in (m[2] or "").split(","))
    return names


def main(argv):
    top = os.getcwd()
    crates = own_crates(top)
    texts = {p: read(p) for p in files(top)}
    names, goals, libs = set(), {}, {}
    for path, text in texts.items():
        own, goals[path] = declared(path, text)
        names |= own
        libs[path] = foreign(text, crates)
    turned = {n: snake(n) for n in names if snake(n) != n}
    # where a definition and a lemma fall together, the definition keeps the plain name
    plain = {snake(n) for n in names if "-" not in n}
    turned |= {n: snake(n) + "_lem" for n in turned if "-" in n and snake(n) in plain}
    turned |= {n: n + "_lem" for n in LEMMAS if n in names}
    fallen = collections.defaultdict(set)
    out = {}
    for path, text in texts.items():
        # what a file takes from the library, and its goals, keep their names there
        here = {o: n for o, n in turned.items() if o not in libs[path] and o not in goals[path]}
        lines = []
        for line in text.split("\n"):
            generated = re.match(r"\s*(ghost )?(pub )?use .*\.(Goals|Given)\b", line)
            lines.append(line if generated else respell(path, line, here))
        out[path] = "\n".join(lines)
        present = set(TOKEN.findall(text))
        for old, new in here.items():
            if old in present and new in present:
                fallen[(old, new)].add(os.path.relpath(path, top))
    if "--list" in argv:
        for old in sorted(turned):
            print(f"{old} -> {turned[old]}")
        for (old, new), where in sorted(fallen.items()):
            print(f"falls together: {old} -> {new}: {' '.join(sorted(where))}")
        return 0
    changed = 0
    for path, text in out.items():
        if text != texts[path]:
            changed += 1
            with open(path, "w", encoding="utf-8") as it:
                it.write(text)
    print(f"respell: {len(turned)} names, {changed} files")
    return 0


def respell(path, line, here):
    if path.endswith(".rt"):
        # in code only names that Rust cannot spell so, and ghost members
        return re.sub(r"[A-Za-z_][A-Za-z0-9_'-]*", lambda m: here.get(m[0], m[0]) if '"' not in line else m[0], line)

    def turn(m):
        before = line[: m.start()]
        if before.endswith("goal.") or re.search(r"\bc\.(?:[\w'-]+\.)*$", before) and "-" in m[0]:
            return m[0]
        return here.get(m[0], m[0])

    return TOKEN.sub(turn, line)


if __name__ == "__main__":
    raise SystemExit(main(sys.argv[1:]))
