#!/usr/bin/env python3
"""Brings the repository's own names in clauses, specs/ and proofs/ to snake case.

usage: python3 tools/snake_names.py     at the top of the repository, once, after port.py

Turned are definitions, lemmas, record fields, ghost members and bound names: camelCase and dashes become snake case.
Not turned: types and modules, names that Rattle makes (goals, invariants and steps), names imported from outside.
A lemma that would fall together with the definition that it is about gets `_lem`.
The turned names are printed, old and new. Files: .rt, .antt and .edit below crates/ and planted/.
"""

import collections
import os
import re
import sys

CRATES = "algebra fields matrices keys maps signing shelf night trials rainbow".split()
TOKEN = re.compile(r"[^\s(){}\[\],;:.«»`]+")
SIGNATURE = re.compile(r"^\s*(?:abbrev\s+|unfoldable\s+)?(?:pub\s+)?([^\s(){}:,;.]+)\s*(?:\(.*\)|\{.*\})*\s*:\s")
BOUND = re.compile(r"(?:\blet |\()([a-z][\w']*-[\w'-]*)(?: [\w' -]*)?(?: =|:| :)")
GENERATED = re.compile(r"^(?:abbrev )?(?:pub )?(\S+) : goal\.")
OUTSIDE = re.compile(r"use (?!Rattle\.(?:%s)\b)[\w.'-]+\.\{([^}]*)\}" % "|".join(CRATES))
APART = {"getD-from": "get_or_from", "getD-next": "get_or_next", "getD-plus": "get_or_plus"}
CAMEL = re.compile(r"^[a-z][a-z0-9_]*[A-Z]\w*$")


def sources(top):
    for base in ("crates", "planted"):
        for folder, dirs, files in os.walk(os.path.join(top, base)):
            dirs[:] = sorted(d for d in dirs if d != "out")
            for f in sorted(files):
                if f.endswith((".rt", ".antt", ".edit")):
                    yield os.path.join(folder, f)


def imported(text):
    return {n.strip().split(" ")[0] for m in OUTSIDE.finditer(text) for n in m.group(1).split(",")}


def snake(name):
    if name in APART:
        return APART[name]
    name = re.sub(r"(?<=[a-z0-9])([A-Z])", r"_\1", name).lower()
    return name.replace("-", "_")


def main():
    texts = {}
    for p in sources("."):
        with open(p, encoding="utf-8") as f:
            texts[p] = f.read()
    outside = set().union(*(imported(t) for t in texts.values()))
    generated, defined, bound, tokens = set(), set(), set(), collections.Counter()
    for p, t in texts.items():
        for line in t.split("\n"):
            if line.lstrip().startswith(("--", "//")):
                continue
            tokens.update(TOKEN.findall(line))
            if p.endswith(".antt"):
                if m := GENERATED.match(line):
                    generated.add(m.group(1))
                elif m := SIGNATURE.match(line):
                    defined.add(m.group(1))
                bound.update(BOUND.findall(line))
    camel = {n for n in tokens if CAMEL.match(n) and n not in outside}
    dashed = {n for n in defined | bound if "-" in n and re.match(r"^[a-z]", n) and n not in generated}
    plain = {n for n in defined | camel if "-" not in n}
    fixed = {snake(n) for n in plain}
    names = {}
    for n in sorted(camel | dashed):
        new = snake(n)
        if n in dashed and n in defined and new in fixed:
            new += "_lem"
        if new != n:
            names[n] = new
    both = {n for n in names if n in outside}
    fell = collections.Counter(names.values())
    for n, new in sorted(names.items()):
        note = " (also an outside name)" if n in both else ""
        note += " FALLS TOGETHER" if fell[new] > 1 else ""
        print(f"{n} -> {new}{note}")
    for p, t in texts.items():
        taken = imported(t)

        def turn(m):
            n = m.group(0)
            if n not in names:
                return n
            if n in both and n in taken:
                before = t[max(0, m.start() - 4):m.start()]
                after = t[m.end():m.end() + 3]
                field = (before.endswith(".") and "\n" not in before) or after.startswith(" = ") or (before == "pub " and after.startswith(" : "))
                return names[n] if field else n
            return names[n]

        new = TOKEN.sub(turn, t)
        if new != t:
            with open(p, "w", encoding="utf-8") as f:
                f.write(new)


if __name__ == "__main__":
    sys.exit(main())
