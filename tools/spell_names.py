#!/usr/bin/env python3
"""Brings the definitions and lemmas of this repository to the spelling that Rattle uses: facts and types in upper camel
case, everything else in snake case. It was run once, at the top, after the kit's port.py.

A name counts as this repository's own if a file of specs/ or proofs/ declares it, as a definition, a lemma, a field or a
parameter of a module, or if a trait of src/ has it as a ghost member. The names of goals, which Rattle makes from the
code, keep their dashes, and so does a name that the file takes from a library. Two names that would fall together stop
the script before anything is written.
"""

import os
import re
import sys

WORD = r"[\w'\-]+"
TOKEN = re.compile(WORD)
DECLARED = re.compile(r"^\s*(?:abbrev |unfoldable )*(?:pub )?(?:record |data )?((?:" + WORD + r"\s+)*?" + WORD + r")\s*((?:\{[^}]*\}|\([^)]*\))\s*)*:(?!:)\s*(.*)$")
TYPE = re.compile(r"^\s*(?:pub )?(?:record|data) (" + WORD + r")")
PARAMETERS = re.compile(r"[({]\s*((?:" + WORD + r"\s+)*" + WORD + r")\s*:")
GHOST = re.compile(r"^\s*ghost (" + WORD + r"):")
IMPORT = re.compile(r"^\s*(?:ghost )?use ([\w.·+]+)\.\{([^}]*)\}")
WORDS_OF_ANTT = {"abbrev", "unfoldable", "pub", "record", "data", "module", "use"}


def files():
    for folder, dirs, names in os.walk("crates"):
        dirs[:] = sorted(d for d in dirs if d != "out")
        for name in sorted(names):
            if name.endswith((".antt", ".rt")):
                yield os.path.join(folder, name)


def own_crates():
    return set(os.listdir("crates"))


def declared(path, lines):
    """The names that a file declares."""
    for line in lines:
        if path.endswith(".rt"):
            m = GHOST.match(line)
            if m:
                yield m.group(1)
            continue
        text = line.split("--")[0]
        if text.lstrip().startswith("use "):
            continue
        if text.lstrip().startswith("module "):
            for m in PARAMETERS.finditer(text):
                yield from m.group(1).split()
            continue
        m = TYPE.match(text)
        if m:
            yield m.group(1)
        m = DECLARED.match(text)
        if m and not m.group(3).startswith("goal."):
            yield from (w for w in m.group(1).split() if w not in WORDS_OF_ANTT)
            for p in PARAMETERS.finditer(text):
                yield from p.group(1).split()


def spelled(name):
    """A name in today's spelling."""
    if re.match(r"[A-Z]", name):
        return "".join(part[:1].upper() + part[1:] for part in name.split("-"))
    return re.sub(r"(?<=[a-z])([A-Z])", lambda m: "_" + m.group(1).lower(), name.replace("-", "_"))


def foreign(lines, own):
    """The names that a file takes from modules that are not this repository's, and those that Rattle declares."""
    names = set()
    for line in lines:
        m = IMPORT.match(line)
        if m:
            parts = m.group(1).split(".")
            if not (parts[0] == "Rattle" and len(parts) > 1 and parts[1] in own) or "declared" in parts:
                names |= {w.strip().split(" as ")[0].strip() for w in m.group(2).split(",")}
                names |= {w.strip().split(" as ")[-1].strip() for w in m.group(2).split(",")}
    return names


def main():
    own = own_crates()
    texts = {p: open(p, encoding="utf-8").read() for p in files()}
    names = set()
    tokens = set()
    for path, text in texts.items():
        lines = text.splitlines()
        names |= set(declared(path, lines))
        tokens |= set(TOKEN.findall(text))
    turned = {n: spelled(n) for n in names if spelled(n) != n and not n.startswith("-")}
    back = {}
    for old, new in sorted(turned.items()):
        back.setdefault(new, []).append(old)
    together = {new: olds for new, olds in back.items() if len(olds) > 1 or new in names}
    if together:
        for new, olds in sorted(together.items()):
            print(f"{', '.join(olds)} would fall together as {new}", file=sys.stderr)
        raise SystemExit(1)
    for old, new in sorted(turned.items()):
        if new in tokens:
            print(f"look: {new} was {old}, and the code has a name {new}")
    count = 0
    for path, text in texts.items():
        kept = foreign(text.splitlines(), own)
        new_text = TOKEN.sub(lambda m: turned[m.group(0)] if m.group(0) in turned and m.group(0) not in kept else m.group(0), text)
        if new_text != text:
            count += 1
            with open(path, "w", encoding="utf-8") as f:
                f.write(new_text)
    print(f"{len(turned)} names turned in {count} files")


main()
