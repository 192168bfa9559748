#!/usr/bin/env python3
"""Spells the names of definitions and lemmas as the library of Rattle spells its own. Run once, at the top of the repository.

Words are in snake case, and types, facts and modules in camel case. In the name of a lemma a dash joins two names of definitions,
as in 'digits-length', and any other word is added by an underscore. The functions, types and fields of src/ keep their names, and
so do strings, inputs and outputs.

usage: tools/spelling.py [--list]     --list prints the rows, old and new, and writes nothing
"""

import os
import re
import sys

WORD = re.compile(r"[^\s(){}\[\].;,:@\"«»`'|⌜⌝]+'*")
DECLARED = re.compile(
    r"^( *)((?:pub |abbrev |unfoldable |data |record )*)([^\s(){}.;,@\"«»:]+)((?: \([^()]*\)| \{[^{}]*\})*) :(?= |$)"
)
# Names of the library that those of lemmas are made of.
LIBRARY = set(
    "length take drop append set sets get_or replicate map reverse mul add sub div mod pow suc zero eq lt le ltb leb eqb cond neg abs min max rem".split()
)
# Modules, which are folders and files too.
MODULES = {"laws": "Laws"}
# Lemmas whose names would fall together with those of the definitions that they are about.
CHOSEN = {
    name: name.replace("-", "_") + "_lem"
    for name in "above_zero is_block is_one no_room past-comment raster-length right-entry size-from tile-cell".split()
}


def files(root, ends):
    for folder, dirs, names in os.walk(root):
        dirs[:] = sorted(d for d in dirs if d not in ("out", ".git", "target"))
        for name in sorted(names):
            if name.endswith(ends):
                yield os.path.join(folder, name)


def declared(path):
    """The names that a file declares, fields and local ones too, each with whether it is a definition."""
    found = {}
    with open(path, encoding="utf-8") as f:
        for line in f:
            m = DECLARED.match(line)
            if m and not line.lstrip().startswith("--"):
                made = any(w in m.group(2).split() for w in ("abbrev", "unfoldable", "data", "record"))
                found[m.group(3)] = found.get(m.group(3), False) or made
    return found


def snake(name):
    return re.sub(r"(?<=[a-zA-Z0-9])([A-Z])", lambda m: "_" + m.group(1).lower(), name)


def spelled(name, known):
    """A lemma's name, of which the parts that are names of definitions are joined by a dash."""
    parts, groups, i = name.split("-"), [], 0
    while i < len(parts):
        for j in range(len(parts), i, -1):
            joined = "_".join(parts[i:j])
            if joined in known or j == i + 1:
                groups.append((joined, joined in known))
                i = j
                break
    text, before = groups[0]
    for group, is_known in groups[1:]:
        text += ("-" if before and is_known else "_") + group
        before = is_known
    return text


def rows():
    lemmas, definitions = set(), set()
    for path in files("crates", ".antt"):
        of_proof = "/proofs/" in path and path.endswith(("/Proof.antt", "/Answers.antt", "/Invariants.antt"))
        for name, made in declared(path).items():
            if of_proof:
                continue
            (definitions if made else lemmas).add(name)
    turned = {}
    for name in definitions | lemmas:
        if re.match(r"[a-z]", name) and re.search(r"[a-z0-9][A-Z]", name) and "-" not in name:
            turned[name] = snake(name)
    known = LIBRARY | {turned.get(d, d) for d in definitions if "-" not in d and re.match(r"[a-zA-Z]", d)}
    for name in lemmas | definitions:
        if "-" in name and re.match(r"[a-zA-Z]", name):
            new = spelled(name, known)
            if new != name:
                turned[name] = new
    turned.update(CHOSEN)
    return turned


def main():
    table = rows()
    if "--list" in sys.argv:
        for old in sorted(table):
            print(f"{old}\t{table[old]}")
        return
    for path in files(".", (".antt", ".rt", ".edit")):
        with open(path, encoding="utf-8") as f:
            text = f.read()

        def word(m):
            old = m.group(0)
            # such a name may be a function's of src/ too, whose proofs lie in a folder of that name
            if old in CHOSEN and "-" not in old and (not path.endswith(".antt") or text[m.start() - 1] == "."):
                return old
            return table.get(old, old)

        new = WORD.sub(word, text)
        if "/specs/" in path or "/proofs/" in path or path.endswith((".rt", ".edit")):
            for old, now in MODULES.items():
                new = re.sub(rf"(?<=specs\.){old}(?=[.\s;])", now, new)
                new = re.sub(rf"(?m)^(pub )?mod {old}$", rf"\1mod {now}", new)
                new = re.sub(rf"(?m)^(file: specs/){old}(?=/|\.antt)", rf"\1{now}", new)
        if new != text:
            with open(path, "w", encoding="utf-8") as f:
                f.write(new)
    for folder in sorted({os.path.dirname(p) for p in files("crates", ".antt")}, reverse=True):
        if os.path.basename(folder) in MODULES and os.path.basename(os.path.dirname(folder)) == "specs":
            os.rename(folder, os.path.join(os.path.dirname(folder), MODULES[os.path.basename(folder)]))
    for path in list(files("crates", ".antt")):
        stem = os.path.basename(path)[: -len(".antt")]
        if stem in MODULES and os.path.basename(os.path.dirname(path)) == "specs":
            os.rename(path, os.path.join(os.path.dirname(path), MODULES[stem] + ".antt"))


if __name__ == "__main__":
    main()
