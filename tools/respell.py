#!/usr/bin/env python3
"""Spells the names of this repository's own definitions and lemmas as today's Rattle does: words in snake case, types in camel case.

usage: python3 tools/respell.py [FOLDER]      rewrites the files below FOLDER/crates in place; run once, after port.py

Names that Rattle makes (goals, steps, loops) and names of the library keep theirs.
"""
import os
import re
import sys

WORD = r"[^\s(){}\[\],;.:=λ→←×|⌜⌝«»\"]"
NAME = re.compile(r"(?<![^\s(){}\[\],;.:=λ→←×|⌜⌝\"])[A-Za-z][A-Za-z0-9_]*(?:-[A-Za-z0-9_]+)+'?(?![^\s(){}\[\],;.:=λ→←×|⌜⌝\"])")
SIGNATURE = re.compile(r"^\s*(?:(?:abbrev|unfoldable|pub)\s+)*([A-Za-z][\w'-]*)\s+:\s(.*)$")
TYPE = re.compile(r"^\s*(?:(?:abbrev|unfoldable|pub)\s+)*(?:data|record)\s+([A-Za-z][\w'-]*)")
# where the plain spelling is taken: by a ghost field of the plan, and by a field of its table
INSTEAD = {"responses-fit": "responses_fit_in", "row-count": "row_total"}


def files(top):
    for folder, dirs, names in os.walk(os.path.join(top, "crates")):
        dirs[:] = sorted(d for d in dirs if d != "out")
        for name in sorted(names):
            if name.endswith((".antt", ".rt")):
                yield os.path.join(folder, name)


def goals(text):
    """The names in a file that Rattle makes."""
    made = set(re.findall(r"(?:goal|given|need)\.([\w'-]+)", text))
    for names in re.findall(r"^use [^\n]*\.(?:Goals|Given)\.\{([^}]*)\}", text, re.M):
        made.update(n.strip() for n in names.split(","))
    return made


def own_names(top):
    names, fields, types = set(), set(), set()
    for path in files(top):
        if not path.endswith(".antt"):
            continue
        with open(path, encoding="utf-8") as f:
            text = f.read()
        made = goals(text)
        for line in text.split("\n"):
            m = SIGNATURE.match(line) or TYPE.match(line)
            if not m or "-" not in m.group(1) or m.group(1) in made:
                continue
            names.add(m.group(1))
            if line.startswith(" "):
                fields.add(m.group(1))
            if line.rstrip().endswith("Type 0") or TYPE.match(line):
                types.add(m.group(1))
    return names, fields, types


def spelled(name, types):
    if name in INSTEAD:
        return INSTEAD[name]
    if name in types:
        return "".join(w[:1].upper() + w[1:] for w in name.split("-"))
    return name.replace("-", "_")


def respell(text, names, fields, types, said):
    made = goals(text)
    aliases = set(re.findall(r"^(?:ghost )?use [^\n{]* as (\w+)", text, re.M))

    def one(m):
        name = m.group(0)
        if name not in names or name in made:
            return name
        before = text[: m.start()]
        if before.endswith("."):
            chain = re.search(r"[^\s(){}\[\],;]*$", before).group(0)
            if chain.rstrip(".") not in aliases and name not in fields:
                said.append(f"kept {chain}{name}")
                return name
            if chain.startswith(("c.", "w.")):
                said.append(f"turned {chain}{name}")
        return spelled(name, types)

    return NAME.sub(one, text)


def main():
    top = sys.argv[1] if len(sys.argv) > 1 else "."
    names, fields, types = own_names(top)
    said = []
    for path in files(top):
        with open(path, encoding="utf-8") as f:
            text = f.read()
        new = respell(text, names, fields, types, said)
        if new != text:
            with open(path, "w", encoding="utf-8") as f:
                f.write(new)
    print(f"{len(names)} names")
    print("\n".join(sorted(set(said))))


main()
