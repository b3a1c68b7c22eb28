#!/usr/bin/env python3
"""Respells the definitions and lemmas of crates/ as Rattle spells names today, once, after the kit's own script.

usage: tools/respell.py          writes the files below crates/
       tools/respell.py --list   prints old and new names, and the places where two names would fall together

Words are joined by `_`, a dash stands between two names of definitions alone, types and modules stay in camel case. What comes from source text keeps its
spelling: functions, fields and variables of src/, exported names, strings. A proof of the older form (`Proof.antt`) keeps the names of its goals.
"""

import collections
import os
import re
import sys

TOP = os.path.join(os.path.dirname(os.path.realpath(__file__)), "..")
TOKEN = re.compile(r"[^\s(){}\[\],;.:\"`⌜⌝]+")
DECLARED = re.compile(r"^\s*((?:unfoldable |abbrev |pattern |axiom |pub )*)([^\s(){}\[\],;.:]+)(?: \{[^}]*\})? : ")
GROUP = re.compile(r"^\s*(?:abbrev |pub |pattern |unfoldable )*(data|record|ruleset) ([^\s(){}:]+)")
USED = re.compile(r"use [^\s{;]+\.\{([^}]*)\}")
GOAL = re.compile(r"^(?:pub )?(\S+) : tie\.", re.M)

# Words of the library that were renamed, so that lemmas named after them follow.
RENAMED = {"getD": "get_or"}

# Lemmas that the kit's script gave the name of a function that their file uses.
LEMMAS = {
    "crates/mesh_sides/specs/LoopInvariants.antt": {"put_first": "put_first_lem"},
    "crates/theory_peeling/specs/Labelled.antt": {"labels_length": "labels_length_lem"},
}


def sources():
    for folder, dirs, files in os.walk(os.path.join(TOP, "crates")):
        dirs[:] = sorted(d for d in dirs if d not in ("out", "must-fail"))
        for name in sorted(files):
            if name.endswith((".antt", ".rt")):
                yield os.path.join(folder, name)


def read(path):
    with open(path, encoding="utf-8") as f:
        return f.read()


def snake(part):
    """A part of a name between dashes, in snake case; a type keeps its capitals."""
    if part in RENAMED:
        return RENAMED[part]
    if re.match(r"[A-Z]", part) and not re.match(r"^[A-Z][A-Z]", part):
        return part
    return re.sub(r"(?<=[a-z0-9₀-₉'])([A-Z])", lambda m: "_" + m.group(1).lower(), part)


def gather(texts):
    """The declared names; the definitions among them, after which lemmas are named; and the types."""
    declared, definitions, types, plain = set(), set(), set(), set()
    for path, text in texts.items():
        if path.endswith(".rt"):
            definitions |= set(re.findall(r"\bfn (\w+)", text))
        for names in USED.findall(text):
            for name in names.split(","):
                name = name.split(" as ")[-1].strip()
                if name:
                    plain.add((path, name))
        if not path.endswith(".antt"):
            continue
        inside = None
        kept = goals(path, text)
        for line in text.split("\n"):
            if line.lstrip().startswith("--"):
                continue
            group = GROUP.match(line)
            if group:
                inside = (group.group(1), len(line) - len(line.lstrip()))
                if group.group(1) == "ruleset":
                    declared.add(group.group(2))
                    definitions.add(group.group(2))
                else:
                    types.add(group.group(2))
                continue
            if line.strip() and inside and len(line) - len(line.lstrip()) <= inside[1]:
                inside = None
            found = DECLARED.match(line)
            if found and found.group(2) not in kept:
                marks, name = found.groups()
                declared.add(name)
                if "abbrev" in marks or "unfoldable" in marks or (inside and inside[0] == "data"):
                    definitions.add(name)
                if inside and inside[0] == "record":
                    definitions.add(("field", name))
    fields = {n[1] for n in definitions if isinstance(n, tuple)}
    definitions = {n for n in definitions if not isinstance(n, tuple)}
    return declared, definitions, fields, types, plain


def spelled(name, definitions, fields, words):
    """The new spelling of a declared name."""
    parts = [p for p in re.split(r"(?<=.)-(?=.)", name)]
    new = [snake(p) for p in parts]
    if len(new) == 1:
        return new[0]
    if name in fields or name in definitions:
        return "_".join(new)
    out = new[0]
    for i, (before, after) in enumerate(zip(new, new[1:])):
        head = i == 0 and re.match(r"[A-Z]\w", before)
        symbol = not re.search(r"\w", before + after) or not re.search(r"\w", before) or not re.search(r"\w", after)
        out += ("-" if head or symbol or (is_name(before, words) and is_name(after, words)) else "_") + after
    return out


def is_name(part, words):
    return (part in words and len(part) > 1) or bool(re.match(r"[A-Z]\w", part)) or part.isdigit()


def goals(path, text):
    """The names that a proof of the older form gives its goals, and its own."""
    if not path.endswith("Proof.antt"):
        return set()
    return set(GOAL.findall(text)) | set(re.findall(r"^pub (\S+-spec)\b", text, re.M))


def code_of(path, text):
    """The antt of a file, without its comments and the paths of its imports; of source text the names that its imports make."""
    if not path.endswith(".antt"):
        return " ".join(re.findall(r" as (\w+)[,}]", text))
    return re.sub(r"use [\w.]+", "", "\n".join(l.split("-- ")[0] for l in text.split("\n")))


def main():
    texts = {path: read(path) for path in sources()}
    declared, definitions, fields, types, used = gather(texts)
    own = {snake(d) for d in definitions if "-" not in d}
    from_library = {name for path, name in used if name not in declared and name not in types and "-" not in name}
    words = own | from_library
    new = {name: spelled(name, definitions, fields, words) for name in declared - types}
    taken = {new.get(name, name) for name in declared | {n for _, n in used} if "-" not in name}
    change = {}
    for name in new:
        # A lemma that would have the name of its function.
        if "-" in name and new[name] in taken:
            new[name] += "_lem"
        if new[name] != name:
            change[name] = new[name]

    # Parameters and local names of proofs, and constructors that share a line.
    for path, text in texts.items():
        for name in TOKEN.findall(code_of(path, text)):
            if re.fullmatch(r"[a-z][a-z0-9']*([A-Z][A-Za-z0-9']*)+", name) and name not in change:
                change[name] = snake(name)

    together = 0
    written = {}
    for path, text in texts.items():
        kept = goals(path, text)
        here = LEMMAS.get(os.path.relpath(path, TOP), {})

        def turned(token):
            return token if token in kept else here.get(token) or change.get(token, token)

        # A definition and a function of src/ may share a name, and so may a definition and a crate.
        became = collections.defaultdict(set)
        for token in set(TOKEN.findall(code_of(path, text))):
            became[turned(token)].add(token)
        for new, olds in became.items():
            if len(olds) > 1:
                together += 1
                print(f"together: {os.path.relpath(path, TOP)}: {new} of {', '.join(sorted(olds))}")
        written[path] = TOKEN.sub(lambda m: turned(m.group(0)), text)
    if "--list" in sys.argv:
        for old, new in sorted(change.items()):
            print(f"{old} {new}")
        return 1 if together else 0
    if together:
        return 1
    for path, text in written.items():
        if text != texts[path]:
            with open(path, "w", encoding="utf-8") as f:
                f.write(text)
    print(f"{len(change)} names respelled")
    return 0


if __name__ == "__main__":
    raise SystemExit(main())
