#!/usr/bin/env python3
"""Holds the documents against the tree.

Every name in backticks that looks like a path, a crate, a file of a crate, a definition or a must-fail edit has to exist, a name that follows a crate or a
file has to stand in a crate that its row or paragraph names, and docs/READING.md has to cite every must-fail edit. Run it in the repository; it exits 1
where something is missing.
"""
import pathlib
import re
import sys

TOP = pathlib.Path(__file__).resolve().parent.parent
PAGES = ["README.md"] + [f"docs/{name}.md" for name in ("READING", "OPERATING", "EIGHT-CASES", "TESTING", "ARCHITECTURE", "TERMS", "DECISIONS")]
# folders of which every path that is cited has to be there
FOLDERS = "bench", "compare", "crates", "docs", "faults", "host", "rust", "samples", "second", "tools"
CRATES = {path.name: path for path in (TOP / "crates").iterdir() if path.is_dir()}
FILES = ("antt", "h", "md", "py", "txt")
# the files of definitions by their names, and all files of specs by those of the records that they have
SPECS = {}
for spec in (TOP / "crates").glob("*/specs/*.antt"):
    for title in re.findall(r"record (\S+)", spec.read_text(encoding="utf8")):
        SPECS.setdefault(title, []).append(spec)
# the cases that pin the definitions stand in proofs
for folder in "specs", "proofs":
    for spec in (CRATES["definitions"] / folder).glob("*.antt"):
        SPECS[spec.stem] = [spec]

missing = []
cited = set()


def names(path):
    """Every name that a file of specs writes."""
    return set(re.split(r'[\s(){}.;,@"]+', path.read_text(encoding="utf8")))


def stands(path, stem):
    """Whether a crate has a file of definitions or of cases of that name."""
    return any((path / folder / f"{stem}.antt").exists() for folder in ("specs", "proofs"))


def edit(crate, label):
    return (CRATES[crate] / "must-fail" / f"{label}.edit").exists()


def known(text, owners):
    """Whether the name is that of a folder or of a file of specs or cases, or the header or one of the crates writes it in specs, proofs or code."""
    if (TOP / text).is_dir() or text in names(TOP / "host/packmap.h") or any(stands(path, text) for path in CRATES.values()):
        return True
    return any(text in names(path) for owner in owners for path in CRATES[owner].rglob("*") if path.suffix in (".antt", ".rt"))


def span(page, text, crate, owners):
    """Looks one backticked name up. Returns the crate that a bare name after it belongs to; owners are the crates that its block names."""
    match = re.fullmatch(r"([a-z0-9_]+)/([A-Za-z0-9_]+)", text)
    if match and match[1] in CRATES:
        if edit(match[1], match[2]):
            cited.add((match[1], match[2]))
        elif not stands(CRATES[match[1]], match[2]):
            missing.append(f"{page}: {text} is neither a file of specs nor an edit")
        return match[1]
    match = re.fullmatch(r"([A-Z][A-Za-z]+)\.([^\s.]+)", text)
    if match and match[2] not in FILES:
        if not any(match[2] in names(path) for path in SPECS.get(match[1], [])):
            missing.append(f"{page}: {text} is in no definition or record of that name")
        return crate
    match = re.fullmatch(r"([a-z0-9_]+)::(\w+)", text)
    if match and match[1] in CRATES:
        source = "".join(path.read_text(encoding="utf8") for path in (CRATES[match[1]] / "src").glob("*.rt"))
        if not re.search(rf"\b(fn|enum|struct|const) {match[2]}\b", source):
            missing.append(f"{page}: {text} is not in that crate's source")
        return crate
    match = re.match(r"(?:python3 )?(([a-z]+)/[\w./-]+)", text)
    if match and match[2] in FOLDERS and "target" not in match[1].split("/"):
        if not (TOP / match[1]).exists():
            missing.append(f"{page}: {match[1]} is not there")
        return crate
    found = False
    for owner in (crate, "definitions"):
        if owner and edit(owner, text):
            cited.add((owner, text))
            found = True
    if crate and not found and re.fullmatch(r"[A-Za-z][\w\u2032-]*", text) and not known(text, owners):
        missing.append(f"{page}: {text} is in none of the crates named beside it")
    return crate


def blocks(text):
    """A row of a table is a block of its own, and so is a paragraph."""
    for paragraph in re.split(r"\n\s*\n", text):
        if paragraph.startswith("|"):
            yield from paragraph.split("\n")
        else:
            yield paragraph


for page in PAGES:
    for block in blocks((TOP / page).read_text(encoding="utf8")):
        crate = None
        parts = re.findall(r"`([^`]+)`", block)
        owners = {"definitions"} | {re.split(r"/|::", part.removeprefix("crates/"))[0] for part in parts} & set(CRATES)
        for part in parts:
            crate = part if part in CRATES else span(page, part, crate, owners)
for path in sorted((TOP / "crates").glob("*/must-fail/*.edit")):
    if (path.parent.parent.name, path.stem) not in cited:
        missing.append(f"docs/READING.md does not cite {path.parent.parent.name}/{path.stem}")
for line in missing:
    print(line)
print(f"{len(cited)} must-fail edits cited")
sys.exit(1 if missing else 0)
