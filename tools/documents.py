#!/usr/bin/env python3
"""Compares the documents with what they name.

usage: tools/documents.py [TOP]      TOP: the top of another checkout

- crates.txt has each crate below those that it stands on.
- The map (docs/ARCHITECTURE.md) has a row for each crate of crates.txt, in the same order and each once.
- Each crate has a README.md that begins with its name.
- docs/DEFINITIONS.md names each public definition of kms_model before it comes to other crates, and names nothing that is not there.
- A relative link of a document leads to a file.
"""
import pathlib
import re
import sys

DEFINITION = re.compile(r"^(?:(?:abbrev|unfoldable) pub|pub (?:record|data|abbrev|unfoldable)) (\S+)", re.M)
LINK = re.compile(r"\]\(([^)#:\s]+)(?:#[^)]*)?\)")


def crates_of(top):
    """The crates of crates.txt, in their order, each with what it stands on."""
    lines = [line.split("#")[0] for line in (top / "crates.txt").read_text().splitlines()]
    parted = [line.split(":", 1) for line in lines if ":" in line]
    return {head.split()[0]: below.split() for head, below in parted}


def layer_faults(crates):
    """Each crate that stands on one below it in crates.txt."""
    places = {crate: place for place, crate in enumerate(crates)}
    for crate, below in crates.items():
        for other in below:
            if places.get(other, -1) > places[crate]:
                yield f"crates.txt has {crate} above {other}, on which it stands"


def map_faults(top, crates):
    """What is wrong with the rows of the map: each crate that they lack or have too often, else the first out of its order."""
    rows = re.findall(r"^\| \[?`(\w+)`", (top / "docs" / "ARCHITECTURE.md").read_text(), re.M)
    rows = [row for row in rows if row.startswith("kms")]
    faults = [f"the map has no row for {crate}" for crate in crates if crate not in rows]
    faults += [f"the map has {rows.count(row)} rows for {row}" for row in sorted(set(rows)) if rows.count(row) > 1]
    faults += [f"the map has a row for {row}, which crates.txt has not" for row in rows if row not in crates]
    wrong = [f"the map has {row} where crates.txt has {crate}" for crate, row in zip(crates, rows) if crate != row]
    return faults or wrong[:1]


def readme_faults(top, crates):
    """Each crate without a README.md that begins with its name."""
    for crate in crates:
        page = top / "crates" / crate / "README.md"
        if not page.is_file():
            yield f"crates/{crate} has no README.md"
        elif not page.read_text().startswith(f"# `{crate}`\n"):
            yield f"crates/{crate}/README.md does not begin with the crate's name"


def names_in(text):
    """The names between backquotes, of which several may stand between two."""
    return {name for quoted in re.findall(r"`([^`]+)`", text) for name in re.split(r"[,\s]+", quoted)}


def sources(top, *folders):
    """The files of code, definitions and proofs, but for what was built of them."""
    for folder in folders:
        for file in sorted(top.glob(f"crates/{folder}/**/*")):
            if file.suffix in (".antt", ".rt") and "out" not in file.relative_to(top).parts:
                yield file


def definition_faults(top):
    """The public definitions that the list lacks, and the names of its rows that stand nowhere in the crates."""
    page = (top / "docs" / "DEFINITIONS.md").read_text()
    named = names_in(page.split("\n## In `")[0])
    for file in sources(top, "kms_model/specs"):
        for name in DEFINITION.findall(file.read_text()):
            if name not in named:
                yield f"docs/DEFINITIONS.md does not name {name} of {file.relative_to(top)}"
    there = set()
    for file in sources(top, "*"):
        there.update(re.findall(r"\w+", file.read_text()))
    for row in re.findall(r"^\| (`[^|]*)\|", page, re.M):
        for name in sorted(names_in(row) - there):
            if re.fullmatch(r"\w+", name):
                yield f"docs/DEFINITIONS.md names {name}, which stands nowhere in the crates"


def link_faults(top):
    """The relative links of the documents that lead nowhere."""
    folders = ["*.md", "docs/**/*.md", "crates/*/README.md", "tools/**/*.md", "bench/*.md"]
    for page in sorted(page for folder in folders for page in top.glob(folder)):
        for link in LINK.findall(page.read_text()):
            if not (page.parent / link).exists():
                yield f"{page.relative_to(top)} has a link to {link}, which is not there"


def main():
    if len(sys.argv) > 2 or sys.argv[1:] == ["--help"]:
        sys.exit(__doc__)
    top = pathlib.Path(sys.argv[1]) if len(sys.argv) == 2 else pathlib.Path(__file__).resolve().parent.parent
    crates = crates_of(top)
    faults = [*layer_faults(crates), *map_faults(top, crates), *readme_faults(top, crates)]
    faults += [*definition_faults(top), *link_faults(top)]
    print("\n".join(faults) or "the documents name what is there")
    sys.exit(bool(faults))


main()
