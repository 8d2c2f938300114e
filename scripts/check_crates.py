#!/usr/bin/env python3
"""Checks what crates.txt says of the crates, without building one: check_crates.py [TOP]

- Each crate stands in a headed group, and on none of a later group or further down in its own.
- Each mentions all that it lists, in src/, specs/ or proofs/: `NAME::`, `use NAME` or `Rattle.NAME.`.
- The map in docs/ARCHITECTURE.md has the same groups in the same order, and in each of them the same crates.
"""

import pathlib
import re
import sys

# what a comment is in each kind of file
COMMENTS = {".rt": r"//.*", ".antt": r"--.*"}


def groups_of(text):
    """The groups of crates.txt: a heading is a comment directly above a line of a crate."""
    groups, heading = [], None
    for line in text.splitlines():
        found = re.match(r"(\w+)[^:#]*:([^#]*)", line)
        if found is None:
            heading = line.lstrip("# ") if line.startswith("#") else None
            continue
        if heading is not None or not groups:
            groups.append((heading or "", {}))
            heading = None
        groups[-1][1][found[1]] = found[2].split()
    return groups


def mapped(text):
    """The groups of the map: headings of the third rank, and the crates in the first column of the tables below them."""
    groups = []
    for line in text.splitlines():
        if line.startswith("### "):
            groups.append((line[4:], []))
        elif re.match(r"#{1,2} ", line) and groups:
            break
        elif groups and line.startswith("| `"):
            groups[-1][1].extend(re.findall(r"`(\w+)`", line.split("|")[1]))
    return groups


def code_of(folder):
    """All that the files of a crate say outside comments."""
    files = (it for part in ("src", "specs", "proofs") for it in sorted((folder / part).rglob("*")))
    return "\n".join(re.sub(COMMENTS[it.suffix], "", it.read_text()) for it in files if it.suffix in COMMENTS)


def order_faults(groups):
    places = {name: (at, row) for at, (_, crates) in enumerate(groups) for row, name in enumerate(crates)}
    for heading, crates in groups:
        if not heading:
            yield f"{next(iter(crates))} has no heading above it"
        for name, lower in crates.items():
            for other in lower:
                if other in places and places[other] >= places[name]:
                    yield f"{name} stands on {other}, which comes later"


def mention_faults(top, groups):
    for _, crates in groups:
        for name, lower in crates.items():
            code = code_of(top / "crates" / name)
            for other in lower:
                if not re.search(rf"\b{other}::|\buse {other}\b|\bRattle\.{other}\.", code):
                    yield f"{name} lists {other}, and never mentions it"


def map_faults(groups, told):
    if [heading for heading, _ in groups] != [heading for heading, _ in told]:
        yield f"the map has the groups {[heading for heading, _ in told]}, and crates.txt {[it for it, _ in groups]}"
    for (heading, crates), (_, names) in zip(groups, told):
        for name in crates:
            if names.count(name) != 1:
                yield f"the map has {name} {names.count(name)} times in the group {heading}"
        for name in names:
            if name not in crates:
                yield f"the map has {name} in the group {heading}, where crates.txt hasn't"


def main():
    top = pathlib.Path(sys.argv[1] if len(sys.argv) > 1 else pathlib.Path(__file__).resolve().parent.parent)
    groups = groups_of((top / "crates.txt").read_text())
    told = mapped((top / "docs" / "ARCHITECTURE.md").read_text())
    faults = [*order_faults(groups), *mention_faults(top, groups), *map_faults(groups, told)]
    for fault in faults:
        print(f"crates: {fault}")
    count = sum(len(crates) for _, crates in groups)
    print(f"crates: {count} in {len(groups)} groups, {len(faults)} faults")
    return 1 if faults or not count else 0


if __name__ == "__main__":
    sys.exit(main())
