#!/usr/bin/env python3
"""Sees that the places that the documents name are there: check_docs.py [TOP]

A path in backticks that begins with a folder of the repository is a file or a folder (NAME stands for any), and where the text says "`NAME` in `PATH`"
that file has the name. A job that docs/INDEX.md shows is in examples/. In docs/CLAIMS.md the contract of each row is a function or
a type of the row's crate, and what stands in brackets behind it are clauses there.
"""

import pathlib
import re
import sys

FOLDERS = "crates|docs|scripts|examples|bench"


def faults_of(top, document):
    text = (top / document).read_text()
    for path in sorted(set(re.findall(rf"`((?:{FOLDERS})/[\w./-]*)`", text))):
        if "NAME" not in path and not (top / path).exists():
            yield f"{document}: there is no {path}"
    for name, path in re.findall(rf"`(\w+)`\s+in\s+`((?:{FOLDERS})/[\w./-]*)`", text):
        file = top / path
        if file.is_file() and not re.search(rf"\b{name}\b", file.read_text()):
            yield f"{document}: {path} has no {name}"


def job_faults(top):
    for job in re.findall(r"\| `(\w+)` \|$", (top / "docs" / "INDEX.md").read_text(), re.MULTILINE):
        if not (top / "examples" / f"{job}.job").exists():
            yield f"docs/INDEX.md: there is no job {job}"


def has(code, words, name):
    return re.search(rf"\b(?:{words}) {name}\b", code) is not None


def claim_faults(top):
    code = crate = ""
    for line in (top / "docs" / "CLAIMS.md").read_text().splitlines():
        cells = [it.strip() for it in line.split("|")]
        if len(cells) != 5:
            continue
        if cells[1].startswith("`"):
            crate = cells[1].strip("`")
            code = "\n".join(it.read_text() for it in sorted((top / "crates" / crate / "src").glob("*.rt")))
        clauses = " ".join(re.findall(r"\(.*?\)", cells[2]))
        functions = re.sub(r"\(.*?\)", "", cells[2]) if cells[2].startswith("`") else ""
        for names, words in ((functions, "fn|struct|enum|trait"), (clauses, "ensures|fn")):
            for name in re.findall(r"\w+", " ".join(re.findall(r"`([\w:]+)`", names))):
                if not has(code, words, name):
                    yield f"docs/CLAIMS.md: {crate} has no {name}"


def main():
    top = pathlib.Path(sys.argv[1] if len(sys.argv) > 1 else pathlib.Path(__file__).resolve().parent.parent)
    documents = ["README.md", "CONTRIBUTING.md", "examples/README.md"]
    documents += [f"docs/{it.name}" for it in sorted((top / "docs").glob("*.md"))]
    faults = [fault for it in documents for fault in faults_of(top, it)] + [*job_faults(top), *claim_faults(top)]
    for fault in faults:
        print(f"documents: {fault}")
    print(f"documents: {len(documents)} looked at, {len(faults)} faults")
    return 1 if faults else 0


if __name__ == "__main__":
    sys.exit(main())
