#!/usr/bin/env python3
"""Checks the names that the documents give.

Every path in backticks in docs/*.md and README.md exists, and so does what a link leads to. In each table that has a column
"File", every name in backticks in the column "Theorem", "Definition" or "Solution" is defined in one of the files of its row. Each
must-fail edit that a sentence "Edit: .." or "Edits: .." names is there. Prints what is missing, and then ends with status 1.

A path is relative to the root, to crates/, or to a crate; NAME and FILE in it stand for any name. In a cell, "the same" is
the files of the row above, `Laws.antt` stands beside the path before it, and `proofs/X.antt` of `a`; of `b` is a file of
each of the crates a and b.
"""

import re
import sys
from pathlib import Path

ROOT = Path(__file__).resolve().parent.parent
CRATES = ROOT / "crates"
DOCUMENTS = [ROOT / "README.md", *sorted((ROOT / "docs").glob("*.md"))]
EXTENSIONS = (".antt", ".rt", ".edit", ".md", ".py", ".sh", ".c", ".h", ".rs", ".txt", ".job", ".out")
NAMING = ("Theorem", "Definition", "Solution")
PARTS = ("proofs/", "specs/", "src/")


def quoted(text):
    """What stands in backticks, outside blocks of code."""
    return re.findall(r"`([^`\n]+)`", re.sub(r"^```.*?^```", "", text, flags=re.M | re.S))


def found(path):
    """The files that a path stands for, relative to the root, to crates/, or to a crate."""
    pattern = re.sub(r"\b(NAME|FILE)\b", "*", path).rstrip("/")
    for base in (ROOT, CRATES, *sorted(CRATES.iterdir())):
        files = [p for p in base.glob(pattern) if p.exists()]
        if files:
            return files
    return []


def missing_paths(document):
    """The paths in a document that stand for nothing. What target/ has is made by the build."""
    text = document.read_text()
    paths = [t for t in quoted(text) if "/" in t and " " not in t and not t.startswith("target/")]
    links = [t for t in re.findall(r"\]\(([^)#\s]+)", text) if "://" not in t]
    missing = [t for t in paths if t.endswith(EXTENSIONS) and not found(t)]
    return missing + [t for t in links if not (document.parent / t).exists()]


def sources(path):
    """The files in which names are looked for: a file, or the code of a folder."""
    return sorted(path.glob("*.rt")) if path.is_dir() else [path]


def cell_files(cell, above):
    """The files that a cell names, as files of the repository."""
    files = list(above) if "the same" in cell else []
    tokens = quoted(cell)
    crates = [t for t in tokens if "/" not in t and (CRATES / t).is_dir()]
    for token in tokens:
        if token in crates:
            continue
        if token.startswith(PARTS):
            files += [CRATES / c / token for c in crates]
        elif "/" not in token and files:
            files.append(files[-1].parent / token)
        else:
            files += found(token)
    return [f for path in files for f in sources(path)]


def defines(path, name):
    """Whether a file defines a name: a line of antt that begins with the name and a colon, a record, or an item of Rattle."""
    n = re.escape(name)
    statement = rf"\s*(?:pub |abbrev |unfoldable )*{n}(?: {{[^}}]*}})? :"
    item = rf"\s*(?:pub |pub\(crate\) |extern \"C\" )*(?:record|fn|struct|enum) {n}(?![\w'-])"
    return path.is_file() and re.search(rf"^(?:{statement}|{item})", path.read_text(), re.M) is not None


def defined(name, files):
    """A name of a row: in one of its files; of a contract's own definitions, in the specs of its crate."""
    specs = [s for f in files if f.parent.name == "src" for s in sorted(f.parent.parent.glob("specs/*.antt"))]
    return any(defines(f, name) for f in files + (specs if name[:1].isupper() else []))


def rows(document):
    """The rows of a document's tables that name files: line number, names, and the cell of files, which a broken row lacks."""
    header = []
    for number, line in enumerate(document.read_text().splitlines(), 1):
        cells = [c.strip() for c in line.split("|")[1:-1]] if line.startswith("|") else []
        if not cells or not header:
            header = cells
        elif "File" in header and not set(line) <= set("|-: "):
            names = [n for c, h in zip(cells, header) if h in NAMING for n in quoted(c)]
            yield number, names, cells[header.index("File")] if len(cells) == len(header) else ""


def missing_names(document):
    files = []
    for number, names, cell in rows(document):
        files = cell_files(cell, files)
        if not files:
            yield f"line {number}: no file in '{cell}'"
        for name in names:
            if not defined(name, files):
                yield f"line {number}: `{name}` is not defined in {cell}"


def missing_edits(document):
    """The must-fail edits that a document names and no crate has."""
    named = [n for sentence in re.findall(r"\bEdits?:([^.]*)\.", document.read_text()) for n in quoted(sentence)]
    return [n for n in named if not list(CRATES.glob(f"*/must-fail/{n}.edit"))]


def main():
    faults = []
    for document in DOCUMENTS:
        where = document.relative_to(ROOT)
        faults += [f"{where}: `{path}` does not exist" for path in missing_paths(document)]
        faults += [f"{where}: {fault}" for fault in missing_names(document)]
        faults += [f"{where}: no edit `{name}`" for name in missing_edits(document)]
    print("\n".join(faults) if faults else "every path exists, and every name is defined in the file of its row")
    return 1 if faults else 0


if __name__ == "__main__":
    sys.exit(main())
