#!/usr/bin/env python3
"""Compares the axioms that programs and static libraries rest on with the table of docs/ASSURANCE.md.

    tests/axioms.py LOG    LOG is what `./build NAME..` printed, or `rt ci` and then `.ci/compile`

There a crate's lines stand under "== NAME", and a line "axioms LIBRARY: a, b (2 of ..)" names the axioms that it reaches of a library.
A crate that reaches none has no row in the table. The static library `portal` links every call, so it stands for the libraries too.
"""

import re
import sys
from pathlib import Path

ROOT = Path(__file__).resolve().parent.parent
BUILT = {"portal", "digit_row_c", "ratejob", "exercises", "vectors"}


def used(log):
    """The axioms of each crate that is reported as proved."""
    found = {}
    for part in re.split(r"^== ", log, flags=re.M)[1:]:
        name, _, said = part.partition("\n")
        if re.search(r"^logic=proved ", said, re.M):
            named = re.findall(r"^axioms \S+: (.*) \(\d+ of", said, re.M)
            found[name] = {axiom for names in named for axiom in names.split(", ")}
    return found


def told():
    """The rows of the table: program, count, names."""
    text = (ROOT / "docs" / "ASSURANCE.md").read_text()
    table = text.partition("| Program | Axioms | Which |")[2].partition("\n\n")[0]
    rows = re.findall(r"^\| `(\w+)` \| (\d+) \| (.*) \|$", table, re.M)
    return {program: (int(count), set(re.findall(r"`([^`]+)`", names))) for program, count, names in rows}


def main():
    found, table = used(Path(sys.argv[1]).read_text()), told()
    faults = [f"{crate} isn't in the log" for crate in sorted(BUILT - found.keys())]
    for crate in sorted(found.keys() | table.keys()):
        axioms = found.get(crate, set())
        if table.get(crate, (0, set())) != (len(axioms), axioms):
            faults.append(f"{crate} uses {sorted(axioms)}; docs/ASSURANCE.md has {table.get(crate, 'no row')}")
    print("\n".join(faults) if faults else f"the axioms of {len(found)} crates are those in docs/ASSURANCE.md")
    return 1 if faults else 0


if __name__ == "__main__":
    sys.exit(main())
