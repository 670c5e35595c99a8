#!/usr/bin/env python3
"""Lists the places of docs/DESIGN-PASS.md in the sources of a commit, or of the work tree.

    tools/places.py                 counts, of the work tree
    tools/places.py COMMIT          counts, of a commit
    tools/places.py --list [COMMIT] each place: point, pattern, file, line

Each point has patterns: regular expressions over a line of crates/*/src/**/*.rt, or over a whole signature, from `fn` to the brace
that opens the body, where the pattern begins with `sig:`. Two counts go by no name: `facts` are parts of a `requires` that three functions
of a crate or more share, and `together` are functions that share three parameters or more, by name and type, with two others of their crate.
"""

import re
import subprocess
import sys
from pathlib import Path

ROOT = Path(__file__).resolve().parent.parent

PATTERNS = [
    # Own enums of the shape of Option or Result, and numbers for kinds or refusals.
    (1, "an answer with cases of its own", r"\benum Answer\b|\bAnswer::(Accepted|Refused|Noisy)\b"),
    (1, "a number that tells whether a check passed", r"\bif !?[\w.()]+ [!=]= 0 \{$|\banswers::first\(|\bunless\([^;]*, \d\)"),
    (1, "a function that gives a refusal as a number", r"sig:-> u32\b.*ensures \{[^}]*(Checks?\.|number|refusal|lengths|contents|amplitudes|numbers|beginning|sections|classes_of)"),
    # Twins.
    (2, "functions that differ in a direction, a size or a table",
     r"\bfn (\w+_back(_of_\w+)?|backward|pass(_of_four)?|butterfly|level(_of_\w+)?|add_rows_(tiny|small)|(smaller|larger|greater)|(\w+_)?(roots|quotients|scales)|\w+_room|add_(sparse_)?product(_in|_roomed)?|print_(digits|polynomial)|gather_\w+)\b(?!<)"),
    (2, "exports that differ in what they tell", r'extern "C" fn \w+_(bound|gates)\b'),
    # Loops that count an index by hand.
    (3, "a loop that counts by hand", r"^\s*(while|loop)\b"),
    # Copying, conversion, comparison and printing by hand.
    (4, "a conversion, a copy, a comparison or a number's text by hand",
     r"\bfn (wide|copy|copy_words|clear|clear_words|put|put_decimal|smaller|larger|greater|one_unless_zero|power|pow2)\b"),
    # Facts and parameters that always travel together.
    (5, "a function of eight parameters or more", r"params:8"),
    (5, "a fact in the requires of three functions of a crate", "facts:3"),
    (5, "three parameters that three functions of a crate share", "together:3"),
    (5, "a fact for which there is a type",
     r"sig:requires \{[^}]*(\bLawful (p\.)?g|\bDegree n|\bReady p w v|\bTwiddles p n|\bTablesOf\b|\bOperands n|\bFactors n|\bLawfulNumbers x|Sample\.Key n k|\bClassNumber m)"),
    # Buffers with a length beside them.
    (6, "a buffer with a length beside it", r"^\s*pub (size|bytes|sample): (usize|\[u8)"),
    (6, "a length beside the slices that have it", r"sig:fn \w+\([^)]*&(mut )?\[u\w+\][^)]*\bn: usize[^)]*\).*length \w+(\.\w+)* ≡ (4 \* )?n\b"),
    # A switch on which step to run.
    (7, "a flag that picks what is done", r"\bskip\b(: bool)?"),
]


def sources(commit):
    """File name and text of each source."""
    if commit is None:
        files = sorted((ROOT / "crates").glob("*/src/**/*.rt"))
        return [(str(f.relative_to(ROOT)), f.read_text()) for f in files]
    names = subprocess.run(["git", "ls-tree", "-r", "--name-only", commit, "crates"], cwd=ROOT, capture_output=True, text=True, check=True).stdout
    names = [n for n in names.split() if re.fullmatch(r"crates/[^/]+/src/.*\.rt", n)]
    return [(n, subprocess.run(["git", "show", f"{commit}:{n}"], cwd=ROOT, capture_output=True, text=True, check=True).stdout) for n in names]


def signatures(text):
    """Line and text, on one line, of each function up to its body."""
    for m in re.finditer(r"^\s*(pub )?(extern \"C\" )?fn \w+", text, flags=re.M):
        end = re.search(r"\n\s*\{\n| \{\n(?=\s)|;\n", text[m.start():])
        yield text.count("\n", 0, m.start()) + 1, " ".join(text[m.start(): m.start() + (end.start() if end else 400)].split())


def parameters(signature):
    """How many parameters a signature has."""
    inside = re.search(r"\((.*?)\)( ->|$| requires| ensures| where)", signature)
    return len([p for p in re.sub(r"<[^>]*>|\[[^\]]*\]", "", inside.group(1)).split(",") if p.strip()]) if inside else 0


def conjuncts(signature):
    """The parts of what a signature requires."""
    inside = re.search(r"requires \{ (.*?) \}( requires| ensures|$)", signature)
    if not inside:
        return []
    parts, deep = [""], 0
    for word in re.split(r"( × |[()])", inside.group(1)):
        deep += (word == "(") - (word == ")")
        if word == " × " and deep <= 0:
            parts.append("")
        else:
            parts[-1] += word
    return [p.strip() for p in parts]


def named(signature):
    """The parameters of a signature, each with its type."""
    inside = re.search(r"\((.*?)\)( ->|$| requires| ensures| where)", signature)
    return [" ".join(p.split()) for p in inside.group(1).split(",") if ":" in p] if inside else []


def shared(texts, least, items, size):
    """Places whose signatures share `size` items or more, all the same, with `least` - 1 others of their crate."""
    crates = {}
    for name, text in texts:
        for n, signature in signatures(text):
            crates.setdefault(name.split("/")[1], []).append((name, n, frozenset(items(signature))))
    for functions in crates.values():
        for name, n, own in functions:
            groups = [own & other for _, _, other in functions]
            if any(sum(1 for _, _, other in functions if group <= other) >= least for group in groups if len(group) >= size):
                yield name, n


def places(commit):
    found = []
    texts = sources(commit)
    for point, what, pattern in PATTERNS:
        if pattern.startswith("facts:"):
            found += [(point, what, name, n) for name, n in shared(texts, int(pattern[6:]), conjuncts, 1)]
        elif pattern.startswith("together:"):
            found += [(point, what, name, n) for name, n in shared(texts, 3, named, int(pattern[9:]))]
    for name, text in texts:
        for point, what, pattern in PATTERNS:
            if pattern.startswith(("facts:", "together:")):
                continue
            if pattern.startswith("sig:"):
                lines = [n for n, s in signatures(text) if re.search(pattern[4:], s)]
            elif pattern.startswith("params:"):
                lines = [n for n, s in signatures(text) if int(pattern[7:]) <= parameters(s)]
            else:
                lines = [n for n, line in enumerate(text.splitlines(), 1)
                         if not line.lstrip().startswith("//") and re.search(pattern, line)]
            found += [(point, what, name, n) for n in lines]
    return found


def main():
    arguments = [a for a in sys.argv[1:] if a != "--list"]
    found = places(arguments[0] if arguments else None)
    if "--list" in sys.argv:
        for point, what, name, n in sorted(found):
            print(f"{point}  {what}: {name}:{n}")
    for point, what, _ in PATTERNS:
        print(f"{point}  {sum(1 for f in found if f[:2] == (point, what)):4}  {what}")


if __name__ == "__main__":
    main()
