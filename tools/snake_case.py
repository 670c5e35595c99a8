#!/usr/bin/env python3
"""Spells the repository's own definitions, laws and bound names in snake case: `file-accuracy` and `keySize` become `file_accuracy` and
`key_size`. Types and modules keep their capitals, and so do names of the toolchain's library, labels that the checker makes, functions of
src/, exported C names and all strings.

usage: tools/snake_case.py [--check] [FOLDER]     FOLDER has crates/; by default it is the repository of this script

--check writes nothing and exits with 1 if a name is left. Names that would fall together in an .antt file stop it before a file is written.
What turns: the code of .antt files, .rt files outside strings, the lines of must-fail edits, and code spans of comments and of .md files; of
these also fenced blocks marked antt, rust, text or nothing. Indented blocks are yours to read. A name of the library is known by the `use`
item that brings it in, so one that is reached through a module must not be spelled like a name of your own.
"""

import collections
import os
import re
import sys

WORD = re.compile(r'[^\s(){}.;,@"«»◌]+')
# In Rust a name also ends at the signs of a path or a type.
RUST_WORD = re.compile(r'[^\s(){}.;,@"«»◌:<>&!*=\[\]]+')
QUIET = re.compile(r'"(?:[^"\\\n]|\\.)*"|(?<![^\s(){}.;,@"«»])--[^\n]*|\{-.*?-\}', re.S)
RUST_QUIET = re.compile(r'"(?:[^"\\]|\\.)*"|//[^\n]*')
SPAN = re.compile(r"`[^`\n]+`")
FENCE = re.compile(r"^```(\w*)\n.*?^```$", re.S | re.M)
USE = re.compile(r"^(?:pub )?use ([^\s;{]+?)\.?(?:\{([^}]*)\})?(?: as (\S+))?$", re.M)
DECLARED = re.compile(r"(?m)^ *(?:(?:pub|abbrev|unfoldable|private|opaque) +)*(\S+)(?: \{[^{}\n]*\})* :")
BLOCK = re.compile(r"(?<![^\s(){};,])(?:where|let) +(?=\S)")
MADE = ("Answers.antt", "Invariants.antt")

# Laws whose names differ from that of a definition in the same file by spelling alone.
APART = {
    "bits-FE": "bits_fe_fit",
    "block-Q": "block_q_chunk",
    "block-R": "block_r_chunk",
    "blocks-FE": "blocks_fe_hold",
    "file-packing": "read_packing",
    "key-B": "is_key_b",
    "key-J": "is_key_j",
    "key-P": "is_key_p",
    "product-modulo": "product_modulo_mul",
    "result-P": "result_p_words",
    "row-digits": "row_digits_at",
    "sample-A": "sample_a_words",
    "sum-bytes": "sum_in_bytes",
    "table-AB": "table_ab_words",
    "table-samples": "table_samples_fill",
}
# A name that the toolchain's own script turns in some places and leaves in others.
HALF_TURNED = {"orElse"}


def is_other(word):
    """Whether a word is in another spelling: a dash between letters, or a capital behind a small letter."""
    return bool(re.search(r"[\w']-\w", word) or re.match(r"[a-z].*[a-z0-9][A-Z]|[a-z][A-Z]", word))


def in_snake_case(word):
    return re.sub(r"(?<=[a-z0-9])(?=[A-Z])", "_", word).replace("-", "_").lower()


def files(top):
    for folder, dirs, names in os.walk(top):
        dirs[:] = sorted(d for d in dirs if d not in ("out", ".git", "target"))
        yield from (os.path.join(folder, n) for n in sorted(names))


def read(path):
    with open(path, encoding="utf-8") as f:
        return f.read()


class Names:
    """What the texts of a folder declare, and what each file brings in of the toolchain's library."""

    def __init__(self, top):
        self.crates = set(os.listdir(os.path.join(top, "crates")))
        texts = {p: QUIET.sub(" ", read(p)) for p in files(os.path.join(top, "crates")) if p.endswith(".antt")}
        self.own, self.words = set(), collections.defaultdict(set)
        for path, text in texts.items():
            lent, body = self.lent(text), USE.sub(" ", text)
            words = set(WORD.findall(body)) - lent
            if path.endswith(MADE):
                labels = set(re.findall(r"goal\.(" + WORD.pattern + ")", body))
                self.own.update(w for d in DECLARED.findall(body) for w in WORD.findall(d) if is_other(w) and w not in labels)
            elif not path.endswith("/Proof.antt"):
                self.own.update(w for w in words if is_other(w))
        for path, text in texts.items():
            # A name behind a dot falls together with none that stands free.
            self.words[path] = set(re.findall(r'(?<![^\s(){},;@"«»◌])' + WORD.pattern, text))
        self.table = {w: APART.get(w, in_snake_case(w)) for w in self.own}

    def lent(self, text):
        """The names that a text brings in from elsewhere than this repository."""
        found = set()
        for path, items, _ in USE.findall(text):
            steps = path.split(".")
            if not (steps[0] == "package" or steps[0] == "Rattle" and steps[1] in self.crates):
                found.update(WORD.findall(items))
        return found

    def clashes(self):
        """Names that would fall together, in some file, with one another or with a name that stands there."""
        for path, words in sorted(self.words.items()):
            came = collections.defaultdict(set)
            for word in words:
                came[self.table.get(word, word)].add(word)
            for new, olds in came.items():
                if len(olds - HALF_TURNED) > 1:
                    yield f"{path}: {' and '.join(sorted(olds))} would both be {new}"


class Turner:
    def __init__(self, names):
        self.names, self.table = names, names.table

    def words(self, text, kept=frozenset(), word=WORD):
        return word.sub(lambda m: m[0] if m[0] in kept else self.table.get(m[0], m[0]), text)

    def code(self, text):
        return self.words(text, word=RUST_WORD)

    def prose(self, text):
        """A span of code in prose may hold one name, or several behind punctuation of prose."""
        part = re.compile(r"[A-Za-z0-9][A-Za-z0-9'_-]*")
        return SPAN.sub(lambda s: part.sub(lambda m: self.table.get(m[0], m[0]), s[0]), text)

    def antt(self, text):
        kept = self.names.lent(QUIET.sub(" ", text))
        quiet = lambda t: t if t[0] == '"' else self.prose(t)
        return realigned(text, between(QUIET, text, quiet, lambda t: self.words(t, kept)))

    def rt(self, text):
        quiet = lambda t: t if t[0] == '"' else self.prose(t)
        return between(RUST_QUIET, text, quiet, self.code)

    def edit(self, text):
        turn = lambda line: self.code(line) if line.startswith(("old: ", "new: ")) else self.prose(line)
        return "\n".join(map(turn, text.split("\n")))

    def md(self, text):
        block = lambda t: self.words(t) if FENCE.match(t)[1] in ("", "antt", "rust", "text") else t
        return between(FENCE, text, block, self.prose)


def between(pattern, text, inside, outside):
    out, at = [], 0
    for m in pattern.finditer(text):
        out += [outside(text[at : m.start()]), inside(m[0])]
        at = m.end()
    return "".join(out + [outside(text[at:])])


def realigned(old, new):
    """The later lines of a block that begins behind a longer name stand under its first item again."""
    blank = lambda t: QUIET.sub(lambda m: re.sub(r"[^\n]", " ", m[0]), t).split("\n")
    was, now, by = blank(old), blank(new), collections.Counter()
    for row, (a, b) in enumerate(zip(was, now)):
        for x, y in zip(BLOCK.finditer(a), BLOCK.finditer(b)):
            below = row + 1
            while x.end() != y.end() and below < len(was) and not was[below][: x.end()].strip():
                by[below] += (y.end() - x.end()) * bool(was[below].strip())
                below += 1
    return "\n".join(" " * by[row] + line for row, line in enumerate(new.split("\n")))


def main(argv):
    check = argv[:1] == ["--check"]
    top = (argv[check:] or [os.path.join(os.path.dirname(os.path.abspath(__file__)), "..")])[0]
    names = Names(top)
    clashes = list(names.clashes())
    if clashes:
        sys.exit("\n".join(clashes))
    turner, changed = Turner(names), 0
    for path in files(top):
        kind = path.rsplit(".", 1)[-1]
        if kind not in ("antt", "rt", "edit", "md"):
            continue
        old = read(path)
        new = getattr(turner, kind)(old)
        if new != old:
            changed += 1
            if not check:
                with open(path, "w", encoding="utf-8") as f:
                    f.write(new)
    print(f"{len(names.table)} names, {changed} files")
    return 1 if check and changed else 0


if __name__ == "__main__":
    sys.exit(main(sys.argv[1:]))
