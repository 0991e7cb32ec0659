#!/usr/bin/env python3
"""Spells the definitions and lemmas of this repository as today's Rattle does, by tools/spelling.tsv: words in snake case.

usage: python3 tools/spell.py            at the top of a repository that port.py has been run in

A row of spelling.tsv is old, a tab, new, and maybe a tab and the crates whose files alone have the name. Whole names turn: in .antt files all
but quoted text and what the file imports from a library; in .rt files clauses, ghost lines and comments; in the pages what stands between backquotes. A name that a function's own proof file declares
is a goal's and stays in that file. Where a lemma would have had the name of a definition, it ends in _lem.
A second run changes nothing.
"""

import pathlib
import re

TOP = pathlib.Path.cwd()
ROWS = pathlib.Path(__file__).resolve().parent / "spelling.tsv"
NAME = re.compile(r'[^\s(){}.;,@"«»\[\]`]+')
RUST_NAME = re.compile(r"(?<![\w-])[A-Za-z][\w-]*(?![\w-])")
SPAN = re.compile(r"`[^`\n]+`")
DECLARED = re.compile(r"(?m)^(?:(?:pub|abbrev|unfoldable) +)*([^\s(){}.;,@\"«»]+)(?: \{[^{}\n]*\})* :(?= |$)")
IMPORT = re.compile(r"(?m)^ *(?:pub )?use ([^\s{]+?)\.?(?:\{([^}]*)\}| as (\S+))? *$")
# What a name stands behind a dot of, as a library's module.
OWNER = re.compile(r"([A-Z][^\s(){}.;,@\"«»\[\]`]*)\.\Z")
OF_A_FUNCTION = re.compile(r"/proofs/.*/(Proof|Answers|Invariants)\.antt$")


def table():
    rows = {}
    for line in ROWS.read_text().splitlines():
        old, new, *crates = line.split("\t")
        rows[old] = (new, set(crates[0].split()) if crates else None)
    return rows


def turned(name, rows, crate, stay):
    if name in stay or name not in rows:
        return name
    new, crates = rows[name]
    return new if crates is None or crate in crates else name


def of_libraries(text, own):
    """The names that a file imports from elsewhere than the repository."""
    names = set()
    for module, items, alias in IMPORT.findall(text):
        steps = module.split(".")
        if steps[0] != "Rattle" or len(steps) < 2 or steps[1] not in own:
            names |= {word for item in items.split(",") for word in item.split()} | {alias, steps[-1]}
    return names


def turn_antt(text, rows, crate, stay):
    def one(m):
        before = OWNER.search(m.string, 0, m.start())
        return m[0] if before and before[1] in stay else turned(m[0], rows, crate, stay)

    lines = []
    for line in text.split("\n"):
        # strings stay
        parts = re.split(r'("(?:[^"\\]|\\.)*")', line)
        lines.append("".join(p if i % 2 else NAME.sub(one, p) for i, p in enumerate(parts)))
    return "\n".join(lines)


def turn_rust(text, rows, crate):
    # Rust's own names have no dash and no capital inside, so what turns is a clause's, a ghost line's or a comment's.
    def one(m):
        new = turned(m[0], rows, crate, ())
        return new if "-" in m[0] or re.search(r"[a-z0-9][A-Z]", m[0]) else m[0]

    parts = re.split(r'("(?:[^"\\\n]|\\.)*")', text)
    return "".join(p if i % 2 else RUST_NAME.sub(one, p) for i, p in enumerate(parts))


def turn_page(text, rows):
    return SPAN.sub(lambda m: NAME.sub(lambda n: turned(n[0], rows, None, ()), m[0]), text)


def main():
    rows = table()
    own = {path.name for path in (TOP / "crates").iterdir()}
    n = 0
    for path in sorted((TOP / "crates").glob("*/**/*")):
        inside = path.relative_to(TOP / "crates").parts
        if path.suffix not in (".antt", ".rt") or inside[1] == "out" or not path.is_file():
            continue
        text = path.read_text()
        if path.suffix == ".rt":
            new = turn_rust(text, rows, inside[0])
        else:
            stay = of_libraries(text, own)
            if OF_A_FUNCTION.search(str(path)):
                stay |= set(DECLARED.findall(text))
            new = turn_antt(text, rows, inside[0], stay)
        if new != text:
            path.write_text(new)
            n += 1
    for path in [TOP / "README.md", *sorted((TOP / "docs").glob("**/*.md"))]:
        if not path.is_file() or path.name == "PORT.md":
            continue
        text = path.read_text()
        new = turn_page(text, rows)
        if new != text:
            path.write_text(new)
            n += 1
    print(f"spell: {n} files changed")


main()
