#!/usr/bin/env python3
"""Makes decks/NAME.deck, a deck as bytes, of decks/NAME.txt, and decks/NAME.expected, what the deck program prints for it.

    python3 decks/pack.py            writes them for every text
    python3 decks/pack.py --check    says whether they are what it would write
    python3 decks/pack.py FILE       packs one text to standard output

A text has one line each: `nodes N`; `edge START END EARLY LATE`, numbered from 0 in order; `path EDGE EDGE ...`; `marked NODE NODE ...`, the
nodes where paths end beside the sinks, rising; `time T`. An edge with one delay, `edge START END DELAY`, has it as its early and as its
late delay. What follows a # is a comment. What is expected comes from tests/walker.py, which walks all paths.
"""
import pathlib
import sys

HERE = pathlib.Path(__file__).resolve().parent
sys.path.insert(0, str(HERE.parent / "tests"))

import decks
import walker


def packed(text):
    nodes, edges, paths, marked, allowed_time = 0, [], [], [], 0
    for number, line in enumerate(text.splitlines(), 1):
        word, *rest = line.split("#")[0].split() or [None]
        try:
            values = [int(value) for value in rest]
        except ValueError:
            sys.exit("line %d: not a whole number: %s" % (number, line))
        if word == "nodes" and len(values) == 1:
            nodes = values[0]
        elif word == "edge" and len(values) in (3, 4):
            edges.append(tuple(values))
        elif word == "path":
            paths.append(values)
        elif word == "marked":
            marked += values
        elif word == "time" and len(values) == 1:
            allowed_time = values[0]
        elif word is not None:
            sys.exit("line %d: not `nodes N`, `edge START END EARLY LATE`, `edge START END DELAY`, `path EDGE ...`, `marked NODE ...` or `time T`: %s"
                     % (number, line))
    return decks.pack(walker.deck_numbers(decks.deck_of(nodes, edges, paths, allowed_time, marked)))


def main(arguments):
    if arguments and arguments != ["--check"]:
        sys.stdout.buffer.write(packed(pathlib.Path(arguments[0]).read_text()))
        return
    texts = sorted(HERE.glob("*.txt"))
    for text in texts:
        deck = packed(text.read_text())
        for suffix, content in ((".deck", deck), (".expected", walker.deck_program(deck).encode())):
            path = text.with_suffix(suffix)
            if not arguments:
                path.write_bytes(content)
            elif not path.exists() or path.read_bytes() != content:
                sys.exit("%s is not what decks/pack.py makes" % path)
    print("decks: %d" % len(texts))


if __name__ == "__main__":
    main(sys.argv[1:])
