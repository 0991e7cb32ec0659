#!/usr/bin/env python3
"""Vectors that came from outside, against tests/walker.py and against what is built.

    python3 tests/vectors.py FOLDER [--program PATH] [--library PATH] [--cases PATH] [--removals PATH]

FOLDER has decks with what the deck program must print (NAME.deck, NAME.out), calls of the C function from deck to packed graph
(ccall.tsv) and calls over slices (slices.jsonl); the README.md there says how they are written. All of it is asked of the walker.
- With --program (crates/deck_program/out/deck_program) the decks are asked of that deck program; and where it is not refused and lists
  several paths, a deck again with its list in the other order, of which it must print the same lines (document 02, request 12).
- With --library (crates/jaqhweni/out/libjaqhweni.a) the calls are asked of that library, by way of tests/c_runner.c: ccall.tsv and, of
  slices.jsonl, removals, the steps of series, sizes, times, late or not and written graphs, with all that was lent.
- With --cases (crates/bytes_cases/out/bytes_cases) the readers and writers are asked of that program; but for the graph's writer they
  have no C call yet. Its lines must be those that tests/bytes_cases.py makes of the walker's answer, which is itself compared with the
  vector.
- With --removals (crates/removal_cases/out/removal_cases) removals, series and sizes are asked of that program, in the same way, by
  tests/removal_cases.py.
What is not there yet (kinds of calls), for the walker a deck with more paths than it walks, and what such a program has no room for, is
skipped and counted. Prints every difference, and how many were compared of each kind; exit status 1 if anything differs.
"""
import argparse
import collections
import json
import pathlib
import subprocess
import sys
from unittest import mock

import against_walker
import bytes_cases
import expected
import removal_cases
import walker
from against_walker import deck_call, late_call, removal_call, size_call, times_call, write_call
from decks import pack, path_list_of, room_of
from walker import Deck, Design, Graph, PathList, Room, Tables

TIMES = ("arrival", "required", "slack", "earliest")
NAMES = {"series": "steps of series"}          # where a vector is more than one call


class Compared:
    """How many of each kind were compared, and the differences."""

    def __init__(self):
        self.counts, self.skipped, self.differences = collections.Counter(), collections.Counter(), []

    def same(self, kind, name, call, wanted):
        try:
            found = call()
        except walker.WalkTooLong:
            self.skipped[kind + " (too many paths to walk)"] += 1
            return
        self.counts[kind] += 1
        if found != wanted:
            self.differences.append("%s, %s:\n  found   %s\n  must be %s" % (kind, name, shown(found), shown(wanted)))


def shown(outcome):
    text = outcome.decode(errors="replace") if isinstance(outcome, bytes) else str(outcome)
    return text if len(text) <= 1500 else text[:1500] + " ..."


# ---- What the vectors are made of --------------------------------------------------------------

def design_in(vector):
    return Design(vector["n"], *(vector[name] for name in ("starts", "ends", "early", "late", "marked")))


def list_in(vector):
    return PathList(vector["lengths"], vector["listed"])


def graph_in(parts):
    return None if parts is None else Graph(*(parts[name] for name in ("nodes", "endpoint", "from", "to", "via")))


def graph_out(graph):
    return dict(zip(("nodes", "endpoint", "from", "to", "via"), map(list, graph)))


def room_in(vector):
    return Room(*vector["copy_rooms"], *vector["edge_rooms"])


def tables_in(vector):
    return Tables(*vector["edge_tables"], vector["listed_table"], vector["path_table"], vector["mark_table"])


def deck_in(vector):
    return Deck(design_in(vector), list_in(vector), vector["T"])


def deck_out(deck):
    names = ("n", "starts", "ends", "early", "late", "marked")
    return dict(zip(names, deck.design), lengths=deck.path_list.lengths, listed=deck.path_list.flat, T=deck.allowed_time)


def with_list_backwards(data):
    """The deck with its listed paths in the other order."""
    deck = walker.read_deck(data, walker.PROGRAM_TABLES)
    return pack(walker.deck_numbers(deck._replace(path_list=path_list_of(walker.listed_paths(deck.path_list)[::-1]))))


# ---- The walker's outcomes, in the words of the vectors ------------------------------------------

def removed(vector, earlier, step=None):
    step = step or vector
    return walker.removal(design_in(vector), list_in(step), earlier, step["scratch"], room_in(step))


def times(vector):
    found = walker.times(design_in(vector), graph_in(vector["graph"]), vector["T"], vector["time_lengths"])
    return {"times": {name: [at_copy[part] for at_copy in found] for part, name in enumerate(TIMES)}}


def late(vector):
    copy, arrivals = walker.late(design_in(vector), graph_in(vector["graph"]), vector["T"], vector["arrival_length"])
    return {"late": copy, "arrival": arrivals}


def size(vector):
    return {"size": list(walker.size(design_in(vector), list_in(vector), graph_in(vector["graph"]), vector["scratch"]))}


KINDS = {
    "size": size,
    "remove": lambda v: {"graph": graph_out(removed(v, graph_in(v["graph"])))},
    "times": times,
    "late": late,
    "read_graph": lambda v: {"graph": graph_out(walker.read_graph(bytes.fromhex(v["bytes"]), room_in(v)))},
    "write_graph": lambda v: {"bytes": walker.write_graph(graph_in(v["graph"]), v["room"]).hex()},
    "read_deck": lambda v: {"deck": deck_out(walker.read_deck(bytes.fromhex(v["bytes"]), tables_in(v)))},
    "write_deck": lambda v: {"bytes": walker.write_deck(deck_in(v), v["room"]).hex()},
}


def outcome(call, *given):
    try:
        return call(*given)
    except walker.Refused as refused:
        return {"refused": list(refused.refusal)}


def walker_on_slices(vector, name, compared):
    kind = vector["kind"]
    if kind == "series":
        held = None
        for number, step in enumerate(vector["steps"]):
            compared.same("walker, " + NAMES[kind], "%s, step %d" % (name, number),
                          lambda: outcome(lambda: {"graph": graph_out(removed(vector, held, step))}), step["want"])
            held = graph_in(step["want"].get("graph")) or held
    elif kind in KINDS:
        compared.same("walker, " + kind, name, lambda: outcome(KINDS[kind], vector), vector["want"])
    else:
        compared.skipped[kind] += 1


# ---- The C calls: requests whose answers are those of the vectors ----------------------------------

def removal_request(name, vector, earlier, step):
    want = step["want"]
    result = graph_in(want.get("graph")) or ((),) * 5
    return removal_call(name, design_in(vector), list_in(step), earlier, room_in(step), step["scratch"], want.get("refused"), result)


def requests_of(vector, name):
    kind, want = vector["kind"], vector.get("want", {})
    refusal = want.get("refused")
    if kind == "series":
        held = None
        for number, step in enumerate(vector["steps"]):
            yield removal_request("%s, step %d" % (name, number), vector, held, step)
            held = graph_in(step["want"].get("graph")) or held
    elif kind == "remove":
        yield removal_request(name, vector, graph_in(vector["graph"]), vector)
    elif kind == "size":
        yield size_call(name, design_in(vector), list_in(vector), graph_in(vector["graph"]), vector["scratch"], refusal, want.get("size"))
    elif kind == "times":
        times = [want["times"][part] for part in TIMES] if "times" in want else None
        yield times_call(name, design_in(vector), graph_in(vector["graph"]), vector["T"], vector["time_lengths"], refusal, times)
    elif kind == "late":
        yield late_call(name, design_in(vector), graph_in(vector["graph"]), vector["T"], vector["arrival_length"], refusal, want.get("late"),
                        want.get("arrival"))
    elif kind == "write_graph":
        yield write_call(name, graph_in(vector["graph"]), vector["room"], refusal, bytes.fromhex(want.get("bytes", "")))


def run_request(command, request, kind, compared):
    """One run for each request, so that one difference hides no other."""
    run = subprocess.run([command], input=request.sent, capture_output=True)
    found = run.stdout if run.returncode == 0 else b"exit status %d: " % run.returncode + run.stderr
    compared.counts[kind] += 1
    if found != request.expected:
        compared.differences.append("%s, %s" % (kind, against_walker.first_difference([request], found)))


# ---- The readers and writers: cases of bytes_cases -------------------------------------------------

CASES = {
    "read_deck": lambda v: bytes_cases.read_deck(bytes.fromhex(v["bytes"]), tables_in(v)),
    "write_deck": lambda v: bytes_cases.write_deck(deck_in(v), v["room"]),
    "read_graph": lambda v: bytes_cases.read_graph(bytes.fromhex(v["bytes"]), room_in(v)),
    "write_graph": lambda v: bytes_cases.write_graph(graph_in(v["graph"]), v["room"]),
}


def run_case(program, vector, name, compared):
    """One run for each case: a block of it alone."""
    case, (_, lines) = CASES[vector["kind"]](vector)
    run = subprocess.run([program], input=walker.write_number(1) + case, capture_output=True)
    compared.same("bytes_cases, " + vector["kind"], name, lambda: (run.returncode, run.stdout.decode()), (0, lines))


# ---- Removals and sizes: series of removal_cases ----------------------------------------------------

def series_of(vector):
    """The input and the lines. A size is asked in front of a removal into no room; there alone the program takes a scratch above 32,768 words."""
    kind, series = vector["kind"], removal_cases.Series(design_in(vector))
    for step in vector["steps"] if kind == "series" else [vector]:
        earlier = None if kind == "series" else graph_in(vector["graph"])
        where = removal_cases.HELD if earlier is None else removal_cases.GIVEN
        removal_cases.bound(removal_cases.TOLD_SCRATCH if kind == "size" else removal_cases.SCRATCH, step["scratch"])
        series.add(where, list_in(step), room_of(0, 0) if kind == "size" else room_in(step), step["scratch"], earlier)
    data = walker.write_number(1) + series.packed()
    removal_cases.bound(expected.BUFFER, len(data))
    return data, series.lines


def run_series(program, vector, name, compared):
    """One run for each vector."""
    kind = "removal_cases, " + vector["kind"]
    try:
        data, lines = series_of(vector)
    except walker.WalkTooLong:
        compared.skipped[kind + " (too many paths to walk)"] += 1
        return
    except removal_cases.BeyondTables:
        compared.skipped[kind + " (no room in the program)"] += 1
        return
    run = subprocess.run([program], input=data, capture_output=True)
    compared.same(kind, name, lambda: (run.returncode, run.stdout.decode().splitlines()), (0, lines))


# ---- All of it ---------------------------------------------------------------------------------

def c_calls(folder):
    """Of each line of ccall.tsv: a name, the deck, the room's length, the number, the bytes."""
    for line in (folder / "ccall.tsv").read_text().splitlines():
        if line and not line.startswith("#"):
            deck, room, number, written = (line.split("\t") + [""])[:4]
            yield "%s in %s" % (deck, room), (folder / (deck + ".deck")).read_bytes(), int(room), int(number), bytes.fromhex(written)


@mock.patch.object(walker, "true_graph", removal_cases.remembered(walker.true_graph))
def main():
    parser = argparse.ArgumentParser()
    parser.add_argument("folder", type=pathlib.Path)
    parser.add_argument("--program", type=pathlib.Path)
    parser.add_argument("--library", type=pathlib.Path)
    parser.add_argument("--cases", type=pathlib.Path)
    parser.add_argument("--removals", type=pathlib.Path)
    options = parser.parse_args()
    compared, command = Compared(), None
    if options.library:
        against_walker.BUILT.mkdir(parents=True, exist_ok=True)
        command = against_walker.build_runner(options.library.resolve(), True)[0]
    for path in sorted(options.folder.glob("*.deck")):
        data, wanted = path.read_bytes(), path.with_suffix(".out").read_bytes()
        compared.same("walker, decks printed", path.stem, lambda: walker.deck_program(data).encode(), wanted)
        if options.program:
            run = subprocess.run([options.program.resolve()], input=data, capture_output=True)
            compared.same("deck program", path.stem, lambda: (run.returncode, run.stdout), (0, wanted))
            if not wanted.startswith(b"refused") and with_list_backwards(data) != data:
                run = subprocess.run([options.program.resolve()], input=with_list_backwards(data), capture_output=True)
                compared.same("deck program, list backwards", path.stem, lambda: (run.returncode, run.stdout), (0, wanted))
    for name, data, room, number, written in c_calls(options.folder):
        compared.same("walker, C call", name, lambda: walker.c_call(data, room), (number, written))
        if command:
            run_request(command, deck_call(name, data, room, number, written), "C call", compared)
    for number, line in enumerate((options.folder / "slices.jsonl").read_text().splitlines()):
        vector, name = json.loads(line), "line %d" % (number + 1)
        walker_on_slices(vector, name, compared)
        for request in requests_of(vector, name) if command else ():
            run_request(command, request, "C, " + NAMES.get(vector["kind"], vector["kind"]), compared)
        if options.cases and vector["kind"] in CASES:
            run_case(options.cases.resolve(), vector, name, compared)
        if options.removals and vector["kind"] in ("remove", "series", "size"):
            run_series(options.removals.resolve(), vector, name, compared)
    for difference in compared.differences:
        print(difference)
    print("vectors: %s; skipped: %s; %d differences" % (against_walker.in_words(compared.counts),
                                                        against_walker.in_words(compared.skipped) or "none", len(compared.differences)))
    sys.exit(1 if compared.differences or not compared.counts else 0)


if __name__ == "__main__":
    main()
