#!/usr/bin/env python3
"""The deck program and the C calls against tests/walker.py, byte for byte, on generated decks, designs and series.

    python3 tests/against_walker.py              crates/deck_program/out/deck_program and crates/jaqhweni/out/libjaqhweni.a; about a
                                                 minute, and at most two unless the least count of random cases (LEAST) takes longer
    python3 tests/against_walker.py --long       ten times as many random cases, from other seeds, and no bound on time
    python3 tests/against_walker.py --stand-in   the reference program of bench/ in place of the library and the deck program
    python3 tests/against_walker.py --try-faults stand-ins with an error put in on purpose, one by one: each must be found
    also: --seed N, --seconds S, and --only PART: `decks` (the deck program), `fixed` or `random` (the C calls on fixed and on random cases)

The C calls are made by tests/c_runner.c: once built with the address and undefined behaviour sanitizers, guard bytes beside each slice,
and once more under valgrind, which sees the library's own accesses, each slice an allocation of its own. Where the machine has no
sanitizers the guard bytes alone stand for them, and where it has no valgrind the second run is left out; the last line says what was run.
Every expected answer, and every word of what was lent, is the walker's. Ends with a line that begins 'against_walker:' and exit
status 0, or with the first difference and status 1, or, where fewer random cases were run than LEAST says, with how many and status 1.
"""
import argparse
import array
import itertools
import os
import pathlib
import random
import shutil
import struct
import subprocess
import sys
import tempfile
import time
from unittest import mock

import decks
import removal_cases
import times_cases
import walker
from decks import design_of, room_of
from removal_cases import DESIGN, GIVEN, HELD, TOP, Series, exact, hub, pattern, thresholds
from walker import Graph, PathList, Room

HERE = pathlib.Path(__file__).resolve().parent.parent
BUILT = HERE / "target" / "against_walker"
LIBRARY = HERE / "crates" / "jaqhweni" / "out" / "libjaqhweni.a"
PROGRAM = HERE / "crates" / "deck_program" / "out" / "deck_program"
(TRUE_GRAPH, REMOVE_FROM_DESIGN, REMOVE_FROM_GRAPH, TIMES, WRITE_GRAPH, SIZE_FROM_DESIGN, SIZE_FROM_GRAPH, FILL_FROM_DESIGN,
 FILL_FROM_GRAPH, LATE) = range(10)
PARTS = ["decks", "fixed", "random"]
LEAST_DECKS = 2000          # random cases end when the time is over, but not before so many decks
LEAST = {"decks": {"decks printed": LEAST_DECKS},
         "random": {"decks": LEAST_DECKS, "random series": LEAST_DECKS // 4, "lists compared": LEAST_DECKS // 10,
                    "longer lists with a gain": LEAST_DECKS // 40}}
FAULTS = range(1, 83)       # bench/stand_in.c and bench/reference_deck.c
VALGRIND = ["valgrind", "--quiet", "--error-exitcode=9", "--main-stacksize=33554432", "--max-stackframe=16777216"]
BATCH, BATCH_BYTES = 400, 1 << 24       # requests to the runner at a time


class Differs(Exception):
    pass


# ---- Requests to c_runner.c, and what must come back ------------------------------------------

def words(numbers):
    return array.array("I", numbers).tobytes()


def lent(numbers, code="I"):
    """A slice that is only read; i is the code of signed numbers."""
    return words([len(numbers)]) + array.array(code, numbers).tobytes()


class Request:
    def __init__(self, name, sent, answer, *after):
        """After: the bytes of each slice that was lent to be written. The last word says that nothing else changed."""
        self.name, self.sent = name, sent
        self.expected = struct.pack("<q", answer) + b"".join(after) + words([0])


def refusal_answer(refusal):
    return -(refusal[0] + 256 * refusal[1])


def design_bytes(design):
    delays = lent(design.early, "i") + lent(design.late, "i")
    return words([design.nodes]) + lent(design.starts) + lent(design.ends) + delays + lent(design.marked)


def graph_bytes(graph):
    return b"".join(lent(list(part)) for part in graph)


def bytes_request(name, call, sent, room, answer, result):
    """A call that writes bytes into a room."""
    before = bytes((37 * place + 11) % 256 for place in range(room))
    return Request(name, words([call]) + sent + words([room]), answer, result + before[len(result):])


def deck_call(name, data, room, answer, result):
    padded = words([len(data)]) + data + b"\0" * (-len(data) % 4)
    return bytes_request(name, TRUE_GRAPH, padded, room, answer, result)


def write_call(name, graph, room, refusal, result):
    answer = refusal_answer(refusal) if refusal else len(result)
    return bytes_request(name, WRITE_GRAPH, graph_bytes(graph), room, answer, result)


def timed_request(name, call, design, graph, allowed_time, lengths, refusal, answer, times):
    """A call that writes times. `lengths` are those of the slices for them, `times` what stands in front of these where it is not refused."""
    before = [[-1_000_000_000_000 * (which + 1) - place for place in range(length)] for which, length in enumerate(lengths)]
    sent = words([call]) + design_bytes(design) + words([allowed_time]) + graph_bytes(graph) + words(lengths)
    after = before if refusal else map(walker.lent_after, before, times)
    return Request(name, sent, refusal_answer(refusal) if refusal else answer, *(array.array("q", part).tobytes() for part in after))


def times_call(name, design, graph, allowed_time, lengths, refusal, times):
    return timed_request(name, TIMES, design, graph, allowed_time, lengths, refusal, 0, times)


def late_call(name, design, graph, allowed_time, length, refusal, copy, arrivals):
    """`copy` is where it is late, or None; the answer is 1 more than that, or 0."""
    return timed_request(name, LATE, design, graph, allowed_time, [length], refusal, 0 if copy is None else 1 + copy, [arrivals])


def list_request(name, calls, design, path_list, earlier, lengths, refusal, counts, *after):
    """Of two calls the first, from the design, where there is no earlier graph. `lengths` are those of the slices to be written."""
    call, graph = (calls[0], b"") if earlier is None else (calls[1], graph_bytes(earlier))
    sent = words([call]) + design_bytes(design) + lent(path_list.flat) + lent(path_list.lengths) + graph + words(lengths)
    return Request(name, sent, refusal_answer(refusal) if refusal else counts[0] + (counts[1] << 32), *after)


def counts_of(result):
    return len(result[0]), len(result[2])


def removal_call(name, design, path_list, earlier, room, scratch, refusal, result):
    """`result` are five slices, empty where it is refused."""
    after = [words(part) + words(pattern(which, length)[len(part):]) for which, (length, part) in enumerate(zip(room, result))]
    after.append(words(walker.scratch_after(pattern(5, scratch), refusal)))
    return list_request(name, (REMOVE_FROM_DESIGN, REMOVE_FROM_GRAPH), design, path_list, earlier, [*room, scratch], refusal,
                        counts_of(result), *after)


def size_call(name, design, path_list, earlier, scratch, refusal, counts):
    """How many copies and edges there will be, told."""
    return list_request(name, (SIZE_FROM_DESIGN, SIZE_FROM_GRAPH), design, path_list, earlier, [scratch], refusal, counts,
                        words(walker.scratch_after(pattern(0, scratch), refusal)))


def fill_as_told_call(name, design, path_list, earlier, scratch, result):
    """Told, and then removed into a room of just the told lengths: no place is left over, and none is missing."""
    return list_request(name, (FILL_FROM_DESIGN, FILL_FROM_GRAPH), design, path_list, earlier, [scratch], None, counts_of(result),
                        words([0] * scratch), *map(words, result))


# ---- The same with the walker's outcome -----------------------------------------------------------

def outcome(refused_result, call, *given):
    """The refusal or None, and what was made; where it is refused, what stands for a result then."""
    try:
        return None, call(*given)
    except walker.Refused as refused:
        return refused.refusal, refused_result


def deck_request(name, data, room):
    return deck_call(name, data, room, *walker.c_call(data, room))


def write_request(name, graph, room):
    return write_call(name, graph, room, *outcome(b"", walker.write_graph, graph, room))


def times_request(name, design, graph, allowed_time, lengths):
    refusal, found = outcome((), walker.times, design, graph, allowed_time, lengths)
    return times_call(name, design, graph, allowed_time, lengths, refusal, [[at_copy[part] for at_copy in found] for part in range(4)])


def late_request(name, design, graph, allowed_time, length):
    refusal, (copy, arrivals) = outcome((None, ()), walker.late, design, graph, allowed_time, length)
    return late_call(name, design, graph, allowed_time, length, refusal, copy, arrivals)


class Recorded(Series):
    """A series whose removals become requests, each told first, and where it is not refused made once more in just what is told. (Not bound
    by the tables of crates/removal_cases.)"""

    def __init__(self, design, name="series"):
        super().__init__(design)
        self.name, self.requests, self.last_told = name, [], None

    def add(self, where, path_list, room, scratch, given=None):
        earlier = self.held = self.worked_on(where, given)
        name = "%s, removal %d" % (self.name, len(self.refusals))
        told, counts = outcome(None, walker.size, self.design, path_list, earlier, scratch)
        before, self.last_told = self.last_told, (path_list, earlier, scratch)
        if before != self.last_told:                                        # not once more for each room
            self.requests.append(size_call(name + ", told", self.design, path_list, earlier, scratch, told, counts))
        refusal, result = outcome(((),) * 5, walker.removal, self.design, path_list, earlier, scratch, room)
        self.requests.append(removal_call(name, self.design, path_list, earlier, room, scratch, refusal, result))
        if refusal is None:
            self.held = result
            self.requests.append(fill_as_told_call(name + ", as told", self.design, path_list, earlier, scratch, result))
        self.told.append(told)
        self.refusals.append(refusal)
        return refusal


# ---- Cases -------------------------------------------------------------------------------------

def of_graph(name, graph, beyond=(-1, 0)):
    """The graph packed into rooms with so many bytes more than it takes."""
    try:
        length = len(walker.write_graph(graph, TOP))
    except walker.Refused:
        length, beyond = 40, (0,)
    for more in beyond:
        yield "graphs packed", write_request("%s, packed" % name, graph, length + more)


def graphs_to_pack():
    """Graphs of any numbers and lengths: a writer tests 30, the counts, the endpoint numbers and 35, and no more."""
    numbers = (0, 1, 127, 128, 16383, 16384, 2097151, 2097152, 268435455, 268435456, TOP)     # the last and the first of each length
    ends = [place % 3 % 2 for place in range(8193)]
    yield from of_graph("no copy", Graph([], [], [], [], []), (-2, -1, 0, 1))
    for number in numbers:
        yield from of_graph("all %d" % number, Graph([number], [1], [number], [number], [number]), (-4, -1, 0, 9))
    yield from of_graph("every length", Graph(numbers, ends[:11], numbers, numbers[::-1], numbers[3:] + numbers[:3]), range(-60, 33))
    yield from of_graph("rows of three bytes", Graph([1], [0], [2] * 40, [3] * 40, [4] * 40), range(-40, 20))
    yield from of_graph("copies of two bytes", Graph([2] * 40, ends[:40], [1], [3], [4]), range(-40, 20))
    for count in (127, 128, 129):
        yield from of_graph("%d copies and edges" % count, Graph([7] * count, ends[:count], [300] * count, [1] * count, range(count)))
    for count in (4095, 4096, 4097, 8192, 8193):
        mixed = (numbers * (count // len(numbers) + 1))[:count]
        yield from of_graph("%d mixed copies and edges" % count, Graph(mixed, ends[:count], mixed, mixed[::-1], mixed[3:] + mixed[:3]))
    for lengths in ((2, 1, 1), (1, 2, 1), (1, 1, 2), (0, 1, 1), (1, 0, 1), (1, 1, 0), (0, 1, 2)):         # 30
        yield from of_graph("edges of %d, %d and %d" % lengths, Graph([9], [1], *([5] * length for length in lengths)))
    for nodes, endpoints in ((1, 0), (0, 1), (1, 2), (2, 1), (16385, 3)):
        yield from of_graph("%d nodes and %d endpoint numbers" % (nodes, endpoints), Graph([9] * nodes, [1] * endpoints, [], [], []))
    for number in (2, 127, 128, 256, 65536, TOP):                                                          # 32
        for at in (0, 1, 2):
            yield from of_graph("endpoint number %d" % number, Graph([9, 8, 7], [number if place == at else 1 for place in range(3)], [5], [6], [7]))
    yield from of_graph("endpoint number 2 at the last copy", Graph([9] * 16384, [0] * 16383 + [2], [], [], []))
    for copies, starts, others in ((16384, 65536, 65536), (16385, 2, 2), (2, 65537, 65537), (16385, 2, 3)):
        graph = Graph([TOP] * copies, [1] * copies, [TOP] * starts, [TOP] * others, [TOP] * others)
        yield from of_graph("%d copies and %d edges" % (copies, starts), graph)


def of_removal_cases():
    """All fixed series of crates/removal_cases, but for those of many copies (told_at_the_limits)."""
    plain, removal_cases.Series = removal_cases.Series, Recorded
    try:
        for cases in (removal_cases.marked, removal_cases.with_marked, removal_cases.adversarial, removal_cases.widest_rooms,
                      removal_cases.tellings, removal_cases.unfit_designs, removal_cases.unfit_lists_and_graphs,
                      removal_cases.longer_and_shuffled):
            for series in cases():
                yield from ((cases.__name__, request) for request in series.requests)
    finally:
        removal_cases.Series = plain


def random_series(rng):
    """One random series, then the times of what is held at its end, and whether it is late."""
    plain, removal_cases.Series = removal_cases.Series, Recorded
    try:
        series = next(removal_cases.random_cases(rng, 1))
    finally:
        removal_cases.Series = plain
    for number, request in enumerate(series.requests):          # the first stands for the series: LEAST counts these
        yield "random series" if number == 0 else "further calls of these", request
    if series.held is not None:
        yield from of_graph("what is held", series.held, (rng.choice((-1, 9)), 0))
        allowed = rng.choice((0, 7, 1_000_000_000, 1_000_000_001))
        if rng.random() < 0.5 and walker.refusal_of(walker.times, series.design, series.held, 0, ()) is None:
            allowed = times_cases.near_arrivals(rng, series.design, series.held)
        yield from of_times("further calls of these", series.design, series.held, allowed)


def of_lists(design, lists, earlier, allowed_time):
    """Document 02, request 12: the removals of a list, of its paths reordered and repeated, and of the list extended, in rooms and scratches of
    the same lengths, and the times of what each leaves. The request is held to what the walker expects of the calls. What C leaves is
    compared with that byte for byte, so that it holds of C's graphs, and of the records from C's times."""
    rooms, scratches = zip(*(exact(design, path_list, earlier) for path_list in lists))
    room, scratch = room_of(max(room.copies for room in rooms), max(room.starts for room in rooms)), max(scratches)
    removals, timed, records = [], [], []
    for name, path_list in zip(("a list", "the list shuffled", "the list extended"), lists):
        graph = walker.removal(design, path_list, earlier, scratch, room)
        at_copies = walker.times(design, graph, allowed_time, [len(graph.copy_nodes)] * 4)
        removals.append(removal_call(name, design, path_list, earlier, room, scratch, None, graph))
        timed.append(times_call("times of " + name, design, graph, allowed_time, [len(graph.copy_nodes)] * 4, None,
                                [[at_copy[part] for at_copy in at_copies] for part in range(4)]))
        records.append(walker.records_of(design, graph, at_copies))
    if removals[0].expected != removals[1].expected:
        raise Differs("the walker: the same paths in another order, or more often, leave another graph: %s" % (lists[:2],))
    if not all(map(walker.no_worse, records[0], records[2])):
        raise Differs("the walker: a longer list makes a node worse: %s, then %s" % (lists[0], lists[2]))
    gain = decks.gains(records[0], records[2])
    kinds = ["lists compared", "their further calls", "longer lists with a gain" if gain else "their further calls"]
    yield from zip(kinds, removals)
    yield from (("their further calls", request) for request in timed)


def random_lists(rng):
    """The same on a random design, from it and from a graph of it."""
    design, *lists = decks.design_and_lists(rng)
    for earlier in (None, decks.earlier_graph(rng, design)):
        yield from of_lists(design, list(map(decks.path_list_of, lists)), earlier, rng.choice((0, 50, 1_000_000_000)))


def of_times(kind, design, graph, allowed_time):
    """The times of a graph, and whether it is late."""
    copies = len(graph.copy_nodes)
    yield kind, times_request("times", design, graph, allowed_time, [copies] * 4)
    yield kind, late_request("late", design, graph, allowed_time, copies)


def of_unfit_graphs():
    for given in times_cases.cases():
        yield "graphs", times_request("times", given.design(), given.graph(), given.allowed, given.rooms)
        yield "graphs", late_request("late", given.design(), given.graph(), given.allowed, given.lent)
        yield from of_graph("a graph of times_cases", given.graph(), (0,))


def rooms_above_the_limits():
    """Room "is the lent length, at most 16,384 and 65,536": 65,536 result edges fit 65,600 places, and 65,537 do not."""
    marked, paths, places = decks.MARKED["M6"].design, decks.MARKED["M6"].path_list, 65600
    series = Recorded(marked, "M6 in a large room")
    for copies, edges in ((16384, 65536), (16385, 65537), (16400, places)):
        assert series.add(DESIGN, paths, room_of(copies, edges), 1024) is None
    assert series.add(DESIGN, paths, Room(16400, 16399, places, places, places), 1024) == (30, 0)
    assert series.add(GIVEN, paths, room_of(6, 4), 1024, Graph([], [], *[[0] * 65537] * 3)) == (32, 0)
    yield from (("rooms above the limits", request) for request in series.requests)
    for extra, refusal in ((0, None), (1, (34, 0))):
        design, paths = removal_cases.edges_at_the_limit(extra)
        series = Recorded(design, "%d edges in a large room" % (65536 + extra))
        assert series.add(DESIGN, paths, room_of(64, places), 32768) == refusal
        yield from (("rooms above the limits", request) for request in series.requests)


def rows_of_hops(rows, widths):
    """Rows of nodes, with so many parallel edges for each hop. Returns the edges, and the numbers of those of each hop of each row."""
    edges, numbers = [], []
    for row in range(rows):
        first, hops = (len(widths) + 1) * row, []
        for hop, width in enumerate(widths):
            hops.append(range(len(edges), len(edges) + width))
            edges += [(first + hop, first + hop + 1, number % 9 - 2 - number % 4, number % 9 - 2) for number in hops[-1]]
        numbers.append(hops)
    return edges, numbers


def full_design():
    """4,096 nodes, 16,384 edges, 1,024 paths and 8,192 listed edges; and a further list. Rows of eight hops, and a node by itself."""
    edges, rows = rows_of_hops(455, (2, 1, 2, 1, 1, 1, 1, 27))
    edges += [(9 * row + 7, 9 * row + 8, 5) for row in range(4)]
    one, two, three = [[[hop[(k >> at) % len(hop)] for at, hop in enumerate(hops)] for hops in rows] for k in (0, 5, 129)]
    path_list, further = decks.path_list_of((one + two + three)[:1024]), decks.path_list_of([path[2:] for path in two[:60]])
    assert (len(edges), len(path_list.lengths), len(path_list.flat)) == (16384, 1024, 8192)
    return decks.deck_of(4096, edges, [], 0).design, path_list, further


def full_graph():
    """A design, a true graph of it of 16,384 copies and 65,536 edges, and a further list. In each of 15 rows of three hops, one edge of
    the first is listed with each two of the others; the rest are nodes by themselves, and two nodes with the edges that are left."""
    edges, rows = rows_of_hops(15, (4, 32, 32))
    edges += [(60, 61, 3)] * 3616
    design = decks.deck_of(574, edges, [], 0).design
    earlier = walker.true_graph(design, decks.path_list_of([[one[0], b, c] for one, two, three in rows for b in two for c in three]))
    assert (len(earlier.copy_nodes), len(earlier.starts)) == (16384, 65536)
    one, two, three = rows[7]
    return design, earlier, decks.path_list_of([[one[1], b, c] for b in two[:8] for c in three[:8]])


def one_too_many(design, graph):
    """The graph of full_graph(), with one more node by itself, and with one more edge beside its last: well formed but for the counts."""
    yield (design._replace(nodes=design.nodes + 1),
           graph._replace(copy_nodes=[*graph.copy_nodes, design.nodes], endpoints=[*graph.endpoints, 1]))
    beside = {part: [*getattr(design, part), getattr(design, part)[-1]] for part in ("starts", "ends", "early", "late")}
    yield (design._replace(**beside),
           Graph(*graph[:2], [*graph.starts, graph.starts[-1]], [*graph.ends, graph.ends[-1]], [*graph.design_edges, len(design.starts)]))


def at_the_limits():
    """Full limits, on designs whose paths can still be walked."""
    def done(series):
        return [("limits", request) for request in series.requests]

    # nodes by themselves leave the least of the scratch unused
    series = Recorded(design_of(4096, []), "4,096 isolated nodes")
    thresholds(series, DESIGN, PathList([], []))
    thresholds(series, HELD, PathList([], []))
    yield from done(series)
    series = Recorded(design_of(4097, []), "4,097 isolated nodes")
    assert series.add(DESIGN, PathList([], []), room_of(4097, 0), walker.WORDS_PER_UNIT * 4097) == (10, 0)
    yield from done(series)
    # all 4,096 nodes marked; one marked node more than that
    series = Recorded(design_of(4096, [], range(4096)), "4,096 marked nodes")
    thresholds(series, DESIGN, PathList([], []))
    thresholds(series, HELD, PathList([], []))
    yield from done(series)
    series = Recorded(design_of(4096, [], [*range(4096), 4096]), "4,097 marked nodes")
    assert series.add(DESIGN, PathList([], []), room_of(4096, 0), walker.WORDS_PER_UNIT * 4096) == (16, 4096)
    yield from done(series)
    design, path_list, further = full_design()
    series = Recorded(design, "a design at its limits")
    thresholds(series, DESIGN, path_list)
    thresholds(series, HELD, further)
    yield from done(series)
    design, earlier, path_list = full_graph()
    series = Recorded(design, "from a graph at its limits")
    thresholds(series, GIVEN, path_list, earlier)
    yield from done(series)
    for allowed_time, is_late in ((18, False), (17, True)):                     # the slowest paths take 18
        assert (walker.late(design, earlier, allowed_time, 16384)[0] is not None) == is_late
        yield from of_times("limits", design, earlier, allowed_time)
    for design, graph in one_too_many(design, earlier):
        assert walker.refusal_of(walker.times, design, graph, 18, ()) == (32, 0)
        with mock.patch.multiple(walker, MOST_COPIES=16385, MOST_GRAPH_EDGES=65537):
            assert walker.is_well_formed(design, graph)
        yield from of_times("limits", design, graph, 18)
    # 11, before 25
    design = design_of(2, [(0, 1, 0)] * 16385)
    assert walker.refusal_of(walker.times, design, Graph([], [], [], [], []), 1_000_000_001, ()) == (11, 0)
    yield from of_times("limits", design, Graph([], [], [], [], []), 1_000_000_001)
    series = Recorded(design_of(2, [(0, 1, -k % 9, 9) for k in range(16384)]), "16,384 parallel edges")
    thresholds(series, DESIGN, decks.path_list_of([[16 * k] for k in range(1024)]))
    thresholds(series, HELD, decks.path_list_of([[16 * k + 1] for k in range(1024)]))
    yield from done(series)
    for allowed_time in (9, 8):                                                 # every edge takes up to 9
        yield from of_times("limits", series.design, series.held, allowed_time)
    # the design at its limits, with marked nodes: each third node of a row, so that paths end in the middle and at the end of listed ones
    design, path_list, further = full_design()
    series = Recorded(design._replace(marked=[node for node in range(4096) if node % 9 in (2, 5, 8)]), "a design at its limits, with marked nodes")
    thresholds(series, DESIGN, path_list)
    thresholds(series, HELD, further)
    yield from done(series)
    yield from of_times("limits", series.design, series.held, 9)
    # 1,024 paths and 8,192 listed edges on a chain with two edges doubled
    chain = decks.braid(4095, (0, 2000), [])
    paths = [[k] + list(range(k + 1, k + 8)) for k in range(0, 4088, 4)]
    series = Recorded(chain.design, "a chain of 4,096 nodes")
    thresholds(series, DESIGN, decks.path_list_of(paths))
    series.add(DESIGN, decks.path_list_of([list(range(0, 60)), list(range(1990, 2050))]), *exact(
        chain.design, decks.path_list_of([list(range(0, 60)), list(range(1990, 2050))]), None))
    thresholds(series, HELD, decks.path_list_of([list(range(1970, 2040))]))
    yield from done(series)
    yield from of_times("limits", series.design, series.held, 1_000_000_000)
    # 1,024 listed pairs and more of them: 8,192 listed edges in 1,024 paths through eight edges in a row, many of them doubled at the end
    row = decks.deck_of(9, [(k, k + 1, k) for k in range(7)] + [(7, 8, k) for k in range(1025)] + [(0, 1, 9), (0, 4, 9)], [], 0).design
    paths = decks.path_list_of([list(range(7)) + [7 + k] for k in range(1024)])
    series = Recorded(row, "8,192 listed edges")
    thresholds(series, DESIGN, paths)
    thresholds(series, HELD, decks.path_list_of([[5, 6, 7 + k] for k in range(3)]))
    yield from done(series)
    # 16,384 result copies fit a room of 16,400, and 16,385 do not: 16 hubs, one listed edge in with each of 1,022 edges out
    for isolated in (0, 1):
        edges, lists = [], []
        for number in range(16):
            source, node, sink = 3 * number, 3 * number + 1, 3 * number + 2
            first = len(edges)
            edges += [(source, node, 1), (source, node, 2)] + [(node, sink, k) for k in range(1022)]
            lists.append([[first, first + 2 + k] for k in range(1022)])
        design = decks.deck_of(48 + isolated, edges, [], 0).design
        earlier = walker.true_graph(design, decks.path_list_of(list(itertools.chain(*lists[:-1]))))
        last = decks.path_list_of(lists[-1])
        series = Recorded(design, "%d copies" % (16384 + isolated))
        words_needed = exact(design, last, earlier)[1]
        refusal = series.add(GIVEN, last, room_of(16400, 65600), words_needed, earlier)
        assert refusal == ((33, 0) if isolated else None), refusal
        if refusal is None:                 # with two edges a copy, more of the scratch is used than from the graph of 65,536 edges
            thresholds(series, HELD, decks.path_list_of([[paths[0][0] + 1, paths[k][1]] for k, paths in enumerate(lists)]))
        yield from done(series)
    # from a graph of 65,536 edges
    into, tails, extra = 1820, 35, 16
    design = hub(into, tails + extra, []).design
    earlier = walker.true_graph(design, decks.path_list_of([[0, into + j] for j in range(tails)]))
    series = Recorded(design, "from 65,536 edges")
    path_list = decks.path_list_of([[1, into], [2], [0, into + tails]])
    series.add(GIVEN, path_list, *exact(design, path_list, earlier), earlier)
    yield from done(series)


def told_at_the_limits():
    """Results of 16,384 copies and one more, with fewer than 65,536 edges and with more, told, and removed in rooms to which each number makes
    a difference. Where it is told 33, no room is wide enough; where it is told 34, copies that fit their room leave it at that."""
    for given, told in removal_cases.MANY_MARKS:
        design, earlier, path_list = removal_cases.many_marks(*given)
        (copies, edges), scratch = removal_cases.result_sizes(design, path_list, earlier), removal_cases.words_needed(design, path_list, earlier)
        series = Recorded(design, "%d copies and %d edges" % (copies, edges))
        for room in (room_of(16400, 65600), room_of(copies - 1, edges), room_of(copies, 9)):
            refusal = series.add(GIVEN, path_list, room, scratch, earlier)
            assert series.told[-1] == told
            assert refusal == ((33, 0) if told == (33, 0) or room.copies < copies else told or ((34, 0) if room.starts < edges else None))
        refusal = series.add(GIVEN, path_list, room_of(9, 9), scratch - 1, earlier)             # 31 before both
        assert refusal == series.told[-1] == (31, 0)
        yield from (("told at the limits", request) for request in series.requests)


def repeats_at_the_limits():
    """Repeats count for 20 and 21, and for the words that 31 asks: one path as often as a list may have it leaves what it leaves alone, and once
    more is refused; from the design and from a graph."""
    design = decks.braid(9, (4, 7), []).design
    earlier = walker.true_graph(design, decks.path_list_of([[9, 5, 6, 10]]))
    for path, most, number in ((range(8), 1024, 20), (range(9), 910, 21)):
        once, often, too_often = (decks.path_list_of([path] * count) for count in (1, most, most + 1))
        series = Recorded(design, "%d and %d repeats" % (most, most + 1))
        for where, given in ((DESIGN, None), (GIVEN, earlier)):
            assert series.add(where, once, *exact(design, once, given), given) is None
            alone = series.held
            assert alone != walker.true_graph(design, PathList([], []), given)         # so that it makes a difference whether it is listed
            thresholds(series, where, often, given)
            assert series.held == alone
            assert series.add(where, too_often, room_of(99, 99), exact(design, too_often, given)[1], given) == (number, 0)
        yield from (("repeats at the limits", request) for request in series.requests)


def of_deck(rng, data):
    """The C call on a deck, with a room that is just enough, one byte short, empty or wide."""
    answer, _ = walker.c_call(data, 65536)
    rooms = (answer, answer - 1, 0, answer + 9) if answer > 0 else (0, 40)
    for room in rooms if answer > 0 and rng.random() < 0.3 else (rng.choice(rooms),):
        yield "decks", deck_request("deck %s" % data[:40].hex(), data, room)


# ---- Running -----------------------------------------------------------------------------------

def build(name, sources, flags):
    made = pathlib.Path(tempfile.mkdtemp(dir=BUILT)) / name     # its own folder: two parts may be run at a time
    command = [os.environ.get("CC", "cc"), "-std=c11", "-g", "-O1", "-Wall", "-Wextra", "-Werror", "-I", str(HERE / "include"), *flags,
               *(str(source) for source in sources), "-o", str(made)]
    return made, subprocess.run(command, stdout=subprocess.PIPE, stderr=subprocess.STDOUT, text=True)


def build_runner(library, sanitized, fault=0):
    """The runner over the library, or over the reference program where library is None, and in words how it was built."""
    bench = HERE / "bench"
    sources = [HERE / "tests" / "c_runner.c"] + ([library] if library else [bench / "stand_in.c", bench / "reference.c"])
    flags = ["-DFAULT=%d" % fault] if fault else []
    if sanitized:
        made, run = build("c_runner", sources, flags + ["-fsanitize=address,undefined", "-fno-sanitize-recover=all"])
        if run.returncode == 0:
            return made, "guard bytes and sanitizers"
    made, run = build("c_runner_plain", sources, flags)
    if run.returncode != 0:
        sys.exit("against_walker: c_runner does not build\n" + run.stdout)
    return made, "guard bytes"


def runners(library):
    """The commands that make the C calls, each with what it runs under in words."""
    runner, checks = build_runner(library, True)
    made = [([runner], checks)]
    if shutil.which("valgrind"):
        made.append((VALGRIND + [build_runner(library, False)[0], "exact"], "valgrind"))
    return made


def build_stand_in_program(fault):
    bench = HERE / "bench"
    made, run = build("deck_program", [bench / "reference_deck.c", bench / "reference.c"], ["-DFAULT=%d" % fault] if fault else [])
    if run.returncode != 0:
        sys.exit("against_walker: the stand-in does not build\n" + run.stdout)
    return made


def first_difference(requests, found):
    at = 0
    for request in requests:
        part = found[at:at + len(request.expected)]
        if part != request.expected:
            answers = [struct.unpack("<q", data[:8])[0] if len(data) >= 8 else None for data in (part, request.expected)]
            byte = next((k for k, (a, b) in enumerate(zip(part, request.expected)) if a != b), len(part))
            return "%s: answered %s, must be %s; first other byte %d of %d" % (request.name, *answers, byte, len(request.expected))
        at += len(request.expected)
    return "%d bytes too many" % (len(found) - at)


def run_calls(commands, requests):
    if not requests:
        return
    sent, expected = (b"".join(parts) for parts in zip(*((request.sent, request.expected) for request in requests)))
    for command in commands:
        run = subprocess.run(command, input=sent, capture_output=True)
        said = run.stderr.decode(errors="replace")[:3000]
        if run.stdout != expected:
            raise Differs("C calls: " + first_difference(requests, run.stdout) + "\n" + said)
        if run.returncode != 0:
            raise Differs("C calls: the exit status of %s is %d\n%s" % (command[0], run.returncode, said))


def run_program(program, data, must_be):
    run = subprocess.run([program], input=data, capture_output=True)
    if run.stdout != must_be or run.returncode != 0:
        raise Differs("deck program: deck %s\nexit status %d, printed\n%s\nmust be\n%s"
                      % (data[:200].hex(), run.returncode, run.stdout.decode(errors="replace")[:2000], must_be.decode()[:2000]))


def plan(options, count):
    """All that is run: (kind, request) or (None, (deck, what must be printed)). Random cases end when the time is over."""
    over = time.monotonic() + options.seconds
    rng = random.Random(options.seed)
    parts = [options.only] if options.only else PARTS
    if "fixed" in parts:
        for cases in (of_removal_cases, of_unfit_graphs, graphs_to_pack, rooms_above_the_limits, at_the_limits, told_at_the_limits,
                      repeats_at_the_limits):
            yield from cases()
    if parts == ["fixed"]:
        return
    for number, data in enumerate(decks.deck_files(options.seed, count)):
        if number >= LEAST_DECKS and time.monotonic() > over:
            return
        if "decks" in parts:
            yield None, (data, walker.deck_program(data).encode())
        if "random" in parts:
            yield from of_deck(rng, data)
            if number % 4 == 0:
                yield from random_series(rng)
            if number % 20 == 0:
                yield from random_lists(rng)


def compare(planned, commands, program):
    """Runs what is planned, C calls some hundred at a time; returns how many of each kind were run."""
    counts, waiting, size = {}, [], 0
    for kind, case in planned:
        kind = kind or "decks printed"
        counts[kind] = counts.get(kind, 0) + 1
        if kind == "decks printed":
            run_program(program, *case)
            continue
        waiting.append(case)
        size += len(case.sent) + len(case.expected)
        if len(waiting) == BATCH or size > BATCH_BYTES:
            run_calls(commands, waiting)
            waiting, size = [], 0
    run_calls(commands, waiting)
    return counts


def in_words(counts):
    return ", ".join("%s: %d" % item for item in counts.items())


def too_few(counts, parts):
    """What must be run of these parts and was not, or too seldom, however slow the machine is."""
    return {kind: counts.get(kind, 0) for part in parts for kind, least in LEAST.get(part, {}).items() if counts.get(kind, 0) < least}


def try_faults(options):
    planned, missed = list(plan(options, 600)), []
    for fault in FAULTS:
        (runner, _), program = build_runner(None, True, fault), build_stand_in_program(fault)
        try:
            print("fault %d: NOT FOUND (%s)" % (fault, in_words(compare(planned, [[runner]], program))), flush=True)
            missed.append(fault)
        except Differs as differs:
            print("fault %d: found: %s" % (fault, str(differs).splitlines()[0][:150]), flush=True)
    if missed:
        sys.exit("against_walker: faults not found: %s" % missed)
    print("against_walker: %d faults put in, all found" % len(FAULTS))


@mock.patch.object(walker, "true_graph", removal_cases.remembered(walker.true_graph))
def main():
    parser = argparse.ArgumentParser()
    for flag in ("--long", "--stand-in", "--try-faults"):
        parser.add_argument(flag, action="store_true")
    parser.add_argument("--only", choices=PARTS)
    parser.add_argument("--seed", type=int, default=9)
    parser.add_argument("--seconds", type=float, default=None)
    options = parser.parse_args()
    if options.long and options.seed == 9:
        options.seed = 90
    if options.seconds is None:
        options.seconds = 10 ** 6 if options.long else 90
    BUILT.mkdir(parents=True, exist_ok=True)
    if options.try_faults:
        try_faults(options)
        return
    library, program = (None, build_stand_in_program(0)) if options.stand_in else (LIBRARY, PROGRAM)
    for needed in [] if options.stand_in else [PROGRAM] * (options.only in (None, "decks")) + [LIBRARY] * (options.only != "decks"):
        if not needed.exists():
            sys.exit("against_walker: %s is not built" % needed)
    used = [] if options.only == "decks" else runners(library)
    try:
        ran = compare(plan(options, 40000 if options.long else 4000), [command for command, _ in used], program)
        few = too_few(ran, [options.only] if options.only else PARTS)
        if few:
            sys.exit("against_walker: FAILED: too few random cases: %s" % in_words(few))
        under = "; C calls under " + ", and under ".join(checks for _, checks in used) if used else ""
        print("against_walker: %s%s; all as the walker says" % (in_words(ran), under))
    except Differs as differs:
        print(differs)
        sys.exit(1)


if __name__ == "__main__":
    main()
