#!/usr/bin/env python3
"""The cases of crates/removal_cases and what they must print.

python3 tests/removal_cases.py           writes crates/removal_cases/stdin and stdout
python3 tests/removal_cases.py --check   says whether the two files are what it would write

Every expected answer is that of tests/walker.py, the separate program, which walks all paths.

Input: up to four blocks of 65,536 bytes (the last may be shorter). A block is packed numbers: the count of its series, the series, and
zeros. A series is one design and some removals, in order:

    n; five slices: starts, ends, early and late delays (as packed numbers), marked nodes; the count of removals; the removals

A removal is

    where: 0 drop the graph held, 1 keep it, 2 hold the graph that follows (five slices: nodes, endpoint, from, to, via)
    two slices: listed edges, lengths
    the lengths of the room's five slices, and of the scratch

and works on the design while no graph is held, and on the graph held after that (document 01, "A series"). It starts with none.
One that is not refused puts its result in place of the graph held. A slice is how many numbers follow, how often the last is
then repeated, and the numbers; so slices need not belong together.

Before each removal it is told how many copies and edges the result has, on the same design, list and graph held, with a scratch of
the same length. Only there may the scratch be longer than 32,768 words: of a longer one the removal is lent so many.

Before each of the two calls, place k of the room's slice j (nodes 0, endpoint 1, from 2, to 3, via 4) and of the scratch (5) is set to
3,000,000,000 + 100,000,000 j + k mod 65,536. Output for each removal: a line `told copies C edges E`, or `told` and the refusal as the
deck program prints it, and a line for the scratch; then a line `copies C edges E`, or the refusal, and a line for each of the five
slices and the scratch. These have its name and a sum over all of it, as lent: from 1, for each word w, h becomes (1,000,003 h + w) mod
4,294,967,291. Where C + E is at most 40, the lines of the five slices go on with the words of the result.
"""
import random
from unittest import mock

import expected
import walker
from decks import (A_BACK_EDGES, A_EDGES, HOLD, M8_EDGES, MARKED, braid, chain, damage_graph, deck_of, design_and_lists, design_of, earlier_graph,
                   gains, largest_foreign_graph, path_list_of, random_design, random_foreign_graph, random_paths, room_of)
from walker import Design, Graph, PathList, Room

# The program's tables, and its room and scratch.
EDGE_TABLE, MARKED_TABLE, LISTED_TABLE, PATH_TABLE, COPY_TABLE, COPY_EDGE_TABLE = 16400, 4200, 8200, 1040, 16400, 2080
COPY_ROOM, EDGE_ROOM, SCRATCH, TOLD_SCRATCH = 2080, 2080, 32768, 300000     # the last where it is only told
BLOCKS = 4                  # that it reads
NUMBERS = (30, 10, 11, 12, 13, 14, 15, 16, 20, 21, 22, 23, 24, 31, 32, 33, 34)
DESIGN, HELD, GIVEN = range(3)
TOP = 4294967295
PRINTED = 40


# ---- Series ------------------------------------------------------------------------------

def remembered(true_graph):
    """Keeps the last answer: a case asks three times for one result (its size, telling, removal). Neither what is given nor the answer may be
    changed in place."""
    last = [None]

    def asked(design, path_list, earlier=None):
        given = (design, path_list, earlier)
        if last[0] is None or any(a is not b for a, b in zip(last[0], given)):
            last[:] = given, true_graph(*given)
        return last[1]
    return asked


class BeyondTables(Exception):
    """A case that is too long for the program."""


def bound(table, *lengths):
    if max(lengths) > table:
        raise BeyondTables("%d, where there is room for %d" % (max(lengths), table))


def pattern(which, length):
    return [3_000_000_000 + 100_000_000 * which + place % 65536 for place in range(length)]


def checksum(words):
    total = 1
    for word in words:
        total = (1_000_003 * total + word) % 4_294_967_291
    return total


def packed_slice(numbers):
    """How many numbers follow, how often the last is repeated, the numbers."""
    stored = len(numbers)
    while stored > 1 and numbers[stored - 2] == numbers[-1]:
        stored -= 1
    return [stored, len(numbers) - stored, *numbers[:stored]]


class Series:
    """A design, and removals whose expected lines are found as they are added."""

    def __init__(self, design):
        self.design, self.held = design, None
        self.removals, self.lines, self.refusals, self.told = [], [], [], []

    def worked_on(self, where, given):
        return {DESIGN: None, HELD: self.held, GIVEN: given}[where]

    def add(self, where, path_list, room, scratch, given=None):
        """One removal; returns the refusal, or None."""
        bound(LISTED_TABLE, len(path_list.flat))
        bound(PATH_TABLE, len(path_list.lengths))
        bound(COPY_ROOM, *room[:2])
        bound(EDGE_ROOM, *room[2:])
        bound(TOLD_SCRATCH, scratch)
        self.held = self.worked_on(where, given)
        numbers = [where]
        if where == GIVEN:
            bound(COPY_TABLE, *map(len, given[:2]))
            bound(COPY_EDGE_TABLE, *map(len, given[2:]))
            for part in given:
                numbers += packed_slice(list(part))
        numbers += packed_slice(list(path_list.flat)) + packed_slice(list(path_list.lengths)) + [*room, scratch]
        self.removals.append(numbers)
        self.tell(path_list, scratch)
        scratch = min(scratch, SCRATCH)
        refusal, result = None, ((),) * 5
        try:
            result = walker.removal(self.design, path_list, self.held, scratch, room)
            self.held = result
        except walker.Refused as refused:
            refusal = refused.refusal
        self.say(refusal, result, room, scratch)
        return refusal

    def tell(self, path_list, scratch):
        """The counts, on what is held, or the refusal; and the scratch."""
        refusal = None
        try:
            answer = "copies %d edges %d" % walker.size(self.design, path_list, self.held, scratch)
        except walker.Refused as refused:
            refusal, answer = refused.refusal, walker.printed_refusal(refused.refusal)
        self.lines += ["told " + answer, "scratch %d" % checksum(walker.scratch_after(pattern(5, scratch), refusal))]
        self.told.append(refusal)

    def say(self, refusal, result, room, scratch):
        if refusal is None:
            self.lines.append("copies %d edges %d" % (len(result.copy_nodes), len(result.starts)))
        else:
            self.lines.append(walker.printed_refusal(refusal))
        small = len(result[0]) + len(result[2]) <= PRINTED
        after = [walker.lent_after(pattern(which, length), part) for which, (length, part) in enumerate(zip(room, result))]
        after.append(walker.scratch_after(pattern(5, scratch), refusal))
        for name, words, part in zip(("nodes", "endpoint", "from", "to", "via", "scratch"), after, (*result, ())):
            self.lines.append("%s %d" % (name, checksum(words)) + "".join(" %d" % word for word in part if small))
        self.refusals.append(refusal)

    def packed(self):
        nodes, starts, ends, *delays, marked = self.design
        numbers = [nodes]
        for part in (starts, ends, *([walker.pack_delay(delay) for delay in part] for part in delays), marked):
            bound(MARKED_TABLE if part is marked else EDGE_TABLE, len(part))
            numbers += packed_slice(list(part))
        numbers.append(len(self.removals))
        return b"".join(map(walker.write_number, numbers + [number for removal in self.removals for number in removal]))


# ---- What a sound call needs -----------------------------------------------------------------

def words_needed(design, path_list, graph):
    """The least scratch that test 31 takes."""
    return walker.words_needed(design, path_list, walker.design_as_graph(design) if graph is None else graph)


def result_sizes(design, path_list, graph):
    result = walker.true_graph(design, path_list, graph)
    return len(result.copy_nodes), len(result.starts)


def exact(design, path_list, graph):
    """Room and scratch, neither with a word to spare."""
    return room_of(*result_sizes(design, path_list, graph)), words_needed(design, path_list, graph)


def thresholds(series, where, path_list, given=None):
    """The same removal with one word too few of each, then with just enough: 31, 33, 34, none."""
    graph = series.worked_on(where, given)
    room, words = exact(series.design, path_list, graph)
    short_copies, short_edges = room_of(room.copies - 1, room.starts), room_of(room.copies, room.starts - 1)
    if words > 0:
        assert series.add(where, path_list, room, words - 1, given) == (31, 0)
        where = HELD if where == GIVEN else where
    if room.copies > 0:
        assert series.add(where, path_list, short_copies, words, given) == (33, 0)
        where = HELD if where == GIVEN else where
    if room.starts > 0:
        assert series.add(where, path_list, short_edges, words, given) == (34, 0)
        where = HELD if where == GIVEN else where
    assert series.add(where, path_list, room, words, given) is None


def wide(series, where, path_list, given=None):
    """The same removal with some words to spare."""
    room, words = exact(series.design, path_list, series.worked_on(where, given))
    assert series.add(where, path_list, room_of(room.copies + 3, room.starts + 2), min(words + 5, SCRATCH), given) is None


# ---- Fixed cases ---------------------------------------------------------------------------

def marked():
    """M1 to M8 at all thresholds, and M6 and others by parts."""
    for name in ("M1", "M2", "M3", "M4", "M5", "M6", "M7", "M8"):
        deck = MARKED[name]
        series = Series(deck.design)
        thresholds(series, DESIGN, deck.path_list)
        wide(series, DESIGN, deck.path_list)
        wide(series, HELD, deck.path_list)                  # once more, on its own result
        yield series
    by_parts = [(A_EDGES, 5, [[[1, 2]], [[0, 3]]]), (A_EDGES, 5, [[[0, 3]], [[1, 2]]]), (A_EDGES, 5, [[[0, 2]], [[1, 2]]]),
                (A_EDGES, 5, [[], [[1, 2]], [], [[2]], [[0]], [[1]], [[0]]]),
                (M8_EDGES, 6, [[[0, 2, 3]], [[1, 2, 3, 4]]]), (M8_EDGES, 6, [[[1, 2, 3, 4]], [[0, 2, 3]]]),
                (M8_EDGES, 6, [[[2, 3]], [[3, 4]], [[2, 5]], [[5]]])]
    for edges, nodes, parts in by_parts:
        for each in (thresholds, wide):
            series = Series(deck_of(nodes, edges, [], 0).design)
            for part in parts:
                each(series, HELD, path_list_of(part))
            yield series


def hub(into, out_of, listed):
    """Edges into node 1, from node 0, numbered from 0; then edges out of it, to node 2."""
    edges = [(0, 1, number % 7) for number in range(into)] + [(1, 2, -number % 5) for number in range(out_of)]
    return deck_of(3, edges, listed, 0)


def ladder(length, width):
    """Nodes in a row, joined by `width` parallel edges each; edge `width * k + j` is the j-th from k on."""
    return deck_of(length + 1, [(k, k + 1, j) for k in range(length) for j in range(width)], [], 0).design


def two_hubs(into, between, out_of):
    """Nodes 0, 1, 2, 3, joined by so many parallel edges."""
    edges = [(0, 1, 1)] * into + [(1, 2, 2)] * between + [(2, 3, 3)] * out_of
    return deck_of(4, edges, [], 0).design


def adversarial():
    # hubs with many tails: one edge in is listed with each edge out, then a second one, then all but one
    for into, out_of in ((2, 30), (12, 12), (40, 8), (3, 100)):
        first = [[0, into + j] for j in range(out_of)]
        second = [[1, into + j] for j in range(0, out_of, max(2, out_of // 8))]
        series = Series(hub(into, out_of, []).design)
        wide(series, DESIGN, path_list_of(first))
        wide(series, HELD, path_list_of(second))
        thresholds(series, DESIGN, path_list_of(first + second))
        wide(series, DESIGN, path_list_of([[i, into + j] for i in range(into) for j in range(out_of) if i != 1][:500]))
        yield series
    # tails of two edges through a second hub; the same tails reached from several listed paths
    design = two_hubs(3, 4, 5)
    paths = [[i, 3 + j, 7 + k] for i in range(2) for j in range(4) for k in range(5) if (i + j + k) % 3]
    for parts in ([paths], [paths[:9], paths[9:]], [paths[::2], paths[1::2], paths], [paths + paths], [[p[1:] for p in paths], paths]):
        series = Series(design)
        for part in parts:
            wide(series, HELD, path_list_of(part))
        yield series
    # nested: each path inside the next, in front, behind and in the middle; overlapping: a window that moves
    design = ladder(7, 2)
    row = [2 * k for k in range(7)]
    nested = [[row[a:b] for a in range(7 - 1)] for b in (7,)] + [[row[:b] for b in range(2, 8)]]
    nested += [[row[a:7 - a] for a in range(3)], [row[a:a + 3] for a in range(5)], [row[a:a + 2] for a in range(0, 6, 2)]]
    nested += [[row[:5], row[:4] + [9], row[1:4] + [9, 10]], [row, row, row[1:], row[1:], row[3:5]]]
    for paths in nested:
        for order in (paths, paths[::-1]):
            series = Series(design)
            wide(series, DESIGN, path_list_of(order))
            wide(series, DESIGN, path_list_of(order[:1]))
            for path in order[1:]:
                wide(series, HELD, path_list_of([path]))
            yield series
    # long chains: paths over most of them, side by side edges, everything removed at the end
    whole = list(range(60))
    for doubled, paths in (((), [whole[5:50]]), ((59, 30, 1), [whole[a:] for a in range(6)]), ((10, 40), [whole[:59], whole[9:42]]),
                           ((5, 25, 45), [whole[a:a + 20] for a in range(0, 40, 5)])):
        series = Series(braid(60, doubled, []).design)
        wide(series, DESIGN, path_list_of(paths))
        wide(series, HELD, path_list_of(paths[:2]))
        wide(series, HELD, path_list_of([[0]]))
        wide(series, HELD, path_list_of([[1], [2, 3]]))
        yield series
    series = Series(chain(400, []).design)
    wide(series, DESIGN, path_list_of([list(range(1, 400))]))
    wide(series, HELD, path_list_of([list(range(k, k + 2)) for k in range(0, 100, 3)]))
    yield series
    series = Series(braid(300, (0, 150, 299), []).design)
    thresholds(series, DESIGN, path_list_of([list(range(1, 300)), list(range(300))]))
    thresholds(series, HELD, path_list_of([[149, 150], list(range(100, 200))]))
    yield series
    # isolated nodes, and edges that are no part of what is listed
    series = Series(deck_of(9, [(1, 3, 4), (3, 7, 1), (1, 7, -3), (3, 7, 1)], [], 0).design)
    for paths in ([[0, 1]], [[0, 3]], [[2]], [[0]]):
        thresholds(series, HELD, path_list_of(paths))
    thresholds(series, DESIGN, path_list_of([[k] for k in range(4)]))
    yield series
    # a list at its limits: 1,024 paths; 31 is all that can be said of 8,192 listed edges with this scratch
    design = two_hubs(2, 2, 2)
    series = Series(design)
    wide(series, DESIGN, path_list_of([[0]] * 1000 + [[0, 2]] * 24))
    series.add(DESIGN, path_list_of([[0]] * 1025), room_of(9, 9), 99)
    series.add(DESIGN, path_list_of([[0, 2, 4]] * 1023), room_of(9, 9), SCRATCH)
    series.add(DESIGN, PathList([8192], [0] * 8192), room_of(9, 9), 99)
    series.add(DESIGN, PathList([8193], [0] * 8193), room_of(9, 9), 99)
    series.add(DESIGN, PathList([1] * 1025, [0] * 8193), room_of(9, 9), 99)
    yield series


def widest_rooms():
    """All of the program's room. Rooms above 16,384 and 65,536 are run by tests/against_walker.py: such slices make a slow proof."""
    series = Series(MARKED["M6"].design)
    assert series.add(DESIGN, MARKED["M6"].path_list, room_of(COPY_ROOM, EDGE_ROOM), SCRATCH) is None
    assert series.add(HELD, MARKED["M6"].path_list, room_of(COPY_ROOM, EDGE_ROOM), 1024) is None
    yield series


def edges_at_the_limit(extra):
    """A hub with 1,820 edges in and 51 + extra out, of which 35 are listed behind one edge in: 65,536 + extra result edges, 38 copies. The edges
    out come first, so that the slices are short in the input; and a list for it."""
    tails, out_of, into = 35, 51 + extra, 1820
    design = design_of(3, [(1, 2, 0)] * out_of + [(0, 1, 0)] * into)
    return design, path_list_of([[out_of, j] for j in range(tails)])


def many_marks(alone, beside=1, early_hub=False):
    """A design, an earlier graph of it and a list, for more copies than a list on a design can give. Node C has copies, each with A times B ways of
    its own to the sink, and every one of these is listed behind edge x, beside which `beside` edges stand: so each copy of C has A times B marks.
    `alone` nodes have no edge. The result has 15,857 + `alone` copies; with `early_hub` it has 15,955 + `alone`, and more than 65,536 edges into
    the first 126."""
    (A, B, copies_of_C), (into, tails) = ((30, 30, 17), (540, 124)) if early_hub else ((32, 32, 15), (0, 0))
    first = 3 if early_hub else 0                               # S, C, H, G and the sink stand behind the hub's three nodes
    S, C, H, G, sink = range(first, first + 5)
    edges, groups = [], []
    for start, end, width in ((0, 1, into), (1, 2, tails), (S, C, 1), (S, C, beside), (C, H, A), (H, G, B), (G, sink, copies_of_C)):
        groups.append(range(len(edges), len(edges) + width))
        edges += [(start, end, 0)] * width
    hub_in, hub_out, x, y, a, b, z = groups
    nodes = list(range(first)) + [S] + [node for node in (C, H, G) for _ in range(copies_of_C)] + list(range(sink, sink + 1 + alone))
    at_S, at_C = first, first + 1
    at_H, at_G, at_sink = (at_C + k * copies_of_C for k in (1, 2, 3))
    joins = [(0, 1, e) for e in hub_in] + [(1, 2, e) for e in hub_out]
    joins += [(at_S, at_C + k, e) for k in range(copies_of_C) for e in (*x, *y)]
    joins += [(at_C + k, at_H + k, e) for k in range(copies_of_C) for e in a]
    joins += [(at_H + k, at_G + k, e) for k in range(copies_of_C) for e in b]
    joins += [(at_G + k, at_sink, z[k]) for k in range(copies_of_C)]
    graph = Graph(nodes, [1 if node >= sink or node == 2 and early_hub else 0 for node in nodes], *map(list, zip(*joins)))
    listed = [[hub_in[0], e] for e in hub_out] if early_hub else []
    return design_of(nodes[-1] + 1, edges), graph, path_list_of(listed + [[x[0], e, f] for e in a for f in b])


# Told of many_marks: counts, 33 or 34. 33 comes first, also where the edges are above theirs before the copies are.
MANY_MARKS = [((527, 1), None), ((528, 1), (33, 0)), ((527, 4), (34, 0)), ((528, 4), (33, 0)),
              ((429, 1, True), (34, 0)), ((430, 1, True), (33, 0))]


def tellings():
    """Where telling and removal part: results of 65,536 edges and above, from the design and from a graph, which no room of the program takes; and
    results of nothing."""
    for extra, told in ((0, None), (1, (34, 0))):
        design, path_list = edges_at_the_limit(extra)
        series = Series(design)
        words = words_needed(design, path_list, None)
        for copies, edges, scratch, refusal in ((38, 2080, words, 34), (37, 2080, words, 33), (0, 0, words, 33), (38, 2080, words - 1, 31)):
            assert series.add(DESIGN, path_list, room_of(copies, edges), scratch) == (refusal, 0)
        assert series.add(DESIGN, path_list_of([]), room_of(3, 2080), SCRATCH) is None       # the design as a graph
        assert series.add(HELD, path_list, room_of(38, 2080), words_needed(design, path_list, series.held)) == (34, 0)
        assert series.told == [told] * 3 + [(31, 0), None, told]
        yield series
    # nothing is left: no copy and no edge, from the design, and from a graph of no copies
    series = Series(chain(3, []).design)
    for where in (DESIGN, HELD):
        thresholds(series, where, path_list_of([[0, 1, 2], [1]]))
    assert series.held == ([],) * 5
    yield series


def tellings_of_many_copies():
    """The same at 16,384 copies and above. The removal's scratch is cut to 32,768 words, so it gets 31; tests/against_walker.py lends all of it."""
    for given, told in MANY_MARKS[:2] + MANY_MARKS[4:]:
        design, graph, path_list = many_marks(*given)
        series = Series(design)
        assert series.add(GIVEN, path_list, room_of(9, 9), words_needed(design, path_list, graph), graph) == (31, 0)
        assert series.told == [told]
        yield series


def unfit_designs():
    good = deck_of(5, A_EDGES, [], 0).design
    paths = path_list_of([[1, 2]])
    room = room_of(6, 5)
    designs = [good._replace(nodes=nodes) for nodes in (0, 2, 4, 4096, 4097, TOP)]
    for place in range(4):
        for edge in ((0, 5, 0), (5, 6, 0), (TOP, 0, 0), (2, 2, 0), (3, 1, 0), (0, 1, 0, 1_000_001), (0, 4, -1_000_001, 0), (0, 4, 1, 0),
                     (0, 4, -1, 1)):
            designs.append(design_of(5, A_EDGES[:place] + [edge] + A_EDGES[place + 1:]))
    for above in ([(0, 1, 0), (0, 1, 1, 0)], [(0, 1, 1, 0), (0, 1, 0, 1_000_001)], [(0, 1, 1, 0), (1, 1, 0)], [(0, 1, 2, 1), (0, 1, 2, 1)]):
        designs.append(design_of(5, above + A_EDGES[2:]))                   # 15; 14, 13 and 15 meet it at a later edge
    designs += [good._replace(**{name: list(getattr(good, name))[:-1]}) for name in Design._fields[1:5]]
    designs += [good._replace(**{name: list(getattr(good, name)) + [0]}) for name in Design._fields[1:5]]
    designs += [good._replace(marked=marked) for marked in ([5], [0, 5], [2, 2], [3, 2], [0, 1, 1, 9], [4, TOP, 4], [0, 1, 2, 3, 4, 4], [7] * 4200)]
    designs += [design_of(5, [(0, 1, 1, 0)], [5]), design_of(5, [(0, 1, 1_000_001)], [2, 2]), design_of(5, [(0, 5, 0)], [2, 2])]     # before 16
    designs += [design_of(4096, [], [4095]), design_of(4096, [], [0, 4096])]
    designs += [design_of(5, [(0, 1, 7)] * count) for count in (16383, 16384, 16385)]
    designs += [design_of(4097, [(0, 1, 7)] * 16385), design_of(2, []), design_of(4096, [])]
    given = walker.true_graph(good, paths)
    for design in designs:
        series = Series(design)
        for where, path_list, lent, scratch in ((DESIGN, paths, room, 1024), (HELD, paths, Room(6, 6, 5, 4, 5), 1024),
                                                (HELD, path_list_of([[], [9]]), room, 3), (GIVEN, paths, room, 1024),
                                                (HELD, path_list_of([]), room, 2)):
            series.add(where, path_list, lent, scratch, given if where == GIVEN else None)
        yield series


def unfit_lists_and_graphs():
    good = deck_of(5, A_EDGES, [], 0).design
    room = room_of(6, 5)
    lists = [path_list_of(paths) for paths in ([[2, 1]], [[1, 2], [2, 1]], [[1, 2, 2]], [[4]], [[0], [1, TOP]], [[]], [[1, 2], []],
                                               [[2, 1], [4], []], [[2, 1], [4]], [[0, 3], [3, 0], [4]])]
    lists += [PathList(lengths, [1, 2]) for lengths in ([], [1], [3], [1, 2], [TOP, 3], [2 ** 31, 2 ** 31, 2], [0, 2], [2, 0], [1, 1])]
    lists += [PathList([2], flat) for flat in ([], [1], [1, 2, 2])]
    lists += [path_list_of([[0]] * 1025 + [[]]), PathList([0] * 1025, []), PathList([8193], [9] * 8193)]
    good_graph = walker.true_graph(good, path_list_of([[1, 2]]))
    bad_graph = good_graph._replace(design_edges=good_graph.design_edges[:-1] + [2])
    for path_list in lists:
        series = Series(good)
        series.add(DESIGN, path_list, room, 1024)
        series.add(DESIGN, path_list_of([[1, 2]]), room, 1024)
        series.add(HELD, path_list, room, 0)
        series.add(HELD, path_list, Room(6, 6, 5, 5, 6), 0)
        series.add(GIVEN, path_list, room, 0, bad_graph)
        series.add(HELD, path_list_of([[1, 2]]), room, 0)                    # 32 comes before 31
        series.add(HELD, path_list_of([[1, 2]]), Room(6, 6, 5, 6, 5), 0)
        series.add(HELD, path_list_of([[1, 2]]), Room(6, 5, 5, 5, 5), 0)
        yield series
    parts = [list(part) for part in good_graph]
    unfit = [Graph(*(part[:len(part) - (k == cut)] for k, part in enumerate(parts))) for cut in range(5)]
    unfit += [Graph([0] * 16385, [0] * 16385, [], [], []), Graph([5], [1], [], [], []), Graph([], [], [], [], []), Graph([], [1], [], [], [])]
    series = Series(good)
    for graph in unfit:
        series.add(GIVEN, path_list_of([[1, 2]]), room, 1024, graph)
        series.add(HELD, path_list_of([]), room, 1024)
    yield series
    # deck A with node 2 marked: each endpoint number of its graph by itself, and then clause by clause what is not well formed
    observed = deck_of(5, A_EDGES, [], 0, [2]).design
    graph = walker.true_graph(observed, path_list_of([[1, 2]]))
    series = Series(observed)
    changed = [[number if place == k else old for place, old in enumerate(graph.endpoints)] for k in range(6) for number in (0, 1, 2, TOP)]
    given = [graph._replace(endpoints=endpoints) for endpoints in changed + [[0, 0, 0, 1, 1, 1], [0, 0, 0, 0, 1, 1], [0, 0, 1, 1, 1, 1]]]
    given += [graph._replace(starts=[0, 1, 3, 2], ends=[2, 2, 4, 5], design_edges=[0, 1, 2, 3]),             # copy 3 has no edge in
              Graph([0, 1, 2, 2, 4], [0, 0, 1, 0, 1], [0, 1, 0, 2], [2, 2, 3, 4], [0, 1, 0, 3]),              # it has one in, none out, and 0
              Graph([0, 1, 2, 2, 4], [0, 0, 0, 1, 1], [0, 1, 0, 2], [2, 2, 3, 4], [0, 1, 0, 3]),              # the same with 1: well formed
              Graph([0, 1, 2], [0, 0, 1], [0, 1], [2, 2], [0, 1]), Graph([2], [1], [], [], []), Graph([0, 2], [0, 1], [0], [1], [0])]
    for graph in given:
        series.add(GIVEN, path_list_of([[0, 3]]), room_of(9, 9), 1024, graph)
    yield series


MARKED_LISTS = ([[0]], [[2]], [[0, 3]], [[1, 2]], [[2], [3]], [[0], [1]], [[0, 2], [0, 3]], [[0, 2], [0, 3], [1, 2], [1, 3]], [[0], [2], [1, 3]])


def with_marked():
    """Marked nodes of every kind, lists that end at one, start at one and pass one; on the design and on what that leaves."""
    for edges in (A_EDGES, A_BACK_EDGES):
        for marked in ([2], [0], [0, 1], [3], [2, 4], range(5)):
            series = Series(deck_of(5, edges, [], 0, marked).design)
            for paths in MARKED_LISTS if edges is A_EDGES else MARKED_LISTS[3:5]:
                thresholds(series, DESIGN, path_list_of(paths))
                wide(series, HELD, path_list_of([[1, 2], [0]]))
            yield series
    for marked in ([3], [4], [2, 4], [1, 3, 5]):
        series = Series(deck_of(6, M8_EDGES, [], 0, marked).design)
        for paths in ([[0, 2, 3], [1, 2, 3, 4]], [[0, 2], [1, 2, 3]], [[2, 3]], [[2, 5], [3, 4]]):
            wide(series, HELD, path_list_of(paths))
        thresholds(series, DESIGN, path_list_of([[0, 2, 3], [1, 2, 3, 4]]))
        yield series
    for marked in ([0], [8], [0, 1, 8], range(9)):                    # isolated nodes and others
        series = Series(deck_of(9, [(1, 3, 4), (3, 7, 1), (1, 7, -3), (3, 7, 1)], [], 0, marked).design)
        for paths in ([[0, 1]], [[0, 3]], [[2]], [[0]]):
            thresholds(series, HELD, path_list_of(paths))
        yield series
    # a chain with many marked nodes, cut in the middle and then at both ends; hubs that are marked
    series = Series(braid(60, (10, 40), []).design._replace(marked=list(range(0, 61, 4))))
    for paths in ([list(range(20, 45))], [[0, 1], [58, 59]], [list(range(5, 12)), [40, 41]], [[24]]):
        wide(series, HELD, path_list_of(paths))
    yield series
    for into, out_of in ((2, 30), (12, 12)):
        series = Series(hub(into, out_of, []).design._replace(marked=[1]))
        wide(series, DESIGN, path_list_of([[0, into + j] for j in range(out_of)]))
        thresholds(series, HELD, path_list_of([[1, into + j] for j in range(0, out_of, 3)]))
        wide(series, HELD, path_list_of([[0]]))
        yield series
    series = Series(design_of(600, [], range(600)))
    thresholds(series, DESIGN, path_list_of([]))
    thresholds(series, HELD, path_list_of([]))
    yield series


# ---- A longer list, and a shuffled one (document 02, request 12) ------------------------------

def left_by(series, where, paths, given):
    """What is left by a removal with no word to spare."""
    path_list = path_list_of(paths)
    assert series.add(where, path_list, *exact(series.design, path_list, series.worked_on(where, given)), given) is None
    return series.held


def compare_lists(series, paths, same, longer, given):
    """"a list with its paths reordered or repeated gives the identical graph, numbers included, when removed from the same graph"; and where it
    "is extended by any paths" no node is worse: from the design, or from the graph given. Returns what is better at some node."""
    assert all(path in other for path in paths for other in (*same, longer)) and all(path in paths for other in same for path in other)
    where = DESIGN if given is None else GIVEN
    plain = left_by(series, where, paths, given)
    for other in same:
        assert left_by(series, where, other, given) == plain
    after = left_by(series, where, longer, given)
    before, then = (walker.records_of(series.design, graph, walker.copy_times(series.design, graph, 10)) for graph in (plain, after))
    assert all(map(walker.no_worse, before, then))
    return gains(before, then)


def other_orders(paths):
    """Backwards; from the middle on, so that the last comes before the first; each twice; all of it, and then backwards once more."""
    middle = len(paths) // 2
    return [paths[::-1], paths[middle:] + paths[:middle], [path for path in paths for _ in range(2)], paths + paths[::-1]]


def lists_to_compare():
    """Designs, each with a list, what it is extended by, and a list for an earlier graph. In the lists marks compete for the numbers of a node's
    copies: tails of equal length that begin with other edges or with the same, from one listed path or from several, nested and overlapping
    paths; and the higher edge comes first in some and the lower one in others."""
    yield MARKED["M6"].design, [[1, 2], [0, 3]], [[0, 2]], [[1, 3]]
    yield deck_of(5, A_BACK_EDGES, [], 0, [2]).design, [[1, 3], [0, 2]], [[0, 3]], [[0]]
    yield MARKED["M8"].design, [[0, 2, 3], [1, 2, 5]], [[1, 2, 3, 4]], [[2, 3]]
    yield deck_of(6, M8_EDGES, [], 0, [3]).design, [[1, 2, 3, 4], [0, 2, 3], [2, 5]], [[0, 2]], [[0, 2, 5]]
    yield HOLD.design, [[2, 4], [0, 1, 3]], [[1, 4]], [[0, 1, 4]]
    yield hub(3, 7, []).design, [[0, 3 + j] for j in (4, 1, 6, 0, 3)], [[1, 5], [2]], [[1, 3 + j] for j in (6, 2)]
    design = two_hubs(3, 3, 3)
    paths = [[i, 3 + j, 6 + k] for i in range(2) for j in range(3) for k in range(3) if (i + j + k) % 2]
    yield design, paths, [[2, 4, 7], [5, 6]], [[0, 4], [2, 3, 8]]
    yield design, [path[1:] for path in paths[:3]] + paths[:2:-1], [[0]], [[1, 5]]
    # nested: in front, behind and in the middle; then tails that part at their last edge
    design, row = ladder(5, 2), [0, 2, 4, 6, 8]
    yield design, [row[1:], row[:4] + [9], row[2:4] + [8], row[:3] + [7]], [[2, 5], [1, 3]], [row[:2]]
    yield design, [row[:4] + [9], row, row[:3] + [7, 9], row[:3] + [7, 8], [1] + row[1:]], [row[3:]], [[1, 3, 5]]
    # of the longer list nothing is left: every node is none
    yield braid(3, (1, 1), []).design, [[3, 2], [0, 1]], [[0, 4]], [[0, 1, 2]]


def longer_and_shuffled():
    rng, gained = random.Random(12), set()
    for design, paths, more, first in lists_to_compare():
        series = Series(design)
        middle = len(paths) // 2
        longer = paths[:middle] + more + paths[middle:]
        for given in (None, walker.true_graph(design, path_list_of(first)), largest_foreign_graph(rng, design)):
            assert walker.true_graph(design, path_list_of(paths), given) != walker.true_graph(design, path_list_of([]), given)
            gained |= compare_lists(series, paths, other_orders(paths), longer, given)
        yield series
    assert gained == {"none", *walker.Times._fields}
    yield from refused_for_repeats()


def refused_for_repeats():
    """Repeats count for 31 and 20: of two lists of the same paths one is refused and the other not, from the design and from a graph.
    (21 takes too long a list: tests/against_walker.py.)"""
    design, paths = two_hubs(2, 2, 2), [[1, 2, 4], [0, 3], [0]]
    earlier = walker.true_graph(design, path_list_of([[1, 3], [0, 2, 5]]))
    series = Series(design)
    for where, given in ((DESIGN, None), (GIVEN, earlier)):
        room, words = exact(design, path_list_of(paths), given)
        for path in paths:
            again = path_list_of([path] + paths)
            assert series.add(where, again, room, words, given) == (31, 0)
            assert series.add(where, again, room, words_needed(design, again, given) - 1, given) == (31, 0)
        compare_lists(series, paths, [[path] + paths for path in paths], paths + [[0, 2]], given)
    yield series
    # 1,024 paths, whether they are different or not; and one more
    series = Series(design)
    for where, given in ((DESIGN, None), (GIVEN, earlier)):
        compare_lists(series, paths, [paths + [[0]] * 1021], paths + [[4]] * 1021, given)
        assert series.add(where, path_list_of(paths + [[0]] * 1022), room_of(99, 99), SCRATCH, given) == (20, 0)
    yield series


# ---- Random cases ---------------------------------------------------------------------------

def damaged_list(rng, design, paths):
    """A list with one fault, of the designer's or of the host's."""
    paths = [list(path) for path in paths] or [[]]
    path_list = path_list_of(paths)
    kind = rng.choice(("22", "23", "24", "24", "30", "30"))
    if kind == "22":
        paths.insert(rng.randint(0, len(paths)), [])
        return path_list_of(paths)
    if kind in ("23", "24"):
        path = rng.choice(paths)
        path.insert(rng.randint(0, len(path)), rng.randrange(len(design.starts) + 1) if kind == "24" else len(design.starts))
        return path_list_of(paths)
    return rng.choice((path_list._replace(lengths=list(path_list.lengths) + [1]), path_list._replace(flat=list(path_list.flat) + [0])))


def random_removal(rng, series, where, given=None):
    """A removal that is sound, with just enough or a little more, or is refused for any one reason, or for two."""
    design = series.design
    paths = random_paths(rng, design, rng.choice((1, 2, 3, 6)))
    path_list = path_list_of(paths)
    graph = series.worked_on(where, given)
    if graph is not None and (walker.slices_refusal(walker.graph_groups(graph)) or walker.graph_refusal(design, graph)):
        series.add(where, path_list, room_of(rng.randint(0, 9), rng.randint(0, 9)), rng.randint(0, 999), given)
        return
    room, words = exact(design, path_list, graph)
    edges = room.starts
    if rng.random() < 0.5:
        room, words = room_of(room.copies + rng.randint(0, 4), edges + rng.randint(0, 4)), words + rng.randint(0, 20)
    for _ in range(rng.choice((0, 0, 0, 1, 1, 2))):
        kind = rng.choice(("list", "words", "copies", "copies", "edges", "edges", "edges", "30"))
        if kind == "list":
            path_list = damaged_list(rng, design, paths)
        elif kind == "words":
            words = max(0, words - rng.choice((1, 1, walker.WORDS_PER_UNIT, 30)))
        elif kind == "copies":
            room = room_of(max(0, room.copies - rng.choice((1, 1, 2, 5))), room.starts)
        elif kind == "edges":
            room = room_of(room.copies, max(0, room.starts - rng.choice((1, 1, 2, 5))))
        else:
            lengths = list(room)
            lengths[rng.randint(0, 4)] += rng.choice((1, 2))
            room = Room(*lengths)
    series.add(where, path_list, room, min(words, SCRATCH), given)


def random_cases(rng, count):
    for number in range(count):
        design = random_design(rng) if number % 8 else random_design(rng, 11, 20)
        series = Series(design)
        foreign = rng.random() < 0.35
        for step in range(rng.randint(2, 7)):
            where, given = HELD, None
            if foreign and (step == 0 or rng.random() < 0.3):
                where, given = GIVEN, random_foreign_graph(rng, design)
                if rng.random() < 0.35:
                    given = damage_graph(rng, given)
                if rng.random() < 0.05:
                    name = rng.choice(("endpoints", "ends"))
                    given = given._replace(**{name: list(getattr(given, name)) + [0]})
            elif rng.random() < 0.1:
                where = DESIGN
            random_removal(rng, series, where, given)
        yield series


def random_lists(rng, count):
    """Lists reordered and repeated, and extended; from the design and from a graph."""
    for _ in range(count):
        design, paths, same, longer = design_and_lists(rng)
        series = Series(design)
        for given in (None, earlier_graph(rng, design)):
            compare_lists(series, paths, [paths[::-1], same], longer, given)
        yield series


# ---- The files ------------------------------------------------------------------------------

@mock.patch.object(walker, "true_graph", remembered(walker.true_graph))
def main():
    all_series = [series for cases in (marked, with_marked, adversarial, widest_rooms, tellings, tellings_of_many_copies, unfit_designs,
                                       unfit_lists_and_graphs, longer_and_shuffled) for series in cases()]
    all_series += random_cases(random.Random(7), 800)
    all_series += random_lists(random.Random(12), 16)
    refusals = [refusal for series in all_series for refusal in series.refusals]
    for found in (refusals, [refusal for series in all_series for refusal in series.told]):
        assert set(NUMBERS) == {refusal[0] for refusal in found if refusal}, set(found)
    stdin = expected.in_blocks([series.packed() for series in all_series], BLOCKS)
    stdout = "".join(line + "\n" for series in all_series for line in series.lines)
    expected.keep("removal_cases", stdin, stdout.encode())
    print("removal_cases: %d series, %d removals, each told first, %d refused" % (len(all_series), len(refusals), sum(map(bool, refusals))))


if __name__ == "__main__":
    main()
