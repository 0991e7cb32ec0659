#!/usr/bin/env python3
"""The table of marked cases, crates/timing/proofs/Marked.antt, with every result from walker.py.

python3 tests/marked_table.py           writes the file (then: rt fmt in crates/timing)
python3 tests/marked_table.py --check   says whether the file is what it would write, up to layout

The rows are facts about the definitions of crates/timing/specs, which the proof computes. So a row that the walker and
the definitions do not agree on makes the crate's check fail.
"""
import pathlib
import sys

import walker as w
from decks import A_BACK_EDGES, A_EDGES, HOLD_EDGES, design_of, pack, room_of

FILE = pathlib.Path(__file__).resolve().parent.parent / "crates" / "timing" / "proofs" / "Marked.antt"
WIDTH = 120


def design(nodes, *edges, marked=()):
    return design_of(nodes, edges, marked)


def listed(*paths):
    return w.PathList([len(p) for p in paths], [k for p in paths for k in p])


A = design(5, *A_EDGES)
NO_NODES = design(0)
ONE_NODE = design(1)
CHAIN = design(3, (0, 1, 1), (1, 2, 1))
M8 = design(6, (0, 2, 1), (1, 2, 1), (2, 3, 1), (3, 4, 1), (4, 5, 1), (3, 5, 1))
M9 = design(2, (0, 1, -4))
PARALLEL = design(4, (0, 1, 1), (0, 1, 2), (1, 2, 1), (1, 2, 2), (2, 3, 1), (2, 3, 2))
TWO_LENGTHS = design(5, (0, 2, 1), (1, 2, 1), (2, 3, 1), (3, 4, 1), (2, 4, 1))
ISOLATED = design(3, (0, 2, 1))
FORKED = design(4, (0, 1, 0), (1, 2, 0), (1, 3, 0))
FALLING = design(2, (1, 0, 0))
FALLING_AND_UNKNOWN = design(2, (1, 0, 0), (0, 2, 0))
JOINED = design(5, (0, 3, 2, 9), (1, 3, 1, 3), (2, 3, -5, 6), (3, 4, 1, 2))
HOLD = design(5, *HOLD_EDGES)
EARLY_ABOVE = design(2, (0, 1, 5, 4))
EARLY_ABOVE_BELOW_ZERO = design(2, (0, 1, -5, -4), (0, 1, -4, -5))
EARLY_ABOVE_AND_FAR = design(2, (0, 1, 5, 4), (0, 1, 0, 1_000_001))
EARLY_ABOVE_AND_FALLING = design(2, (0, 1, 5, 4), (1, 0, 0))
LIST_A = listed((1, 2))
NONE = listed()
M8_LIST = listed((0, 2, 3), (1, 2, 3, 4))
HOLD_LIST = listed((2, 3))
SPLIT_SOURCE = w.Graph([0, 0, 1, 1, 2, 3], [0, 0, 0, 0, 1, 1], [0, 1, 2, 3], [2, 3, 4, 5], [0, 0, 1, 2])
OUT_OF_ORDER = w.Graph([0, 0, 1, 1, 2, 3], [0, 0, 0, 0, 1, 1], [1, 0, 2, 3], [3, 2, 4, 5], [0, 0, 1, 2])
AMPLE = w.PROGRAM_ROOM
GRAPH_A = w.run_series(A, [w.Call(LIST_A, AMPLE, 16384)])[1]
OBSERVED = design(5, *A_EDGES, marked=[2])
OBSERVED_BACK = design(5, *A_BACK_EDGES, marked=[2])
QUICK = design(3, (0, 1, -9, 8), (1, 2, -3, -3))
BACK = OBSERVED_BACK._replace(marked=[])
BACK_GRAPH = w.run_series(BACK, [w.Call(listed((2,)), AMPLE, 16384)])[1]
OBSERVED_GRAPH = w.run_series(OBSERVED, [w.Call(LIST_A, AMPLE, 16384)])[1]
OBSERVED_ALONE = w.run_series(OBSERVED, [w.Call(listed((2,), (3,)), AMPLE, 16384)])[1]
OBSERVED_SOURCE = CHAIN._replace(marked=[0])
MANY_EMPTY = w.PathList([0] * 1025, [])

# What has a name in the table: the name, what it is, and the comment there.
NAMES = [
    ("deck_a", A, "Deck A: its design, its list, its true graph and its bytes with T 10."),
    ("list_a", LIST_A, None),
    ("graph_a", GRAPH_A, None),
    ("bytes_a", w.write_deck(w.Deck(A, LIST_A, 10), 65536), None),
    ("no_paths", NONE, "The other designs, lists and graphs that rows are about."),
    ("no_nodes", NO_NODES, None),
    ("one_node", ONE_NODE, None),
    ("chain", CHAIN, None),
    ("design_m8", M8, None),
    ("list_m8", M8_LIST, None),
    ("design_m9", M9, None),
    ("parallel", PARALLEL, "two edges for each step of a chain"),
    ("two_lengths", TWO_LENGTHS, "two ways from node 2 to node 4, by one edge and by two"),
    ("isolated", ISOLATED, "node 1 has no edge"),
    ("forked", FORKED, None),
    ("split_source", SPLIT_SOURCE, "of it: two copies of the source; and the same with its first two edges exchanged"),
    ("out_of_order", OUT_OF_ORDER, None),
    ("falling", FALLING, "edge 0 falls; and with it an edge to a node that is not there"),
    ("falling_and_unknown", FALLING_AND_UNKNOWN, None),
    ("joined", JOINED, "into node 3 the latest edge, the one of the smallest late delay, and the earliest"),
    ("hold", HOLD, "decks/hold.txt"),
    ("list_hold", HOLD_LIST, None),
    ("early_above", EARLY_ABOVE, "15 at edge 0; at edge 1, with delays below 0; at edge 0, with 14 and with 13 at edge 1"),
    ("early_above_below_zero", EARLY_ABOVE_BELOW_ZERO, None),
    ("early_above_and_far", EARLY_ABOVE_AND_FAR, None),
    ("early_above_and_falling", EARLY_ABOVE_AND_FALLING, None),
    ("ample", AMPLE, "the deck program's room"),
    ("observed", OBSERVED, "deck A with node 2 marked, and its true graph; with edge 3's delays -1; and without the edges out of node 2"),
    ("observed_graph", OBSERVED_GRAPH, None),
    ("observed_back", OBSERVED_BACK, None),
    ("observed_alone", OBSERVED_ALONE, None),
    ("observed_source", OBSERVED_SOURCE, "chain with its source marked"),
    ("back", BACK, "observed_back with nothing marked, and its true graph without edge 2"),
    ("back_graph", BACK_GRAPH, None),
    ("quick", QUICK, "an early delay far below the late one"),
]


def observed_but(**changed):
    """The true graph of deck A with node 2 marked, with some of its parts changed; the same nodes and edges as without the marked node."""
    return OBSERVED_GRAPH._replace(**changed)


def refused_with(design, marked):
    return ("removal", design._replace(marked=marked), NONE, AMPLE, 999)


def again(graph):
    return ("again", OBSERVED, graph, NONE, AMPLE, 999)


# One row: its comment, and the facts of it. "graph": the graph after removing each list in turn, in ample room;
# "times" and "nodes": the times of its copies and the records of the nodes.
ROWS = [
    ("M1: deck A", [("graph", A, [LIST_A]), ("times", A, 10, [LIST_A]), ("nodes", A, 10, [LIST_A]),
                    ("deck", A, LIST_A, 10), ("c", A, LIST_A, 10, 64), ("c room", A, LIST_A, 10, 64)]),
    ("M2: no nodes", [("graph", NO_NODES, [NONE])]),
    ("M3: one node, no edges", [("graph", ONE_NODE, [NONE]), ("times", ONE_NODE, 7, [NONE])]),
    ("M4: A with only path 2; a graph handed back uncut does not meet it",
     [("graph", A, [listed((2,))]), ("nodes", A, 10, [listed((2,))])]),
    ("M5: A with 0,2 and 1,2: the graph of M4", [("graph", A, [listed((0, 2), (1, 2))])]),
    ("M6: A with 1,2 and 0,3; then by parts, which differs by a renumbering of node 2",
     [("graph", A, [listed((1, 2), (0, 3))]), ("graph", A, [LIST_A, listed((0, 3))])]),
    ("M7: a list that removes everything", [("graph", CHAIN, [listed((0, 1))])]),
    ("M8: following only the long tail leaves edge 0 in a false path",
     [("graph", M8, [M8_LIST]), ("nodes", M8, 10, [M8_LIST])]),
    ("M9: an arrival below 0; a largest arrival that starts from 0 does not meet it", [("times", M9, 10, [NONE])]),
    ("M10: packed numbers", [("packed", 127), ("packed", 128), ("read", b"\x80\x00"), ("packed", 4294967295),
                             ("read", b"\xff\xff\xff\xff\x10"), ("read", b"\x80")]),
    ("Inner tails, with parallel edges: shuts out only the longest tail of each path",
     [("graph", PARALLEL, [listed((0, 2, 4))])]),
    ("Marks by length before edges: mark 4 comes before mark 2,3 at node 2; shuts out the dictionary order alone",
     [("graph", TWO_LENGTHS, [listed((0, 4), (0, 2, 3))])]),
    ("Parallel edges are two paths: shuts out paths as lists of nodes", [("graph", PARALLEL, [listed((1,), (3,))])]),
    ("An isolated node keeps its copy: shuts out copies by edges alone", [("graph", ISOLATED, [listed((0,))])]),
    ("A listed path inside another, and one listed twice: shuts out a mark by the first path that fits",
     [("graph", M8, [listed((0, 2, 3), (2, 3), (0, 2, 3))])]),
    ("Scratch: 8 words for 6 candidates, 2 listed edges and 4 edges, and one word less",
     [("removal", A, LIST_A, AMPLE, 96), ("removal", A, LIST_A, AMPLE, 95)]),
    ("Scratch for an earlier graph: 8 words for 8 candidates (2 copies of node 2), 2 listed edges and 5 edges, and one word less",
     [("again", A, GRAPH_A, listed((0, 3)), AMPLE, 120), ("again", A, GRAPH_A, listed((0, 3)), AMPLE, 119)]),
    ("Scratch: 8 words for a node, and one word less; none for no nodes",
     [("removal", ONE_NODE, NONE, AMPLE, 8), ("removal", ONE_NODE, NONE, AMPLE, 7), ("removal", NO_NODES, NONE, AMPLE, 0)]),
    ("Room: 5 copies on A; 4 edges on A; rooms that differ in length come before a bad edge",
     [("removal", A, LIST_A, room_of(5, 9), 96), ("removal", A, LIST_A, room_of(6, 4), 96),
      ("removal", FALLING, NONE, w.Room(6, 6, 4, 3, 4), 96)]),
    ("One number over everything before the next: 12 at edge 1 before 13 at edge 0; 23 at path 1 before 24 at path 0",
     [("removal", FALLING_AND_UNKNOWN, NONE, AMPLE, 96),
      ("removal", A, listed((2, 1), (9,)), AMPLE, 999), ("removal", A, listed((0, 2), (2, 1)), AMPLE, 999)]),
    ("Which edge of the path: 02's example, as the deck program has it; the C call's place is the path, 2, and not the index, 1",
     [("deck", A, listed((2, 1)), 10), ("c", A, listed((0, 2), (1, 3), (2, 1)), 10, 64)]),
    ("23: the first edge is unknown; the last; two are, in one path and then in two; one behind a break",
     [("removal", A, listed((4, 2)), AMPLE, 999), ("removal", A, listed((1,), (0, 2, 4)), AMPLE, 999),
      ("removal", A, listed((1, 4, 9)), AMPLE, 999), ("removal", A, listed((0, 4), (4,)), AMPLE, 999),
      ("removal", A, listed((2, 1, 9)), AMPLE, 999)]),
    ("24: a break at index 1; at the last index; two breaks, in one path and then in two",
     [("removal", M8, listed((1, 3, 4)), AMPLE, 999), ("removal", M8, listed((0, 2), (0, 2, 3, 2)), AMPLE, 999),
      ("removal", M8, listed((0, 2, 0, 1)), AMPLE, 999), ("removal", M8, listed((2, 3, 5), (1, 0)), AMPLE, 999)]),
    ("22: an empty path behind a broken one, and behind one that names an unknown edge",
     [("removal", A, listed((2, 1), ()), AMPLE, 999), ("removal", A, listed((2, 9), (), ()), AMPLE, 999)]),
    ("Earliest arrivals: that of node 3 is not on the latest path, not of the smallest late delay, and below 0",
     [("times", JOINED, 10, [NONE])]),
    ("The path with the earliest arrival is false; then a node whose second copy is the earlier one",
     [("times", HOLD, 150, [HOLD_LIST]), ("nodes", HOLD, 150, [HOLD_LIST]), ("nodes", HOLD, 150, [listed((2, 3), (1, 4))])]),
    ("In the deck early first: read the other way, edge 0 gives 15", [("deck", JOINED, NONE, 10)]),
    ("30: early delays of another length, and late ones; the edge falls, too",
     [("removal", FALLING._replace(early=[]), NONE, AMPLE, 96), ("removal", FALLING._replace(late=[]), NONE, AMPLE, 96)]),
    ("30: slices of the deck reader, of times and of records that have one place less or more, the last of each and another",
     [("reader", A, LIST_A, 10, (4, 4, 4, 4, 2, 1, 0)), ("reader", A, LIST_A, 10, (4, 4, 4, 5, 2, 1, 0)),
      ("reader", A, LIST_A, 10, (4, 4, 3, 4, 2, 1, 0)),
      ("times tests", A, GRAPH_A, 10, (6, 6, 6, 6)), ("times tests", A, GRAPH_A, 10, (6, 6, 6, 5)), ("times tests", A, GRAPH_A, 10, (6, 7, 6, 6)),
      ("records tests", 5, GRAPH_A, (6, 6, 6, 6), (5, 5, 5, 5, 5)), ("records tests", 5, GRAPH_A, (6, 6, 6, 5), (5, 5, 5, 5, 5)),
      ("records tests", 5, GRAPH_A, (6, 6, 6, 6), (5, 5, 5, 5, 6)), ("records tests", 5, GRAPH_A, (6, 6, 6, 6), (4, 5, 5, 5, 5))]),
    ("14: by the early delay alone, and by the late one",
     [("removal", design(2, (0, 1, -1_000_001, 0)), NONE, AMPLE, 96), ("removal", design(2, (0, 1, 0, 1_000_001)), NONE, AMPLE, 96)]),
    ("15: with delays above 0 and below, and not where they are equal; 14 and 13 at a later edge come before it",
     [("removal", EARLY_ABOVE, NONE, AMPLE, 96), ("removal", EARLY_ABOVE_BELOW_ZERO, NONE, AMPLE, 96),
      ("removal", design(2, (0, 1, 5, 5)), NONE, AMPLE, 96), ("removal", EARLY_ABOVE_AND_FAR, NONE, AMPLE, 96),
      ("removal", EARLY_ABOVE_AND_FALLING, NONE, AMPLE, 96)]),
    ("An earlier graph that is not the design: two copies of a source, which removal keeps apart",
     [("again", FORKED, SPLIT_SOURCE, listed((0, 1)), AMPLE, 999)]),
    ("An earlier graph that is not well formed: two edges out of order",
     [("again", FORKED, OUT_OF_ORDER, listed((0, 1)), AMPLE, 999)]),
    # 02, request 6
    ("Deck A with node 2 marked: paths end at copy 2 too, and nothing else changes; shuts out marked nodes ignored, or never passed, and 1 at copy 3",
     [("graph", OBSERVED, [LIST_A]), ("deck", OBSERVED, LIST_A, 10), ("c room", OBSERVED, LIST_A, 10, 64)]),
    ("Required at copy 2 is 9, from further on, and not T alone; with edge 3's delays -1 it is 10, by T, where further on alone gives 11",
     [("times", OBSERVED, 10, [LIST_A]), ("times", OBSERVED_BACK, 10, [LIST_A]), ("nodes", OBSERVED_BACK, 10, [LIST_A])]),
    ("A marked source: the path without edges is there beside the one that goes on, and when that is false",
     [("graph", OBSERVED_SOURCE, [NONE]), ("graph", OBSERVED_SOURCE, [listed((0, 1))]), ("times", OBSERVED_SOURCE, 10, [listed((0, 1))])]),
    ("An isolated node marked; a sink marked; all nodes marked",
     [("graph", ISOLATED._replace(marked=[1]), [listed((0,))]), ("graph", A._replace(marked=[3]), [LIST_A]),
      ("graph", A._replace(marked=[0, 1, 2, 3, 4]), [LIST_A])]),
    ("A listed path that ends at a marked node; that starts at one; two that pass one, so that its first copy has 1 and no edge out of it",
     [("graph", OBSERVED, [listed((0,))]), ("graph", OBSERVED, [listed((2,))]), ("graph", OBSERVED, [listed((0, 2), (0, 3))])]),
    ("All paths but those that end at a marked node removed: its copy stays, with 1 and no edge out, and is well formed; then removed by parts",
     [("graph", OBSERVED, [listed((2,), (3,))]), again(OBSERVED_ALONE), ("graph", OBSERVED, [listed((2,), (3,)), listed((0,))]),
      ("times", OBSERVED, 10, [listed((2,), (3,))])]),
    ("16: not below n, at index 0 and at 1; not rising; equal; the first of two",
     [refused_with(A, [5]), refused_with(A, [1, 5]), refused_with(A, [3, 2]), refused_with(A, [2, 2]), refused_with(A, [0, 3, 3, 9])]),
    ("16 after 15; before 20 and before 24",
     [refused_with(EARLY_ABOVE, [2]), ("removal", A._replace(marked=[2, 2]), MANY_EMPTY, AMPLE, 999),
      ("removal", A._replace(marked=[2, 2]), listed((2, 1)), AMPLE, 999)]),
    ("16 of the deck's reader: more marked nodes than n, with place n, before 36; 36 at one more than the table has; which nodes is not judged",
     [("bytes", pack([5, 0, 0, 6]), (0, 0, 0, 0, 0, 0, 9)), ("bytes", pack([5, 0, 0, 6]), (0, 0, 0, 0, 0, 0, 2)),
      ("bytes", pack([5, 0, 0, 3]), (0, 0, 0, 0, 0, 0, 2)), ("bytes", pack([5, 0, 0, 2, 9, 9, 10]), (0, 0, 0, 0, 0, 0, 2)),
      ("program", pack([2000, 0, 0, 1025])), ("program", pack([2000, 0, 0, 2001])), ("program", pack([5, 0, 0, 2, 9, 9, 10]))]),
    ("16 of the deck's writer: more marked nodes than n, with place n, after 20; which nodes is not judged; in the deck they stand before T",
     [("deck tests", design(2, marked=[0, 1, 1]), NONE, 10), ("deck tests", design(0, marked=[0]), MANY_EMPTY, 10),
      ("deck tests", design(2, marked=[9, 9]), NONE, 10), ("packed deck", OBSERVED, LIST_A, 10)]),
    ("32: copy 3 has 2; copy 0, of no sink and no marked node, has 1; copies 2 and 3, both of node 2, have 1; sink copy 4 has 0",
     [again(observed_but(endpoints=[0, 0, 1, 2, 1, 1])), again(observed_but(endpoints=[1, 0, 1, 0, 1, 1])),
      again(observed_but(endpoints=[0, 0, 1, 1, 1, 1])), again(observed_but(endpoints=[0, 0, 1, 0, 0, 1]))]),
    ("32: copy 3 has no edge in; copy 3 has 0 and no edge out; and well formed where paths end at copy 3 and not at copy 2",
     [again(observed_but(starts=[0, 1, 3, 2], ends=[2, 2, 4, 5], design_edges=[0, 1, 2, 3])),
      again(w.Graph([0, 1, 2, 2, 4], [0, 0, 1, 0, 1], [0, 1, 0, 2], [2, 2, 3, 4], [0, 1, 0, 3])),
      again(observed_but(endpoints=[0, 0, 0, 1, 1, 1]))]),
    ("32 of the graph's reader: an endpoint number above 1, as soon as it is met; node first; then 32 of the writer, after 30",
     [("graph bytes", pack([1, 0, 2, 0]), room_of(1, 0)), ("graph bytes", pack([1, 0, 2]) + b"\x80\x00", room_of(1, 0)),
      ("graph bytes", pack([2, 7, 1, 9, 0, 0]), room_of(2, 0)), ("graph tests", w.Graph([7, 9], [1, 2], [], [], [])),
      ("graph tests", w.Graph([7, 9], [1, 1], [], [], [])), ("graph tests", w.Graph([7, 9], [1, 2], [5], [], []))]),
    ("30: as many endpoint numbers as nodes, in the room, in the earlier graph, in times, in the graph's reader and in its writer",
     [("removal", OBSERVED, LIST_A, w.Room(6, 7, 5, 5, 5), 999), again(observed_but(endpoints=[0, 0, 1, 0, 1])),
      ("times tests", OBSERVED, observed_but(endpoints=[0, 0, 1, 0, 1, 1, 1]), 10, (6, 6, 6, 6)),
      ("graph bytes", pack([1, 0, 2, 0]), w.Room(1, 2, 0, 0, 0)), ("graph tests", w.Graph([7, 9], [2], [], [], []))]),
    # 02, request 8
    ("Told of deck A; with path 2 alone, which shuts out candidates for copies; of a list that removes everything; of no nodes",
     [("size", A, LIST_A, 96), ("size", A, listed((2,)), 999), ("size", CHAIN, listed((0, 1)), 999), ("size", NO_NODES, NONE, 0)]),
    ("Told of an earlier graph: of deck A's, by which M6 has one edge less; of one with two copies of a source; of one that ends at a marked node",
     [("size again", A, GRAPH_A, listed((0, 3)), 120), ("size again", FORKED, SPLIT_SOURCE, listed((0, 1)), 999),
      ("size again", OBSERVED, OBSERVED_ALONE, NONE, 999)]),
    ("Telling asks removal's scratch: one word less, of the design and of an earlier graph",
     [("size", A, LIST_A, 95), ("size again", A, GRAPH_A, listed((0, 3)), 119)]),
    ("Telling is lent no room, but 30 measures the rest: early delays, lengths of paths, endpoint numbers; 13 before 24, 24 before 32, 32 before 31",
     [("size", FALLING._replace(early=[]), NONE, 96), ("size", A, w.PathList([1], [1, 2]), 999),
      ("size again", OBSERVED, observed_but(endpoints=[0, 0, 1, 0, 1]), NONE, 999), ("size", FALLING, listed((0, 0)), 96),
      ("size again", FORKED, OUT_OF_ORDER, listed((1, 0)), 0), ("size again", FORKED, OUT_OF_ORDER, listed((0, 1)), 0)]),
    # 02, request 10
    ("Deck A: nothing late with T 10, nor with T 6, an arrival of just T; late at its last copy with T 5; at copy 4, and copy 5 is unchanged, with T 4",
     [("late", A, GRAPH_A, t, 6) for t in (10, 6, 5, 4)]),
    ("Late at copy 2, of a marked node with edges out, before copies 4 and 5; where no path ends at it, an arrival above T there is not late; late where one does",
     [("late", OBSERVED, OBSERVED_GRAPH, 4, 6), ("late", BACK, BACK_GRAPH, 4, 4),
      ("late", OBSERVED_BACK, BACK_GRAPH._replace(endpoints=[0, 0, 1, 1]), 4, 4)]),
    ("T 0: an arrival below 0; one of just 0, at a source where paths end; no copies",
     [("late", d, w.design_as_graph(d), 0, d.nodes) for d in (M9, ONE_NODE, NO_NODES)]),
    ("By late delays: late with T 4, and on time with T 5; by early ones both would be on time",
     [("late", QUICK, w.design_as_graph(QUICK), t, 3) for t in (4, 5)]),
    ("Late or not is refused as times are, and then no place changes: 30 for a place more and for one less, before 13; 13 before 25; 25 before 32; 32",
     [("late", A, GRAPH_A, 10, 7), ("late", A, GRAPH_A, 10, 5), ("late", FALLING, GRAPH_A, 10, 7), ("late", FALLING, GRAPH_A, 1_000_000_001, 6), ("late", FORKED, OUT_OF_ORDER, 1_000_000_001, 6),
      ("late", FORKED, OUT_OF_ORDER, 0, 6)]),
    # 02, request 12
    ("M6's paths in the other order, and one of them three times: the graph of M6; M8's paths in the other order, one of them twice: the graph of M8",
     [("graph", A, [listed((0, 3), (1, 2))]), ("graph", A, [listed((1, 2), (0, 3), (1, 2), (1, 2))]),
      ("graph", M8, [listed((1, 2, 3, 4), (0, 2, 3), (0, 2, 3))])]),
    ("From an earlier graph: 0,3 and 2 in either order, with a repeat",
     [("graph", A, [LIST_A, listed((0, 3), (2,))]), ("graph", A, [LIST_A, listed((2,), (0, 3), (2,))])]),
    ("Repeats count for 31: M6 with just the words that it asks, and with 1,2 twice it asks 24 more",
     [("removal", A, listed((1, 2), (0, 3)), AMPLE, 120), ("removal", A, listed((1, 2), (0, 3), (1, 2)), AMPLE, 120),
      ("removal", A, listed((1, 2), (0, 3), (1, 2)), AMPLE, 144)]),
    ("Lists longer than deck A's, against M1: an earliest arrival rises; a required time and a slack rise, and node 3 has none; arrivals fall, and node 1 has none",
     [("nodes", A, 10, [listed((1, 2), (0, 3))]), ("nodes", A, 10, [listed((1, 2), (2,))]), ("nodes", A, 10, [listed((1, 2), (1,))])]),
]


# Text of the table. What stands behind a function's name is an argument: in brackets unless it is a name or a number.
def argument(text):
    return "(%s)" % text if " " in text else text


def applied(function, *arguments):
    return " ".join((function,) + tuple(map(argument, arguments)))


def items(texts, end="[]"):
    return "".join("%s ∷ " % t for t in texts) + end


def numbers(xs, end="[]"):
    return items(map(str, xs), end)


def integer(z):
    return "pos %d" % z if z >= 0 else "negsuc %d" % (-z - 1)


def written_out(x):
    """What the walker's x is in the table, where it has no name."""
    if isinstance(x, w.Design) and x.marked and x._replace(marked=A.marked) == A:
        return applied("marking", numbers(x.marked))
    if isinstance(x, w.Graph) and x.endpoints != GRAPH_A.endpoints and x._replace(endpoints=GRAPH_A.endpoints) == GRAPH_A:
        return applied("ending", numbers(x.endpoints))
    if isinstance(x, w.Design):
        delays = (items(map(integer, part)) for part in (x.early, x.late))
        return applied("design", str(x.nodes), numbers(x.starts), numbers(x.ends), *delays, numbers(x.marked))
    if isinstance(x, w.PathList):
        many_empty = len(x.lengths) > 100 and not any(x.lengths)
        return applied("path_list", numbers(x.flat), "zeros %d" % len(x.lengths) if many_empty else numbers(x.lengths))
    if isinstance(x, w.Graph):
        edges = items("edge %d %d %d" % e for e in zip(x.starts, x.ends, x.design_edges))
        return applied("graph", numbers(x.copy_nodes), numbers(x.endpoints), edges)
    if isinstance(x, w.Room):
        return applied("room", *map(str, x))
    if isinstance(x, bytes):
        return numbers(x)
    if x is None:
        return "None"
    assert isinstance(x, w.Times)
    return applied("SomeTimes", *map(integer, x))


def named(x):
    for name, is_x, _ in NAMES:
        if type(is_x) is type(x) and is_x == x:
            return name
    return written_out(x)


def removal_text(l, room, words):
    return applied("removal", named(l), named(room), str(words))


def refusal_text(refusal):
    """One place, or two."""
    return applied("refusal" if len(refusal) == 2 else "refusal_within", *map(str, refusal))


def outcome_text(call):
    try:
        return applied("made", named(call()))
    except w.Refused as r:
        return applied("refused", refusal_text(r.refusal))


def counts_text(call):
    try:
        return applied("Counts", *map(str, call()))
    except w.Refused as r:
        return applied("Err", refusal_text(r.refusal))


def lateness_text(call):
    try:
        copy = call()[0]
        return "OnTime" if copy is None else applied("Late", str(copy))
    except w.Refused as r:
        return applied("Err", refusal_text(r.refusal))


def arrivals_after(call, length):
    """What the slice holds afterwards that was lent with 77 everywhere."""
    try:
        written = call()[1]
    except w.Refused:
        written = []
    return written + [77] * (length - len(written))


def after(d, lists):
    refusals, held = w.run_series(d, [w.Call(l, AMPLE, 16384) for l in lists])
    assert refusals == [None] * len(lists)
    return held


def deck_bytes(d, l, t):
    return w.write_deck(w.Deck(d, l, t), 65536)


def read_text(data):
    try:
        return "Value %d %d" % w.read_number(data, 0)
    except w.Refused as r:
        return applied("Err", refusal_text(r.refusal))


def verdict_text(call):
    refusal = w.refusal_of(call)
    return "Passed" if refusal is None else applied("Err", refusal_text(refusal))


def fact(kind, *given):
    """The words of a fact: its constructor, and then its arguments."""
    if kind == "graph":
        d, lists = given
        return "graph_is", named(d), items(map(named, lists)), named(after(d, lists))
    if kind in ("times", "nodes"):
        d, t, lists = given
        held = after(d, lists)
        rows = w.copy_times(d, held, t)
        if kind == "nodes":
            columns = [[x[i] for x in rows] for i in range(4)]
            rows = [w.node_record(d.nodes, held.copy_nodes, *columns, v) for v in range(d.nodes + 1)]
        return kind + "_are", named(d), str(t), items(map(named, lists)), items(map(named, rows))
    if kind in ("deck", "program"):
        data = deck_bytes(*given) if kind == "deck" else given[0]
        return "program_is", named(data), outcome_text(lambda: w.deck_and_graph(data)[1])
    if kind in ("c", "c room"):
        data, room = deck_bytes(*given[:3]), given[3]
        number, result = w.c_call(data, room)
        if kind == "c":
            return "c_call_is", named(data), str(room), integer(number)
        return "c_room_is", named(data), str(room), numbers(result, "zeros %d" % (room - len(result)))
    if kind == "packed":
        return "packed_is", str(given[0]), numbers(w.write_number(given[0]))
    if kind == "read":
        return "read_is", named(given[0]), read_text(given[0])
    if kind == "removal":
        d, l, room, words = given
        outcome = outcome_text(lambda: w.removal(d, l, None, words, room))
        return "removal_is", named(d), removal_text(l, room, words), outcome
    if kind == "again":
        d, g, l, room, words = given
        outcome = outcome_text(lambda: w.removal(d, l, g, words, room))
        return "again_is", named(d), named(g), removal_text(l, room, words), outcome
    if kind == "size":
        d, l, words = given
        return "size_is", named(d), named(l), str(words), counts_text(lambda: w.size(d, l, None, words))
    if kind == "size again":
        d, g, l, words = given
        return "size_again_is", named(d), named(g), named(l), str(words), counts_text(lambda: w.size(d, l, g, words))
    if kind == "late":
        d, g, t, length = given
        call = lambda: w.late(d, g, t, length)
        return "late_is", named(d), named(g), str(t), str(length), lateness_text(call), items(map(integer, arrivals_after(call, length)))
    if kind in ("reader", "bytes"):
        data, lent = (deck_bytes(*given[:3]), given[3]) if kind == "reader" else given
        return "reader_answers", named(data), numbers(lent), verdict_text(lambda: w.read_deck(data, w.Tables(*lent)))
    if kind == "deck tests":
        d, l, t = given
        return "deck_writer_answers", named(d), named(l), str(t), verdict_text(lambda: w.write_deck(w.Deck(d, l, t), 65536))
    if kind == "packed deck":
        d, l, t = given
        return "packed_deck_is", named(d), named(l), str(t), numbers(deck_bytes(d, l, t))
    if kind == "graph bytes":
        data, room = given
        return "graph_read_is", named(data), named(room), outcome_text(lambda: w.read_graph(data, room))
    if kind == "graph tests":
        g = given[0]
        return "graph_writer_answers", applied("graph_slices", *map(numbers, g)), verdict_text(lambda: w.write_graph(g, 65536))
    if kind == "times tests":
        d, g, t, lent = given
        return "times_answer", named(d), named(g), str(t), numbers(lent), verdict_text(lambda: w.times(d, g, t, lent))
    if kind == "records tests":
        n, g, lent, places = given
        columns = [[0] * length for length in lent]
        verdict = verdict_text(lambda: w.node_records(n, g.copy_nodes, *columns, places))
        return "records_answer", str(n), named(g), numbers(lent), numbers(places), verdict
    raise ValueError(kind)


def lines_of(text, indent, between):
    """A text in lines that fit, broken behind the separator `between`."""
    lines, line = [], indent
    for piece in text.replace(between, between + "\0").split("\0"):
        if len((line + piece).rstrip()) > WIDTH:
            lines.append(line.rstrip())
            line = indent
        line += piece
    return lines + [line]


def row(start, words):
    """A fact of the table: what is found stands in lines of its own where one line would be too long."""
    whole = start + applied(*words)
    if len(whole) <= WIDTH:
        return [whole]
    asked, found = start.lstrip() + applied(*words[:-1]), argument(words[-1])
    return lines_of(asked, " " * 4, " ∷ ") + lines_of(found, " " * 4, " ∷ ")


HEADER = """-- The marked cases of document 01, M1 to M10, and rows that shut out wrong definitions which M1 to M10 would let
-- through: one table and one claim, shown by computing the definitions. Made by tests/marked_table.py: every result
-- is the walker's. "Deck A and the marked cases take early equal to late" (02, request 1). *Marked* cases are document 01's word; marked nodes
-- are those of 02, request 6.
use Prim.Native.Nat.{ℕ, suc}
use mathlib.Core.Path.{◌≡◌, refl}
use mathlib.Core.List.{List, [], ◌∷◌, map, flat_map}
use Rattle.std.specs.Prelude.{Option, Result, Err, None}
use Rattle.timing.specs.Answers.{Verdict, Passed, Counts, SomeTimes, Late, OnTime}
use Rattle.timing.specs.declared.Taken.{Taken}
use Rattle.timing.specs.declared.GraphCounts.{GraphCounts}
use Rattle.timing.specs.declared.Times.{Times}
use Rattle.timing.specs.declared.Refusal.{Refusal}
use lib.IntN.{ℤ, pos, negsuc}
use lib.ListN.{length, get_or}
use Rattle.timing.specs.Lists.{upto}
use Rattle.timing.specs.Graphs.{Design, design, edge, Graph, graph, design_graph, edges_in, edges_out}
use Rattle.timing.specs.Graphs.{runs_to, runs_from, complete_runs}
use Rattle.timing.specs.Marks.{PathList, path_list, paths_of, permitted, tails, mark}
use Rattle.timing.specs.TrueGraphs.{permitted_runs, copies, path_ends, joins, true_graph}
use Rattle.timing.specs.WellFormed.{well_formed}
use Rattle.timing.specs.Times.{arrival_at, required_at, slack_at, earliest_at, late_copies, node_times}
use Rattle.timing.specs.Numbers.{packed_in, packed, groups_in, read_number, write_answer, written_room}
use Rattle.timing.specs.Decks.{Deck, deck_numbers, packed_deck, read_deck}
use Rattle.timing.specs.GraphBytes.{graph_numbers, packed_graph, read_graph}
use Rattle.timing.specs.Refusals.{refusal, refusal_within}
use Rattle.timing.specs.Tests.{Room, design_tests, list_tests, candidates, scratch_test, room_tests}
use Rattle.timing.specs.Calls.{GraphSlices, graph_slices, slices_of, Outcome, made, refused, Removal, removal, test_deck}
use Rattle.timing.specs.Calls.{test_times, arrivals_after, requireds_after, slacks_after, earliests_after, test_late, late_or_not, arrivals_after_late, test_records, deck_read}
use Rattle.timing.specs.Calls.{remove_from_design, remove_from_graph, program_removal, program, c_call, c_room}
use Rattle.timing.specs.Calls.{deck_write_tests, graph_write_tests, graph_read, size_from_design, size_from_graph, graph_answer}

-- the graph after some lists are removed in turn
abbrev pub removed : Graph → List PathList → Graph
removed G [] = G
removed G (L ∷ Ls) = removed (true_graph G (paths_of L)) Ls

pub data Fact : Type 0 where
  graph_is : Design → List PathList → Graph → Fact
  times_are : Design → ℕ → List PathList → List (Option Times) → Fact
  nodes_are : Design → ℕ → List PathList → List (Option Times) → Fact
  removal_is : Design → Removal → Outcome Graph → Fact
  again_is : Design → Graph → Removal → Outcome Graph → Fact
  program_is : List ℕ → Outcome Graph → Fact
  c_call_is : List ℕ → ℕ → ℤ → Fact
  c_room_is : List ℕ → ℕ → List ℕ → Fact
  packed_is : ℕ → List ℕ → Fact
  read_is : List ℕ → Result Taken Refusal → Fact
  reader_answers : List ℕ → List ℕ → Verdict → Fact
  times_answer : Design → Graph → ℕ → List ℕ → Verdict → Fact
  records_answer : ℕ → Graph → List ℕ → List ℕ → Verdict → Fact
  packed_deck_is : Design → PathList → ℕ → List ℕ → Fact
  deck_writer_answers : Design → PathList → ℕ → Verdict → Fact
  graph_read_is : List ℕ → Room → Outcome Graph → Fact
  graph_writer_answers : GraphSlices → Verdict → Fact
  size_is : Design → PathList → ℕ → Result GraphCounts Refusal → Fact
  size_again_is : Design → Graph → PathList → ℕ → Result GraphCounts Refusal → Fact
  late_is : Design → Graph → ℕ → ℕ → Result (Option ℕ) Refusal → List ℤ → Fact

abbrev pub zeros : ℕ → List ℕ
zeros n = map (λ i. 0) (upto n 0)

abbrev pub room : ℕ → ℕ → ℕ → ℕ → ℕ → Room
room nodes endpoint from to via =
    record { nodes = nodes; endpoints = endpoint; starts = from; ends = to; names = via }

abbrev deck : Design → PathList → ℕ → Deck
deck D L T = record { design = D; list = L; allowed = T }

-- f of the four slices that `times` fills for the copies of R
abbrev of_times : {A : Type 0} → Design → ℕ → Graph → (List ℤ → List ℤ → List ℤ → List ℤ → A) → A
of_times D T R f =
    let S = slices_of R in
    f (arrivals_after D S T Passed []) (requireds_after D S T Passed []) (slacks_after D S T Passed [])
    (earliests_after D S Passed [])

abbrev copy_times : List ℤ → List ℤ → List ℤ → List ℤ → ℕ → Option Times
copy_times arrivals requireds slacks earliests c =
    let at : List ℤ → ℤ = λ ts. get_or ts c (pos 0) in
    SomeTimes (at arrivals) (at requireds) (at slacks) (at earliests)

-- the k-th of some lent lengths, and a slice of times of that length
abbrev lent : List ℕ → ℕ → ℕ
lent ls k = get_or ls k 0

abbrev slice : List ℕ → ℕ → List ℤ
slice ls k = map (λ i. pos 0) (upto (lent ls k) 0)

abbrev verdict_in : Outcome Deck → Verdict
verdict_in (made d) = Passed
verdict_in (refused r) = Err r

abbrev pub Holds : Fact → Type 0
Holds (graph_is D Ls R) = removed (design_graph D) Ls ≡ R
Holds (times_are D T Ls ts) =
    let R : Graph = removed (design_graph D) Ls in
    map (of_times D T R copy_times) (upto (length R.nodes) 0) ≡ ts
Holds (nodes_are D T Ls ts) =
    let R : Graph = removed (design_graph D) Ls in
    map (of_times D T R (node_times D.nodes R.nodes)) (upto (suc D.nodes) 0) ≡ ts
Holds (removal_is D r o) = remove_from_design D r ≡ o
Holds (again_is D G r o) = remove_from_graph D (slices_of G) r ≡ o
Holds (program_is s o) = program s ≡ o
Holds (c_call_is s n z) = c_call s (zeros n) ≡ z
Holds (c_room_is s n bs) = c_room s (zeros n) ≡ bs
Holds (packed_is x bs) = packed x ≡ bs
Holds (read_is bs r) = read_number bs 0 ≡ r
Holds (reader_answers s ls v) =
    verdict_in (deck_read s (lent ls 0) (lent ls 1) (lent ls 2) (lent ls 3) (lent ls 4) (lent ls 5) (lent ls 6)) ≡ v
Holds (times_answer D G T ls v) = test_times D (slices_of G) T (lent ls 0) (lent ls 1) (lent ls 2) (lent ls 3) ≡ v
Holds (records_answer n G ls ps v) =
    test_records n G.nodes (slice ls 0) (slice ls 1) (slice ls 2) (slice ls 3)
    (lent ps 0) (lent ps 1) (lent ps 2) (lent ps 3) (lent ps 4) ≡ v
Holds (packed_deck_is D L T bs) = packed_deck (deck D L T) ≡ bs
Holds (deck_writer_answers D L T v) = deck_write_tests (deck D L T) ≡ v
Holds (graph_read_is s R o) = graph_read s R ≡ o
Holds (graph_writer_answers S v) = graph_write_tests S ≡ v
Holds (size_is D L words a) = graph_answer (size_from_design D L words) ≡ a
Holds (size_again_is D G L words a) = graph_answer (size_from_graph D (slices_of G) L words) ≡ a
Holds (late_is D G T n a ts) =
    let S = slices_of G in
    let answer = late_or_not D S T n in
    ◌≡◌ {A = (x : Result (Option ℕ) Refusal) × List ℤ} (answer, arrivals_after_late D S T answer (map (λ i. pos 77) (upto n 0))) (a, ts)

infixr 4 ◌also◌
pub data All : List Fact → Type 0 where
  none : All []
  ◌also◌ : {f : Fact} {fs : List Fact} → Holds f → All fs → All (f ∷ fs)

"""


# What marked_hold computes through.
UNFOLDING = [
    "flat_map design_graph edges_in edges_out runs_to runs_from complete_runs permitted tails mark permitted_runs copies",
    "path_ends joins true_graph well_formed arrival_at required_at slack_at earliest_at node_times arrivals_after requireds_after",
    "slacks_after earliests_after packed_in groups_in read_number write_answer written_room read_deck graph_numbers packed_graph",
    "design_tests list_tests candidates scratch_test room_tests test_deck remove_from_design remove_from_graph program_removal",
    "program c_call c_room deck_read test_times test_late late_copies late_or_not arrivals_after_late test_records deck_numbers",
    "packed_deck deck_write_tests read_graph graph_read graph_write_tests size_from_design size_from_graph",
]

TYPES = {w.Design: "Design", w.PathList: "PathList", w.Graph: "Graph", w.Room: "Room", bytes: "List ℕ"}


def definition(name, x, comment):
    lines = ["-- " + comment] if comment else []
    lines.append("abbrev pub %s : %s" % (name, TYPES[type(x)]))
    whole = "%s = %s" % (name, written_out(x))
    if len(whole) <= WIDTH:
        return lines + [whole, ""]
    return lines + [name + " ="] + lines_of(written_out(x), " " * 4, ") ") + [""]


# Behind deck A in the table.
MARKING = """\
-- Deck A with some nodes marked, and its true graph with other endpoint numbers.
abbrev pub marking : List ℕ → Design
marking marked = design deck_a.nodes deck_a.starts deck_a.ends deck_a.early deck_a.late marked

abbrev pub ending : List ℕ → Graph
ending endpoints = graph graph_a.nodes endpoints graph_a.edges
"""


def table():
    lines, count = [], 0
    for name in NAMES:
        lines += definition(*name)
        if name[0] == "bytes_a":
            lines += MARKING.splitlines() + [""]
    lines += ["abbrev pub marked : List Fact", "marked ="]
    for comment, facts in ROWS:
        lines.append("    -- " + comment)
        for f in facts:
            lines += row("    ∷ " if count else "    ", fact(*f))
            count += 1
    lines += ["    ∷ []", "", "pub marked_hold : All marked"]
    lines += ["unfolding " + UNFOLDING[0]] + ["    " + names for names in UNFOLDING[1:]]
    lines += ["marked_hold ="] + lines_of("refl also " * count + "none", " " * 4, " also ")
    return HEADER + "\n".join(lines) + "\n"


def main():
    text = table()
    if sys.argv[1:] == ["--check"]:
        squeezed = lambda s: "".join(s.split())
        if squeezed(FILE.read_text()) != squeezed(text):
            sys.exit("%s is not what tests/marked_table.py makes" % FILE)
    else:
        FILE.write_text(text)
    print("marked_table: %d facts" % sum(len(facts) for _, facts in ROWS))


if __name__ == "__main__":
    main()
