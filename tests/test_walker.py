#!/usr/bin/env python3
"""The own claims of documents 01 and 02, tried with walker.py.  python3 test_walker.py [-v]"""
import itertools
import random
import subprocess
import sys
import unittest
from unittest import mock
import decks
import walker as w
from decks import A_BACK_EDGES, A_EDGES, DECK_A, HOLD, HOLD_EDGES, M8_EDGES, MARKED, WIDE_ROOM, deck_of, design_of, path_list_of, room_of

SEED = 20000
MANY_WORDS = 10 ** 7
NO_LIST = w.PathList([], [])

DECK_A_PRINTED = """\
copies 6 edges 5
copy 0 node 0 arrival 0 required 5 slack 5 earliest 0
copy 1 node 1 arrival 0 required 4 slack 4 earliest 0
copy 2 node 2 arrival 5 required 9 slack 4 earliest 3
copy 3 node 2 arrival 3 required 8 slack 5 earliest 3
copy 4 node 3 arrival 5 required 10 slack 5 earliest 5 end
copy 5 node 4 arrival 6 required 10 slack 4 earliest 4 end
edge 0 2 0
edge 1 2 1
edge 0 3 0
edge 3 4 2
edge 2 5 3
node 0 0 5 5 0
node 1 0 4 4 0
node 2 5 8 4 3
node 3 5 10 5 5
node 4 6 10 4 4
"""


def graph_of(deck):
    return w.true_graph(deck.design, deck.path_list)


def removed(design, path_list, earlier=None, words=MANY_WORDS, room=WIDE_ROOM):
    return w.removal(design, path_list, earlier, words, room)


def refusal(*given):
    return w.refusal_of(removed, *given)


def printed(deck):
    return w.deck_program(decks.pack(w.deck_numbers(deck)))


def records(deck, graph):
    """The node records, by the calls."""
    return w.records_of(deck.design, graph, w.times(deck.design, graph, deck.allowed_time, [len(graph.copy_nodes)] * 4))


def taken_back(design, graph):
    """The paths of a graph taken back to the design: first node and design edges."""
    return [(graph.copy_nodes[path.first], w.design_edges_along(path))
            for path in w.complete_paths(design, graph)]


def permitted(design, graph, path_list):
    """The same for the paths of a graph worked on that contain no listed path."""
    listed = w.listed_paths(path_list)
    return [(node, run) for node, run in taken_back(design, graph)
            if not any(w.occurs_in(path, run) for path in listed)]


def records_of_paths(design, paths, allowed_time):
    """Node records straight from the permitted paths of the design."""
    reached, to_go, whole, soonest = ({node: [] for node in range(design.nodes)} for _ in range(4))
    for first, run in paths:
        late = [design.late[edge] for edge in run]
        for position, node in enumerate([first] + [design.ends[edge] for edge in run]):
            reached[node].append(sum(late[:position]))
            to_go[node].append(sum(late[position:]))
            whole[node].append(sum(late))
            soonest[node].append(sum(design.early[edge] for edge in run[:position]))
    return [w.Times(max(reached[node]), allowed_time - max(to_go[node]), allowed_time - max(whole[node]), min(soonest[node]))
            if reached[node] else None for node in range(design.nodes)]


def times_by_edges(design, graph, allowed_time):
    """Copy times once more, edge by edge instead of path by path (edges rise by end copy)."""
    edges = list(zip(graph.starts, graph.ends, graph.design_edges))
    arrival, required, earliest = {}, {}, {}
    for copy in range(len(graph.copy_nodes)):
        arrival[copy] = max((arrival[s] + design.late[d] for s, e, d in edges if e == copy), default=0)
        earliest[copy] = min((earliest[s] + design.early[d] for s, e, d in edges if e == copy), default=0)
    for copy in reversed(range(len(graph.copy_nodes))):
        further = [required[e] - design.late[d] for s, e, d in edges if s == copy]
        required[copy] = min(further + [allowed_time] * graph.endpoints[copy])
    return [w.Times(arrival[c], required[c], required[c] - arrival[c], earliest[c]) for c in range(len(graph.copy_nodes))]


def same_by_trying(first, second):
    """Renumbering within nodes by trying every permutation."""
    if list(first.copy_nodes) != list(second.copy_nodes) or len(first.starts) != len(second.starts):
        return False
    groups = [[copy for copy, of in enumerate(first.copy_nodes) if of == node]
              for node in sorted(set(first.copy_nodes))]
    wanted = set(zip(*second[2:]))
    for orders in itertools.product(*(itertools.permutations(group) for group in groups)):
        renumber = [new for order in orders for new in order]
        if {(renumber[s], renumber[e], d) for s, e, d in zip(*first[2:])} == wanted \
                and all(second.endpoints[new] == first.endpoints[old] for old, new in enumerate(renumber)):
            return True
    return False


def renumbered(rng, graph):
    """The graph with its copies shuffled within nodes, edges put in order again."""
    order = sorted(range(len(graph.copy_nodes)), key=lambda copy: (graph.copy_nodes[copy], rng.random()))
    new = {old: number for number, old in enumerate(order)}
    edges = sorted(((new[s], new[e], d) for s, e, d in zip(*graph[2:])), key=lambda edge: (edge[1], edge[2]))
    return w.Graph(graph.copy_nodes, [graph.endpoints[old] for old in order], *([edge[part] for edge in edges] for part in range(3)))


class Marked(unittest.TestCase):
    def check(self, name, copies, edges):
        graph = graph_of(MARKED[name])
        self.assertEqual((len(graph.copy_nodes), len(graph.starts)), (copies, edges))
        self.assertTrue(w.is_well_formed(MARKED[name].design, graph))
        return graph

    def test_M1_deck_A(self):
        self.check("M1", 6, 5)
        self.assertEqual(decks.pack(w.deck_numbers(MARKED["M1"])), DECK_A)
        self.assertEqual(w.read_deck(DECK_A, w.PROGRAM_TABLES), MARKED["M1"])
        self.assertEqual(w.deck_program(DECK_A), DECK_A_PRINTED)
        run = subprocess.run([sys.executable, w.__file__], input=DECK_A, capture_output=True)
        self.assertEqual(run.stdout.decode(), DECK_A_PRINTED)

    def test_M2_M3(self):
        self.check("M2", 0, 0)
        self.assertEqual(printed(MARKED["M2"]), "copies 0 edges 0\n")
        self.assertEqual(w.c_call(bytes([0, 0, 0, 0, 0]), 2), (2, b"\0\0"))
        graph = self.check("M3", 1, 0)
        self.assertEqual(w.copy_times(MARKED["M3"].design, graph, 7), [(0, 7, 7, 0)])

    def test_M4_M5_M6_M7(self):
        four = self.check("M4", 4, 3)
        self.assertIn("node 3 none\n", printed(MARKED["M4"]))
        self.assertEqual(self.check("M5", 4, 3), four)
        self.check("M6", 6, 4)
        self.check("M7", 0, 0)
        self.assertEqual(printed(MARKED["M7"]), "copies 0 edges 0\nnode 0 none\nnode 1 none\nnode 2 none\n")

    def test_M8(self):
        graph = self.check("M8", 5, 4)
        self.assertEqual(sorted(graph.design_edges), [0, 1, 2, 5])
        self.assertIsNone(records(MARKED["M8"], graph)[4])

    def test_M9(self):
        deck = MARKED["M9"]
        self.assertEqual(records(deck, graph_of(deck)), [(0, 14, 14, 0), (-4, 10, 14, -4)])

    def test_M10(self):
        self.assertEqual((w.write_number(127), w.write_number(128)), (b"\x7f", b"\x80\x01"))
        self.assertEqual(w.refusal_of(w.read_number, b"\x80\x00", 0), (2, 0))

    def test_M6_in_parts(self):
        design = MARKED["M6"].design
        calls = [w.Call(path_list_of([path]), WIDE_ROOM, MANY_WORDS) for path in ([1, 2], [0, 3])]
        refusals, held = w.run_series(design, calls)
        self.assertEqual(refusals, [None, None])
        self.assertTrue(w.same_within_nodes(design, held, graph_of(MARKED["M6"])))
        self.assertFalse(w.same_within_nodes(design, held, graph_of(MARKED["M1"])))

    def test_smallest_series_numbered_otherwise_than_the_whole_list(self):
        """0: 1->2, 1: 0->1, 2: 1->2, 3: 0->1; list 1,0 and then 1,2: the two copies of node 1 swap."""
        design = design_of(3, [(1, 2, 0), (0, 1, 0), (1, 2, 0), (0, 1, 0)])
        first, second = [1, 0], [1, 2]
        held = removed(design, path_list_of([second]), removed(design, path_list_of([first])))
        whole = w.true_graph(design, path_list_of([first, second]))
        self.assertEqual(held, ([0, 1, 1, 2], [0, 0, 0, 1], [0, 0, 2, 1], [1, 2, 3, 3], [3, 3, 0, 2]))
        self.assertEqual(whole, ([0, 1, 1, 2], [0, 0, 0, 1], [0, 0, 1, 2], [1, 2, 3, 3], [3, 3, 0, 2]))
        self.assertTrue(w.same_within_nodes(design, held, whole))

    def test_marks_sort_by_length_first(self):
        """Tails 3 and 1,2 of node 1: the copy of 3 comes first, though 1 is below 3."""
        design = design_of(4, [(0, 1, 0), (1, 2, 0), (2, 3, 0), (1, 3, 0), (0, 1, 0)])
        graph = w.true_graph(design, path_list_of([[0, 1, 2], [0, 3]]))
        self.assertEqual(graph, ([0, 1, 1, 2, 3], [0, 0, 0, 0, 1], [0, 0, 2, 3, 1], [1, 2, 3, 4, 4], [4, 4, 1, 2, 3]))


class Ranges(unittest.TestCase):
    def test_the_edges_named_to_run(self):
        design = MARKED["M1"].design
        self.assertIsNone(refusal(design_of(4096, []), NO_LIST))
        self.assertEqual(refusal(design_of(4097, []), NO_LIST), (10, 0))
        self.assertIsNone(refusal(design_of(2, [(0, 1, -1_000_000)]), NO_LIST))
        self.assertEqual(refusal(design_of(2, [(0, 1, 1_000_001)]), NO_LIST), (14, 0))
        self.assertEqual(refusal(design, path_list_of([[2, 1]])), (24, 0, 1))
        self.assertEqual(w.allowed_time_refusal(1_000_000_001), (25, 0))
        self.assertIsNone(w.allowed_time_refusal(1_000_000_000))
        self.assertEqual(printed(deck_of(5, A_EDGES, [[1, 2]], 1_000_000_001)), "refused 25 at 0\n")
        one_two = path_list_of([[1, 2]])
        self.assertEqual(refusal(design, one_two, None, MANY_WORDS, room_of(5, 5)), (33, 0))
        self.assertEqual(refusal(design, one_two, None, MANY_WORDS, room_of(6, 4)), (34, 0))
        self.assertIsNone(refusal(design, one_two, None, MANY_WORDS, room_of(6, 5)))
        self.assertEqual(refusal(design, one_two, None, MANY_WORDS, w.Room(6, 7, 5, 5, 5)), (30, 0))
        with mock.patch.object(w, "MOST_COPIES", 5):              # room counts as at most the limit
            self.assertEqual(refusal(design, one_two), (33, 0))
        with mock.patch.object(w, "MOST_GRAPH_EDGES", 4):
            self.assertEqual(refusal(design, one_two), (34, 0))
        self.assertEqual(w.scratch_after([7, 8], None), w.scratch_after([7, 8], (34, 0)))
        self.assertEqual((w.scratch_after([7, 8], (31, 0)), w.lent_after([7, 8], [1])), ([7, 8], [1, 8]))

    def test_order_and_places(self):
        many = [(0, 1, 0)] * 10
        many[0], many[9] = (0, 1, 2_000_000), (0, 7, 0)
        self.assertEqual(w.design_refusal(deck_of(5, many, [], 0).design), (12, 9))
        design = MARKED["M1"].design
        self.assertEqual(refusal(design, w.PathList([1], [])), (30, 0))
        self.assertEqual(refusal(design, w.PathList([2 ** 32 - 1, 1], [])), (30, 0))       # no wrap
        self.assertEqual(refusal(design, w.PathList([1] * 1025, [0] * 1025)), (20, 0))
        self.assertEqual(refusal(design, w.PathList([8193], [0] * 8193)), (21, 0))
        self.assertEqual(refusal(design, path_list_of([[2, 1], [9], []])), (22, 2, 0))
        self.assertEqual(refusal(design, path_list_of([[2, 1], [9]])), (23, 1, 0))
        self.assertEqual(refusal(design, path_list_of([[0, 2], [1], [0, 1], [9]])), (23, 3, 0))
        bad_graph = w.Graph([9], [0], [], [], [])
        self.assertEqual(refusal(design, NO_LIST, bad_graph, 0), (32, 0))                  # 32 before 31
        self.assertEqual(refusal(design, path_list_of([[2, 1]]), bad_graph, 0), (24, 0, 1))
        self.assertEqual(refusal(design, NO_LIST, w.Graph([9], [0], [1], [], []), 0), (30, 0))
        self.assertEqual(refusal(design, NO_LIST, w.Graph([9], [], [], [], []), 0), (30, 0))
        self.assertEqual(w.refusal_of(w.times, design, w.Graph([9], [], [], [], []), 10, [1] * 4), (30, 0))
        # on A with 1,2: 5 nodes + 1 tail, 2 listed edges, 4 edges
        self.assertEqual(refusal(design, path_list_of([[1, 2]]), None, 12 * 8 - 1), (31, 0))
        self.assertIsNone(refusal(design, path_list_of([[1, 2]]), None, 12 * 8))
        earlier = graph_of(MARKED["M1"])      # two copies of node 2: 6 + 2 * 1, 2, 5
        self.assertEqual(refusal(design, path_list_of([[0, 3]]), earlier, 15 * 8 - 1), (31, 0))
        self.assertIsNone(refusal(design, path_list_of([[0, 3]]), earlier, 15 * 8))
        for lengths in ([6, 6, 5, 6], [6, 6, 6, 5], [6, 6, 6, 7]):
            self.assertEqual(w.refusal_of(w.times, design, earlier, 2 ** 31, lengths), (30, 0))
        self.assertEqual(w.refusal_of(w.times, design, bad_graph, 2 ** 31, [1] * 4), (25, 0))
        self.assertEqual(w.refusal_of(w.times, design, bad_graph, 10, [1] * 4), (32, 0))
        self.assertIsNone(w.node_record(3, [5], [1], [1], [1], [1], 5))
        self.assertEqual(w.refusal_of(w.node_record, 4097, [5], [1], [1], [1], [1], 5), (10, 0))
        self.assertEqual(w.refusal_of(w.node_record, 4097, [5], [1], [1], [1], [], 5), (30, 0))
        self.assertEqual(w.refusal_of(w.node_records, 2, [], [], [], [], [], [2, 2, 2, 2, 1]), (30, 0))

    def test_early_and_late_delays(self):
        """Document 02, request 1."""
        def of_edges(*edges):
            return w.design_refusal(design_of(5, edges))
        for early, late, wanted in [
                (-1_000_000, 1_000_000, None), (-1_000_001, 0, (14, 0)), (0, 1_000_001, (14, 0)), (1_000_001, 0, (14, 0)),
                (0, -1_000_001, (14, 0)), (1, 0, (15, 0)), (0, -1, (15, 0)), (1_000_000, -1_000_000, (15, 0)), (7, 7, None), (-7, -7, None)]:
            self.assertEqual(of_edges((0, 1, early, late)), wanted)
        above = (0, 1, 1, 0)
        self.assertEqual(of_edges((0, 1, 3), above, above), (15, 1))
        self.assertEqual(of_edges(above, (0, 1, 0, 2_000_000)), (14, 1))       # 14 over everything before 15
        self.assertEqual(of_edges(above, (0, 1, -2_000_000, 0)), (14, 1))
        self.assertEqual(of_edges(above, (1, 1, 0)), (13, 1))
        self.assertEqual(refusal(design_of(5, [above]), path_list_of([[]])), (15, 0))
        design = MARKED["M1"].design
        for part in ("starts", "ends", "early", "late"):
            unequal = design._replace(**{part: getattr(design, part)[:-1]})
            self.assertEqual(refusal(unequal, NO_LIST), (30, 0))
            self.assertEqual(w.refusal_of(w.times, unequal, w.Graph([], [], [], [], []), 5, [0] * 4), (30, 0))
            self.assertEqual(w.refusal_of(w.write_deck, w.Deck(unequal, NO_LIST, 5), 99), (30, 0))
            self.assertEqual(w.refusal_of(w.read_deck, DECK_A, w.PROGRAM_TABLES._replace(**{part: 1023})), (30, 0))
        self.assertEqual(w.write_deck(deck_of(2, [(0, 1, -1, 2)], [], 10), 99), bytes([2, 1, 0, 1, 1, 4, 0, 0, 10]))
        # the earliest arrival is on neither the latest path nor the shortest by late delays, and below 0
        joined = design_of(5, [(0, 3, 2, 9), (1, 3, 1, 3), (2, 3, -5, 6), (3, 4, 1, 2)])
        self.assertEqual(w.copy_times(joined, w.design_as_graph(joined), 0),
                         [(0, -11, -11, 0), (0, -5, -5, 0), (0, -8, -8, 0), (9, -2, -11, -5), (11, 0, -11, -4)])
        # what decks/hold.txt says
        self.assertEqual([record.earliest for record in records(HOLD, graph_of(HOLD))], [0, 60, 10, 75, 18])
        self.assertEqual([record.earliest for record in records(HOLD, w.design_as_graph(HOLD.design))], [0, 60, 10, 15, 18])

    def test_marked_nodes_that_are_refused(self):
        """Document 02, request 6: 16, and where it stands among the others."""
        def of_marked(*marked, nodes=5, edges=A_EDGES):
            return w.design_refusal(design_of(nodes, edges, marked))
        for marked, wanted in [
                ((), None), ((2,), None), ((0, 1, 2, 3, 4), None), ((5,), (16, 0)), ((4, 5), (16, 1)), ((2, 2), (16, 1)), ((2, 1), (16, 1)),
                ((0, 1, 1, 9), (16, 2)), ((9, 0), (16, 0)), ((0, 1, 2, 3, 4, 4), (16, 5)), ((2 ** 32 - 1,), (16, 0))]:
            self.assertEqual(of_marked(*marked), wanted)
        self.assertEqual(of_marked(5, edges=[(0, 1, 1, 0)]), (15, 0))                       # 15 before 16
        self.assertEqual(of_marked(5, edges=[(0, 1, 0), (0, 9, 0)]), (12, 1))
        self.assertEqual(of_marked(9, nodes=4097), (10, 0))
        design = design_of(5, A_EDGES, [2, 2])
        for path_list in (w.PathList([1] * 1025, [0] * 1025), w.PathList([8193], [0] * 8193), *(path_list_of([path]) for path in ([], [9], [2, 1]))):
            self.assertEqual(refusal(design, path_list), (16, 1))                           # 16 before 20 to 24
        self.assertEqual(w.refusal_of(w.times, design, w.Graph([9], [7], [], [], []), 2 ** 31, [1] * 4), (16, 1))   # and before 25 and 32
        self.assertEqual(printed(deck_of(5, A_EDGES, [[2, 1]], 2 ** 31, [2, 2])), "refused 16 at 1\n")
        # the deck's writer: after 20 and 21, with place n, before 35; it does not look at the marked nodes themselves
        self.assertEqual(w.refusal_of(w.write_deck, deck_of(2, [], [], 0, [0, 1, 1]), 0), (16, 2))
        self.assertEqual(w.refusal_of(w.write_deck, deck_of(0, [], [[0]] * 1025, 0, [0]), 0), (20, 0))
        self.assertEqual(w.write_deck(deck_of(2, [], [], 7, [9, 9]), 99), bytes([2, 0, 0, 2, 9, 9, 7]))
        self.assertEqual(w.refusal_of(w.write_deck, deck_of(2, [], [], 7, [9, 9]), 6), (35, 0))

    def test_well_formed_clause_by_clause(self):
        """Document 02, request 6: deck A with node 2 marked, and its graph with one clause broken at a time."""
        design = design_of(5, A_EDGES, [2])
        graph = w.true_graph(design, path_list_of([[1, 2]]))
        self.assertEqual(graph, ([0, 1, 2, 2, 3, 4], [0, 0, 1, 0, 1, 1], [0, 1, 0, 3, 2], [2, 2, 3, 4, 5], [0, 1, 0, 2, 3]))
        for endpoints, wanted in [([0, 0, 1, 0, 1, 1], True), ([0, 0, 0, 1, 1, 1], True), ([0, 0, 0, 0, 1, 1], True), ([0, 0, 1, 1, 1, 1], False),
                                  ([1, 0, 1, 0, 1, 1], False), ([0, 0, 1, 0, 0, 1], False), ([0, 0, 1, 2, 1, 1], False), ([0, 0, 2, 0, 1, 1], False)]:
            self.assertEqual(w.is_well_formed(design, graph._replace(endpoints=endpoints)), wanted)
            self.assertFalse(w.is_well_formed(design._replace(marked=[]), graph._replace(endpoints=endpoints)) and 1 in endpoints[:4])
        for endpoints, wanted in [([0, 0, 1, 0, 1], False), ([0, 0, 0, 1, 1], True)]:          # copy 3 has no edge out
            self.assertEqual(w.is_well_formed(design, w.Graph([0, 1, 2, 2, 4], endpoints, [0, 1, 0, 2], [2, 2, 3, 4], [0, 1, 0, 3])), wanted)
        self.assertFalse(w.is_well_formed(design, graph._replace(starts=[0, 1, 3, 2], ends=[2, 2, 4, 5], design_edges=[0, 1, 2, 3])))

    def test_which_edge_of_the_path(self):
        """Document 02, request 4."""
        for paths, wanted in [
                ([[2, 1]], (24, 0, 1)), ([[0, 2], [1, 3, 0]], (24, 1, 2)), ([[0, 2, 1, 2, 0]], (24, 0, 2)), ([[0, 0, 0]], (24, 0, 1)),
                ([[0, 2, 1], [2, 1]], (24, 0, 2)), ([[4, 2]], (23, 0, 0)), ([[0, 2, 4]], (23, 0, 2)), ([[1], [1, 4, 4]], (23, 1, 1)),
                ([[2, 1], [0, 9]], (23, 1, 1)), ([[0, 4], [4]], (23, 0, 1)), ([[2, 1, 9]], (23, 0, 2)),
                ([[2, 1], []], (22, 1, 0)), ([[9], [], []], (22, 1, 0))]:
            data = decks.pack(w.deck_numbers(deck_of(5, A_EDGES, paths, 10)))
            self.assertEqual(refusal(MARKED["M1"].design, path_list_of(paths)), wanted)
            self.assertEqual(w.deck_program(data), "refused %d at %d edge %d\n" % wanted)
            self.assertEqual(w.c_call(data, 64), (-(wanted[0] + 256 * wanted[1]), b""))

    def test_deck_reader_and_program(self):
        number = w.write_number
        for data, wanted in [
                (b"", (1, 0)), (DECK_A + b"\x80", (3, 24)), (number(4097), (10, 0)), (b"\x80" * 5, (2, 0)),
                (b"\x80" * 4, (1, 4)), (b"\x80\x80", (1, 2)), (b"\x05" + number(16385), (11, 0)),
                (b"\x05" + number(1025), (36, 0)), (b"\x05" + number(1024), (1, 3)),
                (b"\0\0" + number(257), (36, 0)), (b"\0\0" + number(1025), (20, 0)),
                (b"\0\0\x01" + number(1025), (36, 0)), (b"\0\0\x01" + number(8193), (21, 0)),
                (b"\0\0\x02\x01\x00" + number(1024), (36, 0)), (b"\0\0\x02\x01\x00" + number(8192), (21, 0)),
                (b"\0\0\x02\x01\x80\x00" + number(2 ** 32 - 1), (2, 4)),
                (bytes(4) + number(2 ** 32 - 1), (25, 0)), (bytes(4) + number(2 ** 32 - 1) + b"\0", (3, 9)),
                (bytes(65536), (3, 5)), (bytes(65537), (4, 65536)), (bytes(4), (1, 4)), (bytes(3) + b"\x01", (16, 0)),
                (b"\x05\0\0\x06", (16, 5)), (b"\x05\0\0\x05", (1, 4)), (b"\x05\0\0" + number(2 ** 32 - 1), (16, 5)),
                (number(2000) + b"\0\0" + number(1025), (36, 0)), (number(2000) + b"\0\0" + number(2001), (16, 2000)),
                (number(2000) + b"\0\0" + number(1024), (1, 6)), (b"\x05\0\0\x01\x05\x80\x00", (2, 5)),
                (b"\x05\0\0\x01\x05\x00", (16, 0)), (b"\x05\0\0\x02\x01\x01\x00\x00", (3, 7))]:
            self.assertEqual(w.deck_program(data), "refused %d at %d\n" % wanted, data[:8])
            self.assertEqual(w.c_call(data, 0), (-(wanted[0] + 256 * wanted[1]), b""))
        self.assertEqual(w.refusal_of(w.read_deck, b"", w.Tables(1, 1, 1, 2, 0, 0, 0)), (30, 0))
        # 16,384 words are 2,048 units
        self.assertEqual([printed(decks.full(extra)).split()[:2] for extra in (0, 1)], [["copies", "73"], ["refused", "31"]])
        self.assertEqual([printed(deck_of(n, [], [], 5)).split()[:2] for n in (512, 513, 2048, 2049)],
                         [["copies", "512"], ["refused", "33"], ["refused", "33"], ["refused", "31"]])
        self.assertEqual([printed(decks.wide(extra)).split("\n")[0] for extra in (32, 33)],
                         ["copies 34 edges 2048", "refused 34 at 0"])
        length = w.c_call(DECK_A, 100)[0]
        self.assertEqual(w.c_call(DECK_A, length - 1), (-35, b""))
        self.assertEqual(w.c_call(DECK_A, length)[0], length)

    def test_writers_and_graph_reader(self):
        odd = w.Deck(design_of(5, [(9, 3, 2 ** 31 - 1, -2 ** 31)]), w.PathList([0, 1], [77]), 2 ** 32 - 1)
        self.assertEqual(w.read_deck(w.write_deck(odd, 99), w.PROGRAM_TABLES), odd)
        length = len(w.write_deck(odd, 99))
        self.assertEqual(w.refusal_of(w.write_deck, odd, length - 1), (35, 0))
        self.assertEqual(w.refusal_of(w.write_deck, odd._replace(path_list=w.PathList([1], [])), 0), (30, 0))
        self.assertEqual(w.refusal_of(w.write_graph, w.Graph([0] * 16385, [2] * 16385, [], [], []), 0), (32, 0))
        self.assertEqual(w.refusal_of(w.write_graph, w.Graph([0], [0], [1], [], []), 0), (30, 0))
        self.assertEqual(w.refusal_of(w.write_graph, w.Graph([0], [], [], [], []), 0), (30, 0))
        self.assertEqual(w.refusal_of(w.write_graph, w.Graph([0, 0], [1, 2], [], [], []), 0), (32, 0))
        self.assertEqual(w.refusal_of(w.write_graph, w.Graph([0, 0], [1, 1], [], [], []), 0), (35, 0))
        self.assertEqual(w.write_graph(w.Graph([7, 9], [0, 1], [4], [5], [6]), 99), bytes([2, 7, 0, 9, 1, 1, 4, 5, 6]))
        room = room_of(2, 1)
        for data, wanted in [(w.write_number(16385), (32, 0)), (b"\x03", (33, 0)), (b"\x02\x00", (1, 2)),
                             (b"\x00\x02", (34, 0)), (b"\x00" + w.write_number(65537), (32, 0)),
                             (b"\x00\x00\x80", (3, 2)), (b"\x02\x09\x80\x00", (2, 2)), (b"", (1, 0)), (b"\x02\x09\x02", (32, 0)),
                             (b"\x02\x09\x02\x80\x00", (32, 0)), (b"\x02\x09\x01\x80\x00", (2, 3)), (b"\x02\x09\x80\x01", (32, 0)),
                             (b"\x02\x09\x01\x08\x02\x02", (32, 0)), (b"\x02\x09\x01\x08\x01\x02", (34, 0))]:
            self.assertEqual(w.refusal_of(w.read_graph, data, room), wanted)
        self.assertEqual(w.refusal_of(w.read_graph, b"", w.Room(2, 2, 1, 1, 2)), (30, 0))
        self.assertEqual(w.refusal_of(w.read_graph, b"", w.Room(2, 3, 1, 1, 1)), (30, 0))


class Ends(unittest.TestCase):
    """Document 02, request 6, on decks that can be followed by hand."""
    def of(self, edges, paths, marked, nodes=5):
        deck = deck_of(nodes, edges, paths, 10, marked)
        return deck, graph_of(deck)

    def test_deck_A_with_node_2_marked(self):
        deck, graph = self.of(A_EDGES, [[1, 2]], [2])
        self.assertEqual(graph, graph_of(MARKED["M1"])._replace(endpoints=[0, 0, 1, 0, 1, 1]))
        changed = "copy 2 node 2 arrival 5 required 9 slack 4 earliest 3"
        self.assertEqual(printed(deck), DECK_A_PRINTED.replace(changed, changed + " end"))
        self.assertEqual(sorted(taken_back(deck.design, graph)), [(0, (0,)), (0, (0, 2)), (0, (0, 3)), (1, (1,)), (1, (1, 3))])
        deck, graph = self.of(A_BACK_EDGES, [[1, 2]], [2])
        self.assertEqual([times.required for times in w.copy_times(deck.design, graph, 10)], [5, 5, 10, 8, 10, 10])     # 11 from further on alone
        unmarked, graph = self.of(A_BACK_EDGES, [[1, 2]], [])
        self.assertEqual([times.required for times in w.copy_times(unmarked.design, graph, 10)], [5, 6, 11, 8, 10, 10])

    def test_sources_sinks_and_isolated_nodes(self):
        chain = [(0, 1, 1), (1, 2, 1)]
        self.assertEqual(self.of(chain, [], [0], 3)[1], ([0, 1, 2], [1, 0, 1], [0, 1], [1, 2], [0, 1]))
        self.assertEqual(self.of(chain, [[0, 1]], [0], 3)[1], ([0], [1], [], [], []))
        self.assertEqual(self.of(chain, [[0, 1]], [1], 3)[1], ([0, 1], [0, 1], [0], [1], [0]))
        for marked in ([2], [3], [2, 3]):                                     # a sink, and an isolated node
            self.assertEqual(self.of(chain, [[1]], marked, 4), (deck_of(4, chain, [[1]], 10, marked), graph_of(deck_of(4, chain, [[1]], 10))))
        self.assertEqual(self.of(A_EDGES, [], range(5))[1].endpoints, [1] * 5)

    def test_listed_paths_and_marked_nodes(self):
        """A listed path that ends at a marked node, starts at one, passes one; all edges out of one removed."""
        self.assertEqual(self.of(A_EDGES, [[0]], [2])[1], ([1, 2, 3, 4], [0, 1, 1, 1], [0, 1, 1], [1, 2, 3], [1, 2, 3]))
        self.assertEqual(self.of(A_EDGES, [[2]], [2])[1], ([0, 1, 2, 4], [0, 0, 1, 1], [0, 1, 2], [2, 2, 3], [0, 1, 3]))
        self.assertEqual(self.of(A_EDGES, [[0, 2], [0, 3]], [2])[1],
                         ([0, 1, 2, 2, 2, 3, 4], [0, 0, 1, 0, 0, 1, 1], [0, 1, 1, 1, 3, 4], [2, 2, 3, 4, 5, 6], [0, 1, 1, 1, 2, 3]))
        deck, alone = self.of(A_EDGES, [[2], [3]], [2])
        self.assertEqual(alone, ([0, 1, 2], [0, 0, 1], [0, 1], [2, 2], [0, 1]))
        self.assertEqual(removed(deck.design, NO_LIST, alone), alone)
        self.assertEqual(records(deck, alone)[2:], [(5, 10, 5, 3), None, None])

    def test_random_decks_have_what_request_6_is_about(self):
        """So that comparisons on random decks say something: how often each kind comes."""
        rng, seen = random.Random(SEED + 6), dict.fromkeys("ends starts passes two_copies no_edge_out by_T source".split(), 0)
        for _ in range(1000):
            deck = decks.random_deck(rng)
            design, graph = deck.design, graph_of(deck)
            inner = set(design.marked) & set(design.starts)
            listed = w.listed_paths(deck.path_list)
            seen["ends"] += any(design.ends[path[-1]] in inner for path in listed)
            seen["starts"] += any(design.starts[path[0]] in inner for path in listed)
            seen["passes"] += any(design.ends[edge] in inner for path in listed for edge in path[:-1])
            seen["two_copies"] += any(graph.copy_nodes.count(node) > 1 and 1 in
                                      [number for of, number in zip(graph.copy_nodes, graph.endpoints) if of == node] for node in inner)
            seen["no_edge_out"] += any(number and node in inner and copy not in graph.starts
                                       for copy, (node, number) in enumerate(zip(graph.copy_nodes, graph.endpoints)))
            seen["source"] += bool(inner - set(design.ends))
            times = w.copy_times(design, graph, deck.allowed_time)
            seen["by_T"] += any(graph.endpoints[start] and times[start].required < min(
                times[e].required - design.late[d] for s, e, d in zip(*graph[2:]) if s == start) for start in set(graph.starts))
        self.assertGreater(min(seen.values()), 30, seen)


class Sizes(unittest.TestCase):
    """Document 02, request 8: room known beforehand."""
    def told(self, design, path_list, earlier=None, words=MANY_WORDS):
        """The counts, or the refusal."""
        try:
            return w.size(design, path_list, earlier, words)
        except w.Refused as refused:
            return refused.refusal

    def filled(self, design, path_list, earlier, room, words=MANY_WORDS):
        """What filling gives in such a room: how many places it fills, or its refusal."""
        try:
            result = w.removal(design, path_list, earlier, words, room)
            return len(result.copy_nodes), len(result.starts)
        except w.Refused as refused:
            return refused.refusal

    def test_counts_by_hand(self):
        for name, counts in (("M1", (6, 5)), ("M2", (0, 0)), ("M3", (1, 0)), ("M4", (4, 3)), ("M5", (4, 3)), ("M6", (6, 4)), ("M7", (0, 0)),
                             ("M8", (5, 4)), ("M9", (2, 1))):
            self.assertEqual(self.told(MARKED[name].design, MARKED[name].path_list), counts, name)
        design, earlier = MARKED["M1"].design, graph_of(MARKED["M1"])
        for paths, counts in (([], (6, 5)), ([[0, 3]], (6, 4)), ([[2]], (4, 3)), ([[0]], (3, 2)), ([[0], [1]], (0, 0))):
            self.assertEqual(self.told(design, path_list_of(paths), earlier), counts, paths)
        # two copies of a source stay two, and nothing is left of no copies
        forked = design_of(4, [(0, 1, 0), (1, 2, 0), (1, 3, 0)])
        split = w.Graph([0, 0, 1, 1, 2, 3], [0, 0, 0, 0, 1, 1], [0, 1, 2, 3], [2, 3, 4, 5], [0, 0, 1, 2])
        self.assertEqual((self.told(forked, NO_LIST, split), self.told(forked, path_list_of([[0, 1]]), split)), ((6, 4), (3, 2)))
        self.assertEqual(self.told(forked, NO_LIST, w.Graph([], [], [], [], [])), (0, 0))

    def test_34_at_65537_edges_of_few_copies(self):
        """1,820 edges in, 51 out, one edge in listed with 35 of these: 36 copies of the hub; 35 have 1,819 edges in, and one has 1,820."""
        for out_of, told in ((51, (38, 35 * 1819 + 1820 + 51)), (52, (34, 0))):
            edges = [(0, 1, 0)] * 1820 + [(1, 2, 0)] * out_of
            self.assertEqual(self.told(design_of(3, edges), path_list_of([[0, 1820 + j] for j in range(35)])), told)

    def test_limits_and_their_order(self):
        """With lower limits, on deck A: 6 copies, 5 edges. 31 comes before 33, this before 34, and neither where the limit is reached."""
        design, path_list = MARKED["M1"].design, MARKED["M1"].path_list
        for most_copies, most_edges, told in ((6, 5, (6, 5)), (5, 5, (33, 0)), (6, 4, (34, 0)), (5, 4, (33, 0)), (5, 0, (33, 0)), (9, 0, (34, 0))):
            with mock.patch.object(w, "MOST_COPIES", most_copies), mock.patch.object(w, "MOST_GRAPH_EDGES", most_edges):
                self.assertEqual(self.told(design, path_list), told)
                self.assertEqual(self.told(design, path_list, None, 95), (31, 0))               # it needs 96

    def test_refusals(self):
        design, one_two, earlier = MARKED["M1"].design, path_list_of([[1, 2]]), graph_of(MARKED["M1"])
        self.assertEqual([self.told(design, one_two, None, words) for words in (0, 95, 96)], [(31, 0), (31, 0), (6, 5)])
        self.assertEqual([self.told(design, path_list_of([[0, 3]]), earlier, words) for words in (119, 120)], [(31, 0), (6, 4)])
        for part in ("starts", "ends", "early", "late"):
            self.assertEqual(self.told(design._replace(**{part: [0] * 5}), one_two), (30, 0))
        for path_list in (w.PathList([1], []), w.PathList([2 ** 32 - 1, 1], []), w.PathList([], [1])):
            self.assertEqual(self.told(design, path_list), (30, 0))
        for part in w.Graph._fields:
            self.assertEqual(self.told(design, one_two, earlier._replace(**{part: getattr(earlier, part)[:-1]})), (30, 0))
        bad_graph = w.Graph([9], [0], [], [], [])
        self.assertEqual(self.told(design, NO_LIST, bad_graph, 0), (32, 0))                    # 32 before 31
        self.assertEqual(self.told(design, path_list_of([[2, 1]]), bad_graph, 0), (24, 0, 1))
        self.assertEqual(self.told(design_of(5, [(0, 2, 1, 0)]), path_list_of([[]]), bad_graph, 0), (15, 0))
        self.assertEqual(self.told(design_of(5, A_EDGES, [2, 2]), path_list_of([[9]])), (16, 1))
        self.assertEqual(self.told(design_of(4097, []), w.PathList([1], [])), (30, 0))
        self.assertEqual(self.told(design_of(4097, []), w.PathList([1] * 1025, [0] * 1025)), (10, 0))

    def both_ways(self):
        """Random designs and lists, on the design and on an earlier graph of it."""
        rng = random.Random(SEED + 8)
        for number in range(300):
            design = decks.random_design(rng)
            path_list = path_list_of(decks.random_paths(rng, design))
            yield design, path_list, decks.random_foreign_graph(rng, design) if number % 2 else None

    def test_told_and_filled(self):
        """"Where the first tells, filling ..., unless it gives 30 or 31, is refused for room if and only if a room is below the told number." """
        for design, path_list, earlier in self.both_ways():
            copies, edges = self.told(design, path_list, earlier)
            result = w.true_graph(design, path_list, earlier)
            self.assertEqual((copies, edges), (len(result.copy_nodes), len(result.starts)))
            words = w.words_needed(design, path_list, w.design_as_graph(design) if earlier is None else earlier)
            for room_copies, room_edges in itertools.product((0, copies - 1, copies, copies + 3), (0, edges - 1, edges, edges + 2)):
                if room_copies < 0 or room_edges < 0:
                    continue
                wanted = (33, 0) if room_copies < copies else (34, 0) if room_edges < edges else (copies, edges)
                self.assertEqual(self.filled(design, path_list, earlier, room_of(room_copies, room_edges), words), wanted)
            if words > 0:
                self.assertEqual(self.told(design, path_list, earlier, words - 1), (31, 0))
                self.assertEqual(self.filled(design, path_list, earlier, room_of(0, 0), words - 1), (31, 0))

    def test_what_fits_no_room(self):
        """Where it is told 33, filling gives 33 in every room; where it is told 34, it gives 33 in a room for fewer copies, and else 34. Lower
        limits stand for 16,384 and 65,536."""
        seen = set()
        for design, path_list, earlier in self.both_ways():
            copies, edges = self.told(design, path_list, earlier)
            for less_copies, less_edges in ((1, 0), (0, 1), (1, 1)):
                if copies < less_copies or edges < less_edges:
                    continue
                with mock.patch.object(w, "MOST_COPIES", copies - less_copies), mock.patch.object(w, "MOST_GRAPH_EDGES", edges - less_edges):
                    if earlier is not None and not w.is_well_formed(design, earlier):           # 32 goes by the same limits
                        continue
                    told = self.told(design, path_list, earlier)
                    self.assertEqual(told, (33, 0) if less_copies else (34, 0))
                    for room in (room_of(max(copies - 1, 0), edges), room_of(copies, edges), room_of(16400, 65600), room_of(copies, 0)):
                        wanted = (33, 0) if told == (33, 0) or room.copies < copies else (34, 0)
                        self.assertEqual(self.filled(design, path_list, earlier, room), wanted)
                        seen.add((told, wanted, earlier is None))
        self.assertEqual(len(seen), 6, seen)

    def test_refused_alike(self):
        """Removal's refusals: on random calls, damaged or not, telling and filling in the widest room give the same."""
        rng, seen = random.Random(SEED + 9), set()
        for _ in range(600):
            design = decks.random_design(rng)
            earlier = decks.random_foreign_graph(rng, design) if rng.random() < 0.5 else None
            if earlier is not None and rng.random() < 0.3:
                earlier = decks.damage_graph(rng, earlier)
            path_list, _, words = decks.random_call(rng, design)
            if rng.random() < 0.4:
                design, path_list, _ = decks.damage_values(rng, w.Deck(design, path_list, 0))
            found = w.refusal_of(w.size, design, path_list, earlier, words)
            self.assertEqual(found, refusal(design, path_list, earlier, words))
            seen.add(found and found[0])
        self.assertTrue({None, 12, 13, 14, 15, 16, 22, 23, 24, 30, 31, 32} <= seen, seen)


class Late(unittest.TestCase):
    """Document 02, request 10: late or not."""
    def late(self, design, graph, allowed_time, more=0):
        """The copy or None, and the arrivals written; or the refusal. `more`: by how much the slice is longer than there are copies."""
        try:
            return w.late(design, graph, allowed_time, len(graph.copy_nodes) + more)
        except w.Refused as refused:
            return refused.refusal

    def check(self, design, graph, allowed_time, delays):
        """Late just where a copy has a negative slack, and where one of the delays, which are those of all paths, is above T; at the lowest
        copy, with the arrivals up to it. Returns the copy or None, all arrivals, and the copies where paths end late."""
        copy, written = w.late(design, graph, allowed_time, len(graph.copy_nodes))
        at_copies = times_by_edges(design, graph, allowed_time)
        self.assertEqual(w.times(design, graph, allowed_time, [len(graph.copy_nodes)] * 4), at_copies)
        self.assertEqual(copy is not None, any(times.slack < 0 for times in at_copies))
        self.assertEqual(copy is not None, any(delay > allowed_time for delay in delays))
        arrivals = [times.arrival for times in at_copies]
        late_ends = [c for c, number in enumerate(graph.endpoints) if number and arrivals[c] > allowed_time]
        self.assertEqual((copy, written), (late_ends[0], arrivals[:late_ends[0] + 1]) if late_ends else (None, arrivals))
        return copy, arrivals, late_ends

    def times_near(self, rng, delays):
        """0, and T around the delays of two paths, the slowest and any: one below it, exactly it, one above."""
        near = {delay + more for delay in (max(delays), rng.choice(delays)) for more in (-1, 0, 1)} if delays else set()
        return [0] + [allowed_time for allowed_time in sorted(near) if allowed_time > 0]

    def test_by_hand(self):
        deck_a, arrivals = MARKED["M1"], [0, 0, 5, 3, 5, 6]
        for marked, allowed_time, copy in [
                ([], 10, None), ([], 6, None), ([], 5, 5), ([], 4, 4), ([], 0, 4),           # paths end at copies 4 and 5, at 5 and 6
                ([2], 6, None), ([2], 5, 5), ([2], 4, 2), ([2], 0, 2),                       # and at copy 2, at 5, where they go on too
                ([0, 1, 2], 0, 2), ([0, 1, 3, 4], 4, 4)]:                                    # and at sources, at 0, which is never above T
            design = deck_a.design._replace(marked=marked)
            graph = w.true_graph(design, deck_a.path_list)
            written = arrivals if copy is None else arrivals[:copy + 1]
            self.assertEqual(self.late(design, graph, allowed_time), (copy, written), (marked, allowed_time))
        for name, found in (("M2", (None, [])), ("M3", (None, [0])), ("M7", (None, [])), ("M9", (None, [0, -4]))):
            self.assertEqual(self.late(MARKED[name].design, graph_of(MARKED[name]), 0), found, name)
        self.assertEqual(w.lent_after([7] * 6, self.late(deck_a.design, graph_of(deck_a), 4)[1]), [0, 0, 5, 3, 5, 7])

    def test_delays_below_0(self):
        """A copy where no path ends may have an arrival above T, and nothing is late: what is lost comes back behind it."""
        edges = [(0, 1, 8), (1, 2, -3), (2, 3, 1)]
        for marked, allowed_time, found in [
                ([], 6, (None, [0, 8, 5, 6])), ([], 5, (3, [0, 8, 5, 6])), ([1], 8, (None, [0, 8, 5, 6])), ([1], 7, (1, [0, 8])),
                ([2], 6, (None, [0, 8, 5, 6])), ([2], 5, (3, [0, 8, 5, 6])), ([2], 4, (2, [0, 8, 5]))]:
            design = design_of(4, edges, marked)
            self.assertEqual(self.late(design, w.design_as_graph(design), allowed_time), found, (marked, allowed_time))
        # by late delays, and by the largest of them
        design = design_of(3, [(0, 2, -9, 1), (1, 2, -5, -4), (0, 2, -1, 0)])
        self.assertEqual([self.late(design, w.design_as_graph(design), allowed_time) for allowed_time in (0, 1)],
                         [(2, [0, 0, 1]), (None, [0, 0, 1])])

    def test_refusals_and_their_order(self):
        design, graph = MARKED["M1"].design, graph_of(MARKED["M1"])
        bad_graph = w.Graph([9], [0], [], [], [])
        for more in (-1, 1):                                                                 # 30 before 25 and before 10, and all else is right
            self.assertEqual(self.late(design, graph, 2 ** 31, more), (30, 0))
            self.assertEqual(self.late(design._replace(nodes=4097), graph, 5, more), (30, 0))
        for part in ("starts", "ends", "early", "late"):
            self.assertEqual(self.late(design._replace(nodes=4097, **{part: [0] * 5}), graph, 5), (30, 0))
        for part in w.Graph._fields:
            self.assertEqual(self.late(design, graph._replace(**{part: [*getattr(graph, part), 0]}), 5), (30, 0))
        self.assertEqual(self.late(design_of(4097, []), bad_graph, 2 ** 31), (10, 0))
        self.assertEqual(self.late(design_of(2, [(0, 1, 0)] * 16385), bad_graph, 2 ** 31), (11, 0))
        for edge, number in (((0, 9, 2_000_000, 0), 12), ((3, 1, 2_000_000, 0), 13), ((0, 2, 2_000_000, 0), 14), ((0, 2, 1, 0), 15)):
            self.assertEqual(self.late(design_of(5, [*A_EDGES, edge], [2, 2]), bad_graph, 2 ** 31), (number, 4))
        self.assertEqual(self.late(design_of(5, A_EDGES, [2, 2]), bad_graph, 2 ** 31), (16, 1))
        self.assertEqual(self.late(design, bad_graph, 1_000_000_001), (25, 0))
        self.assertEqual(self.late(design, bad_graph, 1_000_000_000), (32, 0))
        self.assertEqual(self.late(design, graph._replace(endpoints=[0, 0, 1, 0, 1, 1]), 0), (32, 0))       # node 2 is not marked

    def test_late_if_and_only_if_a_slack_is_negative(self):
        """"The answer must be late if and only if the full times show a negative slack somewhere", at a copy or at a node; and "does any
        permitted path take longer than T?", of the design's paths without those that contain a listed one."""
        rng, seen = random.Random(SEED + 10), dict.fromkeys("late on_time equal above_inside several goes_on stops_before_the_last".split(), 0)
        for _ in range(600):
            deck = decks.random_deck(rng)
            design, graph = deck.design, graph_of(deck)
            delays = [sum(design.late[edge] for edge in run) for _, run in permitted(design, w.design_as_graph(design), deck.path_list)]
            for allowed_time in self.times_near(rng, delays):
                copy, arrivals, late_ends = self.check(design, graph, allowed_time, delays)
                is_late = copy is not None
                self.assertEqual(is_late, any(record and record.slack < 0 for record in records(deck._replace(allowed_time=allowed_time), graph)))
                seen["late" if is_late else "on_time"] += 1
                seen["equal"] += not is_late and allowed_time in delays
                seen["above_inside"] += not is_late and max(arrivals, default=0) > allowed_time
                seen["several"] += len(late_ends) > 1
                seen["goes_on"] += is_late and copy in graph.starts
                seen["stops_before_the_last"] += is_late and copy + 1 < len(arrivals)
        self.assertGreater(min(seen.values()), 30, seen)

    def test_graphs_from_elsewhere(self):
        """The same of their own paths, however the copies were chosen."""
        rng, seen = random.Random(SEED + 11), {True: 0, False: 0}
        for _ in range(300):
            design = decks.random_design(rng)
            graph = decks.random_foreign_graph(rng, design)
            delays = [sum(design.late[edge] for edge in run) for _, run in taken_back(design, graph)]
            for allowed_time in self.times_near(rng, delays):
                copy, _, _ = self.check(design, graph, allowed_time, delays)
                seen[copy is not None] += 1
        self.assertGreater(min(seen.values()), 100, seen)


def remove_paths(design, paths, earlier):
    return removed(design, path_list_of(paths), earlier)


# Removals that the comparison of lists must find to be wrong, each with what it finds.
WRONG_REMOVALS = [
    ({"other graph", "worse"}, lambda design, paths, earlier: remove_paths(design, paths[:2], earlier)),        # the front of the list alone
    ({"other graph", "worse"},                                                                      # what is listed twice is not listed
     lambda design, paths, earlier: remove_paths(design, [path for path in paths if paths.count(path) == 1], earlier)),
    ({"other graph"},                                                                               # the list's order decides the numbers
     lambda design, paths, earlier: renumbered(random.Random(repr(paths)), remove_paths(design, paths, earlier)))]


class Longer(unittest.TestCase):
    """Document 02, request 12: a longer list, and a shuffled one."""
    def test_no_worse(self):
        record = w.Times(5, 8, 3, 2)
        for name, better, worse in (("arrival", 4, 6), ("required", 9, 7), ("slack", 4, 2), ("earliest", 3, 1)):
            self.assertTrue(w.no_worse(record, record._replace(**{name: better})))
            self.assertFalse(w.no_worse(record, record._replace(**{name: worse})))
            self.assertFalse(w.no_worse(record, w.Times(4, 9, 4, 3)._replace(**{name: worse})))           # though all else is better
        self.assertEqual([w.no_worse(*pair) for pair in ((record, record), (record, None), (None, None), (None, record))],
                         [True, True, True, False])
        self.assertEqual(decks.gains([record, None, record, record], [None, None, record, record._replace(slack=4)]), {"none", "slack"})

    def test_by_hand(self):
        """Deck A: with 1,2 listed arrival and slack at node 3 are 5 and 5, where they were 7 and 3; with 0,2 listed too it is none."""
        found = [records(MARKED["M1"], remove_paths(MARKED["M1"].design, paths, None))[3] for paths in ([], [[1, 2]], [[0, 2], [1, 2]])]
        self.assertEqual(found, [(7, 10, 3, 5), (5, 10, 5, 5), None])
        # two copies of node 2 with marks of one edge, 2 and 3: in either order of the list the copy of 2 comes first
        for paths in itertools.permutations(([1, 2], [0, 3], [1, 2])):
            self.assertEqual(remove_paths(MARKED["M6"].design, list(paths), None), graph_of(MARKED["M6"]))

    def runs(self, design):
        """All that may be listed: every run of edges, each starting where the one before ends."""
        found = [(edge,) for edge in range(len(design.starts))]
        for run in found:
            found += [run + (edge,) for edge, start in enumerate(design.starts) if start == design.ends[run[-1]]]
        return found

    def check_all_lists(self, design, earlier, most, seen):
        """All lists of up to so many paths: the same paths leave the same graph, and of two lists the one with all paths of the other is no
        worse at any node."""
        graphs, lists = {}, 0
        for paths in itertools.chain(*(itertools.product(self.runs(design), repeat=count) for count in range(most + 1))):
            graph = remove_paths(design, paths, earlier)
            self.assertEqual(graphs.setdefault(frozenset(paths), graph), graph, paths)
            lists += 1
        found = {paths: w.records_of(design, graph, w.copy_times(design, graph, 10)) for paths, graph in graphs.items()}
        for fewer, more in itertools.permutations(found, 2):
            if fewer < more:
                self.assertTrue(all(map(w.no_worse, found[fewer], found[more])), (fewer, more))
                seen |= decks.gains(found[fewer], found[more])
        return lists

    def test_all_short_lists(self):
        rng, lists = random.Random(SEED + 12), 0
        for design, most, first in [(design_of(5, A_EDGES), 3, [[1, 2]]), (design_of(5, A_BACK_EDGES, [2]), 3, [[0, 3]]),
                                    (design_of(5, HOLD_EDGES, [1]), 3, [[2, 3], [1, 4]]), (design_of(6, M8_EDGES), 2, [[0, 2, 3]])]:
            seen = set()
            for earlier in (None, w.true_graph(design, path_list_of(first)), decks.largest_foreign_graph(rng, design)):
                lists += self.check_all_lists(design, earlier, most, seen)
            self.assertEqual(seen, {"none", *w.Times._fields})
        self.assertEqual(lists, 3 * (585 + 585 + 1885 + 343))

    def compare(self, remove, design, paths, same, longer, earlier, allowed_time):
        """What is wrong with a removal, by a list, its paths reordered and repeated, and the list extended; and what the last one gains."""
        plain, other, after = (remove(design, each, earlier) for each in (paths, same, longer))
        before, then = (w.records_of(design, graph, w.copy_times(design, graph, allowed_time)) for graph in (plain, after))
        wrong = ({"other graph"} if other != plain else set()) | (set() if all(map(w.no_worse, before, then)) else {"worse"})
        return wrong, decks.gains(before, then)

    def random_lists(self, seed, count):
        rng = random.Random(seed)
        for number in range(count):
            design, *lists = decks.design_and_lists(rng)
            yield design, *lists, decks.earlier_graph(rng, design) if number % 2 else None, rng.choice((0, 10, 1_000_000_000))

    def test_random_lists(self):
        """"This holds for removal from the design and from an earlier true graph": of every graph that is well formed, in fact."""
        seen = {(name, from_design): 0 for name in ("none", *w.Times._fields, "other order", "three copies") for from_design in (True, False)}
        for design, paths, same, longer, earlier, allowed_time in self.random_lists(SEED + 13, 1000):
            wrong, gained = self.compare(remove_paths, design, paths, same, longer, earlier, allowed_time)
            self.assertEqual(wrong, set(), (design, paths, same, longer, earlier))
            graph = remove_paths(design, paths, earlier)
            if same != paths:
                gained |= {"other order"}
                gained |= {"three copies" for node in graph.copy_nodes if graph.copy_nodes.count(node) > 2}
            for name in gained:
                seen[name, earlier is None] += 1
        self.assertGreater(min(seen.values()), 30, seen)

    def test_wrong_removals_are_found(self):
        for finds, remove in WRONG_REMOVALS:
            found = set()
            for case in self.random_lists(SEED + 14, 60):
                found |= self.compare(remove, *case)[0]
            self.assertEqual(found, finds)

    def test_where_a_run_is_refused(self):
        """Repeats count for 20, 21 and 31: of two lists of the same paths one may be refused, and the other not."""
        design, earlier = MARKED["M1"].design, graph_of(MARKED["M1"])
        once, twice = path_list_of([[1, 2]]), path_list_of([[1, 2]] * 2)
        # from the design 5 + 1 candidates, 2 and 4, and twice 5 + 2, 4 and 4; from the graph 6 + 2, 2 and 5, and twice 6 + 4, 4 and 5
        for graph, words, more in ((None, 96, 120), (earlier, 120, 152)):
            self.assertEqual([refusal(design, path_list, graph, lent) for path_list, lent in
                              ((once, words - 1), (once, words), (twice, words), (twice, more - 1), (twice, more))],
                             [(31, 0), None, (31, 0), (31, 0), None])
            self.assertEqual(removed(design, once, graph, words), removed(design, twice, graph, more))
        row = decks.braid(9, (4, 7), []).design
        earlier = w.true_graph(row, path_list_of([[9, 5, 6, 10]]))
        for path, most, number in ((range(8), 1024, 20), (range(9), 910, 21)):
            for graph in (None, earlier):
                once = remove_paths(row, [path], graph)
                self.assertNotEqual(once, remove_paths(row, [], graph))        # so that it makes a difference whether it is listed
                self.assertEqual(remove_paths(row, [path] * most, graph), once)
                self.assertEqual(refusal(row, path_list_of([path] * (most + 1)), graph), (number, 0))


class Packing(unittest.TestCase):
    def test_numbers(self):
        edges = {0, 2 ** 32 - 1} | {2 ** (7 * k) + d for k in range(1, 5) for d in (-1, 0, 1)}
        for number in edges:
            data = w.write_number(number)
            self.assertEqual(w.read_number(b"\xff" + data + b"\xff", 1), (number, 1 + len(data)))
            for cut in range(len(data)):
                self.assertEqual(w.refusal_of(w.read_number, data[:cut], 0), (1, cut))
        for delay in (0, 1, -1, 1_000_000, -1_000_000, 2 ** 31 - 1, -2 ** 31):
            self.assertEqual(w.unpack_delay(w.pack_delay(delay)), delay)
            self.assertTrue(0 <= w.pack_delay(delay) < 2 ** 32)
        self.assertEqual([w.pack_delay(d) for d in (3, 0, -1, -4)], [6, 0, 1, 7])

    def test_accepted_bytes_are_written_ones(self):
        """A number is taken from bytes just when its written form is what they start with."""
        rng = random.Random(SEED)
        bytes_of_interest = [0, 1, 0x0E, 0x0F, 0x10, 0x7F, 0x80, 0x81, 0x8F, 0xFF]
        tries = [bytes(pair) for pair in itertools.product(range(256), repeat=2)]
        tries += [bytes(rng.choice(bytes_of_interest) for _ in range(rng.randint(3, 6))) for _ in range(20000)]
        for data in tries:
            try:
                number, place = w.read_number(data, 0)
                self.assertEqual(data[:place], w.write_number(number))
            except w.Refused as refused:
                if refused.refusal[0] == 1:      # ends inside: all bytes ask for more, at most four
                    self.assertTrue(len(data) <= 4 and min(data) >= 0x80)
                    self.assertEqual(refused.refusal[1], len(data))
                else:
                    self.assertEqual(refused.refusal, (2, 0))
                    value = sum((byte & 0x7F) << (7 * at) for at, byte in enumerate(data[:5]))
                    last = next((at for at, byte in enumerate(data[:5]) if byte < 0x80), None)
                    self.assertTrue(last is None or value >= 2 ** 32 or data[last] == 0)

    def test_decks_and_graphs_there_and_back(self):
        for data in decks.deck_files(SEED, 1500):
            number, result = w.c_call(data, 10 ** 6)
            self.assertTrue(number >= 2 if result else number <= -1)
            self.assertEqual(number < 0, w.deck_program(data).startswith("refused"))
            try:
                deck = w.read_deck(data, w.PROGRAM_TABLES)
            except w.Refused:
                continue
            self.assertEqual(w.write_deck(deck, len(data)), data)
            if result:
                graph = w.read_graph(result, w.PROGRAM_ROOM)
                self.assertEqual(w.write_graph(graph, len(result)), result)
                self.assertEqual(graph, graph_of(deck))


class Claims(unittest.TestCase):
    """Claims of document 01 on random small designs."""
    def decks(self, count, seed=SEED):
        rng = random.Random(seed)
        for _ in range(count):
            deck = decks.random_deck(rng)
            yield rng, deck, w.design_as_graph(deck.design)

    def check_removal(self, design, path_list, worked_on, result):
        self.assertTrue(w.is_well_formed(design, result))
        # the paths of the result, taken back, are the permitted paths, each once
        back, wanted = taken_back(design, result), permitted(design, worked_on, path_list)
        self.assertEqual(sorted(back), sorted(wanted))
        self.assertEqual(len(back), len(set(back)))
        self.assertLessEqual(len(result.copy_nodes), w.candidates(design, path_list, worked_on))

    def test_removal_from_the_design(self):
        for _, deck, worked_on in self.decks(500):
            result = removed(deck.design, deck.path_list)
            self.check_removal(deck.design, deck.path_list, worked_on, result)
            bound = deck.design.nodes + len(deck.path_list.flat) - len(deck.path_list.lengths)
            self.assertEqual(bound, w.candidates(deck.design, deck.path_list, worked_on))
            self.assertLessEqual(len(result.copy_nodes), bound)
            # "an isolated node always keeps its one copy"; a source has at most one
            for node in set(range(deck.design.nodes)) - set(deck.design.ends):
                if node not in deck.design.starts:
                    self.assertEqual(result.copy_nodes.count(node), 1)
                self.assertLessEqual(result.copy_nodes.count(node), 1)

    def test_times_and_node_records(self):
        for _, deck, worked_on in self.decks(500, SEED + 1):
            design, allowed_time = deck.design, deck.allowed_time
            graph = graph_of(deck)
            self.assertEqual(w.copy_times(design, graph, allowed_time), times_by_edges(design, graph, allowed_time))
            paths = permitted(design, worked_on, deck.path_list)
            self.assertEqual(records(deck, graph), records_of_paths(design, paths, allowed_time))

    def test_an_empty_list_gives_the_design_and_twice_is_once(self):
        for _, deck, worked_on in self.decks(200, SEED + 2):
            uncut = w.true_graph(deck.design, NO_LIST)
            self.assertEqual(uncut.copy_nodes, worked_on.copy_nodes)
            self.assertEqual(uncut.endpoints, worked_on.endpoints)
            self.assertEqual(sorted(zip(*uncut[2:])), sorted(zip(*worked_on[2:])))
            once = graph_of(deck)
            self.assertEqual(removed(deck.design, NO_LIST, once), once)
            twice = removed(deck.design, deck.path_list, once)
            self.assertTrue(w.same_within_nodes(deck.design, twice, once))

    def test_foreign_graphs(self):
        damaged = 0
        for rng, deck, _ in self.decks(400, SEED + 3):
            design = deck.design
            foreign = decks.random_foreign_graph(rng, design)
            self.assertTrue(w.is_well_formed(design, foreign))
            self.assertEqual(w.copy_times(design, foreign, 50), times_by_edges(design, foreign, 50))
            for earlier in [foreign] + [decks.damage_graph(rng, foreign) for _ in range(3)]:
                if w.is_well_formed(design, earlier):
                    result = removed(design, deck.path_list, earlier)
                    self.check_removal(design, deck.path_list, earlier, result)
                else:
                    self.assertEqual(refusal(design, deck.path_list, earlier, 0), (32, 0))
                    damaged += 1
        self.assertGreater(damaged, 100)

    def test_renumbering_checker(self):
        for rng, deck, _ in self.decks(200, SEED + 4):
            graph = graph_of(deck)
            if max((graph.copy_nodes.count(node) for node in graph.copy_nodes), default=0) > 4 \
                    or len(graph.copy_nodes) > 14:
                continue
            shuffled = renumbered(rng, graph)
            self.assertTrue(w.same_within_nodes(deck.design, shuffled, graph))
            self.assertTrue(same_by_trying(shuffled, graph))
            for _ in range(3):
                other = decks.damage_graph(rng, shuffled)
                if w.is_well_formed(deck.design, other):
                    self.assertEqual(w.same_within_nodes(deck.design, other, graph), same_by_trying(other, graph))

    def test_demand_3(self):
        rng = random.Random(SEED + 5)
        seen, differently_numbered, held_series = set(), 0, 0
        for _ in range(600):
            design = decks.random_design(rng)
            calls = decks.random_series(rng, design)
            refusals, held = w.run_series(design, calls)
            wanted, whole = w.series_from_calls_alone(design, calls)
            self.assertEqual(refusals, wanted)
            self.assertEqual(held is None, whole is None)
            seen.update(found[0] for found in refusals if found)
            if held is not None:
                true = w.true_graph(design, whole)
                self.assertTrue(w.same_within_nodes(design, held, true))
                held_series += 1
                differently_numbered += held != true
        self.assertGreater(held_series, 300)
        self.assertGreater(differently_numbered, 0)       # so only a renumbering can be claimed
        self.assertTrue({22, 23, 24, 30, 31, 33, 34} <= seen, seen)

    def test_marked_nodes_by_an_edge_to_a_sink(self):
        """Paths that end at a marked node are those of the design with a further edge from it to a sink of its own, of delay 0."""
        for _, deck, _ in self.decks(300, SEED + 7):
            design = deck.design
            inner = [node for node in design.marked if node in design.starts]
            edges = list(zip(*design[1:5])) + [(node, design.nodes + number, 0) for number, node in enumerate(inner)]
            other = deck_of(design.nodes + len(inner), edges, w.listed_paths(deck.path_list), deck.allowed_time)
            back = [(first, tuple(edge for edge in run if edge < len(design.starts))) for first, run in taken_back(other.design, graph_of(other))]
            self.assertEqual(sorted(taken_back(design, graph_of(deck))), sorted(back))
            self.assertEqual(records(deck, graph_of(deck)), records(other, graph_of(other))[:design.nodes])


if __name__ == "__main__":
    unittest.main()
