#!/usr/bin/env python3
"""The cases of crates/times_cases and what they must print.

python3 tests/times_cases.py           writes crates/times_cases/stdin and stdout
python3 tests/times_cases.py --check   says whether the two files are what it would write

Every expected answer is what tests/walker.py, the separate program, finds on all paths of a graph, or refuses it with.
A graph goes in as packed numbers, its slices each by itself, so that they need not belong together
(crates/times_cases/src/main.rt).
"""
import random

import expected
import walker
from decks import (A_BACK_EDGES, A_EDGES, HOLD, HOLD_EDGES, M8_EDGES, MARKED, deck_of, decks_with_marked, design_and_lists, design_of,
                   earlier_graph, gains, path_list_of, random_design, random_foreign_graph, random_paths)

TABLE = 4200                # the program's
BLOCKS = 3                  # the program's
NUMBERS = (30, 10, 12, 13, 14, 15, 16, 25, 32)     # 11 takes longer slices: unfit_cases has it
LENT = 77                   # what stands in the program's slice of arrivals before it asks whether a graph is late
DELAYS = ("early", "late")
GRAPH_EDGES = ("copy_starts", "copy_ends", "names")
SLICES = ("starts", "ends", *DELAYS, "marked", "copy_nodes", "endpoints", *GRAPH_EDGES)


def printed(k):
    return k < 64 or k % 512 == 511


def packed_slice(numbers):
    """How many numbers follow, how many more there are, by how much each of these rises, the numbers."""
    best = (len(numbers), 0)
    for rise in (0, 1):
        stored = len(numbers)
        while stored > 1 and numbers[stored - 1] == numbers[stored - 2] + rise:
            stored -= 1
        best = min(best, (stored, rise))
    stored, rise = best
    return [stored, len(numbers) - stored, rise, *numbers[:stored]]


class Given:
    """n, T, a node, a design's slices, a graph's, and the lengths of the slices for times, for arrivals alone and for records."""

    def __init__(self, design, graph, allowed, node):
        self.nodes, self.allowed, self.node = design.nodes, allowed, node
        self.starts, self.ends, self.early, self.late, self.marked = (list(part) for part in design[1:])
        self.copy_nodes, self.endpoints, self.names = list(graph.copy_nodes), list(graph.endpoints), list(graph.design_edges)
        self.copy_starts, self.copy_ends = list(graph.starts), list(graph.ends)
        self.places = [self.nodes] * 5
        self.lend_for_copies()

    def lend_for_copies(self):
        """A place for each copy: four slices for times, and one for the arrivals of `late`."""
        self.rooms, self.lent = [len(self.copy_nodes)] * 4, len(self.copy_nodes)

    def design(self):
        return walker.Design(self.nodes, self.starts, self.ends, self.early, self.late, self.marked)

    def graph(self):
        return walker.Graph(self.copy_nodes, self.endpoints, self.copy_starts, self.copy_ends, self.names)

    def packed(self):
        numbers = [self.nodes, self.allowed, self.node, *self.rooms, self.lent, *self.places]
        for name in SLICES:
            part = getattr(self, name)
            assert len(part) <= TABLE
            numbers += packed_slice([walker.pack_delay(delay) for delay in part] if name in DELAYS else part)
        return b"".join(walker.write_number(number) for number in numbers)


# ---- What the program prints ---------------------------------------------------------------

def refused_line(refusal):
    return walker.printed_refusal(refusal) + "\n"


def times_line(times):
    return "none\n" if times is None else "%d %d %d %d\n" % tuple(times)


class Seen:
    """What the cases show, so that nothing is missing."""

    def __init__(self):
        self.times, self.record, self.records = set(), set(), set()
        self.passed = self.none = self.past = self.own_slack = self.large = 0
        self.not_by_late = self.below_zero = self.not_first = self.not_last = 0     # earliest arrivals
        self.by_T = self.from_further_on = 0                                        # required where paths end and go on
        self.late, self.late_alone = set(), 0                                       # refusals of `late`, and how many are its own
        self.is_late = self.on_time = self.equal = self.above_inside = self.goes_on = self.several = self.unchanged = 0
        self.at_copy_1 = self.at_the_last = self.below_T_0 = 0


def see_earliests(seen, design, graph, found):
    """Whether a wrong earliest arrival would show: one by late delays, one that stops at 0, one of a node's first or last copy."""
    if len(graph.copy_nodes) > 100:
        return
    by_late = walker.copy_times(design._replace(early=design.late), graph, 0)
    seen.not_by_late += any(times.earliest != late.earliest for times, late in zip(found, by_late))
    seen.below_zero += any(times.earliest < 0 for times in found)
    of_node = {}
    for node, times in zip(graph.copy_nodes, found):
        of_node.setdefault(node, []).append(times.earliest)
    seen.not_first += any(min(earliests) != earliests[0] for earliests in of_node.values())
    seen.not_last += any(min(earliests) != earliests[-1] for earliests in of_node.values())


def see_requireds(seen, design, graph, found, allowed):
    """Whether a wrong required time would show where paths end and go on: T alone, or T left out."""
    for copy, times in enumerate(found):
        if graph.endpoints[copy] == 1 and copy in graph.starts:
            further = min(found[end].required - design.late[edge]
                          for start, end, edge in zip(graph.starts, graph.ends, graph.design_edges) if start == copy)
            seen.by_T += further > allowed
            seen.from_further_on += further < allowed


def see_late(seen, graph, found, copy, allowed):
    """Whether a wrong answer would show: late at T itself, late where no path ends, on time where paths go on, the last late end, a place
    written too many, the lowest copy that can be late or the last one left out, an arrival that stops at 0."""
    late_ends = [c for c, number in enumerate(graph.endpoints) if number == 1 and found[c].arrival > allowed]
    seen.is_late += copy is not None
    seen.on_time += copy is None
    seen.equal += copy is None and any(number == 1 and times.arrival == allowed for number, times in zip(graph.endpoints, found))
    seen.above_inside += copy is None and any(times.arrival > allowed for times in found)
    seen.goes_on += copy is not None and copy in graph.starts
    seen.several += len(late_ends) > 1
    seen.unchanged += copy is not None and copy + 1 < len(found)
    seen.at_copy_1 += copy == 1
    seen.at_the_last += copy == len(found) - 1
    seen.below_T_0 += allowed == 0 and any(times.arrival < 0 for times in found)


def late_lines(given, found, seen):
    """The answer, and the arrivals, which a refusal leaves as they were lent. `found` are the times, or None where these are refused."""
    graph, written = given.graph(), []
    try:
        copy, written = walker.late(given.design(), graph, given.allowed, given.lent)
        text = "on time\n" if copy is None else "late %d\n" % copy
        if found is not None:
            see_late(seen, graph, found, copy, given.allowed)
    except walker.Refused as refused:
        text = refused_line(refused.refusal)
        seen.late.add(refused.refusal[0])
        seen.late_alone += found is not None
    arrivals = walker.lent_after([LENT] * given.lent, written)
    return text + "arrivals" + "".join(" %d" % arrival for copy, arrival in enumerate(arrivals) if printed(copy)) + "\n"


def lines(given, seen):
    """What the program prints of a case, by the separate program."""
    design, graph, found = given.design(), given.graph(), None
    columns = [[0] * length for length in given.rooms]      # what the program lends, and a refusal leaves
    try:
        found = walker.times(design, graph, given.allowed, given.rooms)
        columns = [[times[k] for times in found] for k in range(4)]
        text = "".join("copy %d " % copy + times_line(times) for copy, times in enumerate(found) if printed(copy))
        seen.passed += 1
        seen.large += any(abs(time) > 2 ** 32 for times in found for time in times)
        see_earliests(seen, design, graph, found)
        see_requireds(seen, design, graph, found, given.allowed)
    except walker.Refused as refused:
        text = refused_line(refused.refusal)
        seen.times.add(refused.refusal[0])
    try:
        record = walker.node_record(given.nodes, given.copy_nodes, *columns, given.node)
        text += "record %d " % given.node + times_line(record)
        seen.past += given.node >= given.nodes
    except walker.Refused as refused:
        text += refused_line(refused.refusal)
        seen.record.add(refused.refusal[0])
    try:
        nodes = [node for node in range(given.nodes) if printed(node)]
        records = walker.node_records(given.nodes, given.copy_nodes, *columns, given.places, nodes)
        text += "".join("node %d " % node + times_line(record) for node, record in zip(nodes, records))
        seen.none += None in records
        seen.own_slack += any(record and record.slack != record.required - record.arrival for record in records)
    except walker.Refused as refused:
        text += refused_line(refused.refusal)
        seen.records.add(refused.refusal[0])
    return text + late_lines(given, found, seen)


# ---- Cases ---------------------------------------------------------------------------------

def of_deck(deck, node):
    return Given(deck.design, walker.true_graph(deck.design, deck.path_list), deck.allowed_time, node)


def chain(early, late, allowed, node, marked=()):
    """4,096 nodes, one after the other."""
    design = walker.Design(4096, list(range(4095)), list(range(1, 4096)), [early] * 4095, [late] * 4095, list(marked))
    return Given(design, walker.design_as_graph(design), allowed, node)


def fixed():
    for deck in MARKED.values():
        for node in range(deck.design.nodes + 1):
            yield of_deck(deck, node)
    yield of_deck(MARKED["M1"], 4294967295)
    for delay in (-1_000_000, -7, 0, 1_000_000):
        for edge in range(4):
            edges = [(start, end, delay if number == edge else old) for number, (start, end, old) in enumerate(A_EDGES)]
            yield of_deck(deck_of(5, edges, [[1, 2]], 10), 2)
    yield of_deck(deck_of(5, [(start, end, -old) for start, end, old in A_EDGES], [[1, 2]], 0), 2)
    for node in range(HOLD.design.nodes):
        yield of_deck(HOLD, node)
    yield of_deck(deck_of(5, HOLD_EDGES, [[2, 3], [1, 4]], 150), 2)           # a node whose second copy is the earlier one
    for below in (1, 4, 900_000):
        yield of_deck(deck_of(5, [(start, end, old - below, old) for start, end, old in A_EDGES], [[1, 2]], 10), 2)
    for early, late, allowed, node in ((1_000_000, 1_000_000, 0, 4095), (-1_000_000, -1_000_000, 1_000_000_000, 4095),
                                       (-1_000_000, -1_000_000, 0, 4096), (-1_000_000, 1_000_000, 0, 4095)):
        yield chain(early, late, allowed, node)
    yield chain(-1_000_000, -1_000_000, 5, 2000, [2000])
    yield from with_marked()
    yield from late_or_not()
    yield from longer_lists()


def late_or_not():
    """Document 02, request 10: T around each arrival where paths end, delays that bring an arrival above T back, chains, and the one slice."""
    for marked in ([], [2], [0, 1, 2, 3, 4]):
        for allowed in range(8):
            yield of_deck(deck_of(5, A_EDGES, [[1, 2]], allowed, marked), 2)
    # copy 0 is a source's, with arrival 0: the lowest that can be late is copy 1
    for delay, allowed in ((1, 0), (1, 1), (0, 0), (-1, 0), (1_000_000, 999_999), (1_000_000, 1_000_000)):
        yield of_deck(deck_of(2, [(0, 1, delay)], [], allowed), 1)
    for edges in ([(0, 1, 8), (1, 2, -3), (2, 3, 1)], [(0, 1, -9, 8), (1, 2, -9), (2, 3, 1)], [(0, 1, -2), (1, 2, -1, 2), (2, 3, 1)]):
        for marked in ([], [1], [2], [1, 2]):
            for allowed in (0, 1, 4, 5, 6, 7, 8):
                yield of_deck(deck_of(4, edges, [], allowed, marked), 2)
    # late at the last copy; there at T exactly
    yield chain(-1, 1, 4094, 4095)
    yield chain(-1, 1, 4095, 4095)
    # at copy 1,000 at T exactly, then late at 1,023, which is printed, or at 1,022, so that 1,023 is printed as it was lent
    yield chain(-1, 1_000_000, 1_000_000_000, 4095, [1000, 1023])
    yield chain(-1, 1_000_000, 1_000_000_000, 4095, [1000, 1022, 1023])
    # above T at every copy but the first and the last, and there at T exactly
    comes_back = chain(-1_000_000, -1, 995_906, 4095)
    comes_back.late[0] = 1_000_000
    yield comes_back
    for lent in (4095, 4097):
        yield with_lent(chain(1, 1, 5, 4095), lent)
    for lent in (0, 5, 7, 12):
        for allowed in (4, 1_000_000_001):
            yield with_lent(of_deck(deck_of(5, A_EDGES, [[1, 2]], allowed), 2), lent)
    yield from refused_in_order()


def refused_in_order():
    """Each refusal of `late` where all later tests would refuse, too; an edge at fault for 12 stands behind one for 13, and so on."""
    faulty, unfit, over = [(0, 2, 1, 0), (0, 2, 0, 2_000_000), (3, 1, 0), (0, 5000, 0)], walker.Graph([9], [0], [], [], []), 1_000_000_001
    for number, nodes, edges, marked, allowed, lent in (
            (30, 4097, faulty, [2, 2], over, 0), (30, 4097, faulty, [2, 2], over, 2), (10, 4097, faulty, [2, 2], over, 1),
            *((15 - last, 5, faulty[:last + 1], [2, 2], over, 1) for last in (3, 2, 1, 0)),
            (16, 5, [], [2, 2], over, 1), (25, 5, [], [], over, 1), (32, 5, [], [], over - 1, 1)):
        given = with_lent(Given(design_of(nodes, edges, marked), unfit, allowed, 2), lent)
        assert walker.refusal_of(walker.late, given.design(), unfit, allowed, lent)[0] == number
        yield given


def lists_to_extend(chance):
    """Designs, each with T, the graph to remove from, or none, and lists, of which each has all paths of the one before."""
    yield design_of(5, A_EDGES), 6, None, [[], [[1, 2]], [[0, 3], [1, 2]], [[0, 3], [2], [1, 2]], [[1], [0, 3], [2], [1, 2]]]
    yield design_of(5, A_BACK_EDGES, [2]), 4, None, [[], [[1, 3]], [[1, 3], [1, 2]], [[1], [1, 3], [1, 2]]]
    yield HOLD.design, 100, None, [[], [[2, 3]], [[1, 4], [2, 3]], [[0], [1, 4], [2, 3]]]
    yield design_of(6, M8_EDGES, [4]), 3, None, [[], [[0, 2, 3]], [[0, 2, 3], [1, 2, 3, 4]], [[5], [0, 2, 3], [1, 2, 3, 4]]]
    for number in range(17):
        design, paths, _, longer = design_and_lists(chance)
        earlier = earlier_graph(chance, design) if number % 2 else None
        graph, other = (walker.true_graph(design, path_list_of(each), earlier) for each in (paths, longer))
        if other != graph:
            yield design, near_arrivals(chance, design, graph), earlier, [paths, longer]


def longer_lists():
    """Document 02, request 12: "if a list is extended by any paths, no node's slack falls and no node's arrival rises". The records of a list's
    graph, and with the same T of the graph of the list extended, which are no worse: the program prints both."""
    chance, gained = random.Random(12), set()
    for design, allowed, earlier, lists in lists_to_extend(chance):
        before = None
        for paths in lists:
            graph = walker.true_graph(design, path_list_of(paths), earlier)
            records = walker.records_of(design, graph, walker.copy_times(design, graph, allowed))
            if before is not None:
                assert all(map(walker.no_worse, before, records))
                gained |= gains(before, records)
            before = records
            yield Given(design, graph, allowed, chance.randrange(design.nodes + 1))
    assert gained == {"none", *walker.Times._fields}


def with_lent(given, lent):
    given.lent = lent
    return given


def with_marked():
    """Deck A with node 2 marked, and with its edge to node 4 short or below 0; then every fixed deck with marked nodes that is right."""
    for edges in (A_EDGES, A_BACK_EDGES):
        for marked in ([2], [0], [0, 1, 2], [3], [0, 1, 2, 3, 4]):
            for paths in ([[1, 2]], [], [[2], [3]], [[0, 2], [0, 3]]):
                yield of_deck(deck_of(5, edges, paths, 10, marked), 2)
    for number, deck in enumerate(decks_with_marked()):
        if deck.design.nodes <= 6 and not walker.design_refusal(deck.design) and not walker.list_refusal(deck.design, deck.path_list):
            yield of_deck(deck, number % 6)


def change_a_number(given, chance):
    part = getattr(given, chance.choice(("copy_nodes", "endpoints", *GRAPH_EDGES)))
    if part:
        k = chance.randrange(len(part))
        part[k] = max(0, chance.choice((part[k] - 1, part[k] + 1, part[k] + 2, chance.randrange(6))))


def edge_count(given):
    """By the shortest slice: an earlier damage may have made one longer."""
    return min(len(getattr(given, name)) for name in GRAPH_EDGES)


def drop_an_edge(given, chance):
    if edge_count(given):
        k = chance.randrange(edge_count(given))
        for name in GRAPH_EDGES:
            del getattr(given, name)[k]


def swap_or_repeat_an_edge(given, chance):
    if edge_count(given) > 1:
        k = chance.randrange(edge_count(given) - 1)
        twice = chance.random() < 0.5
        for name in GRAPH_EDGES:
            part = getattr(given, name)
            part[k:k + 2] = [part[k]] * 2 if twice else [part[k + 1], part[k]]


def one_more_copy(given, chance):
    given.copy_nodes.append(chance.choice((given.nodes - 1 if given.nodes else 0, given.nodes)))
    given.endpoints.append(chance.choice((0, 1)))
    given.lend_for_copies()


def one_copy_less(given, chance):
    if given.copy_nodes and given.endpoints:
        given.copy_nodes.pop()
        given.endpoints.pop()
        given.lend_for_copies()


def change_an_end(given, chance):
    """Paths end at a copy where they did not, or no more where they did; or it has a number that is neither."""
    if given.endpoints:
        k = chance.randrange(len(given.endpoints))
        given.endpoints[k] = chance.choice((1 - min(given.endpoints[k], 1),) * 5 + (2,))


def other_marked(given, chance):
    """Other marked nodes for the same graph: right ones, more often than not."""
    if chance.random() < 0.5 and given.marked:
        given.marked.pop(chance.randrange(len(given.marked)))
    else:
        given.marked.append(chance.choice((given.nodes - 1 if given.nodes else 0, given.nodes, chance.randrange(8))))
        if chance.random() < 0.6:
            given.marked = sorted(set(given.marked))


def other_sizes(given, chance):
    if chance.random() < 0.5:
        given.rooms[chance.randrange(4)] += chance.choice((1, 2))
    else:
        getattr(given, chance.choice(("endpoints", *GRAPH_EDGES))).append(0)


def other_lent(given, chance):
    given.lent = max(0, given.lent + chance.choice((-1, 1, 2)))


def other_places(given, chance):
    k = chance.randrange(5)
    given.places[k] = max(0, given.places[k] + chance.choice((-1, 1)))


def damage_the_design(given, chance):
    name = chance.choice(("10", "12", "13", "14", "15", "25", "30"))
    if name == "10":
        given.nodes = 4097
        given.places = [4097] * 5
    elif name == "25":
        given.allowed = 1_000_000_001
    elif name == "30":
        getattr(given, chance.choice(DELAYS)).append(0)
    elif given.starts:
        k = chance.randrange(len(given.ends))
        if name == "12":
            given.ends[k] = given.nodes
        elif name == "13":
            given.ends[k] = given.starts[k]
        elif name == "14":
            getattr(given, chance.choice(DELAYS))[k] = chance.choice((1_000_001, -1_000_001))
        else:
            given.early[k] = given.late[k] + 1


DAMAGES = (change_a_number, change_a_number, drop_an_edge, swap_or_repeat_an_edge, one_more_copy, one_copy_less, change_an_end,
           change_an_end, other_marked, other_sizes, other_lent, other_places, damage_the_design)


def near_arrivals(chance, design, graph):
    """T about the arrival at a copy where paths end: below it, exactly it or above it."""
    arrivals = [times.arrival for times, number in zip(walker.copy_times(design, graph, 0), graph.endpoints) if number == 1]
    return max(0, chance.choice(arrivals) + chance.choice((-1, -1, 0, 0, 1))) if arrivals else 0


def with_quick_ends(design):
    """Edges into sinks take less, so that what arrives before them above T may come back."""
    early, late = ([delay if end in design.starts else max(-1_000_000, delay - 200) for delay, end in zip(delays, design.ends)]
                   for delays in (design.early, design.late))
    return design._replace(early=early, late=late)


def random_given(chance):
    """A graph of a design: the true graph of some listed paths, or one from elsewhere."""
    design = random_design(chance, most_nodes=7, most_edges=10)
    if chance.random() < 0.4:
        design = with_quick_ends(design)
    paths = random_paths(chance, design, 4) if design.starts else []
    if chance.random() < 0.25:
        graph = random_foreign_graph(chance, design)
    else:
        graph = walker.true_graph(design, walker.PathList([len(path) for path in paths], [edge for path in paths for edge in path]))
    allowed = near_arrivals(chance, design, graph) if chance.random() < 0.7 else chance.choice((0, 10, 1_000_000_000))
    return Given(design, graph, allowed, chance.randrange(design.nodes + 2))


def cases():
    yield from fixed()
    chance = random.Random(32)
    for _ in range(300):
        yield random_given(chance)
    for _ in range(1000):
        given = random_given(chance)
        for _ in range(chance.choice((1, 1, 1, 2, 3))):
            chance.choice(DAMAGES)(given, chance)
        yield given


def main():
    seen = Seen()
    all_cases = list(cases())
    text = "".join(lines(given, seen) for given in all_cases)
    assert set(NUMBERS) <= seen.times and {30, 10} <= seen.record and {30, 10} <= seen.records
    assert min(seen.none, seen.past, seen.own_slack, seen.large) > 0
    assert min(seen.not_by_late, seen.below_zero, seen.not_first, seen.not_last, seen.by_T, seen.from_further_on) > 0
    assert set(NUMBERS) <= seen.late and seen.late_alone > 0
    assert min(seen.is_late, seen.on_time, seen.equal, seen.above_inside, seen.goes_on, seen.several, seen.unchanged) > 20
    assert min(seen.at_copy_1, seen.at_the_last, seen.below_T_0) > 0
    expected.keep("times_cases", expected.in_blocks([given.packed() for given in all_cases], BLOCKS), text.encode())
    print("times_cases: %d graphs, %d of them pass; %d are late" % (len(all_cases), seen.passed, seen.is_late))


if __name__ == "__main__":
    main()
