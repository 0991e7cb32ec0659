#!/usr/bin/env python3
"""Random and damaged decks, graphs and series for comparing programs with walker.py.

    python3 decks.py SEED COUNT DIR      writes DIR/deck-0000.bin, deck-0001.bin, ...

The first files are the fixed decks (marked cases, limits); the rest is random. The same
seed gives the same files. Designs stay small enough that all their paths can be walked.
"""
import os
import random
import sys
from walker import WORDS_PER_UNIT, Call, Deck, Design, Graph, PathList, Room, Times, deck_numbers, true_graph, write_number

WIDE_ROOM = Room(16384, 16384, 65536, 65536, 65536)


# ---- Values ------------------------------------------------------------------------------

def path_list_of(paths):
    return PathList([len(path) for path in paths], [edge for path in paths for edge in path])


def random_delay(rng):
    return rng.choice([0, 1, -1, 63, 64, -64, -65, 1_000_000, -1_000_000] + [rng.randint(-20, 20)] * 12)


def random_delays(rng):
    """An early and a late delay: the early one below the late one more often than not, else equal; of one sign or of two."""
    late = random_delay(rng)
    return (late, late) if rng.random() < 0.3 else sorted((random_delay(rng), late))


def design_of(nodes, edges, marked=()):
    """An edge is its start, its end, and its early and its late delay, or the one delay that is both."""
    return Design(nodes, *([edge[part] for edge in edges] for part in (0, 1, 2, -1)), list(marked))


def room_of(copies, edges):
    return Room(copies, copies, edges, edges, edges)


def random_marked(rng, nodes, starts, ends):
    """Marked nodes, rising: none, any, all, or only such as are of one kind, with sinks and isolated nodes among them."""
    kind = rng.choice("none none any any any one inner inner sources sinks isolated all".split())
    has_edge_in, has_edge_out = set(ends), set(starts)
    among = {"any": lambda node: rng.random() < 0.4, "all": lambda node: True,
             "inner": lambda node: node in has_edge_in and node in has_edge_out and rng.random() < 0.7,
             "sources": lambda node: node not in has_edge_in and (node in has_edge_out or rng.random() < 0.3),
             "sinks": lambda node: node not in has_edge_out and (node in has_edge_in or rng.random() < 0.3),
             "isolated": lambda node: node not in has_edge_in and node not in has_edge_out}
    if kind == "one":
        return [rng.randrange(nodes)] if nodes else []
    return [node for node in range(nodes) if kind in among and among[kind](node)]


def random_design(rng, most_nodes=8, most_edges=14):
    """0 to most_nodes nodes; parallel edges and isolated nodes come by themselves. Two in three
    are dense (few nodes, many edges), so that nodes get several copies. Most have marked nodes."""
    dense = rng.random() < 0.67
    nodes = rng.randint(3, max(3, most_nodes - 2)) if dense else rng.randint(0, most_nodes)
    starts, ends = [], []
    for _ in range(rng.randint(most_edges // 2 if dense else 0, most_edges) if nodes >= 2 else 0):
        if starts and rng.random() < 0.15:                       # parallel to an earlier edge
            twin = rng.randrange(len(starts))
            start, end = starts[twin], ends[twin]
        elif rng.random() < 0.4:                                 # short steps make long paths
            start = rng.randrange(nodes - 1)
            end = start + 1
        else:
            start, end = sorted(rng.sample(range(nodes), 2))
        starts.append(start)
        ends.append(end)
    edges = [(start, end, *random_delays(rng)) for start, end in zip(starts, ends)]
    return design_of(nodes, edges, random_marked(rng, nodes, starts, ends))


def random_run(rng, design, most_length):
    """Some edges of the design, each starting where the one before ends."""
    goes_on = [edge for edge, end in enumerate(design.ends) if end in set(design.starts)]
    run = [rng.choice(goes_on) if most_length > 1 and goes_on else rng.randrange(len(design.starts))]
    while len(run) < most_length:
        after = [edge for edge, start in enumerate(design.starts) if start == design.ends[run[-1]]]
        if not after:
            break
        run.append(rng.choice(after))
    return run


def random_paths(rng, design, most_paths=6):
    """Listed paths with repeats, paths inside others, overlapping ones, single edges."""
    paths = []
    if not design.starts:
        return paths
    for _ in range(rng.randint(0, most_paths)):
        kind = rng.random()
        if paths and kind < 0.1:
            paths.append(list(rng.choice(paths)))                                # a repeat
        elif paths and kind < 0.25:
            whole = rng.choice(paths)                                            # inside another
            start = rng.randrange(len(whole)) if rng.random() < 0.5 else 0
            paths.append(whole[start:start + rng.randint(1, 4)])
        elif paths and kind < 0.4:
            whole = rng.choice(paths)                                            # overlapping
            tail = whole[rng.randrange(len(whole)):]
            after = [edge for edge, start in enumerate(design.starts) if start == design.ends[tail[-1]]]
            before = [edge for edge, end in enumerate(design.ends) if end == design.starts[tail[0]]]
            paths.append(([rng.choice(before)] if before else []) + tail
                         + ([rng.choice(after)] if after else []))
        else:
            paths.append(random_run(rng, design, rng.choice([1, 2, 2, 2, 2, 3, 3, 3, 4, 4, 6])))
    if rng.random() < 0.04:
        paths += [[edge] for edge in range(len(design.starts))]                  # remove everything
    return paths


def shuffled(rng, paths):
    """The same paths in another order, some of them more often."""
    paths = paths + [path for path in paths if rng.random() < 0.4]
    return rng.sample(paths, len(paths))


def extended(rng, design, paths):
    """The paths, and further ones put in anywhere among them."""
    paths = list(paths) if rng.random() < 0.5 else shuffled(rng, paths)
    for path in random_paths(rng, design, 2) + [random_run(rng, design, rng.choice((1, 2, 3)))]:
        paths.insert(rng.randint(0, len(paths)), path)
    return paths


def design_and_lists(rng):
    """A design, a list of two paths or more, the same paths reordered and repeated, and the list extended."""
    paths = []
    while len(paths) < 2:
        design = random_design(rng)
        paths = random_paths(rng, design, 4)
    return design, paths, shuffled(rng, paths), extended(rng, design, paths)


def gains(before, after):
    """Of the records of all nodes, and of those once the list is extended: what changes at some node, by name. So that it can be seen that
    something does: else it says little that none is worse."""
    changed = [(old, new) for old, new in zip(before, after) if old != new]
    return {"none" for _, new in changed if new is None} | {
        name for old, new in changed if old and new for name in Times._fields if getattr(old, name) != getattr(new, name)}


def random_deck(rng):
    design = random_design(rng) if rng.random() < 0.95 else random_design(rng, 12, 22)
    allowed_time = rng.choice([0, 7, 10, 127, 128, 1_000_000_000, rng.randint(0, 100)])
    return Deck(design, path_list_of(random_paths(rng, design)), allowed_time)


# ---- Damage to the numbers -----------------------------------------------------------------

def damage_values(rng, deck):
    """One fault of the designer's in a deck; the parts of its edges stay of one length."""
    design, path_list, allowed_time = deck
    nodes, starts, ends, early, late, marked = design[0], *(list(part) for part in design[1:])
    paths, flat = [], list(path_list.flat)
    for length in path_list.lengths:
        paths.append(flat[:length])
        flat = flat[length:]
    kind = rng.choice("node node fall fall delay delay above above marked marked marked more_marked empty edge join join time fewer".split())
    at = rng.randrange(len(starts)) if starts else None
    which = rng.randrange(len(paths)) if paths else None
    if kind == "node" and starts:
        rng.choice([starts, ends])[at] = rng.choice([nodes, nodes + 1, 4096, 2 ** 32 - 1])
    elif kind == "fall" and starts:
        starts[at], ends[at] = rng.choice([(ends[at], starts[at]), (ends[at], ends[at])])
    elif kind == "delay" and starts:
        rng.choice([early, late])[at] = rng.choice([1_000_001, -1_000_001, 2 ** 31 - 1, -2 ** 31])
    elif kind == "above" and starts:
        early[at] = min(late[at] + rng.choice([1, 1, 2, 40]), 2 ** 31 - 1)
    elif kind == "marked":                                        # not below n, not rising, twice, or none of these by chance
        value = rng.choice([nodes, nodes + 1, 4096, 2 ** 32 - 1] + marked + list(range(nodes)))
        marked.insert(rng.randint(0, len(marked)), value)
    elif kind == "more_marked":                                   # more than n
        marked += [rng.randint(0, nodes)] * (nodes + rng.choice([0, 1, 1, 2]) - len(marked))
    elif kind == "empty":
        paths.insert(rng.randint(0, len(paths)), [])
    elif kind == "edge" and paths:
        paths[which].insert(rng.randint(0, len(paths[which])),
                            rng.choice([len(starts), len(starts) + 1, 2 ** 32 - 1]))
    elif kind == "join" and paths and starts:
        paths[which].insert(rng.randint(0, len(paths[which])), rng.randrange(len(starts)))
    elif kind == "time":
        allowed_time = rng.choice([1_000_000_001, 2 ** 32 - 1])
    elif kind == "fewer":
        nodes = max(0, nodes - 1)
    return Deck(Design(nodes, starts, ends, early, late, marked), path_list_of(paths), allowed_time)


def damage_counts(rng, numbers, deck):
    """A count or a length that does not say what follows, or lies above a limit or a table."""
    numbers = list(numbers)
    m, lengths = len(deck.design.starts), deck.path_list.lengths
    paths_at = 2 + 4 * m
    lengths_at = [paths_at + 1 + sum(lengths[:path]) + path for path in range(len(lengths))]
    marked_at = paths_at + 1 + sum(lengths) + len(lengths)
    nodes = deck.design.nodes
    at, values = rng.choice([(0, [4096, 4097]), (1, [1024, 1025, 16384, 16385]),
                             (paths_at, [256, 257, 1024, 1025]), (marked_at, [nodes, nodes + 1, 1024, 1025, 4096, 4097])]
                            + [(place, [1024, 1025, 8192, 8193, 2 ** 32 - 1]) for place in lengths_at])
    numbers[at] = rng.choice(values + [numbers[at] + 1, max(0, numbers[at] - 1), 2 ** 32 - 1])
    return numbers


# ---- Damage to the bytes -------------------------------------------------------------------

def bad_form(rng, number):
    """A number in a form that is refused: not shortest, or too large."""
    good = write_number(number)
    return rng.choice([
        good[:-1] + bytes([good[-1] | 0x80, 0x00]),
        good[:-1] + bytes([good[-1] | 0x80] + [0x80] * max(0, 4 - len(good)) + [0x00]),
        b"\x80\x00", b"\x80\x80", b"\x80" * 4, b"\x80" * 5, b"\x80\x80\x80\x80\x00",
        b"\xff\xff\xff\xff\x10", b"\xff\xff\xff\xff\x7f", b"\xff\xff\xff\xff\xff\x01",
    ])


def pack_badly(rng, numbers):
    forms = [write_number(number) for number in numbers]
    for _ in range(rng.choice([1, 1, 2])):
        at = rng.randrange(len(forms))
        forms[at] = bad_form(rng, numbers[at])
    return b"".join(forms)


def damage_bytes(rng, data):
    kind = rng.choice("cut cut more more change insert drop".split())
    if kind == "more":
        return data + bytes(rng.choice([[0], [0x80], [0, 0], [255] * 6, [rng.randrange(256)]]))
    if kind == "cut" or not data:
        return data[:rng.randint(0, max(0, len(data) - 1))]
    at = rng.randrange(len(data))
    value = bytes([rng.choice([0, 1, 2, 0x7F, 0x80, 0xFF, rng.randrange(256)])])
    if kind == "insert":
        return data[:at] + value + data[at:]
    return data[:at] + (value if kind == "change" else b"") + data[at + 1:]


def pack(numbers):
    return b"".join(write_number(number) for number in numbers)


def random_deck_bytes(rng):
    """A deck, sound half of the time, else with one or several faults of one or several kinds."""
    deck = random_deck(rng)
    if rng.random() < 0.5:
        return pack(deck_numbers(deck))
    kinds = rng.sample(["values", "values", "values", "counts", "form", "bytes"], rng.choice([1, 1, 1, 2, 2, 3]))
    if "values" in kinds:
        for _ in range(rng.choice([1, 1, 2, 3, 4])):
            deck = damage_values(rng, deck)
    numbers = deck_numbers(deck)
    if "counts" in kinds:
        numbers = damage_counts(rng, numbers, deck)
    data = pack_badly(rng, numbers) if "form" in kinds else pack(numbers)
    return damage_bytes(rng, data) if "bytes" in kinds else data


# ---- Fixed decks ----------------------------------------------------------------------------

DECK_A = bytes.fromhex("05 04 00 02 06 06 01 02 0A 0A 02 03 04 04 02 04 02 02 01 02 01 02 00 0A")


def deck_of(nodes, edges, paths, allowed_time, marked=()):
    return Deck(design_of(nodes, edges, marked), path_list_of(paths), allowed_time)


A_EDGES = [(0, 2, 3), (1, 2, 5), (2, 3, 2), (2, 4, 1)]
M8_EDGES = [(0, 2, 1), (1, 2, 1), (2, 3, 1), (3, 4, 1), (4, 5, 1), (3, 5, 1)]
MARKED = {
    "M1": deck_of(5, A_EDGES, [[1, 2]], 10),
    "M2": deck_of(0, [], [], 10),
    "M3": deck_of(1, [], [], 7),
    "M4": deck_of(5, A_EDGES, [[2]], 10),
    "M5": deck_of(5, A_EDGES, [[0, 2], [1, 2]], 10),
    "M6": deck_of(5, A_EDGES, [[1, 2], [0, 3]], 10),
    "M7": deck_of(3, [(0, 1, 1), (1, 2, 1)], [[0, 1]], 10),
    "M8": deck_of(6, M8_EDGES, [[0, 2, 3], [1, 2, 3, 4]], 10),
    "M9": deck_of(2, [(0, 1, -4)], [], 10),
}


# the design of decks/hold.txt: the path with the earliest arrival at node 3 is false
HOLD_EDGES = [(0, 1, 60, 90), (1, 2, 10, 15), (0, 2, 10, 15), (2, 3, 5, 10), (2, 4, 8, 12)]
HOLD = deck_of(5, HOLD_EDGES, [[2, 3]], 150)


# deck A with edge 3's delays -1: what comes from further on at node 2 is then later than T
A_BACK_EDGES = [(0, 2, 3), (1, 2, 5), (2, 3, 2), (2, 4, -1)]


def decks_with_marked():
    """Decks whose marked nodes change where paths end, and decks that 16 refuses."""
    found = [deck_of(5, edges, [[1, 2]], 10, marked) for edges in (A_EDGES, A_BACK_EDGES)
             for marked in ([2], [0], [1], [0, 1], [3], [4], [2, 3, 4], range(5))]
    # a listed path that ends at a marked node, that starts at one, that passes one; one of each at a time and together
    found += [deck_of(5, A_EDGES, paths, 10, marked) for marked in ([2], [0, 2], range(5))
              for paths in ([], [[0]], [[2]], [[0, 3]], [[0], [1]], [[2], [3]], [[0], [2], [1, 3]], [[0, 2], [0, 3], [1, 2], [1, 3]])]
    # all that remains ends at marked nodes; nothing remains but marked sources
    chain_edges = [(0, 1, 1), (1, 2, -2, 2), (2, 3, -9)]
    found += [deck_of(4, chain_edges, paths, 10, marked) for marked in ([1], [2], [1, 2], [0], [0, 3], [0, 1, 2, 3], [3])
              for paths in ([], [[2]], [[0, 1]], [[1, 2]], [[0, 1, 2]], [[0]], [[1]], [[0, 1], [1, 2]])]
    found += [deck_of(6, M8_EDGES, paths, 10, marked) for marked in ([3], [4], [2, 4], [2, 3, 4])
              for paths in ([[0, 2, 3], [1, 2, 3, 4]], [[0, 2], [1, 2, 3]], [[2, 3], [2, 5]])]
    # isolated nodes, marked and not
    found += [deck_of(4, [(1, 2, 7)], paths, 10, marked) for marked in ([0], [3], [0, 3], [1], [0, 1, 2, 3]) for paths in ([], [[0]])]
    found += [deck_of(nodes, [], [], 10, range(nodes)) for nodes in (0, 1, 2, 512)]
    # 16: not below n; equal; falling; at each index; with other faults
    found += [deck_of(5, A_EDGES, [[1, 2]], 10, marked)
              for marked in ([5], [4, 5], [2, 2], [3, 2], [0, 1, 1, 2], [0, 2, 1, 9], [0, 5, 4], [2 ** 32 - 1], [1, 0], [0, 0], [4, 4, 4, 4, 4])]
    found += [deck_of(5, edges, paths, time, [2, 1]) for edges, paths, time in
              (([(0, 2, 4, 3)], [], 10), ([(3, 1, 0)], [], 10), ([(0, 9, 0)], [], 10), ([(0, 1, 2_000_000)], [], 10), (A_EDGES, [[]], 10),
               (A_EDGES, [[9]], 10), (A_EDGES, [[2, 1]], 10), (A_EDGES, [], 2 ** 32 - 1), ([(0, 2, 4, 3)], [[]], 10))]
    # more marked nodes than nodes: 16 with place n, before they are read; then 36, above 1,024 of them
    found += [deck_of(nodes, [], [], 5, marked) for nodes, marked in
              ((0, [0]), (1, [0, 0]), (2, [0, 1, 1]), (5, range(6)), (1024, range(1024)), (1024, [0] * 1025), (1025, range(1025)),
               (1500, range(1024)), (1500, range(1025)), (4096, range(1025)), (4096, [7] * 4097), (4097, range(5)))]
    return found


def parallel(count):
    return [(0, 1, number % 7) for number in range(count)]


def wide(extra):
    """63 edges into node 1, 31 + extra out of it, 31 listed pairs: 2,016 + extra result edges."""
    edges = parallel(63) + [(1, 2, number % 5) for number in range(31 + extra)]
    return deck_of(3, edges, [[0, 63 + number] for number in range(31)], 100)


def chain(length, paths):
    return deck_of(length + 1, [(node, node + 1, 1) for node in range(length)], paths, 1000)


def braid(length, doubled, paths):
    """A chain with a second edge beside each of the doubled ones, numbered from length on."""
    steps = list(range(length)) + list(doubled)
    delays = [(number % 11 - 3 - number % 4, number % 11 - 3) for number in range(len(steps))]
    return deck_of(length + 1, [(node, node + 1, *both) for node, both in zip(steps, delays)], paths, 1000)


def full(extra):
    """2,048 candidates, listed edges and edges, and so many more: 63 nodes, 65 + extra edges, and 128 paths of 8, nine of them different.
    62, 63 and 64 stand beside 5, 10 and 15; listed are 5 with 10, 10 with 15 and 63 with 64, so that three of eight ways remain."""
    both = [list(range(start, start + 8)) for start in (3, 4, 5, 8, 9, 10)]
    beside = [[{10: 63, 15: 64}.get(edge, edge) for edge in path] for path in both[3:]]
    return braid(62, [5, 10, 15] + [40] * extra, ((both + beside) * 15)[:128])


def fixed_decks():
    decks = list(MARKED.values())
    decks += [deck_of(5, A_EDGES, [[2, 1]], 10), deck_of(5, A_EDGES, [], 1_000_000_001),
              deck_of(5, A_EDGES, [], 1_000_000_000), deck_of(5, A_EDGES, [[0, 3], [2, 1], [3, 2]], 10)]
    decks += [deck_of(2, [(0, 1, delay)], [], 10)
              for delay in (-1_000_000, 1_000_000, -1_000_001, 1_000_001, 2 ** 31 - 1, -2 ** 31)]
    # 14 by the early delay alone and by the late one; 15, and not where they are equal
    decks += [deck_of(2, [(0, 1, early, late)], [], 10) for early, late in
              ((-1_000_000, 1_000_000), (-1_000_001, 1_000_000), (-1_000_000, 1_000_001), (-2 ** 31, 2 ** 31 - 1), (1_000_001, 0), (0, -1_000_001),
               (1, 0), (0, -1), (1_000_000, -1_000_000), (5, 4), (5, 5), (-5, -5), (-5, -4))]
    decks += [HOLD, deck_of(5, HOLD_EDGES, [], 150), deck_of(5, HOLD_EDGES, [[0], [2]], 150),
              deck_of(4, [(0, 2, -9, 9), (1, 2, -4, 3), (2, 3, -7, -6)], [[0, 2]], 10)]
    decks += [deck_of(nodes, [], [], 5) for nodes in (511, 512, 513, 2047, 2048, 2049, 4096, 4097)]
    decks += [deck_of(2, parallel(count), [], 5) for count in (1023, 1024, 1025)]
    decks += [full(extra) for extra in (0, 1)]                                        # 16,384 words of scratch, and 16,392
    decks += [wide(extra) for extra in (1, 32, 33)]                                   # 2,017, 2,048, 2,049
    decks += [chain(8, [[0]] * count) for count in (255, 256, 257, 1024, 1025)]
    decks += [chain(8, [list(range(8))] * count) for count in (60, 64, 65, 128, 129)]  # 512, 1,024, 1,032 listed
    decks += [chain(8, [[0] * 1024]), chain(8, [[0] * 1025]), chain(8, [[0] * 8192]), chain(8, [[0] * 8193]),
              chain(8, [[0] * 8192, [0]]), chain(8, [[0] * 1024, [1]])]
    runs = [list(range(start, start + 12)) for start in range(0, 180, 9)]
    decks += [chain(120, [list(range(1, 120))]), braid(200, [5, 6, 40, 41, 100, 150, 190], [runs[0], runs[4], runs[11], runs[16]]),
              braid(200, [5, 6, 40, 41, 100, 150, 190], [list(range(3, 199)), [6, 7], [100, 101]]),
              braid(60, [59, 30, 30, 1], [list(range(start, 60)) for start in range(6)]),    # nested
              braid(9, range(9), [[0, 1, 2], [9, 10], [2, 3, 4, 5], [4, 14, 6], [1, 2, 3], [1, 2, 12], [8]])]
    # several faults: one number over everything before the next
    decks += [deck_of(5, [(0, 2, 2_000_000), (3, 1, 0), (0, 9, 0)], [[], [7], [2, 0]], 2 ** 32 - 1),
              deck_of(5, [(0, 2, 2_000_000), (3, 1, 0)], [[], [7], [1, 0]], 2 ** 32 - 1),
              deck_of(5, A_EDGES, [[2, 1], [7], []], 2 ** 32 - 1),
              deck_of(5, A_EDGES, [[2, 1], [7]], 2 ** 32 - 1), deck_of(0, [(0, 1, 0)], [], 0)]
    # 15 at an edge and another number at a later one, or at the same
    above, below = (0, 2, 4, 3), (0, 2, 3, 4)
    decks += [deck_of(5, edges, paths, 10) for edges, paths in
              (([above, (0, 1, 2_000_000)], []), ([above, (0, 1, -2_000_000, 0)], []), ([above, (0, 1, 0, 2_000_000)], []), ([above, (3, 1, 0)], []),
               ([above, (0, 9, 0)], []), ([above], [[], [7]]), ([below, above, above], []), ([(2, 1, 4, 3)], []), ([(2, 9, 4, 3)], []),
               ([(0, 2, 2_000_000, 3)], []), ([below, (1, 2, 2_000_001, 2_000_000), (3, 1, 0)], []))]
    decks += decks_with_marked()
    found = [pack(deck_numbers(deck)) for deck in decks]
    found += [DECK_A + b"\x80", DECK_A + b"\x00", b"", b"\x80\x00", b"\x80" * 4, b"\x80" * 5, b"\x80\x80",
              write_number(4097), b"\x05" + write_number(16385), b"\x05" + write_number(16384), b"\x05" + write_number(1025),
              b"\x00\x00" + write_number(1025), b"\x00\x00" + write_number(257), b"\x00\x00\x01" + write_number(1025),
              b"\x00\x00\x01" + write_number(8193), b"\x00\x00\x02\x01\x00" + write_number(2 ** 32 - 1),
              bytes(4) + b"\xff\xff\xff\xff\x0f", bytes(4) + b"\xff\xff\xff\xff\x0f\x00",
              bytes(4) + b"\x0a" + bytes(65531), bytes(4) + b"\x0a" + bytes(65532), bytes(65537), b"\x80" * 70000,
              bytes(3) + b"\x01", b"\x05\x00\x00\x06", b"\x05\x00\x00\x05", b"\x05\x00\x00" + b"\xff\xff\xff\xff\x0f", b"\x05\x00\x00\x80\x00",
              b"\x05\x00\x00\x02\x01\x80\x00", *(write_number(2000) + b"\x00\x00" + write_number(count) for count in (1024, 1025, 2001))]
    found += [DECK_A[:length] for length in range(len(DECK_A))]
    return found


def deck_files(seed, count):
    """The bytes of count decks: the fixed ones first (as many as fit), then random ones."""
    rng = random.Random(seed)
    fixed = fixed_decks()[:count]
    return fixed + [random_deck_bytes(rng) for _ in range(count - len(fixed))]


# ---- Graphs from elsewhere, and series --------------------------------------------------------

def random_foreign_graph(rng, design):
    """A well-formed graph that need not come from a list: a few copies of each node, for each
    end copy and design edge at most one start copy, then only what lies on a complete path. Paths end at each sink copy, and at
    one copy or none of a marked node, which then need not have an edge out."""
    has_edge_out = set(design.starts)
    copies = [(node, which) for node in range(design.nodes)
              for which in range(rng.randint(0, 3) if node in has_edge_out else rng.randint(0, 1))]
    ending = {copy for copy in copies if copy[0] not in has_edge_out}
    for node in sorted(set(design.marked) & has_edge_out):
        of_node = [copy for copy in copies if copy[0] == node]
        if of_node and rng.random() < 0.8:
            ending.add(rng.choice(of_node))
    edges = []
    for end in copies:
        for design_edge, node in enumerate(design.ends):
            starts = [copy for copy in copies if copy[0] == design.starts[design_edge]]
            if node == end[0] and starts and rng.random() < 0.85:
                edges.append((rng.choice(starts), end, design_edge))
    while True:
        kept = [copy for copy in copies
                if (copy[0] not in set(design.ends) or any(edge[1] == copy for edge in edges))
                and (copy in ending or any(edge[0] == copy for edge in edges))]
        edges = [edge for edge in edges if edge[0] in kept and edge[1] in kept]
        if len(kept) == len(copies):
            break
        copies = kept
    edges = sorted((copies.index(start), copies.index(end), design_edge) for start, end, design_edge in edges)
    edges.sort(key=lambda edge: (edge[1], edge[2]))
    return Graph([node for node, _ in copies], [1 if copy in ending else 0 for copy in copies],
                 *([edge[part] for edge in edges] for part in range(3)))


def largest_foreign_graph(rng, design):
    """Of some graphs from elsewhere the one with the most copies: of a small design most have few, or none."""
    return max((random_foreign_graph(rng, design) for _ in range(50)), key=lambda graph: len(graph.copy_nodes))


def earlier_graph(rng, design):
    """A graph to remove from: the true graph of a list, or one from elsewhere."""
    if rng.random() < 0.5:
        return random_foreign_graph(rng, design)
    return true_graph(design, path_list_of(random_paths(rng, design, 3)))


def damage_graph(rng, graph):
    """Change one number of a graph, drop or repeat an edge or copy, or swap two edges."""
    copy_nodes, endpoints, starts, ends, design_edges = (list(part) for part in graph)
    edges = list(zip(starts, ends, design_edges))
    kind = rng.choice("node copy endpoint endpoint ends drop swap repeat start end edge".split())
    if kind in ("node", "copy", "endpoint", "ends") and copy_nodes:
        at = rng.randrange(len(copy_nodes))
        if kind == "node":
            copy_nodes[at] = rng.choice([0, copy_nodes[at] + 1, 4096, 2 ** 32 - 1])
        elif kind == "endpoint":
            endpoints[at] = rng.choice([1 - min(endpoints[at], 1)] * 4 + [2, 2 ** 32 - 1])
        elif kind == "ends":                                      # at all copies of a node, or at none
            endpoints = [1 - min(endpoints[at], 1) if node == copy_nodes[at] else number for node, number in zip(copy_nodes, endpoints)]
        else:
            copy_nodes.insert(at, copy_nodes[at])
            endpoints.insert(at, rng.choice([0, 1, endpoints[at]]))
    elif edges:
        at = rng.randrange(len(edges))
        if kind == "drop":
            del edges[at]
        elif kind == "repeat":
            edges.insert(at, edges[at])
        elif kind == "swap":
            other = rng.randrange(len(edges))
            edges[at], edges[other] = edges[other], edges[at]
        else:
            edge = list(edges[at])
            part = {"start": 0, "end": 1}.get(kind, 2)
            edge[part] = rng.choice([0, edge[part] + 1, max(0, edge[part] - 1), len(copy_nodes), 2 ** 32 - 1])
            edges[at] = tuple(edge)
    return Graph(copy_nodes, endpoints, *([edge[part] for edge in edges] for part in range(3)))


def random_call(rng, design):
    """One removal of a series: mostly sound, at times with a faulty list, short scratch or room."""
    path_list = path_list_of(random_paths(rng, design, 3))
    if rng.random() < 0.15:
        path_list = damage_values(rng, Deck(design, path_list, 0)).path_list
    if rng.random() < 0.05:
        path_list = PathList(list(path_list.lengths) + [1], path_list.flat)             # 30
    copies = rng.choice([16384] * 4 + [20000, rng.randint(0, 15)])
    edges = rng.choice([65536] * 4 + [70000, rng.randint(0, 20)])
    scratch = rng.choice([100_000] * 4 + [WORDS_PER_UNIT * rng.randint(0, 40), WORDS_PER_UNIT * rng.randint(10, 40) - 1])
    room = Room(copies, copies + (1 if rng.random() < 0.03 else 0), edges, edges, edges + (1 if rng.random() < 0.03 else 0))
    return Call(path_list, room, scratch)


def random_series(rng, design):
    return [random_call(rng, design) for _ in range(rng.randint(1, 6))]


def main(arguments):
    seed, count, directory = int(arguments[0]), int(arguments[1]), arguments[2]
    os.makedirs(directory, exist_ok=True)
    for number, data in enumerate(deck_files(seed, count)):
        with open(os.path.join(directory, "deck-%04d.bin" % number), "wb") as file:
            file.write(data)


if __name__ == "__main__":
    if len(sys.argv) != 4:
        sys.exit("usage: decks.py SEED COUNT DIR")
    main(sys.argv[1:])
