#!/usr/bin/env python3
"""The cases of crates/unfit_cases and what they must print.

python3 tests/unfit_cases.py           writes crates/unfit_cases/stdin and stdout
python3 tests/unfit_cases.py --check   says whether the two files are what it would write

Every expected answer is what tests/walker.py, the separate program, refuses the deck with. A deck goes in as packed
numbers, its seven slices each by itself, so that they need not belong together (crates/unfit_cases/src/main.rt).
"""
import copy
import itertools
import random

import expected
import walker
from decks import WIDE_ROOM, design_of, random_design, random_paths

TOP = 4294967295
MANY_WORDS = 10 ** 9
BLOCKS = 3              # the program's
TABLES = (16400, 16400, 16400, 16400, 4200, 8200, 1040)
NUMBERS = (30, 10, 11, 12, 13, 14, 15, 16, 20, 21, 22, 23, 24, 25)


class Deck:
    """n, T and the seven slices, to be damaged."""

    def __init__(self, nodes, edges, paths, allowed, marked=()):
        self.allowed = allowed
        self.nodes, self.starts, self.ends, self.early, self.late, self.marked = design_of(nodes, edges, marked)
        self.listed = [edge for path in paths for edge in path]
        self.lengths = [len(path) for path in paths]

    def but(self, **changed):
        deck = copy.deepcopy(self)
        for name, value in changed.items():
            setattr(deck, name, value)
        return deck


def answer(deck):
    """None or the refusal, by the separate program."""
    design = walker.Design(deck.nodes, deck.starts, deck.ends, deck.early, deck.late, deck.marked)
    paths = walker.PathList(deck.lengths, deck.listed)
    refusal = walker.refusal_of(walker.removal, design, paths, None, MANY_WORDS, WIDE_ROOM, deck.allowed)
    assert refusal is None or refusal[0] in NUMBERS, refusal
    return refusal


def packed_slice(numbers):
    """How many numbers follow, how often the last is repeated, the numbers."""
    stored = len(numbers)
    while stored > 1 and numbers[stored - 2] == numbers[-1]:
        stored -= 1
    return [stored, len(numbers) - stored, *numbers[:stored]]


def packed(deck):
    numbers = [deck.nodes, deck.allowed]
    early, late = ([walker.pack_delay(delay) for delay in part] for part in (deck.early, deck.late))
    for part, table in zip((deck.starts, deck.ends, early, late, deck.marked, deck.listed, deck.lengths), TABLES):
        assert len(part) <= table
        numbers += packed_slice(part)
    return b"".join(walker.write_number(number) for number in numbers)


# ---- Decks -------------------------------------------------------------------------------

DECK_A = Deck(5, [(0, 2, 3), (1, 2, 5), (2, 3, 2), (2, 4, 1)], [[1, 2]], 10)
# a chain with a shortcut; three of its paths have two edges or more, and can be broken
BASE = Deck(6, [(0, 1, 0, 1), (1, 2, -2), (2, 3, -3, 3), (1, 3, 4), (3, 4, 1, 5), (4, 5, -9, -6)], [[0, 1, 2], [4], [0, 3, 4], [4, 5]], 9,
            [1, 3, 4])

# Faults: each damages a deck so that its number is due; k says where.


def put(numbers, k, value):
    numbers[k % len(numbers)] = value


def longer(deck, edges):
    """The edges' slices with the last edge repeated."""
    for part in (deck.starts, deck.ends, deck.early, deck.late):
        part.extend([part[-1] if part else 0] * (edges - len(part)))


def more_listed(deck, edges):
    """The last listed edge over and over, and a longer first path, so that there are so many listed edges."""
    deck.lengths[0] += edges - len(deck.listed)
    deck.listed.extend([deck.listed[-1]] * (edges - len(deck.listed)))


def more_paths(deck, paths):
    """Paths of one edge, so that there are so many."""
    deck.listed.extend([deck.listed[-1]] * (paths - len(deck.lengths)))
    deck.lengths.extend([1] * (paths - len(deck.lengths)))


def emptied(deck, k):
    """Path k gives its edges to the one before or after it."""
    k %= len(deck.lengths)
    other = k - 1 if k else 1
    deck.lengths[other] += deck.lengths[k]
    deck.lengths[k] = 0


def parted(deck, k):
    """Two neighbours in the flat list become one edge twice: a path of the two does not join."""
    k %= len(deck.listed) - 1
    deck.listed[k + 1] = deck.listed[k]


def equal_marked(deck, k):
    """A marked node once more."""
    k %= max(1, len(deck.marked))
    deck.marked.insert(k, deck.marked[k])


def falling_marked(deck, k):
    """A marked node moves in front of the one before it."""
    k %= len(deck.marked) - 1
    deck.marked[k], deck.marked[k + 1] = deck.marked[k + 1], deck.marked[k]


FAULTS = {
    "30, a start": lambda deck, k: deck.starts.append(0),
    "30, an end": lambda deck, k: deck.ends.pop(),
    "30, an early delay": lambda deck, k: deck.early.append(0),
    "30, a late delay": lambda deck, k: deck.late.pop(),
    "30, a length": lambda deck, k: deck.lengths.append(1 + k),
    "30, a listed edge": lambda deck, k: deck.listed.append(0),
    "10": lambda deck, k: setattr(deck, "nodes", 4097 + k),
    "11": lambda deck, k: longer(deck, 16385),
    "12, a start": lambda deck, k: put(deck.starts, k, deck.nodes),
    "12, an end": lambda deck, k: put(deck.ends, k, deck.nodes + k),
    "13": lambda deck, k: put(deck.ends, k, deck.starts[k % len(deck.starts)]),
    "14, early": lambda deck, k: put(deck.early, k, 1_000_001 if k % 2 else -1_000_001),
    "14, late": lambda deck, k: put(deck.late, k, 1_000_001 if k % 2 else -1_000_001),
    "15": lambda deck, k: put(deck.early, k, deck.late[k % len(deck.late)] + 1),
    "16, not below n": lambda deck, k: put(deck.marked, k, deck.nodes + k // 4),
    "16, equal": equal_marked,
    "16, falling": falling_marked,
    "20": lambda deck, k: more_paths(deck, 1025),
    "21": lambda deck, k: more_listed(deck, 8193),
    "22": emptied,
    "23": lambda deck, k: put(deck.listed, k, len(deck.starts)),
    "24": parted,
    "25": lambda deck, k: setattr(deck, "allowed", 1_000_000_001 + k),
}


def damaged(faults, places):
    deck = copy.deepcopy(BASE)
    for fault, k in zip(faults, places):
        FAULTS[fault](deck, k)
    return deck


# ---- Cases -------------------------------------------------------------------------------

def edges_of_the_ranges():
    none = Deck(0, [], [], 0)
    yield none
    yield DECK_A
    yield BASE
    for nodes in (4095, 4096, 4097, TOP):
        yield none.but(nodes=nodes)
    for time in (0, 999_999_999, 1_000_000_000, 1_000_000_001, TOP):
        yield DECK_A.but(allowed=time)
    for delay in (-1_000_001, -1_000_000, -999_999, 999_999, 1_000_000, 1_000_001, 2 ** 31 - 1, -2 ** 31):
        for k in range(4):
            for parts in (("early",), ("late",), ("early", "late")):
                deck = copy.deepcopy(DECK_A)
                for part in parts:
                    getattr(deck, part)[k] = delay
                yield deck
    for paths in ([[2, 1]], [[1, 2], [2, 1]], [[2, 1], [1, 2]], [[1, 2, 2]], [[0, 3], [1, 3], [3, 0]], [[2], [1]], [[2, 2]], [[4]],
                  [[0], [3], [4]], [[1, 4]], [[4, 1]], [[0, 2], [TOP]], [[]], [[1, 2], []], [[], [1, 2]]):
        yield Deck(5, [(0, 2, 3), (1, 2, 5), (2, 3, 2), (2, 4, 1)], paths, 10)
    for end in (0, 1, 2, 4, 5, 6, TOP):
        for k in range(4):
            for part in ("starts", "ends"):
                deck = copy.deepcopy(DECK_A)
                getattr(deck, part)[k] = end
                yield deck
    # counts: 16,384 and 16,385 edges; 1,024 and 1,025 paths; 8,192 and 8,193 listed edges
    for count in (16383, 16384, 16385):
        deck = Deck(2, [(0, 1, 7)], [], 5)
        longer(deck, count)
        yield deck
    for count in (1023, 1024, 1025):
        deck = Deck(2, [(0, 1, 7)], [[0]], 5)
        more_paths(deck, count)
        yield deck
    yield Deck(9, [(k, k + 1, k) for k in range(8)], [list(range(8))] * 1024, 5)
    for count in (8192, 8193):
        deck = copy.deepcopy(DECK_A)
        more_listed(deck, count)
        yield deck
    # marked nodes: any of deck A, then 16 at every index
    for marked in ([], [0], [2], [4], [0, 1, 2, 3, 4], [5], [TOP], [4, 5], [0, 0], [1, 0], [4, 4], [0, 1, 1], [0, 2, 1], [0, 1, 2, 3, 3],
                   [0, 1, 2, 3, 5], [0, 1, 2, 3, 4, 5], [0, 1, 2, 3, 4, 4], [5, 5], [2, 5, 1], [3, 2, 5], [TOP, TOP], [0, TOP, 1]):
        yield DECK_A.but(marked=marked)
    yield none.but(nodes=4096, marked=list(range(4096)))
    for nodes in (0, 1, 130):
        yield none.but(nodes=nodes, marked=list(range(nodes)))
        yield none.but(nodes=nodes, marked=list(range(nodes + 1)))
        yield none.but(nodes=nodes, marked=list(range(nodes)) + [0])
    yield none.but(nodes=4096, marked=[7] * 4200)
    yield none.but(nodes=4097, marked=[7] * 4200)
    # lengths that add up only where a sum wraps, or never
    yield DECK_A.but(lengths=[TOP, 3])
    yield DECK_A.but(lengths=[3, TOP])
    yield DECK_A.but(lengths=[TOP] * 1025)
    yield DECK_A.but(lengths=[2 ** 31, 2 ** 31, 2])
    for lengths in ([], [1], [2, 0], [0, 2], [1, 1], [3], [1, 2], [2, 1], [0]):
        yield DECK_A.but(lengths=lengths)
    for listed in ([], [1], [1, 2, 2]):
        yield DECK_A.but(listed=listed)
    for starts, ends, early, late in itertools.product((0, 2), repeat=4):
        yield Deck(9, [], [], 5).but(starts=list(range(starts)), ends=list(range(1, 1 + ends)), early=[3] * early, late=[4] * late)


def faults_along_a_path():
    """A path of twelve edges in a row, behind a sound one. At each index in turn stands an edge that is unknown, or one that does not
    join; and then the same edge stands at the end too. Then faults in two paths, and of two numbers in one."""
    row = [(k, k + 1, k) for k in range(12)]
    paths = []
    for at in range(12):
        for edge in (12, TOP, (at + 1) % 12, (at + 2) % 12):
            for places in ({at}, {at, 11}):
                paths.append(tuple(edge if index in places else index for index in range(12)))
    lists = [[[3, 4], path] for path in dict.fromkeys(paths)]
    lists += [[[0, 12], [12]], [[0], [12, 0], [0, 12]], [[0, 1, 0], [1, 0]], [[0, 1], [2, 1, 0], [1, 0, 1]], [[1, 0, 12]], [[1, 0], [0, 12, 0]],
              [[1, 0], []], [[12], []]]
    for paths in lists:
        yield Deck(13, row, paths, 10)


def random_deck(chance):
    design = random_design(chance, most_nodes=6, most_edges=8)
    paths = random_paths(chance, design, 3) if design.starts else []
    deck = Deck(design.nodes, list(zip(*design[1:5])), paths, chance.choice((0, 5, 1_000_000_000)), design.marked)
    for _ in range(chance.randrange(4)):
        name = chance.choice(list(FAULTS))
        if name in ("11", "20", "21"):
            continue
        try:
            FAULTS[name](deck, chance.randrange(8))
        except (IndexError, ZeroDivisionError):     # nothing there to damage
            pass
    return deck


def cases():
    yield from edges_of_the_ranges()
    yield from faults_along_a_path()
    for fault in FAULTS:
        for k in range(9):
            yield damaged([fault], [k])
    chance = random.Random(2000)
    for faults in itertools.combinations(FAULTS, 2):
        yield damaged(faults, (3, 1))
        yield damaged(faults, (1, 5))
    for faults in itertools.combinations(FAULTS, 3):
        # 30 comes before all: one triple in ten with it is enough
        if not faults[0].startswith("30") or chance.random() < 0.1:
            yield damaged(faults, [chance.randrange(9) for _ in faults])
    for _ in range(500):
        yield random_deck(chance)


def line(refusal):
    return "passed\n" if refusal is None else walker.printed_refusal(refusal) + "\n"


def main():
    decks = list(cases())
    answers = [answer(deck) for deck in decks]
    missing = set(NUMBERS) - {refusal[0] for refusal in answers if refusal}
    assert not missing, missing
    stdin = expected.in_blocks([packed(deck) for deck in decks], BLOCKS)
    expected.keep("unfit_cases", stdin, "".join(line(refusal) for refusal in answers).encode())
    print("unfit_cases: %d decks" % len(decks))


if __name__ == "__main__":
    main()
