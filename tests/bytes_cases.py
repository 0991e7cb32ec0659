#!/usr/bin/env python3
"""The cases of crates/bytes_cases and what they must print.

python3 tests/bytes_cases.py           writes crates/bytes_cases/stdin and stdout
python3 tests/bytes_cases.py --check   says whether the two files are what it would write

Every expected answer is what the readers and writers of tests/walker.py, the separate program, answer. What stands in the
lent slices follows from it: what was read or written in front, and the rest as before (crates/bytes_cases/src/main.rt).
"""
import itertools
import random

import decks
import expected
import unfit_cases
import walker
from unfit_cases import packed_slice
from walker import Deck, Design, Graph, PathList, Refused, Room, Tables, write_number

TOP = 4294967295
# the program's
BLOCKS = 8
LONGEST = 24
MOST = {"tables": Tables(16400, 16400, 16400, 16400, 8200, 1040, 4200), "room": decks.room_of(16400, 65600), "deck": 131072, "graph": 393216}
PROGRAM = walker.PROGRAM_TABLES
WIDEST = MOST["tables"]


def checksum(numbers):
    total = 0
    for number in numbers:
        total = (257 * total + number + 1) % 4294967291
    return " checksum %d" % total


def shown(numbers):
    return checksum(numbers) if len(numbers) > LONGEST else "".join(" %d" % number for number in numbers)


def shown_bytes(data):
    return checksum(data) if len(data) > LONGEST else "".join(" %02x" % byte for byte in data)


def read_line(name, counts, tables, sizes):
    """The answer, what is filled, and how many places are as before."""
    kept = sum(sizes) - sum(len(table) for table in tables)
    return (name + "".join(" %d" % count for count in counts) + "".join(";" + shown(table) for table in tables if table)
            + "; kept %d\n" % kept)


def refused_line(refused, kept):
    return "%s; kept %d\n" % (walker.printed_refusal(refused.refusal), kept)


def deck_slices(deck):
    """The seven slices in the order of the file, with the delays as packed numbers."""
    (_, starts, ends, *delays, marked), (lengths, flat), _ = deck
    return starts, ends, *([walker.pack_delay(delay) for delay in part] for part in delays), flat, lengths, marked


def deck_line(deck, sizes):
    slices = deck_slices(deck)
    edges, (listed, paths, marked) = len(slices[0]), map(len, slices[-3:])
    return read_line("deck", (deck.design.nodes, edges, listed, paths, marked, deck.allowed_time), slices, sizes)


def graph_line(graph, sizes):
    return read_line("graph", (len(graph.copy_nodes), len(graph.starts)), graph, sizes)


def write_line(data, room):
    return "write end %d:%s; kept %d\n" % (len(data), shown_bytes(data), room - len(data))


def read_then_write(read, line, write, data, sizes):
    """A refusal's number or 0, and the lines."""
    try:
        found = read(data, sizes)
    except Refused as refused:
        return refused.refusal[0], refused_line(refused, sum(sizes))
    return 0, line(found, sizes) + write_line(write(found, len(data)), len(data))


def write_then_read(write, given, room, read, line, sizes):
    try:
        data = write(given, room)
    except Refused as refused:
        return refused.refusal[0], "write " + refused_line(refused, room)
    return 0, write_line(data, room) + line(read(data, sizes), sizes)


def pack(numbers):
    return b"".join(write_number(number) for number in numbers)


# ---- The four kinds: what goes in, and what comes out ------------------------------------

def read_deck(data, tables):
    assert all(size <= most for size, most in zip(tables, WIDEST))
    return pack([0, *tables, len(data)]) + data, read_then_write(walker.read_deck, deck_line, walker.write_deck, data, tables)


def write_deck(deck, room):
    slices = deck_slices(deck)
    sizes = Tables(*map(len, slices))
    assert all(size <= most for size, most in zip(sizes, WIDEST)) and room <= MOST["deck"]
    numbers = [1, deck.design.nodes, deck.allowed_time, room]
    for part in slices:
        numbers += packed_slice(part)
    return pack(numbers), write_then_read(walker.write_deck, deck, room, walker.read_deck, deck_line, sizes)


def read_graph(data, room):
    assert all(size <= most for size, most in zip(room, MOST["room"]))
    return pack([2, *room, len(data)]) + data, read_then_write(walker.read_graph, graph_line, walker.write_graph, data, room)


def write_graph(graph, room):
    sizes = Room(*(len(part) for part in graph))
    assert all(size <= most for size, most in zip(sizes, MOST["room"])) and room <= MOST["graph"]
    numbers = [3, room]
    for part in graph:
        numbers += packed_slice(part)
    return pack(numbers), write_then_read(walker.write_graph, graph, room, walker.read_graph, graph_line, sizes)


# ---- Decks -------------------------------------------------------------------------------

A = decks.DECK_A
A_TABLES = Tables(4, 4, 4, 4, 2, 1, 0)
OBSERVED = decks.deck_of(5, decks.A_EDGES, [[1, 2]], 10, [1, 2, 4])


def deck_tables(deck):
    edges = len(deck.design.starts)
    return Tables(edges, edges, edges, edges, len(deck.path_list.flat), len(deck.path_list.lengths), len(deck.design.marked))


def tables_cases():
    """Deck A's bytes and tables of every kind: long, just long enough, one too short, of different lengths."""
    for tables in (PROGRAM, WIDEST, A_TABLES, Tables(5, 5, 5, 5, 3, 2, 1), Tables(0, 0, 0, 0, 0, 0, 0)):
        yield read_deck(A, tables)
    data = pack(walker.deck_numbers(OBSERVED))
    for edges, listed, paths, marked in itertools.product((3, 4), (1, 2), (0, 1), (2, 3)):
        yield read_deck(data, Tables(edges, edges, edges, edges, listed, paths, marked))
    for sizes in itertools.product((4, 5), repeat=4):
        yield read_deck(A, Tables(*sizes, 2, 1, 0))
    for part in ("starts", "ends", "early", "late"):
        yield read_deck(A, A_TABLES._replace(**{part: 3}))
    # 30 before all, also with no edges and with bytes that are no deck
    for data in (b"", b"\x80\x00", bytes(5), write_number(4097), A + b"\0"):
        yield read_deck(data, Tables(1, 1, 1, 2, 0, 0, 0))


def number_cases():
    """M10, and every form of a number, as n, as a marked node and as T."""
    forms = [write_number(x + d) for x in (1, 127, 128, 4096, 16384, 2 ** 21, 2 ** 28, TOP - 1) for d in (-1, 0, 1)]
    forms += [b"\x80\x00", b"\x80\x80", b"\xff\x00", b"\x80" * 4, b"\x80" * 5, b"\x80" * 4 + b"\x00", b"\xff" * 4 + b"\x0f",
              b"\xff" * 4 + b"\x10", b"\xff" * 4 + b"\x8f", b"\x80\x80\x80\x80\x10", b"\x81\x00"]
    for form in forms:
        for data in (form + bytes(4), form, bytes(4) + form, bytes(4) + form + b"\0", form[:-1], bytes(4) + form[:-1], bytes(3) + form,
                     b"\x01\0\0\x01" + form + b"\0"):
            yield read_deck(data, PROGRAM)


def meeting_cases():
    """Faults that meet: what stands first in the file decides, and 3 comes last."""
    def numbers(*given):
        return pack(given)
    bad_time = numbers(0, 0, 0, 0, 1_000_000_001)
    for data in (bad_time, bad_time + b"\0", bad_time + b"\x80", A + b"\x80", A + b"\0\0",
                 numbers(4097), numbers(4097) + b"\x80\x00", numbers(4096), numbers(4097, 16385),
                 numbers(5, 1025), numbers(5, 1024), numbers(5, 16384), numbers(5, 16385), numbers(5, TOP),
                 numbers(5, 1) + b"\x80\x00", numbers(5, 1, 9, 9, 0, 0, 1025), numbers(5, 1, 9, 9, 0, 0, 1024), numbers(5, 1, 9, 9, 0, 0, 257),
                 numbers(5, 1, 9, 9, 0, 0, 256), numbers(0, 0, 1025), numbers(0, 0, 1024), numbers(0, 0, TOP),
                 numbers(0, 0, 1, 1024), numbers(0, 0, 1, 1025), numbers(0, 0, 1, 8192), numbers(0, 0, 1, 8193), numbers(0, 0, 1, TOP),
                 numbers(0, 0, 2, 1, 7, TOP), numbers(0, 0, 2, 1, 7, TOP - 1), numbers(0, 0, 3, 0, 0, TOP), numbers(0, 0, 2, 2, 7, 7, 1023),
                 numbers(0, 0, 2, 2, 7, 7, 1022), numbers(0, 0, 2, 2, 7, 7, 8190), numbers(0, 0, 2, 2, 7, 7, 8191),
                 numbers(0, 0, 2, 2, 7, 7, TOP - 1), numbers(0, 0, 1, TOP) + b"\x80\x00", numbers(0, 0, 2, 0, 0, 0, 3),
                 numbers(0, 1, 8, 9, TOP, TOP - 1, 0, 0, TOP), numbers(0, 1, TOP, TOP, 1, 0, 0, 0, 0),
                 numbers(0, 1, 0, 0, TOP - 1, TOP, 1, 2, TOP, 0, 0, 0),
                 # marked nodes: 16 at a count above n, then 36; the numbers are not judged; T and 3 come after them
                 numbers(0, 0, 0, 1), numbers(5, 0, 0, 5), numbers(5, 0, 0, 6), numbers(5, 0, 0, TOP), numbers(5, 0, 0, 6) + b"\x80\x00",
                 numbers(4096, 0, 0, 1024), numbers(4096, 0, 0, 1025), numbers(4096, 0, 0, 4096), numbers(4096, 0, 0, 4097),
                 numbers(4097, 0, 0, 4098), numbers(5, 0, 0, 2, 9, TOP, 7), numbers(5, 0, 0, 2, 3, 3, 7), numbers(5, 0, 0, 2, 3, 3),
                 numbers(5, 0, 0, 2, 3), numbers(5, 0, 0, 2, 3, 3, 7, 7), numbers(5, 0, 0, 2, 3) + b"\x80\x00",
                 numbers(5, 0, 0, 2, 3, 4) + b"\x80\x00", numbers(5, 0, 0, 1, 2, TOP), numbers(5, 0, 0, 3, 0, 0, 0, 0),
                 numbers(5, 0, 1, 2, 7, 7, 6), numbers(5, 1, 0, 1, 0, 0, 1, 1, 0, 3, 4, 2, 1, 8), numbers(5, 0, 1, 1025, 6), numbers(5, 0, 257, 6)):
        for tables in (PROGRAM, WIDEST, Tables(0, 0, 0, 0, 0, 0, 0), Tables(1, 1, 1, 1, 2, 2, 2)):
            yield read_deck(data, tables)


def damaged(data):
    """Each byte with one bit or all bits flipped; cut at each length; a byte more."""
    for at in range(len(data)):
        for bits in (1, 2, 4, 8, 16, 32, 64, 128, 255):
            yield data[:at] + bytes([data[at] ^ bits]) + data[at + 1:]
    for length in range(len(data)):
        yield data[:length]
    for more in (0, 0x80, 0xFF):
        yield data + bytes([more])


WIDE_NUMBERS = decks.deck_of(300, [(0, 200, -64, 1_000_000), (200, 299, -1_000_000, 63), (0, 299, -64)], [[0, 1], [], [2]], 1_000_000_000,
                             [0, 200, 299])


def damaged_decks():
    for deck in (*decks.MARKED.values(), OBSERVED, WIDE_NUMBERS):
        data = pack(walker.deck_numbers(deck))
        yield read_deck(data, PROGRAM)
        for other in damaged(data):
            yield read_deck(other, PROGRAM)
    for deck in (decks.MARKED["M1"], OBSERVED, WIDE_NUMBERS):
        for other in damaged(pack(walker.deck_numbers(deck))):
            yield read_deck(other, deck_tables(deck))


def random_decks(chance):
    for _ in range(300):
        deck = decks.random_deck(chance)
        data = pack(walker.deck_numbers(deck))
        yield write_deck(deck, len(data) + chance.choice((0, 0, 1, 7, -1)))
        yield read_deck(data, chance.choice((PROGRAM, deck_tables(deck))))
    for data in decks.fixed_decks():
        if len(data) < 1500:
            yield read_deck(data, PROGRAM)
            yield read_deck(data, WIDEST)
    for _ in range(500):
        yield read_deck(decks.random_deck_bytes(chance), PROGRAM)


def any_number(chance):
    return chance.choice((chance.randrange(4), chance.randrange(200), 127, 128, 16383, 16384, 2 ** 28, TOP, chance.randrange(TOP)))


def loose_decks(chance):
    """Decks of any numbers: the readers and writers look at the counts alone."""
    for _ in range(200):
        edges, lengths = chance.randrange(5), [chance.randrange(4) for _ in range(chance.randrange(4))]
        design = Design(chance.choice((0, 1, 127, 128, 4096)), *([any_number(chance) for _ in range(edges)] for _ in range(2)),
                        *([walker.unpack_delay(any_number(chance)) for _ in range(edges)] for _ in range(2)), [])
        design = design._replace(marked=[any_number(chance) for _ in range(chance.randrange(1 + min(design.nodes, 6)))])
        deck = Deck(design, PathList(lengths, [any_number(chance) for _ in range(sum(lengths))]), any_number(chance))
        data = pack(walker.deck_numbers(deck))
        yield write_deck(deck, len(data) + chance.choice((0, 3)))
        yield read_deck(data, deck_tables(deck))


def write_cases():
    """Deck A, and the same with marked nodes, at every length of the room; then what tests/unfit_cases.py makes: 30 and the counts, alone and
    together."""
    for deck in (decks.MARKED["M1"], OBSERVED):
        for room in range(len(pack(walker.deck_numbers(deck))) + 3):
            yield write_deck(deck, room)
    faults = unfit_cases.FAULTS
    given = list(unfit_cases.edges_of_the_ranges()) + [unfit_cases.damaged([fault], [3]) for fault in faults]
    given += [unfit_cases.damaged(pair, (3, 1)) for pair in itertools.combinations(faults, 2) if set(pair) & {"10", "11", "20", "21"}]
    for deck in given:
        design = Design(deck.nodes, deck.starts, deck.ends, deck.early, deck.late, deck.marked)
        found = Deck(design, PathList(deck.lengths, deck.listed), deck.allowed)
        yield write_deck(found, 131072 if len(deck.starts) > 100 else 60 + 2 * len(deck.listed) + 2 * len(deck.marked))
    # 35 after the counts; more marked nodes than n after the other counts and before 35
    yield write_deck(decks.deck_of(4097, [], [], 0), 0)
    yield write_deck(decks.deck_of(4096, [], [], 0), 0)
    for nodes, marked, room in ((2, [1, 1, 1], 99), (2, [1, 1, 1], 0), (2, [9, 9], 99), (0, [0], 99), (0, [0], 0), (4096, [7] * 4096, 4104),
                                (4096, [7] * 4096, 4103), (4096, [7] * 4097, 4104), (4097, [7] * 4098, 0)):
        yield write_deck(decks.deck_of(nodes, [], [], 0, marked), room)
    for edges, paths in (([], [[]] * 1025), ([(0, 1, 1)] * 16385, []), ([], [[1] * 8193])):
        yield write_deck(decks.deck_of(0, edges, paths, 0, [0]), 0)
    yield write_deck(OBSERVED._replace(design=OBSERVED.design._replace(nodes=2, late=[])), 0)      # 30 before 16


# ---- Graphs ------------------------------------------------------------------------------

WIDEST_ROOM = MOST["room"]


def graph_of(deck):
    return walker.true_graph(deck.design, deck.path_list)


def graph_bytes(graph):
    return walker.write_graph(graph, 10 ** 6)


def graph_numbers(graph):
    """Those of the packed form, also where the writer refuses an endpoint number."""
    copies = [number for copy in zip(graph.copy_nodes, graph.endpoints) for number in copy]
    edges = [number for edge in zip(graph.starts, graph.ends, graph.design_edges) for number in edge]
    return [len(graph.copy_nodes), *copies, len(graph.starts), *edges]


def exact_room(graph):
    return Room(*(len(part) for part in graph))


def graph_rooms():
    """Deck A's graph and rooms of every kind."""
    graph = graph_of(decks.MARKED["M1"])
    data = graph_bytes(graph)
    for room in (walker.PROGRAM_ROOM, WIDEST_ROOM, exact_room(graph), decks.room_of(7, 6), decks.room_of(5, 5), decks.room_of(6, 4),
                 decks.room_of(5, 4), decks.room_of(0, 0)):
        yield read_graph(data, room)
    for sizes in itertools.product((4, 5, 6), repeat=3):
        yield read_graph(data, Room(6, 6, *sizes))
    for sizes in itertools.product((5, 6, 7), repeat=2):
        yield read_graph(data, Room(*sizes, 5, 5, 5))
    for room in range(len(data) + 3):
        yield write_graph(graph, room)
    for sizes in itertools.product((0, 1, 2), repeat=5):
        if sizes[0] == sizes[1] or sizes[2] == sizes[3] == sizes[4]:
            yield write_graph(Graph(*([1 if part == 1 else 7] * size for part, size in enumerate(sizes))), 40)
    # endpoint numbers: 0 and 1 are written and read, and no others
    for endpoints in itertools.product((0, 1, 2, TOP), repeat=2):
        graph = Graph([9, 8], endpoints, [5], [6], [7])
        yield write_graph(graph, 40)
        yield write_graph(graph, 8)
        yield read_graph(pack([2, 9, endpoints[0], 8, endpoints[1], 1, 5, 6, 7]), decks.room_of(2, 1))
    for data in (pack([2, 9, 2]), pack([2, 9, 1, 8, 2, 65537]), pack([2, 9, 2]) + b"\x80\x00", pack([2, 9]) + b"\x80\x00", pack([2, 9, 1, 8]),
                 pack([2, 9, 1, 8, 1]), pack([2, 9, 0, 8, 128, 0]), pack([2, 9, 0, 8, 1, 0, 0]), pack([3, 9, 2]), pack([2, 2, 0, 3, 0, 0]),
                 pack([1, TOP, 1, 0])):
        for room in (decks.room_of(2, 1), walker.PROGRAM_ROOM, Room(2, 3, 1, 1, 1), Room(2, 1, 1, 1, 1)):
            yield read_graph(data, room)
    for data in (b"", b"\x80\x00", bytes(2), bytes(3), b"\x00", b"\x00\x80", b"\x00\x80\x00", pack([16384]), pack([16385]), pack([TOP]), pack([512]),
                 pack([513]), pack([0, 65536]), pack([0, 65537]), pack([0, TOP]), pack([0, 2048]), pack([0, 2049]), pack([1, TOP, 0, 0]),
                 pack([1, 0, 1, 65537]), pack([1, 0, 1, 1, TOP, TOP, TOP]), pack([1, 0, 0, 1, 5, 6, 7, 8]), pack([16385]) + b"\x80\x00",
                 pack([513]) + b"\x80", pack([1]) + b"\x80\x00" + pack([65537])):
        for room in (walker.PROGRAM_ROOM, WIDEST_ROOM, decks.room_of(0, 0), decks.room_of(1, 1), Room(1, 1, 1, 2, 1)):
            yield read_graph(data, room)


def large_graphs():
    """The limits of document 01, and one more of each."""
    for copies, edges in ((16384, 65536), (16385, 0), (0, 65537), (16385, 65537), (16384, 1), (1, 65536)):
        yield write_graph(Graph([5] * copies, [1] * copies, [1] * edges, [200] * edges, [3] * edges), 393216)
    yield write_graph(Graph([5] * 16385, [2] * 16385, [], [], []), 0)
    yield write_graph(Graph([5] * 16384, [0] * 16384, [1] * 65536, [200] * 65536, [3] * 65536), 2 * 16384 + 4 * 65536 + 3 + 3)
    yield write_graph(Graph([5] * 16384, [0] * 16384, [1] * 65536, [200] * 65536, [3] * 65536), 2 * 16384 + 4 * 65536 + 3 + 2)
    yield write_graph(Graph([5] * 16384, [0] * 16383 + [2], [], [], []), 393216)


def damaged_graphs():
    for deck in (decks.MARKED["M1"], OBSERVED, decks.MARKED["M8"]):
        for other in damaged(graph_bytes(graph_of(deck))):
            yield read_graph(other, walker.PROGRAM_ROOM)
    for other in damaged(graph_bytes(graph_of(decks.MARKED["M4"]))):
        yield read_graph(other, exact_room(graph_of(decks.MARKED["M4"])))


def random_graphs(chance):
    for _ in range(150):
        graph = graph_of(decks.random_deck(chance))
        if chance.random() < 0.5:
            graph = decks.damage_graph(chance, graph)
        data = pack(graph_numbers(graph))
        yield write_graph(graph, len(data) + chance.choice((0, 0, 2, -1)))
        yield read_graph(data, chance.choice((walker.PROGRAM_ROOM, exact_room(graph))))
    for _ in range(100):
        copies, edges = chance.randrange(5), chance.randrange(5)
        graph = Graph([any_number(chance) for _ in range(copies)], [chance.choice((0, 1, 1, 0, 0, 1, 2)) for _ in range(copies)],
                      *([any_number(chance) for _ in range(edges)] for _ in range(3)))
        data = pack(graph_numbers(graph))
        yield write_graph(graph, len(data))
        yield read_graph(data, exact_room(graph))
    for _ in range(200):
        yield read_graph(decks.damage_bytes(chance, graph_bytes(graph_of(decks.random_deck(chance)))), walker.PROGRAM_ROOM)


# ---- The files ---------------------------------------------------------------------------

def cases():
    """Named lists of cases: what goes in, and the refusal's number (or 0) with the lines that come out."""
    chance = random.Random(2001)
    yield "reads of decks", {0, 1, 2, 3, 10, 11, 16, 20, 21, 30, 36}, [*tables_cases(), *number_cases(), *meeting_cases(), *damaged_decks()]
    yield "random decks", {0, 1, 2, 3, 10, 11, 16, 20, 21, 35, 36}, [*random_decks(chance), *loose_decks(chance)]
    yield "writes of decks", {0, 10, 11, 16, 20, 21, 30, 35}, list(write_cases())
    yield "graphs", {0, 1, 2, 3, 30, 32, 33, 34, 35}, [*graph_rooms(), *large_graphs(), *damaged_graphs(), *random_graphs(chance)]


def main():
    stdin, stdout = [], []
    for name, numbers, found in cases():
        met = {number for _, (number, _) in found}
        assert met == numbers, (name, met ^ numbers)
        stdin += [case for case, _ in found]
        stdout += [lines for _, (_, lines) in found]
        print("bytes_cases: %d %s" % (len(found), name))
    expected.keep("bytes_cases", expected.in_blocks(stdin, BLOCKS), "".join(stdout).encode())


if __name__ == "__main__":
    main()
