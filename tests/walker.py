#!/usr/bin/env python3
"""Reference program: true timing graphs by walking all paths.

Written from document 01, the specification, with requests 1, 4, 6, 8, 9, 10 and 12 of document 02, and from no code
or definition of this repository; points that they leave open are read as docs/DECISIONS.md
says ("How document 01 is read"). Naive on purpose: every complete path is written out, the false ones are struck
out, and copies, edges and times are read off the paths that remain. Text in double quotes in
the comments is a sentence of these documents; docs/REVIEW.md lists them.

    python3 walker.py < deck              the deck program
    python3 walker.py --c ROOM < deck     the C call: its number, then the bytes in hex
"""
import sys
from collections import Counter, namedtuple

MOST_NODES, MOST_EDGES = 4096, 16384
MOST_DELAY, MOST_ALLOWED_TIME = 1_000_000, 1_000_000_000
MOST_PATHS, MOST_LISTED_EDGES = 1024, 8192
MOST_COPIES, MOST_GRAPH_EDGES = 16384, 65536
MOST_DECK_BYTES = 65536
WORDS_PER_UNIT = 8         # "8 words per candidate, listed edge and graph edge, where it was 16"
MOST_WALKED = 200_000      # no limit of the document: more paths than this are not walked

Design = namedtuple("Design", "nodes starts ends early late marked")  # "an early and a late delay"; "A deck may now mark nodes as ends"
PathList = namedtuple("PathList", "lengths flat")                     # "flat, with a length for each path"
Graph = namedtuple("Graph", "copy_nodes endpoints starts ends design_edges")    # 1 where paths end, else 0; start copy, end copy, design edge
Deck = namedtuple("Deck", "design path_list allowed_time")
Path = namedtuple("Path", "first edges")                              # edges: (start copy, end copy, design edge)
Times = namedtuple("Times", "arrival required slack earliest")
Tables = namedtuple("Tables", "starts ends early late listed paths marked")     # lent lengths
Room = namedtuple("Room", "copies endpoints starts ends design_edges")          # lent lengths
Call = namedtuple("Call", "path_list room scratch_words")             # one removal of a series

PROGRAM_TABLES = Tables(1024, 1024, 1024, 1024, 1024, 256, 1024)
PROGRAM_ROOM = Room(512, 512, 2048, 2048, 2048)
PROGRAM_SCRATCH = 16384

class WalkTooLong(Exception):
    """Too many paths for this program; says nothing about the document."""

class Refused(Exception):
    """"Each returns its number and a place"; "22 to 24 now carry two places, path and index". A refusal is (number, place), and of
    22 to 24 (number, path, index)."""
    def __init__(self, number, place=0, *index):
        super().__init__(number, place, *index)
        self.refusal = (number, place, *index)

def refuse(refusal):
    """Pass on what a test returned: None, or a refusal."""
    if refusal is not None:
        raise Refused(*refusal)

def printed_refusal(refusal):
    """"path 2,1 of deck A gives `refused 24 at 0 edge 1`": two places are "both printed"."""
    return "refused %d at %d" % refusal[:2] + "".join(" edge %d" % index for index in refusal[2:])

def refusal_of(call, *given, **named):
    """The refusal that a call ends with, or None."""
    try:
        call(*given, **named)
    except Refused as refused:
        return refused.refusal
    return None

def listed_paths(path_list):
    """The listed paths, each a tuple of design edge numbers, cut out of the flat list."""
    paths, offset = [], 0
    for length in path_list.lengths:
        paths.append(tuple(path_list.flat[offset:offset + length]))
        offset += length
    return paths

# ---- Paths -------------------------------------------------------------------------------

def design_as_graph(design):
    """The design seen as a graph: every node its own copy, every edge naming itself. Paths end at a node that is a sink or marked."""
    ends = (set(range(design.nodes)) - set(design.starts)) | set(design.marked)
    return Graph(list(range(design.nodes)), [1 if node in ends else 0 for node in range(design.nodes)],
                 list(design.starts), list(design.ends), list(range(len(design.starts))))

def complete_paths(design, graph):
    """"Complete paths run from a source to a sink or to a marked node, with no edges at a marked
    source, and may pass through marked nodes"; on an earlier graph "its paths" stand "for the complete
    paths", and each copy "says whether paths end at it". "A source has no edge in, a sink no edge out;
    an isolated node is both." """
    not_source = set(design.ends)
    leaving = {copy: [] for copy in range(len(graph.copy_nodes))}
    for edge in zip(graph.starts, graph.ends, graph.design_edges):
        leaving[edge[0]].append(edge)
    complete = []
    unfinished = [Path(copy, ()) for copy, node in enumerate(graph.copy_nodes)
                  if node not in not_source]
    while unfinished:
        path = unfinished.pop()
        last_copy = copies_along(path)[-1]
        if graph.endpoints[last_copy] == 1:
            complete.append(path)
        for edge in leaving[last_copy]:
            unfinished.append(Path(path.first, path.edges + (edge,)))
        if len(complete) + len(unfinished) > MOST_WALKED:
            raise WalkTooLong()
    return complete

def copies_along(path):
    return [path.first] + [end for _, end, _ in path.edges]

def design_edges_along(path):
    return tuple(design_edge for _, _, design_edge in path.edges)

def occurs_in(listed, run):
    """Whether a listed path occurs in a run of design edges "as a consecutive run"."""
    return any(run[at:at + len(listed)] == listed for at in range(len(run) - len(listed) + 1))

def permitted_paths(design, graph, listed):
    """"A complete path is permitted if no listed path occurs in it as a consecutive run." Every run of a length that
    some listed path has is looked up, which is occurs_in for all listed paths at once."""
    false_paths, lengths = set(listed), {len(false_path) for false_path in listed}
    def permitted(run):
        return not any(run[at:at + length] in false_paths
                       for length in lengths for at in range(len(run) - length + 1))
    return [path for path in complete_paths(design, graph) if permitted(design_edges_along(path))]

# ---- Copies ------------------------------------------------------------------------------

def tails_of(listed):
    """"A tail is what is left of a listed path after dropping one or more edges from its
    front, not all of them. Tails equal in edges are one tail." """
    return {path[dropped:] for path in listed for dropped in range(1, len(path))}

def mark_at(run, position, tails, lengths):
    """"the longest tail that the path follows from N on, or the empty mark"; lengths are those of the tails, longest first."""
    for length in lengths:
        if run[position:position + length] in tails:
            return run[position:position + length]
    return ()

def true_graph(design, path_list, earlier=None):
    """Removal without any test: from the design, or from an earlier graph, whose "copies
    stand in for nodes, its paths for the complete paths"."""
    worked_on = design_as_graph(design) if earlier is None else earlier
    listed = listed_paths(path_list)
    tails = tails_of(listed)
    lengths = sorted({len(tail) for tail in tails}, reverse=True)
    copies, joins, ended_at = set(), set(), set()
    for path in permitted_paths(design, worked_on, listed):
        run = design_edges_along(path)
        # "a copy for each pair (node, mark) that some permitted path shows, and no others"
        shown = [(node_or_copy, mark_at(run, position, tails, lengths))
                 for position, node_or_copy in enumerate(copies_along(path))]
        copies.update(shown)
        # "Along each design edge of a permitted path, the copy at its start is joined to
        # the copy at its end by an edge that names the design edge."
        joins.update(zip(shown, shown[1:], run))
        # "Each copy in the true graph says whether paths end at it"
        ended_at.add(shown[-1])
    # "numbered by node; within a node by the mark's length, then by its edge numbers" and
    # "Result copies are then ordered by earlier copy, then by mark as above."
    ordered = sorted(copies, key=lambda copy: (copy[0], len(copy[1]), copy[1]))
    number = {copy: place for place, copy in enumerate(ordered)}
    # "Edges are ordered by end copy, then by design edge."
    edges = sorted(((number[start], number[end], design_edge) for start, end, design_edge in joins),
                   key=lambda edge: (edge[1], edge[2], edge[0]))
    return Graph([worked_on.copy_nodes[node_or_copy] for node_or_copy, _ in ordered],
                 [1 if copy in ended_at else 0 for copy in ordered],
                 [edge[0] for edge in edges], [edge[1] for edge in edges], [edge[2] for edge in edges])

# ---- Tests: each returns None or a refusal ---------------------------------------------------

def slices_refusal(groups=(), path_list=None):
    """30: "lent slices that belong together ... differ in length, or the lengths of the paths
    do not add up to the flat list". A group is the lengths of slices that belong together."""
    if any(len(set(group)) > 1 for group in groups):
        return 30, 0
    if path_list is not None and sum(path_list.lengths) != len(path_list.flat):
        return 30, 0
    return None

def design_slices(design):
    """"30 now covers four edge slices of a design." """
    return len(design.starts), len(design.ends), len(design.early), len(design.late)

def graph_groups(graph):
    """The lengths of a graph's slices, in groups that belong together: two of copies, three of edges."""
    return [(len(graph.copy_nodes), len(graph.endpoints)), (len(graph.starts), len(graph.ends), len(graph.design_edges))]

def room_groups(room):
    """The same of a room."""
    return [(room.copies, room.endpoints), (room.starts, room.ends, room.design_edges)]

def design_refusal(design):
    """10 to 16, "one number over everything before the next"."""
    edges = list(zip(design.starts, design.ends, design.early, design.late))
    if design.nodes > MOST_NODES:
        return 10, 0
    if len(edges) > MOST_EDGES:
        return 11, 0
    for number, (start, end, _, _) in enumerate(edges):
        if start >= design.nodes or end >= design.nodes:    # "names a node not below n"
            return 12, number
    for number, (start, end, _, _) in enumerate(edges):
        if start >= end:                                    # "it does not rise"
            return 13, number
    for number, (_, _, early, late) in enumerate(edges):    # "delay out of range"; "Both delays are held to 14's range"
        if not -MOST_DELAY <= early <= MOST_DELAY or not -MOST_DELAY <= late <= MOST_DELAY:
            return 14, number
    for number, (_, _, early, late) in enumerate(edges):
        if early > late:                                    # "new 15, early above late, tested after 14, place the edge number"
            return 15, number
    # "New 16, a marked node not below n or not rising, place its index in the marks, after 15 wherever 15 is tested"
    for index, node in enumerate(design.marked):
        if node >= design.nodes or index > 0 and node <= design.marked[index - 1]:
            return 16, index
    return None

def list_refusal(design, path_list):
    """20 to 24; the places of 22 to 24 are the path number and an index within the path."""
    listed = listed_paths(path_list)
    if len(listed) > MOST_PATHS:
        return 20, 0
    if len(path_list.flat) > MOST_LISTED_EDGES:
        return 21, 0
    for number, path in enumerate(listed):
        if len(path) == 0:                                          # "an empty path"; "22's index is 0"
            return 22, number, 0
    for number, path in enumerate(listed):
        unknown = [index for index, edge in enumerate(path) if edge >= len(design.starts)]
        if unknown:                                                 # "an edge number not below m"
            return 23, number, min(unknown)
    for number, path in enumerate(listed):
        # "the index, within the path, of the first edge that does not start where the one before ends, or that all join"
        apart = [index for index in range(1, len(path)) if design.starts[path[index]] != design.ends[path[index - 1]]]
        if apart:
            return 24, number, min(apart)
    return None

def allowed_time_refusal(allowed_time):
    return (25, 0) if allowed_time > MOST_ALLOWED_TIME else None

def is_well_formed(design, graph):
    """"A well-formed true graph", sentence by sentence; for any graph, made here or not."""
    nodes, copies = graph.copy_nodes, range(len(graph.copy_nodes))
    edges = list(zip(graph.starts, graph.ends, graph.design_edges))
    # "has at most 16,384 copies and 65,536 edges"
    if len(nodes) > MOST_COPIES or len(edges) > MOST_GRAPH_EDGES:
        return False
    # "copies name existing nodes and never fall in node number"
    if any(node >= design.nodes for node in nodes) or list(nodes) != sorted(nodes):
        return False
    for start, end, design_edge in edges:
        # "edges join existing copies, name a design edge"
        if start not in copies or end not in copies or design_edge >= len(design.starts):
            return False
        # "with the nodes of those copies as its ends"
        if (nodes[start], nodes[end]) != (design.starts[design_edge], design.ends[design_edge]):
            return False
    # "and rise strictly in the order above" (end copy, then design edge)
    order = [(end, design_edge) for _, end, design_edge in edges]
    if any(earlier >= later for earlier, later in zip(order, order[1:])):
        return False
    # "0 or 1 after each copy's node"
    if any(number not in (0, 1) for number in graph.endpoints):
        return False
    has_edge_in, has_edge_out, marked = set(design.ends), set(design.starts), set(design.marked)
    ending = {copy for copy in copies if graph.endpoints[copy] == 1}
    # "lets paths end only at sinks and marked nodes"
    if any(nodes[copy] in has_edge_out and nodes[copy] not in marked for copy in ending):
        return False
    # "at most one copy of a node does"
    if len({nodes[copy] for copy in ending}) != len(ending):
        return False
    # "and every copy of a sink does"
    if any(nodes[copy] not in has_edge_out and copy not in ending for copy in copies):
        return False
    # "a copy of a node that is no source has an edge in"
    entered, left = set(graph.ends), set(graph.starts)
    if any(nodes[copy] in has_edge_in and copy not in entered for copy in copies):
        return False
    # "asks for an edge out only where no path ends"
    return all(copy in left for copy in copies if copy not in ending)

def graph_refusal(design, graph):
    return None if is_well_formed(design, graph) else (32, 0)

def candidates(design, path_list, worked_on):
    """"a candidate is one per copy (or node), and one more per listed edge, not first in its
    path, that starts at its node" """
    not_first = Counter(design.starts[edge] for path in listed_paths(path_list) for edge in path[1:])
    return sum(1 + not_first[node] for node in worked_on.copy_nodes)

def words_needed(design, path_list, worked_on):
    """What 31 asks: words of 32 bits "for each candidate, listed edge and edge of the graph worked on" """
    return WORDS_PER_UNIT * (candidates(design, path_list, worked_on) + len(path_list.flat) + len(worked_on.starts))

def scratch_refusal(design, path_list, worked_on, scratch_words):
    """31: scratch "shorter than" that"""
    return (31, 0) if scratch_words < words_needed(design, path_list, worked_on) else None

def room_refusal(graph, room):
    """33, 34: "Room is the lent length, at most 16,384 and 65,536." """
    if len(graph.copy_nodes) > min(room.copies, MOST_COPIES):
        return 33, 0
    if len(graph.starts) > min(room.starts, MOST_GRAPH_EDGES):
        return 34, 0
    return None

# ---- Removal, and a series of removals ----------------------------------------------------

def result_of(design, path_list, earlier, scratch_words, room_slices=(), allowed_time=None):
    """What removal and telling have in common: the tests up to 31, and the result that 33 and 34 then measure.
    "Slice calls test 30, then 10 to 14" and the new 15 and 16, then "20 to 25, 32, 31", "leaving out tests of what a call does not take" """
    groups = [design_slices(design), *room_slices]
    if earlier is not None:
        groups += graph_groups(earlier)
    refuse(slices_refusal(groups, path_list))
    refuse(design_refusal(design))
    refuse(list_refusal(design, path_list))
    if allowed_time is not None:
        refuse(allowed_time_refusal(allowed_time))
    if earlier is not None:
        refuse(graph_refusal(design, earlier))
    worked_on = design_as_graph(design) if earlier is None else earlier
    refuse(scratch_refusal(design, path_list, worked_on, scratch_words))
    return true_graph(design, path_list, earlier)

def removal(design, path_list, earlier, scratch_words, room, allowed_time=None):
    """One call: from the design (earlier None) or from an earlier true graph. T is None for
    the slice calls, which do not take it; the deck program and the C call give it ("25
    included"). After 31 come "33, 34" for the room lent."""
    result = result_of(design, path_list, earlier, scratch_words, room_groups(room), allowed_time)
    refuse(room_refusal(result, room))
    return result

def size(design, path_list, earlier, scratch_words):
    """"one call tells how many copies and edges the result has": it takes no room, and "gives removal's refusals, but 33 or 34 only
    where the result passes 16,384 copies or 65,536 edges". The scratch is removal's (scratch_after)."""
    result = result_of(design, path_list, earlier, scratch_words)
    if len(result.copy_nodes) > MOST_COPIES:
        raise Refused(33)
    if len(result.starts) > MOST_GRAPH_EDGES:               # 34: "they fit and the edges exceed theirs"
        raise Refused(34)
    return len(result.copy_nodes), len(result.starts)

def scratch_after(before, refusal):
    """"Scratch is all zero after success and after 33, 34 or 35, and unchanged after the others." """
    if refusal is None or refusal[0] in (33, 34, 35):
        return [0] * len(before)
    return list(before)

def lent_after(before, result):
    """"Result places past the result are unchanged." (After a refusal: all of them.)"""
    return list(result) + list(before[len(result):])

def run_series(design, calls):
    """The series as it runs: what each call is refused with (None: not refused), and the
    graph held. "It starts with no graph held. Each works on the design while none is held,
    and after that on the graph held." "a refused one leaves it" """
    held, refusals = None, []
    for call in calls:
        try:
            held = removal(design, call.path_list, held, call.scratch_words, call.room)
            refusals.append(None)
        except Refused as refused:
            refusals.append(refused.refusal)
    return refusals, held

def series_from_calls_alone(design, calls):
    """The refusals "from the calls alone": "once a graph is held, the graph worked on is there
    the true graph of the design and the whole list so far." Returns them, and the whole list
    (None while no graph is held)."""
    whole, refusals = None, []
    for call in calls:
        worked_on = None if whole is None else true_graph(design, whole)
        refusal = refusal_of(removal, design, call.path_list, worked_on, call.scratch_words, call.room)
        refusals.append(refusal)
        if refusal is None:
            # "the lists of the unrefused removals, in order, put end to end"
            before = whole or PathList([], [])
            whole = PathList(list(before.lengths) + list(call.path_list.lengths),
                             list(before.flat) + list(call.path_list.flat))
    return refusals, whole

def rests_from(design, graph):
    """For each copy the set of all that paths of the graph follow from it on. In a well-formed
    graph two copies of one node never share a rest (paths end at one copy of a node at most, and end copy
    and design edge settle the edge), so the set names the copy, whatever its number."""
    rests = [set() for _ in graph.copy_nodes]
    for path in complete_paths(design, graph):
        for position, copy in enumerate(copies_along(path)):
            rests[copy].add(design_edges_along(path)[position:])
    return [(node, frozenset(rest)) for node, rest in zip(graph.copy_nodes, rests)]

def same_within_nodes(design, first, second):
    """Demand 3: same "count of copies, the node of each copy number and the count of edges",
    and "copies can be renumbered within each node so that the edges, as start copy, end copy
    and design edge, are the same set"; it "keeps" the ends. Both graphs well formed: the renumbering is forced."""
    if list(first.copy_nodes) != list(second.copy_nodes) or len(first.starts) != len(second.starts):
        return False
    number_in_second = {name: number for number, name in enumerate(rests_from(design, second))}
    renumber = [number_in_second.get(name) for name in rests_from(design, first)]
    if None in renumber or sorted(renumber) != list(range(len(renumber))):
        return False
    if any(first.endpoints[copy] != second.endpoints[number] for copy, number in enumerate(renumber)):
        return False
    return ({(renumber[start], renumber[end], design_edge)
             for start, end, design_edge in zip(first.starts, first.ends, first.design_edges)}
            == set(zip(second.starts, second.ends, second.design_edges)))

# ---- Times -------------------------------------------------------------------------------

def copy_times(design, graph, allowed_time):
    """"arrival is the largest delay of a path from a source copy (0 at a source copy);
    required is the smallest of T less the delay of a path to" a copy where paths end, and at such a copy
    "T or the smaller figure from further on"; "slack is required less arrival": these "go on using the late
    delay". The earliest arrival is "the smallest early delay of a path from a source copy, 0 at a source copy". In a well-formed
    graph every copy is on a complete path."""
    reached, to_go, soonest = ([[] for _ in graph.copy_nodes] for _ in range(3))
    for path in complete_paths(design, graph):
        late, early = ([delays[design_edge] for design_edge in design_edges_along(path)] for delays in (design.late, design.early))
        for position, copy in enumerate(copies_along(path)):
            reached[copy].append(sum(late[:position]))
            to_go[copy].append(allowed_time - sum(late[position:]))
            soonest[copy].append(sum(early[:position]))
    return [Times(max(into), min(left), min(left) - max(into), min(soon)) for into, left, soon in zip(reached, to_go, soonest)]

def times(design, graph, allowed_time, times_lengths):
    """The call for the times at copies; times_lengths are those of its result slices, four, or the one of `late`: "times, one place for
    each copy"."""
    refuse(slices_refusal([design_slices(design), *graph_groups(graph),
                           (len(graph.copy_nodes),) + tuple(times_lengths)]))
    refuse(design_refusal(design))
    refuse(allowed_time_refusal(allowed_time))
    refuse(graph_refusal(design, graph))
    return copy_times(design, graph, allowed_time)

def late(design, graph, allowed_time, length):
    """The call that stops "at the lowest copy where paths end with an arrival above T": "that copy's number", or None, "that nothing is
    late"; and the arrivals that it writes in front of "a lent slice with a place for each copy", which has that length: "places after
    the returned copy are unchanged" (lent_after). "30, 10 to 16, 25 and 32 as for times". """
    arrivals = [at_copy.arrival for at_copy in times(design, graph, allowed_time, [length])]
    for copy, arrival in enumerate(arrivals):
        if graph.endpoints[copy] == 1 and arrival > allowed_time:
            return copy, arrivals[:copy + 1]
    return None, arrivals

def node_record(nodes, copy_nodes, arrivals, requireds, slacks, earliests, node):
    """"the largest arrival, the smallest required and the smallest slack of its copies", and of the
    earliest arrivals "at a node the smallest over its copies"; or none (None) "when it has no copy or
    is not below n"."""
    refuse(slices_refusal([(len(copy_nodes), len(arrivals), len(requireds), len(slacks), len(earliests))]))
    if nodes > MOST_NODES:
        raise Refused(10)
    copies = [copy for copy, of_node in enumerate(copy_nodes) if of_node == node]
    if not copies or node >= nodes:
        return None
    return Times(max(arrivals[copy] for copy in copies), min(requireds[copy] for copy in copies),
                 min(slacks[copy] for copy in copies), min(earliests[copy] for copy in copies))

def node_records(nodes, copy_nodes, arrivals, requireds, slacks, earliests, places, asked=None):
    """The call for the records of all nodes; places are the lengths of its five result slices, one
    place for each node. The records of the asked nodes, or of all."""
    refuse(slices_refusal([(len(copy_nodes), len(arrivals), len(requireds), len(slacks), len(earliests)),
                           (nodes,) + tuple(places)]))
    if nodes > MOST_NODES:
        raise Refused(10)
    return [node_record(nodes, copy_nodes, arrivals, requireds, slacks, earliests, node)
            for node in (range(nodes) if asked is None else asked)]

def records_of(design, graph, at_copies):
    """The records of all nodes, from the times of all copies."""
    columns = [[at_copy[part] for at_copy in at_copies] for part in range(4)]
    return node_records(design.nodes, graph.copy_nodes, *columns, [design.nodes] * 5)

def no_worse(before, after):
    """Of a node's record, and of its record once the list is extended: "no node's slack falls and no node's arrival rises, reading none as
    better than any number". Nor does its required time fall, or its earliest arrival."""
    if before is None or after is None:
        return after is None
    return (after.arrival <= before.arrival and after.required >= before.required
            and after.slack >= before.slack and after.earliest >= before.earliest)

# ---- Packed form ---------------------------------------------------------------------------

def read_number(data, place):
    """(number, place after it), or refused 1 or 2."""
    value = 0
    for group in range(5):
        if place + group >= len(data):
            raise Refused(1, len(data))         # "bytes end inside a number ...; offset, the length"
        byte = data[place + group]
        if group == 4 and byte > 0x0F:          # "a fifth byte above hexadecimal 0F is too large
            raise Refused(2, place)             #  even as the last byte"
        value += (byte & 0x7F) << (7 * group)   # "groups of seven bits, lowest group first"
        if byte < 0x80:                         # "the top bit of a byte set when more follow"
            if byte == 0 and group > 0:         # "shortest form only"
                raise Refused(2, place)
            return value, place + group + 1
    raise AssertionError("a fifth byte at most 0F is a last byte")

def write_number(value):
    assert 0 <= value < 2 ** 32
    packed = []
    while value >= 0x80:
        packed.append(0x80 | value & 0x7F)
        value >>= 7
    return bytes(packed + [value])

def pack_delay(delay):
    """"A delay d is packed as 2d, or -2d - 1 when negative." """
    return 2 * delay if delay >= 0 else -2 * delay - 1

def unpack_delay(packed):
    return packed // 2 if packed % 2 == 0 else -((packed + 1) // 2)

class Reader:
    """The lent bytes and a place in them."""
    def __init__(self, data):
        self.data, self.place = data, 0

    def number(self):
        value, self.place = read_number(self.data, self.place)
        return value

    def count(self, *limits):
        """A count, tested as it is met: limits are (most, refusal number), in order, or with a place (most, number, place)."""
        value = self.number()
        for most, *refusal in limits:
            if value > most:
                raise Refused(*refusal)
        return value

    def end(self):
        if self.place < len(self.data):
            raise Refused(3, self.place)        # "bytes remain; offset of the first"

def packed(numbers, room):
    data = b"".join(write_number(number) for number in numbers)
    if len(data) > room:
        raise Refused(35)                       # "the packed result is longer than its room"
    return data

def read_deck(data, tables):
    """"After 30 the deck reader meets 1, 2, the counts (10, 11, 20, 21, and after 11, 20 and
    21 the 36 of that count) in file order, then 3"; "the reader gives" 16 "at a count of marks above n,
    place n, then 36 above a table" """
    refuse(slices_refusal([tables[:4]]))
    reader = Reader(data)
    nodes = reader.count((MOST_NODES, 10))
    edges = []
    for _ in range(reader.count((MOST_EDGES, 11), (tables.starts, 36))):
        # "in the deck early first"
        edges.append((reader.number(), reader.number(), unpack_delay(reader.number()), unpack_delay(reader.number())))
    lengths, flat, total = [], [], 0
    for _ in range(reader.count((MOST_PATHS, 20), (tables.paths, 36))):
        # "The path lengths are summed as they are met, for 21 and its 36."
        lengths.append(reader.number())
        total += lengths[-1]
        refuse((21, 0) if total > MOST_LISTED_EDGES else (36, 0) if total > tables.listed else None)
        flat.extend(reader.number() for _ in range(lengths[-1]))
    marked = [reader.number() for _ in range(reader.count((nodes, 16, nodes), (tables.marked, 36)))]
    allowed_time = reader.number()
    reader.end()
    slices = ([edge[part] for edge in edges] for part in range(4))
    return Deck(Design(nodes, *slices, marked), PathList(lengths, flat), allowed_time)

def deck_numbers(deck):
    """"Deck: n, m, then start, end, delay for each edge; the count of paths, then for each its
    length and edges; T." Of each edge both delays, "in the deck early first"; "a count of marked nodes and
    their numbers, strictly rising, before T". """
    design, path_list, allowed_time = deck
    numbers = [design.nodes, len(design.starts)]
    for start, end, early, late in zip(design.starts, design.ends, design.early, design.late):
        numbers += [start, end, pack_delay(early), pack_delay(late)]
    numbers.append(len(path_list.lengths))
    for path in listed_paths(path_list):
        numbers += [len(path), *path]
    return numbers + [len(design.marked), *design.marked, allowed_time]

def write_deck(deck, room):
    """"Writers test only 30, the counts (10, 11, 20, 21; 32 for a graph) and 35", and 16 at more marked nodes than n "after the counts"."""
    design, path_list, _ = deck
    refuse(slices_refusal([design_slices(design)], path_list))
    for count, most, number in ((design.nodes, MOST_NODES, 10), (len(design.starts), MOST_EDGES, 11),
                                (len(path_list.lengths), MOST_PATHS, 20),
                                (len(path_list.flat), MOST_LISTED_EDGES, 21)):
        if count > most:
            raise Refused(number)
    if len(design.marked) > design.nodes:
        raise Refused(16, design.nodes)
    return packed(deck_numbers(deck), room)

def write_graph(graph, room):
    """"Packed true graph: count of copies, the node of each; count of edges, then start copy,
    end copy, design edge of each"; it "gains 0 or 1 after each copy's node", and 32 "at an end number above 1 ... after the counts"."""
    refuse(slices_refusal(graph_groups(graph)))
    if len(graph.copy_nodes) > MOST_COPIES or len(graph.starts) > MOST_GRAPH_EDGES:
        raise Refused(32)
    if any(number > 1 for number in graph.endpoints):
        raise Refused(32)
    numbers = [len(graph.copy_nodes)]
    for copy in zip(graph.copy_nodes, graph.endpoints):
        numbers += copy
    numbers.append(len(graph.starts))
    for edge in zip(graph.starts, graph.ends, graph.design_edges):
        numbers += edge
    return packed(numbers, room)

def read_graph(data, room):
    """"at each count as it is met, 32 above 16,384 copies or 65,536 edges, then 33 or 34 for
    its lent room; 3 comes after them"; "32 at an end number above 1", as it is met too"""
    refuse(slices_refusal(room_groups(room)))
    reader = Reader(data)
    copy_count = reader.count((MOST_COPIES, 32), (room.copies, 33))
    copies = [(reader.number(), reader.count((1, 32))) for _ in range(copy_count)]
    edge_count = reader.count((MOST_GRAPH_EDGES, 32), (room.starts, 34))
    edges = [(reader.number(), reader.number(), reader.number()) for _ in range(edge_count)]
    reader.end()
    return Graph(*([copy[part] for copy in copies] for part in range(2)), *([edge[part] for edge in edges] for part in range(3)))

# ---- The deck program and the C call -------------------------------------------------------

def deck_and_graph(data):
    """What both do: 4 "before all", reading, then the tests "once, after reading, 25 included"."""
    if len(data) > MOST_DECK_BYTES:
        raise Refused(4, MOST_DECK_BYTES)
    deck = read_deck(data, PROGRAM_TABLES)
    graph = removal(deck.design, deck.path_list, None, PROGRAM_SCRATCH, PROGRAM_ROOM, deck.allowed_time)
    return deck, graph

def deck_program(data):
    """All that the deck program prints. The earliest arrival "is printed last, after the word `earliest` on each copy line and bare
    on each node line with times"; "Copy lines where paths end gain the word `end` last"."""
    try:
        deck, graph = deck_and_graph(data)
    except Refused as refused:
        return printed_refusal(refused.refusal) + "\n"
    at_copies = copy_times(deck.design, graph, deck.allowed_time)
    lines = ["copies %d edges %d" % (len(graph.copy_nodes), len(graph.starts))]
    for copy, (node, at_copy) in enumerate(zip(graph.copy_nodes, at_copies)):
        lines.append("copy %d node %d arrival %d required %d slack %d earliest %d" % (copy, node, *at_copy)
                     + (" end" if graph.endpoints[copy] == 1 else ""))
    for edge in zip(graph.starts, graph.ends, graph.design_edges):
        lines.append("edge %d %d %d" % edge)
    for node, record in enumerate(records_of(deck.design, graph, at_copies)):
        lines.append("node %d none" % node if record is None else "node %d %d %d %d %d" % (node, *record))
    return "\n".join(lines) + "\n"

def c_call(data, room):
    """"one signed 64-bit number: the length, or on a refusal minus the sum of the number and
    256 times the place"; "the C call returns the first place"; and the bytes written (none on a refusal)."""
    try:
        result = write_graph(deck_and_graph(data)[1], room)
    except Refused as refused:
        number, place = refused.refusal[:2]
        return -(number + 256 * place), b""
    return len(result), result

def main(arguments):
    data = sys.stdin.buffer.read()
    if len(arguments) == 2 and arguments[0] == "--c":
        number, result = c_call(data, int(arguments[1]))
        print(number)
        print(result.hex())
    elif not arguments:
        sys.stdout.write(deck_program(data))
    else:
        sys.exit("usage: walker.py [--c ROOM] < deck")

if __name__ == "__main__":
    main(sys.argv[1:])
