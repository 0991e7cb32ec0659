/* Jaqhweni: true timing graphs.
 *
 * A design has n nodes and m edges, each with a start, a higher end, and an early and a late delay in picoseconds, the early one at most
 * the late one. Its paths run from a source (a node without an edge in) to an endpoint: a sink (a node without an edge out) or a marked
 * node. Nodes are marked where the time counts although the signal goes on, as at an observed pin that also drives further logic: paths
 * end there, and others pass through. At a marked source there is the path without edges too.
 *
 * A listed path is a run of edges that is known never to be exercised (a false path). The true timing graph has copies of the nodes, and
 * edges between copies, and says of each copy whether paths end at it. Its paths run from a source copy (a copy without an edge in) to a
 * copy where paths end, and are the design's paths that contain no listed path, each once, with both delays unchanged.
 *
 * jaqhweni_true_graph makes the graph of a packed deck. From plain arrays jaqhweni_remove_from_design and jaqhweni_remove_from_graph make
 * one, and jaqhweni_size_from_design and jaqhweni_size_from_graph tell how large it will be. Of a graph jaqhweni_times gives the times,
 * jaqhweni_late says whether any path takes too long, and jaqhweni_write_graph packs it.
 *
 * Link with libjaqhweni.a. No function allocates, keeps anything between calls or reads anything but its arguments, so calls on separate
 * buffers may run on separate threads. How much stack a call takes is said below. A slice is a pointer and its count of elements (not
 * bytes). The pointer must be valid for that many elements, and not null even where the count is 0. Slices that a call writes must
 * overlap no other slice of that call.
 *
 * Answers. Every function returns one signed 64-bit number. Below zero it is a refusal, minus (number + 256 * place):
 *
 *     number = (-answer) % 256        place = (-answer) / 256
 *
 *     number  place         what is wrong
 *     ------  ------------  ----------------------------------------------------------------------------------------------------
 *          1  length        the deck's bytes end inside a number or before the last one
 *          2  byte offset   a number is not in its shortest form, or is above 4,294,967,295
 *          3  byte offset   bytes remain after the deck
 *          4  65,536        the deck has more than 65,536 bytes
 *         10  0             more than 4,096 nodes
 *         11  0             more than 16,384 edges
 *         12  edge          an edge names a node that is not below n
 *         13  edge          an edge does not run from a lower to a higher node
 *         14  edge          an edge's early or late delay is below -1,000,000 or above 1,000,000
 *         15  edge          an edge's early delay is above its late delay
 *         16  index         a marked node is not below n, or not above the marked node before it; the place is its index among these
 *         16  n             a deck has more than n marked nodes
 *         20  0             more than 1,024 listed paths
 *         21  0             more than 8,192 listed edges in all
 *         22  path          a listed path is empty
 *         23  path          a listed path names an edge that is not below m
 *         24  path          a listed path has an edge that does not start where the one before ends
 *         25  0             the allowed time is above 1,000,000,000
 *         30  0             slices that belong together (of a design's edges; of a graph's or a room's copies, with the times of these; of
 *                           a graph's or a room's edges) differ in length, or the lengths of the paths do not add up to the listed edges
 *         31  0             the scratch is too short
 *         32  0             the graph given is not a well-formed true graph of the design (below)
 *         33  0             the result has more copies than the room, or than 16,384
 *         34  0             the copies fit, and the result has more edges than the room, or than 65,536
 *         35  0             the packed result is longer than its room
 *         36  0             a count of the deck is above 1,024 edges, 256 paths, 1,024 listed edges or 1,024 marked nodes
 *
 * Of 22 to 24 the place is the path alone; which of its edges is at fault, the deck program prints.
 *
 * A refusal changes no result slice. Tests are made in the order 30, 10 to 16, 20 to 25, 32, 31, 33, 34, 35, one number over everything
 * before the next; of a deck, 4, then 1, 2, 10, 11, 20, 21, 16 with place n, and 36 as it is read, then 3, come before them. A call
 * leaves out the tests of what it does not take.
 *
 * A graph is five slices: of each copy its node `nodes` and its endpoint number `endpoint`, 1 where paths end at it and 0 elsewhere; of
 * each edge its start copy `from`, its end copy `to` and its design edge `via`. The first two are of one length, and so are the last
 * three. It is a well-formed true graph of a design if
 *     - it has at most 16,384 copies and 65,536 edges;
 *     - nodes are below n, and never fall from one copy to the next;
 *     - edges join existing copies by a design edge between the nodes of these, and rise strictly by end copy and then design edge;
 *     - endpoint numbers are 0 or 1: 1 only at copies of sinks and marked nodes, at every copy of a sink, at no two copies of one node;
 *     - a copy of a node that is no source has an edge in, and a copy with endpoint number 0 has an edge out. */
#ifndef JAQHWENI_H
#define JAQHWENI_H

#include <stddef.h>
#include <stdint.h>

#ifdef __cplusplus
extern "C" {
#endif

/* The limits, and what test 31 asks of the scratch. */
#define JAQHWENI_MAX_NODES 4096
#define JAQHWENI_MAX_EDGES 16384
#define JAQHWENI_MAX_PATHS 1024
#define JAQHWENI_MAX_LISTED_EDGES 8192
#define JAQHWENI_MAX_COPIES 16384
#define JAQHWENI_MAX_COPY_EDGES 65536
#define JAQHWENI_MAX_DECK_BYTES 65536
#define JAQHWENI_WORDS_PER_UNIT 8

/* The most stack that a call takes, in bytes, whatever it is given: as measured at the limits (tests/stack.c), rounded up. Telling a
 * size is held to the removal's promise, and late or not to that of times. */
#define JAQHWENI_STACK_TRUE_GRAPH 393216
#define JAQHWENI_STACK_REMOVE_FROM_DESIGN 278528
#define JAQHWENI_STACK_REMOVE_FROM_GRAPH 196608
#define JAQHWENI_STACK_SIZE_FROM_DESIGN JAQHWENI_STACK_REMOVE_FROM_DESIGN
#define JAQHWENI_STACK_SIZE_FROM_GRAPH JAQHWENI_STACK_REMOVE_FROM_GRAPH
#define JAQHWENI_STACK_TIMES 49152
#define JAQHWENI_STACK_LATE JAQHWENI_STACK_TIMES
#define JAQHWENI_STACK_WRITE_GRAPH 4096

/* From a packed deck to its packed true graph.
 *
 * Numbers are packed in groups of seven bits, lowest group first, the top bit of a byte set when more bytes follow, shortest form only.
 * A delay d is packed as the number 2d, or -2d - 1 when it is negative.
 *     deck:   n, m, then start, end, early delay, late delay of each edge; the count of paths, then for each its length and its edges;
 *             the count of marked nodes, then these, strictly rising; the allowed time
 *     graph:  the count of copies, then node and endpoint number (0 or 1) of each; the count of edges, then start copy, end copy, design
 *             edge of each
 *
 * Returns the length of the graph, at least 2, of which `room` then holds the bytes; what follows them is unchanged. Takes decks of up
 * to 1,024 edges, 256 paths, 1,024 listed edges and 1,024 marked nodes (else 36), and results of up to 512 copies and 2,048 edges (else
 * 33, 34); 31 is returned where n + m + 2 * listed edges - paths is above 2,048. For larger designs use the calls below. */
int64_t jaqhweni_true_graph(const uint8_t *deck, size_t deck_length, uint8_t *room, size_t room_length);

/* The true graph of a design and a list of paths.
 *
 * Edge k of the design runs from starts[k] to ends[k] with the delays early[k] and late[k]; the four slices are of one length. Delays
 * are tested and make no difference to the result. `marked` has the marked nodes, strictly rising; it may be empty. To mark a sink changes
 * nothing. The listed paths stand end to end in `listed`, and `lengths` has the length of each. What counts is which paths are listed:
 * neither their order nor listing one again makes a difference to the result. Of the refusals 20, 21 and 31 count every listing, and the
 * place of 22 to 24 is a number in the list as it stands.
 *
 * The result is a graph as said above, in front of `room_nodes`, `room_endpoint`, `room_from`, `room_to` and `room_via`; copies go by
 * node, edges by end copy and then design edge. The first two slices are of one length, and so are the last three. How many places it
 * takes, jaqhweni_size_from_design tells beforehand.
 *
 * The scratch has at least 8 words for each of: the nodes, the listed edges that are not first in their path, the listed edges, the
 * design's edges. It may hold anything; afterwards it is all zero (after success, 33 and 34) or unchanged.
 *
 * Returns copies + edges * 2^32. Places of the room past the result are unchanged. */
int64_t jaqhweni_remove_from_design(
    uint32_t n,
    const uint32_t *starts, size_t starts_length,
    const uint32_t *ends, size_t ends_length,
    const int32_t *early, size_t early_length,
    const int32_t *late, size_t late_length,
    const uint32_t *marked, size_t marked_length,
    const uint32_t *listed, size_t listed_length,
    const uint32_t *lengths, size_t lengths_length,
    uint32_t *room_nodes, size_t room_nodes_length,
    uint32_t *room_endpoint, size_t room_endpoint_length,
    uint32_t *room_from, size_t room_from_length,
    uint32_t *room_to, size_t room_to_length,
    uint32_t *room_via, size_t room_via_length,
    uint32_t *scratch, size_t scratch_length);

/* What is left of an earlier graph after a further list: the graph of those of its paths that contain no listed path. Only where the
 * earlier graph came from such removals of the same design, with the same marked nodes, is this the true graph of the design and of all
 * lists so far (up to the numbering of copies within a node). A graph from elsewhere need only be well formed, and what comes out says
 * nothing of the design's other paths. The earlier graph stands in other slices than the room.
 *
 * The scratch has at least 8 words for each of: the copies; for each copy, the listed edges, not first in their path, that start at its
 * node; the listed edges; the earlier graph's edges. How long the room has to be, jaqhweni_size_from_graph tells. All else is as above. */
int64_t jaqhweni_remove_from_graph(
    uint32_t n,
    const uint32_t *starts, size_t starts_length,
    const uint32_t *ends, size_t ends_length,
    const int32_t *early, size_t early_length,
    const int32_t *late, size_t late_length,
    const uint32_t *marked, size_t marked_length,
    const uint32_t *listed, size_t listed_length,
    const uint32_t *lengths, size_t lengths_length,
    const uint32_t *nodes, size_t nodes_length,
    const uint32_t *endpoint, size_t endpoint_length,
    const uint32_t *from, size_t from_length,
    const uint32_t *to, size_t to_length,
    const uint32_t *via, size_t via_length,
    uint32_t *room_nodes, size_t room_nodes_length,
    uint32_t *room_endpoint, size_t room_endpoint_length,
    uint32_t *room_from, size_t room_from_length,
    uint32_t *room_to, size_t room_to_length,
    uint32_t *room_via, size_t room_via_length,
    uint32_t *scratch, size_t scratch_length);

/* How many copies and edges the result of jaqhweni_remove_from_design or jaqhweni_remove_from_graph has, told before any room is lent. The
 * slices are those of the removal without the room's five. So a host that asks first need not guess (each slice stands here by its name
 * alone):
 *
 *     int64_t told = jaqhweni_size_from_design(n, starts, ends, early, late, marked, listed, lengths, scratch);
 *     if (told < 0) ...                                                a refusal: the removal, in this scratch, would be refused, too
 *     size_t copies = (uint32_t)told, edges = (size_t)(told >> 32);
 *     ...                                                              lend two slices of `copies` words and three of `edges` words
 *     jaqhweni_remove_from_design(n, starts, ends, early, late, marked, listed, lengths, room_nodes, room_endpoint, room_from, room_to,
 *                                 room_via, scratch);                  returns what was told
 *
 * A removal from the same design, list and earlier graph, in any room and scratch for which it returns neither 30 nor 31, returns 33 where
 * its room of copies is below the told number, else 34 where its room of edges is, and else fills just so many places. So in a room of the
 * told lengths it returns neither 33 nor 34.
 *
 * The refusals are the removal's, but there is no room that 30 could measure. 33 means that the result has more than 16,384 copies, 34
 * that it has at most so many but more than 65,536 edges; such a result fits no room. Where 33 is told, the removal returns 33 in every
 * room; where 34 is told, 33 in a room for fewer copies than the result's, and else 34. Any other refusal but 31 it returns too. (All this
 * unless it returns 30 or 31.) From a design there are at most 12,287 copies, so that 33 comes from an earlier graph alone.
 *
 * The scratch is as long as the removal's, and the same may be lent to both. It may hold anything; afterwards it is all zero (after
 * success, 33 and 34) or unchanged. Nothing else is written.
 *
 * Returns copies + edges * 2^32. */
int64_t jaqhweni_size_from_design(
    uint32_t n,
    const uint32_t *starts, size_t starts_length,
    const uint32_t *ends, size_t ends_length,
    const int32_t *early, size_t early_length,
    const int32_t *late, size_t late_length,
    const uint32_t *marked, size_t marked_length,
    const uint32_t *listed, size_t listed_length,
    const uint32_t *lengths, size_t lengths_length,
    uint32_t *scratch, size_t scratch_length);

int64_t jaqhweni_size_from_graph(
    uint32_t n,
    const uint32_t *starts, size_t starts_length,
    const uint32_t *ends, size_t ends_length,
    const int32_t *early, size_t early_length,
    const int32_t *late, size_t late_length,
    const uint32_t *marked, size_t marked_length,
    const uint32_t *listed, size_t listed_length,
    const uint32_t *lengths, size_t lengths_length,
    const uint32_t *nodes, size_t nodes_length,
    const uint32_t *endpoint, size_t endpoint_length,
    const uint32_t *from, size_t from_length,
    const uint32_t *to, size_t to_length,
    const uint32_t *via, size_t via_length,
    uint32_t *scratch, size_t scratch_length);

/* Arrival, required time, slack and earliest arrival of each copy of a true graph, in picoseconds. `arrivals`, `requireds`, `slacks` and
 * `earliests` have one place for each copy.
 *
 * The first three go by late delays (setup checks). The required time is the smallest of the allowed time less the delay of a path on to
 * where paths end; at a copy with endpoint number 1 it is the allowed time or, if smaller, what comes from further on. The earliest
 * arrival goes by early delays (hold checks): it is the smallest early delay of a path from a source copy, and 0 at a source copy; less
 * the hold time of a register there it is the hold margin. A listed path is left out of both checks: list only what is false for both.
 *
 * The times of a node are taken by the caller from those of its copies, as there is no call for them yet: the largest arrival, the
 * smallest required time, the smallest slack (and not required time less arrival, which may belong to different copies), and the
 * smallest earliest arrival. A node without a copy has none.
 *
 * If paths are added to a list, and the shorter and the longer list are removed from the same design or from the same earlier graph, then
 * with the same allowed time no node's slack or required time falls, no node's arrival rises and no node's earliest arrival falls, none
 * being better than any number. A copy's number in the one graph says nothing of the copy with this number in the other.
 *
 * Returns 0. */
int64_t jaqhweni_times(
    uint32_t n,
    const uint32_t *starts, size_t starts_length,
    const uint32_t *ends, size_t ends_length,
    const int32_t *early, size_t early_length,
    const int32_t *late, size_t late_length,
    const uint32_t *marked, size_t marked_length,
    uint32_t allowed,
    const uint32_t *nodes, size_t nodes_length,
    const uint32_t *endpoint, size_t endpoint_length,
    const uint32_t *from, size_t from_length,
    const uint32_t *to, size_t to_length,
    const uint32_t *via, size_t via_length,
    int64_t *arrivals, size_t arrivals_length,
    int64_t *requireds, size_t requireds_length,
    int64_t *slacks, size_t slacks_length,
    int64_t *earliests, size_t earliests_length);

/* Late or not: whether any path of a true graph takes longer than the allowed time, by late delays, as a sizing loop asks after each
 * change. Of a graph that removals made from the design, these are the design's paths that contain no listed path; of one from elsewhere,
 * its own. The slices are those of jaqhweni_times with `arrivals` alone to be written, which has one place for each copy.
 *
 * Arrivals are found copy by copy, from the first on, up to the first copy with endpoint number 1 whose arrival is above the allowed time.
 * An arrival of just the allowed time is not late, and neither is one above it where no path ends, since delays below zero may follow.
 * The answer is late if and only if jaqhweni_times gives a slack below zero somewhere. All tests come first, so that stopping early saves
 * part of the pass alone.
 *
 * Returns 0 where nothing is late; `arrivals` then holds the arrival of every copy. Else returns 1 + the number of that copy; `arrivals`
 * then holds the arrivals of the copies up to it, and places after these are unchanged. */
int64_t jaqhweni_late(
    uint32_t n,
    const uint32_t *starts, size_t starts_length,
    const uint32_t *ends, size_t ends_length,
    const int32_t *early, size_t early_length,
    const int32_t *late, size_t late_length,
    const uint32_t *marked, size_t marked_length,
    uint32_t allowed,
    const uint32_t *nodes, size_t nodes_length,
    const uint32_t *endpoint, size_t endpoint_length,
    const uint32_t *from, size_t from_length,
    const uint32_t *to, size_t to_length,
    const uint32_t *via, size_t via_length,
    int64_t *arrivals, size_t arrivals_length);

/* A true graph as jaqhweni_true_graph packs it. Tested are 30, 32 for the counts (16,384 copies, 65,536 edges) and for endpoint numbers
 * above 1, and 35: other numbers of any size are packed. A well-formed graph takes at most 3 bytes for each copy, 6 for each edge and 6
 * more.
 *
 * Returns the length, at least 2, of which `room` then holds the bytes; what follows them is unchanged. */
int64_t jaqhweni_write_graph(
    const uint32_t *nodes, size_t nodes_length,
    const uint32_t *endpoint, size_t endpoint_length,
    const uint32_t *from, size_t from_length,
    const uint32_t *to, size_t to_length,
    const uint32_t *via, size_t via_length,
    uint8_t *room, size_t room_length);

#ifdef __cplusplus
}
#endif

#endif
