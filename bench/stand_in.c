/* The calls of jaqhweni.h by the reference program: stands in for libjaqhweni.a where a test or the benchmark is itself tried. FAULT, if
 * defined, is a number that puts an error in on purpose (tests/against_walker.py --try-faults). */
#include "../include/jaqhweni.h"
#include "reference.h"

#include <string.h>

#ifndef FAULT
#define FAULT 0
#endif

int64_t jaqhweni_true_graph(const uint8_t *deck, size_t deck_length, uint8_t *room, size_t room_length)
{
    int64_t made = reference_true_graph(deck, deck_length, room, room_length);
    if (FAULT == 1 && made < 0 && room_length > 0) room[0] = 0;                             /* writes on a refusal */
    if (FAULT == 2 && made > 0 && (size_t)made < room_length) room[made] ^= 1;             /* writes past the result */
    if (FAULT == 3 && made == -(3 + 256 * 24)) return -3;                                   /* loses a place: deck A and more */
    if (FAULT == 34 && -made % 256 == 16) return -16;                                       /* loses the place of 16 */
    return made;
}

static uint32_t longer[1 << 20];

/* As reference_remove_from_design, but for 31: takes one word less than it asks. */
static int64_t remove_with_less(DESIGN_PARAMETERS, LIST_PARAMETERS, ROOM_PARAMETERS)
{
    if (scratch_length >= sizeof longer / sizeof *longer) return -31;
    uint32_t *lent = scratch;
    size_t lent_length = scratch_length;
    scratch = longer;
    scratch_length = lent_length + 1;
    int64_t made = reference_remove_from_design(DESIGN_SLICES, LIST_SLICES, ROOM_SLICES);
    if (made != -31) memset(lent, 0, lent_length * sizeof *lent);
    return made;
}

static int is_marked(uint32_t node, const uint32_t *marked, size_t marked_length)
{
    for (size_t i = 0; i < marked_length; i++)
        if (marked[i] == node) return 1;
    return 0;
}

/* Of a design and a list that are fit: lists the edges out of each marked node that is no source as well, in a scratch of its own. */
static int64_t remove_without_passing(DESIGN_PARAMETERS, LIST_PARAMETERS, ROOM_PARAMETERS)
{
    static uint32_t edges[JAQHWENI_MAX_LISTED_EDGES + 1], sizes[JAQHWENI_MAX_PATHS + 1];
    static uint8_t has_in[JAQHWENI_MAX_NODES];
    memcpy(edges, listed, listed_length * sizeof *edges);
    memcpy(sizes, lengths, lengths_length * sizeof *sizes);
    memset(has_in, 0, sizeof has_in);
    for (size_t e = 0; e < ends_length; e++) has_in[ends[e]] = 1;
    for (size_t e = 0; e < starts_length && listed_length < JAQHWENI_MAX_LISTED_EDGES && lengths_length < JAQHWENI_MAX_PATHS; e++)
        if (has_in[starts[e]] && is_marked(starts[e], marked, marked_length)) {
            edges[listed_length++] = (uint32_t)e;
            sizes[lengths_length++] = 1;
        }
    listed = edges;
    lengths = sizes;
    scratch = longer;
    scratch_length = sizeof longer / sizeof *longer;
    return reference_remove_from_design(DESIGN_SLICES, LIST_SLICES, ROOM_SLICES);
}

/* Each marked node once, where they rise but for repeats. */
static int64_t remove_with_repeats(DESIGN_PARAMETERS, LIST_PARAMETERS, ROOM_PARAMETERS)
{
    static uint32_t once[JAQHWENI_MAX_NODES];
    size_t count = 0;
    for (size_t i = 0; i < marked_length && count < JAQHWENI_MAX_NODES; i++)
        if (i == 0 || marked[i] != marked[i - 1]) once[count++] = marked[i];
    marked = once;
    marked_length = count;
    return reference_remove_from_design(DESIGN_SLICES, LIST_SLICES, ROOM_SLICES);
}

/* 1 at every copy of a marked node. */
static void end_everywhere(int64_t made, const uint32_t *marked, size_t marked_length, const uint32_t *room_nodes, uint32_t *room_endpoint)
{
    for (size_t c = 0; made > 0 && c < (uint32_t)made; c++)
        if (is_marked(room_nodes[c], marked, marked_length)) room_endpoint[c] = 1;
}

/* Two copies side by side of one node, the last such two, exchanged, and the edges in order again: the same paths, numbered otherwise. */
static void exchange_copies(int64_t made, const uint32_t *nodes, uint32_t *endpoint, uint32_t *from, uint32_t *to, uint32_t *via)
{
    uint32_t c = (uint32_t)made, edges = (uint32_t)(made >> 32), *parts[] = {from, to, via};
    while (c > 1 && nodes[c - 1] != nodes[c - 2]) c--;
    if (c < 2) return;
    uint32_t a = c - 2, b = c - 1, at_a = endpoint[a];
    endpoint[a] = endpoint[b];
    endpoint[b] = at_a;
    for (uint32_t e = 0; e < edges; e++) {
        from[e] = from[e] == a ? b : from[e] == b ? a : from[e];
        to[e] = to[e] == a ? b : to[e] == b ? a : to[e];
        for (uint32_t k = e; k > 0 && (to[k - 1] > to[k] || (to[k - 1] == to[k] && via[k - 1] > via[k])); k--)
            for (int part = 0; part < 3; part++) {
                uint32_t before = parts[part][k - 1];
                parts[part][k - 1] = parts[part][k];
                parts[part][k] = before;
            }
    }
}

int64_t jaqhweni_remove_from_design(DESIGN_PARAMETERS, LIST_PARAMETERS, ROOM_PARAMETERS)
{
    int64_t made = reference_remove_from_design(EDGE_SLICES, marked, FAULT == 24 ? 0 : marked_length, LIST_SLICES, ROOM_SLICES);
    if (FAULT == 18 && made == -31) return remove_with_less(DESIGN_SLICES, LIST_SLICES, ROOM_SLICES);
    if (FAULT == 25 && made > 0) return remove_without_passing(DESIGN_SLICES, LIST_SLICES, ROOM_SLICES);
    if (FAULT == 28) end_everywhere(made, marked, marked_length, room_nodes, room_endpoint);
    if (FAULT == 29 && -made % 256 == 16) return remove_with_repeats(DESIGN_SLICES, LIST_SLICES, ROOM_SLICES);
    for (size_t i = 0; FAULT == 35 && -made % 256 == 15 && i < marked_length; i++)          /* 16 before 15 */
        if (marked[i] >= n || (i > 0 && marked[i] <= marked[i - 1])) return -(16 + 256 * (int64_t)i);
    if (FAULT == 4 && made == -31) memset(scratch, 0, scratch_length * sizeof *scratch);    /* clears where it must not */
    if (FAULT == 5 && made >> 32 > 2) {                                                     /* two edges out of order */
        size_t last = (size_t)(made >> 32) - 1;
        uint32_t name = room_via[last];
        room_via[last] = room_via[last - 1];
        room_via[last - 1] = name;
    }
    if (FAULT == 6 && made == -34) return -33;
    if (FAULT == 7 && made > 0 && room_nodes_length > 0) room_nodes[room_nodes_length] = 0; /* one place past the room */
    for (size_t e = 0; FAULT == 22 && made > 0 && e < starts_length; e++)                   /* 15 also for equal delays */
        if (early[e] == late[e]) return -(15 + 256 * (int64_t)e);
    if (FAULT == 81 && made > 0 && lengths_length > 1 && listed[lengths[0] - 1] > listed[listed_length - 1])
        exchange_copies(made, room_nodes, room_endpoint, room_from, room_to, room_via);     /* the list's order decides the numbers */
    return made;
}

/* The first copy of each node with 1 keeps it, and others lose it. */
static int64_t remove_with_one_end(DESIGN_PARAMETERS, LIST_PARAMETERS, GRAPH_PARAMETERS, ROOM_PARAMETERS)
{
    static uint32_t first[JAQHWENI_MAX_COPIES];
    uint32_t last = UINT32_MAX;
    if (nodes_length > JAQHWENI_MAX_COPIES) return -32;
    for (size_t c = 0; c < nodes_length; c++) {
        first[c] = endpoint[c] == 1 && nodes[c] == last ? 0 : endpoint[c];
        if (first[c]) last = nodes[c];
    }
    endpoint = first;
    return reference_remove_from_graph(DESIGN_SLICES, LIST_SLICES, GRAPH_SLICES, ROOM_SLICES);
}

/* Of a list that is fit, in a scratch that is enough for it: what is listed more than once is taken as not listed. */
static int64_t remove_without_repeated(DESIGN_PARAMETERS, LIST_PARAMETERS, GRAPH_PARAMETERS, ROOM_PARAMETERS)
{
    static uint32_t edges[JAQHWENI_MAX_LISTED_EDGES], sizes[JAQHWENI_MAX_PATHS];
    size_t edge_count = 0, path_count = 0;
    for (size_t p = 0, at = 0; p < lengths_length; at += lengths[p++]) {
        int times_listed = 0;
        for (size_t q = 0, there = 0; q < lengths_length; there += lengths[q++])
            times_listed += lengths[q] == lengths[p] && !memcmp(listed + at, listed + there, lengths[p] * sizeof *listed);
        if (times_listed > 1) continue;
        memcpy(edges + edge_count, listed + at, lengths[p] * sizeof *edges);
        sizes[path_count++] = lengths[p];
        edge_count += lengths[p];
    }
    listed = edges;
    listed_length = edge_count;
    lengths = sizes;
    lengths_length = path_count;
    return reference_remove_from_graph(DESIGN_SLICES, LIST_SLICES, GRAPH_SLICES, ROOM_SLICES);
}

int64_t jaqhweni_remove_from_graph(DESIGN_PARAMETERS, LIST_PARAMETERS, GRAPH_PARAMETERS, ROOM_PARAMETERS)
{
    size_t lent_length = scratch_length;
    if (FAULT == 8 && listed_length > 0)                                                    /* cuts on nothing but the first edge's path */
        return reference_remove_from_graph(DESIGN_SLICES, listed, lengths[0], lengths, 1, GRAPH_SLICES, ROOM_SLICES);
    if (FAULT == 19) scratch_length /= 2;                                                   /* asks for 16 words, where 8 are enough */
    int64_t made = reference_remove_from_graph(DESIGN_SLICES, LIST_SLICES, GRAPH_SLICES, ROOM_SLICES);
    if (FAULT == 19 && (made >= 0 || made == -33 || made == -34)) memset(scratch, 0, lent_length * sizeof *scratch);
    if (FAULT == 9 && made > 0 && scratch_length > 0) scratch[scratch_length - 1] = 1;      /* leaves a word */
    if (FAULT == 10 && made > 0 && nodes_length > 0) ((uint32_t *)(uintptr_t)nodes)[0]++;           /* writes what is only lent to read */
    if (FAULT == 28) end_everywhere(made, marked, marked_length, room_nodes, room_endpoint);
    if (FAULT == 31 && made == -30 && nodes_length != endpoint_length) return -32;
    if (FAULT == 32 && made == -32) return remove_with_one_end(DESIGN_SLICES, LIST_SLICES, GRAPH_SLICES, ROOM_SLICES);
    if (FAULT == 82 && made > 0) return remove_without_repeated(DESIGN_SLICES, LIST_SLICES, GRAPH_SLICES, ROOM_SLICES);
    return made;
}

/* What is told, with an error put in. `made` are the counts, whatever the limits are; `bound` is nodes or copies, and listed edges less
 * paths. */
static int64_t tell(int64_t made, size_t bound, SCRATCH_PARAMETERS)
{
    int64_t right = reference_within_limits(made), copies = (uint32_t)made, edges = made >> 32;
    if (FAULT == 39 && made == -31) memset(scratch, 0, scratch_length * sizeof *scratch);   /* clears where it must not */
    if (made < 0) return made;
    if (FAULT == 37 && right >= 0 && scratch_length > 0) scratch[scratch_length - 1] = 1;   /* leaves a word */
    if (FAULT == 38 && right < 0 && scratch_length > 0) scratch[0] = 1;                     /* leaves one where it refuses */
    if (FAULT == 40 && copies == JAQHWENI_MAX_COPIES) return -33;                           /* 33 above 16,383 copies */
    if (FAULT == 41 && right >= 0 && edges == JAQHWENI_MAX_COPY_EDGES) return -34;          /* 34 above 65,535 edges */
    if (FAULT == 42 && right == -33) return made;                                           /* knows no limit of copies */
    if (FAULT == 43 && right == -34) return made;                                           /* knows none of edges */
    if (FAULT == 44 && right == -33 && edges > JAQHWENI_MAX_COPY_EDGES) return -34;         /* 34 before 33 */
    if (FAULT == 45 && right == -34) return copies + ((int64_t)JAQHWENI_MAX_COPY_EDGES << 32);  /* counts no edge above 65,536 */
    if (right < 0) return right;
    if (FAULT == 36) return edges + (copies << 32);                                         /* counts exchanged */
    if (FAULT == 46) return (int64_t)bound + (edges << 32);                                 /* a bound, and not the count */
    if (FAULT == 47 && copies > 0) return made - 1;                                         /* one copy too few */
    if (FAULT == 48 && edges > 0) return made - ((int64_t)1 << 32);                         /* one edge too few */
    return right;
}

int64_t jaqhweni_size_from_design(DESIGN_PARAMETERS, LIST_PARAMETERS, SCRATCH_PARAMETERS)
{
    int64_t made = reference_count_from_design(DESIGN_SLICES, LIST_SLICES, SCRATCH_SLICE);
    if (FAULT == 49 && made == -31 && scratch_length < sizeof longer / sizeof *longer) {    /* takes one word less than removal */
        made = reference_count_from_design(DESIGN_SLICES, LIST_SLICES, longer, scratch_length + 1);
        if (made >= 0) memset(scratch, 0, scratch_length * sizeof *scratch);
    }
    return tell(made, n + listed_length - lengths_length, SCRATCH_SLICE);
}

int64_t jaqhweni_size_from_graph(DESIGN_PARAMETERS, LIST_PARAMETERS, GRAPH_PARAMETERS, SCRATCH_PARAMETERS)
{
    if (FAULT == 50) return jaqhweni_size_from_design(DESIGN_SLICES, LIST_SLICES, SCRATCH_SLICE);       /* tells of the design */
    int64_t made = reference_count_from_graph(DESIGN_SLICES, LIST_SLICES, GRAPH_SLICES, SCRATCH_SLICE);
    if (FAULT == 51 && made == -32) return (int64_t)nodes_length + ((int64_t)from_length << 32);        /* does not look at the graph */
    if (FAULT == 52 && made == -30 && nodes_length != endpoint_length) return -32;                      /* 32 where 30 is due */
    if (FAULT == 53 && made > 0 && nodes_length > 0) ((uint32_t *)(uintptr_t)endpoint)[0] ^= 1;         /* writes what is lent to read */
    return tell(made, nodes_length + listed_length - lengths_length, SCRATCH_SLICE);
}

/* Other required times where paths end: the allowed time alone; what comes from further on alone, if there is an edge out. */
static void require_otherwise(uint32_t allowed, const int32_t *late, GRAPH_PARAMETERS, const int64_t *arrivals, int64_t *requireds,
                              int64_t *slacks)
{
    for (size_t c = 0; FAULT == 26 && c < endpoint_length; c++)
        if (endpoint[c]) requireds[c] = allowed;
    for (size_t e = 0; FAULT == 27 && e < from_length; e++) requireds[from[e]] = INT64_MAX;
    for (size_t e = to_length; FAULT == 27 && e-- > 0;) {
        int64_t here = requireds[to[e]] - late[via[e]];
        if (here < requireds[from[e]]) requireds[from[e]] = here;
    }
    for (size_t c = 0; c < nodes_length; c++) slacks[c] = requireds[c] - arrivals[c];
    (void)nodes, (void)via_length;
}

int64_t jaqhweni_times(DESIGN_PARAMETERS, uint32_t allowed, GRAPH_PARAMETERS, TIME_PARAMETERS)
{
    int64_t made = reference_times(DESIGN_SLICES, allowed, GRAPH_SLICES, TIME_SLICES);
    for (size_t c = 0; made == 0 && c < nodes_length; c++) {
        if (FAULT == 11 && arrivals[c] < 0) arrivals[c] = 0;                                /* the largest arrival starts from 0 */
        if (FAULT == 20 && earliests[c] > 0) earliests[c] = 0;                              /* the smallest earliest arrival does */
    }
    if ((FAULT == 26 || FAULT == 27) && made == 0) require_otherwise(allowed, late, GRAPH_SLICES, arrivals, requireds, slacks);
    if (FAULT == 31 && made == -30 && nodes_length != endpoint_length) return -32;
    return made;
}

static int64_t unseen[JAQHWENI_MAX_COPIES];        /* arrivals that are not the caller's */

/* Late or not with an error put in, of what has passed the tests: from the times of all copies. */
static int64_t late_otherwise(DESIGN_PARAMETERS, uint32_t allowed, GRAPH_PARAMETERS, int64_t *arrivals)
{
    static int64_t all[4][JAQHWENI_MAX_COPIES];
    static uint8_t goes_on[JAQHWENI_MAX_COPIES];
    size_t copies = nodes_length, stop = copies;
    if (FAULT == 61) late = early;                                                          /* by early delays */
    reference_times(DESIGN_SLICES, allowed, GRAPH_SLICES, all[0], copies, all[1], copies, all[2], copies, all[3], copies);
    memset(goes_on, 0, copies);
    for (size_t e = 0; e < from_length; e++) goes_on[from[e]] = 1;
    for (size_t c = 0; c < copies; c++) {
        if (FAULT == 62 && all[0][c] < 0) all[0][c] = 0;                                    /* the largest arrival starts from 0 */
        int end = endpoint[c] == 1, above = all[0][c] > allowed;
        if (FAULT == 54) above = all[0][c] >= allowed;                                      /* late at T itself */
        if (FAULT == 55) end = 1;                                                           /* every copy is taken for an end */
        if (FAULT == 63) end = !goes_on[c];                                                 /* no copy with an edge out is */
        if (FAULT == 64) above = (int32_t)all[0][c] > (int32_t)allowed;                     /* arrivals of 32 bits */
        if (FAULT == 65) end = 1, above = all[2][c] < 0;                                    /* the first slack below 0 */
        if (end && above && (stop == copies || FAULT == 57)) stop = c;                      /* 57: the last late end */
    }
    for (size_t c = 0; c < copies && (c <= stop || FAULT == 56); c++)                       /* 56: writes places after the copy */
        if (!(FAULT == 59 && !endpoint[c]) && !(FAULT == 66 && c == stop))                  /* 59: writes only where paths end */
            arrivals[c] = all[0][c];                                                        /* 66: not at the copy itself */
    if (FAULT == 67 && stop < copies) return 1 + (int64_t)nodes[stop];                      /* the node */
    return stop == copies ? 0 : (int64_t)stop + (FAULT != 58);                              /* 58: the copy's number, and not 1 more */
}

/* What is refused, with a test left out, or made before another. */
static int64_t refuse_otherwise(int64_t made, DESIGN_PARAMETERS, uint32_t allowed, GRAPH_PARAMETERS, ARRIVAL_PARAMETERS)
{
    int number = (int)(-made % 256);
    if (FAULT == 60 && arrivals_length > 0) arrivals[0] = 0;                                /* writes on a refusal */
    if (FAULT == 68 && number == 30 && arrivals_length > nodes_length)                      /* a longer slice is taken */
        return reference_late(DESIGN_SLICES, allowed, GRAPH_SLICES, arrivals, nodes_length);
    if (FAULT == 69 && number == 30 && arrivals_length < nodes_length) {                    /* a shorter one, and filled */
        made = reference_late(DESIGN_SLICES, allowed, GRAPH_SLICES, unseen, nodes_length);
        if (made >= 0) memcpy(arrivals, unseen, arrivals_length * sizeof *unseen);
    }
    if (FAULT == 70 && number == 30 && nodes_length != endpoint_length) return -32;         /* 32 where 30 is due */
    if (FAULT == 71 && number == 30 && n > JAQHWENI_MAX_NODES) return -10;                  /* 10 before 30 */
    if (FAULT == 72 && number == 15) {                                                      /* without 15 */
        early = late;
        return reference_late(DESIGN_SLICES, allowed, GRAPH_SLICES, ARRIVAL_SLICE);
    }
    if (FAULT == 73 && number == 16)                                                        /* without 16 */
        return reference_late(EDGE_SLICES, marked, 0, allowed, GRAPH_SLICES, ARRIVAL_SLICE);
    if (FAULT == 74 && number < 17 && allowed > 1000000000) return -25;                     /* 25 before 10 to 16 */
    if (FAULT == 75 && number == 25)                                                        /* without 25 */
        return reference_late(DESIGN_SLICES, 1000000000, GRAPH_SLICES, ARRIVAL_SLICE);
    if (FAULT == 76 && number == 25 && reference_late(DESIGN_SLICES, 0, GRAPH_SLICES, unseen, arrivals_length) == -32)
        return -32;                                                                         /* 32 before 25 */
    if (FAULT == 77 && number == 32) return 0;                                              /* without 32 */
    if (FAULT == 78) return -number;                                                        /* loses the place */
    return made;
}

int64_t jaqhweni_late(DESIGN_PARAMETERS, uint32_t allowed, GRAPH_PARAMETERS, ARRIVAL_PARAMETERS)
{
    if (FAULT < 54) return reference_late(DESIGN_SLICES, allowed, GRAPH_SLICES, ARRIVAL_SLICE);
    int64_t made = reference_late(DESIGN_SLICES, allowed, GRAPH_SLICES, unseen, arrivals_length);
    if (made < 0) return refuse_otherwise(made, DESIGN_SLICES, allowed, GRAPH_SLICES, ARRIVAL_SLICE);
    made = late_otherwise(DESIGN_SLICES, allowed, GRAPH_SLICES, arrivals);
    if (FAULT == 79 && nodes_length > 0) ((uint32_t *)(uintptr_t)endpoint)[0] ^= 1;         /* writes what is lent to read */
    if (FAULT == 80) arrivals[arrivals_length] = 0;                                         /* one place past the slice */
    return made;
}

/* An endpoint number above 1 is written as 1. */
static int64_t write_any_endpoint(GRAPH_PARAMETERS, uint8_t *room, size_t room_length)
{
    static uint32_t clipped[JAQHWENI_MAX_COPIES];
    if (nodes_length > JAQHWENI_MAX_COPIES) return -32;
    for (size_t c = 0; c < nodes_length; c++) clipped[c] = endpoint[c] > 0;
    endpoint = clipped;
    return reference_write_graph(GRAPH_SLICES, room, room_length);
}

int64_t jaqhweni_write_graph(GRAPH_PARAMETERS, uint8_t *room, size_t room_length)
{
    int64_t made = reference_write_graph(GRAPH_SLICES, room, room_length);
    if (FAULT == 13 && made == -35 && room_length > 0) room[0] = 2;                         /* writes before it knows that all fits */
    if (FAULT == 14 && made > 0 && (size_t)made == room_length) return -35;                 /* wants one byte more than it writes */
    if (FAULT == 15 && made == -30) return -32;
    if (FAULT == 30 && made == -32) return write_any_endpoint(GRAPH_SLICES, room, room_length);
    if (FAULT == 31 && made == -30 && nodes_length != endpoint_length) return -32;
    return made;
}
