/* The benchmark's hand-tuned C program: the calls of include/jaqhweni.h under other names. Not proved; see reference.c. */
#ifndef REFERENCE_H
#define REFERENCE_H

#include "../include/jaqhweni.h"

/* Each has the type of its namesake (__typeof__: gcc and clang). */
extern __typeof__(jaqhweni_true_graph) reference_true_graph;
extern __typeof__(jaqhweni_remove_from_design) reference_remove_from_design;
extern __typeof__(jaqhweni_remove_from_graph) reference_remove_from_graph;
extern __typeof__(jaqhweni_size_from_design) reference_size_from_design;
extern __typeof__(jaqhweni_size_from_graph) reference_size_from_graph;
extern __typeof__(jaqhweni_times) reference_times;
extern __typeof__(jaqhweni_late) reference_late;
extern __typeof__(jaqhweni_write_graph) reference_write_graph;

/* Their parameters, for whoever defines one of either name; the compiler holds these to jaqhweni.h. */
#define DESIGN_PARAMETERS                                                                                                       \
    uint32_t n, const uint32_t *starts, size_t starts_length, const uint32_t *ends, size_t ends_length, const int32_t *early,   \
        size_t early_length, const int32_t *late, size_t late_length, const uint32_t *marked, size_t marked_length
#define LIST_PARAMETERS const uint32_t *listed, size_t listed_length, const uint32_t *lengths, size_t lengths_length
#define GRAPH_PARAMETERS                                                                                                        \
    const uint32_t *nodes, size_t nodes_length, const uint32_t *endpoint, size_t endpoint_length, const uint32_t *from,         \
        size_t from_length, const uint32_t *to, size_t to_length, const uint32_t *via, size_t via_length
#define SCRATCH_PARAMETERS uint32_t *scratch, size_t scratch_length
#define ROOM_PARAMETERS                                                                                                         \
    uint32_t *room_nodes, size_t room_nodes_length, uint32_t *room_endpoint, size_t room_endpoint_length, uint32_t *room_from,  \
        size_t room_from_length, uint32_t *room_to, size_t room_to_length, uint32_t *room_via, size_t room_via_length,          \
        SCRATCH_PARAMETERS
#define ARRIVAL_PARAMETERS int64_t *arrivals, size_t arrivals_length
#define TIME_PARAMETERS                                                                                                         \
    ARRIVAL_PARAMETERS, int64_t *requireds, size_t requireds_length, int64_t *slacks, size_t slacks_length, int64_t *earliests, \
        size_t earliests_length

/* The same as arguments. */
#define EDGE_SLICES n, starts, starts_length, ends, ends_length, early, early_length, late, late_length
#define DESIGN_SLICES EDGE_SLICES, marked, marked_length
#define LIST_SLICES listed, listed_length, lengths, lengths_length
#define GRAPH_SLICES nodes, nodes_length, endpoint, endpoint_length, from, from_length, to, to_length, via, via_length
#define SCRATCH_SLICE scratch, scratch_length
#define ROOM_SLICES                                                                                                           \
    room_nodes, room_nodes_length, room_endpoint, room_endpoint_length, room_from, room_from_length, room_to, room_to_length, \
        room_via, room_via_length, SCRATCH_SLICE
#define ARRIVAL_SLICE arrivals, arrivals_length
#define TIME_SLICES ARRIVAL_SLICE, requireds, requireds_length, slacks, slacks_length, earliests, earliests_length

/* For the stand-in (stand_in.c): what the sizes are told from, the counts of a result of any size or a refusal up to 31; and these with 33
 * and 34 for the limits. */
extern __typeof__(jaqhweni_size_from_design) reference_count_from_design;
extern __typeof__(jaqhweni_size_from_graph) reference_count_from_graph;
int64_t reference_within_limits(int64_t counts);

/* For the stand-in of the deck program (reference_deck.c): a deck read into tables and tested, or its refusal; and the removal. */
typedef struct {
    uint32_t n, allowed;
    size_t edges, paths, listed, marked_nodes;
    uint32_t starts[1024], ends[1024], listed_edges[1024], lengths[256], marked[1024];
    int32_t early[1024], late[1024];
} reference_deck;

int64_t reference_read_deck(const uint8_t *bytes, size_t length, reference_deck *deck);

#endif
