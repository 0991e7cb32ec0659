/* Designs, lists and graphs, up to the limits of jaqhweni.h: what the benchmark and tests/stack.c give to its calls. */
#ifndef INPUTS_H
#define INPUTS_H

#include "jaqhweni.h"

#include <string.h>

enum {
    ROOM_COPIES = JAQHWENI_MAX_COPIES, ROOM_EDGES = JAQHWENI_MAX_COPY_EDGES,
    ROOM_BYTES = 3 * ROOM_COPIES + 6 * ROOM_EDGES + 6           /* the most that a well-formed graph takes packed */
};

typedef struct {
    uint32_t n;
    size_t m, marked_nodes;
    uint32_t starts[JAQHWENI_MAX_EDGES], ends[JAQHWENI_MAX_EDGES], marked[JAQHWENI_MAX_NODES];
    int32_t early[JAQHWENI_MAX_EDGES], late[JAQHWENI_MAX_EDGES];
} design;

typedef struct {
    size_t listed, paths;
    uint32_t edges[JAQHWENI_MAX_LISTED_EDGES], lengths[JAQHWENI_MAX_PATHS];
} path_list;

typedef struct {
    size_t copies, edges;
    uint32_t nodes[ROOM_COPIES], endpoint[ROOM_COPIES], from[ROOM_EDGES], to[ROOM_EDGES], via[ROOM_EDGES];
} graph;

static uint64_t state = 88172645463325252u;

static inline uint32_t below(uint32_t bound)
{
    state ^= state << 13;
    state ^= state >> 7;
    state ^= state << 17;
    return (uint32_t)((state >> 32) * bound >> 32);
}

/* A design of n nodes, none of them marked, that has no edge yet. */
static inline void start_design(design *d, uint32_t n)
{
    d->n = n;
    d->m = d->marked_nodes = 0;
}

/* Marks every `step`-th node, from the first on. */
static inline void mark_every(design *d, uint32_t step)
{
    d->marked_nodes = 0;
    for (uint32_t v = 0; v < d->n; v += step) d->marked[d->marked_nodes++] = v;
}

/* Early is below late by the edge's number mod 700: one more random number would make other designs of all that follow. */
static inline void add_edge(design *d, uint32_t start, uint32_t end)
{
    d->starts[d->m] = start;
    d->ends[d->m] = end;
    d->late[d->m] = (int32_t)below(2001) - 1000;
    d->early[d->m] = d->late[d->m] - (int32_t)(d->m % 700);
    d->m++;
}

/* Every node but the last has an edge to one of the next `span`; the rest of the edges are anywhere within `span`. */
static inline void random_design(design *d, uint32_t n, size_t m, uint32_t span)
{
    start_design(d, n);
    for (uint32_t k = 0; d->m < m; k++) {
        uint32_t start = k < n - 1 ? k : below(n - 1);
        uint32_t most = n - 1 - start < span ? n - 1 - start : span;
        add_edge(d, start, start + 1 + below(most));
    }
}

/* Runs of up to `length` edges from random edges on. */
static inline void random_paths(path_list *l, const design *d, size_t paths, size_t length)
{
    static uint32_t first[JAQHWENI_MAX_NODES + 2], out[JAQHWENI_MAX_EDGES];
    memset(first, 0, sizeof first);
    for (size_t e = 0; e < d->m; e++) first[d->starts[e] + 2]++;
    for (uint32_t v = 2; v < d->n + 1; v++) first[v] += first[v - 1];
    for (size_t e = 0; e < d->m; e++) out[first[d->starts[e] + 1]++] = (uint32_t)e;
    l->listed = l->paths = 0;
    while (l->paths < paths) {
        uint32_t e = below((uint32_t)d->m);
        size_t size = 0;
        for (;;) {
            l->edges[l->listed + size++] = e;
            uint32_t v = d->ends[e], count = first[v + 1] - first[v];
            if (size == length || count == 0) break;
            e = out[first[v] + below(count)];
        }
        if (size < length && below(8) != 0) continue;       /* mostly whole ones */
        l->lengths[l->paths++] = (uint32_t)size;
        l->listed += size;
    }
}

static inline size_t words_needed(const design *d, const path_list *l, const graph *old)
{
    static size_t starting[JAQHWENI_MAX_NODES];
    size_t units = l->listed + (old ? old->edges + old->copies : d->m + d->n), at = 0;
    memset(starting, 0, sizeof starting);
    for (size_t p = 0; p < l->paths; at += l->lengths[p++])
        for (size_t k = 1; k < l->lengths[p]; k++) starting[d->starts[l->edges[at + k]]]++;
    if (old)
        for (size_t c = 0; c < old->copies; c++) units += starting[old->nodes[c]];
    else
        units += l->listed - l->paths;
    return JAQHWENI_WORDS_PER_UNIT * units;
}

static inline void pack_number(uint8_t *bytes, size_t *length, uint32_t value)
{
    for (; value >= 0x80; value >>= 7) bytes[(*length)++] = (uint8_t)(value | 0x80);
    bytes[(*length)++] = (uint8_t)value;
}

static inline void pack_delay(uint8_t *bytes, size_t *length, int32_t delay)
{
    pack_number(bytes, length, delay < 0 ? (uint32_t)(-2 * delay - 1) : (uint32_t)(2 * delay));
}

static inline size_t pack_deck(uint8_t *bytes, const design *d, const path_list *l)
{
    size_t length = 0, at = 0;
    pack_number(bytes, &length, d->n);
    pack_number(bytes, &length, (uint32_t)d->m);
    for (size_t e = 0; e < d->m; e++) {
        pack_number(bytes, &length, d->starts[e]);
        pack_number(bytes, &length, d->ends[e]);
        pack_delay(bytes, &length, d->early[e]);
        pack_delay(bytes, &length, d->late[e]);
    }
    pack_number(bytes, &length, (uint32_t)l->paths);
    for (size_t p = 0; p < l->paths; p++) {
        pack_number(bytes, &length, l->lengths[p]);
        for (size_t k = 0; k < l->lengths[p]; k++) pack_number(bytes, &length, l->edges[at++]);
    }
    pack_number(bytes, &length, (uint32_t)d->marked_nodes);
    for (size_t i = 0; i < d->marked_nodes; i++) pack_number(bytes, &length, d->marked[i]);
    pack_number(bytes, &length, 1000000);
    return length;
}

/* Both limits of a design and both of a graph at once: a chain of 4,096 nodes joined by four edges, and two of them by two more, and a
 * well-formed graph with four copies of each but the last, and five of three of them. An edge into each copy by each design edge. Every
 * node is marked, and paths end at its first copy. */
static inline void full_graph(design *d, graph *g)
{
    enum { LAST = JAQHWENI_MAX_NODES - 1, WIDE = 1000, MANY = 2000 };
    uint32_t before = 0;
    start_design(d, JAQHWENI_MAX_NODES);
    mark_every(d, 1);
    g->copies = g->edges = 0;
    for (uint32_t v = 0; v <= LAST; v++) {
        uint32_t first = (uint32_t)g->copies, edge = (uint32_t)d->m;
        uint32_t copies = v == LAST ? 1 : v >= MANY && v < MANY + 3 ? 5 : 4;
        if (v > 0)
            for (uint32_t k = 0; k < (v == WIDE || v == WIDE + 1 ? 6 : 4); k++) add_edge(d, v - 1, v);
        for (uint32_t c = 0; c < copies; c++) {
            g->endpoint[g->copies] = c == 0;
            g->nodes[g->copies++] = v;
            for (uint32_t e = edge; e < d->m; e++) {
                g->from[g->edges] = before + (c + e - edge) % (first - before);
                g->to[g->edges] = first + c;
                g->via[g->edges++] = e;
            }
        }
        before = first;
    }
}

#endif
