/* Removal, plainly: document 01's copies and edges by following every pair of a mark and an edge. For tests/worst_cases.c, at sizes where
 * tests/walker.py, which walks all paths, has too many to walk. It is kept apart from the library and from bench/reference.c: it
 * knows neither levels nor defaults nor patches, looks a step up by one hash table, and sorts marks by comparing their edges.
 *
 * A state is a distinct suffix of a listed path, as a first edge and the state of the rest; state 0 is empty. It is dead if a listed path
 * begins it. The mark of a path at a node is the longest state that the path follows from there on. */
#ifndef PLAIN_H
#define PLAIN_H

#include "../bench/inputs.h"

#include <stdlib.h>

enum { STATES = JAQHWENI_MAX_LISTED_EDGES + 1, BUCKETS = 1 << 15 };

static struct {
    uint32_t count, edge[STATES], rest[STATES], length[STATES], fail[STATES], place[STATES], order[STATES], bucket[BUCKETS];
    uint32_t first[JAQHWENI_MAX_NODES + 2];         /* of a node: how many marks there are at lower ones; these are in `order` */
    uint8_t dead[STATES];
} states;
static const design *of_states;

/* Where the state of such an edge and rest stands in the table, or would. */
static inline uint32_t *bucket_of(uint32_t edge, uint32_t rest)
{
    uint32_t at = (edge * 2654435761u ^ rest * 40503u) % BUCKETS;
    while (states.bucket[at] && (states.edge[states.bucket[at]] != edge || states.rest[states.bucket[at]] != rest)) at = (at + 1) % BUCKETS;
    return &states.bucket[at];
}

/* The longest state that such an edge and then a path with such a mark begin with. */
static inline uint32_t step(uint32_t mark, uint32_t edge)
{
    for (;; mark = states.fail[mark]) {
        uint32_t found = *bucket_of(edge, mark);
        if (found || mark == 0) return found;
    }
}

static inline int by_length(const void *a, const void *b)
{
    uint32_t x = states.length[*(const uint32_t *)a], y = states.length[*(const uint32_t *)b];
    return (x > y) - (x < y);
}

/* Document 01's order of the copies of a node, and nodes one after the other. */
static inline int by_node_and_mark(const void *a, const void *b)
{
    uint32_t s = *(const uint32_t *)a, t = *(const uint32_t *)b;
    uint32_t v = of_states->starts[states.edge[s]], w = of_states->starts[states.edge[t]];
    if (v != w) return v < w ? -1 : 1;
    if (states.length[s] != states.length[t]) return states.length[s] < states.length[t] ? -1 : 1;
    for (; s != t; s = states.rest[s], t = states.rest[t])
        if (states.edge[s] != states.edge[t]) return states.edge[s] < states.edge[t] ? -1 : 1;
    return 0;
}

static inline void find_states(const design *d, const path_list *l)
{
    memset(&states, 0, sizeof states);
    of_states = d;
    const uint32_t *end = l->edges;
    for (size_t p = 0; p < l->paths; p++) {
        uint32_t state = 0;
        end += l->lengths[p];
        for (uint32_t k = 1; k <= l->lengths[p]; k++) {
            uint32_t *bucket = bucket_of(end[-(ptrdiff_t)k], state);
            if (*bucket == 0) {
                *bucket = ++states.count;
                states.edge[states.count] = end[-(ptrdiff_t)k];
                states.rest[states.count] = state;
                states.length[states.count] = k;
            }
            state = *bucket;
        }
        states.dead[state] = 1;
    }
    for (uint32_t k = 0; k < states.count; k++) states.order[k] = k + 1;
    qsort(states.order, states.count, sizeof *states.order, by_length);
    uint32_t live = 0;
    for (uint32_t k = 0; k < states.count; k++) {
        uint32_t state = states.order[k];
        if (states.rest[state]) states.fail[state] = step(states.fail[states.rest[state]], states.edge[state]);
        states.dead[state] |= states.dead[states.fail[state]];
        if (!states.dead[state]) states.order[live++] = state;
    }
    qsort(states.order, live, sizeof *states.order, by_node_and_mark);
    for (uint32_t k = 0; k < live; k++) states.first[d->starts[states.edge[states.order[k]]] + 1]++;
    for (uint32_t v = 0; v < d->n; v++) states.first[v + 1] += states.first[v];
    for (uint32_t k = 0; k < live; k++)
        states.place[states.order[k]] = 1 + k - states.first[d->starts[states.edge[states.order[k]]]];
}

/* The design as a graph in which each node is its own copy. */
static inline void design_as_graph(const design *d, graph *g)
{
    g->copies = d->n;
    g->edges = 0;
    for (uint32_t v = 0; v < d->n; v++) {
        g->nodes[v] = v;
        g->endpoint[v] = 1;
    }
    for (size_t e = 0; e < d->m; e++) g->endpoint[d->starts[e]] = 0;
    for (size_t i = 0; i < d->marked_nodes; i++) g->endpoint[d->marked[i]] = 1;
    static uint32_t first[JAQHWENI_MAX_NODES + 1];
    memset(first, 0, sizeof first);
    for (size_t e = 0; e < d->m; e++) first[d->ends[e]]++;
    for (uint32_t v = 0, sum = 0; v < d->n; v++) {
        uint32_t count = first[v];
        first[v] = sum;
        sum += count;
    }
    for (size_t e = 0; e < d->m; e++) {
        uint32_t at = first[d->ends[e]]++;
        g->from[at] = d->starts[e];
        g->to[at] = d->ends[e];
        g->via[at] = (uint32_t)e;
    }
    g->edges = d->m;
}

/* Writes the result as far as a graph may have copies and edges; `copies` and `edges` are all that it has. */
typedef struct {
    uint64_t copies, edges;
} plain_counts;

static inline void put_edge(graph *result, plain_counts *made, uint32_t from, uint32_t to, uint32_t via)
{
    if (made->edges < ROOM_EDGES) {
        result->from[made->edges] = from;
        result->to[made->edges] = to;
        result->via[made->edges] = via;
    }
    made->edges++;
}

static inline plain_counts plain_remove(const design *d, const path_list *l, const graph *old, graph *result)
{
    static graph made_of_design;
    static size_t base[ROOM_COPIES + 1], into[ROOM_COPIES + 1];
    if (old == NULL) design_as_graph(d, &made_of_design);
    const graph *g = old ? old : &made_of_design;
    find_states(d, l);
    base[0] = into[0] = 0;
    for (size_t c = 0, e = 0; c < g->copies; c++) {
        base[c + 1] = base[c] + 1 + states.first[g->nodes[c] + 1] - states.first[g->nodes[c]];
        while (e < g->edges && g->to[e] == c) e++;
        into[c + 1] = e;
    }
    uint32_t *slot = calloc(base[g->copies] + 1, sizeof *slot);        /* 0; 1 where an end is reached; 2 + its number */
    if (slot == NULL) exit(2);
    for (size_t c = g->copies; c-- > 0;) {
        if (g->endpoint[c]) slot[base[c]] = 1;
        for (size_t s = base[c]; s < base[c + 1]; s++) {
            if (!slot[s]) continue;
            uint32_t mark = s == base[c] ? 0 : states.order[states.first[g->nodes[c]] + (s - base[c]) - 1];
            for (size_t e = into[c]; e < into[c + 1]; e++) {
                uint32_t at_start = step(mark, g->via[e]);
                if (!states.dead[at_start]) slot[base[g->from[e]] + states.place[at_start]] = 1;
            }
        }
    }
    plain_counts made = {0, 0};
    for (size_t c = 0; c < g->copies; c++)
        for (size_t s = base[c]; s < base[c + 1]; s++) {
            if (!slot[s]) continue;
            uint32_t mark = s == base[c] ? 0 : states.order[states.first[g->nodes[c]] + (s - base[c]) - 1];
            uint64_t before = made.edges;
            for (size_t e = into[c]; e < into[c + 1]; e++) {
                uint32_t at_start = step(mark, g->via[e]);
                uint32_t flag = states.dead[at_start] ? 0 : slot[base[g->from[e]] + states.place[at_start]];
                if (flag >= 2) put_edge(result, &made, flag - 2, (uint32_t)made.copies, g->via[e]);
            }
            if (made.edges == before && into[c] < into[c + 1]) continue;
            if (made.copies < ROOM_COPIES) {
                result->nodes[made.copies] = g->nodes[c];
                result->endpoint[made.copies] = s == base[c] && g->endpoint[c];
            }
            slot[s] = 2 + (uint32_t)made.copies++;
        }
    free(slot);
    return made;
}

#endif
