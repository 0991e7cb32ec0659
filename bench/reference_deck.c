/* Stands in for the deck program where tests/against_walker.py is itself tried: the lines of documents 01 and 02, by the reference
 * program. */
#include "reference.h"

#include <stdio.h>
#include <stdlib.h>

#ifndef FAULT
#define FAULT 0
#endif

/* Of 22 to 24, which edge of the path it is. */
static size_t index_within(const reference_deck *k, int number, size_t path)
{
    const uint32_t *edges = k->listed_edges;
    size_t at = 0;
    for (size_t p = 0; p < path; p++) edges += k->lengths[p];
    if (number == 23) while (edges[at] < k->edges) at++;
    if (number == 24) for (at = 1; k->starts[edges[at]] == k->ends[edges[at - 1]];) at++;
    if (FAULT == 16 && at > 0) at--;                                            /* the edge before */
    if (FAULT == 17 && number == 24)                                            /* the last one that does not join */
        for (size_t later = at; later < k->lengths[path]; later++)
            if (k->starts[edges[later]] != k->ends[edges[later - 1]]) at = later;
    return at;
}

static void refused(int64_t answer, const reference_deck *k)
{
    int number = (int)(-answer % 256), place = (int)(-answer / 256);
    printf("refused %d at %d", number, place);
    if (number >= 22 && number <= 24) printf(" edge %zu", index_within(k, number, (size_t)place));
    putchar('\n');
    exit(0);
}

int main(void)
{
    static uint8_t bytes[65537];
    static reference_deck k;
    static uint32_t nodes[512], endpoint[512], from[2048], to[2048], via[2048], scratch[16384];
    static int64_t arrival[512], required[512], slack[512], earliest[512];
    size_t length = fread(bytes, 1, sizeof bytes, stdin);
    int64_t answer = reference_read_deck(bytes, length, &k);
    if (answer < 0) refused(answer, &k);
    if (FAULT == 24) k.marked_nodes = 0;                                               /* marked nodes ignored */
    uint8_t packed[16384];
    answer = reference_true_graph(bytes, length, packed, sizeof packed);       /* for its refusals, 25 before 31 among them */
    if (answer < 0 && answer != -35) refused(answer, &k);
    answer = reference_remove_from_design(k.n, k.starts, k.edges, k.ends, k.edges, k.early, k.edges, k.late, k.edges, k.marked,
                                          k.marked_nodes, k.listed_edges, k.listed, k.lengths, k.paths, nodes, 512, endpoint, 512, from,
                                          2048, to, 2048, via, 2048, scratch, 16384);
    size_t copies = (uint32_t)answer, edges = (size_t)(answer >> 32);
    const int32_t *early = FAULT == 21 ? k.late : k.early;                      /* earliest arrivals by late delays */
    reference_times(k.n, k.starts, k.edges, k.ends, k.edges, early, k.edges, k.late, k.edges, k.marked, k.marked_nodes, k.allowed,
                    nodes, copies, endpoint, copies, from, edges, to, edges, via, edges, arrival, copies, required, copies, slack, copies,
                    earliest, copies);
    for (size_t e = 0; FAULT == 33 && e < edges; e++) endpoint[from[e]] = 0;    /* `end` at copies without an edge out alone */
    printf("copies %zu edges %zu\n", copies, edges);
    for (size_t c = 0; c < copies; c++)
        printf("copy %zu node %u arrival %lld required %lld slack %lld earliest %lld%s\n", c, nodes[c], (long long)arrival[c],
               (long long)required[c], (long long)slack[c], (long long)earliest[c], endpoint[c] ? " end" : "");
    for (size_t e = 0; e < edges; e++) printf("edge %u %u %u\n", from[e], to[e], via[e]);
    for (size_t v = 0, c = 0; v < k.n; v++) {
        if (c == copies || nodes[c] != v) {
            printf("node %zu none\n", v);
            continue;
        }
        int64_t most = arrival[c], least = required[c], slackest = slack[c], soonest = earliest[c];
        for (c++; c < copies && nodes[c] == v; c++) {
            if (arrival[c] > most) most = arrival[c];
            if (required[c] < least) least = required[c];
            if (slack[c] < slackest) slackest = slack[c];
            if (earliest[c] < soonest && FAULT != 23) soonest = earliest[c];    /* 23: of the first copy alone */
        }
        if (FAULT == 12) slackest = least - most;       /* joins a head to a tail across a removed path */
        printf("node %zu %lld %lld %lld %lld\n", v, (long long)most, (long long)least, (long long)slackest, (long long)soonest);
    }
    return 0;
}
