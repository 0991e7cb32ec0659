/* A design and a false path, packed, given to jaqhweni_true_graph, and the true graph that comes back, unpacked and printed. Then the same
 * from plain arrays: jaqhweni_size_from_design tells how many copies and edges there will be, just so much is allocated, and
 * jaqhweni_remove_from_design fills it; jaqhweni_write_graph packs it: the same bytes. Then a further list on that graph, told and filled
 * in the same way; a hold check, by jaqhweni_times; the slack at an observed pin, with and without the logic behind it; and last, by
 * jaqhweni_late, whether any path takes too long.
 *
 *     cc -std=c11 -Wall -Wextra -Werror -I include examples/true_graph.c crates/jaqhweni/out/libjaqhweni.a -o true_graph && ./true_graph
 *
 * Two sources, 0 and 1, meet in node 2, from which edges lead to the sinks 3 and 4. The path 1, 2, 3 (edges 1 and 2) can never be
 * exercised. So node 2 gets two copies: one that only source 0 leads to and that goes on to node 3, and one for node 4. Node 2 is also an
 * observed pin, and so it is marked: paths end there, at the copy for node 4, as they do at the sinks.
 *
 * Edge 1 may be quick. With a hold time of 4, the path 1, 2, 3 would be a violation at node 3, and is none, since it is false; the paths
 * 1, 2 and 1, 2, 4 are, at nodes 2 and 4.
 *
 * The signal is at the pin at 5, and may be there at 10. The logic behind the pin wants it at 9, which leaves a slack of 4. If that logic
 * is never exercised (edges 2 and 3 are listed), the slack is 5; were it not marked, no path would then lead to the pin.
 *
 * No path takes longer than 10. None takes longer than 6 either, as the path 1, 2, 3, which would take 7, is false. With 4 allowed, the
 * pin is the first endpoint that is late. */
#include "jaqhweni.h"

#include <stdio.h>
#include <stdlib.h>
#include <string.h>

enum { NODES = 5, EDGES = 4, PIN = 2, ALLOWED_TIME = 10, HOLD_TIME = 4, MOST_LISTED = 2 };
static const uint32_t starts[EDGES] = {0, 1, 2, 2}, ends[EDGES] = {2, 2, 3, 4};
static const int32_t early[EDGES] = {3, 1, 2, 1}, late[EDGES] = {3, 5, 2, 1};
static const uint32_t marked[1] = {PIN};

/* Listed paths, end to end, and the length of each. */
typedef struct {
    size_t listed, paths;
    uint32_t edges[MOST_LISTED], lengths[MOST_LISTED];
} path_list;

static const path_list false_path = {2, 1, {1, 2}, {2}}, behind_the_pin = {2, 2, {2, 3}, {1, 1}};

typedef struct {
    size_t copies, edges;
    uint32_t *nodes, *endpoint, *from, *to, *via;
} graph;

typedef struct {
    int64_t *arrivals, *requireds, *slacks, *earliests;
} times;

typedef struct {
    uint8_t bytes[4096];
    size_t length;
} packed;

static void put(packed *p, uint32_t number)
{
    while (number >= 0x80 && p->length < sizeof p->bytes) {
        p->bytes[p->length++] = (uint8_t)(number % 0x80 + 0x80);
        number /= 0x80;
    }
    if (p->length == sizeof p->bytes) {
        fprintf(stderr, "the deck is too long\n");
        exit(1);
    }
    p->bytes[p->length++] = (uint8_t)number;
}

static void put_delay(packed *p, int32_t delay)
{
    put(p, delay < 0 ? 2 * (uint32_t)(-(delay + 1)) + 1 : 2 * (uint32_t)delay);
}

/* The library packs shortest forms, of numbers that fit, and the length is known: nothing needs to be tested here. */
static uint32_t get(const packed *p, size_t *place)
{
    uint32_t number = 0;
    for (unsigned shift = 0;; shift += 7) {
        uint8_t byte = p->bytes[(*place)++];
        number += (uint32_t)(byte % 0x80) << shift;
        if (byte < 0x80) return number;
    }
}

static size_t or_stop(int64_t answer)
{
    if (answer < 0) {
        printf("refused %d at %d\n", (int)(-answer % 256), (int)(-answer / 256));
        exit(1);
    }
    return (size_t)answer;
}

/* The library takes no null pointer, not even for a slice of no elements. */
static void *allocated(size_t count, size_t size)
{
    void *block = calloc(count > 0 ? count : 1, size);
    if (block == NULL) {
        fprintf(stderr, "out of memory\n");
        exit(1);
    }
    return block;
}

static packed from_deck(const path_list *l)
{
    packed deck = {.length = 0}, made;
    put(&deck, NODES);
    put(&deck, EDGES);
    for (size_t k = 0; k < EDGES; k++) {
        put(&deck, starts[k]);
        put(&deck, ends[k]);
        put_delay(&deck, early[k]);
        put_delay(&deck, late[k]);
    }
    put(&deck, (uint32_t)l->paths);
    for (size_t path = 0, at = 0; path < l->paths; path++) {
        put(&deck, l->lengths[path]);
        for (size_t k = 0; k < l->lengths[path]; k++) put(&deck, l->edges[at++]);
    }
    put(&deck, 1);                          /* one marked node */
    put(&deck, PIN);
    put(&deck, ALLOWED_TIME);
    made.length = or_stop(jaqhweni_true_graph(deck.bytes, deck.length, made.bytes, sizeof made.bytes));
    printf("deck %zu bytes, graph %zu bytes\n", deck.length, made.length);
    return made;
}

/* Room for a graph whose counts were told, and not a word more. */
static graph room_for(size_t told)
{
    graph g = {.copies = (uint32_t)told, .edges = told >> 32};
    g.nodes = allocated(g.copies, sizeof *g.nodes);
    g.endpoint = allocated(g.copies, sizeof *g.endpoint);
    g.from = allocated(g.edges, sizeof *g.from);
    g.to = allocated(g.edges, sizeof *g.to);
    g.via = allocated(g.edges, sizeof *g.via);
    return g;
}

static void free_graph(graph *g)
{
    free(g->nodes);
    free(g->endpoint);
    free(g->from);
    free(g->to);
    free(g->via);
}

/* Tell, allocate, fill. The scratch has 8 words for each node, for each listed edge but the first of its path, and for each listed edge and
 * edge; it serves both calls. In a room of the told lengths there is nothing left to refuse, so or_stop stops at no 33 and no 34 here. */
static graph from_arrays(const path_list *l, size_t marked_nodes)
{
    enum { SCRATCH = JAQHWENI_WORDS_PER_UNIT * (NODES + MOST_LISTED - 1 + MOST_LISTED + EDGES) };
    uint32_t scratch[SCRATCH];
    graph g = room_for(or_stop(jaqhweni_size_from_design(
        NODES, starts, EDGES, ends, EDGES, early, EDGES, late, EDGES, marked, marked_nodes, l->edges, l->listed, l->lengths, l->paths,
        scratch, SCRATCH)));
    or_stop(jaqhweni_remove_from_design(
        NODES, starts, EDGES, ends, EDGES, early, EDGES, late, EDGES, marked, marked_nodes, l->edges, l->listed, l->lengths, l->paths,
        g.nodes, g.copies, g.endpoint, g.copies, g.from, g.edges, g.to, g.edges, g.via, g.edges, scratch, SCRATCH));
    return g;
}

/* The same on a graph: 8 words for each copy, for each listed edge but the first of its path that starts at the copy's node (of two listed
 * edges, at most one), for each listed edge and for each edge of the graph. */
static graph from_graph(const graph *old, const path_list *l, size_t marked_nodes)
{
    size_t words = JAQHWENI_WORDS_PER_UNIT * (2 * old->copies + MOST_LISTED + old->edges);
    uint32_t *scratch = allocated(words, sizeof *scratch);
    graph g = room_for(or_stop(jaqhweni_size_from_graph(
        NODES, starts, EDGES, ends, EDGES, early, EDGES, late, EDGES, marked, marked_nodes, l->edges, l->listed, l->lengths, l->paths,
        old->nodes, old->copies, old->endpoint, old->copies, old->from, old->edges, old->to, old->edges, old->via, old->edges,
        scratch, words)));
    or_stop(jaqhweni_remove_from_graph(
        NODES, starts, EDGES, ends, EDGES, early, EDGES, late, EDGES, marked, marked_nodes, l->edges, l->listed, l->lengths, l->paths,
        old->nodes, old->copies, old->endpoint, old->copies, old->from, old->edges, old->to, old->edges, old->via, old->edges,
        g.nodes, g.copies, g.endpoint, g.copies, g.from, g.edges, g.to, g.edges, g.via, g.edges, scratch, words));
    free(scratch);
    return g;
}

static void print_told(const char *of, const graph *g)
{
    printf("told of %s: %zu copies, %zu edges\n", of, g->copies, g->edges);
}

static times times_of(const graph *g, size_t marked_nodes)
{
    times t = {allocated(g->copies, sizeof *t.arrivals), allocated(g->copies, sizeof *t.requireds),
               allocated(g->copies, sizeof *t.slacks), allocated(g->copies, sizeof *t.earliests)};
    or_stop(jaqhweni_times(
        NODES, starts, EDGES, ends, EDGES, early, EDGES, late, EDGES, marked, marked_nodes, ALLOWED_TIME,
        g->nodes, g->copies, g->endpoint, g->copies, g->from, g->edges, g->to, g->edges, g->via, g->edges,
        t.arrivals, g->copies, t.requireds, g->copies, t.slacks, g->copies, t.earliests, g->copies));
    return t;
}

static void free_times(times *t)
{
    free(t->arrivals);
    free(t->requireds);
    free(t->slacks);
    free(t->earliests);
}

static packed pack(const graph *g)
{
    packed made;
    made.length = or_stop(jaqhweni_write_graph(
        g->nodes, g->copies, g->endpoint, g->copies, g->from, g->edges, g->to, g->edges, g->via, g->edges, made.bytes, sizeof made.bytes));
    return made;
}

static void check_hold(const graph *g)
{
    times t = times_of(g, 1);
    for (size_t copy = 0; copy < g->copies; copy++)
        if (g->endpoint[copy])
            printf("copy %zu node %u earliest %d hold margin %d\n",
                   copy, g->nodes[copy], (int)t.earliests[copy], (int)t.earliests[copy] - HOLD_TIME);
    free_times(&t);
}

/* The slack of a node is the smallest of its copies' slacks. */
static void print_slack_at_pin(const char *when, const path_list *l, size_t marked_nodes)
{
    graph g = from_arrays(l, marked_nodes);
    times t = times_of(&g, marked_nodes);
    int64_t slack = INT64_MAX;
    for (size_t copy = 0; copy < g.copies; copy++)
        if (g.nodes[copy] == PIN && t.slacks[copy] < slack) slack = t.slacks[copy];
    if (slack == INT64_MAX) printf("pin %s: none\n", when);
    else printf("pin %s: slack %d\n", when, (int)slack);
    free_times(&t);
    free_graph(&g);
}

/* Late or not needs one slice of arrivals alone. The answer is 0, or 1 + the copy where it stopped; what is behind that copy was not
 * written. */
static void print_late(const graph *g, uint32_t allowed_time)
{
    int64_t *arrivals = allocated(g->copies, sizeof *arrivals);
    size_t answer = or_stop(jaqhweni_late(
        NODES, starts, EDGES, ends, EDGES, early, EDGES, late, EDGES, marked, 1, allowed_time,
        g->nodes, g->copies, g->endpoint, g->copies, g->from, g->edges, g->to, g->edges, g->via, g->edges, arrivals, g->copies));
    if (answer == 0) printf("%u allowed: nothing is late\n", allowed_time);
    else printf("%u allowed: late at copy %zu node %u, arrival %d\n",
                allowed_time, answer - 1, g->nodes[answer - 1], (int)arrivals[answer - 1]);
    free(arrivals);
}

int main(void)
{
    packed made = from_deck(&false_path);
    size_t place = 0;
    uint32_t copies = get(&made, &place);
    for (uint32_t copy = 0; copy < copies; copy++) {
        uint32_t node = get(&made, &place), endpoint = get(&made, &place);
        printf("copy %u node %u%s\n", copy, node, endpoint ? " end" : "");
    }
    uint32_t edges = get(&made, &place);
    for (uint32_t k = 0; k < edges; k++) {
        uint32_t start = get(&made, &place), end = get(&made, &place), edge = get(&made, &place);
        printf("edge %u from copy %u to copy %u by design edge %u\n", k, start, end, edge);
    }
    graph g = from_arrays(&false_path, 1), further = from_graph(&g, &behind_the_pin, 1);
    packed again = pack(&g);
    int same = again.length == made.length && memcmp(again.bytes, made.bytes, made.length) == 0;
    print_told("the false path", &g);
    printf("packed from plain arrays: %s\n", same ? "the same bytes" : "OTHER BYTES");
    print_told("a further list on that graph, the logic behind the pin", &further);
    check_hold(&g);
    print_slack_at_pin("with the logic behind it", &false_path, 1);
    print_slack_at_pin("without that logic", &behind_the_pin, 1);
    print_slack_at_pin("without that logic, not marked", &behind_the_pin, 0);
    print_late(&g, ALLOWED_TIME);
    print_late(&g, 6);
    print_late(&g, 4);
    free_graph(&g);
    free_graph(&further);
    return same && place == made.length ? 0 : 1;
}
