/* Removal and its size where an engine is worst off: hubs, cut-off cones, long and repeated paths, many equal suffixes, long chains of
 * failure links, results of just the limits and one above, one copy and none; from the design and from earlier graphs.
 *
 *     python3 tests/worst_cases.py      builds and runs this
 *
 * Every answer and every word of what is lent is compared with tests/plain.h, which follows all pairs of a mark and an edge. Each slice
 * ends at a page that may not be touched and has words before it that must stay. The scratch is of just the length that test 31 asks,
 * and full of other things; afterwards it must be all zero, or unchanged where the call refuses with another number than 33 and 34.
 * Prints a line for each case, and ends with status 1 at the first difference. */
#define _GNU_SOURCE
#include "plain.h"

#include <signal.h>
#include <stdio.h>
#include <sys/mman.h>
#include <unistd.h>

/* ---- Slices ------------------------------------------------------------------------------------------------------------------ */

enum { PAGE = 4096, BEFORE = 16, MOST_WORDS = 1 << 23, MOST_SECONDS = 100 };
#define PATTERN 0xC5A5A5C5u

typedef struct {
    uint32_t *end, *words;
    size_t length, most;
} slice;

static const char *name, *doing;

static void fail(const char *found)
{
    printf("worst_cases: FAILED: %s: %s: %s\n", name, doing, found);
    fflush(stdout);
    exit(1);
}

static void stopped(int number)
{
    const char *text[] = {"worst_cases: FAILED: ", name, ": ", doing, number == SIGALRM ? ": no end" : ": left a slice", "\n"};
    for (size_t k = 0; k < sizeof text / sizeof *text; k++)
        if (write(1, text[k], strlen(text[k])) < 0) _exit(2);
    _exit(1);
}

static slice make_slice(size_t most)
{
    size_t bytes = ((most + BEFORE) * sizeof(uint32_t) + PAGE - 1) / PAGE * PAGE;
    uint8_t *at = mmap(NULL, bytes + PAGE, PROT_READ | PROT_WRITE, MAP_PRIVATE | MAP_ANONYMOUS, -1, 0);
    if (at == MAP_FAILED || mprotect(at + bytes, PAGE, PROT_NONE) != 0) exit(2);
    return (slice){(uint32_t *)(void *)(at + bytes), NULL, 0, most};
}

/* Words that no result has, each another one. */
static uint32_t pattern(size_t k)
{
    return PATTERN + (uint32_t)k * 0x10000u;
}

static void lend(slice *s, size_t length)
{
    if (length > s->most) fail("the test's own slice is too short");
    s->length = length;
    s->words = s->end - length;
    for (size_t k = 0; k < length; k++) s->words[k] = pattern(k);
    for (size_t k = 1; k <= BEFORE; k++) s->words[-(ptrdiff_t)k] = PATTERN;
}

static void lend_copy(slice *s, const void *words, size_t length)
{
    lend(s, length);
    memcpy(s->words, words, length * sizeof(uint32_t));
}

static void check_before(const slice *s)
{
    for (size_t k = 1; k <= BEFORE; k++)
        if (s->words[-(ptrdiff_t)k] != PATTERN) fail("words before a slice were written");
}

/* Holds such words in front, and is unchanged behind. */
static void check_written(const slice *s, const uint32_t *front, size_t length, const char *what)
{
    check_before(s);
    if (length && memcmp(s->words, front, length * sizeof(uint32_t)) != 0) fail(what);
    for (size_t k = length; k < s->length; k++)
        if (s->words[k] != pattern(k)) fail("places past the result were written");
}

static void check_zero(const slice *s)
{
    check_before(s);
    for (size_t k = 0; k < s->length; k++)
        if (s->words[k] != 0) fail("the scratch is not all zero");
}

/* ---- Calls ------------------------------------------------------------------------------------------------------------------- */

static design d;
static path_list list, other;
static graph earlier, expected;
static slice starts, ends, early, late, marked, listed, lengths, nodes, endpoint, from, to, via, scratch, room[5];
static int calls;

static void lend_inputs(const path_list *l, const graph *old)
{
    lend_copy(&starts, d.starts, d.m);
    lend_copy(&ends, d.ends, d.m);
    lend_copy(&early, d.early, d.m);
    lend_copy(&late, d.late, d.m);
    lend_copy(&marked, d.marked, d.marked_nodes);
    lend_copy(&listed, l->edges, l->listed);
    lend_copy(&lengths, l->lengths, l->paths);
    if (old == NULL) return;
    lend_copy(&nodes, old->nodes, old->copies);
    lend_copy(&endpoint, old->endpoint, old->copies);
    lend_copy(&from, old->from, old->edges);
    lend_copy(&to, old->to, old->edges);
    lend_copy(&via, old->via, old->edges);
}

static void check_inputs(const path_list *l, const graph *old)
{
    static const char changed[] = "what is lent to be read was written";
    check_written(&starts, d.starts, d.m, changed);
    check_written(&ends, d.ends, d.m, changed);
    check_written(&early, (const uint32_t *)d.early, d.m, changed);
    check_written(&late, (const uint32_t *)d.late, d.m, changed);
    check_written(&marked, d.marked, d.marked_nodes, changed);
    check_written(&listed, l->edges, l->listed, changed);
    check_written(&lengths, l->lengths, l->paths, changed);
    if (old == NULL) return;
    check_written(&nodes, old->nodes, old->copies, changed);
    check_written(&endpoint, old->endpoint, old->copies, changed);
    check_written(&from, old->from, old->edges, changed);
    check_written(&to, old->to, old->edges, changed);
    check_written(&via, old->via, old->edges, changed);
}

#define SLICE(s) (s).words, (s).length
#define SIGNED(s) (const int32_t *)(s).words, (s).length
#define DESIGN d.n, SLICE(starts), SLICE(ends), SIGNED(early), SIGNED(late), SLICE(marked)
#define LIST SLICE(listed), SLICE(lengths)
#define GRAPH SLICE(nodes), SLICE(endpoint), SLICE(from), SLICE(to), SLICE(via)
#define ROOM SLICE(room[0]), SLICE(room[1]), SLICE(room[2]), SLICE(room[3]), SLICE(room[4])

static void check_answer(int64_t answer, int64_t right)
{
    static char text[120];
    if (answer == right) return;
    snprintf(text, sizeof text, "answered %lld, refusal %d; %lld, refusal %d, is right", (long long)answer,
             answer < 0 ? (int)(-answer % 256) : 0, (long long)right, right < 0 ? (int)(-right % 256) : 0);
    fail(text);
}

static void check_scratch(int64_t right)
{
    if (right >= 0 || right == -33 || right == -34) check_zero(&scratch);
    else check_written(&scratch, NULL, 0, "the scratch");
}

static void tell(const path_list *l, const graph *old, size_t words, int64_t right)
{
    lend_inputs(l, old);
    lend(&scratch, words);
    int64_t answer = old ? jaqhweni_size_from_graph(DESIGN, LIST, GRAPH, SLICE(scratch))
                         : jaqhweni_size_from_design(DESIGN, LIST, SLICE(scratch));
    calls++;
    check_answer(answer, right);
    check_scratch(right);
    check_inputs(l, old);
}

/* In a room of so many copies and edges; what is written must be what is expected. */
static void remove_into(const path_list *l, const graph *old, size_t words, size_t room_copies, size_t room_edges, int64_t right)
{
    lend_inputs(l, old);
    lend(&scratch, words);
    for (int k = 0; k < 5; k++) lend(&room[k], k < 2 ? room_copies : room_edges);
    int64_t answer = old ? jaqhweni_remove_from_graph(DESIGN, LIST, GRAPH, ROOM, SLICE(scratch))
                         : jaqhweni_remove_from_design(DESIGN, LIST, ROOM, SLICE(scratch));
    calls++;
    check_answer(answer, right);
    size_t copies = right < 0 ? 0 : (uint32_t)right, edges = right < 0 ? 0 : (size_t)(right >> 32);
    check_written(&room[0], expected.nodes, copies, "nodes of copies differ");
    check_written(&room[1], expected.endpoint, copies, "endpoint numbers differ");
    check_written(&room[2], expected.from, edges, "start copies differ");
    check_written(&room[3], expected.to, edges, "end copies differ");
    check_written(&room[4], expected.via, edges, "design edges differ");
    check_scratch(right);
    check_inputs(l, old);
}

/* The same paths, the last one first. */
static const path_list *turned(const path_list *l)
{
    static path_list t;
    size_t at = l->listed;
    t.paths = t.listed = 0;
    for (size_t p = l->paths; p-- > 0;) {
        at -= l->lengths[p];
        memcpy(t.edges + t.listed, l->edges + at, l->lengths[p] * sizeof(uint32_t));
        t.listed += l->lengths[p];
        t.lengths[t.paths++] = l->lengths[p];
    }
    return &t;
}

/* One removal in all rooms and scratches that matter. Its result is then in `expected`. */
static plain_counts check(const path_list *l, const graph *old)
{
    plain_counts made = plain_remove(&d, l, old, &expected);
    int64_t right = made.copies > ROOM_COPIES ? -33 : made.edges > ROOM_EDGES ? -34 : (int64_t)made.copies + ((int64_t)made.edges << 32);
    size_t words = words_needed(&d, l, old);
    expected.copies = made.copies < ROOM_COPIES ? made.copies : ROOM_COPIES;
    expected.edges = made.edges < ROOM_EDGES ? made.edges : ROOM_EDGES;
    doing = "its size";
    tell(l, old, words, right);
    doing = "into the largest room";
    remove_into(l, old, words, ROOM_COPIES, ROOM_EDGES, right);
    doing = "above the largest room, with more scratch, the list turned";
    remove_into(turned(l), old, words + 5, ROOM_COPIES + 1, ROOM_EDGES + 1, right);
    doing = "with a word of scratch too few";
    if (words > 0) {
        tell(l, old, words - 1, -31);
        remove_into(l, old, words - 1, ROOM_COPIES, ROOM_EDGES, -31);
    }
    if (right < 0) return made;
    doing = "into the room that was told";
    remove_into(l, old, words, made.copies, made.edges, right);
    doing = "into a room for a copy too few";
    if (made.copies > 0) remove_into(l, old, words, made.copies - 1, made.edges, -33);
    doing = "into a room for an edge too few";
    if (made.edges > 0) remove_into(l, old, words, made.copies, made.edges - 1, -34);
    return made;
}

/* ---- Designs and lists ------------------------------------------------------------------------------------------------------- */

static void start_list(path_list *l)
{
    l->paths = l->listed = 0;
}

static void add_to_path(path_list *l, uint32_t edge)
{
    l->edges[l->listed++] = edge;
}

static void end_path(path_list *l, size_t from_listed)
{
    l->lengths[l->paths++] = (uint32_t)(l->listed - from_listed);
}

static void add_pair(path_list *l, uint32_t a, uint32_t b)
{
    size_t at = l->listed;
    add_to_path(l, a);
    add_to_path(l, b);
    end_path(l, at);
}

static void add_single(path_list *l, uint32_t edge)
{
    size_t at = l->listed;
    add_to_path(l, edge);
    end_path(l, at);
}

/* The number of the first of so many edges. */
static uint32_t add_edges(uint32_t start, uint32_t end, uint32_t count)
{
    uint32_t first = (uint32_t)d.m;
    while (count--) add_edge(&d, start, end);
    return first;
}

/* Into a hub, out of it, and so many pairs of these. */
static void hub(uint32_t into, uint32_t out_of, uint32_t pairs, uint32_t different)
{
    start_design(&d, 3);
    start_list(&list);
    add_edges(0, 1, into);
    add_edges(1, 2, out_of);
    for (uint32_t k = 0; k < pairs; k++) add_pair(&list, k % different, into + k);
}

static void hubs_in_a_row(uint32_t hubs, uint32_t width, size_t paths, uint32_t longest)
{
    start_design(&d, hubs + 1);
    start_list(&list);
    for (uint32_t v = 0; v < hubs; v++) add_edges(v, v + 1, width);
    while (list.paths < paths) {
        uint32_t length = 1 + below(longest), v = below(hubs - length + 1);
        size_t at = list.listed;
        if (length == 1 && below(8)) continue;
        for (uint32_t k = 0; k < length; k++) add_to_path(&list, (v + k) * width + below(width));
        end_path(&list, at);
    }
}

/* A hub fed by a cone of `cone` nodes that paths cannot leave: each edge into the cone is listed alone, or the pair that leads through its
 * first node is. Pairs over the cone's edges, which no path takes, and over a few others. */
static void fed_by_a_cone(uint32_t cone, uint32_t edges, uint32_t pairs, int by_pairs)
{
    uint32_t hub_node = cone + 1;
    start_design(&d, cone + 3);
    start_list(&list);
    for (uint32_t v = 1; v <= cone; v++) {
        uint32_t in = add_edges(v - 1, v, 1);
        if (!by_pairs || v == 1) add_single(&list, in);
    }
    uint32_t dead = (uint32_t)d.m;
    for (uint32_t v = 1; v <= cone; v++) add_edges(v, hub_node, edges);
    uint32_t live = add_edges(0, hub_node, 3), out = add_edges(hub_node, hub_node + 1, pairs + 5);
    for (uint32_t k = 0; k < pairs; k++) add_pair(&list, below(8) ? dead + below(cone * edges) : live + below(3), out + k);
}

/* Out of a hub into nodes from which no end is reached, as all that goes on from there is listed. */
static void into_a_dead_end(uint32_t into, uint32_t nodes_after, uint32_t pairs)
{
    uint32_t sink = 2 + nodes_after;
    start_design(&d, sink + 1);
    start_list(&list);
    add_edges(0, 1, into);
    for (uint32_t k = 0; k < nodes_after; k++) add_edges(1, 2 + k, 4);
    for (uint32_t k = 0; k < nodes_after; k++) {
        uint32_t on = add_edges(2 + k, sink, 1);
        if (k % 3) add_single(&list, on);
    }
    add_edges(1, sink, 2);
    for (uint32_t k = 0; k < pairs; k++) add_pair(&list, below(into), into + below(4 * nodes_after));
}

static void ladder(uint32_t n)
{
    start_design(&d, n);
    start_list(&list);
    start_list(&other);
    for (uint32_t v = 0; v + 1 < n; v++) add_edges(v, v + 1, 2);
}

/* From a rung on, by the first edge or the second one as the rung's number is even or odd, but for one in `odd`. */
static void add_rungs(path_list *l, uint32_t rung, uint32_t length, uint32_t odd)
{
    size_t at = l->listed;
    for (uint32_t k = 0; k < length; k++) add_to_path(l, 2 * (rung + k) + ((rung + k) % 2 ^ (odd > 0 && below(odd) == 0)));
    end_path(l, at);
}

static void long_paths(void)
{
    ladder(JAQHWENI_MAX_NODES);
    add_rungs(&list, 0, 4095, 0);
    add_rungs(&list, 0, 4095, 0);               /* again */
}

/* Two paths with one suffix of 4,094 edges: that suffix and an edge before it; or both edges before it, so that nothing leads to it. */
static void long_suffixes(int both)
{
    ladder(JAQHWENI_MAX_NODES);
    if (both) add_rungs(&list, 0, 4095, 0);
    else add_rungs(&list, 1, 4094, 0);
    size_t at = list.listed;
    add_to_path(&list, 1);
    memcpy(list.edges + list.listed, list.edges + both, 4094 * sizeof(uint32_t));
    list.listed += 4094;
    end_path(&list, at);
}

static void long_prefixes(void)
{
    ladder(2100);
    for (uint32_t k = 0; k < 4; k++) {          /* the same but for the last edge, and tails of tails */
        add_rungs(&list, k < 2 ? 0 : 5, 2040, 0);
        list.edges[list.listed - 1] ^= k % 2;
    }
}

static void overlapping(void)
{
    ladder(1100);
    while (list.listed + 300 < JAQHWENI_MAX_LISTED_EDGES) add_rungs(&list, below(800), 1 + below(299), 150);
}

/* So many paths, each another edge and then the same run. */
static void equal_suffixes(uint32_t paths, uint32_t length)
{
    start_design(&d, length + 2);
    start_list(&list);
    add_edges(0, 1, paths + 2);
    uint32_t run = (uint32_t)d.m;
    for (uint32_t k = 0; k < length; k++) add_edges(k + 1, k + 2, 2);
    for (uint32_t p = 0; p < paths; p++) {
        size_t at = list.listed;
        add_to_path(&list, p);
        for (uint32_t k = 0; k < length; k++) add_to_path(&list, run + 2 * k);
        end_path(&list, at);
    }
}

/* Runs that begin with one another, after a few edges before: where the longest is the mark, each shorter one counts as well, and of two
 * that go on over the same edge the longer one. */
static void chains(uint32_t longest, uint32_t before)
{
    start_design(&d, longest + 3);
    start_list(&list);
    uint32_t first = add_edges(0, 1, 3), second = add_edges(1, 2, before);
    uint32_t run = (uint32_t)d.m;
    for (uint32_t k = 0; k < longest; k++) add_edges(k + 2, k + 3, 2);
    for (uint32_t length = 1; length <= longest; length++) {
        size_t at = list.listed;
        if (length % 3) add_to_path(&list, first + length % 2);
        add_to_path(&list, second + length * 7 % before);
        for (uint32_t k = 0; k < length; k++) add_to_path(&list, run + 2 * k + (k + 1 == length && length % 5 == 0));
        end_path(&list, at);
    }
}

/* A well-formed graph of just so many copies over a chain of nodes joined by two edges: four copies of a node, and five of some; before
 * node `narrow`, which has one, and at the end, fewer and fewer. */
static void graph_of(size_t copies, uint32_t narrow)
{
    enum { LAST = JAQHWENI_MAX_NODES - 1 };
    start_design(&d, LAST + 1);
    for (uint32_t v = 0; v < LAST; v++) add_edges(v, v + 1, 2);
    size_t more = copies - (4 * (size_t)(LAST + 1) - 12), first = 0, before = 0;
    earlier.copies = earlier.edges = 0;
    for (uint32_t v = 0; v <= LAST; v++, before = first, first = earlier.copies) {
        uint32_t down = v <= narrow ? narrow - v : LAST - v;
        uint32_t count = down < 3 ? down + 1 : v > 10 && v <= 10 + more ? 5 : 4;
        for (uint32_t c = 0; c < count; c++) {
            earlier.endpoint[earlier.copies] = v == LAST;
            for (uint32_t k = 0; v > 0 && k < 2; k++) {
                earlier.from[earlier.edges] = (uint32_t)(before + (c + k) % (first - before));
                earlier.to[earlier.edges] = (uint32_t)earlier.copies;
                earlier.via[earlier.edges++] = 2 * (v - 1) + k;
            }
            earlier.nodes[earlier.copies++] = v;
        }
    }
}

/* ---- Cases ------------------------------------------------------------------------------------------------------------------- */

static void say(plain_counts made)
{
    printf("%-64s %8llu copies %9llu edges\n", name, (unsigned long long)made.copies, (unsigned long long)made.edges);
    fflush(stdout);
}

/* The case must be what it says, or it tests something else. */
static void must_be(plain_counts made, uint64_t copies, uint64_t edges)
{
    doing = "the case itself";
    if (made.copies != copies || made.edges != edges) {
        say(made);
        fail("it has other counts than it is meant to have");
    }
}

/* From the design; the same from the design as an earlier graph; in two parts, the second from what the first leaves; and again with
 * nodes marked. */
static plain_counts everywhere(const char *case_name)
{
    static path_list parts[2];
    name = case_name;
    plain_counts made = check(&list, NULL);
    say(made);
    design_as_graph(&d, &earlier);
    check(&list, &earlier);
    start_list(&parts[0]);
    start_list(&parts[1]);
    for (size_t p = 0, at = 0; p < list.paths; at += list.lengths[p++]) {
        path_list *part = &parts[p % 2];
        memcpy(part->edges + part->listed, list.edges + at, list.lengths[p] * sizeof(uint32_t));
        part->listed += list.lengths[p];
        part->lengths[part->paths++] = list.lengths[p];
    }
    plain_counts half = check(&parts[0], NULL);
    earlier = expected;
    if (half.copies <= ROOM_COPIES && half.edges <= ROOM_EDGES && words_needed(&d, &parts[1], &earlier) + 5 <= MOST_WORDS)
        check(&parts[1], &earlier);
    mark_every(&d, 3);
    check(&list, NULL);
    d.marked_nodes = 0;
    return made;
}

static void hubs(void)
{
    hub(60, 700, 500, 60);
    everywhere("hub, 60 edges in, 500 pairs over all of them");
    hub(400, 120, 100, 1);
    everywhere("hub, 400 edges in, 100 pairs over one of them");
    hub(8000, 1024, 1024, 2);
    name = "hub, 8,000 edges in, 1,024 pairs: far above 65,536 edges";
    say(check(&list, NULL));
    hubs_in_a_row(12, 30, 200, 3);
    everywhere("12 hubs of 30 edges in a row, 200 paths");
    hubs_in_a_row(150, 6, 600, 5);
    everywhere("150 hubs of 6 edges in a row, 600 paths");
    hubs_in_a_row(40, 3, 500, 30);
    everywhere("40 hubs of 3 edges in a row, 500 long paths");
    fed_by_a_cone(1, 3000, 200, 0);
    everywhere("hub fed by one node that is cut off, 3,000 edges");
    fed_by_a_cone(40, 50, 200, 0);
    everywhere("hub fed by a cone, each edge into it listed");
    fed_by_a_cone(40, 50, 200, 1);
    everywhere("hub fed by a cone that is cut off at its first edge");
    into_a_dead_end(100, 60, 300);
    everywhere("hub into nodes from which no end is reached");
}

static void paths(void)
{
    long_paths();
    everywhere("ladder, a path of 4,095 edges, twice");
    long_suffixes(0);
    everywhere("ladder, a path of 4,094 edges, and an edge before it");
    long_suffixes(1);
    everywhere("ladder, two paths that share a suffix of 4,094 edges");
    long_prefixes();
    everywhere("ladder, four paths of 2,040 edges that differ at the end");
    overlapping();
    everywhere("ladder, overlapping paths of up to 299 edges");
    equal_suffixes(1024, 7);
    everywhere("1,024 paths with one suffix of 7 edges");
    equal_suffixes(2, 4000);
    everywhere("2 paths with one suffix of 4,000 edges");
    chains(120, 9);
    everywhere("120 runs that begin with one another");
    chains(60, 200);
    everywhere("60 runs that begin with one another, 200 edges before");
    random_design(&d, JAQHWENI_MAX_NODES, JAQHWENI_MAX_EDGES, 64);
    random_paths(&list, &d, JAQHWENI_MAX_PATHS, 8);
    everywhere("full limits, 1,024 paths of 8");
}

/* A hub with 1,820 edges in and `out_of` out, 35 pairs over two of them: each pair's mark misses one edge in. */
static void edge_limit(uint32_t out_of, uint64_t edges, const char *case_name)
{
    hub(1820, out_of, 35, 2);
    must_be(everywhere(case_name), 38, edges);
}

static void copy_limit(size_t copies, int listed_too, uint64_t result, const char *case_name)
{
    enum { NARROW_NODE = 2000 };
    name = case_name;
    graph_of(copies, NARROW_NODE);
    start_list(&list);
    if (listed_too) add_pair(&list, 2 * (NARROW_NODE - 1), 2 * NARROW_NODE);
    plain_counts made = check(&list, &earlier);
    say(made);
    must_be(made, result, made.edges);
}

static void limits(void)
{
    edge_limit(50, 65535, "a hub with 65,535 edges in its result");
    edge_limit(51, 65536, "a hub with 65,536 edges in its result");
    edge_limit(52, 65537, "a hub with 65,537 edges in its result (34)");
    copy_limit(16383, 1, 16384, "an earlier graph of 16,383 copies and one more");
    copy_limit(16384, 0, 16384, "an earlier graph of 16,384 copies, no path");
    copy_limit(16384, 1, 16385, "an earlier graph of 16,384 copies and one more (33)");
    full_graph(&d, &earlier);
    start_list(&list);
    name = "the largest graph, no path";
    plain_counts made = check(&list, &earlier);
    say(made);
    must_be(made, 16384, 65536);
    random_paths(&list, &d, JAQHWENI_MAX_PATHS, 1);
    name = "the largest graph, 1,024 paths of 1";
    say(check(&list, &earlier));
    random_paths(&list, &d, 200, 2);
    name = "the largest graph, 200 paths of 2 (33)";
    made = check(&list, &earlier);
    say(made);
    doing = "the case itself";
    if (made.copies <= ROOM_COPIES) fail("it fits");
}

static void few_copies(void)
{
    start_design(&d, 0);
    start_list(&list);
    must_be(everywhere("no node"), 0, 0);
    start_design(&d, 1);
    must_be(everywhere("one node"), 1, 0);
    start_design(&d, 3);
    add_edges(0, 1, 1);
    add_edges(1, 2, 1);
    add_pair(&list, 0, 1);
    must_be(everywhere("three nodes, and the one path listed"), 0, 0);
    mark_every(&d, 3);
    name = "one copy of a marked source, and a list";
    design_as_graph(&d, &earlier);
    earlier.copies = 1;
    earlier.edges = 0;
    must_be(check(&list, &earlier), 1, 0);
    name = "no copy, and a list";
    earlier.copies = 0;
    must_be(check(&list, &earlier), 0, 0);
    start_design(&d, 2);
    start_list(&list);
    must_be(everywhere("two nodes, no edge"), 2, 0);
    add_edges(0, 1, 1);
    must_be(everywhere("one edge"), 2, 1);
    add_single(&list, 0);
    must_be(everywhere("one edge, listed"), 0, 0);
    add_edges(0, 1, JAQHWENI_MAX_EDGES - 1);
    must_be(everywhere("16,384 parallel edges, one listed"), 2, JAQHWENI_MAX_EDGES - 1);
}

int main(void)
{
    slice *of_edges[] = {&starts, &ends, &early, &late}, *of_graph[] = {&from, &to, &via};
    for (int k = 0; k < 4; k++) *of_edges[k] = make_slice(JAQHWENI_MAX_EDGES);
    for (int k = 0; k < 3; k++) *of_graph[k] = make_slice(ROOM_EDGES);
    for (int k = 0; k < 5; k++) room[k] = make_slice(k < 2 ? ROOM_COPIES + 1 : ROOM_EDGES + 1);
    marked = make_slice(JAQHWENI_MAX_NODES);
    listed = make_slice(JAQHWENI_MAX_LISTED_EDGES);
    lengths = make_slice(JAQHWENI_MAX_PATHS);
    nodes = make_slice(ROOM_COPIES);
    endpoint = make_slice(ROOM_COPIES);
    scratch = make_slice(MOST_WORDS);
    signal(SIGSEGV, stopped);
    signal(SIGBUS, stopped);
    signal(SIGALRM, stopped);
    alarm(MOST_SECONDS);
    few_copies();
    hubs();
    paths();
    limits();
    printf("worst_cases: %d calls, all as the plain program says\n", calls);
    return 0;
}
