/* The library's calls against the reference program's, on the same input and machine.
 *
 *     bench/run [--stand-in] [--limit RATIO]
 *
 * Each line is one piece of work: what came out, the time of each, and the library's time over the reference's. Both are timed in turn, in
 * rounds, and the best round counts; time is the processor's, so that other processes disturb less. Both are lent rooms and scratch of
 * the same size, the scratch of just the size that test 31 asks for, and both clear it. The two results are compared before any time is
 * taken. Two tables double the list and say how the library's cost grows, the shorter and the longer list timed in turn. One has each
 * removal told and then filled, and says how telling compares with filling, of the C program and of the library; one does the same for
 * whether a graph is late and all its times.
 *
 * With a limit, a row whose ratio is above it, or a cost that grows by more than 2.2, is measured again, up to twice, since other processes
 * disturb; the least counts. Those that stay above are named at the end, and the exit status is 1. It is 1 as well where results differ.
 * Of a deck's call some microseconds are not counted for the limit: its tables are of one size, about 120 KB, and the library has to clear
 * them whatever the deck is, which of four edges is most of the work. */
#define _POSIX_C_SOURCE 199309L
#include "inputs.h"
#include "reference.h"

#include <stdio.h>
#include <stdlib.h>
#include <string.h>
#include <time.h>

enum { ROUNDS = 7, TRIES = 3, SERIES = 32, MOST_WORDS = 1 << 24 };
static const double ROUND_SECONDS = 0.02, MOST_GROWTH = 2.2, DECK_TABLES_SECONDS = 4e-6;

/* ---- Two libraries ------------------------------------------------------------------------------------------------------------ */

typedef struct {
    __typeof__(jaqhweni_true_graph) *true_graph;
    __typeof__(jaqhweni_remove_from_design) *remove_from_design;
    __typeof__(jaqhweni_remove_from_graph) *remove_from_graph;
    __typeof__(jaqhweni_size_from_design) *size_from_design;
    __typeof__(jaqhweni_size_from_graph) *size_from_graph;
    __typeof__(jaqhweni_times) *times;
    __typeof__(jaqhweni_late) *late;
    __typeof__(jaqhweni_write_graph) *write_graph;
} calls;

static const calls LIBRARY = {jaqhweni_true_graph, jaqhweni_remove_from_design, jaqhweni_remove_from_graph, jaqhweni_size_from_design,
                              jaqhweni_size_from_graph, jaqhweni_times, jaqhweni_late, jaqhweni_write_graph};
static const calls REFERENCE = {reference_true_graph, reference_remove_from_design, reference_remove_from_graph, reference_size_from_design,
                                reference_size_from_graph, reference_times, reference_late, reference_write_graph};

/* ---- Work ---------------------------------------------------------------------------------------------------------------------- */

static design d;
static path_list list, lists[SERIES];
static graph earlier, rooms[2][2];                  /* of each library, two to take turns in a series */
static size_t words[SERIES];
static uint32_t *scratch;
static uint8_t deck[JAQHWENI_MAX_DECK_BYTES], packed[2][ROOM_BYTES];
static size_t deck_length;
static int64_t times[2][4][ROOM_COPIES];
static uint32_t allowed = 1000000;

static int64_t remove_list(const calls *by, const path_list *l, const graph *old, graph *room, size_t scratch_length)
{
    int64_t made;
    if (old)
        made = by->remove_from_graph(d.n, d.starts, d.m, d.ends, d.m, d.early, d.m, d.late, d.m, d.marked, d.marked_nodes, l->edges,
                                     l->listed, l->lengths, l->paths, old->nodes, old->copies, old->endpoint, old->copies, old->from,
                                     old->edges, old->to, old->edges, old->via, old->edges, room->nodes, ROOM_COPIES, room->endpoint,
                                     ROOM_COPIES, room->from, ROOM_EDGES, room->to, ROOM_EDGES, room->via, ROOM_EDGES, scratch, scratch_length);
    else
        made = by->remove_from_design(d.n, d.starts, d.m, d.ends, d.m, d.early, d.m, d.late, d.m, d.marked, d.marked_nodes, l->edges,
                                      l->listed, l->lengths, l->paths, room->nodes, ROOM_COPIES, room->endpoint, ROOM_COPIES, room->from,
                                      ROOM_EDGES, room->to, ROOM_EDGES, room->via, ROOM_EDGES, scratch, scratch_length);
    if (made >= 0) {
        room->copies = (uint32_t)made;
        room->edges = (size_t)(made >> 32);
    }
    return made;
}

static int64_t do_deck(int which)
{
    return (which ? LIBRARY : REFERENCE).true_graph(deck, deck_length, packed[which], sizeof packed[which]);
}

static int64_t do_design(int which)
{
    return remove_list(which ? &LIBRARY : &REFERENCE, &list, NULL, &rooms[which][0], words[0]);
}

static int64_t do_graph(int which)
{
    return remove_list(which ? &LIBRARY : &REFERENCE, &list, &earlier, &rooms[which][0], words[0]);
}

static int64_t tell_design(int which)
{
    return (which ? LIBRARY : REFERENCE).size_from_design(d.n, d.starts, d.m, d.ends, d.m, d.early, d.m, d.late, d.m, d.marked,
                                                          d.marked_nodes, list.edges, list.listed, list.lengths, list.paths, scratch,
                                                          words[0]);
}

static int64_t tell_graph(int which)
{
    return (which ? LIBRARY : REFERENCE).size_from_graph(d.n, d.starts, d.m, d.ends, d.m, d.early, d.m, d.late, d.m, d.marked,
                                                         d.marked_nodes, list.edges, list.listed, list.lengths, list.paths, earlier.nodes,
                                                         earlier.copies, earlier.endpoint, earlier.copies, earlier.from, earlier.edges,
                                                         earlier.to, earlier.edges, earlier.via, earlier.edges, scratch, words[0]);
}

static int64_t do_series(int which)
{
    const graph *held = NULL;
    int64_t made = 0;
    for (size_t k = 0; k < SERIES; k++) {
        graph *room = &rooms[which][k % 2];
        made = remove_list(which ? &LIBRARY : &REFERENCE, &lists[k], held, room, words[k]);
        if (made < 0) return made;
        held = room;
    }
    return made;
}

static int64_t do_times(int which)
{
    int64_t (*t)[ROOM_COPIES] = times[which];
    return (which ? LIBRARY : REFERENCE).times(d.n, d.starts, d.m, d.ends, d.m, d.early, d.m, d.late, d.m, d.marked, d.marked_nodes,
                                               allowed, earlier.nodes, earlier.copies, earlier.endpoint, earlier.copies, earlier.from,
                                               earlier.edges, earlier.to, earlier.edges, earlier.via, earlier.edges, t[0], earlier.copies,
                                               t[1], earlier.copies, t[2], earlier.copies, t[3], earlier.copies);
}

static int64_t do_late(int which)
{
    return (which ? LIBRARY : REFERENCE).late(d.n, d.starts, d.m, d.ends, d.m, d.early, d.m, d.late, d.m, d.marked, d.marked_nodes,
                                              allowed, earlier.nodes, earlier.copies, earlier.endpoint, earlier.copies, earlier.from,
                                              earlier.edges, earlier.to, earlier.edges, earlier.via, earlier.edges, times[which][0],
                                              earlier.copies);
}

static int64_t do_write(int which)
{
    return (which ? LIBRARY : REFERENCE).write_graph(earlier.nodes, earlier.copies, earlier.endpoint, earlier.copies, earlier.from,
                                                     earlier.edges, earlier.to, earlier.edges, earlier.via, earlier.edges, packed[which],
                                                     sizeof packed[which]);
}

typedef int64_t (*work)(int which);

static double now(void)
{
    struct timespec t;
    clock_gettime(CLOCK_PROCESS_CPUTIME_ID, &t);
    return (double)t.tv_sec + 1e-9 * (double)t.tv_nsec;
}

/* Seconds of one call, over so many. */
static double time_of(work w, int which, size_t repeats)
{
    double begin = now();
    for (size_t k = 0; k < repeats; k++) w(which);
    return (now() - begin) / (double)repeats;
}

static double limit = 1e9;                          /* of the ratios, if one is given */
static int above;                                   /* rows above it, and costs that grow too much */
static char names_above[1 << 14];
static double worst_ratio, slowest, worst_telling, worst_late, worst_growth;
static double best[2];                              /* of the last line: the reference's time, the library's, */
static int64_t answers[2];                          /* and their answers */
static int differ;

static int same_results(void)
{
    int same = memcmp(packed[0], packed[1], sizeof packed[0]) == 0 && memcmp(times[0], times[1], sizeof times[0]) == 0;
    for (int turn = 0; turn < 2; turn++) {
        const graph *a = &rooms[0][turn], *b = &rooms[1][turn];
        same = same && a->copies == b->copies && a->edges == b->edges && memcmp(a->nodes, b->nodes, sizeof a->nodes) == 0
            && memcmp(a->endpoint, b->endpoint, sizeof a->endpoint) == 0 && memcmp(a->from, b->from, sizeof a->from) == 0
            && memcmp(a->to, b->to, sizeof a->to) == 0 && memcmp(a->via, b->via, sizeof a->via) == 0;
    }
    return same;
}

/* Two pieces of work, in turn, in rounds; the least times of a call go to `least`. `which` is 0 for the first and 1 for the second. */
static void time_in_turn(int64_t (*w)(int which), double least[2])
{
    double first = time_of(w, 0, 1), second = time_of(w, 1, 1), once = first > second ? first : second;
    size_t repeats = once > ROUND_SECONDS ? 1 : (size_t)(ROUND_SECONDS / once) + 1;
    for (int round = 0; round < ROUNDS; round++)
        for (int which = 0; which < 2; which++) {
            double seconds = time_of(w, which, repeats);
            if (seconds < least[which]) least[which] = seconds;
        }
}

/* How many times the first one's least time the second one's is, less what is not counted. */
static double ratio_of(const double least[2], double uncounted)
{
    return (least[1] - uncounted) / least[0];
}

/* Times both; where their ratio is above `most`, once more: the least counts. */
static void compare(int64_t (*w)(int which), double most, double uncounted, double least[2])
{
    double tried[2];
    for (int try = 0; try < TRIES; try++) {
        tried[0] = tried[1] = 1e9;
        time_in_turn(w, tried);
        if (try == 0 || ratio_of(tried, 0) < ratio_of(least, 0)) memcpy(least, tried, sizeof tried);
        if (ratio_of(least, uncounted) <= most) return;
    }
}

static void note_above(const char *name, const char *made, double ratio)
{
    size_t used = strlen(names_above);
    above++;
    snprintf(names_above + used, sizeof names_above - used, "    %.2f  %s (%s)\n", ratio, name, made);
}

/* Prints a line; returns the library's time. */
static double measure(const char *name, work w)
{
    memset(rooms, 0, sizeof rooms);
    memset(packed, 0, sizeof packed);
    memset(times, 0, sizeof times);
    memset(scratch, 0, MOST_WORDS * sizeof *scratch);
    for (int which = 0; which < 2; which++) answers[which] = w(which);
    char made[40];
    if (answers[0] < 0) snprintf(made, sizeof made, "refused %d", (int)(-answers[0] % 256));
    else if (w == do_deck || w == do_write) snprintf(made, sizeof made, "%d bytes", (int)answers[0]);
    else if (w == do_times) snprintf(made, sizeof made, "%zu copies", earlier.copies);
    else if (w == do_late && answers[0] == 0) snprintf(made, sizeof made, "on time");
    else if (w == do_late) snprintf(made, sizeof made, "late at copy %d", (int)answers[0] - 1);
    else snprintf(made, sizeof made, "%d copies, %d edges", (int)(uint32_t)answers[0], (int)(answers[0] >> 32));
    if (answers[0] != answers[1] || !same_results()) {
        printf("%-44s %-28s RESULTS DIFFER\n", name, made);
        differ = 1;
        return 0;
    }
    double uncounted = w == do_deck ? DECK_TABLES_SECONDS : 0;
    compare(w, limit, uncounted, best);
    double ratio = ratio_of(best, 0);
    if (ratio_of(best, uncounted) > limit) note_above(name, made, ratio);
    if (ratio > worst_ratio) worst_ratio = ratio;
    if (best[1] > slowest) slowest = best[1];
    printf("%-44s %-28s %11.1f %11.1f %7.2f%s\n", name, made, 1e6 * best[0], 1e6 * best[1], ratio, ratio > 1.25 ? "  *" : "");
    fflush(stdout);
    return best[1];
}

/* ---- Cases --------------------------------------------------------------------------------------------------------------------- */

static void hub(uint32_t into, uint32_t out_of, uint32_t listed)
{
    start_design(&d, 3);
    for (uint32_t k = 0; k < into; k++) add_edge(&d, 0, 1);
    for (uint32_t k = 0; k < out_of; k++) add_edge(&d, 1, 2);
    list.paths = list.listed = 0;
    for (uint32_t k = 0; k < listed; k++) {
        list.edges[list.listed++] = k % 2;
        list.edges[list.listed++] = into + k;
        list.lengths[list.paths++] = 2;
    }
}

/* A hub most of whose edges in come from a node that is cut off: the one edge to that node is itself listed. So these edges are in no row
 * of the hub's copies, whatever the mark. */
static void cut_off_hub(uint32_t into, uint32_t out_of, uint32_t listed)
{
    start_design(&d, 4);
    add_edge(&d, 0, 1);
    for (uint32_t k = 0; k < into; k++) add_edge(&d, 1, 2);
    add_edge(&d, 0, 2);
    add_edge(&d, 0, 2);
    for (uint32_t k = 0; k < out_of; k++) add_edge(&d, 2, 3);
    list.paths = list.listed = 1;
    list.edges[0] = 0;
    list.lengths[0] = 1;
    for (uint32_t k = 1; k < listed; k++) {
        list.edges[list.listed++] = 1 + k % into;
        list.edges[list.listed++] = into + 3 + k;
        list.lengths[list.paths++] = 2;
    }
}

/* Hubs one after the other, joined by `width` parallel edges; each path takes three of them. */
static void row_of_hubs(uint32_t hubs, uint32_t width, size_t paths)
{
    start_design(&d, hubs + 1);
    for (uint32_t v = 0; v < hubs; v++)
        for (uint32_t k = 0; k < width; k++) add_edge(&d, v, v + 1);
    list.paths = list.listed = 0;
    while (list.paths < paths) {
        uint32_t v = below(hubs - 2);
        for (uint32_t k = 0; k < 3; k++) list.edges[list.listed++] = (v + k) * width + below(width);
        list.lengths[list.paths++] = 3;
    }
}

/* A row of nodes joined by two edges each; paths of `length` edges, mostly along the first ones. */
static void long_paths(uint32_t nodes, size_t paths, size_t length)
{
    start_design(&d, nodes);
    for (uint32_t v = 0; v + 1 < nodes; v++)
        for (uint32_t k = 0; k < 2; k++) add_edge(&d, v, v + 1);
    list.paths = list.listed = 0;
    while (list.paths < paths) {
        uint32_t v = length < nodes - 1 ? below((uint32_t)(nodes - length)) : 0;
        for (uint32_t k = 0; k < length; k++) list.edges[list.listed++] = 2 * (v + k) + (below(200) == 0);
        list.lengths[list.paths++] = (uint32_t)length;
    }
}

static void on_design(const char *name)
{
    words[0] = words_needed(&d, &list, NULL);
    measure(name, do_design);
}

static void on_deck(const char *name)
{
    deck_length = pack_deck(deck, &d, &list);
    measure(name, do_deck);
}

static void make_earlier(const path_list *l)
{
    if (remove_list(&REFERENCE, l, NULL, &earlier, words_needed(&d, l, NULL)) < 0) {
        printf("the earlier graph was refused\n");
        exit(1);
    }
}

/* Every call at about the largest size of a deck. */
static void deck_size(void)
{
    random_design(&d, 200, 320, 12);
    mark_every(&d, 8);
    random_paths(&list, &d, 60, 5);
    on_design("deck size: 200 nodes, 320 edges, 60 paths");
    measure("its size", tell_design);
    on_deck("as a deck");
    make_earlier(&list);
    measure("its times", do_times);
    allowed = 1000000000;
    measure("late or not: never", do_late);
    allowed = 0;
    measure("late or not: early", do_late);
    allowed = 1000000;
    words[0] = words_needed(&d, &list, &earlier);
    measure("the same list removed from that graph", do_graph);
}

static void deck_sizes(void)
{
    hub(2, 2, 1);
    on_deck("deck of 4 edges");
    random_design(&d, 60, 150, 10);
    random_paths(&list, &d, 20, 4);
    on_deck("deck of 150 edges, 20 paths");
    random_design(&d, 150, 450, 12);
    random_paths(&list, &d, 40, 5);
    on_deck("deck of 450 edges, 40 paths");
    make_earlier(&list);
    measure("of that, packing the graph", do_write);
    mark_every(&d, 8);
    on_deck("that deck, every eighth node marked");
    start_design(&d, 2);
    list.paths = list.listed = 0;
    while (d.m < 1000) add_edge(&d, 0, 1);
    on_deck("deck of 1,000 parallel edges, no path");
}

static void full_limits(void)
{
    random_design(&d, 4096, 16384, 64);
    random_paths(&list, &d, 0, 8);
    on_design("4,096 nodes, 16,384 edges, no path");
    random_paths(&list, &d, 1024, 8);
    on_design("the same, 1,024 paths of 8");
    make_earlier(&list);
    measure("times of that graph", do_times);
    mark_every(&d, 8);
    on_design("the same, every eighth node marked");
    make_earlier(&list);
    measure("times of that graph", do_times);
    random_design(&d, 4096, 16384, 4000);
    random_paths(&list, &d, 1024, 8);
    on_design("full limits, edges of any span");
    list.edges[list.listed - 1] = 0;            /* starts at node 0, where no edge ends */
    on_design("the same, its last path broken at its end");
}

static void hubs(void)
{
    hub(1820, 51, 35);
    on_design("hub: 1,820 edges in, 51 out, 35 paths");
    hub(60, 1100, 1024);
    on_design("hub: 60 edges in, 1,100 out, 1,024 paths");
    hub(8000, 1024, 1024);
    on_design("hub: 8,000 edges in, 1,024 paths (34)");
    cut_off_hub(9000, 1100, 1024);
    on_design("hub: 9,000 edges in that are cut off");
    row_of_hubs(200, 20, 1000);
    on_design("200 hubs of 20 edges, 1,000 paths of 3");
    row_of_hubs(16, 100, 300);
    on_design("16 hubs of 100 edges, 300 paths of 3");
}

static void long_ones(void)
{
    long_paths(4096, 2, 4095);
    on_design("4,096 in a row, 2 paths of 4,095");
    long_paths(4096, 8, 1024);
    on_design("4,096 in a row, 8 paths of 1,024");
    long_paths(1025, 8, 1024);
    on_design("1,025 in a row, 8 paths of 1,024");
    long_paths(4096, 128, 64);
    on_design("4,096 in a row, 128 paths of 64");
}

static void from_earlier(void)
{
    random_design(&d, 4096, 16000, 64);
    random_paths(&lists[0], &d, 880, 8);
    make_earlier(&lists[0]);
    char name[80];
    snprintf(name, sizeof name, "earlier graph of %zu copies, ", earlier.copies);
    size_t end = strlen(name);
    for (size_t paths = 0; paths <= 512; paths = paths ? 8 * paths : 8) {
        snprintf(name + end, sizeof name - end, "%zu paths of 4", paths);
        random_paths(&list, &d, paths, 4);
        words[0] = words_needed(&d, &list, &earlier);
        measure(name, do_graph);
    }
    measure("times of that graph", do_times);
    mark_every(&d, 8);
    make_earlier(&lists[0]);
    words[0] = words_needed(&d, &list, &earlier);
    measure("512 paths again, every eighth node marked", do_graph);
    measure("times of that graph", do_times);
}

static void series(void)
{
    random_design(&d, 4096, 12000, 64);
    for (size_t k = 0; k < SERIES; k++) {
        random_paths(&lists[k], &d, 32, 8);
        words[k] = words_needed(&d, &lists[k], k ? &rooms[0][(k - 1) % 2] : NULL);
        if (remove_list(&REFERENCE, &lists[k], k ? &rooms[0][(k - 1) % 2] : NULL, &rooms[0][k % 2], words[k]) < 0) exit(1);
    }
    measure("series of 32 removals, 32 paths of 8 each", do_series);
}

/* The library with the list before this one, and with this one. */
static path_list shorter;
static size_t shorter_words;

static int64_t do_grown(int which)
{
    return which ? remove_list(&LIBRARY, &list, NULL, &rooms[1][0], words[0])
                 : remove_list(&LIBRARY, &shorter, NULL, &rooms[1][0], shorter_words);
}

static void grown(const char *table, size_t paths)
{
    char name[80];
    words[0] = words_needed(&d, &list, NULL);
    snprintf(name, sizeof name, "%s, %zu paths", table, paths);
    measure(name, do_design);
    if (shorter_words > 0 && !differ) {
        double least[2];
        compare(do_grown, MOST_GROWTH, 0, least);
        double growth = ratio_of(least, 0);
        printf("%-44s cost grows by %.2f%s\n", "", growth, growth > MOST_GROWTH ? "  *" : "");
        if (growth > worst_growth) worst_growth = growth;
        if (growth > MOST_GROWTH) note_above(name, "growth", growth);
    }
    shorter = list;
    shorter_words = words[0];
}

static void growth(void)
{
    random_design(&d, 4096, 16384, 64);
    printf("\nThe list doubles (4,096 nodes, 16,384 edges, paths of 8; at one hub, 60 edges in, 1,100 out; 4,096 in a row, paths of 8):\n");
    shorter_words = 0;
    for (size_t paths = 16; paths <= 1024; paths *= 2) {
        random_paths(&list, &d, paths, 8);
        grown("full limits", paths);
    }
    shorter_words = 0;
    for (uint32_t paths = 16; paths <= 1024; paths *= 2) {
        hub(60, 1100, paths);
        grown("one hub", paths);
    }
    shorter_words = 0;
    for (size_t paths = 16; paths <= 1024; paths *= 2) {
        long_paths(4096, paths, 8);
        grown("in a row", paths);
    }
}

/* A removal, told and then filled. Where it is refused, filling fills nothing, and both do the same. */
static void told_and_filled(const char *name, const graph *old)
{
    char line[80];
    double told[2];
    words[0] = words_needed(&d, &list, old);
    snprintf(line, sizeof line, "told: %s", name);
    measure(line, old ? tell_graph : tell_design);
    memcpy(told, best, sizeof told);
    measure("filled", old ? do_graph : do_design);
    if (differ) return;
    printf("%-44s %-28s %11.2f %11.2f\n", "", "telling / filling", told[0] / best[0], told[1] / best[1]);
    if (answers[1] >= 0 && told[1] / best[1] > worst_telling) worst_telling = told[1] / best[1];
}

static void telling(void)
{
    printf("\nA removal is told, and filled:\n");
    random_design(&d, 60, 150, 10);
    random_paths(&list, &d, 20, 4);
    told_and_filled("60 nodes, 150 edges, 20 paths", NULL);
    random_design(&d, 4096, 16384, 64);
    random_paths(&list, &d, 0, 8);
    told_and_filled("4,096 nodes, 16,384 edges, no path", NULL);
    random_paths(&list, &d, 1024, 8);
    told_and_filled("the same, 1,024 paths of 8", NULL);
    hub(60, 1100, 1024);
    told_and_filled("hub: 60 in, 1,100 out, 1,024 paths", NULL);
    hub(1820, 51, 35);
    told_and_filled("hub: 1,820 in, 51 out, 35 paths", NULL);
    hub(8000, 1024, 1024);
    told_and_filled("hub: 8,000 in, 1,024 paths (34)", NULL);
    long_paths(4096, 8, 1024);
    told_and_filled("4,096 in a row, 8 paths of 1,024", NULL);
    random_design(&d, 4096, 16000, 64);
    random_paths(&lists[0], &d, 880, 8);
    make_earlier(&lists[0]);
    for (size_t paths = 0; paths <= 512; paths = paths ? 8 * paths : 8) {
        char name[80];
        snprintf(name, sizeof name, "%zu copies, %zu paths of 4", earlier.copies, paths);
        random_paths(&list, &d, paths, 4);
        told_and_filled(name, &earlier);
    }
    full_graph(&d, &earlier);
    random_paths(&list, &d, 1024, 1);
    told_and_filled("16,384 copies, 1,024 paths of 1", &earlier);
    random_paths(&list, &d, 1024, 8);
    told_and_filled("16,384 copies, 1,024 paths of 8 (33)", &earlier);
}

/* Whether the earlier graph is late at such an allowed time, and all its times. */
static void late_and_times(const char *name, uint32_t allowed_time)
{
    char line[80];
    double asked[2];
    allowed = allowed_time;
    snprintf(line, sizeof line, "late: %zu copies, %s", earlier.copies, name);
    measure(line, do_late);
    memcpy(asked, best, sizeof asked);
    measure("all times", do_times);
    if (differ) return;
    printf("%-44s %-28s %11.2f %11.2f\n", "", "late / all times", asked[0] / best[0], asked[1] / best[1]);
    if (asked[1] / best[1] > worst_late) worst_late = asked[1] / best[1];
}

/* Delays are below 0 as often as above, so that at 0 one of the first marked nodes is late. Without marked nodes there is one endpoint, the
 * last copy. */
static void late_or_not(void)
{
    printf("\nA graph is late or not, and has times:\n");
    random_design(&d, 4096, 16384, 64);
    random_paths(&list, &d, 1024, 8);
    make_earlier(&list);
    late_and_times("never", 1000000000);
    mark_every(&d, 8);
    make_earlier(&list);
    late_and_times("marked, never", 1000000000);
    late_and_times("marked, early", 0);
}

static void packing(void)
{
    full_graph(&d, &earlier);
    printf("\nA graph is packed:\n");
    measure("16,384 copies, 65,536 edges", do_write);
}

int main(int count, char **arguments)
{
    if (count == 3 && strcmp(arguments[1], "--limit") == 0) limit = strtod(arguments[2], NULL);
    if ((count != 1 && count != 3) || limit <= 0) {
        fprintf(stderr, "bench [--limit RATIO]\n");
        return 2;
    }
    scratch = calloc(MOST_WORDS, sizeof *scratch);
    if (scratch == NULL) return 1;
    printf("%-44s %-28s %11s %11s %7s\n", "work", "result", "C, us", "library, us", "ratio");
    deck_size();
    deck_sizes();
    full_limits();
    hubs();
    long_ones();
    from_earlier();
    series();
    growth();
    packing();
    telling();
    late_or_not();
    printf("\ntelling takes at most %.2f of filling, by the library, where something is filled", worst_telling);
    printf("\nlate or not takes at most %.2f of all times, by the library", worst_late);
    printf("\nthe cost grows by at most %.2f as the list doubles", worst_growth);
    printf("\nlargest ratio %.2f (* marks those above 1.25); slowest call %.1f ms\n", worst_ratio, 1e3 * slowest);
    free(scratch);
    if (limit > 1e8) return differ;
    if (above) printf("above the limit of %.2f, or of %.1f for growth:\n%s", limit, MOST_GROWTH, names_above);
    else if (!differ) printf("no ratio is above %.2f, and no growth above %.1f\n", limit, MOST_GROWTH);
    return differ || above;
}
