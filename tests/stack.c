/* How much stack each call of jaqhweni.h takes, against what the header promises.
 *
 *     tests/stack            builds and runs this
 *     stack [BYTES]          with BYTES, every call is held to so many instead: a try of the test itself
 *
 * A call is made on a thread whose stack was painted before. Afterwards the lowest byte that has lost the paint says how deep the call went
 * below the frame that made it. Inputs are as large as the limits allow, and every node is marked, so that every pass is made; each must be
 * answered as said here.
 * Prints a line for each, and ends with status 1 where a call took more than it may, or answered something else. */
#define _POSIX_C_SOURCE 200112L
#include "../bench/inputs.h"

#include <pthread.h>
#include <stdio.h>
#include <stdlib.h>
#include <string.h>

enum { STACK_BYTES = 1 << 23, PAINT = 0xA5, MOST_WORDS = 1 << 22 };

static design d;
static path_list list;
static graph earlier, room;
static size_t words;
static uint32_t *scratch;
static int64_t times[4][ROOM_COPIES];
static uint8_t deck[JAQHWENI_MAX_DECK_BYTES], packed[ROOM_BYTES];
static size_t deck_length;

/* ---- Calls ------------------------------------------------------------------------------------------------------------------- */

static int64_t of_deck(void)
{
    return jaqhweni_true_graph(deck, deck_length, packed, sizeof packed);
}

static int64_t from_design(void)
{
    return jaqhweni_remove_from_design(d.n, d.starts, d.m, d.ends, d.m, d.early, d.m, d.late, d.m, d.marked, d.marked_nodes, list.edges,
                                       list.listed, list.lengths, list.paths, room.nodes, ROOM_COPIES, room.endpoint, ROOM_COPIES,
                                       room.from, ROOM_EDGES, room.to, ROOM_EDGES, room.via, ROOM_EDGES, scratch, words);
}

static int64_t from_graph(void)
{
    return jaqhweni_remove_from_graph(d.n, d.starts, d.m, d.ends, d.m, d.early, d.m, d.late, d.m, d.marked, d.marked_nodes, list.edges,
                                      list.listed, list.lengths, list.paths, earlier.nodes, earlier.copies, earlier.endpoint,
                                      earlier.copies, earlier.from, earlier.edges, earlier.to, earlier.edges, earlier.via, earlier.edges,
                                      room.nodes, ROOM_COPIES, room.endpoint, ROOM_COPIES, room.from, ROOM_EDGES, room.to, ROOM_EDGES,
                                      room.via, ROOM_EDGES, scratch, words);
}

static int64_t size_of_design(void)
{
    return jaqhweni_size_from_design(d.n, d.starts, d.m, d.ends, d.m, d.early, d.m, d.late, d.m, d.marked, d.marked_nodes, list.edges,
                                     list.listed, list.lengths, list.paths, scratch, words);
}

static int64_t size_of_graph(void)
{
    return jaqhweni_size_from_graph(d.n, d.starts, d.m, d.ends, d.m, d.early, d.m, d.late, d.m, d.marked, d.marked_nodes, list.edges,
                                    list.listed, list.lengths, list.paths, earlier.nodes, earlier.copies, earlier.endpoint, earlier.copies,
                                    earlier.from, earlier.edges, earlier.to, earlier.edges, earlier.via, earlier.edges, scratch, words);
}

static int64_t of_times(void)
{
    return jaqhweni_times(d.n, d.starts, d.m, d.ends, d.m, d.early, d.m, d.late, d.m, d.marked, d.marked_nodes, 1000000, earlier.nodes,
                          earlier.copies, earlier.endpoint, earlier.copies, earlier.from, earlier.edges, earlier.to, earlier.edges,
                          earlier.via, earlier.edges, times[0], earlier.copies, times[1], earlier.copies, times[2], earlier.copies,
                          times[3], earlier.copies);
}

/* Nothing is late, so that the pass goes over all copies. */
static int64_t of_late(void)
{
    return jaqhweni_late(d.n, d.starts, d.m, d.ends, d.m, d.early, d.m, d.late, d.m, d.marked, d.marked_nodes, 1000000000, earlier.nodes,
                         earlier.copies, earlier.endpoint, earlier.copies, earlier.from, earlier.edges, earlier.to, earlier.edges,
                         earlier.via, earlier.edges, times[0], earlier.copies);
}

static int64_t of_writing(void)
{
    return jaqhweni_write_graph(earlier.nodes, earlier.copies, earlier.endpoint, earlier.copies, earlier.from, earlier.edges, earlier.to,
                                earlier.edges, earlier.via, earlier.edges, packed, sizeof packed);
}

typedef struct {
    const char *name;
    int64_t (*make)(void);
    size_t promised;
} call;

static const call TRUE_GRAPH = {"true_graph", of_deck, JAQHWENI_STACK_TRUE_GRAPH};
static const call REMOVE_FROM_DESIGN = {"remove_from_design", from_design, JAQHWENI_STACK_REMOVE_FROM_DESIGN};
static const call REMOVE_FROM_GRAPH = {"remove_from_graph", from_graph, JAQHWENI_STACK_REMOVE_FROM_GRAPH};
static const call SIZE_FROM_DESIGN = {"size_from_design", size_of_design, JAQHWENI_STACK_SIZE_FROM_DESIGN};
static const call SIZE_FROM_GRAPH = {"size_from_graph", size_of_graph, JAQHWENI_STACK_SIZE_FROM_GRAPH};
static const call TIMES = {"times", of_times, JAQHWENI_STACK_TIMES};
static const call LATE = {"late", of_late, JAQHWENI_STACK_LATE};
static const call WRITE_GRAPH = {"write_graph", of_writing, JAQHWENI_STACK_WRITE_GRAPH};

/* ---- Stack ------------------------------------------------------------------------------------------------------------------- */

typedef struct {
    int64_t (*make)(void);
    int64_t answer;
    uintptr_t frame;
} made;

static void *on_thread(void *given)
{
    made *m = given;
    m->frame = (uintptr_t)__builtin_frame_address(0);
    m->answer = m->make();
    return NULL;
}

static int over;                    /* calls that took more than they may, or answered something else */
static size_t held_to;

static void stop(const char *what)
{
    fprintf(stderr, "stack: %s\n", what);
    exit(2);
}

/* `refused`: the number of the refusal that must come, or 0. */
static int64_t measure(const call *c, const char *input, int refused)
{
    static unsigned char *stack;
    pthread_attr_t attributes;
    pthread_t thread;
    made m = {c->make, 0, 0};
    if (words > MOST_WORDS) stop("the scratch is too short");
    size_t promised = held_to ? held_to : c->promised, clean = 0;
    if (stack == NULL && posix_memalign((void **)&stack, 1 << 16, STACK_BYTES) != 0) stop("out of memory");
    memset(stack, PAINT, STACK_BYTES);
    if (pthread_attr_init(&attributes) != 0 || pthread_attr_setstack(&attributes, stack, STACK_BYTES) != 0
        || pthread_create(&thread, &attributes, on_thread, &m) != 0 || pthread_join(thread, NULL) != 0)
        stop("no thread");
    pthread_attr_destroy(&attributes);
    while (clean < STACK_BYTES && stack[clean] == PAINT) clean++;
    size_t taken = m.frame - (uintptr_t)(stack + clean);
    int answered = m.answer < 0 ? (int)(-m.answer % 256) : 0;
    int bad = taken > promised || answered != refused;
    over += bad;
    printf("%-20s %-46s refusal %2d  stack %6zu of %6zu%s\n", c->name, input, answered, taken, promised, bad ? "  FAILED" : "");
    return m.answer;
}

/* ---- Inputs ------------------------------------------------------------------------------------------------------------------ */

static void decks(void)
{
    random_design(&d, 180, 800, 12);
    mark_every(&d, 1);
    random_paths(&list, &d, 60, 5);
    deck_length = pack_deck(deck, &d, &list);
    measure(&TRUE_GRAPH, "800 edges, 60 paths of 5", 0);
    random_design(&d, 1000, 1024, 12);
    mark_every(&d, 1);
    random_paths(&list, &d, 256, 4);
    deck_length = pack_deck(deck, &d, &list);
    measure(&TRUE_GRAPH, "1,024 edges, 256 paths of 4", 31);
    memset(deck + deck_length, 0, sizeof deck - deck_length);
    deck_length = JAQHWENI_MAX_DECK_BYTES;
    measure(&TRUE_GRAPH, "the same and zeros up to 65,536 bytes", 3);
    for (size_t e = 0; e < d.m; e++) d.starts[e] = UINT32_MAX;
    deck_length = pack_deck(deck, &d, &list);
    measure(&TRUE_GRAPH, "numbers of five bytes", 12);
}

/* A removal, told first: the answers must be the same. */
static int64_t told_and_removed(const call *tell, const call *remove, const char *input, int refused)
{
    int64_t told = measure(tell, input, refused), answer = measure(remove, input, refused);
    if (told != answer) {
        printf("%s told another answer than %s gave  FAILED\n", tell->name, remove->name);
        over++;
    }
    return answer;
}

static int64_t on_design(const char *input, int refused)
{
    words = words_needed(&d, &list, NULL);
    return told_and_removed(&SIZE_FROM_DESIGN, &REMOVE_FROM_DESIGN, input, refused);
}

static void on_graph(const char *input, int refused)
{
    words = words_needed(&d, &list, &earlier);
    told_and_removed(&SIZE_FROM_GRAPH, &REMOVE_FROM_GRAPH, input, refused);
}

/* The lists are of the largest size, and random, so that there are many marks; where the earlier graph is the largest, so many that the
 * result would have more copies than a graph may: then a list of single edges is what can be written. */
static void removals(void)
{
    random_design(&d, JAQHWENI_MAX_NODES, JAQHWENI_MAX_EDGES, 64);
    mark_every(&d, 1);
    random_paths(&list, &d, 0, 8);
    int64_t answer = on_design("4,096 nodes, 16,384 edges, no path", 0);
    earlier = room;
    earlier.copies = (uint32_t)answer;
    earlier.edges = (size_t)(answer >> 32);
    random_paths(&list, &d, JAQHWENI_MAX_PATHS, 8);
    on_design("the same, 1,024 paths of 8", 0);
    on_graph("4,096 copies, 16,384 edges, 1,024 paths of 8", 0);
    full_graph(&d, &earlier);
    random_paths(&list, &d, JAQHWENI_MAX_PATHS, 8);
    on_graph("16,384 copies, 65,536 edges, 1,024 paths of 8", 33);
    random_paths(&list, &d, JAQHWENI_MAX_PATHS, 1);
    on_graph("16,384 copies, 65,536 edges, 1,024 paths of 1", 0);
}

int main(int count, char **arguments)
{
    held_to = count > 1 ? strtoul(arguments[1], NULL, 10) : 0;
    scratch = calloc(MOST_WORDS, sizeof *scratch);
    if (scratch == NULL) stop("out of memory");
    decks();
    removals();
    measure(&TIMES, "16,384 copies, 65,536 edges", 0);
    if (measure(&LATE, "16,384 copies, 65,536 edges", 0) != 0) {
        printf("late answered something other than 0  FAILED\n");
        over++;
    }
    measure(&WRITE_GRAPH, "16,384 copies, 65,536 edges", 0);
    free(scratch);
    return over > 0;
}
