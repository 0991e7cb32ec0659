/* Makes the calls of jaqhweni.h that standard input asks for, and writes each answer and all that was lent to be written.
 *
 *     c_runner [exact] < requests > answers
 *
 * A request is 32-bit words, lowest byte first: which call, and its arguments in order. A number is a word; a slice that is only read is
 * its length and its elements (bytes are padded to a whole word); a slice to be written is its length. Calls: 0 true_graph, 1
 * remove_from_design, 2 remove_from_graph, 3 times, 4 write_graph, 5 size_from_design, 6 size_from_graph, 9 late. 7 and 8 are 5 and 6 and
 * then, with the same scratch, the removal into a room of just the told lengths: the removal's answer, or, where telling is refused,
 * that refusal.
 *
 * Before the call, a slice to be written is set to a pattern: byte k is 37 k + 11; word k of the j-th such slice is 3,000,000,000 +
 * 100,000,000 j + k mod 65,536; time k of the j-th is -1,000,000,000,000 (j + 1) - k. The answer is the 64-bit number that was returned,
 * the slices to be written, and one word: 0, or 1 if a byte beside some slice changed, 2 if a slice that is only read did, or both.
 *
 * Each slice stands by itself between guard bytes; with `exact` it is an allocation of just its size, so that valgrind sees every access
 * outside. */
#include "jaqhweni.h"

#include <stdio.h>
#include <stdlib.h>
#include <string.h>

enum { GUARD_BYTES = 256, GUARD = 0xE7, MOST_SLICES = 24 };

typedef struct {
    unsigned char *block, *copy;        /* copy: what a slice that is only read held before */
    size_t bytes, length;
    int written;
} lent;

static size_t guard = GUARD_BYTES;
static unsigned char *input;
static size_t input_size, input_at;
static lent slices[MOST_SLICES];
static size_t slice_count, written_count;

static void *or_stop(void *block)
{
    if (block == NULL) {
        fprintf(stderr, "c_runner: out of memory\n");
        exit(2);
    }
    return block;
}

static void read_input(void)
{
    size_t room = 1 << 20, got;
    input = or_stop(malloc(room));
    while ((got = fread(input + input_size, 1, room - input_size, stdin)) > 0) {
        input_size += got;
        if (input_size == room) input = or_stop(realloc(input, room *= 2));
    }
}

static uint32_t word(void)
{
    if (input_size - input_at < 4) {
        fprintf(stderr, "c_runner: a request ends early\n");
        exit(2);
    }
    const unsigned char *at = input + input_at;
    input_at += 4;
    return at[0] | (uint32_t)at[1] << 8 | (uint32_t)at[2] << 16 | (uint32_t)at[3] << 24;
}

static lent *lend(size_t length, size_t element, int written)
{
    lent *s = &slices[slice_count++];
    s->length = length;
    s->bytes = length * element;
    s->written = written;
    s->copy = NULL;
    size_t size = s->bytes + 2 * guard;
    s->block = or_stop(malloc(size > 0 ? size : 1));
    memset(s->block, GUARD, guard);
    memset(s->block + guard + s->bytes, GUARD, guard);
    return s;
}

static void *data_of(const lent *s)
{
    return s->block + guard;
}

static lent *read_slice(size_t element)
{
    lent *s = lend(word(), element, 0);
    if (input_size - input_at < s->bytes) {
        fprintf(stderr, "c_runner: a slice ends early\n");
        exit(2);
    }
    memcpy(data_of(s), input + input_at, s->bytes);     /* a little-endian machine */
    s->copy = input + input_at;
    input_at += (s->bytes + 3) / 4 * 4;
    return s;
}

static lent *byte_room(void)
{
    lent *s = lend(word(), 1, 1);
    uint8_t *bytes = data_of(s);
    for (size_t k = 0; k < s->length; k++) bytes[k] = (uint8_t)(37 * k + 11);
    return s;
}

static lent *word_room_of(size_t length)
{
    lent *s = lend(length, 4, 1);
    uint32_t *words = data_of(s);
    for (size_t k = 0; k < s->length; k++) words[k] = (uint32_t)(3000000000u + 100000000u * written_count + k % 65536);
    written_count++;
    return s;
}

static lent *word_room(void)
{
    return word_room_of(word());
}

static lent *time_room(void)
{
    lent *s = lend(word(), 8, 1);
    int64_t *times = data_of(s);
    for (size_t k = 0; k < s->length; k++) times[k] = -1000000000000 * (int64_t)(written_count + 1) - (int64_t)k;
    written_count++;
    return s;
}

#define SLICE(s) data_of(s), (s)->length

/* Calls 5 to 8. */
static int64_t tell(int from_graph, int then_fill)
{
    uint32_t n = word();
    lent *starts = read_slice(4), *ends = read_slice(4), *early = read_slice(4), *late = read_slice(4), *marked = read_slice(4);
    lent *listed = read_slice(4), *lengths = read_slice(4);
    lent *nodes = NULL, *endpoint = NULL, *from = NULL, *to = NULL, *via = NULL;
    if (from_graph) nodes = read_slice(4), endpoint = read_slice(4), from = read_slice(4), to = read_slice(4), via = read_slice(4);
    lent *scratch = word_room();
    int64_t told = from_graph
        ? jaqhweni_size_from_graph(n, SLICE(starts), SLICE(ends), SLICE(early), SLICE(late), SLICE(marked), SLICE(listed), SLICE(lengths),
                                   SLICE(nodes), SLICE(endpoint), SLICE(from), SLICE(to), SLICE(via), SLICE(scratch))
        : jaqhweni_size_from_design(n, SLICE(starts), SLICE(ends), SLICE(early), SLICE(late), SLICE(marked), SLICE(listed), SLICE(lengths),
                                    SLICE(scratch));
    if (!then_fill || told < 0) return told;
    size_t copies = (uint32_t)told, edges = (size_t)(told >> 32);
    lent *room_nodes = word_room_of(copies), *room_endpoint = word_room_of(copies);
    lent *room_from = word_room_of(edges), *room_to = word_room_of(edges), *room_via = word_room_of(edges);
    return from_graph
        ? jaqhweni_remove_from_graph(n, SLICE(starts), SLICE(ends), SLICE(early), SLICE(late), SLICE(marked), SLICE(listed), SLICE(lengths),
                                     SLICE(nodes), SLICE(endpoint), SLICE(from), SLICE(to), SLICE(via), SLICE(room_nodes),
                                     SLICE(room_endpoint), SLICE(room_from), SLICE(room_to), SLICE(room_via), SLICE(scratch))
        : jaqhweni_remove_from_design(n, SLICE(starts), SLICE(ends), SLICE(early), SLICE(late), SLICE(marked), SLICE(listed),
                                      SLICE(lengths), SLICE(room_nodes), SLICE(room_endpoint), SLICE(room_from), SLICE(room_to),
                                      SLICE(room_via), SLICE(scratch));
}

static int64_t call(void)
{
    uint32_t which = word();
    switch (which) {
    case 0: {
        lent *deck = read_slice(1), *room = byte_room();
        return jaqhweni_true_graph(SLICE(deck), SLICE(room));
    }
    case 1: {
        uint32_t n = word();
        lent *starts = read_slice(4), *ends = read_slice(4), *early = read_slice(4), *late = read_slice(4), *marked = read_slice(4);
        lent *listed = read_slice(4), *lengths = read_slice(4);
        lent *room_nodes = word_room(), *room_endpoint = word_room();
        lent *room_from = word_room(), *room_to = word_room(), *room_via = word_room(), *scratch = word_room();
        return jaqhweni_remove_from_design(n, SLICE(starts), SLICE(ends), SLICE(early), SLICE(late), SLICE(marked), SLICE(listed),
                                           SLICE(lengths), SLICE(room_nodes), SLICE(room_endpoint), SLICE(room_from), SLICE(room_to),
                                           SLICE(room_via), SLICE(scratch));
    }
    case 2: {
        uint32_t n = word();
        lent *starts = read_slice(4), *ends = read_slice(4), *early = read_slice(4), *late = read_slice(4), *marked = read_slice(4);
        lent *listed = read_slice(4), *lengths = read_slice(4);
        lent *nodes = read_slice(4), *endpoint = read_slice(4), *from = read_slice(4), *to = read_slice(4), *via = read_slice(4);
        lent *room_nodes = word_room(), *room_endpoint = word_room();
        lent *room_from = word_room(), *room_to = word_room(), *room_via = word_room(), *scratch = word_room();
        return jaqhweni_remove_from_graph(n, SLICE(starts), SLICE(ends), SLICE(early), SLICE(late), SLICE(marked), SLICE(listed),
                                          SLICE(lengths), SLICE(nodes), SLICE(endpoint), SLICE(from), SLICE(to), SLICE(via),
                                          SLICE(room_nodes), SLICE(room_endpoint), SLICE(room_from), SLICE(room_to), SLICE(room_via),
                                          SLICE(scratch));
    }
    case 3: case 9: {
        uint32_t n = word();
        lent *starts = read_slice(4), *ends = read_slice(4), *early = read_slice(4), *late = read_slice(4), *marked = read_slice(4);
        uint32_t allowed = word();
        lent *nodes = read_slice(4), *endpoint = read_slice(4), *from = read_slice(4), *to = read_slice(4), *via = read_slice(4);
        lent *arrivals = time_room();
        if (which == 9)
            return jaqhweni_late(n, SLICE(starts), SLICE(ends), SLICE(early), SLICE(late), SLICE(marked), allowed, SLICE(nodes),
                                 SLICE(endpoint), SLICE(from), SLICE(to), SLICE(via), SLICE(arrivals));
        lent *requireds = time_room(), *slacks = time_room(), *earliests = time_room();
        return jaqhweni_times(n, SLICE(starts), SLICE(ends), SLICE(early), SLICE(late), SLICE(marked), allowed, SLICE(nodes),
                              SLICE(endpoint), SLICE(from), SLICE(to), SLICE(via), SLICE(arrivals), SLICE(requireds), SLICE(slacks),
                              SLICE(earliests));
    }
    case 4: {
        lent *nodes = read_slice(4), *endpoint = read_slice(4), *from = read_slice(4), *to = read_slice(4), *via = read_slice(4);
        lent *room = byte_room();
        return jaqhweni_write_graph(SLICE(nodes), SLICE(endpoint), SLICE(from), SLICE(to), SLICE(via), SLICE(room));
    }
    case 5: case 6: case 7: case 8:
        return tell(which % 2 == 0, which > 6);
    default:
        fprintf(stderr, "c_runner: no such call\n");
        exit(2);
    }
}

static int guards_changed(const lent *s)
{
    for (size_t k = 0; k < guard; k++)
        if (s->block[k] != GUARD || s->block[guard + s->bytes + k] != GUARD) return 1;
    return 0;
}

static void answer(int64_t number)
{
    uint32_t changed = 0;
    fwrite(&number, sizeof number, 1, stdout);
    for (size_t k = 0; k < slice_count; k++) {
        lent *s = &slices[k];
        if (s->written) fwrite(data_of(s), 1, s->bytes, stdout);
        else if (memcmp(data_of(s), s->copy, s->bytes) != 0) changed |= 2;
        if (guards_changed(s)) changed |= 1;
        free(s->block);
    }
    fwrite(&changed, sizeof changed, 1, stdout);
    slice_count = written_count = 0;
}

int main(int count, char **arguments)
{
    if (count > 1 && strcmp(arguments[1], "exact") == 0) guard = 0;
    read_input();
    while (input_at < input_size) answer(call());
    free(input);
    return fflush(stdout) == 0 ? 0 : 2;
}
