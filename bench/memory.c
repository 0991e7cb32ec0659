/* The memory of a process that holds forty designs at full limits, each with its list, its room and a scratch of its own of just the size
 * that test 31 asks, and makes the true graph of each:
 *
 *     bench/run --memory     builds and runs this
 *
 * Prints what is lent for one design and for all, and the most that the process had resident. */
#define _POSIX_C_SOURCE 200112L
#include "inputs.h"

#include <stdio.h>
#include <stdlib.h>
#include <sys/resource.h>

enum { DESIGNS = 40 };

typedef struct {
    design d;
    path_list list;
    graph room;
    size_t words;
    uint32_t *scratch;
} job;

static void stop(const char *what)
{
    fprintf(stderr, "memory: %s\n", what);
    exit(1);
}

static job *make_job(void)
{
    job *j = calloc(1, sizeof *j);
    if (j == NULL) stop("out of memory");
    random_design(&j->d, JAQHWENI_MAX_NODES, JAQHWENI_MAX_EDGES, 64);
    random_paths(&j->list, &j->d, JAQHWENI_MAX_PATHS, 8);
    j->words = words_needed(&j->d, &j->list, NULL);
    j->scratch = malloc(j->words * sizeof *j->scratch);
    if (j->scratch == NULL) stop("out of memory");
    return j;
}

static int64_t run_job(job *j)
{
    const design *d = &j->d;
    const path_list *l = &j->list;
    graph *r = &j->room;
    return jaqhweni_remove_from_design(d->n, d->starts, d->m, d->ends, d->m, d->early, d->m, d->late, d->m, d->marked, d->marked_nodes,
                                       l->edges, l->listed, l->lengths, l->paths, r->nodes, ROOM_COPIES, r->endpoint, ROOM_COPIES,
                                       r->from, ROOM_EDGES, r->to, ROOM_EDGES, r->via, ROOM_EDGES, j->scratch, j->words);
}

static double mib(double bytes)
{
    return bytes / (1 << 20);
}

int main(void)
{
    static job *jobs[DESIGNS];
    size_t scratch = 0;
    for (int k = 0; k < DESIGNS; k++) {
        jobs[k] = make_job();
        memset(&jobs[k]->room, 1, sizeof jobs[k]->room);        /* a host's room is all there, not only what a result fills */
        scratch += jobs[k]->words * sizeof *jobs[k]->scratch;
        if (run_job(jobs[k]) < 0) stop("refused");
    }
    struct rusage used;
    if (getrusage(RUSAGE_SELF, &used) != 0) stop("no figures");
    printf("%d words a unit: scratch of one design %.2f MiB, of %d %.1f MiB; designs, lists and rooms %.1f MiB; resident at most %.1f MiB\n",
           JAQHWENI_WORDS_PER_UNIT, mib((double)scratch / DESIGNS), DESIGNS, mib((double)scratch), mib((double)DESIGNS * sizeof(job)),
           mib(1024.0 * (double)used.ru_maxrss));
    for (int k = 0; k < DESIGNS; k++) {
        free(jobs[k]->scratch);
        free(jobs[k]);
    }
    return 0;
}
