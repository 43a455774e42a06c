/*
 * Threads that come back for the lock of a shared engine at once, for tests/threads.py: each gets its turns.
 *
 *     shared_turns THREADS RUNS
 *
 * Each thread continues until all have made RUNS runs. It prints how many were made in all, and how often threads have slept, as `name
 * count` lines. It stops after ten minutes, with status 1.
 */
#include <pthread.h>
#include <stdatomic.h>
#include <stdbool.h>
#include <stdio.h>
#include <stdlib.h>
#include <sys/resource.h>
#include <time.h>

#include "sgt_shared.h"

enum { MOST_THREADS = 64, LONGEST = 600 };

static const char opening[] = "{\"limits\":[8,4000000000],\"accounts\":[[1,101,500,1000]],\"procedures\":[]}";

static sgt_shared *shared;
static long wanted;
static atomic_int left; /* threads that have not made so many */
static pthread_barrier_t begin;
static struct timespec opened;

struct thread {
    pthread_t id;
    long runs;
};

static void must(bool holds, const char *what)
{
    if (holds) return;
    fprintf(stderr, "%s\n", what);
    exit(1);
}

static bool is_late(void)
{
    struct timespec now;
    clock_gettime(CLOCK_MONOTONIC, &now);
    return now.tv_sec - opened.tv_sec > LONGEST;
}

static void *runs(void *of)
{
    static const int64_t deposit[] = {1, 1};
    struct thread *it = of;
    sgt_shared_outcome outcome = SGT_SHARED_OUTCOME;
    pthread_barrier_wait(&begin);
    while (left > 0) {
        must(sgt_shared_run(shared, 1, deposit, 2, 0, &outcome) == SGT_OK, "a run failed");
        must(outcome.reply.kind == SGT_COMMITTED, "a deposit was not committed");
        left -= ++it->runs == wanted;
        must(it->runs % 16 || !is_late(), "a thread gets no turns");
    }
    return 0;
}

int main(int argc, char **argv)
{
    static struct thread threads[MOST_THREADS];
    const int many = argc == 3 ? atoi(argv[1]) : 0;
    must(many >= 1 && many <= MOST_THREADS, "shared_turns THREADS RUNS");
    wanted = atol(argv[2]), left = many;
    sgt_fault fault = {0};
    must(sgt_shared_open(&shared, opening, sizeof opening - 1, 0, 0, 0, &fault) == SGT_OK, "no engine");
    must(pthread_barrier_init(&begin, 0, (unsigned)many) == 0, "no barrier");
    clock_gettime(CLOCK_MONOTONIC, &opened);
    for (int i = 0; i < many; i++) must(pthread_create(&threads[i].id, 0, runs, &threads[i]) == 0, "no thread");
    long all = 0;
    for (int i = 0; i < many; i++) {
        pthread_join(threads[i].id, 0);
        all += threads[i].runs;
    }
    struct rusage usage;
    must(getrusage(RUSAGE_SELF, &usage) == 0, "no usage");
    printf("runs %ld\nsleeps %ld\n", all, usage.ru_nvcsw);
    pthread_barrier_destroy(&begin);
    return sgt_shared_close(&shared) == SGT_OK ? 0 : 1;
}
