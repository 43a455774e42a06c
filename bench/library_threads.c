/*
 * Threads on one shared engine, for bench/library_threads.
 *
 *     library_threads WAY THREADS CALLS [ACCOUNTS]
 *
 * THREADS threads make CALLS calls of SmallBank's procedures, over 4 accounts or as many as are given. WAY is `alone` (sgt_run on an engine
 * without a lock, by one thread), `run` (sgt_shared_run) or `steps` (each event a call, in a shared engine; what aborts is started again).
 * It prints how many calls were carried out each second, the nanoseconds of processor time for each, and how many attempts of `run` were
 * aborted for each 1,000 calls.
 */
#include <pthread.h>
#include <stdio.h>
#include <stdlib.h>
#include <string.h>
#include <time.h>

#include "sgt_shared.h"

enum { MOST_THREADS = 64, MOST_ACCOUNTS = 10000, ACCOUNT_BYTES = 40, PART = 500000 };

static char opening[MOST_ACCOUNTS * ACCOUNT_BYTES + 100];
static size_t opening_len;
static const size_t takes[] = {1, 2, 2, 2, 2};
static sgt_shared *shared;
static long each, accounts = 4;

struct thread {
    pthread_t id;
    uint64_t drawn;
    /* Attempts of its runs that did not commit. */
    uint64_t aborted;
};

static void must(int holds)
{
    if (!holds) exit(1);
}

static void write_opening(void)
{
    char *at = opening + sprintf(opening, "{\"limits\":[32,4000000000,1],\"accounts\":[");
    for (long name = 0; name < accounts; name++) at += sprintf(at, "%s[%ld,%ld,100000,100000]", name ? "," : "", name, name + 20000);
    at += sprintf(at, "],\"procedures\":[]}");
    opening_len = (size_t)(at - opening);
}

static double seconds(clockid_t clock)
{
    struct timespec at;
    clock_gettime(clock, &at);
    return (double)at.tv_sec + (double)at.tv_nsec / 1e9;
}

static int64_t draw(struct thread *it, int64_t below)
{
    it->drawn = it->drawn * 6364136223846793005u + 1442695040888963407u;
    return (int64_t)((it->drawn >> 33) % (uint64_t)below);
}

static uint16_t draw_call(struct thread *it, int64_t *args)
{
    const uint16_t procedure = (uint16_t)draw(it, 5);
    args[0] = draw(it, accounts);
    args[1] = procedure == 3 ? draw(it, accounts) : 1 + draw(it, 99);
    return procedure;
}

static void *run_alone(void *of)
{
    struct thread *it = of;
    sgt_engine engine = {0};
    sgt_fault fault = {0};
    sgt_reply reply = {0};
    uint64_t entries = 0, live = 0;
    must(sgt_open(&engine, opening, opening_len, &fault) == SGT_OK);
    for (long made = 0; made < each; made++) {
        int64_t args[2];
        uint32_t tid = 0;
        const uint16_t procedure = draw_call(it, args);
        must(sgt_run(&engine, procedure, args, takes[procedure], &tid, &reply) == SGT_OK);
        must(sgt_entries(&engine, &entries) == SGT_OK);
        if (entries >= PART) must(sgt_cut(&engine, &live) == SGT_OK);
    }
    sgt_close(&engine);
    return 0;
}

static void *run_shared(void *of)
{
    struct thread *it = of;
    sgt_shared_outcome outcome = SGT_SHARED_OUTCOME;
    for (long made = 0; made < each; made++) {
        int64_t args[2];
        const uint16_t procedure = draw_call(it, args);
        must(sgt_shared_run(shared, procedure, args, takes[procedure], 0, &outcome) == SGT_OK);
        it->aborted += outcome.tries - 1;
    }
    return 0;
}

/* One transaction, step by step. Whether it is done, and need not be started again. */
static int is_done(uint16_t procedure, const int64_t *args)
{
    sgt_ticket ticket;
    sgt_reply reply = {0};
    must(sgt_shared_start(shared, procedure, args, takes[procedure], SGT_FOREVER, &ticket, &reply) == SGT_OK);
    do {
        const uint32_t status = sgt_shared_step(shared, &ticket, &reply);
        if (status == SGT_STALE) return 0;
        must(status == SGT_OK);
    } while (reply.kind == SGT_LOOKED || reply.kind == SGT_WROTE);
    if (reply.kind != SGT_ENDED) return 0;
    if (sgt_shared_commit(shared, &ticket, SGT_FOREVER, &reply) != SGT_OK) return 0;
    return reply.kind == SGT_COMMITTED || reply.kind == SGT_REFUSED;
}

static void *step_shared(void *of)
{
    struct thread *it = of;
    for (long made = 0; made < each; made++) {
        int64_t args[2];
        const uint16_t procedure = draw_call(it, args);
        while (!is_done(procedure, args)) {}
    }
    return 0;
}

int main(int argc, char **argv)
{
    static struct thread threads[MOST_THREADS];
    if (argc != 4 && argc != 5) return 2;
    const int many = atoi(argv[2]);
    if (argc == 5) accounts = atol(argv[4]);
    if (many < 1 || many > MOST_THREADS || accounts < 1 || accounts > MOST_ACCOUNTS) return 2;
    write_opening();
    each = atol(argv[3]) / many;
    void *(*work)(void *) = strcmp(argv[1], "alone") == 0 ? run_alone : strcmp(argv[1], "run") == 0 ? run_shared : step_shared;
    sgt_fault fault = {0};
    sgt_shared_config config = SGT_SHARED_CONFIG;
    config.cut_after = PART, config.cut_wait_ns = 10000000;
    must(sgt_shared_open(&shared, opening, opening_len, 0, 0, &config, &fault) == SGT_OK);
    const double from = seconds(CLOCK_MONOTONIC), worked = seconds(CLOCK_PROCESS_CPUTIME_ID);
    for (int i = 0; i < many; i++) {
        threads[i].drawn = 20190408u + (unsigned)i;
        must(pthread_create(&threads[i].id, 0, work, &threads[i]) == 0);
    }
    uint64_t aborted = 0;
    for (int i = 0; i < many; i++) {
        pthread_join(threads[i].id, 0);
        aborted += threads[i].aborted;
    }
    const double took = seconds(CLOCK_MONOTONIC) - from, work_time = seconds(CLOCK_PROCESS_CPUTIME_ID) - worked;
    const double made = (double)(each * many);
    printf("%.0f %.0f %.1f\n", made / took, work_time * 1e9 / made, 1e3 * (double)aborted / made);
    return sgt_shared_close(&shared) == SGT_OK ? 0 : 1;
}
