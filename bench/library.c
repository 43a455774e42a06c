/*
 * Events of SmallBank's five procedures on an engine of the library for C, for bench/library.
 *
 *     library EVENTS LIVE ACCOUNTS
 *     library TRANSACTIONS 1 ACCOUNTS ACCESSES
 *
 * LIVE transactions are live at once, and make their events in turn. Which procedure comes next, and on which accounts, is drawn by a
 * generator with a fixed seed. It prints the nanoseconds of processor time for each event, and how many were answered by a commit. With a
 * fourth number, transactions run one after another, and their caller decides ACCESSES accesses of each: reads and writes in turn.
 */
#include <inttypes.h>
#include <stdio.h>
#include <stdlib.h>
#include <string.h>
#include <time.h>

#include "sgt.h"

enum { MOST_LIVE = 32 };

static uint64_t drawn = 20190408;

static int64_t draw(int64_t below)
{
    drawn = drawn * 6364136223846793005u + 1442695040888963407u;
    return (int64_t)((drawn >> 33) % (uint64_t)below);
}

static uint32_t start(sgt_engine *engine, int64_t accounts, sgt_reply *reply)
{
    static const size_t takes[] = {1, 2, 2, 2, 2};
    uint16_t procedure = (uint16_t)draw(5);
    int64_t args[2] = {draw(accounts)};
    args[1] = procedure == 3 ? draw(accounts) : 1 + draw(99);
    return sgt_start(engine, procedure, args, takes[procedure], reply);
}

static char *opening(int64_t accounts)
{
    char *text = malloc(80 + (size_t)accounts * 64), *end = text;
    if (!text) exit(1);
    end += sprintf(end, "{\"limits\":[32,4000000000],\"accounts\":[");
    for (int64_t n = 0; n < accounts; n++) {
        end += sprintf(end, "%s[%" PRId64 ",%" PRId64 ",100000,100000]", n ? "," : "", n, 20000 + n);
    }
    sprintf(end, "],\"procedures\":[]}");
    return text;
}

/* One event of a transaction, or the start of the next one. */
static uint32_t event(sgt_engine *engine, int64_t accounts, uint32_t *tid, int *state, sgt_reply *reply)
{
    enum { NONE, STEPS, ENDS };
    uint32_t status = *state == NONE ? start(engine, accounts, reply)
                                     : (*state == STEPS ? sgt_step : sgt_commit)(engine, *tid, reply);
    switch (reply->kind) {
    case SGT_STARTED: *tid = reply->tid, *state = STEPS; break;
    case SGT_LOOKED: case SGT_WROTE: case SGT_WAITS: break;
    case SGT_ENDED: *state = ENDS; break;
    default: *state = NONE;
    }
    return status;
}

/* One transaction whose caller decides its accesses, from its start to its commit. */
static int own_transaction(sgt_engine *engine, int64_t first, int64_t accounts, int64_t accesses, sgt_reply *reply)
{
    if (sgt_begin(engine, reply) != SGT_OK) return 1;
    const uint32_t tid = reply->tid;
    for (int64_t n = 0; n < accesses; n++) {
        const int64_t customer = 20000 + (first + n) % accounts;
        uint32_t status = n % 2 ? sgt_write(engine, tid, 2, customer, n, reply) : sgt_read(engine, tid, 1, customer, reply);
        if (status != SGT_OK) return 1;
    }
    return sgt_commit(engine, tid, reply) != SGT_OK || reply->kind != SGT_COMMITTED;
}

int main(int argc, char **argv)
{
    if (argc != 4 && argc != 5) return 2;
    const int64_t events = atoll(argv[1]), live = atoll(argv[2]), accounts = atoll(argv[3]), accesses = argc == 5 ? atoll(argv[4]) : 0;
    if (live < 1 || live > MOST_LIVE || accounts < 1) return 2;
    sgt_engine engine = {0};
    sgt_fault fault = {0};
    sgt_reply reply = {0};
    uint32_t tid[MOST_LIVE] = {0};
    int state[MOST_LIVE] = {0};
    int64_t committed = 0;
    char *text = opening(accounts);
    if (sgt_open(&engine, text, strlen(text), &fault) != SGT_OK) return 1;
    free(text);
    struct timespec from, to;
    clock_gettime(CLOCK_PROCESS_CPUTIME_ID, &from);
    for (int64_t made = 0; accesses && made < events; made++) {
        if (own_transaction(&engine, made, accounts, accesses, &reply)) return 1;
        committed++;
    }
    for (int64_t made = 0; !accesses && made < events; made++) {
        if (event(&engine, accounts, &tid[made % live], &state[made % live], &reply) != SGT_OK) return 1;
        committed += reply.kind == SGT_COMMITTED;
    }
    clock_gettime(CLOCK_PROCESS_CPUTIME_ID, &to);
    double took = (double)(to.tv_sec - from.tv_sec) * 1e9 + (double)(to.tv_nsec - from.tv_nsec);
    printf("%.1f %" PRId64 "\n", took / (double)events, committed);
    sgt_close(&engine);
    return 0;
}
