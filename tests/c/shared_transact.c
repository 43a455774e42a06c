/*
 * Threads that all read and write the same three records by transaction functions, some by steps, beside runs of a procedure. What each
 * read and wrote is compared with a plain map, in the order in which the hook was called for the commits; so are the accesses that the
 * engine returns before each cut, and the records at the end.
 *
 *     shared_transact THREADS CALLS SEED
 *
 * It writes how many were committed, aborted, tried again, and how many were tried alone. Its status is 1 if something differs.
 */
#include <inttypes.h>
#include <pthread.h>
#include <sched.h>
#include <stdatomic.h>
#include <stdbool.h>
#include <stdio.h>
#include <stdlib.h>
#include <string.h>

#include "sgt_shared.h"

enum { RECORDS = 3, TABLE = 2, FIRST = 101, MOST = 6, TRIES = 3 };

/* An access: what was read or written, and whether there was a value. */
struct access {
    uint32_t kind;
    int64_t number, value;
    bool found;
};

/* What a transaction did. */
struct did {
    sgt_ticket ticket;
    uint32_t count;
    bool is_run;
    struct access accesses[MOST];
};

/* Those of a thread that were committed. */
struct thread {
    pthread_t at;
    uint64_t drawn;
    struct did now, *all;
    size_t count;
    uint64_t quits, again, alone;
};

/* A commit that the hook was called for, and the accesses of its caller. */
struct reported {
    sgt_ended ended;
    sgt_access accesses[MOST];
};

static sgt_shared *bank;
static size_t calls;
static struct reported *ends;
static size_t ended_count, cut_count;
static atomic_int differing;

static void differs(const char *what)
{
    if (differing++ < 10) printf("differs: %s\n", what);
}

/* The next number of a thread, below some. */
static uint32_t draw(struct thread *thread, uint32_t below)
{
    thread->drawn = thread->drawn * 6364136223846793005u + 1442695040888963407u;
    return (uint32_t)(thread->drawn >> 33) % below;
}

static void note(struct did *did, uint32_t kind, int64_t number, bool found, int64_t value)
{
    did->accesses[did->count++] = (struct access){kind, number, found ? value : 0, found};
}

/* Reads and writes some records, each value by what was read before. */
static uint32_t mixes(void *context, sgt_transaction *t)
{
    struct thread *thread = context;
    int64_t sum = 1;
    thread->now.count = 0;
    for (uint32_t left = 2 + draw(thread, MOST - 1); left > 0; left--) {
        if (draw(thread, 4) == 0) sched_yield();
        const int64_t number = FIRST + draw(thread, RECORDS);
        const uint32_t kind = draw(thread, 8);
        int64_t value = 0;
        uint32_t status = SGT_OK;
        if (kind < 4) {
            status = sgt_transaction_read(t, TABLE, number, &value);
            if (status == SGT_OK || status == SGT_NONE) note(&thread->now, SGT_READ, number, status == SGT_OK, value);
            sum += value;
        } else if (kind < 7) {
            sum = sum * 3 % 1000003;
            status = sgt_transaction_write(t, TABLE, number, sum);
            if (status == SGT_OK) note(&thread->now, SGT_WRITE, number, true, sum);
        } else {
            status = sgt_transaction_remove(t, TABLE, number);
            if (status == SGT_OK) note(&thread->now, SGT_REMOVE, number, false, 0);
        }
        if (status == SGT_UNDONE) return SGT_BODY_QUIT;
        if (status != SGT_OK && status != SGT_NONE) differs("the status of an access");
    }
    return draw(thread, 20) == 0 ? SGT_BODY_QUIT : SGT_BODY_COMMIT;
}

static void keep(struct thread *thread, const sgt_ticket *ticket, bool is_run)
{
    thread->now.ticket = *ticket, thread->now.is_run = is_run;
    thread->all[thread->count++] = thread->now;
}

/* A deposit to the account that has the first record. */
static void runs(struct thread *thread)
{
    const int64_t args[] = {1, 5};
    sgt_shared_outcome out = SGT_SHARED_OUTCOME;
    thread->now.count = 0;
    if (sgt_shared_run(bank, 1, args, 2, 0, &out) != SGT_OK) differs("the status of a run");
    if (out.reply.kind == SGT_COMMITTED) keep(thread, &out.ticket, true);
    else if (out.reply.kind != SGT_REFUSED) differs("the reply to a run");
}

static void transacts(struct thread *thread)
{
    sgt_transact_options options = SGT_TRANSACT_OPTIONS;
    sgt_shared_outcome out = SGT_SHARED_OUTCOME;
    options.tries = TRIES;
    if (sgt_shared_transact(bank, mixes, thread, &options, &out) != SGT_OK) differs("the status of a transaction function");
    if (out.reply.kind == SGT_COMMITTED) keep(thread, &out.ticket, false);
    else if (out.reply.kind == SGT_ABORTED && out.reply.cause == SGT_BY_QUIT) thread->quits++;
    else differs("the reply to a transaction function");
    if (out.tries > TRIES + 1) differs("the number of tries");
    thread->again += out.tries > 1, thread->alone += out.tries > TRIES;
}

static void *works(void *context)
{
    struct thread *thread = context;
    for (size_t i = 0; i < calls; i++) {
        if (draw(thread, 10) == 0) runs(thread);
        else transacts(thread);
    }
    return 0;
}

/* The hooks: each commit in its order, and before each cut the accesses of those that were reported since the last one. */
static void notes_end(void *context, const sgt_ended *ended)
{
    (void)context;
    if (ended->sequence != ended_count) differs("the order of the commits");
    ends[ended_count++].ended = *ended;
}

static void notes_accesses(void *context, sgt_engine *engine, uint64_t part)
{
    (void)context;
    for (; cut_count < ended_count; cut_count++) {
        struct reported *reported = &ends[cut_count];
        uint64_t count = 0;
        if (reported->ended.ticket.part != part) differs("the part of a commit");
        if (sgt_accesses(engine, reported->ended.ticket.tid, reported->accesses, MOST, &count) != SGT_OK || count != reported->ended.call.accesses) {
            differs("the number of accesses");
        }
    }
}

static int by_ticket(const void *one, const void *other)
{
    const sgt_ticket *a = &((const struct did *)one)->ticket, *b = &((const struct did *)other)->ticket;
    if (a->part != b->part) return a->part < b->part ? -1 : 1;
    return a->tid < b->tid ? -1 : a->tid > b->tid;
}

/* Makes an access on the plain map, and compares. */
static void replay(const struct access *access, bool *found, int64_t *value)
{
    const int64_t i = access->number - FIRST;
    if (access->kind == SGT_READ) {
        if (found[i] != access->found || (found[i] && value[i] != access->value)) differs("what was read");
        return;
    }
    found[i] = access->kind == SGT_WRITE, value[i] = access->value;
}

/* Compares what a transaction did with what the engine returned. */
static void compare(const struct did *did, const struct reported *reported)
{
    if (did->count != reported->ended.call.accesses) differs("how many accesses a call made");
    for (uint32_t i = 0; i < did->count; i++) {
        const struct access *a = &did->accesses[i];
        const sgt_access *b = &reported->accesses[i];
        if (a->kind != b->kind || a->number != b->number || b->table != TABLE || a->found != b->found || a->value != b->value) {
            differs("an access that was returned");
        }
    }
}

/* Runs all that was committed on a plain map, in the order of the commits. Then the map has to be the database. */
static void judge(struct did *all, size_t count)
{
    bool found[RECORDS] = {true, false, false};
    int64_t value[RECORDS] = {1000, 0, 0};
    qsort(all, count, sizeof *all, by_ticket);
    size_t at = 0;
    for (size_t i = 0; i < ended_count; i++) {
        const struct did key = {.ticket = ends[i].ended.ticket};
        const struct did *did = bsearch(&key, all, count, sizeof *all, by_ticket);
        if (ends[i].ended.call.kind == SGT_REFUSED) continue; /* a deposit where the record was removed */
        at++;
        if (!did) differs("a commit that nobody was told");
        else if (did->is_run) {
            if (!found[0] || ends[i].ended.call.answer[0] != value[0] + 5) differs("the answer of a run");
            value[0] += 5;
        } else {
            compare(did, &ends[i]);
            for (uint32_t k = 0; k < did->count; k++) replay(&did->accesses[k], found, value);
        }
    }
    if (at != count) differs("how many were committed");
    for (int64_t i = 0; i < RECORDS; i++) {
        int64_t reported = 0;
        const uint32_t status = sgt_shared_get(bank, TABLE, FIRST + i, &reported);
        if (status != (found[i] ? SGT_OK : SGT_NONE) || (found[i] && reported != value[i])) differs("a record at the end");
    }
}

static void opens(void)
{
    static const char opening[] = "{\"limits\":[16,4000000000,1],\"accounts\":[[1,101,0,1000]],\"procedures\":[]}";
    sgt_shared_config config = SGT_SHARED_CONFIG;
    sgt_fault fault = {0};
    config.ended = notes_end, config.cutting = notes_accesses;
    config.cut_after = 5000, config.cut_wait_ns = 1000000;
    if (sgt_shared_open(&bank, opening, strlen(opening), 0, 0, &config, &fault) != SGT_OK) exit(2);
}

/* Starts the threads, and ends them. What they did is put together, and counted in the first of them. */
static struct did *work(struct thread *all, size_t threads, uint64_t seed)
{
    struct did *done = calloc(threads * calls, sizeof *done);
    size_t committed = 0;
    for (size_t i = 0; i < threads; i++) {
        all[i].drawn = seed * 1000003 + i, all[i].all = calloc(calls, sizeof *all[i].all);
        pthread_create(&all[i].at, 0, works, &all[i]);
    }
    for (size_t i = 0; i < threads; i++) {
        pthread_join(all[i].at, 0);
        if (all[i].count > 0) memcpy(done + committed, all[i].all, all[i].count * sizeof *done);
        committed += all[i].count;
        if (i > 0) all->quits += all[i].quits, all->again += all[i].again, all->alone += all[i].alone;
        free(all[i].all);
    }
    all->count = committed;
    return done;
}

int main(int count, char **words)
{
    if (count != 4) return 2;
    const size_t threads = strtoul(words[1], 0, 10);
    struct thread *all = calloc(threads, sizeof *all);
    calls = strtoul(words[2], 0, 10);
    ends = calloc(threads * calls, sizeof *ends);
    opens();
    struct did *done = work(all, threads, strtoul(words[3], 0, 10));
    if (sgt_shared_cut(bank, 0) != SGT_OK) differs("that nobody is live");
    judge(done, all->count);
    if (sgt_shared_close(&bank) != SGT_OK) differs("the close");
    printf("committed %zu\nquit %" PRIu64 "\ntried again %" PRIu64 "\nalone %" PRIu64 "\n", all->count, all->quits, all->again, all->alone);
    free(all), free(ends), free(done);
    return differing ? 1 : 0;
}
