/*
 * Threads on one shared engine that run, step, abort, time out and cut at random, for tests/threads.py.
 *
 *     shared_runs FOLDER SEED THREADS CALLS STEPPED
 *
 * Writes into the folder what the library told, and judges nothing:
 *
 *     history    a line `part N` for each part, and below it a line for each entry: the event, a tab, the reply
 *     thread.N   a line for each reply that thread N was told: the part, the transaction, what was asked, a tab, the reply
 *     ended      a line for each call that the hook was told: sequence, part, transaction, procedure, arguments, a tab, what it was told
 *     drained    the same of the calls that were drained
 *     rows       the committed database at the end
 *
 * Of the transactions that are made step by step, some have no procedure; after their steps, the thread may decide on more accesses.
 * Others are made by a transaction function.
 * In all, CALLS calls are made by the threads. Of 100 transactions STEPPED are made step by step, 99 at most, and the others by one call.
 * It prints how many runs timed out, were tried again and so on, as `name count` lines.
 */
#include <inttypes.h>
#include <pthread.h>
#include <sched.h>
#include <stdatomic.h>
#include <stdbool.h>
#include <stdio.h>
#include <stdlib.h>
#include <string.h>
#include <time.h>

#include "sgt_shared.h"

enum { MOST_THREADS = 64, ACCOUNTS = 5, TEXT = 1024, ROWS = 64, OWN_TABLE = 3, OWN_RECORDS = 3 };

static const char opening[] = "{\"limits\":[8,4000000000,1],\"accounts\":[[0,100,100000,100000],[1,101,100000,100000],"
                              "[2,102,100000,100000],[3,103,100000,100000],[4,104,100000,100000]],\"procedures\":[]}";
static const size_t takes[] = {1, 2, 2, 2}; /* arguments of balance, deposit, transact savings and amalgamate */

static sgt_shared *shared;
static const char *folder;
static unsigned seed;
static long each;
static unsigned stepped;
static atomic_bool over;
static FILE *history, *ended, *drained;

enum count { RUNS, AGAIN, WAITED, STEPPED, DECIDED, TRANSACTED, COMMITTED, TIMED_OUT, QUIT, STALE, ABANDONED, CUTS, LISTED, COUNTS };
static const char *const names[] = {"runs",      "tried again", "waited", "stepped", "decided",   "transacted", "committed",
                                    "timed out", "quit",        "stale",  "abandoned", "cuts",    "listed"};
static atomic_long counts[COUNTS];

static void count(enum count which) { atomic_fetch_add(&counts[which], 1); }

static void must(bool holds, const char *what)
{
    if (holds) return;
    fprintf(stderr, "%s\n", what);
    exit(1);
}

/* A call may have one of these two statuses. Another one is printed. */
static void must_be(uint32_t status, uint32_t one, uint32_t other, const char *what)
{
    if (status != one && status != other) fprintf(stderr, "status %" PRIu32 ", %s: ", status, sgt_status_text(status));
    must(status == one || status == other, what);
}

static FILE *opened(const char *name)
{
    char path[TEXT];
    snprintf(path, sizeof path, "%s/%s", folder, name);
    FILE *file = fopen(path, "w");
    must(file != 0, "a file can't be opened");
    return file;
}

static void write_reply(FILE *to, const sgt_reply *reply)
{
    char text[TEXT];
    uint64_t length = 0;
    must(sgt_reply_text(reply, text, sizeof text, &length) == SGT_OK, "a reply has no text");
    fprintf(to, "\t%.*s\n", (int)length, text);
}

static void write_args(FILE *to, uint32_t procedure, const int64_t *args, size_t count)
{
    fprintf(to, "%" PRIu32 ",[", procedure);
    for (size_t i = 0; i < count; i++) fprintf(to, "%s%" PRId64, i ? "," : "", args[i]);
    fprintf(to, "]");
}

/* What the hooks write. They are called under the engine's lock. */

static void write_ended(FILE *to, const sgt_ended *reported)
{
    const sgt_call *call = &reported->call;
    must(reported->ticket.tid == call->tid, "a ticket is another call's");
    fprintf(to, "%" PRIu64 " %" PRIu64 " %" PRIu32 " ", reported->sequence, reported->ticket.part, call->tid);
    write_args(to, call->procedure, call->arg, call->args);
    if (call->kind == SGT_REFUSED) fprintf(to, "\tasked %" PRIu32 "\n", call->code);
    else if (call->answers == 0) fprintf(to, "\tcommitted none\n");
    else fprintf(to, "\tcommitted %" PRId64 "\n", call->answer[0]);
}

static int64_t now(void)
{
    struct timespec at;
    clock_gettime(CLOCK_MONOTONIC, &at);
    return (int64_t)at.tv_sec * 1000000000 + at.tv_nsec;
}

static void dawdle(int64_t ns)
{
    for (const int64_t end = now() + ns; now() < end;) {}
}

/* It dawdles now and then: for a while, or for longer than a thread that wants the lock looks for it before it sleeps. */
static void report_ended(void *context, const sgt_ended *call)
{
    (void)context;
    if (call->sequence % 8 == 0) dawdle(20000);
    if (call->sequence % 64 == 1) dawdle(120000);
    write_ended(ended, call);
}

static void write_entries(void *context, sgt_engine *engine, uint64_t part)
{
    static const char *const asks[] = {"", "start", "step", "commit", "quit", "read", "write", "remove"};
    sgt_event event = {0};
    sgt_reply reply = {0};
    (void)context;
    fprintf(history, "part %" PRIu64 "\n", part);
    for (uint64_t place = 0; sgt_entry(engine, place, &event, &reply) == SGT_OK; place++) {
        fprintf(history, "[\"%s\",", asks[event.kind]);
        if (event.kind == SGT_START) write_args(history, event.procedure, event.arg, event.args);
        else fprintf(history, "%" PRIu32, event.tid);
        if (event.kind >= SGT_READ) fprintf(history, ",%" PRIu32 ",%" PRId64, event.table, event.number);
        if (event.kind == SGT_WRITE) fprintf(history, ",%" PRId64, event.value);
        fprintf(history, "]");
        write_reply(history, &reply);
    }
}

/* Threads */

struct thread {
    pthread_t id;
    int number;
    uint64_t drawn;
    FILE *log;
};

static uint64_t draw(struct thread *it, uint64_t below)
{
    it->drawn = it->drawn * 6364136223846793005u + 1442695040888963407u;
    return (it->drawn >> 33) % below;
}

static void log_reply(struct thread *it, const sgt_ticket *ticket, const char *asked, const sgt_reply *reply)
{
    fprintf(it->log, "%" PRIu64 " %" PRIu32 " %s", ticket->part, ticket->tid, asked);
    write_reply(it->log, reply);
}

/* A deadline: none in most cases, else some microseconds, about as long as a thread waits for the lock, or longer; or it has passed. */
static int64_t drawn_wait(struct thread *it)
{
    if (draw(it, 3) > 0) return SGT_FOREVER;
    if (draw(it, 50) == 0) return 1;
    return (int64_t)(draw(it, 2) == 0 ? draw(it, 300000) : 20000 + draw(it, 60000));
}

static uint32_t draw_call(struct thread *it, int64_t *args)
{
    uint32_t procedure = (uint32_t)draw(it, 4);
    args[0] = (int64_t)draw(it, ACCOUNTS + (draw(it, 50) == 0)); /* now and then an account that is not there */
    args[1] = procedure == 3 ? (int64_t)draw(it, ACCOUNTS) : 1 + (int64_t)draw(it, 99);
    return procedure;
}

static void run_one(struct thread *it)
{
    int64_t args[2];
    uint32_t procedure = draw_call(it, args);
    sgt_shared_outcome outcome = SGT_SHARED_OUTCOME;
    sgt_run_options options = SGT_RUN_OPTIONS;
    options.wait_ns = drawn_wait(it);
    options.tries = (uint32_t)draw(it, 4);
    uint32_t status = sgt_shared_run(shared, procedure, args, takes[procedure], &options, &outcome);
    count(RUNS);
    if (outcome.tries > 1) count(AGAIN);
    if (outcome.waits > 0) count(WAITED);
    must_be(status, SGT_OK, SGT_TIMED_OUT, "a run has another status");
    if (status == SGT_TIMED_OUT) {
        count(TIMED_OUT);
        return;
    }
    if (outcome.reply.kind == SGT_COMMITTED) count(COMMITTED);
    log_reply(it, &outcome.ticket, "run", &outcome.reply);
}

/* Makes some accesses of one's own, after those of the procedure. The last reply, or the status of a call. */
static uint32_t decide(struct thread *it, const sgt_ticket *ticket, sgt_reply *reply)
{
    uint32_t status = SGT_OK;
    for (uint64_t left = draw(it, 4); left > 0; left--) {
        const uint64_t kind = draw(it, 4);
        const int64_t record = (int64_t)draw(it, OWN_RECORDS), value = (int64_t)draw(it, 1000);
        if (kind < 2) status = sgt_shared_read(shared, ticket, OWN_TABLE, record, reply);
        else if (kind == 2) status = sgt_shared_write(shared, ticket, OWN_TABLE, record, value, reply);
        else status = sgt_shared_remove(shared, ticket, OWN_TABLE, record, reply);
        if (status != SGT_OK) return status;
        count(DECIDED);
        log_reply(it, ticket, kind < 2 ? "read" : kind == 2 ? "write" : "remove", reply);
        if (reply->kind == SGT_NOT_ENDED) break; /* the procedure has raised a code */
        if (reply->kind != SGT_LOOKED && reply->kind != SGT_WROTE) return SGT_OK;
    }
    reply->kind = SGT_ENDED;
    return SGT_OK;
}

/* Steps a transaction until it ends, is aborted or left to another thread. Its last reply, or the status of a call. */
static uint32_t step_on(struct thread *it, const sgt_ticket *ticket, sgt_reply *reply)
{
    uint32_t status;
    do {
        if (draw(it, 4) == 0) sched_yield();
        if (draw(it, 40) == 0) {
            count(QUIT);
            if ((status = sgt_shared_quit(shared, ticket, reply)) == SGT_OK) log_reply(it, ticket, "quit", reply);
            return status;
        }
        if ((status = sgt_shared_step(shared, ticket, reply)) != SGT_OK) return status;
        log_reply(it, ticket, "step", reply);
    } while (reply->kind == SGT_LOOKED || reply->kind == SGT_WROTE);
    if (reply->kind == SGT_ENDED && (status = decide(it, ticket, reply)) != SGT_OK) return status;
    while (reply->kind == SGT_ENDED || reply->kind == SGT_WAITS) {
        status = sgt_shared_commit(shared, ticket, drawn_wait(it), reply);
        if (status == SGT_OK) log_reply(it, ticket, "commit", reply);
        if (status != SGT_TIMED_OUT) return status;
        count(TIMED_OUT);
        if (draw(it, 2) == 0) continue;
        count(QUIT);
        if ((status = sgt_shared_quit(shared, ticket, reply)) == SGT_OK) log_reply(it, ticket, "quit", reply);
        return status;
    }
    return SGT_OK;
}

static void step_one(struct thread *it)
{
    int64_t args[2];
    uint32_t procedure = draw_call(it, args);
    sgt_ticket ticket = {0};
    sgt_reply reply = {0};
    uint32_t status = SGT_OK;
    if (draw(it, 4) == 0) status = sgt_shared_begin(shared, drawn_wait(it), &ticket, &reply);
    else status = sgt_shared_start(shared, procedure, args, takes[procedure], drawn_wait(it), &ticket, &reply);
    count(STEPPED);
    if (status == SGT_TIMED_OUT) {
        count(TIMED_OUT);
        return;
    }
    must_be(status, SGT_OK, SGT_OK, "a start has another status");
    must(reply.kind == SGT_STARTED, "a start was refused");
    log_reply(it, &ticket, "start", &reply);
    status = step_on(it, &ticket, &reply);
    must_be(status, SGT_OK, SGT_STALE, "an event has another status");
    if (status == SGT_STALE) count(STALE);
    else if (reply.kind == SGT_COMMITTED) count(COMMITTED);
}

/* Moves an amount between two records, reads another one, and gives way now and then. */
static uint32_t moves(void *context, sgt_transaction *t)
{
    struct thread *it = context;
    const int64_t from = (int64_t)draw(it, OWN_RECORDS), to = (int64_t)draw(it, OWN_RECORDS);
    int64_t had = 0, other = 0;
    const uint32_t status = sgt_transaction_read(t, OWN_TABLE, from, &had);
    if (status != SGT_OK && status != SGT_NONE) return SGT_BODY_QUIT;
    if (draw(it, 4) == 0) sched_yield();
    if (draw(it, 2) == 0) sgt_transaction_read(t, OWN_TABLE, to, &other);
    if (had == 0) sgt_transaction_remove(t, OWN_TABLE, from);
    else sgt_transaction_write(t, OWN_TABLE, to, (other + had) % 1000);
    return SGT_BODY_COMMIT;
}

static void transact_one(struct thread *it)
{
    sgt_shared_outcome outcome = SGT_SHARED_OUTCOME;
    sgt_transact_options options = SGT_TRANSACT_OPTIONS;
    options.wait_ns = drawn_wait(it);
    options.tries = (uint32_t)draw(it, 4);
    const uint32_t status = sgt_shared_transact(shared, moves, it, &options, &outcome);
    count(TRANSACTED);
    if (outcome.tries > 1) count(AGAIN);
    if (outcome.waits > 0) count(WAITED);
    must_be(status, SGT_OK, SGT_TIMED_OUT, "a transaction function has another status");
    if (status == SGT_TIMED_OUT) {
        count(TIMED_OUT);
        return;
    }
    if (outcome.reply.kind == SGT_COMMITTED) count(COMMITTED);
    log_reply(it, &outcome.ticket, "run", &outcome.reply);
}

/* How long a cut waits: no longer than some of those who are live, or, so that cuts come on any machine, until all have ended. */
static int64_t drawn_wait_of_cut(struct thread *it)
{
    return draw(it, 4) == 0 ? SGT_FOREVER : (int64_t)draw(it, 2000000);
}

/* Aborts the transactions that have been live for too long, as an operator would. */
static void quit_oldest(struct thread *it)
{
    sgt_live live[32];
    sgt_reply reply = {0};
    uint64_t many = 0;
    must(sgt_shared_live(shared, live, 32, &many) == SGT_OK && many <= 8, "who is live is not told");
    count(LISTED);
    if (many == 0 || live[0].for_ns < 1000000) return;
    uint32_t status = sgt_shared_quit(shared, &live[0].ticket, &reply);
    must_be(status, SGT_OK, SGT_STALE, "a quit has another status");
    if (status != SGT_OK) return;
    count(ABANDONED);
    log_reply(it, &live[0].ticket, "quit", &reply);
}

static void *work(void *of)
{
    struct thread *it = of;
    for (long made = 0; made < each; made++) {
        uint64_t choice = draw(it, 100);
        if (choice == 99) quit_oldest(it);
        else if (choice < stepped && draw(it, 5) == 0) transact_one(it);
        else if (choice < stepped) step_one(it);
        else run_one(it);
        if (draw(it, 2000) == 0 && sgt_shared_cut(shared, drawn_wait_of_cut(it)) == SGT_OK) count(CUTS);
    }
    return 0;
}

static void *drain(void *unused)
{
    sgt_ended calls[64];
    uint64_t many = 1;
    (void)unused;
    while (!over || many > 0) {
        must(sgt_shared_drain(shared, 1000000, calls, 64, &many) == SGT_OK, "a drain failed");
        for (uint64_t i = 0; i < many; i++) write_ended(drained, &calls[i]);
    }
    return 0;
}

static void work_all(struct thread *threads, int many)
{
    pthread_t drainer;
    must(pthread_create(&drainer, 0, drain, 0) == 0, "a thread was not started");
    for (int i = 0; i < many; i++) {
        char name[32];
        snprintf(name, sizeof name, "thread.%d", i);
        threads[i] = (struct thread){.number = i, .drawn = seed * 1000003u + (unsigned)i, .log = opened(name)};
        must(pthread_create(&threads[i].id, 0, work, &threads[i]) == 0, "a thread was not started");
    }
    for (int i = 0; i < many; i++) {
        pthread_join(threads[i].id, 0);
        fclose(threads[i].log);
    }
    over = true;
    pthread_join(drainer, 0);
}

static void write_rows(void)
{
    sgt_row rows[ROWS];
    uint64_t many = 0;
    FILE *to = opened("rows");
    must(sgt_shared_rows(shared, 0, SGT_LEAST, rows, ROWS, &many) == SGT_OK && many <= ROWS, "the rows are not told");
    for (uint64_t i = 0; i < many; i++) {
        fprintf(to, "%" PRIu32 "/%" PRId64 " %" PRId64 "\n", rows[i].table, rows[i].number, rows[i].value);
    }
    fclose(to);
}

int main(int argc, char **argv)
{
    static struct thread threads[MOST_THREADS];
    if (argc != 6) return 2;
    folder = argv[1], seed = (unsigned)atoi(argv[2]);
    const int many = atoi(argv[3]);
    if (many < 1 || many > MOST_THREADS) return 2;
    each = atol(argv[4]) / many;
    stepped = (unsigned)atoi(argv[5]);
    history = opened("history"), ended = opened("ended"), drained = opened("drained");
    sgt_fault fault = {0};
    sgt_shared_config config = SGT_SHARED_CONFIG;
    config.ended = report_ended, config.cutting = write_entries;
    config.keeps_ended = 1, config.cut_after = 1000, config.cut_wait_ns = 2000000;
    const char *text = opening;
    must(sgt_shared_open(&shared, text, sizeof opening - 1, 0, 0, &config, &fault) == SGT_OK, "the engine is not opened");
    work_all(threads, many);
    must(sgt_shared_cut(shared, 0) == SGT_OK, "somebody is live at the end");
    write_rows();
    must(sgt_shared_close(&shared) == SGT_OK, "the engine is not closed");
    fclose(history), fclose(ended), fclose(drained);
    for (int i = 0; i < COUNTS; i++) printf("%s %ld\n", names[i], (long)counts[i]);
    return 0;
}
