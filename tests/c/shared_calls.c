/*
 * Each call of sgt_shared.h, with its status and its results, compared with what the header says. Each failed check is printed; the last
 * line counts all checks.
 */
#include <inttypes.h>
#include <pthread.h>
#include <sched.h>
#include <stdatomic.h>
#include <stdbool.h>
#include <stdio.h>
#include <string.h>
#include <sys/wait.h>
#include <time.h>
#include <unistd.h>

#include "sgt_shared.h"

static int checks, failed;

#define CHECK(holds) check((holds) != 0, #holds, __LINE__)

static void check(int holds, const char *text, int line)
{
    checks++;
    if (holds) return;
    failed++;
    printf("line %d: %s\n", line, text);
}

enum { MS = 1000000, LONGEST = 600 /* seconds for which something is waited for that has to come */ };

static const char opening[] = "{\"limits\":[2,100,1],\"accounts\":[[1,101,500,1000],[2,102,0,0]],\"procedures\":[]}";
static const char roomy[] = "{\"limits\":[2,1000000,1],\"accounts\":[[1,101,500,1000],[2,102,0,0]],\"procedures\":[]}";
static const char shape[] = "{\"limits\":[8,100],\"accounts\":[],\"procedures\":[[0,[7]]]}";
static const int64_t deposit[] = {1, 100};
static const int64_t name[] = {1};

static uint32_t opens(sgt_shared **shared, const char *text, const sgt_shared_config *config, sgt_fault *fault)
{
    return sgt_shared_open(shared, text, strlen(text), 0, 0, config, fault);
}

/* An engine with two live at most, and two accounts. */
static sgt_shared *bank(const sgt_shared_config *config)
{
    sgt_shared *shared = 0;
    sgt_fault fault = {0};
    CHECK(opens(&shared, opening, config, &fault) == SGT_OK && shared);
    return shared;
}

/* The same, where as many may start as come until another thread has begun. */
static sgt_shared *roomy_bank(const sgt_shared_config *config)
{
    sgt_shared *shared = 0;
    sgt_fault fault = {0};
    CHECK(opens(&shared, roomy, config, &fault) == SGT_OK && shared);
    return shared;
}

static void closes(sgt_shared *shared)
{
    CHECK(sgt_shared_close(&shared) == SGT_OK && !shared);
}

/* Starts a deposit of 100 for account 1, and makes this many accesses. */
static sgt_ticket begins(sgt_shared *shared, int steps)
{
    sgt_ticket ticket = {0};
    sgt_reply reply = {0};
    CHECK(sgt_shared_start(shared, 1, deposit, 2, 0, &ticket, &reply) == SGT_OK && reply.kind == SGT_STARTED);
    while (steps-- > 0) CHECK(sgt_shared_step(shared, &ticket, &reply) == SGT_OK);
    return ticket;
}

static uint64_t lives(sgt_shared *shared)
{
    uint64_t count = 77;
    CHECK(sgt_shared_live(shared, 0, 0, &count) == SGT_OK);
    return count;
}

static void engines_are_opened_and_closed(void)
{
    sgt_shared *shared = 0, *other = 0;
    sgt_fault fault = {0};
    sgt_shared_config small = SGT_SHARED_CONFIG;
    const sgt_row rows[] = {{7, 0, 1, 40}, {9, 0, 1, 40}};
    small.size--;
    CHECK(opens(&shared, shape, 0, &fault) == SGT_PROC_SHAPE && fault.kind == SGT_PROC_SHAPE && !shared);
    CHECK(opens(&shared, opening, &small, &fault) == SGT_BAD_CALL && !shared);
    CHECK(opens(0, opening, 0, &fault) == SGT_BAD_CALL && opens(&shared, opening, 0, 0) == SGT_BAD_CALL);
    CHECK(sgt_shared_open(&shared, 0, 0, 0, 0, 0, &fault) == SGT_BAD_CALL);
    const char *text = opening;
    CHECK(sgt_shared_open(&shared, text, strlen(opening), 0, 1, 0, &fault) == SGT_BAD_CALL);
    CHECK(sgt_shared_open(&shared, text, strlen(opening), rows, 2, 0, &fault) == SGT_BAD_CALL && !shared);
    CHECK(sgt_shared_open(&shared, text, strlen(opening), rows, 1, 0, &fault) == SGT_OK);
    int64_t value = 0;
    CHECK(sgt_shared_get(shared, 7, 1, &value) == SGT_OK && value == 40);
    CHECK(sgt_shared_get(shared, 7, 2, &value) == SGT_NONE && sgt_shared_get(shared, 8, 1, &value) == SGT_BAD_CALL);
    CHECK(sgt_shared_get(shared, (UINT64_C(1) << 32) + 7, 1, &value) == SGT_BAD_CALL);
    CHECK(sgt_shared_get(shared, 7, SGT_MOST + 1, &value) == SGT_BAD_CALL && sgt_shared_get(shared, 7, 1, 0) == SGT_BAD_CALL);
    closes(shared);
    CHECK(sgt_shared_close(&other) == SGT_CLOSED && sgt_shared_close(0) == SGT_CLOSED);
    CHECK(sgt_shared_get(0, 7, 1, &value) == SGT_CLOSED && sgt_shared_cut(0, 0) == SGT_CLOSED && value == 40);
}

static void an_engine_is_taken_over(void)
{
    sgt_engine engine = {0};
    sgt_fault fault = {0};
    sgt_reply reply = {0};
    sgt_shared *shared = 0;
    int64_t value = 0;
    uint32_t tid = 0;
    CHECK(sgt_shared_take(&shared, &engine, 0) == SGT_CLOSED);
    CHECK(sgt_open(&engine, opening, strlen(opening), &fault) == SGT_OK);
    CHECK(sgt_run(&engine, 1, deposit, 2, &tid, &reply) == SGT_OK);
    CHECK(sgt_shared_take(&shared, &engine, 0) == SGT_BEGUN && !shared && engine.is_open);
    uint64_t live = 0;
    CHECK(sgt_cut(&engine, &live) == SGT_OK);
    CHECK(sgt_shared_take(&shared, 0, 0) == SGT_BAD_CALL && sgt_shared_take(0, &engine, 0) == SGT_BAD_CALL);
    CHECK(sgt_shared_take(&shared, &engine, 0) == SGT_OK && !engine.is_open && !engine.at);
    CHECK(sgt_shared_get(shared, 2, 101, &value) == SGT_OK && value == 1100);
    CHECK(begins(shared, 0).part == 1); /* it was cut off once before */
    closes(shared);
}

static void a_run_is_reported(void)
{
    sgt_shared *shared = bank(0);
    sgt_shared_outcome outcome = SGT_SHARED_OUTCOME, small = SGT_SHARED_OUTCOME;
    sgt_run_options options = SGT_RUN_OPTIONS;
    const int64_t five[] = {1, 2, 3, 4, 5}, unknown[] = {9};
    CHECK(sgt_shared_run(shared, 1, deposit, 2, 0, &outcome) == SGT_OK && outcome.reply.kind == SGT_COMMITTED);
    CHECK(outcome.tries == 1 && outcome.waits == 0 && outcome.reply.answer[0] == 1100);
    CHECK(outcome.ticket.tid == 0 && outcome.ticket.part == 0 && outcome.ticket.engine != 0);
    CHECK(sgt_shared_run(shared, 0, unknown, 1, &options, &outcome) == SGT_OK && outcome.reply.kind == SGT_REFUSED);
    CHECK(outcome.reply.code == 1 && outcome.ticket.tid == 1);
    CHECK(sgt_shared_run(shared, 99, name, 1, 0, &outcome) == SGT_OK && outcome.reply.kind == SGT_NO_PROCEDURE);
    CHECK(outcome.tries == 0);
    CHECK(sgt_shared_run(shared, 1, name, 1, 0, &outcome) == SGT_OK && outcome.reply.kind == SGT_BAD_ARGS);
    CHECK(sgt_shared_run(shared, 65537, deposit, 2, 0, &outcome) == SGT_BAD_CALL);
    CHECK(sgt_shared_run(shared, 1, five, 5, 0, &outcome) == SGT_BAD_CALL);
    CHECK(sgt_shared_run(shared, 1, 0, 2, 0, &outcome) == SGT_BAD_CALL);
    CHECK(sgt_shared_run(shared, 1, deposit, 2, 0, 0) == SGT_BAD_CALL);
    small.size--;
    CHECK(sgt_shared_run(shared, 1, deposit, 2, 0, &small) == SGT_BAD_CALL);
    options.size--;
    CHECK(sgt_shared_run(shared, 1, deposit, 2, &options, &outcome) == SGT_BAD_CALL);
    CHECK(sgt_shared_run(0, 1, deposit, 2, 0, &outcome) == SGT_CLOSED && outcome.tries == 0);
    closes(shared);
}

static void a_run_that_has_to_wait_is_never_left_behind(void)
{
    sgt_shared *shared = bank(0);
    sgt_run_options options = SGT_RUN_OPTIONS;
    sgt_shared_outcome outcome = SGT_SHARED_OUTCOME;
    sgt_reply reply = {0};
    sgt_ticket writer = begins(shared, 3); /* has written, and is live */
    options.wait_ns = 20 * MS;
    CHECK(sgt_shared_run(shared, 0, name, 1, &options, &outcome) == SGT_TIMED_OUT);
    CHECK(outcome.tries == 1 && outcome.waits == 1 && lives(shared) == 1);
    options.wait_ns = 0;
    CHECK(sgt_shared_run(shared, 0, name, 1, &options, &outcome) == SGT_TIMED_OUT && lives(shared) == 1);
    sgt_ticket second = begins(shared, 0);
    CHECK(sgt_shared_run(shared, 0, name, 1, &options, &outcome) == SGT_TIMED_OUT && outcome.tries == 0 && lives(shared) == 2);
    sgt_ticket third = {0};
    CHECK(sgt_shared_start(shared, 0, name, 1, 5 * MS, &third, &reply) == SGT_TIMED_OUT && third.engine == 0);
    CHECK(sgt_shared_quit(shared, &second, &reply) == SGT_OK && reply.kind == SGT_ABORTED && lives(shared) == 1);
    CHECK(sgt_shared_commit(shared, &writer, 0, &reply) == SGT_OK && reply.kind == SGT_COMMITTED);
    closes(shared);
}

/* A thread that makes one call after a while. */
struct later {
    pthread_t id;
    sgt_shared *shared;
    sgt_ticket ticket;
    uint32_t (*call)(struct later *it);
    sgt_reply reply;
    sgt_shared_outcome outcome;
    atomic_uint status;
};

static void *makes(void *of)
{
    struct later *it = of;
    it->status = it->call(it);
    return 0;
}

static void in_a_thread(struct later *it)
{
    it->status = 77;
    CHECK(pthread_create(&it->id, 0, makes, it) == 0);
}

static void pause_for(long ns) { nanosleep(&(struct timespec){0, ns}, 0); }

/* The seconds of a clock that never jumps. */
static int64_t seconds(void)
{
    struct timespec at;
    clock_gettime(CLOCK_MONOTONIC, &at);
    return at.tv_sec;
}

/* Until a thread waits for a commit, on however busy a machine. */
static void until_one_waits(sgt_shared *shared)
{
    sgt_live live[32];
    uint64_t count = 0;
    for (const int64_t end = seconds() + LONGEST; seconds() < end;) {
        if (sgt_shared_live(shared, live, 32, &count) != SGT_OK) break;
        for (uint64_t i = 0; i < count; i++) {
            if (live[i].waits) return;
        }
        pause_for(MS);
    }
    CHECK(!"a thread waits");
}

/* Until a cut waits for this thread, which has something live: a start that would wait for the cut would wait for its own thread. */
static void until_cut_waits(sgt_shared *shared)
{
    sgt_reply reply = {0};
    sgt_ticket ticket = {0};
    uint32_t status = SGT_OK;
    for (const int64_t end = seconds() + LONGEST; status == SGT_OK && seconds() < end;) {
        status = sgt_shared_start(shared, 1, deposit, 2, SGT_FOREVER, &ticket, &reply);
        if (status == SGT_OK) sgt_shared_quit(shared, &ticket, &reply), pause_for(MS);
    }
    CHECK(status == SGT_SELF_WAIT);
}

/* Until the history has this many entries. */
static void until_entries(sgt_shared *shared, uint64_t wanted)
{
    uint64_t count = 0;
    for (const int64_t end = seconds() + LONGEST; seconds() < end;) {
        if (sgt_shared_entries(shared, &count, 0) != SGT_OK || count >= wanted) return;
        pause_for(MS);
    }
    CHECK(!"the entries come");
}

static uint32_t commits(struct later *it) { return sgt_shared_commit(it->shared, &it->ticket, SGT_FOREVER, &it->reply); }

static uint32_t runs(struct later *it)
{
    it->outcome = (sgt_shared_outcome)SGT_SHARED_OUTCOME;
    return sgt_shared_run(it->shared, 0, name, 1, 0, &it->outcome);
}

static uint32_t cuts(struct later *it) { return sgt_shared_cut(it->shared, SGT_FOREVER); }

static uint32_t drains(struct later *it)
{
    sgt_ended call;
    uint64_t count = 0;
    uint32_t status = sgt_shared_drain(it->shared, SGT_FOREVER, &call, 1, &count);
    return count == 1 && call.sequence == 0 && call.call.kind == SGT_COMMITTED ? status : 99;
}

/* A commit that waits for the writer continues when the writer commits; when the writer is aborted, it is answered that it was aborted in
 * cascade. */
static void a_commit_waits(void)
{
    for (int quits = 0; quits < 2; quits++) {
        sgt_shared *shared = bank(0);
        sgt_reply reply = {0};
        sgt_ticket writer = begins(shared, 3);
        struct later reader = {.shared = shared, .call = commits};
        sgt_live live[2];
        uint64_t count = 0;
        CHECK(sgt_shared_start(shared, 0, name, 1, 0, &reader.ticket, &reply) == SGT_OK);
        for (int step = 0; step < 4; step++) CHECK(sgt_shared_step(shared, &reader.ticket, &reply) == SGT_OK);
        CHECK(reply.kind == SGT_ENDED && sgt_shared_commit(shared, &reader.ticket, 2 * MS, &reply) == SGT_TIMED_OUT);
        CHECK(reply.kind == SGT_WAITS && reply.tid == writer.tid);
        reply = (sgt_reply){0};
        CHECK(sgt_shared_commit(shared, &reader.ticket, SGT_FOREVER, &reply) == SGT_SELF_WAIT);
        CHECK(reply.kind == SGT_WAITS && reply.tid == writer.tid);
        in_a_thread(&reader);
        until_one_waits(shared);
        pause_for(20 * MS);
        CHECK(reader.status == 77 && sgt_shared_close(&shared) == SGT_BUSY && shared);
        CHECK(sgt_shared_live(shared, live, 1, &count) == SGT_OK && count == 2 && live[0].ticket.tid == 0 && live[0].waits == 0);
        CHECK(sgt_shared_live(shared, live, 2, &count) == SGT_OK && live[1].waits == 1 && live[1].for_ns >= 20 * MS);
        CHECK(live[1].procedure == 0 && live[0].procedure == 1 && live[1].ticket.engine == writer.engine);
        CHECK(sgt_shared_step(shared, &writer, &reply) == SGT_OK && reply.kind == SGT_ENDED);
        if (quits) CHECK(sgt_shared_quit(shared, &writer, &reply) == SGT_OK && reply.fallen == 1);
        else CHECK(sgt_shared_commit(shared, &writer, 0, &reply) == SGT_OK && reply.kind == SGT_COMMITTED);
        pthread_join(reader.id, 0);
        CHECK(reader.status == SGT_OK && reader.reply.kind == (quits ? SGT_OVER : SGT_COMMITTED));
        if (quits) CHECK(reader.reply.cause == SGT_BY_FALL);
        else CHECK(reader.reply.answer[0] == 1600);
        CHECK(lives(shared) == 0);
        closes(shared);
    }
}

/* A thread that reads what another one has written, and commits, again and again, until a round is written that is none. */
struct reader {
    sgt_shared *shared;
    atomic_int written, committed; /* how often */
    atomic_bool is_ended;
};

enum { ROUNDS = 2000, FEW_ROUNDS = 20, ROUNDS_SECONDS = 10, NO_ROUND = ROUNDS + 1 };

static void *reads_on(void *of)
{
    struct reader *it = of;
    for (int round = 1; round <= ROUNDS; round++) {
        sgt_ticket ticket = {0};
        sgt_reply reply = {0};
        while (it->written < round) sched_yield();
        if (it->written == NO_ROUND) return 0;
        uint32_t status = sgt_shared_start(it->shared, 0, name, 1, SGT_FOREVER, &ticket, &reply);
        for (int step = 0; step < 4 && status == SGT_OK; step++) status = sgt_shared_step(it->shared, &ticket, &reply);
        it->is_ended = true;
        if (status == SGT_OK) status = sgt_shared_commit(it->shared, &ticket, SGT_FOREVER, &reply);
        if (status != SGT_OK || reply.kind != SGT_COMMITTED || reply.answer[0] != 1500 + 100 * round) return 0;
        it->committed = round;
    }
    return 0;
}

/* A round: the writer's commit comes before the commit that waits for it, in it or after it. Whether that goes on. */
static bool is_woken(struct reader *reader, int round)
{
    sgt_reply reply = {0};
    const sgt_ticket writer = begins(reader->shared, 4);
    reader->is_ended = false;
    reader->written = round;
    while (!reader->is_ended) sched_yield();
    for (int i = 0; i < round % 50; i++) sched_yield();
    CHECK(sgt_shared_commit(reader->shared, &writer, 0, &reply) == SGT_OK && reply.kind == SGT_COMMITTED);
    for (const int64_t end = seconds() + LONGEST; reader->committed < round && seconds() < end;) sched_yield();
    return reader->committed == round;
}

/* Nobody else is there, so a wake-up that is lost is one for ever. Where each round takes long, there are fewer. */
static void no_wake_up_is_lost(void)
{
    static const char long_one[] = "{\"limits\":[2,10000,1],\"accounts\":[[1,101,500,1000]],\"procedures\":[]}";
    struct reader reader = {0};
    sgt_fault fault = {0};
    pthread_t id;
    int round = 1;
    CHECK(opens(&reader.shared, long_one, 0, &fault) == SGT_OK);
    CHECK(pthread_create(&id, 0, reads_on, &reader) == 0);
    const int64_t end = seconds() + ROUNDS_SECONDS;
    while ((round <= FEW_ROUNDS || seconds() < end) && round <= ROUNDS && is_woken(&reader, round)) round++;
    CHECK(reader.committed == round - 1);
    reader.written = NO_ROUND;
    if (reader.committed == round - 1) pthread_join(id, 0), closes(reader.shared);
}

/* A run that read from a transaction that is aborted is run anew. */
static void a_run_is_tried_again(void)
{
    sgt_shared *shared = bank(0);
    sgt_reply reply = {0};
    sgt_ticket writer = begins(shared, 3);
    struct later reader = {.shared = shared, .call = runs};
    in_a_thread(&reader);
    until_one_waits(shared);
    CHECK(reader.status == 77);
    CHECK(sgt_shared_quit(shared, &writer, &reply) == SGT_OK);
    pthread_join(reader.id, 0);
    CHECK(reader.status == SGT_OK && reader.outcome.reply.kind == SGT_COMMITTED && reader.outcome.reply.answer[0] == 1500);
    CHECK(reader.outcome.tries == 2 && reader.outcome.waits == 1);
    closes(shared);
}

static uint32_t runs_once(struct later *it)
{
    sgt_run_options options = SGT_RUN_OPTIONS;
    it->outcome = (sgt_shared_outcome)SGT_SHARED_OUTCOME;
    options.tries = 1;
    return sgt_shared_run(it->shared, 0, name, 1, &options, &it->outcome);
}

/* With one try, the same run returns how that ended. */
static void a_run_has_so_many_tries(void)
{
    sgt_shared *shared = bank(0);
    sgt_reply reply = {0};
    sgt_ticket writer = begins(shared, 3);
    struct later reader = {.shared = shared, .call = runs_once};
    in_a_thread(&reader);
    until_one_waits(shared);
    CHECK(sgt_shared_quit(shared, &writer, &reply) == SGT_OK);
    pthread_join(reader.id, 0);
    CHECK(reader.status == SGT_OK && reader.outcome.reply.kind == SGT_OVER && reader.outcome.reply.cause == SGT_BY_FALL);
    CHECK(reader.outcome.tries == 1 && reader.outcome.sequence == UINT64_MAX);
    closes(shared);
}

/* A code that comes at a step is an answer, and no conflict. */
static void a_code_is_not_tried_again(void)
{
    static const char two[] = "{\"limits\":[2,100],\"accounts\":[],\"procedures\":[]}";
    sgt_shared *shared = 0;
    sgt_fault fault = {0};
    sgt_shared_outcome outcome = SGT_SHARED_OUTCOME;
    CHECK(opens(&shared, two, 0, &fault) == SGT_OK);
    CHECK(sgt_shared_run(shared, 0, name, 1, 0, &outcome) == SGT_OK && outcome.tries == 1);
    CHECK(outcome.reply.kind == SGT_ABORTED && outcome.reply.cause == SGT_BY_CODE && outcome.reply.code == 1);
    closes(shared);
}

/* A refusal ends a transaction too, so a commit that waits for it goes on. */
static void a_refusal_wakes(void)
{
    static const int64_t too_much[] = {1, -9999}, more[] = {1, 5};
    sgt_shared *shared = bank(0);
    sgt_reply reply = {0};
    sgt_ticket first = {0};
    struct later second = {.shared = shared, .call = commits};
    CHECK(sgt_shared_start(shared, 2, too_much, 2, 0, &first, &reply) == SGT_OK);
    for (int step = 0; step < 3; step++) CHECK(sgt_shared_step(shared, &first, &reply) == SGT_OK);
    CHECK(sgt_shared_start(shared, 2, more, 2, 0, &second.ticket, &reply) == SGT_OK);
    for (int step = 0; step < 3; step++) CHECK(sgt_shared_step(shared, &second.ticket, &reply) == SGT_OK);
    CHECK(reply.kind == SGT_WROTE);
    in_a_thread(&second);
    until_one_waits(shared);
    CHECK(second.status == 77);
    CHECK(sgt_shared_commit(shared, &first, 0, &reply) == SGT_OK && reply.kind == SGT_REFUSED && reply.code == 3);
    pthread_join(second.id, 0);
    CHECK(second.status == SGT_OK && second.reply.kind == SGT_COMMITTED && second.reply.answer[0] == 505);
    closes(shared);
}

/* A start and a run wait while two are live. */
static void a_full_engine_is_waited_for(void)
{
    sgt_shared *shared = bank(0);
    sgt_reply reply = {0};
    sgt_ticket first = begins(shared, 0), second = begins(shared, 0);
    struct later reader = {.shared = shared, .call = runs};
    uint64_t entries = 0, part = 77;
    in_a_thread(&reader);
    until_entries(shared, 3); /* two starts, and one that is refused */
    CHECK(reader.status == 77);
    CHECK(sgt_shared_quit(shared, &first, &reply) == SGT_OK);
    pthread_join(reader.id, 0);
    CHECK(reader.status == SGT_OK && reader.outcome.reply.kind == SGT_COMMITTED && reader.outcome.waits == 1);
    CHECK(sgt_shared_entries(shared, &entries, &part) == SGT_OK && entries > 0 && part == 0);
    CHECK(sgt_shared_entries(shared, 0, 0) == SGT_BAD_CALL);
    CHECK(sgt_shared_limits(shared, 0) == SGT_BAD_CALL && sgt_shared_limits(0, (uint64_t[3]){0}) == SGT_CLOSED);
    CHECK(sgt_shared_quit(shared, &second, &reply) == SGT_OK);
    closes(shared);
}

static void the_history_is_cut_off(void)
{
    sgt_shared *shared = roomy_bank(0), *other = bank(0);
    sgt_reply reply = {0};
    sgt_ticket old = begins(shared, 1), later = {0};
    uint64_t entries = 77, part = 77;
    struct later cutter = {.shared = shared, .call = cuts};
    CHECK(sgt_shared_cut(shared, 5 * MS) == SGT_TIMED_OUT && sgt_shared_cut(shared, 0) == SGT_TIMED_OUT);
    in_a_thread(&cutter);
    until_cut_waits(shared);
    CHECK(cutter.status == 77);
    CHECK(sgt_shared_start(shared, 1, deposit, 2, 5 * MS, &later, &reply) == SGT_TIMED_OUT); /* it waits for the cut */
    CHECK(sgt_shared_quit(shared, &old, &reply) == SGT_OK);
    pthread_join(cutter.id, 0);
    CHECK(cutter.status == SGT_OK);
    CHECK(sgt_shared_entries(shared, &entries, &part) == SGT_OK && entries == 0 && part == 1);
    later = begins(shared, 0);
    CHECK(later.tid == old.tid && later.part == 1 && old.part == 0 && later.engine == old.engine);
    CHECK(sgt_shared_step(shared, &old, &reply) == SGT_STALE && sgt_shared_quit(shared, &old, &reply) == SGT_STALE);
    CHECK(sgt_shared_commit(shared, &old, 0, &reply) == SGT_STALE);
    CHECK(sgt_shared_step(other, &later, &reply) == SGT_MISUSE && sgt_shared_step(shared, &(sgt_ticket){0}, &reply) == SGT_MISUSE);
    CHECK(sgt_shared_step(shared, 0, &reply) == SGT_BAD_CALL && sgt_shared_step(shared, &later, 0) == SGT_BAD_CALL);
    CHECK(lives(shared) == 1);
    closes(shared);
    closes(other);
}

/* What hooks are called with. */

struct heard {
    sgt_shared *shared, *other;
    sgt_ended last;
    uint32_t calls, parts, misuses;
    uint64_t entries;
};

static void hears(void *context, const sgt_ended *call)
{
    struct heard *heard = context;
    sgt_shared_outcome outcome = SGT_SHARED_OUTCOME;
    int64_t value = 0;
    heard->last = *call;
    heard->calls++;
    heard->misuses += sgt_shared_get(heard->shared, 2, 101, &value) == SGT_MISUSE;
    heard->misuses += sgt_shared_run(heard->shared, 0, name, 1, 0, &outcome) == SGT_MISUSE;
    heard->misuses += sgt_shared_close(&heard->shared) == SGT_MISUSE;
    CHECK(sgt_shared_get(heard->other, 2, 101, &value) == SGT_OK); /* another engine may be called */
}

static void hears_cut(void *context, sgt_engine *engine, uint64_t part)
{
    struct heard *heard = context;
    CHECK(part == heard->parts++);
    CHECK(sgt_entries(engine, &heard->entries) == SGT_OK);
    heard->misuses += sgt_shared_cut(heard->shared, 0) == SGT_MISUSE;
}

static void hooks_are_called(void)
{
    struct heard heard = {.other = bank(0)};
    sgt_shared_config config = SGT_SHARED_CONFIG;
    config.ended = hears, config.cutting = hears_cut, config.context = &heard;
    sgt_shared *shared = heard.shared = bank(&config);
    sgt_shared_outcome outcome = SGT_SHARED_OUTCOME;
    sgt_reply reply = {0};
    const int64_t unknown[] = {9, 1};
    CHECK(sgt_shared_run(shared, 1, deposit, 2, 0, &outcome) == SGT_OK && heard.calls == 1 && heard.misuses == 3);
    CHECK(heard.last.sequence == 0 && heard.last.call.kind == SGT_COMMITTED && heard.last.call.procedure == 1 && heard.last.call.args == 2);
    CHECK(outcome.sequence == 0);
    CHECK(heard.last.call.arg[1] == 100 && heard.last.call.answers == 1 && heard.last.call.answer[0] == 1100 && heard.last.wrote == 1);
    CHECK(memcmp(&heard.last.ticket, &outcome.ticket, sizeof outcome.ticket) == 0);
    CHECK(sgt_shared_run(shared, 1, unknown, 2, 0, &outcome) == SGT_OK && heard.calls == 2);
    CHECK(heard.last.call.kind == SGT_REFUSED && heard.last.call.code == 1 && heard.last.call.answers == 0 && heard.last.sequence == 1);
    CHECK(heard.last.wrote == 0);
    CHECK(outcome.sequence == 1);
    sgt_ticket ticket = begins(shared, 1);
    CHECK(sgt_shared_quit(shared, &ticket, &reply) == SGT_OK && heard.calls == 2); /* an abort is not told */
    ticket = begins(shared, 4);
    CHECK(sgt_shared_commit(shared, &ticket, 0, &reply) == SGT_OK && heard.calls == 3 && heard.last.call.answer[0] == 1200);
    CHECK(sgt_shared_cut(shared, 0) == SGT_OK && heard.parts == 1 && heard.entries > 0);
    CHECK(sgt_shared_run(shared, 1, deposit, 2, 0, &outcome) == SGT_OK && heard.last.sequence == 3 && heard.last.ticket.part == 1);
    CHECK(outcome.sequence == 3);
    closes(shared);
    closes(heard.other);
}

/* A cut that its hook has to allow. */

struct asked {
    sgt_shared *shared;
    bool allows;
    uint32_t times;
};

static void may_allow(void *context, sgt_engine *engine, uint64_t part)
{
    struct asked *asked = context;
    (void)engine, (void)part;
    asked->times++;
    if (asked->allows) CHECK(sgt_shared_allow_cut(asked->shared) == SGT_OK);
}

static void cuts_are_allowed(void)
{
    struct asked asked = {.allows = false};
    sgt_shared_config config = SGT_SHARED_CONFIG;
    config.cutting = may_allow, config.context = &asked, config.asks_to_cut = 1;
    sgt_shared *shared = asked.shared = bank(&config);
    sgt_shared_outcome outcome = SGT_SHARED_OUTCOME;
    uint64_t count = 0, part = 77;
    CHECK(sgt_shared_allow_cut(0) == SGT_CLOSED && sgt_shared_allow_cut(shared) == SGT_MISUSE);
    CHECK(sgt_shared_run(shared, 1, deposit, 2, 0, &outcome) == SGT_OK);
    CHECK(sgt_shared_cut(shared, 0) == SGT_NONE && asked.times == 1);
    CHECK(sgt_shared_entries(shared, &count, &part) == SGT_OK && count > 0 && part == 0);
    asked.allows = true;
    CHECK(sgt_shared_cut(shared, 0) == SGT_OK && asked.times == 2);
    CHECK(sgt_shared_entries(shared, &count, &part) == SGT_OK && count == 0 && part == 1);
    CHECK(sgt_shared_run(shared, 1, deposit, 2, 0, &outcome) == SGT_OK);
    asked.allows = false; /* what allowed one cut does not allow the next */
    CHECK(sgt_shared_cut(shared, SGT_FOREVER) == SGT_NONE && asked.times == 3);
    closes(shared);
}

/* Threads that pay in as quickly as they can. */

enum { PAYERS = 4, PAYMENTS = 2000 };

struct payers {
    sgt_shared *shared, *other;
    pthread_t ids[PAYERS];
    atomic_bool is_over;   /* before all payments are made */
    atomic_uint paid, wrong, reported;
};

static void *pays(void *of)
{
    struct payers *it = of;
    int64_t last = 0;
    for (int made = 0; made < PAYMENTS && !it->is_over; made++) {
        sgt_shared_outcome outcome = SGT_SHARED_OUTCOME;
        const uint32_t status = sgt_shared_run(it->shared, 1, deposit, 2, 0, &outcome);
        if (status != SGT_OK || outcome.reply.kind != SGT_COMMITTED || outcome.reply.answers != 1) it->wrong++;
        if (outcome.reply.answer[0] <= last || outcome.tries == 0) it->wrong++;
        last = outcome.reply.answer[0];
        it->paid++;
    }
    return 0;
}

static void pay_in_threads(struct payers *it)
{
    for (int i = 0; i < PAYERS; i++) CHECK(pthread_create(&it->ids[i], 0, pays, it) == 0);
}

static void pay_all(struct payers *it)
{
    int64_t value = 0;
    for (int i = 0; i < PAYERS; i++) pthread_join(it->ids[i], 0);
    CHECK(it->wrong == 0);
    CHECK(sgt_shared_get(it->shared, 2, 101, &value) == SGT_OK && value == 1000 + 100 * (int64_t)it->paid);
}

/* Is called for each payment once, in their order, and calls both engines. */
static void hears_payers(void *context, const sgt_ended *call)
{
    struct payers *it = context;
    sgt_shared_outcome outcome = SGT_SHARED_OUTCOME;
    if (call->sequence != it->reported++ || call->call.answer[0] != 1000 + 100 * (int64_t)it->reported) it->wrong++;
    if (sgt_shared_run(it->shared, 0, name, 1, 0, &outcome) != SGT_MISUSE) it->wrong++;
    if (sgt_shared_run(it->other, 1, deposit, 2, 0, &outcome) != SGT_OK) it->wrong++;
}

static void hooks_are_called_for_all_threads(void)
{
    struct payers others = {0}, payers = {0};
    sgt_shared_config config = SGT_SHARED_CONFIG;
    sgt_fault fault = {0};
    CHECK(opens(&others.shared, roomy, 0, &fault) == SGT_OK);
    config.ended = hears_payers, config.context = &payers;
    CHECK(opens(&payers.shared, roomy, &config, &fault) == SGT_OK);
    payers.other = others.shared;
    pay_in_threads(&payers);
    pay_in_threads(&others);
    pay_all(&payers);
    for (int i = 0; i < PAYERS; i++) pthread_join(others.ids[i], 0);
    CHECK(payers.reported == PAYERS * PAYMENTS && payers.paid == payers.reported && others.wrong == 0);
    int64_t value = 0;
    CHECK(sgt_shared_get(others.shared, 2, 101, &value) == SGT_OK && value == 1000 + 100 * 2 * PAYERS * PAYMENTS);
    closes(payers.shared);
    closes(others.shared);
}

/* However many runs come, others get their turn: reads, steps, cuts and drains. */
static void all_get_their_turn(void)
{
    struct payers payers = {0};
    sgt_shared_config config = SGT_SHARED_CONFIG;
    sgt_fault fault = {0};
    sgt_reply reply = {0};
    sgt_ended calls[64];
    uint64_t many = 0, drained = 0;
    config.keeps_ended = 1;
    CHECK(opens(&payers.shared, roomy, &config, &fault) == SGT_OK);
    pay_in_threads(&payers);
    for (int made = 0; made < 20; made++) {
        int64_t value = 0;
        sgt_ticket ticket = {0};
        CHECK(sgt_shared_get(payers.shared, 2, 101, &value) == SGT_OK && value >= 1000);
        CHECK(sgt_shared_start(payers.shared, 1, deposit, 2, SGT_FOREVER, &ticket, &reply) == SGT_OK);
        if (made % 2) CHECK(sgt_shared_step(payers.shared, &ticket, &reply) == SGT_OK);
        CHECK(sgt_shared_quit(payers.shared, &ticket, &reply) == SGT_OK);
        CHECK(sgt_shared_cut(payers.shared, SGT_FOREVER) == SGT_OK);
        CHECK(sgt_shared_drain(payers.shared, MS, calls, 64, &many) == SGT_OK);
        for (uint64_t i = 0; i < many; i++) CHECK(calls[i].sequence == drained++);
    }
    payers.is_over = true;
    pay_all(&payers);
    do {
        CHECK(sgt_shared_drain(payers.shared, 0, calls, 64, &many) == SGT_OK);
        for (uint64_t i = 0; i < many; i++) CHECK(calls[i].sequence == drained++);
    } while (many > 0);
    CHECK(drained == payers.paid);
    closes(payers.shared);
}

static void ended_calls_are_drained(void)
{
    sgt_shared_config config = SGT_SHARED_CONFIG;
    sgt_shared *plain = bank(0);
    sgt_ended calls[3];
    uint64_t count = 77;
    CHECK(sgt_shared_drain(plain, 0, calls, 3, &count) == SGT_BAD_CALL && count == 77);
    closes(plain);
    config.keeps_ended = 1;
    sgt_shared *shared = bank(&config);
    sgt_shared_outcome outcome = SGT_SHARED_OUTCOME;
    CHECK(sgt_shared_drain(shared, 2 * MS, calls, 3, &count) == SGT_OK && count == 0);
    struct later drainer = {.shared = shared, .call = drains};
    in_a_thread(&drainer);
    pause_for(10 * MS);
    for (int made = 0; made < 6; made++) CHECK(sgt_shared_run(shared, 1, deposit, 2, 0, &outcome) == SGT_OK);
    pthread_join(drainer.id, 0);
    CHECK(drainer.status == SGT_OK);
    CHECK(sgt_shared_cut(shared, 0) == SGT_OK); /* what is stored stays */
    CHECK(sgt_shared_drain(shared, 0, calls, 3, &count) == SGT_OK && count == 3 && calls[0].sequence == 1);
    CHECK(calls[2].sequence == 3 && calls[2].call.answer[0] == 1400 && calls[2].ticket.part == 0);
    CHECK(sgt_shared_drain(shared, 0, calls, 3, &count) == SGT_OK && count == 2 && calls[1].sequence == 5);
    CHECK(sgt_shared_drain(shared, 0, calls, 0, &count) == SGT_BAD_CALL && sgt_shared_drain(shared, 0, 0, 3, &count) == SGT_BAD_CALL);
    closes(shared);
}

static uint32_t drains_until_closed(struct later *it)
{
    sgt_ended call;
    uint64_t count = 77;
    uint32_t status = sgt_shared_drain(it->shared, SGT_FOREVER, &call, 1, &count);
    return count == 77 ? status : 99;
}

/* A close ends a call that waits to drain, and one that waits for a transaction keeps the engine open. */
static void a_close_ends_drains(void)
{
    sgt_shared_config config = SGT_SHARED_CONFIG;
    config.keeps_ended = 1;
    sgt_shared *shared = roomy_bank(&config);
    struct later one = {.shared = shared, .call = drains_until_closed}, other = one;
    struct later cutter = {.shared = shared, .call = cuts};
    sgt_ticket writer = begins(shared, 3);
    sgt_reply reply = {0};
    in_a_thread(&one);
    in_a_thread(&other);
    in_a_thread(&cutter);
    until_cut_waits(shared);
    pause_for(20 * MS);
    CHECK(sgt_shared_close(&shared) == SGT_BUSY && one.status == 77 && other.status == 77);
    CHECK(sgt_shared_quit(shared, &writer, &reply) == SGT_OK);
    pthread_join(cutter.id, 0);
    CHECK(cutter.status == SGT_OK);
    closes(shared);
    pthread_join(one.id, 0);
    pthread_join(other.id, 0);
    CHECK(one.status == SGT_CLOSED && other.status == SGT_CLOSED);
}

/* Many that are live at once can all end, without a start in between. */
static void many_ends_are_stored(void)
{
    static const char wide[] = "{\"limits\":[32,100,1],\"accounts\":[[1,101,500,1000]],\"procedures\":[]}";
    sgt_shared_config config = SGT_SHARED_CONFIG;
    sgt_shared *shared = 0;
    sgt_fault fault = {0};
    sgt_reply reply = {0};
    sgt_ticket tickets[32];
    sgt_ended ended[33];
    uint64_t count = 0;
    config.keeps_ended = 1;
    CHECK(opens(&shared, wide, &config, &fault) == SGT_OK);
    for (int i = 0; i < 32; i++) CHECK(sgt_shared_start(shared, 0, name, 1, 0, &tickets[i], &reply) == SGT_OK);
    for (int i = 31; i >= 0; i--) {
        for (int step = 0; step < 4; step++) CHECK(sgt_shared_step(shared, &tickets[i], &reply) == SGT_OK);
        CHECK(sgt_shared_commit(shared, &tickets[i], 0, &reply) == SGT_OK && reply.kind == SGT_COMMITTED);
    }
    CHECK(sgt_shared_drain(shared, 0, ended, 33, &count) == SGT_OK && count == 32);
    CHECK(ended[0].ticket.tid == 31 && ended[31].ticket.tid == 0 && ended[31].call.answer[0] == 1500);
    closes(shared);
}

static void cuts_come_by_themselves(void)
{
    sgt_shared_config config = SGT_SHARED_CONFIG;
    config.cut_after = 20, config.cut_wait_ns = 5 * MS;
    sgt_shared *shared = bank(&config);
    sgt_shared_outcome outcome = SGT_SHARED_OUTCOME;
    sgt_reply reply = {0};
    uint64_t entries = 0, part = 0;
    for (int made = 0; made < 200; made++) { /* more than the limits allow to start in one part */
        CHECK(sgt_shared_run(shared, 1, deposit, 2, 0, &outcome) == SGT_OK && outcome.reply.kind == SGT_COMMITTED);
    }
    CHECK(sgt_shared_entries(shared, &entries, &part) == SGT_OK && entries < 20 && part == 50);
    sgt_ticket idle = begins(shared, 0); /* it stays live, so the cut is put off */
    const int64_t other[] = {2, 1};
    for (int made = 0; made < 12; made++) CHECK(sgt_shared_run(shared, 1, other, 2, 0, &outcome) == SGT_OK);
    CHECK(sgt_shared_entries(shared, &entries, &part) == SGT_OK && entries > 60 && part == 50);
    CHECK(sgt_shared_quit(shared, &idle, &reply) == SGT_OK);
    for (int made = 0; made < 12; made++) CHECK(sgt_shared_run(shared, 1, other, 2, 0, &outcome) == SGT_OK);
    CHECK(sgt_shared_entries(shared, &entries, &part) == SGT_OK && part > 50);
    closes(shared);
}

/* Runs until the history was cut off, or this often. The number of the part. */
static uint64_t part_after_runs(sgt_shared *shared, int most)
{
    uint64_t part = 0, entries = 0;
    for (int made = 0; made < most && part == 0; made++) {
        sgt_shared_outcome outcome = SGT_SHARED_OUTCOME;
        CHECK(sgt_shared_run(shared, 1, deposit, 2, 0, &outcome) == SGT_OK && outcome.reply.kind == SGT_COMMITTED);
        if (made % 1000 == 999) CHECK(sgt_shared_entries(shared, &entries, &part) == SGT_OK);
    }
    CHECK(entries < 1000000);
    return part;
}

static void hears_nothing(void *context, const sgt_ended *call) { (void)context, (void)call; }

/* A history that nobody reads does not grow for ever. Of one account, each run has five entries. */
static void a_history_is_cut_unless_somebody_reads_it(void)
{
    sgt_shared_config never = SGT_SHARED_CONFIG, heard = SGT_SHARED_CONFIG;
    sgt_shared *shared[3] = {0};
    sgt_fault fault = {0};
    never.cut_after = SGT_NEVER, heard.ended = hears_nothing;
    CHECK(opens(&shared[0], roomy, 0, &fault) == SGT_OK && opens(&shared[1], roomy, &never, &fault) == SGT_OK);
    CHECK(opens(&shared[2], roomy, &heard, &fault) == SGT_OK);
    CHECK(part_after_runs(shared[0], 300000) == 1);
    for (int i = 1; i < 3; i++) {
        uint64_t entries = 0, part = 77;
        sgt_shared_outcome outcome = SGT_SHARED_OUTCOME;
        do {
            CHECK(sgt_shared_run(shared[i], 1, deposit, 2, 0, &outcome) == SGT_OK);
            CHECK(sgt_shared_entries(shared[i], &entries, &part) == SGT_OK && part == 0);
        } while (entries < 1000010 && part == 0);
    }
    for (int i = 0; i < 3; i++) closes(shared[i]);
}

static void a_forked_child_is_refused(void)
{
    sgt_shared *shared = bank(0);
    int64_t value = 0;
    int status = 0;
    pid_t child = fork();
    if (child == 0) {
        uint32_t got = sgt_shared_get(shared, 2, 101, &value), closed = sgt_shared_close(&shared);
        _exit(got == SGT_MISUSE && closed == SGT_MISUSE ? 0 : 1);
    }
    CHECK(child > 0 && waitpid(child, &status, 0) == child && status == 0);
    CHECK(sgt_shared_get(shared, 2, 101, &value) == SGT_OK && value == 1000);
    closes(shared);
}

static void numbers_and_texts_are_reported(void)
{
    static const uint32_t numbers[] = {SGT_BUSY, SGT_TIMED_OUT, SGT_STALE, SGT_MISUSE};
    CHECK(numbers[0] == 10 && numbers[1] == 12 && numbers[2] == 13 && numbers[3] == 14);
    CHECK(strcmp(sgt_version(), SGT_VERSION) == 0);
    for (uint32_t status = 0; status < 24; status++) {
        for (uint32_t other = 0; other < status; other++) {
            int is_none = strcmp(sgt_status_text(status), sgt_status_text(24)) == 0;
            CHECK(is_none || strcmp(sgt_status_text(status), sgt_status_text(other)) != 0);
        }
    }
    CHECK(strcmp(sgt_status_text(SGT_TIMED_OUT), "the deadline came") == 0);
}

int main(void)
{
    engines_are_opened_and_closed();
    an_engine_is_taken_over();
    a_run_is_reported();
    a_run_that_has_to_wait_is_never_left_behind();
    a_commit_waits();
    no_wake_up_is_lost();
    a_run_is_tried_again();
    a_run_has_so_many_tries();
    a_code_is_not_tried_again();
    a_refusal_wakes();
    a_full_engine_is_waited_for();
    the_history_is_cut_off();
    hooks_are_called();
    cuts_are_allowed();
    hooks_are_called_for_all_threads();
    all_get_their_turn();
    ended_calls_are_drained();
    a_close_ends_drains();
    many_ends_are_stored();
    cuts_come_by_themselves();
    a_history_is_cut_unless_somebody_reads_it();
    a_forked_child_is_refused();
    numbers_and_texts_are_reported();
    printf("%d checks, %d failed\n", checks, failed);
    return failed != 0;
}
