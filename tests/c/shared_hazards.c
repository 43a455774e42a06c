/*
 * What may go wrong around a shared engine: a close beside calls and hooks, calls that come late, threads that are cancelled or end in a
 * hook, transactions that are abandoned in a hook, and calls that are interrupted while they wait. Each failed check is printed; the last
 * line counts them.
 *
 * No check depends on how soon a thread goes on: what a loop here waits for comes, and stays until the loop has seen it.
 *
 * It is linked with --wrap=pthread_mutex_trylock, so that a call can be held up just before it takes the lock, or after.
 */
#include <pthread.h>
#include <sched.h>
#include <stdatomic.h>
#include <stdio.h>
#include <string.h>
#include <time.h>

#include "sgt_shared.h"

static atomic_int checks, failed;

#define CHECK(holds) check((holds) != 0, #holds, __LINE__)

static void check(int holds, const char *text, int line)
{
    checks++;
    if (holds) return;
    failed++;
    printf("line %d: %s\n", line, text);
}

enum { CLOSES = 100, SECOND = 1000000000, SLICE = SECOND / 5 };

/* Procedure 5 writes a record, 7 reads it, and 6 writes another one. Two may be live. */
static const char opening[] = "{\"limits\":[2,100000,1],\"accounts\":[],\"procedures\":"
                              "[[0,[[\"put\",7,1,5]]],[0,[[\"put\",7,2,6]]],[0,[[\"look\",0,7,1,6]]]]}";
enum { WRITE = 5, WRITE_OTHER = 6, READ = 7 };

static sgt_shared *opened(const sgt_shared_config *config)
{
    sgt_shared *shared = 0;
    sgt_fault fault = {0};
    CHECK(sgt_shared_open(&shared, opening, strlen(opening), 0, 0, config, &fault) == SGT_OK);
    return shared;
}

static void closes(sgt_shared *shared) { CHECK(sgt_shared_close(&shared) == SGT_OK && !shared); }

/* Starts a transaction, and lets it make this many accesses. */
static sgt_ticket begins(sgt_shared *shared, uint64_t procedure, int steps)
{
    sgt_ticket ticket = {0};
    sgt_reply reply = {0};
    CHECK(sgt_shared_start(shared, procedure, 0, 0, 0, &ticket, &reply) == SGT_OK && reply.kind == SGT_STARTED);
    while (steps-- > 0) CHECK(sgt_shared_step(shared, &ticket, &reply) == SGT_OK);
    return ticket;
}

static void quits(sgt_shared *shared, const sgt_ticket *ticket)
{
    sgt_reply reply = {0};
    CHECK(sgt_shared_quit(shared, ticket, &reply) == SGT_OK && reply.kind == SGT_ABORTED);
}

static uint64_t lives(sgt_shared *shared)
{
    uint64_t count = 77;
    CHECK(sgt_shared_live(shared, 0, 0, &count) == SGT_OK);
    return count;
}

static void sleep_for(long ns) { nanosleep(&(struct timespec){0, ns}, 0); }

/* Whether a transaction waits for its commit. */
static int waits(sgt_shared *shared)
{
    sgt_live rows[2] = {0};
    uint64_t count = 0;
    CHECK(sgt_shared_live(shared, rows, 2, &count) == SGT_OK);
    return rows[0].waits || rows[1].waits;
}

/* Calls that are held up around the lock, and a close beside them */

/* Where the next call of this thread is held up: until it may go on, or, if it is late, for a while. */
enum place { NOWHERE, BEFORE, FOLLOWING, LATE };

static _Thread_local enum place held_up;
static atomic_int is_held_up, may_go_on;

int __real_pthread_mutex_trylock(pthread_mutex_t *lock);
int __wrap_pthread_mutex_trylock(pthread_mutex_t *lock);

static void hold_up(void)
{
    held_up = NOWHERE;
    is_held_up = 1;
    while (!may_go_on) sched_yield();
}

int __wrap_pthread_mutex_trylock(pthread_mutex_t *lock)
{
    if (held_up == BEFORE) hold_up();
    if (held_up == LATE) held_up = NOWHERE, sleep_for(SLICE / 10);
    const int failed = __real_pthread_mutex_trylock(lock);
    if (held_up == FOLLOWING && !failed) hold_up();
    return failed;
}

static void *runs_slowly(void *of)
{
    sgt_shared_outcome outcome = SGT_SHARED_OUTCOME;
    held_up = BEFORE;
    CHECK(sgt_shared_run(of, WRITE, 0, 0, 0, &outcome) == SGT_CLOSED && outcome.tries == 0);
    return 0;
}

static void a_call_that_has_begun_finds_the_engine_closed(void)
{
    sgt_shared *shared = opened(0);
    pthread_t thread;
    is_held_up = may_go_on = 0;
    CHECK(pthread_create(&thread, 0, runs_slowly, shared) == 0);
    while (!is_held_up) sched_yield();
    closes(shared);
    closes(opened(0)); /* it has other memory */
    may_go_on = 1;
    pthread_join(thread, 0);
}

/* A call that is held up before it takes the lock, while its engine is closed and another one gets its memory. */
struct late {
    sgt_shared *shared;
    sgt_ticket ticket;
    uint32_t (*call)(struct late *it);
    uint32_t status;
};

static uint32_t counts_entries(struct late *it)
{
    uint64_t count = 0;
    return sgt_shared_entries(it->shared, &count, 0);
}

static uint32_t steps(struct late *it)
{
    sgt_reply reply = {0};
    return sgt_shared_step(it->shared, &it->ticket, &reply);
}

static uint32_t commits_ticket(struct late *it)
{
    sgt_reply reply = {0};
    return sgt_shared_commit(it->shared, &it->ticket, 0, &reply);
}

static uint32_t abandons_ticket(struct late *it) { return sgt_shared_abandon(it->shared, &it->ticket); }

static uint32_t runs_once(struct late *it)
{
    sgt_shared_outcome outcome = SGT_SHARED_OUTCOME;
    return sgt_shared_run(it->shared, WRITE, 0, 0, 0, &outcome);
}

static void *calls_late(void *of)
{
    struct late *it = of;
    held_up = BEFORE;
    it->status = it->call(it);
    return 0;
}

enum { MOST_OPENED = 1000 }; /* far more than are set aside before memory serves again */

/* Another engine with the memory of one that was closed. */
static sgt_shared *opened_there(const sgt_shared *there)
{
    sgt_shared *shared = opened(0);
    for (int made = 0; made < MOST_OPENED && shared != there; made++) {
        closes(shared);
        shared = opened(0);
    }
    CHECK(shared == there);
    return shared;
}

/* Its transaction has the same number, and is live. */
static void a_late_call_acts_on_no_other_engine(void)
{
    static uint32_t (*const calls[])(struct late *) = {
        counts_entries, steps, commits_ticket, abandons_ticket, runs_once,
    };
    for (int i = 0; i < 5; i++) {
        struct late it = {.shared = opened(0), .call = calls[i]};
        pthread_t thread;
        uint64_t count = 0;
        it.ticket = begins(it.shared, WRITE, 1);
        is_held_up = may_go_on = 0;
        CHECK(pthread_create(&thread, 0, calls_late, &it) == 0);
        while (!is_held_up) sched_yield();
        closes(it.shared);
        sgt_shared *other = opened_there(it.shared);
        const sgt_ticket same = begins(other, WRITE, 1);
        CHECK(same.tid == it.ticket.tid && same.part == it.ticket.part);
        may_go_on = 1;
        pthread_join(thread, 0);
        CHECK(it.status == SGT_CLOSED && lives(other) == 1);
        CHECK(sgt_shared_entries(other, &count, 0) == SGT_OK && count == 2);
        closes(other);
    }
}

/* Counts entries until the engine is closed. */
static void *counts(void *of)
{
    uint64_t count = 0;
    uint32_t status = SGT_OK;
    while (status == SGT_OK) status = sgt_shared_entries(of, &count, 0);
    CHECK(status == SGT_CLOSED);
    return 0;
}

/* However often threads come back for the lock, the close takes it. */
static void a_close_beside_calls_closes(void)
{
    for (int made = 0; made < CLOSES; made++) {
        sgt_shared *shared = opened(0), *same = shared;
        pthread_t threads[2];
        for (int i = 0; i < 2; i++) CHECK(pthread_create(&threads[i], 0, counts, shared) == 0);
        if (made % 2) sleep_for(SLICE / 2000);
        CHECK(sgt_shared_close(&same) == SGT_OK && !same);
        for (int i = 0; i < 2; i++) pthread_join(threads[i], 0);
        CHECK(sgt_shared_close(&shared) == SGT_CLOSED);
    }
}

/* Makes a call that holds the lock until it may go on. */
static void *counts_slowly(void *of)
{
    uint64_t count = 0;
    held_up = FOLLOWING;
    CHECK(sgt_shared_entries(of, &count, 0) == SGT_OK);
    return 0;
}

static void *closes_beside(void *of)
{
    closes(of);
    return 0;
}

/* Threads that wait for the lock already, and for longer than the close, find the engine closed. */
static void a_close_comes_before_calls_that_wait(void)
{
    sgt_shared *shared = opened(0);
    pthread_t threads[4];
    is_held_up = may_go_on = 0;
    CHECK(pthread_create(&threads[0], 0, counts_slowly, shared) == 0);
    while (!is_held_up) sched_yield();
    for (int i = 1; i < 3; i++) CHECK(pthread_create(&threads[i], 0, counts, shared) == 0);
    sleep_for(SLICE / 10);
    CHECK(pthread_create(&threads[3], 0, closes_beside, shared) == 0);
    sleep_for(SLICE / 10);
    may_go_on = 1;
    for (int i = 0; i < 4; i++) pthread_join(threads[i], 0);
}

/* A close on another thread, for which a hook waits. */
struct closing {
    sgt_shared *shared;
    pthread_t thread;
    int has_begun; /* whether the close began before the hook */
    uint32_t status;
};

static void *closes_for_hook(void *of)
{
    struct closing *it = of;
    sgt_shared *same = it->shared;
    it->status = sgt_shared_close(&same);
    return 0;
}

static void awaits_close(void *context, const sgt_ended *ended)
{
    struct closing *it = context;
    (void)ended;
    if (!it->has_begun) CHECK(pthread_create(&it->thread, 0, closes_for_hook, it) == 0);
    pthread_join(it->thread, 0);
}

static void *runs_behind_lock(void *of)
{
    sgt_shared_outcome outcome = SGT_SHARED_OUTCOME;
    held_up = FOLLOWING;
    CHECK(sgt_shared_run(of, WRITE, 0, 0, 0, &outcome) == SGT_OK);
    return 0;
}

static void a_close_never_waits_for_a_hook(void)
{
    for (int has_begun = 0; has_begun < 2; has_begun++) {
        sgt_shared_config config = SGT_SHARED_CONFIG;
        struct closing it = {.has_begun = has_begun};
        pthread_t thread;
        config.ended = awaits_close;
        config.context = &it;
        it.shared = opened(&config);
        is_held_up = 0;
        may_go_on = !has_begun;
        CHECK(pthread_create(&thread, 0, runs_behind_lock, it.shared) == 0);
        while (!is_held_up) sched_yield();
        if (has_begun) CHECK(pthread_create(&it.thread, 0, closes_for_hook, &it) == 0);
        sleep_for(SLICE / 10);
        may_go_on = 1;
        pthread_join(thread, 0);
        CHECK(it.status == SGT_BUSY);
        closes(it.shared);
    }
}

/* A deadline that comes before the lock: the run is not started. One of 0 never waits, but for the lock. */
static void a_run_is_not_started_late(void)
{
    static const int64_t waits[] = {SLICE / 20, 1, 0, SGT_FOREVER};
    for (int i = 0; i < 4; i++) {
        sgt_shared *shared = opened(0);
        sgt_run_options options = SGT_RUN_OPTIONS;
        sgt_shared_outcome outcome = SGT_SHARED_OUTCOME;
        const int is_late = i < 2;
        uint64_t count = 77;
        options.wait_ns = waits[i];
        held_up = LATE;
        CHECK(sgt_shared_run(shared, WRITE, 0, 0, &options, &outcome) == (is_late ? SGT_TIMED_OUT : SGT_OK) && held_up == NOWHERE);
        CHECK(outcome.tries == (is_late ? 0 : 1) && outcome.waits == 0 && outcome.size == sizeof outcome);
        CHECK(outcome.reply.kind == (is_late ? 0 : SGT_COMMITTED));
        CHECK(sgt_shared_entries(shared, &count, 0) == SGT_OK && count == (is_late ? 0 : 4));
        closes(shared);
    }
}

/* Threads that are cancelled or end */

struct commit {
    sgt_shared *shared;
    sgt_ticket ticket;
    int64_t wait_ns;
    uint32_t status;
    sgt_reply reply;
    atomic_int is_cancelled;
};

static void *commits(void *of)
{
    struct commit *it = of;
    it->status = sgt_shared_commit(it->shared, &it->ticket, it->wait_ns, &it->reply);
    while (!it->is_cancelled) sched_yield(); /* which is no cancellation point */
    pthread_testcancel();
    it->status = 77;
    return 0;
}

static void a_cancelled_thread_holds_nothing(void)
{
    sgt_shared *shared = opened(0);
    const sgt_ticket writer = begins(shared, WRITE, 1);
    struct commit it = {.shared = shared, .ticket = begins(shared, READ, 2), .wait_ns = SLICE};
    pthread_t thread;
    void *ended = 0;
    CHECK(pthread_create(&thread, 0, commits, &it) == 0);
    sleep_for(SLICE / 4);
    pthread_cancel(thread);
    it.is_cancelled = 1;
    pthread_join(thread, &ended);
    CHECK(ended == PTHREAD_CANCELED && it.status == SGT_TIMED_OUT && lives(shared) == 2);
    it.wait_ns = SGT_FOREVER;
    CHECK(pthread_create(&thread, 0, commits, &it) == 0);
    while (!waits(shared)) sched_yield();
    pthread_cancel(thread);
    sleep_for(SLICE / 10);
    CHECK(waits(shared)); /* it goes on */
    quits(shared, &writer);
    pthread_join(thread, &ended);
    CHECK(ended == PTHREAD_CANCELED && it.status == SGT_OK && it.reply.kind == SGT_OVER && it.reply.cause == SGT_BY_FALL);
    CHECK(lives(shared) == 0);
    closes(shared);
}

static atomic_int is_reported, is_cancelled;

/* A hook that is a cancellation point. */
static void dawdles(void *context, const sgt_ended *ended)
{
    (void)context, (void)ended;
    is_reported = 1;
    while (!is_cancelled) sched_yield();
    sleep_for(1000);
}

/* A hook that ends its thread. */
static void exits(void *context, const sgt_ended *ended)
{
    (void)ended;
    pthread_exit(context);
}

static void *runs(void *of)
{
    sgt_shared_outcome outcome = SGT_SHARED_OUTCOME;
    CHECK(sgt_shared_run(of, WRITE, 0, 0, 0, &outcome) == SGT_OK);
    pthread_testcancel();
    return 0;
}

static void a_thread_that_is_cancelled_in_a_hook_holds_nothing(void)
{
    sgt_shared_config config = SGT_SHARED_CONFIG;
    pthread_t thread;
    void *ended = 0;
    config.ended = dawdles;
    sgt_shared *shared = opened(&config);
    CHECK(pthread_create(&thread, 0, runs, shared) == 0);
    while (!is_reported) sched_yield();
    pthread_cancel(thread);
    is_cancelled = 1;
    pthread_join(thread, &ended);
    CHECK(ended == PTHREAD_CANCELED && lives(shared) == 0);
    closes(shared);
}

static void a_thread_that_ends_in_a_hook_holds_nothing(void)
{
    sgt_shared_config config = SGT_SHARED_CONFIG;
    pthread_t thread;
    void *ended = 0;
    int64_t value = 0;
    config.ended = exits;
    config.context = &config;
    sgt_shared *shared = opened(&config);
    CHECK(pthread_create(&thread, 0, runs, shared) == 0);
    pthread_join(thread, &ended);
    CHECK(ended == &config && lives(shared) == 0);
    CHECK(sgt_shared_get(shared, 7, 1, &value) == SGT_OK && value == 5);
    closes(shared);
}

/* Engines whose hooks call the next one */

enum { RING = 3, CALLS = 2000 };

struct ring {
    sgt_shared *engines[RING];
    int of; /* the engine of a hook or of a thread */
    uint64_t misuses;
};

static void calls_the_next(void *context, const sgt_ended *ended)
{
    struct ring *it = context;
    uint64_t count = 0;
    (void)ended;
    const uint32_t status = sgt_shared_entries(it->engines[(it->of + 1) % RING], &count, 0);
    CHECK(status == SGT_OK || status == SGT_MISUSE);
    it->misuses += status == SGT_MISUSE;
}

static void *runs_often(void *of)
{
    struct ring *it = of;
    for (int made = 0; made < CALLS; made++) {
        sgt_shared_outcome outcome = SGT_SHARED_OUTCOME;
        CHECK(sgt_shared_run(it->engines[it->of], WRITE, 0, 0, 0, &outcome) == SGT_OK && outcome.reply.kind == SGT_COMMITTED);
    }
    return 0;
}

static void hooks_that_call_each_other_do_not_lock_up(void)
{
    struct ring rings[RING] = {0};
    pthread_t threads[RING];
    uint64_t count = 0, misuses = 0;
    for (int i = 0; i < RING; i++) {
        sgt_shared_config config = SGT_SHARED_CONFIG;
        config.ended = calls_the_next;
        config.context = &rings[i];
        rings[i].of = i;
        sgt_shared *shared = opened(&config);
        for (int other = 0; other < RING; other++) rings[other].engines[i] = shared;
    }
    for (int i = 0; i < RING; i++) CHECK(pthread_create(&threads[i], 0, runs_often, &rings[i]) == 0);
    for (int i = 0; i < RING; i++) pthread_join(threads[i], 0);
    for (int i = 0; i < RING; i++) misuses += rings[i].misuses;
    CHECK(misuses < RING * CALLS); /* most calls are made */
    for (int i = 0; i < RING; i++) CHECK(sgt_shared_entries(rings[0].engines[i], &count, 0) == SGT_OK && count == 4 * CALLS);
    for (int i = 0; i < RING; i++) closes(rings[0].engines[i]);
}

/* Transactions that are abandoned */

struct abandoned {
    sgt_shared *shared;
    sgt_ticket tickets[2];
    uint32_t reported[3], quit, count;
};

static void abandons(void *context, const sgt_ended *ended)
{
    struct abandoned *it = context;
    sgt_reply reply = {0};
    sgt_ticket strange = it->tickets[0];
    (void)ended;
    strange.engine++;
    it->quit = sgt_shared_quit(it->shared, &it->tickets[0], &reply);
    for (uint32_t i = 0; i < it->count; i++) it->reported[i] = sgt_shared_abandon(it->shared, &it->tickets[i]);
    it->reported[2] = sgt_shared_abandon(it->shared, &strange);
}

static void a_transaction_is_abandoned_in_a_hook(void)
{
    sgt_shared_config config = SGT_SHARED_CONFIG;
    struct abandoned it = {.count = 1};
    sgt_shared_outcome outcome = SGT_SHARED_OUTCOME;
    sgt_reply reply = {0};
    config.ended = abandons;
    config.context = &it;
    it.shared = opened(&config);
    it.tickets[0] = begins(it.shared, WRITE, 1);
    CHECK(sgt_shared_run(it.shared, WRITE_OTHER, 0, 0, 0, &outcome) == SGT_OK);
    CHECK(it.quit == SGT_MISUSE && it.reported[0] == SGT_OK && it.reported[2] == SGT_MISUSE && lives(it.shared) == 0);
    CHECK(sgt_shared_step(it.shared, &it.tickets[0], &reply) == SGT_OK && reply.kind == SGT_OVER && reply.cause == SGT_BY_QUIT);
    it.tickets[0] = begins(it.shared, READ, 1);
    CHECK(sgt_shared_abandon(it.shared, &it.tickets[0]) == SGT_OK && lives(it.shared) == 0); /* outside a hook */
    CHECK(sgt_shared_abandon(it.shared, 0) == SGT_BAD_CALL && sgt_shared_abandon(0, &it.tickets[0]) == SGT_CLOSED);
    CHECK(sgt_shared_cut(it.shared, 0) == SGT_OK && sgt_shared_abandon(it.shared, &it.tickets[0]) == SGT_STALE);
    closes(it.shared);
}

/* Calls that are interrupted */

struct watch {
    sgt_shared *shared;
    int asked, after; /* it is interrupted when it has been asked so often */
    uint32_t close;
};

static uint32_t is_interrupted(void *context)
{
    struct watch *it = context;
    sgt_shared *same = it->shared;
    it->close = sgt_shared_close(&same);
    CHECK(lives(it->shared) <= 2); /* the lock is free */
    return ++it->asked == it->after;
}

/* A writer of another thread: this one never waits for its own without a deadline. */
struct other {
    sgt_shared *shared;
    sgt_ticket ticket;
};

static void *begins_writer(void *context)
{
    struct other *it = context;
    it->ticket = begins(it->shared, WRITE, 1);
    return 0;
}

static sgt_ticket begins_elsewhere(sgt_shared *shared)
{
    struct other it = {.shared = shared};
    pthread_t thread;
    CHECK(pthread_create(&thread, 0, begins_writer, &it) == 0 && pthread_join(thread, 0) == 0);
    return it.ticket;
}

static void waiting_calls_are_interrupted(void)
{
    sgt_shared_config config = SGT_SHARED_CONFIG;
    sgt_shared_outcome outcome = SGT_SHARED_OUTCOME;
    sgt_ended ended = {0};
    sgt_reply reply = {0};
    sgt_ticket third = {0};
    uint64_t count = 77;
    config.keeps_ended = 1;
    struct watch it = {.shared = opened(&config), .after = 2};
    const sgt_ticket writer = begins_elsewhere(it.shared), reader = begins(it.shared, READ, 2);
    sgt_shared_watch(is_interrupted, &it);
    CHECK(sgt_shared_commit(it.shared, &reader, SGT_FOREVER, &reply) == SGT_TIMED_OUT && it.asked == 2 && it.close == SGT_BUSY);
    it.asked = 0;
    CHECK(sgt_shared_start(it.shared, READ, 0, 0, SGT_FOREVER, &third, &reply) == SGT_TIMED_OUT && it.asked == 2);
    it.asked = 0;
    CHECK(sgt_shared_drain(it.shared, SGT_FOREVER, &ended, 1, &count) == SGT_OK && it.asked == 2 && count == 0);
    quits(it.shared, &reader);
    it.asked = 0;
    CHECK(sgt_shared_cut(it.shared, SGT_FOREVER) == SGT_TIMED_OUT && it.asked == 2);
    it.asked = 0;
    CHECK(sgt_shared_run(it.shared, READ, 0, 0, 0, &outcome) == SGT_TIMED_OUT && it.asked == 2 && lives(it.shared) == 1);
    it.asked = 0;
    CHECK(sgt_shared_cut(it.shared, INT64_C(3600) * SECOND) == SGT_TIMED_OUT && it.asked == 2);
    sgt_shared_watch(0, 0);
    it.asked = 0;
    CHECK(sgt_shared_cut(it.shared, SLICE) == SGT_TIMED_OUT && it.asked == 0);
    quits(it.shared, &writer);
    closes(it.shared);
}

/* While a cut is due, a start waits for it, and is interrupted there too. */
static void a_start_is_interrupted_before_a_cut(void)
{
    sgt_shared_config config = SGT_SHARED_CONFIG;
    sgt_reply reply = {0};
    sgt_ticket second = {0};
    config.cut_after = 1;
    config.cut_wait_ns = SGT_FOREVER - 1;
    struct watch it = {.shared = opened(&config), .after = 1};
    const sgt_ticket first = begins(it.shared, WRITE, 1);
    sgt_shared_watch(is_interrupted, &it);
    CHECK(sgt_shared_start(it.shared, WRITE, 0, 0, SGT_FOREVER, &second, &reply) == SGT_TIMED_OUT && it.asked == 1);
    sgt_shared_watch(0, 0);
    quits(it.shared, &first);
    closes(it.shared);
}

/* A cut that waits for the writer, and what is started meanwhile. */
struct place_of_cut {
    sgt_shared *shared;
    sgt_ticket writer, second;
    pthread_t starter;
    int asked;
};

static void *starts_after_cut(void *of)
{
    struct place_of_cut *it = of;
    sgt_reply reply = {0};
    CHECK(sgt_shared_start(it->shared, READ, 0, 0, SGT_FOREVER, &it->second, &reply) == SGT_OK && reply.kind == SGT_STARTED);
    return 0;
}

/* While the thread that waits for the cut is asked, no start comes past the cut. When it has been asked twice, the cut may come. */
static uint32_t starts_when_asked(void *context)
{
    struct place_of_cut *it = context;
    sgt_ticket ticket = {0};
    sgt_reply reply = {0};
    CHECK(sgt_shared_start(it->shared, READ, 0, 0, 0, &ticket, &reply) == SGT_TIMED_OUT && lives(it->shared) == 1);
    if (++it->asked == 1) CHECK(pthread_create(&it->starter, 0, starts_after_cut, it) == 0);
    if (it->asked == 2) quits(it->shared, &it->writer);
    return 0;
}

/*
 * A thread that is asked keeps its place: no start comes past the cut that it waits for. That start rests beside it, so
 * what ends is announced to somebody: shared_rests.c has each call rest alone.
 */
static void a_watched_cut_holds_starts_up(void)
{
    struct place_of_cut it = {.shared = opened(0)};
    it.writer = begins_elsewhere(it.shared);
    sgt_shared_watch(starts_when_asked, &it);
    CHECK(sgt_shared_cut(it.shared, SGT_FOREVER) == SGT_OK && it.asked == 2);
    sgt_shared_watch(0, 0);
    CHECK(pthread_join(it.starter, 0) == 0 && it.second.part == 1);
    quits(it.shared, &it.second);
    closes(it.shared);
}

int main(void)
{
    a_call_that_has_begun_finds_the_engine_closed();
    a_late_call_acts_on_no_other_engine();
    a_close_beside_calls_closes();
    a_close_comes_before_calls_that_wait();
    a_close_never_waits_for_a_hook();
    a_run_is_not_started_late();
    a_cancelled_thread_holds_nothing();
    a_thread_that_is_cancelled_in_a_hook_holds_nothing();
    a_thread_that_ends_in_a_hook_holds_nothing();
    hooks_that_call_each_other_do_not_lock_up();
    a_transaction_is_abandoned_in_a_hook();
    waiting_calls_are_interrupted();
    a_start_is_interrupted_before_a_cut();
    a_watched_cut_holds_starts_up();
    printf("%d checks, %d failed\n", checks, failed);
    return failed != 0;
}
