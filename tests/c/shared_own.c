/*
 * The calls of sgt_shared.h for transactions whose accesses their caller decides, and transaction functions: each call with its status and
 * its results, bodies that are left in every way, tries that are made alone, and threads that would wait for themselves. Each failed check
 * is printed; the last line counts all checks.
 */
#include <pthread.h>
#include <sched.h>
#include <setjmp.h>
#include <stdatomic.h>
#include <stdbool.h>
#include <stdio.h>
#include <string.h>
#include <sys/wait.h>
#include <time.h>
#include <unistd.h>

#include "sgt_shared.h"

static atomic_int checks, failed;

#define CHECK(holds) check((holds) != 0, #holds, __LINE__)

static void check(int holds, const char *text, int line)
{
    checks++;
    if (holds) return;
    failed++;
    printf("line %d: %s\n", line, text);
}

enum { MS = 1000000, TABLE = 7 };

static const char opening[] = "{\"limits\":[4,100000,1],\"accounts\":[],\"procedures\":[]}";

/* An engine with the values 10, 20, 30 in records 1, 2, 3 of the table. Four may be live. */
static sgt_shared *opened(const sgt_shared_config *config)
{
    const sgt_row rows[] = {{TABLE, 0, 1, 10}, {TABLE, 0, 2, 20}, {TABLE, 0, 3, 30}};
    sgt_shared *shared = 0;
    sgt_fault fault = {0};
    CHECK(sgt_shared_open(&shared, opening, strlen(opening), rows, 3, config, &fault) == SGT_OK);
    return shared;
}

static void closes(sgt_shared *shared) { CHECK(sgt_shared_close(&shared) == SGT_OK && !shared); }

static uint64_t lives(sgt_shared *shared)
{
    uint64_t count = 77;
    CHECK(sgt_shared_live(shared, 0, 0, &count) == SGT_OK);
    return count;
}

static sgt_ticket begins(sgt_shared *shared)
{
    sgt_ticket ticket = {0};
    sgt_reply reply = {0};
    CHECK(sgt_shared_begin(shared, 0, &ticket, &reply) == SGT_OK && reply.kind == SGT_STARTED && reply.tid == ticket.tid);
    return ticket;
}

static uint32_t reads(sgt_shared *shared, const sgt_ticket *ticket, int64_t number)
{
    sgt_reply reply = {0};
    CHECK(sgt_shared_read(shared, ticket, TABLE, number, &reply) == SGT_OK);
    return reply.kind;
}

static uint32_t writes(sgt_shared *shared, const sgt_ticket *ticket, int64_t number, int64_t value)
{
    sgt_reply reply = {0};
    CHECK(sgt_shared_write(shared, ticket, TABLE, number, value, &reply) == SGT_OK);
    return reply.kind;
}

static int64_t got(sgt_shared *shared, int64_t number)
{
    int64_t value = -1;
    const uint32_t status = sgt_shared_get(shared, TABLE, number, &value);
    CHECK(status == SGT_OK || status == SGT_NONE);
    return value;
}

static void commits(sgt_shared *shared, const sgt_ticket *ticket)
{
    sgt_reply reply = {0};
    CHECK(sgt_shared_commit(shared, ticket, 0, &reply) == SGT_OK && reply.kind == SGT_COMMITTED && reply.answers == 0);
}

static void quits(sgt_shared *shared, const sgt_ticket *ticket)
{
    sgt_reply reply = {0};
    CHECK(sgt_shared_quit(shared, ticket, &reply) == SGT_OK && reply.kind == SGT_ABORTED);
}

static void accesses_are_made_one_by_one(void)
{
    sgt_shared *shared = opened(0);
    const sgt_ticket t = begins(shared);
    sgt_reply reply = {0};
    sgt_access accesses[4] = {{0}};
    uint64_t count = 0;
    CHECK(sgt_shared_read(shared, &t, TABLE, 1, &reply) == SGT_OK && reply.kind == SGT_LOOKED && reply.found && reply.value == 10);
    CHECK(sgt_shared_read(shared, &t, TABLE, 9, &reply) == SGT_OK && reply.kind == SGT_LOOKED && !reply.found);
    CHECK(sgt_shared_write(shared, &t, TABLE, 9, 90, &reply) == SGT_OK && reply.kind == SGT_WROTE && reply.found && reply.value == 90);
    CHECK(sgt_shared_remove(shared, &t, TABLE, 1, &reply) == SGT_OK && reply.kind == SGT_WROTE && !reply.found && reply.number == 1);
    CHECK(got(shared, 9) == -1 && got(shared, 1) == 10);
    CHECK(sgt_shared_accesses(shared, &t, 0, 0, &count) == SGT_OK && count == 4);
    CHECK(sgt_shared_accesses(shared, &t, accesses, 4, &count) == SGT_OK && count == 4);
    CHECK(accesses[0].kind == SGT_READ && accesses[0].found && accesses[0].value == 10);
    CHECK(accesses[1].kind == SGT_READ && !accesses[1].found && accesses[1].number == 9 && accesses[1].table == TABLE);
    CHECK(accesses[2].kind == SGT_WRITE && accesses[2].value == 90 && accesses[3].kind == SGT_REMOVE && !accesses[3].found);
    commits(shared, &t);
    CHECK(got(shared, 9) == 90 && got(shared, 1) == -1);
    CHECK(sgt_shared_read(shared, &t, TABLE, 1, &reply) == SGT_OK && reply.kind == SGT_OVER && reply.cause == SGT_BY_COMMIT);
    closes(shared);
}

static void wrong_accesses_are_reported(void)
{
    sgt_shared *shared = opened(0), *other = opened(0);
    const sgt_ticket t = begins(shared);
    sgt_ticket far = t;
    sgt_reply reply = {0};
    uint64_t count = 0;
    far.tid = 50;
    CHECK(sgt_shared_read(shared, &t, 8, 1, &reply) == SGT_BAD_CALL && sgt_shared_write(shared, &t, 8, 1, 1, &reply) == SGT_BAD_CALL);
    CHECK(sgt_shared_remove(shared, &t, TABLE, SGT_MOST + 1, &reply) == SGT_BAD_CALL && reply.kind == 0);
    CHECK(sgt_shared_write(shared, &t, TABLE, 1, SGT_MOST + 1, &reply) == SGT_OK && reply.kind == SGT_BAD_ARGS);
    CHECK(sgt_shared_read(shared, &far, TABLE, 1, &reply) == SGT_OK && reply.kind == SGT_UNKNOWN);
    CHECK(sgt_shared_read(other, &t, TABLE, 1, &reply) == SGT_MISUSE && sgt_shared_read(0, &t, TABLE, 1, &reply) == SGT_CLOSED);
    CHECK(sgt_shared_read(shared, 0, TABLE, 1, &reply) == SGT_BAD_CALL && sgt_shared_read(shared, &t, TABLE, 1, 0) == SGT_BAD_CALL);
    CHECK(sgt_shared_begin(shared, 0, 0, &reply) == SGT_BAD_CALL && sgt_shared_begin(0, 0, &far, &reply) == SGT_CLOSED);
    CHECK(sgt_shared_accesses(shared, &t, 0, 1, &count) == SGT_BAD_CALL && sgt_shared_accesses(shared, &t, 0, 0, 0) == SGT_BAD_CALL);
    commits(shared, &t);
    CHECK(sgt_shared_cut(shared, 0) == SGT_OK && sgt_shared_write(shared, &t, TABLE, 1, 1, &reply) == SGT_STALE);
    closes(shared);
    closes(other);
}

/* Transaction functions: what they are passed, and what they note. */
struct note {
    sgt_shared *shared;
    int calls;               /* how often it was called */
    int conflicts;           /* in so many calls something comes in its way */
    uint32_t status;         /* of its last access */
    uint32_t returns;
    int64_t value;
    sgt_ticket other;
    jmp_buf back;
};

static const sgt_shared_outcome fresh = SGT_SHARED_OUTCOME;

/* Adds 1 to record 1. */
static uint32_t adds(void *context, sgt_transaction *t)
{
    struct note *note = context;
    note->calls++;
    note->status = sgt_transaction_read(t, TABLE, 1, &note->value);
    if (note->status != SGT_OK) return SGT_BODY_QUIT;
    note->status = sgt_transaction_write(t, TABLE, 1, note->value + 1);
    return note->returns;
}

static void functions_are_committed_or_quit(void)
{
    sgt_shared *shared = opened(0);
    sgt_shared_outcome out = fresh;
    struct note note = {.returns = SGT_BODY_COMMIT};
    CHECK(sgt_shared_transact(shared, adds, &note, 0, &out) == SGT_OK && out.reply.kind == SGT_COMMITTED && got(shared, 1) == 11);
    CHECK(out.tries == 1 && out.waits == 0 && note.calls == 1 && note.status == SGT_OK && out.ticket.part == 0);
    note.returns = SGT_BODY_QUIT;
    CHECK(sgt_shared_transact(shared, adds, &note, 0, &out) == SGT_OK && out.reply.kind == SGT_ABORTED && out.reply.cause == SGT_BY_QUIT);
    CHECK(got(shared, 1) == 11 && lives(shared) == 0);
    note.returns = 77;
    CHECK(sgt_shared_transact(shared, adds, &note, 0, &out) == SGT_BAD_CALL && got(shared, 1) == 11 && lives(shared) == 0);
    closes(shared);
}

/* A body that returns a status has made a mistake, whichever status it is, and commits nothing. */
static void functions_that_return_a_status_are_reported(void)
{
    sgt_shared *shared = opened(0);
    sgt_shared_outcome out = fresh;
    for (uint32_t status = SGT_OK; status <= 255; status++) {
        struct note note = {.returns = status};
        CHECK(sgt_shared_transact(shared, adds, &note, 0, &out) == SGT_BAD_CALL && note.calls == 1 && out.reply.kind == 0);
    }
    CHECK(got(shared, 1) == 10 && lives(shared) == 0);
    closes(shared);
}

/* Commits its own transaction, or makes the next try of it, and goes on as if that were allowed. */
static uint32_t commits_itself(void *context, sgt_transaction *t)
{
    struct note *note = context;
    CHECK(sgt_transaction_write(t, TABLE, 1, 9) == SGT_OK && t->is_live);
    if (note->calls++ == 0) CHECK(sgt_transaction_commit(t, SGT_FOREVER) == SGT_MISUSE);
    else CHECK(sgt_shared_try(note->shared, t, 0) == SGT_MISUSE);
    CHECK(t->is_live && sgt_transaction_write(t, TABLE, 1, 10) == SGT_OK);
    return note->returns;
}

/* Aborts its own transaction, and continues. */
static uint32_t quits_itself(void *context, sgt_transaction *t)
{
    struct note *note = context;
    note->calls++;
    CHECK(sgt_transaction_write(t, TABLE, 1, 9) == SGT_OK && sgt_transaction_quit(t) == SGT_OK);
    CHECK(sgt_transaction_write(t, TABLE, 1, 10) == SGT_MISUSE && sgt_transaction_read(t, TABLE, 1, &note->value) == SGT_MISUSE);
    return note->returns;
}

/* Commits its own transaction by its ticket, which is not seen at once. */
static uint32_t commits_its_ticket(void *context, sgt_transaction *t)
{
    struct note *note = context;
    CHECK(sgt_transaction_write(t, TABLE, 1, 9) == SGT_OK);
    commits(note->shared, &t->ticket);
    for (int i = 0; i < 2; i++) CHECK(sgt_transaction_write(t, TABLE, 1, 10) == SGT_MISUSE);
    return note->returns;
}

static void functions_that_end_themselves_are_reported(void)
{
    sgt_shared *shared = opened(0);
    sgt_shared_outcome out = fresh;
    const uint32_t returns[] = {SGT_BODY_COMMIT, SGT_BODY_QUIT};
    for (int i = 0; i < 2; i++) {
        struct note note = {.shared = shared, .returns = returns[i]};
        for (int j = 0; j < 2; j++) CHECK(sgt_shared_transact(shared, commits_itself, &note, 0, &out) == SGT_MISUSE && out.reply.kind == 0);
        CHECK(note.calls == 2 && got(shared, 1) == 10 && lives(shared) == 0);
    }
    for (int i = 0; i < 2; i++) {
        struct note note = {.returns = returns[i]};
        CHECK(sgt_shared_transact(shared, quits_itself, &note, 0, &out) == SGT_OK && note.calls == 1);
        CHECK(out.reply.kind == SGT_ABORTED && out.reply.cause == SGT_BY_QUIT && got(shared, 1) == 10);
    }
    struct note note = {.shared = shared, .returns = SGT_BODY_COMMIT};
    CHECK(sgt_shared_transact(shared, commits_its_ticket, &note, 0, &out) == SGT_OK);
    CHECK(out.reply.kind == SGT_OVER && out.reply.cause == SGT_BY_COMMIT && got(shared, 1) == 9 && lives(shared) == 0);
    closes(shared);
}

static void wrong_functions_are_reported(void)
{
    sgt_shared *shared = opened(0);
    sgt_shared_outcome out = fresh, small = {.size = sizeof small - 1};
    sgt_transact_options options = SGT_TRANSACT_OPTIONS;
    struct note note = {.returns = SGT_BODY_COMMIT};
    sgt_transaction t = SGT_TRANSACTION;
    int64_t value = 0;
    CHECK(sgt_shared_transact(0, adds, &note, 0, &out) == SGT_CLOSED && sgt_shared_transact(shared, 0, &note, 0, &out) == SGT_BAD_CALL);
    CHECK(sgt_shared_transact(shared, adds, &note, 0, 0) == SGT_BAD_CALL);
    CHECK(sgt_shared_transact(shared, adds, &note, 0, &small) == SGT_BAD_CALL);
    options.size--;
    CHECK(sgt_shared_transact(shared, adds, &note, &options, &out) == SGT_BAD_CALL && sgt_shared_try(shared, &t, &options) == SGT_BAD_CALL);
    CHECK(note.calls == 0 && sgt_shared_try(shared, 0, 0) == SGT_BAD_CALL && sgt_shared_try(0, &t, 0) == SGT_CLOSED);
    CHECK(sgt_transaction_read(&t, TABLE, 1, &value) == SGT_BAD_CALL && sgt_transaction_commit(&t, 0) == SGT_BAD_CALL);
    CHECK(sgt_transaction_quit(&t) == SGT_BAD_CALL && sgt_transaction_read(0, TABLE, 1, &value) == SGT_BAD_CALL);
    t.size--;
    CHECK(sgt_shared_try(shared, &t, 0) == SGT_BAD_CALL && sgt_transaction_commit(0, 0) == SGT_BAD_CALL);
    closes(shared);
}

/* Makes an access that fails, and ends as if it had not. */
static uint32_t fails(void *context, sgt_transaction *t)
{
    struct note *note = context;
    CHECK(sgt_transaction_write(t, TABLE, 1, 5) == SGT_OK && sgt_transaction_read(t, TABLE, 1, 0) == SGT_BAD_CALL);
    CHECK(sgt_transaction_read(t, TABLE, 9, &note->value) == SGT_NONE && sgt_transaction_remove(t, TABLE, 9) == SGT_OK);
    CHECK(sgt_transaction_read(t, 8, 1, &note->value) == SGT_BAD_CALL || note->calls);
    CHECK(sgt_transaction_write(t, TABLE, 1, SGT_LEAST - 1) == SGT_BAD_CALL && sgt_transaction_remove(t, 8, 1) == SGT_BAD_CALL);
    return note->returns;
}

static void failed_accesses_commit_nothing(void)
{
    sgt_shared *shared = opened(0);
    sgt_shared_outcome out = fresh;
    struct note note = {.returns = SGT_BODY_COMMIT};
    CHECK(sgt_shared_transact(shared, fails, &note, 0, &out) == SGT_BAD_CALL && out.reply.kind == 0 && out.tries == 1);
    note.returns = SGT_BODY_QUIT;
    CHECK(sgt_shared_transact(shared, fails, &note, 0, &out) == SGT_BAD_CALL && got(shared, 1) == 10 && lives(shared) == 0);
    closes(shared);
}

/* Removes record 1, and reads that it is gone. */
static uint32_t removes(void *context, sgt_transaction *t)
{
    struct note *note = context;
    CHECK(sgt_transaction_remove(t, TABLE, 1) == SGT_OK);
    note->status = sgt_transaction_read(t, TABLE, 1, &note->value);
    return SGT_BODY_COMMIT;
}

static void records_are_removed(void)
{
    sgt_shared *shared = opened(0);
    sgt_shared_outcome out = fresh;
    struct note note = {.value = 77};
    uint64_t count = 0;
    CHECK(sgt_shared_transact(shared, removes, &note, 0, &out) == SGT_OK && out.reply.kind == SGT_COMMITTED);
    CHECK(note.status == SGT_NONE && note.value == 77 && got(shared, 1) == -1);
    CHECK(sgt_shared_rows(shared, 0, SGT_LEAST, 0, 0, &count) == SGT_OK && count == 2);
    closes(shared);
}

/* Comes into a cycle with another transaction, in its first calls. The other one is committed before it is tried again. */
static uint32_t meets(void *context, sgt_transaction *t)
{
    struct note *note = context;
    const bool in_way = note->calls++ < note->conflicts;
    int64_t value = 0;
    if (in_way) note->other = begins(note->shared), writes(note->shared, &note->other, 2, note->calls);
    uint32_t status = sgt_transaction_write(t, TABLE, 1, note->calls);
    CHECK(status == SGT_OK);
    if (in_way) CHECK(reads(note->shared, &note->other, 1) == SGT_LOOKED);
    status = sgt_transaction_read(t, TABLE, 2, &value);
    CHECK(status == (in_way ? SGT_UNDONE : SGT_OK));
    if (in_way) CHECK(sgt_transaction_write(t, TABLE, 3, 1) == SGT_UNDONE && sgt_transaction_read(t, TABLE, 3, &value) == SGT_UNDONE);
    if (in_way) CHECK(lives(note->shared) == 0); /* the other one has read what was undone */
    note->value = value;
    return note->returns;
}

static void conflicts_are_tried_again(void)
{
    sgt_shared *shared = opened(0);
    sgt_shared_outcome out = fresh;
    struct note note = {.shared = shared, .conflicts = 3, .returns = SGT_BODY_COMMIT};
    CHECK(sgt_shared_transact(shared, meets, &note, 0, &out) == SGT_OK && out.reply.kind == SGT_COMMITTED);
    CHECK(out.tries == 4 && note.calls == 4 && got(shared, 1) == 4 && note.value == 20 && lives(shared) == 0);
    note = (struct note){.shared = shared, .conflicts = 1, .returns = SGT_BODY_QUIT};
    CHECK(sgt_shared_transact(shared, meets, &note, 0, &out) == SGT_OK && out.reply.kind == SGT_ABORTED && out.tries == 2);
    closes(shared);
}

/* Reads what another transaction wrote, which is then undone. */
static uint32_t reads_undone(void *context, sgt_transaction *t)
{
    struct note *note = context;
    const bool in_way = note->calls++ < note->conflicts;
    if (in_way) note->other = begins(note->shared), writes(note->shared, &note->other, 1, 99);
    CHECK(sgt_transaction_read(t, TABLE, 1, &note->value) == SGT_OK && note->value == (in_way ? 99 : 10));
    if (in_way) quits(note->shared, &note->other);
    if (in_way && note->calls == 1) return SGT_BODY_COMMIT;
    if (in_way && note->calls == 2) CHECK(sgt_transaction_write(t, TABLE, 2, 1) == SGT_UNDONE);
    if (in_way && note->calls == 3) CHECK(sgt_shared_cut(note->shared, 0) == SGT_OK && sgt_transaction_write(t, TABLE, 2, 1) == SGT_UNDONE);
    if (in_way && note->calls == 4) CHECK(sgt_shared_cut(note->shared, 0) == SGT_OK);
    if (in_way) return SGT_BODY_QUIT;
    return SGT_BODY_COMMIT;
}

static void cascading_aborts_are_tried_again(void)
{
    sgt_shared *shared = opened(0);
    sgt_shared_outcome out = fresh;
    struct note note = {.shared = shared, .conflicts = 5};
    CHECK(sgt_shared_transact(shared, reads_undone, &note, 0, &out) == SGT_OK && out.reply.kind == SGT_COMMITTED);
    CHECK(out.tries == 6 && note.calls == 6 && note.value == 10 && lives(shared) == 0 && out.ticket.part == 2);
    closes(shared);
}

/* Is aborted by another thread. */
static uint32_t is_quit(void *context, sgt_transaction *t)
{
    struct note *note = context;
    note->calls++;
    quits(note->shared, &t->ticket);
    CHECK(sgt_transaction_write(t, TABLE, 1, 1) == SGT_UNDONE || note->returns == 0);
    return note->returns;
}

static void transactions_that_others_quit_are_reported(void)
{
    sgt_shared *shared = opened(0);
    sgt_shared_outcome out = fresh;
    struct note note = {.shared = shared, .returns = SGT_BODY_COMMIT};
    CHECK(sgt_shared_transact(shared, is_quit, &note, 0, &out) == SGT_OK && out.reply.kind == SGT_OVER && out.reply.cause == SGT_BY_QUIT);
    note.returns = SGT_BODY_QUIT;
    CHECK(sgt_shared_transact(shared, is_quit, &note, 0, &out) == SGT_OK && out.reply.kind == SGT_OVER && note.calls == 2);
    closes(shared);
}

static void spent_starts_are_reported(void)
{
    static const char few[] = "{\"limits\":[1,1,1],\"accounts\":[],\"procedures\":[]}";
    sgt_shared *shared = 0;
    sgt_fault fault = {0};
    sgt_shared_outcome out = fresh;
    struct note note = {.returns = SGT_BODY_COMMIT};
    CHECK(sgt_shared_open(&shared, few, strlen(few), 0, 0, 0, &fault) == SGT_OK);
    CHECK(sgt_shared_transact(shared, removes, &note, 0, &out) == SGT_OK && out.reply.kind == SGT_COMMITTED);
    CHECK(sgt_shared_transact(shared, adds, &note, 0, &out) == SGT_OK && out.reply.kind == SGT_SPENT && out.tries == 0 && note.calls == 0);
    closes(shared);
}

/* Tries that are made alone */

struct beside {
    sgt_shared *shared;
    atomic_int begun, done;
    atomic_bool is_on;
    int64_t seen;
};

/* Begins and commits one transaction. */
static void *begins_beside(void *context)
{
    struct beside *it = context;
    sgt_ticket ticket = {0};
    sgt_reply reply = {0};
    it->begun = 1;
    CHECK(sgt_shared_begin(it->shared, SGT_FOREVER, &ticket, &reply) == SGT_OK && reply.kind == SGT_STARTED);
    it->seen = it->is_on;
    commits(it->shared, &ticket);
    it->done = 1;
    return 0;
}

static void naps(int ms)
{
    const struct timespec nap = {ms / 1000, ms % 1000 * 1000000L};
    nanosleep(&nap, 0);
}

/* Looks whether another thread's start waits for it. */
static uint32_t is_alone(void *context, sgt_transaction *t)
{
    struct beside *it = context;
    pthread_t thread;
    CHECK(sgt_transaction_write(t, TABLE, 1, 5) == SGT_OK && lives(it->shared) == 1);
    it->is_on = true;
    CHECK(pthread_create(&thread, 0, begins_beside, it) == 0);
    while (!it->begun) sched_yield();
    naps(30);
    CHECK(!it->done && lives(it->shared) == 1);
    it->is_on = false;
    CHECK(pthread_detach(thread) == 0);
    return SGT_BODY_COMMIT;
}

static void the_try_that_is_alone_holds_others_up(void)
{
    sgt_shared *shared = opened(0);
    struct beside it = {.shared = shared};
    sgt_transact_options options = SGT_TRANSACT_OPTIONS;
    sgt_shared_outcome out = fresh;
    options.tries = 0;
    CHECK(sgt_shared_transact(shared, is_alone, &it, &options, &out) == SGT_OK && out.reply.kind == SGT_COMMITTED && out.tries == 1);
    while (!it.done) sched_yield();
    CHECK(it.seen == 0 && lives(shared) == 0);
    naps(5);
    closes(shared);
}

/* Commits its ticket after a while. */
struct later {
    sgt_shared *shared;
    sgt_ticket ticket;
};

static void *commits_later(void *context)
{
    struct later *it = context;
    sgt_reply reply = {0};
    CHECK(sgt_shared_read(it->shared, &it->ticket, TABLE, 3, &reply) == SGT_OK); /* it is this thread's from now on */
    naps(20);
    commits(it->shared, &it->ticket);
    return 0;
}

static void the_try_that_is_alone_waits_for_others(void)
{
    sgt_shared *shared = opened(0);
    struct later later = {shared, begins(shared)};
    struct note note = {.returns = SGT_BODY_COMMIT};
    sgt_transact_options options = SGT_TRANSACT_OPTIONS;
    sgt_shared_outcome out = fresh;
    sgt_ticket ticket = {0};
    sgt_reply reply = {0};
    pthread_t thread;
    options.tries = 0, options.wait_ns = 5 * MS;
    CHECK(pthread_create(&thread, 0, commits_later, &later) == 0);
    while (sgt_shared_accesses(shared, &later.ticket, 0, 0, &(uint64_t){0}) == SGT_OK && lives(shared) == 1) {
        if (sgt_shared_transact(shared, adds, &note, &options, &out) == SGT_OK) break;
        CHECK(note.calls == 0 && out.tries == 0);
        CHECK(sgt_shared_begin(shared, 0, &ticket, &reply) == SGT_OK); /* nobody waits any more to be alone */
        quits(shared, &ticket);
    }
    options.wait_ns = SGT_FOREVER;
    if (note.calls == 0) CHECK(sgt_shared_transact(shared, adds, &note, &options, &out) == SGT_OK);
    CHECK(pthread_join(thread, 0) == 0 && out.reply.kind == SGT_COMMITTED && lives(shared) == 0);
    closes(shared);
}

/* A function that always meets another one, as long as it is not alone. */
static uint32_t is_unlucky(void *context, sgt_transaction *t)
{
    struct note *note = context;
    sgt_ticket other = {0};
    sgt_reply reply = {0};
    int64_t value = 0;
    note->calls++;
    CHECK(sgt_transaction_write(t, TABLE, 1, note->calls) == SGT_OK);
    note->status = sgt_shared_begin(note->shared, SGT_FOREVER, &other, &reply);
    if (note->status != SGT_OK) return SGT_BODY_COMMIT;
    writes(note->shared, &other, 2, 1);
    reads(note->shared, &other, 1);
    CHECK(sgt_transaction_read(t, TABLE, 2, &value) == SGT_UNDONE);
    return SGT_BODY_COMMIT;
}

static void the_unlucky_are_alone_at_last(void)
{
    sgt_shared *shared = opened(0);
    struct note note = {.shared = shared};
    sgt_shared_outcome out = fresh;
    CHECK(sgt_shared_transact(shared, is_unlucky, &note, 0, &out) == SGT_OK && out.reply.kind == SGT_COMMITTED);
    CHECK(out.tries == 9 && note.calls == 9 && note.status == SGT_SELF_WAIT && got(shared, 1) == 9);
    closes(shared);
}

/* Writes what a run reads, and aborts when the run waits for that: as often as the run is not alone. */
static void *undoes(void *context)
{
    struct beside *it = context;
    while (!it->done) {
        sgt_ticket ticket = {0};
        sgt_reply reply = {0};
        sgt_live rows[4];
        uint64_t count = 0;
        if (sgt_shared_begin(it->shared, MS, &ticket, &reply) != SGT_OK) continue;
        CHECK(sgt_shared_write(it->shared, &ticket, 2, 101, 1, &reply) == SGT_OK && reply.kind == SGT_WROTE);
        it->begun = 1;
        for (int looks = 0; looks < 100; looks++) {
            CHECK(sgt_shared_live(it->shared, rows, 4, &count) == SGT_OK);
            if (count == 2 && rows[1].waits) break;
            naps(1);
        }
        quits(it->shared, &ticket);
    }
    return 0;
}

static sgt_shared *bank(void)
{
    static const char accounts[] = "{\"limits\":[4,100000,1],\"accounts\":[[1,101,500,1000]],\"procedures\":[]}";
    sgt_shared *shared = 0;
    sgt_fault fault = {0};
    CHECK(sgt_shared_open(&shared, accounts, strlen(accounts), 0, 0, 0, &fault) == SGT_OK);
    return shared;
}

static void unlucky_runs_are_alone_at_last(void)
{
    static const int64_t deposit[] = {1, 100};
    struct beside it = {.shared = bank()};
    sgt_run_options options = SGT_RUN_OPTIONS;
    sgt_shared_outcome out = fresh;
    pthread_t thread;
    CHECK(pthread_create(&thread, 0, undoes, &it) == 0);
    while (!it.begun) sched_yield();
    CHECK(sgt_shared_run(it.shared, 1, deposit, 2, 0, &out) == SGT_OK && out.reply.kind == SGT_COMMITTED);
    CHECK(out.tries <= 9 && out.reply.answer[0] == 1100); /* fewer only if the other thread was too slow */
    it.begun = 0;
    options.tries = 3;
    while (!it.begun) sched_yield();
    CHECK(sgt_shared_run(it.shared, 1, deposit, 2, &options, &out) == SGT_OK && out.tries <= 3);
    it.done = 1;
    CHECK(pthread_join(thread, 0) == 0 && lives(it.shared) == 0);
    closes(it.shared);
}

/* A caller's accesses after those of a procedure. */
static void accesses_may_follow_a_procedure(void)
{
    static const int64_t deposit[] = {1, 100};
    sgt_shared *shared = bank();
    sgt_ticket t = {0};
    sgt_reply reply = {0};
    uint64_t count = 0;
    int64_t value = 0;
    CHECK(sgt_shared_start(shared, 1, deposit, 2, 0, &t, &reply) == SGT_OK && reply.kind == SGT_STARTED);
    CHECK(sgt_shared_write(shared, &t, 1, 101, 7, &reply) == SGT_OK && reply.kind == SGT_NOT_ENDED);
    do CHECK(sgt_shared_step(shared, &t, &reply) == SGT_OK);
    while (reply.kind != SGT_ENDED);
    CHECK(sgt_shared_read(shared, &t, 2, 101, &reply) == SGT_OK && reply.value == 1100);
    CHECK(sgt_shared_write(shared, &t, 1, 101, 7, &reply) == SGT_OK && reply.kind == SGT_WROTE);
    CHECK(sgt_shared_commit(shared, &t, 0, &reply) == SGT_OK && reply.kind == SGT_COMMITTED && reply.answer[0] == 1100);
    CHECK(sgt_shared_accesses(shared, &t, 0, 0, &count) == SGT_OK && count == 2);
    CHECK(sgt_shared_get(shared, 1, 101, &value) == SGT_OK && value == 7);
    closes(shared);
}

/* Waiting for oneself */

static void threads_that_wait_for_themselves_are_reported(void)
{
    sgt_shared *shared = opened(0);
    const sgt_ticket first = begins(shared), second = begins(shared);
    sgt_ticket more[3] = {{0}};
    sgt_reply reply = {0};
    struct note note = {.returns = SGT_BODY_COMMIT};
    sgt_shared_outcome out = fresh;
    writes(shared, &first, 1, 1);
    writes(shared, &second, 1, 2);
    CHECK(sgt_shared_commit(shared, &second, SGT_FOREVER, &reply) == SGT_SELF_WAIT && reply.kind == SGT_WAITS && reply.tid == first.tid && lives(shared) == 2);
    CHECK(sgt_shared_commit(shared, &second, MS, &reply) == SGT_TIMED_OUT && lives(shared) == 2);
    CHECK(sgt_shared_transact(shared, adds, &note, 0, &out) == SGT_SELF_WAIT && note.calls == 1 && lives(shared) == 2);
    CHECK(sgt_shared_cut(shared, SGT_FOREVER) == SGT_SELF_WAIT && sgt_shared_cut(shared, MS) == SGT_TIMED_OUT);
    more[0] = begins(shared), more[1] = begins(shared);
    CHECK(sgt_shared_begin(shared, SGT_FOREVER, &more[2], &reply) == SGT_SELF_WAIT);
    CHECK(sgt_shared_begin(shared, MS, &more[2], &reply) == SGT_TIMED_OUT);
    quits(shared, &more[0]), quits(shared, &more[1]);
    commits(shared, &first);
    CHECK(sgt_shared_commit(shared, &second, SGT_FOREVER, &reply) == SGT_OK && reply.kind == SGT_COMMITTED);
    closes(shared);
}

/* Two threads, each with a transaction that the other one waits for. */
static void *waits_through_another(void *context)
{
    struct later *it = context;
    sgt_reply reply = {0};
    const uint32_t status = sgt_shared_commit(it->shared, &it->ticket, SGT_FOREVER, &reply);
    CHECK(status == SGT_OK && reply.kind == SGT_COMMITTED);
    return 0;
}

static void threads_that_wait_through_others_are_reported(void)
{
    sgt_shared *shared = opened(0);
    sgt_reply reply = {0};
    sgt_live rows[4];
    uint64_t count = 0;
    pthread_t thread;
    const sgt_ticket mine = begins(shared);
    writes(shared, &mine, 1, 1);
    struct later theirs = {shared, begins(shared)};
    writes(shared, &theirs.ticket, 1, 2); /* has to wait for the first */
    writes(shared, &theirs.ticket, 2, 2);
    const sgt_ticket last = begins(shared);
    writes(shared, &last, 2, 3); /* has to wait for theirs */
    CHECK(pthread_create(&thread, 0, waits_through_another, &theirs) == 0);
    do {
        CHECK(sgt_shared_live(shared, rows, 4, &count) == SGT_OK && count == 3);
    } while (!rows[1].waits);
    CHECK(sgt_shared_commit(shared, &last, SGT_FOREVER, &reply) == SGT_SELF_WAIT);
    commits(shared, &mine);
    CHECK(sgt_shared_commit(shared, &last, SGT_FOREVER, &reply) == SGT_OK && reply.kind == SGT_COMMITTED);
    CHECK(pthread_join(thread, 0) == 0 && got(shared, 2) == 3);
    closes(shared);
}

/* Bodies that do not return */

static uint32_t jumps(void *context, sgt_transaction *t)
{
    struct note *note = context;
    CHECK(sgt_transaction_write(t, TABLE, 1, 99) == SGT_OK);
    longjmp(note->back, 1);
}

static void bodies_may_jump(void)
{
#ifdef __GLIBC__
    sgt_shared *shared = opened(0);
    struct note note = {.shared = shared, .returns = SGT_BODY_COMMIT};
    sgt_transact_options options = SGT_TRANSACT_OPTIONS;
    sgt_shared_outcome out = fresh;
    options.tries = 0;
    for (volatile int i = 0; i < 3; i++) {
        if (setjmp(note.back) == 0) sgt_shared_transact(shared, jumps, &note, &options, &out), CHECK(0);
    }
    CHECK(lives(shared) == 0 && got(shared, 1) == 10);
    CHECK(sgt_shared_transact(shared, adds, &note, 0, &out) == SGT_OK && got(shared, 1) == 11);
    closes(shared);
#endif
}

static uint32_t exits(void *context, sgt_transaction *t)
{
    struct note *note = context;
    CHECK(sgt_transaction_write(t, TABLE, 1, 99) == SGT_OK);
    note->calls = 1;
    if (note->returns == 0) pthread_exit(0);
    for (;;) naps(1000), pthread_testcancel();
}

static void *runs_exits(void *context)
{
    struct note *note = context;
    sgt_shared_outcome out = fresh;
    sgt_shared_transact(note->shared, exits, note, 0, &out);
    CHECK(0);
    return 0;
}

static void threads_may_end_in_bodies(void)
{
    sgt_shared *shared = opened(0);
    for (uint32_t cancelled = 0; cancelled < 2; cancelled++) {
        struct note note = {.shared = shared, .returns = cancelled};
        pthread_t thread;
        CHECK(pthread_create(&thread, 0, runs_exits, &note) == 0);
        if (cancelled) naps(20), CHECK(pthread_cancel(thread) == 0);
        CHECK(pthread_join(thread, 0) == 0);
        CHECK(lives(shared) == 0 && got(shared, 1) == 10);
    }
    closes(shared);
}

/* Bodies that put another transaction in the place of their own */

struct swap {
    sgt_shared *of; /* the engine of the other one */
    sgt_transaction other;
    bool goes_back;
};

static void swap(sgt_transaction *one, sgt_transaction *other)
{
    const sgt_transaction had = *one;
    *one = *other, *other = had;
}

static uint32_t swaps(void *context, sgt_transaction *t)
{
    struct swap *it = context;
    CHECK(sgt_transaction_write(t, TABLE, 1, 5) == SGT_OK);
    CHECK(sgt_shared_try(it->of, &it->other, 0) == SGT_OK && sgt_transaction_write(&it->other, TABLE, 2, 6) == SGT_OK);
    swap(t, &it->other);
    if (it->goes_back) swap(t, &it->other);
    return SGT_BODY_COMMIT;
}

/* It ends its transaction, and begins another one. */
static uint32_t begins_anew(void *context, sgt_transaction *t)
{
    CHECK(sgt_transaction_quit(t) == SGT_OK && sgt_shared_try(context, t, 0) == SGT_OK);
    CHECK(sgt_transaction_write(t, TABLE, 1, 5) == SGT_OK);
    return SGT_BODY_COMMIT;
}

static void bodies_may_not_swap(void)
{
    sgt_shared *shared = opened(0), *other = opened(0);
    for (int is_other = 0; is_other < 2; is_other++) {
        struct swap it = {.of = is_other ? other : shared, .other = SGT_TRANSACTION};
        sgt_shared_outcome out = fresh;
        CHECK(sgt_shared_transact(shared, swaps, &it, 0, &out) == SGT_MISUSE);
        CHECK(out.tries == 1 && out.reply.kind == fresh.reply.kind);
        CHECK(lives(shared) == 0 && lives(other) == 0 && got(shared, 1) == 10 && got(it.of, 2) == 20);
        it = (struct swap){.of = it.of, .other = SGT_TRANSACTION, .goes_back = true};
        CHECK(sgt_shared_transact(shared, swaps, &it, 0, &out) == SGT_OK);
        CHECK(out.reply.kind == SGT_COMMITTED && got(shared, 1) == 5);
        CHECK(sgt_transaction_quit(&it.other) == SGT_OK && got(it.of, 2) == 20);
        sgt_transaction t = SGT_TRANSACTION;
        CHECK(sgt_shared_try(shared, &t, 0) == SGT_OK && sgt_transaction_write(&t, TABLE, 1, 10) == SGT_OK);
        CHECK(sgt_transaction_commit(&t, 0) == SGT_OK);
    }
    sgt_shared_outcome out = fresh;
    CHECK(sgt_shared_transact(shared, begins_anew, shared, 0, &out) == SGT_MISUSE);
    CHECK(lives(shared) == 0 && got(shared, 1) == 10);
    closes(shared);
    closes(other);
}

static uint32_t forks(void *context, sgt_transaction *t)
{
    struct note *note = context;
    int64_t value = 0;
    const pid_t child = fork();
    if (child == 0) {
        const uint32_t reported = sgt_transaction_read(t, TABLE, 1, &value);
        _exit(reported == SGT_MISUSE && sgt_transaction_commit(t, 0) == SGT_MISUSE ? 0 : 1);
    }
    int ended = 1;
    CHECK(child > 0 && waitpid(child, &ended, 0) == child && ended == 0);
    note->status = sgt_transaction_read(t, TABLE, 1, &note->value);
    return SGT_BODY_COMMIT;
}

static void bodies_may_fork(void)
{
    sgt_shared *shared = opened(0);
    struct note note = {.shared = shared};
    sgt_shared_outcome out = fresh;
    CHECK(sgt_shared_transact(shared, forks, &note, 0, &out) == SGT_OK && note.status == SGT_OK && note.value == 10);
    closes(shared);
}

/* Hooks */

static void tries_in_hook(void *context, const sgt_ended *ended)
{
    struct note *note = context;
    sgt_shared_outcome out = fresh;
    note->status = sgt_shared_transact(note->shared, adds, note, 0, &out);
    note->value = (int64_t)ended->call.accesses;
    note->other = ended->ticket;
    sgt_access accesses[3] = {{0}};
    sgt_ticket strange = ended->ticket, old = ended->ticket;
    uint64_t count = 0;
    strange.engine++, old.part++;
    CHECK(sgt_shared_accesses(note->shared, &ended->ticket, accesses, 3, &count) == SGT_OK && count == 2);
    CHECK(accesses[0].kind == SGT_READ && accesses[0].value == 10 && accesses[1].kind == SGT_WRITE && accesses[1].value == 11);
    CHECK(sgt_shared_accesses(note->shared, &strange, accesses, 3, &count) == SGT_MISUSE);
    CHECK(sgt_shared_accesses(note->shared, &old, accesses, 3, &count) == SGT_STALE);
}

static void hooks_are_called_with_accesses(void)
{
    struct note note = {0}, body = {.returns = SGT_BODY_COMMIT};
    sgt_shared_config config = SGT_SHARED_CONFIG;
    config.ended = tries_in_hook, config.context = &note, config.keeps_ended = 1;
    sgt_shared *shared = opened(&config);
    sgt_shared_outcome out = fresh;
    sgt_ended ended = {0};
    uint64_t count = 0;
    note.shared = shared;
    CHECK(sgt_shared_transact(shared, adds, &body, 0, &out) == SGT_OK && note.status == SGT_MISUSE && note.calls == 0);
    CHECK(note.value == 2 && memcmp(&note.other, &out.ticket, sizeof out.ticket) == 0);
    CHECK(sgt_shared_drain(shared, 0, &ended, 1, &count) == SGT_OK && count == 1);
    CHECK(ended.call.accesses == 2 && ended.call.procedure == SGT_EMPTY);
    closes(shared);
}

/* Loops of one's own */

static void loops_are_of_ones_own(void)
{
    sgt_shared *shared = opened(0);
    sgt_transaction t = SGT_TRANSACTION, u = SGT_TRANSACTION;
    int64_t value = 0;
    CHECK(sgt_shared_try(shared, &t, 0) == SGT_OK && t.is_live && t.tries == 1);
    CHECK(sgt_transaction_write(&t, TABLE, 1, 1) == SGT_OK);
    CHECK(sgt_shared_try(shared, &u, 0) == SGT_OK && sgt_transaction_read(&u, TABLE, 1, &value) == SGT_OK && value == 1);
    CHECK(sgt_transaction_quit(&t) == SGT_OK && t.reply.kind == SGT_ABORTED && !t.is_live);
    CHECK(sgt_transaction_commit(&u, 0) == SGT_UNDONE && !u.is_live && sgt_transaction_commit(&u, 0) == SGT_UNDONE);
    CHECK(sgt_transaction_quit(&u) == SGT_UNDONE && sgt_shared_try(shared, &u, 0) == SGT_OK && u.tries == 2);
    CHECK(sgt_shared_try(shared, &u, 0) == SGT_OK && u.tries == 3 && lives(shared) == 1); /* the live one was quit */
    CHECK(sgt_transaction_read(&u, TABLE, 1, &value) == SGT_OK && value == 10);
    CHECK(sgt_transaction_commit(&u, 0) == SGT_OK && u.reply.kind == SGT_COMMITTED && sgt_transaction_quit(&u) == SGT_OK);
    CHECK(sgt_transaction_write(&u, TABLE, 1, 1) == SGT_MISUSE && sgt_transaction_read(&u, TABLE, 1, &value) == SGT_MISUSE);
    CHECK(sgt_transaction_remove(&u, TABLE, 1) == SGT_MISUSE && sgt_transaction_commit(&u, 0) == SGT_OK && got(shared, 1) == 10);
    CHECK(sgt_shared_try(shared, &t, 0) == SGT_OK && sgt_transaction_write(&t, TABLE, 2, 7) == SGT_OK);
    CHECK(sgt_shared_try(shared, &u, 0) == SGT_OK && sgt_transaction_read(&u, TABLE, 2, &value) == SGT_OK && value == 7);
    CHECK(sgt_transaction_commit(&u, MS) == SGT_TIMED_OUT && !u.is_live && lives(shared) == 1);
    CHECK(sgt_transaction_read(&u, TABLE, 1, &value) == SGT_MISUSE && sgt_transaction_commit(&u, 0) == SGT_TIMED_OUT);
    CHECK(sgt_transaction_commit(&t, SGT_FOREVER) == SGT_OK && got(shared, 2) == 7);
    closes(shared);
}

int main(void)
{
    accesses_are_made_one_by_one();
    wrong_accesses_are_reported();
    functions_are_committed_or_quit();
    functions_that_return_a_status_are_reported();
    functions_that_end_themselves_are_reported();
    wrong_functions_are_reported();
    failed_accesses_commit_nothing();
    records_are_removed();
    conflicts_are_tried_again();
    cascading_aborts_are_tried_again();
    transactions_that_others_quit_are_reported();
    spent_starts_are_reported();
    the_try_that_is_alone_holds_others_up();
    the_try_that_is_alone_waits_for_others();
    the_unlucky_are_alone_at_last();
    unlucky_runs_are_alone_at_last();
    accesses_may_follow_a_procedure();
    threads_that_wait_for_themselves_are_reported();
    threads_that_wait_through_others_are_reported();
    bodies_may_jump();
    threads_may_end_in_bodies();
    bodies_may_not_swap();
    bodies_may_fork();
    hooks_are_called_with_accesses();
    loops_are_of_ones_own();
    printf("%d checks, %d failed\n", checks, failed);
    return failed ? 1 : 0;
}
