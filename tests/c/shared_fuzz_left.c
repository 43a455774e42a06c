/*
 * Calls that the bytes of an input spell, on a shared engine whose hooks, watch and bodies do not always return: they
 * jump, as the input says, make calls, abandon and interrupt. Whatever comes, each call ends with a status that it may
 * have, and nothing of it is left: the lock is free, and only what its caller has begun is live. Each committed call is
 * told once and stored once, in order. A plain engine that is asked the events of the history gives the same replies.
 *
 * It is linked with --wrap=clock_gettime: its clock is far behind that of the system, so that a call that waits is
 * asked at once. One thread makes the calls of several.
 *
 * Built with -fsanitize=fuzzer it is a target of libFuzzer; with -DDRAWN it draws inputs for DRAWN seconds.
 */
#include <inttypes.h>

#include "shared_inside.h"

struct input {
    const uint8_t *at;
    size_t left;
};

enum { MOST_BEGUN = 8, MOST_ASKED = 4, FOREIGN = 3, KINDS = 16 };

/* A shared engine with a plain one behind it, and what is known of the calls. */
struct pair {
    sgt_shared *shared;
    sgt_engine plain;
    uint64_t part, read;          /* the part of the plain one, and its entries */
    uint64_t told, stored;        /* calls that were told to the hook, and drained */
    struct input *input;
    sgt_ticket begun[MOST_BEGUN]; /* by single calls, and not known to have ended */
    uint32_t count;
    sgt_transaction own;
    bool may_jump;                /* whether a call is under way */
    int asked;                    /* how often that was asked */
};

static uint8_t byte(struct input *input)
{
    if (input->left == 0) return 0;
    input->left--;
    return *input->at++;
}

static void must(bool holds, const char *what)
{
    if (holds) return;
    fprintf(stderr, "%s\n", what);
    abort();
}

/* The clock, which goes on by a microsecond at each look */

static int64_t clock_ns;

int __real_clock_gettime(clockid_t of, struct timespec *at);
int __wrap_clock_gettime(clockid_t of, struct timespec *at);

int __wrap_clock_gettime(clockid_t of, struct timespec *at)
{
    if (of != CLOCK_MONOTONIC) return __real_clock_gettime(of, at);
    clock_ns += 1000;
    *at = timespec_of(clock_ns);
    return 0;
}

/* The plain engine */

static uint32_t ask(sgt_engine *plain, const sgt_event *e, sgt_reply *reply)
{
    switch (e->kind) {
    case SGT_START: return sgt_start(plain, e->procedure, e->arg, e->args, reply);
    case SGT_STEP: return sgt_step(plain, e->tid, reply);
    case SGT_COMMIT: return sgt_commit(plain, e->tid, reply);
    case SGT_QUIT: return sgt_quit(plain, e->tid, reply);
    case SGT_READ: return sgt_read(plain, e->tid, e->table, e->number, reply);
    case SGT_WRITE: return sgt_write(plain, e->tid, e->table, e->number, e->value, reply);
    default: return sgt_remove(plain, e->tid, e->table, e->number, reply);
    }
}

/* Asks it the events that the shared one has answered in this part. */
static void follow(struct pair *pair, const sgt_engine *shared, uint64_t part)
{
    uint64_t live = 0;
    for (; pair->part < part; pair->part++, pair->read = 0) must(sgt_cut(&pair->plain, &live) == SGT_OK, "a cut");
    for (sgt_event event = {0};; pair->read++) {
        sgt_reply wanted = {0}, reply = {0};
        if (sgt_entry(shared, pair->read, &event, &wanted) != SGT_OK) return;
        must(ask(&pair->plain, &event, &reply) == SGT_OK, "an event of the plain engine");
        must(memcmp(&wanted, &reply, sizeof reply) == 0, "another reply");
    }
}

/* What the program's functions do */

/* Leaves the call that is under way, at times. */
static void may_leave(struct pair *pair)
{
    if (pair->may_jump && byte(pair->input) % 4 == 1) longjmp(place, 1);
}

static const sgt_ticket *drawn(struct pair *pair)
{
    static const sgt_ticket none;
    return pair->count > 0 ? &pair->begun[byte(pair->input) % pair->count] : &none;
}

static void told(void *context, const sgt_ended *call)
{
    struct pair *pair = context;
    must(call->sequence == pair->told++, "a call is told twice, or not at all");
    if (byte(pair->input) % 8 == 1) sgt_shared_abandon(pair->shared, drawn(pair));
    may_leave(pair);
}

static void cutting(void *context, sgt_engine *engine, uint64_t part)
{
    struct pair *pair = context;
    follow(pair, engine, part);
    if (byte(pair->input) % 4 != 1) must(sgt_shared_allow_cut(pair->shared) == SGT_OK, "a cut is not allowed");
    may_leave(pair);
}

static int64_t waits(struct pair *pair)
{
    static const int64_t choices[] = {0, 1000, SECOND, SGT_FOREVER};
    return choices[byte(pair->input) % 4];
}

static void begins_one(struct pair *pair, int64_t wait_ns)
{
    sgt_ticket ticket = {0};
    sgt_reply reply = {0};
    if (pair->count == MOST_BEGUN) return;
    const uint32_t status = sgt_shared_begin(pair->shared, wait_ns, &ticket, &reply);
    must(status == SGT_OK || status == SGT_TIMED_OUT || status == SGT_SELF_WAIT, "a begin");
    if (status == SGT_OK && reply.kind == SGT_STARTED) pair->begun[pair->count++] = ticket;
}

static void ends_one(struct pair *pair, int64_t wait_ns)
{
    sgt_reply reply = {0};
    const sgt_ticket ticket = *drawn(pair);
    if (ticket.engine == 0) return;
    uint32_t status = SGT_OK;
    if (byte(pair->input) % 2) status = sgt_shared_commit(pair->shared, &ticket, wait_ns, &reply);
    else status = sgt_shared_quit(pair->shared, &ticket, &reply);
    must(status == SGT_OK || status == SGT_STALE || status == SGT_TIMED_OUT || status == SGT_SELF_WAIT, "an end");
}

/* It ends the call at last. Its own calls, which are not asked, have a deadline. */
static uint32_t is_asked(void *context)
{
    struct pair *pair = context;
    const uint8_t action = byte(pair->input) % 8;
    if (action == 1) ends_one(pair, 1000);
    if (action == 2) begins_one(pair, 1000);
    may_leave(pair);
    return action == 3 || ++pair->asked >= MOST_ASKED;
}

static void access_one(struct pair *pair, sgt_transaction *t)
{
    const uint8_t kind = byte(pair->input) % 3;
    const int64_t number = byte(pair->input) % 3;
    int64_t value = 0;
    uint32_t status = SGT_OK;
    if (kind == 0) status = sgt_transaction_read(t, TABLE, number, &value);
    if (kind == 1) status = sgt_transaction_write(t, TABLE, number, 1);
    if (kind == 2) status = sgt_transaction_remove(t, TABLE, number);
    const bool has_ended = status == SGT_UNDONE || status == SGT_MISUSE || status == SGT_BAD_CALL;
    must(status == SGT_OK || status == SGT_NONE || has_ended, "an access");
}

static uint32_t body(void *context, sgt_transaction *t)
{
    struct pair *pair = context;
    for (uint8_t left = byte(pair->input) % 4; left > 0; left--) {
        access_one(pair, t);
        if (byte(pair->input) % 8 == 1) begins_one(pair, 0);
        if (byte(pair->input) % 8 == 1) ends_one(pair, 0);
    }
    may_leave(pair);
    return byte(pair->input) % 4 ? SGT_BODY_COMMIT : SGT_BODY_QUIT;
}

/* Calls */

static void access_by_ticket(struct pair *pair)
{
    const sgt_ticket *ticket = drawn(pair);
    const uint8_t kind = byte(pair->input) % 2;
    const int64_t number = byte(pair->input) % 3;
    sgt_reply reply = {0};
    if (ticket->engine == 0) return;
    const uint32_t status = kind ? sgt_shared_read(pair->shared, ticket, TABLE, number, &reply)
                                 : sgt_shared_write(pair->shared, ticket, TABLE, number, 1, &reply);
    must(status == SGT_OK || status == SGT_STALE, "an access by a ticket");
}

static void runs(struct pair *pair)
{
    sgt_run_options options = SGT_RUN_OPTIONS;
    sgt_shared_outcome outcome = SGT_SHARED_OUTCOME;
    options.wait_ns = waits(pair), options.tries = byte(pair->input) % 3;
    const uint64_t procedure = byte(pair->input) % 2 ? WRITE : READ;
    const uint32_t status = sgt_shared_run(pair->shared, procedure, 0, 0, &options, &outcome);
    must(status == SGT_OK || status == SGT_TIMED_OUT || status == SGT_SELF_WAIT, "a run");
}

static void transacts(struct pair *pair)
{
    sgt_transact_options options = SGT_TRANSACT_OPTIONS;
    sgt_shared_outcome outcome = SGT_SHARED_OUTCOME;
    options.wait_ns = waits(pair), options.tries = byte(pair->input) % 3;
    const uint32_t status = sgt_shared_transact(pair->shared, body, pair, &options, &outcome);
    must(status == SGT_OK || status == SGT_TIMED_OUT || status == SGT_SELF_WAIT, "a function");
}

static void tries(struct pair *pair)
{
    sgt_transact_options options = SGT_TRANSACT_OPTIONS;
    options.wait_ns = waits(pair), options.tries = byte(pair->input) % 3;
    const uint32_t status = sgt_shared_try(pair->shared, &pair->own, &options);
    must(status == SGT_OK || status == SGT_TIMED_OUT || status == SGT_SELF_WAIT, "a try");
}

static void ends_try(struct pair *pair)
{
    uint32_t status = SGT_OK;
    if (byte(pair->input) % 2) status = sgt_transaction_commit(&pair->own, waits(pair));
    else status = sgt_transaction_quit(&pair->own);
    must(status != SGT_CLOSED && (status == SGT_BAD_CALL) == (pair->own.tries == 0), "an end of a try");
    must(!pair->own.is_live, "a try lives on");
}

static void drains(struct pair *pair)
{
    sgt_ended ended[2] = {{0}};
    uint64_t count = 77;
    must(sgt_shared_drain(pair->shared, waits(pair), ended, 2, &count) == SGT_OK && count <= 2, "a drain");
    for (uint64_t i = 0; i < count; i++) must(ended[i].sequence == pair->stored++, "a call is stored twice, or lost");
}

static void cuts(struct pair *pair)
{
    const uint32_t status = sgt_shared_cut(pair->shared, waits(pair));
    must(status == SGT_OK || status == SGT_TIMED_OUT || status == SGT_SELF_WAIT || status == SGT_NONE, "a cut");
}

static void abandons(struct pair *pair)
{
    const sgt_ticket *ticket = drawn(pair);
    if (ticket->engine == 0) return;
    pair->may_jump = false; /* it calls nothing that might */
    const uint32_t status = sgt_shared_abandon(pair->shared, ticket);
    must(status == SGT_OK || status == SGT_STALE, "an abort on the way out");
}

static void call(struct pair *pair)
{
    const uint8_t kind = byte(pair->input) % KINDS;
    switch (kind) {
    case 0: case 1: begins_one(pair, waits(pair)); break;
    case 2: case 3: ends_one(pair, waits(pair)); break;
    case 4: case 5: case 6: access_by_ticket(pair); break;
    case 7: runs(pair); break;
    case 8: case 9: transacts(pair); break;
    case 10: tries(pair); break;
    case 11: ends_try(pair); break;
    case 12: drains(pair); break;
    case 13: cuts(pair); break;
    case 14: abandons(pair); break;
    default:
        if (pair->own.tries > 0) access_one(pair, &pair->own);
    }
}

/* Makes a call as one of several threads. It may be left. */
static void make_call(struct pair *pair)
{
    own_number = 1 + byte(pair->input) % FOREIGN;
    pair->may_jump = true, pair->asked = 0;
    if (setjmp(place) == 0) call(pair);
    pair->may_jump = false;
}

/* What holds after each call */

static bool names_same(const sgt_ticket *one, const sgt_ticket *other)
{
    return one->tid == other->tid && one->part == other->part;
}

static bool is_begun(const struct pair *pair, const sgt_ticket *ticket)
{
    bool is = pair->own.is_live && names_same(&pair->own.ticket, ticket);
    for (uint32_t i = 0; i < pair->count; i++) is |= names_same(&pair->begun[i], ticket);
    return is;
}

/* Forgets those that have ended, and follows the history. */
static void settle(struct pair *pair)
{
    sgt_live live[MOST_LIVE];
    uint64_t count = 0;
    uint32_t kept = 0;
    holds_nothing(pair->shared);
    follow(pair, &pair->shared->engine, pair->shared->part);
    must(sgt_shared_live(pair->shared, live, MOST_LIVE, &count) == SGT_OK, "who is live");
    for (uint64_t i = 0; i < count; i++) must(is_begun(pair, &live[i].ticket), "something of a call lives on");
    for (uint32_t i = 0; i < pair->count; i++) {
        bool lives_on = false;
        for (uint64_t at = 0; at < count; at++) lives_on |= live[at].ticket.tid == pair->begun[i].tid;
        if (lives_on && pair->begun[i].part == pair->shared->part) pair->begun[kept++] = pair->begun[i];
    }
    pair->count = kept;
    must(pair->told == pair->shared->desk.reported, "a call is not told");
}

static void begin(struct pair *pair, struct input *input)
{
    sgt_shared_config config = SGT_SHARED_CONFIG;
    sgt_fault fault = {0};
    const sgt_row rows[] = {{TABLE, 0, FIRST, 10}, {TABLE, 0, SECOND_RECORD, 20}};
    static const int64_t patience[] = {0, 1000, SECOND, SGT_FOREVER - 1};
    *pair = (struct pair){.input = input, .own = SGT_TRANSACTION};
    clock_ns = SECOND;
    config.ended = told, config.cutting = cutting, config.context = pair;
    config.keeps_ended = 1, config.asks_to_cut = byte(input) % 2;
    config.cut_after = byte(input) % 32;
    config.cut_wait_ns = patience[byte(input) % 4];
    pair->shared = opens(&config);
    must(sgt_open_with(&pair->plain, opening, strlen(opening), rows, 2, &fault) == SGT_OK, "a plain engine");
    sgt_shared_watch(is_asked, pair);
}

/* All that was committed was stored, and the engine can be closed. */
static void end(struct pair *pair)
{
    sgt_ended ended = {0};
    uint64_t count = 1;
    sgt_shared_watch(0, 0);
    for (uint32_t i = 0; i < pair->count; i++) sgt_shared_abandon(pair->shared, &pair->begun[i]);
    sgt_transaction_quit(&pair->own);
    must(lives(pair->shared) == 0, "something lives on");
    for (; count > 0; pair->stored += count) {
        CHECK(sgt_shared_drain(pair->shared, 0, &ended, 1, &count) == SGT_OK);
        must(count == 0 || ended.sequence == pair->stored, "a call is lost");
    }
    must(pair->stored == pair->shared->desk.reported, "a call was not stored");
    holds_nothing(pair->shared);
    CHECK(sgt_shared_close(&pair->shared) == SGT_OK);
    sgt_close(&pair->plain);
    must(failed == 0, "a check");
}

int LLVMFuzzerTestOneInput(const uint8_t *data, size_t size);

int LLVMFuzzerTestOneInput(const uint8_t *data, size_t size)
{
    static struct pair pair; /* a jump keeps it */
    struct input input = {data, size};
    begin(&pair, &input);
    while (input.left > 0) {
        make_call(&pair);
        settle(&pair);
    }
    end(&pair);
    return 0;
}

#ifdef DRAWN
int main(int argc, char **argv)
{
    const time_t end_at = time(0) + (argc > 1 ? atoi(argv[1]) : 60);
    uint64_t drawn_so_far = 1, inputs = 0;
    static uint8_t data[1024];
    for (; time(0) < end_at; inputs++) {
        for (size_t i = 0; i < sizeof data; i++) {
            drawn_so_far = drawn_so_far * 6364136223846793005u + 1442695040888963407u;
            data[i] = (uint8_t)(drawn_so_far >> 40);
        }
        LLVMFuzzerTestOneInput(data, sizeof data);
    }
    printf("%" PRIu64 " inputs\n", inputs);
    return 0;
}
#endif
