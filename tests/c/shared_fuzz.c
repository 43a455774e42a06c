/*
 * Calls that the bytes of an input spell, on an engine of sgt.h and on a shared one, each with arguments in and out of their ranges.
 * Whatever comes, a call answers a status that it may answer, writes nothing where that is not SGT_OK, and an event adds one entry.
 * The two engines are given the same events, and say the same.
 *
 * Built with -fsanitize=fuzzer it is a target of libFuzzer; with -DDRAWN it draws inputs for DRAWN seconds.
 */
#include <inttypes.h>
#include <stdbool.h>
#include <stdio.h>
#include <stdlib.h>
#include <string.h>
#include <time.h>

#include "sgt_shared.h"

static const char opening[] = "{\"limits\":[3,60,1],\"accounts\":[[1,101,500,1000],[2,102,0,0]],\"procedures\":[]}";

struct input {
    const uint8_t *at;
    size_t left;
};

static uint8_t byte(struct input *input)
{
    if (input->left == 0) return 0;
    input->left--;
    return *input->at++;
}

static void must(bool holds, const char *what)
{
    if (holds) return;
    fprintf(stderr, "%s\n", what);
    abort();
}

/* A number: a small one in most cases, else one at the edge of a range. */
static int64_t number(struct input *input)
{
    static const int64_t edges[] = {SGT_LEAST, SGT_MOST, SGT_LEAST - 1, SGT_MOST + 1, INT64_MIN, INT64_MAX, UINT32_MAX, -1};
    uint8_t drawn = byte(input);
    return drawn < 240 ? drawn % 4 : edges[drawn % 8];
}

/* What both engines are asked. Transactions are named by numbers of the present part. */
struct pair {
    sgt_engine plain;
    sgt_shared *shared;
    uint64_t part, engine;
};

static uint64_t entries(struct pair *pair)
{
    uint64_t plain = 0, shared = 0, part = 0;
    must(sgt_entries(&pair->plain, &plain) == SGT_OK, "the entries are not told");
    must(sgt_shared_entries(pair->shared, &shared, &part) == SGT_OK && part == pair->part, "the shared entries are not told");
    must(plain == shared, "the histories have other lengths");
    return plain;
}

static void same(struct pair *pair, uint32_t plain, uint32_t shared, const sgt_reply *one, const sgt_reply *other, uint64_t had)
{
    must(plain == shared, "the statuses differ");
    must(plain == SGT_OK || plain == SGT_BAD_CALL, "an event has another status");
    must(memcmp(one, other, sizeof *one) == 0, "the replies differ");
    must(entries(pair) == had + (plain == SGT_OK), "an event does not add its entry");
}

static void start(struct pair *pair, struct input *input)
{
    const int64_t args[5] = {number(input), number(input), number(input), 0, 0};
    const bool is_empty = byte(input) % 2;
    const uint16_t procedure = is_empty ? SGT_EMPTY : byte(input) % 7;
    const size_t count = is_empty ? 0 : byte(input) % 6;
    const uint64_t had = entries(pair);
    sgt_reply one = {0}, other = {0};
    sgt_ticket ticket = {0};
    const uint32_t plain = sgt_start(&pair->plain, procedure, args, count, &one);
    const uint32_t shared = sgt_shared_start(pair->shared, procedure, args, count, 0, &ticket, &other);
    if (plain == SGT_OK && one.kind == SGT_FULL) {
        must(shared == SGT_TIMED_OUT && ticket.engine == 0 && entries(pair) == had + 1, "a start of a full engine does not time out");
        return;
    }
    if (plain == SGT_OK && one.kind == SGT_STARTED) must(ticket.tid == one.tid && ticket.part == pair->part, "a ticket is wrong");
    if (ticket.engine) pair->engine = ticket.engine;
    same(pair, plain, shared, &one, &other, had);
}

static void event(struct pair *pair, struct input *input, uint8_t which)
{
    const uint32_t tid = byte(input) % 64;
    const uint64_t had = entries(pair);
    const sgt_ticket ticket = {pair->engine, pair->part, tid, 0};
    sgt_reply one = {0}, other = {0};
    uint32_t plain, shared;
    if (!pair->engine) return;
    if (which == 0) plain = sgt_step(&pair->plain, tid, &one), shared = sgt_shared_step(pair->shared, &ticket, &other);
    else if (which == 1) plain = sgt_quit(&pair->plain, tid, &one), shared = sgt_shared_quit(pair->shared, &ticket, &other);
    else {
        plain = sgt_commit(&pair->plain, tid, &one), shared = sgt_shared_commit(pair->shared, &ticket, 0, &other);
        if (plain == SGT_OK && one.kind == SGT_WAITS) {
            must(shared == SGT_TIMED_OUT && memcmp(&one, &other, sizeof one) == 0, "a commit that waits says otherwise");
            must(entries(pair) == had + 1, "a commit that waits does not time out");
            return;
        }
    }
    same(pair, plain, shared, &one, &other, had);
}

/* An access that a caller decides. */
static void access_by(struct pair *pair, struct input *input)
{
    const uint32_t tid = byte(input) % 64;
    const uint8_t which = byte(input) % 3, table = byte(input) % 9;
    const int64_t record = byte(input) % 2 ? 100 + byte(input) % 4 : number(input), value = number(input);
    const uint64_t had = entries(pair);
    const sgt_ticket ticket = {pair->engine, pair->part, tid, 0};
    sgt_reply one = {0}, other = {0};
    uint32_t plain, shared;
    if (!pair->engine) return;
    if (which == 0) {
        plain = sgt_read(&pair->plain, tid, table, record, &one);
        shared = sgt_shared_read(pair->shared, &ticket, table, record, &other);
    } else if (which == 1) {
        plain = sgt_write(&pair->plain, tid, table, record, value, &one);
        shared = sgt_shared_write(pair->shared, &ticket, table, record, value, &other);
    } else {
        plain = sgt_remove(&pair->plain, tid, table, record, &one);
        shared = sgt_shared_remove(pair->shared, &ticket, table, record, &other);
    }
    same(pair, plain, shared, &one, &other, had);
}

/* The accesses that the caller of a transaction decided. */
static void accesses(struct pair *pair, struct input *input)
{
    const uint32_t tid = byte(input) % 64;
    const size_t capacity = byte(input) % 4;
    const sgt_ticket ticket = {pair->engine, pair->part, tid, 0};
    sgt_access ones[3] = {{0}}, others[3] = {{0}};
    uint64_t many = 77, count = 77;
    if (!pair->engine) return;
    must(sgt_accesses(&pair->plain, tid, ones, capacity, &many) == SGT_OK, "the accesses are not told");
    must(sgt_shared_accesses(pair->shared, &ticket, others, capacity, &count) == SGT_OK && many == count, "the accesses differ");
    must(memcmp(ones, others, sizeof ones) == 0, "the accesses differ");
}

/* A transaction function: what it is to do, and on which engine the same is done by single calls. */
struct body {
    struct pair *pair;
    struct input *input;
    uint32_t tid, reported;
    bool is_over;
};

/* What an access of a body answers where the same event of the other engine is answered so. */
static uint32_t wanted(const sgt_reply *reply, uint32_t plain)
{
    if (plain != SGT_OK) return plain;
    if (reply->kind == SGT_ABORTED || reply->kind == SGT_OVER) return SGT_UNDONE;
    if (reply->kind == SGT_BAD_ARGS) return SGT_BAD_CALL;
    return reply->kind == SGT_LOOKED && !reply->found ? SGT_NONE : SGT_OK;
}

static uint32_t acts(void *context, sgt_transaction *t)
{
    struct body *it = context;
    sgt_reply reply = {0};
    must(sgt_begin(&it->pair->plain, &reply) == SGT_OK && reply.kind == SGT_STARTED && reply.tid == t->ticket.tid, "a begin differs");
    it->tid = reply.tid;
    for (uint8_t left = byte(it->input) % 6; left > 0; left--) {
        const uint8_t table = byte(it->input) % 9, which = byte(it->input) % 3;
        const int64_t record = 100 + byte(it->input) % 4, value = number(it->input);
        int64_t found = 77;
        uint32_t plain, reported;
        if (which == 0) plain = sgt_read(&it->pair->plain, it->tid, table, record, &reply);
        else if (which == 1) plain = sgt_write(&it->pair->plain, it->tid, table, record, value, &reply);
        else plain = sgt_remove(&it->pair->plain, it->tid, table, record, &reply);
        if (which == 0) reported = sgt_transaction_read(t, table, record, &found);
        else reported = which == 1 ? sgt_transaction_write(t, table, record, value) : sgt_transaction_remove(t, table, record);
        must(reported == wanted(&reply, plain), "an access of a body differs");
        must(reported != SGT_OK || which != 0 || found == reply.value, "a value differs");
        if (reported != SGT_OK && reported != SGT_NONE) it->reported = reported;
        if (reported == SGT_UNDONE) it->is_over = true;
        if (reported != SGT_OK && reported != SGT_NONE) break;
    }
    return byte(it->input) % 4 ? SGT_BODY_COMMIT : SGT_BODY_QUIT;
}

/* A transaction function that never waits. The other engine makes the same events. */
static void transacts(struct pair *pair, struct input *input)
{
    struct body it = {.pair = pair, .input = input, .tid = UINT32_MAX};
    sgt_transact_options options = SGT_TRANSACT_OPTIONS;
    sgt_shared_outcome outcome = SGT_SHARED_OUTCOME;
    sgt_reply reply = {0};
    sgt_live live[3];
    uint64_t count = 0;
    must(sgt_shared_live(pair->shared, live, 3, &count) == SGT_OK, "who is live is not told");
    if (count > 0) return; /* else a conflict, or a full engine, would have it wait, and then quit */
    options.wait_ns = 0, options.tries = byte(input) % 3;
    const uint32_t reported = sgt_shared_transact(pair->shared, acts, &it, &options, &outcome);
    must(!it.is_over, "a body that is alone is aborted");
    if (it.tid == UINT32_MAX) {
        must(reported == SGT_OK && outcome.reply.kind == SGT_SPENT && outcome.tries == 0, "a body is not called");
        must(sgt_begin(&pair->plain, &reply) == SGT_OK && reply.kind == SGT_SPENT, "a begin differs");
    } else if (reported == SGT_OK && outcome.reply.kind == SGT_COMMITTED) {
        must(sgt_commit(&pair->plain, it.tid, &reply) == SGT_OK && reply.kind == SGT_COMMITTED, "a commit differs");
    } else {
        must(reported == it.reported && sgt_quit(&pair->plain, it.tid, &reply) == SGT_OK, "a body ends otherwise");
    }
    entries(pair);
}

/* A run without a deadline to wait for. If it would have to wait, the shared engine aborts it, and so does this. */
static void runs(struct pair *pair, struct input *input)
{
    const int64_t args[5] = {number(input), number(input), number(input), 0, 0};
    const uint16_t procedure = byte(input) % 7;
    const size_t count = byte(input) % 6;
    sgt_run_options options = SGT_RUN_OPTIONS;
    sgt_shared_outcome outcome = SGT_SHARED_OUTCOME;
    sgt_reply reply = {0}, quit = {0}, none = {0};
    uint32_t tid = UINT32_MAX;
    options.wait_ns = 0, options.tries = 1;
    const uint32_t plain = sgt_run(&pair->plain, procedure, args, count, &tid, &reply);
    const uint32_t shared = sgt_shared_run(pair->shared, procedure, args, count, &options, &outcome);
    const bool waits = plain == SGT_OK && (reply.kind == SGT_WAITS || reply.kind == SGT_FULL);
    if (plain == SGT_OK && reply.kind == SGT_WAITS) must(sgt_quit(&pair->plain, tid, &quit) == SGT_OK, "a quit is refused");
    must(shared == (waits ? (uint32_t)SGT_TIMED_OUT : plain), "the statuses of runs differ");
    must(outcome.tries == (tid != UINT32_MAX), "the tries of a run are not told");
    if (shared == SGT_OK) must(memcmp(&reply, &outcome.reply, sizeof reply) == 0, "the replies of runs differ");
    else must(memcmp(&none, &outcome.reply, sizeof none) == 0, "a run that was not carried out writes a reply");
    if (shared == SGT_OK && tid != UINT32_MAX) must(outcome.ticket.tid == tid && outcome.ticket.part == pair->part, "a run's ticket");
    entries(pair);
}

static void reads(struct pair *pair, struct input *input)
{
    const uint8_t table = byte(input) % 10;
    const int64_t record = byte(input) % 2 ? 100 + byte(input) % 4 : number(input);
    int64_t one = 77, other = 77;
    sgt_row rows[3] = {{0}}, others[3] = {{0}};
    uint64_t many = 77, count = 77;
    const size_t capacity = byte(input) % 4;
    uint32_t status = sgt_get(&pair->plain, table, record, &one);
    must(sgt_shared_get(pair->shared, table, record, &other) == status && one == other, "the values differ");
    must(status == SGT_OK || status == SGT_NONE || status == SGT_BAD_CALL, "a read has another status");
    status = sgt_rows(&pair->plain, table, record, rows, capacity, &many);
    must(sgt_shared_rows(pair->shared, table, record, others, capacity, &count) == status && many == count, "the rows differ");
    must(memcmp(rows, others, sizeof rows) == 0, "the rows differ");
}

/* Every entry of the two histories is the same. It is called before the shared engine's is cut off. */
static void compare(void *context, sgt_engine *shared, uint64_t part)
{
    struct pair *pair = context;
    must(part == pair->part, "another part is cut off");
    for (uint64_t place = 0;; place++) {
        sgt_event event = {0}, other = {0};
        sgt_reply reply = {0}, answer = {0};
        const uint32_t status = sgt_entry(&pair->plain, place, &event, &reply);
        must(sgt_entry(shared, place, &other, &answer) == status, "the histories have other lengths");
        if (status != SGT_OK) return;
        must(memcmp(&event, &other, sizeof event) == 0 && memcmp(&reply, &answer, sizeof reply) == 0, "the entries differ");
    }
}

static void cuts(struct pair *pair)
{
    uint64_t live = 0;
    const uint32_t shared = sgt_shared_cut(pair->shared, 0), plain = sgt_cut(&pair->plain, &live);
    must(plain == SGT_OK ? shared == SGT_OK : plain == SGT_STILL_LIVE && shared == SGT_TIMED_OUT, "the cuts differ");
    if (plain == SGT_OK) pair->part++;
    entries(pair);
}

/* Tickets of another part, and of another engine. */
static void stale(struct pair *pair, struct input *input)
{
    const sgt_ticket old = {pair->engine, pair->part + 1 + byte(input), byte(input), 0}, strange = {pair->engine + 1, pair->part, 0, 0};
    sgt_reply reply = {0}, none = {0};
    if (!pair->engine) return;
    must(sgt_shared_step(pair->shared, &old, &reply) == SGT_STALE, "a ticket of another part is taken");
    must(sgt_shared_commit(pair->shared, &strange, 0, &reply) == SGT_MISUSE, "a ticket of another engine is taken");
    must(memcmp(&reply, &none, sizeof none) == 0, "a refused call writes");
}

/* Texts of anything that lies in a reply or a fault. */
static void texts(struct input *input)
{
    sgt_reply reply;
    sgt_fault fault;
    char text[64];
    uint64_t length = 77;
    for (size_t i = 0; i < sizeof reply; i++) ((uint8_t *)&reply)[i] = i < 48 ? byte(input) % 32 : 0;
    memset(&fault, 0, sizeof fault);
    fault.kind = byte(input) % 24, fault.depth = byte(input), fault.procedure = byte(input), fault.number = byte(input);
    uint32_t status = sgt_reply_text(&reply, text, byte(input) % 65, &length);
    must(status == SGT_OK ? length <= 1024 : status == SGT_BAD_CALL && length == 77, "the text of a reply");
    length = 77;
    status = sgt_fault_text(&fault, text, byte(input) % 65, &length);
    must(status == SGT_OK || (status == SGT_BAD_CALL && length == 77), "the text of a fault");
}

/* An opening of any bytes: opened, or refused with a fault that has a text. */
static void opens(struct input *input)
{
    sgt_engine engine = {0};
    sgt_fault fault = {0};
    uint64_t length = 0;
    const size_t taken = input->left < 200 ? input->left : 200;
    const uint32_t status = sgt_open(&engine, taken ? (const char *)input->at : "", taken, &fault);
    must(status == SGT_OK ? engine.is_open : status >= SGT_NOT_JSON && fault.kind == status && !engine.is_open, "an opening");
    char text[16];
    if (status >= SGT_NOT_JSON) must(sgt_fault_text(&fault, text, sizeof text, &length) == SGT_OK, "a fault has no text");
    input->at += taken, input->left -= taken;
    sgt_close(&engine);
}

static void call(struct pair *pair, struct input *input)
{
    switch (byte(input) % 22) {
    case 0: case 1: start(pair, input); break;
    case 16: case 17: case 18: case 19: access_by(pair, input); break;
    case 20: accesses(pair, input); break;
    case 21: transacts(pair, input); break;
    case 2: runs(pair, input); break;
    case 3: case 4: case 5: case 6: case 7: event(pair, input, 0); break;
    case 8: case 9: event(pair, input, 2); break;
    case 10: event(pair, input, 1); break;
    case 11: reads(pair, input); break;
    case 12: cuts(pair); break;
    case 13: stale(pair, input); break;
    case 14: texts(input); break;
    default: opens(input);
    }
}

/* Aborts the live transactions of both. */
static void ends(struct pair *pair)
{
    sgt_live live[3];
    uint64_t count = 0;
    must(sgt_shared_live(pair->shared, live, 3, &count) == SGT_OK && count <= 3, "who is live is not told");
    for (uint64_t i = 0; i < count; i++) {
        sgt_reply one = {0}, other = {0};
        must(sgt_quit(&pair->plain, live[i].ticket.tid, &one) == SGT_OK, "a quit is refused");
        must(sgt_shared_quit(pair->shared, &live[i].ticket, &other) == SGT_OK, "a quit is refused");
        must(memcmp(&one, &other, sizeof one) == 0, "the replies differ");
    }
    must(sgt_shared_live(pair->shared, 0, 0, &count) == SGT_OK && count == 0, "somebody is live at the end");
}

int LLVMFuzzerTestOneInput(const uint8_t *data, size_t size)
{
    struct pair pair = {0};
    struct input input = {data, size};
    sgt_fault fault = {0};
    const char *text = opening;
    must(sgt_open(&pair.plain, text, sizeof opening - 1, &fault) == SGT_OK, "not opened");
    sgt_shared_config config = SGT_SHARED_CONFIG;
    config.cutting = compare, config.context = &pair;
    must(sgt_shared_open(&pair.shared, text, sizeof opening - 1, 0, 0, &config, &fault) == SGT_OK, "not opened");
    while (input.left > 0) call(&pair, &input);
    ends(&pair);
    cuts(&pair);
    must(sgt_shared_close(&pair.shared) == SGT_OK, "not closed");
    sgt_close(&pair.plain);
    return 0;
}

#ifdef DRAWN
int main(int argc, char **argv)
{
    const time_t end = time(0) + (argc > 1 ? atoi(argv[1]) : 60);
    uint64_t drawn = 1, inputs = 0;
    static uint8_t data[4096];
    for (; time(0) < end; inputs++) {
        for (size_t i = 0; i < sizeof data; i++) {
            drawn = drawn * 6364136223846793005u + 1442695040888963407u;
            data[i] = (uint8_t)(drawn >> 40);
        }
        LLVMFuzzerTestOneInput(data, sizeof data);
    }
    printf("%" PRIu64 " inputs\n", inputs);
    return 0;
}
#endif
