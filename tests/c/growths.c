/*
 * Three transactions, of which the second has read from the first and the third from the second; then the first is aborted. In each
 * run one allocation fails, once, or with all later ones. A call that fails has changed nothing, and made again it gives the reply of a
 * run with all memory. Where no memory is left, all live transactions can be aborted, from the oldest on or from the newest on, and none
 * of these aborts allocates. The same for a cut, and for the part after it. Built with -Wl,--wrap=malloc,--wrap=realloc.
 */
#include <inttypes.h>
#include <limits.h>
#include <stdio.h>
#include <stdlib.h>
#include <string.h>

#include "sgt.h"

static const char opening[] = "{\"limits\":[8,100],\"accounts\":[[1,101,500,1000],[2,102,0,200]],\"procedures\":[]}";

/* Allocations since the start of a run. Those from `first` to `last` fail. */
static long asked, first = LONG_MAX, last;

void *__real_malloc(size_t size);
void *__real_realloc(void *old, size_t size);

static int is_refused(void)
{
    asked++;
    return first <= asked && asked <= last;
}

void *__wrap_malloc(size_t size) { return is_refused() ? 0 : __real_malloc(size); }
void *__wrap_realloc(void *old, size_t size) { return is_refused() ? 0 : __real_realloc(old, size); }

static void refuse(long from, long to)
{
    asked = 0;
    first = from;
    last = to;
}

static void fail(const char *what)
{
    printf("allocation %ld: %s\n", first, what);
    exit(1);
}

static void check(int holds, const char *what)
{
    if (!holds) fail(what);
}

enum { EVENTS = 18, RECORDS = 6, MOST = EVENTS + 8 };

/* The events: a deposit, an Amalgamate that reads its write, a Balance that reads the Amalgamate's, and the abort of the deposit. */
static uint32_t apply(sgt_engine *engine, int place, sgt_reply *reply)
{
    static const int64_t deposit[] = {1, 10}, amalgamate[] = {1, 2}, balance[] = {2};
    if (place == 0) return sgt_start(engine, 1, deposit, 2, reply);
    if (place < 4) return sgt_step(engine, 0, reply);
    if (place == 4) return sgt_start(engine, 3, amalgamate, 2, reply);
    if (place < 13) return sgt_step(engine, 1, reply);
    if (place == 13) return sgt_start(engine, 0, balance, 1, reply);
    if (place < 17) return sgt_step(engine, 2, reply);
    return sgt_quit(engine, 0, reply);
}

/* Their replies. From the 9th on the Amalgamate has read from the deposit, and from the 17th on the Balance from the Amalgamate. */
static const char *const texts[EVENTS] = {
    "started 0", "read 0/1 101", "read 2/101 1000", "wrote 2/101 1010", "started 1", "read 0/1 101", "read 0/2 102", "read 1/101 500",
    "read 2/101 1010", "wrote 1/101 0", "wrote 2/101 0", "read 2/102 200", "wrote 2/102 1710", "started 2", "read 0/2 102", "read 1/102 0",
    "read 2/102 1710", "aborted quit fell 1 2"};
static const int second_has_read = 8, third_has_read = 16;

/* What a caller sees of an engine. */
typedef struct state {
    uint64_t entries, live;
    int64_t value[RECORDS];
    uint32_t tid[32];
} state;

static state seen(const sgt_engine *engine)
{
    static const struct { uint64_t table; int64_t number; } records[RECORDS] = {{0, 1}, {0, 2}, {1, 101}, {1, 102}, {2, 101}, {2, 102}};
    state it = {0};
    check(sgt_entries(engine, &it.entries) == SGT_OK && sgt_live_tids(engine, it.tid, &it.live) == SGT_OK, "the state is not readable");
    for (int at = 0; at < RECORDS; at++)
        check(sgt_get(engine, records[at].table, records[at].number, &it.value[at]) == SGT_OK, "a record is gone");
    return it;
}

/* An engine, with the replies to the events of the part, as many as there are. */
typedef struct part {
    sgt_engine engine;
    sgt_reply reply[MOST];
    int count;
} part;

static void check_history(const part *it)
{
    sgt_event event = {0};
    for (int at = 0; at < it->count; at++) {
        sgt_reply reply = {0};
        check(sgt_entry(&it->engine, at, &event, &reply) == SGT_OK, "an entry is gone");
        check(memcmp(&reply, &it->reply[at], sizeof reply) == 0, "an entry has changed");
    }
    check(seen(&it->engine).entries == (uint64_t)it->count, "the history has another length");
}

/* Notes the reply to an event, or sees that a call that failed has changed nothing. Whether there is a reply. */
static int noted(part *it, uint32_t status, const sgt_reply *reply, const state *before)
{
    state after = seen(&it->engine);
    check(status == SGT_OK || status == SGT_NO_MEMORY, "a call has another status");
    if (status == SGT_OK) {
        it->reply[it->count++] = *reply;
        return 1;
    }
    check(memcmp(&after, before, sizeof after) == 0, "a call that failed has changed what is committed or live");
    check_history(it);
    return 0;
}

static int goes_on(part *it, int place)
{
    sgt_reply reply = {0};
    state before = seen(&it->engine);
    return noted(it, apply(&it->engine, place, &reply), &reply, &before);
}

static int quits(part *it, uint32_t tid)
{
    sgt_reply reply = {0};
    state before = seen(&it->engine);
    return noted(it, sgt_quit(&it->engine, tid, &reply), &reply, &before);
}

/* Opens an engine. False if an allocation failed. */
static int opens(part *it)
{
    sgt_fault fault = {0};
    memset(it, 0, sizeof *it);
    uint32_t status = sgt_open(&it->engine, opening, strlen(opening), &fault);
    check(status == SGT_OK || status == SGT_NO_MEMORY, "the opening is refused");
    return status == SGT_OK;
}

/* The run with all memory: its replies are those of the row. */
static part whole;

static void checks_the_texts(void)
{
    char text[64];
    uint64_t length;
    check(opens(&whole), "there is no memory");
    for (int place = 0; place < EVENTS; place++) {
        check(goes_on(&whole, place), "there is no memory");
        check(sgt_reply_text(&whole.reply[place], text, sizeof text, &length) == SGT_OK, "there is no memory");
        check(length == strlen(texts[place]) && memcmp(text, texts[place], length) == 0, texts[place]);
    }
    check_history(&whole);
}

static void check_replies(const part *it, int count)
{
    check(memcmp(it->reply, whole.reply, count * sizeof *it->reply) == 0, "a reply differs from that of a run with all memory");
}

/* One allocation fails: the call that fails is made again. Returns how many failed. */
static long fails_once(void)
{
    static part it;
    long failed = 0;
    for (long number = 1;; number++) {
        refuse(number, number);
        if (!opens(&it)) continue;
        for (int place = 0; place < EVENTS; place++) {
            if (goes_on(&it, place)) continue;
            failed++;
            check(goes_on(&it, place), "a call fails again");
        }
        check_replies(&it, EVENTS);
        check_history(&it);
        sgt_close(&it.engine);
        if (asked < number) return failed;
    }
}

/* Which transactions the abort of one aborts in cascade, after so many events: a bit for each. */
static uint32_t fallen(uint32_t tid, int events)
{
    int reads_second = events > third_has_read, reads_first = events > second_has_read;
    if (tid == 0) return 2 * reads_first + 4 * (reads_first && reads_second);
    return tid == 1 ? 4 * reads_second : 0;
}

/* Aborts all live transactions without any memory, from the oldest on or from the newest on. None of these aborts allocates. */
static void quits_all(part *it, int from_newest)
{
    int events = it->count;
    long before = asked;
    for (state now = seen(&it->engine); now.live > 0; now = seen(&it->engine)) {
        uint32_t tid = from_newest ? now.tid[now.live - 1] : now.tid[0], fell = 0;
        check(quits(it, tid), "an abort fails");
        const sgt_reply *reply = &it->reply[it->count - 1];
        for (uint32_t at = 0; at < reply->fallen; at++) fell |= 1u << reply->fell[at];
        check(reply->kind == SGT_ABORTED && reply->cause == SGT_BY_QUIT, "an abort has another reply");
        check(fell == (from_newest ? 0 : fallen(tid, events)), "an abort aborts others");
    }
    check(asked == before, "an abort allocates");
}

/* All allocations from one on fail: all live transactions are aborted. Returns how many events failed. */
static long fails_for_good(int from_newest)
{
    static part it;
    long failed = 0;
    for (long number = 1;; number++) {
        int place = 0;
        refuse(number, LONG_MAX);
        if (!opens(&it)) continue;
        while (place < EVENTS && goes_on(&it, place)) place++;
        check_replies(&it, place);
        int is_over = place == EVENTS;
        if (!is_over) {
            failed++;
            quits_all(&it, from_newest);
        }
        state end = seen(&it.engine);
        check(memcmp(end.value, seen(&whole.engine).value, sizeof end.value) == 0, "the committed values are not those of the opening");
        check_history(&it);
        sgt_close(&it.engine);
        if (is_over) return failed;
    }
}

/* A cut of all entries. False if an allocation failed, in which case all is as before. */
static int cuts(part *it)
{
    uint64_t live = 77;
    state before = seen(&it->engine);
    uint32_t status = sgt_cut(&it->engine, &live);
    check(live == 77, "a cut reports live transactions");
    if (!noted(it, status, &it->reply[0], &before)) return 0;
    it->count = 0;
    before.entries = 0;
    state after = seen(&it->engine);
    check(memcmp(&after, &before, sizeof after) == 0, "a cut has changed what is committed");
    return 1;
}

/* The part after a cut: a transaction that is live refuses a cut, and numbers begin at 0 again. */
static void begins_anew(part *it)
{
    uint64_t live = 77;
    check(goes_on(it, 0) && it->reply[0].kind == SGT_STARTED && it->reply[0].tid == 0, "numbers do not begin at 0");
    state before = seen(&it->engine);
    check(sgt_cut(&it->engine, &live) == SGT_STILL_LIVE && live == 1, "a cut does not report the live transaction");
    state after = seen(&it->engine);
    check(memcmp(&after, &before, sizeof after) == 0, "a cut that is refused has changed something");
    check_history(it);
    check(quits(it, 0) && cuts(it), "the part does not end");
}

/* An allocation of a cut fails, once or with all later ones. Returns how many cuts failed. */
static long fails_in_a_cut(int for_good)
{
    static part it;
    long failed = 0;
    for (long number = 1;; number++) {
        refuse(LONG_MAX, 0);
        check(opens(&it), "there is no memory");
        for (int place = 0; place < EVENTS; place++) check(goes_on(&it, place), "there is no memory");
        refuse(number, for_good ? LONG_MAX : number);
        int is_cut = cuts(&it);
        failed += !is_cut;
        if (!is_cut && for_good) check(!cuts(&it), "a cut needs no memory");
        int is_over = is_cut && asked < number;
        refuse(LONG_MAX, 0);
        if (!is_cut) check(cuts(&it), "a cut fails again");
        begins_anew(&it);
        sgt_close(&it.engine);
        if (is_over) return failed;
    }
}

int main(void)
{
    checks_the_texts();
    printf("%ld events failed once\n", fails_once());
    printf("%ld events failed for good, from the oldest on\n", fails_for_good(0));
    printf("%ld events failed for good, from the newest on\n", fails_for_good(1));
    printf("%ld cuts failed once\n", fails_in_a_cut(0));
    printf("%ld cuts failed for good\n", fails_in_a_cut(1));
    sgt_close(&whole.engine);
    return 0;
}
