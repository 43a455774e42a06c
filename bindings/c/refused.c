/*
 * Makes each allocation fail in turn, once. The call then returns SGT_NO_MEMORY and has changed nothing; made again, it succeeds. A
 * commit allocates nothing. Built with -Wl,--wrap=malloc,--wrap=realloc.
 */
#include <inttypes.h>
#include <stdio.h>
#include <stdlib.h>
#include <string.h>

#include "sgt.h"

static const char opening[] = "{\"limits\":[8,100],\"accounts\":[[1,101,500,1000],[2,102,5,6]],\"procedures\":[]}";
static const sgt_row own = {7, 0, 5, 51}; /* a record of the caller's */
static long asked, refuse;

/*
 * How many allocations were done without: the rows of an engine's database are sorted in place if there is no memory to sort them in.
 * They are sorted when the engine is opened, and again when rows are put.
 */
static int done_without;

void *__real_malloc(size_t size);
void *__real_realloc(void *old, size_t size);
void *__wrap_malloc(size_t size) { return ++asked == refuse ? 0 : __real_malloc(size); }
void *__wrap_realloc(void *old, size_t size) { return ++asked == refuse ? 0 : __real_realloc(old, size); }

static uint32_t event(sgt_engine *engine, int number, sgt_reply *reply)
{
    const int64_t args[] = {1, 100};
    uint32_t tid = (uint32_t)number / 5;
    if (number % 5 == 0) return sgt_start(engine, 1, args, 2, reply);
    if (number % 5 < 4) return sgt_step(engine, tid, reply);
    return sgt_commit(engine, tid, reply);
}

/*
 * Deposits, each in one call: if an allocation fails after the start, the transaction is aborted. Then all rows, and capacity. Returns
 * how many calls failed, or -1 if one broke its promise.
 */
static int runs(sgt_engine *engine, sgt_reply *reply)
{
    const int64_t args[] = {2, 1};
    sgt_event event = {0};
    sgt_row rows[9] = {{0}};
    uint64_t had = 0, has = 0, count = 0;
    uint32_t tid = 0, status;
    int refused = 0;
    for (int64_t committed = 0; committed < 60;) {
        if (sgt_entries(engine, &had) != SGT_OK) return -1;
        status = sgt_run(engine, 1, args, 2, &tid, reply);
        if (sgt_entries(engine, &has) != SGT_OK) return -1;
        if (status == SGT_OK) {
            if (reply->kind != SGT_COMMITTED || reply->answer[0] != 6 + ++committed || has != had + 6) return -1;
            continue;
        }
        if (status != SGT_NO_MEMORY) return -1;
        refused++;
        if (has != had && (sgt_entry(engine, has - 1, &event, reply) != SGT_OK || event.kind != SGT_QUIT)) return -1;
    }
    while ((status = sgt_rows(engine, 0, SGT_LEAST, rows, 9, &count)) == SGT_NO_MEMORY) refused++;
    if (status != SGT_OK || count != 9 || rows[8].value != 51) return -1;
    while ((status = sgt_reserve(engine, 1000)) == SGT_NO_MEMORY) refused++;
    return status == SGT_OK ? refused : -1;
}

/* One more record and procedure: after a failure neither is there. Returns how many calls failed, or -1. */
static int adds(sgt_engine *engine, sgt_fault *fault)
{
    static const char lookup[] = "[1,[[\"look\",0,7,[\"arg\",0],5],[\"answer\",[\"reg\",0]]]]";
    const sgt_row more[] = {{7, 0, 1, 52}, {6, 0, 1, 53}};
    uint64_t at = 77;
    uint16_t number = 77;
    int64_t value = 0;
    uint32_t status;
    int refused = 0;
    while ((status = sgt_put(engine, more, 2, &at)) == SGT_NO_MEMORY) {
        if (sgt_get(engine, 7, 1, &value) != SGT_NONE || sgt_get(engine, 6, 1, &value) != SGT_NONE || at != 77) return -1;
        if (sgt_get(engine, 7, 5, &value) != SGT_OK || value != 51) return -1;
        refused++;
    }
    if (status != SGT_OK || sgt_get(engine, 6, 1, &value) != SGT_OK || value != 53) return -1;
    while ((status = sgt_procedure(engine, lookup, strlen(lookup), &number, fault)) == SGT_NO_MEMORY) {
        if (number != 77) return -1;
        refused++;
    }
    return status == SGT_OK && number == 5 ? refused : -1;
}

/* The texts of a reply and of a fault: after a failure nothing is written. Returns how many calls failed, or -1. */
static int texts(const sgt_reply *reply)
{
    static const char explanation[] = "procedure 5, at top: expected [arguments,[statement,..]], found 7: "
                                      "a procedure is a list in the list of procedures, as [[0,[[\"answer\",7]]]]";
    const sgt_fault flaw = {.kind = SGT_PROC_FLAW, .procedure = 5, .number = 7};
    char text[32] = "untouched";
    uint64_t length = 77;
    uint32_t status;
    int refused = 0;
    while ((status = sgt_reply_text(reply, text, sizeof text, &length)) == SGT_NO_MEMORY) {
        if (strcmp(text, "untouched") != 0 || length != 77) return -1;
        refused++;
    }
    if (status != SGT_OK || length != 12 || strncmp(text, "committed 66", 12) != 0) return -1;
    while ((status = sgt_fault_text(&flaw, text, sizeof text, &length)) == SGT_NO_MEMORY) {
        if (strncmp(text, "committed 66", 12) != 0 || length != 12) return -1;
        refused++;
    }
    if (status != SGT_OK || length != 18 || strncmp(text, "procedure 5 flaw 7", 18) != 0) return -1;
    memset(text, '.', sizeof text);
    while ((status = sgt_fault_text(&flaw, text, 17, &length)) == SGT_NO_MEMORY) refused++;
    if (status != SGT_OK || length != 18 || text[0] != '.') return -1;
    while ((status = sgt_explain_procedure(5, "7", 1, text, 17, &length)) == SGT_NO_MEMORY) {
        if (length != 18 || text[0] != '.') return -1;
        refused++;
    }
    return status == SGT_OK && length == strlen(explanation) && text[0] == '.' ? refused : -1;
}

/* A cut: after a failure the entries and the committed values are as before. Returns how many calls failed, or -1. */
static int cuts(sgt_engine *engine)
{
    uint64_t had = 0, has = 0, live = 77;
    int64_t value = 0;
    uint32_t status;
    int refused = 0;
    if (sgt_entries(engine, &had) != SGT_OK || had == 0) return -1;
    while ((status = sgt_cut(engine, &live)) == SGT_NO_MEMORY) {
        if (sgt_entries(engine, &has) != SGT_OK || has != had || live != 77) return -1;
        refused++;
    }
    if (status != SGT_OK || sgt_entries(engine, &has) != SGT_OK || has != 0) return -1;
    if (sgt_get(engine, 2, 102, &value) != SGT_OK || value != 66) return -1;
    return refused;
}

/* Two deposits, one after the other. Returns how many calls failed, or -1 if one broke its promise. */
static int run(void)
{
    sgt_engine engine = {0};
    sgt_fault fault = {0};
    sgt_reply reply = {0}, before;
    uint64_t had = 0, has = 0;
    int64_t value = 0;
    uint32_t status;
    long before_event, opened;
    int refused = 0, added, more, reported, cut;
    while ((status = sgt_open_with(&engine, opening, strlen(opening), &own, 1, &fault)) == SGT_NO_MEMORY) {
        if (engine.is_open || engine.at) return -1;
        refused++;
    }
    opened = asked;
    if (status != SGT_OK || (added = adds(&engine, &fault)) < 0) return -1;
    if (asked >= refuse) done_without += opened < refuse ? added == 0 : refused == 0;
    for (int number = 0; number < 10; number++) {
        do {
            before = reply;
            if (sgt_entries(&engine, &had) != SGT_OK) return -1;
            before_event = asked;
            status = event(&engine, number, &reply);
            if (number % 5 == 4 && asked != before_event) return -1;
            if (sgt_entries(&engine, &has) != SGT_OK || has != had + (status == SGT_OK)) return -1;
            if (status != SGT_OK && memcmp(&before, &reply, sizeof reply) != 0) return -1;
            refused += status == SGT_NO_MEMORY;
        } while (status == SGT_NO_MEMORY);
        if (status != SGT_OK) return -1;
    }
    if (sgt_get(&engine, 2, 101, &value) != SGT_OK || value != 1200) return -1;
    if ((more = runs(&engine, &reply)) < 0 || (reported = texts(&reply)) < 0 || (cut = cuts(&engine)) < 0) return -1;
    sgt_close(&engine);
    return engine.is_open || engine.at ? -1 : refused + added + more + reported + cut;
}

int main(void)
{
    int refused = 0;
    for (refuse = 1;; refuse++) {
        asked = 0;
        int came = run();
        if (came < 0) {
            printf("allocation %ld: a call did not keep its word\n", refuse);
            return 1;
        }
        if (asked < refuse) break;
        refused += came;
    }
    printf("%d of %ld allocations were told as refused, %d done without\n", refused, refuse - 1, done_without);
    return refused + done_without == refuse - 1 ? 0 : 1;
}
