/* A bank's story: a deposit, and a balance that reads what it stored before it is committed. */
#include <inttypes.h>
#include <stdio.h>
#include <string.h>

#include "sgt.h"

static const char opening[] = "{\"limits\":[8,100],\"accounts\":[[1,101,500,1000]],\"procedures\":[]}";

static const char empty[] = "{\"limits\":[8,100],\"accounts\":[],\"procedures\":[]}";

static const char lookup[] = "[1,[[\"look\",0,7,[\"arg\",0],5],[\"answer\",[\"reg\",0]]]]"; /* returns a record of table 7 */

static const char shape_error[] = "{\"limits\":[8,100],\"accounts\":[],\"procedures\":[[0,[7]]]}";

static void show(const sgt_reply *reply)
{
    switch (reply->kind) {
    case SGT_STARTED: printf("started %" PRIu32 "\n", reply->tid); break;
    case SGT_LOOKED: printf("read %" PRIu32 "/%" PRId64 " %" PRId64 "\n", reply->table, reply->number, reply->value); break;
    case SGT_WROTE: printf("wrote %" PRIu32 "/%" PRId64 " %" PRId64 "\n", reply->table, reply->number, reply->value); break;
    case SGT_WAITS: printf("waits %" PRIu32 "\n", reply->tid); break;
    case SGT_COMMITTED: printf("committed %" PRId64 "\n", reply->answer[0]); break;
    default: printf("kind %" PRIu32 "\n", reply->kind);
    }
}

int main(void)
{
    sgt_engine engine = {0};
    sgt_fault fault = {0};
    sgt_event event = {0};
    sgt_row rows[8] = {{0}};
    sgt_reply reply = {0};
    const int64_t account_and_amount[] = {1, 100};
    const sgt_row own = {7, 0, 1, 40};
    uint16_t number = 0;
    uint32_t last = 0;
    int64_t value = 0;
    uint64_t entries = 0, count = 0, length = 0, live = 0, at = 0;
    char text[1024];
    if (sgt_open(&engine, opening, strlen(opening), &fault) != SGT_OK) return 1;
    for (uint32_t tid = 0; tid < 2; tid++) { /* procedure 1 is a deposit; procedure 0, with the account alone, a balance */
        if (sgt_start(&engine, tid == 0 ? 1 : 0, account_and_amount, tid == 0 ? 2 : 1, &reply) != SGT_OK) return 1;
        show(&reply);
        for (int step = 0; step < 3; step++) {
            if (sgt_step(&engine, tid, &reply) != SGT_OK) return 1;
            show(&reply);
        }
    }
    sgt_commit(&engine, 1, &reply), show(&reply); /* waits: it has read from the deposit */
    sgt_commit(&engine, 0, &reply), show(&reply);
    sgt_commit(&engine, 1, &reply), show(&reply);
    if (sgt_get(&engine, 2, 101, &value) == SGT_OK) printf("2/101 %" PRId64 "\n", value);
    if (sgt_entries(&engine, &entries) == SGT_OK) printf("%" PRIu64 " entries\n", entries);
    if (sgt_entry(&engine, 8, &event, &reply) != SGT_OK || event.kind != SGT_COMMIT) return 1;
    printf("entry 8: commit of %" PRIu32 ", ", event.tid), show(&reply);
    if (sgt_rows(&engine, 0, SGT_LEAST, rows, 8, &count) != SGT_OK || count > 8) return 1;
    for (uint64_t i = 0; i < count; i++) {
        printf("%" PRIu32 "/%" PRId64 " %" PRId64 "\n", rows[i].table, rows[i].number, rows[i].value);
    }
    sgt_close(&engine);
    rows[count - 1].value = 7; /* a new engine with these rows, one of them changed */
    if (sgt_open_with(&engine, empty, strlen(empty), rows, count, &fault) != SGT_OK) return 1;
    if (sgt_rows(&engine, 0, SGT_LEAST, rows, 0, &count) != SGT_OK || sgt_get(&engine, 2, 101, &value) != SGT_OK) return 1;
    printf("again %" PRIu64 " rows, 2/101 %" PRId64 "\n", count, value);
    for (int run = 0; run < 3; run++) { /* two deposits and a balance, each in one call */
        uint32_t tid = 0;
        if (sgt_run(&engine, run < 2 ? 1 : 0, account_and_amount, run < 2 ? 2 : 1, &tid, &reply) != SGT_OK) return 1;
        if (run == 2) printf("ran %" PRIu32 ": ", tid), show(&reply);
    }
    if (sgt_reply_text(&reply, text, sizeof text, &length) != SGT_OK || length > sizeof text) return 1;
    printf("%.*s\n", (int)length, text);
    if (sgt_start(&engine, 0, account_and_amount, 1, &reply) != SGT_OK) return 1;
    if (sgt_cut(&engine, &live) == SGT_STILL_LIVE) printf("%" PRIu64 " live\n", live);
    if (sgt_quit(&engine, reply.tid, &reply) != SGT_OK || sgt_cut(&engine, &live) != SGT_OK) return 1;
    if (sgt_entries(&engine, &entries) != SGT_OK || sgt_get(&engine, 2, 101, &value) != SGT_OK) return 1;
    printf("%" PRIu64 " entries, 2/101 %" PRId64 "\n", entries, value);
    if (sgt_put(&engine, &own, 1, &at) != SGT_OK) return 1; /* one more record and procedure, while the history is empty */
    if (sgt_put(&engine, &own, 1, &at) == SGT_TAKEN) printf("row %" PRIu64 " taken\n", at);
    if (sgt_procedure(&engine, lookup, strlen(lookup), &number, &fault) != SGT_OK) return 1;
    if (sgt_run(&engine, number, account_and_amount, 1, &last, &reply) != SGT_OK) return 1;
    printf("procedure %u: ", number), show(&reply);
    if (sgt_put(&engine, &own, 1, &at) == SGT_BEGUN) printf("begun\n");
    sgt_close(&engine);
    if (sgt_open(&engine, shape_error, strlen(shape_error), &fault) != SGT_PROC_SHAPE) return 1;
    if (sgt_explain_opening(shape_error, strlen(shape_error), text, sizeof text, &length) != SGT_OK || length > sizeof text) return 1;
    printf("%.*s\n", (int)length, text);
    return 0;
}
