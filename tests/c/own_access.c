/*
 * Transactions whose accesses their caller decides, compared with what the header says. Numbers stand for the header's names here, so that
 * a name that changed its number is seen. Each failed check is printed; the last line counts all checks.
 */
#include <inttypes.h>
#include <stdio.h>
#include <string.h>

#include "sgt.h"

static int checks, failed;

#define CHECK(holds) check((holds) != 0, #holds, __LINE__)

static void check(int holds, const char *text, int line)
{
    checks++;
    if (holds) return;
    failed++;
    printf("line %d: %s\n", line, text);
}

static const char bank[] = "{\"limits\":[8,100],\"accounts\":[[1,101,500,1000],[2,102,50,60]],\"procedures\":[]}";

static const int64_t deposit[] = {1, 100};

static void opens(sgt_engine *engine)
{
    sgt_fault fault = {0};
    CHECK(sgt_open(engine, bank, strlen(bank), &fault) == 0);
}

static uint32_t begins(sgt_engine *engine)
{
    sgt_reply reported = {0};
    CHECK(sgt_begin(engine, &reported) == 0 && reported.kind == 1);
    return reported.tid;
}

/* Whether the reply is a read or a write of a value, or of none, of this record. */
static int is_access(const sgt_reply *reported, uint32_t kind, uint32_t table, int64_t number)
{
    return reported->kind == kind && reported->table == table && reported->number == number;
}

static int reads(sgt_engine *engine, uint32_t tid, uint32_t table, int64_t number, int64_t value)
{
    sgt_reply reported = {0};
    return sgt_read(engine, tid, table, number, &reported) == 0 && is_access(&reported, 8, table, number) && reported.found == 1 && reported.value == value;
}

static int reads_none(sgt_engine *engine, uint32_t tid, uint32_t table, int64_t number)
{
    sgt_reply reported = {.found = 77, .value = 78};
    return sgt_read(engine, tid, table, number, &reported) == 0 && is_access(&reported, 8, table, number) && reported.found == 0 && reported.value == 78;
}

static int writes(sgt_engine *engine, uint32_t tid, uint32_t table, int64_t number, int64_t value)
{
    sgt_reply reported = {0};
    return sgt_write(engine, tid, table, number, value, &reported) == 0 && is_access(&reported, 9, table, number) && reported.found == 1
        && reported.value == value;
}

static int removes(sgt_engine *engine, uint32_t tid, uint32_t table, int64_t number)
{
    sgt_reply reported = {.found = 77, .value = 78};
    return sgt_remove(engine, tid, table, number, &reported) == 0 && is_access(&reported, 9, table, number) && reported.found == 0 && reported.value == 78;
}

static int commits(sgt_engine *engine, uint32_t tid)
{
    sgt_reply reported = {0};
    return sgt_commit(engine, tid, &reported) == 0 && reported.kind == 13 && reported.answers == 0;
}

static int has(const sgt_engine *engine, uint32_t table, int64_t number, int64_t value)
{
    int64_t found = 0;
    return sgt_get(engine, table, number, &found) == 0 && found == value;
}

static void a_caller_moves_money(void)
{
    sgt_engine engine = {0};
    uint64_t live = 0, count = 0;
    int64_t value = 0;
    opens(&engine);
    uint32_t t = begins(&engine);
    CHECK(t == 0);
    CHECK(reads(&engine, t, 2, 101, 1000));
    CHECK(reads(&engine, t, 2, 102, 60));
    CHECK(writes(&engine, t, 2, 101, 960));
    CHECK(reads(&engine, t, 2, 101, 960));
    CHECK(writes(&engine, t, 2, 102, 100));
    CHECK(has(&engine, 2, 101, 1000));
    CHECK(reads_none(&engine, t, 3, 9));
    CHECK(writes(&engine, t, 3, 9, 7));
    CHECK(removes(&engine, t, 1, 102));
    CHECK(reads_none(&engine, t, 1, 102));
    CHECK(removes(&engine, t, 7, 5));
    CHECK(has(&engine, 1, 102, 50));
    CHECK(commits(&engine, t));
    CHECK(has(&engine, 2, 101, 960) && has(&engine, 2, 102, 100) && has(&engine, 3, 9, 7));
    CHECK(sgt_get(&engine, 1, 102, &value) == 4 && sgt_get(&engine, 7, 5, &value) == 4);
    CHECK(sgt_records(&engine, &count) == 0 && count == 6);
    CHECK(sgt_cut(&engine, &live) == 0);
    CHECK(sgt_get(&engine, 1, 102, &value) == 4 && has(&engine, 3, 9, 7));
    t = begins(&engine);
    CHECK(reads_none(&engine, t, 1, 102));
    CHECK(writes(&engine, t, 1, 102, 51));
    CHECK(commits(&engine, t));
    CHECK(has(&engine, 1, 102, 51));
    sgt_close(&engine);
}

static void what_is_out_of_range_is_refused(void)
{
    sgt_engine engine = {0};
    sgt_reply reported = {0};
    uint64_t count = 0;
    CHECK(sgt_begin(&engine, &reported) == 2);
    CHECK(sgt_read(&engine, 0, 8, 101, &reported) == 5 && sgt_read(&engine, 0, 2, 101, &reported) == 2);
    CHECK(sgt_write(&engine, 0, 8, 101, 1, &reported) == 5 && sgt_write(&engine, 0, 2, 101, 1, &reported) == 2);
    CHECK(sgt_remove(&engine, 0, 8, 101, &reported) == 5 && sgt_remove(&engine, 0, 2, 101, &reported) == 2);
    CHECK(sgt_begin(NULL, &reported) == 2 && sgt_begin(&engine, NULL) == 5 && sgt_read(NULL, 0, 2, 101, &reported) == 2);
    CHECK(reported.kind == 0);
    opens(&engine);
    uint32_t t = begins(&engine);
    CHECK(sgt_read(&engine, t, 8, 101, &reported) == 5 && sgt_read(&engine, t, 258, 101, &reported) == 5);
    CHECK(sgt_read(&engine, t, (UINT64_C(1) << 32) + 2, 101, &reported) == 5);
    CHECK(sgt_read(&engine, t, 2, SGT_MOST + 1, &reported) == 5 && sgt_read(&engine, t, 2, SGT_LEAST - 1, &reported) == 5);
    CHECK(sgt_write(&engine, t, 8, 101, 1, &reported) == 5 && sgt_write(&engine, t, 2, SGT_MOST + 1, 1, &reported) == 5);
    CHECK(sgt_remove(&engine, t, 8, 101, &reported) == 5 && sgt_remove(&engine, t, 2, SGT_LEAST - 1, &reported) == 5);
    CHECK(reported.kind == 0 && sgt_entries(&engine, &count) == 0 && count == 1);
    CHECK(sgt_write(&engine, t, 2, 101, SGT_MOST + 1, &reported) == 0 && reported.kind == 3);
    CHECK(sgt_write(&engine, t, 2, 101, SGT_LEAST - 1, &reported) == 0 && reported.kind == 3);
    CHECK(reads(&engine, t, 2, 101, 1000));
    CHECK(writes(&engine, t, 2, 101, SGT_MOST) && writes(&engine, t, 7, SGT_LEAST, SGT_LEAST));
    CHECK(sgt_read(&engine, 1, 2, 101, &reported) == 0 && reported.kind == 6);
    CHECK(commits(&engine, t));
    CHECK(has(&engine, 2, 101, SGT_MOST) && has(&engine, 7, SGT_LEAST, SGT_LEAST));
    CHECK(sgt_read(&engine, t, 2, 101, &reported) == 0 && reported.kind == 7 && reported.cause == 0);
    CHECK(sgt_write(&engine, t, 2, 101, 5, &reported) == 0 && reported.kind == 7);
    CHECK(sgt_remove(&engine, t, 2, 101, &reported) == 0 && reported.kind == 7);
    CHECK(has(&engine, 2, 101, SGT_MOST));
    sgt_close(&engine);
}

static void the_limits_hold_for_begins(void)
{
    sgt_engine engine = {0};
    sgt_reply reported = {0};
    CHECK(sgt_open_bare(&engine, 1, 2, 0) == 0);
    uint32_t t = begins(&engine);
    CHECK(sgt_begin(&engine, &reported) == 0 && reported.kind == 5);
    CHECK(writes(&engine, t, 0, 1, 5) && commits(&engine, t));
    t = begins(&engine);
    CHECK(t == 1 && reads(&engine, t, 0, 1, 5) && commits(&engine, t));
    CHECK(sgt_begin(&engine, &reported) == 0 && reported.kind == 4);
    CHECK(sgt_start(&engine, 65535, NULL, 0, &reported) == 0 && reported.kind == 4);
    CHECK(sgt_start(&engine, 0, NULL, 0, &reported) == 0 && reported.kind == 2);
    sgt_close(&engine);
}

/* A caller goes on where a stored procedure ends, and not before. */
static void accesses_follow_a_procedure(void)
{
    sgt_engine engine = {0};
    sgt_reply reported = {0};
    opens(&engine);
    CHECK(sgt_start(&engine, 1, deposit, 2, &reported) == 0 && reported.kind == 1);
    uint32_t t = reported.tid;
    CHECK(sgt_read(&engine, t, 2, 101, &reported) == 0 && reported.kind == 11);
    CHECK(sgt_step(&engine, t, &reported) == 0 && reported.kind == 8);
    CHECK(sgt_write(&engine, t, 2, 101, SGT_MOST + 1, &reported) == 0 && reported.kind == 11);
    CHECK(sgt_remove(&engine, t, 2, 101, &reported) == 0 && reported.kind == 11);
    CHECK(sgt_step(&engine, t, &reported) == 0 && reported.kind == 8);
    CHECK(sgt_step(&engine, t, &reported) == 0 && reported.kind == 9 && reported.value == 1100);
    CHECK(reads(&engine, t, 2, 101, 1100));
    CHECK(writes(&engine, t, 1, 101, 400));
    CHECK(sgt_step(&engine, t, &reported) == 0 && reported.kind == 10);
    CHECK(sgt_commit(&engine, t, &reported) == 0 && reported.kind == 13 && reported.answers == 1 && reported.answer[0] == 1100);
    CHECK(has(&engine, 2, 101, 1100) && has(&engine, 1, 101, 400));
    sgt_close(&engine);
}

static void a_cycle_aborts(void)
{
    sgt_engine engine = {0};
    sgt_reply reported = {0};
    opens(&engine);
    uint32_t a = begins(&engine), b = begins(&engine);
    CHECK(reads(&engine, a, 2, 101, 1000));
    CHECK(reads(&engine, b, 2, 102, 60));
    CHECK(writes(&engine, a, 2, 102, 61));
    CHECK(sgt_remove(&engine, b, 2, 101, &reported) == 0);
    CHECK(reported.kind == 14 && reported.cause == 1 && reported.walked == 2 && reported.walk[0] == b && reported.walk[1] == a && reported.fallen == 0);
    CHECK(sgt_write(&engine, b, 2, 101, 5, &reported) == 0 && reported.kind == 7 && reported.cause == 1);
    CHECK(commits(&engine, a));
    CHECK(has(&engine, 2, 101, 1000) && has(&engine, 2, 102, 61));
    sgt_close(&engine);
}

/* What read from an aborted transaction is aborted with it, and a commit waits for what it read from. */
static void readers_fall_and_wait(void)
{
    sgt_engine engine = {0};
    sgt_reply reported = {0};
    opens(&engine);
    uint32_t a = begins(&engine), b = begins(&engine);
    CHECK(removes(&engine, a, 2, 101));
    CHECK(reads_none(&engine, b, 2, 101));
    CHECK(sgt_commit(&engine, b, &reported) == 0 && reported.kind == 12 && reported.tid == a);
    CHECK(sgt_quit(&engine, a, &reported) == 0 && reported.kind == 14 && reported.cause == 3 && reported.fallen == 1 && reported.fell[0] == b);
    CHECK(sgt_read(&engine, b, 2, 101, &reported) == 0 && reported.kind == 7 && reported.cause == 4 && reported.tid == a);
    CHECK(has(&engine, 2, 101, 1000));
    a = begins(&engine);
    b = begins(&engine);
    CHECK(writes(&engine, a, 2, 101, 5) && reads(&engine, b, 2, 101, 5));
    CHECK(commits(&engine, a) && commits(&engine, b));
    sgt_close(&engine);
}

/* What the history says of such accesses. The fields that do not count keep their values. */
static void entries_have_accesses(void)
{
    sgt_engine engine = {0};
    sgt_event event, want;
    sgt_reply reported = {0};
    opens(&engine);
    uint32_t t = begins(&engine);
    CHECK(reads(&engine, t, 2, 101, 1000) && writes(&engine, t, 3, -9, 7) && removes(&engine, t, 2, 102));
    CHECK(sgt_write(&engine, t, 2, 101, SGT_MOST + 1, &reported) == 0 && reported.kind == 3);
    memset(&event, 0x5a, sizeof event);
    want = event;
    CHECK(sgt_entry(&engine, 0, &event, &reported) == 0 && reported.kind == 1);
    want.kind = 1;
    want.procedure = 65535;
    want.args = 0;
    CHECK(memcmp(&event, &want, sizeof event) == 0);
    CHECK(sgt_entry(&engine, 1, &event, &reported) == 0 && reported.kind == 8 && reported.value == 1000);
    want.kind = 5;
    want.tid = t;
    want.table = 2;
    want.number = 101;
    CHECK(memcmp(&event, &want, sizeof event) == 0);
    CHECK(sgt_entry(&engine, 2, &event, &reported) == 0 && reported.kind == 9 && reported.found == 1 && reported.value == 7);
    want.kind = 6;
    want.table = 3;
    want.number = -9;
    want.value = 7;
    CHECK(memcmp(&event, &want, sizeof event) == 0);
    CHECK(sgt_entry(&engine, 3, &event, &reported) == 0 && reported.kind == 9 && reported.found == 0);
    want.kind = 7;
    want.table = 2;
    want.number = 102;
    CHECK(memcmp(&event, &want, sizeof event) == 0);
    CHECK(sgt_entry(&engine, 4, &event, &reported) == 0 && reported.kind == 3 && event.kind == 6 && event.value == SGT_MOST + 1);
    sgt_close(&engine);
}

static int is_one(const sgt_access *access, uint32_t kind, uint32_t table, int64_t number, uint32_t found, int64_t value)
{
    return access->kind == kind && access->table == table && access->number == number && access->found == found && access->value == value
        && access->spare == 0;
}

static void accesses_are_listed(void)
{
    sgt_engine engine = {0};
    sgt_reply reported = {0};
    sgt_access list[8];
    uint64_t count = 77;
    memset(list, 0x5a, sizeof list);
    CHECK(sgt_accesses(&engine, 0, list, 8, &count) == 2 && count == 77 && list[0].kind == 0x5a5a5a5a);
    opens(&engine);
    CHECK(sgt_accesses(&engine, 0, list, 8, NULL) == 5 && sgt_accesses(&engine, 0, NULL, 8, &count) == 5);
    CHECK(sgt_accesses(&engine, 0, NULL, 0, &count) == 0 && count == 0);
    uint32_t a = begins(&engine), b = begins(&engine);
    CHECK(reads(&engine, a, 2, 101, 1000) && reads(&engine, b, 1, 101, 500) && writes(&engine, a, 2, 101, 5));
    CHECK(sgt_write(&engine, a, 2, 101, SGT_MOST + 1, &reported) == 0 && reported.kind == 3);
    CHECK(reads_none(&engine, a, 3, 9) && removes(&engine, a, 2, 102));
    CHECK(sgt_accesses(&engine, b, list, 8, &count) == 0 && count == 1 && is_one(&list[0], 5, 1, 101, 1, 500));
    CHECK(list[1].kind == 0x5a5a5a5a);
    CHECK(commits(&engine, a));
    CHECK(sgt_read(&engine, a, 2, 101, &reported) == 0 && reported.kind == 7);
    CHECK(sgt_accesses(&engine, a, list, 8, &count) == 0 && count == 4);
    CHECK(is_one(&list[0], 5, 2, 101, 1, 1000) && is_one(&list[1], 6, 2, 101, 1, 5));
    CHECK(is_one(&list[2], 5, 3, 9, 0, 0) && is_one(&list[3], 7, 2, 102, 0, 0) && list[4].kind == 0x5a5a5a5a);
    memset(list, 0x5a, sizeof list);
    CHECK(sgt_accesses(&engine, a, list, 2, &count) == 0 && count == 4 && list[2].kind == 0x5a5a5a5a);
    CHECK(is_one(&list[0], 5, 2, 101, 1, 1000) && is_one(&list[1], 6, 2, 101, 1, 5));
    CHECK(sgt_accesses(&engine, 2, list, 8, &count) == 0 && count == 0);
    sgt_close(&engine);
}

/* Makes one access of a journal again, and says whether it gets the same reply. */
static int made_again(sgt_engine *engine, uint32_t tid, const sgt_access *access)
{
    sgt_reply reported = {0};
    uint32_t status = 0;
    if (access->kind == 5) status = sgt_read(engine, tid, access->table, access->number, &reported);
    if (access->kind == 6) status = sgt_write(engine, tid, access->table, access->number, access->value, &reported);
    if (access->kind == 7) status = sgt_remove(engine, tid, access->table, access->number, &reported);
    return status == 0 && is_access(&reported, access->kind == 5 ? 8 : 9, access->table, access->number) && reported.found == access->found
        && reported.value == access->value;
}

/* Runs a call of a journal again with its accesses, and says whether its result is the same. */
static int run_again(sgt_engine *engine, const sgt_call *call, const sgt_access *accesses)
{
    sgt_reply reported = {0};
    CHECK(sgt_start(engine, call->procedure, call->arg, call->args, &reported) == 0 && reported.kind == 1);
    uint32_t tid = reported.tid;
    do {
        if (sgt_step(engine, tid, &reported) != 0) CHECK(!"a step is answered");
    } while (reported.kind == 8 || reported.kind == 9);
    for (uint64_t i = 0; i < call->accesses; i++) CHECK(made_again(engine, tid, &accesses[i]));
    CHECK(sgt_commit(engine, tid, &reported) == 0);
    if (reported.kind != call->kind) return 0;
    return reported.answers == call->answers && memcmp(reported.answer, call->answer, call->answers * sizeof *call->answer) == 0;
}

/* Callers' transactions among those of procedures, one aborted among them, run again on a new engine. */
static void a_journal_is_run_again(void)
{
    sgt_engine engine = {0}, other = {0};
    sgt_reply reported = {0};
    sgt_call calls[8] = {{0}};
    sgt_outcome outcomes[8] = {{0}};
    sgt_access accesses[8] = {{0}};
    sgt_row rows[8] = {{0}}, again[8] = {{0}};
    uint64_t count = 0, next = 0, done = 77, all = 0;
    uint32_t tid = 0;
    opens(&engine);
    opens(&other);
    uint32_t a = begins(&engine), b = begins(&engine), c = begins(&engine);
    CHECK(reads(&engine, a, 2, 101, 1000) && removes(&engine, a, 1, 102) && writes(&engine, c, 2, 102, 1) && reads_none(&engine, b, 1, 102));
    CHECK(writes(&engine, b, 3, 5, 8) && writes(&engine, a, 2, 101, 990));
    CHECK(sgt_quit(&engine, c, &reported) == 0 && reported.kind == 14);
    CHECK(commits(&engine, a) && commits(&engine, b));
    uint32_t d = begins(&engine), wrote[3] = {0};
    CHECK(reads(&engine, d, 3, 5, 8) && sgt_wrote(&engine, d, &wrote[0]) == 0 && sgt_quit(&engine, d, &reported) == 0);
    CHECK(sgt_wrote(&engine, a, &wrote[1]) == 0 && sgt_wrote(&engine, c, &wrote[2]) == 0 && !wrote[0] && wrote[1] && wrote[2]);
    CHECK(sgt_run(&engine, 1, deposit, 2, &tid, &reported) == 0 && reported.kind == 13 && reported.answer[0] == 1090);
    CHECK(sgt_start(&engine, 1, deposit, 2, &reported) == 0 && reported.kind == 1);
    tid = reported.tid;
    do {
        if (sgt_step(&engine, tid, &reported) != 0) CHECK(!"a step is answered");
    } while (reported.kind == 8 || reported.kind == 9);
    CHECK(reads(&engine, tid, 3, 5, 8) && sgt_commit(&engine, tid, &reported) == 0 && reported.kind == 13 && reported.answer[0] == 1190);
    CHECK(sgt_calls(&engine, 0, calls, 8, &count, &next) == 0 && count == 4);
    CHECK(calls[0].tid == a && calls[0].procedure == 65535 && calls[0].args == 0 && calls[0].answers == 0 && calls[0].accesses == 3);
    CHECK(calls[1].tid == b && calls[1].accesses == 2 && calls[2].accesses == 0 && calls[3].procedure == 1 && calls[3].accesses == 1);
    CHECK(sgt_run_many(&other, calls, 4, outcomes, 8, &done) == 5 && done == 77);
    for (uint64_t i = 0; i < count; i++) {
        CHECK(sgt_accesses(&engine, calls[i].tid, accesses, 8, &all) == 0 && all == calls[i].accesses);
        if (calls[i].accesses == 0) CHECK(sgt_run_many(&other, &calls[i], 1, outcomes, 8, &done) == 0 && outcomes[0].reply.kind == calls[i].kind);
        else CHECK(run_again(&other, &calls[i], accesses));
    }
    CHECK(sgt_rows(&engine, 0, SGT_LEAST, rows, 8, &all) == 0 && all == 6);
    CHECK(sgt_rows(&other, 0, SGT_LEAST, again, 8, &all) == 0 && all == 6);
    CHECK(memcmp(rows, again, sizeof rows) == 0);
    sgt_close(&engine);
    sgt_close(&other);
}

/* The part after a cut begins without what was removed, with what callers wrote in place of it. */
static void a_cut_forgets_what_was_removed(void)
{
    sgt_engine engine = {0};
    sgt_reply reported = {0};
    uint64_t live = 0, count = 0;
    int64_t value = 0;
    opens(&engine);
    uint32_t tid = begins(&engine);
    CHECK(writes(&engine, tid, 7, 9, 500) && removes(&engine, tid, 1, 101) && reads_none(&engine, tid, 1, 101) && commits(&engine, tid));
    CHECK(sgt_start(&engine, 1, deposit, 2, &reported) == 0 && reported.kind == 1);
    for (tid = reported.tid; sgt_step(&engine, tid, &reported) == 0 && reported.kind != 10;) {}
    CHECK(reads(&engine, tid, 7, 9, 500) && writes(&engine, tid, 7, 9, 510));
    CHECK(sgt_commit(&engine, tid, &reported) == 0 && reported.kind == 13 && reported.answer[0] == 1100);
    CHECK(sgt_cut(&engine, &live) == 0 && sgt_records(&engine, &count) == 0 && count == 6);
    CHECK(sgt_get(&engine, 1, 101, &value) == 4 && sgt_get(&engine, 7, 9, &value) == 0 && value == 510);
    CHECK(begins(&engine) == 0 && reads_none(&engine, 0, 1, 101) && reads(&engine, 0, 7, 9, 510) && removes(&engine, 0, 7, 9) && commits(&engine, 0));
    CHECK(sgt_get(&engine, 7, 9, &value) == 4 && sgt_records(&engine, &count) == 0 && count == 5);
    CHECK(sgt_cut(&engine, &live) == 0 && sgt_records(&engine, &count) == 0 && count == 5 && sgt_get(&engine, 2, 101, &value) == 0 && value == 1100);
    sgt_close(&engine);
}

static void replies_are_spelled(void)
{
    sgt_reply reported = {.kind = 9, .table = 2, .number = 101, .found = 0, .value = 5};
    char text[64] = {0};
    uint64_t length = 0;
    CHECK(sgt_reply_text(&reported, text, sizeof text, &length) == 0 && length > 0 && strstr(text, "101") && !strchr(text, '5'));
    reported.found = 1;
    CHECK(sgt_reply_text(&reported, text, sizeof text, &length) == 0 && strchr(text, '5'));
    reported.found = 2;
    CHECK(sgt_reply_text(&reported, text, sizeof text, &length) == 5);
}

int main(void)
{
    a_caller_moves_money();
    what_is_out_of_range_is_refused();
    the_limits_hold_for_begins();
    accesses_follow_a_procedure();
    a_cycle_aborts();
    readers_fall_and_wait();
    entries_have_accesses();
    accesses_are_listed();
    a_journal_is_run_again();
    a_cut_forgets_what_was_removed();
    replies_are_spelled();
    printf("%d checks, %d failed\n", checks, failed);
    return failed != 0;
}
