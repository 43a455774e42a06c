/*
 * Each call of the library, with its status and its results, compared with what the header says. Numbers stand for the header's names here,
 * so that a name that changed its number is seen. Each failed check is printed; the last line counts all checks.
 */
#include <inttypes.h>
#include <stdio.h>
#include <string.h>
#ifdef __GLIBC__
#include <malloc.h>
#endif

#include "sgt.h"

static int checks, failed;

#define CHECK(holds) check((holds) != 0, #holds, __LINE__)

static void check(int holds, const char *text, int line)
{
    checks++;
    if (holds) return;
    failed++;
    printf("line %d: %s\n", line, text);
}

static const char opening[] = "{\"limits\":[8,100],\"accounts\":[[1,101,500,1000]],\"procedures\":[]}";
static const char shape[] = "{\"limits\":[8,100],\"accounts\":[],\"procedures\":[[0,[7]]]}";

static const int64_t deposit[] = {1, 100};

static uint32_t opens(sgt_engine *engine, const char *text, sgt_fault *fault)
{
    return sgt_open(engine, text, strlen(text), fault);
}

static uint32_t opens_with(sgt_engine *engine, const char *text, const sgt_row *rows, size_t count, sgt_fault *fault)
{
    return sgt_open_with(engine, text, strlen(text), rows, count, fault);
}

static int is_row(const sgt_row *row, uint32_t table, int64_t number, int64_t value)
{
    return row->table == table && row->number == number && row->value == value;
}

static int is_access(const sgt_reply *reported, uint32_t kind, uint32_t table, int64_t number, int64_t value)
{
    return reported->kind == kind && reported->table == table && reported->number == number && reported->value == value;
}

static int is_committed(const sgt_reply *reported, int64_t answer)
{
    return reported->kind == 13 && reported->answers == 1 && reported->answer[0] == answer;
}

static void a_deposit_is_committed(void)
{
    sgt_engine engine = {0};
    sgt_fault fault = {0};
    sgt_reply reported = {0};
    int64_t value = 0;
    uint64_t count = 0;
    CHECK(opens(&engine, opening, &fault) == 0);
    CHECK(sgt_start(&engine, 1, deposit, 2, &reported) == 0);
    CHECK(reported.kind == 1 && reported.tid == 0);
    CHECK(sgt_step(&engine, 0, &reported) == 0);
    CHECK(is_access(&reported, 8, 0, 1, 101) && reported.found == 1);
    CHECK(sgt_step(&engine, 0, &reported) == 0);
    CHECK(is_access(&reported, 8, 2, 101, 1000) && reported.found == 1);
    CHECK(sgt_step(&engine, 0, &reported) == 0);
    CHECK(is_access(&reported, 9, 2, 101, 1100));
    CHECK(sgt_commit(&engine, 0, &reported) == 0);
    CHECK(is_committed(&reported, 1100));
    CHECK(sgt_quit(&engine, 0, &reported) == 0);
    CHECK(reported.kind == 7 && reported.cause == 0);
    CHECK(sgt_get(&engine, 2, 101, &value) == 0);
    CHECK(value == 1100);
    CHECK(sgt_get(&engine, 2, 5, &value) == 4);
    CHECK(value == 1100);
    CHECK(sgt_entries(&engine, &count) == 0);
    CHECK(count == 6);
    sgt_close(&engine);
    CHECK(!engine.is_open && !engine.at);
}

static void statuses_are_reported(void)
{
    const char same[] = "{\"limits\":[8,100],\"accounts\":[[1,101,5,5],[1,102,5,5]],\"procedures\":[]}";
    const int64_t five[] = {1, 2, 3, 4, 5};
    sgt_engine engine = {0};
    sgt_fault fault = {0};
    sgt_reply reported = {0};
    int64_t value = 77;
    CHECK(sgt_step(&engine, 0, &reported) == 2);
    CHECK(reported.kind == 0);
    CHECK(opens(&engine, "nope", &fault) == 16);
    CHECK(fault.kind == 16);
    CHECK(opens(&engine, same, &fault) == 19);
    CHECK(fault.kind == 19 && fault.number == 1);
    CHECK(opens(&engine, shape, &fault) == 20);
    CHECK(fault.kind == 20 && fault.procedure == 5 && fault.depth == 2 && fault.place[0] == 1 && fault.place[1] == 0);
    CHECK(!engine.is_open && !engine.at);
    CHECK(opens(&engine, opening, &fault) == 0);
    CHECK(opens(&engine, opening, &fault) == 3);
    CHECK(sgt_get(&engine, 8, 1, &value) == 5);
    CHECK(sgt_get(&engine, 0, SGT_MOST + 1, &value) == 5);
    CHECK(value == 77);
    CHECK(sgt_start(&engine, 0, five, 5, &reported) == 5);
    CHECK(reported.kind == 0);
    sgt_close(&engine);
    CHECK(sgt_commit(&engine, 0, &reported) == 2);
    CHECK(sgt_quit(&engine, 0, &reported) == 2);
    CHECK(sgt_start(&engine, 0, five, 1, &reported) == 2);
    CHECK(sgt_get(&engine, 0, 1, &value) == 2);
    CHECK(reported.kind == 0 && value == 77);
}

static void entries_are_reported(void)
{
    sgt_engine engine = {0};
    sgt_fault fault = {0};
    sgt_event asked = {0};
    sgt_reply reported = {0};
    uint64_t count = 77;
    CHECK(sgt_entry(&engine, 0, &asked, &reported) == 2);
    CHECK(sgt_reserve(&engine, 10) == 2);
    CHECK(sgt_entries(&engine, &count) == 2);
    CHECK(count == 77);
    CHECK(opens(&engine, opening, &fault) == 0);
    CHECK(sgt_reserve(&engine, 10) == 0);
    CHECK(sgt_start(&engine, 1, deposit, 2, &reported) == 0);
    CHECK(sgt_step(&engine, 0, &reported) == 0);
    CHECK(sgt_commit(&engine, 0, &reported) == 0);
    CHECK(sgt_quit(&engine, 0, &reported) == 0);
    memset(&reported, 0, sizeof reported);
    CHECK(sgt_entry(&engine, 0, &asked, &reported) == 0);
    CHECK(asked.kind == 1 && asked.procedure == 1 && asked.args == 2);
    CHECK(asked.arg[0] == 1 && asked.arg[1] == 100);
    CHECK(reported.kind == 1 && reported.tid == 0);
    CHECK(sgt_entry(&engine, 1, &asked, &reported) == 0);
    CHECK(asked.kind == 2 && asked.tid == 0 && reported.kind == 8 && reported.value == 101);
    CHECK(sgt_entry(&engine, 2, &asked, &reported) == 0);
    CHECK(asked.kind == 3 && reported.kind == 11);
    CHECK(sgt_entry(&engine, 3, &asked, &reported) == 0);
    CHECK(asked.kind == 4 && reported.kind == 14 && reported.cause == 3);
    CHECK(sgt_entry(&engine, 4, &asked, &reported) == 4);
    CHECK(asked.kind == 4 && reported.kind == 14);
    sgt_close(&engine);
}

static int is_call(const sgt_call *call, uint32_t kind, uint32_t tid, uint32_t procedure, uint32_t args, int64_t arg)
{
    return call->kind == kind && call->tid == tid && call->procedure == procedure && call->args == args && call->arg[0] == arg;
}

static void calls_are_reported(void)
{
    const char at_commit[] = "{\"limits\":[8,100,1],\"accounts\":[[1,101,500,1000]],\"procedures\":[]}";
    const int64_t stranger[] = {9};
    sgt_engine engine = {0};
    sgt_fault fault = {0};
    sgt_reply reported = {0};
    sgt_call calls[3] = {{0}};
    uint32_t t = 0;
    uint64_t count = 77, next = 78, entries = 0;
    calls[1].kind = 99;
    CHECK(sgt_calls(&engine, 0, calls, 3, &count, &next) == 2);
    CHECK(count == 77 && next == 78 && calls[1].kind == 99);
    CHECK(opens(&engine, at_commit, &fault) == 0);
    CHECK(sgt_calls(&engine, 1, calls, 3, &count, &next) == 4);
    CHECK(count == 77 && next == 78);
    CHECK(sgt_calls(&engine, 0, calls, 3, &count, &next) == 0);
    CHECK(count == 0 && next == 0 && calls[1].kind == 99);
    CHECK(sgt_start(&engine, 0, deposit, 1, &reported) == 0);
    CHECK(sgt_run(&engine, 0, stranger, 1, &t, &reported) == 0);
    CHECK(reported.kind == 15 && reported.code == 1 && t == 1);
    CHECK(sgt_run(&engine, 1, deposit, 2, &t, &reported) == 0);
    CHECK(is_committed(&reported, 1100) && t == 2);
    CHECK(sgt_start(&engine, 1, deposit, 2, &reported) == 0);
    CHECK(sgt_quit(&engine, 3, &reported) == 0);
    CHECK(sgt_step(&engine, 0, &reported) == 0);
    CHECK(sgt_step(&engine, 0, &reported) == 0);
    CHECK(sgt_step(&engine, 0, &reported) == 0);
    CHECK(sgt_step(&engine, 0, &reported) == 0 && reported.kind == 10);
    CHECK(sgt_commit(&engine, 0, &reported) == 0);
    CHECK(is_committed(&reported, 1600));
    CHECK(sgt_entries(&engine, &entries) == 0);
    CHECK(sgt_calls(&engine, 0, calls, 3, &count, &next) == 0);
    CHECK(count == 3);
    CHECK(is_call(&calls[0], 15, 1, 0, 1, 9) && calls[0].code == 1 && calls[0].answers == 0);
    CHECK(is_call(&calls[1], 13, 2, 1, 2, 1) && calls[1].arg[1] == 100 && calls[1].answers == 1 && calls[1].answer[0] == 1100);
    CHECK(is_call(&calls[2], 13, 0, 0, 1, 1) && calls[2].answers == 1 && calls[2].answer[0] == 1600);
    CHECK(sgt_calls(&engine, next, calls, 3, &count, &next) == 0);
    CHECK(count == 0 && next == entries);
    CHECK(sgt_calls(&engine, 0, calls, 1, &count, &next) == 0);
    CHECK(count == 1 && next < entries && calls[0].kind == 15 && calls[1].tid == 2);
    CHECK(sgt_calls(&engine, next, calls, 1, &count, &next) == 0);
    CHECK(count == 1 && calls[0].tid == 2);
    CHECK(sgt_calls(&engine, next, calls, 0, &count, &next) == 0);
    CHECK(count == 0);
    CHECK(sgt_calls(&engine, next, calls, 3, &count, &next) == 0);
    CHECK(count == 1 && next == entries && calls[0].tid == 0);
    CHECK(sgt_calls(&engine, UINT64_MAX, calls, 3, &count, &next) == 4);
    sgt_close(&engine);
}

static void rows_are_reported(void)
{
    sgt_engine engine = {0};
    sgt_fault fault = {0};
    uint64_t count = 9;
    sgt_row rows[] = {{9, 0, 9, 9}, {9, 0, 9, 9}};
    CHECK(sgt_rows(&engine, 8, 0, rows, 2, &count) == 5);
    CHECK(sgt_rows(&engine, 0, 0, rows, 2, &count) == 2);
    CHECK(count == 9 && is_row(&rows[0], 9, 9, 9) && is_row(&rows[1], 9, 9, 9));
    CHECK(opens(&engine, opening, &fault) == 0);
    CHECK(sgt_rows(&engine, 0, 1, rows, 2, &count) == 0);
    CHECK(is_row(&rows[0], 0, 1, 101) && is_row(&rows[1], 1, 101, 500));
    CHECK(count == 3);
    CHECK(sgt_rows(&engine, 1, 102, rows, 2, &count) == 0);
    CHECK(is_row(&rows[0], 2, 101, 1000) && is_row(&rows[1], 1, 101, 500));
    CHECK(count == 1);
    sgt_close(&engine);
}

static void rows_are_opened(void)
{
    const sgt_row own[] = {{7, 0, 5, 50}, {2, 0, 101, 7}, {7, 0, 5, 51}};
    const sgt_row beyond = {8, 0, 0, 0};
    sgt_engine engine = {0};
    sgt_fault fault = {0};
    sgt_row row = {0};
    int64_t value = 0;
    uint64_t count = 0;
    CHECK(opens_with(&engine, opening, &beyond, 1, &fault) == 5);
    CHECK(opens_with(&engine, "", own, 3, &fault) == 16);
    CHECK(!engine.is_open && !engine.at);
    CHECK(opens_with(&engine, opening, own, 3, &fault) == 0);
    CHECK(opens_with(&engine, opening, own, 3, &fault) == 3);
    CHECK(sgt_get(&engine, 7, 5, &value) == 0);
    CHECK(value == 51);
    CHECK(sgt_get(&engine, 2, 101, &value) == 0);
    CHECK(value == 7);
    CHECK(sgt_rows(&engine, 0, 0, &row, 0, &count) == 0);
    CHECK(count == 4);
    sgt_close(&engine);
}

static void rows_are_put(void)
{
    const sgt_row own[] = {{7, 0, 5, 50}, {3, 0, 1, 7}}, there = {2, 0, 101, 9}, more = {7, 0, 6, 1};
    const sgt_row twice[] = {{7, 0, 6, 1}, {7, 0, 6, 2}};
    const sgt_row beyond[] = {{7, 0, 9, 0}, {8, 0, 0, 0}, {7, 0, SGT_MOST + 1, 0}};
    const sgt_row greater = {7, 0, 9, SGT_MOST + 1};
    sgt_engine engine = {0};
    sgt_fault fault = {0};
    sgt_reply reported = {0};
    sgt_row row = {0};
    uint32_t t = 0;
    uint64_t at = 77, count = 0, live = 0;
    int64_t value = 0;
    CHECK(sgt_put(&engine, own, 2, &at) == 2);
    CHECK(at == 77);
    CHECK(sgt_put(&engine, beyond, 3, &at) == 5);
    CHECK(at == 1);
    CHECK(opens(&engine, opening, &fault) == 0);
    CHECK(sgt_put(&engine, &greater, 1, &at) == 5);
    CHECK(at == 0);
    at = 77;
    CHECK(sgt_put(&engine, own, 2, &at) == 0);
    CHECK(at == 77);
    CHECK(sgt_get(&engine, 7, 5, &value) == 0);
    CHECK(value == 50);
    CHECK(sgt_put(&engine, own, 0, &at) == 0);
    CHECK(sgt_put(&engine, twice, 2, &at) == 8);
    CHECK(at == 1);
    CHECK(sgt_get(&engine, 7, 6, &value) == 4);
    CHECK(sgt_put(&engine, &there, 1, &at) == 8);
    CHECK(at == 0);
    CHECK(sgt_get(&engine, 2, 101, &value) == 0);
    CHECK(value == 1000);
    at = 77;
    CHECK(sgt_run(&engine, 1, deposit, 2, &t, &reported) == 0);
    CHECK(is_committed(&reported, 1100));
    CHECK(sgt_put(&engine, &more, 1, &at) == 7);
    CHECK(sgt_put(&engine, &there, 1, &at) == 7);
    CHECK(at == 77);
    CHECK(sgt_put(&engine, beyond, 3, &at) == 5);
    CHECK(sgt_cut(&engine, &live) == 0);
    CHECK(sgt_put(&engine, &more, 1, &at) == 0);
    CHECK(sgt_rows(&engine, 0, SGT_LEAST, &row, 0, &count) == 0);
    CHECK(count == 6);
    CHECK(sgt_get(&engine, 2, 101, &value) == 0);
    CHECK(value == 1100);
    sgt_close(&engine);
}

static uint32_t adds(sgt_engine *engine, const char *text, uint16_t *number, sgt_fault *fault)
{
    return sgt_procedure(engine, text, strlen(text), number, fault);
}

static void procedures_are_added(void)
{
    const char lookup[] = "[1,[[\"look\",0,7,[\"arg\",0],5],[\"answer\",[\"reg\",0]]]]";
    const sgt_row own = {7, 0, 1, 40};
    sgt_engine engine = {0};
    sgt_fault fault = {0};
    sgt_reply reported = {0};
    uint16_t number = 77;
    uint32_t t = 0;
    uint64_t at = 0;
    CHECK(adds(&engine, lookup, &number, &fault) == 2);
    CHECK(opens(&engine, opening, &fault) == 0);
    CHECK(adds(&engine, "nope", &number, &fault) == 16);
    CHECK(fault.kind == 16);
    CHECK(adds(&engine, "", &number, &fault) == 16);
    CHECK(adds(&engine, "{}", &number, &fault) == 20);
    CHECK(fault.kind == 20 && fault.procedure == 5 && fault.depth == 0);
    CHECK(adds(&engine, "[0,[7]]", &number, &fault) == 20);
    CHECK(fault.procedure == 5 && fault.depth == 2 && fault.place[0] == 1 && fault.place[1] == 0);
    CHECK(adds(&engine, "[0,[[\"ask\",0]]]", &number, &fault) == 21);
    CHECK(fault.kind == 21 && fault.procedure == 5 && fault.number == 8);
    CHECK(number == 77);
    CHECK(adds(&engine, lookup, &number, &fault) == 0);
    CHECK(number == 5);
    CHECK(adds(&engine, lookup, &number, &fault) == 0);
    CHECK(number == 6);
    CHECK(adds(&engine, "[0,[7]]", &number, &fault) == 20);
    CHECK(fault.procedure == 7 && number == 6);
    CHECK(sgt_put(&engine, &own, 1, &at) == 0);
    CHECK(sgt_run(&engine, 6, deposit, 1, &t, &reported) == 0);
    CHECK(is_committed(&reported, 40));
    CHECK(sgt_run(&engine, 7, deposit, 1, &t, &reported) == 0);
    CHECK(reported.kind == 2);
    CHECK(adds(&engine, lookup, &number, &fault) == 7);
    CHECK(adds(&engine, "nope", &number, &fault) == 7);
    CHECK(number == 6 && fault.kind == 20);
    sgt_close(&engine);
}

static int explains(const char *said, uint32_t status, const char *text, const uint64_t *length)
{
    return status == 0 && *length == strlen(said) && !memcmp(text, said, *length);
}

/* Why a text is refused is reported in words: whole if it fits, else its length alone; nothing is reported for a text that is accepted. */
static void refusals_are_explained(void)
{
    const char shape_error[] = "procedure 5, at 1 0: expected a statement, found 7: a statement is a list that starts with its word, as [\"ask\",7]";
    const char code[] = "procedure 6, at 1 0 1: expected a code from 1 to 999, found \"a\"";
    const char flaw[] = "procedure 5, at 1 0 1: code 0 is not from 1 to 999";
    const char limit[] = "\"limits\": the first number is 33, and has to be from 1 to 32";
    char text[200] = "unwritten";
    uint64_t length = 77;
#define OPENING(given, capacity) sgt_explain_opening((given), strlen(given), text, capacity, &length)
#define PROCEDURE(number, given, capacity) sgt_explain_procedure(number, (given), strlen(given), text, capacity, &length)
    CHECK(OPENING(opening, sizeof text) == 4 && PROCEDURE(5, "[0,[]]", sizeof text) == 4);
    CHECK(length == 77 && !strcmp(text, "unwritten"));
    CHECK(OPENING(shape, sizeof shape_error - 2) == 0 && length == sizeof shape_error - 1 && !strcmp(text, "unwritten"));
    CHECK(explains(shape_error, OPENING(shape, sizeof shape_error - 1), text, &length));
    CHECK(explains(shape_error, PROCEDURE(5, "[0,[7]]", sizeof text), text, &length));
    CHECK(explains(code, PROCEDURE(6, "[0,[[\"ask\",\"a\"]]]", sizeof text), text, &length));
    CHECK(explains(flaw, PROCEDURE(5, "[0,[[\"ask\",0]]]", sizeof text), text, &length));
    CHECK(explains(limit, OPENING("{\"limits\":[33,100],\"accounts\":[],\"procedures\":[]}", sizeof text), text, &length));
    CHECK(explains("column 1: not JSON from here: a word stands in double quotes", PROCEDURE(0, "nope", sizeof text), text, &length));
    CHECK(sgt_explain_opening(0, 0, 0, 0, &length) == 0 && length > 0);
    CHECK(sgt_explain_opening(0, 1, text, sizeof text, &length) == 5 && sgt_explain_procedure(0, 0, 1, text, sizeof text, &length) == 5);
    CHECK(sgt_explain_opening(shape, 1, 0, 1, &length) == 5);
    CHECK(sgt_explain_procedure(0, shape, 1, text, sizeof text, 0) == 5);
#undef OPENING
#undef PROCEDURE
}

/* The text of each procedure is read as a procedure with this text. */
static void procedures_are_texts(void)
{
    const char *own = "[1,[[\"find\",0,7,[\"arg\",0],-1],[\"if\",[\"less\",[\"reg\",0],0],[[\"ask\",7]],[]],[\"answer\",[\"reg\",0]]]]";
    sgt_engine engine = {0}, other = {0};
    sgt_fault fault = {0};
    uint16_t number = 77;
    uint64_t length = 77, again = 0;
    char text[4096], back[4096];
    CHECK(sgt_procedure_text(&engine, 0, text, sizeof text, &length) == 2);
    CHECK(opens(&engine, opening, &fault) == 0);
    CHECK(sgt_procedure_text(&engine, 5, text, sizeof text, &length) == 4);
    CHECK(sgt_procedure_text(&engine, UINT64_MAX, text, sizeof text, &length) == 4 && length == 77);
    CHECK(adds(&engine,
               "[ 1 , [[\"find\",0,7,[\"arg\",0],-1],[\"if\",[\"less\",[\"reg\",0],0],[[\"ask\",7]],[]],[\"answer\",[\"reg\",0]]]]",
               &number, &fault) == 0 && number == 5);
    CHECK(sgt_procedure_text(&engine, 5, text, sizeof text, &length) == 0);
    CHECK(length == strlen(own) && memcmp(text, own, length) == 0);
    memset(text, 'x', sizeof text);
    CHECK(sgt_procedure_text(&engine, 5, text, strlen(own) - 1, &length) == 0 && length == strlen(own) && text[0] == 'x');
    CHECK(sgt_open_bare(&other, 8, 100, 1) == 0);
    for (uint16_t each = 0; each <= 5; each++) {
        CHECK(sgt_procedure_text(&engine, each, text, sizeof text, &length) == 0 && length <= sizeof text);
        CHECK(sgt_procedure(&other, text, length, &number, &fault) == 0 && number == each);
        CHECK(sgt_procedure_text(&other, each, back, sizeof back, &again) == 0 && again == length && memcmp(text, back, length) == 0);
    }
    sgt_close(&engine);
    sgt_close(&other);
}

static void procedures_have_numbers_of_16_bits(void)
{
    const char none[] = "[0,[[\"answer\",7]]]";
    sgt_engine engine = {0};
    sgt_fault fault = {0};
    sgt_reply reported = {0};
    uint16_t number = 77;
    uint32_t t = 0, added = 5;
    CHECK(opens(&engine, opening, &fault) == 0);
    while (added < 65535 && adds(&engine, none, &number, &fault) == 0 && number == added) added++;
    CHECK(added == 65535);
    CHECK(adds(&engine, none, &number, &fault) == 9);
    CHECK(adds(&engine, "nope", &number, &fault) == 9);
    CHECK(number == 65534 && fault.kind == 0);
    CHECK(sgt_run(&engine, 65534, deposit, 0, &t, &reported) == 0);
    CHECK(is_committed(&reported, 7));
    /* The last number is that of the empty procedure. */
    CHECK(sgt_run(&engine, 65535, deposit, 0, &t, &reported) == 0);
    CHECK(reported.kind == SGT_COMMITTED && reported.answers == 0);
    sgt_close(&engine);
}

static void a_run_goes_to_its_end(void)
{
    const int64_t ones[] = {1, 1, 1, 1, 1}, negative[] = {1, -5};
    sgt_engine engine = {0};
    sgt_fault fault = {0};
    sgt_reply reported = {0};
    uint32_t t = 77;
    uint64_t count = 0;
    CHECK(sgt_run(&engine, 1, ones, 5, &t, &reported) == 5);
    CHECK(sgt_run(&engine, 1, deposit, 2, &t, &reported) == 2);
    CHECK(t == 77 && reported.kind == 0);
    CHECK(opens(&engine, opening, &fault) == 0);
    CHECK(sgt_run(&engine, 9, ones, 0, &t, &reported) == 0);
    CHECK(reported.kind == 2 && t == 77);
    CHECK(sgt_run(&engine, 1, deposit, 2, &t, &reported) == 0);
    CHECK(is_committed(&reported, 1100) && t == 0);
    CHECK(sgt_run(&engine, 1, negative, 2, &t, &reported) == 0);
    CHECK(reported.kind == 14 && reported.cause == 2 && reported.code == 2 && t == 1);
    CHECK(sgt_start(&engine, 1, ones, 2, &reported) == 0);
    CHECK(sgt_step(&engine, 2, &reported) == 0);
    CHECK(sgt_step(&engine, 2, &reported) == 0);
    CHECK(sgt_step(&engine, 2, &reported) == 0);
    CHECK(sgt_run(&engine, 0, ones, 1, &t, &reported) == 0);
    CHECK(reported.kind == 12 && reported.tid == 2 && t == 3);
    CHECK(sgt_entries(&engine, &count) == 0);
    CHECK(count == 19);
    CHECK(sgt_commit(&engine, 2, &reported) == 0);
    CHECK(sgt_commit(&engine, 3, &reported) == 0);
    CHECK(is_committed(&reported, 1601));
    sgt_close(&engine);
}

static int has_written(const sgt_engine *engine, uint32_t tid, uint32_t wrote)
{
    uint32_t found = 77;
    return sgt_wrote(engine, tid, &found) == 0 && found == wrote;
}

static void many_calls_are_run(void)
{
    const sgt_call asked[] = {
        {.procedure = 1, .args = 2, .arg = {1, 100}},
        {.procedure = 0, .args = 1, .arg = {9}},
        {.procedure = 77, .args = 4, .arg = {1, 2, 3, 4}},
        {.procedure = 0, .args = 1, .arg = {1}},
    };
    const sgt_call wide = {.procedure = 65536}, long_one = {.args = 5};
    sgt_engine engine = {0}, other = {0};
    sgt_fault fault = {0};
    sgt_call calls[4] = {{0}}, again[4] = {{0}};
    sgt_outcome outcomes[4] = {{0}};
    uint64_t done = 77, count = 0, next = 0;
    int64_t value = 0;
    CHECK(sgt_run_many(&engine, asked, 4, outcomes, 3, &done) == 5);
    CHECK(sgt_run_many(&engine, asked, 4, outcomes, 4, &done) == 2);
    CHECK(opens(&engine, opening, &fault) == 0);
    CHECK(sgt_run_many(&engine, &wide, 1, outcomes, 4, &done) == 5);
    CHECK(sgt_run_many(&engine, &long_one, 1, outcomes, 4, &done) == 5);
    CHECK(done == 77 && outcomes[0].reply.kind == 0);
    CHECK(sgt_run_many(&engine, asked, 0, outcomes, 0, &done) == 0);
    CHECK(done == 0);
    outcomes[3].tid = 99;
    CHECK(sgt_run_many(&engine, asked, 3, outcomes, 4, &done) == 0);
    CHECK(done == 3 && outcomes[3].tid == 99 && outcomes[3].reply.kind == 0);
    CHECK(is_committed(&outcomes[0].reply, 1100) && outcomes[0].tid == 0);
    CHECK(has_written(&engine, 0, 1) && has_written(&engine, 1, 0) && has_written(&engine, 77, 0));
    CHECK(outcomes[0].wrote == 1 && outcomes[1].wrote == 0 && outcomes[2].wrote == 0);
    CHECK(outcomes[1].reply.kind == 14 && outcomes[1].reply.cause == 2 && outcomes[1].reply.code == 1 && outcomes[1].tid == 1);
    CHECK(outcomes[2].reply.kind == 2);
    CHECK(sgt_run_many(&engine, asked, 4, outcomes, 4, &done) == 0);
    CHECK(done == 4 && is_committed(&outcomes[3].reply, 1700) && outcomes[3].tid == 4 && outcomes[3].wrote == 0);
    CHECK(sgt_calls(&engine, 0, calls, 4, &count, &next) == 0);
    CHECK(count == 3);
    CHECK(opens(&other, opening, &fault) == 0);
    CHECK(sgt_run_many(&other, calls, count, outcomes, 4, &done) == 0);
    CHECK(done == 3 && is_committed(&outcomes[2].reply, 1700));
    CHECK(sgt_calls(&other, 0, again, 4, &count, &next) == 0);
    CHECK(count == 3 && again[2].procedure == 0 && again[2].answer[0] == 1700);
    CHECK(sgt_get(&other, 2, 101, &value) == 0);
    CHECK(value == 1200);
    sgt_close(&engine);
    sgt_close(&other);
}

static const char two[] = "{\"limits\":[8,100,1],\"accounts\":[[1,101,500,1000],[2,102,50,60]],\"procedures\":[]}";

/* Steps a transaction to its end, and commits it. */
static void ends(sgt_engine *engine, uint32_t tid, uint32_t kind)
{
    sgt_reply reported = {0};
    do {
        if (sgt_step(engine, tid, &reported) != 0) CHECK(!"a step is answered");
    } while (reported.kind == 8 || reported.kind == 9);
    CHECK(sgt_commit(engine, tid, &reported) == 0 && reported.kind == kind);
}

/* Whether an outcome ends its call as it ended before. */
static int is_reported_again(const sgt_outcome *outcome, const sgt_call *call)
{
    const sgt_reply *reported = &outcome->reply;
    if (reported->kind != call->kind) return 0;
    if (reported->kind == 15) return reported->code == call->code;
    return reported->answers == call->answers && memcmp(reported->answer, call->answer, call->answers * sizeof *call->answer) == 0;
}

/* Calls that ended in another order than they were started in, one of them refused, run again on a new engine. */
static void calls_are_run_again(void)
{
    const int64_t first[] = {2, 5}, nobody[] = {9, 1};
    sgt_engine engine = {0}, other = {0};
    sgt_fault fault = {0};
    sgt_reply reported = {0};
    sgt_call calls[4] = {{0}};
    sgt_outcome outcomes[4] = {{0}};
    sgt_row rows[8] = {{0}}, again[8] = {{0}};
    uint64_t count = 0, next = 0, done = 0, all = 0;
    CHECK(opens(&engine, two, &fault) == 0 && opens(&other, two, &fault) == 0);
    CHECK(sgt_start(&engine, 1, first, 2, &reported) == 0 && reported.kind == 1);
    CHECK(sgt_start(&engine, 1, deposit, 2, &reported) == 0 && reported.kind == 1);
    CHECK(sgt_start(&engine, 1, nobody, 2, &reported) == 0 && reported.kind == 1);
    CHECK(sgt_start(&engine, 0, deposit, 1, &reported) == 0 && reported.kind == 1);
    ends(&engine, 1, 13);
    ends(&engine, 2, 15);
    ends(&engine, 3, 13);
    ends(&engine, 0, 13);
    CHECK(sgt_calls(&engine, 0, calls, 4, &count, &next) == 0 && count == 4);
    CHECK(calls[0].tid == 1 && calls[1].tid == 2 && calls[2].tid == 3 && calls[3].tid == 0);
    CHECK(sgt_run_many(&other, calls, 4, outcomes, 4, &done) == 0 && done == 4);
    for (int i = 0; i < 4; i++) CHECK(is_reported_again(&outcomes[i], &calls[i]));
    CHECK(sgt_rows(&engine, 0, SGT_LEAST, rows, 8, &all) == 0 && all == 6);
    CHECK(sgt_rows(&other, 0, SGT_LEAST, again, 8, &all) == 0 && all == 6);
    CHECK(memcmp(rows, again, sizeof rows) == 0);
    sgt_close(&engine);
    sgt_close(&other);
}

/* Fills both with a pattern: what a call wrote, and what it should write. */
static void fill(sgt_reply *reported, sgt_reply *want)
{
    memset(reported, 0x5a, sizeof *reported);
    memset(want, 0x5a, sizeof *want);
}

/* Whether just the fields were written that are set in `want`. Both are filled again. */
static int wrote_just(sgt_reply *reported, sgt_reply *want)
{
    int same = memcmp(reported, want, sizeof *reported) == 0;
    fill(reported, want);
    return same;
}

static void set_record(sgt_reply *want, uint32_t kind, uint32_t table, int64_t number)
{
    want->kind = kind;
    want->table = table;
    want->number = number;
}

static void set_committed(sgt_reply *want, int64_t answer)
{
    want->kind = 13;
    want->answers = 1;
    want->answer[0] = answer;
}

static void set_by_quit(sgt_reply *want, uint32_t kind)
{
    want->kind = kind;
    want->cause = 3;
}

static void fields_that_do_not_count_stay(void)
{
    const int64_t nobody[] = {9, 100};
    sgt_engine engine = {0};
    sgt_fault fault = {0};
    sgt_reply reported, want;
    fill(&reported, &want);
    CHECK(opens(&engine, opening, &fault) == 0);
    CHECK(sgt_step(&engine, 0, &reported) == 0);
    want.kind = 6;
    CHECK(wrote_just(&reported, &want));
    CHECK(sgt_start(&engine, 1, deposit, 2, &reported) == 0);
    want.kind = 1;
    want.tid = 0;
    CHECK(wrote_just(&reported, &want));
    CHECK(sgt_step(&engine, 0, &reported) == 0);
    set_record(&want, 8, 0, 1);
    want.found = 1;
    want.value = 101;
    CHECK(wrote_just(&reported, &want));
    CHECK(sgt_commit(&engine, 0, &reported) == 0);
    want.kind = 11;
    CHECK(wrote_just(&reported, &want));
    CHECK(sgt_step(&engine, 0, &reported) == 0);
    fill(&reported, &want);
    CHECK(sgt_step(&engine, 0, &reported) == 0);
    set_record(&want, 9, 2, 101);
    want.found = 1;
    want.value = 1100;
    CHECK(wrote_just(&reported, &want));
    CHECK(sgt_commit(&engine, 0, &reported) == 0);
    set_committed(&want, 1100);
    CHECK(wrote_just(&reported, &want));
    CHECK(sgt_start(&engine, 1, nobody, 2, &reported) == 0);
    fill(&reported, &want);
    CHECK(sgt_step(&engine, 1, &reported) == 0);
    set_record(&want, 8, 0, 9);
    want.found = 0;
    CHECK(wrote_just(&reported, &want));
    CHECK(sgt_quit(&engine, 1, &reported) == 0);
    set_by_quit(&want, 14);
    want.fallen = 0;
    CHECK(wrote_just(&reported, &want));
    CHECK(sgt_quit(&engine, 1, &reported) == 0);
    set_by_quit(&want, 7);
    CHECK(wrote_just(&reported, &want));
    sgt_close(&engine);
}

static void fields_of_entries_stay(void)
{
    sgt_engine engine = {0};
    sgt_fault fault = {0};
    sgt_reply reported, want;
    sgt_event asked, event;
    fill(&reported, &want);
    memset(&asked, 0x5a, sizeof asked);
    memset(&event, 0x5a, sizeof event);
    CHECK(opens(&engine, opening, &fault) == 0);
    CHECK(sgt_start(&engine, 1, deposit, 2, &reported) == 0);
    CHECK(sgt_quit(&engine, 0, &reported) == 0);
    fill(&reported, &want);
    CHECK(sgt_entry(&engine, 0, &asked, &reported) == 0);
    want.kind = 1;
    want.tid = 0;
    CHECK(wrote_just(&reported, &want));
    event.kind = 1;
    event.procedure = 1;
    event.args = 2;
    memcpy(event.arg, deposit, sizeof deposit);
    CHECK(memcmp(&asked, &event, sizeof asked) == 0);
    CHECK(sgt_entry(&engine, 1, &asked, &reported) == 0);
    event.kind = 4;
    event.tid = 0;
    CHECK(memcmp(&asked, &event, sizeof asked) == 0);
    sgt_close(&engine);
}

static void fields_of_runs_stay(void)
{
    const sgt_call calls[] = {{.procedure = 1, .args = 2, .arg = {1, 100}}, {.procedure = 77}};
    sgt_engine engine = {0};
    sgt_fault fault = {0};
    sgt_reply reported, want;
    sgt_outcome outcomes[2];
    uint32_t t = 77;
    uint64_t done = 0;
    fill(&reported, &want);
    memset(outcomes, 0x5a, sizeof outcomes);
    CHECK(opens(&engine, opening, &fault) == 0);
    CHECK(sgt_run(&engine, 77, deposit, 0, &t, &reported) == 0);
    want.kind = 2;
    CHECK(wrote_just(&reported, &want) && t == 77);
    CHECK(sgt_run(&engine, 1, deposit, 2, &t, &reported) == 0);
    set_committed(&want, 1100);
    CHECK(wrote_just(&reported, &want) && t == 0);
    CHECK(sgt_run_many(&engine, calls, 2, outcomes, 2, &done) == 0);
    set_committed(&want, 1200);
    CHECK(wrote_just(&outcomes[0].reply, &want) && outcomes[0].tid == 1);
    want.kind = 2;
    CHECK(wrote_just(&outcomes[1].reply, &want) && outcomes[1].tid == 0);
    sgt_close(&engine);
}

static void fields_of_faults_stay(void)
{
    sgt_engine engine = {0};
    sgt_fault fault, want;
    uint16_t number = 77;
    memset(&fault, 0x5a, sizeof fault);
    memset(&want, 0x5a, sizeof want);
    CHECK(opens(&engine, "nope", &fault) == 16);
    want.kind = 16;
    CHECK(memcmp(&fault, &want, sizeof fault) == 0);
    CHECK(opens(&engine, shape, &fault) == 20);
    want.kind = 20;
    want.procedure = 5;
    want.depth = 2;
    want.place[0] = 1;
    want.place[1] = 0;
    CHECK(memcmp(&fault, &want, sizeof fault) == 0);
    CHECK(opens(&engine, opening, &fault) == 0);
    CHECK(opens(&engine, shape, &fault) == 3);
    CHECK(opens_with(&engine, shape, 0, 0, &fault) == 3);
    CHECK(sgt_procedure(&engine, "[0,[]]", 6, &number, &fault) == 0 && number == 5);
    CHECK(memcmp(&fault, &want, sizeof fault) == 0);
    sgt_close(&engine);
}

/* Each pointer of each call in turn: a null engine is a closed one, and another null pointer a bad call. Nothing is written. */
static void null_pointers_are_reported(void)
{
    const char *line = opening;
    const size_t length = strlen(opening);
    const sgt_call asked = {.procedure = 1, .args = 2, .arg = {1, 100}};
    const sgt_row own = {7, 0, 5, 50};
    sgt_engine engine = {0};
    sgt_fault fault = {0};
    sgt_reply reported = {0};
    sgt_event event = {0};
    sgt_call call = {0};
    sgt_outcome outcome = {0};
    sgt_row row = {0};
    char text[8] = "";
    uint16_t number = 77;
    uint32_t t = 77;
    uint64_t count = 77, next = 77;
    int64_t value = 77;
    sgt_close(0);
    CHECK(sgt_open(0, line, length, &fault) == 5);
    CHECK(sgt_open(&engine, 0, length, &fault) == 5);
    CHECK(sgt_open(&engine, line, length, 0) == 5);
    CHECK(sgt_open_with(0, line, length, &own, 1, &fault) == 5);
    CHECK(sgt_open_with(&engine, 0, length, &own, 1, &fault) == 5);
    CHECK(sgt_open_with(&engine, line, length, 0, 1, &fault) == 5);
    CHECK(sgt_open_with(&engine, line, length, &own, 1, 0) == 5);
    CHECK(sgt_open_bare(0, 8, 100, 1) == 5);
    CHECK(!engine.is_open && !engine.at);
    CHECK(opens(&engine, opening, &fault) == 0);
    CHECK(sgt_put(0, &own, 1, &count) == 2);
    CHECK(sgt_put(&engine, 0, 1, &count) == 5);
    CHECK(sgt_put(&engine, &own, 1, 0) == 5);
    CHECK(sgt_procedure(0, line, length, &number, &fault) == 2);
    CHECK(sgt_procedure(&engine, 0, length, &number, &fault) == 5);
    CHECK(sgt_procedure(&engine, line, length, 0, &fault) == 5);
    CHECK(sgt_procedure(&engine, line, length, &number, 0) == 5);
    CHECK(sgt_start(0, 1, deposit, 2, &reported) == 2);
    CHECK(sgt_start(&engine, 1, 0, 2, &reported) == 5);
    CHECK(sgt_start(&engine, 1, deposit, 2, 0) == 5);
    CHECK(sgt_step(0, 0, &reported) == 2 && sgt_step(&engine, 0, 0) == 5);
    CHECK(sgt_commit(0, 0, &reported) == 2 && sgt_commit(&engine, 0, 0) == 5);
    CHECK(sgt_quit(0, 0, &reported) == 2 && sgt_quit(&engine, 0, 0) == 5);
    CHECK(sgt_run(0, 1, deposit, 2, &t, &reported) == 2);
    CHECK(sgt_run(&engine, 1, 0, 2, &t, &reported) == 5);
    CHECK(sgt_run(&engine, 1, deposit, 2, 0, &reported) == 5);
    CHECK(sgt_run(&engine, 1, deposit, 2, &t, 0) == 5);
    CHECK(sgt_run_many(0, &asked, 1, &outcome, 1, &count) == 2);
    CHECK(sgt_run_many(&engine, 0, 1, &outcome, 1, &count) == 5);
    CHECK(sgt_run_many(&engine, &asked, 1, 0, 1, &count) == 5);
    CHECK(sgt_run_many(&engine, &asked, 1, &outcome, 1, 0) == 5);
    CHECK(sgt_get(0, 2, 101, &value) == 2 && sgt_get(&engine, 2, 101, 0) == 5);
    CHECK(sgt_rows(0, 0, 0, &row, 1, &count) == 2);
    CHECK(sgt_rows(&engine, 0, 0, 0, 1, &count) == 5);
    CHECK(sgt_rows(&engine, 0, 0, &row, 1, 0) == 5);
    CHECK(sgt_records(0, &count) == 2 && sgt_records(&engine, 0) == 5);
    CHECK(sgt_entries(0, &count) == 2 && sgt_entries(&engine, 0) == 5);
    uint32_t tids[32];
    CHECK(sgt_live_tids(0, tids, &count) == 2 && sgt_live_tids(&engine, 0, &count) == 5 && sgt_live_tids(&engine, tids, 0) == 5);
    CHECK(sgt_wrote(0, 0, &t) == 2 && sgt_wrote(&engine, 0, 0) == 5);
    CHECK(sgt_limits(0, (uint64_t[3]){0}) == 2 && sgt_limits(&engine, 0) == 5);
    CHECK(sgt_entry(0, 0, &event, &reported) == 2);
    CHECK(sgt_entry(&engine, 0, 0, &reported) == 5 && sgt_entry(&engine, 0, &event, 0) == 5);
    CHECK(sgt_calls(0, 0, &call, 1, &count, &next) == 2);
    CHECK(sgt_calls(&engine, 0, 0, 1, &count, &next) == 5);
    CHECK(sgt_calls(&engine, 0, &call, 1, 0, &next) == 5);
    CHECK(sgt_calls(&engine, 0, &call, 1, &count, 0) == 5);
    CHECK(sgt_reserve(0, 1) == 2);
    CHECK(sgt_cut(0, &count) == 2 && sgt_cut(&engine, 0) == 5);
    CHECK(sgt_part(0, &count) == 2 && sgt_part(&engine, 0) == 5);
    reported.kind = 10;
    CHECK(sgt_procedure_text(0, 0, text, 8, &count) == 2);
    CHECK(sgt_procedure_text(&engine, 0, 0, 8, &count) == 5 && sgt_procedure_text(&engine, 0, text, 8, 0) == 5);
    CHECK(sgt_reply_text(0, text, 8, &count) == 5);
    CHECK(sgt_reply_text(&reported, 0, 8, &count) == 5);
    CHECK(sgt_reply_text(&reported, text, 8, 0) == 5);
    CHECK(sgt_fault_text(0, text, 8, &count) == 5);
    CHECK(sgt_fault_text(&fault, 0, 8, &count) == 5);
    CHECK(sgt_fault_text(&fault, text, 8, 0) == 5);
    CHECK(number == 77 && t == 77 && count == 77 && next == 77 && value == 77 && text[0] == 0);
    CHECK(reported.kind == 10 && fault.kind == 0 && event.kind == 0 && call.kind == 0 && outcome.reply.kind == 0 && row.value == 0);
    CHECK(sgt_entries(&engine, &count) == 0 && count == 0);
    sgt_close(&engine);
}

/* A list of no items needs no address. */
static void lists_of_no_items_may_be_null(void)
{
    sgt_engine engine = {0};
    const sgt_engine *read = &engine;
    sgt_fault fault = {0};
    sgt_reply reported = {0};
    uint16_t number = 77;
    uint32_t t = 77;
    uint64_t count = 77, next = 77;
    CHECK(sgt_open(&engine, 0, 0, &fault) == 16);
    CHECK(opens_with(&engine, opening, 0, 0, &fault) == 0);
    CHECK(sgt_put(&engine, 0, 0, &count) == 0 && count == 77);
    CHECK(sgt_procedure(&engine, 0, 0, &number, &fault) == 16 && number == 77);
    CHECK(sgt_start(&engine, 1, 0, 0, &reported) == 0 && reported.kind == 3);
    CHECK(sgt_run(&engine, 1, 0, 0, &t, &reported) == 0 && reported.kind == 3 && t == 77);
    CHECK(sgt_run_many(&engine, 0, 0, 0, 0, &count) == 0 && count == 0);
    CHECK(sgt_rows(read, 0, SGT_LEAST, 0, 0, &count) == 0 && count == 3);
    CHECK(sgt_calls(read, 0, 0, 0, &count, &next) == 0 && count == 0);
    CHECK(sgt_reply_text(&reported, 0, 0, &count) == 0 && count == 8);
    CHECK(sgt_fault_text(&fault, 0, 0, &count) == 0 && count == 8);
    sgt_close(&engine);
}

/* As a second thread finds an engine that a call is in. */
static void a_busy_engine_is_left_alone(void)
{
    const sgt_call asked = {.procedure = 1, .args = 2, .arg = {1, 100}};
    const sgt_row own = {7, 0, 5, 50};
    sgt_engine engine = {0};
    sgt_fault fault = {0};
    sgt_reply reported = {0};
    sgt_event event = {0};
    sgt_call call = {0};
    sgt_outcome outcome = {0};
    sgt_row row = {0};
    uint16_t number = 77;
    uint32_t t = 77;
    uint64_t count = 77, next = 77;
    int64_t value = 77;
    engine.is_open = 2;
    CHECK(opens(&engine, opening, &fault) == 10);
    CHECK(opens_with(&engine, opening, &own, 1, &fault) == 10);
    CHECK(sgt_open_bare(&engine, 8, 100, 1) == 10);
    CHECK(sgt_put(&engine, &own, 1, &count) == 10);
    CHECK(sgt_procedure(&engine, "", 0, &number, &fault) == 10);
    CHECK(sgt_start(&engine, 1, deposit, 2, &reported) == 10);
    CHECK(sgt_step(&engine, 0, &reported) == 10);
    CHECK(sgt_commit(&engine, 0, &reported) == 10);
    CHECK(sgt_quit(&engine, 0, &reported) == 10);
    CHECK(sgt_run(&engine, 1, deposit, 2, &t, &reported) == 10);
    CHECK(sgt_run_many(&engine, &asked, 1, &outcome, 1, &count) == 10);
    CHECK(sgt_get(&engine, 2, 101, &value) == 10);
    CHECK(sgt_rows(&engine, 0, 0, &row, 1, &count) == 10);
    CHECK(sgt_records(&engine, &count) == 10);
    CHECK(sgt_live_tids(&engine, (uint32_t[32]){0}, &count) == 10);
    CHECK(sgt_wrote(&engine, 0, &t) == 10);
    CHECK(sgt_limits(&engine, (uint64_t[3]){0}) == 10);
    CHECK(sgt_entries(&engine, &count) == 10);
    CHECK(sgt_entry(&engine, 0, &event, &reported) == 10);
    CHECK(sgt_calls(&engine, 0, &call, 1, &count, &next) == 10);
    CHECK(sgt_reserve(&engine, 1) == 10);
    CHECK(sgt_cut(&engine, &count) == 10);
    CHECK(sgt_part(&engine, &count) == 10);
    CHECK(sgt_procedure_text(&engine, 0, (char *)&value, 8, &count) == 10);
    sgt_close(&engine);
    CHECK(engine.is_open == 2 && !engine.at);
    CHECK(reported.kind == 0 && number == 77 && t == 77 && count == 77 && next == 77 && value == 77 && fault.kind == 0);
}

static void wide_numbers_are_refused(void)
{
    sgt_engine engine = {0};
    sgt_fault fault = {0};
    sgt_reply reported = {0};
    sgt_row row = {9, 0, 9, 9};
    int64_t value = 77;
    uint64_t count = 78;
    uint32_t t = 79;
    CHECK(opens(&engine, opening, &fault) == 0);
    CHECK(sgt_get(&engine, 258, 101, &value) == 5);
    CHECK(sgt_get(&engine, (UINT64_C(1) << 32) + 2, 101, &value) == 5);
    CHECK(value == 77);
    CHECK(sgt_rows(&engine, 256, 0, &row, 1, &count) == 5);
    CHECK(sgt_rows(&engine, UINT64_MAX, 0, &row, 1, &count) == 5);
    CHECK(count == 78 && is_row(&row, 9, 9, 9));
    CHECK(sgt_start(&engine, 65537, deposit, 2, &reported) == 5);
    CHECK(sgt_start(&engine, (UINT64_C(1) << 32) + 1, deposit, 2, &reported) == 5);
    CHECK(sgt_run(&engine, 65537, deposit, 2, &t, &reported) == 5);
    CHECK(reported.kind == 0 && t == 79);
    CHECK(sgt_entries(&engine, &count) == 0);
    CHECK(count == 0);
    CHECK(sgt_start(&engine, 65534, deposit, 2, &reported) == 0);
    CHECK(reported.kind == 2);
    CHECK(sgt_start(&engine, 65535, deposit, 2, &reported) == 0);
    CHECK(reported.kind == 3);
    sgt_close(&engine);
    CHECK(sgt_start(&engine, 65536, deposit, 2, &reported) == 5);
    CHECK(sgt_get(&engine, 8, 101, &value) == 5);
}

static void an_engine_is_opened_bare(void)
{
    const char lookup[] = "[1,[[\"look\",0,7,[\"arg\",0],5],[\"answer\",[\"reg\",0]]]]";
    const int64_t there[] = {1}, absent[] = {2};
    const sgt_row own = {7, 0, 1, 40};
    sgt_engine engine = {0};
    sgt_fault fault = {0};
    sgt_reply reported = {0};
    uint16_t number = 77;
    uint32_t t = 0;
    uint64_t at = 0, count = 77, limits[3] = {0};
    CHECK(sgt_open_bare(&engine, 0, 100, 1) == 18);
    CHECK(sgt_open_bare(&engine, 33, 100, 1) == 18);
    CHECK(sgt_open_bare(&engine, 8, 0, 1) == 18);
    CHECK(sgt_open_bare(&engine, 8, UINT64_C(4000000001), 1) == 18);
    CHECK(sgt_open_bare(&engine, 8, 100, 2) == 18);
    CHECK(sgt_open_bare(&engine, (UINT64_C(1) << 32) + 8, 100, 1) == 18);
    CHECK(sgt_records(&engine, &count) == 2);
    CHECK(sgt_live_tids(&engine, (uint32_t[32]){0}, &count) == 2);
    CHECK(sgt_wrote(&engine, 0, &t) == 2);
    CHECK(!engine.is_open && count == 77);
    CHECK(sgt_open_bare(&engine, 8, 2, 1) == 0);
    CHECK(sgt_limits(&engine, limits) == 0 && limits[0] == 8 && limits[1] == 2 && limits[2] == 1);
    CHECK(sgt_open_bare(&engine, 0, 100, 1) == 3);
    CHECK(sgt_records(&engine, &count) == 0);
    CHECK(count == 0);
    CHECK(adds(&engine, lookup, &number, &fault) == 0);
    CHECK(number == 0);
    CHECK(sgt_put(&engine, &own, 1, &at) == 0);
    CHECK(sgt_records(&engine, &count) == 0);
    CHECK(count == 1);
    CHECK(sgt_run(&engine, 0, there, 1, &t, &reported) == 0);
    CHECK(is_committed(&reported, 40));
    CHECK(sgt_run(&engine, 0, absent, 1, &t, &reported) == 0);
    CHECK(reported.kind == 15 && reported.code == 5);
    CHECK(sgt_run(&engine, 1, there, 1, &t, &reported) == 0);
    CHECK(reported.kind == 2);
    CHECK(sgt_run(&engine, 0, there, 1, &t, &reported) == 0);
    CHECK(reported.kind == 4);
    sgt_close(&engine);
    CHECK(sgt_limits(&engine, limits) == 2);
    CHECK(sgt_open_bare(&engine, 32, UINT64_C(4000000000), 0) == 0);
    CHECK(sgt_limits(&engine, limits) == 0 && limits[0] == 32 && limits[1] == UINT64_C(4000000000) && limits[2] == 0);
    CHECK(adds(&engine, lookup, &number, &fault) == 0);
    CHECK(sgt_run(&engine, 0, absent, 1, &t, &reported) == 0);
    CHECK(reported.kind == 14 && reported.cause == 2 && reported.code == 5);
    sgt_close(&engine);
}

static void parts_are_numbered(void)
{
    sgt_engine engine = {0};
    sgt_fault fault = {0};
    sgt_reply reported = {0};
    uint32_t t = 0;
    uint64_t part = 77, live = 0;
    CHECK(sgt_part(&engine, &part) == 2);
    CHECK(part == 77);
    CHECK(opens(&engine, opening, &fault) == 0);
    CHECK(sgt_part(&engine, &part) == 0);
    CHECK(part == 0);
    CHECK(sgt_run(&engine, 1, deposit, 2, &t, &reported) == 0);
    CHECK(sgt_cut(&engine, &live) == 0);
    CHECK(sgt_part(&engine, &part) == 0);
    CHECK(part == 1);
    CHECK(sgt_start(&engine, 1, deposit, 2, &reported) == 0);
    CHECK(sgt_cut(&engine, &live) == 6);
    CHECK(sgt_part(&engine, &part) == 0);
    CHECK(part == 1);
    CHECK(sgt_quit(&engine, 0, &reported) == 0);
    CHECK(sgt_cut(&engine, &live) == 0);
    CHECK(sgt_cut(&engine, &live) == 0);
    CHECK(sgt_part(&engine, &part) == 0);
    CHECK(part == 3);
    sgt_close(&engine);
    CHECK(opens(&engine, opening, &fault) == 0);
    CHECK(sgt_part(&engine, &part) == 0);
    CHECK(part == 0);
    sgt_close(&engine);
}

static void the_history_is_cut_off(void)
{
    const int64_t one[] = {1, 1};
    sgt_engine engine = {0};
    sgt_fault fault = {0};
    sgt_reply reported = {0};
    uint32_t t = 0;
    uint64_t live = 77, count = 0;
    int64_t value = 0;
    CHECK(sgt_cut(&engine, &live) == 2);
    CHECK(live == 77);
    CHECK(opens(&engine, opening, &fault) == 0);
    CHECK(sgt_run(&engine, 1, deposit, 2, &t, &reported) == 0);
    CHECK(sgt_start(&engine, 1, one, 2, &reported) == 0);
    CHECK(sgt_start(&engine, 0, one, 1, &reported) == 0);
    CHECK(sgt_cut(&engine, &live) == 6);
    CHECK(live == 2);
    CHECK(sgt_quit(&engine, 1, &reported) == 0);
    CHECK(sgt_quit(&engine, 2, &reported) == 0);
    CHECK(sgt_entries(&engine, &count) == 0);
    CHECK(count == 10);
    CHECK(sgt_cut(&engine, &live) == 0);
    CHECK(live == 2);
    CHECK(sgt_entries(&engine, &count) == 0);
    CHECK(count == 0);
    CHECK(sgt_get(&engine, 2, 101, &value) == 0);
    CHECK(value == 1100);
    CHECK(sgt_commit(&engine, 0, &reported) == 0);
    CHECK(reported.kind == 6);
    CHECK(sgt_run(&engine, 1, deposit, 2, &t, &reported) == 0);
    CHECK(is_committed(&reported, 1200) && t == 0);
    sgt_close(&engine);
}

/* Whether the first bytes of a text are these, and the byte after them is unchanged. */
static int is_text(const char *text, const char *wanted)
{
    size_t length = strlen(wanted);
    return memcmp(text, wanted, length) == 0 && text[length] == '.';
}

static void replies_are_texts(void)
{
    sgt_engine engine = {0};
    sgt_fault fault = {0};
    sgt_reply reported = {0};
    char text[17];
    uint64_t length = 77;
    memset(text, '.', sizeof text);
    CHECK(sgt_reply_text(&reported, text, 16, &length) == 5);
    CHECK(length == 77 && is_text(text, ""));
    CHECK(opens(&engine, opening, &fault) == 0);
    CHECK(sgt_start(&engine, 1, deposit, 2, &reported) == 0);
    CHECK(sgt_reply_text(&reported, text, 16, &length) == 0);
    CHECK(is_text(text, "started 0") && is_text(text + 9, "......"));
    CHECK(length == 9);
    CHECK(sgt_step(&engine, 0, &reported) == 0);
    CHECK(sgt_reply_text(&reported, text, 12, &length) == 0);
    CHECK(is_text(text, "read 0/1 101") && length == 12);
    CHECK(sgt_quit(&engine, 0, &reported) == 0);
    CHECK(sgt_reply_text(&reported, text, 16, &length) == 0);
    CHECK(is_text(text, "read 0/1 101") && length == 22);
    reported.cause = 4;
    CHECK(sgt_reply_text(&reported, text, 16, &length) == 5);
    reported.kind = 8;
    reported.table = 8;
    CHECK(sgt_reply_text(&reported, text, 16, &length) == 5);
    CHECK(is_text(text, "read 0/1 101") && length == 22);
    sgt_close(&engine);
}

static void faults_are_texts(void)
{
    sgt_engine engine = {0};
    sgt_fault fault = {0};
    char text[25];
    uint64_t length = 77;
    memset(text, '.', sizeof text);
    CHECK(sgt_fault_text(&fault, text, 24, &length) == 5);
    CHECK(length == 77 && is_text(text, ""));
    CHECK(opens(&engine, shape, &fault) == 20);
    CHECK(sgt_fault_text(&fault, text, 24, &length) == 0);
    CHECK(is_text(text, "procedure 5 shape 1 0") && length == 21);
    fault.depth = 0;
    CHECK(sgt_fault_text(&fault, text, 24, &length) == 0);
    CHECK(is_text(text, "procedure 5 shape top"));
    fault.kind = 22;
    CHECK(sgt_fault_text(&fault, text, 24, &length) == 5);
    fault.kind = 16;
    memset(text, '.', sizeof text);
    CHECK(sgt_fault_text(&fault, text, 7, &length) == 0);
    CHECK(is_text(text, "") && length == 8);
    sgt_close(&engine);
}

/* The bytes that the C library has given out. Sanitizers use memory of their own: then it reports nothing. */
static size_t bytes_in_use(void)
{
#if defined(__GLIBC__) && !defined(__SANITIZE_ADDRESS__)
    const struct mallinfo2 reported = mallinfo2();
    return reported.uordblks + reported.hblkhd;
#else
    return 0;
#endif
}

static void deposits(sgt_engine *engine, int count)
{
    sgt_reply reported = {0};
    uint32_t tid = 0;
    for (int made = 0; made < count; made++) {
        if (sgt_run(engine, 1, deposit, 2, &tid, &reported) != 0 || reported.kind != 13) CHECK(!"a deposit is committed");
    }
}

/* A long part leaves its memory to the next one. A short part after it frees that. */
static void a_cut_keeps_memory_in_use(void)
{
    static const char unlimited[] = "{\"limits\":[8,4000000000],\"accounts\":[[1,101,500,1000]],\"procedures\":[]}";
    sgt_engine engine = {0};
    sgt_fault fault = {0};
    uint64_t live = 0;
    CHECK(opens(&engine, unlimited, &fault) == 0);
    deposits(&engine, 100000);
    const size_t full = bytes_in_use();
    CHECK(sgt_cut(&engine, &live) == 0);
    CHECK(bytes_in_use() >= full / 2);
    deposits(&engine, 100);
    CHECK(sgt_cut(&engine, &live) == 0);
    CHECK(bytes_in_use() <= full / 10);
    deposits(&engine, 100);
    CHECK(sgt_cut(&engine, &live) == 0);
    CHECK(bytes_in_use() <= full / 10);
    sgt_close(&engine);
}

int main(void)
{
    a_deposit_is_committed();
    statuses_are_reported();
    entries_are_reported();
    calls_are_reported();
    rows_are_reported();
    rows_are_opened();
    rows_are_put();
    procedures_are_added();
    refusals_are_explained();
    procedures_are_texts();
    procedures_have_numbers_of_16_bits();
    a_run_goes_to_its_end();
    many_calls_are_run();
    calls_are_run_again();
    fields_that_do_not_count_stay();
    fields_of_entries_stay();
    fields_of_runs_stay();
    fields_of_faults_stay();
    null_pointers_are_reported();
    lists_of_no_items_may_be_null();
    a_busy_engine_is_left_alone();
    wide_numbers_are_refused();
    an_engine_is_opened_bare();
    parts_are_numbered();
    the_history_is_cut_off();
    a_cut_keeps_memory_in_use();
    replies_are_texts();
    faults_are_texts();
    printf("%d checks, %d failed\n", checks, failed);
    return failed != 0;
}
