/*
 * Loads of the library for C that grow with the number of records, for bench/growth.
 *
 *     growth LOAD COUNT [mixed]
 *
 * `open` opens an engine with COUNT accounts, `open_with` and `put` with COUNT rows: by key, or at random, the same each time. The others
 * begin with COUNT rows: `pages` reads them by pages, `pages_later` after a commit, `records` counts them and `cut` cuts an empty history,
 * ten times each; `cut_later` cuts after 100 commits, and `cut_removed` after as many removals.
 */
#include <inttypes.h>
#include <stdio.h>
#include <stdlib.h>
#include <string.h>

#include "sgt.h"

enum { PAGE = 1000, TIMES = 10, COMMITS = 100 };

/* Ends with an error unless the call has succeeded. */
static void check(uint32_t status, const char *call)
{
    if (status == SGT_OK) return;
    fprintf(stderr, "growth: %s: status %" PRIu32 "\n", call, status);
    exit(1);
}

static void *memory(size_t bytes)
{
    void *at = malloc(bytes);
    if (!at) exit(1);
    return at;
}

/* The numbers from 0 on, in order or mixed. */
static int64_t *numbers(int64_t count, int mixed)
{
    uint64_t drawn = 20190408;
    int64_t *number = memory((size_t)(count + 1) * sizeof *number);
    for (int64_t n = 0; n < count; n++) number[n] = n;
    for (int64_t n = count - 1; mixed && n > 0; n--) {
        drawn = drawn * 6364136223846793005u + 1442695040888963407u;
        const int64_t other = (int64_t)((drawn >> 33) % (uint64_t)(n + 1)), kept = number[n];
        number[n] = number[other], number[other] = kept;
    }
    return number;
}

static sgt_row *rows_of(const int64_t *number, int64_t count)
{
    sgt_row *rows = memory((size_t)(count + 1) * sizeof *rows);
    for (int64_t n = 0; n < count; n++) rows[n] = (sgt_row){.table = 3, .number = number[n], .value = n};
    return rows;
}

/* Opens an engine with this many accounts. */
static void open_accounts(sgt_engine *engine, const int64_t *number, int64_t count)
{
    static sgt_fault fault;
    char *text = memory(80 + (size_t)count * 64), *end = text;
    end += sprintf(end, "{\"limits\":[8,4000000000],\"accounts\":[");
    for (int64_t n = 0; n < count; n++) {
        end += sprintf(end, "%s[%" PRId64 ",%" PRId64 ",100,100]", n ? "," : "", number[n], 1000000000 + number[n]);
    }
    end += sprintf(end, "],\"procedures\":[]}");
    check(sgt_open(engine, text, (size_t)(end - text), &fault), "sgt_open");
}

/* Reads all rows by pages, each from the row that follows the last one of the page before. */
static void read_pages(sgt_engine *engine, int64_t wanted)
{
    static sgt_row page[PAGE];
    uint64_t left, table = 0;
    int64_t number = SGT_LEAST, seen = 0;
    do {
        check(sgt_rows(engine, table, number, page, PAGE, &left), "sgt_rows");
        const uint64_t got = left < PAGE ? left : PAGE;
        seen += (int64_t)got;
        if (got) table = page[got - 1].table, number = page[got - 1].number + 1;
    } while (left > PAGE);
    if (seen != wanted) exit(1);
}

/* A transaction that writes a record, or removes it. */
static void commit(sgt_engine *engine, int64_t number, int removes)
{
    static sgt_reply reply;
    check(sgt_begin(engine, &reply), "sgt_begin");
    const uint32_t tid = reply.tid;
    check(removes ? sgt_remove(engine, tid, 3, number, &reply) : sgt_write(engine, tid, 3, number, 1, &reply), "an access");
    check(sgt_commit(engine, tid, &reply), "sgt_commit");
    if (reply.kind != SGT_COMMITTED) exit(1);
}

int main(int argc, char **argv)
{
    if (argc != 3 && argc != 4) return 2;
    const char *load = argv[1];
    const int64_t count = strtoll(argv[2], NULL, 10), *number = numbers(count, argc == 4);
    const sgt_row *rows = rows_of(number, count);
    static const char bare[] = "{\"limits\":[8,4000000000],\"accounts\":[],\"procedures\":[]}";
    static sgt_fault fault;
    sgt_engine engine = {0};
    uint64_t got;
    if (!strcmp(load, "open")) {
        open_accounts(&engine, number, count);
    } else if (!strcmp(load, "put")) {
        check(sgt_open_bare(&engine, 8, 4000000000, 0), "sgt_open_bare");
        check(sgt_put(&engine, rows, (size_t)count, &got), "sgt_put");
    } else {
        check(sgt_open_with(&engine, bare, sizeof bare - 1, rows, (size_t)count, &fault), "sgt_open_with");
    }
    const int later = strstr(load, "_later") != NULL, removes = !strcmp(load, "cut_removed");
    const int64_t commits = later || removes ? (strncmp(load, "pages", 5) ? COMMITS : 1) : 0;
    for (int64_t n = 0; n < commits; n++) commit(&engine, n * (count / COMMITS), removes);
    if (!strncmp(load, "pages", 5)) read_pages(&engine, count);
    if (!strcmp(load, "records")) for (int n = 0; n < TIMES; n++) check(sgt_records(&engine, &got), "sgt_records");
    if (!strcmp(load, "cut")) for (int n = 0; n < TIMES; n++) check(sgt_cut(&engine, &got), "sgt_cut");
    if (later || removes) if (!strncmp(load, "cut", 3)) check(sgt_cut(&engine, &got), "sgt_cut");
    sgt_close(&engine);
    return 0;
}
