/*
 * Payments whose ids come and go, on an engine of the library for C, for bench/endless.
 *
 *     endless PAYMENTS KEPT
 *
 * A payment moves an amount between two of 100 accounts, and writes six records of its id. Once KEPT ids are newer, a transaction of
 * its own removes the six. Both are stored procedures. Eight transactions are live and make their steps in turn, so some payments are
 * aborted by conflicts, after their first writes too. Such an id is not paid again, and its records, which are absent, are removed
 * like the others. After 100,000 entries, and at each tenth, no transaction starts until all have ended; then the history is cut.
 *
 * At each tenth, after the cut, it prints what was paid. There the accounts have to hold what they held at first, and the database has
 * to have six records for each id that is remembered and one for each account, and no more: else it ends with status 3.
 */
#include <inttypes.h>
#include <stdbool.h>
#include <stdio.h>
#include <stdlib.h>
#include <string.h>

#include "sgt.h"

enum { LIVE = 8, ACCOUNTS = 100, BALANCE = 1000000000, MOST_ENTRIES = 100000, RECORDS_OF_AN_ID = 6 };

/* The arguments are the id, the payer, the payee and the amount. Table 1 has the balances, and tables 2 to 7 what belongs to an id. */
static const char pay[] =
    "[4,[[\"find\",0,2,[\"arg\",0],-1],[\"if\",[\"less\",[\"reg\",0],0],[],[[\"ask\",7]]],"
    "[\"look\",1,1,[\"arg\",1],3],[\"look\",2,1,[\"arg\",2],4],"
    "[\"let\",1,[\"diff\",[\"reg\",1],[\"arg\",3]]],[\"let\",2,[\"sum\",[\"reg\",2],[\"arg\",3]]],"
    "[\"put\",2,[\"arg\",0],[\"arg\",1]],[\"put\",3,[\"arg\",0],[\"arg\",2]],[\"put\",4,[\"arg\",0],[\"arg\",3]],"
    "[\"put\",5,[\"arg\",0],[\"reg\",1]],[\"put\",6,[\"arg\",0],[\"reg\",2]],[\"put\",7,[\"arg\",0],0],"
    "[\"put\",1,[\"arg\",1],[\"reg\",1]],[\"put\",1,[\"arg\",2],[\"reg\",2]]]]";

static const char forget[] =
    "[1,[[\"remove\",2,[\"arg\",0]],[\"remove\",3,[\"arg\",0]],[\"remove\",4,[\"arg\",0]],"
    "[\"remove\",5,[\"arg\",0]],[\"remove\",6,[\"arg\",0]],[\"remove\",7,[\"arg\",0]]]]";

enum { NONE, STEPS, ENDS };

/* A transaction, or none. */
struct slot {
    int state;
    uint32_t tid;
    int64_t id;
    bool pays;
};

struct run {
    sgt_engine engine;
    sgt_reply reply;
    struct slot slots[LIVE];
    uint16_t pay, forget;
    int64_t kept;        /* how many newer ids an id is remembered for */
    int64_t next;        /* the next payment's id */
    int64_t oldest;      /* the next id that is forgotten */
    int64_t paid, aborted, remembered;
    bool *is_remembered; /* of each id, at the place of its remainder by `places` */
    int64_t places;
    uint64_t drawn, cuts;
};

static void end(int status, const char *what)
{
    fprintf(stderr, "endless: %s\n", what);
    exit(status);
}

static int64_t draw(struct run *run, int64_t below)
{
    run->drawn = run->drawn * 6364136223846793005u + 1442695040888963407u;
    return (int64_t)((run->drawn >> 33) % (uint64_t)below);
}

/* Opens the engine with the two procedures and the accounts. */
static void open_engine(struct run *run)
{
    sgt_fault fault = {0};
    sgt_row rows[ACCOUNTS] = {0};
    uint64_t at = 0;
    for (int64_t n = 0; n < ACCOUNTS; n++) rows[n] = (sgt_row){.table = 1, .number = n, .value = BALANCE};
    if (sgt_open_bare(&run->engine, LIVE, 4000000000, 0) != SGT_OK
        || sgt_procedure(&run->engine, pay, sizeof pay - 1, &run->pay, &fault) != SGT_OK
        || sgt_procedure(&run->engine, forget, sizeof forget - 1, &run->forget, &fault) != SGT_OK
        || sgt_put(&run->engine, rows, ACCOUNTS, &at) != SGT_OK) {
        end(1, "the engine could not be opened");
    }
}

/* Starts a transaction: one that forgets an id if it is time, else a payment. */
static uint32_t start(struct run *run, struct slot *slot)
{
    int64_t payer = draw(run, ACCOUNTS), payee = (payer + 1 + draw(run, ACCOUNTS - 1)) % ACCOUNTS;
    slot->pays = run->next - run->oldest <= run->kept;
    slot->id = slot->pays ? run->next++ : run->oldest++;
    int64_t args[4] = {slot->id, payer, payee, 1 + draw(run, 99)};
    return sgt_start(&run->engine, slot->pays ? run->pay : run->forget, args, slot->pays ? 4 : 1, &run->reply);
}

/* Notes what a commit has changed. */
static void note(struct run *run, const struct slot *slot)
{
    bool *it = &run->is_remembered[slot->id % run->places];
    run->paid += slot->pays;
    run->remembered += (slot->pays ? 1 : 0) - (*it ? 1 : 0);
    *it = slot->pays;
}

/* One event of a transaction, or the start of the next one. */
static void event(struct run *run, struct slot *slot)
{
    uint32_t status = slot->state == NONE ? start(run, slot)
                                          : (slot->state == STEPS ? sgt_step : sgt_commit)(&run->engine, slot->tid, &run->reply);
    if (status != SGT_OK) end(1, sgt_status_text(status));
    switch (run->reply.kind) {
    case SGT_STARTED: slot->tid = run->reply.tid, slot->state = STEPS; break;
    case SGT_LOOKED: case SGT_WROTE: case SGT_WAITS: break;
    case SGT_ENDED: slot->state = ENDS; break;
    case SGT_COMMITTED: note(run, slot), slot->state = NONE; break;
    case SGT_ABORTED: case SGT_OVER:
        if (!slot->pays) end(3, "what forgets an id was aborted");
        run->aborted++, slot->state = NONE;
        break;
    default: end(3, "an unexpected reply");
    }
}

/* Makes events until this many payments are made or the history is long, then those that end all transactions, and cuts. */
static void part(struct run *run, int64_t paid)
{
    uint64_t entries = 0, live = 0;
    bool ends = false;
    int open = 1;
    while (open > 0) {
        open = 0;
        for (struct slot *slot = run->slots; slot < run->slots + LIVE; slot++) {
            if (slot->state != NONE || !ends) event(run, slot);
            open += slot->state != NONE;
        }
        if (sgt_entries(&run->engine, &entries) != SGT_OK) end(1, "no entries");
        ends = ends || entries >= MOST_ENTRIES || run->paid >= paid;
        open += !ends;
    }
    if (sgt_cut(&run->engine, &live) != SGT_OK) end(1, "the history could not be cut");
    run->cuts++;
}

/* Prints what was paid, and ends the program if accounts or records are not as they have to be. */
static void print(struct run *run)
{
    uint64_t records = 0;
    int64_t whole = 0, value = 0;
    for (int64_t n = 0; n < ACCOUNTS; n++) {
        if (sgt_get(&run->engine, 1, n, &value) != SGT_OK) end(3, "an account is gone");
        whole += value;
    }
    if (sgt_records(&run->engine, &records) != SGT_OK) end(1, "no records");
    printf("payments %" PRId64 " aborted %" PRId64 " cuts %" PRIu64 " ids %" PRId64 " records %" PRIu64 " in all %" PRId64 "\n",
           run->paid, run->aborted, run->cuts, run->remembered, records, whole);
    fflush(stdout);
    if (whole != (int64_t)ACCOUNTS * BALANCE) end(3, "the accounts hold another sum");
    if (records != (uint64_t)(ACCOUNTS + RECORDS_OF_AN_ID * run->remembered)) end(3, "another number of records");
}

int main(int argc, char **argv)
{
    if (argc != 3) end(2, "usage: endless PAYMENTS KEPT");
    const int64_t payments = atoll(argv[1]);
    static struct run run = {.next = 1, .oldest = 1, .drawn = 20190408};
    run.kept = atoll(argv[2]);
    /* An id is forgotten once this many ids are newer: then no payment of it is live any more. */
    if (payments < 10 || run.kept < 1000) end(2, "there are at least 10 payments, and 1000 ids are kept");
    run.places = run.kept + 2 * LIVE;
    run.is_remembered = calloc((size_t)run.places, sizeof *run.is_remembered);
    if (!run.is_remembered) end(1, "no memory");
    open_engine(&run);
    for (int64_t tenth = 1; tenth <= 10; tenth++) {
        while (run.paid < payments / 10 * tenth) part(&run, payments / 10 * tenth);
        print(&run);
    }
    /* Whoever reads the last line may look at this process until the input ends. */
    fclose(stdout);
    while (getchar() != EOF) {}
    sgt_close(&run.engine);
    free(run.is_remembered);
    return 0;
}
