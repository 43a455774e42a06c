/*
 * Interleaved transfers by a procedure of one's own. Each reply that can come is handled.
 *
 *     cc -Ibindings bindings/c/transfers.c bindings/out/libsgt.a
 */
#include <inttypes.h>
#include <stdbool.h>
#include <stdio.h>
#include <stdlib.h>
#include <string.h>

#include "sgt.h"

/*
 * Limits: 8 live, 1000 in all, and 1: codes are reported at the commit, where they are final. Accounts: name, customer, saving,
 * checking, in cents. Procedure 5 takes two customers and an amount, and moves it from the checking account 2/customer of the first
 * to that of the second. It aborts with 6 if there is no such customer, and with 7 if the money does not suffice.
 */
static const char *OPENING =
    "{\"limits\":[8,1000,1],"
    "\"accounts\":[[1,101,0,1000],[2,102,0,200],[3,103,0,50],[4,104,0,0]],"
    "\"procedures\":[[3,["
    "[\"look\",0,2,[\"arg\",0],6],"
    "[\"if\",[\"less\",[\"reg\",0],[\"arg\",2]],[[\"ask\",7]],[]],"
    "[\"put\",2,[\"arg\",0],[\"diff\",[\"reg\",0],[\"arg\",2]]],"
    "[\"look\",1,2,[\"arg\",1],6],"
    "[\"put\",2,[\"arg\",1],[\"sum\",[\"reg\",1],[\"arg\",2]]]"
    "]]]}";

enum { TRANSFER = 5 };

/* A transfer, and its state. */
struct transfer {
    const char *name;
    int64_t args[3];
    enum { TO_START, TO_STEP, TO_COMMIT, WAITING, DONE } state;
    uint32_t tid;
};

static void must(uint32_t status)
{
    if (status == SGT_OK) return;
    fprintf(stderr, "status %" PRIu32 "\n", status);
    exit(1);
}

/* Returns the next event of a transfer. */
static const char *ask(sgt_engine *engine, const struct transfer *it, sgt_reply *reply)
{
    switch (it->state) {
    case TO_START: must(sgt_start(engine, TRANSFER, it->args, 3, reply)); return "start";
    case TO_STEP: must(sgt_step(engine, it->tid, reply)); return "step";
    default: must(sgt_commit(engine, it->tid, reply)); return "commit";
    }
}

/* Changes the state of a transfer by the reply: it goes on, starts again, waits or is done. */
static void go_on(struct transfer *it, const sgt_reply *reply)
{
    switch (reply->kind) {
    case SGT_STARTED: it->tid = reply->tid, it->state = TO_STEP; break; /* the only reply with the number: keep it */
    case SGT_LOOKED: case SGT_WROTE: break;                             /* the next step */
    case SGT_ENDED: it->state = TO_COMMIT; break;
    case SGT_WAITS: it->state = WAITING; break;                         /* until another transaction has ended */
    case SGT_COMMITTED: case SGT_REFUSED: it->state = DONE; break;
    case SGT_ABORTED:                                                   /* a cycle: start again */
    case SGT_OVER:                                                      /* aborted in cascade: the same */
        it->state = reply->cause == SGT_BY_CYCLE || reply->cause == SGT_BY_FALL ? TO_START : DONE;
        break;
    case SGT_FULL: break;                                               /* try the start again */
    default: it->state = DONE;                                          /* the start was refused */
    }
}

static bool ends_one(const sgt_reply *reply)
{
    return reply->kind == SGT_COMMITTED || reply->kind == SGT_REFUSED || reply->kind == SGT_ABORTED;
}

/* Makes the transfers' events in turn, until all are done. After an end, those that wait try again. */
static void run_all(sgt_engine *engine, struct transfer *transfers, size_t count)
{
    for (size_t at = 0, idle = 0; idle < count; at = (at + 1) % count) {
        struct transfer *it = &transfers[at];
        sgt_reply reply = {0};
        char text[1024];
        uint64_t length = 0;
        if (it->state == WAITING || it->state == DONE) {
            idle++;
            continue;
        }
        idle = 0;
        const char *event = ask(engine, it, &reply);
        must(sgt_reply_text(&reply, text, sizeof text, &length)); /* every reply fits into 1024 bytes */
        printf("%s %s: %.*s\n", it->name, event, (int)length, text);
        go_on(it, &reply);
        for (size_t other = 0; ends_one(&reply) && other < count; other++) {
            if (transfers[other].state == WAITING) transfers[other].state = TO_COMMIT;
        }
    }
}

int main(void)
{
    struct transfer transfers[] = {
        {.name = "first", .args = {103, 101, 50}},
        {.name = "second", .args = {101, 102, 300}},
        {.name = "third", .args = {101, 103, 400}},
        {.name = "fourth", .args = {104, 101, 100}},
    };
    const size_t count = sizeof transfers / sizeof *transfers;
    sgt_engine engine = {0};
    sgt_fault fault = {0};
    uint32_t status = sgt_open(&engine, OPENING, strlen(OPENING), &fault);
    if (status >= SGT_NOT_JSON) { /* a fault of the opening, which has a text */
        char text[2048];
        uint64_t length = 0;
        must(sgt_fault_text(&fault, text, sizeof text, &length));
        if (length <= sizeof text) fprintf(stderr, "%.*s\n", (int)length, text);
    }
    must(status);
    run_all(&engine, transfers, count);
    for (int64_t customer = 101; customer <= 104; customer++) {
        int64_t checking = 0;
        must(sgt_get(&engine, 2, customer, &checking));
        printf("%" PRId64 " has %" PRId64 "\n", customer, checking);
    }
    sgt_close(&engine);
    return 0;
}
