/*
 * Eight threads pay each other on one shared engine, and the money is counted.
 *
 *     cc -Ibindings -Ibindings/c bindings/c/threads.c bindings/out/libsgt.a -pthread
 */
#include <inttypes.h>
#include <pthread.h>
#include <stdio.h>
#include <stdlib.h>
#include <string.h>

#include "sgt_shared.h"

enum { THREADS = 8, EACH = 10000, ACCOUNTS = 4, PAY = 5 };

/*
 * Four customers, 101 to 104, each with 1000 cents in checking. PAY is the first procedure after SmallBank's five: from a customer, to
 * a customer, cents. It aborts with 6 if there is no such customer, and with 7 if the money does not suffice.
 */
static const char opening[] =
    "{\"limits\":[8,4000000,1],"
    "\"accounts\":[[1,101,0,1000],[2,102,0,1000],[3,103,0,1000],[4,104,0,1000]],"
    "\"procedures\":[[3,["
    "[\"look\",0,2,[\"arg\",0],6],"
    "[\"if\",[\"less\",[\"reg\",0],[\"arg\",2]],[[\"ask\",7]],[]],"
    "[\"put\",2,[\"arg\",0],[\"diff\",[\"reg\",0],[\"arg\",2]]],"
    "[\"look\",1,2,[\"arg\",1],6],"
    "[\"put\",2,[\"arg\",1],[\"sum\",[\"reg\",1],[\"arg\",2]]]"
    "]]]}";

struct teller {
    pthread_t id;
    sgt_shared *bank;
    unsigned number;
    int paid, refused;
    uint32_t status; /* of the first call that was not carried out */
};

/* One payment. If it is not SGT_OK no money has moved, so the caller may make it again or give it up. */
static uint32_t pay(struct teller *it, int64_t from, int64_t to, int64_t amount)
{
    const int64_t args[] = {from, to, amount};
    sgt_shared_outcome outcome = SGT_SHARED_OUTCOME;
    uint32_t status = sgt_shared_run(it->bank, PAY, args, 3, 0, &outcome);
    if (status != SGT_OK) return status;
    if (outcome.reply.kind == SGT_COMMITTED) it->paid++;
    else it->refused++; /* SGT_REFUSED, and outcome.reply.code says why */
    return SGT_OK;
}

static void *work(void *of)
{
    struct teller *it = of;
    for (unsigned made = 0; made < EACH && it->status == SGT_OK; made++) {
        unsigned from = (it->number + made) % ACCOUNTS, to = (it->number + 3 * made + 1) % ACCOUNTS;
        it->status = pay(it, 101 + from, 101 + to, made % 500);
    }
    return 0;
}

int main(void)
{
    static struct teller tellers[THREADS];
    sgt_shared *bank = 0;
    sgt_fault fault = {0};
    sgt_shared_config config = SGT_SHARED_CONFIG;
    int64_t money = 0;
    int calls = 0;
    config.cut_after = 100000; /* entries of the history, most of 24 bytes */
    uint32_t status = sgt_shared_open(&bank, opening, strlen(opening), 0, 0, &config, &fault);
    if (status != SGT_OK) {
        fprintf(stderr, "%s\n", sgt_status_text(status));
        return 1;
    }
    for (unsigned i = 0; i < THREADS; i++) {
        tellers[i] = (struct teller){.bank = bank, .number = i};
        if (pthread_create(&tellers[i].id, 0, work, &tellers[i]) != 0) return 1;
    }
    for (unsigned i = 0; i < THREADS; i++) {
        pthread_join(tellers[i].id, 0);
        if (tellers[i].status != SGT_OK) fprintf(stderr, "%s\n", sgt_status_text(tellers[i].status));
        calls += tellers[i].paid + tellers[i].refused;
    }
    for (int64_t customer = 101; customer <= 104; customer++) {
        int64_t checking = 0;
        if (sgt_shared_get(bank, 2, customer, &checking) != SGT_OK) return 1;
        money += checking;
    }
    printf("%d calls, %" PRId64 " of 4000\n", calls, money);
    return sgt_shared_close(&bank) == SGT_OK ? 0 : 1;
}
