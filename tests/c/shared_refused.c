/*
 * Each allocation of a shared engine is refused in turn, once. The call then answers SGT_NO_MEMORY, has changed nothing and leaves
 * nobody live behind, and made again it goes on. Built with -Wl,--wrap=malloc,--wrap=realloc,--wrap=calloc,--wrap=aligned_alloc.
 */
#include <inttypes.h>
#include <stdbool.h>
#include <stdio.h>
#include <stdlib.h>
#include <string.h>

#include "sgt_shared.h"

enum { DEPOSITS = 80 };

static const char opening[] = "{\"limits\":[8,1000,1],\"accounts\":[[1,101,500,1000],[2,102,5,6]],\"procedures\":[]}";
static const int64_t deposit[] = {1, 100};
static long asked, refuse;

/* How many allocations were done without: the rows of an opening are sorted in place if there is no memory to sort them in. */
static int done_without;

void *__real_malloc(size_t size);
void *__real_realloc(void *old, size_t size);
void *__real_calloc(size_t count, size_t size);
void *__real_aligned_alloc(size_t alignment, size_t size);
void *__wrap_malloc(size_t size) { return ++asked == refuse ? 0 : __real_malloc(size); }
void *__wrap_realloc(void *old, size_t size) { return ++asked == refuse ? 0 : __real_realloc(old, size); }
void *__wrap_calloc(size_t count, size_t size) { return ++asked == refuse ? 0 : __real_calloc(count, size); }
void *__wrap_aligned_alloc(size_t alignment, size_t size) { return ++asked == refuse ? 0 : __real_aligned_alloc(alignment, size); }

/* Whether the checking balance of account 1 is this, and this many transactions are live. */
static bool stands(sgt_shared *shared, int64_t wanted, uint64_t wanted_live)
{
    int64_t value = 0;
    uint64_t live = 0;
    return sgt_shared_get(shared, 2, 101, &value) == SGT_OK && value == wanted && sgt_shared_live(shared, 0, 0, &live) == SGT_OK
        && live == wanted_live;
}

/* Deposits, each in one call. How many calls were refused, or -1. */
static int runs(sgt_shared *shared)
{
    int refused = 0;
    for (int64_t made = 0; made < DEPOSITS;) {
        sgt_shared_outcome outcome = SGT_SHARED_OUTCOME;
        uint32_t status = sgt_shared_run(shared, 1, deposit, 2, 0, &outcome);
        if (status == SGT_OK && outcome.reply.kind != SGT_COMMITTED) return -1;
        if (status != SGT_OK && (status != SGT_NO_MEMORY || outcome.reply.kind != 0)) return -1;
        if (status == SGT_OK) made++;
        else refused++;
        if (!stands(shared, 1000 + 100 * made, 0)) return -1;
    }
    return refused;
}

/* A deposit step by step, from the value that it finds. How many calls were refused, or -1. */
static int steps(sgt_shared *shared, int64_t had)
{
    sgt_ticket ticket = {0};
    sgt_reply reply = {0};
    uint32_t status;
    int refused = 0;
    while ((status = sgt_shared_start(shared, 1, deposit, 2, 0, &ticket, &reply)) == SGT_NO_MEMORY) {
        refused++;
        if (!stands(shared, had, 0) || ticket.engine != 0 || reply.kind != 0) return -1;
    }
    while (status == SGT_OK && reply.kind != SGT_ENDED) {
        while ((status = sgt_shared_step(shared, &ticket, &reply)) == SGT_NO_MEMORY) refused++;
        if (!stands(shared, had, 1)) return -1;
    }
    /* An event that ends a live transaction never needs memory. */
    if (sgt_shared_commit(shared, &ticket, 0, &reply) != SGT_OK || reply.kind != SGT_COMMITTED) return -1;
    return stands(shared, had + 100, 0) ? refused : -1;
}

/* A deposit of a transaction function: it is tried again if an allocation of an access failed. */
static uint32_t deposits(void *context, sgt_transaction *t)
{
    int64_t *value = context;
    const uint32_t status = sgt_transaction_read(t, 2, 101, value);
    if (status == SGT_OK) sgt_transaction_write(t, 2, 101, *value + 100);
    return SGT_BODY_COMMIT;
}

/* The same for one. How many calls were refused, or -1. */
static int transacts(sgt_shared *shared, int64_t had)
{
    int64_t value = 0;
    int refused = 0;
    for (;;) {
        sgt_shared_outcome outcome = SGT_SHARED_OUTCOME;
        const uint32_t status = sgt_shared_transact(shared, deposits, &value, 0, &outcome);
        if (status == SGT_OK) return outcome.reply.kind == SGT_COMMITTED && stands(shared, had + 100, 0) ? refused : -1;
        if (status != SGT_NO_MEMORY || outcome.reply.kind != 0 || !stands(shared, had, 0)) return -1;
        refused++;
    }
}

/* All that ended is drained, and the history is cut off. How many calls were refused, or -1. */
static int ends(sgt_shared *shared)
{
    sgt_ended calls[DEPOSITS + 9];
    uint64_t count = 0, entries = 0, part = 0;
    uint32_t status;
    int refused = 0;
    if (sgt_shared_drain(shared, 0, calls, DEPOSITS + 9, &count) != SGT_OK || count != DEPOSITS + 2) return -1;
    if (calls[--count].call.accesses != 2) return -1;
    for (uint64_t i = 0; i < count; i++) {
        if (calls[i].sequence != i || calls[i].call.answer[0] != 1100 + 100 * (int64_t)i) return -1;
    }
    while ((status = sgt_shared_cut(shared, 0)) == SGT_NO_MEMORY) {
        refused++;
        if (sgt_shared_entries(shared, &entries, &part) != SGT_OK || entries == 0 || part != 0) return -1;
    }
    if (status != SGT_OK || sgt_shared_entries(shared, &entries, &part) != SGT_OK || entries != 0 || part != 1) return -1;
    while ((status = sgt_shared_rows(shared, 0, SGT_LEAST, 0, 0, &count)) == SGT_NO_MEMORY) refused++;
    return status == SGT_OK && count == 6 ? refused : -1;
}

/* In how many calls an allocation failed, or -1 if one broke its promise. */
static int run(void)
{
    sgt_shared *shared = 0;
    sgt_fault fault = {0};
    sgt_shared_config config = SGT_SHARED_CONFIG;
    uint32_t status;
    int refused = 0, ran, stepped, transacted, ended;
    config.keeps_ended = 1;
    while ((status = sgt_shared_open(&shared, opening, strlen(opening), 0, 0, &config, &fault)) == SGT_NO_MEMORY) {
        if (shared) return -1;
        refused++;
    }
    done_without += refused == 0 && asked >= refuse;
    if (status != SGT_OK || (ran = runs(shared)) < 0 || (stepped = steps(shared, 1000 + 100 * DEPOSITS)) < 0) return -1;
    if ((transacted = transacts(shared, 1100 + 100 * DEPOSITS)) < 0) return -1;
    if ((ended = ends(shared)) < 0 || sgt_shared_close(&shared) != SGT_OK) return -1;
    return refused + ran + stepped + transacted + ended;
}

int main(void)
{
    int refused = 0;
    for (refuse = 1;; refuse++) {
        asked = 0;
        int came = run();
        if (came < 0) {
            printf("allocation %ld: a call did not keep its word\n", refuse);
            return 1;
        }
        if (asked < refuse) break;
        refused += came;
    }
    printf("%d of %ld allocations were told as refused, %d done without\n", refused, refuse - 1, done_without);
    return refused + done_without == refuse - 1 ? 0 : 1;
}
