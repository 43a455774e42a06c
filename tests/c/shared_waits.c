/*
 * Threads that wait for each other without a deadline, each with something live that another one waits for: one of them is told so, by
 * SGT_SELF_WAIT, and none waits for ever. Nobody else is told so. For tests/threads.py.
 *
 *     shared_waits SEED
 *
 * Each failed check is printed; the last line counts them. It does not last longer than LONGEST seconds: then an alarm ends it.
 */
#include <pthread.h>
#include <stdatomic.h>
#include <stdbool.h>
#include <stdio.h>
#include <stdlib.h>
#include <string.h>
#include <unistd.h>

#include "sgt_shared.h"

static atomic_int checks, failed;

#define CHECK(holds) check((holds) != 0, #holds, __LINE__)

static void check(int holds, const char *text, int line)
{
    checks++;
    if (holds) return;
    failed++;
    printf("line %d: %s\n", line, text);
}

enum { LONGEST = 1000, ROUNDS = 200, TABLE = 7 };

/* Procedure 5 writes a record, and procedure 6 reads it. */
static const char two[] = "{\"limits\":[2,4000000000,1],\"accounts\":[],\"procedures\":"
                          "[[0,[[\"put\",7,1,5]]],[0,[[\"look\",0,7,1,6]]]]}";
static const char eight[] = "{\"limits\":[8,4000000000,1],\"accounts\":[],\"procedures\":"
                            "[[0,[[\"put\",7,1,5]]],[0,[[\"look\",0,7,1,6]]]]}";
enum { WRITE = 5, READ = 6 };

static sgt_shared *opened(const char *text)
{
    sgt_shared *shared = 0;
    sgt_fault fault = {0};
    CHECK(sgt_shared_open(&shared, text, strlen(text), 0, 0, 0, &fault) == SGT_OK);
    return shared;
}

static void closes(sgt_shared *shared) { CHECK(sgt_shared_close(&shared) == SGT_OK); }

static uint64_t lives(sgt_shared *shared)
{
    uint64_t count = 77;
    CHECK(sgt_shared_live(shared, 0, 0, &count) == SGT_OK);
    return count;
}

static void quits(sgt_shared *shared, const sgt_ticket *ticket)
{
    sgt_reply reply = {0};
    CHECK(sgt_shared_quit(shared, ticket, &reply) == SGT_OK);
}

static sgt_ticket begins(sgt_shared *shared)
{
    sgt_ticket ticket = {0};
    sgt_reply reply = {0};
    CHECK(sgt_shared_begin(shared, SGT_FOREVER, &ticket, &reply) == SGT_OK && reply.kind == SGT_STARTED);
    return ticket;
}

static void writes(sgt_shared *shared, const sgt_ticket *ticket)
{
    sgt_reply reply = {0};
    CHECK(sgt_shared_write(shared, ticket, TABLE, 1, 1, &reply) == SGT_OK && reply.kind == SGT_WROTE);
}

/* Two threads, each with something live */

/* A thread that writes a record, the second one after the first, and makes a call when both have written. */
struct side {
    pthread_t id;
    sgt_shared *shared;
    pthread_barrier_t *turn;
    bool is_second;
    sgt_ticket ticket, more;
    sgt_reply reply;
    uint32_t (*call)(struct side *it);
    uint32_t status;
};

static void *makes(void *of)
{
    struct side *it = of;
    it->ticket = begins(it->shared);
    if (!it->is_second) writes(it->shared, &it->ticket);
    pthread_barrier_wait(it->turn);
    if (it->is_second) writes(it->shared, &it->ticket);
    pthread_barrier_wait(it->turn);
    it->status = it->call(it);
    if (it->status == SGT_SELF_WAIT) quits(it->shared, &it->ticket);
    return 0;
}

static uint32_t starts_one_more(struct side *it) { return sgt_shared_begin(it->shared, SGT_FOREVER, &it->more, &it->reply); }

static uint32_t commits(struct side *it) { return sgt_shared_commit(it->shared, &it->ticket, SGT_FOREVER, &it->reply); }

/* Makes both calls side by side, the second of a transaction that has to wait for the first one. One of them is SGT_SELF_WAIT. */
static void one_is_told(sgt_shared *shared, uint32_t (*call)(struct side *it), uint32_t (*other)(struct side *it))
{
    pthread_barrier_t turn;
    CHECK(pthread_barrier_init(&turn, 0, 2) == 0);
    struct side sides[2] = {{.shared = shared, .turn = &turn, .call = call},
                            {.shared = shared, .turn = &turn, .is_second = true, .call = other}};
    for (int i = 0; i < 2; i++) CHECK(pthread_create(&sides[i].id, 0, makes, &sides[i]) == 0);
    for (int i = 0; i < 2; i++) pthread_join(sides[i].id, 0);
    CHECK((sides[0].status == SGT_SELF_WAIT) != (sides[1].status == SGT_SELF_WAIT));
    for (int i = 0; i < 2; i++) {
        sgt_reply reply = {0};
        CHECK(sides[i].status == SGT_SELF_WAIT || sides[i].status == SGT_OK);
        sgt_shared_quit(shared, &sides[i].ticket, &reply);
        if (sides[i].more.engine) quits(shared, &sides[i].more);
    }
    CHECK(lives(shared) == 0 && pthread_barrier_destroy(&turn) == 0);
}

/* No more may be live, and each thread wants to start another one. */
static void in_a_full_engine(void)
{
    sgt_shared *shared = opened(two);
    for (int round = 0; round < ROUNDS; round++) one_is_told(shared, starts_one_more, starts_one_more);
    closes(shared);
}

/* No more may be live, one thread wants to start another one, and the other thread's commit waits for the first. */
static void beside_a_commit(void)
{
    sgt_shared *shared = opened(two);
    for (int round = 0; round < ROUNDS; round++) one_is_told(shared, starts_one_more, commits);
    closes(shared);
}

/* A cut */

struct cutter {
    pthread_t id;
    sgt_shared *shared;
    uint32_t status;
};

static void *cuts(void *of)
{
    struct cutter *it = of;
    it->status = sgt_shared_cut(it->shared, SGT_FOREVER);
    return 0;
}

/* It waits for this thread, which wants to start a transaction, and so waits for the cut. */
static void beside_a_cut(void)
{
    sgt_shared *shared = opened(eight);
    for (int round = 0; round < ROUNDS; round++) {
        const sgt_ticket mine = begins(shared);
        struct cutter cutter = {.shared = shared};
        sgt_ticket more = {0};
        sgt_reply reply = {0};
        uint32_t status = SGT_OK;
        CHECK(pthread_create(&cutter.id, 0, cuts, &cutter) == 0);
        while ((status = sgt_shared_begin(shared, SGT_FOREVER, &more, &reply)) == SGT_OK) quits(shared, &more);
        CHECK(status == SGT_SELF_WAIT);
        quits(shared, &mine);
        pthread_join(cutter.id, 0);
        CHECK(cutter.status == SGT_OK);
    }
    closes(shared);
}

/* A ticket of a part that was cut off */

/* Another thread, whose transaction writes a record, and commits when it is told to. */
struct writer {
    pthread_t id;
    sgt_shared *shared;
    pthread_barrier_t *turn;
    sgt_ticket ticket;
};

static void *commits_when_told(void *of)
{
    struct writer *it = of;
    sgt_reply reply = {0};
    it->ticket = begins(it->shared);
    writes(it->shared, &it->ticket);
    pthread_barrier_wait(it->turn);
    pthread_barrier_wait(it->turn);
    CHECK(sgt_shared_commit(it->shared, &it->ticket, SGT_FOREVER, &reply) == SGT_OK && reply.kind == SGT_COMMITTED);
    return 0;
}

/* Calls that are refused for an old ticket make no transaction of another thread one's own, though it has the same number. */
static void with_an_old_ticket(void)
{
    pthread_barrier_t turn;
    sgt_shared *shared = opened(eight);
    sgt_reply reply = {0};
    struct writer writer = {.shared = shared, .turn = &turn};
    const sgt_ticket old = begins(shared);
    quits(shared, &old);
    CHECK(pthread_barrier_init(&turn, 0, 2) == 0 && sgt_shared_cut(shared, SGT_FOREVER) == SGT_OK);
    CHECK(pthread_create(&writer.id, 0, commits_when_told, &writer) == 0);
    pthread_barrier_wait(&turn);
    const sgt_ticket mine = begins(shared);
    CHECK(writer.ticket.tid == old.tid && writer.ticket.part != old.part);
    CHECK(sgt_shared_read(shared, &mine, TABLE, 1, &reply) == SGT_OK && reply.kind == SGT_LOOKED);
    CHECK(sgt_shared_step(shared, &old, &reply) == SGT_STALE && sgt_shared_commit(shared, &old, SGT_FOREVER, &reply) == SGT_STALE);
    pthread_barrier_wait(&turn);
    CHECK(sgt_shared_commit(shared, &mine, SGT_FOREVER, &reply) == SGT_OK && reply.kind == SGT_COMMITTED);
    pthread_join(writer.id, 0);
    CHECK(pthread_barrier_destroy(&turn) == 0);
    closes(shared);
}

/* Whatever threads call */

enum { THREADS = 8, CALLS = 4000, OWN = 3, RECORDS = 4 };

/* A thread that has up to OWN transactions live while it makes other calls. All that it is told of a wait for itself is to end them. */
struct thread {
    pthread_t id;
    sgt_shared *shared;
    uint64_t drawn;
    sgt_ticket own[OWN];
    int many;
    long told;
};

static uint64_t draw(struct thread *it, uint64_t below)
{
    it->drawn = it->drawn * 6364136223846793005u + 1442695040888963407u;
    return (it->drawn >> 33) % below;
}

static void drop(struct thread *it, int at) { it->own[at] = it->own[--it->many]; }

static void end_all(struct thread *it)
{
    while (it->many > 0) {
        sgt_reply reply = {0};
        const uint32_t status = sgt_shared_quit(it->shared, &it->own[--it->many], &reply);
        CHECK(status == SGT_OK || status == SGT_STALE);
    }
}

/* Takes the status of a call that may wait: whether it is SGT_OK. */
static bool is_done(struct thread *it, uint32_t status)
{
    CHECK(status == SGT_OK || status == SGT_SELF_WAIT || status == SGT_STALE);
    if (status == SGT_SELF_WAIT) it->told++, end_all(it);
    return status == SGT_OK;
}

static void begin_one(struct thread *it)
{
    sgt_reply reply = {0};
    sgt_ticket ticket = {0};
    if (it->many == OWN) end_all(it);
    if (is_done(it, sgt_shared_begin(it->shared, SGT_FOREVER, &ticket, &reply))) it->own[it->many++] = ticket;
}

static void access_one(struct thread *it)
{
    sgt_reply reply = {0};
    if (it->many == 0) return;
    const int at = (int)draw(it, (uint64_t)it->many);
    const int64_t record = (int64_t)draw(it, RECORDS);
    const uint32_t status = draw(it, 2) ? sgt_shared_read(it->shared, &it->own[at], TABLE, record, &reply)
                                        : sgt_shared_write(it->shared, &it->own[at], TABLE, record, 1, &reply);
    CHECK(status == SGT_OK || status == SGT_STALE);
    if (status == SGT_STALE || reply.kind == SGT_ABORTED || reply.kind == SGT_OVER) drop(it, at);
}

static void commit_one(struct thread *it)
{
    sgt_reply reply = {0};
    if (it->many == 0) return;
    const int at = (int)draw(it, (uint64_t)it->many);
    const uint32_t status = sgt_shared_commit(it->shared, &it->own[at], SGT_FOREVER, &reply);
    if (is_done(it, status) || status == SGT_STALE) drop(it, at);
}

static uint32_t adds(void *context, sgt_transaction *t)
{
    const int64_t *record = context;
    int64_t had = 0;
    const uint32_t status = sgt_transaction_read(t, TABLE, *record, &had);
    if (status != SGT_OK && status != SGT_NONE) return SGT_BODY_QUIT;
    sgt_transaction_write(t, TABLE, *record, had + 1);
    return SGT_BODY_COMMIT;
}

static void run_one(struct thread *it)
{
    sgt_shared_outcome outcome = SGT_SHARED_OUTCOME;
    sgt_transact_options options = SGT_TRANSACT_OPTIONS;
    int64_t record = (int64_t)draw(it, RECORDS);
    options.tries = (uint32_t)draw(it, 3);
    if (draw(it, 3) == 0) is_done(it, sgt_shared_transact(it->shared, adds, &record, &options, &outcome));
    else is_done(it, sgt_shared_run(it->shared, draw(it, 2) ? WRITE : READ, 0, 0, 0, &outcome));
}

static void *calls(void *of)
{
    struct thread *it = of;
    for (int made = 0; made < CALLS; made++) {
        const uint64_t choice = draw(it, 100);
        if (choice < 25) begin_one(it);
        else if (choice < 60) access_one(it);
        else if (choice < 80) commit_one(it);
        else if (choice < 99) run_one(it);
        else is_done(it, sgt_shared_cut(it->shared, SGT_FOREVER));
    }
    end_all(it);
    return 0;
}

static void whatever_threads_call(unsigned seed)
{
    static struct thread threads[THREADS];
    sgt_shared *shared = opened(eight);
    long told = 0;
    for (int i = 0; i < THREADS; i++) {
        threads[i] = (struct thread){.shared = shared, .drawn = seed * 1000003u + (unsigned)i};
        CHECK(pthread_create(&threads[i].id, 0, calls, &threads[i]) == 0);
    }
    for (int i = 0; i < THREADS; i++) {
        pthread_join(threads[i].id, 0);
        told += threads[i].told;
    }
    CHECK(told > 0 && lives(shared) == 0);
    closes(shared);
}

int main(int argc, char **argv)
{
    setvbuf(stdout, 0, _IOLBF, BUFSIZ);
    alarm(LONGEST);
    in_a_full_engine();
    beside_a_commit();
    beside_a_cut();
    for (int round = 0; round < ROUNDS; round++) with_an_old_ticket();
    whatever_threads_call(argc > 1 ? (unsigned)atoi(argv[1]) : 1);
    printf("%d checks, %d failed\n", (int)checks, (int)failed);
    return failed != 0;
}
