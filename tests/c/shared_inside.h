/*
 * What tests of a shared engine need that look inside it: they are built with its source. Checks, an engine, and what
 * it may hold when no call is under way; ways in which a function of the program leaves the call that calls it.
 */
#ifndef SHARED_INSIDE_H
#define SHARED_INSIDE_H

#include <sched.h>
#include <setjmp.h>
#include <stdio.h>
#include <sys/wait.h>
#include <unistd.h>

#include "sgt_shared.c"

static atomic_int checks, failed;
static _Thread_local const char *of_what = "elsewhere"; /* what this thread checks */

#define CHECK(holds) check((holds) != 0, #holds, __LINE__)

static void check(int holds, const char *text, int line)
{
    checks++;
    if (holds) return;
    failed++;
    printf("%s: line %d: %s\n", of_what, line, text);
    fflush(stdout);
}

#ifndef LONG_SECONDS
#define LONG_SECONDS 300 /* a deadline that only a call passes that is not woken */
#endif
#define LONG (LONG_SECONDS * SECOND)

/* An engine and its records */

enum { TABLE = 7, FIRST = 1, SECOND_RECORD = 2, WRITE = 5, READ = 6 };

/* Procedure 5 writes the first record, and 6 reads it. Two may be live. */
static const char opening[] = "{\"limits\":[2,100000,1],\"accounts\":[],\"procedures\":"
                              "[[0,[[\"put\",7,1,5]]],[0,[[\"look\",0,7,1,6]]]]}";

static inline sgt_shared *opens(const sgt_shared_config *config)
{
    const sgt_row rows[] = {{TABLE, 0, FIRST, 10}, {TABLE, 0, SECOND_RECORD, 20}};
    sgt_shared *s = 0;
    sgt_fault fault = {0};
    CHECK(sgt_shared_open(&s, opening, strlen(opening), rows, 2, config, &fault) == SGT_OK);
    return s;
}

static inline sgt_ticket begins(sgt_shared *s)
{
    sgt_ticket ticket = {0};
    sgt_reply reply = {0};
    CHECK(sgt_shared_begin(s, 0, &ticket, &reply) == SGT_OK && reply.kind == SGT_STARTED);
    return ticket;
}

static inline uint32_t reads(sgt_shared *s, const sgt_ticket *ticket, int64_t number)
{
    sgt_reply reply = {0};
    CHECK(sgt_shared_read(s, ticket, TABLE, number, &reply) == SGT_OK);
    return reply.kind;
}

static inline uint32_t writes(sgt_shared *s, const sgt_ticket *ticket, int64_t number)
{
    sgt_reply reply = {0};
    CHECK(sgt_shared_write(s, ticket, TABLE, number, 7, &reply) == SGT_OK);
    return reply.kind;
}

static inline void quits(sgt_shared *s, const sgt_ticket *ticket)
{
    sgt_reply reply = {0};
    CHECK(sgt_shared_quit(s, ticket, &reply) == SGT_OK && reply.kind == SGT_ABORTED);
}

static inline void commits(sgt_shared *s, const sgt_ticket *ticket)
{
    sgt_reply reply = {0};
    CHECK(sgt_shared_commit(s, ticket, LONG, &reply) == SGT_OK && reply.kind == SGT_COMMITTED);
}

/* Aborts what is live. How many these are. */
static inline uint64_t quits_all(sgt_shared *s)
{
    sgt_live live[MOST_LIVE];
    uint64_t count = 0;
    CHECK(sgt_shared_live(s, live, MOST_LIVE, &count) == SGT_OK);
    for (uint64_t i = 0; i < count; i++) quits(s, &live[i].ticket);
    return count;
}

static inline uint64_t lives(sgt_shared *s)
{
    uint64_t count = 77;
    CHECK(sgt_shared_live(s, 0, 0, &count) == SGT_OK);
    return count;
}

/* What is held */

static inline bool is_quiet(const struct event *event) { return event->resting == 0 && event->waking == 0; }

/* This thread is in no hook and in no question, and can be cancelled. */
static inline void thread_holds_nothing(void)
{
    int cancels = PTHREAD_CANCEL_DISABLE;
    pthread_setcancelstate(PTHREAD_CANCEL_ENABLE, &cancels);
    CHECK(!hooks && !watch.is_asking && cancels == PTHREAD_CANCEL_ENABLE);
}

/* No call is under way, and nothing of one is left. */
static inline void holds_nothing(sgt_shared *s)
{
    const bool is_free_now = pthread_mutex_trylock(&s->lock.mutex) == 0;
    CHECK(is_free_now);
    if (!is_free_now) exit(1); /* as no call would ever return */
    CHECK(!s->lock.is_held && !s->lock.is_owed && !s->lock.is_claimed && !s->lock.is_hooked);
    CHECK(s->lock.asleep == 0 && s->lock.waiting == 0 && s->lock.closing == 0);
    CHECK(is_quiet(&s->changed) && is_quiet(&s->queued) && s->draining == 0 && s->asked == 0);
    CHECK(s->cuts == 0 && s->solo.waiting == 0 && s->desk.cutters == 0 && s->desk.committing == 0);
    CHECK(!s->called && !s->abandons && !s->reports);
    for (uint32_t i = 0; i < s->notes; i++) CHECK(!s->note[i].waits && !s->note[i].rests && !s->note[i].is_abandoned);
    pthread_mutex_unlock(&s->lock.mutex);
    thread_holds_nothing();
}

/* The engine serves as if nothing had happened, and is closed. */
static inline void serves_and_closes(sgt_shared *s)
{
    sgt_shared_outcome outcome = SGT_SHARED_OUTCOME;
    sgt_run_options options = SGT_RUN_OPTIONS;
    options.wait_ns = LONG;
    quits_all(s);
    CHECK(sgt_shared_run(s, WRITE, 0, 0, &options, &outcome) == SGT_OK && outcome.reply.kind == SGT_COMMITTED);
    const sgt_ticket ticket = begins(s);
    CHECK(writes(s, &ticket, FIRST) == SGT_WROTE);
    commits(s, &ticket);
    CHECK(sgt_shared_cut(s, LONG) == SGT_OK);
    holds_nothing(s);
    CHECK(sgt_shared_close(&s) == SGT_OK);
}

/* Ways of leaving */

/* How a hook or a watch leaves the call that calls it. */
enum way {
    EXITS,  /* it ends its thread */
    JUMPS,  /* by longjmp */
    THROWS, /* an exception of C++ */
    WAYS
};

static const char *const way_names[] = {"ends its thread", "jumps", "throws"};

#ifdef WITH_CPP
void throws_one(void);
int catches_one(void (*call)(void *of), void *of);
#endif

/* Whether this program, with this C library, can leave so. */
static inline bool can_leave(enum way way)
{
#ifndef WITH_CPP
    if (way == THROWS) return false;
#endif
#ifndef __GLIBC__
    if (way == JUMPS) return false;
#endif
    return way < WAYS;
}

static _Thread_local jmp_buf place;

static inline void leave_by(enum way way)
{
    if (way == EXITS) pthread_exit(&failed);
    if (way == JUMPS) longjmp(place, 1);
#ifdef WITH_CPP
    if (way == THROWS) throws_one();
#endif
}

/* A call on a thread of its own, which it leaves. */
struct leaving {
    void (*call)(void *of);
    void *of;
    enum way way;
    bool returned;
};

static inline void makes_call(void *of)
{
    struct leaving *it = of;
    it->call(it->of);
    it->returned = true;
}

static inline void *leaves(void *of)
{
    struct leaving *it = of;
    if (it->way == EXITS) makes_call(it);
    if (it->way == JUMPS && setjmp(place) == 0) makes_call(it);
#ifdef WITH_CPP
    if (it->way == THROWS) CHECK(catches_one(makes_call, it));
#endif
    thread_holds_nothing();
    return 0;
}

/* Makes the call on another thread, and checks that it is left so. */
static inline void is_left(void (*call)(void *of), void *of, enum way way)
{
    struct leaving it = {.call = call, .of = of, .way = way};
    pthread_t thread;
    void *ended = 0;
    CHECK(pthread_create(&thread, 0, leaves, &it) == 0 && pthread_join(thread, &ended) == 0);
    CHECK(!it.returned && (way == EXITS) == (ended == &failed));
}

/* Forks */

#ifndef CHILD_SECONDS
#define CHILD_SECONDS 120 /* a child that has not ended then waits for ever */
#endif

static _Thread_local bool is_child;

/* Forks in a hook or a watch. The child goes on, and its parent when that has ended well. */
static inline void forks_once(void)
{
    int status = -1;
    fflush(stdout);
    const pid_t child = fork();
    if (child == 0) {
        is_child = true;
        alarm(CHILD_SECONDS);
        return;
    }
    CHECK(child > 0 && waitpid(child, &status, 0) == child && WIFEXITED(status) && WEXITSTATUS(status) == 0);
}

/* Ends the child: well if its call has ended so, and it is in no hook and in no question. */
static inline void ends_child(uint32_t status)
{
    if (is_child) _exit(status == SGT_MISUSE && failed == 0 && !hooks && !watch.is_asking ? 0 : 1);
}

#endif
