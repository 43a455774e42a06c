/*
 * What a shared engine holds in C, and a call that may rest. See sgt_shared.c, the only user of this file and of those
 * below it.
 */
#ifndef SGT_STATE_H
#define SGT_STATE_H

#include "sgt_desk.h"
#include "sgt_lock.h"
#include "sgt_shared.h"

enum { MOST_LIVE = 32, MOST_ARGS = 4, MOST_PROCEDURE = 65535 }; /* as crates/sgt_c has them */
enum { MOST_OF_TURN = 128 }; /* entries that a turn may add: those of an attempt, with 64 accesses at most, are fewer */

enum {
    WATCH = 100000000 /* nanoseconds between two questions to a thread that waits, whether it is interrupted: as often as a person notices */
};

/*
 * Until when a call may rest, and what it holds meanwhile: it gives that back itself, or give_up does if a hook or a
 * watch does not return.
 */
struct deadline {
    bool never, at_once;
    bool is_over;    /* whether the call ends now, since its thread was interrupted */
    int64_t at;
    int64_t look;    /* when its thread is asked next whether it is interrupted. 0: it has not rested yet */
    bool is_alone;   /* whether it is counted among those that wait to start a try alone */
    bool is_cut;     /* among the cuts that rest without a deadline */
    bool drains;     /* among the threads that wait for a call to drain */
    bool aborts;     /* whether the transaction that it commits ends with it */
    sgt_ask *ask;    /* what the desk counts of it, while it rests, or null */
};

/* The calls that ended and were not drained yet: `count` of them, from `first` on. */
struct queue {
    sgt_ended *at;
    size_t first, count, capacity;
};

struct sgt_shared {
    struct lock lock;            /* of all that follows */
    atomic_uint forks;           /* how many forks this process comes from, as of the opening */
    atomic_uint draining;        /* threads that wait for a call to drain */
    bool is_open;
    bool reports;                /* whether the hook has to be called for `ended` */
    struct event changed;        /* a reason to rest may have ceased */
    struct event queued;         /* a call can be drained */
    atomic_uint_fast64_t number; /* of this engine, in its tickets: looked at before the lock is taken */
    sgt_engine engine;           /* this and what follows is zero at first, up to `next` */
    sgt_desk desk;
    sgt_shared_config config;
    uint64_t part;               /* cuts so far: that of sgt_part */
    sgt_feed feed;
    sgt_solo solo;
    sgt_plan plan;
    sgt_note note[MOST_LIVE]; /* by rising numbers: of all live ones but a run's that does not rest, and of some that have ended */
    uint32_t notes;
    uint32_t cuts;               /* cuts that rest without a deadline */
    uint32_t asked;              /* threads that are asked whether they are interrupted */
    bool abandons;               /* whether a live transaction is abandoned */
    bool allows_cut;             /* whether the hook before a cut has not refused it */
    uint64_t before_cut;         /* so many turns at least have to be made before the plan's next cut is due */
    bool is_cut_left;            /* whether an abort that calls no hook has left a cut that may be due */
    struct queue queue;
    sgt_ended ended;
    sgt_shared *next;            /* of those that are closed */
    sgt_shared *called;          /* the engine that a hook of this one calls, or null. `calling` is its lock */
};

/* What asks this thread while it waits, whether it is interrupted. */
struct watch {
    uint32_t (*interrupted)(void *context);
    void *context;
    bool is_asking;
};

static _Thread_local struct watch watch;
static _Thread_local uint64_t own_number;
static atomic_uint_fast64_t threads;

/* The number of this thread. No other thread ever has it. */
static uint64_t this_thread(void)
{
    if (own_number == 0) own_number = atomic_fetch_add(&threads, 1) + 1;
    return own_number;
}

static sgt_ticket ticket_of(const sgt_shared *s, uint32_t tid) { return (sgt_ticket){s->number, s->part, tid, 0}; }

static inline void lock(sgt_shared *s) { take_lock(&s->lock); }

static inline void unlock(sgt_shared *s) { release_lock(&s->lock); }

/* Deadlines */

static inline struct deadline deadline_in(int64_t ns)
{
    struct deadline until = {.never = ns == SGT_FOREVER, .at_once = ns <= 0, .at = INT64_MAX};
    if (!until.never) until.at = in_ns(ns);
    return until;
}

/* A call of the desk with this deadline, before its first turn. */
static inline sgt_ask asked_until(const struct deadline *until)
{
    return (sgt_ask){.until = until->never ? SGT_FOR_EVER : until->at_once ? SGT_AT_ONCE : SGT_UNTIL, .deadline = (uint64_t)until->at};
}

/* The time for a turn, if the call has a deadline. */
static inline uint64_t time_for(const sgt_ask *ask) { return ask->until == SGT_UNTIL ? (uint64_t)now() : 0; }

#endif
