/*
 * sgt_desk: the decisions of an engine that threads share. sgt_shared.c alone uses it; programs use sgt_shared.h.
 *
 * Each of these calls is proved, in crates/sgt_c/src/shared over crates/sgt_desk. It makes one turn of a call of a thread, under the lock
 * of that thread's program, and never waits. Its status says what comes next:
 *
 *   SGT_OK          the call is done; its reply is written
 *   SGT_REST        the thread sleeps until all are woken or its deadline comes, and then makes the next turn with the same struct
 *   SGT_TIMED_OUT   the deadline has come; nothing of a run is left live
 *   SGT_AGAIN       the thread makes the next turn at once
 *   SGT_STALE       the ticket names a transaction of a part of the history that was cut off
 *   SGT_NO_MEMORY, SGT_CLOSED, SGT_BAD_CALL, SGT_BUSY as in sgt.h
 *
 * `wakes` becomes 1 if all that sleep have to be woken, and else stays. A call that its thread gives up needs one more turn, with SGT_AT_ONCE,
 * so that it is no longer counted.
 */
#ifndef SGT_DESK_H
#define SGT_DESK_H

#include "sgt.h"

enum { SGT_REST = 32, SGT_AGAIN = 33 };

/* Until when a call rests. */
enum { SGT_FOR_EVER = 0, SGT_AT_ONCE = 1, SGT_UNTIL = 2 };

/* Why it rests. */
enum {
    SGT_WAITS_TURN = 1, /* the commit of `turn` waits for `first` */
    SGT_IS_FULL = 2,    /* `number` are live: as many as the limits allow */
    SGT_WAITS_END = 3,  /* no transaction has ended since `ended` was `number` */
    SGT_IS_BUSY = 4,    /* the history may not be cut yet */
    SGT_WAITS_CUT = 5   /* a call waits for a cut */
};

/* What the threads of an engine know of each other. All bytes are zero at first. */
typedef struct sgt_desk {
    uint64_t ended;      /* how often a transaction has ended */
    uint64_t reported;   /* how many calls were committed or refused */
    uint64_t committing; /* commits that rest */
    uint64_t cutters;    /* calls that wait for a cut */
} sgt_desk;

/* A call under way. All bytes but those of `until` and `deadline` are zero before its first turn. */
typedef struct sgt_ask {
    uint32_t until, reason;
    uint64_t deadline;   /* in nanoseconds of the clock that gives `now` */
    uint64_t number;
    uint32_t turn, first;
    uint32_t is_counted, spare;
} sgt_ask;

/* A run under way. */
typedef struct sgt_run_ask {
    sgt_ask ask;
    uint64_t tries, most; /* attempts that were begun, and that may be */
    uint64_t part;        /* the newest attempt, if there is one */
    uint32_t tid, has_ticket;
    uint32_t attempt, has_attempt; /* the attempt that rests in its commit, if one does */
} sgt_run_ask;

/* Cuts that the configuration asks for. All bytes are zero if it asks for none. */
typedef struct sgt_plan {
    uint64_t after;      /* how many entries after the last one, or after one was put off. 0: never */
    uint64_t patience;   /* nanoseconds for which starts wait for one that is due. 0: they do not */
    uint64_t at;         /* so many entries make one due */
    uint64_t pause;      /* until when starts wait, if `pauses` is 1 */
    uint32_t pauses, spare;
} sgt_plan;

/* Tries that are made alone. All bytes are zero at first. */
typedef struct sgt_solo {
    uint64_t waiting;    /* calls that wait to start one */
    uint32_t is_live, spare; /* 1: the live transaction is one */
} sgt_solo;

/* Up to where calls were handed on. All bytes are zero at first. */
typedef struct sgt_feed {
    uint64_t part, read; /* the part of the history, and the position in it */
    uint64_t count;      /* how many calls were handed on */
} sgt_feed;

/* What is noted of a transaction that was live between two calls, and may have ended since. The engine knows who is live. */
typedef struct sgt_note {
    uint32_t tid;
    uint32_t procedure;
    uint32_t waits;        /* 1: a thread waits in its commit */
    uint32_t is_abandoned; /* 1: it is aborted as soon as the hook that abandoned it has returned */
    uint32_t rests;        /* why its thread rests without a deadline: the reason of an sgt_ask. 0: it does not */
    uint32_t first;        /* the transaction that its thread waits for, if that is SGT_WAITS_TURN */
    uint64_t thread;       /* that made the last call for it */
    int64_t since;
} sgt_note;

#pragma GCC visibility push(hidden)

uint32_t sgt_desk_start(sgt_engine *engine, sgt_desk *desk, sgt_ask *ask, uint64_t procedure, const int64_t *args, size_t count, uint64_t now,
                        sgt_reply *reply, uint32_t *wakes);
uint32_t sgt_desk_commit(sgt_engine *engine, sgt_desk *desk, sgt_ask *ask, uint64_t part, uint32_t tid, uint64_t now, sgt_reply *reply,
                         uint32_t *wakes);
uint32_t sgt_desk_run(sgt_engine *engine, sgt_desk *desk, sgt_run_ask *run, uint64_t procedure, const int64_t *args, size_t count,
                      uint64_t now, sgt_reply *reply, uint32_t *wakes);
uint32_t sgt_desk_cut(sgt_engine *engine, sgt_desk *desk, sgt_ask *ask, uint64_t now, uint32_t *wakes);

/* `cuts` is 1 if the next turn of this cut would cut the history off. */
uint32_t sgt_desk_cuts(sgt_engine *engine, const sgt_desk *desk, const sgt_ask *ask, uint32_t *cuts);

/* Gives a cut up. */
void sgt_desk_leave(sgt_desk *desk, sgt_ask *ask, uint32_t *wakes);

/* Asks an event of a transaction that never rests: SGT_STEP, SGT_QUIT, SGT_READ, SGT_WRITE or SGT_REMOVE. */
uint32_t sgt_desk_make(sgt_engine *engine, sgt_desk *desk, uint64_t part, uint32_t tid, uint32_t kind, uint64_t table, int64_t number,
                       int64_t value, sgt_reply *reply, uint32_t *wakes);

/*
 * 1 if a call of this thread, which rests without a deadline as the notes say, waits for itself: for transactions that never end, since each
 * waits for another of them. `cuts` is 1 if a cut rests without a deadline, `is_cut` 1 if it is this call. The notes are at most 32.
 */
uint32_t sgt_desk_waits_for_itself(const sgt_note *notes, size_t count, uint64_t thread, uint32_t cuts, uint32_t is_cut);

/*
 * What the plan asks for: SGT_OK nothing, SGT_AGAIN a cut, which can be made now, SGT_REST that starts wait until `pause`. It puts a cut off
 * for which they have waited long enough.
 */
uint32_t sgt_desk_plan(sgt_engine *engine, const sgt_desk *desk, sgt_plan *plan, uint64_t now, uint32_t *wakes);

/* Puts the next cut off until the history has as many more entries as the plan says: after a cut, or where one failed. */
uint32_t sgt_desk_put_off(sgt_engine *engine, sgt_plan *plan, uint32_t *wakes);

/* 1 if a conflict has ended a try whose last reply this is, so that it is made again. */
uint32_t sgt_desk_is_undone(const sgt_reply *reply);

/* 1 if a call that has made this many tries makes the next one alone: it makes `beside` beside others. The notes are of live transactions. */
uint32_t sgt_desk_is_next_alone(const sgt_note *notes, size_t count, uint64_t thread, uint64_t tries, uint64_t beside);

/*
 * Whether a transaction may be started, alone or not: SGT_OK; SGT_REST if it waits for others; SGT_SELF_WAIT if that would be for ever, while
 * its thread has a live transaction. The notes are of live transactions.
 */
uint32_t sgt_desk_admits(sgt_engine *engine, sgt_solo *solo, const sgt_note *notes, size_t count, uint64_t thread, uint32_t alone,
                         uint32_t for_ever);

/* Hands on the next call that was committed or refused, with its number. SGT_NONE if there is none yet. */
uint32_t sgt_desk_hand_on(sgt_engine *engine, sgt_feed *feed, sgt_call *call, uint64_t *number);

#pragma GCC visibility pop

#endif
