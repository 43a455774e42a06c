/*
 * Starts and runs: when a transaction may be started, alone or not, and the turns of both. See sgt_shared.c.
 */
#ifndef SGT_STARTS_H
#define SGT_STARTS_H

#include "sgt_cuts.h"
#include "sgt_turns.h"

enum { MOST_ABORTS = 8 }; /* of a run by conflicts, before its next try is made alone: few, since each has cost a whole try */

/* A call of a procedure. */
struct call {
    uint64_t procedure;
    const int64_t *args;
    size_t count;
};

/* Whether the numbers may be a call: tested before the lock is taken, so that a wrong call never waits. */
static bool is_call(const struct call *it)
{
    return it->procedure <= MOST_PROCEDURE && it->count <= MOST_ARGS && (it->count == 0 || it->args);
}

/* The arguments, which may be a null pointer if there are none. */
static const int64_t *args_of(const struct call *it)
{
    static const int64_t none;
    return it->args ? it->args : &none;
}

/* Tries that are made alone */

/* Whether the next try is made alone, after `beside` tries beside others. */
static bool is_due_alone(sgt_shared *s, uint64_t tries, uint32_t beside)
{
    if (s->notes > 0) refresh(s);
    return sgt_desk_is_next_alone(s->note, s->notes, this_thread(), tries, beside);
}

/* Waits until a transaction may be started, alone or not. SGT_TIMED_OUT; SGT_SELF_WAIT; SGT_MISUSE in a child. */
static uint32_t await_others(sgt_shared *s, bool alone, struct deadline *until)
{
    for (bool in_time = true;;) {
        uint32_t status = await_pause(s, until);
        if (status != SGT_OK) return status;
        refresh(s);
        status = sgt_desk_admits(&s->engine, &s->solo, s->note, s->notes, this_thread(), alone, until->never);
        if (status != SGT_REST) return status;
        if (!in_time) return SGT_TIMED_OUT;
        in_time = rest(s, &s->changed, until);
        if (is_in_child(s)) return SGT_MISUSE;
    }
}

/* Makes a cut that was left, if it is due. SGT_MISUSE in a child. */
static uint32_t make_cut_left(sgt_shared *s, struct deadline *until)
{
    cut_if_due(s, until);
    return is_in_child(s) ? SGT_MISUSE : SGT_OK;
}

/*
 * Makes a cut that was left, waits until the desk may be asked for a start, and makes room for its end. Where no try is
 * alone, or is to be, none is waited for.
 */
static inline uint32_t may_start(sgt_shared *s, bool alone, struct deadline *until)
{
    uint32_t status = SGT_OK;
    s->solo.waiting += alone;
    until->is_alone = alone;
    if (s->is_cut_left) status = make_cut_left(s, until);
    if (status == SGT_OK && (s->solo.waiting > 0 || s->solo.is_live || s->plan.pauses)) status = await_others(s, alone, until);
    if (status == SGT_MISUSE) return status;
    if (status == SGT_OK && s->config.keeps_ended && !reserve(&s->queue, MOST_LIVE)) status = SGT_NO_MEMORY;
    if (alone) wait_alone_no_longer(s, until);
    return status;
}

/* The turns */

/* Makes the turns of a run. The status is that of the last one, or why it may not begin. */
static uint32_t run(sgt_shared *s, const struct call *it, struct deadline *until, sgt_run_ask *run, sgt_shared_outcome *out)
{
    uint32_t late = SGT_TIMED_OUT;
    sgt_ask before = {0};
    until->aborts = true;
    for (;;) {
        uint32_t wakes = 0, status = SGT_OK;
        if (!run->has_attempt) status = may_start(s, run->tries > 0 && is_due_alone(s, run->tries, MOST_ABORTS), until);
        if (status != SGT_OK) return status;
        const uint32_t turn = sgt_desk_run(&s->engine, &s->desk, run, it->procedure, args_of(it), it->count, time_for(&run->ask),
                                           &out->reply, &wakes);
        after_turn(s, wakes);
        out->tries = (uint32_t)run->tries;
        if (turn == SGT_OK) out->sequence = sequence_of(s, &out->reply);
        if (turn == SGT_OK && s->notes > 0) drop_ended(s, run->tid, &out->reply);
        if (turn == SGT_AGAIN) continue;
        if (turn != SGT_REST) return turn == SGT_TIMED_OUT ? late : turn;
        if (run->has_attempt) note(s, run->attempt, (uint32_t)it->procedure);
        if (run->ask.reason != SGT_WAITS_CUT && rests_anew(&run->ask, &before)) out->waits++;
        late = sleep_for(s, &run->ask, until);
        if (late == SGT_MISUSE) return late;
    }
}

/* Makes the turns of a start, alone or not. The status is that of the last one, or why it may not begin. */
static uint32_t start(sgt_shared *s, const struct call *it, bool alone, struct deadline *until, sgt_ask *ask, sgt_ticket *ticket,
                      sgt_reply *reply, uint32_t *waits)
{
    uint32_t late = SGT_TIMED_OUT;
    for (;;) {
        uint32_t wakes = 0;
        const uint32_t status = may_start(s, alone, until);
        if (status != SGT_OK) return status;
        const uint32_t turn = sgt_desk_start(&s->engine, &s->desk, ask, it->procedure, args_of(it), it->count, time_for(ask), reply, &wakes);
        after_turn(s, wakes);
        if (turn == SGT_OK && reply->kind == SGT_STARTED) {
            *ticket = ticket_of(s, reply->tid);
            note(s, reply->tid, (uint32_t)it->procedure);
        }
        if (turn != SGT_REST) return turn == SGT_TIMED_OUT ? late : turn;
        if (ask->reason == SGT_WAITS_END) ++*waits;
        late = sleep_for(s, ask, until);
        if (late == SGT_MISUSE) return late;
    }
}

#endif
