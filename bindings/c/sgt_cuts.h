/*
 * Cuts of the history: their turns, and those that the configuration asks for. See sgt_shared.c.
 */
#ifndef SGT_CUTS_H
#define SGT_CUTS_H

#include "sgt_owners.h"
#include "sgt_resting.h"

static uint64_t entries(sgt_shared *s)
{
    uint64_t count = 0;
    sgt_entries(&s->engine, &count);
    return count;
}

/* Puts the next cut off: after one, or where one failed. */
static void put_off(sgt_shared *s)
{
    uint32_t wakes = 0;
    sgt_desk_put_off(&s->engine, &s->plan, &wakes);
    if (wakes) wake_all(s);
}

/* The same for a cut whose hook does not return. A call on whose way it was is given up. */
static void break_cut_off(void *of)
{
    struct hook *hook = of;
    if (!is_in_child(hook->shared)) put_off(hook->shared);
    if (!is_in_child(hook->shared) && hook->until) give_up(hook->shared, hook->until);
    break_off(hook);
}

static void call_cutting(void *of)
{
    sgt_shared *s = ((struct hook *)of)->shared;
    s->config.cutting(s->config.context, &s->engine, s->part);
}

/* Calls the hook before a cut. */
static void report_cut(sgt_shared *s, struct deadline *until)
{
    struct hook hook = {.shared = s, .until = until};
    s->allows_cut = s->config.asks_to_cut != 1;
    begin_hook(&hook);
    call_guarded(call_cutting, break_cut_off, &hook);
    end_hook(&hook);
}

/* A turn of a cut. The hook is called before, if it will be made: SGT_MISUSE in a child that was forked there. */
static uint32_t cut_turn(sgt_shared *s, sgt_ask *ask, struct deadline *until)
{
    uint32_t wakes = 0, cuts = 0;
    sgt_desk_cuts(&s->engine, &s->desk, ask, &cuts);
    if (cuts && s->config.cutting) {
        sgt_desk_leave(&s->desk, ask, &wakes);
        report_cut(s, until);
        if (is_in_child(s)) return SGT_MISUSE;
        if (!s->allows_cut) return put_off(s), SGT_NONE;
    }
    const uint32_t turn = sgt_desk_cut(&s->engine, &s->desk, ask, time_for(ask), &wakes);
    if (turn == SGT_OK && cuts) {
        sgt_part(&s->engine, &s->part);
        s->notes = 0;
        put_off(s);
    }
    if (wakes) wake_all(s);
    return turn;
}

/*
 * Makes the cut that the configuration asks for, if it is due, or has starts wait for it: on the way of the call with
 * this deadline, if any.
 */
static void cut_if_due(sgt_shared *s, struct deadline *until)
{
    uint32_t wakes = 0, cut = SGT_OK;
    sgt_ask ask = {.until = SGT_AT_ONCE};
    s->is_cut_left = false;
    const uint32_t next = sgt_desk_plan(&s->engine, &s->desk, &s->plan, (uint64_t)now(), &wakes);
    if (wakes) wake_all(s);
    if (next == SGT_AGAIN) cut = cut_turn(s, &ask, until);
    if (is_in_child(s)) return;
    if (cut != SGT_OK) put_off(s);
    const uint64_t count = entries(s);
    s->before_cut = count < s->plan.at ? (s->plan.at - count) / MOST_OF_TURN : 0;
}

/*
 * Rests while starts wait for a cut that is due, until the deadline or the end of their wait. Whether the deadline has
 * come.
 */
static bool rest_in_pause(sgt_shared *s, struct deadline *until)
{
    const int64_t own = until->at, pause = s->plan.pause < INT64_MAX ? (int64_t)s->plan.pause : INT64_MAX;
    until->at = own < pause ? own : pause;
    const bool in_time = rest(s, &s->changed, until);
    until->at = own;
    return until->is_over || (!in_time && own < pause);
}

/* Waits while starts wait for a cut that is due. SGT_TIMED_OUT; SGT_MISUSE in a child. */
static uint32_t await_pause(sgt_shared *s, struct deadline *until)
{
    bool is_late = false;
    while (s->plan.pauses && !is_late) {
        cut_if_due(s, until);
        if (!is_in_child(s) && s->plan.pauses) is_late = rest_in_pause(s, until);
        if (is_in_child(s)) return SGT_MISUSE;
    }
    return s->plan.pauses ? SGT_TIMED_OUT : SGT_OK;
}

#endif
