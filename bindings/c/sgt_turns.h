/*
 * The turns of a call, as the desk decides them: what it hands on, whom it wakes, and how its thread rests. See sgt_shared.c.
 */
#ifndef SGT_TURNS_H
#define SGT_TURNS_H

#include <stdlib.h>
#include <string.h>

#include "sgt_owners.h"
#include "sgt_resting.h"

/* Calls that ended */

/* Allocates memory for this many more calls, so that an end never allocates. */
static bool reserve(struct queue *queue, size_t more)
{
    if (queue->first + queue->count + more <= queue->capacity) return true;
    if (queue->first > 0 && queue->first >= queue->count) {
        memmove(queue->at, queue->at + queue->first, queue->count * sizeof *queue->at);
        queue->first = 0;
        return reserve(queue, more);
    }
    const size_t capacity = 2 * (queue->first + queue->count + more);
    sgt_ended *at = realloc(queue->at, capacity * sizeof *at);
    if (!at) return false;
    queue->at = at, queue->capacity = capacity;
    return true;
}

/*
 * Hands on the call that a turn has just committed or refused, if it has. The hook is called when the thread leaves, which it does in the
 * same hold of the lock.
 */
static void deliver(sgt_shared *s)
{
    sgt_ended ended = {0};
    if (sgt_desk_hand_on(&s->engine, &s->feed, &ended.call, &ended.sequence) != SGT_OK) return;
    ended.ticket = ticket_of(s, ended.call.tid);
    if (ended.call.kind == SGT_COMMITTED) sgt_wrote(&s->engine, ended.call.tid, &ended.wrote);
    if (s->config.keeps_ended) {
        s->queue.at[s->queue.first + s->queue.count++] = ended;
        announce(&s->lock, &s->queued);
    }
    if (s->config.ended) s->ended = ended, s->reports = true;
}

/* The number of the call that this reply has just committed or refused, or UINT64_MAX. */
static uint64_t sequence_of(const sgt_shared *s, const sgt_reply *reply)
{
    return reply->kind == SGT_COMMITTED || reply->kind == SGT_REFUSED ? s->desk.reported - 1 : UINT64_MAX;
}

/* Does what a turn asks for: wakes all, and hands on the call that it has committed or refused, if somebody wants it. */
static inline void after_turn(sgt_shared *s, uint32_t wakes)
{
    if (s->before_cut > 0) s->before_cut--;
    if (s->config.ended || s->config.keeps_ended) deliver(s);
    if (wakes) wake_all(s);
}

/* Calls that never rest */

/* What is asked of a transaction that was started, as by sgt_step, sgt_quit, sgt_read, sgt_write and sgt_remove. */
struct asked {
    uint32_t kind;
    uint64_t table;
    int64_t number, value;
};

static uint32_t make(sgt_shared *s, const sgt_ticket *ticket, const struct asked *it, sgt_reply *reply)
{
    uint32_t wakes = 0;
    claim(s, ticket);
    const uint32_t turn =
        sgt_desk_make(&s->engine, &s->desk, ticket->part, ticket->tid, it->kind, it->table, it->number, it->value, reply, &wakes);
    after_turn(s, wakes);
    if (turn == SGT_OK) drop_ended(s, ticket->tid, reply);
    return turn;
}

/* Aborts a transaction. This needs no memory if it is live. */
static uint32_t quit(sgt_shared *s, const sgt_ticket *ticket)
{
    sgt_reply reply = {0};
    return make(s, ticket, &(struct asked){.kind = SGT_QUIT}, &reply);
}

/* Aborts a transaction, if it is live. */
static uint32_t abandon(sgt_shared *s, const sgt_ticket *ticket)
{
    refresh(s);
    if (ticket->part != s->part) return SGT_STALE;
    if (find(s, ticket->tid)) quit(s, ticket);
    return SGT_OK;
}

/* Aborts the live transactions that a hook has abandoned. */
static void quit_abandoned(sgt_shared *s)
{
    uint32_t i = 0;
    s->abandons = false;
    refresh(s);
    while (i < s->notes) {
        const sgt_ticket ticket = ticket_of(s, s->note[i].tid);
        const bool is_abandoned = s->note[i].is_abandoned;
        s->note[i].is_abandoned = false;
        if (is_abandoned) quit(s, &ticket), refresh(s);
        i = is_abandoned ? 0 : i + 1;
    }
}

/* Calls that may rest */

/* Notes of a call that it rests. */
static void begin_rest(sgt_shared *s, sgt_ask *ask, struct deadline *until)
{
    sgt_note *it = ask->reason == SGT_WAITS_TURN ? find(s, ask->turn) : 0;
    if (it) it->waits = true;
    until->ask = ask;
    until->is_cut = until->never && ask->reason == SGT_IS_BUSY;
    s->cuts += until->is_cut;
}

/* Notes that it does not any more. */
static void end_rest(sgt_shared *s, struct deadline *until)
{
    sgt_note *it = until->ask->reason == SGT_WAITS_TURN ? find(s, until->ask->turn) : 0;
    if (it) it->waits = false;
    s->cuts -= until->is_cut;
    until->is_cut = false;
    until->ask = 0;
    if (until->never) note_rest(s, 0, 0);
}

/* Counts a call no longer among those that wait to start a try alone. */
static void wait_alone_no_longer(sgt_shared *s, struct deadline *until)
{
    until->is_alone = false;
    if (--s->solo.waiting == 0) wake_all(s);
}

/*
 * Has the desk count a call no longer, whose thread does not come back. Nothing is committed: no transaction is of the
 * next part.
 */
static void leave_desk(sgt_shared *s, sgt_ask *ask)
{
    uint32_t wakes = 0;
    sgt_reply reply = {0};
    if (ask->reason == SGT_IS_BUSY) sgt_desk_leave(&s->desk, ask, &wakes);
    if (ask->reason == SGT_WAITS_TURN) {
        sgt_desk_commit(&s->engine, &s->desk, ask, s->part + 1, ask->turn, 0, &reply, &wakes);
    }
    if (wakes) wake_all(s);
}

static void give_up(sgt_shared *s, struct deadline *until)
{
    sgt_ask *ask = until->ask;
    if (until->is_alone) wait_alone_no_longer(s, until);
    if (until->drains) atomic_fetch_sub(&s->draining, 1);
    if (!ask) return;
    const bool aborts = until->aborts && ask->reason == SGT_WAITS_TURN;
    const sgt_ticket ticket = ticket_of(s, ask->turn);
    end_rest(s, until);
    leave_desk(s, ask);
    if (aborts) abandon(s, &ticket);
}

/*
 * Has the thread sleep for the reason for which its call rests. If it is interrupted, or would wait for itself, the next turn is the last
 * one, and the status says why. SGT_MISUSE in a child that was forked meanwhile: there is no next turn.
 */
static uint32_t sleep_for(sgt_shared *s, sgt_ask *ask, struct deadline *until)
{
    if (until->never && waits_for_itself(s, ask)) {
        ask->until = SGT_AT_ONCE;
        return SGT_SELF_WAIT;
    }
    begin_rest(s, ask, until);
    rest(s, &s->changed, until);
    if (is_in_child(s)) return SGT_MISUSE;
    end_rest(s, until);
    if (until->is_over) ask->until = SGT_AT_ONCE;
    return SGT_TIMED_OUT;
}

/* Whether a call rests for another reason than when it rested before, which is noted. */
static bool rests_anew(const sgt_ask *ask, sgt_ask *before)
{
    const bool is_new =
        ask->reason != before->reason || ask->number != before->number || ask->turn != before->turn || ask->first != before->first;
    *before = *ask;
    return is_new;
}

/* Commits a transaction. The status is that of the last turn, or SGT_SELF_WAIT; SGT_MISUSE in a child. */
static uint32_t commit(sgt_shared *s, const sgt_ticket *ticket, struct deadline *until, sgt_reply *reply, uint32_t *waits)
{
    uint32_t late = SGT_TIMED_OUT;
    sgt_ask ask = asked_until(until), before = {0};
    claim(s, ticket);
    for (;;) {
        uint32_t wakes = 0;
        const uint32_t turn =
            sgt_desk_commit(&s->engine, &s->desk, &ask, ticket->part, ticket->tid, time_for(&ask), reply, &wakes);
        after_turn(s, wakes);
        if (turn == SGT_OK) drop_ended(s, ticket->tid, reply);
        if (turn == SGT_TIMED_OUT) reply->kind = SGT_WAITS, reply->tid = ask.first;
        if (turn != SGT_REST) return turn == SGT_TIMED_OUT ? late : turn;
        if (rests_anew(&ask, &before)) ++*waits;
        late = sleep_for(s, &ask, until);
        if (late == SGT_MISUSE) return late;
    }
}

#endif
