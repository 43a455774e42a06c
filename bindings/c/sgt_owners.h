/*
 * Which thread each live transaction is of, and why that rests: what C notes for sgt_shared_live, and for the proved call that finds
 * out whether a call waits for itself. See sgt_shared.c.
 */
#ifndef SGT_OWNERS_H
#define SGT_OWNERS_H

#include <string.h>

#include "sgt_state.h"

/* Notes */

/* Drops the notes of those that have ended: who is live is what the engine says. */
static void refresh(sgt_shared *s)
{
    uint32_t tids[MOST_LIVE], kept = 0;
    uint64_t count = 0, at = 0;
    sgt_live_tids(&s->engine, tids, &count);
    for (uint32_t i = 0; i < s->notes; i++) {
        while (at < count && tids[at] < s->note[i].tid) at++;
        if (at < count && tids[at] == s->note[i].tid) s->note[kept++] = s->note[i];
    }
    s->notes = kept;
}

static sgt_note *find(sgt_shared *s, uint32_t tid)
{
    uint32_t i = s->notes;
    while (i > 0 && s->note[i - 1].tid != tid) i--;
    return i > 0 ? &s->note[i - 1] : 0;
}

/* Notes that this thread makes a call for a transaction. A ticket of another part names none: its number may be another thread's by now. */
static void claim(sgt_shared *s, const sgt_ticket *ticket)
{
    sgt_note *it = ticket->part == s->part ? find(s, ticket->tid) : 0;
    if (it) it->thread = this_thread(), it->rests = 0;
}

/* Begins the note of a live transaction of this thread, if it has none. */
static void note(sgt_shared *s, uint32_t tid, uint32_t procedure)
{
    if (find(s, tid)) return;
    if (s->notes == MOST_LIVE) refresh(s);
    if (s->notes == MOST_LIVE) return;
    uint32_t i = s->notes++;
    for (; i > 0 && s->note[i - 1].tid > tid; i--) s->note[i] = s->note[i - 1];
    s->note[i] = (sgt_note){.tid = tid, .procedure = procedure, .thread = this_thread(), .since = now()};
}

/* Drops the note of a transaction, if it has one. */
static void drop(sgt_shared *s, uint32_t tid)
{
    sgt_note *it = find(s, tid);
    if (!it) return;
    memmove(it, it + 1, (size_t)(&s->note[s->notes] - (it + 1)) * sizeof *it);
    s->notes--;
}

/* The same, if its reply says that it has ended. Others may have ended with it: their notes stay for a while. */
static inline void drop_ended(sgt_shared *s, uint32_t tid, const sgt_reply *reply)
{
    const uint32_t kind = reply->kind;
    if (kind == SGT_COMMITTED || kind == SGT_ABORTED || kind == SGT_REFUSED || kind == SGT_OVER) drop(s, tid);
}

/* Who waits for whom */

/* Notes of all transactions of this thread why it rests without a deadline, or that it does not: 0. */
static void note_rest(sgt_shared *s, uint32_t reason, uint32_t first)
{
    for (uint32_t i = 0; i < s->notes; i++) {
        if (s->note[i].thread == this_thread()) s->note[i].rests = reason, s->note[i].first = first;
    }
}

/* Wakes all that rest. Each will find out whether it rests again, so it is not noted that it does. */
static void wake_all(sgt_shared *s)
{
    for (uint32_t i = 0; i < s->notes; i++) s->note[i].rests = 0;
    announce(&s->lock, &s->changed);
}

/*
 * Whether a call that rests without a deadline, for this reason, waits for a transaction of its own thread, maybe through others that rest
 * so too. If it does not, this is noted of its thread until it is woken.
 */
static bool waits_for_itself(sgt_shared *s, const sgt_ask *ask)
{
    const bool is_cut = ask->reason == SGT_IS_BUSY;
    refresh(s);
    note_rest(s, ask->reason, ask->first);
    const bool is_stuck = sgt_desk_waits_for_itself(s->note, s->notes, this_thread(), is_cut || s->cuts > 0, is_cut);
    if (is_stuck) note_rest(s, 0, 0);
    return is_stuck;
}

#endif
