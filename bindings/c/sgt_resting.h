/*
 * How the thread of a call rests, and is asked meanwhile whether it is interrupted. See sgt_shared.c.
 */
#ifndef SGT_RESTING_H
#define SGT_RESTING_H

#include "sgt_entering.h"

/* A question to this thread. */
struct asking {
    sgt_shared *shared;
    struct deadline *until; /* of the call that rests */
    int cancels;            /* whether the thread could be cancelled before */
    bool is_over;
};

/* Gives back what the call holds, as its thread does not come back to it. */
static void give_up(sgt_shared *s, struct deadline *until);

static void ask_watch(void *of)
{
    struct asking *it = of;
    it->is_over = watch.interrupted(watch.context) != 0;
}

/* Ends the question, and takes the lock again: but for a child that was forked in it. */
static void end_asking(struct asking *it)
{
    watch.is_asking = false;
    pthread_setcancelstate(it->cancels, &it->cancels);
    if (is_in_child(it->shared)) return;
    lock(it->shared);
    it->shared->asked--;
}

/* Ends the question where the watch does not return, and with it the call. */
static void break_asking(void *of)
{
    struct asking *it = of;
    end_asking(it);
    if (!is_in_child(it->shared)) give_up(it->shared, it->until);
    leave_quietly(it->shared, SGT_OK);
}

/* Asks this thread without the lock, whether it is interrupted. A thread that is cancelled meanwhile goes on. */
static bool is_interrupted(sgt_shared *s, struct deadline *until)
{
    struct asking it = {.shared = s, .until = until};
    s->asked++;
    unlock(s);
    pthread_setcancelstate(PTHREAD_CANCEL_DISABLE, &it.cancels);
    watch.is_asking = true;
    call_guarded(ask_watch, break_asking, &it);
    end_asking(&it);
    return it.is_over;
}

/*
 * Releases the lock until the event is announced. Whether the deadline has not come, and the thread is not interrupted.
 *
 * The next question comes at its time however often the event is announced before. A child that was forked in it has no
 * lock afterwards: it touches nothing of the engine, so each caller asks is_in_child first.
 */
static bool rest(sgt_shared *s, struct event *event, struct deadline *until)
{
    const uint64_t count = event->count;
    while (!until->is_over && watch.interrupted && !watch.is_asking) {
        if (until->look == 0) until->look = in_ns(WATCH);
        if (until->at < until->look) break;
        if (now() < until->look && doze(&s->lock, event, until->look)) return true;
        until->is_over = is_interrupted(s, until);
        until->look = in_ns(WATCH);
        if (is_in_child(s)) return false;
        if (event->count != count) return true;
    }
    return !until->is_over && doze(&s->lock, event, until->at);
}

#endif
