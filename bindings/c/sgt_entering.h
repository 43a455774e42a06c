/*
 * How a call enters a shared engine and leaves it, and who may: no child of a fork, and no hook of the engine itself. See sgt_shared.c.
 */
#ifndef SGT_ENTERING_H
#define SGT_ENTERING_H

#include "sgt_guard.h"
#include "sgt_state.h"

/* The engines in whose hooks this thread is, the innermost first. */
struct hook {
    sgt_shared *shared;
    struct hook *outer;
    int cancels;             /* whether the thread could be cancelled before */
    struct deadline *until;  /* of the call on whose way the hook is called, or null if that is done */
    const sgt_ended *ended;  /* what the hook is called for, or null if that is a cut */
};

/*
 * The closed engines, the oldest first. Their memory is never freed: a call that began beside the close still looks at it, and finds the
 * engine closed.
 */
struct closed {
    pthread_mutex_t lock;
    sgt_shared *first, *last;
    unsigned count;
};

static pthread_mutex_t calling = PTHREAD_MUTEX_INITIALIZER;
static _Thread_local struct hook *hooks;
static struct closed closed = {.lock = PTHREAD_MUTEX_INITIALIZER};
static atomic_uint forks;

/* Forks */

static void hold_closed(void) { pthread_mutex_lock(&closed.lock); }

static void release_closed(void) { pthread_mutex_unlock(&closed.lock); }

static void hold_all(void)
{
    hold_closed();
    pthread_mutex_lock(&calling);
}

static void release_all(void)
{
    pthread_mutex_unlock(&calling);
    release_closed();
}

/* In a child. A thread that it does not have may hold the lock of a closed engine, so none of them serves again. */
static void count_fork(void)
{
    atomic_fetch_add(&forks, 1);
    closed.first = closed.last = 0, closed.count = 0;
    release_all();
}

static void watch_forks(void) { pthread_atfork(hold_all, release_all, count_fork); }

/*
 * Whether this process was forked after the engine was opened. A child that was forked in a hook or a watch is still in
 * a call when that has returned: it has no lock, finds the engine in any state, and so ends the call with SGT_MISUSE,
 * without a look at the engine.
 */
static bool is_in_child(const sgt_shared *s)
{
    return atomic_load_explicit(&s->forks, memory_order_relaxed) != atomic_load_explicit(&forks, memory_order_relaxed);
}

/* Calls from inside a hook */

/* Whether this thread is in a hook of the engine. */
static bool is_in_hook(const sgt_shared *s)
{
    const struct hook *hook = hooks;
    while (hook && hook->shared != s) hook = hook->outer;
    return hook != 0;
}

/*
 * Begins a call from inside a hook. False if the engine waits for this thread: it is that of the hook, or a hook of it
 * calls, maybe through hooks of others, an engine in whose hook this thread is. False, too, if the hook is in another
 * call, which asks whether it is interrupted.
 */
static bool begin_call(sgt_shared *s)
{
    pthread_mutex_lock(&calling);
    const sgt_shared *at = s;
    while (at && !is_in_hook(at)) at = at->called;
    const bool may = !at && !hooks->shared->called;
    if (may) hooks->shared->called = s;
    pthread_mutex_unlock(&calling);
    return may;
}

/* Ends a call from inside a hook. */
static void end_call(void)
{
    pthread_mutex_lock(&calling);
    hooks->shared->called = 0;
    pthread_mutex_unlock(&calling);
}

/* Entering and leaving */

/* Ends a call that must not call a hook: a cut that is due is left to the next call that may. */
static inline uint32_t leave_quietly(sgt_shared *s, uint32_t status)
{
    if (is_in_child(s)) return SGT_MISUSE;
    unlock(s);
    if (hooks) end_call();
    return status;
}

/* The same for an abort. A start makes the cut first: else none would be made while all are aborted so. */
static inline uint32_t leave_cut(sgt_shared *s, uint32_t status)
{
    if (!is_in_child(s)) s->is_cut_left |= s->plan.after > 0 && s->before_cut == 0;
    return leave_quietly(s, status);
}

/*
 * Enters the engine with this number: another one may have its memory, if the thread has been held up before it has the
 * lock.
 */
static inline uint32_t enter_as(sgt_shared *s, uint64_t number)
{
    if (is_in_child(s) || (hooks && !begin_call(s))) return SGT_MISUSE;
    lock(s);
    const bool is_it = s->is_open && atomic_load_explicit(&s->number, memory_order_relaxed) == number;
    return is_it ? (uint32_t)SGT_OK : leave_quietly(s, SGT_CLOSED);
}

static inline uint32_t enter(sgt_shared *s)
{
    return s ? enter_as(s, atomic_load_explicit(&s->number, memory_order_relaxed)) : (uint32_t)SGT_CLOSED;
}

/* Enters for a call that names a transaction. */
static inline uint32_t enter_for(sgt_shared *s, const sgt_ticket *ticket)
{
    if (!s) return SGT_CLOSED;
    if (!ticket) return SGT_BAD_CALL;
    if (ticket->engine != atomic_load_explicit(&s->number, memory_order_relaxed)) return SGT_MISUSE;
    return enter_as(s, ticket->engine);
}

static void report(sgt_shared *s);
static void cut_if_due(sgt_shared *s, struct deadline *until);

static inline uint32_t leave(sgt_shared *s, uint32_t status)
{
    if (s->reports) report(s);
    if (s->plan.after && s->before_cut == 0 && !is_in_child(s)) cut_if_due(s, 0);
    return leave_quietly(s, status);
}

/* Hooks */

static void quit_abandoned(sgt_shared *s);

/* Begins the hook: a thread that is cancelled in it goes on. */
static void begin_hook(struct hook *hook)
{
    hook->outer = hooks;
    pthread_setcancelstate(PTHREAD_CANCEL_DISABLE, &hook->cancels);
    hooks = hook;
    atomic_store_explicit(&hook->shared->lock.is_hooked, true, memory_order_relaxed);
}

/* Ends it, and aborts what it has abandoned. */
static void end_hook(struct hook *hook)
{
    hooks = hook->outer;
    pthread_setcancelstate(hook->cancels, &hook->cancels);
    if (is_in_child(hook->shared)) return;
    atomic_store_explicit(&hook->shared->lock.is_hooked, false, memory_order_relaxed);
    if (hook->shared->abandons) quit_abandoned(hook->shared);
}

/* Ends a hook that does not return, and with it the call: the lock is released. */
static void break_off(void *of)
{
    struct hook *hook = of;
    end_hook(hook);
    leave_quietly(hook->shared, SGT_OK);
}

static void call_ended(void *of)
{
    const struct hook *hook = of;
    hook->shared->config.ended(hook->shared->config.context, hook->ended);
}

/* Calls the hook for the call that has just ended. All else is done, so that it need not return. */
static void report(sgt_shared *s)
{
    const sgt_ended ended = s->ended;
    struct hook hook = {.shared = s, .ended = &ended};
    s->reports = false;
    begin_hook(&hook);
    call_guarded(call_ended, break_off, &hook);
    end_hook(&hook);
}

#endif
