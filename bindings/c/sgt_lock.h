/*
 * The lock of a shared engine, with its line. See sgt_shared.c, its only user.
 *
 * A run takes less than a microsecond, which is less than it takes to move the lock and the engine's memory to another processor, or to
 * wake a thread. So a thread that comes back for the lock takes it again, though others wait: they sleep, in the order in which they came,
 * and only the first of them looks from time to time. When it has waited long the lock is owed to it, and others leave it alone.
 */
#ifndef SGT_LOCK_H
#define SGT_LOCK_H

#include <pthread.h>
#include <stdalign.h>
#include <stdatomic.h>
#include <stdbool.h>
#include <stdint.h>
#include <time.h>

enum {
    MOST_SPIN = 5000,    /* nanoseconds for which a thread looks whether the lock is free, before it sleeps: longer than most runs take */
    PATIENCE = 200,      /* nanoseconds for which the lock has to stay free then: its last holder may be about to come back */
    LOOK = 1000,         /* nanoseconds of a look of the first of those that wait: it must not cost the holder much */
    NAP = 50000,         /* nanoseconds for which the first of those that wait sleeps between two looks: about the least that a sleep takes */
    MOST_NAPS = 16,      /* so often it sleeps, about a millisecond. Then the lock is owed to it, so that it does not wait for ever */
    MOST_PASSED = 500,   /* so often others come first while a thread that has rested waits for the lock. Then the lock is owed to it */
    TURNS = 16,          /* threads that wait are woken one by one, if they are not more than these: more conditions cost memory */
    APART = 128          /* bytes from what one thread writes to what another does: processors fetch two cache lines at once */
};

#define SECOND INT64_C(1000000000)

/* Those that wait for the lock, in the order in which they came. */
struct line {
    pthread_mutex_t lock;
    pthread_cond_t turns[TURNS]; /* each waits at that of its ticket */
    uint64_t tickets;            /* so many have come */
    uint64_t first;              /* the ticket of the first that waits */
};

struct lock {
    alignas(APART) atomic_bool is_held; /* whether the lock is, to look at before trying it */
    atomic_bool is_owed;         /* whether the lock is owed to a thread that has rested */
    atomic_bool is_claimed;      /* whether it is owed to the first that waits in line */
    atomic_uint asleep;          /* threads that have rested, and sleep for the lock */
    atomic_uint waiting;         /* threads that wait for the lock and have not rested */
    atomic_uint closing;         /* threads that close: while there are any, those that have not rested leave the lock alone */
    atomic_bool is_hooked;       /* whether the thread that holds the lock is in a hook */
    alignas(APART) struct line line;
    alignas(APART) pthread_mutex_t mutex; /* of all that follows, and of all that the lock is for */
    unsigned passed;             /* how often others came first while a thread slept for the lock */
};

/* What threads rest for until it is announced. */
struct event {
    pthread_cond_t announced;
    uint64_t count;          /* how often it was, also where nobody rested for it */
    uint32_t resting;        /* threads that rest for it */
    uint32_t waking;         /* those of them to whom it was announced, so that they sleep for the lock */
};

/* Time */

static int64_t now(void)
{
    struct timespec at;
    clock_gettime(CLOCK_MONOTONIC, &at);
    return (int64_t)at.tv_sec * SECOND + at.tv_nsec;
}

static inline struct timespec timespec_of(int64_t at)
{
    return (struct timespec){(time_t)(at / SECOND), (long)(at % SECOND)};
}

/* The time after this many nanoseconds. */
static int64_t in_ns(int64_t ns)
{
    const int64_t at = now();
    if (ns <= 0) return at;
    return ns > INT64_MAX - at ? INT64_MAX : at + ns;
}

/* The lock */

static inline bool try_lock(struct lock *l)
{
    if (pthread_mutex_trylock(&l->mutex) != 0) return false;
    atomic_store_explicit(&l->is_held, true, memory_order_relaxed);
    return true;
}

/* Counts out a thread that slept for the lock and now holds it. */
static void wake(struct lock *l)
{
    atomic_fetch_sub_explicit(&l->asleep, 1, memory_order_relaxed);
    atomic_store_explicit(&l->is_owed, false, memory_order_relaxed);
    l->passed = 0;
}

/* Leaves the processor to the thread that shares it, for a moment. */
static void relax(void)
{
#if defined(__x86_64__) || defined(__i386__)
    __builtin_ia32_pause();
#elif defined(__aarch64__)
    __asm__ volatile("yield");
#endif
}

/* Whether the lock looks free for a thread that is owed it, or not. */
static inline bool is_free(const struct lock *l, bool claims)
{
    return !atomic_load_explicit(&l->is_held, memory_order_relaxed) && !atomic_load_explicit(&l->is_owed, memory_order_relaxed)
        && atomic_load_explicit(&l->closing, memory_order_relaxed) == 0
        && (claims || !atomic_load_explicit(&l->is_claimed, memory_order_relaxed));
}

/* Watches for this many nanoseconds whether the lock is free, and stays so for a moment. Returns whether it holds the lock. */
static bool look_out(struct lock *l, int64_t ns, bool claims)
{
    const int64_t begin = now();
    int64_t since = INT64_MAX; /* when it was found free */
    for (int64_t at = begin; at - begin < ns; at = now()) {
        if (!is_free(l, claims)) since = INT64_MAX;
        else if (since == INT64_MAX) since = at;
        if (since != INT64_MAX && (claims || at - since >= PATIENCE) && try_lock(l)) return true;
        relax();
    }
    return false;
}

/*
 * Waits for the condition, or until then, unless that is null. A thread that is cancelled meanwhile goes on, as nobody else would release
 * what it holds.
 */
static int wait_for(pthread_cond_t *condition, pthread_mutex_t *lock, const struct timespec *until)
{
    int cancels = 0;
    pthread_setcancelstate(PTHREAD_CANCEL_DISABLE, &cancels);
    const int failed = until ? pthread_cond_timedwait(condition, lock, until) : pthread_cond_wait(condition, lock);
    pthread_setcancelstate(cancels, &cancels);
    return failed;
}

/* Waits in line for the lock. */
static void line_up(struct lock *l)
{
    struct line *line = &l->line;
    pthread_mutex_lock(&line->lock);
    const uint64_t ticket = line->tickets++;
    pthread_cond_t *turn = &line->turns[ticket % TURNS];
    while (ticket != line->first) wait_for(turn, &line->lock, 0);
    for (unsigned naps = 0; !look_out(l, naps > MOST_NAPS ? MOST_SPIN : LOOK, naps > MOST_NAPS); naps++) {
        if (naps >= MOST_NAPS) atomic_store_explicit(&l->is_claimed, true, memory_order_relaxed);
        const struct timespec end = timespec_of(in_ns(NAP));
        if (naps != MOST_NAPS) wait_for(turn, &line->lock, &end);
    }
    atomic_store_explicit(&l->is_claimed, false, memory_order_relaxed);
    line->first++;
    pthread_cond_broadcast(&line->turns[line->first % TURNS]);
    pthread_mutex_unlock(&line->lock);
}

/* Wakes the first that waits in line: this thread is about to rest, and does not come back soon. */
static void beckon(struct lock *l)
{
    if (atomic_load_explicit(&l->waiting, memory_order_relaxed) == 0) return;
    pthread_mutex_lock(&l->line.lock);
    pthread_cond_broadcast(&l->line.turns[l->line.first % TURNS]);
    pthread_mutex_unlock(&l->line.lock);
}

/* Waits for the lock. */
static void await_lock(struct lock *l)
{
    const bool is_alone = atomic_fetch_add_explicit(&l->waiting, 1, memory_order_relaxed) == 0;
    if (!is_alone || !look_out(l, MOST_SPIN, false)) line_up(l);
    atomic_fetch_sub_explicit(&l->waiting, 1, memory_order_relaxed);
}

/* Takes the lock: at once if it is free. */
static inline void take_lock(struct lock *l)
{
    if (!is_free(l, false) || !try_lock(l)) await_lock(l);
}

/* Sleeps for a moment. A thread that is cancelled meanwhile goes on. */
static void nap(void)
{
    const struct timespec moment = {0, NAP};
    int cancels = 0;
    pthread_setcancelstate(PTHREAD_CANCEL_DISABLE, &cancels);
    nanosleep(&moment, 0);
    pthread_setcancelstate(cancels, &cancels);
}

/*
 * Takes the lock to close the engine, before all that have not rested. Whether it did: it does not wait for a hook, which may wait for
 * this thread. Else the lock is released soon, and only threads that had looked before, or have rested, take it meanwhile, once each.
 */
static bool lock_to_close(struct lock *l)
{
    bool has = false;
    atomic_fetch_add_explicit(&l->closing, 1, memory_order_relaxed);
    while (!(has = try_lock(l)) && !atomic_load_explicit(&l->is_hooked, memory_order_relaxed)) nap();
    atomic_fetch_sub_explicit(&l->closing, 1, memory_order_relaxed);
    return has;
}

/* Counts a call that came before those of threads that sleep for the lock. */
static void pass(struct lock *l)
{
    if (atomic_load_explicit(&l->asleep, memory_order_relaxed) == 0) return;
    if (++l->passed == MOST_PASSED) atomic_store_explicit(&l->is_owed, true, memory_order_relaxed);
}

static inline void release_lock(struct lock *l)
{
    pass(l);
    atomic_store_explicit(&l->is_held, false, memory_order_relaxed);
    pthread_mutex_unlock(&l->mutex);
}

/* Releases the lock until the event is announced, or until then, unless that is INT64_MAX. Whether the time has not come. */
static bool doze(struct lock *l, struct event *event, int64_t until)
{
    const uint64_t count = event->count;
    const struct timespec end = timespec_of(until);
    event->resting++;
    beckon(l);
    atomic_store_explicit(&l->is_held, false, memory_order_relaxed);
    const int failed = wait_for(&event->announced, &l->mutex, until == INT64_MAX ? 0 : &end);
    atomic_store_explicit(&l->is_held, true, memory_order_relaxed);
    event->resting--;
    if (event->count != count) event->waking--, wake(l);
    return !failed;
}

/*
 * Wakes all who rest for the event. From now on they sleep for the lock. It is counted in each case: a thread that is
 * asked whether it is interrupted does not rest meanwhile, and sees by the count that it has to look again.
 */
static void announce(struct lock *l, struct event *event)
{
    event->count++;
    if (event->resting == event->waking) return;
    atomic_fetch_add_explicit(&l->asleep, event->resting - event->waking, memory_order_relaxed);
    event->waking = event->resting;
    pthread_cond_broadcast(&event->announced);
}

/* Makes the lock, free. */
static void make_lock(struct lock *l, const pthread_condattr_t *attributes)
{
    pthread_mutex_init(&l->mutex, 0);
    pthread_mutex_init(&l->line.lock, 0);
    for (unsigned i = 0; i < TURNS; i++) pthread_cond_init(&l->line.turns[i], attributes);
}

#endif
