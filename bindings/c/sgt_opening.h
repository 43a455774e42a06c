/*
 * Making a shared engine and closing it: its memory serves another one only long after, for threads that still look at it. See sgt_shared.c.
 */
#ifndef SGT_OPENING_H
#define SGT_OPENING_H

#include <stddef.h>
#include <stdlib.h>
#include <string.h>

#include "sgt_entering.h"

enum { SET_ASIDE = 64 }; /* engines that have to be closed after one before its memory serves another: a late call has long returned */

/* Of a cut that nobody has asked for. */
enum {
    LEAST_PART = 1000000,  /* entries before it, at least: some 24 megabytes, and a second of work */
    ENTRIES_OF_RECORD = 4  /* entries for each record: a cut goes through all records, and should cost less than what is between two */
};

static atomic_uint_fast64_t opened; /* engines so far */

/* Copies as much of the caller's configuration as it has. */
static bool configured(sgt_shared_config *to, const sgt_shared_config *from)
{
    if (!from) return true;
    if (from->size < sizeof *from) return false;
    *to = *from;
    return true;
}

/* A closed engine with its locks, in new memory. */
static sgt_shared *allocated(void)
{
    sgt_shared *s = aligned_alloc(alignof(sgt_shared), sizeof *s);
    pthread_condattr_t attributes;
    if (!s) return 0;
    memset(s, 0, sizeof *s);
    pthread_condattr_init(&attributes);
    pthread_condattr_setclock(&attributes, CLOCK_MONOTONIC);
    make_lock(&s->lock, &attributes);
    pthread_cond_init(&s->changed.announced, &attributes);
    pthread_cond_init(&s->queued.announced, &attributes);
    pthread_condattr_destroy(&attributes);
    return s;
}

/* Whether a thread waits for the lock that has not rested, or that waits to drain. */
static bool is_awaited(sgt_shared *s)
{
    return atomic_load(&s->lock.waiting) > 0 || atomic_load(&s->lock.closing) > 0 || atomic_load(&s->draining) > 0;
}

/* The memory of an engine that was closed long ago, and for whose lock no thread waits, or null. */
static sgt_shared *reused(void)
{
    sgt_shared *s = 0;
    hold_closed();
    if (closed.count > SET_ASIDE && !is_awaited(closed.first)) s = closed.first, closed.first = s->next, closed.count--;
    release_closed();
    return s;
}

/* Sets the memory of a closed engine aside. */
static void set_aside(sgt_shared *s)
{
    hold_closed();
    s->next = 0;
    if (closed.count++ > 0) closed.last->next = s;
    else closed.first = s;
    closed.last = s;
    release_closed();
}

/* After how many entries the history is cut, if the configuration does not say: not where somebody may want to read it. */
static uint64_t default_cut(const sgt_shared_config *config, const sgt_engine *engine)
{
    uint64_t records = 0;
    if (config->ended || config->cutting || config->keeps_ended) return 0;
    sgt_records(engine, &records);
    return records > LEAST_PART / ENTRIES_OF_RECORD ? ENTRIES_OF_RECORD * records : LEAST_PART;
}

/* Opens a shared engine on this one, which has no history. */
static sgt_shared *made(const sgt_shared_config *config, const sgt_engine *engine)
{
    static pthread_once_t once = PTHREAD_ONCE_INIT;
    pthread_once(&once, watch_forks);
    sgt_shared *s = reused();
    if (!s) s = allocated();
    if (!s) return 0;
    pthread_mutex_lock(&s->lock.mutex);
    memset(&s->engine, 0, offsetof(sgt_shared, next) - offsetof(sgt_shared, engine));
    s->engine = *engine;
    sgt_part(&s->engine, &s->part);
    s->config = *config;
    s->plan.after = config->cut_after == 0 ? default_cut(config, engine) : config->cut_after == SGT_NEVER ? 0 : config->cut_after;
    s->plan.at = s->plan.after;
    s->plan.patience = config->cut_wait_ns > 0 ? (uint64_t)config->cut_wait_ns : 0;
    s->number = atomic_fetch_add(&opened, 1) + 1;
    atomic_store(&s->forks, atomic_load(&forks));
    s->is_open = true;
    pthread_mutex_unlock(&s->lock.mutex);
    return s;
}

/*
 * Whether another thread rests in a call, or is asked there. This one has the lock. Those that wait for it, or for a call to drain, will find
 * the engine closed.
 */
static bool is_used(const sgt_shared *s) { return s->changed.resting > 0 || s->asked > 0; }

/* Closes the engine with this number, unless it is closed already, or used. */
static uint32_t shut(sgt_shared *s, uint64_t number)
{
    if (!s->is_open || s->number != number) return SGT_CLOSED;
    if (is_used(s)) return SGT_BUSY;
    s->is_open = false;
    announce(&s->lock, &s->queued);
    sgt_close(&s->engine);
    free(s->queue.at);
    return SGT_OK;
}

#endif
