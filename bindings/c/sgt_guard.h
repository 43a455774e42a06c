/*
 * Calls of functions of the program, which may not return: they throw an exception, end their thread, or, with glibc,
 * leave by longjmp. What a call holds then is given back on the way out. See sgt_shared.c.
 *
 *   Function            What the call holds meanwhile                                   Who gives it back
 *   ended, cutting      the lock, is_hooked, hooks, the thread's cancel state, what     end_hook and break_off
 *                       the hook has abandoned; called, of the engine of an outer hook
 *   cutting             the cut that is due                                             break_cut_off
 *   cutting, in a pause solo.waiting, if its try is to be alone                         give_up
 *   the watch           asked, is_asking, the thread's cancel state; called             end_asking and break_asking
 *     of a commit       waits and rests of notes, committing                            give_up
 *     of a run, or of a transaction function, in its commit: the same and what is live  give_up
 *     of a start        rests of notes; solo.waiting, if its try is to be alone         give_up
 *     of a cut          rests of notes, cuts, cutters                                   give_up
 *     of a drain        draining                                                        give_up
 *   a body              its transaction                                                 break_body_off
 */
#ifndef SGT_GUARD_H
#define SGT_GUARD_H

#include <pthread.h>
#include <stdbool.h>

/* What is done where a function does not return: once, though glibc may come to it on two ways. */
struct guard {
    void (*breaks)(void *of);
    void *of;
    bool is_over;
#ifdef __GLIBC__
    struct _pthread_cleanup_buffer jump; /* for longjmp */
#endif
};

#ifdef __GLIBC__
void _pthread_cleanup_push(struct _pthread_cleanup_buffer *buffer, void (*routine)(void *), void *argument);
void _pthread_cleanup_pop(struct _pthread_cleanup_buffer *buffer, int executes);
#endif

static void break_once(void *of)
{
    struct guard *guard = of;
    if (guard->is_over) return;
    guard->is_over = true;
    guard->breaks(guard->of);
}

static void begin_guard(struct guard *guard)
{
#ifdef __GLIBC__
    _pthread_cleanup_push(&guard->jump, break_once, guard);
#else
    (void)guard;
#endif
}

static void end_guard(struct guard *guard)
{
#ifdef __GLIBC__
    _pthread_cleanup_pop(&guard->jump, 0);
#else
    (void)guard;
#endif
}

/* Ends the guard of a function that throws an exception, or ends its thread. */
static void break_guard(void *guard)
{
    end_guard(guard);
    break_once(guard);
}

/* Calls a function that may not return: then `breaks` is called. */
static void call_guarded(void (*function)(void *of), void (*breaks)(void *of), void *of)
{
    struct guard guard = {.breaks = breaks, .of = of};
    begin_guard(&guard);
    pthread_cleanup_push(break_guard, &guard);
    function(of);
    pthread_cleanup_pop(0);
    end_guard(&guard);
}

#endif
