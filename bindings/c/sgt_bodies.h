/*
 * Transaction functions: the tries of an sgt_transaction, and the body that is called with it. See sgt_shared.c.
 */
#ifndef SGT_BODIES_H
#define SGT_BODIES_H

#include "sgt_starts.h"

enum { IN_BODY = 2 }; /* `is_live` of a transaction whose body is under way */

/* Tries */

/* Whether the transaction is there, as far as its size and its engine say. */
static bool is_made(const sgt_transaction *t) { return t && t->size >= sizeof *t && t->shared; }

/* Notes that the last try has ended, by its reply. The status is SGT_UNDONE if that was by a conflict. */
static uint32_t end_try(sgt_transaction *t)
{
    t->is_live = 0;
    t->status = sgt_desk_is_undone(&t->reply) ? SGT_UNDONE : SGT_OK;
    return t->status;
}

/* The same of one that was aborted in cascade, and whose part of the history was cut off, so that nothing is known of it any more. */
static uint32_t end_cut_off(sgt_transaction *t)
{
    t->is_live = 0, t->reply.kind = SGT_UNKNOWN;
    return t->status = SGT_UNDONE;
}

/* The status of an access after the end: SGT_UNDONE if a conflict or another caller ended it, SGT_MISUSE if its own caller did. */
static uint32_t has_ended(const sgt_transaction *t)
{
    return t->status == SGT_UNDONE || (t->reply.kind == SGT_OVER && t->reply.cause == SGT_BY_QUIT) ? SGT_UNDONE : SGT_MISUSE;
}

/*
 * Notes what came of an access, while the thread has the lock: a hook may be called before the access returns, and may
 * not return.
 */
static uint32_t note_access(sgt_transaction *t, uint32_t made, const sgt_reply *reply)
{
    if (made == SGT_STALE) return end_cut_off(t);
    if (made == SGT_OK) t->reply = *reply, t->ends = t->shared->desk.ended;
    if (made == SGT_OK && (reply->kind == SGT_ABORTED || reply->kind == SGT_OVER)) return end_try(t), has_ended(t);
    const uint32_t status = made == SGT_OK && reply->kind == SGT_BAD_ARGS ? (uint32_t)SGT_BAD_CALL : made;
    if (status != SGT_OK && t->status == SGT_OK) t->status = status;
    return status;
}

/* Makes an access of a transaction. */
static uint32_t access_in(sgt_transaction *t, const struct asked *it)
{
    if (!is_made(t) || t->tries == 0) return SGT_BAD_CALL;
    if (!t->is_live) return has_ended(t);
    sgt_reply reply = {0};
    const uint32_t status = enter_for(t->shared, &t->ticket);
    if (status != SGT_OK) return note_access(t, status, &reply);
    const uint32_t made = make(t->shared, &t->ticket, it, &reply);
    return leave(t->shared, note_access(t, made, &reply));
}

/* Starts the next try, alone or not: after a cycle, not before one of those that were in the way may have ended. */
static uint32_t start_try(sgt_shared *s, sgt_transaction *t, bool alone, struct deadline *until)
{
    const struct call call = {.procedure = SGT_EMPTY};
    sgt_reply reply = {0};
    sgt_ask ask = asked_until(until);
    if (!alone && t->status == SGT_UNDONE && t->reply.kind == SGT_ABORTED) ask.reason = SGT_WAITS_END, ask.number = t->ends;
    const uint32_t status = start(s, &call, alone, until, &ask, &t->ticket, &reply, &t->waits);
    if (status != SGT_OK) return status;
    t->reply = reply, t->status = SGT_OK, t->sequence = UINT64_MAX;
    t->is_live = reply.kind == SGT_STARTED;
    t->tries += t->is_live;
    return SGT_OK;
}

/* Makes the next try: alone after `tries` tries. */
static uint32_t next_try(sgt_shared *shared, sgt_transaction *t, uint32_t tries, struct deadline *until)
{
    if (t->is_live) sgt_transaction_quit(t);
    t->shared = shared;
    uint32_t status = enter(shared);
    if (status != SGT_OK) return status;
    return leave(shared, start_try(shared, t, is_due_alone(shared, t->tries, tries), until));
}

/* Refuses a call that only the caller of a body may make. So the try can't be committed. */
static uint32_t refuse_in_body(sgt_transaction *t)
{
    if (t->status == SGT_OK) t->status = SGT_MISUSE;
    return SGT_MISUSE;
}

/*
 * Commits the last try, or aborts it if an access of it failed, or the commit does. Its end is noted while the thread
 * has the lock: before it rests, too, as it may not come back.
 */
static uint32_t commit_try(sgt_shared *s, sgt_transaction *t, struct deadline *until)
{
    uint32_t status = t->status;
    sgt_reply reply = {0};
    t->is_live = 0, t->status = SGT_TIMED_OUT;
    until->aborts = true;
    if (status == SGT_OK) status = commit(s, &t->ticket, until, &reply, &t->waits);
    if (is_in_child(s)) return t->status = SGT_MISUSE;
    if (status != SGT_OK) abandon(s, &t->ticket);
    else t->reply = reply, t->sequence = sequence_of(s, &reply);
    t->ends = s->desk.ended;
    if (status == SGT_STALE) return end_cut_off(t);
    return status == SGT_OK ? end_try(t) : (t->status = status);
}

static uint32_t commit_until(sgt_transaction *t, struct deadline *until)
{
    if (!is_made(t) || t->tries == 0) return SGT_BAD_CALL;
    if (!t->is_live) return t->status;
    const uint32_t status = enter_for(t->shared, &t->ticket);
    if (status == SGT_OK) return leave(t->shared, commit_try(t->shared, t, until));
    t->is_live = 0;
    return t->status = status;
}

/* Aborts the last try. Its end is noted while the thread has the lock. */
static uint32_t quit_try(sgt_shared *s, sgt_transaction *t)
{
    sgt_reply reply = {0};
    const uint32_t status = make(s, &t->ticket, &(struct asked){.kind = SGT_QUIT}, &reply);
    if (status == SGT_STALE) return end_cut_off(t);
    if (status != SGT_OK) return status;
    t->reply = reply;
    return end_try(t);
}

/* Bodies */

/* A body under way. */
struct body {
    sgt_body function;
    void *context;
    sgt_transaction *transaction;
    sgt_shared *shared;      /* of that, as are those below, when the body was called */
    sgt_ticket ticket;
    uint32_t tries, waits;
    uint32_t reported;       /* what the body returns */
};

static void call_body(void *of)
{
    struct body *it = of;
    it->reported = it->function(it->context, it->transaction);
}

/* Aborts the transaction of a body that does not return. */
static void break_body_off(void *of)
{
    const struct body *it = of;
    sgt_shared_abandon(it->shared, &it->ticket);
}

/* Whether the transaction is still that with which the body was called. */
static bool is_given(const struct body *it)
{
    const sgt_ticket *is = &it->transaction->ticket, *was = &it->ticket;
    const bool is_same = is->engine == was->engine && is->part == was->part && is->tid == was->tid;
    return is_same && it->transaction->shared == it->shared;
}

/*
 * Ends the try of a body that has put another transaction in the place of its own. Both are aborted, as nobody else may
 * have either.
 */
static uint32_t refuse_another(struct body *it)
{
    sgt_transaction *t = it->transaction;
    if (is_made(t) && t->is_live) sgt_shared_abandon(t->shared, &t->ticket);
    break_body_off(it);
    *t = (sgt_transaction){.size = sizeof *t, .shared = it->shared, .ticket = it->ticket, .sequence = UINT64_MAX};
    t->tries = it->tries, t->waits = it->waits;
    return t->status = SGT_MISUSE;
}

/* Ends a try as its body says. It is aborted if an access of it failed. */
static uint32_t end_as_reported(sgt_transaction *t, uint32_t reported, struct deadline *until)
{
    if (reported == SGT_BODY_COMMIT) return commit_until(t, until);
    const uint32_t failed = reported == SGT_BODY_QUIT ? t->status : (uint32_t)SGT_BAD_CALL;
    const uint32_t status = sgt_transaction_quit(t);
    return status == SGT_OK ? failed : status;
}

/* Calls the body for a try, and ends that. */
static uint32_t run_body(sgt_body body, void *context, sgt_transaction *t, struct deadline *until)
{
    struct body it = {.function = body, .context = context, .transaction = t, .shared = t->shared, .ticket = t->ticket};
    it.tries = t->tries, it.waits = t->waits;
    t->is_live = IN_BODY;
    call_guarded(call_body, break_body_off, &it);
    if (!is_given(&it)) return refuse_another(&it);
    if (t->is_live) t->is_live = 1;
    return end_as_reported(t, it.reported, until);
}

/* The call of a transaction function, with the transaction of its tries. */
struct transact {
    sgt_shared *shared;
    sgt_body body;
    void *context;
    uint32_t beside;         /* tries beside others, before the first one that is made alone */
    struct deadline until;
    sgt_transaction transaction;
    sgt_shared_outcome *outcome;
    bool returns;
    uint32_t status;         /* that it returns */
};

static void make_tries(void *of)
{
    struct transact *it = of;
    sgt_transaction *t = &it->transaction;
    do {
        it->status = next_try(it->shared, t, it->beside, &it->until);
        if (it->status == SGT_OK && t->is_live) it->status = run_body(it->body, it->context, t, &it->until);
    } while (it->status == SGT_UNDONE);
    it->returns = true;
}

/* Writes the outcome: also if a hook does not return when the call has been carried out. */
static void tell(void *of)
{
    const struct transact *it = of;
    const sgt_transaction *t = &it->transaction;
    it->outcome->tries = t->tries, it->outcome->waits = t->waits;
    const bool is_carried_out = !t->is_live && t->status == SGT_OK && t->reply.kind != 0;
    if (it->returns ? it->status != SGT_OK : !is_carried_out) return;
    it->outcome->ticket = t->ticket, it->outcome->sequence = t->sequence, it->outcome->reply = t->reply;
}

#endif
