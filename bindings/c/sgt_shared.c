/*
 * See sgt_shared.h. Every call tests its pointers, enters, holds the lock while it works, releases it where it rests, and leaves.
 *
 * What is decided between threads is proved, and made by the calls of sgt_desk.h: who rests and why, who is woken, what is tried again and
 * when alone, what a ticket names, when a cut is due and may be made, which calls are handed on. The files beside this one hold what waits,
 * wakes, calls back, or needs to know threads:
 *
 *   sgt_lock.h      the lock, with its line, and sleeping
 *   sgt_guard.h     calls of functions of the program that may not return
 *   sgt_state.h     what an engine holds here; deadlines
 *   sgt_entering.h  entering and leaving; forks, hooks and calls from inside hooks
 *   sgt_resting.h   how a thread rests, and is asked whether it is interrupted
 *   sgt_owners.h    which thread a transaction is of, and why it rests
 *   sgt_turns.h     the turns of a call; the calls that are stored until they are drained
 *   sgt_cuts.h      turns of a cut, and the cuts that the configuration asks for
 *   sgt_starts.h    turns of a start and of a run; tries that are made alone
 *   sgt_opening.h   the memory of engines that are opened and closed
 *   sgt_bodies.h    transaction functions
 */
#define _POSIX_C_SOURCE 200809L
#include "sgt_shared.h"

#include "sgt_bodies.h"
#include "sgt_opening.h"

/* Opening and closing */

uint32_t sgt_shared_open(sgt_shared **shared, const char *opening, size_t length, const sgt_row *rows, size_t count,
                         const sgt_shared_config *config, sgt_fault *fault)
{
    sgt_shared_config with = SGT_SHARED_CONFIG;
    if (!shared || !opening || !fault || (count > 0 && !rows) || !configured(&with, config)) return SGT_BAD_CALL;
    sgt_engine engine = {0};
    uint32_t status = sgt_open_with(&engine, opening, length, rows, count, fault);
    if (status != SGT_OK) return status;
    sgt_shared *s = made(&with, &engine);
    if (!s) return sgt_close(&engine), SGT_NO_MEMORY;
    *shared = s;
    return SGT_OK;
}

uint32_t sgt_shared_take(sgt_shared **shared, sgt_engine *engine, const sgt_shared_config *config)
{
    sgt_shared_config with = SGT_SHARED_CONFIG;
    uint64_t count = 0;
    if (!shared || !engine || !configured(&with, config)) return SGT_BAD_CALL;
    uint32_t status = sgt_entries(engine, &count);
    if (status != SGT_OK) return status;
    if (count > 0) return SGT_BEGUN;
    sgt_shared *s = made(&with, engine);
    if (!s) return SGT_NO_MEMORY;
    memset(engine, 0, sizeof *engine);
    *shared = s;
    return SGT_OK;
}

uint32_t sgt_shared_close(sgt_shared **shared)
{
    sgt_shared *s = shared ? *shared : 0;
    if (!s) return SGT_CLOSED;
    if (is_in_hook(s) || is_in_child(s)) return SGT_MISUSE;
    const uint64_t number = s->number;
    if (!lock_to_close(&s->lock)) return SGT_BUSY;
    const uint32_t status = shut(s, number);
    unlock(s);
    if (status == SGT_OK) set_aside(s), *shared = 0;
    return status;
}

/* Runs and starts */

uint32_t sgt_shared_run(sgt_shared *shared, uint64_t procedure, const int64_t *args, size_t count, const sgt_run_options *options,
                        sgt_shared_outcome *outcome)
{
    static const sgt_run_options plain = SGT_RUN_OPTIONS;
    if (!options) options = &plain;
    if (!outcome || outcome->size < sizeof *outcome || options->size < sizeof *options) return SGT_BAD_CALL;
    const struct call it = {procedure, args, count};
    struct deadline until = deadline_in(options->wait_ns);
    sgt_run_ask asked = {.ask = asked_until(&until), .most = options->tries ? options->tries : UINT64_MAX};
    outcome->tries = outcome->waits = 0;
    if (!is_call(&it)) return SGT_BAD_CALL;
    uint32_t status = enter(shared);
    if (status != SGT_OK) return status;
    status = run(shared, &it, &until, &asked, outcome);
    if (status == SGT_OK && asked.has_ticket) outcome->ticket = (sgt_ticket){shared->number, asked.part, asked.tid, 0};
    return leave(shared, status);
}

uint32_t sgt_shared_start(sgt_shared *shared, uint64_t procedure, const int64_t *args, size_t count, int64_t wait_ns,
                          sgt_ticket *ticket, sgt_reply *reply)
{
    const struct call it = {procedure, args, count};
    uint32_t waits = 0;
    if (!ticket || !reply || !is_call(&it)) return SGT_BAD_CALL;
    struct deadline until = deadline_in(wait_ns);
    sgt_ask ask = asked_until(&until);
    uint32_t status = enter(shared);
    return status == SGT_OK ? leave(shared, start(shared, &it, false, &until, &ask, ticket, reply, &waits)) : status;
}

uint32_t sgt_shared_begin(sgt_shared *shared, int64_t wait_ns, sgt_ticket *ticket, sgt_reply *reply)
{
    return sgt_shared_start(shared, SGT_EMPTY, 0, 0, wait_ns, ticket, reply);
}

/* Steps */

static uint32_t make_by(sgt_shared *shared, const sgt_ticket *ticket, const struct asked *it, sgt_reply *reply)
{
    const uint32_t status = reply ? enter_for(shared, ticket) : (uint32_t)SGT_BAD_CALL;
    return status == SGT_OK ? leave(shared, make(shared, ticket, it, reply)) : status;
}

uint32_t sgt_shared_step(sgt_shared *shared, const sgt_ticket *ticket, sgt_reply *reply)
{
    return make_by(shared, ticket, &(struct asked){.kind = SGT_STEP}, reply);
}

uint32_t sgt_shared_read(sgt_shared *shared, const sgt_ticket *ticket, uint64_t table, int64_t number, sgt_reply *reply)
{
    return make_by(shared, ticket, &(struct asked){SGT_READ, table, number, 0}, reply);
}

uint32_t sgt_shared_write(sgt_shared *shared, const sgt_ticket *ticket, uint64_t table, int64_t number, int64_t value, sgt_reply *reply)
{
    return make_by(shared, ticket, &(struct asked){SGT_WRITE, table, number, value}, reply);
}

uint32_t sgt_shared_remove(sgt_shared *shared, const sgt_ticket *ticket, uint64_t table, int64_t number, sgt_reply *reply)
{
    return make_by(shared, ticket, &(struct asked){SGT_REMOVE, table, number, 0}, reply);
}

uint32_t sgt_shared_quit(sgt_shared *shared, const sgt_ticket *ticket, sgt_reply *reply)
{
    return make_by(shared, ticket, &(struct asked){.kind = SGT_QUIT}, reply);
}

uint32_t sgt_shared_accesses(sgt_shared *shared, const sgt_ticket *ticket, sgt_access *accesses, size_t capacity, uint64_t *count)
{
    if (!count || (!accesses && capacity > 0)) return SGT_BAD_CALL;
    if (shared && ticket && !is_in_child(shared) && is_in_hook(shared)) { /* the hook has the lock */
        if (ticket->engine != shared->number) return SGT_MISUSE;
        if (ticket->part != shared->part) return SGT_STALE;
        return sgt_accesses(&shared->engine, ticket->tid, accesses, capacity, count);
    }
    const uint32_t status = enter_for(shared, ticket);
    if (status != SGT_OK) return status;
    if (ticket->part != shared->part) return leave(shared, SGT_STALE);
    return leave(shared, sgt_accesses(&shared->engine, ticket->tid, accesses, capacity, count));
}

uint32_t sgt_shared_abandon(sgt_shared *shared, const sgt_ticket *ticket)
{
    if (!shared || !ticket || is_in_child(shared) || !is_in_hook(shared)) {
        const uint32_t status = enter_for(shared, ticket);
        return status == SGT_OK ? leave_cut(shared, abandon(shared, ticket)) : status;
    }
    if (ticket->engine != shared->number) return SGT_MISUSE;
    if (ticket->part != shared->part) return SGT_STALE;
    sgt_note *it = find(shared, ticket->tid);
    if (it) it->is_abandoned = shared->abandons = true;
    return SGT_OK;
}

uint32_t sgt_shared_commit(sgt_shared *shared, const sgt_ticket *ticket, int64_t wait_ns, sgt_reply *reply)
{
    struct deadline until = deadline_in(wait_ns);
    uint32_t waits = 0;
    const uint32_t status = reply ? enter_for(shared, ticket) : (uint32_t)SGT_BAD_CALL;
    return status == SGT_OK ? leave(shared, commit(shared, ticket, &until, reply, &waits)) : status;
}

uint32_t sgt_shared_live(sgt_shared *shared, sgt_live *rows, size_t capacity, uint64_t *count)
{
    uint32_t status = count && (rows || capacity == 0) ? enter(shared) : (uint32_t)SGT_BAD_CALL;
    if (status != SGT_OK) return status;
    const int64_t at = now();
    refresh(shared);
    for (uint32_t i = 0; i < shared->notes && i < capacity; i++) {
        const sgt_note *it = &shared->note[i];
        rows[i] = (sgt_live){ticket_of(shared, it->tid), at - it->since, it->procedure, it->waits};
    }
    *count = shared->notes;
    return leave(shared, SGT_OK);
}

/* Transaction functions */

uint32_t sgt_transaction_read(sgt_transaction *transaction, uint64_t table, int64_t number, int64_t *value)
{
    if (!value) return SGT_BAD_CALL;
    const uint32_t status = access_in(transaction, &(struct asked){SGT_READ, table, number, 0});
    if (status != SGT_OK) return status;
    if (!transaction->reply.found) return SGT_NONE;
    *value = transaction->reply.value;
    return SGT_OK;
}

uint32_t sgt_transaction_write(sgt_transaction *transaction, uint64_t table, int64_t number, int64_t value)
{
    return access_in(transaction, &(struct asked){SGT_WRITE, table, number, value});
}

uint32_t sgt_transaction_remove(sgt_transaction *transaction, uint64_t table, int64_t number)
{
    return access_in(transaction, &(struct asked){SGT_REMOVE, table, number, 0});
}

uint32_t sgt_shared_try(sgt_shared *shared, sgt_transaction *transaction, const sgt_transact_options *options)
{
    static const sgt_transact_options plain = SGT_TRANSACT_OPTIONS;
    if (!options) options = &plain;
    if (!transaction || transaction->size < sizeof *transaction || options->size < sizeof *options) return SGT_BAD_CALL;
    if (transaction->is_live == IN_BODY) return refuse_in_body(transaction);
    struct deadline until = deadline_in(options->wait_ns);
    return next_try(shared, transaction, options->tries, &until);
}

uint32_t sgt_transaction_commit(sgt_transaction *transaction, int64_t wait_ns)
{
    if (is_made(transaction) && transaction->is_live == IN_BODY) return refuse_in_body(transaction);
    struct deadline until = deadline_in(wait_ns);
    return commit_until(transaction, &until);
}

uint32_t sgt_transaction_quit(sgt_transaction *transaction)
{
    if (!is_made(transaction) || transaction->tries == 0) return SGT_BAD_CALL;
    if (!transaction->is_live) return transaction->status;
    const uint32_t status = enter_for(transaction->shared, &transaction->ticket);
    return status == SGT_OK ? leave_cut(transaction->shared, quit_try(transaction->shared, transaction)) : status;
}

uint32_t sgt_shared_transact(sgt_shared *shared, sgt_body body, void *context, const sgt_transact_options *options,
                             sgt_shared_outcome *outcome)
{
    static const sgt_transact_options plain = SGT_TRANSACT_OPTIONS;
    if (!options) options = &plain;
    if (!body || !outcome || outcome->size < sizeof *outcome || options->size < sizeof *options) return SGT_BAD_CALL;
    struct transact it = {.shared = shared, .body = body, .context = context, .outcome = outcome};
    it.beside = options->tries;
    it.until = deadline_in(options->wait_ns);
    it.transaction = (sgt_transaction)SGT_TRANSACTION;
    call_guarded(make_tries, tell, &it);
    tell(&it);
    return it.status;
}

/* The rest */

uint32_t sgt_shared_cut(sgt_shared *shared, int64_t wait_ns)
{
    struct deadline until = deadline_in(wait_ns);
    sgt_ask ask = asked_until(&until);
    uint32_t late = SGT_TIMED_OUT;
    uint32_t status = enter(shared);
    if (status != SGT_OK) return status;
    do {
        status = cut_turn(shared, &ask, &until);
        if (status == SGT_REST) late = sleep_for(shared, &ask, &until);
    } while (status == SGT_REST && late != SGT_MISUSE);
    return leave(shared, status == SGT_TIMED_OUT ? late : status);
}

uint32_t sgt_shared_allow_cut(sgt_shared *shared)
{
    if (!shared) return SGT_CLOSED;
    if (is_in_child(shared) || !is_in_hook(shared)) return SGT_MISUSE;
    shared->allows_cut = true;
    return SGT_OK;
}

uint32_t sgt_shared_get(sgt_shared *shared, uint64_t table, int64_t number, int64_t *value)
{
    uint32_t status = value ? enter(shared) : (uint32_t)SGT_BAD_CALL;
    return status == SGT_OK ? leave(shared, sgt_get(&shared->engine, table, number, value)) : status;
}

uint32_t sgt_shared_rows(sgt_shared *shared, uint64_t table, int64_t number, sgt_row *rows, size_t capacity, uint64_t *count)
{
    uint32_t status = count && (rows || capacity == 0) ? enter(shared) : (uint32_t)SGT_BAD_CALL;
    if (status != SGT_OK) return status;
    return leave(shared, sgt_rows(&shared->engine, table, number, rows, capacity, count));
}

uint32_t sgt_shared_limits(sgt_shared *shared, uint64_t limits[3])
{
    uint32_t status = limits ? enter(shared) : (uint32_t)SGT_BAD_CALL;
    return status == SGT_OK ? leave(shared, sgt_limits(&shared->engine, limits)) : status;
}

uint32_t sgt_shared_entries(sgt_shared *shared, uint64_t *count, uint64_t *part)
{
    uint32_t status = count ? enter(shared) : (uint32_t)SGT_BAD_CALL;
    if (status != SGT_OK) return status;
    *count = entries(shared);
    if (part) *part = shared->part;
    return leave(shared, SGT_OK);
}

/* Waits for a call to drain. SGT_CLOSED; SGT_MISUSE in a child. */
static uint32_t await_queued(sgt_shared *s, struct deadline *until)
{
    bool in_time = true;
    atomic_fetch_add(&s->draining, 1);
    until->drains = true;
    while (s->is_open && s->queue.count == 0 && in_time) {
        in_time = rest(s, &s->queued, until);
        if (is_in_child(s)) return SGT_MISUSE;
    }
    const bool is_open = s->is_open;
    atomic_fetch_sub(&s->draining, 1);
    return is_open ? SGT_OK : SGT_CLOSED;
}

uint32_t sgt_shared_drain(sgt_shared *shared, int64_t wait_ns, sgt_ended *ended, size_t capacity, uint64_t *count)
{
    struct deadline until = deadline_in(wait_ns);
    uint32_t status = count && ended && capacity > 0 ? enter(shared) : (uint32_t)SGT_BAD_CALL;
    if (status != SGT_OK) return status;
    if (!shared->config.keeps_ended) return leave(shared, SGT_BAD_CALL);
    status = await_queued(shared, &until);
    if (status != SGT_OK) return leave_quietly(shared, status);
    struct queue *queue = &shared->queue;
    const size_t taken = queue->count < capacity ? queue->count : capacity;
    if (taken > 0) memcpy(ended, queue->at + queue->first, taken * sizeof *ended);
    queue->count -= taken;
    queue->first = queue->count > 0 ? queue->first + taken : 0;
    *count = taken;
    return leave_quietly(shared, SGT_OK); /* a hook that does not return would lose what was taken */
}

void sgt_shared_watch(uint32_t (*interrupted)(void *context), void *context)
{
    watch.interrupted = interrupted;
    watch.context = context;
}
