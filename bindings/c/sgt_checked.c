/*
 * The calls of sgt.h. Each tests that its pointers are there, and then makes the proved call of crates/sgt_c: that of the same name with
 * `proved_` before it, as bindings/exports.py writes it. A list of no items may be null; the proved calls get an object's address then.
 */
#include <stdbool.h>

#include "sgt.h"

uint32_t proved_sgt_open(sgt_engine *, const char *, size_t, sgt_fault *);
uint32_t proved_sgt_open_with(sgt_engine *, const char *, size_t, const sgt_row *, size_t, sgt_fault *);
uint32_t proved_sgt_open_bare(sgt_engine *, uint64_t, uint64_t, uint64_t);
uint32_t proved_sgt_put(sgt_engine *, const sgt_row *, size_t, uint64_t *);
uint32_t proved_sgt_procedure(sgt_engine *, const char *, size_t, uint16_t *, sgt_fault *);
void proved_sgt_close(sgt_engine *);
uint32_t proved_sgt_start(sgt_engine *, uint64_t, const int64_t *, size_t, sgt_reply *);
uint32_t proved_sgt_step(sgt_engine *, uint32_t, sgt_reply *);
uint32_t proved_sgt_commit(sgt_engine *, uint32_t, sgt_reply *);
uint32_t proved_sgt_quit(sgt_engine *, uint32_t, sgt_reply *);
uint32_t proved_sgt_begin(sgt_engine *, sgt_reply *);
uint32_t proved_sgt_read(sgt_engine *, uint32_t, uint64_t, int64_t, sgt_reply *);
uint32_t proved_sgt_write(sgt_engine *, uint32_t, uint64_t, int64_t, int64_t, sgt_reply *);
uint32_t proved_sgt_remove(sgt_engine *, uint32_t, uint64_t, int64_t, sgt_reply *);
uint32_t proved_sgt_run(sgt_engine *, uint64_t, const int64_t *, size_t, uint32_t *, sgt_reply *);
uint32_t proved_sgt_run_many(sgt_engine *, const sgt_call *, size_t, sgt_outcome *, size_t, uint64_t *);
uint32_t proved_sgt_get(sgt_engine *, uint64_t, int64_t, int64_t *);
uint32_t proved_sgt_rows(sgt_engine *, uint64_t, int64_t, sgt_row *, size_t, uint64_t *);
uint32_t proved_sgt_records(sgt_engine *, uint64_t *);
uint32_t proved_sgt_live_tids(sgt_engine *, uint32_t *, uint64_t *);
uint32_t proved_sgt_limits(sgt_engine *, uint64_t *);
uint32_t proved_sgt_entries(sgt_engine *, uint64_t *);
uint32_t proved_sgt_entry(sgt_engine *, uint64_t, sgt_event *, sgt_reply *);
uint32_t proved_sgt_calls(sgt_engine *, uint64_t, sgt_call *, size_t, uint64_t *, uint64_t *);
uint32_t proved_sgt_accesses(sgt_engine *, uint32_t, sgt_access *, size_t, uint64_t *);
uint32_t proved_sgt_wrote(sgt_engine *, uint32_t, uint32_t *);
uint32_t proved_sgt_reserve(sgt_engine *, uint64_t);
uint32_t proved_sgt_cut(sgt_engine *, uint64_t *);
uint32_t proved_sgt_part(sgt_engine *, uint64_t *);
uint32_t proved_sgt_procedure_text(sgt_engine *, uint64_t, char *, size_t, uint64_t *);
uint32_t proved_sgt_reply_text(const sgt_reply *, char *, size_t, uint64_t *);
uint32_t proved_sgt_fault_text(const sgt_fault *, char *, size_t, uint64_t *);
uint32_t proved_sgt_explain_opening(const char *, size_t, char *, size_t, uint64_t *);
uint32_t proved_sgt_explain_procedure(uint64_t, const char *, size_t, char *, size_t, uint64_t *);

/* What a list of no items points to. Nothing is read or written there. */
static union {
    int64_t number;
    char byte;
    sgt_row row;
    sgt_call call;
    sgt_access access;
    sgt_outcome outcome;
} none;

/* Whether a list may be passed: it is there, or has no items. Most are there, so that is one test. */
static bool is_list(const void *at, size_t count)
{
    if (__builtin_expect(at != NULL, 1)) return true;
    return count == 0;
}

/*
 * A read leaves the engine as it was, so it takes a pointer to const. While it runs it marks the engine as busy, as every call does; the
 * engine itself is never const, since sgt_open has written it.
 */
static sgt_engine *read_from(const sgt_engine *engine) { return (sgt_engine *)engine; }

uint32_t sgt_open(sgt_engine *engine, const char *opening, size_t length, sgt_fault *fault)
{
    if (!engine || !is_list(opening, length) || !fault) return SGT_BAD_CALL;
    return proved_sgt_open(engine, opening ? opening : &none.byte, length, fault);
}

uint32_t sgt_open_with(sgt_engine *engine, const char *opening, size_t length, const sgt_row *rows, size_t count, sgt_fault *fault)
{
    if (!engine || !is_list(opening, length) || !is_list(rows, count) || !fault) return SGT_BAD_CALL;
    return proved_sgt_open_with(engine, opening ? opening : &none.byte, length, rows ? rows : &none.row, count, fault);
}

uint32_t sgt_open_bare(sgt_engine *engine, uint64_t live, uint64_t begins, uint64_t asks)
{
    return engine ? proved_sgt_open_bare(engine, live, begins, asks) : (uint32_t)SGT_BAD_CALL;
}

uint32_t sgt_put(sgt_engine *engine, const sgt_row *rows, size_t count, uint64_t *at)
{
    if (!engine) return SGT_CLOSED;
    if (!is_list(rows, count) || !at) return SGT_BAD_CALL;
    return proved_sgt_put(engine, rows ? rows : &none.row, count, at);
}

uint32_t sgt_procedure(sgt_engine *engine, const char *text, size_t length, uint16_t *number, sgt_fault *fault)
{
    if (!engine) return SGT_CLOSED;
    if (!is_list(text, length) || !number || !fault) return SGT_BAD_CALL;
    return proved_sgt_procedure(engine, text ? text : &none.byte, length, number, fault);
}

void sgt_close(sgt_engine *engine)
{
    if (engine) proved_sgt_close(engine);
}

uint32_t sgt_start(sgt_engine *engine, uint64_t procedure, const int64_t *args, size_t count, sgt_reply *reply)
{
    if (!engine) return SGT_CLOSED;
    if (!is_list(args, count) || !reply) return SGT_BAD_CALL;
    return proved_sgt_start(engine, procedure, args ? args : &none.number, count, reply);
}

uint32_t sgt_step(sgt_engine *engine, uint32_t tid, sgt_reply *reply)
{
    if (!engine) return SGT_CLOSED;
    return reply ? proved_sgt_step(engine, tid, reply) : (uint32_t)SGT_BAD_CALL;
}

uint32_t sgt_commit(sgt_engine *engine, uint32_t tid, sgt_reply *reply)
{
    if (!engine) return SGT_CLOSED;
    return reply ? proved_sgt_commit(engine, tid, reply) : (uint32_t)SGT_BAD_CALL;
}

uint32_t sgt_quit(sgt_engine *engine, uint32_t tid, sgt_reply *reply)
{
    if (!engine) return SGT_CLOSED;
    return reply ? proved_sgt_quit(engine, tid, reply) : (uint32_t)SGT_BAD_CALL;
}

uint32_t sgt_begin(sgt_engine *engine, sgt_reply *reply)
{
    if (!engine) return SGT_CLOSED;
    return reply ? proved_sgt_begin(engine, reply) : (uint32_t)SGT_BAD_CALL;
}

uint32_t sgt_read(sgt_engine *engine, uint32_t tid, uint64_t table, int64_t number, sgt_reply *reply)
{
    if (!engine) return SGT_CLOSED;
    return reply ? proved_sgt_read(engine, tid, table, number, reply) : (uint32_t)SGT_BAD_CALL;
}

uint32_t sgt_write(sgt_engine *engine, uint32_t tid, uint64_t table, int64_t number, int64_t value, sgt_reply *reply)
{
    if (!engine) return SGT_CLOSED;
    return reply ? proved_sgt_write(engine, tid, table, number, value, reply) : (uint32_t)SGT_BAD_CALL;
}

uint32_t sgt_remove(sgt_engine *engine, uint32_t tid, uint64_t table, int64_t number, sgt_reply *reply)
{
    if (!engine) return SGT_CLOSED;
    return reply ? proved_sgt_remove(engine, tid, table, number, reply) : (uint32_t)SGT_BAD_CALL;
}

uint32_t sgt_run(sgt_engine *engine, uint64_t procedure, const int64_t *args, size_t count, uint32_t *tid, sgt_reply *reply)
{
    if (!engine) return SGT_CLOSED;
    if (!is_list(args, count) || !tid || !reply) return SGT_BAD_CALL;
    return proved_sgt_run(engine, procedure, args ? args : &none.number, count, tid, reply);
}

uint32_t sgt_run_many(sgt_engine *engine, const sgt_call *calls, size_t count, sgt_outcome *outcomes, size_t capacity, uint64_t *done)
{
    if (!engine) return SGT_CLOSED;
    if (!is_list(calls, count) || !is_list(outcomes, capacity) || !done) return SGT_BAD_CALL;
    return proved_sgt_run_many(engine, calls ? calls : &none.call, count, outcomes ? outcomes : &none.outcome, capacity, done);
}

uint32_t sgt_get(const sgt_engine *engine, uint64_t table, int64_t number, int64_t *value)
{
    if (!engine) return SGT_CLOSED;
    return value ? proved_sgt_get(read_from(engine), table, number, value) : (uint32_t)SGT_BAD_CALL;
}

uint32_t sgt_rows(const sgt_engine *engine, uint64_t table, int64_t number, sgt_row *rows, size_t capacity, uint64_t *count)
{
    if (!engine) return SGT_CLOSED;
    if (!is_list(rows, capacity) || !count) return SGT_BAD_CALL;
    return proved_sgt_rows(read_from(engine), table, number, rows ? rows : &none.row, capacity, count);
}

uint32_t sgt_records(const sgt_engine *engine, uint64_t *count)
{
    if (!engine) return SGT_CLOSED;
    return count ? proved_sgt_records(read_from(engine), count) : (uint32_t)SGT_BAD_CALL;
}

uint32_t sgt_live_tids(const sgt_engine *engine, uint32_t tids[32], uint64_t *count)
{
    if (!engine) return SGT_CLOSED;
    return tids && count ? proved_sgt_live_tids(read_from(engine), tids, count) : (uint32_t)SGT_BAD_CALL;
}

uint32_t sgt_limits(const sgt_engine *engine, uint64_t limits[3])
{
    if (!engine) return SGT_CLOSED;
    return limits ? proved_sgt_limits(read_from(engine), limits) : (uint32_t)SGT_BAD_CALL;
}

uint32_t sgt_entries(const sgt_engine *engine, uint64_t *count)
{
    if (!engine) return SGT_CLOSED;
    return count ? proved_sgt_entries(read_from(engine), count) : (uint32_t)SGT_BAD_CALL;
}

uint32_t sgt_entry(const sgt_engine *engine, uint64_t place, sgt_event *event, sgt_reply *reply)
{
    if (!engine) return SGT_CLOSED;
    return event && reply ? proved_sgt_entry(read_from(engine), place, event, reply) : (uint32_t)SGT_BAD_CALL;
}

uint32_t sgt_calls(const sgt_engine *engine, uint64_t from, sgt_call *calls, size_t capacity, uint64_t *count, uint64_t *next)
{
    if (!engine) return SGT_CLOSED;
    if (!is_list(calls, capacity) || !count || !next) return SGT_BAD_CALL;
    return proved_sgt_calls(read_from(engine), from, calls ? calls : &none.call, capacity, count, next);
}

uint32_t sgt_accesses(const sgt_engine *engine, uint32_t tid, sgt_access *accesses, size_t capacity, uint64_t *count)
{
    if (!engine) return SGT_CLOSED;
    if (!is_list(accesses, capacity) || !count) return SGT_BAD_CALL;
    return proved_sgt_accesses(read_from(engine), tid, accesses ? accesses : &none.access, capacity, count);
}

uint32_t sgt_wrote(const sgt_engine *engine, uint32_t tid, uint32_t *wrote)
{
    if (!engine) return SGT_CLOSED;
    return wrote ? proved_sgt_wrote(read_from(engine), tid, wrote) : (uint32_t)SGT_BAD_CALL;
}

uint32_t sgt_reserve(sgt_engine *engine, uint64_t entries) { return engine ? proved_sgt_reserve(engine, entries) : (uint32_t)SGT_CLOSED; }

uint32_t sgt_cut(sgt_engine *engine, uint64_t *live)
{
    if (!engine) return SGT_CLOSED;
    return live ? proved_sgt_cut(engine, live) : (uint32_t)SGT_BAD_CALL;
}

uint32_t sgt_part(const sgt_engine *engine, uint64_t *part)
{
    if (!engine) return SGT_CLOSED;
    return part ? proved_sgt_part(read_from(engine), part) : (uint32_t)SGT_BAD_CALL;
}

uint32_t sgt_procedure_text(const sgt_engine *engine, uint64_t number, char *text, size_t capacity, uint64_t *length)
{
    if (!engine) return SGT_CLOSED;
    if (!is_list(text, capacity) || !length) return SGT_BAD_CALL;
    return proved_sgt_procedure_text(read_from(engine), number, text ? text : &none.byte, capacity, length);
}

uint32_t sgt_reply_text(const sgt_reply *reply, char *text, size_t capacity, uint64_t *length)
{
    if (!reply || !is_list(text, capacity) || !length) return SGT_BAD_CALL;
    return proved_sgt_reply_text(reply, text ? text : &none.byte, capacity, length);
}

uint32_t sgt_fault_text(const sgt_fault *fault, char *text, size_t capacity, uint64_t *length)
{
    if (!fault || !is_list(text, capacity) || !length) return SGT_BAD_CALL;
    return proved_sgt_fault_text(fault, text ? text : &none.byte, capacity, length);
}

uint32_t sgt_explain_opening(const char *opening, size_t length, char *text, size_t capacity, uint64_t *written)
{
    if (!is_list(opening, length) || !is_list(text, capacity) || !written) return SGT_BAD_CALL;
    return proved_sgt_explain_opening(opening ? opening : &none.byte, length, text ? text : &none.byte, capacity, written);
}

uint32_t sgt_explain_procedure(uint64_t number, const char *procedure, size_t length, char *text, size_t capacity, uint64_t *written)
{
    if (!is_list(procedure, length) || !is_list(text, capacity) || !written) return SGT_BAD_CALL;
    return proved_sgt_explain_procedure(number, procedure ? procedure : &none.byte, length, text ? text : &none.byte, capacity, written);
}
