/*
 * sgt_shared: one engine for many threads.
 *
 * Any thread may make any call at any time. Each call holds one lock, and releases it while it waits. Each turn of a call, from one wait to
 * the next, is proved, as the calls of sgt.h are: why it waits, and that it is late only if it would have to; who is woken; what is tried
 * again and when alone; that a run ends once whatever it waits for has ended; what a ticket names; when the history is cut; which calls are
 * handed on. The lock, sleeping, hooks, forks, and what the header says of threads are C, and tested: docs/PROOFS.md lists both, under
 * sgt_desk and Only tested.
 *
 *     sgt_shared *bank;
 *     if (sgt_shared_open(&bank, opening, length, 0, 0, 0, &fault) != SGT_OK) return 1;
 *     sgt_shared_outcome outcome = SGT_SHARED_OUTCOME;
 *     uint32_t status = sgt_shared_run(bank, 1, args, 2, 0, &outcome);      -- from any thread
 *
 * Use sgt_shared_run if you have all arguments of a call at hand: it runs the procedure from its start to its commit in one hold of the
 * lock. Then no other transaction is live, so it never conflicts and never waits. Use sgt_shared_transact if your program decides the
 * accesses: it calls a function of yours, and again after a conflict. sgt_shared_start, _step and _commit, and sgt_shared_begin, _read,
 * _write and _remove, are for callers that interleave transactions on purpose. All may be mixed.
 *
 * STATUSES are those of sgt.h, and these:
 *
 *   SGT_BUSY       another thread waits for a transaction or a cut, or is in a hook, so the engine can't be closed
 *   SGT_SELF_WAIT  the call would wait, without a deadline, for a transaction that its own thread has to end, or for threads that wait for
 *                  the call, without a deadline too
 *   SGT_TIMED_OUT  the deadline came
 *   SGT_STALE      the ticket is of a part of the history that was cut off: its transaction has ended
 *   SGT_MISUSE     a call from inside a hook of the same engine, a ticket of another engine, a call in a forked child, an access of an
 *                  sgt_transaction that its own caller has ended, a commit by a body, or another transaction in the place of a body's
 *   SGT_UNDONE     the transaction of an sgt_transaction was aborted by a conflict: leave the body, and it is tried again
 *
 * Unless a call says otherwise, it changes and writes nothing if its status is not SGT_OK. SGT_CLOSED is returned if the engine is a
 * null pointer, and SGT_BAD_CALL if another pointer is null that has to be there; a list of no items may be null.
 *
 * DEADLINES are nanoseconds from the begin of a call, by a clock that never jumps. 0 never waits for another transaction, and SGT_FOREVER
 * waits as long as it takes. A call waits for the lock itself without a deadline, as no thread holds it for long unless a hook does. A
 * thread that has a live transaction and waits for ever in another call may wait for itself, also through other threads: give such a call a
 * deadline. If all that could end such a wait wait for ever themselves, the call that came last is SGT_SELF_WAIT: end what its thread has
 * live. A transaction counts as that of the thread that made the last call for it. So give the call a deadline, too, if another thread is to
 * end that transaction.
 *
 * CANCELLATION. No call is a cancellation point: a thread that is cancelled in a call goes on until it has returned. No call may be made
 * from a thread whose cancellation is asynchronous, or from a signal handler.
 *
 * FUNCTIONS THAT DO NOT RETURN. A hook, a watch or a body may throw an exception, if its language has them, or end its
 * thread. With glibc it may leave by longjmp, too; with another C library a hook or a watch must not. The lock is then
 * released, and nothing that the call holds is left.
 *
 * FORKS. Each call of a child is SGT_MISUSE on an engine that was opened before the fork. A child that a hook or a
 * watch forks returns from that into a call: it ends at once, with SGT_MISUSE, and does nothing more.
 */
#ifndef SGT_SHARED_H
#define SGT_SHARED_H

#include "sgt.h"

#ifdef __cplusplus
extern "C" {
#endif

/* An engine that threads share. */
typedef struct sgt_shared sgt_shared;

#define SGT_FOREVER INT64_MAX
#define SGT_NEVER UINT64_MAX

/*
 * The name of a transaction. `part` counts the cuts before its start, and `tid` is its number in that part, so a ticket never names another
 * transaction. `engine` distinguishes the shared engines of a process. All bytes zero: the ticket of no transaction.
 */
typedef struct sgt_ticket {
    uint64_t engine;
    uint64_t part;
    uint32_t tid;
    uint32_t spare;
} sgt_ticket;

/*
 * A call that was committed or refused, with its answers or its code, as sgt_calls returns it. `sequence` counts these calls from 0
 * in reply order, over all parts. Run one after another in this order, from the opening database, each with the accesses that its caller
 * decided, they give the same answers and end in the committed database. `call.accesses` is the number of these accesses. A call that
 * did not write changes nothing there, and a journal may leave it out.
 */
typedef struct sgt_ended {
    uint64_t sequence;
    sgt_ticket ticket;
    sgt_call call;
    uint32_t wrote;     /* 1: it was committed, and has written or removed a record */
    uint32_t spare;
} sgt_ended;

/* A live transaction. */
typedef struct sgt_live {
    sgt_ticket ticket;
    int64_t for_ns;     /* how long it has been live */
    uint32_t procedure;
    uint32_t waits;     /* 1: a thread waits for its commit */
} sgt_live;

/*
 * The configuration of a shared engine. Begin with SGT_SHARED_CONFIG, which asks for nothing, and set the fields that you need.
 *
 * The hooks are called under the lock, so nothing else happens meanwhile. A call from a hook to the same engine is
 * SGT_MISUSE, but for sgt_shared_abandon, sgt_shared_accesses and sgt_shared_allow_cut. A hook may call another engine.
 * If hooks of that one call back, so that each waits for the other, one of the calls is SGT_MISUSE.
 *
 * What a hook throws reaches whoever made the call. The call has been carried out then, and has written what it writes:
 * but if `cutting` throws, there is no cut, and the next one is put off. One case is different: a call that starts a
 * transaction first makes a cut that is due, if it waits for that, or if an abort that calls no hook has left it. If
 * `cutting` throws there, nothing was started, and no try of the call is live.
 */
typedef struct sgt_shared_config {
    size_t size;        /* sizeof(sgt_shared_config) */

    /* Called for each committed or refused call, in reply order, before it returns to its own thread. May be null. */
    void (*ended)(void *context, const sgt_ended *ended);

    /*
     * Called before each cut with the engine itself, so that its history can be read, by the calls of sgt.h that take a const sgt_engine
     * alone. May be null. If memory is short the cut fails, and the hook is called again for the same part later.
     */
    void (*cutting)(void *context, sgt_engine *engine, uint64_t part);

    void *context;      /* what both hooks are passed */

    uint32_t keeps_ended; /* 1: committed and refused calls are stored until sgt_shared_drain takes them */
    uint32_t asks_to_cut; /* 1: there is a cut only if `cutting` has called sgt_shared_allow_cut, and else it is put off */

    /*
     * Cuts by itself: as soon as the history has `cut_after` entries and no transaction is live. SGT_NEVER: never. 0: if there is a hook
     * or calls are stored, never, since they are there for the history; else after 1,000,000 entries, or after four for each record that
     * the engine is opened with if these are more. Choose no more than twice the starts that the limits allow, as each transaction has at
     * least two entries. A cut takes time in proportion to the records, in the call that happens to make it. If some transaction is always
     * live, set `cut_wait_ns`: when a cut is due, new transactions wait so long for the live ones to end. If they do not, the cut is put
     * off until as many entries have come again.
     */
    uint64_t cut_after;
    int64_t cut_wait_ns;
} sgt_shared_config;

#define SGT_SHARED_CONFIG {.size = sizeof(sgt_shared_config)}

/*
 * How a call is run. Begin with SGT_RUN_OPTIONS: no deadline, and as many tries as it takes. After 8 aborts by a conflict the next try is
 * made alone, so that it is the last.
 */
typedef struct sgt_run_options {
    size_t size;        /* sizeof(sgt_run_options) */
    int64_t wait_ns;
    uint32_t tries;     /* the most tries; 0: no limit */
    uint32_t spare;
} sgt_run_options;

#define SGT_RUN_OPTIONS {.size = sizeof(sgt_run_options), .wait_ns = SGT_FOREVER}

/* How a transaction function is run. Begin with SGT_TRANSACT_OPTIONS: no deadline, and alone after 8 aborts. */
typedef struct sgt_transact_options {
    size_t size;        /* sizeof(sgt_transact_options) */
    int64_t wait_ns;
    uint32_t tries;     /* after this many aborts by a conflict, the next try is made alone; 0: the first one is */
    uint32_t spare;
} sgt_transact_options;

#define SGT_TRANSACT_OPTIONS {.size = sizeof(sgt_transact_options), .wait_ns = SGT_FOREVER, .tries = 8}

/*
 * A transaction whose accesses you decide, with its tries. Begin with SGT_TRANSACTION. Only the library writes its fields. One call at a
 * time may use it.
 */
typedef struct sgt_transaction {
    size_t size;        /* sizeof(sgt_transaction) */
    sgt_shared *shared;
    sgt_ticket ticket;  /* the last try */
    uint64_t sequence;  /* of a committed try: the `sequence` of its sgt_ended; else UINT64_MAX */
    uint64_t ends;      /* how many transactions had ended when the last try was aborted */
    uint32_t tries;     /* how many were started */
    uint32_t waits;     /* how often they waited */
    uint32_t status;    /* SGT_OK, or why the last try can't be committed: the status of its first access that failed */
    uint32_t is_live;   /* 0 once the last try has ended. Before: 2 in a body of sgt_shared_transact, else 1 */
    sgt_reply reply;    /* the last reply */
} sgt_transaction;

#define SGT_TRANSACTION {.size = sizeof(sgt_transaction)}

/* What a transaction function returns. No status has these numbers. */
enum sgt_body_end { SGT_BODY_COMMIT = 1001, SGT_BODY_QUIT = 1002 };

/* A transaction function. It returns SGT_BODY_COMMIT or SGT_BODY_QUIT, never a status. */
typedef uint32_t (*sgt_body)(void *context, sgt_transaction *transaction);

/* What became of a run or a transaction function. Begin with SGT_SHARED_OUTCOME. */
typedef struct sgt_shared_outcome {
    size_t size;        /* sizeof(sgt_shared_outcome) */
    uint32_t tries;     /* how many transactions were started for it, the last one included */
    uint32_t waits;     /* how often it waited */
    sgt_ticket ticket;  /* the last of these transactions */
    uint64_t sequence;  /* of SGT_COMMITTED and SGT_REFUSED: the `sequence` of its sgt_ended; else UINT64_MAX */
    sgt_reply reply;    /* the last reply */
} sgt_shared_outcome;

#define SGT_SHARED_OUTCOME {.size = sizeof(sgt_shared_outcome)}

/*
 * Opens a shared engine as sgt_open_with does, with `count` rows, which may be null if there are none. `config` may be null. The
 * engine is written into `shared`.
 *
 * SGT_NO_MEMORY; SGT_BAD_CALL also if the size in `config` is too small; the faults of sgt_open_with, which are written into `fault`.
 */
uint32_t sgt_shared_open(sgt_shared **shared, const char *opening, size_t length, const sgt_row *rows, size_t count,
                         const sgt_shared_config *config, sgt_fault *fault);

/*
 * Takes over an engine that has no history: one that sgt_put and sgt_procedure have prepared, say. `engine` is closed afterwards.
 *
 * SGT_CLOSED; SGT_BEGUN if it has a history; SGT_NO_MEMORY; SGT_BAD_CALL.
 */
uint32_t sgt_shared_take(sgt_shared **shared, sgt_engine *engine, const sgt_shared_config *config);

/*
 * Closes the engine, and makes the pointer null. Its live transactions are gone, and so is what sgt_shared_drain has not taken. It waits
 * for the lock, but never for a hook, and takes it before the calls that wait for it: these are SGT_CLOSED, and so are a call that has just
 * begun, and an sgt_shared_drain that waits. No thread may begin a call to it afterwards. The memory of the engine's struct, less than
 * 4 kilobytes, is kept for engines that are opened later.
 *
 * SGT_BUSY if another thread is in a call that waits for a transaction or a cut, is asked whether it is interrupted, or is in a hook of
 * this engine; SGT_CLOSED if the pointer is null, or another thread has just closed the engine.
 */
uint32_t sgt_shared_close(sgt_shared **shared);

/*
 * Runs a procedure from its start to its commit. `options` may be null.
 *
 * If no other transaction is live it takes one hold of the lock. Otherwise it waits as often as it has to: at SGT_FULL and at SGT_WAITS for
 * the end of another transaction. After a cycle or a cascading abort it tries again: after 8 of them alone, as sgt_shared_transact does.
 * The reply is the last one: SGT_COMMITTED, SGT_REFUSED, SGT_ABORTED with SGT_BY_CODE, or that to a start that is refused for good
 * (SGT_NO_PROCEDURE, SGT_BAD_ARGS, SGT_SPENT). If the tries are used up, it is the SGT_ABORTED or SGT_OVER of the last one; if another
 * thread aborted it, SGT_OVER with SGT_BY_QUIT.
 *
 * A run ends once whatever it waits for has ended. If no other transaction is live, no cut is awaited, the deadline has not come and memory
 * suffices, its next turn is its last: it is committed or refused, raises a code, or its start is refused for good. One turn more may be
 * needed if its transaction was aborted while it waited. A run aborts its own transaction only if the deadline has come and it would have to
 * wait, or memory is short. These sentences are proved of its turns; when its thread makes the next one is up to the system.
 *
 * SGT_TIMED_OUT if the deadline comes: nothing of it is left live. If a deadline other than 0 comes before its turn, nothing is started.
 * SGT_NO_MEMORY, SGT_SELF_WAIT: nothing is left live either. SGT_BAD_CALL if there are over 4 arguments, if the procedure is over 65535,
 * or if a size is too small. With each of these the tries and the waits are written, and no more.
 */
uint32_t sgt_shared_run(sgt_shared *shared, uint64_t procedure, const int64_t *args, size_t count, const sgt_run_options *options,
                        sgt_shared_outcome *outcome);

/*
 * Runs a function of yours as a transaction: starts one, calls `body` with it and with `context`, and commits it if `body` returns
 * SGT_BODY_COMMIT. `body` reads and writes by sgt_transaction_read, _write and _remove. The lock is not held meanwhile. `options` may be
 * null.
 *
 *     static uint32_t takes_five(void *context, sgt_transaction *t)
 *     {
 *         int64_t *had = context;
 *         if (sgt_transaction_read(t, 2, 101, had) != SGT_OK) return SGT_BODY_QUIT;
 *         if (*had >= 5) sgt_transaction_write(t, 2, 101, *had - 5);      // else it is refused
 *         return SGT_BODY_COMMIT;
 *     }
 *
 * THE BODY IS RUN AGAIN after a cycle or a cascading abort. So it must have no effects but its accesses, and set what it returns in its
 * context anew each time. What it reads may be uncommitted, and be undone afterwards. So act on it only after the commit: when this call
 * returns SGT_OK with the reply SGT_COMMITTED. A body that aborts because of what it read may have read a value that is undone. To refuse
 * truthfully, it notes the refusal in its context, writes nothing, and returns SGT_BODY_COMMIT: once that is committed, the refusal is
 * true.
 *
 * After `tries` aborts the next try is made ALONE: transactions that start wait, as for a cut, until the live ones have ended and it has
 * ended too. Then it is the only live one, so it is not aborted for a cycle and never waits. A thread that has a live transaction may still
 * start others before it, so that it can end its own; one that always has something live keeps the try waiting. No try is made alone while
 * its own thread has another live transaction.
 *
 * The reply is the last one: SGT_COMMITTED; SGT_ABORTED with SGT_BY_QUIT if the body returned SGT_BODY_QUIT; SGT_SPENT, and the body was
 * not called; or SGT_OVER with SGT_BY_QUIT if another thread aborted the transaction. If the history has been cut off before this was
 * noticed, the body is run again. What the body returns after a conflict does not matter. So SGT_OK alone does not say that it is
 * committed.
 *
 * With each other status, nothing is left live, and the tries and waits are written, and no more: SGT_TIMED_OUT if the
 * deadline comes, which does not interrupt the body; SGT_SELF_WAIT; SGT_NO_MEMORY; SGT_CLOSED; SGT_BAD_CALL if a size
 * is too small, or the body returns another number: a status, say. If an access of the body failed, nothing is
 * committed, whatever it returns, and the status is that of this access. A body must not commit its transaction itself:
 * such a call is SGT_MISUSE, and so counts as an access that failed. If the body aborts it itself, it is as if it
 * returned SGT_BODY_QUIT. If its sgt_transaction names another transaction when it returns, the call is SGT_MISUSE, and
 * both are aborted.
 *
 * A body may be left by an exception, by the end of its thread, and, with glibc, by longjmp: then its transaction is aborted. With another
 * C library, it stays live after a longjmp.
 */
uint32_t sgt_shared_transact(sgt_shared *shared, sgt_body body, void *context, const sgt_transact_options *options,
                             sgt_shared_outcome *outcome);

/*
 * Reads a record. SGT_NONE if there is none; SGT_UNDONE; SGT_BAD_CALL if the table is over 7 or the number out of range; SGT_NO_MEMORY.
 *
 * This and the two that follow are SGT_UNDONE once a conflict or another thread has ended the transaction, and SGT_MISUSE once its own
 * caller has committed or aborted it. SGT_BAD_CALL also if it was not started.
 */
uint32_t sgt_transaction_read(sgt_transaction *transaction, uint64_t table, int64_t number, int64_t *value);

/* Writes a record. SGT_UNDONE; SGT_BAD_CALL if the table is over 7, or the number or the value out of range; SGT_NO_MEMORY. */
uint32_t sgt_transaction_write(sgt_transaction *transaction, uint64_t table, int64_t number, int64_t value);

/* Removes a record, or does nothing if there is none. SGT_UNDONE; SGT_BAD_CALL as of sgt_transaction_read; SGT_NO_MEMORY. */
uint32_t sgt_transaction_remove(sgt_transaction *transaction, uint64_t table, int64_t number);

/*
 * The same for a loop of your own, of which sgt_shared_transact is one: each try begins with sgt_shared_try, and ends with
 * sgt_transaction_commit or _quit. If its status is SGT_UNDONE, make the next try with the same sgt_transaction.
 *
 * sgt_shared_try waits, after a cycle, until another transaction has ended, and starts the next one: alone after options->tries tries. If
 * the last one is still live, it is aborted. If the reply is not SGT_STARTED, it is SGT_SPENT.
 *
 * SGT_TIMED_OUT, SGT_SELF_WAIT, SGT_NO_MEMORY: nothing was started. SGT_BAD_CALL if a size is too small. SGT_MISUSE in a body of
 * sgt_shared_transact.
 */
uint32_t sgt_shared_try(sgt_shared *shared, sgt_transaction *transaction, const sgt_transact_options *options);

/*
 * Commits it. Where it has to wait for another one, it waits until that has ended. The reply is as of sgt_shared_transact.
 *
 * SGT_UNDONE; SGT_TIMED_OUT, SGT_SELF_WAIT, SGT_NO_MEMORY, and the status of an access that failed: it was aborted. SGT_MISUSE in a body of
 * sgt_shared_transact; SGT_BAD_CALL if it was not started.
 */
uint32_t sgt_transaction_commit(sgt_transaction *transaction, int64_t wait_ns);

/*
 * Aborts it. It calls no hook: a cut that is due is left to a later call. SGT_UNDONE if it had been aborted by a
 * conflict before; SGT_BAD_CALL if it was not started.
 */
uint32_t sgt_transaction_quit(sgt_transaction *transaction);

/*
 * Starts a transaction. At SGT_FULL, while a cut is awaited, and while another one is to run alone, it waits. If the reply is SGT_STARTED
 * the ticket is written.
 *
 * SGT_TIMED_OUT, SGT_SELF_WAIT: nothing was started. SGT_NO_MEMORY; SGT_BAD_CALL as of sgt_shared_run.
 */
uint32_t sgt_shared_start(sgt_shared *shared, uint64_t procedure, const int64_t *args, size_t count, int64_t wait_ns,
                          sgt_ticket *ticket, sgt_reply *reply);

/* Lets a transaction make its next access. SGT_STALE; SGT_NO_MEMORY. */
uint32_t sgt_shared_step(sgt_shared *shared, const sgt_ticket *ticket, sgt_reply *reply);

/* Starts a transaction of no procedure, as sgt_begin does: its caller decides all its accesses. It waits as sgt_shared_start does. */
uint32_t sgt_shared_begin(sgt_shared *shared, int64_t wait_ns, sgt_ticket *ticket, sgt_reply *reply);

/*
 * Accesses that the caller of a transaction decides, as by sgt_read, sgt_write and sgt_remove: after sgt_shared_begin, or at the end of its
 * procedure. SGT_STALE; SGT_NO_MEMORY; SGT_BAD_CALL if the table is over 7 or the number out of range.
 */
uint32_t sgt_shared_read(sgt_shared *shared, const sgt_ticket *ticket, uint64_t table, int64_t number, sgt_reply *reply);
uint32_t sgt_shared_write(sgt_shared *shared, const sgt_ticket *ticket, uint64_t table, int64_t number, int64_t value, sgt_reply *reply);
uint32_t sgt_shared_remove(sgt_shared *shared, const sgt_ticket *ticket, uint64_t table, int64_t number, sgt_reply *reply);

/*
 * The accesses that the caller of a transaction decided, as by sgt_accesses, until the history is cut. A hook may call it, too: that of
 * `ended`, for a journal. The cost grows with the entries since its start, so ask soon. SGT_STALE; SGT_BAD_CALL.
 */
uint32_t sgt_shared_accesses(sgt_shared *shared, const sgt_ticket *ticket, sgt_access *accesses, size_t capacity, uint64_t *count);

/* Aborts a transaction. This never needs memory for a live one. SGT_STALE; SGT_NO_MEMORY. */
uint32_t sgt_shared_quit(sgt_shared *shared, const sgt_ticket *ticket, sgt_reply *reply);

/*
 * Aborts a transaction that is not needed any more, for destructors: as sgt_shared_quit does, or, from inside a hook of the same engine, as
 * soon as the hook has returned. Nothing is done if it has ended. SGT_STALE.
 *
 * It calls no hook, so nothing is thrown: a cut that is due is left to a later call. So is that of a transaction
 * function that is left.
 */
uint32_t sgt_shared_abandon(sgt_shared *shared, const sgt_ticket *ticket);

/*
 * Commits a transaction. Where it has to wait for another one, it waits until that has ended.
 *
 * SGT_TIMED_OUT if the deadline comes first, SGT_SELF_WAIT: the transaction is still live, so commit it again later, or abort it. The reply
 * is then SGT_WAITS, and its `tid` is the transaction that it waits for. SGT_STALE; SGT_NO_MEMORY.
 */
uint32_t sgt_shared_commit(sgt_shared *shared, const sgt_ticket *ticket, int64_t wait_ns, sgt_reply *reply);

/* The live transactions, in order of their numbers: at most `capacity` are written to `rows`, and how many there are to `count`. */
uint32_t sgt_shared_live(sgt_shared *shared, sgt_live *rows, size_t capacity, uint64_t *count);

/*
 * Cuts the history off, as sgt_cut does. New transactions wait meanwhile, until the live ones have ended.
 *
 * SGT_TIMED_OUT if the deadline comes before they have; SGT_SELF_WAIT; SGT_NO_MEMORY; SGT_NONE if the hook `cutting` did not allow it.
 */
uint32_t sgt_shared_cut(sgt_shared *shared, int64_t wait_ns);

/*
 * Allows the cut before which the hook `cutting` was called. It is for hooks whose exceptions cannot pass through C, and counts only if
 * `asks_to_cut` is 1. SGT_MISUSE outside a hook of the engine.
 */
uint32_t sgt_shared_allow_cut(sgt_shared *shared);

/* The committed value of a record, as by sgt_get. SGT_NONE; SGT_BAD_CALL if the table is over 7 or the number out of range. */
uint32_t sgt_shared_get(sgt_shared *shared, uint64_t table, int64_t number, int64_t *value);

/* The committed database from a record on, as by sgt_rows. SGT_NO_MEMORY; SGT_BAD_CALL. */
uint32_t sgt_shared_rows(sgt_shared *shared, uint64_t table, int64_t number, sgt_row *rows, size_t capacity, uint64_t *count);

/* The three limits, as by sgt_limits. */
uint32_t sgt_shared_limits(sgt_shared *shared, uint64_t limits[3]);

/* How many entries the history has since the last cut, and into `part` how many cuts there were. `part` may be null. */
uint32_t sgt_shared_entries(sgt_shared *shared, uint64_t *count, uint64_t *part);

/*
 * Takes committed and refused calls that were stored because `keeps_ended` is 1: at most `capacity`, the oldest first, are written to `ended`,
 * and how many these are to `count`. If there is none it waits for one; `count` is 0 if none has come by the deadline. SGT_CLOSED if the
 * engine is closed meanwhile: so a thread that drains without a deadline can be ended.
 *
 * Each call is handed out once. Threads that drain at the same time get different calls, so order them by `sequence`.
 * It calls no hook, so that nothing that was taken is lost: a cut that is due is left to a later call. SGT_BAD_CALL
 * also if `keeps_ended` is not 1.
 */
uint32_t sgt_shared_drain(sgt_shared *shared, int64_t wait_ns, sgt_ended *ended, size_t capacity, uint64_t *count);

/*
 * Lets calls of this thread be interrupted while they wait for a transaction, a cut or a call to drain. `interrupted`
 * is called ten times a second then, on this thread and without the lock. If it returns 1, the call ends as if its
 * deadline had come. Null: no more.
 *
 * The calls that it makes are not interrupted. If the call that waits is made by a hook, they are SGT_MISUSE. A thread
 * that is cancelled in it goes on. If it does not return, the call ends as if its deadline had come, but commits
 * nothing.
 */
void sgt_shared_watch(uint32_t (*interrupted)(void *context), void *context);

#ifdef __cplusplus
}
#endif

#endif
