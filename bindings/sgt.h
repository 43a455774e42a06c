/*
 * sgt: an in-memory transaction engine that schedules by serialization graph testing. This header is its manual for C.
 *
 * The library is proved. Running the committed transactions one after another, in commit order, gives each of them the same
 * answers, and ends in the committed database. See docs/LIBRARY.md for a first program, and docs/DEFINITIONS.md for the words
 * used here.
 *
 * An engine lives in an sgt_engine of the caller. Transactions are started, make one access at each step, and are committed
 * or aborted (`quit`). What a step does is decided by the transaction's stored procedure; once that is at its end, the caller
 * may decide on accesses itself: sgt_read, sgt_write, sgt_remove. A transaction of sgt_begin has such accesses alone. Each of
 * these events gets one reply, and the history stores both. Every call returns a status; SGT_OK is 0. The engine's answer to
 * an event is a reply and not a status: all is full, a commit has to wait, a transaction is aborted.
 *
 * DUTIES OF THE CALLER. The library does not check them. The proofs hold only if they are kept.
 *
 *   - An sgt_engine is all zero bytes before its first sgt_open: `sgt_engine engine = {0};`. From then on only the library
 *     writes it. Do not copy it: a copy would be a second owner of the same engine. You may move it by memcpy while no call
 *     runs, if the old bytes are never used again.
 *   - An sgt_reply, sgt_event, sgt_call, sgt_access, sgt_outcome, sgt_fault or sgt_row is initialized before it is passed, with any
 *     values: `sgt_reply reply = {0};`.
 *   - Pointers are aligned, and point to as much as the call says. No two pointers of one call overlap.
 *   - One call at a time to one engine. If threads share an engine, put a lock around each call, or join one thread before
 *     another calls: sgt_shared.h is an engine with such a lock. Different engines share nothing, and need no common lock. A
 *     call that finds another one in the engine returns SGT_BUSY and changes nothing. SGT_BUSY helps to find a mistake, and is
 *     no lock: two calls that enter at the same moment do not see each other.
 *   - No call from a signal handler, nor in a forked child of a process with threads.
 *   - malloc, realloc and free are of one allocator, which aligns to 16 bytes.
 *
 * NULL POINTERS are tested first, and then nothing is changed or written. If the engine is null, a call returns SGT_CLOSED; the
 * calls that open one return SGT_BAD_CALL, and sgt_close does nothing. If another pointer is null, a call returns SGT_BAD_CALL. A
 * list may be null if its count or its capacity is 0.
 *
 * READS take a `const sgt_engine *`: the engine is the same afterwards. That does not mean that two reads may run at once: a
 * read, too, marks the engine as busy while it runs, so the rule of one call at a time holds for it.
 *
 * MEMORY. The caller owns all memory that it passes, and the library stores no pointer to it. The library hands out no
 * memory: it allocates an engine by malloc, and sgt_close frees all of it.
 *
 * NUMBERS. Values, arguments and record numbers are from -999999999999999 to 999999999999999. Tables are numbered from 0 to
 * 7. Procedures are numbered from 0, in this order:
 *
 *   - SmallBank's five: 0 balance, 1 deposit, 2 transact savings, 3 amalgamate, 4 write check;
 *   - those of the opening, from 5 on;
 *   - those that sgt_procedure adds.
 *
 * An engine of sgt_open_bare has only those of sgt_procedure, from 0 on. In every engine, number 65535 is the empty procedure,
 * SGT_EMPTY: it takes no arguments, makes no access and answers nothing. sgt_begin starts it. Tables and procedures are passed
 * as 64 bits, so that a number out of range is not taken for another: it is SGT_BAD_CALL.
 */
#ifndef SGT_H
#define SGT_H

#include <stddef.h>
#include <stdint.h>

#ifdef __cplusplus
extern "C" {
#endif

/* An engine, or none: if all bytes are zero, it is closed. Only the library uses the fields. */
typedef struct sgt_engine {
    uint8_t is_open; /* 0 closed, 1 open, 2 while a call is in it */
    void *at;
} sgt_engine;

/* The status that a call returns. From 16 on it is a fault of an opening or of a procedure's text, also in sgt_fault.kind. */
enum sgt_status {
    SGT_OK = 0,
    SGT_NO_MEMORY = 1,   /* an allocation failed; nothing has changed, except by sgt_run and sgt_run_many, and the call may be repeated */
    SGT_CLOSED = 2,      /* the engine is closed */
    SGT_OPEN = 3,        /* the engine is already open */
    SGT_NONE = 4,        /* there is no such record, entry or procedure, or nothing to explain */
    SGT_BAD_CALL = 5,    /* a number that was passed is out of its range, or a pointer is null */
    SGT_STILL_LIVE = 6,  /* the history cannot be cut, as a transaction is live */
    SGT_BEGUN = 7,       /* nothing can be added to the initial state of the engine, as there is a history */
    SGT_TAKEN = 8,       /* the key of a row already has a value */
    SGT_TOO_MANY = 9,    /* no number is left for a procedure, or for the part after a cut */
    SGT_BUSY = 10,       /* another call is in the engine; of sgt_shared.h: another thread waits in a call, or is in a hook */
    SGT_SELF_WAIT = 11,  /* of sgt_shared.h: the call would wait for its own thread, without a deadline */
    SGT_TIMED_OUT = 12,  /* of sgt_shared.h: the deadline passed */
    SGT_STALE = 13,      /* of sgt_shared.h: the transaction belongs to a part of the history that was cut */
    SGT_MISUSE = 14,     /* of sgt_shared.h: a call that may not be made from here, or after the end, or for another engine */
    SGT_UNDONE = 15,     /* of sgt_shared.h: the transaction was aborted by a conflict, and may be tried again */
    SGT_NOT_JSON = 16,   /* the opening, or the procedure's text, is not JSON */
    SGT_BAD_LINE = 17,   /* the opening is JSON, but not of the shape of an opening */
    SGT_BAD_LIMITS = 18, /* a limit is out of its range */
    SGT_BAD_OPENING = 19, /* an account has the fault `number`: 1 a name twice, 2 a customer twice, 3 a number out of range */
    SGT_PROC_SHAPE = 20, /* the procedure `procedure` has its first shape error at `place` */
    SGT_PROC_FLAW = 21   /* the procedure `procedure` has the flaw `number`, one of enum sgt_flaw */
};

/* The flaws of a procedure, as `number` of an SGT_PROC_FLAW names them: of several, the first of this list. */
enum sgt_flaw {
    SGT_HIGH_REGISTER = 1,  /* a register is over 15 */
    SGT_UNSET_REGISTER = 2, /* on some path, an expression uses a register that nothing before it sets */
    SGT_NO_ARGUMENT = 3,    /* an argument is not below the number of arguments */
    SGT_HIGH_TABLE = 4,     /* a table is over 7 */
    SGT_TOO_LONG = 5,       /* there are more than 64 statements */
    SGT_TOO_DEEP = 6,       /* a statement or an expression is more than 16 deep */
    SGT_MANY_ANSWERS = 7,   /* some path has more than 8 answers */
    SGT_BAD_CODE = 8,       /* a code is 0 or over 999 */
    SGT_MANY_ARGUMENTS = 9, /* the procedure takes more than 4 arguments */
    SGT_BAD_LITERAL = 10    /* a literal has more than fifteen digits */
};

/* Why an opening or a procedure was refused. `kind` is the status, and says which other fields count. The others keep their values. */
typedef struct sgt_fault {
    uint32_t kind;
    uint32_t number;     /* of SGT_BAD_OPENING and SGT_PROC_FLAW */
    uint64_t procedure;  /* of SGT_PROC_SHAPE and SGT_PROC_FLAW */
    uint32_t depth;      /* of SGT_PROC_SHAPE: how many positions `place` has; 0 is the whole procedure */
    uint32_t spare;
    uint64_t place[128]; /* positions in the procedure's lists, from the outermost list in, counted from 0 */
} sgt_fault;

/* The kinds of replies to events. */
enum sgt_kind {
    SGT_STARTED = 1,       /* the transaction `tid` was started */
    SGT_NO_PROCEDURE = 2,  /* no procedure has that number */
    SGT_BAD_ARGS = 3,      /* the procedure takes another number of arguments, or one of them is no value; or sgt_write was to write no value */
    SGT_SPENT = 4,         /* the limits allow no more starts */
    SGT_FULL = 5,          /* the limits allow no more live transactions */
    SGT_UNKNOWN = 6,       /* no transaction of that number was started */
    SGT_OVER = 7,          /* the transaction has already ended; `cause` says how */
    SGT_LOOKED = 8,        /* the record `table`, `number` was read: `found` is 1 and `value` its value, or `found` is 0: there is none */
    SGT_WROTE = 9,         /* it was written: `found` is 1 and `value` is what was written, or `found` is 0: it was removed */
    SGT_ENDED = 10,        /* the procedure has ended, and nothing was done: the transaction may be committed */
    SGT_NOT_ENDED = 11,    /* the procedure has not ended: neither a commit nor an access of the caller's own is possible yet */
    SGT_WAITS = 12,        /* the commit has to wait for the transaction `tid`: call it again later */
    SGT_COMMITTED = 13,    /* the transaction is committed; its answers are the first `answers` of `answer` */
    SGT_ABORTED = 14,      /* the transaction is aborted, by `cause`; the first `fallen` of `fell` are aborted in cascade */
    SGT_REFUSED = 15       /* its procedure raised `code`: it is aborted at its commit, and those of `fell` in cascade */
};

/* How a transaction ended. SGT_ABORTED has a cycle, a code or the caller's request; SGT_OVER has any of these. */
enum sgt_cause {
    SGT_BY_COMMIT = 0,
    SGT_BY_CYCLE = 1, /* its access would close a cycle of conflicts: the first `walked` of `walk`, itself first */
    SGT_BY_CODE = 2,   /* its procedure raised `code` */
    SGT_BY_QUIT = 3,   /* its caller aborted it */
    SGT_BY_FALL = 4    /* cascading abort: it had read from an aborted one; `tid` is the one whose abort began the cascade */
};

/*
 * `kind` says which other fields count. The others keep their old values, and so do the items of `answer`, `walk` and `fell` after
 * those that count. So copy `tid` at SGT_STARTED.
 */
typedef struct sgt_reply {
    uint32_t kind;
    uint32_t cause;
    uint32_t tid;
    uint32_t code;
    uint32_t table;
    uint32_t found;
    int64_t number;
    int64_t value;
    uint32_t answers;
    uint32_t walked;
    uint32_t fallen;
    uint32_t spare;
    int64_t answer[8];
    uint32_t walk[32];
    uint32_t fell[32];
} sgt_reply;

/* The kinds of events in the history. */
enum sgt_asked {
    SGT_START = 1,  /* a start of the procedure `procedure` with the first `args` of `arg` */
    SGT_STEP = 2,   /* a step of the transaction `tid` */
    SGT_COMMIT = 3, /* a commit of the transaction `tid` */
    SGT_QUIT = 4,   /* an abort of the transaction `tid` */
    SGT_READ = 5,   /* an sgt_read by the transaction `tid`, of the record `table`, `number` */
    SGT_WRITE = 6,  /* an sgt_write of `value`, which need not be a value, to that record */
    SGT_REMOVE = 7  /* an sgt_remove of that record */
};

/* `kind` says which other fields count. The others keep their old values. */
typedef struct sgt_event {
    uint32_t kind;
    uint32_t tid;
    uint32_t procedure;
    uint32_t args;
    int64_t arg[4];
    uint32_t table;
    uint32_t spare;
    int64_t number;
    int64_t value;
} sgt_event;

/* A record of the database, and its value. `spare` is unused. */
typedef struct sgt_row {
    uint32_t table;
    uint32_t spare;
    int64_t number;
    int64_t value;
} sgt_row;

/* A call of a committed or refused transaction, with its result. Every field is filled; those that do not count are 0. */
typedef struct sgt_call {
    uint32_t kind;      /* SGT_COMMITTED or SGT_REFUSED */
    uint32_t tid;
    uint32_t procedure;
    uint32_t code;      /* of SGT_REFUSED */
    uint32_t args;      /* how many items `arg` has */
    uint32_t answers;   /* of SGT_COMMITTED: how many items `answer` has */
    int64_t arg[4];
    int64_t answer[8];
    uint64_t accesses;  /* how many accesses its caller decided on: sgt_accesses returns them */
} sgt_call;

/*
 * An access that a transaction's caller decided on. Every field is filled; those that do not count are 0. `kind` is as in an
 * sgt_event. `found` is 1 if there is a value, which is in `value`: what a read found, or what was written. Else it is 0: the read
 * found no record, or the record was removed. `spare` is unused.
 */
typedef struct sgt_access {
    uint32_t kind; /* SGT_READ, SGT_WRITE or SGT_REMOVE */
    uint32_t table;
    int64_t number;
    int64_t value;
    uint32_t found;
    uint32_t spare;
} sgt_access;

/*
 * The outcome of a call of many: its last `reply`, and `tid` if a transaction was started, else 0. `wrote` is 1 if one of its steps
 * wrote a record, and else 0. So a call that is committed and did not write has changed nothing, and a journal may leave it out.
 */
typedef struct sgt_outcome {
    uint32_t tid;
    uint32_t wrote;
    sgt_reply reply;
} sgt_outcome;

/* The least and the greatest of values, arguments and record numbers. */
#define SGT_LEAST INT64_C(-999999999999999)
#define SGT_MOST INT64_C(999999999999999)

/* The number of the empty procedure, in every engine. */
#define SGT_EMPTY 65535

/*
 * Opens an engine. `opening` is `length` bytes of JSON, of any length: the first line of a script, without its end. It holds
 * limits, accounts and procedures: see docs/FORMATS.md. `{"limits":[8,1000],"accounts":[[1,101,500,1000]],"procedures":[]}`
 * allows 8 live transactions and 1000 in all, and opens one account: name 1, customer 101, saving 500, checking 1000, in
 * cents. With `[8,1000,1]` a procedure's code is reported at commit, as SGT_REFUSED. Else it is reported at a step, as
 * SGT_ABORTED with SGT_BY_CODE.
 *
 * If the result is not SGT_OK, the engine is unchanged:
 *
 *   - SGT_OPEN, tested first: the engine is open.
 *   - SGT_NO_MEMORY.
 *   - From SGT_NOT_JSON on: the first fault of the opening, which is written to `fault`.
 */
uint32_t sgt_open(sgt_engine *engine, const char *opening, size_t length, sgt_fault *fault);

/*
 * The same, and then writes `count` rows of the caller into the database of the opening's accounts, one after another. Each
 * row replaces the value of its record, or is a new record. The rows may come in any order. Use it to continue from a database
 * that is stored elsewhere.
 *
 *   - SGT_OPEN, tested first: the engine is open.
 *   - SGT_BAD_CALL, tested next: a table is over 7, or a number or a value is out of range.
 */
uint32_t sgt_open_with(sgt_engine *engine, const char *opening, size_t length, const sgt_row *rows, size_t count,
                       sgt_fault *fault);

/*
 * Opens an engine with limits only: at most `live` transactions at a time, from 1 to 32, and at most `begins` starts in all,
 * from 1 to 4000000000. If `asks` is 1, codes of procedures are reported at commit; if it is 0, at a step. The engine has no
 * records and no procedures, not even those of SmallBank, so sgt_procedure numbers procedures from 0 here.
 *
 * If the result is not SGT_OK, the engine is unchanged:
 *
 *   - SGT_OPEN, tested first: the engine is open.
 *   - SGT_BAD_LIMITS, tested next: a limit is out of its range.
 *   - SGT_NO_MEMORY.
 */
uint32_t sgt_open_bare(sgt_engine *engine, uint64_t live, uint64_t begins, uint64_t asks);

/*
 * Adds `count` rows of the caller to the initial database, while the history is empty: before the first event, and after a
 * cut. Each is a new record: its key may have no value, in the opening or by an earlier row. Each call scans all records, and
 * allocates memory for them and for the rows meanwhile, so add many rows by one call. They may come in any order; that of
 * sgt_rows is fastest.
 *
 * If the result is not SGT_OK, the engine is unchanged:
 *
 *   - SGT_BAD_CALL, tested first: a table is over 7, or a number or a value is out of range.
 *   - SGT_CLOSED.
 *   - SGT_BEGUN: there is a history.
 *   - SGT_TAKEN: the record of a row already has a value.
 *   - SGT_NO_MEMORY.
 *
 * With SGT_BAD_CALL and SGT_TAKEN the index of the first such row, counted from 0, is written to `at`. Else `at` is unchanged.
 */
uint32_t sgt_put(sgt_engine *engine, const sgt_row *rows, size_t count, uint64_t *at);

/*
 * Adds a procedure after the present ones, while the history is empty. `text` is `length` bytes of JSON, as one item of the
 * list `procedures` of an opening: see docs/LANGUAGE.md.
 * `[1,[["look",0,2,["arg",0],5],["answer",["reg",0]]]]` answers with the record of table 2 that its argument names, and raises
 * code 5 if there is none. The number of the procedure, by which it is started, is written to `number`.
 *
 * If the result is not SGT_OK, the engine and the number are unchanged:
 *
 *   - SGT_CLOSED.
 *   - SGT_BEGUN, tested next: there is a history.
 *   - SGT_TOO_MANY: there are 65535 procedures.
 *   - SGT_NOT_JSON, SGT_PROC_SHAPE or SGT_PROC_FLAW: the text spells no procedure, or one with a flaw. The fault is written to
 *     `fault`, with the number that the procedure was to get.
 *   - SGT_NO_MEMORY.
 */
uint32_t sgt_procedure(sgt_engine *engine, const char *text, size_t length, uint16_t *number, sgt_fault *fault);

/*
 * The text of the procedure of a number: JSON that sgt_procedure reads as this procedure, without a zero byte after it. So a
 * journal of calls can be kept with what its numbers mean. If it fits into `capacity` bytes, it is written whole, and else not at
 * all. Its length is written to `length` in both cases. It has no spaces, and need not be the text that was passed. The call
 * allocates memory meanwhile.
 *
 * If the result is not SGT_OK, text and length are unchanged:
 *
 *   - SGT_CLOSED.
 *   - SGT_NONE: no procedure has this number.
 *   - SGT_NO_MEMORY.
 */
uint32_t sgt_procedure_text(const sgt_engine *engine, uint64_t number, char *text, size_t capacity, uint64_t *length);

/* Closes an engine, and frees all its memory. A closed engine stays closed, and a busy one is unchanged. */
void sgt_close(sgt_engine *engine);

/*
 * The four events. With SGT_OK the reply is written to `reply`, and the history has one more entry. Else neither the engine
 * nor the reply has changed. The `tid` in the reply to the start names a transaction. Any event may come at any time. The
 * cost of an event does not grow with the history.
 *
 *   - SGT_CLOSED.
 *   - SGT_NO_MEMORY, but never for an event that ends a live transaction: that takes no memory.
 */

/*
 * Starts a transaction of a procedure, with `count` arguments, at most 4.
 *
 *   - SGT_BAD_CALL, tested first: there are more arguments, or the number of the procedure is over 65535.
 */
uint32_t sgt_start(sgt_engine *engine, uint64_t procedure, const int64_t *args, size_t count, sgt_reply *reply);

/* Runs a transaction up to and including its next access. */
uint32_t sgt_step(sgt_engine *engine, uint32_t tid, sgt_reply *reply);

/* Commits a transaction. */
uint32_t sgt_commit(sgt_engine *engine, uint32_t tid, sgt_reply *reply);

/* Aborts a transaction, for its caller. */
uint32_t sgt_quit(sgt_engine *engine, uint32_t tid, sgt_reply *reply);

/*
 * Accesses on which the caller decides: events as the four above, for a program whose transactions are its own code. Begin a
 * transaction; read, write and remove records one by one, each by what the replies so far said; then sgt_commit or sgt_quit:
 *
 *     sgt_begin(&engine, &reply);                        // SGT_STARTED: reply.tid
 *     uint32_t tid = reply.tid;
 *     sgt_read(&engine, tid, 2, 101, &reply);            // SGT_LOOKED: reply.found, reply.value
 *     sgt_write(&engine, tid, 2, 101, reply.value - 40, &reply);   // SGT_WROTE
 *     sgt_commit(&engine, tid, &reply);                  // SGT_COMMITTED, with no answers; or SGT_WAITS: call it again later
 *
 * It is proved that these transactions are serializable together with those of stored procedures: running the committed ones one after
 * another, in commit order, each caller deciding as it did, gives each read the same value and ends in the committed database. A
 * transaction that read from an aborted one is aborted in cascade. So a caller acts outside the engine on what it has read only after
 * SGT_COMMITTED.
 *
 * With SGT_OK the reply to sgt_read, sgt_write and sgt_remove is one of these:
 *
 *   - SGT_LOOKED or SGT_WROTE: the access is made;
 *   - SGT_ABORTED with SGT_BY_CYCLE: it would close a cycle of conflicts, so the transaction is aborted: start again;
 *   - SGT_NOT_ENDED: the transaction's stored procedure is not at its end, or has raised a code: nothing is done;
 *   - SGT_BAD_ARGS, of sgt_write: `value` is not from SGT_LEAST to SGT_MOST: nothing is done;
 *   - SGT_OVER or SGT_UNKNOWN.
 *
 * If the result is not SGT_OK, neither the engine nor the reply has changed:
 *
 *   - SGT_BAD_CALL, tested first: the table is over 7, or the number is not from SGT_LEAST to SGT_MOST.
 *   - SGT_CLOSED.
 *   - SGT_NO_MEMORY, but never for an event that ends a live transaction.
 */

/* Starts a transaction of the empty procedure. The reply is SGT_STARTED, SGT_SPENT or SGT_FULL. It has no SGT_BAD_CALL. */
uint32_t sgt_begin(sgt_engine *engine, sgt_reply *reply);

/* Reads a record: its newest value that is not undone, committed or not, or none. */
uint32_t sgt_read(sgt_engine *engine, uint32_t tid, uint64_t table, int64_t number, sgt_reply *reply);

/* Writes a value to a record, whether or not there is such a record. */
uint32_t sgt_write(sgt_engine *engine, uint32_t tid, uint64_t table, int64_t number, int64_t value, sgt_reply *reply);

/* Removes a record, whether or not there is such a record. It conflicts with other accesses as a write does. */
uint32_t sgt_remove(sgt_engine *engine, uint32_t tid, uint64_t table, int64_t number, sgt_reply *reply);

/*
 * Runs a procedure from its start to its commit, for a caller whose transactions need not run concurrently. It makes a start,
 * then steps as long as they read or write, and at the end of the procedure the commit. Each is an event with its entry. The
 * number of a transaction that was started is written to `tid`; else `tid` is unchanged. The reply is the last one:
 *
 *   - SGT_COMMITTED or SGT_REFUSED;
 *   - SGT_ABORTED at a step;
 *   - SGT_WAITS if other live transactions have to end first: call sgt_commit later;
 *   - or the reply to a start that starts nothing.
 *
 * If the result is not SGT_OK, tid and reply are unchanged:
 *
 *   - SGT_BAD_CALL, tested first: there are over 4 arguments, or the number of the procedure is over 65535.
 *   - SGT_CLOSED.
 *   - SGT_NO_MEMORY: nothing has changed, or the transaction was started and is aborted.
 */
uint32_t sgt_run(sgt_engine *engine, uint64_t procedure, const int64_t *args, size_t count, uint32_t *tid, sgt_reply *reply);

/*
 * Runs `count` calls one after another, each as sgt_run does: for batches, and to repeat what sgt_calls returned. Only
 * `procedure`, `args`, `arg` and `accesses` of a call count. The outcome of each call is written at its index in `outcomes`, whose
 * capacity is `capacity`. The number of calls that ran is written to `done`. A call also counts as run if its start is refused,
 * or if its transaction is aborted or has to wait: its outcome says so, and the next call follows.
 *
 * If the result is neither SGT_OK nor SGT_NO_MEMORY, outcomes and done are unchanged:
 *
 *   - SGT_BAD_CALL, tested first: a call has over 4 arguments or a procedure over 65535, its `accesses` are not 0, or `capacity` is
 *     less than `count`. Such accesses are the caller's to make again: see sgt_accesses.
 *   - SGT_CLOSED.
 *   - SGT_NO_MEMORY: the calls before number `done`, counted from 0, ran. Of that call nothing has changed, or its transaction
 *     was started and is aborted.
 */
uint32_t sgt_run_many(sgt_engine *engine, const sgt_call *calls, size_t count, sgt_outcome *outcomes, size_t capacity, uint64_t *done);

/*
 * The committed value of a record: that of the last committed transaction that wrote it, else the initial one. If the result
 * is not SGT_OK, the value is unchanged:
 *
 *   - SGT_BAD_CALL, tested first: the table is over 7, or the number is out of range.
 *   - SGT_CLOSED.
 *   - SGT_NONE: there is no such record.
 */
uint32_t sgt_get(const sgt_engine *engine, uint64_t table, int64_t number, int64_t *value);

/*
 * The committed database from a record on, by table and then by number; from table 0, number SGT_LEAST on it is all of it.
 * The first rows are written to `rows`, whose capacity is `capacity`. The number of all rows from there, which may be more, is
 * written to `count`.
 *
 * Read a large database by pages. The first call after an event scans all records, and allocates memory for the rows. The
 * engine keeps them, so until the next event each further call costs a search and the rows that it writes. While the history is
 * empty, so does the first one, and nothing is allocated. The memory is freed by the next scan, a cut, and sgt_close.
 *
 * If the result is not SGT_OK, rows and count are unchanged:
 *
 *   - SGT_BAD_CALL, tested first: the table is over 7, or the number is out of range.
 *   - SGT_CLOSED.
 *   - SGT_NO_MEMORY.
 */
uint32_t sgt_rows(const sgt_engine *engine, uint64_t table, int64_t number, sgt_row *rows, size_t capacity, uint64_t *count);

/*
 * How many records the committed database has: as many as sgt_rows returns from the first on. The call costs as much as one of
 * sgt_rows that writes no row.
 *
 * SGT_CLOSED; SGT_NO_MEMORY. If the result is not SGT_OK, the count is unchanged.
 */
uint32_t sgt_records(const sgt_engine *engine, uint64_t *count);

/*
 * The numbers of the live transactions, rising, into the first items of `tids`, and how many they are into `count`. There are never more
 * than 32. SGT_CLOSED.
 */
uint32_t sgt_live_tids(const sgt_engine *engine, uint32_t tids[32], uint64_t *count);

/*
 * The three limits, as an opening has them: how many transactions may be live at once, how many starts there may be until the history is cut,
 * and when codes are reported: 0 at the step, 1 at the commit. SGT_CLOSED.
 */
uint32_t sgt_limits(const sgt_engine *engine, uint64_t limits[3]);

/* How many entries the history has: one for each event since the engine was opened or last cut. SGT_CLOSED. */
uint32_t sgt_entries(const sgt_engine *engine, uint64_t *count);

/*
 * The entry at a position of the history, counted from 0, oldest first. The event is written to `event`, and its reply to
 * `reply`. If the result is not SGT_OK, both are unchanged:
 *
 * - SGT_CLOSED. - SGT_NONE: there are fewer entries.
 */
uint32_t sgt_entry(const sgt_engine *engine, uint64_t place, sgt_event *event, sgt_reply *reply);

/*
 * The calls of the committed and refused transactions, in the order of their replies, each with its answers or its code. It is
 * proved that running this list one after another gives the same answers, codes and database: by the procedures and the callers'
 * accesses alone, and on a new engine with the same initial database, procedures and limits. There none of them has to wait or is
 * aborted, and each read of a caller finds the same:
 *
 *   - calls whose `accesses` are 0 are run by sgt_run_many;
 *   - a call with accesses is started by sgt_start, with SGT_EMPTY or another procedure, and stepped to its end; then its
 *     accesses, which sgt_accesses returns, are made again by sgt_read, sgt_write and sgt_remove; then it is committed.
 *
 * The history is read from position `from` on. The first calls are written to `calls`, whose capacity is `capacity`, and their
 * number to `count`. The position to continue from is written to `next`: pass it as `from` the next time. When `next` is what
 * sgt_entries returns, there are no more calls. After a cut positions begin at 0 again.
 *
 * Each call is a start. If a journal of calls is longer than the most starts, cut in between; else the rest are SGT_SPENT.
 *
 * The cost grows with the entries from `from` to `next`, and for each call with the entries back to its start.
 *
 * If the result is not SGT_OK, calls, count and next are unchanged:
 *
 *   - SGT_CLOSED.
 *   - SGT_NONE: `from` is more than the number of entries.
 */
uint32_t sgt_calls(const sgt_engine *engine, uint64_t from, sgt_call *calls, size_t capacity, uint64_t *count, uint64_t *next);

/*
 * The accesses on which the caller of the transaction `tid` decided, in the order in which they were made, each with the value that
 * it read or wrote. Accesses of its stored procedure are not among them, nor those that were not made. The transaction may be
 * live or have ended. A transaction that was not started has none.
 *
 * The first accesses are written to `accesses`, whose capacity is `capacity`. The number of all, which may be more, is written to
 * `count`: for a call of sgt_calls it is `accesses`. The cost grows with the entries back to the transaction's start.
 *
 * SGT_CLOSED. If the result is not SGT_OK, accesses and count are unchanged.
 */
uint32_t sgt_accesses(const sgt_engine *engine, uint32_t tid, sgt_access *accesses, size_t capacity, uint64_t *count);

/*
 * Whether the transaction `tid`, live or not, has written or removed a record, by a step or for its caller: `wrote` is 1 if it has, and
 * else 0. A committed call that did not write has changed nothing, and a journal may leave it out. The cost grows with the entries back to
 * the transaction's last write, or to its start.
 *
 * SGT_CLOSED. If the result is not SGT_OK, `wrote` is unchanged.
 */
uint32_t sgt_wrote(const sgt_engine *engine, uint32_t tid, uint32_t *wrote);

/*
 * Allocates memory for `entries` more entries, of 40 bytes each, so that the history is not moved until then. The lists of
 * arguments, answers and transactions in the entries are not counted in. Nothing else changes.
 *
 * SGT_CLOSED; SGT_NO_MEMORY, also if the number exceeds all memory.
 */
uint32_t sgt_reserve(sgt_engine *engine, uint64_t entries);

/*
 * Forgets the history up to now, if no transaction is live. The engine continues from the committed database, as one that was
 * just opened on it: it has no entries, and numbers transactions from 0. Procedures and limits stay, and the limits count anew.
 * If you need the entries, read them before. The call scans all records, and allocates memory for them, unless the history is
 * empty. The memory of the entries is kept for those to come; what was used to less than a quarter is freed.
 *
 * If the result is not SGT_OK, the engine is unchanged:
 *
 *   - SGT_CLOSED.
 *   - SGT_STILL_LIVE, tested next: transactions are live. Their number is written to `live`; else `live` is unchanged.
 *   - SGT_TOO_MANY: there were 2^64 - 1 cuts.
 *   - SGT_NO_MEMORY.
 */
uint32_t sgt_cut(sgt_engine *engine, uint64_t *live);

/*
 * The number of the current part of the history: how many cuts there were since the engine was opened. Only a cut changes it.
 * Transactions are numbered from 0 in each part. So the part and the number together name one transaction of the engine, and
 * never another.
 *
 * SGT_CLOSED. If the result is not SGT_OK, the part is unchanged.
 */
uint32_t sgt_part(const sgt_engine *engine, uint64_t *part);

/*
 * The text of a reply: the line that `sgt script` writes for it, without its end and without a zero byte after it. If it fits
 * into `capacity` bytes, it is written whole, and else not at all. Its length is written to `length` in both cases. So call it
 * with a `capacity` of 0 first, or try 1024 bytes, in which every reply fits. The call allocates memory meanwhile.
 *
 * If the result is not SGT_OK, text and length are unchanged:
 *
 *   - SGT_BAD_CALL: the fields say no reply. No call of this library fills them so.
 *   - SGT_NO_MEMORY.
 */
uint32_t sgt_reply_text(const sgt_reply *reply, char *text, size_t capacity, uint64_t *length);

/*
 * The text of a fault, in the same way: what the program reports after `line 1: `. The text of SGT_PROC_SHAPE holds all
 * positions, and may be longer than 1024 bytes. Call it after a status from SGT_NOT_JSON on: only these fill a fault.
 *
 * If the result is not SGT_OK, text and length are unchanged:
 *
 *   - SGT_BAD_CALL: `kind` is not that of a fault.
 *   - SGT_NO_MEMORY.
 */
uint32_t sgt_fault_text(const sgt_fault *fault, char *text, size_t capacity, uint64_t *length);

/*
 * Why an opening was refused, in one line for a person: where its first error is, what was expected there and what was found.
 * It is the second line of an error of `sgt script`. `opening` is what was passed to sgt_open, sgt_open_with or sgt_shared_open.
 * Of the opening with the procedure `[0,[["put",256,1,1]]]` it is
 * `procedure 5, at 1 0 1: expected a table from 0 to 7, found 256`.
 *
 * The text is written as by sgt_fault_text, and its length to `written`. The words are ASCII, and may change with the version.
 * The call reads the opening once more, and allocates memory meanwhile.
 *
 * If the result is not SGT_OK, text and `written` are unchanged:
 *
 *   - SGT_NONE: there is nothing to explain, as the opening has no fault.
 *   - SGT_NO_MEMORY.
 */
uint32_t sgt_explain_opening(const char *opening, size_t length, char *text, size_t capacity, uint64_t *written);

/* The same of a text that sgt_procedure refused. `number` is the number that the text names: pass `procedure` of the fault. */
uint32_t sgt_explain_procedure(uint64_t number, const char *procedure, size_t length, char *text, size_t capacity,
                               uint64_t *written);

/*
 * The rest takes no engine and is not proved. The version is that of this header. sgt_version returns that of the linked
 * library, so that a program can compare the two. It ends in "+unproved" if the library was compiled without proof.
 * sgt_status_text returns a sentence for a status. Do not free either text.
 *
 * A library serves programs that were compiled with headers of the same major and minor number, if its patch number is
 * not lower. A patch adds calls and numbers at most. With another minor number structs and calls may differ: compile
 * anew. So the name by which programs find the shared library has both numbers: libsgt.so.0.4.
 */
#define SGT_VERSION_MAJOR 0
#define SGT_VERSION_MINOR 4
#define SGT_VERSION_PATCH 0
#define SGT_VERSION "0.4.0"

const char *sgt_version(void);
const char *sgt_status_text(uint32_t status);

#ifdef __cplusplus
}
#endif

#endif
