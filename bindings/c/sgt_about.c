/* The version of the library, and texts of statuses. */
#include "sgt.h"

#define TEXT(number) #number
#define JOINED(major, minor, patch) TEXT(major) "." TEXT(minor) "." TEXT(patch)

_Static_assert(sizeof SGT_VERSION == sizeof JOINED(SGT_VERSION_MAJOR, SGT_VERSION_MINOR, SGT_VERSION_PATCH),
               "SGT_VERSION is spelled by its three numbers");

/* bindings/build defines it: "+unproved" of a library that was compiled without proof. */
#ifndef SGT_SUFFIX
#define SGT_SUFFIX ""
#endif

const char *sgt_version(void) { return JOINED(SGT_VERSION_MAJOR, SGT_VERSION_MINOR, SGT_VERSION_PATCH) SGT_SUFFIX; }

const char *sgt_status_text(uint32_t status)
{
    switch (status) {
    case SGT_OK: return "the call was carried out";
    case SGT_NO_MEMORY: return "out of memory";
    case SGT_CLOSED: return "the engine is closed";
    case SGT_OPEN: return "the engine is open already";
    case SGT_NONE: return "there is no such record, entry or procedure, or nothing to explain";
    case SGT_BAD_CALL: return "an argument of the call is out of its range";
    case SGT_STILL_LIVE: return "a transaction is live, so the history can't be cut off";
    case SGT_BEGUN: return "there is a history, so nothing can be added to what the engine begins with";
    case SGT_TAKEN: return "the record of a row has a value already";
    case SGT_TOO_MANY: return "no number is left for a procedure";
    case SGT_BUSY: return "another call is in the engine, or another thread waits in one";
    case SGT_SELF_WAIT: return "the call would wait for its own thread, without a deadline";
    case SGT_TIMED_OUT: return "the deadline came";
    case SGT_STALE: return "the transaction is of a part of the history that was cut off";
    case SGT_MISUSE: return "the call may not be made from here, the transaction has ended, or the ticket is of another engine";
    case SGT_UNDONE: return "the transaction was aborted by a conflict, and may be tried again";
    case SGT_NOT_JSON: return "the text is no JSON";
    case SGT_BAD_LINE: return "the text is JSON, and no opening";
    case SGT_BAD_LIMITS: return "a limit of the opening is out of its range";
    case SGT_BAD_OPENING: return "an account of the opening has a fault";
    case SGT_PROC_SHAPE: return "a procedure has a shape error";
    case SGT_PROC_FLAW: return "a procedure has a flaw";
    default: return "no status of sgt";
    }
}
