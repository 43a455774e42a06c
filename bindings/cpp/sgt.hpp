// sgt for C++: `sgt::SharedEngine` for many threads, and `sgt::Engine` for one. Both close themselves. sgt_shared.h and sgt.h say
// what each call does.
#ifndef SGT_HPP
#define SGT_HPP

#include <array>
#include <chrono>
#include <cstddef>
#include <cstdint>
#include <cstdlib>
#include <exception>
#include <functional>
#include <initializer_list>
#include <iterator>
#include <memory>
#include <new>
#include <optional>
#include <stdexcept>
#include <string>
#include <string_view>
#include <type_traits>
#include <utility>
#include <vector>

#include "sgt.h"
#if __has_include("sgt_shared.h")
#include "sgt_shared.h"
#else
#include "../c/sgt_shared.h" // in the checkout
#endif

namespace sgt {

// Returns the text that a C call writes into a buffer. Calls it with a small buffer first, and again if that is too small.
template <typename Write> std::string written(Write write)
{
    std::string text(64, '\0');
    for (;;) {
        std::uint64_t length = 0;
        auto status = write(&text[0], text.size(), &length);
        if (status == SGT_NO_MEMORY) throw std::bad_alloc();
        if (status != SGT_OK) throw std::invalid_argument("sgt: the fields tell nothing");
        bool fits = length <= text.size();
        text.resize(length);
        if (fits) return text;
    }
}

// Returns the text of a reply, as `sgt script` prints it.
inline std::string text(const sgt_reply &reply)
{
    return written([&](char *to, std::size_t capacity, std::uint64_t *length) { return sgt_reply_text(&reply, to, capacity, length); });
}

// Returns the text of a fault.
inline std::string text(const sgt_fault &fault)
{
    return written([&](char *to, std::size_t capacity, std::uint64_t *length) { return sgt_fault_text(&fault, to, capacity, length); });
}

// Throws std::runtime_error unless the library serves these headers: same major and minor number, and not older.
inline void check_version()
{
    char *rest = nullptr;
    const char *version = sgt_version();
    auto major = std::strtoul(version, &rest, 10), minor = std::strtoul(rest + 1, &rest, 10), patch = std::strtoul(rest + 1, &rest, 10);
    if (major == SGT_VERSION_MAJOR && minor == SGT_VERSION_MINOR && patch + 1 > SGT_VERSION_PATCH) return;
    throw std::runtime_error(std::string("sgt: the headers are of version " SGT_VERSION ", and the library of ") + version);
}

// Returns the bytes of a text, which may be empty.
inline const char *bytes_of(std::string_view text) { return text.data() ? text.data() : ""; }

// Returns the explanation of a fault, or the fault's own text if there is none.
template <typename Explain> std::string explained(const sgt_fault &fault, Explain explain)
{
    try {
        return written(explain);
    } catch (const std::exception &) {
        return text(fault);
    }
}

// Thrown by `Engine` if an opening or a procedure is refused. Holds the fault; `what` explains it: where the error is, what was
// expected there and what was found. If an allocation for that failed, `what` is the fault's own text.
class Refused : public std::runtime_error {
public:
    Refused(const sgt_fault &fault, const std::string &text) : std::runtime_error(text), fault(fault) {}

    // An opening with this fault.
    static Refused opening(const sgt_fault &fault, std::string_view opening)
    {
        return Refused(fault, explained(fault, [&](char *to, std::size_t capacity, std::uint64_t *length) {
            return sgt_explain_opening(bytes_of(opening), opening.size(), to, capacity, length);
        }));
    }

    // The text of a procedure with this fault.
    static Refused procedure(const sgt_fault &fault, std::string_view text)
    {
        return Refused(fault, explained(fault, [&](char *to, std::size_t capacity, std::uint64_t *length) {
            return sgt_explain_procedure(fault.procedure, bytes_of(text), text.size(), to, capacity, length);
        }));
    }

    const sgt_fault fault;
};

// Thrown by `Engine::cut` if transactions are live. Holds how many.
class StillLive : public std::runtime_error {
public:
    explicit StillLive(std::uint64_t live) : std::runtime_error("sgt: a transaction is live"), live(live) {}

    const std::uint64_t live;
};

// Thrown by `Engine` if a record or a procedure is added after the first event.
class Begun : public std::logic_error {
public:
    Begun() : std::logic_error("sgt: there is a history") {}
};

// Thrown by `Engine::put` if a record has a value already. Holds the index of the first such row.
class Taken : public std::invalid_argument {
public:
    explicit Taken(std::uint64_t at) : std::invalid_argument("sgt: the record of a row has a value already"), at(at) {}

    const std::uint64_t at;
};

// An entry of the history: an event and its reply.
struct Entry {
    sgt_event event;
    sgt_reply reply;
};

// Thrown by `SharedEngine` if the deadline comes first.
class TimedOut : public std::runtime_error {
public:
    TimedOut() : std::runtime_error("sgt: the deadline came") {}
};

// Thrown by `SharedEngine` if the transaction of a ticket belongs to a part of the history that was cut off.
class Stale : public std::runtime_error {
public:
    Stale() : std::runtime_error("sgt: the transaction is of a part of the history that was cut off") {}
};

// Thrown by `SharedEngine` if the call would wait, without a deadline, for a transaction that its own thread has to end.
class SelfWait : public std::logic_error {
public:
    SelfWait() : std::logic_error("sgt: the call would wait for its own thread, without a deadline") {}
};

// Thrown by the calls of an `OwnTransaction` if it has been aborted: nothing of it is in the database. The reply says why. If that was by a
// conflict, a cycle or a cascading abort, try it again; else a caller aborted it.
class Aborted : public std::runtime_error {
public:
    Aborted(const sgt_reply &reply, bool is_conflict) : std::runtime_error("sgt: " + text(reply)), reply(reply), is_conflict(is_conflict) {}

    const sgt_reply reply;
    const bool is_conflict;
};

// Thrown if a start is refused: no start is left.
class NotStarted : public std::runtime_error {
public:
    explicit NotStarted(const sgt_reply &reply) : std::runtime_error("sgt: " + text(reply)), reply(reply) {}

    const sgt_reply reply;
};

// The result of a run: the last reply, and the number of its transaction, if one was started.
struct Ran {
    std::optional<std::uint32_t> tid;
    sgt_reply reply;
};

// An engine for one thread at a time. If an allocation fails, a call throws std::bad_alloc and has changed nothing, except that a run
// may have started its transaction and aborted it. Too many arguments throw std::invalid_argument. A const member does not change the
// engine, but two threads must not be in it at once either.
class Engine {
public:
    explicit Engine(std::string_view opening) : Engine(opening, {}) {}

    // Also puts these rows into the initial database. Throws std::invalid_argument if one is out of range.
    Engine(std::string_view opening, const std::vector<sgt_row> &rows)
    {
        check_version();
        sgt_fault fault{};
        auto status = sgt_open_with(&engine, bytes_of(opening), opening.size(), rows.data(), rows.size(), &fault);
        if (status >= SGT_NOT_JSON) throw Refused::opening(fault, opening);
        check(status);
    }

    // Opens an engine without records and procedures, not even SmallBank's. Throws std::invalid_argument if a limit is out of range.
    static Engine bare(std::uint64_t live, std::uint64_t begins, bool asks = true)
    {
        return Engine(live, begins, asks);
    }

    ~Engine() { sgt_close(&engine); }

    Engine(const Engine &) = delete;
    Engine &operator=(const Engine &) = delete;

    sgt_reply start(std::uint64_t procedure, std::initializer_list<std::int64_t> args)
    {
        sgt_reply reply{};
        static const std::int64_t none = 0;
        check(sgt_start(&engine, procedure, args.size() ? args.begin() : &none, args.size(), &reply));
        return reply;
    }

    // Puts new records into the initial database. Throws Begun if the history is not empty. Each call goes through all records.
    void put(const std::vector<sgt_row> &rows)
    {
        static const sgt_row no_row{};
        std::uint64_t at = 0;
        auto status = sgt_put(&engine, rows.empty() ? &no_row : rows.data(), rows.size(), &at);
        if (status == SGT_TAKEN) throw Taken(at);
        check(status);
    }

    // Adds a procedure from its JSON text and returns its number. Throws Begun if the history is not empty.
    std::uint16_t procedure(std::string_view text)
    {
        sgt_fault fault{};
        std::uint16_t number = 0;
        auto status = sgt_procedure(&engine, bytes_of(text), text.size(), &number, &fault);
        if (status >= SGT_NOT_JSON) throw Refused::procedure(fault, text);
        check(status);
        return number;
    }

    // Runs a procedure from its start to its commit.
    Ran run(std::uint64_t procedure, std::initializer_list<std::int64_t> args)
    {
        sgt_reply reply{};
        static const std::int64_t none = 0;
        const std::uint32_t no_tid = UINT32_MAX; // a number that the limits never allow
        std::uint32_t tid = no_tid;
        check(sgt_run(&engine, procedure, args.size() ? args.begin() : &none, args.size(), &tid, &reply));
        return {tid == no_tid ? std::nullopt : std::optional(tid), reply};
    }

    // Runs these calls one after another, each as `run` does. It uses `procedure`, `args` and `arg` of each. If an allocation fails, it
    // returns fewer outcomes than calls; the calls after them have not run. Each call is a start: when no start is left by the limits, the
    // rest are SGT_SPENT, so cut now and then if a journal is longer.
    [[nodiscard]] std::vector<sgt_outcome> run_many(const std::vector<sgt_call> &calls)
    {
        static const sgt_call none{};
        std::vector<sgt_outcome> outcomes(calls.size() + 1);
        std::uint64_t done = 0;
        auto status = sgt_run_many(&engine, calls.empty() ? &none : calls.data(), calls.size(), outcomes.data(), calls.size(), &done);
        if (status != SGT_NO_MEMORY) check(status);
        outcomes.resize(done);
        return outcomes;
    }

    sgt_reply step(std::uint32_t tid) { return ask(sgt_step, tid); }
    sgt_reply commit(std::uint32_t tid) { return ask(sgt_commit, tid); }
    sgt_reply quit(std::uint32_t tid) { return ask(sgt_quit, tid); }

    // Starts a transaction of no procedure: its caller decides all its accesses, by `read`, `write` and `remove`.
    sgt_reply begin()
    {
        sgt_reply reply{};
        check(sgt_begin(&engine, &reply));
        return reply;
    }

    // Accesses of a transaction whose procedure is at its end. A value out of range is SGT_BAD_ARGS. A removal is a write of no value.
    sgt_reply read(std::uint32_t tid, std::uint64_t table, std::int64_t number)
    {
        sgt_reply reply{};
        check(sgt_read(&engine, tid, table, number, &reply));
        return reply;
    }

    sgt_reply write(std::uint32_t tid, std::uint64_t table, std::int64_t number, std::int64_t value)
    {
        sgt_reply reply{};
        check(sgt_write(&engine, tid, table, number, value, &reply));
        return reply;
    }

    sgt_reply remove(std::uint32_t tid, std::uint64_t table, std::int64_t number)
    {
        sgt_reply reply{};
        check(sgt_remove(&engine, tid, table, number, &reply));
        return reply;
    }

    // Returns the accesses that the caller of a transaction decided, in their order.
    std::vector<sgt_access> accesses(std::uint32_t tid) const
    {
        std::uint64_t count = 0;
        check(sgt_accesses(&engine, tid, nullptr, 0, &count));
        std::vector<sgt_access> accesses(count);
        if (count) check(sgt_accesses(&engine, tid, accesses.data(), accesses.size(), &count));
        return accesses;
    }

    // Returns the JSON text of a procedure, as `procedure` takes it, or none if there is no procedure of that number.
    std::optional<std::string> procedure_text(std::uint64_t number) const
    {
        std::string text;
        std::uint64_t length = 0;
        for (;;) {
            auto status = sgt_procedure_text(&engine, number, text.data(), text.size(), &length);
            if (status == SGT_NONE) return std::nullopt;
            check(status);
            if (length <= text.size()) return text.substr(0, length);
            text.resize(length);
        }
    }

    // Returns the committed value of a record, or none if there is no such record. A read outside of all transactions.
    std::optional<std::int64_t> get(std::uint64_t table, std::int64_t number) const
    {
        std::int64_t value = 0;
        auto status = sgt_get(&engine, table, number, &value);
        if (status == SGT_NONE) return std::nullopt;
        check(status);
        return value;
    }

    // Returns the committed database from a record on, in order of tables and then of numbers.
    std::vector<sgt_row> rows(std::uint64_t table = 0, std::int64_t number = SGT_LEAST) const
    {
        std::uint64_t count = 0;
        check(sgt_rows(&engine, table, number, nullptr, 0, &count));
        std::vector<sgt_row> rows(count);
        if (count) check(sgt_rows(&engine, table, number, rows.data(), rows.size(), &count));
        return rows;
    }

    // Returns the number of records of the committed database.
    std::uint64_t records() const
    {
        std::uint64_t count = 0;
        check(sgt_records(&engine, &count));
        return count;
    }

    // Whether a transaction, live or not, has written or removed a record.
    bool has_written(std::uint32_t tid) const
    {
        std::uint32_t wrote = 0;
        check(sgt_wrote(&engine, tid, &wrote));
        return wrote == 1;
    }

    // Returns the numbers of the live transactions, rising.
    std::vector<std::uint32_t> live() const
    {
        std::uint32_t tids[32]; // no more are ever live
        std::uint64_t count = 0;
        check(sgt_live_tids(&engine, tids, &count));
        return {tids, tids + count};
    }

    // Returns the three limits, as an opening has them: the most live transactions, the most starts, and when codes are reported.
    std::array<std::uint64_t, 3> limits() const
    {
        std::array<std::uint64_t, 3> limits{};
        check(sgt_limits(&engine, limits.data()));
        return limits;
    }

    // Returns how often the history was cut. With this number, the number of a transaction is unique.
    std::uint64_t part() const
    {
        std::uint64_t part = 0;
        check(sgt_part(&engine, &part));
        return part;
    }

    std::uint64_t entries() const
    {
        std::uint64_t count = 0;
        check(sgt_entries(&engine, &count));
        return count;
    }

    // Returns the entry at an index, oldest first, or none if the history is shorter.
    std::optional<Entry> entry(std::uint64_t place) const
    {
        Entry entry{};
        auto status = sgt_entry(&engine, place, &entry.event, &entry.reply);
        if (status == SGT_NONE) return std::nullopt;
        check(status);
        return entry;
    }

    // Returns the committed and refused calls of the history from an index on, in reply order, at most `most`, and the index to go on from.
    // Returns none if the history is shorter. Run one after another, these calls give the same answers.
    std::optional<std::pair<std::vector<sgt_call>, std::uint64_t>> calls(std::uint64_t from, std::size_t most) const
    {
        std::vector<sgt_call> calls(most ? most : 1);
        std::uint64_t count = 0, next = 0;
        auto status = sgt_calls(&engine, from, calls.data(), most, &count, &next);
        if (status == SGT_NONE) return std::nullopt;
        check(status);
        calls.resize(count);
        return std::pair(calls, next);
    }

    // Allocates memory for this many more entries.
    void reserve(std::uint64_t entries) { check(sgt_reserve(&engine, entries)); }

    // Cuts the history off. Throws StillLive if a transaction is live; then nothing has changed.
    void cut()
    {
        std::uint64_t live = 0;
        auto status = sgt_cut(&engine, &live);
        if (status == SGT_STILL_LIVE) throw StillLive(live);
        check(status);
    }

private:
    friend class SharedEngine;

    sgt_engine engine{};

    Engine(std::uint64_t live, std::uint64_t begins, bool asks)
    {
        check_version();
        auto status = sgt_open_bare(&engine, live, begins, asks);
        if (status == SGT_BAD_LIMITS) throw std::invalid_argument("sgt: bad limits");
        check(status);
    }

    static void check(std::uint32_t status)
    {
        if (status == SGT_OK) return;
        if (status == SGT_NO_MEMORY) throw std::bad_alloc();
        if (status == SGT_BAD_CALL) throw std::invalid_argument("sgt: a number is out of its range");
        if (status == SGT_BEGUN) throw Begun();
        if (status == SGT_TOO_MANY) throw std::length_error("sgt: no number is left for a procedure");
        throw std::logic_error(std::string("sgt: ") + sgt_status_text(status));
    }

    sgt_reply ask(std::uint32_t (*event)(sgt_engine *, std::uint32_t, sgt_reply *), std::uint32_t tid)
    {
        sgt_reply reply{};
        check(event(&engine, tid, &reply));
        return reply;
    }
};

// How long a call may wait. std::nullopt: without a limit.
using Wait = std::optional<std::chrono::nanoseconds>;

// The configuration of a shared engine: see sgt_shared_config. What a hook throws is thrown by the call in which it was
// called. That call has been carried out, with one exception: if `cutting` throws there is no cut, and a call that was
// to cut before it starts a transaction has started nothing. A destructor, OwnTransaction::quit and a drain call no
// hook: a cut that is due is left to a later call.
struct Configuration {
    std::function<void(const sgt_ended &)> ended;
    std::function<void(sgt_engine *, std::uint64_t part)> cutting;
    bool keeps_ended = false;
    std::uint64_t cut_after = 0;
    std::chrono::nanoseconds cut_wait{0};
};

// How long a run may wait, and how often it is tried (0: without a limit). See sgt_run_options.
struct Limits {
    Wait wait = std::nullopt;
    std::uint32_t tries = 0;
};

// How long a transaction function may wait, and after how many aborts by a conflict it is run alone (0: at once). See sgt_transact_options.
struct TransactLimits {
    Wait wait = std::nullopt;
    std::uint32_t tries = 8;
};

class SharedEngine;

// A transaction whose accesses you decide: that of the body of `SharedEngine::transact`, which commits it, or the base
// of a BegunTransaction. It can be neither copied, moved nor assigned, so a body cannot put another one in its place.
// What it reads may be uncommitted, and be undone afterwards: so act on it only after the commit. Each call throws
// Aborted if it has been aborted, std::invalid_argument if a number is out of range, or std::bad_alloc; and
// std::logic_error (SGT_MISUSE) if you have committed or aborted it before.
class OwnTransaction {
public:
    OwnTransaction(const OwnTransaction &) = delete;
    OwnTransaction &operator=(const OwnTransaction &) = delete;

    // Identifies the last try: once it is committed, that of its `sgt_ended`.
    [[nodiscard]] const sgt_ticket &ticket() const { return reported.ticket; }

    // How many transactions were started for it, this one included.
    [[nodiscard]] std::uint32_t tries() const { return reported.tries; }

    // Returns the value of a record, or none if there is no such record.
    [[nodiscard]] std::optional<std::int64_t> read(std::uint64_t table, std::int64_t number)
    {
        std::int64_t value = 0;
        auto status = made([&] { return sgt_transaction_read(&reported, table, number, &value); });
        if (status == SGT_NONE) return std::nullopt;
        check(status);
        return value;
    }

    // Writes a record.
    void write(std::uint64_t table, std::int64_t number, std::int64_t value)
    {
        check(made([&] { return sgt_transaction_write(&reported, table, number, value); }));
    }

    // Removes a record. Does nothing if there is none.
    void remove(std::uint64_t table, std::int64_t number)
    {
        check(made([&] { return sgt_transaction_remove(&reported, table, number); }));
    }

    // Aborts it, unless it has ended.
    void quit()
    {
        if (reported.is_live) static_cast<void>(ends_undone());
    }

private:
    friend class BegunTransaction;
    friend class SharedEngine;

    explicit OwnTransaction(sgt_shared *shared) : shared(shared) { reported.size = sizeof reported; }

    ~OwnTransaction() { abandon(); }

    // Aborts it, unless it has ended: also inside a hook of the engine. This calls no hook, so it throws nothing.
    void abandon() noexcept
    {
        if (reported.is_live) sgt_shared_abandon(shared, &reported.ticket);
        reported.is_live = 0;
    }

    void check(std::uint32_t status) const;

    // Makes an access. It throws nothing but what a hook throws in it, which is noted.
    template <typename Access> std::uint32_t made(Access access)
    {
        try {
            return access();
        } catch (...) {
            of_hook = std::current_exception();
            throw;
        }
    }

    // Starts the next try: alone after `tries` tries.
    void start(Wait wait, std::uint32_t tries);

    // Commits it. False if it was aborted by a conflict.
    bool is_committed(Wait wait);

    // Aborts it. Whether it was aborted by a conflict.
    bool ends_undone() { return sgt_transaction_quit(&reported) == SGT_UNDONE; }

    [[nodiscard]] Aborted aborted() const { return Aborted(reported.reply, reported.status == SGT_UNDONE); }

    sgt_shared *shared;
    sgt_transaction reported{};
    std::exception_ptr of_hook; // what a hook threw last in an access
};

// A transaction of `SharedEngine::begin`, which you commit. Its destructor aborts it, unless it has ended before, and
// throws nothing. It must not outlive the engine.
class [[nodiscard]] BegunTransaction : public OwnTransaction {
public:
    BegunTransaction(BegunTransaction &&other) noexcept : OwnTransaction(other.shared) { take(other); }

    // Aborts what was there before, unless it has ended.
    BegunTransaction &operator=(BegunTransaction &&other) noexcept
    {
        if (this == &other) return *this;
        abandon();
        take(other);
        return *this;
    }

    // Commits it, and waits for its predecessors. Throws TimedOut if the deadline comes first, or SelfWait; then it was
    // aborted.
    void commit(Wait wait = std::nullopt)
    {
        if (!is_committed(wait)) throw aborted();
    }

private:
    friend class SharedEngine;

    BegunTransaction(sgt_shared *shared, Wait wait) : OwnTransaction(shared)
    {
        start(wait, UINT32_MAX); // it has one try, so it is never alone
    }

    void take(BegunTransaction &other) noexcept
    {
        shared = other.shared;
        reported = other.reported;
        other.reported.is_live = 0;
    }
};

namespace detail {

// Whether an expression has a type, with this type in it.
template <template <typename> class Expression, typename Type, typename = void> struct Has : std::false_type {};
template <template <typename> class Expression, typename Type>
struct Has<Expression, Type, std::void_t<Expression<Type>>> : std::true_type {};

template <typename Type> using OfCoroutine = typename Type::promise_type;
template <typename Type> using OfAwaitable = decltype(std::declval<Type &>().await_ready());
template <typename Type> using OfFuture = decltype(std::declval<Type &>().valid(), std::declval<Type &>().wait());

// Whether what a body returns may have still to be run when the body has returned: then it would use a transaction that
// has ended.
template <typename Result>
constexpr bool is_lazy =
    Has<OfCoroutine, Result>::value || Has<OfAwaitable, Result>::value || Has<OfFuture, Result>::value;

} // namespace detail

// A transaction of a procedure in a shared engine. Its destructor aborts it, unless it has ended before, and throws
// nothing. It must not outlive the engine. After its end the reply to each call is SGT_OVER, or the call throws Stale.
class [[nodiscard]] Transaction {
public:
    Transaction(Transaction &&other) noexcept
        : shared(other.shared), of(other.of), is_live(std::exchange(other.is_live, false)), first(other.first)
    {
    }

    Transaction &operator=(Transaction &&other) noexcept
    {
        std::swap(shared, other.shared);
        std::swap(of, other.of);
        std::swap(is_live, other.is_live);
        std::swap(first, other.first);
        return *this;
    }

    Transaction(const Transaction &) = delete;
    Transaction &operator=(const Transaction &) = delete;

    ~Transaction()
    {
        if (is_live) sgt_shared_abandon(shared, &of); // also inside a hook of the engine
    }

    [[nodiscard]] const sgt_ticket &ticket() const { return of; }

    // Makes the next access of the procedure.
    [[nodiscard]] sgt_reply step()
    {
        sgt_reply reply{};
        return reported(sgt_shared_step(shared, &of, &reply), reply);
    }

    // Commits the transaction, and waits for its predecessors. Throws TimedOut if the deadline comes first; it is still live then, and
    // `waits_for` names the predecessor.
    [[nodiscard]] sgt_reply commit(Wait wait = std::nullopt);

    // Returns the number of the transaction that the last commit waits for, if it threw TimedOut or SelfWait.
    [[nodiscard]] std::optional<std::uint32_t> waits_for() const { return first; }

    // Aborts the transaction.
    sgt_reply quit()
    {
        sgt_reply reply{};
        return reported(sgt_shared_quit(shared, &of, &reply), reply);
    }

private:
    friend class SharedEngine;

    Transaction(sgt_shared *shared, const sgt_ticket &of) : shared(shared), of(of) {}

    sgt_reply reported(std::uint32_t status, const sgt_reply &reply);

    sgt_shared *shared;
    sgt_ticket of;
    bool is_live = true; // false once it has ended, or has been moved from
    std::optional<std::uint32_t> first; // what its last commit waits for
};

// An engine for many threads: any thread may call it at any time. Move it and close it while no other thread uses it.
class SharedEngine {
public:
    explicit SharedEngine(std::string_view opening, const std::vector<sgt_row> &rows = {}, Configuration with = {})
        : hooks(std::make_unique<Configuration>(std::move(with)))
    {
        check_version();
        sgt_fault fault{};
        const auto config = for_c();
        auto status = sgt_shared_open(&shared, bytes_of(opening), opening.size(), rows.data(), rows.size(), &config, &fault);
        if (status >= SGT_NOT_JSON) throw Refused::opening(fault, opening);
        check(status);
    }

    // Takes over an engine without a history: one that `put` and `procedure` have prepared, say. It is closed afterwards. Throws Begun if
    // it has a history; then it is as before.
    explicit SharedEngine(Engine &&prepared, Configuration with = {}) : hooks(std::make_unique<Configuration>(std::move(with)))
    {
        const auto config = for_c();
        auto status = sgt_shared_take(&shared, &prepared.engine, &config);
        if (status == SGT_BEGUN) throw Begun();
        check(status);
    }

    // If a thread waits in a call, or is in a hook, or this is a forked child, the engine and its hooks stay as they are.
    ~SharedEngine()
    {
        auto status = sgt_shared_close(&shared);
        if (status == SGT_BUSY || status == SGT_MISUSE) static_cast<void>(hooks.release());
    }

    SharedEngine(SharedEngine &&other) noexcept : hooks(std::move(other.hooks)), shared(std::exchange(other.shared, nullptr)) {}

    SharedEngine &operator=(SharedEngine &&other) noexcept
    {
        std::swap(hooks, other.hooks);
        std::swap(shared, other.shared);
        return *this;
    }

    // Runs a procedure from its start to its commit. The arguments are a list or a range.
    [[nodiscard]] sgt_shared_outcome run(std::uint64_t procedure, std::initializer_list<std::int64_t> args, Limits limits = {})
    {
        return run_with(procedure, args.begin(), args.size(), limits);
    }

    template <typename Args> [[nodiscard]] sgt_shared_outcome run(std::uint64_t procedure, const Args &args, Limits limits = {})
    {
        return run_with(procedure, std::data(args), std::size(args), limits);
    }

    // Starts a transaction. Returns it, or the reply if the start is refused.
    [[nodiscard]] std::pair<std::optional<Transaction>, sgt_reply> start(std::uint64_t procedure,
                                                                         std::initializer_list<std::int64_t> args,
                                                                         Wait wait = std::nullopt)
    {
        return start_with(procedure, args.begin(), args.size(), wait);
    }

    template <typename Args>
    [[nodiscard]] std::pair<std::optional<Transaction>, sgt_reply> start(std::uint64_t procedure, const Args &args,
                                                                         Wait wait = std::nullopt)
    {
        return start_with(procedure, std::data(args), std::size(args), wait);
    }

    // Runs a function of yours as a transaction, `body(OwnTransaction &)`, commits it, and returns what it returned.
    //
    // The body is run again after a conflict, so it must have no effects but its accesses. What it reads may be uncommitted, and be undone
    // afterwards: act on it after the commit, when this call has returned. What it throws aborts the transaction and is rethrown, unless it
    // is a std::exception and a conflict had come first; it may rest on a value that is undone. To refuse truthfully, return the refusal
    // without a write: once that is committed, it is true. What it returns must not be a std::future, nor be awaited.
    //
    // What a hook throws is rethrown in each case, unless the body catches it. Nothing is committed then, unless it
    // threw in the commit.
    //
    // After `tries` conflicts the next try is made alone: others wait until it has ended, and it has no conflicts.
    //
    // Throws TimedOut if the deadline comes first, which does not interrupt the body; Aborted if another caller aborted the transaction;
    // NotStarted; SelfWait; std::bad_alloc. Then nothing of it is left live.
    template <typename Body> auto transact(Body body, TransactLimits limits = {}) -> decltype(body(std::declval<OwnTransaction &>()))
    {
        using Result = decltype(body(std::declval<OwnTransaction &>()));
        static_assert(!detail::is_lazy<Result>,
                      "sgt: a body must not be a coroutine, nor return a future: that would run after the commit");
        const auto begin = std::chrono::steady_clock::now();
        OwnTransaction own(shared);
        if constexpr (std::is_void_v<Result>) {
            while (!is_done(own, [&] { body(own); }, limits, begin)) {}
        } else {
            std::optional<Result> result;
            while (!is_done(own, [&] { result.emplace(body(own)); }, limits, begin)) {}
            return std::move(*result);
        }
    }

    // Starts a transaction whose accesses you decide. Throws NotStarted, TimedOut, SelfWait or std::bad_alloc.
    [[nodiscard]] BegunTransaction begin(Wait wait = std::nullopt) { return {shared, wait}; }

    // Returns the accesses that the caller of a transaction decided, in their order. Throws Stale once the history is cut. The hooks of the
    // engine may call it. The cost grows with the entries since its start, so ask soon.
    [[nodiscard]] std::vector<sgt_access> accesses(const sgt_ticket &ticket)
    {
        std::vector<sgt_access> accesses;
        std::uint64_t count = 0;
        do {
            accesses.resize(count);
            check(sgt_shared_accesses(shared, &ticket, accesses.data(), accesses.size(), &count));
        } while (count > accesses.size());
        return accesses;
    }

    // Aborts the transaction of a ticket, which `live` and the hooks return.
    sgt_reply quit(const sgt_ticket &ticket)
    {
        sgt_reply reply{};
        check(sgt_shared_quit(shared, &ticket, &reply));
        return reply;
    }

    // Returns the live transactions.
    [[nodiscard]] std::vector<sgt_live> live()
    {
        std::vector<sgt_live> rows(32); // no more are ever live
        std::uint64_t count = 0;
        check(sgt_shared_live(shared, rows.data(), rows.size(), &count));
        rows.resize(count);
        return rows;
    }

    // Cuts the history off once no transaction is live. New transactions wait meanwhile.
    void cut(Wait wait = std::nullopt) { check(sgt_shared_cut(shared, nanoseconds(wait))); }

    // Returns the committed value of a record, or none if there is no such record.
    [[nodiscard]] std::optional<std::int64_t> get(std::uint64_t table, std::int64_t number)
    {
        std::int64_t value = 0;
        auto status = sgt_shared_get(shared, table, number, &value);
        if (status == SGT_NONE) return std::nullopt;
        check(status);
        return value;
    }

    // Returns the committed database from a record on. Other threads may add records between the two calls, so it repeats them until the
    // buffer is large enough.
    [[nodiscard]] std::vector<sgt_row> rows(std::uint64_t table = 0, std::int64_t number = SGT_LEAST)
    {
        std::vector<sgt_row> rows;
        std::uint64_t count = 0;
        do {
            rows.resize(count);
            check(sgt_shared_rows(shared, table, number, rows.data(), rows.size(), &count));
        } while (count > rows.size());
        rows.resize(count);
        return rows;
    }

    // Returns the three limits, as `Engine::limits` does.
    [[nodiscard]] std::array<std::uint64_t, 3> limits()
    {
        std::array<std::uint64_t, 3> limits{};
        check(sgt_shared_limits(shared, limits.data()));
        return limits;
    }

    // Returns the number of entries of the history since the last cut.
    [[nodiscard]] std::uint64_t entries()
    {
        std::uint64_t count = 0;
        check(sgt_shared_entries(shared, &count, nullptr));
        return count;
    }

    // Takes at most `most` of the stored calls. Returns an empty list if none comes in time. Throws std::logic_error if the engine stores
    // none. It calls no hook, so that nothing that was taken is lost.
    [[nodiscard]] std::vector<sgt_ended> drain(std::size_t most, Wait wait = std::nullopt)
    {
        if (hooks && !hooks->keeps_ended) throw std::logic_error("sgt: the engine stores no calls: set keeps_ended in its configuration");
        std::vector<sgt_ended> calls(most);
        std::uint64_t count = 0;
        check(sgt_shared_drain(shared, nanoseconds(wait), calls.data(), calls.size(), &count));
        calls.resize(count);
        return calls;
    }

    static std::int64_t nanoseconds(Wait wait) { return wait ? std::int64_t{wait->count()} : SGT_FOREVER; }

    static void check(std::uint32_t status)
    {
        if (status == SGT_OK) return;
        if (status == SGT_NO_MEMORY) throw std::bad_alloc();
        if (status == SGT_TIMED_OUT) throw TimedOut();
        if (status == SGT_STALE) throw Stale();
        if (status == SGT_SELF_WAIT) throw SelfWait();
        if (status == SGT_BAD_CALL) throw std::invalid_argument("sgt: an argument of the call is out of its range");
        throw std::logic_error(std::string("sgt: ") + sgt_status_text(status));
    }

private:
    std::unique_ptr<Configuration> hooks; // at a stable address, since the library keeps a pointer to it
    sgt_shared *shared = nullptr;

    // The configuration in the library's form. It points to `hooks`.
    sgt_shared_config for_c() const
    {
        sgt_shared_config config{};
        config.size = sizeof config;
        config.context = hooks.get();
        if (hooks->ended) config.ended = report_ended;
        if (hooks->cutting) config.cutting = report_cutting;
        config.keeps_ended = hooks->keeps_ended;
        config.cut_after = hooks->cut_after;
        config.cut_wait_ns = hooks->cut_wait.count();
        return config;
    }

    // What is left of the limits.
    static Wait left(TransactLimits limits, std::chrono::steady_clock::time_point begin)
    {
        if (!limits.wait || *limits.wait == std::chrono::nanoseconds::max()) return std::nullopt;
        const auto left = *limits.wait - std::chrono::duration_cast<std::chrono::nanoseconds>(std::chrono::steady_clock::now() - begin);
        return left.count() > 0 ? left : std::chrono::nanoseconds(0);
    }

    // Makes a try of a transaction function. Whether it is committed; else a conflict undid it.
    template <typename Call>
    static bool is_done(OwnTransaction &own, Call call, TransactLimits limits, std::chrono::steady_clock::time_point begin)
    {
        own.start(left(limits, begin), limits.tries);
        try {
            call();
        } catch (const std::exception &) {
            if (std::current_exception() == own.of_hook || !own.ends_undone()) throw;
            return false;
        }
        return own.is_committed(left(limits, begin));
    }

    static void report_ended(void *context, const sgt_ended *call) { static_cast<Configuration *>(context)->ended(*call); }

    static void report_cutting(void *context, sgt_engine *engine, std::uint64_t part)
    {
        static_cast<Configuration *>(context)->cutting(engine, part);
    }

    sgt_shared_outcome run_with(std::uint64_t procedure, const std::int64_t *args, std::size_t count, Limits limits)
    {
        sgt_shared_outcome outcome{};
        sgt_run_options options{};
        outcome.size = sizeof outcome;
        options.size = sizeof options;
        options.wait_ns = nanoseconds(limits.wait);
        options.tries = limits.tries;
        check(sgt_shared_run(shared, procedure, args, count, &options, &outcome));
        return outcome;
    }

    std::pair<std::optional<Transaction>, sgt_reply> start_with(std::uint64_t procedure, const std::int64_t *args, std::size_t count,
                                                                Wait wait)
    {
        sgt_ticket ticket{};
        sgt_reply reply{};
        check(sgt_shared_start(shared, procedure, args, count, nanoseconds(wait), &ticket, &reply));
        if (reply.kind != SGT_STARTED) return {std::nullopt, reply};
        return {Transaction(shared, ticket), reply};
    }
};

inline void OwnTransaction::check(std::uint32_t status) const
{
    if (status == SGT_UNDONE) throw aborted();
    SharedEngine::check(status);
}

inline void OwnTransaction::start(Wait wait, std::uint32_t tries)
{
    sgt_transact_options options{};
    options.size = sizeof options;
    options.wait_ns = SharedEngine::nanoseconds(wait);
    options.tries = tries;
    SharedEngine::check(sgt_shared_try(shared, &reported, &options));
    if (reported.reply.kind != SGT_STARTED) throw NotStarted(reported.reply);
}

inline bool OwnTransaction::is_committed(Wait wait)
{
    auto status = sgt_transaction_commit(&reported, SharedEngine::nanoseconds(wait));
    if (status == SGT_UNDONE) return false;
    SharedEngine::check(status);
    if (reported.reply.kind != SGT_COMMITTED) throw aborted();
    return true;
}

inline sgt_reply Transaction::commit(Wait wait)
{
    sgt_reply reply{};
    auto status = sgt_shared_commit(shared, &of, SharedEngine::nanoseconds(wait), &reply);
    first = reply.kind == SGT_WAITS ? std::optional(reply.tid) : std::nullopt;
    return reported(status, reply);
}

inline sgt_reply Transaction::reported(std::uint32_t status, const sgt_reply &reply)
{
    SharedEngine::check(status);
    if (reply.kind == SGT_COMMITTED || reply.kind == SGT_ABORTED || reply.kind == SGT_REFUSED || reply.kind == SGT_OVER) is_live = false;
    return reply;
}

} // namespace sgt

#endif
