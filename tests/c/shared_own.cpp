// Transactions whose caller decides the accesses, in C++: functions that commit, throw and abort, transactions that are destroyed, errors,
// single calls, threads that end in a body, and threads on three records. Each failed check is printed; the last line counts them.
#include <pthread.h>

#include <atomic>
#include <chrono>
#include <cstdio>
#include <cstring>
#include <map>
#include <new>
#include <random>
#include <stdexcept>
#include <string>
#include <thread>
#include <tuple>
#include <vector>

#include "sgt.hpp"

static std::atomic<int> checks{0}, failed{0};

#define CHECK(holds) check((holds), #holds, __LINE__)

static void check(bool holds, const char *text, int line)
{
    checks++;
    if (holds) return;
    failed++;
    std::printf("line %d: %s\n", line, text);
}

static const char *const opening = R"({"limits":[4,100000,1],"accounts":[],"procedures":[]})";
enum : std::uint64_t { TABLE = 2 };
static const std::vector<sgt_row> rows{{TABLE, 0, 101, 10}, {TABLE, 0, 102, 20}, {TABLE, 0, 103, 30}};
using std::chrono::milliseconds;

// Whether a call throws this.
template <typename Error, typename Call> bool throws(Call call)
{
    try {
        call();
    } catch (const Error &) {
        return true;
    }
    return false;
}

static void functions_are_committed()
{
    sgt::SharedEngine bank(opening, rows);
    auto ticket = bank.transact([](sgt::OwnTransaction &t) {
        CHECK(t.read(TABLE, 101) == 10 && !t.read(TABLE, 109) && t.tries() == 1);
        t.write(TABLE, 101, 11);
        t.remove(TABLE, 102);
        CHECK(t.read(TABLE, 101) == 11 && !t.read(TABLE, 102));
        return t.ticket();
    });
    CHECK(bank.get(TABLE, 101) == 11 && !bank.get(TABLE, 102) && bank.rows().size() == 2);
    auto accesses = bank.accesses(ticket);
    CHECK(accesses.size() == 6 && accesses[2].kind == SGT_WRITE && accesses[2].value == 11 && accesses[3].kind == SGT_REMOVE);
    bank.transact([](sgt::OwnTransaction &t) { t.write(TABLE, 104, 40); });
    auto own = bank.begin();
    own.write(TABLE, 104, own.read(TABLE, 104).value_or(0) + 1);
    own.commit();
    {
        auto dropped = bank.begin();
        dropped.write(TABLE, 104, 99);
        auto moved = std::move(dropped);
        CHECK(moved.read(TABLE, 104) == 99 && bank.live().size() == 1);
    }
    CHECK(bank.get(TABLE, 104) == 41 && bank.live().empty());
    bank.cut();
    CHECK(throws<sgt::Stale>([&] { static_cast<void>(bank.accesses(ticket)); }));
}

static void functions_throw()
{
    sgt::SharedEngine bank(opening, rows);
    CHECK(throws<int>([&] {
        bank.transact([](sgt::OwnTransaction &t) {
            t.write(TABLE, 101, 99);
            throw 7;
        });
    }));
    CHECK(throws<std::domain_error>([&] {
        bank.transact([](sgt::OwnTransaction &t) {
            t.write(TABLE, 101, 99);
            throw std::domain_error("too little");
        });
    }));
    CHECK(throws<std::invalid_argument>([&] { bank.transact([](sgt::OwnTransaction &t) { t.write(8, 1, 1); }); }));
    CHECK(throws<std::invalid_argument>([&] { bank.transact([](sgt::OwnTransaction &t) { t.remove(TABLE, SGT_MOST + 1); }); }));
    CHECK(throws<sgt::Aborted>([&] { bank.transact([](sgt::OwnTransaction &t) { t.quit(); }); }));
    auto ended = bank.begin();
    ended.commit();
    CHECK(throws<std::logic_error>([&] { ended.write(TABLE, 101, 99); }));
    auto moved = std::move(ended);
    CHECK(throws<std::logic_error>([&] { ended.write(TABLE, 101, 99); }));
    CHECK(throws<std::logic_error>([&] { moved.write(TABLE, 101, 99); }));
    CHECK(bank.live().empty() && bank.get(TABLE, 101) == 10);
}

static void errors_say_why()
{
    sgt::SharedEngine bank(opening, rows);
    auto writer = bank.begin(), reader = bank.begin(), other = bank.begin();
    writer.write(TABLE, 101, 11);
    CHECK(reader.read(TABLE, 101) == 11 && other.read(TABLE, 101) == 11);
    CHECK(throws<sgt::SelfWait>([&] { reader.commit(); }));
    writer.quit();
    try {
        other.write(TABLE, 101, 1);
        CHECK(false);
    } catch (const sgt::Aborted &why) {
        CHECK(why.is_conflict && why.reply.kind == SGT_OVER && why.reply.cause == SGT_BY_FALL);
    }
    writer = bank.begin();
    writer.write(TABLE, 101, 11);
    sgt::TransactLimits limits;
    limits.wait = milliseconds(5);
    const auto reads = [](sgt::OwnTransaction &t) { return t.read(TABLE, 101); };
    CHECK(throws<sgt::TimedOut>([&] { bank.transact(reads, limits); }));
    limits.wait = std::chrono::nanoseconds::max(); // for ever
    CHECK(throws<sgt::SelfWait>([&] { bank.transact(reads, limits); }));
    bank.quit(writer.ticket());
    try {
        writer.commit();
        CHECK(false);
    } catch (const sgt::Aborted &why) {
        CHECK(!why.is_conflict && why.reply.cause == SGT_BY_QUIT);
    }
    CHECK(bank.live().empty());
    sgt::SharedEngine few(R"({"limits":[1,1,1],"accounts":[],"procedures":[]})");
    few.transact([](sgt::OwnTransaction &t) { t.write(0, 1, 1); });
    CHECK(throws<sgt::NotStarted>([&] { few.transact([](sgt::OwnTransaction &) {}); }));
}

static void conflicts_are_tried_again()
{
    sgt::SharedEngine bank(opening, rows);
    for (bool is_thrown : {false, true}) {
        unsigned tries = 0;
        auto value = bank.transact([&](sgt::OwnTransaction &t) {
            std::optional<sgt::BegunTransaction> other;
            if (++tries < 4) other.emplace(bank.begin());
            if (other) other->write(TABLE, 101, 99);
            auto read = t.read(TABLE, 101);
            const bool is_undone = other.has_value();
            other.reset();
            if (is_undone && is_thrown) throw std::out_of_range("of a value that is undone");
            t.write(TABLE, 102, *read);
            return *read;
        });
        CHECK(value == 10 && tries == 4 && bank.get(TABLE, 102) == 10);
    }
    sgt::TransactLimits limits;
    limits.tries = 2;
    unsigned tries = 0;
    bank.transact(
        [&](sgt::OwnTransaction &t) {
            tries++;
            t.write(TABLE, 101, tries);
            if (tries == 3) {
                CHECK(throws<sgt::TimedOut>([&] { static_cast<void>(bank.begin(milliseconds(0))); })); // the third try is alone
                return;
            }
            auto other = bank.begin();
            other.write(TABLE, 102, 1);
            static_cast<void>(other.read(TABLE, 101));
            static_cast<void>(t.read(TABLE, 102));
        },
        limits);
    CHECK(tries == 3 && bank.live().empty());
}

// A body of C that throws through sgt_shared_transact.
static std::uint32_t throws_in_c(void *, sgt_transaction *t)
{
    CHECK(sgt_transaction_write(t, TABLE, 101, 99) == SGT_OK);
    throw std::runtime_error("full disk");
}

static void bodies_of_c_throw()
{
    sgt_shared *shared = nullptr;
    sgt_fault fault{};
    sgt_shared_outcome outcome{};
    std::uint64_t count = 77;
    outcome.size = sizeof outcome;
    const char *text = opening;
    CHECK(sgt_shared_open(&shared, text, std::strlen(opening), rows.data(), rows.size(), nullptr, &fault) == SGT_OK);
    CHECK(throws<std::runtime_error>([&] { sgt_shared_transact(shared, throws_in_c, nullptr, nullptr, &outcome); }));
    CHECK(sgt_shared_live(shared, nullptr, 0, &count) == SGT_OK && count == 0);
    CHECK(sgt_shared_close(&shared) == SGT_OK);
}

static void threads_end_in_bodies()
{
    sgt::SharedEngine bank(opening, rows);
    std::thread thread([&] {
        bank.transact([](sgt::OwnTransaction &t) {
            t.write(TABLE, 101, 99);
            pthread_exit(nullptr);
        });
    });
    thread.join();
    CHECK(bank.live().empty() && bank.get(TABLE, 101) == 10);
}

static void single_calls_are_answered()
{
    sgt::Engine engine(opening, rows);
    auto tid = engine.begin().tid;
    CHECK(engine.read(tid, TABLE, 101).value == 10 && engine.write(tid, TABLE, 104, 5).found == 1);
    CHECK(engine.remove(tid, TABLE, 101).found == 0 && engine.live() == std::vector<std::uint32_t>{tid});
    CHECK(engine.write(tid, TABLE, 104, SGT_MOST + 1).kind == SGT_BAD_ARGS && engine.accesses(tid).size() == 3);
    CHECK(throws<std::invalid_argument>([&] { engine.read(tid, 8, 1); }));
    CHECK(engine.commit(tid).kind == SGT_COMMITTED && engine.get(TABLE, 104) == 5 && !engine.get(TABLE, 101));
    CHECK(engine.calls(0, 8)->first.at(0).accesses == 3);
}

// A shared engine is made of a prepared one, and a commit that times out says for whom it waited.
static void engines_are_taken_over()
{
    auto prepared = sgt::Engine::bare(2, 100);
    prepared.put(rows);
    const std::array<std::uint64_t, 3> limits{2, 100, 1};
    CHECK(prepared.limits() == limits);
    CHECK(prepared.procedure(R"([0,[["put",2,101,11]]])") == 0 && prepared.procedure(R"([0,[["look",0,2,101,6]]])") == 1);
    sgt::SharedEngine bank(std::move(prepared));
    CHECK(throws<std::logic_error>([&] { prepared.rows(); }) && bank.limits() == limits);
    auto writer = bank.start(0, {}).first, reader = bank.start(1, {}).first;
    CHECK(writer->step().kind == SGT_WROTE && reader->step().kind == SGT_LOOKED && reader->step().kind == SGT_ENDED);
    CHECK(!reader->waits_for());
    CHECK(throws<sgt::TimedOut>([&] { static_cast<void>(reader->commit(milliseconds(1))); }));
    CHECK(reader->waits_for() == writer->ticket().tid);
    CHECK(writer->step().kind == SGT_ENDED && writer->commit().kind == SGT_COMMITTED);
    CHECK(reader->commit().kind == SGT_COMMITTED && !reader->waits_for());
    auto outcome = bank.run(0, {});
    CHECK(outcome.reply.kind == SGT_COMMITTED && outcome.sequence == 2);
    sgt::Engine begun(opening, rows);
    begun.begin();
    CHECK(throws<sgt::Begun>([&] { sgt::SharedEngine taken(std::move(begun)); }) && begun.entries() == 1);
}

// Which transaction: its part and its number.
using Name = std::pair<std::uint64_t, std::uint32_t>;
using Accesses = std::vector<std::tuple<std::uint32_t, std::int64_t, std::optional<std::int64_t>>>;

static Name name_of(const sgt_ticket &ticket) { return {ticket.part, ticket.tid}; }

// Reads and writes some of the three records, and notes what it did.
static Accesses mixes(sgt::OwnTransaction &t, std::minstd_rand &draw)
{
    Accesses noted;
    std::int64_t sum = 1;
    for (unsigned left = 2 + draw() % 4; left > 0; left--) {
        const std::int64_t number = 101 + draw() % 3;
        const auto kind = draw() % 8;
        std::optional<std::int64_t> value;
        if (kind < 4) value = t.read(TABLE, number), sum += value.value_or(0);
        else if (kind < 7) value = sum = sum * 3 % 1000003, t.write(TABLE, number, *value);
        else t.remove(TABLE, number);
        noted.emplace_back(kind < 4 ? SGT_READ : SGT_WRITE, number, value);
        std::this_thread::yield();
    }
    return noted;
}

static void threads_share_three_records()
{
    std::vector<Name> order;
    std::vector<std::map<Name, Accesses>> done(16);
    sgt::Configuration with;
    with.ended = [&](const sgt_ended &ended) { order.push_back(name_of(ended.ticket)); };
    with.cut_after = 2000;
    sgt::SharedEngine bank(opening, rows, with);
    std::vector<std::thread> threads;
    for (unsigned number = 0; number < done.size(); number++) {
        threads.emplace_back([&, number] {
            std::minstd_rand draw(number + 1);
            for (int made = 0; made < 300; made++) {
                auto did = bank.transact([&](sgt::OwnTransaction &t) {
                    auto noted = mixes(t, draw);
                    return std::pair(name_of(t.ticket()), noted);
                });
                done[number].insert(did);
            }
        });
    }
    for (auto &thread : threads) thread.join();
    std::map<Name, Accesses> all;
    for (auto &its : done) all.merge(its);
    std::map<std::int64_t, std::int64_t> map;
    for (const auto &row : rows) map[row.number] = row.value;
    CHECK(order.size() == all.size() && all.size() == 16 * 300);
    for (const auto &name : order) {
        for (const auto &[kind, number, value] : all[name]) {
            const auto at = map.find(number);
            if (kind == SGT_READ) CHECK(value == (at == map.end() ? std::nullopt : std::optional(at->second)));
            else if (value) map[number] = *value;
            else map.erase(number);
        }
    }
    std::map<std::int64_t, std::int64_t> left;
    for (const auto &row : bank.rows()) left[row.number] = row.value;
    CHECK(left == map);
}

int main()
{
    functions_are_committed();
    functions_throw();
    errors_say_why();
    conflicts_are_tried_again();
    bodies_of_c_throw();
    threads_end_in_bodies();
    single_calls_are_answered();
    engines_are_taken_over();
    threads_share_three_records();
    std::printf("%d checks, %d failed\n", checks.load(), failed.load());
    return failed ? 1 : 0;
}
