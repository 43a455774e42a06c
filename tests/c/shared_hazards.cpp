// What may go wrong around a shared engine in C++: hooks that throw in each kind of call, aborts on the way out of a
// body or by a destructor, transactions that are destroyed in a hook or used after their end, and an engine that is
// destroyed beside a call. Each failed check is printed; the last line counts them.
#include <atomic>
#include <chrono>
#include <cstdio>
#include <cstring>
#include <memory>
#include <new>
#include <numeric>
#include <stdexcept>
#include <string>
#include <thread>

#include "sgt.hpp"

static std::atomic<int> checks{0}, failed{0};

#define CHECK(holds) check((holds), #holds, __LINE__)

static void check(bool holds, const char *text, int line)
{
    checks++;
    if (holds) return;
    failed++;
    std::printf("line %d: %s\n", line, text);
}

static const char *const opening = R"({"limits":[4,100000,1],"accounts":[],
"procedures":[[0,[["put",7,1,5]]],[0,[["put",7,2,6]]],[0,[["look",0,7,1,6]]]]})";
enum : std::uint64_t { WRITE = 5, WRITE_OTHER = 6, READ = 7 };

// What a call throws, or nothing.
template <typename Call> std::string thrown(Call call)
{
    try {
        call();
    } catch (const std::exception &why) {
        return why.what();
    }
    return "";
}

// A hook of sgt_shared.h
static void throws(void *, const sgt_ended *) { throw std::runtime_error("full disk"); }

static void hooks_of_c_throw()
{
    sgt_shared *shared = nullptr;
    sgt_fault fault{};
    sgt_shared_config config{};
    sgt_shared_outcome outcome{};
    std::uint64_t count = 77;
    config.size = sizeof config;
    config.ended = throws;
    config.keeps_ended = 1;
    outcome.size = sizeof outcome;
    const char *text = opening;
    CHECK(sgt_shared_open(&shared, text, std::strlen(opening), nullptr, 0, &config, &fault) == SGT_OK);
    CHECK(thrown([&] { sgt_shared_run(shared, WRITE, nullptr, 0, nullptr, &outcome); }) == "full disk");
    CHECK(outcome.reply.kind == SGT_COMMITTED && sgt_shared_live(shared, nullptr, 0, &count) == SGT_OK && count == 0);
    sgt_ended ended{};
    std::thread([&] { CHECK(sgt_shared_drain(shared, 0, &ended, 1, &count) == SGT_OK && count == 1); }).join();
    CHECK(ended.call.procedure == WRITE && sgt_shared_close(&shared) == SGT_OK);
}

static void a_hook_throws()
{
    int reported = 0;
    sgt::Configuration with;
    with.ended = [&](const sgt_ended &) {
        if (reported++ % 2 == 0) throw std::runtime_error("full disk");
    };
    sgt::SharedEngine bank(opening, {}, with);
    CHECK(thrown([&] { (void)bank.run(WRITE, {}); }) == "full disk" && bank.get(7, 1) == 5 && bank.live().empty());
    CHECK(thrown([&] { (void)bank.run(WRITE, {}); }).empty());
    auto writer = bank.start(WRITE, {});
    while (writer.first->step().kind != SGT_ENDED) continue;
    CHECK(thrown([&] { (void)writer.first->commit(); }) == "full disk" && bank.live().empty() && reported == 3);
    CHECK(writer.first->step().kind == SGT_OVER);
    std::thread([&] { CHECK(thrown([&] { (void)bank.run(WRITE, {}); }).empty() && reported == 4); }).join();
}

static void a_hook_of_cuts_throws()
{
    int reported = 0;
    sgt::Configuration with;
    with.cutting = [&](sgt_engine *, std::uint64_t part) {
        if (reported++ < 2) throw std::runtime_error("no cut " + std::to_string(part));
    };
    with.cut_after = 6;
    sgt::SharedEngine bank(opening, {}, with);
    (void)bank.run(WRITE, {});
    const std::uint64_t each = bank.entries();
    CHECK(each == 4 && thrown([&] { bank.cut(); }) == "no cut 0" && bank.entries() == each);
    CHECK(thrown([&] { (void)bank.run(WRITE, {}); }).empty()); // the cut is put off
    CHECK(thrown([&] { (void)bank.run(WRITE, {}); }) == "no cut 0" && bank.entries() == 3 * each);
    std::thread([&] { CHECK(thrown([&] { bank.cut(); }).empty() && bank.entries() == 0); }).join();
    CHECK(reported == 3 && bank.live().empty());
}

// A hook before a cut that throws while the disk is full, and counts its calls.
struct Disk {
    bool is_full = true;
    int asked = 0;
};

// An engine whose history is cut off after four entries, and which stores calls if it has a hook for them.
static sgt::SharedEngine engine_on(Disk &disk, std::chrono::nanoseconds cut_wait = {},
                                   std::function<void(const sgt_ended &)> ended = {})
{
    sgt::Configuration with;
    with.cutting = [&](sgt_engine *, std::uint64_t) {
        disk.asked++;
        if (disk.is_full) throw std::runtime_error("full disk");
    };
    with.cut_after = 4;
    with.cut_wait = cut_wait;
    with.keeps_ended = static_cast<bool>(ended);
    with.ended = std::move(ended);
    return sgt::SharedEngine(opening, {}, with);
}

static void makes_four_entries(sgt::OwnTransaction &t)
{
    for (int value = 0; value < 4; value++) t.write(7, 3, value);
}

// Ways to abort a transaction after which a cut is due, and what each throws.
struct Way {
    void (*aborts)(sgt::SharedEngine &);
    const char *thrown;
};

static const Way ways[] = {
    {[](sgt::SharedEngine &bank) {
         bank.transact([](sgt::OwnTransaction &t) {
             makes_four_entries(t);
             throw std::domain_error("the body");
         });
     },
     "the body"},
    {[](sgt::SharedEngine &bank) {
         try {
             bank.transact([](sgt::OwnTransaction &t) {
                 makes_four_entries(t);
                 throw 1; // that is no std::exception
             });
         } catch (int number) {
             throw std::domain_error(std::to_string(number));
         }
     },
     "1"},
    {[](sgt::SharedEngine &bank) {
         auto t = bank.begin();
         makes_four_entries(t);
         throw std::domain_error("beside a transaction");
     },
     "beside a transaction"},
    {[](sgt::SharedEngine &bank) {
         auto t = bank.begin();
         makes_four_entries(t);
     },
     ""},
    {[](sgt::SharedEngine &bank) {
         auto t = bank.begin();
         makes_four_entries(t);
         t.quit();
     },
     ""},
    {[](sgt::SharedEngine &bank) {
         auto t = bank.start(WRITE, {});
         while (t.first->step().kind != SGT_ENDED) continue;
     },
     ""},
};

// An abort on the way out calls no hook: what was thrown before goes on, and a later call makes the cut that is due.
static void aborts_on_the_way_out_throw_nothing()
{
    Disk disk;
    auto bank = engine_on(disk);
    int asked = 0;
    for (const auto &way : ways) {
        CHECK(thrown([&] { way.aborts(bank); }) == way.thrown && disk.asked == asked);
        CHECK(thrown([&] { (void)bank.entries(); }) == "full disk" && disk.asked == ++asked);
        CHECK(bank.entries() > 0 && disk.asked == asked && bank.live().empty());
    }
    disk.is_full = false;
    bank.cut();
    CHECK(bank.entries() == 0 && !bank.get(7, 3));
}

static void drain_into(std::vector<std::uint64_t> &drained, sgt::SharedEngine &bank)
{
    for (const auto &ended : bank.drain(10, std::chrono::nanoseconds(0))) drained.push_back(ended.sequence);
}

// Each call is carried out, and what is stored of it is drained once, though one hook or the other throws in each.
static void a_drain_loses_nothing()
{
    Disk disk;
    bool is_ended_full = false;
    auto bank = engine_on(disk, {}, [&](const sgt_ended &) {
        if (is_ended_full) throw std::runtime_error("full disk of the journal");
    });
    std::vector<std::uint64_t> drained;
    for (int made = 0; made < 16; made++) {
        is_ended_full = made % 4 > 1; // then no cut is made, though it is due
        const char *why = is_ended_full ? "full disk of the journal" : "full disk";
        const auto run = [&] { (void)bank.run(WRITE, {}); };
        CHECK(thrown([&] { made % 2 == 0 ? run() : bank.transact(makes_four_entries); }) == why);
        const int asked = disk.asked;
        if (made % 3 == 2) drain_into(drained, bank);
        CHECK(disk.asked == asked);
    }
    drain_into(drained, bank);
    std::vector<std::uint64_t> all(16);
    std::iota(all.begin(), all.end(), 0);
    CHECK(drained == all);
}

// Closes a cycle: the transaction is aborted, so that nobody is live any more, and a cut is due.
static void is_aborted_in_its_access(sgt::SharedEngine &bank, sgt::OwnTransaction &t)
{
    static_cast<void>(bank.live()); // so that nothing is due before
    auto other = bank.begin();
    t.write(7, 3, 5);
    other.write(7, 4, other.read(7, 3).value_or(0) + 1);
    static_cast<void>(t.read(7, 4));
}

// A body may catch what the hook before a cut throws in its access, and is run again if the access was aborted by a
// cycle.
static void a_body_catches_what_a_hook_throws()
{
    for (bool is_thrown_on : {false, true}) {
        Disk disk;
        auto bank = engine_on(disk);
        auto tries = bank.transact([&](sgt::OwnTransaction &t) {
            if (t.tries() > 1) return t.write(7, 5, 1), t.tries();
            CHECK(thrown([&] { is_aborted_in_its_access(bank, t); }) == "full disk" && bank.live().empty());
            disk.is_full = false;
            try {
                t.write(7, 5, 9);
                CHECK(false);
            } catch (const sgt::Aborted &why) {
                CHECK(why.is_conflict && why.reply.cause == SGT_BY_CYCLE);
            }
            if (is_thrown_on) throw std::out_of_range("of a value that is undone");
            return t.tries();
        });
        CHECK(tries == 2 && bank.get(7, 5) == 1 && !bank.get(7, 3) && bank.live().empty());
    }
}

// If the body does not catch it, its call throws it, and nothing is committed: it is not run again.
static void a_body_does_not_catch_what_a_hook_throws()
{
    Disk disk;
    auto bank = engine_on(disk);
    unsigned tries = 0;
    const auto body = [&](sgt::OwnTransaction &t) {
        tries = t.tries();
        is_aborted_in_its_access(bank, t);
    };
    CHECK(thrown([&] { bank.transact(body); }) == "full disk" && tries == 1 && disk.asked == 1);
    CHECK(bank.live().empty() && !bank.get(7, 3));
}

// Starts that wait for a cut make it, and its hook throws: nothing was started, and later starts do not wait.
static void a_start_throws_what_a_hook_throws()
{
    const auto begins = [](sgt::SharedEngine &bank) { bank.begin().commit(); };
    const auto runs = [](sgt::SharedEngine &bank) { (void)bank.run(WRITE, {}); };
    const auto is_alone = [](sgt::SharedEngine &bank) {
        sgt::TransactLimits limits;
        limits.tries = 0;
        bank.transact([](sgt::OwnTransaction &t) { t.write(7, 1, 5); }, limits);
    };
    for (void (*starts)(sgt::SharedEngine &) : {+begins, +runs, +is_alone}) {
        Disk disk;
        auto bank = engine_on(disk, std::chrono::hours(1));
        auto first = bank.begin();
        makes_four_entries(first);
        std::string why;
        std::thread waiting([&] { why = thrown([&] { starts(bank); }); });
        std::this_thread::sleep_for(std::chrono::milliseconds(50)); // so that it waits; if not, all is the same
        first.quit(); // without the cut: it is left to the start
        waiting.join();
        CHECK(why == "full disk" && disk.asked == 1 && bank.live().empty() && !bank.get(7, 1));
        disk.is_full = false;
        CHECK(thrown([&] { starts(bank); }).empty());
    }
}

static void a_transaction_is_destroyed_in_a_hook()
{
    std::optional<sgt::Transaction> kept;
    sgt::Configuration with;
    with.ended = [&](const sgt_ended &) {
        if (!kept) return;
        kept.reset();
        throw std::runtime_error("full disk");
    };
    sgt::SharedEngine bank(opening, {}, with);
    auto started = bank.start(WRITE, {});
    kept = std::move(started.first);
    CHECK(kept->step().kind == SGT_WROTE && bank.live().size() == 1);
    CHECK(thrown([&] { (void)bank.run(WRITE_OTHER, {}); }) == "full disk" && !kept && bank.live().empty());
    CHECK(thrown([&] { bank.cut(std::chrono::nanoseconds(0)); }).empty());
}

static void a_transaction_is_used_after_its_end()
{
    sgt::SharedEngine bank(opening, {sgt_row{7, 0, 1, 4}});
    auto reader = bank.start(READ, {});
    while (reader.first->step().kind != SGT_ENDED) continue;
    CHECK(reader.first->commit().kind == SGT_COMMITTED);
    auto over = reader.first->step();
    CHECK(over.kind == SGT_OVER && over.cause == SGT_BY_COMMIT && sgt::text(over) == "over committed");
    CHECK(reader.first->quit().kind == SGT_OVER && reader.first->commit().kind == SGT_OVER);
    bank.cut();
    CHECK(thrown([&] { (void)reader.first->step(); }).find("cut off") != std::string::npos);
    CHECK(thrown([&] { (void)bank.drain(1); }).find("keeps_ended") != std::string::npos);
}

// An engine that is destroyed while a thread is in a call stays open, and its hook is there. What is left of it still points to both, so
// that a sanitizer finds nothing that is lost.
static void an_engine_is_destroyed_beside_a_call()
{
    alignas(sgt::SharedEngine) static unsigned char memory[sizeof(sgt::SharedEngine)];
    std::atomic<int> reported{0};
    sgt::Configuration with;
    with.ended = [&](const sgt_ended &) { reported++; };
    auto *bank = new (memory) sgt::SharedEngine(opening, {}, with);
    auto writer = bank->start(WRITE, {});
    while (writer.first->step().kind != SGT_ENDED) continue;
    auto reader = bank->start(READ, {});
    while (reader.first->step().kind != SGT_ENDED) continue;
    std::thread waiter([&] { CHECK(reader.first->commit().kind == SGT_COMMITTED); });
    while (!bank->live()[1].waits) std::this_thread::yield();
    bank->~SharedEngine();
    CHECK(writer.first->commit().kind == SGT_COMMITTED);
    waiter.join();
    CHECK(reported == 2);
}

int main()
{
    hooks_of_c_throw();
    a_hook_throws();
    a_hook_of_cuts_throws();
    aborts_on_the_way_out_throw_nothing();
    a_drain_loses_nothing();
    a_body_catches_what_a_hook_throws();
    a_body_does_not_catch_what_a_hook_throws();
    a_start_throws_what_a_hook_throws();
    a_transaction_is_destroyed_in_a_hook();
    a_transaction_is_used_after_its_end();
    an_engine_is_destroyed_beside_a_call();
    std::printf("%d checks, %d failed\n", checks.load(), failed.load());
    return failed != 0;
}
