// Eight threads pay each other on one shared engine, and the money is counted.
#include <atomic>
#include <iostream>
#include <thread>
#include <vector>

#include "sgt.hpp"

static const char *const opening = R"({"limits":[8,4000000,1],"accounts":[[1,101,0,1000],[2,102,0,1000],[3,103,0,1000],[4,104,0,1000]],
"procedures":[[3,[["look",0,2,["arg",0],6],["if",["less",["reg",0],["arg",2]],[["ask",7]],[]],
["put",2,["arg",0],["diff",["reg",0],["arg",2]]],["look",1,2,["arg",1],6],["put",2,["arg",1],["sum",["reg",1],["arg",2]]]]]]})";

enum : std::uint64_t { PAY = 5 }; // from a customer, to a customer, cents; aborts with 7 if the money does not suffice

int main()
{
    constexpr int THREADS = 8, EACH = 2000;
    std::atomic<int> paid{0}, refused{0}, reported{0};
    sgt::Configuration with;
    with.ended = [&](const sgt_ended &) { reported++; };
    with.cut_after = 10000;
    sgt::SharedEngine bank(opening, {}, with);
    std::vector<std::thread> threads;
    for (int number = 0; number < THREADS; number++) {
        threads.emplace_back([&, number] {
            for (int made = 0; made < EACH; made++) {
                auto outcome = bank.run(PAY, {101 + (number + made) % 4, 101 + (number + made * 3 + 1) % 4, made % 500});
                (outcome.reply.kind == SGT_COMMITTED ? paid : refused)++;
            }
        });
    }
    for (auto &thread : threads) thread.join();
    std::int64_t money = 0;
    for (const auto &row : bank.rows(2)) money += row.value;
    if (paid + refused != THREADS * EACH || reported != paid + refused || paid == 0) return 1;
    auto started = bank.start(PAY, std::vector<std::int64_t>{101, 102, 0}); // step by step; its destructor aborts it
    if (!started.first || started.first->step().kind != SGT_LOOKED || bank.live().size() != 1) return 1;
    try {
        bank.cut(std::chrono::milliseconds(5));
        return 1;
    } catch (const sgt::TimedOut &) {
    }
    started.first.reset();
    sgt::SharedEngine moved = std::move(bank);
    moved.cut();
    std::cout << money << " of 4000, " << moved.entries() << " entries\n";
    return 0;
}
