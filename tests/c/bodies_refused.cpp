// Bodies that the compiler has to refuse: with BODY=0 all is well, and with each other number it says what stands
// beside that number.
#include <future>
#include <utility>

#include "sgt.hpp"

#ifndef BODY
#define BODY 0
#endif

// What a coroutine returns, without a coroutine.
struct Task {
    struct promise_type {};
};

// What can be awaited.
struct Awaitable {
    bool await_ready() const { return true; }
};

void makes_a_call(sgt::SharedEngine &bank, sgt::SharedEngine &other)
{
    static_cast<void>(other);
    auto own = bank.begin();
    bank.transact([&](sgt::OwnTransaction &t) {
#if BODY == 0
        t.write(0, 1, t.read(0, 1).value_or(0));
#elif BODY == 1 // deleted
        auto copy = t;
#elif BODY == 2 // deleted
        auto moved = std::move(t);
#elif BODY == 3 // deleted
        t = other.begin();
#elif BODY == 4 // no matching function
        std::swap(own, t);
#elif BODY == 5 // no matching function
        std::swap<sgt::OwnTransaction>(own, t);
#elif BODY == 6 // member named
        t.commit();
#elif BODY == 7 // no matching
        sgt::BegunTransaction taken(std::move(t));
#elif BODY == 8 // private
        t.~OwnTransaction();
#elif BODY == 9 // must not be a coroutine, nor return a future
        return std::async(std::launch::deferred, [&] { t.write(0, 1, 1); });
#elif BODY == 10 // must not be a coroutine, nor return a future
        return std::shared_future<void>();
#elif BODY == 11 // must not be a coroutine, nor return a future
        return Task{};
#elif BODY == 12 // must not be a coroutine, nor return a future
        return Awaitable{};
#endif
    });
    own.commit();
}
