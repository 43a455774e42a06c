// A bank's story: a deposit, and a balance that reads what it stored before it is committed.
#include <iostream>

#include "sgt.hpp"

static void show(const sgt_reply &reply)
{
    switch (reply.kind) {
    case SGT_STARTED: std::cout << "started " << reply.tid << '\n'; break;
    case SGT_LOOKED: std::cout << "read " << reply.table << '/' << reply.number << ' ' << reply.value << '\n'; break;
    case SGT_WROTE: std::cout << "wrote " << reply.table << '/' << reply.number << ' ' << reply.value << '\n'; break;
    case SGT_WAITS: std::cout << "waits " << reply.tid << '\n'; break;
    case SGT_COMMITTED: std::cout << "committed " << reply.answer[0] << '\n'; break;
    default: std::cout << "kind " << reply.kind << '\n';
    }
}

int main()
{
    sgt::Engine engine(R"({"limits":[8,100],"accounts":[[1,101,500,1000]],"procedures":[]})");
    show(engine.start(1, {1, 100}));
    for (int step = 0; step < 3; step++) show(engine.step(0));
    show(engine.start(0, {1}));
    for (int step = 0; step < 3; step++) show(engine.step(1));
    show(engine.commit(1)); // waits: it has read from the deposit
    show(engine.commit(0));
    show(engine.commit(1));
    std::cout << "2/101 " << engine.get(2, 101).value() << '\n' << engine.entries() << " entries\n";
    engine.reserve(100);
    sgt::Entry entry = engine.entry(8).value();
    std::cout << "entry 8: " << (entry.event.kind == SGT_COMMIT ? "commit" : "other") << " of " << entry.event.tid << ", ";
    show(entry.reply);
    if (engine.entry(11)) return 1;
    auto calls = engine.calls(0, 9).value();
    if (calls.first.size() != 2 || calls.first[1].answer[0] != 1600 || calls.second != 11 || engine.calls(12, 9)) return 1;
    auto rows = engine.rows();
    for (const auto &row : rows) std::cout << row.table << '/' << row.number << ' ' << row.value << '\n';
    rows.back().value = 7; // a new engine with these rows, one of them changed
    sgt::Engine again(R"({"limits":[8,100],"accounts":[],"procedures":[]})", rows);
    std::cout << "again " << again.rows().size() << " rows, 2/101 " << again.get(2, 101).value() << '\n';
    for (int run = 0; run < 2; run++) again.run(1, {1, 100}); // each in one call
    sgt::Ran ran = again.run(0, {1});
    std::cout << "ran " << ran.tid.value() << ": ";
    show(ran.reply);
    std::cout << sgt::text(ran.reply) << '\n';
    std::uint32_t tid = again.start(0, {1}).tid;
    try {
        again.cut();
        return 1;
    } catch (const sgt::StillLive &why) {
        std::cout << why.live << " live\n";
    }
    again.quit(tid);
    again.cut();
    std::cout << again.entries() << " entries, 2/101 " << again.get(2, 101).value() << '\n';
    const std::vector<sgt_row> own{{7, 0, 1, 40}};
    again.put(own); // one more record and procedure, while the history is empty
    try {
        again.put(own);
        return 1;
    } catch (const sgt::Taken &why) {
        std::cout << "row " << why.at << " taken\n";
    }
    sgt::Engine bare = sgt::Engine::bare(8, 100);
    if (again.records() != 4 || again.part() != 1 || bare.records() != 0 || bare.procedure(R"([0,[["put",7,1,2]]])") != 0) return 1;
    auto many = bare.run_many({{0, 0, 0, 0, 0, 0, {}, {}, 0}, {0, 0, 9, 0, 0, 0, {}, {}, 0}});
    if (many.size() != 2 || many[0].reply.kind != SGT_COMMITTED || many[1].reply.kind != SGT_NO_PROCEDURE) return 1;
    std::uint16_t number = again.procedure(R"([1,[["look",0,7,["arg",0],5],["answer",["reg",0]]]])");
    if (again.procedure_text(number) != R"([1,[["look",0,7,["arg",0],5],["answer",["reg",0]]]])" || again.procedure_text(99)) return 1;
    std::cout << "procedure " << number << ": ";
    show(again.run(number, {1}).reply);
    try {
        again.put(own);
        return 1;
    } catch (const sgt::Begun &) {
        std::cout << "begun\n";
    }
    try {
        sgt::Engine refused(R"({"limits":[8,100],"accounts":[],"procedures":[[0,[7]]]})");
        return 1;
    } catch (const sgt::Refused &why) {
        std::cout << why.what() << '\n';
    }
}
