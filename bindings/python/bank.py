"""A bank's story: a deposit, and a balance that reads what it stored before it is committed."""

from sgt import (
    Asked,
    BadCall,
    Begun,
    Engine,
    Kind,
    OpeningRefused,
    ProcedureRefused,
    Reply,
    Row,
    StillLive,
    Taken,
    pack_calls,
    unpack_calls,
    unpack_outcomes,
    wrote,
)


def show(reply: Reply) -> None:
    if reply.kind is Kind.STARTED:
        print("started", reply.tid)
    elif reply.kind is Kind.LOOKED:
        print(f"read {reply.table}/{reply.number} {reply.value}")
    elif reply.kind is Kind.WROTE:
        print(f"wrote {reply.table}/{reply.number} {reply.value}")
    elif reply.kind is Kind.WAITS:
        print("waits", reply.tid)
    elif reply.kind is Kind.COMMITTED:
        print("committed", *reply.answers)
    else:
        print(reply)


with Engine(limits=(8, 100), accounts=[(1, 101, 500, 1000)]) as engine:
    show(engine.start(1, 1, 100))
    for _ in range(3):
        show(engine.step(0))
    show(engine.start(0, 1))
    for _ in range(3):
        show(engine.step(1))
    show(engine.commit(1))  # waits: it has read from the deposit
    show(engine.commit(0))
    show(engine.commit(1))
    print("2/101", engine.get(2, 101))
    print(len(engine), "entries")
    engine.reserve(100)
    event, reply = engine.entry(8)
    assert event.kind is Asked.COMMIT, event
    print(f"entry 8: commit of {event.tid}, ", end="")
    show(reply)
    assert engine.entry(0)[0].args == (1, 100)
    calls, after = engine.calls()
    assert after == len(engine) and [call.answers for call in calls] == [(1100,), (1600,)], calls
    for args in ((1, 2, 3, 4, 5), (1, 2**63)):
        try:
            engine.start(1, *args)
            raise SystemExit(f"the arguments {args} were taken")
        except ValueError:
            pass
    try:
        engine.entry(11)
        raise SystemExit("an entry that is not there was told")
    except IndexError:
        pass

    rows = engine.rows()
    for row in rows:
        print(f"{row.table}/{row.number} {row.value}")

rows[-1] = rows[-1]._replace(value=7)  # a new engine with these rows, one of them changed
with Engine(limits=(8, 100), rows=rows) as again:
    print("again", len(again.rows()), "rows, 2/101", again.get(2, 101))
    for _ in range(2):
        again.run(1, 1, 100)  # each in one call
    tid, reply = again.run(0, 1)
    print(f"ran {tid}: ", end="")
    show(reply)
    print(reply.text())
    live = again.start(0, 1).tid
    try:
        again.cut()
        raise SystemExit("a history was cut off while a transaction is live")
    except StillLive as why:
        print(why.live, "live")
    fell = again.quit(live)
    assert fell.text() == "aborted quit fell none", fell.text()
    again.cut()
    print(f"{len(again)} entries, 2/101 {again.get(2, 101)}")
    own = [Row(7, 1, 40)]
    again.put(own)  # one more record and procedure, while the history is empty
    try:
        again.put(own)
    except Taken as why:
        print("row", why.at, "taken")
    try:
        again.procedure([0, [["ask", 0]]])
        raise SystemExit("a procedure with a flaw was added")
    except ProcedureRefused as why:
        assert (why.fault, str(why)) == ("procedure 5 flaw 8", "procedure 5, at 1 0 1: code 0 is not from 1 to 999"), why
    assert (again.records(), again.part()) == (4, 1)
    with Engine.bare(8, 100) as bare:
        assert (bare.records(), bare.procedure([0, [["put", 7, 1, 2]]]), bare.run(0)[0]) == (0, 0, 0)
        with Engine.bare(8, 100) as copy:
            copy.put_bytes(again.rows_bytes())
            assert copy.rows() == again.rows() and copy.rows_bytes() == again.rows_bytes()
            for wrong, error in ((b"x", BadCall), (b"\xff" * 24, BadCall), (again.rows_bytes()[:24], Taken)):
                try:
                    copy.put_bytes(wrong)
                    raise SystemExit(f"rows were put: {wrong!r}")
                except error:
                    pass
        ran = bare.run_many([(0,), (9,)])
        assert [(tid, reply.kind, wrote) for tid, reply, wrote in ran] == [(1, Kind.COMMITTED, True), (None, Kind.NO_PROCEDURE, False)], ran
        calls = [(0,), (9, 1, -2), (0,), (0, 5)]
        packed = pack_calls(calls)
        outcomes = bare.run_bytes(packed)
        assert unpack_calls(packed) == calls and wrote(outcomes) == [True, False, True, False]
        assert [(it.tid, it.reply.kind) for it in unpack_outcomes(outcomes)] == [
            (2, Kind.COMMITTED),
            (None, Kind.NO_PROCEDURE),
            (3, Kind.COMMITTED),
            (None, Kind.BAD_ARGS),
        ]
        assert (bare.run_bytes(b""), unpack_calls(b""), wrote(b""), unpack_outcomes(b"")) == (b"", [], [], [])
        for read in (bare.run_bytes, unpack_calls, wrote, unpack_outcomes):
            try:
                read(packed[:-1])
                raise SystemExit(f"{read} read bytes that are cut off")
            except BadCall:
                pass
    try:
        Engine.bare(33, 100)
        raise SystemExit("an engine was opened with too many live")
    except OpeningRefused as why:
        assert str(why) == "bad limits", why
    number = again.procedure([1, [["look", 0, 7, ["arg", 0], 5], ["answer", ["reg", 0]]]])
    assert again.procedure_text(number) == '[1,[["look",0,7,["arg",0],5],["answer",["reg",0]]]]'
    assert again.procedure_text(99) is None
    print(f"procedure {number}: ", end="")
    show(again.run(number, 1)[1])
    try:
        again.put(own)
    except Begun:
        print("begun")

try:
    Engine(limits=(99, 1))
    raise SystemExit("an opening was not refused")
except OpeningRefused as why:
    assert (why.fault, why.explanation) == ("bad limits", '"limits": the first number is 99, and has to be from 1 to 32'), why
try:
    Engine(limits=(8, 100), procedures=[[0, [7]]])
    raise SystemExit("a procedure was not refused")
except OpeningRefused as why:
    print(why)
try:
    engine.step(0)
    raise SystemExit("a closed engine answered")
except ValueError:
    pass
