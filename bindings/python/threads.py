"""Eight threads pay each other on one shared engine, and the money is counted."""

import threading

from sgt import Kind, SharedEngine, TimedOut

THREADS, EACH = 8, 1000
# From a customer, to a customer, cents. It aborts with 6 if there is no such customer, and with 7 if the money does not suffice.
PAY = 5
TRANSFER = [
    3,
    [
        ["look", 0, 2, ["arg", 0], 6],
        ["if", ["less", ["reg", 0], ["arg", 2]], [["ask", 7]], []],
        ["put", 2, ["arg", 0], ["diff", ["reg", 0], ["arg", 2]]],
        ["look", 1, 2, ["arg", 1], 6],
        ["put", 2, ["arg", 1], ["sum", ["reg", 1], ["arg", 2]]],
    ],
]


def pay_each(bank: SharedEngine, number: int, paid: list[int]) -> None:
    for made in range(EACH):
        reply = bank.run(PAY, 101 + (number + made) % 4, 101 + (number + 3 * made + 1) % 4, made % 500).reply
        if reply.kind is Kind.COMMITTED:
            paid[number] += 1
        else:
            assert reply.code == 7, reply  # the money did not suffice


def main() -> None:
    accounts = [(name, 100 + name, 0, 1000) for name in (1, 2, 3, 4)]
    reported: list[int] = []
    with SharedEngine(
        limits=(8, 4_000_000, 1),
        accounts=accounts,
        procedures=[TRANSFER],
        ended=lambda call: reported.append(call.sequence),
        keeps_ended=True,
        cut_after=10_000,
    ) as bank:
        paid = [0] * THREADS
        threads = [threading.Thread(target=pay_each, args=(bank, number, paid)) for number in range(THREADS)]
        for thread in threads:
            thread.start()
        for thread in threads:
            thread.join()
        calls = bank.drain(100_000, timeout=0)
        assert reported == [ended.sequence for ended in calls] == list(range(THREADS * EACH))
        assert sum(ended.call.code is None for ended in calls) == sum(paid) > 0

        with bank.transaction(PAY, 101, 102, 0) as started:  # step by step; the end of the block aborts it
            assert started.step().kind is Kind.LOOKED
            assert [live.ticket for live in bank.live()] == [started.ticket]
            try:
                bank.cut(timeout=0.005)
                raise SystemExit("a history was cut off while a transaction is live")
            except TimedOut:
                pass
        bank.cut()
        print(f"{sum(row.value for row in bank.rows(2))} of 4000, {bank.entries()} entries")


if __name__ == "__main__":
    main()
