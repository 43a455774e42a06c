#!/usr/bin/env python3
"""Simulates payments over many partitions: a server each, with clients of its own in a closed loop. Only the time is simulated.

    bench/payments/hundred_partitions.py [CLIENTS [SECONDS]]

Each partition has CLIENTS (64), who pay for SECONDS (0.05) of simulated time: within the partition, or with some probability to one of the
others, drawn at random. They pay by `pay` of examples/payments/partitions.py, and each partition has a bank with the procedures there. A
server takes all requests that wait as a batch. What it takes for that, and the ways between machines, are constants of one server that was
measured. It prints a table. Servers and clients may also die, as tests/payments.py has them do: then whoever pays begins again.

It needs the library of `bindings/build`, and takes a minute.
"""

import heapq
import json
import pathlib
import random
import statistics
import sys

PAYMENTS = pathlib.Path(__file__).resolve().parents[2] / "examples" / "payments"
sys.path.insert(0, str(PAYMENTS))
from bank import OUTCOME, ROW, Bank, load_procedures  # noqa: E402
from lines import Reader  # noqa: E402
from partitions import CLEARING, pay  # noqa: E402
from sgt import pack_calls  # noqa: E402

# Microseconds of a server, by the first key of a request. With a way of 25, on one machine, one server then has about as many payments a
# second of 1, 8 and 64 clients as were measured, which are on the page of examples/payments.
BATCH = 170
COST = {"id": 21, "hold": 20, "credit": 18, "decline": 15, "capture": 12, "void": 12, "payment": 5}
WAY = 100  # from a client to a server, or back: between half of it and one and a half
AWAY = 20_000  # until a server that has died serves again
PARTITIONS, SHARES = (1, 2, 10, 100), (0, 0.01, 0.1, 0.5, 1)
ACCOUNTS, CENTS, DAY, FEE_OF = 100, 10**9, 20_000, 100
PROCEDURES = load_procedures(PAYMENTS / "procedures")


class Partition:
    """A bank, and the requests that wait for its next batch."""

    def __init__(self, number, partitions):
        clearing = [CLEARING + other for other in range(partitions) if other != number]
        rows = [(0, 0, DAY), (1, 0, 0), *[(1, account, CENTS) for account in accounts_of(number)], *[(1, it, 0) for it in clearing]]
        self.bank = Bank(0, {name: it.text for name, it in PROCEDURES.items()}, b"".join(ROW.pack(*row) for row in rows))
        self.reader, self.waiting, self.is_busy = Reader(PROCEDURES, None, False), [], False

    def run(self, requests):
        """The replies to a batch."""
        calls = [self.reader.request(tuple(it.items()), None) for it in requests]
        packed = pack_calls([(self.bank.numbers[procedure.name], *args) for procedure, args in calls])
        outcomes = OUTCOME.iter_unpack(self.bank.run(packed, calls)[0])
        return [json.loads(procedure.reply(outcome, args[0], "")) for (procedure, args), outcome in zip(calls, outcomes)]

    def balances(self):
        """What each account has, and those of the other partitions."""
        return {number: value for table, number, value in ROW.iter_unpack(self.bank.rows()) if table == 1 and number >= 0}


def accounts_of(number):
    return range(1000 * (number + 1), 1000 * (number + 1) + ACCOUNTS)


def partition_of(account):
    return account // 1000 - 1


class Waits(Exception):
    """The next step of a payment has no reply yet: it is asked for at a partition."""


class Payment:
    """A payment of a client of a partition: the replies to its steps so far, and at the end its own."""

    def __init__(self, words, home, began):
        self.words, self.home, self.began, self.replies, self.reply = words, home, began, [], None

    def next(self):
        """The partition and the request of the next step, or None if it is over."""
        left = iter(self.replies)

        def ask(partition, request):
            for reply in left:
                return reply
            raise Waits(partition, request)

        try:
            self.reply = pay(ask, partition_of, *self.words)
        except Waits as step:
            return step.args
        return None


class Simulation:
    """The events of some partitions, in order of time. `dies` is how likely a server dies in a batch, and a client after a step."""

    def __init__(self, partitions, share, clients, seconds, way=WAY, dies=0.0):
        self.draw, self.share, self.end, self.way, self.dies = random.Random(1), share, seconds * 1e6, way, dies
        self.partitions = [Partition(number, partitions) for number in range(partitions)]
        self.events, self.count, self.payments, self.deaths = [], 0, [], 0
        self.latencies = []  # of payments that were over in the second half of the time
        for number in range(partitions * clients):
            self.begin(number % partitions, self.draw.random() * way)

    def add(self, time, partition, *asked):
        """A step and its request arrive at a partition; with none it can take its next batch."""
        self.count += 1  # events of the same time are in the order in which they came about
        heapq.heappush(self.events, (time, self.count, partition, asked))

    def travel(self):
        """The time that a request, or a reply, is on its way."""
        return self.way * (0.5 + self.draw.random())

    def begin(self, home, time):
        """A client of a partition sends a payment."""
        if time >= self.end:
            return
        partitions = len(self.partitions)
        to = home if self.draw.random() >= self.share else (home + self.draw.randrange(1, partitions)) % partitions
        payer, payee = self.draw.choice(accounts_of(home)), self.draw.choice(accounts_of(to))
        payee += ACCOUNTS * (payee == payer or self.draw.random() < self.dies)  # who is not there
        payment = Payment((payer * 1_000_000 + len(self.payments) + 1, payer, payee, self.draw.randrange(1, 1000)), home, time)
        self.payments.append(payment)
        self.go_on(payment, time)

    def go_on(self, payment, time):
        """A client takes the next step, or begins the next payment. If it dies, another one pays, from the first step on."""
        if self.draw.random() < self.dies:
            payment.replies = []
        if step := payment.next():
            return self.add(time + self.travel(), step[0], payment, step[1])
        if self.end / 2 <= time < self.end:
            self.latencies.append(time - payment.began)
        return self.begin(payment.home, time)

    def run(self):
        """Payments in a second, and the milliseconds that half of them take at most, in the second half of the time. It ends once all have replies."""
        while self.events:
            time, _, number, asked = heapq.heappop(self.events)
            partition = self.partitions[number]
            if asked:
                partition.waiting.append(asked)
            else:
                partition.is_busy = False
            if partition.waiting and not partition.is_busy:
                self.serve(number, time)
        return len(self.latencies) / self.end * 2e6, statistics.median(self.latencies) / 1e3

    def serve(self, number, time):
        """Runs a batch of all that waits. A server that dies has made it safe or not, and nobody has a reply."""
        partition = self.partitions[number]
        batch, partition.waiting, partition.is_busy = partition.waiting, [], True
        dies = self.draw.random() < self.dies
        is_lost = dies and self.draw.random() < 0.5
        replies = [None] * len(batch) if is_lost else partition.run([request for _, request in batch])
        time += BATCH + sum(COST[next(iter(request))] for _, request in batch) + dies * AWAY
        self.deaths += dies
        self.add(time, number)
        for (payment, _), reply in zip(batch, replies):
            payment.replies = [] if dies else [*payment.replies, reply]
            self.go_on(payment, time + self.travel())

    def wrong(self):
        """Where the money is not as the replies have it: by partition and account what there is, and what there must be."""
        wanted = [dict.fromkeys(it.balances(), 0) | dict.fromkeys(accounts_of(number), CENTS) for number, it in enumerate(self.partitions)]
        for payment in self.payments:
            _, payer, payee, amount = payment.words
            here, there = partition_of(payer), partition_of(payee)
            if "paid" in payment.reply:
                wanted[here][payer] -= amount + amount // FEE_OF
                wanted[here][0] += amount // FEE_OF
                wanted[there][payee] += amount
            if "paid" in payment.reply and here != there:
                wanted[here][CLEARING + there] += amount
                wanted[there][CLEARING + here] -= amount
        has = [it.balances() for it in self.partitions]
        return {(at, account): (has[at][account], it[account]) for at, it in enumerate(wanted) for account in it if has[at][account] != it[account]}


def main():
    clients, seconds = ([float(word) for word in sys.argv[1:]] + [64, 0.05][len(sys.argv) - 1 :])[:2]
    print("partitions  between  payments a second  median ms")
    for partitions in PARTITIONS:
        for share in SHARES if partitions > 1 else (0,):
            simulation = Simulation(partitions, share, int(clients), seconds)
            rate, median = simulation.run()
            print(f"{partitions:10} {share:8.0%} {rate:18,.0f} {median:10.2f}", flush=True)
            if wrong := simulation.wrong():
                sys.exit(f"the money is not as the replies have it: {wrong}")


if __name__ == "__main__":
    main()
