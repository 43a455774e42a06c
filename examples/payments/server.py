"""The process of the engine: it runs what the fronts have asked. A thread makes that safe, and replies, while the next calls run."""

import hashlib
import json
import marshal
import select
import time
from concurrent.futures import Future, ThreadPoolExecutor
from multiprocessing.connection import Connection, Pipe
from typing import Any, Optional, Sequence

from bank import NO_PROCEDURE, ROW, Procedure, columns
from chain import PAUSE, Chain
from sgt import pack_calls, unpack_calls

QUICK = 0.0005  # seconds of an append. To have a thread make it costs less than it gains only where it takes longer
IDLE = 0.1  # seconds without a request, after which the journal notes what is safe
# What ran at once: the entries of calls that wrote, or none if nothing goes to the journal; which front asked, if one did; what it gets.
Group = tuple[Optional[list[str]], Optional[Connection], Any]


class Server:
    """A primary, or a follower, which answers what does not write, and says how old its answers may be."""

    def __init__(self, chain: Chain, fronts: list[Connection], procedures: dict[str, Procedure]) -> None:
        self.chain, self.fronts, self.procedures = chain, fronts, procedures
        # The entries of calls that ran, and are in no group yet; what has run; what is being made safe; and the fronts of the last batch.
        self.entries, self.groups, self.appended, self.latest = list[str](), list[Group](), list[Group](), set[Optional[Connection]]()
        self.appender, (self.is_safe, self.says_so) = ThreadPoolExecutor(1), Pipe(duplex=False)
        self.appends: Optional[Future[None]] = None  # an append by a thread, which says by a byte that it is done
        # The trouble of the last snapshot; and whether no old id was left, on this day of the bank.
        self.is_marked, self.day, self.trouble, self.forgot = True, -1, "", False
        # When the last replies were sent, and how many fronts the last two batches were of. Since the start: calls, batches, their seconds.
        self.began, self.replied, self.asked, self.calls, self.batches, self.appending = time.monotonic(), 0.0, 0, 0, 0, 0.0
        self.words = {"rows": self.rows, "health": self.health, "figures": self.figures, "day": self.set_day}  # what administrators may ask
        self.writers = {chain.bank.numbers[name] for name, it in procedures.items() if it.writes}
        for front in fronts:
            front.send_bytes(marshal.dumps(chain.bank.numbers))

    def turn(self) -> None:
        """Waits for requests, runs what has come in, and replies to what is safe."""
        ready, begin = select.select([self.is_safe, *self.fronts], (), (), IDLE if self.chain.leads else PAUSE)[0], time.monotonic()
        self.chain.follow()
        self.begin_day()
        try:
            if not ready:
                self.mark()
            while ready:
                if self.is_safe in ready:
                    self.reply()
                if fronts := [it for it in ready if it is not self.is_safe]:
                    self.serve(fronts)
                # What has come in meanwhile shares the append, unless to run this has taken as long: then fronts had better have replies.
                is_early = (time.monotonic() - begin) * self.batches < self.appending
                ready = select.select([self.is_safe, *self.fronts], (), (), self.rest())[0] if is_early else []
            self.begin_append()
        except (EOFError, ConnectionError):
            raise OSError("a front process has ended") from None

    def mark(self) -> None:
        """Once nobody asks, an empty batch notes that all is safe. Until then damage to the last batch looks like a torn tail."""
        if self.entries or not self.is_marked:
            self.add_group(self.entries)

    def serve(self, fronts: Sequence[Connection]) -> None:
        """Runs what fronts have asked: packed calls, whose entries these are, and words to the server itself."""
        asked = [(front, *marshal.loads(front.recv_bytes())) for front in fronts]
        outcomes, at = self.run(b"".join([it[1] for it in asked]), [it for _, _, entries, *_ in asked for it in entries]), 0
        answered = columns(outcomes, max([it[4] for it in asked])) if outcomes else []
        self.forget()
        # What a follower adds to a reply: payments that were acknowledged later may be missing in it.
        age = "" if self.chain.leads else f', "seconds_old": {time.monotonic() - self.chain.fresh:.3f}'
        for front, _, entries, words, _ in asked:
            if words:
                self.flush()  # so that they report of no call that may be lost
            reported = [self.words[word](value) if word in self.words else {"error": "no word of this server"} for word, value in words]
            at, own = at + len(entries), [it[at : at + len(entries)].tobytes() for it in answered]
            self.add_group(self.entries or None, front, (own, [*map(json.dumps, reported)], age))

    def add_group(self, entries: Optional[list[str]], front: Optional[Connection] = None, reply: Any = None) -> None:
        """Has this made safe next, and then replied."""
        if entries is not None:
            self.entries, self.is_marked = [], not entries
        self.groups.append((entries, front, reply))

    def begin_append(self) -> None:
        """Has all groups made safe by one batch. Where that takes long a thread does it, and the engine goes on meanwhile."""
        if self.groups and not self.appended:
            self.appended, self.groups = self.groups, []
            parts = [it for it, _, _ in self.appended if it is not None]
            if self.appending > QUICK * self.batches:
                self.appends = self.appender.submit(self.append, parts)
                self.appends.add_done_callback(lambda _: self.says_so.send_bytes(b"."))
            else:
                self.append(parts)
                self.reply()

    def append(self, parts: list[list[str]]) -> None:
        begin = time.monotonic()
        if parts:
            self.chain.append([it for part in parts for it in part])
            self.batches, self.appending = self.batches + 1, self.appending + time.monotonic() - begin
        elif self.chain.leads:
            self.chain.insist(self.chain.journal.check)  # as replies rest on no new batch

    def reply(self) -> None:
        """Replies to what is safe, once it is. Nothing is told before: a refusal or a balance may rest on a call that ran before it."""
        if self.appends:
            self.is_safe.recv_bytes()
            self.appends = self.appends.result()  # none, or raises what the append has failed with
        for front, reply in [(front, reply) for _, front, reply in self.appended if front]:
            front.send_bytes(marshal.dumps(reply))
        self.asked = len((fronts := {front for _, front, _ in self.appended}) | self.latest)
        self.latest, self.replied, self.appended = fronts, time.monotonic(), []

    def rest(self) -> float:
        """Where an append takes long: how long the next one waits for the fronts that asked lately. Half an append, at most."""
        waits = self.groups and not self.appended and len(self.groups) < self.asked and self.appending > QUICK * self.batches
        return max(0.0, self.replied + self.appending / self.batches / 2 - time.monotonic()) if waits else 0.0

    def flush(self) -> None:
        """Returns once all that has run is safe, and replied to."""
        while self.groups or self.appended:
            self.begin_append()
            self.reply()

    def call(self, name: str, *args: int, times: int = 1) -> None:
        """Runs a call of the server's own, if these procedures have it."""
        if name in self.procedures:
            self.forgot = False  # it may begin another day
            self.run(pack_calls([(self.chain.bank.numbers[name], *args)] * times), [self.procedures[name].entry % args] * times)

    def run(self, calls: bytes, entries: Sequence[str]) -> bytes:
        """Runs packed calls, and adds the entries of those that wrote. Their packed outcomes."""
        if not self.chain.leads:  # for what may write a follower has no procedure
            calls = pack_calls([(NO_PROCEDURE if number in self.writers else number, *args) for number, *args in unpack_calls(calls)])
        outcomes, wrote = self.chain.bank.run(calls, entries)
        self.entries, self.calls = self.entries + wrote, self.calls + len(entries)
        return outcomes

    def rows(self, _: int) -> dict[str, Any]:
        """A digest of all rows, and how many there are. Nobody is served while it is made: some seconds for ten million rows."""
        rows = self.chain.bank.rows()
        return {"seq": self.chain.bank.seq, "sha256": hashlib.sha256(rows).hexdigest(), "records": len(rows) // ROW.size}

    def health(self, _: int) -> dict[str, Any]:
        """What an operator should look after, or ok. That there is a reply says that batches become safe, as each reply waits for that."""
        clock, day = today(), self.chain.bank.day()  # a follower may get the next day a moment late
        jumped = "" if day is None or clock - day in (0, 1) else f"the clock says day {clock}, and the bank has day {day}"
        reported = "; ".join(filter(None, (self.chain.trouble or getattr(self.chain.journal, "silent", str)(), self.trouble, jumped))) or "ok"
        return {"health": reported, "leads": self.chain.leads, "seq": self.chain.bank.seq, "batch": self.chain.number}

    def figures(self, _: int) -> dict[str, Any]:
        """Since the start: seconds, calls, batches, and seconds in which batches were made safe. And the records at the last cut."""
        seconds = {"seconds": round(time.monotonic() - self.began, 3), "append_seconds": round(self.appending, 3)}
        return {"seq": self.chain.bank.seq, "calls": self.calls, "batches": self.batches, **seconds, "records": self.chain.bank.records}

    def begin_day(self) -> None:
        """Tells the bank the day, as a call: a procedure has no clock, so the day stands in the journal.

        The procedure takes the day after its own day alone. When the clock jumps, the bank keeps its day until an operator says another,
        and `health` says so.
        """
        if self.day != today() and self.chain.leads:
            self.day = today()
            self.call("day", self.day)

    def forget(self) -> None:
        """Has the bank forget old ids, at most twice as many as calls that wrote. So they do not pile up, and nobody waits for long."""
        if (calls := len(self.entries)) and not self.forgot:
            self.call("forget", times=2 * calls)
            self.forgot = len(self.entries) == calls

    def set_day(self, day: int) -> dict[str, Any]:
        """The day as an operator says it, whatever the clock says; with true in place of a number the day as it is."""
        if not isinstance(day, bool):
            self.call("set_day", day)
        return {"day": self.chain.bank.day()}


def today() -> int:
    """The day by the clock, in UTC, counted from 1970."""
    return int(time.time() // 86_400)
