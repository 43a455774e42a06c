"""The bank that the batches of a journal make: replay, appends and promotion, whatever the journal is."""

import json
import logging
import os
import time
from typing import Any, Callable, Sequence, Union, cast

from bank import ROW, Bank, Call, Unusable
from journal import Away, Journal, Store, seal, unseal

PATIENCE = 60.0  # seconds that a primary waits for a journal that is away
PAUSE = 0.05  # seconds between two times that a follower reads
CALLS = 10_000  # of a batch, at most: no journal takes batches of any size
Opening = dict[str, Any]  # what a batch has in place of calls: procedures, from there on; accounts and cents, if it is the first batch
Batch = Union[list[Call], Opening]


def seal_batch(number: int, seq: int, calls: Union[Sequence[str], Opening], writer: str = "") -> bytes:
    """A batch as bytes: its number, that of its first call, which follows call `seq`, their entries, who writes it."""
    entries = json.dumps(calls) if isinstance(calls, dict) else f"[{', '.join(calls)}]"
    return seal(f'[{number}, {seq + 1}, {entries}, "{writer}"]'.encode())


def unseal_batch(data: bytes, number: int, seq: int) -> Batch:
    """The calls of a batch, which stands where batch `number` is due, after call `seq`."""
    if (found := unseal(data)) is None:
        raise Unusable(f"batch {number} is damaged")
    if found[:2] != [number, seq + 1]:
        raise Unusable(f"where batch {number} with call {seq + 1} is due, there is batch {found[0]} with call {found[1]}")
    return cast(Batch, found[2])


def applied(bank: Bank, calls: Batch) -> Bank:
    """The bank after a batch."""
    if isinstance(calls, dict):
        first = (ROW.pack(1, account, calls["cents"]) for account in range(calls["accounts"]))
        return Bank(bank.seq, calls["procedures"], bank.rows() if bank.texts else b"".join(first))
    bank.replay(calls)
    return bank


class Chain:
    """The bank after batch `number`. It follows until it leads."""

    def __init__(self, store: Store, journal: Journal, opening: Opening, server: str, renews: bool = False) -> None:
        """With `renews` the procedures of the opening may be others than those of the journal, if this server leads."""
        self.store, self.journal, self.opening, self.server, self.renews = store, journal, opening, server, renews
        # The trouble is of a follower with the journal. No other start of a server has this writer.
        self.leads, self.ends, self.trouble, self.seq, self.writer = False, False, "", 0, os.urandom(8).hex()
        self.number, self.fresh = max(store.numbers(), default=0), time.monotonic()  # when the bank was as the journal
        self.bank, self._next = store.load(self.number), self.fresh  # when to read on

    def start(self) -> None:
        """Recovers. Returns once the bank is as the journal was, and has this server's procedures."""
        self.insist(lambda: self.journal.stored(self.server, self.number, self.number + 1))  # after a kill it may not know of the last snapshot
        while self.insist(self._lead_or_read) or not (self.bank.texts or self.ends):  # the primary has not begun yet
            time.sleep(PAUSE)
        self._compare()

    def insist(self, ask: Callable[[], Any]) -> Any:
        """Asks until the journal answers. Meanwhile clients wait."""
        end = time.monotonic() + PATIENCE
        while True:
            try:
                return ask()
            except Away as why:
                if self.ends or time.monotonic() > end:
                    raise Unusable(f"the journal is away: {why}") from None
                time.sleep(PAUSE)

    def catch_up(self) -> None:
        """Runs the batches that were not read yet."""
        while True:
            now, batches = time.monotonic(), self.journal.read(self.number + 1)
            calls: list[Call] = []  # of these batches: to run them at once takes half as long
            for data in batches:
                found = unseal_batch(data, self.number + 1, self.bank.seq + len(calls))
                if isinstance(found, dict):
                    self.bank.replay(calls)
                    self.bank, found, calls = applied(self.bank, found), [], []
                calls += found
                self.number += 1
            self.bank.replay(calls)
            if not batches:
                self.fresh = now
                return

    def follow(self) -> None:
        """A follower reads on now and then, and becomes the primary if there is none. It answers while the journal is away, too."""
        if self.leads or time.monotonic() < self._next:
            return
        self.trouble = ""
        try:
            self._lead_or_read()
            self._compare()
            if self.leads:
                logging.getLogger("payments").warning("leads now, after call %d", self.seq)
        except Away as why:
            self.trouble = f"the journal is away: {why}"
        self._next = time.monotonic() + PAUSE

    def _lead_or_read(self) -> None:
        """Becomes the primary, or reads on. A primary has read all before it begins, and begins with a batch.

        The batch fences a primary before it, and makes safe what was read. It has this server's procedures, if they are other ones.
        """
        if not self.journal.lead():
            return self.catch_up()
        self.insist(self.catch_up)
        if self.bank.texts and not self.renews:
            self._compare()
        is_new, self.seq = self.bank.texts != self.opening["procedures"], self.bank.seq
        self.append(self.opening if is_new else [])
        self.bank = applied(self.bank, self.opening) if is_new else self.bank
        self.leads = True

    def _compare(self) -> None:
        """`Unusable` if the journal goes on with other procedures. These may take its records for something else."""
        own, last = self.opening["procedures"], self.bank.texts
        if others := [name for name in sorted({**own, **last}) if own.get(name) != last.get(name)]:
            raise Unusable(f"these procedures are not those of the journal: {', '.join(others)}. With --new-procedures a server goes on with its own")

    def append(self, calls: Union[list[str], Opening]) -> None:
        """Returns once the calls of these entries are safe, which follow call `seq`. They have run already, but for those of an opening."""
        for at in range(0, max(1, len(calls)), CALLS):
            part: Union[Sequence[str], Opening] = calls[at : at + CALLS] if isinstance(calls, list) else calls
            number, data = self.number + 1, seal_batch(self.number + 1, self.seq, part, self.writer)
            self.insist(lambda: self.journal.append(number, data))
            self.number, self.seq = number, self.seq + (len(part) if isinstance(part, list) else 0)
