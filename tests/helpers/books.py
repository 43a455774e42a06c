"""What clients of the queue of payments did and saw, as a history for `sgt check --model list-append`.

The list of an account has the ids of its payments. A payment appends its id to the lists of its payer and of its payee,
and its reply says what both have: so it reads both lists. A balance and a statement read one list. A statement says the
order of the ids. A balance says which ids they are, as no two sets of an account's payments come to the same sum. They
are put in the order of the last statement: if they are not the first ones there, the history is wrong.
"""

import itertools
import pathlib
import random
import sys
import threading

from helpers.cases import Differs, same

sys.path.insert(0, str(pathlib.Path(__file__).resolve().parents[2] / "examples" / "clients"))
from recorder import History  # noqa: E402

WHOLE = 6  # ids that a statement has at most: an account with so many gets no more
FREE = 100  # a smaller amount has no fee


def sums(amounts):
    """What each set of payments comes to, of which these are the amounts by id. None if two come to the same."""
    found = {}
    for count in range(len(amounts) + 1):
        for ids in itertools.combinations(amounts, count):
            if found.setdefault(sum(amounts[it] for it in ids), ids) != ids:
                return None
    return found


class Books:
    """The payments of a test, and its history."""

    def __init__(self, seed, cents, accounts, in_use=4):
        self.draw, self.cents, self.lock, self.history = random.Random(seed), cents, threading.Lock(), History()
        self.fresh, self.ids = iter(accounts), itertools.count(1)
        # The amounts of each account, by id; what followers replied; and how many replies of primaries there were.
        self.amounts, self.followers, self.replies = {}, [], 0
        self.in_use = [self._open() for _ in range(in_use)]

    def _open(self):
        account = next(self.fresh)
        self.amounts[account] = {}
        return account

    def payment(self):
        """A new payment between two of the accounts that are in use."""
        with self.lock:
            payer, payee = self.draw.sample(self.in_use, 2)
            number = payer * 1_000_000 + next(self.ids)
            while True:
                amount = self.draw.randrange(1, FREE)
                parts = {payer: -amount, payee: amount}
                more = {account: {**self.amounts[account], number: part} for account, part in parts.items()}
                if all(map(sums, more.values())):
                    break
            self.amounts.update(more)
            full = [it for it in (payer, payee) if len(self.amounts[it]) == WHOLE]
            self.in_use = [self._open() if it in full else it for it in self.in_use]
            return {"id": number, "from": payer, "to": payee, "amount": amount}

    def reading(self, account=None):
        """A request for a balance or a statement of this account, or of one that is in use."""
        with self.lock:
            account = account or self.draw.choice(self.in_use)
            return self.draw.choice(({"balance": account}, {"statement": account, "before": 0}))

    def statements(self):
        """The requests that end a history: they read all lists."""
        return [{"statement": account, "before": 0} for account in self.amounts]

    def begin(self, process, request):
        """Notes that a client asks for this."""
        self.history.add("invoke", process, operations(request))

    def end(self, process, request, reply):
        """Notes what it got: None if it does not know what became of the request."""
        self.history.add("ok" if reply else "info", process, (request, reply))
        self.replies += bool(reply)

    def texts(self):
        """The history, once all lists were read. And the same with what followers replied, which may be old."""
        order = {}
        for entry in self.history.entries:
            if entry["type"] == "ok" and "statement" in entry["value"][0]:
                order[entry["value"][0]["statement"]] = entry["value"][1]["payments"][::-1]
        for entry in self.history.entries:
            if entry["type"] == "ok":
                entry["value"] = self._seen(order, *entry["value"])
            elif entry["type"] == "info":
                del entry["value"]
        text = self.history.text()
        for number, asked in enumerate(self.followers):
            self.history.add("ok", f"f{number}", self._seen(order, *asked))
        return text, self.history.text()

    def _seen(self, order, request, reply):
        """The operations of a request, with the lists that its reply speaks of."""
        if "statement" in request:
            return [["r", request["statement"], reply["payments"][::-1]]]
        if "balance" in request:
            return [["r", request["balance"], self._list(order, request["balance"], reply["has"])]]
        same("a reply", {"id": request["id"], "paid": True}, {key: reply.get(key) for key in ("id", "paid")})
        reads = [["r", request[key], self._list(order, request[key], reply[f"{key}_has"])] for key in ("from", "to")]
        return [*operations(request)[:2], *reads]

    def _list(self, order, account, has):
        """The list of an account that has so much."""
        ids = sums(self.amounts[account]).get(has - self.cents)
        if ids is None:
            raise Differs(f"account {account} has {has}: no set of its payments comes to that")
        last = order.get(account, [])
        return sorted(ids, key=lambda it: last.index(it) if it in last else len(last))


def operations(request):
    """The operations of a request, before anything was read."""
    if "amount" not in request:
        return [["r", request.get("balance", request.get("statement")), None]]
    kinds = ("append", request["id"]), ("r", None)
    return [[word, request[key], number] for word, number in kinds for key in ("from", "to")]
