"""What has to hold of the worked programs of the examples, whatever the threads do: each checks the outcomes of its jobs and the
committed records against each other, by no run of any procedure."""

import json
import random

from helpers.cases import Differs, same


class Bank:
    """What a bank was given, and what it wrote: for each job its outcome, and then the records."""

    def __init__(self, given, wrote):
        opening, *later = [json.loads(line) for line in given.splitlines()]
        jobs = [line for line in later if line[0] == "job"]
        lines = wrote.splitlines()
        self.accounts = opening["accounts"]
        self.jobs = [(procedure, args) for _, procedure, args in jobs]
        self.outcomes = [line.split(" ", 1)[1] for line in lines[: len(jobs)]]
        self.records = {key: int(value) for key, value in (line.split(" ") for line in lines[len(jobs) :])}

    def of(self, procedure):
        """The arguments and the outcome of each job of this procedure."""
        return [(args, outcome) for (called, args), outcome in zip(self.jobs, self.outcomes, strict=True) if called == procedure]

    def table(self, number):
        return {int(key.split("/")[1]): value for key, value in self.records.items() if key.startswith(f"{number}/")}

    def opened(self, number):
        """This table of the accounts, as the opening has it."""
        if number == 0:
            return {account[0]: account[1] for account in self.accounts}
        return {account[1]: account[number + 1] for account in self.accounts}

    def kept(self, number):
        same(f"table {number}, which nobody puts into", self.opened(number), self.table(number))


def holds(what, held):
    if not held:
        raise Differs(what)


def ledger(bank):
    """Each transfer that committed is in the journal and moved its amount, and no other one is or did."""
    bank.kept(0)
    bank.kept(1)
    balances = bank.opened(2)
    journal = {}
    for (payer, payee, amount, number), outcome in bank.of(5):
        wanted = "asked 10" if amount < 1 else "asked 11" if payer not in balances else None
        if wanted:
            same(f"transfer {number}", wanted, outcome)
        elif outcome == "committed none":
            balances[payer] -= amount
            balances[payee] += amount
            journal[number] = amount
        else:
            holds(f"transfer {number}: {outcome}", outcome in ("asked 12", "asked 13"))
            holds(f"transfer {number}: the payee is there", outcome == "asked 12" or payee not in balances)
    same("balances", balances, bank.table(2))
    same("journal", journal, bank.table(3))
    holds("an overdraft", min(balances.values()) >= 0)


def inventory(bank):
    """What is reserved is what the open orders have, and what left the stock is what was shipped."""
    bank.kept(0)
    stock = bank.opened(1)
    orders = {}
    for (order, item, count), outcome in bank.of(5):
        wanted = "asked 20" if count < 1 else "asked 21" if item not in stock else None
        if wanted or outcome != "committed none":
            same(f"order {order}", wanted or "asked 22", outcome)
        else:
            orders[order] = (item, count)
    closed = {}
    for procedure in (6, 7):
        for (order,), outcome in bank.of(procedure):
            if outcome == "committed none":
                holds(f"order {order} is closed once", order in orders and order not in closed)
                closed[order] = procedure
            else:
                holds(f"order {order}: {outcome}", outcome in ("asked 23", "asked 24"))
    reserved = dict.fromkeys(stock, 0)
    for order, (item, count) in orders.items():
        if order not in closed:
            reserved[item] += count
        elif closed[order] == 7:
            stock[item] -= count
    same("stock", stock, bank.table(1))
    same("reserved", reserved, bank.table(2))
    same("items of orders", {order: item for order, (item, _) in orders.items()}, bank.table(3))
    same("pieces of orders", {order: 0 if order in closed else count for order, (_, count) in orders.items()}, bank.table(4))
    holds("more is reserved than is there", all(reserved[item] <= stock[item] for item in stock))


def queue_of_payments(bank):
    """Each key has one place in the queue, the first places are paid or refused, and money and fees are kept."""
    bank.kept(0)
    bank.kept(1)
    balances = bank.opened(2)
    place_of, payments = bank.table(3), bank.table(5)
    first, following = bank.records.get("4/0", 0), bank.records.get("4/1", 0)
    same("places", list(range(following)), sorted(place_of.values()))
    queued = {place: tuple(payments[3 * place + part] for part in range(3)) for place in range(following)}
    for (key, *payment), outcome in bank.of(5):
        payer, payee, amount = payment
        fault = "asked 30" if amount < 1 else "asked 31" if payer not in balances else "asked 32" if payee not in balances else None
        # Where the key has a place already, this is what is answered, and the rest of a payment is not looked at.
        allowed = {fault, f"committed {place_of[key]}" if key in place_of and amount >= 1 else None} - {None}
        holds(f"key {key}: {outcome} and not one of {allowed}", outcome in allowed)
    for key, place in place_of.items():
        sent = [tuple(payment) for (sent_key, *payment), _ in bank.of(5) if sent_key == key]
        holds(f"key {key}: the payment is one of its own", queued[place] in sent)
    paid = [outcome for _, outcome in bank.of(6)]
    same("places paid", [f"committed {place}" for place in range(first)], sorted((o for o in paid if o != "asked 33"), key=len_then_text))
    percent = {args[0] for args, _ in bank.of(6)}.pop()
    results = bank.table(6)
    same("results", list(range(first)), sorted(results))
    for place, fee in results.items():
        payer, payee, amount = queued[place]
        if fee >= 0:
            same(f"fee of {place}", amount * percent // 100, fee)
            balances[payer] -= amount + fee
            balances[payee] += amount
    same("balances", balances, bank.table(2))
    same("fees", sum(fee for fee in results.values() if fee >= 0), bank.records.get("7/0", 0))
    holds("an overdraft", min(balances.values()) >= 0)


def len_then_text(text):
    return len(text), text


def drawn(name, opening, seed, jobs):
    """A longer input of this program: its opening, and jobs that are drawn."""
    draw = random.Random(seed)
    customers = [account[1] for account in json.loads(opening)["accounts"]] + [99]
    lines, orders = [opening], []
    for n in range(jobs):
        if name == "ledger":
            job = 5, [draw.choice(customers), draw.choice(customers), draw.randint(0, 900), n]
        elif name == "inventory":
            procedure = draw.choice((5, 6, 6, 7))
            job = procedure, [n, draw.choice(customers), draw.randint(0, 2)] if procedure == 5 else [draw.choice(orders or [n])]
            orders += [n] if procedure == 5 else []
        elif draw.random() < 0.5:
            job = 5, [draw.randint(0, jobs // 2), draw.choice(customers), draw.choice(customers), draw.randint(0, 300)]
        else:
            job = 6, [2]
        lines.append(json.dumps(["job", *job], separators=(",", ":")))
    return "\n".join(lines) + "\n"


PROGRAMS = {check.__name__: check for check in (ledger, inventory, queue_of_payments)}
