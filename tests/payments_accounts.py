#!/usr/bin/env python3
"""Tests which numbers the queue of payments of `examples/payments` takes: accounts, ids and amounts, and none else.

    tests/payments_accounts.py [ROUNDS [SEED]] [CASE..]

What holds of every database there stands in `helpers/bank_rows.py`. These cases ask for what would break it: payments
from and to the numbers of ids, every command with every number that is no account, ids of others, holds between
partitions that stay. Then they send ROUNDS times (40) some hundred lines, valid and hostile ones, and compare each
reply with a model, `helpers/bank_model.py`. Each case is reported, and the last line counts them. With names of cases
only those run.
"""

import ast
import contextlib
import hashlib
import json
import random
import subprocess
import sys

sys.dont_write_bytecode = True
# The test program beside this one: it comes first, as the folder of the example has a program of that name, too.
from payments import PAYMENTS, PROCEDURES, Partitions, Server, ask, asked, gift_of_page, pay, run, scratch  # noqa: E402
from helpers.bank_model import Model  # noqa: E402
from helpers import bank_rows  # noqa: E402
from helpers.bank_rows import BALANCES, SPENT, judge, own, tables  # noqa: E402
from helpers.cases import TESTS, Differs, same, run_cases  # noqa: E402
from bank import OUTCOME, ROW, Bank, load_procedures  # noqa: E402
from lines import Client, Reader  # noqa: E402
from partitions import CLEARING  # noqa: E402
from sgt import LEAST, MOST, Engine, Kind, pack_calls  # noqa: E402

FILES = load_procedures(PAYMENTS / "procedures")
DAY, CENTS, LIMIT = 20_000, 2_500_000, 1_000_000
NO_ACCOUNT, NO_ID = "an account is a number from 0 to 999999999", "an id is a number from 1 on"
# Numbers that are no account: of an id, a payment or a day, and the ends of what a value may be.
STRANGE = (
    -1,
    -2,
    -3,
    -16,
    -own(1, 1),
    own(1, 1),
    -own(2, 2),
    -100_000 - DAY,
    -(10**9),
    10**9,
    -(10**10),
    10**12,
    MOST,
    LEAST,
)


def balances(server, accounts):
    """What each account has."""
    return [it["has"] for it in server.ask(*[{"balance": account} for account in accounts])]


def negative_numbers():
    """Whoever pays from, or to, the number of an id makes no money by it, and no id is paid twice."""
    with scratch() as folder, Server("serve", folder / "j", "--accounts", 10) as server:
        made = [pay(number, 1, 2, 10) for number in range(1, 41)]
        first, had = server.ask(*made), balances(server, range(10))
        for number, it in enumerate(made, 1):
            came = server.ask(
                *[{"id": own(3, number), "from": -it["id"], "to": 7, "amount": amount} for amount in (number, 1)]
            )
            same("payments from below the number of an id", [{"error": f"from: {NO_ACCOUNT}"}] * 2, came)
            came = server.ask({"id": own(3, number), "from": 3, "to": -it["id"], "amount": 1})
            same("a payment to below the number of an id", [{"error": f"to: {NO_ACCOUNT}"}], came)
            came = server.ask({**it, "from": it["id"], "amount": 1}, pay(number, 3, it["id"], 1))
            same(
                "payments from and to the number of an id",
                ["the id is none of the payer's account", "there is no such payee"],
                [reply["refused"] for reply in came],
            )
        same("the balances", had, balances(server, range(10)))
        same("what is said again", first, server.ask(*made))


@contextlib.contextmanager
def shop(folder, **rights):
    """A server with tokens, each of which may pay from some accounts."""
    may = {hashlib.sha256(token.encode()).hexdigest(): {"pay": its, "read": its} for token, its in rights.items()}
    (folder / "tokens").write_text(json.dumps(may))
    with Server("serve", folder / "j", "--accounts", 100, "--tokens", folder / "tokens") as server:
        yield server


def by(server, token, *requests):
    """The replies to somebody with a token."""
    return server.ask({"token": token}, *requests)[1:]


def cents_to_numbers():
    """With tokens too a cent to the number of an id, or of the day, is no payment, and changes no reply and no hold."""
    with scratch() as folder, shop(folder, shop=[[0, 4]], thief=[[5, 5]]) as server:
        hold = {"hold": own(1, 2), "from": 1, "to": 2, "amount": 500}
        first = by(server, "shop", pay(1, 1, 2, 1000), hold, pay(1, 0, 4, 5))
        day = ask(folder / "j" / "admin", "day")
        for number, strange in enumerate([*STRANGE, -own(1, 2), -own(5, 1)]):
            (reply,) = by(server, "thief", {"id": own(5, number), "from": 5, "to": strange, "amount": 1})
            refused = {"id": own(5, number), "refused": "there is no such payee"}
            same(f"a cent to {strange}", refused if 0 <= strange < 10**9 else {"error": f"to: {NO_ACCOUNT}"}, reply)
        same("the day", day, ask(folder / "j" / "admin", "day"))
        same("what is said again", first, by(server, "shop", pay(1, 1, 2, 1000), hold, pay(1, 0, 4, 5)))
        wanted = [{"capture": own(1, 2), "captured": True, "to_has": 101_500}]
        same("a hold of others", wanted, by(server, "shop", {"capture": own(1, 2), "to": 2}))


def wrong_refunds():
    """A refund goes to who has paid, whatever the payer has paid to the number of the id."""
    with scratch() as folder, shop(folder, cheap=[[5, 5]], dear=[[50, 50]], merchant=[[60, 60]]) as server:
        admin = folder / "j" / "admin"
        by(server, "cheap", pay(1, 5, 60, 100))
        by(server, "dear", pay(1, 50, 60, 90_000))
        by(server, "cheap", {"id": own(5, 2), "from": 5, "to": -own(5, 1), "amount": 1})
        (reply,) = by(server, "merchant", {"refund": own(5, 1), "to": 60})
        same("the refund", {"refund": own(5, 1), "refunded": True, "to_has": 190_000}, reply)
        had = [ask(admin, "balance", account)["has"] for account in (5, 50)]
        same("what both have", [99_999, 9_100], had)


def old_ids():
    """What is old is forgotten, whatever somebody has paid to the number of an id, which must not become another's."""
    with scratch() as folder, Server("serve", folder / "j", "--accounts", 10) as server:
        admin, made = folder / "j" / "admin", [pay(number, 1, 2, 10) for number in range(1, 6)]
        server.ask(*made, {"id": own(5, 1), "from": 5, "to": -own(1, 1), "amount": 1})
        day = ask(admin, "day")["day"]
        for after in (1, 91):
            ask(admin, "day", day + after)
            server.ask(*[pay(after * 100 + number, 3, 4, 1) for number in range(20)])
        gone = [{"payment": it["id"], "refused": "there is no such payment of this account"} for it in made]
        same("old payments", gone, server.ask(*[{"payment": it["id"], "account": 1} for it in made]))


def bank_of(accounts, cents=CENTS):
    """A bank whose day has begun, with these accounts."""
    bank = Bank(0, PROCEDURES, b"".join(ROW.pack(1, account, cents) for account in accounts))
    call(bank, "day", DAY)
    return bank


def call(bank, name, *args):
    """Runs a call. The kind of its reply, its code, and its answers; and the code of a refusal that is remembered."""
    (outcome,) = OUTCOME.iter_unpack(bank.run(pack_calls([(bank.numbers[name], *args)]), [name])[0])
    kind, code, count = outcome[:3]
    return (True, 0, list(outcome[3 : 3 + count])) if kind == Kind.COMMITTED else (False, code, [])


def made_bank():
    """A bank with a payment of each state, and a request of each procedure that it takes."""
    bank = bank_of([0, 1, 2, 3, CLEARING + 1])
    calls = [("pay", own(1, 1), 1, 2, 100), ("hold", own(1, 2), 1, 2, 100), ("hold", own(1, 3), 1, 2, 100)]
    calls += [("capture", own(1, 3), 2), ("refund", own(1, 3), 2), ("credit", own(9, 1), CLEARING + 1, 2, 100)]
    calls += [("hold", own(1, 4), 1, 2, 100), ("void", own(1, 4), 2), ("note", own(1, 1), 1, 5, 6)]
    for name, *args in calls:
        same(f"{name} {args}", True, call(bank, name, *args)[0])
    valid = {"pay": (own(3, 9), 3, 2, 7), "hold": (own(3, 8), 3, 2, 7), "credit": (own(9, 2), CLEARING + 1, 2, 7)}
    valid |= {
        "decline": (own(9, 3), CLEARING + 1, 2, 7),
        "capture": (own(1, 2), 2),
        "void": (own(1, 2), 2),
        "refund": (own(1, 1), 2),
    }
    valid |= {
        "note": (own(1, 2), 1, 8, 9),
        "payment": (own(1, 1), 1),
        "statement": (1, 0),
        "open": (7, 5),
        "balance": (1,),
    }
    return bank, valid


def strange_calls():
    """Each procedure, called straight, with each strange number as each argument: no account, no change."""
    bank, valid = made_bank()
    rows, count = bank.rows(), 0
    same("the procedures that are tried", sorted(name for name, it in FILES.items() if it.request), sorted(valid))
    for name, args in valid.items():
        for place, key in enumerate(FILES[name].request):
            for strange in (0, *STRANGE):
                is_own = (
                    key in FILES[name].bounds and FILES[name].bounds[key][0] <= strange <= FILES[name].bounds[key][1]
                )
                done, code, answers = call(bank, name, *args[:place], strange, *args[place + 1 :])
                count += 1
                if key in FILES[name].bounds and not is_own:
                    same(f"{name} with {strange} as {key}: whether it is refused", (False, True), (done, code > 0))
                    same(f"the rows after {name} with {strange} as {key}", rows, bank.rows())
                judge(bank.rows(), money_of(bank, rows))
                bank, _ = made_bank() if bank.rows() != rows else (bank, None)
    for name in ("pay", "hold", "credit", "decline"):  # account 0 has the ids below a million
        for strange in (0, -1, -999_999, -own(1, 1), own(1, 0)):
            same(f"{name} of {strange} from account 0", (False, 11), call(bank, name, strange, 0, 2, 7)[:2])
            same(f"the rows after {name} of {strange}", rows, bank.rows())
    for name in ("day", "set_day"):
        for strange in (-1, 100_000, MOST, LEAST, -(10**10)):
            same(f"{name} with {strange}", (False, True), (lambda it: (it[0], it[1] > 0))(call(bank, name, strange)))
            same(f"the rows after {name} with {strange}", rows, bank.rows())
    return f"{count} calls"


def money_of(bank, before):
    """The money that a bank must have: what it had, and what an account was opened with."""
    had, has = tables(before)[1], tables(bank.rows())[1]
    return 5 * CENTS + sum(value for account, value in has.items() if account not in had)


def strange_lines():
    """Each command, at both sockets, with each value that is no account or no id: an error names it."""
    others = (1.5, 1e3, True, None, "1", [1], {}, 10**15, -(10**15), 10**400)
    no_number = {"error": "a value is a whole number of at most fifteen digits"}
    with scratch() as folder, Server("serve", folder / "j", "--accounts", 4) as server:
        admin, count = folder / "j" / "admin", 0
        server.ask(pay(1, 1, 2, 100), {"hold": own(1, 2), "from": 1, "to": 2, "amount": 100})
        ask(admin, "open", CLEARING + 1, amount=0)
        rows, (_, valid) = ask(admin, "rows"), made_bank()
        for name, args in valid.items():
            for place, key in enumerate(FILES[name].request):
                lines = [
                    dict(zip(FILES[name].request, (*args[:place], it, *args[place + 1 :])))
                    for it in (*STRANGE, 0, *others)
                ]
                bad = [
                    it
                    for it in lines
                    if it[key] in others or key in FILES[name].bounds and not is_in(it[key], FILES[name].bounds[key])
                ]
                wanted = [
                    no_number
                    if type(it[key]) is not int or abs(it[key]) > MOST
                    else {"error": FILES[name].bounds[key][2]}
                    for it in bad
                ]
                at_socket = [ask(admin, *first_of(it)[0], **first_of(it)[1]) for it in bad]
                same(f"{name} with {key}, of an administrator", wanted, at_socket)
                if not FILES[name].is_for_administrators:
                    same(f"{name} with {key}", wanted, server.ask(*bad))
                count += len(bad)
        same("the rows", rows, ask(admin, "rows"))
    return f"{count} lines"


def is_in(value, bounds):
    return type(value) is int and bounds[0] <= value <= bounds[1]


def first_of(request):
    """A request as its first key and value, and the others."""
    (word, value), *more = request.items()
    return (word, value), dict(more)


def no_account_zero():
    """Where there is no account 0, it is as any other that is not there."""
    bank = bank_of([1, 2, 3])
    rows = bank.rows()
    for name, *args in (
        ("pay", own(1, 1), 1, 0, 5),
        ("hold", own(1, 1), 1, 0, 5),
        ("pay", 1, 0, 1, 5),
        ("credit", 1, 0, 1, 5),
        ("balance", 0),
        ("statement", 0, 0),
        ("pay", own(1, 1), 1, 2, 5),
    ):
        same(f"{name} {args}", (False, True), (lambda it: (it[0], it[1] > 0))(call(bank, name, *args)))
        same(f"the rows after {name} {args}", rows, bank.rows())


def ids_of_others():
    """Whoever asks with the id of another account is refused, nothing is remembered, and the id's owner can pay."""
    with scratch() as folder, Server("serve", folder / "j", "--accounts", 3) as server:
        same("an account", True, ask(folder / "j" / "admin", "open", 9, amount=0)["opened"])
        none = "the id is none of the payer's account"
        wanted = [
            ({"id": own(1, 17), "from": 9, "to": 2, "amount": 5}, {"id": own(1, 17), "refused": none}),
            ({"hold": own(1, 17), "from": 9, "to": 2, "amount": 5}, {"hold": own(1, 17), "refused": none}),
            ({"id": 17, "from": 9, "to": 2, "amount": 5}, {"id": 17, "refused": none}),
            ({"credit": own(1, 17), "from": 9, "to": 2, "amount": 5}, {"credit": own(1, 17), "refused": none}),
            ({"decline": own(1, 17), "from": 9, "to": 2, "amount": 5}, {"decline": own(1, 17), "refused": none}),
            (pay(17, 9, 2, 5), {"id": own(9, 17), "refused": "the payer does not have that much"}),
            (pay(17, 1, 2, 250), {"id": own(1, 17), "paid": True, "from_has": 99_748, "to_has": 100_250}),
            (
                {"hold": own(1, 18), "from": 1, "to": 2, "amount": 10},
                {"hold": own(1, 18), "held": True, "from_has": 99_738},
            ),
            (
                {"id": own(1, 999_999), "from": 1, "to": 2, "amount": 1},
                {"id": own(1, 999_999), "paid": True, "from_has": 99_737, "to_has": 100_251},
            ),
            ({"id": own(2, 0), "from": 1, "to": 2, "amount": 1}, {"id": own(2, 0), "refused": none}),
            (pay(17, 9, 2, 5), {"id": own(9, 17), "refused": "the payer does not have that much"}),
        ]
        asked(server, wanted)


def credited_ids():
    """A credit is no payment and no hold, though all four numbers are the same: who asks for the other is refused."""
    bank, other = bank_of(range(4)), 7
    call(bank, "credit", own(1, 1), 1, 2, 5)
    call(bank, "hold", own(1, 2), 1, 2, 5)
    call(bank, "pay", own(1, 3), 1, 2, 5)
    for name, number in (
        ("hold", 1),
        ("pay", 1),
        ("pay", 2),
        ("credit", 2),
        ("decline", 2),
        ("hold", 3),
        ("credit", 3),
        ("decline", 3),
    ):
        came, rows = call(bank, name, own(1, number), 1, 2, 5), bank.rows()
        same(f"{name} of {number}", other, came[1] or -came[2][0])
        same(f"the rows after {name} of {number}", rows, bank.rows())
    for name, first, number in (
        ("credit", (1, 2, 5), own(8, 1)),
        ("decline", (1, 2, 5), own(8, 2)),
        ("hold", (1, 2, 5), own(1, 4)),
    ):
        same(f"{name} with an id that is new", True, call(bank, name, number, *first)[0])
        others = [(3, 2, 5), (1, 3, 5), (1, 2, 6)] if name != "hold" else [(1, 3, 5), (1, 2, 6)]
        same(
            f"{name} again, with other numbers",
            [other] * len(others),
            [call(bank, name, number, *it)[1] for it in others],
        )
    judge(bank.rows(), 4 * CENTS)


def held_for_long():
    """One that is held comes again every 90 days, takes no more records by that, and goes once it is captured."""
    bank, counts = bank_of(range(3)), []
    call(bank, "hold", own(1, 1), 1, 2, 100)
    call(bank, "pay", own(1, 2), 1, 2, 100)
    call(bank, "hold", own(1, 3), 1, 2, 100)
    for after in range(1, 6):
        for day in (91 * after - 90, 91 * after):
            call(bank, "set_day", DAY + day)
            for _ in range(4):
                call(bank, "forget")
            judge(bank.rows(), 3 * CENTS)
        counts.append(len(tables(bank.rows())[bank_rows.PAYMENTS]))
        same("the hold", 1, call(bank, "payment", own(1, 1), 1)[2][3])
    same("the records of payments", [20] * 5, counts)
    same("the holds", [True] * 2, [call(bank, "capture", own(1, number), 2)[0] for number in (1, 3)])
    for day in (500, 590):
        call(bank, "set_day", DAY + day)
        for _ in range(4):
            call(bank, "forget")
    judge(bank.rows(), 3 * CENTS)
    same("ids and payments at the end", [{}, {}], tables(bank.rows())[bank_rows.IDS : bank_rows.PAYMENTS + 1])


def days_of_limits():
    """What accounts have paid on a day takes no more records from day to day, if they pay on each day or on some."""
    bank, draw, counts = bank_of(range(6)), random.Random(3), []
    for day in range(DAY + 1, DAY + 401):
        call(bank, "day", day)
        for number in range(20):
            payer = draw.randrange(6) if day % 7 else day % 6
            call(
                bank, "pay", own(payer, (day - DAY) * 20 + number), payer, (payer + 1) % 6, draw.choice((1, 5, 10**6))
            )
            for _ in range(2):
                call(bank, "forget")
        counts.append(len(bank.rows()) // ROW.size)
    judge(bank.rows(), 6 * CENTS)
    same(
        "the most records in the second half of the days, and in the first",
        True,
        max(counts[200:]) <= max(counts[:200]) + 50,
    )
    same("records of what was spent", 6, len(tables(bank.rows())[SPENT]))
    return f"{counts[199]} records after 200 days, {counts[399]} after 400"


def limits_of_days():
    """An account pays as much as it may on each day. If the day is set back, what it paid later counts once more."""
    bank, much = bank_of(range(3), 10**9), 10**6
    steps = [
        ((), much, True),
        ((), 1, False),
        (("day", DAY + 1), much, True),
        ((), 1, False),
        (("set_day", DAY + 50), much, True),
    ]
    steps += [
        (("set_day", DAY + 1), 1, False),
        (("day", DAY + 2), much, True),
        (("set_day", DAY + 9), much - 1, True),
        ((), 1, True),
        ((), 1, False),
    ]
    for number, (day, amount, is_paid) in enumerate(steps):
        if day:
            same(str(day), True, call(bank, *day)[0])
        same(f"payment {number}, of {amount}", is_paid, call(bank, "pay", own(1, number), 1, 2, amount)[2][0] >= 0)
    judge(bank.rows(), 3 * 10**9)


def edges():
    """A payment takes exactly what the payer has, what is left of the limit, and what the payee has digits for."""
    for amount in (1, 99, 100, 101, 199, 200, 12_345, 99_999):
        for name, number in (("pay", 1), ("hold", 2)):
            for more, code in ((0, 0), (-1, -5)):
                bank = bank_of([0, 2], 0)
                call(bank, "open", 1, amount + amount // 100 + more)
                same(
                    f"{name} of {amount} with {more}",
                    min(code, 0),
                    min(call(bank, name, own(1, number), 1, 2, amount)[2][0], 0),
                )
        for name, number in (("pay", 3), ("hold", 4), ("credit", 5)):
            for more, code in ((0, 0), (1, -10)):
                bank = bank_of([0, 1], CENTS)
                call(bank, "open", 2, MOST - amount + more)
                same(
                    f"{name} of {amount} to {MOST - amount + more}",
                    code,
                    min(call(bank, name, own(1, number), 1, 2, amount)[2][0], 0),
                )
    for name in ("pay", "hold"):
        for first in (1, 500_000, LIMIT - 1):
            bank = bank_of([0, 1, 2], 9 * LIMIT)
            steps = ((first, True), (LIMIT - first + 1, False), (LIMIT - first, True), (1, False))
            done = [
                call(bank, name, own(1, number), 1, 2, amount)[2][0] >= 0 for number, (amount, _) in enumerate(steps)
            ]
            same(f"{name} up to the limit from {first} on", [is_done for _, is_done in steps], done)
    bank, last = bank_of([0]), 999_999_999
    answers = [call(bank, "credit", own(1, 1), 0, last, 5), call(bank, "decline", own(1, 2), last, 0, 5)]
    same("payments that are refused to, and from, the last account", [[-4], [-13]], [it[2][:1] for it in answers])
    answers = [call(bank, "open", last, 7), call(bank, "credit", own(1, 3), 0, last, 5), call(bank, "balance", last)]
    same("the last account, once it is there", [[7], [12], [12]], [it[2] for it in answers])
    for has, wanted in ((0, [5]), (-1, [-4])):
        bank = Bank(0, PROCEDURES, ROW.pack(1, 0, 9) + ROW.pack(1, 1, has))
        same(f"a credit to who has {has}", wanted, call(bank, "credit", 1, 0, 1, 5)[2])
    same("the first day of all", True, call(bank, "day", 0)[0])
    same("the first and the last day", [True, True], [call(bank, "set_day", day)[0] for day in (0, 99_999)])
    same("the day after the last one", 2, call(bank, "day", 100_000)[1])


def ends(folder, here, there, *request):
    """What the command for operators says of a payment between two partitions of these numbers."""
    words = [here, folder / "0" / "admin", there, folder / "1" / "admin", *request]
    ran = subprocess.run(
        [sys.executable, PAYMENTS / "partitions.py", *map(str, words)], capture_output=True, text=True, check=False
    )
    if ran.returncode:
        raise Differs(f"the command ends with {ran.returncode}: {ran.stderr[-300:]}")
    return ast.literal_eval(ran.stdout)


def held_between_partitions():
    """A hold between partitions whose payer is gone, or that can't be credited, is ended by a command."""
    with scratch() as folder, contextlib.ExitStack() as stack:
        bank = Partitions(folder, stack)

        def state(number):
            return bank.ask(0, {"payment": own(1000, number), "account": 1000})["state"]

        dead, burnt, alone, other = [(own(1000, number), 1000, 2000, 500) for number in range(1, 5)]
        same("a client that dies after the hold", (None, 1), (bank.pay(dead, 1), state(1)))
        same("the end of it", True, ends(folder, 0, 1, *dead)["paid"])
        credit = {"credit": burnt[0], "from": 2001, "to": 2002, "amount": 1}
        same("a credit by its id", True, bank.ask(1, credit)["credited"])
        wanted = {"id": burnt[0], "refused": "the id belongs to another payment"}
        same("a client that dies after the hold", (None, 1), (bank.pay(burnt, 1), state(2)))
        same("the end of it", wanted, ends(folder, 0, 1, *burnt))
        same("again, and by a client", [wanted, wanted], [ends(folder, 0, 1, *burnt), bank.pay(burnt)])
        wanted = {"id": alone[0], "refused": "the payment was given up"}
        same(
            "where there is no account between both",
            [wanted, wanted],
            [ends(folder, 5, 1, *alone), ends(folder, 5, 1, *alone)],
        )
        same("a client that dies after the credit", (None, 1), (bank.pay(other, 2), state(4)))
        with contextlib.suppress(ConnectionError):
            raise Differs(f"by its id another payee gets {bank.pay((*other[:2], 2001, 500))}")
        same("its hold", 1, state(4))
        same("the end of it", True, ends(folder, 0, 1, *other)["paid"])
        same("the states", [2, 3, 3, 2], [state(number) for number in range(1, 5)])
        has = [
            bank.ask(number, {"balance": it})["has"]
            for number in range(2)
            for it in [0, *bank.accounts(number), CLEARING + 1 - number]
        ]
        same("the money", 40 * bank.HAS, sum(has))
        same("what payer and payee have", [bank.HAS - 2 * 505, bank.HAS + 2 * 500], [has[1], has[23]])


def cookbook():
    """The procedures of the cookbook, and the gift of the page, refuse what is no amount or no account."""
    (opening, *_) = (TESTS.parent / "examples" / "cookbook" / "jobs.jsonl").read_text().split("\n", 1)
    (transfer, fee, deposit, withdraw, *_), gift = json.loads(opening)["procedures"], gift_of_page()["procedure"]
    amounts, strange = (0, -1, -90, LEAST), (-1, 9, 10**9, MOST, LEAST)
    calls = (
        [(transfer, (1, 2, it)) for it in amounts]
        + [(deposit, (7, 1, it)) for it in amounts]
        + [(withdraw, (1, it, 5)) for it in amounts]
    )
    calls += [(transfer, its) for it in strange for its in ((it, 1, 5), (1, it, 5))] + [
        (withdraw, (it, 5, 5)) for it in strange
    ]
    calls += [(fee, (it,)) for it in strange] + [(deposit, (7, it, 5)) for it in strange]
    calls += [(gift, its) for its in [(1, it) for it in (*amounts, 10**9)] + [(it, 5) for it in strange]]
    for procedure, args in calls:
        table = 1 if procedure is gift else 3
        engine = Engine.bare(1, 100, releases=True)
        engine.put_bytes(b"".join(ROW.pack(table, account, 100) for account in range(3)))
        rows, number = engine.rows_bytes(), engine.procedure(procedure)
        (outcome,) = OUTCOME.iter_unpack(engine.run_bytes(pack_calls([(number, *args)])))
        same(
            f"whether {procedure} refuses {args}", (False, True), (outcome[0] == Kind.COMMITTED, 0 < outcome[1] < 1000)
        )
        same(f"the rows after {procedure} with {args}", rows, engine.rows_bytes())
    return f"{len(calls)} calls"


class Lines:
    """Draws lines, valid and hostile ones, of few accounts and ids, so that they meet."""

    AMOUNTS = (*(1, 2, 99, 100, 101, 5_000) * 4, LIMIT, LIMIT - 1, 0, -1, -100, 10**7, MOST, LEAST)
    RICH, ACCOUNTS = 6, (0, 1, 2, 3, CLEARING + 1)  # the rich one has nearly as much as has digits
    OTHERS = (1.5, True, None, "1", [], {}, 10**15, -(10**15))

    def __init__(self, draw):
        self.draw, self.made = draw, []  # payments that were asked for: their ids, payers, payees and amounts

    def account(self):
        return (
            self.draw.choice((*self.ACCOUNTS, self.RICH))
            if self.draw.random() < 0.85
            else self.draw.choice((7, 16, *STRANGE))
        )

    def number(self, payer):
        """An id, most of the time of the payer."""
        payer = (
            payer if self.draw.random() < 0.85 and 0 <= payer < 10**9 else self.draw.choice((*self.ACCOUNTS, 8, 9))
        )
        return own(payer, self.draw.randrange(6)) if self.draw.random() < 0.93 else self.draw.choice((0, *STRANGE))

    def args(self, name):
        """Arguments of a procedure, by the keys of its request: most are of a payment that was asked for."""
        payer, file = self.account(), FILES[name]
        drawn = self.number(payer), payer, self.account(), self.draw.choice(self.AMOUNTS)
        is_new = name in ("pay", "hold", "credit", "decline") and self.draw.random() < 0.5
        if self.made and not is_new and self.draw.random() < 0.8:
            drawn = self.draw.choice(self.made[-self.draw.choice((1, 2, 8)) :])
        if is_new:
            self.made.append(drawn)
        number, payer, payee, amount = drawn
        found = {
            "from": payer,
            "to": payee,
            "amount": amount,
            "account": self.draw.choice((payer, payee)),
            "before": self.draw.choice((0, number)),
        }
        found |= {key: payee for key in ("balance", "statement", "open")} | {
            key: self.draw.choice(self.AMOUNTS) for key in ("time", "reference")
        }
        found = {key: found.get(key, number) for key in file.request}
        if found and self.draw.random() < 0.15:
            key = self.draw.choice(file.request)
            found[key] = self.draw.choice((self.account(), self.number(payer), *self.AMOUNTS))
        return found

    def request(self):
        """A request, now and then with a key that is missing, too much or wrong, or a value that is no number."""
        name = self.draw.choice([*ASKED, "pay", *("hold", "capture", "void", "refund") * 2])
        pairs = [*self.args(name).items()]
        self.draw.shuffle(pairs)
        trick, at = self.draw.randrange(60), self.draw.randrange(len(pairs))
        if trick == 0:
            pairs.pop(at)
        elif trick == 1:
            pairs.append((pairs[at][0], self.draw.choice(self.AMOUNTS)))
        elif trick in (2, 3):
            pairs[at] = pairs[at][0], self.draw.choice(self.OTHERS)
        elif trick == 4:
            pairs[at] = self.draw.choice(("", "rows", "day", "token", "id", "\u00e9")), pairs[at][1]
        return "{" + ",".join(f"{json.dumps(key)}:{json.dumps(value)}" for key, value in pairs) + "}"

    def line(self):
        """A line: a request or a list of some, now and then with bytes that are wrong."""
        requests = [self.request() for _ in range(self.draw.choice((1, 1, 1, 2, 5)))]
        text = requests[0] if len(requests) == 1 else f"[{','.join(requests)}]"
        data = bytearray(text.encode())
        if self.draw.random() < 0.1:
            for _ in range(self.draw.randrange(1, 4)):
                at = self.draw.randrange(len(data) + 1)
                data[at : at + self.draw.randrange(3)] = self.draw.randbytes(self.draw.randrange(3))
        return bytes(data).replace(b"\n", b" ")

    def call(self):
        """A call that no reader has seen."""
        name = self.draw.choice([*FILES, "forget", "forget"])
        if name in ("day", "set_day"):
            return name, DAY + self.draw.choice((0, 1, 2, 91, 92, 180, -90, -DAY - 1, 10**6))
        return (name, *self.args(name).values())


ASKED = [name for name, it in FILES.items() if it.request and not it.is_for_administrators]


class Desk:
    """A reader and a bank: a server without its processes. A model says what the bank has to answer."""

    def __init__(self, accounts):
        self.bank, self.client, self.reader = bank_of(accounts), Client(None, 0, None), Reader(FILES, None, False)
        self.money, self.inputs, self.done, self.model = len(accounts) * CENTS, 0, 0, Model(accounts, CENTS)
        self.model.run("day", DAY)
        self.run("open", Lines.RICH, MOST - 1_000)

    def answer(self, line):
        """The reply to a line."""
        asked = self.reader.read(line, self.client)
        if isinstance(asked, list):
            return f"[{', '.join(map(self.reply, asked))}]"
        return self.reply(asked)

    def reply(self, asked):
        """The reply to a request."""
        self.inputs += 1
        if isinstance(asked, str):
            return asked
        procedure, args = asked
        outcome = self.run(procedure.name, *args)
        return procedure.reply(outcome, args[0], "")

    def run(self, name, *args):
        """Runs a call. A payment that was refused has an answer more, which nobody gets."""
        (outcome,) = OUTCOME.iter_unpack(self.bank.run(pack_calls([(self.bank.numbers[name], *args)]), [name])[0])
        is_done = outcome[0] == Kind.COMMITTED
        code, answers = (0, list(outcome[3 : 3 + outcome[2]])) if is_done else (outcome[1], [])
        came = is_done, code, answers[:1] if name == "pay" and answers and answers[0] < 0 else answers
        same(f"{name} {args}", self.model.run(name, *args), came)
        self.money += args[1] if name == "open" and is_done else 0
        self.done += is_done
        return outcome

    def judge(self):
        """The database is right, and has what the model has."""
        judge(self.bank.rows(), self.money)
        same("the balances", self.model.has, tables(self.bank.rows())[BALANCES])


def fuzz(rounds, seed):
    """Lines, and calls that no reader has seen, valid and hostile ones: each reply is as the model has it."""
    inputs = done = 0
    for number in range(rounds):
        lines, desk = Lines(random.Random(f"{seed} {number}")), Desk(Lines.ACCOUNTS)
        try:
            for step in range(300):
                if lines.draw.random() < 0.2:
                    desk.inputs += 1
                    desk.run(*lines.call())
                else:
                    json.loads(desk.answer(lines.line()))
                if step % 50 == 49:
                    desk.judge()
        except (Differs, ValueError) as why:
            raise Differs(f"round {number} of seed {seed}, input {desk.inputs}: {why}") from None
        inputs, done = inputs + desk.inputs, done + desk.done
    if done < inputs / 10:
        raise Differs(f"only {done} of {inputs} inputs were done")
    return f"{inputs} inputs, {done} of them done"


def lines_to_a_server(rounds, seed):
    """A server replies to lines as its reader and its bank do without it, and its rows are the same."""
    count = 0
    with scratch() as folder, Server("serve", folder / "j", "--accounts", 4, "--cents", CENTS) as server:
        desk, lines = Desk(range(4)), Lines(random.Random(f"{seed} server"))
        same("an account", True, ask(folder / "j" / "admin", "open", Lines.RICH, amount=MOST - 1_000)["opened"])
        for _ in range(rounds):
            sent = [it for it in (lines.line() for _ in range(100)) if it.strip()]
            wanted = [json.loads(desk.answer(it)) for it in sent]
            for line, must, came in zip(sent, wanted, server.ask(*sent)):
                same(f"the reply to {line!r}", must, came)
            count += len(sent)
        same("the rows", hashlib.sha256(desk.bank.rows()).hexdigest(), ask(folder / "j" / "admin", "rows")["sha256"])
        desk.judge()
        same("verify", 0, run("verify", folder / "j")[0])
    return f"{count} lines"


def main():
    numbers = [int(word) for word in sys.argv[1:] if word.isdigit()]
    names = [word for word in sys.argv[1:] if not word.isdigit()]
    rounds, seed = (numbers + [40, 1][len(numbers) :])[:2]

    def hostile_calls():
        return fuzz(rounds, seed)

    def hostile_lines():
        return lines_to_a_server(rounds, seed)

    cases = [
        negative_numbers,
        cents_to_numbers,
        wrong_refunds,
        old_ids,
        strange_calls,
        strange_lines,
        no_account_zero,
        ids_of_others,
        credited_ids,
    ]
    cases += [
        held_for_long,
        days_of_limits,
        limits_of_days,
        edges,
        held_between_partitions,
        cookbook,
        hostile_calls,
        hostile_lines,
    ]
    return run_cases([case for case in cases if not names or case.__name__ in names], of="payments accounts")


if __name__ == "__main__":
    sys.exit(main())
