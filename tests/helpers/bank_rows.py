"""What holds of every database of `examples/payments`: money is conserved, and each table has what it is for.

The page there says what each record is. A database is a list of tables, each of which has values by number.
"""

import pathlib
import shutil
import sys
import tempfile

from helpers.cases import TESTS, same

sys.path.append(str(TESTS.parent / "examples" / "payments"))  # the last, as a program of tests has a name from there
from audit import batches  # noqa: E402
from bank import ROW, Unusable  # noqa: E402
from file_journal import FileJournal  # noqa: E402
from journal import Store  # noqa: E402

ACCOUNTS, DAYS, LIMIT, OF_ACCOUNT, A_DAY = 10**9, 10**5, 10**6, 10**6, 10**7
BALANCES, NEWEST, SPENT, IDS, PAYMENTS = 1, 2, 3, 4, 5
# The columns of a payment, and how far apart payments are.
(
    ID,
    PAYER,
    PAYEE,
    AMOUNT,
    PAYER_HAS,
    PAYEE_HAS,
    BEFORE_OF_PAYER,
    BEFORE_OF_PAYEE,
    STATE,
    TIME,
    REFERENCE,
    AFTER_REFUND,
) = range(12)
STEP = 16
PAID, HELD, CAPTURED, VOIDED, REFUNDED, CAPTURED_AND_REFUNDED, REFUSED_HOLD, CREDITED = 0, 1, 2, 3, 4, 5, 6, 7


def own(account, number):
    """The id that has this number among those of an account."""
    return account * OF_ACCOUNT + number


def tables(rows):
    """The records of a database, by table."""
    found: list = [{} for _ in range(8)]
    for table, number, value in ROW.iter_unpack(rows):
        found[table][number] = value
    return found


def payments(found):
    """The columns of each payment, by its place. Where a held one comes again to be forgotten there is the id alone."""
    places: dict = {}
    for number, value in found[PAYMENTS].items():
        places.setdefault(number - number % STEP, {})[number % STEP] = value
    return places


def money(found):
    """All money: what accounts have, and what is held, with its fee."""
    held = [it[AMOUNT] for it in payments(found).values() if it.get(STATE) == HELD]
    return sum(found[BALANCES].values()) + sum(amount + amount // 100 for amount in held)


def is_account(number):
    return 0 <= number < ACCOUNTS


def is_place(number, last):
    return 0 < number <= last and number % STEP == 0


def faults_of_numbers(found):
    """Table 0: the day, how many ids came and went, and how many had come when each day began."""
    came, went = found[0].get(1, 0), found[0].get(2, 0)
    marks = {number: value for number, value in found[0].items() if number > 2}
    good = {
        "the day": 0 <= found[0].get(0, 0) < DAYS,
        "how many came and went": 0 <= went <= came and went % STEP == came % STEP == 0,
        "a number of table 0": all(0 <= number - DAYS < DAYS for number in marks) and min(found[0], default=0) >= 0,
        "how many had come on a day": all(value == 0 or is_place(value, came) for value in marks.values()),
    }
    return [what for what, is_so in good.items() if not is_so]


def faults_of_accounts(found):
    """Tables 1 to 3: balances, newest payments and what was spent, of accounts alone. Nothing in tables 6 and 7."""
    last, there = found[0].get(1, 0), found[BALANCES]
    good = {
        "an account": all(map(is_account, there)),
        "the newest payment of an account": all(
            it in there and is_place(place, last) for it, place in found[NEWEST].items()
        ),
        "what an account has paid": all(
            it in there and 0 <= spent % A_DAY <= LIMIT for it, spent in found[SPENT].items()
        ),
        "the day on which an account has paid": all(0 <= spent < DAYS * A_DAY for spent in found[SPENT].values()),
        "a table that is free": not found[6] and not found[7],
    }
    return [what for what, is_so in good.items() if not is_so]


def columns_of(it):
    """The columns that a payment must have, by its state and whether it was refused."""
    state, is_refused = it.get(STATE, PAID), it[PAYER_HAS] < 0
    wanted = set(range(PAYEE_HAS + 1)) | (it.keys() & {STATE, TIME, REFERENCE})
    wanted |= {STATE} if state != PAID or it.keys() & {TIME, REFERENCE} else set()
    wanted |= {TIME, REFERENCE} if it.keys() & {TIME, REFERENCE} else set()
    wanted |= set() if is_refused else {BEFORE_OF_PAYEE} if state == CREDITED else {BEFORE_OF_PAYER, BEFORE_OF_PAYEE}
    return wanted | ({AFTER_REFUND} if state in (REFUNDED, CAPTURED_AND_REFUNDED) else set())


def faults_of_payment(found, place, it):
    """A payment that has its id: its columns, and what is in them."""
    if not it.keys() >= set(range(PAYEE_HAS + 1)):
        return [f"the columns of a payment: {it}"]
    state, code, last = it.get(STATE, PAID), min(it[PAYER_HAS], 0), found[0].get(1, 0)
    codes = {CREDITED: (0, -4, -10, -13), REFUSED_HOLD: (-5, -6, -10), PAID: (0, -5, -6, -10)}.get(state, (0,))
    good = {
        "the columns of a payment": set(it) == columns_of(it),
        "the state of a payment": PAID <= state <= CREDITED,
        "the id of a payment": found[IDS].get(it[ID]) == place,
        "the code of a refusal": code in codes,
        "the accounts of a payment": is_account(it[PAYER]) and is_account(it[PAYEE]) and it[PAYER] != it[PAYEE],
        "whose id it is": state == CREDITED or it[ID] // OF_ACCOUNT == it[PAYER],
        "accounts that are there": (state == CREDITED and code) or {it[PAYER], it[PAYEE]} <= found[BALANCES].keys(),
        "the amount": it[AMOUNT] >= 1,
        "the payment before it": all(
            not it.get(column) or is_place(it[column], place - STEP) for column in (BEFORE_OF_PAYER, BEFORE_OF_PAYEE)
        ),
        "its place": is_place(place, last),
    }
    return [f"{what}: {it}" for what, is_so in good.items() if not is_so]


def faults_of_payments(found):
    """Tables 4 and 5: each id has one payment, and comes once more among those that are to be forgotten."""
    places, (came, went) = payments(found), (found[0].get(1, 0), found[0].get(2, 0))
    coming = [places.get(place, {}).get(ID) for place in range(went + STEP, came + STEP, STEP)]
    own = {place: it for place, it in places.items() if found[IDS].get(it.get(ID)) == place}
    good = {
        "an id": all(number >= 1 for number in found[IDS]),
        "the place of an id": set(found[IDS].values()) == own.keys() and len(own) == len(found[IDS]),
        "what is to be forgotten": sorted(map(str, coming)) == sorted(map(str, found[IDS])),
        "what comes again": all(set(it) == {ID} and place > went for place, it in places.items() if place not in own),
    }
    faults = [what for what, is_so in good.items() if not is_so]
    return faults + [fault for place, it in own.items() for fault in faults_of_payment(found, place, it)]


def faults_of_statements(found):
    """From the newest payment of an account on there are all of its payments, unless one between was forgotten."""
    places, faults, wanted = payments(found), [], {account: set() for account in found[BALANCES]}
    for place, it in places.items():
        for account, column in ((it.get(PAYER), BEFORE_OF_PAYER), (it.get(PAYEE), BEFORE_OF_PAYEE)):
            if column in it:
                wanted[account].add(place)
    for account, made in wanted.items():
        at, came = found[NEWEST].get(account, 0), set()
        while PAYER in places.get(at, {}) and at not in came:
            came.add(at)
            at = places[at].get(BEFORE_OF_PAYER if places[at][PAYER] == account else BEFORE_OF_PAYEE, 0)
        if not came <= made or (came != made and at == 0):
            faults.append(f"the statement of account {account}")
    return faults


def faults(found):
    """What is wrong with a database. Of one that is none of these tables the statements are not asked for."""
    first = [fault for part in (faults_of_numbers, faults_of_accounts, faults_of_payments) for fault in part(found)]
    return first or faults_of_statements(found)


def judge(rows, wanted=None):
    """A database has the money that is wanted, and nothing wrong."""
    found = tables(rows)
    same("what is wrong with the database", [], faults(found))
    if wanted is not None:
        same("the money", wanted, money(found))


def judge_folder(folder):
    """What a journal in files gives is right, and its money is what was opened; what a start refuses gives nothing."""
    with tempfile.TemporaryDirectory(prefix="payments-") as aside:
        try:
            copy = shutil.copytree(
                folder, pathlib.Path(aside) / "copy", symlinks=True, ignore=shutil.ignore_patterns("admin", "*.new")
            )
            opened, bank = None, None
            for bank, _, calls in batches(Store(copy), FileJournal(copy)):
                if opened is None and bank.texts:
                    opened = money(tables(bank.rows()))
                opened = (
                    opened
                    if not isinstance(calls, list)
                    else (opened or 0) + sum(it[2] for it in calls if it[0] == "open")
                )
        except (Unusable, OSError, ValueError):
            return
        judge(bank.rows(), opened)
