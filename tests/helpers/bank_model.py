"""The bank of `examples/payments` in plain Python: what each procedure there answers."""

from helpers.bank_rows import (
    ACCOUNTS,
    CAPTURED,
    CAPTURED_AND_REFUNDED,
    CREDITED,
    DAYS,
    HELD,
    LIMIT,
    OF_ACCOUNT,
    PAID,
    REFUNDED,
    REFUSED_HOLD,
    VOIDED,
)

MOST = 10**15 - 1


class Asked(Exception):
    """A procedure aborts with a code."""

    def __init__(self, code):
        super().__init__(code)
        self.code = code


class Payment:
    """What was asked, what is answered again, and the payments of its payer and payee that came before it."""

    def __init__(self, number, payer, payee, amount, state):
        self.number, self.payer, self.payee, self.amount, self.state = number, payer, payee, amount, state
        self.code, self.from_has, self.to_has, self.refunded_has, self.note, self.before = 0, 0, 0, 0, (0, 0), {}


def ask_unless(is_so, code):
    if not is_so:
        raise Asked(code)


def fitting(value):
    """A value, if it has no more than fifteen digits."""
    ask_unless(abs(value) <= MOST, 1000)
    return value


class Model:
    """A bank: what accounts have, the payments by id, and in which order ids are forgotten."""

    def __init__(self, accounts, cents):
        self.has, self.today, self.ids, self.spent = dict.fromkeys(accounts, cents), None, {}, {}
        self.newest, self.queue, self.gone, self.marks = {}, [], 0, {}

    def run(self, name, *args):
        """Whether it commits, its code, and its answers. A call that aborts has changed nothing."""
        try:
            return True, 0, getattr(self, name)(*args)
        except Asked as why:
            return False, why.code, []

    def note_payment(self, payment, *accounts):
        """A payment, which stands in the statements of these accounts."""
        self.ids[payment.number] = payment
        self.queue.append(payment.number)
        for account in accounts:
            payment.before[account] = self.newest.get(account)
            self.newest[account] = payment

    def counted(self, payer):
        """What counts for the limit of this day. What was paid on a later one counts now, if the day was set back."""
        day, spent = self.spent.get(payer, (-1, 0))
        return spent if day >= self.today else 0

    def refusal(self, payer, payee, amount):
        """The code of a refusal that is remembered, or 0; then the limit counts."""
        if self.has[payer] < fitting(amount + amount // 100):
            return 5
        spent = self.counted(payer)
        if spent + amount > LIMIT:
            self.spent[payer] = self.today, spent
            return 6
        return 10 if self.has[payee] > MOST - amount else 0

    def valid(self, payer, payee, amount, holds=False):
        """Of a payment whose id is new: what is refused and not remembered."""
        ask_unless(amount >= 1, 1)
        ask_unless(payer != payee, 2)
        if holds:
            fitting(amount + amount // 100)
        ask_unless(payer in self.has, 3)
        ask_unless(payee in self.has, 4)
        ask_unless(self.today is not None, 8)

    def pay(self, number, payer, payee, amount):
        ask_unless(number >= 1 and number // OF_ACCOUNT == payer, 11)
        if made := self.ids.get(number):
            is_it = (made.payee, made.amount) == (payee, amount) and made.state in (PAID, REFUNDED)
            return [-7] if not is_it else [-made.code] if made.code else [made.from_has, made.to_has]
        self.valid(payer, payee, amount)
        made, before = Payment(number, payer, payee, amount, PAID), dict(self.has)
        made.code = self.refusal(payer, payee, amount)
        if made.code:
            self.note_payment(made)
            return [-made.code]
        try:
            ask_unless(0 in self.has, 9)
            for account, change in ((payer, -amount - amount // 100), (payee, amount), (0, amount // 100)):
                self.has[account] = fitting(self.has[account] + change)
        except Asked:
            self.has = before
            raise
        self.spent[payer] = self.today, self.counted(payer) + amount
        made.from_has, made.to_has = self.has[payer], self.has[payee]
        self.note_payment(made, payer, payee)
        return [made.from_has, made.to_has]

    def hold(self, number, payer, payee, amount):
        ask_unless(number >= 1 and number // OF_ACCOUNT == payer, 11)
        if made := self.ids.get(number):
            is_it = (made.payee, made.amount) == (payee, amount) and made.state not in (PAID, REFUNDED, CREDITED)
            ask_unless(is_it, 7)
            return [-made.code] if made.code else [made.from_has] + [VOIDED] * (made.state == VOIDED)
        self.valid(payer, payee, amount, True)
        made = Payment(number, payer, payee, amount, HELD)
        made.code = self.refusal(payer, payee, amount)
        if made.code:
            made.state = REFUSED_HOLD
            self.note_payment(made)
            return [-made.code]
        self.spent[payer] = self.today, self.counted(payer) + amount
        self.has[payer] -= amount + amount // 100
        made.from_has = self.has[payer]
        self.note_payment(made, payer, payee)
        return [made.from_has]

    def credit(self, number, payer, payee, amount, declines=False):
        ask_unless(number >= 1 and (number // OF_ACCOUNT == payer or number // OF_ACCOUNT not in self.has), 11)
        if made := self.ids.get(number):
            ask_unless((made.payer, made.payee, made.amount, made.state) == (payer, payee, amount, CREDITED), 7)
            return [-made.code] if made.code else [made.to_has]
        ask_unless(amount >= 1, 1)
        ask_unless(payer != payee, 2)
        ask_unless(0 <= payee < ACCOUNTS, 12)
        ask_unless(declines or payer in self.has, 3)
        ask_unless(0 <= payer < ACCOUNTS, 12)
        made = Payment(number, payer, payee, amount, CREDITED)
        made.code = (
            13 if declines else 4 if self.has.get(payee, -1) < 0 else 10 if self.has[payee] > MOST - amount else 0
        )
        if made.code:
            self.note_payment(made)
            return [-made.code]
        self.has[payer] = fitting(self.has[payer] - amount)
        self.has[payee] += amount
        made.to_has = self.has[payee]
        self.note_payment(made, payee)
        return [made.to_has]

    def decline(self, *args):
        return self.credit(*args, declines=True)

    def of_payee(self, number, payee):
        """The payment with this id, if it is of this payee."""
        ask_unless(number in self.ids and self.ids[number].payee == payee, 1)
        return self.ids[number]

    def capture(self, number, payee):
        made = self.of_payee(number, payee)
        ask_unless(made.state != VOIDED, 4)
        ask_unless(made.state in (HELD, CAPTURED, CAPTURED_AND_REFUNDED), 1)
        if made.state == HELD:
            ask_unless(0 in self.has, 2)
            gets = {payee: made.amount, 0: made.amount // 100} if payee else {0: made.amount + made.amount // 100}
            after = {account: fitting(self.has[account] + more) for account, more in gets.items()}
            self.has.update(after)
            made.state, made.to_has = CAPTURED, self.has[payee]
        return [made.to_has]

    def void(self, number, payee):
        made = self.of_payee(number, payee)
        ask_unless(made.state not in (CAPTURED, CAPTURED_AND_REFUNDED), 4)
        ask_unless(made.state in (HELD, VOIDED), 1)
        if made.state == HELD:
            self.has[made.payer] = fitting(self.has[made.payer] + made.amount + made.amount // 100)
            made.state, made.to_has = VOIDED, self.has[made.payer]
        return [made.to_has]

    def refund(self, number, payee):
        made = self.of_payee(number, payee)
        ask_unless(not made.code, 1)
        ask_unless(made.state not in (HELD, VOIDED), 4)
        ask_unless(made.state != CREDITED, 5)
        if made.state in (PAID, CAPTURED):
            ask_unless(self.has[payee] >= made.amount, 3)
            gets = fitting(self.has[made.payer] + made.amount)
            self.has[payee] -= made.amount
            self.has[made.payer] = gets
            made.state, made.refunded_has = REFUNDED if made.state == PAID else CAPTURED_AND_REFUNDED, self.has[payee]
        return [made.refunded_has]

    def note(self, number, payer, time, reference):
        ask_unless(number in self.ids and self.ids[number].payer == payer, 1)
        made = self.ids[number]
        ask_unless(not hasattr(made, "is_noted") or made.note == (time, reference), 2)
        made.note, made.is_noted = (time, reference), True
        return []

    def payment(self, number, account):
        ask_unless(number in self.ids and account in (self.ids[number].payer, self.ids[number].payee), 1)
        made = self.ids[number]
        return [made.payer, made.payee, made.amount, -made.code if made.code else made.state, *made.note]

    def statement(self, account, before):
        ask_unless(account in self.has, 1)
        at, found = self.newest.get(account), []
        if before:
            ask_unless(before in self.ids and account in self.ids[before].before, 2)
            at = self.ids[before].before[account]
        while at and self.ids.get(at.number) is at and len(found) < 6:  # one that was forgotten ends it
            found.append(at.number)
            at = at.before[account]
        return found

    def open(self, account, amount):
        ask_unless(0 <= account < ACCOUNTS, 3)
        ask_unless(amount >= 0, 2)
        ask_unless(account not in self.has, 1)
        self.has[account] = amount
        return [amount]

    def balance(self, account):
        ask_unless(account in self.has, 1)
        return [self.has[account]]

    def day(self, day):
        ask_unless(0 <= day < DAYS, 2)
        ask_unless(self.today in (None, day - 1), 1)
        self.marks.pop(day - 91, None)
        return self.set_day(day)

    def set_day(self, day):
        ask_unless(0 <= day < DAYS, 2)
        self.today, self.marks[day] = day, len(self.queue)
        return []

    def forget(self):
        ask_unless(self.today is not None, 1)
        if self.gone < self.marks.get(self.today - 90, 0):
            number = self.queue[self.gone]
            self.gone += 1
            if self.ids[number].state == HELD:
                self.queue.append(number)
            else:
                del self.ids[number]
        return []
