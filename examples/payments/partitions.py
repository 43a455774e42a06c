#!/usr/bin/env python3
"""Payments between partitions: servers of which each has some of the accounts. Whoever pays runs this; it keeps nothing itself.

    partitions.py NUMBER ADMIN NUMBER ADMIN ID FROM TO AMOUNT

pays for an operator, or ends what somebody has begun. The first number, and the socket of administration after it, are
those of the payer's partition.
"""

import sys
from typing import Any, Callable

CLEARING = 999_999_000  # the account of a partition that stands for partition n has this number and n: what they owe each other
Ask = Callable[[int, dict[str, int]], dict[str, Any]]  # sends a request to a partition, as often as needed, and returns its reply


def pay(ask: Ask, partition_of: Callable[[int], int], number: int, payer: int, payee: int, amount: int) -> dict[str, Any]:
    """Pays once for an id, within a partition or between two. Without a reply it is called again, with the same arguments, within 90 days.

    Each step is a transaction of one server, and has the id, so it happens once. The whole is not atomic: between the first step and the
    last the amount is in no balance. The payee's partition decides, and remembers that, also if it refuses.
    """
    here, there = partition_of(payer), partition_of(payee)
    if here == there:
        return ask(here, {"id": number, "from": payer, "to": payee, "amount": amount})
    held = ask(here, {"hold": number, "from": payer, "to": CLEARING + there, "amount": amount})
    if "held" not in held:
        return {"id": number, **{key: value for key, value in held.items() if key != "hold"}}
    credit = {"from": CLEARING + here, "to": payee, "amount": amount}
    credited = {} if "state" in held else ask(there, {"credit": number, **credit})  # with a state it was voided
    if "credited" not in credited:
        credited = ask(there, {"decline": number, **credit})  # so it never will be, unless it was, and the hold can go
    if "credited" in credited:
        ask(here, {"capture": number, "to": CLEARING + there})
        return {"id": number, "paid": True, "from_has": held["from_has"], "to_has": credited["to_has"]}
    if "refused" not in credited or ask(there, {"payment": number, "account": CLEARING + here}).get("state", -1) >= 0:
        raise ConnectionError(f"partition {there} has not decided: {credited}")  # or has credited another payee
    ask(here, {"void": number, "to": CLEARING + there})
    return {"id": number, "refused": credited["refused"]}


def main() -> None:
    from audit import ask  # it takes the library, which whoever pays has no need of

    here, own, there, other, *request = sys.argv[1:] if len(sys.argv) == 9 else sys.exit(__doc__)
    sockets, (number, payer, payee, amount) = {int(here): own, int(there): other}, map(int, request)

    def step(partition: int, words: dict[str, int]) -> dict[str, Any]:
        (word, value), *more = words.items()
        return ask(sockets[partition], word, value, **dict(more))

    print(pay(step, {payer: int(here), payee: int(there)}.__getitem__, number, payer, payee, amount))


if __name__ == "__main__":
    main()
