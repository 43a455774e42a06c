#!/usr/bin/env python3
"""Doctors of four wards go on call and off call, move, come and leave. Somebody of each ward has to be on call.

    PYTHONPATH=bindings/python examples/store/doctors.py

Under snapshot isolation two doctors may both see the other one on call, and both go off call: that is write skew. Here it cannot come.
"""

import random
import sys
import threading

from sgt import Aborted, OwnTransaction, SharedEngine
from store import Table, Texts

WARDS = ("north", "south", "east", "west")
THREADS, EACH = 8, 200

doctors = Table(Texts(), 0, {"name": str, "ward": str, "on_call": int}, indexed="ward")


def comes(t: OwnTransaction, name: str, ward: str, on_call: int) -> int:
    return doctors.insert(t, name=name, ward=ward, on_call=on_call)


def is_covered(t: OwnTransaction, ward: str, without: int) -> bool:
    """Whether somebody else of the ward is on call."""
    others = (doctors.get(t, row) for row in doctors.where(t, ward) if row != without)
    return any(other and other["on_call"] for other in others)


def changes(t: OwnTransaction, row: int, what: str, ward: str) -> str:
    """Lets a doctor go on or off call, move or leave. Returns "done", or why not: then nothing is written, and once this is committed the
    refusal is true."""
    doctor = doctors.get(t, row)
    if doctor is None:
        return "has left"
    if what != "on" and doctor["on_call"] and not is_covered(t, doctor["ward"], row):
        return "nobody else is on call"
    if what == "moves":
        doctors.set(t, row, ward=ward)
    elif what == "leaves":
        doctors.remove(t, row)
    else:
        doctors.set(t, row, on_call=int(what == "on"))
    return "done"


def works(bank: SharedEngine, number: int) -> None:
    draw = random.Random(number)
    for made in range(EACH):
        ward, what, row = draw.choice(WARDS), draw.choice(("on", "off", "off", "moves", "leaves", "comes")), draw.randrange(1, 60)
        if what == "comes":
            bank.transact(lambda t: comes(t, f"{number}.{made}", ward, made % 2))
        else:
            bank.transact(lambda t: changes(t, row, what, ward))


def skews(bank: SharedEngine) -> str:
    """Both doctors of a ward read that the other one is on call, and both write that they go off. The second write is refused."""
    first, second = (bank.transact(lambda t: comes(t, name, "hill", 1)) for name in ("Ada", "Bo"))
    ada, bo = bank.transaction(), bank.transaction()
    assert is_covered(ada, "hill", first) and is_covered(bo, "hill", second)
    doctors.set(ada, first, on_call=0)
    try:
        doctors.set(bo, second, on_call=0)
    except Aborted as why:
        assert why.is_conflict
    ada.commit()
    return bank.transact(lambda t: changes(t, second, "off", "hill"))  # tried again


def judged(t: OwnTransaction) -> str:
    """Compares the index with the rows, and looks for the wards."""
    rows = list(doctors.all(t))
    for ward in (*WARDS, "hill"):
        its = [row for row in rows if doctors.get(t, row)["ward"] == ward]
        assert its == sorted(doctors.where(t, ward)), ward
        assert any(doctors.get(t, row)["on_call"] for row in its), ward
    return "somebody is on call in each of 5 wards, and the index has all rows"


def main() -> None:
    sys.setswitchinterval(1e-4)
    with SharedEngine(limits=(16, 4_000_000_000, 1), cut_after=100_000, cut_wait=0.01) as bank:
        for ward in WARDS:
            bank.transact(lambda t: comes(t, f"first of {ward}", ward, 1))
        threads = [threading.Thread(target=works, args=(bank, number)) for number in range(THREADS)]
        for thread in threads:
            thread.start()
        for thread in threads:
            thread.join()
        print(f"Bo, off call after Ada: {skews(bank)}")
        print(bank.transact(judged))


if __name__ == "__main__":
    main()
