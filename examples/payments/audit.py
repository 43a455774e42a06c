"""What operators use: it asks a server, prints a journal, and checks it by a replay in a second engine."""

import argparse
import contextlib
import hashlib
import json
import pathlib
import socket
import sys
from typing import Any, Iterator, Optional, Union

from bank import Bank, Unusable, load_procedures
from chain import Batch, applied, unseal_batch
from journal import Journal, Missing, Store


def ask(path: Union[pathlib.Path, str], word: str, value: int = True, timeout: Optional[float] = None, **more: int) -> dict[str, Any]:
    """What the server replies to a word, or to a request. An OSError if none listens there, it ends, or is late."""
    with socket.socket(socket.AF_UNIX) as server:
        server.settimeout(timeout)
        server.connect(str(path))
        server.sendall(json.dumps({word: value, **more}).encode() + b"\n")
        if line := server.makefile().readline():
            return dict(json.loads(line))
        raise ConnectionError(f"{path}: the server has ended")


def batches(store: Store, journal: Journal) -> Iterator[tuple[Bank, int, Batch]]:
    """The bank after each batch, the batch's number, and what follows. They begin with batch 0, or if the first are gone with a snapshot."""
    number = 0
    try:
        journal.read(1)
    except Missing:
        number = min(store.numbers(), default=0)
    bank = store.load(number)
    while lines := journal.read(number + 1):
        for line in lines:
            calls = unseal_batch(line, number + 1, bank.seq)
            yield bank, number, calls
            bank, number = applied(bank, calls), number + 1
    if not bank.texts:
        raise Unusable(f"{store.folder}: there is no journal here. If it is not in files, --journal says where it is")
    yield bank, number, []


def show(words: argparse.Namespace, journal: Journal) -> None:
    """Prints the journal, which is the serial history."""
    procedures = load_procedures(words.procedures)
    for bank, number, calls in batches(Store(words.folder), journal):
        if isinstance(calls, dict):
            print(f"# batch {number + 1}: from here on with the procedures {', '.join(calls['procedures'])}")
            continue
        for seq, (name, *args) in enumerate(calls, bank.seq + 1):
            keys = procedures[name].request if name in procedures else ()
            print(seq, name, *(f"{key}={value}" for key, value in zip(keys or ("arg",) * 4, args)))


def verify(words: argparse.Namespace, journal: Journal) -> None:
    """Replays the journal in a second engine, and compares every row with each snapshot, and with those of its server, if one runs."""
    last, wanted, first, snapshots = sys.maxsize, "", 0, set((store := Store(words.folder)).numbers())
    with contextlib.suppress(FileNotFoundError, ConnectionRefusedError):
        last, wanted, _ = ask(words.admin or words.folder / "admin", "rows").values()
    for bank, number, calls in batches(store, journal):
        first = first or bank.seq + 1
        if number in snapshots and (lambda it: (it.seq, it.rows()))(store.load(number)) != (bank.seq, bank.rows()):
            raise Unusable(f"the calls up to {bank.seq} do not give the snapshot after batch {number}")
        if bank.seq + len(calls) > last and isinstance(calls, list):
            bank.replay(calls[: last - bank.seq])
            break
    if wanted and (last, wanted) != (bank.seq, hashlib.sha256(bank.rows()).hexdigest()):
        raise Unusable(f"the calls up to {bank.seq} do not give what is served after call {last}")
    print(f"calls {first} to {bank.seq} give the rows of {'the server' if wanted else 'each snapshot'}")
