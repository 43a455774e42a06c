"""Tables with columns of numbers and texts, and with an index, kept in the records of an engine.

The engine knows records alone: a number has a value, which is a number too. All else here are ordinary reads and writes of a
transaction `t`, so rows and index change together or not at all, and are those of one serial order.
"""

from __future__ import annotations

import threading
from typing import Iterator, Optional, Union

from sgt import OwnTransaction

Value = Union[int, str]


class Texts:
    """Gives each text a number, which records hold in its place.

    This table is not the engine's, and no abort undoes it. That is right, since a text is only ever added: its number means the same
    before and after an abort, and whoever adds it again gets the same number. At most there is a text that no record names.
    """

    def __init__(self) -> None:
        self._numbers: dict[str, int] = {}
        self._texts: list[str] = []
        self._lock = threading.Lock()

    def number(self, text: str) -> int:
        with self._lock:
            number = self._numbers.setdefault(text, len(self._texts))
            if number == len(self._texts):
                self._texts.append(text)
            return number

    def text(self, number: int) -> str:
        return self._texts[number]


class Table:
    """Rows, numbered from 1. Column c of row r is record r * (number of columns) + c of the engine's table `place`; its record 0 has the
    last number that was given.

    The index is a list of rows for each value of one column, linked both ways, in the engine's table `place` + 1: record 3 * value is the
    first row, and records 3 * row + 1 and 3 * row + 2 are those after and before a row. Whoever looks for a value reads its first row,
    and whoever adds a row writes it, so that both conflict: no row appears unseen.
    """

    def __init__(self, texts: Texts, place: int, columns: dict[str, type], indexed: str) -> None:
        self._texts, self._place, self._indexed = texts, place, indexed
        self._columns = {name: (at, kind) for at, (name, kind) in enumerate(columns.items())}

    def insert(self, t: OwnTransaction, **values: Value) -> int:
        """Adds a row with all its columns, and returns its number."""
        row = (t.read(self._place, 0) or 0) + 1
        t.write(self._place, 0, row)
        for name in self._columns:
            self._write(t, row, name, values[name])
        self._link(t, row)
        return row

    def get(self, t: OwnTransaction, row: int) -> Optional[dict[str, Value]]:
        """Returns the columns of a row, or None if there is no such row."""
        values = {name: t.read(self._place, self._record(row, name)) for name in self._columns}
        if None in values.values():
            return None
        return {name: self._texts.text(value) if self._columns[name][1] is str else value for name, value in values.items()}

    def set(self, t: OwnTransaction, row: int, **values: Value) -> None:
        """Changes columns of a row."""
        if self._indexed in values:
            self._unlink(t, row)
        for name, value in values.items():
            self._write(t, row, name, value)
        if self._indexed in values:
            self._link(t, row)

    def remove(self, t: OwnTransaction, row: int) -> None:
        self._unlink(t, row)
        for name in self._columns:
            t.remove(self._place, self._record(row, name))

    def where(self, t: OwnTransaction, value: Value) -> Iterator[int]:
        """Yields the rows whose indexed column has this value."""
        row = t.read(self._place + 1, 3 * self._number(value))
        while row is not None:
            yield row
            row = t.read(self._place + 1, 3 * row + 1)

    def all(self, t: OwnTransaction) -> Iterator[int]:
        """Yields all rows, without the index."""
        for row in range(1, (t.read(self._place, 0) or 0) + 1):
            if t.read(self._place, self._record(row, self._indexed)) is not None:
                yield row

    def _record(self, row: int, name: str) -> int:
        return row * len(self._columns) + self._columns[name][0]

    def _number(self, value: Value) -> int:
        return self._texts.number(value) if isinstance(value, str) else value

    def _write(self, t: OwnTransaction, row: int, name: str, value: Value) -> None:
        t.write(self._place, self._record(row, name), self._number(value))

    def _point(self, t: OwnTransaction, record: int, row: Optional[int]) -> None:
        """Has a record of the index name this row, or none."""
        if row is None:
            t.remove(self._place + 1, record)
        else:
            t.write(self._place + 1, record, row)

    def _first(self, t: OwnTransaction, row: int) -> int:
        """The record of the index that has the first row of this one's list."""
        return 3 * (t.read(self._place, self._record(row, self._indexed)) or 0)

    def _link(self, t: OwnTransaction, row: int) -> None:
        first = self._first(t, row)
        after = t.read(self._place + 1, first)
        self._point(t, first, row)
        self._point(t, 3 * row + 1, after)
        if after is not None:
            self._point(t, 3 * after + 2, row)

    def _unlink(self, t: OwnTransaction, row: int) -> None:
        after, before = t.read(self._place + 1, 3 * row + 1), t.read(self._place + 1, 3 * row + 2)
        self._point(t, self._first(t, row) if before is None else 3 * before + 1, after)
        if after is not None:
            self._point(t, 3 * after + 2, before)
        self._point(t, 3 * row + 1, None)
        self._point(t, 3 * row + 2, None)
