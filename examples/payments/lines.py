"""The lines of clients: what they ask for, who may, and what is replied."""

import hashlib
import json
import pathlib
from itertools import permutations
from operator import itemgetter
from typing import Any, Optional, Union

from bank import Procedure, Unusable
from sgt import LEAST, MOST

LONGEST = 10_000  # bytes of a line
TOO_LONG = f'{{"error": "a line has at most {LONGEST} bytes"}}'
NO_REQUEST = '{"error": "a line is one JSON object with keys, or a list of such objects"}'
NO_NUMBERS, NOT_HERE = "a value is a whole number of at most fifteen digits", "only administrators may ask for this, at their own socket"
NO_RIGHT, ANY = '{"error": "no right to this"}', (LEAST, MOST, "")
# A value, and where it ends: three times as fast as `json.loads`. An object is a tuple of pairs, as it may have a key twice.
read_json = json.JSONDecoder(object_pairs_hook=tuple).scan_once
Rights = Optional[dict[str, list[list[int]]]]  # by "pay" and "read": from which account to which; None if all is allowed
Tokens = Optional[dict[str, Rights]]  # the rights of clients by the SHA-256 of their tokens; None if they need none


# A call; what an administrator asks of the server itself, as {"rows": True}, or {"day": 20784}; or what is wrong, as a reply.
Request = Union[tuple[Procedure, tuple[int, ...]], dict[str, int], str]
Line = Union[Request, list[Request]]  # a list of requests is answered by a list


class Client:
    """A client: the beginning of a line, replies that it has not taken yet, whether it is waited for, when its last whole line came, its rights."""

    def __init__(self, link: Any, since: float, rights: Rights) -> None:
        self.link, self.heard, self.unsent, self.waits, self.since, self.rights = link, b"", b"", False, since, rights


class Reader:
    """Reads the lines of clients, or of administrators."""

    def __init__(self, procedures: dict[str, Procedure], tokens: Tokens, is_for_administrators: bool) -> None:
        self.takes_words, self.tokens = is_for_administrators, tokens
        # All that somebody may ask for: what is not among `requests` is for administrators.
        self.known = {(*sorted(it),) for it in (*(it.request for it in procedures.values()), ["rows"], ["health"], ["figures"], ["day"])}
        self.first_rights: Rights = None if tokens is None or is_for_administrators else {}
        served = [it for it in procedures.values() if it.request and (is_for_administrators or not it.is_for_administrators)]
        orders = [(keys, it, [*map(keys.index, it.request)]) for it in served for keys in permutations(it.request)]
        # By the keys of a request, in any order: its procedure, what takes the arguments out of its values, and the bounds of each value.
        self.requests: dict[Any, tuple[Procedure, Any, Any]] = {}
        for keys, it, places in orders:
            self.requests[keys] = it, itemgetter(*places) if places != sorted(places) else tuple, [it.bounds.get(key, ANY) for key in keys]

    def read(self, line: bytes, client: Client) -> Line:
        """What a line of a client asks for. With a token the client has that one's rights from then on."""
        if len(line) > LONGEST:
            return TOO_LONG
        try:
            asked, end = read_json(text := line.strip().decode(), 0)
        except (ValueError, StopIteration, RecursionError):
            return NO_REQUEST
        asked = asked if end == len(text) else None
        if type(asked) is list and asked:
            return [self.request(it, client.rights) for it in asked]
        if type(asked) is tuple and len(asked) == 1 and asked[0][0] == "token" and isinstance(asked[0][1], str) and self.tokens is not None:
            client.rights = self.tokens.get(hashlib.sha256(asked[0][1].encode(errors="replace")).hexdigest()) or {}
            return '{"token": true}' if client.rights else NO_RIGHT
        return self.request(asked, client.rights)

    def request(self, pairs: Any, rights: Rights) -> Request:
        """What an object asks for."""
        if type(pairs) is not tuple or not pairs:
            return NO_REQUEST
        keys, values = zip(*pairs)
        if found := self.requests.get(keys):
            for value, (least, most, why) in zip(values, found[2]):  # twice as fast as by `all`
                if type(value) is not int or not least <= value <= most:
                    return json.dumps({"error": why if type(value) is int and LEAST <= value <= MOST else NO_NUMBERS})
            return NO_RIGHT if rights is not None and not may(rights, found[0], dict(pairs)) else (found[0], found[1](values))
        if self.takes_words and len(pairs) == 1 and isinstance(values[0], int) and LEAST <= values[0] <= MOST:
            return dict(pairs)
        why = (NO_NUMBERS if self.takes_words else NOT_HERE) if (*sorted(keys),) in self.known else f"no request has the keys {', '.join(keys)}"
        return json.dumps({"error": why})


def may(rights: dict[str, list[list[int]]], procedure: Procedure, asked: dict[str, int]) -> bool:
    """Whether somebody with these rights may ask for this. What needs no right by its file is for administrators alone."""
    needed = procedure.rights.items()
    return bool(needed) and all(any(first <= asked[key] <= last for first, last in rights.get(right, ())) for key, right in needed)


def load_tokens(path: pathlib.Path) -> dict[str, Rights]:
    """The file of tokens: for the SHA-256 of each token the rights, as {"pay": [[1, 9]], "read": [[1, 9], [20, 20]]}."""
    try:
        tokens: Any = json.loads(path.read_text())
        [0 <= first <= last for it in tokens.values() for accounts in it.values() for first, last in accounts]
        return dict(tokens)
    except (ValueError, TypeError, AttributeError) as why:
        raise Unusable(f"{path}: no file of tokens: {why}") from None
