"""The journal in a Redis stream, by Debian's python3-redis. Batch N is the entry N-0; Redis refuses an id that is not above the last one.

What is not promised: replication is asynchronous. A failover of Redis itself may lose what was acknowledged, also with `replicas`, by
which a batch waits for so many of them: Redis may promote another one.
"""

import os
from typing import Any
from urllib.parse import SplitResult, parse_qs

import redis

from bank import Unusable
from journal import AT_ONCE, LEASE, TRY, Away, Fenced, from_number, keep_alive, needed

RENEW = "return redis.call('get', KEYS[1]) == ARGV[1] and redis.call('pexpire', KEYS[1], ARGV[2])"
APPEND = """if redis.call('get', KEYS[1]) ~= ARGV[1] then return 0 end
local there = redis.call('xrange', KEYS[2], ARGV[2], ARGV[2])[1] if there then return there[2][2] == ARGV[3] and 1 or 0 end
return redis.call('xadd', KEYS[2], ARGV[2], 'batch', ARGV[3]) and 1"""


class RedisJournal:
    """redis://HOST:PORT/NAME: the stream NAME, and NAME:leader, by a lease, and NAME:stored, the batches after which servers have snapshots."""

    def __init__(self, address: SplitResult) -> None:
        self.name, self.report, self._nonce = address.path.strip("/"), "", os.urandom(8).hex()
        self._replicas = int(parse_qs(address.query).get("replicas", ["0"])[0])
        self._redis = redis.Redis(address.hostname or "127.0.0.1", address.port or 6379, socket_timeout=TRY, socket_connect_timeout=TRY)

    def _ask(self, *words: Any) -> Any:
        return self._all(words)[0]

    def _all(self, *asked: tuple[Any, ...]) -> Any:
        """What Redis replies to these commands, by one connection: a WAIT is for what came by its own one."""
        try:
            with self._redis.pipeline(transaction=False) as link:
                [link.execute_command(*it) for it in asked]
                return link.execute()
        except (redis.ConnectionError, redis.TimeoutError) as why:
            raise Away(f"Redis: {why}") from None
        except redis.RedisError as why:
            raise (Fenced if "equal or smaller" in str(why) else Unusable)(f"Redis: {why}") from None

    def _renew(self) -> bool:
        return bool(self._ask("EVAL", RENEW, 1, self.name + ":leader", self._nonce, LEASE * 1000))

    def lead(self) -> bool:
        has = {**self._ask("CONFIG GET", "appendonly"), **self._ask("CONFIG GET", "appendfsync")}
        if has != {b"appendonly": b"yes", b"appendfsync": b"always"} and has != {"appendonly": "yes", "appendfsync": "always"}:
            raise Unusable("Redis: it must run with appendonly yes and appendfsync always")
        self._ask("SET", self.name + ":leader", self._nonce, "NX", "PX", LEASE * 1000)
        if leads := self._renew():
            keep_alive(self._renew)
        return leads

    def append(self, number: int, data: bytes) -> None:
        append = ("EVAL", APPEND, 2, self.name + ":leader", self.name, self._nonce, f"{number}-0", data)
        is_there, *have = self._all(append, *[("WAIT", self._replicas, int(TRY * 500))] * (self._replicas > 0))
        if not is_there:
            raise Fenced(f"Redis: another primary leads, after batch {number - 1}")
        if have and have[0] < self._replicas:
            raise Away("Redis: too few replicas have the batch")

    def check(self) -> None:
        if self._ask("GET", self.name + ":leader") != self._nonce.encode():
            raise Fenced("Redis: another primary leads")

    def read(self, number: int) -> list[bytes]:
        return from_number(number, [it[b"batch"] for _, it in self._ask("XRANGE", self.name, f"{number}-0", "+", "COUNT", AT_ONCE)])

    def stored(self, server: str, number: int, after: int) -> None:
        self._ask("HSET", self.name + ":stored", server, number)
        self._ask("XTRIM", self.name, "MINID", f"{needed(map(int, self._ask('HVALS', self.name + ':stored')))}-0")
