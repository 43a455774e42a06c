"""The journal in etcd, by Debian's python3-etcd3: consensus of its nodes. What it has accepted is on the disks of a majority of them. The keys NAME/..:

    leader         who leads, by a lease: the key goes LEASE seconds after its server was heard of last
    batch/N        batch N
    stored/SERVER  the batch after which a server has a snapshot

etcd's JSON gateway needs no package, but a batch takes twice as long by it.
"""

import contextlib
import os
from typing import Any, Iterable
from urllib.parse import SplitResult

os.environ["GRPC_ENABLE_FORK_SUPPORT"] = "0"  # else a fork may wait for a thread of grpc for ever. A process that forked speaks to no node
import grpc  # noqa: E402
from etcd3 import etcdrpc as rpc  # noqa: E402

from bank import Unusable  # noqa: E402
from journal import AT_ONCE, LEASE, TRY, Away, Fenced, from_number, keep_alive, needed  # noqa: E402

# Codes of errors that do not pass: the request is wrong, or there is no authority.
REFUSED = {grpc.StatusCode[it] for it in ("INVALID_ARGUMENT", "FAILED_PRECONDITION", "OUT_OF_RANGE", "UNIMPLEMENTED", "UNAUTHENTICATED")}
# Replies of any size; a node that was away is found soon; and what a user has set for other programs is none of its matter.
OPTIONS = (("grpc.max_receive_message_length", -1), ("grpc.max_reconnect_backoff_ms", 500), ("grpc.enable_http_proxy", 0))


def rank(node: str) -> int:
    """0 if this node does not answer soon, and 2 if it leads the others, as far as it knows. Else 1."""
    with contextlib.suppress(grpc.RpcError), grpc.insecure_channel(node, OPTIONS) as channel:
        return (lambda it: 1 + (it.leader == it.header.member_id))(rpc.MaintenanceStub(channel).Status(rpc.StatusRequest(), timeout=TRY / 5))
    return 0


class Nodes:
    """The nodes of etcd: the one that leads them is asked until it fails, and then another one. By the leader a batch is safe sooner."""

    def __init__(self, nodes: list[str]) -> None:
        self.nodes = nodes
        self._channel: Any = None  # it connects late, after the server has forked its fronts

    def ask(self, name: str, request: Any) -> Any:
        """What etcd replies to a request. `Away` if no node does."""
        for left in range(len(self.nodes), 0, -1):  # so many have not failed
            if not self._channel:
                self.nodes = sorted(self.nodes[:left], key=rank, reverse=True) + self.nodes[left:]
                self._channel = grpc.insecure_channel(self.nodes[0], OPTIONS)
                self._calls = {**vars(rpc.KVStub(self._channel)), **vars(rpc.LeaseStub(self._channel))}
            try:
                is_stream, ask = name == "LeaseKeepAlive", self._calls[name]  # of requests, and of replies
                return next(ask(iter([request]), timeout=TRY)) if is_stream else ask(request, timeout=TRY)
            except grpc.RpcError as error:
                why = f"{error.code().name}: {error.details()}"
                if error.code() in REFUSED:
                    raise Unusable(f"etcd: {why}") from None
            self._channel, self.nodes = self._channel.close(), self.nodes[1:] + self.nodes[:1]
        raise Away(f"etcd: {why}")


class EtcdJournal:
    """etcd://HOST:PORT,HOST:PORT/NAME. Each write asks that this server created `leader`, so a primary that was replaced writes nothing more."""

    def __init__(self, address: SplitResult) -> None:
        self.nodes, self.name, self.report = address.netloc.split(","), address.path.strip("/"), ""
        self._ask, self._term, self._nonce = Nodes(self.nodes).ask, -1, os.urandom(8)

    def _key(self, *parts: str) -> bytes:
        return "/".join((self.name, *parts)).encode()

    def _batch(self, number: int) -> bytes:
        return self._key("batch", f"{number:015}")

    def _found(self, key: bytes, **more: Any) -> Any:
        return self._ask("Range", rpc.RangeRequest(key=key, **more)).kvs

    def _put(self, key: bytes, value: bytes, created: Iterable[tuple[bytes, int]], **more: Any) -> Any:
        """Writes a key if these keys were created so, by 0 if one is not there. Else its value is in the reply."""
        compare = [rpc.Compare(target=rpc.Compare.CREATE, key=it, create_revision=revision) for it, revision in created]
        put = rpc.RequestOp(request_put=rpc.PutRequest(key=key, value=value, **more))
        there = rpc.RequestOp(request_range=rpc.RangeRequest(key=key))
        return self._ask("Txn", rpc.TxnRequest(compare=compare, success=[put], failure=[there]))

    def lead(self) -> bool:
        key = self._key("leader")
        if not self._found(key):
            self._put(key, self._nonce, [(key, 0)], lease=self._ask("LeaseGrant", rpc.LeaseGrantRequest(TTL=LEASE)).ID)
        for leader in [it for it in self._found(key) if it.value == self._nonce]:
            nodes, request, self._term = Nodes(self.nodes), rpc.LeaseKeepAliveRequest(ID=leader.lease), leader.create_revision
            keep_alive(lambda: nodes.ask("LeaseKeepAlive", request))
        return self._term >= 0

    def append(self, number: int, data: bytes) -> None:
        reply = self._put(self._batch(number), data, [(self._key("leader"), self._term), (self._batch(number), 0)])
        # If the value is there an earlier try has written it, also if another one leads now: it has who writes it.
        if not reply.succeeded and [it.value for it in reply.responses[0].response_range.kvs] != [data]:
            raise Fenced(f"etcd: another primary leads, after batch {number - 1}")

    def check(self) -> None:
        if [it.create_revision for it in self._found(self._key("leader"))] != [self._term]:
            raise Fenced("etcd: another primary leads")

    def silent(self) -> str:
        """The nodes that do not answer, for `health`: one more may be one too many."""
        return "; ".join(f"no word of the node {it} of etcd" for it in self.nodes if not rank(it))

    def read(self, number: int) -> list[bytes]:
        return from_number(number, [it.value for it in self._found(self._batch(number), range_end=self._key("batch0"), limit=AT_ONCE)])

    def stored(self, server: str, number: int, after: int) -> None:
        self._ask("Put", rpc.PutRequest(key=self._key("stored", server), value=b"%d" % number))
        keep = needed(int(it.value) for it in self._found(self._key("stored", ""), range_end=self._key("stored0")))
        self._ask("DeleteRange", rpc.DeleteRangeRequest(key=self._batch(0), range_end=self._batch(keep)))
