#!/usr/bin/env python3
"""A durable queue of payments on sgt. README.md beside this file has the idea, and how to run it."""

import argparse
import os
import pathlib
import socket
import ssl
import sys
import time
from importlib import import_module
from ipaddress import ip_address
from urllib.parse import urlsplit

from audit import show, verify
from bank import Unusable, load_procedures
from chain import Chain
from file_journal import FileJournal
from front import start_fronts
from journal import Journal, Store
from lines import load_tokens
from running import end_by_signals, run
from server import Server


def open_journal(words: argparse.Namespace) -> Journal:
    """The journal at an address, or without one the files of the folder."""
    address = urlsplit(words.journal)
    if not words.journal:
        return FileJournal(words.folder, words.keep)
    try:
        kind, package = {"etcd": ("EtcdJournal", "etcd3"), "redis": ("RedisJournal", "redis"), "postgresql": ("PostgresJournal", "psycopg2")}[address.scheme]
        journal: Journal = getattr(import_module(f"{address.scheme}_journal"), kind)(address)
        return journal
    except ImportError as why:
        raise Unusable(f"{why}, in {sys.executable}. Debian has it for /usr/bin/python3, in python3-{package}") from None
    except (ValueError, KeyError) as why:
        raise Unusable(f"{words.journal}: no address of a journal here: {why}") from None


def load_tls(folder: pathlib.Path) -> ssl.SSLContext:
    """TLS by two files: server.pem has the server's key and certificate, and clients.pem the authorities whose clients it takes."""
    try:
        tls = ssl.create_default_context(ssl.Purpose.CLIENT_AUTH, cafile=folder / "clients.pem")
        tls.load_cert_chain(folder / "server.pem")
    except OSError as why:
        raise Unusable(f"{folder}: server.pem and clients.pem: {why}") from None
    tls.verify_mode = ssl.CERT_REQUIRED
    return tls


def serve(words: argparse.Namespace, journal: Journal) -> None:
    """Recovers what the journal has, and serves."""
    begin, procedures, store = time.perf_counter(), load_procedures(words.procedures), Store(words.folder, words.keep)
    tokens, tls = words.tokens and load_tokens(words.tokens), words.tls and load_tls(words.tls)
    if not (tls or words.plain or ip_address(socket.gethostbyname(words.host)).is_loopback):
        raise Unusable(f"{words.host}: other machines reach it, so it takes --tls, or --plain in a network of its own")
    port, fronts = start_fronts(procedures, words.host, words.port, words.idle, tokens, tls)
    store.claim()
    opening = {"procedures": {name: it.text for name, it in procedures.items()}, "accounts": words.accounts, "cents": words.cents}
    chain = Chain(store, journal, opening, f"{socket.gethostname()}:{words.folder.resolve()}", words.new_procedures)
    end_by_signals(chain)
    chain.start()
    if journal.report:
        print(journal.report, flush=True)
    run(Server(chain, fronts, procedures), port, words.admin or words.folder / "admin", begin)


def main() -> None:
    if "GLIBC_TUNABLES" not in os.environ:  # so memory comes in huge pages, of which a cut has fewer to copy
        os.execve(sys.executable, [sys.executable, *sys.argv], {**os.environ, "GLIBC_TUNABLES": "glibc.malloc.hugetlb=1"})
    parser = argparse.ArgumentParser(description=__doc__)
    parser.add_argument("command", choices=("serve", "show", "verify"))
    parser.add_argument("folder", type=pathlib.Path, help="of this server: its snapshots, and the journal if it has no address")
    parser.add_argument("--journal", default="", help="etcd://HOST:PORT,HOST:PORT/NAME, redis://HOST:PORT/NAME or postgresql://..")
    parser.add_argument("--admin", type=pathlib.Path, help="the socket of administration, if it is not to be FOLDER/admin")
    parser.add_argument("--keep", action="store_true", help="keep the files before the newest snapshot")
    parser.add_argument("--host", default="127.0.0.1", help="to serve on")
    parser.add_argument("--port", type=int, default=0, help="to serve on")
    parser.add_argument("--idle", type=float, default=60, help="seconds after which a client that asks nothing is dropped")
    parser.add_argument("--tokens", type=pathlib.Path, help="a file of the rights of clients")
    parser.add_argument("--tls", type=pathlib.Path, help="a folder with server.pem and clients.pem: clients need a certificate")
    parser.add_argument("--plain", action="store_true", help="serve other machines without TLS")
    parser.add_argument("--procedures", type=pathlib.Path, default=pathlib.Path(__file__).resolve().parent / "procedures")
    parser.add_argument("--new-procedures", action="store_true", help="go on with other procedures than those of the journal")
    parser.add_argument("--accounts", type=int, default=1000, help="of a new journal")
    parser.add_argument("--cents", type=int, default=100_000, help="that each of them has")
    words = parser.parse_args()
    try:
        {"serve": serve, "show": show, "verify": verify}[words.command](words, open_journal(words))
    except (Unusable, OSError, ValueError) as why:
        sys.exit(f"payments: {why}" + f": port {words.port}" * ("Address already in use" in str(why)))


if __name__ == "__main__":
    main()
