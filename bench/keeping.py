"""How fast requests are answered that are kept on a disk, and how long it takes to open a journal of many."""

import os
import sqlite3
import time
from contextlib import closing

from exchanging import HERE, free_port, reached, serving, taken

SERVICE = "class Counter { count: Int; fun up() { this.count = this.count + 1; } }\nobject 0: Counter { count = 0; }\nroot 0;\n"
# A script whose one step calls `up` of the root.
REQUEST = bytes.fromhex("01 00 00000001 10 00000000 00000000 26 00000000 00 00000002 7570 23 00000000")
FRAME = b"RB\x01" + len(REQUEST).to_bytes(8, "big") + REQUEST
# The frame of its reply: a forest of no entry.
REPLY = bytes.fromhex("52 42 02 0000000000000006 01 00000000 00")
HEAD = b"RBJ\x01"
RECORD = len(REQUEST).to_bytes(4, "big") + REQUEST


def write_journal(file, count):
    """Writes the journal of so many requests."""
    with open(file, "wb") as to:
        to.write(HEAD)
        for _ in range(count // 1000):
            to.write((b"\x01" + RECORD) * 1000)
        to.write((b"\x01" + RECORD) * (count % 1000) + b"\x00")


def keeps(file, count):
    """Whether a file is the journal of so many requests."""
    wanted = HEAD + (b"\x01" + RECORD) * count + b"\x00"
    return file.read_bytes() == wanted


def asked(port, count):
    """The seconds of so many requests over one connection, each sent when the reply to the one before has come."""
    with reached(port) as peer:
        start = time.perf_counter()
        for _ in range(count):
            peer.sendall(FRAME)
            if taken(peer, len(REPLY)) != REPLY:
                raise ValueError("another reply")
        return time.perf_counter() - start


def by_server(program, command, folder, count, *words):
    """The seconds of so many requests to the server of a command."""
    port, service = free_port(), folder / "counter.rbs"
    service.write_text(SERVICE)
    with serving([program, command, f"{HERE}:{port}", service, "1000000", *words], port):
        return asked(port, count)


def by_keep(program, folder, count):
    """The seconds of so many requests that `rbi keep` keeps in a new journal."""
    journal = folder / "journal"
    journal.unlink(missing_ok=True)
    spent = by_server(program, "keep", folder, count, journal)
    if not keeps(journal, count):
        raise ValueError("the journal keeps other requests")
    return spent


def by_syncs(folder, count):
    """The seconds of what a journal asks of the disk: for each request two writes, with a sync behind each."""
    file = folder / "synced"
    file.unlink(missing_ok=True)
    with open(file, "wb", buffering=0) as to:
        start = time.perf_counter()
        for number in range(count):
            at = len(HEAD) + number * (1 + len(RECORD))
            os.pwrite(to.fileno(), RECORD + b"\x00", at + 1)
            os.fsync(to.fileno())
            os.pwrite(to.fileno(), b"\x01", at)
            os.fsync(to.fileno())
        return time.perf_counter() - start


def by_sqlite(folder, mode, count):
    """The seconds of so many requests that SQLite keeps, by a transaction for each."""
    for old in folder.glob("requests.db*"):
        old.unlink()
    with closing(sqlite3.connect(folder / "requests.db", isolation_level=None)) as base:
        base.execute(f"PRAGMA journal_mode={mode}")
        base.execute("PRAGMA synchronous=FULL")
        base.execute("CREATE TABLE requests (number INTEGER PRIMARY KEY, payload BLOB)")
        start = time.perf_counter()
        for _ in range(count):
            base.execute("INSERT INTO requests (payload) VALUES (?)", (REQUEST,))
        return time.perf_counter() - start
