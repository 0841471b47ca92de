#!/usr/bin/env python3
"""Kills the server of `rbi keep` at random moments, and looks at what its journal keeps.

    tests/keep_kill.py [ROUNDS [SEED]]

In each round the server starts on the journal that the round before left. A client sends it requests, and writes down each
reply. Then the server is killed by SIGKILL: while it opens the journal, between two requests, or at some moment of one or of
several that were sent at once. No request is sent twice.

After each round the bytes of the journal are read here by their form (docs/journal.md). Of the requests of each round, the
journal has a front, in order, each whole and once, and every one that was answered is among them. One that is refused isn't
kept. A reply tells how many requests were performed by then, so it has to tell its own place in the journal. At the end the
server starts once more and is left to end by itself. Its table has to be that of the requests of the journal, in their order.

SIGKILL ends a process and leaves what it has written to the system. So this shows the order of what is written and answered; it
takes no power from a machine.

ROUNDS is 5 where it is left out, and SEED chooses the moments. RBI names the program, which is crates/rbi/out/rbi otherwise;
where it isn't there, nothing is tried."""

import os
import random
import socket
import subprocess
import sys
import tempfile
import time
from pathlib import Path

TOP = Path(__file__).resolve().parent.parent
RBI = Path(os.environ.get("RBI") or TOP / "crates/rbi/out/rbi")
HERE = "127.0.0.1"
HEAD = b"RBJ\x01"
HEADER = 11
PATIENCE = 30
# A script that ends too early, and the frame that refuses it: 1 at 2.
REFUSED = b"\x01\x00"
REFUSAL = b"RB\x03" + (6).to_bytes(8, "big") + b"\x01\x01\x00\x00\x00\x02"
SERVICE = """\
class Log {
  count: Int;
  mix: Int;
  fun add(n: Int): Int {
    this.count = this.count + 1;
    this.mix = (this.mix * 31 + n) % 1000003;
    return this.count;
  }
}
object 0: Log { count = 0; mix = 0; }
root 0;
"""


class Wrong(Exception):
    """The server, or its journal, isn't as it has to be."""


def request(number, padding):
    """The payload of a request that adds a number, and keeps what `add` gives; a text of so many bytes makes it longer."""
    literal = b"\x20\x01" + number.to_bytes(8, "big")
    call = b"\x26" + bytes(4) + b"\x01" + b"\x00\x00\x00\x03add\x23\x00\x00\x00\x01" + literal
    text = b"\x20\x03" + padding.to_bytes(4, "big") + b"x" * padding
    steps = b"\x11" + bytes(8) + call + b"\x10\x00\x00\x00\x01" + bytes(4) + text
    return b"\x01\x00" + b"\x00\x00\x00\x02" + steps


def place(reply):
    """How many requests were performed, as the reply to such a request tells it."""
    front, end = b"\x01\x00\x00\x00\x01\x31\x01", b"\x00"
    if len(reply) != len(front) + 9 or not reply.startswith(front) or not reply.endswith(end):
        raise Wrong(f"a reply is {reply.hex()}")
    return int.from_bytes(reply[len(front) : -1], "big")


def framed(payload):
    return b"RB\x01" + len(payload).to_bytes(8, "big") + payload


def replies(stream):
    """The payloads of the whole frames at the front of what came back."""
    found, at = [], 0
    while len(stream) - at >= HEADER:
        size = int.from_bytes(stream[at + 3 : at + HEADER], "big")
        if stream[at : at + 3] != b"RB\x02":
            raise Wrong(f"a reply begins with {stream[at : at + HEADER].hex()}")
        if len(stream) - at < HEADER + size:
            break
        found.append(stream[at + HEADER : at + HEADER + size])
        at += HEADER + size
    return found


def records(content):
    """The payloads for which the bytes of a journal stand."""
    if not content:
        return []
    if content[:4] != HEAD or len(content) < 5:
        raise Wrong("the file is no journal")
    found, gate = [], 4
    while content[gate] == 1:
        size = int.from_bytes(content[gate + 1 : gate + 5], "big")
        if gate + 5 + size >= len(content):
            raise Wrong(f"record {len(found)} is cut short")
        found.append(content[gate + 5 : gate + 5 + size])
        gate += 5 + size
    return found


class Trial:
    """All rounds on one journal: the random choices, the requests that were sent, and the replies."""

    def __init__(self, folder, seed):
        self.random = random.Random(seed)
        self.service, self.journal = folder / "service.rbs", folder / "journal"
        self.service.write_text(SERVICE)
        self.sent = []
        self.rounds = []
        self.places = {}
        self.opening, self.seconds = 0.03, 0.01
        with socket.create_server((HERE, 0)) as server:
            self.port = server.getsockname()[1]

    def started(self, count):
        command = [RBI, "keep", f"{HERE}:{self.port}", self.service, str(count), self.journal]
        return subprocess.Popen(command, stdin=subprocess.DEVNULL, stdout=subprocess.PIPE, stderr=subprocess.DEVNULL, text=True)

    def reached(self, server):
        """A connection to the server."""
        end = time.monotonic() + PATIENCE
        while time.monotonic() < end:
            if server.poll() is not None:
                raise Wrong(f"the server ends by itself with status {server.returncode}: {server.stdout.read().strip()}")
            try:
                return socket.create_connection((HERE, self.port), PATIENCE)
            except ConnectionRefusedError:
                time.sleep(0.002)
        raise Wrong("the server doesn't listen")

    def send(self, peer, count):
        """Sends so many requests at once, and answers the number of the first."""
        first = len(self.sent)
        made = [request(first + i, self.random.choice([0, 1, 10, 100, 4096])) for i in range(count)]
        self.sent += made
        peer.sendall(b"".join(framed(payload) for payload in made))
        return first

    def note(self, first, stream):
        """Writes down the replies that came to the requests from this number on, and answers how many."""
        found = replies(stream)
        for i, reply in enumerate(found):
            self.places[first + i] = place(reply)
        return len(found)

    def ask(self, peer):
        """Sends one request or several, and waits for their replies."""
        count = self.random.choice([1, 1, 1, 3])
        begin = time.monotonic()
        first, stream = self.send(peer, count), b""
        while self.note(first, stream) < count:
            part = peer.recv(65536)
            if not part:
                raise Wrong("the server closes a session that its client didn't")
            stream += part
        self.seconds = (time.monotonic() - begin) / count

    def ask_in_vain(self, peer):
        """Sends a request that is refused, and so isn't to be kept."""
        peer.sendall(framed(REFUSED))
        reply = peer.recv(len(REFUSAL), socket.MSG_WAITALL)
        if reply != REFUSAL:
            raise Wrong(f"a refusal is {reply.hex()}")

    def rest(self, peer, first):
        """Writes down what still comes from a server that is killed."""
        stream = b""
        try:
            while part := peer.recv(65536):
                stream += part
        except ConnectionResetError:
            pass
        self.note(first, stream)

    def kill_within(self, server):
        """Some sessions. In the last one the server is killed at some moment of what was sent last."""
        begin = time.monotonic()
        self.reached(server).close()
        self.opening = time.monotonic() - begin
        for _ in range(self.random.randrange(3)):
            with self.reached(server) as peer:
                for _ in range(self.random.randrange(1, 4)):
                    self.ask(peer)
                self.ask_in_vain(peer)
        with self.reached(server) as peer:
            for _ in range(self.random.randrange(10)):
                self.ask(peer)
            count = self.random.choice([0, 1, 1, 1, 1, 4])
            first = self.send(peer, count)
            most = self.random.choice([0.1, 1.3]) * count * self.seconds
            time.sleep(self.random.uniform(0, most))
            server.kill()
            self.rest(peer, first)

    def round(self):
        """Starts the server, lets it answer for a while, and kills it."""
        first = len(self.sent)
        with self.started(1000000) as server:
            try:
                if self.random.random() < 0.2:
                    time.sleep(self.random.uniform(0, 1.3 * self.opening))
                else:
                    self.kill_within(server)
            finally:
                server.kill()
        self.rounds.append(range(first, len(self.sent)))
        self.expect_journal()

    def kept(self):
        return records(self.journal.read_bytes()) if self.journal.exists() else []

    def expect_journal(self):
        """Fails where the journal doesn't have a front of each round's requests, with each that was answered."""
        kept, at = self.kept(), 0
        for number, asked in enumerate(self.rounds, 1):
            front = 0
            while front < len(asked) and kept[at + front : at + front + 1] == [self.sent[asked[front]]]:
                front += 1
            for n in asked:
                if n in self.places and self.places[n] != at + n - asked.start + 1:
                    raise Wrong(f"of round {number}, the reply to request {n} tells {self.places[n]}, behind {at} records")
                if n in self.places and n - asked.start >= front:
                    raise Wrong(f"of round {number}, request {n} was answered, and {front} requests are kept from {asked.start} on")
            at += front
        if at < len(kept):
            raise Wrong(f"record {at} is no request that comes next: {kept[at].hex()[:200]}")

    def expect_table(self):
        """Fails where the server, left to end by itself, doesn't show the table of the journal's requests."""
        kept, mix = self.kept(), 0
        numbers = {payload: number for number, payload in enumerate(self.sent)}
        for payload in kept:
            mix = (mix * 31 + numbers[payload]) % 1000003
        with self.started(1) as server:
            self.reached(server).close()
            lines = server.communicate(timeout=PATIENCE)[0].splitlines()
        want = ["session 1 requests 0 end", f"object 0: Log {{ count = {len(kept)}; mix = {mix}; }}"]
        if server.returncode != 0 or lines[: len(want)] != want:
            raise Wrong(f"the server ends with status {server.returncode} and {lines} in place of {want}")


def main():
    rounds = int(sys.argv[1]) if len(sys.argv) > 1 else 5
    seed = int(sys.argv[2]) if len(sys.argv) > 2 else random.randrange(1_000_000)
    if not RBI.exists():
        print(f"keep_kill: skipped, since there is no program {RBI}")
        return
    with tempfile.TemporaryDirectory() as name:
        trial = Trial(Path(name), seed)
        try:
            for _ in range(rounds):
                trial.round()
            trial.expect_table()
        except Wrong as wrong:
            sys.exit(f"keep_kill: seed {seed}, round {len(trial.rounds)}: {wrong}")
        sent, answered, kept = len(trial.sent), len(trial.places), len(trial.kept())
        print(f"keep_kill: {rounds} rounds with seed {seed}: {sent} requests were sent, {answered} answered, {kept} kept")


if __name__ == "__main__":
    main()
