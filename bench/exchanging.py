"""Exchanges over connections of this machine: servers, the frames that go over a connection, and how long clients take."""

import socket
import subprocess
import time
from contextlib import contextmanager, suppress

HERE = "127.0.0.1"
HEADER = 11


def free_port():
    """A port of this machine at which nobody listens."""
    with socket.create_server((HERE, 0)) as server:
        return server.getsockname()[1]


def reached(port):
    """A connection to a server of this machine that may still be starting."""
    for _ in range(200):
        try:
            return socket.create_connection((HERE, port))
        except ConnectionRefusedError:
            time.sleep(0.05)
    raise TimeoutError(f"nobody listens at port {port}")


def taken(peer, size):
    """The next bytes of a connection."""
    parts = b""
    while len(parts) < size:
        part = peer.recv(size - len(parts))
        if not part:
            raise EOFError("the connection has ended")
        parts += part
    return parts


def frame(peer):
    """The next frame of a connection."""
    header = taken(peer, HEADER)
    return header + taken(peer, int.from_bytes(header[3:], "big"))


def recorded(client, port):
    """The frames of each request and its reply: a client, a list of words that takes an address, is let through to a server."""
    frames = []
    with socket.create_server((HERE, 0)) as between, reached(port) as there:
        started = subprocess.Popen(client(f"{HERE}:{between.getsockname()[1]}"), stdout=subprocess.DEVNULL)
        here, _ = between.accept()
        with here, suppress(EOFError):
            while True:
                request = frame(here)
                there.sendall(request)
                reply = frame(there)
                here.sendall(reply)
                frames.append((request, reply))
        if started.wait() != 0:
            raise ChildProcessError("the client fails")
    return frames


@contextmanager
def serving(command, port=None):
    """The port of a server, which listens at the one given, or prints one first."""
    with subprocess.Popen(command, stdout=subprocess.PIPE, stderr=subprocess.DEVNULL, text=True) as server:
        try:
            yield port or int(server.stdout.readline())
        finally:
            server.terminate()


def seconds(command, count):
    """The seconds that a command takes by the clock, at best of so many runs."""
    times = []
    for _ in range(count):
        start = time.perf_counter()
        subprocess.run(command, stdout=subprocess.DEVNULL, check=True)
        times.append(time.perf_counter() - start)
    return min(times)
