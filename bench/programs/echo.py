"""A bare server for connections of this machine, one after the other. For each request of so many bytes it sends the bytes of a
file, whatever the request says. It prints its port first.
"""

import socket
import sys


def taken(peer, size):
    """The next bytes of a connection, or fewer where it ends."""
    parts = b""
    while len(parts) < size:
        part = peer.recv(size - len(parts))
        if not part:
            break
        parts += part
    return parts


def main(size, reply):
    with socket.create_server(("127.0.0.1", 0)) as server:
        print(server.getsockname()[1], flush=True)
        while True:
            peer, _ = server.accept()
            with peer:
                peer.setsockopt(socket.IPPROTO_TCP, socket.TCP_NODELAY, 1)
                while len(taken(peer, size)) == size:
                    peer.sendall(reply)


with open(sys.argv[2], "rb") as file:
    main(int(sys.argv[1]), file.read())
