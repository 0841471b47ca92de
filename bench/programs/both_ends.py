"""The batch of bench/programs/renames.py with both its ends by hand, over struct: a request is packed and read, the files are gone
over, what each gave is packed into one reply, and the reply is read and gone over."""

import sys
import time
from struct import Struct

sys.dont_write_bytecode = True
from renames import directory

REQUEST, COUNT, SIZE, LENGTH = Struct(">Bqi"), Struct(">I"), Struct(">qB"), Struct(">I")


def requested(limit, prefix):
    text = prefix.encode()
    return REQUEST.pack(1, limit, len(text)) + text


def replied(root, request):
    """What a server replies: for each file its size, whether it is large, and then its name before it was renamed."""
    version, limit, length = REQUEST.unpack_from(request)
    prefix = request[REQUEST.size : REQUEST.size + length].decode()
    if version != 1 or REQUEST.size + length != len(request):
        raise ValueError("no request")
    files = root.files()
    out = bytearray(COUNT.pack(len(files)))
    for f in files:
        size = f.size()
        large = size > limit
        out += SIZE.pack(size, large)
        if large:
            name = f.name()
            text = name.encode()
            f.rename(prefix + name)
            out += LENGTH.pack(len(text)) + text
    return bytes(out)


def lines_of(reply):
    """What a client makes of the reply."""
    lines, total, at = [], 0, COUNT.size
    for _ in range(COUNT.unpack_from(reply)[0]):
        size, large = SIZE.unpack_from(reply, at)
        at += SIZE.size
        total = total + size
        if large:
            length = LENGTH.unpack_from(reply, at)[0]
            at += LENGTH.size
            name = reply[at : at + length].decode()
            at += length
            if len(lines) < 4:
                lines.append(name)
    if at != len(reply):
        raise ValueError("no reply")
    lines.append(total)
    return lines


def run(root):
    return lines_of(replied(root, requested(900, "big-")))


def timed(count):
    root = directory(count)
    start = time.process_time()
    run(root)
    return time.process_time() - start


def main(count):
    for line in run(directory(count)):
        print(line)
    print(min(timed(count) for _ in range(20)) * 1000)


main(int(sys.argv[1]))
