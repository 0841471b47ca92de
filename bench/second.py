"""Payloads of version 2: the shapes of bench_wire that it makes of version 1, pools that are hostile, and the same requests and
replies in both versions and as JSON."""

from itertools import count, repeat

from spelling import compact, forest_bytes, has_lists, pool, script_bytes, short, signed

LONGEST_TEXT = 4096


def filled(pieces, most):
    """As many pieces as fit into so many bytes: their number, and their bytes."""
    taken, size = [], 0
    for piece in pieces:
        size += len(piece)
        if size > most:
            break
        taken.append(piece)
    return len(taken), b"".join(taken)


def steps(pieces, most):
    """A script of so many bytes at most whose steps are these."""
    number, whole = filled(pieces, most - 20)
    return b"\x02\x00\x00" + short(number) + whole


def call(args, most, texts=()):
    """A script whose one step is a call with these arguments. The name of its method is the pool's first text."""
    front = b"\x02" + pool([b"many", *texts]) + b"\x00\x01\x10\x00\x00\x26\x00\x00\x00\x23"
    number, whole = filled(args, most - len(front) - 20)
    return front + short(number) + whole


def do(number, expr):
    return b"\x10" + short(number) + short(number) + expr


def variables():
    yield b"\x12\x00\x00\x00\x00\x23"
    for number in count(1):
        yield b"\x12" + short(number) * 3 + b"\x00\x22" + short(number - 1)


def honest(most):
    """Scripts of at most so many bytes, with the names of the shapes."""
    yield "steps", steps((do(number, b"\x23") for number in count()), most)
    yield "scattered", steps((do(number * 2_654_435_769 % 2**32, b"\x23") for number in count()), most)
    yield "variables", steps(variables(), most)
    yield "deep", call(repeat(b"\x24\x02\x00" * 254 + b"\x23"), most)
    yield "wide", call((b"\x20\x01" + signed(number) for number in count()), most)
    yield "narrow", call(repeat(b"\x23"), most)
    yield "truths", call(repeat(b"\x20\x02\x01"), most)
    yield "letters", call(repeat(b"\x20\x03\x01"), most, [b"a"])
    yield "texts", all_used(long_texts("abé" * (LONGEST_TEXT // 4 - 4), most))


def long_texts(front, most):
    """Different texts of 4,096 bytes that begin alike, as many as fit beside their places."""
    front = front.encode()
    size = LONGEST_TEXT - len(front)
    return [front + b"%0*d" % (size, number) for number in range((most - 40) // (LONGEST_TEXT + 8))]


def all_used(texts):
    """A script of a call that has each of these texts as an argument."""
    args = b"".join(b"\x20\x03" + short(number + 1) for number in range(len(texts)))
    front = b"\x02" + pool([b"many", *texts]) + b"\x00\x01\x10\x00\x00\x26\x00\x00\x00\x23"
    return front + short(len(texts)) + args


def unused(texts):
    """A script without steps behind these texts."""
    return b"\x02" + pool(texts) + b"\x00\x00"


def hostile(most):
    """Scripts of at most so many bytes whose pools are to cost much."""
    room = most // 2
    many = [b"%x" % number for number in range(min(500_000, room // 10))]
    yield "pool", all_used(many)
    yield "one twice", unused(many + many[:1])
    yield "unused", unused(many)
    yield "one place", call(repeat(b"\x20\x03\x01", min(1_000_000, room // 3)), most, [b"x" * LONGEST_TEXT])
    yield "fronts", all_used(long_texts("x" * (LONGEST_TEXT - 8), most))
    texts = long_texts("x" * (LONGEST_TEXT - 8), most - LONGEST_TEXT - 2)
    yield "front twice", unused(texts + texts[-1:])
    yield "short front", all_used([b"x" * 24 + b"%08d" % number for number in range(min(400_000, room // 24))])
    yield "late place", all_used(many)[:-1] + b"\x7f"


# ---- sizes


def of_root(at, kind, name, *args):
    return ["call", at, kind, name, ["root"], list(args)]


def of_variable(variable, at, kind, name, *args):
    return ["call", at, kind, name, ["var", variable], list(args)]


def node(*entries):
    return {"entries": list(entries), "fault": None}


def over(kind, name):
    """A script that keeps what a method gives for each file."""
    body = [["keep", 1, 60, of_variable(0, 62, kind, name)]]
    return {"inputs": [], "steps": [["each", 0, 40, 0, False, of_root(45, 8, "files"), body]]}


def renames():
    """A script that renames the large files."""
    large = ["bin", 10, 98, of_variable(0, 90, 1, "size"), ["in", 0]]
    renamed = ["bin", 1, 140, of_variable(0, 130, 3, "name"), ["lit", ".old"]]
    inner = [["keep", 2, 110, of_variable(0, 112, 3, "name")], ["do", 3, 120, of_variable(0, 122, 0, "rename", renamed)]]
    body = [["keep", 1, 70, of_variable(0, 72, 1, "size")], ["if", 4, 88, large, inner, []]]
    return {"inputs": [1000], "steps": [["each", 0, 40, 0, False, of_root(45, 8, "files"), body]]}


def one_by_one(files):
    """A script that asks for the sizes of files by their numbers."""
    sizes = [["keep", file, 60 + file, ["call", 62, 1, "size", of_root(65, 4, "file", ["lit", file]), []]] for file in range(files)]
    return {"inputs": [], "steps": sizes}


def by_list(files):
    """The same by a list."""
    size = ["call", 62, 1, "size", of_root(65, 4, "file", ["var", 0]), []]
    return {"inputs": [list(range(files))], "steps": [["over", 0, 50, 0, 0, [["keep", 1, 60, size]]]]}


def messages(files):
    """Requests and replies with their names. The files have sizes below 1,000 and names of eight bytes."""
    yield "the empty script", script_bytes, {"inputs": [], "steps": []}
    yield "the sizes of all files", script_bytes, over(1, "size")
    yield "renames of the large files", script_bytes, renames()
    yield "the sizes of 1,000 files, one by one", script_bytes, one_by_one(1000)
    yield "the same by a list", script_bytes, by_list(1000)
    yield "no entry", forest_bytes, node()
    sizes = [node(["value", number * 37 % 1000]) for number in range(files)]
    yield f"the sizes of {files:,} files", forest_bytes, node(["rows", sizes])
    names = [node(["value", f"f{number:07d}"]) for number in range(files)]
    yield f"the names of {files:,} files", forest_bytes, node(["rows", names])
    branches = [node(["value", number * 37 % 1000], ["branch", number % 10 == 0, node()]) for number in range(files)]
    yield f"a size and a branch for each of {files:,} files", forest_bytes, node(["rows", branches])


def sizes(files=10_000):
    """For each message its name, its bytes in version 1, if it has any, in version 2, and as JSON without spaces."""
    for name, spell, tree in messages(files):
        first = None if has_lists(tree) else len(spell(1, tree))
        yield name, first, len(spell(2, tree)), len(compact(tree))
