#!/usr/bin/env python3
"""Uses the tools on the examples, on messages and on what is wrong, and looks at what they print.

    tests/rbi_tools.py

What each tool is to do stands in docs/tools.md. TOOLS and RBI name the two programs, which are crates/rbi_tools/out/rbi_tools
and crates/rbi/out/rbi otherwise; where one isn't there, nothing is tried."""

import os
import re
import socket
import subprocess
import sys
import tempfile
import time
import xml.dom.minidom
from pathlib import Path

TOP = Path(__file__).resolve().parent.parent
TOOLS = Path(os.environ.get("TOOLS") or TOP / "crates/rbi_tools/out/rbi_tools")
RBI = Path(os.environ.get("RBI") or TOP / "crates/rbi/out/rbi")
EXAMPLES = TOP / "examples"
PROGRAMS = sorted(EXAMPLES.glob("*.rbi"))
SERVICES = sorted(EXAMPLES.glob("*.rbs"))
# The pairs of a program and a service that it runs on.
RUNS = [("large", "files"), ("rename", "files"), ("cart", "shop"), ("report", "folders"), ("prices", "prices")]
# Messages of docs/wire.md, frames of docs/links.md and journals of docs/journal.md, each with what the last line says of it and the exit status.
MESSAGES = [
    ("01 00 00000000", "whole", 0),
    ("01 00 00000000 00", "refused 6 Trailing at 6", 1),
    ("07", "refused 2 BadTag at 0", 1),
    ("01 00 000000", "refused 1 Truncated at 5", 1),
    ("01 01 02 02", "refused 4 NotCanonical at 3", 1),
    ("01 00 00000001 10 00000000 00000000 22 00000005", "refused 11 UnknownVariable at step 0", 1),
    ("02 00 00 00 00", "refused 6 Trailing at 4", 1),
    ("52 42 01 0000000000000006 01 00 00000000", "whole", 0),
    ("52 42 02 0000000000000006 01 00000000 00", "whole", 0),
    ("52 42 03 0000000000000006 01 01 00000002", "whole", 0),
    ("52 42 01 0000000000000006 01 00 00000000 52", "cut frame at 17", 1),
    ("52 42 05", "bad frame at 2", 1),
    ("52 42 4a 01 01 00000006 01 00 00000000 00", "whole", 0),
    ("52 42 4a 02 00", "no journal", 1),
    ("52 42 4a 01 01 00", "bad record at 4", 1),
]
# The script of docs/wire.md that calls `size` of the root.
SIZE = (
    "01 01 01 0000000000000005 00000001 11 00000000 0000003b 26 0000003b 01 00000004 73697a65 23 00000001 21 00"
)
# A program with comments at many places.
COMMENTED = """\
// first
interface D { fun n(i: Int): Int; } // behind a declaration
main { // behind main
    // alone in a block
    val a = 1 + // within an expression
        (2);    // behind a statement

    if (a > 2) { // behind an opening brace
        // in an empty block
    } else {
        // in a block that goes
    }
    batch (D r) { print(r.n(a)); // one
        // two
    }
} // behind the end
// last
"""


class Wrong(Exception):
    """A tool did something else than it is to do."""


def run(program, *words):
    """What a program prints and tells, and its exit status."""
    ended = subprocess.run([program, *map(str, words)], capture_output=True, cwd=TOP, timeout=60)
    return ended.stdout, ended.stderr, ended.returncode


def want(what, is_so, *shown):
    """Fails where something isn't so."""
    if not is_so:
        raise Wrong("\n".join([what, *(str(each) for each in shown)]))


def comments(text):
    """The comments of a text without text literals that hold two slashes, without the blanks at their ends."""
    return [line[line.index("//"):].rstrip() for line in text.splitlines() if "//" in line]


def check_layout(file, folder):
    """A text is laid out, the layout means the same, and to lay it out again changes nothing."""
    layout, told, status = run(TOOLS, "fmt", file)
    want(f"{file} isn't laid out", status == 0, layout, told)
    text = layout.decode()
    want(f"{file} loses a comment", comments(text) == comments(file.read_text()), text)
    again = folder / f"layout{file.suffix}"
    again.write_bytes(layout)
    want(f"the layout of {file} isn't one", run(TOOLS, "fmt", again)[0] == layout, text)
    want(f"--check of {file}", run(TOOLS, "fmt", again, "--check") == (b"laid out\n", b"", 0))
    is_so = layout == file.read_bytes()
    wanted = (b"laid out\n", 0) if is_so else (b"not laid out\n", 1)
    printed, _, status = run(TOOLS, "fmt", "--check", file)
    want(f"--check of {file}", (printed, status) == wanted, printed, status)
    return again


def without_places(text):
    """An answer without the lines and columns in it."""
    return re.sub(rb"\d+:\d+", b"L:C", text)


def check_layouts(folder):
    """The examples are laid out, and mean the same."""
    for program in PROGRAMS:
        again = check_layout(program, folder)
        for command in ("check", "split"):
            was, now = run(RBI, command, program), run(RBI, command, again)
            want(f"{program} means something else", without_places(was[0]) == without_places(now[0]) and was[2] == now[2], was, now)
    for service in SERVICES:
        again = check_layout(service, folder)
        program = folder / "nothing.rbi"
        program.write_text("main { }")
        was, now = run(RBI, "unsplit", program, service), run(RBI, "unsplit", program, again)
        want(f"{service} means something else", was == now, was, now)
    commented = folder / "commented.rbi"
    commented.write_text(COMMENTED)
    check_layout(commented, folder)


def pieces(printed):
    """The offsets and bytes of the lines that `bytes` prints, without the last line."""
    lines = printed.decode().splitlines()[:-1]
    found = []
    for line in lines:
        match = re.match(r" *(\d+)  ((?:[0-9a-f]{2} ?)+)(?:  |$)", line)
        want("a line has no bytes", match, line)
        found.append((int(match[1]), bytes.fromhex(match[2])))
    return found


def check_bytes(message, folder):
    """The lines have all bytes, once and in order."""
    file = folder / "message"
    file.write_bytes(message)
    printed, told, status = run(TOOLS, "bytes", file)
    want("a message isn't shown", status in (0, 1) and not told, printed, told, status)
    at = 0
    for offset, piece in pieces(printed):
        want("a line begins elsewhere", offset == at, printed.decode())
        at += len(piece)
    shown = b"".join(piece for _, piece in pieces(printed))
    want("the lines have other bytes", shown == message, printed.decode())
    return printed.decode().splitlines()[-1], status


def check_messages(folder):
    """Messages are shown down to where they break."""
    for message, last, status in MESSAGES:
        found = check_bytes(bytes.fromhex(message), folder)
        want(f"{message} is told as", found == (last, status), found)
    size = bytes.fromhex(SIZE)
    want("a script isn't whole", check_bytes(size, folder) == ("whole", 0))
    frame = b"RB\x01" + len(size).to_bytes(8, "big") + size
    for whole in (size, frame + frame):
        for end in range(1, len(whole)):
            last, status = check_bytes(whole[:end], folder)
            # The first six bytes of the script spell a refusal.
            want(f"{end} bytes", (status == 0) == (end == (6 if whole is size else len(frame))), last)


def check_runs():
    """A traced run prints what the run prints, and tells of each exchange."""
    for program, service in RUNS:
        words = EXAMPLES / f"{program}.rbi", EXAMPLES / f"{service}.rbs"
        printed, told, status = run(TOOLS, "trace", *words)
        wanted = run(RBI, "both", *words)
        want(f"a trace of {program} prints something else", (printed, status) == (wanted[0], wanted[2]), printed)
        count = int(re.search(rb"exchanges (\d+)", printed)[1])
        want("exchanges aren't told", len(re.findall(rb"^exchange \d+, batch at line \d+$", told, re.M)) == count, told)
        want("replies aren't told", len(re.findall(rb"^  took ", told, re.M)) == count, told)


def free_port():
    """A port that nobody listens at."""
    with socket.socket() as any_port:
        any_port.bind(("127.0.0.1", 0))
        return any_port.getsockname()[1]


def check_connection():
    """A run over a connection is traced too."""
    address = f"127.0.0.1:{free_port()}"
    server = subprocess.Popen([RBI, "serve", address, EXAMPLES / "files.rbs", "1"], stdout=subprocess.DEVNULL, stderr=subprocess.DEVNULL)
    try:
        for _ in range(100):
            printed, told, status = run(TOOLS, "trace", address, EXAMPLES / "large.rbi")
            if printed != b"dial fault\n":
                break
            time.sleep(0.05)
        want("a run over a connection", status == 0 and printed.endswith(b"exchanges 1\n"), printed, told, status)
        want("its exchange isn't told", told.startswith(b"exchange 1, batch at line 14\n"), told)
    finally:
        server.kill()
        server.wait()


def check_pictures():
    """A picture has each batch, or the one that is refused with its arrows."""
    for program in PROGRAMS:
        printed, told, status = run(TOOLS, "svg", f"examples/{program.name}")
        want(f"{program} isn't drawn", status == 0, printed, told)
        picture = xml.dom.minidom.parseString(printed)
        shown = TOP / "docs" / f"{program.stem}.svg"
        want(f"{shown} is another picture", not shown.exists() or shown.read_bytes() == printed)
        texts = ["".join(part.data for part in walk(text)) for text in picture.getElementsByTagName("text")]
        answer = run(RBI, "split", program)[0].decode()
        if answer.startswith("batch "):
            count = len(re.findall(r"^batch \d+:\d+$", answer, re.M))
            want(f"{program} has other batches", texts.count("script, on the server") == count, texts)
            for line in answer.splitlines():
                is_drawn = line.startswith(("batch ", "inputs", "script", "remainder")) or line[2:] in texts
                want(f"{program} lacks a line", is_drawn, line, texts)
        else:
            places = len(re.findall(r"\d+:\d+", answer))
            arrows = printed.count(b"marker-end")
            want(f"{program} has {arrows} arrows", arrows == places - 1, answer)


def walk(node):
    """The texts in a node, in order."""
    for child in node.childNodes:
        if child.nodeType == child.TEXT_NODE:
            yield child
        else:
            yield from walk(child)


def check_refusals(folder):
    """What is wrong with a file is told as rbi tells it."""
    (folder / "open.rbi").write_text('main { print("a); }')
    (folder / "untyped.rbi").write_text("main { print(a); }")
    (folder / "open.rbs").write_text("class A { root 0;")
    (folder / "wrong.rbs").write_text("class A { } object 1: A { } root 0;")
    (folder / "long.rbi").write_bytes(b" " * 1_048_577)
    (folder / "nothing.rbi").write_text("main { }")
    for words, same in [
        (("fmt", "gone.rbi"), ("check", "gone.rbi")),
        (("svg", "gone.rbi"), ("check", "gone.rbi")),
        (("bytes", "gone.rbi"), ("check", "gone.rbi")),
        (("fmt", "open.rbi"), ("check", "open.rbi")),
        (("fmt", "--check", "open.rbi"), ("check", "open.rbi")),
        (("svg", "open.rbi"), ("check", "open.rbi")),
        (("svg", "untyped.rbi"), ("check", "untyped.rbi")),
        (("fmt", "long.rbi"), ("check", "long.rbi")),
        (("svg", "long.rbi"), ("check", "long.rbi")),
        (("fmt", "open.rbs"), ("unsplit", "nothing.rbi", "open.rbs")),
        (("fmt", "wrong.rbs"), ("unsplit", "nothing.rbi", "wrong.rbs")),
        (("trace", "open.rbi", "wrong.rbs"), ("both", "open.rbi", "wrong.rbs")),
        (("trace", "nothing.rbi", "wrong.rbs"), ("both", "nothing.rbi", "wrong.rbs")),
        (("trace", "nothing.rbi", "gone.rbs"), ("both", "nothing.rbi", "gone.rbs")),
        (("trace", "127.0.0.1:1", "nothing.rbi", "none"), ("run", "127.0.0.1:1", "nothing.rbi", "none")),
    ]:
        found = subprocess.run([TOOLS, *words], capture_output=True, cwd=folder, timeout=60)
        wanted = subprocess.run([RBI, *same], capture_output=True, cwd=folder, timeout=60)
        for part in ("stdout", "stderr", "returncode"):
            want(f"{words} has another {part}", getattr(found, part) == getattr(wanted, part), found, wanted)
    for words in ((), ("fmt",), ("fmt", "a", "b"), ("svg", "a", "b"), ("bytes",), ("trace", "a"), ("draw", "a"), ("--help",)):
        printed, told, status = run(TOOLS, *words)
        want(f"{words} are understood", (printed, status) == (b"words not understood\n", 2), printed, status)
        want("the words aren't told", b"rbi-tools fmt FILE" in told, told)


def main():
    if not (TOOLS.exists() and RBI.exists()):
        print(f"rbi_tools: skipped, since there is no program {RBI if TOOLS.exists() else TOOLS}")
        return
    with tempfile.TemporaryDirectory() as name:
        folder = Path(name)
        check_layouts(folder)
        check_messages(folder)
        check_runs()
        check_connection()
        check_pictures()
        check_refusals(folder)
    print("rbi_tools: each tool does what it is to do")


if __name__ == "__main__":
    try:
        main()
    except Wrong as wrong:
        sys.exit(f"rbi_tools: {wrong}")
