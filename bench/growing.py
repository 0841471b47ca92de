"""How the time of a command grows with a text: a table of shapes, each of n, 2n and 4n parts.

Called by bench/read with the program to measure. A shape is linear where its time at most 2.3-folds as it doubles; the last
column says so, and the status is 1 where one isn't. Times are the processor's seconds, the best of three runs.
"""

import os
import subprocess
import sys
import tempfile

# The greatest ratio of the times of a text and of one of half its parts.
MOST = 2.3

# Below so many seconds a ratio says nothing.
LEAST = 0.04

# The bytes of the largest text of each shape, which is below the limit of a text.
LARGEST = 1_000_000

DIRECTORY = "interface D { fun size(): Int; fun grow(by: Int); fun next(): D; }\n"
SERVICE = """class D {
  n: Int;
  fun size(): Int { return this.n; }
  fun grow(by: Int) { this.n = this.n + by; }
  fun next(): D { return this; }
}
object 0: D { n = 1; }
root 0;
"""


def joined(line, count):
    return "".join(line.replace("#", str(i)) + "\n" for i in range(count))


def interfaces(n):
    """As many interfaces as remote calls."""
    return joined("interface I# { fun f(): Int; }", n) + DIRECTORY + "main { batch (D r) {\n" + joined("print(r.size());", n) + "} }\n"


def signatures(n):
    """One interface of as many methods as are called, of which the server has one."""
    return "interface D {\n" + joined("fun m#(): Int;", n) + "fun size(): Int;\n}\nmain { batch (D r) {\n" + joined("print(r.size());", n) + "} }\n"


def classes(n):
    """As many classes as local calls within a batch, of the last of them."""
    declared = DIRECTORY + joined("class C# { fun f(): Int { return #; } }", n)
    return declared + f"main {{ val c = new C{n - 1}(); batch (D r) {{\n" + joined("print(c.f());", n) + "} }\n"


def methods(n):
    """One class of as many methods as are called."""
    return "class C {\n" + joined("fun f#(): Int { return #; }", n) + "}\nmain { val c = new C();\n" + joined("print(c.f#());", n) + "}\n"


def receivers(n):
    """Remote calls on the results of remote calls, forty within each other."""
    deep = "r" + ".next()" * 40 + ".size()"
    return DIRECTORY + "main { batch (D r) {\n" + joined(f"print({deep});", n) + "} }\n"


def batches(n):
    """Batches one after the other."""
    return DIRECTORY + "main {\n" + joined("batch (D r) { print(r.size()); }", n) + "}\n"


def values(n):
    """Variables, each of the one before."""
    return "main { val a0 = 1;\n" + "".join(f"val a{i} = a{i - 1} + 1;\n" for i in range(1, n)) + f"print(a{n - 1}); }}\n"


def scopes(n):
    """Variables, and as many batches after them."""
    return DIRECTORY + "main {\n" + joined("val a# = #;", n) + joined("batch (D r) { print(r.size()); }", n) + "}\n"


def mixed(n):
    """Variables, and a batch after each, which sends it."""
    return DIRECTORY + "main {\n" + joined("val a# = #; batch (D r) { r.grow(a#); print(r.size()); }", n) + "}\n"


def sent(n):
    """One batch, whose results are kept and sent again."""
    return DIRECTORY + "main { batch (D r) {\n" + joined("val a# = r.size(); r.grow(a#); print(a# * 2);", n) + "} }\n"


def chain(n):
    """A flow through as many variables, which is refused and explained."""
    return DIRECTORY + "main { batch (D r) { var a0 = r.size();\n" + "".join(f"var a{i} = a{i - 1} + 1;\n" for i in range(1, n)) + f"r.grow(a{n - 1}); }} }}\n"


def line(n):
    """The same on one line."""
    return chain(n).replace("\n", " ")


# Each shape with the bytes that the largest text has for each of its parts, and the commands that it is measured by.
ALL = ("check", "split", "unsplit", "both")
SHAPES = [
    (interfaces, 52, ALL),
    (signatures, 36, ALL),
    (classes, 62, ALL),
    (methods, 56, ALL),
    (receivers, 310, ALL),
    (batches, 33, ALL),
    (values, 26, ALL),
    (sent, 62, ALL),
    (scopes, 54, ALL),
    (mixed, 68, ALL),
    (chain, 26, ("check",)),
    (line, 26, ("check",)),
]


def timed(command, out):
    """The processor's seconds of a run."""
    with open(out, "wb") as to:
        child = subprocess.Popen(command, stdout=to, stderr=to)
        _, status, used = os.wait4(child.pid, 0)
        child.returncode = os.waitstatus_to_exitcode(status)
    if child.returncode not in (0, 5):
        with open(out, "rb") as said:
            sys.exit(f"{' '.join(command)}: status {child.returncode}: {said.read(300)!r}")
    return used.ru_utime + used.ru_stime


def main(program):
    grows = False
    print(f"{'shape':11} {'command':8} {'parts':>8} {'seconds':>23}   {'ratios':>9}")
    with tempfile.TemporaryDirectory() as folder:
        text, service, out = (f"{folder}/{name}" for name in ("text", "service", "out"))
        with open(service, "w") as to:
            to.write(SERVICE)
        for shape, size, commands in SHAPES:
            least = LARGEST // size // 4
            times = {command: [] for command in commands}
            for parts in (least, 2 * least, 4 * least):
                with open(text, "w") as to:
                    to.write(shape(parts))
                for command in commands:
                    words = [program, command, text] + [service] * (command in ("unsplit", "both"))
                    times[command].append(min(timed(words, out) for _ in range(3)))
            for command, (one, two, four) in times.items():
                ratios = two / one, four / two
                is_linear = all(ratio <= MOST or later < LEAST for ratio, later in zip(ratios, (two, four)))
                grows = grows or not is_linear
                print(f"{shape.__name__:11} {command:8} {4 * least:8} {one:7.3f} {two:7.3f} {four:7.3f}   {ratios[0]:4.1f} {ratios[1]:4.1f} {'' if is_linear else ' more than linear'}", flush=True)
    return 1 if grows else 0


if __name__ == "__main__":
    sys.exit(main(sys.argv[1]))
