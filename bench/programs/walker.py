"""Walks a script over the files of a service: the steps of bench_run's script, as tuples. Calls go by the names of methods and
take fuel, and the kinds of their results are looked at. What the script gives is packed by struct and read again."""

import sys
import time
from struct import Struct

NAMES = {"size": int, "grow": type(None), "name": str, "check": type(None), "rename": type(None), "files": list}
COUNT, INT = Struct(">BI"), Struct(">Bq")


class Stop(Exception):
    """A fault, with its code."""


class File:
    def __init__(self, name, size):
        self.text = name
        self.bytes = size

    def name(self):
        return self.text

    def size(self):
        return self.bytes

    def grow(self, by):
        self.bytes = self.bytes + by

    def check(self, most):
        if self.bytes > most:
            raise Stop(8)

    def rename(self, to):
        self.text = to


class Dir:
    def __init__(self, files):
        self.list = files

    def files(self):
        return self.list


METHODS = {
    File: {"name": File.name, "size": File.size, "grow": File.grow, "check": File.check, "rename": File.rename},
    Dir: {"files": Dir.files},
}


def call(target, name, *args):
    return ("call", target, name, args)


def binary(sign, left, right):
    return ("binary", sign, left, right)


ROOT, ROW, SIZE, LARGE, BY = ("root",), ("variable", 0), ("variable", 1), ("variable", 2), ("input", 0)
ROUND = [
    ("let", 1, False, call(ROW, "size")),
    ("do", call(ROW, "grow", BY)),
    ("keep", call(ROW, "size")),
    ("let", 2, False, binary(">", SIZE, ("literal", 900))),
    ("if", LARGE, [("keep", call(ROW, "name"))], [("keep", SIZE)]),
    ("do", call(ROW, "check", binary("+", SIZE, ("literal", 1000)))),
    ("keep", binary("==", call(ROW, "size"), binary("+", SIZE, BY))),
    ("do", call(ROW, "rename", call(ROW, "name"))),
    ("do", call(ROW, "grow", ("negative", BY))),
    ("let", 3, True, binary("-", call(ROW, "size"), SIZE)),
]


class Run:
    """A script while it runs: the root, the inputs, the variables, the fuel, and the bytes that it gave so far."""

    def __init__(self, root, inputs):
        self.root = root
        self.inputs = inputs
        self.variables = {}
        self.fuel = 1_000_000
        self.out = bytearray(b"\x01")

    def take_fuel(self):
        if self.fuel == 0:
            raise Stop(7)
        self.fuel -= 1

    def value(self, expr):
        form = expr[0]
        if form == "variable":
            return self.variables[expr[1]]
        if form == "literal":
            return expr[1]
        if form == "input":
            return self.inputs[expr[1]]
        if form == "root":
            return self.root
        if form == "call":
            return self.called(self.value(expr[1]), expr[2], [self.value(arg) for arg in expr[3]])
        if form == "negative":
            return -self.value(expr[1])
        return operated(expr[1], self.value(expr[2]), self.value(expr[3]))

    def called(self, target, name, args):
        method = METHODS[type(target)].get(name)
        if method is None:
            raise Stop(3)
        self.take_fuel()
        result = method(target, *args)
        if type(result) is not NAMES[name]:
            raise Stop(6)
        return result

    def keep(self, value):
        if type(value) is int:
            self.out += b"\x31" + INT.pack(1, value)
        elif type(value) is bool:
            self.out += b"\x31\x02" + bytes([value])
        elif type(value) is str:
            text = value.encode()
            self.out += b"\x31" + COUNT.pack(3, len(text)) + text
        else:
            raise Stop(6)

    def step(self, step):
        """Performs a step: how many entries it gave."""
        form = step[0]
        if form == "do":
            self.value(step[1])
            return 0
        if form == "keep":
            self.keep(self.value(step[1]))
            return 1
        if form == "let":
            value = self.value(step[3])
            if step[2]:
                self.keep(value)
            self.variables[step[1]] = value
            return int(step[2])
        if form == "if":
            holds = self.value(step[1])
            self.out += b"\x32" + bytes([holds])
            self.node(step[2] if holds else step[3])
            return 1
        return self.turns(step[1], self.value(step[2]), step[3])

    def node(self, steps):
        """The node of a block: its count is put in afterwards."""
        at = len(self.out)
        self.out += bytes(4)
        count = 0
        for step in steps:
            count += self.step(step)
        self.out[at : at + 4] = count.to_bytes(4, "big")
        self.out += b"\x00"

    def turns(self, variable, rows, body):
        self.out += b"\x33" + len(rows).to_bytes(4, "big")
        for row in rows:
            self.take_fuel()
            self.variables[variable] = row
            self.node(body)
        return 1


def operated(sign, left, right):
    if type(left) is not type(right):
        raise Stop(6)
    if sign == "+":
        return left + right
    if sign == "-":
        return left - right
    if sign == ">":
        return left > right
    return left == right


def ran(root, rounds, by):
    run = Run(root, [by])
    run.node([("each", 0, call(ROOT, "files"), ROUND * rounds)])
    return bytes(run.out)


class Read:
    """What a forest gives: its turns, its entries and the sum of its Ints."""

    def __init__(self, data):
        self.data = data
        self.at = 1
        self.turns = self.entries = self.sum = 0
        self.node()

    def count(self):
        self.at += 4
        return int.from_bytes(self.data[self.at - 4 : self.at], "big")

    def node(self):
        for _ in range(self.count()):
            self.entry()
        self.at += 1

    def entry(self):
        self.entries += 1
        tag = self.data[self.at]
        self.at += 1
        if tag == 0x31:
            self.value()
        elif tag == 0x32:
            self.at += 1
            self.node()
        else:
            nodes = self.count()
            self.turns += nodes
            for _ in range(nodes):
                self.node()

    def value(self):
        kind = self.data[self.at]
        if kind == 1:
            self.sum += INT.unpack_from(self.data, self.at)[1]
            self.at += 9
        elif kind == 2:
            self.at += 2
        else:
            self.at += 5 + COUNT.unpack_from(self.data, self.at)[1]


def main(count, rounds):
    root = Dir([File(f"f{i}", i * 617 % 1000) for i in range(1, count + 1)])
    read = Read(ran(root, rounds, 3))
    print(f"{read.turns} turns, {read.entries} entries, sum {read.sum}")
    times = []
    for _ in range(5):
        start = time.process_time()
        ran(root, rounds, 3)
        times.append(time.process_time() - start)
    print(min(times) * 1000)


main(int(sys.argv[1]), int(sys.argv[2]))
