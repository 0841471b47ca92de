"""Scripts and forests as bytes, in both versions of the wire, from trees that are JSON.

A script is {"inputs": [..], "steps": [..]}. A step is ["do", id, at, E], ["keep", id, at, E], ["let", id, at, var, keep, E],
["if", id, at, E, steps, steps], ["each", id, at, var, keep, E, steps] or ["over", id, at, var, input, steps]. An expression is
["lit", value], ["in", number], ["var", number], ["root"], ["un", op, at, E], ["bin", op, at, E, E] or
["call", at, kind, name, E, arguments]. A node is {"entries": [..], "fault": null or [step, at, code, text]}, and an entry
["value", value], ["branch", taken, node] or ["rows", nodes].
"""

import json

STEPS = {"do": 0x10, "keep": 0x11, "let": 0x12, "if": 0x13, "each": 0x14, "over": 0x15}


def number(value):
    return value.to_bytes(4, "big")


def short(value):
    """A number in groups of seven bits, the lowest first, with the high bit set in all but the last."""
    groups = bytearray()
    while value > 127:
        groups.append(value % 128 + 128)
        value //= 128
    groups.append(value)
    return bytes(groups)


def signed(value):
    return short(2 * value if value >= 0 else -2 * value - 1)


class Spelling:
    """The spelling of one message in a version."""

    def __init__(self, version):
        self.version = version
        self.pool = {}

    def natural(self, value):
        return number(value) if self.version == 1 else short(value)

    def words(self, text):
        return self.natural(len(text.encode())) + text.encode()

    def pooled(self, text):
        if self.version == 1:
            return self.words(text)
        return short(self.pool.setdefault(text, len(self.pool)))

    def value(self, value, words):
        if isinstance(value, bool):
            return b"\x02" + bytes([value])
        if isinstance(value, str):
            return b"\x03" + words(value)
        return b"\x01" + (value.to_bytes(8, "big", signed=True) if self.version == 1 else signed(value))

    def input(self, value):
        if isinstance(value, list):
            return b"\x04" + short(len(value)) + b"".join(self.value(item, self.pooled) for item in value)
        return self.value(value, self.pooled)

    def expr(self, tree):
        match tree:
            case ["lit", value]:
                return b"\x20" + self.value(value, self.pooled)
            case ["in", place]:
                return b"\x21" + bytes([place])
            case ["var", variable]:
                return b"\x22" + self.natural(variable)
            case ["root"]:
                return b"\x23"
            case ["un", op, at, operand]:
                return b"\x24" + bytes([op]) + self.natural(at) + self.expr(operand)
            case ["bin", op, at, left, right]:
                return b"\x25" + bytes([op]) + self.natural(at) + self.expr(left) + self.expr(right)
            case ["call", at, kind, name, target, args]:
                front = b"\x26" + self.natural(at) + bytes([kind]) + self.pooled(name) + self.expr(target)
                return front + self.natural(len(args)) + b"".join(self.expr(arg) for arg in args)

    def step(self, tree):
        front = bytes([STEPS[tree[0]]]) + self.natural(tree[1]) + self.natural(tree[2])
        match tree:
            case ["do" | "keep", _, _, expr]:
                return front + self.expr(expr)
            case ["let", _, _, variable, keep, expr]:
                return front + self.natural(variable) + bytes([keep]) + self.expr(expr)
            case ["if", _, _, expr, yes, no]:
                return front + self.expr(expr) + self.block(yes) + self.block(no)
            case ["each", _, _, variable, keep, expr, body]:
                return front + self.natural(variable) + bytes([keep]) + self.expr(expr) + self.block(body)
            case ["over", _, _, variable, place, body]:
                return front + self.natural(variable) + bytes([place]) + self.block(body)

    def block(self, steps):
        return self.natural(len(steps)) + b"".join(self.step(step) for step in steps)

    def script(self, tree):
        inputs = b"".join(self.input(value) for value in tree["inputs"])
        rest = bytes([len(tree["inputs"])]) + inputs + self.block(tree["steps"])
        if self.version == 1:
            return b"\x01" + rest
        return b"\x02" + pool(text.encode() for text in self.pool) + rest

    def node(self, tree):
        whole = number(len(tree["entries"])) + b"".join(self.entry(entry) for entry in tree["entries"])
        if tree["fault"] is None:
            return whole + b"\x00"
        step, at, code, text = tree["fault"]
        whole += b"\x01" + self.natural(step) + self.natural(at) + bytes([code])
        return whole + self.words(text) if code == 8 else whole

    def entry(self, tree):
        match tree:
            case ["value", value]:
                return b"\x31" + self.value(value, self.words)
            case ["branch", taken, node]:
                return b"\x32" + bytes([taken]) + self.node(node)
            case ["rows", nodes]:
                return b"\x33" + number(len(nodes)) + b"".join(self.node(node) for node in nodes)


def pool(texts):
    """The texts of a pool behind their count."""
    texts = list(texts)
    return short(len(texts)) + b"".join(short(len(text)) + text for text in texts)


def script_bytes(version, tree):
    return Spelling(version).script(tree)


def forest_bytes(version, tree):
    return bytes([version]) + Spelling(version).node(tree)


def compact(tree):
    """The tree as JSON without spaces."""
    return json.dumps(tree, separators=(",", ":"), ensure_ascii=False).encode()


def has_lists(tree):
    """Whether an input is a list, which version 1 hasn't."""
    return any(isinstance(value, list) for value in tree.get("inputs", []))
