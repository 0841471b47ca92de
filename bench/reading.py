"""Scripts and forests of version 2, read back into the trees that spelling.py spells."""

from spelling import STEPS

WORDS = {code: word for word, code in STEPS.items()}


class Reading:
    """The reading of one payload, which is taken to be right."""

    def __init__(self, payload):
        self.payload = payload
        self.place = 1
        self.pool = []

    def taken(self, size):
        self.place += size
        return self.payload[self.place - size : self.place]

    def byte(self):
        return self.taken(1)[0]

    def truth(self):
        return self.byte() == 1

    def count(self):
        return int.from_bytes(self.taken(4), "big")

    def short(self):
        value, shift = 0, 0
        while True:
            group = self.byte()
            value += group % 128 << shift
            shift += 7
            if group < 128:
                return value

    def signed(self):
        value = self.short()
        return value // 2 if value % 2 == 0 else -(value + 1) // 2

    def words(self):
        return self.taken(self.short()).decode()

    def pooled(self):
        return self.pool[self.short()]

    def many(self, count, read):
        return [read() for _ in range(count)]

    def value(self, text):
        return self.value_of(self.byte(), text)

    def value_of(self, tag, text):
        match tag:
            case 1:
                return self.signed()
            case 2:
                return self.truth()
            case 3:
                return text()

    def literal(self):
        return self.value(self.pooled)

    def input(self):
        tag = self.byte()
        if tag == 4:
            return self.many(self.short(), self.literal)
        return self.value_of(tag, self.pooled)

    def expr(self):
        match self.byte():
            case 0x20:
                return ["lit", self.literal()]
            case 0x21:
                return ["in", self.byte()]
            case 0x22:
                return ["var", self.short()]
            case 0x23:
                return ["root"]
            case 0x24:
                return ["un", self.byte(), self.short(), self.expr()]
            case 0x25:
                return ["bin", self.byte(), self.short(), self.expr(), self.expr()]
            case 0x26:
                front = ["call", self.short(), self.byte(), self.pooled(), self.expr()]
                return [*front, self.many(self.short(), self.expr)]

    def step(self):
        front = [WORDS[self.byte()], self.short(), self.short()]
        match front[0]:
            case "do" | "keep":
                return [*front, self.expr()]
            case "let":
                return [*front, self.short(), self.truth(), self.expr()]
            case "if":
                return [*front, self.expr(), self.block(), self.block()]
            case "each":
                return [*front, self.short(), self.truth(), self.expr(), self.block()]
            case "over":
                return [*front, self.short(), self.byte(), self.block()]

    def block(self):
        return self.many(self.short(), self.step)

    def script(self):
        self.pool = self.many(self.short(), self.words)
        inputs = self.many(self.byte(), self.input)
        return {"inputs": inputs, "steps": self.block()}

    def node(self):
        entries = self.many(self.count(), self.entry)
        return {"entries": entries, "fault": self.fault() if self.truth() else None}

    def fault(self):
        front = [self.short(), self.short(), self.byte()]
        return [*front, self.words() if front[2] == 8 else ""]

    def entry(self):
        match self.byte():
            case 0x31:
                return ["value", self.value(self.words)]
            case 0x32:
                return ["branch", self.truth(), self.node()]
            case 0x33:
                return ["rows", self.many(self.count(), self.node)]


def script_in(payload):
    return Reading(payload).script()


def forest_in(payload):
    return Reading(payload).node()
