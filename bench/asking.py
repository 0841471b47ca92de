"""Requests in JSON as long as they may be: honest ones, and ones that are to cost much."""

from itertools import chain, count, islice, repeat

from second import LONGEST_TEXT
from spelling import compact as text_of

MOST_BYTES = 1_048_576
MOST_ITEMS = 1000
LARGE = 2**63 - 1
DEEPEST = 127

SERVICE = """\
class Root { }
object 0: Root { }
root 0;
"""
ROOT = ["root"]


def filled(front, pieces, back, most):
    """As many pieces with commas between them as fit between these two into so many bytes."""
    taken, room = [], most - len(front) - len(back)
    for piece in pieces:
        room -= len(piece) + 1
        if room < -1:
            break
        taken.append(piece)
    return front + b",".join(taken) + back


def trees(values):
    return (text_of(value) for value in values)


def steps(pieces, most, inputs=()):
    """A request whose steps are these."""
    front = b'{"inputs":' + text_of(list(inputs)) + b',"steps":['
    return filled(front, pieces, b"]}", most)


def called(args, most):
    """A request whose one step is a call with these arguments."""
    return filled(b'{"inputs":[],"steps":[["do",0,0,["call",0,0,"many",["root"],[', args, b"]]]]}", most)


def do(number, expr=ROOT):
    return ["do", number, 0, expr]


def variables():
    """A variable that is the root, and others that are each the one before."""
    yield ["let", 0, 0, 0, False, ROOT]
    for number in count(1):
        yield ["let", number, 0, number, False, ["var", number - 1]]


def literals(values):
    return (["lit", value] for value in values)


def texts(spell):
    """Steps with texts about as long as they may be, each spelled so."""
    text = b'"' + spell("aé" * (LONGEST_TEXT // 3)).encode() + b'"'
    return (b'["do",%d,0,["lit",%s]]' % (number, text) for number in count())


def escaped(text):
    return "".join(f"\\u{ord(letter):04x}" for letter in text)


def blocks():
    """A block within as many others as may be, up to its steps, and what closes it."""
    levels = range((DEEPEST - 3) // 2 - 1)
    front = b"".join(b'["if",%d,0,["lit",true],[' % number for number in levels)
    return b'{"inputs":[],"steps":[' + front, b"],[]]" * len(levels) + b"]}"


def negations():
    """A number behind as many minus signs as may stand in an argument."""
    levels = DEEPEST - 6
    return b'["un",2,0,' * levels + b'["lit",1]' + b"]" * levels


def honest(most):
    """Requests of at most so many bytes with their names."""
    for name, part in (("steps, a quarter", most // 4), ("steps, half", most // 2), ("steps", most)):
        yield name, steps(trees(map(do, count())), part)
    for name, part in (("variables, half", most // 2), ("variables", most)):
        yield name, steps(trees(variables()), part)
    yield "spaces", filled(b'{ "inputs" : [ ] , "steps" : [ ', spaced(), b" ] }", most)
    front, back = blocks()
    yield "blocks", filled(front, trees(do(number + DEEPEST) for number in count()), back, most)
    yield "deep", called(repeat(negations()), most)
    yield "numbers", called(trees(literals(LARGE - number for number in count())), most)
    yield "digits", called(trees(literals(number % 10 for number in count())), most)
    yield "letters", called(trees(literals(repeat("a"))), most)
    yield "texts", steps(texts(str), most)
    yield "escapes", steps(texts(escaped), most)
    yield "items", items(most)


def spaced():
    return (b'[ "do" , %d , 0 , [ "root" ] ]' % number for number in count())


def items(most):
    """A list of as many items as may be, which are texts, and a step that goes over them."""
    size = min((most - 200) // MOST_ITEMS - 3, LONGEST_TEXT)
    over = ["over", 0, 0, 0, 0, [["keep", 1, 0, ["var", 0]]]]
    return text_of({"inputs": [["a" * size] * MOST_ITEMS], "steps": [over]})


def hostile(most):
    """Texts of at most so many bytes that are refused, or that are to cost much."""
    small = list(islice(trees(map(do, count())), (most - 100) // 24))
    yield "repeated", steps(chain(small, [small[0]]), most)
    yield "unbound", steps(chain(small, [text_of(do(2**32 - 1, ["var", 0]))]), most)
    yield "another word", steps(chain(small, [b'["did",0,0,["root"]]']), most)
    yield "cut", steps(small, most)[:-1]
    yield "keys", filled(b"{", (b'"%x":0' % number for number in count()), b"}", most)
    yield "one key", filled(b"{", repeat(b'"inputs":[]'), b',"steps":[]}', most)
    yield "brackets", b"[" * most
    yield "arrays", filled(b"[", repeat(b"[]"), b"]", most)
    yield "fractions", called(repeat(b'["lit",1.5]'), most)
    yield "long number", called([b'["lit",' + b"1" * (most - 100) + b"]"], most)
    yield "long fraction", called([b'["lit",0.' + b"1" * (most - 100) + b"]"], most)
    yield "long name", steps([b'["do",0,0,["call",0,0,"' + b"n" * (most - 100) + b'",["root"],[]]]'], most)


def requests(most):
    yield from honest(most)
    yield from hostile(most)
