#!/usr/bin/env python3
"""Works out, from the tables of the language and from none of the code, what cases_operators prints.

Run it at the top: tools/operator-cases.py < crates/cases_operators/stdin > crates/cases_operators/stdout
"""
import sys

sys.setrecursionlimit(20000)
MIN, MAX = -(2**127), 2**127 - 1
KINDS = ["bool", "int", "text", "loc", "tuple", "list", "set", "map", "node", "tree", "leaf"]


class Throw(Exception):
    pass


class V:
    """A value: its kind, its name or content, and its parts."""

    def __init__(self, kind, data, parts=()):
        self.kind, self.data, self.parts = kind, data, tuple(parts)
        own = {"text": lambda: len(data.encode()), "leaf": lambda: len(data.encode()),
               "loc": lambda: len(data[1].encode())}.get(kind, lambda: 0)()
        self.size = 1 + own + sum(p.size for p in self.parts)
        self.height = 1 + max((p.height for p in self.parts), default=0)

    def key(self):
        rank = KINDS.index(self.kind)
        if self.kind in ("bool", "int"):
            own = self.data
        elif self.kind in ("text", "leaf"):
            own = self.data.encode()
        elif self.kind == "loc":
            scheme, path, span = self.data
            own = (scheme != "cwd", path.encode(), () if span is None else span)
        elif self.kind in ("node", "tree"):
            own = self.data.encode()
        else:
            own = ()
        return (rank, own, tuple(p.key() for p in self.parts))


def make(kind, data, parts=()):
    v = V(kind, data, parts)
    if v.size > 2**24 or v.height > 2000:
        raise Throw(V("node", "TooLarge"))
    return v


def truth(b): return make("bool", b)
def text(s): return make("text", s)
def tuple_of(vs): return make("tuple", None, vs)
def list_of(vs): return make("list", None, vs)


def rising(vs):
    found = {}
    for v in vs:
        found[v.key()] = v
    return [found[k] for k in sorted(found)]


def set_of(vs): return make("set", None, rising(vs))


def map_of(pairs):
    found = {}
    for k, v in pairs:
        found[k.key()] = (k, v)
    return make("map", None, [x for key in sorted(found) for x in found[key]])


def entries(m): return [(m.parts[i], m.parts[i + 1]) for i in range(0, len(m.parts), 2)]
def same(a, b): return a.key() == b.key()
def throw(name, *parts): raise Throw(make("node", name, parts))
def wrong(): throw("WrongKind")


def number(n):
    if not MIN <= n <= MAX:
        throw("ArithmeticException", text("integer out of range"))
    return make("int", n)


def taken_out(xs, y):
    for i, x in enumerate(xs):
        if same(x, y):
            return xs[:i] + xs[i + 1:]
    return xs


def add(a, b):
    kinds = (a.kind, b.kind)
    if kinds == ("int", "int"): return number(a.data + b.data)
    if kinds == ("text", "text"): return text(a.data + b.data)
    if kinds == ("list", "list"): return list_of(a.parts + b.parts)
    if kinds == ("tuple", "tuple"): return tuple_of(a.parts + b.parts)
    if kinds == ("set", "set"): return set_of(a.parts + b.parts)
    if kinds == ("map", "map"): return map_of(entries(a) + entries(b))
    if kinds == ("loc", "text"):
        scheme, path, _ = a.data
        return make("loc", (scheme, path + "/" + b.data if path else b.data, None))
    if a.kind == "list": return list_of(a.parts + (b,))
    if b.kind == "list" and a.kind != "set": return list_of((a,) + b.parts)
    if a.kind == "set": return set_of(a.parts + (b,))
    if b.kind == "set": return set_of(b.parts + (a,))
    wrong()


def subtract(a, b):
    if (a.kind, b.kind) == ("int", "int"): return number(a.data - b.data)
    if a.kind == "set":
        gone = {x.key() for x in (b.parts if b.kind == "set" else (b,))}
        return set_of([x for x in a.parts if x.key() not in gone])
    if a.kind == "list":
        left = a.parts
        for x in b.parts if b.kind == "list" else (b,):
            left = taken_out(left, x)
        return list_of(left)
    wrong()


def multiply(a, b):
    if (a.kind, b.kind) == ("int", "int"): return number(a.data * b.data)
    if (a.kind, b.kind) == ("set", "set"):
        if len(a.parts) * len(b.parts) * 3 > 2**24:
            throw("TooLarge")
        return set_of([tuple_of((x, y)) for x in a.parts for y in b.parts])
    wrong()


def divide(a, b):
    if (a.kind, b.kind) != ("int", "int"): wrong()
    if b.data == 0: throw("ArithmeticException", text("divided by zero"))
    size = abs(a.data) // abs(b.data)
    return number(size if (a.data < 0) == (b.data < 0) else -size)


def remainder(a, b):
    if (a.kind, b.kind) != ("int", "int"): wrong()
    if b.data == 0: throw("ArithmeticException", text("divided by zero"))
    size = abs(a.data) % abs(b.data)
    return number(-size if a.data < 0 else size)


def intersect(a, b):
    if (a.kind, b.kind) != ("set", "set"): wrong()
    keys = {x.key() for x in b.parts}
    return set_of([x for x in a.parts if x.key() in keys])


def pairs_in(a):
    if a.kind != "set" or any(p.kind != "tuple" or len(p.parts) != 2 for p in a.parts): wrong()
    return [p.parts for p in a.parts]


def relation(pairs): return set_of([tuple_of(p) for p in pairs])


def compose(a, b):
    left, right = pairs_in(a), pairs_in(b)
    return relation([(x, z) for x, y in left for y2, z in right if same(y, y2)])


def close(pairs):
    while True:
        more = {(x.key(), z.key()): (x, z) for x, z in pairs}
        for x, y in pairs:
            for y2, z in pairs:
                if same(y, y2): more[x.key(), z.key()] = (x, z)
        if len(more) == len({(x.key(), z.key()) for x, z in pairs}): return pairs
        pairs = list(more.values())


def reflexive(a):
    pairs = pairs_in(a)
    return relation(close(pairs) + [(x, x) for p in pairs for x in p])


def compared(a, b):
    """Whether a is below b, and whether it is the same or below."""
    if a.kind == b.kind and a.kind in ("int", "text"):
        return a.key() < b.key(), a.key() <= b.key()
    if a.kind == b.kind == "set":
        x, y = {p.key() for p in a.parts}, {p.key() for p in b.parts}
        return x < y, x <= y
    wrong()


def has(x, a):
    if a.kind in ("list", "set"): return any(same(x, y) for y in a.parts)
    if a.kind == "map": return any(same(x, k) for k, _ in entries(a))
    wrong()


def is_(a, b):
    if a.kind not in ("node", "tree") or b.kind != "text": wrong()
    return truth(a.data == b.data)


def boolean(a):
    if a.kind != "bool": wrong()
    return a.data


def either(a, b): return truth(True) if boolean(a) else truth(boolean(b))
def implies(a, b): return truth(boolean(b)) if boolean(a) else truth(True)


def equivalent(a, b):
    left, right = boolean(a), boolean(b)
    return truth(left == right)


def place(i, length):
    if i.kind != "int": wrong()
    at = i.data + length if i.data < 0 else i.data
    if not 0 <= at < length: throw("IndexOutOfBounds", i)
    return at


def subscript(a, i):
    if a.kind == "text": return text(a.data[place(i, len(a.data))])
    if a.kind in ("list", "tuple"): return a.parts[place(i, len(a.parts))]
    if a.kind == "map":
        for k, v in entries(a):
            if same(k, i): return v
        throw("NoSuchKey", i)
    if a.kind == "set":
        if any(p.kind != "tuple" or len(p.parts) < 2 for p in a.parts): wrong()
        rests = [p.parts[1:] for p in a.parts if same(p.parts[0], i)]
        return set_of([r[0] if len(r) == 1 else tuple_of(r) for r in rests])
    wrong()


def slice_of(a, low, high):
    if a.kind not in ("list", "text"): wrong()
    if any(i is not None and i.kind != "int" for i in (low, high)): wrong()
    whole = a.data if a.kind == "text" else a.parts
    start, end = 0, len(whole)
    if low is not None:
        start = low.data + len(whole) if low.data < 0 else low.data
        if not 0 <= start <= len(whole): throw("IndexOutOfBounds", low)
    if high is not None:
        end = high.data + len(whole) if high.data < 0 else high.data
        if not start <= end <= len(whole): throw("IndexOutOfBounds", high)
    return text(whole[start:end]) if a.kind == "text" else list_of(whole[start:end])


def range_of(a, second, b):
    if any(i is not None and i.kind != "int" for i in (a, second, b)): wrong()
    if second is None:
        step = -1 if b.data < a.data else 1
    else:
        step = number(second.data - a.data).data
    numbers = range(a.data, b.data, step) if step != 0 else ()
    count = 0 if step == 0 else max(0, (b.data - a.data + step - (1 if step > 0 else -1)) // step)
    if 1 + count > 2**24: throw("TooLarge")
    return list_of([make("int", n) for n in numbers])


def field(a, name, at):
    if a.kind != "node": wrong()
    if at is None or at.data >= len(a.parts):
        throw("NoSuchField", text(name.data if name.kind in ("text", "leaf") else ""))
    return a.parts[at.data]


def with_field(a, name, at, v):
    field(a, name, at)
    return make("node", a.data, a.parts[:at.data] + (v,) + a.parts[at.data + 1:])


def changed(a, i, v):
    if a.kind in ("list", "tuple"):
        at = place(i, len(a.parts))
        return make(a.kind, None, a.parts[:at] + (v,) + a.parts[at + 1:])
    if a.kind == "map": return map_of(entries(a) + [(i, v)])
    wrong()


def restricted(part, wanted):
    def call(a, s):
        pairs = pairs_in(a)
        if s.kind != "set": wrong()
        return relation([p for p in pairs if has(p[part], s) == wanted])
    return call


CALLS = {
    ("+", 2): add, ("-", 2): subtract, ("*", 2): multiply, ("/", 2): divide, ("%", 2): remainder,
    ("&", 2): intersect, ("o", 2): compose,
    ("==", 2): lambda a, b: truth(same(a, b)), ("!=", 2): lambda a, b: truth(not same(a, b)),
    ("<", 2): lambda a, b: truth(compared(a, b)[0]), ("<=", 2): lambda a, b: truth(compared(a, b)[1]),
    (">", 2): lambda a, b: truth(compared(b, a)[0]), (">=", 2): lambda a, b: truth(compared(b, a)[1]),
    ("in", 2): lambda a, b: truth(has(a, b)), ("notin", 2): lambda a, b: truth(not has(a, b)),
    ("is", 2): is_, ("||", 2): either, ("==>", 2): implies, ("<==>", 2): equivalent,
    ("negate", 1): lambda a: number(-a.data) if a.kind == "int" else wrong(),
    ("!", 1): lambda a: truth(not boolean(a)),
    ("closure", 1): lambda a: relation(close(pairs_in(a))), ("reflexive", 1): reflexive,
    ("domain", 1): lambda a: set_of([x for x, _ in pairs_in(a)]),
    ("range", 1): lambda a: set_of([y for _, y in pairs_in(a)]),
    ("carrier", 1): lambda a: set_of([x for p in pairs_in(a) for x in p]),
    ("invert", 1): lambda a: relation([(y, x) for x, y in pairs_in(a)]),
    ("domainR", 2): restricted(0, True), ("domainX", 2): restricted(0, False),
    ("rangeR", 2): restricted(1, True), ("rangeX", 2): restricted(1, False),
    ("subscript", 2): subscript, ("slice", 1): lambda a: slice_of(a, None, None),
    ("from", 2): lambda a, low: slice_of(a, low, None), ("to", 2): lambda a, high: slice_of(a, None, high),
    ("slice", 3): slice_of, ("range", 2): lambda a, b: range_of(a, None, b), ("range", 3): range_of,
    ("field", 2): lambda a, name: field(a, name, None), ("field", 3): field,
    ("with", 3): changed, ("with_field", 3): lambda a, name, v: with_field(a, name, None, v),
    ("with_field", 4): with_field,
}

PLAIN_EXCEPTIONS = ["StackOverflow", "TooLarge", "VisitType", "WrongKind", "NoReturn", "EmptyList", "EmptySet"]
EXCEPTIONS_WITH_VALUES = [
    "CallFailed", "NoSuchKey", "IllegalArgument", "PathNotFound", "ParseError", "IndexOutOfBounds",
    "ArithmeticException", "UninitializedVariable", "NoSuchField", "IO",
]
for exception in PLAIN_EXCEPTIONS:
    CALLS[exception, 0] = lambda name=exception: throw(name)
for exception in EXCEPTIONS_WITH_VALUES:
    CALLS[exception, 1] = lambda a, name=exception: throw(name, a)
CALLS["Ambiguity", 2] = lambda place, sort: throw("Ambiguity", place, sort)
CALLS["out_of_range", 0] = lambda: throw("ArithmeticException", text("integer out of range"))
CALLS["divided_by_zero", 0] = lambda: throw("ArithmeticException", text("divided by zero"))


def printed(v):
    inner = ",".join(printed(p) for p in v.parts) if v.kind != "map" else ""
    if v.kind == "bool": return "true" if v.data else "false"
    if v.kind == "int": return str(v.data)
    if v.kind == "leaf": return v.data
    if v.kind == "text":
        signs = {'"': '\\"', "\\": "\\\\", "<": "\\<", ">": "\\>", "\n": "\\n", "\t": "\\t", "\r": "\\r"}
        return '"' + "".join(signs.get(c, c) for c in v.data) + '"'
    if v.kind == "loc":
        scheme, path, span = v.data
        return f"|{scheme}:///{path}|" + (f"({span[0]},{span[1]})" if span else "")
    if v.kind == "tuple": return f"<{inner}>"
    if v.kind == "list": return f"[{inner}]"
    if v.kind == "set": return f"{{{inner}}}"
    if v.kind == "map": return "(" + ",".join(f"{printed(k)}:{printed(x)}" for k, x in entries(v)) + ")"
    if v.kind == "node": return f"{v.data}({inner})"
    return "(E) ``"


def answer(v):
    if v.size > 100: return f"a value of size {v.size} and height {v.height}"
    return printed(v)


def deep(height):
    v = list_of([])
    for _ in range(1, height): v = list_of([v])
    return v


def read(words):
    """The values that the words spell, each before its parts."""
    words = list(words)

    def take(n): return [one() for _ in range(n)]

    def one():
        word = words.pop(0)
        if word in ("true", "false"): return truth(word == "true")
        if ":" not in word: return make("int", int(word))
        form, rest = word.split(":", 1)
        if form in ("text", "leaf", "tree"): return make(form, rest)
        if form in ("cwd", "unknown"): return make("loc", (form, rest, None))
        if form == "at": return make("loc", ("cwd", rest, (3, 4)))
        n = int(rest)
        if form == "long": return text("a" * n)
        if form == "deep": return deep(n)
        if form == "upto": return set_of([make("int", i) for i in range(n)])
        if form == "map": return map_of([tuple(take(2)) for _ in range(n)])
        if form == "set": return set_of(take(n))
        return make(form, "f" if form == "node" else None, take(n))

    found = []
    while words: found.append(one())
    return found


def outcome(name, operands):
    try:
        return answer(CALLS[name, len(operands)](*operands))
    except Throw as exception:
        return "throws " + answer(exception.args[0])


def mark(name, operands):
    try:
        CALLS[name, len(operands)](*operands)
    except Throw as exception:
        return "W" if exception.args[0].data == "WrongKind" else "."
    return "."


def main():
    every = read("true 7 text:ab cwd:p tuple:2 1 2 list:2 1 2 set:2 1 2 map:1 1 10 node:1 7 tree:add leaf:x".split())
    for line in sys.stdin.read().splitlines():
        name, _, rest = line.partition(" ")
        if name == "kinds1":
            print(f"{line} = " + "".join(mark(rest, [a]) for a in every))
        elif name == "kinds2":
            print(f"{line} = " + "".join(" " + "".join(mark(rest, [a, b]) for b in every) for a in every))
        elif name in ("", "#"):
            print(line)
        else:
            operands = read(rest.split(" ") if rest else [])
            print(f"{line} = {outcome(name, operands)}")


main()
