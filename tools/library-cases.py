#!/usr/bin/env python3
"""Writes the calls that `cases_library` reads, and what each of them gives or throws.

The answers are worked out here by a model of the library of its own. Run it at the top of the repository:

    tools/library-cases.py
"""

import functools
import sys
from pathlib import Path

LEAST, GREATEST = -2 ** 127, 2 ** 127 - 1
MAX_SIZE, MAX_HEIGHT = 2 ** 24, 2000


class Value:
    """A value of a kind that Python lacks. `bool`, `int` and `str` are themselves."""


class Leaf(Value):
    def __init__(self, text):
        self.text = text


class Place(Value):
    def __init__(self, path):
        self.path = path


class Parts(Value):
    """A tuple or a list. A list of copies of one value has the value and their number."""

    def __init__(self, *items):
        self.items = list(items)


class Tuple(Parts):
    opening, closing, mark = "<", ">", "<"


class List(Parts):
    opening, closing, mark = "[", "]", "["


class Copies(List):
    def __init__(self, count, item):
        self.items = [item] * count


class Set(Parts):
    opening, closing, mark = "{", "}", "{"

    def __init__(self, *items):
        self.given = list(items)
        self.items = distinct(sorted(items, key=order))


class Map(Value):
    def __init__(self, *pairs):
        self.given = list(pairs)
        last = {}
        for key, value in pairs:
            last[as_key(key)] = (key, value)
        self.pairs = sorted(last.values(), key=lambda pair: order(pair[0]))


class Node(Parts):
    def __init__(self, name, *items):
        super().__init__(*items)
        self.name = name


class Tree(Parts):
    ROLES = "SLYKRO"

    def __init__(self, role, sort, *items):
        super().__init__(*items)
        self.role, self.sort = role, sort


class Times:
    """A text that is written as copies of a shorter one."""

    def __init__(self, text, count):
        self.text, self.count = text, count


# The order of values

def is_bool(v):
    return isinstance(v, bool)


def is_int(v):
    return isinstance(v, int) and not is_bool(v)


def is_text(v):
    return isinstance(v, str)


def compare(a, b):
    a, b = rank_and_parts(a), rank_and_parts(b)
    if a[0] != b[0]:
        return -1 if a[0] < b[0] else 1
    for x, y in zip(a[1], b[1]):
        if isinstance(x, list):
            for p, q in zip(x, y):
                c = compare(p, q)
                if c:
                    return c
            x, y = len(x), len(y)
        if x != y:
            return -1 if x < y else 1
    return 0


def rank_and_parts(v):
    if is_bool(v):
        return 0, [v]
    if is_int(v):
        return 1, [v]
    if is_text(v):
        return 2, [v.encode()]
    if isinstance(v, Place):
        return 3, [v.path.encode()]
    if isinstance(v, Tuple):
        return 4, [v.items]
    if isinstance(v, List):
        return 5, [v.items]
    if isinstance(v, Set):
        return 6, [v.items]
    if isinstance(v, Map):
        return 7, [[part for pair in v.pairs for part in pair]]
    if isinstance(v, Node):
        return 8, [v.name.encode(), v.items]
    if isinstance(v, Tree):
        return 9, [text_of(v).encode(), v.sort.encode(), Tree.ROLES.index(v.role), v.items]
    return 10, [v.text.encode()]


order = functools.cmp_to_key(compare)


def same(a, b):
    return compare(a, b) == 0


def as_key(v):
    return printed(v), type(v).__name__


def distinct(items):
    kept = []
    for item in items:
        if not kept or not same(kept[-1], item):
            kept.append(item)
    return kept


def among(items, v):
    return any(same(item, v) for item in items)


# Size and text

def size(v):
    if is_text(v):
        return 1 + len(v.encode())
    if isinstance(v, Leaf):
        return 1 + len(v.text.encode())
    if isinstance(v, Place):
        return 1 + len(v.path.encode())
    if isinstance(v, Copies):
        return 1 + len(v.items) * size(v.items[0]) if v.items else 1
    if isinstance(v, Parts):
        return 1 + sum(size(item) for item in v.items)
    if isinstance(v, Map):
        return 1 + sum(size(key) + size(value) for key, value in v.pairs)
    return 1


def height(v):
    if isinstance(v, Copies):
        return 1 + height(v.items[0]) if v.items else 1
    if isinstance(v, Parts):
        return 1 + max((height(item) for item in v.items), default=0)
    if isinstance(v, Map):
        return 1 + max((max(height(key), height(value)) for key, value in v.pairs), default=0)
    return 1


def text_of(v):
    if isinstance(v, Leaf):
        return v.text
    if not hasattr(v, "text"):
        v.text = "".join(text_of(part) for part in v.items)
    return v.text


def behind_backslash(text, characters):
    letters = {"\n": "n", "\t": "t", "\r": "r"}
    return "".join("\\" + letters.get(c, c) if c in characters else c for c in text)


def printed(v):
    if is_bool(v):
        return "true" if v else "false"
    if is_int(v):
        return str(v)
    if is_text(v):
        return '"' + behind_backslash(v, '"\\<>\n\t\r') + '"'
    if isinstance(v, Place):
        return "|cwd:///" + v.path + "|"
    if isinstance(v, Map):
        return "(" + ",".join(printed(key) + ":" + printed(value) for key, value in v.pairs) + ")"
    if isinstance(v, Node):
        return v.name + "(" + ",".join(map(printed, v.items)) + ")"
    if isinstance(v, Tree):
        return "(" + v.sort + ") `" + behind_backslash(text_of(v), "`\\<>") + "`"
    if isinstance(v, Leaf):
        return v.text
    return v.opening + ",".join(map(printed, v.items)) + v.closing


def shown(v):
    if is_text(v):
        return v
    if isinstance(v, Tree):
        return text_of(v)
    return printed(v)


# The library

class Thrown(Exception):
    def __init__(self, name, *fields):
        exception = Node(name, *fields)
        self.value = exception if fits(exception) else Node("TooLarge")


def fits(v):
    return size(v) <= MAX_SIZE and height(v) <= MAX_HEIGHT


def take_kinds(arguments, *tests):
    """Each argument is of a kind for which its test holds."""
    if not all(test(argument) for test, argument in zip(tests, arguments)):
        raise Thrown("WrongKind")


def is_list(v):
    return isinstance(v, List)


def is_set(v):
    return isinstance(v, Set)


def is_map(v):
    return isinstance(v, Map)


def is_tree(v):
    return isinstance(v, Tree)


def is_relation(v):
    return is_set(v) and all(isinstance(item, Tuple) and len(item.items) == 2 for item in v.items)


def is_any(v):
    return True


def either(*tests):
    return lambda v: any(test(v) for test in tests)


def parts_of(v):
    return v.pairs if is_map(v) else v if is_text(v) else v.items


def first_of(v, where):
    if not v.items:
        raise Thrown("EmptyList" if is_list(v) else "EmptySet")
    return v.items[where]


def kept_once(items):
    kept = []
    for item in items:
        if not among(kept, item):
            kept.append(item)
    return kept


def count_of(n):
    if n < 0:
        raise Thrown("IllegalArgument", n)
    return n


def place_of(v, x):
    for place, item in enumerate(v.items):
        if same(item, x):
            return place
    return -1


def added(v):
    take_kinds(v.items, *[is_int] * len(v.items))
    total = 0
    for number in v.items:
        total += number
        if not LEAST <= total <= GREATEST:
            raise Thrown("ArithmeticException", "integer out of range")
    return total


def side(v, place):
    if is_map(v):
        return Set(*[pair[place] for pair in v.pairs])
    return Set(*[pair.items[place] for pair in v.items])


def kept_by(relation, elements, place, wanted):
    return Set(*[pair for pair in relation.items if among(elements.items, pair.items[place]) == wanted])


def pieces(whole, separator):
    if separator == "":
        raise Thrown("IllegalArgument", "")
    found, begin = [], 0
    while True:
        place = whole.find(separator, begin)
        if place < 0:
            return found + [whole[begin:]]
        found.append(whole[begin:place])
        begin = place + len(separator)


def joined(between, texts):
    """The texts with another between two, unless no value can hold it."""
    length = sum(len(text.encode()) for text in texts) + len(between.encode()) * max(len(texts) - 1, 0)
    if length >= MAX_SIZE:
        raise Thrown("TooLarge")
    return between.join(texts)


def part(whole, begin, end):
    if not 0 <= begin <= len(whole):
        raise Thrown("IndexOutOfBounds", begin)
    if not begin <= end <= len(whole):
        raise Thrown("IndexOutOfBounds", end)
    return whole[begin:end]


def number(text):
    digits = text[1:] if text.startswith("-") else text
    if digits == "" or any(c not in "0123456789" for c in digits) or not LEAST <= int(text) <= GREATEST:
        raise Thrown("IllegalArgument", text)
    return int(text)


def walked(v, offset):
    """The trees in a part of a tree with their offsets, a tree before its parts."""
    if isinstance(v, Leaf):
        return []
    found = [(offset, v)]
    for item in v.items:
        found += walked(item, offset)
        offset += len(text_of(item))
    return found


def spans(tree, sort):
    found = [
        (offset, len(text_of(inner)), inner)
        for offset, inner in walked(tree, 0)
        if inner.sort == sort and inner.role not in "RO"
    ]
    found.sort(key=lambda span: (span[0], -span[1]))
    return List(*[Tuple(*span) for span in found])


counted = either(is_list, is_set, is_map, is_text)
listed = either(is_list, is_set)

LIBRARY = {
    "size": ([counted], lambda v: len(parts_of(v))),
    "isEmpty": ([counted], lambda v: len(parts_of(v)) == 0),
    "head": ([is_list], lambda v: first_of(v, 0)),
    "last": ([is_list], lambda v: first_of(v, -1)),
    "tail": ([is_list], lambda v: List(*v.items[1:]) if first_of(v, 0) is not None else None),
    "reverse": ([is_list], lambda v: List(*reversed(v.items))),
    "dup": ([is_list], lambda v: List(*kept_once(v.items))),
    "take": ([is_int, is_list], lambda n, v: List(*v.items[:count_of(n)])),
    "drop": ([is_int, is_list], lambda n, v: List(*v.items[count_of(n):])),
    "indexOf": ([is_list, is_any], place_of),
    "sort": ([listed], lambda v: List(*sorted(v.items, key=order))),
    "toSet": ([is_list], lambda v: Set(*v.items)),
    "toList": ([either(is_set, is_map)], lambda v: List(*([Tuple(*pair) for pair in v.pairs] if is_map(v) else v.items))),
    "max": ([listed], lambda v: first_of(List(*sorted(v.items, key=order)) if v.items else v, -1)),
    "min": ([listed], lambda v: first_of(List(*sorted(v.items, key=order)) if v.items else v, 0)),
    "sum": ([listed], added),
    "intercalate": ([is_text, is_list], lambda between, v: joined(between, list(map(shown, v.items)))),
    "domain": ([either(is_map, is_relation)], lambda v: side(v, 0)),
    "range": ([either(is_map, is_relation)], lambda v: side(v, 1)),
    "delete": ([is_map, is_any], lambda v, key: Map(*[pair for pair in v.pairs if not same(pair[0], key)])),
    "carrier": ([is_relation], lambda v: Set(*[x for pair in v.items for x in pair.items])),
    "invert": ([is_relation], lambda v: Set(*[Tuple(pair.items[1], pair.items[0]) for pair in v.items])),
    "domainR": ([is_relation, is_set], lambda r, s: kept_by(r, s, 0, True)),
    "domainX": ([is_relation, is_set], lambda r, s: kept_by(r, s, 0, False)),
    "rangeR": ([is_relation, is_set], lambda r, s: kept_by(r, s, 1, True)),
    "rangeX": ([is_relation, is_set], lambda r, s: kept_by(r, s, 1, False)),
    "contains": ([is_text, is_text], lambda whole, part: part in whole),
    "startsWith": ([is_text, is_text], lambda whole, front: whole.startswith(front)),
    "endsWith": ([is_text, is_text], lambda whole, end: whole.endswith(end)),
    "split": ([is_text, is_text], lambda separator, whole: List(*pieces(whole, separator))),
    "replaceAll": ([is_text, is_text, is_text], lambda whole, part, new: joined(new, pieces(whole, part))),
    "trim": ([is_text], lambda v: v.strip(" \t\r\n")),
    "substring": ([is_text, is_int, is_int], part),
    "toInt": ([is_text], number),
    "spans": ([is_tree, is_text], spans),
    "unparse": ([is_tree], text_of),
}


def answer(name, arguments):
    try:
        kinds, function = LIBRARY[name]
        take_kinds(arguments, *kinds)
        result = function(*arguments)
        if not fits(result):
            raise Thrown("TooLarge")
        return name + " " + printed(result)
    except Thrown as thrown:
        return name + " throws " + printed(thrown.value)


# The words in which calls are written

def words(v):
    if is_bool(v):
        return ["T" if v else "F"]
    if is_int(v):
        return ["#" + str(v)]
    if is_text(v):
        return ['"' + behind_backslash(v, "\\\n\t\r")]
    if isinstance(v, Times):
        return words(v.text) + ["^" + str(v.count)]
    if isinstance(v, Leaf):
        return ["'" + behind_backslash(v.text, "\\\n\t\r")]
    if isinstance(v, Place):
        return ["|" + v.path]
    if isinstance(v, Copies):
        return words(v.items[0]) + ["*" + str(len(v.items))]
    if isinstance(v, Map):
        parts = [part for pair in v.given for part in pair]
        return [word for part in parts for word in words(part)] + ["(" + str(len(parts))]
    parts = v.given if is_set(v) else v.items
    before = [word for part in parts for word in words(part)]
    if isinstance(v, Node):
        return before + [":" + str(len(parts)) + " " + v.name]
    if isinstance(v, Tree):
        return before + [v.role + str(len(parts)) + " " + v.sort]
    return before + [v.mark + str(len(parts))]


def plain(v):
    return v.text * v.count if isinstance(v, Times) else v


# The calls

numbers = List(3, 1, 3, 2)
number_set = Set(5, -1, 3, 5)
names = Map((2, "two"), (1, "one"), (3, "two"), (2, "zwei"))
pairs = Set(Tuple(1, "a"), Tuple(2, "b"), Tuple(3, "a"), Tuple(1, "b"))
wide = "né€😀"
sort_one = Tree("L", "N", Leaf("1"))
blank = Tree("Y", "W", Leaf(" "))
ticks = Tree("L", "Id", Leaf("`é\\"))
empty_tree = Tree("S", "E")
more = Tree("R", "", Tree("S", "E", sort_one), Leaf(","), Tree("S", "E", ticks))
whole = Tree("S", "E", Tree("O", "", empty_tree), Tree("S", "E", Tree("S", "E", ticks), blank, Leaf("😀+"), sort_one), more)
every_kind = [
    Leaf("a"), ticks, Node("f", 1), Map((1, 2)), Set(1), List(1), Tuple(1), Place("p"), "a", 1, True,
    Leaf(""), Tree("S", "A", Leaf("1")), Node("e", 2), Map(), Set(), List(), Tuple(), Place(""), "", -1, False,
    List(1, 0), Tuple(1, 0), Node("f", 0, 5), Map((1, 1), (2, 0)), Set(1, 2), "é", 2, Tree("L", "B", Leaf("1")),
]
others = [True, 1, "a", Place("p"), Tuple(1), List(), Set(), Map(), Node("f"), sort_one, Leaf("a")]
full = Times("a" * 255, 65793)  # as long as a text can be


def nested(depth, make, v):
    for _ in range(depth):
        v = make(v)
    return v


def wrong(name, places, *arguments):
    """The function with a value of each kind that it does not take, in turn at each of these places."""
    calls = []
    for place in places:
        for other in others:
            if not LIBRARY[name][0][place](other):
                calls.append((name, *arguments[:place], other, *arguments[place + 1:]))
    return calls


def calls():
    for v in [numbers, List(), number_set, Set(), names, Map(), wide, "", Copies(2 ** 20, 7)]:
        yield "size", v
        yield "isEmpty", v
    for name in ["size", "isEmpty", "head", "last", "tail", "reverse", "dup", "sort", "toSet", "toList", "max", "min", "sum"]:
        yield from wrong(name, [0], None)
    for name in ["head", "last", "tail", "reverse", "dup", "sort", "toSet", "max", "min"]:
        for v in [numbers, List(), List("a"), List(*every_kind)]:
            yield name, v
    for name in ["sort", "toList", "max", "min"]:
        for v in [number_set, Set(), Set(*every_kind)]:
            yield name, v
    yield "toList", names
    yield "toList", Map()
    yield "toList", Map((nested(1998, List, 0), 1))
    yield "toList", Map((Copies(2 ** 23 - 1, 0), Copies(2 ** 23 - 2, 1)))
    yield "dup", List(2, "2", 2, Set(1, 2), Set(2, 1), Tuple(), Tuple())
    for n in [0, 2, 4, 5, -1, LEAST, GREATEST]:
        yield "take", n, numbers
        yield "drop", n, numbers
    for name in ["take", "drop"]:
        yield name, 3, List()
        yield from wrong(name, [0, 1], 1, numbers)
        yield name, -1, Set()
    for x in [3, 2, 10, "3", numbers]:
        yield "indexOf", numbers, x
    yield "indexOf", List(), 1
    yield "indexOf", List(Set(1, 2), Set(2)), Set(2)
    yield from wrong("indexOf", [0], None, 1)
    for v in [numbers, number_set, List(), Set(), List(GREATEST, 1, -1), List(LEAST, -1), List(GREATEST), List(LEAST, GREATEST),
              Set(GREATEST, 1, -1), Set(LEAST, -1), List(1, "a"), Set("a"), List(GREATEST, 1, "a"), Set(1, True)]:
        yield "sum", v
    for v in [numbers, List(), List("a"), List("<", List("<"), Leaf("<"), whole, Tuple(whole), True, Place("p"), Node("f", "")), Copies(4, Tuple())]:
        yield "intercalate", ", é", v
        yield "intercalate", "", v
    yield from wrong("intercalate", [0, 1], ",", numbers)
    yield "intercalate", full, List("")
    yield "intercalate", full, List("", "", "")
    yield "intercalate", Times("a" * 255, 32896), List("", "", "b" * 256)
    for name in ["domain", "range", "carrier", "invert"]:
        for v in [names, Map(), pairs, Set(), Set(Tuple(1, 2, 3)), Set(Tuple(1, 2), 3), List(Tuple(1, 2)), Set(Tuple(1)), Set(Tuple(pairs, 2))]:
            yield name, v
        yield from wrong(name, [0], None)
    for key in [2, 10, "2"]:
        yield "delete", names, key
    yield "delete", Map(), 1
    yield "delete", Map((List(), 1), (Set(), 2)), Set()
    yield from wrong("delete", [0], None, 1)
    for name in ["domainR", "domainX", "rangeR", "rangeX"]:
        for s in [Set(1, 2), Set("a", "c"), Set(), Set(Tuple(1, "a"))]:
            yield name, pairs, s
        yield name, Set(), Set(1)
        yield name, Set(Tuple(1, 2, 3)), Set(1)
        yield from wrong(name, [0, 1], pairs, Set(1))
    for name in ["contains", "startsWith", "endsWith"]:
        for v, x in [(wide, "é€"), (wide, "né"), (wide, "€😀"), (wide, wide), (wide, ""), ("", ""), ("", "a"), ("a", "ab"), ("aab", "ab"), (wide, "😁"), ("aaa", "b")]:
            yield name, v, x
        yield from wrong(name, [0, 1], "ab", "a")
    for s, v in [(",", "a,b"), (",", ",a,,b,"), (",", ""), (",", "ab"), ("aa", "aaaaa"), ("€", wide), (wide, wide), ("", "ab"), ("", ""), ("ab", "aab"), ("\n", "a\nb\t")]:
        yield "split", s, v
        yield "replaceAll", v, s, "<é>"
        yield "replaceAll", v, s, s
        yield "replaceAll", v, s, ""
    yield from wrong("split", [0, 1], "", "")
    yield "split", ",", Times("a" * 254 + ",", 65793)
    yield from wrong("replaceAll", [0, 1, 2], "a", "", "b")
    yield "replaceAll", Times("a" * 16, 2 ** 16), "a", "b" * 16
    yield "replaceAll", full, "a", ""
    yield "replaceAll", full, "a" * 255, "b" * 256
    for v in [" \t\r\na b\n\r\t ", " \n", "", "a", "\u00a0a\u2003", "\x0ba\x0c", " é "]:
        yield "trim", v
    yield from wrong("trim", [0], None)
    for a, b in [(0, 4), (1, 3), (1, 2), (2, 2), (4, 4), (-1, 2), (0, 5), (2, 1), (5, 9), (LEAST, 0), (0, GREATEST), (0, -1)]:
        yield "substring", wide, a, b
    yield "substring", "", 0, 0
    yield from wrong("substring", [0, 1, 2], "a", 5, 0)
    for v in ["0", "-0", "007", "-042", "12", "+1", "", "-", "--1", " 1", "1 ", "1.5", "٣", "0x1", str(LEAST), str(GREATEST), str(LEAST - 1), str(GREATEST + 1), "-" + "0" * 60 + "1"]:
        yield "toInt", v
    yield "toInt", full
    yield from wrong("toInt", [0], None)
    for sort in ["E", "N", "W", "Id", "", "X"]:
        for v in [whole, more, empty_tree, ticks, blank, Tree("O", ""), Tree("K", "N", sort_one, Tree("S", "N"), Tree("S", "N", Tree("L", "N")), sort_one)]:
            yield "spans", v, sort
    yield "spans", nested(1998, lambda v: Tree("S", "E", v), Leaf("")), "E"
    yield "spans", nested(1998, lambda v: Tree("S", "E", v), Leaf("")), "N"
    yield "spans", nested(1700, lambda v: Tree("S", "E", v), Leaf("a" * 10000)), "E"
    yield from wrong("spans", [0, 1], whole, "E")
    for v in [whole, more, empty_tree, ticks, blank, sort_one, Tree("S", "T", Leaf('"<a>\n`'), Leaf(""))]:
        yield "unparse", v
    yield from wrong("unparse", [0], None)
    yield "unparse", whole, 1
    yield "println", 1


def expected(call):
    name, *arguments = call
    if name not in LIBRARY or len(arguments) != len(LIBRARY[name][0]):
        return name + " not read"
    return answer(name, [plain(argument) for argument in arguments])


def main():
    sys.setrecursionlimit(20000)
    folder = Path("crates/cases_library")
    every = list(calls())
    lines = ["\t".join([name] + [word for argument in arguments for word in words(argument)]) for name, *arguments in every]
    (folder / "stdin").write_text("".join(line + "\n" for line in lines))
    (folder / "stdout").write_text("".join(expected(call) + "\n" for call in every))


if __name__ == "__main__":
    main()
