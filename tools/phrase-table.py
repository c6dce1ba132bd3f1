#!/usr/bin/env python3
"""Makes the table of rows of the grammar in crates/rl_phrase_table/specs/Grammar.antt.

Run it at the top of the repository after a change of the grammar, and then `rt fmt` in crates/rl_phrase_table. It writes the rows
(src/rules.rt), and a certificate that no row comes back to itself without a token, which the prover tests. It also numbers the
terminals of crates/rl_tokens in the order in which the rules first write them. The laws of rl_phrase_table say that the rows and
the numbers are those of the grammar.
"""

import re

GRAMMAR = "crates/rl_phrase_table/specs/Grammar.antt"
TERMINALS = "crates/rl_tokens/src/terminal.rt"
TERMINAL_NAMES = "crates/rl_tokens/specs/Terminal.antt"
RULES = "crates/rl_phrase_table/src/rules.rt"
CERTIFICATE = "crates/rl_phrase_table/proofs/Certificate.antt"

CLASSES = {
    "End": "END", "Id": "ID", "UId": "UPPER_ID", "LId": "LOWER_ID", "Int": "INTEGER", "Str": "STRING",
    "StrHead": "STRING_HEAD", "StrMid": "STRING_MIDDLE", "StrTail": "STRING_TAIL", "Loc": "LOCATION",
    "Back": "FRAGMENT", "Class": "CHARACTER_CLASS",
}

# What the rules are called in Rust.
FULL_NAMES = {
    "QName": "QUALIFIED_NAME", "Top": "TOP_LEVEL", "DataDef": "DATA_DEFINITION", "Fun": "FUNCTION", "Global": "GLOBAL",
    "Syntax": "SYNTAX_DEFINITION", "Alt": "ALTERNATIVE", "Assoc": "ASSOCIATIVITY", "Prod": "PRODUCTION", "Sym": "SYMBOL",
    "Near": "ADJOINING", "Rep": "REPETITION", "Atom": "ATOM", "Chars": "CHARACTERS", "Stat": "STATEMENT",
    "Simple": "SIMPLE_STATEMENT", "Rhs": "RIGHT_SIDE", "Conds": "CONDITIONS", "Exp": "EXPRESSION", "Imp": "IMPLICATION",
    "Or": "DISJUNCTION", "And": "CONJUNCTION", "Test": "MATCH", "Cmp": "EQUALITY", "Rel": "COMPARISON", "Add": "SUM",
    "Mul": "PRODUCT", "Com": "COMPOSITION", "Un": "UNARY", "Suf": "SUFFIX", "Sub": "SUBSCRIPT", "Starter": "STARTER",
    "Prim": "PRIMARY", "Arg": "ARGUMENT", "Paren": "PARENTHESIZED", "Elem": "ELEMENT", "Pat": "PATTERN",
    "Plain": "PLAIN_PATTERN", "Star": "PATTERN_ELEMENT", "List": "LIST_EXPRESSION", "Set": "SET_EXPRESSION",
    "Concrete": "CONCRETE", "Visit": "VISIT_EXPRESSION", "Strategy": "VISIT_STRATEGY",
}


# How the rows are written.
ROWS = """// A row is its form, its first part and the number of its parts.
macro_rules! rows {
    ($($form:ident $(($terminal:ident))?, $first:expr, $count:expr;)*) => {
        [$(Rule { form: Form::$form $((terminal::$terminal))?, first: $first, count: $count }),*]
    };
}

"""

WORD = r'word "(?:[^"\\]|\\.)+"'
NAME = r"«?[A-Za-z]+»?"


def constant(rule):
    return FULL_NAMES.get(rule, rule.upper())


class Reader:
    """Reads expressions; an expression is a tuple of its form and its parts, or of its name."""

    def __init__(self, text):
        self.tokens = re.findall(f"{WORD}|{NAME}|[⟶·∕()*+？!∷]|\\[\\]", text)
        self.at = 0

    def peek(self):
        return self.tokens[self.at] if self.at < len(self.tokens) else ""

    def take(self):
        self.at += 1
        return self.tokens[self.at - 1]

    def rules(self):
        rules = {}
        while self.peek() != "[]":
            name = self.take().strip("«»")
            assert self.take() == "⟶" and name not in rules, name
            rules[name] = self.choice()
            assert self.take() == "∷", name
        return rules

    def choice(self):
        parts = [self.sequence()]
        while self.peek() == "∕":
            self.take()
            parts.append(self.sequence())
        return parts[0] if len(parts) == 1 else ("Choice", parts)

    def sequence(self):
        parts = [self.item()]
        while self.peek() == "·":
            self.take()
            parts.append(self.item())
        return parts[0] if len(parts) == 1 else ("Seq", parts)

    def item(self):
        if self.peek() == "!":
            self.take()
            return ("Not", turns(self.item()))
        part = self.primary()
        form = {"*": "Star", "+": "Plus", "？": "Opt"}.get(self.peek())
        if form:
            self.take()
            return (form, turns(part))
        return part

    def primary(self):
        token = self.take()
        if token == "(":
            part = self.choice()
            assert self.take() == ")"
            return part
        if token.startswith('word "'):
            return ("Word", re.sub(r"\\(.)", r"\1", token[6:-1]))
        assert re.fullmatch(NAME, token), token
        return ("Name", token.strip("«»"))


def read_grammar(text):
    """The rules of the lists that `grammar` is made of."""
    text = re.sub(r"^--.*$", "", text, flags=re.M)
    lists = dict(re.findall(r"^(\w+) =\n(.*?\[\])$", text, flags=re.M | re.S))
    rules = {}
    for name in re.search(r"^grammar = (.*)$", text, flags=re.M).group(1).split(" ++ "):
        rules.update(Reader(lists[name]).rules())
    return rules


def turns(part):
    """The parts in turn of a rule, a repetition, an option or a negation."""
    return part[1] if part[0] == "Seq" else [part]


def first_words(part, found):
    if part[0] == "Word" or part[0] == "Name" and part[1] in CLASSES:
        if part[1] not in found:
            found.append(part[1])
    elif part[0] != "Name":
        for inner in part[1]:
            first_words(inner, found)


def number_terminals(found):
    """Numbers the terminals in this order, and gives the name of each."""
    text = open(TERMINALS).read()
    pattern = r"/// (.*)\npub const (\w+): u32 = \d+;\n"
    docs, terminals = {}, {word: name for word, name in CLASSES.items()}
    for doc, name in re.findall(pattern, text):
        docs[name] = doc
        if doc[0] == "`":
            terminals[doc[1:-1]] = name
    last = docs.pop("TERMINALS")
    for word in found:
        assert word in terminals, f"`{word}` has no constant in {TERMINALS}"
    names = [terminals[word] for word in found]
    assert set(names) == set(docs), f"no rule writes {set(docs) - set(names)}"
    lines = [f"/// {docs[name]}\npub const {name}: u32 = {number};\n" for number, name in enumerate(names)]
    lines.append(f"/// {last}\npub const TERMINALS: u32 = {len(names)};\n")
    with open(TERMINALS, "w") as out:
        out.write(re.sub(f"(?:{pattern})+", lambda _: "".join(lines), text, count=1))

    text = open(TERMINAL_NAMES).read()
    codes = ['codes "' + word.replace("\\", "\\\\") + '"' for word in found]
    lines = [" ∷ ".join(codes[first:first + 6]) for first in range(0, len(codes), 6)]
    with open(TERMINAL_NAMES, "w") as out:
        out.write(re.sub(r"^terminals = .*?\[\]$", lambda _: "terminals = " + "\n    ∷ ".join(lines) + " ∷ []", text, flags=re.M | re.S))
    return terminals


def can_be_empty(part, empty):
    form, inner = part
    if form in ("Star", "Opt", "Not"):
        return True
    if form in ("Word", "Name"):
        return form == "Name" and inner in empty
    return (any if form == "Choice" else all)(can_be_empty(p, empty) for p in inner)


def main():
    rules = read_grammar(open(GRAMMAR).read())
    found = []
    for part in rules.values():
        first_words(part, found)
    terminals = number_terminals(found)

    empty = set()
    while True:
        more = {name for name, part in rules.items() if can_be_empty(part, empty)}
        if more == empty:
            break
        empty = more

    rows, empties, starts = [], [], {}

    def lay(parts):
        """Lays parts out, and after them what they are made of."""
        base = len(rows)
        rows.extend([None] * len(parts))
        for i, part in enumerate(parts):
            form, inner = part
            if can_be_empty(part, empty):
                empties.append(base + i)
            if form == "Word" or form == "Name" and inner in CLASSES:
                rows[base + i] = f"Term({terminals[inner]}), 0, 0;"
            elif form == "Name":
                rows[base + i] = f"Link, {constant(inner)}, 0;"
            else:
                rows[base + i] = f"{form}, {len(rows)}, {len(inner)};"
                lay(inner)

    blocks = []
    for name in rules:
        row = len(rows)
        starts[name] = row
        body = turns(rules[name])
        rows.append(f"Named, {row + 1}, {len(body)};")
        if can_be_empty(rules[name], empty):
            empties.append(row)
        lay(body)
        blocks.append((name, row, len(rows)))

    with open(RULES, "w") as out:
        out.write("//! The grammar of modules as a table of rows. `tools/phrase-table.py` makes this file of `specs/Grammar.antt`.\n\n")
        out.write("use rl_phrase::table::{Form, Rule};\nuse rl_tokens::terminal;\n\n")
        out.write(ROWS)
        for name in rules:
            out.write(f"/// `{name}`\npub const {constant(name)}: u32 = {starts[name]};\n")
        out.write("\n/// The rows, with those of each rule behind its own.\n")
        out.write("pub const RULES: &[Rule] = &rows![\n")
        for name, first, last in blocks:
            out.write(f"    // {first}: {name}\n")
            line = "   "
            for row in rows[first:last]:
                if len(line) + 1 + len(row) > 116:
                    out.write(line + "\n")
                    line = "   "
                line += " " + row
            out.write(line + "\n")
        out.write("];\n")

    starts_of = {constant(name): row for name, row in starts.items()}
    ranks = {}

    def rank(row):
        """One more than that of each row with which the row may begin."""
        if row not in ranks:
            form, first, count = rows[row].rstrip(";").split(", ")
            inner = []
            if form == "Link":
                inner = [starts_of[first]]
            elif not form.startswith("Term"):
                for part in range(int(first), int(first) + int(count)):
                    inner.append(part)
                    if form != "Choice" and part not in empties:
                        break
            ranks[row] = 1 + max([rank(part) for part in inner], default=-1)
        return ranks[row]

    with open(CERTIFICATE, "w") as out:
        out.write("-- For each row of the grammar of modules whether it can take nothing, and a number that is greater than those of the rows\n")
        out.write("-- with which it may begin. `tools/phrase-table.py` makes this file of `specs/Grammar.antt`.\n")
        out.write("use Rattle.std.specs.Prelude.{ℕ, List, [], ◌∷◌, Bool, true, false}\n\n")
        out.write("abbrev pub empties : List Bool\nempties = ")
        out.write(" ∷ ".join("true" if row in empties else "false" for row in range(len(rows))) + " ∷ []\n\n")
        out.write("abbrev pub ranks : List ℕ\nranks = ")
        out.write(" ∷ ".join(str(rank(row)) for row in range(len(rows))) + " ∷ []\n")
    print(len(rows), "rows,", len(rules), "rules,", len(empties), "of the rows can be empty")


main()
