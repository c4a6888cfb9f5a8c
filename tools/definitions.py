"""Computes by the definitions of a chapter in `specs/`: so a test compares what the program did with the very text that its contracts
cite. What it knows of the language is what computes: equations of functions over numbers, truth, lists, options and records.

Bytes are `bytes`, another list is a tuple, and a value is a tuple of its constructor's name and its parts."""
import re

TOKEN = re.compile(r"--[^\n]*|\s+|([A-Za-z_][\w.]*|\d+|\[\]|\+\+|[^\s\w])")
NAME = re.compile(r"[A-Za-z_][\w.]*")
WORDS = {"if", "then", "else", "record"}


def joined(one, other):
    both = isinstance(one, bytes) or isinstance(other, bytes)
    return bytes(one) + bytes(other) if both else one + other


def of_two(compute):
    return lambda x: lambda y: compute(x, y)


# What the chapters take from the kit's prelude.
PRELUDE = {
    "true": True,
    "false": False,
    "None": ("None",),
    "Some": lambda x: ("Some", x),
    "not": lambda x: not x,
    "length": len,
    "bytes_eq": of_two(lambda x, y: bytes(x) == bytes(y)),
    "nat_eq": of_two(lambda x, y: x == y),
    "take": of_two(lambda n, xs: xs[:n]),
    "drop": of_two(lambda n, xs: xs[n:]),
    "replicate": of_two(lambda n, x: bytes([x]) * n),
}
OPERATORS = {
    "+": lambda x, y: x + y,
    "-": lambda x, y: max(x - y, 0),
    "++": joined,
    "∷": lambda x, xs: (x, *xs),
}


class Parser:
    """An expression of tokens, as a function of the values that its names have."""

    def __init__(self, text):
        self.tokens = [it for it in TOKEN.findall(text) if it]
        self.at = 0

    def next(self):
        return self.tokens[self.at] if self.at < len(self.tokens) else ""

    def take(self, wanted=None):
        token = self.next()
        if wanted is not None and token != wanted:
            raise ValueError(
                f"{wanted} is missing before {' '.join(self.tokens[self.at : self.at + 6])}"
            )
        self.at += 1
        return token

    def expression(self):
        if self.next() == "if":
            return self.choice()
        first = self.sum()
        if self.next() not in ("∷", "++"):
            return first
        operator, rest = OPERATORS[self.take()], self.expression()
        return lambda names: operator(first(names), rest(names))

    def choice(self):
        self.take("if")
        holds = self.expression()
        self.take("then")
        one = self.expression()
        self.take("else")
        other = self.expression()
        return lambda names: one(names) if holds(names) else other(names)

    def sum(self):
        first = self.application()
        while self.next() in ("+", "-"):
            first = self.both(OPERATORS[self.take()], first, self.application())
        return first

    @staticmethod
    def both(operator, one, other):
        return lambda names: operator(one(names), other(names))

    def application(self):
        function, parts = self.atom(), []
        while (
            self.next() in ("(", "[]")
            or self.next().isdigit()
            or (NAME.fullmatch(self.next()) and self.next() not in WORDS)
        ):
            parts.append(self.atom())

        def value(names):
            found = function(names)
            for part in parts:
                found = found(part(names))
            return found

        return value if parts else function

    def atom(self):
        token = self.take()
        if token == "(":
            inner = self.expression()
            self.take(")")
            return inner
        if token == "record":
            return self.record()
        if token == "[]":
            return lambda names: ()
        if token.isdigit():
            return lambda names: int(token)
        name, *fields = token.split(".")

        def value(names):
            found = names[name]
            for field in fields:
                found = found[field]
            return found

        return value

    def record(self):
        """A record, or one with other values in some fields."""
        base = self.atom() if self.next() != "{" else lambda names: {}
        fields = {}
        self.take("{")
        while self.next() != "}":
            field = self.take()
            self.take("=")
            fields[field] = self.expression()
            if self.next() != "}":
                self.take(";")
        self.take("}")
        return lambda names: base(names) | {field: it(names) for field, it in fields.items()}


def pattern(parser):
    """A parameter of an equation: a function that says which names get which values, or None if it doesn't fit."""
    if parser.next() != "(":
        name = parser.take()
        return (
            lambda value: {name: value}
            if not name[0].isupper()
            else {}
            if value == (name,)
            else None
        )
    parser.take("(")
    constructor, names = parser.take(), []
    while parser.next() != ")":
        names.append(parser.take())
    parser.take(")")
    return lambda value: dict(zip(names, value[1:])) if value[0] == constructor else None


class Equations:
    """The equations of one function. They are parsed as it is called first, since others may have no values but types."""

    def __init__(self, names):
        self.names, self.texts, self.parsed = names, [], None

    def parse(self):
        parsers = [Parser(text) for text in self.texts]
        self.parsed = [([*self.patterns(it)], it.expression()) for it in parsers]

    @staticmethod
    def patterns(parser):
        parser.take()
        while parser.next() != "=":
            yield pattern(parser)
        parser.take("=")

    def __call__(self, value, before=()):
        if self.parsed is None:
            self.parse()
        values = (*before, value)
        if len(values) < len(self.parsed[0][0]):
            return lambda next_value: self(next_value, values)
        for patterns, body in self.parsed:
            found = [fits(it) for fits, it in zip(patterns, values)]
            if None not in found:
                return body(self.names | {name: it for them in found for name, it in them.items()})
        raise ValueError(f"no equation fits {values[0]!r:.100}")


def read(path):
    """The definitions of a chapter: functions of one argument after the other, by their names."""
    text = re.sub(r"--[^\n]*", "", path.read_text())
    names = dict(PRELUDE)
    for statement in re.split(r"\n(?=[^\s}])", text):
        head = NAME.match(statement)
        if (
            head
            and head[0] not in ("use", "pub", "abbrev")
            and "=" in statement
            and not re.match(r"\S+ :", statement)
        ):
            names.setdefault(head[0], Equations(names)).texts.append(statement)
    return names
