"""A program of the algebra as text, and its check: docs/FORMATS.md, "Programs of the algebra", after the Voodoo paper (PVLDB 9(14), 2016), 2 and 3.

A statement is its operator, the name of what it makes, and its arguments. What an operator takes is a word with a letter for each argument:

| letter | argument |
|---|---|
| N | a vector's name |
| P | a path, as a tuple of its segments |
| S | a size: a vector's name or a number |
| O | an operand: a pair of a vector's name and a path, or a number |
| C | the start of a Range |
| T | its step, modulus or divisor |
| H | the number of a BitShift |
| K | the keys of an Order, each a sign and a path |

No random program has 65,537 statements: that limit is left out.
"""

import re
from dataclasses import dataclass

from .tokens import first_bad_byte
from .values import GREATEST, LEAST

FORMS = {
    "Load": "N", "Range": "SPCTTT", "Cross": "NPNP", "Zip": "NN", "Project": "NPP", "Upsert": "NPNP", "Gather": "NNP", "Scatter": "NSNP",
    "Bucket": "NPNPP", "Partition": "NPNPP", "Materialize": "N", "Break": "N", "FoldSum": "NPPP", "FoldMin": "NPPP", "FoldMax": "NPPP",
    "FoldSelect": "NPPP", "FoldScan": "NPPP", "Order": "NPPK", "BitShift": "OHP", "Add": "OOP", "Subtract": "OOP", "Multiply": "OOP",
    "Divide": "OOP", "Modulo": "OOP", "Greater": "OOP", "Equals": "OOP", "LogicalAnd": "OOP", "LogicalOr": "OOP", "Fill": "OOP",
}  # fmt: skip
RANGES = {
    "S": (0, (1 << 32) - 1),
    "C": (-(1 << 63), (1 << 63) - 1),
    "T": (0, (1 << 64) - 1),
    "H": (-127, 127),
    "O": (LEAST, GREATEST),
}
TOKEN = re.compile(rb"(?P<name>[A-Za-z_][A-Za-z0-9_]*)|(?P<path>(?:\.[A-Za-z_][A-Za-z0-9_]*)+|\.)|(?P<number>-?[0-9]+)|(?P<sign>[=(),+-])")
BLANKS = re.compile(rb"[ \t\r]*(?:#.*)?", re.DOTALL)
LONGEST_NAME, DEEPEST_PATH, MOST_KEYS = 64, 8, 16


class BadProgram(Exception):
    """A program is refused at a line."""

    def __init__(self, line, kind):
        super().__init__(line, kind)
        self.line, self.kind = line, kind


@dataclass
class Statement:
    """A Persist makes no vector: its name is the result's, and its argument the vector's."""

    line: int
    operator: str
    name: str
    arguments: list

    def mentioned(self):
        """The vectors that it mentions, in order. The name in a Load is that of a table."""
        if self.operator == "Load":
            return []
        if self.operator == "Persist":
            return list(self.arguments)
        found = []
        for letter, argument in zip(FORMS[self.operator], self.arguments):
            if letter in "NS" and isinstance(argument, str):
                found.append(argument)
            elif letter == "O" and isinstance(argument, tuple):
                found.append(argument[0])
        return found


def tokens_of(text):
    """The tokens of a line up to the first that is none: each its form, its value, where it begins and where it ends."""
    found, at = [], BLANKS.match(text).end()
    while at < len(text):
        token = TOKEN.match(text, at)
        if token is None:
            return [*found, ("bad", None, at, at)]
        form, value = token.lastgroup, token.group().decode()
        segments = [it for it in value.split(".") if it] if form == "path" else [value] if form == "name" else []
        if len(segments) > DEEPEST_PATH or any(len(segment) > LONGEST_NAME for segment in segments):
            return [*found, ("bad", None, at, at)]
        values = {"name": value, "path": tuple(segments), "number": int(value) if form == "number" else None, "sign": value}
        found.append((form, values[form], at, token.end()))
        at = BLANKS.match(text, token.end()).end()
    return found


class Line:
    """A line's tokens, taken from the front. A line that goes on as none can is Unexpected."""

    def __init__(self, number, tokens):
        self.number, self.tokens, self.place = number, tokens, 0

    def refuse(self, kind):
        raise BadProgram(self.number, kind)

    def look(self):
        token = self.tokens[self.place] if self.place < len(self.tokens) else ("end", None, None, None)
        if token[0] == "bad":
            self.refuse("BadToken")
        return token

    def stands(self, form, *values):
        token = self.look()
        return token[0] == form and (not values or token[1] in values)

    def take(self, form, *values):
        if not self.stands(form, *values):
            self.refuse("Unexpected")
        self.place += 1
        return self.tokens[self.place - 1]

    def end(self):
        if not self.stands("end"):
            self.refuse("Unexpected")

    def number_of(self, letter):
        number = self.take("number")[1]
        least, greatest = RANGES[letter]
        if not least <= number <= greatest:
            self.refuse("BadNumber")
        return number

    def argument(self, letter):
        if letter == "N":
            return self.take("name")[1]
        if letter == "P":
            return self.take("path")[1]
        if letter == "S" and self.stands("name"):
            return self.take("name")[1]
        if letter == "O" and self.stands("name"):
            name = self.take("name")
            # A path directly behind the name.
            if not self.stands("path") or self.look()[2] != name[3]:
                self.refuse("Unexpected")
            return name[1], self.take("path")[1]
        return self.number_of(letter)

    def keys(self):
        found = []
        while self.stands("sign", ","):
            self.take("sign", ",")
            found.append((self.take("sign", "+", "-")[1], self.take("path")[1]))
        return found


def read_statement(line):
    name = line.take("name")[1]
    if name == "Persist" and line.stands("sign", "("):
        line.take("sign", "(")
        result = line.take("name")[1]
        line.take("sign", ",")
        vector = line.take("name")[1]
        line.take("sign", ")")
        line.end()
        return Statement(line.number, "Persist", result, [vector])
    line.take("sign", "=")
    operator = line.take("name")[1]
    if operator not in FORMS:
        line.refuse("Unexpected")
    line.take("sign", "(")
    arguments = []
    for place, letter in enumerate(FORMS[operator]):
        if letter == "K":
            arguments.append(line.keys())
            continue
        if place:
            line.take("sign", ",")
        arguments.append(line.argument(letter))
    line.take("sign", ")")
    line.end()
    if operator == "Range" and not is_admissible(*arguments[2:]):
        line.refuse("NotAdmissible")
    return Statement(line.number, operator, name, arguments)


def is_admissible(start, step, modulus, divisor):
    """The four numbers of a control vector."""
    return -(1 << 62) <= start <= 1 << 62 and step <= 1 << 31 and modulus <= 1 << 31 and 1 <= divisor <= 1 << 31


def read_program(text):
    if first_bad_byte(text) is not None:
        raise BadProgram(1, "NotText")
    lines = [Line(number, tokens_of(line)) for number, line in enumerate(text.split(b"\n"), 1)]
    return [read_statement(line) for line in lines if line.tokens]


def below(paths, path):
    """The paths at or below a path."""
    return [it for it in paths if it[: len(path)] == path]


class Check:
    """The paths of each vector so far. Within a statement what is wrong comes in the order of the page's table."""

    def __init__(self, tables):
        self.tables = {table.name: [(column.name,) for column in table.columns] for table in tables}
        self.paths, self.results = {}, set()

    def statement(self, it):
        refuse = lambda kind: BadProgram(it.line, kind)
        if any(name not in self.paths for name in it.mentioned()) or (it.operator == "Load" and it.arguments[0] not in self.tables):
            raise refuse("UnknownName")
        if it.operator == "Persist":
            if it.name in self.results:
                raise refuse("NameTwice")
            self.results.add(it.name)
            return
        if not all(self.has(*read) for read in reads(it)):
            raise refuse("NoSuchPath")
        if FORMS[it.operator][0] == "O" and not it.mentioned():
            raise refuse("NoLength")
        paths = self.made(it)
        if () in paths or any(len(below(paths, path)) > 1 for path in paths):
            raise refuse("PathClash")
        if any(len(path) > DEEPEST_PATH for path in paths):
            raise refuse("TooDeep")
        if it.operator == "Order" and len(it.arguments[3]) > MOST_KEYS:
            raise refuse("TooManyKeys")
        if it.name in self.paths:
            raise refuse("NameTwice")
        self.paths[it.name] = paths

    def has(self, name, path, is_run):
        return bool(below(self.paths[name], path)) if is_run else path in self.paths[name]

    def made(self, it):
        """The paths of what a statement makes, in the order in which they come about."""
        of, given = it.operator, it.arguments
        if of == "Load":
            return list(self.tables[given[0]])
        if of in ("Materialize", "Break", "Gather", "Scatter"):
            return list(self.paths[given[0]])
        if of == "Zip":
            return self.paths[given[0]] + self.paths[given[1]]
        if of == "Range":
            return [given[1]]
        if of == "Cross":
            return [given[1], given[3]]
        if of == "Project":
            return [given[2] + path[len(given[1]) :] for path in below(self.paths[given[0]], given[1])]
        if of == "Upsert":
            gone = below(self.paths[given[0]], given[1])
            return [path for path in self.paths[given[0]] if path not in gone] + [given[1]]
        return [given[2]] if of == "Order" else [given[-1]]


def reads(it):
    """The attributes that a statement reads: a vector's name, a path, and whether anything at or below it will do."""
    of, given = it.operator, it.arguments
    if of == "Project":
        return [(given[0], given[1], True)]
    if of in ("Gather",):
        return [(given[1], given[2], False)]
    if of in ("Upsert", "Scatter"):
        return [(given[2], given[3], False)]
    if of in ("Bucket", "Partition"):
        return [(given[0], given[1], False), (given[2], given[3], False)]
    if of == "Order":
        return [(given[0], path, False) for path in [given[1], *[path for _, path in given[3]]]]
    if of.startswith("Fold"):
        return [(given[0], given[1], False), (given[0], given[2], True)]
    if FORMS[of][0] == "O":
        return [(*operand, False) for operand in given[:2] if isinstance(operand, tuple)]
    return []


def check(statements, tables):
    """Refuses the first statement that is wrong; a program without a Persist at line 0."""
    checked = Check(tables)
    for it in statements:
        checked.statement(it)
    if not checked.results:
        raise BadProgram(0, "NoPersist")
