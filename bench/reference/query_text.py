"""The grammar of queries: docs/FORMATS.md, "Queries", after SQL-92, 6.5 to 6.14 (expressions), 7.3 to 7.9 (clauses), 8.2 to 8.6 and 8.12
(predicates and conditions), and 13.1 (ORDER BY). Each form of the tree has the byte at which its kinds are refused.
"""

import re
from dataclasses import dataclass, field

from .tables import day_of
from .tokens import Reader, Refuse

MOST_TOKENS = 2048
FIRST_DAY, LAST_DAY = day_of(b"0001-01-01"), day_of(b"9999-12-31")
COMPARISONS = ("=", "<>", "<", "<=", ">", ">=")
AGGREGATES = ("count", "sum", "min", "max", "avg")


@dataclass
class Number:
    at: int
    units: int
    scale: int


@dataclass
class Literal:
    """A text, or a date by its day number."""

    at: int
    kind: str
    value: object


@dataclass
class Name:
    """A column; `table` is the name before its point, or None. `column_at` is the byte of the column's own name."""

    at: int
    table: str
    column_at: int
    column: str


@dataclass
class Signed:
    at: int
    sign: str
    of: object


@dataclass
class Binary:
    """An operator of two operands: arithmetic, a comparison, AND or OR."""

    at: int
    operator: str
    left: object
    right: object


@dataclass
class Divide:
    at: int
    of: object
    divisor_at: int
    divisor: int


@dataclass
class Not:
    at: int
    of: object


@dataclass
class IsNull:
    at: int
    of: object
    is_negated: bool


@dataclass
class Between:
    at: int
    of: object
    ends: list
    is_negated: bool


@dataclass
class In:
    at: int
    of: object
    items: list
    is_negated: bool


@dataclass
class Coalesce:
    at: int
    of: list


@dataclass
class Aggregate:
    """COUNT, SUM, MIN, MAX or AVG; `of` is None in COUNT(*)."""

    at: int
    name: str
    of: object


@dataclass
class Source:
    """A table of FROM: its name and its other name, as tokens, and the columns of ON with the place of the sign between them."""

    name: object
    alias: object
    on: tuple = None


@dataclass
class Query:
    """A query as it is written. A `star` is the byte of a list that is `*`. An item is its first byte, its expression and its other name;
    a condition is its first byte and its expression; a key is its first byte, a column or an item's place, and whether it descends."""

    distinct_at: int = None
    star: int = None
    items: list = field(default_factory=list)
    sources: list = field(default_factory=list)
    where: tuple = None
    group: list = field(default_factory=list)
    having: tuple = None
    order: list = field(default_factory=list)


def read_query(text):
    reader, query = Reader(text, MOST_TOKENS), Query()
    reader.word("select")
    distinct = reader.try_word("distinct")
    query.distinct_at = distinct.at if distinct else None
    if reader.stands("sign", "*"):
        query.star = reader.take().at
    else:
        query.items = some(reader, item)
    reader.word("from")
    query.sources = sources(reader)
    if reader.try_word("where"):
        query.where = condition(reader)
    if reader.try_word("group"):
        reader.word("by")
        query.group = some(reader, column)
        if reader.try_word("having"):
            query.having = condition(reader)
    if reader.try_word("order"):
        reader.word("by")
        query.order = some(reader, key)
    reader.try_sign(";")
    reader.end()
    return query


def some(reader, part):
    """One or more, with commas between them."""
    found = [part(reader)]
    while reader.try_sign(","):
        found.append(part(reader))
    return found


def alias(reader):
    """The other name of a table or an item, with or without AS; None where there is none."""
    return reader.name() if reader.try_word("as") or reader.is_name() else None


def item(reader):
    at = reader.look().at
    it = expression(reader)
    other = alias(reader)
    return at, it, other.value if other else None


def sources(reader):
    found = [Source(reader.name(), alias(reader))]
    while True:
        if reader.try_sign(","):
            found.append(Source(reader.name(), alias(reader)))
        elif reader.try_word("cross"):
            reader.word("join")
            found.append(Source(reader.name(), alias(reader)))
        elif reader.stands("word", "inner", "join"):
            reader.try_word("inner")
            reader.word("join")
            added = Source(reader.name(), alias(reader))
            reader.word("on")
            left, sign, right = column(reader), reader.sign("="), column(reader)
            added.on = (left, sign.at, right)
            found.append(added)
        else:
            return found


def condition(reader):
    return reader.look().at, expression(reader)


def column(reader):
    first = reader.name()
    if reader.try_sign("."):
        second = reader.name()
        return Name(first.at, first.value, second.at, second.value)
    return Name(first.at, None, first.at, first.value)


def key(reader):
    token = reader.look()
    of = reader.take().value if token.form == "integer" else column(reader)
    if reader.try_word("desc"):
        return token.at, of, True
    reader.try_word("asc")
    return token.at, of, False


def expression(reader):
    it = conjunction(reader)
    while reader.stands("word", "or"):
        it = Binary(reader.take().at, "or", it, conjunction(reader))
    return it


def conjunction(reader):
    it = negation(reader)
    while reader.stands("word", "and"):
        it = Binary(reader.take().at, "and", it, negation(reader))
    return it


def negation(reader):
    places = []
    while reader.stands("word", "not"):
        places.append(reader.take().at)
        reader.open(places[-1])
    it = predicate(reader)
    reader.close(len(places))
    for at in reversed(places):
        it = Not(at, it)
    return it


def predicate(reader):
    left = total(reader)
    if reader.stands("sign", *COMPARISONS):
        sign = reader.take()
        return Binary(sign.at, sign.value, left, total(reader))
    word = reader.try_word("is")
    if word:
        is_negated = bool(reader.try_word("not"))
        reader.word("null")
        return IsNull(word.at, left, is_negated)
    is_negated = bool(reader.try_word("not"))
    word = reader.try_word("between", "in")
    if word is None:
        return reader.unexpected() if is_negated else left
    if word.value == "between":
        low = total(reader)
        reader.word("and")
        return Between(word.at, left, [low, total(reader)], is_negated)
    return In(word.at, left, enclosed(reader, lambda: some(reader, total)), is_negated)


def enclosed(reader, part):
    """What stands between parentheses."""
    reader.open(reader.sign("(").at)
    it = part()
    reader.sign(")")
    reader.close()
    return it


def total(reader):
    it = term(reader)
    while reader.stands("sign", "+", "-"):
        sign = reader.take()
        it = Binary(sign.at, sign.value, it, term(reader))
    return it


def term(reader):
    it = factor(reader)
    while reader.stands("sign", "*", "/"):
        sign = reader.take()
        if sign.value == "*":
            it = Binary(sign.at, "*", it, factor(reader))
        else:
            before = reader.try_sign("+", "-")
            divisor = reader.integer()
            it = Divide(sign.at, it, divisor.at, -divisor.value if before and before.value == "-" else divisor.value)
    return it


def factor(reader):
    if not reader.stands("sign", "+", "-"):
        return atom(reader)
    sign = reader.take()
    reader.open(sign.at)
    it = Signed(sign.at, sign.value, atom(reader))
    reader.close()
    return it


def atom(reader):
    token = reader.look()
    if token.form == "integer":
        return Number(token.at, reader.take().value, 0)
    if token.form == "decimal":
        return Number(token.at, *reader.take().value)
    if token.form == "text":
        return Literal(token.at, "text", reader.take().value)
    if reader.stands("sign", "("):
        return enclosed(reader, lambda: expression(reader))
    if reader.stands("word", "date"):
        return date(reader)
    if reader.stands("word", "coalesce"):
        at = reader.take().at
        return Coalesce(at, enclosed(reader, lambda: several(reader)))
    if reader.stands("word", *AGGREGATES):
        return aggregate(reader)
    return column(reader)


def several(reader):
    """Two or more expressions, with commas between them."""
    first = expression(reader)
    reader.sign(",")
    return [first, *some(reader, expression)]


def aggregate(reader):
    word = reader.take()
    is_count = word.value == "count"
    of = enclosed(reader, lambda: None if is_count and reader.try_sign("*") else expression(reader))
    return Aggregate(word.at, word.value, of)


def date(reader):
    """A date and its steps by days. A sign behind it belongs to it exactly where INTERVAL follows; each step has to stay in the range of dates."""
    at = reader.take().at
    literal = reader.text()
    day = day_of(literal.value)
    if day is None:
        raise Refuse(literal.at, "DateRange")
    while reader.interval_follows():
        sign = reader.take()
        reader.word("interval")
        step = reader.text()
        if not re.fullmatch(rb"[+-]?[0-9]{1,7}", step.value):
            raise Refuse(step.at, "BadToken")
        reader.word("day")
        day += int(step.value) if sign.value == "+" else -int(step.value)
        if not FIRST_DAY <= day <= LAST_DAY:
            raise Refuse(sign.at, "DateRange")
    return Literal(at, "date", day)
