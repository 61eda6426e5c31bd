"""A schema's text and its catalog: docs/FORMATS.md, "The schema's text" and "The schema's catalog", after SQL-92, 6.1, 11.3 and 11.4."""

from dataclasses import dataclass, field

from .tokens import Reader, Refuse

MOST_TOKENS = 16384
MOST_TABLES, MOST_COLUMNS = 16, 64
WIDEST_TEXT, MOST_DIGITS = 255, 18
# What is wrong at one byte comes in this order.
KINDS = ["TableTwice", "ColumnTwice", "TwoKeys", "KeyUnknown", "BadWidth", "TooManyTables", "TooManyColumns"]


@dataclass
class ColumnPart:
    """A column as it is written: its name, its kind, the numbers of its type, the places of PRIMARY behind it."""

    name: object
    kind: str
    numbers: list
    not_null: bool = False
    keys: list = field(default_factory=list)


@dataclass
class KeyPart:
    """A key of its own: the place of PRIMARY, and the name of its column."""

    at: int
    name: object


@dataclass
class Column:
    """A column of a table: its kind is integer, date, text or decimal. A text has a width, a decimal its digits as its width, and a scale."""

    name: str
    kind: str
    width: int
    scale: int
    not_null: bool


@dataclass
class Table:
    name: str
    columns: list
    key: str


def read_schema(text):
    """The tables as they are written: each a name and its parts. create {";" create} [";"], or nothing."""
    reader, tables = Reader(text, MOST_TOKENS), []
    if reader.stands("end"):
        return tables
    while True:
        tables.append(read_table(reader))
        if not reader.try_sign(";"):
            reader.end()
            return tables
        if reader.stands("end"):
            return tables


def read_table(reader):
    reader.word("create")
    reader.word("table")
    name = reader.name()
    reader.sign("(")
    parts = [read_part(reader)]
    while reader.try_sign(","):
        parts.append(read_part(reader))
    reader.sign(")")
    return name, parts


def read_part(reader):
    primary = reader.try_word("primary")
    if primary:
        reader.word("key")
        reader.sign("(")
        name = reader.name()
        reader.sign(")")
        return KeyPart(primary.at, name)
    column = ColumnPart(reader.name(), *read_type(reader))
    while reader.stands("word", "not", "primary"):
        word = reader.take()
        if word.value == "not":
            reader.word("null")
            column.not_null = True
        else:
            reader.word("key")
            column.keys.append(word.at)
    return column


def read_type(reader):
    """The kind of a type and its numbers. CHAR alone is one byte wide, as if a 1 stood at its word."""
    word = reader.word("integer", "int", "bigint", "date", "char", "varchar", "decimal")
    if word.value in ("integer", "int", "bigint"):
        return "integer", []
    if word.value == "date":
        return "date", []
    if word.value == "char" and not reader.stands("sign", "("):
        return "text", [type(word)(word.at, "integer", 1)]
    reader.sign("(")
    numbers = [reader.integer()]
    if word.value == "decimal" and reader.try_sign(","):
        numbers.append(reader.integer())
    reader.sign(")")
    return "decimal" if word.value == "decimal" else "text", numbers


def catalog(tables):
    """The tables as they are defined, where nothing is wrong; else the refusal at the least byte, and of these the first kind."""
    wrong, names = [], set()
    for place, (name, parts) in enumerate(tables):
        if name.value in names:
            wrong.append((name.at, "TableTwice"))
        names.add(name.value)
        if place == MOST_TABLES:
            wrong.append((name.at, "TooManyTables"))
        wrong += wrong_parts(parts)
    if wrong:
        raise Refuse(*min(wrong, key=lambda it: (it[0], KINDS.index(it[1]))))
    return [defined(name.value, parts) for name, parts in tables]


def wrong_parts(parts):
    columns = [part for part in parts if isinstance(part, ColumnPart)]
    keys = [part for part in parts if isinstance(part, KeyPart)]
    names = set()
    for place, column in enumerate(columns):
        if column.name.value in names:
            yield column.name.at, "ColumnTwice"
        names.add(column.name.value)
        if place == MOST_COLUMNS:
            yield column.name.at, "TooManyColumns"
        number = wrong_number(column)
        if number:
            yield number.at, "BadWidth"
    for key in keys:
        if key.name.value not in names:
            yield key.name.at, "KeyUnknown"
    places = sorted([key.at for key in keys] + [at for column in columns for at in column.keys])
    if len(places) > 1:
        yield places[1], "TwoKeys"


def wrong_number(column):
    """The first number of a type that is out of its range."""
    if column.kind == "text":
        return None if 1 <= column.numbers[0].value <= WIDEST_TEXT else column.numbers[0]
    if column.kind == "decimal":
        if not 1 <= column.numbers[0].value <= MOST_DIGITS:
            return column.numbers[0]
        if len(column.numbers) > 1 and column.numbers[1].value > column.numbers[0].value:
            return column.numbers[1]
    return None


def defined(name, parts):
    """A table in which nothing is wrong. A key makes its column NOT NULL, wherever it stands."""
    keys = [part.name.value for part in parts if isinstance(part, KeyPart)]
    keys += [part.name.value for part in parts if isinstance(part, ColumnPart) and part.keys]
    columns = []
    for part in parts:
        if isinstance(part, ColumnPart):
            width, scale = ([number.value for number in part.numbers] + [0, 0])[:2]
            columns.append(Column(part.name.value, part.kind, width, scale, part.not_null or part.name.value in keys))
    return Table(name, columns, keys[0] if keys else None)
