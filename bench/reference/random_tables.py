"""Random schemas and tables. Values are few and near one another, so that rows meet in groups, in comparisons and at the ends of what a number may be."""

from dataclasses import dataclass

NAMES = ["a", "b", "c", "d", "e", "f"]
TEXTS = ["", "a", "b", "ab", "B", "o'k", "x,y", "zz", "é", 'q"q']
DAYS = ["2000-02-29", "1999-12-31", "0001-01-01", "9999-12-31", "2000-03-01"]
WIDTH = 5


@dataclass
class Column:
    """A column of a random table: its kind is integer, decimal, date or text."""

    name: str
    kind: str
    digits: int
    scale: int
    may_be_null: bool
    is_key: bool = False

    def written(self):
        kinds = {"integer": "INTEGER", "date": "DATE", "text": f"VARCHAR({WIDTH})", "decimal": f"DECIMAL({self.digits}, {self.scale})"}
        return f"{self.name} {kinds[self.kind]}{' PRIMARY KEY' if self.is_key else '' if self.may_be_null else ' NOT NULL'}"


@dataclass
class RandomTable:
    """A table: its definition, its file, and how many rows stand in it."""

    name: str
    columns: list
    create: str
    file: str
    rows: int


def random_column(rng, name):
    digits = rng.randint(1, 18 if rng.random() < 0.2 else 5)
    kind = rng.choice(["integer", "integer", "integer", "decimal", "date", "text"])
    return Column(name, kind, digits, rng.randint(0, digits), rng.random() < 0.6)


def integer(rng):
    small = [0, 1, 2, -1, 3]
    return str(rng.choice([*small, 5, -7, 10, (1 << 63) - 1, -(1 << 63)] if rng.random() < 0.3 else small))


def decimal(rng, digits, scale):
    most = 10**digits - 1
    units = max(-most, min(most, rng.choice([0, 1, -1, 5, 10, 15, 150, -250, most])))
    text = str(abs(units)).rjust(scale + 1, "0")
    # Zeros behind the scale are free; now and then a digit stands there that is not.
    more = rng.choices(["", "0", "00", "05"], [95, 2, 2, 0.3])[0]
    point = "." if scale or more else ""
    return ("-" if units < 0 else "") + text[: len(text) - scale] + point + text[len(text) - scale :] + more


def field(rng, column, is_alone):
    """A field as it is written. Where a record has one field alone a null is two quotes, since an empty line is no record."""
    if column.may_be_null and not column.is_key and rng.random() < 0.3:
        return '""' if is_alone else ""
    if column.kind == "integer":
        return integer(rng)
    if column.kind == "decimal":
        return decimal(rng, column.digits, column.scale)
    if column.kind == "date":
        return rng.choice(DAYS)
    text = rng.choice(TEXTS)
    return '"' + text.replace('"', '""') + '"' if text == "" or any(sign in text for sign in ',"') else text


def random_table(rng, name):
    columns = [random_column(rng, it) for it in NAMES[: rng.randint(1, len(NAMES))]]
    key = columns[0] if rng.random() < 0.2 else None
    if key:
        key.kind, key.is_key = "integer", True
    rows = []
    for _ in range(rng.choice([0, 1, 3, 5, 8, 12, 12])):
        rows.append([field(rng, column, len(columns) == 1) for column in columns])
        if rng.random() < 0.3:
            rows.append(list(rng.choice(rows)))
    if key:
        for row, value in zip(rows, rng.sample(range(-3, 30), len(rows))):
            row[0] = str(value)
    create = f"CREATE TABLE {name} ({', '.join(column.written() for column in columns)});\n"
    lines = [[column.name for column in columns], *rows]
    return RandomTable(name, columns, create, "".join(",".join(line) + "\n" for line in lines), len(rows))
