"""Random queries over a random table: most are answered, some leave 128 bits, and some are refused by their grammar or their names."""

from .random_tables import DAYS, TEXTS

GREATEST = (1 << 127) - 1
OPERANDS = ["0", "1", "2", "0.5", "1.50", "-1"]
RARE_OPERANDS = [*OPERANDS, "3", "10", "100", "0.001", str((1 << 63) - 1), str(GREATEST)]
SPOILS = ["?", ",", "(", ")", "NOT", "a", "zz", "SELECT", "''", "'", "NULL", "0", "DATE '1900-02-29'", "* 0.000000000000000001", "/ 0", "1" * 40]


class Expressions:
    """Random expressions of a clause: over `columns` inside aggregates, and over the columns in `free` outside them."""

    def __init__(self, rng, columns, free, is_grouped, qualified=0.1):
        self.rng, self.columns, self.free, self.is_grouped, self.qualified = rng, columns, free, is_grouped, qualified

    def chance(self, share):
        return self.rng.random() < share

    def inside(self):
        """The expressions inside an aggregate."""
        return Expressions(self.rng, self.columns, self.columns, False, self.qualified)

    def column(self, *kinds):
        """A column of one of these kinds; None where there is none."""
        names = [it.name for it in self.free if it.kind in kinds]
        return ("t." if self.chance(self.qualified) else "") + self.rng.choice(names) if names else None

    def number(self, depth):
        share = self.rng.random()
        if depth <= 0 or share < 0.3:
            column = self.column("integer", "decimal")
            return column if column and self.chance(0.75) else self.rng.choice(RARE_OPERANDS if self.chance(0.2) else OPERANDS)
        if share < 0.6:
            text = f"{self.number(depth - 1)} {self.rng.choice('+-*')} {self.number(depth - 1)}"
            return text if self.chance(0.5) else f"({text})"
        if share < 0.68:
            return f"({self.number(depth - 1)}) / {self.rng.choice(['2', '-3', '+7', '1'])}"
        if share < 0.74:
            return f"-({self.number(depth - 1)})"
        if share < 0.84:
            return f"COALESCE({', '.join(self.number(depth - 1) for _ in range(self.rng.choice([2, 2, 3])))})"
        return self.aggregate(depth) if self.is_grouped else self.number(depth - 1)

    def aggregate(self, depth):
        share = self.rng.random()
        if share < 0.2:
            return "COUNT(*)"
        if share < 0.4:
            return f"COUNT({self.inside().any(depth - 1)})"
        if self.chance(0.08):
            # A total that leaves 128 bits, or a partial total alone.
            return f"{self.rng.choice(['SUM', 'AVG'])}(({self.inside().number(0)} - 1) * {1 << 125})"
        return f"{self.rng.choice(['SUM', 'MIN', 'MAX', 'AVG'])}({self.inside().number(depth - 1)})"

    def end_of(self, text):
        return f"{self.rng.choice(['MIN', 'MAX'])}({text})"

    def has(self, kind):
        return any(column.kind == kind for column in self.columns)

    def date(self, depth):
        column = self.column("date")
        if column and self.chance(0.6):
            return column
        if depth > 0 and self.chance(0.2):
            return f"COALESCE({self.date(depth - 1)}, {self.date(depth - 1)})"
        if self.is_grouped and depth > 0 and self.has("date") and self.chance(0.3):
            return self.end_of(self.inside().date(depth - 1))
        return f"DATE '{self.rng.choice(DAYS)}'" + self.rng.choice(["", "", " + INTERVAL '1' DAY", " - INTERVAL '60' DAY"])

    def text(self, depth):
        """A text that is no literal; None where there is none."""
        if self.is_grouped and depth > 0 and self.has("text") and self.chance(0.3):
            return self.end_of(self.inside().text(0))
        column = self.column("text")
        if column and depth > 0 and self.chance(0.2):
            return f"COALESCE({column}, {self.text(depth - 1) or column})"
        return column

    def any(self, depth):
        share = self.rng.random()
        if share < 0.6:
            return self.number(depth)
        return self.date(depth) if share < 0.8 else self.text(depth) or self.number(depth)

    def truth(self, depth):
        share = self.rng.random()
        if depth > 0 and share < 0.45:
            text = f"{self.truth(depth - 1)} {self.rng.choice(['AND', 'OR'])} {self.truth(depth - 1)}"
            return text if self.chance(0.6) else f"({text})"
        if depth > 0 and share < 0.55:
            return f"NOT ({self.truth(depth - 1)})"
        return f"NOT {self.predicate(depth)}" if share < 0.6 else self.predicate(depth)

    def text_side(self):
        literal = "'" + self.rng.choice([*TEXTS, "o'k", "aa"]).replace("'", "''") + "'"
        return (self.text(1) if self.chance(0.5) else None) or literal

    def predicate(self, depth):
        share = self.rng.random()
        side = lambda: self.number(min(depth, 2))
        if 0.5 <= share < 0.65:
            side = lambda: self.date(1)
        elif share >= 0.65 and self.has("text"):
            side = self.text_side
        share, negated = self.rng.random(), self.rng.choice(["", "NOT "])
        if share < 0.5:
            return f"{side()} {self.rng.choice(['=', '<>', '<', '<=', '>', '>='])} {side()}"
        if share < 0.65:
            return f"{side()} {negated}BETWEEN {side()} AND {side()}"
        if share < 0.8:
            return f"{side()} {negated}IN ({', '.join(side() for _ in range(self.rng.randint(1, 4)))})"
        return f"{self.any(1)} IS {negated}NULL"


def random_query(rng, columns, other=None):
    """A query over the table t; where another one is given, now and then over both."""
    is_join = other is not None and rng.random() < 0.2
    row = Expressions(rng, columns, columns, False, 1 if is_join else 0.1)
    kind = rng.choices(["rows", "all", "groups", "distinct"], [35, 15, 35, 15])[0]
    group = [rng.choice(columns) for _ in range(rng.randint(1, min(4, len(columns))))] if kind == "groups" else []
    clause = row if kind in ("rows", "distinct") else Expressions(rng, columns, group, True, row.qualified)
    items, free = items_of(rng, kind, columns, clause)
    shown, named = with_names(rng, items, columns)
    text = f"SELECT {'DISTINCT ' if kind == 'distinct' else ''}{', '.join(shown)} FROM {from_clause(rng, columns, other) if is_join else 't'}"
    if rng.random() < 0.4:
        text += f" WHERE {row.truth(rng.choice([0, 1, 2]))}"
    if group:
        text += f" GROUP BY {', '.join(('t.' if is_join else '') + column.name for column in group)}"
        if rng.random() < 0.5:
            text += f" HAVING {clause.truth(rng.choice([0, 1, 2]))}"
    if rng.random() < 0.6:
        text += order_by(rng, len(columns) if items == ["*"] else len(items), named, free)
    return spoiled(rng, text) if rng.random() < 0.07 else text + rng.choice(["", ";", "\n"])


def items_of(rng, kind, columns, clause):
    """The items, and the columns that ORDER BY may name."""
    if kind == "distinct":
        if rng.random() < 0.3 and len(columns) <= 4:
            return ["*"], columns
        taken = [rng.choice(columns) for _ in range(rng.randint(1, 4))]
        return [column.name for column in taken], taken
    if kind == "rows" and rng.random() < 0.2:
        return ["*"], columns
    items = [clause.any(2) for _ in range(rng.randint(1, 5))]
    if kind == "all":
        items.append(clause.aggregate(2))
    return items, clause.free


def with_names(rng, items, columns):
    """The items with other names here and there, and these names."""
    shown, named = [], []
    for place, item in enumerate(items):
        name = rng.choice([None, None, f"x{place}", f"y{place}", rng.choice(columns).name])
        if item == "*" or name is None:
            shown.append(item)
        else:
            shown.append(f"{item} {rng.choice(['AS ', ''])}{name}")
            named.append(name)
    return shown, named


def from_clause(rng, columns, other):
    on = f"t.{rng.choice(columns).name} = u.{rng.choice(other).name}"
    return rng.choice(["t, u", "t CROSS JOIN u v", f"t JOIN u ON {on}", f"u INNER JOIN t ON {on}", "t, t u"])


def order_by(rng, items, named, free):
    """Keys: places of items, their names, and columns."""
    choices = [str(rng.randint(1, items))] + named + [it.name for it in free] + [f"t.{it.name}" for it in free]
    keys = [rng.choice(choices) + rng.choice(["", " ASC", " DESC"]) for _ in range(rng.randint(1, 4 if rng.random() < 0.9 else 8))]
    return f" ORDER BY {', '.join(keys)}"


def spoiled(rng, text):
    """A text with a word dropped, doubled, or with another in its place."""
    words = text.split(" ")
    at = rng.randrange(len(words))
    words[at : at + 1] = rng.choice([[], [words[at]] * 2, [rng.choice(SPOILS)], [words[at], rng.choice(SPOILS)]])
    return " ".join(words)
