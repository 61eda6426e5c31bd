"""What the names of a query mean, and its kinds: docs/FORMATS.md, "What its names mean", after SQL-92, 6.4 (columns), 7.3 to 7.9 and 13.1.

An expression becomes a Typed: its kind (number, date, text, truth), its scale, and a function that gives its value of a row and of a group of rows.
A row of FROM is a tuple that has a row of each source.
"""

import dataclasses
from dataclasses import dataclass, field

from . import values
from .query_text import Aggregate, Between, Binary, Coalesce, Divide, In, IsNull, Literal, Name, Not, Number, Signed
from .tokens import Refuse

MOST_SOURCES, MOST_ITEMS, MOST_GROUP_COLUMNS, MOST_KEYS, MOST_SCALE = 8, 64, 4, 8, 36


@dataclass
class Typed:
    kind: str
    scale: int
    of: object


@dataclass
class TypedQuery:
    """The keys are each a function of the items' values, the row and the group, and whether the key descends."""

    tables: list
    is_grouped: bool = False
    where: object = None
    group: list = field(default_factory=list)
    items: list = field(default_factory=list)
    names: list = field(default_factory=list)
    having: object = None
    aggregates: list = field(default_factory=list)
    order: list = field(default_factory=list)


def has_aggregate(it):
    if isinstance(it, Aggregate):
        return True
    if isinstance(it, (list, tuple)):
        return any(has_aggregate(part) for part in it)
    return dataclasses.is_dataclass(it) and any(has_aggregate(part) for part in vars(it).values())


def type_query(query, tables):
    """FROM from left to right, then WHERE, GROUP BY or DISTINCT, the items, HAVING and ORDER BY; the first refusal is the answer."""
    scope = Scope()
    for place, source in enumerate(query.sources):
        scope.add(place, source, tables)
    typed = TypedQuery([table for _, table in scope.sources])
    typed.is_grouped = bool(query.group) or query.distinct_at is not None or has_aggregate(query.items)
    typed.where = scope.condition(query.where)
    star = [] if query.star is None else every_column(query.star, scope)
    columns = distinct_columns(query, star) if query.distinct_at is not None else query.group
    for place, column in enumerate(columns):
        if place == MOST_GROUP_COLUMNS:
            raise Refuse(column.at, "TooManyKeys")
        scope.group.append(scope.find(column))
    typed.group = list(scope.group)
    scope.is_grouped = typed.is_grouped
    type_items(typed, scope, [(query.star, column, None) for column in star] or query.items)
    typed.having = scope.condition(query.having)
    typed.aggregates = scope.aggregates
    for place, (at, of, descends) in enumerate(query.order):
        if place == MOST_KEYS:
            raise Refuse(at, "TooManyKeys")
        typed.order.append((type_key(typed, scope, at, of), descends))
    return typed


def every_column(at, scope):
    return [Name(at, called, at, column.name) for called, table in scope.sources for column in table.columns]


def distinct_columns(query, star):
    """The group columns of DISTINCT: its items, which have to be columns, and beside which there is no GROUP BY."""
    if query.group or not all(isinstance(it, Name) for _, it, _ in query.items):
        raise Refuse(query.distinct_at, "NotColumns")
    return star or [it for _, it, _ in query.items]


def type_items(typed, scope, items):
    for place, (at, it, alias) in enumerate(items):
        if place == MOST_ITEMS:
            raise Refuse(at, "TooManyItems")
        item = scope.typed(it)
        if item.kind == "truth":
            raise Refuse(at, "TypesDiffer")
        typed.items.append(item)
        typed.names.append(alias or (it.column if isinstance(it, Name) else f"c{place + 1}"))


def type_key(typed, scope, at, of):
    """A key of ORDER BY: an item by its place or its output name, or a column."""
    if isinstance(of, int):
        if not 1 <= of <= len(typed.items):
            raise Refuse(at, "UnknownColumn")
        return lambda items, row, group: items[of - 1]
    named = [place for place, name in enumerate(typed.names) if of.table is None and name == of.column]
    if len(named) > 1:
        raise Refuse(at, "Ambiguous")
    if named:
        return lambda items, row, group: items[named[0]]
    column = scope.typed(of)
    return lambda items, row, group: column.of(row, group)


class Scope:
    """The sources of FROM by the names that they are called, and in which clause an expression stands."""

    def __init__(self):
        self.sources, self.is_grouped, self.group, self.aggregates, self.in_aggregate = [], False, [], [], False

    def add(self, place, source, tables):
        if place == MOST_SOURCES:
            raise Refuse(source.name.at, "TooManyTables")
        table = next((it for it in tables if it.name == source.name.value), None)
        if table is None:
            raise Refuse(source.name.at, "UnknownTable")
        called = source.alias or source.name
        if called.value in [name for name, _ in self.sources]:
            raise Refuse(called.at, "NameTwice")
        self.sources.append((called.value, table))
        if source.on:
            self.check_join(place, table, *source.on)

    def check_join(self, place, table, left, at, right):
        """One side of ON is the added table's key, the other a column to its left of one kind, and of one scale where they are numbers."""
        found = [self.find(left), self.find(right)]
        if (found[0][0] == place) == (found[1][0] == place):
            raise Refuse(at, "TypesDiffer")
        kinds = [self.column_type(*it) for it in found]
        if kinds[0] != kinds[1]:
            raise Refuse(at, "TypesDiffer")
        name = left if found[0][0] == place else right
        if name.column != table.key:
            raise Refuse(name.at, "NotAKey")

    def find(self, name):
        """The places of a column's source and of the column in it."""
        seen = [place for place, (called, _) in enumerate(self.sources) if name.table in (None, called)]
        if not seen:
            raise Refuse(name.at, "UnknownTable")
        found = []
        for place in seen:
            found += [(place, at) for at, column in enumerate(self.sources[place][1].columns) if column.name == name.column]
        if not found:
            raise Refuse(name.column_at, "UnknownColumn")
        if len(found) > 1:
            raise Refuse(name.at, "Ambiguous")
        return found[0]

    def column_type(self, place, at):
        column = self.sources[place][1].columns[at]
        return ("number" if column.kind in ("integer", "decimal") else column.kind), (column.scale if column.kind == "decimal" else 0)

    def condition(self, given):
        """The function of a condition, which is a truth; None where there is no condition."""
        if given is None:
            return None
        at, it = given
        typed = self.typed(it)
        if typed.kind != "truth":
            raise Refuse(at, "TypesDiffer")
        return typed.of

    def typed(self, it):
        return getattr(self, f"of_{type(it).__name__}")(it)

    def side(self, it):
        """A side of a comparison, where texts may stand."""
        if isinstance(it, Literal) and it.kind == "text":
            return Typed("text", 0, lambda row, group: it.value)
        return self.typed(it)

    def of_Number(self, it):
        return Typed("number", it.scale, lambda row, group: it.units)

    def of_Literal(self, it):
        if it.kind == "text":
            raise Refuse(it.at, "TypesDiffer")
        return Typed("date", 0, lambda row, group: it.value)

    def of_Name(self, it):
        place, at = self.find(it)
        if self.is_grouped and not self.in_aggregate and (place, at) not in self.group:
            raise Refuse(it.at, "NotGrouped")
        return Typed(*self.column_type(place, at), lambda row, group: row[place][at])

    def of_Signed(self, it):
        of = self.typed(it.of)
        need(it.at, of.kind == "number")
        if it.sign == "+":
            return of
        return Typed("number", of.scale, lambda row, group: values.arithmetic("-", 0, of.of(row, group)))

    def of_Binary(self, it):
        if it.operator in ("and", "or"):
            left, right = self.typed(it.left), self.typed(it.right)
            need(it.at, left.kind == right.kind == "truth")
            return truth(values.truth_and if it.operator == "and" else values.truth_or, left.of, right.of)
        if it.operator in values.COMPARISONS:
            left, right = self.side(it.left), self.side(it.right)
            need_one_kind(it.at, [left, right])
            return comparison(it.operator, left, right)
        left, right = self.typed(it.left), self.typed(it.right)
        need(it.at, left.kind == right.kind == "number")
        scale = left.scale + right.scale if it.operator == "*" else max(left.scale, right.scale)
        if scale > MOST_SCALE:
            raise Refuse(it.at, "ScaleTooLarge")
        one, other = (left.of, right.of) if it.operator == "*" else (to_scale(left, scale), to_scale(right, scale))
        return Typed("number", scale, lambda row, group: values.arithmetic(it.operator, one(row, group), other(row, group)))

    def of_Divide(self, it):
        of = self.typed(it.of)
        if it.divisor == 0:
            raise Refuse(it.divisor_at, "ZeroDivisor")
        need(it.at, of.kind == "number")
        divided = lambda number: None if number is None else values.fit(values.quotient(number, it.divisor))
        return Typed("number", of.scale, lambda row, group: divided(of.of(row, group)))

    def of_Not(self, it):
        of = self.typed(it.of)
        need(it.at, of.kind == "truth")
        return negated(of, True)

    def of_IsNull(self, it):
        of = self.typed(it.of)
        need(it.at, of.kind != "truth")
        return negated(Typed("truth", 0, lambda row, group: of.of(row, group) is None), it.is_negated)

    def of_Between(self, it):
        of, low, high = [self.side(part) for part in [it.of, *it.ends]]
        need_one_kind(it.at, [of, low, high])
        both = truth(values.truth_and, comparison(">=", of, low).of, comparison("<=", of, high).of)
        return negated(both, it.is_negated)

    def of_In(self, it):
        of, *items = [self.side(part) for part in [it.of, *it.items]]
        need_one_kind(it.at, [of, *items])
        found = comparison("=", of, items[0])
        for item in items[1:]:
            found = truth(values.truth_or, found.of, comparison("=", of, item).of)
        return negated(found, it.is_negated)

    def of_Coalesce(self, it):
        parts = [self.typed(part) for part in it.of]
        need_one_kind(it.at, parts)
        scale = max(part.scale for part in parts)
        of = [to_scale(part, scale) for part in parts]
        return Typed(parts[0].kind, scale, lambda row, group: values.first_known([part(row, group) for part in of]))

    def of_Aggregate(self, it):
        nested, self.in_aggregate = self.in_aggregate, True
        of = Typed("number", 0, lambda row, group: 0) if it.of is None else self.typed(it.of)
        self.in_aggregate = nested
        need(it.at, of.kind == "number" or (it.name not in ("sum", "avg") and of.kind != "truth"))
        if nested or not self.is_grouped:
            raise Refuse(it.at, "NestedAggregate")
        found = lambda row, group: values.aggregate(it.name, [of.of(one, None) for one in group])
        self.aggregates.append(found)
        return Typed("number", 0, found) if it.name == "count" else Typed(of.kind, of.scale, found)


def need(at, holds):
    if not holds:
        raise Refuse(at, "TypesDiffer")


def need_one_kind(at, parts):
    need(at, len({part.kind for part in parts}) == 1 and parts[0].kind != "truth")


def to_scale(typed, scale):
    """The function of a number in units of a greater scale; of another kind its own."""
    if typed.kind != "number":
        return typed.of
    return lambda row, group: values.rescaled(typed.of(row, group), scale - typed.scale)


def comparison(sign, left, right):
    scale = max(left.scale, right.scale)
    one, other = to_scale(left, scale), to_scale(right, scale)
    return Typed("truth", 0, lambda row, group: values.compare(sign, one(row, group), other(row, group)))


def truth(operate, one, other):
    """Both sides are asked, also where one decides."""
    return Typed("truth", 0, lambda row, group: operate(one(row, group), other(row, group)))


def negated(typed, is_negated):
    return Typed("truth", 0, lambda row, group: values.truth_not(typed.of(row, group))) if is_negated else typed
