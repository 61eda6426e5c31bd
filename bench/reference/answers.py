"""The rows of a query over one table, and how rows are written: docs/FORMATS.md, "What a query answers" and "What is written", after SQL-92, 7.3
to 7.9 and 13.1, and RFC 4180.
"""

import datetime

from .query_text import read_query
from .query_types import type_query
from .tables import EPOCH
from .values import rank


class NotYet(Exception):
    """A query over more than one table."""


def answer(text, tables, rows):
    """The text of a query's answer; `rows` has those of each table, by its name."""
    typed = type_query(read_query(text), tables)
    if len(typed.tables) > 1:
        raise NotYet
    found = ordered(typed, shown(typed, [(row,) for row in rows[typed.tables[0].name]]))
    lines = [written([name.encode() for name in typed.names])]
    for items, _, _ in found:
        lines.append(written([field(item, typed_item) for item, typed_item in zip(items, typed.items)]))
    return b"".join(lines)


def shown(typed, rows):
    """The items of each kept row, or of each kept group: their values, the row, and the group, of which the row is the first."""
    kept = [row for row in rows if typed.where is None or typed.where(row, None) is True]
    places = [(row, None) for row in kept]
    if typed.is_grouped:
        places = [(group[0] if group else None, group) for group in groups(typed, kept)]
        # Each aggregate is evaluated of each group, also of one that HAVING leaves out.
        for row, group in places:
            for aggregate in typed.aggregates:
                aggregate(row, group)
        places = [place for place in places if typed.having is None or typed.having(*place) is True]
    return [([item.of(row, group) for item in typed.items], row, group) for row, group in places]


def groups(typed, rows):
    """The rows of each combination of values of the group columns, ascending by these; all rows where there are no such columns."""
    if not typed.group:
        return [rows]
    found = {}
    for row in rows:
        found.setdefault(tuple(rank(row[place][at]) for place, at in typed.group), []).append(row)
    return [found[key] for key in sorted(found)]


def ordered(typed, found):
    """A stable sort, key by key, with the first key deciding."""
    for key, descends in reversed(typed.order):
        found.sort(key=lambda it: rank(key(*it)), reverse=descends)
    return found


def field(value, typed):
    """A value as it is written."""
    if value is None:
        return b""
    if typed.kind == "text":
        return value
    if typed.kind == "date":
        return datetime.date.fromordinal(value + EPOCH).isoformat().rjust(10, "0").encode()
    return number(value, typed.scale)


def number(units, scale):
    digits = str(abs(units)).rjust(scale + 1, "0")
    sign = "-" if units < 0 else ""
    return f"{sign}{digits[:-scale]}.{digits[-scale:]}".encode() if scale else f"{sign}{digits}".encode()


def written(fields):
    """A row of RFC 4180; one of a single empty field is two quotes."""
    if fields == [b""]:
        return b'""\n'
    return b",".join(quoted(one) if any(sign in one for sign in b',"\r\n') else one for one in fields) + b"\n"


def quoted(one):
    return b'"' + one.replace(b'"', b'""') + b'"'
