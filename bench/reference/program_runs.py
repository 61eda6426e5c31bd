"""What a program of the algebra makes, and how its results are written: docs/FORMATS.md, "The operators" and "What is written", after the Voodoo
paper (PVLDB 9(14), 2016), 2 and 3. A vector is a dict of its paths, each with a list of slots; an empty slot is None.
"""

import itertools

from . import values
from .answers import written
from .program_text import below, check, read_program

MOST_SLOTS = 1 << 22


class TooLong(Exception):
    """A vector has more than 2^22 slots."""

    def __init__(self, slots):
        super().__init__(slots)
        self.slots = slots


def length_of(it, lengths):
    """How many slots a statement's vector has."""
    of, given = it.operator, it.arguments
    size = lambda given: lengths[given] if isinstance(given, str) else given
    if of == "Range":
        return size(given[0])
    if of == "Scatter":
        return size(given[1])
    if of == "Cross":
        return lengths[given[0]] * lengths[given[2]]
    if of == "Zip":
        return min(lengths[given[0]], lengths[given[1]])
    if of == "Gather":
        return lengths[given[1]]
    if isinstance(given[0], str):
        return lengths[given[0]]
    return min(lengths[name] for name in it.mentioned())


def lengths_of(statements, rows):
    """The length of each vector, reached or not. The first that is too long is refused."""
    lengths = {}
    for it in statements:
        if it.operator != "Persist":
            slots = len(rows[it.arguments[0]]) if it.operator == "Load" else length_of(it, lengths)
            if slots > MOST_SLOTS:
                raise TooLong(slots)
            lengths[it.name] = slots
    return lengths


def reached(statements):
    """The names that some Persist reaches."""
    found = set()
    for it in reversed(statements):
        if it.operator == "Persist" or it.name in found:
            found.update(it.mentioned())
    return found


def runs_of(columns, length):
    """The longest stretches of neighbouring places that are equal in all these columns."""
    found = []
    for i in range(length):
        if i == 0 or any(column[i] != column[i - 1] for column in columns):
            found.append([])
        found[-1].append(i)
    return found


def cross(v, it, length):
    left, p, right, q = it.arguments
    size = v.lengths[right]
    return {p: [i // size for i in range(length)], q: [i % size for i in range(length)]}


def control(v, it, length):
    _, path, start, step, modulus, divisor = it.arguments
    scaled = [i * step // divisor for i in range(length)]
    return {path: [start + (number % modulus if modulus else number) for number in scaled]}


def zipped(v, it, length):
    return {path: slots[:length] for name in it.arguments for path, slots in v.made[name].items()}


def project(v, it, length):
    name, path, to = it.arguments
    return {to + at[len(path) :]: v.made[name][at] for at in below(v.made[name], path)}


def upsert(v, it, length):
    name, path, other, at = it.arguments
    slots = v.made[other][at]
    gone = below(v.made[name], path)
    kept = {old: old_slots for old, old_slots in v.made[name].items() if old not in gone}
    return {**kept, path: [slots[i] if i < len(slots) else None for i in range(length)]}


def gather(v, it, length):
    name, other, path = it.arguments
    places = [place if place is not None and 0 <= place < v.lengths[name] else None for place in v.made[other][path]]
    return {at: [None if place is None else slots[place] for place in places] for at, slots in v.made[name].items()}


def scatter(v, it, length):
    name, _, other, path = it.arguments
    made = {at: [None] * length for at in v.made[name]}
    for j in range(min(v.lengths[name], v.lengths[other])):
        place = v.made[other][path][j]
        if place is not None and 0 <= place < length:
            for at, slots in v.made[name].items():
                made[at][place] = slots[j]
    return made


def buckets(v, it):
    name, path, other, at = it.arguments[:4]
    pivots = [pivot for pivot in v.made[other][at] if pivot is not None]
    return [None if key is None else sum(pivot <= key for pivot in pivots) for key in v.made[name][path]]


def bucket(v, it, length):
    return {it.arguments[4]: buckets(v, it)}


def partition(v, it, length):
    of = buckets(v, it)
    before = lambda i: sum(other is not None and (other, j) < (of[i], i) for j, other in enumerate(of))
    return {it.arguments[4]: [None if of[i] is None else before(i) for i in range(length)]}


def order(v, it, length):
    name, mark, to, keys = it.arguments
    places = [i for i in range(length) if v.made[name][mark][i] is not None]
    for sign, path in reversed(keys):
        places.sort(key=lambda i: values.rank(v.made[name][path][i]), reverse=sign == "-")
    return {to: places + [None] * (length - len(places))}


def fold(v, it, length):
    name, path, run, to = it.arguments
    slots, made = v.made[name][path], [None] * length
    for places in runs_of([v.made[name][at] for at in below(v.made[name], run)], length):
        known = [i for i in places if slots[i] is not None]
        if it.operator == "FoldSelect":
            for k, i in enumerate(i for i in known if slots[i] != 0):
                made[places[0] + k] = i
        elif it.operator == "FoldScan":
            for i, total in zip(known, itertools.accumulate(slots[i] for i in known)):
                made[i] = values.fit(total)
        else:
            made[places[0]] = values.aggregate({"FoldSum": "sum", "FoldMin": "min", "FoldMax": "max"}[it.operator], [slots[i] for i in known])
    return {to: made}


def logical_and(x, y):
    if x == 0 or y == 0:
        return 0
    return None if x is None or y is None else 1


def logical_or(x, y):
    if x not in (None, 0) or y not in (None, 0):
        return 1
    return None if x is None or y is None else 0


def of_both(operate):
    return lambda x, y: values.of_both(operate, x, y)


SLOT_BY_SLOT = {
    "Add": of_both(lambda x, y: values.fit(x + y)),
    "Subtract": of_both(lambda x, y: values.fit(x - y)),
    "Multiply": of_both(lambda x, y: values.fit(x * y)),
    "Divide": of_both(lambda x, y: None if y == 0 else values.fit(values.quotient(x, y))),
    "Modulo": of_both(lambda x, y: None if y < 1 else x % y),
    "BitShift": of_both(lambda x, y: values.fit(x << y) if y >= 0 else x >> -y),
    "Greater": of_both(lambda x, y: int(x > y)),
    "Equals": of_both(lambda x, y: int(x == y)),
    "LogicalAnd": logical_and,
    "LogicalOr": logical_or,
    "Fill": lambda x, y: y if x is None else x,
}


def slot_by_slot(v, it, length):
    x, y = [v.made[of[0]][of[1]] if isinstance(of, tuple) else [of] * length for of in it.arguments[:2]]
    return {it.arguments[2]: [SLOT_BY_SLOT[it.operator](x[i], y[i]) for i in range(length)]}


OPERATORS = {
    "Range": control, "Cross": cross, "Zip": zipped, "Project": project, "Upsert": upsert, "Gather": gather, "Scatter": scatter,
    "Bucket": bucket, "Partition": partition, "Order": order,
}  # fmt: skip


class Vectors:
    """What is made so far, and the length of each vector."""

    def __init__(self, lengths):
        self.lengths, self.made = lengths, {}

    def make(self, it):
        if it.operator in ("Materialize", "Break"):
            return dict(self.made[it.arguments[0]])
        if it.operator.startswith("Fold"):
            return fold(self, it, self.lengths[it.name])
        return OPERATORS.get(it.operator, slot_by_slot)(self, it, self.lengths[it.name])


def loaded(table, rows, tables, all_rows):
    """A table's columns: a text as the number of distinct texts of all tables that come before it."""
    texts = {
        value for it in tables for row in all_rows[it.name] for value, column in zip(row, it.columns) if column.kind == "text" and value is not None
    }
    codes = {text: code for code, text in enumerate(sorted(texts))}
    slot = lambda value: codes[value] if isinstance(value, bytes) else value
    return {(column.name,): [slot(row[place]) for row in rows] for place, column in enumerate(table.columns)}


def show(result, vector, length):
    """A result's name and length, its paths, and its slots, ascending by path."""
    paths = sorted(vector)
    lines = [written([result.encode(), str(length).encode()]), written([b"slot", *["".join(f".{it}" for it in path).encode() for path in paths]])]
    for i in range(length):
        slots = [vector[path][i] for path in paths]
        lines.append(written([str(i).encode(), *[b"" if slot is None else str(slot).encode() for slot in slots]]))
    return b"".join(lines)


def results(text, tables, rows):
    """The text of a program's results."""
    statements = read_program(text)
    check(statements, tables)
    vectors = Vectors(lengths_of(statements, rows))
    names = reached(statements)
    for it in statements:
        if it.operator == "Load" and it.name in names:
            table = next(table for table in tables if table.name == it.arguments[0])
            vectors.made[it.name] = loaded(table, rows[table.name], tables, rows)
        elif it.operator != "Persist" and it.name in names:
            vectors.made[it.name] = vectors.make(it)
    shown = [(it.name, it.arguments[0]) for it in statements if it.operator == "Persist"]
    return b"".join(show(result, vectors.made[name], vectors.lengths[name]) for result, name in shown)
