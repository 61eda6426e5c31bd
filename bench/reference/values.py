"""Values and what operators make of them: docs/FORMATS.md, "What a query answers", after SQL-92, 6.5 (aggregates), 6.12 (arithmetic), 6.14 and
8.2 to 8.12 (predicates, conditions). None is null, and the truth that is unknown.

A number that leaves 128 bits is Over, which ends the run, wherever it comes: so every operand is evaluated, also where another one decides.
"""

LEAST, GREATEST = -(1 << 127), (1 << 127) - 1
COMPARISONS = {
    "=": lambda a, b: a == b,
    "<>": lambda a, b: a != b,
    "<": lambda a, b: a < b,
    "<=": lambda a, b: a <= b,
    ">": lambda a, b: a > b,
    ">=": lambda a, b: a >= b,
}


class Over(Exception):
    """A number leaves 128 bits."""


def fit(number):
    if not LEAST <= number <= GREATEST:
        raise Over
    return number


def quotient(number, divisor):
    """Truncated towards zero."""
    whole = abs(number) // abs(divisor)
    return whole if (number < 0) == (divisor < 0) else -whole


def rescaled(number, digits):
    """The same number in units of so many digits more."""
    return None if number is None else fit(number * 10**digits)


def of_both(operate, a, b):
    """What an operator makes of two values; null where either is."""
    return None if a is None or b is None else operate(a, b)


def arithmetic(sign, a, b):
    operate = {"+": lambda a, b: a + b, "-": lambda a, b: a - b, "*": lambda a, b: a * b}[sign]
    return of_both(lambda a, b: fit(operate(a, b)), a, b)


def compare(sign, a, b):
    """A truth. Texts are compared by their bytes."""
    return of_both(COMPARISONS[sign], a, b)


def truth_not(a):
    return None if a is None else not a


def truth_and(a, b):
    if a is False or b is False:
        return False
    return None if a is None or b is None else True


def truth_or(a, b):
    return truth_not(truth_and(truth_not(a), truth_not(b)))


def first_known(values):
    """The first that is not null, of COALESCE."""
    return next((value for value in values if value is not None), None)


def aggregate(name, values):
    """Over the values that are not null; null where there are none, but for COUNT. Only the total has to fit, and no partial sum."""
    known = [value for value in values if value is not None]
    if name == "count":
        return len(known)
    if not known:
        return None
    if name in ("min", "max"):
        return min(known) if name == "min" else max(known)
    total = fit(sum(known))
    return total if name == "sum" else quotient(total, len(known))


def rank(value):
    """By which values are ordered: null is lowest."""
    return (0,) if value is None else (1, value)
