"""The records of a table's file and their values: docs/FORMATS.md, "Tables", after RFC 4180, SQL-92, 5.3 and 11.7.

A value is None for null, an int for a whole number, for the units of a decimal and for a date (its day number), and bytes for a text.
"""

import datetime
import re

from .tokens import first_bad_byte

MOST_ROWS = 1 << 20
EPOCH = datetime.date(1970, 1, 1).toordinal()
BYTE_ORDER_MARK = b"\xef\xbb\xbf"
LINE_ENDS = b"\r\n"
QUOTED = re.compile(rb'"((?:[^"]|"")*)(?:"|\Z)')
BARE = re.compile(rb"[^,\r\n]*")


class BadTable(Exception):
    """A table is refused at a record and a column; a key that stands twice names the earlier record too."""

    def __init__(self, record, column, kind):
        super().__init__(record, column, kind)
        self.record, self.column, self.kind = record, column, kind


def record_at(text, at):
    """The fields of the record that begins at a byte, and where it ends. What stands behind a quoted part belongs to its field."""
    fields = []
    while True:
        quoted = QUOTED.match(text, at)
        begun = b""
        if quoted:
            begun, at = quoted.group(1).replace(b'""', b'"'), quoted.end()
        bare = BARE.match(text, at)
        fields.append(begun + bare.group())
        at = bare.end()
        if text[at : at + 1] != b",":
            return fields, at
        at += 1


def records(text):
    """The records of a file. An empty line is none."""
    found, at = [], len(BYTE_ORDER_MARK) if text.startswith(BYTE_ORDER_MARK) else 0
    while at < len(text):
        if text[at] in LINE_ENDS:
            at += 1
        else:
            fields, at = record_at(text, at)
            found.append(fields)
    return found


def day_of(text):
    """The day number that a text of the form yyyy-mm-dd spells, with 1970-01-01 as 0; None where it spells none."""
    if not re.fullmatch(rb"[0-9]{4}-[0-9]{2}-[0-9]{2}", text):
        return None
    try:
        return datetime.date.fromisoformat(text.decode()).toordinal() - EPOCH
    except ValueError:
        return None


def integer_of(text):
    if not re.fullmatch(rb"-?[0-9]+", text):
        return "NotInteger"
    return int(text) if -(1 << 63) <= int(text) < 1 << 63 else "IntegerRange"


def decimal_of(text, digits, scale):
    """The units of the last digit of the scale. A digit above 0 behind the scale is refused, and so are more digits than there may be."""
    found = re.fullmatch(rb"(-?)([0-9]*)(?:\.([0-9]*))?", text)
    if not found or not (found.group(2) or found.group(3)):
        return "NotDecimal"
    whole, fraction = found.group(2), found.group(3) or b""
    if fraction[scale:].strip(b"0"):
        return "DecimalRange"
    units = int(b"0" + whole + fraction[:scale].ljust(scale, b"0"))
    if units >= 10**digits:
        return "DecimalRange"
    return -units if found.group(1) else units


def text_of(text, width):
    if first_bad_byte(text) is not None:
        return "NotText"
    return text if len(text) <= width else "TextTooLong"


def value_of(column, text):
    """The value that a field has in a column; a str, the kind of its refusal, where it has none."""
    if text == b"" and not column.not_null:
        return None
    if column.kind == "integer":
        return integer_of(text)
    if column.kind == "decimal":
        return decimal_of(text, column.width, column.scale)
    if column.kind == "text":
        return text_of(text, column.width)
    day = day_of(text)
    return "NotDate" if day is None else day


def check_header(table, found):
    if not found or len(found[0]) != len(table.columns):
        raise BadTable(0, 0, "Header")
    for place, column in enumerate(table.columns):
        if found[0][place].lower() != column.name.encode():
            raise BadTable(0, place + 1, "Header")


def row_of(table, number, fields, keys):
    """The values of a record, field by field; `keys` has the record of each value of the key so far."""
    row = []
    for place, (column, text) in enumerate(zip(table.columns, fields), 1):
        value = value_of(column, text)
        if isinstance(value, str):
            raise BadTable(number, place, value)
        if column.name == table.key:
            if value in keys:
                raise BadTable(number, place, f"KeyTwice {keys[value]}")
            keys[value] = number
        row.append(value)
    return row


def load(table, text):
    """The rows of a table's file; else the first refusal by record, and within a record by column."""
    found = records(text)
    check_header(table, found)
    rows, keys = [], {}
    for number, fields in enumerate(found[1:], 1):
        if number > MOST_ROWS:
            raise BadTable(number, 0, "TooManyRows")
        if len(fields) != len(table.columns):
            raise BadTable(number, 0, "FieldCount")
        rows.append(row_of(table, number, fields, keys))
    return rows
