"""A whole run: the words, the files, and the first step that refuses: docs/FORMATS.md, "The command line" and "Statuses"."""

from dataclasses import dataclass

from .answers import NotYet, answer
from .program_runs import TooLong, results
from .program_text import BadProgram
from .schemas import catalog, read_schema
from .tables import BadTable, load
from .tokens import Refuse
from .values import Over

MOST_BYTES = {"schema": 1 << 16, "table": 1 << 28, "sql": 1 << 16, "algebra": 1 << 23}


@dataclass
class Outcome:
    """The exit status, what stands on standard output, and the line on standard error, without its end."""

    status: int
    out: bytes = b""
    line: str = ""


class Stop(Exception):
    """A step refuses."""

    def __init__(self, status, line):
        super().__init__(status, line)
        self.outcome = Outcome(status, b"", f"voodoo: {line}")


def run(words, files):
    """The outcome of the words behind the program's name over files by their names."""
    try:
        return Outcome(0, output(words, files))
    except Stop as stop:
        return stop.outcome


def output(words, files):
    if len(words) != 6 or words[0::2] != ["--db", "--mode", "--text"] or words[3] not in ("sql", "algebra"):
        raise Stop(2, "usage: Words")
    schema, mode, text = words[1::2]
    try:
        tables = catalog(read_schema(read(files, schema, "schema", MOST_BYTES["schema"])))
    except Refuse as it:
        raise Stop(5, f"schema: byte {it.at}: {it.kind}") from it
    folder = schema[: schema.rfind("/") + 1]
    rows = {table.name: rows_of(files, folder, place, table) for place, table in enumerate(tables, 1)}
    given = read(files, text, "text", MOST_BYTES[mode])
    return answered(mode, given, tables, rows)


def read(files, name, role, most):
    if name not in files:
        raise Stop(3, f"cannot read {role}")
    if len(files[name]) > most:
        raise Stop(10, f"limit: {role}: {most + 1}")
    return files[name]


def rows_of(files, folder, place, table):
    try:
        return load(table, read(files, f"{folder}{table.name}.csv", f"table {place}", MOST_BYTES["table"]))
    except BadTable as it:
        raise Stop(6, f"table {place}: record {it.record}: column {it.column}: {it.kind}") from it


def answered(mode, text, tables, rows):
    try:
        return answer(text, tables, rows) if mode == "sql" else results(text, tables, rows)
    except Refuse as it:
        raise Stop(7, f"query: byte {it.at}: {it.kind}") from it
    except BadProgram as it:
        raise Stop(9, f"algebra: line {it.line}: {it.kind}") from it
    except TooLong as it:
        raise Stop(10, f"limit: slots: {it.slots}") from it
    except Over as it:
        raise Stop(11, "overflow") from it
    except NotYet as it:
        raise Stop(13, "not yet: text") from it
