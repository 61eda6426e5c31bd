"""Random programs of the algebra over random tables. Each statement is checked by the model as it is made, so that most programs pass the check."""

from .program_runs import length_of
from .program_text import FORMS, BadProgram, Check, Statement
from .random_queries import spoiled

# How an argument is made: v is a vector, which the letters behind it speak of; p one of its paths, r a path at or above one; q a path that is replaced,
# n a path that is made. The other letters are those of FORMS.
ARGUMENTS = {
    "Range": "SnCTTT", "Cross": "vnvn", "Zip": "vv", "Project": "vrn", "Upsert": "vqvp", "Gather": "vvp", "Scatter": "vSvp",
    "Bucket": "vpvpn", "Partition": "vpvpn", "Materialize": "v", "Break": "v", "FoldSum": "vprn", "FoldMin": "vprn", "FoldMax": "vprn",
    "FoldSelect": "vprn", "FoldScan": "vprn", "Order": "vpnK", "BitShift": "OHn",
}  # fmt: skip
PATHS = [("x",), ("y",), ("y", "z"), ("y", "w"), ("run",), ("a",), ("b",)]
OPERANDS = [0, 1, 2, 3, -1, -2, 7]
RARE_OPERANDS = [*OPERANDS, (1 << 63) - 1, -(1 << 127), (1 << 127) - 1, 1 << 64]
MOST_SLOTS = 200


class Programs:
    """The vectors of a program so far."""

    def __init__(self, rng, tables):
        self.rng, self.check, self.lengths, self.statements = rng, Check(tables), {}, []

    def vector(self):
        """One of the vectors, of the later ones more often."""
        names = list(self.check.paths)
        return names[max(self.rng.randrange(len(names)), self.rng.randrange(len(names)))]

    def path(self, name):
        return self.rng.choice(self.check.paths[name])

    def operand(self):
        if self.rng.random() < 0.75:
            name = self.vector()
            return name, self.path(name)
        return self.rng.choice(RARE_OPERANDS if self.rng.random() < 0.15 else OPERANDS)

    def argument(self, letter, of):
        rng = self.rng
        if letter in "pq":
            return rng.choice(PATHS) if letter == "q" and rng.random() < 0.5 else self.path(of)
        if letter == "r":
            path = self.path(of)
            return path[: rng.randint(0, len(path))] if rng.random() < 0.3 else path
        if letter == "K":
            return [(rng.choice("+-"), self.path(of)) for _ in range(rng.randint(0, 3))]
        makers = {
            "n": lambda: rng.choice(PATHS),
            "S": lambda: self.vector() if rng.random() < 0.7 else rng.randint(0, 9),
            "O": self.operand,
            "H": lambda: rng.choice([0, 1, -1, 2, 63, -127, 127]),
            "C": lambda: rng.choice([0, 1, -3, -(1 << 62)]),
            "T": lambda: rng.choice([0, 1, 1, 2, 3]),
        }
        return makers[letter]()

    def add(self, operator):
        """A statement of an operator; it is left out where the check refuses it, but for now and then, and where its vector is long."""
        arguments, of = [], None
        for letter in ARGUMENTS.get(operator, "OOn"):
            of = self.vector() if letter == "v" else of
            arguments.append(of if letter == "v" else self.argument(letter, of))
        it = Statement(0, operator, f"v{len(self.statements)}", arguments)
        try:
            self.check.statement(it)
        except BadProgram:
            if self.rng.random() < 0.02:
                self.statements.append(it)
            return
        slots = length_of(it, self.lengths)
        if slots > MOST_SLOTS:
            del self.check.paths[it.name]
            return
        self.lengths[it.name] = slots
        self.statements.append(it)

    def load(self, table):
        it = Statement(0, "Load", table.name, [table.name])
        self.check.statement(it)
        self.lengths[table.name] = table.rows
        self.statements.append(it)


def written_path(path):
    return "".join(f".{it}" for it in path) or "."


def written_argument(letter, argument):
    if letter == "P":
        return written_path(argument)
    if letter == "K":
        return ", ".join(sign + written_path(path) for sign, path in argument)
    return argument[0] + written_path(argument[1]) if isinstance(argument, tuple) else str(argument)


def written(it):
    parts = [written_argument(letter, argument) for letter, argument in zip(FORMS[it.operator], it.arguments)]
    return f"{it.name} = {it.operator}({', '.join(part for part in parts if part)})"


def random_program(rng, tables):
    """A program over random tables, all of which it loads."""
    program = Programs(rng, tables)
    for table in tables:
        program.load(table)
    operators = sorted(FORMS)
    operators.remove("Load")
    for _ in range(rng.randint(2, 14)):
        program.add(rng.choice(operators))
    lines = [written(it) for it in program.statements]
    for place in range(rng.randint(1, 3)):
        lines.append(f"Persist(r{place}, {program.vector()})")
    if rng.random() < 0.07:
        at = rng.randrange(len(lines))
        lines[at] = spoiled(rng, lines[at])
    return "\n".join(lines) + "\n"
