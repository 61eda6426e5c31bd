#!/usr/bin/env python3
"""Times each operator of the algebra over 2^20 slots, a program of more than 20 operators, and a chain of 25 Upserts.

    bench/algebra.py [--rounds N]

Each program loads a table of two columns, makes one vector by the operator, and shows one slot of it, so that
the time beyond that of loading is the operator's. Where numpy is installed, the same step by numpy over the same values
stands beside it: numbers of 64 bits without empty slots and without a test for overflow there. A time is the median, over
the rounds, of the processor's time, which other work on the machine changes least. A peak is the greatest resident memory
of any round.
"""

import argparse
import os
import statistics
import subprocess
import sys
import tempfile
import time

TOP = os.path.dirname(os.path.dirname(os.path.abspath(__file__)))
PROGRAM = os.path.join(TOP, "crates", "voodoo", "out", "voodoo")
ROWS = 1 << 20

SCHEMA = "CREATE TABLE t (k INTEGER NOT NULL, a INTEGER NOT NULL);\n"

# What stands in every program: the table, runs of 1,024 slots, and 64 pivots.
START = """t = Load(t)
run = Range(t, .run, 0, 1, 0, 1024)
z = Zip(t, run)
pivots = Range(64, .pivot, 0, 16384, 0, 1)
"""

OPERATORS = [
    ("Project", "v = Project(t, .k, .v)", None),
    ("Upsert", "v = Upsert(t, .a, t, .k)\n", None),
    ("Gather", "v = Gather(t, t, .k)", "t_a[k]"),
    ("Scatter", "v = Scatter(t, t, t, .k)", "scatter(a, k)"),
    ("Bucket", "v = Bucket(t, .k, pivots, .pivot, .v)", "np.searchsorted(pivots, k, side='right')"),
    ("Partition", "v = Partition(t, .k, pivots, .pivot, .v)", "np.argsort(np.argsort(np.searchsorted(pivots, k, side='right'), kind='stable'))"),
    ("Cross", "n = Range(1024, .n, 0, 1, 0, 1)\nv = Cross(n, .l, n, .v)", None),
    ("FoldSum", "v = FoldSum(z, .a, .run, .v)", "np.add.reduceat(a, starts)"),
    ("FoldMin", "v = FoldMin(z, .a, .run, .v)", "np.minimum.reduceat(a, starts)"),
    ("FoldSelect", "v = FoldSelect(z, .a, .run, .v)", "np.flatnonzero(a)"),
    ("FoldScan", "v = FoldScan(z, .a, .run, .v)", "np.cumsum(a)"),
    ("Order", "v = Order(t, .a, .v, +.k)", "np.argsort(k, kind='stable')"),
    ("Add", "v = Add(t.a, t.k, .v)", "a + k"),
    ("Multiply", "v = Multiply(t.a, t.k, .v)", "a * k"),
    ("Divide", "v = Divide(t.a, 7, .v)", "a // 7"),
    ("Modulo", "v = Modulo(t.a, 7, .v)", "a % 7"),
    ("BitShift", "v = BitShift(t.a, -3, .v)", "a >> 3"),
    ("Greater", "v = Greater(t.a, t.k, .v)", "a > k"),
    ("LogicalAnd", "v = LogicalAnd(t.a, t.k, .v)", "(a != 0) & (k != 0)"),
    ("Fill", "v = Fill(t.a, 0, .v)", None),
]

# One slot of the vector v.
END = """first = Range(1, .at, 0, 0, 0, 1)
shown = Gather(v, first, .at)
Persist(shown, shown)
"""

CHAIN = START + """a1 = Add(t.a, t.k, .v)
a2 = Multiply(a1.v, 3, .v)
a3 = Subtract(a2.v, t.k, .v)
a4 = Modulo(a3.v, 1000003, .v)
a5 = Greater(a4.v, 500000, .v)
a6 = Equals(a5.v, 0, .v)
a7 = LogicalOr(a5.v, a6.v, .v)
z1 = Zip(a7, run)
s = FoldSelect(z1, .v, .run, .place)
g = Gather(z, s, .place)
o = Order(g, .a, .place, -.a, +.k)
h = Gather(g, o, .place)
sums = FoldSum(h, .a, .run, .v)
least = FoldMin(h, .a, .run, .v)
scan = FoldScan(h, .a, .run, .v)
b = Bucket(h, .k, pivots, .pivot, .b)
p = Partition(b, .b, pivots, .pivot, .to)
c = Scatter(h, h, p, .to)
d = Divide(c.a, 7, .v)
e = BitShift(d.v, -1, .v)
f = Fill(e.v, 0, .v)
m = FoldMax(z, .a, .run, .v)
all = Range(f, .all, 0, 0, 0, 1)
w = Zip(f, all)
v = FoldSum(w, .v, .all, .v)
Persist(v, v1)
Persist(sums, s1)
Persist(least, l1)
Persist(scan, c1)
Persist(m, m1)
""".replace("Persist(v, v1)", "at = Range(1, .at, 0, 0, 0, 1)\nv1 = Gather(v, at, .at)\ns1 = Gather(sums, at, .at)\nl1 = Gather(least, at, .at)\nc1 = Gather(scan, at, .at)\nm1 = Gather(m, at, .at)\nPersist(v, v1)")

# The chain of a query's columns: each Upsert reads the vector before it, which nothing reads later.
UPSERTS = "t = Load(t)\nr0 = Materialize(t)\n" + "".join(f"r{i + 1} = Upsert(r{i}, .v{i}, t, .a)\n" for i in range(25)) + "v = Materialize(r25)\n" + END


def columns():
    """Two columns, of a linear congruence: places 0 to 2^20 - 1, each once, and whole numbers of seven digits."""
    k, a = [], []
    x = 1
    for _ in range(ROWS):
        x = (x * 1664525 + 1013904223) % ROWS
        k.append(x)
        a.append((x * 7919) % 10000019 - 5000000)
    return k, a


def once(words):
    """The processor's seconds and the peak in MB of one run."""
    child = subprocess.Popen(words, stdout=subprocess.PIPE, stderr=subprocess.PIPE)
    child.stdout.read()
    err = child.stderr.read()
    _, status, usage = os.wait4(child.pid, 0)
    if status != 0:
        sys.exit(f"voodoo ended with {status}: {err.decode()}")
    return usage.ru_utime + usage.ru_stime, usage.ru_maxrss / 1024


def measured(folder, text, rounds):
    with open(os.path.join(folder, "p.txt"), "w") as f:
        f.write(text)
    words = [PROGRAM, "--db", folder + "/s.sql", "--mode", "algebra", "--text", folder + "/p.txt"]
    runs = [once(words) for _ in range(rounds)]
    return statistics.median(r[0] for r in runs), max(r[1] for r in runs)


def by_numpy(k, a, step, rounds):
    try:
        import numpy as np
    except ImportError:
        return None
    k, a = np.array(k), np.array(a)

    def scatter(values, to):
        made = np.zeros(len(values), dtype=np.int64)
        made[to] = values
        return made

    names = {"np": np, "a": a, "k": k, "t_a": a, "scatter": scatter, "starts": np.arange(0, ROWS, 1024), "pivots": np.arange(64) * 16384}
    times = []
    for _ in range(rounds):
        began = time.process_time()
        eval(step, names)
        times.append(time.process_time() - began)
    return statistics.median(times)


def main():
    parser = argparse.ArgumentParser(description=__doc__)
    parser.add_argument("--rounds", type=int, default=5)
    rounds = parser.parse_args().rounds
    if not os.path.exists(PROGRAM):
        sys.exit("build the program first: run ./voodoo once")
    k, a = columns()
    with tempfile.TemporaryDirectory() as folder:
        with open(folder + "/s.sql", "w") as f:
            f.write(SCHEMA)
        with open(folder + "/t.csv", "w") as f:
            f.write("k,a\n")
            f.writelines(f"{x},{y}\n" for x, y in zip(k, a))
        base, base_peak = measured(folder, START + "v = Materialize(t)\n" + END, rounds)
        found = [measured(folder, START + line + "\n" + END, rounds) for _, line, _ in OPERATORS]
        whole, whole_peak = measured(folder, CHAIN, rounds)
        chain, chain_peak = measured(folder, UPSERTS, rounds)
    print("| operator | ms over 2^20 slots | numpy | peak MB |\n|---|---|---|---|")
    print(f"| loading alone | {base * 1000:.0f} | | {base_peak:.0f} |")
    # Only now, since a child's peak counts what its parent holds.
    for (name, _, step), (took, peak) in zip(OPERATORS, found):
        beside = by_numpy(k, a, step, rounds) if step else None
        other = "" if beside is None else f"{beside * 1000:.1f}"
        print(f"| {name} | {max(took - base, 0) * 1000:.0f} | {other} | {peak:.0f} |")
    print(f"| a program of 25 operators | {whole * 1000:.0f} with loading | | {whole_peak:.0f} |")
    print(f"| a chain of 25 Upserts | {chain * 1000:.0f} with loading | | {chain_peak:.0f} |")


if __name__ == "__main__":
    main()
