#!/usr/bin/env python3
"""Times `rmemdb serve` and `sqlite3 :memory:` on the same statements, of five kinds, at two sizes.

    bench/compare.py [PROGRAM]

PROGRAM is the built program, or crates/rmemdb/out/rmemdb. Each kind is measured over a table of as many rows as it
has statements. The statements of a small table are run many times over, the INSERTs into as many tables, so that
each run is long enough to time. The time is that of a run with the tables and the statements, less that of a run with
the tables alone, the median of several such pairs. Prints for each the statements a second of both, the ratio of the
times, the time of one statement, and how it grew since the smallest size. Nothing else should run meanwhile.
"""
import os
import shutil
import statistics
import subprocess
import sys
import tempfile
import time

# The rows of a table, and how often its statements are run over.
SIZES = ((1_000, 20), (20_000, 1))
ROUNDS = 7


def numbers(count, below, seed):
    """So many numbers below a bound, always the same."""
    state = seed
    for _ in range(count):
        state = (state * 1_103_515_245 + 12_345) % 2**31
        yield (state >> 8) % below


def shuffled(size):
    """So many keys, in no order."""
    keys = list(range(size))
    for i, j in enumerate(numbers(size, size, 7)):
        keys[i], keys[j] = keys[j], keys[i]
    return keys


def create(name):
    return f"CREATE TABLE {name} (k INT PRIMARY KEY, v INT, w TEXT);"


def insert(name, key):
    return f"INSERT INTO {name} VALUES ({key}, {key * 3}, 'row {key}');"


def kinds(size, times):
    """Each kind of statement: its name, what comes before it, and the statements."""
    keys = shuffled(size)
    many = [f"t{i}" for i in range(times)]
    yield "insert", [create(name) for name in many], [insert(name, k) for name in many for k in keys]
    rows = [create("t"), "BEGIN;"] + [insert("t", k) for k in keys] + ["COMMIT;"]
    some = list(numbers(size, size, 11))
    join = ["CREATE TABLE u (k INT PRIMARY KEY, t INT);", "BEGIN;"]
    join += [f"INSERT INTO u VALUES ({i}, {k});" for i, k in enumerate(some)] + ["COMMIT;"]
    yield "select by key", rows, [f"SELECT v, w FROM t WHERE k = {k};" for k in some] * times
    yield "update by key", rows, [f"UPDATE t SET v = v + 1 WHERE k = {k};" for k in some] * times
    yield "select 100 rows", rows, [f"SELECT v FROM t WHERE k >= {k} AND k < {k + 100};" for k in some] * times
    yield "join on a key", rows + join, [f"SELECT u.k, v FROM u JOIN t ON t.k = u.t WHERE u.k = {k};" for k in some] * times


def spent(words, script):
    """The time of a run over the script, in seconds."""
    with open(script, "rb") as given:
        start = time.perf_counter()
        subprocess.run(words, stdin=given, stdout=subprocess.DEVNULL, check=True)
        return time.perf_counter() - start


def measured(words, before, statements, folder):
    """The time of the statements alone: the median of the differences of two runs, one behind the other."""
    paths = []
    for name, lines in (("before", before), ("whole", before + statements)):
        paths.append(os.path.join(folder, name))
        with open(paths[-1], "w") as out:
            out.write("\n".join(lines) + "\n")
    apart = [-spent(words, paths[0]) + spent(words, paths[1]) for _ in range(ROUNDS)]
    return max(statistics.median(apart), 1e-9)


def main():
    top = os.path.dirname(os.path.dirname(os.path.abspath(__file__)))
    program = sys.argv[1] if len(sys.argv) > 1 else os.path.join(top, "crates/rmemdb/out/rmemdb")
    sqlite = shutil.which("sqlite3")
    each = {}
    print(f"{'kind':<16} {'size':>6} {'rmemdb/s':>10} {'sqlite3/s':>10} {'ratio':>6} {'us each':>8} {'growth':>6}")
    with tempfile.TemporaryDirectory() as folder:
        for size, times in SIZES:
            for name, before, statements in kinds(size, times):
                count = len(statements)
                ours = measured([program, "serve"], before, statements, folder)
                line = f"{name:<16} {size:>6} {count / ours:>10.0f}"
                if sqlite:
                    theirs = measured([sqlite, ":memory:"], before, statements, folder)
                    line += f" {count / theirs:>10.0f} {ours / theirs:>6.2f}"
                else:
                    line += f" {'-':>10} {'-':>6}"
                growth = ours / count / each.setdefault(name, ours / count)
                print(f"{line} {ours / count * 1e6:>8.2f} {growth:>6.2f}", flush=True)


if __name__ == "__main__":
    main()
