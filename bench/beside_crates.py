"""Runs a program that stands beside the crates for one run: for the benchmarks, unproved."""
import pathlib
import shutil
import subprocess
import sys
import tempfile

TOP = pathlib.Path(__file__).resolve().parent.parent


def rows_printed(name, program, uses, words, fields):
    """The rows of so many fields that the program prints for the words, the first field of each being its word.

    Copies the crates to a temporary folder, adds the program there as a crate of that name over those that it uses,
    and runs it by `rt try`. Ends with what it printed where a row is missing.
    """
    with tempfile.TemporaryDirectory() as folder:
        top = pathlib.Path(folder)
        leave = shutil.ignore_patterns("out", "must-fail")
        shutil.copytree(TOP / "crates", top / "crates", ignore=leave)
        crates = (TOP / "crates.txt").read_text()
        (top / "crates.txt").write_text(f"{crates}{name}: {uses}\n")
        source = top / "crates" / name / "src"
        source.mkdir(parents=True)
        (source / "main.rt").write_text(program)
        run = ["rt", "try", "--seconds", "600", "--", *words]
        done = subprocess.run(run, cwd=source.parent, capture_output=True, text=True, check=False)
    lines = [line.split() for line in done.stdout.splitlines()]
    rows = [line for line in lines if len(line) == fields and line[0] in words]
    if len(rows) != len(words):
        sys.exit(done.stdout + done.stderr)
    return rows
