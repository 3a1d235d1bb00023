#!/usr/bin/env python3
"""Measures the program: builds it, runs fixed workloads, and prints a table.

    python3 bench/run.py [--program PATH] [--only NAME] [--seconds S]

Needs the toolchain and Python's standard library. With --program nothing is built, and PATH is a built program of the
crate `benchmark`. Instructions are counted where valgrind is installed. Each workload is one schema and one instance, made
by `workloads.py` and `large_schemas.py`. Four parts of its check are done again and again, each for at least S seconds (1
if it isn't said):

    read      the text of the instance is read
    compile   the schema is scanned, compiled and linked
    validate  the instance is evaluated by the linked schema, up to the text of the output
    check     all of it, from the text that holds both

Beside them instructions are counted of `syntax`, which tests that the instance's text is JSON and keeps nothing of it.

The time of one turn is the processor's time of many turns less that of none, so that the start of the program doesn't
count. Of three such times the least is taken. Another program that runs beside makes times longer all the same, but not
the numbers of instructions.
"""

import argparse
import os
import re
import resource
import shutil
import subprocess
import sys
import tempfile
from pathlib import Path

import workloads as made
from large_schemas import api_description, api_description_by_patterns, schema_of_schemas
from workloads import compact

TOP = Path(__file__).resolve().parent.parent
CRATE = TOP / "crates" / "benchmark"
PARTS = ("read", "compile", "validate", "check")

WORKLOADS = {
    "small object": made.small_object,
    "order, 2 KB": made.order,
    "list, 1 MB": lambda: made.order_list(1_000_000),
    "references": made.references,
    "unevaluated": made.unevaluated,
    "patterns": made.patterns,
    "contact": made.contact,
    "2,000 patterns": lambda: made.many_patterns(2_000),
    "99,999 elements": made.elements,
    "failing": lambda: made.failing(2_000),
    "schema of schemas": schema_of_schemas,
    "API description": api_description,
    "API by patterns": api_description_by_patterns,
    "names with escapes": lambda: made.names(True),
    "plain names": lambda: made.names(False),
}

# The same workload at growing sizes.
GROWTH = {
    "list": [(f"{kilobytes} KB", lambda k=kilobytes: made.order_list(k * 1000)) for kilobytes in (62, 125, 250, 500, 1000)],
    "failing": [(f"{count} elements", lambda c=count: made.failing(c)) for count in (500, 1000, 2000, 4000, 8000)],
}


# ---- measuring


def processor_time():
    """The seconds that the programs that were run so far took of a processor."""
    used = resource.getrusage(resource.RUSAGE_CHILDREN)
    return used.ru_utime + used.ru_stime


class Bench:
    def __init__(self, program, seconds):
        self.program = program
        self.seconds = seconds
        self.valgrind = shutil.which("valgrind")

    def took(self, part, file, times):
        with open(file, "rb") as given:
            start = processor_time()
            done = subprocess.run([self.program, part, str(times)], stdin=given, capture_output=True)
            took = processor_time() - start
        if done.returncode != 0:
            sys.exit(f"{part}: {done.stderr.decode()}")
        return took, int(done.stdout)

    def turn(self, part, file):
        """The seconds that one turn takes."""
        start = min(self.took(part, file, 0)[0] for _ in range(3))
        times = 1
        while True:
            took = self.took(part, file, times)[0] - start
            if took >= self.seconds / 4:
                break
            times *= 4 if took < self.seconds / 40 else 2
        best = min(self.took(part, file, times)[0] for _ in range(3))
        return max(best - start, 0) / times

    def counted(self, part, file, times):
        with tempfile.TemporaryDirectory() as folder, open(file, "rb") as given:
            words = [self.valgrind, "--tool=callgrind", f"--callgrind-out-file={folder}/out", self.program, part, str(times)]
            done = subprocess.run(words, stdin=given, capture_output=True)
        found = re.search(rb"Collected : (\d+)", done.stderr)
        return int(found[1]) if found else None

    def instructions(self, part, file):
        """The instructions of one turn after the first, where they can be counted."""
        if not self.valgrind:
            return None
        one, three = self.counted(part, file, 1), self.counted(part, file, 3)
        return None if one is None or three is None else (three - one) / 2

    def measure(self, make):
        schema, instance = make()
        with tempfile.NamedTemporaryFile("w", suffix=".json", delete=False, encoding="utf-8") as it:
            it.write(compact({"schema": schema, "instance": instance}))
        try:
            row = {"bytes": len(compact(instance).encode())}
            row["valid"] = self.took("validate", it.name, 1)[1] == 1
            for part in PARTS:
                row[part] = self.turn(part, it.name)
            for part in ("syntax", "read", "validate", "evaluate"):
                row[f"{part} instructions"] = self.instructions(part, it.name)
            return row
        finally:
            os.unlink(it.name)


# ---- printing


def amount(number):
    if number is None:
        return "-"
    return f"{number:,.0f}" if number >= 100 else f"{number:.3g}"


def time_of(seconds):
    for unit, factor in (("s", 1), ("ms", 1e3), ("µs", 1e6)):
        if seconds * factor >= 1:
            return f"{seconds * factor:.3g} {unit}"
    return f"{seconds * 1e9:.0f} ns"


def rate(seconds):
    return amount(1 / seconds) if seconds else "-"


def ratio(part, whole):
    return f"{part / whole:.2f}" if part and whole else "-"


def print_table(head, rows):
    print("| " + " | ".join(head) + " |")
    print("|" + "---|" * len(head))
    for row in rows:
        print("| " + " | ".join(row) + " |", flush=True)
    print()


def workload_row(name, row):
    read, validate = row["read"], row["validate"]
    counted, alone, bare = (row[f"{part} instructions"] for part in ("validate", "read", "syntax"))
    road = None if counted is None or alone is None else counted + alone
    return [
        name + ("" if row["valid"] else " (invalid)"),
        amount(row["bytes"]),
        time_of(read),
        time_of(row["compile"]),
        time_of(validate),
        rate(validate),
        ratio(validate, read),
        rate(row["check"]),
        amount(counted),
        amount(row["evaluate instructions"]),
        ratio(counted, alone),
        ratio(road, bare),
    ]


HEAD = [
    "Workload",
    "Bytes",
    "Read",
    "Compile",
    "Validate",
    "Validations a second",
    "Validate to read",
    "Whole checks a second",
    "Instructions to validate",
    "By one evaluator",
    "Validate to read, by instructions",
    "Both to those to test the syntax",
]


def growth_row(name, row):
    each = row["validate"] / row["bytes"] * 1e9
    counted = row["validate instructions"]
    per_byte = "-" if counted is None else f"{counted / row['bytes']:.1f}"
    return [name, amount(row["bytes"]), time_of(row["read"]), time_of(row["validate"]), f"{each:.3g} ns", per_byte]


GROWTH_HEAD = ["Size", "Bytes", "Read", "Validate", "A byte", "Instructions a byte"]


def built():
    """The program, built; the input of its stored run is as good as any."""
    with open(CRATE / "stdin", "rb") as given:
        status = subprocess.run(["rt", "run", "--", "read", "1"], cwd=CRATE, stdin=given).returncode
    if status != 0:
        sys.exit("the program is not built")
    return CRATE / "out" / "benchmark"


def main():
    words = argparse.ArgumentParser(description="Measures the program on fixed workloads.")
    words.add_argument("--program", help="a built program of the crate benchmark; without it, it is built")
    words.add_argument("--only", help="the workloads whose name holds this text, without the tables of growth")
    words.add_argument("--seconds", type=float, default=1, help="how long each part is measured, at the least")
    words = words.parse_args()
    program = Path(words.program).resolve() if words.program else built()
    bench = Bench(str(program), words.seconds)
    names = [name for name in WORKLOADS if not words.only or words.only in name]
    print_table(HEAD, (workload_row(name, bench.measure(WORKLOADS[name])) for name in names))
    if words.only:
        return
    for name, sizes in GROWTH.items():
        print(f"Growth: {name}\n")
        print_table(GROWTH_HEAD, (growth_row(size, bench.measure(make)) for size, make in sizes))


if __name__ == "__main__":
    main()
