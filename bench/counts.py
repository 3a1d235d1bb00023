#!/usr/bin/env python3
"""Shows that the built program `benchmark` does the workload that its words name, and prints the right number.

    python3 bench/counts.py [--program PATH]

PATH is a built program of the crate `benchmark` (crates/benchmark/out/benchmark if it isn't said). Nothing is built here.
Needs Python's standard library. It runs each row of CASES, prints those that end otherwise, and ends with status 1 where
there is one.
"""

import argparse
import subprocess
import sys
from pathlib import Path

TOP = Path(__file__).resolve().parent.parent

VALID = b'{"schema":{"required":["a"]},"instance":{"a":1}}'
INVALID = b'{"schema":{"required":["a"]},"instance":{}}'
CALLS = b"""{"before":[["put","https://ex.org/s",{"type":"null"}]],
"repeat":[["validate","https://ex.org/s",null],["validate","https://ex.org/x",null],["put","https://ex.org/t",{}],
["bundle","https://ex.org/t"],["delete","https://ex.org/t"],["delete","https://ex.org/t"]]}"""
NO_CALL = b'{"before":[["get","https://ex.org/s"]],"repeat":[]}'
STREAM = b"GET /bundle?uri=https://ex.org/s HTTP/1.1\r\n\r\n"

USAGE = b"usage: benchmark syntax|read|compile|validate|evaluate|check|ask TIMES, benchmark feed SIZE"

# A name, the words, standard input, the status, and a part of what is printed: of standard output, all of it.
CASES = [
    ("tests the syntax", ["syntax", "3"], VALID, 0, b"3\n"),
    ("reads", ["read", "3"], VALID, 0, b"3\n"),
    ("compiles", ["compile", "3"], VALID, 0, b"3\n"),
    ("validates", ["validate", "3"], VALID, 0, b"3\n"),
    ("evaluates", ["evaluate", "3"], VALID, 0, b"3\n"),
    ("checks", ["check", "3"], VALID, 0, b"3\n"),
    ("validates what is invalid", ["validate", "3"], INVALID, 0, b"0\n"),
    ("evaluates what is invalid", ["evaluate", "3"], INVALID, 0, b"0\n"),
    ("checks what is invalid", ["check", "3"], INVALID, 0, b"0\n"),
    ("counts replies that are no refusals", ["ask", "3"], CALLS, 0, b"12\n"),
    ("asks nothing", ["ask", "0"], CALLS, 0, b"0\n"),
    ("is given no call", ["ask", "3"], NO_CALL, 2, b"refused: 41 BadInput"),
    ("counts bytes that are sent, one by one", ["feed", "1"], STREAM, 0, b"113\n"),
    ("counts bytes that are sent, by seven", ["feed", "7"], STREAM, 0, b"113\n"),
    ("counts bytes that are sent at once", ["feed", "1000"], STREAM, 0, b"113\n"),
    ("feeds no pieces", ["feed", "0"], STREAM, 0, b"0\n"),
    ("takes a part and a number", ["compile", "12"], VALID, 0, b"12\n"),
    ("wants a number", ["compile"], VALID, 2, USAGE),
]


def ends_so(program, words, given, status, printed):
    done = subprocess.run([program, *words], input=given, capture_output=True)
    if status == 0:
        return done.returncode == 0 and done.stdout == printed
    return done.returncode == status and done.stdout == b"" and printed in done.stderr


def main():
    words = argparse.ArgumentParser(description="Checks the numbers of the program benchmark.")
    words.add_argument("--program", default=TOP / "crates/benchmark/out/benchmark", help="a built program of the crate benchmark")
    program = str(Path(words.parse_args().program).resolve())
    wrong = [name for name, *case in CASES if not ends_so(program, *case)]
    for name in wrong:
        print(f"otherwise: {name}")
    print(f"{len(CASES) - len(wrong)} of {len(CASES)} as wanted")
    return 1 if wrong else 0


if __name__ == "__main__":
    sys.exit(main())
