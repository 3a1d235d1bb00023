#!/usr/bin/env python3
"""Runs every example against the built program and says which pass.

    python3 examples/run.py [PROGRAM]

PROGRAM is the path of the program; without it, it is crates/schemareg/out/schemareg, where `rt run` leaves it.
An example passes where the program prints what the file NAME.answer holds, byte for byte, on the right stream, nothing on
the other, and ends with the right status. The service is run by `serving.py`, with curl where it is installed. What no contract
can say of the words, the files and the streams is tried by `streams.py`, and of connections over TCP by `connections.py`, each
under a name that says it. The crate `checks_examples` passes where its module `examples` has the tests that the examples give.
The exit status is 0 where all pass, and else 1.
"""

import subprocess
import sys
from http.client import HTTPException
from pathlib import Path

import connections
import files
import serving
import side_by_side
import stored
import streams
import write_tests

FOLDER = Path(__file__).resolve().parent
PROGRAM = FOLDER.parent / "crates" / "schemareg" / "out" / "schemareg"
SECONDS = 60


def cases():
    """Each instance and each list of words: its name, the words of the command line, the standard input, and the file of
    the answer."""
    for instance in sorted(FOLDER.rglob("*.json")):
        folder = instance.parent
        if instance.name == "schema.json" or folder == serving.SERVICE or files.SHOP.name in folder.parts:
            continue
        schema = folder / "schema.json"
        answer = instance.with_suffix(".answer")
        name = str(instance.relative_to(FOLDER).with_suffix(""))
        if not schema.exists():
            yield name, [], instance.read_bytes(), answer
            continue
        words = ["check"]
        uri = folder / "uri"
        if uri.exists():
            words += ["--uri", uri.read_text().strip()]
        yield name, [*words, str(schema), str(instance)], b"", answer
    for file in sorted(FOLDER.rglob("*.words")):
        name = str(file.relative_to(FOLDER).with_suffix(""))
        yield name, file.read_text().splitlines(), b"", file.with_suffix(".answer")


def expected(answer):
    """What has to come on standard output and standard error, and the status: all three follow from the answer."""
    text = answer.read_bytes()
    if text.startswith((b"refused: ", b"cannot read ", b"error: ")):
        return b"", text, 2
    return text, b"", 1 if text.endswith(b'"valid":false}\n') else 0


def found(program, words, given):
    done = subprocess.run([program, *words], input=given, capture_output=True, timeout=SECONDS, cwd=FOLDER)
    return done.stdout, done.stderr, done.returncode


def main():
    program = Path(sys.argv[1]) if len(sys.argv) > 1 else PROGRAM
    if not program.exists():
        sys.exit(f"{program} is not there: build it by `cd crates/schemareg && rt run < stdin`")
    passed = failed = 0
    for name, words, given, answer in cases():
        if not answer.exists():
            failed += 1
            print(f"FAILED  {name}: {answer.name} is not there")
            continue
        wanted = expected(answer)
        got = found(program.resolve(), words, given)
        if got == wanted:
            passed += 1
            print(f"passed  {name}")
        else:
            failed += 1
            print(f"FAILED  {name}")
            for part, want, have in zip(("standard output", "standard error", "status"), wanted, got):
                if want != have:
                    print(f"        {part}: wanted {want!r}")
                    print(f"        {' ' * len(part)}     got {have!r}")
    for name, trial in (trial for module in (serving, streams, files, connections, side_by_side, stored) for trial in module.trials(program.resolve())):
        if trial is None:
            print(f"skipped {name}: what it needs is not here")
            continue
        try:
            wrong = trial()
        except (OSError, HTTPException, subprocess.TimeoutExpired) as error:
            wrong = str(error)
        if wrong is None:
            passed += 1
            print(f"passed  {name}")
        else:
            failed += 1
            print(f"FAILED  {name}\n        {wrong}")
    behind = write_tests.stale()
    if behind:
        failed += 1
        print(f"FAILED  checks_examples: run examples/write_tests.py for {', '.join(behind)}")
    else:
        passed += 1
        print("passed  checks_examples")
    print(f"{passed} passed, {failed} failed")
    sys.exit(1 if failed or not passed else 0)


if __name__ == "__main__":
    main()
