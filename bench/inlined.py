#!/usr/bin/env python3
"""Lists the functions that ask to be inlined always and stand in a built program on their own all the same.

    python3 bench/inlined.py [--program PATH]

PATH is a built program (crates/benchmark/out/benchmark if it isn't said). Nothing is built here. Needs `nm` and Python's
standard library.

`inline(always)` is dropped, without a word, from a function that would grow very large: what it calls and is inlined too is
counted as it is written, before anything is simplified. Such a function is a call, which costs most where it is called most.
Whatever is listed is marked smaller, split, or no longer asked to be inlined. It ends with status 1 where it lists one.
"""

import argparse
import re
import subprocess
import sys
from pathlib import Path

TOP = Path(__file__).resolve().parent.parent

FUNCTION = re.compile(r"(?:pub(?:\([a-z]+\))? )?(?:const )?(?:unsafe )?fn (\w+)")


def without_generics(text):
    """`impl<'a> Iterator for Names<'a>` without what stands in angle brackets."""
    depth, kept = 0, ""
    for letter in text:
        if letter == "<":
            depth += 1
        elif letter == ">":
            depth -= 1
        elif depth == 0:
            kept += letter
    return kept


def owner_of(line):
    """The name under which the functions of an `impl` stand in a program: the type's, and the trait's behind it."""
    words = without_generics(line).replace("{", " ").split(" where")[0].split()[1:]
    if "for" in words:
        at = words.index("for")
        return words[at + 1].split("::")[-1] + words[0].split("::")[-1]
    return words[0].split("::")[-1]


def asked():
    """The functions that ask for it: crate, type or module, name."""
    for path in sorted((TOP / "crates").glob("*/src/**/*.rt")):
        crate, owner, always = path.relative_to(TOP / "crates").parts[0], None, False
        for line in path.read_text(encoding="utf-8").splitlines():
            if line.startswith("impl"):
                owner = owner_of(line)
            elif line.startswith("}"):
                owner = None
            words = line.strip()
            if words == "#[inline(always)]":
                always = True
            found = FUNCTION.match(words)
            if found:
                if always:
                    yield crate, owner or path.stem, found[1]
                always = False


def standing(program):
    """The functions of the program, as the paths of their names without what they are made for."""
    said = subprocess.run(["nm", "--defined-only", program], capture_output=True, text=True, check=True).stdout
    for line in said.splitlines():
        path = line.split(" ", 2)[2].split("::<")[0]
        yield tuple(path.split("::"))


def main():
    parser = argparse.ArgumentParser(description=__doc__.split("\n")[0])
    parser.add_argument("--program", default=str(TOP / "crates/benchmark/out/benchmark"))
    program = parser.parse_args().program
    wanted = set(asked())
    found = sorted({path for path in standing(program) if len(path) > 2 and (path[0], path[-2], path[-1]) in wanted})
    for path in found:
        print("::".join(path))
    print(f"{len(found)} of {len(wanted)} that ask to be inlined stand on their own")
    return 1 if found else 0


if __name__ == "__main__":
    sys.exit(main())
