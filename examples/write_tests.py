#!/usr/bin/env python3
"""Writes the examples of this folder as tests: the module `examples` of the crate `checks_examples`.

    python3 examples/write_tests.py

A file `why` has a line for each instance of a use: its path without `.json`, a colon, and which rule decides its answer.
Run it after an example was added or changed. `run.py` says where the tests are behind.
"""

import sys
from pathlib import Path

FOLDER = Path(__file__).resolve().parent
SOURCES = FOLDER.parent / "crates" / "checks_examples" / "src"
WIDTH = 100
LONG = 60
WRITTEN = "written by `examples/write_tests.py`"


def text_of(file):
    """The text of a file without its last line feed."""
    return file.read_text(encoding="utf-8").removesuffix("\n")


def literal(text):
    """The text as a literal of Rattle."""
    if '"' not in text and "\\" not in text:
        return f'"{text}"'
    hashes = ""
    while '"' + hashes in text:
        hashes += "#"
    return f'r{hashes}"{text}"{hashes}'


def constant(name, text):
    head = f"const {name}: &str ="
    value = literal(text) + ";"
    fits = len(f"{head} {value}".splitlines()[0]) <= WIDTH
    return f"{head} {value}" if fits else f"{head}\n    {value}"


def rust_name(path):
    return path.replace("-", "_").replace("/", "_")


def leaves(folder):
    """The folders at or below this one that hold instances, by name."""
    found = {file.parent for file in folder.rglob("*.json")}
    return sorted(found)


def instances(leaf):
    return [file for file in sorted(leaf.glob("*.json")) if file.name != "schema.json"]


def reasons(folder):
    """Why each instance of a use has its answer, by its path below the use without `.json`."""
    lines = (folder / "why").read_text(encoding="utf-8").splitlines()
    return dict(line.split(": ", 1) for line in lines)


def named(constants, name, text):
    """The text as a cell of a table: a long one stands above it, under this name."""
    if "\n" not in text and len(text) <= LONG:
        return literal(text)
    constants += [constant(name, text), ""]
    return name


def checks_table(rows):
    """A constant with a record for each check of two files, in the layout of `rt fmt`."""
    head = "const FILES: &[FileCheck] = &["
    names = ["why", "uri", "schema", "instance", "wanted"]
    records = [[f"{name}: {part}," for name, part in zip(names, row)] for row in rows]
    if len(records) == 1:
        return [f"{head}FileCheck {{", *(f"    {field}" for field in records[0]), "}];", ""]
    lines = [head]
    for record in records:
        lines += ["    FileCheck {", *(f"        {field}" for field in record), "    },"]
    return [*lines, "];", ""]


def inputs_table(rows):
    """A constant with a row for each input, in the layout of `rt fmt`."""
    head = "const INPUTS: &[(&str, &str, &str)] = &["
    if len(rows) == 1:
        return [f"{head}(", *(f"    {part}," for part in rows[0]), ")];", ""]
    lines = [head]
    for row in rows:
        lines += ["    (", *(f"        {part}," for part in row), "    ),"]
    return [*lines, "];", ""]


def uses(folder):
    """The constants of one use, its rows of files and its rows of inputs."""
    constants, files, inputs, why = [], [], [], reasons(folder)
    for leaf in leaves(folder):
        within = str(leaf.relative_to(folder))
        prefix = "" if within == "." else rust_name(within).upper() + "_"
        schema = leaf / "schema.json"
        if schema.exists():
            name = prefix.removesuffix("_") or "SCHEMA"
            constants += [constant(name, text_of(schema)), ""]
        for instance in instances(leaf):
            path = str(instance.relative_to(folder).with_suffix(""))
            if path not in why:
                sys.exit(f"{folder / 'why'} has no line for {path}")
            own = prefix + rust_name(instance.stem).upper()
            texts = [named(constants, own, text_of(instance)), named(constants, own + "_ANSWER", text_of(instance.with_suffix(".answer")))]
            if not schema.exists():
                inputs.append([literal(why[path]), *texts])
                continue
            uri = leaf / "uri"
            files.append([literal(why[path]), literal(text_of(uri)) if uri.exists() else "DEFAULT_URI", name, *texts])
    return constants, files, inputs


def test(name, call):
    """A test that goes over a table."""
    head = f"fn {name.lower()}_have_their_answers(rt: HostRuntime) {{"
    return ["#[test]", head, f"    for row in {name} {{", f"        {call}(&rt, rt.alloc(), row);", "    }", "}", ""]


def module(folder):
    """The source of the tests of one use."""
    constants, files, inputs = uses(folder)
    helpers = ["FileCheck", "expect_files"] * bool(files) + ["expect_standard_input"] * bool(inputs)
    imported = helpers[0] if len(helpers) == 1 else "{" + ", ".join(helpers) + "}"
    lines = [f"//! The examples in `examples/{folder.name}`, {WRITTEN}.", "", f"use crate::answers::{imported};"]
    lines += ["use checks::DEFAULT_URI;"] * any(row[1] == "DEFAULT_URI" for row in files)
    lines += ["", *constants]
    if files:
        lines += checks_table(files)
        lines += test("FILES", "expect_files")
    if inputs:
        lines += ["// Why, input and answer.", *inputs_table(inputs)]
        lines += test("INPUTS", "expect_standard_input")
    return "\n".join(lines)


def listing(folders):
    """The source of the module that the tests of each use stand in."""
    lines = [f"//! The examples of the folder `examples`, a module each, {WRITTEN}.", ""]
    return "\n".join(lines + [f"mod {rust_name(it.name)};" for it in folders]) + "\n"


def sources():
    """The text of each file that is written, by its path below the crate's sources."""
    folders = [it for it in sorted(FOLDER.iterdir()) if it.is_dir() and it.name not in ("service", "shop") and leaves(it)]
    texts = {f"examples/{rust_name(it.name)}.rt": module(it) for it in folders}
    texts["examples.rt"] = listing(folders)
    return texts


def stale():
    """The files that aren't what the examples give."""
    wanted = sources()
    written = [*SOURCES.glob("examples.rt"), *SOURCES.glob("examples/*.rt")]
    there = {str(file.relative_to(SOURCES)) for file in written}
    changed = [it for it, text in wanted.items() if it in there and (SOURCES / it).read_text(encoding="utf-8") != text]
    return sorted({*changed, *(there ^ wanted.keys())})


def main():
    (SOURCES / "examples").mkdir(parents=True, exist_ok=True)
    for name in stale():
        (SOURCES / name).unlink(missing_ok=True)
    for name, text in sources().items():
        (SOURCES / name).write_text(text, encoding="utf-8")


if __name__ == "__main__":
    main()
