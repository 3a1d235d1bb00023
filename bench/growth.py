#!/usr/bin/env python3
"""Shows how the cost of a check grows where schema and instance grow alike, each row in a way of its own.

    python3 bench/growth.py --program PATH [--only NAME] [--size F]

PATH is a built program of the crate `benchmark`. Each row is a kind of schema with an instance, made of n parts, 2 n and 4 n:
the instructions of reading, compiling and judging it are counted by valgrind, or where it isn't installed the processor's
time is taken. The exponent is that of the power of the size by which the cost grows from the least to the largest: 1 where
twice the size costs twice as much, 2 where it costs four times as much. --size makes all rows so many times larger.
"""

import argparse
import math
import os
import sys
import tempfile
from pathlib import Path

from hostile import deep_chain, dynamic_scope, dynamic_within, names
from run import Bench, amount, print_table
from workloads import compact, many_patterns

MOST = 1.2


def chained(schema, length):
    """A chain of so many references that ends in a schema."""
    chain = {f"d{n}": {"$ref": f"#/$defs/d{n + 1}"} for n in range(1, length)}
    return {"$ref": "#/$defs/d1", "$defs": {**chain, f"d{length}": schema}}


def long_reference(n):
    name = "d" * n
    return {"items": {"$ref": f"#/$defs/{name}"}, "$defs": {name: True}}, [0] * n


def unlike_references(n):
    names_of_two = ["d" * n + last for last in "ab"]
    each = [{"$ref": f"#/$defs/{name}"} for name in names_of_two]
    return {"items": {"allOf": each}, "$defs": {name: True for name in names_of_two}}, [0] * n


def long_resource(n):
    inner = {"$id": "i/" * (n // 2), "$ref": "#/$defs/x", "$defs": {"x": True}}
    return {"items": {"$ref": "#/$defs/e"}, "$defs": {"e": inner}}, [0] * n


def long_identifier(n):
    # It applies something, since a schema object that only asserts isn't entered where it holds.
    return {"items": {"$id": "i/" * (n // 2), "allOf": [{"type": "integer"}]}}, [0] * n


def dynamic(n):
    return dynamic_scope(n), [0] * (10 * n)


def dynamic_in_long_resource(n):
    return dynamic_within("i/" * (n // 2), ["a"]), [0] * n


def long_dynamic_anchor(n):
    return dynamic_within("i/", ["a" * n]), [0] * n


def ignored(n):
    return {"items": {f"$x{number}": 1 for number in range(n)}}, [0] * (4 * n)


def dependent_required(n):
    return {"items": {"dependentRequired": {name: [] for name in names(n)}}}, [{}] * (4 * n)


def dependent_schemas(n):
    return {"items": {"dependentSchemas": {name: True for name in names(n)}}}, [{}] * (4 * n)


def properties(n):
    return {"items": {"properties": {name: True for name in names(n)}}}, [{"a": 1}] * (4 * n)


def required(n):
    return {"items": {"required": names(n)}}, [0] * (4 * n)


def enumerated(n):
    return {"items": {"enum": names(n)}}, [names(n)[-1]] * (4 * n)


def in_place(n):
    return chained({"items": {"type": "object"}}, n), [{}] * (40 * n)


def searched(n):
    return {"items": {"pattern": "a" * n}}, ["b"] * n


def failing_levels(n):
    return chained({"items": False}, n), [0] * (8 * n)


def linked_anchors(n):
    schema = {"$anchor": "a"}
    for number in range(40):
        schema = {"$defs": {"d": schema, "e": {"$anchor": f"a{number}"}}}
    return {"$defs": {"deep": schema, **{f"d{number}": {"$anchor": f"b{number}"} for number in range(n)}}}, 0


# Each with the n that it begins with.
ROWS = {
    "a reference of n bytes, followed n times": (long_reference, 1_000),
    "two references of n bytes that differ in the last": (unlike_references, 1_000),
    "a reference in a resource with a URI of n bytes": (long_resource, 1_000),
    "an $id of n bytes, entered n times": (long_identifier, 1_000),
    "$dynamicRef with n resources in scope, 10 n times": (dynamic, 100),
    "$dynamicRef in a resource with a URI of n bytes, n times": (dynamic_in_long_resource, 12_000),
    "$dynamicRef to an anchor of n bytes, n times": (long_dynamic_anchor, 12_000),
    "n names that are ignored, 4 n times": (ignored, 400),
    "dependentRequired of n names, 4 n objects": (dependent_required, 400),
    "dependentSchemas of n names, 4 n objects": (dependent_schemas, 400),
    "properties of n names, 4 n objects of one": (properties, 400),
    "required of n names, 4 n numbers": (required, 400),
    "enum of n texts, 4 n texts": (enumerated, 400),
    "n applications in place above 40 n objects": (in_place, 200),
    "a pattern of n bytes, n searches": (searched, 1_000),
    "n patterns, each searched for once": (many_patterns, 200),
    "n levels that fail above 8 n errors": (failing_levels, 100),
    "n anchors": (linked_anchors, 2_000),
}


def cost(bench, schema, instance):
    """The instructions of one check, or its seconds where they can't be counted."""
    with tempfile.NamedTemporaryFile("w", suffix=".json", delete=False, encoding="utf-8") as it:
        it.write(compact({"schema": schema, "instance": instance}))
    try:
        if bench.valgrind:
            return bench.counted("check", it.name, 1) - bench.counted("check", it.name, 0)
        return bench.turn("check", it.name)
    finally:
        os.unlink(it.name)


def main():
    words = argparse.ArgumentParser(description="Shows how the cost of a check grows.")
    words.add_argument("--program", required=True, help="a built program of the crate benchmark")
    words.add_argument("--only", help="the rows whose name holds this text")
    words.add_argument("--size", type=int, default=1, help="how many times larger than usual")
    words = words.parse_args()
    bench = Bench(str(Path(words.program).resolve()), 1)
    unit = "Instructions" if bench.valgrind else "Seconds"
    found = []

    def rows():
        for name, (make, least) in ROWS.items():
            if words.only and words.only not in name:
                continue
            size = least * words.size
            costs = [cost(bench, *make(size * times)) for times in (1, 2, 4)]
            exponent = math.log(costs[2] / costs[0], 4)
            found.append(exponent)
            yield [name, amount(size), *(amount(it) for it in costs), f"{exponent:.2f}"]

    print_table(["Row", "n", f"{unit}, n", "2 n", "4 n", "Exponent"], rows())
    over = sum(exponent > MOST for exponent in found)
    print(f"{len(found)} rows, {over} of them above {MOST}")


if __name__ == "__main__":
    sys.exit(main())
