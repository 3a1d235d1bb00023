#!/usr/bin/env python3
"""Sends the built program what a stranger would send to use up its time and its memory.

  hostile.py [--program PATH] [--only NAME] [--seconds S] [--memory MB] [--list]

Each case is a run of the program, mostly `run` over the requests of one tenant within all limits of a body, and an answer
that it has to end with. The program's processor time and the most memory that it had are those of its process, with its
start. A case is `ok` where it takes at most a second and 256 MB, and else `over`; one that has to be over has a reason
in docs/LIMITS.md. A run may take S seconds (120 if it isn't said) and MB of address space (2,000 if it isn't said). The
status is 1 where an answer is wrong or missing, or where a case that isn't marked is over.
"""
import argparse
import json
import os
import re
import resource
import subprocess
import sys
import tempfile
import time
from pathlib import Path

sys.path.insert(0, str(Path(__file__).resolve().parent.parent / "tools"))
import talks  # noqa: E402
from talks import as_bytes, compact, request, tenants  # noqa: E402

BODY = 1_048_576
SITE = "https://ex.org/"
SECOND = 1.0
MEGABYTES = 256


class Case:
    """Requests of one tenant, a stream, or a tenants' file; and what the last replies, or the run's end, have to be. `over`
    says what makes it take more; `memory` are the megabytes of address space that it has."""

    def __init__(self, name, make, wanted, over="", words=(), memory=None):
        self.name = name
        self.make = make
        self.wanted = wanted
        self.over = over
        self.words = words
        self.memory = memory


def check(schema, instance, uri=f"{SITE}s"):
    """Puts the schema and judges the instance by it."""
    return [("k", "put", uri, schema), ("k", "validate", uri, instance)]


def check_two(schema, instance):
    """The same, where the schema refers to another document."""
    other = {"$ref": f"{SITE}other"}
    schema = {**schema, "$defs": {**schema.get("$defs", {}), "other": other}}
    return [("k", "put", f"{SITE}other", {}), *check(schema, instance)]


def embedding(count):
    """Puts so many documents that embed a resource each."""
    return [("k", "put", f"{SITE}d{n}", {"$defs": {"e": {"$id": f"e{n}"}}}) for n in range(count)]


def repeated(part, size=BODY, front=b"[", back=b"]", between=b","):
    """So many bytes of a list, or of another body, of one part again and again."""
    count = (size - len(front) - len(back) + len(between)) // (len(part) + len(between))
    return front + between.join([part] * count) + back


def members(make, size=BODY, front=b"{", back=b"}"):
    """So many bytes of an object whose members are made by number."""
    parts, left, number = [], size - len(front) - len(back), 0
    while True:
        part = make(number)
        left -= len(part) + 1
        if left < 0:
            return front + b",".join(parts) + back
        parts.append(part)
        number += 1


def definitions(make, size=BODY, front=b'{"$defs":{', back=b"}}"):
    return members(make, size, front, back)


def nested(depth, opened=b"[", closed=b"]", inner=b""):
    return opened * depth + inner + closed * depth


# ---- schemas


def take_turns(schema_of, elements, definitions=()):
    """Sixty-five members, of which each element has the first and the last: the numbers of their schemas' references, or
    patterns, are 64 apart."""
    properties = {f"p{number:02}": schema_of(number) for number in range(65)}
    schema = {"$defs": dict(definitions), "items": {"properties": properties}}
    return schema, [{"p00": "b", "p64": "b"}] * elements


def long_of_two(number, size):
    return {0: "a" * size, 64: "c" * size}.get(number, f"s{number}")


def references_in_turn(elements, size=240_000):
    texts = [long_of_two(number, size) for number in range(65)]
    return take_turns(lambda number: {"$ref": f"#/$defs/{texts[number]}"}, elements, [(text, {}) for text in texts])


def patterns_in_turn(elements, size=400_000):
    return take_turns(lambda number: {"pattern": f"{long_of_two(number, size)}|b"}, elements)


# The beginnings of documents of definitions: in a resource with a long URI, and below a long name.
LONG_ID = b'{"$id":"%s/","$defs":{' % (b"i" * 400_000)
LONG_NAME = b'{"$defs":{"%s":{"$defs":{' % (b"n" * 400_000)


def dynamic_within(uri, anchors):
    """Elements that are judged in a resource with this `$id` by dynamic references to each of its anchors in turn."""
    within = {f"d{number}": {"$dynamicAnchor": anchor} for number, anchor in enumerate(anchors)}
    references = [{"$dynamicRef": f"#{anchor}"} for anchor in anchors]
    inner = {"$id": uri, "allOf": references, "$defs": within}
    return {"items": {"$ref": "#/$defs/e"}, "$defs": {"e": inner}}


def deep_chain(length):
    chain = {f"d{number}": {"$ref": f"#/$defs/d{number + 1}"} for number in range(1, length)}
    return {"$ref": "#/$defs/d1", "$defs": {**chain, f"d{length}": {}}}


def dynamic_scope(resources, others=0):
    """A chain of so many resources, above elements that are judged by a dynamic reference to an anchor of none of them. So
    many others have the anchor, too."""
    chain = {f"r{number}": {"$id": f"r{number}", "$ref": f"r{number + 1}"} for number in range(resources)}
    last = {"$id": f"r{resources}", "items": {"$dynamicRef": "leaf#leaf"}}
    anchored = {f"o{number}": {"$id": f"o{number}", "$dynamicAnchor": "leaf"} for number in range(others)}
    leaf = {"$id": "leaf", "$dynamicAnchor": "leaf"}
    return {"$ref": "r0", "$defs": {**chain, "last": last, "leaf": leaf, **anchored}}


def doubled(levels, more=None):
    """2^levels applications in place."""
    chain = {f"d{number}": {"allOf": [{"$ref": f"#/$defs/d{number + 1}"}] * 2} for number in range(1, levels)}
    return {"$ref": "#/$defs/d1", "$defs": {**chain, f"d{levels}": more or {}}}


def in_place(count, schema):
    """So many equal schemas in place."""
    return {"allOf": [schema] * count}


def unlike_lists(depth):
    """Lists of two lists each, which are unlike in their depths alone."""
    made = []
    for _ in range(depth):
        made = [made, [made]]
    return made


def names(count, letter="n"):
    return [f"{letter}{number:05}" for number in range(count)]


def long_names(depth, size):
    return b'{"%s":' % (b"n" * size) * depth


CASES = [
    # -- bodies
    Case("a body of 1 MB of open brackets", lambda: check({}, b"[" * BODY), "400 BadJson"),
    Case("127 lists in one another", lambda: check({}, nested(127)), "200 valid"),
    Case("128 lists in one another", lambda: check({}, nested(128)), "400 BadJson"),
    Case("a schema that nests 120 deep", lambda: check(b'{"const":%s}' % nested(119), nested(119)), "200 valid"),
    Case("a schema that nests 121 deep", lambda: check(b'{"const":%s}' % nested(120), 1), "404 NotFound"),
    Case("520,000 numbers", lambda: check({}, repeated(b"1")), "200 valid"),
    Case("350,000 empty objects", lambda: check({}, repeated(b"{}")), "200 valid"),
    Case("one text of 1 MB", lambda: check({"maxLength": 1}, b'"' + b"a" * (BODY - 2) + b'"'), "200 invalid"),
    Case("one text of 175,000 escapes", lambda: check({"maxLength": 1}, b'"' + b"\\u00e4" * (BODY // 6 - 1) + b'"'), "200 invalid"),
    Case("100,000 names in falling order", lambda: check({}, members(lambda n: b'"%06d":1' % (999_999 - n))), "200 valid"),
    Case("one name 170,000 times", lambda: check({}, members(lambda n: b'"a":1')), "200 valid"),
    Case("1,000 names of 1,000 bytes with one beginning", lambda: check(
        {}, members(lambda n: b'"%s%04d":1' % (b"n" * 1000, n * 7919 % 10_000))), "200 valid"),
    Case("a number of 1 MB", lambda: check({}, b"1" * BODY), "400 Bad(Json|Number)"),
    Case("1 MB that isn't UTF-8", lambda: check({}, b'"' + b"\xff" * (BODY - 2) + b'"'), "400 BadJson"),
    # -- schemas
    Case("put: 150,000 schemas", lambda: [("k", "put", f"{SITE}s", repeated(b"true", BODY, b'{"prefixItems":[', b"]}"))], "201"),
    Case("put: 45,000 definitions with an anchor", lambda: [
        ("k", "put", f"{SITE}s", definitions(lambda n: b'"%d":{"$anchor":"a%d"}' % (n, n)))], "201"),
    Case("put: 50,000 definitions with an $id", lambda: [
        ("k", "put", f"{SITE}s", definitions(lambda n: b'"%d":{"$id":"i%d"}' % (n, n)))], "201"),
    Case("put: resources 59 deep, 6,000 anchors at the bottom", lambda: [
        ("k", "put", f"{SITE}s", b'{"$defs":{"d":' * 59 + definitions(lambda n: b'"%d":{"$anchor":"a%d"}' % (n, n), 200_000)
         + b"}}" * 59)], "400 TooNested"),
    Case("put: schemas 58 deep, 45,000 anchors at the bottom", lambda: [
        ("k", "put", f"{SITE}s", b'{"$defs":{"d":' * 58 + definitions(lambda n: b'"%d":{"$anchor":"a%d"}' % (n, n), BODY - 1000)
         + b"}}" * 58)], "201"),
    Case("put: schemas 58 deep, 45,000 definitions with an $id at the bottom", lambda: [
        ("k", "put", f"{SITE}s", b'{"$defs":{"d":' * 58 + definitions(lambda n: b'"%d":{"$id":"%d"}' % (n, n), BODY - 1000)
         + b"}}" * 58)], "201"),
    Case("put: 100,000 names that mean nothing, in falling order", lambda: [
        ("k", "put", f"{SITE}s", members(lambda n: b'"%06d":1' % (999_999 - n)))], "201"),
    Case("put: one anchor twice among 45,000", lambda: [
        ("k", "put", f"{SITE}s", definitions(lambda n: b'"%d":{"$anchor":"a%d"}' % (n, max(n, 1))))], "400 DuplicateAnchor"),
    Case("put: anchors in a resource with a URI of 400 KB", lambda: [
        ("k", "put", f"{SITE}s", definitions(lambda n: b'"%d":{"$anchor":"a%d"}' % (n, n), front=LONG_ID))], "503 NoRoom"),
    Case("put: references in a resource with a URI of 400 KB", lambda: [
        ("k", "put", f"{SITE}s", definitions(lambda n: b'"%d":{"$ref":"#"}' % n, front=LONG_ID))], "503 NoRoom"),
    Case("put: resources beside one with a URI of 400 KB", lambda: [
        ("k", "put", f"{SITE}s", definitions(lambda n: b'"%d":{"$id":"%d"}' % (n, n), front=LONG_ID))], "503 NoRoom"),
    Case("put: anchors below a name of 400 KB", lambda: [
        ("k", "put", f"{SITE}s", definitions(lambda n: b'"%d":{"$anchor":"a%d"}' % (n, n), front=LONG_NAME, back=b"}}}}"))],
        "503 NoRoom"),
    Case("put: resources below a name of 400 KB", lambda: [
        ("k", "put", f"{SITE}s", definitions(lambda n: b'"%d":{"$id":"/%d"}' % (n, n), front=LONG_NAME, back=b"}}}}"))],
        "503 NoRoom"),
    Case("10,000 references to schemas of a resource with a URI of 400 KB", lambda: check(
        {"allOf": [{"$ref": f"#/$defs/l/$defs/{n}"} for n in range(10_000)],
         "$defs": {"l": {"$id": "l" * 400_000, "$defs": {str(n): {"minimum": 0} for n in range(10_000)}}}},
        1, SITE + "s" * 130), "200 valid"),
    Case("28,000 definitions that each refer to the next", lambda: check(
        {"$defs": {str(n): {"$ref": f"#/$defs/{(n + 1) % 28_000}"} for n in range(28_000)}}, 1), "200 valid"),
    Case("a chain of 999 references", lambda: check(deep_chain(998), 1), "200 valid"),
    Case("a chain of 1,001 references", lambda: check(deep_chain(1000), 1), "400 Deep"),
    Case("2^16 applications", lambda: check(doubled(15), 1), "200 valid"),
    Case("2^60 applications", lambda: check(doubled(60), 1), "400 Costly"),
    Case("99,999 applications", lambda: check({"items": True}, [0] * 99_999), "200 valid"),
    Case("100,001 applications", lambda: check({"items": True}, [0] * 100_000), "400 Costly"),
    Case("a reference of 20,000 bytes, followed 20,000 times", lambda: check(
        {"items": {"$ref": "#/$defs/" + "d" * 20_000}, "$defs": {"d" * 20_000: True}}, [0] * 20_000), "200 valid"),
    Case("an $id of 20,000 bytes, entered 20,000 times", lambda: check(
        {"items": {"$id": "i/" * 10_000, "pattern": "a"}}, ["a"] * 20_000), "200 valid"),
    Case("9,000 dynamic references, 900 resources in scope", lambda: check(dynamic_scope(900), [0] * 9_000), "200 valid"),
    Case("the same, and 900 other resources that have the anchor", lambda: check(
        dynamic_scope(900, 900), [0] * 9_000), "200 valid"),
    Case("5,000 names that are ignored, applied 20,000 times", lambda: check(
        {"items": {f"$x{n}": 1 for n in range(5_000)}}, [0] * 20_000), "200 valid"),
    Case("dependentRequired of 5,000 names on 20,000 objects", lambda: check(
        {"items": {"dependentRequired": {name: [] for name in names(5_000)}}}, [{}] * 20_000), "200 valid"),
    Case("dependentSchemas of 5,000 names on 20,000 objects", lambda: check(
        {"items": {"dependentSchemas": {name: True for name in names(5_000)}}}, [{}] * 20_000), "200 valid"),
    Case("properties of 5,000 names on 20,000 objects", lambda: check(
        {"items": {"properties": {name: True for name in names(5_000)}}}, [{"a": 1}] * 20_000), "200 valid"),
    Case("required of 10,000 names on 40,000 numbers", lambda: check(
        {"items": {"required": names(10_000)}}, [0] * 40_000), "200 valid"),
    Case("enum of 3,000 texts on 12,000 texts", lambda: check(
        {"items": {"enum": names(3_000)}}, ["n02999"] * 12_000), "200 valid"),
    Case("480 levels that fail, 4,000 errors", lambda: check(
        {**deep_chain(480), "$defs": {**{f"d{n}": {"$ref": f"#/$defs/d{n + 1}"} for n in range(1, 480)},
                                      "d480": {"items": False}}}, [0] * 4_000), "200 invalid"),
    Case("960 applications in place above 38,400 objects", lambda: check(
        {**deep_chain(960), "$defs": {**{f"d{n}": {"$ref": f"#/$defs/d{n + 1}"} for n in range(1, 960)},
                                      "d960": {"items": {"type": "object"}}}}, [{}] * 38_400), "200 valid"),
    Case("unevaluatedProperties over 40,000 names", lambda: check(
        {"allOf": [{"properties": {name: True for name in names(20_000)}}], "unevaluatedProperties": True},
        {name: 1 for name in names(40_000)}), "200 valid"),
    Case("oneOf of 50,000", lambda: check({"oneOf": [False] * 49_999 + [True]}, 1), "200 valid"),
    Case("uniqueItems on 40,000 objects", lambda: check(
        {"uniqueItems": True}, [{"a": number % 7, "b": number} for number in range(40_000)]), "200 valid"),
    Case("uniqueItems on 3 times 2^13 lists in one another", lambda: check(
        {"uniqueItems": True, "items": {"$ref": "#"}}, unlike_lists(13)), "200 valid"),
    # -- many documents
    Case("4,000 documents that embed a resource, 48,000 references in one more", lambda: [
        *embedding(4_000),
        ("k", "put", f"{SITE}s", {"$defs": {str(n): {"$ref": f"d{n}"} for n in range(4_000)},
                                  "items": {"$id": "z", "$ref": "d0"}}),
        ("k", "validate", f"{SITE}s", [0] * 48_000)], "200 valid"),
    Case("25,000 references to resources that 4,000 documents embed", lambda: [
        *embedding(4_000),
        *check({"$defs": {str(n): {"$ref": f"e{n % 4_000}"} for n in range(25_000)}}, 0)], "200 valid"),
    Case("4,000 documents with a pattern each, 48,000 searches for another", lambda: [
        *[("k", "put", f"{SITE}d{n}", {"pattern": f"x{n}"}) for n in range(4_000)],
        *check({"$defs": {str(n): {"$ref": f"d{n}"} for n in range(4_000)}, "items": {"pattern": "^a"}},
               ["a"] * 48_000)], "200 valid"),
    # -- applications times size
    Case("two references of 240 KB, followed 38,000 times in turn", lambda: check(*references_in_turn(19_000)), "200 valid"),
    Case("two patterns of 400 KB, searched for 66,000 times in turn", lambda: check(*patterns_in_turn(33_000)), "200 valid"),
    Case("of two documents an $id of 900 KB, entered 99,000 times", lambda: check_two(
        {"items": {"$id": "i" * 900_000, "pattern": "a"}}, ["a"] * 99_000), "200 valid"),
    Case("an $id of 480 KB that two resources have, entered 99,000 times", lambda: check(
        {"items": {"$id": "i" * 480_000, "pattern": "a"},
         "$defs": {"o": {"$id": "https://other.org/", "$defs": {"p": {"$id": "i" * 480_000}}}}},
        ["a"] * 99_000), "200 valid"),
    Case("of two documents a reference in a resource of 400 KB, followed 49,000 times", lambda: check_two(
        {"$ref": "i" * 400_000, "$defs": {"e": {"$id": "i" * 400_000, "items": {"$ref": "#/$defs/t"}, "$defs": {"t": True}}}},
        [0] * 49_000), "200 valid"),
    Case("a dynamic reference in a resource with a URI of 900 KB, entered 24,000 times", lambda: check(
        dynamic_within("i" * 900_000, ["a"]), [0] * 24_000), "200 valid"),
    Case("a dynamic reference to an anchor of 480 KB, entered 24,000 times", lambda: check(
        dynamic_within("i", ["a" * 480_000]), [0] * 24_000), "200 valid"),
    Case("17 dynamic references to anchors of 28 KB in turn, entered 2,600 times", lambda: check(
        dynamic_within("i", ["a" * 28_000 + chr(97 + last) for last in range(17)]), [0] * 2_600), "200 valid"),
    Case("of two documents two patterns of 400 KB, searched for 66,000 times in turn", lambda: check_two(
        *patterns_in_turn(33_000)), "200 valid"),
    Case("2,000 patterns of names, 2,000 other names", lambda: check(
        {"patternProperties": {f"^a{n}$": True for n in range(2_000)}},
        {f"b{n}": 1 for n in range(2_000)}), "200 valid", over="product"),
    Case("additionalProperties beside 4,000 patterns of names, 4,000 names", lambda: check(
        {"patternProperties": {f"^a{n}$": True for n in range(4_000)}, "additionalProperties": False},
        {f"a{n}": 1 for n in range(4_000)}), "200 valid", over="product"),
    Case("maxLength by 2,000 schemas in place on 500 KB of two bytes each", lambda: check(
        {"allOf": [{"maxLength": 300_000}] * 2_000}, "ä" * 250_000), "200 valid", over="product"),
    Case("required of 2,000 names by 2,000 schemas in place", lambda: check(
        {"allOf": [{"$ref": "#/$defs/r"}] * 2_000, "$defs": {"r": {"required": names(2_000)}}},
        {name: 1 for name in names(2_000)}), "200 valid", over="product"),
    Case("uniqueItems on 5,000 elements by 1,000 schemas in place", lambda: check(
        {"allOf": [{"$ref": "#/$defs/u"}] * 1_000, "$defs": {"u": {"uniqueItems": True}}}, list(range(5_000))),
        "200 valid", over="product"),
    Case("const of 20 KB by 2,000 schemas in place", lambda: check(
        {"allOf": [{"$ref": "#/$defs/c"}] * 2_000, "$defs": {"c": {"const": list(range(4_000))}}}, list(range(4_000))),
        "200 valid", over="product"),
    Case("a pattern on 20 KB by 2,000 schemas in place", lambda: check(
        {"allOf": [{"$ref": "#/$defs/p"}] * 2_000, "$defs": {"p": {"pattern": "b$"}}}, "a" * 20_000 + "b"),
        "200 valid", over="product"),
    # -- outputs that are larger than their inputs
    Case("2,000 annotations below 56 names of 1,000 bytes", lambda: check(
        {"additionalProperties": {"$ref": "#"}, "items": {"title": "t"}},
        long_names(56, 1000) + compact([0] * 2_000).encode() + b"}" * 56), "200 valid", over="output"),
    Case("2,000 errors at the same place that no reply has", lambda: check(
        {"anyOf": [{"$ref": "#/$defs/none"}, True],
         "$defs": {"none": {"additionalProperties": {"$ref": "#/$defs/none"}, "items": False}}},
        long_names(56, 1000) + compact([0] * 2_000).encode() + b"}" * 56), "200 valid", over="output"),
    Case("an annotation of 10 KB on 20,000 elements", lambda: check(
        {"items": {"default": "t" * 10_000}}, [0] * 20_000), "200 valid", over="output"),
    Case("an output larger than memory, and then a small one", lambda: check(
        {"additionalProperties": {"$ref": "#"}, "items": False},
        long_names(100, 5_000) + compact([0] * 49_000).encode() + b"}" * 100) + [("k", "validate", f"{SITE}s", 1)],
        "503 NoRoom, 200 valid", over="output", memory=500),
    Case("the same without a limit of 500 MB", lambda: check(
        {"additionalProperties": {"$ref": "#"}, "items": False},
        long_names(100, 5_000) + compact([0] * 49_000).encode() + b"}" * 100) + [("k", "validate", f"{SITE}s", 1)],
        "503 NoRoom, 200 valid", over="output"),
    # -- patterns
    Case("a pattern that is too big", lambda: [("k", "put", f"{SITE}s", {"pattern": r"(?:\w{1000}){1000}"})], "400 BadPattern"),
    Case("a pattern of 1,000,000 letters", lambda: [("k", "put", f"{SITE}s", {"pattern": r"(?:x{1000}){1000}"})], "201"),
    Case("a pattern of parts that read nothing", lambda: [
        ("k", "put", f"{SITE}s", {"pattern": r"(?:[^\s\S]x{1000}){1000}"})], "201"),
    Case("a pattern that nests 300 deep", lambda: [
        ("k", "put", f"{SITE}s", {"pattern": "(" * 300 + "a" + ")" * 300})], "400 BadPattern"),
    Case("a pattern of 1,000 times all letters", lambda: [("k", "put", f"{SITE}s", {"pattern": r"\w{1000}"})], "201", over="pattern"),
    Case("20 patterns of 50 times all letters each", lambda: [
        ("k", "put", f"{SITE}s", {"allOf": [{"pattern": rf"\w{{50}}{n}"} for n in range(20)]})], "201"),
    Case("patterns of 100 MB in 200 KB", lambda: [
        ("k", "put", f"{SITE}s", {"allOf": [{"pattern": rf"\w{{999}}{n:05}"} for n in range(7_000)]})], "400 BadPattern", over="pattern"),
    Case("one pattern of 1 MB", lambda: [("k", "put", f"{SITE}s", {"pattern": "ab" * 500_000})], "400 BadPattern|201", over="pattern"),
    Case("8,000 patterns, each searched for once", lambda: check(
        {"properties": {f"m{n}": {"pattern": f"^[a-z]{{2}}-{n}$"} for n in range(8_000)}},
        {f"m{n}": f"ab-{n}" for n in range(8_000)}), "200 valid", over="pattern"),
    Case("a table that grows with the text, 1 MB", lambda: check(
        {"pattern": "(a|b)*a(a|b){10}$"}, "ab" * 500_000), "200 (in)?valid"),
    Case("a pattern of 1,000 threads, 100 KB", lambda: check(
        {"pattern": "[ab]*a[ab]{1000}c"}, "ab" * 50_000), "200 invalid", over="pattern"),
    Case("a pattern of 13,000 threads, 10 KB", lambda: check(
        {"pattern": "(?:[ab]{0,200}a){0,60}c"}, "ab" * 5_000), "200 invalid", over="pattern"),
    Case("a pattern of 100,000 threads, 20 KB", lambda: check(
        {"pattern": "[ab]*a(?:[ab]{1000}){100}c"}, "ab" * 10_000), "200 invalid", over="pattern"),
    Case("a pattern that others search by going back", lambda: check({"pattern": "^(a+)+$"}, "a" * 100_000 + "b"), "200 invalid"),
    # -- URIs
    Case("a URI of 8,000 dot segments", lambda: [("k", "put", f"{SITE}" + "a/../" * 3_200 + "s", {})], "201"),
    Case("an $id of 1 MB of dot segments", lambda: [("k", "put", f"{SITE}s", {"$id": "a/../" * 200_000 + "s"})], "201"),
    Case("a reference of 1 MB", lambda: check({"$ref": "#/" + "a/" * 500_000}, 1), "409 Unresolved"),
    Case("a reference of 1 MB of escapes", lambda: check({"$ref": "#" + "%61" * 340_000}, 1), "409 Unresolved"),
    Case("a URI of escapes", lambda: [("k", "validate", "https://ex.org/" + "\u00e4" * 2_500, 1)], "404 NotFound"),
    Case("30,000 references to as many documents that aren't there", lambda: check(
        definitions(lambda n: b'"%d":{"$ref":"r%d"}' % (n, n), 900_000), 1), "409 Unresolved"),
    # -- registries
    Case("4,000 documents put one by one", lambda: [
        ("k", "put", f"{SITE}{number}", {}) for number in range(4_000)], "201"),
    Case("500 documents in a ring, judged and bundled", lambda: [
        *[("k", "put", f"{SITE}{n}", {"properties": {"a": {"$ref": str((n + 1) % 500)}}}) for n in range(500)],
        ("k", "validate", f"{SITE}0", {}), ("k", "bundle", f"{SITE}0")], "200"),
    Case("a batch of 64 documents of 16 KB", lambda: [
        ("k", "batch", None, {"put": [{"schema": {"title": "t" * 16_000}, "uri": f"{SITE}{n}"} for n in range(64)]})], "201"),
    Case("a bundle that is too large", lambda: [
        *[("k", "put", f"{SITE}{n}", {"$ref": str((n + 1) % 20), "title": "t" * 60_000}) for n in range(20)],
        ("k", "bundle", f"{SITE}0")], "400 BundleTooLarge"),
    Case("one document of 1 MB put 100 times", lambda: [
        ("k", "put", f"{SITE}s", repeated(b"true", BODY, b'{"prefixItems":[', b"]}"))] * 100, "200", over="many"),
    Case("20 documents of 150,000 schemas, kept compiled", lambda: [
        ("k", "put", f"{SITE}{n}", repeated(b"true", BODY, b'{"prefixItems":[', b"]}")) for n in range(20)], "201", over="cache"),
    Case("the same with --cache 1", lambda: [
        ("k", "put", f"{SITE}{n}", repeated(b"true", BODY, b'{"prefixItems":[', b"]}")) for n in range(20)],
        "201", over="many", words=("--cache", "1")),
    Case("two documents of 8,000 resources each", lambda: [
        ("k", "put", f"https://{site}.org/s", {"$defs": {str(n): {"$id": f"https://{site}.org/{n}"} for n in range(8_000)}})
        for site in "ab"], "201"),
    Case("a document of 8,000 resources, put twice", lambda: [
        ("k", "put", f"{SITE}s", {"$defs": {str(n): {"$id": f"r{n}"} for n in range(8_000)}})] * 2, "200"),
    Case("8 documents of 25 bytes with a large pattern, kept compiled", lambda: [
        ("k", "put", f"{SITE}{n}", {"pattern": rf"\w{{1000}}{n}"}) for n in range(8)], "201", over="cache"),
    Case("the same 8 with --cache 1", lambda: [
        ("k", "put", f"{SITE}{n}", {"pattern": rf"\w{{1000}}{n}"}) for n in range(8)], "201", over="many", words=("--cache", "1")),
    Case("the same, each asked for twice in turn", lambda: [
        *[("k", "put", f"{SITE}{n}", {"pattern": rf"\w{{1000}}{n}"}) for n in range(8)],
        *[("k", "validate", f"{SITE}{n}", 1) for n in range(8)] * 2], "200 valid", over="many", words=("--cache", "1")),
    Case("4,000 documents, each asked for twice in turn", lambda: [
        *[("k", "put", f"{SITE}{n}", {}) for n in range(4_000)],
        *[("k", "validate", f"{SITE}{n}", 1) for n in range(4_000)] * 2], "200 valid"),
    Case("10,000 documents, each asked for in turn", lambda: [
        *[("k", "put", f"{SITE}{n}", {}) for n in range(10_000)],
        *[("k", "validate", f"{SITE}{n}", 1) for n in range(10_000)]], "200 valid"),
    Case("8 documents of 260,000 lists of one number, with --cache 1", lambda: [
        ("k", "put", f"{SITE}{n}", repeated(b"[1]", BODY, b'{"const":[', b"]}")) for n in range(8)],
        "201", over="many", words=("--cache", "1")),
    Case("40 documents of 25 bytes with a large pattern, then another tenant's, in 500 MB", lambda: [
        *[("k", "put", f"{SITE}{n}", {"pattern": rf"\w{{1000}}{n}"}) for n in range(40)],
        ("l", "put", f"{SITE}s", {}), ("l", "put", f"{SITE}p", {"pattern": r"\w{900}"}), ("l", "validate", f"{SITE}s", 1)],
        "201, 200 valid", over="cache", memory=500),
    # -- streams
    Case("1 MB of line ends", lambda: b"\r\n" * (BODY // 2), ""),
    Case("a head without an end", lambda: b"GET /bundle HTTP/1.1\r\nx: " + b"a" * BODY, "400 BadRequest"),
    Case("a head of lines without an end", lambda: b"GET /bundle HTTP/1.1\n" + b"a:b\n" * (BODY // 4), "400 BadRequest"),
    Case("1 MB that is no request", lambda: b"\x00" * BODY, "400 BadRequest"),
    Case("a body that never comes", lambda: request("k", "put", f"{SITE}s", b"{}")[:-1], "400 BadRequest"),
    Case("10,000 requests in one stream", lambda: [("k", "put", f"{SITE}s", {})] + [("k", "validate", f"{SITE}s", 1)] * 9_999, "200 valid"),
    Case("250,000,000 bytes of line ends", lambda: b"\n" * 250_000_000, "", over="many"),
    Case("more bytes than 65,536 reads take", lambda: b"\n" * (4_096 * 65_536 + 1), "refused: 40 ReadBound", over="many"),
    # -- files of the operator
    Case("65 tenants", lambda: tenants(*map(str, range(65))), "refused: 23 TooManyTenants"),
    Case("20,000 tenants", lambda: tenants(*map(str, range(20_000))), "refused: 23 TooManyTenants"),
]


def limited(megabytes):
    def limit():
        resource.setrlimit(resource.RLIMIT_AS, (megabytes << 20, megabytes << 20))

    return limit


def measure(words, paths, seconds, megabytes):
    """The status of a run over these files, the processor's seconds and the most memory in bytes."""
    with open(paths[0], "rb") as stream, open(paths[1], "wb") as sent, open(paths[2], "wb") as told:
        begun = time.monotonic()
        process = subprocess.Popen(
            words, stdin=stream, stdout=sent, stderr=told, preexec_fn=limited(megabytes) if megabytes else None
        )
        # wait4 tells what this one process used; the time is bounded by asking again and again
        while True:
            ended, status, used = os.wait4(process.pid, os.WNOHANG)
            if ended:
                break
            if time.monotonic() - begun > seconds:
                process.kill()
                _, status, used = os.wait4(process.pid, 0)
                break
            time.sleep(0.002)
        process.returncode = os.waitstatus_to_exitcode(status)
        return process.returncode, used.ru_utime + used.ru_stime, used.ru_maxrss << 10


def reply_told(reply):
    """A reply in words: its status with the fault's name, or with `valid` or `invalid`."""
    number, body = reply
    if number >= 400:
        return f"{number} {json.loads(body)['name']}"
    for end, name in ((b'"valid":true}', "valid"), (b'"valid":false}', "invalid")):
        if body.endswith(end):
            return f"{number} {name}"
    return str(number)


def answer_told(whole, tail, told, status, count):
    """The last replies in words, so many of them; else what was told on standard error."""
    if status < 0:
        return f"signal {-status}"
    if told:
        return told.decode(errors="replace").strip()
    if whole is None:
        return reply_told((200, tail))
    found, rest = talks.replies(whole)
    if rest:
        return f"no reply: {rest[:60]!r}"
    return ", ".join(map(reply_told, found[-count:]))


def given_by(case):
    """The tenants' file and the stream of a case."""
    made = case.make()
    if isinstance(made, dict):
        return made, b""
    if isinstance(made, list):
        made = b"".join(request(*asked) for asked in made)
    return tenants("k", "l", documents=100_000, size=1 << 40), made


def apart(work):
    """What the work gives, done by another process: what this one takes of memory would count for the programs that it
    starts."""
    out, into = os.pipe()
    child = os.fork()
    if child == 0:
        try:
            os.close(out)
            with os.fdopen(into, "w") as file:
                json.dump(work(), file)
        finally:
            os._exit(0)
    os.close(into)
    with os.fdopen(out) as file:
        text = file.read()
    os.waitpid(child, 0)
    return json.loads(text)


def run_case(case, program, seconds, megabytes):
    """The bytes sent, what the run ended with, the bytes of the replies, the processor's seconds and the most memory."""
    with tempfile.TemporaryDirectory(prefix="hostile-") as folder:
        keys, stream, sent, told = (f"{folder}/{name}" for name in ("tenants", "stream", "sent", "told"))

        def write():
            for path, text in zip((keys, stream), given_by(case)):
                with open(path, "wb") as file:
                    file.write(as_bytes(text))

        def answer():
            size = os.path.getsize(sent)
            with open(sent, "rb") as file:
                file.seek(max(0, size - 400))
                tail = file.read()
                file.seek(0)
                # of a large output its end tells enough
                whole = file.read() if size <= 64 << 20 else None
            with open(told, "rb") as file:
                return answer_told(whole, tail, file.read(), status, case.wanted.count(", ") + 1)

        apart(write)
        words = [program, "run", "--tenants", keys, *case.words]
        status, took, memory = measure(words, (stream, sent, told), seconds, case.memory or megabytes)
        return os.path.getsize(stream), apart(answer), os.path.getsize(sent), took, memory


def main():
    reader = argparse.ArgumentParser(description="Sends the built program what a stranger would send.")
    reader.add_argument("--program", default=talks.PROGRAM, metavar="PATH", help="the built program")
    reader.add_argument("--only", metavar="NAME", help="the cases whose name holds this text")
    reader.add_argument("--seconds", type=float, default=120, metavar="S", help="how long a run may take")
    reader.add_argument("--memory", type=int, default=2_000, metavar="MB", help="the address space of a run; 0: no limit")
    reader.add_argument("--list", action="store_true", help="prints the names alone")
    asked = reader.parse_args()
    cases = [case for case in CASES if not asked.only or asked.only in case.name]
    if asked.list:
        print("\n".join(case.name for case in cases))
        return 0
    program = os.path.abspath(asked.program)
    if not os.path.exists(program):
        sys.exit(f"{program} is not there: build it by `cd crates/schemareg && rt run < stdin`")
    print("| Input | Bytes sent | Answered | Bytes of the replies | Time | Memory | |")
    print("|---|---|---|---|---|---|---|", flush=True)
    wrong = 0
    for case in cases:
        size, answer, sent, seconds, memory = run_case(case, program, asked.seconds, asked.memory)
        is_right = re.fullmatch(f"(?:{case.wanted}).*" if case.wanted else "", answer, re.S) is not None
        is_over = seconds > SECOND or memory > MEGABYTES << 20
        verdict = "WRONG" if not is_right else "ok" if not is_over else f"over: {case.over}" if case.over else "OVER"
        wrong += verdict in ("WRONG", "OVER")
        print(
            f"| {case.name} | {size:,} | {answer[:80] or 'nothing'} | {sent:,} | {seconds:.2f} s | {memory / 2**20:,.0f} MB | {verdict} |",
            flush=True,
        )
    print(f"\n{len(cases)} cases, {wrong} wrong, or over without a reason")
    return 1 if wrong else 0


if __name__ == "__main__":
    sys.exit(main())
