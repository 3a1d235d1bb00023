"""The rows that allocations are refused in: checks and streams of requests, each with what is answered."""
import sys

import talks
from talks import as_bytes, tenants

sys.path.insert(0, f"{talks.ROOT}/examples")
import run as examples  # noqa: E402  (the stored examples and their answers)

SITE = "https://ex.org/"
VALID = '{"annotations":[],"valid":true}'


# ---- the rows of checks: name, schema, instance, what is printed


def unit(way, message, place="", site=f"{SITE}s", at=None):
    """An error unit; `at` is the absolute location's pointer where it isn't the way there."""
    at = way if at is None else at
    return {"absoluteKeywordLocation": f"{site}#{at}", "error": message, "instanceLocation": place, "keywordLocation": way}


def unmet(way, place="", **more):
    return unit(way, f"{way.rsplit('/', 1)[1]} is not met", place, **more)


def invalid(*units):
    return talks.compact({"errors": list(units), "valid": False})


def annotation(way, value, place="", site=f"{SITE}s", at=None):
    return {"absoluteKeywordLocation": f"{site}#{way if at is None else at}", "annotation": value,
            "instanceLocation": place, "keywordLocation": way}


def annotated(*units):
    return talks.compact({"annotations": list(units), "valid": True})


ITEM = "/properties/children/items"
TREE = {"$dynamicAnchor": "node", "type": "object",
        "properties": {"data": True, "children": {"type": "array", "items": {"$dynamicRef": "#node"}}}}
TREE_OUTPUT = annotated(
    annotation("/properties", ["children"], site="https://example.com/tree"),
    annotation(ITEM, True, "/children", site="https://example.com/tree"),
    annotation(f"{ITEM}/$dynamicRef/properties", [], "/children/0", site="https://example.com/tree", at="/properties"),
)
STRICT = {"$dynamicAnchor": "node", "$ref": "tree", "unevaluatedProperties": False}
UNEVALUATED = {"allOf": [{"properties": {"a": True}}], "unevaluatedProperties": False}

CHECKS = [
    ("required", {"type": "object", "required": ["a"]}, {}, invalid(unmet("/required"))),
    ("empty", {}, None, VALID),
    ("unevaluated", UNEVALUATED, {"a": 1, "b": 2},
     invalid(unmet("/unevaluatedProperties"), unit("/unevaluatedProperties", "no value is allowed", "/b"))),
    ("tokens", {"properties": {"a/b": {"$ref": "#/$defs/m~0n"}}, "$defs": {"m~n": {"type": "null"}}}, {"a/b": 5},
     invalid(unmet("/properties"), unmet("/properties/a~1b/$ref", "/a~1b"),
             unmet("/properties/a~1b/$ref/type", "/a~1b", at="/$defs/m~0n/type"))),
    ("resolution", {"$id": "../../../g", "$ref": "g;x=1/../y", "$defs": {"e": {"$id": "y", "type": "null"}}}, 5,
     invalid(unmet("/$ref", site=f"{SITE}g"), unmet("/$ref/type", site=f"{SITE}y", at="/type"))),
    ("pattern", {"pattern": "a+"}, "xaay", VALID),
    ("pattern that fails", {"pattern": "a+"}, "xy", invalid(unmet("/pattern"))),
    ("names by pattern", {"patternProperties": {"^[a-z]+$": {"type": "integer"}}}, {"ab": "x"},
     invalid(unmet("/patternProperties"), unmet("/patternProperties/^[a-z]+$/type", "/ab",
             at="/patternProperties/%5E%5Ba-z%5D+$/type"))),
    ("bad pattern", {"pattern": "(?=a)"}, "x", "refused: 5 BadPattern"),
    ("tree", {**TREE, "$id": "https://example.com/tree"}, {"children": [{"daat": 1}]}, TREE_OUTPUT),
    ("unique", {"uniqueItems": True}, [{"a": 1, "b": 2}, {"b": 2, "a": 1}], invalid(unmet("/uniqueItems"))),
    ("not a schema", {"$defs": {"d": {"type": "int"}}}, 1, "refused: 8 BadKeyword /$defs/d/type"),
    ("accepted", {"$anchor": "n", "$defs": {"d": {"$dynamicAnchor": "n", "$id": "e"}}}, 1, VALID),
    ("unresolved", {"$defs": {"u": {"$ref": "q"}, "v": {"$ref": "p"}}}, None, f"refused: 15 Unresolved {SITE}p"),
    ("loop", {"$ref": "#"}, 1, "refused: 17 Loop"),
    ("copies", {"const": {"b": 1, "a": [[], {"c": "ä/~"}]}}, {"a": [[], {"c": "ä/~"}], "b": 1}, VALID),
]


def answer_of(text):
    """Standard output, standard error and the status that belong to an answer."""
    line = f"{text}\n".encode()
    if text.startswith("refused: "):
        return b"", line, 2
    return line, b"", 1 if text.endswith('"valid":false}') else 0


def checks(all_examples):
    """Each run: its name, its words, its files, its standard input, and its answer."""
    for name, schema, instance, text in CHECKS:
        given = {"instance": instance, "schema": schema, "uri": f"{SITE}s"}
        yield f"input: {name}", [], {}, as_bytes(given), answer_of(text)
        words = ["check", "--uri", f"{SITE}x/../s", "{schema}", "{instance}"]
        yield f"check: {name}", words, {"schema": schema, "instance": instance}, b"", answer_of(text)
    for name, given, text in (
        ("no instance", {"schema": {}}, "refused: 41 BadInput"),
        ("bad JSON", b"[1", "refused: 1 BadJson"),
        ("bad number", b'{"instance":1.0,"schema":{}}', "refused: 2 BadNumber"),
        ("bad URI", {"instance": 1, "schema": {}, "uri": "x:/.//a"}, "refused: 25 BadUri"),
    ):
        yield f"input: {name}", [], {}, as_bytes(given), answer_of(text)
    for name, text, answer in (
        ("no tenants", {"tenants": []}, ("", "", 0)),
        ("minus one", tenants("k1", size=-1), "refused: 35 BadTenants"),
        ("too many documents", tenants("k1", documents=2**32), "refused: 35 BadTenants"),
        ("no key", {"tenants": [{"bytes": 1, "documents": 1}]}, "refused: 35 BadTenants"),
        ("a list", [], "refused: 35 BadTenants"),
        ("a bad number", b'{"tenants":1.0}', "refused: 2 BadNumber"),
        ("one key twice", tenants("k1", "k1"), "refused: 22 DuplicateTenant"),
        ("65 tenants", tenants(*map(str, range(65))), "refused: 23 TooManyTenants"),
    ):
        wanted = (b"", b"", 0) if isinstance(answer, tuple) else answer_of(answer)
        yield f"tenants: {name}", ["run", "--tenants", "{tenants}"], {"tenants": text}, b"", wanted
    for words in (["--help"], ["--version"], ["check", "--help"], ["run"], ["serve", "--accept", "0"], ["none"]):
        yield f"words: {' '.join(words)}", words, {}, b"", None
    if all_examples:
        for name, words, given, answer in examples.cases():
            if "cannot" not in answer.read_text()[:7]:
                yield f"example: {name}", words, {}, given, examples.expected(answer)


# ---- the rows of streams: tenants, library, cache, and requests with their replies


def stored(uri, replaced=False):
    return (200 if replaced else 201), talks.compact({"replaced": replaced, "stored": uri})


def fault(status, number, name, **more):
    return status, talks.compact(dict(sorted({"fault": number, "name": name, **more}.items())))


def out(text):
    return 200, text


STREAMS = [
    ("two tenants, one kept", tenants("k1", "k2"), None, 1, [
        (("k1", "put", f"{SITE}s", {"type": "string"}), stored(f"{SITE}s")),
        (("k2", "put", f"{SITE}s", {"type": "integer"}), stored(f"{SITE}s")),
        *[pair for _ in range(3) for pair in (
            (("k1", "validate", f"{SITE}s", 5), out(invalid(unmet("/type")))),
            (("k2", "validate", f"{SITE}s", 5), out(VALID)))],
        (("k3", "validate", f"{SITE}s", 5), fault(403, 24, "UnknownTenant")),
    ]),
    ("taken", tenants("k1"), None, 256, [
        (("k1", "put", f"{SITE}x", {}), stored(f"{SITE}x")),
        (("k1", "put", f"{SITE}y", {"$defs": {"e": {"$id": "x"}}}), fault(409, 27, "Taken", at=f"{SITE}x")),
        (("k1", "put", f"{SITE}z", {"$defs": {"e": {"$id": "w"}}}), stored(f"{SITE}z")),
        (("k1", "validate", f"{SITE}w", None), out(VALID)),
        (("k1", "put", f"{SITE}w", {}), fault(409, 27, "Taken", at=f"{SITE}w")),
        (("k1", "bundle", f"{SITE}w"), fault(404, 14, "NotFound")),
        (("k1", "put", f"{SITE}z", {}), stored(f"{SITE}z", True)),
        (("k1", "put", f"{SITE}w", {}), stored(f"{SITE}w")),
        *[(("k1", "delete", f"{SITE}{name}"), out(talks.compact({"deleted": f"{SITE}{name}"}))) for name in "xzw"],
    ]),
    ("unresolved", tenants("k1"), None, 2, [
        (("k1", "put", f"{SITE}s", {"$defs": {"u": {"$ref": "q"}, "v": {"$ref": "p"}}}), stored(f"{SITE}s")),
        (("k1", "validate", f"{SITE}s", None), fault(409, 15, "Unresolved", at=f"{SITE}p")),
        (("k1", "put", f"{SITE}p", {}), stored(f"{SITE}p")),
        (("k1", "validate", f"{SITE}s", None), fault(409, 15, "Unresolved", at=f"{SITE}q")),
        (("k1", "put", f"{SITE}q", {}), stored(f"{SITE}q")),
        (("k1", "validate", f"{SITE}s", None), out(VALID)),
        *[(("k1", "delete", f"{SITE}{name}"), out(talks.compact({"deleted": f"{SITE}{name}"}))) for name in "pqs"],
    ]),
    ("bundles", tenants("k1", "k2"), None, 256, [
        (("k1", "put", f"{SITE}root", {"properties": {"a": {"$ref": "b"}}}), stored(f"{SITE}root")),
        (("k1", "put", f"{SITE}b", {"type": "integer"}), stored(f"{SITE}b")),
        (("k1", "bundle", f"{SITE}root"), out(talks.compact(
            {"$defs": {f"{SITE}b": {"$id": f"{SITE}b", "type": "integer"}}, "$id": f"{SITE}root",
             "properties": {"a": {"$ref": "b"}}}))),
        (("k2", "put", "urn:x", {"$defs": {f"{SITE}b": {"$id": f"{SITE}b", "type": "integer"}}, "$id": f"{SITE}root",
                                 "properties": {"a": {"$ref": "b"}}}), stored(f"{SITE}root")),
        (("k1", "validate", f"{SITE}root", {"a": "x"}), out(invalid(
            unmet("/properties", site=f"{SITE}root"), unmet("/properties/a/$ref", "/a", site=f"{SITE}root"),
            unmet("/properties/a/$ref/type", "/a", site=f"{SITE}b", at="/type")))),
        (("k2", "validate", f"{SITE}root", {"a": "x"}), out(invalid(
            unmet("/properties", site=f"{SITE}root"), unmet("/properties/a/$ref", "/a", site=f"{SITE}root"),
            unmet("/properties/a/$ref/type", "/a", site=f"{SITE}b", at="/type")))),
        (("k1", "put", f"{SITE}root", {"$defs": {f"{SITE}b": {}}, "$ref": "b"}), stored(f"{SITE}root", True)),
        (("k1", "bundle", f"{SITE}root"), fault(409, 19, "BundleClash", at=f"{SITE}b")),
        *[((key, "delete", f"{SITE}{name}"), out(talks.compact({"deleted": f"{SITE}{name}"})))
          for key, name in (("k1", "root"), ("k1", "b"), ("k2", "root"))],
    ]),
    ("the example", tenants("k1"), None, 256, [
        (("k1", "put", f"{SITE}s", {}), stored(f"{SITE}s")),
        (("k1", "validate", f"{SITE}s", None), out(VALID)),
    ]),
    ("quotas", tenants("k1", documents=1, size=20), None, 1, [
        (("k1", "put", f"{SITE}a", {}), stored(f"{SITE}a")),
        (("k1", "put", f"{SITE}b", {}), fault(403, 28, "QuotaDocuments")),
        (("k1", "put", f"{SITE}a", {"type": "string"}), stored(f"{SITE}a", True)),
        (("k1", "put", f"{SITE}a", {"minLength": 10000000}), fault(403, 29, "QuotaBytes")),
        (("k1", "delete", f"{SITE}a"), out(talks.compact({"deleted": f"{SITE}a"}))),
        (("k1", "delete", f"{SITE}a"), fault(404, 14, "NotFound")),
        (("k1", "put", f"{SITE}b", {}), stored(f"{SITE}b")),
        (("k1", "delete", f"{SITE}b"), out(talks.compact({"deleted": f"{SITE}b"}))),
    ]),
    ("dynamic trees", tenants("k1"), None, 1, [
        (("k1", "put", "https://example.com/tree", TREE), stored("https://example.com/tree")),
        (("k1", "put", "https://example.com/strict-tree", STRICT), stored("https://example.com/strict-tree")),
        (("k1", "validate", "https://example.com/tree", {"children": [{"daat": 1}]}), out(TREE_OUTPUT)),
        (("k1", "validate", "https://example.com/strict-tree", {"children": [{"daat": 1}]}), None),
    ]),
    ("patterns", tenants("k1"), None, 1, [
        (("k1", "put", f"{SITE}s", {"pattern": "a+"}), stored(f"{SITE}s")),
        (("k1", "validate", f"{SITE}s", "xaay"), out(VALID)),
        (("k1", "put", f"{SITE}s", {"pattern": "(?=a)"}), fault(400, 5, "BadPattern")),
        (("k1", "validate", f"{SITE}s", "xaay"), out(VALID)),
        (("k1", "put", f"{SITE}t", {}), stored(f"{SITE}t")),
        (("k1", "validate", f"{SITE}s", "xy"), out(invalid(unmet("/pattern")))),
        (("k1", "put", f"{SITE}s", []), fault(400, 6, "NotObject")),
        *[(("k1", "delete", f"{SITE}{name}"), out(talks.compact({"deleted": f"{SITE}{name}"}))) for name in "st"],
    ]),
    ("a batch", tenants("k1"), None, 256, [
        (("k1", "put", f"{SITE}z", {"$defs": {"e": {"$id": "w"}}}), stored(f"{SITE}z")),
        (("k1", "batch", None, {"put": [{"schema": {}, "uri": f"{SITE}w"}, {"schema": {}, "uri": f"{SITE}z"}]}),
         (201, talks.compact({"stored": [{"replaced": False, "uri": f"{SITE}w"}, {"replaced": True, "uri": f"{SITE}z"}]}))),
        (("k1", "batch", None, {"put": [{"schema": {}, "uri": f"{SITE}a"}, {"schema": [], "uri": f"{SITE}b"}]}),
         fault(400, 6, "NotObject", entry=1)),
        (("k1", "validate", f"{SITE}a", 1), fault(404, 14, "NotFound")),
        (("k1", "batch", None, {"put": [{"schema": {}, "uri": f"{SITE}a"}, {"schema": {}, "uri": f"{SITE}x/../a"}]}),
         fault(409, 43, "SameDocument", at=f"{SITE}a")),
        *[(("k1", "delete", f"{SITE}{name}"), out(talks.compact({"deleted": f"{SITE}{name}"}))) for name in "wz"],
    ]),
    ("a library", tenants("k1", "k2", documents=2, size=100),
     {"put": [{"schema": {"type": "integer"}, "uri": f"{SITE}lib"}, {"schema": {"$ref": "own"}, "uri": f"{SITE}lib2"}]}, 256, [
        (("k1", "put", f"{SITE}lib", {}), fault(409, 34, "LibraryOwned")),
        (("k1", "delete", f"{SITE}lib"), fault(409, 34, "LibraryOwned")),
        (("k1", "put", f"{SITE}t", {"$defs": {"e": {"$id": "lib"}}}), fault(409, 27, "Taken", at=f"{SITE}lib")),
        (("k1", "put", f"{SITE}s", {"$ref": "lib"}), stored(f"{SITE}s")),
        (("k1", "put", f"{SITE}own", {"type": "string"}), stored(f"{SITE}own")),
        (("k1", "validate", f"{SITE}s", "x"), out(invalid(unmet("/$ref"), unmet("/$ref/type", site=f"{SITE}lib", at="/type")))),
        (("k1", "validate", f"{SITE}lib2", 5), out(invalid(
            unmet("/$ref", site=f"{SITE}lib2"), unmet("/$ref/type", site=f"{SITE}own", at="/type")))),
        (("k2", "validate", f"{SITE}lib", 5), out(VALID)),
        (("k2", "validate", f"{SITE}lib2", 5), fault(409, 15, "Unresolved", at=f"{SITE}own")),
        (("k1", "delete", f"{SITE}s"), out(talks.compact({"deleted": f"{SITE}s"}))),
        (("k1", "delete", f"{SITE}own"), out(talks.compact({"deleted": f"{SITE}own"}))),
    ]),
]
