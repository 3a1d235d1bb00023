"""Requests that are drawn from a seed: puts, batches, validations, bundles and deletes, of valid and broken bodies; and what
is no request."""
import random
import re

from talks import as_bytes, request

SITE = "https://ex.org/"
DOCUMENTS = [f"{SITE}{letter}" for letter in "abcdefghijklmnop"]
URIS = [*DOCUMENTS, f"{SITE}x/../a", f"{SITE}e", f"{SITE}lib", f"{SITE}lib2", "urn:x:y", "s", f"{SITE}a#", "x:/.//a",
        f"{SITE}\u00e4 b", ""]
REFERENCES = ["#", "a", "b", "c", "d", "lib", "lib2", "#n", "a#n", "e", "#/$defs/d", "b#/$defs/d", "lib#n", "lib2#node",
              "#node", "none", "#/none"]
PATTERNS = ["a", "^a+$", r"\d{2,4}", "^(ab|c)*$", "[^x]", r"\w+@\w+", "(?=a)", "(", r"\p{L}{1,20}", "x{2,30}y"]
NAMES = ["a", "b", "c", "ab", "\u00e4", "a/b", "m~n", ""]
TYPES = ["null", "boolean", "object", "array", "number", "string", "integer", "int"]


class Maker:
    """Makes requests from a seed."""

    def __init__(self, seed):
        self.random = random.Random(seed)

    def value(self, depth=3):
        draw = self.random
        if depth == 0 or draw.random() < 0.5:
            return draw.choice([None, True, False, 0, 1, 7, -3, 2**64 - 1, "", "a", "ab", "aab", "12", "\u00e4", [], {}])
        if draw.random() < 0.5:
            return [self.value(depth - 1) for _ in range(draw.randrange(5))]
        return {name: self.value(depth - 1) for name in draw.sample(NAMES, draw.randrange(5))}

    def schema(self, depth=3):
        draw = self.random
        if depth == 0 or draw.random() < 0.15:
            return draw.choice([True, False, {}, {"type": draw.choice(TYPES[:-1])}, {"title": "t"}, {"minimum": 1}])
        made = {}
        for _ in range(draw.randrange(1, 4)):
            made.update(self.keyword(depth - 1))
        return made

    def keyword(self, depth):
        draw = self.random
        below = self.schema
        return draw.choice([
            lambda: {"type": draw.choice(TYPES) if draw.random() < 0.02 else draw.sample(TYPES[:-1], 2)},
            lambda: {"enum": [self.value(1) for _ in range(3)]},
            lambda: {"const": self.value(2)},
            lambda: {draw.choice(["minimum", "maximum", "multipleOf"]): draw.choice([1, 2, 7, 100])},
            lambda: {draw.choice(["minLength", "maxLength", "minItems", "maxProperties"]): draw.randrange(4)},
            lambda: {"pattern": draw.choice(PATTERNS)} if draw.random() < 0.3 else {"pattern": "a"},
            lambda: {"required": draw.sample(NAMES, draw.randrange(3))},
            lambda: {"uniqueItems": True},
            lambda: {draw.choice(["allOf", "anyOf", "oneOf", "prefixItems"]): [below(depth) for _ in range(draw.randrange(1, 4))]},
            lambda: {draw.choice(["not", "items", "contains", "additionalProperties", "propertyNames"]): below(depth)},
            lambda: {"if": below(depth), "then": below(depth), "else": below(depth)},
            lambda: {draw.choice(["properties", "dependentSchemas"]): {name: below(depth) for name in draw.sample(NAMES, 3)}},
            lambda: {"patternProperties": {draw.choice(PATTERNS[:6]): below(depth)}},
            lambda: {draw.choice(["unevaluatedItems", "unevaluatedProperties"]): below(depth)},
            lambda: {draw.choice(["$ref", "$ref", "$dynamicRef"]): draw.choice(REFERENCES)},
            lambda: {"$defs": {"d": below(depth)}},
            lambda: {draw.choice(["$anchor", "$dynamicAnchor"]): draw.choice(["n", "node", "1"])} if draw.random() < 0.2 else {},
            lambda: {"$id": draw.choice(["e", "a", "f/g", "x#y"])} if draw.random() < 0.2 else {},
            lambda: {draw.choice(["title", "default", "format", "x-note", "$comment"]): self.value(1)},
        ])()

    def document(self):
        """The bytes of a body that is put: mostly a schema."""
        draw = self.random.random()
        if draw < 0.03:
            return self.random.choice([b"", b"{", b"[]", b"1.5", b'"\xff"', b"{}{}", b"null", b'{"a":1e400}', b"[" * 130])
        if draw < 0.04:
            return as_bytes({"title": "t" * self.random.randrange(200_000), **as_object(self.schema(2))})
        return as_bytes(as_object(self.schema(4)))

    def instance(self):
        draw = self.random.random()
        if draw < 0.03:
            return self.random.choice([b"", b"[1", b"1.0", b"-0", b'"\xc3"', b"18446744073709551616", b"[" * 127 + b"]" * 127])
        if draw < 0.05:
            return as_bytes([self.value(2) for _ in range(self.random.randrange(3_000))])
        return as_bytes(self.value(4))

    def batch(self):
        draw = self.random
        if draw.random() < 0.1:
            return draw.choice([b"{}", b'{"put":[]}', b'{"put":[{"uri":1,"schema":{}}]}', as_bytes({"put": [{"schema": {}, "uri": "a"}] * 65})])
        uris = [draw.choice(DOCUMENTS if draw.random() < 0.95 else URIS) for _ in range(draw.randrange(1, 6))]
        return as_bytes({"put": [{"schema": self.schema(3) if draw.random() < 0.1 else as_object(self.schema(3)), "uri": uri} for uri in uris]})

    def uri(self):
        return self.random.choice(DOCUMENTS if self.random.random() < 0.85 else URIS)

    def asked(self, key, changes=True):
        """The bytes of a request of a tenant."""
        draw = self.random.random()
        if not changes:
            draw = 0.5 + draw / 2
        if draw < 0.33:
            return request(key, "put", self.uri(), self.document())
        if draw < 0.40:
            return request(key, "batch", None, self.batch())
        if draw < 0.48:
            return request(key, "delete", self.uri())
        if draw < 0.92:
            return request(key, "validate", self.uri(), self.instance())
        return request(key, "bundle", self.uri())


def as_object(schema):
    return schema if isinstance(schema, dict) else {"allOf": [schema]}


NO_REQUESTS = [
    b"TRACE / HTTP/1.1\r\n\r\n", b"GET / HTTP/2.0\r\n\r\n", b"\x00\r\n\r\n", b"PUT /schemas?uri=urn:x HTTP/1.1\r\n\r\n",
    b"POST /validate?uri=urn:x HTTP/1.1\r\ncontent-length: 1048577\r\n\r\n",
    b"POST /batch HTTP/1.1\r\ntransfer-encoding: chunked\r\n\r\n", b"GET /bundle HTTP/1.1\r\n" + b"a: b\r\n" * 65 + b"\r\n",
    b"GET /bundle HTTP/1.1\r\nx: " + b"a" * 17_000, b"POST /validate?uri=urn:x HTTP/1.1\r\ncontent-length: 5\r\n\r\nnull",
]
BAD_TARGETS = [b"GET / HTTP/1.1\r\n\r\n", b"GET /bundle?uri=%FF HTTP/1.1\r\nx-tenant-key: one\r\n\r\n",
               b"POST /batch?uri=x HTTP/1.1\r\nx-tenant-key: two\r\ncontent-length: 2\r\n\r\n{}"]


def stored_uris(replies):
    """The URIs of the documents that these replies say are stored, each given by its status and its body."""
    uris = set()
    for status, body in replies:
        if status in (200, 201) and b'"stored":' in body[:40]:
            uris.update(re.findall(r'"(?:stored|uri)":"([^"]*)"', body.decode()))
    return uris
