"""The requests that the service is measured by, as calls and as bytes of HTTP, and files that hold them."""

import json
import os
import tempfile
from contextlib import contextmanager

from workloads import ADDRESS, ORDER_LINE, compact, order, small_object

KEY = "k1"
SITE = "https://example.com"
RING, RINGS = 40, 5
TENANTS = {"tenants": [{"key": KEY, "documents": 1_000_000, "bytes": 1_000_000_000}]}


def order_alone():
    """The order of some 2 KB, by a schema without references."""
    parts = {"#/$defs/address": ADDRESS, "#/$defs/line": ORDER_LINE}

    def inlined(schema):
        if isinstance(schema, dict):
            return parts.get(schema.get("$ref")) or {name: inlined(value) for name, value in schema.items()}
        return [inlined(value) for value in schema] if isinstance(schema, list) else schema

    schema, instance = order()
    return inlined({name: value for name, value in schema.items() if name not in ("$id", "$defs")}), instance


def in_byte_order(make):
    """The schema, and the instance with the names of each object in byte order: `benchmark read` reads it written so, and
    names in another order take longer to read, which is not the service's."""
    schema, instance = make()
    return schema, json.loads(json.dumps(instance, sort_keys=True))


def labels():
    """As many bytes as the order's, in and out, by a tenth of the applications: what the service takes is a fifth of it."""
    return {"items": {"title": "t" * 800}}, ["b" * 118 for _ in range(15)]


def ring_uri(number):
    return f"{SITE}/r/{number:03}"


def ring_document(number):
    """One of two hundred documents in rings of forty, each of which refers to the next of its ring."""
    following = number - number % RING + (number + 1) % RING
    members = {"id": {"type": "integer", "minimum": 0}, "name": {"type": "string", "maxLength": 40}, "next": {"$ref": ring_uri(following)}}
    return {"type": "object", "required": ["id"], "properties": members}


def ring_documents():
    return [["put", ring_uri(number), ring_document(number)] for number in range(RINGS * RING)]


def ring_instance():
    """An instance to which every document of a ring is applied once."""
    instance = {"id": RING, "name": "Ada Lovelace"}
    for number in reversed(range(1, RING)):
        instance = {"id": number, "name": "Ada Lovelace", "next": instance}
    return instance


def ring_bundle():
    """One document that says what a ring does."""
    others = {ring_uri(number): {"$id": ring_uri(number), **ring_document(number)} for number in range(1, RING)}
    return {"$id": ring_uri(0), "$defs": others, **ring_document(0)}


VALIDATIONS = {
    "validate, small object": lambda: in_byte_order(small_object),
    "validate, order of 2 KB": lambda: in_byte_order(order_alone),
    "validate, labels of 2 KB": labels,
}


OF_RING = "validate, 40 of 200 documents"


def schema_alone(name, before):
    """One document that says what the request is validated by."""
    return ring_bundle() if name == OF_RING else before[0][2]


def document_uri(number):
    return f"{SITE}/d/{number:05}"


def small_document(number):
    return {"type": "object", "properties": {f"m{number}": {"type": "string"}}}


def document(number, count):
    """One of so many documents of some 1 KB that each refer to the next, with the name that it has in a bundle."""
    schema = {"type": "object", "properties": {"next": {"$ref": document_uri((number + 1) % count)}}, "description": ""}
    schema["description"] = "d" * (960 - len(compact(schema)))
    return schema


def http_request(method, target, body=None):
    lines = [f"{method} {target} HTTP/1.1", f"x-tenant-key: {KEY}"]
    sent = b"" if body is None else body
    if body is not None:
        lines.append(f"content-length: {len(sent)}")
    return "\r\n".join(lines + ["", ""]).encode() + sent


def http_call(call):
    """A call as the program `benchmark` takes it, as a request over HTTP."""
    kind, uri, *body = call
    method, path = {
        "put": ("PUT", "/schemas"),
        "delete": ("DELETE", "/schemas"),
        "validate": ("POST", "/validate"),
        "bundle": ("GET", "/bundle"),
    }[kind]
    return http_request(method, f"{path}?uri={uri}", compact(body[0]).encode() if body else None)


def stored(number_of_documents):
    """The calls that store a registry's documents."""
    return [["put", document_uri(number), small_document(number)] for number in range(number_of_documents)]


def chained(count):
    return [["put", document_uri(number), document(number, count)] for number in range(count)]


def program_requests():
    """Requests of the program, each with those before it."""
    requests = {"put, 1 KB": ([], ["put", document_uri(0), document(0, 1)])}
    for name, make in VALIDATIONS.items():
        schema, instance = make()
        requests[name] = ([["put", f"{SITE}/schema", schema]], ["validate", f"{SITE}/schema", instance])
    requests[OF_RING] = (ring_documents(), ["validate", ring_uri(0), ring_instance()])
    requests["put, one of 200 documents"] = (ring_documents(), ["put", ring_uri(0), ring_document(0)])
    requests["bundle, 10 documents of 1 KB"] = (chained(10), ["bundle", document_uri(0)])
    return requests


@contextmanager
def written(content):
    """The path of a file that holds the content."""
    with tempfile.NamedTemporaryFile("wb", delete=False) as file:
        file.write(content if isinstance(content, bytes) else compact(content).encode())
    try:
        yield file.name
    finally:
        os.unlink(file.name)
