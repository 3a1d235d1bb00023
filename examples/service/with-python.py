#!/usr/bin/env python3
"""A talk with the service by Python's http.client, on one connection. Each request prints its status, the body that is
answered, and whether the connection stays open.

    python3 with-python.py [HOST:PORT]

The server is 127.0.0.1:8080 where it is left out. It has the tenants of tenants.json, the library of library.json, and no
documents yet. The file with-python.answer tells what is printed.
"""

import json
import sys
from http.client import HTTPConnection
from urllib.parse import quote

STRICT_TREE = "https://example.com/strict-tree"
SEVERAL = [
    ("https://example.com/tree", {
        "$dynamicAnchor": "node",
        "type": "object",
        "properties": {"data": True, "children": {"type": "array", "items": {"$dynamicRef": "#node"}}},
    }),
    (STRICT_TREE, {"$dynamicAnchor": "node", "$ref": "tree", "unevaluatedProperties": False}),
]
INSTANCES = [
    {"data": 1, "children": [{"data": 2}]},
    {"children": [{"daat": 1}]},
    [],
]


def at(path, uri):
    return f"{path}?uri={quote(uri, safe=':/')}"


def ask(connection, key, method, target, body=None, is_last=False):
    """One request; prints the answer, and gives its body."""
    headers = {"x-tenant-key": key, "connection": "close" if is_last else "keep-alive"}
    connection.request(method, target, body, headers)
    reply = connection.getresponse()
    text = reply.read().decode()
    print(reply.status, reply.reason, "closed" if connection.sock is None else "open")
    print(text)
    return text


def main():
    host, _, port = (sys.argv[1] if len(sys.argv) > 1 else "127.0.0.1:8080").rpartition(":")
    connection = HTTPConnection(host, int(port), timeout=30)

    print("# Two documents at once.")
    batch = {"put": [{"uri": uri, "schema": schema} for uri, schema in SEVERAL]}
    ask(connection, "shop", "POST", "/batch", json.dumps(batch))

    print("# Instances, judged by one of them.")
    said = [ask(connection, "shop", "POST", at("/validate", STRICT_TREE), json.dumps(it)) for it in INSTANCES]

    print("# Both as one document.")
    bundle = ask(connection, "shop", "GET", at("/bundle", STRICT_TREE))

    print("# Another tenant puts it under some URI of its own, and is told the same.")
    ask(connection, "press", "PUT", at("/schemas", "urn:from:shop"), bundle)
    alone = [ask(connection, "press", "POST", at("/validate", STRICT_TREE), json.dumps(it)) for it in INSTANCES]
    print("the same" if alone == said else "not the same")

    print("# A body of 1,048,576 bytes, by a URI with letters that are written as percent escapes.")
    ask(connection, "shop", "PUT", at("/schemas", "https://example.com/Größe"), "{}".ljust(1048576))
    ask(connection, "shop", "GET", at("/bundle", "https://example.com/Größe"))

    print("# A refused request leaves the connection open.")
    ask(connection, "press", "DELETE", at("/schemas", "https://example.com/tree"))
    ask(connection, "press", "DELETE", "/nowhere")

    print("# A last request.")
    ask(connection, "shop", "DELETE", at("/schemas", STRICT_TREE), is_last=True)

    print("# On a new connection: a body that is too long, of which the server reads the head alone.")
    connection.putrequest("POST", at("/validate", STRICT_TREE))
    connection.putheader("x-tenant-key", "shop")
    connection.putheader("content-length", "1048577")
    connection.endheaders()
    reply = connection.getresponse()
    print(reply.status, reply.reason)
    print(reply.read().decode())
    connection.close()


if __name__ == "__main__":
    main()
