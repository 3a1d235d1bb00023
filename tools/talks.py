"""Requests and replies as bytes, and files for the program, for the tools beside it."""
import contextlib
import json
import os
import re
import subprocess
import tempfile
from urllib.parse import quote

ROOT = os.path.dirname(os.path.dirname(os.path.abspath(__file__)))
PROGRAM = f"{ROOT}/crates/schemareg/out/schemareg"
ROUTES = {"put": ("PUT", "/schemas"), "delete": ("DELETE", "/schemas"), "validate": ("POST", "/validate"),
          "bundle": ("GET", "/bundle"), "batch": ("POST", "/batch")}
REPLY = re.compile(
    rb"HTTP/1\.1 (\d{3}) [A-Z][A-Za-z ]*\r\ncontent-type: application/json\r\ncontent-length: (\d+)\r\n"
    rb"(connection: close\r\n)?\r\n"
)
NO_ROOM = (503, b'{"fault":30,"name":"NoRoom"}')
BAD_REQUEST = (400, b'{"fault":37,"name":"BadRequest"}')
UNKNOWN_TENANT = (403, b'{"fault":24,"name":"UnknownTenant"}')
BAD_ROUTE = (404, b'{"fault":36,"name":"BadRoute"}')


def compact(value):
    return json.dumps(value, ensure_ascii=False, separators=(",", ":"))


def as_bytes(body):
    """The bytes of a body, which are given as they are, or are the compact text of a value."""
    return body if isinstance(body, bytes) else compact(body).encode()


def request(key, kind, uri=None, body=...):
    """The bytes of a request; a batch has no URI, and some kinds have no body."""
    method, path = ROUTES[kind]
    if uri is not None:
        path += "?uri=" + quote(uri, safe="/:?&=+@!$'()*,;~")
    head = f"{method} {path} HTTP/1.1\r\nx-tenant-key: {key}\r\n"
    if body is ...:
        return f"{head}\r\n".encode()
    body = as_bytes(body)
    return f"{head}content-length: {len(body)}\r\n\r\n".encode() + body


def replies(sent):
    """The replies in these bytes, each as its status and its body, and the bytes behind the last whole one."""
    found, at = [], 0
    while head := REPLY.match(sent, at):
        end = head.end() + int(head[2])
        if end > len(sent):
            break
        found.append((int(head[1]), sent[head.end():end]))
        at = end
    return found, sent[at:]


@contextlib.contextmanager
def files(**texts):
    """A folder with these files, whose paths are given by name."""
    with tempfile.TemporaryDirectory(prefix="schemareg-") as folder:
        paths = {}
        for name, text in texts.items():
            paths[name] = os.path.join(folder, name)
            with open(paths[name], "wb") as file:
                file.write(as_bytes(text))
        yield paths


def tenants(*keys, documents=100, size=1_000_000):
    """The tenants' file of these keys, each with room for so many documents of so many bytes."""
    return {"tenants": [{"bytes": size, "documents": documents, "key": key} for key in keys]}


def ran(program, words, given=b"", seconds=60, environment=None):
    """Standard output, standard error and the status of a run; the status is negative where a signal ended it."""
    done = subprocess.run(
        [program, *words], input=given, capture_output=True, timeout=seconds,
        env=None if environment is None else {**os.environ, **environment},
    )
    return done.stdout, done.stderr, done.returncode
