"""Examples of documents that are kept: each sentence of docs/STORE.md on a start, and on what ends a server, and the built program
over a file of its own beside it."""

import json
import resource
import signal
import sqlite3
import subprocess
import tempfile
from pathlib import Path

from connections import STRING, put
from serving import SERVICE
from side_by_side import Server, asks
from streams import request

SECONDS = 30
KEPT = b'{"$id":"urn:a","type":"string"}'


def ran(program, store, stream=b"", tenants=SERVICE / "tenants.json", **more):
    """What `run` over the file answers, tells and ends with."""
    words = [program, "run", "--tenants", tenants, "--store", store]
    done = subprocess.run(words, input=stream, capture_output=True, timeout=SECONDS, **more)
    return done.stdout, done.stderr.decode(), done.returncode


def filled(program, folder):
    """A file with one document."""
    store = Path(folder) / "documents.sqlite"
    ran(program, store, put("urn:a", STRING))
    return store


def unlike(found, told, status=2):
    """What is wrong where a start should end so."""
    _, errors, ended = found
    return None if (errors, ended) == (told, status) else f"{errors!r}, status {ended}"


def found_again(program):
    """What was put is there at the next start, and what was deleted isn't."""
    with tempfile.TemporaryDirectory() as folder:
        store = filled(program, folder)
        asked = request("GET", "/bundle?uri=urn:a")
        first = ran(program, store, asked)[0]
        ran(program, store, request("DELETE", "/schemas?uri=urn:a"))
        second = ran(program, store, asked)[0]
        return None if first.endswith(KEPT) and second.startswith(b"HTTP/1.1 404 ") else f"{first!r}, {second!r}"


def killed(program):
    """What a server acknowledged outlasts its being killed."""
    with tempfile.TemporaryDirectory() as folder:
        store = Path(folder) / "documents.sqlite"
        with Server(program, "--store", store) as server, server.client() as client:
            client.sendall(put("urn:a", STRING))
            client.recv(65_536)
            server.process.kill()
            server.process.wait()
        got = ran(program, store, request("GET", "/bundle?uri=urn:a"))[0]
        return None if got.endswith(KEPT) else repr(got)


def in_use(program):
    """A second process is refused, and the first is as it was."""
    with tempfile.TemporaryDirectory() as folder:
        store = filled(program, folder)
        with Server(program, "--store", store) as server, server.client() as client:
            wrong = unlike(ran(program, store), f"cannot open {store}: another process has the file open\n")
            return wrong or asks(client)


def no_store(program):
    """What is no store is refused, and is as it was."""
    with tempfile.TemporaryDirectory() as folder:
        store = Path(folder) / "text"
        store.write_bytes(b"no database" * 1_000)
        wrong = unlike(ran(program, store), f"cannot open {store}: the file is no store of documents\n")
        missing = Path(folder) / "none" / "documents.sqlite"
        wrong = wrong or unlike(ran(program, missing), f"cannot open {missing}: the file can't be opened or made\n")
        return wrong or (None if store.read_bytes() == b"no database" * 1_000 else "the file has changed")


def changed(store, statement):
    """The file, after sqlite3 did this."""
    with sqlite3.connect(store) as database:
        database.execute(statement)
    database.close()
    return store


def of_a_later_version(program):
    with tempfile.TemporaryDirectory() as folder:
        store = changed(filled(program, folder), "pragma user_version = 2")
        return unlike(ran(program, store), f"cannot open {store}: the file is of a later version\n")


def altered(program):
    """A row that isn't as it was written ends the start; one that was deleted doesn't."""
    with tempfile.TemporaryDirectory() as folder:
        store = changed(filled(program, folder), "update document set text = '{ }'")
        wrong = unlike(ran(program, store), f"cannot restore {store}: tenant 1, urn:a: the row isn't as it was written\n")
        changed(store, "delete from document")
        return wrong or unlike(ran(program, store), "", 0)


def refused_today(program):
    """A document that is refused under today's tenants' file ends the start, and so does one of no tenant."""
    with tempfile.TemporaryDirectory() as folder:
        store, tenants = filled(program, folder), Path(folder) / "tenants.json"
        tenants.write_text(json.dumps({"tenants": [{"key": "shop", "documents": 0, "bytes": 1000}]}))
        wrong = unlike(ran(program, store, tenants=tenants), f"cannot restore {store}: tenant 1, urn:a: 28 QuotaDocuments\n")
        tenants.write_text(json.dumps({"tenants": [{"key": "other", "documents": 9, "bytes": 1000}]}))
        return wrong or unlike(ran(program, store, tenants=tenants), f"cannot restore {store}: urn:a: no tenant has the key of its row\n")


def no_room(program):
    """Where the file may not grow, the change isn't acknowledged, the program ends with status 2, and what was there stays."""

    def limited():
        signal.signal(signal.SIGXFSZ, signal.SIG_IGN)
        resource.setrlimit(resource.RLIMIT_FSIZE, (300_000, 300_000))

    with tempfile.TemporaryDirectory() as folder:
        store = filled(program, folder)
        large = b'{"title":"' + b"t" * 900_000 + b'"}'
        sent, told, status = ran(program, store, put("urn:large", large), preexec_fn=limited)
        if sent or status != 2 or not told.startswith(f"cannot keep the documents in {store}: "):
            return f"{sent[:80]!r}, {told!r}, status {status}"
        got = ran(program, store, request("GET", "/bundle?uri=urn:a") + request("GET", "/bundle?uri=urn:large"))[0]
        return None if KEPT in got and got.count(b"HTTP/1.1 404 ") == 1 else repr(got[:400])


TRIALS = {
    "what was put is found again": found_again,
    "what was acknowledged outlasts a kill": killed,
    "one process has the file": in_use,
    "what is no store is refused": no_store,
    "a later version is refused": of_a_later_version,
    "a row that was altered is refused": altered,
    "what today's tenants refuse ends the start": refused_today,
    "what finds no room isn't acknowledged": no_room,
}


def trials(program):
    """Each sentence, and what tries it."""
    for name, trial in TRIALS.items():
        yield f"store: {name}", lambda trial=trial: trial(program)
