"""The examples of the service: the built program serves on a free port of the loopback address, and real clients talk to it."""

import json
import os
import shutil
import socket
import subprocess
import sys
import time
from http.client import HTTPConnection
from pathlib import Path

FOLDER = Path(__file__).resolve().parent
SERVICE = FOLDER / "service"
HOST = "127.0.0.1"
SECONDS = 120


class Server:
    """The program, serving as long as the `with` statement lasts, or until it accepted so many connections."""

    def __init__(self, program, accept=65536):
        with socket.socket() as free:
            free.bind((HOST, 0))
            self.port = free.getsockname()[1]
        files = ["--tenants", SERVICE / "tenants.json", "--library", SERVICE / "library.json"]
        words = ["serve", *files, "--listen", f"{HOST}:{self.port}", "--accept", str(accept)]
        self.process = subprocess.Popen([program, *words], stdin=subprocess.DEVNULL, stderr=subprocess.PIPE)

    def __enter__(self):
        """Waits until the program listens. The connection that this takes sends nothing."""
        for _ in range(200):
            if self.process.poll() is not None:
                said = self.process.stderr.read().decode(errors="replace").strip()
                raise OSError(f"serve ended with status {self.process.returncode}: {said}")
            try:
                socket.create_connection((HOST, self.port), timeout=1).close()
                return self
            except OSError:
                time.sleep(0.05)
        self.__exit__()
        raise OSError("serve doesn't listen")

    def __exit__(self, *_):
        if self.process.poll() is None:
            self.process.terminate()
        self.process.wait()
        self.process.stderr.close()


def difference(wanted, got):
    """The first line that differs, or nothing."""
    if wanted == got:
        return None
    wants, gots = wanted.split(b"\n"), got.split(b"\n")
    for number, (want, have) in enumerate(zip(wants, gots), 1):
        if want != have:
            return f"line {number}: wanted {want!r}\n{' ' * 15}got {have!r}"
    return f"wanted {len(wants)} lines, got {len(gots)}"


def talk(program, words, answer):
    """A client's talk with a new server, against the stored answer."""
    with Server(program) as server:
        environment = {**os.environ, "PYTHONIOENCODING": "utf-8", "no_proxy": "*"}
        done = subprocess.run(
            [*words, f"{HOST}:{server.port}"], capture_output=True, timeout=SECONDS, cwd=SERVICE, env=environment
        )
    if done.stderr:
        return done.stderr.decode(errors="replace")
    return difference(answer.read_bytes(), done.stdout)


def exchange(program):
    """A stream of requests on standard input, by `run`."""
    words = ["run", "--tenants", SERVICE / "tenants.json"]
    stream = (SERVICE / "exchange.requests").read_bytes()
    done = subprocess.run([program, *words], input=stream, capture_output=True, timeout=SECONDS)
    if done.returncode or done.stderr:
        return f"status {done.returncode}: {done.stderr.decode(errors='replace')}"
    return difference((SERVICE / "exchange.replies").read_bytes(), done.stdout)


def ended(program):
    """`serve` ends by itself with status 0, once it accepted as many connections as it was told."""
    with Server(program, accept=1) as server:
        status = server.process.wait(timeout=SECONDS)
    return None if status == 0 else f"status {status}"


def ask(connection, key, method, target, body=None):
    """The status of a reply, and its body."""
    connection.request(method, target, body, {"x-tenant-key": key})
    reply = connection.getresponse()
    return reply.status, reply.read()


def stands_alone(program, folder):
    """The documents of a folder's batch give its schema as their bundle; this bundle, put alone under another URI, judges
    each instance as they do, and as the stored answer says."""
    schema = json.loads((folder / "schema.json").read_text(encoding="utf-8"))
    bundle = json.dumps(schema, ensure_ascii=False, sort_keys=True, separators=(",", ":")).encode()
    root = schema["$id"]
    with Server(program) as server:
        connection = HTTPConnection(HOST, server.port, timeout=SECONDS)
        status, said = ask(connection, "shop", "POST", "/batch", (folder / "batch").read_bytes())
        if status != 201:
            return f"batch: {status} {said!r}"
        status, said = ask(connection, "shop", "GET", f"/bundle?uri={root}")
        if (status, said) != (200, bundle):
            return f"bundle: {status}, {difference(bundle, said)}"
        status, said = ask(connection, "press", "PUT", "/schemas?uri=urn:alone", said)
        if status != 201:
            return f"put alone: {status} {said!r}"
        for instance in sorted(folder.glob("*.json")):
            if instance.name == "schema.json":
                continue
            wanted = instance.with_suffix(".answer").read_bytes().removesuffix(b"\n")
            for key in ("shop", "press"):
                status, said = ask(connection, key, "POST", f"/validate?uri={root}", instance.read_bytes())
                if (status, said) != (200, wanted):
                    return f"{instance.stem} by {key}: {status}, {difference(wanted, said)}"
        connection.close()
    return None


def trials(program):
    """Each example of the service: its name, and what runs it; None in its place where it can't be run here."""
    curl = ["sh", "with-curl.sh"]
    python = [sys.executable, "with-python.py"]
    has_curl = shutil.which("curl") is not None
    yield "service/exchange", lambda: exchange(program)
    yield "service/accepted", lambda: ended(program)
    yield "service/with-curl", (lambda: talk(program, curl, SERVICE / "with-curl.answer")) if has_curl else None
    yield "service/with-python", lambda: talk(program, python, SERVICE / "with-python.answer")
    for batch in sorted(FOLDER.rglob("batch")):
        folder = batch.parent
        yield f"{folder.relative_to(FOLDER)}, alone", lambda folder=folder: stands_alone(program, folder)
