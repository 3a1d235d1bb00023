#!/usr/bin/env python3
"""Runs the gateways of docs/HTTP.md as they are written there, each before a server, and sends requests through them.

  gateways.py [--program PATH] [--only NAME] [--requests N]

It reads the configuration of nginx and of HAProxy from the page, changes its ports and the paths of the certificate and nothing
else, and starts `serve` and the gateway on the loopback address. 20 tenants send N requests together (10,000 if it isn't said),
each on a connection of its own over TLS: puts and validations, and some batches, bundles and deletes. Each reply has to have the
status and the body that `run` gives for the tenant's requests alone. Then come a chunked body, one of the longest, one that is
too long, and another method: what docs/HTTP.md says of them has to hold. The server tells at its end how many connections the
gateway opened to it: they have to be kept open, so there are fewer than 200.

The status is 1 where a reply is another. It needs nginx and HAProxy, as Debian packs them, `openssl`, and the rights of root.
"""
import argparse
import http.client
import os
import random
import re
import shutil
import signal
import socket
import ssl
import subprocess
import sys
import tempfile
import threading
import time
from urllib.parse import quote

import talks
from talks import ROOT, ROUTES, as_bytes, request

HOST = "127.0.0.1"
PAGE = f"{ROOT}/docs/HTTP.md"
SITE = "https://example.com"
CLIENTS = 20
MOST_CONNECTIONS = 200
SECONDS = 60
LONGEST = 1_048_576
GATEWAYS = {
    # what starts it, and the statuses of a chunked put
    "nginx": (["nginx", "-e", "stderr", "-g", "daemon off; pid {folder}/pid;", "-c"], (200, 201)),
    "HAProxy": (["haproxy", "-db", "-f"], (411,)),
}


def written(name):
    """The configuration of this gateway in the page."""
    with open(PAGE, encoding="utf-8") as page:
        text = page.read()
    section = re.search(rf"^### {name}\n(.*?)(?=^##|\Z)", text, re.M | re.S)
    if section is None:
        sys.exit(f"{PAGE} has no section {name}")
    return "".join(line[4:] + "\n" if line else "\n" for line in section[1].split("\n") if line.startswith("    ") or not line)


def free_port():
    with socket.socket() as free:
        free.bind((HOST, 0))
        return free.getsockname()[1]


class Gateway:
    """A server, and the gateway before it, as long as the `with` statement lasts."""

    def __init__(self, program, name, folder, tenants):
        self.name, self.folder = name, folder
        port, self.port = free_port(), free_port()
        pair = f"{folder}/site.pem"
        make = ["openssl", "req", "-x509", "-newkey", "rsa:2048", "-nodes", "-days", "2", "-subj", "/CN=localhost"]
        subprocess.run([*make, "-keyout", f"{folder}/key", "-out", f"{folder}/certificate"], check=True, capture_output=True)
        with open(pair, "wb") as file:
            for part in ("key", "certificate"):
                with open(f"{folder}/{part}", "rb") as made:
                    file.write(made.read())
        text = written(name)
        text = text.replace("127.0.0.1:8080", f"{HOST}:{port}")
        text = re.sub(r"(listen |bind :)443", rf"\g<1>{self.port}", text)
        text = re.sub(r"/etc/ssl/\S+?\.pem", pair, text)
        with open(f"{folder}/configuration", "w", encoding="utf-8") as file:
            file.write(text)
        words = ["serve", "--tenants", tenants, "--listen", f"{HOST}:{port}"]
        self.told = open(f"{folder}/told", "w+b")
        self.server = subprocess.Popen([program, *words], stdin=subprocess.PIPE, stderr=self.told)
        start = [word.format(folder=folder) for word in GATEWAYS[name][0]]
        self.said = open(f"{folder}/said", "w+b")
        words = [*start, f"{folder}/configuration"]
        self.gateway = subprocess.Popen(words, stdin=subprocess.DEVNULL, stdout=self.said, stderr=self.said)
        self.context = ssl.create_default_context()
        self.context.check_hostname = False
        self.context.verify_mode = ssl.CERT_NONE

    def __enter__(self):
        try:
            self.wait()
            return self
        except OSError:
            self.__exit__()
            raise

    def wait(self):
        """Waits until the gateway listens."""
        for _ in range(500):
            if self.gateway.poll() is not None:
                self.said.seek(0)
                raise OSError(f"{self.name} ended with status {self.gateway.returncode}: {self.said.read().decode()}")
            try:
                return socket.create_connection((HOST, self.port), timeout=1).close()
            except OSError:
                time.sleep(0.02)
        raise OSError(f"{self.name} doesn't listen")

    def __exit__(self, *_):
        for process in (self.gateway, self.server):
            if process.poll() is None:
                process.send_signal(signal.SIGTERM)
            process.wait(timeout=SECONDS)
        self.told.close()
        self.said.close()

    def client(self):
        return http.client.HTTPSConnection(HOST, self.port, timeout=SECONDS, context=self.context)

    def end(self):
        """Ends the gateway and then the server; its status, and what it told."""
        self.gateway.send_signal(signal.SIGTERM)
        self.gateway.wait(timeout=SECONDS)
        self.server.stdin.close()
        status = self.server.wait(timeout=SECONDS)
        self.told.seek(0)
        return status, self.told.read().decode().splitlines()


def asked(draw, count):
    """So many requests of a tenant, each as what it is, its URI and its body: first all its documents."""
    every = {"put": [{"uri": f"{SITE}/{letter}", "schema": {"type": "object"}} for letter in "abcdefgh"]}
    return [("batch", None, every), *(one(draw) for _ in range(count - 1))]


def one(draw):
    uri = f"{SITE}/{draw.choice('abcdefgh')}"
    kind = draw.choices(["put", "validate", "delete", "bundle", "batch"], [35, 58, 1, 4, 2])[0]
    title = "t" * draw.choice([0, 100, 20_000])
    schema = {"properties": {"a": {"$ref": draw.choice("abcdefgh")}}, "type": "object", "title": title}
    if kind == "put":
        return kind, uri, schema
    if kind == "batch":
        return kind, None, {"put": [{"uri": uri, "schema": schema}, {"uri": f"{SITE}/\u00e4 b", "schema": {"minLength": 1}}]}
    if kind == "validate":
        return kind, uri, draw.choice([{"a": {"a": {}}}, {"a": 1}, [], {"b": "x" * draw.choice([1, 50_000])}])
    return kind, uri, None


def sent(client, key, kind, uri, body):
    """The status and the body of the reply. A tuple of parts is sent as a chunked body."""
    method, path = ROUTES[kind]
    if uri is not None:
        path += "?uri=" + quote(uri, safe="/:")
    data = iter(body) if isinstance(body, tuple) else None if body is None else as_bytes(body)
    try:
        client.request(method, path, data, {"X-Tenant-Key": key})
    except (BrokenPipeError, ssl.SSLEOFError):
        pass  # it was answered before all was sent
    reply = client.getresponse()
    return reply.status, reply.read()


def talk(gateway, key, requests, replies, faults):
    client = gateway.client()
    try:
        for kind, uri, body in requests:
            replies.append(sent(client, key, kind, uri, body))
    except (OSError, http.client.HTTPException) as error:
        faults.append(f"{key}: {error!r} behind {len(replies)} replies")
    finally:
        client.close()


def compared(program, folder, key, requests, replies):
    """What differs from the replies of a registry without a gateway."""
    stream = b"".join(request(key, kind, uri, ... if body is None else body) for kind, uri, body in requests)
    with open(f"{folder}/{key}.json", "wb") as file:
        file.write(as_bytes(talks.tenants(key)))
    out, told, status = talks.ran(program, ["run", "--tenants", f"{folder}/{key}.json"], stream)
    wanted, rest = talks.replies(out)
    if told or status or rest or len(wanted) != len(requests):
        return [f"{key}: run gives {len(wanted)} replies to {len(requests)} requests"]
    return [f"{key}: {asking[:2]}: {got[0]} {got[1][:200]!r}, alone {want[0]} {want[1][:200]!r}"
            for asking, got, want in zip(requests, replies, wanted) if got != want]


def longest_put(size):
    return b'{"title":"' + b"t" * (size - 12) + b'"}'


def turned(gateway, chunked):
    """What isn't as the page says of chunked and of long bodies, and of another method."""
    for name, statuses, body in (
        ("a chunked body", chunked, (b'{"title":', b'"t"}')),
        ("the longest body", (200, 201), longest_put(LONGEST)),
        ("a body that is too long", (413,), longest_put(LONGEST + 1)),
    ):
        client = gateway.client()
        try:
            status, _ = sent(client, "large", "put", f"{SITE}/large", body)
        except (OSError, http.client.HTTPException) as error:
            status = repr(error)
        client.close()
        if status not in statuses:
            yield f"{name}: {status}"
    client = gateway.client()
    client.request("PATCH", f"/schemas?uri={SITE}/large", b"{}", {"X-Tenant-Key": "large"})
    if (status := client.getresponse().status) != 405:
        yield f"another method: {status}"
    client.close()


def trial(program, name, count):
    """What is wrong, and a line of what was done."""
    keys = [f"tenant{number}" for number in range(CLIENTS)]
    asking = {key: asked(random.Random(key), count // CLIENTS) for key in keys}
    got, faults = {key: [] for key in keys}, []
    with tempfile.TemporaryDirectory(prefix="gateways-") as folder:
        os.chmod(folder, 0o755)
        with open(f"{folder}/tenants.json", "wb") as file:
            large = talks.tenants("large", size=10_000_000)
            file.write(as_bytes({"tenants": talks.tenants(*keys)["tenants"] + large["tenants"]}))
        with Gateway(program, name, folder, f"{folder}/tenants.json") as gateway:
            begun = time.monotonic()
            threads = [threading.Thread(target=talk, args=(gateway, key, asking[key], got[key], faults)) for key in keys]
            for thread in threads:
                thread.start()
            for thread in threads:
                thread.join()
            took = time.monotonic() - begun
            faults += turned(gateway, GATEWAYS[name][1])
            status, told = gateway.end()
        for key in keys:
            faults += compared(program, folder, key, asking[key], got[key])
    ending = re.fullmatch(r"connections: (\d+), requests: (\d+), refusals: (\d+)", told[-1] if told else "")
    if status or ending is None or int(ending[1]) >= MOST_CONNECTIONS:
        faults.append(f"the server ended with status {status} and told {told}")
    statuses = [reply[0] for replies in got.values() for reply in replies]
    each = ", ".join(f"{it} {statuses.count(it):,}" for it in sorted(set(statuses)))
    return faults, f"{len(statuses):,} requests in {took:.1f} s ({each}); the server told {told[-1] if told else 'nothing'}"


def main():
    reader = argparse.ArgumentParser(description="Sends requests through the gateways of docs/HTTP.md.")
    reader.add_argument("--program", default=talks.PROGRAM, metavar="PATH", help="the built program")
    reader.add_argument("--only", choices=GATEWAYS, help="one gateway")
    reader.add_argument("--requests", type=int, default=10_000, metavar="N", help="how many requests go through each")
    asked_for = reader.parse_args()
    if not os.path.exists(asked_for.program):
        sys.exit(f"{asked_for.program} is not there: build it by `cd crates/schemareg && rt run < stdin`")
    failed = False
    for name in [asked_for.only] if asked_for.only else GATEWAYS:
        if shutil.which(GATEWAYS[name][0][0]) is None:
            sys.exit(f"{GATEWAYS[name][0][0]} is not there")
        try:
            faults, line = trial(os.path.abspath(asked_for.program), name, min(asked_for.requests, 1_000_000))
        except OSError as error:
            faults, line = [str(error)], "it doesn't run"
        failed |= bool(faults)
        for fault in faults[:20]:
            print(f"WRONG   {name}: {fault}")
        print(f"{name}: {line}; {len(faults)} wrong", flush=True)
    return 1 if failed else 0


if __name__ == "__main__":
    sys.exit(main())
