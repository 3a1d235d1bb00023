#!/usr/bin/env python3
"""Kills a server that keeps its documents, over and over, and looks at what the next one finds.

    python3 tools/crash.py [--program PATH] [--kills N] [--connections N] [--seed N] [--cut BYTES]

PATH is the built program (crates/schemareg/out/schemareg if it isn't said). Two trials, on the loopback address:

    kills   while N connections (50) of eight tenants put, delete and store batches, the server is killed by SIGKILL at a random
            moment, N times (200), and started again over the same file. Each connection has documents of its own, so it is known
            what they are after the changes that were acknowledged, and after each first part of those in flight: what is found
            has to be one of these, for each connection. Now and then sqlite3, where it is installed, checks a copy of the file.
    cuts    a server puts thirty documents, one after the other, and is killed. Its files are copied and the log cut at every byte
            of its last part (8,192 bytes), with nothing, with zeros and with noise behind it: each copy has to open, with just
            the first documents of the thirty, however many; never with another, or one in part.

A kill leaves what was written, so the first tries the order of writes and not the disk. The status is 1 where something is wrong.
"""
import argparse
import os
import random
import re
import selectors
import shutil
import socket
import subprocess
import sys
import tempfile
import time

import talks
from talks import request

HOST = "127.0.0.1"
SITE = "https://ex.org/"
KEYS = [f"tenant-{letter}" for letter in "abcdefgh"]
OWN = 12  # documents of one connection
CUT = 30  # documents of the second trial


class Server:
    """The program over this file, until it is killed."""

    def __init__(self, program, folder, store):
        words = ["serve", "--tenants", f"{folder}/tenants.json", "--store", store, "--listen", f"{HOST}:0"]
        self.process = subprocess.Popen([program, *words], stdin=subprocess.PIPE, stderr=subprocess.PIPE)
        line = self.process.stderr.readline().decode()
        found = re.fullmatch(rf"listening on {re.escape(HOST)}:(\d+)\n", line)
        if found is None:
            raise OSError(f"the server says {line!r}, status {self.process.wait()}")
        self.port = int(found[1])

    def connect(self):
        client = socket.create_connection((HOST, self.port), timeout=30)
        client.setsockopt(socket.IPPROTO_TCP, socket.TCP_NODELAY, 1)
        return client

    def kill(self):
        self.process.kill()
        self.process.wait()
        self.process.stdin.close()
        self.process.stderr.close()


def schema(number):
    return {"const": number}


class Connection:
    """Changes on documents of its own: what is acknowledged, and what is in flight."""

    def __init__(self, number, draw):
        self.key = KEYS[number % len(KEYS)]
        self.uris = [f"{SITE}{number}/{place}" for place in range(OWN)]
        self.draw = draw
        self.known = dict.fromkeys(self.uris)
        self.in_flight = []  # of changes, each a dictionary of what it leaves
        self.numbers = iter(range(number * 10_000_000, (number + 1) * 10_000_000))
        self.acknowledged = 0

    def change(self):
        """A request, and what it leaves."""
        draw = self.draw.random()
        if draw < 0.2:
            uri = self.draw.choice(self.uris)
            return request(self.key, "delete", uri), {uri: None}
        if draw < 0.4:
            left = {uri: next(self.numbers) for uri in self.draw.sample(self.uris, 3)}
            entries = [{"uri": uri, "schema": schema(number)} for uri, number in left.items()]
            return request(self.key, "batch", None, {"put": entries}), left
        uri, number = self.draw.choice(self.uris), next(self.numbers)
        return request(self.key, "put", uri, schema(number)), {uri: number}

    def answered(self, status):
        """Takes the reply to the change that was asked first."""
        left = self.in_flight.pop(0)
        is_missing = len(left) == 1 and None in left.values() and all(self.known[uri] is None for uri in left)
        if status not in ((404,) if is_missing else (200, 201)):
            raise ValueError(f"a change is answered by {status}")
        self.known.update(left)
        self.acknowledged += 1

    def may_be(self):
        """What may be found: after each first part of what is in flight."""
        states = [dict(self.known)]
        for left in self.in_flight:
            states.append({**states[-1], **left})
        return states

    def found(self, state):
        """What was found is known from here on."""
        self.known, self.in_flight = state, []


def one_life(server, connections, until, draw):
    """Asks on all connections until the time, kills the server, and takes the replies that came before."""
    with selectors.DefaultSelector() as ready:
        clients = {}
        for connection in connections:
            client = server.connect()
            client.setblocking(False)
            clients[client] = [connection, b"", b""]
            ready.register(client, selectors.EVENT_READ | selectors.EVENT_WRITE)
        while time.monotonic() < until:
            for key, events in ready.select(0.001):
                step(key.fileobj, clients[key.fileobj], events, draw)
        server.kill()
        for client, held in clients.items():
            take(client, held)
            client.close()


def step(client, held, events, draw):
    """Takes replies, and sends what is to be sent, or a change or two."""
    connection, out, _ = held
    if events & selectors.EVENT_READ:
        take(client, held)
    if not out and len(connection.in_flight) < 3 and (not connection.in_flight or draw.random() < 0.2):
        text, left = connection.change()
        connection.in_flight.append(left)
        held[1] = text
    if held[1] and events & selectors.EVENT_WRITE:
        try:
            held[1] = held[1][client.send(held[1]):]
        except BlockingIOError:
            pass


def take(client, held):
    """Takes all replies that have come."""
    while True:
        try:
            part = client.recv(65_536)
        except (BlockingIOError, ConnectionResetError):
            return
        if not part:
            return
        replies, held[2] = talks.replies(held[2] + part)
        for status, _ in replies:
            held[0].answered(status)


def bundles(program, folder, store, asked):
    """The constants of these documents, each by its key and URI, as a `run` over the file finds them."""
    words = ["run", "--tenants", f"{folder}/tenants.json", "--store", store]
    stream = b"".join(request(key, "bundle", uri) for key, uri in asked)
    sent, told, status = talks.ran(program, words, stream)
    replies, rest = talks.replies(sent)
    if status or rest or len(replies) != len(asked):
        raise ValueError(f"status {status}, {len(replies)} of {len(asked)} replies: {told!r}")
    return [constant(status, body) for status, body in replies]


def constant(status, body):
    """The constant of a document, or none where there is none."""
    if status == 404:
        return None
    found = re.search(rb'"const":(\d+)', body)
    if status != 200 or found is None:
        raise ValueError(f"a document is {status} {body!r}")
    return int(found[1])


def checked_by_sqlite(folder, store):
    """What is wrong with a copy of the file, as sqlite3 tells."""
    for end in ("", "-wal"):
        if os.path.exists(store + end):
            shutil.copy(store + end, f"{folder}/copy{end}")
    done = subprocess.run(["sqlite3", f"{folder}/copy", "pragma integrity_check"], capture_output=True, timeout=60)
    for end in ("", "-wal", "-shm"):
        if os.path.exists(f"{folder}/copy{end}"):
            os.remove(f"{folder}/copy{end}")
    return None if done.stdout == b"ok\n" else done.stdout + done.stderr


def kills(program, folder, count, width, seed):
    draw = random.Random(seed)
    store = f"{folder}/documents.sqlite"
    connections = [Connection(number, random.Random(f"{seed} {number}")) for number in range(width)]
    ahead = in_flight = 0
    asked = [(connection.key, uri) for connection in connections for uri in connection.uris]
    for turn in range(count):
        server = Server(program, folder, store)
        one_life(server, connections, time.monotonic() + draw.uniform(0.02, 0.5), draw)
        if turn % 10 == 0 and shutil.which("sqlite3"):
            if wrong := checked_by_sqlite(folder, store):
                return f"kill {turn}: sqlite3 says {wrong!r}"
        values = iter(bundles(program, folder, store, asked))
        for connection in connections:
            found = {uri: next(values) for uri in connection.uris}
            states = connection.may_be()
            if found not in states:
                return f"kill {turn}: {connection.key} has {found}, of {states}"
            ahead += states.index(found)
            in_flight += len(states) - 1
            connection.found(found)
    sum_of = sum(connection.acknowledged for connection in connections)
    print(f"{count} kills, {width} connections: {sum_of} acknowledged changes, each found again; of {in_flight} in flight {ahead} were kept")
    return None


def cuts(program, folder, length, seed):
    draw = random.Random(seed)
    store = f"{folder}/thirty.sqlite"
    server = Server(program, folder, store)
    with server.connect() as client:
        for number in range(CUT):
            client.sendall(request(KEYS[0], "put", f"{SITE}{number}", schema(number)))
            client.recv(65_536)
    server.kill()
    log = f"{store}-wal"
    whole = open(log, "rb").read()
    asked = [(KEYS[0], f"{SITE}{number}") for number in range(CUT)]
    firsts = [list(range(count)) + [None] * (CUT - count) for count in range(CUT + 1)]
    seen = set()
    end = len(whole.rstrip(b"\0"))
    for at in range(max(end - length, 0), end + 1):
        rest = len(whole) - at
        for behind in (b"", bytes(rest), draw.randbytes(rest)):
            shutil.copy(store, f"{folder}/cut")
            with open(f"{folder}/cut-wal", "wb") as file:
                file.write(whole[:at] + behind)
            found = bundles(program, folder, f"{folder}/cut", asked)
            if found not in firsts:
                return f"cut at {at} of {len(whole)}: {found}"
            seen.add(firsts.index(found))
    print(f"{length} cuts, thrice: each opened with a first part of {CUT} documents; so many were found: {sorted(seen)}")
    return None


def main():
    words = argparse.ArgumentParser(description=__doc__, formatter_class=argparse.RawDescriptionHelpFormatter)
    words.add_argument("--program", default=talks.PROGRAM)
    words.add_argument("--kills", type=int, default=200)
    words.add_argument("--connections", type=int, default=50)
    words.add_argument("--seed", type=int, default=1)
    words.add_argument("--cut", type=int, default=8_192)
    said = words.parse_args()
    program = os.path.abspath(said.program)
    with tempfile.TemporaryDirectory(prefix="schemareg-", dir=os.environ.get("TMPDIR")) as folder:
        with open(f"{folder}/tenants.json", "wb") as file:
            file.write(talks.as_bytes(talks.tenants(*KEYS, documents=10_000)))
        wrong = said.kills and kills(program, folder, said.kills, said.connections, said.seed)
        wrong = wrong or (said.cut and cuts(program, folder, said.cut, said.seed))
    if wrong:
        sys.exit(wrong)


if __name__ == "__main__":
    main()
