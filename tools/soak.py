#!/usr/bin/env python3
"""Asks a server at random for some minutes, and compares each reply with a registry's that nobody else uses.

  soak.py [--program PATH] [--minutes M] [--seed N] [--connections C]
  soak.py [--program PATH] [--minutes M] [--seed N] --in-turn

It starts `serve` on a free port of the loopback address, with some tenants, a library and a small cache, and sends it random
requests: puts, batches, validations, bundles and deletes, of valid and broken bodies, by known and unknown keys. In rounds,
behind which each tenant deletes all that it has, each tenant's own requests of the round are given to a `run` for this tenant
alone, whose replies have to be those that the server gave, byte for byte. Unknown keys, unknown targets and what is no request
have their own fixed replies.

The first form serves 64 tenants on C connections at once (200 if it isn't said), side by side, which are cut, reset, half-closed,
broken off, read late and left idle at random: `soak_many.py` says how the order of a tenant's requests is known. At the end it
ends the server's standard input, and the server has to end with status 0 and to tell as many connections as there were.

The second form serves three tenants by `serve --accept`, on one connection after the other, whole, in pieces, or broken off.
Clients that reset their connection send only requests that change nothing there, and what they get isn't compared. It ends by
itself once 65,000 connections were served.

Once a minute it prints how many requests were compared and the server's resident memory. It ends by itself after M minutes
(5 if it isn't said), and with status 1 where a reply was another, where the server ended, where it told a fault that no client
caused, or where memory grew by more than a tenth and 1 MB: the most of the last third of what follows the first minute above the
most of the first third, and in turn the most of the last quarter of the time above the most of the second. The same seed gives
each tenant's requests again, though not when they come. It needs Linux.
"""
import argparse
import os
import random
import re
import select
import socket
import struct
import subprocess
import sys
import tempfile
import time

import soak_many
import soak_tenants
import talks
from random_requests import BAD_TARGETS, NO_REQUESTS, Maker, stored_uris
from soak_server import Server
from talks import BAD_REQUEST, BAD_ROUTE, UNKNOWN_TENANT, request

MOST_CONNECTIONS = 65_000
TENANTS = {
    "one": {"bytes": 10_000_000, "documents": 40, "key": "one"},
    "two": {"bytes": 3_000, "documents": 12, "key": "two"},
    "three": {"bytes": 200_000, "documents": 5, "key": "three"},
}


class Connection:
    """What is sent on a connection, and whose reply each request has: a tenant's key, or a fixed reply."""

    def __init__(self, maker, closing=None):
        draw = maker.random
        self.parts, self.owners = [], []
        self.resets = closing is None and draw.random() < 0.03
        if closing is not None:
            for key, asked in closing:
                self.add(asked, key)
            self.way = "whole"
            return
        for _ in range(draw.randrange(1, 80)):
            kind = draw.random()
            if kind < 0.02 and not self.resets:
                self.add(maker.asked("none"), UNKNOWN_TENANT)
            elif kind < 0.03:
                self.add(draw.choice(BAD_TARGETS), BAD_ROUTE)
            else:
                key = draw.choice(list(TENANTS))
                self.add(maker.asked(key, not self.resets), key)
        end = draw.random()
        if end < 0.1:
            self.add(draw.choice(NO_REQUESTS), BAD_REQUEST)
        elif end < 0.2:
            self.parts[-1] = self.parts[-1].replace(b" HTTP/1.1\r\n", b" HTTP/1.1\r\nConnection: x, Close\r\n", 1)
        elif end < 0.3:
            self.parts[-1] = self.parts[-1].replace(b" HTTP/1.1\r\n", b" HTTP/1.0\r\n", 1)
        elif end < 0.4:
            self.parts.append(b"\r\n\n")
        self.way = draw.choice(["whole", "whole", "pieces", "in turn"])
        self.cuts = random.Random(draw.random())

    def add(self, part, owner):
        self.parts.append(part)
        self.owners.append(owner)


def exchanged(server, connection):
    """The replies on a connection, and the bytes behind them; None where the client resets it. What is sent back is taken
    all along, so that neither side waits for the other."""
    found, rest, given = [], b"", 0
    queue = list(connection.parts) if connection.way == "in turn" else [b"".join(connection.parts)]
    left, is_shut = b"", False
    with server.connect() as client:
        client.setsockopt(socket.IPPROTO_TCP, socket.TCP_NODELAY, 1)
        client.setblocking(False)
        if connection.resets:
            client.setsockopt(socket.SOL_SOCKET, socket.SO_LINGER, struct.pack("ii", 1, 0))
            client.send(queue[0][:20_000])
            return None
        while True:
            if not left and queue and (connection.way != "in turn" or len(found) >= given):
                left = queue.pop(0)
                given += 1
            if not left and not queue and not is_shut:
                is_shut = True
                try:
                    client.shutdown(socket.SHUT_WR)
                except OSError:
                    pass  # the server was first
            readable, writable, _ = select.select([client], [client] if left else [], [], 60)
            if not readable and not writable:
                raise OSError(f"no answer for 60 seconds; {len(found)} replies, {len(left)} bytes left to send")
            try:
                if readable:
                    part = client.recv(1 << 16)
                    if not part:
                        return found, rest
                    more, rest = talks.replies(rest + part)
                    found += more
                elif writable:
                    size = connection.cuts.choice([1, 10, 300, 5_000]) if connection.way == "pieces" else len(left)
                    left = left[client.send(left[:size]):]
            except ConnectionError:
                if not left and not queue:
                    return found, rest
                left, queue = b"", []


class Soak:
    def __init__(self, server, seed):
        self.server = server
        self.maker = Maker(seed)
        self.connections = self.compared = self.resets = self.wrong = self.rounds = 0
        self.statuses = {}
        self.memory = []  # (seconds, KB)

    def note(self, line):
        self.wrong += 1
        if self.wrong <= 20:
            print(f"WRONG   {line}", flush=True)

    def serve(self, connection, own):
        """Serves a connection, and adds the tenants' requests with their replies to `own`."""
        came = exchanged(self.server, connection)
        self.connections += 1
        if came is None:
            self.resets += 1
            return
        found, rest = came
        if rest or len(found) != len(connection.owners):
            self.note(f"connection {self.connections}: {len(found)} replies to {len(connection.owners)} requests, {rest[:80]!r}")
        for part, owner, reply in zip(connection.parts, connection.owners, found):
            self.statuses[reply[0]] = self.statuses.get(reply[0], 0) + 1
            if not isinstance(owner, str):
                self.compared += 1
                if reply != owner:
                    self.note(f"connection {self.connections}: {reply!r} to {part[:200]!r}")
            else:
                own[owner].append((part, reply))

    def round(self):
        own = {key: [] for key in TENANTS}
        for _ in range(self.maker.random.randrange(5, 60)):
            self.serve(Connection(self.maker), own)
        self.serve(Connection(self.maker, list(deletes(own))), own)
        for key, pairs in own.items():
            # how a connection ends is no business of the tenant's
            stream = b"".join(part.replace(b"Connection: x, Close\r\n", b"", 1).replace(b" HTTP/1.0\r\n", b" HTTP/1.1\r\n", 1) for part, _ in pairs)
            wanted, rest = self.server.alone(key, stream)
            if rest or len(wanted) != len(pairs):
                self.note(f"{key} alone: {len(wanted)} replies to {len(pairs)} requests")
            for (part, reply), reply_alone in zip(pairs, wanted):
                self.compared += 1
                if reply != reply_alone:
                    self.note(f"{key}: {part[:300]!r}: {reply[0]} {reply[1][:300]!r}, alone {reply_alone[0]} {reply_alone[1][:300]!r}")
        self.rounds += 1


def deletes(own):
    """Requests that delete all documents that were stored by these."""
    for key, pairs in own.items():
        for uri in sorted(stored_uris(reply for _, reply in pairs)):
            yield key, request(key, "delete", uri)


def soak_in_turn(program, folder, seed, seconds):
    """Asks on one connection after the other, and gives the status."""
    server = Server(program, folder, TENANTS, ["--cache", "8", "--accept", "65536"])
    soak = Soak(server, seed)
    begun = shown = time.monotonic()
    ended = ""
    try:
        while (now := time.monotonic()) - begun < seconds and soak.connections < MOST_CONNECTIONS:
            soak.round()
            resident, most = server.memory()
            soak.memory.append((now - begun, resident))
            if now - shown >= 60 or not soak.rounds > 1:
                shown = now
                print(f"{now - begun:6.0f} s  {soak.compared:,} replies compared, {soak.connections:,} connections, "
                      f"{resident:,} KB resident, {most:,} KB at most", flush=True)
    except (OSError, subprocess.TimeoutExpired) as error:
        ended = str(error)
    finally:
        _, told = server.end()
    faults = re.findall(rb"connection \d+: (\w+)", told)
    if ended:
        soak.note(ended)
    if set(faults) - {b"ReadFailed", b"WriteFailed"} or len(faults) > soak.resets:
        soak.note(f"the server told {len(faults)} faults, {soak.resets} connections were reset: {set(faults)}")
    took = time.monotonic() - begun
    quarters = [[kilobytes for at, kilobytes in soak.memory if place <= at * 4 / took < place + 1] for place in range(4)]
    most = [max(quarter, default=0) for quarter in quarters]
    is_flat = most[3] <= most[1] * 1.1 + 1_024
    print(f"{took / 60:.1f} minutes, seed {seed}: {soak.rounds:,} rounds, {soak.connections:,} connections "
          f"({soak.resets:,} reset), {soak.compared:,} replies compared, {soak.wrong} wrong")
    print(f"statuses: {', '.join(f'{status} {count:,}' for status, count in sorted(soak.statuses.items()))}")
    print(f"most resident memory of each quarter of the time, in KB: {', '.join(f'{it:,}' for it in most)}: "
          f"{'flat' if is_flat else 'it grows'}")
    return 1 if soak.wrong or not is_flat or not soak.compared else 0


def soak_side_by_side(program, folder, seed, seconds, connections):
    """Asks on so many connections at once, and gives the status."""
    tenants = soak_tenants.tenants(seed)
    words = ["--cache", "32", "--idle", str(soak_many.IDLE)]
    server = Server(program, folder, {tenant.key: tenant.quota for tenant in tenants}, words)
    return soak_many.soak(server, tenants, seed, connections, seconds)


def main():
    reader = argparse.ArgumentParser(description="Asks a server at random for some minutes.")
    reader.add_argument("--program", default=talks.PROGRAM, metavar="PATH", help="the built program")
    reader.add_argument("--minutes", type=float, default=5, metavar="M", help="how long it asks; at most 600")
    reader.add_argument("--seed", type=int, default=1, metavar="N", help="where the requests come from")
    reader.add_argument("--connections", type=int, default=200, metavar="C", help="how many are open at once, from 1 to 900")
    reader.add_argument("--in-turn", action="store_true", help="one connection after the other, by --accept")
    asked = reader.parse_args()
    if not os.path.exists(asked.program):
        sys.exit(f"{asked.program} is not there: build it by `cd crates/schemareg && rt run < stdin`")
    seconds = min(asked.minutes, 600) * 60
    with tempfile.TemporaryDirectory(prefix="soak-") as folder:
        if asked.in_turn:
            return soak_in_turn(asked.program, folder, asked.seed, seconds)
        return soak_side_by_side(asked.program, folder, asked.seed, seconds, min(max(asked.connections, 1), 900))


if __name__ == "__main__":
    sys.exit(main())
