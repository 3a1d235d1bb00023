#!/usr/bin/env python3
"""Measures the service: what a request costs over the hub, on a connection, and through the program.

    python3 bench/service.py [--program PATH] [--benchmark PATH] [--only NAME] [--seconds S]

PATH is a built program: of the crate `schemareg` (crates/schemareg/out/schemareg if it isn't said), and of the crate
`benchmark` (crates/benchmark/out/benchmark). Nothing is built here. Needs Python's standard library; instructions are counted
where valgrind is installed. Each table is measured for at least S seconds a figure (1 if it isn't said). The tables, which
--only chooses by their names:

    hub      a tenant's requests, over registries of 1, 100 and 10,000 documents, beside reading, evaluating and writing alone
    bundles  bundles of 250, 500 and 1,000 documents of 1 KB
    feed     the bytes of one connection in pieces: what a byte costs at one size and at twice the size
    run      one pipelined connection on standard input and output
    serve    one connection on the loopback address, pipelined, and with a reply awaited before the next request
    registry the memory of a registry of 10,000 documents of 2 KB
    bursts   20 and 200 requests that a client on the loopback address sends in one write, to `serve` with and without --accept
    many ..  many clients of `serve` without --accept, which is on one processor and they on the others:
        many, beside nginx      validations by 1, 50 and 900 connections, and nginx's with one worker and a fixed reply
        many, beside run        validations on one connection that awaits no reply, and those of `run`
        many, idle              one connection that asks, alone and beside 900 idle ones
        many, large documents   50 connections that ask, beside one that puts documents of 1 MB
        many, memory            resident memory before any connection, and by 1,000 idle ones
    durable ..  `serve --store`, on a disk of TMPDIR:
        durable, puts           puts of 1 KB by 1, 10, 50 and 200 connections, without a store, and by SQLite's shell
        durable, slow syncs     the same where each sync takes a millisecond longer; needs cc
        durable, reads          validations by 49 connections beside one that puts, with a store and without
        durable, opening        10,000 documents of 2 KB: put by batches, and opened
        durable, size           the file of 100,000 documents of 1 KB

The last two words stand for tables with marks: the status is 1 where one doesn't hold. They need Linux; those of many clients
need `wrk` and `nginx`, and more than one processor, and measure each figure fifteen times, for S seconds.

Instructions of a request are those of 2 N turns less those of N, divided by N; so the start of the program, what was stored
before, and what is made once don't count.
"""

import argparse
import re
import socket
import subprocess
import sys
import tempfile
import time
from contextlib import contextmanager
from pathlib import Path
from statistics import median

from loopback import connect, free_port, in_turn, reply_length, together
from durable import DURABLE_TABLES, OPENED, of_length, put_all
from many_clients import MANY_TABLES
from many_servers import many_server
from run import TOP, Bench, amount, print_table, time_of
from service_requests import (
    SITE, TENANTS, VALIDATIONS, chained, compact, document_uri, http_call, http_request, program_requests, ring_documents,
    schema_alone, small_document, stored, written,
)
from workloads import order

REGISTRIES = (1, 100, 10_000)
BUNDLES = (250, 500, 1_000)
LARGEST_BODY = 1_048_576
LARGEST_HEAD = 16_384
# `run` ends a connection after 65,536 reads of 4,096 bytes.
MOST_SENT = 60_000 * 4_096


# ---- measuring


def each_turn(count_of, turns):
    """The instructions of a turn, from those of so many turns and of twice as many."""
    some, twice = count_of(turns), count_of(2 * turns)
    return None if some is None or twice is None else (twice - some) / turns


class Service(Bench):
    def __init__(self, benchmark, program, seconds):
        super().__init__(benchmark, seconds)
        self.served = program

    def asked(self, before, repeat, turns, answered=None):
        """The seconds and the instructions of a turn of requests, after others that are done once."""
        with written({"before": before, "repeat": repeat}) as file:
            told = self.took("ask", file, 1)[1]
            if told != (len(repeat) if answered is None else answered):
                sys.exit(f"{told} of {len(repeat)} requests were answered without a refusal: {compact(repeat)[:200]}")
            counted = each_turn(lambda times: self.counted("ask", file, times), turns) if self.valgrind else None
            return self.turn("ask", file), counted

    def alone(self, schema, instance, turns):
        """The seconds and the instructions of reading an instance, evaluating it and writing the output."""
        with written({"schema": schema, "instance": instance}) as file:
            seconds = self.turn("read", file) + self.turn("validate", file)
            if not self.valgrind:
                return seconds, None
            parts = [each_turn(lambda times: self.counted(part, file, times), turns) for part in ("read", "validate")]
            return seconds, None if None in parts else sum(parts)

    def fed(self, stream, size):
        """The seconds, the instructions and the bytes sent, for a connection's bytes in pieces of this size."""
        with written(stream) as file:
            seconds = min(self.took("feed", file, size)[0] - self.took("feed", file, 0)[0] for _ in range(3))
            sent = self.took("feed", file, size)[1]
            if not self.valgrind:
                return seconds, None, sent
            counted, start = self.counted("feed", file, size), self.counted("feed", file, 0)
            return seconds, None if counted is None or start is None else counted - start, sent

    # -- one connection on standard input and output

    def ran(self, tenants, stream):
        """The seconds on the clock that the program takes for a connection, and what it sends."""
        with written(stream) as file, open(file, "rb") as given:
            start = time.monotonic()
            done = subprocess.run([self.served, "run", "--tenants", tenants], stdin=given, capture_output=True)
            took = time.monotonic() - start
        if done.returncode != 0:
            sys.exit(f"run: {done.stderr.decode()}")
        return took, done.stdout

    def counted_run(self, tenants, stream):
        with tempfile.TemporaryDirectory() as folder, written(stream) as file, open(file, "rb") as given:
            words = [self.valgrind, "--tool=callgrind", f"--callgrind-out-file={folder}/out", self.served]
            done = subprocess.run(words + ["run", "--tenants", tenants], stdin=given, capture_output=True)
        found = re.search(rb"Collected : (\d+)", done.stderr)
        return int(found[1]) if found else None

    def pipelined(self, tenants, before, request, turns):
        """The seconds and the instructions of a request on one connection, after others."""
        first, again = b"".join(map(http_call, before)), http_call(request)

        def run(times):
            took, sent = self.ran(tenants, first + again * times)
            if replies_that_hold(sent) != len(before) + times:
                sys.exit(f"run: {sent[-400:]!r}")
            return took

        start, times = min(run(0) for _ in range(3)), 64
        while run(times) - start < self.seconds / 4 and 4 * times * len(again) < MOST_SENT:
            times *= 4
        seconds = (min(run(times) for _ in range(3)) - start) / times
        if not self.valgrind:
            return seconds, None
        return seconds, each_turn(lambda count: self.counted_run(tenants, first + again * count), turns)

    # -- one connection on the loopback address

    @contextmanager
    def connected(self, tenants):
        port = free_port()
        words = [self.served, "serve", "--tenants", tenants, "--listen", f"127.0.0.1:{port}", "--accept", "1"]
        with subprocess.Popen(words, stderr=subprocess.PIPE) as server, connect(port, server) as client:
            yield client
            client.shutdown(socket.SHUT_WR)
            while client.recv(65_536):
                pass


def replies_that_hold(sent):
    """How many of the replies are no refusals."""
    return len(re.findall(rb"HTTP/1\.1 20[01] ", sent))


# ---- the tables


def figure(seconds, counted):
    return f"{time_of(seconds)}; {amount(counted)}"


def beside(seconds, counted, alone):
    """What is left of the time and the instructions when others are taken off."""
    left = None if counted is None or alone[1] is None else counted - alone[1]
    return f"{(seconds - alone[0]) * 1e6:.2f} µs; {amount(left)}"


def hub_table(service):
    print("A request over the hub, in time and in instructions; a new document is put and deleted again.\n")
    rows = []
    new = ["put", f"{SITE}/new", small_document(0)]
    for name, repeat in {
        "put and delete": [new, ["delete", new[1]]],
        "replace": [["put", document_uri(0), small_document(0)]],
    }.items():
        rows.append([name, "-"] + [figure(*service.asked(stored(size), repeat, 20)) for size in REGISTRIES])
    for name, make in VALIDATIONS.items():
        schema, instance = make()
        alone = service.alone(schema, instance, 20)
        put = ["put", f"{SITE}/schema", schema]
        repeat = [["validate", put[1], instance]]
        took = [service.asked(stored(size - 1) + [put], repeat, 20) for size in REGISTRIES]
        rows.append([name, figure(*alone)] + [figure(*each) for each in took])
        rows.append(["what the hub takes of it", "-"] + [beside(*each, alone) for each in took])
    print_table(["Request", "Reading, evaluating, writing alone"] + [f"{size:,} documents" for size in REGISTRIES], rows)


def bundle_table(service):
    rows = []
    for size in BUNDLES:
        seconds, counted = service.asked(chained(size), [["bundle", document_uri(0)]], 1)
        length = sum(len(compact(call[2])) for call in chained(size))
        per_byte = "-" if counted is None else f"{counted / length:.1f}"
        rows.append([f"{size:,}", amount(length), time_of(seconds), amount(counted), f"{seconds / length * 1e9:.3g} ns", per_byte])
    print_table(["Documents", "Bytes", "Bundle", "Instructions", "A byte", "Instructions a byte"], rows)


def body_stream(size):
    body = compact({"title": "t" * (size - len(compact({"title": ""})))}).encode()
    return http_request("PUT", f"/schemas?uri={SITE}/large", body)


def head_stream(size):
    head = http_request("GET", f"/bundle?uri={SITE}/none").replace(b"\r\n\r\n", b"\r\nx-note: \r\n\r\n")
    return head.replace(b"x-note: ", b"x-note: " + b"n" * (size - len(head)))


def validate_stream(count):
    put = http_call(["put", f"{SITE}/s", {"type": "object"}])
    return put + http_call(["validate", f"{SITE}/s", {"a": 1}]) * count


def hostile_stream(size):
    """A head of as many lines as there may be and one more, and then no end of them."""
    return b"GET /bundle HTTP/1.1\n" + b"a:b\n" * (size // 4)


WHOLE = 2_000_000_000

# name, what makes the stream of a size, the size, the size of the pieces
STREAMS = [
    ("a body, by single bytes", body_stream, LARGEST_BODY, 1),
    ("a body, in pieces of 4 KB", body_stream, LARGEST_BODY, 4_096),
    ("a head, by single bytes", head_stream, LARGEST_HEAD, 1),
    ("validations, in one piece", validate_stream, 10_000, WHOLE),
    ("validations, by single bytes", validate_stream, 10_000, 1),
    ("line feeds, by single bytes", lambda size: b"\n" * size, LARGEST_BODY, 1),
    ("line feeds, in one piece", lambda size: b"\n" * size, LARGEST_BODY, WHOLE),
    ("too many lines, by single bytes", hostile_stream, LARGEST_BODY, 1),
    ("too many lines, in one piece", hostile_stream, LARGEST_BODY, WHOLE),
]


def feed_row(service, name, make, size, pieces):
    halved, whole = make(size // 2), make(size)
    half, full = service.fed(halved, pieces), service.fed(whole, pieces)
    row = [name, amount(len(halved)), amount(len(whole)), time_of(full[0]), f"{full[0] / len(whole) * 1e9:.3g} ns"]
    if half[1] is None or full[1] is None:
        return row + ["-", "-"]
    return row + [f"{half[1] / len(halved):.1f}", f"{full[1] / len(whole):.1f}"]


def feed_table(service):
    head = ["Stream", "Half", "Whole", "Time", "A byte", "Instructions a byte, half", "Instructions a byte, whole"]
    print_table(head, (feed_row(service, *stream) for stream in STREAMS))


def run_table(service):
    rows = []
    with written(TENANTS) as tenants:
        for name, (before, request) in program_requests().items():
            seconds, counted = service.pipelined(tenants, before, request, 100)
            row = [name, amount(1 / seconds), time_of(seconds), amount(counted), "-", "-"]
            if request[0] == "validate":
                alone = service.alone(schema_alone(name, before), request[2], 20)
                row[4:] = [figure(*alone), beside(seconds, counted, alone)]
            rows.append(row)
    head = ["Request", "Requests a second", "Time", "Instructions", "Reading, evaluating, writing alone", "What the service takes"]
    print_table(head, rows)


# The server ends a connection after 65,536 reads, and all turns go over one.
MOST_TURNS = 4_096


def exchange_times(service, tenants, before, request):
    """The seconds of a request, pipelined and one at a time."""
    with service.connected(tenants) as client:
        # the request itself goes first, too: a put replaces from the second time on, and then all replies are alike
        for call in before + [request]:
            client.sendall(http_call(call))
            reply_length(client)
        sent, times = http_call(request), 16
        client.sendall(sent)
        length = reply_length(client)
        while times < MOST_TURNS and in_turn(client, sent, length, times) < service.seconds / 4:
            times *= 4
        return [min(way(client, sent, length, times) for _ in range(3)) / times for way in (together, in_turn)]


def serve_table(service):
    rows = []
    with written(TENANTS) as tenants:
        for name, (before, request) in program_requests().items():
            rows.append([name])
            for seconds in exchange_times(service, tenants, before, request):
                rows[-1] += [amount(1 / seconds), time_of(seconds)]
    print_table(["Request", "Pipelined, a second", "Time", "One at a time, a second", "Time"], rows)


BURSTS = (20, 200)
MOST_TIMES = 20


def burst_times(client, before, request, tries=9, rounds=8):
    """The seconds that each of these numbers of requests takes, sent in one write, up to the last reply: the least of all tries
    of the smaller one, and of the larger one the least median of a round of tries. A client acknowledges at once or late as it
    likes, so that a single try may have no pause to show."""
    for call in before + [request]:
        client.sendall(http_call(call))
        reply_length(client)
    client.sendall(http_call(request))
    length = reply_length(client)
    few, many = ([[together(client, http_call(request), length, count) for _ in range(tries)] for _ in range(rounds)] for count in BURSTS)
    return min(map(min, few)), min(map(median, many))


def burst_row(name, few, many):
    return [name, time_of(few), time_of(many), f"{many / few:.1f}", "over" if many > MOST_TIMES * few else "ok"]


def burst_table(service):
    """Whether no burst is over the mark."""
    rows = []
    with written(TENANTS) as tenants:
        for name, asked in program_requests().items():
            with service.connected(tenants) as client:
                rows.append(burst_row(f"{name}, --accept 1", *burst_times(client, *asked)))
            with many_server(service.served, tenants) as server, server.client() as client:
                rows.append(burst_row(name, *burst_times(client, *asked)))
    print_table(["Requests in one write", *(f"{count} of them" for count in BURSTS), "Times", ""], rows)
    return all(row[-1] == "ok" for row in rows)


# the megabytes that a registry may take: half of what it took where each document was kept as a value, too
MOST_REGISTRY = {"one text each": 38.1, "an order's schema each": 66.6}


def order_schema(number, length):
    """The order's schema under a URI of its own, with a text that fills it up to so many bytes."""
    schema = {**order()[0], "$id": document_uri(number), "description": ""}
    schema["description"] = "d" * (length - len(compact(schema)))
    return schema


def registry_table(service):
    """Whether a server that has 10,000 documents of 2 KB takes at most its megabytes."""
    rows = []
    for (name, most), make in zip(MOST_REGISTRY.items(), (of_length, order_schema)):
        with written(TENANTS) as tenants, many_server(service.served, tenants) as server:
            empty = server.resident()
            put_all(server, OPENED, lambda number: make(number, 2_000))
            taken = server.resident() - empty
        rows.append([f"{OPENED:,} of 2 KB, {name}", f"{taken:.1f} MB", f"at most {most} MB", "ok" if taken <= most else "missed"])
    print_table(["Documents", "Resident memory", "Mark", ""], rows)
    return all(row[-1] == "ok" for row in rows)


TABLES = {
    "hub": hub_table,
    "bundles": bundle_table,
    "feed": feed_table,
    "run": run_table,
    "serve": serve_table,
    "bursts": burst_table,
    "registry": registry_table,
    **MANY_TABLES,
    **DURABLE_TABLES,
}


def main():
    words = argparse.ArgumentParser(description="Measures the service.")
    words.add_argument("--program", default=TOP / "crates/schemareg/out/schemareg", help="a built program of the crate schemareg")
    words.add_argument("--benchmark", default=TOP / "crates/benchmark/out/benchmark", help="a built program of the crate benchmark")
    words.add_argument("--only", help="the tables whose name holds this text")
    words.add_argument("--seconds", type=float, default=1, help="how long each figure is measured, at the least")
    words = words.parse_args()
    service = Service(str(Path(words.benchmark).resolve()), str(Path(words.program).resolve()), words.seconds)
    held = True
    for name, table in TABLES.items():
        if not words.only or words.only in name:
            print(f"## {name}\n")
            held = table(service) is not False and held
    if not held:
        sys.exit(1)


if __name__ == "__main__":
    main()
