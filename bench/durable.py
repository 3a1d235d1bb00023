"""The tables of documents that survive: `serve --store`, by `wrk`, beside the same without a store and beside SQLite's own shell
on the same disk; and what an opening takes. The files lie in a folder of TMPDIR: set it to the disk that is meant.

Each table prints its figures with their marks, and gives whether all of them hold.
"""

import os
import subprocess
import sys
import tempfile
import time
from contextlib import contextmanager
from pathlib import Path
from statistics import median

from many_clients import ask, small_validation, whole, word
from many_servers import as_client, many_server, needs, wrk, wrk_told
from run import print_table, time_of
from service_requests import SITE, TENANTS, compact, document, http_call, written

TRIES = 3
CONNECTIONS = (1, 10, 50, 200)
LEAST_BY_FIFTY = 10
READERS = 49
LEAST_OF_READS = 0.9
MANY = 100_000
MOST_OF_SIZE = 1.6
OPENED = 10_000
ENTRIES = 50

PUTS = """
local threads = 0
function setup(thread)
  thread:set("number", threads)
  threads = threads + 1
end
function init(args)
  count = 0
end
function request()
  count = count + 1
  return wrk.format("PUT", "/schemas?uri={site}/p/" .. number .. "/" .. (count % 20000), {{["x-tenant-key"] = "k1"}}, '{body}')
end
{done}
"""

SLOWER_BY = 1_000

SLOW_SYNCS = """
#include <sys/syscall.h>
#include <unistd.h>

static int slow(long call, int file) {{ usleep({slower_by}); return (int)syscall(call, file); }}

int fsync(int file) {{ return slow(SYS_fsync, file); }}

int fdatasync(int file) {{ return slow(SYS_fdatasync, file); }}
"""

SCHEMA = "CREATE TABLE document (tenant TEXT NOT NULL, uri TEXT NOT NULL, text TEXT NOT NULL, PRIMARY KEY (tenant, uri)) WITHOUT ROWID;"


@contextmanager
def store_folder():
    with tempfile.TemporaryDirectory(prefix="schemareg-") as folder:
        yield Path(folder) / "documents.sqlite"


@contextmanager
def server_over(service, store):
    """A server over the file, or in memory where there is none."""
    with as_client(), written(TENANTS) as tenants:
        with many_server(service.served, tenants, *(["--store", str(store)] if store else [])) as server:
            yield server


def put_rate(service, connections, has_store):
    """Puts of 1 KB a second by so many connections, each of which awaits its reply."""
    with store_folder() as store, server_over(service, store if has_store else None) as server:
        body = compact(document(0, 1))
        return wrk_told(server, connections, whole(service.seconds), lambda done: PUTS.format(site=SITE, body=body, done=done)).rate


def shell_rate(seconds):
    """Rows of 1 KB a second that SQLite's shell inserts on this disk, each in a commit of its own."""
    body, count = compact(document(0, 1)), 200
    while True:
        with store_folder() as store:
            rows = [f"insert or replace into document values ('k1', '{SITE}/p/{number}', '{body}');" for number in range(count)]
            text = "\n".join(["pragma journal_mode=wal;", "pragma synchronous=full;", SCHEMA, *rows])
            start = time.monotonic()
            subprocess.run(["sqlite3", str(store)], input=text, capture_output=True, text=True, check=True)
            took = time.monotonic() - start
        if took >= seconds:
            return count / took
        count *= 4


@contextmanager
def slow_syncs():
    """What is started meanwhile takes a millisecond longer for each sync, as a disk does that has no memory of its own."""
    with tempfile.TemporaryDirectory(prefix="schemareg-") as folder:
        source, library = Path(folder) / "slow.c", Path(folder) / "slow.so"
        source.write_text(SLOW_SYNCS.format(slower_by=SLOWER_BY))
        subprocess.run(["cc", "-O2", "-shared", "-fPIC", "-D_GNU_SOURCE", "-o", library, source], check=True)
        os.environ["LD_PRELOAD"] = str(library)
        try:
            yield
        finally:
            del os.environ["LD_PRELOAD"]


def slow_puts_table(service):
    needs("cc")
    with slow_syncs():
        return puts_table(service)


def puts_table(service):
    needs("wrk", "sqlite3")
    shell = median(shell_rate(service.seconds / 2) for _ in range(TRIES))
    with_store, without = {}, {}
    for connections in CONNECTIONS:
        runs = [(put_rate(service, connections, True), put_rate(service, connections, False)) for _ in range(TRIES)]
        with_store[connections], without[connections] = (median(run[side] for run in runs) for side in (0, 1))
    held, rows = True, []
    for connections in CONNECTIONS:
        times = with_store[connections] / with_store[1]
        is_marked = connections == 50
        holds = times >= LEAST_BY_FIFTY or not is_marked
        held = held and holds
        mark = [f"at least {LEAST_BY_FIFTY}", word(holds)] if is_marked else ["-", "-"]
        rates = [f"{with_store[connections]:,.0f}", f"{without[connections]:,.0f}", f"{shell:,.0f}" if connections == 1 else "-"]
        rows.append([str(connections), *rates, f"{times:.1f}", *mark])
    head = ["Connections", "With a store, a second", "Without", "SQLite's shell, a commit a row", "Times one connection", "Mark", ""]
    print_table(head, rows)
    return held


@contextmanager
def one_putting(server):
    """A connection that puts documents of 1 KB, each once the one before is acknowledged."""
    script = "\n".join([
        "import socket, sys",
        f"client = socket.create_connection(('127.0.0.1', {server.port}))",
        "client.setsockopt(socket.IPPROTO_TCP, socket.TCP_NODELAY, 1)",
        "head, body = sys.argv[1], sys.argv[2]",
        "number = 0",
        "while True:",
        "    number = (number + 1) % 20000",
        "    client.sendall((head % number + '\\r\\n\\r\\n' + body).encode())",
        "    client.recv(65536)",
    ])
    head, body = http_call(["put", f"{SITE}/p/%d", document(0, 1)]).decode().split("\r\n\r\n", 1)
    with subprocess.Popen([sys.executable, "-c", script, head, body], stderr=subprocess.DEVNULL) as putter:
        try:
            yield
        finally:
            putter.kill()


def read_rate(service, has_store):
    before, request = small_validation()
    with store_folder() as store, server_over(service, store if has_store else None) as server:
        with server.client() as client:
            for call in before:
                ask(client, call)
        with one_putting(server):
            return wrk(server, request, READERS, whole(service.seconds)).rate


def reads_table(service):
    needs("wrk")
    runs = [(read_rate(service, True), read_rate(service, False)) for _ in range(TRIES)]
    part = median(kept / plain for kept, plain in runs)
    holds = part >= LEAST_OF_READS
    row = [*(f"{median(run[side] for run in runs):,.0f}" for side in (0, 1)), f"{part:.2f}", f"at least {LEAST_OF_READS}", word(holds)]
    print_table([f"{READERS} that validate beside one that puts, with a store, a second", "Without", "Ratio", "Mark", ""], [row])
    return holds


def put_all(server, count, make):
    """Puts so many documents by batches on one connection. Gives the seconds that it took."""
    start = time.monotonic()
    with server.client() as client:
        for first in range(0, count, ENTRIES):
            entries = [{"uri": f"{SITE}/d/{number:06}", "schema": make(number)} for number in range(first, min(first + ENTRIES, count))]
            body = compact({"put": entries}).encode()
            ask(client, b"POST /batch HTTP/1.1\r\nx-tenant-key: k1\r\ncontent-length: %d\r\n\r\n" % len(body) + body)
    return time.monotonic() - start


def of_length(number, length):
    schema = {"type": "object", "properties": {f"m{number}": {"type": "string"}}, "description": ""}
    schema["description"] = "d" * (length - len(compact(schema)))
    return schema


def files_of(store):
    return sum(os.path.getsize(path) for path in store.parent.iterdir())


def opening_table(service):
    """What it takes until a server over a file of 10,000 documents of 2 KB listens, beside putting them by batches."""
    with store_folder() as store:
        with server_over(service, None) as server:
            plain = put_all(server, OPENED, lambda number: of_length(number, 2_000))
        with server_over(service, store) as server:
            kept = put_all(server, OPENED, lambda number: of_length(number, 2_000))
        start = time.monotonic()
        with server_over(service, store):
            opened = time.monotonic() - start
    holds = opened <= plain
    row = [f"{OPENED:,} of 2 KB", time_of(plain), time_of(kept), time_of(opened), "at most what the puts take", word(holds)]
    print_table(["Documents", "Put by batches, without a store", "With a store", "Opened", "Mark", ""], [row])
    return holds


def size_table(service):
    with store_folder() as store:
        with server_over(service, store) as server:
            put_all(server, MANY, lambda number: of_length(number, 1_000))
        size = files_of(store)
    part = size / (MANY * 1_000)
    holds = part <= MOST_OF_SIZE
    row = [f"{MANY:,} of 1 KB", f"{size / 1e6:.1f} MB", f"{part:.2f}", f"at most {MOST_OF_SIZE}", word(holds)]
    print_table(["Documents", "File, after the end", "Of their bytes", "Mark", ""], [row])
    return holds


DURABLE_TABLES = {
    "durable, puts": puts_table,
    "durable, slow syncs": slow_puts_table,
    "durable, reads": reads_table,
    "durable, opening": opening_table,
    "durable, size": size_table,
}
