"""The tables of many clients at once: `serve` without --accept, by `wrk` and by the client of the other tables.

Each table prints its figures with their marks, and gives whether all of them hold. Where a server waited for its processor for
more than a few hundredths of the time (`Waited`), something else ran there, and the figures say nothing.
"""

import re
import socket
import sys
import threading
import time
from concurrent.futures import ThreadPoolExecutor
from contextlib import ExitStack, contextmanager, nullcontext
from statistics import median

from loopback import reply_length, together
from many_servers import Server, as_client, many_server, needs, nginx_server, start, until, wrk
from run import amount, print_table, time_of
from service_requests import SITE, TENANTS, compact, http_call, program_requests, written
from workloads import ORDER_LINE

# By five tries, one pair of servers differs by a tenth from run to run.
TRIES = 15
LARGEST_BODY = 1_048_576
CONNECTIONS = (1, 50, 900)
LEAST_OF_NGINX = 0.8
LEAST_OF_RUN = 0.9
IDLE = 900
LEAST_BESIDE_IDLE = 0.9
ASKING = 50
MOST_LATENCY = 0.002
MEMORY_CONNECTIONS = 1_000
MOST_MEMORY = 20
LARGE_BODY = 100_000
# `run` ends a connection after 65,536 reads, and all turns go over one. Where nothing is awaited, each has many requests.
MOST_PIPELINED = 131_072


def word(holds):
    return "ok" if holds else "missed"


def whole(seconds):
    """As `wrk` takes a time."""
    return max(1, round(seconds))


def small_validation():
    """The validation of the small object, and what is put before it, as bytes."""
    before, request = program_requests()["validate, small object"]
    return [http_call(call) for call in before], http_call(request)


def ask(client, request):
    """Sends a request, and gives the body of its reply, which has to be no refusal."""
    client.sendall(request)
    sent = b""
    while b"\r\n\r\n" not in sent:
        sent += client.recv(65_536)
    head, body = sent.split(b"\r\n\r\n", 1)
    length = int(re.search(rb"(?i)content-length: (\d+)", head)[1])
    while len(body) < length:
        body += client.recv(65_536)
    if not re.match(rb"HTTP/1\.1 20[01] ", head):
        sys.exit(f"{request[:100]!r}: {sent[:400]!r}")
    return body


@contextmanager
def prepared(service, *options):
    """A server that has the small object's schema, and the validation of that object."""
    before, request = small_validation()
    with as_client(), written(TENANTS) as tenants, many_server(service.served, tenants, *options) as server:
        with server.client() as client:
            for call in before:
                ask(client, call)
            server.reply = ask(client, request)
        yield server, request


# ---- beside nginx


def each_request(server, request, connections, seconds):
    """What `wrk` told, the server's processor time of a request, and the part of the time in which it waited for a processor."""
    before, waited = server.processor_time(), server.waited()
    asked = wrk(server, request, connections, seconds)
    return asked, (server.processor_time() - before) / asked.requests, (server.waited() - waited) / seconds


def nginx_table(service):
    needs("wrk", "nginx")
    rows, held = [], True
    with prepared(service) as (ours, request), nginx_server(ours.reply.decode()) as theirs:
        with theirs.client() as client:
            if ask(client, request.replace(b"\r\n", b"\r\nhost: localhost\r\n", 1)) != ours.reply:
                sys.exit("nginx: another reply")
        for connections in CONNECTIONS:
            runs = [[each_request(server, request, connections, whole(service.seconds)) for server in (ours, theirs)] for _ in range(TRIES)]
            part = median(mine.rate / other.rate for (mine, *_), (other, *_) in runs)
            rates = [f"{median(run[side][0].rate for run in runs):,.0f}" for side in (0, 1)]
            times = [time_of(median(run[side][1] for run in runs)) for side in (0, 1)]
            waits = [f"{median(run[side][2] for run in runs):.0%}" for side in (0, 1)]
            held = held and part >= LEAST_OF_NGINX
            rows.append([str(connections), *rates, *times, *waits, f"{part:.2f}", f"at least {LEAST_OF_NGINX}", word(part >= LEAST_OF_NGINX)])
    head = ["Connections", "serve, a second", "nginx, a second", "Processor, serve", "Processor, nginx"]
    print_table([*head, "Waited, serve", "Waited, nginx", "Ratio", "Mark", ""], rows)
    return held


# ---- beside run


@contextmanager
def serve_client(server):
    with server.client() as client:
        yield server, client


@contextmanager
def run_client(service, tenants, pair):
    """`run`, and a client of it: its standard input and output are the other end of a pair of sockets."""
    client, given = pair
    with client, start([service.served, "run", "--tenants", tenants], stdin=given, stdout=given) as process:
        given.close()
        try:
            yield Server(process, None), client
            client.shutdown(socket.SHUT_WR)
            process.wait(10)
        finally:
            process.kill()


def loopback_pair():
    """Both ends of a connection of the loopback address."""
    with socket.create_server(("127.0.0.1", 0)) as listener:
        client = socket.create_connection(listener.getsockname(), timeout=30)
        given, _ = listener.accept()
    for end in (client, given):
        end.setsockopt(socket.IPPROTO_TCP, socket.TCP_NODELAY, 1)
    return client, given


def pipelined(opened, seconds):
    """The seconds of a validation on a connection that awaits no reply, and those of a processor that the server takes."""
    before, request = small_validation()
    with opened as (server, client):
        for call in before:
            ask(client, call)
        client.sendall(request)
        length, times = reply_length(client), 1_024
        while True:
            start_of = server.processor_time()
            took = together(client, request, length, times)
            if took >= seconds / 4 or times >= MOST_PIPELINED:
                return took / times, (server.processor_time() - start_of) / times
            times *= 2


def run_beside_table(service):
    rows, held = [], True
    with as_client(), written(TENANTS) as tenants, many_server(service.served, tenants) as server:
        ways = {"a connection of the loopback address": loopback_pair, "a pair of local sockets": socket.socketpair}
        for name, pair in ways.items():
            runs = []
            for _ in range(TRIES):
                ours = pipelined(serve_client(server), service.seconds)
                runs.append((ours, pipelined(run_client(service, tenants, pair()), service.seconds)))
            part = median(other[0] / mine[0] for mine, other in runs)
            rates = [f"{1 / median(run[side][0] for run in runs):,.0f}" for side in (0, 1)]
            times = [time_of(median(run[side][1] for run in runs)) for side in (0, 1)]
            held = held and part >= LEAST_OF_RUN
            rows.append([name, *rates, *times, f"{part:.2f}", f"at least {LEAST_OF_RUN}", word(part >= LEAST_OF_RUN)])
    head = ["run on", "serve, pipelined, a second", "run, a second", "Processor, serve", "Processor, run", "Ratio", "Mark", ""]
    print_table(head, rows)
    return held


# ---- idle connections


@contextmanager
def idle_clients(server, count, request=None):
    """So many clients that ask nothing more once each has asked once, where there is a request."""
    until(lambda: server.connections() == 0, "connections that have left")
    with ExitStack() as stack:
        clients = [stack.enter_context(server.client()) for _ in range(count)]
        for client in clients:
            if request:
                ask(client, request)
        until(lambda: server.connections() == count, "connections")
        yield
    until(lambda: server.connections() == 0, "connections that have left")


def idle_table(service):
    needs("wrk")
    alone, beside = [], []
    with prepared(service) as (server, request):
        for _ in range(TRIES):
            alone.append(wrk(server, request, 1, whole(service.seconds)).rate)
            with idle_clients(server, IDLE, request):
                beside.append(wrk(server, request, 1, whole(service.seconds)).rate)
    part = median(least / most for least, most in zip(beside, alone))
    holds = part >= LEAST_BESIDE_IDLE
    row = [f"{median(alone):,.0f}", f"{median(beside):,.0f}", f"{part:.2f}", f"at least {LEAST_BESIDE_IDLE}", word(holds)]
    print_table(["One connection alone, a second", f"Beside {IDLE} idle ones", "Ratio", "Mark", ""], [row])
    return holds


# ---- large documents beside small requests


def one_text():
    return {"title": "t" * (LARGEST_BODY - len(compact({"title": ""})))}


def order_lines():
    """As many schemas of an order's line as 1 MB holds."""
    count = (LARGEST_BODY - len(compact({"$defs": {}}))) // len(compact({"d0000": ORDER_LINE}))
    return {"$defs": {f"d{number:04}": ORDER_LINE for number in range(count)}}


def identified():
    """40,000 schemas that each have a URI of their own."""
    return {"$defs": {str(number): {"$id": str(number)} for number in range(40_000)}}


NGINX = "nothing, and nginx answers"

# what one connection puts, what makes it, the seconds from one put to the next, and whether the mark is for it
LARGE = [
    ("nothing", None, 0, True),
    (NGINX, None, 0, False),
    ("one text of 1 MB, each second", one_text, 1, True),
    ("order lines of 1 MB, each second", order_lines, 1, True),
    ("one text of 1 MB, one after the other", one_text, 0, True),
    ("order lines of 1 MB, one after the other", order_lines, 0, True),
    ("40,000 schemas with a URI each, 0.9 MB, each second", identified, 1, False),
]


@contextmanager
def putting(server, document, pause):
    """One connection puts the document again and again. Gives the list of the seconds that each of its puts took."""
    took, ended = [], threading.Event()
    request = http_call(["put", f"{SITE}/large", document])

    def put():
        with server.client() as client:
            while not ended.is_set():
                begun = time.monotonic()
                ask(client, request)
                took.append(time.monotonic() - begun)
                ended.wait(max(0, pause - took[-1]))

    with ThreadPoolExecutor() as threads:
        putter = threads.submit(put)
        try:
            yield took
        finally:
            ended.set()
        putter.result()


def beside_puts(server, request, make, pause, seconds):
    """What `wrk` told beside a connection that puts what is made, the part of the time that the server waited, and the times of puts."""
    with putting(server, make(), pause) if make else nullcontext([]) as took:
        asked, _, waited = each_request(server, request, ASKING, seconds)
    return asked, waited, took


def large_table(service):
    """All rows are tried in turn, so that what else goes on in the machine is spread over them. The mark is for the median. The
    least of the tries in which something was put stands beside it: what else goes on only adds to a latency. The row of nginx,
    to which nothing is put, shows what the machine and the client add."""
    needs("wrk", "nginx")
    tries = {name: [] for name, *_ in LARGE}
    with prepared(service) as (ours, request), nginx_server(ours.reply.decode()) as theirs:
        for _ in range(TRIES):
            for name, make, pause, _ in LARGE:
                server = theirs if name == NGINX else ours
                tries[name].append(beside_puts(server, request, make, pause, whole(3 * service.seconds)))
    rows, held = [], True
    for name, make, _, is_marked in LARGE:
        asked, waited, took = zip(*tries[name])
        puts = [each for times in took for each in times]
        least = min(each.p99 for each, times in zip(asked, took) if times or not make)
        last = median(each.p99 for each in asked)
        held = held and (last < MOST_LATENCY or not is_marked)
        put = [str(len(puts)), time_of(median(puts))] if puts else ["-", "-"]
        mark = [f"p99 below {time_of(MOST_LATENCY)}", word(last < MOST_LATENCY)] if is_marked else ["-", "-"]
        p99 = [time_of(last), time_of(least)]
        others = [time_of(median(each.median for each in asked)), *p99, time_of(max(each.longest for each in asked))]
        rows.append([name, *put, f"{median(each.rate for each in asked):,.0f}", f"{median(waited):.0%}", *others, *mark])
    head = ["One connection puts", "Puts", "A put", f"{ASKING} others, a second", "Waited", "p50", "p99", "p99, least", "Longest", "Mark", ""]
    print_table(head, rows)
    return held


# ---- memory


def large_validation():
    """A validation of so many bytes by the small object's schema."""
    return http_call(["validate", f"{SITE}/schema", "t" * (LARGE_BODY - 2)])


def memory_table(service):
    """An idle client is one that awaits nothing, whatever it asked before."""
    rows = []
    with prepared(service) as (server, request):
        rows.append(["before any", server.resident(), False])
        with idle_clients(server, MEMORY_CONNECTIONS):
            rows.append([f"{MEMORY_CONNECTIONS:,} that asked nothing", server.resident(), True])
        for name, asked in {"asked once": request, f"sent a body of {amount(LARGE_BODY)} bytes once": large_validation()}.items():
            with idle_clients(server, MEMORY_CONNECTIONS, asked):
                rows.append([f"{MEMORY_CONNECTIONS:,} that each {name}", server.resident(), True])
        rows.append(["once they have left", server.resident(), False])
    held = all(memory < MOST_MEMORY or not is_marked for _, memory, is_marked in rows)
    marks = {True: f"below {MOST_MEMORY} MB", False: "-"}
    print_table(
        ["Connections", "Resident memory", "Mark", ""],
        [[name, f"{memory:.1f} MB", marks[marked], word(memory < MOST_MEMORY) if marked else "-"] for name, memory, marked in rows],
    )
    return held


MANY_TABLES = {
    "many, beside nginx": nginx_table,
    "many, beside run": run_beside_table,
    "many, idle": idle_table,
    "many, large documents": large_table,
    "many, memory": memory_table,
}
