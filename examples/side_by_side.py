"""Examples of connections side by side: each sentence of docs/HTTP.md on `serve` without a count, and a talk with the built
program beside it, which serves on a port of the loopback address that the system chose. No contract can say what a socket
carries."""

import re
import socket
import struct
import subprocess
import tempfile
import time
from pathlib import Path

from connections import LAST, MISSED, STRING, asked, closing, put, read_all, read_some, stored
from serving import HOST, SERVICE, difference
from streams import reply, request

SECONDS = 30
KEY = b"shop"


class Server:
    """The program with these words more, as long as the `with` statement lasts."""

    def __init__(self, program, *words, address=f"{HOST}:0"):
        files = ["--tenants", SERVICE / "tenants.json"]
        every = ["serve", *files, "--listen", address, *words]
        self.process = subprocess.Popen([program, *every], stdin=subprocess.PIPE, stderr=subprocess.PIPE)

    def __enter__(self):
        self.line = self.process.stderr.readline().decode()
        found = re.fullmatch(r"listening on (.*):(\d+)\n", self.line)
        if found is None:
            raise OSError(f"it says {self.line!r}")
        self.host, self.port = found.group(1).strip("[]"), int(found.group(2))
        return self

    def __exit__(self, *_):
        if self.process.poll() is None:
            self.process.kill()
        self.process.wait()
        for stream in (self.process.stdin, self.process.stderr):
            stream.close()

    def client(self):
        return socket.create_connection((self.host, self.port), timeout=SECONDS)

    def end(self):
        """Ends standard input, and gives the status and what was told since the first line."""
        self.process.stdin.close()
        told = self.process.stderr.read().decode()
        return self.process.wait(timeout=SECONDS), told


def asks(client):
    """What is wrong with the reply to a request."""
    client.sendall(asked())
    return difference(MISSED, read_some(client, len(MISSED)))


def many_at_once(program):
    """Clients are answered side by side, each in the order of its own requests, however their bytes are cut."""
    with Server(program) as server:
        clients = [server.client() for _ in range(200)]
        stream = b"".join(put(f"urn:{n}", STRING) + asked() for n in range(3))
        for cut in range(0, len(stream), 97):
            for number, client in enumerate(clients):
                client.sendall(stream[cut : cut + 97])
        wanted = reply(b'{"replaced":true,"stored":"urn:0"}')
        for client in clients:
            client.shutdown(socket.SHUT_WR)
            got = read_all(client)
            if got.count(b"HTTP/1.1 20") != 3 or got.count(MISSED) != 3 or not got.endswith(MISSED):
                return f"another stream of replies: {got[:200]!r}"
        return None if wanted in got else "no reply says that a document was replaced"


def idle_beside_busy(program):
    """A client that sends nothing, or half a request, holds up no other."""
    with Server(program) as server, server.client() as silent, server.client() as half, server.client() as busy:
        half.sendall(asked()[:20])
        begun = time.monotonic()
        for _ in range(1000):
            said = asks(busy)
            if said:
                return said
        took = time.monotonic() - begun
        half.sendall(asked()[20:])
        said = difference(MISSED, read_some(half, len(MISSED))) or asks(silent)
        return said or (f"1,000 requests took {took:.1f} s" if took > 10 else None)


def half_closed(program):
    """A client that ended its side is answered all that it asked, and then its connection ends."""
    with Server(program) as server, server.client() as client:
        client.sendall(asked() * 500)
        client.shutdown(socket.SHUT_WR)
        return difference(MISSED * 500, read_all(client))


def ends_where_asked(program):
    """A connection ends at once behind the reply to a request of HTTP/1.0 or with `connection: close`, and no fault is told."""
    old = asked().replace(b"HTTP/1.1", b"HTTP/1.0")
    last = asked().replace(b"\r\n\r\n", LAST.encode(), 1)
    with Server(program) as server:
        for sent in (old, last):
            with server.client() as client:
                begun = time.monotonic()
                client.sendall(asked() + sent)
                said = difference(MISSED + closing(MISSED), read_all(client))
                took = time.monotonic() - begun
            if said or took > 5:
                return said or f"it ended after {took:.1f} s"
        _, told = server.end()
        return None if told.startswith("connections: 2, requests: 4,") else repr(told)


def never_reads(program):
    """A client that takes no replies isn't read on, and the others are answered."""
    with Server(program) as server, server.client() as full, server.client() as other:
        full.settimeout(1)
        try:
            for _ in range(2000):
                full.sendall(asked() * 100)
        except TimeoutError:
            pass
        else:
            return "200,000 requests are read of a client that takes no reply"
        return asks(other)


def reset(program):
    """A client that resets its connection is told as a fault, and the others are answered."""
    with Server(program) as server, server.client() as other:
        gone = server.client()
        gone.setsockopt(socket.SOL_SOCKET, socket.SO_LINGER, struct.pack("ii", 1, 0))
        gone.sendall(asked()[:20])
        time.sleep(0.2)
        gone.close()
        said = asks(other)
        other.close()
        status, told = server.end()
        wanted = "connection 2: ReadFailed\nconnections: 2, requests: 1, refusals: 1\n"
        return said or (None if (status, told) == (0, wanted) else f"status {status}, {told!r}")


def ends_with_input(program):
    """When standard input ends, no further client is taken, what came whole is answered, a connection that waits for its client
    is ended without a fault, and the status is 0."""
    with Server(program) as server, server.client() as client:
        said = asks(client)
        if said:
            return said
        status, told = server.end()
        if (status, told) != (0, "connections: 1, requests: 1, refusals: 1\n"):
            return f"status {status}, {told!r}"
        return difference(b"", read_all(client))


def full_table(program):
    """Above `--connections` a client waits until another one leaves."""
    with Server(program, "--connections", "2") as server:
        first, second = server.client(), server.client()
        said = asks(first) or asks(second)
        third = server.client()
        third.sendall(asked())
        third.settimeout(0.7)
        try:
            third.recv(1)
            return "a third client is answered"
        except TimeoutError:
            pass
        third.settimeout(SECONDS)
        first.close()
        return said or difference(MISSED, read_some(third, len(MISSED)))


def too_many(program):
    """`--connections` above what the limit of open files allows ends the program, with the number that is allowed."""
    words = ["serve", "--tenants", SERVICE / "tenants.json", "--listen", f"{HOST}:0", "--connections", "49"]
    done = subprocess.run(["sh", "-c", 'ulimit -n 64; exec "$@"', "sh", program, *words], capture_output=True, timeout=SECONDS)
    wanted = b"refused: --connections is above 48, which the limit of open files allows\n"
    return None if (done.returncode, done.stderr) == (2, wanted) else f"status {done.returncode}, {done.stderr!r}"


def idle_too_long(program):
    """A client on whose connection nothing came or went for `--idle` seconds is let go, and told."""
    with Server(program, "--idle", "1") as server, server.client() as silent, server.client() as busy:
        begun = time.monotonic()
        while time.monotonic() - begun < 2.5:
            said = asks(busy)
            if said:
                return said
            time.sleep(0.1)
        silent.settimeout(3)
        if silent.recv(1) != b"":
            return "the silent client is sent something"
        busy.close()
        _, told = server.end()
        return None if told.startswith("connection 1: ReadFailed\nconnections: 2") else repr(told)


def whole_too_long(program):
    """A connection ends `--whole` seconds after its start, however busy it is."""
    with Server(program, "--whole", "1") as server, server.client() as busy:
        begun = time.monotonic()
        try:
            while time.monotonic() - begun < 4:
                if asks(busy):
                    break
        except OSError:
            pass
        took = time.monotonic() - begun
        return None if 0.9 < took < 3 else f"it ended after {took:.1f} s"


def resident(server):
    """The memory that the server's process takes, in kB."""
    status = Path(f"/proc/{server.process.pid}/status").read_text()
    return int(re.search(r"VmRSS:\s+(\d+) kB", status).group(1))


def comes_true(condition):
    """Whether the condition holds within SECONDS."""
    end = time.monotonic() + SECONDS
    while not condition():
        if time.monotonic() > end:
            return False
        time.sleep(0.05)
    return True


def memory_is_taken(program):
    """While all others together keep more than `--memory`, a client isn't read; it is answered once they are gone."""
    with Server(program, "--memory", "1048576") as server, server.client() as last:
        part = put("urn:large", b" " * 1_000_000)[:-1]
        held = [server.client() for _ in range(2)]
        before = resident(server)
        for client in held:
            client.sendall(part)
        if not comes_true(lambda: resident(server) > before + 1_900):
            return f"the others keep {resident(server) - before} kB, of 2,000,000 bytes"
        last.sendall(asked())
        last.settimeout(1)
        try:
            last.recv(1)
            return "a client is answered while the others keep 2,000,000 bytes"
        except TimeoutError:
            pass
        last.settimeout(SECONDS)
        for client in held:
            client.close()
        return difference(MISSED, read_some(last, len(MISSED)))


def room_is_given_back(program):
    """Idle clients that have each sent a large request, one after the other, take no more memory than those that have not."""
    with Server(program) as server:
        clients = [server.client() for _ in range(200)]
        large = put("urn:large", b" " * 100_000 + STRING)
        for client in clients:
            client.sendall(large)
            answer = b""
            while not answer.endswith(b"}"):
                answer += client.recv(65_536)
            if not answer.startswith(b"HTTP/1.1 20"):
                return f"a put is answered by {answer[:80]!r}"
        is_small = comes_true(lambda: resident(server) < 15_000)
        return None if is_small else f"200 idle clients take {resident(server)} kB"


def logs_requests(program):
    """A log has a line for each request: time, connection, tenant, method, path, status, bytes, microseconds; never a key."""
    stream = put("urn:a", STRING) + request("GET", "/bundle?uri=urn:none") + request("GET", "/nowhere")
    strange = b"GET /bundle?uri=urn:a HTTP/1.1\r\nx-tenant-key: secret-of-nobody\r\n\r\n"
    with tempfile.TemporaryDirectory() as folder:
        log = Path(folder) / "log"
        with Server(program, "--log", log, "--log-requests") as server, server.client() as client:
            client.sendall(stream + strange)
            client.shutdown(socket.SHUT_WR)
            got = read_all(client)
            status, told = server.end()
        lines = log.read_text().splitlines()
    wanted = (
        r"1 1 PUT /schemas 201",
        r"1 1 GET /bundle 404",
        r"1 1 GET /nowhere 404",
        r"1 - GET /bundle 403",
    )
    for line, want in zip(lines, wanted):
        if not re.fullmatch(rf"\d{{4}}-\d\d-\d\dT\d\d:\d\d:\d\d(\.\d+)?Z {want} \d+ \d+", line):
            return f"wanted {want!r}, got {line!r}"
    if len(lines) != len(wanted) or sum(int(line.split()[6]) for line in lines) != len(got):
        return f"{len(lines)} lines, whose bytes aren't those that came: {lines}"
    if any(KEY.decode() in line or "secret" in line for line in lines):
        return "a line has a key"
    return None if (status, told) == (0, "connections: 1, requests: 4, refusals: 3\n") else f"status {status}, {told!r}"


def log_that_is_full(program):
    """A log that can't be written stops no reply."""
    with Server(program, "--log", "/dev/full", "--log-requests") as server, server.client() as client:
        for _ in range(100):
            said = asks(client)
            if said:
                return said
    return None


def closed_errors(program):
    """Nor does a standard error whose reader is gone."""
    with Server(program, "--log-requests") as server, server.client() as client:
        server.process.stderr.close()
        for _ in range(100):
            said = asks(client)
            if said:
                return said
        server.process.stdin.close()
        status = server.process.wait(timeout=SECONDS)
        return None if status == 0 else f"status {status}"


def by_version_6(program):
    """An address may be of IPv6."""
    with Server(program, address="[::1]:0") as server, server.client() as client:
        return asks(client)


TRIALS = {
    "clients are answered side by side": many_at_once,
    "an idle client holds up no other": idle_beside_busy,
    "a client that ended its side gets all replies": half_closed,
    "a connection ends at once where it was asked to": ends_where_asked,
    "a client that takes no reply isn't read on": never_reads,
    "a client that resets is told, and the others are answered": reset,
    "it ends when standard input ends": ends_with_input,
    "a client waits while all connections are taken": full_table,
    "more connections than descriptors are refused": too_many,
    "an idle connection ends": idle_too_long,
    "a connection ends after its time": whole_too_long,
    "a client isn't read while the others keep too much": memory_is_taken,
    "an idle client keeps no room": room_is_given_back,
    "a log has a line for each request, and no key": logs_requests,
    "a full disk stops no reply": log_that_is_full,
    "a closed pipe stops no reply": closed_errors,
    "an address of IPv6": by_version_6,
}


def trials(program):
    """Each sentence, and what tries it."""
    for name, trial in TRIALS.items():
        yield f"serve side by side: {name}", lambda trial=trial: trial(program)
