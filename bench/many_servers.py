"""Servers for many clients at once, on a processor of their own, and `wrk`, which asks them from the others.

Only the loopback address is used. Each server is ended where its block ends.
"""

import os
import pwd
import re
import shutil
import socket
import subprocess
import sys
import tempfile
import time
from contextlib import contextmanager
from pathlib import Path

from loopback import free_port

CLIENTS = 2_048

NGINX = """
user {user};
worker_processes 1;
daemon off;
pid {folder}/pid;
error_log {folder}/errors;
events {{ worker_connections {clients}; }}
http {{
    access_log off;
    keepalive_requests 1000000000;
    client_body_temp_path {folder}/client;
    proxy_temp_path {folder}/proxy;
    fastcgi_temp_path {folder}/fastcgi;
    uwsgi_temp_path {folder}/uwsgi;
    scgi_temp_path {folder}/scgi;
    default_type application/json;
    server {{
        listen 127.0.0.1:{port} backlog={clients};
        location / {{ return 200 '{reply}'; }}
    }}
}}
"""

DONE = """
function done(summary, latency)
  local errors = summary.errors
  print("told", summary.requests, summary.duration, latency:percentile(50), latency:percentile(99), latency.max,
        errors.connect + errors.read + errors.write + errors.status + errors.timeout)
end
"""

WRK = """
wrk.method, wrk.path, wrk.body = "{method}", "{path}", '{body}'
wrk.headers = {{{headers}}}
{done}
"""


def needs(*programs):
    missing = [name for name in programs if not shutil.which(name)]
    if missing:
        sys.exit(f"not installed: {', '.join(missing)}")


# ---- processors


PROCESSORS = os.sched_getaffinity(0)
SERVER_PROCESSOR = {min(PROCESSORS)}


@contextmanager
def as_client():
    """This program runs on the processors that the server doesn't have."""
    os.sched_setaffinity(0, PROCESSORS - SERVER_PROCESSOR or PROCESSORS)
    try:
        yield
    finally:
        os.sched_setaffinity(0, PROCESSORS)


# ---- servers


class Server:
    def __init__(self, process, port, worker=None):
        self.process, self.port, self.pid = process, port, worker or process.pid
        self.before_any = self.descriptors()

    def processor_time(self):
        """The seconds that it took of a processor so far."""
        return int(Path(f"/proc/{self.pid}/schedstat").read_text().split()[0]) / 1e9

    def waited(self):
        """The seconds that it waited so far for a processor that something else had."""
        return int(Path(f"/proc/{self.pid}/schedstat").read_text().split()[1]) / 1e9

    def resident(self):
        """Its resident memory, in MB."""
        return int(re.search(r"VmRSS:\s*(\d+) kB", Path(f"/proc/{self.pid}/status").read_text())[1]) / 1000

    def descriptors(self):
        return len(os.listdir(f"/proc/{self.pid}/fd"))

    def connections(self):
        """How many connections it has open."""
        return self.descriptors() - self.before_any

    def client(self):
        client = socket.create_connection(("127.0.0.1", self.port), timeout=30)
        client.setsockopt(socket.IPPROTO_TCP, socket.TCP_NODELAY, 1)
        return client


def until(is_so, what, seconds=10):
    """Waits until it is so, and gives what it was."""
    end = time.monotonic() + seconds
    while time.monotonic() < end:
        if found := is_so():
            return found
        time.sleep(0.01)
    sys.exit(f"{what}: not within {seconds} seconds")


def start(words, **streams):
    return subprocess.Popen(words, preexec_fn=lambda: os.sched_setaffinity(0, SERVER_PROCESSOR), **streams)


@contextmanager
def many_server(program, tenants, *options):
    """`serve` without --accept. It has to end with status 0 once its standard input does."""
    with tempfile.NamedTemporaryFile() as told:
        words = [program, "serve", "--tenants", tenants, "--listen", "127.0.0.1:0", "--idle", "600", *options]
        with start(words, stdin=subprocess.PIPE, stdout=subprocess.DEVNULL, stderr=told) as process:
            try:
                line = until(lambda: re.match(r"listening on 127\.0\.0\.1:(\d+)\n", Path(told.name).read_text()), "serve")
                yield Server(process, int(line[1]))
                process.stdin.close()
                status = process.wait(20)
            finally:
                process.kill()
        if status != 0:
            sys.exit(f"serve: {status}: {Path(told.name).read_text()[-400:]}")


@contextmanager
def nginx_server(reply):
    """nginx with one worker, which answers everything by this reply."""
    with tempfile.TemporaryDirectory() as folder:
        port, user = free_port(), pwd.getpwuid(os.getuid()).pw_name
        config = Path(folder) / "nginx.conf"
        config.write_text(NGINX.format(user=user, folder=folder, clients=CLIENTS, port=port, reply=reply))
        with start(["nginx", "-c", str(config), "-p", folder], stderr=subprocess.DEVNULL) as process:
            try:
                children = Path(f"/proc/{process.pid}/task/{process.pid}/children")
                worker = until(lambda: children.read_text().split(), "nginx")
                yield Server(process, port, int(worker[0]))
            finally:
                process.terminate()


# ---- asking them


class Asked:
    """What `wrk` told of a run: requests a second, and the latencies in seconds. To these it adds those of the requests that
    a client would have sent while it awaited a late reply, so a stall counts by the time that it lasts."""

    def __init__(self, requests, duration, *latencies):
        self.rate, self.requests = requests / duration * 1e6, requests
        self.median, self.p99, self.longest = (each / 1e6 for each in latencies)


def wrk(server, request, connections, seconds):
    """Asks by so many connections, each of which awaits its reply before it asks again."""
    head, body = request.decode().split("\r\n\r\n")
    first, *lines = head.split("\r\n")
    method, path, _ = first.split(" ")
    headers = ", ".join('["{}"] = "{}"'.format(*line.split(": ")) for line in lines if not line.startswith("content-length"))
    return wrk_told(server, connections, seconds, lambda done: WRK.format(method=method, path=path, body=body, headers=headers, done=done))


def wrk_told(server, connections, seconds, script_of):
    """The same by a script, which is given the function that tells the figures."""
    with tempfile.NamedTemporaryFile("w", suffix=".lua") as script:
        script.write(script_of(DONE))
        script.flush()
        words = ["wrk", "-t", str(min(2, connections)), "-c", str(connections), "-d", f"{seconds}s", "--timeout", "10s"]
        words += ["-s", script.name, f"http://127.0.0.1:{server.port}"]
        done = subprocess.run(words, capture_output=True, text=True, timeout=seconds + 60)
    told = re.search(r"^told\t(.*)$", done.stdout, re.M)
    if not told:
        sys.exit(f"wrk: {done.stdout}{done.stderr}")
    *figures, errors = map(float, told[1].split("\t"))
    if errors:
        sys.exit(f"wrk: {errors:.0f} errors: {done.stdout}")
    return Asked(*figures)
