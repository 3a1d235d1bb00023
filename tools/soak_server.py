"""The program as a server on the loopback address, and as a registry of one tenant alone."""
import os
import re
import signal
import socket
import subprocess
import tempfile
import time

import talks
from random_requests import SITE
from talks import as_bytes

HOST = "127.0.0.1"
LIBRARY = {"put": [
    {"schema": {"type": ["string", "null"], "$anchor": "n"}, "uri": f"{SITE}lib"},
    {"schema": {"properties": {"a": {"$ref": "a"}}, "$dynamicAnchor": "node"}, "uri": f"{SITE}lib2"},
]}


class Server:
    """Serves these tenants, each by its key, with these words more, until `end` is called."""

    def __init__(self, program, folder, tenants, words):
        self.program = os.path.abspath(program)
        self.tenants = {key: write(f"{folder}/{key}.json", {"tenants": [tenant]}) for key, tenant in tenants.items()}
        self.library = write(f"{folder}/library.json", LIBRARY)
        files = ["--tenants", write(f"{folder}/tenants.json", {"tenants": list(tenants.values())}), "--library", self.library]
        self.told = open(f"{folder}/told", "w+b")
        self.heard = open(f"{folder}/told", "rb")
        with socket.socket() as free:
            free.bind((HOST, 0))
            self.port = free.getsockname()[1]
        every = [self.program, "serve", *files, "--listen", f"{HOST}:{self.port}", *words]
        self.process = subprocess.Popen(every, stdin=subprocess.PIPE, stderr=self.told)

    def memory(self):
        """The resident memory and the most that it ever was, in KB."""
        with open(f"/proc/{self.process.pid}/status", encoding="ascii") as file:
            text = file.read()
        return tuple(int(re.search(rf"{name}:\s+(\d+)", text)[1]) for name in ("VmRSS", "VmHWM"))

    def connect(self):
        for _ in range(500):
            if self.process.poll() is not None:
                raise OSError(f"the server ended with status {self.process.returncode}")
            try:
                return socket.create_connection((HOST, self.port), timeout=60)
            except OSError:
                time.sleep(0.01)
        raise OSError("the server doesn't listen")

    def alone(self, key, stream):
        """The replies of a new registry of this tenant alone, with another capacity of the cache."""
        words = ["run", "--tenants", self.tenants[key], "--library", self.library, "--cache", "4096"]
        with tempfile.TemporaryFile() as given:
            given.write(stream)
            given.seek(0)
            done = subprocess.run([self.program, *words], stdin=given, capture_output=True, timeout=300)
        if done.returncode or done.stderr:
            raise OSError(f"run ended with status {done.returncode}: {done.stderr!r}")
        return talks.replies(done.stdout)

    def lost(self):
        """The numbers of the connections that it told as ended by a fault since the last call; they count from 1 in the order
        in which they were made."""
        found = []
        while True:
            at = self.heard.tell()
            line = self.heard.readline()
            if not line.endswith(b"\n"):
                self.heard.seek(at)
                return found
            if told := re.match(rb"connection (\d+): ", line):
                found.append(int(told[1]))

    def end(self, seconds=0):
        """Ends standard input, waits so long for the server's end, and then ends it. Gives its status, and what it told."""
        self.process.stdin.close()
        try:
            self.process.wait(timeout=seconds)
        except subprocess.TimeoutExpired:
            self.process.send_signal(signal.SIGTERM)
        status = self.process.wait()
        self.heard.close()
        self.told.seek(0)
        with self.told:
            return status, self.told.read()


def write(path, value):
    with open(path, "wb") as file:
        file.write(as_bytes(value))
    return path
