#!/usr/bin/env python3
"""Refuses each allocation of the built program in turn, and looks at what it answers then.

  refuse.py [--program PATH] [--only NAME] [--kinds K,..] [--all-examples] [--burst N]

It compiles refuse.c by `cc`, which is loaded before the C library and refuses the n-th allocation. Each row is a run of the
program, of which the answer is known; it is run for n = 1, 2, .. until a run asks for fewer than n. It is done three times:
with that one allocation refused, with N from there on (20 if it isn't said), and with all from there on.

  checks   the form with no words, `check`, help and the version: the answer is the row's own, or NoRoom. With
           --all-examples the examples of examples/ too, by their stored answers.
  streams  `run` over a stream of requests, sent twice over: the replies are those of a course. The requests that are
           answered NoRoom are left out and the rest is run with ample memory: all other replies have to be those.
  servers  `serve` with three connections, each with the same requests: where one ended with NoRoom, a first part of its
           requests is applied, each wholly, and the next connection's replies are those of a course from there.

It prints a line for each row and the totals, and ends with status 1 where an answer was wrong. It needs glibc.
"""
import argparse
import os
import socket
import struct
import subprocess
import sys
import tempfile
import time

import talks
from refuse_rows import STREAMS, checks
from talks import NO_ROOM, request

REFUSED = (b"", b"refused: 30 NoRoom\n", 2)


class Refusing:
    """Runs the program with some of its allocations refused, and tells how many it asked for and how many were refused."""

    def __init__(self, program, folder):
        self.program = program
        self.library = f"{folder}/refuse.so"
        self.told = f"{folder}/told"
        source = f"{talks.ROOT}/tools/refuse.c"
        subprocess.run(["cc", "-O2", "-shared", "-fPIC", "-o", self.library, source], check=True)
        with open(self.told, "wb") as file:
            file.write(bytes(16))

    def environment(self, at, count):
        return {"LD_PRELOAD": self.library, "REFUSE_TOLD": self.told, "REFUSE_AT": str(at), "REFUSE_COUNT": str(count)}

    def counts(self):
        with open(self.told, "rb") as file:
            return struct.unpack("QQ", file.read(16))

    def ran(self, words, given, at=0, count=1):
        """What came of the run, and whether an allocation was refused."""
        got = talks.ran(self.program, words, given, environment=self.environment(at, count))
        return got, self.counts()[1] > 0


class Totals:
    def __init__(self):
        self.rows = self.runs = self.wrong = self.refused = self.own = 0

    def note(self, name, line):
        self.wrong += 1
        if self.wrong <= 40:
            print(f"WRONG   {name}: {line}", flush=True)


def swept(run_at):
    """Calls run_at(n) for n = 1, 2, .. until it says that nothing was refused; gives how often something was."""
    at = 1
    while run_at(at):
        at += 1
    return at - 1


def sweep_check(refusing, totals, row, counts):
    name, words, texts, given, wanted = row
    with talks.files(**texts) as paths:
        words = [word.format(**paths) for word in words]
        plain, _ = refusing.ran(words, given)
        if refusing.counts()[0] == 0:
            sys.exit("refuse.py: the program asks the C library for no memory, so nothing can be refused")
        if wanted is None:
            wanted = plain
        if plain != wanted:
            totals.note(name, f"with ample memory: {plain!r}")
            return
        lines = []
        for count in counts:
            own = 0

            def run_at(at):
                nonlocal own
                got, refused = refusing.ran(words, given, at, count)
                totals.runs += 1
                if refused and got == wanted:
                    own += 1
                elif got not in (wanted, REFUSED):
                    totals.note(name, f"allocation {at}, {count or 'all'} refused: {got!r}")
                return refused

            met = swept(run_at)
            totals.refused += met
            totals.own += own
            lines.append(f"{met} refused, {own} with the row's own answer")
        totals.rows += 1
        print(f"        {name}: {'; '.join(lines)}", flush=True)


class Course:
    """What a stream's requests are answered with ample memory, where some of them are left out."""

    def __init__(self, refusing, words, requests):
        self.refusing = refusing
        self.words = words
        self.requests = requests
        self.known = {}

    def answers(self, left_out):
        """The replies to all requests but those, by number."""
        left_out = frozenset(left_out)
        if left_out not in self.known:
            kept = [number for number in range(len(self.requests)) if number not in left_out]
            stream = b"".join(self.requests[number] for number in kept)
            (sent, told, status), _ = self.refusing.ran(self.words, stream)
            found, rest = talks.replies(sent)
            if (told, status, rest, len(found)) != (b"", 0, b"", len(kept)):
                sys.exit(f"refuse.py: a course ended with status {status}: {told!r} {sent[-300:]!r}")
            self.known[left_out] = dict(zip(kept, found))
        return self.known[left_out]

    def unlike(self, found, unanswered=()):
        """The first reply that isn't the course's where those that are answered NoRoom, and the unanswered ones, are left
        out; `found` has replies by number."""
        refused = {number for number, reply in found.items() if reply == NO_ROOM}
        answers = self.answers(refused | set(unanswered))
        for number, reply in found.items():
            if number not in refused and reply != answers[number]:
                return f"request {number}: {reply!r} in place of {answers[number]!r}"
        return None


def stream_of(row):
    """The requests of a row, twice over, and the replies that are known of the first time."""
    talk = row[4]
    return [request(*asked) for asked, _ in talk] * 2, [reply for _, reply in talk]


def sweep_stream(refusing, totals, row, counts):
    name, keys, library, cache, _ = row
    requests, wanted = stream_of(row)
    with talks.files(tenants=keys, **({"library": library} if library else {})) as paths:
        words = ["run", "--tenants", paths["tenants"], "--cache", str(cache)]
        words += ["--library", paths["library"]] if library else []
        course = Course(refusing, words, requests)
        whole = course.answers(())
        for number, reply in enumerate(wanted):
            if reply is not None and whole[number] != (reply[0], reply[1].encode()):
                totals.note(name, f"with ample memory, request {number}: {whole[number]!r} in place of {reply!r}")
                return
        lines = []
        for count in counts:
            own = ended = 0

            def run_at(at):
                nonlocal own, ended
                (sent, told, status), refused = refusing.ran(words, b"".join(requests), at, count)
                totals.runs += 1
                found, rest = talks.replies(sent)
                by_number = dict(enumerate(found))
                if (told, status) == (b"", 0):
                    wrong = f"{len(found)} replies" if len(found) != len(requests) else course.unlike(by_number)
                    own += refused and by_number == whole
                elif (told, status) == REFUSED[1:]:
                    # what isn't answered behind the last reply may be applied or not: it shows in no reply
                    wrong = course.unlike(by_number)
                    ended += 1
                else:
                    wrong = f"status {status}: {told!r}"
                if wrong or rest:
                    totals.note(name, f"allocation {at}, {count or 'all'} refused: {wrong or rest!r}")
                return refused

            met = swept(run_at)
            totals.refused += met
            totals.own += own
            lines.append(f"{met} refused, {own} with all replies, {ended} ended")
        totals.rows += 1
        print(f"        stream: {name}: {'; '.join(lines)}", flush=True)


# ---- servers


def free_port():
    with socket.socket() as free:
        free.bind(("127.0.0.1", 0))
        return free.getsockname()[1]


def talked(port, process, stream):
    """Sends the stream on a new connection and gives what is sent back; None where there is no connection any more."""
    for _ in range(5_000):
        try:
            client = socket.create_connection(("127.0.0.1", port), timeout=30)
            break
        except OSError:
            if process.poll() is not None:
                return None
            time.sleep(0.001)
    else:
        return None
    with client:
        sent = b""
        try:
            client.sendall(stream)
            client.shutdown(socket.SHUT_WR)
            while part := client.recv(65_536):
                sent += part
        except OSError:
            pass  # the server let the connection go
        return sent


def serve_once(refusing, words, streams, at, count):
    """What is sent on each connection, standard error, the status, and whether an allocation was refused."""
    port = free_port()
    words = ["serve", *words[1:], "--listen", f"127.0.0.1:{port}", "--accept", str(len(streams))]
    environment = {**os.environ, **refusing.environment(at, count)}
    with subprocess.Popen([refusing.program, *words], stdin=subprocess.DEVNULL, stderr=subprocess.PIPE, env=environment) as process:
        try:
            sent = [talked(port, process, stream) for stream in streams]
            told = process.stderr.read()
            status = process.wait(timeout=60)
        finally:
            if process.poll() is None:
                process.kill()
    return sent, told, status, refusing.counts()[1] > 0


def connections_wrong(course, size, sent):
    """What is wrong with the replies on connections of so many requests each, of which all are those of the course in turn."""
    options = [({}, set())]
    for place, part in enumerate(sent):
        found, rest = talks.replies(part)
        if rest or len(found) > size:
            return f"connection {place + 1}: {rest!r}"
        start = place * size
        replies = {start + number: reply for number, reply in enumerate(found)}
        # of a connection that ended early any first part of the rest may be applied
        ends = range(start + len(found), start + size + 1)
        grown, wrong = [], None
        for known, unanswered in options:
            for end in ends:
                option = ({**known, **replies}, unanswered | set(range(end, start + size)))
                wrong = course.unlike(*option)
                if wrong is None:
                    grown.append(option)
        if not grown:
            return f"connection {place + 1}: {wrong}"
        options = grown
    return None


def sweep_server(refusing, totals, row, counts):
    name, keys, library, cache, talk = row
    requests, _ = stream_of(row)
    size = len(talk)
    with talks.files(tenants=keys, **({"library": library} if library else {})) as paths:
        words = ["run", "--tenants", paths["tenants"], "--cache", str(cache)]
        words += ["--library", paths["library"]] if library else []
        course = Course(refusing, words, requests + requests[:size])
        streams = [b"".join(requests[:size])] * 3
        lines = []
        for count in counts:
            ended = 0

            def run_at(at):
                nonlocal ended
                sent, told, status, refused = serve_once(refusing, words, streams, at, count)
                totals.runs += 1
                told_lines = told.splitlines()
                known = {b"refused: 30 NoRoom", *(f"connection {k}: NoRoom".encode() for k in (1, 2, 3))}
                if status not in (0, 2) or not known.issuperset(told_lines):
                    wrong = f"status {status}: {told!r}"
                elif status == 2:
                    wrong = None if told_lines == [b"refused: 30 NoRoom"] and not any(sent) else f"{told!r} {sent!r}"
                else:
                    wrong = connections_wrong(course, size, sent)
                    ended += bool(told)
                if wrong:
                    totals.note(name, f"serve, allocation {at}, {count or 'all'} refused: {wrong}")
                return refused

            met = swept(run_at)
            totals.refused += met
            lines.append(f"{met} refused, {ended} with a connection that ended")
        totals.rows += 1
        print(f"        server: {name}: {'; '.join(lines)}", flush=True)


def main():
    reader = argparse.ArgumentParser(description="Refuses each allocation of the built program in turn.")
    reader.add_argument("--program", default=talks.PROGRAM, metavar="PATH", help="the built program")
    reader.add_argument("--only", metavar="NAME", help="the rows whose name holds this text")
    reader.add_argument("--all-examples", action="store_true", help="the examples of examples/ too")
    reader.add_argument("--burst", type=int, default=20, metavar="N", help="how many are refused in the second sweep")
    reader.add_argument("--kinds", default="checks,streams,servers", help="which of checks, streams and servers")
    asked = reader.parse_args()
    if not os.path.exists(asked.program):
        sys.exit(f"{asked.program} is not there: build it by `cd crates/schemareg && rt run < stdin`")
    counts = (1, asked.burst, 0)
    totals = Totals()
    with tempfile.TemporaryDirectory(prefix="refuse-") as folder:
        refusing = Refusing(os.path.abspath(asked.program), folder)
        print(f"        one refused; {asked.burst} refused; all refused from the n-th on")
        rows = {
            "checks": (sweep_check, checks(asked.all_examples)),
            "streams": (sweep_stream, STREAMS),
            "servers": (sweep_server, STREAMS),
        }
        for kind in asked.kinds.split(","):
            sweep, kind_rows = rows[kind]
            for row in kind_rows:
                if not asked.only or asked.only in row[0]:
                    sweep(refusing, totals, row, counts)
    print(
        f"{totals.rows} rows, {totals.runs} runs, {totals.refused} of them with an allocation refused, "
        f"{totals.own} of these with the row's own answer, {totals.wrong} wrong answers"
    )
    return 1 if totals.wrong or not totals.rows else 0


if __name__ == "__main__":
    sys.exit(main())
