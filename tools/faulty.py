#!/usr/bin/env python3
"""Runs the built program over readers and writers that end early, fail, or give a byte at a time.

  faulty.py [--program PATH]

The streams are those of examples/ (files that end in .requests, with their .replies) and one of each kind of request. For
each of them:

  cut      standard input ends after each number of bytes: each request that is whole is answered as it is in the whole
           stream, and the closing fault follows where the rest holds more than line ends
  taken    standard output takes each number of bytes and then fails: these are the first of the replies, and the run is
           refused as WriteFailed
  read     by single bytes, the k-th read fails, for each k: a file that can't be read is named, and else the replies are
           those to the requests that were read, and the run is refused as ReadFailed
  written  by single bytes, the k-th write fails, for each k

and runs whose standard streams are closed, a folder, full, or a pipe that nobody reads. It prints a line for each, and ends
with status 1 where one was answered otherwise. It needs cc, Linux and glibc.
"""
import argparse
import os
import resource
import signal
import struct
import subprocess
import sys
import tempfile
from pathlib import Path

import talks
from talks import BAD_REQUEST, as_bytes, request, tenants

SITE = "https://ex.org/"
CLOSING = (
    b"HTTP/1.1 400 Bad Request\r\ncontent-type: application/json\r\ncontent-length: 32\r\nconnection: close\r\n\r\n"
    + BAD_REQUEST[1]
)
READ_FAILED = b"refused: 38 ReadFailed\n"
WRITE_FAILED = b"refused: 39 WriteFailed\n"
EACH_KIND = [
    ("k1", "put", f"{SITE}s", {"type": "integer"}),
    ("k1", "batch", None, {"put": [{"schema": {"$ref": "s"}, "uri": f"{SITE}t"}]}),
    ("k1", "validate", f"{SITE}t", "x"),
    ("k1", "bundle", f"{SITE}t"),
    ("k1", "delete", f"{SITE}s"),
    ("k1", "bundle", f"{SITE}t"),
    ("none", "validate", f"{SITE}t", None),
]


def ends_of(stream):
    """How many bytes there are up to the end of each request."""
    ends, at = [], 0
    while (head := stream.find(b"\r\n\r\n", at)) >= 0:
        lengths = [line.split(b":")[1] for line in stream[at:head].split(b"\r\n") if line.startswith(b"content-length:")]
        at = head + 4 + (int(lengths[0]) if lengths else 0)
        ends.append(at)
    return ends


class Stream:
    def __init__(self, name, stream, replies):
        self.name = name
        self.bytes = stream
        self.ends = ends_of(stream)
        found, rest = talks.replies(replies)
        if rest or len(found) != len(self.ends):
            sys.exit(f"faulty.py: {name} has {len(self.ends)} requests and {len(found)} replies")
        sizes, at = [0], 0
        while head := talks.REPLY.match(replies, at):
            at = head.end() + int(head[2])
            sizes.append(at)
        self.replies = replies
        self.sizes = sizes

    def answered(self, count):
        """What is sent for the first bytes of the stream, without a closing fault, and whether a part of a request is left."""
        whole = sum(end <= count for end in self.ends)
        begun = self.ends[whole - 1] if whole else 0
        return self.replies[: self.sizes[whole]], bool(self.bytes[begun:count].strip(b"\r\n"))


def streams(program, paths):
    for file in sorted(Path(talks.ROOT, "examples").rglob("*.requests")):
        yield Stream(file.stem, file.read_bytes(), file.with_suffix(".replies").read_bytes())
    each = b"\r\n".join(request(*asked) for asked in EACH_KIND)
    yield Stream("each kind", each, talks.ran(program, ["run", "--tenants", paths["tenants"]], each)[0])


class Trials:
    def __init__(self, program, folder):
        self.program = program
        self.folder = folder
        self.library = f"{folder}/refuse.so"
        self.told = f"{folder}/told"
        subprocess.run(["cc", "-O2", "-shared", "-fPIC", "-o", self.library, f"{talks.ROOT}/tools/refuse.c"], check=True)
        with open(self.told, "wb") as file:
            file.write(bytes(16))
        self.runs = self.wrong = 0

    def judge(self, name, wanted, got):
        self.runs += 1
        if got != wanted:
            self.wrong += 1
            if self.wrong <= 40:
                print(f"WRONG   {name}: wanted {wanted!r}\n        got {got!r}", flush=True)

    def failing(self, words, given, call, at):
        """What comes of a run by single bytes, in which calls fail from the one of this number on, and whether one did."""
        environment = {"LD_PRELOAD": self.library, "REFUSE_TOLD": self.told, "REFUSE_SHORT": "1", call: str(at)}
        got = talks.ran(self.program, words, given, environment=environment)
        with open(self.told, "rb") as file:
            return got, struct.unpack("QQ", file.read(16))[1] > 0

    def taking(self, words, given, most):
        """What is written to a file that takes so many bytes, standard error and the status."""

        def limited():
            signal.signal(signal.SIGXFSZ, signal.SIG_IGN)
            resource.setrlimit(resource.RLIMIT_FSIZE, (most, most))

        path = f"{self.folder}/out"
        with open(path, "wb") as out:
            done = subprocess.run(
                [self.program, *words], input=given, stdout=out, stderr=subprocess.PIPE, preexec_fn=limited, timeout=60
            )
        with open(path, "rb") as out:
            return out.read(), done.stderr, done.returncode


def cut(trials, words, stream):
    for count in range(len(stream.bytes) + 1):
        sent, left = stream.answered(count)
        got = talks.ran(trials.program, words, stream.bytes[:count])
        trials.judge(f"{stream.name}, cut after {count}", (sent + CLOSING if left else sent, b"", 0), got)


def taken(trials, words, stream):
    for most in range(len(stream.replies) + 1):
        wanted = (stream.replies[:most], *((b"", 0) if most == len(stream.replies) else (WRITE_FAILED, 2)))
        trials.judge(f"{stream.name}, {most} bytes taken", wanted, trials.taking(words, stream.bytes, most))


def read(trials, words, stream, paths):
    """The files are read first: as many bytes as they have, and once more for their ends."""
    at, before = 1, 0
    bounds = []
    for path in paths:
        before += os.path.getsize(path) + 1
        bounds.append((before, f"cannot read {path}\n".encode()))
    while True:
        got, failed = trials.failing(words, stream.bytes, "REFUSE_READ", at)
        named = [told for bound, told in bounds if at <= bound]
        if not failed:
            wanted = (stream.replies, b"", 0)
        elif named:
            wanted = (b"", named[0], 2)
        else:
            wanted = (stream.answered(at - before - 1)[0], READ_FAILED, 2)
        trials.judge(f"{stream.name}, read {at} fails", wanted, got)
        if not failed:
            return
        at += 1


def written(trials, words, stream):
    at, failed = 1, True
    while failed:
        got, failed = trials.failing(words, stream.bytes, "REFUSE_WRITE", at)
        wanted = (stream.replies[: at - 1], WRITE_FAILED, 2) if failed else (stream.replies, b"", 0)
        trials.judge(f"{stream.name}, write {at} fails", wanted, got)
        at += 1


def standard_streams(trials, words, stream):
    """Runs whose standard streams can't be used."""
    program = trials.program
    given = as_bytes({"instance": None, "schema": {}})

    def run(line, text):
        done = subprocess.run(["sh", "-c", line, program, *words], input=text, capture_output=True, timeout=60)
        return done.stdout, done.stderr, done.returncode

    run_words = '"$0" "$@"'
    for name, line, text, wanted in (
        ("run, input closed", f"exec {run_words} <&-", b"", (b"", READ_FAILED, 2)),
        ("run, input a folder", f"exec {run_words} < /", b"", (b"", READ_FAILED, 2)),
        ("run, output closed", f"exec {run_words} >&-", stream.bytes, (b"", WRITE_FAILED, 2)),
        ("run, output full", f"exec {run_words} > /dev/full", stream.bytes, (b"", WRITE_FAILED, 2)),
        ("run, output closed, errors closed", f"exec {run_words} >&- 2>&-", stream.bytes, (b"", b"", 2)),
        ("run, nobody reads", f"{{ {run_words}; echo $? >&2; }} | :", stream.bytes, None),
        ("check, input closed", 'exec "$0" <&-', b"", (b"", b"cannot read -\n", 2)),
        ("check, input a folder", 'exec "$0" < /', b"", (b"", b"cannot read -\n", 2)),
        ("check, output closed", 'exec "$0" >&-', given, (b"", b"cannot write -\n", 2)),
        ("check, output full", 'exec "$0" > /dev/full', given, (b"", b"cannot write -\n", 2)),
        ("check, output and errors full", 'exec "$0" > /dev/full 2> /dev/full', given, (b"", b"", 2)),
        ("check, a refusal, errors closed", 'exec "$0" 2>&-', b"[1", (b"", b"", 2)),
        ("help, output full", 'exec "$0" --help > /dev/full', b"", (b"", b"cannot write -\n", 2)),
        ("check, a folder as the schema", 'exec "$0" check / /', b"", (b"", b"cannot read /\n", 2)),
        ("run, a folder as the tenants", 'exec "$0" run --tenants /', b"", (b"", b"cannot read /\n", 2)),
        ("run, endless tenants", 'ulimit -v 400000; exec "$0" run --tenants /dev/zero', b"", (b"", b"refused: 30 NoRoom\n", 2)),
    ):
        got = run(line, text)
        if wanted is None:
            # the pipe may be closed before or after the first write
            wanted = got if got[1:] in ((WRITE_FAILED + b"2\n", 0), (b"0\n", 0)) else (b"", WRITE_FAILED + b"2\n", 0)
        trials.judge(name, wanted, got)


def main():
    reader = argparse.ArgumentParser(description="Runs the built program over readers and writers that end early or fail.")
    reader.add_argument("--program", default=talks.PROGRAM, metavar="PATH", help="the built program")
    program = os.path.abspath(reader.parse_args().program)
    if not os.path.exists(program):
        sys.exit(f"{program} is not there: build it by `cd crates/schemareg && rt run < stdin`")
    example = f"{talks.ROOT}/examples/service/tenants.json"
    with tempfile.TemporaryDirectory(prefix="faulty-") as folder, talks.files(tenants=tenants("k1", "shop")) as paths:
        trials = Trials(program, folder)
        words = ["run", "--tenants", paths["tenants"]]
        for stream in streams(program, paths):
            before = trials.runs
            for trial in (cut, taken, written):
                trial(trials, words, stream)
            read(trials, words, stream, [paths["tenants"]])
            print(f"        {stream.name}: {trials.runs - before} runs", flush=True)
        standard_streams(trials, ["run", "--tenants", example], stream)
    print(f"{trials.runs} runs, {trials.wrong} wrong")
    return 1 if trials.wrong else 0


if __name__ == "__main__":
    sys.exit(main())
