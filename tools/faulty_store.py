#!/usr/bin/env python3
"""Lets each write, cut and sync of a store fail in turn, and looks at what the next start finds.

  faulty_store.py [--program PATH]

It compiles refuse.c by `cc`, which is loaded before the C library and lets calls on the store's files fail. A stream of
changes is answered by `run --store` byte by byte, so that each change is committed alone, for n = 1, 2, .. until a run makes
fewer than n such calls: from the n-th on each fails, or that one alone, with an error of the disk or with no room on it.

What was answered has to be the first of the replies, and the end what it says: status 0 where all is answered, else status 2
and one line, of the opening or of the documents that can't be kept. Then the file is opened again, without failures: it has
to open, with the documents after the changes that were answered, or after one more. It prints a line for each kind of failure
and ends with status 1 where something was wrong. It needs cc, Linux and glibc.
"""
import argparse
import errno
import itertools
import os
import subprocess
import sys
import tempfile

import talks
from talks import request

SITE = "https://ex.org/"
KEYS = ("k1", "k2")
URIS = [f"{SITE}{name}" for name in "abcd"]
# each change, with what it leaves: a value by key and URI, none where it deletes
CHANGES = [
    (("k1", "put", URIS[0], {"const": 1}), {("k1", URIS[0]): 1}),
    (("k1", "put", URIS[0], {"const": 2}), {("k1", URIS[0]): 2}),
    (("k2", "put", URIS[0], {"const": 3}), {("k2", URIS[0]): 3}),
    (
        ("k1", "batch", None, {"put": [{"schema": {"const": number}, "uri": uri} for uri, number in zip(URIS[1:], (4, 5, 6))]}),
        {("k1", uri): number for uri, number in zip(URIS[1:], (4, 5, 6))},
    ),
    (("k1", "delete", URIS[0]), {("k1", URIS[0]): None}),
    (("k1", "put", URIS[1], {"const": 7, "description": "x" * 5_000}), {("k1", URIS[1]): 7}),
    (("k1", "delete", URIS[2]), {("k1", URIS[2]): None}),
    (("k2", "put", URIS[1], {"const": 8}), {("k2", URIS[1]): 8}),
]
FAULTS = {"EIO": b"the disk failed", "ENOSPC": b"the disk is full"}


def states():
    """What is stored after each first part of the changes."""
    now = [{}]
    for _, left in CHANGES:
        after = {**now[-1], **left}
        now.append({place: value for place, value in after.items() if value is not None})
    return now


class Trials:
    def __init__(self, program, folder, tenants):
        self.program = program
        self.folder = folder
        self.words = ["run", "--tenants", tenants, "--store", f"{folder}/documents.sqlite"]
        self.library = f"{folder}/refuse.so"
        self.told = f"{folder}/told"
        subprocess.run(["cc", "-O2", "-shared", "-fPIC", "-o", self.library, f"{talks.ROOT}/tools/refuse.c"], check=True)
        with open(self.told, "wb") as file:
            file.write(bytes(16))
        self.stream = b"".join(request(*change) for change, _ in CHANGES)
        self.states = states()
        self.clear()
        self.replies = talks.replies(self.ran({"REFUSE_SHORT": "1"})[0])[0]
        self.wrong = 0

    def clear(self):
        for end in ("", "-wal"):
            path = self.words[-1] + end
            if os.path.exists(path):
                os.remove(path)

    def ran(self, environment, stream=None):
        return talks.ran(self.program, self.words, self.stream if stream is None else stream,
                         environment={"LD_PRELOAD": self.library, "REFUSE_TOLD": self.told, **environment})

    def has_failed(self):
        with open(self.told, "rb") as file:
            return int.from_bytes(file.read(16)[8:], sys.byteorder) > 0

    def found(self):
        """What the next start finds, or what it says."""
        places = list(itertools.product(KEYS, URIS))
        out, errors, status = self.ran({}, b"".join(request(key, "bundle", uri) for key, uri in places))
        if (errors, status) != (b"", 0):
            return f"the next start says {errors!r}, status {status}"
        values = {}
        for place, (status, body) in zip(places, talks.replies(out)[0]):
            if status == 200:
                values[place] = int(body.split(b'"const":')[1].split(b",")[0].rstrip(b"}"))
        return values

    def wrong_in(self, fault, found):
        """What is wrong with a run that failed so, if anything is."""
        out, errors, status = found
        replies, rest = talks.replies(out)
        if rest or replies != self.replies[: len(replies)]:
            return f"other replies: {out!r}"
        store = self.words[-1].encode()
        # the first calls are the system's own of an opening, which tells no more than that it failed
        unopened = (fault, b"the file can't be opened or made")
        lines = [b"cannot open %s: %s\n" % (store, why) for why in unopened]
        lines.append(b"cannot keep the documents in %s: %s\n" % (store, fault))
        if (status, errors) != (0, b"") and (status != 2 or errors not in lines):
            return f"{errors!r}, status {status}"
        if status == 0 and len(replies) != len(self.replies):
            return f"{len(replies)} replies, and no fault"
        there = self.found()
        if there not in self.states[len(replies) : len(replies) + 2]:
            return f"{len(replies)} replies, and then {there}"
        return None

    def each(self, error, alone):
        """Tries each call, and answers how many runs that took."""
        for at in itertools.count(1):
            self.clear()
            environment = {"REFUSE_SHORT": "1", "REFUSE_CHANGE": str(at), "REFUSE_ERROR": str(getattr(errno, error))}
            found = self.ran({**environment, **({"REFUSE_ALONE": "1"} if alone else {})})
            has_failed = self.has_failed()
            wrong = self.wrong_in(FAULTS[error], found)
            if wrong:
                self.wrong += 1
                print(f"WRONG   {error}, call {at}{' alone' if alone else ''}: {wrong}", flush=True)
            if not has_failed:
                return at


def main():
    reader = argparse.ArgumentParser(description="Lets each write, cut and sync of a store fail in turn.")
    reader.add_argument("--program", default=talks.PROGRAM, metavar="PATH", help="the built program")
    program = os.path.abspath(reader.parse_args().program)
    if not os.path.exists(program):
        sys.exit(f"{program} is not there: build it by `cd crates/schemareg && rt run < stdin`")
    runs = 0
    with tempfile.TemporaryDirectory(prefix="faulty-") as folder, talks.files(tenants=talks.tenants(*KEYS)) as paths:
        trials = Trials(program, folder, paths["tenants"])
        for error, alone in itertools.product(FAULTS, (False, True)):
            count = trials.each(error, alone)
            runs += count
            print(f"        {error}, {'one call alone' if alone else 'each from there on'}: {count} runs", flush=True)
    print(f"{runs} runs, {trials.wrong} wrong")
    return 1 if trials.wrong else 0


if __name__ == "__main__":
    sys.exit(main())
