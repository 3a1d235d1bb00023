#!/usr/bin/env python3
"""Runs the JSON Schema Test Suite, draft 2020-12, by the built program.

    python3 tools/suite.py [FOLDER] [--program PATH] [--documents FILE]... [--optional] [--all]

FOLDER is a clone of https://github.com/json-schema-org/JSON-Schema-Test-Suite, or the folder in which Debian's package
libtest-json-schema-acceptance-perl has it; without it the latter is taken. PATH is the program; without it, it is
crates/schemareg/out/schemareg. Each FILE is a JSON document, or a folder of them, that is put under its own `$id`: the
suite refers to the meta-schema of 2020-12, which it doesn't hold.

`schemareg run` is asked on one connection: the suite's `remotes` are put under http://localhost:1234/, and then each schema
of the suite, by which its instances are judged, before it is deleted. It prints how many tests are in the profile, which is
where the program refuses nothing, how many of these have the suite's answer, and each refusal by its name; with --all each
test that was refused, and --optional takes the folder `optional` too, without `optional/format`. The exit status is 0 where
each test in the profile passed, and else 1.
"""

import argparse
import json
import subprocess
import sys
import tempfile
from collections import Counter
from pathlib import Path
from urllib.parse import urljoin

PACKAGED = Path("/usr/share/perl5/auto/share/dist/Test-JSON-Schema-Acceptance")
PROGRAM = Path(__file__).resolve().parent.parent / "crates" / "schemareg" / "out" / "schemareg"
DRAFT = "draft2020-12"
REMOTES = "http://localhost:1234/"
SECONDS = 60

# Why a test is out of the profile, by the name of the refusal (docs/PROFILE.md).
REASONS = {
    "BadJson": "the text is no JSON that is read",
    "BadNumber": "a number is no whole number of 64 bits",
    "BadPattern": "a pattern has look-around, a back-reference or the like",
    "NotObject": "a document is true or false, which are schemas only within one",
    "BadKeyword": "a keyword's value has a shape that 2020-12 forbids",
    "BadId": "an $id gives no identifier",
    "BadAnchor": "an anchor is no name",
    "Dialect": "a resource names another dialect than 2020-12",
    "DuplicateUri": "two schemas open one URI",
    "DuplicateAnchor": "two schemas of a resource have one anchor",
    "Unresolved": "a reference names no schema among the documents, which stand under their $id alone",
    "Costly": "too many schemas are applied",
    "Loop": "a schema is applied where it is being applied already",
    "Deep": "too many schemas are applied within one another",
    "Taken": "a resource's URI belongs to another document",
}


def reason(fault):
    return REASONS.get(fault, "docs/PROFILE.md")


def request(method, target, body):
    head = f"{method} {target} HTTP/1.1\r\nx-tenant-key: suite\r\ncontent-length: {len(body)}\r\n\r\n"
    return head.encode() + body


def text_of(value):
    return json.dumps(value, ensure_ascii=False).encode()


def replies(answered):
    """Each reply's status and body."""
    while answered:
        head, _, answered = answered.partition(b"\r\n\r\n")
        lines = head.decode().split("\r\n")
        fields = dict(line.lower().split(": ", 1) for line in lines[1:])
        length = int(fields["content-length"])
        yield int(lines[0].split()[1]), json.loads(answered[:length])
        answered = answered[length:]


def documents_of(folder, given):
    """The documents that stand beside each schema, with the URIs that they are put under."""
    root = folder / "remotes"
    for file in sorted(root.rglob("*.json")):
        path = file.relative_to(root)
        if path.parts[0].startswith("draft") and path.parts[0] != DRAFT:
            continue
        yield REMOTES + path.as_posix(), file.read_bytes()
    for place in given:
        for file in sorted(place.rglob("*")) if place.is_dir() else [place]:
            if not file.is_file():
                continue
            try:
                uri = json.loads(file.read_bytes())["$id"]
            except (ValueError, KeyError, TypeError):
                continue
            yield uri, file.read_bytes()


def answered_by(program, requests):
    """What the program answers the requests, on one connection."""
    with tempfile.NamedTemporaryFile("w", suffix=".json") as tenants:
        json.dump({"tenants": [{"key": "suite", "documents": 1000, "bytes": 100000000}]}, tenants)
        tenants.flush()
        words = [program, "run", "--tenants", tenants.name]
        done = subprocess.run(words, input=b"".join(requests), capture_output=True, timeout=SECONDS)
    answered = list(replies(done.stdout))
    if len(answered) != len(requests):
        sys.exit(f"{len(requests)} requests and {len(answered)} replies: {done.stderr.decode()}")
    return answered


def canonical(uri, schema):
    """The URI of the schema's root: its `$id`, where it has one, resolved against the URI that it is put under."""
    identifier = schema.get("$id", "") if isinstance(schema, dict) else ""
    return urljoin(uri, identifier.removesuffix("#")) if isinstance(identifier, str) else uri


def uris_of(taken):
    """For each group the URI that its schema is put under, and that of its root."""
    for number, (file, group) in enumerate(taken):
        uri = f"https://suite.invalid/{file}/{number}"
        yield uri, canonical(uri, group["schema"])


def requests_of(documents, taken):
    """The requests of the whole suite: each document is put, and then each group's schema, which goes again once its
    instances are judged, so that no schema meets another's; a document whose place it took is put back."""
    yield from (request("PUT", f"/schemas?uri={uri}", body) for uri, body in documents)
    for (_, group), (uri, root) in zip(taken, uris_of(taken)):
        yield request("PUT", f"/schemas?uri={uri}", text_of(group["schema"]))
        yield from (request("POST", f"/validate?uri={root}", text_of(test["data"])) for test in group["tests"])
        yield request("DELETE", f"/schemas?uri={root}", b"")
        yield from (request("PUT", f"/schemas?uri={other}", body) for other, body in documents if other == root)


def judged(answered, documents, taken):
    """For each test its file, its name, whether it is valid, and what was answered: whether it is, or the refusal's name."""
    for (file, group), (_, root) in zip(taken, uris_of(taken)):
        status, stored = next(answered)
        refused = stored["name"] if status >= 400 else None
        for test in group["tests"]:
            status, body = next(answered)
            found = refused or (body["valid"] if status == 200 else body["name"])
            yield file, f"{file}: {group['description']}: {test['description']}", test["valid"], found
        next(answered)
        for _ in (uri for uri, _ in documents if uri == root):
            next(answered)


def groups(folder, optional):
    """Each group of tests, with the file that it stands in."""
    root = folder / "tests" / DRAFT
    for file in sorted(root.glob("*.json")):
        yield from ((file.stem, group) for group in json.loads(file.read_bytes()))
    if optional:
        for file in sorted((root / "optional").glob("*.json")):
            yield from ((f"optional/{file.stem}", group) for group in json.loads(file.read_bytes()))


def main():
    words = argparse.ArgumentParser(usage=__doc__)
    words.add_argument("folder", nargs="?", type=Path, default=PACKAGED)
    words.add_argument("--program", type=Path, default=PROGRAM)
    words.add_argument("--documents", type=Path, action="append", default=[])
    words.add_argument("--optional", action="store_true")
    words.add_argument("--all", action="store_true")
    asked = words.parse_args()
    if not (asked.folder / "tests" / DRAFT).is_dir():
        sys.exit(f"{asked.folder} has no folder tests/{DRAFT}")
    if not asked.program.exists():
        sys.exit(f"{asked.program} is not there: build it by `cd crates/schemareg && rt run < stdin`")
    documents = list(documents_of(asked.folder, asked.documents))
    taken = list(groups(asked.folder, asked.optional))
    answered = iter(answered_by(asked.program.resolve(), list(requests_of(documents, taken))))
    for (uri, _), (status, body) in zip(documents, answered):
        if status >= 400:
            print(f"left out  {uri}: {body['name']}, {reason(body['name'])}")
    passed, failed, refused = 0, [], []
    for file, name, wanted, found in judged(answered, documents, taken):
        if isinstance(found, str):
            refused.append((found, file, name))
        elif found == wanted:
            passed += 1
        else:
            failed.append(f"{name}: valid {str(found).lower()}")
    for name in failed:
        print(f"FAILED  {name}")
    for fault, count in sorted(Counter(fault for fault, _, _ in refused).items()):
        files = ", ".join(sorted({file for name, file, _ in refused if name == fault}))
        print(f"refused {count} by {fault}, {reason(fault)}: {files}")
        if asked.all:
            for name in (name for other, _, name in refused if other == fault):
                print(f"    {name}")
    in_profile = passed + len(failed)
    tests = in_profile + len(refused)
    print(f"{tests} tests: {in_profile} in the profile, {passed} passed, {len(failed)} failed, {len(refused)} refused")
    return 1 if failed else 0


if __name__ == "__main__":
    sys.exit(main())
