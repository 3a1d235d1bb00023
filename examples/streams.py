"""Examples at the edge of the program: the words, the files and the standard streams, with the status that it ends with.

No contract can say what a file or a pipe holds, so each sentence here has a run of the built program beside it."""

import json
import os
import subprocess
import tempfile
import time
from pathlib import Path

FOLDER = Path(__file__).resolve().parent
SERVICE = FOLDER / "service"
SECONDS = 60
ROOT = "urn:schemareg:root"
UNWRITTEN = b"cannot write -\n"
FULL = "/dev/full"


def compact(value):
    return json.dumps(value, ensure_ascii=False, sort_keys=True, separators=(",", ":"))


def ended(program, words, given=b"", **streams):
    """What came on standard output and on standard error, and the status."""
    streams = {"stdout": subprocess.PIPE, "stderr": subprocess.PIPE, **streams}
    done = subprocess.run([program, *words], input=given, timeout=SECONDS, cwd=FOLDER, **streams)
    return done.stdout, done.stderr, done.returncode


def shown(part):
    return repr(part if len(part) < 200 else part[:200] + b"..") if isinstance(part, bytes) else repr(part)


def wrong(wanted, got):
    """The first of standard output, standard error and the status that isn't as wanted, or nothing."""
    for part, want, have in zip(("standard output", "standard error", "status"), wanted, got):
        if want != have:
            return f"{part}: wanted {shown(want)}, got {shown(have)}"
    return None


def first_wrong(pairs):
    return next((said for said in (wrong(wanted, got) for wanted, got in pairs) if said), None)


# ---- long texts, with what is said of them


def unit(keyword, place, **said):
    return {"absoluteKeywordLocation": f"{ROOT}#{keyword}", "instanceLocation": place, "keywordLocation": keyword, **said}


def long_instance(count):
    """Numbers, of which the last one alone is none."""
    return compact([*range(count - 1), "x"]).encode()


def long_error(count):
    """What a schema that wants whole numbers says of it."""
    units = [
        unit("/items", "", error="items is not met"),
        unit("/items/type", f"/{count - 1}", error="type is not met"),
    ]
    return (compact({"errors": units, "valid": False}) + "\n").encode()


NUMBERS = b'{"items":{"type":"integer"}}'
TITLED = b'{"items":{"title":"t"}}'


def long_report(count):
    """What a schema that titles each element says of so many elements."""
    units = [unit("/items/title", f"/{at}", annotation="t") for at in range(count)]
    return (compact({"annotations": [unit("/items", "", annotation=True), *units], "valid": True}) + "\n").encode()


class Files:
    """A folder with these files, as long as the `with` statement lasts. A file's path is an attribute."""

    def __init__(self, **texts):
        self.folder = tempfile.TemporaryDirectory()
        self.texts = texts

    def __enter__(self):
        for name, text in self.texts.items():
            path = Path(self.folder.name) / name
            path.write_bytes(text)
            setattr(self, name, str(path))
        return self

    def __exit__(self, *_):
        self.folder.cleanup()


def request(method, target, body=b"", key="shop"):
    return f"{method} {target} HTTP/1.1\r\nx-tenant-key: {key}\r\ncontent-length: {len(body)}\r\n\r\n".encode() + body


def reply(body, status="200 OK"):
    head = f"HTTP/1.1 {status}\r\ncontent-type: application/json\r\ncontent-length: {len(body)}\r\n\r\n"
    return head.encode() + body


# ---- words and files


def statuses(program):
    """A valid instance, an invalid one, words that are no call, a file that isn't there, a text that is no JSON."""
    with Files(schema=NUMBERS, valid=b"[1]", invalid=b'["x"]', broken=b"[") as files:
        check = ["check", files.schema]
        runs = [
            ([*check, files.valid], 0),
            ([*check, files.invalid], 1),
            ([*check], 2),
            ([*check, files.valid + "absent"], 2),
            ([*check, files.broken], 2),
            (["--help"], 0),
            (["--version"], 0),
            (["--nothing"], 2),
        ]
        for words, wanted in runs:
            status = ended(program, words)[2]
            if status != wanted:
                return f"{words}: status {status} in place of {wanted}"
    return None


def last_words(program):
    """The last of the words counts, however many or long they are."""
    uri = "urn:" + "u" * 100_000
    tenants = compact({"tenants": [{"key": "shop", "documents": 1, "bytes": 100}]}).encode()
    library = b'{"put":[{"uri":"urn:a","schema":{}}]}'
    with Files(schema=b'{"type":"null"}', instance=b"1", tenants=tenants, library=library) as files:
        run = ["run", "--tenants", files.tenants, "--library", files.library, "--cache"]
        units = [{**unit("/type", "", error="type is not met"), "absoluteKeywordLocation": f"{uri}#/type"}]
        wanted = (compact({"errors": units, "valid": False}) + "\n").encode(), b"", 1
        said = wrong(wanted, ended(program, ["check", files.schema, files.instance, "--uri", uri]))
        if said:
            return f"check: {said}"
        if ended(program, [*run, "1"]) != (b"", b"", 0):
            return "run with a last word that is a number"
        if ended(program, [*run, "0"])[2] != 2:
            return "run with a last word that is out of bounds"
        listen = ["--listen", "nowhere", "--accept", "1"]
        serve = ["serve", "--tenants", files.tenants, "--library", files.library, *listen, "--cache"]
        if ended(program, [*serve, "1"]) != (b"", b"cannot listen on nowhere\n", 2):
            return "serve with a last word that is a number"
        if not ended(program, [*serve, "0"])[1].startswith(b"error: "):
            return "serve with a last word that is out of bounds"
        more = ended(program, ["run", "--tenants", files.tenants, *["more"] * 5_000])
        if more[2] != 2 or not more[1].startswith(b"error: unexpected argument 'more' found\n"):
            return f"5,000 words too many: {shown(more[1])}, status {more[2]}"
    return None


def long_files(program):
    """Each file that is read is longer than what one read gives, and what is asked of it stands at its end."""
    count = 60_000
    schema = NUMBERS[:-1] + b',"description":"' + b"d" * 200_000 + b'","maxItems":1}'
    with Files(schema=schema, numbers=NUMBERS, instance=long_instance(count), short=b"[1,2]") as files:
        said = wrong((long_error(count), b"", 1), ended(program, ["check", files.numbers, files.instance]))
        if said:
            return f"instance: {said}"
        units = [unit("/maxItems", "", error="maxItems is not met")]
        wanted = (compact({"errors": units, "valid": False}) + "\n").encode(), b"", 1
        said = wrong(wanted, ended(program, ["check", files.schema, files.short]))
        return f"schema: {said}" if said else None


def long_service_files(program):
    """The last tenant of a long file asks for the last document of a long library."""
    key = "k" * 63
    tenants = [{"key": f"{key}{chr(48 + at)}", "documents": 1, "bytes": 1, "note": "n" * 100} for at in range(64)]
    batch = [{"uri": f"urn:d{at}", "schema": {"description": "d" * 1_000}} for at in range(63)]
    batch.append({"uri": "urn:last", "schema": {"type": "string"}})
    texts = {"tenants": compact({"tenants": tenants}).encode(), "library": compact({"put": batch}).encode()}
    with Files(**texts) as files:
        words = ["run", "--tenants", files.tenants, "--library", files.library]
        asked = request("GET", "/bundle?uri=urn:last", key=tenants[-1]["key"])
        bundle = b'{"$id":"urn:last","type":"string"}'
        return wrong((reply(bundle), b"", 0), ended(program, words, asked))


def long_input(program):
    """Standard input as a file and as a pipe, for both forms that read it."""
    count = 60_000
    given = b'{"schema":' + NUMBERS + b',"instance":' + long_instance(count) + b"}"
    said = wrong((long_error(count), b"", 1), ended(program, [], given))
    if said:
        return f"a check from a pipe: {said}"
    with Files(given=given) as files, open(files.given, "rb") as stream:
        done = subprocess.run([program], stdin=stream, capture_output=True, timeout=SECONDS)
        said = wrong((long_error(count), b"", 1), (done.stdout, done.stderr, done.returncode))
        if said:
            return f"a check from a file: {said}"
    tenants = SERVICE / "tenants.json"
    asked = request("PUT", "/schemas?uri=urn:a", b'{"description":"' + b"d" * 200_000 + b'"}')
    wanted = reply(b'{"replaced":false,"stored":"urn:a"}', "201 Created"), b"", 0
    said = wrong(wanted, ended(program, ["run", "--tenants", tenants], asked))
    return f"run: {said}" if said else None


def read_in_order(program):
    """Of several files that can't be read the first is named, before the address is looked at."""
    service = ["--tenants", "absent/tenants", "--library", "absent/library"]
    library = ["--tenants", SERVICE / "tenants.json", "--library", "absent/library"]
    listen = ["--listen", "nowhere", "--accept", "1"]
    files = ["--tenants", SERVICE / "tenants.json"]
    return first_wrong(
        ((b"", text, 2), ended(program, words))
        for words, text in (
            (["check", "absent/schema", "absent/instance"], b"cannot read absent/schema\n"),
            (["check", SERVICE / "tenants.json", "absent/instance"], b"cannot read absent/instance\n"),
            (["run", *service], b"cannot read absent/tenants\n"),
            (["run", *library], b"cannot read absent/library\n"),
            (["serve", *service, *listen], b"cannot read absent/tenants\n"),
            (["serve", *library, *listen], b"cannot read absent/library\n"),
            (["serve", "--tenants", SERVICE / "library.json", *listen], b"refused: 35 BadTenants\n"),
            (["serve", *files, *listen], b"cannot listen on nowhere\n"),
        )
    )


def byte_by_byte(program):
    """Requests that come a byte at a time are answered as those that come at once."""
    words = [program, "run", "--tenants", SERVICE / "tenants.json"]
    stream = (SERVICE / "exchange.requests").read_bytes()
    with subprocess.Popen(words, stdin=subprocess.PIPE, stdout=subprocess.PIPE, stderr=subprocess.PIPE) as process:
        for at in range(len(stream)):
            process.stdin.write(stream[at : at + 1])
            process.stdin.flush()
        said, errors = process.communicate(timeout=SECONDS)
    return wrong(((SERVICE / "exchange.replies").read_bytes(), b"", 0), (said, errors, process.returncode))


# ---- standard output and standard error


def long_reports(program):
    """A report of more than 64 KB and one of more than 1 MB, to a file, and to a pipe that is read late and in pieces."""
    for count in (1_000, 20_000):
        report = long_report(count)
        with Files(schema=TITLED, instance=compact([0] * count).encode()) as files:
            words = [program, "check", files.schema, files.instance]
            with tempfile.TemporaryFile() as out:
                status = subprocess.run(words, stdout=out, timeout=SECONDS).returncode
                out.seek(0)
                if (status, out.read()) != (0, report):
                    return f"{len(report)} bytes to a file: status {status}"
            with subprocess.Popen(words, stdout=subprocess.PIPE, stderr=subprocess.PIPE) as process:
                time.sleep(0.2)
                got = b"".join(iter(lambda: os.read(process.stdout.fileno(), 1_000), b""))
                errors = process.stderr.read()
            if (process.returncode, errors, got) != (0, b"", report):
                return f"{len(report)} bytes to a slow pipe: status {process.returncode}, {shown(errors)}, {len(got)} bytes"
    return None


def unread_reports(program):
    """A pipe takes a first part of a report, and then nobody reads it any more; or nobody reads it from the start."""
    report = long_report(20_000)
    with Files(schema=TITLED, instance=compact([0] * 20_000).encode()) as files:
        words = [program, "check", files.schema, files.instance]
        for part in (100_000, 0):
            with subprocess.Popen(words, stdout=subprocess.PIPE, stderr=subprocess.PIPE) as process:
                got = process.stdout.read(part)
                process.stdout.close()
                errors = process.stderr.read()
            said = wrong((report[:part], UNWRITTEN, 2), (got, errors, process.returncode))
            if said:
                return f"{part} bytes read: {said}"
    return None


def full_output(program):
    """Nothing can be written to a full device. It is said on standard error, and the status is 2."""
    asked = (SERVICE / "exchange.requests").read_bytes()
    run = ["run", "--tenants", SERVICE / "tenants.json"]
    with Files(schema=NUMBERS, instance=b"[1]") as files, open(FULL, "wb") as full:
        return first_wrong(
            ((None, text, 2), ended(program, words, given, stdout=full))
            for words, given, text in (
                (["check", files.schema, files.instance], b"", UNWRITTEN),
                ([], b'{"schema":{},"instance":1}', UNWRITTEN),
                (["--help"], b"", UNWRITTEN),
                (["check", "--help"], b"", UNWRITTEN),
                (["--version"], b"", UNWRITTEN),
                (run, asked, b"refused: 39 WriteFailed\n"),
                (["check", "absent", "absent"], b"", b"cannot read absent\n"),
            )
        )


def full_errors(program):
    """Where standard error can't be written either, the status still says it, and nothing comes on standard output."""
    with open(FULL, "wb") as full:
        return first_wrong(
            ((out, None, status), ended(program, words, stdout=stdout, stderr=full))
            for words, stdout, out, status in (
                (["--version"], full, None, 2),
                (["--version"], subprocess.PIPE, b"schemareg 0.1.0\n", 0),
                (["check", "absent", "absent"], subprocess.PIPE, b"", 2),
                (["--nothing"], subprocess.PIPE, b"", 2),
            )
        )


TRIALS = {
    "the statuses are 0, 1 and 2": statuses,
    "the last of the words counts": last_words,
    "the files of a check are read to their ends": long_files,
    "the files of a service are read to their ends": long_service_files,
    "standard input is read to its end": long_input,
    "files are read in order, and before the address": read_in_order,
    "requests may come byte by byte": byte_by_byte,
    "a long report is written whole": long_reports,
    "a report that nobody reads cannot be written": unread_reports,
    "what a full standard output cannot take is said on standard error": full_output,
    "a full standard error changes no status": full_errors,
}


def trials(program):
    """Each sentence, and what tries it."""
    for name, trial in TRIALS.items():
        needs_full = trial in (full_output, full_errors)
        yield f"program: {name}", None if needs_full and not os.path.exists(FULL) else lambda trial=trial: trial(program)
