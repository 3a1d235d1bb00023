"""Examples of the forms that judge files and folders: `check` of several instances, `bundle` and `scan`.

The folder `shop` has twenty schemas that refer to one another, in both directions, and orders. What is wanted follows from
these files by the rules of JSON Schema 2020-12, and stands here or is worked out here, never by the program."""

import json
import os
import pty
import resource
import subprocess
import tempfile
from pathlib import Path

FOLDER = Path(__file__).resolve().parent
SHOP = FOLDER / "shop"
SCHEMAS = (SHOP / "schemas").as_uri()
SHARED = "https://shop.example/shared"
SECONDS = 120
ORDERS = ["--with", "shop/schemas", "shop/schemas/order.json"]


def ended(program, words, given=b"", folder=FOLDER, before=None):
    """Standard output, standard error and the status. `before` is called in the program's process."""
    done = subprocess.run([program, *words], input=given, capture_output=True, timeout=SECONDS, cwd=folder, preexec_fn=before)
    return done.stdout.decode(), done.stderr.decode(), done.returncode


def wrong(wanted, got):
    for part, want, have in zip(("standard output", "standard error", "status"), wanted, got):
        if want != have:
            return f"{part}: wanted {want!r}, got {have!r}"
    return None


def place(path, text):
    """PATH:LINE:COLUMN of the first place of a text in a file of the examples."""
    whole = (FOLDER / path).read_text()
    before = whole[: whole.index(text)]
    return f"{path}:{before.count(chr(10)) + 1}:{len(before) - before.rfind(chr(10))}"


LISTED = json.dumps(json.loads((SHOP / "schemas/shared/currency.json").read_text())["enum"], separators=(",", ":"))
CURRENCY = (
    f'{place("shop/orders/2-currency.json", chr(34) + "DOLLAR")}: /total/currency: "DOLLAR" is none of the values that the schema lists: {LISTED}\n'
    "    by /properties/total/$ref/properties/currency/$ref/enum\n"
    f"    at {SHARED}/currency#/enum\n"
)


def starts(text, *lines):
    """Nothing where the text has a line that begins with each of these, in this order."""
    rest = text.split("\n")
    for line in lines:
        while rest and not rest[0].startswith(line):
            rest.pop(0)
        if not rest:
            return f"no line begins with {line!r} in {text!r}"
        rest.pop(0)
    return None


def one_of_many_is_told(program):
    got = ended(program, ["check", *ORDERS, "shop/orders/1-good.json", "shop/orders/2-currency.json"])
    return wrong((CURRENCY, "1 valid, 1 invalid, 0 refused\n", 1), got)


def each_cause_is_told(program):
    out, errors, status = ended(program, ["check", *ORDERS, "shop/orders"])
    quantity = place("shop/orders/3-line.json", "0,")
    extra = place("shop/orders/3-line.json", "3\n")
    return (
        wrong(("1 valid, 2 invalid, 0 refused\n", 1), (errors, status))
        or starts(out, CURRENCY.split("\n")[0], f"{quantity}: /lines/0/quantity: 0 is below the minimum", f"    at {SCHEMAS}/line.json#/properties/quantity/minimum")
        or starts(out, f"{extra}: /lines/0/pirce: 3 is not allowed", f"    at {SCHEMAS}/line.json#/additionalProperties")
    )


def what_is_wanted_is_told(program):
    schema = {"required": ["id", "a b", "n"], "properties": {"n": {"maximum": 7}, "t": {"pattern": "^a"}}, "maxProperties": 9}
    with tempfile.TemporaryDirectory() as folder:
        (Path(folder) / "s.json").write_text(json.dumps({"$ref": "#/$defs/a~1b%25", "$defs": {"a/b%": schema}}))
        (Path(folder) / "i.json").write_text('{"n":8,"t":"b"}')
        out, errors, status = ended(program, ["check", "--format", "text", "--quiet", "s.json", "i.json"], folder=folder)
        return wrong(("", 1), (errors, status)) or starts(
            out,
            'i.json:1:1: (root): {"n":8,"t":"b"} lacks a member that is required: "id", "a b"',
            "i.json:1:6: /n: 8 is above the maximum: 7",
            'i.json:1:12: /t: "b" doesn\'t match the pattern: "^a"',
        )


def a_folder_alone_is_checked(program):
    with tempfile.TemporaryDirectory() as folder:
        (Path(folder) / "schema.json").write_text('{"type":"string"}')
        (Path(folder) / "in").mkdir()
        (Path(folder) / "in" / "a.json").write_text('"a"')
        (Path(folder) / "in" / "b.json").write_text('1')
        wanted = 'in/b.json:1:1: (root): 1 is of another type than the schema allows: "string"\n    by /type\n    at urn:schemareg:root#/type\n'
        return wrong((wanted, "1 valid, 1 invalid, 0 refused\n", 1), ended(program, ["check", "schema.json", "in"], folder=folder))


def quiet_prints_only_what_is_wrong(program):
    return wrong(("", "", 0), ended(program, ["check", "--quiet", *ORDERS, "shop/orders/1-good.json"])) or wrong(
        (CURRENCY, "", 1), ended(program, ["check", "--quiet", *ORDERS, "shop/orders/1-good.json", "shop/orders/2-currency.json"])
    )


def json_has_a_line_for_each(program):
    out, errors, status = ended(program, ["check", "--format", "json", *ORDERS, "shop/orders"])
    lines = [json.loads(line) for line in out.splitlines()]
    names = ["shop/orders/1-good.json", "shop/orders/2-currency.json", "shop/orders/3-line.json"]
    if status != 1 or [(line["instance"], line["valid"]) for line in lines] != list(zip(names, [True, False, False])):
        return f"got {out!r}, {errors!r}, {status}"
    units = lines[1]["errors"]
    wanted = {
        "absoluteKeywordLocation": f"{SHARED}/currency#/enum",
        "error": "enum is not met",
        "instanceLocation": "/total/currency",
        "keywordLocation": "/properties/total/$ref/properties/currency/$ref/enum",
    }
    return None if wanted in units else f"{wanted} is not among {units}"


def github_has_annotations(program):
    got = ended(program, ["check", "--format", "github", "--quiet", *ORDERS, "shop/orders/2-currency.json"])
    line, column = place("shop/orders/2-currency.json", '"DOLLAR').split(":")[1:]
    message = CURRENCY.split("\n")
    told = message[0].split(": ", 1)[1] + "%0A" + message[1] + "%0A" + message[2]
    return wrong((f"::error file=shop/orders/2-currency.json,line={line},col={column},title=enum is not met::{told}\n", "", 1), got)


def json_has_refused_instances(program):
    out, errors, status = ended(program, ["check", "--format", "json", "--quiet", *ORDERS, "shop/broken", "shop/nowhere.json"])
    wanted = '{"instance":"shop/broken/4-broken.json","refused":"1 BadJson"}\n{"instance":"shop/nowhere.json","refused":"cannot read"}\n'
    return wrong((wanted, 2), (out, status)) or starts(errors, "refused: shop/broken/4-broken.json: 1 BadJson", "  shop/broken/4-broken.json:4:1: ")


def json_has_refused_lines(program):
    out, _, status = ended(program, ["check", "--format", "json", "--lines", *ORDERS, "shop/orders.ndjson"])
    lines = [line for line in out.splitlines() if "refused" in line]
    return wrong((['{"instance":"shop/orders.ndjson","line":4,"refused":"1 BadJson"}'], 2), (lines, status))


def github_has_refused_instances(program):
    out, errors, status = ended(program, ["check", "--format", "github", "--quiet", *ORDERS, "shop/broken", "shop/nowhere.json"])
    told = errors.replace("\n  shop/broken", "%0A  shop/broken").splitlines()
    wanted = (
        f"::error file=shop/broken/4-broken.json,line=4,col=1,title=1 BadJson::{told[0]}\n"
        f"::error file=shop/nowhere.json,title=cannot read::{told[1]}\n"
    )
    return wrong((wanted, 2), (out, status))


def lines_are_instances(program):
    out, errors, status = ended(program, ["check", "--lines", *ORDERS, "shop/orders.ndjson"])
    second = (SHOP / "orders.ndjson").read_text().split("\n")[1]
    column = second.index('"Order 2"') + 1
    wanted = f"shop/orders.ndjson:2:{column}: /id: \"Order 2\" doesn't match the pattern"
    return (
        (None if status == 2 else f"status: wanted 2, got {status}")
        or starts(out, wanted, f"    at {SCHEMAS}/identifier.json#/pattern")
        or starts(errors, "refused: shop/orders.ndjson:4: 1 BadJson", "  shop/orders.ndjson:4:7: ", "2 valid, 1 invalid, 1 refused")
    )


def standard_input_has_lines(program):
    given = (SHOP / "orders.ndjson").read_bytes().split(b"\n")[0] + b"\n"
    return wrong(("", "50 valid, 0 invalid, 0 refused\n", 0), ended(program, ["check", "--lines", *ORDERS, "-"], given * 50))


def standard_input_is_an_instance(program):
    given = (SHOP / "orders" / "1-good.json").read_bytes()
    return wrong(("", "1 valid, 0 invalid, 0 refused\n", 0), ended(program, ["check", *ORDERS, "-"], given))


def refusals_stop_no_other(program):
    out, errors, status = ended(program, ["check", *ORDERS, "shop/broken", "shop/orders/2-currency.json", "shop/nowhere.json"])
    return (
        wrong((CURRENCY, 2), (out, status))
        or starts(errors, f"refused: shop/broken/4-broken.json: 1 BadJson", "  shop/broken/4-broken.json:4:1: ")
        or starts(errors, "cannot read shop/nowhere.json", "0 valid, 1 invalid, 2 refused")
    )


def without_its_documents_a_schema_is_refused(program):
    out, errors, status = ended(program, ["check", "--quiet", "shop/schemas/order.json", "shop/orders/1-good.json"])
    return wrong(("", 2), (out, status)) or (None if errors.startswith("refused: shop/schemas/order.json: ") and "Unresolved" in errors else errors)


def unresolved_references_are_told_with_their_file(program):
    with tempfile.TemporaryDirectory() as folder:
        base = Path(folder)
        (base / "main.json").write_text('{"$ref":"middle.json"}')
        (base / "middle.json").write_text('{"items":{"$ref":"last.json"}}')
        out, errors, status = ended(program, ["check", "--with", "middle.json", "main.json", "main.json"], folder=folder)
        missing = (base / "last.json").as_uri()
        return wrong(("", 2), (out, status)) or starts(errors, f"refused: main.json: 15 Unresolved {missing}", "  middle.json: A reference names no schema")


def two_documents_with_one_uri_are_refused(program):
    with tempfile.TemporaryDirectory() as folder:
        for name in ("a.json", "b.json"):
            (Path(folder) / name).write_text('{"$id":"https://ex.org/same"}')
        (Path(folder) / "schema.json").write_text("{}")
        (Path(folder) / "instance.json").write_text("1")
        out, errors, status = ended(program, ["check", "--with", ".", "schema.json", "instance.json"], folder=folder)
        return wrong(("", 2), (out, status)) or (None if errors.startswith("refused: ./b.json: ") and "Taken https://ex.org/same" in errors else errors)


def names_are_escaped(program):
    with tempfile.TemporaryDirectory() as folder:
        base = Path(folder) / "a b#?%é"
        base.mkdir()
        (base / "main.json").write_text('{"$ref":"other%20one.json"}')
        (base / "other one.json").write_text('{"type":"string"}')
        (Path(folder) / "i.json").write_text("5")
        out, errors, status = ended(program, ["check", "--quiet", "--with", ".", "main.json", "../i.json"], folder=base)
        uri = (base / "other one.json").as_uri()
        return wrong(("", 1), (errors, status)) or starts(out, "../i.json:1:1: (root): 5 is of another type", "    by /$ref/type", f"    at {uri}#/type")


def terminals_obey_no_name(program):
    with tempfile.TemporaryDirectory() as folder:
        (Path(folder) / "schema.json").write_text('{"type":"string"}')
        (Path(folder) / "a\x1b[31m\u202e.json").write_text("1")
        (Path(folder) / "b\x1b[31m.json").write_text("{")
        out, errors, status = ended(program, ["check", "schema.json", "a\x1b[31m\u202e.json", "b\x1b[31m.json", "c\x1b[31m.json"], folder=folder)
        return (
            (None if status == 2 else f"status: wanted 2, got {status}")
            or (f"got {out!r} and {errors!r}" if "\x1b" in out + errors or "\u202e" in out + errors else None)
            or starts(out, "a\ufffd[31m\ufffd.json:1:1: (root): 1 is of another type")
            or starts(errors, "refused: b\ufffd[31m.json: 1 BadJson", "  b\ufffd[31m.json:1:2: ", "cannot read c\ufffd[31m.json")
        )


def library_gives_documents(program):
    with tempfile.TemporaryDirectory() as folder:
        batch = {"put": [{"uri": "https://ex.org/text", "schema": {"type": "string"}}]}
        (Path(folder) / "library.json").write_text(json.dumps(batch))
        (Path(folder) / "schema.json").write_text('{"$ref":"https://ex.org/text"}')
        (Path(folder) / "i.json").write_text('"a"')
        got = ended(program, ["check", "--library", "library.json", "--quiet", "schema.json", "i.json"], folder=folder)
        return wrong(("", "", 0), got)


def as_nobody():
    """No rights of root, who reads each folder."""
    if os.geteuid() == 0:
        os.setuid(65534)


def unreadable_folders_are_told(program):
    with tempfile.TemporaryDirectory() as folder:
        os.chmod(folder, 0o755)
        (Path(folder) / "shut").mkdir(mode=0)
        (Path(folder) / "schema.json").write_text("{}")
        got = ended(program, ["check", "--quiet", "schema.json", "."], folder=folder, before=as_nobody)
        return wrong(("", "cannot read ./shut\n", 2), got)


def names_that_are_no_text_stop_no_other(program):
    with tempfile.TemporaryDirectory() as folder:
        (Path(folder) / "schema.json").write_text('{"type":"string"}')
        below = Path(folder) / "orders"
        below.mkdir()
        os.mkfifo(below / "pipe.json")
        for name in (b"a.json", b"\xff.json", b"z.json"):
            with open(os.path.join(os.fsencode(below), name), "w") as file:
                file.write("1")
        out, errors, status = ended(program, ["check", "--quiet", "schema.json", "orders"], folder=folder)
        return wrong(("cannot read orders\n", 2), (errors, status)) or starts(
            out, "orders/a.json:1:1: (root): 1 is of another type", "orders/z.json:1:1: (root): 1 is of another type"
        )


def unreadable_documents_are_told(program):
    with tempfile.TemporaryDirectory() as folder:
        (Path(folder) / "schema.json").write_text("{}")
        (Path(folder) / "broken.json").write_text('{"a":\n,}')
        (Path(folder) / "i.json").write_text("1")
        out, errors, status = ended(program, ["check", "--with", ".", "schema.json", "i.json"], folder=folder)
        return wrong(("", 2), (out, status)) or starts(errors, "refused: ./broken.json: 1 BadJson", "  ./broken.json:2:1: ", "refused: ./i.json: 6 NotObject")


LARGE = 2 << 30
ROOM = 1 << 30


def with_little_memory():
    resource.setrlimit(resource.RLIMIT_AS, (ROOM, ROOM))


def large_instances_are_refused(program):
    with tempfile.TemporaryDirectory() as folder:
        (Path(folder) / "schema.json").write_text('{"type":"string"}')
        (Path(folder) / "a.json").write_text('"a"')
        with open(Path(folder) / "large.json", "wb") as large:
            large.truncate(LARGE)
        (Path(folder) / "z.json").write_text("1")
        out, errors, status = ended(program, ["check", "schema.json", "a.json", "large.json", "z.json"], folder=folder, before=with_little_memory)
        return (None if status == 2 else f"status: wanted 2, got {status}") or starts(out, "z.json:1:1: (root): 1 is of another type") or starts(
            errors, "refused: large.json: 30 NoRoom", "  Memory ran out.", "1 valid, 1 invalid, 1 refused"
        )


def bundles_say_the_same(program):
    with tempfile.TemporaryDirectory() as folder:
        bundle = Path(folder) / "bundle.json"
        got = ended(program, ["bundle", "--with", "shop/schemas", "--out", str(bundle), "shop/schemas/order.json"])
        if got != ("", "", 0):
            return f"got {got!r}"
        value = json.loads(bundle.read_text())
        if value["$id"] != f"{SCHEMAS}/order.json" or f"{SHARED}/money" not in value["$defs"]:
            return f"got {bundle.read_text()!r}"
        for name, status in (("1-good", 0), ("2-currency", 1), ("3-line", 1)):
            alone = ended(program, ["check", str(bundle), f"shop/orders/{name}.json"])
            if alone[2] != status:
                return f"{name}: {alone!r}"
        printed = ended(program, ["bundle", "--with", "shop/schemas", "shop/schemas/order.json"])
        return wrong((bundle.read_text(), "", 0), printed)


def scans_tell_what_a_schema_holds(program):
    out, errors, status = ended(program, ["scan", "shop/schemas"])
    return (
        wrong(("20 in order, 0 with references that lead nowhere, 0 refused\n", 0), (errors, status))
        or starts(out, "shop/schemas/product.json", f"  uri {SCHEMAS}/product.json", "  anchor reference at /$defs/reference")
        or starts(out, f"{place('shop/schemas/customer.json', chr(34) + 'email' + chr(34) + chr(10) + '    }')}: warning: /properties/email/format: format annotates")
    )


def scans_tell_what_leads_nowhere(program):
    out, errors, status = ended(program, ["scan", "--quiet", "shop/schemas/category.json"])
    return wrong((f"shop/schemas/category.json: no schema is at {SCHEMAS}/product.json#reference\n", "", 1), (out, errors, status))


def scans_warn_of_misspelt_names(program):
    with tempfile.TemporaryDirectory() as folder:
        (Path(folder) / "s.json").write_text('{"requried":["a"],\n "dependencies":{}}')
        out, errors, status = ended(program, ["scan", "s.json"], folder=folder)
        return (None if status == 0 else f"status {status}, {errors!r}") or starts(
            out, "s.json:2:17: warning: /dependencies: dependencies is of an older draft", "s.json:1:13: warning: /requried: requried is no keyword; did you mean required?"
        )


def scans_count_each_refusal(program):
    with tempfile.TemporaryDirectory() as folder:
        for name in ("a.json", "b.json", "c.json"):
            (Path(folder) / name).write_text("1")
        (Path(folder) / "s.json").write_text("{}")
        out, errors, status = ended(program, ["scan", "--with", ".", "s.json"], folder=folder)
        return (None if status == 2 else f"status: wanted 2, got {status}") or starts(
            errors, "refused: ./a.json: 6", "refused: ./b.json: 6", "refused: ./c.json: 6", "1 in order, 0 with references that lead nowhere, 3 refused"
        )


def scans_know_references_of_other_files(program):
    with tempfile.TemporaryDirectory() as folder:
        (Path(folder) / "old.json").write_text('{"definitions":{"a":{"type":"string"}}}')
        (Path(folder) / "new.json").write_text('{"$ref":"old.json#/definitions/a"}')
        alone = ended(program, ["scan", "old.json"], folder=folder)
        if alone[2] != 0 or "/definitions: definitions is $defs by now" not in alone[0]:
            return f"alone: got {alone!r}"
        for words in (["scan", "."], ["scan", "--with", "new.json", "old.json"]):
            out, errors, status = ended(program, words, folder=folder)
            if status != 0 or "warning" in out:
                return f"{words}: got {out!r}, {errors!r}, {status}"
        return None


def told_at_a_terminal(program, words, given, folder):
    """Standard error, where that is a terminal."""
    ours, theirs = pty.openpty()
    try:
        subprocess.run([program, *words], input=given, stdout=subprocess.DEVNULL, stderr=theirs, timeout=SECONDS, cwd=folder)
        return os.read(ours, 65_536).decode().replace("\r\n", "\n")
    finally:
        os.close(ours)
        os.close(theirs)


def places_are_told_at_a_terminal(program):
    with tempfile.TemporaryDirectory() as folder:
        files = {"schema.json": '{"type":\n "text"}', "good.json": "{}", "broken.json": '{"a":\n  ,}', "i.json": "[1,\n 1.5]"}
        for name, text in files.items():
            (Path(folder) / name).write_text(text)
        rows = [
            (["check", "schema.json", "i.json"], b"", "refused: 8 BadKeyword /type\n  schema.json:2:2: The keyword"),
            (["check", "broken.json", "i.json"], b"", "refused: 1 BadJson\n  broken.json:2:3: The text is no JSON"),
            (["check", "good.json", "i.json"], b"", "refused: 2 BadNumber\n  i.json:2:2: A number"),
            ([], b'{"schema":{},\n', "refused: 1 BadJson\n  -:"),
            (["check", "good.json", "nowhere.json"], b"", "cannot read nowhere.json\n"),
        ]
        for words, given, wanted in rows:
            errors = told_at_a_terminal(program, words, given, folder)
            if not errors.startswith(wanted):
                return f"{words}: wanted {wanted!r}, got {errors!r}"
        return None


def no_format_but_three(program):
    out, errors, status = ended(program, ["check", "--format", "xml", "a", "b"])
    return wrong(("", 2), (out, status)) or (None if errors.startswith("error: invalid value 'xml' for '--format <FORMAT>'\n") else errors)


TRIALS = {
    "of several instances the wrong ones are told, by line and column": one_of_many_is_told,
    "a folder's instances are checked in the order of their paths, and each cause is told": each_cause_is_told,
    "what a keyword asks for is told, wherever its schema stands": what_is_wanted_is_told,
    "a folder with no other word is checked so, too": a_folder_alone_is_checked,
    "--quiet prints only what is wrong": quiet_prints_only_what_is_wrong,
    "--format json prints a line for each instance": json_has_a_line_for_each,
    "--format github prints annotations": github_has_annotations,
    "--format json has a line for each instance that is refused": json_has_refused_instances,
    "--format json has the line of the file": json_has_refused_lines,
    "--format github has an annotation for each instance that is refused": github_has_refused_instances,
    "--lines takes each line as an instance, and no blank one": lines_are_instances,
    "- with --lines has lines on standard input": standard_input_has_lines,
    "- is an instance on standard input": standard_input_is_an_instance,
    "a refusal stops no other instance": refusals_stop_no_other,
    "a schema without what it refers to is refused by name": without_its_documents_a_schema_is_refused,
    "a reference that leads nowhere is told with the file that has it": unresolved_references_are_told_with_their_file,
    "two documents with one URI are refused by name": two_documents_with_one_uri_are_refused,
    "a file without $id stands under its file: URI, with escapes": names_are_escaped,
    "a terminal obeys no file's name": terminals_obey_no_name,
    "--library gives documents": library_gives_documents,
    "a folder that can't be read is told": unreadable_folders_are_told,
    "names that aren't UTF-8, and pipes, stop no other file of a folder": names_that_are_no_text_stop_no_other,
    "each document that is refused is told, and then nothing is checked": unreadable_documents_are_told,
    "an instance of 2 GB is refused for want of memory, and no other": large_instances_are_refused,
    "a bundle says what the documents say": bundles_say_the_same,
    "scan tells URIs and anchors, and warns of formats": scans_tell_what_a_schema_holds,
    "scan tells references that lead nowhere": scans_tell_what_leads_nowhere,
    "scan warns of misspelt names and older keywords": scans_warn_of_misspelt_names,
    "scan counts each document that is refused": scans_count_each_refusal,
    "scan passes over definitions that another file refers to": scans_know_references_of_other_files,
    "the form of one instance tells the place at a terminal": places_are_told_at_a_terminal,
    "there is no fourth format": no_format_but_three,
}


def trials(program):
    """Each sentence, and what tries it."""
    for name, trial in TRIALS.items():
        yield f"files: {name}", lambda trial=trial: trial(program)
