"""Examples of connections over TCP: each sentence of docs/HTTP.md on how one goes and ends, and a talk with the built program
beside it, which serves on a free port of the loopback address. No contract can say what a socket carries."""

import socket
import struct
import subprocess

from serving import HOST, SERVICE, Server, difference
from streams import reply, request

SECONDS = 30
MOMENT = 0.3
NOT_FOUND = b'{"fault":14,"name":"NotFound"}'
BAD_REQUEST = b'{"fault":37,"name":"BadRequest"}'
LAST = "\r\nconnection: close\r\n\r\n"
TOWN = "/validate?uri=https://example.com/common/town"
STRING = b'{"type":"string"}'
VALID = b'{"annotations":[],"valid":true}'


def asked(uri="urn:none"):
    """A request that is answered NotFound."""
    return request("GET", f"/bundle?uri={uri}")


MISSED = reply(NOT_FOUND, "404 Not Found")


def put(uri, schema=b"{}"):
    return request("PUT", f"/schemas?uri={uri}", schema)


def stored(uri):
    return reply(f'{{"replaced":false,"stored":"{uri}"}}'.encode(), "201 Created")


def closing(answer):
    """The reply as the last one of its connection."""
    return answer.replace(b"\r\n\r\n", LAST.encode(), 1)


CLOSED = closing(reply(BAD_REQUEST, "400 Bad Request"))


def connected(server):
    return socket.create_connection((HOST, server.port), timeout=SECONDS)


def read_all(client):
    """What the client is sent up to the end."""
    return b"".join(iter(lambda: client.recv(65_536), b""))


def read_some(client, size):
    """So many bytes, or what came before the end."""
    got = b""
    while len(got) < size and (piece := client.recv(size - len(got))):
        got += piece
    return got


def is_silent(client):
    """Whether nothing comes for a moment, and no end."""
    client.settimeout(MOMENT)
    try:
        client.recv(1)
        return False
    except TimeoutError:
        return True
    finally:
        client.settimeout(SECONDS)


def talk(server, *pieces, ends=True):
    """The replies to these pieces, up to the end of the connection, which the client ends first where it says so."""
    with connected(server) as client:
        for piece in pieces:
            client.sendall(piece)
        if ends:
            client.shutdown(socket.SHUT_WR)
        return read_all(client)


def in_any_pieces(program):
    """The requests of a stream, at once and byte by byte, get the replies that `run` writes."""
    stream = (SERVICE / "exchange.requests").read_bytes()
    replies = (SERVICE / "exchange.replies").read_bytes()
    for pieces in ([stream], [stream[at : at + 1] for at in range(len(stream))], [stream[:100], stream[100:]]):
        with Server(program) as server:
            said = difference(replies, talk(server, *pieces))
            if said:
                return f"{len(pieces)} pieces: {said}"
    return None


def in_order(program):
    """Requests that are sent before the earlier ones are answered are applied and answered in their order."""
    sent = asked("urn:a") + put("urn:a", STRING) + asked("urn:a") + request("DELETE", "/schemas?uri=urn:a") + asked("urn:a")
    bundle = reply(b'{"$id":"urn:a","type":"string"}')
    wanted = MISSED + stored("urn:a") + bundle + reply(b'{"deleted":"urn:a"}') + MISSED
    with Server(program) as server:
        return difference(wanted, talk(server, sent))


def stays_open(program):
    """A connection whose client pauses stays open, and its next request is answered."""
    with Server(program) as server, connected(server) as client:
        for _ in range(3):
            client.sendall(asked())
            if read_some(client, len(MISSED)) != MISSED:
                return "another reply"
            if not is_silent(client):
                return "more than the reply"
    return None


def ends_with_client(program):
    """It ends when the client ends its side, and everything that was asked is answered before."""
    with Server(program) as server:
        return difference(MISSED * 50, talk(server, asked() * 50))


def ends_where_asked(program):
    """It ends behind the reply to a request of HTTP/1.0 or with `connection: close`, whose reply says so; the client need not
    end its side, and what follows is not answered."""
    old = asked().replace(b"HTTP/1.1", b"HTTP/1.0")
    last = asked().replace(b"\r\n\r\n", LAST.encode(), 1)
    with Server(program) as server:
        for name, sent in (("HTTP/1.0", old), ("connection: close", last)):
            for more in (b"", asked(), put("urn:late")):
                said = difference(MISSED + closing(MISSED), talk(server, asked() + sent + more, ends=False))
                if said:
                    return f"{name}, and {len(more)} bytes more: {said}"
        return difference(MISSED, talk(server, asked("urn:late")))


def ends_with_closing_fault(program):
    """What is no request is answered by the closing fault and ends the connection. What was asked before is applied and
    answered, and nothing that follows is."""
    broken = (
        b"no request\r\n\r\n",
        b"PATCH /batch HTTP/1.1\r\n\r\n",
        b"PUT /schemas?uri=urn:a HTTP/1.1\r\n\r\n",
        b"PUT /schemas?uri=urn:a HTTP/1.1\r\ntransfer-encoding: chunked\r\n\r\n",
        b"PUT /schemas?uri=urn:a HTTP/1.1\r\ncontent-length: 1\r\ncontent-length: 1\r\n\r\n",
        b"POST /batch HTTP/1.1\r\n\r\n",
        b"PUT /schemas?uri=urn:a HTTP/1.1\r\ncontent-length: 00000001\r\n\r\n",
        b"PUT /schemas?uri=urn:a HTTP/1.1\r\ncontent-length: few\r\n\r\n",
        b"PUT /schemas?uri=urn:a HTTP/1.1\r\ncontent-length: 1048577\r\n\r\n",
        b"GET / HTTP/1.1\r\nx: " + b"x" * 17_000 + b"\r\n\r\n",
    )
    with Server(program) as server:
        for number, piece in enumerate(broken):
            before, behind = f"urn:before:{number}", f"urn:behind:{number}"
            said = difference(stored(before) + CLOSED, talk(server, put(before) + piece + put(behind), ends=False))
            if said:
                return f"{piece[:60]!r}: {said}"
            got = talk(server, request("DELETE", f"/schemas?uri={before}") + asked(behind))
            said = difference(reply(f'{{"deleted":"{before}"}}'.encode()) + MISSED, got)
            if said:
                return f"behind {piece[:60]!r}: {said}"
    return None


def ends_in_a_request(program):
    """So is an end in the middle of a request: of a head, or of a body."""
    sent = put("urn:a", STRING)
    with Server(program) as server:
        for size in (1, 10, sent.index(b"\r\n\r\n") + 2, len(sent) - 1):
            said = difference(MISSED + CLOSED, talk(server, asked("urn:a") + sent[:size]))
            if said:
                return f"{size} bytes of {len(sent)}: {said}"
    return None


def no_interim_reply(program):
    """Line ends before a head are dropped, and `Expect` is ignored."""
    sent = put("urn:a").replace(b"\r\n\r\n", b"\r\nexpect: 100-continue\r\n\r\n", 1)
    head = sent[: sent.index(b"\r\n\r\n") + 4]
    with Server(program) as server, connected(server) as client:
        client.sendall(b"\r\n\n\r\n" + head)
        if not is_silent(client):
            return "something is sent before the body"
        client.sendall(sent[len(head) :])
        client.shutdown(socket.SHUT_WR)
        return difference(stored("urn:a"), read_all(client))


def one_after_another(program):
    """A client that connects while another's connection is open waits for its end. What the first one stored is there."""
    with Server(program) as server, connected(server) as first, connected(server) as second:
        second.sendall(request("DELETE", "/schemas?uri=urn:a"))
        second.shutdown(socket.SHUT_WR)
        first.sendall(put("urn:a"))
        if read_some(first, len(stored("urn:a"))) != stored("urn:a"):
            return "the first client's reply"
        if not is_silent(second):
            return "the second client is answered before the first one's end"
        first.close()
        return difference(reply(b'{"deleted":"urn:a"}'), read_all(second))


def broken_connection(program):
    """A connection that a client resets is told on standard error by its number, and the next one is served."""
    with Server(program, accept=3) as server:
        with connected(server) as client:
            client.sendall(asked()[:20])
            client.setsockopt(socket.SOL_SOCKET, socket.SO_LINGER, struct.pack("ii", 1, 0))
        got = talk(server, asked())
        status = server.process.wait(timeout=SECONDS)
        told = server.process.stderr.read()
    if (status, told) != (0, b"connection 2: ReadFailed\n"):
        return f"status {status}, told {told!r}"
    return difference(MISSED, got)


def still_sending(program):
    """A client that goes on sending behind the closing fault gets it."""
    with Server(program) as server:
        return difference(CLOSED, talk(server, b"no request\r\n\r\n" + b"x" * 300_000, ends=False))


def accepts_as_many(program):
    """So many connections are accepted and served, and then the program ends with status 0 and listens no more."""
    for count in (2, 5):
        with Server(program, accept=count) as server:
            for number in range(1, count):
                if server.process.poll() is not None:
                    return f"it ended before connection {number + 1} of {count}"
                said = difference(MISSED, talk(server, asked()))
                if said:
                    return f"connection {number + 1} of {count}: {said}"
            status = server.process.wait(timeout=SECONDS)
            if status != 0:
                return f"status {status}"
            try:
                connected(server).close()
                return f"connection {count + 1} of {count} is accepted"
            except OSError:
                pass
    return None


def in_memory(program):
    """All is in memory and ends with the program; the library is there again."""
    for start in ("first", "second"):
        with Server(program) as server:
            got = talk(server, request("POST", TOWN, b'"x"') + asked("urn:a") + put("urn:a"))
            said = difference(reply(VALID) + MISSED + stored("urn:a"), got)
            if said:
                return f"{start} start: {said}"
    return None


def refused_before(program):
    """Files that are refused end the program before it listens, and so does an address that is in use or no number."""
    files = ["--tenants", SERVICE / "tenants.json"]
    with socket.socket() as taken:
        taken.bind((HOST, 0))
        taken.listen()
        used = f"{HOST}:{taken.getsockname()[1]}"
        for words, address, told in (
            (["--tenants", SERVICE / "library.json"], used, "refused: 35 BadTenants\n"),
            ([*files, "--library", SERVICE / "tenants.json"], used, "refused: 42 BadBatch\n"),
            (files, used, f"cannot listen on {used}\n"),
            (files, "localhost:0", "cannot listen on localhost:0\n"),
        ):
            all_words = ["serve", *words, "--listen", address, "--accept", "1"]
            done = subprocess.run([program, *all_words], capture_output=True, timeout=SECONDS)
            if (done.returncode, done.stdout, done.stderr) != (2, b"", told.encode()):
                return f"wanted {told!r}, got {done.stderr!r} and status {done.returncode}"
    return None


TRIALS = {
    "requests come in any pieces": in_any_pieces,
    "requests are answered in their order": in_order,
    "a connection stays open behind a reply": stays_open,
    "a connection ends when the client ends its side": ends_with_client,
    "a connection ends behind a request that asks for it": ends_where_asked,
    "a connection ends behind the closing fault": ends_with_closing_fault,
    "an end in the middle of a request is the closing fault": ends_in_a_request,
    "no interim reply is sent": no_interim_reply,
    "a client that is still sending gets the last reply": still_sending,
    "connections are served one after the other": one_after_another,
    "a connection that breaks is told, and the next one is served": broken_connection,
    "as many connections are accepted as the words say": accepts_as_many,
    "all is in memory and ends with the program": in_memory,
    "what is refused is refused before the program listens": refused_before,
}


def trials(program):
    """Each sentence, and what tries it."""
    for name, trial in TRIALS.items():
        yield f"serve: {name}", lambda trial=trial: trial(program)
