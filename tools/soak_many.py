"""Many tenants on many connections at once: the client of `soak.py`.

Each tenant asks in turns of one or more requests. A turn goes, in one piece or in many, on any connection, behind what others
asked on it, and the tenant's next one begins once all its replies have come: so the order of a tenant's requests is known,
though they come on all connections. After some hundred requests the tenant deletes all that it has, and a `run` for it alone is
given the same requests in that order. Where a connection was reset while a turn was on it, some first part of the turn's
requests was done, each wholly: the tenant asks again once the server has told that this connection ended, as until then it may
read what was sent before, and the replies that follow have to be those behind one such part.

A connection takes some turns, and then ends in one of the ways of `ENDS`; another is opened at once in its place. What ends a
connection is no tenant's request, and has its own reply, or none. One that is left idle has to be ended by the server in time,
and not before its time.
"""
import heapq
import random
import re
import selectors
import socket
import struct
import subprocess
import time
from collections import deque
from concurrent.futures import ThreadPoolExecutor

import talks
from random_requests import BAD_TARGETS, NO_REQUESTS, Maker
from soak_tenants import judged
from talks import BAD_REQUEST, BAD_ROUTE, UNKNOWN_TENANT

MOST_IN_FLIGHT = 3  # turns on one connection
IDLE = 8  # seconds after which the server ends a connection on which nothing moves
LATE = 6  # seconds that it may be late with that
AWAITED = 30  # seconds within which it has to tell that a connection was reset
ENDS = {
    "closed": 8,  # by the client, after all replies have come
    "half-closed": 12,  # behind the last request
    "half-closed in a request": 8,
    "no request": 8,  # it sends what is none, or blank lines
    "connection: close": 6,
    "HTTP/1.0": 6,
    "broken off in a request": 8,
    "left idle": 8,  # until the server ends it
    "reset": 8,  # with nothing asked
    "reset in a request": 8,
    "reset while asked": 14,
}
QUIET = ("closed", "left idle", "reset")
LINGER_NOT = struct.pack("ii", 1, 0)


class Turn:
    """Requests of a tenant that are on a connection, and how many replies still lack."""

    def __init__(self, tenant, count):
        self.tenant = tenant
        self.left = count


class Client:
    """A connection: what is to be sent on it, and whose reply is to come next."""

    def __init__(self, draw, now, stream, number):
        self.stream = stream
        self.number = number  # the server's, which counts from 1
        self.turns_left = draw.randrange(1, 13)
        self.end = draw.choices(list(ENDS), list(ENDS.values()))[0]
        self.in_pieces = draw.random() < 0.5
        self.reads_late = draw.random() < 0.1
        self.out, self.piece = bytearray(), 0
        self.wanted = deque()  # (turn, [request, reply], None) or (None, None, reply)
        self.rest = b""
        self.events = 0
        self.moved = self.sent = now  # when a byte came or went last, and when one went
        self.is_waiting = self.is_deaf = False  # it sends nothing for now; it takes nothing for now
        self.is_last = False  # it takes no further turn
        self.half_closes = False  # once all is sent
        self.ends_by_server = self.is_gone = False


class Soak:
    def __init__(self, server, tenants, seed, connections):
        self.server = server
        self.draw = random.Random(seed)
        self.tenants = tenants
        self.connections_at_once = connections
        self.selector = selectors.DefaultSelector()
        self.timers, self.timer_count = [], 0
        self.clients, self.takers = set(), []
        self.asking = deque(tenants)
        self.checks = {}
        self.lost = {}  # of connections that were reset while asked the tenants, by the server's numbers
        self.pool = ThreadPoolExecutor(2)
        self.connections = self.compared = self.wrong = self.rounds = self.replies = self.closings = 0
        self.unknown = self.unchosen = 0  # requests on connections that were reset; connections that weren't chosen for long
        self.ends = dict.fromkeys(ENDS, 0)
        self.statuses = {}
        self.memory = []  # (seconds, KB)

    def note(self, line):
        self.wrong += 1
        if self.wrong <= 20:
            print(f"WRONG   {line}", flush=True)

    def later(self, seconds, act):
        self.timer_count += 1
        heapq.heappush(self.timers, (time.monotonic() + seconds, self.timer_count, act))

    # ---- a connection

    def open(self):
        stream = self.server.connect()
        stream.setsockopt(socket.IPPROTO_TCP, socket.TCP_NODELAY, 1)
        stream.setblocking(False)
        self.connections += 1
        client = Client(self.draw, time.monotonic(), stream, self.connections)
        self.clients.add(client)
        self.takers.append(client)
        self.listen(client)

    def listen(self, client):
        """Asks to be told what the connection waits for."""
        events = 0 if client.is_deaf else selectors.EVENT_READ
        if client.out and not client.is_waiting:
            events |= selectors.EVENT_WRITE
        if client.is_gone or events == client.events:
            return
        if not client.events:
            self.selector.register(client.stream, events, client)
        elif not events:
            self.selector.unregister(client.stream)
        else:
            self.selector.modify(client.stream, events, client)
        client.events = events

    def leave(self, client, is_reset=False):
        """Closes the connection, or resets it. What was asked on it and not answered is unknown."""
        if client.events:
            self.selector.unregister(client.stream)
        if is_reset:
            client.stream.setsockopt(socket.SOL_SOCKET, socket.SO_LINGER, LINGER_NOT)
        client.stream.close()
        client.is_gone = True
        self.clients.discard(client)
        if client in self.takers:
            self.takers.remove(client)
        if client.is_last:
            self.ends[client.end] += 1
        turns = {turn for turn, _, _ in client.wanted if turn}
        self.unknown += sum(1 for turn, _, _ in client.wanted if turn)
        for turn in turns:
            turn.tenant.is_unknown = True
            self.await_end(client.number, turn.tenant)

    def await_end(self, number, tenant):
        """Lets the tenant ask again once the server has told that this connection ended: until then it may still read what was
        sent before the reset."""
        def judge():
            if number in self.lost:
                raise OSError(f"the server didn't tell the end of connection {number}, which was reset")
        self.lost[number] = tenant
        self.later(AWAITED, judge)

    def judge_lost(self):
        for number in self.server.lost() if self.lost else []:
            if number in self.lost:
                self.asking.append(self.lost.pop(number))

    def push(self, client, bytes_sent):
        client.out += bytes_sent
        size = self.draw.choice([1, 10, 300, 5_000])
        client.piece = max(size, len(client.out) // 40) if client.in_pieces else len(client.out)
        self.send(client)

    def send(self, client):
        """Sends a piece, and the next one at once or a little later."""
        while client.out and not client.is_waiting:
            try:
                count = client.stream.send(client.out[:client.piece])
            except BlockingIOError:
                break
            except ConnectionError as error:
                if not client.ends_by_server:
                    raise OSError(f"a connection that is {client.end} was lost: {error}") from error
                client.out.clear()  # the server was first
                break
            del client.out[:count]
            client.moved = client.sent = time.monotonic()
            if client.in_pieces and self.draw.random() < 0.2:
                self.wait(client)
        if not client.out and client.half_closes:
            client.half_closes = False
            try:
                client.stream.shutdown(socket.SHUT_WR)
            except OSError:
                pass  # the server was first
        self.listen(client)

    def wait(self, client):
        def go_on():
            client.is_waiting = False
            if not client.is_gone:
                self.send(client)
        client.is_waiting = True
        self.later(self.draw.random() * 0.03, go_on)

    def read(self, client):
        try:
            part = client.stream.recv(1 << 16)
        except BlockingIOError:
            return
        except ConnectionError as error:
            if client.wanted or not client.ends_by_server:
                raise OSError(f"a connection that is {client.end} was lost with {len(client.wanted)} replies to come") from error
            part = b""
        if not part:
            return self.ended(client)
        client.moved = time.monotonic()
        found, client.rest = talks.replies(client.rest + part)
        for reply in found:
            self.replied(client, reply)
        if not client.wanted and not client.is_gone:
            self.rested(client)

    def ended(self, client):
        """The server has ended the connection: one that was left idle, or one that wasn't chosen for as long."""
        quiet = time.monotonic() - client.sent
        is_idle = not client.wanted and not client.is_last and quiet >= IDLE - 1
        if client.wanted or client.rest or not (client.ends_by_server or is_idle):
            raise OSError(f"the server ended a connection that is {client.end} {quiet:.1f} seconds after a byte was sent: "
                          f"{len(client.wanted)} replies to come, {client.rest[:80]!r}")
        if client.end == "left idle" and quiet < IDLE - 1:
            self.note(f"a connection was ended as idle {quiet:.1f} seconds after a byte was sent")
        if is_idle:
            self.unchosen += 1
        self.leave(client)

    def replied(self, client, reply):
        self.replies += 1
        self.statuses[reply[0]] = self.statuses.get(reply[0], 0) + 1
        if not client.wanted:
            return self.note(f"a reply to no request, on a connection that is {client.end}: {reply!r}")
        turn, pair, fixed = client.wanted.popleft()
        if fixed:
            self.compared += 1
            self.closings += fixed == BAD_REQUEST
            if reply != fixed:
                self.note(f"{reply!r} in place of {fixed!r}, on a connection that is {client.end}")
            return
        pair[1] = reply
        turn.left -= 1
        if not turn.left:
            self.turned(turn.tenant)

    def rested(self, client):
        """All replies have come."""
        if client.is_last and client.end in QUIET:
            self.leave_quietly(client)

    def leave_quietly(self, client):
        if client.end == "left idle":
            self.leave_idle(client)
        else:
            self.leave(client, client.end == "reset")

    def leave_idle(self, client):
        def judge():
            if not client.is_gone:
                raise OSError(f"an idle connection is open after {time.monotonic() - client.moved:.1f} seconds")
        client.end, client.ends_by_server = "left idle", True
        self.later(IDLE + LATE, judge)

    def hear_late(self, client):
        """Takes no reply for a while."""
        def go_on():
            client.is_deaf = False
            self.listen(client)
        client.is_deaf = True
        self.listen(client)
        self.later(self.draw.random() * 2, go_on)

    # ---- a tenant

    def turned(self, tenant):
        """All replies of a turn have come."""
        if tenant.is_closing:
            check = self.pool.submit(judged, self.server, tenant.key, tenant.own)
            self.checks[check] = tenant
        else:
            self.asking.append(tenant)

    def taker(self):
        """A connection that takes a turn. Those on which nothing was sent for long are left idle from here on: the server might
        end them before it reads what is asked."""
        while True:
            if not self.takers:
                return None
            client = self.draw.choice(self.takers)
            if not client.wanted and not client.out and time.monotonic() - client.sent > IDLE / 2:
                self.takers.remove(client)
                client.is_last = True
                self.leave_idle(client)
                continue
            turns = len({turn for turn, _, _ in client.wanted})
            return client if turns < MOST_IN_FLIGHT else None

    def ask(self, tenant):
        """Puts the tenant's next turn on a connection; not where none was found that takes it."""
        client = self.taker()
        if client is None:
            self.later(0.001, lambda: self.asking.append(tenant))
            return
        client.turns_left -= 1
        client.is_last = not client.turns_left
        is_reset = client.is_last and client.end == "reset while asked"
        if is_reset and (client.wanted or client.out or tenant.is_unknown or tenant.left <= 0):
            client.turns_left, client.is_last = 1, False
            self.later(0.001, lambda: self.asking.append(tenant))
            return
        parts = tenant.turn(is_reset)
        if not parts:
            client.turns_left += 1
            client.is_last = False
            return self.turned(tenant)
        if client.is_last:
            self.takers.remove(client)
        turn, sent = Turn(tenant, len(parts)), []
        for part in parts:
            if not is_reset:
                sent += self.between(client)
            pair = [part, None]
            tenant.own.append(pair)
            client.wanted.append((turn, pair, None))
            sent.append(part)
        if client.is_last:
            self.last(client, sent)
        if client.reads_late and self.draw.random() < 0.1 and not client.is_deaf:
            self.hear_late(client)
        self.push(client, b"".join(sent))

    def between(self, client):
        """Now and then what has the same reply for everybody."""
        kind = self.draw.random()
        if kind < 0.02:
            client.wanted.append((None, None, UNKNOWN_TENANT))
            return [Maker(kind).asked("none")]
        if kind < 0.03:
            client.wanted.append((None, None, BAD_ROUTE))
            return [self.draw.choice(BAD_TARGETS)]
        return []

    def last(self, client, sent):
        """Ends the connection behind these last requests, in its way."""
        end, draw = client.end, self.draw
        if end in ("connection: close", "HTTP/1.0"):
            new = b" HTTP/1.0\r\n" if end == "HTTP/1.0" else b" HTTP/1.1\r\nConnection: x, Close\r\n"
            sent[-1] = sent[-1].replace(b" HTTP/1.1\r\n", new, 1)
            client.ends_by_server = True
        elif end == "half-closed in a request":
            sent.append(self.part_of_request())
            client.wanted.append((None, None, BAD_REQUEST))
        elif end == "no request":
            if draw.random() < 0.2:
                sent.append(b"\r\n\n")
            else:
                sent.append(draw.choice(NO_REQUESTS))
                client.wanted.append((None, None, BAD_REQUEST))
        elif end == "broken off in a request" or end == "reset in a request":
            self.later(draw.random() * 0.05, lambda: self.break_off(client))
        elif end == "reset while asked":
            client.is_deaf = draw.random() < 0.5
            self.later(draw.random() * 0.02, lambda: self.leave(client, True))
        if end in ("half-closed", "half-closed in a request", "no request"):
            client.half_closes = client.ends_by_server = True

    def break_off(self, client):
        """Sends a first part of a request once all replies have come, and leaves."""
        if client.wanted or client.out:
            self.later(0.01, lambda: self.break_off(client))
            return
        self.push(client, self.part_of_request())
        self.later(self.draw.random() * 0.02, lambda: self.leave(client, client.end.startswith("reset")))

    def part_of_request(self):
        tenant = self.draw.choice(self.tenants)
        whole = Maker(self.draw.random()).asked(tenant.key)
        return whole[:self.draw.randrange(1, len(whole))]

    # ---- all of it

    def judge_checks(self):
        for check in [check for check in self.checks if check.done()]:
            tenant = self.checks.pop(check)
            compared, lines = check.result()
            self.compared += compared
            for line in lines:
                self.note(f"{tenant.key}: {line}")
            self.rounds += 1
            tenant.begin()
            self.asking.append(tenant)

    def step(self):
        """Does what can be done within some milliseconds."""
        while len(self.clients) < self.connections_at_once:
            self.open()
        for _ in range(len(self.asking)):
            self.ask(self.asking.popleft())
        self.judge_checks()
        self.judge_lost()
        for key, events in self.selector.select(0.002):
            client = key.data
            if events & selectors.EVENT_READ and not client.is_gone:
                self.read(client)
            if events & selectors.EVENT_WRITE and not client.is_gone:
                self.send(client)
        while self.timers and self.timers[0][0] <= time.monotonic():
            heapq.heappop(self.timers)[2]()

    def run(self, seconds):
        """Asks for so long; a line a minute says how far it is."""
        begun = shown = sampled = time.monotonic()
        while (now := time.monotonic()) - begun < seconds:
            self.step()
            if now - sampled < 1:
                continue
            sampled = now
            resident, most = self.server.memory()
            self.memory.append((now - begun, resident))
            if now - shown >= 60 or len(self.memory) == 1:
                shown = now
                print(f"{now - begun:6.0f} s  {self.compared:,} replies compared, {self.connections:,} connections, "
                      f"{len(self.clients)} open, {resident:,} KB resident, {most:,} KB at most", flush=True)

    def close(self):
        for client in list(self.clients):
            self.leave(client)
        self.pool.shutdown()
        for check in list(self.checks):
            check.exception()
        self.judge_checks()


def is_flat(memory, took):
    """Whether memory stays behind the first minute, and the most resident memory of each third of what follows it."""
    first = min(60, took / 4)
    thirds = [[kilobytes for at, kilobytes in memory if place <= (at - first) * 3 / (took - first) < place + 1]
              for place in range(3)]
    most = [max(third, default=0) for third in thirds]
    return most[2] <= most[0] * 1.1 + 1_024, most


def soak(server, asked_tenants, seed, connections, seconds):
    """Asks for so long, and gives the status."""
    it = Soak(server, asked_tenants, seed, connections)
    begun = time.monotonic()
    status, told = None, b""
    try:
        it.run(seconds)
        it.close()
        time.sleep(0.5)
    except (OSError, subprocess.TimeoutExpired) as error:
        it.note(str(error))
    took = time.monotonic() - begun
    status, told = server.end(IDLE + LATE)
    judge_told(it, status, told)
    flat, most = is_flat(it.memory, took)
    print(f"{took / 60:.1f} minutes, seed {seed}: {len(it.tenants)} tenants on {connections} connections at once, "
          f"{it.rounds:,} rounds, {it.connections:,} connections, {it.compared:,} replies compared, {it.wrong} wrong; "
          f"{it.unknown:,} requests on connections that were reset; "
          f"{it.unchosen:,} connections ended as idle that weren't chosen for long")
    print(f"ends: {', '.join(f'{end} {count:,}' for end, count in it.ends.items())}")
    print(f"statuses: {', '.join(f'{code} {count:,}' for code, count in sorted(it.statuses.items()))}")
    print(f"most resident memory of each third of the time behind the first minute, in KB: "
          f"{', '.join(f'{each:,}' for each in most)}: {'flat' if flat else 'it grows'}")
    return 1 if it.wrong or not flat or not it.compared else 0


def judge_told(it, status, told):
    """What the server told has to be what the clients did."""
    lines = told.decode(errors="replace").splitlines()
    faults = [line for line in lines if line.startswith("connection ")]
    if status:
        it.note(f"the server ended with status {status}: {lines[-1:]}")
    if others := {line.split()[-1] for line in faults} - {"ReadFailed", "WriteFailed"}:
        it.note(f"the server told {others}")
    early = sum(count for end, count in it.ends.items() if end.startswith(("reset", "left", "broken"))) + it.connections_at_once
    if len(faults) > early:
        it.note(f"the server told {len(faults)} faults, {early} connections ended early")
    print(f"the server told {len(faults):,} faults, and at its end: {lines[-1] if lines else ''}")
    counts = re.fullmatch(r"connections: (\d+), requests: (\d+), refusals: \d+", lines[-1] if lines else "")
    if counts is None or int(counts[1]) != it.connections:
        it.note(f"{it.connections} connections were opened")
    elif not it.replies - it.closings <= int(counts[2]) <= it.replies - it.closings + it.unknown:
        it.note(f"{it.replies - it.closings:,} requests were answered, and up to {it.unknown:,} more")
