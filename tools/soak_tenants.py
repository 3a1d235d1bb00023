"""Tenants that ask at random, and whether a server gave the replies of each one's own registry."""
from random_requests import DOCUMENTS, SITE, Maker, stored_uris
from talks import request

TENANTS = 64
QUOTAS = [{"bytes": 1_000_000, "documents": 40}, {"bytes": 3_000, "documents": 12}, {"bytes": 200_000, "documents": 5}]
IDS = [f"{SITE}{path}" for path in ("e", "a", "f/g")]  # what an `$id` of a document may make of its URI


class Tenant:
    def __init__(self, number, seed):
        self.key = f"tenant{number}"
        self.quota = {**QUOTAS[number % len(QUOTAS)], "key": self.key}
        self.maker = Maker(f"{seed} {self.key}")
        self.begin()

    def begin(self):
        """Begins a round: its registry is empty."""
        self.own = []  # [request, reply], in their order; no reply where a connection was reset
        self.left = self.maker.random.randrange(50, 400)
        self.is_closing = self.is_unknown = False

    def turn(self, is_reset=False):
        """The next requests. Those of a turn whose connection is reset put documents whose URIs are known without a reply."""
        draw = self.maker.random
        if self.left <= 0:
            self.is_closing = True
            uris = stored_uris(reply for _, reply in self.own if reply)
            return [request(self.key, "delete", uri) for uri in sorted(uris.union(DOCUMENTS, IDS) if self.is_unknown else uris)]
        size = draw.randrange(2, 9) if is_reset else draw.choice([1, 1, 1, 2, 3, 5, 30])
        self.left -= size
        if not is_reset:
            return [self.maker.asked(self.key) for _ in range(size)]
        kinds = [draw.choice(["put", "put", "delete", "validate"]) for _ in range(size)]
        bodies = {"put": self.maker.document, "validate": self.maker.instance}
        return [request(self.key, kind, draw.choice(DOCUMENTS), *([bodies[kind]()] if kind in bodies else [])) for kind in kinds]


def judged(server, key, own):
    """How many replies were compared with those of the tenant's own registry, and what differs."""
    unknown = [place for place, (_, reply) in enumerate(own) if reply is None]
    for done in range(len(unknown), -1, -1):
        left_out = set(unknown[done:])
        pairs = [pair for place, pair in enumerate(own) if place not in left_out]
        wanted, rest = server.alone(key, b"".join(part for part, _ in pairs))
        lines = [f"{len(wanted)} replies to {len(pairs)} requests"] if rest or len(wanted) != len(pairs) else []
        for (part, reply), reply_alone in zip(pairs, wanted):
            if reply is not None and reply != reply_alone:
                lines.append(f"{part[:300]!r}: {reply[0]} {reply[1][:300]!r}, alone {reply_alone[0]} {reply_alone[1][:300]!r}")
        if not lines:
            break
    if lines and unknown:
        lines.append(f"in that round {len(unknown)} requests were on a connection that was reset")
    return len(own) - len(unknown), lines


def tenants(seed):
    return [Tenant(number, seed) for number in range(1, TENANTS + 1)]
