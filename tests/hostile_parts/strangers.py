"""Random networks among routers of others that lie: scenarios of `net` with `hear`, and a plain
search for loops among the nodes.

The nodes share one link, but most datagrams only reach a node's neighbours in a random graph. The
other routers send what they like from their own addresses: metrics and seqnos that are wrong,
retractions, the router-ids of the nodes, and mutated octets. What is promised is of a prefix and a
router-id, a source. The nodes whose selected routes have it form no loop by their neighbours, if
all seqnos of the source lie in one half of the circle. They form none by their next hops either, if
no Update of the source that was heard names an address of a node as next hop.
"""
import collections
import ipaddress
import re

from mutants import OCTETS, hello_tlv, ihu_tlv, mutate_octets, router_tlv, with_header
from readers import FOREIGN, HOP, NUMBER, PREFIX, ROUTER, has_loop

PREFIXES = {"10.0.0.0/8": b"\x0a", "10.1.0.0/16": b"\x0a\x01", "10.2.3.0/24": b"\x0a\x02\x03"}
UPDATE = re.compile(
    f"{NUMBER} update ({PREFIX}) router ({ROUTER}) next-hop ([0-9a-f:.]+) seqno ({NUMBER}) metric"
    f" {NUMBER} interval {NUMBER}"
)
HALF, CIRCLE = 32_768, 65_536
METRICS = [0, 0, 1, 95, 96, 97, 192, 193, 288, 300, 500, 1_000, 65_534]


class Network:
    """A scenario as it is made: its nodes, its other routers, and its events."""

    def __init__(self, chance, events):
        self.chance, self.most = chance, events
        self.nodes, self.strangers = chance.randint(2, 8), chance.randint(1, 3)
        self.is_v6 = chance.randrange(3) == 0
        # The least seqno, and how far the others are from it: in one of eight scenarios anywhere on
        # the circle.
        self.first = chance.choice([0, 0, 32_700, 65_500, chance.randrange(CIRCLE)])
        self.span = CIRCLE if chance.randrange(8) == 0 else HALF - 300
        self.listed = [[prefix for prefix in PREFIXES if chance.randrange(2)
                        or (node == 0 and prefix == "10.0.0.0/8")] for node in range(self.nodes)]
        self.near = [
            {other for other in range(node) if chance.randrange(3) == 0}
            | ({chance.randrange(node)} if node else set())
            for node in range(self.nodes)
        ]
        self.hearers = [
            chance.sample(range(self.nodes), chance.randint(1, 2)) for _ in range(self.strangers)
        ]
        self.hellos = collections.Counter()
        self.events, self.heard, self.sent, self.now = [], [], 0, 0

    def address(self, number):
        """The address from which the node or other router of this number sends."""
        return f"fe80::{number + 1:x}" if self.is_v6 else f"192.168.0.{number + 1}"

    def addresses(self):
        """The node of each address."""
        found = {}
        for node in range(self.nodes):
            found[ipaddress.ip_address(f"192.168.0.{node + 1}")] = node
            found[ipaddress.ip_address(f"fe80::{node + 1:x}")] = node
        return found

    def lie(self, stranger):
        """The octets of a well-formed datagram."""
        chance = self.chance
        self.hellos[stranger] += 1
        tlvs = [hello_tlv(self.hellos[stranger]), ihu_tlv(chance.choice([1, 96, 96, 300]))]
        if self.is_v6 or chance.randrange(4) == 0:
            # A next hop of the stranger's own, of another stranger, or of nobody.
            tlvs.append(
                b"\x07\x06\x01\0\xc0\xa8\0"
                + bytes([chance.choice([101 + stranger, 101, 102, 200])])
            )
        for _ in range(chance.randint(0, 3)):
            router = chance.choice([*range(1, self.nodes + 1), 101 + stranger])
            tlvs.append(b"\x06\x0a\0\0" + bytes(7) + bytes([router]))
            for prefix in chance.sample(sorted(PREFIXES), chance.randint(1, 3)):
                tlvs.append(self.update(prefix))
        if chance.randrange(6) == 0:
            tlvs.append(b"\x0a\x0f\x01\x08" + self.seqno() + b"\x40\0" + bytes(7)
                        + bytes([chance.randint(1, self.nodes)]) + b"\x0a")
        return with_header(b"".join(tlvs))

    def seqno(self):
        near = self.chance.choice([0, 0, 1, 2, 3, 5, 50, self.chance.randrange(self.span)])
        return ((self.first + near) % CIRCLE).to_bytes(2, "big")

    def update(self, prefix):
        metric = 65_535 if self.chance.randrange(5) == 0 else self.chance.choice(METRICS)
        length = int(prefix.partition("/")[2])
        octets = (
            b"\x01\0"
            + bytes([length])
            + b"\0\x06\x40"
            + self.seqno()
            + metric.to_bytes(2, "big")
            + PREFIXES[prefix]
        )
        return b"\x08" + bytes([len(octets)]) + octets

    def hear(self):
        """A node, or each that is near, hears a stranger."""
        stranger = self.chance.randrange(self.strangers)
        octets = self.lie(stranger)
        if self.chance.randrange(6) == 0:
            octets = mutate_octets(
                self.chance, octets if self.chance.randrange(8) else self.chance.choice(OCTETS)
            )
        source = self.address(100 + stranger)
        hearers = self.hearers[stranger]
        for node in hearers if self.chance.randrange(2) else [self.chance.choice(hearers)]:
            self.events.append(f"hear {node} 0 {source} {self.now} {octets.hex() or '-'}")
        self.heard.append((source, octets))

    def round(self):
        """Each node sends a datagram, most of which reach the nodes that are near; and others send,
        and things change."""
        chance = self.chance
        self.now += chance.choice([400, 400, 400, 1_200])
        for node in range(self.nodes):
            self.events += [f"tick {node} {self.now}", f"emit {node} {self.now}"]
            self.sent += 1
        pairs = [(node, other) for node in range(self.nodes) for other in range(self.nodes)
                 if node in self.near[other] or other in self.near[node]]
        chance.shuffle(pairs)
        for node, other in pairs:
            if chance.randrange(10) == 0:
                continue
            number = (
                self.sent - self.nodes + node
                if chance.randrange(12)
                else chance.randrange(self.sent)
            )
            self.events.append(f"deliver {number} {other} 0 {self.now}")
            if chance.randrange(12) == 0:
                self.hear()
        for _ in range(chance.randint(0, self.strangers)):
            self.hear()
        if chance.randrange(2) == 0:
            self.change()

    def change(self):
        node = self.chance.randrange(self.nodes)
        kinds = [f"restart {node} {self.now}", f"restart {node} {self.now}", f"raise {node}",
                 f"cost {node} 0 {self.chance.choice([1, 96, 96, 500])}", f"emit {node} {self.now}"]
        self.events.append(self.chance.choice(kinds))

    def text(self):
        while len(self.events) < self.most:
            self.round()
        lines = [f"events = [{', '.join(chr(34) + event + chr(34) for event in self.events)}]"]
        for node in range(self.nodes):
            listed = ", ".join(f'"{prefix}"' for prefix in self.listed[node])
            lines += ["[[node]]", f'router-id = "{node + 1:016x}"', f"seqno = {self.first}",
                      f"prefixes = [{listed}]", "[[node.interface]]"]
            lines += [f'transport = "{"ipv6" if self.is_v6 else "ipv4"}"',
                      f'ipv4 = "192.168.0.{node + 1}/24"', f'ipv6 = "fe80::{node + 1:x}"']
        return "\n".join(lines).encode() + b"\n"


class Premises:
    """What of the datagrams that were heard decides whether a source may loop."""

    def __init__(self, network, shown):
        self.owners = network.addresses()
        # Each raise takes an event, so the nodes' own seqnos are among these two and those between.
        self.own = {network.first, (network.first + len(network.events)) % CIRCLE}
        self.seqnos, self.named = collections.defaultdict(set), set()
        for line in shown:
            found = UPDATE.fullmatch(line)
            if found:
                prefix, router, next_hop, seqno = found.groups()
                self.seqnos[prefix, router].add(int(seqno))
                if ipaddress.ip_address(next_hop) in self.owners:
                    self.named.add((prefix, router))

    def is_in_half(self, source):
        """Whether the seqnos of the source are in one half of the circle."""
        seqnos = self.seqnos[source] | self.own
        return any(all((seqno - first) % CIRCLE < HALF for seqno in seqnos) for first in seqnos)

    def names_no_node(self, source):
        return source not in self.named


class Hops:
    """The selected routes of the nodes, as `net` prints them: by neighbour and by next hop."""

    def __init__(self):
        self.by_neighbour, self.by_next_hop = collections.defaultdict(
            dict
        ), collections.defaultdict(dict)
        self.selected = {}

    def take(self, line):
        """Takes a line. Returns the source whose route it is, None if there is none, and whether
        the route is foreign."""
        found, foreign = HOP.fullmatch(line), FOREIGN.fullmatch(line)
        if not found and not foreign:
            raise ValueError(line)
        _, node, prefix = (found or foreign).groups()[:3]
        old = self.selected.pop((node, prefix), None)
        if old:
            self.by_neighbour[old].pop(node, None)
            self.by_next_hop[old].pop(node, None)
        if found and found.group(4) is None:
            return None, False
        router = found.group(5) if found else foreign.group(5)
        source = prefix, router
        self.selected[node, prefix] = source
        if found:
            self.by_neighbour[source][node] = self.by_next_hop[source][node] = found.group(4)
        elif foreign.group(7) is not None:
            self.by_next_hop[source][node] = foreign.group(7)
        return source, bool(foreign)

    def loops_by_neighbour(self, source):
        return has_loop(self.by_neighbour[source])

    def loops_by_next_hop(self, source):
        return has_loop(self.by_next_hop[source])


# Networks that loop, since a premise does not hold. Nodes 0 and 1 hear routers of others; node 2
# lists the prefix, and nothing else.
LIAR = "192.168.0.101"
BOTH = """\
[[node]]
router-id = "0000000000000001"
[[node.interface]]
transport = "ipv4"
ipv4 = "192.168.0.1/24"
[[node]]
router-id = "0000000000000002"
[[node.interface]]
transport = "ipv4"
ipv4 = "192.168.0.2/24"
[[node]]
router-id = "0000000000000003"
prefixes = ["10.0.0.0/8"]
[[node.interface]]
transport = "ipv4"
ipv4 = "192.168.0.3/24"
"""


# A Route Request for 10.0.0.0/8: the node sends its route then, also if it would not yet.
REQUEST_TLV = b"\x09\x03\x01\x08\x0a"


def heard(node, now, hello, seqno, metric, next_hop=None):
    """The event in which the node hears the liar's route."""
    tlvs = [hello_tlv(hello), ihu_tlv(96)]
    if next_hop:
        tlvs.append(b"\x07\x06\x01\0" + ipaddress.ip_address(next_hop).packed)
    update = (
        b"\x01\0\x08\0\x06\x40" + seqno.to_bytes(2, "big") + metric.to_bytes(2, "big") + b"\x0a"
    )
    octets = with_header(
        b"".join([*tlvs, router_tlv(9), b"\x08" + bytes([len(update)]) + update, REQUEST_TLV])
    )
    return f"hear {node} 0 {LIAR} {now} {octets.hex()}"


def looping():
    """Pairs of the kind of a loop, and a scenario that has it."""
    yield "a loop by next hops", scenario(named_nodes())
    yield "a loop by neighbours", scenario(seqnos_around())


def scenario(events):
    return f"events = [{', '.join(chr(34) + event + chr(34) for event in events)}]\n{BOTH}".encode()


def named_nodes():
    """Each of the two nodes is told that the other one is the next hop."""
    for node, other in ((0, "192.168.0.2"), (1, "192.168.0.1")):
        yield heard(node, 0, 0, 0, 0, other)
        yield heard(node, 1, 1, 0, 0, other)


def seqnos_around():
    """The seqnos 20,000, 40,000 and 0 are each newer than the one before, all around the circle."""
    for now in (0, 400, 800, 1_200):
        number = now // 200
        yield from (f"tick 0 {now}", f"emit 0 {now}", f"tick 1 {now}", f"emit 1 {now}",
                    f"deliver {number} 1 0 {now}", f"deliver {number + 1} 0 0 {now}")
    # Node 0 takes 20,000, and node 1 takes it from node 0. What node 1 then sends is delivered at
    # the end.
    yield from (heard(0, 1_200, 0, 20_000, 0), heard(0, 1_200, 1, 20_000, 0), "emit 0 1200",
                "deliver 8 1 0 1200", "emit 1 1200")
    # Node 1 takes 40,000, and node 0 takes it from node 1.
    yield from (heard(1, 1_200, 0, 40_000, 0), heard(1, 1_200, 1, 40_000, 0), "emit 1 1200",
                "deliver 10 0 0 1200", heard(0, 1_200, 2, 20_000, 65_535), "emit 0 1200")
    # Node 0 takes 0, and node 1 takes it from node 0.
    yield from (heard(1, 1_200, 2, 40_000, 65_535), heard(0, 1_200, 3, 0, 0), "emit 0 1200",
                "deliver 12 1 0 1200")
    # Node 0 loses it, and hears the old datagram of node 1.
    yield from ("deliver 9 0 0 1200", heard(0, 1_200, 4, 0, 65_535))
