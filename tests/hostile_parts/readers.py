"""What is known of hostile input apart from the program: what is refused, and the form of each line
that may be printed."""
import ipaddress
import re
import tomllib

LINE_LEN = 131_200
FILE_LEN = 1_048_576
NUMBER = "(?:0|[1-9][0-9]*)"
ADDR = f"(?:{NUMBER}(?:\\.{NUMBER}){{3}}|[0-9a-f]{{1,4}}(?::[0-9a-f]{{1,4}}){{7}})"
PREFIX = f"{ADDR}/{NUMBER}"
ROUTER = "[0-9a-f]{16}"
# Each message with its verdicts after `V1`.
MESSAGES = [
    (f"ack-request opaque {NUMBER} interval {NUMBER}", ""),
    (f"ack opaque {NUMBER}", "V4"),
    (f"hello (?:multicast|unicast) seqno {NUMBER} interval {NUMBER}", "V5"),
    (f"ihu to (?:{ADDR}|any) rxcost {NUMBER} interval {NUMBER}", "V4|V6"),
    (f"update {PREFIX} router {ROUTER} next-hop {ADDR} seqno {NUMBER} metric {NUMBER} interval "
     f"{NUMBER}", f"V2 {NUMBER} {NUMBER}|V3|V4|V5"),
    (f"retract {PREFIX} interval {NUMBER}", "V4|V7"),
    (f"retract-all interval {NUMBER}", "V4|V7"),
    (f"route-request {PREFIX}", "V4"),
    ("dump-request", "V4"),
    (f"seqno-request {PREFIX} router {ROUTER} seqno {NUMBER} hops {NUMBER}", "V4|V8|V9"),
]
IGNORED = f"ignored (?:I(?:[1-4]|[6-9]|1[0-3])|I5 (?:12[89]|1[3-9][0-9]|2[0-9][0-9]))"
SHOWN = re.compile(f"{NUMBER} (?:state|{IGNORED}|{'|'.join(text for text, _ in MESSAGES)})")
NOTED = re.compile(
    f"{NUMBER} (?:state|{IGNORED}|{'|'.join(f'{text} (?:V1|{codes})' if codes else f'{text} V1' for text, codes in MESSAGES)})"
)
VERDICT = re.compile(r" V(?:[13-9]|2 \d+ \d+)$")
CHOSEN = f"{PREFIX} (?:none|via {NUMBER} {ADDR} metric {NUMBER} router {ROUTER} seqno {NUMBER})"
EFFECT = re.compile(
    f"{NUMBER} (?:select {CHOSEN}|out {NUMBER} (?:{ADDR}|all) {NUMBER})|table {CHOSEN}"
)
REPORTED = re.compile(
    f"{NUMBER} (?:{NOTED.pattern}|refused (?:P[1-4]|P5 {NUMBER}|S[1-3]|E[12]))|{EFFECT.pattern}"
)
EXPLAINED = re.compile(
    f"{PREFIX} via {NUMBER} {ADDR} router {ROUTER} seqno {NUMBER} advertised {NUMBER} cost "
    f"{NUMBER} metric {NUMBER} "
    f"source (?:none|{NUMBER} {NUMBER}) "
    f"(?:local|infinite|unfeasible|unreachable|selected|candidate)"
)
HOP = re.compile(f"({NUMBER}) hop ({NUMBER}) ({PREFIX}) -> (?:none|({NUMBER}) router ({ROUTER}))")
# A route over a router that is no node.
FOREIGN = re.compile(
    f"({NUMBER}) hop ({NUMBER}) ({PREFIX}) -> ({ADDR}) router ({ROUTER}) next-hop ({ADDR})(?: node"
    f" ({NUMBER}))?"
)
NET_END = re.compile(f"end ({NUMBER}) events {NUMBER} datagrams|{NUMBER} refused N[1-578]")


def refusal(octets):
    """The code of the refusal (RFC 8966, section 4), or None, and the offsets of the TLVs."""
    if len(octets) < 4:
        return "P1", []
    if octets[0] != 42:
        return "P2", []
    if octets[1] != 2:
        return "P3", []
    end = 4 + int.from_bytes(octets[2:4], "big")
    if end > len(octets):
        return "P4", []
    at, offsets = 4, []
    while at < end:
        length = 1 if octets[at] == 0 else 2 + octets[at + 1] if at + 1 < end else 2
        if at + length > end:
            return f"P5 {at}", []
        offsets.append(at)
        at += length
    return None, offsets


OWN = {ipaddress.ip_address(text) for text in ("192.168.0.2", "192.168.0.77", "fe80::2")}
LINKS = [ipaddress.ip_network("192.168.0.0/24"), ipaddress.ip_network("fe80::/10")]


def source_refusal(iface, source):
    """The code of the refusal of a source at an interface, or None."""
    if iface > 1:
        return "S1"
    addr = ipaddress.ip_address(source)
    if not any(addr in link for link in LINKS if link.version == addr.version):
        return "S2"
    return "S3" if addr in OWN else None


def shown_blocks(out):
    """The lines of each datagram: an empty line comes between two datagrams."""
    blocks = [[]]
    for line in out.decode("ascii", "replace").split("\n")[:-1]:
        if line:
            blocks[-1].append(line)
        else:
            blocks.append([])
    return blocks


def number_fault(text, most):
    return not re.fullmatch(NUMBER, text, re.ASCII) or int(text) > most


def is_addr(text):
    """Whether the text is an address: IPv6 with at most one `::`, no zone and no embedded IPv4."""
    if ":" not in text:
        parts = text.split(".")
        return len(parts) == 4 and not any(number_fault(part, 255) for part in parts)
    halves = [[group for group in half.split(":")] if half else [] for half in text.split("::")]
    groups = [group for half in halves for group in half]
    if len(halves) > 2 or not all(re.fullmatch("[0-9a-fA-F]{1,4}", group) for group in groups):
        return False
    return len(groups) == 8 if len(halves) == 1 else len(groups) < 8


def is_ipv6(text):
    return is_addr(text) and ":" in text


def read_prefix(text):
    """The prefix without the bits past its length, or None."""
    addr, slash, length = text.partition("/")
    if not slash or not is_addr(addr) or number_fault(length, 128 if ":" in addr else 32):
        return None
    return ipaddress.ip_network(f"{ipaddress.ip_address(addr)}/{length}", strict=False)


def line_fault(line):
    """The code of the fault of a log's line, or None."""
    if len(line) > LINE_LEN:
        return "L5"
    if not line or line.startswith(b"#"):
        return None
    try:
        words = line.decode().split(" ")
    except UnicodeDecodeError:
        return "L1"
    form = (words[1], len(words)) if len(words) > 1 else None
    if form not in (("tick", 2), ("cost", 4), ("in", 5)):
        return "L1"
    if number_fault(words[0], 2**64 - 1) or (len(words) > 2 and number_fault(words[2], 65_535)):
        return "L2"
    if words[1] == "cost":
        return "L2" if number_fault(words[3], 65_535) else None
    if words[1] == "tick":
        return None
    if not is_addr(words[3]):
        return "L3"
    return (
        None if words[4] == "-" or re.fullmatch("(?:[0-9a-fA-F]{2})+", words[4], re.ASCII) else "L4"
    )


def log_fault(log):
    """The number of the first line with a fault and its code, or None."""
    lines = log.split(b"\n")
    if not lines[-1]:
        lines.pop()
    for number, line in enumerate(lines, 1):
        code = line_fault(line)
        if code:
            return number, code
    return None


class Faults(set):
    """The codes of the causes that a file has."""

    def value(self, table, key, kind, default):
        value = table.get(key, default)
        if type(value) is not kind:
            self.add("F2")
            return default
        return value

    def texts(self, table, key, is_text):
        texts = self.value(table, key, list, [])
        if any(type(text) is not str for text in texts):
            self.add("F2")
        texts = [text for text in texts if type(text) is str]
        if not all(is_text(text) for text in texts):
            self.add("F3")
        return texts

    def number(self, table, key, default):
        value = self.value(table, key, int, default)
        if not 0 <= value <= 65_535:
            self.add("F2")
            # A number that doesn't fit 64 bits isn't TOML for some readers.
            if not -(2**63) <= value < 2**63:
                self.add("F1")
        return value


def read_interface(faults, table):
    if type(table) is not dict:
        faults.add("F2")
        return None
    if set(table) - {"transport", "ipv4", "ipv6", "peers", "cost", "hello"} or table.get(
        "transport"
    ) not in ("ipv4", "ipv6"):
        faults.add("F2")
    ipv4, ipv6 = faults.value(table, "ipv4", str, "0.0.0.0/0"), faults.value(
        table, "ipv6", str, "fe80::"
    )
    addr, slash, length = ipv4.partition("/")
    if not slash or not is_addr(addr) or ":" in addr or number_fault(length,
                                                                     255) or not is_ipv6(ipv6):
        faults.add("F3")
    peers = faults.texts(table, "peers", is_addr)
    return {"transport": table.get("transport"), "ipv4": ipv4 if "ipv4" in table else None,
            "ipv6": ipv6 if "ipv6" in table else None,
            "peers": peers, "cost": faults.number(table, "cost", 96),
            "hello": faults.number(table, "hello", 400)}


def read_config(faults, table):
    """The configuration of a table. Adds the codes of its faults."""
    if type(table) is not dict:
        faults.add("F2")
        return {}
    if (
        set(table) - {"router-id", "seqno", "collect", "prefixes", "interface"}
        or type(table.get("router-id")) is not str
    ):
        faults.add("F2")
    router = table.get("router-id", "")
    if type(router) is str and not re.fullmatch("[0-9a-fA-F]{16}", router, re.ASCII):
        faults.add("F3")
    faults.number(table, "seqno", 0)
    collect = faults.value(table, "collect", bool, False)
    prefixes = faults.texts(table, "prefixes", lambda text: read_prefix(text) is not None)
    interfaces = [
        read_interface(faults, interface)
        for interface in faults.value(table, "interface", list, [])
    ]
    return {"router": router, "collect": collect, "prefixes": prefixes, "interfaces": interfaces}


def interface_is_wrong(interface):
    """C6."""
    is_v4 = interface["transport"] == "ipv4"
    if interface["ipv4" if is_v4 else "ipv6"] is None or len(interface["peers"]) > 16:
        return True
    if interface["ipv6"] is not None and ipaddress.ip_address(interface["ipv6"]) not in LINKS[1]:
        return True
    if interface["ipv4"] is not None and int(interface["ipv4"].partition("/")[2]) > 32:
        return True
    return any((":" in peer) == is_v4 for peer in interface["peers"])


def config_code(config):
    """The first of C1 to C6, or None."""
    interfaces, prefixes = config["interfaces"], [read_prefix(text) for text in config["prefixes"]]
    causes = [
        config["router"].lower() in ("0" * 16, "f" * 16),
        not 1 <= len(interfaces) <= 8,
        any(not 1 <= interface["cost"] <= 65_534 for interface in interfaces),
        any(not 1 <= interface["hello"] <= 4_000 for interface in interfaces),
        len(prefixes) > 64 or len(set(prefixes)) < len(prefixes),
        any(interface_is_wrong(interface) for interface in interfaces),
    ]
    return f"C{causes.index(True) + 1}" if True in causes else None


def read_toml(octets):
    """The table, or the code. The program's reader takes a byte order mark and two escapes that
    Python's doesn't."""
    if len(octets) > FILE_LEN:
        return "F5"
    try:
        text = octets.removeprefix(b"\xef\xbb\xbf").decode()
        table = tomllib.loads(
            re.sub(r"\\x([0-9a-fA-F]{2})", r"\\u00\1", text.replace("\\e", "\\u001b"))
        )
    except (ValueError, RecursionError):
        return "F1"
    return "F1" if has_long_number(table) else table


def has_long_number(value):
    """Whether it has a number that doesn't fit in 64 bits: TOML 1.0 asks for an error then, and
    Python's reader takes it."""
    if isinstance(value, dict):
        return any(map(has_long_number, value.values()))
    if isinstance(value, list):
        return any(map(has_long_number, value))
    return type(value) is int and not -2**63 <= value < 2**63


def config_codes(octets):
    """The codes of which `check` prints one; empty: it prints ok."""
    table = read_toml(octets)
    if type(table) is str:
        return {table}
    faults = Faults()
    config = read_config(faults, table)
    if not faults:
        code = config_code(config)
        faults |= {code} if code else set()
    return faults


EVENTS = {"tick": "nt", "emit": "nt", "deliver": "nnit", "cost": "nic", "raise": "n",
          "request": "nt", "lose": "nit", "group": "n", "announce": "np", "withdraw": "np"}
MOST = {"n": 2**64 - 1, "t": 2**64 - 1, "i": 255, "c": 65_535}
DATAGRAM_LEN = 65_535


def is_hex(text):
    """Whether the text is that of the octets of a datagram."""
    return text == "-" or (
        bool(re.fullmatch("(?:[0-9a-fA-F]{2})+", text, re.ASCII)) and len(text) <= 2 * DATAGRAM_LEN
    )


def is_field(kind, text):
    if kind == "p":
        return read_prefix(text) is not None
    if kind == "a":
        return is_addr(text)
    return is_hex(text) if kind == "h" else not number_fault(text, MOST[kind])


def is_event(text):
    word, *fields = text.split(" ")
    kinds = EVENTS.get(word, "-")
    if len(kinds) != len(fields) or kinds == "-":
        return False
    return all(is_field(kind, field) for kind, field in zip(kinds, fields))


def network_code(configs):
    """The first of M5, M7, M4, M1 and M2, or None."""
    if len(configs) > 64:
        return "M5"
    for node, config in enumerate(configs):
        if config_code(config):
            return f"M7 {node} {config_code(config)}"
    if any(config["collect"] for config in configs):
        return "M4"
    interfaces = [interface for config in configs for interface in config["interfaces"]]
    addrs = [interface["ipv4"].partition("/")[0] for interface in interfaces if interface["ipv4"]]
    addrs += [interface["ipv6"] for interface in interfaces if interface["ipv6"]]
    if len({ipaddress.ip_address(addr) for addr in addrs}) < len(addrs):
        return "M1"
    return "M2" if len({config["router"].lower() for config in configs}) < len(configs) else None


def scenario_codes(octets):
    """The codes of which `net` prints one on standard error, and the number of events."""
    table = read_toml(octets)
    if type(table) is str:
        return {table}, 0
    faults = Faults()
    if set(table) - {"events", "node"}:
        faults.add("F2")
    configs = [read_config(faults, config) for config in faults.value(table, "node", list, [])]
    events = faults.value(table, "events", list, [])
    if any(type(text) is not str for text in events):
        faults.add("F2")
    wrong = [
        number for number, text in enumerate(events) if type(text) is str and not is_event(text)
    ]
    if wrong:
        faults.add(f"F6 {wrong[0]}")
    if not faults:
        code = network_code(configs)
        faults |= {code} if code else set()
    return faults, len(events)


def has_loop(hops):
    """Whether following the next hops of a prefix and router-id comes back to a node."""
    for start in hops:
        node, seen = start, set()
        while node in hops and node not in seen:
            seen.add(node)
            node = hops[node]
        if node in seen:
            return True
    return False


# Snapshots: a head of 24 octets, then 30 for each source, in ascending order.
SNAPSHOT_START = b"BBS1"
HEAD_LEN, RECORD_LEN, KEY_LEN, MOST_RECORDS = 24, 30, 26, 512
SNAPSHOT_LEN = HEAD_LEN + MOST_RECORDS * RECORD_LEN


def is_source(record):
    """Whether the record is a source with a finite metric: no bits past the prefix, and no reserved
    router-id."""
    family, addr, length, router, metric = (
        record[0],
        record[1:17],
        record[17],
        record[18:26],
        record[28:],
    )
    width = {1: 32, 2: 128}.get(family, -1)
    bits = int.from_bytes(addr, "big")
    return (
        length <= width
        and not bits << length & (2**128 - 1)
        and router not in (bytes(8), b"\xff" * 8)
        and metric != b"\xff\xff"
    )


def snapshot_fault(octets, router):
    """The code of the fault of a snapshot of the router, or None."""
    if len(octets) > SNAPSHOT_LEN:
        return "K8"
    count = int.from_bytes(octets[22:24], "big")
    causes = [len(octets) < HEAD_LEN, octets[:4] != SNAPSHOT_START, octets[4:12] != router,
              count > MOST_RECORDS, len(octets) != HEAD_LEN + count * RECORD_LEN]
    if True in causes:
        return f"K{causes.index(True) + 1}"
    before = b""
    for number in range(count):
        record = octets[HEAD_LEN + number * RECORD_LEN :][:RECORD_LEN]
        if not is_source(record):
            return f"K6 {number}"
        if record[:KEY_LEN] <= before:
            return f"K7 {number}"
        before = record[:KEY_LEN]
    return None
