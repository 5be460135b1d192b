"""Random and mutated input: datagrams, logs, configurations and scenarios. All of it depends on the
seed alone."""
import os
import random
import re

from readers import EVENTS, FILE_LEN, LINE_LEN

DATA = os.path.join(os.path.dirname(os.path.dirname(os.path.realpath(__file__))), "data")
DATAGRAMS = [
    (line.split()[0], bytes.fromhex(line.split()[1]))
    for line in open(os.path.join(DATA, "daemons.txt"), encoding="ascii")
]
OCTETS = [octets for _, octets in DATAGRAMS]
SOURCES = sorted({source for source, _ in DATAGRAMS})
SOURCES += [f"192.168.0.{n}" for n in (1, 2, 3, 9, 77, 255)] + ["10.0.0.1", "2001:db8::1",
                                                                "fe80::2", "fe80:0:0:0:1:2:3:4"]
INTERESTING = [0, 1, 2, 3, 4, 16, 32, 33, 64, 127, 128, 129, 192, 254, 255]
NUMBERS = [0, 1, 2, 3, 7, 8, 31, 32, 33, 63, 64, 65, 95, 96, 127, 128, 129, 199, 200, 255, 256, 257,
           400, 4000, 4001, 65534, 65535, 65536]
NUMBERS += [2**31, 2**32 - 1, 2**63 - 1, 2**63, 2**64 - 1, 2**64, 10**30]


def mutate_octets(chance, octets):
    """One to four changes."""
    octets = bytearray(octets)
    for _ in range(chance.randint(1, 4)):
        kind, at = chance.randrange(8), chance.randrange(len(octets) + 1)
        if kind == 0 and at < len(octets):
            octets[at] ^= 1 << chance.randrange(8)
        elif kind == 1 and at < len(octets):
            octets[at] = chance.choice(INTERESTING)
        elif kind == 2:
            octets[at:at] = chance.randbytes(chance.randint(1, 8))
        elif kind == 3:
            del octets[at : at + chance.randint(1, 8)]
        elif kind == 4:
            octets[at:at] = octets[at : at + chance.randint(1, 16)]
        elif kind == 5:
            del octets[at:]
        elif kind == 6:
            other = chance.choice(OCTETS)
            octets[at:] = other[chance.randrange(len(other)) :]
        else:
            octets[at : at + 2] = chance.choice(
                [b"\0\0", b"\0\1", b"\xff\xff", b"\x7f\xff", b"\x80\0"]
            )
    return bytes(octets)


def with_header(body):
    body = bytes(body[:65_535])
    return b"\x2a\x02" + len(body).to_bytes(2, "big") + body


def tlvs(octets):
    """The TLVs of a well-formed datagram."""
    at, end = 4, 4 + int.from_bytes(octets[2:4], "big")
    while at < end:
        length = 1 if octets[at] == 0 else 2 + octets[at + 1]
        yield octets[at : at + length]
        at += length


TLVS = [tlv for octets in OCTETS for tlv in tlvs(octets)]


def random_tlv(chance):
    kind = chance.choice([0, 1, 2, 3, 4, 5, 6, 7, 8, 8, 8, 9, 10, 10, 11, 128, 255])
    if kind == 0:
        return b"\0"
    payload = bytearray(chance.randbytes(chance.choice([0, 2, 6, 8, 10, 12, 14, 16, 17, 20, 26, 30,
                                                        chance.randrange(256)])))
    if payload and kind in (5, 7, 8, 9, 10):
        payload[0] = chance.choice([0, 1, 1, 2, 2, 3, 4])
    if len(payload) > 3 and kind == 8:
        payload[2:4] = [
            chance.choice([0, 8, 16, 24, 32, 33, 64, 128, 129]),
            chance.choice([0, 0, 1, 2, 8, 17]),
        ]
    return bytes([kind, len(payload)]) + bytes(payload)


def make_datagram(chance):
    kind = chance.randrange(20)
    if kind < 2:
        return chance.randbytes(chance.randrange(200))
    if kind < 4:
        return with_header(chance.randbytes(chance.randrange(200)))
    if kind < 8:
        return with_header(b"".join(random_tlv(chance) for _ in range(chance.randrange(8))))
    if kind < 12:
        parts = [chance.choice(TLVS) for _ in range(chance.randint(1, 10))]
        if chance.randrange(2):
            at = chance.randrange(len(parts))
            parts[at] = parts[at][:2] + mutate_octets(chance, parts[at][2:])
            parts[at] = (
                parts[at][:1] + bytes([min(len(parts[at]) - 2, 255) % 256]) + parts[at][2:257]
            )
        return with_header(b"".join(parts))
    octets = mutate_octets(chance, chance.choice(OCTETS))
    return with_header(octets[4:]) if kind < 16 else octets


def make_chunk(seed, number, count):
    """Pairs of a source and octets."""
    chance = random.Random(f"{seed} datagrams {number}")
    made = [(chance.choice(SOURCES), make_datagram(chance)) for _ in range(count)]
    if number % 25 == 0:
        # The longest datagrams: random octets, and the most TLVs.
        made[0] = (SOURCES[0], with_header(chance.randbytes(65_531)))
        made[1] = (SOURCES[0], with_header(bytes(65_531)))
        made[2] = (SOURCES[0], with_header(b"\x08\xff" * 32_765 + b"\0"))
    return made


ROUTER_CONFIG = """router-id = "0000000000000063"
prefixes = ["10.99.0.0/16", "2001:db8:99::/48"]

[[interface]]
transport = "ipv4"
ipv4 = "192.168.0.2/24"

[[interface]]
transport = "ipv6"
ipv4 = "192.168.0.77/24"
ipv6 = "fe80::2"
hello = 100
"""


def make_log(chance, datagrams):
    """A line for each datagram, with ticks and costs between them. Returns the octets, and for each
    datagram its moment and its interface."""
    lines, places, now = [], [], chance.choice([0, 1000, 2**64 - 10**9])
    for source, octets in datagrams:
        now += chance.choice([1, 1, 1, 5, 50])
        if chance.randrange(8) == 0:
            lines.append(f"{now} tick")
            now += 1
        if chance.randrange(200) == 0:
            lines.append(
                f"{now} cost"
                f" {chance.choice([0, 1, 2])} {chance.choice([0, 1, 96, 300, 65534, 65535])}"
            )
            now += 1
        iface = 2 if chance.randrange(50) == 0 else 1 if ":" in source else chance.randrange(2)
        lines.append(f"{now} in {iface} {source} {octets.hex() or '-'}")
        places.append((str(now), iface))
    return "\n".join(lines).encode() + b"\n", places


WORDS = [b"in", b"tick", b"cost", b"-", b"#", b"", b"emit", b"deliver", b"raise", b"request",
         b"lose", b"group", b"announce", b"withdraw", b"hear", b"10.0.0.0/8", b"2001:db8::/32",
         b"0.0.0.0/0"]
WORDS += [b"::/0", b"fe80::1", b"fe80::2/64", b"192.168.0.1", b"192.168.0.9/24", b"127.0.0.1/8",
          b"255.255.255.255/32", b"::ffff:1.2.3.4", b"1:2:3:4:5:6:7::", b"1::2::3"]
WORDS += [b"true", b"false", b"'", b'"', b'""', b"[]", b"[[]]", b"{}", b"=", b"cost = 1",
          b"hello = 4000", b"seqno = 65535", b"collect = true", b"[[interface]]", b"[[node]]"]
WORDS += [b"[[node.interface]]", b'transport = "ipv6"', b'router-id = "ffffffffffffffff"', b"-1",
          b"+1", b"1.5", b"0x10", b"1e9", b"1979-05-27", b"inf", b"\\u0041", b"01"]
STRANGE = [b"\0", b"\t", b"\r", b"\r\n", b"\n", b" ", b"  ", b"\x7f", b"\xff", b"\xc3\x28",
           b"\xed\xa0\x80", "é".encode(), "٣".encode(), b"\xef\xbb\xbf", b"#", b'"', b"\\", b"[",
           b"]", b"{", b"}", b","]
HEX = re.compile(rb"(?<![0-9a-f])2a02[0-9a-f]{8,}")
NUMERAL = re.compile(rb"[0-9]+")
TOKEN = re.compile(rb"[^\s,\[\]\"=]+")


def replace_one(chance, pattern, text, made):
    """Replaces one find of the pattern."""
    finds = list(pattern.finditer(text))
    if not finds:
        return text
    found = chance.choice(finds)
    return text[: found.start()] + made(found.group()) + text[found.end() :]


def mutate_lines(chance, text):
    lines = text.split(b"\n")
    at, other = chance.randrange(len(lines)), chance.randrange(len(lines))
    kind = chance.randrange(4)
    if kind == 0:
        del lines[at]
    elif kind == 1:
        lines.insert(other, lines[at])
    elif kind == 2:
        lines[at], lines[other] = lines[other], lines[at]
    else:
        lines[at : at + 1] = [lines[at]] * chance.choice([2, 3, 9, 17, 70])
    return b"\n".join(lines)


def mutate_text(chance, text):
    """One to three changes of a file."""
    for _ in range(chance.randint(1, 3)):
        kind = chance.randrange(14)
        if kind < 4:
            text = replace_one(
                chance, NUMERAL, text, lambda _: str(chance.choice(NUMBERS)).encode()
            )
        elif kind < 6:
            text = mutate_lines(chance, text)
        elif kind < 8:
            text = replace_one(chance, HEX, text, lambda _: make_datagram(chance).hex().encode())
        elif kind == 8:
            tokens = TOKEN.findall(text) or [b"x"]
            text = replace_one(chance, TOKEN, text,
                               lambda _: chance.choice([chance.choice(tokens),
                                                        chance.choice(WORDS)]))
        elif kind == 9:
            at = chance.randrange(len(text) + 1)
            text = text[:at] + chance.choice(STRANGE) + text[at:]
        elif kind == 10:
            at = chance.randrange(len(text) + 1)
            text = (
                text[:at]
                + chance.choice([b" ", b"\n", b""])
                + chance.choice(WORDS)
                + chance.choice([b" ", b"\n", b""])
                + text[at:]
            )
        elif kind == 11:
            text = mutate_octets(chance, text)
        elif kind == 12:
            text = text[: chance.randrange(len(text) + 1)]
        else:
            text = replace_one(
                chance, TOKEN, text, lambda word: word[: chance.randrange(len(word) + 1)]
            )
    return text


def base_log(chance):
    if chance.randrange(3) == 0:
        return LOG
    datagrams = [
        (f"192.168.0.{chance.randint(1, 5)}", chance.choice(OCTETS))
        for _ in range(chance.randint(1, 8))
    ]
    return make_log(chance, datagrams)[0]


def make_log_file(chance):
    log = base_log(chance)
    if chance.randrange(1000) == 0:
        filler = chance.choice([b"#", b"x", b"0 in 0 192.168.0.1 "])
        return log + filler.ljust(chance.choice([LINE_LEN, LINE_LEN + 1]), b"0") + b"\n" + log
    return mutate_text(chance, log)


def router_text(chance, node, table):
    """The lines of a configuration, valid but for a chance."""
    lines = [f'router-id = "00000000000000{node + 1:02x}"'] if chance.randrange(30) else []
    if chance.randrange(2):
        lines.append(f"prefixes = [{', '.join(chance.sample(PREFIX_TEXTS, chance.randint(0, 3)))}]")
    if chance.randrange(4) == 0:
        lines.append(f"seqno = {chance.choice(NUMBERS[:-8])}")
    if chance.randrange(40) == 0:
        lines.append(f"collect = {chance.choice(['true', 'false'])}")
    for iface in range(1 if chance.randrange(4) else chance.choice([0, 2, 3, 8, 9])):
        lines.append(f"[[{table}interface]]")
        lines.append(f'transport = "{chance.choice(["ipv4", "ipv4", "ipv4", "ipv6"])}"')
        lines.append(f'ipv4 = "192.168.{iface}.{node + 1}/24"')
        if chance.randrange(3) == 0 or '"ipv6"' in lines[-2]:
            lines.append(f'ipv6 = "fe80::{iface}:{node + 1}"')
        if chance.randrange(4) == 0:
            lines.append(f"hello = {chance.choice(NUMBERS[:-8])}")
        if chance.randrange(4) == 0:
            lines.append(f"cost = {chance.choice(NUMBERS[:-8])}")
        if chance.randrange(5) == 0:
            lines.append(
                'peers ='
                f' [{", ".join([chance.choice(PEERS)] * chance.choice([0, 1, 1, 2, 16, 17]))}]'
            )
    return lines


PREFIX_TEXTS = ['"10.0.0.0/8"', '"10.1.2.3/16"', '"0.0.0.0/0"', '"2001:db8::/32"', '"::/0"',
                '"10.255.0.0/8"', '"192.0.2.1/32"', '"fd00::1/128"']
PEERS = ['"192.168.0.9"', '"192.168.0.10"', '"fe80::9"', '"fe80:0:0:0:0:0:0:a"']


def make_config_file(chance):
    kind = chance.randrange(4)
    text = (
        WORKED
        if kind == 0
        else LAN if kind == 1 else "\n".join(router_text(chance, 0, "")).encode() + b"\n"
    )
    if chance.randrange(2000) == 0:
        return text + b"#".ljust(
            chance.choice([FILE_LEN - len(text), FILE_LEN - len(text) + 1]), b"x"
        )
    return text if kind == 3 else mutate_text(chance, text)


def make_events(chance, nodes):
    """Rounds of ticks, datagrams that come, come late, come again or get lost, and other events
    between them."""
    events, now, sent = [], chance.choice([0, 0, 0, 2**64 - 5000]), 0
    for _ in range(chance.randint(2, 8) if nodes else 0):
        now = min(now + chance.choice([400, 1200, 1200, 1200]), 2**64 - 1)
        for node in range(nodes):
            events += [f"tick {node} {now}", f"emit {node} {now}"]
        sent += nodes
        # Most datagrams reach most nodes of the link.
        pairs = [
            (node, other) for node in range(nodes) for other in range(nodes) if chance.randrange(8)
        ]
        for node, other in chance.sample(pairs, min(len(pairs), 20)):
            datagram = sent - nodes + node if chance.randrange(10) else chance.randrange(sent)
            events.append(f"deliver {datagram} {other} 0 {now}")
        if chance.randrange(3) == 0:
            events.append(make_event(chance, nodes, now))
    return events


def make_event(chance, nodes, now):
    """An event that may be refused."""
    node = chance.randrange(nodes + chance.choice([0, 0, 0, 1]))
    kinds = [f"cost {node} {chance.choice([0, 0, 1])} {chance.choice([1, 96, 500, 65534, 65535])}",
             f"raise {node}", f"emit {node} {now}"]
    if "restart" in EVENTS:
        kinds.append(f"restart {node} {now}")
    if "hear" in EVENTS:
        kinds.append(
            "hear"
            f" {node} {chance.choice([0, 0, 0, 1])} {chance.choice(SOURCES)} {now} {make_datagram(chance).hex() or '-'}"
        )
    kinds += [f"announce {node} 10.0.0.0/8", f"withdraw {node} 10.0.0.0/8",
              f"deliver {chance.choice(NUMBERS[:-6])} {node} 0 {now}"]
    return chance.choice(kinds)


def make_scenario_file(chance):
    if chance.randrange(5) == 0:
        return mutate_text(chance, LINE)
    nodes = chance.choice([0, 1, 64, 65]) if chance.randrange(50) == 0 else chance.randint(2, 4)
    lines = [
        f"events = [{', '.join(chr(34) + event + chr(34) for event in make_events(chance, nodes))}]"
    ]
    for node in range(nodes):
        lines.append("[[node]]")
        if chance.randrange(40) == 0:
            lines += router_text(chance, node, "node.")
        else:
            listed = ", ".join(text for text in PREFIX_TEXTS[:3] if chance.randrange(3) == 0)
            lines += [f'router-id = "00000000000000{node + 1:02x}"', f"prefixes = [{listed}]"]
            lines += ["[[node.interface]]", 'transport = "ipv4"',
                      f'ipv4 = "192.168.0.{node + 1}/24"']
    text = "\n".join(lines).encode() + b"\n"
    return mutate_text(chance, text) if chance.randrange(3) == 0 else text


def data(name):
    with open(os.path.join(DATA, name), "rb") as source:
        return source.read()


LOG, WORKED, LAN, LINE = (
    data("worked.log"),
    data("worked.toml"),
    data("lan.toml"),
    data("line.toml"),
)


def make_record(chance):
    """A source with its pair, valid but for a chance."""
    is_v4 = chance.randrange(2) == 0
    length = chance.choice(
        [0, 1, 7, 8, 9, 16, 24, 31, 32] if is_v4 else [0, 32, 48, 63, 64, 65, 127, 128]
    )
    bits = chance.getrandbits(128) >> (128 - length) << (128 - length) if length else 0
    if chance.randrange(40) == 0:
        bits |= 1 << chance.randrange(128)
    router = (
        chance.choice([1, 2, 0x63, 2**64 - 2, chance.getrandbits(64)])
        if chance.randrange(40)
        else chance.choice([0, 2**64 - 1])
    )
    pair = chance.getrandbits(32) if chance.randrange(40) else 0xFFFF
    return (
        bytes([1 if is_v4 else 2])
        + bits.to_bytes(16, "big")
        + bytes([length])
        + router.to_bytes(8, "big")
        + pair.to_bytes(4, "big")
    )


def make_snapshot(chance, router):
    """A snapshot of the router: valid, with a wrong head or order, or mutated."""
    count = chance.choice([0, 1, 2, 3, 5, 8]) if chance.randrange(50) else chance.choice([511, 512,
                                                                                          513])
    records = sorted(
        {record[:26]: record for record in (make_record(chance) for _ in range(count))}.values()
    )
    kind = chance.randrange(8)
    if kind == 0 and records:
        records.insert(chance.randrange(len(records)), chance.choice(records))
    elif kind == 1:
        chance.shuffle(records)
    listed = len(records) if kind != 2 else chance.choice([0, 1, 511, 512, 513, 65_535])
    head = (
        b"BBS1"
        + (router if kind != 3 else chance.randbytes(8))
        + chance.randbytes(2)
        + chance.randbytes(8)
        + listed.to_bytes(2, "big")
    )
    octets = head + b"".join(records)
    return mutate_octets(chance, octets) if kind in (4, 5) else octets


# The costliest datagrams, for a speaker with two neighbours, 128 prefixes and 256 routes.
COSTLY_PREFIXES = [bytes([10, number // 100, number % 100]) for number in range(128)]
ALL_PREFIXES = [bytes([10, number // 100, number % 100]) for number in range(256)]
COSTLY_CONFIG = """router-id = "0000000000000002"

[[interface]]
transport = "ipv4"
ipv4 = "192.168.0.2/24"
""" + "".join(f'\n[[interface]]\ntransport = "ipv4"\nipv4 = "10.9.{number}.2/24"\n' for number in range(7))


RETRACT_ALL_TLV = b"\x08\x0a\0\0\0\0\x06\x40\0\0\xff\xff"


def router_tlv(number):
    return b"\x06\x0a\0\0" + bytes(7) + bytes([number])


ROUTER_TLV = router_tlv(1)


def hello_tlv(seqno):
    return b"\x04\x06\0\0" + (seqno % 65_536).to_bytes(2, "big") + b"\x01\x90"


def ihu_tlv(rxcost):
    return b"\x05\x06\0\0" + rxcost.to_bytes(2, "big") + b"\x04\xb0"


def update_tlv(prefix, seqno, metric):
    return (
        b"\x08\x0d\x01\0\x18\0\x06\x40"
        + seqno.to_bytes(2, "big")
        + metric.to_bytes(2, "big")
        + prefix
    )


def costly_log():
    """Both neighbours with a route to each prefix."""
    routes = ROUTER_TLV + b"".join(update_tlv(prefix, 0, 0) for prefix in COSTLY_PREFIXES)
    return costly_lines((1, 3), [hello_tlv(0) + hello_tlv(1) + ihu_tlv(96), routes])


def costly_log_of_one():
    """One neighbour with a route to each of 256 prefixes: without its link there is none."""
    hellos = hello_tlv(0) + hello_tlv(1) + ihu_tlv(96)
    return costly_lines((1,),
                        [hellos, *(ROUTER_TLV
                                   + b"".join(update_tlv(prefix, 0, 0) for prefix in part)
                                   for part in (ALL_PREFIXES[:128], ALL_PREFIXES[128:]))])


def costly_lines(hosts, bodies):
    return "".join(
        f"0 in 0 192.168.0.{host} {with_header(body).hex()}\n" for body in bodies for host in hosts
    )


def costly_datagrams():
    """Datagrams of 64 KiB by what is in them, for a speaker with two neighbours."""
    return {
        "no TLV": b"",
        "8,191 Hellos": b"".join(hello_tlv(number + 2) for number in range(8_191)),
        "8,191 Hellos that flush": b"".join(hello_tlv(1_000 * number) for number in range(8_191)),
        "8,191 IHUs that change the cost": b"".join(ihu_tlv(96 + number % 2)
                                                    for number in range(8_191)),
        "5,460 retractions of all routes": RETRACT_ALL_TLV * 5_460,
        "4,360 Updates": ROUTER_TLV
        + b"".join(update_tlv(COSTLY_PREFIXES[number % 128], number, 0) for number in range(4_360)),
        "4,360 unfeasible Updates": ROUTER_TLV
        + b"".join(update_tlv(COSTLY_PREFIXES[number % 128], 0, 200 + number % 9)
                   for number in range(4_360)),
        "4,360 Updates that the full table refuses": ROUTER_TLV
        + b"".join(update_tlv(bytes([11, number // 256, number % 256]), 0, 0)
                   for number in range(4_360)),
        "16,382 dump requests": b"\x09\x02\0\0" * 16_382,
        "3,449 Seqno Requests": b"".join(b"\x0a\x11\x01\x18" + number.to_bytes(2, "big") + b"\x40"
                                         + bytes(8) + b"\x01" + COSTLY_PREFIXES[number % 128]
                                         for number in range(3_449)),
        "65,531 Pad1": bytes(65_531),
    }


def costly_datagrams_of_one():
    """The same for a speaker with one neighbour: each route is lost and selected again."""
    turns = []
    for turn in range(16):
        turns.append(
            router_tlv(3 + turn % 2) + b"".join(update_tlv(prefix, 0, 0) for prefix in ALL_PREFIXES)
        )
    storm = b"".join(
        RETRACT_ALL_TLV + update_tlv(ALL_PREFIXES[number % 256], 0, 0) for number in range(2_416)
    )
    return {
        "8,191 IHUs that flip the link between 96 and infinity": b"".join(
            ihu_tlv(96 if number % 2 else 65_535) for number in range(8_191)
        ),
        "4,096 Updates, each with another router-id": b"".join(turns),
        "2,416 retractions of all routes, each followed by an Update": ROUTER_TLV + storm,
    }
