"""Packet captures (pcap, pcapng): reading packets and the datagrams in them, and writing captures.

`packets` reads a capture from a stream and needs no more of it than the packet that it gives, so a
capture may be a pipe that still grows. `datagram` finds the UDP datagram of a packet. `header` and
`record` make the parts of a capture of raw IP.
"""
import gzip
import io
import ipaddress
import struct
import typing
import zlib

# The port of Babel, and its groups (RFC 8966, section 4).
PORT = 6696
GROUPS = {4: ipaddress.ip_address("224.0.0.111"), 6: ipaddress.ip_address("ff02::1:6")}
SECOND = 1_000_000_000
UDP = 17
LINKTYPE_RAW = 101
# No packet is longer: the most that libpcap takes.
MAX_PACKET = 262_144
# What pcap begins with: its order of octets, and the nanoseconds in a unit of its fractions.
PCAP = {
    b"\xd4\xc3\xb2\xa1": ("<", 1000),
    b"\xa1\xb2\xc3\xd4": (">", 1000),
    b"\x4d\x3c\xb2\xa1": ("<", 1),
    b"\xa1\xb2\x3c\x4d": (">", 1),
}
# Blocks of pcapng, and options of an interface.
SECTION, INTERFACE, SIMPLE, ENHANCED = 0x0A0D0D0A, 1, 3, 6
BYTE_ORDERS = {b"\x4d\x3c\x2b\x1a": "<", b"\x1a\x2b\x3c\x4d": ">"}
TIME_RESOLUTION, TIME_OFFSET = 9, 14
GZIP = b"\x1f\x8b"
# The offset of the EtherType for each link type that has one, and of the IP header after it.
ETHERTYPES = {1: (12, 14), 113: (14, 16), 276: (0, 20)}
# The offset of the IP header for each link type that has no EtherType.
IP_OFFSETS = {0: 4, 12: 0, 14: 0, LINKTYPE_RAW: 0, 108: 4, 228: 0, 229: 0}
VLANS = (0x8100, 0x88A8)
IP_ETHERTYPES = (0x0800, 0x86DD)
# Headers of IPv6 that come before UDP: hop-by-hop, routing and destination options.
EXTENSIONS = (0, 43, 60)
FRAGMENT = 44


class CaptureError(Exception):
    """Why a capture can't be read."""


class Packet(typing.NamedTuple):
    """Nanoseconds since 1970, the link type, and the octets that were captured."""

    time: int
    linktype: int
    octets: bytes


class Datagram(typing.NamedTuple):
    """The payload of a UDP datagram, its time, and its addresses as those of `ipaddress`."""

    time: int
    source: object
    target: object
    octets: bytes


def read(stream, length):
    """Exactly these octets of the stream; none at its end."""
    octets = stream.read(length)
    if octets and len(octets) < length:
        raise CaptureError("the capture is cut off in its middle")
    return octets


def read_all(stream, length):
    octets = read(stream, length)
    if len(octets) < length:
        raise CaptureError("the capture is cut off in its middle")
    return octets


def packets(stream):
    """The packets of a capture, which may be packed with gzip. The stream is a buffered one."""
    if stream.peek(2)[:2] == GZIP:
        stream = io.BufferedReader(gzip.GzipFile(fileobj=stream))
    try:
        magic = read(stream, 4)
        if magic in PCAP:
            yield from pcap_packets(stream, *PCAP[magic])
        elif magic == struct.pack("<I", SECTION):
            yield from pcapng_packets(stream)
        else:
            raise CaptureError("this is neither a pcap nor a pcapng file")
    except (EOFError, IndexError, OSError, struct.error, zlib.error) as error:
        raise CaptureError(f"the capture can't be read: {error}") from error


def pcap_packets(stream, order, unit):
    linktype = struct.unpack(f"{order}16xI", read_all(stream, 20))[0] & 0xFFFF
    while header := read(stream, 16):
        seconds, rest, length = struct.unpack(f"{order}III4x", header)
        yield Packet(seconds * SECOND + rest * unit, linktype, read_packet(stream, length))


def read_packet(stream, length):
    if length > MAX_PACKET:
        raise CaptureError(f"a packet of {length} octets is longer than {MAX_PACKET}")
    return read_all(stream, length) if length else b""


def pcapng_packets(stream):
    """The type of the first block is read already."""
    order, interfaces, kind = "<", [], SECTION
    while True:
        if kind == SECTION:
            order, interfaces = pcapng_section(stream), []
        else:
            body = pcapng_block(stream, order)
            if kind == INTERFACE:
                interfaces.append(pcapng_interface(body, order))
            elif kind == ENHANCED:
                yield pcapng_packet(body, order, interfaces)
            elif kind == SIMPLE:
                raise CaptureError("a packet of the capture has no time")
        head = read(stream, 4)
        if not head:
            return
        kind = struct.unpack(f"{order}I", head)[0]


def pcapng_section(stream):
    """The order of the octets in a section. The rest of its header is skipped."""
    size, mark = struct.unpack("4s4s", read_all(stream, 8))
    if mark not in BYTE_ORDERS:
        raise CaptureError("a section of the capture has no order of octets")
    order = BYTE_ORDERS[mark]
    length = struct.unpack(f"{order}I", size)[0]
    if length < 28:
        raise CaptureError(f"a section's header of {length} octets")
    read_packet(stream, length - 12)
    return order


def pcapng_block(stream, order):
    """What is between the two lengths of a block."""
    length = struct.unpack(f"{order}I", read_all(stream, 4))[0]
    if length < 12 or length > MAX_PACKET + 4096:
        raise CaptureError(f"a block of {length} octets")
    return read_all(stream, length - 8)[:-4]


def pcapng_interface(body, order):
    """The link type, the units of time in a second, and the seconds that are added to each time."""
    linktype, at = struct.unpack(f"{order}H", body[:2])[0], 8
    units, offset = 1_000_000, 0
    while at + 4 <= len(body):
        code, length = struct.unpack(f"{order}HH", body[at : at + 4])
        value = body[at + 4 : at + 4 + length]
        if code == TIME_RESOLUTION:
            units = 2 ** (value[0] & 0x7F) if value[0] & 0x80 else 10 ** value[0]
        elif code == TIME_OFFSET:
            offset = struct.unpack(f"{order}q", value)[0]
        at += 4 + (length + 3) // 4 * 4
    return linktype, units, offset


def pcapng_packet(body, order, interfaces):
    number, high, low, length = struct.unpack(f"{order}IIII4x", body[:20])
    if number >= len(interfaces):
        raise CaptureError(f"a packet of interface {number}, which the capture doesn't describe")
    linktype, units, offset = interfaces[number]
    time = offset * SECOND + ((high << 32) + low) * SECOND // units
    return Packet(time, linktype, body[20 : 20 + length])


def datagram(packet, port=PORT):
    """The UDP datagram of a packet that goes to the port, or None. A fragment of IP is none."""
    ip = ip_packet(packet)
    if not ip:
        return None
    try:
        source, target, udp = ipv4_udp(ip) if ip[0] >> 4 == 4 else ipv6_udp(ip)
        target_port, length = struct.unpack(">2xHH", udp[:6])
    except (IndexError, ValueError, struct.error, TypeError):
        return None
    if target_port != port:
        return None
    source, target = ipaddress.ip_address(source), ipaddress.ip_address(target)
    return Datagram(packet.time, source, target, udp[8:length])


def ip_packet(packet):
    if packet.linktype in IP_OFFSETS:
        return packet.octets[IP_OFFSETS[packet.linktype] :]
    if packet.linktype not in ETHERTYPES:
        raise CaptureError(f"packets of link type {packet.linktype} aren't read here")
    at, header = ETHERTYPES[packet.linktype]
    kind = packet.octets[at : at + 2]
    while int.from_bytes(kind, "big") in VLANS:
        kind, header = packet.octets[header + 2 : header + 4], header + 4
    return packet.octets[header:] if int.from_bytes(kind, "big") in IP_ETHERTYPES else b""


def ipv4_udp(ip):
    """The two addresses, and the UDP header with what follows; None if there is none."""
    more_or_offset = struct.unpack(">H", ip[6:8])[0] & 0x3FFF
    if ip[9] != UDP or more_or_offset:
        return None
    return ip[12:16], ip[16:20], ip[(ip[0] & 15) * 4 :]


def ipv6_udp(ip):
    """The two addresses, and the UDP header with what follows; None if there is none."""
    kind, at = ip[6], 40
    while kind in EXTENSIONS:
        kind, at = ip[at], at + (ip[at + 1] + 1) * 8
    if kind == FRAGMENT and not struct.unpack(">H", ip[at + 2 : at + 4])[0] & 0xFFF9:
        kind, at = ip[at], at + 8
    return (ip[8:24], ip[24:40], ip[at:]) if kind == UDP else None


def checksum(octets):
    octets += b"\0" * (len(octets) % 2)
    total = sum(struct.unpack(f">{len(octets) // 2}H", octets))
    while total > 0xFFFF:
        total = (total & 0xFFFF) + (total >> 16)
    return ~total & 0xFFFF


def babel_packet(source, payload, target=None):
    """IP and UDP from and to Babel's port, with right checksums. Without target, to its group."""
    target = target or GROUPS[source.version]
    length = 8 + len(payload)
    if source.version == 4:
        pseudo = source.packed + target.packed + struct.pack(">BBH", 0, UDP, length)
        fields = struct.pack(">BBHHHBB", 0x45, 0xC0, 20 + length, 0, 0, 1, UDP)
        sum4 = checksum(fields + b"\0\0" + source.packed + target.packed)
        header = fields + struct.pack(">H", sum4) + source.packed + target.packed
    else:
        pseudo = source.packed + target.packed + struct.pack(">IHBB", length, 0, 0, UDP)
        header = struct.pack(">IHBB", 0x6C000000, length, UDP, 1) + source.packed + target.packed
    udp = struct.pack(">HHHH", PORT, PORT, length, 0)
    sum_udp = checksum(pseudo + udp + payload) or 0xFFFF
    return header + udp[:6] + struct.pack(">H", sum_udp) + payload


def record(time, packet):
    """A packet after the header that a capture gives it. The time is in nanoseconds."""
    seconds, rest = divmod(time, SECOND)
    return struct.pack("<IIII", seconds, rest // 1000, len(packet), len(packet)) + packet


def header(linktype=LINKTYPE_RAW):
    """What a capture begins with."""
    return struct.pack("<IHHiIII", 0xA1B2C3D4, 2, 4, 0, 0, MAX_PACKET, linktype)
