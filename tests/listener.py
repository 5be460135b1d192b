"""The Hellos and datagrams that come over a link, with the kernel's times of arrival, and how long
this machine stalls meanwhile.

A peer that counts a Hello as missed doesn't tell whether it wasn't sent, or came late since the
machine was busy. On the wire both can be seen: a Hello that wasn't sent is a seqno that is missing,
and a late one has its time.
"""
import contextlib
import os
import socket
import struct
import subprocess
import sys
import threading
import time

PORT = 6696
IPV6, UDP = 0x86DD, 17
# The kernel's time of arrival (SO_TIMESTAMPNS): the option, and the kind of its control message.
TIMESTAMPS = 35
HELLO = 4
UPDATE = 8
PERIOD = 0.02


class Listener(threading.Thread):
    """Takes each datagram that comes to a node's interface from an address."""

    def __init__(self, lab, node, iface, address):
        super().__init__(daemon=True)
        self.address = socket.inet_pton(socket.AF_INET6, address)
        # Of each Hello: the time in seconds, the seqno, and the interval in seconds.
        self.hellos = []
        # Of each datagram: the time in seconds, and how many Updates it has.
        self.datagrams = []
        self.ended = threading.Event()
        with lab.inside(node):
            self.socket = socket.socket(socket.AF_PACKET, socket.SOCK_DGRAM, socket.htons(IPV6))
            self.socket.bind((iface, IPV6))
        self.socket.setsockopt(socket.SOL_SOCKET, TIMESTAMPS, 1)
        self.socket.setsockopt(socket.SOL_SOCKET, socket.SO_RCVBUF, 1 << 20)
        self.socket.settimeout(0.2)

    def run(self):
        while not self.ended.is_set():
            with contextlib.suppress(TimeoutError):
                octets, controls, _, _ = self.socket.recvmsg(1 << 16, 256)
                times = [struct.unpack("=qq", data) for level, kind,
                         data in controls if (level, kind) == (socket.SOL_SOCKET, TIMESTAMPS)]
                if times and octets[8:24] == self.address and is_babel(octets):
                    came = times[0][0] + times[0][1] / 1e9
                    self.hellos += [(came, *hello) for hello in hellos_in(octets)]
                    updates = sum(kind == UPDATE for kind, _ in tlvs_in(octets))
                    self.datagrams.append((came, updates))
        self.socket.close()

    def end(self):
        self.ended.set()
        self.join()

    def missing(self):
        """How many seqnos were left out, or came twice or back."""
        seqnos = [seqno for _, seqno, _ in self.hellos]
        return sum(1 for one, other in zip(seqnos, seqnos[1:]) if (other - one) % 65536 != 1)

    def latest(self):
        """By how much the latest Hello came after the interval that the one before it announced, in
        seconds."""
        return max(
            (other[0] - one[0] - one[2] for one, other in zip(self.hellos, self.hellos[1:])),
            default=0,
        )


def is_babel(octets):
    """Whether an IPv6 packet has a Babel datagram."""
    return (
        len(octets) >= 52
        and octets[6] == UDP
        and struct.unpack_from(">H", octets, 42)[0] == PORT
        and octets[48:50] == b"\x2a\x02"
    )


def tlvs_in(octets):
    """The type and the body of each TLV of an IPv6 packet with a Babel datagram. Pad1 has none."""
    at, end = 52, 52 + struct.unpack_from(">H", octets, 50)[0]
    while at + 2 <= min(end, len(octets)):
        kind, length = octets[at], octets[at + 1] if octets[at] else -1
        yield kind, octets[at + 2:at + 2 + max(length, 0)]
        at += 2 + length


def hellos_in(octets):
    """The seqno and the interval of each Hello of such a packet."""
    for kind, body in tlvs_in(octets):
        if kind == HELLO and len(body) >= 6:
            _, seqno, interval = struct.unpack_from(">HHH", body)
            yield seqno, interval / 100


class Stalls:
    """A process that wakes on each processor every 20 ms. It shows how late the machine wakes one.

    Each processor counts: a virtual one may pause while the others run, and with it the process
    that is to send a Hello.
    """

    def __init__(self):
        self.process = subprocess.Popen([sys.executable, os.path.abspath(__file__)],
                                        stdin=subprocess.PIPE, stdout=subprocess.PIPE, text=True)

    def end(self):
        """By how much it was woken too late, at most, in seconds."""
        return float(self.process.communicate()[0])


class Watch(threading.Thread):
    """Wakes on one processor until it is ended, and keeps by how much that was too late at most."""

    def __init__(self, processor, ended):
        super().__init__(daemon=True)
        self.processor, self.ended, self.latest = processor, ended, 0.0

    def run(self):
        # (0 is the thread that calls)
        os.sched_setaffinity(0, {self.processor})
        last = time.monotonic()
        while not self.ended.is_set():
            time.sleep(PERIOD)
            now = time.monotonic()
            self.latest, last = max(self.latest, now - last - PERIOD), now


def watch():
    """Wakes on each processor until the input ends. Prints by how much it was too late at most."""
    ended = threading.Event()
    watches = [Watch(processor, ended) for processor in os.sched_getaffinity(0)]
    for it in watches:
        it.start()
    sys.stdin.read()
    ended.set()
    for it in watches:
        it.join()
    print(max(it.latest for it in watches))


if __name__ == "__main__":
    watch()
