"""Three speakers in a line on loopback, with a link that can be cut, and one in the middle that is
killed.

The router 1 is the origin of 10.1.0.0/16, and the link between it and the router 2 goes over a
relay of this module. The relay drops all datagrams while the link is cut. A speaker knows the
relay's address as its neighbour's, so the relay writes the right one into IHUs (RFC 8966, section
4.6.6). The routers 2 and 3 are linked directly, and the router 2 is the one that is killed.

What each speaker prints of its routes is read as it comes. All pipes are read until none has more,
and then next hops are followed. A line is written before anything is sent that depends on it, so
what was read by then is a state that the routers were in together.
"""
import os
import random
import selectors
import signal
import socket
import subprocess
import threading
import time

# The addresses by which a router knows its neighbours, and their numbers.
NUMBERS = {"127.0.0.1": 1, "127.0.0.2": 2, "127.0.0.3": 3, "127.0.0.21": 1, "127.0.0.22": 2}
PEERS = {1: ["127.0.0.22"], 2: ["127.0.0.21", "127.0.0.3"], 3: ["127.0.0.2"]}
PREFIXES = [f"10.{number}.0.0/16" for number in (1, 2, 3)]
TURNS = "1000000"
IHU, IPV4 = 5, 1


def with_address(octets, old, new):
    """The datagram, with another address in its IHUs."""
    octets, at = bytearray(octets), 4
    while at < len(octets):
        if octets[at] == 0:
            at += 1
            continue
        kind, length = octets[at], octets[at + 1]
        if kind == IHU and octets[at + 2] == IPV4 and octets[at + 8 : at + 12] == old:
            octets[at + 8 : at + 12] = new
        at += 2 + length
    return bytes(octets)


class Link(threading.Thread):
    """The link between the routers 1 and 2. It ends when it is closed."""

    def __init__(self, port):
        super().__init__(daemon=True)
        self.port, self.is_cut, self.is_closed = port, False, False
        self.faces = {}
        for own, router, peer, peer_face in (
            ("127.0.0.22", "127.0.0.1", "127.0.0.2", "127.0.0.21"),
            ("127.0.0.21", "127.0.0.2", "127.0.0.1", "127.0.0.22"),
        ):
            face = socket.socket(socket.AF_INET, socket.SOCK_DGRAM)
            face.bind((own, port))
            face.settimeout(0.2)
            self.faces[own] = (face, own, router, peer, peer_face)

    def run(self):
        found = selectors.DefaultSelector()
        for face in self.faces.values():
            found.register(face[0], selectors.EVENT_READ, face)
        while not self.is_closed:
            for key, _ in found.select(0.2):
                self.pass_on(*key.data)

    def pass_on(self, face, own, router, peer, peer_face):
        """What came to this face from its router goes to the other router, from the other face."""
        octets, (source, _) = face.recvfrom(65535)
        if self.is_cut or source != router:
            return
        octets = with_address(octets, socket.inet_aton(own), socket.inet_aton(peer))
        try:
            self.faces[peer_face][0].sendto(octets, (peer, self.port))
        except OSError:
            # The peer was killed.
            pass

    def close(self):
        self.is_closed = True
        self.join()
        for face in self.faces.values():
            face[0].close()


class Router:
    """A speaker, and what it printed of its routes."""

    def __init__(self, folder, number, babel, port, keeps):
        self.folder, self.number = folder, number
        self.babel, self.port, self.keeps = babel, port, keeps
        self.path, self.kept, self.err = (
            os.path.join(folder, f"router{number}.{end}") for end in ("toml", "kept", "err")
        )
        with open(self.path, "w", encoding="utf-8") as sink:
            peers = ", ".join(f'"{peer}"' for peer in PEERS[number])
            sink.write(
                f'router-id = "000000000000000{number}"\nprefixes = ["10.{number}.0.0/16"]\n\n'
            )
            sink.write(
                f'[[interface]]\ntransport = "ipv4"\nipv4 = "127.0.0.{number}/8"\nhello = 20\npeers'
                f' = [{peers}]\n'
            )
        self.hops, self.process, self.rest = {}, None, b""

    def start(self):
        """Starts it, from its file if that is there. A new process has no routes."""
        words = [self.babel, "speak", self.path, "--turns", TURNS, "--port", str(self.port),
                 "--routes"]
        if self.keeps:
            words += ["--keep", self.kept] + ([] if os.path.exists(self.kept) else ["--new"])
        self.hops, self.rest = {}, b""
        with open(self.err, "ab") as err:
            self.process = subprocess.Popen(
                words, stdin=subprocess.DEVNULL, stdout=subprocess.PIPE, stderr=err
            )
        os.set_blocking(self.process.stdout.fileno(), False)

    def kill(self):
        """SIGKILL. What it printed after the last reading is of no use."""
        self.process.send_signal(signal.SIGKILL)
        self.process.wait()
        self.process.stdout.close()

    def read(self):
        """Reads what it printed. Returns whether there was more."""
        octets = self.process.stdout.read()
        if not octets:
            return False
        *lines, self.rest = (self.rest + octets).split(b"\n")
        for line in lines:
            self.take(line.decode().split())
        return True

    def take(self, words):
        """A line `<time> select <prefix> via <iface> <address> ..`, or `.. none`."""
        if words[1:2] == ["select"]:
            self.hops[words[2]] = None if words[3] == "none" else NUMBERS[words[5]]

    def snapshot_is_taken(self):
        """Whether `check` takes the file, which is there once the first turn has kept it."""
        if not os.path.exists(self.kept):
            return True
        ran = subprocess.run([self.babel, "check", self.path, "--restore", self.kept],
                             capture_output=True, text=True, timeout=60)
        return ran.returncode == 0 and ran.stdout.startswith("ok ") and ran.stderr == ""


def loop_in(routers, prefix):
    """Numbers of routers whose next hops for the prefix form a loop, or None."""
    for start in routers:
        seen, at = [], start
        while at is not None and at not in seen:
            seen.append(at)
            at = routers[at].hops.get(prefix)
        if at is not None:
            return seen[seen.index(at) :]
    return None


class Line:
    """The three routers. `keeps`: their snapshots are kept; else a router that is killed starts as
    a new one."""

    def __init__(self, folder, babel, port, keeps=True):
        self.link = Link(int(port))
        self.routers = {number: Router(folder, number, babel, port, keeps) for number in (1, 2, 3)}
        self.searches = self.routes = self.cuts = 0
        self.loops, self.bad_files, self.moments, self.loops_began = [], [], [], {}
        self.link.start()
        for router in self.routers.values():
            router.start()

    def watch(self, seconds):
        """Reads all lines for so long, and looks for loops whenever nothing more is there."""
        end = time.monotonic() + seconds
        while True:
            while any([router.read() for router in self.routers.values()]):
                pass
            self.search()
            if time.monotonic() >= end:
                return
            time.sleep(0.002)

    def search(self):
        """Looks for a loop for each prefix. One that lasts is noted once, with its time."""
        self.searches += 1
        for prefix in PREFIXES:
            loop = loop_in(self.routers, prefix)
            if loop and prefix not in self.loops_began:
                self.loops_began[prefix] = time.monotonic(), loop
            if not loop and prefix in self.loops_began:
                began, seen = self.loops_began.pop(prefix)
                self.loops.append((prefix, seen, time.monotonic() - began))
        self.routes += sum(
            self.routers[number].hops.get(PREFIXES[0]) is not None for number in (2, 3)
        )

    def has_all(self):
        """Whether each router has each other's prefix, along the line."""
        wanted = {1: {2: 2, 3: 2}, 2: {1: 1, 3: 3}, 3: {1: 2, 2: 2}}
        return all(
            self.routers[at].hops.get(f"10.{to}.0.0/16") == hop
            for at, hops in wanted.items()
            for to, hop in hops.items()
        )

    def until_all(self, seconds):
        """How long it takes until each router has each prefix, or None."""
        began = time.monotonic()
        while time.monotonic() < began + seconds:
            self.watch(0.05)
            if self.has_all():
                return time.monotonic() - began
        return None

    def kill_middle(self):
        """Kills the router 2 and starts it again at once. In between its file is tested."""
        middle = self.routers[2]
        middle.kill()
        if not middle.snapshot_is_taken():
            self.bad_files.append(middle.kept)
        middle.start()

    def kill_often(self, chance, kills):
        """So many kills, at random moments: half of them in the first tenth of a second after the
        start, the others within two seconds."""
        for _ in range(kills):
            self.link.is_cut = chance.random() < 0.6
            self.cuts += self.link.is_cut
            self.watch(chance.random() * (0.1 if chance.random() < 0.5 else 2.0))
            self.kill_middle()

    def close(self):
        """Ends all. Returns what they wrote to standard error."""
        for router in self.routers.values():
            router.kill()
        self.link.close()
        for prefix, (began, seen) in self.loops_began.items():
            self.loops.append((prefix, seen, time.monotonic() - began))
        return "".join(
            open(router.err, encoding="utf-8").read() for router in self.routers.values()
        )
