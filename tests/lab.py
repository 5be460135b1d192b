"""A laboratory of real Babel daemons in network namespaces.  Root is needed; see README.

    lab = Lab()                # a directory and a prefix of namespace names of its own
    lab.node(1); lab.node(2)   # namespaces; lab.lan([1, 2, 3]) is a bridge in one of its own
    lab.link(1, 2)             # veth
    lab.start_babeld(1); lab.start_bird(2)   # each announces 10.N.0.0/24 and 2001:db8:N::/64
    lab.wait_converged(); print(format_routes(lab.routes(1)))
    lab.cut(1, 2); lab.heal(1, 2); lab.kill(1); lab.stop(2); lab.close()

`start_custom(n, argv, routes=..)` starts any other speaker as one more router. Daemons are started,
watched and ended by their own process id only; sockets are made inside the namespaces by setns.
"""
import collections, contextlib, ctypes, ipaddress, json, os, re, select, shutil, signal, socket
import struct, subprocess as sp, sys, threading, time

PORT, GROUP = 6696, "ff02::1:6"
FRR = "/usr/lib/frr"
TICK = os.sysconf("SC_CLK_TCK")
_libc = ctypes.CDLL(None, use_errno=True)

# One route of one daemon, in the form that all of them share.  neighbour is None for what the
# router announces itself; router_id is 16 hex digits.  A value that a daemon does not report is
# None (babeld's socket: no seqno; BIRD: no refmetric, router-id of the selected route only).
Route = collections.namedtuple(
    "Route", "prefix neighbour iface router_id seqno metric refmetric installed feasible"
)


def run(*argv, check=True, text=None):
    """Runs a short command and returns its standard output."""
    r = sp.run([str(a) for a in argv], capture_output=True, text=True, input=text)
    if check and r.returncode:
        raise RuntimeError(f"{' '.join(map(str, argv))}: {r.stderr.strip() or r.stdout.strip()}")
    return r.stdout


class Lab:
    def __init__(self, name="lb", root=None):
        """`name` begins the names of the namespaces (two labs at once need two names); `root` takes
        configurations, sockets, logs."""
        self.name, self.root = name, root or os.path.join(
            __import__("tempfile").gettempdir(), "babel-lab", name
        )
        shutil.rmtree(self.root, ignore_errors=True)
        os.makedirs(self.root)
        os.chmod(self.root, 0o777)
        self.nodes, self.links, self.lans = {}, {}, []
        self.procs, self.kind, self.custom = {}, {}, {}
        self.owner = {}                      # address -> node
        self._here = os.open("/proc/self/ns/net", os.O_RDONLY)
        if threading.current_thread() is threading.main_thread():
            # so that `finally: lab.close()` is run
            signal.signal(signal.SIGTERM, lambda *_: sys.exit(143))
        self._remove_old()

    # ---- namespaces and links --------------------------------------------------------------------
    def ns(self, n):
        return f"{self.name}{n}"

    def _remove_old(self):
        for line in run("ip", "netns", "list").splitlines():
            old = line.split()[0]
            if re.fullmatch(re.escape(self.name) + r"(\d+|s\d+)", old):
                run("ip", "netns", "del", old, check=False)

    @contextlib.contextmanager
    def inside(self, n):
        """This thread is in the namespace of n within the block; sockets made there stay there."""
        fd = os.open(f"/run/netns/{self.ns(n)}", os.O_RDONLY)
        try:
            if _libc.setns(fd, 0x40000000):
                raise OSError(ctypes.get_errno(), "setns")
            yield
        finally:
            _libc.setns(self._here, 0x40000000)
            os.close(fd)

    def ip(self, n, *argv, check=True):
        return run("ip", "-n", self.ns(n), *argv, check=check)

    def sh(self, n, command, check=True):
        """A shell command inside the namespace of n."""
        return run("ip", "netns", "exec", self.ns(n), "sh", "-c", command, check=check)

    def _make(self, n):
        run("ip", "netns", "add", self.ns(n))
        self.ip(n, "link", "set", "lo", "up")
        self.sh(n, "sysctl -qw net.ipv6.conf.all.forwarding=1 net.ipv4.ip_forward=1 "
                   "net.ipv6.conf.all.accept_dad=0 "
                   "net.ipv6.conf.default.accept_dad=0 "
                   "net.ipv6.conf.default.router_solicitations=0 "
                   "net.ipv6.conf.all.keep_addr_on_down=1 "
                   "net.ipv6.conf.default.keep_addr_on_down=1 net.ipv4.conf.all.rp_filter=0 "
                   "net.ipv4.conf.default.rp_filter=0")

    def node(self, n, prefixes=None):
        """Namespace of router n (1 to 200), which announces `prefixes` (by default one of IPv4 and
        one of IPv6)."""
        self._make(n)
        self.nodes[n] = {"prefixes": prefixes if prefixes is not None
                         else [f"10.{n}.0.0/24", f"2001:db8:{n:x}::/64"], "ifaces": {}}

    def _iface(self, n, iface, net, v4):
        ll = f"fe80::{net:x}:{n:x}"
        self.ip(n, "link", "set", iface, "addrgenmode", "none")
        self.ip(n, "link", "set", iface, "address", f"02:00:00:00:{net:02x}:{n:02x}")
        # The link-local address comes last: a router may use the interface from then on, and a
        # later IPv4 address would be a change.
        a4 = f"192.168.{net}.{n}" if v4 else None
        if v4:
            self.ip(n, "addr", "add", f"{a4}/24", "dev", iface)
        self.ip(n, "link", "set", iface, "up")
        self.ip(n, "addr", "add", f"{ll}/64", "dev", iface, "nodad")
        self.nodes[n]["ifaces"][iface] = {"ll": ll, "v4": a4, "net": net}
        self.owner[ll] = n
        if a4:
            self.owner[a4] = n

    def link(self, a, b, v4=True):
        """A veth pair between routers a and b; interfaces v<a>-<b> and v<b>-<a>,
        fe80::<net>:<n>/64, 192.168.<net>.<n>/24."""
        x, y, net = f"v{a}-{b}", f"v{b}-{a}", len(self.links) + len(self.lans) + 1
        run("ip", "link", "add", x, "netns", self.ns(a), "type", "veth", "peer", "name", y, "netns",
            self.ns(b))
        self.links[(a, b)] = self.links[(b, a)] = net
        self._iface(a, x, net, v4)
        self._iface(b, y, net, v4)

    def lan(self, members, v4=True):
        """One bridge, in a namespace of its own, that joins all members by an interface
        lan<net>."""
        net = len(self.links) + len(self.lans) + 1
        s = f"s{net}"
        self.lans.append((s, net, list(members)))
        self._make(s)
        self.ip(s, "link", "add", "br0", "type", "bridge", "mcast_snooping", "0")
        self.ip(s, "link", "set", "br0", "up")
        for n in members:
            run("ip", "link", "add", f"lan{net}", "netns", self.ns(n), "type", "veth", "peer",
                "name", f"p{n}", "netns", self.ns(s))
            self.ip(s, "link", "set", f"p{n}", "master", "br0", "up")
            self._iface(n, f"lan{net}", net, v4)
        return net

    def cut(self, a, b, silent=False):
        """Cuts the link: interface of a down (b loses its carrier), or silently, by dropping all
        that comes to either end."""
        if silent:
            for n, i in ((a, f"v{a}-{b}"), (b, f"v{b}-{a}")):
                self.sh(
                    n,
                    (
                        f'nft "add table netdev cut; add chain netdev cut {i.replace("-", "_")} '
                        f'{{ type filter hook ingress device \\"{i}\\" priority 0; policy drop; }}"'
                    ),
                )
        else:
            self.ip(a, "link", "set", f"v{a}-{b}", "down")

    def heal(self, a, b):
        for n, i in ((a, f"v{a}-{b}"), (b, f"v{b}-{a}")):
            self.sh(n, f"nft delete chain netdev cut {i.replace('-', '_')}", check=False)
            self.ip(n, "link", "set", i, "up")
            # the kernel dropped it when it went down
            ll = self.nodes[n]["ifaces"][i]["ll"]
            self.ip(n, "addr", "replace", f"{ll}/64", "dev", i, "nodad")

    def unplug(self, net, n, up=False):
        """Takes the bridge port of n on the LAN `net` down (the router's own interface loses its
        carrier), or up."""
        self.ip(f"s{net}", "link", "set", f"p{n}", "up" if up else "down")

    # ---- processes -------------------------------------------------------------------------------
    def path(self, *parts):
        return os.path.join(self.root, ".".join(str(p) for p in parts))

    def spawn(self, n, key, argv):
        """Starts argv in the namespace of n.  `ip netns exec` replaces itself, so that the process
        id is the program's own."""
        out = open(self.path(key, "out"), "ab")
        p = sp.Popen(["ip", "netns", "exec", self.ns(n)] + [str(a) for a in argv], stdout=out,
                     stderr=out, stdin=sp.DEVNULL,
                     start_new_session=True)
        self.procs[key] = p
        with open(self.path("pids"), "a") as f:
            f.write(f"{p.pid} {self.ns(n)} {key} {' '.join(map(str, argv))}\n")
        return p

    def pid(self, n):
        return self.procs[f"d{n}"].pid

    def kill(self, n, sig=signal.SIGKILL, key=None):
        """Ends the daemon of n by its process id (SIGKILL by default) and waits for it."""
        p = self.procs.pop(key or f"d{n}", None)
        if p is None:
            return
        if p.poll() is None:
            os.killpg(p.pid, sig)             # a pipeline too
        try:
            p.wait(8)
        except sp.TimeoutExpired:
            p.kill()
            p.wait()

    def stop(self, n):
        """Ends the daemon of n politely (SIGTERM), zebra too."""
        self.kill(n, signal.SIGTERM)
        self.kill(n, signal.SIGTERM, key=f"z{n}")

    def close(self):
        """Ends all that was started here, by process id, and removes the namespaces."""
        for key in sorted(self.procs, key=lambda k: k[0] == "t"):
            self.kill(None, signal.SIGTERM, key=key)
        for n in list(self.nodes) + [s for s, _, _ in self.lans]:
            run("ip", "netns", "del", self.ns(n), check=False)
        self.nodes, self.lans = {}, []

    def cpu(self, n, key=None):
        """Processor time of the daemon of n so far: (user, system) in seconds."""
        f = open(f"/proc/{self.procs[key or f'd{n}'].pid}/stat").read().rsplit(")", 1)[1].split()
        return int(f[11]) / TICK, int(f[12]) / TICK

    def capture(self, n, key="cap", flt=f"udp port {PORT}"):
        """tcpdump of all interfaces of n into <root>/t<n><key>.pcap; ended by close() or kill(None,
        SIGINT, key=..)."""
        f = self.path(f"t{n}{key}", "pcap")
        self.spawn(
            n,
            f"t{n}{key}",
            ["tcpdump", "-i", "any", "-U", "--immediate-mode", "-Z", "root", "-w", f] + flt.split(),
        )
        time.sleep(0.7)
        return f

    def _originate(self, n, proto="static"):
        for p in self.nodes[n]["prefixes"]:
            self.ip(
                n, *(["-6"] if ":" in p else []), "route", "replace", p, "dev", "lo", "proto", proto
            )

    def start_babeld(self, n, hello=1, update=4, iface_options="", head="", extra="", install=True,
                     debug=0, fresh=True, ifaces=None):
        """babeld with its socket at <root>/r<n>.sock; `head` comes before its redistribute lines,
        `extra` after them.  fresh=False keeps the state file of the run before (pid and socket
        files always go)."""
        for s in ("pid", "sock") + (("state",) if fresh else ()):
            with contextlib.suppress(FileNotFoundError):
                os.remove(self.path(f"r{n}", s))
        self._originate(n)
        c = (
            head
            + f"router-id 02:00:00:ff:fe:00:00:{n:02x}\nskip-kernel-setup true\nipv6-subtrees"
            f" true\nlocal-path-readwrite {self.path(f'r{n}', 'sock')}\n"
        )
        c += (
            "".join(f"redistribute ip {p} allow\n" for p in self.nodes[n]["prefixes"])
            + "redistribute local deny\nredistribute deny\n"
        )
        c += ("" if install else "install deny\n") + extra + "\n"
        for i in ifaces or self.nodes[n]["ifaces"]:
            o = iface_options.get(i, "") if isinstance(iface_options, dict) else iface_options
            c += f"interface {i} type wired hello-interval {hello} update-interval {update} {o}\n"
        open(self.path(f"r{n}", "conf"), "w").write(c)
        self.kind[n] = "babeld"
        return self.spawn(n, f"d{n}",
                          ["babeld", "-d", debug, "-I", self.path(f"r{n}", "pid"), "-S",
                           self.path(f"r{n}", "state"),
                                       "-c", self.path(f"r{n}", "conf")])

    def start_bird(self, n, hello=1, update=4, iface_options="", extra="", install=True,
                   debug=False, ifaces=None):
        st = {4: "", 6: ""}
        for p in self.nodes[n]["prefixes"]:
            st[6 if ":" in p else 4] += f"  route {p} blackhole;\n"
        ex = "all" if install else "none"
        c = (
            f'router id 10.0.0.{n};\nlog "{self.path(f"r{n}", "log")}" all;\nprotocol device {{'
            ' scan time 2; }\n'
        )
        for f in (4, 6):
            c += (
                f"protocol static s{f} {{ ipv{f};\n{st[f]}}}\nprotocol kernel k{f} {{ ipv{f} {{"
                f" import none; export {ex}; }}; }}\n"
            )
        c += "protocol babel b1 {\n" + ("  debug all;\n" if debug else "")
        c += "  ipv4 { import all; export all; };\n  ipv6 { import all; export all; };\n"
        for i in ifaces or self.nodes[n]["ifaces"]:
            o = iface_options.get(i, "") if isinstance(iface_options, dict) else iface_options
            c += (
                f'  interface "{i}" {{ type wired; hello interval {hello} s; update interval'
                f' {update} s; {o} }};\n'
            )
        open(self.path(f"r{n}", "conf"), "w").write(c + "}\n" + extra)
        self.kind[n] = "bird"
        return self.spawn(
            n,
            f"d{n}",
            ["bird", "-f", "-c", self.path(f"r{n}", "conf"), "-s", self.path(f"r{n}", "ctl")],
        )

    def start_frr(self, n, hello=1, update=4, extra="", ifaces=None, zebra=True):
        """FRR's zebra (if it does not run yet) and babeld.  FRR 8.4.4 leaves its interfaces unused
        at start (it joins the group twice): `no network` and `network` by vtysh set it right."""
        d, ifs = self.path(f"frr{n}"), list(ifaces or self.nodes[n]["ifaces"])
        os.makedirs(d, exist_ok=True)
        shutil.chown(d, "frr", "frrvty")
        os.chmod(d, 0o775)
        self._originate(n)
        if zebra and f"z{n}" not in self.procs:
            open(self.path(f"z{n}", "conf"), "w").write("hostname zebra\n")
            self.spawn(n, f"z{n}",
                       [f"{FRR}/zebra", "-f", self.path(f"z{n}", "conf"), "-i", f"{d}/zebra.pid",
                        "-z", f"{d}/zserv.api",
                                    "--vty_socket", d, "-P", "0", "-u", "frr", "-g", "frr"])
            self._until(lambda: os.path.exists(f"{d}/zserv.api"), 10)
            time.sleep(0.3)
        c = (
            "hostname babel\nrouter babel\n"
            + "".join(f" network {i}\n" for i in ifs)
            + " redistribute ipv4 kernel\n redistribute ipv6 kernel\n!\n"
        )
        c += "".join(f"interface {i}\n babel wired\n babel hello-interval {hello * 1000}\n babel "
                     f"update-interval {update * 1000}\n{extra}!\n" for i in ifs)
        open(self.path(f"r{n}", "conf"), "w").write(c)
        self.kind[n] = "frr"
        p = self.spawn(n, f"d{n}",
                       [f"{FRR}/babeld", "-f", self.path(f"r{n}", "conf"), "-i", f"{d}/babeld.pid",
                        "-z", f"{d}/zserv.api",
                                    "--vty_socket", d, "-P", "0", "-u", "frr", "-g", "frr"])
        self._until(lambda: os.path.exists(f"{d}/babeld.vty"), 10)
        time.sleep(0.5)
        self.vtysh(n, "conf t", "router babel",
                   *[w for i in ifs for w in (f"no network {i}", f"network {i}")])
        return p

    def start_custom(self, n, argv, routes=None, kind="custom"):
        """The hook for OUR speaker: starts argv in the namespace of n, its output in
        <root>/d<n>.out.  `routes()` answers a list of Route for routes(n) and wait_converged
        (without it n counts as converged).  about(n) has its interfaces, addresses and
        neighbours."""
        self.kind[n] = kind
        self.custom[n] = routes
        return self.spawn(n, f"d{n}", argv)

    def about(self, n):
        """Interfaces of n: {name: {ll, v4, net, index, peers: [(node, ll, v4)]}}, what a
        configuration with a list of peers needs."""
        out = {}
        for i, d in self.nodes[n]["ifaces"].items():
            peers = [(m, e["ll"], e["v4"]) for m in self.nodes
                     for e in self.nodes[m]["ifaces"].values() if m != n and e["net"] == d["net"]]
            with self.inside(n):
                out[i] = dict(d, index=socket.if_nametoindex(i), peers=peers)
        return out

    # ---- what the daemons say --------------------------------------------------------------------
    def babeld_replies(self, n, *requests, timeout=3):
        """babeld's local socket: the reply to each request, such as `dump`."""
        s = socket.socket(socket.AF_UNIX)
        s.settimeout(timeout)
        done = re.compile(rb"(^|\n)(ok|no|bad)[^\n]*\n$")

        def reply():
            b = b""
            while not done.search(b):
                d = s.recv(65536)
                if not d:
                    break
                b += d
            return b.decode()
        try:
            s.connect(self.path(f"r{n}", "sock"))
            reply()
            out = []
            for r in requests:
                s.sendall((r + "\n").encode())
                out.append(reply())
            return "".join(out)
        finally:
            s.close()

    def birdc(self, n, command, check=True):
        return run("birdc", "-s", self.path(f"r{n}", "ctl"), *command.split(), check=check)

    def vtysh(self, n, *commands, daemon="babeld", check=True):
        return run("vtysh", "--vty_socket", self.path(f"frr{n}"), "-d", daemon,
                   *[a for c in commands for a in ("-c", c)], check=check)

    def babeld_tables(self, n):
        """What babeld prints after SIGUSR1 (it has the seqnos, which its socket has not)."""
        f = self.path(f"d{n}", "out")
        at = os.path.getsize(f)
        os.kill(self.pid(n), signal.SIGUSR1)
        time.sleep(0.15)
        with open(f, errors="replace") as h:
            h.seek(at)
            return h.read()

    def routes(self, n, seqnos=False):
        """Route table of the daemon of n as a list of Route; seqnos=True asks babeld a second time,
        by SIGUSR1, for them."""
        k = self.kind[n]
        if k == "babeld":
            r = parse_babeld(self.babeld_replies(n, "dump"))
            if seqnos:
                t = parse_dump(self.babeld_tables(n))
                seq = {(x.prefix, x.neighbour, x.iface): x.seqno for x in t}
                r = [x._replace(seqno=seq.get((x.prefix, x.neighbour, x.iface))) for x in r]
            return r
        if k == "bird":
            return parse_bird(self.birdc(n, "show babel routes"),
                              self.birdc(n, "show babel entries"), f"{'0' * 8}0a0000{n:02x}")
        if k == "frr":
            return parse_dump(self.vtysh(n, "show babel route"))
        return self.custom[n]() if self.custom.get(n) else []

    def neighbours(self, n):
        """Addresses of the neighbours that the daemon of n lists, with its line about each."""
        k = self.kind[n]
        if k == "babeld":
            return {m[1]: m[0]
                    for m in re.finditer(r"add neighbour \S+ address (\S+).*",
                                         self.babeld_replies(n, "dump"))}
        if k == "bird":
            return {
                m[1]: m[0]
                for m in re.finditer(r"(?m)^(fe80\S+) .*$", self.birdc(n, "show babel neighbors"))
            }
        if k == "frr":
            return {m[1]: m[0]
                    for m in re.finditer(r"(?m)^Neighbour (\S+).*$",
                                         self.vtysh(n, "show babel neighbor"))}
        return {}

    # ---- waiting ---------------------------------------------------------------------------------
    def _until(self, test, timeout, every=0.1):
        t0 = time.time()
        while time.time() - t0 < timeout:
            if test():
                return time.time() - t0
            time.sleep(every)
        return None

    def missing(self, nodes=None, prefixes=None):
        """(node, prefix) for each prefix of another running router that the daemon of node has not
        installed."""
        out = []
        live = [n for n in self.kind if f"d{n}" in self.procs]
        for n in nodes or live:
            if self.kind[n] == "custom" and not self.custom.get(n):
                continue
            try:
                have = {r.prefix for r in self.routes(n) if r.neighbour is None
                        or (r.installed and r.metric < 65535)}
            except (OSError, RuntimeError):
                have = set()
            want = prefixes or [p for m in live if m != n for p in self.nodes[m]["prefixes"]]
            out += [(n, p) for p in want if p not in have]
        return out

    def wait_converged(self, timeout=60, nodes=None, prefixes=None):
        """Waits until each running daemon has installed each other's prefixes; the seconds it took,
        or None."""
        return self._until(lambda: not self.missing(nodes, prefixes), timeout, 0.25)



# ---- readers of the daemons' tables --------------------------------------------------------------
def canonical(p):
    return str(ipaddress.ip_network(p.strip(), strict=False))


def rid16(text):
    """A router-id as 16 hex digits, from 02:00:..., 0200:00ff:..., or digits."""
    return re.sub(r"[^0-9a-f]", "", text.lower()).rjust(16, "0")


def parse_babeld(text):
    """Lines of babeld's local socket."""
    out = []
    for line in text.splitlines():
        w = line.split()
        if len(w) > 3 and w[0] == "add" and w[1] in ("route", "xroute"):
            d = dict(zip(w[3::2], w[4::2]))
            p_text = canonical(d["prefix"])
            if d.get("from", "::/0") not in ("::/0", "0.0.0.0/0"):
                p_text += " from " + d["from"]
            if w[1] == "xroute":
                out.append(Route(p_text, None, None, None, None, int(d["metric"]), 0, False, None))
            else:
                out.append(Route(p_text, d["via"], d["if"], rid16(d["id"]), None, int(d["metric"]),
                                 int(d["refmetric"]), d["installed"] == "yes", None))
    return out


def parse_dump(text):
    """babeld's and FRR's table in words (SIGUSR1, vtysh): `P metric M (..) refmetric R id I seqno S
    .. via IF neigh A (installed)`."""
    out = []
    for line in text.splitlines():
        m = re.match(r"\s*(\S+/\d+)(?: from (\S+/\d+))? metric (\d+)(?: \(\d+\))? refmetric (\d+) "
                     r"id ([0-9a-f:]+) seqno (\d+).* via (\S+) neigh (\S+)(.*)", line)
        if m:
            src = f" from {m[2]}" if m[2] and m[2] not in ("::/0", "0.0.0.0/0") else ""
            out.append(Route(canonical(m[1]) + src, m[8], m[7], rid16(m[5]), int(m[6]), int(m[3]),
                             int(m[4]), "(installed)" in m[9],
                             None if "(installed)" in m[9] else "(feasible)" in m[9]))
            continue
        m = re.match(r"\s*(\S+/\d+)(?: from \S+)? metric (\d+) \(exported\)", line)
        if m:
            out.append(Route(canonical(m[1]), None, None, None, None, int(m[2]), 0, False, None))
    return out


def parse_bird(routes, entries, own):
    """`show babel routes` (Prefix Nexthop Interface Metric F Seqno Expires) with the router-ids of
    `show babel entries`."""
    ent = {}
    for line in entries.splitlines():
        w = line.split()
        if len(w) >= 4 and "/" in w[0]:
            k = canonical(w[0])
            ent[k] = (rid16(w[1]), w[2], w[3])
    out = []
    for line in routes.splitlines():
        w = line.split()
        if len(w) >= 6 and "/" in w[0]:
            p = canonical(w[0])
            flags = w[4] if not w[4].isdigit() else ""
            rest = w[5:] if flags else w[4:]
            sel = "*" in flags
            out.append(Route(p, w[1], w[2], ent[p][0] if sel and p in ent else None, int(rest[0]),
                             int(w[3]), None, sel, sel or "+" in flags))
    have = {r.prefix for r in out if r.installed}
    for p, (i, m, s) in ent.items():
        if p not in have and i == own and s.isdigit():
            out.append(Route(p, None, None, i, int(s), int(m), 0, False, None))
    return out


def format_routes(routes):
    o = lambda v: "-" if v is None else v
    return "\n".join(
        f"{r.prefix:24} {o(r.neighbour):16} {o(r.iface):8} {o(r.router_id):16} seqno"
        f" {o(r.seqno):>5} metric {o(r.metric):>5} refmetric"
        f" {o(r.refmetric):>5} {'installed' if r.installed else '-'}"
        for r in sorted(routes, key=lambda r: (r.prefix, not r.installed, str(r.neighbour)))
    )


# ---- the kernels' next hops ----------------------------------------------------------------------
class Forwarding:
    """Reads the forwarding tables of all routers by netlink.  watch(seconds) samples them at each
    change and at least every `every` seconds, and keeps what changed; loops are looked for in each
    sample."""
    def __init__(self, lab, nodes=None):
        self.lab, self.nodes = lab, nodes or list(lab.nodes)
        self.ask, self.hear = {}, {}
        for n in self.nodes:
            with lab.inside(n):
                self.ask[n] = socket.socket(socket.AF_NETLINK, socket.SOCK_RAW, 0)
                self.hear[n] = socket.socket(socket.AF_NETLINK, socket.SOCK_RAW, 0)
            self.ask[n].setsockopt(socket.SOL_SOCKET, socket.SO_RCVBUF, 1 << 20)
            self.hear[n].setsockopt(socket.SOL_SOCKET, socket.SO_RCVBUF, 1 << 22)
            self.hear[n].bind((0, 0x40 | 0x400))          # groups of IPv4 and IPv6 routes
            self.hear[n].setblocking(False)
        self.history, self.loops, self._stop = [], [], threading.Event()

    def table(self, n):
        """{prefix: next node, "own", "?", or None (blackhole, unreachable)}: the route of least
        kernel metric for each prefix."""
        best = {}
        for fam in (socket.AF_INET, socket.AF_INET6):
            s = self.ask[n]
            s.send(struct.pack("=IHHIIBBBBBBBBI", 28, 26, 0x301, 1, 0, fam, 0, 0, 0, 0, 0, 0, 0, 0))
            more = True
            while more:
                b = s.recv(1 << 20)
                o = 0
                while o + 16 <= len(b):
                    ln, ty = struct.unpack_from("=IH", b, o)
                    if ty == 3 or ty == 2:
                        more = False
                        break
                    if ty == 24:
                        self._one(n, fam, b[o + 16:o + ln], best)
                    o += (ln + 3) & ~3
        return {p: v for p, (m, v) in best.items()}

    def _one(self, n, fam, b, best):
        _, dl, sl, _, table, proto, scope, typ, _ = struct.unpack_from("=BBBBBBBBI", b)
        at, dst, gw, oif, prio = 12, b"", None, None, 0
        while at + 4 <= len(b):
            l, t = struct.unpack_from("=HH", b, at)
            if l < 4:
                break
            v = b[at + 4:at + l]
            if t == 1: dst = v
            elif t == 5: gw = socket.inet_ntop(fam, v)
            elif t == 18: gw = socket.inet_ntop(socket.AF_INET6, v[2:])
            elif t == 4: oif = v
            elif t == 6: prio = struct.unpack("=I", v)[0]
            elif t == 15: table = struct.unpack("=I", v)[0]
            at += (l + 3) & ~3
        if table != 254 or sl or proto == 2 or typ not in (1, 6, 7, 8):
            return
        size = 4 if fam == socket.AF_INET else 16
        p = str((ipaddress.IPv4Network if size == 4
                 else ipaddress.IPv6Network)((int.from_bytes(dst.ljust(size, b"\0"), "big"), dl)))
        if p.startswith(("fe80", "ff00", "192.168.")):
            return
        v = (
            self.lab.owner.get(gw, "?")
            if gw
            else ("own" if typ == 1 or p in self.lab.nodes[n]["prefixes"] else None)
        )
        if p not in best or prio < best[p][0]:
            best[p] = (prio, v)

    def sample(self):
        return {n: self.table(n) for n in self.nodes}

    def cycle(self, tables, p):
        """The nodes of a forwarding cycle for p, or None."""
        for start in self.nodes:
            seen, at = [], start
            while at in tables and at not in seen:
                seen.append(at)
                at = tables[at].get(p)
            if at in seen:
                return seen[seen.index(at):]
        return None

    def begin(self, every=0.05):
        self.history, self.loops, self.samples = [], [], 0
        self._stop.clear()
        self._thread = threading.Thread(target=self._watch, args=(every,), daemon=True)
        self._thread.start()

    def end(self):
        self._stop.set()
        self._thread.join()
        return self.history

    def _watch(self, every):
        last = self.sample()
        while not self._stop.is_set():
            now = self.sample()
            t = time.time()
            self.samples += 1
            for n in self.nodes:
                for p in set(now[n]) | set(last[n]):
                    a, b = last[n].get(p, "-"), now[n].get(p, "-")
                    if a != b:
                        self.history.append((t, n, p, a, b))
            for p in {p for n in self.nodes for p in now[n]}:
                c = self.cycle(now, p)
                if c:
                    self.loops.append((t, p, c))
            last = now
            r, _, _ = select.select(list(self.hear.values()), [], [], every)
            for s in r:
                with contextlib.suppress(BlockingIOError, OSError):
                    while True:
                        s.recv(1 << 20)


def clean(name, root=None):
    """Ends what a lab left that was killed itself: the processes in its namespaces that its file
    `pids` names, then the namespaces."""
    for line in open(
        os.path.join(
            root or os.path.join(__import__("tempfile").gettempdir(), "babel-lab", name), "pids"
        )
    ):
        pid, ns, *_ = line.split()
        if pid in run("ip", "netns", "pids", ns, check=False).split():
            os.kill(int(pid), signal.SIGTERM)
    time.sleep(1)
    Lab(name, root or os.path.join(__import__("tempfile").gettempdir(), "babel-lab", name)).close()


if __name__ == "__main__":
    clean(sys.argv[2])
