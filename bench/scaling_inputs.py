"""The inputs of bench/scaling: logs for `replay` and scenarios for `net`, each of two lengths. All
of it is deterministic."""
import collections

# What is counted of an input lies between its two texts: the long one goes on where the short one
# ends. `units` are its lines or events.
Cell = collections.namedtuple("Cell", ["size", "config", "short", "long", "units"])
# A row of the table: what the input is, what grows along it, and a cell for each size.
Row = collections.namedtuple("Row", ["kind", "name", "axis", "cells"])
# A costly datagram: what is in it, and its TLVs, of which those of the prefix come first.
Costly = collections.namedtuple("Costly", ["name", "first", "tlvs"])

ROUTES = (16, 64, 256)
NEIGHBOURS = (1, 16, 64)
NODES = (4, 16, 64)
MOST_ROUTES = 256
# The prefixes to which each of 64 neighbours can have a route.
SHARED_PREFIXES = 4
MOST_BODY = 65_535
INFINITY = 65_535
# Intervals are as long as they can be, so that nothing expires while a log runs.
LONG = b"\xff\xff"
# Lines that come before those that are counted, and lines that are counted.
WARM = 2 * MOST_ROUTES
COUNTED = MOST_ROUTES
UPDATES_A_DATAGRAM = 60

CONFIG = """router-id = "0000000000000001"

[[interface]]
transport = "ipv4"
ipv4 = "192.168.0.1/24"
hello = 4000
"""


# Datagrams (RFC 8966, section 4).


def number(value):
    return value.to_bytes(2, "big")


def hello(seqno):
    return b"\x04\x06\0\0" + number(seqno % 65_536) + LONG


def ihu(rxcost):
    return b"\x05\x06\0\0" + number(rxcost) + LONG


def router(host):
    return b"\x06\x0a\0\0" + bytes(7) + bytes([host])


def update(prefix, metric, seqno=0, interval=LONG):
    """An Update of 10.0.PREFIX.0/24, or, above 255, of a net that follows."""
    return (
        b"\x08\x0d\x01\0\x18\0"
        + interval
        + number(seqno)
        + number(metric)
        + b"\x0a"
        + number(prefix)
    )


RETRACT_ALL = b"\x08\x0a\0\0\0\0" + LONG + b"\0\0\xff\xff"
DUMP_REQUEST = b"\x09\x02\0\0"


def datagram(body):
    if len(body) > MOST_BODY:
        raise ValueError(f"a body of {len(body)} octets")
    return (b"\x2a\x02" + number(len(body)) + body).hex()


def line(time, neighbour, body):
    return f"{time} in 0 192.168.0.{neighbour + 10} {datagram(body)}\n"


# Logs.


def introduction(neighbours, routes):
    """Each neighbour has a link of cost 96 and a route to each of the first prefixes, `routes` in
    all."""
    return neighbours_with(neighbours, lambda _neighbour: range(routes // neighbours))


def parted_introduction(neighbours, routes):
    """Each neighbour has a link of cost 96, and the prefixes are parted among them."""
    return neighbours_with(neighbours,
                           lambda neighbour: range(routes * neighbour // neighbours,
                                                   routes * (neighbour + 1) // neighbours))


def neighbours_with(neighbours, prefixes_of, interval=LONG):
    """Neighbours with a link of cost 96, each with a route to each of its prefixes."""
    lines = []
    for neighbour in range(neighbours):
        lines += [line(0, neighbour, hello(0)), line(0, neighbour, hello(1) + ihu(96))]
        updates = [
            update(prefix, neighbour % 2, interval=interval) for prefix in prefixes_of(neighbour)
        ]
        for first in range(0, len(updates), UPDATES_A_DATAGRAM):
            body = router(200) + b"".join(updates[first : first + UPDATES_A_DATAGRAM])
            lines.append(line(0, neighbour, body))
    return lines


def flapping_metrics(index, neighbours, routes):
    """Each turn over the routes gives each another metric, below the advertised one, so it is
    feasible."""
    turn, place = divmod(index, routes)
    return update_line(index, place, neighbours, routes, 1 + turn % 2)


def repeated_updates(index, neighbours, routes):
    place = index % routes
    return update_line(index, place, neighbours, routes, place % neighbours % 2)


def update_line(index, place, neighbours, routes, metric):
    """An Update of the route at the place: its neighbour and its prefix follow from it."""
    prefix = place // neighbours % (routes // neighbours)
    return line(index, place % neighbours, router(200) + update(prefix, metric))


def lost_routes(index, neighbours, routes):
    """A route is retracted, and the next line advertises it again."""
    metric = 0 if index % 2 else INFINITY
    return update_line(index, index // 2 % routes, neighbours, routes, metric)


def flapping_costs(index, neighbours, _routes):
    turn, neighbour = divmod(index, neighbours)
    return line(index, neighbour, ihu(97 - turn % 2))


def settled_hellos(index, neighbours, _routes):
    turn, neighbour = divmod(index, neighbours)
    return line(index, neighbour, hello(2 + turn) + ihu(96))


def dump_requests(index, neighbours, _routes):
    return line(index, index % neighbours, DUMP_REQUEST)


def idle_ticks(index, _neighbours, _routes):
    return f"{index} tick\n"


def refused_updates(index, neighbours, _routes):
    """60 Updates of prefixes that are not in the full table."""
    first = 1_000 + index * UPDATES_A_DATAGRAM
    body = b"".join(update(first + count, 0) for count in range(UPDATES_A_DATAGRAM))
    return line(index, index % neighbours, router(200) + body)


def nominal_costs(index, _neighbours, _routes):
    return f"{index} cost 0 {100 + index % 2}\n"


def front_cell(size, front, more, units):
    """What is counted are the lines `more` after those of the front."""
    return Cell(size, CONFIG, "".join(front), "".join(front + more), units)


def new_routes_cell(size):
    """The last quarter of the routes come, each in a line of its own."""
    known = size - size // 4
    return front_cell(size, introduction(1, known),
                      [update_line(0, prefix, 1, size, 1) for prefix in range(known, size)],
                      size - known)


def expiry_cell(size, ticks):
    """The last of the ticks is counted for each route: the first finds that all routes are too old,
    and by the second all have gone."""
    front = neighbours_with(1, lambda _neighbour: range(size), interval=number(100))
    lines = [f"{1_000 * (turn + 1)} tick\n" for turn in range(ticks)]
    return front_cell(size, front + lines[:-1], lines[-1:], size)


def log_cell(size, make_line, neighbours, routes, counted, introduce=introduction):
    lines = introduce(neighbours, routes)
    lines += [make_line(index, neighbours, routes) for index in range(WARM + counted)]
    return Cell(size, CONFIG, "".join(lines[:-counted]), "".join(lines), counted)


def log_rows():
    """What grows along a row is the number of routes, or else of neighbours that have routes to the
    same four prefixes, and nothing else."""
    kinds = [
        ("an Update with another metric", flapping_metrics, COUNTED),
        ("an Update that repeats its route", repeated_updates, COUNTED),
        ("a retraction, or the Update after it", lost_routes, COUNTED),
        ("an IHU with another cost", flapping_costs, COUNTED // 4),
        ("a Hello and an IHU that change nothing", settled_hellos, COUNTED),
        ("a request for all routes", dump_requests, COUNTED // 4),
        ("a tick", idle_ticks, COUNTED),
        ("a nominal cost", nominal_costs, COUNTED),
    ]
    for name, make_line, counted in kinds:
        yield Row("replay", f"{name}; 1 neighbour", "routes",
                  [log_cell(size, make_line, 1, size, counted) for size in ROUTES])
    yield Row("replay", "an Update of a new route; 1 neighbour", "routes",
              [new_routes_cell(size) for size in ROUTES])
    yield Row("replay", "a route of those that a tick retracts; 1 neighbour", "routes",
              [expiry_cell(size, 1) for size in ROUTES])
    yield Row("replay", "a route of those that a tick removes; 1 neighbour", "routes",
              [expiry_cell(size, 2) for size in ROUTES])
    for name, make_line, counted in kinds:
        cells = [
            log_cell(size, make_line, size, size * SHARED_PREFIXES, counted) for size in NEIGHBOURS
        ]
        yield Row("replay", f"{name}; {SHARED_PREFIXES} prefixes", "neighbours", cells)
    # The tables are full for any number of neighbours: each of the prefixes is of one neighbour.
    counted = COUNTED // 4
    cells = [
        log_cell(size, refused_updates, size, MOST_ROUTES, counted, parted_introduction)
        for size in NEIGHBOURS
    ]
    yield Row("replay", "60 Updates that full tables refuse; 256 prefixes", "neighbours", cells)


# Scenarios.

HELLO = 400
# Events of one kind that are counted in a settled network. Among fewer the first ones weigh too
# much: of 2,048 glibc's malloc took 300 instructions an event more for a plain speaker with 16
# nodes than with 64, and of 8,192 it takes 60 more.
CALLS = 8_192
# Ticks of each node while no datagram comes.
SILENT_TICKS = 64
Shape = collections.namedtuple("Shape", ["name", "receivers", "warm", "counted"])


def ring_neighbours(node, nodes):
    return sorted({(node - 1) % nodes, (node + 1) % nodes} - {node})


def mesh_neighbours(node, nodes):
    return [other for other in range(nodes) if other != node]


# A node sends all its Updates with each fourth Hello, and its IHUs with each third. The counted
# turns of a ring are whole periods of both. A full mesh of 64 nodes has 4,160 events a turn, and a
# scenario of ten turns is too long (F5): there one period of Updates is counted. In a ring of 64
# nodes a route comes to the last node after 32 turns.
SHAPES = [Shape("a ring", ring_neighbours, 40, 24), Shape("a full mesh", mesh_neighbours, 5, 4)]


def node_table(node, announces):
    prefixes = f'"10.{node}.0.0/16"' if announces else ""
    address = f"192.168.0.{node + 1}/24"
    return (
        f'\n[[node]]\nrouter-id = "{node + 1:016x}"\nprefixes = [{prefixes}]\n'
        f'[[node.interface]]\ntransport = "ipv4"\nipv4 = "{address}"\nhello = {HELLO}\n'
    )


def turn_events(turn, nodes, receivers):
    """Each node sends one datagram with its Hello and what else fits, which each of its neighbours
    receives.

    A Hello is due at each turn, so the number of a datagram follows from its turn and its node.
    """
    time = turn * HELLO
    events = [f"{event} {node} {time}" for event in ("tick", "emit") for node in range(nodes)]
    for node in range(nodes):
        sent = turn * nodes + node
        events += [f"deliver {sent} {other} 0 {time}" for other in receivers(node, nodes)]
    return events


def scenario_cell(shape, nodes, announcers):
    turns = [
        turn_events(turn, nodes, shape.receivers) for turn in range(shape.warm + shape.counted)
    ]
    tables = "".join(node_table(node, node in announcers) for node in range(nodes))
    short, long = (scenario(turns[:count], tables) for count in (shape.warm, len(turns)))
    return Cell(nodes, None, short, long, sum(map(len, turns[shape.warm :])))


def settled_cell(shape, nodes, make_events):
    """Events of the nodes of a settled network in which all announce."""
    turns = [turn_events(turn, nodes, shape.receivers) for turn in range(shape.warm)]
    events = list(make_events(nodes, shape.warm * HELLO))
    tables = "".join(node_table(node, True) for node in range(nodes))
    return Cell(
        nodes, None, scenario(turns, tables), scenario([*turns, events], tables), len(events)
    )


def nominal_cost_events(nodes, _time):
    return (f"cost {index % nodes} 0 {96 + index // nodes % 2}" for index in range(CALLS))


def own_prefix_events(nodes, _time):
    """Each prefix is withdrawn, and with the next event announced again."""
    pairs = ((index % 2, index // 2 % nodes) for index in range(CALLS))
    return (f"{('withdraw', 'announce')[again]} {node} 10.{node}.0.0/16" for again, node in pairs)


def raise_events(nodes, _time):
    return (f"raise {index % nodes}" for index in range(CALLS))


def restart_events(nodes, time):
    return (f"restart {index % nodes} {time}" for index in range(CALLS))


def silent_ticks(nodes, time):
    """A tick of each node each second, while no datagram comes: all links are lost, and then all
    routes."""
    return (
        f"tick {node} {time + 100 * turn}" for turn in range(SILENT_TICKS) for node in range(nodes)
    )


def scenario(turns, tables):
    events = "".join(f'  "{event}",\n' for turn in turns for event in turn)
    return f"events = [\n{events}]\n{tables}"


def scenario_rows():
    for shape in SHAPES:
        for words, announcers in (
            ("two nodes announce", lambda nodes: {0, nodes // 2}),
            ("all nodes announce", lambda nodes: set(range(nodes))),
        ):
            cells = [scenario_cell(shape, nodes, announcers(nodes)) for nodes in NODES]
            yield Row("net", f"an event in {shape.name}, {words}", "nodes", cells)
        for words, make_events in (
            ("a nominal cost", nominal_cost_events),
            ("an own prefix, withdrawn or announced", own_prefix_events),
            ("a raise of the own seqno", raise_events),
            ("a restart", restart_events),
            ("a tick while no datagram comes", silent_ticks),
        ):
            yield Row("net", f"{words}, in {shape.name}", "nodes",
                      [settled_cell(shape, nodes, make_events) for nodes in NODES])


def rows():
    return [*log_rows(), *scenario_rows()]


# Costly datagrams, for a speaker with one neighbour and 256 routes.


def filled(first, make_tlv):
    """As many TLVs as 64 KiB have room for."""
    tlvs, room = [], MOST_BODY - len(first)
    while True:
        tlv = make_tlv(len(tlvs))
        room -= len(tlv)
        if room < 0:
            return tlvs
        tlvs.append(tlv)


def other_router(index):
    """Each turn over the routes gives each another router-id."""
    turn, prefix = divmod(index, MOST_ROUTES)
    router_id = router(201 + turn % 2) if prefix == 0 else b""
    return router_id + update(prefix, 0)


def retract_all_or_update(index):
    return RETRACT_ALL if index % 2 == 0 else update(index // 2 % MOST_ROUTES, 0)


def costly_datagrams():
    known, nothing = router(200), b""
    kinds = [
        ("IHUs that flip the link between 96 and infinity", nothing,
         lambda index: ihu(96 if index % 2 else INFINITY)),
        ("IHUs that each change the link's cost by 1", nothing, lambda index: ihu(97 - index % 2)),
        ("Hellos that each flush the neighbour", nothing, lambda index: hello(1_000 * (index + 1))),
        ("Updates that each change the router-id", nothing, other_router),
        ("retractions of all routes", nothing, lambda index: RETRACT_ALL),
        ("retractions of all routes, each followed by an Update", known, retract_all_or_update),
        ("Updates that full tables refuse", known, lambda index: update(1_000 + index, 0)),
        ("Updates that are feasible", known,
         lambda index: update(index % MOST_ROUTES, index // MOST_ROUTES % 2)),
        ("Updates that are unfeasible", known,
         lambda index: update(index % MOST_ROUTES, 200 + index % 9)),
        ("requests for all routes", nothing, lambda index: DUMP_REQUEST),
    ]
    return [Costly(name, first, filled(first, make_tlv)) for name, first, make_tlv in kinds]


def costly_log(costly, count):
    """The log that ends with the datagram, of which the first TLVs are taken."""
    body = costly.first + b"".join(costly.tlvs[:count])
    return "".join(introduction(1, MOST_ROUTES)) + line(1, 0, body)
