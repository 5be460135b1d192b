//! What the speakers are timed on: 8 interfaces with 8 neighbours each, 256 routes of one prefix
//! each, and 512 sources. Each step has 12 octets (what it is, the interface, the source address,
//! the moment, the number of octets) and then its octets.

use crate::plain::{Message, Metric, Prefix, RouterId, Seqno};
use crate::plain_builder::Builder;
use std::net::{IpAddr, Ipv4Addr};

pub struct Case {
    pub name: &'static str,
    /// Taken once.
    pub setup: Vec<u8>,
    /// Taken over and over.
    pub turn: Vec<u8>,
    /// How often the turn does what is timed.
    pub times: usize,
}

/// The moment at which all is timed.
const NOW: u32 = 400;

fn neighbour(iface: u8, n: u8) -> Ipv4Addr {
    Ipv4Addr::new(10, iface, 0, n + 2)
}

fn step(kind: u8, iface: u8, source: Ipv4Addr, now: u32, octets: &[u8]) -> Vec<u8> {
    let mut step = vec![kind, iface];
    step.extend(source.octets());
    step.extend(now.to_be_bytes());
    step.extend((octets.len() as u16).to_be_bytes());
    step.extend(octets);
    step
}

fn datagram(iface: u8, n: u8, now: u32, messages: &[Message]) -> Vec<u8> {
    let source = neighbour(iface, n);
    let mut builder = Builder::new(IpAddr::V4(source));
    for message in messages {
        assert!(builder.add(message), "the messages fit");
    }
    step(0, iface, source, now, builder.finish().as_slice())
}

fn tick(now: u32) -> Vec<u8> {
    step(1, 0, Ipv4Addr::UNSPECIFIED, now, &[])
}

fn drain(now: u32) -> Vec<u8> {
    step(2, 0, Ipv4Addr::UNSPECIFIED, now, &[])
}

fn hello(seqno: u16) -> Message {
    Message::Hello {
        unicast: false,
        seqno: Seqno(seqno),
        interval: 60_000,
    }
}

fn ihu(iface: u8) -> Message {
    ihu_with(iface, 96, 60_000)
}

fn ihu_with(iface: u8, rxcost: u16, interval: u16) -> Message {
    let to = Some(IpAddr::V4(Ipv4Addr::new(10, iface, 0, 1)));
    Message::Ihu {
        to,
        rxcost: Metric(rxcost),
        interval,
    }
}

/// Two IHUs of the neighbour 0 of the interface, which has routes, of which each changes the cost
/// of the link.
fn costs(iface: u8) -> Vec<u8> {
    ihus(iface, [97, 96])
}

/// The same: the link is lost, and comes back.
fn flips(iface: u8) -> Vec<u8> {
    ihus(iface, [65_535, 96])
}

fn ihus(iface: u8, rxcosts: [u16; 2]) -> Vec<u8> {
    let mut steps = Vec::new();
    for rxcost in rxcosts {
        steps.extend(datagram(iface, 0, NOW, &[ihu_with(iface, rxcost, 60_000)]));
    }
    steps
}

/// The cost of a neighbour without routes is too old, and all 256 prefixes are selected again.
fn timeout() -> Vec<u8> {
    let mut steps = datagram(7, 7, NOW, &[ihu_with(7, 96, 1)]);
    steps.extend(tick(NOW + 4));
    steps
}

/// Two datagrams of 60 updates, each with other metrics than the one before.
fn other_metrics() -> Vec<u8> {
    let mut steps = Vec::new();
    for metric in [97, 96] {
        let messages: Vec<Message> = (60..120).map(|n| update_with(n, 2, metric)).collect();
        steps.extend(datagram(1, 0, NOW, &messages));
    }
    steps
}

fn update(n: usize, router: u8) -> Message {
    update_with(n, router, 96)
}

fn update_with(n: usize, router: u8, metric: u16) -> Message {
    Message::Update {
        prefix: Prefix {
            addr: IpAddr::from([172, 16, n as u8, 0]),
            length: 24,
        },
        router: RouterId::new([0, 0, 0, 0, 0, 1, 0, router]).expect("not reserved"),
        next_hop: IpAddr::V4(neighbour((n / 60) as u8, 0)),
        seqno: Seqno(7),
        metric: Metric(metric),
        interval: 60_000,
    }
}

/// The updates of 60 prefixes from the neighbour 0 of interface `part`.
fn updates(part: usize, router: u8, now: u32) -> Vec<u8> {
    let numbers = 60 * part..(60 * (part + 1)).min(256);
    let messages: Vec<Message> = numbers.map(|n| update(n, router)).collect();
    datagram(part as u8, 0, now, &messages)
}

/// An update of one prefix from this neighbour.
fn crowd_update(iface: u8, n: u8, prefix: u8, metric: u16, now: u32) -> Vec<u8> {
    let update = Message::Update {
        prefix: crowd_prefix(prefix),
        router: RouterId::new([0, 0, 0, 0, 0, 1, 0, 1]).expect("not reserved"),
        next_hop: IpAddr::V4(neighbour(iface, n)),
        seqno: Seqno(7),
        metric: Metric(metric),
        interval: 60_000,
    };
    datagram(iface, n, now, &[update])
}

fn crowd_retraction(iface: u8, n: u8, prefix: u8) -> Vec<u8> {
    let retraction = Message::Retraction {
        prefix: crowd_prefix(prefix),
        interval: 60_000,
    };
    datagram(iface, n, NOW, &[retraction])
}

fn crowd_prefix(n: u8) -> Prefix {
    Prefix {
        addr: IpAddr::from([172, 16, n, 0]),
        length: 24,
    }
}

/// What `steps` makes of each of the 64 neighbours.
fn of_each(steps: impl Fn(u8, u8) -> Vec<u8>) -> Vec<u8> {
    let places = (0..8).flat_map(|iface| (0..8).map(move |n| (iface, n)));
    places.flat_map(|(iface, n)| steps(iface, n)).collect()
}

/// Each neighbour's update of the first of the prefixes, with one metric and then with another one.
fn crowd_updates() -> Vec<u8> {
    let with = |metric| of_each(|iface, n| crowd_update(iface, n, 0, metric, NOW));
    [with(2), with(1)].concat()
}

/// Each neighbour retracts the first of the prefixes, and then advertises it again.
fn crowd_losses() -> Vec<u8> {
    let again = |iface, n| crowd_update(iface, n, 0, 1, NOW);
    of_each(|iface, n| [crowd_retraction(iface, n, 0), again(iface, n)].concat())
}

/// Each neighbour's link gets another cost, and then that which it had.
fn crowd_costs() -> Vec<u8> {
    let with =
        |rxcost| of_each(|iface, n| datagram(iface, n, NOW, &[ihu_with(iface, rxcost, 60_000)]));
    [with(97), with(96)].concat()
}

/// 64 neighbours that each have a route to the same four prefixes, nothing pending and nothing due
/// at `NOW`.
fn setup_crowd() -> Vec<u8> {
    let mut steps = introductions();
    for prefix in 0..4 {
        steps.extend(of_each(|iface, n| crowd_update(iface, n, prefix, 1, 10)));
        steps.extend(drain(10));
    }
    steps.extend(settled());
    steps
}

/// 64 neighbours, 256 routes, 512 sources, nothing pending and nothing due at `NOW`.
fn setup() -> Vec<u8> {
    let mut steps = introductions();
    for router in [1, 2] {
        for part in 0..5 {
            steps.extend(updates(part, router, 10));
            steps.extend(drain(10));
        }
    }
    steps.extend(settled());
    steps
}

/// Three Hellos and three IHUs of each of the 64 neighbours.
fn introductions() -> Vec<u8> {
    let messages = |round: u32, iface| [hello(round as u16), ihu(iface)];
    (0..3)
        .flat_map(|round| of_each(|iface, n| datagram(iface, n, round, &messages(round, iface))))
        .collect()
}

/// Nothing is pending then, and nothing due at `NOW`.
fn settled() -> Vec<u8> {
    let mut steps = Vec::new();
    // The timers of the interfaces: once more at 350, so that none is due at 400.
    for moment in [20, 350] {
        steps.extend(tick(moment));
        steps.extend(drain(moment));
    }
    steps.extend(tick(NOW));
    steps.extend(drain(NOW));
    steps.extend(tick(NOW));
    steps
}

/// `setup`, and then 64 requests for a seqno are pending: each is forwarded, and none is due at
/// `NOW`.
fn setup_with_requests() -> Vec<u8> {
    let mut steps = setup();
    for first in [0, 32] {
        let messages: Vec<Message> = (first..first + 32).map(request).collect();
        steps.extend(datagram(7, 7, NOW, &messages));
    }
    steps
}

/// A request for the seqno after that of `update(n, 2)`.
fn request(n: usize) -> Message {
    Message::SeqnoRequest {
        prefix: Prefix {
            addr: IpAddr::from([172, 16, n as u8, 0]),
            length: 24,
        },
        router: RouterId::new([0, 0, 0, 0, 0, 1, 0, 2]).expect("not reserved"),
        seqno: Seqno(8),
        hops: 64,
    }
}

fn repeated(step: &[u8], times: usize) -> Vec<u8> {
    step.repeat(times)
}

pub fn all() -> Vec<Case> {
    let dump = datagram(0, 1, NOW, &vec![Message::DumpRequest; 16]);
    let filled: Vec<u8> = dump.iter().copied().chain(drain(NOW)).collect();
    vec![
        Case {
            name: "a tick, nothing due",
            setup: setup(),
            turn: repeated(&tick(NOW), 100),
            times: 100,
        },
        Case {
            name: "the same, 64 requests pending",
            setup: setup_with_requests(),
            turn: repeated(&tick(NOW), 100),
            times: 100,
        },
        Case {
            name: "a Hello and an IHU",
            setup: setup(),
            turn: repeated(&datagram(3, 4, NOW, &[hello(2), ihu(3)]), 10),
            times: 10,
        },
        Case {
            name: "a link's cost is too old",
            setup: setup(),
            turn: timeout(),
            times: 1,
        },
        Case {
            name: "a new cost, 16 routes",
            setup: setup(),
            turn: costs(4),
            times: 2,
        },
        Case {
            name: "a new cost, 60 routes",
            setup: setup(),
            turn: costs(1),
            times: 2,
        },
        Case {
            name: "a link that flips, 60 routes",
            setup: setup(),
            turn: flips(1),
            times: 2,
        },
        Case {
            name: "60 updates, full tables",
            setup: setup(),
            turn: updates(1, 2, NOW),
            times: 1,
        },
        Case {
            name: "60 updates with other metrics",
            setup: setup(),
            turn: other_metrics(),
            times: 2,
        },
        Case {
            name: "an update, 64 routes",
            setup: setup_crowd(),
            turn: crowd_updates(),
            times: 128,
        },
        Case {
            name: "a retraction or an update, 64 routes",
            setup: setup_crowd(),
            turn: crowd_losses(),
            times: 128,
        },
        Case {
            name: "a new cost, 64 routes a prefix",
            setup: setup_crowd(),
            turn: crowd_costs(),
            times: 128,
        },
        Case {
            name: "16 dump requests: 4,096 items",
            setup: setup(),
            turn: dump,
            times: 1,
        },
        Case {
            name: "the same, and drained",
            setup: setup(),
            turn: filled,
            times: 1,
        },
    ]
}
