//! Datagrams to build again: their messages, in one process, by the proved builder and by the plain
//! one.

use crate::corpus::Datagram;
use crate::plain::{Message, Metric, Prefix, RouterId, Seqno};
use crate::plain_builder::{Builder, DATAGRAM_LEN};
use crate::timing::{self, Times};
use crate::{plain_calls, proved};
use std::net::{IpAddr, Ipv4Addr, Ipv6Addr};

/// How many times a call builds its datagram. It decodes once, which this makes small.
const TURNS: usize = 500;

const SOURCE: IpAddr = IpAddr::V4(Ipv4Addr::new(192, 168, 0, 1));

/// The octets that the proved builder makes of the messages of the datagram.
pub fn build(datagram: &Datagram) -> Vec<u8> {
    let mut built = vec![0; DATAGRAM_LEN];
    let length = proved::build(datagram, 1, &mut built);
    built.truncate(length);
    built
}

/// How many octets that is.
pub fn length(datagram: &Datagram) -> usize {
    build(datagram).len()
}

/// How many messages the datagram has.
pub fn messages(datagram: &Datagram) -> usize {
    messages_of(&proved::text(datagram)).len()
}

/// The lines of messages, without offsets.
fn messages_of(text: &str) -> Vec<&str> {
    text.lines()
        .filter_map(|line| line.split_once(' ').map(|parts| parts.1))
        .filter(|content| *content != "state" && !content.starts_with("ignored "))
        .collect()
}

/// Builds each datagram again by both builders. The octets must be the same, and mean the same
/// messages as the datagram. Returns how many were built.
pub fn check(datagrams: &[Datagram]) -> Result<usize, String> {
    let mut count = 0;
    for (place, datagram) in datagrams.iter().enumerate() {
        let bytes = build(datagram);
        let mut plain = vec![0; DATAGRAM_LEN];
        let length = plain_calls::build(datagram, 1, &mut plain);
        if bytes != plain[..length] {
            return Err(format!("datagram {}: not the same octets", place + 1));
        }
        if bytes.is_empty() {
            continue;
        }
        let again = datagram_of(datagram.source, bytes);
        let (before, after) = (proved::text(datagram), proved::text(&again));
        if messages_of(&before) != messages_of(&after) || after.contains(" ignored ") {
            return Err(format!("datagram {}: {before}built\n{after}", place + 1));
        }
        count += 1;
    }
    Ok(count)
}

/// Times of both builders on this datagram.
pub fn measure(datagram: &Datagram, rounds: usize) -> Times {
    let build_by = |build: fn(&Datagram, usize, &mut [u8]) -> usize| {
        move |datagram: &Datagram| build(datagram, TURNS, &mut [0; DATAGRAM_LEN])
    };
    let times = timing::measure(
        &[datagram],
        rounds,
        build_by(proved::build),
        build_by(plain_calls::build),
    );
    let turns = TURNS as f64;
    Times {
        proved: times.proved / turns,
        plain: times.plain / turns,
        least_proved: times.least_proved / turns,
        least_plain: times.least_plain / turns,
        ratio: times.ratio,
    }
}

fn datagram_of(source: IpAddr, bytes: Vec<u8>) -> Datagram {
    let source_octets = match source {
        IpAddr::V4(addr) => addr.octets().to_vec(),
        IpAddr::V6(addr) => addr.octets().to_vec(),
    };
    Datagram {
        source,
        source_octets,
        bytes,
    }
}

/// One datagram of as many of the messages as fit.
fn filled(source: IpAddr, messages: impl Iterator<Item = Message>) -> Datagram {
    let mut builder = Builder::new(source);
    for message in messages {
        if !builder.add(&message) {
            break;
        }
    }
    datagram_of(source, builder.finish().as_slice().to_vec())
}

fn router(number: u8) -> RouterId {
    RouterId::new([0, 0, 0, 0, 0, 0, 0, number.max(1)]).expect("it isn't reserved")
}

fn update(addr: IpAddr, length: u8, router: RouterId, next_hop: IpAddr) -> Message {
    Message::Update {
        prefix: prefix(addr, length),
        router,
        next_hop,
        seqno: Seqno(5),
        metric: Metric(96),
        interval: 1600,
    }
}

/// The prefix of an address, with the bits past the length cleared.
fn prefix(addr: IpAddr, length: u8) -> Prefix {
    let addr = match addr {
        IpAddr::V4(addr) => {
            let mask = u32::MAX.checked_shl(32 - u32::from(length)).unwrap_or(0);
            IpAddr::from(Ipv4Addr::from(u32::from(addr) & mask))
        }
        IpAddr::V6(addr) => {
            let mask = u128::MAX.checked_shl(128 - u32::from(length)).unwrap_or(0);
            IpAddr::from(Ipv6Addr::from(u128::from(addr) & mask))
        }
    };
    Prefix { addr, length }
}

fn ipv4(third: u8, last: u8) -> IpAddr {
    IpAddr::from([10, 1, third, last])
}

fn ipv6(third: u16, last: u16) -> IpAddr {
    IpAddr::from(Ipv6Addr::new(0x2001, 0xdb8, 0, third, 0, 0, 0, last))
}

/// The datagrams that are timed, each as full as it gets.
pub fn classes() -> Vec<(&'static str, Datagram)> {
    let link_local = IpAddr::from(Ipv6Addr::new(0xfe80, 0, 0, 0, 0, 0, 0, 1));
    let every = 0..=u8::MAX;
    vec![
        (
            "83 updates",
            filled(
                SOURCE,
                (0..83).map(|_| update(ipv4(0, 0), 16, router(1), SOURCE)),
            ),
        ),
        (
            "IPv4 /24s",
            filled(
                SOURCE,
                every
                    .clone()
                    .map(|n| update(ipv4(n, 0), 24, router(1), SOURCE)),
            ),
        ),
        (
            "IPv6 /64s",
            filled(
                link_local,
                every
                    .clone()
                    .map(|n| update(ipv6(n.into(), 0), 64, router(1), link_local)),
            ),
        ),
        (
            "other router each",
            filled(
                SOURCE,
                every.clone().map(|n| {
                    update(
                        ipv4(n, 0),
                        24,
                        router(n),
                        if n % 2 == 0 { SOURCE } else { ipv4(0, 9) },
                    )
                }),
            ),
        ),
        (
            "retractions",
            filled(
                SOURCE,
                every.map(|n| Message::Retraction {
                    prefix: prefix(ipv4(n, 0), 24),
                    interval: 1600,
                }),
            ),
        ),
    ]
}

/// Prints the octets of the TLVs of 256 routes, plain and compressed: a plain Update has a
/// Router-Id and a Next Hop before it and all octets of its prefix.
pub fn print_tables() {
    let link_local = IpAddr::from(Ipv6Addr::new(0xfe80, 0, 0, 0, 0, 0, 0, 1));
    let tables: [(&str, IpAddr, fn(u8) -> (IpAddr, u8, u8)); 6] = [
        ("IPv4 /24, one router", SOURCE, |n| (ipv4(n, 0), 24, 1)),
        ("IPv4 /32, one router", SOURCE, |n| (ipv4(0, n), 32, 1)),
        ("IPv4 /24, a router each", SOURCE, |n| (ipv4(n, 0), 24, n)),
        ("IPv6 /64, one router", link_local, |n| {
            (ipv6(n.into(), 0), 64, 1)
        }),
        ("IPv6 /128, one router", link_local, |n| {
            (ipv6(0, n.into()), 128, 1)
        }),
        ("IPv6 /64, a router each", link_local, |n| {
            (ipv6(n.into(), 0), 64, n)
        }),
    ];
    println!("256 routes                | octets, datagrams: plain    | compressed");
    for (name, source, route) in tables {
        let messages: Vec<Message> = (0..=u8::MAX)
            .map(|n| {
                let (addr, length, id) = route(n);
                update(addr, length, router(id), source)
            })
            .collect();
        let next_hop_len = if source.is_ipv4() { 8 } else { 12 };
        let plain: Vec<usize> = messages
            .iter()
            .map(|message| match message {
                Message::Update { prefix, .. } => {
                    12 + next_hop_len + 12 + (usize::from(prefix.length) + 7) / 8
                }
                _ => 0,
            })
            .collect();
        let (octets, datagrams) = packed(&plain);
        let (built, count) = compressed(source, &messages);
        println!("{name:25} | {octets:18}, {datagrams:4}    | {built:6}, {count:4}");
    }
}

/// The octets, and in how many datagrams of 1,024 octets they fit, in this order.
fn packed(sizes: &[usize]) -> (usize, usize) {
    let (mut total, mut datagrams, mut length) = (0, 1, 4);
    for size in sizes {
        if length + size > DATAGRAM_LEN {
            datagrams += 1;
            length = 4;
        }
        length += size;
        total += size;
    }
    (total, datagrams)
}

/// The octets of the bodies that the builder makes, and how many datagrams.
fn compressed(source: IpAddr, messages: &[Message]) -> (usize, usize) {
    let (mut total, mut datagrams) = (0, 0);
    let mut left = messages;
    while !left.is_empty() {
        let mut builder = Builder::new(source);
        let fits = left
            .iter()
            .take_while(|message| builder.add(message))
            .count();
        total += builder.finish().as_slice().len() - 4;
        datagrams += 1;
        left = &left[fits..];
    }
    (total, datagrams)
}

/// Datagrams of random messages of all kinds, from few addresses, so that much can be left out.
pub fn random(count: usize, seed: u64) -> Vec<Datagram> {
    let mut random = Random(seed.wrapping_mul(2).wrapping_add(1));
    (0..count)
        .map(|_| {
            let source = random.addr();
            let messages: Vec<Message> = (0..=random.below(40)).map(|_| random.message()).collect();
            filled(source, messages.into_iter())
        })
        .collect()
}

/// Numbers of the xorshift generator.
struct Random(u64);

impl Random {
    fn next(&mut self) -> u64 {
        self.0 ^= self.0 << 13;
        self.0 ^= self.0 >> 7;
        self.0 ^= self.0 << 17;
        self.0
    }

    fn below(&mut self, bound: u64) -> u64 {
        (self.next() >> 8) % bound
    }

    fn number(&mut self) -> u16 {
        self.next() as u16
    }

    /// A number that isn't 0 and isn't infinity.
    fn some(&mut self) -> u16 {
        self.number().clamp(1, 65534)
    }

    fn ipv4(&mut self) -> IpAddr {
        IpAddr::from([
            10,
            self.below(3) as u8,
            self.below(4) as u8,
            self.next() as u8,
        ])
    }

    fn ipv6(&mut self) -> IpAddr {
        let first = [0x2001, 0xfe80, 0xfe81][self.below(3) as usize];
        let fourth = [0, 0, 1][self.below(3) as usize];
        let third = self.below(2) as u16;
        IpAddr::from(Ipv6Addr::new(
            first,
            0,
            third,
            fourth,
            0,
            0,
            0,
            self.below(300) as u16,
        ))
    }

    fn addr(&mut self) -> IpAddr {
        if self.below(2) == 0 {
            self.ipv4()
        } else {
            self.ipv6()
        }
    }

    fn prefix(&mut self) -> Prefix {
        if self.below(2) == 0 {
            let length = self.below(33) as u8;
            prefix(self.ipv4(), length)
        } else {
            let length = self.below(129) as u8;
            prefix(self.ipv6(), length)
        }
    }

    /// One of few router-ids, or that which the address of the prefix gives.
    fn router(&mut self, prefix: &Prefix) -> RouterId {
        let given = match prefix.addr {
            IpAddr::V4(addr) => {
                let [a, b, c, d] = addr.octets();
                [0, 0, 0, 0, a, b, c, d]
            }
            IpAddr::V6(addr) => {
                let mut last = [0; 8];
                last.copy_from_slice(&addr.octets()[8..]);
                last
            }
        };
        if self.below(3) == 0 {
            if let Some(router) = RouterId::new(given) {
                return router;
            }
        }
        router(self.below(3) as u8)
    }

    fn update(&mut self) -> Message {
        let prefix = self.prefix();
        let next_hop = if prefix.addr.is_ipv4() {
            IpAddr::from([10, 0, 0, self.below(3) as u8])
        } else {
            self.ipv6()
        };
        Message::Update {
            prefix,
            router: self.router(&prefix),
            next_hop,
            seqno: Seqno(self.number()),
            metric: Metric(self.number().min(65534)),
            interval: self.some(),
        }
    }

    fn message(&mut self) -> Message {
        let interval = self.number();
        match self.below(16) {
            0 => Message::AckRequest {
                opaque: self.number(),
                interval,
            },
            1 => Message::Ack {
                opaque: self.number(),
            },
            2 => Message::Hello {
                unicast: self.below(2) == 0,
                seqno: Seqno(self.number()),
                interval,
            },
            3 => Message::Ihu {
                to: [None, Some(self.addr())][self.below(2) as usize],
                rxcost: Metric(self.number().max(1)),
                interval: self.some(),
            },
            4 | 5 => Message::Retraction {
                prefix: self.prefix(),
                interval,
            },
            6 => Message::RetractAll { interval },
            7 => Message::RouteRequest {
                prefix: self.prefix(),
            },
            8 => Message::DumpRequest,
            9 => {
                let prefix = self.prefix();
                Message::SeqnoRequest {
                    prefix,
                    router: self.router(&prefix),
                    seqno: Seqno(self.number()),
                    hops: self.some() as u8 | 1,
                }
            }
            _ => self.update(),
        }
    }
}
