//! A plain builder of Babel datagrams (RFC 8966, section 4), to compare with: Rust as one writes
//! it, into an array, in few octets.

use crate::plain::{Message, Metric, Prefix, RouterId, Seqno};
use std::net::{IpAddr, Ipv4Addr, Ipv6Addr};

/// The most octets of a datagram.
pub const DATAGRAM_LEN: usize = 1024;
const HEADER_LEN: usize = 4;

const ACK_REQUEST: u8 = 2;
const ACK: u8 = 3;
const HELLO: u8 = 4;
const IHU: u8 = 5;
const ROUTER_ID: u8 = 6;
const NEXT_HOP: u8 = 7;
const UPDATE: u8 = 8;
const ROUTE_REQUEST: u8 = 9;
const SEQNO_REQUEST: u8 = 10;

const SETS_DEFAULT_PREFIX: u8 = 0x80;
const SETS_ROUTER_ID: u8 = 0x40;
const UNICAST: u8 = 0x80;

/// The octets of a datagram, as many as are written.
pub struct Octets {
    octets: [u8; DATAGRAM_LEN],
    len: usize,
}

impl Octets {
    pub fn as_slice(&self) -> &[u8] {
        &self.octets[..self.len]
    }

    fn extend(&mut self, more: &[u8]) {
        self.octets[self.len..self.len + more.len()].copy_from_slice(more);
        self.len += more.len();
    }

    /// Appends the TLV of these two parts, if it fits.
    #[inline(always)]
    fn put(&mut self, kind: u8, fields: &[u8], octets: &[u8]) -> bool {
        let length = fields.len() + octets.len();
        if DATAGRAM_LEN - self.len < 2 + length {
            return false;
        }
        self.extend(&[kind, length as u8]);
        self.extend(fields);
        self.extend(octets);
        true
    }
}

/// A datagram that is being built, and what a reader of it has.
pub struct Builder {
    octets: Octets,
    default4: Option<[u8; 4]>,
    default6: Option<[u8; 16]>,
    router: Option<[u8; 8]>,
    hop4: Option<Ipv4Addr>,
    hop6: Option<Ipv6Addr>,
}

impl Builder {
    pub fn new(source: IpAddr) -> Builder {
        let mut octets = Octets {
            octets: [0; DATAGRAM_LEN],
            len: 0,
        };
        octets.extend(&[42, 2, 0, 0]);
        let (hop4, hop6) = match source {
            IpAddr::V4(addr) => (Some(addr), None),
            IpAddr::V6(addr) => (None, Some(addr)),
        };
        Builder {
            octets,
            default4: None,
            default6: None,
            router: None,
            hop4,
            hop6,
        }
    }

    /// Adds the message, if it fits; else nothing changes.
    pub fn add(&mut self, message: &Message) -> bool {
        let before = self.octets.len;
        let fits = self.put(message);
        if !fits {
            self.octets.len = before;
        }
        fits
    }

    /// The datagram, with its length in the header.
    pub fn finish(mut self) -> Octets {
        let length = (self.octets.len - HEADER_LEN) as u16;
        self.octets.octets[2..4].copy_from_slice(&length.to_be_bytes());
        self.octets
    }

    fn put(&mut self, message: &Message) -> bool {
        match *message {
            Message::AckRequest { opaque, interval } => {
                let [o0, o1] = opaque.to_be_bytes();
                let [i0, i1] = interval.to_be_bytes();
                self.octets.put(ACK_REQUEST, &[0, 0, o0, o1, i0, i1], &[])
            }
            Message::Ack { opaque } => self.octets.put(ACK, &opaque.to_be_bytes(), &[]),
            Message::Hello {
                unicast,
                seqno,
                interval,
            } => {
                let flags = if unicast { UNICAST } else { 0 };
                let [s0, s1] = seqno.0.to_be_bytes();
                let [i0, i1] = interval.to_be_bytes();
                self.octets.put(HELLO, &[flags, 0, s0, s1, i0, i1], &[])
            }
            Message::Ihu {
                to,
                rxcost,
                interval,
            } => self.put_ihu(to, rxcost, interval),
            Message::Update {
                prefix,
                router,
                next_hop,
                seqno,
                metric,
                interval,
            } => self.put_finite(&prefix, router, next_hop, seqno, metric, interval),
            Message::Retraction { prefix, interval } => self.put_retraction(&prefix, interval),
            Message::RetractAll { interval } => {
                let [i0, i1] = interval.to_be_bytes();
                let fields = [0, 0, 0, 0, i0, i1, 0, 0, 0xff, 0xff];
                self.octets.put(UPDATE, &fields, &[])
            }
            Message::RouteRequest { prefix } => {
                let fields = [prefix_encoding(&prefix), prefix.length];
                self.put_prefixed(ROUTE_REQUEST, &fields, &prefix)
            }
            Message::DumpRequest => self.octets.put(ROUTE_REQUEST, &[0, 0], &[]),
            Message::SeqnoRequest {
                prefix,
                router,
                seqno,
                hops,
            } => {
                let encoding = prefix_encoding(&prefix);
                let [s0, s1] = seqno.0.to_be_bytes();
                let mut fields = [
                    encoding,
                    prefix.length,
                    s0,
                    s1,
                    hops,
                    0,
                    0,
                    0,
                    0,
                    0,
                    0,
                    0,
                    0,
                    0,
                ];
                fields[6..].copy_from_slice(&router.octets());
                self.put_prefixed(SEQNO_REQUEST, &fields, &prefix)
            }
        }
    }

    fn put_ihu(&mut self, to: Option<IpAddr>, rxcost: Metric, interval: u16) -> bool {
        let [r0, r1] = rxcost.0.to_be_bytes();
        let [i0, i1] = interval.to_be_bytes();
        match to {
            None => self.octets.put(IHU, &[0, 0, r0, r1, i0, i1], &[]),
            Some(IpAddr::V4(addr)) => {
                let fields = [1, 0, r0, r1, i0, i1];
                self.octets.put(IHU, &fields, &addr.octets())
            }
            Some(IpAddr::V6(addr)) => {
                let (encoding, start) = encoding(&addr);
                let fields = [encoding, 0, r0, r1, i0, i1];
                self.octets.put(IHU, &fields, &addr.octets()[start..])
            }
        }
    }

    fn put_finite(
        &mut self,
        prefix: &Prefix,
        router: RouterId,
        next_hop: IpAddr,
        seqno: Seqno,
        metric: Metric,
        interval: u16,
    ) -> bool {
        let mut flags = SETS_DEFAULT_PREFIX;
        if self.router != Some(router.octets()) {
            if router_of(&prefix.addr) == router.octets() {
                flags |= SETS_ROUTER_ID;
            } else if !self.octets.put(ROUTER_ID, &[0, 0], &router.octets()) {
                return false;
            }
        }
        let hop_is_set = match next_hop {
            IpAddr::V4(addr) => self.hop4 == Some(addr),
            IpAddr::V6(addr) => self.hop6 == Some(addr),
        };
        if !hop_is_set {
            let fits = match next_hop {
                IpAddr::V4(addr) => self.octets.put(NEXT_HOP, &[1, 0], &addr.octets()),
                IpAddr::V6(addr) => {
                    let (encoding, start) = encoding(&addr);
                    self.octets
                        .put(NEXT_HOP, &[encoding, 0], &addr.octets()[start..])
                }
            };
            if !fits {
                return false;
            }
        }
        if !self.put_update(flags, prefix, interval, seqno, metric) {
            return false;
        }
        self.router = Some(router.octets());
        match next_hop {
            IpAddr::V4(addr) => self.hop4 = Some(addr),
            IpAddr::V6(addr) => self.hop6 = Some(addr),
        }
        self.set_default(prefix);
        true
    }

    fn put_retraction(&mut self, prefix: &Prefix, interval: u16) -> bool {
        let fits = self.put_update(
            SETS_DEFAULT_PREFIX,
            prefix,
            interval,
            Seqno(0),
            Metric::INFINITE,
        );
        if fits {
            self.set_default(prefix);
        }
        fits
    }

    fn set_default(&mut self, prefix: &Prefix) {
        match prefix.addr {
            IpAddr::V4(addr) => self.default4 = Some(addr.octets()),
            IpAddr::V6(addr) => self.default6 = Some(addr.octets()),
        }
    }

    fn put_update(
        &mut self,
        flags: u8,
        prefix: &Prefix,
        interval: u16,
        seqno: Seqno,
        metric: Metric,
    ) -> bool {
        let reached = octets_of(prefix.length);
        match prefix.addr {
            IpAddr::V4(addr) => {
                let octets = &addr.octets()[..reached];
                let omitted = common(octets, self.default4.as_ref().map(|o| &o[..]));
                let fields =
                    update_fields(1, flags, prefix.length, omitted, interval, seqno, metric);
                self.octets.put(UPDATE, &fields, &octets[omitted..])
            }
            IpAddr::V6(addr) => {
                let octets = &addr.octets()[..reached];
                let omitted = common(octets, self.default6.as_ref().map(|o| &o[..]));
                let fields =
                    update_fields(2, flags, prefix.length, omitted, interval, seqno, metric);
                self.octets.put(UPDATE, &fields, &octets[omitted..])
            }
        }
    }

    fn put_prefixed(&mut self, kind: u8, fields: &[u8], prefix: &Prefix) -> bool {
        let reached = octets_of(prefix.length);
        match prefix.addr {
            IpAddr::V4(addr) => self.octets.put(kind, fields, &addr.octets()[..reached]),
            IpAddr::V6(addr) => self.octets.put(kind, fields, &addr.octets()[..reached]),
        }
    }
}

/// The fields of an Update before its prefix.
fn update_fields(
    encoding: u8,
    flags: u8,
    bits: u8,
    omitted: usize,
    interval: u16,
    seqno: Seqno,
    metric: Metric,
) -> [u8; 10] {
    let [i0, i1] = interval.to_be_bytes();
    let [s0, s1] = seqno.0.to_be_bytes();
    let [m0, m1] = metric.0.to_be_bytes();
    let omitted = omitted as u8;
    [encoding, flags, bits, omitted, i0, i1, s0, s1, m0, m1]
}

/// How many octets a prefix of this length reaches into.
fn octets_of(bits: u8) -> usize {
    (usize::from(bits) + 7) / 8
}

fn prefix_encoding(prefix: &Prefix) -> u8 {
    match prefix.addr {
        IpAddr::V4(_) => 1,
        IpAddr::V6(_) => 2,
    }
}

/// The encoding of an address, and from which octet on it is written: link-local within fe80::/64.
fn encoding(addr: &Ipv6Addr) -> (u8, usize) {
    if addr.octets()[..8] == [0xfe, 0x80, 0, 0, 0, 0, 0, 0] {
        (3, 8)
    } else {
        (2, 0)
    }
}

/// How many leading octets the default prefix has too.
fn common(octets: &[u8], default: Option<&[u8]>) -> usize {
    let Some(default) = default else { return 0 };
    octets
        .iter()
        .zip(default)
        .take_while(|(one, other)| one == other)
        .count()
}

/// The router-id that an address gives.
fn router_of(addr: &IpAddr) -> [u8; 8] {
    let mut router = [0; 8];
    match addr {
        IpAddr::V4(addr) => router[4..].copy_from_slice(&addr.octets()),
        IpAddr::V6(addr) => router.copy_from_slice(&addr.octets()[8..]),
    }
    router
}
