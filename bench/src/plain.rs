//! A plain decoder of Babel datagrams (RFC 8966, section 4), to compare with: Rust as one writes
//! it, with running defaults, one pass, and each place pushed into a `Vec`.

use std::net::{IpAddr, Ipv4Addr, Ipv6Addr};

/// A TLV of a datagram: how many octets are before it, and what it means.
#[derive(Clone, Copy, Debug, PartialEq, Eq)]
pub struct Placed {
    pub offset: usize,
    pub content: Content,
}

#[derive(Clone, Copy, Debug, PartialEq, Eq)]
pub enum Content {
    Message(Message),
    State,
    Ignored(Reason),
}

/// Why a TLV is ignored, in the order in which the reasons are tested.
#[derive(Clone, Copy, Debug, PartialEq, Eq)]
pub enum Reason {
    Padding,
    UnknownType,
    Unreadable,
    TailOverrun,
    MandatorySubTlv(u8),
    UnknownEncoding,
    NoDefaultPrefix,
    NoRouterId,
    NoNextHop,
    ZeroInterval,
    ZeroRxcost,
    Wildcard,
    NoHops,
}

/// Why a datagram is refused.
#[derive(Clone, Copy, Debug, PartialEq, Eq)]
pub enum Refusal {
    Short,
    Magic,
    Version,
    BodyLength,
    Tlv(usize),
}

#[derive(Clone, Copy, Debug, PartialEq, Eq)]
pub struct Seqno(pub u16);

#[derive(Clone, Copy, Debug, PartialEq, Eq)]
pub struct Metric(pub u16);

impl Metric {
    pub const INFINITE: Metric = Metric(u16::MAX);
}

/// 8 octets that aren't one of the two reserved values.
#[derive(Clone, Copy, Debug, PartialEq, Eq)]
pub struct RouterId([u8; 8]);

impl RouterId {
    pub fn new(octets: [u8; 8]) -> Option<RouterId> {
        if octets == [0x00; 8] || octets == [0xff; 8] {
            return None;
        }
        Some(RouterId(octets))
    }

    pub fn octets(self) -> [u8; 8] {
        self.0
    }
}

/// An address, the bits of which past the length are zero, and the length.
#[derive(Clone, Copy, Debug, PartialEq, Eq)]
pub struct Prefix {
    pub addr: IpAddr,
    pub length: u8,
}

#[derive(Clone, Copy, Debug, PartialEq, Eq)]
pub enum Message {
    AckRequest {
        opaque: u16,
        interval: u16,
    },
    Ack {
        opaque: u16,
    },
    Hello {
        unicast: bool,
        seqno: Seqno,
        interval: u16,
    },
    Ihu {
        to: Option<IpAddr>,
        rxcost: Metric,
        interval: u16,
    },
    Update {
        prefix: Prefix,
        router: RouterId,
        next_hop: IpAddr,
        seqno: Seqno,
        metric: Metric,
        interval: u16,
    },
    Retraction {
        prefix: Prefix,
        interval: u16,
    },
    RetractAll {
        interval: u16,
    },
    RouteRequest {
        prefix: Prefix,
    },
    DumpRequest,
    SeqnoRequest {
        prefix: Prefix,
        router: RouterId,
        seqno: Seqno,
        hops: u8,
    },
}

const HEADER_LEN: usize = 4;
/// About as many octets as a TLV takes.
const USUAL_TLV_LEN: usize = 12;

const SETS_DEFAULT_PREFIX: u8 = 0x80;
const SETS_ROUTER_ID: u8 = 0x40;

/// What the octets of a datagram from this source address mean, TLV by TLV.
pub fn decode(bytes: &[u8], source: IpAddr) -> Result<Vec<Placed>, Refusal> {
    let body = read_header(bytes)?;
    let mut defaults = Defaults::new(source);
    let mut placed = Vec::with_capacity(body.len() / USUAL_TLV_LEN + 1);
    for tlv in Tlvs::new(body) {
        let tlv = tlv.map_err(|offset| Refusal::Tlv(HEADER_LEN + offset))?;
        let content = match defaults.read(tlv.kind, tlv.payload) {
            Ok(content) => content,
            Err(reason) => Content::Ignored(reason),
        };
        placed.push(Placed {
            offset: HEADER_LEN + tlv.offset,
            content,
        });
    }
    Ok(placed)
}

fn read_header(bytes: &[u8]) -> Result<&[u8], Refusal> {
    let Some((header, body)) = bytes.split_first_chunk::<HEADER_LEN>() else {
        return Err(Refusal::Short);
    };
    let [magic, version, high, low] = *header;
    if magic != 42 {
        return Err(Refusal::Magic);
    }
    if version != 2 {
        return Err(Refusal::Version);
    }
    let length = usize::from(u16::from_be_bytes([high, low]));
    body.get(..length).ok_or(Refusal::BodyLength)
}

struct Tlv<'a> {
    offset: usize,
    kind: u8,
    payload: &'a [u8],
}

/// The TLVs of a body, or the sub-TLVs of a TLV; an offset in place of the one that runs past the
/// end.
struct Tlvs<'a> {
    bytes: &'a [u8],
    offset: usize,
}

impl<'a> Tlvs<'a> {
    fn new(bytes: &'a [u8]) -> Tlvs<'a> {
        Tlvs { bytes, offset: 0 }
    }
}

impl<'a> Iterator for Tlvs<'a> {
    type Item = Result<Tlv<'a>, usize>;

    fn next(&mut self) -> Option<Self::Item> {
        let offset = self.offset;
        let (kind, payload) = match *self.bytes.get(offset..)? {
            [] => return None,
            [0, ..] => (0, &[][..]),
            [kind, length, ref rest @ ..] if rest.len() >= usize::from(length) => {
                (kind, &rest[..usize::from(length)])
            }
            _ => {
                self.offset = self.bytes.len();
                return Some(Err(offset));
            }
        };
        self.offset += if kind == 0 { 1 } else { 2 + payload.len() };
        Some(Ok(Tlv {
            offset,
            kind,
            payload,
        }))
    }
}

/// What a TLV takes from earlier ones.
struct Defaults {
    prefix4: Option<[u8; 4]>,
    prefix6: Option<[u8; 16]>,
    router: Option<[u8; 8]>,
    hop4: Option<Ipv4Addr>,
    hop6: Option<Ipv6Addr>,
}

impl Defaults {
    fn new(source: IpAddr) -> Defaults {
        let (hop4, hop6) = match source {
            IpAddr::V4(addr) => (Some(addr), None),
            IpAddr::V6(addr) => (None, Some(addr)),
        };
        Defaults {
            prefix4: None,
            prefix6: None,
            router: None,
            hop4,
            hop6,
        }
    }

    fn read(&mut self, kind: u8, payload: &[u8]) -> Result<Content, Reason> {
        match kind {
            0 | 1 => Err(Reason::Padding),
            2 => read_ack_request(payload).map(Content::Message),
            3 => read_ack(payload).map(Content::Message),
            4 => read_hello(payload).map(Content::Message),
            5 => read_ihu(payload).map(Content::Message),
            6 => self.read_router_id(payload),
            7 => self.read_next_hop(payload),
            8 => self.read_update(payload).map(Content::Message),
            9 => read_route_request(payload).map(Content::Message),
            10 => read_seqno_request(payload).map(Content::Message),
            _ => Err(Reason::UnknownType),
        }
    }

    fn read_router_id(&mut self, payload: &[u8]) -> Result<Content, Reason> {
        let (fields, tail) = split_fields::<10>(payload)?;
        let [_, _, octets @ ..] = *fields;
        self.router = Some(octets);
        check_tail(tail)?;
        Ok(Content::State)
    }

    fn read_next_hop(&mut self, payload: &[u8]) -> Result<Content, Reason> {
        let ([ae, _], rest) = split_fields::<2>(payload)?;
        let tail = match ae {
            1 => {
                let (octets, tail) = split_fields::<4>(rest)?;
                self.hop4 = Some(Ipv4Addr::from(*octets));
                tail
            }
            2 => {
                let (octets, tail) = split_fields::<16>(rest)?;
                self.hop6 = Some(Ipv6Addr::from(*octets));
                tail
            }
            3 => {
                let (octets, tail) = split_fields::<8>(rest)?;
                self.hop6 = Some(link_local(octets));
                tail
            }
            _ => return Err(Reason::UnknownEncoding),
        };
        check_tail(tail)?;
        Ok(Content::State)
    }

    fn read_update(&mut self, payload: &[u8]) -> Result<Message, Reason> {
        let (fields, rest) = split_fields::<10>(payload)?;
        let fields = UpdateFields::new(fields);
        match fields.ae {
            0 => fields.read_wildcard(rest),
            1 => {
                let (octets, tail) = fields.read_octets(self.prefix4, rest)?;
                if let Some(octets) = octets {
                    if fields.flags & SETS_DEFAULT_PREFIX != 0 {
                        self.prefix4 = Some(octets);
                    }
                    if fields.flags & SETS_ROUTER_ID != 0 {
                        let [a, b, c, d] = octets;
                        self.router = Some([0, 0, 0, 0, a, b, c, d]);
                    }
                }
                check_tail(tail)?;
                let addr = IpAddr::from(octets.ok_or(Reason::NoDefaultPrefix)?);
                fields.message(addr, self.router, self.hop4.map(IpAddr::V4))
            }
            2 => {
                let (octets, tail) = fields.read_octets(self.prefix6, rest)?;
                if let Some(octets) = octets {
                    if fields.flags & SETS_DEFAULT_PREFIX != 0 {
                        self.prefix6 = Some(octets);
                    }
                    if fields.flags & SETS_ROUTER_ID != 0 {
                        self.router = octets.last_chunk().copied();
                    }
                }
                check_tail(tail)?;
                let addr = IpAddr::from(octets.ok_or(Reason::NoDefaultPrefix)?);
                fields.message(addr, self.router, self.hop6.map(IpAddr::V6))
            }
            _ => Err(Reason::UnknownEncoding),
        }
    }
}

/// The fields that each Update has.
struct UpdateFields {
    ae: u8,
    flags: u8,
    plen: u8,
    omitted: u8,
    interval: u16,
    seqno: Seqno,
    metric: Metric,
}

impl UpdateFields {
    fn new(fields: &[u8; 10]) -> UpdateFields {
        let [ae, flags, plen, omitted, i0, i1, s0, s1, m0, m1] = *fields;
        UpdateFields {
            ae,
            flags,
            plen,
            omitted,
            interval: u16::from_be_bytes([i0, i1]),
            seqno: Seqno(u16::from_be_bytes([s0, s1])),
            metric: Metric(u16::from_be_bytes([m0, m1])),
        }
    }

    fn read_wildcard(&self, tail: &[u8]) -> Result<Message, Reason> {
        check_tail(tail)?;
        if self.metric != Metric::INFINITE || self.plen != 0 || self.omitted != 0 {
            return Err(Reason::Wildcard);
        }
        Ok(Message::RetractAll {
            interval: self.interval,
        })
    }

    /// The octets of the prefix, `None` if they need a default prefix and there is none, and the
    /// octets after them.
    fn read_octets<'a, const N: usize>(
        &self,
        default: Option<[u8; N]>,
        rest: &'a [u8],
    ) -> Result<(Option<[u8; N]>, &'a [u8]), Reason> {
        if usize::from(self.plen) > 8 * N {
            return Err(Reason::Unreadable);
        }
        let full = usize::from(self.plen).div_ceil(8);
        let omitted = usize::from(self.omitted).min(full);
        let (written, tail) = rest
            .split_at_checked(full - omitted)
            .ok_or(Reason::Unreadable)?;
        if self.omitted == 0 {
            return Ok((Some(spread(&[], written, self.plen)), tail));
        }
        let octets = default.map(|default| spread(&default[..omitted], written, self.plen));
        Ok((octets, tail))
    }

    fn message(
        &self,
        addr: IpAddr,
        router: Option<[u8; 8]>,
        next_hop: Option<IpAddr>,
    ) -> Result<Message, Reason> {
        let prefix = Prefix {
            addr,
            length: self.plen,
        };
        if self.metric == Metric::INFINITE {
            return Ok(Message::Retraction {
                prefix,
                interval: self.interval,
            });
        }
        let router = router.and_then(RouterId::new).ok_or(Reason::NoRouterId)?;
        let next_hop = next_hop.ok_or(Reason::NoNextHop)?;
        if self.interval == 0 {
            return Err(Reason::ZeroInterval);
        }
        Ok(Message::Update {
            prefix,
            router,
            next_hop,
            seqno: self.seqno,
            metric: self.metric,
            interval: self.interval,
        })
    }
}

fn read_ack_request(payload: &[u8]) -> Result<Message, Reason> {
    let ([_, _, o0, o1, i0, i1], tail) = split_fields::<6>(payload)?;
    check_tail(tail)?;
    Ok(Message::AckRequest {
        opaque: u16::from_be_bytes([*o0, *o1]),
        interval: u16::from_be_bytes([*i0, *i1]),
    })
}

fn read_ack(payload: &[u8]) -> Result<Message, Reason> {
    let (opaque, tail) = split_fields::<2>(payload)?;
    check_tail(tail)?;
    Ok(Message::Ack {
        opaque: u16::from_be_bytes(*opaque),
    })
}

fn read_hello(payload: &[u8]) -> Result<Message, Reason> {
    let ([flags, _, s0, s1, i0, i1], tail) = split_fields::<6>(payload)?;
    check_tail(tail)?;
    Ok(Message::Hello {
        unicast: flags & 0x80 != 0,
        seqno: Seqno(u16::from_be_bytes([*s0, *s1])),
        interval: u16::from_be_bytes([*i0, *i1]),
    })
}

fn read_ihu(payload: &[u8]) -> Result<Message, Reason> {
    let ([ae, _, c0, c1, i0, i1], rest) = split_fields::<6>(payload)?;
    let (to, tail) = match ae {
        0 => (None, rest),
        1 => {
            let (octets, tail) = split_fields::<4>(rest)?;
            (Some(IpAddr::from(*octets)), tail)
        }
        2 => {
            let (octets, tail) = split_fields::<16>(rest)?;
            (Some(IpAddr::from(*octets)), tail)
        }
        3 => {
            let (octets, tail) = split_fields::<8>(rest)?;
            (Some(IpAddr::V6(link_local(octets))), tail)
        }
        _ => return Err(Reason::UnknownEncoding),
    };
    check_tail(tail)?;
    let rxcost = Metric(u16::from_be_bytes([*c0, *c1]));
    let interval = u16::from_be_bytes([*i0, *i1]);
    if interval == 0 {
        return Err(Reason::ZeroInterval);
    }
    if rxcost.0 == 0 {
        return Err(Reason::ZeroRxcost);
    }
    Ok(Message::Ihu {
        to,
        rxcost,
        interval,
    })
}

fn read_route_request(payload: &[u8]) -> Result<Message, Reason> {
    let ([ae, plen], rest) = split_fields::<2>(payload)?;
    if *ae == 0 {
        check_tail(rest)?;
        return if *plen == 0 {
            Ok(Message::DumpRequest)
        } else {
            Err(Reason::Wildcard)
        };
    }
    let (prefix, tail) = read_prefix(*ae, *plen, rest)?;
    check_tail(tail)?;
    Ok(Message::RouteRequest { prefix })
}

fn read_seqno_request(payload: &[u8]) -> Result<Message, Reason> {
    let ([ae, plen, s0, s1, hops, _, octets @ ..], rest) = split_fields::<14>(payload)?;
    if *ae == 0 {
        check_tail(rest)?;
        return Err(Reason::Wildcard);
    }
    let (prefix, tail) = read_prefix(*ae, *plen, rest)?;
    check_tail(tail)?;
    let router = RouterId::new(*octets).ok_or(Reason::NoRouterId)?;
    if *hops == 0 {
        return Err(Reason::NoHops);
    }
    Ok(Message::SeqnoRequest {
        prefix,
        router,
        seqno: Seqno(u16::from_be_bytes([*s0, *s1])),
        hops: *hops,
    })
}

/// A prefix that is written whole.
fn read_prefix(ae: u8, plen: u8, rest: &[u8]) -> Result<(Prefix, &[u8]), Reason> {
    let width = match ae {
        1 => 32,
        2 => 128,
        _ => return Err(Reason::UnknownEncoding),
    };
    if plen > width {
        return Err(Reason::Unreadable);
    }
    let (written, tail) = rest
        .split_at_checked(usize::from(plen).div_ceil(8))
        .ok_or(Reason::Unreadable)?;
    let addr = match ae {
        1 => IpAddr::from(spread::<4>(&[], written, plen)),
        _ => IpAddr::from(spread::<16>(&[], written, plen)),
    };
    Ok((Prefix { addr, length: plen }, tail))
}

/// The octets of a prefix: those from the default prefix, those written, zeros. The bits past the
/// length are cleared.
fn spread<const N: usize>(default: &[u8], written: &[u8], plen: u8) -> [u8; N] {
    let mut octets = [0; N];
    octets[..default.len()].copy_from_slice(default);
    octets[default.len()..][..written.len()].copy_from_slice(written);
    if plen % 8 != 0 {
        octets[usize::from(plen / 8)] &= !(0xff >> (plen % 8));
    }
    octets
}

fn link_local(interface: &[u8; 8]) -> Ipv6Addr {
    let mut octets = [0; 16];
    octets[..2].copy_from_slice(&[0xfe, 0x80]);
    octets[8..].copy_from_slice(interface);
    Ipv6Addr::from(octets)
}

fn split_fields<const N: usize>(payload: &[u8]) -> Result<(&[u8; N], &[u8]), Reason> {
    payload.split_first_chunk().ok_or(Reason::Unreadable)
}

/// Whether the sub-TLVs let the TLV be read.
fn check_tail(tail: &[u8]) -> Result<(), Reason> {
    if tail.is_empty() {
        return Ok(());
    }
    if Tlvs::new(tail).any(|sub| sub.is_err()) {
        return Err(Reason::TailOverrun);
    }
    for sub in Tlvs::new(tail).flatten() {
        if sub.kind >= 128 {
            return Err(Reason::MandatorySubTlv(sub.kind));
        }
    }
    Ok(())
}
