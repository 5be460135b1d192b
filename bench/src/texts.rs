//! What the plain decoder reads, as text in the form of `babel show`.

use crate::plain::{Content, Message, Placed, Prefix, Reason, Refusal, RouterId};
use std::fmt::{self, Write};
use std::net::IpAddr;

/// The lines of a datagram.
pub fn text(meaning: &Result<Vec<Placed>, Refusal>) -> String {
    let mut text = String::new();
    let written = match meaning {
        Ok(placed) => placed
            .iter()
            .try_for_each(|place| writeln!(text, "{} {}", place.offset, place.content)),
        Err(refusal) => writeln!(text, "refused {refusal}"),
    };
    written.expect("a String takes each text");
    text
}

impl fmt::Display for Refusal {
    fn fmt(&self, f: &mut fmt::Formatter<'_>) -> fmt::Result {
        match self {
            Refusal::Short => write!(f, "P1"),
            Refusal::Magic => write!(f, "P2"),
            Refusal::Version => write!(f, "P3"),
            Refusal::BodyLength => write!(f, "P4"),
            Refusal::Tlv(offset) => write!(f, "P5 {offset}"),
        }
    }
}

impl fmt::Display for Content {
    fn fmt(&self, f: &mut fmt::Formatter<'_>) -> fmt::Result {
        match self {
            Content::Message(message) => write!(f, "{message}"),
            Content::State => write!(f, "state"),
            Content::Ignored(reason) => write!(f, "ignored {reason}"),
        }
    }
}

impl fmt::Display for Reason {
    fn fmt(&self, f: &mut fmt::Formatter<'_>) -> fmt::Result {
        match self {
            Reason::Padding => write!(f, "I1"),
            Reason::UnknownType => write!(f, "I2"),
            Reason::Unreadable => write!(f, "I3"),
            Reason::TailOverrun => write!(f, "I4"),
            Reason::MandatorySubTlv(kind) => write!(f, "I5 {kind}"),
            Reason::UnknownEncoding => write!(f, "I6"),
            Reason::NoDefaultPrefix => write!(f, "I7"),
            Reason::NoRouterId => write!(f, "I8"),
            Reason::NoNextHop => write!(f, "I9"),
            Reason::ZeroInterval => write!(f, "I10"),
            Reason::ZeroRxcost => write!(f, "I11"),
            Reason::Wildcard => write!(f, "I12"),
            Reason::NoHops => write!(f, "I13"),
        }
    }
}

impl fmt::Display for Message {
    fn fmt(&self, f: &mut fmt::Formatter<'_>) -> fmt::Result {
        match self {
            Message::AckRequest { opaque, interval } => {
                write!(f, "ack-request opaque {opaque} interval {interval}")
            }
            Message::Ack { opaque } => write!(f, "ack opaque {opaque}"),
            Message::Hello {
                unicast,
                seqno,
                interval,
            } => {
                let kind = if *unicast { "unicast" } else { "multicast" };
                write!(f, "hello {kind} seqno {} interval {interval}", seqno.0)
            }
            Message::Ihu {
                to,
                rxcost,
                interval,
            } => {
                match to {
                    Some(addr) => write!(f, "ihu to {}", Addr(*addr))?,
                    None => write!(f, "ihu to any")?,
                }
                write!(f, " rxcost {} interval {interval}", rxcost.0)
            }
            Message::Update {
                prefix,
                router,
                next_hop,
                seqno,
                metric,
                interval,
            } => {
                let next_hop = Addr(*next_hop);
                let (seqno, metric) = (seqno.0, metric.0);
                write!(f, "update {prefix} router {router} next-hop {next_hop}")?;
                write!(f, " seqno {seqno} metric {metric} interval {interval}")
            }
            Message::Retraction { prefix, interval } => {
                write!(f, "retract {prefix} interval {interval}")
            }
            Message::RetractAll { interval } => write!(f, "retract-all interval {interval}"),
            Message::RouteRequest { prefix } => write!(f, "route-request {prefix}"),
            Message::DumpRequest => write!(f, "dump-request"),
            Message::SeqnoRequest {
                prefix,
                router,
                seqno,
                hops,
            } => {
                let seqno = seqno.0;
                write!(
                    f,
                    "seqno-request {prefix} router {router} seqno {seqno} hops {hops}"
                )
            }
        }
    }
}

impl fmt::Display for Prefix {
    fn fmt(&self, f: &mut fmt::Formatter<'_>) -> fmt::Result {
        write!(f, "{}/{}", Addr(self.addr), self.length)
    }
}

impl fmt::Display for RouterId {
    fn fmt(&self, f: &mut fmt::Formatter<'_>) -> fmt::Result {
        write!(f, "{:016x}", u64::from_be_bytes(self.octets()))
    }
}

/// An address in the form of `babel show`, with eight groups for IPv6.
struct Addr(IpAddr);

impl fmt::Display for Addr {
    fn fmt(&self, f: &mut fmt::Formatter<'_>) -> fmt::Result {
        match self.0 {
            IpAddr::V4(addr) => write!(f, "{addr}"),
            IpAddr::V6(addr) => {
                let [a, b, c, d, e, g, h, i] = addr.segments();
                write!(f, "{a:x}:{b:x}:{c:x}:{d:x}:{e:x}:{g:x}:{h:x}:{i:x}")
            }
        }
    }
}
