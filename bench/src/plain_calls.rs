//! The plain decoder and builder, with the same calls as the proved ones have.

use crate::corpus::Datagram;
use crate::plain::{self, Content, Placed};
use crate::plain_builder::Builder;
use crate::texts;
use std::net::IpAddr;

/// Decodes the datagram, and returns the offset of the last TLV.
#[inline(always)]
pub fn decode(datagram: &Datagram) -> usize {
    decode_octets(&datagram.bytes, &datagram.source_octets)
}

/// A call of its own, as that of the proved decoder is, which takes the source as octets too.
#[inline(never)]
fn decode_octets(bytes: &[u8], source: &[u8]) -> usize {
    match plain::decode(bytes, source_of(source)) {
        Ok(placed) => last_offset(&placed),
        Err(_) => 0,
    }
}

/// The address of 4 or 16 octets.
fn source_of(octets: &[u8]) -> IpAddr {
    if let Ok(ipv4) = <[u8; 4]>::try_from(octets) {
        return IpAddr::from(ipv4);
    }
    IpAddr::from(<[u8; 16]>::try_from(octets).unwrap_or_default())
}

/// The list is read by a call of its own, so that the compiler can't leave out what writes it.
#[inline(never)]
fn last_offset(placed: &[Placed]) -> usize {
    placed.last().map_or(0, |place| place.offset)
}

/// What the datagram means, a line for each TLV, or the refusal.
pub fn text(datagram: &Datagram) -> String {
    texts::text(&plain::decode(&datagram.bytes, datagram.source))
}

/// Builds a datagram of the messages of the datagram this many times over, and returns the length
/// of the last one, which is written.
pub fn build(datagram: &Datagram, turns: usize, built: &mut [u8]) -> usize {
    let source = source_of(&datagram.source_octets);
    let Ok(placed) = plain::decode(&datagram.bytes, source) else {
        return 0;
    };
    let mut length = 0;
    for _ in 0..turns {
        length = build_places(&placed, source, built);
    }
    length
}

/// A call of its own, as that of the proved builder is.
#[inline(never)]
fn build_places(placed: &[Placed], source: IpAddr, built: &mut [u8]) -> usize {
    let mut builder = Builder::new(source);
    for place in placed {
        if let Content::Message(message) = &place.content {
            if !builder.add(message) {
                return 0;
            }
        }
    }
    let datagram = builder.finish();
    let octets = datagram.as_slice();
    if built.len() < octets.len() {
        return 0;
    }
    built[..octets.len()].copy_from_slice(octets);
    octets.len()
}
