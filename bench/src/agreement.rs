//! Whether both decoders read each datagram alike.

use crate::corpus::Datagram;
use crate::{plain_calls, proved};

/// How much of each kind the datagrams have.
#[derive(Default)]
pub struct Counts {
    pub places: usize,
    pub messages: usize,
    pub reasons: usize,
    pub refused: usize,
}

impl Counts {
    /// Counts the lines of a datagram.
    fn add(&mut self, text: &str) {
        for line in text.lines() {
            let (first, content) = line.split_once(' ').unwrap_or((line, ""));
            if first == "refused" {
                self.refused += 1;
                continue;
            }
            self.places += 1;
            if content.starts_with("ignored ") {
                self.reasons += 1;
            } else if content != "state" {
                self.messages += 1;
            }
        }
    }
}

/// Compares all that both decoders read, as text, which names each field of each TLV. The first
/// datagram that they read differently is the error.
pub fn check(datagrams: &[Datagram]) -> Result<Counts, String> {
    let mut counts = Counts::default();
    for (place, datagram) in datagrams.iter().enumerate() {
        let proved = proved::text(datagram);
        let plain = plain_calls::text(datagram);
        if proved != plain || proved.is_empty() != plain.is_empty() {
            let number = place + 1;
            return Err(format!("datagram {number}: proved\n{proved}plain\n{plain}"));
        }
        let last = proved::decode(datagram);
        if last != plain_calls::decode(datagram) || last != proved::decode_kept(datagram, 2) {
            return Err(format!("datagram {}: not the same last place", place + 1));
        }
        counts.add(&proved);
    }
    Ok(counts)
}
