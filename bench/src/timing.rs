//! Times of both decoders, in rounds that take turns.

use crate::corpus::Datagram;
use std::hint::black_box;
use std::time::Instant;

/// How long a decoder's part of a round is to take, in nanoseconds.
const PART: f64 = 25e6;

/// Nanoseconds a datagram.
pub struct Times {
    /// The median over the rounds of each decoder.
    pub proved: f64,
    pub plain: f64,
    /// The least of them.
    pub least_proved: f64,
    pub least_plain: f64,
    /// The median of the rounds' ratios.
    pub ratio: f64,
}

/// Decodes all datagrams as often as it takes, in this many rounds; each decoder begins every other
/// one.
pub fn measure(
    datagrams: &[&Datagram],
    rounds: usize,
    proved: impl Fn(&Datagram) -> usize,
    plain: impl Fn(&Datagram) -> usize,
) -> Times {
    // The first passes warm both up.
    let once = time(datagrams, 3, &proved).max(time(datagrams, 3, &plain));
    let turns = (PART / (once * datagrams.len() as f64)).ceil().max(1.0) as usize;
    let (mut proved_times, mut plain_times) = (Vec::new(), Vec::new());
    for round in 0..rounds {
        if round % 2 == 0 {
            proved_times.push(time(datagrams, turns, &proved));
            plain_times.push(time(datagrams, turns, &plain));
        } else {
            plain_times.push(time(datagrams, turns, &plain));
            proved_times.push(time(datagrams, turns, &proved));
        }
    }
    let ratios = proved_times.iter().zip(&plain_times).map(|(a, b)| a / b);
    Times {
        ratio: median(ratios.collect()),
        least_proved: proved_times.iter().copied().fold(f64::INFINITY, f64::min),
        least_plain: plain_times.iter().copied().fold(f64::INFINITY, f64::min),
        proved: median(proved_times),
        plain: median(plain_times),
    }
}

/// Nanoseconds a datagram, over this many turns through all of them.
fn time(datagrams: &[&Datagram], turns: usize, decode: impl Fn(&Datagram) -> usize) -> f64 {
    let start = Instant::now();
    for _ in 0..turns {
        for datagram in datagrams {
            black_box(decode(black_box(datagram)));
        }
    }
    start.elapsed().as_nanos() as f64 / (turns * datagrams.len()) as f64
}

fn median(mut values: Vec<f64>) -> f64 {
    values.sort_by(f64::total_cmp);
    values[values.len() / 2]
}
