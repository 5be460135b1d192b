//! Times of the proved decoder compared with a plain one.
//!
//! `time rounds CORPUS ROUNDS` checks that both read the same and prints times; `time turns CORPUS
//! CLASS proved|kept|plain|none N` decodes the datagrams of a class N times, for callgrind to
//! count: `kept` with the proved decoder into a list that is kept.

use babel_bench::corpus::Datagram;
use babel_bench::{agreement, corpus, plain_calls, proved, timing};
use std::process::ExitCode;

/// The classes of datagrams, by their least and greatest length in octets.
const CLASSES: [(&str, usize, usize); 3] = [
    ("all", 0, usize::MAX),
    ("small", 0, 24),
    ("large", 500, usize::MAX),
];

const USAGE: &str = "usage: time rounds CORPUS ROUNDS
       time turns CORPUS all|small|large proved|kept|plain|none N";

fn main() -> ExitCode {
    let words: Vec<String> = std::env::args().skip(1).collect();
    let words: Vec<&str> = words.iter().map(String::as_str).collect();
    let done = match words[..] {
        ["rounds", path, rounds] => time(path, rounds),
        ["turns", path, class, decoder, turns] => take_turns(path, class, decoder, turns),
        _ => Err(USAGE.to_string()),
    };
    match done {
        Ok(()) => ExitCode::SUCCESS,
        Err(why) => {
            eprintln!("time: {why}");
            ExitCode::FAILURE
        }
    }
}

/// The datagrams of a class.
fn class_of<'a>(datagrams: &'a [Datagram], name: &str) -> Result<Vec<&'a Datagram>, String> {
    let Some(&(_, least, most)) = CLASSES.iter().find(|class| class.0 == name) else {
        return Err(format!("{name} isn't a class"));
    };
    let fits = |datagram: &&Datagram| (least..=most).contains(&datagram.bytes.len());
    Ok(datagrams.iter().filter(fits).collect())
}

fn time(path: &str, rounds: &str) -> Result<(), String> {
    let rounds: usize = rounds.parse().map_err(|_| USAGE)?;
    let datagrams = corpus::read(path)?;
    let counts = agreement::check(&datagrams)?;
    println!(
        "{} datagrams, which both decoders read alike: {} places, {} messages, {} reasons, {} refused",
        datagrams.len(),
        counts.places,
        counts.messages,
        counts.reasons,
        counts.refused
    );
    println!("class  datagrams  tlvs | ns a datagram: proved  plain  ratio | least: proved  plain  ratio | ns a TLV: proved  plain");
    for (name, _, _) in CLASSES {
        let class = class_of(&datagrams, name)?;
        if class.is_empty() {
            continue;
        }
        let places: usize = class
            .iter()
            .map(|datagram| proved::text(datagram).lines().count())
            .sum();
        let tlvs = places as f64 / class.len() as f64;
        let times = timing::measure(&class, rounds, proved::decode, plain_calls::decode);
        println!(
            "{name:5}  {:9}  {tlvs:4.1} | {:22.1}  {:5.1}  {:5.3} | {:13.1}  {:5.1}  {:5.3} | {:16.1}  {:5.1}",
            class.len(),
            times.proved,
            times.plain,
            times.ratio,
            times.least_proved,
            times.least_plain,
            times.least_proved / times.least_plain,
            times.proved / tlvs,
            times.plain / tlvs,
        );
    }
    Ok(())
}

fn take_turns(path: &str, class: &str, decoder: &str, turns: &str) -> Result<(), String> {
    let turns: usize = turns.parse().map_err(|_| USAGE)?;
    let datagrams = corpus::read(path)?;
    let class = class_of(&datagrams, class)?;
    if decoder == "kept" {
        for datagram in &class {
            std::hint::black_box(proved::decode_kept(std::hint::black_box(datagram), turns));
        }
        return Ok(());
    }
    let decode = match decoder {
        "proved" => proved::decode,
        "plain" => plain_calls::decode,
        "none" => |_: &Datagram| 0,
        _ => return Err(USAGE.to_string()),
    };
    for _ in 0..turns {
        for datagram in &class {
            std::hint::black_box(decode(std::hint::black_box(datagram)));
        }
    }
    Ok(())
}
