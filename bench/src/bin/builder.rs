//! Times of the proved builder compared with a plain one, and the octets that full tables take.
//!
//! `builder rounds ROUNDS [CORPUS]` checks that both build the same and prints times; `builder
//! datagrams COUNT SEED` prints datagrams of random messages that the proved builder built, as
//! lines `<source> <hex>`; `builder table` prints octets.

use babel_bench::{builds, corpus, plain_calls, proved};
use std::process::ExitCode;

const USAGE: &str = "usage: builder rounds ROUNDS [CORPUS]
       builder datagrams COUNT SEED
       builder turns CLASS proved|plain N
       builder table";

fn main() -> ExitCode {
    let words: Vec<String> = std::env::args().skip(1).collect();
    let words: Vec<&str> = words.iter().map(String::as_str).collect();
    let done = match words[..] {
        ["rounds", rounds] => time(rounds, None),
        ["rounds", rounds, path] => time(rounds, Some(path)),
        ["datagrams", count, seed] => print_datagrams(count, seed),
        ["turns", class, builder, turns] => take_turns(class, builder, turns),
        ["table"] => {
            builds::print_tables();
            Ok(())
        }
        _ => Err(USAGE.to_string()),
    };
    match done {
        Ok(()) => ExitCode::SUCCESS,
        Err(why) => {
            eprintln!("builder: {why}");
            ExitCode::FAILURE
        }
    }
}

fn time(rounds: &str, path: Option<&str>) -> Result<(), String> {
    let rounds: usize = rounds.parse().map_err(|_| USAGE)?;
    let mut datagrams = builds::random(2000, 1);
    if let Some(path) = path {
        datagrams.extend(corpus::read(path)?);
    }
    let same = builds::check(&datagrams)?;
    println!("{same} datagrams of messages, of which both builders make the same octets");
    println!("class              messages  octets | ns a datagram: proved  plain  ratio | least: proved  plain  ratio");
    for (name, datagram) in builds::classes() {
        builds::check(std::slice::from_ref(&datagram))?;
        let times = builds::measure(&datagram, rounds);
        println!(
            "{name:18} {:8}  {:6} | {:22.1}  {:5.1}  {:5.3} | {:13.1}  {:5.1}  {:5.3}",
            builds::messages(&datagram),
            builds::length(&datagram),
            times.proved,
            times.plain,
            times.ratio,
            times.least_proved,
            times.least_plain,
            times.least_proved / times.least_plain,
        );
    }
    Ok(())
}

fn print_datagrams(count: &str, seed: &str) -> Result<(), String> {
    let count: usize = count.parse().map_err(|_| USAGE)?;
    let seed: u64 = seed.parse().map_err(|_| USAGE)?;
    for datagram in builds::random(count, seed) {
        let hex: String = builds::build(&datagram)
            .iter()
            .map(|octet| format!("{octet:02x}"))
            .collect();
        println!("{} {hex}", datagram.source);
    }
    Ok(())
}

fn take_turns(class: &str, builder: &str, turns: &str) -> Result<(), String> {
    let turns: usize = turns.parse().map_err(|_| USAGE)?;
    let build = match builder {
        "proved" => proved::build,
        "plain" => plain_calls::build,
        _ => return Err(USAGE.to_string()),
    };
    let classes = builds::classes();
    let Some((_, datagram)) = classes.iter().find(|(name, _)| *name == class) else {
        return Err(format!("{class} isn't a class"));
    };
    std::hint::black_box(build(datagram, turns, &mut [0; 1024]));
    Ok(())
}
