//! Times of the proved speaker compared with a plain one.
//!
//! `speaker rounds ROUNDS` checks that both send the same and prints times; `speaker turns CASE
//! proved|plain N` takes turns, for a profiler.

use babel_bench::{proved, speaker_cases};
use std::fs;
use std::hint::black_box;
use std::process::ExitCode;

const USAGE: &str = "usage: speaker rounds ROUNDS
       speaker turns CASE proved|plain N";

fn main() -> ExitCode {
    let words: Vec<String> = std::env::args().skip(1).collect();
    let words: Vec<&str> = words.iter().map(String::as_str).collect();
    let done = match words[..] {
        ["rounds", rounds] => rounds.parse().map_err(|_| USAGE.to_string()).and_then(time),
        ["turns", case, speaker, turns] => take_turns(case, speaker, turns),
        _ => Err(USAGE.to_string()),
    };
    match done {
        Ok(()) => ExitCode::SUCCESS,
        Err(why) => {
            eprintln!("speaker: {why}");
            ExitCode::FAILURE
        }
    }
}

type Run = fn(&[u8], &[u8], usize) -> u64;

const PROVED: Run = proved::run_speaker;
const PLAIN: Run = babel_bench::plain_speaker::run;

fn time(rounds: usize) -> Result<(), String> {
    println!("case                            | ns a turn: proved     plain  ratio (least of the rounds, processor time)");
    for case in speaker_cases::all() {
        let (ours, plain) = (
            PROVED(&case.setup, &case.turn, 3),
            PLAIN(&case.setup, &case.turn, 3),
        );
        if ours != plain || ours == 0 {
            return Err(format!("{}: proved {ours}, plain {plain}", case.name));
        }
        let turns = [turns(PROVED, &case), turns(PLAIN, &case)];
        let (mut ours, mut plain) = (f64::INFINITY, f64::INFINITY);
        for _ in 0..rounds {
            ours = ours.min(turn(PROVED, &case, turns[0]));
            plain = plain.min(turn(PLAIN, &case, turns[1]));
        }
        println!(
            "{:31} | {ours:17.1} {plain:9.1}  {:5.2}",
            case.name,
            ours / plain
        );
    }
    Ok(())
}

/// So many turns that they take far longer than the setup.
fn turns(run: Run, case: &speaker_cases::Case) -> usize {
    let setup = once(run, case, 0);
    let mut turns = 1;
    while once(run, case, turns) < 3.0 * setup + 2e7 {
        turns *= 3;
    }
    turns
}

/// Nanoseconds a turn: those of many turns less those of none.
fn turn(run: Run, case: &speaker_cases::Case, turns: usize) -> f64 {
    let none = once(run, case, 0);
    let many = once(run, case, turns);
    (many - none) / (turns * case.times) as f64
}

/// Nanoseconds of processor time.
fn once(run: Run, case: &speaker_cases::Case, turns: usize) -> f64 {
    let start = processor_time();
    black_box(run(black_box(&case.setup), black_box(&case.turn), turns));
    processor_time() - start
}

/// The processor time of this thread so far, which other programs don't lengthen.
fn processor_time() -> f64 {
    let text = fs::read_to_string("/proc/thread-self/schedstat").expect("Linux has schedstat");
    let first = text.split(' ').next().expect("it has three numbers");
    first.parse().expect("it is a number")
}

fn take_turns(case: &str, speaker: &str, turns: &str) -> Result<(), String> {
    let turns = turns.parse().map_err(|_| USAGE)?;
    let run = match speaker {
        "proved" => PROVED,
        "plain" => PLAIN,
        _ => return Err(USAGE.to_string()),
    };
    let cases = speaker_cases::all();
    let Some(case) = cases.iter().find(|c| c.name == case) else {
        return Err(format!("{case} isn't a case"));
    };
    black_box(run(&case.setup, &case.turn, turns));
    Ok(())
}
