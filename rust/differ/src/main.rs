//! Compares the proved library with the second interpreter.
//!
//! Each case is one call, made on both with the same bytes. Everything that a
//! call can reach is compared: form, memory, answer, refusal, and the guard
//! bytes around each buffer.

mod buffer;
mod kinds;
mod pair;
mod record;
mod report;
mod rng;
mod tally;

use std::process::ExitCode;
use std::time::{Duration, Instant};

use pair::{Pair, Wrong};
use rng::Rng;

const USAGE: &str = "\
usage: differ [--seed N] [--cases N | --seconds N] [--only KIND] [--round N] [--wrong WHAT]

Compares the proved library with the second interpreter. The same seed and
number of cases make the same calls.

  --seed N      another seed (280 without it)
  --cases N     at least N calls, in whole rounds
  --seconds N   rounds until N seconds have passed
  --only KIND   steps, runs, delivery, valid, refusals or withheld alone
  --round N     that one round, to see a mismatch again
  --wrong WHAT  plants an error on the second's side, which must be found:
                form, memory, answer, refusal, guard; or guest, which
                starts a withheld guest with another register

Status 0: no mismatch, and nothing that was to be met is missing. Status 1:
a mismatch or a gap; with --wrong, a mismatch. Status 2: wrong usage.
";

/// About a minute and a half of one core.
const DEFAULT_CASES: u64 = 12_000_000;

struct Options {
    seed: u64,
    cases: u64,
    seconds: Option<u64>,
    only: Option<String>,
    round: Option<u64>,
    wrong: Option<Wrong>,
}

impl Options {
    /// A part of the kinds cannot meet everything. And where an error is
    /// planted, nothing but its being found may give status 1.
    fn is_whole(&self) -> bool {
        self.only.is_none() && self.round.is_none() && self.wrong.is_none()
    }
}

fn options() -> Result<Options, String> {
    let mut options = Options { seed: 280, cases: DEFAULT_CASES, seconds: None, only: None, round: None, wrong: None };
    let mut arguments = std::env::args().skip(1);
    while let Some(name) = arguments.next() {
        let value = arguments.next().ok_or(format!("{name} needs a value"))?;
        let number = || value.parse::<u64>().map_err(|_| format!("{name}: {value} is no number"));
        match name.as_str() {
            "--seed" => options.seed = number()?,
            "--cases" => options.cases = number()?,
            "--seconds" => options.seconds = Some(number()?),
            "--round" => options.round = Some(number()?),
            "--only" => options.only = Some(known_kind(&value)?),
            "--wrong" => options.wrong = Some(known_wrong(&value)?),
            _ => return Err(format!("no option {name}")),
        }
    }
    Ok(options)
}

fn known_kind(name: &str) -> Result<String, String> {
    match kinds::ALL.iter().find(|(kind, _)| *kind == name) {
        Some(_) => Ok(name.to_string()),
        None => Err(format!("--only: no kind {name}")),
    }
}

fn known_wrong(name: &str) -> Result<Wrong, String> {
    match Wrong::ALL.iter().find(|(wrong, _)| *wrong == name) {
        Some((_, wrong)) => Ok(*wrong),
        None => Err(format!("--wrong: nothing named {name}")),
    }
}

fn one_round(pair: &mut Pair, options: &Options, round: u64) {
    pair.round = round;
    for (stream, (name, kind)) in kinds::ALL.iter().enumerate() {
        if options.only.as_deref().is_none_or(|only| only == *name) {
            let stream = round * kinds::ALL.len() as u64 + stream as u64;
            kind(pair, &mut Rng::new(options.seed, stream));
        }
    }
}

fn all_rounds(pair: &mut Pair, options: &Options) {
    if let Some(round) = options.round {
        return one_round(pair, options, round);
    }
    let start = Instant::now();
    for round in 0.. {
        one_round(pair, options, round);
        let done = match options.seconds {
            Some(seconds) => start.elapsed() >= Duration::from_secs(seconds),
            None => pair.tally.all_calls() >= options.cases,
        };
        if done {
            break;
        }
    }
}

fn main() -> ExitCode {
    let options = match options() {
        Ok(options) => options,
        Err(error) => {
            eprint!("differ: {error}\n\n{USAGE}");
            return ExitCode::from(2);
        }
    };
    let start = Instant::now();
    let mut pair = Pair::new(options.wrong);
    all_rounds(&mut pair, &options);
    report::print_totals(&pair.tally);
    for mismatch in &pair.mismatches {
        println!("\n{mismatch}");
    }
    let gaps = if options.is_whole() { pair.tally.gaps() } else { Vec::new() };
    for gap in &gaps {
        println!("not met: {gap}");
    }
    println!(
        "{} calls and {} steps in runs compared, seed {}, {} rounds, {:.1} seconds: {} mismatches, {} gaps",
        pair.tally.all_calls(),
        pair.tally.run_steps,
        options.seed,
        pair.round + 1,
        start.elapsed().as_secs_f64(),
        pair.mismatch_count,
        gaps.len()
    );
    ExitCode::from(u8::from(pair.mismatch_count > 0 || !gaps.is_empty()))
}
