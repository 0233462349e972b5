//! The tool `z280`: runs, traces, shows, makes and disassembles guests of the proved machine.

mod args;
mod drive;
mod failure;
mod guest;
mod help;
mod hexfile;
mod listing;
mod make;
mod names;
mod number;
mod place;
mod run;
mod show;
mod trace;

use args::{Args, Known};
use failure::Failure;
use std::io::{self, Write};
use std::process::ExitCode;

type Command = fn(&Args, &mut dyn Write) -> Result<(), Failure>;

fn command(name: &str) -> Option<(Known, Command)> {
    match name {
        "run" => Some((run::KNOWN, run::command)),
        "trace" => Some((trace::KNOWN, trace::command)),
        "show" => Some((show::KNOWN, show::command)),
        "make" => Some((make::KNOWN, make::command)),
        "disasm" => Some((listing::KNOWN, listing::command)),
        _ => None,
    }
}

fn work(words: &[String], out: &mut dyn Write) -> Result<(), Failure> {
    let asks = |word: &String| ["--help", "-h", "help"].contains(&word.as_str());
    let Some((first, rest)) = words.split_first() else {
        return Err(Failure::Usage("say what to do: run, trace, show, make or disasm".to_string()));
    };
    if asks(first) {
        let text = match rest {
            [] => help::OVERVIEW.to_string(),
            [name, ..] => help::of(name).ok_or_else(|| no_command(name))?,
        };
        return Ok(write!(out, "{text}")?);
    }
    let (known, command) = command(first).ok_or_else(|| no_command(first))?;
    if rest.iter().any(|word| word == "--help" || word == "-h") {
        return Ok(write!(out, "{}", help::of(first).expect("each command has a help"))?);
    }
    command(&Args::parse(rest, &known)?, out)
}

fn no_command(name: &str) -> Failure {
    Failure::Usage(format!("there is no command '{name}'; there are run, trace, show, make and disasm"))
}

fn main() -> ExitCode {
    let words: Vec<String> = std::env::args_os().skip(1).map(|word| word.to_string_lossy().into_owned()).collect();
    let mut out = io::BufWriter::new(io::stdout().lock());
    let done = work(&words, &mut out).and_then(|()| Ok(out.flush()?));
    match done {
        Ok(()) | Err(Failure::Closed) => ExitCode::SUCCESS,
        Err(Failure::Input(message)) => {
            // What was done before it went wrong is shown first.
            let _ = out.flush();
            eprintln!("z280: {message}");
            ExitCode::from(1)
        }
        Err(Failure::Usage(message)) => {
            let about =
                words.first().filter(|word| help::of(word).is_some()).map_or(String::new(), |word| format!(" {word}"));
            eprintln!("z280: {message}\nMore:  z280 help{about}");
            ExitCode::from(2)
        }
    }
}
