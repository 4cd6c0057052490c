//! The command: `differential short`, `differential long`, `differential trees`, `differential paths`,
//! `differential writing`, `differential objects`, `differential pieces` or `differential replay LINES`.

use differential::faults::{ALL, Fault, Faulty};
use differential::ours::Archive;
use differential::replay;
use differential::run::{Outcome, Part, Settings, run};
use std::env::args;
use std::process::ExitCode;
use std::time::Duration;

const USAGE: &str = "\
usage: differential short [--seed N]
       differential long [--seed N] [--inputs N] [--minutes N]
       differential trees [--seed N] [--inputs N] [--minutes N]
       differential paths [--seed N] [--inputs N] [--minutes N]
       differential writing [--seed N] [--inputs N] [--minutes N]
       differential objects [--seed N] [--inputs N] [--minutes N]
       differential pieces [--seed N] [--inputs N] [--minutes N]
       differential replay LINES [--seed N]";

/// How long an input that disagrees is made smaller.
const PATIENCE: Duration = Duration::from_secs(20);

fn main() -> ExitCode {
    // A panic of either side is caught and told as a disagreement.
    std::panic::set_hook(Box::new(|_| {}));
    let words: Vec<String> = args().skip(1).collect();
    let words: Vec<&str> = words.iter().map(String::as_str).collect();
    let done = match words[..] {
        ["short", ref options @ ..] => {
            read(options).map(|options| compare(short(&options), &options))
        }
        ["long", ref options @ ..] => {
            read(options).map(|options| long_run(long(&options), &options))
        }
        ["trees", ref options @ ..] => {
            read(options).map(|options| long_run(trees(&options), &options))
        }
        ["paths", ref options @ ..] => {
            read(options).map(|options| long_run(paths(&options), &options))
        }
        ["writing", ref options @ ..] => {
            read(options).map(|options| long_run(writing(&options), &options))
        }
        ["objects", ref options @ ..] => {
            read(options).map(|options| long_run(objects(&options), &options))
        }
        ["pieces", ref options @ ..] => {
            read(options).map(|options| long_run(pieces(&options), &options))
        }
        ["replay", lines, ref options @ ..] => emit(lines, options),
        _ => None,
    };
    done.unwrap_or_else(|| {
        eprintln!("{USAGE}");
        ExitCode::from(2)
    })
}

/// What the command line can set.
struct Options {
    seed: u64,
    inputs: u64,
    minutes: u64,
    /// A wrong reader in our place, not in the usage: to see that a disagreement is told.
    fault: Option<Fault>,
}

/// The options of pairs of words; nothing if one is not known.
fn read(words: &[&str]) -> Option<Options> {
    let mut options = Options {
        seed: replay::SEED,
        inputs: 5_000_000,
        minutes: 60,
        fault: None,
    };
    for pair in words.chunks(2) {
        let [name, value] = pair else { return None };
        match *name {
            "--seed" => options.seed = value.parse().ok()?,
            "--inputs" => options.inputs = value.parse().ok()?,
            "--minutes" => options.minutes = value.parse().ok()?,
            "--fault" => options.fault = Some(fault(value)?),
            _ => return None,
        }
    }
    Some(options)
}

fn fault(name: &str) -> Option<Fault> {
    ALL.into_iter().find(|fault| format!("{fault:?}") == name)
}

fn short(options: &Options) -> Settings {
    Settings {
        seed: options.seed,
        generated: 300_000,
        large: 60,
        trees: 20_000,
        paths: 40_000,
        written: 40_000,
        composed: 40_000,
        cut: 40_000,
        part: Part::All,
        every: 3,
        telling: 7,
        limit: Duration::from_secs(58),
        patience: PATIENCE,
    }
}

fn long(options: &Options) -> Settings {
    Settings {
        seed: options.seed,
        generated: options.inputs,
        large: 6_000,
        trees: 1_000_000,
        paths: 1_000_000,
        written: 1_000_000,
        composed: 1_000_000,
        cut: 1_000_000,
        part: Part::All,
        every: 3,
        telling: 8,
        limit: Duration::from_secs(60 * options.minutes),
        patience: PATIENCE,
    }
}

/// Trees alone, as many as there would be inputs.
fn trees(options: &Options) -> Settings {
    Settings {
        trees: options.inputs,
        part: Part::Trees,
        ..long(options)
    }
}

/// Paths alone, of each kind as many as there would be inputs.
fn paths(options: &Options) -> Settings {
    Settings {
        paths: options.inputs,
        part: Part::Paths,
        ..long(options)
    }
}

/// Dictionaries that are written alone, as many as there would be inputs.
fn writing(options: &Options) -> Settings {
    Settings {
        written: options.inputs,
        part: Part::Writing,
        ..long(options)
    }
}

/// Objects that are written alone, as many as there would be inputs.
fn objects(options: &Options) -> Settings {
    Settings {
        composed: options.inputs,
        part: Part::Objects,
        ..long(options)
    }
}

/// Dictionaries that come in pieces alone, as many as there would be inputs.
fn pieces(options: &Options) -> Settings {
    Settings {
        cut: options.inputs,
        part: Part::Pieces,
        ..long(options)
    }
}

fn compared(settings: Settings, options: &Options) -> Outcome {
    println!("seed {}", settings.seed);
    let outcome = match options.fault {
        None => run(&Archive, settings),
        Some(fault) => run(
            &Faulty {
                reader: Archive,
                fault,
            },
            settings,
        ),
    };
    print!("{outcome}");
    outcome
}

/// Fails on a disagreement.
fn compare(settings: Settings, options: &Options) -> ExitCode {
    match compared(settings, options).disagreement {
        None => ExitCode::SUCCESS,
        Some(_) => ExitCode::FAILURE,
    }
}

/// Fails on a disagreement, and where the time did not do for all inputs.
fn long_run(settings: Settings, options: &Options) -> ExitCode {
    let outcome = compared(settings, options);
    match outcome.disagreement.is_none() && !outcome.cut {
        true => ExitCode::SUCCESS,
        false => ExitCode::FAILURE,
    }
}

fn emit(lines: &str, options: &[&str]) -> Option<ExitCode> {
    let (most, options) = (lines.parse().ok()?, read(options)?);
    for line in replay::lines(options.seed, most) {
        println!("{line}");
    }
    Some(ExitCode::SUCCESS)
}
