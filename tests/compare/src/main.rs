//! The index against plain scans written from documents 01 and 02, sharing nothing with it.
//!
//!     compare [--seed N] [--rounds N | --long]   compares, and prints one line with what it tried
//!     compare --self-test [--seed N]             each wrong version of the plain implementation, and the history that shows it
//!     compare --trace FILE [--seed N]            a trace of calls with their answers, to be replayed in C and Python

mod cases;
mod interface;
mod library;
mod oracle;
mod report;

use report::{self_test, trace, whole_run};
use std::process::ExitCode;

/// Rounds of the run in the test command, and of the longer one.
const ROUNDS: usize = 27;
const MANY_ROUNDS: usize = 900;

struct Options {
    seed: u64,
    rounds: usize,
    self_test: bool,
    trace: Option<String>,
}

fn options() -> Option<Options> {
    let mut options = Options { seed: 1, rounds: ROUNDS, self_test: false, trace: None };
    let mut words = std::env::args().skip(1);
    while let Some(word) = words.next() {
        match word.as_str() {
            "--seed" => options.seed = words.next()?.parse().ok()?,
            "--rounds" => options.rounds = words.next()?.parse().ok()?,
            "--long" => options.rounds = MANY_ROUNDS,
            "--self-test" => options.self_test = true,
            "--trace" => options.trace = Some(words.next()?),
            _ => return None,
        }
    }
    Some(options)
}

fn main() -> ExitCode {
    let Some(options) = options() else {
        eprintln!("compare [--seed N] [--rounds N | --long | --self-test | --trace FILE]");
        return ExitCode::from(2);
    };
    let good = match &options.trace {
        Some(path) => trace::write_file(path, options.seed),
        None if options.self_test => self_test::show(options.seed),
        None => whole_run::compare(options.seed, options.rounds),
    };
    ExitCode::from(u8::from(!good))
}
