//! The program `judge`.
mod selftest;
mod tally;

use judge::cases::{random, small};
use judge::{Case, judge};
use std::io::{BufWriter, Write, stdin, stdout};
use std::process::ExitCode;

const USAGE: &str = "\
usage: judge < CASES             the outcome of each case, one line each
       judge --selftest          document 01's cases, the paper's examples, the listed differences
       judge --list KIND         cases, one line each
       judge --tally KIND        asks cases, and counts the answers
KIND:  random SEED COUNT         random cases
       small                     all cases of a few small geometries
a case:      call start end page word limit overwrite image slip buffer
an outcome:  numbers stores image buffer";

fn main() -> ExitCode {
    let arguments: Vec<String> = std::env::args().skip(1).collect();
    let arguments: Vec<&str> = arguments.iter().map(String::as_str).collect();
    match arguments[..] {
        [] => answer(),
        ["--selftest"] => exit(selftest::run()),
        ["--help" | "-h"] => {
            println!("{USAGE}");
            ExitCode::SUCCESS
        }
        ["--list", ref kind @ ..] => match cases(kind) {
            Some(cases) => print(cases),
            None => misused(),
        },
        ["--tally", ref kind @ ..] => match cases(kind) {
            Some(cases) => exit(tally::run(cases)),
            None => misused(),
        },
        _ => misused(),
    }
}

fn exit(is_fine: bool) -> ExitCode {
    if is_fine {
        ExitCode::SUCCESS
    } else {
        ExitCode::FAILURE
    }
}

fn misused() -> ExitCode {
    eprintln!("{USAGE}");
    ExitCode::from(2)
}

fn cases(kind: &[&str]) -> Option<Box<dyn Iterator<Item = Case>>> {
    match kind {
        ["small"] => Some(Box::new(small())),
        ["random", seed, count] => Some(Box::new(
            random(seed.parse().ok()?).take(count.parse().ok()?),
        )),
        _ => None,
    }
}

fn print(cases: impl Iterator<Item = Case>) -> ExitCode {
    let mut out = BufWriter::new(stdout().lock());
    for case in cases {
        // a reader that has enough may close the pipe
        if writeln!(out, "{case}").is_err() {
            break;
        }
    }
    ExitCode::SUCCESS
}

fn answer() -> ExitCode {
    let mut out = BufWriter::new(stdout().lock());
    for (number, line) in (1..).zip(stdin().lines()) {
        let case = line
            .map_err(|error| error.to_string())
            .and_then(|line| line.parse::<Case>());
        let written = match case {
            Ok(case) => writeln!(out, "{}", judge(&case)),
            Err(error) => {
                eprintln!("judge: line {number}: {error}");
                return ExitCode::from(2);
            }
        };
        if written.is_err() {
            break;
        }
    }
    ExitCode::SUCCESS
}
