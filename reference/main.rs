//! Compares a rule desk with desk.rs, over pipes, on random cases.
//!
//!     reference [--tables N] [--lookups M] [--seed S] -- COMMAND ARGS...
//!     reference --self         serves the protocol below from desk.rs
//!     reference --self-test    checks the values that 01 and 02 settle
//!
//! THE PROTOCOL. COMMAND reads requests on standard input and writes replies
//! on standard output, in binary. It reads a whole request before it writes
//! any of the reply, flushes after each reply, and then waits for the next
//! request. u32 is four bytes, u16 two bytes, both big-endian, no padding.
//!
//! Arguments, in requests:
//!   table    u32 n, then n bytes                        n <= 8192
//!   area     u32 n, then n words of u32                 n <= 65536
//!   header   u32 n, then n bytes (any n, not only 13)   n <= 64
//!   list     u32 n, then n entries of u16               n <= 66000
//!   order    u32 n, then n entries of u16               n <= 600
//!   output   u32 n, then n bytes                        n <= 8192
//!   headers  u32 n, then 13 * n bytes                   n <= 1000
//!   place    u32
//! Counts may be 0. A table can be ragged or of more than 256 rules.
//!
//! An answer, in replies: u32 k, then k numbers of u32 (k is at least 1 and
//! at most 25). The first number is the desk's number.
//!
//!   op  request: op (one byte), then     reply
//!   0   nothing                          nothing; exit with status 0
//!   1   build: table, area               answer, area
//!   2   lookup: table, area, header      answer
//!   3   pairs: table, list               answer, list
//!   4   judge: table, order, output      answer, output
//!   5   show: table, place               answer
//!   6   many: table, area, headers       n answers, one for each header
//!
//! Area, list and output in a reply are the lent memory afterwards: as many
//! words, entries or bytes as in the request, WITHOUT a count before them.
//!
//! Answers by number:
//!   refused 1, 2, 7, 8, 9, 10, 11, 12:  number
//!   refused 3, 4, 5, 6, 14:             number, place
//!   refused 13:                         13, lower, higher, 13 header bytes
//!   build done:   0, words needed
//!   lookup done:  0, false blocks, 1, place, kind, feed (hold: kind 0, feed
//!                 0; deliver: kind 1) or, with no match: 0, false blocks, 0
//!   pairs done:   0, number of pairs
//!   judge done:   0
//!   show:         0, then the 24 bytes, each as a number, or nothing more

mod cases;
mod compare;
mod desk;
mod pipe;
mod self_test;
mod tally;

use std::io;
use std::process::ExitCode;

const USAGE: &str = "usage: reference [--tables N] [--lookups M] [--seed S] -- COMMAND ARGS...
       reference --self | --self-test";

struct Settings {
    tables: u64,
    lookups: u64,
    seed: u64,
    command: Vec<String>,
}

fn settings(arguments: &[String]) -> Option<Settings> {
    let mut settings = Settings { tables: 2_000, lookups: 200_000, seed: 20_011, command: vec![] };
    let mut rest = arguments;
    while let [name, value, after @ ..] = rest {
        match name.as_str() {
            "--tables" => settings.tables = value.parse().ok().filter(|tables| *tables > 0)?,
            "--lookups" => settings.lookups = value.parse().ok()?,
            "--seed" => settings.seed = value.parse().ok()?,
            "--" => {
                settings.command = rest[1..].to_vec();
                return Some(settings);
            }
            _ => return None,
        }
        rest = after;
    }
    None
}

/// The whole comparison; false when a line never occurred.
fn run(settings: &Settings) -> Result<bool, String> {
    let asked = pipe::Asked::start(&settings.command)
        .map_err(|error| format!("cannot start {}: {error}", settings.command[0]))?;
    let mut comparison = compare::Comparison::new(asked, settings.seed);
    let mut lookups = 0;
    for number in 0..settings.tables {
        let due = settings.lookups * (number + 1) / settings.tables;
        let done = comparison.compare_table(number, (due - lookups) as usize);
        done.map_err(|text| {
            format!("difference at seed {}, table {number}\n{text}", settings.seed)
        })?;
        lookups = due;
    }
    let complete = comparison.end().map_err(|error| format!("at the end: {error}"))?;
    if complete {
        println!("compared {} tables, {lookups} lookups: 0 differences", settings.tables);
    }
    Ok(complete)
}

fn main() -> ExitCode {
    let arguments: Vec<String> = std::env::args().skip(1).collect();
    let first = arguments.first().map_or("", |argument| argument.as_str());
    if first == "--self-test" {
        self_test::run();
        return ExitCode::SUCCESS;
    }
    if first == "--self" {
        let served = pipe::serve(&mut io::stdin().lock(), &mut io::stdout().lock());
        return match served {
            Ok(()) => ExitCode::SUCCESS,
            Err(error) => {
                eprintln!("served program: {error}");
                ExitCode::FAILURE
            }
        };
    }
    let Some(settings) = settings(&arguments) else {
        eprintln!("{USAGE}");
        return ExitCode::FAILURE;
    };
    match run(&settings) {
        Ok(true) => ExitCode::SUCCESS,
        Ok(false) => {
            println!("something above never occurred");
            ExitCode::FAILURE
        }
        Err(text) => {
            println!("{text}");
            ExitCode::FAILURE
        }
    }
}
