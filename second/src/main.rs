//! The command `second`.
//!
//! - `second statement < FILE` prints what the statement program prints.
//! - `second hours < FILE` prints what the hours program prints.
//! - `second preview < FILE` prints what the preview program prints.
//! - `second brp < FILE` prints what the BRP program prints.
//! - `second make --seed S --count N --out DIR` writes month files and what each program must print for them.
//! - `second check --program PATH --seed S --count N` compares another statement program with this one, or with `--report
//!   hours`, `--report preview` or `--report brp` another of those; a long campaign is run with `--threads T`, and with
//!   `--feed whole` (or `pieces`) instead of both.
//! - `second example NAME` writes the month file of an example (s1, full, silent, d3, before, after, ore,
//!   yearly1, yearly2, yearly3, brp, volumes, priced).
//! - `second bench-file ..` writes a month file of a chosen size (bench/README.md).

use std::io::{self, Read, Write};
use std::path::Path;
use std::process::ExitCode;
use std::time::Instant;

use second::bench::{bench_file, Fault, Readings, Size};
use second::check::{Check, Feed};
use second::limits::{FILE_BYTES_MAX, HOURS, PARTIES};
use second::make::Tally;
use second::report::Report;
use second::{examples, make};

const USAGE: &str = "usage: second statement|hours|preview|brp < FILE
       second make --seed S --count N --out DIR
       second check --program PATH --seed S --count N [--report statement|hours|preview|brp]
           [--feed whole|pieces|both] [--threads T]
       second example s1|full|silent|d3|before|after|ore|yearly1|yearly2|yearly3|brp|volumes|priced
       second bench-file --hours H --parties P --series fixed|refixed --readings N|most --span HOURS
           [--brps N] [--fault byte|count]";

fn main() -> ExitCode {
    let arguments: Vec<String> = std::env::args().skip(1).collect();
    let words: Vec<&str> = arguments.iter().map(String::as_str).collect();
    let done = match words[..] {
        ["statement"] => print_report(Report::Statement),
        ["hours"] => print_report(Report::Hours),
        ["preview"] => print_report(Report::Preview),
        ["brp"] => print_report(Report::Brp),
        ["make", ref options @ ..] => make_files(options),
        ["check", ref options @ ..] => check_program(options),
        ["example", name] => print_example(name),
        ["bench-file", ref options @ ..] => print_bench_file(options),
        _ => Err(USAGE.to_string()),
    };
    match done {
        Ok(()) => ExitCode::SUCCESS,
        Err(message) => {
            eprintln!("{message}");
            ExitCode::FAILURE
        }
    }
}

/// Prints the report of the file on standard input. One byte more than a file may have is enough to know that it is too
/// long.
fn print_report(report: Report) -> Result<(), String> {
    let mut file = Vec::new();
    io::stdin()
        .take(FILE_BYTES_MAX as u64 + 1)
        .read_to_end(&mut file)
        .map_err(|error| format!("standard input cannot be read: {error}"))?;
    print_bytes(report.of(&file).as_bytes())
}

fn print_example(name: &str) -> Result<(), String> {
    let file = examples::example(name).ok_or(USAGE)?;
    print_bytes(&file)
}

fn print_bytes(bytes: &[u8]) -> Result<(), String> {
    let mut out = io::stdout();
    out.write_all(bytes)
        .and_then(|()| out.flush())
        .map_err(|error| format!("standard output cannot be written: {error}"))
}

fn make_files(options: &[&str]) -> Result<(), String> {
    let seed = number(options, "--seed")?;
    let count = number(options, "--count")?;
    let directory = option(options, "--out")?;
    let tallies = make::write_files(seed, count, Path::new(directory))
        .map_err(|error| format!("{directory}: {error}"))?;
    for tally in &tallies {
        print_bytes(tally.to_string().as_bytes())?;
    }
    tallies.iter().try_for_each(Tally::complete)
}

fn check_program(options: &[&str]) -> Result<(), String> {
    let report = option(options, "--report").unwrap_or("statement");
    let feed = option(options, "--feed").unwrap_or("both");
    let check = Check {
        program: Path::new(option(options, "--program")?),
        report: Report::named(report).ok_or(USAGE)?,
        seed: number(options, "--seed")?,
        count: number(options, "--count")?,
        feeds: Feed::named(feed).ok_or(USAGE)?,
        threads: match option(options, "--threads") {
            Ok(_) => number(options, "--threads")?,
            Err(_) => 1,
        },
    };
    let start = Instant::now();
    let tally = check.run()?;
    print_bytes(tally.to_string().as_bytes())?;
    tally.complete()?;
    let seconds = start.elapsed().as_secs();
    let (seed, count) = (check.seed, check.count);
    let summary =
        format!("seed {seed}: {count} files, none differs ({report}, {feed}, {seconds} s)\n");
    print_bytes(summary.as_bytes())
}

fn print_bench_file(options: &[&str]) -> Result<(), String> {
    let within = |name: &str, most: i128| match number(options, name)? {
        value if (1..=most).contains(&i128::from(value)) => Ok(value as usize),
        value => Err(format!("{name} {value} is not from 1 to {most}")),
    };
    let hours = within("--hours", *HOURS.end())?;
    let parties = within("--parties", *PARTIES.end())?;
    let size = Size {
        hours,
        parties,
        brps: match option(options, "--brps") {
            Ok(_) => Some(within("--brps", parties as i128)?),
            Err(_) => None,
        },
        refixed: match option(options, "--series")? {
            "fixed" => false,
            "refixed" => true,
            _ => return Err(USAGE.to_string()),
        },
        readings: match option(options, "--readings")? {
            "most" => Readings::Most,
            _ => Readings::Count(number(options, "--readings")? as usize),
        },
        span: within("--span", hours as i128)?,
    };
    let fault = match option(options, "--fault") {
        Err(_) => None,
        Ok("byte") => Some(Fault::ByteAfter),
        Ok("count") => Some(Fault::Count),
        Ok(_) => return Err(USAGE.to_string()),
    };
    let file = bench_file(&size, fault);
    if file.len() > FILE_BYTES_MAX {
        return Err(format!("{} bytes are too many for a file", file.len()));
    }
    print_bytes(&file)
}

/// The value that follows an option's name.
fn option<'a>(options: &[&'a str], name: &str) -> Result<&'a str, String> {
    let position = options.iter().position(|&word| word == name);
    let value = position.and_then(|position| options.get(position + 1));
    value
        .copied()
        .ok_or_else(|| format!("{name} is missing\n{USAGE}"))
}

fn number(options: &[&str], name: &str) -> Result<u64, String> {
    let value = option(options, name)?;
    value
        .parse()
        .map_err(|_| format!("{name} {value} is not a whole number"))
}
