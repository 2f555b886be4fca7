//! The comparison of another program, of any report, with this one, byte for byte, over the files of a seed.
//!
//! A file reaches the program in one piece, being its standard input, or in several through a pipe, each given only once
//! the one before has been read: then no read gets more than a piece.

use std::collections::BTreeSet;
use std::ffi::{c_int, c_ulong};
use std::fs::{self, File};
use std::io::{self, ErrorKind, Read, Write};
use std::os::fd::AsRawFd;
use std::path::Path;
use std::process::{ChildStdin, Command, ExitStatus, Stdio};
use std::sync::atomic::{AtomicBool, AtomicU64, Ordering};
use std::thread;

use crate::make::{file, MadeFile, Tally};
use crate::month::settle;
use crate::random::Random;
use crate::report::Report;

/// More than any report: what a program prints beyond it is not waited for.
const OUTPUT_BYTES_MAX: u64 = 1 << 20;

/// A file has 1 to so many cuts. Each piece costs a change of processes, which takes long on a busy machine.
const CUTS_MAX: usize = 8;

/// How a file reaches the program.
#[derive(Clone, Copy, Debug, PartialEq, Eq)]
pub enum Feed {
    Whole,
    Pieces,
}

impl Feed {
    /// The ways that a word names; None for another word.
    pub fn named(word: &str) -> Option<&'static [Feed]> {
        match word {
            "whole" => Some(&[Feed::Whole]),
            "pieces" => Some(&[Feed::Pieces]),
            "both" => Some(&[Feed::Whole, Feed::Pieces]),
            _ => None,
        }
    }

    fn words(self) -> &'static str {
        match self {
            Feed::Whole => "in one piece",
            Feed::Pieces => "in pieces",
        }
    }
}

/// The first so many files of a seed, each fed to the program of this report in these ways, on so many threads.
pub struct Check<'a> {
    pub program: &'a Path,
    pub report: Report,
    pub seed: u64,
    pub count: u64,
    pub feeds: &'a [Feed],
    pub threads: u64,
}

impl Check<'_> {
    /// Runs the program on every file. A difference ends the check; of the first file that has one, seed and number are
    /// told and the file is left where the message says.
    pub fn run(&self) -> Result<Tally, String> {
        let directory =
            std::env::temp_dir().join(format!("second-check-{}-{}", std::process::id(), self.seed));
        let at_directory = |error: io::Error| format!("{}: {error}", directory.display());
        fs::create_dir_all(&directory).map_err(at_directory)?;
        let (next, stopped) = (AtomicU64::new(0), AtomicBool::new(false));
        let ends: Vec<Result<Tally, Difference>> = thread::scope(|scope| {
            let works = (0..self.threads.max(1)).map(|_| {
                scope.spawn(|| {
                    let end = self.work(&directory, &next, &stopped);
                    stopped.fetch_or(end.is_err(), Ordering::Relaxed);
                    end
                })
            });
            let works: Vec<_> = works.collect();
            let ends = works.into_iter().map(|work| work.join());
            ends.map(|end| end.expect("a thread of the check panicked"))
                .collect()
        });
        let mut tally = Tally::new(self.report.setting());
        let mut differences = Vec::new();
        for end in ends {
            match end {
                Ok(part) => tally.add(&part),
                Err(difference) => differences.push(difference),
            }
        }
        // Numbers are taken in rising order and what is taken is gone through, so that the least is the first there is.
        if let Some(first) = differences.into_iter().min_by_key(|d| d.number) {
            return Err(first.message);
        }
        fs::remove_dir(&directory).map_err(at_directory)?;
        Ok(tally)
    }

    /// One thread's work: the next file that nobody has taken, until there is none.
    fn work(
        &self,
        directory: &Path,
        next: &AtomicU64,
        stopped: &AtomicBool,
    ) -> Result<Tally, Difference> {
        let mut tally = Tally::new(self.report.setting());
        while !stopped.load(Ordering::Relaxed) {
            let number = next.fetch_add(1, Ordering::Relaxed);
            if number >= self.count {
                break;
            }
            self.compare(&file(self.seed, number), directory, &mut tally)
                .map_err(|message| Difference { number, message })?;
        }
        Ok(tally)
    }

    fn compare(&self, made: &MadeFile, directory: &Path, tally: &mut Tally) -> Result<(), String> {
        let path = directory.join(format!("{:07}.month", made.number));
        let at_path = |error: io::Error| format!("{}: {error}", path.display());
        fs::write(&path, &made.bytes).map_err(at_path)?;
        let judged = settle(&made.bytes, self.report.setting());
        let expected = self.report.printed(&judged);
        for &feed in self.feeds {
            let told = |message: &str| {
                format!(
                    "seed {}, file {} ({}), {}, left at {}:\n{message}",
                    self.seed,
                    made.number,
                    made.name,
                    feed.words(),
                    path.display()
                )
            };
            let run = match feed {
                Feed::Whole => File::open(&path).and_then(|file| run(self.program, file)),
                Feed::Pieces => {
                    let random = Random::of_file(!self.seed, made.number);
                    run_on_pieces(self.program, &made.bytes, random)
                }
            };
            let (output, status) =
                run.map_err(|error| told(&format!("{}: {error}", self.program.display())))?;
            if output != expected.as_bytes() {
                return Err(told(&first_difference(expected.as_bytes(), &output)));
            }
            // 01 leaves the status of a refusal open. A month that is settled has not failed.
            if status.code().is_none() || (judged.is_ok() && !status.success()) {
                return Err(told(&format!("the program ended with {status}")));
            }
        }
        tally.count(&judged);
        fs::remove_file(&path).map_err(at_path)
    }
}

/// What a thread found, and at which file.
struct Difference {
    number: u64,
    message: String,
}

type Run = io::Result<(Vec<u8>, ExitStatus)>;

/// What the program prints with this as its standard input, and how it ends.
fn run(program: &Path, input: impl Into<Stdio>) -> Run {
    let mut child = command(program, input).spawn()?;
    let output = read_output(child.stdout.take())?;
    Ok((output, child.wait()?))
}

/// What the program prints for these bytes when they come in pieces, and how it ends.
fn run_on_pieces(program: &Path, bytes: &[u8], random: Random) -> Run {
    let mut child = command(program, Stdio::piped()).spawn()?;
    let (input, output) = (child.stdin.take(), child.stdout.take());
    let has_printed = AtomicBool::new(false);
    // The pieces are given from another thread: a program may print before it has read everything.
    let output = thread::scope(|scope| {
        let feeding = scope.spawn(|| match input {
            Some(pipe) => feed_pieces(pipe, bytes, random, &has_printed),
            None => Ok(()),
        });
        let output = read_output(output);
        has_printed.store(true, Ordering::Relaxed);
        feeding.join().expect("the feeding thread panicked")?;
        output
    })?;
    Ok((output, child.wait()?))
}

fn command(program: &Path, input: impl Into<Stdio>) -> Command {
    let mut command = Command::new(program);
    command
        .stdin(input)
        .stdout(Stdio::piped())
        .stderr(Stdio::null());
    command
}

fn read_output(output: Option<impl Read>) -> io::Result<Vec<u8>> {
    let mut printed = Vec::new();
    if let Some(output) = output {
        output.take(OUTPUT_BYTES_MAX).read_to_end(&mut printed)?;
    }
    Ok(printed)
}

/// Writes the bytes piece by piece. A program that has printed everything, or reads no further, gets no more of them.
fn feed_pieces(
    mut pipe: ChildStdin,
    bytes: &[u8],
    mut random: Random,
    has_printed: &AtomicBool,
) -> io::Result<()> {
    let mut begin = 0;
    for end in piece_ends(bytes.len(), &mut random) {
        match pipe.write_all(&bytes[begin..end]) {
            Err(error) if error.kind() == ErrorKind::BrokenPipe => return Ok(()),
            written => written?,
        }
        while unread_bytes(&pipe)? > 0 {
            if has_printed.load(Ordering::Relaxed) {
                return Ok(());
            }
            thread::yield_now();
        }
        begin = end;
    }
    Ok(())
}

/// Where the pieces of so many bytes end, rising up to the last byte: cuts anywhere, and near either end.
fn piece_ends(length: usize, random: &mut Random) -> BTreeSet<usize> {
    let cuts = 1 + random.below(CUTS_MAX);
    let mut ends = BTreeSet::from([length]);
    for _ in 0..cuts {
        let near = random.any_size(length as u64) as usize;
        let anywhere = random.below(length + 1);
        ends.insert(*random.pick(&[near, length - near, anywhere]));
    }
    ends.remove(&0);
    ends
}

extern "C" {
    fn ioctl(fd: c_int, request: c_ulong, ...) -> c_int;
}

/// Linux's number of the question that `unread_bytes` asks.
const FIONREAD: c_ulong = 0x541B;

/// How many bytes stand in a pipe that nobody has read yet.
fn unread_bytes(pipe: &ChildStdin) -> io::Result<c_int> {
    let mut bytes: c_int = 0;
    // SAFETY: FIONREAD writes one int to where its argument points, and the descriptor is open while `pipe` is.
    match unsafe { ioctl(pipe.as_raw_fd(), FIONREAD, &mut bytes) } {
        -1 => Err(io::Error::last_os_error()),
        _ => Ok(bytes),
    }
}

/// Both outputs' first line that differs.
pub fn first_difference(expected: &[u8], printed: &[u8]) -> String {
    let lines = |text: &[u8]| -> Vec<String> {
        let lines = text.split_inclusive(|&byte| byte == b'\n');
        lines
            .map(|l| format!("{:?}", String::from_utf8_lossy(l)))
            .collect()
    };
    let (expected, printed) = (lines(expected), lines(printed));
    let same = expected.iter().zip(&printed).take_while(|(e, p)| e == p);
    let line = same.count();
    let shown = |lines: &[String]| lines.get(line).map_or("no line".to_string(), String::clone);
    format!(
        "line {} is to be {}\nbut was printed as {}",
        line + 1,
        shown(&expected),
        shown(&printed)
    )
}

#[cfg(test)]
mod tests {
    use super::*;

    #[test]
    fn pieces_rise_to_the_whole() {
        let random = &mut Random::of_file(1, 2);
        assert!(piece_ends(0, random).is_empty());
        assert_eq!(piece_ends(1, random), BTreeSet::from([1]));
        let many: Vec<_> = (0..500).map(|_| piece_ends(65_536, random)).collect();
        assert!(many.iter().all(|ends| ends.last() == Some(&65_536)));
        assert!(many.iter().all(|ends| ends.len() <= CUTS_MAX + 1));
        // The first byte alone, the last alone, and more than two pieces.
        assert!(many.iter().any(|ends| ends.contains(&1)));
        assert!(many.iter().any(|ends| ends.contains(&65_535)));
        assert!(many.iter().any(|ends| ends.len() > 2));
    }
}
