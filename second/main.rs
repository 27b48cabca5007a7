//! The second program's command line; what it does is in lib.rs.

use second::{every, lesson, noise, random, rows, selftest};
use std::env;
use std::fs;
use std::io::{self, BufWriter, Write};
use std::process::ExitCode;

const USAGE: &str = "\
second: the independent program that the proved library is compared with

  second lesson                 answers standard input as docs/LESSONS.md says
  second every                  a lesson of every question that docs/COMPARISON.md lists
  second no-calls               lines of `hear` that are no call, and others that are longer than a line may be
  second random SEED LINES      a random lesson of that many lines; SEED mod 7 is its mood: 0 modest, 1 damaged,
                                2 greedy, 3 busy, 4 beacons, 5 scribbled, 6 changing
  second noise SEED BYTES       that many random bytes for the input of a lesson
  second rows-from SOURCE_FILE  the rows read from the scanned source 004, as in second/rows-004.txt
  second selftest               document 01's figures to check, and document 02's burst types, signal card, users
                                under a count, midambles by the block, summaries, counts that are 0 in opening, and
                                who is heard; exit 1 if one is wrong
  second --help                 this page
";

/// Why a run failed.
enum Failure {
    /// The words on the command line are wrong: exit 2.
    Words(String),
    /// The work went wrong: exit 1.
    Work(String),
}

impl From<io::Error> for Failure {
    fn from(error: io::Error) -> Failure {
        Failure::Work(format!("standard input or output: {error}"))
    }
}

fn main() -> ExitCode {
    let words: Vec<String> =
        env::args_os().skip(1).map(|word| word.to_string_lossy().into_owned()).collect();
    let words: Vec<&str> = words.iter().map(String::as_str).collect();
    let (message, code) = match run(&words) {
        Ok(()) => return ExitCode::SUCCESS,
        Err(Failure::Words(message)) => {
            (format!("{message}; `second --help` lists the commands"), 2)
        }
        Err(Failure::Work(message)) => (message, 1),
    };
    eprintln!("second: {message}");
    ExitCode::from(code)
}

/// Does what the words ask, to standard output.
fn run(words: &[&str]) -> Result<(), Failure> {
    let mut out = BufWriter::new(io::stdout().lock());
    match words {
        [] | ["--help"] => out.write_all(USAGE.as_bytes())?,
        ["lesson"] => lesson::run(&mut io::stdin().lock(), &mut out, &kept_rows()?)?,
        ["every"] => every::print(&mut out, &kept_rows()?)?,
        ["no-calls"] => every::print_no_calls(&mut out, &kept_rows()?)?,
        ["random", seed, lines] => {
            random::print(&mut out, number(seed)?, number(lines)?, &kept_rows()?)?
        }
        ["random", ..] => {
            return Err(Failure::Words(
                "random takes two words, a seed and a number of lines".to_string(),
            ))
        }
        ["noise", seed, bytes] => {
            noise::print(&mut out, number(seed)?, number(bytes)?, &kept_rows()?)?
        }
        ["noise", ..] => {
            return Err(Failure::Words(
                "noise takes two words, a seed and a number of bytes".to_string(),
            ))
        }
        ["rows-from", source] => out.write_all(rows_from(source)?.as_bytes())?,
        ["rows-from", ..] => {
            return Err(Failure::Words("rows-from takes one word, the source file".to_string()))
        }
        ["selftest"] => {
            let all_right = selftest::print(&mut out, &kept_rows()?)?;
            out.flush()?;
            if !all_right {
                return Err(Failure::Work("a figure of the documents is not met".to_string()));
            }
        }
        ["--help" | "lesson" | "every" | "selftest", ..] => {
            return Err(Failure::Words(format!("{} takes no further word", words[0])));
        }
        [unknown, ..] => return Err(Failure::Words(format!("unknown command {unknown:?}"))),
    }
    out.flush()?;
    Ok(())
}

/// A number of the command line.
fn number(word: &str) -> Result<u64, Failure> {
    word.parse().map_err(|_| Failure::Words(format!("{word:?} is no number")))
}

/// The rows of `rows-004.txt`.
fn kept_rows() -> Result<rows::Rows, Failure> {
    rows::kept().map_err(|damage| Failure::Work(format!("rows-004.txt is damaged:\n{damage}")))
}

/// The rows of a source file, as text.
fn rows_from(source: &str) -> Result<String, Failure> {
    let bytes = fs::read(source).map_err(|error| Failure::Work(format!("{source}: {error}")))?;
    let rows = rows::from_source(&String::from_utf8_lossy(&bytes))
        .map_err(|damage| Failure::Work(format!("{source} has damaged rows:\n{damage}")))?;
    Ok(rows::as_text(&rows))
}
