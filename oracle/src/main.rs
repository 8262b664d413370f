//! The oracle: what the unchanged Rust source answers, job by job, and jobs to ask it.
//!
//! `oracle answer` reads jobs, one a line, and prints one line each. `oracle make SEED COUNT KIND` prints jobs.

mod answer;
mod job;
mod layouts;
mod make;
mod pairs;
mod pen;
mod random;
mod reading;
mod shapes;
mod tables;
mod writing;

use job::Job;
use std::io::{self, BufRead, BufWriter, Write};
use std::panic::{catch_unwind, set_hook, AssertUnwindSafe};

/// Runs the command that the words name.
fn main() {
    let words: Vec<String> = std::env::args().skip(1).collect();
    let words: Vec<&str> = words.iter().map(String::as_str).collect();
    let status = match words.as_slice() {
        ["answer"] => answer_all(),
        ["make", seed, count, kind] => make_all(seed, count, kind),
        _ => usage(),
    };
    // A reader that has gone away wants no more lines; any other trouble with the streams is status 2.
    std::process::exit(status.unwrap_or_else(|error| match error.kind() {
        io::ErrorKind::BrokenPipe => 0,
        _ => {
            eprintln!("oracle: {}", error);
            2
        }
    }))
}

/// Says how to call the program. Status 2.
fn usage() -> io::Result<i32> {
    eprintln!("usage: oracle answer < JOBS");
    eprintln!("       oracle make SEED COUNT KIND");
    eprintln!("kinds: {}", make::KINDS.join(" "));
    Ok(2)
}

/// One answer for each line of standard input. Status 1 if a line was no job.
fn answer_all() -> io::Result<i32> {
    set_hook(Box::new(|_| ()));
    let mut input = io::stdin().lock();
    let mut output = BufWriter::new(io::stdout().lock());
    let mut status = 0;
    let mut line = Vec::new();
    while input.read_until(b'\n', &mut line)? > 0 {
        match answer_line(&line) {
            Ok(answer) => writeln!(output, "{}", answer)?,
            Err(reason) => {
                status = 1;
                writeln!(output, "bad {}", reason)?;
            }
        }
        line.clear();
    }
    output.flush()?;
    Ok(status)
}

/// The answer to one line with its end; `panics` if the source does.
fn answer_line(line: &[u8]) -> Result<String, String> {
    let text = match line.split_last() {
        Some((b'\n', text)) => text,
        _ => return Err("the line is not ended".to_string()),
    };
    let text = std::str::from_utf8(text).map_err(|_| "the line is no text".to_string())?;
    let job = Job::read(text)?;
    catch_unwind(AssertUnwindSafe(|| answer::answer(&job)))
        .unwrap_or_else(|_| Ok("panics".to_string()))
}

/// Prints jobs of a kind. Status 2 if the words are no numbers or the kind is none.
fn make_all(seed: &str, count: &str, kind: &str) -> io::Result<i32> {
    let (seed, count) = match (seed.parse(), count.parse()) {
        (Ok(seed), Ok(count)) => (seed, count),
        _ => return usage(),
    };
    if !make::KINDS.contains(&kind) {
        return usage();
    }
    let mut output = BufWriter::new(io::stdout().lock());
    for number in 0..count {
        writeln!(output, "{}", make::make(seed, kind, number))?;
    }
    output.flush()?;
    Ok(0)
}
