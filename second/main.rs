//! A second program for the switch: it has the rules written down once more, runs the exam sheet and
//! cases that are written as text, and compares another program with itself, call by call.

mod calls;
mod cases;
mod compare;
mod difference;
mod form;
mod lessons;
mod model;
mod packets;
mod program;
mod random;
mod sheet;
mod stream;
mod tally;
mod text;

use std::io::{self, BufReader, BufWriter, Write};
use std::process::ExitCode;
use std::time::{SystemTime, UNIX_EPOCH};

const USAGE: &str = "\
usage: second sheet
       second cases FILE [PROGRAM [ARG..]]
       second compare PACKETS [--seed S] PROGRAM [ARG..]
       second answer
       second record PACKETS --seed S
";

/// How many bytes are read or written at once.
const PIECE: usize = 1 << 18;

/// What the words on the command line ask for.
enum Task {
    Sheet,
    Cases { file: String, program: Vec<String> },
    Compare { packets: u64, seed: Option<u64>, program: Vec<String> },
    Answer,
    Record { packets: u64, seed: u64 },
}

fn main() -> ExitCode {
    let words: Option<Vec<String>> =
        std::env::args_os().skip(1).map(|word| word.into_string().ok()).collect();
    let task = match words.as_deref().and_then(task) {
        Some(task) => task,
        None => {
            let _ = io::stderr().write_all(USAGE.as_bytes());
            return ExitCode::from(2);
        }
    };
    let result = match task {
        Task::Sheet => run_sheet().map(status),
        Task::Cases { file, program } => run_cases(&file, &program),
        Task::Compare { packets, seed, program } => run_compare(packets, seed, &program).map(status),
        Task::Answer => answer().map(|()| ExitCode::SUCCESS),
        Task::Record { packets, seed } => record(packets, seed).map(|()| ExitCode::SUCCESS),
    };
    match result {
        Ok(status) => status,
        Err(error) => {
            let _ = writeln!(io::stderr(), "second: {error}");
            ExitCode::FAILURE
        }
    }
}

/// The status that says whether all is well.
fn status(well: bool) -> ExitCode {
    if well {
        ExitCode::SUCCESS
    } else {
        ExitCode::FAILURE
    }
}

/// Reads the words, or answers none if they are wrong.
fn task(words: &[String]) -> Option<Task> {
    let (first, rest) = words.split_first()?;
    match first.as_str() {
        "sheet" if rest.is_empty() => Some(Task::Sheet),
        "answer" if rest.is_empty() => Some(Task::Answer),
        "cases" => {
            let (file, program) = rest.split_first()?;
            Some(Task::Cases { file: file.clone(), program: program.to_vec() })
        }
        "record" if rest.len() == 3 => {
            let (packets, seed, _) = packets_and_seed(rest)?;
            Some(Task::Record { packets, seed: seed? })
        }
        "compare" => {
            let (packets, seed, program) = packets_and_seed(rest)?;
            if program.is_empty() || program[0].starts_with("--") {
                return None;
            }
            Some(Task::Compare { packets, seed, program: program.to_vec() })
        }
        _ => None,
    }
}

/// Reads `PACKETS [--seed S]`, and answers the words after it too. No packets at all are wrong.
fn packets_and_seed(words: &[String]) -> Option<(u64, Option<u64>, &[String])> {
    let packets: u64 = words.first()?.parse().ok()?;
    if packets == 0 {
        return None;
    }
    if words.get(1).map(String::as_str) != Some("--seed") {
        return Some((packets, None, &words[1..]));
    }
    let seed = words.get(2)?.parse().ok()?;
    Some((packets, Some(seed), &words[3..]))
}

fn run_sheet() -> io::Result<bool> {
    let (text, passed, failed) = sheet::sheet();
    let mut out = io::stdout();
    writeln!(out, "{text}{passed} passed, {failed} failed")?;
    Ok(failed == 0)
}

/// Runs cases that are written as text. If a line cannot be read, nothing is run, and the status is 2.
fn run_cases(file: &str, program: &[String]) -> io::Result<ExitCode> {
    let mut told = io::stderr();
    let text = match std::fs::read_to_string(file) {
        Ok(text) => text,
        Err(error) => {
            writeln!(told, "second: cannot read {file}: {error}")?;
            return Ok(ExitCode::from(2));
        }
    };
    match text::read(&text) {
        Ok(lines) => cases::run(file, &lines, program, io::stdout()).map(status),
        Err(wrong) => {
            for (number, why) in wrong {
                writeln!(told, "{file}:{number}: this line cannot be read: {why}")?;
            }
            Ok(ExitCode::from(2))
        }
    }
}

fn run_compare(packets: u64, seed: Option<u64>, program: &[String]) -> io::Result<bool> {
    let seed = seed.unwrap_or_else(clock);
    let mut out = io::stdout();
    writeln!(out, "second: seed {seed}")?;
    match compare::compare(packets, seed, program) {
        Ok(text) => {
            write!(out, "{text}")?;
            Ok(true)
        }
        Err(text) => {
            writeln!(out, "{}", text.trim_end())?;
            Ok(false)
        }
    }
}

/// A seed from the clock.
fn clock() -> u64 {
    match SystemTime::now().duration_since(UNIX_EPOCH) {
        Ok(time) => time.as_nanos() as u64,
        Err(_) => 1,
    }
}

/// Answers a stream from standard input by the model.
fn answer() -> io::Result<()> {
    let mut from = BufReader::with_capacity(PIECE, io::stdin());
    let mut to = BufWriter::with_capacity(PIECE, io::stdout());
    let mut bench = stream::Bench::new();
    let mut shown = Vec::with_capacity(stream::SHOWN_BYTES);
    loop {
        if from.buffer().is_empty() {
            to.flush()?;
        }
        match stream::decode(&mut from)? {
            stream::Next::End => break,
            stream::Next::Broken => {
                to.write_all(&stream::encode_answer(&stream::BROKEN))?;
                break;
            }
            stream::Next::Record(record) => {
                let answer = bench.call(&record);
                to.write_all(&stream::encode_answer(&answer))?;
                if record.call == stream::SHOW {
                    bench.show(&mut shown);
                    to.write_all(&shown)?;
                }
            }
        }
    }
    to.flush()
}

/// Writes a stream of lessons to standard output.
fn record(packets: u64, seed: u64) -> io::Result<()> {
    let mut to = BufWriter::with_capacity(PIECE, io::stdout());
    let mut lessons = lessons::Lessons::new(seed, packets);
    let mut bytes = Vec::new();
    while let Some(step) = lessons.step() {
        bytes.clear();
        step.record.encode(&mut bytes);
        to.write_all(&bytes)?;
    }
    to.flush()
}
