//! Runs a program on a stream of lessons, and compares every answer with the model's.

use crate::difference;
use crate::form;
use crate::lessons::{Lessons, Step};
use crate::program::Program;
use crate::stream::{self, Record};
use crate::tally::{call_name, Tally};
use std::io::{self, Write};
use std::time::{Duration, Instant};

/// So many packets make a long run, in which everything must come up often enough.
const LONG: u64 = 50_000;
/// How many differences in the tables are told at most.
const TOLD: usize = 8;

/// Compares the program with the model on so many packets. The text tells of the end, good or bad.
pub fn compare(packets: u64, seed: u64, program: &[String]) -> Result<String, String> {
    let mut lessons = Lessons::new(seed, packets);
    let records = std::iter::from_fn(move || lessons.step().map(|step| step.record));
    let mut reader = Reader {
        program: Program::start(program, records, format!("second: seed {seed}"))
            .map_err(|error| format!("second: {error}"))?,
        seed,
        number: 0,
        before: None,
        shown: vec![0; stream::SHOWN_BYTES],
        expected: Vec::with_capacity(stream::SHOWN_BYTES),
    };
    let tally = reader.compare_all(packets)?;
    reader.check_end()?;
    verdict(&tally, seed)
}

/// The counts, and whether everything came up often enough.
fn verdict(tally: &Tally, seed: u64) -> Result<String, String> {
    let text = tally.text();
    let rare = tally.rare();
    if tally.packets >= LONG && !rare.is_empty() {
        let rare = rare.join(", ");
        return Err(format!("{text}second: all equal, seed {seed}, but too rare: {rare}"));
    }
    let (packets, others) = (tally.packets, tally.others);
    Ok(format!("{text}second: {packets} packets, {others} other calls, seed {seed}: all equal\n"))
}

/// The reading side of a comparison.
struct Reader {
    program: Program,
    seed: u64,
    /// The number of the record, from 1 on.
    number: u64,
    /// The last record that was no show, and its number.
    before: Option<(u64, Record)>,
    shown: Vec<u8>,
    expected: Vec<u8>,
}

impl Reader {
    /// Compares the answers to all records.
    fn compare_all(&mut self, packets: u64) -> Result<Tally, String> {
        let mut lessons = Lessons::new(self.seed, packets);
        let mut tally = Tally::default();
        let mut told = Instant::now();
        while let Some(step) = lessons.step() {
            self.number += 1;
            self.compare_answer(&step)?;
            self.check_form(&step)?;
            tally.note(&step.record, step.answer[0], &lessons.bench);
            if step.record.call != stream::SHOW {
                self.before = Some((self.number, step.record));
                continue;
            }
            lessons.bench.show(&mut self.expected);
            self.compare_tables()?;
            if told.elapsed() >= Duration::from_secs(2) {
                told = Instant::now();
                let _ = writeln!(io::stderr(), "second: {} of {packets} packets", tally.packets);
            }
        }
        Ok(tally)
    }

    fn compare_answer(&mut self, step: &Step) -> Result<(), String> {
        let mut got = [0; stream::ANSWER_BYTES];
        let count = self.read(&mut got)?;
        let expected = stream::encode_answer(&step.answer);
        if count < got.len() {
            return Err(self.early_end(&step.record));
        }
        if got == expected {
            return Ok(());
        }
        let head = format!("second: another answer, seed {}, record {}\n", self.seed, self.number);
        let text = record_text(&step.record);
        let (expected, got) = (difference::answer_text(&expected), difference::answer_text(&got));
        Err(format!("{head}{text}expected: {expected}\ngot:      {got}"))
    }

    /// An answer on which both agree must not contradict what the packet's bytes alone say.
    fn check_form(&self, step: &Step) -> Result<(), String> {
        if step.record.call != stream::PASS {
            return Ok(());
        }
        match form::contradiction(&step.record.packet, step.answer[0]) {
            None => Ok(()),
            Some(wrong) => {
                let place = format!("seed {}, record {}", self.seed, self.number);
                let text = record_text(&step.record);
                Err(format!("second: both against the packet's bytes, {place}\n{text}{wrong}"))
            }
        }
    }

    fn compare_tables(&mut self) -> Result<(), String> {
        let mut got = std::mem::take(&mut self.shown);
        if self.read(&mut got)? < got.len() {
            return Err(self.early_end(&Record::show()));
        }
        if got != self.expected {
            let (seed, number) = (self.seed, self.number);
            let head = format!("second: other tables, seed {seed}, shown at record {number}\n");
            let last = match &self.before {
                Some((number, record)) => {
                    format!("the call before was record {number}:\n{}", record_text(record))
                }
                None => String::new(),
            };
            let places = difference::first_few(difference::tables(&self.expected, &got), TOLD);
            return Err(format!("{head}{}\n{last}", places.join("\n")));
        }
        self.shown = got;
        Ok(())
    }

    fn read(&mut self, bytes: &mut [u8]) -> Result<usize, String> {
        self.program.read(bytes).map_err(|error| format!("second: {error}"))
    }

    /// What there is to say if the program's answers end inside the answer to a record.
    fn early_end(&self, record: &Record) -> String {
        let place = format!("seed {}, at record {}", self.seed, self.number);
        let (ended, text) = (self.program.ended(), record_text(record));
        format!("second: the answers end too early, {place}; {ended}\n{text}")
    }

    /// After the last answer the program writes nothing more and ends well.
    fn check_end(&mut self) -> Result<(), String> {
        let seed = self.seed;
        self.program.check_end().map_err(|error| format!("second: seed {seed}: all equal, but {error}"))
    }
}

/// A record's words, and its packet if it is a `pass`.
fn record_text(record: &Record) -> String {
    let words: String = record.words().iter().map(|word| format!(" {word:08X}")).collect();
    let mut text = format!("{}:{words}\n", call_name(record.call));
    if record.call == stream::PASS {
        let hex: String = record.packet.iter().map(|byte| format!("{byte:02X}")).collect();
        text.push_str(&format!("packet of {} bytes: {hex}\n", record.packet.len()));
    }
    text
}
