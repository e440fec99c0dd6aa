//! Runs cases that were written as text: by the model, and by a program as well if there is one.

use crate::difference;
use crate::model::Outcome;
use crate::program::Program;
use crate::sheet;
use crate::stream::{self, Bench, Record};
use crate::text::{Line, Tables, What};
use std::io::{self, Write};

/// How much of what is wrong with one line is told at most.
const TOLD: usize = 8;

/// The lines of a file, run one after the other, and how many checks passed and failed.
struct Cases<'a, W> {
    file: &'a str,
    /// The words that start the program; none if there is none.
    words: &'a [String],
    /// Where failures are told.
    out: W,
    passed: u64,
    failed: u64,
}

/// Runs all lines, tells of each that fails and of how many did, and answers whether all is well.
pub fn run(file: &str, lines: &[Line], words: &[String], out: impl Write) -> io::Result<bool> {
    let mut cases = Cases { file, words, out, passed: 0, failed: 0 };
    for run in runs(lines) {
        if !cases.run(run)? {
            break;
        }
    }
    let Cases { mut out, passed, failed, .. } = cases;
    writeln!(out, "{passed} passed, {failed} failed")?;
    Ok(passed > 0 && failed == 0)
}

/// The runs of a file: each begins with its `start`, and has lines up to the next one.
fn runs(lines: &[Line]) -> Vec<&[Line]> {
    let is_start = |&place: &usize| matches!(lines[place].what, What::Start(_));
    let starts: Vec<usize> = (0..lines.len()).filter(is_start).collect();
    let ends = starts.iter().skip(1).copied().chain([lines.len()]);
    starts.iter().zip(ends).map(|(&start, end)| &lines[start..end]).collect()
}

impl<W: Write> Cases<'_, W> {
    /// Makes one run, and answers whether the program lived to its end.
    fn run(&mut self, lines: &[Line]) -> io::Result<bool> {
        let place = format!("{}:{}: the run that starts here", self.file, lines[0].number);
        let mut sides = match Sides::start(lines, self.words, place) {
            Ok(sides) => sides,
            Err(why) => return self.fail(&lines[0], &why).map(|()| false),
        };
        for line in lines {
            let wrong = match sides.wrong(line) {
                Ok(wrong) => difference::first_few(wrong, TOLD),
                Err(why) => return self.fail(line, &why).map(|()| false),
            };
            if !wrong.is_empty() {
                self.fail(line, &wrong.join("; "))?;
            } else if matches!(line.what, What::Call(..) | What::See { .. }) {
                self.passed += 1;
            }
        }
        if let (Err(why), Some(line)) = (sides.check_end(), lines.last()) {
            self.fail(line, &format!("after this last line of the run: {why}"))?;
        }
        Ok(true)
    }

    /// Counts a line that failed, and tells of it.
    fn fail(&mut self, line: &Line, why: &str) -> io::Result<()> {
        self.failed += 1;
        let place = format!("{}:{}", self.file, line.number);
        match &line.name {
            Some(name) => writeln!(self.out, "{place}: {name}: {why}"),
            None => writeln!(self.out, "{place}: {why}"),
        }
    }
}

/// All calls that a line makes. The tables are shown after each that can change them, and for a look.
fn calls(what: &What) -> Vec<Record> {
    let and_show = |record: &Record| [record.clone(), Record::show()];
    match what {
        What::Start(Tables::Zeros) | What::See { .. } => vec![Record::show()],
        What::Start(Tables::Sheet) => {
            let mut calls = sheet::calls();
            calls.push(Record::show());
            calls
        }
        What::Call(record, _) => and_show(record).to_vec(),
        What::Own(records) => records.iter().flat_map(and_show).collect(),
    }
}

/// The model, and the program beside it if there is one, in the middle of a run.
struct Sides {
    bench: Bench,
    program: Option<Program>,
}

impl Sides {
    /// Begins a run. The program is fed with all its calls, however slowly it answers.
    fn start(lines: &[Line], words: &[String], place: String) -> Result<Sides, String> {
        let program = if words.is_empty() {
            None
        } else {
            let records: Vec<Record> = lines.iter().flat_map(|line| calls(&line.what)).collect();
            Some(Program::start(words, records.into_iter(), place)?)
        };
        Ok(Sides { bench: Bench::new(), program })
    }

    /// Does what a line says, and answers what is wrong with what came of it. The error is that the
    /// program is gone.
    fn wrong(&mut self, line: &Line) -> Result<Vec<String>, String> {
        let mut wrong = Vec::new();
        let expected = match &line.what {
            What::Call(_, expected) => expected,
            _ => "done",
        };
        for record in calls(&line.what) {
            let answer = self.bench.call(&record);
            let got = answer_line(answer[0], &self.bench.outcome);
            if record.call != stream::SHOW && got != expected {
                wrong.push(format!("model: expected {expected}, got {got}"));
            }
            wrong.extend(self.other_in_program(&record, &answer)?);
        }
        if let What::See { number, place, values } = &line.what {
            wrong.extend(not_there(&self.bench, *number, *place as usize, values));
        }
        Ok(wrong)
    }

    /// Where the program's answer to a call, and the tables that it shows, are not the model's.
    fn other_in_program(&mut self, record: &Record, answer: &[u32; 11]) -> Result<Vec<String>, String> {
        let program = match &mut self.program {
            Some(program) => program,
            None => return Ok(Vec::new()),
        };
        let mut other = Vec::new();
        let expected = stream::encode_answer(answer);
        let mut got = [0; stream::ANSWER_BYTES];
        read(program, &mut got)?;
        if got != expected {
            let (expected, got) = (difference::answer_text(&expected), difference::answer_text(&got));
            other.push(format!("program: expected the answer {expected}, got {got}"));
        }
        if record.call == stream::SHOW {
            let (mut expected, mut got) = (Vec::new(), vec![0; stream::SHOWN_BYTES]);
            self.bench.show(&mut expected);
            read(program, &mut got)?;
            let places = difference::tables(&expected, &got);
            other.extend(places.iter().map(|place| format!("program: {place}")));
        }
        Ok(other)
    }

    /// At the end of a run the program writes nothing more and ends well.
    fn check_end(&mut self) -> Result<(), String> {
        match &mut self.program {
            Some(program) => program.check_end(),
            None => Ok(()),
        }
    }
}

/// Reads from the program until the bytes are full, or says how it ended.
fn read(program: &mut Program, bytes: &mut [u8]) -> Result<(), String> {
    if program.read(bytes)? < bytes.len() {
        return Err(format!("the program's answers end here; {}", program.ended()));
    }
    Ok(())
}

/// What a call answered, in the words of the text.
fn answer_line(number: u32, outcome: &Option<Outcome>) -> String {
    match (outcome, number) {
        (Some(outcome), _) => sheet::line(outcome),
        (None, 0) => String::from("done"),
        (None, refusal) => format!("refused {refusal}"),
    }
}

/// The places of a table at which other values stand than the wanted ones.
fn not_there(bench: &Bench, number: u32, start: usize, values: &[u64]) -> Vec<String> {
    let mut other = Vec::new();
    for (place, &expected) in (start..).zip(values) {
        let got = match bench.value(number, place) {
            Some(got) if got == expected => continue,
            Some(got) => format!("got 0x{got:X}"),
            None => String::from("but there is no such place"),
        };
        other.push(format!("model: place {place}: expected 0x{expected:X}, {got}"));
    }
    other
}
