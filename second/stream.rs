//! The stream of calls: its records, its answers, and the tables that the calls are made on.

use crate::model::{self, Outcome};
use std::io::{self, Read};

/// The version of the records.
pub const VERSION: u32 = 1;

/// The calls' numbers: the switch's own from 1, the stream's own from 101.
pub const PASS: u32 = 1;
pub const SET_WINDOW: u32 = 2;
pub const EMPTY_WINDOW: u32 = 3;
pub const SET_ENTRY: u32 = 4;
pub const FREE_ENTRY: u32 = 5;
pub const SET_BUS: u32 = 6;
pub const MAKE_INACTIVE: u32 = 7;
pub const CLEAR_LOG: u32 = 8;
pub const LEND: u32 = 101;
pub const STORE: u32 = 102;
pub const SHOW: u32 = 103;

/// The numbers of the tables, by which they are lent and stored into.
pub mod table {
    pub const WINDOWS: u32 = 1;
    pub const NUMBERS: u32 = 4;
    pub const LOGS: u32 = 6;
    pub const OUT: u32 = 7;
    /// The answer buffer of `pass`, which is lent like a table.
    pub const ANSWER: u32 = 8;
}

/// The length that stands for a table's right length.
pub const RIGHT_LENGTH: u32 = 0xFFFF_FFFF;

/// How much room each table has.
pub const WINDOWS_ROOM: usize = 769;
pub const NUMBERS_ROOM: usize = 81;
pub const LOGS_ROOM: usize = 97;
pub const OUT_ROOM: usize = 4120;
/// How much room the answer buffer of `pass` has, in words.
pub const ANSWER_ROOM: usize = 10;
/// How many words `pass` writes into its answer buffer.
pub const ANSWER_WORDS: usize = 8;

/// How many parameters a record has, used or not.
pub const PARAMETERS: usize = 15;
/// How many words a record has before its packet: version, call, parameters, and the packet's length.
pub const RECORD_WORDS: usize = PARAMETERS + 3;
/// How many bytes those are.
pub const RECORD_BYTES: usize = 4 * RECORD_WORDS;
/// The longest packet of a record.
pub const LONGEST: usize = 4200;
/// How many bytes an answer has.
pub const ANSWER_BYTES: usize = 44;
/// How many bytes follow the answer to `show`.
pub const SHOWN_BYTES: usize = 8 * WINDOWS_ROOM + 4 * NUMBERS_ROOM + 4 * LOGS_ROOM + OUT_ROOM;

/// What the answer buffer of `pass` is filled with beforehand.
const FILLING: u32 = 0xAAAA_AAAA;

/// The answer to a broken stream.
pub const BROKEN: [u32; 11] = [0xFFFF_FFFF, 0, 0, 0, 0, 0, 0, 0, 0, 0, 0];

/// A call: its number, its parameters, and the packet of a `pass`.
#[derive(Clone, Debug)]
pub struct Record {
    pub call: u32,
    pub with: [u32; PARAMETERS],
    pub packet: Vec<u8>,
}

/// What stands next in a stream.
pub enum Next {
    End,
    Broken,
    Record(Record),
}

/// How many parameters a call has, the first of its record; none if there is no such call.
pub fn parameters(call: u32) -> Option<usize> {
    match call {
        PASS | MAKE_INACTIVE => Some(1),
        EMPTY_WINDOW | FREE_ENTRY | SET_BUS | CLEAR_LOG => Some(2),
        SET_ENTRY => Some(3),
        STORE => Some(4),
        SET_WINDOW => Some(9),
        LEND => Some(PARAMETERS),
        SHOW => Some(0),
        _ => None,
    }
}

impl Record {
    /// A call without a packet; parameters that are not given are 0.
    pub fn new(call: u32, parameters: &[u32]) -> Record {
        let mut with = [0; PARAMETERS];
        with[..parameters.len()].copy_from_slice(parameters);
        Record { call, with, packet: Vec::new() }
    }

    /// The call that passes a packet from a partition.
    pub fn pass(partition: u32, packet: Vec<u8>) -> Record {
        Record { packet, ..Record::new(PASS, &[partition]) }
    }

    /// The call that lends these lengths of these tables, and the right length of every other.
    pub fn lend(lengths: &[(u32, u32)]) -> Record {
        let mut record = Record::new(LEND, &[RIGHT_LENGTH; PARAMETERS]);
        for &(number, length) in lengths {
            record.with[number as usize - 1] = length;
        }
        record
    }

    /// The call that stores a value into a place of a table.
    pub fn store(number: u32, place: u32, value: u64) -> Record {
        Record::new(STORE, &[number, place, (value >> 32) as u32, value as u32])
    }

    /// The call that shows the tables.
    pub fn show() -> Record {
        Record::new(SHOW, &[])
    }

    /// The record's words.
    pub fn words(&self) -> [u32; RECORD_WORDS] {
        let mut words = [0; RECORD_WORDS];
        words[..2].copy_from_slice(&[VERSION, self.call]);
        words[2..2 + PARAMETERS].copy_from_slice(&self.with);
        words[RECORD_WORDS - 1] = self.packet.len() as u32;
        words
    }

    /// Appends the record's bytes.
    pub fn encode(&self, to: &mut Vec<u8>) {
        for word in self.words() {
            to.extend_from_slice(&word.to_be_bytes());
        }
        to.extend_from_slice(&self.packet);
    }
}

/// Reads the next record of a stream.
pub fn decode(from: &mut impl Read) -> io::Result<Next> {
    let mut bytes = [0; RECORD_BYTES];
    match fill(from, &mut bytes)? {
        0 => return Ok(Next::End),
        RECORD_BYTES => (),
        _ => return Ok(Next::Broken),
    }
    let mut words = [0; RECORD_WORDS];
    for (word, b) in words.iter_mut().zip(bytes.chunks_exact(4)) {
        *word = u32::from_be_bytes([b[0], b[1], b[2], b[3]]);
    }
    let (call, following) = (words[1], words[RECORD_WORDS - 1] as usize);
    let most = if call == PASS { LONGEST } else { 0 };
    if words[0] != VERSION || parameters(call).is_none() || following > most {
        return Ok(Next::Broken);
    }
    let mut record = Record::new(call, &words[2..2 + PARAMETERS]);
    record.packet.resize(following, 0);
    if fill(from, &mut record.packet)? < following {
        return Ok(Next::Broken);
    }
    Ok(Next::Record(record))
}

/// Reads until the bytes are full or the input ends, and says how many were read.
pub fn fill(from: &mut impl Read, bytes: &mut [u8]) -> io::Result<usize> {
    let mut done = 0;
    while done < bytes.len() {
        match from.read(&mut bytes[done..]) {
            Ok(0) => break,
            Ok(count) => done += count,
            Err(error) if error.kind() == io::ErrorKind::Interrupted => (),
            Err(error) => return Err(error),
        }
    }
    Ok(done)
}

/// An answer's bytes.
pub fn encode_answer(answer: &[u32; 11]) -> [u8; ANSWER_BYTES] {
    let mut bytes = [0; ANSWER_BYTES];
    for (place, word) in bytes.chunks_exact_mut(4).zip(answer) {
        place.copy_from_slice(&word.to_be_bytes());
    }
    bytes
}

/// The number that `pass` returns: 0 for a crossing, else the refusal.
fn outcome_number(outcome: &Outcome) -> u32 {
    match *outcome {
        Outcome::Crossed(_) => 0,
        Outcome::Answered(refusal, _) | Outcome::Dropped(refusal) => refusal,
    }
}

/// What `pass` writes into its answer buffer: the outcome (0 crossed, 1 answered, 2 dropped), then
/// the record's partition, length, word count and header words; nothing but zeros if dropped.
fn outcome_words(outcome: &Outcome) -> [u32; ANSWER_WORDS] {
    let (number, record) = match outcome {
        Outcome::Crossed(record) => (0, record),
        Outcome::Answered(_, record) => (1, record),
        Outcome::Dropped(_) => return [2, 0, 0, 0, 0, 0, 0, 0],
    };
    let [w0, w1, w2, w3] = record.words;
    [number, record.partition, record.length, record.count, w0, w1, w2, w3]
}

/// The number that a table call returns: 0 for done, else the refusal.
fn done_number(done: model::Done) -> u32 {
    match done {
        Ok(()) => 0,
        Err(refusal) => refusal,
    }
}

/// A number of 64 bits from its two halves.
pub fn wide(high: u32, low: u32) -> u64 {
    u64::from(high) << 32 | u64::from(low)
}

/// The four tables with their whole room, and how much of each is lent to the calls.
pub struct Bench {
    pub windows: [u64; WINDOWS_ROOM],
    pub numbers: [u32; NUMBERS_ROOM],
    pub logs: [u32; LOGS_ROOM],
    pub out: [u8; OUT_ROOM],
    windows_lent: usize,
    numbers_lent: usize,
    logs_lent: usize,
    out_lent: usize,
    answer_lent: usize,
    /// What became of the packet, if the last call was a `pass`.
    pub outcome: Option<Outcome>,
}

impl Bench {
    /// Tables full of zeros, lent with their right lengths.
    pub fn new() -> Bench {
        Bench {
            windows: [0; WINDOWS_ROOM],
            numbers: [0; NUMBERS_ROOM],
            logs: [0; LOGS_ROOM],
            out: [0; OUT_ROOM],
            windows_lent: model::WINDOWS,
            numbers_lent: model::NUMBERS,
            logs_lent: model::LOGS,
            out_lent: model::OUT,
            answer_lent: ANSWER_WORDS,
            outcome: None,
        }
    }

    /// Makes a call, and answers as the stream does, without what `show` shows.
    pub fn call(&mut self, record: &Record) -> [u32; 11] {
        let with = &record.with;
        self.outcome = None;
        match record.call {
            PASS => return self.pass(with[0], &record.packet),
            LEND => self.lend(with),
            STORE => self.store(with),
            _ => (),
        }
        let mut answer = [0; 11];
        answer[0] = done_number(self.table_call(record.call, with));
        answer
    }

    fn table_call(&mut self, call: u32, with: &[u32; PARAMETERS]) -> model::Done {
        let (p, second) = (with[0], with[1]);
        let windows = &mut self.windows[..self.windows_lent];
        let numbers = &mut self.numbers[..self.numbers_lent];
        let logs = &mut self.logs[..self.logs_lent];
        match call {
            SET_WINDOW => {
                let span = (wide(with[2], with[3]), wide(with[4], with[5]));
                model::set_window(p, second, span, with[6], with[7], with[8] != 0, windows)
            }
            EMPTY_WINDOW => model::empty_window(p, second, windows),
            SET_ENTRY => model::set_entry(p, second, with[2] as u16, numbers),
            FREE_ENTRY => model::free_entry(p, second, numbers),
            SET_BUS => model::set_bus(p, second, numbers),
            MAKE_INACTIVE => model::make_inactive(p, numbers),
            CLEAR_LOG => model::clear_log(p, second, logs),
            _ => Ok(()),
        }
    }

    /// Passes a packet. An answer buffer that cannot take the eight words is a short buffer like
    /// any other: refusal 1, and nothing is written into it.
    fn pass(&mut self, p: u32, packet: &[u8]) -> [u32; 11] {
        let mut answer = [FILLING; 11];
        let outcome = if self.answer_lent < ANSWER_WORDS {
            Outcome::Dropped(1)
        } else {
            let outcome = model::pass(
                p,
                packet,
                &self.windows[..self.windows_lent],
                &self.numbers[..self.numbers_lent],
                &mut self.logs[..self.logs_lent],
                &mut self.out[..self.out_lent],
            );
            answer[1..1 + ANSWER_WORDS].copy_from_slice(&outcome_words(&outcome));
            outcome
        };
        answer[0] = outcome_number(&outcome);
        self.outcome = Some(outcome);
        answer
    }

    fn lend(&mut self, with: &[u32; PARAMETERS]) {
        let lent = |number: u32, right: usize, room: usize| match with[number as usize - 1] {
            RIGHT_LENGTH => right,
            length => room.min(length as usize),
        };
        self.windows_lent = lent(table::WINDOWS, model::WINDOWS, WINDOWS_ROOM);
        self.numbers_lent = lent(table::NUMBERS, model::NUMBERS, NUMBERS_ROOM);
        self.logs_lent = lent(table::LOGS, model::LOGS, LOGS_ROOM);
        self.out_lent = lent(table::OUT, model::OUT, OUT_ROOM);
        self.answer_lent = lent(table::ANSWER, ANSWER_WORDS, ANSWER_ROOM);
    }

    fn store(&mut self, with: &[u32; PARAMETERS]) {
        let (place, high, low) = (with[1] as usize, with[2], with[3]);
        match with[0] {
            table::WINDOWS => put(&mut self.windows, place, wide(high, low)),
            table::NUMBERS => put(&mut self.numbers, place, low),
            table::LOGS => put(&mut self.logs, place, low),
            table::OUT => put(&mut self.out, place, low as u8),
            _ => (),
        }
    }

    /// What stands in a place of a table, if there is such a place.
    pub fn value(&self, number: u32, place: usize) -> Option<u64> {
        match number {
            table::WINDOWS => self.windows.get(place).copied(),
            table::NUMBERS => self.numbers.get(place).copied().map(u64::from),
            table::LOGS => self.logs.get(place).copied().map(u64::from),
            table::OUT => self.out.get(place).copied().map(u64::from),
            _ => None,
        }
    }

    /// Puts into `to` what follows the answer to `show`: all four tables with their whole room.
    pub fn show(&self, to: &mut Vec<u8>) {
        to.clear();
        for word in &self.windows {
            to.extend_from_slice(&word.to_be_bytes());
        }
        for word in self.numbers.iter().chain(&self.logs) {
            to.extend_from_slice(&word.to_be_bytes());
        }
        to.extend_from_slice(&self.out);
    }
}

/// Puts a value into its place, if there is such a place.
fn put<T>(table: &mut [T], place: usize, value: T) {
    if let Some(old) = table.get_mut(place) {
        *old = value;
    }
}
