//! Lessons: calls without end that a seed decides, each suiting the tables as the model has them.

use crate::calls;
use crate::model::Outcome;
use crate::packets::{self, Came};
use crate::random::Random;
use crate::stream::{self, Bench, Record};
use std::collections::VecDeque;

/// How many of the requests that came out are kept, for completions to answer them.
const KEPT: usize = 24;

/// A call and the model's answer to it.
pub struct Step {
    pub record: Record,
    pub answer: [u32; 11],
}

/// A run of lessons with so many packets in all.
pub struct Lessons {
    random: Random,
    /// The tables as the calls left them.
    pub bench: Bench,
    wanted: u64,
    passed: u64,
    /// How many packets the lesson still has.
    left: u32,
    waiting: VecDeque<Record>,
    came: Vec<Came>,
}

impl Lessons {
    pub fn new(seed: u64, packets: u64) -> Lessons {
        Lessons {
            random: Random::new(seed),
            bench: Bench::new(),
            wanted: packets,
            passed: 0,
            left: 0,
            waiting: VecDeque::new(),
            came: Vec::new(),
        }
    }

    /// Makes the next call; none if all packets were sent and shown.
    pub fn step(&mut self) -> Option<Step> {
        while self.waiting.is_empty() {
            if self.passed >= self.wanted {
                return None;
            }
            self.plan();
        }
        let mut record = self.waiting.pop_front()?;
        calls::litter(&mut self.random, &mut record);
        let answer = self.bench.call(&record);
        if record.call == stream::PASS {
            self.after_pass(&record);
        }
        Some(Step { record, answer })
    }

    /// Puts the next calls in line.
    fn plan(&mut self) {
        if self.left == 0 {
            return self.begin();
        }
        match self.random.below(32) {
            0 | 1 => self.table_calls(),
            2 => self.wrong_lengths(),
            3..=5 => self.rubbish(),
            _ => self.send(),
        }
    }

    fn send(&mut self) {
        let (from, packet) = packets::packet(&mut self.random, &self.bench, &self.came);
        self.waiting.push_back(Record::pass(from, packet));
    }

    /// Rubbish in the tables, and often a packet that goes by it.
    fn rubbish(&mut self) {
        let stores = calls::rubbish(&mut self.random, &self.bench);
        let packet = if self.random.one_in(4) {
            None
        } else {
            packets::aimed(&mut self.random, &self.bench, &stores)
        };
        self.waiting.extend(stores);
        if let Some((from, packet)) = packet {
            self.waiting.push_back(Record::pass(from, packet));
        }
    }

    fn show(&mut self) {
        self.waiting.push_back(Record::show());
    }

    /// A few table calls, and a look at what they did.
    fn table_calls(&mut self) {
        for _ in 0..1 + self.random.below(8) {
            self.waiting.push_back(calls::table_call(&mut self.random, &self.bench));
        }
        self.show();
    }

    /// A packet and a few table calls on tables of wrong lengths.
    fn wrong_lengths(&mut self) {
        let lend = calls::wrong_lend(&mut self.random);
        self.waiting.push_back(lend);
        self.send();
        if self.random.one_in(2) {
            self.table_calls();
        }
        let lend = calls::right_lend(&mut self.random);
        self.waiting.push_back(lend);
    }

    /// Begins a lesson: tables that let most packets pass.
    fn begin(&mut self) {
        self.left = 40 + self.random.below(160);
        let lend = calls::right_lend(&mut self.random);
        self.waiting.push_back(lend);
        if !self.random.one_in(4) {
            self.clear_tables();
        }
        for p in 0..16 {
            if self.random.one_in(6) {
                self.waiting.push_back(Record::new(stream::MAKE_INACTIVE, &[p]));
            } else {
                self.waiting.push_back(calls::set_bus(&mut self.random, p));
            }
            for _ in 0..1 + self.random.below(5) {
                self.waiting.push_back(calls::set_window(&mut self.random, &self.bench, p));
            }
            for _ in 0..1 + self.random.below(4) {
                self.waiting.push_back(calls::set_entry(&mut self.random, &self.bench, p));
            }
        }
        self.show();
    }

    /// Empties every window, frees every entry and clears every log.
    fn clear_tables(&mut self) {
        for p in 0..16 {
            let empty = |slot| Record::new(stream::EMPTY_WINDOW, &[p, slot]);
            self.waiting.extend((0..16).map(empty));
            let free = |slot| Record::new(stream::FREE_ENTRY, &[p, slot]);
            self.waiting.extend((0..4).map(free));
            self.waiting.push_back(calls::clear_log(&mut self.random, p));
        }
        self.came.clear();
    }

    /// After a packet all tables are shown. What crossed is kept, what was logged often cleared.
    fn after_pass(&mut self, record: &Record) {
        self.passed += 1;
        self.left = self.left.saturating_sub(1);
        match self.bench.outcome {
            Some(Outcome::Crossed(out)) if record.packet[0] & 0x1F == 0 => {
                if self.came.len() == KEPT {
                    self.came.remove(0);
                }
                self.came.push(Came { partition: out.partition, word_1: out.words[1] });
            }
            Some(Outcome::Crossed(_)) | None => (),
            Some(_) => {
                if self.random.one_in(2) {
                    let clear = calls::clear_log(&mut self.random, record.with[0]);
                    self.waiting.push_front(clear);
                }
            }
        }
        self.waiting.push_front(Record::show());
    }
}
