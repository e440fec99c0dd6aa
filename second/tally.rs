//! How often each outcome, each crossing and each answer to a table call came up.

use crate::form;
use crate::model::{self, Outcome};
use crate::stream::{self, Bench, Record};
use std::collections::BTreeMap;

/// A long run reaches every refusal and every crossing so often at least.
const ENOUGH: u64 = 100;

/// And each outcome of a flush, of a marked packet or of a broken form, each case of form, each fit of
/// a base or target, and each choice about marked packets, at least so often.
const ENOUGH_OF_EACH: u64 = 25;

/// The refusals, by number.
const REFUSALS: [u32; 17] = [1, 2, 4, 5, 6, 7, 8, 9, 10, 11, 12, 31, 32, 33, 34, 35, 36];

/// The crossings: the kind that went in and the kind that came out.
const CROSSINGS: [(u8, u8); 10] = [
    (0x00, 0x00), (0x00, 0x20), (0x20, 0x00), (0x20, 0x20), (0x40, 0x40),
    (0x40, 0x60), (0x60, 0x40), (0x60, 0x60), (0x0A, 0x0A), (0x4A, 0x4A),
];

/// What becomes of flushes, requests of one dword with no byte enabled: by kind, outcome and number.
const FLUSHES: [(&str, &str, u32); 10] = [
    ("read", "crossed", 0), ("read", "answered", 5), ("read", "answered", 6),
    ("read", "answered", 7), ("read", "answered", 8), ("write", "crossed", 0),
    ("write", "dropped", 5), ("write", "dropped", 6), ("write", "dropped", 7),
    ("write", "dropped", 8),
];

/// What becomes of packets whose form is broken: by sort and number.
const BROKEN: [&str; 14] = [
    "read dropped 31", "read dropped 32", "read dropped 33", "read dropped 34", "read dropped 35",
    "read dropped 36", "write dropped 31", "write dropped 32", "write dropped 33",
    "write dropped 34", "write dropped 35", "write dropped 36", "completion dropped 31",
    "completion dropped 32",
];

/// What becomes of marked packets, which have EP set, where the tables decide: by sort, outcome and number.
const MARKED: [&str; 13] = [
    "read crossed", "read answered 5", "read answered 6", "read answered 7", "read answered 8",
    "write crossed", "write dropped 5", "write dropped 6", "write dropped 7", "write dropped 8",
    "completion crossed", "completion dropped 5", "completion dropped 9",
];

/// Marked packets for which the bits of several rows differ, and not every row counts.
const REQUEST_BEFORE: &str = "refused 5 before a later window with the bit";
const COMPLETION_HIGHER: &str = "completion crossed by a higher slot's bit";
const COMPLETION_ELSEWHERE: &str = "completion refused 5, bit in a row elsewhere";
const SPECIAL: [&str; 3] = [REQUEST_BEFORE, COMPLETION_HIGHER, COMPLETION_ELSEWHERE];

/// The choice about marked packets in windows that are set.
const CHOICES: [&str; 2] = ["no", "yes"];

/// What becomes of windows that are set with a size in range: by base or target, its low zeros against k, and the answer.
const FITS: [(&str, &str, u32); 8] = [
    ("base", "all zeros", 0), ("base", "more zeros", 0), ("base", "just k zeros", 0), ("base", "one zero too few", 10),
    ("target", "all zeros", 0), ("target", "more zeros", 0), ("target", "just k zeros", 0), ("target", "one zero too few", 10),
];

/// The names of the switch's calls, from 1 on, and of the stream's own, from 101 on.
const CALLS: [&str; 8] = [
    "pass", "set a window", "empty a window", "set an entry", "free an entry", "set a bus",
    "make inactive", "clear a log",
];
const OWN_CALLS: [&str; 3] = ["lend", "store", "show"];

/// The name of a call's number.
pub fn call_name(call: u32) -> &'static str {
    let name = |names: &[&'static str], first: u32| names.get(call.checked_sub(first)? as usize).copied();
    name(&CALLS, stream::PASS).or_else(|| name(&OWN_CALLS, stream::LEND)).unwrap_or("no call")
}

/// Whether a packet is a read, a write or a completion, by its first byte alone.
fn sort(packet: &[u8]) -> Option<&'static str> {
    match packet.first()? {
        0x00 | 0x20 => Some("read"),
        0x40 | 0x60 => Some("write"),
        0x0A | 0x4A => Some("completion"),
        _ => None,
    }
}

/// Whether a packet is a flush read or a flush write, by its bytes alone.
fn flush(packet: &[u8]) -> Option<&'static str> {
    let one_dword = packet.len() >= 12 && packet[2] & 3 == 0 && packet[3] == 1;
    if !one_dword || packet[7] != 0 {
        return None;
    }
    sort(packet).filter(|&sort| sort != "completion")
}

/// What is special about a marked packet that the tables decided on, if anything is. Where it was refused by 5,
/// the row or rows that count lack the bit, so that any row found with it is another one.
fn special(sort: &str, number: u32, record: &Record, bench: &Bench) -> Option<&'static str> {
    let (from, packet, windows) = (record.with[0] as usize, &record.packet, &bench.windows);
    // the low byte of the number that a completion goes by is 64 and its entry's index; the owner has four entries
    let owner = |packet: &[u8]| (packet[9] as usize - 64) / 4;
    let (special, name) = match (sort, number) {
        ("completion", 0) => {
            let lowest = model::in_force_to(owner(packet), from, windows).next();
            (lowest.map_or(false, |window| !window.takes_marked), COMPLETION_HIGHER)
        }
        ("completion", 5) => {
            let elsewhere = model::in_force(owner(packet), windows).any(|window| window.takes_marked);
            (elsewhere, COMPLETION_ELSEWHERE)
        }
        (_, 5) => (model::some_window_takes_marked(from, packet, windows), REQUEST_BEFORE),
        _ => return None,
    };
    if special {
        Some(name)
    } else {
        None
    }
}

/// How many low zeros a base or a target has, against the k that it must fit.
fn fit(place: u64, k: u32) -> &'static str {
    match place.trailing_zeros() {
        64 => "all zeros",
        zeros if zeros > k => "more zeros",
        zeros if zeros == k => "just k zeros",
        zeros if zeros + 1 == k => "one zero too few",
        _ => "fewer zeros",
    }
}

/// A fit of a base or target, and what the call answered.
fn fitting((name, fit, number): (&str, &str, u32)) -> String {
    match number {
        0 => format!("{name} with {fit}: done"),
        _ => format!("{name} with {fit}: {number}"),
    }
}

/// A name and a number that is not 0.
fn numbered(name: &str, number: u32) -> String {
    if number == 0 {
        String::from(name)
    } else {
        format!("{name} {number}")
    }
}

/// A call and what it answered, where it may answer different things.
fn called((call, number): (u32, u32)) -> String {
    let name = call_name(call);
    match number {
        _ if call >= stream::LEND => String::from(name),
        0 => format!("{name}: done"),
        _ => format!("{name}: {number}"),
    }
}

/// Counts one more.
fn count<K: Ord>(counts: &mut BTreeMap<K, u64>, key: K) {
    *counts.entry(key).or_insert(0) += 1;
}

/// Appends counts to a text, a line each, under their title.
fn list(text: &mut String, title: &str, width: usize, counts: impl Iterator<Item = (String, u64)>) {
    text.push_str(&format!("{title}:\n"));
    for (name, count) in counts {
        text.push_str(&format!("  {name:<width$}{count:>10}\n"));
    }
}

/// The counts.
#[derive(Default)]
pub struct Tally {
    pub packets: u64,
    pub others: u64,
    outcomes: BTreeMap<(&'static str, u32), u64>,
    crossings: BTreeMap<(u8, u8), u64>,
    flushes: BTreeMap<(&'static str, &'static str, u32), u64>,
    broken: BTreeMap<String, u64>,
    forms: BTreeMap<String, u64>,
    marked: BTreeMap<String, u64>,
    special: BTreeMap<&'static str, u64>,
    fits: BTreeMap<(&'static str, &'static str, u32), u64>,
    choices: BTreeMap<&'static str, u64>,
    calls: BTreeMap<(u32, u32), u64>,
}

impl Tally {
    /// Counts a call, the number that it returned, and what became of the packet if it had one. The
    /// tables are those that the call left; a packet changes no window.
    pub fn note(&mut self, record: &Record, number: u32, bench: &Bench) {
        let outcome = match bench.outcome {
            Some(outcome) => outcome,
            None => {
                self.others += 1;
                count(&mut self.calls, (record.call, number));
                if record.call == stream::SET_WINDOW {
                    self.note_window(record, number);
                }
                return;
            }
        };
        self.packets += 1;
        let name = match outcome {
            Outcome::Crossed(out) => {
                count(&mut self.crossings, (record.packet[0], (out.words[0] >> 24) as u8));
                "crossed"
            }
            Outcome::Answered(..) => "answered",
            Outcome::Dropped(_) => "dropped",
        };
        count(&mut self.outcomes, (name, number));
        if let Some(kind) = flush(&record.packet) {
            count(&mut self.flushes, (kind, name, number));
        }
        self.note_form(&record.packet, name, number);
        if number == 0 || (5..=9).contains(&number) {
            self.note_decided(record, name, number, bench);
        }
    }

    /// Counts the cases of form that a packet is, and its sort if a rule of form refused it.
    fn note_form(&mut self, packet: &[u8], name: &str, number: u32) {
        for case in form::cases(packet, number) {
            count(&mut self.forms, case);
        }
        if let (31..=36, Some(sort)) = (number, sort(packet)) {
            count(&mut self.broken, format!("{sort} {}", numbered(name, number)));
        }
    }

    /// Counts a packet that the tables decided on, if it is marked.
    fn note_decided(&mut self, record: &Record, name: &str, number: u32, bench: &Bench) {
        let sort = match sort(&record.packet) {
            Some(sort) if record.packet[2] & 0x40 != 0 => sort,
            _ => return,
        };
        count(&mut self.marked, format!("{sort} {}", numbered(name, number)));
        if let Some(special) = special(sort, number, record, bench) {
            count(&mut self.special, special);
        }
    }

    /// Counts the choice of a window that is set, and how base and target fit its size where the size
    /// is in range.
    fn note_window(&mut self, record: &Record, number: u32) {
        let [_, _, base_high, base, target_high, target, k, _, choice, ..] = record.with;
        if number == 0 {
            count(&mut self.choices, CHOICES[usize::from(choice != 0)]);
        }
        if !(12..=39).contains(&k) {
            return;
        }
        let places = [("base", stream::wide(base_high, base)), ("target", stream::wide(target_high, target))];
        for (name, place) in places {
            count(&mut self.fits, (name, fit(place, k), number));
        }
    }

    /// The counts as a text.
    pub fn text(&self) -> String {
        let mut text = String::new();
        let outcomes = self.outcomes.iter().map(|(key, &count)| (numbered(key.0, key.1), count));
        list(&mut text, "packets", 24, outcomes);
        let crossing = |(into, out): (u8, u8)| format!("{into:02X} -> {out:02X}");
        list(&mut text, "crossings", 24, self.crossings.iter().map(|(&key, &count)| (crossing(key), count)));
        let flush = |(kind, name, number)| format!("{kind} {}", numbered(name, number));
        list(&mut text, "flushes", 24, self.flushes.iter().map(|(&key, &count)| (flush(key), count)));
        let broken = self.broken.iter().map(|(key, &count)| (key.clone(), count));
        list(&mut text, "broken forms", 48, broken.chain(self.wanted_forms()));
        let marked = self.marked.iter().map(|(key, &count)| (key.clone(), count));
        let special = self.special.iter().map(|(&key, &count)| (String::from(key), count));
        list(&mut text, "marked packets", 48, marked.chain(special));
        list(&mut text, "set a window, k in range", 32, self.fits.iter().map(|(&key, &count)| (fitting(key), count)));
        let choices = self.choices.iter().map(|(&key, &count)| (String::from(key), count));
        list(&mut text, "set a window, done, marked packets may pass", 24, choices);
        list(&mut text, "other calls", 24, self.calls.iter().map(|(&key, &count)| (called(key), count)));
        text
    }

    /// What came up too rarely.
    pub fn rare(&self) -> Vec<String> {
        let mut rare = Vec::new();
        let mut want = |name: String, count: Option<&u64>, enough: u64| {
            let count = count.copied().unwrap_or(0);
            if count < enough {
                rare.push(format!("{name} ({count} times)"));
            }
        };
        for refusal in REFUSALS {
            want(format!("refusal {refusal}"), Some(&self.refused(refusal)), ENOUGH);
        }
        for kinds in CROSSINGS {
            let name = format!("crossing {:02X} -> {:02X}", kinds.0, kinds.1);
            want(name, self.crossings.get(&kinds), ENOUGH);
        }
        for flush in FLUSHES {
            let name = format!("flush {} {}", flush.0, numbered(flush.1, flush.2));
            want(name, self.flushes.get(&flush), ENOUGH_OF_EACH);
        }
        for name in BROKEN {
            want(format!("broken {name}"), self.broken.get(name), ENOUGH_OF_EACH);
        }
        for (name, count) in self.wanted_forms() {
            want(name, Some(&count), ENOUGH_OF_EACH);
        }
        for name in MARKED {
            want(format!("marked {name}"), self.marked.get(name), ENOUGH_OF_EACH);
        }
        for name in SPECIAL {
            want(format!("marked packet {name}"), self.special.get(name), ENOUGH_OF_EACH);
        }
        for fit in FITS {
            want(fitting(fit), self.fits.get(&fit), ENOUGH_OF_EACH);
        }
        for choice in CHOICES {
            want(format!("choice {choice}"), self.choices.get(choice), ENOUGH_OF_EACH);
        }
        rare
    }

    /// How often each case of form came up that a run must reach.
    fn wanted_forms(&self) -> impl Iterator<Item = (String, u64)> + '_ {
        form::wanted().into_iter().map(move |name| {
            let count = self.forms.get(&name).copied().unwrap_or(0);
            (name, count)
        })
    }

    /// How often a refusal was given, to packets and to other calls.
    fn refused(&self, refusal: u32) -> u64 {
        let packets = self.outcomes.iter().map(|(key, count)| (key.1, count));
        let others = self.calls.iter().map(|(key, count)| (key.1, count));
        packets.chain(others).filter(|&(number, _)| number == refusal).map(|(_, count)| count).sum()
    }
}
