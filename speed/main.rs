//! Nanoseconds a packet: the proved library, the second program's passing function, and plain C, on the same packets and the
//! same tables in one run; and memcpy of 4,096 bytes. Median of 15 rounds, in each of which every one of them has its turn.
//! Under `--cfg before` the proved library of another checkout is one more of them, its names with `before_` in front; under
//! `--cfg before_unmarked` too, that library sets windows without the choice whether marked packets may pass; with
//! `--cfg before_unnamed`, it has one number for all rules of form.

#[path = "../second/model.rs"]
#[allow(dead_code)]
mod model;

mod cases;

use cases::{Case, Tables};
use std::time::Instant;

/// How many rounds there are; the median of them counts.
const ROUNDS: usize = 15;
/// How long one turn of a round should take, in nanoseconds.
const TURN: u128 = 4_000_000;

type Pass = unsafe extern "C" fn(
    u32, *const u8, usize, *const u64, usize, *mut u32, usize, *mut u32, usize, *mut u8, usize, *mut u32, usize,
) -> u32;
type SetWindow = unsafe extern "C" fn(u32, u32, u64, u64, u32, u32, u32, *mut u64, usize) -> u32;

extern "C" {
    fn siphon_pass(
        p: u32, packet: *const u8, n: usize, windows: *const u64, windows_length: usize, numbers: *mut u32,
        numbers_length: usize, logs: *mut u32, logs_length: usize, out: *mut u8, out_length: usize, answer: *mut u32,
        answer_length: usize,
    ) -> u32;
    fn plain_pass(
        p: u32, packet: *const u8, n: usize, windows: *const u64, windows_length: usize, numbers: *mut u32,
        numbers_length: usize, logs: *mut u32, logs_length: usize, out: *mut u8, out_length: usize, answer: *mut u32,
        answer_length: usize,
    ) -> u32;
    fn siphon_set_window(
        p: u32, slot: u32, base: u64, target: u64, k: u32, q: u32, marked: u32, windows: *mut u64, windows_length: usize,
    ) -> u32;
    fn plain_set_window(
        p: u32, slot: u32, base: u64, target: u64, k: u32, q: u32, marked: u32, windows: *mut u64, windows_length: usize,
    ) -> u32;
    #[cfg(before)]
    fn before_siphon_pass(
        p: u32, packet: *const u8, n: usize, windows: *const u64, windows_length: usize, numbers: *mut u32,
        numbers_length: usize, logs: *mut u32, logs_length: usize, out: *mut u8, out_length: usize, answer: *mut u32,
        answer_length: usize,
    ) -> u32;
    #[cfg(all(before, not(before_unmarked)))]
    fn before_siphon_set_window(
        p: u32, slot: u32, base: u64, target: u64, k: u32, q: u32, marked: u32, windows: *mut u64, windows_length: usize,
    ) -> u32;
    #[cfg(before_unmarked)]
    fn before_siphon_set_window(
        p: u32, slot: u32, base: u64, target: u64, k: u32, q: u32, windows: *mut u64, windows_length: usize,
    ) -> u32;
}

/// Passes a packet by a function with C's parameters.
fn by(pass: Pass, p: u32, packet: &[u8], t: &mut Tables) -> u32 {
    // The pointers and lengths are those of slices that live through the call and do not overlap.
    unsafe {
        pass(
            p, packet.as_ptr(), packet.len(), t.windows.as_ptr(), t.windows.len(), t.numbers.as_mut_ptr(), t.numbers.len(),
            t.logs.as_mut_ptr(), t.logs.len(), t.out.as_mut_ptr(), t.out.len(), t.answer.as_mut_ptr(), t.answer.len(),
        )
    }
}

fn proved(p: u32, packet: &[u8], t: &mut Tables) -> u32 {
    by(siphon_pass, p, packet, t)
}

fn plain(p: u32, packet: &[u8], t: &mut Tables) -> u32 {
    by(plain_pass, p, packet, t)
}

#[cfg(before)]
fn before(p: u32, packet: &[u8], t: &mut Tables) -> u32 {
    by(before_siphon_pass, p, packet, t)
}

/// Passes a packet by the second program's function, and writes the same eight words.
#[inline(never)]
fn second(p: u32, packet: &[u8], t: &mut Tables) -> u32 {
    let (number, outcome, record) = match model::pass(p, packet, &t.windows, &t.numbers, &mut t.logs, &mut t.out) {
        model::Outcome::Crossed(r) => (0, 0, Some(r)),
        model::Outcome::Answered(n, r) => (n, 1, Some(r)),
        model::Outcome::Dropped(n) => (n, 2, None),
    };
    t.answer = [outcome, 0, 0, 0, 0, 0, 0, 0];
    if let Some(r) = record {
        t.answer[1] = r.partition;
        t.answer[2] = r.length;
        t.answer[3] = r.count;
        t.answer[4..8].copy_from_slice(&r.words);
    }
    number
}

/// Hides a value from the compiler. Rust's library has such a function from 1.66 on.
fn black_box<T>(value: T) -> T {
    // One of the two copies is forgotten, so the value is dropped once.
    unsafe {
        let hidden = std::ptr::read_volatile(&value);
        std::mem::forget(value);
        hidden
    }
}

/// Something that is run again and again, by a number that counts up.
type Run<'a> = Box<dyn Fn(usize, &mut Tables) + 'a>;

/// Runs something n times, and answers nanoseconds for each.
fn turn(n: usize, tables: &mut Tables, run: &Run) -> f64 {
    let start = Instant::now();
    for i in 0..n {
        run(i, tables);
    }
    start.elapsed().as_nanos() as f64 / n as f64
}

/// How often to run something so that a turn takes its time.
fn turns(tables: &mut Tables, run: &Run) -> usize {
    let mut n = 64;
    loop {
        let start = Instant::now();
        turn(n, tables, run);
        let took = start.elapsed().as_nanos();
        if took * 4 > TURN {
            return (n as u128 * TURN / took.max(1)).max(1) as usize;
        }
        n *= 2;
    }
}

/// The median of each run's rounds. All go over the same tables, so that these lie at the same place in memory for all.
fn medians(mut tables: Tables, runs: &[Run]) -> Vec<f64> {
    let counts: Vec<usize> = runs.iter().map(|run| turns(&mut tables, run)).collect();
    let mut times = vec![Vec::new(); runs.len()];
    for _ in 0..ROUNDS {
        for (i, run) in runs.iter().enumerate() {
            times[i].push(turn(counts[i], &mut tables, run));
        }
    }
    times
        .into_iter()
        .map(|mut t| {
            t.sort_by(|a, b| a.partial_cmp(b).unwrap());
            t[ROUNDS / 2]
        })
        .collect()
}

/// Passes a case's packets in turn.
fn passing<'a>(case: &'a Case, pass: impl Fn(u32, &[u8], &mut Tables) -> u32 + 'a) -> Run<'a> {
    let n = case.packets.len();
    Box::new(move |i, tables| {
        let (p, packet) = &case.packets[i % n];
        black_box(pass(*p, black_box(packet), tables));
    })
}

/// The ways to pass a case's packets.
fn pass_case(case: &Case) -> Vec<f64> {
    let runs = [
        passing(case, proved),
        passing(case, second),
        passing(case, plain),
        #[cfg(before)]
        passing(case, before),
    ];
    medians(case.tables.clone(), &runs)
}

/// Sets a window of partition 1 by a function with C's parameters.
fn by_set(set: SetWindow, base: u64, marked: bool, windows: &mut [u64]) -> u32 {
    // As above: a slice that lives through the call.
    unsafe { set(1, 15, base, 0x1_4000_0000, 20, 0, u32::from(marked), windows.as_mut_ptr(), windows.len()) }
}

fn proved_set(base: u64, marked: bool, windows: &mut [u64]) -> u32 {
    by_set(siphon_set_window, base, marked, windows)
}

fn plain_set(base: u64, marked: bool, windows: &mut [u64]) -> u32 {
    by_set(plain_set_window, base, marked, windows)
}

#[cfg(all(before, not(before_unmarked)))]
fn before_set(base: u64, marked: bool, windows: &mut [u64]) -> u32 {
    by_set(before_siphon_set_window, base, marked, windows)
}

/// The call without the choice: only windows without marked packets are asked of it.
#[cfg(before_unmarked)]
fn before_set(base: u64, _: bool, windows: &mut [u64]) -> u32 {
    // As above: a slice that lives through the call.
    unsafe { before_siphon_set_window(1, 15, base, 0x1_4000_0000, 20, 0, windows.as_mut_ptr(), windows.len()) }
}

/// Sets a window by the second program's function, to which no parameter is known beforehand, as to the others.
fn second_set(base: u64, marked: bool, windows: &mut [u64]) -> u32 {
    let [p, slot, k, q] = black_box([1, 15, 20, 0]);
    let target = black_box(0x1_4000_0000);
    model::set_window(p, slot, (base, target), k, q, black_box(marked), windows).err().unwrap_or(0)
}

/// Sets a window over fifteen others, each time a little further.
fn setting<'a>(set: impl Fn(u64, bool, &mut [u64]) -> u32 + 'a) -> Run<'a> {
    Box::new(move |i, tables| {
        black_box(set(0x9000_0000 + (i as u64 % 16) * 0x10_0000, false, &mut tables.windows));
    })
}

/// The ways to set a window.
fn set_window() -> Vec<f64> {
    let runs = [
        setting(proved_set),
        setting(second_set),
        setting(plain_set),
        #[cfg(before)]
        setting(before_set),
    ];
    medians(cases::full(), &runs)
}

/// One of the others: its name, how it passes a packet and sets a window, whether it has windows for marked packets, and
/// whether it has a number for each rule of form.
struct Other {
    name: &'static str,
    pass: fn(u32, &[u8], &mut Tables) -> u32,
    set: fn(u64, bool, &mut [u64]) -> u32,
    has_marked: bool,
    has_rules: bool,
}

/// Those with which the proved library must agree before all are measured.
const OTHERS: &[Other] = &[
    Other { name: "Rust", pass: second, set: second_set, has_marked: true, has_rules: true },
    Other { name: "C", pass: plain, set: plain_set, has_marked: true, has_rules: true },
    #[cfg(before)]
    Other {
        name: "before",
        pass: before,
        set: before_set,
        has_marked: cfg!(not(before_unmarked)),
        has_rules: cfg!(not(before_unnamed)),
    },
];

/// Whether another agrees on every packet of a case.
fn agrees(case: &Case, other: &Other) -> bool {
    let (mut a, mut b) = (case.tables.clone(), case.tables.clone());
    case.packets.iter().all(|(p, packet)| proved(*p, packet, &mut a) == (other.pass)(*p, packet, &mut b) && a == b)
}

/// Whether another agrees on windows that are set with this choice about marked packets: at zero, with zeros enough, with one
/// too few, over another.
fn agrees_on_windows(other: &Other, marked: bool) -> bool {
    let (mut a, mut b) = (cases::full().windows, cases::full().windows);
    let bases = [0, 0x9000_0000, 0x9010_0000, 0x9008_0000, 0x9000_1000, 0x9000_0001, 0x1000_0000];
    bases.iter().all(|&base| proved_set(base, marked, &mut a) == (other.set)(base, marked, &mut b) && a == b)
}

/// Says with whom the proved library does not agree on what, and ends.
fn differ(other: &Other, what: &str) -> ! {
    eprintln!("speed: the proved library and {} do not agree on '{what}'", other.name);
    std::process::exit(1);
}

/// A row of the table: proved, Rust, C, proved to the faster of them; and, where there is one, before, and proved to it.
fn row(name: &str, t: &[f64]) {
    print!("{:<34}{:>9.1}{:>9.1}{:>9.1}{:>12.2}", name, t[0], t[1], t[2], t[0] / t[1].min(t[2]));
    for before in &t[3..] {
        print!("{:>9.1}{:>11.2}", before, t[0] / before);
    }
    println!();
}

/// Ends, where another that has windows for marked packets does not agree on them.
fn agree_on_marked() {
    let case = cases::all_marked();
    for other in OTHERS.iter().filter(|other| other.has_marked) {
        if !agrees(&case, other) {
            differ(other, case.name);
        }
        if !agrees_on_windows(other, true) {
            differ(other, "set a window for marked packets");
        }
    }
}

/// Ends, where another that has a number for each rule of form does not agree on a broken packet.
fn agree_on_broken() {
    for case in cases::all_broken() {
        if let Some(other) = OTHERS.iter().find(|other| other.has_rules && !agrees(&case, other)) {
            differ(other, case.name);
        }
    }
}

fn main() {
    agree_on_marked();
    agree_on_broken();
    print!("{:<34}{:>9}{:>9}{:>9}{:>12}", "ns a packet, median of 15", "proved", "Rust", "C", "to faster");
    println!("{}", if cfg!(before) { "   before  to before" } else { "" });
    for case in cases::all() {
        if let Some(other) = OTHERS.iter().find(|other| !agrees(&case, other)) {
            differ(other, case.name);
        }
        row(case.name, &pass_case(&case));
    }
    if let Some(other) = OTHERS.iter().find(|other| !agrees_on_windows(other, false)) {
        differ(other, "set a window");
    }
    row("set a window", &set_window());
    let from = [1; 4096];
    let copy: Run = Box::new(|_, tables| black_box(&mut tables.out[..4096]).copy_from_slice(black_box(&from)));
    println!("{:<34}{:>9.1}", "memcpy of 4,096 bytes", medians(cases::full(), &[copy])[0]);
}
