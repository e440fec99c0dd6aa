//! A lesson over the switch, from Rust: a window is open for student 15, a read crosses and its completion comes back; then
//! a broken packet, a read of student 15 that runs past its page, where the refusal tells which rule it breaks; then a marked
//! breakdown, where the teacher's write with EP set reaches the dash of student 15 through the chosen window and is refused
//! at its neighbour, the window to student 14; then an examination, where the same read is refused and logged. Prints what
//! examples/c/lesson.c prints; ends with 1 if a call gave something else than it must.
#![forbid(unsafe_code)]

use siphonpear::{Refusal, Switch, Window, Words, OUT};
use std::error::Error;

const TEACHER: u32 = 0;
const NEIGHBOUR: u32 = 14;
const STUDENT: u32 = 15;
const READ: [u32; 3] = [0x0000_0001, 0x0300_050F, 0x9000_0010];
const COMPLETION: [u32; 4] = [0x4A00_0001, 0x0100_0004, 0x017C_0510, 0x0000_0037];
const BROKEN_READ: [u32; 3] = [0x0000_0002, 0x0300_06FF, 0x9000_0FFC];
const MARKED_WRITE: [u32; 4] = [0x4000_4001, 0x0108_020F, 0xC0F0_0020, 0x0000_0001];
const MARKED_BESIDE: [u32; 4] = [0x4000_4001, 0x0108_020F, 0xC0E0_0020, 0x0000_0001];
const MARKED_COMPLETION: [u32; 4] = [0x4A00_4001, 0x1000_0004, 0x1040_0320, 0x0000_0001];

/// Passes a packet, prints what became of it, and holds the refusal to the one wanted.
fn pass(switch: &mut Switch, name: &str, from: u32, words: &[u32], wanted: Option<Refusal>) -> Result<(), Box<dyn Error>> {
    let words = Words(words);
    println!("{name}, from {from}: {words}");
    let mut out = [0; OUT];
    let outcome = switch.pass(from, &words.bytes(), &mut out);
    println!("  {outcome}");
    if outcome.refusal() == wanted {
        Ok(())
    } else {
        Err(format!("the refusal is {:?}, and must be {wanted:?}", outcome.refusal()).into())
    }
}

/// The row of a partition's log.
fn print_log(switch: &Switch, p: u32) -> Result<(), Refusal> {
    println!("log of {p}: {}", switch.log(p)?);
    Ok(())
}

fn main() -> Result<(), Box<dyn Error>> {
    let mut switch = Switch::idle();
    for p in 0..16 {
        switch.set_bus(p, p + 1)?;
    }
    switch.set_entry(STUDENT, 0, 0x0300)?;
    switch.set_entry(TEACHER, 0, 0x0108)?;

    println!("A class: the window of student 15 is open.");
    let window = Window { base: 0x9000_0000, target: 0x1_4000_0000, k: 20, to: TEACHER, marked: false };
    switch.set_window(STUDENT, 0, window)?;
    pass(&mut switch, "a read", STUDENT, &READ, None)?;
    pass(&mut switch, "its completion", TEACHER, &COMPLETION, None)?;
    print_log(&switch, STUDENT)?;

    println!("A broken packet: student 15 reads two dwords, and the second lies in the next page of 4 KiB.");
    pass(&mut switch, "a broken read", STUDENT, &BROKEN_READ, Some(Refusal::PageCrossing))?;
    print_log(&switch, STUDENT)?;

    println!("A marked breakdown: marked packets may pass from the teacher to student 15, and not to student 14.");
    let chosen = Window { base: 0xC0F0_0000, target: 0x8000_0000, k: 20, to: STUDENT, marked: true };
    switch.set_window(TEACHER, 15, chosen)?;
    switch.set_window(TEACHER, 14, Window { base: 0xC0E0_0000, to: NEIGHBOUR, marked: false, ..chosen })?;
    pass(&mut switch, "a marked write to 15", TEACHER, &MARKED_WRITE, None)?;
    pass(&mut switch, "the same to 14", TEACHER, &MARKED_BESIDE, Some(Refusal::Poisoned))?;
    pass(&mut switch, "a marked completion", STUDENT, &MARKED_COMPLETION, None)?;
    print_log(&switch, TEACHER)?;

    println!("An examination: both logs are cleared, and all windows are shut.");
    switch.clear_log(TEACHER, 0xFFFF_FFFF)?;
    switch.clear_log(STUDENT, 0xFFFF_FFFF)?;
    switch.empty_window(STUDENT, 0)?;
    switch.empty_window(TEACHER, 15)?;
    switch.empty_window(TEACHER, 14)?;
    pass(&mut switch, "the same read", STUDENT, &READ, Some(Refusal::NoWindow))?;
    pass(&mut switch, "the same completion", TEACHER, &COMPLETION, Some(Refusal::NotPassable))?;
    print_log(&switch, STUDENT)?;
    print_log(&switch, TEACHER)?;

    println!("Afterwards: the log is cleared.");
    switch.clear_log(STUDENT, 0xFFFF_FFFF)?;
    print_log(&switch, STUDENT)?;
    Ok(())
}
