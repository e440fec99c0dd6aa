//! Where answers and shown tables differ, as text.

use crate::stream;
use std::collections::HashSet;

/// An answer's words.
pub fn answer_text(bytes: &[u8]) -> String {
    let words: Vec<String> = bytes.chunks_exact(4).map(hex).collect();
    words.join(" ")
}

fn hex(bytes: &[u8]) -> String {
    bytes.iter().map(|byte| format!("{byte:02X}")).collect()
}

/// The places at which shown tables differ.
pub fn tables(expected: &[u8], got: &[u8]) -> Vec<String> {
    let tables = [
        ("Windows", 8, stream::WINDOWS_ROOM),
        ("Numbers", 4, stream::NUMBERS_ROOM),
        ("Logs", 4, stream::LOGS_ROOM),
        ("Out", 1, stream::OUT_ROOM),
    ];
    let (mut differences, mut start) = (Vec::new(), 0);
    for (name, size, room) in tables {
        let end = start + size * room;
        let pairs = expected[start..end].chunks_exact(size).zip(got[start..end].chunks_exact(size));
        for (place, (expected, got)) in pairs.enumerate() {
            if expected != got {
                let (expected, got) = (hex(expected), hex(got));
                differences.push(format!("{name}, place {place}: expected {expected}, got {got}"));
            }
        }
        start = end;
    }
    differences
}

/// The first few of the differences, each of them once, and how many more there are.
pub fn first_few(mut differences: Vec<String>, told: usize) -> Vec<String> {
    let mut seen = HashSet::new();
    differences.retain(|difference| seen.insert(difference.clone()));
    let more = differences.len().saturating_sub(told);
    differences.truncate(told);
    if more > 0 {
        differences.push(format!("and {more} more"));
    }
    differences
}
