//! The exam sheet: its tables, its cases A to N, and what must come of each.

use crate::model::{self, Outcome, Record};
use crate::stream::{self, table, Record as Call};

/// The tables of the sheet, with empty logs.
struct Tables {
    windows: [u64; model::WINDOWS],
    numbers: [u32; model::NUMBERS],
    logs: [u32; model::LOGS],
    out: [u8; model::OUT],
}

/// A packet of the sheet and what must come of it.
struct Case {
    name: &'static str,
    from: u32,
    packet: Vec<u8>,
    line: &'static str,
    /// The whole table of logs afterwards has this row at the sender's place, and else zeros.
    log: [u32; 6],
    /// Out begins with these words afterwards, and has else zeros.
    out: Vec<u32>,
}

/// The tables as the sheet gives them. The partitions that it does not name are inactive.
fn tables() -> Tables {
    let mut windows = [0; model::WINDOWS];
    windows[48..54].copy_from_slice(&[
        0x9000_0000, 0x1_4000_0000, 0x1014, 0xA000_0000, 0, 0x130C,
    ]);
    let mut numbers = [0; model::NUMBERS];
    numbers[6] = 0x0001_0300;
    numbers[model::BUSES..].fill(model::INACTIVE);
    numbers[model::BUSES..model::BUSES + 3].copy_from_slice(&[1, 2, 2]);
    Tables { windows, numbers, logs: [0; model::LOGS], out: [0; model::OUT] }
}

/// The calls that make the tables of the sheet out of zeros, and fill all of Out's room.
pub fn calls() -> Vec<Call> {
    let mut calls: Vec<Call> = (3..16).map(|p| Call::new(stream::MAKE_INACTIVE, &[p])).collect();
    calls.extend([[0, 1], [1, 2], [2, 2]].map(|with| Call::new(stream::SET_BUS, &with)));
    calls.push(Call::new(stream::SET_WINDOW, &[1, 0, 0, 0x9000_0000, 1, 0x4000_0000, 20, 0, 0]));
    calls.push(Call::new(stream::SET_WINDOW, &[1, 1, 0, 0xA000_0000, 0, 0, 12, 3, 0]));
    calls.push(Call::new(stream::SET_ENTRY, &[1, 2, 0x0300]));
    calls.extend((0..stream::OUT_ROOM as u32).map(|place| Call::store(table::OUT, place, 0xEE)));
    calls
}

/// The line that `bench` prints for an outcome.
pub fn line(outcome: &Outcome) -> String {
    match outcome {
        Outcome::Crossed(record) => {
            format!("crossed {} {}{}", record.partition, record.length, words(record))
        }
        Outcome::Answered(refusal, record) => {
            format!("answered {} {}{}", refusal, record.length, words(record))
        }
        Outcome::Dropped(refusal) => format!("dropped {refusal}"),
    }
}

/// The header's own words, a space before each.
fn words(record: &Record) -> String {
    record.words.iter().take(record.count as usize).map(|word| format!(" {word:08X}")).collect()
}

/// The bytes of the given words.
fn bytes(words: &[u32]) -> Vec<u8> {
    words.iter().flat_map(|word| word.to_be_bytes()).collect()
}

/// A case that crosses: nothing is logged.
fn crossing(
    name: &'static str,
    from: u32,
    packet: &[u32],
    line: &'static str,
    out: &[u32],
) -> Case {
    Case { name, from, packet: bytes(packet), line, log: [0; 6], out: out.to_vec() }
}

/// A case that is refused under the given log bit: its header is logged.
fn refused(
    name: &'static str,
    from: u32,
    packet: &[u32],
    line: &'static str,
    bit: u32,
    out: &[u32],
) -> Case {
    let mut log = [1 << bit, bit, 0, 0, 0, 0];
    let count = if packet[0] >> 29 & 1 == 1 { 4 } else { 3 };
    log[2..2 + count].copy_from_slice(&packet[..count]);
    Case { name, from, packet: bytes(packet), line, log, out: out.to_vec() }
}

/// The first cases: A to G.
fn cases_to_g() -> Vec<Case> {
    let a = "crossed 0 16 20000001 0146050F 00000001 40000010";
    let a_out = [0x2000_0001, 0x0146_050F, 0x0000_0001, 0x4000_0010];
    let b = "crossed 1 16 4A000001 02000004 03000510";
    let b_out = [0x4A00_0001, 0x0200_0004, 0x0300_0510, 0x1122_3344];
    let c = "answered 6 12 0A000000 02002004 03000500";
    let d = "crossed 0 16 20000001 0146050F 00000001 400FFFFC";
    let d_out = [0x2000_0001, 0x0146_050F, 0x0000_0001, 0x400F_FFFC];
    let f = "answered 7 12 0A000000 02002004 03010510";
    let g = "answered 8 12 0A000000 02002004 03000500";
    let zero_address = [0x0A00_0000, 0x0200_2004, 0x0300_0500];
    let other_requester = [0x0A00_0000, 0x0200_2004, 0x0301_0510];
    vec![
        crossing("A", 1, &[1, 0x0300_050F, 0x9000_0010], a, &a_out),
        crossing("B", 0, &[0x4A00_0001, 0x0100_0004, 0x0146_0510, 0x1122_3344], b, &b_out),
        refused("C", 1, &[1, 0x0300_050F, 0x9010_0000], c, 20, &zero_address),
        crossing("D", 1, &[1, 0x0300_050F, 0x900F_FFFC], d, &d_out),
        refused("E", 1, &[2, 0x0300_05FF, 0x900F_FFFC], "dropped 35", 18, &[]),
        refused("F", 1, &[1, 0x0301_050F, 0x9000_0010], f, 20, &other_requester),
        refused("G", 1, &[1, 0x0300_050F, 0xA000_0000], g, 20, &zero_address),
    ]
}

/// The next cases: H to K.
fn cases_to_k() -> Vec<Case> {
    let h = [0x4000_4001, 0x0300_050F, 0x9000_0010, 0x5566_7788];
    let i = [0x4A00_0001, 0x0100_0004, 0x0147_0510, 0x1122_3344];
    let j = [0x4A00_0001, 0x0100_0004, 0x0246_0510, 0x1122_3344];
    let eleven = bytes(&[1, 0x0300_050F, 0x9000_0010])[..11].to_vec();
    let eleven_log = [0x0004_0000, 18, 1, 0x0300_050F, 0x9000_0000, 0];
    let none_log = [0x0004_0000, 18, 0, 0, 0, 0];
    let k = |name, packet, log| Case { name, from: 1, packet, line: "dropped 31", log, out: vec![] };
    vec![
        refused("H", 1, &h, "dropped 5", 12, &[]),
        refused("I", 0, &i, "dropped 9", 16, &[]),
        refused("J", 2, &j, "dropped 9", 16, &[]),
        k("K, eleven bytes", eleven, eleven_log),
        k("K, no bytes", vec![], none_log),
    ]
}

/// The last cases: L, its byte counts in the answer to a read by a requester without an entry;
/// M and N.
fn cases_to_n() -> Vec<Case> {
    let middle = "answered 7 12 0A000000 02002002 03010511";
    let middle_out = [0x0A00_0000, 0x0200_2002, 0x0301_0511];
    let three = "answered 7 12 0A000000 02002006 03010513";
    let three_out = [0x0A00_0000, 0x0200_2006, 0x0301_0513];
    let most = "answered 7 12 0A000000 02002000 03010500";
    let most_out = [0x0A00_0000, 0x0200_2000, 0x0301_0500];
    let m = "crossed 0 16 20000001 01460500 00000001 40000010";
    let m_out = [0x2000_0001, 0x0146_0500, 0x0000_0001, 0x4000_0010];
    vec![
        refused("L, Length 1", 1, &[1, 0x0301_0506, 0x9000_0010], middle, 20, &middle_out),
        refused("L, Length 3", 1, &[3, 0x0301_0518, 0x9000_0010], three, 20, &three_out),
        refused("L, Length 1,024", 1, &[0, 0x0301_05FF, 0x9000_0000], most, 20, &most_out),
        crossing("M", 1, &[1, 0x0300_0500, 0x9000_0010], m, &m_out),
        refused("N", 1, &[0x2000_0001, 0x0300_050F, 0, 0x9000_0010], "dropped 36", 18, &[]),
    ]
}

/// Runs a case, and answers its line and what is wrong with it.
fn run(case: &Case) -> (String, Option<&'static str>) {
    let mut tables = tables();
    let outcome = model::pass(
        case.from,
        &case.packet,
        &tables.windows,
        &tables.numbers,
        &mut tables.logs,
        &mut tables.out,
    );
    let mut logs = [0; model::LOGS];
    let row = 6 * case.from as usize;
    logs[row..row + 6].copy_from_slice(&case.log);
    let mut out = bytes(&case.out);
    out.resize(model::OUT, 0);
    let line = line(&outcome);
    let wrong = if line != case.line {
        Some("another line is expected")
    } else if logs != tables.logs {
        Some("other logs are expected")
    } else if out != tables.out {
        Some("another Out is expected")
    } else {
        None
    };
    (line, wrong)
}

/// The three counts of case L: Length, first enables, last enables, and the count's field.
const COUNTS: [(u32, u32, u32, u32); 3] =
    [(1, 0b0110, 0, 2), (3, 0b1000, 0b0001, 6), (1024, 0b1111, 0b1111, 0)];

/// Runs the whole sheet: the text that tells of it, and how many cases passed and failed.
pub fn sheet() -> (String, u32, u32) {
    let (mut text, mut passed, mut failed) = (String::new(), 0, 0);
    let mut note = |name: &str, line: &str, wrong: Option<String>| match wrong {
        None => {
            passed += 1;
            text.push_str(&format!("{name}: {line}: ok\n"));
        }
        Some(wrong) => {
            failed += 1;
            text.push_str(&format!("{name}: {line}: FAILED: {wrong}\n"));
        }
    };
    for case in cases_to_g().iter().chain(&cases_to_k()).chain(&cases_to_n()) {
        let (line, wrong) = run(case);
        note(case.name, &line, wrong.map(|wrong| format!("{wrong}; line: {}", case.line)));
    }
    for (length, first, last, expected) in COUNTS {
        let field = model::byte_count(length, first, last) & 0xFFF;
        let line = format!("Length {length}, first {first:04b}, last {last:04b}: field {field}");
        let wrong = if field == expected { None } else { Some(format!("expected {expected}")) };
        note("L", &line, wrong);
    }
    (text, passed, failed)
}
