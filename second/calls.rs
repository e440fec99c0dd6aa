//! Table calls, lends and stores: right ones, odd ones, and rubbish.

use crate::model::{self, Window};
use crate::packets::windows_of;
use crate::random::Random;
use crate::stream::{self, table, Bench, Record, PARAMETERS, RIGHT_LENGTH};

/// The requester IDs that are set: few, so that they meet again.
const IDS: [u32; 6] = [0x0300, 0x0301, 0x0000, 0xFFFF, 0x0140, 0x02C5];
/// The buses that are set: few, so that partitions share them.
const BUSES: [u32; 6] = [1, 2, 2, 0, 255, 7];

/// What is lent: four tables and the answer buffer of `pass`, and their right lengths.
const LENT: [u32; 5] = [table::WINDOWS, table::NUMBERS, table::LOGS, table::OUT, table::ANSWER];
const RIGHT: [u32; 5] = [768, 80, 96, 4112, 8];

/// A table call, mostly right, that suits the tables as they are.
pub fn table_call(random: &mut Random, bench: &Bench) -> Record {
    let p = partition(random);
    match random.below(12) {
        0..=3 => set_window(random, bench, p),
        4 => Record::new(stream::EMPTY_WINDOW, &[p, window_slot(random)]),
        5..=7 => set_entry(random, bench, p),
        8 => Record::new(stream::FREE_ENTRY, &[p, entry_slot(random)]),
        9 => set_bus(random, p),
        10 if random.one_in(2) => Record::new(stream::MAKE_INACTIVE, &[p]),
        _ => clear_log(random, p),
    }
}

fn partition(random: &mut Random) -> u32 {
    if random.one_in(24) {
        random.pick(&[16, 17, 31, 255, 256, 0x1_0000, 0x0555_5556, 0x1000_0000, 0xFFFF_FFFF])
    } else {
        random.below(16)
    }
}

fn window_slot(random: &mut Random) -> u32 {
    match random.below(24) {
        0 => random.pick(&[16, 17, 255, 256, 0x1_0000, 0x8000_0000, 0xFFFF_FFFF]),
        1..=4 => random.pick(&[0, 3, 4, 15]),
        _ => random.below(16),
    }
}

fn entry_slot(random: &mut Random) -> u32 {
    match random.below(16) {
        0 => random.pick(&[4, 5, 15, 16, 0x1_0000, 0x4000_0000, 0xFFFF_FFFF]),
        _ => random.below(4),
    }
}

fn exponent(random: &mut Random) -> u32 {
    match random.below(16) {
        0 => random.pick(&[0, 11, 11, 40, 40, 63, 64, 76, 255, 268, 0x1_000C, 0xFFFF_FFFF]),
        1..=8 => random.pick(&[12, 12, 13, 14, 16, 20]),
        9..=11 => random.pick(&[31, 32, 33, 34, 38, 39]),
        _ => 12 + random.below(28),
    }
}

fn destination(random: &mut Random, p: u32) -> u32 {
    match random.below(24) {
        0 => random.pick(&[p, p, 16, 17, 31, 255, 256, 0x1_0001, 0xFFFF_FFFF]),
        _ => p.wrapping_add(1 + random.below(15)) % 16,
    }
}

/// The multiple of 2^k at or below `address`; a k above 63 counts as 63.
fn aligned(address: u64, k: u32) -> u64 {
    let k = k.min(63);
    address >> k << k
}

/// A bit that a multiple of 2^k has not: at least every other time the highest such, which leaves one zero too few.
fn bit_below(random: &mut Random, k: u32) -> u64 {
    let bits = k.clamp(1, 63);
    let place = if random.one_in(2) { bits - 1 } else { random.below(bits) };
    1 << place
}

/// A base or a target: low, just below 4 GiB, at 4 GiB, high, at the end, anywhere.
fn place(random: &mut Random, k: u32) -> u64 {
    let size = 1u64 << k.min(63);
    let address = match random.below(12) {
        0..=4 => u64::from(random.word()),
        5 => (1u64 << 32).saturating_sub(size),
        6 => 1 << 32,
        7 | 8 => random.draw() >> 24,
        9 => u64::MAX - (size - 1),
        10 => 0,
        _ => random.draw(),
    };
    aligned(address, k)
}

/// The choice whether marked packets may pass: 0 is no, any other number yes.
fn choice(random: &mut Random) -> u32 {
    match random.below(16) {
        0..=7 => 0,
        8..=13 => 1,
        _ => random.pick(&[2, 0x100, 0x8000_0000, 0xFFFF_FFFF]),
    }
}

/// Sets a window: at a fresh place, or near a window that the partition has.
pub fn set_window(random: &mut Random, bench: &Bench, p: u32) -> Record {
    let near = windows_of(p as usize % 16, bench);
    let (mut base, k) = if near.is_empty() || !random.one_in(3) {
        let k = exponent(random);
        (place(random, k), k)
    } else {
        let window = random.pick(&near);
        span_near(random, window.base, window.k)
    };
    let mut target = place(random, k);
    let bit = bit_below(random, k);
    match random.below(32) {
        0 => base |= bit,
        1 => target |= bit,
        _ => (),
    }
    let slot = window_slot(random);
    let to = destination_near(random, p, &near);
    let choice = choice(random);
    let high = |number: u64| (number >> 32) as u32;
    let span = [high(base), base as u32, high(target), target as u32];
    let with = [p, slot, span[0], span[1], span[2], span[3], k, to, choice];
    Record::new(stream::SET_WINDOW, &with)
}

/// A destination, now and then that of a window that the partition has, so that several lead there.
fn destination_near(random: &mut Random, p: u32, near: &[Window]) -> u32 {
    if near.is_empty() || !random.one_in(3) {
        destination(random, p)
    } else {
        random.pick(near).destination as u32
    }
}

/// A span that is the given one, lies in it, around it, or just beside it.
fn span_near(random: &mut Random, base: u64, k: u32) -> (u64, u32) {
    let size = 1u64 << k;
    match random.below(6) {
        0 => (base, k),
        1 => {
            let inner = 12 + random.below(k - 11);
            (base + aligned(random.draw() & (size - 1), inner), inner)
        }
        2 => {
            let outer = k + random.below(40 - k);
            (aligned(base, outer), outer)
        }
        3 => (base.wrapping_add(size), k),
        4 => (base.wrapping_sub(size), k),
        _ => (random.pick(&[base.wrapping_sub(4096), base + (size - 4096)]), 12),
    }
}

/// Sets an entry. The word may have more bits than the requester ID takes.
pub fn set_entry(random: &mut Random, bench: &Bench, p: u32) -> Record {
    let held = bench.numbers[random.below(64) as usize] & 0xFFFF;
    let id = match random.below(8) {
        0 => random.word() & 0xFFFF,
        1 => held,
        _ => random.pick(&IDS),
    };
    let more = if random.one_in(8) { random.word() << 16 } else { 0 };
    Record::new(stream::SET_ENTRY, &[p, entry_slot(random), id | more])
}

/// Sets a bus, now and then one that there is not.
pub fn set_bus(random: &mut Random, p: u32) -> Record {
    let bus = match random.below(12) {
        0 => random.pick(&[256, 257, 511, 0x1_0001, 0xFFFF_FFFF]),
        1 => random.below(256),
        _ => random.pick(&BUSES),
    };
    Record::new(stream::SET_BUS, &[p, bus])
}

/// Clears all bits of a log's status, one that is used, or any.
pub fn clear_log(random: &mut Random, p: u32) -> Record {
    let any = random.word();
    let ones = random.pick(&[u32::MAX, u32::MAX, u32::MAX, 1 << 20, 1 << 18, 1 << 12, 0, any]);
    Record::new(stream::CLEAR_LOG, &[p, ones])
}

/// Lends every table with its right length, and Out and the answer buffer perhaps longer.
pub fn right_lend(random: &mut Random) -> Record {
    let mut lengths = RIGHT;
    if random.one_in(2) {
        lengths[3] = random.pick(&[4113, 4119, 4120, 9999, 0xFFFF_FFFE]);
    }
    if random.one_in(2) {
        lengths[4] = random.pick(&[9, 10, 11, 0x8000_0000, 0xFFFF_FFFE]);
    }
    lend(random, lengths)
}

/// Lends a table or the answer buffer with a wrong length.
pub fn wrong_lend(random: &mut Random) -> Record {
    let mut lengths = RIGHT;
    match random.below(6) {
        0 => lengths[0] = random.pick(&[0, 1, 767, 769, 770, 0x8000_0000, 0xFFFF_FFFE]),
        1 => lengths[1] = random.pick(&[0, 1, 64, 79, 81, 82, 0xFFFF_FFFE]),
        2 => lengths[2] = random.pick(&[0, 6, 95, 97, 98, 0xFFFF_FFFE]),
        3 => lengths[3] = random.pick(&[0, 12, 16, 4096, 4111]),
        4 => lengths[4] = random.below(8),
        _ => lengths = [random.below(770), random.below(82), random.below(98), 4112, 10],
    }
    lend(random, lengths)
}

/// Lends these lengths of the five. Every other right one is written as what stands for it, and the
/// tables that there are not have rubbish now and then.
fn lend(random: &mut Random, lengths: [u32; 5]) -> Record {
    let mut record = Record::lend(&[]);
    if random.one_in(3) {
        record.with = [0; PARAMETERS].map(|_| rubbish_word(random));
    }
    for place in 0..LENT.len() {
        let stands = lengths[place] == RIGHT[place] && random.one_in(2);
        record.with[LENT[place] as usize - 1] = if stands { RIGHT_LENGTH } else { lengths[place] };
    }
    record
}

/// A word that nobody may look at: anything, or a small number.
fn rubbish_word(random: &mut Random) -> u32 {
    if random.one_in(2) {
        random.below(32)
    } else {
        random.word()
    }
}

/// Puts rubbish into the parameters that a call does not have, about once in four times. A lend has
/// all of them.
pub fn litter(random: &mut Random, record: &mut Record) {
    if !random.one_in(4) {
        return;
    }
    let has = stream::parameters(record.call).unwrap_or(PARAMETERS);
    for parameter in &mut record.with[has..] {
        *parameter = rubbish_word(random);
    }
}

fn store(number: u32, place: usize, value: u64) -> Record {
    Record::store(number, place as u32, value)
}

/// Stores rubbish somewhere.
pub fn rubbish(random: &mut Random, bench: &Bench) -> Vec<Record> {
    let any = random.draw();
    match random.below(22) {
        0..=4 => spoiled_row(random, bench),
        5..=10 => row_over_another(random, bench),
        11..=13 => vec![odd_entry(random, bench)],
        14 => vec![odd_bus(random)],
        15..=17 => {
            let value = random.pick(&[0, 0, 1, 0x8000_0000, 0x0010_0000, any]);
            let place = if random.one_in(2) { 6 * random.below(16) } else { random.below(96) };
            vec![store(table::LOGS, place as usize, value)]
        }
        18..=20 => vec![store(table::OUT, random.below(4120) as usize, any)],
        _ => {
            let places = [767, 768, 769, 80, 81, 96, 97, 4112, 4119, 4120, 0xFFFF_FFFF];
            let numbers = [1, 1, 4, 4, 6, 6, 7, 7, 0, 2, 3, 5, 8, 9, 15, 16, 0x104, 0xFFFF_FFFF];
            vec![store(random.pick(&numbers), random.pick(&places), any)]
        }
    }
}

/// Takes a row and changes its choice about marked packets, makes it ill-formed in one way, or spoils
/// its word altogether.
fn spoiled_row(random: &mut Random, bench: &Bench) -> Vec<Record> {
    let start = random.below(256) as usize;
    let used = |&row: &usize| bench.windows[3 * row + 2] != 0;
    let row = 3 * (start..256).find(used).unwrap_or(start);
    let (base, target) = (bench.windows[row], bench.windows[row + 1]);
    let control = bench.windows[row + 2];
    let bit = bit_below(random, (control & 0x3F) as u32);
    let own = (row / 48) as u64;
    let (word, value) = match random.below(12) {
        0 => (2, control & !0xFF | random.pick(&[11, 11, 40, 40, 0, 255])),
        1 | 2 => (2, control | 1 << random.pick(&[14, 14, 15, 16, 31, 32, 63])),
        3 | 4 => (2, control ^ 1 << 13),
        5 => (2, control & !0xF00 | own << 8),
        6 => (2, control ^ 1 << 12),
        7 => (0, base | bit),
        8 => (1, target | bit),
        9 => (2, 0x1000 | random.draw() & 0x2FFF),
        10 => (2, control & 0x1FFF | random.pick(&[1, 2, 3, 4, 5, 6, 1 << 50]) << 13),
        _ => (random.below(3) as usize, random.draw()),
    };
    vec![store(table::WINDOWS, row + word, value)]
}

/// Lays a row over another that is in force, as no call would: mostly with the other choice about
/// marked packets, often with the same destination, and now and then not in force itself.
fn row_over_another(random: &mut Random, bench: &Bench) -> Vec<Record> {
    let p = random.below(16);
    let near = windows_of(p as usize, bench);
    if near.is_empty() {
        return Vec::new();
    }
    let window = random.pick(&near);
    let (base, k) = span_near(random, window.base, window.k);
    let target = place(random, k);
    let to = if random.one_in(2) { window.destination as u32 } else { destination(random, p) & 0xF };
    let takes_marked = window.takes_marked == random.one_in(4);
    let right = u64::from(takes_marked) << 13 | 1 << 12 | u64::from(to) << 8 | u64::from(k);
    let wrong = right ^ 1 << random.pick(&[6, 12, 12, 14, 15, 16, 63]);
    let control = if random.one_in(4) { wrong } else { right };
    let row = 3 * (16 * p + random.below(16)) as usize;
    [base, target, control].iter().zip(row..).map(|(&word, place)| store(table::WINDOWS, place, word)).collect()
}

/// An entry that repeats another slot's, or is ill-formed.
fn odd_entry(random: &mut Random, bench: &Bench) -> Record {
    let place = random.below(64) as usize;
    let beside = bench.numbers[place ^ (1 + random.below(3) as usize)];
    let id = random.pick(&IDS);
    let word = match random.below(6) {
        0 | 1 => beside | 1 << 16,
        2 => 1 << 16 | id | 1 << (17 + random.below(15)),
        3 => id,
        4 => id | 2 << 16,
        _ => random.word(),
    };
    store(table::NUMBERS, place, u64::from(word))
}

/// A bus word: active, inactive, or like an entry's.
fn odd_bus(random: &mut Random) -> Record {
    let any = random.word();
    let like_entry = 0x1_0000 | any >> 16;
    let word = random.pick(&[0, 1, 2, 2, 254, 255, 256, 257, like_entry, 0xFFFF_FFFF, any]);
    store(table::NUMBERS, model::BUSES + random.below(16) as usize, u64::from(word))
}
