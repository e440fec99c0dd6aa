//! Packets that suit the tables as they are, and ways to spoil them.

use crate::model::{self, Window};
use crate::random::Random;
use crate::stream::{self, table, Bench, Record, LONGEST};

/// A request that came out: the partition, and its word 1 there.
#[derive(Clone, Copy)]
pub struct Came {
    pub partition: u32,
    pub word_1: u32,
}

/// The kinds that are carried, and kinds near them.
const KINDS: [u8; 22] = [
    0x00, 0x20, 0x40, 0x60, 0x0A, 0x4A, 0x80, 0xA0, 0xC0, 0xE0, 0x8A, 0xCA, 0x01, 0x21, 0x02, 0x42,
    0x0B, 0x4B, 0x2A, 0x6A, 0x34, 0x74,
];
/// How many of them are carried: the first ones.
const CARRIED: usize = 6;

/// First enables without gaps up to the top, and with gaps.
const FIRST: [u32; 4] = [15, 14, 12, 8];
const FIRST_WITH_GAPS: [u32; 11] = [1, 2, 3, 4, 5, 6, 7, 9, 10, 11, 13];
/// Last enables without gaps down to the bottom, and with gaps.
const LAST: [u32; 4] = [15, 7, 3, 1];
const LAST_WITH_GAPS: [u32; 11] = [2, 4, 5, 6, 8, 9, 10, 11, 12, 13, 14];

/// Which rules of form a misshapen request is to break: 32 to 36.
struct Breaks {
    length: bool,
    enables: bool,
    contiguity: bool,
    page: bool,
    high_word: bool,
}

/// A packet and its sender.
pub fn packet(random: &mut Random, bench: &Bench, came: &[Came]) -> (u32, Vec<u8>) {
    let (mut from, mut packet) = if random.one_in(8) {
        misshapen(random, bench)
    } else {
        sound_or_spoiled(random, bench, came)
    };
    if random.one_in(5) {
        mark(&mut packet);
    }
    if random.one_in(32) {
        from = random.pick(&[0, 1, 7, 15, 16, 17, 255, 256, 0x1_0001, 0x8000_0000, 0xFFFF_FFFF]);
    }
    packet.truncate(LONGEST);
    (from, packet)
}

/// A packet that has all it needs, or was spoiled after that, or is rubbish.
fn sound_or_spoiled(random: &mut Random, bench: &Bench, came: &[Came]) -> (u32, Vec<u8>) {
    let (from, mut packet) = match random.below(16) {
        0 => rubbish(random),
        1..=3 => completion(random, bench),
        4 | 5 => completion_for(random, bench, came),
        _ => request(random, bench),
    };
    if random.one_in(3) {
        spoil(random, &mut packet);
        if random.one_in(4) {
            spoil(random, &mut packet);
        }
    }
    (from, packet)
}

/// The windows of a partition that are in force.
pub fn windows_of(p: usize, bench: &Bench) -> Vec<Window> {
    model::in_force(p, &bench.windows).collect()
}

/// A partition that is active and has a window, if there is one.
fn sender(random: &mut Random, bench: &Bench) -> usize {
    let start = random.below(16) as usize;
    if random.one_in(16) {
        return start;
    }
    let suits = |&p: &usize| {
        model::bus(p, &bench.numbers).is_some()
            && model::in_force(p, &bench.windows).next().is_some()
    };
    (start..start + 16).map(|p| p % 16).find(suits).unwrap_or(start)
}

/// A packet that goes by a word of the windows or the numbers: what is stored there decides.
pub fn aimed(random: &mut Random, bench: &Bench, stores: &[Record]) -> Option<(u32, Vec<u8>)> {
    let store = stores.first()?;
    let (number, place, word) = (store.with[0], store.with[1] as usize, store.with[3]);
    if number == table::WINDOWS && place < model::WINDOWS {
        let start = place / 3 * 3;
        let mut row = [bench.windows[start], bench.windows[start + 1], bench.windows[start + 2]];
        if stores.len() == row.len() {
            row = [0, 1, 2].map(|word: usize| stream::wide(stores[word].with[2], stores[word].with[3]));
        }
        Some(aimed_at_row(random, bench, place / 48, &row_as_window(&row)))
    } else if number == table::NUMBERS && place < model::BUSES && random.one_in(2) {
        let p = place / 4;
        let address = window(random, p, bench).map_or(0, |window| window.base);
        Some(request_from(random, p, address, word & 0xFFFF))
    } else if number == table::NUMBERS && place < model::NUMBERS {
        let q = random.below(16);
        let bus = model::bus(q as usize, &bench.numbers).unwrap_or(0);
        let number = 256 * bus + 64 + place as u32;
        Some((q, completion_packet(random, number << 16)))
    } else {
        None
    }
}

/// A request through a row of partition `p`, or a completion on the way back; every other one is marked.
fn aimed_at_row(random: &mut Random, bench: &Bench, p: usize, row: &Window) -> (u32, Vec<u8>) {
    let (from, mut packet) = if random.one_in(3) {
        let start = random.below(4) as usize;
        let held = |&i: &usize| model::look_entry(bench.numbers[i]).is_some();
        let index = (start..start + 4).map(|slot| 4 * p + slot % 4).find(held).unwrap_or(4 * p);
        completion_from(random, bench, row.destination, index)
    } else {
        let (id, address) = (requester(random, p, bench), address_in(random, row));
        request_from(random, p, address, id)
    };
    if random.one_in(2) {
        mark(&mut packet);
    }
    (from, packet)
}

/// A read or a write through a window of its sender's.
fn request(random: &mut Random, bench: &Bench) -> (u32, Vec<u8>) {
    let p = sender(random, bench);
    let address = address_of(random, p, bench);
    let id = requester(random, p, bench);
    request_from(random, p, address, id)
}

/// An address that a request of this partition may have: mostly in a window, now and then beside one.
fn address_of(random: &mut Random, p: usize, bench: &Bench) -> u64 {
    match window(random, p, bench) {
        Some(window) if !random.one_in(32) => address_in(random, &window),
        Some(window) => address_beside(random, &window),
        None => random.draw() >> random.below(64),
    }
}

/// A read or a write at about this address, by this requester.
fn request_from(random: &mut Random, p: usize, address: u64, id: u32) -> (u32, Vec<u8>) {
    let (address, length) = fitting(random, address & !3);
    let enables = enables(random, length, address);
    (p as u32, request_packet(random, address, length, enables, id))
}

/// A read or a write with this address, Length, enables and requester.
fn request_packet(random: &mut Random, address: u64, length: u32, enables: u32, id: u32) -> Vec<u8> {
    let write = random.one_in(2);
    let four = address >> 32 != 0;
    let kind = (u32::from(write) << 6 | u32::from(four) << 5) << 24;
    let word_0 = kind | other_bits(random) | length & 0x3FF;
    let tag = random.word() & 0xFF00;
    let word_1 = id << 16 | tag | enables;
    let odd_bits = if random.one_in(4) { random.below(4) } else { 0 };
    let mut packet = Vec::new();
    push(&mut packet, word_0);
    push(&mut packet, word_1);
    if four {
        push(&mut packet, (address >> 32) as u32);
    }
    push(&mut packet, address as u32 | odd_bits);
    if write {
        random.bytes(4 * length as usize, &mut packet);
    }
    packet
}

/// A read or a write that breaks some rules of form and no others, as far as that is possible; now
/// and then it is not carried besides.
fn misshapen(random: &mut Random, bench: &Bench) -> (u32, Vec<u8>) {
    let p = sender(random, bench);
    let address = address_of(random, p, bench) & !3;
    let id = requester(random, p, bench);
    let breaks = breaks(random);
    let (address, length) =
        if breaks.page { over_the_page(random, address) } else { in_the_page(random, address, &breaks) };
    let enables = breaking_enables(random, length, &breaks);
    let mut packet = request_packet(random, address, length, enables, id);
    if breaks.high_word {
        zero_high_word(&mut packet);
    }
    if breaks.length {
        make_longer_or_shorter(random, &mut packet);
    }
    if random.one_in(6) {
        make_not_carried(random, &mut packet);
    }
    (p as u32, packet)
}

/// The rules that are to be broken: mostly one or two.
fn breaks(random: &mut Random) -> Breaks {
    let one = 1 << random.below(5);
    let another = 1 << random.below(5);
    let rules = match random.below(5) {
        0 | 1 => one,
        2 | 3 => one | another,
        _ => random.below(32),
    };
    Breaks {
        length: rules & 1 != 0,
        enables: rules & 2 != 0,
        contiguity: rules & 4 != 0,
        page: rules & 8 != 0,
        high_word: rules & 16 != 0,
    }
}

/// An address in the same page and a Length that goes on beyond it, every other time by one dword.
fn over_the_page(random: &mut Random, address: u64) -> (u64, u32) {
    let length = match random.below(4) {
        0 => 2,
        1 => random.pick(&[1024, 1023, 512]),
        _ => 3 + random.below(8),
    };
    let over = if random.one_in(2) { 1 } else { 1 + random.below(length - 1) };
    let place = 4096 - 4 * (length - over);
    (address & !0xFFF | u64::from(place), length)
}

/// An address in the same page and a Length that fits there: of one dword or two from a multiple of
/// 8 on where the enables alone are to be wrong, and of others where gaps are.
fn in_the_page(random: &mut Random, address: u64, breaks: &Breaks) -> (u64, u32) {
    let length = match random.below(4) {
        _ if breaks.enables && !breaks.contiguity => 1 + random.below(2),
        0 => 2,
        1 => random.pick(&[1024, 1023, 512]),
        _ => 3 + random.below(8),
    };
    let (page, place) = (address & !0xFFF, address & 0xFFF);
    let place = match length {
        2 if breaks.contiguity => place.min(4084) & !7 | 4,
        2 => place & !7,
        _ => place.min(4096 - 4 * u64::from(length)),
    };
    (page | place, length)
}

/// Last and first enables that break the rules as far as they are to.
fn breaking_enables(random: &mut Random, length: u32, breaks: &Breaks) -> u32 {
    let (mut first, mut last) = (random.pick(&FIRST), random.pick(&LAST));
    let (with_gaps, empty) = (1 + random.below(3), 1 + random.below(3));
    if length == 1 {
        first = random.below(16);
        last = if breaks.enables { 1 + random.below(15) } else { 0 };
        return last << 4 | first;
    }
    if breaks.contiguity && with_gaps & 1 != 0 {
        first = random.pick(&FIRST_WITH_GAPS);
    }
    if breaks.contiguity && with_gaps & 2 != 0 {
        last = random.pick(&LAST_WITH_GAPS);
    }
    if breaks.enables && empty & 1 != 0 {
        first = 0;
    }
    if breaks.enables && empty & 2 != 0 {
        last = 0;
    }
    last << 4 | first
}

/// Gives a packet another length, but not less than 12 bytes.
fn make_longer_or_shorter(random: &mut Random, packet: &mut Vec<u8>) {
    let by = random.pick(&[1, 1, 2, 3, 4, 8]);
    let shorter = packet.len().saturating_sub(by);
    if shorter >= 12 && random.one_in(2) {
        packet.truncate(shorter);
    } else {
        random.bytes(by, packet);
    }
}

/// Gives a packet what is not carried: a kind, TD or AT.
fn make_not_carried(random: &mut Random, packet: &mut [u8]) {
    match random.below(3) {
        0 => change(packet, 0, |_| random.pick(&KINDS[CARRIED..])),
        1 => change(packet, 2, |byte| byte | 0x80),
        _ => change(packet, 2, |byte| byte | random.pick(&[4, 8, 12])),
    }
}

/// Cuts a packet's beginning off, mostly too short, which every other time is not carried either.
fn cut(random: &mut Random, packet: &mut Vec<u8>) {
    if random.one_in(2) {
        make_not_carried(random, packet);
    }
    let kept = match random.below(3) {
        0 => 11,
        1 => random.below(12),
        _ => random.below(16),
    };
    packet.truncate(kept as usize);
}

/// A row of a partition's taken as a window, whether or not it is in force.
fn any_row(random: &mut Random, p: usize, bench: &Bench) -> Option<Window> {
    let used: Vec<&[u64]> = model::rows(p, &bench.windows).filter(|row| row[2] != 0).collect();
    if used.is_empty() {
        return None;
    }
    Some(row_as_window(random.pick(&used)))
}

/// A row taken as a window, whether or not it is in force.
fn row_as_window(row: &[u64]) -> Window {
    let k = (row[2] as u32 & 0xFF).clamp(12, 39);
    let destination = (row[2] >> 8 & 0xF) as usize;
    let takes_marked = row[2] >> 13 & 1 == 1;
    Window { base: row[0], target: row[1], k, destination, takes_marked }
}

/// A window of a partition's, mostly one that is in force and leads to an active partition.
fn window(random: &mut Random, p: usize, bench: &Bench) -> Option<Window> {
    if random.one_in(12) {
        return any_row(random, p, bench);
    }
    let mut windows = windows_of(p, bench);
    if !random.one_in(8) {
        let active = |window: &Window| model::bus(window.destination, &bench.numbers).is_some();
        if windows.iter().any(active) {
            windows.retain(active);
        }
    }
    if windows.is_empty() {
        None
    } else {
        Some(random.pick(&windows))
    }
}

/// An address in a window: at its ends, at a page's end, at 4 GiB before or after the way over.
fn address_in(random: &mut Random, window: &Window) -> u64 {
    let inside = (1u64 << window.k) - 4;
    let near = u64::from(random.below(6)) * 4;
    let border = (1u64 << 32) + near;
    let offset = match random.below(10) {
        0 => 0,
        1 => inside,
        2 => random.draw() | 0xFF8,
        3 => random.draw() | 0xFFC,
        4 | 5 => border.wrapping_sub(12).wrapping_sub(window.target),
        6 => border.wrapping_sub(12).wrapping_sub(window.base),
        _ => random.draw(),
    };
    window.base.wrapping_add(offset & inside)
}

/// An address just outside a window.
fn address_beside(random: &mut Random, window: &Window) -> u64 {
    if random.one_in(2) {
        window.base.wrapping_sub(4)
    } else {
        window.base.wrapping_add(1 << window.k)
    }
}

/// A Length, and the address moved back in its page so that the Length mostly fits there.
fn fitting(random: &mut Random, address: u64) -> (u64, u32) {
    let length = match random.below(10) {
        0..=3 => 1,
        4 | 5 => 2,
        6 | 7 => 3 + random.below(8),
        8 => random.pick(&[1024, 1024, 1023, 512, 33]),
        _ => 1 + random.below(1024),
    };
    let last = 4096 - 4 * u64::from(length);
    let (page, place) = (address & !0xFFF, address & 0xFFF);
    if place <= last || random.one_in(8) {
        (address, length)
    } else if random.one_in(2) {
        (address, (4096 - place as u32) / 4)
    } else {
        (page + last, length)
    }
}

/// Last and first enables that mostly suit the Length and the address.
fn enables(random: &mut Random, length: u32, address: u64) -> u32 {
    let (mut first, mut last) = if length == 1 {
        (if random.one_in(3) { 0 } else { 1 + random.below(15) }, 0)
    } else if length == 2 && address & 7 == 0 {
        (1 + random.below(15), 1 + random.below(15))
    } else if length == 1024 && !random.one_in(4) {
        (15, 15)
    } else {
        (random.pick(&[15, 15, 14, 12, 8]), random.pick(&[15, 15, 7, 3, 1]))
    };
    match random.below(24) {
        0 => first = random.below(16),
        1 => last = random.below(16),
        _ => (),
    }
    last << 4 | first
}

/// The bits of word 0 that are carried and mean nothing: 23 to 16, 13 and 12.
fn other_bits(random: &mut Random) -> u32 {
    if random.one_in(2) {
        random.word() & 0x00FF_3000
    } else {
        0
    }
}

/// A requester ID that the partition holds, if it holds one.
fn requester(random: &mut Random, p: usize, bench: &Bench) -> u32 {
    let entries = &bench.numbers[4 * p..4 * p + 4];
    let held: Vec<u32> = entries.iter().filter_map(|&word| model::look_entry(word)).collect();
    if held.is_empty() || random.one_in(20) {
        random.pick(&[0x0300, 0x0301, 0, 0xFFFF])
    } else {
        random.pick(&held)
    }
}

/// A completion that an entry, its owner and a window of the owner's let through.
fn completion(random: &mut Random, bench: &Bench) -> (u32, Vec<u8>) {
    let start = random.below(64) as usize;
    let passable = |&i: &usize| {
        model::look_entry(bench.numbers[i]).is_some()
            && model::bus(i / 4, &bench.numbers).is_some()
            && !windows_of(i / 4, bench).is_empty()
    };
    let index = (start..start + 64).map(|i| i % 64).find(passable).unwrap_or(start);
    let from = match window(random, index / 4, bench) {
        Some(window) => window.destination,
        None => random.below(16) as usize,
    };
    completion_from(random, bench, from, index)
}

/// A completion for the owner of this entry.
fn completion_from(random: &mut Random, bench: &Bench, from: usize, index: usize) -> (u32, Vec<u8>) {
    let bus = model::bus(from, &bench.numbers).unwrap_or(0);
    let number = 256 * bus + 64 + index as u32;
    let tag = random.word() & 0xFF00;
    (from as u32, completion_packet(random, number << 16 | tag))
}

/// A completion for a request that came out, perhaps sent from another partition.
fn completion_for(random: &mut Random, bench: &Bench, came: &[Came]) -> (u32, Vec<u8>) {
    if came.is_empty() {
        return completion(random, bench);
    }
    let request = random.pick(came);
    let from = if random.one_in(8) { random.below(16) } else { request.partition };
    (from, completion_packet(random, request.word_1 & 0xFFFF_FF00))
}

/// A completion with this requester ID and tag. Now and then the number is a little wrong.
fn completion_packet(random: &mut Random, requester_and_tag: u32) -> Vec<u8> {
    let data = random.one_in(2);
    let (_, length) = fitting(random, 0);
    let kind = if data { model::COMPLETION_DATA } else { model::COMPLETION };
    let edge = random.pick(&[0, 63, 64, 127, 128, 129, 192, 255]);
    let requester_and_tag = match random.below(16) {
        0 => requester_and_tag ^ 1 << (16 + random.below(16)),
        1 => requester_and_tag & 0xFF00_FFFF | edge << 16,
        _ => requester_and_tag,
    };
    let mut packet = Vec::new();
    push(&mut packet, u32::from(kind) << 24 | other_bits(random) | length & 0x3FF);
    push(&mut packet, random.word());
    push(&mut packet, requester_and_tag | random.below(256));
    if data {
        random.bytes(4 * length as usize, &mut packet);
    }
    packet
}

/// Random bytes behind a kind that is or is not carried, with a length of interest.
fn rubbish(random: &mut Random) -> (u32, Vec<u8>) {
    let length = match random.below(6) {
        0..=2 => random.below(18),
        3 => random.below(64),
        4 => random.pick(&[4108, 4109, 4111, 4112, 4113, 4116, 4200]),
        _ => random.below(LONGEST as u32 + 1),
    };
    let mut packet = Vec::new();
    random.bytes(length as usize, &mut packet);
    if !random.one_in(4) {
        let kind = random.pick(&KINDS);
        change(&mut packet, 0, |_| kind);
        change(&mut packet, 2, |byte| byte & 0x30);
        change(&mut packet, 3, |byte| if length > 4000 { 0 } else { byte & 7 });
    }
    (random.below(16), packet)
}

/// Spoils a packet in one way.
fn spoil(random: &mut Random, packet: &mut Vec<u8>) {
    let kept = packet.len().saturating_sub(1 + random.below(8) as usize);
    let bit = 1u8 << random.below(8);
    let any = random.word() as u8;
    match random.below(16) {
        0 => cut(random, packet),
        1 => packet.truncate(kept),
        2 => random.bytes(1 + (any & 7) as usize, packet),
        3 => change(packet, 2, |byte| byte | 0x80),
        4 => change(packet, 2, |byte| byte | random.pick(&[4, 8, 12])),
        5 | 6 => mark(packet),
        7 => change(packet, 0, |_| random.pick(&KINDS)),
        8 => change(packet, 0, |byte| byte ^ bit),
        9 => change(packet, 3, |byte| random.pick(&[0, 1, 2, byte.wrapping_add(1)])),
        10 => change(packet, 7, |_| any),
        11 => change(packet, random.below(16) as usize, |byte| byte ^ bit),
        12 => change(packet, random.pick(&[8, 9, 10, 11, 12, 13]), |byte| byte.wrapping_add(1)),
        13 => change(packet, random.pick(&[4, 5, 8, 9]), |_| any),
        14 => zero_high_word(packet),
        _ => change(packet, 1, |byte| byte ^ 0x8F),
    }
}

/// Sets a packet's EP.
fn mark(packet: &mut [u8]) {
    change(packet, 2, |byte| byte | 0x40);
}

/// Gives a request a high address word of 0.
fn zero_high_word(packet: &mut Vec<u8>) {
    if packet.len() < 12 || packet[0] & 0x9F != 0 {
        return;
    }
    if packet[0] & 0x20 == 0 {
        packet[0] |= 0x20;
        packet.splice(8..8, [0; 4]);
    } else {
        packet[8..12].fill(0);
    }
}

/// Changes a byte of a packet, if it has that byte.
fn change(packet: &mut [u8], place: usize, new: impl FnOnce(u8) -> u8) {
    if let Some(byte) = packet.get_mut(place) {
        *byte = new(*byte);
    }
}

fn push(packet: &mut Vec<u8>, word: u32) {
    packet.extend_from_slice(&word.to_be_bytes());
}
