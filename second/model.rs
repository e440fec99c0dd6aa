//! The rules of the switch: what becomes of a packet, and what the table calls do.
//!
//! Every function takes every input: tables of any length, with any contents.

/// How many partitions there are.
pub const PARTITIONS: u32 = 16;
/// How many words the table of windows has: 16 partitions, 16 slots, 3 words a row.
pub const WINDOWS: usize = 768;
/// How many words the table of numbers has: 64 mapping entries and 16 buses.
pub const NUMBERS: usize = 80;
/// How many words the table of logs has: 16 partitions, 6 words a row.
pub const LOGS: usize = 96;
/// How many bytes Out has at least: 16 of header and 4,096 of data.
pub const OUT: usize = 4112;

/// The place of the first bus in the table of numbers.
pub const BUSES: usize = 64;
/// The bus word that "make inactive" writes.
pub const INACTIVE: u32 = 256;

/// The six kinds that are carried.
pub const READ_32: u8 = 0x00;
pub const READ_64: u8 = 0x20;
pub const WRITE_32: u8 = 0x40;
pub const WRITE_64: u8 = 0x60;
pub const COMPLETION: u8 = 0x0A;
pub const COMPLETION_DATA: u8 = 0x4A;

/// Bit 29 of word 0, which is bit 5 of the kind: the header has four words.
const FOUR_WORDS: u32 = 0x2000_0000;

/// A refusal's number: 1, 2, 4 to 12, or 31 to 36.
pub type Refusal = u32;

/// The header of a packet that came out.
#[derive(Clone, Copy, Debug, PartialEq, Eq)]
pub struct Record {
    pub partition: u32,
    pub length: u32,
    pub count: u32,
    pub words: [u32; 4],
}

/// What became of a packet.
#[derive(Clone, Copy, Debug, PartialEq, Eq)]
pub enum Outcome {
    Crossed(Record),
    Answered(Refusal, Record),
    Dropped(Refusal),
}

/// A row of the table of windows that is in force.
#[derive(Clone, Copy, Debug)]
pub struct Window {
    pub base: u64,
    pub target: u64,
    pub k: u32,
    pub destination: usize,
    /// Whether marked packets, which have EP set, may pass.
    pub takes_marked: bool,
}

impl Window {
    /// Whether the address lies in base to base + 2^k - 1. The base is a multiple of 2^k.
    pub fn covers(&self, address: u64) -> bool {
        address >> self.k == self.base >> self.k
    }

    /// Whether the two spans have an address in common: one begins inside the other.
    fn overlaps(&self, other: &Window) -> bool {
        self.covers(other.base) || other.covers(self.base)
    }
}

/// Looks at a row of partition `p`: base, target, control.
pub fn look_window(p: usize, row: &[u64]) -> Option<Window> {
    let (base, target, control) = (row[0], row[1], row[2]);
    let k = (control & 0xFF) as u32;
    let destination = (control >> 8 & 0xF) as usize;
    let enabled_and_spare_zero = control >> 12 & 1 == 1 && control >> 14 == 0;
    if enabled_and_spare_zero && destination != p && good_span(base, target, k) {
        let takes_marked = control >> 13 & 1 == 1;
        Some(Window { base, target, k, destination, takes_marked })
    } else {
        None
    }
}

/// Whether k is 12 to 39, and base and target are multiples of 2^k.
fn good_span(base: u64, target: u64, k: u32) -> bool {
    (12..=39).contains(&k) && (base | target) & ((1 << k) - 1) == 0
}

/// The rows of partition `p`, in the order of their slots.
pub fn rows(p: usize, windows: &[u64]) -> std::slice::ChunksExact<'_, u64> {
    windows[48 * p..48 * p + 48].chunks_exact(3)
}

/// The windows of partition `p` that are in force, in the order of their slots.
pub fn in_force(p: usize, windows: &[u64]) -> impl Iterator<Item = Window> + '_ {
    rows(p, windows).filter_map(move |row| look_window(p, row))
}

/// Those of them that lead to `q`.
pub fn in_force_to(p: usize, q: usize, windows: &[u64]) -> impl Iterator<Item = Window> + '_ {
    in_force(p, windows).filter(move |window| window.destination == q)
}

/// Looks at a mapping word: the requester ID that it holds. An ill-formed word holds none.
pub fn look_entry(word: u32) -> Option<u32> {
    if word >> 16 == 1 {
        Some(word & 0xFFFF)
    } else {
        None
    }
}

/// The bus of partition `p`, if it is active.
pub fn bus(p: usize, numbers: &[u32]) -> Option<u32> {
    let word = numbers[BUSES + p];
    if word <= 255 {
        Some(word)
    } else {
        None
    }
}

/// Passes a packet that partition `p` sent.
pub fn pass(
    p: u32,
    packet: &[u8],
    windows: &[u64],
    numbers: &[u32],
    logs: &mut [u32],
    out: &mut [u8],
) -> Outcome {
    let lengths_right = windows.len() == WINDOWS && numbers.len() == NUMBERS && logs.len() == LOGS;
    if p >= PARTITIONS || !lengths_right || out.len() < OUT {
        return Outcome::Dropped(1);
    }
    let p = p as usize;
    let own_bus = match bus(p, numbers) {
        Some(own_bus) => own_bus,
        None => return Outcome::Dropped(2),
    };
    let words = header(packet);
    match route(p, own_bus, packet, &words, windows, numbers) {
        Ok((to, changed)) => {
            let data = &packet[header_length(&words)..];
            Outcome::Crossed(write(to, &changed, data, out))
        }
        Err(refusal) => {
            log(&mut logs[6 * p..6 * p + 6], log_bit(refusal), &words);
            if is_read(kind(&words)) && (5..=8).contains(&refusal) {
                let answer = completion_of(own_bus, &words);
                Outcome::Answered(refusal, write(p, &answer, &[], out))
            } else {
                Outcome::Dropped(refusal)
            }
        }
    }
}

/// Where a packet goes and the header that it has there, or why it does not go.
fn route(
    p: usize,
    own_bus: u32,
    packet: &[u8],
    words: &[u32; 4],
    windows: &[u64],
    numbers: &[u32],
) -> Result<(usize, [u32; 4]), Refusal> {
    check_packet(packet, words)?;
    if is_request(kind(words)) {
        route_request(p, words, windows, numbers)
    } else {
        route_completion(p, own_bus, words, windows, numbers)
    }
}

/// The tests on the packet alone, in their order; those from 33 on are for requests.
fn check_packet(packet: &[u8], words: &[u32; 4]) -> Result<(), Refusal> {
    let request = is_request(kind(words));
    let broken = [
        (31, is_too_short(packet)),
        (4, is_not_carried(words)),
        (32, has_wrong_length(packet, words)),
        (33, request && has_wrong_enables(words)),
        (34, request && has_gaps(words)),
        (35, request && crosses_page(words)),
        (36, request && has_zero_high_word(words)),
    ];
    match broken.iter().find(|rule| rule.1) {
        Some(&(refusal, _)) => Err(refusal),
        None => Ok(()),
    }
}

/// 31: fewer than 12 bytes.
fn is_too_short(packet: &[u8]) -> bool {
    packet.len() < 12
}

/// 4: another kind, TD set, or AT other than 0.
fn is_not_carried(words: &[u32; 4]) -> bool {
    let td = words[0] >> 15 & 1;
    let at = words[0] >> 10 & 3;
    !is_carried(kind(words)) || td != 0 || at != 0
}

/// 32: longer or shorter than header and data are together.
fn has_wrong_length(packet: &[u8], words: &[u32; 4]) -> bool {
    packet.len() != header_length(words) + data_length(words)
}

/// 33: last enables at Length 1, or no first or no last ones at a Length above 1.
fn has_wrong_enables(words: &[u32; 4]) -> bool {
    let (first, last) = enables(words);
    if length(words) == 1 {
        last != 0
    } else {
        first == 0 || last == 0
    }
}

/// 34: at a Length above 1, but not at two dwords from a multiple of 8 on, enables with gaps between
/// the first byte and the last.
fn has_gaps(words: &[u32; 4]) -> bool {
    let (first, last) = enables(words);
    let gaps_allowed = length(words) == 1 || length(words) == 2 && address(words) & 7 == 0;
    let without_gaps = matches!(first, 0b1111 | 0b1110 | 0b1100 | 0b1000)
        && matches!(last, 0b0001 | 0b0011 | 0b0111 | 0b1111);
    !gaps_allowed && !without_gaps
}

/// 35: the request goes on beyond its page of 4 KiB.
fn crosses_page(words: &[u32; 4]) -> bool {
    (address(words) & 0xFFF) + 4 * u64::from(length(words)) > 4096
}

/// 36: a 64-bit header with a high word of 0.
fn has_zero_high_word(words: &[u32; 4]) -> bool {
    words[0] & FOUR_WORDS != 0 && words[2] == 0
}

/// A request goes by its window and its entry: 6, 5, 7, 8. The window is found before its choice
/// about marked packets is looked at.
fn route_request(
    p: usize,
    words: &[u32; 4],
    windows: &[u64],
    numbers: &[u32],
) -> Result<(usize, [u32; 4]), Refusal> {
    let address = address(words);
    let window = in_force(p, windows).find(|window| window.covers(address)).ok_or(6u32)?;
    if is_marked(words) && !window.takes_marked {
        return Err(5);
    }
    let requester = words[1] >> 16;
    let slot = numbers[4 * p..4 * p + 4]
        .iter()
        .position(|&word| look_entry(word) == Some(requester))
        .ok_or(7u32)?;
    let q = window.destination;
    let bus = bus(q, numbers).ok_or(8u32)?;
    let moved = address - window.base + window.target;
    let number = 256 * bus + 64 + (4 * p + slot) as u32;
    Ok((q, moved_request(words, moved, number)))
}

/// The header of a request with another address and another requester ID.
fn moved_request(words: &[u32; 4], address: u64, requester: u32) -> [u32; 4] {
    let odd_bits = words[address_low_place(words)] & 3;
    let high = (address >> 32) as u32;
    let low = address as u32 | odd_bits;
    let word_1 = requester << 16 | words[1] & 0xFFFF;
    if high != 0 {
        [words[0] | FOUR_WORDS, word_1, high, low]
    } else {
        [words[0] & !FOUR_WORDS, word_1, low, 0]
    }
}

/// A completion sent from `q` goes back to the owner of the entry that its requester ID names: 9, 5.
/// If it is marked, any window of the owner's to `q` that takes such packets will do.
fn route_completion(
    q: usize,
    own_bus: u32,
    words: &[u32; 4],
    windows: &[u64],
    numbers: &[u32],
) -> Result<(usize, [u32; 4]), Refusal> {
    let (p, changed) = way_back(q, own_bus, words, windows, numbers).ok_or(9u32)?;
    if is_marked(words) && !in_force_to(p, q, windows).any(|window| window.takes_marked) {
        return Err(5);
    }
    Ok((p, changed))
}

/// Where a completion sent from `q` goes and the header that it has there, marked or not.
fn way_back(
    q: usize,
    own_bus: u32,
    words: &[u32; 4],
    windows: &[u64],
    numbers: &[u32],
) -> Option<(usize, [u32; 4])> {
    let number = words[2] >> 16;
    let index = number.checked_sub(256 * own_bus + 64)? as usize;
    if index > 63 {
        return None;
    }
    let requester = look_entry(numbers[index])?;
    let p = index / 4;
    let owner_bus = bus(p, numbers)?;
    if p == q || in_force_to(p, q, windows).next().is_none() {
        return None;
    }
    let word_1 = owner_bus << 24 | words[1] & 0xFFFF;
    let word_2 = requester << 16 | words[2] & 0xFFFF;
    Some((p, [words[0], word_1, word_2, 0]))
}

/// The completion that a refused read gets: status 1, with the count of the bytes it asked for.
fn completion_of(own_bus: u32, words: &[u32; 4]) -> [u32; 4] {
    let (first, last) = enables(words);
    let count = byte_count(length(words), first, last) & 0xFFF;
    let traffic_class_and_attributes = words[0] & 0x0070_3000;
    let lower_address = address(words) as u32 & 0x7C | lowest(first);
    [
        0x0A00_0000 | traffic_class_and_attributes,
        own_bus << 24 | 1 << 13 | count,
        words[1] & 0xFFFF_FF00 | lower_address,
        0,
    ]
}

/// Writes a header and its data to the start of Out, and says what was written.
fn write(partition: usize, words: &[u32; 4], data: &[u8], out: &mut [u8]) -> Record {
    let head = header_length(words);
    for (place, word) in out[..head].chunks_exact_mut(4).zip(words) {
        place.copy_from_slice(&word.to_be_bytes());
    }
    out[head..head + data.len()].copy_from_slice(data);
    Record {
        partition: partition as u32,
        length: (head + data.len()) as u32,
        count: head as u32 / 4,
        words: *words,
    }
}

/// The bit of the log's status that belongs to a refusal.
fn log_bit(refusal: Refusal) -> u32 {
    match refusal {
        31..=36 => 18,
        5 => 12,
        9 => 16,
        _ => 20,
    }
}

/// Notes an error in a log's row: status, first error, four header words.
fn log(row: &mut [u32], bit: u32, words: &[u32; 4]) {
    if row[0] == 0 {
        row[1] = bit;
        row[2..].copy_from_slice(words);
    }
    row[0] |= 1 << bit;
}

/// The header words of a packet. Missing bytes count as 0; the fourth word is read only if
/// byte 0 has bit 5 set.
fn header(packet: &[u8]) -> [u32; 4] {
    let mut words = [word(packet, 0), word(packet, 1), word(packet, 2), 0];
    if words[0] & FOUR_WORDS != 0 {
        words[3] = word(packet, 3);
    }
    words
}

/// Word `j` of a packet.
fn word(packet: &[u8], j: usize) -> u32 {
    if let Some(b) = packet.get(4 * j..4 * j + 4) {
        return u32::from_be_bytes([b[0], b[1], b[2], b[3]]);
    }
    let byte = |i: usize| packet.get(4 * j + i).copied().unwrap_or(0);
    u32::from_be_bytes([byte(0), byte(1), byte(2), byte(3)])
}

fn kind(words: &[u32; 4]) -> u8 {
    (words[0] >> 24) as u8
}

/// Whether EP is set: the packet is poisoned.
fn is_marked(words: &[u32; 4]) -> bool {
    words[0] >> 14 & 1 == 1
}

fn is_read(kind: u8) -> bool {
    matches!(kind, READ_32 | READ_64)
}

fn is_request(kind: u8) -> bool {
    matches!(kind, READ_32 | READ_64 | WRITE_32 | WRITE_64)
}

fn is_carried(kind: u8) -> bool {
    is_request(kind) || matches!(kind, COMPLETION | COMPLETION_DATA)
}

/// The Length of a packet in dwords; a field of 0 means 1,024.
fn length(words: &[u32; 4]) -> u32 {
    match words[0] & 0x3FF {
        0 => 1024,
        field => field,
    }
}

/// The header's length in bytes, for a carried kind.
fn header_length(words: &[u32; 4]) -> usize {
    if words[0] & FOUR_WORDS != 0 {
        16
    } else {
        12
    }
}

/// The data's length in bytes, for a carried kind.
fn data_length(words: &[u32; 4]) -> usize {
    match kind(words) {
        WRITE_32 | WRITE_64 | COMPLETION_DATA => 4 * length(words) as usize,
        _ => 0,
    }
}

/// The first and the last enables of a request.
fn enables(words: &[u32; 4]) -> (u32, u32) {
    (words[1] & 0xF, words[1] >> 4 & 0xF)
}

/// Which header word of a request has the low half of the address.
fn address_low_place(words: &[u32; 4]) -> usize {
    header_length(words) / 4 - 1
}

/// Whether some window of partition `p`, in whatever slot, covers a request and takes marked packets.
/// No rule asks this; the tally does.
pub fn some_window_takes_marked(p: usize, request: &[u8], windows: &[u64]) -> bool {
    let address = address(&header(request));
    in_force(p, windows).any(|window| window.covers(address) && window.takes_marked)
}

/// The address of a request, without the lowest two bits of its word.
fn address(words: &[u32; 4]) -> u64 {
    let low = words[address_low_place(words)] & !3;
    if words[0] & FOUR_WORDS != 0 {
        u64::from(words[2]) << 32 | u64::from(low)
    } else {
        u64::from(low)
    }
}

/// The place of the lowest enabled byte, 0 if there is none.
fn lowest(enables: u32) -> u32 {
    if enables & 0xF == 0 {
        0
    } else {
        enables.trailing_zeros()
    }
}

/// The place of the highest enabled byte, 0 if there is none.
fn highest(enables: u32) -> u32 {
    31 - (enables & 0xF | 1).leading_zeros()
}

/// How many bytes a read asks for, from the lowest enabled one to the highest: 1 to 4,096.
pub fn byte_count(length: u32, first: u32, last: u32) -> u32 {
    if length == 1 {
        highest(first) - lowest(first) + 1
    } else {
        4 * length - lowest(first) - (3 - highest(last))
    }
}

/// What a table call answers: done, or its refusal.
pub type Done = Result<(), Refusal>;

/// Refusal 1, unless what it asks for holds.
fn demand(right: bool) -> Done {
    if right {
        Ok(())
    } else {
        Err(1)
    }
}

/// Whether a window's slot and the length of the table are right.
fn window_place(p: u32, slot: u32, windows: &[u64]) -> Done {
    demand(p < PARTITIONS && slot < 16 && windows.len() == WINDOWS)
}

/// Whether an entry's slot and the length of the table are right.
fn entry_place(p: u32, slot: u32, numbers: &[u32]) -> Done {
    demand(p < PARTITIONS && slot < 4 && numbers.len() == NUMBERS)
}

/// Sets a window, enabled, which takes marked packets or does not: 1, 10, 11.
pub fn set_window(
    p: u32,
    slot: u32,
    (base, target): (u64, u64),
    k: u32,
    destination: u32,
    takes_marked: bool,
    windows: &mut [u64],
) -> Done {
    window_place(p, slot, windows)?;
    if !good_span(base, target, k) || destination >= PARTITIONS || destination == p {
        return Err(10);
    }
    let (p, slot) = (p as usize, slot as usize);
    let new = Window { base, target, k, destination: destination as usize, takes_marked };
    let overlapping = rows(p, windows)
        .enumerate()
        .filter(|&(other, _)| other != slot)
        .filter_map(|(_, row)| look_window(p, row))
        .any(|other| other.overlaps(&new));
    if overlapping {
        return Err(11);
    }
    let choice = u64::from(takes_marked) << 13;
    let control = choice | 1 << 12 | u64::from(destination) << 8 | u64::from(k);
    let row = 3 * (16 * p + slot);
    windows[row..row + 3].copy_from_slice(&[base, target, control]);
    Ok(())
}

/// Empties a window: three zeros.
pub fn empty_window(p: u32, slot: u32, windows: &mut [u64]) -> Done {
    window_place(p, slot, windows)?;
    let row = 3 * (16 * p + slot) as usize;
    windows[row..row + 3].fill(0);
    Ok(())
}

/// Sets an entry: 1, 12.
pub fn set_entry(p: u32, slot: u32, requester: u16, numbers: &mut [u32]) -> Done {
    entry_place(p, slot, numbers)?;
    let requester = u32::from(requester);
    let held_elsewhere = (0..4)
        .filter(|&other| other != slot)
        .any(|other| look_entry(numbers[(4 * p + other) as usize]) == Some(requester));
    if held_elsewhere {
        return Err(12);
    }
    numbers[(4 * p + slot) as usize] = 1 << 16 | requester;
    Ok(())
}

/// Frees an entry: its word becomes 0.
pub fn free_entry(p: u32, slot: u32, numbers: &mut [u32]) -> Done {
    entry_place(p, slot, numbers)?;
    numbers[(4 * p + slot) as usize] = 0;
    Ok(())
}

/// Sets a partition's bus, 0 to 255.
pub fn set_bus(p: u32, bus: u32, numbers: &mut [u32]) -> Done {
    demand(p < PARTITIONS && bus <= 255 && numbers.len() == NUMBERS)?;
    numbers[BUSES + p as usize] = bus;
    Ok(())
}

/// Makes a partition inactive.
pub fn make_inactive(p: u32, numbers: &mut [u32]) -> Done {
    demand(p < PARTITIONS && numbers.len() == NUMBERS)?;
    numbers[BUSES + p as usize] = INACTIVE;
    Ok(())
}

/// Clears in a log's status the bits that are given as ones.
pub fn clear_log(p: u32, ones: u32, logs: &mut [u32]) -> Done {
    demand(p < PARTITIONS && logs.len() == LOGS)?;
    logs[6 * p as usize] &= !ones;
    Ok(())
}
