//! Siphonpear from Rust: the proved switch, behind calls that cannot be made wrongly. docs/RULES.md has the rules,
//! include/siphonpear.h the same calls for C.
//!
//! What C asks of its caller, the types see to here. The tables and Out are arrays of exactly their lengths, so no pointer is
//! wrong and no buffer is short. `&mut` lends an array to one call alone, so no two overlap and nobody else changes one
//! meanwhile. What is left are numbers: a partition above 15, a slot above 15 (windows) or 3 (entries), a bus above 255. Each
//! is a plain `u32`, and one too large is no mistake that ends the program: the call gives `Refusal::WrongCall` and changes
//! nothing. No call panics.
//!
//! The calls need the library, for x86-64, and are here under `--cfg linked`, which tools/link-rust gives. All the rest is
//! plain Rust and builds on any machine.
#![deny(unsafe_code, unsafe_op_in_unsafe_fn)]

use std::fmt;

// How many numbers the lent arrays have.
pub const WINDOWS: usize = 768;
pub const NUMBERS: usize = 80;
pub const LOGS: usize = 96;
pub const OUT: usize = 4112;
pub const ANSWER: usize = 8;

// What became of a packet: the first word of an answer.
pub const CROSSED: u32 = 0;
pub const ANSWERED: u32 = 1;
pub const DROPPED: u32 = 2;

/// What a call returns when it did what was asked; any other number is a refusal.
pub const DONE: u32 = 0;

/// Why a packet or a table call was refused.
#[derive(Clone, Copy, Debug, PartialEq, Eq)]
pub enum Refusal {
    WrongCall = 1,
    SenderInactive = 2,
    NotCarried = 4,
    Poisoned = 5,
    NoWindow = 6,
    NoEntry = 7,
    DestinationInactive = 8,
    NotPassable = 9,
    WindowValues = 10,
    Overlap = 11,
    Repetition = 12,
    TooShort = 31,
    WrongLength = 32,
    Enables = 33,
    Contiguity = 34,
    PageCrossing = 35,
    ZeroHighWord = 36,
}

impl Refusal {
    /// Every refusal, by rising numbers.
    pub const ALL: [Refusal; 17] = [
        Refusal::WrongCall,
        Refusal::SenderInactive,
        Refusal::NotCarried,
        Refusal::Poisoned,
        Refusal::NoWindow,
        Refusal::NoEntry,
        Refusal::DestinationInactive,
        Refusal::NotPassable,
        Refusal::WindowValues,
        Refusal::Overlap,
        Refusal::Repetition,
        Refusal::TooShort,
        Refusal::WrongLength,
        Refusal::Enables,
        Refusal::Contiguity,
        Refusal::PageCrossing,
        Refusal::ZeroHighWord,
    ];

    pub fn number(self) -> u32 {
        self as u32
    }

    /// None for 0, and for every other number that no refusal has.
    pub fn from_number(number: u32) -> Option<Refusal> {
        Refusal::ALL.into_iter().find(|r| r.number() == number)
    }

    /// What a table call returned. No proved call returns a number that no refusal has; such a one would not pass for done.
    pub fn check(number: u32) -> Result<(), Refusal> {
        match number {
            DONE => Ok(()),
            _ => Err(Refusal::from_number(number).unwrap_or(Refusal::WrongCall)),
        }
    }
}

impl fmt::Display for Refusal {
    fn fmt(&self, f: &mut fmt::Formatter<'_>) -> fmt::Result {
        f.write_str(match self {
            Refusal::WrongCall => "a partition, a slot or a bus is too large",
            Refusal::SenderInactive => "the sender is inactive",
            Refusal::NotCarried => "packets of this kind are not carried",
            Refusal::Poisoned => "the packet is poisoned, and may not pass there",
            Refusal::NoWindow => "no window of the sender covers the address",
            Refusal::NoEntry => "no entry of the sender holds the requester ID",
            Refusal::DestinationInactive => "the window leads to an inactive partition",
            Refusal::NotPassable => "the completion has no way back",
            Refusal::WindowValues => "these values make no window",
            Refusal::Overlap => "the window would overlap another of its partition",
            Refusal::Repetition => "another slot of the partition holds this ID",
            Refusal::TooShort => "the packet has fewer than 12 bytes",
            Refusal::WrongLength => "the packet is longer or shorter than its first word says",
            Refusal::Enables => "a request of one dword has last enables, or in a longer one the first or last are 0",
            Refusal::Contiguity => "there is a gap between the bytes that the request enables, where none is allowed",
            Refusal::PageCrossing => "the request runs past the end of its 4 KiB page",
            Refusal::ZeroHighWord => "the high word of a 64-bit header is 0",
        })
    }
}

impl std::error::Error for Refusal {}

/// A packet that came out.
#[derive(Clone, Copy, Debug, PartialEq, Eq)]
pub struct Packet<'a> {
    /// Where it came out.
    pub partition: u32,
    /// Header and data in the order of the wire: the start of Out.
    pub bytes: &'a [u8],
    words: [u32; 4],
    four: bool,
}

impl<'a> Packet<'a> {
    /// Its header words: three or four.
    pub fn header(&self) -> &[u32] {
        let [first @ .., _] = &self.words;
        if self.four {
            &self.words
        } else {
            first
        }
    }

    fn decode(answer: &[u32; ANSWER], out: &'a [u8; OUT]) -> Option<Packet<'a>> {
        let [_, partition, length, count, w0, w1, w2, w3] = *answer;
        let bytes = out.get(..usize::try_from(length).ok()?)?;
        let sound = partition < 16 && (count == 3 || count == 4) && length >= 4 * count;
        sound.then_some(Packet { partition, bytes, words: [w0, w1, w2, w3], four: count == 4 })
    }
}

impl fmt::Display for Packet<'_> {
    fn fmt(&self, f: &mut fmt::Formatter<'_>) -> fmt::Result {
        write!(f, "{} bytes in {}:", self.bytes.len(), self.partition)?;
        for (i, byte) in self.bytes.iter().enumerate() {
            let blank = if i % 4 == 0 { " " } else { "" };
            write!(f, "{blank}{byte:02X}")?;
        }
        Ok(())
    }
}

/// What became of a packet.
#[must_use]
#[derive(Clone, Copy, Debug, PartialEq, Eq)]
pub enum Outcome<'a> {
    /// It came out in another partition.
    Crossed(Packet<'a>),
    /// A refused read: this completion came out in the sender's own partition.
    Answered(Refusal, Packet<'a>),
    /// Nothing came out, and Out is as it was.
    Dropped(Refusal),
}

impl<'a> Outcome<'a> {
    /// What `siphon_pass` returned and the eight words that it wrote; None if they do not belong together, which the proved
    /// library never gives.
    pub fn decode(number: u32, answer: &[u32; ANSWER], out: &'a [u8; OUT]) -> Option<Outcome<'a>> {
        match (answer[0], Refusal::from_number(number)) {
            (CROSSED, None) if number == DONE => Packet::decode(answer, out).map(Outcome::Crossed),
            (ANSWERED, Some(r)) => Packet::decode(answer, out).map(|p| Outcome::Answered(r, p)),
            (DROPPED, Some(r)) => Some(Outcome::Dropped(r)),
            _ => None,
        }
    }

    pub fn refusal(&self) -> Option<Refusal> {
        match *self {
            Outcome::Crossed(_) => None,
            Outcome::Answered(refusal, _) | Outcome::Dropped(refusal) => Some(refusal),
        }
    }
}

impl fmt::Display for Outcome<'_> {
    fn fmt(&self, f: &mut fmt::Formatter<'_>) -> fmt::Result {
        match self {
            Outcome::Crossed(packet) => write!(f, "crossed, {packet}"),
            Outcome::Answered(r, packet) => write!(f, "refused by {} and answered, {packet}", r.number()),
            Outcome::Dropped(r) => write!(f, "dropped by {}", r.number()),
        }
    }
}

/// A bit of a log's status, by its number: bit n is 1 << n.
#[derive(Clone, Copy, Debug, PartialEq, Eq)]
pub enum LogBit {
    Poisoned = 12,
    UnexpectedCompletion = 16,
    Malformed = 18,
    Unsupported = 20,
}

impl LogBit {
    pub const ALL: [LogBit; 4] = [LogBit::Poisoned, LogBit::UnexpectedCompletion, LogBit::Malformed, LogBit::Unsupported];

    pub fn number(self) -> u32 {
        self as u32
    }

    pub fn from_number(number: u32) -> Option<LogBit> {
        LogBit::ALL.into_iter().find(|b| b.number() == number)
    }

    /// A status with this bit alone.
    pub fn mask(self) -> u32 {
        1 << self.number()
    }
}

/// A partition's row of the logs. While the status is 0, the rest means nothing.
#[derive(Clone, Copy, Debug, PartialEq, Eq)]
pub struct LogRow {
    pub status: u32,
    /// The number of the bit of the first error; any number, if the caller wrote the row.
    pub first_error: u32,
    /// The header words of the packet with the first error.
    pub header: [u32; 4],
}

impl LogRow {
    pub fn has(&self, bit: LogBit) -> bool {
        self.status & bit.mask() != 0
    }

    /// The first error; None if the status is 0 or the number is no bit that the switch sets.
    pub fn first(&self) -> Option<LogBit> {
        LogBit::from_number(self.first_error).filter(|_| self.status != 0)
    }
}

impl fmt::Display for LogRow {
    fn fmt(&self, f: &mut fmt::Formatter<'_>) -> fmt::Result {
        if self.status == 0 {
            return f.write_str("no error");
        }
        let header = Words(&self.header);
        write!(f, "status {:08X}, first error {}, {header}", self.status, self.first_error)
    }
}

/// Words as they are printed: eight hexadecimal digits each.
#[derive(Clone, Copy, Debug, PartialEq, Eq)]
pub struct Words<'a>(pub &'a [u32]);

impl Words<'_> {
    /// The words as the bytes of a packet: the highest byte first.
    pub fn bytes(&self) -> Vec<u8> {
        self.0.iter().flat_map(|word| word.to_be_bytes()).collect()
    }
}

impl fmt::Display for Words<'_> {
    fn fmt(&self, f: &mut fmt::Formatter<'_>) -> fmt::Result {
        for (i, word) in self.0.iter().enumerate() {
            let blank = if i == 0 { "" } else { " " };
            write!(f, "{blank}{word:08X}")?;
        }
        Ok(())
    }
}

/// What opens a window of 2^k bytes: address `base` of its partition becomes address `target` of partition `to`.
#[derive(Clone, Copy, Debug, PartialEq, Eq)]
pub struct Window {
    pub base: u64,
    pub target: u64,
    pub k: u32,
    pub to: u32,
    /// Whether marked packets may pass: poisoned ones, with EP set. Packets without EP pass either way.
    pub marked: bool,
}

/// All the tables: C's `struct siphon_switch`. Any words may stand in them; docs/RULES.md says what each means.
#[derive(Clone, Debug, PartialEq, Eq)]
pub struct Switch {
    pub windows: [u64; WINDOWS],
    pub numbers: [u32; NUMBERS],
    pub logs: [u32; LOGS],
}

impl Switch {
    /// An idle switch, C's `SIPHON_SWITCH_IDLE`: every partition is inactive, and every other word is 0.
    pub const fn idle() -> Switch {
        let mut switch = Switch { windows: [0; WINDOWS], numbers: [0; NUMBERS], logs: [0; LOGS] };
        let mut p = 0;
        while p < 16 {
            switch.numbers[64 + p] = 256;
            p += 1;
        }
        switch
    }

    /// The log of a partition; `WrongCall` if `p` is above 15.
    pub fn log(&self, p: u32) -> Result<LogRow, Refusal> {
        let place = usize::try_from(p).map_err(|_| Refusal::WrongCall)?;
        match self.logs.chunks_exact(6).nth(place) {
            Some(&[status, first_error, w0, w1, w2, w3]) => Ok(LogRow { status, first_error, header: [w0, w1, w2, w3] }),
            _ => Err(Refusal::WrongCall),
        }
    }
}

impl Default for Switch {
    fn default() -> Switch {
        Switch::idle()
    }
}

/// The calls of the library, and all of the unsafe code. Why each block is sound: a pointer comes from an array or slice that
/// is borrowed while the call runs, and goes with that one's own length; what the call may write is borrowed by `&mut`, so
/// nothing else that is lent overlaps it. As include/siphonpear.h says, a call touches nothing else, keeps no pointer, and
/// returns whatever the numbers are. The declarations are that header's; tests/rust_example.sh compares them.
#[cfg(linked)]
#[allow(unsafe_code)]
mod ffi {
    use super::{Outcome, Refusal, Switch, Window, ANSWER, OUT};

    #[link(name = "siphonpear", kind = "static")]
    extern "C" {
        fn siphon_pass(
            p: u32,
            packet: *const u8,
            packet_length: usize,
            windows: *const u64,
            windows_length: usize,
            numbers: *mut u32,
            numbers_length: usize,
            logs: *mut u32,
            logs_length: usize,
            out: *mut u8,
            out_length: usize,
            answer: *mut u32,
            answer_length: usize,
        ) -> u32;
        fn siphon_set_window(
            p: u32,
            slot: u32,
            base: u64,
            target: u64,
            k: u32,
            q: u32,
            marked: u32,
            windows: *mut u64,
            windows_length: usize,
        ) -> u32;
        fn siphon_empty_window(p: u32, slot: u32, windows: *mut u64, windows_length: usize) -> u32;
        fn siphon_set_entry(p: u32, slot: u32, id: u16, numbers: *mut u32, numbers_length: usize) -> u32;
        fn siphon_free_entry(p: u32, slot: u32, numbers: *mut u32, numbers_length: usize) -> u32;
        fn siphon_set_bus(p: u32, bus: u32, numbers: *mut u32, numbers_length: usize) -> u32;
        fn siphon_make_inactive(p: u32, numbers: *mut u32, numbers_length: usize) -> u32;
        fn siphon_clear_log(p: u32, ones: u32, logs: *mut u32, logs_length: usize) -> u32;
    }

    impl Switch {
        /// Passes a packet that partition `p` sends: header, then data, and nothing else. Any bytes will do. Refusals 1, 2,
        /// 4 to 9 and 31 to 36; all but 1 and 2 are noted in the log of `p`. What comes out is written over the start of `out`.
        pub fn pass<'a>(&mut self, p: u32, packet: &[u8], out: &'a mut [u8; OUT]) -> Outcome<'a> {
            let (windows, numbers, logs) = (&self.windows, &mut self.numbers, &mut self.logs);
            let mut answer = [0; ANSWER];
            // SAFETY: six borrowed buffers, each with its own length; those written are `&mut`.
            let number = unsafe {
                siphon_pass(
                    p,
                    packet.as_ptr(),
                    packet.len(),
                    windows.as_ptr(),
                    windows.len(),
                    numbers.as_mut_ptr(),
                    numbers.len(),
                    logs.as_mut_ptr(),
                    logs.len(),
                    out.as_mut_ptr(),
                    out.len(),
                    answer.as_mut_ptr(),
                    answer.len(),
                )
            };
            // A proved call always gives an outcome; without one, nothing would count as come out.
            Outcome::decode(number, &answer, out).unwrap_or(Outcome::Dropped(Refusal::WrongCall))
        }

        /// Opens a window in a slot, 0 to 15, of partition `p`. Refusals 1, 10 and 11.
        pub fn set_window(&mut self, p: u32, slot: u32, window: Window) -> Result<(), Refusal> {
            let Window { base, target, k, to, marked } = window;
            let marked = u32::from(marked);
            let table = &mut self.windows;
            // SAFETY: one table, borrowed by `&mut`, with its own length.
            Refusal::check(unsafe { siphon_set_window(p, slot, base, target, k, to, marked, table.as_mut_ptr(), table.len()) })
        }

        /// Shuts the window in a slot, 0 to 15, of partition `p`. Refusal 1.
        pub fn empty_window(&mut self, p: u32, slot: u32) -> Result<(), Refusal> {
            let table = &mut self.windows;
            // SAFETY: one table, borrowed by `&mut`, with its own length.
            Refusal::check(unsafe { siphon_empty_window(p, slot, table.as_mut_ptr(), table.len()) })
        }

        /// Lets a slot, 0 to 3, of partition `p` hold a requester ID. Refusals 1 and 12.
        pub fn set_entry(&mut self, p: u32, slot: u32, id: u16) -> Result<(), Refusal> {
            let table = &mut self.numbers;
            // SAFETY: one table, borrowed by `&mut`, with its own length.
            Refusal::check(unsafe { siphon_set_entry(p, slot, id, table.as_mut_ptr(), table.len()) })
        }

        /// Frees a slot, 0 to 3, of partition `p`. Refusal 1.
        pub fn free_entry(&mut self, p: u32, slot: u32) -> Result<(), Refusal> {
            let table = &mut self.numbers;
            // SAFETY: one table, borrowed by `&mut`, with its own length.
            Refusal::check(unsafe { siphon_free_entry(p, slot, table.as_mut_ptr(), table.len()) })
        }

        /// Puts partition `p` on a bus, 0 to 255, which makes it active. Refusal 1.
        pub fn set_bus(&mut self, p: u32, bus: u32) -> Result<(), Refusal> {
            let table = &mut self.numbers;
            // SAFETY: one table, borrowed by `&mut`, with its own length.
            Refusal::check(unsafe { siphon_set_bus(p, bus, table.as_mut_ptr(), table.len()) })
        }

        /// Makes partition `p` inactive. Refusal 1.
        pub fn make_inactive(&mut self, p: u32) -> Result<(), Refusal> {
            let table = &mut self.numbers;
            // SAFETY: one table, borrowed by `&mut`, with its own length.
            Refusal::check(unsafe { siphon_make_inactive(p, table.as_mut_ptr(), table.len()) })
        }

        /// Takes the bits that are 1 in `ones` out of the status of partition `p`. Refusal 1.
        pub fn clear_log(&mut self, p: u32, ones: u32) -> Result<(), Refusal> {
            let table = &mut self.logs;
            // SAFETY: one table, borrowed by `&mut`, with its own length.
            Refusal::check(unsafe { siphon_clear_log(p, ones, table.as_mut_ptr(), table.len()) })
        }
    }
}

#[cfg(test)]
mod tests;
