//! The tests of the wrapper: what needs no library, and under `--cfg linked` the calls.
use super::*;

const CROSSING: [u32; ANSWER] = [0, 15, 16, 3, 0x4A000001, 0x10000004, 0x03000510, 0];

const NUMBERED: [(Refusal, u32); 17] = [
    (Refusal::WrongCall, 1),
    (Refusal::SenderInactive, 2),
    (Refusal::NotCarried, 4),
    (Refusal::Poisoned, 5),
    (Refusal::NoWindow, 6),
    (Refusal::NoEntry, 7),
    (Refusal::DestinationInactive, 8),
    (Refusal::NotPassable, 9),
    (Refusal::WindowValues, 10),
    (Refusal::Overlap, 11),
    (Refusal::Repetition, 12),
    (Refusal::TooShort, 31),
    (Refusal::WrongLength, 32),
    (Refusal::Enables, 33),
    (Refusal::Contiguity, 34),
    (Refusal::PageCrossing, 35),
    (Refusal::ZeroHighWord, 36),
];
const NO_NUMBERS: [u32; 5] = [3, 13, 30, 37, u32::MAX];

#[test]
fn refusals_have_their_numbers() {
    assert_eq!(Refusal::ALL.map(|refusal| (refusal, refusal.number())), NUMBERED);
    for (refusal, number) in NUMBERED {
        assert_eq!(Refusal::from_number(number), Some(refusal));
        assert_eq!(Refusal::check(number), Err(refusal));
    }
    for number in NO_NUMBERS {
        assert_eq!(Refusal::from_number(number), None);
        assert_eq!(Refusal::check(number), Err(Refusal::WrongCall));
    }
    assert_eq!(Refusal::from_number(0), None);
    assert_eq!(Refusal::check(0), Ok(()));
}

#[test]
fn refusals_have_sentences_of_their_own() {
    let mut sentences: Vec<String> = Refusal::ALL.iter().map(|r| r.to_string()).collect();
    sentences.sort();
    sentences.dedup();
    assert_eq!(sentences.len(), NUMBERED.len());
    assert!(sentences.iter().all(|sentence| sentence.len() > 10));
}

#[test]
fn a_crossing_is_decoded_and_printed() {
    let mut out = [0xAA; OUT];
    let words = [0x4A000001, 0x10000004, 0x03000510, 0x37];
    out[..16].copy_from_slice(&Words(&words).bytes());
    let outcome = Outcome::decode(0, &CROSSING, &out);
    assert_eq!(outcome.map(|o| o.to_string()).as_deref(), Some("crossed, 16 bytes in 15: 4A000001 10000004 03000510 00000037"));
    match outcome {
        Some(Outcome::Crossed(packet)) => {
            assert_eq!((packet.partition, packet.header()), (15, &words[..3]));
            assert_eq!(packet.bytes, &out[..16]);
        }
        other => panic!("{other:?}"),
    }
}

#[test]
fn an_answer_and_a_drop_are_decoded_and_printed() {
    let out = [0; OUT];
    let answer = [1, 15, 12, 3, 0x0A000000, 0x10002004, 0x03000510, 0];
    let answered = Outcome::decode(6, &answer, &out).map(|o| (o.refusal(), o.to_string()));
    let line = "refused by 6 and answered, 12 bytes in 15: 00000000 00000000 00000000";
    assert_eq!(answered, Some((Some(Refusal::NoWindow), line.to_string())));
    let dropped = Outcome::decode(9, &[2, 0, 0, 0, 0, 0, 0, 0], &out);
    assert_eq!(dropped, Some(Outcome::Dropped(Refusal::NotPassable)));
    assert_eq!(dropped.map(|o| o.to_string()).as_deref(), Some("dropped by 9"));
}

#[test]
fn the_header_has_three_or_four_words() {
    let out = [0; OUT];
    for count in [3, 4] {
        let answer = [0, 0, 16, count, 1, 2, 3, 4];
        match Outcome::decode(0, &answer, &out) {
            Some(Outcome::Crossed(p)) => {
                assert_eq!(p.header(), &[1, 2, 3, 4][..count as usize])
            }
            other => panic!("{other:?}"),
        }
    }
}

#[test]
fn words_that_do_not_belong_together_are_no_outcome() {
    let out = [0; OUT];
    let wrong = |place: usize, word: u32| {
        let mut answer = CROSSING;
        answer[place] = word;
        Outcome::decode(0, &answer, &out)
    };
    assert!(wrong(0, CROSSED).is_some() && wrong(2, 4112).is_some());
    for (place, word) in [(0, 1), (0, 2), (0, 3), (1, 16), (2, 11), (2, 4113), (3, 2), (3, 5)] {
        assert_eq!(wrong(place, word), None);
        assert_eq!(wrong(place, u32::MAX), None);
    }
    for (_, number) in NUMBERED {
        assert_eq!(Outcome::decode(number, &CROSSING, &out), None);
    }
    for number in NO_NUMBERS {
        for kind in [CROSSED, ANSWERED, DROPPED] {
            assert_eq!(Outcome::decode(number, &[kind, 1, 12, 3, 0, 0, 0, 0], &out), None);
        }
    }
}

/// As a static, too.
#[test]
fn an_idle_switch_has_inactive_partitions_and_zeros() {
    static HELD: Switch = Switch::idle();
    assert!(HELD.windows.iter().all(|word| *word == 0));
    assert!(HELD.numbers[..64].iter().all(|word| *word == 0));
    assert_eq!(HELD.numbers[64..], [256; 16]);
    assert!(HELD.logs.iter().all(|word| *word == 0));
    assert_eq!((Switch::idle(), Switch::default()), (HELD.clone(), HELD.clone()));
}

#[test]
fn a_log_row_is_read_and_printed() {
    let mut switch = Switch::idle();
    switch.logs[90..].copy_from_slice(&[0x00101000, 20, 1, 0x0300050F, 0x90100000, 0]);
    let row = switch.log(15).expect("partition 15 has a row");
    assert!(row.has(LogBit::Unsupported) && row.has(LogBit::Poisoned));
    assert!(!row.has(LogBit::Malformed) && !row.has(LogBit::UnexpectedCompletion));
    assert_eq!(row.first(), Some(LogBit::Unsupported));
    let line = "status 00101000, first error 20, 00000001 0300050F 90100000 00000000";
    assert_eq!(row.to_string(), line);
    let cleared = LogRow { status: 0, ..row };
    assert_eq!((cleared.first(), cleared.to_string().as_str()), (None, "no error"));
    assert_eq!(LogRow { first_error: u32::MAX, ..row }.first(), None);
    for p in [16, u32::MAX] {
        assert_eq!(switch.log(p), Err(Refusal::WrongCall));
    }
}

#[test]
fn log_bits_have_their_numbers() {
    let numbers = LogBit::ALL.map(|bit| (bit.number(), bit.mask()));
    assert_eq!(numbers, [(12, 0x1000), (16, 0x10000), (18, 0x40000), (20, 0x100000)]);
    assert!(LogBit::ALL.iter().all(|bit| LogBit::from_number(bit.number()) == Some(*bit)));
    assert_eq!(LogBit::from_number(13), None);
}

/// The calls themselves, over the tables of the exam sheet (docs/RULES.md, section 9).
#[cfg(linked)]
mod linked {
    use crate::*;

    const READ: [u32; 3] = [0x00000001, 0x0300050F, 0x90000010];
    const FAR_READ: [u32; 3] = [0x00000001, 0x0300050F, 0x90100000];
    const COMPLETION: [u32; 4] = [0x4A000001, 0x01000004, 0x01470510, 0x11223344];

    fn sheet() -> Result<Switch, Refusal> {
        let mut switch = Switch::idle();
        switch.set_window(1, 0, Window { base: 0x90000000, target: 0x140000000, k: 20, to: 0, marked: false })?;
        switch.set_window(1, 1, Window { base: 0xA0000000, target: 0, k: 12, to: 3, marked: false })?;
        switch.set_entry(1, 2, 0x0300)?;
        for (p, bus) in [(0, 1), (1, 2), (2, 2)] {
            switch.set_bus(p, bus)?;
        }
        Ok(switch)
    }

    #[test]
    fn nobody_sends_over_an_idle_switch() {
        let (mut switch, mut out) = (Switch::idle(), [0xAA; OUT]);
        for p in 0..16 {
            assert_eq!(switch.pass(p, &Words(&READ).bytes(), &mut out), Outcome::Dropped(Refusal::SenderInactive));
        }
        assert_eq!((switch, out), (Switch::idle(), [0xAA; OUT]));
    }

    #[test]
    fn the_table_calls_write_their_words() -> Result<(), Refusal> {
        let mut switch = sheet()?;
        let mut wanted = Switch::idle();
        wanted.windows[48..54].copy_from_slice(&[0x90000000, 0x140000000, 0x1014, 0xA0000000, 0, 0x130C]);
        wanted.numbers[6] = 0x10300;
        wanted.numbers[64..67].copy_from_slice(&[1, 2, 2]);
        assert_eq!(switch, wanted);
        switch.logs[6] = 0x00101000;
        switch.clear_log(1, LogBit::Unsupported.mask())?;
        assert_eq!(switch.log(1)?.status, LogBit::Poisoned.mask());
        switch.clear_log(1, u32::MAX)?;
        (0..2).try_for_each(|slot| switch.empty_window(1, slot))?;
        switch.free_entry(1, 2)?;
        (0..3).try_for_each(|p| switch.make_inactive(p))?;
        assert_eq!(switch, Switch::idle());
        Ok(())
    }

    #[test]
    fn a_read_crosses() -> Result<(), Refusal> {
        let (mut switch, mut out) = (sheet()?, [0xAA; OUT]);
        let words = [0x20000001, 0x0146050F, 0x00000001, 0x40000010];
        match switch.pass(1, &Words(&READ).bytes(), &mut out) {
            Outcome::Crossed(packet) => {
                assert_eq!((packet.partition, packet.header()), (0, &words[..]));
                assert_eq!(packet.bytes, Words(&words).bytes());
            }
            other => panic!("{other}"),
        }
        assert!(out[16..].iter().all(|byte| *byte == 0xAA));
        assert_eq!(switch, sheet()?);
        Ok(())
    }

    /// The same marked write at two windows side by side, and a marked completion back.
    #[test]
    fn marked_packets_pass_where_a_window_lets_them() -> Result<(), Refusal> {
        let (mut switch, mut out) = (sheet()?, [0xAA; OUT]);
        let write = |address| Words(&[0x40004001, 0x0300050F, address, 7]).bytes();
        let completion = Words(&[0x4A004001, 0x01000004, 0x01460510, 0x11223344]).bytes();
        assert_eq!(switch.pass(0, &completion, &mut out), Outcome::Dropped(Refusal::Poisoned));
        let chosen = Window { base: 0x90000000, target: 0x140000000, k: 20, to: 0, marked: true };
        let beside = Window { base: 0x90100000, target: 0x140100000, marked: false, ..chosen };
        switch.set_window(1, 0, chosen)?;
        switch.set_window(1, 2, beside)?;
        assert_eq!((switch.windows[50], switch.windows[56]), (0x3014, 0x1014));
        let line = "crossed, 20 bytes in 0: 60004001 0146050F 00000001 40000010 00000007";
        assert_eq!(switch.pass(1, &write(0x90000010), &mut out).to_string(), line);
        let line = "crossed, 16 bytes in 1: 4A004001 02000004 03000510 11223344";
        assert_eq!(switch.pass(0, &completion, &mut out).to_string(), line);
        assert_eq!((switch.log(0)?.status, switch.log(1)?.status), (LogBit::Poisoned.mask(), 0));
        assert_eq!(switch.pass(1, &write(0x90100010), &mut out), Outcome::Dropped(Refusal::Poisoned));
        assert_eq!(switch.log(1)?.first(), Some(LogBit::Poisoned));
        assert_eq!(switch.pass(1, &write(0x90200010), &mut out), Outcome::Dropped(Refusal::NoWindow));
        Ok(())
    }

    #[test]
    fn a_refused_read_is_answered_and_logged() -> Result<(), Refusal> {
        let (mut switch, mut out) = (sheet()?, [0xAA; OUT]);
        let words = [0x0A000000, 0x02002004, 0x03000500];
        match switch.pass(1, &Words(&FAR_READ).bytes(), &mut out) {
            Outcome::Answered(Refusal::NoWindow, packet) => {
                assert_eq!((packet.partition, packet.header()), (1, &words[..]));
                assert_eq!(packet.bytes, Words(&words).bytes());
            }
            other => panic!("{other}"),
        }
        let row = switch.log(1)?;
        assert_eq!((row.status, row.first()), (0x00100000, Some(LogBit::Unsupported)));
        assert_eq!(row.header, [FAR_READ[0], FAR_READ[1], FAR_READ[2], 0]);
        Ok(())
    }

    /// But for 31 to 36, which have a test of their own.
    #[test]
    fn each_refusal_of_a_packet_is_met() -> Result<(), Refusal> {
        let cases: [(u32, &[u32], Refusal); 8] = [
            (16, &READ, Refusal::WrongCall),
            (3, &READ, Refusal::SenderInactive),
            (1, &[0x01000001, 0x0300050F, 0x90000010], Refusal::NotCarried),
            (1, &[0x40004001, 0x0300050F, 0x90000010, 0], Refusal::Poisoned),
            (1, &FAR_READ, Refusal::NoWindow),
            (1, &[0x00000001, 0x0301050F, 0x90000010], Refusal::NoEntry),
            (1, &[0x00000001, 0x0300050F, 0xA0000000], Refusal::DestinationInactive),
            (0, &COMPLETION, Refusal::NotPassable),
        ];
        for (p, words, refusal) in cases {
            let mut out = [0xAA; OUT];
            let outcome = sheet()?.pass(p, &Words(words).bytes(), &mut out);
            assert_eq!(outcome.refusal(), Some(refusal));
            if let Outcome::Dropped(_) = outcome {
                assert_eq!(out, [0xAA; OUT]);
            }
        }
        Ok(())
    }

    /// So many bytes of these words, from partition 1, are dropped and logged, and nothing else changes.
    fn dropped(words: &[u32], length: usize, refusal: Refusal, bit: LogBit) -> Result<(), Refusal> {
        let (mut switch, mut wanted, mut out) = (sheet()?, sheet()?, [0xAA; OUT]);
        let bytes = Words(words).bytes();
        assert_eq!(switch.pass(1, &bytes[..length], &mut out), Outcome::Dropped(refusal));
        assert_eq!(out, [0xAA; OUT]);
        wanted.logs[6..8].copy_from_slice(&[bit.mask(), bit.number()]);
        let header = if bytes.first().map_or(false, |kind| kind & 0x20 != 0) { 16 } else { 12 };
        for (i, byte) in bytes[..length].iter().take(header).enumerate() {
            wanted.logs[8 + i / 4] |= u32::from(*byte) << (24 - 8 * (i % 4));
        }
        assert_eq!(switch, wanted);
        Ok(())
    }

    /// No bytes; then a packet that breaks a rule of form and the next one gets the first; with that mended, it gets the other.
    #[test]
    fn of_two_broken_rules_the_first_counts() -> Result<(), Refusal> {
        let cases: [(&[u32], usize, Refusal); 13] = [
            (&[], 0, Refusal::TooShort),
            (&[0x01000001, 0x0300050F, 0x90000010], 11, Refusal::TooShort),
            (&[0x01000001, 0x0300050F, 0x90000010], 12, Refusal::NotCarried),
            (&[0x01000001, 0x0300050F, 0x90000010, 0], 16, Refusal::NotCarried),
            (&[0x00000001, 0x0300050F, 0x90000010, 0], 16, Refusal::WrongLength),
            (&[0x00000001, 0x0300051F, 0x90000010, 0], 16, Refusal::WrongLength),
            (&[0x00000001, 0x0300051F, 0x90000010], 12, Refusal::Enables),
            (&[0x00000002, 0x030005F0, 0x90000014], 12, Refusal::Enables),
            (&[0x00000002, 0x030005F5, 0x90000014], 12, Refusal::Contiguity),
            (&[0x00000002, 0x030005F5, 0x90000FFC], 12, Refusal::Contiguity),
            (&[0x00000002, 0x030005FF, 0x90000FFC], 12, Refusal::PageCrossing),
            (&[0x20000002, 0x030005FF, 0x00000000, 0x90000FFC], 16, Refusal::PageCrossing),
            (&[0x20000002, 0x030005FF, 0x00000000, 0x90000FF8], 16, Refusal::ZeroHighWord),
        ];
        for (words, length, refusal) in cases {
            let bit = if refusal == Refusal::NotCarried { LogBit::Unsupported } else { LogBit::Malformed };
            dropped(words, length, refusal, bit)?;
        }
        Ok(())
    }

    #[test]
    fn each_refusal_of_a_table_call_is_met_and_changes_nothing() -> Result<(), Refusal> {
        let mut switch = sheet()?;
        let window = Window { base: 0xB0000000, target: 0, k: 12, to: 0, marked: false };
        for marked in [false, true] {
            let inside = Window { base: 0x900FF000, marked, ..window };
            assert_eq!(switch.set_window(1, 2, inside), Err(Refusal::Overlap));
            for wrong in [Window { k: 11, marked, ..window }, Window { to: 1, marked, ..window }] {
                assert_eq!(switch.set_window(1, 2, wrong), Err(Refusal::WindowValues));
            }
        }
        assert_eq!(switch.set_entry(1, 3, 0x0300), Err(Refusal::Repetition));
        for large in [16, u32::MAX] {
            let refused = [
                switch.set_window(large, 0, window),
                switch.set_window(1, large, window),
                switch.empty_window(large, 0),
                switch.empty_window(1, large),
                switch.set_entry(large, 0, 1),
                switch.set_entry(1, large - 12, 1),
                switch.free_entry(large, 0),
                switch.free_entry(1, large - 12),
                switch.set_bus(large, 0),
                switch.set_bus(1, large.max(256)),
                switch.make_inactive(large),
                switch.clear_log(large, 1),
            ];
            assert_eq!(refused, [Err(Refusal::WrongCall); 12]);
        }
        assert_eq!(switch, sheet()?);
        Ok(())
    }

    #[test]
    fn the_longest_packet_fills_out() -> Result<(), Refusal> {
        let (mut switch, mut out) = (sheet()?, [0xAA; OUT]);
        let mut packet = Words(&[0x40000000, 0x030005FF, 0x90000000]).bytes();
        packet.resize(12 + 4096, 0x55);
        match switch.pass(1, &packet, &mut out) {
            Outcome::Crossed(packet) => assert_eq!(packet.bytes.len(), OUT),
            other => panic!("{other}"),
        }
        assert!(out[16..].iter().all(|byte| *byte == 0x55));
        Ok(())
    }

    /// Any words and any bytes: the call ends, with refusal 1 for senders above 15 and no others.
    #[test]
    fn whatever_is_given_there_is_an_outcome() {
        let mut seed: u64 = 1;
        let mut any = || {
            seed = seed.wrapping_mul(6364136223846793005).wrapping_add(1442695040888963407);
            (seed >> 32) as u32
        };
        for round in 0..2000 {
            let mut switch = Switch::idle();
            switch.windows.fill_with(|| u64::from(any()) << 32 | u64::from(any()));
            switch.numbers.fill_with(|| any() % 512);
            switch.logs.fill_with(&mut any);
            let p = if round % 4 == 0 { any() } else { any() % 16 };
            let packet: Vec<u8> = (0..any() % 64).map(|_| any() as u8 & 0x4F).collect();
            let (before, mut out) = (switch.clone(), [0xAA; OUT]);
            let outcome = switch.pass(p, &packet, &mut out);
            assert_eq!(outcome == Outcome::Dropped(Refusal::WrongCall), p > 15);
            assert_eq!((switch.windows, switch.numbers), (before.windows, before.numbers));
        }
    }
}
