//! The packets and tables that are measured.

/// The lent tables, Out and the answer.
#[derive(Clone, PartialEq)]
pub struct Tables {
    pub windows: Vec<u64>,
    pub numbers: Vec<u32>,
    pub logs: Vec<u32>,
    pub out: Vec<u8>,
    pub answer: [u32; 8],
}

/// A name, and packets with their senders that are passed in turn.
pub struct Case {
    pub name: &'static str,
    pub tables: Tables,
    pub packets: Vec<(u32, Vec<u8>)>,
}

fn empty() -> Tables {
    let mut numbers = vec![0; 80];
    for p in 0..16 {
        numbers[64 + p] = 1 + p as u32;
    }
    Tables { windows: vec![0; 768], numbers, logs: vec![0; 96], out: vec![0; 4112], answer: [0; 8] }
}

fn put_row(t: &mut Tables, p: usize, slot: usize, base: u64, target: u64, control: u64) {
    t.windows[3 * (16 * p + slot)..][..3].copy_from_slice(&[base, target, control]);
}

/// Partition 1 has one window, in this slot, and fifteen elsewhere in front of it; its entry slot 2 holds 0300.
fn with_slot(slot: usize) -> Tables {
    let mut t = empty();
    for s in 0..slot {
        put_row(&mut t, 1, s, 0x1000_0000 + s as u64 * 0x10_0000, 0x2000_0000, 0x1014);
    }
    put_row(&mut t, 1, slot, 0x9000_0000, 0x1_4000_0000, 0x1014);
    t.numbers[6] = 0x1_0300;
    t
}

/// All sixteen slots of partition 1 are in force.
pub fn full() -> Tables {
    with_slot(15)
}

fn bytes(words: &[u32], data: usize) -> Vec<u8> {
    let mut b: Vec<u8> = words.iter().flat_map(|w| w.to_be_bytes()).collect();
    b.extend((0..data).map(|i| i as u8));
    b
}

fn read(address: u32) -> (u32, Vec<u8>) {
    (1, bytes(&[0x0000_0001, 0x0300_050F, address], 0))
}

fn write(data: usize) -> (u32, Vec<u8>) {
    let length = (data / 4) as u32;
    let enables = if length == 1 { 0x0F } else { 0xFF };
    (1, bytes(&[0x4000_0000 | length % 1024, 0x0300_0500 | enables, 0x9000_0000], data))
}

fn completion(data: usize, number: u32) -> (u32, Vec<u8>) {
    let length = (data / 4) as u32;
    (0, bytes(&[0x4A00_0000 | length % 1024, 0x0100_0000 | data as u32 % 4096, number << 16 | 0x0510], data))
}

/// 1,024 packets of all sorts, by a fixed seed.
fn mixed() -> Vec<(u32, Vec<u8>)> {
    let mut state = 0x9E37_79B9_7F4A_7C15u64;
    let mut next = move || {
        state ^= state << 13;
        state ^= state >> 7;
        state ^= state << 17;
        state
    };
    (0..1024)
        .map(|_| match next() % 8 {
            0 | 1 => read(0x9000_0000 + (next() % 0x4_0000) as u32 * 4),
            2 => write(4),
            3 => write(4 * (1 + next() as usize % 64)),
            4 => completion(4, 0x0146),
            5 => completion(4 * (1 + next() as usize % 64), 0x0146),
            6 => read(0xB000_0000 + (next() % 0x4_0000) as u32 * 4),
            _ => completion(4, 0x0100 + (next() % 128) as u32),
        })
        .collect()
}

/// A packet with EP set.
fn marked((p, mut packet): (u32, Vec<u8>)) -> (u32, Vec<u8>) {
    packet[2] |= 0x40;
    (p, packet)
}

/// Marked packets, on which there must be agreement, and which are not measured. To partition 0 they may pass through the first
/// window and not through the second, which covers the first too; to partition 2 none may pass; one row has a bit too many.
pub fn all_marked() -> Case {
    let mut t = with_slot(0);
    put_row(&mut t, 1, 0, 0x9000_0000, 0x1_4000_0000, 0x3014);
    put_row(&mut t, 1, 1, 0x9000_0000, 0x1_4000_0000, 0x1015);
    put_row(&mut t, 1, 2, 0xA000_0000, 0xA000_0000, 0x1214);
    put_row(&mut t, 1, 3, 0xA010_0000, 0xA010_0000, 0x7214);
    let (_, back) = completion(4, 0x0346);
    let mut packets = vec![write(4), write(4096), completion(4, 0x0146), completion(4, 0x0147), (2, back)];
    packets.extend([0x9000_0010, 0x9010_0010, 0xA000_0000, 0xA010_0000, 0xB000_0000].map(read));
    Case { name: "marked packets", tables: t, packets: packets.into_iter().map(marked).collect() }
}

/// Packets of every kind and of 0 to 24 bytes; then reads, by both headers, with all enables, of few dwords and of many, at the
/// edges of a page.
fn broken() -> Vec<(u32, Vec<u8>)> {
    let mut packets = Vec::new();
    for kind in 0..256 {
        let whole = bytes(&[kind << 24 | 1, 0x0300_051F, 0x9000_0010, 0x9000_0010, 0, 0], 0);
        packets.extend((0..=whole.len()).map(|n| (1, whole[..n].to_vec())));
    }
    for enables in 0..256 {
        for length in [0, 1, 2, 3] {
            for address in [0x9000_0000, 0x9000_0014, 0x9000_0FF8, 0x9000_0FFC] {
                packets.push((1, bytes(&[length, 0x0300_0500 | enables, address], 0)));
                packets.push((1, bytes(&[0x2000_0000 | length, 0x0300_0500 | enables, 0, address], 0)));
            }
        }
    }
    packets
}

/// Packets of which most break rules of form, each over logs of its own. On these there must be agreement, and they are not measured.
pub fn all_broken() -> impl Iterator<Item = Case> {
    broken().into_iter().map(|packet| Case { name: "broken packets", tables: with_slot(0), packets: vec![packet] })
}

/// Every case of the table.
pub fn all() -> Vec<Case> {
    let case = |name, tables, packets| Case { name, tables, packets };
    vec![
        case("read, window in slot 0", with_slot(0), vec![read(0x9000_0010)]),
        case("read, window in slot 15", with_slot(15), vec![read(0x9000_0010)]),
        case("write of 4 bytes", with_slot(0), vec![write(4)]),
        case("write of 4,096 bytes", with_slot(0), vec![write(4096)]),
        case("completion of 4 bytes", with_slot(0), vec![completion(4, 0x0146)]),
        case("completion of 4,096 bytes", with_slot(0), vec![completion(4096, 0x0146)]),
        case("read refused 6 after 16 rows", with_slot(15), vec![read(0xB000_0000)]),
        case("completion refused 9", with_slot(0), vec![completion(4, 0x0147)]),
        case("mixed, 1,024 packets by seed", with_slot(7), mixed()),
    ]
}
