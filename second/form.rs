//! Which rules of form a packet breaks: all of them, read from its bytes alone. The tally judges by
//! this, and the model, which says only the first, has no part in it.

/// The refusals that the packet alone decides, in the order in which they count.
const NUMBERS: [u32; 7] = [31, 4, 32, 33, 34, 35, 36];

/// Why a packet is not carried.
const CAUSES_OF_4: [&str; 3] = ["by its kind", "by TD", "by AT"];

/// Packets at the edge of a rule: what they got, and where the edge is.
const EDGES: [&str; 15] = [
    "31 of eleven bytes", "31 of no bytes", "32 by one byte too few", "32 by one byte too many",
    "32 inside a header of 16 bytes", "33 at Length 1", "33 at Length 2, a multiple of 8",
    "33 by first alone", "33 by last alone", "34 at Length 2", "34 by first alone",
    "34 by last alone", "35 by one dword", "crossed up to the page's end",
    "crossed with gaps, Length 2, a multiple of 8",
];

/// What the fields of a request say; a completion's bytes can be read so too.
struct Fields {
    length: u32,
    first: u32,
    last: u32,
    /// The address in its page.
    place: u32,
    high_word_is_zero: bool,
}

impl Fields {
    /// Reads them, if the whole header is there.
    fn read(packet: &[u8]) -> Option<Fields> {
        let end = header_length(packet);
        let header = packet.get(..end)?;
        Some(Fields {
            length: length(packet),
            first: u32::from(header[7] & 0xF),
            last: u32::from(header[7] >> 4),
            place: u32::from(header[end - 2] & 0xF) << 8 | u32::from(header[end - 1] & 0xFC),
            high_word_is_zero: end == 16 && header[8..12] == [0; 4],
        })
    }

    /// Whether the dwords are just two, and lie in one pair.
    fn is_pair(&self) -> bool {
        self.length == 2 && self.place % 8 == 0
    }

    fn breaks_enables(&self) -> bool {
        if self.length == 1 {
            self.last != 0
        } else {
            self.first * self.last == 0
        }
    }

    /// Whether the first enables go on from their lowest one to the top: it carries beyond them.
    fn first_goes_on(&self) -> bool {
        self.first + (self.first & self.first.wrapping_neg()) == 16
    }

    /// Whether the last enables go on from the bottom to their highest one: one more is a single bit.
    fn last_goes_on(&self) -> bool {
        self.last != 0 && (self.last + 1).is_power_of_two()
    }

    fn has_two_gaps(&self) -> bool {
        !self.first_goes_on() && !self.last_goes_on()
    }

    fn breaks_contiguity(&self) -> bool {
        self.length > 1 && !self.is_pair() && !(self.first_goes_on() && self.last_goes_on())
    }

    /// The first byte after the request, counted from the beginning of its page.
    fn end(&self) -> u32 {
        self.place + 4 * self.length
    }

    /// Whether the last byte lies in another page than the first.
    fn breaks_page(&self) -> bool {
        (self.end() - 1) / 4096 != 0
    }

    /// Which of 33 to 36 a request with these fields breaks.
    fn broken(&self) -> impl Iterator<Item = u32> {
        let broken = [
            self.breaks_enables(),
            self.breaks_contiguity(),
            self.breaks_page(),
            self.high_word_is_zero,
        ];
        (33..).zip(broken).filter(|&(_, broken)| broken).map(|(number, _)| number)
    }
}

/// A byte of a packet; a missing one counts as 0.
fn byte(packet: &[u8], place: usize) -> u8 {
    packet.get(place).copied().unwrap_or(0)
}

fn is_request(packet: &[u8]) -> bool {
    byte(packet, 0) & 0x9F == 0
}

fn is_completion(packet: &[u8]) -> bool {
    byte(packet, 0) & 0xBF == 0x0A
}

/// The Length: its field counts from 1 to 1,023, and then comes 0.
fn length(packet: &[u8]) -> u32 {
    let field = u32::from(byte(packet, 2) & 3) << 8 | u32::from(byte(packet, 3));
    (field + 1023) % 1024 + 1
}

/// Bit 5 of the kind stands for a fourth word.
fn header_length(packet: &[u8]) -> usize {
    12 + (byte(packet, 0) >> 3 & 4) as usize
}

/// What the header says of the whole length: bit 6 of the kind stands for data.
fn whole_length(packet: &[u8]) -> usize {
    let data = (byte(packet, 0) >> 6 & 1) as usize;
    header_length(packet) + data * 4 * length(packet) as usize
}

/// Which of the causes of 4 a packet has.
fn causes_of_4(packet: &[u8]) -> impl Iterator<Item = &'static str> {
    let kind = !is_request(packet) && !is_completion(packet);
    let causes = [kind, byte(packet, 2) & 0x80 != 0, byte(packet, 2) & 0x0C != 0];
    CAUSES_OF_4.iter().copied().zip(causes).filter(|&(_, has)| has).map(|(cause, _)| cause)
}

/// All the rules that a packet breaks, in their order. One without a whole header has no fields to
/// be judged by 33 to 36.
fn broken(packet: &[u8]) -> Vec<u32> {
    let mut broken = Vec::new();
    if packet.len() < 12 {
        broken.push(31);
    }
    if causes_of_4(packet).next().is_some() {
        broken.push(4);
    }
    if packet.len() != whole_length(packet) {
        broken.push(32);
    }
    if is_request(packet) {
        broken.extend(Fields::read(packet).iter().flat_map(Fields::broken));
    }
    broken
}

/// What is wrong with the number that a packet got, if its bytes say otherwise. Refusals 1 and 2
/// come before everything, and the bytes say nothing of them.
pub fn contradiction(packet: &[u8], number: u32) -> Option<String> {
    let broken = broken(packet);
    let right = match number {
        1 | 2 => true,
        0 | 5..=9 => broken.is_empty(),
        _ => broken.first() == Some(&number),
    };
    if right {
        None
    } else {
        Some(format!("answered: {number}; the rules that the bytes break, in their order: {broken:?}"))
    }
}

/// The cases of form that a run must reach, in the order in which they are told.
pub fn wanted() -> Vec<String> {
    let mut wanted: Vec<String> = (32..=36).map(alone).collect();
    wanted.extend([1, 2].map(|number| before(number, 31)));
    wanted.extend([4, 32].map(|later| before(31, later)));
    for (place, &number) in NUMBERS.iter().enumerate().skip(1) {
        wanted.extend(NUMBERS[place + 1..].iter().map(|&later| before(number, later)));
    }
    for cause in CAUSES_OF_4 {
        wanted.extend([(31, 4), (4, 32)].map(|(number, later)| because(number, later, cause)));
    }
    wanted.push(eleven_before_4());
    wanted.extend((33..=35).map(unread));
    wanted.extend(EDGES.map(String::from));
    wanted
}

fn alone(number: u32) -> String {
    format!("{number} alone")
}

fn before(number: u32, later: u32) -> String {
    format!("{number} before {later}")
}

fn because(number: u32, later: u32, cause: &str) -> String {
    format!("{number} before {later}, not carried {cause}")
}

fn eleven_before_4() -> String {
    String::from("31 before 4, eleven bytes")
}

fn unread(number: u32) -> String {
    format!("completion crossed, as a request {number}")
}

/// The cases of form that a packet is, having got this number.
pub fn cases(packet: &[u8], number: u32) -> Vec<String> {
    let broken = broken(packet);
    let mut cases: Vec<String> =
        broken.iter().filter(|&&later| later != number).map(|&later| before(number, later)).collect();
    let fields = Fields::read(packet);
    if broken == [number] && fields.is_some() {
        cases.push(alone(number));
    }
    for (earlier, later) in [(31, 4), (4, 32)] {
        if number == earlier && broken.contains(&later) {
            cases.extend(causes_of_4(packet).map(|cause| because(earlier, later, cause)));
        }
    }
    if number == 31 && packet.len() == 11 && broken.contains(&4) {
        cases.push(eleven_before_4());
    }
    if number == 0 && is_completion(packet) {
        cases.extend(fields.iter().flat_map(Fields::broken).map(unread));
    }
    cases.extend(edges(packet, number, fields.as_ref()).map(String::from));
    cases
}

/// The edges at which a packet lies that got this number.
fn edges(packet: &[u8], number: u32, fields: Option<&Fields>) -> impl Iterator<Item = &'static str> {
    let (bytes, whole) = (packet.len(), whole_length(packet));
    let at = |edge: &dyn Fn(&Fields) -> bool| fields.map_or(false, edge);
    let request = is_request(packet);
    let edges = [
        number == 31 && bytes == 11,
        number == 31 && bytes == 0,
        number == 32 && bytes + 1 == whole,
        number == 32 && bytes == whole + 1,
        number == 32 && bytes < 16 && header_length(packet) == 16,
        number == 33 && at(&|fields| fields.length == 1),
        number == 33 && at(&Fields::is_pair),
        number == 33 && at(&|fields| fields.length > 1 && fields.last != 0),
        number == 33 && at(&|fields| fields.length > 1 && fields.first != 0),
        number == 34 && at(&|fields| fields.length == 2),
        number == 34 && at(&Fields::last_goes_on),
        number == 34 && at(&Fields::first_goes_on),
        number == 35 && at(&|fields| fields.end() == 4100),
        number == 0 && request && at(&|fields| fields.end() == 4096),
        number == 0 && request && at(&Fields::is_pair) && at(&Fields::has_two_gaps),
    ];
    EDGES.iter().copied().zip(edges).filter(|&(_, at_it)| at_it).map(|(edge, _)| edge)
}
