//! Cases as text: reads each line of a file into calls, and what must come of them.

use crate::stream::{self, table, Record};

/// A line that does something.
pub struct Line {
    /// Its number in the file, from 1 on.
    pub number: usize,
    pub name: Option<String>,
    pub what: What,
}

/// What a line does.
pub enum What {
    /// It begins a new run over these tables.
    Start(Tables),
    /// It makes a call of the switch, which must answer this.
    Call(Record, String),
    /// It makes calls of the stream's own: a lend, or stores.
    Own(Vec<Record>),
    /// It wants these values in this table, from this place on.
    See { number: u32, place: u32, values: Vec<u64> },
}

/// The tables that a run can begin with: zeros, or those of the exam sheet.
pub enum Tables {
    Zeros,
    Sheet,
}

/// The names and the numbers of what can be lent: the tables, and then the answer buffer.
const LENT: [(&str, u32); 5] = [
    ("windows", table::WINDOWS),
    ("numbers", table::NUMBERS),
    ("logs", table::LOGS),
    ("out", table::OUT),
    ("answer", table::ANSWER),
];
/// How many of them are tables: the first ones.
const TABLES: usize = 4;

/// The table calls: the word for each, its number, and how many bits each parameter has.
const CALLS: [(&str, u32, &[u32]); 7] = [
    ("set-window", stream::SET_WINDOW, &[32, 32, 64, 64, 32, 32, 32]),
    ("empty-window", stream::EMPTY_WINDOW, &[32, 32]),
    ("set-entry", stream::SET_ENTRY, &[32, 32, 32]),
    ("free-entry", stream::FREE_ENTRY, &[32, 32]),
    ("set-bus", stream::SET_BUS, &[32, 32]),
    ("make-inactive", stream::MAKE_INACTIVE, &[32]),
    ("clear-log", stream::CLEAR_LOG, &[32, 32]),
];

/// Reads a whole text. If some lines cannot be read, answers their numbers, and why.
pub fn read(text: &str) -> Result<Vec<Line>, Vec<(usize, String)>> {
    let (mut lines, mut wrong) = (Vec::new(), Vec::new());
    for (number, text) in (1..).zip(text.lines()) {
        let text = text.split('#').next().unwrap_or("").trim();
        if text.is_empty() {
            continue;
        }
        match named(text) {
            Ok((name, what)) => lines.push(Line { number, name, what }),
            Err(why) => wrong.push((number, why)),
        }
    }
    match lines.first() {
        Some(Line { what: What::Start(_), .. }) | None => (),
        Some(line) if wrong.is_empty() => {
            wrong.push((line.number, String::from("there is no `start` before it")));
        }
        Some(_) => (),
    }
    if wrong.is_empty() {
        Ok(lines)
    } else {
        Err(wrong)
    }
}

/// Reads a line's name, if it has one, and what it does.
fn named(text: &str) -> Result<(Option<String>, What), String> {
    let (name, rest) = match text.split_once(':') {
        Some((name, rest)) => (name.trim(), rest),
        None => return Ok((None, what(text)?)),
    };
    if name.is_empty() || name.contains('=') {
        return Err(format!("`{name}` before the `:` is no name"));
    }
    Ok((Some(String::from(name)), what(rest)?))
}

/// Reads what a line does. What must come stands after a `=`.
fn what(text: &str) -> Result<What, String> {
    let (doing, expected) = match text.split_once('=') {
        Some((doing, expected)) => (doing, Some(expected)),
        None => (text, None),
    };
    let words: Vec<&str> = doing.split_whitespace().collect();
    let (&first, rest) = words.split_first().ok_or("it does nothing")?;
    match (first, expected) {
        ("start", None) => start(rest),
        ("lend", None) => lend(rest),
        ("store", None) => store(rest),
        ("start" | "lend" | "store", Some(_)) => Err(format!("`{first}` has no `=`")),
        ("pass", Some(expected)) => pass(rest, expected),
        ("see", Some(expected)) => see(rest, expected),
        ("pass" | "see", None) => Err(String::from("there is no `=`")),
        _ => table_call(first, rest, expected),
    }
}

fn start(words: &[&str]) -> Result<What, String> {
    match words {
        ["zeros"] => Ok(What::Start(Tables::Zeros)),
        ["sheet"] => Ok(What::Start(Tables::Sheet)),
        _ => Err(String::from("`start` is followed by `zeros` or `sheet`")),
    }
}

/// Reads the lengths of a lend, each after its table's name.
fn lend(words: &[&str]) -> Result<What, String> {
    let mut lengths: Vec<(u32, u32)> = Vec::new();
    for pair in words.chunks(2) {
        let (number, length) = match pair {
            [name, length] => (named_table(name, &LENT)?, number_32(length)?),
            _ => return Err(format!("there is no length after `{}`", pair[0])),
        };
        if lengths.iter().any(|&(other, _)| other == number) {
            return Err(format!("`{}` stands there twice", pair[0]));
        }
        lengths.push((number, length));
    }
    Ok(What::Own(vec![Record::lend(&lengths)]))
}

/// Reads stores, of each value one place further. A value for Out may have more bits than a byte, as
/// in the record.
fn store(words: &[&str]) -> Result<What, String> {
    let (number, place, values) = match words {
        [name, place, values @ ..] if !values.is_empty() => {
            (named_table(name, &LENT[..TABLES])?, number_32(place)?, values)
        }
        _ => return Err(String::from("`store` wants a table, a place and values")),
    };
    let bits = if number == table::WINDOWS { 64 } else { 32 };
    let mut records = Vec::new();
    for (further, value) in (0..).zip(values) {
        let place = place.checked_add(further).ok_or("a place has more than 32 bits")?;
        records.push(Record::store(number, place, number_of(value, bits)?));
    }
    Ok(What::Own(records))
}

/// Reads where to look, and the values that are wanted there.
fn see(words: &[&str], expected: &str) -> Result<What, String> {
    let (number, place) = match words {
        [name, place] => (named_table(name, &LENT[..TABLES])?, number_32(place)?),
        _ => return Err(String::from("`see` wants a table and a place")),
    };
    let bits = match number {
        table::WINDOWS => 64,
        table::OUT => 8,
        _ => 32,
    };
    let values: Result<Vec<u64>, String> =
        expected.split_whitespace().map(|value| number_of(value, bits)).collect();
    match values? {
        values if values.is_empty() => Err(String::from("there are no values after the `=`")),
        values => Ok(What::See { number, place, values }),
    }
}

/// Reads the packet of a `pass`, and what must become of it.
fn pass(words: &[&str], expected: &str) -> Result<What, String> {
    let (from, bytes) = words.split_first().ok_or("`pass` wants a partition")?;
    let record = Record::pass(number_32(from)?, packet(&bytes.join(" "))?);
    Ok(What::Call(record, outcome(expected)?))
}

/// Reads a packet: bytes in hex, and perhaps `+` and how many bytes more, which count up from 0.
fn packet(text: &str) -> Result<Vec<u8>, String> {
    let (hex, further) = match text.split_once('+') {
        Some((hex, further)) => (hex, number_32(further)?),
        None => (text, 0),
    };
    let mut packet = Vec::new();
    for digits in hex.split_whitespace() {
        push_hex(digits, &mut packet)?;
    }
    if packet.len() + further as usize > stream::LONGEST {
        return Err(format!("the packet has more than {} bytes", stream::LONGEST));
    }
    packet.extend((0..further).map(|byte| byte as u8));
    Ok(packet)
}

/// Appends bytes that are written as pairs of hex digits.
fn push_hex(digits: &str, to: &mut Vec<u8>) -> Result<(), String> {
    let wrong = || format!("`{digits}` is not made of bytes in hex");
    if digits.len() % 2 != 0 || !digits.bytes().all(|digit| digit.is_ascii_hexdigit()) {
        return Err(wrong());
    }
    for place in (0..digits.len()).step_by(2) {
        to.push(u8::from_str_radix(&digits[place..place + 2], 16).map_err(|_| wrong())?);
    }
    Ok(())
}

/// Reads a table call, and what it must answer.
fn table_call(name: &str, words: &[&str], expected: Option<&str>) -> Result<What, String> {
    let &(_, call, bits) = CALLS
        .iter()
        .find(|call| call.0 == name)
        .ok_or_else(|| format!("`{name}` begins no line"))?;
    if words.len() != bits.len() {
        return Err(format!("`{name}` wants {} numbers, and has {}", bits.len(), words.len()));
    }
    let mut with = Vec::new();
    for (word, &bits) in words.iter().zip(bits) {
        let number = number_of(word, bits)?;
        if bits == 64 {
            with.push((number >> 32) as u32);
        }
        with.push(number as u32);
    }
    let expected = expected.ok_or("there is no `=`")?;
    Ok(What::Call(Record::new(call, &with), done(expected)?))
}

/// Reads what must become of a packet, into the line that `bench` prints.
fn outcome(text: &str) -> Result<String, String> {
    let words: Vec<&str> = text.split_whitespace().collect();
    let (name, number, length, header) = match words.as_slice() {
        ["dropped", refusal] => return Ok(format!("dropped {}", number_32(refusal)?)),
        [name @ ("crossed" | "answered"), number, length, header @ ..] => {
            (name, number_32(number)?, number_32(length)?, header)
        }
        _ => return Err(format!("`{}` is no answer of `pass`", text.trim())),
    };
    if !(3..=4).contains(&header.len()) || !header.iter().all(|word| is_header_word(word)) {
        return Err(format!("`{}` are not three or four header words", header.join(" ")));
    }
    Ok(format!("{name} {number} {length} {}", header.join(" ")))
}

/// Whether this is a word of eight upper-case hex digits.
fn is_header_word(word: &str) -> bool {
    word.len() == 8 && word.bytes().all(|digit| matches!(digit, b'0'..=b'9' | b'A'..=b'F'))
}

/// Reads what a table call must answer.
fn done(text: &str) -> Result<String, String> {
    let words: Vec<&str> = text.split_whitespace().collect();
    match words.as_slice() {
        ["done"] => Ok(String::from("done")),
        ["refused", refusal] => Ok(format!("refused {}", number_32(refusal)?)),
        _ => Err(format!("`{}` is no answer of a table call", text.trim())),
    }
}

/// The number of the table with this name.
fn named_table(name: &str, tables: &[(&str, u32)]) -> Result<u32, String> {
    let found = tables.iter().find(|table| table.0 == name);
    found.map(|table| table.1).ok_or_else(|| format!("`{name}` is no table here"))
}

fn number_32(word: &str) -> Result<u32, String> {
    number_of(word, 32).map(|number| number as u32)
}

/// Reads a number of at most so many bits: decimal, or hex after `0x`.
fn number_of(word: &str, bits: u32) -> Result<u64, String> {
    let (digits, radix) = match word.strip_prefix("0x") {
        Some(digits) => (digits, 16),
        None => (word, 10),
    };
    if digits.is_empty() || !digits.chars().all(|digit| digit.is_digit(radix)) {
        return Err(format!("`{word}` is no number"));
    }
    match u64::from_str_radix(digits, radix) {
        Ok(number) if bits == 64 || number >> bits == 0 => Ok(number),
        _ => Err(format!("`{word}` has more than {bits} bits")),
    }
}
