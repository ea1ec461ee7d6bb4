//! The text form of a path: one line a record, `KIND KEY=NUMBER ..`, and `#` before a comment.

use crate::records::{self, Record, Word};
use std::fmt;

/// A record and the line that tells it: its number, counted from 1, and its text.
#[derive(Clone, PartialEq, Eq, Debug)]
pub struct Line {
    pub number: usize,
    pub text: String,
    pub record: Record,
}

/// A line that cannot be read, and why.
#[derive(Clone, PartialEq, Eq, Debug)]
pub struct TextError {
    pub number: usize,
    pub message: String,
}

/// How the canonical text writes a key's number.
#[derive(Clone, Copy, PartialEq)]
enum Style {
    Decimal,
    Hexadecimal,
    /// Decimal, and left out when it is the default.
    IfSet,
}

struct Key {
    name: &'static str,
    most: u32,
    /// The least and the greatest number of a good path, where these are fewer than the numbers that fit.
    good: Option<(u32, u32)>,
    default: u32,
    style: Style,
}

const NONCE_MOST: u32 = (1 << 30) - 1;

/// So many letters of a message or a line are shown.
const MOST_SHOWN: usize = 300;

/// What some editors write at the start of a UTF-8 text. It is no part of the text.
const BYTE_ORDER_MARK: &[u8] = b"\xEF\xBB\xBF";

/// The message of a line that may be no text at all.
pub const NOT_TEXT: &str = "this line is not UTF-8 text";

const fn byte(name: &'static str, good: Option<(u32, u32)>, default: u32) -> Key {
    Key { name, most: 255, good, default, style: Style::Decimal }
}

const fn nonce(name: &'static str, default: u32) -> Key {
    Key { name, most: NONCE_MOST, good: None, default, style: Style::Hexadecimal }
}

const RATE: Key = byte("rate", Some((1, 15)), 15);
const TTL: Key = byte("ttl", Some((1, 255)), 64);
const QS_TTL: Key = byte("qs_ttl", None, 128);
const CEILING: Key = byte("ceiling", Some((0, 15)), 15);
const RESERVED: Key = Key { name: "reserved", most: 3, good: None, default: 0, style: Style::IfSet };

const REQUEST_KEYS: [Key; 5] = [RATE, TTL, QS_TTL, nonce("nonce", 0), RESERVED];
const ROUTER_KEYS: [Key; 3] = [CEILING, nonce("fresh", NONCE_MOST), RESERVED];
const RECEIVER_KEYS: [Key; 1] = [CEILING];

/// The four kinds: the word that starts the line, the kind's number and its keys.
const KINDS: [(&str, u8, &[Key]); 4] = [
    ("request", records::REQUEST, &REQUEST_KEYS),
    ("router", records::ROUTER, &ROUTER_KEYS),
    ("silent", records::SILENT, &[]),
    ("receiver", records::RECEIVER, &RECEIVER_KEYS),
];

impl fmt::Display for TextError {
    fn fmt(&self, f: &mut fmt::Formatter) -> fmt::Result {
        write!(f, "{}: {}", self.number, self.message)
    }
}

/// The record of a kind with the numbers of its keys, in the order of the keys. Each fits its bytes.
fn record(kind: u8, values: &[u32]) -> Record {
    let byte = |at: usize| values[at] as u8;
    let word = |at: usize| Word { nonce: values[at], reserved: byte(at + 1) };
    match kind {
        records::REQUEST => {
            Record::Request { rate: byte(0), ttl: byte(1), qs_ttl: byte(2), word: word(3) }
        }
        records::ROUTER => Record::Router { ceiling: byte(0), word: word(1) },
        records::SILENT => Record::Silent,
        _ => Record::Receiver { ceiling: byte(0) },
    }
}

/// The numbers of a record's keys, in the order of the keys.
fn values(record: &Record) -> Vec<u32> {
    let word = |word: &Word| [word.nonce, u32::from(word.reserved)];
    match record {
        Record::Request { rate, ttl, qs_ttl, word: nonce } => {
            [[rate, ttl, qs_ttl].map(|byte| u32::from(*byte)).to_vec(), word(nonce).to_vec()].concat()
        }
        Record::Router { ceiling, word: fresh } => [&[u32::from(*ceiling)], &word(fresh)[..]].concat(),
        Record::Silent => Vec::new(),
        Record::Receiver { ceiling } => vec![u32::from(*ceiling)],
    }
}

/// The numbers that a key may have, for a message.
fn range(key: &Key) -> String {
    let Key { name, most, .. } = key;
    match key.good {
        Some((from, to)) => {
            format!("{name} is {from} to {to} in a good path, and at most {most} in any")
        }
        None => format!("{name} is at most {most}"),
    }
}

/// What to add to the message about a word that was meant to end at a comma or semicolon.
fn hint(word: &str) -> &'static str {
    if word.contains([',', ';']) {
        "; keys are separated by spaces"
    } else {
        ""
    }
}

/// A number in decimal, or in hexadecimal behind `0x`.
fn number(word: &str, key: &Key) -> Result<u32, String> {
    let (digits, radix) = match word.strip_prefix("0x") {
        Some(digits) => (digits, 16),
        None => (word, 10),
    };
    if digits.is_empty() || !digits.chars().all(|digit| digit.is_digit(radix)) {
        let forms = "decimal digits, or 0x and hexadecimal digits";
        return Err(format!("{}={word} is not a number: a number is {forms}{}", key.name, hint(word)));
    }
    // what does not even fit 64 bits is too great for every key
    let value = u64::from_str_radix(digits, radix).unwrap_or(u64::MAX);
    if value > u64::from(key.most) {
        return Err(format!("{}={word} does not fit: {}", key.name, range(key)));
    }
    Ok(value as u32)
}

/// The numbers of a kind's keys, from the words behind the kind's word.
fn numbers<'a>(
    kind: &str,
    keys: &[Key],
    words: impl Iterator<Item = &'a str>,
) -> Result<Vec<u32>, String> {
    let mut given: Vec<Option<u32>> = vec![None; keys.len()];
    for word in words {
        let (name, value) = word.split_once('=').ok_or(format!(
            "`{word}` is not of the form key=number, without spaces around `=`{}",
            hint(word)
        ))?;
        let Some(at) = keys.iter().position(|key| key.name == name) else {
            let names: Vec<&str> = keys.iter().map(|key| key.name).collect();
            let has = if names.is_empty() { "no keys".to_string() } else { names.join(", ") };
            return Err(format!("`{name}` is no key of `{kind}`, which has {has}{}", hint(name)));
        };
        if given[at].is_some() {
            return Err(format!("`{name}` is given twice"));
        }
        given[at] = Some(number(value, &keys[at])?);
    }
    Ok(given.iter().zip(keys).map(|(value, key)| value.unwrap_or(key.default)).collect())
}

/// The record of one line; nothing if the line is blank or a comment alone.
fn read_line(line: &[u8]) -> Result<Option<Record>, String> {
    let told = line.split(|byte| *byte == b'#').next().unwrap_or(line);
    let told = std::str::from_utf8(told).map_err(|_| NOT_TEXT.to_string())?;
    let mut words = told.split_ascii_whitespace();
    let Some(first) = words.next() else {
        return Ok(None);
    };
    let Some((name, kind, keys)) = KINDS.iter().find(|(name, _, _)| *name == first) else {
        let names = KINDS.map(|(name, _, _)| name).join(", ");
        return Err(format!("`{first}` is no kind of record; the kinds are {names}{}", hint(first)));
    };
    let values = numbers(name, keys, words)?;
    Ok(Some(record(*kind, &values)))
}

/// A text as a message can show it: without control characters, and cut off if it is very long.
fn printable(text: &str) -> String {
    let mut letters = text.chars();
    let front: String = letters.by_ref().take(MOST_SHOWN).collect();
    let more = if letters.next().is_some() { " .." } else { "" };
    front.replace(|letter: char| letter.is_control(), "?") + more
}

/// A line as a message can show it: no control characters, no spaces around it.
fn shown(line: &[u8]) -> String {
    let text = String::from_utf8_lossy(line).replace('\t', " ");
    printable(text.trim())
}

/// The lines that tell records. If any line cannot be read, all such lines and nothing else.
pub fn parse(text: &[u8]) -> Result<Vec<Line>, Vec<TextError>> {
    let mut lines = Vec::new();
    let mut errors = Vec::new();
    let text = text.strip_prefix(BYTE_ORDER_MARK).unwrap_or(text);
    for (index, line) in text.split(|byte| *byte == b'\n').enumerate() {
        let number = index + 1;
        match read_line(line) {
            Ok(Some(record)) => lines.push(Line { number, text: shown(line), record }),
            Ok(None) => {}
            Err(message) => errors.push(TextError { number, message: printable(&message) }),
        }
    }
    if errors.is_empty() {
        Ok(lines)
    } else {
        Err(errors)
    }
}

fn print_record(record: &Record) -> String {
    let mut line = String::new();
    for (name, kind, keys) in KINDS {
        if kind != record.kind() {
            continue;
        }
        line += name;
        for (key, value) in keys.iter().zip(values(record)) {
            line += &match key.style {
                Style::Decimal => format!(" {}={value}", key.name),
                Style::Hexadecimal => format!(" {}=0x{value:08X}", key.name),
                Style::IfSet if value == key.default => String::new(),
                Style::IfSet => format!(" {}={value}", key.name),
            };
        }
    }
    line
}

/// The canonical text: every key in its order, nonces in hexadecimal, reserved bits only if one is set.
pub fn print(records: &[Record]) -> String {
    records.iter().map(|record| print_record(record) + "\n").collect()
}
