//! The program's records: one byte of kind, then a body whose length the kind fixes.
//!
//! A record here holds whatever its bytes can hold, in range or not, so that a wrong path can be told too.

use std::fmt;

pub const REQUEST: u8 = 1;
pub const ROUTER: u8 = 2;
pub const SILENT: u8 = 3;
pub const RECEIVER: u8 = 4;

/// Four bytes, the highest first: 30 bits of nonce above 2 reserved bits.
#[derive(Clone, Copy, PartialEq, Eq, Debug)]
pub struct Word {
    pub nonce: u32,
    pub reserved: u8,
}

#[derive(Clone, Copy, PartialEq, Eq, Debug)]
pub enum Record {
    Request { rate: u8, ttl: u8, qs_ttl: u8, word: Word },
    Router { ceiling: u8, word: Word },
    Silent,
    Receiver { ceiling: u8 },
}

/// Why bytes are no row of whole records.
#[derive(Clone, Copy, PartialEq, Eq, Debug)]
pub enum Broken {
    /// The kind byte at an offset is none of the four.
    Kind { at: usize, kind: u8 },
    /// The record at an offset has fewer bytes behind its kind than its body needs.
    Short { at: usize, kind: u8, needed: usize, there: usize },
}

impl fmt::Display for Broken {
    fn fmt(&self, f: &mut fmt::Formatter) -> fmt::Result {
        match self {
            Broken::Kind { at, kind } => {
                write!(f, "byte {at}: {kind} is no kind of record; the kinds are 1 to 4")
            }
            Broken::Short { at, kind, needed, there } => {
                write!(f, "byte {at}: a record of kind {kind} is cut short: ")?;
                write!(f, "behind its kind it has {there} of {needed} bytes")
            }
        }
    }
}

impl Word {
    pub fn from_bytes(bytes: [u8; 4]) -> Word {
        let word = u32::from_be_bytes(bytes);
        Word { nonce: word >> 2, reserved: (word & 3) as u8 }
    }

    pub fn to_bytes(self) -> [u8; 4] {
        (self.nonce << 2 | u32::from(self.reserved)).to_be_bytes()
    }
}

/// How many bytes the body of a kind has; nothing if there is no such kind.
fn body_length(kind: u8) -> Option<usize> {
    match kind {
        REQUEST => Some(7),
        ROUTER => Some(5),
        SILENT => Some(0),
        RECEIVER => Some(1),
        _ => None,
    }
}

impl Record {
    pub fn kind(&self) -> u8 {
        match self {
            Record::Request { .. } => REQUEST,
            Record::Router { .. } => ROUTER,
            Record::Silent => SILENT,
            Record::Receiver { .. } => RECEIVER,
        }
    }

    pub fn to_bytes(self) -> Vec<u8> {
        let mut bytes = vec![self.kind()];
        match self {
            Record::Request { rate, ttl, qs_ttl, word } => {
                bytes.extend([rate, ttl, qs_ttl]);
                bytes.extend(word.to_bytes());
            }
            Record::Router { ceiling, word } => {
                bytes.push(ceiling);
                bytes.extend(word.to_bytes());
            }
            Record::Silent => {}
            Record::Receiver { ceiling } => bytes.push(ceiling),
        }
        bytes
    }
}

/// The record of a kind with a body of the length that the kind fixes.
fn record(kind: u8, body: &[u8]) -> Record {
    let word =
        |from: usize| Word::from_bytes([body[from], body[from + 1], body[from + 2], body[from + 3]]);
    match kind {
        REQUEST => Record::Request { rate: body[0], ttl: body[1], qs_ttl: body[2], word: word(3) },
        ROUTER => Record::Router { ceiling: body[0], word: word(1) },
        SILENT => Record::Silent,
        _ => Record::Receiver { ceiling: body[0] },
    }
}

pub fn to_bytes(records: &[Record]) -> Vec<u8> {
    records.iter().flat_map(|record| record.to_bytes()).collect()
}

pub fn from_bytes(bytes: &[u8]) -> Result<Vec<Record>, Broken> {
    let mut records = Vec::new();
    let mut at = 0;
    while let Some(&kind) = bytes.get(at) {
        let needed = body_length(kind).ok_or(Broken::Kind { at, kind })?;
        let behind = &bytes[at + 1..];
        if behind.len() < needed {
            return Err(Broken::Short { at, kind, needed, there: behind.len() });
        }
        records.push(record(kind, &behind[..needed]));
        at += 1 + needed;
    }
    Ok(records)
}
