//! Records, paths and texts drawn from a seed. Bytes, defaults and keys are written here a second time, so
//! that a slip in the tool shows.

use crate::records::{Record, Word};

pub struct Rng(pub u64);

impl Rng {
    fn next(&mut self) -> u64 {
        self.0 ^= self.0 << 13;
        self.0 ^= self.0 >> 7;
        self.0 ^= self.0 << 17;
        self.0.wrapping_mul(0x2545_F491_4F6C_DD1D) >> 8
    }

    pub fn below(&mut self, bound: usize) -> usize {
        (self.next() % bound as u64) as usize
    }

    pub fn percent(&mut self, share: usize) -> bool {
        self.below(100) < share
    }

    pub fn pick<T: Copy>(&mut self, from: &[T]) -> T {
        from[self.below(from.len())]
    }

    /// Now and then the usual number, or one near the end of the codes.
    fn byte(&mut self, usual: u8) -> u8 {
        let any = self.next() as u8;
        let near = self.below(18) as u8;
        self.pick(&[usual, usual, near, any, any, 0, 255])
    }

    fn nonce(&mut self, usual: u32) -> u32 {
        let any = self.below(1 << 30) as u32;
        self.pick(&[usual, any, any, any, 0, (1 << 30) - 1])
    }

    fn word(&mut self, usual: u32) -> Word {
        let reserved = if self.percent(30) { self.below(4) as u8 } else { 0 };
        Word { nonce: self.nonce(usual), reserved }
    }
}

const ALL_ONES: u32 = 0x3FFF_FFFF;

/// A record with any numbers that its bytes can hold.
pub fn any_record(rng: &mut Rng) -> Record {
    match rng.below(4) {
        0 => Record::Request {
            rate: rng.byte(15),
            ttl: rng.byte(64),
            qs_ttl: rng.byte(128),
            word: rng.word(0),
        },
        1 => Record::Router { ceiling: rng.byte(15), word: rng.word(ALL_ONES) },
        2 => Record::Silent,
        _ => Record::Receiver { ceiling: rng.byte(15) },
    }
}

/// Any records in any order; seldom more than a path may have.
pub fn any_row(rng: &mut Rng) -> Vec<Record> {
    let most = rng.pick(&[1, 4, 10, 90]);
    (0..rng.below(most + 1)).map(|_| any_record(rng)).collect()
}

/// A good path: mostly few routers, an IP TTL near their number now and then, some silent, some denying.
pub fn good_path(rng: &mut Rng) -> Vec<Record> {
    let any = rng.below(65);
    let hops = rng.pick(&[0, 1, 2, 3, 4, 6, 64, any]);
    let near = (hops + rng.below(3)).clamp(1, 255) as u8;
    let ttl = if rng.percent(25) { near } else { rng.byte(64).max(1) };
    let rate = 1 + rng.below(15) as u8;
    let mut path = vec![Record::Request { rate, ttl, qs_ttl: rng.byte(128), word: rng.word(0) }];
    let silent = rng.pick(&[0, 0, 10, 30]);
    let denying = rng.pick(&[0, 0, 15]);
    for _ in 0..hops {
        let ceiling = if rng.percent(denying) { 0 } else { 1 + rng.below(15) as u8 };
        let router = Record::Router { ceiling, word: rng.word(ALL_ONES) };
        path.push(if rng.percent(silent) { Record::Silent } else { router });
    }
    let ceiling = if rng.percent(8) { 0 } else { 1 + rng.below(15) as u8 };
    path.push(Record::Receiver { ceiling });
    path
}

/// A good path with one slip: a record too many, too few, exchanged or with any numbers, or far too many.
pub fn slipped_path(rng: &mut Rng) -> Vec<Record> {
    let mut path = good_path(rng);
    let at = rng.below(path.len());
    let other = any_record(rng);
    match rng.below(6) {
        0 => drop(path.remove(at)),
        1 => path.insert(at, other),
        2 => path[at] = other,
        3 => path.push(other),
        4 => path.truncate(at),
        _ => drop(path.splice(1..1, vec![Record::Silent; 40 + rng.below(40)])),
    }
    path
}

/// The four bytes of a word, by division.
fn word_bytes(word: &Word) -> Vec<u8> {
    let number = word.nonce * 4 + u32::from(word.reserved);
    [number / 16_777_216, number / 65_536 % 256, number / 256 % 256, number % 256]
        .map(|b| b as u8)
        .to_vec()
}

/// A record's bytes, from document 01.
pub fn record_bytes(record: &Record) -> Vec<u8> {
    match record {
        Record::Request { rate, ttl, qs_ttl, word } => {
            [&[1, *rate, *ttl, *qs_ttl], &word_bytes(word)[..]].concat()
        }
        Record::Router { ceiling, word } => [&[2, *ceiling], &word_bytes(word)[..]].concat(),
        Record::Silent => vec![3],
        Record::Receiver { ceiling } => vec![4, *ceiling],
    }
}

pub fn row_bytes(records: &[Record]) -> Vec<u8> {
    records.iter().flat_map(record_bytes).collect()
}

/// The kind's word, and each key with its default and the record's number.
fn told(record: &Record) -> (&'static str, Vec<(&'static str, u32, u32)>) {
    match record {
        Record::Request { rate, ttl, qs_ttl, word } => (
            "request",
            vec![
                ("rate", 15, u32::from(*rate)),
                ("ttl", 64, u32::from(*ttl)),
                ("qs_ttl", 128, u32::from(*qs_ttl)),
                ("nonce", 0, word.nonce),
                ("reserved", 0, u32::from(word.reserved)),
            ],
        ),
        Record::Router { ceiling, word } => (
            "router",
            vec![
                ("ceiling", 15, u32::from(*ceiling)),
                ("fresh", ALL_ONES, word.nonce),
                ("reserved", 0, u32::from(word.reserved)),
            ],
        ),
        Record::Silent => ("silent", vec![]),
        Record::Receiver { ceiling } => ("receiver", vec![("ceiling", 15, u32::from(*ceiling))]),
    }
}

fn odd_number(rng: &mut Rng, number: u32) -> String {
    match rng.below(5) {
        0 | 1 => number.to_string(),
        2 => format!("0x{number:X}"),
        3 => format!("0x{number:010x}"),
        _ => format!("000{number}"),
    }
}

fn gap(rng: &mut Rng) -> &'static str {
    rng.pick(&[" ", " ", "  ", "\t", " \t  "])
}

/// A line for a record: keys in any order, those with the default often left out.
fn odd_line(rng: &mut Rng, record: &Record) -> String {
    let (kind, mut keys) = told(record);
    let mut line = rng.pick(&["", "", "  ", "\t"]).to_string() + kind;
    while !keys.is_empty() {
        let (name, default, number) = keys.remove(rng.below(keys.len()));
        if number != default || rng.percent(40) {
            line += &format!("{}{name}={}", gap(rng), odd_number(rng, number));
        }
    }
    line + rng.pick(&["", "", "", " ", "# silent", "  # rate=3 # receiver", "\t#", " # \u{e9}"])
}

/// A text that tells records, with blank lines and comments between them, and the line number of each.
pub fn odd_text(rng: &mut Rng, records: &[Record]) -> (Vec<u8>, Vec<usize>) {
    let mut lines: Vec<String> = Vec::new();
    let mut numbers = Vec::new();
    for record in records {
        while rng.percent(25) {
            lines
                .push(rng.pick(&["", "   ", "# router ceiling=3", "\t# silent", "#", "\r"]).to_string());
        }
        lines.push(odd_line(rng, record));
        numbers.push(lines.len());
    }
    let mut text = String::new();
    for (index, line) in lines.iter().enumerate() {
        let last = index + 1 == lines.len();
        let end = if last && rng.percent(30) { "" } else { rng.pick(&["\n", "\n", "\n", "\r\n"]) };
        text += &format!("{line}{end}");
    }
    (text.into_bytes(), numbers)
}
