//! Text to records and back.

use crate::commands::{self, Command, GOOD, WRONG};
use crate::records::{self, Broken, Record};
use crate::report::{bytes, hex, Report};
use crate::tests_draw::{any_row, odd_text, row_bytes, Rng};
use crate::text;
use crate::{same, Place};

const SEED: u64 = 0x504C_414E_0000_0001;
const ROWS: usize = 4_000;
const BROKEN_ROWS: usize = 2_000;

/// Texts and the bytes of their records, written by hand from document 01.
const TEXTS: [(&str, &str, &str); 21] = [
    (
        "document 01's whole case",
        "request rate=5 ttl=64 qs_ttl=128 nonce=0\nrouter ceiling=3 fresh=0x3FFFFFFF\nreceiver ceiling=15\n",
        "01 05 40 80 00 00 00 00 02 03 FF FF FF FC 04 0F",
    ),
    ("the same by defaults", "request rate=5\nrouter ceiling=3\nreceiver", "01 05 40 80 00 00 00 00 02 03 FF FF FF FC 04 0F"),
    ("a request's defaults", "request", "01 0F 40 80 00 00 00 00"),
    ("a router's defaults", "router", "02 0F FF FF FF FC"),
    ("a silent router", "silent", "03"),
    ("a receiver's defaults", "receiver", "04 0F"),
    ("the order of bytes", "request rate=1 ttl=2 qs_ttl=3 nonce=0x01020304", "01 01 02 03 04 08 0C 10"),
    ("all bits", "request rate=255 ttl=255 qs_ttl=255 nonce=1073741823 reserved=3", "01 FF FF FF FF FF FF FF"),
    ("keys in another order", "request reserved=1 nonce=0 qs_ttl=9 ttl=8 rate=7", "01 07 08 09 00 00 00 01"),
    ("reserved bits of a router", "router ceiling=0 fresh=1 reserved=2", "02 00 00 00 00 06"),
    ("hexadecimal of both cases", "router fresh=0x2aBcDeF0 ceiling=0x0f", "02 0F AA F3 7B C0"),
    ("zeros in front", "receiver ceiling=007", "04 07"),
    ("0", "request rate=0 ttl=0 qs_ttl=0", "01 00 00 00 00 00 00 00"),
    ("no text", "", ""),
    ("comments and blank lines alone", "# request\n\n   \t\n#router", ""),
    ("comments behind records", "silent#silent\nsilent # silent\n", "03 03"),
    ("ends of lines with a carriage return", "silent\r\n\r\nreceiver ceiling=1\r\n", "03 04 01"),
    ("spaces and tabs", " \treceiver \t ceiling=2\t ", "04 02"),
    ("a byte order mark at the start", "\u{FEFF}silent\nreceiver", "03 04 0F"),
    ("a byte order mark before a comment", "\u{FEFF}# silent\r\nreceiver\r\n", "04 0F"),
    ("any order and number", "receiver\nreceiver\nsilent\nrequest", "04 0F 04 0F 03 01 0F 40 80 00 00 00 00"),
];

/// Records and their canonical text, written by hand.
const CANONICAL: [(&str, &str, &str); 4] = [
    (
        "document 01's whole case",
        "01 05 40 80 00 00 00 00 02 03 FF FF FF FC 04 0F",
        "request rate=5 ttl=64 qs_ttl=128 nonce=0x00000000\nrouter ceiling=3 fresh=0x3FFFFFFF\nreceiver ceiling=15\n",
    ),
    (
        "reserved bits",
        "02 FF 00 00 00 07 01 00 01 02 12 34 56 79",
        "router ceiling=255 fresh=0x00000001 reserved=3\nrequest rate=0 ttl=1 qs_ttl=2 nonce=0x048D159E reserved=1\n",
    ),
    ("silent routers", "03 03", "silent\nsilent\n"),
    ("no bytes", "", ""),
];

/// Bytes that are no row of whole records, where they break, and what the program says of them.
const BROKEN: [(&str, &str, &str, &str); 7] = [
    ("kind 0", "00", "byte 0: 0 is no kind", "bad 0"),
    (
        "kind 5 behind a router",
        "01 05 40 80 00 00 00 00 02 03 FF FF FF FC 05 0F",
        "byte 14: 5 is no kind",
        "bad 14",
    ),
    ("a request cut short", "01 05 40 80 00 00 00", "byte 0: a record of kind 1 is cut short", "bad 0"),
    (
        "a router cut short",
        "01 05 40 80 00 00 00 00 02 03 FF FF FF",
        "byte 8: a record of kind 2 is cut short",
        "bad 8",
    ),
    (
        "a receiver's kind alone",
        "01 05 40 80 00 00 00 00 04",
        "byte 8: a record of kind 4 is cut short",
        "bad 8",
    ),
    ("wrong before it breaks", "01 00 40 80 00 00 00 00 03 FF", "byte 9: 255 is no kind", "bad 0"),
    (
        "behind a whole run",
        "01 05 40 80 00 00 00 00 04 0F 04",
        "byte 10: a record of kind 4 is cut short",
        "bad 10",
    ),
];

fn bytes_of(told: &[u8]) -> Option<Vec<u8>> {
    let lines = text::parse(told).ok()?;
    let records: Vec<Record> = lines.iter().map(|line| line.record).collect();
    Some(records::to_bytes(&records))
}

fn by_hand(report: &mut Report, place: &Place) {
    for (name, told, expected) in TEXTS {
        let found = bytes_of(told.as_bytes()).map(|found| hex(&found));
        same(report, &format!("text to records: {name}"), found.as_deref(), Some(expected));
        let outcome = commands::run(Command::Records, &place.program, "it", told.as_bytes());
        let wanted = (bytes(expected), String::new(), GOOD);
        same(
            report,
            &format!("--records: {name}"),
            (outcome.stdout, outcome.stderr, outcome.status),
            wanted,
        );
    }
    for (name, row, expected) in CANONICAL {
        let outcome = commands::run(Command::Text, &place.program, "it", &bytes(row));
        let wanted = (expected.as_bytes().to_vec(), String::new(), GOOD);
        same(
            report,
            &format!("--text: {name}"),
            (outcome.stdout, outcome.stderr, outcome.status),
            wanted,
        );
    }
}

fn broken_by_hand(report: &mut Report, place: &Place) {
    for (name, row, why, says) in BROKEN {
        let outcome = commands::run(Command::Text, &place.program, "it", &bytes(row));
        let told = outcome.stderr.starts_with(&format!("it: {why}"))
            && outcome.stderr.ends_with(&format!("The program says: {says}\n"));
        let holds = told && outcome.stdout.is_empty() && outcome.status == WRONG;
        if !holds {
            println!("  found {outcome:?}");
        }
        report.test(&format!("--text: {name}: not told, {says}"), holds);
    }
}

/// Records to text to records is the identity on rows of whole records.
fn rows_and_back(report: &mut Report) {
    let mut rng = Rng(SEED);
    let (mut read, mut back, mut with_reserved) = (0, 0, 0);
    for _ in 0..ROWS {
        let row = any_row(&mut rng);
        let bytes = row_bytes(&row);
        let records = records::from_bytes(&bytes);
        read += usize::from(records == Ok(row.clone()));
        let told = text::print(&records.unwrap_or_default());
        back += usize::from(bytes_of(told.as_bytes()) == Some(bytes));
        with_reserved += usize::from(told.contains("reserved"));
    }
    report.test(&format!("rows from a seed: {read} of {ROWS} read as drawn"), read == ROWS);
    report.test(
        &format!("rows from a seed: {back} of {ROWS} are the same after text and back"),
        back == ROWS,
    );
    report.test(&format!("count: rows with reserved bits: {with_reserved}"), with_reserved >= 500);
}

/// Odd texts tell the records they were made from, line by line; their canonical text is a fixed point.
fn texts_and_back(report: &mut Report) {
    let mut rng = Rng(SEED + 1);
    let (mut read, mut placed, mut fixed, mut shifted) = (0, 0, 0, 0);
    for _ in 0..ROWS {
        let row = any_row(&mut rng);
        let (told, numbers) = odd_text(&mut rng, &row);
        let lines = text::parse(&told).unwrap_or_default();
        let records: Vec<Record> = lines.iter().map(|line| line.record).collect();
        let found: Vec<usize> = lines.iter().map(|line| line.number).collect();
        read += usize::from(records == row && records::to_bytes(&records) == row_bytes(&row));
        placed += usize::from(found == numbers);
        let canonical = text::print(&row);
        let again = text::parse(canonical.as_bytes()).unwrap_or_default();
        let again: Vec<Record> = again.iter().map(|line| line.record).collect();
        fixed += usize::from(again == row && text::print(&again) == canonical);
        shifted += usize::from(numbers.last().is_some_and(|last| *last > row.len()));
    }
    report.test(&format!("texts from a seed: {read} of {ROWS} give the records drawn"), read == ROWS);
    report.test(
        &format!("texts from a seed: {placed} of {ROWS} have each record in its line"),
        placed == ROWS,
    );
    report.test(&format!("texts from a seed: {fixed} of {ROWS} have a canonical text"), fixed == ROWS);
    report.test(&format!("count: texts with lines that tell no record: {shifted}"), shifted >= 500);
}

/// A row cut inside its last record, or with a byte of no kind behind it, breaks at that offset.
fn broken_rows(report: &mut Report) {
    let mut rng = Rng(SEED + 2);
    let (mut found, mut cut) = (0, 0);
    for _ in 0..BROKEN_ROWS {
        let mut row = any_row(&mut rng);
        let mut bytes = row_bytes(&row);
        let last = row.pop().map_or(0, |record| row_bytes(&[record]).len());
        let expected = if last > 1 && rng.percent(60) {
            cut += 1;
            let at = bytes.len() - last;
            bytes.truncate(at + 1 + rng.below(last - 1));
            let (kind, there) = (bytes[at], bytes.len() - at - 1);
            Broken::Short { at, kind, needed: last - 1, there }
        } else {
            let (at, kind) = (bytes.len(), rng.pick(&[0, 5, 6, 255]));
            bytes.extend([kind, 1, 2, 3]);
            Broken::Kind { at, kind }
        };
        found += usize::from(records::from_bytes(&bytes) == Err(expected));
    }
    report.test(
        &format!("broken rows: {found} of {BROKEN_ROWS} found at their offset"),
        found == BROKEN_ROWS,
    );
    report.test(&format!("count: rows cut short: {cut}"), cut >= 300);
}

pub fn all(report: &mut Report, place: &Place) {
    by_hand(report, place);
    broken_by_hand(report, place);
    rows_and_back(report);
    texts_and_back(report);
    broken_rows(report);
}
