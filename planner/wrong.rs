//! What is wrong with a path, in plain words: the first record that breaks document 01's rules for a run.
//!
//! "One run is a 1, up to 64 of 2 and 3, and a 4, then end of input. A code is 1 to 15, a ceiling at most
//! 15, and IP TTL is not 0." The program decides whether a path is bad and where; this says why.

use crate::records::Record;
use crate::text::Line;

const MOST_ROUTERS: usize = 64;
const TOP_CODE: u8 = 15;

/// The first fault of a path.
#[derive(Clone, PartialEq, Eq, Debug)]
pub struct Wrong {
    /// Where the wrong record starts in the bytes, or their length if a record is missing there.
    pub at: usize,
    /// The wrong record's place among the lines, or the last one's if a record is missing behind it.
    pub index: Option<usize>,
    pub reason: String,
}

/// What stands in front of a record.
#[derive(Default)]
struct Before {
    routers: usize,
    receiver: Option<usize>,
}

fn name(record: &Record) -> &'static str {
    match record {
        Record::Request { .. } => "a request",
        Record::Router { .. } => "a router",
        Record::Silent => "a silent router",
        Record::Receiver { .. } => "the receiver",
    }
}

/// Why the path cannot start with its first record.
fn not_first(lines: &[Line]) -> String {
    let first = name(&lines[0].record);
    let request = lines.iter().find(|line| matches!(line.record, Record::Request { .. }));
    match request {
        Some(line) => {
            format!("the path starts with {first}; the request of line {} must come first", line.number)
        }
        None => format!("the path starts with {first}; the request, which must come first, is missing"),
    }
}

/// Why a record cannot stand behind the receiver, which is in the line of a number.
fn behind_receiver(record: &Record, number: usize) -> String {
    if matches!(record, Record::Receiver { .. }) {
        return format!("a second receiver; the path has one already, in line {number}");
    }
    format!("{} stands behind the receiver of line {number}, which ends the path", name(record))
}

/// What is wrong with the numbers of a record.
fn out_of_range(record: &Record) -> Option<String> {
    let ceiling_fault = |ceiling: u8| {
        (ceiling > TOP_CODE).then(|| format!("the ceiling is {ceiling}; a ceiling is 0 to {TOP_CODE}"))
    };
    match record {
        Record::Request { rate, ttl, .. } => {
            let mut faults = Vec::new();
            if *rate == 0 || *rate > TOP_CODE {
                faults.push(format!("the rate code asked for is {rate}; it must be 1 to {TOP_CODE}"));
            }
            if *ttl == 0 {
                faults.push("the IP TTL is 0; a packet starts with 1 to 255".to_string());
            }
            (!faults.is_empty()).then(|| faults.join("; and "))
        }
        Record::Router { ceiling, .. } | Record::Receiver { ceiling } => ceiling_fault(*ceiling),
        Record::Silent => None,
    }
}

/// What is wrong with the record at a place, if anything.
fn reason(lines: &[Line], index: usize, before: &Before) -> Option<String> {
    let record = &lines[index].record;
    let is_request = matches!(record, Record::Request { .. });
    let is_router = matches!(record, Record::Router { .. } | Record::Silent);
    if index == 0 && !is_request {
        return Some(not_first(lines));
    }
    if let Some(number) = before.receiver {
        return Some(behind_receiver(record, number));
    }
    if index > 0 && is_request {
        return Some(format!("a second request; the path has one already, in line {}", lines[0].number));
    }
    if is_router && before.routers == MOST_ROUTERS {
        return Some(format!("this is router {}; a path has at most {MOST_ROUTERS}", MOST_ROUTERS + 1));
    }
    out_of_range(record)
}

/// The first fault of a path; nothing if the path is good.
pub fn first(lines: &[Line]) -> Option<Wrong> {
    let mut before = Before::default();
    let mut at = 0;
    for (index, line) in lines.iter().enumerate() {
        if let Some(reason) = reason(lines, index, &before) {
            return Some(Wrong { at, index: Some(index), reason });
        }
        match line.record {
            Record::Router { .. } | Record::Silent => before.routers += 1,
            Record::Receiver { .. } => before.receiver = Some(line.number),
            Record::Request { .. } => {}
        }
        at += line.record.to_bytes().len();
    }
    let reason = match (lines.is_empty(), before.receiver) {
        (true, _) => "the path is empty: the request, which must come first, is missing",
        (false, None) => "the path ends after this line without a receiver",
        (false, Some(_)) => return None,
    };
    Some(Wrong { at, index: lines.len().checked_sub(1), reason: reason.to_string() })
}

/// The fault with the line that it is in: `NAME:LINE: REASON`, then the line's text.
pub fn explain(name: &str, lines: &[Line], wrong: &Wrong) -> String {
    match wrong.index {
        Some(index) => {
            let line = &lines[index];
            format!("{name}:{}: {}\n    {}\n", line.number, wrong.reason, line.text)
        }
        None => format!("{name}: {}\n", wrong.reason),
    }
}
