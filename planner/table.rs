//! The explanation of a path as a table, a row for each node, and what the sender compares.

use crate::journey::{Comparison, Event, Journey, Node, Stop};
use crate::packet::TTL_EXPIRED;
use crate::program::Answer;

const COLUMNS: usize = 11;
const HEAD: [[&str; COLUMNS]; 2] = [
    ["", "", "", "", "IP", "QS", "TTL", "", "", "", ""],
    ["hop", "line", "node", "ceiling", "TTL", "TTL", "Diff", "code", "rate", "nonce", "what happened"],
];
/// Columns of words stand to the left, those of numbers to the right.
const TO_THE_LEFT: [usize; 3] = [2, 9, 10];

/// A code's rate, 40,000 times 2 to the code bits a second, in three to five digits.
pub fn rate_name(code: u8) -> String {
    if code == 0 {
        return "no rate".to_string();
    }
    let bits = 40_000_u64 << code;
    let (unit, size) = match bits {
        0..=999_999 => return format!("{} kbit/s", bits / 1_000),
        1_000_000..=999_999_999 => ("Mbit/s", 1_000_000),
        _ => ("Gbit/s", 1_000_000_000),
    };
    format!("{}.{:02} {unit}", bits / size, bits % size * 100 / size)
}

fn nonce_name(nonce: u32) -> String {
    format!("0x{nonce:08X}")
}

/// The two-bit fields that a lowering replaced: one for each step, the highest first.
fn fields(from: u8, to: u8) -> String {
    let field = |code: u8| format!("{code}-{}", code - 1);
    match from - to {
        1 => format!("field {}", field(from)),
        2 => format!("fields {}, {}", field(from), field(to + 1)),
        _ => format!("fields {} down to {}", field(from), field(to + 1)),
    }
}

/// What a receiver did: it may lower the rate too, but only in what it reports.
fn answered(came: u8, reported: u8) -> String {
    if came > reported {
        format!("lowered {came} to {reported}; response sent")
    } else {
        "response sent".to_string()
    }
}

fn event_name(stop: &Stop) -> String {
    match stop.event {
        Event::Sent => "request sent".to_string(),
        Event::PassedOn => "passed on".to_string(),
        Event::NoRateLeft => "passed on, with no rate left to approve".to_string(),
        Event::Lowered(from, to) => format!("lowered {from} to {to}; fresh nonce {}", fields(from, to)),
        Event::Denied => "denied: rate, QS TTL and nonce set to 0".to_string(),
        Event::NotTouched => "silent: request not touched".to_string(),
        Event::Lost => {
            let ttl = stop.view.map_or(0, |view| view.ip_ttl);
            format!("lost: IP TTL {ttl}, refusal {TTL_EXPIRED}")
        }
        Event::NotReached => "not reached".to_string(),
        Event::Answered(response) => answered(stop.view.map_or(0, |view| view.rate), response.rate),
        Event::Unanswered => "unanswered: the rate to report is 0".to_string(),
    }
}

type Row = [String; COLUMNS];

/// The row of a node. Its numbers are those of the packet, but what the receiver reports is the response's.
/// Nobody reports a TTL Diff without a rate, so there is none in such a row.
fn row(hop: usize, stop: &Stop) -> Row {
    let none = || "-".to_string();
    let (hop, node, ceiling) = match stop.node {
        Node::Sender => (none(), "sender", none()),
        Node::Router(ceiling) => (hop.to_string(), "router", ceiling.to_string()),
        Node::Silent => (hop.to_string(), "silent", none()),
        Node::Receiver(ceiling) => (none(), "receiver", ceiling.to_string()),
    };
    let mut row = std::array::from_fn(|_| none());
    row[0] = hop;
    row[1] = stop.line.to_string();
    row[2] = node.to_string();
    row[3] = ceiling;
    if let Some(view) = stop.view {
        row[4] = view.ip_ttl.to_string();
        row[5] = view.qs_ttl.to_string();
        let (ttl_diff, rate, nonce) = match stop.event {
            Event::Answered(response) => (response.ttl_diff, response.rate, response.nonce),
            Event::Unanswered => (view.ttl_diff(), 0, view.nonce),
            _ => (view.ttl_diff(), view.rate, view.nonce),
        };
        if rate > 0 {
            row[6] = ttl_diff.to_string();
        }
        row[7] = rate.to_string();
        row[8] = rate_name(rate);
        row[9] = nonce_name(nonce);
    }
    row[10] = event_name(stop);
    row
}

/// The sender's row at the end: the response, and what it makes of it.
fn sender_row(journey: &Journey) -> Row {
    let mut row: Row = std::array::from_fn(|_| "-".to_string());
    row[1] = journey.stops[0].line.to_string();
    row[2] = "sender".to_string();
    row[10] = "no response comes".to_string();
    if let Some(Comparison { response, .. }) = journey.comparison {
        row[6] = response.ttl_diff.to_string();
        row[7] = response.rate.to_string();
        row[8] = rate_name(response.rate);
        row[9] = nonce_name(response.nonce);
        row[10] = match journey.answer() {
            Answer::Refused(number) => format!("response refused with {number}"),
            _ => "response accepted".to_string(),
        };
    }
    row
}

/// Rows below a head, with columns as wide as their widest cell.
fn lay_out(rows: &[Row]) -> String {
    let head = HEAD.map(|row| row.map(str::to_string));
    let all: Vec<&Row> = head.iter().chain(rows).collect();
    let width = |column: usize| all.iter().map(|row| row[column].len()).max().unwrap_or(0);
    let widths: Vec<usize> = (0..COLUMNS).map(width).collect();
    let mut text = String::new();
    for row in all {
        let cells = row.iter().zip(&widths).enumerate().map(|(column, (cell, width))| {
            if TO_THE_LEFT.contains(&column) {
                format!("{cell:<width$}")
            } else {
                format!("{cell:>width$}")
            }
        });
        text += cells.collect::<Vec<_>>().join("  ").trim_end();
        text += "\n";
    }
    text
}

/// What the sender compares, in the order in which it does, up to the first that fails.
fn compared(comparison: &Comparison) -> String {
    let Comparison { asked, stored_ttl_diff, nonce_sent, nonce_reported, response } = *comparison;
    let mut text = "The sender compares\n".to_string();
    let fits = if comparison.rate_fits() { "fits" } else { "does not fit" };
    text += &format!("  rate code: reported {}, asked {asked}: it {fits}\n", response.rate);
    if comparison.rate_fits() {
        let same = if comparison.ttl_diff_agrees() { "the same" } else { "not the same" };
        text +=
            &format!("  TTL Diff: reported {}, stored {stored_ttl_diff}: {same}\n", response.ttl_diff);
    }
    if comparison.rate_fits() && comparison.ttl_diff_agrees() {
        let same = if comparison.nonces_agree() { "the same" } else { "not the same" };
        let (reported, sent) = (nonce_name(nonce_reported), nonce_name(nonce_sent));
        text += &format!(
            "  nonce modulo 4 to the {}: reported {reported}, sent {sent}: {same}\n",
            response.rate
        );
    }
    text + &match comparison.answer() {
        Answer::Rate(code) => format!("and accepts code {code}, {}.\n", rate_name(code)),
        answer => format!("and refuses the response: {answer}.\n"),
    }
}

fn no_response(journey: &Journey) -> String {
    let line =
        |event: Event| journey.stops.iter().find(|stop| stop.event == event).map(|stop| stop.line);
    let why = match (line(Event::Lost), line(Event::Denied)) {
        (Some(line), _) => format!("the router of line {line} lost the packet"),
        (None, Some(line)) => format!("the router of line {line} denied the request"),
        (None, None) => "the receiver's ceiling is 0".to_string(),
    };
    format!("The sender gets no response: {why}.\n")
}

pub fn table(journey: &Journey) -> String {
    let mut rows: Vec<Row> =
        journey.stops.iter().enumerate().map(|(hop, stop)| row(hop, stop)).collect();
    rows.push(sender_row(journey));
    let end = journey.comparison.as_ref().map_or_else(|| no_response(journey), compared);
    format!("{}\n{end}", lay_out(&rows))
}
