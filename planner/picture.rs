//! The rate along a path as bars of text.

use crate::journey::{Event, Journey, Node, Stop};
use crate::table::rate_name;

/// So many letters for each step of the rate code.
const STEP: usize = 3;
const TOP_CODE: usize = 15;

/// The rate that a node leaves; nothing if the packet did not leave it.
pub fn rate_left(stop: &Stop) -> Option<u8> {
    match stop.event {
        Event::Lost | Event::NotReached => None,
        Event::Answered(response) => Some(response.rate),
        Event::Unanswered => Some(0),
        _ => stop.view.map(|view| view.rate),
    }
}

fn mark(event: Event) -> &'static str {
    match event {
        Event::Sent => "asked for",
        Event::PassedOn | Event::NoRateLeft => "",
        Event::Lowered(..) => "lowered",
        Event::Denied => "DENIED",
        Event::NotTouched => "silent",
        Event::Lost => "LOST",
        Event::NotReached => "not reached",
        Event::Answered(_) => "reported",
        Event::Unanswered => "UNANSWERED",
    }
}

/// A bar of `#`; of `.` at a silent router, which approved nothing.
fn bar(hop: usize, stop: &Stop) -> String {
    let name = match stop.node {
        Node::Sender => "sender".to_string(),
        Node::Router(_) | Node::Silent => format!("hop {hop}"),
        Node::Receiver(_) => "receiver".to_string(),
    };
    let (code, bar, rate) = match rate_left(stop) {
        Some(code) => {
            let ink = if stop.node == Node::Silent { "." } else { "#" };
            (code.to_string(), ink.repeat(STEP * usize::from(code)), rate_name(code))
        }
        None => ("-".to_string(), String::new(), "-".to_string()),
    };
    let room = STEP * TOP_CODE;
    let line = format!("{name:<8}  {code:>2} |{bar:<room$}| {rate:>13}  {}", mark(stop.event));
    line.trim_end().to_string() + "\n"
}

/// The codes below the bars, each at the end of its bar.
fn axis() -> String {
    let codes: String = (1..=TOP_CODE).map(|code| format!("{code:>STEP$}")).collect();
    format!("{:<8}  {:>2}  {codes}\n", "code", "")
}

pub fn picture(journey: &Journey) -> String {
    let mut text = "The rate along the path, as each node leaves it\n".to_string();
    for (hop, stop) in journey.stops.iter().enumerate() {
        text += &bar(hop, stop);
    }
    text + &axis()
}
