//! The rate along a path as an SVG: a step line of the rate code from hop to hop.

use crate::journey::{Event, Journey, Node, Stop};
use crate::picture::rate_left;
use crate::program::Answer;
use crate::table::rate_name;

const LEFT: usize = 170;
const RIGHT: usize = 110;
const TOP: usize = 98;
const BELOW: usize = 128;
const CODE_HEIGHT: usize = 20;
const TOP_CODE: usize = 15;
const BASE: usize = TOP + TOP_CODE * CODE_HEIGHT;
const HEIGHT: usize = BASE + BELOW;
/// The plot is about this wide, unless its hops need more.
const PLOT_WIDTH: usize = 620;
const LEAST_HOP_WIDTH: usize = 14;
/// Hops so wide have their words written beside them.
const HOP_WIDTH_FOR_WORDS: usize = 68;

const INK: &str = "#1b3a57";
const RED: &str = "#b3261e";
const GREY: &str = "#8a8f98";
const PALE: &str = "#e3e6ea";

/// Where things stand: the nodes are evenly spaced, the sender at the left, the receiver at the right.
struct Frame {
    nodes: usize,
    hop_width: usize,
}

impl Frame {
    fn new(nodes: usize) -> Frame {
        let gaps = nodes.saturating_sub(1).max(1);
        Frame { nodes, hop_width: (PLOT_WIDTH / gaps).max(LEAST_HOP_WIDTH) }
    }

    fn x(&self, node: usize) -> usize {
        LEFT + node * self.hop_width
    }

    fn end(&self) -> usize {
        self.x(self.nodes.saturating_sub(1))
    }

    fn words(&self) -> bool {
        self.hop_width >= HOP_WIDTH_FOR_WORDS
    }
}

fn y(code: u8) -> usize {
    BASE - usize::from(code) * CODE_HEIGHT
}

/// A text; every word of ours is free of letters that XML would read as its own.
fn label(x: usize, y: usize, anchor: &str, size: usize, colour: &str, words: &str) -> String {
    format!(
        "<text x=\"{x}\" y=\"{y}\" text-anchor=\"{anchor}\" font-size=\"{size}\" fill=\"{colour}\">{words}</text>\n"
    )
}

fn stroke(path: &str, colour: &str, width: usize) -> String {
    format!("<path d=\"{path}\" fill=\"none\" stroke=\"{colour}\" stroke-width=\"{width}\"/>\n")
}

/// The codes and rates at the left, a pale line for each.
fn codes(frame: &Frame) -> String {
    let mut drawn = String::new();
    for code in 0..=TOP_CODE as u8 {
        let at = y(code);
        drawn += &stroke(&format!("M{} {at}H{}", LEFT - 6, frame.end() + 6), PALE, 1);
        drawn += &label(LEFT - 12, at + 4, "end", 11, INK, &format!("{}, code {code}", rate_name(code)));
    }
    drawn + &label(16, TOP - 18, "start", 12, INK, "rate and rate code")
}

/// The nodes' names below: a number for each hop, or for every fifth where they stand close together.
fn names(frame: &Frame, journey: &Journey) -> String {
    let mut drawn = String::new();
    for (hop, stop) in journey.stops.iter().enumerate() {
        let x = frame.x(hop);
        let colour = if stop.event == Event::NotReached { GREY } else { INK };
        let (row, name) = match stop.node {
            Node::Sender => (38, "sender".to_string()),
            Node::Receiver(_) => (38, "receiver".to_string()),
            Node::Router(_) | Node::Silent => (22, hop.to_string()),
        };
        if row == 38 || frame.hop_width >= 22 || hop % 5 == 0 {
            drawn += &label(x, BASE + row, "middle", 11, colour, &name);
        }
        if frame.words() {
            drawn += &label(x, BASE + 54, "middle", 10, GREY, &format!("line {}", stop.line));
        }
    }
    drawn + &label(LEFT - 12, BASE + 22, "end", 12, INK, "hop")
}

/// A short grey bar at the ceiling of each router that knows Quick-Start, and of the receiver.
fn ceilings(frame: &Frame, journey: &Journey) -> String {
    let half = (frame.hop_width / 3).min(16);
    let mut drawn = String::new();
    for (hop, stop) in journey.stops.iter().enumerate() {
        if let Node::Router(ceiling) | Node::Receiver(ceiling) = stop.node {
            let (x, at) = (frame.x(hop), y(ceiling));
            drawn += &stroke(&format!("M{} {at}H{}", x - half, x + half), GREY, 3);
        }
    }
    drawn
}

/// The step line, up to the receiver or to the router that lost the packet.
fn steps(frame: &Frame, journey: &Journey) -> String {
    let mut path = String::new();
    for (hop, stop) in journey.stops.iter().enumerate() {
        let x = frame.x(hop);
        match (hop, rate_left(stop)) {
            (0, Some(rate)) => path += &format!("M{x} {}", y(rate)),
            (_, Some(rate)) => path += &format!("H{x}V{}", y(rate)),
            (_, None) => {
                path += &format!("H{x}");
                break;
            }
        }
    }
    stroke(&path, INK, 2)
}

fn cross(x: usize, y: usize) -> String {
    let (left, right, up, down) = (x - 6, x + 6, y - 6, y + 6);
    stroke(&format!("M{left} {up}L{right} {down}M{left} {down}L{right} {up}"), RED, 3)
}

fn circle(x: usize, y: usize, radius: usize, fill: &str, colour: &str) -> String {
    format!(
        "<circle cx=\"{x}\" cy=\"{y}\" r=\"{radius}\" fill=\"{fill}\" stroke=\"{colour}\" stroke-width=\"2\"/>\n"
    )
}

fn square(x: usize, y: usize, colour: &str) -> String {
    let (left, up) = (x - 6, y - 6);
    format!("<rect x=\"{left}\" y=\"{up}\" width=\"12\" height=\"12\" fill=\"{colour}\"/>\n")
}

fn diamond(x: usize, y: usize) -> String {
    let (up, down, left, right) = (y - 7, y + 7, x - 7, x + 7);
    format!("<path d=\"M{x} {up}L{right} {y}L{x} {down}L{left} {y}Z\" fill=\"{INK}\"/>\n")
}

/// The words beside a mark.
fn words(stop: &Stop) -> String {
    match stop.event {
        Event::Lowered(from, to) => format!("{from} to {to}"),
        Event::Denied => "denied".to_string(),
        Event::NotTouched => "silent".to_string(),
        Event::Lost => "lost".to_string(),
        Event::Answered(response) => format!("reports {}", response.rate),
        Event::Unanswered => "unanswered".to_string(),
        _ => String::new(),
    }
}

/// The mark of a node at the rate that it leaves; of a lost packet at the rate that it had.
fn mark(frame: &Frame, hop: usize, stop: &Stop) -> String {
    let Some(view) = stop.view else {
        return String::new();
    };
    let (x, at) = (frame.x(hop), y(rate_left(stop).unwrap_or(view.rate)));
    let (drawn, colour) = match stop.event {
        Event::Sent => (diamond(x, at), INK),
        Event::NotTouched => (circle(x, at, 6, "white", RED), RED),
        Event::Denied | Event::Lost => (cross(x, at), RED),
        Event::Unanswered => (square(x, at, RED), RED),
        Event::Answered(_) => (square(x, at, INK), INK),
        _ => (circle(x, at, 4, INK, INK), INK),
    };
    let said = words(stop);
    let shown = frame.words() || matches!(stop.node, Node::Receiver(_));
    if said.is_empty() || !shown {
        return drawn;
    }
    drawn + &label(x + 10, at - 7, "start", 11, colour, &said)
}

/// What the marks mean, in one row.
fn legend() -> String {
    let at = HEIGHT - 28;
    let mut drawn = String::new();
    let mut x = 30;
    let entries = [
        (diamond(x, at), 80, "sender"),
        (circle(x + 80, at, 4, INK, INK), 80, "router"),
        (circle(x + 160, at, 6, "white", RED), 110, "silent router"),
        (cross(x + 270, at), 160, "denied, or packet lost"),
        (square(x + 430, at, INK), 90, "receiver"),
        (stroke(&format!("M{} {at}H{}", x + 514, x + 530), GREY, 3), 80, "ceiling"),
    ];
    for (drawing, width, words) in entries {
        drawn += &drawing;
        let beside = if words == "ceiling" { x + 18 } else { x + 12 };
        drawn += &label(beside, at + 4, "start", 11, INK, words);
        x += width;
    }
    drawn
}

/// The picture. Its title is the line that the program writes.
pub fn svg(journey: &Journey, answer: Answer) -> String {
    let frame = Frame::new(journey.stops.len());
    let width = frame.end() + RIGHT;
    let routers = journey.stops.len().saturating_sub(2);
    let asked = journey.stops[0].view.map_or(0, |view| view.rate);
    let about = format!("request for code {asked}, {}; routers: {routers}", rate_name(asked));
    let marks = journey.stops.iter().enumerate().map(|(hop, stop)| mark(&frame, hop, stop));
    [
        format!("<svg xmlns=\"http://www.w3.org/2000/svg\" width=\"{width}\" height=\"{HEIGHT}\" "),
        format!("viewBox=\"0 0 {width} {HEIGHT}\" font-family=\"sans-serif\" role=\"img\">\n"),
        format!("<title>{answer}</title>\n"),
        format!("<rect width=\"{width}\" height=\"{HEIGHT}\" fill=\"white\"/>\n"),
        label(16, 30, "start", 20, INK, &answer.to_string()),
        label(16, 50, "start", 12, GREY, &about),
        codes(&frame),
        ceilings(&frame, journey),
        names(&frame, journey),
        steps(&frame, journey),
        marks.collect(),
        legend(),
        "</svg>\n".to_string(),
    ]
    .concat()
}
