//! A request's way along a path, hop by hop: what the proved router functions leave of it after each
//! router, what the receiver answers, and what the sender compares.

use crate::packet::{self, Packet, Response, View};
use crate::program::Answer;
use crate::records::Record;
use crate::text::Line;

#[derive(Clone, Copy, PartialEq, Eq, Debug)]
pub enum Node {
    Sender,
    Router(u8),
    Silent,
    Receiver(u8),
}

/// What happened at a node, told from the packet before and after it.
#[derive(Clone, Copy, PartialEq, Eq, Debug)]
pub enum Event {
    Sent,
    PassedOn,
    /// Passed on with rate 0: an earlier router denied the request.
    NoRateLeft,
    /// The rate before and after.
    Lowered(u8, u8),
    Denied,
    NotTouched,
    Lost,
    NotReached,
    Answered(Response),
    Unanswered,
}

/// One node, with the packet as it left a router or reached the receiver; nothing if it never got there.
/// At a router that loses the packet it is the packet as it came.
#[derive(Clone, Copy, PartialEq, Eq, Debug)]
pub struct Stop {
    pub line: usize,
    pub node: Node,
    pub event: Event,
    pub view: Option<View>,
}

/// What the sender compares when a response comes back.
#[derive(Clone, Copy, PartialEq, Eq, Debug)]
pub struct Comparison {
    pub asked: u8,
    pub stored_ttl_diff: u8,
    /// Both nonces modulo 4 to the reported rate.
    pub nonce_sent: u32,
    pub nonce_reported: u32,
    pub response: Response,
}

/// The sender, each router and the receiver, in this order.
#[derive(Clone, PartialEq, Eq, Debug)]
pub struct Journey {
    pub stops: Vec<Stop>,
    pub comparison: Option<Comparison>,
}

impl Comparison {
    pub fn new(sent: View, response: Response) -> Comparison {
        let fields = (1 << (2 * u32::from(response.rate))) - 1;
        Comparison {
            asked: sent.rate,
            stored_ttl_diff: sent.ttl_diff(),
            nonce_sent: sent.nonce & fields,
            nonce_reported: response.nonce & fields,
            response,
        }
    }

    pub fn rate_fits(&self) -> bool {
        (1..=self.asked).contains(&self.response.rate)
    }

    pub fn ttl_diff_agrees(&self) -> bool {
        self.response.ttl_diff == self.stored_ttl_diff
    }

    pub fn nonces_agree(&self) -> bool {
        self.nonce_reported == self.nonce_sent
    }

    /// The sender's answer, in the order of its refusals: 13, 14, 15.
    pub fn answer(&self) -> Answer {
        if !self.rate_fits() {
            Answer::Refused(13)
        } else if !self.ttl_diff_agrees() {
            Answer::Refused(14)
        } else if !self.nonces_agree() {
            Answer::Refused(15)
        } else {
            Answer::Rate(self.response.rate)
        }
    }
}

impl Journey {
    /// What comes of the request. The program's line must be the same.
    pub fn answer(&self) -> Answer {
        match self.comparison {
            Some(comparison) => comparison.answer(),
            None if self.stops.iter().any(|stop| stop.event == Event::Lost) => Answer::Lost,
            None => Answer::Unanswered,
        }
    }
}

fn router_event(before: View, after: View) -> Event {
    if before.rate == 0 {
        Event::NoRateLeft
    } else if after.rate == 0 {
        Event::Denied
    } else if after.rate != before.rate {
        Event::Lowered(before.rate, after.rate)
    } else {
        Event::PassedOn
    }
}

/// A packet of our own is refused for its IP TTL alone, so any other number is a fault of this tool or of
/// the library.
fn refused(number: u32, line: usize) -> String {
    format!("the library's function for line {line} refused the packet with {number}")
}

/// What the result number of a router that was not done means.
fn not_done(number: u32, line: usize) -> Result<Event, String> {
    match number {
        packet::TTL_EXPIRED => Ok(Event::Lost),
        _ => Err(refused(number, line)),
    }
}

fn node(record: &Record) -> Node {
    match record {
        Record::Request { .. } => Node::Sender,
        Record::Router { ceiling, .. } => Node::Router(*ceiling),
        Record::Silent => Node::Silent,
        Record::Receiver { ceiling } => Node::Receiver(*ceiling),
    }
}

/// The packet at the node of one line.
fn meet(packet: &mut Packet, line: &Line) -> Result<Stop, String> {
    let before = packet.view();
    let number = match line.record {
        Record::Router { ceiling, word } => packet.router(ceiling, word.nonce),
        Record::Silent => packet.silent_router(),
        Record::Receiver { ceiling } => return receive(packet, line, ceiling),
        Record::Request { .. } => return Err(format!("line {} is a second request", line.number)),
    };
    let event = match (number, line.record) {
        (packet::DONE, Record::Silent) => Event::NotTouched,
        (packet::DONE, _) => router_event(before, packet.view()),
        _ => not_done(number, line.number)?,
    };
    Ok(Stop { line: line.number, node: node(&line.record), event, view: Some(packet.view()) })
}

fn receive(packet: &Packet, line: &Line, ceiling: u8) -> Result<Stop, String> {
    let event = match packet.receiver(ceiling) {
        Ok(response) => Event::Answered(response),
        Err(packet::UNANSWERED) => Event::Unanswered,
        Err(number) => return Err(refused(number, line.number)),
    };
    Ok(Stop { line: line.number, node: node(&line.record), event, view: Some(packet.view()) })
}

/// A node behind the router that lost the packet.
fn not_reached(line: &Line) -> Stop {
    Stop { line: line.number, node: node(&line.record), event: Event::NotReached, view: None }
}

/// Sends the request of a good path along it.
pub fn travel(lines: &[Line]) -> Result<Journey, String> {
    let (first, rest) = lines.split_first().ok_or("there is no request to send")?;
    let Record::Request { rate, ttl, qs_ttl, word } = first.record else {
        return Err(format!("line {} is no request", first.number));
    };
    let sent = View { ip_ttl: ttl, qs_ttl, rate, nonce: word.nonce };
    let mut packet = Packet::new(sent);
    let mut stops = vec![Stop {
        line: first.number,
        node: Node::Sender,
        event: Event::Sent,
        view: Some(packet.view()),
    }];
    let mut lost = false;
    let mut comparison = None;
    for line in rest {
        let stop = if lost { not_reached(line) } else { meet(&mut packet, line)? };
        lost |= stop.event == Event::Lost;
        if let Event::Answered(response) = stop.event {
            comparison = Some(Comparison::new(sent, response));
        }
        stops.push(stop);
    }
    Ok(Journey { stops, comparison })
}
