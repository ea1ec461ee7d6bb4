//! Document 01's path written a second time: the summary of a row of hops, a summary's verdict, and the
//! run of a packet along the row. Router, silent router and receiver are those of `model.rs`; the row,
//! the order of the tests, the sender and the numbers of the answers are written here. A sentence in
//! quotation marks is document 01's.

use crate::model::{answer, Call, Done, Lent, Refusal};

/// "a row of hop records, each with its knowledge, ceiling and fresh nonce."
#[derive(Clone, Copy, PartialEq, Eq, Debug)]
pub struct Hop {
    pub knows: bool,
    pub ceiling: u32,
    pub fresh: u32,
}

/// The request that the sender has open.
#[derive(Clone, Copy, PartialEq, Eq, Debug)]
pub struct Open {
    pub code: u32,
    pub ttl_diff: u8,
    pub nonce: u32,
}

/// What is lent to a run.
#[derive(Clone, Debug)]
pub struct Trip {
    pub packet: Vec<u8>,
    pub row: Vec<Hop>,
    pub receiver: u32,
    pub open: Open,
}

/// "A verdict is lost (a router gave 6), unanswered, the sender's refusal, or accepted with a rate."
#[derive(Clone, Copy, PartialEq, Eq, Debug)]
pub enum Verdict {
    Lost,
    Unanswered,
    NotAccepted(u32),
    Accepted(u32),
}

/// What a call says: a verdict, or the number of the refusal.
pub type Said = Result<Verdict, u32>;

/// The number that the exported function returns.
pub fn number(said: Said) -> u32 {
    match said {
        Ok(Verdict::Lost) => 42,
        Ok(Verdict::Unanswered) => 40,
        Ok(Verdict::NotAccepted(refusal)) => 200 + refusal,
        Ok(Verdict::Accepted(rate)) => 100 + rate,
        Err(refusal) => refusal,
    }
}

/// "nonces below 2^30"
pub fn nonce_in_range(nonce: u32) -> bool {
    nonce < 1_073_741_824
}

/// "hop rows .. 0 to 64", "ceilings 0 to 15", "nonces below 2^30"; of a silent hop too.
pub fn row_in_range(row: &[Hop]) -> bool {
    row.len() <= 64 && row.iter().all(|hop| hop.ceiling <= 15 && nonce_in_range(hop.fresh))
}

/// "the number of routers, the number of silent ones and the least ceiling of those that know (15 if
/// none)", or 7.
pub fn summary(row: &[Hop]) -> Result<[u32; 3], u32> {
    if !row_in_range(row) {
        return Err(7);
    }
    let knowing: Vec<u32> = row.iter().filter(|hop| hop.knows).map(|hop| hop.ceiling).collect();
    let silent = row.len() - knowing.len();
    Ok([row.len() as u32, silent as u32, knowing.into_iter().min().unwrap_or(15)])
}

/// "Joining adds the numbers and takes the lesser ceiling."
pub fn joined(one: [u32; 3], other: [u32; 3]) -> [u32; 3] {
    [one[0] + other[0], one[1] + other[1], one[2].min(other[2])]
}

/// "A summary's verdict is, in this order: lost when the starting TTL is at most its routers;
/// unanswered when the least of the code asked, its ceiling and the receiver's is 0; 14 when a router
/// is silent; accepted at that least."
pub fn verdict_of([routers, silent, ceiling]: [u32; 3], ttl: u8, code: u32, receiver: u32) -> Verdict {
    let least = code.min(ceiling).min(receiver);
    if u32::from(ttl) <= routers {
        Verdict::Lost
    } else if least == 0 {
        Verdict::Unanswered
    } else if silent > 0 {
        Verdict::NotAccepted(14)
    } else {
        Verdict::Accepted(least)
    }
}

/// Everything that is tested before a byte changes: 7 for row, receiver's ceiling and open request, then
/// what a receiver tests of the packet as lent: 1, 2, 3 and 5 as met, and 4.
fn refusal(trip: &Trip, lent: &Lent) -> Option<u32> {
    let Open { code, nonce, .. } = trip.open;
    let numbers = trip.receiver <= 15 && (1..=15).contains(&code) && nonce_in_range(nonce);
    if !row_in_range(&trip.row) || !numbers {
        return Some(7);
    }
    answer(Call::Receiver { ceiling: 15 }, lent).said.err().map(|refusal| refusal as u32)
}

/// "the response call with its bytes": "accepted exactly when the rate is 1 to the code asked, TTL Diff
/// is the stored one, and both nonces agree modulo 4 to that rate", else 13, 14, 15 in this order.
fn judged(open: Open, response: &[u8]) -> Verdict {
    assert!(response[..2] == [27, 8], "no response");
    let rate = u32::from(response[2] % 16);
    let word = response[4..8].iter().fold(0u64, |word, byte| word * 256 + u64::from(*byte));
    let (came, sent) = (word / 4, u64::from(open.nonce));
    if rate == 0 || rate > open.code {
        Verdict::NotAccepted(13)
    } else if response[3] != open.ttl_diff {
        Verdict::NotAccepted(14)
    } else if came % 4u64.pow(rate) != sent % 4u64.pow(rate) {
        Verdict::NotAccepted(15)
    } else {
        Verdict::Accepted(rate)
    }
}

/// A run, and the packet after it: "each hop's router or silent router on the packet as the last one
/// left it, a 6 ending the run; then the receiver; if it answers, the response call".
pub fn run(trip: &Trip) -> (Said, Vec<u8>) {
    let mut lent = Lent { packet: trip.packet.clone(), response: vec![0; 8], row: vec![], tick: 0 };
    if let Some(refusal) = refusal(trip, &lent) {
        return (Err(refusal), lent.packet);
    }
    for hop in &trip.row {
        let call = match hop.knows {
            true => Call::Router { ceiling: hop.ceiling, fresh: hop.fresh },
            false => Call::SilentRouter,
        };
        let passed = answer(call, &lent);
        match passed.said {
            Ok(_) => lent = passed.after,
            Err(Refusal::TtlExpired) => return (Ok(Verdict::Lost), lent.packet),
            Err(other) => panic!("a router gave {other:?}"),
        }
    }
    let arrived = answer(Call::Receiver { ceiling: trip.receiver }, &lent);
    let verdict = match arrived.said {
        Ok(Done::Unanswered { .. }) => Verdict::Unanswered,
        Ok(_) => judged(trip.open, &arrived.after.response),
        Err(other) => panic!("the receiver gave {other:?}"),
    };
    (Ok(verdict), lent.packet)
}
