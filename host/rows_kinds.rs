//! Names for what happened in a run or a summary, so that the comparison can count each kind and require
//! it.

use crate::model::{answer, Call, Lent};
use crate::rows_model::{nonce_in_range, number, row_in_range, Hop, Said, Trip, Verdict};

/// What a run must meet.
pub const RUN: &[&str] = &[
    "returns 1",
    "returns 2",
    "returns 3",
    "returns 4",
    "returns 5",
    "returns 7",
    "returns 40",
    "returns 42",
    "returns 101",
    "returns 102",
    "returns 103",
    "returns 104",
    "returns 105",
    "returns 106",
    "returns 107",
    "returns 108",
    "returns 109",
    "returns 110",
    "returns 111",
    "returns 112",
    "returns 113",
    "returns 114",
    "returns 115",
    "returns 213",
    "returns 214",
    "returns 215",
    "accepted, no hop",
    "accepted, one hop",
    "accepted, 64 hops",
    "accepted, IP TTL one more than the hops",
    "accepted at the request's rate alone",
    "accepted at the first hop's ceiling alone",
    "accepted at a middle hop's ceiling alone",
    "accepted at the last hop's ceiling alone",
    "accepted at the receiver's ceiling alone",
    "accepted, the nonce changed on the way",
    "accepted, the nonces differ above the rate",
    "accepted, QS TTL passed 0",
    "accepted behind a silent hop",
    "unanswered: by the first hop alone",
    "unanswered: by a middle hop alone",
    "unanswered: by the last hop alone",
    "unanswered: by the receiver alone",
    "unanswered: rate 0 in the packet as lent",
    "unanswered, and a hop is silent",
    "lost at the first hop",
    "lost at a middle hop",
    "lost at the last hop",
    "lost at a silent hop",
    "lost, denied before",
    "lost, and a later hop would deny",
    "lost, and a hop is silent",
    "13 alone",
    "13, and TTL Diff wrong too",
    "14: the first hop alone silent",
    "14: a middle hop alone silent",
    "14: the last hop alone silent",
    "14: all hops silent",
    "14: no hop silent",
    "14, and the nonce wrong too",
    "15: the highest field that counts alone",
    "15: the lowest field alone",
    "15: the nonce changed on the way",
    "3 or 5, and no hop reads the options",
    "3, 4 or 5, and a hop would meet IP TTL 0 or 1",
    "7: 65 hops alone",
    "7: more hops alone",
    "7: a hop's ceiling alone",
    "7: a hop's nonce alone",
    "7: a silent hop's ceiling alone",
    "7: a silent hop's nonce alone",
    "7: the receiver's ceiling alone",
    "7: code 0 alone",
    "7: a code above 15 alone",
    "7: the sender's nonce alone",
    "7: several",
    "7, and the packet is faulty too",
    "7: the first of several hops",
    "7: a middle hop",
    "7: the last of several hops",
    "packet at an odd address",
    "packet and row up to pages that must not be touched",
];

/// What a summary must meet.
pub const SUMMARY: &[&str] = &[
    "returns 0",
    "returns 7",
    "no hop",
    "one hop",
    "64 hops",
    "65 hops",
    "more hops",
    "the first hop is the least alone",
    "a middle hop is the least alone",
    "the last hop is the least alone",
    "least ceiling 0",
    "a silent hop's ceiling is below the least",
    "all hops silent",
    "some hops silent",
    "a bad hop that knows",
    "a bad hop that is silent",
    "room for other than 3 numbers",
    "room for other than 3 numbers, and a bad row",
];

fn lent(packet: &[u8]) -> Lent {
    Lent { packet: packet.to_vec(), response: vec![0; 8], row: vec![], tick: 0 }
}

/// The rate, TTL Diff and nonce that a receiver with ceiling 15 would report; rate 0 if it would not.
fn reported(packet: &[u8]) -> (u32, u8, u32) {
    let bytes = answer(Call::Receiver { ceiling: 15 }, &lent(packet)).after.response;
    let word = u32::from_be_bytes([bytes[4], bytes[5], bytes[6], bytes[7]]);
    (u32::from(bytes[2]), bytes[3], word >> 2)
}

/// One of three names for a place in a row.
fn by_place(at: usize, hops: usize, names: [&'static str; 3]) -> &'static str {
    names[if at == 0 { 0 } else if at + 1 == hops { 2 } else { 1 }]
}

/// Where a test holds, if in one place alone.
fn alone(row: &[Hop], holds: impl Fn(&Hop) -> bool) -> Option<usize> {
    let mut places = (0..row.len()).filter(|at| holds(&row[*at]));
    places.next().filter(|_| places.next().is_none())
}

fn denies(hop: &Hop) -> bool {
    hop.knows && hop.ceiling == 0
}

fn bad(hop: &Hop) -> bool {
    hop.ceiling > 15 || !nonce_in_range(hop.fresh)
}

pub fn run(trip: &Trip, said: Said, after: &[u8]) -> Vec<&'static str> {
    let returned = format!("returns {}", number(said));
    let mut kinds = vec![*RUN.iter().find(|name| **name == returned).expect("a number of the list")];
    match said {
        Err(7) => out_of_range(trip, &mut kinds),
        Err(refusal) => faulty(trip, refusal, &mut kinds),
        Ok(Verdict::Lost) => lost(trip, &mut kinds),
        Ok(Verdict::Unanswered) => unanswered(trip, &mut kinds),
        Ok(Verdict::Accepted(rate)) => accepted(trip, rate, after, &mut kinds),
        Ok(Verdict::NotAccepted(refusal)) => not_accepted(trip, refusal, after, &mut kinds),
    }
    kinds
}

fn out_of_range(trip: &Trip, kinds: &mut Vec<&'static str>) {
    let (hops, open) = (trip.row.len(), trip.open);
    let mut reasons = Vec::new();
    if hops > 64 {
        reasons.push(if hops == 65 { "7: 65 hops alone" } else { "7: more hops alone" });
    }
    for (at, hop) in trip.row.iter().enumerate().filter(|(_, hop)| bad(hop)) {
        let names = match hop.knows {
            true => ["7: a hop's ceiling alone", "7: a hop's nonce alone"],
            false => ["7: a silent hop's ceiling alone", "7: a silent hop's nonce alone"],
        };
        reasons.extend((hop.ceiling > 15).then_some(names[0]));
        reasons.extend((!nonce_in_range(hop.fresh)).then_some(names[1]));
        if hops > 1 {
            let names = ["7: the first of several hops", "7: a middle hop", "7: the last of several hops"];
            kinds.push(by_place(at, hops, names));
        }
    }
    reasons.extend((trip.receiver > 15).then_some("7: the receiver's ceiling alone"));
    reasons.extend((open.code == 0).then_some("7: code 0 alone"));
    reasons.extend((open.code > 15).then_some("7: a code above 15 alone"));
    reasons.extend((!nonce_in_range(open.nonce)).then_some("7: the sender's nonce alone"));
    let faulty = answer(Call::Receiver { ceiling: 15 }, &lent(&trip.packet)).said.is_err();
    kinds.extend(faulty.then_some("7, and the packet is faulty too"));
    match (reasons.len(), faulty) {
        (1, false) => kinds.push(reasons[0]),
        (1, true) => {}
        _ => kinds.push("7: several"),
    }
}

fn faulty(trip: &Trip, refusal: u32, kinds: &mut Vec<&'static str>) {
    let options = matches!(refusal, 3 | 5);
    let unread = options && trip.row.iter().all(|hop| !hop.knows);
    kinds.extend(unread.then_some("3 or 5, and no hop reads the options"));
    let expires = (options || refusal == 4) && usize::from(trip.packet[8]) <= trip.row.len();
    kinds.extend(expires.then_some("3, 4 or 5, and a hop would meet IP TTL 0 or 1"));
}

fn lost(trip: &Trip, kinds: &mut Vec<&'static str>) {
    let row = &trip.row;
    let at = usize::from(trip.packet[8].saturating_sub(1));
    let names = ["lost at the first hop", "lost at a middle hop", "lost at the last hop"];
    kinds.push(by_place(at, row.len(), names));
    kinds.extend((!row[at].knows).then_some("lost at a silent hop"));
    kinds.extend(row[..at].iter().any(denies).then_some("lost, denied before"));
    let later = row[at..].iter().any(denies) && !row[..at].iter().any(denies);
    kinds.extend(later.then_some("lost, and a later hop would deny"));
    kinds.extend(row.iter().any(|hop| !hop.knows).then_some("lost, and a hop is silent"));
}

fn unanswered(trip: &Trip, kinds: &mut Vec<&'static str>) {
    let row = &trip.row;
    kinds.extend(row.iter().any(|hop| !hop.knows).then_some("unanswered, and a hop is silent"));
    if reported(&trip.packet).0 == 0 {
        kinds.push("unanswered: rate 0 in the packet as lent");
    } else if !row.iter().any(denies) {
        kinds.push("unanswered: by the receiver alone");
    } else if let Some(at) = alone(row, denies).filter(|_| trip.receiver > 0) {
        let names = [
            "unanswered: by the first hop alone",
            "unanswered: by a middle hop alone",
            "unanswered: by the last hop alone",
        ];
        kinds.push(by_place(at, row.len(), names));
    }
}

fn accepted(trip: &Trip, rate: u32, after: &[u8], kinds: &mut Vec<&'static str>) {
    let row = &trip.row;
    let (asked, _, sent) = reported(&trip.packet);
    let (_, _, came) = reported(after);
    match row.len() {
        0 => kinds.push("accepted, no hop"),
        1 => kinds.push("accepted, one hop"),
        64 => kinds.push("accepted, 64 hops"),
        _ => {}
    }
    let last_ttl = usize::from(trip.packet[8]) == row.len() + 1;
    kinds.extend(last_ttl.then_some("accepted, IP TTL one more than the hops"));
    let at_rate = |hop: &Hop| hop.knows && hop.ceiling == rate;
    let places: Vec<usize> = (0..row.len()).filter(|at| at_rate(&row[*at])).collect();
    match (asked == rate, &places[..], trip.receiver == rate) {
        (true, [], false) => kinds.push("accepted at the request's rate alone"),
        (false, [], true) => kinds.push("accepted at the receiver's ceiling alone"),
        (false, [at], false) => {
            let names = [
                "accepted at the first hop's ceiling alone",
                "accepted at a middle hop's ceiling alone",
                "accepted at the last hop's ceiling alone",
            ];
            kinds.push(by_place(*at, row.len(), names));
        }
        _ => {}
    }
    kinds.extend((sent != came).then_some("accepted, the nonce changed on the way"));
    kinds.extend((trip.open.nonce != came).then_some("accepted, the nonces differ above the rate"));
    let knowing = row.iter().filter(|hop| hop.knows).count();
    let qs_ttl = trip.packet[8].wrapping_sub(reported(&trip.packet).1);
    kinds.extend((usize::from(qs_ttl) < knowing).then_some("accepted, QS TTL passed 0"));
    kinds.extend((knowing < row.len()).then_some("accepted behind a silent hop"));
}

fn not_accepted(trip: &Trip, refusal: u32, after: &[u8], kinds: &mut Vec<&'static str>) {
    let row = &trip.row;
    let (left, ttl_diff, came) = reported(after);
    let rate = left.min(trip.receiver);
    let differ = (came ^ trip.open.nonce) % 4u32.pow(rate);
    let diff_wrong = ttl_diff != trip.open.ttl_diff;
    match refusal {
        13 if diff_wrong => kinds.push("13, and TTL Diff wrong too"),
        13 => kinds.push("13 alone"),
        14 => {
            let silent = row.iter().filter(|hop| !hop.knows).count();
            kinds.extend((silent == 0).then_some("14: no hop silent"));
            kinds.extend((silent > 0 && silent == row.len()).then_some("14: all hops silent"));
            if let Some(at) = alone(row, |hop| !hop.knows).filter(|_| row.len() > 1) {
                let names = [
                    "14: the first hop alone silent",
                    "14: a middle hop alone silent",
                    "14: the last hop alone silent",
                ];
                kinds.push(by_place(at, row.len(), names));
            }
            kinds.extend((differ != 0).then_some("14, and the nonce wrong too"));
        }
        _ => {
            let highest = differ % 4u32.pow(rate - 1) == 0 && rate > 1;
            kinds.extend(highest.then_some("15: the highest field that counts alone"));
            kinds.extend((differ < 4 && rate > 1).then_some("15: the lowest field alone"));
            let changed = reported(&trip.packet).2 != came;
            kinds.extend(changed.then_some("15: the nonce changed on the way"));
        }
    }
}

pub fn summary(row: &[Hop], room: usize, said: Result<[u32; 3], u32>) -> Vec<&'static str> {
    let good = room == 3 && said.is_ok();
    let mut kinds = vec![if good { "returns 0" } else { "returns 7" }];
    kinds.push(match row.len() {
        0 => "no hop",
        1 => "one hop",
        2..=63 => "hops between",
        64 => "64 hops",
        65 => "65 hops",
        _ => "more hops",
    });
    if room != 3 {
        kinds.push("room for other than 3 numbers");
        kinds.extend((!row_in_range(row)).then_some("room for other than 3 numbers, and a bad row"));
    }
    for hop in row.iter().filter(|hop| bad(hop)) {
        kinds.push(if hop.knows { "a bad hop that knows" } else { "a bad hop that is silent" });
    }
    let Ok([routers, silent, least]) = said else { return kinds };
    let names = [
        "the first hop is the least alone",
        "a middle hop is the least alone",
        "the last hop is the least alone",
    ];
    if let Some(at) = alone(row, |hop| hop.knows && hop.ceiling == least).filter(|_| row.len() > 1) {
        kinds.push(by_place(at, row.len(), names));
    }
    kinds.extend((least == 0).then_some("least ceiling 0"));
    let below = row.iter().any(|hop| !hop.knows && hop.ceiling < least);
    kinds.extend(below.then_some("a silent hop's ceiling is below the least"));
    kinds.extend((silent > 0 && silent == routers).then_some("all hops silent"));
    kinds.extend((silent > 0 && silent < routers).then_some("some hops silent"));
    kinds
}
