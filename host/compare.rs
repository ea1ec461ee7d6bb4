//! Compares the five exported functions of libgateway.a with `model.rs` on packets from a fixed seed,
//! requires that every kind of outcome was met, and runs document 01's cases byte for byte.
//!
//! The last line is `N passed, M failed`; the exit status is 0 only if M is 0.

mod calls;
mod hand;
mod kinds;
mod ledgers;
mod model;
mod packets;
mod report;
mod runs;
mod yard;

use calls::{Memory, Seen};
use ledgers::Link;
use model::{answer, Answer, Call, Lent};
use packets::{Family, Rng, FAMILIES};
use report::{hex, Report};
use std::collections::HashMap;
use yard::Spot;

const SEED: u64 = 0x5153_4741_5445_0005;
const PACKETS_PER_FAMILY: usize = 50_000;
const LEAST_COUNT: u64 = 50;
const SHOWN_MISMATCHES: usize = 10;

/// The five functions, in the order of `five_calls`.
const FUNCTIONS: [&str; 5] = ["router", "router with a ledger", "silent router", "receiver", "marking"];

/// Compares, shows the first mismatches and counts kinds.
struct Comparison {
    memory: Memory,
    shown: usize,
    counts: HashMap<(usize, &'static str), u64>,
}

impl Comparison {
    /// One call, by the exported function and by the model. Answers whether they agree, and what the
    /// model says.
    fn agree(&mut self, function: usize, call: Call, before: &Lent, spot: Spot) -> (bool, Answer) {
        let expected = answer(call, before);
        let seen = self.memory.call(call, before, spot);
        let same = seen.number == expected.number()
            && seen.after == expected.after
            && seen.guards_stand;
        if !same && self.shown < SHOWN_MISMATCHES {
            self.shown += 1;
            show(call, before, spot, &expected, &seen);
        }
        for kind in kinds::kinds(call, before, &expected) {
            self.count(function, kind);
        }
        let start = match spot {
            Spot::Middle(offset) => offset,
            Spot::End => before.packet.len(),
        };
        self.count(function, if start % 2 == 1 { kinds::ODD } else { kinds::EVEN });
        if matches!(spot, Spot::End) {
            self.count(function, kinds::AT_THE_END);
        }
        (same, expected)
    }

    fn count(&mut self, function: usize, kind: &'static str) {
        *self.counts.entry((function, kind)).or_insert(0) += 1;
    }
}

fn show(call: Call, before: &Lent, spot: Spot, expected: &Answer, seen: &Seen) {
    println!("mismatch: {call:?} at {spot:?}, {} bytes lent", before.packet.len());
    println!("  packet    {}", hex(&before.packet));
    println!("  response  {}   tick {}   row {:?}", hex(&before.response), before.tick, before.row);
    let parts = [("model", expected.number(), &expected.after), ("library", seen.number, &seen.after)];
    for (who, number, after) in parts {
        println!("  {who} answers {number}");
        if after.packet != before.packet {
            println!("    packet    {}", hex(&after.packet));
        }
        if after.response != before.response {
            println!("    response  {}", hex(&after.response));
        }
        if (after.tick, &after.row) != (before.tick, &before.row) {
            println!("    tick {}   row {:?}", after.tick, after.row);
        }
    }
    if expected.said.is_ok() {
        println!("  the model's account: {:?}", expected.said);
    }
    if !seen.guards_stand {
        println!("  a byte before or behind a buffer was changed");
    }
}

/// A ceiling and a fresh nonce, now and then outside their ranges.
fn router_numbers(rng: &mut Rng) -> (u32, u32) {
    let any = rng.next() as u32;
    let ceiling = match rng.below(50) {
        0 => rng.pick(&[16, 17, 31, 255, 256, 259, 1 << 16, 1 << 31, u32::MAX]),
        1..=4 => 0,
        5..=9 => 15,
        _ => any % 16,
    };
    let nonce = rng.next() as u32;
    let fresh = match rng.below(50) {
        0 => rng.pick(&[1 << 30, (1 << 30) + 1, 1 << 31, u32::MAX, nonce | 1 << 30]),
        1..=4 => 0,
        5..=9 => (1 << 30) - 1,
        _ => nonce >> 2,
    };
    (ceiling, fresh)
}

/// The five calls on one packet. Answers which of them agreed.
fn five_calls(
    all: &mut Comparison,
    rng: &mut Rng,
    mut packet: Vec<u8>,
    tune: bool,
    shared: &mut Link,
) -> [bool; 5] {
    let (ceiling, fresh) = router_numbers(rng);
    let router = Call::Router { ceiling, fresh };
    if tune {
        let writer = rng.pick(&[router, Call::Mark]);
        tune_checksum(&mut packet, writer);
    }
    let use_shared = rng.percent(60);
    let link = if use_shared { shared.clone() } else { ledgers::by_hand(rng) };
    let room = if rng.percent(4) { rng.pick(&[0, 1, 7, 9, 16]) } else { 8 };
    let lent = Lent { packet, response: rng.bytes(room), row: link.row, tick: link.tick };
    let spot = if rng.percent(50) { Spot::Middle(rng.index(17)) } else { Spot::End };
    let ledger = Call::RouterLedger { ceiling, fresh, allowance: link.allowance, now: link.now };
    let calls = [router, ledger, Call::SilentRouter, Call::Receiver { ceiling }, Call::Mark];
    let mut agreed = [false; 5];
    for (function, call) in calls.into_iter().enumerate() {
        let (same, expected) = all.agree(function, call, &lent, spot);
        agreed[function] = same;
        if use_shared && function == 1 {
            if shared.row != expected.after.row && shared.row.iter().any(|slot| *slot > 0) {
                all.count(function, kinds::SHARED);
            }
            shared.row = expected.after.row;
            shared.tick = expected.after.tick;
        }
    }
    agreed
}

/// Makes 0000 the checksum that this call writes, by the identification field. An update from the old
/// checksum, without summing the header anew, would write FFFF there.
fn tune_checksum(packet: &mut [u8], writer: Call) {
    let lent = Lent { packet: packet.to_vec(), response: vec![], row: vec![], tick: 0 };
    let expected = answer(writer, &lent);
    if expected.said.is_ok() {
        let written = &expected.after.packet[10..12];
        packets::shift_checksum(packet, u16::from_be_bytes([written[0], written[1]]));
    }
}

fn compare_families(report: &mut Report) -> Comparison {
    let mut rng = Rng(SEED);
    let mut all = Comparison { memory: Memory::new(), shown: 0, counts: HashMap::new() };
    let mut shared = ledgers::fresh_link(&mut rng);
    for (family, name) in FAMILIES {
        let mut mismatches = [0u64; 5];
        for _ in 0..PACKETS_PER_FAMILY {
            if rng.below(150) == 0 {
                shared = ledgers::fresh_link(&mut rng);
            }
            ledgers::step(&mut rng, &mut shared);
            let packet = packets::draw(&mut rng, family);
            let tune = family == Family::Checksums && rng.percent(60);
            let agreed = five_calls(&mut all, &mut rng, packet, tune, &mut shared);
            for function in 0..5 {
                mismatches[function] += u64::from(!agreed[function]);
            }
        }
        for function in 0..5 {
            let what = format!("{}: {PACKETS_PER_FAMILY} of {name}", FUNCTIONS[function]);
            report.test(&format!("{what}, {} differ", mismatches[function]), mismatches[function] == 0);
        }
    }
    all
}

/// Each kind that must be met is a test of its own; so is that no result number but those was met.
fn require_counts(report: &mut Report, counts: &HashMap<(usize, &'static str), u64>) {
    let required = [
        kinds::ROUTER.to_vec(),
        [kinds::ROUTER, kinds::LEDGER].concat(),
        kinds::SILENT.to_vec(),
        kinds::RECEIVER.to_vec(),
        kinds::MARK.to_vec(),
    ];
    for (function, names) in required.iter().enumerate() {
        for name in names.iter().chain(&kinds::ALL) {
            let count = counts.get(&(function, *name)).copied().unwrap_or(0);
            let test = format!("count: {}: {name}: {count}", FUNCTIONS[function]);
            report.test(&test, count >= LEAST_COUNT);
        }
        let strange = counts.keys().find(|(f, name)| {
            *f == function && name.starts_with("returns") && !names.contains(name)
        });
        let test = format!("{}: no other result number", FUNCTIONS[function]);
        report.test(&test, strange.is_none());
    }
}

fn main() {
    let mut report = Report::new();
    hand::cases(&mut report);
    runs::allowance(&mut report);
    let all = compare_families(&mut report);
    require_counts(&mut report, &all.counts);
    report.finish();
}
