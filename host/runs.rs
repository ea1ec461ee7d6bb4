//! The allowance in the packets: over a run through one router with one zeroed ledger and one
//! allowance, the rates left in approved packets in any S ticks sum to at most the allowance.
//!
//! The model has no part in this. The packets are right requests with the option at byte 20, so that
//! the rate is read where it stands, and the sums are taken from a history of (tick, rate).

use crate::calls::Memory;
use crate::ledgers::{self, Link};
use crate::model::{rate_of, total, Call, Lent};
use crate::packets::{self, Rng};
use crate::report::Report;
use crate::yard::Spot;

const SEED: u64 = 0x4C45_4447_4552_0005;
const RUNS: usize = 400;
const PACKETS: usize = 300;
const LEAST_COUNT: u64 = 50;

/// What a run has met, to see that the claim was put to the test.
#[derive(Default)]
struct Met {
    approved: u64,
    lowered_by_ledger: u64,
    denied_by_ledger: u64,
    refused: u64,
    passed_on: u64,
    full_windows: u64,
}

fn request(rng: &mut Rng, rate: u8) -> Vec<u8> {
    let mut packet = vec![0x47, 0, 0, 28, 0, 0, 0, 0, 64, 6, 0, 0, 10, 0, 0, 1, 10, 0, 0, 2];
    packet.extend([25, 8, rate, rng.byte()]);
    packet.extend(rng.bytes(4));
    // now and then a packet that is refused or not asked about, which must leave no trace
    match rng.below(20) {
        0 => packet[8] = 1,
        1 => packet[22] |= 0x80,
        2 => packet[21] = 9,
        _ => {}
    }
    packets::seal(&mut packet);
    packet
}

/// The sum of the history's rates in the ticks from `first` on.
fn sum_since(history: &[(u64, u64)], first: u64) -> u128 {
    history.iter().filter(|(tick, _)| *tick >= first).map(|(_, rate)| u128::from(*rate)).sum()
}

/// One run: whether each window kept to the allowance, and each row was the sum of its history.
fn run(rng: &mut Rng, memory: &mut Memory, met: &mut Met) -> (bool, bool) {
    let mut link: Link = ledgers::fresh_link(rng);
    let slots = link.row.len() as u64;
    let allowance = u128::from(link.allowance);
    let (mut kept, mut summed) = (true, true);
    let mut history: Vec<(u64, u64)> = Vec::new();
    for _ in 0..PACKETS {
        ledgers::step(rng, &mut link);
        let (rate, ceiling) = (rng.below(16) as u8, rng.below(16) as u32);
        let packet = request(rng, rate);
        let asked = packet[22] < 16 && rate > 0 && ceiling > 0;
        let wanted = ceiling.min(u32::from(rate));
        let call = Call::RouterLedger { ceiling, fresh: 0, allowance: link.allowance, now: link.now };
        let lent = Lent { packet, response: vec![], row: link.row.clone(), tick: link.tick };
        let seen = memory.call(call, &lent, Spot::Middle(0));
        link.row = seen.after.row;
        link.tick = seen.after.tick;
        if seen.number != 0 {
            met.refused += 1;
        } else if !asked {
            met.passed_on += 1;
        } else {
            let left = u32::from(seen.after.packet[22] & 15);
            if left > 0 {
                history.push((link.now, rate_of(left)));
            }
            met.approved += u64::from(left > 0);
            met.denied_by_ledger += u64::from(left == 0);
            met.lowered_by_ledger += u64::from(left > 0 && left < wanted);
        }
        // ticks never go back among accepted calls, so the window that ends now is the fullest new one
        let first = link.tick.saturating_sub(slots - 1);
        let window = sum_since(&history, first);
        kept &= window <= allowance;
        summed &= window == total(&link.row);
        met.full_windows += u64::from(window > 0 && window + u128::from(rate_of(1)) > allowance);
    }
    (kept, summed)
}

pub fn allowance(report: &mut Report) {
    let mut rng = Rng(SEED);
    let mut memory = Memory::new();
    let mut met = Met::default();
    let (mut kept, mut summed) = (0, 0);
    for _ in 0..RUNS {
        let (kept_one, summed_one) = run(&mut rng, &mut memory, &mut met);
        kept += usize::from(kept_one);
        summed += usize::from(summed_one);
    }
    let of = format!("of {RUNS} runs of {PACKETS} packets");
    report.test(&format!("allowance: never passed in any S ticks, in {kept} {of}"), kept == RUNS);
    report.test(&format!("allowance: the row is the sum of its history, in {summed} {of}"), summed == RUNS);
    for (name, count) in [
        ("approved", met.approved),
        ("lowered by the ledger", met.lowered_by_ledger),
        ("denied by the ledger", met.denied_by_ledger),
        ("refused", met.refused),
        ("passed on without asking", met.passed_on),
        ("windows with no room for the least rate", met.full_windows),
    ] {
        report.test(&format!("allowance: count: {name}: {count}"), count >= LEAST_COUNT);
    }
}
