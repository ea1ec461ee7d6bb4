//! Ledgers for the comparison: long histories that many packets share, and rows filled by hand.

use crate::model::rate_of;
use crate::packets::Rng;

/// A link's ledger and the present tick, as lent to one call.
#[derive(Clone)]
pub struct Link {
    pub row: Vec<u64>,
    pub tick: u64,
    pub allowance: u64,
    pub now: u64,
}

/// A link whose row is zeroed, with an allowance that some requests fill.
pub fn fresh_link(rng: &mut Rng) -> Link {
    let most = rng.pick(&[4, 9, 16, 64]);
    let slots = 1 + rng.index(most);
    let tick = rng.pick(&[0, 1, 1_000, u64::MAX - 2_000, 1 << 63]) + rng.below(1_000);
    Link { row: vec![0; slots], tick, allowance: allowance(rng), now: tick }
}

/// An allowance in its range: around a rate or a few of them, or an end of the range.
fn allowance(rng: &mut Rng) -> u64 {
    let rate = rate_of(1 + rng.below(15) as u32);
    match rng.below(12) {
        0 => 0,
        1 => 79_999,
        2 => 1 << 40,
        3 => rate - 1,
        4 | 5 => rate,
        6 => rate + rate_of(1 + rng.below(15) as u32),
        7 => rate * 2 + rng.below(rate),
        _ => rate * (1 + rng.below(12)) + rng.below(100_000),
    }
}

/// The next tick of a link: the same, a little later, much later or, now and then, back in time.
pub fn step(rng: &mut Rng, link: &mut Link) {
    let slots = link.row.len() as u64;
    let later = match rng.below(20) {
        0..=9 => 0,
        10..=14 => 1,
        15 | 16 => rng.below(slots + 1),
        17 => slots + rng.below(3),
        18 => rng.pick(&[2, slots, 100, 1 << 40]),
        _ => {
            let back = rng.pick(&[1, 2, slots, 1 << 33]);
            link.now = link.tick.saturating_sub(back);
            return;
        }
    };
    link.now = link.tick.saturating_add(later);
}

/// A row filled by hand, with numbers that no history leaves, and numbers outside their ranges.
pub fn by_hand(rng: &mut Rng) -> Link {
    let any_slots = 1 + rng.index(64);
    let slots = rng.pick(&[1, 2, 3, 64, 64, any_slots, any_slots, any_slots]);
    let any_tick = rng.next();
    let tick = rng.pick(&[0, 1, u64::MAX, any_tick, any_tick, any_tick >> 32]);
    let mut link = Link { row: vec![0; slots], tick, allowance: allowance(rng), now: tick };
    step(rng, &mut link);
    match rng.below(8) {
        0 => {}
        1 => spread(rng, &mut link.row, link.allowance),
        2 => spread(rng, &mut link.row, link.allowance + 1),
        3 => {
            let part = rng.below(link.allowance + 1);
            spread(rng, &mut link.row, part);
        }
        4 if slots >= 3 => {
            // document 01's rows may hold any number: this one sums to 2^64 + 5
            link.row[slots - 3..].copy_from_slice(&[1 << 63, 1 << 63, 5]);
        }
        4 | 5 => {
            // any numbers, and a last one that makes the sum wrap to at most the allowance
            let wrapped = rng.below(link.allowance + 1);
            let mut sum = 0u64;
            for slot in link.row.iter_mut().skip(1) {
                *slot = rng.next();
                sum = sum.wrapping_add(*slot);
            }
            link.row[0] = wrapped.wrapping_sub(sum);
        }
        6 => link.row.iter_mut().for_each(|slot| *slot = u64::MAX),
        _ => {
            let rate = rate_of(1 + rng.below(10) as u32);
            link.row.iter_mut().for_each(|slot| *slot = rng.below(3) * rate);
        }
    }
    match rng.below(40) {
        0 => link.row = Vec::new(),
        1 => {
            let slots = rng.pick(&[65, 66, 100, 256, 257]);
            link.row = vec![0; slots];
        }
        2 => link.allowance = rng.pick(&[(1 << 40) + 1, 1 << 41, 1 << 63, u64::MAX]),
        _ => {}
    }
    link
}

/// Numbers in a row that sum to `sum`.
fn spread(rng: &mut Rng, row: &mut [u64], sum: u64) {
    let mut left = sum;
    for _ in 0..4 {
        let at = rng.index(row.len());
        let part = rng.below(left + 1);
        row[at] += part;
        left -= part;
    }
    row[0] += left;
}
