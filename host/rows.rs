//! Compares the two exported functions of librows.a with `rows_model.rs` on paths from a fixed seed,
//! requires that every kind of outcome was met, holds the run over a row of hops to the built program
//! qspath, and runs cases by hand.
//!
//!   rows PROGRAM
//!
//! The last line is `N passed, M failed`; the exit status is 0 only if M is 0.

// Some of these two is used by the tests of the gateway's functions alone.
#[allow(dead_code)]
mod model;
#[allow(dead_code)]
mod packets;
mod report;
mod rows_calls;
mod rows_draw;
mod rows_forms;
mod rows_hand;
mod rows_kinds;
mod rows_model;
mod yard;

use packets::Rng;
use report::{hex, Report};
use rows_calls::{Memory, Seen};
use rows_draw::FAMILIES;
use rows_model::{joined, number, Hop, Said, Trip};
use std::collections::{BTreeSet, HashMap};
use yard::Spot;

const SEED: u64 = 0x5153_524F_5753_0007;
const PATHS_PER_FAMILY: usize = 40_000;
const CUT_PATHS: usize = 20_000;
const LEAST_COUNT: u64 = 50;
const SHOWN_MISMATCHES: usize = 10;

/// The two functions.
const FUNCTIONS: [&str; 2] = ["run", "summary"];

/// Compares, shows the first mismatches, counts kinds, and keeps the numbers that each function returned.
struct Comparison {
    memory: Memory,
    shown: usize,
    counts: HashMap<(usize, &'static str), u64>,
    returned: [BTreeSet<u32>; 2],
}

impl Comparison {
    fn count(&mut self, function: usize, kind: &'static str) {
        *self.counts.entry((function, kind)).or_insert(0) += 1;
    }

    /// Whether there is room to show one more mismatch.
    fn shows(&mut self) -> bool {
        self.shown += 1;
        self.shown <= SHOWN_MISMATCHES
    }

    /// The run by the exported function and by the model: whether they agree.
    fn runs_agree(&mut self, trip: &Trip, spot: Spot) -> bool {
        let (said, after) = rows_model::run(trip);
        let seen = self.memory.run(trip, spot);
        self.returned[0].insert(seen.number);
        let same = seen.number == number(said) && seen.after == after && seen.else_unchanged;
        if !same && self.shows() {
            show_run(trip, spot, said, &after, &seen);
        }
        for kind in rows_kinds::run(trip, said, &after) {
            self.count(0, kind);
        }
        match spot {
            Spot::Middle(offset) if offset % 2 == 1 => self.count(0, "packet at an odd address"),
            Spot::Middle(_) => {}
            Spot::End => self.count(0, "packet and row up to pages that must not be touched"),
        }
        same
    }

    /// The summary by the exported function and by the model, in room for so many numbers.
    fn summaries_agree(&mut self, row: &[Hop], numbers: &[u32], spot: Spot) -> bool {
        let said = rows_model::summary(row);
        // a buffer of another length gives 7, and a refused call writes nothing
        let expected = match said {
            Ok(three) if numbers.len() == 3 => (0, three.to_vec()),
            _ => (7, numbers.to_vec()),
        };
        let seen = self.memory.summary(row, numbers, spot);
        self.returned[1].insert(seen.number);
        let same = seen.number == expected.0 && seen.after == expected.1 && seen.else_unchanged;
        if !same && self.shows() {
            println!("mismatch: summary at {spot:?} of {} hops: {row:?}", row.len());
            println!("  model {expected:?}; library {} {:?}", seen.number, seen.after);
        }
        for kind in rows_kinds::summary(row, numbers.len(), said) {
            self.count(1, kind);
        }
        same
    }
}

fn show_run(trip: &Trip, spot: Spot, said: Said, after: &[u8], seen: &Seen<Vec<u8>>) {
    println!("mismatch: run at {spot:?}, {} bytes lent, {} hops", trip.packet.len(), trip.row.len());
    println!("  packet    {}", hex(&trip.packet));
    println!("  {:?}, receiver's ceiling {}, row {:?}", trip.open, trip.receiver, trip.row);
    println!("  model answers {}, {said:?}", number(said));
    println!("    packet  {}", hex(after));
    println!("  library answers {}", seen.number);
    println!("    packet  {}", hex(&seen.after));
    if !seen.else_unchanged {
        println!("  the row, or a byte before or behind a buffer, was changed");
    }
}

fn compare_families(report: &mut Report) -> Comparison {
    let mut rng = Rng(SEED);
    let returned = [BTreeSet::new(), BTreeSet::new()];
    let mut all = Comparison { memory: Memory::new(), shown: 0, counts: HashMap::new(), returned };
    for (family, name) in FAMILIES {
        let mut differ = [0u64; 2];
        for _ in 0..PATHS_PER_FAMILY {
            let trip = rows_draw::draw(&mut rng, family);
            let spot = if rng.percent(50) { Spot::Middle(rng.index(17)) } else { Spot::End };
            let room = if rng.percent(4) { rng.pick(&[0, 1, 2, 4, 5, 8]) } else { 3 };
            let numbers: Vec<u32> = (0..room).map(|_| rng.next() as u32).collect();
            differ[0] += u64::from(!all.runs_agree(&trip, spot));
            differ[1] += u64::from(!all.summaries_agree(&trip.row, &numbers, spot));
        }
        for (function, differ) in FUNCTIONS.iter().zip(differ) {
            report.test(&format!("{function}: {PATHS_PER_FAMILY} of {name}, {differ} differ"), differ == 0);
        }
    }
    all
}

/// Each kind that must be met is a test of its own; so is that a function returned no number but those.
fn require_counts(report: &mut Report, all: &Comparison) {
    for (function, names) in [rows_kinds::RUN, rows_kinds::SUMMARY].into_iter().enumerate() {
        for name in names {
            let count = all.counts.get(&(function, *name)).copied().unwrap_or(0);
            let test = format!("count: {}: {name}: {count}", FUNCTIONS[function]);
            report.test(&test, count >= LEAST_COUNT);
        }
        let strange = |number: &&u32| !names.contains(&format!("returns {number}").as_str());
        let found: Vec<&u32> = all.returned[function].iter().filter(strange).collect();
        report.test(&format!("{}: other result numbers: {found:?}", FUNCTIONS[function]), found.is_empty());
    }
}

/// Cutting and reordering change nothing, as the functions themselves say: the run along the second part
/// from the packet that the first part leaves, the summaries of two parts joined, and the run along the
/// same hops in another order. The model has no part in this but the rule for joining.
fn cut_and_reordered(report: &mut Report) {
    let mut rng = Rng(SEED + 1);
    let mut memory = Memory::new();
    let (mut runs, mut summaries, mut orders) = (0, 0, 0);
    for _ in 0..CUT_PATHS {
        let whole = rows_draw::sent(&mut rng);
        let ran = memory.run(&whole, Spot::End);
        let (front, back) = whole.row.split_at(rng.index(whole.row.len() + 1));
        let first = memory.run(&Trip { row: front.to_vec(), ..whole.clone() }, Spot::End);
        let second = match first.number {
            42 => first,
            _ => memory.run(&Trip { packet: first.after, row: back.to_vec(), ..whole.clone() }, Spot::End),
        };
        runs += u64::from((second.number, &second.after) != (ran.number, &ran.after));

        let mut three = |row: &[Hop]| {
            let seen = memory.summary(row, &[99; 3], Spot::End);
            (seen.number == 0).then(|| [seen.after[0], seen.after[1], seen.after[2]])
        };
        let parts = three(front).zip(three(back)).map(|(one, other)| joined(one, other));
        summaries += u64::from(parts.is_none() || parts != three(&whole.row));

        let mut other = whole.clone();
        for at in (1..other.row.len()).rev() {
            other.row.swap(at, rng.index(at + 1));
        }
        orders += u64::from(memory.run(&other, Spot::End).number != ran.number);
    }
    let what = format!("{CUT_PATHS} paths");
    report.test(&format!("cut: {what} run in two parts, {runs} differ"), runs == 0);
    report.test(&format!("cut: {what} summed up in two parts, {summaries} differ"), summaries == 0);
    report.test(&format!("reordered: {what}, {orders} differ"), orders == 0);
}

fn main() {
    let mut report = Report::new();
    let Some(program) = std::env::args_os().nth(1) else {
        report.test("usage: rows PROGRAM", false);
        report.finish();
    };
    rows_hand::cases(&mut report);
    let all = compare_families(&mut report);
    require_counts(&mut report, &all);
    cut_and_reordered(&mut report);
    rows_forms::compare(&program, &mut report);
    report.finish();
}
