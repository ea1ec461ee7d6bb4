//! The two forms of a path, which must say the same: the program qspath, fed the path's records by pipe,
//! and the run over a row of hops, from the packet that the sender would have sent. And the verdict that
//! document 01 reads off the three numbers of a summary.
//!
//! The model has no part in this but the rule for a summary's verdict.

use crate::packets::Rng;
use crate::report::{bytes, hex, Report};
use crate::rows_calls::Memory;
use crate::rows_draw::{self, Request};
use crate::rows_model::{number, verdict_of, Hop};
use crate::yard::Spot;
use std::ffi::OsStr;
use std::io::Write;
use std::process::{Command, Stdio};

const SEED: u64 = 0x464F_524D_5300_0007;
const PATHS: usize = 600;
const LEAST_COUNT: usize = 30;
const SHOWN_MISMATCHES: usize = 10;

/// The program's records: "1 request (code, IP TTL, QS TTL, word: 7 bytes); 2 router that knows (ceiling,
/// fresh word: 5); 3 silent router (0); 4 receiver (ceiling: 1)". A word is 30 bits of nonce above 2
/// reserved bits, which are ignored.
fn records(rng: &mut Rng, request: &Request, row: &[Hop]) -> Vec<u8> {
    let mut word = |nonce: u32| (nonce << 2 | rng.below(4) as u32).to_be_bytes();
    let mut input = vec![1, request.code, request.ip_ttl, request.qs_ttl];
    input.extend(word(request.nonce));
    for hop in row {
        if hop.knows {
            input.extend([2, hop.ceiling as u8]);
            input.extend(word(hop.fresh));
        } else {
            input.push(3);
        }
    }
    input.extend([4, request.receiver]);
    input
}

/// The program's line on an input, without its newline. An input is far shorter than a pipe is deep.
fn line(program: &OsStr, input: &[u8]) -> std::io::Result<String> {
    let mut child = Command::new(program).stdin(Stdio::piped()).stdout(Stdio::piped()).spawn()?;
    child.stdin.take().expect("a pipe").write_all(input)?;
    let output = child.wait_with_output()?;
    let text = String::from_utf8_lossy(&output.stdout).into_owned();
    Ok(text.strip_suffix('\n').map_or(format!("no line: {text:?}"), str::to_string))
}

/// "It writes one line: `rate N`, `lost`, `unanswered`, `none R` (sender's refusal)": the number that
/// the run over the row returns for each, and which of the four it is.
fn number_of(line: &str) -> Option<(u32, usize)> {
    let after = |word: &str| line.strip_prefix(word).and_then(|rest| rest.parse::<u32>().ok());
    match line {
        "lost" => Some((42, 1)),
        "unanswered" => Some((40, 2)),
        _ => after("rate ").map(|rate| (100 + rate, 0)).or(after("none ").map(|why| (200 + why, 3))),
    }
}

/// Document 01's whole case, the records and the packet both as document 01 has them.
fn whole_case(program: &OsStr, memory: &mut Memory, report: &mut Report) {
    let input = bytes("01 05 40 80 00 00 00 00 02 03 FF FF FF FC 04 0F");
    let said = line(program, &input).unwrap_or_else(|error| error.to_string());
    report.test(&format!("forms: document 01's whole case by the program: {said}"), said == "rate 3");
    let row = vec![Hop { knows: true, ceiling: 3, fresh: (1 << 30) - 1 }];
    let request = Request { ip_ttl: 64, qs_ttl: 128, code: 5, nonce: 0, receiver: 15 };
    let mut trip = rows_draw::trip(&mut Rng(0), &request, row);
    let header = "47 00 00 1C 00 00 00 00 40 06 46 52 0A 00 00 01 0A 00 00 02 19 08 05 80 00 00 00 00";
    trip.packet = bytes(header);
    let number = memory.run(&trip, Spot::End).number;
    report.test(&format!("forms: document 01's whole case over a row: {number}"), number == 103);
}

pub fn compare(program: &OsStr, report: &mut Report) {
    let mut rng = Rng(SEED);
    let mut memory = Memory::new();
    whole_case(program, &mut memory, report);
    let (mut by_program, mut by_summary, mut met) = (0, 0, [0; 4]);
    for _ in 0..PATHS {
        let row = rows_draw::row(&mut rng);
        let request = rows_draw::request(&mut rng, row.len());
        let input = records(&mut rng, &request, &row);
        let trip = rows_draw::trip(&mut rng, &request, row);
        let said = line(program, &input).unwrap_or_else(|error| error.to_string());
        let ran = memory.run(&trip, Spot::End).number;
        let summed = memory.summary(&trip.row, &[99; 3], Spot::End);
        let three = [summed.after[0], summed.after[1], summed.after[2]];
        let verdict = verdict_of(three, request.ip_ttl, trip.open.code, trip.receiver);
        let program_says = number_of(&said);
        let same = [program_says.map(|(number, _)| number) == Some(ran), number(Ok(verdict)) == ran];
        by_program += usize::from(!same[0]);
        by_summary += usize::from(!same[1] || summed.number != 0);
        if same != [true, true] && by_program.max(by_summary) <= SHOWN_MISMATCHES {
            println!("mismatch: records {}", hex(&input));
            println!("  program {said}; over the row {ran}; by the summary {three:?} {verdict:?}");
        }
        if let Some((_, kind)) = program_says {
            met[kind] += 1;
        }
    }
    let what = format!("forms: {PATHS} paths over a row");
    report.test(&format!("{what} and by the program, {by_program} differ"), by_program == 0);
    report.test(&format!("{what} and by the summary's numbers, {by_summary} differ"), by_summary == 0);
    for (kind, count) in ["rate", "lost", "unanswered", "none"].iter().zip(met) {
        report.test(&format!("forms: count: {kind}: {count}"), count >= LEAST_COUNT);
    }
}
