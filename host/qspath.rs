//! Runs the built program `qspath` on inputs by pipe, and compares what it writes with document 01's
//! rules for records, verdicts and the line, written here a second time.
//!
//!   qspath PROGRAM
//!
//! Every run must write the line and its newline and nothing else, nothing on standard error, and
//! end with status 0. An input comes in one piece or in many, down to one byte for each write.
//!
//! The last line is `N passed, M failed`; the exit status is 0 only if M is 0.

use std::ffi::{OsStr, OsString};
use std::fmt;
use std::io::{ErrorKind, Write};
use std::process::{ChildStdin, Command, Stdio};
use std::thread;
use std::time::Duration;

const SEED: u64 = 0x5153_5041_5448_0001;
const RANDOM_INPUTS: usize = 200;
const LEAST_COUNT: usize = 10;
const SHOWN_MISMATCHES: usize = 10;
const MEBIBYTE: usize = 1 << 20;

// The format and the verdict, from document 01. A sentence in quotation marks is document 01's.

/// What the program says.
#[derive(Clone, Copy, PartialEq, Debug)]
enum Line {
    Rate(u8),
    Lost,
    Unanswered,
    Refused(u8),
    Bad(usize),
}

impl fmt::Display for Line {
    fn fmt(&self, f: &mut fmt::Formatter) -> fmt::Result {
        match self {
            Line::Rate(code) => write!(f, "rate {code}"),
            Line::Lost => write!(f, "lost"),
            Line::Unanswered => write!(f, "unanswered"),
            Line::Refused(number) => write!(f, "none {number}"),
            Line::Bad(at) => write!(f, "bad {at}"),
        }
    }
}

/// What may stand next in an input.
#[derive(Clone, Copy, PartialEq)]
enum Awaited {
    Request,
    HopOrReceiver,
    End,
}

/// A run as its records tell it. A hop that knows is its ceiling; a silent one is nothing.
#[derive(Default)]
struct Run {
    code: u8,
    ip_ttl: u8,
    hops: Vec<Option<u8>>,
    receiver: u8,
}

impl Run {
    /// Takes one whole record, and tells what may follow; nothing if the record breaks the format.
    /// "One run is a 1, up to 64 of 2 and 3, and a 4, then end of input. A code is 1 to 15, a ceiling
    /// at most 15, and IP TTL is not 0."
    fn take(&mut self, awaited: Awaited, kind: u8, body: &[u8]) -> Option<Awaited> {
        match (awaited, kind) {
            (Awaited::Request, 1) if (1..=15).contains(&body[0]) && body[1] != 0 => {
                (self.code, self.ip_ttl) = (body[0], body[1]);
                Some(Awaited::HopOrReceiver)
            }
            (Awaited::HopOrReceiver, 2) if self.hops.len() < 64 && body[0] <= 15 => {
                self.hops.push(Some(body[0]));
                Some(Awaited::HopOrReceiver)
            }
            (Awaited::HopOrReceiver, 3) if self.hops.len() < 64 => {
                self.hops.push(None);
                Some(Awaited::HopOrReceiver)
            }
            (Awaited::HopOrReceiver, 4) if body[0] <= 15 => {
                self.receiver = body[0];
                Some(Awaited::End)
            }
            _ => None,
        }
    }

    /// "Lost when the starting TTL is at most its routers; unanswered when the least of the code
    /// asked, its ceiling and the receiver's is 0; 14 when a router is silent; accepted at that least."
    fn verdict(&self) -> Line {
        let ceilings = self.hops.iter().flatten().copied();
        let least = ceilings.chain([self.code, self.receiver]).min().unwrap_or(0);
        if usize::from(self.ip_ttl) <= self.hops.len() {
            Line::Lost
        } else if least == 0 {
            Line::Unanswered
        } else if self.hops.contains(&None) {
            Line::Refused(14)
        } else {
            Line::Rate(least)
        }
    }
}

/// The kind and body of the record that bytes start with, and the bytes behind it; nothing if it is cut
/// short or of no kind.
fn record(bytes: &[u8]) -> Option<(u8, &[u8], &[u8])> {
    let (kind, behind) = bytes.split_first()?;
    let length = match kind {
        1 => 7,
        2 => 5,
        3 => 0,
        4 => 1,
        _ => return None,
    };
    if behind.len() < length {
        return None;
    }
    let (body, behind) = behind.split_at(length);
    Some((*kind, body, behind))
}

/// "Before all these, `bad AT`, the offset of the first record that breaks this; a record cut short
/// counts at its kind byte, a missing record at the length."
fn read(input: &[u8]) -> Result<Run, usize> {
    let mut run = Run::default();
    let mut awaited = Awaited::Request;
    let mut rest = input;
    while !(rest.is_empty() && awaited == Awaited::End) {
        let at = input.len() - rest.len();
        let (kind, body, behind) = record(rest).ok_or(at)?;
        awaited = run.take(awaited, kind, body).ok_or(at)?;
        rest = behind;
    }
    Ok(run)
}

fn expected(input: &[u8]) -> Line {
    read(input).map_or_else(Line::Bad, |run| run.verdict())
}

// Running the program.

/// How an input is written to the program.
#[derive(Clone, Copy)]
enum Pieces {
    Whole,
    /// Pieces of so many bytes, with a pause of so many microseconds before each.
    Of(usize, u64),
}

impl fmt::Display for Pieces {
    fn fmt(&self, f: &mut fmt::Formatter) -> fmt::Result {
        match self {
            Pieces::Whole => write!(f, "one piece"),
            Pieces::Of(size, _) => write!(f, "pieces of {size}"),
        }
    }
}

struct Tests {
    program: OsString,
    passed: u64,
    failed: u64,
    shown: usize,
}

fn hex(bytes: &[u8]) -> String {
    let shown: Vec<String> = bytes.iter().take(48).map(|byte| format!("{byte:02X}")).collect();
    let more = if bytes.len() > 48 { format!(" .. ({} bytes)", bytes.len()) } else { String::new() };
    shown.join(" ") + &more
}

fn feed(mut stdin: ChildStdin, input: &[u8], pieces: Pieces) -> std::io::Result<()> {
    let Pieces::Of(size, pause) = pieces else {
        return stdin.write_all(input);
    };
    for piece in input.chunks(size) {
        thread::sleep(Duration::from_micros(pause));
        stdin.write_all(piece)?;
        stdin.flush()?;
    }
    // the end of the input comes alone as well
    thread::sleep(Duration::from_micros(pause));
    Ok(())
}

/// One run: what is wrong with it, if anything. The program may stop reading once its line is settled,
/// so a pipe that it closed is no fault.
fn fault(program: &OsStr, input: &[u8], pieces: Pieces, line: Line) -> Option<String> {
    let child = Command::new(program)
        .stdin(Stdio::piped())
        .stdout(Stdio::piped())
        .stderr(Stdio::piped())
        .spawn();
    let mut child = match child {
        Ok(child) => child,
        Err(error) => return Some(format!("not started: {error}")),
    };
    let stdin = child.stdin.take()?;
    let (fed, ended) = thread::scope(|scope| {
        let feeder = scope.spawn(move || feed(stdin, input, pieces));
        let ended = child.wait_with_output();
        (feeder.join(), ended)
    });
    match fed {
        Ok(Ok(())) => {}
        Ok(Err(error)) if error.kind() == ErrorKind::BrokenPipe => {}
        Ok(Err(error)) => return Some(format!("not fed: {error}")),
        Err(_) => return Some("not fed".to_string()),
    }
    judged(ended, line)
}

/// What is wrong with how a run ended.
fn judged(ended: std::io::Result<std::process::Output>, line: Line) -> Option<String> {
    let output = match ended {
        Ok(output) => output,
        Err(error) => return Some(format!("no output: {error}")),
    };
    if output.stdout != format!("{line}\n").into_bytes() {
        return Some(format!("wrote {:?}", String::from_utf8_lossy(&output.stdout)));
    }
    if !output.stderr.is_empty() {
        return Some(format!("said {:?}", String::from_utf8_lossy(&output.stderr)));
    }
    if output.status.code() != Some(0) {
        return Some(format!("ended with {}", output.status));
    }
    None
}

impl Tests {
    fn test(&mut self, name: &str, holds: bool) {
        println!("{} {name}", if holds { "ok    " } else { "FAILED" });
        if holds {
            self.passed += 1;
        } else {
            self.failed += 1;
        }
    }

    /// Whether the program says this line on this input; the first mismatches are shown.
    fn says(&mut self, input: &[u8], pieces: Pieces, line: Line) -> bool {
        let found = fault(&self.program, input, pieces, line);
        if let Some(what) = &found {
            if self.shown < SHOWN_MISMATCHES {
                self.shown += 1;
                println!("mismatch: {} in {pieces}", hex(input));
                println!("  expected {line}; the program {what}");
            }
        }
        found.is_none()
    }
}

// Cases by hand.

const WHOLE_CASE: &str = "01 05 40 80 00 00 00 00 02 03 FF FF FF FC 04 0F";

/// Inputs and their lines, each worked out from document 01 by hand.
const TABLE: [(&str, &str, &str); 34] = [
    ("document 01's whole case", WHOLE_CASE, "rate 3"),
    ("no router", "01 05 40 80 00 00 00 00 04 0F", "rate 5"),
    ("a rate of two digits", "01 0F 40 80 00 00 00 00 02 0E FF FF FF FC 04 0A", "rate 10"),
    ("lowered twice", "01 0F 40 80 12 34 56 78 02 09 FF FF FF FC 02 02 00 00 00 00 04 0F", "rate 2"),
    ("a ceiling above the code", "01 03 40 80 00 00 00 00 02 0F FF FF FF FC 04 0F", "rate 3"),
    ("reserved bits", "01 05 40 80 00 00 00 03 02 01 FF FF FF FF 04 0F", "rate 1"),
    ("QS TTL passes 0", "01 05 40 01 00 00 00 00 02 0F 00 00 00 00 02 0F 00 00 00 00 04 0F", "rate 5"),
    ("QS TTL ends at 0", "01 05 40 01 00 00 00 00 02 0F 00 00 00 00 04 0F", "rate 5"),
    ("QS TTL above IP TTL", "01 05 02 FF 00 00 00 00 02 04 00 00 00 00 04 0F", "rate 4"),
    ("IP TTL 1, no router", "01 05 01 80 00 00 00 00 04 0F", "rate 5"),
    ("IP TTL 1, one router", "01 05 01 80 00 00 00 00 02 0F 00 00 00 00 04 0F", "lost"),
    ("IP TTL 2, a silent router and another", "01 05 02 80 00 00 00 00 03 02 00 00 00 00 00 04 0F", "lost"),
    ("router's ceiling 0", "01 05 40 80 00 00 00 00 02 00 FF FF FF FC 04 0F", "unanswered"),
    ("receiver's ceiling 0", "01 05 40 80 00 00 00 00 04 00", "unanswered"),
    ("silent and denied", "01 05 40 80 00 00 00 00 03 02 00 FF FF FF FC 04 0F", "unanswered"),
    ("a silent router", "01 05 40 80 00 00 00 00 03 04 0F", "none 14"),
    ("a silent router behind another", "01 05 40 80 00 00 00 00 02 03 FF FF FF FC 03 04 0F", "none 14"),
    ("empty", "", "bad 0"),
    ("a kind alone", "01", "bad 0"),
    ("request without its last byte", "01 05 40 80 00 00 00", "bad 0"),
    ("a receiver first", "04 0F", "bad 0"),
    ("code 0", "01 00 40 80 00 00 00 00 04 0F", "bad 0"),
    ("code 16", "01 10 40 80 00 00 00 00 04 0F", "bad 0"),
    ("IP TTL 0", "01 05 00 80 00 00 00 00 04 0F", "bad 0"),
    ("a request alone", "01 05 40 80 00 00 00 00", "bad 8"),
    ("a second request", "01 05 40 80 00 00 00 00 01 05 40 80 00 00 00 00 04 0F", "bad 8"),
    ("router without its last byte", "01 05 40 80 00 00 00 00 02 03 FF FF FF", "bad 8"),
    ("router's ceiling 16", "01 05 40 80 00 00 00 00 02 10 FF FF FF FC 04 0F", "bad 8"),
    ("kind 5", "01 05 40 80 00 00 00 00 02 03 FF FF FF FC 05 0F", "bad 14"),
    ("no receiver", "01 05 40 80 00 00 00 00 02 03 FF FF FF FC", "bad 14"),
    ("receiver without its ceiling", "01 05 40 80 00 00 00 00 02 03 FF FF FF FC 04", "bad 14"),
    ("receiver's ceiling 16", "01 05 40 80 00 00 00 00 03 04 10", "bad 9"),
    ("a byte behind the receiver", "01 05 40 80 00 00 00 00 04 0F 0A", "bad 10"),
    ("lost, and a byte behind", "01 05 01 80 00 00 00 00 03 04 0F 00", "bad 11"),
];

fn bytes(text: &str) -> Vec<u8> {
    text.split_whitespace().map(|pair| u8::from_str_radix(pair, 16).expect("two digits")).collect()
}

/// The whole case as document 01 has it, without the rules above.
fn whole_case(tests: &mut Tests) {
    let input = bytes(WHOLE_CASE);
    let line = Line::Rate(3);
    let holds = tests.says(&input, Pieces::Whole, line);
    tests.test("document 01's whole case, in one piece", holds);
    let holds = tests.says(&input, Pieces::Of(1, 5_000), line);
    tests.test("document 01's whole case, byte by byte, with long pauses", holds);
}

fn table(tests: &mut Tests) {
    for (name, input, line) in TABLE {
        let input = bytes(input);
        let rules = expected(&input);
        tests.test(&format!("{name}: {line} by the rules"), rules.to_string() == line);
        let holds = tests.says(&input, Pieces::Whole, rules);
        tests.test(&format!("{name}: in one piece"), holds);
        let holds = tests.says(&input, Pieces::Of(1, 500), rules);
        tests.test(&format!("{name}: byte by byte"), holds);
    }
}

fn empty(tests: &mut Tests) {
    let ended = Command::new(&tests.program).stdin(Stdio::null()).output();
    let found = judged(ended, Line::Bad(0));
    if let Some(what) = &found {
        println!("mismatch: no input at all: the program {what}");
    }
    tests.test("no input at all", found.is_none());
}

/// Paths of 64 and 65 hops, whose runs are the longest; also in pieces that cut through records.
fn long_paths(tests: &mut Tests) {
    let request = bytes("01 0F FF 20 FF FF FF FF");
    let knows = bytes("02 0F FF FF FF FF");
    let receiver = bytes("04 0F");
    let path = |hops: &[u8]| [&request[..], hops, &receiver].concat();
    let mixed: Vec<u8> = [&knows[..], &[3]].concat().repeat(32);
    let cases = [
        ("64 routers", path(&knows.repeat(64)), "rate 15"),
        ("64 routers and a byte more", [path(&knows.repeat(64)), vec![0]].concat(), "bad 394"),
        ("64 routers, no receiver", [&request[..], &knows.repeat(64)].concat(), "bad 392"),
        ("65 routers", path(&knows.repeat(65)), "bad 392"),
        ("64 silent routers", path(&[3; 64]), "none 14"),
        ("65 silent routers", path(&[3; 65]), "bad 72"),
        ("64 in turn", path(&mixed), "none 14"),
        ("64 in turn and one more", path(&[&mixed[..], &[3]].concat()), "bad 232"),
    ];
    for (name, input, line) in cases {
        let rules = expected(&input);
        tests.test(&format!("{name}: {line} by the rules"), rules.to_string() == line);
        for pieces in [Pieces::Whole, Pieces::Of(1, 50), Pieces::Of(7, 200), Pieces::Of(64, 500)] {
            let holds = tests.says(&input, pieces, rules);
            tests.test(&format!("{name}: in {pieces}"), holds);
        }
    }
}

/// Far more input than a run can have.
fn mebibytes(tests: &mut Tests) {
    let run = bytes(WHOLE_CASE);
    let end = run.len();
    let long = |start: &[u8], byte: u8| {
        let mut input = start.to_vec();
        input.resize(MEBIBYTE, byte);
        input
    };
    let cases = [
        ("a run, then zeros", long(&run, 0), Line::Bad(end)),
        ("a run, then silent routers", long(&run, 3), Line::Bad(end)),
        ("a request, then silent routers", long(&run[..8], 3), Line::Bad(8 + 64)),
        ("a request, then routers", long(&run[..8], 2), Line::Bad(8 + 6 * 64)),
        ("runs again and again", run.repeat(MEBIBYTE / end), Line::Bad(end)),
        ("zeros", long(&[], 0), Line::Bad(0)),
        ("requests", long(&[], 1), Line::Bad(8)),
    ];
    for (name, input, line) in cases {
        tests.test(&format!("1 MiB, {name}: {line} by the rules"), expected(&input) == line);
        for pieces in [Pieces::Whole, Pieces::Of(5_000, 0)] {
            let holds = tests.says(&input, pieces, line);
            tests.test(&format!("1 MiB, {name}: in {pieces}"), holds);
        }
    }
}

// Inputs from a fixed seed.

struct Rng(u64);

impl Rng {
    fn next(&mut self) -> u64 {
        self.0 = self.0.wrapping_add(0x9E37_79B9_7F4A_7C15);
        let mut mixed = self.0;
        mixed = (mixed ^ (mixed >> 30)).wrapping_mul(0xBF58_476D_1CE4_E5B9);
        mixed = (mixed ^ (mixed >> 27)).wrapping_mul(0x94D0_49BB_1331_11EB);
        mixed ^ (mixed >> 31)
    }

    fn below(&mut self, bound: usize) -> usize {
        (self.next() % bound as u64) as usize
    }

    fn byte(&mut self) -> u8 {
        self.next() as u8
    }

    fn percent(&mut self, share: usize) -> bool {
        self.below(100) < share
    }

    fn pick<T: Copy>(&mut self, from: &[T]) -> T {
        from[self.below(from.len())]
    }
}

/// A good run: mostly few hops, an IP TTL near their number now and then, some silent, some denied.
fn good(rng: &mut Rng) -> Vec<u8> {
    let any = rng.below(65);
    let hops = rng.pick(&[0, 1, 2, 3, 5, 64, any]);
    let near = (hops + rng.below(3)).clamp(1, 255) as u8;
    let ip_ttl = if rng.percent(40) { near } else { rng.byte().max(1) };
    let mut input = vec![1, 1 + rng.below(15) as u8, ip_ttl, rng.byte()];
    input.extend(rng.next().to_be_bytes().iter().take(4));
    let silent = rng.pick(&[0, 0, 0, 10, 100]);
    let denied = rng.pick(&[0, 0, 30]);
    for _ in 0..hops {
        if rng.percent(silent) {
            input.push(3);
        } else {
            let ceiling = if rng.percent(denied) { 0 } else { 1 + rng.below(15) as u8 };
            input.extend([2, ceiling]);
            input.extend(rng.next().to_be_bytes().iter().take(4));
        }
    }
    let receiver = if rng.percent(8) { 0 } else { 1 + rng.below(15) as u8 };
    input.extend([4, receiver]);
    input
}

/// The same with a byte changed, put in or taken out, cut short, or with more behind it.
fn damaged(rng: &mut Rng) -> Vec<u8> {
    let mut input = good(rng);
    let at = rng.below(input.len());
    let any = rng.byte();
    let byte = rng.pick(&[0, 1, 2, 3, 4, 5, 16, 255, any]);
    match rng.below(6) {
        0 => input.truncate(at),
        1 => input[at] = byte,
        2 => input.insert(at, byte),
        3 => drop(input.remove(at)),
        4 => input.push(byte),
        _ => drop(input.splice(8..8, vec![3; 1 + rng.below(70)])),
    }
    input
}

/// Every kind of line must be met, so that the comparison is about all of them.
fn random_inputs(tests: &mut Tests) {
    let mut rng = Rng(SEED);
    let mut differ = [0; 2];
    let mut met = [0; 5];
    for number in 0..RANDOM_INPUTS {
        let input = if number % 5 < 3 { good(&mut rng) } else { damaged(&mut rng) };
        let line = expected(&input);
        let kind = match line {
            Line::Rate(_) => 0,
            Line::Lost => 1,
            Line::Unanswered => 2,
            Line::Refused(_) => 3,
            Line::Bad(_) => 4,
        };
        met[kind] += 1;
        let cut = Pieces::Of(1 + rng.below(9), 100);
        for (way, pieces) in [Pieces::Whole, cut].into_iter().enumerate() {
            differ[way] += usize::from(!tests.says(&input, pieces, line));
        }
    }
    let what = format!("{RANDOM_INPUTS} inputs from a seed");
    tests.test(&format!("{what}, in one piece: {} differ", differ[0]), differ[0] == 0);
    tests.test(&format!("{what}, in pieces: {} differ", differ[1]), differ[1] == 0);
    for (kind, count) in ["rate", "lost", "unanswered", "none", "bad"].iter().zip(met) {
        tests.test(&format!("count: {kind}: {count}"), count >= LEAST_COUNT);
    }
}

fn main() {
    let Some(program) = std::env::args_os().nth(1) else {
        println!("usage: qspath PROGRAM");
        println!("0 passed, 1 failed");
        std::process::exit(1);
    };
    let mut tests = Tests { program, passed: 0, failed: 0, shown: 0 };
    whole_case(&mut tests);
    empty(&mut tests);
    table(&mut tests);
    long_paths(&mut tests);
    mebibytes(&mut tests);
    random_inputs(&mut tests);
    println!("{} passed, {} failed", tests.passed, tests.failed);
    std::process::exit(if tests.failed == 0 && tests.passed > 0 { 0 } else { 1 });
}
