//! Texts that cannot be read, paths that are bad, and programs that do not agree with the tool.

use crate::commands::{self, Command, Outcome, FAULT, GOOD, WRONG};
use crate::records::Record;
use crate::report::Report;
use crate::tests_draw::{odd_text, record_bytes, slipped_path, Rng};
use crate::{script, Place};

const SEED: u64 = 0x504C_414E_0000_0002;
const PATHS: usize = 600;

/// Texts with an error, the line it is in, and words of the message.
const ERRORS: [(&str, usize, &str); 41] = [
    ("rooter", 1, "`rooter` is no kind of record; the kinds are request, router, silent, receiver"),
    ("Request", 1, "`Request` is no kind of record"),
    ("# a comment\n\n\tsilent\nsilence # here\nreceiver", 4, "`silence` is no kind of record"),
    ("rate=5", 1, "`rate=5` is no kind of record"),
    ("request rate", 1, "`rate` is not of the form key=number"),
    ("request rate = 5", 1, "`rate` is not of the form key=number"),
    ("request =5", 1, "`` is no key of `request`"),
    (
        "request ceiling=5",
        1,
        "`ceiling` is no key of `request`, which has rate, ttl, qs_ttl, nonce, reserved",
    ),
    ("silent\nrouter rate=5", 2, "`rate` is no key of `router`, which has ceiling, fresh, reserved"),
    ("silent ceiling=5", 1, "`ceiling` is no key of `silent`, which has no keys"),
    ("receiver fresh=5", 1, "`fresh` is no key of `receiver`, which has ceiling"),
    ("request rate=5 ttl=3 rate=5", 1, "`rate` is given twice"),
    ("receiver ceiling=15 ceiling=1", 1, "`ceiling` is given twice"),
    ("request rate=", 1, "rate= is not a number"),
    ("request rate=five", 1, "rate=five is not a number"),
    ("request rate=-1", 1, "rate=-1 is not a number"),
    ("request rate=+1", 1, "rate=+1 is not a number"),
    ("request rate=0x", 1, "rate=0x is not a number"),
    ("request rate=1F", 1, "rate=1F is not a number"),
    ("request rate=0X1F", 1, "rate=0X1F is not a number"),
    (
        "request rate=256",
        1,
        "rate=256 does not fit: rate is 1 to 15 in a good path, and at most 255 in any",
    ),
    (
        "\n\r\nrequest ttl=0x100",
        3,
        "ttl=0x100 does not fit: ttl is 1 to 255 in a good path, and at most 255 in any",
    ),
    (
        "silent\nrouter ceiling=300",
        2,
        "ceiling=300 does not fit: ceiling is 0 to 15 in a good path, and at most 255 in any",
    ),
    (
        "receiver ceiling=256",
        1,
        "ceiling=256 does not fit: ceiling is 0 to 15 in a good path, and at most 255 in any",
    ),
    ("request qs_ttl=256", 1, "qs_ttl=256 does not fit: qs_ttl is at most 255"),
    ("request nonce=0x40000000", 1, "nonce=0x40000000 does not fit: nonce is at most 1073741823"),
    ("router fresh=1073741824", 1, "fresh=1073741824 does not fit"),
    ("router reserved=4", 1, "reserved=4 does not fit: reserved is at most 3"),
    ("router fresh=99999999999999999999999999", 1, "does not fit: fresh is at most 1073741823"),
    (
        "request rate=5, ttl=3",
        1,
        "rate=5, is not a number: a number is decimal digits, or 0x and hexadecimal digits; \
         keys are separated by spaces",
    ),
    ("request rate=5;ttl=3", 1, "hexadecimal digits; keys are separated by spaces"),
    (
        "request rate=5 , ttl=3",
        1,
        "`,` is not of the form key=number, without spaces around `=`; keys are separated by spaces",
    ),
    (
        "receiver ,ceiling=3",
        1,
        "`,ceiling` is no key of `receiver`, which has ceiling; keys are separated by spaces",
    ),
    (
        "silent\nrouter; ceiling=3",
        2,
        "`router;` is no kind of record; the kinds are request, router, silent, receiver; \
         keys are separated by spaces",
    ),
    ("request rate=six # 5, or 6;", 1, "rate=six is not a number"),
    ("\u{FEFF}solent", 1, "`solent` is no kind of record"),
    ("silent\n\u{FEFF}silent", 2, "`\u{FEFF}silent` is no kind of record"),
    ("\u{1B}[31mrouter", 1, "`?[31mrouter` is no kind of record"),
    ("request \u{7F}", 1, "`?` is not of the form key=number"),
    ("request \u{9B}rate=5", 1, "`?rate` is no key of `request`"),
    ("receiver ceiling=\u{7}\u{8}5", 1, "ceiling=??5 is not a number"),
];

const SPACES: &str = "; keys are separated by spaces";
const RECORDS: &str = "qsplan: if these are records, use --text\n";

/// Bad paths: the offset, the line that is named (none for a path with no line), and words of the reason.
const BAD: [(&str, &str, usize, usize, &str); 23] = [
    (
        "rate code 0",
        "# 1\nrequest rate=0\nreceiver",
        0,
        2,
        "the rate code asked for is 0; it must be 1 to 15",
    ),
    ("rate code 16", "request rate=16\nreceiver", 0, 1, "the rate code asked for is 16"),
    ("rate code 255", "request rate=255\nreceiver", 0, 1, "the rate code asked for is 255"),
    ("IP TTL 0", "\n\nrequest ttl=0\nreceiver", 0, 3, "the IP TTL is 0"),
    (
        "both",
        "request ttl=0 rate=0\nreceiver",
        0,
        1,
        "asked for is 0; it must be 1 to 15; and the IP TTL is 0",
    ),
    ("a router's ceiling 16", "request\n# 2\nrouter ceiling=16\nreceiver", 8, 3, "the ceiling is 16"),
    (
        "a second router's ceiling",
        "request\nrouter\n\nrouter ceiling=99\nreceiver",
        14,
        4,
        "the ceiling is 99",
    ),
    (
        "behind a silent router",
        "request\nsilent\nrouter ceiling=99\nreceiver",
        9,
        3,
        "the ceiling is 99",
    ),
    ("a receiver's ceiling 16", "request\nsilent\n\nreceiver ceiling=16", 9, 4, "the ceiling is 16"),
    (
        "no request, a router first",
        "# 1\nrouter\nreceiver",
        0,
        2,
        "starts with a router; the request, which must come first, is missing",
    ),
    ("no request, a silent router first", "silent\nreceiver", 0, 1, "starts with a silent router"),
    ("no request, a receiver alone", "receiver", 0, 1, "starts with the receiver"),
    ("request not first", "router\n\nrequest\nreceiver", 0, 1, "the request of line 3 must come first"),
    (
        "a second request",
        "request\n#\nrequest\nreceiver",
        8,
        3,
        "a second request; the path has one already, in line 1",
    ),
    (
        "a second request behind a router",
        "# 1\nrequest\nrouter\nrequest\nreceiver",
        14,
        4,
        "a second request; the path has one already, in line 2",
    ),
    (
        "a router behind the receiver",
        "request\nreceiver\n#\nrouter",
        10,
        4,
        "a router stands behind the receiver of line 2",
    ),
    (
        "a silent router behind the receiver",
        "request\nreceiver\nsilent",
        10,
        3,
        "a silent router stands behind the receiver",
    ),
    (
        "a second receiver",
        "request\nsilent\nreceiver\nreceiver",
        11,
        4,
        "a second receiver; the path has one already, in line 3",
    ),
    (
        "a request behind the receiver",
        "request\nreceiver\nrequest",
        10,
        3,
        "a request stands behind the receiver",
    ),
    (
        "no receiver behind the request",
        "request\n# end\n",
        8,
        1,
        "the path ends after this line without a receiver",
    ),
    (
        "no receiver behind routers",
        "request\nrouter\n\nsilent\n\n",
        15,
        4,
        "the path ends after this line without a receiver",
    ),
    (
        "the first of two faults",
        "request\nrouter ceiling=16\nrouter ceiling=17",
        8,
        2,
        "the ceiling is 16",
    ),
    ("wrong and lost", "request ttl=1\nsilent\nrouter ceiling=16\nreceiver", 9, 3, "the ceiling is 16"),
];

fn text_errors(report: &mut Report, place: &Place) {
    for (told, line, message) in ERRORS {
        let outcome = commands::run(Command::Line, &place.program, "it", told.as_bytes());
        let said =
            outcome.stderr.starts_with(&format!("it:{line}: ")) && outcome.stderr.contains(message);
        let raw = |letter: char| letter.is_control() && letter != '\n';
        let clean = !outcome.stderr.contains(raw)
            && outcome.stderr.lines().count() == 1
            && outcome.stderr.contains(SPACES) == message.contains(SPACES);
        let holds = said && clean && silent_failure(&outcome, WRONG);
        if !holds {
            println!("  found {outcome:?}");
        }
        report.test(&format!("text error in line {line}: {message}"), holds);
    }
    let outcome = commands::run(
        Command::Records,
        &place.program,
        "it",
        b"x\nsilent\n\nsilent y # z\nrouter \xFF\n",
    );
    let lines: Vec<&str> = outcome.stderr.lines().map(|line| &line[..5]).collect();
    let holds = lines == ["it:1:", "it:4:", "it:5:", "qspla"] && silent_failure(&outcome, WRONG);
    report.test("text errors: every wrong line is named, one that is not UTF-8 too", holds);
    let outcome = commands::run(Command::Records, &place.program, "it", b"silent # \xFF\xFE\n");
    report.test("a comment may hold any bytes", outcome.stdout == [3] && outcome.status == GOOD);
}

/// What is said of texts with so many wrong lines: the first twenty, and how many more there are; and of one
/// long word, its front.
fn many_errors(report: &mut Report, place: &Place) {
    let outcome = commands::run(Command::Line, &place.program, "it", &[b'a'; 1_000]);
    let holds = outcome.stderr == format!("it:1: `{} ..\n", "a".repeat(299));
    report.test("text errors: a long word is cut off", holds);
    for (count, end) in [
        (20, ""),
        (21, "it: 1 more line cannot be read\n"),
        (22, "it: 2 more lines cannot be read\n"),
        (5_000, "it: 4980 more lines cannot be read\n"),
    ] {
        let told = "silent\nsilent x\n".repeat(count);
        let outcome = commands::run(Command::Line, &place.program, "it", told.as_bytes());
        let message = "`x` is not of the form key=number, without spaces around `=`";
        let named: String = (1..=20).map(|wrong| format!("it:{}: {message}\n", 2 * wrong)).collect();
        let holds = outcome.stderr == named + end && silent_failure(&outcome, WRONG);
        report.test(&format!("{count} wrong lines: twenty are named, the others counted"), holds);
    }
}

/// Bytes that are no text: said what to do if they are records, at the very end and only then.
fn records_as_text(report: &mut Report, place: &Place) {
    let whole_case = [1, 5, 0x40, 0x80, 0, 0, 0, 0, 2, 3, 0xFF, 0xFF, 0xFF, 0xFC, 4, 15];
    let late = ["x\n".repeat(30).as_bytes(), b"\xFF\n"].concat();
    let cases: [(&str, &[u8], bool); 7] = [
        ("document 01's whole case", &whole_case, true),
        ("not UTF-8", b"silent\n\x03\xFF", true),
        ("not UTF-8 behind thirty wrong lines", &late, true),
        ("a zero byte", b"silent\n\x03\0\n", true),
        ("a zero byte in a right line", b"silent # \0\nsolent\n", true),
        ("a comment that is not UTF-8", b"silent # \xFF\nsolent\n", false),
        ("a wrong kind", b"solent\n", false),
    ];
    for (name, told, hinted) in cases {
        let says = |command: Command| {
            let outcome = commands::run(command, &place.program, "it", told);
            let count = outcome.stderr.matches(RECORDS).count();
            outcome.stderr.ends_with(RECORDS) == hinted
                && count == usize::from(hinted)
                && silent_failure(&outcome, WRONG)
        };
        let holds = [Command::Line, Command::Explain, Command::Svg, Command::Records].map(says);
        let said = if hinted { "--text is named" } else { "--text is not named" };
        report.test(&format!("read as text: {name}: {said}"), holds == [true; 4]);
    }
}

/// Nothing on standard output, and this status.
fn silent_failure(outcome: &Outcome, status: u8) -> bool {
    outcome.stdout.is_empty() && outcome.status == status
}

/// Whether a path is bad at an offset and is explained by a line, its text and a reason.
fn explained(place: &Place, told: &str, at: usize, line: usize, reason: &str) -> bool {
    let outcome = commands::run(Command::Line, &place.program, "it", told.as_bytes());
    let shown = told.lines().nth(line - 1).unwrap_or_default();
    let holds = outcome.stdout == format!("bad {at}\n").into_bytes()
        && outcome.stderr.starts_with(&format!("it:{line}: "))
        && outcome.stderr.contains(reason)
        && outcome.stderr.ends_with(&format!("\n    {shown}\n"))
        && outcome.status == WRONG;
    if !holds {
        println!("  found {outcome:?}");
    }
    holds
}

fn bad_paths(report: &mut Report, place: &Place) {
    for (name, told, at, line, reason) in BAD {
        let holds = explained(place, told, at, line, reason);
        report.test(&format!("bad {at}: {name}, line {line}"), holds);
    }
    let reason = "the path is empty: the request, which must come first, is missing";
    for (name, told) in [("no text", ""), ("a comment alone", "# request")] {
        let outcome = commands::run(Command::Line, &place.program, "it", told.as_bytes());
        let holds = outcome.stdout == b"bad 0\n" && outcome.stderr == format!("it: {reason}\n");
        report.test(&format!("bad 0: {name}"), holds && outcome.status == WRONG);
    }
    let reason = "this is router 65; a path has at most 64";
    let knowing = format!("request ttl=99\n{}# more\nrouter\nreceiver", "router\n".repeat(64));
    report.test("bad 392: 65 routers", explained(place, &knowing, 8 + 6 * 64, 67, reason));
    let silent = format!("request ttl=99\n{}receiver", "silent\n".repeat(65));
    report.test("bad 72: 65 silent routers", explained(place, &silent, 72, 66, reason));
    let endless = format!("request\n{}", "router\n".repeat(50_000));
    report.test("bad 392: more than the program reads", explained(place, &endless, 392, 66, reason));
    let told = b"request\nrouter ceiling=16";
    let outcome = commands::run(Command::Explain, &place.program, "it", told);
    let said = "it:2: the ceiling is 16; a ceiling is 0 to 15\n    router ceiling=16\n\nbad 8\n";
    let holds =
        outcome.stdout == said.as_bytes() && outcome.stderr.is_empty() && outcome.status == WRONG;
    report.test("--explain: a bad path is explained in place of a table", holds);
    let outcome = commands::run(Command::Svg, &place.program, "it", told);
    let holds = outcome.stderr.starts_with("bad 8\nit:2: the ceiling is 16");
    report.test("--svg: a bad path has no picture", holds && silent_failure(&outcome, WRONG));
}

/// The line that starts at an offset of the bytes, or the last line if the offset is their length.
fn line_at(path: &[Record], numbers: &[usize], at: usize) -> Option<usize> {
    let mut start = 0;
    for (record, number) in path.iter().zip(numbers) {
        if start == at {
            return Some(*number);
        }
        start += record_bytes(record).len();
    }
    numbers.last().copied().filter(|_| start == at)
}

/// Slipped paths in odd texts: tool and program agree, and the line named is the one at the offset.
fn slipped_paths(report: &mut Report, place: &Place) {
    let mut rng = Rng(SEED);
    let (mut right, mut bad) = (0, 0);
    for _ in 0..PATHS {
        let path = slipped_path(&mut rng);
        let (told, numbers) = odd_text(&mut rng, &path);
        let outcome = commands::run(Command::Line, &place.program, "it", &told);
        let said = String::from_utf8_lossy(&outcome.stdout).into_owned();
        let Some(at) = said.strip_prefix("bad ").and_then(|at| at.trim_end().parse().ok()) else {
            right += usize::from(outcome.status == GOOD && outcome.stderr.is_empty());
            continue;
        };
        bad += 1;
        let start =
            line_at(&path, &numbers, at).map_or("it: ".to_string(), |line| format!("it:{line}: "));
        right += usize::from(outcome.status == WRONG && outcome.stderr.starts_with(&start));
    }
    let what = "slipped paths from a seed: tool and program agree, the right line is named, in";
    report.test(&format!("{what} {right} of {PATHS}"), right == PATHS);
    let both = bad >= PATHS / 3 && PATHS - bad >= PATHS / 20;
    report.test(&format!("count: bad: {bad}, good: {}", PATHS - bad), both);
}

/// Programs that say something else than qspath: the tool says so, and writes no line.
fn liars(report: &mut Report, place: &Place) {
    const GOOD_PATH: &str = "request rate=5\nrouter ceiling=3\nreceiver";
    const BAD_PATH: &str = "request rate=5\nrouter ceiling=33\nreceiver";
    let cases = [
        ("a rate for a bad path", "rate 3", BAD_PATH, Command::Line, "DISAGREEMENT"),
        ("another offset", "bad 9", BAD_PATH, Command::Line, "DISAGREEMENT"),
        ("another offset, explained", "bad 0", BAD_PATH, Command::Explain, "DISAGREEMENT"),
        ("bad for a good path", "bad 8", GOOD_PATH, Command::Line, "DISAGREEMENT"),
        ("another rate", "rate 4", GOOD_PATH, Command::Explain, "DISAGREEMENT"),
        ("another rate, drawn", "rate 2", GOOD_PATH, Command::Svg, "DISAGREEMENT"),
        ("lost", "lost", GOOD_PATH, Command::Explain, "DISAGREEMENT"),
        ("unanswered", "unanswered", GOOD_PATH, Command::Explain, "DISAGREEMENT"),
        ("none 14", "none 14", GOOD_PATH, Command::Explain, "DISAGREEMENT"),
        ("a rate for broken bytes", "rate 3", "\u{1}\u{5}", Command::Text, "DISAGREEMENT"),
        ("no such line", "rate three", GOOD_PATH, Command::Line, "no line that it may write"),
        ("a line with more", "lost 3", GOOD_PATH, Command::Line, "no line that it may write"),
        ("nothing", "", GOOD_PATH, Command::Line, "no line that it may write"),
    ];
    for (name, says, told, command, message) in cases {
        let liar = place.out.join("liar");
        script(&liar, &format!("cat >/dev/null\necho '{says}'\n"));
        let outcome = commands::run(command, &liar, "it", told.as_bytes());
        let holds = outcome.stderr.contains(message) && silent_failure(&outcome, FAULT);
        report.test(&format!("a program that is wrong: {name}: said loudly"), holds);
    }
    let failing = place.out.join("failing");
    script(&failing, "cat >/dev/null\necho 'rate 3'\nexit 4\n");
    let outcome = commands::run(Command::Line, &failing, "it", GOOD_PATH.as_bytes());
    let holds = outcome.stderr.contains("exit status: 4") && silent_failure(&outcome, FAULT);
    report.test("a program that fails: said", holds);
    let outcome =
        commands::run(Command::Line, &place.out.join("nothing-here"), "it", GOOD_PATH.as_bytes());
    let holds = outcome.stderr.contains("cannot be run") && silent_failure(&outcome, FAULT);
    report.test("a program that is not there: said", holds);
}

pub fn all(report: &mut Report, place: &Place) {
    text_errors(report, place);
    many_errors(report, place);
    records_as_text(report, place);
    bad_paths(report, place);
    slipped_paths(report, place);
    liars(report, place);
}
