//! Hop by hop: the packet, the explanation of each example and of random paths, and the pictures.

use crate::commands::{self, Command, GOOD};
use crate::journey::{self, Comparison, Event, Journey};
use crate::packet::{Packet, Response, View};
use crate::picture;
use crate::program::{self, Answer};
use crate::records::Record;
use crate::report::{bytes, header_text, hex, Report};
use crate::svg;
use crate::table;
use crate::tests_draw::{good_path, odd_text, row_bytes, Rng};
use crate::text::{self, Line};
use crate::{same, Place};

const SEED: u64 = 0x504C_414E_0000_0003;
const PATHS: usize = 600;
const LEAST_COUNT: usize = 30;

/// What the header must say for the declarations in packet.rs to be right.
const PROTOTYPES: [&str; 3] = [
    "uint32_t qs_router(uint8_t *packet, size_t len, uint32_t ceiling, uint32_t fresh_nonce);",
    "uint32_t qs_silent_router(uint8_t *packet, size_t len);",
    "uint32_t qs_receiver(const uint8_t *packet, size_t len, uint32_t ceiling, uint8_t *response, \
     size_t response_len);",
];

const RATES: [&str; 16] = [
    "no rate",
    "80 kbit/s",
    "160 kbit/s",
    "320 kbit/s",
    "640 kbit/s",
    "1.28 Mbit/s",
    "2.56 Mbit/s",
    "5.12 Mbit/s",
    "10.24 Mbit/s",
    "20.48 Mbit/s",
    "40.96 Mbit/s",
    "81.92 Mbit/s",
    "163.84 Mbit/s",
    "327.68 Mbit/s",
    "655.36 Mbit/s",
    "1.31 Gbit/s",
];

/// Document 01's packet: as sent, after a router with ceiling 3, and the response to it.
fn document_packet(report: &mut Report, place: &Place) {
    let sent = View { ip_ttl: 64, qs_ttl: 128, rate: 5, nonce: 0 };
    let mut packet = Packet::new(sent);
    let start = "47 00 00 1C 00 00 00 00 40 06 46 52 0A 00 00 01 0A 00 00 02 19 08 05 80 00 00 00 00";
    same(report, "document 01's packet", hex(&packet.bytes).as_str(), start);
    same(report, "document 01's packet, read", packet.view(), sent);
    let number = packet.router(3, (1 << 30) - 1);
    let end = "47 00 00 1C 00 00 00 00 3F 06 3A 53 0A 00 00 01 0A 00 00 02 19 08 03 7F 00 00 0F 00";
    same(
        report,
        "document 01's packet after the router",
        (number, &packet.bytes[..]),
        (0, &bytes(end)[..]),
    );
    let after = View { ip_ttl: 63, qs_ttl: 127, rate: 3, nonce: 960 };
    same(report, "document 01's packet after the router, read", packet.view(), after);
    same(report, "its TTL Diff", after.ttl_diff(), 192);
    let response =
        packet.receiver(15).map(|response| (response.rate, response.ttl_diff, response.nonce));
    same(report, "document 01's response", response, Ok((3, 192, 960)));
    same(
        report,
        "a receiver with ceiling 0",
        packet.receiver(0).is_err_and(|number| number == 40),
        true,
    );
    let header = std::fs::read_to_string(place.root.join("include/quickstart.h")).unwrap_or_default();
    let header = header_text(&header);
    let declared = PROTOTYPES.iter().all(|prototype| header.contains(prototype));
    report.test("the header declares the functions as packet.rs does", declared);
    let names: Vec<String> = (0..16).map(table::rate_name).collect();
    same(report, "the names of the fifteen rates", names, RATES.map(str::to_string).to_vec());
}

/// The sender's comparison, on responses that honest routers do not bring about too: document 01's W7 to W9.
fn comparisons(report: &mut Report) {
    let sent = View { ip_ttl: 64, qs_ttl: 128, rate: 5, nonce: 0 };
    let cases = [
        ("nonce 960 at rate 3", 3, 192, 960, Answer::Rate(3)),
        ("nonce 960 at rate 5", 5, 192, 960, Answer::Refused(15)),
        ("nonce 960 at rate 4", 4, 192, 960, Answer::Refused(15)),
        ("a rate above the one asked for", 6, 192, 0, Answer::Refused(13)),
        ("rate 0", 0, 192, 0, Answer::Refused(13)),
        ("TTL Diff 191", 3, 191, 960, Answer::Refused(14)),
        ("TTL Diff before nonce", 5, 191, 960, Answer::Refused(14)),
        ("rate before TTL Diff", 6, 191, 960, Answer::Refused(13)),
    ];
    for (name, rate, ttl_diff, nonce, answer) in cases {
        let comparison = Comparison::new(sent, Response { rate, ttl_diff, nonce });
        same(report, &format!("the sender compares: {name}"), comparison.answer(), answer);
    }
}

/// Parts of explanations that no example shows.
fn sentences(report: &mut Report, place: &Place) {
    let cases = [
        ("request\nreceiver ceiling=0", "The sender gets no response: the receiver's ceiling is 0.\n"),
        ("request ttl=1\nsilent\nreceiver", "lost: IP TTL 1, refusal 6\n"),
        ("request rate=3\nreceiver ceiling=2", "nonce modulo 4 to the 2: reported 0x00000000, sent"),
        ("request rate=4\nrouter ceiling=1\nreceiver", "fresh nonce fields 4-3 down to 2-1\n"),
        ("request rate=15\nrouter ceiling=13\nreceiver", "fresh nonce fields 15-14, 14-13\n"),
        ("request rate=2\nrouter ceiling=1\nreceiver", "fresh nonce field 2-1\n"),
        ("request rate=5\nreceiver ceiling=2", "0x00000000  lowered 5 to 2; response sent\n"),
        (
            "request rate=5\nrouter ceiling=4 fresh=0\nreceiver ceiling=3",
            "0x00000000  lowered 4 to 3; response sent\n",
        ),
        ("request rate=2\nreceiver ceiling=2", "0x00000000  response sent\n"),
    ];
    for (told, words) in cases {
        let outcome = commands::run(Command::Explain, &place.program, "it", told.as_bytes());
        let holds = String::from_utf8_lossy(&outcome.stdout).contains(words) && outcome.status == GOOD;
        report.test(&format!("--explain says: {}", words.trim_end()), holds);
    }
}

/// Each example: its line, its explanation and its text form and back. No example may be without a line.
fn examples(report: &mut Report, place: &Place) {
    let folder = place.root.join("examples/paths");
    let mut names: Vec<String> = std::fs::read_dir(&folder)
        .map(|entries| {
            entries.flatten().map(|entry| entry.file_name().to_string_lossy().into_owned()).collect()
        })
        .unwrap_or_default();
    names.retain(|name| name.ends_with(".path"));
    names.sort();
    let listed = ["denied", "good", "lost", "lowering", "relay", "silent", "wrong"]
        .map(|name| format!("{name}.path"));
    same(report, "the examples", names.clone(), listed.to_vec());
    for file in names {
        let name = format!("examples/paths/{file}");
        let stem = file.trim_end_matches(".path");
        let read = |end: &str| std::fs::read(folder.join(format!("{stem}.{end}"))).ok();
        let told = read("path").unwrap_or_default();
        let outcome = commands::run(Command::Line, &place.program, &name, &told);
        same(report, &format!("{stem}: the line"), Some(outcome.stdout), read("line"));
        let outcome = commands::run(Command::Explain, &place.program, &name, &told);
        same(report, &format!("{stem}: --explain"), Some(outcome.stdout), read("explain"));
        let records = commands::run(Command::Records, &place.program, &name, &told).stdout;
        let canonical = commands::run(Command::Text, &place.program, &name, &records).stdout;
        let again = commands::run(Command::Records, &place.program, &name, &canonical).stdout;
        same(report, &format!("{stem}: records to text and back"), again.clone(), records);
        let fixed = commands::run(Command::Text, &place.program, &name, &again).stdout;
        same(report, &format!("{stem}: the canonical text stays"), fixed, canonical);
    }
    let told = std::fs::read(folder.join("relay.path")).unwrap_or_default();
    let drawn = commands::run(Command::Svg, &place.program, "relay.path", &told).stdout;
    same(report, "relay: --svg is relay.svg", Some(drawn), std::fs::read(folder.join("relay.svg")).ok());
    shown(report, place, "planner/README.md", "silent.explain");
    shown(report, place, "README.md", "lowering.explain");
}

/// Whether a page of the repository shows an example's explanation as the file has it.
fn shown(report: &mut Report, place: &Place, page: &str, example: &str) {
    let read = |name: &str| std::fs::read_to_string(place.root.join(name)).unwrap_or_default();
    let explained = read(&format!("examples/paths/{example}"));
    let indent = |line: &str| if line.is_empty() { "\n".into() } else { format!("    {line}\n") };
    let indented: String = explained.lines().map(indent).collect();
    let holds = !indented.is_empty() && read(page).contains(&indented);
    report.test(&format!("{page} shows {example}"), holds);
}

/// Document 01's router on what a packet shows; nothing if it loses the packet. `router` is the ceiling and
/// fresh nonce of one that knows.
fn after(view: View, router: Option<(u8, u32)>) -> Option<View> {
    if view.ip_ttl <= 1 {
        return None;
    }
    let passed = View { ip_ttl: view.ip_ttl - 1, ..view };
    let Some((ceiling, fresh)) = router.filter(|_| view.rate != 0) else {
        return Some(passed);
    };
    let rate = view.rate.min(ceiling);
    if rate == 0 {
        return Some(View { qs_ttl: 0, rate, nonce: 0, ..passed });
    }
    let qs_ttl = if view.qs_ttl == 0 { 255 } else { view.qs_ttl - 1 };
    let mut nonce = view.nonce;
    for field in rate..view.rate {
        let unit = 4_u32.pow(u32::from(field));
        nonce = nonce - nonce / unit % 4 * unit + fresh / unit % 4 * unit;
    }
    Some(View { qs_ttl, rate, nonce, ..passed })
}

/// What happened, by document 01, from what stands before and after a router.
fn expected_event(before: View, after: View, silent: bool) -> Event {
    match (silent, before.rate, after.rate) {
        (true, _, _) => Event::NotTouched,
        (false, 0, _) => Event::NoRateLeft,
        (false, _, 0) => Event::Denied,
        (false, from, to) if from > to => Event::Lowered(from, to),
        _ => Event::PassedOn,
    }
}

/// Whether each stop shows what document 01 says, up to the one that loses the packet.
fn stops_right(lines: &[Line], journey: &Journey) -> bool {
    let Some(mut view) = journey.stops[0].view else {
        return false;
    };
    let mut right = lines.len() == journey.stops.len();
    for (line, stop) in lines.iter().zip(&journey.stops).skip(1) {
        right &= line.number == stop.line;
        let router = match line.record {
            Record::Router { ceiling, word } => Some((ceiling, word.nonce)),
            Record::Silent => None,
            _ => return right && stop.view == Some(view),
        };
        let Some(next) = after(view, router) else {
            return right && stop.event == Event::Lost && stop.view == Some(view);
        };
        let event = expected_event(view, next, router.is_none());
        right &= stop.view == Some(next) && stop.event == event;
        view = next;
    }
    right
}

/// A picture of text: bars of three letters for each code, and no line too wide.
fn picture_right(journey: &Journey) -> bool {
    let drawn = picture::picture(journey);
    let bars = drawn.lines().skip(1).zip(&journey.stops).all(|(line, stop)| {
        let ink = line.chars().filter(|letter| ['#', '.'].contains(letter)).count();
        // the rate's own point is no part of the bar
        let bar = line.split('|').nth(1).unwrap_or_default().trim_end();
        bar.len() == 3 * usize::from(picture::rate_left(stop).unwrap_or(0)) && ink >= bar.len()
    });
    bars && drawn.lines().all(|line| line.len() < 100)
        && drawn.lines().count() == journey.stops.len() + 2
}

/// Whether every tag is closed in its order, every value is quoted, and no letter stands where XML forbids it.
pub fn balanced(xml: &str) -> bool {
    let mut open: Vec<&str> = Vec::new();
    let mut rest = xml;
    let mut roots = 0;
    while let Some(start) = rest.find('<') {
        let Some(end) = rest.find('>') else { return false };
        if end < start || rest[..start].contains('&') {
            return false;
        }
        let tag = &rest[start + 1..end];
        let name = tag.trim_start_matches('/').split([' ', '/']).next().unwrap_or_default();
        if tag.contains(['<', '&']) || tag.matches('"').count() != 2 * tag.matches("=\"").count() {
            return false;
        }
        if let Some(closed) = tag.strip_prefix('/') {
            if open.pop() != Some(closed) {
                return false;
            }
        } else {
            roots += usize::from(open.is_empty());
            if !tag.ends_with('/') {
                open.push(name);
            }
        }
        rest = &rest[end + 1..];
    }
    open.is_empty() && roots == 1 && rest == "\n"
}

/// An SVG: the same again, balanced, with the line as title and a mark for each silent router.
fn svg_right(journey: &Journey, answer: Answer, drawn: &str) -> bool {
    let silent = journey.stops.iter().filter(|stop| stop.event == Event::NotTouched).count();
    // one more of each mark stands in the legend
    let circles = drawn.matches("fill=\"white\" stroke=\"#b3261e\"").count();
    let stopped =
        journey.stops.iter().filter(|stop| matches!(stop.event, Event::Denied | Event::Lost)).count();
    let crosses = drawn.matches("stroke=\"#b3261e\" stroke-width=\"3\"").count();
    balanced(drawn)
        && drawn == svg::svg(journey, answer)
        && drawn.contains(&format!("<title>{answer}</title>"))
        && circles == silent + 1
        && crosses == stopped + 1
}

/// Which kind of answer it is, to count that all are met.
fn kind(answer: Answer) -> usize {
    match answer {
        Answer::Rate(_) => 0,
        Answer::Lost => 1,
        Answer::Unanswered => 2,
        Answer::Refused(_) => 3,
        Answer::Bad(_) => 4,
    }
}

/// Good paths in odd texts: the hops are document 01's and end in the program's line.
fn random_paths(report: &mut Report, place: &Place) {
    let mut rng = Rng(SEED);
    let (mut met, mut hops, mut ends, mut pictures, mut drawings) = ([0; 5], 0, 0, 0, 0);
    for _ in 0..PATHS {
        let path = good_path(&mut rng);
        let (told, _) = odd_text(&mut rng, &path);
        let lines = text::parse(&told).unwrap_or_default();
        let Ok(answer) = program::run(&place.program, &row_bytes(&path)) else { continue };
        met[kind(answer)] += 1;
        let Ok(journey) = journey::travel(&lines) else { continue };
        hops += usize::from(stops_right(&lines, &journey));
        pictures += usize::from(picture_right(&journey));
        let explained = commands::run(Command::Explain, &place.program, "it", &told);
        let said = String::from_utf8_lossy(&explained.stdout).into_owned();
        let ended =
            said.ends_with(&format!("\n\n{answer}\n")) && said.starts_with(&table::table(&journey));
        ends += usize::from(journey.answer() == answer && ended && explained.status == GOOD);
        let drawn = commands::run(Command::Svg, &place.program, "it", &told);
        let drawing = String::from_utf8_lossy(&drawn.stdout).into_owned();
        drawings += usize::from(svg_right(&journey, answer, &drawing) && drawn.status == GOOD);
    }
    let of = format!("of {PATHS} paths from a seed");
    report.test(&format!("hop by hop as document 01 says: {hops} {of}"), hops == PATHS);
    report.test(&format!("--explain ends in the program's line: {ends} {of}"), ends == PATHS);
    report.test(&format!("text picture with right bars: {pictures} {of}"), pictures == PATHS);
    report.test(&format!("SVG balanced, the same again, marked: {drawings} {of}"), drawings == PATHS);
    for (name, count) in ["rate", "lost", "unanswered", "none"].iter().zip(met) {
        report.test(&format!("count: {name}: {count}"), count >= LEAST_COUNT);
    }
    report.test("count: bad: 0", met[4] == 0);
}

/// SVGs whose step line is worked out by hand: code N stands 20 times N above 398, the sender at 170, the
/// receiver as many equal steps to the right as fit into 620.
fn drawings(report: &mut Report, place: &Place) {
    let cases = [
        ("lowered", "request rate=5\nrouter ceiling=3\nreceiver", "M170 298H480V338H790V338"),
        ("lowered by the receiver", "request rate=15\nreceiver ceiling=1", "M170 98H790V378"),
        (
            "denied",
            "request rate=10\nrouter ceiling=0\nsilent\nreceiver",
            "M170 198H376V398H582V398H788V398",
        ),
        ("lost", "request rate=2 ttl=1\nsilent\nrouter\nreceiver", "M170 358H376"),
    ];
    for (name, told, steps) in cases {
        let outcome = commands::run(Command::Svg, &place.program, "it", told.as_bytes());
        let drawn = String::from_utf8_lossy(&outcome.stdout).into_owned();
        let step_line =
            format!("<path d=\"{steps}\" fill=\"none\" stroke=\"#1b3a57\" stroke-width=\"2\"/>");
        report.test(&format!("--svg: {name}: the step line"), drawn.contains(&step_line));
    }
    lowered_drawing(report, place, cases[0].1);
}

/// What else stands in the first of these SVGs, by the same measures.
fn lowered_drawing(report: &mut Report, place: &Place, told: &str) {
    let outcome = commands::run(Command::Svg, &place.program, "it", told.as_bytes());
    let drawn = String::from_utf8_lossy(&outcome.stdout).into_owned();
    let labelled = (0..16).all(|code| {
        let (at, words) = (402 - 20 * code, format!(">{}, code {code}</text>", RATES[code]));
        drawn.lines().any(|line| {
            line.starts_with(&format!("<text x=\"158\" y=\"{at}\"")) && line.ends_with(&words)
        })
    });
    report.test("--svg: each code and its rate stand at its height", labelled);
    for (name, part) in [
        (
            "the router's ceiling",
            "<path d=\"M464 338H496\" fill=\"none\" stroke=\"#8a8f98\" stroke-width=\"3\"/>",
        ),
        (
            "the receiver's ceiling",
            "<path d=\"M774 98H806\" fill=\"none\" stroke=\"#8a8f98\" stroke-width=\"3\"/>",
        ),
        ("the router", "<circle cx=\"480\" cy=\"338\" r=\"4\""),
        ("the receiver", "<rect x=\"784\" y=\"332\" width=\"12\" height=\"12\" fill=\"#1b3a57\"/>"),
        ("the lowering", ">5 to 3</text>"),
        ("the title", "font-size=\"20\" fill=\"#1b3a57\">rate 3</text>"),
    ] {
        report.test(&format!("--svg: lowered: {name} is drawn"), drawn.contains(part));
    }
}

/// The test of XML must tell good from bad.
fn xml_itself(report: &mut Report) {
    for (xml, good) in [
        ("<a b=\"1\"><c/>x</a>\n", true),
        ("<a><b></a></b>\n", false),
        ("<a>\n", false),
        ("<a/><b/>\n", false),
        ("<a b=1\"/>\n", false),
        ("<a>&</a>\n", false),
    ] {
        same(report, &format!("the test of XML itself: {:?}", xml.trim_end()), balanced(xml), good);
    }
}

pub fn all(report: &mut Report, place: &Place) {
    document_packet(report, place);
    comparisons(report);
    sentences(report, place);
    examples(report, place);
    drawings(report, place);
    xml_itself(report);
    random_paths(report, place);
}
