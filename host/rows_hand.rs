//! Cases by hand: document 01's packet along rows of hops, each figure worked out from document 01, and
//! the text of the C header. A checksum grows by what the header's other words lose.

use crate::report::{bytes, header_text, hex, Report};
use crate::rows_calls::{Memory, PROTOTYPES};
use crate::rows_model::{self, Hop, Open, Trip};
use crate::yard::Spot;

/// The greatest nonce.
const ONES: u32 = (1 << 30) - 1;
const HEADER: &str = include_str!("../include/quickstart_path.h");
const DEFINITIONS: [&str; 3] =
    ["#define QS_LOST 42 ", "#define QS_ACCEPTED 100 ", "#define QS_NOT_ACCEPTED 200 "];

/// The option of document 01's packet behind its two first bytes: a request for code 5 with QS TTL 128
/// and nonce 0; and what a denial leaves of it.
const CODE_5: &str = "05 80 00 00 00 00";
const DENIED: &str = "00 00 00 00 00 00";

const fn knows(ceiling: u32, fresh: u32) -> Hop {
    Hop { knows: true, ceiling, fresh }
}

const fn silent(ceiling: u32, fresh: u32) -> Hop {
    Hop { knows: false, ceiling, fresh }
}

/// A router that lowers nothing, and a silent one.
const PASSES: Hop = knows(15, ONES);
const SILENT: Hop = silent(0, 0);

/// Document 01's packet with another IP TTL, checksum and option.
fn packet(ttl: &str, checksum: &str, option: &str) -> Vec<u8> {
    bytes(&format!("47 00 00 1C 00 00 00 00 {ttl} 06 {checksum} 0A 00 00 01 0A 00 00 02 19 08 {option}"))
}

fn original() -> Vec<u8> {
    packet("40", "46 52", CODE_5)
}

/// To a receiver with ceiling 15, for a sender that asked for code 5 with nonce 0 and this TTL Diff.
fn trip_with(packet: Vec<u8>, ttl_diff: u8, row: &[Hop]) -> Trip {
    Trip { packet, row: row.to_vec(), receiver: 15, open: Open { code: 5, ttl_diff, nonce: 0 } }
}

/// Document 01's packet, whose TTL Diff is 64 - 128 modulo 256, along a row.
fn trip(row: &[Hop]) -> Trip {
    trip_with(original(), 192, row)
}

fn to_receiver(receiver: u32, trip: Trip) -> Trip {
    Trip { receiver, ..trip }
}

fn open_for(code: u32, ttl_diff: u8, nonce: u32, trip: Trip) -> Trip {
    Trip { open: Open { code, ttl_diff, nonce }, ..trip }
}

struct Hand<'a> {
    memory: Memory,
    report: &'a mut Report,
    cases: u32,
    model_differs: u32,
}

impl Hand<'_> {
    fn model_says(&mut self, name: &str, same: bool) {
        self.cases += 1;
        if !same {
            self.model_differs += 1;
            println!("  the model says something else: {name}");
        }
    }

    /// The run must answer `number` and leave exactly `after`, wherever packet and row are lent.
    fn run(&mut self, name: &str, trip: &Trip, number: u32, after: &[u8]) {
        let mut holds = true;
        for spot in [Spot::Middle(1), Spot::End] {
            let seen = self.memory.run(trip, spot);
            let same = seen.number == number && seen.after == after && seen.else_unchanged;
            if !same {
                println!("  answered {} and not {number}; packet {}", seen.number, hex(&seen.after));
            }
            holds &= same;
        }
        self.report.test(&format!("run: {name}: {number}"), holds);
        let (said, left) = rows_model::run(trip);
        self.model_says(name, rows_model::number(said) == number && left == after);
    }

    fn refused(&mut self, name: &str, trip: &Trip, number: u32) {
        self.run(name, trip, number, &trip.packet);
    }

    /// The summary must be these three numbers, or 7 with nothing written.
    fn summary(&mut self, name: &str, row: &[Hop], expected: Option<[u32; 3]>) {
        let before = [0x7777_7777; 3];
        let (number, after) = expected.map_or((7, before), |three| (0, three));
        let mut holds = true;
        for spot in [Spot::Middle(4), Spot::End] {
            let seen = self.memory.summary(row, &before, spot);
            let same = seen.number == number && seen.after == after && seen.else_unchanged;
            if !same {
                println!("  answered {} and not {number}; summary {:?}", seen.number, seen.after);
            }
            holds &= same;
        }
        self.report.test(&format!("summary: {name}: {number}"), holds);
        self.model_says(name, rows_model::summary(row).ok() == expected);
    }

    fn document_01(&mut self) {
        let lowered = packet("3F", "3A 53", "03 7F 00 00 0F 00");
        let lowers = [knows(3, ONES)];
        self.run("document 01's packet, ceiling 3", &trip(&lowers), 103, &lowered);
        self.run("ceiling 3, the receiver's 2", &to_receiver(2, trip(&lowers)), 102, &lowered);
        self.run("ceiling 3, the receiver's 4", &to_receiver(4, trip(&lowers)), 103, &lowered);
        self.run("no router", &trip(&[]), 105, &original());
        self.run("no router, the receiver's ceiling 4", &to_receiver(4, trip(&[])), 104, &original());
        self.run("no router, the receiver's ceiling 0", &to_receiver(0, trip(&[])), 40, &original());
        self.run("a silent router", &trip(&[SILENT]), 214, &packet("3F", "47 52", CODE_5));
        self.run("a router with ceiling 0", &trip(&[knows(0, ONES)]), 40, &packet("3F", "4C D2", DENIED));
        let passed = packet("3F", "47 53", "05 7F 00 00 00 00");
        self.run("a router that lowers nothing", &trip(&[PASSES]), 105, &passed);
    }

    /// Each place in a row counts, and each hop has its own nonce.
    fn places(&mut self) {
        let [two, nine] = [knows(2, 0), knows(9, ONES)];
        let lowest = packet("3D", "4C 55", "02 7D 00 00 00 00");
        self.run("the first of three decides", &trip(&[two, nine, PASSES]), 102, &lowest);
        self.run("the middle one of three decides", &trip(&[nine, two, PASSES]), 102, &lowest);
        self.run("the last of three decides", &trip(&[PASSES, nine, two]), 102, &lowest);
        let as_asked = packet("3D", "49 55", "05 7D 00 00 00 00");
        self.run("the code asked decides", &trip(&[PASSES, nine, knows(6, 0)]), 105, &as_asked);

        // from 5 to 4 the field of 768, then from 4 to 2 those of 192 and 48
        let nonce_768 = packet("3E", "3F 54", "02 7E 00 00 0C 00");
        let nonce_1008 = packet("3E", "3B 94", "02 7E 00 00 0F C0");
        let nonce_0 = packet("3E", "4B 54", "02 7E 00 00 00 00");
        let four = knows(4, ONES);
        self.run("lowered twice, by ones and by zeros", &trip(&[four, two]), 102, &nonce_768);
        self.run("lowered twice, by ones and by ones", &trip(&[four, knows(2, ONES)]), 102, &nonce_1008);
        self.run("lowered once, by zeros, then passed", &trip(&[two, four]), 102, &nonce_0);

        let zero = knows(0, ONES);
        let denied = packet("3D", "4E D2", DENIED);
        self.run("the first of three denies", &trip(&[zero, PASSES, PASSES]), 40, &denied);
        self.run("the middle one of three denies", &trip(&[PASSES, zero, PASSES]), 40, &denied);
        self.run("the last of three denies", &trip(&[PASSES, PASSES, zero]), 40, &denied);
        let denied = packet("3E", "4D D2", DENIED);
        self.run("silent, then denied", &trip(&[SILENT, zero]), 40, &denied);
        self.run("denied, then silent", &trip(&[zero, SILENT]), 40, &denied);

        let one_silent = packet("3D", "49 54", "05 7E 00 00 00 00");
        self.run("the first of three silent", &trip(&[SILENT, PASSES, PASSES]), 214, &one_silent);
        self.run("the middle one of three silent", &trip(&[PASSES, SILENT, PASSES]), 214, &one_silent);
        self.run("the last of three silent", &trip(&[PASSES, PASSES, SILENT]), 214, &one_silent);
        let passed_by = packet("3F", "47 52", CODE_5);
        self.run("a silent router's ceiling 0 does not deny", &trip(&[silent(0, ONES)]), 214, &passed_by);
        self.run("a silent router's ceiling 1 does not lower", &trip(&[silent(1, ONES)]), 214, &passed_by);
        let unwanted = to_receiver(0, trip(&[SILENT]));
        self.run("silent, and the receiver's ceiling 0", &unwanted, 40, &passed_by);
    }

    fn time_to_live(&mut self) {
        let zero = || packet("00", "86 52", CODE_5);
        let one = || packet("01", "85 52", CODE_5);
        let two = || packet("02", "84 52", CODE_5);
        let three = || packet("03", "83 52", CODE_5);
        let denies = knows(0, ONES);
        self.run("TTL 0, no router", &trip_with(zero(), 128, &[]), 105, &zero());
        self.run("TTL 0, a router", &trip_with(zero(), 128, &[PASSES]), 42, &zero());
        self.run("TTL 1, no router", &trip_with(one(), 129, &[]), 105, &one());
        self.run("TTL 1, a router", &trip_with(one(), 129, &[PASSES]), 42, &one());
        self.run("TTL 1, a silent router", &trip_with(one(), 129, &[SILENT]), 42, &one());
        self.run("TTL 1, a router that would deny", &trip_with(one(), 129, &[denies]), 42, &one());
        let unwanted = to_receiver(0, trip_with(one(), 129, &[PASSES]));
        self.run("TTL 1, a router, the receiver's ceiling 0", &unwanted, 42, &one());

        let passed = packet("01", "85 53", "05 7F 00 00 00 00");
        self.run("TTL 2, a router", &trip_with(two(), 130, &[PASSES]), 105, &passed);
        self.run("TTL 2, two routers", &trip_with(two(), 130, &[PASSES, PASSES]), 42, &passed);
        self.run("TTL 2, a router and a silent one", &trip_with(two(), 130, &[PASSES, SILENT]), 42, &passed);
        let would_deny = trip_with(two(), 130, &[PASSES, denies]);
        self.run("TTL 2, a router and one that would deny", &would_deny, 42, &passed);
        self.run("TTL 2, three routers", &trip_with(two(), 130, &[PASSES; 3]), 42, &passed);
        self.run("TTL 2, a silent router and another", &trip_with(two(), 130, &[SILENT, PASSES]), 42, &one());
        let denied = packet("01", "8A D2", DENIED);
        self.run("TTL 2, denied, then lost", &trip_with(two(), 130, &[denies, PASSES]), 42, &denied);
        let twice = packet("01", "85 54", "05 7E 00 00 00 00");
        self.run("TTL 3, two routers", &trip_with(three(), 131, &[PASSES, PASSES]), 105, &twice);
    }

    fn long_rows(&mut self) {
        let at_63 = packet("01", "85 91", "05 41 00 00 00 00");
        self.run("TTL 64, 63 routers", &trip(&[PASSES; 63]), 105, &at_63);
        self.run("TTL 64, 64 routers", &trip(&[PASSES; 64]), 42, &at_63);
        let start = packet("41", "45 52", CODE_5);
        let end = packet("01", "85 92", "05 40 00 00 00 00");
        self.run("TTL 65, 64 routers", &trip_with(start.clone(), 193, &[PASSES; 64]), 105, &end);
        let end = packet("01", "85 52", CODE_5);
        self.run("TTL 65, 64 silent routers", &trip_with(start, 193, &[SILENT; 64]), 214, &end);

        let start = || packet("FF", "87 51", CODE_5);
        let end = packet("BF", "C7 91", "05 40 00 00 00 00");
        self.run("TTL 255, 64 routers", &trip_with(start(), 127, &[PASSES; 64]), 105, &end);
        let mut row = [PASSES; 64];
        row[63] = knows(1, 0);
        let end = packet("BF", "CB 91", "01 40 00 00 00 00");
        self.run("TTL 255, the last of 64 routers decides", &trip_with(start(), 127, &row), 101, &end);
        row[63] = SILENT;
        let end = packet("BF", "C7 90", "05 41 00 00 00 00");
        self.run("TTL 255, the last of 64 routers silent", &trip_with(start(), 127, &row), 214, &end);
        for hops in [65, 66, 128, 255, 256, 257, 320, 1_000, 5_000] {
            for (kind, hop) in [("routers", PASSES), ("silent routers", SILENT)] {
                let row = vec![hop; hops];
                self.refused(&format!("TTL 255, {hops} {kind}"), &trip_with(start(), 127, &row), 7);
                self.summary(&format!("{hops} {kind}"), &row, None);
            }
        }
    }

    /// One hop out of range, in each kind of place.
    fn bad_hops(&mut self) {
        let bad = [
            ("ceiling 16", knows(16, 0)),
            ("ceiling 259", knows(259, 0)),
            ("ceiling 2^32 - 1", knows(u32::MAX, 0)),
            ("nonce 2^30", knows(3, 1 << 30)),
            ("nonce 2^32 - 1", knows(3, u32::MAX)),
            ("silent, ceiling 16", silent(16, 0)),
            ("silent, ceiling 256", silent(256, 0)),
            ("silent, nonce 2^30", silent(0, 1 << 30)),
            ("silent, nonce 2^31", silent(15, 1 << 31)),
        ];
        for (name, hop) in bad {
            for (hops, places) in [(1, &[0][..]), (2, &[0, 1]), (5, &[0, 2, 4]), (64, &[0, 1, 31, 62, 63])] {
                for at in places {
                    let mut row = vec![PASSES; hops];
                    row[*at] = hop;
                    let name = format!("{name} at {at} of {hops}");
                    self.refused(&name, &trip(&row), 7);
                    self.summary(&name, &row, None);
                }
            }
        }
        let edges = [knows(15, ONES), silent(15, ONES), knows(15, 0), silent(0, 0)];
        let after = packet("3C", "4A 54", "05 7E 00 00 00 00");
        self.run("all numbers at the edge of their ranges", &trip(&edges), 214, &after);
        self.summary("all numbers at the edge of their ranges", &edges, Some([4, 2, 15]));
    }

    fn numbers(&mut self) {
        let row = [PASSES, PASSES];
        let damaged = || trip_with(packet("40", "46 53", CODE_5), 192, &row);
        for ceiling in [16, 17, 256, 271, 1 << 31, u32::MAX] {
            let trip = to_receiver(ceiling, trip(&row));
            self.refused(&format!("the receiver's ceiling {ceiling}"), &trip, 7);
        }
        for code in [0, 16, 17, 256, 261, 1 << 31, u32::MAX] {
            self.refused(&format!("code {code}"), &open_for(code, 192, 0, trip(&row)), 7);
        }
        for nonce in [1 << 30, 1 << 31, u32::MAX] {
            self.refused(&format!("the sender's nonce {nonce}"), &open_for(5, 192, nonce, trip(&row)), 7);
        }
        self.refused("the receiver's 16 comes before a wrong checksum", &to_receiver(16, damaged()), 7);
        self.refused("code 0 comes before a wrong checksum", &open_for(0, 192, 0, damaged()), 7);
        self.refused("nonce 2^30 comes before a wrong checksum", &open_for(5, 192, 1 << 30, damaged()), 7);
        let mut bad_row = damaged();
        bad_row.row[1] = silent(16, 0);
        self.refused("a bad hop comes before a wrong checksum", &bad_row, 7);
        self.refused("the packet alone is faulty", &damaged(), 2);

        let least = packet("40", "4A 52", "01 80 00 00 00 00");
        self.run("code 1", &open_for(1, 192, 0, trip_with(least.clone(), 192, &[])), 101, &least);
        let greatest = packet("40", "3C 55", "0F 80 FF FF FF FC");
        let asked = |nonce| open_for(15, 192, nonce, trip_with(greatest.clone(), 192, &[]));
        self.run("code 15, nonce 2^30 - 1", &asked(ONES), 115, &greatest);
        self.run("code 15, the nonce's highest bit another", &asked(ONES >> 1), 215, &greatest);
        self.run("code 15, the nonce's lowest bit another", &asked(ONES - 1), 215, &greatest);
    }

    /// Packets that no run starts from, along rows that read the options and rows that don't.
    fn faulty_packets(&mut self) {
        let damaged = |range: std::ops::Range<usize>, text: &str| {
            let mut packet = original();
            packet[range].copy_from_slice(&bytes(text));
            packet
        };
        let no_options = "45 00 00 14 00 00 00 00 40 06 66 E2 0A 00 00 01 0A 00 00 02";
        let two_requests = "49 00 00 24 00 00 00 00 40 06 25 C2 0A 00 00 01 0A 00 00 02 \
                            19 08 05 80 00 00 00 00 19 08 05 80 00 00 00 00";
        let options = |checksum: &str, area: &str| {
            let mut packet = packet("40", checksum, CODE_5);
            packet[20..].copy_from_slice(&bytes(area));
            packet
        };
        let cases = [
            ("no bytes at all", vec![], 1),
            ("19 bytes", original()[..19].to_vec(), 1),
            ("27 bytes", original()[..27].to_vec(), 1),
            ("version 6", damaged(0..12, "67 00 00 1C 00 00 00 00 40 06 26 52"), 1),
            ("header length 4", damaged(0..12, "44 00 00 1C 00 00 00 00 40 06 49 52"), 1),
            ("total length 27", damaged(0..12, "47 00 00 1B 00 00 00 00 40 06 46 53"), 1),
            ("total length 29", damaged(0..12, "47 00 00 1D 00 00 00 00 40 06 46 51"), 1),
            ("a checksum one too high", packet("40", "46 53", CODE_5), 2),
            ("checksum 0", packet("40", "00 00", CODE_5), 2),
            ("option length 9", options("46 51", "19 09 05 80 00 00 00 00"), 3),
            ("option length 1", options("46 59", "19 01 05 80 00 00 00 00"), 3),
            ("option length missing", options("60 D0", "01 01 01 01 01 01 01 07"), 3),
            ("a bad length, then a Quick-Start of 4", options("44 D5", "07 01 19 04 00 00 00 00"), 3),
            ("Quick-Start length 7", options("46 53", "19 07 05 80 00 00 00 00"), 5),
            ("a Quick-Start of 4, then a bad length", options("3F 56", "19 04 05 80 07 00 00 00"), 5),
            ("two requests", bytes(two_requests), 5),
            ("no options", bytes(no_options), 4),
            ("a request behind the end", options("DC BB", "00 19 08 05 80 00 00 00"), 4),
            ("a report", packet("40", "C6 51", "85 80 00 00 00 00"), 4),
            ("function 1", packet("40", "36 52", "15 80 00 00 00 00"), 4),
            ("a report with TTL 1", packet("01", "05 52", "85 80 00 00 00 00"), 4),
            ("option length 9, TTL 1", {
                let mut packet = packet("01", "85 51", CODE_5);
                packet[21] = 9;
                packet
            }, 3),
        ];
        let rows = [("no router", &[][..]), ("routers", &[PASSES; 3]), ("silent routers", &[SILENT; 3])];
        for (name, packet, number) in cases {
            for (along, row) in rows {
                self.refused(&format!("{name}, {along}"), &trip_with(packet.clone(), 192, row), number);
            }
        }
    }

    /// Open requests that are not the packet's. Ceiling 3 leaves rate 3, TTL Diff 192 and nonce 960.
    fn sender(&mut self) {
        let lowers = [knows(3, ONES)];
        let lowered = packet("3F", "3A 53", "03 7F 00 00 0F 00");
        let cases = [
            ("code 1", 1, 192, 0, 213),
            ("code 2", 2, 192, 0, 213),
            ("code 3", 3, 192, 0, 103),
            ("code 15", 15, 192, 0, 103),
            ("TTL Diff 191", 5, 191, 0, 214),
            ("TTL Diff 193", 5, 193, 0, 214),
            ("TTL Diff 64", 5, 64, 0, 214),
            ("nonce 1", 5, 192, 1, 215),
            ("nonce 32", 5, 192, 32, 215),
            ("nonce 64", 5, 192, 64, 103),
            ("nonce 960", 5, 192, 960, 103),
            ("nonce 2^30 - 64", 5, 192, (1 << 30) - 64, 103),
            ("code 2, TTL Diff 193, nonce 1", 2, 193, 1, 213),
            ("code 2, nonce 1", 2, 192, 1, 213),
            ("TTL Diff 193, nonce 1", 5, 193, 1, 214),
        ];
        for (name, code, ttl_diff, nonce, number) in cases {
            let trip = open_for(code, ttl_diff, nonce, trip(&lowers));
            self.run(&format!("ceiling 3, open for {name}"), &trip, number, &lowered);
        }
        let untouched = original();
        self.run("rate 5, open for code 4", &open_for(4, 192, 0, trip(&[])), 213, &untouched);
        let four = to_receiver(4, trip(&[]));
        self.run("rate 5, reported as 4, open for code 4", &open_for(4, 192, 0, four), 104, &untouched);
        let none = to_receiver(0, trip(&[]));
        self.run("nothing reported, open for code 4", &open_for(4, 192, 0, none), 40, &untouched);
        let silent = packet("3F", "47 52", CODE_5);
        self.run("a silent router, open for TTL Diff 191", &open_for(5, 191, 0, trip(&[SILENT])), 105, &silent);
        self.run("a silent router, open for code 4", &open_for(4, 192, 0, trip(&[SILENT])), 213, &silent);
        self.run("a silent router, open for nonce 1", &open_for(5, 192, 1, trip(&[SILENT])), 214, &silent);

        // W7 and W8: nonce 960 matches 0 at rate 3, and gives 15 at rate 5
        let raised = packet("40", "37 52", "05 80 00 00 0F 00");
        for (receiver, number) in [(5, 215), (4, 215), (3, 103), (1, 101)] {
            let trip = to_receiver(receiver, trip_with(raised.clone(), 192, &[]));
            let name = format!("nonce 960 for 0, the receiver's ceiling {receiver}");
            self.run(&name, &trip, number, &raised);
        }
        let one = |nonce| open_for(5, 192, nonce, to_receiver(1, trip(&[])));
        self.run("rate 1, open for nonce 3", &one(3), 215, &untouched);
        self.run("rate 1, open for nonce 4", &one(4), 101, &untouched);

        let no_rate = packet("40", "4B 52", "00 80 00 00 00 00");
        self.run("rate 0, no router", &trip_with(no_rate.clone(), 192, &[]), 40, &no_rate);
        let passed = packet("3F", "4C 52", "00 80 00 00 00 00");
        self.run("rate 0, a router", &trip_with(no_rate, 192, &[PASSES]), 40, &passed);
    }

    fn other_bytes(&mut self) {
        let zero = packet("40", "46 D2", "05 00 00 00 00 00");
        let after = packet("3F", "46 D3", "05 FF 00 00 00 00");
        self.run("QS TTL 0 falls to 255", &trip_with(zero.clone(), 64, &[PASSES]), 105, &after);
        self.run("QS TTL 0, no router", &trip_with(zero.clone(), 64, &[]), 105, &zero);
        let one = packet("40", "46 D1", "05 01 00 00 00 00");
        let after = packet("3F", "47 D2", "05 00 00 00 00 00");
        self.run("QS TTL ends at 0", &trip_with(one.clone(), 63, &[PASSES]), 105, &after);
        let after = packet("3E", "47 D3", "05 FF 00 00 00 00");
        self.run("QS TTL passes 0", &trip_with(one, 63, &[PASSES; 2]), 105, &after);

        let lowers = [knows(3, ONES)];
        let reserved = packet("40", "46 4F", "05 80 00 00 00 03");
        let after = packet("3F", "3A 50", "03 7F 00 00 0F 03");
        self.run("reserved bits, lowered", &trip_with(reserved.clone(), 192, &lowers), 103, &after);
        let after = packet("3F", "4C CF", "00 00 00 00 00 03");
        self.run("reserved bits, denied", &trip_with(reserved, 192, &[knows(0, 0)]), 40, &after);

        let behind = [original(), bytes("19 08 07 40 AA")].concat();
        let after = [packet("3F", "3A 53", "03 7F 00 00 0F 00"), bytes("19 08 07 40 AA")].concat();
        self.run("bytes behind the packet", &trip_with(behind, 192, &lowers), 103, &after);

        // before the request: no-operation, an option of two bytes, no-operation
        let before = bytes(
            "48 00 00 20 00 00 00 00 40 06 41 B9 0A 00 00 01 0A 00 00 02 01 94 02 01 19 08 05 80 00 00 00 00",
        );
        let after = bytes(
            "48 00 00 20 00 00 00 00 3F 06 35 BA 0A 00 00 01 0A 00 00 02 01 94 02 01 19 08 03 7F 00 00 0F 00",
        );
        self.run("options before the request", &trip_with(before, 192, &lowers), 103, &after);

        // identification 46 52 makes all other words sum to FFFF: checksums 0000 and FFFF are both right
        let checksum = |identification: &str, ttl: &str, checksum: &str, option: &str| {
            let mut packet = packet(ttl, checksum, option);
            packet[4..6].copy_from_slice(&bytes(identification));
            packet
        };
        let ffff = checksum("46 52", "40", "FF FF", CODE_5);
        self.run("checksum FFFF, no router", &trip_with(ffff.clone(), 192, &[]), 105, &ffff);
        let after = checksum("46 52", "3F", "01 00", CODE_5);
        self.run("checksum FFFF, a silent router", &trip_with(ffff, 192, &[SILENT]), 214, &after);
        // identification 47 52 or 47 53: they sum to FFFF once the TTL, or both TTLs, have fallen by one
        let before = checksum("47 52", "40", "FE FF", CODE_5);
        let after = checksum("47 52", "3F", "00 00", CODE_5);
        self.run("a silent router writes checksum 0000", &trip_with(before, 192, &[SILENT]), 214, &after);
        let before = checksum("47 53", "40", "FE FE", CODE_5);
        let after = checksum("47 53", "3F", "00 00", "05 7F 00 00 00 00");
        self.run("a router writes checksum 0000", &trip_with(before.clone(), 192, &[PASSES]), 105, &after);
        let after = checksum("47 53", "3E", "01 01", "05 7E 00 00 00 00");
        self.run("checksum 0000 on the way", &trip_with(before, 192, &[PASSES; 2]), 105, &after);
    }

    fn summaries(&mut self) {
        let cases: [(&str, &[Hop], [u32; 3]); 13] = [
            ("no router", &[], [0, 0, 15]),
            ("one router", &[knows(7, 0)], [1, 0, 7]),
            ("one router with ceiling 0", &[knows(0, ONES)], [1, 0, 0]),
            ("one silent router", &[silent(7, 0)], [1, 1, 15]),
            ("the first is the least", &[knows(2, 0), knows(9, 0), PASSES], [3, 0, 2]),
            ("the middle one is the least", &[knows(9, 0), knows(2, 0), PASSES], [3, 0, 2]),
            ("the last is the least", &[PASSES, knows(9, 0), knows(2, 0)], [3, 0, 2]),
            ("a silent one's ceiling does not count", &[knows(9, 0), silent(1, 0), knows(8, 0)], [3, 1, 8]),
            ("a silent last one", &[knows(9, 0), knows(8, 0), silent(0, 0)], [3, 1, 8]),
            ("silent ones around", &[silent(3, 0), knows(9, 0), silent(4, 0)], [3, 2, 9]),
            ("64 routers", &[knows(13, ONES); 64], [64, 0, 13]),
            ("64 silent routers", &[SILENT; 64], [64, 64, 15]),
            ("63 silent routers", &[SILENT; 63], [63, 63, 15]),
        ];
        for (name, row, three) in cases {
            self.summary(name, row, Some(three));
        }
        for room in [0, 1, 2, 4, 5, 8, 64, 259] {
            for (kind, row) in [("a row", [PASSES, SILENT]), ("a bad row", [PASSES, silent(16, 0)])] {
                let numbers = vec![0x7777_7777; room];
                let seen = self.memory.summary(&row, &numbers, Spot::End);
                let holds = seen.number == 7 && seen.after == numbers && seen.else_unchanged;
                self.report.test(&format!("summary: {kind}, room for {room} numbers: 7"), holds);
            }
        }
    }
}

fn header(report: &mut Report) {
    let text = header_text(HEADER);
    for part in PROTOTYPES.iter().chain(&DEFINITIONS) {
        report.test(&format!("header: {}", part.trim_end()), text.contains(part));
    }
}

pub fn cases(report: &mut Report) {
    header(report);
    let mut hand = Hand { memory: Memory::new(), report, cases: 0, model_differs: 0 };
    hand.document_01();
    hand.places();
    hand.time_to_live();
    hand.long_rows();
    hand.bad_hops();
    hand.numbers();
    hand.faulty_packets();
    hand.sender();
    hand.other_bytes();
    hand.summaries();
    let (cases, differs) = (hand.cases, hand.model_differs);
    report.test(&format!("the model says the same in {cases} cases, {differs} differ"), differs == 0);
}
