//! Cases worked out by hand: document 01's packet, its neighbours, and the text of the C header.

use crate::calls::{Memory, PROTOTYPES};
use crate::model::{Call, Lent};
use crate::report::{bytes, header_text, hex, Report};
use crate::yard::Spot;

/// Document 01's packet: IP TTL 64, a request for code 5 with QS TTL 128 and nonce 0.
const PACKET: &str = "47 00 00 1C 00 00 00 00 40 06 46 52 0A 00 00 01 0A 00 00 02 19 08 05 80 00 00 00 00";
const ALL_ONES: u32 = (1 << 30) - 1;
const HEADER: &str = include_str!("../include/quickstart.h");

fn lent(packet: &str) -> Lent {
    Lent { packet: bytes(packet), response: vec![0xEE; 8], row: vec![0; 4], tick: 10 }
}

struct Hand<'a> {
    memory: Memory,
    report: &'a mut Report,
}

impl Hand<'_> {
    /// The call must answer `number` and leave exactly `after`.
    fn case(&mut self, name: &str, call: Call, before: &Lent, number: u32, after: &Lent) {
        let seen = self.memory.call(call, before, Spot::Middle(1));
        let holds = seen.number == number && seen.after == *after && seen.guards_stand;
        if !holds {
            println!("  answered {} and not {number}; packet {}", seen.number, hex(&seen.after.packet));
            println!("  response {}, tick {}", hex(&seen.after.response), seen.after.tick);
            println!("  row {:?}", seen.after.row);
        }
        self.report.test(&format!("case: {name}"), holds);
    }

    fn refused(&mut self, name: &str, call: Call, before: &Lent, number: u32) {
        self.case(name, call, before, number, before);
    }

    fn document_01(&mut self) {
        let router = Call::Router { ceiling: 3, fresh: ALL_ONES };
        let receiver = Call::Receiver { ceiling: 15 };
        let before = lent(PACKET);
        let mut after = before.clone();
        after.packet = bytes("47 00 00 1C 00 00 00 00 3F 06 3A 53 0A 00 00 01 0A 00 00 02 19 08 03 7F 00 00 0F 00");
        self.case("document 01's packet through a router", router, &before, 0, &after);
        let mut answered = after.clone();
        answered.response = bytes("1B 08 03 C0 00 00 0F 00");
        self.case("then the receiver's response", receiver, &after, 0, &answered);

        let mut silent = before.clone();
        silent.packet = bytes("47 00 00 1C 00 00 00 00 3F 06 47 52 0A 00 00 01 0A 00 00 02 19 08 05 80 00 00 00 00");
        self.case("document 01's packet through a silent router", Call::SilentRouter, &before, 0, &silent);
        // after the silent router TTL Diff is 63 - 128 modulo 256 = 191
        let mut answered = silent.clone();
        answered.response = bytes("1B 08 05 BF 00 00 00 00");
        self.case("TTL Diff 191 after a silent router", receiver, &silent, 0, &answered);
        self.refused("document 01's packet is not marked: ECT is clear", Call::Mark, &before, 41);

        // ceiling 0: the option becomes 19 08 00 00 00 00 00 00, so 05 80 leaves the sum and the TTL's 01 00
        let mut denied = before.clone();
        denied.packet = bytes("47 00 00 1C 00 00 00 00 3F 06 4C D2 0A 00 00 01 0A 00 00 02 19 08 00 00 00 00 00 00");
        self.case("document 01's packet denied", Call::Router { ceiling: 0, fresh: ALL_ONES }, &before, 0, &denied);
        self.refused("receiver with ceiling 0 is silent", Call::Receiver { ceiling: 0 }, &before, 40);
        self.refused("the denied packet is unanswered", receiver, &denied, 40);
    }

    /// What looks like a denial and is none, and what looks like a request and is none.
    fn look_alikes(&mut self) {
        let router = Call::Router { ceiling: 15, fresh: ALL_ONES };
        let receiver = Call::Receiver { ceiling: 15 };
        let before = lent("47 00 00 1C 00 00 00 00 40 06 46 D2 0A 00 00 01 0A 00 00 02 19 08 05 00 00 00 00 00");
        let mut after = before.clone();
        after.packet = bytes("47 00 00 1C 00 00 00 00 3F 06 46 D3 0A 00 00 01 0A 00 00 02 19 08 05 FF 00 00 00 00");
        self.case("QS TTL 0 falls to 255", router, &before, 0, &after);
        let mut answered = before.clone();
        answered.response = bytes("1B 08 05 40 00 00 00 00");
        self.case("QS TTL 0 is answered", receiver, &before, 0, &answered);

        let report = lent("47 00 00 1C 00 00 00 00 40 06 C6 51 0A 00 00 01 0A 00 00 02 19 08 85 80 00 00 00 00");
        let mut after = report.clone();
        after.packet[8] = 0x3F;
        after.packet[10] = 0xC7;
        let low = Call::Router { ceiling: 3, fresh: ALL_ONES };
        self.case("a report is not lowered", low, &report, 0, &after);
        self.refused("a report is no request", receiver, &report, 4);
    }

    fn time_to_live(&mut self) {
        // TTL 2 in place of 64: the checksum grows by 3E 00
        let router = Call::Router { ceiling: 15, fresh: 0 };
        let two = lent("47 00 00 1C 00 00 00 00 02 06 84 52 0A 00 00 01 0A 00 00 02 19 08 05 80 00 00 00 00");
        let mut one = two.clone();
        one.packet = bytes("47 00 00 1C 00 00 00 00 01 06 85 53 0A 00 00 01 0A 00 00 02 19 08 05 7F 00 00 00 00");
        self.case("TTL 2 passes one router", router, &two, 0, &one);
        self.refused("TTL 1 gives 6", router, &one, 6);
        self.refused("TTL 1 gives 6 with a ledger", ledger_call(15, 1 << 40, 10), &one, 6);
        self.refused("TTL 1 gives 6 in a silent router", Call::SilentRouter, &one, 6);
        let mut answered = one.clone();
        answered.response = bytes("1B 08 05 82 00 00 00 00");
        self.case("TTL 1 is no fault for a receiver", Call::Receiver { ceiling: 15 }, &one, 0, &answered);
    }

    fn numbers(&mut self) {
        let good = lent(PACKET);
        let mut bad = good.clone();
        bad.packet[11] ^= 1;
        let router = |ceiling, fresh| Call::Router { ceiling, fresh };
        self.refused("ceiling 16 gives 7", router(16, 0), &good, 7);
        self.refused("nonce 2^30 gives 7", router(3, 1 << 30), &good, 7);
        self.refused("7 comes before 2", router(16, 0), &bad, 7);
        self.refused("a wrong checksum gives 2", router(3, 0), &bad, 2);
        self.refused("a receiver's ceiling 16 gives 7", Call::Receiver { ceiling: 16 }, &good, 7);
        for room in [0, 7, 9] {
            let mut other = good.clone();
            other.response = vec![0xEE; room];
            self.refused(&format!("a response of {room} bytes gives 7"), Call::Receiver { ceiling: 15 }, &other, 7);
        }
        for slots in [0, 65] {
            let mut other = good.clone();
            other.row = vec![0; slots];
            self.refused(&format!("{slots} slots give 7"), ledger_call(15, 0, 10), &other, 7);
        }
        self.refused("an allowance of 2^40 + 1 gives 7", ledger_call(15, (1 << 40) + 1, 10), &good, 7);
        let mut nothing = good.clone();
        nothing.packet = vec![];
        for call in [router(3, 0), Call::SilentRouter, Call::Receiver { ceiling: 3 }, Call::Mark] {
            self.refused(&format!("no bytes at all give 1: {call:?}"), call, &nothing, 1);
        }
    }

    fn ledger(&mut self) {
        // code 5 is 1,280,000 bits a second, code 2 is 160,000
        let mut full = lent(PACKET);
        full.row = vec![7, 0, 0, 1_000_000];
        let mut after = full.clone();
        // tick 12 from 10: slots 3 and 0 become 0, and all of the allowance is free again
        after.row = vec![1_280_000, 0, 0, 0];
        after.tick = 12;
        after.packet = bytes("47 00 00 1C 00 00 00 00 3F 06 47 53 0A 00 00 01 0A 00 00 02 19 08 05 7F 00 00 00 00");
        self.case("a ledger moved on two ticks", ledger_call(15, 1_280_000, 12), &full, 0, &after);
        // in the same tick, 279,993 bits a second are left of it: code 2, 160,000
        let mut after = full.clone();
        after.row = vec![7, 0, 160_000, 1_000_000];
        after.packet = bytes("47 00 00 1C 00 00 00 00 3F 06 3A 93 0A 00 00 01 0A 00 00 02 19 08 02 7F 00 00 0F C0");
        self.case("a ledger grants what is left", ledger_call(15, 1_280_000, 10), &full, 0, &after);
        self.refused("one above the allowance gives 8", ledger_call(15, 1_000_006, 12), &full, 8);
        self.refused("8 comes before 9", ledger_call(15, 1_000_006, 9), &full, 8);
        self.refused("a tick before gives 9", ledger_call(15, 1_000_007, 9), &full, 9);
        let mut wraps = full.clone();
        wraps.row = vec![1 << 63, 1 << 63, 5];
        self.refused("2^63, 2^63 and 5 give 8", ledger_call(15, 1 << 40, 10), &wraps, 8);
        // ceiling 0 denies and asks no ledger, however the row is
        let mut denied = wraps.clone();
        denied.packet = bytes("47 00 00 1C 00 00 00 00 3F 06 4C D2 0A 00 00 01 0A 00 00 02 19 08 00 00 00 00 00 00");
        self.case("ceiling 0 leaves the ledger alone", ledger_call(0, 0, 0), &wraps, 0, &denied);
    }

    fn marking(&mut self) {
        // ECT set, CE clear, and ECT and CE set; the checksum falls by 2 and by 3
        let ect = lent("47 02 00 1C 00 00 00 00 40 06 46 50 0A 00 00 01 0A 00 00 02 19 08 05 80 00 00 00 00");
        let mut marked = ect.clone();
        marked.packet = bytes("47 03 00 1C 00 00 00 00 40 06 46 4F 0A 00 00 01 0A 00 00 02 19 08 05 80 00 00 00 00");
        self.case("marking sets CE", Call::Mark, &ect, 0, &marked);
        self.case("marking what is marked changes nothing", Call::Mark, &marked, 0, &marked);
        // identification 46 4F makes all other words sum to FFFF: 0000 and FFFF are both right
        let ffff = lent("47 03 00 1C 46 4F 00 00 40 06 FF FF 0A 00 00 01 0A 00 00 02 19 08 05 80 00 00 00 00");
        let mut zero = ffff.clone();
        zero.packet[10..12].fill(0);
        self.case("marking writes 0000 where FFFF came", Call::Mark, &ffff, 0, &zero);
        // identification 47 4F: the words sum to FFFF once the TTL has fallen
        let before = lent("47 03 00 1C 47 4F 00 00 40 06 FE FF 0A 00 00 01 0A 00 00 02 19 08 05 80 00 00 00 00");
        let mut after = before.clone();
        after.packet[8] = 0x3F;
        after.packet[10..12].fill(0);
        self.case("a silent router writes 0000 and not FFFF", Call::SilentRouter, &before, 0, &after);
        let mut after = ffff.clone();
        after.packet[8] = 0x3F;
        after.packet[10..12].copy_from_slice(&[1, 0]);
        self.case("a silent router takes FFFF", Call::SilentRouter, &ffff, 0, &after);
    }
}

fn ledger_call(ceiling: u32, allowance: u64, now: u64) -> Call {
    Call::RouterLedger { ceiling, fresh: ALL_ONES, allowance, now }
}

fn header(report: &mut Report) {
    let text = header_text(HEADER);
    for prototype in PROTOTYPES {
        report.test(&format!("header: {prototype}"), text.contains(prototype));
    }
    report.test("header: QS_ABI is 1", text.contains("#define QS_ABI 1 "));
}

pub fn cases(report: &mut Report) {
    header(report);
    let mut hand = Hand { memory: Memory::new(), report };
    hand.document_01();
    hand.look_alikes();
    hand.time_to_live();
    hand.numbers();
    hand.ledger();
    hand.marking();
}
