//! Names for what happened in a call, so that the comparison can count each kind and require it.

use crate::model::{total, Answer, Call, Decision, Done, Lent, Refusal};
use crate::packets::folded_sum;

/// A checksum that would be right over other bytes, and where packets are lent; every function must
/// meet these.
pub const OVER_TOO_FEW: &str = "2: right over the first 20 bytes";
pub const OVER_TOO_MANY: &str = "2: right over header and data";
pub const ODD: &str = "packet at an odd address";
pub const EVEN: &str = "packet at an even address";
pub const AT_THE_END: &str = "packet up to a page that must not be touched";

pub const ALL: [&str; 5] = [OVER_TOO_FEW, OVER_TOO_MANY, ODD, EVEN, AT_THE_END];

/// A ledger that earlier packets of the same run have filled, changed by one more.
pub const SHARED: &str = "row filled by earlier packets";

/// The result numbers and the kinds of outcome that each function must meet.
pub const ROUTER: &[&str] = &[
    "returns 0",
    "returns 1",
    "returns 2",
    "returns 3",
    "returns 5",
    "returns 6",
    "returns 7",
    "1: fewer than 20 bytes lent",
    "1: version not 4",
    "1: header length field below 5",
    "1: total length below the header",
    "1: total length above the slice",
    "3: length byte missing",
    "3: length 0 or 1",
    "3: length too long",
    "3: at type 25",
    "3: behind a good Quick-Start option",
    "5: length not 8",
    "5: a second one",
    "3 or 5, and IP TTL 0 or 1 too",
    "6: IP TTL 0",
    "6: IP TTL 1",
    "7: ceiling",
    "7: fresh nonce",
    "7, and the packet is faulty too",
    "no option",
    "no option, but a look-alike behind an end",
    "function 8",
    "function neither 0 nor 8",
    "rate 0",
    "approved, rate unchanged",
    "approved, rate lowered by one",
    "approved, rate lowered by several",
    "approved with rate 15",
    "denied",
    "denied with nonce and QS TTL above 0",
    "QS TTL 0 falls to 255",
    "reserved bits set, approved",
    "reserved bits set, denied",
    "nonce changed by a lowering",
    "nonce of ones, rate lowered",
    "nonce of zeros, rate lowered",
    "IP TTL 2",
    "IP TTL 255",
    "header of 20 bytes",
    "header of 60 bytes",
    "option behind others",
    "option before others",
    "option at an odd place",
    "slice longer than the packet",
    "slice above 64 KiB",
    "checksum field FFFF came",
    "checksum field 0000 came",
    "checksum 0000 written",
    "checksum 0000 written, option changed",
];

pub const LEDGER: &[&str] = &[
    "returns 8",
    "returns 9",
    "7: slots 0",
    "7: slots above 64",
    "7: allowance",
    "6, and 8 or 9 would follow",
    "8: exact sum one above the allowance",
    "8: the sum wraps 2^64 to at most the allowance",
    "8: though moving on would make room",
    "8, and 9 would follow",
    "9: one tick before",
    "not asked",
    "not asked: ceiling 0",
    "not asked, and 8 or 9 would follow",
    "asked, granted all",
    "asked, granted less",
    "asked, granted 0",
    "granted 0, and the tick moves on",
    "asked with a ceiling below the rate",
    "asked with a rate below the ceiling",
    "asked in the same tick",
    "asked one tick later",
    "asked so late that every slot is zeroed",
    "asked later, some slots kept",
    "room made by moving on",
    "row at the allowance as lent",
    "all of the allowance granted",
    "allowance 0",
    "allowance 2^40",
    "1 slot",
    "64 slots",
    "tick above 2^63",
    SHARED,
];

pub const SILENT: &[&str] = &[
    "returns 0",
    "returns 1",
    "returns 2",
    "returns 6",
    "forwards bad options",
    "forwards a request",
    "6: IP TTL 0",
    "6: IP TTL 1",
    "slice longer than the packet",
    "slice above 64 KiB",
    "checksum field FFFF came",
    "checksum 0000 written",
];

pub const RECEIVER: &[&str] = &[
    "returns 0",
    "returns 1",
    "returns 2",
    "returns 3",
    "returns 4",
    "returns 5",
    "returns 7",
    "returns 40",
    "3: length byte missing",
    "3: length 0 or 1",
    "3: length too long",
    "5: length not 8",
    "5: a second one",
    "4: no option",
    "4: function 8",
    "4: function neither 0 nor 8",
    "7: ceiling",
    "7: response shorter than 8",
    "7: response longer than 8",
    "7, and the packet is faulty too",
    "rate reported as it came",
    "rate lowered by the ceiling",
    "unanswered: rate 0",
    "unanswered: ceiling 0",
    "QS TTL above IP TTL",
    "QS TTL below IP TTL",
    "QS TTL 0 answered",
    "reserved bits set, answered",
    "IP TTL 0 or 1 answered",
    "slice longer than the packet",
    "slice above 64 KiB",
];

pub const MARK: &[&str] = &[
    "returns 0",
    "returns 1",
    "returns 2",
    "returns 41",
    "CE was clear",
    "CE was set before",
    "drop with CE set",
    "marks bad options",
    "marks at IP TTL 0 or 1",
    "checksum field FFFF came",
    "checksum FFFF becomes 0000, CE was set before",
    "checksum 0000 written, CE was clear",
    "slice above 64 KiB",
];

const RETURNS: [&str; 10] = [
    "returns 0",
    "returns 1",
    "returns 2",
    "returns 3",
    "returns 4",
    "returns 5",
    "returns 6",
    "returns 7",
    "returns 8",
    "returns 9",
];

/// Where the options walk ended, told apart more finely than by the refusal.
#[derive(PartialEq)]
enum Walk {
    None { look_alike: bool },
    At(usize),
    Fault { name: &'static str, type_25: bool, after_one: bool },
}

/// Walks the options of a header whose lengths are right.
fn walk(packet: &[u8]) -> Walk {
    let end = header_length(packet);
    let mut found = None;
    let mut at = 20;
    while at < end && packet[at] != 0 {
        if packet[at] == 1 {
            at += 1;
            continue;
        }
        let type_25 = packet[at] == 25;
        let fault = |name| Walk::Fault { name, type_25, after_one: found.is_some() };
        if at + 1 == end {
            return fault("3: length byte missing");
        }
        let length = packet[at + 1] as usize;
        if length < 2 {
            return fault("3: length 0 or 1");
        }
        if at + length > end {
            return fault("3: length too long");
        }
        if type_25 && length != 8 {
            return fault("5: length not 8");
        }
        if type_25 && found.is_some() {
            return fault("5: a second one");
        }
        if type_25 {
            found = Some(at);
        }
        at += length;
    }
    let look_alike = at < end && packet[at..end].windows(2).any(|pair| pair == [25, 8]);
    found.map_or(Walk::None { look_alike }, Walk::At)
}

fn header_length(packet: &[u8]) -> usize {
    4 * (packet[0] & 15) as usize
}

fn number16(packet: &[u8], at: usize) -> usize {
    packet[at] as usize * 256 + packet[at + 1] as usize
}

/// What happened, by the names above, for the counts of one function.
pub fn kinds(call: Call, before: &Lent, answer: &Answer) -> Vec<&'static str> {
    let packet = &before.packet[..];
    let mut kinds = vec![match answer.number() {
        40 => "returns 40",
        41 => "returns 41",
        number => RETURNS[number as usize],
    }];
    match answer.said {
        Err(Refusal::Header) => kinds.push(header_fault(packet)),
        Err(Refusal::Checksum) => {
            if folded_sum(&packet[..20]) == 0xFFFF {
                kinds.push(OVER_TOO_FEW);
            }
            if folded_sum(&packet[..packet.len() & !1]) == 0xFFFF {
                kinds.push(OVER_TOO_MANY);
            }
        }
        Err(Refusal::OptionLength) | Err(Refusal::QuickStart) => option_fault(packet, &mut kinds),
        Err(Refusal::TtlExpired) => {
            kinds.push(if packet[8] == 0 { "6: IP TTL 0" } else { "6: IP TTL 1" })
        }
        Err(Refusal::OutOfRange) => out_of_range(call, before, &mut kinds),
        Err(Refusal::NoRequest) => kinds.push(match walk(packet) {
            Walk::At(at) if packet[at + 2] >> 4 == 8 => "4: function 8",
            Walk::At(_) => "4: function neither 0 nor 8",
            _ => "4: no option",
        }),
        Err(_) => {}
        Ok(done) => accepted(done, packet, &answer.after, &mut kinds),
    }
    if let Call::RouterLedger { ceiling, allowance, now, .. } = call {
        ledger(before, answer, ceiling, allowance, now, &mut kinds);
    }
    kinds
}

fn header_fault(packet: &[u8]) -> &'static str {
    if packet.len() < 20 {
        "1: fewer than 20 bytes lent"
    } else if packet[0] >> 4 != 4 {
        "1: version not 4"
    } else if packet[0] & 15 < 5 {
        "1: header length field below 5"
    } else if number16(packet, 2) < header_length(packet) {
        "1: total length below the header"
    } else {
        "1: total length above the slice"
    }
}

fn option_fault(packet: &[u8], kinds: &mut Vec<&'static str>) {
    if let Walk::Fault { name, type_25, after_one } = walk(packet) {
        kinds.push(name);
        if name.starts_with('3') && type_25 {
            kinds.push("3: at type 25");
        }
        if name.starts_with('3') && after_one {
            kinds.push("3: behind a good Quick-Start option");
        }
    }
    if packet[8] < 2 {
        kinds.push("3 or 5, and IP TTL 0 or 1 too");
    }
}

fn out_of_range(call: Call, before: &Lent, kinds: &mut Vec<&'static str>) {
    let (ceiling, fresh, allowance) = match call {
        Call::Router { ceiling, fresh } => (ceiling, fresh, 0),
        Call::RouterLedger { ceiling, fresh, allowance, .. } => (ceiling, fresh, allowance),
        Call::Receiver { ceiling } => (ceiling, 0, 0),
        _ => (0, 0, 0),
    };
    let with_row = matches!(call, Call::RouterLedger { .. });
    let with_response = matches!(call, Call::Receiver { .. });
    let (slots, room) = (before.row.len(), before.response.len());
    let wrong: Vec<&'static str> = [
        (ceiling > 15, "7: ceiling"),
        (fresh >= 1 << 30, "7: fresh nonce"),
        (with_row && slots == 0, "7: slots 0"),
        (with_row && slots > 64, "7: slots above 64"),
        (allowance > 1 << 40, "7: allowance"),
        (with_response && room < 8, "7: response shorter than 8"),
        (with_response && room > 8, "7: response longer than 8"),
    ]
    .into_iter()
    .filter(|(holds, _)| *holds)
    .map(|(_, name)| name)
    .collect();
    // counted only where it is the one thing wrong, so that no other number could have caused the 7
    if wrong.len() == 1 {
        kinds.push(wrong[0]);
    }
    if before.packet.len() < 20 || before.packet[0] >> 4 != 4 {
        kinds.push("7, and the packet is faulty too");
    }
}

fn accepted(done: Done, packet: &[u8], after: &Lent, kinds: &mut Vec<&'static str>) {
    let mut add = |holds: bool, name: &'static str| {
        if holds {
            kinds.push(name);
        }
    };
    let (header, total) = (header_length(packet), number16(packet, 2));
    let (ttl, checksum, sealed) = (packet[8], number16(packet, 10), number16(&after.packet, 10));
    let place = match walk(packet) {
        Walk::At(at) => Some(at),
        _ => None,
    };
    let qs_ttl = place.map_or(0, |at| packet[at + 3]);
    let word = place.map_or(0, |at| u32::from_be_bytes(packet[at + 4..at + 8].try_into().unwrap()));
    let reserved = word & 3 != 0;
    add(packet.len() > total, "slice longer than the packet");
    add(packet.len() > 65_536, "slice above 64 KiB");
    if done != Done::Drop {
        add(checksum == 0xFFFF, "checksum field FFFF came");
        add(checksum == 0, "checksum field 0000 came");
        add(sealed == 0, "checksum 0000 written");
    }
    let faulty = matches!(walk(packet), Walk::Fault { .. });
    match done {
        Done::Forwarded { decision, .. } => {
            add(ttl == 2, "IP TTL 2");
            add(ttl == 255, "IP TTL 255");
            add(header == 20, "header of 20 bytes");
            add(header == 60, "header of 60 bytes");
            let look_alike = matches!(walk(packet), Walk::None { look_alike: true });
            add(look_alike, "no option, but a look-alike behind an end");
            let changed = matches!(decision, Decision::Approved { .. } | Decision::Denied { .. });
            add(changed && sealed == 0, "checksum 0000 written, option changed");
            if let (true, Some(at)) = (changed, place) {
                add(at > 20, "option behind others");
                add(at + 8 < header, "option before others");
                add(at % 2 == 1, "option at an odd place");
            }
            match decision {
                Decision::NoOption => add(true, "no option"),
                Decision::OtherFunction(8) => add(true, "function 8"),
                Decision::OtherFunction(_) => add(true, "function neither 0 nor 8"),
                Decision::RateZero => add(true, "rate 0"),
                Decision::Denied { .. } => {
                    add(true, "denied");
                    add(word >> 2 != 0 && qs_ttl != 0, "denied with nonce and QS TTL above 0");
                    add(reserved, "reserved bits set, denied");
                }
                Decision::Approved { from, to } => {
                    add(from == to, "approved, rate unchanged");
                    add(from == to + 1, "approved, rate lowered by one");
                    add(from > to + 1, "approved, rate lowered by several");
                    add(to == 15, "approved with rate 15");
                    add(qs_ttl == 0, "QS TTL 0 falls to 255");
                    add(reserved, "reserved bits set, approved");
                    add(from > to && word >> 2 == 0x3FFF_FFFF, "nonce of ones, rate lowered");
                    add(from > to && word >> 2 == 0, "nonce of zeros, rate lowered");
                    let at = place.unwrap();
                    let kept = after.packet[at + 4..at + 8] == packet[at + 4..at + 8];
                    add(!kept, "nonce changed by a lowering");
                }
            }
        }
        Done::SilentlyForwarded => {
            add(faulty, "forwards bad options");
            add(place.is_some_and(|at| packet[at + 2] >> 4 == 0), "forwards a request");
        }
        Done::Answered { from, rate } => {
            add(from == rate, "rate reported as it came");
            add(from > rate, "rate lowered by the ceiling");
            add(qs_ttl > ttl, "QS TTL above IP TTL");
            add(qs_ttl < ttl, "QS TTL below IP TTL");
            add(qs_ttl == 0, "QS TTL 0 answered");
            add(reserved, "reserved bits set, answered");
            add(ttl < 2, "IP TTL 0 or 1 answered");
        }
        Done::Unanswered { from } => {
            add(from == 0, "unanswered: rate 0");
            add(from > 0, "unanswered: ceiling 0");
        }
        Done::Marked => {
            let ce = packet[1] & 1 == 1;
            add(!ce, "CE was clear");
            add(ce, "CE was set before");
            add(faulty, "marks bad options");
            add(ttl < 2, "marks at IP TTL 0 or 1");
            let both = ce && checksum == 0xFFFF && sealed == 0;
            add(both, "checksum FFFF becomes 0000, CE was set before");
            add(!ce && sealed == 0, "checksum 0000 written, CE was clear");
        }
        Done::Drop => add(packet[1] & 1 == 1, "drop with CE set"),
    }
}

fn ledger(
    before: &Lent,
    answer: &Answer,
    ceiling: u32,
    allowance: u64,
    now: u64,
    kinds: &mut Vec<&'static str>,
) {
    let mut add = |holds: bool, name: &'static str| {
        if holds {
            kinds.push(name);
        }
    };
    let lent_total = total(&before.row);
    let above = lent_total > u128::from(allowance);
    let back = now < before.tick;
    let slots = before.row.len() as u64;
    match answer.said {
        Err(Refusal::TtlExpired) => add(above || back, "6, and 8 or 9 would follow"),
        Err(Refusal::RowAboveAllowance) => {
            add(lent_total == u128::from(allowance) + 1, "8: exact sum one above the allowance");
            let wraps = lent_total >> 64 != 0 && lent_total as u64 <= allowance;
            add(wraps, "8: the sum wraps 2^64 to at most the allowance");
            let all_zeroed = !back && now - before.tick >= slots;
            add(all_zeroed, "8: though moving on would make room");
            add(back, "8, and 9 would follow");
        }
        Err(Refusal::BackInTime) => add(now + 1 == before.tick, "9: one tick before"),
        Ok(Done::Forwarded { ledger: None, decision }) => {
            add(true, "not asked");
            let denied = matches!(decision, Decision::Denied { .. });
            add(ceiling == 0 && denied, "not asked: ceiling 0");
            add(above || back, "not asked, and 8 or 9 would follow");
        }
        Ok(Done::Forwarded { ledger: Some(asked), decision }) => {
            let from = match decision {
                Decision::Approved { from, .. } | Decision::Denied { from } => from,
                _ => 0,
            };
            let gone = now - before.tick;
            add(asked.grant == asked.wanted, "asked, granted all");
            add(asked.grant > 0 && asked.grant < asked.wanted, "asked, granted less");
            add(asked.grant == 0, "asked, granted 0");
            add(asked.grant == 0 && gone > 0, "granted 0, and the tick moves on");
            add(ceiling < from, "asked with a ceiling below the rate");
            add(ceiling > from, "asked with a rate below the ceiling");
            add(gone == 0, "asked in the same tick");
            add(gone == 1, "asked one tick later");
            add(gone >= slots && lent_total > 0, "asked so late that every slot is zeroed");
            let mut slots_then_and_now = before.row.iter().zip(&answer.after.row);
            let kept = slots_then_and_now.any(|(then, now)| then == now && *then > 0);
            add(gone > 0 && kept, "asked later, some slots kept");
            let room = u128::from(allowance) - lent_total;
            let needed = u128::from(crate::model::rate_of(asked.grant));
            add(needed > room, "room made by moving on");
            add(lent_total == u128::from(allowance), "row at the allowance as lent");
            let full = total(&answer.after.row) == u128::from(allowance);
            add(full && asked.grant > 0, "all of the allowance granted");
            add(allowance == 0, "allowance 0");
            add(allowance == 1 << 40, "allowance 2^40");
            add(slots == 1, "1 slot");
            add(slots == 64, "64 slots");
            add(before.tick > 1 << 63, "tick above 2^63");
        }
        _ => {}
    }
}
