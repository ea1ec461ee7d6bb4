//! The rules of document 01 written a second time, to compare the exported functions with.
//!
//! It is written from the papers alone, by other means than the library's and with no thought of
//! speed: a header is taken apart into a structure and put together again, the options are cut off
//! the front of their area one after the other, the nonce is a list of fifteen two-bit fields, sums
//! are taken in 128 bits, and the ledger's row is zeroed tick by tick. A sentence in quotation marks
//! is document 01's.

/// Refusals, with the numbers of document 01's table.
#[derive(Clone, Copy, PartialEq, Eq, Debug)]
pub enum Refusal {
    Header = 1,
    Checksum = 2,
    OptionLength = 3,
    NoRequest = 4,
    QuickStart = 5,
    TtlExpired = 6,
    OutOfRange = 7,
    RowAboveAllowance = 8,
    BackInTime = 9,
}
use Refusal::*;

/// All that a caller lends to a call. A call that is not given a part leaves it as it is.
#[derive(Clone, PartialEq, Eq, Debug)]
pub struct Lent {
    pub packet: Vec<u8>,
    pub response: Vec<u8>,
    pub row: Vec<u64>,
    pub tick: u64,
}

/// One of the five calls, with its numbers.
#[derive(Clone, Copy, Debug)]
pub enum Call {
    Router { ceiling: u32, fresh: u32 },
    RouterLedger { ceiling: u32, fresh: u32, allowance: u64, now: u64 },
    SilentRouter,
    Receiver { ceiling: u32 },
    Mark,
}

/// What a router that knows did with the Quick-Start option.
#[derive(Clone, Copy, PartialEq, Eq, Debug)]
pub enum Decision {
    NoOption,
    OtherFunction(u8),
    RateZero,
    Approved { from: u32, to: u32 },
    Denied { from: u32 },
}

/// What the ledger was asked for and what it granted.
#[derive(Clone, Copy, PartialEq, Eq, Debug)]
pub struct Asked {
    pub wanted: u32,
    pub grant: u32,
}

/// What an accepted call did.
#[derive(Clone, Copy, PartialEq, Eq, Debug)]
pub enum Done {
    Forwarded { decision: Decision, ledger: Option<Asked> },
    SilentlyForwarded,
    Answered { from: u32, rate: u32 },
    Unanswered { from: u32 },
    Marked,
    Drop,
}

/// The answer to a call and the lent buffers after it.
#[derive(Clone, Debug)]
pub struct Answer {
    pub said: Result<Done, Refusal>,
    pub after: Lent,
}

impl Answer {
    /// The number that the exported function returns.
    pub fn number(&self) -> u32 {
        match self.said {
            Err(refusal) => refusal as u32,
            Ok(Done::Unanswered { .. }) => 40,
            Ok(Done::Drop) => 41,
            Ok(_) => 0,
        }
    }
}

/// A call on what is lent. That a refused call changes nothing is said here, once for all calls.
pub fn answer(call: Call, before: &Lent) -> Answer {
    let mut after = before.clone();
    let said = match call {
        Call::Router { ceiling, fresh } => router(&mut after, ceiling, fresh),
        Call::RouterLedger { ceiling, fresh, allowance, now } => {
            router_with_ledger(&mut after, ceiling, fresh, allowance, now)
        }
        Call::SilentRouter => silent_router(&mut after),
        Call::Receiver { ceiling } => receiver(&mut after, ceiling),
        Call::Mark => mark(&mut after),
    };
    if said.is_err() {
        after = before.clone();
    }
    Answer { said, after }
}

fn refuse_unless(holds: bool, refusal: Refusal) -> Result<(), Refusal> {
    if holds { Ok(()) } else { Err(refusal) }
}

// ---- Steps of speed ----

/// "Code 0 means nothing. Code N from 1 to 15 means 40,000 times 2 to the N bits a second."
pub fn rate_of(code: u32) -> u64 {
    if code == 0 {
        return 0;
    }
    (0..code).fold(40_000, |rate, _| rate + rate)
}

// ---- The header ----

/// A packet taken apart: the fields of its header, its options area, and all that lies behind.
struct Packet {
    version_and_length: u8,
    service: u8,
    length_identification_fragment: Vec<u8>,
    ttl: u8,
    protocol: u8,
    checksum: u64,
    addresses: Vec<u8>,
    options: Vec<u8>,
    behind: Vec<u8>,
}

/// The next `count` bytes, cut off the front of `bytes`.
fn cut(bytes: &mut &[u8], count: usize) -> Vec<u8> {
    let (front, rest) = bytes.split_at(count);
    *bytes = rest;
    front.to_vec()
}

fn number16(bytes: &[u8]) -> u64 {
    u64::from(bytes[0]) * 256 + u64::from(bytes[1])
}

/// "The one's complement sum of its 16-bit words, folded". Folding adds the carries to the low 16
/// bits until none is left: that is the remainder by 65,535, save that a sum above 0 never folds to
/// 0 but to 65,535.
fn folded_sum(header: &[u8]) -> u64 {
    let sum: u64 = header.chunks(2).map(number16).sum();
    if sum == 0 { 0 } else { (sum - 1) % 65_535 + 1 }
}

impl Packet {
    /// Refusal 1, then 2; else the packet taken apart.
    fn read(lent: &[u8]) -> Result<Packet, Refusal> {
        // 1: "slice, version, header or total length wrong"; "version 4, length field 5 to 15,
        // total length at least the header and at most the lent slice".
        refuse_unless(lent.len() >= 20, Header)?;
        refuse_unless(lent[0] / 16 == 4, Header)?;
        let words = usize::from(lent[0] % 16);
        refuse_unless((5..=15).contains(&words), Header)?;
        let total = number16(&lent[2..4]) as usize;
        refuse_unless(4 * words <= total && total <= lent.len(), Header)?;
        // 2: the sum "is 65,535".
        refuse_unless(folded_sum(&lent[..4 * words]) == 65_535, Checksum)?;

        let mut bytes = lent;
        Ok(Packet {
            version_and_length: cut(&mut bytes, 1)[0],
            service: cut(&mut bytes, 1)[0],
            length_identification_fragment: cut(&mut bytes, 6),
            ttl: cut(&mut bytes, 1)[0],
            protocol: cut(&mut bytes, 1)[0],
            checksum: number16(&cut(&mut bytes, 2)),
            addresses: cut(&mut bytes, 8),
            options: cut(&mut bytes, 4 * words - 20),
            behind: bytes.to_vec(),
        })
    }

    fn header(&self) -> Vec<u8> {
        let mut bytes = vec![self.version_and_length, self.service];
        bytes.extend(&self.length_identification_fragment);
        bytes.extend([self.ttl, self.protocol]);
        bytes.extend([(self.checksum / 256) as u8, (self.checksum % 256) as u8]);
        bytes.extend(&self.addresses);
        bytes.extend(&self.options);
        bytes
    }

    /// "A written checksum is the complement of the folded sum with its own field zero."
    fn sealed(mut self) -> Vec<u8> {
        self.checksum = 0;
        self.checksum = 65_535 - folded_sum(&self.header());
        let mut bytes = self.header();
        bytes.extend(&self.behind);
        bytes
    }
}

// ---- Options ----

/// A Quick-Start option: function, rate, QS TTL, the nonce's fields and the two reserved bits.
#[derive(Clone)]
struct QuickStart {
    function: u8,
    rate: u32,
    qs_ttl: u8,
    nonce: Nonce,
    reserved: u8,
}

/// "The nonce has a two-bit field for each lowering, 15 to 14 in the highest bits down to 1 to 0 in
/// the lowest." The list begins with the field for 15 to 14.
type Nonce = Vec<u8>;

/// The fifteen fields that stand in the upper thirty bits of a 32-bit word; the rest are the two
/// reserved bits.
fn fields_of(word: &[u8]) -> (Nonce, u8) {
    let mut pairs: Vec<u8> = Vec::new();
    for byte in word {
        pairs.extend([byte / 64 % 4, byte / 16 % 4, byte / 4 % 4, byte % 4]);
    }
    let reserved = pairs.pop().unwrap();
    (pairs, reserved)
}

fn word_of(nonce: &Nonce, reserved: u8) -> Vec<u8> {
    let mut pairs = nonce.clone();
    pairs.push(reserved);
    pairs.chunks(4).map(|p| p[0] * 64 + p[1] * 16 + p[2] * 4 + p[3]).collect()
}

/// An option cut off the area. `Other` may also be a no-operation, or an end with all behind it.
enum Piece {
    Other(Vec<u8>),
    QuickStart(QuickStart),
}

/// "Byte 0 ends it, byte 1 is skipped, any other has a length byte of at least 2 that fits; a missing
/// one is bad. The walk stops at the first end, fault or last byte". "At each option a bad length is
/// tested first (3), then type 25 with a length not 8, or a second type 25 (5)."
fn pieces_of(mut area: &[u8]) -> Result<Vec<Piece>, Refusal> {
    let mut pieces = Vec::new();
    let mut seen = false;
    while !area.is_empty() {
        let piece = match area[0] {
            0 => {
                let all = area.len();
                Piece::Other(cut(&mut area, all))
            }
            1 => Piece::Other(cut(&mut area, 1)),
            kind => {
                refuse_unless(area.len() >= 2, OptionLength)?;
                let length = usize::from(area[1]);
                refuse_unless(length >= 2 && length <= area.len(), OptionLength)?;
                let bytes = cut(&mut area, length);
                if kind == 25 {
                    refuse_unless(length == 8 && !seen, Refusal::QuickStart)?;
                    seen = true;
                    let (nonce, reserved) = fields_of(&bytes[4..8]);
                    Piece::QuickStart(QuickStart {
                        function: bytes[2] / 16,
                        rate: u32::from(bytes[2] % 16),
                        qs_ttl: bytes[3],
                        nonce,
                        reserved,
                    })
                } else {
                    Piece::Other(bytes)
                }
            }
        };
        pieces.push(piece);
    }
    Ok(pieces)
}

/// The pieces put together again, with `option` in place of the Quick-Start option there.
fn area_with(pieces: &[Piece], option: &QuickStart) -> Vec<u8> {
    let mut area = Vec::new();
    for piece in pieces {
        match piece {
            Piece::Other(bytes) => area.extend(bytes),
            Piece::QuickStart(_) => {
                area.extend([25, 8, option.function * 16 + option.rate as u8, option.qs_ttl]);
                area.extend(word_of(&option.nonce, option.reserved));
            }
        }
    }
    area
}

fn quick_start_in(pieces: &[Piece]) -> Option<QuickStart> {
    pieces.iter().find_map(|piece| match piece {
        Piece::QuickStart(option) => Some(option.clone()),
        Piece::Other(_) => None,
    })
}

// ---- Router ----

/// "Given a ceiling 0 to 15 and a fresh nonce 0 to 2^30 - 1."
fn router_numbers(ceiling: u32, fresh: u32) -> Result<(), Refusal> {
    refuse_unless(ceiling <= 15 && u64::from(fresh) < 1 << 30, OutOfRange)
}

/// What a router that knows reads of a packet, after its faults 1, 2, 3 and 5 as met, and 6.
fn read_for_router(lent: &[u8]) -> Result<(Packet, Vec<Piece>), Refusal> {
    let packet = Packet::read(lent)?;
    let pieces = pieces_of(&packet.options)?;
    refuse_unless(packet.ttl >= 2, TtlExpired)?;
    Ok((packet, pieces))
}

/// "IP TTL falls by one and the checksum is written anew in every accepted case."
fn forwarded(mut packet: Packet) -> Vec<u8> {
    packet.ttl -= 1;
    packet.sealed()
}

/// The option after a router with this ceiling, and what that was.
fn decide(before: &Option<QuickStart>, ceiling: u32, fresh: u32) -> (Option<QuickStart>, Decision) {
    // "With no option, function not 0, or rate 0, no more changes."
    let Some(option) = before else { return (None, Decision::NoOption) };
    if option.function != 0 {
        return (None, Decision::OtherFunction(option.function));
    }
    if option.rate == 0 {
        return (None, Decision::RateZero);
    }
    // "Else the new rate is the lesser of rate and ceiling."
    let from = option.rate;
    let to = from.min(ceiling);
    let mut option = option.clone();
    option.rate = to;
    if to == 0 {
        // "If it is 0, rate, QS TTL and nonce become 0."
        option.qs_ttl = 0;
        option.nonce = vec![0; 15];
        return (Some(option), Decision::Denied { from });
    }
    // "Otherwise QS TTL falls by one modulo 256, and the fields between the new and the old rate
    // take the fresh nonce's bits; the rest stay."
    option.qs_ttl = if option.qs_ttl == 0 { 255 } else { option.qs_ttl - 1 };
    let (fresh_fields, _) = fields_of(&(fresh * 4).to_be_bytes());
    for step in to + 1..=from {
        // the field for the lowering from `step` to `step - 1`
        let place = (15 - step) as usize;
        option.nonce[place] = fresh_fields[place];
    }
    (Some(option), Decision::Approved { from, to })
}

/// The packet after a router that decided with this ceiling.
fn forward_with(
    lent: &mut Lent,
    mut packet: Packet,
    pieces: &[Piece],
    ceiling: u32,
    fresh: u32,
) -> Decision {
    let (option, decision) = decide(&quick_start_in(pieces), ceiling, fresh);
    if let Some(option) = option {
        packet.options = area_with(pieces, &option);
    }
    lent.packet = forwarded(packet);
    decision
}

fn router(lent: &mut Lent, ceiling: u32, fresh: u32) -> Result<Done, Refusal> {
    router_numbers(ceiling, fresh)?;
    let (packet, pieces) = read_for_router(&lent.packet)?;
    let decision = forward_with(lent, packet, &pieces, ceiling, fresh);
    Ok(Done::Forwarded { decision, ledger: None })
}

/// "A silent router does the IP part only"; it skips 3 and 5.
fn silent_router(lent: &mut Lent) -> Result<Done, Refusal> {
    let packet = Packet::read(&lent.packet)?;
    refuse_unless(packet.ttl >= 2, TtlExpired)?;
    lent.packet = forwarded(packet);
    Ok(Done::SilentlyForwarded)
}

// ---- Ledger ----

/// The exact sum of a row, which may pass 2^64.
pub fn total(row: &[u64]) -> u128 {
    row.iter().map(|slot| u128::from(*slot)).sum()
}

/// The ledger asked for a code above 0: refusals 8 and 9, else the grant.
fn ask(lent: &mut Lent, allowance: u64, now: u64, wanted: u32) -> Result<u32, Refusal> {
    // 8: "ledger row's total, as lent, above A"; 9: "tick before the stored one".
    refuse_unless(total(&lent.row) <= u128::from(allowance), RowAboveAllowance)?;
    refuse_unless(now >= lent.tick, BackInTime)?;
    // "Slot is tick modulo the row's length. Going to a later tick zeroes the slots of the ticks after
    // the old one up to the new." As many ticks as there are slots have met every slot.
    let slots = lent.row.len() as u64;
    let mut tick = lent.tick;
    let mut zeroed = 0;
    while tick < now && zeroed < slots {
        tick += 1;
        lent.row[(tick % slots) as usize] = 0;
        zeroed += 1;
    }
    lent.tick = now;
    // "The grant is the greatest code whose rate is at most A less the row's total, and at most the
    // code asked. Its rate is added to the present slot; code 0 adds nothing".
    let room = u128::from(allowance) - total(&lent.row);
    let grant = (0..=wanted).rev().find(|code| u128::from(rate_of(*code)) <= room).unwrap();
    lent.row[(now % slots) as usize] += rate_of(grant);
    Ok(grant)
}

/// "A router with a ledger tests 7 for all, the packet, then 8 and 9 if it asks the ledger." It "asks
/// it for the lesser of rate and ceiling and takes the grant as its ceiling; with no request, or rate
/// or ceiling 0, the ledger is untouched."
fn router_with_ledger(
    lent: &mut Lent,
    ceiling: u32,
    fresh: u32,
    allowance: u64,
    now: u64,
) -> Result<Done, Refusal> {
    router_numbers(ceiling, fresh)?;
    refuse_unless((1..=64).contains(&lent.row.len()) && allowance <= 1 << 40, OutOfRange)?;
    let (packet, pieces) = read_for_router(&lent.packet)?;
    let wanted = match quick_start_in(&pieces) {
        Some(option) if option.function == 0 => option.rate.min(ceiling),
        _ => 0,
    };
    if wanted == 0 {
        let decision = forward_with(lent, packet, &pieces, ceiling, fresh);
        return Ok(Done::Forwarded { decision, ledger: None });
    }
    let grant = ask(lent, allowance, now, wanted)?;
    let decision = forward_with(lent, packet, &pieces, grant, fresh);
    Ok(Done::Forwarded { decision, ledger: Some(Asked { wanted, grant }) })
}

// ---- Receiver ----

fn receiver(lent: &mut Lent, ceiling: u32) -> Result<Done, Refusal> {
    refuse_unless(ceiling <= 15 && lent.response.len() == 8, OutOfRange)?;
    let packet = Packet::read(&lent.packet)?;
    let pieces = pieces_of(&packet.options)?;
    // "No option or function not 0: refusal 4."
    let request = quick_start_in(&pieces).filter(|option| option.function == 0);
    let request = request.ok_or(NoRequest)?;
    // "The rate to report is the lesser of rate and ceiling. If 0, it is "unanswered" and nothing is
    // written."
    let from = request.rate;
    let rate = from.min(ceiling);
    if rate == 0 {
        return Ok(Done::Unanswered { from });
    }
    // "Else it writes a response with that rate, TTL Diff = (IP TTL - QS TTL) modulo 256, and the
    // nonce as it came." "27, 8, one byte (high half reserved, low half the code), TTL Diff, the same
    // kind of word. Reserved bits are written 0".
    let ttl_diff = (256 + u32::from(packet.ttl) - u32::from(request.qs_ttl)) % 256;
    lent.response = vec![27, 8, rate as u8, ttl_diff as u8];
    lent.response.extend(word_of(&request.nonce, 0));
    Ok(Done::Answered { from, rate })
}

// ---- Marking ----

/// "The low two bits of the second header byte are ECT (2) and CE (1). Marking with ECT set sets CE
/// and the checksum; with ECT clear the answer is "drop" and no byte changes."
fn mark(lent: &mut Lent) -> Result<Done, Refusal> {
    let mut packet = Packet::read(&lent.packet)?;
    let (ect, ce) = (packet.service / 2 % 2, packet.service % 2);
    if ect == 0 {
        return Ok(Done::Drop);
    }
    packet.service += 1 - ce;
    lent.packet = packet.sealed();
    Ok(Done::Marked)
}
