//! Paths for the comparison, all from one generator with a fixed seed, in families: requests sent along
//! a row by the sender that judges, open requests that are not the packet's, packets of every kind, and
//! numbers out of range.

use crate::model::{answer, Call, Lent};
use crate::packets::{self, Rng};
use crate::rows_model::{Hop, Open, Trip};

const ALL_ONES: u32 = (1 << 30) - 1;

#[derive(Clone, Copy, PartialEq, Eq, Debug)]
pub enum Family {
    Sent,
    OtherOpen,
    AnyPacket,
    OutOfRange,
}

pub const FAMILIES: [(Family, &str); 4] = [
    (Family::Sent, "requests as sent"),
    (Family::OtherOpen, "requests other than the open one"),
    (Family::AnyPacket, "packets of every kind"),
    (Family::OutOfRange, "numbers out of range"),
];

pub fn draw(rng: &mut Rng, family: Family) -> Trip {
    match family {
        Family::Sent => sent(rng),
        Family::OtherOpen => other_open(rng),
        Family::AnyPacket => any_packet(rng),
        Family::OutOfRange => out_of_range(rng),
    }
}

// ---- Rows ----

fn nonce(rng: &mut Rng) -> u32 {
    let any = rng.next() as u32 >> 2;
    rng.pick(&[0, ALL_ONES, any, any, any])
}

/// The first place, a middle one, the last one or any.
fn place(rng: &mut Rng, hops: usize) -> usize {
    let any = rng.index(hops);
    rng.pick(&[0, hops / 2, hops - 1, any])
}

/// A row in range. Often one hop is lower than the others, or the only silent one.
pub fn row(rng: &mut Rng) -> Vec<Hop> {
    let any = rng.index(65);
    let hops = rng.pick(&[0, 1, 2, 3, 4, 5, 8, 63, 64, any, any]);
    let silent = rng.pick(&[0, 0, 0, 0, 5, 30, 100]);
    let floor = if rng.percent(10) { 0 } else { 1 + rng.below(15) as u32 };
    let mut row: Vec<Hop> = (0..hops)
        .map(|_| Hop {
            knows: !rng.percent(silent),
            ceiling: floor + rng.below(16 - u64::from(floor)) as u32,
            fresh: nonce(rng),
        })
        .collect();
    if hops > 0 && rng.percent(50) {
        let at = place(rng, hops);
        row[at].ceiling = rng.below(u64::from(floor) + 1) as u32;
    }
    if hops > 0 && rng.percent(15) {
        let at = place(rng, hops);
        row[at].knows = false;
    }
    row
}

// ---- Requests ----

/// A packet with this request, among other options and before some data.
fn packet(rng: &mut Rng, ip_ttl: u8, rate: u8, qs_ttl: u8, nonce: u32) -> Vec<u8> {
    let mut area = Vec::new();
    for _ in 0..rng.index(4) {
        area.extend(rng.pick(&[&[1][..], &[148, 4, 0, 0], &[7, 7, 4, 25, 8, 0, 0]]));
    }
    area.extend([25, 8, rate, qs_ttl]);
    area.extend((nonce << 2 | rng.pick(&[0, 0, 1, 2, 3])).to_be_bytes());
    while area.len() % 4 != 0 {
        area.push(1);
    }
    let data = rng.index(20);
    let mut packet = rng.bytes(20);
    packet[0] = 0x45 + (area.len() / 4) as u8;
    packet[2..4].copy_from_slice(&((20 + area.len() + data) as u16).to_be_bytes());
    packet[8] = ip_ttl;
    packet.extend(area);
    packet.extend(rng.bytes(data));
    packets::seal(&mut packet);
    packet
}

/// The request of a sender, with the numbers that a plan has besides the row.
pub struct Request {
    pub ip_ttl: u8,
    pub qs_ttl: u8,
    pub code: u8,
    pub nonce: u32,
    pub receiver: u8,
}

/// A request in range for so many hops: the IP TTL is often near their number.
pub fn request(rng: &mut Rng, hops: usize) -> Request {
    let any = rng.byte().max(1);
    let near = (hops + rng.index(4)).clamp(2, 255) as u8 - 1;
    let enough = hops as u8 + 1 + rng.below(255 - hops as u64) as u8;
    let small = rng.index(hops + 1) as u8;
    let code = 1 + rng.below(15) as u8;
    let ceiling = 1 + rng.below(15) as u8;
    Request {
        ip_ttl: rng.pick(&[any, near, near, enough, enough, enough]),
        qs_ttl: if rng.percent(30) { small } else { rng.byte() },
        code: if rng.percent(40) { 15 } else { code },
        nonce: nonce(rng),
        receiver: rng.pick(&[0, 15, 15, 15, 15, 15, 15, ceiling, ceiling, ceiling, ceiling]),
    }
}

/// The request in a packet, for the sender that sent it.
pub fn trip(rng: &mut Rng, request: &Request, row: Vec<Hop>) -> Trip {
    let Request { ip_ttl, qs_ttl, code, nonce, receiver } = *request;
    let ttl_diff = ((256 + u32::from(ip_ttl) - u32::from(qs_ttl)) % 256) as u8;
    Trip {
        packet: packet(rng, ip_ttl, code, qs_ttl, nonce),
        row,
        receiver: u32::from(receiver),
        open: Open { code: u32::from(code), ttl_diff, nonce },
    }
}

pub fn sent(rng: &mut Rng) -> Trip {
    let row = row(rng);
    let request = request(rng, row.len());
    trip(rng, &request, row)
}

/// One to three numbers of the open request changed: the code by a little, the TTL Diff by a little or
/// so that it fits the silent hops, the nonce in one bit, in one field or in all; or a request for rate 0.
fn other_open(rng: &mut Rng) -> Trip {
    let row = row(rng);
    let mut request = request(rng, row.len());
    let code = request.code;
    if rng.percent(4) {
        request.code = 0;
    }
    let mut trip = trip(rng, &request, row);
    trip.open.code = u32::from(code);
    for _ in 0..1 + rng.below(3) {
        match rng.below(4) {
            0 => {
                let any = 1 + rng.below(15) as u32;
                let code = trip.open.code;
                trip.open.code = rng.pick(&[any, code + 1, code - 1]).clamp(1, 15);
            }
            1 => {
                let silent = trip.row.iter().filter(|hop| !hop.knows).count() as u8;
                let any = rng.byte();
                let less = rng.pick(&[silent, silent, 1, 255, 128, any]);
                trip.open.ttl_diff = trip.open.ttl_diff.wrapping_sub(less);
            }
            2 => trip.open.nonce ^= 1 << rng.below(30),
            _ => {
                let field = rng.below(15);
                let any = nonce(rng);
                trip.open.nonce ^= rng.pick(&[3 << (2 * field), any]);
            }
        }
    }
    trip
}

/// A packet of any family of `packets.rs`. If it has a request, the open one is often the same.
fn any_packet(rng: &mut Rng) -> Trip {
    let mut trip = sent(rng);
    let (family, _) = rng.pick(&packets::FAMILIES);
    trip.packet = packets::draw(rng, family);
    let lent = Lent { packet: trip.packet.clone(), response: vec![0; 8], row: vec![], tick: 0 };
    let reported = answer(Call::Receiver { ceiling: 15 }, &lent).after.response;
    if reported[2] > 0 && rng.percent(60) {
        let word = u32::from_be_bytes([reported[4], reported[5], reported[6], reported[7]]);
        trip.open = Open { code: u32::from(reported[2]), ttl_diff: reported[3], nonce: word >> 2 };
    }
    trip
}

// ---- Numbers out of range ----

fn wrong_ceiling(rng: &mut Rng) -> u32 {
    let any = rng.next() as u32;
    rng.pick(&[16, 17, 31, 255, 256, 259, 1 << 16, 1 << 31, u32::MAX, any | 16])
}

fn wrong_nonce(rng: &mut Rng) -> u32 {
    let any = rng.next() as u32;
    rng.pick(&[1 << 30, (1 << 30) + 1, 1 << 31, u32::MAX, any | 1 << 30])
}

/// One number out of range, sometimes two, and now and then a faulty packet as well.
fn out_of_range(rng: &mut Rng) -> Trip {
    let mut trip = if rng.percent(75) { sent(rng) } else { any_packet(rng) };
    for _ in 0..if rng.percent(20) { 2 } else { 1 } {
        match rng.below(7) {
            0 => {
                let more = 65 + rng.index(200);
                let hops = rng.pick(&[65, 65, 66, more]);
                let row = row(rng);
                trip.row.extend(row);
                let last = Hop { knows: rng.percent(50), ceiling: 15, fresh: 0 };
                trip.row.resize(hops, last);
            }
            1 | 2 => {
                if trip.row.is_empty() {
                    trip.row.push(Hop { knows: true, ceiling: 15, fresh: 0 });
                }
                let at = place(rng, trip.row.len());
                trip.row[at].knows = rng.percent(50);
                if rng.percent(50) {
                    trip.row[at].ceiling = wrong_ceiling(rng);
                } else {
                    trip.row[at].fresh = wrong_nonce(rng);
                }
            }
            3 => trip.receiver = wrong_ceiling(rng),
            4 => trip.open.code = 0,
            5 => trip.open.code = wrong_ceiling(rng),
            _ => trip.open.nonce = wrong_nonce(rng),
        }
    }
    trip
}
