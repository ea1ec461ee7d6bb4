//! The exported functions of librows.a, called from Rust on memory that shows any access out of bounds.

use crate::rows_model::{Hop, Trip};
use crate::yard::{Spot, Yard};

/// A hop as C has it: `knows`, three bytes of padding, `ceiling` and `fresh_nonce`.
#[repr(C)]
struct HopInC {
    knows: bool,
    ceiling: u32,
    fresh_nonce: u32,
}

const HOP_SIZE: usize = std::mem::size_of::<HopInC>();

// As in include/quickstart_path.h; a test compares PROTOTYPES with the header's text.
extern "C" {
    fn qs_path_summary(row: *const HopInC, hops: usize, summary: *mut u32, summary_len: usize) -> u32;
    fn qs_path_run(
        packet: *mut u8,
        len: usize,
        row: *const HopInC,
        hops: usize,
        ceiling: u32,
        code: u32,
        ttl_diff: u8,
        nonce: u32,
    ) -> u32;
}

/// What the header must say for the declarations above to be right.
pub const PROTOTYPES: [&str; 3] = [
    "struct qs_hop { bool knows; uint32_t ceiling; uint32_t fresh_nonce; };",
    "uint32_t qs_path_summary(const struct qs_hop *row, size_t hops, uint32_t *summary, \
     size_t summary_len);",
    "uint32_t qs_path_run(uint8_t *packet, size_t len, const struct qs_hop *row, size_t hops, \
     uint32_t ceiling, uint32_t code, uint8_t ttl_diff, uint32_t nonce);",
];

/// Memory for the buffers that a call may be lent.
pub struct Memory {
    packet: Yard,
    row: Yard,
    summary: Yard,
}

/// What an exported function answered and left of its buffer, and whether all else is as it was: the
/// row, and the guard bytes.
pub struct Seen<T> {
    pub number: u32,
    pub after: T,
    pub else_unchanged: bool,
}

/// The bytes of a row in C. The padding holds bytes that look like a knowledge, and differ from hop to
/// hop, so that a call that reads them shows.
fn row_bytes(row: &[Hop]) -> Vec<u8> {
    let mut bytes = Vec::with_capacity(HOP_SIZE * row.len());
    for (at, hop) in row.iter().enumerate() {
        bytes.extend([u8::from(hop.knows), u8::from(!hop.knows), at as u8 % 2, 0xA5]);
        bytes.extend(hop.ceiling.to_ne_bytes());
        bytes.extend(hop.fresh.to_ne_bytes());
    }
    bytes
}

/// The nearest spot for numbers of 32 bits.
fn aligned(spot: Spot) -> Spot {
    match spot {
        Spot::Middle(offset) => Spot::Middle(offset & !3),
        Spot::End => Spot::End,
    }
}

impl Memory {
    pub fn new() -> Memory {
        assert!(HOP_SIZE == 12 && std::mem::align_of::<HopInC>() == 4);
        Memory { packet: Yard::new(), row: Yard::new(), summary: Yard::new() }
    }

    /// The summary of a row, into a copy of `numbers`.
    pub fn summary(&mut self, row: &[Hop], numbers: &[u32], spot: Spot) -> Seen<Vec<u32>> {
        let row_lent = row_bytes(row);
        let numbers_lent: Vec<u8> = numbers.iter().flat_map(|number| number.to_ne_bytes()).collect();
        let row_at = self.row.lend(&row_lent, aligned(spot)) as *const HopInC;
        let numbers_at = self.summary.lend(&numbers_lent, aligned(spot)) as *mut u32;
        // SAFETY: the pointers are not null, the buffers lie in rooms of their own and are aligned, each
        // length is that of its buffer, and each hop's first byte is 0 or 1.
        let number = unsafe { qs_path_summary(row_at, row.len(), numbers_at, numbers.len()) };
        let (row_now, row_guards) = self.row.look();
        let (numbers_now, numbers_guards) = self.summary.look();
        let number32 = |bytes: &[u8]| u32::from_ne_bytes(bytes.try_into().unwrap());
        Seen {
            number,
            after: numbers_now.chunks(4).map(number32).collect(),
            else_unchanged: row_now == row_lent && row_guards && numbers_guards,
        }
    }

    /// The run of a copy of the packet along the row.
    pub fn run(&mut self, trip: &Trip, spot: Spot) -> Seen<Vec<u8>> {
        let Trip { packet, row, receiver, open } = trip;
        let row_lent = row_bytes(row);
        let row_at = self.row.lend(&row_lent, aligned(spot)) as *const HopInC;
        let packet_at = self.packet.lend(packet, spot);
        let (len, hops) = (packet.len(), row.len());
        // SAFETY: as above; a packet may stand anywhere.
        let number = unsafe {
            qs_path_run(packet_at, len, row_at, hops, *receiver, open.code, open.ttl_diff, open.nonce)
        };
        let (row_now, row_guards) = self.row.look();
        let (packet_now, packet_guards) = self.packet.look();
        Seen {
            number,
            after: packet_now.to_vec(),
            else_unchanged: row_now == row_lent && row_guards && packet_guards,
        }
    }
}
