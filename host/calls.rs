//! The exported functions of libgateway.a, called from Rust on memory that shows any access out of bounds.

use crate::model::{Call, Lent};
use crate::yard::{Spot, Yard};

// As in include/quickstart.h; a test compares PROTOTYPES with the header's text.
extern "C" {
    fn qs_router(packet: *mut u8, len: usize, ceiling: u32, fresh_nonce: u32) -> u32;
    fn qs_router_ledger(
        packet: *mut u8,
        len: usize,
        ceiling: u32,
        fresh_nonce: u32,
        row: *mut u64,
        slots: usize,
        tick: *mut u64,
        allowance: u64,
        now: u64,
    ) -> u32;
    fn qs_silent_router(packet: *mut u8, len: usize) -> u32;
    fn qs_receiver(
        packet: *const u8,
        len: usize,
        ceiling: u32,
        response: *mut u8,
        response_len: usize,
    ) -> u32;
    fn qs_mark(packet: *mut u8, len: usize) -> u32;
}

/// What the header must say for the declarations above to be right.
pub const PROTOTYPES: [&str; 5] = [
    "uint32_t qs_router(uint8_t *packet, size_t len, uint32_t ceiling, uint32_t fresh_nonce);",
    "uint32_t qs_router_ledger(uint8_t *packet, size_t len, uint32_t ceiling, uint32_t fresh_nonce, \
     uint64_t *row, size_t slots, uint64_t *tick, uint64_t allowance, uint64_t now);",
    "uint32_t qs_silent_router(uint8_t *packet, size_t len);",
    "uint32_t qs_receiver(const uint8_t *packet, size_t len, uint32_t ceiling, uint8_t *response, \
     size_t response_len);",
    "uint32_t qs_mark(uint8_t *packet, size_t len);",
];

/// Memory for the four buffers that a call may be lent.
pub struct Memory {
    packet: Yard,
    response: Yard,
    row: Yard,
    tick: Yard,
}

/// What an exported function answered, what it left, and whether all guard bytes still stand.
pub struct Seen {
    pub number: u32,
    pub after: Lent,
    pub guards_stand: bool,
}

impl Memory {
    pub fn new() -> Memory {
        Memory { packet: Yard::new(), response: Yard::new(), row: Yard::new(), tick: Yard::new() }
    }

    /// The call on copies of what is lent. Rows and ticks are always aligned, packets and responses
    /// only as `spot` has it.
    pub fn call(&mut self, call: Call, lent: &Lent, spot: Spot) -> Seen {
        let aligned = match spot {
            Spot::Middle(offset) => Spot::Middle(offset & !7),
            Spot::End => Spot::End,
        };
        let row_bytes: Vec<u8> = lent.row.iter().flat_map(|slot| slot.to_ne_bytes()).collect();
        let packet = self.packet.lend(&lent.packet, spot);
        let response = self.response.lend(&lent.response, spot);
        let row = self.row.lend(&row_bytes, aligned) as *mut u64;
        let tick = self.tick.lend(&lent.tick.to_ne_bytes(), aligned) as *mut u64;
        let (len, slots, response_len) = (lent.packet.len(), lent.row.len(), lent.response.len());
        // SAFETY: the pointers are not null, the buffers lie in rooms of their own, row and tick
        // are aligned, and each length is that of its buffer.
        let number = unsafe {
            match call {
                Call::Router { ceiling, fresh } => qs_router(packet, len, ceiling, fresh),
                Call::RouterLedger { ceiling, fresh, allowance, now } => {
                    qs_router_ledger(packet, len, ceiling, fresh, row, slots, tick, allowance, now)
                }
                Call::SilentRouter => qs_silent_router(packet, len),
                Call::Receiver { ceiling } => {
                    qs_receiver(packet, len, ceiling, response, response_len)
                }
                Call::Mark => qs_mark(packet, len),
            }
        };
        let (packet, packet_guards) = self.packet.look();
        let (response, response_guards) = self.response.look();
        let (row, row_guards) = self.row.look();
        let (tick, tick_guards) = self.tick.look();
        let number64 = |bytes: &[u8]| u64::from_ne_bytes(bytes.try_into().unwrap());
        Seen {
            number,
            after: Lent {
                packet: packet.to_vec(),
                response: response.to_vec(),
                row: row.chunks(8).map(number64).collect(),
                tick: number64(tick),
            },
            guards_stand: packet_guards && response_guards && row_guards && tick_guards,
        }
    }
}
