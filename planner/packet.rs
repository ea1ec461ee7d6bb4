//! A packet with a Quick-Start request, and the proved functions of libgateway.a that act upon it.

use crate::records::Word;

// As in include/quickstart.h; a test compares these declarations with the header's text.
extern "C" {
    fn qs_router(packet: *mut u8, len: usize, ceiling: u32, fresh_nonce: u32) -> u32;
    fn qs_silent_router(packet: *mut u8, len: usize) -> u32;
    fn qs_receiver(
        packet: *const u8,
        len: usize,
        ceiling: u32,
        response: *mut u8,
        response_len: usize,
    ) -> u32;
}

/// Result numbers of quickstart.h.
pub const DONE: u32 = 0;
pub const TTL_EXPIRED: u32 = 6;
pub const UNANSWERED: u32 = 40;

/// An IPv4 header of 20 bytes and the option's 8; there is nothing behind the header.
const LENGTH: usize = 28;
const TTL: usize = 8;
const CHECKSUM: usize = 10;
const OPTION: usize = 20;

pub struct Packet {
    pub bytes: [u8; LENGTH],
}

/// What a packet's bytes show of its request.
#[derive(Clone, Copy, PartialEq, Eq, Debug)]
pub struct View {
    pub ip_ttl: u8,
    pub qs_ttl: u8,
    pub rate: u8,
    pub nonce: u32,
}

/// A response as its bytes show it.
#[derive(Clone, Copy, PartialEq, Eq, Debug)]
pub struct Response {
    pub rate: u8,
    pub ttl_diff: u8,
    pub nonce: u32,
}

impl View {
    /// The difference that a receiver would report: IP TTL less QS TTL, modulo 256.
    pub fn ttl_diff(&self) -> u8 {
        self.ip_ttl.wrapping_sub(self.qs_ttl)
    }
}

/// The nonce of the word whose four bytes start at a place.
fn nonce_at(bytes: &[u8], at: usize) -> u32 {
    Word::from_bytes([bytes[at], bytes[at + 1], bytes[at + 2], bytes[at + 3]]).nonce
}

/// The complement of the folded one's complement sum of a header whose checksum field is zero.
fn checksum(header: &[u8; LENGTH]) -> u16 {
    let words = header.chunks(2).map(|pair| u32::from(pair[0]) << 8 | u32::from(pair[1]));
    let mut sum: u32 = words.sum();
    while sum > 0xFFFF {
        sum = (sum & 0xFFFF) + (sum >> 16);
    }
    !(sum as u16)
}

impl Packet {
    /// The packet that a sender sends: from 10.0.0.1 to 10.0.0.2, TCP, with this request and reserved bits 0.
    pub fn new(sent: View) -> Packet {
        let mut bytes = [0; LENGTH];
        bytes[..4].copy_from_slice(&[0x47, 0, 0, LENGTH as u8]);
        bytes[TTL..CHECKSUM].copy_from_slice(&[sent.ip_ttl, 6]);
        bytes[12..OPTION].copy_from_slice(&[10, 0, 0, 1, 10, 0, 0, 2]);
        bytes[OPTION..OPTION + 4].copy_from_slice(&[25, 8, sent.rate, sent.qs_ttl]);
        let word = Word { nonce: sent.nonce, reserved: 0 };
        bytes[OPTION + 4..].copy_from_slice(&word.to_bytes());
        let sum = checksum(&bytes);
        bytes[CHECKSUM..CHECKSUM + 2].copy_from_slice(&sum.to_be_bytes());
        Packet { bytes }
    }

    pub fn view(&self) -> View {
        View {
            ip_ttl: self.bytes[TTL],
            qs_ttl: self.bytes[OPTION + 3],
            rate: self.bytes[OPTION + 2] & 15,
            nonce: nonce_at(&self.bytes, OPTION + 4),
        }
    }

    /// A router that knows Quick-Start passes the packet on. The result number of quickstart.h.
    pub fn router(&mut self, ceiling: u8, fresh: u32) -> u32 {
        // SAFETY: the pointer is that of a live array, and the length is the array's.
        unsafe { qs_router(self.bytes.as_mut_ptr(), LENGTH, u32::from(ceiling), fresh) }
    }

    /// A silent router passes the packet on. The result number of quickstart.h.
    pub fn silent_router(&mut self) -> u32 {
        // SAFETY: as above.
        unsafe { qs_silent_router(self.bytes.as_mut_ptr(), LENGTH) }
    }

    /// The receiver's response, or the result number of quickstart.h if there is none.
    pub fn receiver(&self, ceiling: u8) -> Result<Response, u32> {
        let mut response = [0; 8];
        // SAFETY: both pointers are those of live arrays that do not overlap, and the lengths are theirs.
        let number = unsafe {
            qs_receiver(
                self.bytes.as_ptr(),
                LENGTH,
                u32::from(ceiling),
                response.as_mut_ptr(),
                response.len(),
            )
        };
        if number != DONE {
            return Err(number);
        }
        Ok(Response { rate: response[2] & 15, ttl_diff: response[3], nonce: nonce_at(&response, 4) })
    }
}
