//! Memory that shows any access out of bounds, for buffers that are lent to an exported function.

// From the C library that every Rust program is linked with; the numbers are those of Linux.
extern "C" {
    fn mmap(at: *mut u8, len: usize, protection: i32, flags: i32, file: i32, offset: i64) -> *mut u8;
    fn mprotect(at: *mut u8, len: usize, protection: i32) -> i32;
}
const READ_AND_WRITE: i32 = 3;
const NO_ACCESS: i32 = 0;
const PRIVATE_ANONYMOUS: i32 = 0x22;

const PAGE: usize = 4096;
const ROOM: usize = 24 * PAGE;
const GUARD: usize = 32;

/// Where bytes are lent: in the middle of the room, at a distance from an aligned place and with
/// guard bytes before and behind; or at the end of the room, where a page begins that must not be
/// touched, so that even reading one byte too many ends the program.
#[derive(Clone, Copy, Debug)]
pub enum Spot {
    Middle(usize),
    End,
}

/// Room for one lent buffer.
pub struct Yard {
    room: *mut u8,
    start: usize,
    len: usize,
}

/// The guard byte at a place: never the same twice in a row, so that a shifted copy shows.
fn guard_byte(at: usize) -> u8 {
    0xA5 ^ (at as u8).wrapping_mul(31)
}

impl Yard {
    pub fn new() -> Yard {
        // SAFETY: a new mapping, owned by this Yard for the rest of the program.
        unsafe {
            let none = std::ptr::null_mut();
            let room = mmap(none, ROOM + PAGE, READ_AND_WRITE, PRIVATE_ANONYMOUS, -1, 0);
            assert!(room as isize != -1, "no memory");
            assert!(mprotect(room.add(ROOM), PAGE, NO_ACCESS) == 0, "no guard page");
            Yard { room, start: 0, len: 0 }
        }
    }

    fn bytes(&mut self) -> &mut [u8] {
        // SAFETY: the room is mapped, readable and writable, and only this Yard uses it.
        unsafe { std::slice::from_raw_parts_mut(self.room, ROOM) }
    }

    fn guards(&self) -> (std::ops::Range<usize>, std::ops::Range<usize>) {
        let behind = self.start + self.len;
        (self.start - GUARD..self.start, behind..(behind + GUARD).min(ROOM))
    }

    pub fn lend(&mut self, lent: &[u8], spot: Spot) -> *mut u8 {
        self.len = lent.len();
        self.start = match spot {
            Spot::Middle(offset) => 2 * GUARD + offset,
            Spot::End => ROOM - lent.len(),
        };
        let (start, len) = (self.start, self.len);
        let (before, behind) = self.guards();
        let bytes = self.bytes();
        for at in before.chain(behind) {
            bytes[at] = guard_byte(at);
        }
        bytes[start..start + len].copy_from_slice(lent);
        // SAFETY: start is at most ROOM.
        unsafe { self.room.add(start) }
    }

    /// The lent bytes now, and whether the guards still stand.
    pub fn look(&mut self) -> (&[u8], bool) {
        let (start, len) = (self.start, self.len);
        let (before, behind) = self.guards();
        let bytes = self.bytes();
        let stand = before.chain(behind).all(|at| bytes[at] == guard_byte(at));
        (&bytes[start..start + len], stand)
    }
}
