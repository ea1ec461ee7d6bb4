//! Packets for the comparison, all from one generator with a fixed seed, in families: good ones, and
//! one family for each way of being wrong.

/// SplitMix64: the state goes up by a constant, and each state is mixed into a number.
pub struct Rng(pub u64);

impl Rng {
    pub fn next(&mut self) -> u64 {
        self.0 = self.0.wrapping_add(0x9E37_79B9_7F4A_7C15);
        let mut mixed = self.0;
        mixed = (mixed ^ mixed >> 30).wrapping_mul(0xBF58_476D_1CE4_E5B9);
        mixed = (mixed ^ mixed >> 27).wrapping_mul(0x94D0_49BB_1331_11EB);
        mixed ^ mixed >> 31
    }

    /// A number from 0 to `count - 1`.
    pub fn below(&mut self, count: u64) -> u64 {
        self.next() % count
    }

    pub fn index(&mut self, count: usize) -> usize {
        self.below(count as u64) as usize
    }

    pub fn percent(&mut self, of_hundred: u64) -> bool {
        self.below(100) < of_hundred
    }

    pub fn byte(&mut self) -> u8 {
        self.next() as u8
    }

    pub fn bytes(&mut self, count: usize) -> Vec<u8> {
        (0..count).map(|_| self.byte()).collect()
    }

    pub fn pick<T: Copy>(&mut self, from: &[T]) -> T {
        from[self.index(from.len())]
    }
}

#[derive(Clone, Copy, PartialEq, Eq, Debug)]
pub enum Family {
    Good,
    ManyOptions,
    BadOptions,
    RandomOptions,
    DamagedSealed,
    Damaged,
    WrongLengths,
    WrongChecksum,
    CutShort,
    TooLong,
    Checksums,
    Noise,
}

pub const FAMILIES: [(Family, &str); 12] = [
    (Family::Good, "good packets"),
    (Family::ManyOptions, "options before and after"),
    (Family::BadOptions, "bad options"),
    (Family::RandomOptions, "random options area"),
    (Family::DamagedSealed, "damaged, checksum right"),
    (Family::Damaged, "damaged"),
    (Family::WrongLengths, "wrong version and lengths"),
    (Family::WrongChecksum, "wrong checksum"),
    (Family::CutShort, "cut short"),
    (Family::TooLong, "too long"),
    (Family::Checksums, "checksums FFFF and 0000"),
    (Family::Noise, "noise"),
];

/// A slice of the family, as it would be lent.
pub fn draw(rng: &mut Rng, family: Family) -> Vec<u8> {
    let area = match family {
        Family::ManyOptions => many_options(rng),
        Family::BadOptions => bad_options(rng),
        Family::RandomOptions => random_area(rng),
        _ if rng.percent(70) => few_options(rng),
        _ => many_options(rng),
    };
    let mut packet = build(rng, &area);
    let header = 20 + area.len();
    match family {
        Family::Good | Family::ManyOptions | Family::BadOptions | Family::RandomOptions => {}
        Family::DamagedSealed | Family::Damaged => {
            for _ in 0..1 + rng.below(2) {
                let at = rng.index(header);
                let bit = 1 << rng.below(8);
                packet[at] = if rng.percent(50) { packet[at] ^ bit } else { rng.byte() };
            }
            if family == Family::DamagedSealed {
                seal(&mut packet);
            }
        }
        Family::WrongLengths => wrong_lengths(rng, &mut packet, header),
        Family::WrongChecksum => wrong_checksum(rng, &mut packet),
        Family::CutShort => {
            let keep = if rng.percent(50) { packet.len() - 1 } else { rng.index(packet.len()) };
            packet.truncate(keep);
        }
        Family::TooLong => {
            // a few slices are longer than any IPv4 packet
            let more = if rng.percent(2) { 65_500 + rng.index(5_000) } else { 1 + rng.index(60) };
            packet.extend(rng.bytes(more));
        }
        Family::Checksums => both_checksums(rng, &mut packet),
        Family::Noise => {
            let count = rng.index(80);
            packet = rng.bytes(count);
            if count > 0 && rng.percent(70) {
                packet[0] = 0x45 + rng.below(11) as u8;
            }
            if count > 3 && rng.percent(70) {
                put16(&mut packet, 2, count as u16);
                seal(&mut packet);
            }
        }
    }
    packet
}

// ---- The header ----

fn number16(bytes: &[u8], at: usize) -> u16 {
    u16::from_be_bytes([bytes[at], bytes[at + 1]])
}

fn put16(bytes: &mut [u8], at: usize, number: u16) {
    bytes[at..at + 2].copy_from_slice(&number.to_be_bytes());
}

/// The checksum over the header as its length field has it, if there are that many bytes.
pub fn seal(packet: &mut [u8]) {
    let header = packet.first().map_or(0, |first| 4 * (first & 15) as usize);
    if header >= 12 && packet.len() >= header {
        seal_over(packet, header);
    }
}

/// The checksum that would be right if the header had `count` bytes.
fn seal_over(packet: &mut [u8], count: usize) {
    put16(packet, 10, 0);
    let sum = folded_sum(&packet[..count]);
    put16(packet, 10, !sum);
}

/// The one's complement sum of an even number of bytes.
pub fn folded_sum(bytes: &[u8]) -> u16 {
    let mut sum = (0..bytes.len()).step_by(2).fold(0u32, |sum, at| sum + number16(bytes, at) as u32);
    while sum > 0xFFFF {
        sum = (sum & 0xFFFF) + (sum >> 16);
    }
    sum as u16
}

/// Adds to the identification field with end-around carry, then seals: so any checksum can be had.
pub fn shift_checksum(packet: &mut [u8], by: u16) {
    let sum = number16(packet, 4) as u32 + by as u32;
    put16(packet, 4, (sum + (sum >> 16)) as u16);
    seal(packet);
}

/// A right packet with these options.
fn build(rng: &mut Rng, area: &[u8]) -> Vec<u8> {
    let payload = rng.index(40);
    let mut packet = vec![0; 20];
    packet[0] = 0x45 + (area.len() / 4) as u8;
    packet[1] = rng.byte();
    put16(&mut packet, 2, (20 + area.len() + payload) as u16);
    packet[4..8].copy_from_slice(&rng.bytes(4));
    let any = rng.byte();
    packet[8] = rng.pick(&[0, 1, 2, 2, 255, 255, 64, 64, any, any, any, any]);
    packet[9] = rng.byte();
    packet[12..20].copy_from_slice(&rng.bytes(8));
    packet.extend(area);
    packet.extend(rng.bytes(payload));
    seal(&mut packet);
    packet
}

fn wrong_lengths(rng: &mut Rng, packet: &mut Vec<u8>, header: usize) {
    let len = packet.len();
    match rng.below(4) {
        0 => packet[0] = (rng.byte() & 0xF0) | (packet[0] & 15),
        1 => packet[0] = 0x40 | rng.byte() & 15,
        2 => packet[0] = 0x40 | rng.byte() & 3,
        _ => {
            let any = rng.next() as usize;
            let small = [0, 19, 20, header - 1, header - 4, header];
            let great = [len - 1, len, len + 1, len + 256, 65_535, any];
            let total = if rng.percent(50) { rng.pick(&small) } else { rng.pick(&great) };
            put16(packet, 2, total as u16);
        }
    }
    seal(packet);
}

/// A checksum near the right one, or right over too few bytes or too many.
fn wrong_checksum(rng: &mut Rng, packet: &mut [u8]) {
    let sum = number16(packet, 10);
    match rng.below(4) {
        0 => seal_over(packet, 20),
        1 => seal_over(packet, packet.len() & !1),
        _ => {
            let next = sum.wrapping_add(1);
            let wrong = rng.pick(&[sum ^ 1, sum ^ 0x100, next, !sum, sum.swap_bytes(), 0, 0xFFFF]);
            put16(packet, 10, wrong);
        }
    }
}

/// A header that is right with the checksum field 0000 and with FFFF: all other words sum to FFFF.
fn both_checksums(rng: &mut Rng, packet: &mut [u8]) {
    let sum = number16(packet, 10);
    shift_checksum(packet, sum);
    assert_eq!(number16(packet, 10), 0);
    if rng.percent(70) {
        put16(packet, 10, 0xFFFF);
    }
}

// ---- Options ----

const NO_OPERATION: u8 = 1;
const QUICK_START: u8 = 25;

fn quick_start(rng: &mut Rng) -> Vec<u8> {
    let any = rng.next() as u32;
    let function = rng.pick(&[0, 0, 0, 0, 0, 0, 0, 8, 8, any as u8 >> 4]);
    let rate = if rng.percent(8) { 0 } else { rng.byte() & 15 };
    let ttl = rng.pick(&[0, 0, 255, 1, 128, any as u8, any as u8, any as u8]);
    let nonce = rng.pick(&[0, !0, any, any, any, any]);
    let reserved = rng.pick(&[0, 0, 1, 2, 3]);
    let mut option = vec![QUICK_START, 8, function << 4 | rate, ttl];
    option.extend((nonce & !3 | reserved).to_be_bytes());
    option
}

/// Any option but end and Quick-Start, of at most `room` bytes (at least 1).
fn other_option(rng: &mut Rng, room: usize) -> Vec<u8> {
    let record_route = vec![7, 7, 4, 0, 0, 0, 0];
    let timestamp = vec![68, 8, 5, 0, 0, 0, 0, 0];
    let router_alert = vec![148, 4, 0, 0];
    let option = match rng.below(6) {
        0 => record_route,
        1 => timestamp,
        2 => router_alert,
        3 | 4 => {
            let length = 2 + rng.index(11);
            let mut option = rng.bytes(length);
            if matches!(option[0], 0 | 1 | QUICK_START) {
                option[0] = 0x82;
            }
            option[1] = length as u8;
            option
        }
        _ => vec![NO_OPERATION],
    };
    if option.len() <= room { option } else { vec![NO_OPERATION] }
}

/// The area filled up to whole words: by no-operations, or by an end with anything behind it, such as
/// what would be a Quick-Start option or a fault before the end.
fn pad(rng: &mut Rng, area: &mut Vec<u8>) {
    let open = area.len() < 40;
    if open && rng.percent(40) {
        area.push(0);
        let more = rng.index(41 - area.len());
        let kind = rng.below(3);
        let look_alike = quick_start(rng);
        for at in 0..more {
            area.push(match kind {
                0 => 0,
                1 => rng.byte(),
                _ => look_alike[at % 8],
            });
        }
    }
    while area.len() % 4 != 0 {
        area.push(if area.contains(&0) { 0 } else { NO_OPERATION });
    }
}

/// Nothing, or one Quick-Start option and little else.
fn few_options(rng: &mut Rng) -> Vec<u8> {
    if rng.percent(8) {
        return Vec::new();
    }
    let mut area = quick_start(rng);
    if rng.percent(30) {
        area.insert(0, NO_OPERATION);
    }
    if rng.percent(30) {
        pad(rng, &mut area);
    }
    while area.len() % 4 != 0 {
        area.push(NO_OPERATION);
    }
    area
}

/// Options before and after the Quick-Start one, if there is one.
fn many_options(rng: &mut Rng) -> Vec<u8> {
    let mut area = Vec::new();
    let before = rng.index(33);
    while area.len() < before {
        let room = 32 - area.len();
        area.extend(other_option(rng, room));
    }
    if rng.percent(85) {
        area.extend(quick_start(rng));
    }
    let until = area.len() + rng.index(41 - area.len());
    while area.len() < until {
        let room = 40 - area.len();
        area.extend(other_option(rng, room));
    }
    pad(rng, &mut area);
    area
}

/// Options with a fault or two among them: 3 and 5, and either before the other.
fn bad_options(rng: &mut Rng) -> Vec<u8> {
    let mut area = many_options(rng);
    for _ in 0..1 + rng.below(2) {
        let fault = match rng.below(8) {
            0 => vec![rng.byte() | 2, 0],
            1 => vec![rng.byte() | 2, 1],
            2 => vec![rng.byte() | 2, 41 + rng.byte() % 200],
            3 => vec![QUICK_START, rng.pick(&[0, 1, 39, 40, 255])],
            4 | 5 => {
                let length = rng.pick(&[2, 3, 4, 6, 7, 9, 10, 12]);
                let mut option = rng.bytes(length);
                option[0] = QUICK_START;
                option[1] = length as u8;
                option
            }
            _ => quick_start(rng),
        };
        let at = if rng.percent(40) { 0 } else { rng.pick(&starts(&area)) };
        area.splice(at..at, fault);
    }
    area.truncate(40);
    while area.len() % 4 != 0 {
        area.push(NO_OPERATION);
    }
    if rng.percent(25) && !area.is_empty() {
        // an option whose length byte would lie behind the header
        let last = area.len() - 1;
        area[last] = rng.pick(&[2, 7, 148, QUICK_START, 255]);
    }
    area
}

/// Where options begin in an area, and its end.
fn starts(area: &[u8]) -> Vec<usize> {
    let mut found = vec![0];
    let mut at = 0;
    while at + 1 < area.len() && area[at] != 0 {
        at += if area[at] == NO_OPERATION { 1 } else { area[at + 1].max(2) as usize };
        found.push(at.min(area.len()));
    }
    found
}

/// Bytes that are often a kind or a length.
fn random_area(rng: &mut Rng) -> Vec<u8> {
    let count = 4 * rng.index(11);
    (0..count)
        .map(|_| {
            let any = rng.byte();
            rng.pick(&[1, 1, QUICK_START, 8, 8, 2, 3, 4, any, any & 15])
        })
        .collect()
}
