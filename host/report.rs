//! Tests passed and failed, and what test programs print and read alike.

/// Tests passed and failed.
pub struct Report {
    passed: u64,
    failed: u64,
}

impl Report {
    pub fn new() -> Report {
        Report { passed: 0, failed: 0 }
    }

    pub fn test(&mut self, name: &str, holds: bool) {
        println!("{} {name}", if holds { "ok    " } else { "FAILED" });
        if holds {
            self.passed += 1;
        } else {
            self.failed += 1;
        }
    }

    /// The last line and the end: status 0 only if tests were run and none failed.
    pub fn finish(self) -> ! {
        println!("{} passed, {} failed", self.passed, self.failed);
        std::process::exit(if self.failed == 0 && self.passed > 0 { 0 } else { 1 })
    }
}

pub fn hex(bytes: &[u8]) -> String {
    let shown: Vec<String> = bytes.iter().take(96).map(|byte| format!("{byte:02X}")).collect();
    let more = if bytes.len() > 96 { format!(" .. ({} bytes)", bytes.len()) } else { String::new() };
    shown.join(" ") + &more
}

/// The bytes that two-digit numbers with spaces between them tell.
pub fn bytes(text: &str) -> Vec<u8> {
    text.split_whitespace().map(|byte| u8::from_str_radix(byte, 16).unwrap()).collect()
}

/// A C header without comments, on one line with single spaces.
pub fn header_text(header: &str) -> String {
    let mut text = String::new();
    let mut rest = header;
    while let Some(start) = rest.find("/*") {
        text += &rest[..start];
        let end = rest[start..].find("*/").expect("an open comment");
        rest = &rest[start + end + 2..];
    }
    text += rest;
    text.split_whitespace().collect::<Vec<_>>().join(" ")
}
