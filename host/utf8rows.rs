//! utf8rows all | STEP: every string of one, two and three bytes, and of four bytes that begins with EF to F5, as the
//! content of a packed event: accepted exactly if Rust's own `std::str::from_utf8` says that it is UTF-8, and else
//! refused with 5 at its first byte. Four-byte strings of every first and second byte, with the lowest and the highest
//! tails behind them, are among them. Each is asked four times: alone, where the rows decide; behind 32 bytes of ASCII,
//! in front of 40, and between 160 and 40, where the fast pass goes first, the last time block by block. With a STEP
//! only every STEP-th string of three and of four bytes. The last line is 'N passed, M failed'.

#[repr(C)]
struct Answer {
    refusal: u64,
    value: u64,
}

extern "C" {
    fn kez_notepack_read(
        packed: *const u8,
        packed_len: usize,
        bare: u64,
        created_at: *mut u64,
        kind: *mut u64,
        content_at: *mut u64,
        content_len: *mut u64,
        tag_count: *mut u64,
    ) -> Answer;
}

/// Id, pubkey and signature, then a time and a kind of one byte each; then the content's length.
const LENGTH_AT: usize = 130;
const ILL_FORMED: u64 = 5;
const BARE: u64 = 1;

/// A packed event whose content is some ASCII, the string that is asked, and some more ASCII.
struct Record {
    packed: Vec<u8>,
    before: usize,
    behind: usize,
    passed: u64,
    failed: u64,
}

impl Record {
    fn new(before: usize, behind: usize) -> Record {
        Record { packed: vec![0; LENGTH_AT], before, behind, passed: 0, failed: 0 }
    }

    /// The event with this string, and where its content starts.
    fn pack(&mut self, string: &[u8], count: usize) -> usize {
        self.packed.truncate(LENGTH_AT);
        if count < 0x80 {
            self.packed.push(count as u8);
        } else {
            self.packed.extend_from_slice(&[count as u8 | 0x80, (count >> 7) as u8]);
        }
        let at = self.packed.len();
        self.packed.resize(at + self.before, b'a');
        self.packed.extend_from_slice(string);
        self.packed.resize(at + count, b'z');
        self.packed.push(0); // no tags
        at
    }

    fn ask(&mut self, string: &[u8]) {
        let count = self.before + string.len() + self.behind;
        let start = self.pack(string, count) as u64;
        let mut told = [0u64; 5];
        let [time, kind, at, len, tags] = &mut told;
        let (packed, packed_len) = (self.packed.as_ptr(), self.packed.len());
        let answer = unsafe { kez_notepack_read(packed, packed_len, BARE, time, kind, at, len, tags) };
        let good = std::str::from_utf8(string).is_ok();
        let right = if good {
            answer.refusal == 0 && told == [0, 0, start, count as u64, 0]
        } else {
            answer.refusal == ILL_FORMED && answer.value == start
        };
        if right {
            self.passed += 1;
            return;
        }
        self.failed += 1;
        if self.failed <= 10 {
            let Answer { refusal, value } = answer;
            println!(
                "{string:02x?} behind {} bytes, before {}: refusal {refusal}, value {value}; std says {good}",
                self.before, self.behind
            );
        }
    }
}

fn main() {
    let word = std::env::args().nth(1).unwrap_or_default();
    let step = if word == "all" { 1 } else { word.parse().unwrap_or(0) };
    if step == 0 {
        println!("usage: utf8rows all | STEP");
        std::process::exit(2);
    }
    // alone the rows decide; the fast pass looks at texts of 32 bytes and more, and at blocks of 128
    let mut records = [Record::new(0, 0), Record::new(32, 0), Record::new(0, 40), Record::new(160, 40)];
    let mut ask = |string: &[u8]| records.iter_mut().for_each(|record| record.ask(string));
    for a in 0..=255 {
        ask(&[a]);
        for b in 0..=255 {
            ask(&[a, b]);
            ask(&[a, b, 0x80, 0x80]);
            ask(&[a, b, 0xbf, 0xbf]);
        }
    }
    for n in (0u32..1 << 24).step_by(step) {
        let [_, a, b, c] = n.to_be_bytes();
        ask(&[a, b, c]);
        for first in 0xef..=0xf5 {
            ask(&[first, a, b, c]);
        }
    }
    let passed: u64 = records.iter().map(|record| record.passed).sum();
    let failed: u64 = records.iter().map(|record| record.failed).sum();
    println!("{passed} passed, {failed} failed");
    std::process::exit((failed != 0) as i32);
}
