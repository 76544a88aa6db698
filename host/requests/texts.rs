//! The canonical text, and NSON in pieces.

use crate::dice::Dice;
use crate::event::*;
use crate::notepack::*;

pub fn escaped(text: &[u8], special: &[(u8, u8)]) -> Vec<u8> {
    text.iter()
        .flat_map(|&b| match special.iter().find(|(from, _)| *from == b) {
            Some(&(_, letter)) => vec![b'\\', letter],
            None => vec![b],
        })
        .collect()
}

pub const IN_CANONICAL: [(u8, u8); 7] =
    [(10, b'n'), (b'"', b'"'), (b'\\', b'\\'), (13, b'r'), (9, b't'), (8, b'b'), (12, b'f')];
pub const IN_NSON: [(u8, u8); 3] = [(10, b'n'), (b'"', b'"'), (b'\\', b'\\')];

/// The tags as arrays of strings, each bracket, comma, quote and string a piece.
pub fn tag_pieces(tags: &[Vec<Vec<u8>>], special: &[(u8, u8)]) -> Vec<Vec<u8>> {
    let mut all = vec![b"[".to_vec()];
    for (i, tag) in tags.iter().enumerate() {
        if i > 0 {
            all.push(b",".to_vec());
        }
        all.push(b"[".to_vec());
        for (j, text) in tag.iter().enumerate() {
            if j > 0 {
                all.push(b",".to_vec());
            }
            all.extend([b"\"".to_vec(), escaped(text, special), b"\"".to_vec()]);
        }
        all.push(b"]".to_vec());
    }
    all.push(b"]".to_vec());
    all
}

pub fn canonical(e: &Event) -> Vec<u8> {
    [
        b"[0,\"".to_vec(),
        hex_text(&e.fixed[32..64]),
        format!("\",{},{},", e.created_at, e.kind).into_bytes(),
        tag_pieces(&e.tags, &IN_CANONICAL).concat(),
        b",\"".to_vec(),
        escaped(&e.content, &IN_CANONICAL),
        b"\"]".to_vec(),
    ]
    .concat()
}

/// An NSON text in pieces, so that each can be changed alone.
#[derive(Clone)]
pub struct Nson {
    pub head: Vec<Vec<u8>>,
    pub size: usize,
    /// width in hex digits, and value
    pub counts: Vec<(usize, usize)>,
    pub tail: Vec<Vec<u8>>,
}

impl Nson {
    pub fn of(e: &Event) -> Nson {
        let kind = e.kind.to_string().into_bytes();
        let content = escaped(&e.content, &IN_NSON);
        let mut counts = vec![(2, kind.len()), (4, content.len()), (2, e.tags.len())];
        for tag in &e.tags {
            counts.push((2, tag.len()));
            counts.extend(tag.iter().map(|text| (4, escaped(text, &IN_NSON).len())));
        }
        let label = |text: &str| text.as_bytes().to_vec();
        let mut tail = vec![label("\",\"kind\":"), kind, label(",\"content\":\""), content, label("\",\"tags\":")];
        tail.extend(tag_pieces(&e.tags, &IN_NSON));
        tail.push(label("}"));
        let head = vec![
            label("{\"id\":\""),
            hex_text(&e.fixed[..32]),
            label("\",\"pubkey\":\""),
            hex_text(&e.fixed[32..64]),
            label("\",\"sig\":\""),
            hex_text(&e.fixed[64..]),
            label("\",\"created_at\":"),
            e.created_at.to_string().into_bytes(),
            label(",\"nson\":\""),
        ];
        Nson { head, size: counts.iter().map(|(width, _)| width).sum(), counts, tail }
    }

    pub fn spelled(&self) -> Vec<u8> {
        let mut text = self.head.concat();
        text.extend(format!("{:02x}", self.size & 0xff).bytes());
        for &(width, value) in &self.counts {
            let value = value & ((1 << (4 * width)) - 1);
            text.extend(format!("{value:0width$x}").bytes());
        }
        text.extend(self.tail.concat());
        text
    }

    /// A count, or the size, that lies; or a text that the counts don't fit.
    pub fn lie(&mut self, d: &mut Dice) {
        let i = d.below(self.counts.len());
        let near = |d: &mut Dice, n: usize| match d.below(8) {
            0 => 0,
            1 => 0xffff,
            2 => n.wrapping_sub(1),
            3 => n + 1,
            4 => n.wrapping_sub(2),
            5 => n + 2,
            6 => n + d.below(60),
            _ => d.below(256),
        };
        match d.below(9) {
            0..=3 => self.counts[i].1 = near(d, self.counts[i].1),
            4 => self.size = near(d, self.size),
            5 => {
                let j = d.below(self.counts.len());
                self.counts.swap(i, j);
            }
            6 => {
                let again = self.counts[i];
                self.counts.insert(i, again);
                self.size += again.0 * d.below(2);
            }
            7 => {
                let gone = self.counts.remove(i);
                self.size -= gone.0 * d.below(2);
            }
            _ => {
                let piece = d.below(self.tail.len());
                let place = d.below(self.tail[piece].len() + 1);
                let odd = d.pick(&ODD_IN_STRINGS);
                self.tail[piece].splice(place..place, odd.iter().copied());
                // half of the time the content's count is right again
                if piece == 3 && d.percent(50) {
                    self.counts[1].1 = self.tail[3].len();
                }
            }
        }
    }
}

/// What a string may hold only in another spelling, or may not hold at all.
pub const ODD_IN_STRINGS: [&[u8]; 40] = [
    b"\"", b"\\", b"\\n", b"\\\\", b"\\\"", b"\\/", b"\\b", b"\\f", b"\\r", b"\\t", b"\\u0041", b"\\u00e9", b"\\uD83D\\uDE00",
    b"\\ud83d", b"\\ude00", b"\\ud83d\\u0041", b"\\ud83dx", b"\\ud83d\\ud83d\\ude00", b"\\u004", b"\\u00g0", b"\\U0041", b"\\x41",
    b"\\'", b"\\0", b"\\\xff", b"\\ud800\xff", b"\x1f", b"\0", b"\n", b"\x7f", b"\x80", b"\xff", b"\xe2\x82", b"\xe2\x82\\q",
    b"\xe2\x82\xac", b"\xed\xa0\x80", b"\xf4\x90\x80\x80", b"\\u0000", b"\",\"tags\":[]}", b"\\uFFFF\\udbff\\udfff",
];
