//! String forms, and what is done to a text on its way.

use crate::dice::Dice;
use crate::event::vector;
use crate::hex;
use crate::notepack::strict;
use crate::versioned::{Form, FORMS};

pub const ALPHABET: &[u8; 64] = b"ABCDEFGHIJKLMNOPQRSTUVWXYZabcdefghijklmnopqrstuvwxyz0123456789+/";

/// Base64 without padding. The bits behind the last byte are those of `leftover`, and should be zero.
pub fn base64(bytes: &[u8], leftover: u32) -> Vec<u8> {
    let mut chars = Vec::new();
    for part in bytes.chunks(3) {
        let free = (6 - 8 * part.len() % 6) % 6;
        let bits = part.iter().fold(0, |bits, &b| bits << 8 | b as u32) << free | leftover & ((1 << free) - 1);
        chars.extend((0..=part.len()).rev().map(|i| ALPHABET[(bits >> (6 * i) & 63) as usize]));
    }
    chars
}

impl Form {
    pub fn prefix(self) -> &'static [u8] {
        if self == Form::Bare { b"notepack_" } else { b"notepack1_" }
    }

    /// The kind of request that reads string forms of this form.
    pub fn reader(self) -> &'static str {
        if self == Form::Bare { "string_read" } else { "string1_read" }
    }

    /// The string form of bare bytes, in this form.
    pub fn string_of(self, bare: &[u8]) -> Vec<u8> {
        [self.prefix(), &base64(&self.of(bare), 0)].concat()
    }

    /// How long the string form of so many bare bytes is.
    pub fn string_len(self, bare: usize) -> usize {
        self.prefix().len() + (4 * (self.front().len() + bare)).div_ceil(3)
    }

    /// How many bytes a text of this length decodes to, if to any.
    pub fn decoded_len(self, text: usize) -> usize {
        text.saturating_sub(self.prefix().len()) * 3 / 4
    }
}

/// Bytes beside the alphabet's, and what other kinds of base64 and the post put there.
pub const ODD_CHARS: [u8; 28] = [
    b'=', b'-', b'_', b'\n', b'\r', b'\t', b' ', b'.', b',', b'*', b'"', b':', b'@', b'[', b'`', b'{', b'~', 0, 0x1f,
    0x7f, 0x80, 0xc1, 0xff, b'A', b'z', b'9', b'+', b'/',
];

/// Other prefixes, and the right ones, alone and twice: each is wrong for the other form.
pub const ODD_PREFIXES: [&[u8]; 25] = [
    b"", b"n", b"notepack", b"notepack-", b"notepack ", b"notepack\n_", b"Notepack_", b"NOTEPACK_", b"notepack1_",
    b" notepack_", b"\xef\xbb\xbfnotepack_", b"nostr:notepack_", b"notepack__", b"notepack_notepack_", b"notepack_",
    b"notepack1", b"notepack1-", b"notepack1__", b"notepack11_", b"notepack01_", b"notepack2_", b"notepack0_",
    b"notepack_1", b"Notepack1_", b"notepack1_notepack1_",
];

/// One thing that happens to a text of this form.
pub fn spoil_string(d: &mut Dice, form: Form, text: &mut Vec<u8>) {
    let last = text.len() - 1;
    let place = if d.percent(10) { last - d.below(3) } else { d.below(text.len()) };
    match d.below(16) {
        0 => {
            text.remove(place);
        }
        1 => text.insert(place, text[place]),
        2 | 3 => text[place] = d.pick(ALPHABET),
        4 | 5 => text[place] = d.pick(&ODD_CHARS),
        6 => text.insert(place, d.pick(&ODD_CHARS)),
        7 => text.truncate(place),
        8 => text.extend(d.pick(&[&b"\n"[..], b"\r\n", b" ", b"\0", b"A", b"AA", b"AAA"])),
        9 => pad(text, form.prefix().len()),
        10 => break_lines(text, d.pick(&[1, 64, 76])),
        11 => url_safe(text),
        12 | 13 => {
            text.splice(..form.prefix().len(), d.pick(&ODD_PREFIXES).iter().copied());
        }
        // the last character's bits, all of them or only the lowest
        14 => text[last] = d.pick(ALPHABET),
        _ => text[last] ^= 1,
    }
}

/// With `=` at the end, as padded base64 has it; where there is none to put, two.
fn pad(text: &mut Vec<u8>, prefix: usize) {
    let chars = text.len() - prefix;
    let missing = if chars % 4 == 0 { 2 } else { 4 - chars % 4 };
    text.resize(text.len() + missing, b'=');
}

fn break_lines(text: &mut Vec<u8>, length: usize) {
    *text = text.chunks(length).collect::<Vec<_>>().join(&b"\r\n"[..]);
}

/// The other alphabet of RFC 4648 has `-` and `_` for `+` and `/`.
fn url_safe(text: &mut [u8]) {
    for c in text {
        *c = match *c {
            b'+' => b'-',
            b'/' => b'_',
            c => c,
        }
    }
}

/// The vector's string forms with every change of one character.
pub fn changes() -> impl Iterator<Item = String> {
    FORMS.into_iter().flat_map(changes_of)
}

/// Cut there, lost, doubled, and each of the 256 bytes in its place. Its bytes fill the room; cut, they are asked for
/// without room too, since 11 comes last.
fn changes_of(form: Form) -> impl Iterator<Item = String> {
    let packed = strict(&vector());
    let (text, room) = (form.string_of(&packed), form.of(&packed).len());
    let cut = text.clone();
    let cuts = (0..=text.len()).flat_map(move |place| [(cut[..place].to_vec(), 0), (cut[..place].to_vec(), room)]);
    let changed = (0..text.len()).flat_map(move |place| {
        let (before, after) = (text[..place].to_vec(), text[place + 1..].to_vec());
        let c = text[place];
        let spellings = [vec![], vec![c, c]].into_iter().chain((0..=255).map(|b| vec![b]));
        spellings.map(move |s| ([&before[..], &s, &after].concat(), room)).collect::<Vec<_>>()
    });
    cuts.chain(changed).map(move |(text, room)| format!("{} {} {room}", form.reader(), hex(&text)))
}
