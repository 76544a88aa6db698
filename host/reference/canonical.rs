//! The canonical text: [0,"pubkey",created_at,kind,tags,"content"].

use crate::answer::*;
use crate::bytes::*;
use crate::notepack::{self, Item, Packed, Text};

#[inline]
fn letter(b: u8) -> u8 {
    match b {
        0x0a => b'n',
        0x22 => b'"',
        0x5c => b'\\',
        0x0d => b'r',
        0x09 => b't',
        0x08 => b'b',
        0x0c => b'f',
        _ => 0,
    }
}

/// The length of a text with its escapes.
#[inline]
fn escaped_len(text: &[u8]) -> usize {
    text.len() + count(text, |b| (b == 0x22) | (b == 0x5c) | ((b >= 8) & (b <= 13) & (b != 11)))
}

pub fn write(bytes: &[u8], out: &mut [u8]) -> Answer<usize> {
    let packed = notepack::read(bytes)?;
    let numbers = decimal_len(packed.created_at) + decimal_len(packed.kind);
    let needed = b"[0,\"\",,,,\"\"]".len() + 64 + numbers + tags_len(&packed) + escaped_len(packed.content());
    let mut out = room(out, needed)?;
    out.put(b"[0,\"");
    put_hex(&mut out, packed.pubkey());
    out.put(b"\",");
    put_decimal(&mut out, packed.created_at);
    out.put(b",");
    put_decimal(&mut out, packed.kind);
    out.put(b",");
    put_tags(&mut out, &packed, |out, text| put_escaped(out, text, letter));
    out.put(b",\"");
    put_escaped(&mut out, packed.content(), letter);
    out.put(b"\"]");
    assert!(out.full());
    Ok(needed)
}

/// The length of the tags as arrays of strings.
fn tags_len(packed: &Packed) -> usize {
    // the outer brackets, less the comma that no tag follows
    let mut length = 2 - (packed.tag_count > 0) as usize;
    for item in packed.items() {
        length += match item {
            // brackets, two quotes for each text, a comma between two, and one between two tags
            Item::Tag(count) => 2 + 3 * count as usize,
            Item::Text(Text { payload, raw: true, .. }) => 2 * payload.len(),
            Item::Text(Text { payload, .. }) => escaped_len(payload),
        };
    }
    length
}

/// The tags as arrays of strings; `put_text` puts a text that isn't raw.
#[inline]
pub fn put_tags(out: &mut Out, packed: &Packed, put_text: impl Fn(&mut Out, &[u8])) {
    let (mut tags, mut texts_left) = (0, 0);
    out.put(b"[");
    for item in packed.items() {
        match item {
            Item::Tag(count) => {
                out.put(if tags == 0 { b"[\"" } else { b",[\"" });
                tags += 1;
                texts_left = count;
            }
            Item::Text(text) => {
                if text.raw {
                    put_hex(out, text.payload);
                } else {
                    put_text(out, text.payload);
                }
                texts_left -= 1;
                out.put(if texts_left == 0 { b"\"]" } else { b"\",\"" });
            }
        }
    }
    out.put(b"]");
}
