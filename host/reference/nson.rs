//! NSON: the writer, and the reader, which goes by the counts.

use crate::answer::*;
use crate::bytes::*;
use crate::canonical::put_tags;
use crate::event::{add, Event};
use crate::notepack::{self, Item, Packed, LIMIT, MAX_KIND};
use std::borrow::Cow;

const ID: &[u8] = b"{\"id\":\"";
const PUBKEY: &[u8] = b"\",\"pubkey\":\"";
const SIG: &[u8] = b"\",\"sig\":\"";
const TIME: &[u8] = b"\",\"created_at\":";
const NSON: &[u8] = b",\"nson\":\"";
const KIND_LABEL: &[u8] = b"\",\"kind\":";
const CONTENT: &[u8] = b",\"content\":\"";
const TAGS: &[u8] = b"\",\"tags\":";

/// Where the size stands: everything before it has a fixed length.
const SIZE_AT: usize = 318;

#[inline]
fn letter(b: u8) -> u8 {
    match b {
        b'\n' => b'n',
        b'"' | b'\\' => b,
        _ => 0,
    }
}

// The writer

/// The descriptors of an event that NSON can carry, and the length of the whole text.
struct Carried {
    descriptors: [u8; MOST],
    used: usize,
    whole: usize,
}

/// Descriptor bytes, without the size.
const MOST: usize = 127;

impl Carried {
    fn add(&mut self, descriptor: &[u8]) -> Option<()> {
        let end = self.used + descriptor.len();
        self.descriptors.get_mut(self.used..end)?.copy_from_slice(descriptor);
        self.used = end;
        // each byte is two digits
        self.whole += 2 * descriptor.len();
        Some(())
    }

    /// A string of this length between its quotes, without them.
    fn add_string(&mut self, length: usize) -> Option<()> {
        self.whole += length;
        self.add(&u16::try_from(length).ok()?.to_be_bytes())
    }
}

/// The escaped length of a text, if each of its bytes can be spelled.
fn escaped_len(text: &[u8]) -> Option<usize> {
    let bad = count(text, |b| (b < 0x20) & (b != b'\n'));
    let escapes = count(text, |b| (b == b'\n') | (b == b'"') | (b == b'\\'));
    (bad == 0).then_some(text.len() + escapes)
}

fn carried(packed: &Packed) -> Option<Carried> {
    if !(1_000_000_000..=9_999_999_999).contains(&packed.created_at) {
        return None;
    }
    let labels = KIND_LABEL.len() + CONTENT.len() + TAGS.len() + b"[]}".len();
    let kind_chars = decimal_len(packed.kind);
    let mut c = Carried { descriptors: [0; MOST], used: 0, whole: SIZE_AT + 2 + labels + kind_chars };
    c.add(&[kind_chars as u8])?;
    c.add_string(escaped_len(packed.content())?)?;
    c.add(&[u8::try_from(packed.tag_count).ok()?])?;
    for item in packed.items() {
        match item {
            Item::Tag(count) => {
                c.add(&[count as u8])?;
                // brackets, two quotes for each text, a comma between two, and one between two tags
                c.whole += 2 + 3 * count as usize;
            }
            Item::Text(text) if text.raw => c.add_string(2 * text.payload.len())?,
            Item::Text(text) => c.add_string(escaped_len(text.payload)?)?,
        }
    }
    // there is no comma behind the last tag
    c.whole -= (packed.tag_count > 0) as usize;
    (c.whole <= LIMIT).then_some(c)
}

pub fn write(bytes: &[u8], out: &mut [u8]) -> Answer<usize> {
    let packed = notepack::read(bytes)?;
    let Some(carried) = carried(&packed) else { return refuse(NOT_CARRIED, 0) };
    let mut out = room(out, carried.whole)?;
    out.put(ID);
    put_hex(&mut out, packed.id());
    out.put(PUBKEY);
    put_hex(&mut out, packed.pubkey());
    out.put(SIG);
    put_hex(&mut out, packed.sig());
    out.put(TIME);
    put_decimal(&mut out, packed.created_at);
    out.put(NSON);
    put_hex(&mut out, &[2 * carried.used as u8]);
    put_hex(&mut out, &carried.descriptors[..carried.used]);
    out.put(KIND_LABEL);
    put_decimal(&mut out, packed.kind);
    out.put(CONTENT);
    put_escaped(&mut out, packed.content(), letter);
    out.put(TAGS);
    put_tags(&mut out, &packed, |out, text| put_escaped(out, text, letter));
    out.put(b"}");
    assert!(out.full());
    Ok(carried.whole)
}

// The reader

struct Reader<'a> {
    s: &'a [u8],
    at: usize,
}

impl<'a> Reader<'a> {
    /// The next `length` bytes, if there are so many.
    fn take(&mut self, length: usize) -> Option<&'a [u8]> {
        let part = self.s.get(self.at..self.at + length)?;
        self.at += length;
        Some(part)
    }

    /// A fixed piece, or the refusal `number` at its start.
    fn piece(&mut self, piece: &[u8], number: u8) -> Answer<()> {
        let start = self.at;
        match self.take(piece.len()) {
            Some(part) if part == piece => Ok(()),
            _ => refuse(number, start),
        }
    }

    fn hex(&mut self, to: &mut [u8]) -> Answer<()> {
        let start = self.at;
        match self.take(2 * to.len()) {
            Some(part) if unhex(part, to) => Ok(()),
            _ => refuse(NOT_FIXED, start),
        }
    }

    fn time(&mut self) -> Answer<u64> {
        let start = self.at;
        match self.take(10) {
            Some(part) if part[0] != b'0' && part.iter().all(u8::is_ascii_digit) => Ok(number(part)),
            _ => refuse(NOT_FIXED, start),
        }
    }

    fn kind(&mut self, chars: usize) -> Answer<u64> {
        let start = self.at;
        let spelled = |part: &[u8]| part.iter().all(u8::is_ascii_digit) && (part[0] != b'0' || part.len() == 1);
        match self.take(chars) {
            Some(part) if spelled(part) => match number(part) {
                kind if kind <= MAX_KIND => Ok(kind),
                _ => refuse(KIND, start),
            },
            _ => refuse(COUNTS, start),
        }
    }

    /// The next `length` bytes as a string between quotes.
    fn string(&mut self, length: usize) -> Answer<Cow<'a, [u8]>> {
        let start = self.at;
        let rest = &self.s[start..];
        let counted = &rest[..length.min(rest.len())];
        let mut text = Cow::Borrowed(&[][..]);
        let mut at = 0;
        loop {
            let (plain, ascii) = plain_run(&counted[at..]);
            let plain = &counted[at..at + plain];
            if !ascii && !is_utf8(plain) {
                return refuse(NOT_UTF8, start);
            }
            at += plain.len();
            add(&mut text, plain);
            let byte = match (counted.get(at), counted.get(at + 1)) {
                (None, _) if counted.len() < length => return refuse(COUNTS, start),
                (None, _) => break,
                (Some(b'"'), _) => return refuse(COUNTS, start),
                (Some(b'\\'), Some(b'n')) => b'\n',
                (Some(b'\\'), Some(&b @ (b'"' | b'\\'))) => b,
                _ => return refuse(NOT_ALLOWED, start),
            };
            text.to_mut().push(byte);
            at += 2;
        }
        self.at += length;
        Ok(text)
    }
}

fn number(digits: &[u8]) -> u64 {
    digits.iter().fold(0, |n, d| 10 * n + (d - b'0') as u64)
}

/// The descriptors as bytes, checked against the size alone; then taken one after the other.
struct Counts {
    bytes: [u8; MOST],
    used: usize,
    taken: usize,
    items: usize,
}

impl Counts {
    /// Reads a descriptor of `N` bytes: its value and where it stands.
    fn read<const N: usize>(&mut self, r: &mut Reader, end: usize) -> Answer<(usize, usize)> {
        let start = r.at;
        if start + 2 * N > end {
            return refuse(COUNTS, SIZE_AT);
        }
        let mut bytes = [0; N];
        r.hex(&mut bytes)?;
        // a size of at most 255 digits has room for so many bytes
        self.bytes[self.used..self.used + N].copy_from_slice(&bytes);
        self.used += N;
        Ok((value(&bytes), start))
    }

    fn take<const N: usize>(&mut self) -> usize {
        let start = self.taken;
        self.taken += N;
        value(&self.bytes[start..self.taken])
    }
}

fn value(big_endian: &[u8]) -> usize {
    big_endian.iter().fold(0, |n, &b| n << 8 | b as usize)
}

fn counts(r: &mut Reader) -> Answer<Counts> {
    let mut size = [0];
    r.hex(&mut size)?;
    let end = r.at + size[0] as usize;
    let mut counts = Counts { bytes: [0; MOST], used: 0, taken: 0, items: 0 };
    let (kind_chars, place) = counts.read::<1>(r, end)?;
    if !(1..=5).contains(&kind_chars) {
        return refuse(COUNTS, place);
    }
    counts.read::<2>(r, end)?;
    let (tags, _) = counts.read::<1>(r, end)?;
    for _ in 0..tags {
        let (items, place) = counts.read::<1>(r, end)?;
        if items == 0 {
            return refuse(EMPTY_TAG, place);
        }
        for _ in 0..items {
            counts.read::<2>(r, end)?;
        }
        counts.items += items;
    }
    if r.at != end {
        return refuse(COUNTS, SIZE_AT);
    }
    Ok(counts)
}

fn event<'a>(s: &'a [u8], e: &mut Event<'a>) -> Answer<()> {
    if s.len() > LIMIT {
        return refuse(TOO_LONG, 0);
    }
    let mut r = Reader { s, at: 0 };
    r.piece(ID, NOT_FIXED)?;
    r.hex(&mut e.id)?;
    r.piece(PUBKEY, NOT_FIXED)?;
    r.hex(&mut e.pubkey)?;
    r.piece(SIG, NOT_FIXED)?;
    r.hex(&mut e.sig)?;
    r.piece(TIME, NOT_FIXED)?;
    e.created_at = r.time()?;
    r.piece(NSON, NOT_FIXED)?;
    let mut counts = counts(&mut r)?;
    r.piece(KIND_LABEL, COUNTS)?;
    e.kind = r.kind(counts.take::<1>())?;
    r.piece(CONTENT, COUNTS)?;
    e.content = r.string(counts.take::<2>())?;
    r.piece(TAGS, COUNTS)?;
    r.piece(b"[", COUNTS)?;
    let tags = counts.take::<1>();
    e.tags.reserve(tags);
    e.texts.reserve(counts.items);
    for tag in 0..tags {
        if tag > 0 {
            r.piece(b",", COUNTS)?;
        }
        r.piece(b"[", COUNTS)?;
        let items = counts.take::<1>();
        for item in 0..items {
            if item > 0 {
                r.piece(b",", COUNTS)?;
            }
            r.piece(b"\"", COUNTS)?;
            e.texts.push(r.string(counts.take::<2>())?);
            r.piece(b"\"", COUNTS)?;
        }
        r.piece(b"]", COUNTS)?;
        e.tags.push(items);
    }
    r.piece(b"]", COUNTS)?;
    r.piece(b"}", COUNTS)?;
    if r.at < s.len() {
        return refuse(AFTER_THE_END, r.at);
    }
    Ok(())
}

pub fn read(text: &[u8], out: &mut [u8]) -> Answer<usize> {
    let mut e = Event::empty();
    event(text, &mut e)?;
    e.leave(out)
}
