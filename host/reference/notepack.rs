//! Notepack: the reader, the strict question, the strict writer, views and the lister.

use crate::answer::*;
use crate::bytes::*;
use crate::versioned::Given;
use std::borrow::Cow;

pub const LIMIT: usize = 65_536;
pub const MAX_CREATED_AT: u64 = 9_223_372_036_854_775;
pub const MAX_KIND: u64 = 65_535;
pub const MAX_TAGS: u64 = 1_000;
pub const MAX_TEXTS: u64 = 255;

/// A packed event that was read: its numbers and where its parts stand.
pub struct Packed<'a> {
    pub bytes: &'a [u8],
    pub created_at: u64,
    pub kind: u64,
    pub content_at: usize,
    pub content_len: usize,
    pub tag_count: u64,
    tags_at: usize,
}

/// An element: its payload, where that stands, and b.
#[derive(Clone, Copy)]
pub struct Text<'a> {
    pub payload: &'a [u8],
    pub at: usize,
    pub raw: bool,
}

pub enum Item<'a> {
    /// a tag begins, with so many texts
    Tag(u64),
    Text(Text<'a>),
}

/// What the walk over the bytes comes past, each with the length of its varint. No varint is longer than it need be, so
/// only elements can be spelled in another way than the strict one.
enum Seen<'a> {
    Number(usize),
    Text(Text<'a>, usize),
}

#[inline(always)]
fn walk<'a>(bytes: &'a [u8], mut see: impl FnMut(Seen<'a>)) -> Answer<Packed<'a>> {
    if bytes.len() > LIMIT {
        return refuse(TOO_LONG, 0);
    }
    for (place, size) in [(0, 32), (32, 32), (64, 64)] {
        if bytes.len() < place + size {
            return refuse(TRUNCATED, place);
        }
    }
    let mut at = 128;
    // a number of at most `most`, and where it stands
    let mut number = |at: &mut usize, most: u64, number_of_refusal: u8| -> Answer<u64> {
        let start = *at;
        let (value, end) = varint(bytes, start)?;
        if value > most {
            return refuse(number_of_refusal, start);
        }
        see(Seen::Number(end - start));
        *at = end;
        Ok(value)
    };
    let created_at = number(&mut at, MAX_CREATED_AT, CREATED_AT)?;
    let kind = number(&mut at, MAX_KIND, KIND)?;
    let length_at = at;
    let content_len = number(&mut at, u64::MAX, 0)?;
    if content_len > (bytes.len() - at) as u64 {
        return refuse(TRUNCATED, length_at);
    }
    let (content_at, content_len) = (at, content_len as usize);
    at += content_len;
    if !is_utf8(&bytes[content_at..at]) {
        return refuse(NOT_UTF8, content_at);
    }
    let tag_count = number(&mut at, MAX_TAGS, TOO_MANY)?;
    let tags_at = at;
    for _ in 0..tag_count {
        let start = at;
        let (count, end) = varint(bytes, start)?;
        if count > MAX_TEXTS {
            return refuse(TOO_MANY, start);
        }
        if count == 0 {
            return refuse(EMPTY_TAG, start);
        }
        see(Seen::Number(end - start));
        at = end;
        for _ in 0..count {
            let start = at;
            let (word, end) = varint(bytes, start)?;
            if word >> 1 > (bytes.len() - end) as u64 {
                return refuse(TRUNCATED, start);
            }
            at = end + (word >> 1) as usize;
            let text = Text { payload: &bytes[end..at], at: end, raw: word & 1 == 1 };
            if !text.raw && !is_utf8(text.payload) {
                return refuse(NOT_UTF8, end);
            }
            see(Seen::Text(text, end - start));
        }
    }
    if at < bytes.len() {
        return refuse(AFTER_THE_END, at);
    }
    Ok(Packed { bytes, created_at, kind, content_at, content_len, tag_count, tags_at })
}

pub fn read(bytes: &[u8]) -> Answer<Packed<'_>> {
    walk(bytes, |_| {})
}

pub fn is_strict(bytes: &[u8]) -> Answer<bool> {
    let mut strict = true;
    walk(bytes, |seen| {
        if let Seen::Text(text, _) = seen {
            strict &= text.raw == text.goes_raw();
        }
    })?;
    Ok(strict)
}

/// The event, the length of its strict form, and whether the bytes are that form already.
#[inline(always)]
pub fn measured(bytes: &[u8]) -> Answer<(Packed<'_>, usize, bool)> {
    let (mut needed, mut as_it_is) = (128, true);
    let packed = walk(bytes, |seen| match seen {
        Seen::Number(spelled) => needed += spelled,
        Seen::Text(text, spelled) => {
            let length = text.strict_len();
            needed += length;
            // raw bytes of length 0 are the only other spelling as short as the strict one
            as_it_is &= length == spelled + text.payload.len() && !(text.raw && text.payload.is_empty());
        }
    })?;
    needed += packed.content_len;
    Ok((packed, needed, as_it_is))
}

/// The strict form into the lent buffer; its length.
pub fn write(bytes: &[u8], out: &mut [u8]) -> Answer<usize> {
    let (packed, needed, as_it_is) = measured(bytes)?;
    let mut out = room(out, needed)?;
    if as_it_is {
        out.put(bytes);
    } else {
        packed.put_strict(&mut out);
    }
    assert!(out.full());
    Ok(needed)
}

/// The strict form: the bytes themselves, where they are that.
pub fn strict(bytes: &[u8]) -> Answer<Cow<'_, [u8]>> {
    let (packed, needed, as_it_is) = measured(bytes)?;
    if as_it_is {
        return Ok(Cow::Borrowed(bytes));
    }
    let mut strict = vec![0; needed];
    packed.put_strict(&mut room(&mut strict, needed)?);
    Ok(Cow::Owned(strict))
}

impl<'a> Text<'a> {
    /// A text of a JSON string.
    pub fn plain(payload: &'a [u8]) -> Text<'a> {
        Text { payload, at: 0, raw: false }
    }

    /// Does the text go raw in the strict form? If it has an even number of lowercase hex digits, at least two, alone.
    #[inline]
    pub fn goes_raw(&self) -> bool {
        let p = self.payload;
        !p.is_empty() && (self.raw || p.len() % 2 == 0 && is_hex(p))
    }

    /// The strict word 2 x length + b.
    #[inline]
    fn strict_word(&self) -> u64 {
        let length = self.payload.len() as u64;
        match (self.goes_raw(), self.raw) {
            (false, _) => 2 * length,
            (true, true) => 2 * length + 1,
            (true, false) => length + 1,
        }
    }

    #[inline]
    pub fn strict_len(&self) -> usize {
        let word = self.strict_word();
        varint_len(word) + (word >> 1) as usize
    }

    #[inline]
    pub fn put_strict(&self, out: &mut Out) {
        let word = self.strict_word();
        put_varint(out, word);
        if word & 1 == 1 && !self.raw {
            unhex(self.payload, out.take((word >> 1) as usize));
        } else {
            out.put(self.payload);
        }
    }

    /// Are two elements the same text?
    pub fn same(&self, other: &Text) -> bool {
        match (self.raw, other.raw) {
            (true, false) => hex_spells(self.payload, other.payload),
            (false, true) => hex_spells(other.payload, self.payload),
            _ => self.payload == other.payload,
        }
    }
}

/// Is `text` the lowercase hex of `raw`?
fn hex_spells(raw: &[u8], text: &[u8]) -> bool {
    text.len() == 2 * raw.len()
        && raw.iter().zip(text.chunks_exact(2)).all(|(&b, pair)| {
            let mut back = [0];
            unhex(pair, &mut back) && back[0] == b
        })
}

impl<'a> Packed<'a> {
    pub fn id(&self) -> &'a [u8] {
        &self.bytes[..32]
    }

    pub fn pubkey(&self) -> &'a [u8] {
        &self.bytes[32..64]
    }

    pub fn sig(&self) -> &'a [u8] {
        &self.bytes[64..128]
    }

    pub fn content(&self) -> &'a [u8] {
        &self.bytes[self.content_at..self.content_at + self.content_len]
    }

    /// Tags and their texts in order. The bytes were read before, so nothing can be refused here.
    pub fn items(&self) -> Items<'a> {
        Items { bytes: self.bytes, at: self.tags_at, texts_left: 0, tags_left: self.tag_count }
    }

    pub fn put_strict(&self, out: &mut Out) {
        out.put(&self.bytes[..128]);
        put_varint(out, self.created_at);
        put_varint(out, self.kind);
        put_varint(out, self.content_len as u64);
        out.put(self.content());
        put_varint(out, self.tag_count);
        for item in self.items() {
            match item {
                Item::Tag(count) => put_varint(out, count),
                Item::Text(text) => text.put_strict(out),
            }
        }
    }

    /// The texts of all tags in order, each with the number of its tag.
    pub fn texts(&self) -> impl Iterator<Item = (u32, Text<'a>)> {
        let mut tags = 0;
        self.items().filter_map(move |item| match item {
            Item::Tag(_) => {
                tags += 1;
                None
            }
            Item::Text(text) => Some((tags - 1, text)),
        })
    }

    pub fn tag_len(&self, tag: u64) -> Answer<u64> {
        let counts = self.items().filter_map(|item| match item {
            Item::Tag(count) => Some(count),
            Item::Text(_) => None,
        });
        nth(counts, tag)
    }

    pub fn element(&self, tag: u64, element: u64) -> Answer<Text<'a>> {
        let mut items = self.items();
        let mut tags_left = tag;
        while let Some(item) = items.next() {
            let Item::Tag(count) = item else { continue };
            if tags_left > 0 {
                tags_left -= 1;
                continue;
            }
            let texts = items.take(count as usize).filter_map(|item| match item {
                Item::Text(text) => Some(text),
                Item::Tag(_) => None,
            });
            return nth(texts, element);
        }
        refuse(NO_SUCH, 0)
    }
}

fn nth<T>(mut all: impl Iterator<Item = T>, n: u64) -> Answer<T> {
    match usize::try_from(n).ok().and_then(|n| all.nth(n)) {
        Some(found) => Ok(found),
        None => refuse(NO_SUCH, 0),
    }
}

pub struct Items<'a> {
    bytes: &'a [u8],
    at: usize,
    texts_left: u64,
    tags_left: u64,
}

impl Items<'_> {
    #[inline]
    fn number(&mut self) -> u64 {
        let (value, end) = varint(self.bytes, self.at).expect("bytes that were read");
        self.at = end;
        value
    }
}

impl<'a> Iterator for Items<'a> {
    type Item = Item<'a>;

    #[inline]
    fn next(&mut self) -> Option<Item<'a>> {
        if self.texts_left > 0 {
            self.texts_left -= 1;
            let word = self.number();
            let at = self.at;
            self.at += (word >> 1) as usize;
            return Some(Item::Text(Text { payload: &self.bytes[at..self.at], at, raw: word & 1 == 1 }));
        }
        if self.tags_left > 0 {
            self.tags_left -= 1;
            self.texts_left = self.number();
            return Some(Item::Tag(self.texts_left));
        }
        None
    }
}

/// So many bytes for each element that is listed.
pub const ELEMENT_BYTES: usize = 16;

/// The elements of all tags from number `first` on, as many as there are and as fit whole into the lent buffer; how
/// many that is. Each is four little-endian numbers: its tag, the payload's place in what was given, its length, and b.
pub fn elements(given: Given, first: u64, out: &mut [u8]) -> Answer<u64> {
    let packed = given.with(read)?;
    let places = out.chunks_exact_mut(ELEMENT_BYTES);
    let wanted = packed.texts().skip(usize::try_from(first).unwrap_or(usize::MAX));
    let mut listed = 0;
    for (place, (tag, text)) in places.zip(wanted) {
        let numbers = [tag, given.place(text.at) as u32, text.payload.len() as u32, text.raw as u32];
        for (four, number) in place.chunks_exact_mut(4).zip(numbers) {
            four.copy_from_slice(&number.to_le_bytes());
        }
        listed += 1;
    }
    Ok(listed)
}

/// What the lister prints.
pub fn list(bytes: &[u8]) -> String {
    match read(bytes) {
        Ok(p) => format!("created_at {}\nkind {}\ncontent {}\ntags {}\n", p.created_at, p.kind, p.content_len, p.tag_count),
        Err(r) => format!("refused {} at {}\n", r.number, r.place),
    }
}
