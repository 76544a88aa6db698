//! The pointer form, v0 and v1: a header, fixed fields, data that pointers lead into, id and sig.

use crate::answer::*;
use crate::bytes::{is_utf8, varint_len};
use crate::event::Event;
use crate::notepack::{self, Item, Packed, Text, LIMIT, MAX_KIND, MAX_TAGS, MAX_TEXTS};
use crate::versioned::Given;
use std::borrow::Cow;
use std::ops::Range;

const PUBKEY_AT: usize = 8;
const KIND_AT: usize = 40;
const TIME_AT: usize = 48;
const CONTENT_AT: usize = 56;
const TAGS_AT: usize = 64;
const DATA_AT: usize = 72;
/// id and sig, which the header's length does not count
const BEHIND: usize = 32 + 64;
/// What a pointer takes, and what every offset is a multiple of.
const WORD: usize = 8;

/// A pointer form that was read: each of its pointers leads into the data, and if it is a v0 it is a valid event.
pub struct Form<'a> {
    bytes: &'a [u8],
    pub version: u64,
    pub kind: u64,
    pub milliseconds: i64,
    /// where the content stands
    pub content: Range<usize>,
    /// where the table of the tags stands
    tags: Range<usize>,
}

fn word(bytes: &[u8], at: usize) -> u64 {
    u64::from_le_bytes(bytes[at..at + WORD].try_into().unwrap())
}

/// The header of a v0, or of a v1, with nothing but this in it.
fn header(length: usize, version: u64) -> u64 {
    (length - BEHIND) as u64 | version << 32
}

/// The version, if the header is as it must be.
fn version(bytes: &[u8]) -> Answer<u64> {
    if bytes.len() > LIMIT {
        return refuse(TOO_LONG, 0);
    }
    let least = DATA_AT + BEHIND;
    match [0, 1].into_iter().find(|&v| bytes.len() >= least && word(bytes, 0) == header(bytes.len(), v)) {
        Some(version) => Ok(version),
        None => refuse(NOT_A_POINTER_FORM, 0),
    }
}

/// The piece of the data that the pointer at `at` names.
fn piece(bytes: &[u8], at: usize) -> Answer<Range<usize>> {
    let pointer = word(bytes, at);
    let (offset, length) = ((pointer >> 32) as usize, pointer as u32 as usize);
    let data = bytes.len() - BEHIND - DATA_AT;
    if offset % WORD != 0 || offset + length > data {
        return refuse(BAD_POINTER, at);
    }
    Ok(DATA_AT + offset..DATA_AT + offset + length)
}

/// The same of a table, which has whole pointers in it.
fn table(bytes: &[u8], at: usize) -> Answer<Range<usize>> {
    let piece = piece(bytes, at)?;
    if piece.len() % WORD != 0 {
        return refuse(BAD_POINTER, at);
    }
    Ok(piece)
}

/// The pointers of a table: where each stands.
fn entries(table: &Range<usize>) -> impl Iterator<Item = usize> {
    table.clone().step_by(WORD)
}

/// The piece, which is well-formed UTF-8 if it is one of a v0.
fn text(bytes: &[u8], version: u64, at: usize) -> Answer<Range<usize>> {
    let text = piece(bytes, at)?;
    if version == 0 && !is_utf8(&bytes[text.clone()]) {
        return refuse(NOT_UTF8, text.start);
    }
    Ok(text)
}

/// The table of the tag whose pointer is at `at`, with a number of texts that a v0 may have.
fn tag(bytes: &[u8], version: u64, at: usize) -> Answer<Range<usize>> {
    let tag = table(bytes, at)?;
    let count = (tag.len() / WORD) as u64;
    if version == 0 && count > MAX_TEXTS {
        return refuse(TOO_MANY, at);
    }
    if version == 0 && count == 0 {
        return refuse(EMPTY_TAG, at);
    }
    Ok(tag)
}

/// Do the tags name more than the data has? Then some of it is shared. It looks no further than that, nor past a
/// pointer that leads nowhere.
fn shares(bytes: &[u8], tags: &Range<usize>) -> bool {
    let mut left = bytes.len();
    let mut takes = |length: usize| {
        let fits = length <= left;
        left -= if fits { length } else { 0 };
        fits
    };
    for at in entries(tags) {
        let Ok(tag) = table(bytes, at) else { return false };
        for at in entries(&tag) {
            let Ok(text) = piece(bytes, at) else { return false };
            if !takes(WORD + text.len()) {
                return true;
            }
        }
    }
    false
}

/// What holds of each eight bytes of the data, taken as a pointer to a text, so that no text need be looked at twice
/// however many tags share it.
struct Known {
    /// at each word: the first from there on whose text is refused
    next_fault: Vec<usize>,
    /// at each word: what the texts of the words in front of it take in strict form, the refused ones not counted
    size_before: Vec<usize>,
}

impl Known {
    fn of(bytes: &[u8], version: u64) -> Known {
        let end = bytes.len() - BEHIND;
        let (stops, hex_ends) = (stops(&bytes[..end]), hex_ends(&bytes[..end]));
        let words = (end - DATA_AT) / WORD;
        // a text is well-formed if no sequence from its start on is bad or cut by its end
        let is_good = |text: &Range<usize>| {
            let (end, stop) = (text.end, stops[text.start] as usize);
            version != 0 || end == stop || end < stop && !continues(bytes[end])
        };
        let (mut next_fault, mut size_before) = (vec![words; words + 1], vec![0; words + 1]);
        for n in 0..words {
            let size = match piece(bytes, DATA_AT + WORD * n) {
                Ok(text) if is_good(&text) => {
                    let length = text.len();
                    let raw = length % 2 == 0 && length > 0 && text.end <= hex_ends[text.start] as usize;
                    let payload = if raw { length / 2 } else { length };
                    varint_len(2 * payload as u64) + payload
                }
                _ => {
                    next_fault[n] = n;
                    0
                }
            };
            size_before[n + 1] = size_before[n] + size;
        }
        for n in (0..words).rev() {
            next_fault[n] = next_fault[n].min(next_fault[n + 1]);
        }
        Known { next_fault, size_before }
    }
}

fn continues(b: u8) -> bool {
    b & 0xc0 == 0x80
}

/// At each place: where the first sequence starts that is ill-formed or cut, if one goes on from there; else the end.
fn stops(s: &[u8]) -> Vec<u32> {
    let mut stops = vec![s.len() as u32; s.len() + 1];
    for at in (0..s.len()).rev() {
        let length = match s[at] {
            ..0x80 => 1,
            ..0xe0 => 2,
            ..0xf0 => 3,
            _ => 4,
        };
        let good = length == 1 || s.get(at..at + length).is_some_and(is_utf8);
        stops[at] = if good { stops[at + length] } else { at as u32 };
    }
    stops
}

/// At each place: where the run of lowercase hex digits ends that goes on from there.
fn hex_ends(s: &[u8]) -> Vec<u32> {
    let mut ends = vec![s.len() as u32; s.len() + 1];
    for at in (0..s.len()).rev() {
        ends[at] = if matches!(s[at], b'0'..=b'9' | b'a'..=b'f') { ends[at + 1] } else { at as u32 };
    }
    ends
}

/// The form, and what its texts take in strict form, where each by itself takes what `size_of` says.
fn walk(bytes: &[u8], version: u64, size_of: impl Fn(Text) -> usize) -> Answer<(Form<'_>, usize)> {
    let (kind, milliseconds) = (word(bytes, KIND_AT), word(bytes, TIME_AT) as i64);
    if version == 0 && kind > MAX_KIND {
        return refuse(KIND, KIND_AT);
    }
    if version == 0 && (milliseconds < 0 || milliseconds % 1_000 != 0) {
        return refuse(NOT_A_SECOND, TIME_AT);
    }
    let content = text(bytes, version, CONTENT_AT)?;
    let tags = table(bytes, TAGS_AT)?;
    if version == 0 && (tags.len() / WORD) as u64 > MAX_TAGS {
        return refuse(TOO_MANY, TAGS_AT);
    }
    let known = shares(bytes, &tags).then(|| Known::of(bytes, version));
    let mut size = 0;
    for at in entries(&tags) {
        let tag = tag(bytes, version, at)?;
        let Some(known) = &known else {
            for at in entries(&tag) {
                let text = text(bytes, version, at)?;
                size += size_of(Text::plain(&bytes[text]));
            }
            continue;
        };
        let [first, end] = [tag.start, tag.end].map(|at| (at - DATA_AT) / WORD);
        let fault = known.next_fault[first];
        if fault < end {
            text(bytes, version, DATA_AT + WORD * fault)?;
            unreachable!("that text is refused");
        }
        size += known.size_before[end] - known.size_before[first];
    }
    Ok((Form { bytes, version, kind, milliseconds, content, tags }, size))
}

pub fn read(bytes: &[u8]) -> Answer<Form<'_>> {
    Ok(walk(bytes, version(bytes)?, |_| 0)?.0)
}

impl<'a> Form<'a> {
    pub fn tag_count(&self) -> u64 {
        (self.tags.len() / WORD) as u64
    }

    /// Where the table of a tag stands, if there is such a tag.
    fn tag(&self, n: u64) -> Answer<Range<usize>> {
        if n >= self.tag_count() {
            return refuse(NO_SUCH, 0);
        }
        table(self.bytes, self.tags.start + WORD * n as usize)
    }

    pub fn tag_len(&self, n: u64) -> Answer<u64> {
        Ok((self.tag(n)?.len() / WORD) as u64)
    }

    /// Where a text stands.
    pub fn element(&self, n: u64, element: u64) -> Answer<Range<usize>> {
        let tag = self.tag(n)?;
        if element >= (tag.len() / WORD) as u64 {
            return refuse(NO_SUCH, 0);
        }
        piece(self.bytes, tag.start + WORD * element as usize)
    }

    /// The event of a v0, in whole seconds.
    fn event(&self) -> Answer<Event<'a>> {
        let (bytes, id_at) = (self.bytes, self.bytes.len() - BEHIND);
        let mut event = Event {
            id: bytes[id_at..id_at + 32].try_into().unwrap(),
            pubkey: bytes[PUBKEY_AT..PUBKEY_AT + 32].try_into().unwrap(),
            sig: bytes[id_at + 32..].try_into().unwrap(),
            created_at: self.milliseconds as u64 / 1_000,
            kind: self.kind,
            content: Cow::Borrowed(&bytes[self.content.clone()]),
            ..Event::empty()
        };
        for at in entries(&self.tags) {
            let tag = table(bytes, at)?;
            event.tags.push(tag.len() / WORD);
            for at in entries(&tag) {
                event.texts.push(Cow::Borrowed(&bytes[piece(bytes, at)?]));
            }
        }
        Ok(event)
    }
}

/// The strict form of a v0's event into the lent buffer; its length. The id of a v1 is taken of other bytes.
pub fn convert(bytes: &[u8], out: &mut [u8]) -> Answer<usize> {
    let version = version(bytes)?;
    if version != 0 {
        return refuse(NOT_A_POINTER_FORM, 0);
    }
    let (form, texts) = walk(bytes, version, |text| text.strict_len())?;
    // each text takes a byte, so there are not too many to be listed one by one
    if texts > LIMIT {
        return refuse(TOO_LONG_TO_WRITE, 0);
    }
    let event = form.event()?;
    if event.strict_len() > LIMIT {
        return refuse(TOO_LONG_TO_WRITE, 0);
    }
    event.leave(out)
}

/// So many bytes and their filling.
fn filled(length: usize) -> usize {
    length.next_multiple_of(WORD)
}

/// How long the text is when it is written out.
fn text_len(text: &Text) -> usize {
    text.payload.len() << text.raw as usize
}

/// The length of the v0 of this event.
fn v0_len(event: &Packed) -> usize {
    let of_tags = event.items().map(|item| match item {
        Item::Tag(count) => WORD + WORD * count as usize,
        Item::Text(text) => filled(text_len(&text)),
    });
    DATA_AT + filled(event.content_len) + of_tags.sum::<usize>() + BEHIND
}

/// A v0 that is being laid out: all bytes are there already, and zero.
struct Layout<'a> {
    bytes: &'a mut [u8],
    /// where the next piece stands
    at: usize,
}

impl Layout<'_> {
    fn word(&mut self, at: usize, word: u64) {
        self.bytes[at..at + WORD].copy_from_slice(&word.to_le_bytes());
    }

    /// The next piece has this length, and the pointer to it stands at `pointer`. Where it stands.
    fn piece(&mut self, pointer: usize, length: usize) -> usize {
        let at = self.at;
        self.word(pointer, ((at - DATA_AT) as u64) << 32 | length as u64);
        self.at += filled(length);
        at
    }

    fn text(&mut self, pointer: usize, text: &Text) {
        let length = text_len(text);
        let at = self.piece(pointer, length);
        let to = &mut self.bytes[at..at + length];
        if text.raw {
            crate::bytes::put_hex(&mut room(to, length).expect("as long as it is"), text.payload);
        } else {
            to.copy_from_slice(text.payload);
        }
    }
}

/// The v0 of a packed event into the lent buffer; its length.
pub fn write(packed: Given, out: &mut [u8]) -> Answer<usize> {
    let event = packed.with(notepack::read)?;
    let length = v0_len(&event);
    if length > LIMIT {
        return refuse(TOO_LONG_TO_WRITE, 0);
    }
    let bytes = room(out, length)?.whole();
    bytes.fill(0);
    let mut v0 = Layout { bytes, at: DATA_AT };
    v0.word(0, header(length, 0));
    v0.bytes[PUBKEY_AT..KIND_AT].copy_from_slice(event.pubkey());
    v0.word(KIND_AT, event.kind);
    v0.word(TIME_AT, event.created_at * 1_000);
    v0.text(CONTENT_AT, &Text::plain(event.content()));
    let tags = v0.piece(TAGS_AT, WORD * event.tag_count as usize);
    let (mut next_tag, mut next_text) = (tags, 0);
    for item in event.items() {
        match item {
            Item::Tag(count) => {
                next_text = v0.piece(next_tag, WORD * count as usize);
                next_tag += WORD;
            }
            Item::Text(text) => {
                v0.text(next_text, &text);
                next_text += WORD;
            }
        }
    }
    assert_eq!(v0.at, length - BEHIND);
    let behind = &mut v0.bytes[length - BEHIND..];
    behind[..32].copy_from_slice(event.id());
    behind[32..].copy_from_slice(event.sig());
    Ok(length)
}
