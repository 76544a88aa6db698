//! The plain JSON reader (RFC 8259) of one event object.

use crate::answer::*;
use crate::bytes::*;
use crate::event::{add, Event};
use crate::notepack::{LIMIT, MAX_CREATED_AT, MAX_KIND, MAX_TAGS, MAX_TEXTS};
use std::borrow::Cow;

const MAX_DEPTH: usize = 16;

// the seven fields, as bits of a set
const ID: u8 = 1;
const PUBKEY: u8 = 2;
const SIG: u8 = 4;
const TIME: u8 = 8;
const KIND_FIELD: u8 = 16;
const TAGS: u8 = 32;
const CONTENT: u8 = 64;
const ALL: u8 = 127;

fn field(name: &[u8]) -> u8 {
    match name {
        b"id" => ID,
        b"pubkey" => PUBKEY,
        b"sig" => SIG,
        b"created_at" => TIME,
        b"kind" => KIND_FIELD,
        b"tags" => TAGS,
        b"content" => CONTENT,
        _ => 0,
    }
}

struct Reader<'a> {
    s: &'a [u8],
    at: usize,
}

impl<'a> Reader<'a> {
    fn peek(&self) -> Option<u8> {
        self.s.get(self.at).copied()
    }

    /// Passes white space; the byte after it.
    #[inline]
    fn token(&mut self) -> Option<u8> {
        while let Some(b' ' | b'\t' | b'\n' | b'\r') = self.peek() {
            self.at += 1;
        }
        self.peek()
    }

    /// Refuses the token that stands here.
    fn unexpected<T>(&self) -> Answer<T> {
        refuse(NOT_ALLOWED, self.at)
    }

    fn expect(&mut self, b: u8) -> Answer<()> {
        if self.token() != Some(b) {
            return self.unexpected();
        }
        self.at += 1;
        Ok(())
    }

    /// After an item of an array or object: true behind a comma, false behind `close`.
    /// `most` items are allowed and `count` were read.
    #[inline]
    fn another(&mut self, close: u8, count: u64, most: u64) -> Answer<bool> {
        match self.token() {
            Some(b',') if count == most => refuse(TOO_MANY, self.at),
            Some(b) if b == b',' || b == close => {
                self.at += 1;
                Ok(b == b',')
            }
            _ => self.unexpected(),
        }
    }

    /// Is the array or object that begins here without items? If so it is passed.
    #[inline]
    fn closes_at_once(&mut self, close: u8) -> bool {
        let closes = self.token() == Some(close);
        self.at += closes as usize;
        closes
    }

    /// A string, unescaped; one without escapes is a part of the input.
    fn string(&mut self) -> Answer<Cow<'a, [u8]>> {
        if self.token() != Some(b'"') {
            return self.unexpected();
        }
        let quote = self.at;
        let mut text: Cow<'a, [u8]> = Cow::Borrowed(&[]);
        self.at += 1;
        loop {
            let rest = &self.s[self.at..];
            let (plain, ascii) = plain_run(rest);
            let plain = &rest[..plain];
            if !ascii && !is_utf8(plain) {
                return refuse(NOT_UTF8, quote + 1);
            }
            self.at += plain.len();
            add(&mut text, plain);
            match self.peek() {
                Some(b'"') => break,
                Some(b'\\') => {
                    let Some(scalar) = self.escape() else { return refuse(NOT_ALLOWED, quote) };
                    let mut utf8 = [0; 4];
                    text.to_mut().extend_from_slice(scalar.encode_utf8(&mut utf8).as_bytes());
                }
                // a raw control byte, or the end
                _ => return refuse(NOT_ALLOWED, quote),
            }
        }
        self.at += 1;
        Ok(text)
    }

    /// The character that an escape stands for; the cursor is at its backslash.
    fn escape(&mut self) -> Option<char> {
        let letter = *self.s.get(self.at + 1)?;
        if letter != b'u' {
            self.at += 2;
            return Some(match letter {
                b'"' | b'\\' | b'/' => letter as char,
                b'b' => '\u{8}',
                b'f' => '\u{c}',
                b'n' => '\n',
                b'r' => '\r',
                b't' => '\t',
                _ => return None,
            });
        }
        let unit = self.unit()?;
        if !(0xd800..0xdc00).contains(&unit) {
            // a low surrogate alone is no character
            return char::from_u32(unit);
        }
        let low = self.unit()?;
        if !(0xdc00..0xe000).contains(&low) {
            return None;
        }
        char::from_u32(0x10000 + ((unit - 0xd800) << 10) + (low - 0xdc00))
    }

    /// Backslash, u and four hex digits of either case.
    fn unit(&mut self) -> Option<u32> {
        let digits = self.s.get(self.at..self.at + 6)?.strip_prefix(b"\\u")?;
        self.at += 6;
        digits.iter().try_fold(0, |n, &d| Some(n << 4 | (d as char).to_digit(16)?))
    }

    fn digits(&mut self) -> usize {
        let start = self.at;
        while let Some(b'0'..=b'9') = self.peek() {
            self.at += 1;
        }
        self.at - start
    }

    /// The longest number that the RFC allows: its bytes, and whether they are digits alone.
    fn number(&mut self) -> Answer<(&'a [u8], bool)> {
        let start = self.at;
        let minus = self.peek() == Some(b'-');
        self.at += minus as usize;
        if self.peek() == Some(b'0') {
            self.at += 1;
        } else if self.digits() == 0 {
            return refuse(NOT_ALLOWED, start);
        }
        let whole = self.at;
        if self.peek() == Some(b'.') {
            self.at += 1;
            if self.digits() == 0 {
                self.at = whole;
                return Ok((&self.s[start..whole], !minus));
            }
        }
        let before_exponent = self.at;
        if let Some(b'e' | b'E') = self.peek() {
            self.at += 1;
            if let Some(b'+' | b'-') = self.peek() {
                self.at += 1;
            }
            if self.digits() == 0 {
                self.at = before_exponent;
            }
        }
        Ok((&self.s[start..self.at], !minus && self.at == whole))
    }

    /// A field that is digits alone, at most `most`.
    fn count(&mut self, most: u64, number_of_refusal: u8) -> Answer<u64> {
        let Some(b'0'..=b'9' | b'-') = self.token() else { return self.unexpected() };
        let start = self.at;
        let (spelled, plain) = self.number()?;
        if !plain {
            return refuse(NOT_ALLOWED, start);
        }
        let value = spelled.iter().fold(0u64, |n, d| n.saturating_mul(10).saturating_add((d - b'0') as u64));
        if value > most {
            return refuse(number_of_refusal, start);
        }
        Ok(value)
    }

    fn hex(&mut self, to: &mut [u8]) -> Answer<()> {
        self.token();
        let start = self.at;
        let text = self.string()?;
        if text.len() != 2 * to.len() || !unhex(&text, to) {
            return refuse(NOT_FIXED, start);
        }
        Ok(())
    }

    fn tags(&mut self, e: &mut Event<'a>) -> Answer<()> {
        self.expect(b'[')?;
        if self.closes_at_once(b']') {
            return Ok(());
        }
        loop {
            let count = self.tag(e)?;
            e.tags.push(count);
            if !self.another(b']', e.tags.len() as u64, MAX_TAGS)? {
                return Ok(());
            }
        }
    }

    fn tag(&mut self, e: &mut Event<'a>) -> Answer<usize> {
        self.expect(b'[')?;
        let start = self.at - 1;
        if self.closes_at_once(b']') {
            return refuse(EMPTY_TAG, start);
        }
        let before = e.texts.len();
        loop {
            e.texts.push(self.string()?);
            let count = e.texts.len() - before;
            if !self.another(b']', count as u64, MAX_TEXTS)? {
                return Ok(count);
            }
        }
    }

    /// Any value, with at most `depth` arrays and objects inside one another.
    fn ignore(&mut self, depth: usize) -> Answer<()> {
        match self.token() {
            Some(b'"') => self.string().map(|_| ()),
            Some(b'0'..=b'9' | b'-') => self.number().map(|_| ()),
            Some(b'[' | b'{') if depth == 0 => refuse(TOO_DEEP, self.at),
            Some(b'[') => self.ignore_array(depth - 1),
            Some(b'{') => self.ignore_object(depth - 1),
            Some(b't') => self.literal(b"true"),
            Some(b'f') => self.literal(b"false"),
            Some(b'n') => self.literal(b"null"),
            _ => self.unexpected(),
        }
    }

    fn literal(&mut self, word: &[u8]) -> Answer<()> {
        if !self.s[self.at..].starts_with(word) {
            return self.unexpected();
        }
        self.at += word.len();
        Ok(())
    }

    fn ignore_array(&mut self, depth: usize) -> Answer<()> {
        self.at += 1;
        if self.closes_at_once(b']') {
            return Ok(());
        }
        loop {
            self.ignore(depth)?;
            if !self.another(b']', 0, u64::MAX)? {
                return Ok(());
            }
        }
    }

    fn ignore_object(&mut self, depth: usize) -> Answer<()> {
        self.at += 1;
        if self.closes_at_once(b'}') {
            return Ok(());
        }
        loop {
            self.string()?;
            self.expect(b':')?;
            self.ignore(depth)?;
            if !self.another(b'}', 0, u64::MAX)? {
                return Ok(());
            }
        }
    }

    fn object(&mut self, e: &mut Event<'a>) -> Answer<()> {
        let mut seen = 0;
        self.expect(b'{')?;
        if !self.closes_at_once(b'}') {
            loop {
                self.token();
                let start = self.at;
                let name = self.string()?;
                let field = field(&name);
                if seen & field != 0 {
                    return refuse(TWICE, start);
                }
                seen |= field;
                self.expect(b':')?;
                match field {
                    ID => self.hex(&mut e.id)?,
                    PUBKEY => self.hex(&mut e.pubkey)?,
                    SIG => self.hex(&mut e.sig)?,
                    TIME => e.created_at = self.count(MAX_CREATED_AT, CREATED_AT)?,
                    KIND_FIELD => e.kind = self.count(MAX_KIND, KIND)?,
                    TAGS => self.tags(e)?,
                    CONTENT => e.content = self.string()?,
                    _ => self.ignore(MAX_DEPTH)?,
                }
                if !self.another(b'}', 0, u64::MAX)? {
                    break;
                }
            }
        }
        if seen != ALL {
            return refuse(MISSING, self.at - 1);
        }
        Ok(())
    }
}

pub fn read(text: &[u8], out: &mut [u8]) -> Answer<usize> {
    if text.len() > LIMIT {
        return refuse(TOO_LONG, 0);
    }
    let mut r = Reader { s: text, at: 0 };
    let mut e = Event::empty();
    r.object(&mut e)?;
    if r.token().is_some() {
        return refuse(AFTER_THE_END, r.at);
    }
    e.leave(out)
}
