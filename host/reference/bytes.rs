//! What all formats share: varints, hex, decimal, UTF-8, runs of plain bytes.

use crate::answer::*;

pub fn is_utf8(bytes: &[u8]) -> bool {
    std::str::from_utf8(bytes).is_ok()
}

/// The varint at `at`: its value and where it ends. One that is longer than its number needs is 24.
#[inline]
pub fn varint(s: &[u8], at: usize) -> Answer<(u64, usize)> {
    match s.get(at) {
        None => refuse(TRUNCATED, at),
        Some(&b) if b < 0x80 => Ok((b as u64, at + 1)),
        Some(&b) => longer_varint(s, at, b),
    }
}

fn longer_varint(s: &[u8], at: usize, first: u8) -> Answer<(u64, usize)> {
    let mut value = (first & 0x7f) as u64;
    for i in 1..10 {
        let Some(&b) = s.get(at + i) else { return refuse(UNTERMINATED, at) };
        // the tenth byte has room for one bit
        if i == 9 && b > 1 {
            return refuse(OVERFLOW, at);
        }
        // a last byte without a bit in it adds nothing
        if b == 0 {
            return refuse(PADDED, at);
        }
        value |= ((b & 0x7f) as u64) << (7 * i);
        if b < 0x80 {
            return Ok((value, at + i + 1));
        }
    }
    unreachable!("a tenth byte ends the varint, if it is 01, or is refused")
}

/// The length of the shortest varint of `value`.
#[inline]
pub fn varint_len(value: u64) -> usize {
    let bits = 64 - (value | 1).leading_zeros() as usize;
    (bits + 6) / 7
}

#[inline]
pub fn put_varint(out: &mut Out, mut value: u64) {
    while value >= 0x80 {
        out.byte(value as u8 | 0x80);
        value >>= 7;
    }
    out.byte(value as u8);
}

/// Are they all of 0-9 a-f?
#[inline]
pub fn is_hex(bytes: &[u8]) -> bool {
    let digit = |b: u8| (b.wrapping_sub(b'0') < 10) | (b.wrapping_sub(b'a') < 6);
    // most texts that are not hex show it at once; the rest goes without exits, as vector code
    bytes.first().is_none_or(|&b| digit(b)) && bytes.iter().fold(true, |all, &b| all & digit(b))
}

/// The bytes that lowercase hex spells; false if a digit is none. `hex` is twice as long as `to`.
#[inline]
pub fn unhex(hex: &[u8], to: &mut [u8]) -> bool {
    for (pair, byte) in hex.chunks_exact(2).zip(to) {
        // both digits at once: letters have bit 6, and are 9 above their low four bits
        let pair = u16::from_le_bytes([pair[0], pair[1]]);
        let values = (pair & 0x0f0f) + 9 * (pair >> 6 & 0x0101);
        *byte = (values << 4 | values >> 8) as u8;
    }
    is_hex(hex)
}

#[inline]
pub fn put_hex(out: &mut Out, bytes: &[u8]) {
    for (pair, &b) in out.take(2 * bytes.len()).chunks_exact_mut(2).zip(bytes) {
        // both digits at once: those above 9 are letters, 39 further on
        let values = (b >> 4) as u16 | ((b & 15) as u16) << 8;
        let letters = (values + 0x0606) >> 4 & 0x0101;
        pair.copy_from_slice(&(values + 0x3030 + 39 * letters).to_le_bytes());
    }
}

pub fn decimal_len(value: u64) -> usize {
    value.checked_ilog10().map_or(1, |log| log as usize + 1)
}

pub fn put_decimal(out: &mut Out, mut value: u64) {
    for digit in out.take(decimal_len(value)).iter_mut().rev() {
        *digit = b'0' + (value % 10) as u8;
        value /= 10;
    }
}

/// A control byte, a quote or a backslash: what ends a run of plain bytes in a string.
#[inline]
fn stops(b: u8) -> bool {
    (b < 0x20) | (b == b'"') | (b == b'\\')
}

const ONES: u64 = 0x0101_0101_0101_0101;
const TOPS: u64 = 0x8080_8080_8080_8080;

/// The top bit of the lowest byte that stops is set, and none below it. (Borrows can set wrong ones above.)
#[inline]
fn stops_in(eight: u64) -> u64 {
    let zero = |x: u64| x.wrapping_sub(ONES) & !x;
    let low = eight.wrapping_sub(0x20 * ONES) & !eight;
    (low | zero(eight ^ b'"' as u64 * ONES) | zero(eight ^ b'\\' as u64 * ONES)) & TOPS
}

/// How many bytes there are before the first that stops, and whether they are all ASCII.
pub fn plain_run(s: &[u8]) -> (usize, bool) {
    let (mut at, mut seen) = (0, 0);
    // blocks without exits, which become vector code
    for block in s.chunks_exact(32) {
        if block.iter().fold(false, |any, &b| any | stops(b)) {
            break;
        }
        seen |= block.iter().fold(0, |any, &b| any | b);
        at += 32;
    }
    let mut seen = seen as u64;
    while let Some(eight) = s.get(at..at + 8) {
        let eight = u64::from_le_bytes(eight.try_into().unwrap());
        let found = stops_in(eight);
        if found != 0 {
            let bits = found.trailing_zeros() - 7;
            seen |= eight & ((1 << bits) - 1);
            return (at + bits as usize / 8, seen & TOPS == 0);
        }
        seen |= eight;
        at += 8;
    }
    while at < s.len() && !stops(s[at]) {
        seen |= s[at] as u64;
        at += 1;
    }
    (at, seen & TOPS == 0)
}

/// How many bytes are such.
#[inline]
pub fn count(text: &[u8], such: impl Fn(u8) -> bool) -> usize {
    // sums of few bytes fit a byte, and become vector code
    text.chunks(128).map(|block| block.iter().map(|&b| such(b) as u8).sum::<u8>() as usize).sum()
}

/// The text with a backslash and a letter for each byte that has a letter. Only bytes that stop a plain run have one.
#[inline]
pub fn put_escaped(out: &mut Out, mut text: &[u8], letter: impl Fn(u8) -> u8) {
    loop {
        let plain = plain_run(text).0;
        out.put(&text[..plain]);
        let Some(&b) = text.get(plain) else { return };
        match letter(b) {
            0 => out.byte(b),
            letter => out.put(&[b'\\', letter]),
        }
        text = &text[plain + 1..];
    }
}
