//! The string form: a prefix, which says whether the bytes are bare, and base64 (RFC 4648, section 4) without padding.

use crate::answer::*;
use crate::notepack;
use crate::versioned::Given;

pub const PREFIX: &[u8] = b"notepack_";
pub const VERSIONED_PREFIX: &[u8] = b"notepack1_";

const ALPHABET: &[u8; 64] = b"ABCDEFGHIJKLMNOPQRSTUVWXYZabcdefghijklmnopqrstuvwxyz0123456789+/";

/// The six bits of each character of the alphabet; 0 for every other byte, which `outside` finds before.
const SIX_BITS: [u8; 256] = {
    let (mut bits, mut n) = ([0; 256], 0);
    while n < 64 {
        bits[ALPHABET[n] as usize] = n as u8;
        n += 1;
    }
    bits
};

/// Three bytes are four characters; one or two bytes that are left are two or three.
fn chars_for(bytes: usize) -> usize {
    bytes / 3 * 4 + [0, 2, 3][bytes % 3]
}

/// How many whole bytes so many characters are.
fn bytes_in(chars: usize) -> usize {
    chars / 4 * 3 + chars % 4 * 6 / 8
}

/// Up to three bytes as a number of 24 bits, filled up with zeros.
#[inline]
fn word_of(bytes: &[u8]) -> u32 {
    let byte = |i: usize| bytes.get(i).copied().unwrap_or(0) as u32;
    byte(0) << 16 | byte(1) << 8 | byte(2)
}

/// Up to four characters of the alphabet as such a number.
#[inline]
fn word_spelled(chars: &[u8]) -> u32 {
    let six = |i: usize| chars.get(i).map_or(0, |&c| SIX_BITS[c as usize]) as u32;
    six(0) << 18 | six(1) << 12 | six(2) << 6 | six(3)
}

/// As many characters of the number as there is room for.
#[inline]
fn spell(word: u32, to: &mut [u8]) {
    for (i, c) in to.iter_mut().enumerate() {
        *c = ALPHABET[(word >> (18 - 6 * i) & 63) as usize];
    }
}

/// `chars` is just as long as these bytes need.
fn encode(bytes: &[u8], chars: &mut [u8]) {
    let (threes, rest) = bytes.split_at(bytes.len() / 3 * 3);
    let (fours, last) = chars.split_at_mut(threes.len() / 3 * 4);
    for (three, four) in threes.chunks_exact(3).zip(fours.chunks_exact_mut(4)) {
        spell(word_of(three), four);
    }
    spell(word_of(rest), last);
}

/// `bytes` is just as long as these characters spell.
fn decode(chars: &[u8], bytes: &mut [u8]) {
    let (fours, rest) = chars.split_at(chars.len() / 4 * 4);
    let (threes, last) = bytes.split_at_mut(fours.len() / 4 * 3);
    for (four, three) in fours.chunks_exact(4).zip(threes.chunks_exact_mut(3)) {
        three.copy_from_slice(&word_spelled(four).to_be_bytes()[1..]);
    }
    last.copy_from_slice(&word_spelled(rest).to_be_bytes()[1..1 + last.len()]);
}

/// Are the bits behind the last whole byte zero?
fn nothing_left_over(chars: &[u8]) -> bool {
    let rest = &chars[chars.len() / 4 * 4..];
    let bits_kept = 8 * bytes_in(rest.len());
    word_spelled(rest) << bits_kept & 0xff_ffff == 0
}

#[inline]
fn is_outside(c: u8) -> bool {
    !(c.is_ascii_uppercase() | c.is_ascii_lowercase() | c.is_ascii_digit() | (c == b'+') | (c == b'/'))
}

/// The first character outside the alphabet.
fn outside(chars: &[u8]) -> Option<usize> {
    // blocks without exits, which become vector code
    let clean = |block: &&[u8]| block.iter().fold(true, |all, &c| all & !is_outside(c));
    let from = 64 * chars.chunks_exact(64).take_while(clean).count();
    chars[from..].iter().position(|&c| is_outside(c)).map(|at| from + at)
}

fn prefix(bare: bool) -> &'static [u8] {
    if bare { PREFIX } else { VERSIONED_PREFIX }
}

/// The string form of the strict bytes, in the form that was given, into the lent buffer; its length.
pub fn write(packed: Given, out: &mut [u8]) -> Answer<usize> {
    let (strict, prefix) = (packed.with(notepack::strict)?, prefix(packed.bare));
    let chars = chars_for(packed.front().len() + strict.len());
    let mut out = room(out, prefix.len() + chars)?;
    out.put(prefix);
    match packed.bare {
        true => encode(&strict, out.take(chars)),
        false => encode(&[packed.front(), &strict].concat(), out.take(chars)),
    }
    assert!(out.full());
    Ok(prefix.len() + chars)
}

/// The characters behind the prefix, if they are base64 of something.
fn base64<'a>(text: &'a [u8], prefix: &[u8]) -> Answer<&'a [u8]> {
    let Some(chars) = text.strip_prefix(prefix) else { return refuse(NOT_A_STRING_FORM, 0) };
    if let Some(at) = outside(chars) {
        return refuse(NOT_BASE64, prefix.len() + at);
    }
    if chars.len() % 4 == 1 || !nothing_left_over(chars) {
        return refuse(NOT_BASE64, text.len());
    }
    Ok(chars)
}

/// The packed event that the text spells, into the lent buffer as it was decoded; its length.
fn read_form(text: &[u8], bare: bool, out: &mut [u8]) -> Answer<usize> {
    let chars = base64(text, prefix(bare))?;
    let length = bytes_in(chars.len());
    if length > notepack::LIMIT {
        return refuse(TOO_LONG, 0);
    }
    let mut packed = vec![0; length];
    decode(chars, &mut packed);
    Given { bytes: &packed, bare }.with(notepack::read)?;
    room(out, length)?.put(&packed);
    Ok(length)
}

pub fn read(text: &[u8], out: &mut [u8]) -> Answer<usize> {
    read_form(text, true, out)
}

/// The version byte is among the bytes that are left.
pub fn read_versioned(text: &[u8], out: &mut [u8]) -> Answer<usize> {
    read_form(text, false, out)
}
