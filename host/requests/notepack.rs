//! Packed events, strict, loose and wrong.

use crate::dice::Dice;
use crate::event::*;

#[derive(Clone)]
pub enum Piece {
    Bytes(Vec<u8>),
    Number(u64),
    /// a varint as it is spelled
    Spelled(Vec<u8>),
}

pub fn varint(mut n: u64) -> Vec<u8> {
    let mut bytes = Vec::new();
    while n >= 0x80 {
        bytes.push(n as u8 | 0x80);
        n >>= 7;
    }
    bytes.push(n as u8);
    bytes
}

/// The varint with so many bytes in all, as far as there is room for: refused, where that is more than it needs.
pub fn padded(n: u64, length: usize) -> Vec<u8> {
    let mut bytes = varint(n);
    while bytes.len() < length.min(10) {
        *bytes.last_mut().unwrap() |= 0x80;
        bytes.push(0);
    }
    bytes
}

pub fn hex_text(bytes: &[u8]) -> Vec<u8> {
    const DIGITS: &[u8; 16] = b"0123456789abcdef";
    bytes.iter().flat_map(|b| [DIGITS[(b >> 4) as usize], DIGITS[(b & 15) as usize]]).collect()
}

pub fn hexlike(text: &[u8]) -> bool {
    text.len() % 2 == 0 && text.iter().all(|b| matches!(b, b'0'..=b'9' | b'a'..=b'f'))
}

pub fn unhex(text: &[u8]) -> Vec<u8> {
    let digit = |b: u8| (b as char).to_digit(16).unwrap() as u8;
    text.chunks(2).map(|pair| digit(pair[0]) << 4 | digit(pair[1])).collect()
}

/// The layout; `raw` is asked whether a text that is hex goes as bytes.
pub fn packed_pieces(e: &Event, mut raw: impl FnMut(&[u8]) -> bool) -> Vec<Piece> {
    use Piece::*;
    let mut all: Vec<Piece> = [0..32, 32..64, 64..128].into_iter().map(|part| Bytes(e.fixed[part].to_vec())).collect();
    all.extend([Number(e.created_at), Number(e.kind), Number(e.content.len() as u64), Bytes(e.content.clone())]);
    all.push(Number(e.tags.len() as u64));
    for tag in &e.tags {
        all.push(Number(tag.len() as u64));
        for text in tag {
            if hexlike(text) && raw(text) {
                all.extend([Number(text.len() as u64 + 1), Bytes(unhex(text))]);
            } else {
                all.extend([Number(2 * text.len() as u64), Bytes(text.clone())]);
            }
        }
    }
    all
}

pub fn spelled(pieces: &[Piece], mut number: impl FnMut(u64) -> Vec<u8>) -> Vec<u8> {
    pieces
        .iter()
        .flat_map(|piece| match piece {
            Piece::Bytes(bytes) | Piece::Spelled(bytes) => bytes.clone(),
            Piece::Number(n) => number(*n),
        })
        .collect()
}

pub fn strict(e: &Event) -> Vec<u8> {
    spelled(&packed_pieces(e, |text| !text.is_empty()), varint)
}

/// Packed with hex as text here and there, and with empty texts as raw bytes.
pub fn loose(d: &mut Dice, e: &Event) -> Vec<u8> {
    spelled(&packed_pieces(e, |_| d.percent(60)), varint)
}

/// The same with one number that is longer than need be, or with several.
pub fn with_padded(d: &mut Dice, e: &Event) -> Vec<u8> {
    let mut pieces = packed_pieces(e, |_| d.percent(60));
    let i = any_number(d, &pieces);
    pad_piece(d, &mut pieces[i]);
    let share = d.pick(&[0, 0, 10, 50]);
    spelled(&pieces, |n| if d.percent(share) { padded(n, 2 + d.below(9)) } else { varint(n) })
}

/// Which piece is a number? One of those that are.
fn any_number(d: &mut Dice, pieces: &[Piece]) -> usize {
    let numbers: Vec<usize> = (0..pieces.len()).filter(|&i| matches!(pieces[i], Piece::Number(_))).collect();
    d.pick(&numbers)
}

/// The number by one byte more than it needs, by some, or by all that there can be.
fn pad_piece(d: &mut Dice, piece: &mut Piece) {
    if let Piece::Number(n) = *piece {
        let needed = varint(n).len();
        let length = d.pick(&[needed + 1, needed + 1, needed + 2, 9, 10]).max(needed + 1);
        *piece = Piece::Spelled(padded(n, length));
    }
}

/// A fault in one piece, with all others as they should be.
pub fn spoil_pieces(d: &mut Dice, pieces: &mut Vec<Piece>) {
    let (i, j) = (any_number(d, pieces), any_number(d, pieces));
    let any = d.below(pieces.len());
    match d.below(10) {
        0 => pieces[i] = Piece::Number(d.pick(&EDGES)),
        1 => {
            if let Piece::Number(n) = pieces[i] {
                pieces[i] = Piece::Number(d.pick(&[n.wrapping_add(1), n.wrapping_sub(1), n ^ 1, n.wrapping_mul(2), n + 2]));
            }
        }
        2 => pieces[i] = Piece::Spelled(odd_varint(d)),
        3 => pieces.swap(i, j),
        8 => pad_piece(d, &mut pieces[i]),
        9 => {
            // padded, and wrong too: 24 comes before what the number would decide
            pieces[i] = Piece::Number(d.pick(&EDGES));
            pad_piece(d, &mut pieces[i]);
        }
        4 => {
            pieces.remove(any);
        }
        5 => {
            let again = pieces[any].clone();
            pieces.insert(any, again);
        }
        6 => {
            pieces.truncate(any);
            pieces.push(Piece::Spelled(odd_varint(d)));
        }
        _ => {
            let junk = d.below(4);
            pieces.push(Piece::Bytes(d.bytes(junk + 1)));
        }
    }
}

/// A varint of full length, too long, cut, or padded.
pub fn odd_varint(d: &mut Dice) -> Vec<u8> {
    let mut bytes: Vec<u8> = (0..9).map(|_| 0x80 | d.pick(&[0, 0x7f])).collect();
    bytes.push(d.pick(&[0, 0, 1, 2, 0x7f, 0x80, 0x81, 0xff]));
    let keep = d.pick(&[1, 2, 8, 9, 10, 10, 10]);
    bytes.truncate(keep);
    if keep < 10 && d.percent(30) {
        bytes.push(0);
    }
    bytes
}
