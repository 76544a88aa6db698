//! The versioned form: the byte 01, and behind it the bare bytes. Moves from one form to the other.

use crate::answer::*;
use crate::notepack::{self, LIMIT};

/// The only version there is.
pub const VERSION: u8 = 1;

/// Packed bytes, and what the caller says of them. Nothing in the bytes tells whether that is true.
#[derive(Clone, Copy)]
pub struct Given<'a> {
    pub bytes: &'a [u8],
    pub bare: bool,
}

/// Is this a refusal of the bare bytes' reader, whose place counts in them?
fn has_a_place(number: u8) -> bool {
    matches!(number, TRUNCATED..=AFTER_THE_END | PADDED)
}

impl<'a> Given<'a> {
    pub fn bare(bytes: &'a [u8]) -> Given<'a> {
        Given { bytes, bare: true }
    }

    pub fn versioned(bytes: &'a [u8]) -> Given<'a> {
        Given { bytes, bare: false }
    }

    /// What stands in front of the bare bytes.
    pub fn front(&self) -> &'static [u8] {
        if self.bare { &[] } else { &[VERSION] }
    }

    /// A place in the bare bytes, counted in those that were given.
    pub fn place(&self, in_bare: usize) -> usize {
        self.front().len() + in_bare
    }

    /// The bare bytes. The limit counts all that is given, and comes before the version byte.
    fn opened(&self) -> Answer<&'a [u8]> {
        match self.bytes {
            bytes if self.bare => Ok(bytes),
            bytes if bytes.len() > LIMIT => refuse(TOO_LONG, 0),
            [] => refuse(TRUNCATED, 0),
            [VERSION, bare @ ..] => Ok(bare),
            _ => refuse(NOT_VERSIONED, 0),
        }
    }

    /// What `f` answers of the bare bytes, with the places of their reader counted in the bytes that were given.
    #[inline]
    pub fn with<T>(&self, f: impl FnOnce(&'a [u8]) -> Answer<T>) -> Answer<T> {
        f(self.opened()?).map_err(|r| match has_a_place(r.number) {
            true => Refusal { place: self.place(r.place), ..r },
            false => r,
        })
    }
}

/// The bytes, if they are a packed event, in the versioned form; its length. It is no longer than any other input.
pub fn from_bare(bytes: &[u8], out: &mut [u8]) -> Answer<usize> {
    let length = bytes.len() + 1;
    if length > LIMIT {
        return refuse(TOO_LONG, 0);
    }
    notepack::read(bytes)?;
    let mut out = room(out, length)?;
    out.byte(VERSION);
    out.put(bytes);
    Ok(length)
}

/// What stands behind the version byte, if it is a packed event; its length.
pub fn to_bare(bytes: &[u8], out: &mut [u8]) -> Answer<usize> {
    let bare = Given::versioned(bytes).with(|bare| notepack::read(bare).map(|event| event.bytes))?;
    room(out, bare.len())?.put(bare);
    Ok(bare.len())
}
