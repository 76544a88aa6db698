//! SHA-256 in pieces, its state in a lent buffer; and whether an event's id is that of its canonical text.
//!
//! A state is 104 bytes, and any bytes are one: the eight chaining words, big endian; how many bytes the message has so
//! far, little endian; and 64 bytes of which the first wait for their block to be full, as many as that number leaves
//! after division by 64.

use crate::answer::*;
use crate::sha256::{close, digest, take_blocks, words_as_bytes, BLOCK, INITIAL};
use crate::{canonical, notepack};

pub const STATE: usize = 104;
pub const DIGEST: usize = 32;

/// No message has so many bytes: the standard counts its bits with 64.
const LIMIT: u64 = 1 << 61;

struct State {
    chain: [u32; 8],
    length: u64,
    pending: [u8; BLOCK],
}

impl State {
    /// The first bytes of the lent ones; 11 if these are too few.
    fn of(lent: &[u8]) -> Answer<State> {
        let Some(bytes) = lent.get(..STATE) else { return refuse(NO_ROOM, STATE) };
        let mut chain = [0; 8];
        for (word, four) in chain.iter_mut().zip(bytes.chunks_exact(4)) {
            *word = u32::from_be_bytes(four.try_into().unwrap());
        }
        let length = u64::from_le_bytes(bytes[32..40].try_into().unwrap());
        Ok(State { chain, length, pending: bytes[40..].try_into().unwrap() })
    }

    fn put(&self, lent: &mut [u8]) -> Answer<usize> {
        let mut out = room(lent, STATE)?;
        out.put(&words_as_bytes(&self.chain));
        out.put(&self.length.to_le_bytes());
        out.put(&self.pending);
        Ok(STATE)
    }

    fn waiting(&self) -> &[u8] {
        &self.pending[..(self.length % BLOCK as u64) as usize]
    }

    /// The state behind this piece.
    fn with(&self, piece: &[u8]) -> State {
        let (mut chain, mut block, waits) = (self.chain, self.pending, self.waiting().len());
        // as much of the piece as fills the block; where nothing waits, the piece is taken as it is
        let missing = (BLOCK - waits) % BLOCK;
        let (front, rest) = piece.split_at(missing.min(piece.len()));
        let filled = &mut block[..waits + front.len()];
        filled[waits..].copy_from_slice(front);
        let tail = match take_blocks(&mut chain, filled) {
            [] => take_blocks(&mut chain, rest),
            short => short,
        };
        let mut pending = [0; BLOCK];
        pending[..tail.len()].copy_from_slice(tail);
        State { chain, length: self.length + piece.len() as u64, pending }
    }
}

/// A message of no bytes.
pub fn start(state: &mut [u8]) -> Answer<usize> {
    State { chain: INITIAL, length: 0, pending: [0; BLOCK] }.put(state)
}

/// A piece more.
pub fn add(state: &mut [u8], piece: &[u8]) -> Answer<usize> {
    let before = State::of(state)?;
    match before.length.checked_add(piece.len() as u64) {
        Some(length) if length < LIMIT => before.with(piece).put(state),
        _ => refuse(TOO_MUCH_TO_HASH, 0),
    }
}

/// The digest of the message so far.
pub fn finish(state: &[u8], out: &mut [u8]) -> Answer<usize> {
    let state = State::of(state)?;
    if state.length >= LIMIT {
        return refuse(TOO_MUCH_TO_HASH, 0);
    }
    room(out, DIGEST)?.put(&close(state.chain, state.waiting(), state.length));
    Ok(DIGEST)
}

/// Is the event's id the digest of its canonical text?
pub fn id_belongs(packed: &[u8]) -> Answer<bool> {
    let event = notepack::read(packed)?;
    // no canonical text is longer
    let mut text = vec![0; 3 * packed.len()];
    let length = canonical::write(packed, &mut text)?;
    Ok(digest(&text[..length]) == event.id())
}
