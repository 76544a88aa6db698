//! Refusals: a number and a place.

#[derive(Clone, Copy, Debug, PartialEq, Eq)]
pub struct Refusal {
    pub number: u8,
    pub place: usize,
}

pub type Answer<T> = Result<T, Refusal>;

pub const TOO_LONG: u8 = 1;
pub const TRUNCATED: u8 = 2;
pub const OVERFLOW: u8 = 3;
pub const UNTERMINATED: u8 = 4;
pub const NOT_UTF8: u8 = 5;
pub const KIND: u8 = 6;
pub const CREATED_AT: u8 = 7;
pub const TOO_MANY: u8 = 8;
pub const EMPTY_TAG: u8 = 9;
pub const AFTER_THE_END: u8 = 10;
pub const NO_ROOM: u8 = 11;
pub const NOT_FIXED: u8 = 12;
pub const COUNTS: u8 = 13;
pub const NOT_ALLOWED: u8 = 14;
pub const MISSING: u8 = 15;
pub const TWICE: u8 = 16;
pub const NOT_CARRIED: u8 = 17;
pub const TOO_DEEP: u8 = 18;
pub const NO_SUCH: u8 = 19;
pub const NOT_A_STRING_FORM: u8 = 20;
pub const NOT_BASE64: u8 = 21;
pub const TOO_LONG_TO_KEEP: u8 = 22;
pub const NO_FREE_SLOT: u8 = 23;
pub const PADDED: u8 = 24;
pub const NOT_VERSIONED: u8 = 25;
pub const NOT_A_POINTER_FORM: u8 = 26;
pub const BAD_POINTER: u8 = 27;
pub const NOT_A_SECOND: u8 = 28;
pub const TOO_LONG_TO_WRITE: u8 = 29;
pub const BAD_TABLE: u8 = 34;
pub const TOO_MUCH_TO_HASH: u8 = 35;

#[cold]
pub fn refuse<T>(number: u8, place: usize) -> Answer<T> {
    Err(Refusal { number, place })
}

/// The first `needed` bytes of the lent buffer, or 11.
pub fn room(out: &mut [u8], needed: usize) -> Answer<Out<'_>> {
    if out.len() < needed {
        return refuse(NO_ROOM, needed);
    }
    Ok(Out { rest: &mut out[..needed] })
}

/// What is still to be filled. A measure that was too small panics; one too large is seen by `full`.
pub struct Out<'a> {
    rest: &'a mut [u8],
}

impl<'a> Out<'a> {
    /// All that is left, for a caller that fills it in another order.
    pub fn whole(self) -> &'a mut [u8] {
        self.rest
    }

    #[inline]
    pub fn put(&mut self, part: &[u8]) {
        let (here, rest) = std::mem::take(&mut self.rest).split_at_mut(part.len());
        here.copy_from_slice(part);
        self.rest = rest;
    }

    /// `length` bytes that the caller fills.
    #[inline]
    pub fn take(&mut self, length: usize) -> &mut [u8] {
        let (here, rest) = std::mem::take(&mut self.rest).split_at_mut(length);
        self.rest = rest;
        here
    }

    #[inline]
    pub fn byte(&mut self, b: u8) {
        self.take(1)[0] = b;
    }

    pub fn full(&self) -> bool {
        self.rest.is_empty()
    }
}
