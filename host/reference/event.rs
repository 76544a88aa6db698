//! An event found in a text, left in a lent buffer in strict form.

use crate::answer::*;
use crate::bytes::*;
use crate::notepack::Text;
use std::borrow::Cow;

pub struct Event<'a> {
    pub id: [u8; 32],
    pub pubkey: [u8; 32],
    pub sig: [u8; 64],
    pub created_at: u64,
    pub kind: u64,
    pub content: Cow<'a, [u8]>,
    /// the number of texts of each tag
    pub tags: Vec<usize>,
    /// the texts of all tags, one after the other
    pub texts: Vec<Cow<'a, [u8]>>,
}

/// Adds a part of the input to a text; a text of one part stays a part of the input.
#[inline]
pub fn add<'a>(text: &mut Cow<'a, [u8]>, part: &'a [u8]) {
    match text {
        Cow::Borrowed(_) => *text = Cow::Borrowed(part),
        Cow::Owned(text) => text.extend_from_slice(part),
    }
}

impl Event<'_> {
    pub fn empty() -> Self {
        Event {
            id: [0; 32],
            pubkey: [0; 32],
            sig: [0; 64],
            created_at: 0,
            kind: 0,
            content: Cow::Borrowed(b""),
            tags: Vec::new(),
            texts: Vec::new(),
        }
    }

    /// The numbers in front of the content.
    fn numbers(&self) -> [u64; 3] {
        [self.created_at, self.kind, self.content.len() as u64]
    }

    /// The length of the strict form.
    pub fn strict_len(&self) -> usize {
        128 + self.numbers().iter().map(|&n| varint_len(n)).sum::<usize>()
            + self.content.len()
            + varint_len(self.tags.len() as u64)
            + self.tags.iter().map(|&n| varint_len(n as u64)).sum::<usize>()
            + self.texts.iter().map(|text| Text::plain(text).strict_len()).sum::<usize>()
    }

    /// The strict form into the lent buffer; its length.
    pub fn leave(&self, out: &mut [u8]) -> Answer<usize> {
        let needed = self.strict_len();
        let mut out = room(out, needed)?;
        out.put(&self.id);
        out.put(&self.pubkey);
        out.put(&self.sig);
        for n in self.numbers() {
            put_varint(&mut out, n);
        }
        out.put(&self.content);
        put_varint(&mut out, self.tags.len() as u64);
        let mut texts = self.texts.iter();
        for &count in &self.tags {
            put_varint(&mut out, count as u64);
            for text in texts.by_ref().take(count) {
                Text::plain(text).put_strict(&mut out);
            }
        }
        assert!(out.full());
        Ok(needed)
    }
}
