//! Which of two packed events is to be kept.

use crate::answer::*;
use crate::notepack::{read, Item, Packed, Text};
use crate::versioned::Given;

#[derive(Clone, Copy, Debug, PartialEq, Eq)]
pub enum Choice {
    NotRivals,
    First,
    Second,
}

/// Which of the two inputs is refused.
#[derive(Clone, Copy, Debug, PartialEq, Eq)]
pub enum Which {
    First,
    Second,
}

/// What rivals have in common. The kinds that are replaceable by author and kind alone have no text.
pub struct Key<'a> {
    pubkey: &'a [u8],
    kind: u64,
    text: Option<Text<'a>>,
}

impl Key<'_> {
    pub fn same(&self, other: &Key) -> bool {
        // of one kind, either both have a text or neither has one
        self.kind == other.kind
            && self.pubkey == other.pubkey
            && self.text.iter().zip(&other.text).all(|(a, b)| a.same(b))
    }
}

/// The event's key, if it has one.
pub fn key<'a>(p: &Packed<'a>) -> Option<Key<'a>> {
    let text = match p.kind {
        0 | 3 | 10_000..=19_999 => None,
        30_000..=39_999 => Some(label(p)),
        _ => return None,
    };
    Some(Key { pubkey: p.pubkey(), kind: p.kind, text })
}

/// The text behind `d`, in the first tag with `d` in front. It is empty where no text or no such tag is there.
fn label<'a>(p: &Packed<'a>) -> Text<'a> {
    let mut items = p.items();
    while let Some(item) = items.next() {
        let Item::Tag(count) = item else { continue };
        let Some(Item::Text(name)) = items.next() else { break };
        if name.same(&Text::plain(b"d")) {
            return match items.next() {
                Some(Item::Text(text)) if count > 1 => text,
                _ => Text::plain(b""),
            };
        }
    }
    Text::plain(b"")
}

fn same_key(a: &Packed, b: &Packed) -> bool {
    matches!((key(a), key(b)), (Some(a), Some(b)) if a.same(&b))
}

/// Is the second of two rivals to be kept?
pub fn later(a: &Packed, b: &Packed) -> bool {
    b.created_at > a.created_at || b.created_at == a.created_at && b.id() < a.id()
}

pub fn choose(first: Given, second: Given) -> Result<Choice, (Refusal, Which)> {
    let a = first.with(read).map_err(|r| (r, Which::First))?;
    let b = second.with(read).map_err(|r| (r, Which::Second))?;
    if !same_key(&a, &b) {
        return Ok(Choice::NotRivals);
    }
    Ok(if later(&a, &b) { Choice::Second } else { Choice::First })
}
