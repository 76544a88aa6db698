//! A table of current records: 64 slots of 16 bytes and, beside them, 64 cells of 1,024 bytes.
//!
//! Slot n says whether cell n is used (its first byte is not 0), and how many bytes of it the kept event takes (its
//! last eight, little endian). The seven bytes between are never looked at.

use crate::answer::*;
use crate::notepack::{measured, Packed};
use crate::rivals::{key, later, Key};
use crate::versioned::Given;

pub const SLOTS: usize = 64;
pub const SLOT_BYTES: usize = 16;
pub const CELL_BYTES: usize = 1_024;
pub const SLOTS_BYTES: usize = SLOTS * SLOT_BYTES;
pub const CELLS_BYTES: usize = SLOTS * CELL_BYTES;

/// What became of an offered event.
#[derive(Clone, Copy, Debug, PartialEq, Eq)]
pub enum Offered {
    New,
    Replaced,
    Loses,
    Held,
    NotKept,
}

/// What a kept event is found under: its key or, if it has none, its id.
enum Name<'a> {
    Key(Key<'a>),
    Id(&'a [u8]),
}

impl<'a> Name<'a> {
    fn of(event: &Packed<'a>) -> Name<'a> {
        key(event).map_or(Name::Id(event.id()), Name::Key)
    }

    fn same(&self, other: &Name) -> bool {
        match (self, other) {
            (Name::Key(a), Name::Key(b)) => a.same(b),
            (Name::Id(a), Name::Id(b)) => a == b,
            _ => false,
        }
    }
}

/// An event in its cell.
struct Kept<'a> {
    event: Packed<'a>,
    bytes: &'a [u8],
    name: Name<'a>,
}

enum Slot<'a> {
    Free,
    Kept(Kept<'a>),
    Bad,
}

/// Events of these kinds are never kept.
fn passes(event: &Packed) -> bool {
    (20_000..=29_999).contains(&event.kind)
}

/// The strict event at the start of the cell, if there is one of this length that may be kept.
fn kept(cell: &[u8], length: u64) -> Option<Kept<'_>> {
    let bytes = cell.get(..usize::try_from(length).ok()?)?;
    let (event, _, strict) = measured(bytes).ok()?;
    (strict && !passes(&event)).then(|| Kept { bytes, name: Name::of(&event), event })
}

fn slot_of<'a>(slot: &[u8], cell: &'a [u8]) -> Slot<'a> {
    if slot[0] == 0 {
        return Slot::Free;
    }
    let length = u64::from_le_bytes(slot[8..].try_into().unwrap());
    kept(cell, length).map_or(Slot::Bad, Slot::Kept)
}

/// Is the slot bad by itself, or because a later one holds an event of the same name? Of two such both are bad, and the
/// lower one is the one to be told.
fn is_bad(all: &[Slot], n: usize) -> bool {
    match &all[n] {
        Slot::Free => false,
        Slot::Kept(one) => {
            all[n + 1..].iter().any(|other| matches!(other, Slot::Kept(other) if other.name.same(&one.name)))
        }
        Slot::Bad => true,
    }
}

fn right_sizes(slots: &[u8], cells: &[u8]) -> Answer<()> {
    if slots.len() != SLOTS_BYTES || cells.len() != CELLS_BYTES {
        return refuse(BAD_TABLE, 0);
    }
    Ok(())
}

/// All slots, none of them bad.
fn slots_of<'a>(slots: &[u8], cells: &'a [u8]) -> Answer<Vec<Slot<'a>>> {
    right_sizes(slots, cells)?;
    let pairs = slots.chunks_exact(SLOT_BYTES).zip(cells.chunks_exact(CELL_BYTES));
    let all: Vec<Slot> = pairs.map(|(slot, cell)| slot_of(slot, cell)).collect();
    match (0..SLOTS).find(|&n| is_bad(&all, n)) {
        Some(n) => refuse(BAD_TABLE, n),
        None => Ok(all),
    }
}

/// Frees all slots and leaves nothing in them.
pub fn empty(slots: &mut [u8], cells: &mut [u8]) -> Answer<()> {
    right_sizes(slots, cells)?;
    slots.fill(0);
    cells.fill(0);
    Ok(())
}

/// Where the strict form of an event goes, if anywhere.
fn placed(all: &[Slot], event: &Packed, strict: &[u8]) -> Answer<(Offered, usize)> {
    let name = Name::of(event);
    let found = all.iter().enumerate().find_map(|(n, slot)| match slot {
        Slot::Kept(kept) if kept.name.same(&name) => Some((n, kept)),
        _ => None,
    });
    let Some((n, kept)) = found else {
        return match all.iter().position(|slot| matches!(slot, Slot::Free)) {
            Some(n) => Ok((Offered::New, n)),
            None => refuse(NO_FREE_SLOT, 0),
        };
    };
    let offered = if matches!(name, Name::Id(_)) || kept.bytes == strict {
        Offered::Held
    } else if later(&kept.event, event) {
        Offered::Replaced
    } else {
        Offered::Loses
    };
    Ok((offered, n))
}

/// Offers a packed event to the table, which keeps it in bare strict form if it is to be kept.
pub fn offer(slots: &mut [u8], cells: &mut [u8], packed: Given) -> Answer<Offered> {
    let all = slots_of(slots, cells)?;
    let (event, length, is_strict) = packed.with(measured)?;
    if length > CELL_BYTES {
        return refuse(TOO_LONG_TO_KEEP, 0);
    }
    if passes(&event) {
        return Ok(Offered::NotKept);
    }
    let mut strict = [0; CELL_BYTES];
    let strict = &mut strict[..length];
    if is_strict {
        strict.copy_from_slice(event.bytes);
    } else {
        event.put_strict(&mut room(strict, length)?);
    }
    let (offered, n) = placed(&all, &event, strict)?;
    if matches!(offered, Offered::New | Offered::Replaced) {
        store(&mut slots[SLOT_BYTES * n..][..SLOT_BYTES], &mut cells[CELL_BYTES * n..], strict);
    }
    Ok(offered)
}

/// The slot is written whole; of the cell only what the event takes.
fn store(slot: &mut [u8], cell: &mut [u8], strict: &[u8]) {
    slot.fill(0);
    slot[0] = 1;
    slot[8..].copy_from_slice(&(strict.len() as u64).to_le_bytes());
    cell[..strict.len()].copy_from_slice(strict);
}

/// Where in the cells the event of slot `n` is, and its length.
pub fn slot(slots: &[u8], cells: &[u8], n: u64) -> Answer<(usize, usize)> {
    let all = slots_of(slots, cells)?;
    let n = usize::try_from(n).unwrap_or(SLOTS);
    match all.get(n) {
        Some(Slot::Kept(kept)) => Ok((CELL_BYTES * n, kept.bytes.len())),
        _ => refuse(NO_SUCH, 0),
    }
}
