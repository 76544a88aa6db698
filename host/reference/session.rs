//! The requests about a table of records, which lives from line to line.
//!   table_new               a fresh table
//!   table_empty             emptied
//!   table_offer PACKED      new, replaced, loses, held or not_kept
//!   table_slot N            where the event of slot N is in the cells, and its length
//! Two words only look at the lent bytes and set them:
//!   table_look N            used or free, the length in the slot, the cell without the zeros at its end
//!   table_load SLOTS [N:LENGTH:CELL ..]     any table, of any number of slots; ~N:.. is a free one that is not zero

use crate::{bytes, hex, number, said, told};
use reference::table::{self, Offered, CELL_BYTES, SLOTS, SLOT_BYTES};

pub struct Session {
    slots: Vec<u8>,
    cells: Vec<u8>,
}

impl Session {
    pub fn new() -> Session {
        Session::of(SLOTS)
    }

    fn of(slots: usize) -> Session {
        Session { slots: vec![0; slots * SLOT_BYTES], cells: vec![0; slots * CELL_BYTES] }
    }

    /// None where the line is no such request.
    pub fn answer(&mut self, line: &str) -> Option<String> {
        let words: Vec<&str> = line.split(' ').collect();
        Some(match words[..] {
            ["table_new"] => {
                *self = Session::new();
                "ok".into()
            }
            ["table_empty"] => told(table::empty(&mut self.slots, &mut self.cells).map(|()| "ok".into())),
            ["table_offer", packed] => {
                let packed = said(packed)?;
                let offered = table::offer(&mut self.slots, &mut self.cells, packed.given());
                told(offered.map(|offered| spelled(offered).into()))
            }
            ["table_slot", n] => {
                told(table::slot(&self.slots, &self.cells, number(n)?).map(|(at, length)| format!("ok {at} {length}")))
            }
            ["table_look", n] => self.look(number(n)?).unwrap_or("none".into()),
            ["table_load", slots, ref all @ ..] => {
                *self = Session::of(number(slots)? as usize);
                all.iter().try_for_each(|word| self.load(word))?;
                "ok".into()
            }
            _ => return None,
        })
    }

    fn look(&self, n: u64) -> Option<String> {
        let n = usize::try_from(n).ok()?;
        let (slot, cell) = (self.slots.chunks(SLOT_BYTES).nth(n)?, self.cells.chunks(CELL_BYTES).nth(n)?);
        let length = u64::from_le_bytes(slot[8..].try_into().unwrap());
        let zeros = cell.iter().rev().take_while(|&&b| b == 0).count();
        let state = if slot[0] == 0 { "free" } else { "used" };
        Some(format!("{state} {length} {}", hex(&cell[..CELL_BYTES - zeros])))
    }

    fn load(&mut self, word: &str) -> Option<()> {
        let used = !word.starts_with('~');
        let (n, rest) = word.trim_start_matches('~').split_once(':')?;
        let (length, cell) = rest.split_once(':')?;
        let (n, length, cell) = (number(n)? as usize, number(length)?, bytes(cell)?);
        let slot = self.slots.get_mut(SLOT_BYTES * n..SLOT_BYTES * (n + 1))?;
        slot[0] = used as u8;
        slot[8..].copy_from_slice(&length.to_le_bytes());
        let to = &mut self.cells[CELL_BYTES * n..CELL_BYTES * (n + 1)];
        to.fill(0);
        to.get_mut(..cell.len())?.copy_from_slice(&cell);
        Some(())
    }
}

fn spelled(offered: Offered) -> &'static str {
    match offered {
        Offered::New => "new",
        Offered::Replaced => "replaced",
        Offered::Loses => "loses",
        Offered::Held => "held",
        Offered::NotKept => "not_kept",
    }
}
