//! One text, put to both readers.

use crate::answer::*;
use crate::notepack::LIMIT;
use crate::{json, nson};

/// The value and the length of what the JSON reader shows. 2: both show the same event. 1: the JSON reader alone.
/// What that reader refuses is refused so; then the second buffer must have room for its event, and the first for the
/// NSON reader's, where that accepts the text too.
pub fn read(text: &[u8], first: &mut [u8], second: &mut [u8]) -> Answer<(u64, usize)> {
    let (mut by_json, mut by_nson) = (vec![0; LIMIT], vec![0; LIMIT]);
    let length = json::read(text, &mut by_json)?;
    let json = &by_json[..length];
    let nson = nson::read(text, &mut by_nson).ok().map(|length| &by_nson[..length]);
    if second.len() < json.len() {
        return refuse(NO_ROOM, json.len());
    }
    if let Some(nson) = nson {
        if first.len() < nson.len() {
            return refuse(NO_ROOM, nson.len());
        }
        first[..nson.len()].copy_from_slice(nson);
    }
    second[..length].copy_from_slice(json);
    Ok((if nson == Some(json) { 2 } else { 1 }, length))
}
