//! The C entries of include/kezubimoryu.h, over this implementation.

use crate::answer::{Answer, Refusal};
use crate::rivals::Choice;
use crate::table::Offered;
use crate::versioned::{self, Given};
use crate::{both, canonical, hash, json, notepack, nson, pointer, rivals, string_form, table};

#[repr(C)]
pub struct KezAnswer {
    refusal: u64,
    value: u64,
}

/// 0.12.0: 10,000 for a major version, 100 for a minor one, 1 for a patch.
#[no_mangle]
pub extern "C" fn kez_version() -> u64 {
    1200
}

fn told(answer: Answer<u64>) -> KezAnswer {
    match answer {
        Ok(value) => KezAnswer { refusal: 0, value },
        Err(Refusal { number, place }) => KezAnswer { refusal: number as u64, value: place as u64 },
    }
}

/// The bytes that a caller lends; a null pointer with length 0 is fine.
unsafe fn lent<'a>(at: *const u8, length: usize) -> &'a [u8] {
    if length == 0 {
        &[]
    } else {
        unsafe { std::slice::from_raw_parts(at, length) }
    }
}

/// Lent packed bytes; any number but 0 says that they are bare.
unsafe fn given<'a>(at: *const u8, length: usize, bare: u64) -> Given<'a> {
    Given { bytes: unsafe { lent(at, length) }, bare: bare != 0 }
}

unsafe fn lent_mut<'a>(at: *mut u8, length: usize) -> &'a mut [u8] {
    if length == 0 {
        &mut []
    } else {
        unsafe { std::slice::from_raw_parts_mut(at, length) }
    }
}

#[no_mangle]
pub unsafe extern "C" fn kez_notepack_read(
    packed: *const u8,
    packed_len: usize,
    bare: u64,
    created_at: *mut u64,
    kind: *mut u64,
    content_at: *mut u64,
    content_len: *mut u64,
    tag_count: *mut u64,
) -> KezAnswer {
    let packed = unsafe { given(packed, packed_len, bare) };
    told(packed.with(notepack::read).map(|p| {
        unsafe {
            *created_at = p.created_at;
            *kind = p.kind;
            *content_at = packed.place(p.content_at) as u64;
            *content_len = p.content_len as u64;
            *tag_count = p.tag_count;
        }
        0
    }))
}

#[no_mangle]
pub unsafe extern "C" fn kez_notepack_is_strict(packed: *const u8, packed_len: usize, bare: u64) -> KezAnswer {
    let packed = unsafe { given(packed, packed_len, bare) };
    told(packed.with(notepack::is_strict).map(u64::from))
}

#[no_mangle]
pub unsafe extern "C" fn kez_notepack_tag_len(
    packed: *const u8,
    packed_len: usize,
    bare: u64,
    tag: u64,
) -> KezAnswer {
    let packed = unsafe { given(packed, packed_len, bare) };
    told(packed.with(|s| notepack::read(s)?.tag_len(tag)))
}

#[no_mangle]
pub unsafe extern "C" fn kez_notepack_element(
    packed: *const u8,
    packed_len: usize,
    bare: u64,
    tag: u64,
    element: u64,
    at: *mut u64,
    len: *mut u64,
    is_bytes: *mut u64,
) -> KezAnswer {
    let packed = unsafe { given(packed, packed_len, bare) };
    let found = packed.with(|s| notepack::read(s)?.element(tag, element));
    told(found.map(|text| {
        unsafe {
            *at = packed.place(text.at) as u64;
            *len = text.payload.len() as u64;
            *is_bytes = text.raw as u64;
        }
        0
    }))
}

#[no_mangle]
pub unsafe extern "C" fn kez_notepack_elements(
    packed: *const u8,
    packed_len: usize,
    bare: u64,
    first: u64,
    out: *mut u8,
    out_len: usize,
) -> KezAnswer {
    let (packed, out) = unsafe { (given(packed, packed_len, bare), lent_mut(out, out_len)) };
    told(notepack::elements(packed, first, out))
}

/// An entry that reads one lent buffer and writes another.
macro_rules! writing {
    ($name:ident, $function:path) => {
        #[no_mangle]
        pub unsafe extern "C" fn $name(from: *const u8, from_len: usize, out: *mut u8, out_len: usize) -> KezAnswer {
            let (from, out) = unsafe { (lent(from, from_len), lent_mut(out, out_len)) };
            told($function(from, out).map(|length| length as u64))
        }
    };
}

writing!(kez_nson_read, nson::read);
writing!(kez_json_read, json::read);
writing!(kez_notepack_string_read, string_form::read);
writing!(kez_notepack_string_read_versioned, string_form::read_versioned);
writing!(kez_versioned_from_bare, versioned::from_bare);
writing!(kez_bare_from_versioned, versioned::to_bare);
writing!(kez_pointer_convert, pointer::convert);
writing!(kez_sha256_finish, hash::finish);

/// An entry that reads packed bytes and writes another lent buffer.
macro_rules! writing_packed {
    ($name:ident, $function:expr) => {
        #[no_mangle]
        pub unsafe extern "C" fn $name(
            packed: *const u8,
            packed_len: usize,
            bare: u64,
            out: *mut u8,
            out_len: usize,
        ) -> KezAnswer {
            let (packed, out) = unsafe { (given(packed, packed_len, bare), lent_mut(out, out_len)) };
            told($function(packed, out).map(|length| length as u64))
        }
    };
}

writing_packed!(kez_notepack_write, |packed: Given, out: &mut [u8]| packed.with(|s| notepack::write(s, out)));
writing_packed!(kez_canonical_write, |packed: Given, out: &mut [u8]| packed.with(|s| canonical::write(s, out)));
writing_packed!(kez_nson_write, |packed: Given, out: &mut [u8]| packed.with(|s| nson::write(s, out)));
writing_packed!(kez_notepack_string_write, string_form::write);
writing_packed!(kez_pointer_write, pointer::write);

#[no_mangle]
pub unsafe extern "C" fn kez_pointer_read(
    bytes: *const u8,
    bytes_len: usize,
    version: *mut u64,
    kind: *mut u64,
    milliseconds: *mut u64,
    content_at: *mut u64,
    content_len: *mut u64,
    tag_count: *mut u64,
) -> KezAnswer {
    let bytes = unsafe { lent(bytes, bytes_len) };
    told(pointer::read(bytes).map(|form| {
        unsafe {
            *version = form.version;
            *kind = form.kind;
            *milliseconds = form.milliseconds as u64;
            *content_at = form.content.start as u64;
            *content_len = form.content.len() as u64;
            *tag_count = form.tag_count();
        }
        0
    }))
}

#[no_mangle]
pub unsafe extern "C" fn kez_pointer_tag_len(bytes: *const u8, bytes_len: usize, tag: u64) -> KezAnswer {
    let bytes = unsafe { lent(bytes, bytes_len) };
    told(pointer::read(bytes).and_then(|form| form.tag_len(tag)))
}

#[no_mangle]
pub unsafe extern "C" fn kez_pointer_element(
    bytes: *const u8,
    bytes_len: usize,
    tag: u64,
    element: u64,
    at: *mut u64,
    len: *mut u64,
) -> KezAnswer {
    let bytes = unsafe { lent(bytes, bytes_len) };
    told(pointer::read(bytes).and_then(|form| form.element(tag, element)).map(|text| {
        unsafe {
            *at = text.start as u64;
            *len = text.len() as u64;
        }
        0
    }))
}

#[no_mangle]
pub unsafe extern "C" fn kez_sha256_start(state: *mut u8, state_len: usize) -> KezAnswer {
    told(hash::start(unsafe { lent_mut(state, state_len) }).map(|length| length as u64))
}

#[no_mangle]
pub unsafe extern "C" fn kez_sha256_add(
    state: *mut u8,
    state_len: usize,
    piece: *const u8,
    piece_len: usize,
) -> KezAnswer {
    let (state, piece) = unsafe { (lent_mut(state, state_len), lent(piece, piece_len)) };
    told(hash::add(state, piece).map(|length| length as u64))
}

#[no_mangle]
pub unsafe extern "C" fn kez_id_belongs(packed: *const u8, packed_len: usize, bare: u64) -> KezAnswer {
    let packed = unsafe { given(packed, packed_len, bare) };
    told(packed.with(hash::id_belongs).map(u64::from))
}

#[no_mangle]
pub unsafe extern "C" fn kez_rivals(
    first: *const u8,
    first_len: usize,
    first_bare: u64,
    second: *const u8,
    second_len: usize,
    second_bare: u64,
) -> KezAnswer {
    let first = unsafe { given(first, first_len, first_bare) };
    let second = unsafe { given(second, second_len, second_bare) };
    told(match rivals::choose(first, second) {
        Ok(Choice::NotRivals) => Ok(0),
        Ok(Choice::First) => Ok(1),
        Ok(Choice::Second) => Ok(2),
        Err((refusal, _)) => Err(refusal),
    })
}

#[no_mangle]
pub unsafe extern "C" fn kez_read_both(
    text: *const u8,
    text_len: usize,
    first: *mut u8,
    first_len: usize,
    second: *mut u8,
    second_len: usize,
    written: *mut u64,
) -> KezAnswer {
    let (text, first, second) = unsafe { (lent(text, text_len), lent_mut(first, first_len), lent_mut(second, second_len)) };
    told(both::read(text, first, second).map(|(value, length)| {
        unsafe { *written = length as u64 };
        value
    }))
}

#[no_mangle]
pub unsafe extern "C" fn kez_table_empty(
    slots: *mut u8,
    slots_len: usize,
    cells: *mut u8,
    cells_len: usize,
) -> KezAnswer {
    let (slots, cells) = unsafe { (lent_mut(slots, slots_len), lent_mut(cells, cells_len)) };
    told(table::empty(slots, cells).map(|()| 0))
}

#[no_mangle]
pub unsafe extern "C" fn kez_table_offer(
    slots: *mut u8,
    slots_len: usize,
    cells: *mut u8,
    cells_len: usize,
    packed: *const u8,
    packed_len: usize,
    bare: u64,
) -> KezAnswer {
    let (slots, cells) = unsafe { (lent_mut(slots, slots_len), lent_mut(cells, cells_len)) };
    told(table::offer(slots, cells, unsafe { given(packed, packed_len, bare) }).map(|offered| match offered {
        Offered::New => 0,
        Offered::Replaced => 1,
        Offered::Loses => 2,
        Offered::Held => 3,
        Offered::NotKept => 4,
    }))
}

#[no_mangle]
pub unsafe extern "C" fn kez_table_slot(
    slots: *const u8,
    slots_len: usize,
    cells: *const u8,
    cells_len: usize,
    n: u64,
    at: *mut u64,
    len: *mut u64,
) -> KezAnswer {
    let (slots, cells) = unsafe { (lent(slots, slots_len), lent(cells, cells_len)) };
    told(table::slot(slots, cells, n).map(|(found, length)| {
        unsafe {
            *at = found as u64;
            *len = length as u64;
        }
        0
    }))
}
