//! Kezubimoryu from Rust: the C entries of kezubimoryu.h, and a safe function for each. Put this file beside yours as
//! `mod kezubimoryu;` and link libkezubimoryu.a (`-l static=kezubimoryu -L PREFIX/lib`). It is for editions 2021 and
//! 2024, and needs Rust 1.82 or later.
//!
//! The safe functions have the names of the entries without `kez_`. They take slices, and a refusal is an `Err`:
//!
//! ```ignore
//! use kezubimoryu::Form;
//! let numbers = kezubimoryu::notepack_read(&packed, Form::Bare)?;
//! let content = &packed[numbers.content_at..][..numbers.content_len];
//! let mut out = vec![0; packed.len()];
//! let length = kezubimoryu::notepack_write(&packed, Form::Bare, &mut out)?;
//! ```
//!
//! With each packed event comes its [Form]: bare, or versioned, which is the byte 01 and behind it the bare bytes.
//! Nothing can see a wrong word: 01 and a bare event, said to be bare, may read well as another event. So keep with
//! each record in which form it is. Places count the 01.
//!
//! The first safe call looks whether the library that is linked has the major and the minor version of this file, since
//! entries change from one to the next, and panics if it has not. The declarations are not guarded so.
//!
//! A table of current records is a [Table], and a hash in progress a [Sha256]. Each owns its bytes, and the three
//! entries for it are functions of that.
//!
//! The header says what each entry promises. The rules named here are those of docs/RULES.md; parts 1, 10, 11 and 12.1
//! of it bind all entries.
#![allow(dead_code)]

use std::fmt;

/// The version of the library, as in the header.
pub const KEZ_VERSION: &str = "0.12.0";
/// The same as a number: 10,000 for a major version, 100 for a minor one, 1 for a patch.
pub const KEZ_VERSION_NUMBER: u64 = 1200;
/// What the declarations take of a packed event, behind its length: it is versioned (rule 17.2). The safe functions
/// take a [Form].
pub const KEZ_VERSIONED: u64 = 0;
/// It is bare; so it is with any number but 0.
pub const KEZ_BARE: u64 = 1;
/// No accepted input is longer, but for a string form, of which the bytes that it holds are counted, and a piece of a
/// message that is hashed; nor is an event in strict form, nor NSON, nor a pointer form. Of a versioned event the 01 is
/// counted (rules 1.9, 14.3, 16.8, 17.3 and 18.3). A strict form is never longer than the packed bytes or the text that
/// it was read from, so a buffer as long as these is always enough (rules 3.7 and 12.3.6).
pub const KEZ_MOST: usize = 65536;
/// No canonical text is longer: three bytes for each byte that was packed (rule 5.8).
pub const KEZ_CANONICAL_MOST: usize = 3 * KEZ_MOST;
/// No string form is longer that is written or accepted: that of a versioned event; of a bare one it is one less (rules
/// 14.1 to 14.3 and 17.13 to 17.15).
pub const KEZ_NOTEPACK_STRING_MOST: usize = 10 + (4 * KEZ_MOST).div_ceil(3);
/// So many bytes are needed for each element that kez_notepack_elements lists.
pub const KEZ_ELEMENT_BYTES: usize = 16;
/// A buffer of this length has room for the elements of any record.
pub const KEZ_ELEMENTS_MOST: usize = KEZ_ELEMENT_BYTES * KEZ_MOST;

/// So many slots a table has, and as many cells (rules 15.1 and 15.2).
pub const KEZ_SLOTS: usize = 64;
/// So many bytes a slot has, and a cell.
pub const KEZ_SLOT_BYTES: usize = 16;
pub const KEZ_CELL_BYTES: usize = 1024;
/// So many bytes all slots have, and all cells.
pub const KEZ_SLOTS_BYTES: usize = KEZ_SLOTS * KEZ_SLOT_BYTES;
pub const KEZ_CELLS_BYTES: usize = KEZ_SLOTS * KEZ_CELL_BYTES;

/// So many bytes the state of a hash has, and a digest (rules 16.1 and 16.3).
pub const KEZ_SHA256_STATE: usize = 104;
pub const KEZ_SHA256_DIGEST: usize = 32;

/// Where a pointer form has the pubkey from its start on, and the id and the sig before its end (rule 18.1).
pub const KEZ_POINTER_PUBKEY_AT: usize = 8;
pub const KEZ_POINTER_ID_FROM_END: usize = 96;
pub const KEZ_POINTER_SIG_FROM_END: usize = 64;
/// No pointer form is shorter, and no one that is written or accepted is longer (rules 18.2, 18.3 and 18.15).
pub const KEZ_POINTER_LEAST: usize = 168;
pub const KEZ_POINTER_MOST: usize = KEZ_MOST;

/// Refusal 0 and a value, or a refusal from 1 to 29, or 34 or 35, and its place (rules 12.1.2 to 12.1.4). Rule 10.N is
/// refusal N.
#[repr(C)]
#[derive(Clone, Copy, Debug, PartialEq, Eq)]
#[allow(non_camel_case_types)]
pub struct kez_answer {
    pub refusal: u64,
    pub value: u64,
}

unsafe extern "C" {
    /// Rules 2.1 to 2.18, 4.1, 4.8, 4.9, 12.2.1 to 12.2.3, 17.1 to 17.6; for each packed input 17.1 to 17.5 below too.
    pub fn kez_notepack_read(
        packed: *const u8,
        packed_len: usize,
        bare: u64,
        created_at: *mut u64,
        kind: *mut u64,
        content_at: *mut u64,
        content_len: *mut u64,
        tag_count: *mut u64,
    ) -> kez_answer;
    /// Rules 3.1 to 3.5, 12.2.7.
    pub fn kez_notepack_is_strict(packed: *const u8, packed_len: usize, bare: u64) -> kez_answer;
    /// Rules 3.1 to 3.3, 3.6, 3.7, 12.2.4 to 12.2.6, 17.7.
    pub fn kez_notepack_write(
        packed: *const u8,
        packed_len: usize,
        bare: u64,
        out: *mut u8,
        out_len: usize,
    ) -> kez_answer;
    /// Rules 17.1, 17.9, 17.10, 12.8.1 to 12.8.3.
    pub fn kez_versioned_from_bare(packed: *const u8, packed_len: usize, out: *mut u8, out_len: usize) -> kez_answer;
    /// Rules 17.1, 17.9, 17.11, 12.8.1 to 12.8.3.
    pub fn kez_bare_from_versioned(packed: *const u8, packed_len: usize, out: *mut u8, out_len: usize) -> kez_answer;
    /// Rules 4.4 to 4.6, 4.9, 12.2.3.
    pub fn kez_notepack_tag_len(packed: *const u8, packed_len: usize, bare: u64, tag: u64) -> kez_answer;
    /// Rules 2.10 to 2.12, 4.2, 4.3, 4.5, 4.6, 4.8, 4.9, 12.2.3.
    pub fn kez_notepack_element(
        packed: *const u8,
        packed_len: usize,
        bare: u64,
        tag: u64,
        element: u64,
        at: *mut u64,
        len: *mut u64,
        is_bytes: *mut u64,
    ) -> kez_answer;
    /// Rules 4.12 to 4.15.
    pub fn kez_notepack_elements(
        packed: *const u8,
        packed_len: usize,
        bare: u64,
        first: u64,
        out: *mut u8,
        out_len: usize,
    ) -> kez_answer;
    /// Rules 3.1 to 3.3, 14.1, 14.2, 14.8, 14.9, 17.12, 17.13.
    pub fn kez_notepack_string_write(
        packed: *const u8,
        packed_len: usize,
        bare: u64,
        out: *mut u8,
        out_len: usize,
    ) -> kez_answer;
    /// Rules 14.1, 14.3 to 14.7.
    pub fn kez_notepack_string_read(text: *const u8, text_len: usize, out: *mut u8, out_len: usize) -> kez_answer;
    /// Rules 14.1, 14.4, 14.7, 17.12, 17.14 to 17.16.
    pub fn kez_notepack_string_read_versioned(
        text: *const u8,
        text_len: usize,
        out: *mut u8,
        out_len: usize,
    ) -> kez_answer;
    /// Rules 18.1 to 18.11, 12.9.1. The time is two's complement: `milliseconds as i64`.
    pub fn kez_pointer_read(
        bytes: *const u8,
        bytes_len: usize,
        version: *mut u64,
        kind: *mut u64,
        milliseconds: *mut u64,
        content_at: *mut u64,
        content_len: *mut u64,
        tag_count: *mut u64,
    ) -> kez_answer;
    /// Rules 18.1 to 18.11.
    pub fn kez_pointer_tag_len(bytes: *const u8, bytes_len: usize, tag: u64) -> kez_answer;
    /// Rules 18.1 to 18.11.
    pub fn kez_pointer_element(
        bytes: *const u8,
        bytes_len: usize,
        tag: u64,
        element: u64,
        at: *mut u64,
        len: *mut u64,
    ) -> kez_answer;
    /// Rules 18.1 to 18.9, 18.12, 18.13, 12.9.1, 12.9.4, 12.9.5.
    pub fn kez_pointer_convert(bytes: *const u8, bytes_len: usize, out: *mut u8, out_len: usize) -> kez_answer;
    /// Rules 18.1, 18.12, 18.14, 18.15, 12.9.2, 12.9.3, 12.9.5.
    pub fn kez_pointer_write(
        packed: *const u8,
        packed_len: usize,
        bare: u64,
        out: *mut u8,
        out_len: usize,
    ) -> kez_answer;
    /// Rule 12.1.12.
    pub fn kez_version() -> u64;
    /// Rules 8.1 to 8.11, 17.8.
    pub fn kez_rivals(
        first: *const u8,
        first_len: usize,
        first_bare: u64,
        second: *const u8,
        second_len: usize,
        second_bare: u64,
    ) -> kez_answer;
    /// Rules 15.20 and 15.21.
    pub fn kez_table_empty(slots: *mut u8, slots_len: usize, cells: *mut u8, cells_len: usize) -> kez_answer;
    /// Rules 15.1 to 15.19, 17.7.
    pub fn kez_table_offer(
        slots: *mut u8,
        slots_len: usize,
        cells: *mut u8,
        cells_len: usize,
        packed: *const u8,
        packed_len: usize,
        bare: u64,
    ) -> kez_answer;
    /// Rules 15.22 to 15.24.
    pub fn kez_table_slot(
        slots: *const u8,
        slots_len: usize,
        cells: *const u8,
        cells_len: usize,
        n: u64,
        at: *mut u64,
        len: *mut u64,
    ) -> kez_answer;
    /// Rules 16.1 to 16.6.
    pub fn kez_sha256_start(state: *mut u8, state_len: usize) -> kez_answer;
    /// Rules 16.1 to 16.5, 16.7 to 16.9, 12.7.1 to 12.7.3.
    pub fn kez_sha256_add(state: *mut u8, state_len: usize, piece: *const u8, piece_len: usize) -> kez_answer;
    /// Rules 16.1 to 16.5, 16.10, 16.11, 12.7.1 to 12.7.3.
    pub fn kez_sha256_finish(state: *const u8, state_len: usize, out: *mut u8, out_len: usize) -> kez_answer;
    /// Rules 16.12 to 16.14, 12.7.4.
    pub fn kez_id_belongs(packed: *const u8, packed_len: usize, bare: u64) -> kez_answer;
    /// Rules 5.1 to 5.9, 12.2.8.
    pub fn kez_canonical_write(
        packed: *const u8,
        packed_len: usize,
        bare: u64,
        out: *mut u8,
        out_len: usize,
    ) -> kez_answer;
    /// Rules 6.1 to 6.16, 12.3.10 to 12.3.12.
    pub fn kez_nson_write(
        packed: *const u8,
        packed_len: usize,
        bare: u64,
        out: *mut u8,
        out_len: usize,
    ) -> kez_answer;
    /// Rules 6.1 to 6.12, 6.17 to 6.30, 12.3.1 to 12.3.3, 12.3.5 to 12.3.9.
    pub fn kez_nson_read(text: *const u8, text_len: usize, out: *mut u8, out_len: usize) -> kez_answer;
    /// Rules 7.1 to 7.27, 12.1.9, 12.2.9, 12.2.10, 12.3.1 to 12.3.6.
    pub fn kez_json_read(text: *const u8, text_len: usize, out: *mut u8, out_len: usize) -> kez_answer;
    /// Rules 9.1 to 9.7, 12.3.1 to 12.3.3, 12.3.6. The header calls `first` nson_out and `second` json_out.
    pub fn kez_read_both(
        text: *const u8,
        text_len: usize,
        first: *mut u8,
        first_len: usize,
        second: *mut u8,
        second_len: usize,
        written: *mut u64,
    ) -> kez_answer;
}

/// A sentence for a refusal: rule 10.N says when refusal N is given.
pub fn kez_refusal_text(number: u64) -> &'static str {
    match number {
        0 => "Nothing is refused.",
        1 => "The input is longer than 65,536 bytes, a string form holds more, or the versioned form would be longer.",
        2 => "The packed event is cut short, or a length in it goes beyond its end.",
        3 => "A varint's tenth byte is neither 00 nor 01.",
        4 => "The packed event ends inside a varint.",
        5 => "A text is not well-formed UTF-8.",
        6 => "The kind is above 65,535.",
        7 => "The time is above 9,223,372,036,854,775 seconds.",
        8 => "There are more than 1,000 tags, or more than 255 texts in a tag.",
        9 => "A tag is empty.",
        10 => "Something follows after the end.",
        11 => "The lent buffer is shorter than needed.",
        12 => {
            "A fixed piece, hex or time is not as it must be, \
             or the id, pubkey or sig is not lowercase hex of its length."
        }
        13 => "A count in the nson field disagrees with the text.",
        14 => "The text is not allowed: wrong JSON syntax, type, escape, or a raw control byte.",
        15 => "A field is missing.",
        16 => "A field stands there twice.",
        17 => "NSON can't carry this event.",
        18 => "Arrays and objects are nested more than 16 deep.",
        19 => "There is no such tag or element, or nothing is kept in this slot.",
        20 => "The text does not start with notepack_ (bare) or notepack1_ (versioned), whichever is asked for.",
        21 => {
            "What follows notepack_ or notepack1_ is not base64: a character outside its alphabet, \
             a lone last one, or leftover bits that are not zero."
        }
        22 => "The event's strict form is longer than 1,024 bytes, which is a cell of a table.",
        23 => "The table has no free slot for another event.",
        24 => "A varint is longer than its number needs.",
        25 => "The packed event is said to be versioned, and does not start with 01.",
        26 => {
            "The header of the pointer form, or the length that it names, is not as it must be, \
             or version 1 is to be converted."
        }
        27 => {
            "A pointer's offset is no multiple of 8, it leads out of the data, \
             or it names a table whose length is not divisible by 8."
        }
        28 => "The time of a pointer form is negative, or is no whole second.",
        29 => "What is to be written would be longer than 65,536 bytes.",
        34 => {
            "The table is not as it must be: not of 64 slots and cells, \
             or a used slot without a strict event to be kept, or with the name of another."
        }
        35 => "The message has 2^61 bytes or more, or would have with this piece.",
        _ => "There is no refusal with this number.",
    }
}

/// A refusal from 1 to 29, or 34 or 35: its number, and the place in the input where the fault was found; with 11 the
/// length needed, with 34 the number of a slot. Where a reader of string forms tells one from 2 to 10, or 24, the place
/// is in the bytes that its text holds.
#[derive(Clone, Copy, Debug, PartialEq, Eq)]
pub struct Refused {
    pub number: u64,
    pub place: u64,
}

impl fmt::Display for Refused {
    fn fmt(&self, f: &mut fmt::Formatter) -> fmt::Result {
        write!(f, "refused {} at {}: {}", self.number, self.place, kez_refusal_text(self.number))
    }
}

impl std::error::Error for Refused {}

/// What is said of a packed event: it is bare, or it is the byte 01 and behind it the bare bytes. Nothing can see
/// whether that is true (rules 12.8.4 and 17.2).
#[derive(Clone, Copy, Debug, PartialEq, Eq, Hash)]
pub enum Form {
    Bare,
    Versioned,
}

impl Form {
    /// As the declarations take it.
    fn bare(self) -> u64 {
        match self {
            Form::Bare => KEZ_BARE,
            Form::Versioned => KEZ_VERSIONED,
        }
    }
}

/// Five numbers of a packed event. The content is `packed[content_at..][..content_len]`.
#[derive(Clone, Copy, Debug, Default, PartialEq, Eq)]
pub struct Numbers {
    pub created_at: u64,
    pub kind: u64,
    pub content_at: usize,
    pub content_len: usize,
    pub tag_count: u64,
}

/// An element: the number of its tag, and its payload, `packed[at..][..len]`. That is the text, or where is_bytes the
/// bytes whose lowercase hex is the text.
#[derive(Clone, Copy, Debug, PartialEq, Eq)]
pub struct Element {
    pub tag: u64,
    pub at: usize,
    pub len: usize,
    pub is_bytes: bool,
}

/// Six numbers of a pointer form. The time is in milliseconds, signed, and not in seconds as in [Numbers]. The content
/// is `form[content_at..][..content_len]`.
#[derive(Clone, Copy, Debug, Default, PartialEq, Eq)]
pub struct PointerNumbers {
    pub version: u64,
    pub kind: u64,
    pub milliseconds: i64,
    pub content_at: usize,
    pub content_len: usize,
    pub tag_count: u64,
}

/// Which of two packed events is kept.
#[derive(Clone, Copy, Debug, PartialEq, Eq)]
pub enum Kept {
    NotRivals,
    First,
    Second,
}

/// What both readers make of a text: does kez_nson_read accept it too, and how long is the strict form? The strict form
/// stands at the start of json_out; and of nson_out, if kez_nson_read accepts the text.
#[derive(Clone, Copy, Debug, PartialEq, Eq)]
pub struct Both {
    pub is_nson: bool,
    pub written: usize,
}

fn told(answer: kez_answer) -> Result<u64, Refused> {
    match answer.refusal {
        0 => Ok(answer.value),
        number => Err(Refused { number, place: answer.value }),
    }
}

type Writer = unsafe extern "C" fn(*const u8, usize, *mut u8, usize) -> kez_answer;
type PackedWriter = unsafe extern "C" fn(*const u8, usize, u64, *mut u8, usize) -> kez_answer;

/// Panics if the library that is linked is of another major or minor version: its entries may take other arguments.
fn linked() {
    static CHECKED: std::sync::Once = std::sync::Once::new();
    CHECKED.call_once(|| {
        let found = unsafe { kez_version() };
        assert_eq!(
            found / 100,
            KEZ_VERSION_NUMBER / 100,
            "the Kezubimoryu library that is linked has the version {found}, and kezubimoryu.rs is for {KEZ_VERSION}"
        );
    });
}

// Every call below is safe for the same reasons. The library is the one that the declarations are for, which `linked`
// sees to. A slice's pointer comes with its true length, and with length 0 any pointer will do. A slice that is written
// is borrowed by nobody else, so it overlaps nothing. The library keeps no pointer.

fn write(entry: Writer, from: &[u8], out: &mut [u8]) -> Result<usize, Refused> {
    linked();
    let answer = unsafe { entry(from.as_ptr(), from.len(), out.as_mut_ptr(), out.len()) };
    told(answer).map(|length| length as usize)
}

fn write_packed(entry: PackedWriter, packed: &[u8], form: Form, out: &mut [u8]) -> Result<usize, Refused> {
    linked();
    let answer = unsafe { entry(packed.as_ptr(), packed.len(), form.bare(), out.as_mut_ptr(), out.len()) };
    told(answer).map(|length| length as usize)
}

/// Five numbers of a packed event. The content's place counts the 01 of a versioned one.
pub fn notepack_read(packed: &[u8], form: Form) -> Result<Numbers, Refused> {
    linked();
    let (mut created_at, mut kind, mut content_at, mut content_len, mut tag_count) = (0, 0, 0, 0, 0);
    told(unsafe {
        kez_notepack_read(
            packed.as_ptr(),
            packed.len(),
            form.bare(),
            &mut created_at,
            &mut kind,
            &mut content_at,
            &mut content_len,
            &mut tag_count,
        )
    })?;
    Ok(Numbers { created_at, kind, content_at: content_at as usize, content_len: content_len as usize, tag_count })
}

/// Are these bytes in strict form?
pub fn notepack_is_strict(packed: &[u8], form: Form) -> Result<bool, Refused> {
    linked();
    told(unsafe { kez_notepack_is_strict(packed.as_ptr(), packed.len(), form.bare()) }).map(|value| value == 1)
}

/// Writes the strict form of a packed event; its length. It is bare, also of a versioned one. An `out` as long as
/// `packed` is always enough.
pub fn notepack_write(packed: &[u8], form: Form, out: &mut [u8]) -> Result<usize, Refused> {
    write_packed(kez_notepack_write, packed, form, out)
}

/// Writes a bare packed event in the versioned form: 01, and behind it the same bytes; its length. One of 65,536 bytes
/// is refused with 1. An `out` one byte longer than `packed` is always enough.
pub fn versioned_from_bare(packed: &[u8], out: &mut [u8]) -> Result<usize, Refused> {
    write(kez_versioned_from_bare, packed, out)
}

/// Writes a versioned packed event in the bare form: the bytes behind its 01; its length. An `out` as long as `packed`
/// is always enough.
pub fn bare_from_versioned(packed: &[u8], out: &mut [u8]) -> Result<usize, Refused> {
    write(kez_bare_from_versioned, packed, out)
}

/// How many texts this tag has: 1 to 255.
pub fn notepack_tag_len(packed: &[u8], form: Form, tag: u64) -> Result<u64, Refused> {
    linked();
    told(unsafe { kez_notepack_tag_len(packed.as_ptr(), packed.len(), form.bare(), tag) })
}

/// One element of a tag. Its place counts the 01 of a versioned event.
pub fn notepack_element(packed: &[u8], form: Form, tag: u64, element: u64) -> Result<Element, Refused> {
    linked();
    let (mut at, mut len, mut is_bytes) = (0, 0, 0);
    told(unsafe {
        let (at, len, is_bytes) = (&mut at, &mut len, &mut is_bytes);
        kez_notepack_element(packed.as_ptr(), packed.len(), form.bare(), tag, element, at, len, is_bytes)
    })?;
    Ok(Element { tag, at: at as usize, len: len as usize, is_bytes: is_bytes == 1 })
}

/// All elements of all tags in their order. They are fetched block by block into one buffer, and a refusal is told here
/// and not later: `for element in notepack_elements(&packed, form)? { .. }`
pub fn notepack_elements(packed: &[u8], form: Form) -> Result<Elements<'_>, Refused> {
    linked();
    // an element takes a byte of the record or more, so a short record needs one block
    let block = vec![0; KEZ_ELEMENT_BYTES * packed.len().clamp(1, 1024)];
    let mut elements = Elements { packed, form, block, first: 0, listed: 0, told: 0 };
    elements.fetch()?;
    Ok(elements)
}

/// See [notepack_elements].
#[derive(Clone, Debug)]
pub struct Elements<'a> {
    packed: &'a [u8],
    form: Form,
    block: Vec<u8>,
    /// the number of the block's first element, how many are in it, and how many of those were told
    first: u64,
    listed: usize,
    told: usize,
}

impl Elements<'_> {
    /// The elements from number `first` on, into the block.
    fn fetch(&mut self) -> Result<(), Refused> {
        let (packed, bare, block) = (self.packed, self.form.bare(), &mut self.block);
        let answer = unsafe {
            kez_notepack_elements(packed.as_ptr(), packed.len(), bare, self.first, block.as_mut_ptr(), block.len())
        };
        self.listed = told(answer)? as usize;
        self.told = 0;
        Ok(())
    }

    /// Is the block full? If not, there are no more elements.
    fn is_full(&self) -> bool {
        self.listed * KEZ_ELEMENT_BYTES == self.block.len()
    }
}

impl Iterator for Elements<'_> {
    type Item = Element;

    fn next(&mut self) -> Option<Element> {
        if self.told == self.listed && self.is_full() {
            self.first += self.listed as u64;
            self.fetch().expect("bytes that were accepted before");
        }
        if self.told == self.listed {
            return None;
        }
        let at = self.told * KEZ_ELEMENT_BYTES;
        let number = |i: usize| u32::from_le_bytes(self.block[at + 4 * i..][..4].try_into().unwrap());
        self.told += 1;
        Some(Element {
            tag: number(0).into(),
            at: number(1) as usize,
            len: number(2) as usize,
            is_bytes: number(3) == 1,
        })
    }
}

impl std::iter::FusedIterator for Elements<'_> {}

/// Writes the string form of a packed event, which is ASCII; its length. It starts with `notepack_`, or with
/// `notepack1_` for a versioned event. An `out` of `10 + (4 * packed.len()).div_ceil(3)` bytes is always enough.
pub fn notepack_string_write(packed: &[u8], form: Form, out: &mut [u8]) -> Result<usize, Refused> {
    write_packed(kez_notepack_string_write, packed, form, out)
}

/// Reads the string form of a bare event, and writes the packed event that it holds, byte for byte; its length. The
/// event need not be strict. A line end that was pasted along is refused, and so is a text that starts with
/// `notepack1_`, with 20. An `out` as long as `text` is always enough.
pub fn notepack_string_read(text: &[u8], out: &mut [u8]) -> Result<usize, Refused> {
    write(kez_notepack_string_read, text, out)
}

/// Reads the string form of a versioned event in the same way; what is written starts with its 01. A text that starts
/// with `notepack_` is refused with 20.
pub fn notepack_string_read_versioned(text: &[u8], out: &mut [u8]) -> Result<usize, Refused> {
    write(kez_notepack_string_read_versioned, text, out)
}

/// Six numbers of a pointer form, of version 0 or 1.
pub fn pointer_read(form: &[u8]) -> Result<PointerNumbers, Refused> {
    linked();
    let mut numbers = [0; 6];
    let [version, kind, milliseconds, content_at, content_len, tag_count] = &mut numbers;
    told(unsafe {
        let (at, len) = (form.as_ptr(), form.len());
        kez_pointer_read(at, len, version, kind, milliseconds, content_at, content_len, tag_count)
    })?;
    let [version, kind, milliseconds, content_at, content_len, tag_count] = numbers;
    let (content_at, content_len) = (content_at as usize, content_len as usize);
    Ok(PointerNumbers { version, kind, milliseconds: milliseconds as i64, content_at, content_len, tag_count })
}

/// How many texts this tag of a pointer form has. Of version 1 it may be 0.
pub fn pointer_tag_len(form: &[u8], tag: u64) -> Result<u64, Refused> {
    linked();
    told(unsafe { kez_pointer_tag_len(form.as_ptr(), form.len(), tag) })
}

/// One text of a tag of a pointer form, a part of the bytes that are lent. Of version 1 it may be any bytes. Each call
/// reads the whole form; tags may share texts, so they can name far more bytes than there are.
pub fn pointer_element(form: &[u8], tag: u64, element: u64) -> Result<&[u8], Refused> {
    linked();
    let (mut at, mut len) = (0, 0);
    told(unsafe { kez_pointer_element(form.as_ptr(), form.len(), tag, element, &mut at, &mut len) })?;
    Ok(&form[at as usize..][..len as usize])
}

/// Writes the event of a pointer form of version 0 in bare strict form; its length. Version 1 is refused with 26, since
/// its id is taken of other bytes. An `out` of KEZ_MOST bytes is always enough; one as long as `form` need not be.
pub fn pointer_convert(form: &[u8], out: &mut [u8]) -> Result<usize, Refused> {
    write(kez_pointer_convert, form, out)
}

/// Writes a packed event as a pointer form of version 0; its length. An `out` of KEZ_POINTER_MOST bytes is always
/// enough.
pub fn pointer_write(packed: &[u8], form: Form, out: &mut [u8]) -> Result<usize, Refused> {
    write_packed(kez_pointer_write, packed, form, out)
}

/// The version of the library that is linked: 10,000 for a major one, 100 for a minor one, 1 for a patch.
pub fn version() -> u64 {
    unsafe { kez_version() }
}

/// Which of two packed events is to be kept? One may be bare and the other versioned. A refusal does not say whose it
/// is.
pub fn rivals(first: &[u8], first_form: Form, second: &[u8], second_form: Form) -> Result<Kept, Refused> {
    linked();
    let answer = unsafe {
        let (bare, second_bare) = (first_form.bare(), second_form.bare());
        kez_rivals(first.as_ptr(), first.len(), bare, second.as_ptr(), second.len(), second_bare)
    };
    told(answer).map(|value| match value {
        0 => Kept::NotRivals,
        1 => Kept::First,
        _ => Kept::Second,
    })
}

/// What came of an event that was offered to a table.
#[derive(Clone, Copy, Debug, PartialEq, Eq)]
pub enum Outcome {
    /// It is kept, in the lowest free slot.
    New,
    /// It is kept in the slot of an earlier version, which is gone.
    Replaced,
    /// The version that is kept is the current one.
    Loses,
    /// The same event is kept; or, if it has no key, one of the same id.
    Held,
    /// Kinds 20000 to 29999 never are.
    NotKept,
}

/// A table of current records: of the events with a key one for each key, the current one, and of those without a key
/// one for each id. It owns its bytes. (Rules 15.1 to 15.24.)
///
/// A table that a version before 0.10.0 filled may be refused with 34, since two events of one author and one kind,
/// 30000 to 39999, whose labels are missing or empty, are one record now. List it with that version, and offer what it
/// had to a new table: none is refused. What that version refused with 23 is offered too.
///
/// ```ignore
/// let mut table = kezubimoryu::Table::new();
/// table.offer(&packed, Form::Bare)?;
/// for (slot, kept) in table.kept()? { .. }
/// std::fs::write("table", table.bytes())?;
/// ```
#[derive(Clone, Debug, PartialEq, Eq)]
pub struct Table {
    /// the slots, then the cells
    bytes: Vec<u8>,
}

impl Default for Table {
    fn default() -> Self {
        Self::new()
    }
}

impl Table {
    /// An emptied table.
    pub fn new() -> Self {
        Self { bytes: vec![0; KEZ_SLOTS_BYTES + KEZ_CELLS_BYTES] }
    }

    /// The table of these bytes: the slots, then the cells, as [Table::bytes] has them. Bytes of another length are
    /// handed back. What is no table otherwise is refused with 34 as soon as it is asked for something.
    pub fn from_bytes(bytes: Vec<u8>) -> Result<Self, Vec<u8>> {
        if bytes.len() == KEZ_SLOTS_BYTES + KEZ_CELLS_BYTES { Ok(Self { bytes }) } else { Err(bytes) }
    }

    /// The slots, then the cells.
    pub fn bytes(&self) -> &[u8] {
        &self.bytes
    }

    /// Frees and zeroes every slot and cell, whatever they hold.
    pub fn empty(&mut self) -> Result<(), Refused> {
        linked();
        let (slots, cells) = self.bytes.split_at_mut(KEZ_SLOTS_BYTES);
        told(unsafe { kez_table_empty(slots.as_mut_ptr(), slots.len(), cells.as_mut_ptr(), cells.len()) }).map(|_| ())
    }

    /// Offers a packed event; it is kept in bare strict form if it is to be kept. A refusal changes nothing.
    pub fn offer(&mut self, packed: &[u8], form: Form) -> Result<Outcome, Refused> {
        linked();
        let (slots, cells) = self.bytes.split_at_mut(KEZ_SLOTS_BYTES);
        let answer = unsafe {
            kez_table_offer(
                slots.as_mut_ptr(),
                slots.len(),
                cells.as_mut_ptr(),
                cells.len(),
                packed.as_ptr(),
                packed.len(),
                form.bare(),
            )
        };
        told(answer).map(|value| match value {
            0 => Outcome::New,
            1 => Outcome::Replaced,
            2 => Outcome::Loses,
            3 => Outcome::Held,
            _ => Outcome::NotKept,
        })
    }

    /// The event that is kept in slot n, bare and in strict form. A free slot, or a number above 63, is 19.
    pub fn slot(&self, n: u64) -> Result<&[u8], Refused> {
        linked();
        let (slots, cells) = self.bytes.split_at(KEZ_SLOTS_BYTES);
        let (mut at, mut len) = (0, 0);
        told(unsafe {
            kez_table_slot(slots.as_ptr(), slots.len(), cells.as_ptr(), cells.len(), n, &mut at, &mut len)
        })?;
        Ok(&cells[at as usize..][..len as usize])
    }

    /// What is kept, from the lowest slot on: the slot's number, and the event in strict form and bare.
    pub fn kept(&self) -> Result<Vec<(u64, &[u8])>, Refused> {
        let mut kept = Vec::new();
        for n in 0..KEZ_SLOTS as u64 {
            match self.slot(n) {
                Ok(packed) => kept.push((n, packed)),
                Err(Refused { number: 19, .. }) => {}
                Err(refused) => return Err(refused),
            }
        }
        Ok(kept)
    }
}

/// SHA-256 of a message that comes in pieces. Where it is cut makes no difference. It owns its state. (Rules 16.1 to
/// 16.11.)
///
/// ```ignore
/// let mut hash = kezubimoryu::Sha256::new();
/// hash.add(b"a")?;
/// hash.add(b"bc")?;
/// let digest = hash.finish()?;
/// ```
#[derive(Clone, Copy, Debug, PartialEq, Eq)]
pub struct Sha256 {
    state: [u8; KEZ_SHA256_STATE],
}

impl Default for Sha256 {
    fn default() -> Self {
        Self::new()
    }
}

impl Sha256 {
    /// A message of no bytes.
    pub fn new() -> Self {
        let mut hash = Self { state: [0; KEZ_SHA256_STATE] };
        hash.start();
        hash
    }

    /// A hash that goes on from this state. Any bytes are one.
    pub fn from_state(state: [u8; KEZ_SHA256_STATE]) -> Self {
        Self { state }
    }

    /// The state, to go on from later.
    pub fn state(&self) -> &[u8; KEZ_SHA256_STATE] {
        &self.state
    }

    /// Starts anew, with a message of no bytes.
    pub fn start(&mut self) {
        linked();
        let answer = unsafe { kez_sha256_start(self.state.as_mut_ptr(), self.state.len()) };
        told(answer).expect("the buffer is as long as a state");
    }

    /// Adds the bytes that come next. Where the message would have 2^61 bytes or more, 35 is told and nothing changes.
    pub fn add(&mut self, piece: &[u8]) -> Result<(), Refused> {
        linked();
        let state = &mut self.state;
        told(unsafe { kez_sha256_add(state.as_mut_ptr(), state.len(), piece.as_ptr(), piece.len()) }).map(|_| ())
    }

    /// The digest of the message so far. More may be added.
    pub fn finish(&self) -> Result<[u8; KEZ_SHA256_DIGEST], Refused> {
        let mut digest = [0; KEZ_SHA256_DIGEST];
        write(kez_sha256_finish, &self.state, &mut digest)?;
        Ok(digest)
    }
}

/// Does the id belong to the packed event: is it the SHA-256 of its canonical text? The signature plays no part. A
/// thread that calls this needs some 200 KB of stack.
pub fn id_belongs(packed: &[u8], form: Form) -> Result<bool, Refused> {
    linked();
    told(unsafe { kez_id_belongs(packed.as_ptr(), packed.len(), form.bare()) }).map(|value| value == 1)
}

/// Writes the canonical text of NIP-01; its length. An `out` three times as long as `packed` is always enough.
pub fn canonical_write(packed: &[u8], form: Form, out: &mut [u8]) -> Result<usize, Refused> {
    write_packed(kez_canonical_write, packed, form, out)
}

/// Writes a packed event as NSON; its length. An `out` of KEZ_MOST bytes is always enough.
pub fn nson_write(packed: &[u8], form: Form, out: &mut [u8]) -> Result<usize, Refused> {
    write_packed(kez_nson_write, packed, form, out)
}

/// Reads NSON, and writes the event in strict form; its length. An `out` as long as `text` is always enough.
pub fn nson_read(text: &[u8], out: &mut [u8]) -> Result<usize, Refused> {
    write(kez_nson_read, text, out)
}

/// Reads plain JSON, and writes the event in strict form; its length. An `out` as long as `text` is always enough.
pub fn json_read(text: &[u8], out: &mut [u8]) -> Result<usize, Refused> {
    write(kez_json_read, text, out)
}

/// Reads one text as json_read and as nson_read do. Buffers as long as `text` are always enough.
pub fn read_both(text: &[u8], nson_out: &mut [u8], json_out: &mut [u8]) -> Result<Both, Refused> {
    linked();
    let mut written = 0;
    let answer = unsafe {
        kez_read_both(
            text.as_ptr(),
            text.len(),
            nson_out.as_mut_ptr(),
            nson_out.len(),
            json_out.as_mut_ptr(),
            json_out.len(),
            &mut written,
        )
    };
    told(answer).map(|value| Both { is_nson: value == 2, written: written as usize })
}
