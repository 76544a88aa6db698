//! Bare and versioned events: each said to be what it is, or the other.

use crate::event::*;
use crate::notepack::*;
use crate::string_form::*;
use crate::{hex, table, Requests, PACKED};

/// What a packed event is, or is said to be.
#[derive(Clone, Copy, PartialEq)]
pub enum Form {
    Bare,
    Versioned,
}

use Form::*;

pub const FORMS: [Form; 2] = [Bare, Versioned];

impl Form {
    pub fn other(self) -> Form {
        if self == Bare { Versioned } else { Bare }
    }

    /// What stands in front of the bare bytes.
    pub fn front(self) -> &'static [u8] {
        if self == Bare { b"" } else { b"\x01" }
    }

    /// The bare bytes in this form.
    pub fn of(self, bare: &[u8]) -> Vec<u8> {
        [self.front(), bare].concat()
    }

    /// These bytes, said to be of this form.
    pub fn said(self, bytes: &[u8]) -> String {
        format!("{}:{}", if self == Bare { 'b' } else { 'v' }, hex(bytes))
    }

    /// Bare bytes in this form, and said to be of it.
    pub fn given(self, bare: &[u8]) -> String {
        self.said(&self.of(bare))
    }
}

/// The forms that a kind of request takes; the direction of a move says which one it is, and the lister knows but one.
pub fn forms_of(kind: &str) -> &'static [Form] {
    match kind {
        "to_versioned" | "lister" => &[Bare],
        "to_bare" => &[Versioned],
        _ => &FORMS,
    }
}

/// Is it said of this kind's input whether it is bare?
fn is_asked(kind: &str) -> bool {
    forms_of(kind).len() > 1
}

/// A kind's input, said to be of this form where that is asked.
pub fn word(kind: &str, said: Form, bytes: &[u8]) -> String {
    if is_asked(kind) { said.said(bytes) } else { hex(bytes) }
}

pub fn boundaries(g: &mut Requests) {
    first_bytes(g);
    sizes(g);
    wrong_words(g);
    two_inputs(g);
    in_strings(g);
    if g.has("table") {
        offers(g);
    }
}

/// These bytes to every kind of request, said to be of this form.
fn ask(g: &mut Requests, said: Form, bytes: &[u8], e: &Event) {
    for kind in g.wanted(&PACKED) {
        g.asked_as(kind, said, bytes, e);
    }
}

/// No byte at all, one alone, and each in front of an event that is right, cut, or followed by something.
fn first_bytes(g: &mut Requests) {
    let e = vector();
    let good = strict(&e);
    for said in FORMS {
        ask(g, said, b"", &e);
        for byte in 0..=255 {
            g.any_as(said, &[byte], &e);
            g.any_as(said, &[&[byte], &good[..]].concat(), &e);
            g.any_as(said, &[&[byte], &good[..131]].concat(), &e);
            g.any_as(said, &[&[byte], &good[..], &[0]].concat(), &e);
        }
        for byte in [0, 1, 2, 0x80, 0x81, 0xff] {
            ask(g, said, &[byte], &e);
            ask(g, said, &[byte, 1], &e);
            ask(g, said, &[&[byte], &good[..]].concat(), &e);
            ask(g, said, &[&[1, byte], &good[..]].concat(), &e);
        }
        for cut in 0..=good.len() {
            g.any_as(said, &Versioned.of(&good[..cut]), &e);
            g.any_as(said, &Versioned.of(&good[..cut]), &e);
        }
    }
}

/// About 65,536 bytes, the 01 counted; with another first byte, with a fault behind it, and with nothing but that byte.
fn sizes(g: &mut Requests) {
    for size in [65_534, 65_535, 65_536, 65_537, 65_538] {
        let content = size - strict(&small()).len() - 3;
        let e = Event { content: vec![b'x'; content], ..small() };
        let good = Versioned.of(&strict(&e));
        let changed = |place: usize, byte: u8| {
            let mut bytes = good.clone();
            bytes[place] = byte;
            bytes
        };
        for said in FORMS {
            ask(g, said, &good, &e);
            ask(g, said, &good[1..], &e);
            for wrong in [changed(0, 0), changed(0, 2), changed(1_000, 0xff), changed(size - 1, 1), vec![1; size]] {
                g.any_as(said, &wrong, &e);
                g.any_as(said, &wrong, &e);
            }
        }
    }
}

/// Bytes that read well in both forms, as two events: of the one 01 is the first byte of the id.
fn both_ways() -> Vec<Vec<u8>> {
    let mut all = vec![];
    for kind in [0, 1, 3, 5, 127] {
        let mut e = Event { kind, ..small() };
        // as bare bytes the last byte of the sig is the time, the time is the kind, the kind the content's length
        e.content = vec![0; (kind as usize).saturating_sub(2)];
        all.push(Versioned.of(&strict(&e)));
    }
    for content in 0..10 {
        all.push(Versioned.of(&strict(&Event { kind: 1, content: vec![0; content], ..small() })));
    }
    all
}

/// Events that are said to be of the other form.
fn wrong_words(g: &mut Requests) {
    for bytes in both_ways() {
        for said in FORMS {
            ask(g, said, &bytes, &small());
        }
    }
    for e in [small(), carried(), vector(), mixed()] {
        for is in FORMS {
            ask(g, is.other(), &is.of(&strict(&e)), &e);
            let loose = loose(&mut g.dice, &e);
            ask(g, is.other(), &is.of(&loose), &e);
        }
    }
}

/// Two events in each of the four ways; faults of the first, of the second and of both, 25 among them.
fn two_inputs(g: &mut Requests) {
    if !g.has("rivals") {
        return;
    }
    let (old, new) = (vector(), Event { created_at: 1_720_000_001, ..vector() });
    let good = [strict(&old), strict(&new), strict(&carried())];
    let long = vec![1; 65_537];
    let short = [&b""[..], b"\x01", b"\x02", &good[0][..130], &long[..]].map(<[u8]>::to_vec);
    let mut words: Vec<String> = FORMS.iter().flat_map(|form| good.iter().map(|bare| form.given(bare))).collect();
    words.extend(FORMS.iter().flat_map(|form| short.iter().map(|bytes| form.said(bytes))));
    words.extend(FORMS.iter().map(|form| form.other().said(&form.of(&good[0]))));
    words.push(Versioned.said(&[&[2], &good[1][..]].concat()));
    words.push(Versioned.given(&good[1][..236]));
    words.extend(both_ways().iter().flat_map(|bytes| FORMS.map(|form| form.said(bytes))));
    for first in &words {
        for second in &words {
            g.lines.push(format!("rivals {first} {second}"));
        }
    }
}

/// String forms that hold the other form, nothing, one byte, and another first byte.
fn in_strings(g: &mut Requests) {
    for form in FORMS {
        let reader = form.reader();
        if !g.has(reader) {
            continue;
        }
        let spelled = |held: &[u8]| [form.prefix(), &base64(held, 0)].concat();
        for e in [small(), vector(), mixed()] {
            for is in FORMS {
                g.all(&[reader], &spelled(&is.of(&strict(&e))), &e);
            }
            for byte in 0..=255 {
                g.one(reader, &spelled(&[&[byte], &strict(&e)[..]].concat()), &e);
            }
        }
        for held in [&b""[..], b"\x01", b"\x02", b"\x00", b"\x01\x01"] {
            g.all(&[reader], &spelled(held), &small());
        }
        for bytes in both_ways() {
            g.all(&[reader], &spelled(&bytes), &small());
        }
    }
}

/// Events offered in one form and then in the other: held, replaced, too long by one byte or not, refused.
fn offers(g: &mut Requests) {
    let later = |time: u64| Event { created_at: 1_720_000_000 + time, ..vector() };
    let long = |length: usize| strict(&table::of_length(later(9), length));
    for [first, second] in [[Bare, Versioned], [Versioned, Bare], [Versioned, Versioned]] {
        let loose = loose(&mut g.dice, &later(1));
        let mut words = vec![first.given(&strict(&later(1))), second.given(&strict(&later(1))), second.given(&loose)];
        words.extend([first.given(&strict(&later(0))), second.given(&strict(&later(2)))]);
        words.extend([1_023, 1_024, 1_025].map(|length| second.given(&long(length))));
        words.extend([first.said(b""), Versioned.said(b"\x01"), Versioned.said(&strict(&later(3)))]);
        words.push(Versioned.given(&strict(&later(3))[..200]));
        words.extend([65_535, 65_536, 65_537].map(|length| second.given(&strict(&table::of_length(small(), length)))));
        let mut lines = vec!["table_new".to_string()];
        for word in &words {
            lines.push(format!("table_offer {word}"));
            table::look(&mut lines, 3);
        }
        // the same of a table that is bad: 34 comes before all that is wrong with what is offered
        lines.push("table_load 64 5:131:-".into());
        lines.extend(words.iter().map(|word| format!("table_offer {word}")));
        table::look(&mut lines, 6);
        g.lines.push(lines.join("\n"));
    }
}
