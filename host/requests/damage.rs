//! Samples changed at every place, and random inputs.

use crate::dice::Dice;
use crate::event::*;
use crate::json::*;
use crate::notepack::*;
use crate::string_form::*;
use crate::texts::*;
use crate::versioned::{Form, FORMS};
use crate::{hash, pointer, Requests, PACKED};

/// Samples cut at every place; at every place a byte changed, put in or taken out.
pub fn everywhere(g: &mut Requests) {
    let samples = [vector(), mixed(), carried()];
    for e in &samples {
        let loose = loose(&mut g.dice, e);
        for bytes in [strict(e), loose] {
            damaged(g, &PACKED, &bytes, e, &ODD_BYTES);
            for form in FORMS {
                damaged(g, &[form.reader()], &form.string_of(&bytes), e, &ODD_CHARS);
                damaged_inside(g, form, &bytes, e);
            }
        }
        let nson = Nson::of(e).spelled();
        damaged(g, &["nson_read", "json_read"], &nson, e, &ODD_BYTES);
        let tokens = json_tokens(&mut g.dice, e);
        let json = joined(&mut g.dice, &tokens);
        damaged(g, &["json_read"], &json, e, &ODD_BYTES);
    }
    for (form, e) in pointer::samples(&mut g.dice) {
        damaged(g, &pointer::POINTER, &form, &e, &ODD_BYTES);
    }
    if g.has("rivals") {
        let (a, b) = (strict(&Event { kind: 3, ..mixed() }), strict(&Event { kind: 3, ..mixed() }));
        for place in 0..a.len() {
            let mut changed = b.clone();
            changed[place] ^= 1 << g.dice.below(8);
            g.rivals(&a, &changed);
            g.rivals(&changed, &a);
            g.rivals(&a, &b[..place]);
            g.rivals(&a[..place], &b);
        }
    }
}

fn damaged(g: &mut Requests, kinds: &[&str], bytes: &[u8], e: &Event, odd: &[u8]) {
    for place in 0..bytes.len() {
        for changed in changes_at(&mut g.dice, bytes, place, odd) {
            g.any(kinds, &changed, e);
        }
    }
}

/// String forms of bytes that are damaged.
fn damaged_inside(g: &mut Requests, form: Form, bytes: &[u8], e: &Event) {
    for place in 0..bytes.len() {
        for changed in changes_at(&mut g.dice, bytes, place, &ODD_BYTES) {
            g.any(&[form.reader()], &form.string_of(&changed), e);
        }
    }
}

/// Cut at this place; the byte there changed, taken out, or another put in.
fn changes_at(d: &mut Dice, bytes: &[u8], place: usize, odd: &[u8]) -> Vec<Vec<u8>> {
    let mut changes = vec![bytes[..place].to_vec()];
    for b in [bytes[place] ^ 1, bytes[place] ^ 0x80, bytes[place].wrapping_add(1), d.pick(odd)] {
        let mut changed = bytes.to_vec();
        changed[place] = b;
        changes.push(changed);
    }
    let mut less = bytes.to_vec();
    less.remove(place);
    changes.push(less);
    let mut more = bytes.to_vec();
    more.insert(place, d.pick(odd));
    changes.push(more);
    changes
}

const ODD_BYTES: [u8; 28] = [
    0, 1, 2, 9, 10, 13, 0x1f, 0x20, b'"', b'\\', b',', b'0', b'9', b':', b'[', b']', b'a', b'f', b'{', b'}', 0x7f, 0x80, 0x81, 0xbf, 0xc2,
    0xe2, 0xf0, 0xff,
];

/// One or two random changes of bytes.
pub fn spoil_bytes(d: &mut Dice, bytes: &mut Vec<u8>) {
    for _ in 0..1 + d.below(2) {
        let place = d.below(bytes.len() + 1);
        let other = d.below(bytes.len() + 1);
        let (from, to) = (place.min(other), place.max(other));
        match d.below(8) {
            0 => bytes.truncate(place),
            1 | 2 if place < bytes.len() => bytes[place] = d.pick(&ODD_BYTES),
            3 if place < bytes.len() => bytes[place] ^= 1 << d.below(8),
            4 => bytes.insert(place, d.pick(&ODD_BYTES)),
            5 if place < bytes.len() => {
                bytes.remove(place);
            }
            6 => {
                let again = bytes[from..to].to_vec();
                bytes.splice(from..from, again);
            }
            _ => {
                bytes.drain(from..to.min(from + 3));
            }
        }
    }
}

pub fn random(g: &mut Requests) {
    let mut e = random_event(&mut g.dice);
    if g.dice.percent(8) {
        spoil_text(&mut g.dice, &mut e);
    }
    let kind = g.dice.pick(&g.kinds.clone());
    match kind.as_str() {
        "rivals" => random_rivals(g, e),
        "table" | "table_slot" => g.next_of_table(),
        "sha" | "sha_state" => g.next_of_hash(),
        "id_belongs" if g.dice.percent(75) => {
            let input = hash::random_id(&mut g.dice, &e);
            g.one("id_belongs", &input, &e);
        }
        "nson_read" => {
            let text = random_nson(&mut g.dice, &mut e);
            g.any(&["nson_read"], &text, &e);
        }
        "json_read" if g.dice.percent(15) => {
            let text = random_nson(&mut g.dice, &mut e);
            g.any(&["json_read"], &text, &e);
        }
        "json_read" => {
            let text = random_json(&mut g.dice, &e);
            g.any(&["json_read"], &text, &e);
        }
        "pointer_read" | "pointer_tag" | "pointer_element" | "pointer_convert" => {
            let form = pointer::random_form(&mut g.dice, &e);
            g.one(&kind, &form, &e);
        }
        "string_read" | "string1_read" => {
            let form = if kind == "string_read" { Form::Bare } else { Form::Versioned };
            let text = random_string(&mut g.dice, form, &e);
            g.one(&kind, &text, &e);
        }
        _ => {
            if kind == "nson_write" && g.dice.percent(70) {
                can_carry(&mut e);
            }
            let input = random_packed(&mut g.dice, &e);
            g.one(&kind, &input, &e);
        }
    }
}

fn random_packed(d: &mut Dice, e: &Event) -> Vec<u8> {
    match d.below(10) {
        0..=2 => strict(e),
        3..=4 => loose(d, e),
        5 => with_padded(d, e),
        6 | 7 => {
            let mut pieces = packed_pieces(e, |_| d.percent(70));
            spoil_pieces(d, &mut pieces);
            let share = d.pick(&[0, 0, 0, 10]);
            spelled(&pieces, |n| if d.percent(share) { padded(n, 1 + d.below(10)) } else { varint(n) })
        }
        _ => {
            let mut bytes = loose(d, e);
            spoil_bytes(d, &mut bytes);
            bytes
        }
    }
}

/// Makes the event one that NSON can carry, as far as numbers and counts go.
fn can_carry(e: &mut Event) {
    e.created_at = 1_000_000_000 + e.created_at % 9_000_000_000;
    let mut left = 123;
    e.tags.retain(|tag| {
        let fits = 1 + 2 * tag.len() <= left;
        left -= fits as usize * (1 + 2 * tag.len());
        fits
    });
    for text in e.tags.iter_mut().flatten().chain([&mut e.content]) {
        text.retain(|&b| b >= 0x20 || b == b'\n');
    }
}

fn random_nson(d: &mut Dice, e: &mut Event) -> Vec<u8> {
    if d.percent(95) {
        can_carry(e);
    }
    if d.percent(5) {
        spoil_text(d, e);
    }
    let mut nson = Nson::of(e);
    match d.below(10) {
        0..=3 => nson.spelled(),
        4..=6 => {
            nson.lie(d);
            nson.spelled()
        }
        7 => {
            let list = if d.percent(30) { &mut nson.head } else { &mut nson.tail };
            spoil_tokens(d, list);
            nson.spelled()
        }
        _ => {
            let mut bytes = nson.spelled();
            spoil_bytes(d, &mut bytes);
            bytes
        }
    }
}

fn random_json(d: &mut Dice, e: &Event) -> Vec<u8> {
    let mut tokens = json_tokens(d, e);
    match d.below(10) {
        0..=4 => joined(d, &tokens),
        5..=7 => {
            spoil_tokens(d, &mut tokens);
            joined(d, &tokens)
        }
        _ => {
            let mut bytes = joined(d, &tokens);
            spoil_bytes(d, &mut bytes);
            bytes
        }
    }
}

/// The string form of bytes that may be wrong, with up to three things that happened to it.
fn random_string(d: &mut Dice, form: Form, e: &Event) -> Vec<u8> {
    let mut text = form.string_of(&random_packed(d, e));
    if d.percent(3) {
        // it holds the other form
        text = [form.prefix(), &base64(&form.other().of(&random_packed(d, e)), 0)].concat();
    }
    let spoils = d.pick(&[0, 0, 0, 1, 1, 1, 1, 2, 3]);
    for _ in 0..spoils {
        if text.len() > form.prefix().len() + 3 {
            spoil_string(d, form, &mut text);
        }
    }
    text
}

/// Two events that are near to each other.
fn random_rivals(g: &mut Requests, mut a: Event) {
    let d = &mut g.dice;
    a.kind = d.pick(&KINDS);
    if d.percent(70) {
        let place = d.below(a.tags.len() + 1);
        let text = random_text(d);
        a.tags.insert(place, if d.percent(80) { vec![b"d".to_vec(), text] } else { tag(&["d"]) });
    }
    let mut b = a.clone();
    for _ in 0..d.below(3) {
        match d.below(8) {
            0 | 1 => b.created_at = (a.created_at + d.next() % 3).saturating_sub(1).min(MAX_CREATED_AT),
            2 | 3 => b.fixed[d.pick(&[0, 1, 31])] = d.pick(&[0, 0x80, 0xff]),
            4 => b.fixed[32 + d.below(96)] ^= 1,
            5 => b.kind = d.pick(&KINDS),
            6 => b.tags = d.pick(&empty_labels()),
            _ => {
                d.shuffle(&mut b.tags);
            }
        }
    }
    let (mut first, mut second) = (loose(d, &a), loose(d, &b));
    if d.percent(10) {
        spoil_bytes(d, &mut first);
    }
    if d.percent(10) {
        spoil_bytes(d, &mut second);
    }
    if d.percent(5) {
        second = with_padded(d, &b);
    }
    g.rivals(&first, &second);
}
