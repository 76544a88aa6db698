//! Hashes: messages cut anywhere, states that others wrote, and ids that belong to their events or just do not.

use crate::damage::spoil_bytes;
use crate::dice::Dice;
use crate::event::*;
use crate::notepack::*;
use crate::sha256::digest;
use crate::texts::*;
use crate::{hex, Requests};

/// No message has so many bytes.
const LIMIT: u64 = 1 << 61;

/// One message in pieces that end at these places; the last ends where it does.
fn whole(message: &[u8], cuts: &[usize]) -> String {
    let mut ends: Vec<usize> = cuts.iter().map(|&cut| cut.min(message.len())).collect();
    ends.sort_unstable();
    let mut at = 0;
    let mut line = String::from("sha256");
    for end in ends.into_iter().chain([message.len()]) {
        line += &format!(" {}", hex(&message[at..end]));
        at = end;
    }
    line
}

/// Mostly anything; also bytes that padding is made of, and that never change.
fn message(d: &mut Dice, length: usize) -> Vec<u8> {
    match d.below(8) {
        0 => vec![0; length],
        1 => vec![0x80; length],
        2 => vec![0xff; length],
        _ => d.bytes(length),
    }
}

fn any_cuts(d: &mut Dice, length: usize) -> Vec<usize> {
    let count = d.pick(&[1, 1, 2, 3, 5, 9]);
    (0..count).map(|_| d.below(length + 1)).collect()
}

/// As many bytes as fill a block, or nearly so, or two; few; none; many.
fn piece_len(d: &mut Dice) -> usize {
    match d.below(12) {
        0 | 1 => 0,
        2..=4 => 1 + d.below(10),
        5..=7 => d.pick(&[54, 55, 56, 57, 62, 63, 64, 65, 66, 119, 120, 127, 128, 129]),
        8..=10 => d.below(301),
        _ => d.below(5_000),
    }
}

fn add(d: &mut Dice, length: usize) -> String {
    format!("sha_add {}", hex(&message(d, length)))
}

/// Lengths that a state may claim: at the edges of a block, of 32 and 64 bits, and of what is allowed.
const CLAIMS: [u64; 26] = [
    0, 1, 55, 56, 63, 64, 65, 119, 120, 128, (1 << 29) - 1, 1 << 29, (1 << 32) - 1, 1 << 32, LIMIT - 129, LIMIT - 65,
    LIMIT - 64, LIMIT - 2, LIMIT - 1, LIMIT, LIMIT + 1, LIMIT + 64, 1 << 63, u64::MAX - 64, u64::MAX - 1, u64::MAX,
];

/// A state that somebody else wrote: of any length, or as long as one with a length so far that is allowed or not.
fn any_state(d: &mut Dice) -> Vec<u8> {
    let length = d.pick(&[0, 1, 32, 40, 103, 104, 104, 104, 104, 104, 104, 105, 168, 300]);
    let mut state = d.bytes(length);
    if length >= 40 {
        let claim = if d.percent(30) { d.pick(&CLAIMS) } else { d.next() >> d.below(64) };
        state[32..40].copy_from_slice(&claim.to_le_bytes());
    }
    state
}

fn load(state: &[u8]) -> String {
    format!("sha_load {}", hex(state))
}

/// What is asked of the state alone.
fn asked_of_state(d: &mut Dice) -> String {
    match d.below(8) {
        0..=2 => "sha_look".into(),
        3..=5 => format!("sha_finish_in {}", d.pick(&[0, 1, 31, 32, 33, 64, 1_000])),
        6 => load(&any_state(d)),
        _ => "sha_start".into(),
    }
}

/// A run of pieces, and digests now and then.
pub fn run(g: &mut Requests) -> Vec<String> {
    let states = g.has("sha_state");
    let d = &mut g.dice;
    let start = match d.below(if states { 6 } else { 4 }) {
        0 | 1 => "sha_new".into(),
        2 | 3 => format!("sha_set {}", d.pick(&CLAIMS)),
        _ => load(&any_state(d)),
    };
    let mut lines = vec![start];
    for _ in 0..d.pick(&[3, 8, 30]) {
        let length = piece_len(d);
        lines.push(match d.below(20) {
            0..=8 => add(d, length),
            9..=13 => "sha_finish".into(),
            14..=16 => {
                let (message, cuts) = (message(d, length), any_cuts(d, length));
                whole(&message, &cuts)
            }
            17 => format!("sha_set {}", d.pick(&CLAIMS)),
            18 => "sha_new".into(),
            _ if states => asked_of_state(d),
            _ => "sha_finish".into(),
        });
        if states && d.percent(20) {
            lines.push(asked_of_state(d));
        }
    }
    lines
}

pub fn boundaries(g: &mut Requests) {
    if g.has("sha") {
        lengths(g);
        long_messages(g);
        claims(g);
    }
    if g.has("sha_state") {
        states(g);
    }
    if g.has("id_belongs") {
        ids(g);
        long_texts(g);
        near_ids(g);
    }
}

/// Every length up to 300: in one piece, in two, by blocks, by single bytes, and with pieces that are empty.
fn lengths(g: &mut Requests) {
    for length in 0..=300 {
        let d = &mut g.dice;
        let m = message(d, length);
        let by = |step: usize| (0..length).step_by(step).collect::<Vec<_>>();
        let half = length / 2;
        let mut all = vec![vec![], vec![0], vec![length], vec![0, half, half, length], by(64), by(63), by(65)];
        all.extend((0..4).map(|_| any_cuts(d, length)));
        all.extend((0..2).map(|_| [any_cuts(d, length), any_cuts(d, length)].concat()));
        all.extend((length <= 130).then(|| by(1)));
        g.lines.extend(all.iter().map(|cuts| whole(&m, cuts)));
    }
}

/// Messages of many blocks; the standard's million of the letter a is among them.
fn long_messages(g: &mut Requests) {
    for length in [447, 448, 511, 512, 513, 1_000, 4_095, 4_096, 65_535, 65_536, 65_537, 200_000] {
        let m = message(&mut g.dice, length);
        let cuts = any_cuts(&mut g.dice, length);
        g.lines.extend([whole(&m, &[]), whole(&m, &cuts), whole(&m, &[1, length - 1])]);
    }
    g.lines.push(whole(&vec![b'a'; 1_000_000], &[333_333]));
}

fn group(g: &mut Requests, lines: Vec<String>) {
    g.lines.push(lines.join("\n"));
}

/// States that claim a length, and pieces that bring the message to the limit, or past it, or not quite there. A
/// refusal changes nothing: what is asked before and behind it has the same answer.
fn claims(g: &mut Requests) {
    for claim in CLAIMS {
        for length in [0, 1, 2, 63, 64, 65, 130] {
            let d = &mut g.dice;
            let mut lines = vec![format!("sha_set {claim}"), add(d, length), "sha_finish".into(), "sha_add -".into()];
            lines.extend(["sha_finish".into(), add(d, 1), "sha_finish".into(), "sha_finish".into()]);
            group(g, lines);
        }
    }
    // just below the limit, on it and past it, by every number of bytes that may wait
    for left in 1..=70 {
        for length in [left - 1, left, left + 1] {
            let d = &mut g.dice;
            let mut lines = vec![format!("sha_set {}", LIMIT - left as u64), "sha_finish".into(), add(d, length)];
            lines.extend(["sha_finish".into(), "sha_add -".into(), "sha_finish".into()]);
            group(g, lines);
        }
    }
    for length in [0, 1, 63, 64, 65, 300] {
        let d = &mut g.dice;
        let mut lines = vec!["sha_new".into(), "sha_finish".into()];
        for _ in 0..4 {
            lines.extend([add(d, length), "sha_finish".into(), "sha_finish".into()]);
        }
        group(g, lines);
    }
}

/// Any bytes as a state: every length around that of one, each number of waiting bytes with something behind them, and
/// too little room for the digest, which is asked last.
fn states(g: &mut Requests) {
    let asked = |d: &mut Dice, state: &[u8]| {
        let mut lines = vec![load(state), "sha_look".into()];
        lines.extend([0, 31, 32, 33].map(|room| format!("sha_finish_in {room}")));
        lines.extend(["sha_add -".into(), "sha_look".into(), add(d, 70), "sha_look".into(), "sha_finish".into()]);
        lines.extend(["sha_start".into(), "sha_look".into(), "sha_finish".into()]);
        lines
    };
    for length in [0, 1, 8, 31, 32, 39, 40, 41, 102, 103, 104, 105, 106, 208] {
        for byte in [0, 0xff, 0x1f] {
            let lines = asked(&mut g.dice, &vec![byte; length]);
            group(g, lines);
        }
    }
    for claim in CLAIMS.into_iter().chain(0..64) {
        let mut state = g.dice.bytes(104);
        state[32..40].copy_from_slice(&claim.to_le_bytes());
        let lines = asked(&mut g.dice, &state);
        group(g, lines);
    }
}

/// The event with the id of its canonical text.
fn with_true_id(e: &Event) -> Event {
    with_id(e, &digest(&canonical(e)))
}

fn with_id(e: &Event, id: &[u8]) -> Event {
    Event { fixed: [id, &e.fixed[32..]].concat(), ..e.clone() }
}

/// The event with something changed of which the id is taken.
fn forged(d: &mut Dice, e: &Event) -> Event {
    let mut e = e.clone();
    match d.below(6) {
        0 => e.fixed[32 + d.below(32)] ^= 1 << d.below(8),
        1 => e.created_at ^= 1,
        2 => e.kind ^= 1,
        3 => e.content.push(b'x'),
        4 => e.tags.push(vec![b"t".to_vec()]),
        _ => e.tags.reverse(),
    }
    e
}

fn ask(g: &mut Requests, packed: &[u8]) {
    g.line("id_belongs", packed, "");
}

/// True ids in every spelling; one bit off, wherever it is; the last byte another one; something else of the event
/// changed, which the signature may be.
fn ids(g: &mut Requests) {
    for e in [small(), carried(), vector(), mixed()] {
        let e = with_true_id(&e);
        let bytes = strict(&e);
        ask(g, &bytes);
        for _ in 0..6 {
            let spelled = loose(&mut g.dice, &e);
            ask(g, &spelled);
            let spelled = with_padded(&mut g.dice, &e);
            ask(g, &spelled);
        }
        let every_text = spelled(&packed_pieces(&e, |_| false), varint);
        ask(g, &every_text);
        for bit in (0..8 * bytes.len()).filter(|bit| *bit < 8 * 128 || bit % 7 == 0) {
            let mut changed = bytes.clone();
            changed[bit / 8] ^= 1 << (bit % 8);
            ask(g, &changed);
        }
        for last in 0..=255 {
            let mut changed = bytes.clone();
            changed[31] = last;
            ask(g, &changed);
        }
        for cut in 0..bytes.len() {
            ask(g, &bytes[..cut]);
        }
        for _ in 0..20 {
            let other = forged(&mut g.dice, &e);
            ask(g, &strict(&other));
            ask(g, &strict(&with_true_id(&other)));
        }
    }
}

/// Texts that end at each place in a block; the longest records, and those whose texts are two and three times as long.
fn long_texts(g: &mut Requests) {
    for length in 0..=140 {
        let e = with_true_id(&Event { content: vec![b'x'; length], ..small() });
        ask(g, &strict(&e));
    }
    for size in [65_535, 65_536, 65_537] {
        for filler in [b'x', b'"', b'\n', 1] {
            let content = size - strict(&small()).len() - 2;
            let e = with_true_id(&Event { content: vec![filler; content], ..small() });
            ask(g, &strict(&e));
            let mut changed = strict(&e);
            changed[31] ^= 1;
            ask(g, &changed);
        }
    }
    let raw = vec![vec![b"ab".repeat(100); 3]; 200];
    for tags in [vec![vec![vec![]; 255]; 253], vec![vec![b"ab".to_vec(); 255]; 125], raw, vec![vec![vec![]]; 1_000]] {
        let e = with_true_id(&Event { tags, ..small() });
        ask(g, &strict(&e));
        let spelled = loose(&mut g.dice, &e);
        ask(g, &spelled);
    }
}

/// Ids that are taken of something else: of the packed bytes, of the text without a byte or with one more, with white
/// space, in capitals, with other escapes; or that are the right one reversed or cut.
fn near_ids(g: &mut Requests) {
    let odd = Event { content: b"a/\x01\x7f\"\\\n\r\t\x08\x0c\xc3\xa9".to_vec(), ..mixed() };
    for e in [small(), carried(), vector(), mixed(), odd] {
        let text = canonical(&e);
        let replaced = |from: &[u8], to: &[u8]| {
            let mut out = Vec::new();
            let mut at = 0;
            while at < text.len() {
                let here = text[at..].starts_with(from);
                out.extend(if here { to } else { &text[at..at + 1] });
                at += if here { from.len() } else { 1 };
            }
            out
        };
        let others = [
            strict(&e),
            strict(&e)[32..].to_vec(),
            text[..text.len() - 1].to_vec(),
            text[1..].to_vec(),
            [&text[..], b"\n"].concat(),
            [&text[..], b"\0"].concat(),
            replaced(b",", b", "),
            replaced(b"\\n", b"\n"),
            replaced(b"/", b"\\/"),
            replaced(b"\x01", b"\\u0001"),
            replaced(b"\x7f", b"\\u007f"),
            replaced(b"\\t", b"\\u0009"),
            text.to_ascii_uppercase(),
        ];
        for other in others {
            ask(g, &strict(&with_id(&e, &digest(&other))));
        }
        let mut id = digest(&text);
        ask(g, &strict(&with_id(&e, &digest(&id))));
        id.reverse();
        ask(g, &strict(&with_id(&e, &id)));
        let half = with_true_id(&e).fixed[..31].iter().copied().chain([0]).collect::<Vec<_>>();
        ask(g, &strict(&with_id(&e, &half)));
    }
}

/// An event with its true id, mostly; in any spelling; damaged now and then.
pub fn random_id(d: &mut Dice, e: &Event) -> Vec<u8> {
    let mut e = with_true_id(e);
    match d.below(12) {
        0 => e.fixed[d.below(32)] ^= 1 << d.below(8),
        1 => e.fixed[31] = d.next() as u8,
        2 => e.fixed[64 + d.below(64)] ^= 1 << d.below(8),
        3 | 4 => e = forged(d, &e),
        _ => (),
    }
    match d.below(8) {
        0..=2 => strict(&e),
        3..=5 => loose(d, &e),
        6 => with_padded(d, &e),
        _ => {
            let mut bytes = loose(d, &e);
            spoil_bytes(d, &mut bytes);
            bytes
        }
    }
}
