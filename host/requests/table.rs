//! Tables of records: runs of offers, tables that were filled by somebody else, and looks at all their slots.

use crate::damage::spoil_bytes;
use crate::dice::Dice;
use crate::event::*;
use crate::notepack::*;
use crate::versioned::Form;
use crate::{hex, Requests};

pub const SLOTS: usize = 64;
const CELL: usize = 1_024;

/// Kinds of every group and at its edges: with a key of author and kind, with a label, never kept, and the others.
const KINDS_KEPT: [u64; 14] = [0, 3, 10_000, 19_999, 30_000, 30_001, 39_999, 1, 2, 4, 9_999, 40_000, 65_535, 30_023];
const KINDS_PASSING: [u64; 3] = [20_000, 25_000, 29_999];

/// What the events of a run are made of. The fewer there are of each, the more events meet.
struct World {
    pubkeys: usize,
    ids: usize,
    kinds: Vec<u64>,
    times: Vec<u64>,
    labels: usize,
    contents: Vec<Vec<u8>>,
}

impl World {
    fn random(d: &mut Dice) -> World {
        let kinds = match d.below(4) {
            0 => vec![d.pick(&KINDS_KEPT), d.pick(&KINDS_KEPT)],
            1 => vec![30_000 + d.below(10_000) as u64],
            _ => KINDS_KEPT.iter().chain(&KINDS_PASSING).copied().collect(),
        };
        let first = d.pick(&[0, 126, 16_382, 1_700_000_000, MAX_CREATED_AT - 3]);
        World {
            pubkeys: d.pick(&[1, 2, 3, 64]),
            ids: d.pick(&[2, 5, 20, 1_000]),
            kinds,
            times: (first..first + d.pick(&[1, 2, 4])).collect(),
            labels: d.pick(&[1, 3, 30, 200]),
            contents: (0..d.pick(&[1, 3])).map(|_| random_text(d)).collect(),
        }
    }

    fn event(&self, d: &mut Dice) -> Event {
        let label = d.below(self.labels);
        Event {
            fixed: [spread(d.below(self.ids)), spread(d.below(self.pubkeys)), vec![d.below(2) as u8; 64]].concat(),
            created_at: d.pick(&self.times),
            kind: d.pick(&self.kinds),
            content: d.pick(&self.contents),
            tags: tags_with(d, label),
        }
    }
}

/// 32 bytes for a small number: those that differ do so in the first, in the last or in two bytes.
fn spread(n: usize) -> Vec<u8> {
    let mut bytes = vec![0x80; 32];
    bytes[[31, 0, 17][n % 3]] = (n / 3 * 3) as u8;
    bytes[30] = (n >> 8) as u8;
    bytes
}

/// Few tags, mostly one with a label, in the shapes that give an event a label, another one or the empty one.
fn tags_with(d: &mut Dice, label: usize) -> Vec<Vec<Vec<u8>>> {
    let d_tag = vec![b"d".to_vec(), label_of(label)];
    let other = vec![d.pick(&[&b"e"[..], b"", b"dd", b"D", b"64"]).to_vec(), b"d".to_vec(), b"beef".to_vec()];
    match d.below(16) {
        0 => vec![],
        1 => vec![tag(&["d"]), d_tag],
        2 => vec![other],
        3 => vec![other, d_tag],
        4 => vec![d_tag, tag(&["d", "second"])],
        5 => vec![[d_tag, vec![b"more".to_vec()]].concat()],
        6 => vec![tag(&["d"])],
        7 => vec![tag(&["d", ""])],
        8 => vec![d_tag, tag(&["d"])],
        _ => vec![d_tag],
    }
}

/// Labels that are easily taken for each other: raw bytes and their text, capitals, beginnings, and long ones.
fn label_of(n: usize) -> Vec<u8> {
    const SOME: [&[u8]; 12] = [
        b"ab", b"", b"AB", b"a", b"abc", b"abcd", b"00", b"0", b"d", b"6162", "ключ".as_bytes(), b"abcdef0123456789",
    ];
    match SOME.get(n) {
        Some(label) => label.to_vec(),
        None if n % 3 == 0 => hex_text(format!("{n}").as_bytes()),
        None if n % 3 == 1 => [&b"x".repeat(200)[..], format!("{n}").as_bytes()].concat(),
        None => format!("map {n}").into_bytes(),
    }
}

/// The event with a content that brings its strict form to this length, if that can be.
pub fn of_length(mut e: Event, length: usize) -> Event {
    e.content.clear();
    for _ in 0..3 {
        let now = strict(&e).len();
        let content = (e.content.len() + length).saturating_sub(now);
        e.content = vec![b'x'; content];
    }
    e
}

/// One thing about an event changed, the rest as it was.
fn near(d: &mut Dice, e: &Event) -> Event {
    let mut e = e.clone();
    match d.below(8) {
        0 => e.created_at = (e.created_at + d.below(3) as u64).saturating_sub(1).min(MAX_CREATED_AT),
        1 | 2 => e.fixed[d.pick(&[0, 17, 31])] ^= d.pick(&[1, 0x80]),
        3 => e.fixed[d.pick(&[32, 63])] ^= 1,
        4 => e.fixed[d.pick(&[64, 127])] ^= 1,
        5 => e.content = b"another".to_vec(),
        6 => e.tags.push(vec![b"t".to_vec(), b"more".to_vec()]),
        _ => e.kind = d.pick(&KINDS_KEPT),
    }
    e
}

/// An event as it is offered: strict, loose, or about as long as a cell; now and then padded or wrong.
fn spelling(d: &mut Dice, e: &Event) -> Vec<u8> {
    match d.below(20) {
        0..=9 => strict(e),
        10..=13 => loose(d, e),
        14 => with_padded(d, e),
        15 => {
            let length = d.pick(&[1_023, 1_024, 1_025, 1_026, 2_000]);
            let e = of_length(e.clone(), length);
            if d.percent(50) { strict(&e) } else { loose(d, &e) }
        }
        16 => {
            // as text it passes the cell, as raw bytes it does not
            let mut e = e.clone();
            e.tags.push(vec![b"x".to_vec(), b"ab".repeat(350 + d.below(100))]);
            spelled(&packed_pieces(&e, |_| false), varint)
        }
        17 => strict(&Event { kind: d.pick(&KINDS_PASSING), ..e.clone() }),
        _ => {
            let mut bytes = loose(d, e);
            spoil_bytes(d, &mut bytes);
            bytes
        }
    }
}

fn offer(bare: &[u8]) -> String {
    format!("table_offer {}", Form::Bare.said(bare))
}

/// Some of the offers in the versioned form.
fn in_either_form(d: &mut Dice, lines: Vec<String>) -> Vec<String> {
    let versioned = |bare: &str| format!("table_offer v:01{}", bare.trim_start_matches('-'));
    let changed = |line: String| match line.strip_prefix("table_offer b:") {
        Some(bare) if d.percent(35) => versioned(bare),
        _ => line,
    };
    lines.into_iter().map(changed).collect()
}

/// A look at every slot.
pub fn look(lines: &mut Vec<String>, slots: usize) {
    lines.extend((0..slots).map(|n| format!("table_look {n}")));
}

/// The entry's own view of a slot, if it is asked for.
fn view(g: &mut Requests, lines: &mut Vec<String>) {
    if g.has("table_slot") {
        let any = g.dice.below(SLOTS) as u64;
        let n = g.dice.pick(&[any, any, any, 0, 63, 64, 1 << 32, u64::MAX]);
        lines.push(format!("table_slot {n}"));
    }
}

/// A run of offers. All slots are looked at after every offer, or now and then.
pub fn run(g: &mut Requests) -> Vec<String> {
    let loaded = g.dice.percent(60);
    let mut lines = vec![if loaded { any_table(&mut g.dice) } else { "table_new".into() }];
    look(&mut lines, SLOTS);
    let world = World::random(&mut g.dice);
    let (offers, looks) = if loaded { (8, 30) } else { g.dice.pick(&[(40, 100), (150, 5), (400, 1)]) };
    let mut seen: Vec<Event> = vec![];
    for _ in 0..offers {
        let e = next_event(&mut g.dice, &world, &seen);
        let bytes = spelling(&mut g.dice, &e);
        lines.push(offer(&bytes));
        seen.push(e);
        if g.dice.percent(5) {
            view(g, &mut lines);
        }
        if g.dice.percent(looks) {
            look(&mut lines, SLOTS);
        }
        if g.dice.percent(1) {
            lines.push("table_empty".into());
        }
    }
    look(&mut lines, SLOTS);
    in_either_form(&mut g.dice, lines)
}

/// A new one, one that was offered before, or one near to that.
fn next_event(d: &mut Dice, world: &World, seen: &[Event]) -> Event {
    match d.below(10) {
        0 | 1 if !seen.is_empty() => d.pick(seen),
        2 | 3 if !seen.is_empty() => {
            let before = d.pick(seen);
            near(d, &before)
        }
        _ => world.event(d),
    }
}

/// One slot of a table that is loaded.
#[derive(Clone)]
struct Slot {
    used: bool,
    length: u64,
    cell: Vec<u8>,
}

impl Slot {
    fn of(packed: Vec<u8>) -> Slot {
        Slot { used: true, length: packed.len() as u64, cell: packed }
    }
}

/// A table of 64 slots, unless `slots` is another number; `None` is a free slot full of zeros.
fn load(slots: usize, all: &[Option<Slot>]) -> String {
    let words = all.iter().enumerate().filter_map(|(n, slot)| {
        let slot = slot.as_ref()?;
        let cell = &slot.cell[..slot.cell.len().min(CELL)];
        Some(format!(" {}{n}:{}:{}", if slot.used { "" } else { "~" }, slot.length, hex(cell)))
    });
    format!("table_load {slots}{}", words.collect::<String>())
}

/// Events that have 64 different names: number n differs from the others in its author, its label or its id.
fn different(n: usize) -> Event {
    let named = |author: u8, kind: u64| Event {
        fixed: [vec![0x40 + n as u8; 32], vec![author; 32], vec![7; 64]].concat(),
        created_at: 1_700_000_000,
        kind,
        content: b"a record".to_vec(),
        tags: vec![vec![b"d".to_vec(), label_of(n)]],
    };
    match n % 4 {
        0 => named(n as u8, KINDS_KEPT[n / 4 % 4]),
        1 => named(1, 30_000),
        2 => named(1, 39_999),
        _ => named(1, 1),
    }
}

/// So many used slots with different names, the rest free.
fn good_table(d: &mut Dice, used: usize) -> Vec<Option<Slot>> {
    let mut all: Vec<Option<Slot>> = (0..SLOTS).map(|n| (n < used).then(|| Slot::of(strict(&different(n))))).collect();
    d.shuffle(&mut all);
    all
}

/// What can be wrong with a slot by itself, and what can't: the last three are good, or free.
const FAULTS: usize = 17;

fn faulty(d: &mut Dice, fault: usize, e: &Event) -> Slot {
    let good = Slot::of(strict(e));
    match fault {
        0 => Slot { length: 0, ..good },
        1 => Slot { length: good.length - 1, ..good },
        2 => Slot { length: good.length + 1, ..good },
        3 => Slot { length: d.pick(&[1_025, 2_048, 65_536, 1 << 63, u64::MAX]), ..good },
        4 => Slot { length: good.length + d.pick(&[1 << 8, 1 << 16, 1 << 32, 1 << 63]), ..good },
        5 => Slot::of(strict(&Event { kind: d.pick(&KINDS_PASSING), ..e.clone() })),
        6 => Slot::of(spelled(&packed_pieces(e, |text| !text.is_empty()), |n| padded(n, 2))),
        7 => Slot::of(spelled(&packed_pieces(&with_hex(e), |_| false), varint)),
        8 => Slot::of(spelled(&packed_pieces(&Event { tags: vec![vec![vec![]]], ..e.clone() }, |_| true), varint)),
        9 => {
            let mut cell = good.cell;
            spoil_bytes(d, &mut cell);
            Slot::of(cell)
        }
        10 => Slot { cell: vec![], ..good },
        11 => Slot { length: 1_024, ..good },
        12 => Slot::of(strict(&of_length(e.clone(), 1_025))),
        13 => Slot { length: d.pick(&[1_025, 2_048]), cell: strict(&of_length(e.clone(), 1_024)), ..good },
        14 => Slot::of(strict(&of_length(e.clone(), 1_024))),
        15 => Slot { cell: [good.cell, vec![0xee; 40]].concat(), ..good },
        _ => Slot { used: false, length: d.pick(&[0, good.length, u64::MAX]), cell: good.cell },
    }
}

/// With a text that goes raw in the strict form.
fn with_hex(e: &Event) -> Event {
    let mut e = e.clone();
    e.tags.push(vec![b"x".to_vec(), b"beef".to_vec()]);
    e
}

/// An event with the same name as this one, and one thing or nothing else about it different; or with another name.
fn twin(d: &mut Dice, e: &Event) -> Event {
    let mut twin = e.clone();
    if e.tags == [tag(&["d", ""])] && d.percent(50) {
        twin.tags = d.pick(&empty_labels());
    }
    match d.below(6) {
        0 => twin.created_at += 1,
        1 => twin.fixed[0] ^= 1,
        2 => twin.fixed[100] ^= 1,
        3 => twin.content = b"another".to_vec(),
        4 => return near(d, e),
        _ => (),
    }
    twin
}

/// Any table: mostly good or with one to three things wrong.
fn any_table(d: &mut Dice) -> String {
    let used = d.pick(&[0, 1, 10, 40, 63, 64, 64]);
    let mut all = good_table(d, used);
    for _ in 0..d.pick(&[0, 0, 0, 1, 1, 2, 3]) {
        let (n, m, k) = (d.below(SLOTS), d.below(SLOTS), d.below(SLOTS));
        if d.percent(50) {
            let (e, fault) = (different(k), d.below(FAULTS));
            all[n] = Some(faulty(d, fault, &e));
        } else {
            let e = different(k);
            all[n] = Some(Slot::of(strict(&e)));
            let e = twin(d, &e);
            let fault = d.below(FAULTS);
            all[m] = Some(if d.percent(60) { Slot::of(strict(&e)) } else { faulty(d, fault, &e) });
        }
    }
    load(SLOTS, &all)
}

/// Each of these is a group: its lines belong together.
pub fn boundaries(g: &mut Requests) {
    sizes(g);
    every_fault(g);
    twins(g);
    full(g);
    pairs(g);
    in_the_cell(g);
}

fn group(g: &mut Requests, lines: Vec<String>) {
    let lines = in_either_form(&mut g.dice, lines);
    g.lines.push(lines.join("\n"));
}

/// What is asked of a table: a view, an event that is refused, one that is not kept, one that is; then all slots, or
/// some; then it is emptied.
fn asked(g: &mut Requests, table: String) {
    let mut lines = vec![table];
    view(g, &mut lines);
    let kinds = [20_000, 1];
    lines.push(offer(b""));
    lines.extend(kinds.map(|kind| offer(&strict(&Event { kind, ..carried() }))));
    if g.dice.percent(20) {
        look(&mut lines, SLOTS + 1);
    } else {
        lines.extend([0, 1, 31, 62, 63, 64].map(|n| format!("table_look {n}")));
    }
    lines.extend(["table_empty".into(), "table_look 0".into(), "table_look 63".into()]);
    group(g, lines);
}

/// Tables of other sizes, empty and with something in them.
fn sizes(g: &mut Requests) {
    for slots in [0, 1, 63, 64, 65, 128] {
        asked(g, load(slots, &[]));
        let one = vec![Some(Slot::of(strict(&carried()))); slots.min(1)];
        asked(g, load(slots, &one));
    }
}

/// Each fault in a slot of a full table, an empty one and one with another fault further up or down.
fn every_fault(g: &mut Requests) {
    for fault in 0..FAULTS {
        for n in [0, 1, 31, 62, 63] {
            let e = different(n);
            let bad = faulty(&mut g.dice, fault, &e);
            let mut alone = vec![None; SLOTS];
            alone[n] = Some(bad.clone());
            asked(g, load(SLOTS, &alone));
            let mut full: Vec<Option<Slot>> = (0..SLOTS).map(|n| Some(Slot::of(strict(&different(n))))).collect();
            full[n] = Some(bad);
            asked(g, load(SLOTS, &full));
            let m = g.dice.below(SLOTS);
            let other = g.dice.below(FAULTS);
            full[m] = Some(faulty(&mut g.dice, other, &different(m)));
            asked(g, load(SLOTS, &full));
        }
    }
}

/// Two of one name, of every kind, at different places; the second may be bad by itself, or free.
fn twins(g: &mut Requests) {
    for kind in KINDS_KEPT {
        for (n, m) in [(0, 1), (0, 63), (62, 63), (31, 32), (63, 0)] {
            let e = Event { kind, ..different(n) };
            let mut all: Vec<Option<Slot>> = vec![None; SLOTS];
            let other = twin(&mut g.dice, &e);
            all[n] = Some(Slot::of(strict(&e)));
            all[m] = Some(Slot::of(strict(&other)));
            asked(g, load(SLOTS, &all));
            let fault = g.dice.below(FAULTS);
            all[m] = Some(faulty(&mut g.dice, fault, &other));
            asked(g, load(SLOTS, &all));
        }
    }
    // three of one name; one id with a key and without, then twice without; a missing label beside an empty one
    let e = different(1);
    let mut all: Vec<Option<Slot>> = vec![None; SLOTS];
    for n in [5, 6, 40] {
        all[n] = Some(Slot::of(strict(&e)));
    }
    asked(g, load(SLOTS, &all));
    all[5] = Some(Slot::of(strict(&Event { kind: 1, ..e.clone() })));
    all[6] = Some(Slot::of(strict(&Event { kind: 0, ..e.clone() })));
    asked(g, load(SLOTS, &all));
    all[7] = Some(Slot::of(strict(&Event { kind: 2, ..e.clone() })));
    asked(g, load(SLOTS, &all));
    all[7] = None;
    all[5] = Some(Slot::of(strict(&Event { kind: 30_000, tags: vec![], ..e.clone() })));
    asked(g, load(SLOTS, &all));
    // as a table was filled while events without a label had no key: two editions of one, each under its id
    for (n, first) in empty_labels().into_iter().enumerate() {
        for (m, second) in [empty_labels(), labels()].concat().into_iter().enumerate() {
            let mut all: Vec<Option<Slot>> = vec![None; SLOTS];
            let mut e = Event { kind: 30_000, tags: first.clone(), ..different(1) };
            all[n] = Some(Slot::of(strict(&e)));
            e.fixed[0] ^= 1;
            all[20 + m] = Some(Slot::of(strict(&Event { tags: second, ..e })));
            asked(g, load(SLOTS, &all));
        }
    }
}

/// A full table: what replaces, loses, is held, is not kept, has no slot, is too long, is refused.
fn full(g: &mut Requests) {
    let all: Vec<Option<Slot>> = (0..SLOTS).map(|n| Some(Slot::of(strict(&different(n))))).collect();
    for n in 0..SLOTS {
        let e = different(n);
        let mut lines = vec![load(SLOTS, &all)];
        let later = Event { created_at: e.created_at + 1, ..e.clone() };
        let mut lower = e.clone();
        lower.fixed[31] -= 1;
        let earlier = Event { created_at: e.created_at - 1, ..e.clone() };
        let new = Event { kind: 2, fixed: vec![n as u8; 128], ..e.clone() };
        let passing = Event { kind: 20_000, ..e.clone() };
        let long = [of_length(later.clone(), 1_025), of_length(new.clone(), 1_025)];
        for e in [&earlier, &e, &new, &passing, &lower, &later].into_iter().chain(&long) {
            lines.push(offer(&strict(e)));
            lines.push(offer(&loose(&mut g.dice, e)));
            lines.push(format!("table_look {n}"));
        }
        lines.push(offer(&strict(&of_length(passing, 1_025))));
        let cut = strict(&e);
        lines.push(offer(&cut[..cut.len() - 1]));
        lines.push(offer(&with_padded(&mut g.dice, &later)));
        look(&mut lines, SLOTS);
        view(g, &mut lines);
        group(g, lines);
    }
    // one slot is free, that one gets the newcomer, and the next has none
    for free in [0, 1, 31, 63] {
        let mut all = all.clone();
        all[free] = g.dice.percent(50).then(|| Slot { used: false, length: 9, cell: vec![0xdd; 1_024] });
        let mut lines = vec![load(SLOTS, &all)];
        for id in 0..2 {
            lines.push(offer(&strict(&Event { kind: 1, fixed: vec![id; 128], ..small() })));
            look(&mut lines, SLOTS);
        }
        group(g, lines);
    }
}

/// Two events offered one after the other, both ways: shapes of tags, kinds, times and ids.
fn pairs(g: &mut Requests) {
    let shapes = [empty_labels(), labels()].concat();
    for a in &shapes {
        for b in &shapes {
            for id in [0, 1] {
                let first = Event { kind: 30_000, tags: a.clone(), ..vector() };
                let mut second = Event { kind: 30_000, tags: b.clone(), ..vector() };
                second.fixed[31] = id;
                both_ways(g, &first, &second);
            }
        }
    }
    for kind in KINDS_KEPT.iter().chain(&KINDS_PASSING).copied() {
        let e = Event { kind, tags: labels()[0].clone(), fixed: vec![0x80; 128], ..vector() };
        for (place, step) in [(0, 0), (0, 1), (31, -1), (32, 1), (63, -1), (64, 1), (127, -1)] {
            for time in [-1, 0, 1] {
                let mut other = e.clone();
                other.created_at = other.created_at.wrapping_add_signed(time);
                other.fixed[place] = other.fixed[place].wrapping_add_signed(step);
                both_ways(g, &e, &other);
            }
        }
        both_ways(g, &e, &Event { kind: kind ^ 1, ..e.clone() });
        both_ways(g, &e, &Event { content: b"another".to_vec(), ..e.clone() });
    }
}

fn both_ways(g: &mut Requests, a: &Event, b: &Event) {
    for (a, b) in [(a, b), (b, a)] {
        let loose = loose(&mut g.dice, b);
        let mut lines = vec!["table_new".into(), offer(&strict(a)), offer(&loose)];
        look(&mut lines, 3);
        lines.push(offer(&strict(a)));
        look(&mut lines, 3);
        group(g, lines);
    }
}

/// A shorter event over a longer one and the other way round; lengths about a cell's.
fn in_the_cell(g: &mut Requests) {
    for kind in [0, 30_000, 1] {
        let mut lines = vec!["table_new".into()];
        for (time, length) in [140, 1_024, 200, 1_023, 1_025, 141, 300].into_iter().enumerate() {
            let tags = vec![vec![b"d".to_vec(), b"map".to_vec()]];
            let e = Event { kind, created_at: time as u64, tags, ..vector() };
            lines.push(offer(&strict(&of_length(e, length))));
            look(&mut lines, 4);
        }
        lines.push("table_empty".into());
        look(&mut lines, 4);
        group(g, lines);
    }
    for size in [65_535, 65_536, 65_537] {
        for kind in [1, 20_000] {
            let e = of_length(Event { kind, ..small() }, size);
            group(g, vec!["table_new".into(), offer(&strict(&e)), "table_look 0".into()]);
        }
    }
}
