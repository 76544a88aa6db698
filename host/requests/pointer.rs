//! Pointer forms, v0 and v1: as they should be, shared, overlapping, with gaps, and wrong in each word.

use crate::damage::spoil_bytes;
use crate::dice::Dice;
use crate::event::*;
use crate::notepack::*;
use crate::Requests;

/// Kinds whose input is a pointer form.
pub const POINTER: [&str; 4] = ["pointer_read", "pointer_tag", "pointer_element", "pointer_convert"];

/// What stands in front of the data, and behind it.
const FRONT: usize = 72;
const BEHIND: usize = 96;
const LIMIT: usize = 65_536;
/// The most that the data may have.
const DATA_MOST: usize = LIMIT - FRONT - BEHIND;

/// A pointer to so many bytes from this offset on.
fn pointer(offset: usize, length: usize) -> u64 {
    (offset as u64) << 32 | length as u64 & 0xffff_ffff
}

fn words(all: &[u64]) -> Vec<u8> {
    all.iter().flat_map(|word| word.to_le_bytes()).collect()
}

/// A pointer form in parts, so that each can be changed alone. The header is right for its length, and what `header`
/// has is changed in it.
#[derive(Clone)]
pub struct Laid {
    pub version: u64,
    pub header: u64,
    /// id, pubkey and sig
    pub fixed: Vec<u8>,
    pub kind: u64,
    pub time: u64,
    pub content: u64,
    pub tags: u64,
    pub data: Vec<u8>,
}

impl Laid {
    /// No content, no tags, this data.
    fn of(version: u64, data: Vec<u8>) -> Laid {
        let fixed = (0..128).collect();
        Laid { version, header: 0, fixed, kind: 1, time: 1_720_000_000_000, content: 0, tags: 0, data }
    }

    pub fn spelled(&self) -> Vec<u8> {
        let length = (FRONT + self.data.len()) as u64;
        let header = (length | self.version << 32) ^ self.header;
        let fields = words(&[self.kind, self.time, self.content, self.tags]);
        let (id, pubkey, sig) = (&self.fixed[..32], &self.fixed[32..64], &self.fixed[64..]);
        [&words(&[header]), pubkey, &fields, &self.data, id, sig].concat()
    }
}

/// How the pieces of an event are laid out.
#[derive(Clone, Copy, PartialEq)]
pub enum Style {
    /// as the writer does it
    Written,
    /// what is there already is not laid out again
    Shared,
    /// from the texts up to the tables, filled with anything, with gaps, and sometimes shared
    Loose,
}

pub const STYLES: [Style; 3] = [Style::Written, Style::Shared, Style::Loose];

fn filled(length: usize) -> usize {
    length.next_multiple_of(8)
}

/// The length of the v0 that is written of this event.
pub fn written_len(e: &Event) -> usize {
    let of_tag = |tag: &Vec<Vec<u8>>| 8 + 8 * tag.len() + tag.iter().map(|text| filled(text.len())).sum::<usize>();
    FRONT + filled(e.content.len()) + e.tags.iter().map(of_tag).sum::<usize>() + BEHIND
}

/// The same layout, from the top down.
fn written(e: &Event, version: u64) -> Laid {
    let mut laid = Laid { fixed: e.fixed.clone(), kind: e.kind, ..Laid::of(version, vec![]) };
    laid.time = e.created_at.wrapping_mul(1_000);
    let data = &mut laid.data;
    let add = |data: &mut Vec<u8>, piece: &[u8]| {
        let offset = data.len();
        data.extend(piece);
        data.resize(filled(data.len()), 0);
        pointer(offset, piece.len())
    };
    laid.content = add(data, &e.content);
    laid.tags = add(data, &vec![0; 8 * e.tags.len()]);
    for (i, tag) in e.tags.iter().enumerate() {
        let of_tag = add(data, &vec![0; 8 * tag.len()]);
        let at = (laid.tags >> 32) as usize + 8 * i;
        data[at..at + 8].copy_from_slice(&of_tag.to_le_bytes());
        for (j, text) in tag.iter().enumerate() {
            let of_text = add(data, text);
            let at = (of_tag >> 32) as usize + 8 * j;
            data[at..at + 8].copy_from_slice(&of_text.to_le_bytes());
        }
    }
    laid
}

/// Data that grows piece by piece.
struct Data<'a> {
    bytes: Vec<u8>,
    style: Style,
    dice: &'a mut Dice,
}

impl Data<'_> {
    /// A pointer to these bytes, wherever they are.
    fn add(&mut self, piece: &[u8]) -> u64 {
        let shared = self.style == Style::Shared || self.dice.percent(30);
        if shared && !piece.is_empty() && self.bytes.len() < 3_000 {
            let there = (0..self.bytes.len()).step_by(8).find(|&at| self.bytes[at..].starts_with(piece));
            if let Some(offset) = there {
                return pointer(offset, piece.len());
            }
        }
        let gap = if self.style == Style::Loose { self.dice.pick(&[0, 0, 0, 1, 8, 9]) } else { 0 };
        let to = filled(self.bytes.len() + gap);
        while self.bytes.len() < to {
            let filling = if self.style == Style::Loose { self.dice.next() as u8 } else { 0 };
            self.bytes.push(filling);
        }
        self.bytes.extend(piece);
        pointer(to, piece.len())
    }

    fn table(&mut self, pointers: &[u64]) -> u64 {
        self.add(&words(pointers))
    }
}

pub fn laid(d: &mut Dice, e: &Event, version: u64, style: Style) -> Laid {
    let plain = written(e, version);
    if style == Style::Written {
        return plain;
    }
    let mut data = Data { bytes: vec![], style, dice: d };
    let content = data.add(&e.content);
    let mut tags = vec![];
    for tag in &e.tags {
        let texts: Vec<u64> = tag.iter().map(|text| data.add(text)).collect();
        tags.push(data.table(&texts));
    }
    let tags = data.table(&tags);
    Laid { content, tags, data: data.bytes, ..plain }
}

/// Some tags, some texts, a text twice, an empty one; hex and other text; small.
fn sample() -> Event {
    let tags = vec![tag(&["d", "key"]), tag(&["e", "00ff00ff", ""]), tag(&["d", "key", "éé€😀 and more"])];
    Event { fixed: (0..128).collect(), created_at: 1_720_000_000, kind: 30_023, content: b"hello".to_vec(), tags }
}

pub fn boundaries(g: &mut Requests) {
    if !g.has("pointer_write") && g.wanted(&POINTER).is_empty() {
        return;
    }
    written_sizes(g);
    if g.wanted(&POINTER).is_empty() {
        return;
    }
    shapes(g);
    headers(g);
    lengths(g);
    numbers(g);
    every_word(g);
    counts(g);
    texts(g);
    ends(g);
    two_faults(g);
    sizes(g);
    worst(g);
}

fn ask(g: &mut Requests, laid: &Laid, e: &Event) {
    g.all(&POINTER, &laid.spelled(), e);
}

/// The same to one of the kinds, whichever.
fn ask_any(g: &mut Requests, laid: &Laid, e: &Event) {
    g.any(&POINTER, &laid.spelled(), e);
}

/// Events in each version and each style.
fn shapes(g: &mut Requests) {
    for e in [small(), carried(), vector(), mixed(), sample()] {
        for version in [0, 1] {
            for style in STYLES {
                let laid = laid(&mut g.dice, &e, version, style);
                ask(g, &laid, &e);
            }
        }
    }
}

/// Versions, each reserved bit, and lengths that are not the form's.
fn headers(g: &mut Requests) {
    for e in [small(), sample()] {
        for version in [0, 1, 2, 3, 128, 255, 256, 65_534, 65_535] {
            ask(g, &written(&e, version), &e);
        }
        for version in [0, 1] {
            let laid = written(&e, version);
            for bit in 0..64 {
                ask_any(g, &Laid { header: 1 << bit, ..laid.clone() }, &e);
            }
            let (length, version) = ((FRONT + laid.data.len()) as u64, version << 32);
            let near = [length - 8, length - 1, length + 1, length + 8, length + 96];
            for claim in [0, 1, 8, 71, 72, 73, u32::MAX as u64].into_iter().chain(near) {
                let header = (length | version) ^ (claim | version);
                ask_any(g, &Laid { header, ..laid.clone() }, &e);
            }
            // no length at all, everywhere the same
            for all in [0, u64::MAX, 0x0101_0101_0101_0101] {
                ask_any(g, &Laid { header: length | version ^ all, ..laid.clone() }, &e);
            }
        }
    }
}

/// Every length up to some more than the least, by a header that fits it, by one that does not, and by zeros alone; and
/// the lengths around the limit.
fn lengths(g: &mut Requests) {
    for version in [0u64, 1] {
        for length in 0..200usize {
            let mut bytes = vec![0; length];
            g.any(&POINTER, &bytes, &small());
            for claim in [length.saturating_sub(BEHIND), FRONT, length] {
                let header = words(&[claim as u64 | version << 32]);
                let there = length.min(8);
                bytes[..there].copy_from_slice(&header[..there]);
                g.any(&POINTER, &bytes, &small());
            }
        }
        for length in [LIMIT - 9, LIMIT - 8, LIMIT - 1, LIMIT, LIMIT + 1, LIMIT + 8, 2 * LIMIT] {
            let data = vec![b'x'; length - FRONT - BEHIND];
            let mut laid = Laid::of(version, data);
            ask(g, &laid, &small());
            laid.content = pointer(0, laid.data.len());
            let e = Event { content: laid.data.clone(), kind: 1, created_at: 1_720_000_000, ..small() };
            ask(g, &laid, &e);
            // a fault behind the header
            ask_any(g, &Laid { content: pointer(1, 1), ..laid.clone() }, &e);
            ask_any(g, &Laid { header: 1 << 48, ..laid.clone() }, &e);
        }
    }
}

const TIMES: [i64; 24] = [
    0, 1, 500, 999, 1_000, 1_001, 1_250, 1_999, 2_000, -1, -500, -999, -1_000, -1_001, -2_000, 4_294_967_296_000,
    4_294_967_296_001, i64::MIN, i64::MIN + 1, i64::MIN + 808, i64::MAX, i64::MAX - 807, i64::MAX - 806, i64::MAX - 808,
];

/// Times and kinds at their edges, in both versions.
fn numbers(g: &mut Requests) {
    for version in [0, 1] {
        let laid = written(&sample(), version);
        for time in TIMES {
            let e = Event { created_at: time as u64 / 1_000, ..sample() };
            ask(g, &Laid { time: time as u64, ..laid.clone() }, &e);
        }
        for kind in EDGES {
            ask(g, &Laid { kind, ..laid.clone() }, &Event { kind, ..sample() });
        }
        for second in [59, 60, 1_720_000_000] {
            for split in [1, 7, 8, 64, 125, 128, 500, 512, 999] {
                ask_any(g, &Laid { time: 1_000 * second + split, ..laid.clone() }, &sample());
            }
        }
    }
}

/// Each eight bytes of a form in turn: pointers of every edge of offset and length, and other numbers.
fn every_word(g: &mut Requests) {
    for version in [0, 1] {
        let good = written(&sample(), version).spelled();
        let size = good.len() - FRONT - BEHIND;
        let (far, last) = ([1 << 31, 0xffff_fff8, 0xffff_ffff], [size - 8, size - 1, size, size + 1, size + 8]);
        let offsets = [&[0, 1, 4, 7, 8, 9, 16, 24][..], &last, &far].concat();
        let mut edges: Vec<u64> = vec![u64::MAX, 1 << 63, (1 << 63) - 1, 1 << 48, 1 << 47, 0x0102_0304_0506_0708];
        edges.extend(offsets.iter().map(|&n| n as u64));
        for offset in offsets {
            let rest = size.saturating_sub(offset);
            let at_the_end = [rest.saturating_sub(8), rest.saturating_sub(1), rest, rest + 1, rest + 8];
            let lengths = [0, 1, 7, 8, 9, 16, 24, size, size + 1, 1 << 31, 0xffff_fff8, 0xffff_ffff];
            edges.extend(lengths.into_iter().chain(at_the_end).map(|length| pointer(offset, length)));
        }
        for at in (0..good.len()).step_by(8) {
            // bytes of pubkey, id and sig mean nothing; the words of the data are tables and texts
            let means = at < 8 || (40..good.len() - BEHIND).contains(&at);
            for &edge in edges.iter().step_by(if means { 1 } else { 23 }) {
                let mut changed = good.clone();
                changed[at..at + 8].copy_from_slice(&edge.to_le_bytes());
                g.any(&POINTER, &changed, &sample());
            }
        }
    }
}

/// So many tags that share one of so many texts, which share one.
fn shared(version: u64, tags: usize, texts: usize, text: &[u8]) -> (Laid, Event) {
    let (of_tags, of_texts) = (8 * tags, 8 * texts);
    let of_text = pointer(of_tags + of_texts, text.len());
    let mut data = words(&vec![pointer(of_tags, of_texts); tags]);
    data.extend(words(&vec![of_text; texts]));
    data.extend(text);
    let laid = Laid { tags: pointer(0, of_tags), ..Laid::of(version, data) };
    let (created_at, few) = (1_720_000_000, tags.min(1_100));
    // as an event it may be larger than memory is: where it is, only its counts are right
    let of_event = if tags * texts * (text.len() + 1) > 200_000 { &b""[..] } else { text };
    let e = Event { created_at, kind: 1, tags: vec![vec![of_event.to_vec(); texts]; few], ..small() };
    (laid, e)
}

/// Numbers of tags and of texts around their limits, none among them, and the most that a v1 can have.
fn counts(g: &mut Requests) {
    for version in [0, 1] {
        for tags in [0, 1, 2, 999, 1_000, 1_001, 1_002, 8_000] {
            for text in [&b""[..], b"x", b"ab"] {
                let (laid, e) = shared(version, tags, 1, text);
                ask(g, &laid, &e);
            }
        }
        for texts in [0, 1, 2, 254, 255, 256, 257, 8_000] {
            for tags in [1, 2] {
                let (laid, e) = shared(version, tags, texts, b"x");
                ask(g, &laid, &e);
            }
        }
        // a tag without texts behind one with some; more than 1,000 tags and more than 255 texts
        for (tags, texts) in [(1_000, 0), (1_001, 0), (1_000, 255), (1_001, 255), (1_000, 256), (1_001, 256)] {
            let (laid, e) = shared(version, tags, texts, b"x");
            ask(g, &laid, &e);
        }
        for (place, count) in [(1, 0), (1, 256), (2, 0), (0, 256)] {
            let mut tags = vec![pointer(24, 8); 3];
            tags[place] = pointer(24, 8 * count);
            let data = [words(&tags), words(&vec![pointer(0, 0); 256])].concat();
            ask(g, &Laid { tags: pointer(0, 24), ..Laid::of(version, data) }, &sample());
        }
    }
}

/// The lengths at which a sequence may be cut, its own among them.
fn cuts(text: &[u8]) -> impl Iterator<Item = usize> {
    0..=text.len()
}

/// Well-formed and ill-formed UTF-8 as content, as the first text and as the last; cut by the piece's end, and going on
/// behind it: in another piece, in the filling, or in the id.
fn texts(g: &mut Requests) {
    for (i, edge) in utf8_edges().into_iter().enumerate() {
        let before = g.dice.below(20);
        let text = [vec![b'x'; before], edge.clone(), vec![b'x'; g.dice.below(20)]].concat();
        let e = Event { content: text.clone(), ..sample() };
        let laid = written(&e, g.dice.below(8) as u64 / 7);
        ask_any(g, &laid, &e);
        let mut e = sample();
        let (tag, element) = if i % 2 == 0 { (0, 0) } else { (2, 2) };
        e.tags[tag][element] = text;
        let styled = self::laid(&mut g.dice, &e, 0, STYLES[i % 3]);
        ask_any(g, &styled, &e);
        if i % 6 == 0 {
            // the content's length ends somewhere in the sequence, which goes on behind it
            let cut = before + 1 + g.dice.below(edge.len());
            ask_any(g, &Laid { content: laid.content - laid.content % (1 << 32) + cut as u64, ..laid }, &e);
        }
    }
    let many = "aé€😀".as_bytes();
    for version in [0, 1] {
        for cut in cuts(many) {
            // at the data's end the id is what goes on
            let mut laid = Laid { content: pointer(0, cut), ..Laid::of(version, many.to_vec()) };
            let e = Event { content: many[..cut].to_vec(), created_at: 1_720_000_000, kind: 1, ..small() };
            ask(g, &laid, &e);
            laid.data.truncate(cut);
            laid.fixed[..many.len() - cut].copy_from_slice(&many[cut..]);
            ask(g, &laid, &e);
            // a text that starts in a sequence, or ends in one, of a longer one that is well-formed
            let long = "xyzé€😀é€😀é€😀".as_bytes();
            let data = [&words(&[pointer(8, 8), pointer(16, cut)])[..], long].concat();
            let e = Event { tags: vec![vec![data[16..16 + cut].to_vec()]], ..e };
            for start in [16, 24, 32, 40] {
                let mut laid = Laid { tags: pointer(0, 8), ..Laid::of(version, data.clone()) };
                laid.data[8..16].copy_from_slice(&pointer(start, cut).to_le_bytes());
                ask_any(g, &laid, &e);
                // the same where so much is shared that no text is looked at twice
                let texts = [vec![pointer(64, 50); 7], vec![pointer(start + 48, cut)]].concat();
                let data = [words(&texts), data[16..].to_vec(), vec![b'x'; 40]].concat();
                let mut laid = Laid { tags: pointer(0, 8), ..Laid::of(version, data) };
                laid.data.splice(0..0, words(&[pointer(8, 64)]));
                for at in (8..72).step_by(8) {
                    let old = u64::from_le_bytes(laid.data[at..at + 8].try_into().unwrap());
                    laid.data[at..at + 8].copy_from_slice(&(old + (8 << 32)).to_le_bytes());
                }
                ask_any(g, &laid, &e);
            }
        }
    }
}

/// Data of every length up to some, with empty pieces and others at its end.
fn ends(g: &mut Requests) {
    for version in [0, 1] {
        for size in 0..40 {
            let plain = Laid::of(version, vec![b'a'; size]);
            for offset in (0..=48).step_by(4) {
                for length in [0, 1, 8, size.saturating_sub(offset), size.saturating_sub(offset) + 1] {
                    let at = pointer(offset, length);
                    ask_any(g, &Laid { content: at, ..plain.clone() }, &small());
                    ask_any(g, &Laid { tags: at, ..plain.clone() }, &small());
                }
            }
        }
        // behind a tags table with one tag of one text, which stands at the end or beside it
        for odd in 0..8 {
            for (offset, length) in [(16, 0), (16, odd), (16, odd + 1), (24, 0), (8, 8), (8, 8 + odd), (0, 16 + odd)] {
                let data = [words(&[pointer(8, 8), pointer(offset, length)]), vec![b'z'; odd]].concat();
                let e = Event { tags: vec![vec![vec![b'z'; length]]], created_at: 1_720_000_000, kind: 1, ..small() };
                ask(g, &Laid { tags: pointer(0, 8), ..Laid::of(version, data) }, &e);
            }
        }
    }
}

/// Each two of the faults that a form can have, so that their order shows.
fn two_faults(g: &mut Requests) {
    let faults: [fn(&mut Laid); 14] = [
        |l| l.header = 1 << 50,
        |l| l.version = 1,
        |l| l.kind = 65_536,
        |l| l.time = -1_000i64 as u64,
        |l| l.time += 1,
        |l| l.content = pointer(4, 1),
        |l| l.data[0] = 0xff,
        |l| l.tags += 1,
        |l| l.tags = pointer(8, 8 * 1_001),
        // the first tag: its pointer, its counts, its first text's pointer and that text
        |l| l.data[8] = 9,
        |l| l.data[8] = 0,
        |l| l.data[32] = 0xff,
        |l| l.data[48] = 0xc0,
        |l| l.data.truncate(300),
    ];
    let mut good = written(&sample(), 0);
    // room for more than 1,000 tags, so that their number can be the only fault
    good.data.resize(8_100, 0);
    for (i, first) in faults.iter().enumerate() {
        for second in &faults[i..] {
            for cut in [true, false] {
                let mut laid = good.clone();
                if cut {
                    laid.data.truncate(400);
                }
                first(&mut laid);
                second(&mut laid);
                ask(g, &laid, &sample());
            }
        }
    }
}

/// What a text of so many such bytes takes in strict form.
fn strict_text_len(byte: u8, length: usize) -> usize {
    let halved = hexlike(&[byte, byte]) && length % 2 == 0;
    let payload = if halved { length / 2 } else { length };
    varint(2 * payload as u64).len() + payload
}

/// One text of this byte that tags share, so often that the strict form has this size. Of hex digits a text takes half.
fn of_strict_size(size: usize, byte: u8, content: usize, text: usize) -> (Laid, Event) {
    let data = vec![byte; 4_096];
    let mut e = Event { created_at: 1_720_000_000, kind: 1, content: vec![byte; content], ..small() };
    // tags of up to 100 texts, as long as there is room; then a tag with a text as long as what is missing, and with
    // empty ones where no length is just that
    let mut taken = strict(&e).len() + 10;
    let each = strict_text_len(byte, text);
    while taken + each + 1 < size {
        let texts = ((size - taken - 1) / each).min(100);
        e.tags.push(vec![vec![byte; text]; texts]);
        taken += 1 + texts * each;
    }
    e.tags.push(vec![]);
    let missing = size.checked_sub(strict(&e).len()).expect("room for one text more");
    let last = (0..=4_000).rev().find(|&length| strict_text_len(byte, length) <= missing).unwrap();
    e.tags.last_mut().unwrap().push(vec![byte; last]);
    for _ in strict_text_len(byte, last)..missing {
        e.tags.last_mut().unwrap().push(vec![]);
    }
    assert_eq!(strict(&e).len(), size);
    let mut laid = Laid { fixed: e.fixed.clone(), content: pointer(0, content), ..Laid::of(0, data) };
    let mut tags = vec![];
    for tag in &e.tags {
        tags.push(pointer(laid.data.len(), 8 * tag.len()));
        let texts: Vec<u64> = tag.iter().map(|text| pointer(0, text.len())).collect();
        laid.data.extend(words(&texts));
    }
    laid.tags = pointer(laid.data.len(), 8 * tags.len());
    laid.data.extend(words(&tags));
    (laid, e)
}

/// Strict forms of just as many bytes as there may be, one less and one more, by sharing and by a long content.
fn sizes(g: &mut Requests) {
    for size in [65_534, 65_535, 65_536, 65_537, 65_538] {
        for (byte, content, text) in
            [(b'x', 0, 3_000), (b'x', 4_000, 100), (b'a', 0, 2_000), (b'a', 4_096, 13), (b'0', 77, 600)]
        {
            let (laid, e) = of_strict_size(size, byte, content, text);
            ask(g, &laid, &e);
        }
    }
    // far over it
    for (tags, texts, text) in
        [(1, 255, 300), (3, 255, 100), (1_000, 255, 0), (1_000, 1, 8_000), (300, 255, 1), (258, 255, 0)]
    {
        let (laid, e) = shared(0, tags, texts, &vec![b'x'; text]);
        ask(g, &laid, &e);
        let (laid, e) = shared(0, tags, texts, &vec![b'f'; text]);
        ask(g, &laid, &e);
    }
}

/// As much shared as there can be: 1,000 tags of 255 texts of 55,000 bytes, which are 10^10 bytes together; and a v1
/// whose one table is the table of its tags and every tag. As they are, and with a fault at the very end.
fn worst(g: &mut Requests) {
    for byte in [b'x', b'a', 0xff] {
        let (laid, e) = shared(0, 1_000, 255, &vec![byte; 55_000]);
        ask(g, &laid, &e);
        let mut late = laid.clone();
        *late.data.last_mut().unwrap() = 0xe2;
        ask_any(g, &late, &e);
        // the last tag is another
        late = laid.clone();
        late.data[7_992..8_000].copy_from_slice(&pointer(8_000, 9).to_le_bytes());
        ask_any(g, &late, &e);
        late.data[7_992..8_000].copy_from_slice(&pointer(8_000, 0).to_le_bytes());
        ask_any(g, &late, &e);
        // the last text of all tags is another
        late = laid.clone();
        late.data[10_032..10_040].copy_from_slice(&pointer(10_040, 55_001).to_le_bytes());
        ask_any(g, &late, &e);
    }
    for version in [0, 1] {
        let all = pointer(0, DATA_MOST);
        let mut laid = Laid { tags: all, content: all, ..Laid::of(version, words(&[all; DATA_MOST / 8])) };
        ask(g, &laid, &sample());
        for (last, length) in [(0, DATA_MOST + 1), (8, DATA_MOST), (DATA_MOST, 0), (DATA_MOST, 8), (0, 7), (4, 8)] {
            laid.data[DATA_MOST - 8..].copy_from_slice(&pointer(last, length).to_le_bytes());
            ask_any(g, &laid, &sample());
            ask_any(g, &laid, &sample());
        }
        // 200 tags, each the same 200 texts, which start and end everywhere
        let mut data = words(&[pointer(1_600, 1_600); 200]);
        data.extend((0..200).flat_map(|i| pointer(3_200 + 8 * (i * 37 % 200), 13 * (i % 100)).to_le_bytes()));
        data.extend("aé€😀 0f1".repeat(200).bytes());
        ask(g, &Laid { tags: pointer(0, 1_600), ..Laid::of(version, data) }, &sample());
    }
}

/// What is written of events whose v0 has just as many bytes as there may be, eight less and eight more: by the
/// content, by texts, by raw texts, which it spells out, and by tags. Contents and texts of every length near a
/// multiple of 8.
fn written_sizes(g: &mut Requests) {
    let kinds = ["pointer_write"];
    let mut events = vec![];
    for length in (0..=24).chain(DATA_MOST - 16..=DATA_MOST + 9) {
        events.push(Event { content: vec![b'x'; length], ..small() });
    }
    for text in [b'x', b'a'] {
        for length in (0..=24).chain(DATA_MOST - 32..=DATA_MOST - 7) {
            events.push(Event { tags: vec![vec![vec![text; length]]], ..small() });
        }
        // 1,000 tags of up to eight short texts
        for texts in 1..=8 {
            events.push(Event { tags: vec![vec![vec![text; 1]; texts]; 1_000], ..small() });
        }
        // so many tags of one text of two bytes, and a content that is missing to the limit
        for missing in [0, 8, 16] {
            let mut e = Event { tags: vec![vec![vec![text; 2]]; 1_000], ..small() };
            e.content = vec![b'c'; LIMIT - written_len(&e) + 8 - missing];
            events.push(e);
        }
    }
    for e in events {
        for input in [strict(&e), loose(&mut g.dice, &e)] {
            g.all(&kinds, &input, &e);
        }
    }
    for e in [small(), carried(), vector(), mixed(), sample()] {
        let input = loose(&mut g.dice, &e);
        g.all(&kinds, &input, &e);
    }
}

/// Words that point at one another, at their table and at some bytes of text: whatever comes of that.
fn web(d: &mut Dice) -> Laid {
    let (count, tail) = (1 + d.below(30), d.below(24));
    let size = 8 * count + tail;
    let mut data = vec![];
    let loose = d.pick(&[0, 0, 0, 1, 4, 20]);
    for _ in 0..count {
        let any = any_pointer(d, size, loose);
        data.extend(any.to_le_bytes());
    }
    data.extend(random_text(d).into_iter().chain([b'a'; 24]).take(tail));
    let version = (d.percent(40)) as u64;
    let (content, tags) = (any_pointer(d, size, loose), any_pointer(d, size, loose));
    Laid { content, tags, ..Laid::of(version, data) }
}

/// A pointer into data of this size, most lengths divisible by 8; so many of a hundred are wrong.
fn any_pointer(d: &mut Dice, size: usize, wrong: usize) -> u64 {
    let offset = 8 * d.below(size / 8 + 1);
    let rest = size - offset;
    let length = match d.below(6) {
        0 => d.below(rest + 1),
        1 => rest,
        2 => 8.min(rest),
        _ => 8 * d.below(rest / 8 + 1),
    };
    if !d.percent(wrong) {
        return pointer(offset, length);
    }
    match d.below(5) {
        0 => pointer(offset + 1 + d.below(7), length),
        1 => pointer(offset, rest + 1 + d.below(9)),
        2 => pointer(size.next_multiple_of(8) + 8 * d.below(2), 0),
        3 => pointer(offset, d.next() as usize & 0xffff_ffff),
        _ => d.next(),
    }
}

/// One word of the form, or a field, is another.
fn spoil(d: &mut Dice, laid: &mut Laid) {
    let size = laid.data.len();
    match d.below(12) {
        0 => laid.header = 1 << d.below(64),
        1 => laid.version = d.pick(&[0, 1, 1, 2, 65_535]),
        2 => laid.kind = d.pick(&EDGES),
        3 => laid.time = d.pick(&TIMES) as u64,
        4 => laid.content = any_pointer(d, size, 50),
        5 => laid.tags = any_pointer(d, size, 50),
        6 | 7 if size > 0 => {
            let place = d.below(size);
            laid.data[place] = d.pick(&[0, 1, 7, 8, 9, 16, 0x7f, 0x80, 0xbf, 0xc0, 0xff]);
        }
        8 => {
            let length = d.below(size + 1);
            laid.data.truncate(length);
        }
        9 => laid.data.extend(d.bytes(1 + size % 9)),
        _ if size >= 8 => {
            let at = 8 * d.below(size / 8);
            let any = any_pointer(d, size, 30);
            laid.data[at..at + 8].copy_from_slice(&any.to_le_bytes());
        }
        _ => laid.time += d.pick(&[1, 8, 250, 500, 999]),
    }
}

/// Tags that share few texts, and texts that share few bytes: characters of every length, and hex, in rows of eight
/// bytes. Most texts end between two characters.
fn crowd(d: &mut Dice) -> Laid {
    const ROWS: [&str; 9] =
        ["éé€a", "😀😀", "€€é", "a😀€", "00ff00ff", "abcdef01", "0123456g", "text, so", "é0fé0fé"];
    let rows = 1 + d.below(12);
    let mut area: Vec<u8> = (0..rows).flat_map(|_| d.pick(&ROWS).as_bytes()[..8].to_vec()).collect();
    if d.percent(20) {
        let place = d.below(area.len());
        area[place] = d.pick(&[0x80, 0xbf, 0xc3, 0xe2, 0xf0, 0xff, b'G']);
    }
    let (tags, texts) = (1 + d.below(12), 1 + d.below(12));
    let area_at = 8 * (tags + texts);
    let size = area_at + area.len();
    let mut any_text = || {
        let offset = 8 * d.below(rows + 1);
        let mut length = d.below(area.len() - offset + 1);
        while d.percent(97) && area.get(offset + length).is_some_and(|b| b & 0xc0 == 0x80) {
            length += 1;
        }
        pointer(area_at + offset, length)
    };
    let content = any_text();
    let table: Vec<u64> = (0..texts).map(|_| any_text()).collect();
    let mut tag = || {
        let first = d.below(texts);
        pointer(8 * (tags + first), 8 * (1 + d.below(texts - first)))
    };
    let mut data = words(&(0..tags).map(|_| tag()).collect::<Vec<_>>());
    data.extend(words(&table));
    data.extend(area);
    assert_eq!(data.len(), size);
    Laid { content, tags: pointer(0, 8 * tags), ..Laid::of(d.percent(15) as u64, data) }
}

/// A form of this event, or of none, with up to three things wrong in it.
pub fn random_form(d: &mut Dice, e: &Event) -> Vec<u8> {
    match d.below(10) {
        0 | 1 => return web(d).spelled(),
        2 | 3 => return crowd(d).spelled(),
        _ => {}
    }
    let (version, style) = (d.percent(25) as u64, d.pick(&STYLES));
    let mut laid = laid(d, e, version, style);
    let spoils = d.pick(&[0, 0, 0, 1, 1, 1, 2, 3]);
    for _ in 0..spoils {
        spoil(d, &mut laid);
    }
    let mut bytes = laid.spelled();
    if d.percent(10) {
        spoil_bytes(d, &mut bytes);
    }
    bytes
}

/// A sample of each version and style, for damage at every place.
pub fn samples(d: &mut Dice) -> Vec<(Vec<u8>, Event)> {
    let mut all = vec![];
    for e in [sample(), carried()] {
        for version in [0, 0, 1] {
            for style in STYLES {
                all.push((laid(d, &e, version, style).spelled(), e.clone()));
            }
        }
    }
    all
}

/// What stands behind a request about one tag: numbers of tags that are there, and that are not.
pub fn tags_asked(e: &Event) -> [u64; 6] {
    let tags = e.tags.len() as u64;
    [0, tags.saturating_sub(1), tags, tags + 1, 1 << 32, u64::MAX]
}
