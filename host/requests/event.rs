//! Events: samples, random ones, and the numbers and bytes where something changes.

use crate::dice::Dice;
use crate::notepack::hex_text;

#[derive(Clone, Default)]
pub struct Event {
    /// id, pubkey and sig
    pub fixed: Vec<u8>,
    pub created_at: u64,
    pub kind: u64,
    pub content: Vec<u8>,
    pub tags: Vec<Vec<Vec<u8>>>,
}

pub fn small() -> Event {
    Event { fixed: vec![0; 128], ..Event::default() }
}

/// One that NSON can carry.
pub fn carried() -> Event {
    Event { created_at: 1_000_000_000, kind: 1, content: b"a\"b".to_vec(), ..small() }
}

/// The vector of the notepack draft's section 9.1.
pub fn vector() -> Event {
    Event {
        fixed: [[0; 32], [0x11; 32], [0x22; 32], [0x22; 32]].concat(),
        created_at: 1_720_000_000,
        content: b"hello".to_vec(),
        tags: vec![
            vec![b"e".to_vec(), hex_text(&[0xaa; 32]), b"wss://relay.example.com".to_vec()],
            vec![b"p".to_vec(), hex_text(&[0xbb; 32])],
        ],
        ..small()
    }
}

/// Something of everything.
pub fn mixed() -> Event {
    Event {
        fixed: (0..128).collect(),
        created_at: 1_683_762_317,
        kind: 30_023,
        content: "a \"b\" \\ c\n\u{7f}\u{80}é€😀 d".as_bytes().to_vec(),
        tags: vec![
            vec![b"d".to_vec(), "ключ".as_bytes().to_vec()],
            vec![b"ab".to_vec(), b"AB".to_vec(), b"abc".to_vec(), b"".to_vec(), b"\"\\\n".to_vec()],
            vec![b"".to_vec()],
        ],
    }
}

pub fn tag(texts: &[&str]) -> Vec<Vec<u8>> {
    texts.iter().map(|text| text.as_bytes().to_vec()).collect()
}

/// Tags by which the label is the empty text: no tag with `d` in front, or nothing or an empty text behind the first.
pub fn empty_labels() -> Vec<Vec<Vec<Vec<u8>>>> {
    vec![
        vec![],
        vec![tag(&["d"])],
        vec![tag(&["d", ""])],
        vec![tag(&["d"]), tag(&["d", "ab"])],
        vec![tag(&["d", ""]), tag(&["d", "ab"])],
        vec![tag(&["d", "", "ab"])],
        vec![tag(&["e", "x"]), tag(&["d"])],
        vec![tag(&["dd", "ab"])],
        vec![tag(&["D", "ab"])],
        vec![tag(&["e", "d", "ab"])],
    ]
}

/// Tags by which the label is `ab`, in different shapes; then tags with other labels.
pub fn labels() -> Vec<Vec<Vec<Vec<u8>>>> {
    vec![
        vec![tag(&["d", "ab"])],
        vec![tag(&["d", "ab", "more"])],
        vec![tag(&["d", "ab"]), tag(&["d"])],
        vec![tag(&["e", "x"]), tag(&["d", "ab"]), tag(&["d", "cd"])],
        vec![tag(&["d", "AB"])],
        vec![tag(&["", "d"]), tag(&["d", "ключ"])],
    ]
}

pub fn random_text(d: &mut Dice) -> Vec<u8> {
    const CHARS: [char; 24] = [
        'a', 'd', 'e', 'f', 'g', 'A', 'F', '0', '9', ' ', '"', '\\', '\n', '/', '\u{7f}', '\u{80}', '\u{7ff}', '\u{800}', '\u{d7ff}',
        '\u{e000}', '\u{ffff}', '\u{10000}', '\u{10ffff}', 'é',
    ];
    let length = match d.below(10) {
        0 => 0,
        1..=6 => d.below(12),
        7 | 8 => d.below(40),
        _ => d.below(150),
    };
    let mut text = match d.below(8) {
        0 => return b"d".to_vec(),
        1 | 2 => return hex_text(&d.bytes(length / 2)),
        3 => {
            let mut text = hex_text(&d.bytes(length / 2 + 1));
            text.pop();
            text
        }
        4 => (0..length).map(|_| d.pick(b"abcdef0123456789ABCDEFgG/:`")).collect(),
        5 => (0..length).map(|_| b' ' + d.below(95) as u8).collect(),
        _ => (0..length / 2).map(|_| d.pick(&CHARS)).collect::<String>().into_bytes(),
    };
    if d.percent(6) {
        let place = d.below(text.len() + 1);
        text.insert(place, d.below(32) as u8);
    }
    if std::str::from_utf8(&text).is_err() {
        text.clear();
    }
    text
}

pub fn random_event(d: &mut Dice) -> Event {
    let tags = match d.below(12) {
        0..=2 => 0,
        3..=10 => d.below(5),
        _ => d.below(45),
    };
    let mut e = Event { fixed: d.bytes(128), ..small() };
    e.created_at = match d.below(8) {
        0 => d.pick(&EDGES),
        1 => d.next() >> d.below(64),
        2 => d.pick(&[999_999_999, 1_000_000_000, 9_999_999_999, 10_000_000_000]),
        _ => 1_000_000_000 + d.next() % 9_000_000_000,
    };
    e.created_at = e.created_at.min(MAX_CREATED_AT);
    e.kind = match d.below(4) {
        0 => d.next() & 0xffff,
        1 => d.pick(&KINDS),
        _ => d.next() % 40,
    };
    e.content = random_text(d);
    e.tags = (0..tags).map(|_| (0..1 + d.below(4)).map(|_| random_text(d)).collect()).collect();
    e
}

/// Bad UTF-8, or a byte below 20, somewhere in the event's texts.
pub fn spoil_text(d: &mut Dice, e: &mut Event) {
    let mut texts: Vec<&mut Vec<u8>> = e.tags.iter_mut().flatten().collect();
    texts.push(&mut e.content);
    let which = d.below(texts.len());
    let place = d.below(texts[which].len() + 1);
    let bad = match d.below(4) {
        0 => vec![d.below(32) as u8],
        1 => vec![0x80 | d.next() as u8],
        _ => {
            let edges = utf8_edges();
            d.pick(&edges)
        }
    };
    texts[which].splice(place..place, bad);
}

pub const MAX_CREATED_AT: u64 = 9_223_372_036_854_775;
pub const KINDS: [u64; 16] = [0, 1, 2, 3, 4, 9_999, 10_000, 19_999, 20_000, 29_999, 30_000, 30_001, 39_999, 40_000, 65_534, 65_535];

/// Numbers where something changes.
pub const EDGES: [u64; 33] = [
    0, 1, 2, 63, 64, 65, 127, 128, 129, 254, 255, 256, 257, 999, 1_000, 1_001, 8_191, 8_192, 16_383, 16_384, 65_535, 65_536, 65_537,
    2_097_151, 2_097_152, 1 << 31, 1 << 32, MAX_CREATED_AT, MAX_CREATED_AT + 1, 1 << 62, 1 << 63, u64::MAX - 1, u64::MAX,
];

/// Well-formed and ill-formed sequences at the corners of RFC 3629's table.
pub fn utf8_edges() -> Vec<Vec<u8>> {
    let mut all: Vec<Vec<u8>> = Vec::new();
    for lead in [0x7f, 0x80, 0xbf, 0xc0, 0xc1, 0xc2, 0xdf, 0xe0, 0xe1, 0xec, 0xed, 0xee, 0xef, 0xf0, 0xf1, 0xf3, 0xf4, 0xf5, 0xfe, 0xff] {
        all.push(vec![lead]);
        for second in [0x22, 0x5c, 0x7f, 0x80, 0x8f, 0x90, 0x9f, 0xa0, 0xbf, 0xc0] {
            all.push(vec![lead, second]);
            for third in [0x22, 0x7f, 0x80, 0xbf, 0xc0] {
                all.push(vec![lead, second, third]);
                if lead >= 0xf0 {
                    for fourth in [0x22, 0x7f, 0x80, 0xbf, 0xc0] {
                        all.push(vec![lead, second, third, fourth]);
                    }
                }
            }
        }
    }
    all
}
