//! Each limit of docs/RULES.md, met and passed.

use crate::event::*;
use crate::json::*;
use crate::notepack::*;
use crate::string_form::*;
use crate::texts::*;
use crate::versioned::{Form, FORMS};
use crate::{firsts, hash, pointer, rooms, table, versioned, Requests, PACKED};

pub fn all(g: &mut Requests) {
    packed_boundaries(g);
    elements_boundaries(g);
    text_boundaries(g);
    carry_boundaries(g);
    nson_boundaries(g);
    json_boundaries(g);
    for form in FORMS {
        if g.has(form.reader()) {
            string_boundaries(g, form);
        }
    }
    rival_boundaries(g);
    versioned::boundaries(g);
    hash::boundaries(g);
    pointer::boundaries(g);
    if g.has("table") {
        table::boundaries(g);
    }
}

/// Sizes, counts and numbers of notepack.
fn packed_boundaries(g: &mut Requests) {
    for e in [small(), carried(), vector(), mixed()] {
        g.all(&PACKED, &strict(&e), &e);
        let loose = loose(&mut g.dice, &e);
        g.all(&PACKED, &loose, &e);
        let padded = with_padded(&mut g.dice, &e);
        g.all(&PACKED, &padded, &e);
    }
    for length in [0, 1, 31, 32, 33, 63, 64, 65, 127, 128, 129, 130, 131, 132, 133] {
        g.all(&PACKED, &vec![0; length], &small());
    }
    for size in [65_534, 65_535, 65_536, 65_537] {
        for mut e in [small(), mixed()] {
            e.content = vec![b'x'; size - strict(&Event { content: vec![], ..e.clone() }).len() - 2];
            g.all(&PACKED, &strict(&e), &e);
        }
        // the same size by one element of raw bytes
        let mut e = Event { tags: vec![vec![vec![]]], ..small() };
        e.tags[0][0] = vec![b'a'; 2 * (size - strict(&e).len() - 2)];
        g.all(&PACKED, &strict(&e), &e);
        g.all(&["read", "strict", "pack"], &vec![0xff; size], &small());
    }
    for count in [999, 1_000, 1_001] {
        for text in [&b""[..], b"x", b"ab"] {
            let e = Event { tags: vec![vec![text.to_vec()]; count], ..small() };
            g.all(&PACKED, &strict(&e), &e);
        }
    }
    for count in [0, 1, 254, 255, 256, 257] {
        let e = Event { tags: vec![vec![b"t".to_vec()], vec![b"".to_vec(); count]], ..small() };
        g.all(&PACKED, &strict(&e), &e);
    }
    number_boundaries(g);
    padded_boundaries(g);
}

/// Each number in turn: every edge, padded or not, every length of spelling, every tenth byte, with what follows and at
/// the end.
fn number_boundaries(g: &mut Requests) {
    let e = vector();
    let pieces = packed_pieces(&e, |text| !text.is_empty());
    for i in (0..pieces.len()).filter(|&i| matches!(pieces[i], Piece::Number(_))) {
        let Piece::Number(n) = pieces[i] else { continue };
        let mut spellings: Vec<Vec<u8>> = EDGES.iter().map(|&n| varint(n)).collect();
        spellings.extend(EDGES.iter().map(|&n| padded(n, varint(n).len() + 1)));
        spellings.extend((1..=10).map(|length| padded(n, length)));
        for tenth in [0, 1, 2, 0x7f, 0x80, 0x81, 0xff] {
            spellings.extend([[vec![0x80; 9], vec![tenth]].concat(), [vec![0xff; 9], vec![tenth]].concat()]);
        }
        spellings.extend((1..=9).map(|length| vec![0x80; length]));
        for spelling in spellings {
            let mut changed = pieces.clone();
            changed[i] = Piece::Spelled(spelling);
            g.any(&PACKED, &spelled(&changed, varint), &e);
            changed.truncate(i + 1);
            g.any(&PACKED, &spelled(&changed, varint), &e);
        }
    }
}

/// Each number in turn with 2, 3, 9 and 10 bytes, put to every kind of request; and padded where what it counts is
/// ill-formed UTF-8, where more is padded further on, and where the input is cut behind it.
fn padded_boundaries(g: &mut Requests) {
    let e = vector();
    let mut pieces = packed_pieces(&e, |text| !text.is_empty());
    for i in (0..pieces.len()).filter(|&i| matches!(pieces[i], Piece::Number(_))).collect::<Vec<_>>() {
        let Piece::Number(n) = pieces[i] else { continue };
        for length in [2, 3, 9, 10] {
            let mut changed = pieces.clone();
            changed[i] = Piece::Spelled(padded(n, length));
            let whole = spelled(&changed, varint);
            g.all(&PACKED, &whole, &e);
            for form in FORMS {
                g.all(&[form.reader()], &form.string_of(&whole), &e);
            }
            g.rivals(&whole, &strict(&e));
            g.rivals(&strict(&e), &whole);
            g.any(&PACKED, &spelled(&changed, |n| padded(n, 2)), &e);
            if let Some(Piece::Bytes(counted)) = changed.get_mut(i + 1) {
                counted.fill(0xff);
            }
            g.any(&PACKED, &spelled(&changed, varint), &e);
            changed.truncate(i + 1);
            g.all(&["read", "strict", "pack"], &spelled(&changed, varint), &e);
        }
    }
    // the word 01 is as short as can be
    pieces.truncate(6);
    pieces.extend([Piece::Bytes(b"hello".to_vec()), Piece::Spelled(vec![1, 1, 1])]);
    g.all(&PACKED, &spelled(&pieces, varint), &Event { tags: vec![vec![vec![]]], ..e });
}

/// Every first with every room: no tags, a tag of one text, of many, and as many texts as a record can hold. The same
/// of a record that is cut, and one with something behind its end.
fn elements_boundaries(g: &mut Requests) {
    if !g.has("elements") {
        return;
    }
    let most = Event { tags: vec![vec![vec![]; 255]; 253], ..small() };
    let one = Event { tags: vec![vec![b"d".to_vec()]], ..small() };
    for e in [small(), one, vector(), mixed(), most] {
        let input = strict(&e);
        for first in firsts(&e) {
            for room in rooms(&e).into_iter().chain([1 << 20]) {
                g.line("elements", &input, &format!(" {first} {room}"));
            }
            for wrong in [input[..input.len() - 1].to_vec(), [&input[..], &[0]].concat()] {
                for room in [0, 17, 1_000] {
                    g.line("elements", &wrong, &format!(" {first} {room}"));
                }
            }
        }
    }
}

/// Bytes of content and texts: hex or not, escapes, UTF-8.
fn text_boundaries(g: &mut Requests) {
    let with_text = |text: &[u8]| Event { tags: vec![vec![b"t".to_vec(), text.to_vec()]], ..carried() };
    let kinds = ["strict", "pack", "element", "elements", "canonical", "nson_write"];
    for length in (0..70).chain([8_190, 8_191, 8_192, 16_384]) {
        let e = with_text(&vec![b'a'; length]);
        g.any(&kinds, &strict(&e), &e);
        let as_text = spelled(&packed_pieces(&e, |_| false), varint);
        g.any(&kinds, &as_text, &e);
        let as_bytes = spelled(&packed_pieces(&e, |_| true), varint);
        g.any(&kinds, &as_bytes, &e);
    }
    for b in 0..=0x7f {
        for text in [vec![b], vec![b, b'a'], vec![b'a', b], [vec![b'0'; 40], vec![b], vec![b'0'; 41]].concat()] {
            let e = with_text(&text);
            g.any(&kinds, &strict(&e), &e);
            let e = Event { content: text, ..carried() };
            g.any(&["canonical", "nson_write"], &strict(&e), &e);
        }
    }
    let e = with_text(&hex_text(&(0..=255).collect::<Vec<u8>>()));
    g.all(&PACKED, &strict(&e), &e);
    for (i, edge) in utf8_edges().into_iter().enumerate() {
        // somewhere in a run of other bytes, which a reader may take by blocks
        let (before, after) = (g.dice.below(70), g.dice.below(40));
        let text = [vec![b'x'; before], edge, vec![b'x'; after]].concat();
        let e = Event { content: text.clone(), ..carried() };
        g.any(&PACKED, &strict(&e), &e);
        g.any(&["json_read"], &object(&plain_fields(&e)), &e);
        g.any(&["nson_read"], &Nson::of(&e).spelled(), &e);
        if i % 4 > 0 {
            continue;
        }
        let e = with_text(&text);
        g.any(&PACKED, &strict(&e), &e);
        g.any(&["json_read", "nson_read"], &Nson::of(&e).spelled(), &e);
        // the sequence cut by its count
        let mut nson = Nson::of(&e);
        nson.counts.last_mut().unwrap().1 -= after + 1;
        g.any(&["nson_read"], &nson.spelled(), &e);
    }
}

/// What NSON can carry just so, and just not.
fn carry_boundaries(g: &mut Requests) {
    let mut events = Vec::new();
    for created_at in [0, 999_999_999, 1_000_000_000, 9_999_999_999, 10_000_000_000, MAX_CREATED_AT] {
        events.push(Event { created_at, ..carried() });
    }
    for kind in [0, 9, 10, 99, 100, 999, 1_000, 9_999, 10_000, 65_535] {
        events.push(Event { kind, ..carried() });
    }
    // 4 plus (1 + 2 x items) for each tag, around 127
    for shape in [vec![1; 40], vec![1; 41], vec![1; 42], vec![60], vec![61], vec![62], vec![61, 1], vec![59, 1], vec![60, 1], vec![255], vec![30, 30]] {
        events.push(Event { tags: shape.into_iter().map(|n| vec![b"x".to_vec(); n]).collect(), ..carried() });
    }
    for size in [65_535, 65_536, 65_537] {
        for filler in [b'x', b'"', b'\n'] {
            let mut e = Event { content: vec![], ..carried() };
            let room = size - Nson::of(&e).spelled().len();
            let one = if filler == b'x' { 1 } else { 2 };
            e.content = [vec![filler; room / one], vec![b'x'; room % one]].concat();
            events.push(e.clone());
            let text = std::mem::take(&mut e.content);
            e.tags = vec![vec![text]];
            let over = Nson::of(&e).spelled().len() - size;
            let keep = e.tags[0][0].len() - over.div_ceil(one);
            e.tags[0][0].truncate(keep);
            events.push(e);
        }
        let mut e = Event { content: vec![], tags: vec![vec![b"".to_vec()]], ..carried() };
        e.tags[0][0] = vec![b'0'; size - Nson::of(&e).spelled().len()];
        events.push(e);
    }
    for content in [vec![b'"'; 32_767], vec![b'"'; 32_768], vec![b'"'; 33_000], vec![b'x'; 65_300]] {
        events.push(Event { content, ..carried() });
    }
    for length in [65_534, 65_536, 80_000] {
        events.push(Event { tags: vec![vec![vec![b'0'; length]]], ..carried() });
    }
    for e in events {
        let packed = strict(&e);
        g.all(&["canonical", "nson_write"], &packed, &e);
        g.all(&["nson_read", "json_read"], &Nson::of(&e).spelled(), &e);
    }
}

fn nson_boundaries(g: &mut Requests) {
    let kinds = ["nson_read", "json_read"];
    for e in [carried(), vector(), mixed(), Event { content: vec![], ..carried() }] {
        let true_text = Nson::of(&e);
        g.all(&kinds, &true_text.spelled(), &e);
        // each count in turn
        for i in 0..true_text.counts.len() {
            let (width, n) = true_text.counts[i];
            let most = (1 << (4 * width)) - 1;
            for lie in [0, 1, 2, 5, 6, n.wrapping_sub(3), n.wrapping_sub(2), n.wrapping_sub(1), n + 1, n + 2, n + 3, n + 4, n + 12, n ^ 0x80, most] {
                let mut text = true_text.clone();
                text.counts[i].1 = lie;
                g.any(&["nson_read"], &text.spelled(), &e);
                // the size that these counts would take
                if i == 2 {
                    text.size = (text.size + 2 * lie).wrapping_sub(2 * n) & 0xff;
                    g.any(&["nson_read"], &text.spelled(), &e);
                }
            }
            // digits that are none
            let mut text = true_text.clone();
            let place = 320 + true_text.counts[..i].iter().map(|c| c.0).sum::<usize>();
            for b in [b'A', b'F', b'g', b'/', b':', b'"', b'\0', 0xff] {
                text.counts[i].1 = n;
                let mut bytes = text.spelled();
                bytes[place] = b;
                g.any(&["nson_read"], &bytes, &e);
                bytes[place + 1] = b;
                bytes.truncate(place + 1 + g.dice.below(4));
                g.any(&["nson_read"], &bytes, &e);
            }
        }
        for size in 0..=255 {
            let mut bytes = Nson { size, ..true_text.clone() }.spelled();
            g.any(&["nson_read"], &bytes, &e);
            // the input ends about where the size says the descriptors do
            bytes.truncate(319 + size + g.dice.below(3));
            g.any(&["nson_read"], &bytes, &e);
        }
        // more hex than the size says
        for extra in ["0", "00", "0000", "ff"] {
            let mut text = true_text.clone();
            text.tail.insert(0, extra.into());
            g.any(&["nson_read"], &text.spelled(), &e);
            text.size += extra.len();
            g.any(&["nson_read"], &text.spelled(), &e);
        }
        // each fixed piece wrong at its start and at its end, gone, twice
        for i in 0..true_text.head.len() + true_text.tail.len() {
            for change in 0..6 {
                let mut text = true_text.clone();
                let head = text.head.len();
                let (list, i) = if i < head { (&mut text.head, i) } else { (&mut text.tail, i - head) };
                let last = list[i].len().saturating_sub(1);
                match change {
                    0 if !list[i].is_empty() => list[i][0] ^= 1,
                    1 if !list[i].is_empty() => list[i][last] ^= 1,
                    2 => list[i].clear(),
                    3 => {
                        let again = list[i].clone();
                        list[i].extend(again);
                    }
                    4 => list[i].push(b' '),
                    _ => list[i].make_ascii_uppercase(),
                }
                g.any(&kinds, &text.spelled(), &e);
            }
        }
        for after in [" ", "\n", "}", "\0", ",\"ots\":1}"] {
            g.any(&kinds, &[true_text.spelled(), after.into()].concat(), &e);
        }
        for created_at in ["0999999999", "1000000000", "9999999999", "10000000000", "999999999", "-100000000", "1e00000000", "100000000 ", "+1", ""] {
            let mut text = true_text.clone();
            text.head[7] = created_at.into();
            g.any(&kinds, &text.spelled(), &e);
        }
        for kind in ["0", "00", "01", "1", "9", "65535", "65536", "99999", "100000", "065", "-1", "1.", "1e1", "+1", " 1", "1 ", "a", ""] {
            for chars in [kind.len(), kind.len() + 1, kind.len().wrapping_sub(1)] {
                let mut text = true_text.clone();
                text.tail[1] = kind.into();
                text.counts[0].1 = chars;
                g.any(&kinds, &text.spelled(), &e);
            }
        }
    }
    // each byte in a string, alone and behind a backslash, the count right or one short, and cut there
    for b in 0..=255u8 {
        for odd in [vec![b], vec![b'\\', b]] {
            for short in [0, 1] {
                let e = carried();
                let mut text = Nson::of(&e);
                text.tail[3] = [b"xy".to_vec(), odd.clone()].concat();
                text.counts[1].1 = text.tail[3].len() - short;
                g.any(&["nson_read"], &text.spelled(), &e);
            }
        }
    }
    for odd in ODD_IN_STRINGS {
        for (before, after, count) in [(0, 0, 0), (3, 0, 0), (0, 3, 0), (40, 0, 0), (3, 3, 1), (3, 0, 1), (0, 0, 2), (3, 0, 300)] {
            let e = carried();
            let mut text = Nson::of(&e);
            text.tail[3] = [vec![b'x'; before], odd.to_vec(), vec![b'x'; after]].concat();
            text.counts[1].1 = match count {
                300 => 300,
                less => text.tail[3].len().saturating_sub(less),
            };
            g.any(&kinds, &text.spelled(), &e);
            text.tail.truncate(4);
            g.any(&kinds, &text.spelled(), &e);
        }
    }
}

fn json_boundaries(g: &mut Requests) {
    if !g.has("json_read") {
        return;
    }
    let e = mixed();
    let fields = plain_fields(&e);
    let with = |name: &'static str, value: &[u8]| {
        let mut fields = fields.clone();
        match fields.iter_mut().find(|f| f.0 == name) {
            Some(field) => field.1 = value.to_vec(),
            None => fields.push((name, value.to_vec())),
        }
        object(&fields)
    };
    let ask = |g: &mut Requests, text: &[u8]| g.one("json_read", text, &e);
    g.all(&["json_read"], &object(&fields), &e);
    // every odd token as the value of every field, and in place of the object
    for name in ["id", "pubkey", "sig", "created_at", "kind", "tags", "content", "other"] {
        for token in ODD_TOKENS.iter().chain(&SCALARS) {
            ask(g, &with(name, token));
            ask(g, &with(name, &[b"[", *token, b"]"].concat()));
            ask(g, &with(name, &[b"[[", *token, b"]]"].concat()));
        }
        for token in ODD_IN_STRINGS {
            ask(g, &with(name, &[b"\"", token, b"\""].concat()));
            ask(g, &with(name, &[b"[[\"", token, b"\"]]"].concat()));
            ask(g, &[b"{\"", token, name.as_bytes(), b"\":1}"].concat());
            let cut = with(name, &[b"\"abc", token].concat());
            let end = cut.windows(4).rposition(|w| w == b"\"abc").unwrap() + 4 + token.len();
            ask(g, &cut[..end]);
        }
    }
    for token in ODD_TOKENS.iter().chain(&SCALARS) {
        for text in [token.to_vec(), [b" ", *token].concat(), [b"{", *token].concat(), [b"{\"a\"", *token].concat(), [b"{\"a\":1", *token].concat()] {
            ask(g, &text);
        }
        ask(g, &[object(&fields), token.to_vec()].concat());
        ask(g, &[object(&fields), b" \n".to_vec(), token.to_vec()].concat());
        ask(g, &object(&fields).strip_suffix(b"}").map(|o| [o, token, b"}"].concat()).unwrap());
        ask(g, &object(&fields).strip_suffix(b"}").map(|o| [o, b",", *token, b"}"].concat()).unwrap());
    }
    // hex of other lengths and other digits, spelled with escapes
    for (name, length) in [("id", 64), ("pubkey", 64), ("sig", 128)] {
        for n in [0, 1, length - 2, length - 1, length, length + 1, length + 2, 200] {
            for digit in ["0", "f", "A", "g", "\\u0061", "\\n", "é"] {
                ask(g, &with(name, format!("\"{}\"", digit.repeat(n)).as_bytes()));
                ask(g, &with(name, format!("\"{}{digit}\"", "0".repeat(n.saturating_sub(1))).as_bytes()));
            }
        }
    }
    // one field missing, one field twice, at any place
    for i in 0..7 {
        let mut less = fields.clone();
        let gone = less.remove(i);
        ask(g, &object(&less));
        ask(g, &[object(&less), b"x".to_vec()].concat());
        ask(g, &object(&less).strip_suffix(b"}").map(|o| [o, b",}"].concat()).unwrap());
        for j in 0..7 {
            let mut more = fields.clone();
            more.insert(j, gone.clone());
            ask(g, &object(&more));
            more[j].1 = b"?".to_vec();
            ask(g, &object(&more));
        }
        let unit = format!("\\u{:04x}{}", gone.0.as_bytes()[0], &gone.0[1..]);
        let mut spelled = fields.clone();
        spelled[i] = (&unit, gone.1.clone());
        ask(g, &object(&spelled));
        spelled.push(gone.clone());
        ask(g, &object(&spelled));
        let text = String::from_utf8(object(&fields)).unwrap();
        ask(g, text.replace(&format!("\"{}\"", gone.0), &format!("\"{}\" ", gone.0)).as_bytes());
    }
    ask(g, &object(&[fields.clone(), vec![("x", b"1".to_vec()), ("x", b"2".to_vec()), ("", b"{}".to_vec())]].concat()));
    // nesting
    for depth in [1, 15, 16, 17, 18, 40] {
        for (open, close) in [("[", "]"), ("{\"a\":", "}"), ("[{\"id\":", "}]"), ("[1,", "]"), (" [ ", " ] ")] {
            let twice = if open.len() > 3 && open.starts_with('[') && close.len() > 1 { 2 } else { 1 };
            let depth = depth / twice + depth % twice;
            for inner in ["1", "[]", "{}", "", "\"x\"", "tru"] {
                let value = format!("{}{inner}{}", open.repeat(depth), close.repeat(depth));
                ask(g, &with("other", value.as_bytes()));
                ask(g, &with("other", format!("[[],{value},{value}]").as_bytes()));
            }
            ask(g, &with("other", open.repeat(depth).as_bytes()));
            for name in ["tags", "content", "kind"] {
                ask(g, &with(name, open.repeat(depth).as_bytes()));
            }
        }
    }
    // counts
    for count in [0, 1, 254, 255, 256] {
        for text in ["\"\"", "\"ab\""] {
            let tag = vec![text; count].join(",");
            ask(g, &with("tags", format!("[[{tag}]]").as_bytes()));
            ask(g, &with("tags", format!("[[\"x\"],[{tag} , ]]").as_bytes()));
            ask(g, &with("tags", format!("[[{tag},").as_bytes()));
        }
    }
    for count in [999, 1_000, 1_001] {
        for tag in ["[\"\"]", " [\"ab\"] "] {
            let tags = vec![tag; count].join(",");
            let e = Event { tags: vec![vec![if tag.contains('a') { b"ab".to_vec() } else { vec![] }]; count], ..e.clone() };
            g.all(&["json_read"], &with("tags", format!("[{tags}]").as_bytes()), &e);
            ask(g, &with("tags", format!("[{tags} , ]").as_bytes()));
            ask(g, &with("tags", format!("[{tags},1").as_bytes()));
        }
    }
    for value in EDGES {
        ask(g, &with("created_at", value.to_string().as_bytes()));
        ask(g, &with("kind", value.to_string().as_bytes()));
    }
    // sizes
    let text = object(&fields);
    for size in [65_535, 65_536, 65_537] {
        let space = vec![b' '; size - text.len()];
        ask(g, &[text.clone(), space.clone()].concat());
        ask(g, &[space, text.clone()].concat());
        ask(g, &with("other", &[vec![b'"'], vec![b'x'; size - text.len() - 11], vec![b'"']].concat()));
        ask(g, &vec![b' '; size]);
        ask(g, &vec![b'{'; size]);
    }
    let spaced = tokens_of(&text);
    for space in [&b" "[..], b"\t", b"\n", b"\r", b" \t\r\n ", b"\x0b", b"\x0c", b"\xc2\xa0", b"\xef\xbb\xbf", b"\0"] {
        ask(g, &spaced.join(space));
        let place = g.dice.below(spaced.len());
        ask(g, &[spaced[..place].concat(), space.to_vec(), spaced[place..].concat()].concat());
    }
}

/// String forms of one form: prefixes, the last characters, the order of faults, sizes.
fn string_boundaries(g: &mut Requests, form: Form) {
    let ask = |g: &mut Requests, text: &[u8], e: &Event| g.all(&[form.reader()], text, e);
    let right = form.prefix();
    for e in [small(), carried(), vector(), mixed()] {
        let (loose, padded) = (loose(&mut g.dice, &e), with_padded(&mut g.dice, &e));
        for packed in [strict(&e), loose, padded] {
            ask(g, &form.string_of(&packed), &e);
            for prefix in ODD_PREFIXES {
                ask(g, &[prefix, &base64(&form.of(&packed), 0)].concat(), &e);
            }
        }
    }
    for at in 0..right.len() {
        ask(g, &right[..at], &small());
        let mut other = form.string_of(&strict(&small()));
        other[at] ^= 0x20;
        ask(g, &other, &small());
    }
    for content in ["", "a", "ab"] {
        last_characters(g, form, &Event { content: content.into(), ..carried() });
    }
    for chars in (0..=13).chain(165..=190) {
        for c in [b'A', b'/'] {
            ask(g, &[right, &vec![c; chars]].concat(), &small());
        }
    }
    string_sizes(g, form);
}

/// Of an event whose packed bytes leave 0, 1 or 2 after division by 3: each byte as one of the last four characters,
/// each number in the bits left over, and faults that come together.
fn last_characters(g: &mut Requests, form: Form, e: &Event) {
    let (packed, prefix, reader) = (form.of(&strict(e)), form.prefix(), form.reader());
    let text = form.string_of(&strict(e));
    for from_end in 1..=4 {
        for b in 0..=255 {
            let mut changed = text.clone();
            changed[text.len() - from_end] = b;
            g.one(reader, &changed, e);
        }
    }
    for leftover in 0..16 {
        let text = [prefix, &base64(&packed, leftover)].concat();
        g.one(reader, &text, e);
        for (place, b) in [(prefix.len(), b'!'), (100, b'='), (text.len() - 1, b'-'), (0, b'N')] {
            let mut changed = text.clone();
            changed[place] = b;
            g.one(reader, &changed, e);
            changed[text.len() / 2] = b'?';
            g.one(reader, &changed, e);
        }
    }
    for more in ["A", "B", "AA", "AB", "AAA", "AAB", "=", "==", "\n", "\r\n", " ", "A=", "A\n"] {
        g.all(&[reader], &[&text, more.as_bytes()].concat(), e);
        g.one(reader, &[&text[..text.len() - 1], more.as_bytes()].concat(), e);
    }
}

/// About 65,536 decoded bytes, and far more characters than that takes.
fn string_sizes(g: &mut Requests, form: Form) {
    let (e, reader) = (small(), form.reader());
    for size in [65_534, 65_535, 65_536, 65_537, 65_538] {
        let content = vec![b'x'; size - strict(&e).len() - 2];
        let packed = strict(&Event { content, ..small() });
        g.all(&[reader], &form.string_of(&packed), &e);
        // refused at the end: a tag that is not there, and something behind the end
        let cut = [&packed[..packed.len() - 1], &[1]].concat();
        g.one(reader, &form.string_of(&cut), &e);
        g.one(reader, &form.string_of(&[&packed[..], &[0]].concat()), &e);
        g.one(reader, &[&form.string_of(&packed)[..], b"\n"].concat(), &e);
    }
    for chars in (87_379..=87_385).chain([199_999, 200_000, 200_001, 200_002]) {
        let text = [form.prefix(), &vec![b'A'; chars]].concat();
        let last = text.len() - 1;
        for (place, b) in [(9, b'A'), (last, b'B'), (last, b'!'), (9, b'\n'), (8, b'-'), (last.min(90_000), b'=')] {
            let mut changed = text.clone();
            changed[place] = b;
            g.one(reader, &changed, &e);
        }
    }
}

fn rival_boundaries(g: &mut Requests) {
    let named = labels()[0].clone();
    let shapes = [empty_labels(), labels()].concat();
    for kind in KINDS {
        for other in [kind, kind ^ 1] {
            for tags in [&named, &vec![]] {
                let a = Event { kind, tags: tags.clone(), ..vector() };
                let b = Event { kind: other, tags: tags.clone(), ..vector() };
                g.rivals(&strict(&a), &strict(&b));
            }
        }
    }
    for a in &shapes {
        for b in &shapes {
            let (a, b) = (Event { kind: 30_000, tags: a.clone(), ..vector() }, Event { kind: 30_000, tags: b.clone(), ..vector() });
            g.rivals(&strict(&a), &strict(&b));
            let (a, b) = (loose(&mut g.dice, &a), loose(&mut g.dice, &b));
            g.rivals(&a, &b);
        }
    }
    // ties
    for (kind, tags) in [(0, &shapes[0]), (10_000, &shapes[0]), (30_000, &shapes[0]), (39_999, &named)] {
        for time in [-1, 0, 1] {
            for (place, step) in [(0, 0), (0, 1), (0, -1), (31, 1), (31, -1), (32, 1), (63, -1), (64, 1), (127, -1)] {
                let mut a = Event { kind, tags: tags.clone(), ..vector() };
                a.fixed = vec![0x80; 128];
                let mut b = a.clone();
                b.created_at = b.created_at.wrapping_add_signed(time);
                b.fixed[place] = b.fixed[place].wrapping_add_signed(step);
                g.rivals(&strict(&a), &strict(&b));
                let a = loose(&mut g.dice, &a);
                g.rivals(&a, &strict(&b));
            }
        }
    }
    // refusals, and sizes
    let good = strict(&vector());
    let long = vec![0; 65_537];
    let padded = with_padded(&mut g.dice, &vector());
    for bad in [&b""[..], b"x", &good[..130], &good[..236], &long, &padded] {
        g.rivals(bad, &good);
        g.rivals(&good, bad);
        g.rivals(&strict(&carried()), bad);
        g.rivals(bad, &long);
        g.rivals(bad, b"");
    }
}
