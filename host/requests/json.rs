//! Event objects in JSON, spelled in any way.

use crate::dice::Dice;
use crate::event::*;
use crate::notepack::*;
use crate::texts::*;

/// The tokens of an event object: any order of fields, any spelling of strings, other fields between.
pub fn json_tokens(d: &mut Dice, e: &Event) -> Vec<Vec<u8>> {
    let escapes = d.pick(&[0, 0, 5, 40]);
    let mut fields: Vec<usize> = (0..7).collect();
    if d.percent(60) {
        d.shuffle(&mut fields);
    }
    for _ in 0..d.pick(&[0, 0, 0, 1, 2, 4]) {
        let place = d.below(fields.len() + 1);
        fields.insert(place, 7);
    }
    let mut all = vec![b"{".to_vec()];
    for (i, field) in fields.into_iter().enumerate() {
        if i > 0 {
            all.push(b",".to_vec());
        }
        let name = d.pick(&["x", "", "ID", "nson", "id ", "tag", "content\u{0}", "created_at2", "é"]);
        let name = ["id", "pubkey", "sig", "created_at", "kind", "content", "tags", name][field];
        let in_names = if d.percent(30) { escapes } else { 0 };
        all.push(json_string(d, name.as_bytes(), in_names));
        all.push(b":".to_vec());
        match field {
            0 => all.push(json_string(d, &hex_text(&e.fixed[..32]), escapes / 5)),
            1 => all.push(json_string(d, &hex_text(&e.fixed[32..64]), escapes / 5)),
            2 => all.push(json_string(d, &hex_text(&e.fixed[64..]), escapes / 5)),
            3 => all.push(e.created_at.to_string().into_bytes()),
            4 => all.push(e.kind.to_string().into_bytes()),
            5 => all.push(json_string(d, &e.content, escapes)),
            6 => json_tags(d, &e.tags, escapes, &mut all),
            _ => {
                let depth = d.pick(&[0, 1, 2, 3, 15, 16, 17]);
                ignored(d, depth, &mut all);
            }
        }
    }
    all.push(b"}".to_vec());
    all
}

pub fn json_tags(d: &mut Dice, tags: &[Vec<Vec<u8>>], escapes: usize, all: &mut Vec<Vec<u8>>) {
    all.push(b"[".to_vec());
    for (i, tag) in tags.iter().enumerate() {
        all.push(if i > 0 { b",[".to_vec() } else { b"[".to_vec() });
        for (j, text) in tag.iter().enumerate() {
            if j > 0 {
                all.push(b",".to_vec());
            }
            all.push(json_string(d, text, escapes));
        }
        all.push(b"]".to_vec());
    }
    all.push(b"]".to_vec());
}

/// A string with its quotes; so many in a hundred characters are escaped though they need not be.
pub fn json_string(d: &mut Dice, text: &[u8], escapes: usize) -> Vec<u8> {
    let mut all = vec![b'"'];
    let unit = |d: &mut Dice, u: u16| if d.percent(50) { format!("\\u{u:04x}") } else { format!("\\u{u:04X}") };
    match std::str::from_utf8(text) {
        Ok(text) => {
            for c in text.chars() {
                let short = b"\"\\/\x08\x0c\n\r\t".iter().position(|&b| b as char == c).map(|i| b"\"\\/bfnrt"[i]);
                let must = c < ' ' || c == '"' || c == '\\';
                match short {
                    Some(letter) if must && d.percent(80) || d.percent(escapes) => all.extend([b'\\', letter]),
                    _ if must || d.percent(escapes) => {
                        for u in c.encode_utf16(&mut [0; 2]) {
                            all.extend(unit(d, *u).bytes());
                        }
                    }
                    _ => all.extend(c.encode_utf8(&mut [0; 4]).bytes()),
                }
            }
        }
        // not a text: as it is, but for what would end the string
        Err(_) => all.extend(escaped(text, &IN_CANONICAL)),
    }
    all.push(b'"');
    all
}

/// Any value with so many arrays and objects inside one another.
pub fn ignored(d: &mut Dice, depth: usize, all: &mut Vec<Vec<u8>>) {
    if depth == 0 {
        let text = random_text(d);
        return all.push(if d.percent(30) { json_string(d, &text, 20) } else { d.pick(&SCALARS).to_vec() });
    }
    let object = d.percent(50);
    let items = 1 + (depth < 4) as usize * d.below(3);
    let deep = d.below(items);
    all.push(if object { b"{".to_vec() } else { b"[".to_vec() });
    for i in 0..items {
        if i > 0 {
            all.push(b",".to_vec());
        }
        if object {
            let name = d.pick(&["a", "id", "", "tags"]);
            all.extend([json_string(d, name.as_bytes(), 0), b":".to_vec()]);
        }
        ignored(d, if i == deep { depth - 1 } else { 0 }, all);
    }
    all.push(if object { b"}".to_vec() } else { b"]".to_vec() });
}

pub const SCALARS: [&[u8]; 12] =
    [b"0", b"-0", b"1", b"-12", b"0.5", b"1e5", b"1E+07", b"10.01e-2", b"true", b"false", b"null", b"\"\""];

/// Tokens that are wrong somewhere, or everywhere.
pub const ODD_TOKENS: [&[u8]; 76] = [
    b"0", b"00", b"01", b"1", b"-", b"-0", b"-1", b"-01", b"-0.", b"-1.5", b"-1.", b"-1e", b"+1", b".5", b"1.", b"1.5", b"1.e5", b"1e", b"1e+", b"1e5", b"1E-5", b"0x1", b"1_0",
    b"65535", b"65536", b"70000.5", b"70000.", b"9223372036854775", b"9223372036854776", b"18446744073709551616",
    b"100000000000000000000000000000000000000001", b"true", b"false", b"null", b"truex", b"tru", b"True", b"nul", b"NaN", b"{", b"}", b"[",
    b"]", b",", b":", b"\"", b"\"\"", b"\"id\"", b"\"\\u0069d\"", b"\"kind\"", b"\"a\\q\"", b"\"\\ud800\"", b"\"\\ud800\\u0041\"",
    b"\"\\udc00\"", b"\"\xff\"", b"\"\xe2\x82\"", b"\"\x1f\"", b"\"\\u12\"", b"\"\\", b"\"\xff", b"\"abc", b"\x0b", b"\x0c", b"\xc2\xa0",
    b"\xef\xbb\xbf", b"\0", b"'", b"a", b"[]", b"{}", b"[[]]", b"{\"a\":1}", b"{\"a\":1,}", b"[1,]", b"/**/", b"\"\\ud83d\\ude00\"",
];

/// A fault between the tokens.
pub fn spoil_tokens(d: &mut Dice, tokens: &mut Vec<Vec<u8>>) {
    let (i, j) = (d.below(tokens.len()), d.below(tokens.len()));
    match d.below(8) {
        0 => {
            tokens.remove(i);
        }
        1 => {
            let again = tokens[i].clone();
            tokens.insert(i, again);
        }
        2 => tokens.swap(i, j),
        3 => tokens.insert(i, d.pick(&ODD_TOKENS).to_vec()),
        4 | 5 => tokens[i] = d.pick(&ODD_TOKENS).to_vec(),
        6 => {
            // something odd inside a string, where there is one
            let strings: Vec<usize> = (0..tokens.len()).filter(|&i| tokens[i].len() > 1 && tokens[i][0] == b'"').collect();
            if !strings.is_empty() {
                let i = d.pick(&strings);
                let place = 1 + d.below(tokens[i].len() - 1);
                tokens[i].splice(place..place, d.pick(&ODD_IN_STRINGS).iter().copied());
            }
        }
        _ => tokens.truncate(i),
    }
}

/// The tokens with white space between them, so many in a hundred times.
pub fn joined(d: &mut Dice, tokens: &[Vec<u8>]) -> Vec<u8> {
    let share = d.pick(&[0, 0, 20, 70]);
    let mut text = Vec::new();
    for i in 0..=tokens.len() {
        while d.percent(share) {
            text.push(d.pick(b" \t\n\r"));
        }
        if let Some(token) = tokens.get(i) {
            text.extend(token);
        }
    }
    text
}

/// The seven fields, each a name and a value as text.
pub fn plain_fields(e: &Event) -> Vec<(&'static str, Vec<u8>)> {
    let quoted = |text: Vec<u8>| [b"\"".to_vec(), text, b"\"".to_vec()].concat();
    vec![
        ("id", quoted(hex_text(&e.fixed[..32]))),
        ("pubkey", quoted(hex_text(&e.fixed[32..64]))),
        ("sig", quoted(hex_text(&e.fixed[64..]))),
        ("created_at", e.created_at.to_string().into_bytes()),
        ("kind", e.kind.to_string().into_bytes()),
        ("tags", tag_pieces(&e.tags, &IN_CANONICAL).concat()),
        ("content", quoted(escaped(&e.content, &IN_CANONICAL))),
    ]
}

pub fn object(fields: &[(&str, Vec<u8>)]) -> Vec<u8> {
    let fields: Vec<Vec<u8>> =
        fields.iter().map(|(name, value)| [format!("\"{name}\":").as_bytes(), value].concat()).collect();
    [b"{".to_vec(), fields.join(&b","[..]), b"}".to_vec()].concat()
}

/// The text in tokens: a string whole, digits together, any other byte by itself.
pub fn tokens_of(text: &[u8]) -> Vec<Vec<u8>> {
    let (mut all, mut at) = (Vec::new(), 0);
    while at < text.len() {
        let start = at;
        at += 1;
        if text[start] == b'"' {
            while text[at] != b'"' {
                at += 1 + (text[at] == b'\\') as usize;
            }
            at += 1;
        } else if text[start].is_ascii_digit() {
            while text[at].is_ascii_digit() {
                at += 1;
            }
        }
        all.push(text[start..at].to_vec());
    }
    all
}
