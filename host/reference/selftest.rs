//! The checked examples of rule 12.4, and more of docs/RULES.md.

use crate::hash_session::HashSession;
use crate::session::Session;
use crate::{answer, hex};
use reference::bytes::{varint, varint_len};

/// The vector of the notepack draft's section 9.1.
fn vector() -> Vec<u8> {
    let mut s = [[0x00; 32], [0x11; 32], [0x22; 32], [0x22; 32]].concat();
    s.extend(b"\x80\xbc\x94\xb4\x06\x00\x05hello\x02\x03\x02e\x41");
    s.extend([0xaa; 32]);
    s.extend(b"\x2ewss://relay.example.com\x02\x02p\x41");
    s.extend([0xbb; 32]);
    s
}

const CANONICAL: &str = concat!(
    "[0,\"1111111111111111111111111111111111111111111111111111111111111111\",1720000000,0,",
    "[[\"e\",\"aaaaaaaaaaaaaaaaaaaaaaaaaaaaaaaaaaaaaaaaaaaaaaaaaaaaaaaaaaaaaaaa\",\"wss://relay.example.com\"],",
    "[\"p\",\"bbbbbbbbbbbbbbbbbbbbbbbbbbbbbbbbbbbbbbbbbbbbbbbbbbbbbbbbbbbbbbbb\"]],\"hello\"]",
);

/// The NSON draft's event.
const NSON: &str = concat!(
    "{\"id\":\"57ff66490a6a2af3992accc26ae95f3f60c6e5f84ed0ddf6f59c534d3920d3d2\",",
    "\"pubkey\":\"79be667ef9dcbbac55a06295ce870b07029bfcdb2dce28d959f2815b16f81798\",",
    "\"sig\":\"504d142aed7fa7e0f6dab5bcd7eed63963b0277a8e11bbcb03b94531beb4b95a12f1438668b02746bd5362161bc78206",
    "8e6b71494060975414e793f9e19f57ea\",\"created_at\":1683762317,",
    "\"nson\":\"2801000b0203000100400005040001004000000014\",\"kind\":1,\"content\":\"hello world\",\"tags\":",
    "[[\"e\",\"b6de44a9dd47d1c000f795ea0453046914f44ba7d5e369608b04867a575ea83e\",\"reply\"],",
    "[\"p\",\"c26f7b252cea77a5b94f42b1a4771021be07d4df766407e47738605f7e3ab774\",\"\",\"wss://relay.damus.io\"]]}",
);

/// The string form of the vector, as section 9.1 has it.
const STRING: &str = concat!(
    "notepack_AAAAAAAAAAAAAAAAAAAAAAAAAAAAAAAAAAAAAAAAAAARERERERERERERERERERERERERERERERERERERERERESIiIiI",
    "iIiIiIiIiIiIiIiIiIiIiIiIiIiIiIiIiIiIiIiIiIiIiIiIiIiIiIiIiIiIiIiIiIiIiIiIiIiIiIiKAvJS0BgAFaGVsbG8CAwJ",
    "lQaqqqqqqqqqqqqqqqqqqqqqqqqqqqqqqqqqqqqqqqqqqLndzczovL3JlbGF5LmV4YW1wbGUuY29tAgJwQbu7u7u7u7u7u7u7u7u",
    "7u7u7u7u7u7u7u7u7u7u7u7u7",
);

/// 01, and behind it these bytes.
fn versioned(bare: &[u8]) -> Vec<u8> {
    [&[1], bare].concat()
}

/// An event with zero id, pubkey and sig.
fn packed(created_at: &[u8], rest: &[u8]) -> Vec<u8> {
    [&[0; 128], created_at, rest].concat()
}

/// 1,000,000,000 as a varint.
const BILLION: &[u8] = b"\x80\x94\xeb\xdc\x03";

/// The NSON example of rule 12.4, with the nson field given.
fn nson_with(nson: &str) -> String {
    let zeros = |n| "0".repeat(n);
    format!(
        "{{\"id\":\"{}\",\"pubkey\":\"{}\",\"sig\":\"{}\",\"created_at\":1000000000,\"nson\":\"{nson}\",\"kind\":1,\"content\":\"a\\\"b\",\"tags\":[]}}",
        zeros(64), zeros(64), zeros(128)
    )
}

/// So many tags, each of so many texts `x`, behind an event that NSON can carry.
fn tagged(tags: u8, texts: u8) -> Vec<u8> {
    let mut s = packed(BILLION, &[1, 0, tags]);
    for _ in 0..tags {
        s.push(texts);
        s.extend(b"\x02x".repeat(texts as usize));
    }
    s
}

pub fn run() -> bool {
    let (mut passed, mut failed) = (0, 0);
    let mut same = |what: &str, got: String, wanted: String| {
        if got == wanted {
            passed += 1;
        } else {
            failed += 1;
            println!("{what}: {got}, not {wanted}");
        }
    };

    for (n, value, spelled) in
        [(1, 0, &b"\0"[..]), (2, 127, b"\x7f"), (3, 128, b"\x80\x01"), (4, 1_720_000_000, b"\x80\xbc\x94\xb4\x06")]
    {
        same(&format!("({n}) read"), format!("{:?}", varint(spelled, 0)), format!("Ok(({value}, {}))", spelled.len()));
        same(&format!("({n}) length"), varint_len(value).to_string(), spelled.len().to_string());
        let s = packed(spelled, b"\0\0\0");
        same(&format!("({n}) written"), room("pack", &s), left(&s));
    }
    let at = |s: &[u8]| ask(format!("read {}", hex(&packed(s, b""))));
    same("(5)", at(b"\xff\xff\xff\xff\xff\xff\xff\xff\xff\x02"), "refused 3 128".into());
    same("(6)", at(b"\x80"), "refused 4 128".into());
    same("(7)", at(b"\x80\0"), "refused 24 128".into());
    for (n, text, strict) in [
        (8, &b"\x04ab"[..], &b"\x03\xab"[..]),
        (8, b"\x03\xab", b"\x03\xab"),
        (9, b"\x04AB", b"\x04AB"),
        (10, b"\x06abc", b"\x06abc"),
        (11, b"\0", b"\0"),
        (11, b"\x01", b"\0"),
    ] {
        let s = packed(b"\0", &[b"\0\0\x01\x01", text].concat());
        let t = packed(b"\0", &[b"\0\0\x01\x01", strict].concat());
        same(&format!("({n}) written"), room("pack", &s), left(&t));
        same(&format!("({n}) strict"), ask(format!("strict {}", hex(&s))), if s == t { "yes" } else { "no" }.into());
    }
    let a_b = packed(BILLION, b"\x01\x03a\"b\0");
    let text = nson_with("0801000400");
    same("(12) length", text.len().to_string(), "366".into());
    same("(12) written", room("nson_write", &a_b), left(text.as_bytes()));
    same("(12) read", room("nson_read", text.as_bytes()), left(&a_b));
    same("(12) as JSON", room("json_read", text.as_bytes()), left(&a_b));
    same("(13)", room("nson_read", nson_with("0801000300").as_bytes()), "refused 13 353".into());
    same("(14)", room("nson_read", nson_with("0801000200").as_bytes()), "refused 14 350".into());
    same("(15)", room("nson_read", nson_with("0801000500").as_bytes()), "refused 13 350".into());

    let v = vector();
    same("vector length", v.len().to_string(), "237".into());
    same("vector read", ask(format!("read {}", hex(&v))), "ok 1720000000 0 135 5 2".into());
    same("vector strict", ask(format!("strict {}", hex(&v))), "yes".into());
    same("vector written", room("pack", &v), left(&v));
    let listed = |s: &[u8], first: u64, room: usize| ask(format!("elements {} {first} {room}", hex(s)));
    let spelled = |all: &[[u32; 4]]| {
        let bytes: Vec<u8> = all.iter().flatten().flat_map(|number| number.to_le_bytes()).collect();
        format!("ok {} {}", all.len(), hex(&bytes))
    };
    let all = [[0, 143, 1, 0], [0, 145, 32, 1], [0, 178, 23, 0], [1, 203, 1, 0], [1, 205, 32, 1]];
    for (first, room, count) in [(0, 80, 5), (0, 79, 4), (0, 9_000, 5), (0, 15, 0), (0, 0, 0), (2, 32, 2), (4, 17, 1)] {
        let wanted = &all[first..first + count];
        same(&format!("vector, elements from {first} in {room}"), listed(&v, first as u64, room), spelled(wanted));
    }
    for first in [5, 6, u64::MAX] {
        same(&format!("vector, elements from {first}"), listed(&v, first, 70_000), "ok 0 -".into());
    }
    same("cut, elements", listed(&v[..236], u64::MAX, 0), ask(format!("read {}", hex(&v[..236]))));
    same("canonical length", CANONICAL.len().to_string(), "265".into());
    same("vector canonical", room("canonical", &v), left(CANONICAL.as_bytes()));
    same("vector nson", room("nson_read", answer_bytes(&room("nson_write", &v)).as_slice()), left(&v));

    let event = answer_bytes(&room("nson_read", NSON.as_bytes()));
    same("the NSON draft's event as JSON", room("json_read", NSON.as_bytes()), left(&event));
    same("the NSON draft's event written", room("nson_write", &event), left(NSON.as_bytes()));
    let by_both = |value: u8, first: &[u8], second: &[u8]| format!("ok {value} {} {} {}", second.len(), hex(first), hex(second));
    same("the NSON draft's event by both", room("read_both", NSON.as_bytes()), by_both(2, &event, &event));
    same("(12) by both", room("read_both", text.as_bytes()), by_both(2, &a_b, &a_b));
    same("(13) by both", room("read_both", nson_with("0801000300").as_bytes()), by_both(1, b"", &a_b));
    same("a blank by both", room("read_both", b"{\"kind\":1}"), "refused 15 9".into());
    same("no room for both", ask(format!("read_both {} {}", hex(text.as_bytes()), a_b.len() - 1)), format!("refused 11 {}", a_b.len()));
    for (tags, texts, fits) in [(41, 1, true), (42, 1, false), (1, 61, true), (1, 62, false)] {
        let s = tagged(tags, texts);
        let written = room("nson_write", &s);
        let what = format!("{tags} tags of {texts}");
        if fits {
            same(&what, room("nson_read", &answer_bytes(&written)), left(&s));
        } else {
            same(&what, written, "refused 17 0".into());
        }
    }
    padded_numbers(&mut same);
    string_forms(&mut same);
    versioned_forms(&mut same);
    pointer_forms(&mut same);
    shared_pointer_forms(&mut same);
    tables(&mut same);
    bad_tables(&mut same);
    digests(&mut same);
    hash_states(&mut same);
    ids(&mut same);
    let lister = |s: &[u8]| ask(format!("lister {}", hex(s)));
    same("lister", lister(&packed(b"", &[0; 4])), "created_at 0\\nkind 0\\ncontent 0\\ntags 0\\n".into());
    same("lister, empty", lister(b""), "refused 2 at 0\\n".into());
    same("lister, cut", lister(&packed(b"\x80", b"")), "refused 4 at 128\\n".into());
    println!("{passed} passed, {failed} failed");
    failed == 0
}

/// Numbers longer than need be, in each place and of each length, beside cut and overlong ones. Rules 2.4 to 2.7.
fn padded_numbers(same: &mut impl FnMut(&str, String, String)) {
    let (nine, most) = ([0x80; 9], [0xff; 9]);
    for (spelled, number) in [
        (&b"\x80\0"[..], 24),
        (b"\xff\0", 24),
        (b"\x85\0", 24),
        (b"\x80\x80\0", 24),
        (b"\xff\xff\0", 24),
        (&[&nine[..8], &[0]].concat(), 24),
        (&[&nine[..], &[0]].concat(), 24),
        (&[&most[..], &[0]].concat(), 24),
        (&[&most[..], &[2]].concat(), 3),
        (&[&nine[..], &[0x80]].concat(), 3),
        (b"\x80", 4),
        (&nine, 4),
    ] {
        // created_at, kind, the content's length, the number of tags, a tag's number of elements, an element's word
        for before in [&b""[..], b"\0", b"\0\0", b"\0\0\0", b"\0\0\0\x01", b"\0\0\0\x01\x01"] {
            let s = packed(before, spelled);
            let what = format!("{} behind {}", hex(spelled), hex(before));
            let wanted = format!("refused {number} {}", 128 + before.len());
            same(&what, ask(format!("read {}", hex(&s))), wanted.clone());
            if number != 4 {
                let more = [&s[..], b"\0\0\0\0\0"].concat();
                same(&format!("{what}, with more behind"), ask(format!("strict {}", hex(&more))), wanted);
            }
        }
    }
    // a tenth byte 01 is needed; the number is then too large, wherever it stands
    let top = [&nine[..], &[1]].concat();
    for (before, wanted) in [(&b""[..], "7 128"), (b"\0", "6 129"), (b"\0\0", "2 130"), (b"\0\0\0", "8 131")] {
        same("2 to the power 63", ask(format!("read {}", hex(&packed(before, &top)))), format!("refused {wanted}"));
    }
}

/// The vector's string form, what differs from one, and the limit. Part 14.
fn string_forms(same: &mut impl FnMut(&str, String, String)) {
    let (v, string) = (vector(), STRING.as_bytes());
    same("string form, length", STRING.len().to_string(), "325".into());
    same("string form, written", room("string_write", &v), left(string));
    same("string form, read", room("string_read", string), left(&v));
    for (entry, input, most) in [("string_write", &v[..], 325), ("string_read", string, 237)] {
        for room in [0, most - 1] {
            let got = ask(format!("{entry} {} {room}", hex(input)));
            same(&format!("{entry} in {room}"), got, format!("refused 11 {most}"));
        }
    }
    let (hollow, strict) = (packed(b"\0", b"\0\0\x01\x01\x01"), packed(b"\0", b"\0\0\x01\x01\0"));
    same("string form of the word 01", room("string_write", &hollow), room("string_write", &strict));
    let of_hollow = format!("notepack_{}BAQE", "A".repeat(175));
    same("the word 01 by its string form", room("string_read", of_hollow.as_bytes()), left(&hollow));
    let of_padded = format!("notepack_{}C{}", "A".repeat(170), "A".repeat(7));
    same("a padded number by its string form", room("string_read", of_padded.as_bytes()), "refused 24 128".into());
    let padded = packed(b"\x80\0", b"\0\0\0");
    same("string form of a padded number", room("string_write", &padded), "refused 24 128".into());
    for (text, wanted) in [
        ("", "refused 20 0"),
        ("notepack", "refused 20 0"),
        ("Notepack_AAAA", "refused 20 0"),
        ("notepack_", "refused 2 0"),
        ("notepack_AAAA", "refused 2 0"),
        ("notepack_A", "refused 21 10"),
        ("notepack_AAAAA", "refused 21 14"),
        ("notepack_AAAA-", "refused 21 13"),
        ("notepack_AAAA=", "refused 21 13"),
        ("notepack_\nAAA", "refused 21 9"),
        ("notepack_AAAAAB", "refused 21 15"),
        ("notepack_AAAAAQ", "refused 2 0"),
        ("notepack_AAAAAAB", "refused 21 16"),
        ("notepack_AAAAAAE", "refused 2 0"),
    ] {
        same(&format!("string form {text:?}"), room("string_read", text.as_bytes()), wanted.into());
    }
    // so many characters A are so many zeros, and those are what the notepack reader is asked about
    for (chars, zeros) in [(87_380, 65_535), (87_382, 65_536), (87_383, 65_537), (87_384, 65_538), (200_000, 150_000)] {
        let text = [&b"notepack_"[..], &vec![b'A'; chars]].concat();
        let wanted = ask(format!("read {}", hex(&vec![0; zeros])));
        same(&format!("string form of {zeros} zeros"), room("string_read", &text), wanted);
        let outside = [&text[..], b"!"].concat();
        let wanted = format!("refused 21 {}", text.len());
        same(&format!("string form of {zeros} zeros and !"), room("string_read", &outside), wanted);
    }
    let lone = [&b"notepack_"[..], &[b'A'; 87_381]].concat();
    same("string form of 87,381 characters", room("string_read", &lone), "refused 21 87390".into());
    let mut longest = packed(b"\0", b"\0\xfa\xfe\x03");
    longest.resize(65_535, b'x');
    longest.push(0);
    let string = answer_bytes(&ask(format!("string_write {} 87391", hex(&longest))));
    same("the longest string form", string.len().to_string(), "87391".into());
    same("the longest string form, read", ask(format!("string_read {} 65536", hex(&string))), left(&longest));
}

/// Versioned events: first bytes, places, the limit, moves, string forms, and words that are not true. Part 17.
fn versioned_forms(same: &mut impl FnMut(&str, String, String)) {
    let (bare, v) = (vector(), versioned(&vector()));
    for (given, wanted) in [
        (format!("v:{}", hex(&v)), "ok 1720000000 0 136 5 2"),
        (format!("b:{}", hex(&bare)), "ok 1720000000 0 135 5 2"),
        (format!("v:{}", hex(&bare)), "refused 25 0"),
        (format!("v:{}", hex(&v[..130])), "refused 4 129"),
        (format!("v:{}", hex(&v[..129])), "refused 2 129"),
        ("v:-".into(), "refused 2 0"),
        ("v:01".into(), "refused 2 1"),
        ("v:02".into(), "refused 25 0"),
        ("b:-".into(), "refused 2 0"),
    ] {
        same(&format!("read {:.20}", given), ask(format!("read {given}")), wanted.into());
    }
    same("an element", ask(format!("element v:{} 0 1", hex(&v))), "ok 146 32 1".into());
    same("no element", ask(format!("element v:{} 9 1", hex(&v))), "refused 19 0".into());
    same("strict", ask(format!("strict v:{}", hex(&v))), "yes".into());
    same("packed", ask(format!("pack v:{} 237", hex(&v))), left(&bare));
    same("packed without room", ask(format!("pack v:{} 236", hex(&v))), "refused 11 237".into());
    // the limit counts the 01, and comes before it
    let mut most = packed(b"\0", b"\0\xf9\xfe\x03");
    most.resize(65_534, b'x');
    most.push(0);
    let long = versioned(&most);
    same("65,536 bytes", ask(format!("read v:{}", hex(&long))), "ok 0 0 134 65401 0".into());
    for first in [0, 1, 2] {
        let longer = [&[first], &long[..]].concat();
        same("65,537 bytes", ask(format!("read v:{}", hex(&longer))), "refused 1 0".into());
    }
    for (bytes, moved, back) in [(&bare, &v, 237), (&most, &long, 65_535)] {
        same("there", room("to_versioned", bytes), left(moved));
        same("and back", ask(format!("to_bare {} {back}", hex(moved))), left(bytes));
        let short = ask(format!("to_versioned {} {back}", hex(bytes)));
        same("there, without room", short, format!("refused 11 {}", back + 1));
    }
    same("65,536 bytes moved", room("to_versioned", &long), "refused 1 0".into());
    same("65,536 bad bytes moved", room("to_versioned", &[0xff; 65_536]), "refused 1 0".into());
    let hollow = packed(b"\0", b"\0\0\x01\x01\x01");
    same("nothing is made strict", room("to_versioned", &hollow), left(&versioned(&hollow)));
    // the string form keeps the form
    let string = answer_bytes(&ask(format!("string_write v:{} 328", hex(&v))));
    same("versioned string form, length", string.len().to_string(), "328".into());
    same("its prefix", String::from_utf8_lossy(&string[..12]).into(), "notepack1_AQ".into());
    same("versioned string form, read", room("string1_read", &string), left(&v));
    same("by the other reader", room("string_read", &string), "refused 20 0".into());
    same("a bare one by this reader", room("string1_read", STRING.as_bytes()), "refused 20 0".into());
    for (text, wanted) in [
        ("notepack1_", "refused 2 0"),
        ("notepack1_AQ", "refused 2 1"),
        ("notepack1_Ag", "refused 25 0"),
        ("notepack1_AAAA", "refused 25 0"),
        ("notepack1_AAAAA", "refused 21 15"),
        ("notepack1_AAAA-", "refused 21 14"),
    ] {
        same(text, room("string1_read", text.as_bytes()), wanted.into());
    }
    // 01 and an event of kind 1, said to be bare
    let one = versioned(&packed(b"\0", b"\x01\0\0"));
    same("a true word", ask(format!("read v:{}", hex(&one))), "ok 0 1 132 0 0".into());
    same("a wrong word", ask(format!("read b:{}", hex(&one))), "ok 0 0 131 1 0".into());
    let later = {
        let mut later = v.clone();
        later[130] += 1;
        later
    };
    let rivals = |a: String, b: String| ask(format!("rivals {a} {b}"));
    same("two forms", rivals(format!("b:{}", hex(&bare)), format!("v:{}", hex(&later))), "second".into());
    same("two wrong words", rivals(format!("v:{}", hex(&bare)), "v:02".into()), "refused 25 0 1".into());
    same("the second's", rivals(format!("b:{}", hex(&bare)), format!("v:{}", hex(&bare))), "refused 25 0 2".into());
}

/// A pointer form with zeros for id, pubkey and sig, of kind 1 and of one second.
fn form(version: u64, content: (u64, u64), tags: (u64, u64), data: &[u8]) -> Vec<u8> {
    let mut s = ((72 + data.len() as u64) | version << 32).to_le_bytes().to_vec();
    s.extend([0; 32]);
    s.extend(words(&[1, 1_000]));
    s.extend(words(&[content, tags].map(|(offset, length)| offset << 32 | length)));
    [&s[..], data, &[0; 96]].concat()
}

fn words(all: &[u64]) -> Vec<u8> {
    all.iter().flat_map(|word| word.to_le_bytes()).collect()
}

/// The form with eight bytes changed.
fn with_word(form: &[u8], at: usize, word: u64) -> Vec<u8> {
    let mut changed = form.to_vec();
    changed[at..at + 8].copy_from_slice(&word.to_le_bytes());
    changed
}

/// Pointer forms: there and back, each refusal at its place, and the order of these. Part 18.
fn pointer_forms(same: &mut impl FnMut(&str, String, String)) {
    let empty = packed(b"\0", b"\0\0\0");
    let written = answer_bytes(&room("pointer_write", &empty));
    same("nothing in it, length", written.len().to_string(), "168".into());
    same("nothing in it", hex(&written), hex(&[&[72][..], &[0; 167]].concat()));
    for s in [&empty, &vector(), &packed(b"\x01", b"\x01\x01a\x02\x02\0\x03\xab\x01\x02b")] {
        let v0 = answer_bytes(&ask(format!("pointer_write {} 65536", hex(s))));
        same("there and back", room("pointer_convert", &v0), left(s));
        same("without room", ask(format!("pointer_convert {} 0", hex(&v0))), format!("refused 11 {}", s.len()));
        let short = ask(format!("pointer_write v:{} {}", hex(&versioned(s)), v0.len() - 1));
        same("versioned, without room", short, format!("refused 11 {}", v0.len()));
    }
    let hollow = packed(b"\0", b"\0\0\x01\x01\x01");
    let v0 = answer_bytes(&room("pointer_write", &hollow));
    same("an element of no bytes", room("pointer_convert", &v0), left(&packed(b"\0", b"\0\0\x01\x01\0")));

    // one tag of two texts, `ab` and the content, and six bytes that nothing points to
    let pointers = words(&[8 << 32 | 16, 24 << 32 | 2, 32 << 32 | 3]);
    let data = [&pointers[..], b"ab", &[0xff; 6], b"xyz"].concat();
    let good = form(0, (32, 3), (0, 8), &data);
    let read = |s: &[u8]| ask(format!("pointer_read {}", hex(s)));
    same("read", read(&good), "ok 0 1 1000 104 3 1".into());
    same("tag", ask(format!("pointer_tag {} 0", hex(&good))), "ok 2".into());
    same("no tag", ask(format!("pointer_tag {} 1", hex(&good))), "refused 19 0".into());
    same("element", ask(format!("pointer_element {} 0 0", hex(&good))), "ok 96 2".into());
    same("shared", ask(format!("pointer_element {} 0 1", hex(&good))), "ok 104 3".into());
    same("no element", ask(format!("pointer_element {} 0 2", hex(&good))), "refused 19 0".into());
    let converted = packed(b"\x01", b"\x01\x03xyz\x01\x02\x03\xab\x06xyz");
    same("converted", room("pointer_convert", &good), left(&converted));
    let v1 = form(1, (32, 3), (0, 8), &data);
    same("a v1", read(&v1), "ok 1 1 1000 104 3 1".into());
    for wrong in [v1.clone(), with_word(&v1, 56, 1 << 32)] {
        same("a v1 converted", room("pointer_convert", &wrong), "refused 26 0".into());
    }
    for (at, word, of_v0, of_v1) in [
        (0, 107 | 2 << 32, "refused 26 0", "refused 26 0"),
        (0, 107 | 1 << 48, "refused 26 0", "refused 26 0"),
        (0, 106, "refused 26 0", "refused 26 0"),
        (40, 65_535, "ok 0 65535 1000 104 3 1", "ok 1 65535 1000 104 3 1"),
        (40, 65_536, "refused 6 40", "ok 1 65536 1000 104 3 1"),
        (40, u64::MAX, "refused 6 40", "ok 1 18446744073709551615 1000 104 3 1"),
        (48, 999, "refused 28 48", "ok 1 1 999 104 3 1"),
        (48, -1_000i64 as u64, "refused 28 48", "ok 1 1 -1000 104 3 1"),
        (48, 1 << 63, "refused 28 48", "ok 1 1 -9223372036854775808 104 3 1"),
        (48, 9_223_372_036_854_775_000, "ok 0 1 9223372036854775000 104 3 1", "ok 1 1 9223372036854775000 104 3 1"),
        (56, 33 << 32 | 1, "refused 27 56", "refused 27 56"),
        (56, 32 << 32 | 4, "refused 27 56", "refused 27 56"),
        (56, 40 << 32, "refused 27 56", "refused 27 56"),
        (56, 24 << 32 | 3, "refused 5 96", "ok 1 1 1000 96 3 1"),
        (56, 32 << 32, "ok 0 1 1000 104 0 1", "ok 1 1 1000 104 0 1"),
        (64, 9, "refused 27 64", "refused 27 64"),
        (64, u64::MAX, "refused 27 64", "refused 27 64"),
        (72, 8 << 32, "refused 9 72", "ok 1 1 1000 104 3 1"),
        (72, 8 << 32 | 12, "refused 27 72", "refused 27 72"),
        (88, 32 << 32 | 4, "refused 27 88", "refused 27 88"),
        (88, 24 << 32 | 4, "refused 5 96", "ok 1 1 1000 104 3 1"),
    ] {
        same(&format!("{word:x} at {at}, v0"), read(&with_word(&good, at, word)), of_v0.into());
        same(&format!("{word:x} at {at}, v1"), read(&with_word(&v1, at, word)), of_v1.into());
    }
    for length in [0, 8, 167] {
        same("fewer than 168 bytes", read(&vec![0; length]), "refused 26 0".into());
    }
    for (count, wanted) in [(1_000, "ok 0 1 1000 72 0 1000"), (1_001, "refused 8 64")] {
        let data = [words(&vec![8 * count << 32 | 8; count as usize]), words(&[0])].concat();
        same(&format!("{count} tags"), read(&form(0, (0, 0), (0, 8 * count), &data)), wanted.into());
    }
    for (count, wanted) in [(255, "ok 0 1 1000 72 0 1"), (256, "refused 8 72")] {
        let data = [words(&[8 << 32 | 8 * count]), words(&vec![0; count as usize])].concat();
        same(&format!("{count} texts"), read(&form(0, (0, 0), (0, 8), &data)), wanted.into());
    }
    // the longest, and one longer
    for (size, wanted) in [(65_368, "ok 0 1 1000 72 65368 0"), (65_369, "refused 1 0")] {
        let long = form(0, (0, size), (size, 0), &vec![b'x'; size as usize]);
        same(&format!("data of {size} bytes"), read(&long), wanted.into());
        if size == 65_368 {
            let back = answer_bytes(&ask(format!("pointer_convert {} 65536", hex(&long))));
            same("the longest v0", ask(format!("pointer_write {} 65536", hex(&back))), left(&long));
        }
    }
    let over = [&packed(b"\0", b"\0\xd9\xfe\x03")[..], &vec![b'x'; 65_369], b"\0"].concat();
    same("no longer v0", ask(format!("pointer_write {} 0", hex(&over))), "refused 29 0".into());
}

/// Texts that tags share: answers as without sharing, 29 where the strict form is too long, and forms that name 10^10
/// bytes. Rules 18.6 and 18.13.
fn shared_pointer_forms(same: &mut impl FnMut(&str, String, String)) {
    // so many tags of so many texts, each of which is the whole content
    let shared = |version: u64, tags: u64, texts: u64, text: &[u8]| {
        let (of_tags, of_texts, length) = (8 * tags, 8 * texts, text.len() as u64);
        let mut data = words(&vec![of_tags << 32 | of_texts; tags as usize]);
        data.extend(words(&vec![(of_tags + of_texts) << 32 | length; texts as usize]));
        data.extend(text);
        form(version, (of_tags + of_texts, length), (0, of_tags), &data)
    };
    let read = |s: &[u8]| ask(format!("pointer_read {}", hex(s)));
    let convert = |s: &[u8]| ask(format!("pointer_convert {} 0", hex(s)));
    // id, pubkey, sig, four small numbers, the content behind a length of two bytes, three texts behind words of three
    let size = |text: &[u8]| convert(&shared(0, 1, 3, text));
    for (length, wanted) in [(16_347, "refused 11 65531"), (16_348, "refused 11 65535"), (16_349, "refused 29 0")] {
        same(&format!("three times {length}"), size(&vec![b'x'; length]), wanted.into());
    }
    let worst = shared(0, 1_000, 255, &[b'x'; 55_000]);
    same("10^10 bytes, read", read(&worst), "ok 0 1 1000 10112 55000 1000".into());
    same("10^10 bytes, converted", convert(&worst), "refused 29 0".into());
    let mut ill = worst.clone();
    ill[10_112 + 54_999] = 0xc3;
    same("10^10 bytes, the last one bad", read(&ill), "refused 5 10112".into());
    let last = with_word(&worst, 72 + 8 * 1_254, 10_040 << 32 | 55_001);
    same("10^10 bytes, the last pointer", read(&last), "refused 27 10104".into());
    let all = form(1, (0, 0), (0, 65_368), &words(&[65_368; 8_171]));
    same("one table for all", read(&all), "ok 1 1 1000 72 0 8171".into());
    same("one of its tags", ask(format!("pointer_tag {} 8170", hex(&all))), "ok 8171".into());
    let but_one = with_word(&all, 72 + 8 * 8_170, 65_369);
    same("one table for all but one", read(&but_one), "refused 27 65432".into());
}

/// A strict event by a number for each of id and author, with a label.
fn record(id: u8, author: u8, time: u8, kind: u64, label: &str) -> Vec<u8> {
    let mut s = [[id; 32], [author; 32], [7; 32], [7; 32]].concat();
    s.push(time);
    let mut kind = kind;
    while kind >= 0x80 {
        s.push(kind as u8 | 0x80);
        kind >>= 7;
    }
    s.extend([kind as u8, 0, 1, 2, 2, b'd', 2 * label.len() as u8]);
    s.extend(label.as_bytes());
    s
}

/// Offers one after the other, and what the slots then hold. Part 15.
fn tables(same: &mut impl FnMut(&str, String, String)) {
    let mut session = Session::new();
    let mut ask = |request: &str| session.answer(request).unwrap_or_default();
    let offered = |s: &[u8]| format!("table_offer {}", hex(s));
    let with_kind = |kind: u64| record(1, 1, 9, kind, "map");
    let tagged = |id: u8, time: u8, tags: &[u8]| {
        let fixed = [[id; 32], [1; 32], [7; 32], [7; 32]].concat();
        [&fixed[..], &[time, 0xb0, 0xea, 1, 0], tags].concat()
    };
    for (what, event, wanted) in [
        ("the first", record(5, 1, 9, 30_000, "map"), "new"),
        ("the same", record(5, 1, 9, 30_000, "map"), "held"),
        ("an earlier one", record(5, 1, 8, 30_000, "map"), "loses"),
        ("as late, a higher id", record(6, 1, 9, 30_000, "map"), "loses"),
        ("as late, a lower id", record(4, 1, 9, 30_000, "map"), "replaced"),
        ("a later one", record(6, 1, 10, 30_000, "map"), "replaced"),
        ("another label", record(6, 1, 9, 30_000, "test"), "new"),
        ("an empty label", record(6, 1, 9, 30_000, ""), "new"),
        ("no text behind d", tagged(5, 10, b"\x01\x01\x02d"), "replaced"),
        ("no tag", tagged(6, 10, b"\0"), "loses"),
        ("no tag, later", tagged(6, 11, b"\0"), "replaced"),
        ("no text behind the first d", tagged(6, 12, b"\x02\x01\x02d\x02\x02d\x06map"), "replaced"),
        ("a label, then no text behind d", tagged(9, 10, b"\x02\x02\x02d\x06map\x01\x02d"), "loses"),
        ("another author", record(6, 2, 9, 30_000, "map"), "new"),
        ("another kind", record(6, 1, 9, 30_001, "map"), "new"),
        ("kind 0", with_kind(0), "new"),
        ("kind 0, another label", record(1, 1, 9, 0, "test"), "loses"),
        ("kind 1", with_kind(1), "new"),
        ("kind 2, the same id", with_kind(2), "held"),
        ("kind 1, later", record(1, 1, 10, 1, "map"), "held"),
        ("kind 20000", with_kind(20_000), "not_kept"),
        ("kind 29999", with_kind(29_999), "not_kept"),
        ("kind 40000, another id", record(2, 1, 9, 40_000, ""), "new"),
        ("nothing", vec![], "refused 2 0"),
        ("cut", packed(b"\0", b"\0\x01"), "refused 2 130"),
        ("too long", vec![0; 65_537], "refused 1 0"),
    ] {
        same(&format!("offer, {what}"), ask(&offered(&event)), wanted.into());
    }
    let kept = record(6, 1, 10, 30_000, "map");
    same("slot 0", ask("table_look 0"), format!("used {} {}", kept.len(), hex(&kept)));
    same("slot 0, viewed", ask("table_slot 0"), format!("ok 0 {}", kept.len()));
    same("slot 3, viewed", ask("table_slot 3"), format!("ok 3072 {}", kept.len()));
    same("slot 2, viewed", ask("table_slot 2"), format!("ok 2048 {}", kept.len() + 3));
    for n in [8, 63, 64, u64::MAX] {
        same(&format!("slot {n}, viewed"), ask(&format!("table_slot {n}")), "refused 19 0".into());
    }
    same("emptied", ask("table_empty"), "ok".into());
    same("slot 0, emptied", ask("table_look 0"), "free 0 -".into());
    // a cell holds 1,024 bytes and not one more, whatever the kind; the strict form is measured
    let filled = |kind: &[u8], length: usize| {
        let mut s = packed(b"\0", &[kind, &[0x80 | (length % 128) as u8, (length / 128) as u8]].concat());
        s.resize(s.len() + length, b'x');
        s.push(0);
        s
    };
    for (kind, length, wanted) in
        [(&b"\0"[..], 891, "new"), (b"\0", 892, "refused 22 0"), (b"\xa0\x9c\x01", 890, "refused 22 0")]
    {
        let s = filled(kind, length);
        same(&format!("{} bytes", s.len()), ask(&offered(&s)), wanted.into());
    }
    let mut as_text = packed(b"\0", b"\x03\0\x01\x01\x90\x0e");
    as_text.extend([b'a'; 904]);
    same("1,039 bytes of 587", format!("{} {}", as_text.len(), ask(&offered(&as_text))), "1039 new".into());
    let padded = packed(b"\x80\0", &filled(b"\x04", 891)[129..]);
    same("a padded number, offered", ask(&offered(&padded)), "refused 24 128".into());
    // 62 more fill it; then there is room only for what replaces
    for id in 2..64 {
        same("filling", ask(&offered(&record(id, 1, 9, 1, ""))), "new".into());
    }
    same("full, another", ask(&offered(&record(99, 1, 9, 1, ""))), "refused 23 0".into());
    same("full, a passing one", ask(&offered(&record(99, 1, 9, 20_000, ""))), "not_kept".into());
    same("full, held", ask(&offered(&record(63, 1, 9, 1, ""))), "held".into());
    same("full, a longer one", ask(&offered(&filled(b"\0", 892))), "refused 22 0".into());
    let mut later = filled(b"\0", 200);
    later[128] = 1;
    same("full, a later one", ask(&offered(&later)), "replaced".into());
    let rest = [&later[..], &vec![b'x'; 690], &[0]].concat();
    same("behind the later one", ask("table_look 0"), format!("used 333 {}", hex(rest.strip_suffix(b"\0").unwrap())));
}

/// Tables that are none. Part 15.
fn bad_tables(same: &mut impl FnMut(&str, String, String)) {
    let mut session = Session::new();
    let mut ask = |request: &str| session.answer(request).unwrap_or_default();
    let (good, loose) = (record(1, 1, 9, 1, "a"), packed(b"\0", b"\0\0\x01\x01\x01"));
    let padded = packed(b"\x80\0", b"\0\0\0");
    let other = record(2, 1, 9, 1, "a");
    let (keyed, later) = (record(1, 1, 9, 0, "a"), record(2, 1, 10, 0, "b"));
    let passing = record(1, 1, 9, 20_000, "a");
    let at = |n: usize, s: &[u8]| format!("{n}:{}:{}", s.len(), hex(s));
    let length = |n: usize, length: u64| format!("{n}:{length}:{}", hex(&good));
    for (what, slots, words, wanted) in [
        ("63 slots", 63, vec![], "refused 34 0"),
        ("65 slots", 65, vec![], "refused 34 0"),
        ("none", 0, vec![], "refused 34 0"),
        ("a used slot without an event", 64, vec!["3:0:-".into()], "refused 34 3"),
        ("a length too little", 64, vec![length(5, good.len() as u64 - 1)], "refused 34 5"),
        ("a length too much", 64, vec![length(63, good.len() as u64 + 1)], "refused 34 63"),
        ("a length past the cell", 64, vec![length(1, 1_025)], "refused 34 1"),
        ("the greatest length", 64, vec![length(1, u64::MAX)], "refused 34 1"),
        ("not strict", 64, vec![at(9, &loose)], "refused 34 9"),
        ("a padded number", 64, vec![at(9, &padded)], "refused 34 9"),
        ("a passing kind", 64, vec![at(9, &passing)], "refused 34 9"),
        ("two of one id", 64, vec![at(9, &good), at(30, &good)], "refused 34 9"),
        ("two of one key", 64, vec![at(9, &keyed), at(8, &later)], "refused 34 8"),
        ("the twin of a bad slot", 64, vec![at(0, &good), at(9, &passing)], "refused 34 9"),
        ("two bad slots", 64, vec![at(20, &loose), at(9, &passing)], "refused 34 9"),
        ("one id with a key and without", 64, vec![at(0, &good), at(1, &keyed)], "refused 2 0"),
        ("different ids", 64, vec![at(0, &good), at(1, &other)], "refused 2 0"),
        ("a free slot that is not zero", 64, vec![format!("~0:9:{}", hex(&good)), at(1, &good)], "refused 2 0"),
    ] {
        same(what, ask(&[vec![format!("table_load {slots}")], words].concat().join(" ")), "ok".into());
        same(what, ask("table_offer -"), wanted.into());
        let view = if wanted == "refused 2 0" { "refused 19 0" } else { wanted };
        same(&format!("{what}, viewed"), ask("table_slot 64"), view.into());
        same(&format!("{what}, emptied"), ask("table_empty"), if slots == 64 { "ok" } else { "refused 34 0" }.into());
    }
}

/// A message in pieces of so many bytes.
fn digest_by(message: &[u8], piece: usize) -> String {
    let pieces: Vec<String> = message.chunks(piece).map(hex).collect();
    let request = format!("sha256 {}", if pieces.is_empty() { "-".into() } else { pieces.join(" ") });
    HashSession::new().answer(&request).unwrap_or_default()
}

/// The examples that NIST gives for FIPS 180-4; and all lengths up to 300, by Python's hashlib, as the digest of their
/// digests. Rule 16.1.
fn digests(same: &mut impl FnMut(&str, String, String)) {
    let a_million = [b'a'; 1_000_000];
    for (what, message, digest) in [
        ("nothing", &b""[..], "e3b0c44298fc1c149afbf4c8996fb92427ae41e4649b934ca495991b7852b855"),
        ("abc", b"abc", "ba7816bf8f01cfea414140de5dae2223b00361a396177a9cb410ff61f20015ad"),
        (
            "two blocks",
            b"abcdbcdecdefdefgefghfghighijhijkijkljklmklmnlmnomnopnopq",
            "248d6a61d20638b8e5c026930c3e6039a33ce45964ff2167f6ecedd419db06c1",
        ),
        (
            "more in two blocks",
            b"abcdefghbcdefghicdefghijdefghijkefghijklfghijklmghijklmnhijklmnoijklmnopjklmnopqklmnopqrlmnopqrs\
              mnopqrstnopqrstu",
            "cf5b16a778af8380036ce59e7b0492370b249b11e8f07a51afac45037afee9d1",
        ),
        ("a million", &a_million, "cdc76e5c9914fb9281a1c7e284d73e67f1809a48a497200e046d39ccc7112cd0"),
    ] {
        for piece in [1, 55, 56, 63, 64, 65, 1_000_000] {
            same(&format!("the digest of {what} by {piece}"), digest_by(message, piece), format!("ok {digest}"));
        }
    }
    let message: Vec<u8> = (0..300).map(|i: usize| (7 * i + 3) as u8).collect();
    let all = (0..=300).flat_map(|length| {
        let answer = digest_by(&message[..length], 1 + length / 3);
        crate::bytes(&answer[3..]).unwrap_or_default()
    });
    let wanted = "ok 7d917fbd2cf49ddff9ad0a8706bba32d204e92e71d2e369c5a03d6af29278c9f";
    same("the digest of 301 digests", digest_by(&all.collect::<Vec<_>>(), 10_000), wanted.into());
}

/// Started, added to and finished; at the limit; and any bytes as a state. Part 16.
fn hash_states(same: &mut impl FnMut(&str, String, String)) {
    let mut session = HashSession::new();
    let mut ask = |request: &str| session.answer(request).unwrap_or_default();
    let words = "6a09e667bb67ae853c6ef372a54ff53a510e527f9b05688c1f83d9ab5be0cd19";
    let nothing = format!("ok {words}{}", "0".repeat(144));
    let (of_a, of_abc) = (digest_by(b"a", 1), digest_by(b"abc", 1));
    for (request, wanted) in [
        ("sha_look", &nothing[..]),
        ("sha_add 61", "ok 1"),
        ("sha_look", &format!("ok {words}010000000000000061{}", "0".repeat(126))),
        ("sha_finish", &of_a),
        ("sha_add -", "ok 1"),
        ("sha_finish_in 31", "refused 11 32"),
        ("sha_finish_in 32", &of_a),
        ("sha_add 6263", "ok 3"),
        ("sha_finish", &of_abc),
        ("sha_finish", &of_abc),
        ("sha_new", "ok"),
        ("sha_look", &nothing),
        ("sha_set 2305843009213693951", "ok"),
        ("sha_add -", "ok 2305843009213693951"),
        ("sha_add 61", "refused 35 0"),
        ("sha_add -", "ok 2305843009213693951"),
        ("sha_set 2305843009213693950", "ok"),
        ("sha_add 61", "ok 2305843009213693951"),
        ("sha_set 2305843009213693952", "ok"),
        ("sha_add -", "refused 35 0"),
        ("sha_finish", "refused 35 0"),
        ("sha_finish_in 0", "refused 35 0"),
        ("sha_set 18446744073709551615", "ok"),
        ("sha_add 6161", "refused 35 0"),
        ("sha_add 61", "refused 35 0"),
        ("sha_set 2", "ok"),
        ("sha_look", &format!("ok {words}02000000000000000000{}", "e".repeat(124))),
        ("sha_finish", &digest_by(&[0, 0], 1)),
        ("sha_add -", "ok 2"),
        ("sha_look", &format!("ok {words}0200000000000000{}", "0".repeat(128))),
        ("sha_finish", &digest_by(&[0, 0], 1)),
        ("sha_load -", "ok"),
        ("sha_start", "refused 11 104"),
        ("sha_add 61", "refused 11 104"),
        ("sha_finish_in 0", "refused 11 104"),
        ("sha_look", "ok -"),
    ] {
        same(request, ask(request), wanted.into());
    }
    for length in [103, 104, 105] {
        same("loaded", ask(&format!("sha_load {}", "ff".repeat(length))), "ok".into());
        let wanted = if length < 104 { "refused 11 104" } else { "refused 35 0" };
        same(&format!("{length} bytes of ff, added to"), ask("sha_add -"), wanted.into());
        same(&format!("{length} bytes of ff, finished"), ask("sha_finish_in 0"), wanted.into());
        same(&format!("{length} bytes of ff"), ask("sha_look"), format!("ok {}", "ff".repeat(length.min(104))));
    }
}

/// The NSON draft's event has its id, and so have events whose ids Python's hashlib made, however they are spelled.
/// With one bit of the id, of the author or of the time changed none has it; the signature does not count. Rules 16.12
/// to 16.14.
fn ids(same: &mut impl FnMut(&str, String, String)) {
    let belongs = |s: &[u8]| ask(format!("id_belongs {}", hex(s)));
    let event = answer_bytes(&room("nson_read", NSON.as_bytes()));
    same("the NSON draft's id", belongs(&event), "yes".into());
    same("the vector's id", belongs(&vector()), "no".into());
    same("a cut id", belongs(&event[..31]), "refused 2 0".into());
    same("the id of a padded event", belongs(&packed(b"\x80\0", b"\0\0\0")), "refused 24 128".into());
    same("the id of too much", belongs(&[0; 65_537]), "refused 1 0".into());
    const ODD: &[u8] = b"\n\"\\\r\t\x08\x0c\x01\x1f\x7f/";
    let escapes = [b"\x01\x0b", ODD, b"\x01\x01\x16", ODD].concat();
    let longest = [&b"\x01\xfa\xfe\x03"[..], &[b'x'; 65_402], b"\0"].concat();
    let lines = [&b"\x01\xe0\xd4\x03"[..], &[b'\n'; 60_000], b"\0"].concat();
    let tags = [&b"\x01\0\xe8\x07"[..], &b"\x01\0".repeat(1_000)].concat();
    let not_ascii = "\u{20ac}\u{1f442}".as_bytes();
    let not_ascii = [&b"\xb0\xea\x01\x07"[..], not_ascii, b"\x01\x02\x02d\x04\xc3\xa9"].concat();
    for (what, time, rest, id) in [
        (
            "nothing",
            &b"\0"[..],
            &b"\0\0\0"[..],
            "d23368f79cfcdd3ade5259fed1b761a9810fbbf55bc4a2d3dbbecd1d19a86b81",
        ),
        ("a quote", BILLION, b"\x01\x03a\"b\0", "313c2592107f2a38e7961ba7590abf32d362cf91623e02b0aee2b94a3c60bd73"),
        ("escapes", b"\0", &escapes, "657dd77b9b32ddf1e1e9c9b0de95e1f3ab15ec056712710cfcc6f1fbb7107283"),
        (
            "hex digits, raw",
            b"\0",
            b"\x01\0\x01\x02\x02d\x03\xab",
            "739d9f78806150b32df02451a9ffcddce8557a8b269e8b7674f8675f4b011a88",
        ),
        (
            "hex digits as text",
            b"\0",
            b"\x01\0\x01\x02\x02d\x04ab",
            "739d9f78806150b32df02451a9ffcddce8557a8b269e8b7674f8675f4b011a88",
        ),
        (
            "an empty text",
            b"\0",
            b"\x01\0\x01\x01\0",
            "f9f679439674d749f9766dad3e61f75abef42bbfd88f4eb8176c6780f70bbce0",
        ),
        (
            "an empty text, raw",
            b"\0",
            b"\x01\0\x01\x01\x01",
            "f9f679439674d749f9766dad3e61f75abef42bbfd88f4eb8176c6780f70bbce0",
        ),
        (
            "capitals, and an odd number of digits",
            b"\0",
            b"\x01\0\x02\x01\x04AB\x01\x06abc",
            "5cbd9d8a1dd0ec837a249ff837409da273f5e9dd0989f18fff280918e2b35626",
        ),
        (
            "not ASCII",
            b"\x80\xbc\x94\xb4\x06",
            &not_ascii,
            "f5cf063f46b7e36fb76929256c7ca4e4146d233f9c39c21439390f40d1638688",
        ),
        (
            "limits",
            b"\xf7\xa7\x8d\xaf\xba\x93\xb1\x10",
            b"\xff\xff\x03\0\0",
            "c24d1c7cf623e9b37dd5d172c0f9f76fca49d72b94d7a35ab2cdc10622336952",
        ),
        ("1,000 tags", b"\0", &tags, "7d2cba9b77ad048677487f5d5b64c1aa7f6bf776dce78f21767a680391774694"),
        ("65,536 bytes", b"\0", &longest, "76a88a695708cbf81454b27a6096087f26d0257c69064b5cd42f36888bf91f6f"),
        ("line ends", b"\0", &lines, "b45e3e9a71c76765176c04733c37608ebaaca2a978d4493e78a38f3f22b575cf"),
    ] {
        let mut s = packed(time, rest);
        s[..32].copy_from_slice(&crate::bytes(id).unwrap());
        same(&format!("the id of {what}"), belongs(&s), "yes".into());
        for (place, wanted) in [(0, "no"), (31, "no"), (32, "no"), (63, "no"), (64, "yes"), (127, "yes"), (128, "no")] {
            s[place] ^= 1;
            same(&format!("the id of {what}, byte {place} changed"), belongs(&s), wanted.into());
            s[place] ^= 1;
        }
    }
}

fn ask(request: String) -> String {
    answer(&request).unwrap_or_default()
}

/// The answer with room for every event.
fn room(entry: &str, s: &[u8]) -> String {
    ask(format!("{entry} {} 70000", hex(s)))
}

/// The answer of an entry that leaves these bytes.
fn left(s: &[u8]) -> String {
    format!("ok {} {}", s.len(), hex(s))
}

/// The bytes of an answer `ok LENGTH BYTES`.
fn answer_bytes(answer: &str) -> Vec<u8> {
    answer.split(' ').nth(2).and_then(crate::bytes).unwrap_or_default()
}
