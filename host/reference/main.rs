//! The line protocol over this implementation: one request a line on standard input, one answer a line.
//!   reference < requests > answers
//!   reference --selftest
//!   reference --bench ENTRY FILE N      nanoseconds for a call, over N calls
//! A packed event is b:BYTES if it is said to be bare, v:BYTES if it is said to be versioned; without a mark, bare.

use hash_session::HashSession;
use reference::answer::{Answer, Refusal};
use reference::rivals::{Choice, Which};
use reference::versioned::{self, Given};
use reference::{both, canonical, hash, json, notepack, nson, pointer, rivals, sha256, string_form};
use session::Session;
use std::io::{self, BufRead, Write};

mod hash_session;
mod selftest;
mod session;

fn main() {
    let words: Vec<String> = std::env::args().skip(1).collect();
    let words: Vec<&str> = words.iter().map(String::as_str).collect();
    let good = match words[..] {
        [] => answer_all().is_ok(),
        ["--selftest"] => selftest::run(),
        ["--bench", entry, file, calls] => bench(entry, file, calls),
        _ => {
            eprintln!("usage: reference [--selftest | --bench ENTRY FILE N]");
            false
        }
    };
    std::process::exit(!good as i32);
}

fn answer_all() -> io::Result<()> {
    let mut out = io::BufWriter::new(io::stdout().lock());
    let (mut of_table, mut of_hash) = (Session::new(), HashSession::new());
    for line in io::stdin().lock().lines() {
        let line = line?;
        let of_session = of_table.answer(&line).or_else(|| of_hash.answer(&line));
        let answer = of_session.or_else(|| answer(&line)).unwrap_or_else(|| "no such request".into());
        out.write_all(answer.as_bytes())?;
        out.write_all(b"\n")?;
    }
    out.flush()
}

fn told(answer: Answer<String>) -> String {
    answer.unwrap_or_else(|r| format!("refused {} {}", r.number, r.place))
}

fn yes_or_no(yes: bool) -> String {
    if yes { "yes" } else { "no" }.into()
}

fn answer(line: &str) -> Option<String> {
    let words: Vec<&str> = line.split(' ').collect();
    Some(match words[..] {
        ["read" | "content" | "strict" | "id_belongs", s] => of_packed(words[0], said(s)?.given()),
        ["element", s, tag, element] => {
            let (s, tag, element) = (said(s)?, number(tag)?, number(element)?);
            let found = s.given().with(|s| notepack::read(s)?.element(tag, element));
            told(found.map(|text| format!("ok {} {} {}", s.given().place(text.at), text.payload.len(), text.raw as u8)))
        }
        ["elements", s, first, room] => {
            let (s, first, mut out) = (said(s)?, number(first)?, vec![0; number(room)? as usize]);
            let listed = notepack::elements(s.given(), first, &mut out);
            told(listed.map(|count| format!("ok {count} {}", hex(&out[..count as usize * notepack::ELEMENT_BYTES]))))
        }
        ["pointer_read", s] => told(pointer::read(&bytes(s)?).map(|form| {
            let (time, content) = (form.milliseconds, &form.content);
            let (at, length, tags) = (content.start, content.len(), form.tag_count());
            format!("ok {} {} {time} {at} {length} {tags}", form.version, form.kind)
        })),
        ["pointer_tag", s, tag] => {
            let (s, tag) = (bytes(s)?, number(tag)?);
            told(pointer::read(&s).and_then(|form| form.tag_len(tag)).map(|count| format!("ok {count}")))
        }
        ["pointer_element", s, tag, element] => {
            let (s, tag, element) = (bytes(s)?, number(tag)?, number(element)?);
            let found = pointer::read(&s).and_then(|form| form.element(tag, element));
            told(found.map(|text| format!("ok {} {}", text.start, text.len())))
        }
        ["lister", s] => notepack::list(&bytes(s)?).replace('\n', "\\n"),
        ["rivals", first, second] => match rivals::choose(said(first)?.given(), said(second)?.given()) {
            Ok(Choice::NotRivals) => "not_rivals".into(),
            Ok(Choice::First) => "first".into(),
            Ok(Choice::Second) => "second".into(),
            Err((Refusal { number, place }, which)) => {
                format!("refused {number} {place} {}", if which == Which::First { 1 } else { 2 })
            }
        },
        ["read_both", s, room] => {
            let room = number(room)? as usize;
            let (s, mut first, mut second) = (bytes(s)?, vec![0; room], vec![0; room]);
            told(both::read(&s, &mut first, &mut second).map(|(value, length)| {
                let first = if value == 2 { hex(&first[..length]) } else { "-".into() };
                format!("ok {value} {length} {first} {}", hex(&second[..length]))
            }))
        }
        [entry, s, room] => {
            let mut out = vec![0; number(room)? as usize];
            let written = match writing(entry) {
                Some(f) => f(&bytes(s)?, &mut out),
                None => writing_packed(entry)?(said(s)?.given(), &mut out),
            };
            told(written.map(|length| format!("ok {length} {}", hex(&out[..length]))))
        }
        _ => return None,
    })
}

/// What is asked of packed bytes alone.
fn of_packed(question: &str, s: Given) -> String {
    told(match question {
        "strict" => s.with(notepack::is_strict).map(yes_or_no),
        "id_belongs" => s.with(hash::id_belongs).map(yes_or_no),
        "content" => s.with(notepack::read).map(|p| format!("ok {} {}", s.place(p.content_at), p.content_len)),
        _ => s.with(notepack::read).map(|p| {
            format!("ok {} {} {} {} {}", p.created_at, p.kind, s.place(p.content_at), p.content_len, p.tag_count)
        }),
    })
}

type Writing = fn(&[u8], &mut [u8]) -> Answer<usize>;
type WritingPacked = fn(Given, &mut [u8]) -> Answer<usize>;

fn writing(entry: &str) -> Option<Writing> {
    Some(match entry {
        "nson_read" => nson::read,
        "json_read" => json::read,
        "string_read" => string_form::read,
        "string1_read" => string_form::read_versioned,
        "to_versioned" => versioned::from_bare,
        "to_bare" => versioned::to_bare,
        "pointer_convert" => pointer::convert,
        _ => return None,
    })
}

fn writing_packed(entry: &str) -> Option<WritingPacked> {
    Some(match entry {
        "pack" => |packed, out| packed.with(|s| notepack::write(s, out)),
        "canonical" => |packed, out| packed.with(|s| canonical::write(s, out)),
        "nson_write" => |packed, out| packed.with(|s| nson::write(s, out)),
        "string_write" => string_form::write,
        "pointer_write" => pointer::write,
        _ => return None,
    })
}

/// A packed input of a request.
pub struct Said {
    bytes: Vec<u8>,
    bare: bool,
}

impl Said {
    pub fn given(&self) -> Given<'_> {
        Given { bytes: &self.bytes, bare: self.bare }
    }
}

/// `v:BYTES` is said to be versioned; `b:BYTES`, or BYTES alone, to be bare.
pub fn said(word: &str) -> Option<Said> {
    let (bare, word) = match word.split_once(':') {
        Some(("v", word)) => (false, word),
        Some(("b", word)) => (true, word),
        _ => (true, word),
    };
    Some(Said { bytes: bytes(word)?, bare })
}

fn number(word: &str) -> Option<u64> {
    word.parse().ok()
}

pub fn bytes(word: &str) -> Option<Vec<u8>> {
    if word == "-" {
        return Some(Vec::new());
    }
    let mut bytes = vec![0; word.len() / 2];
    (word.len() % 2 == 0 && !word.is_empty() && reference::bytes::unhex(word.as_bytes(), &mut bytes)).then_some(bytes)
}

pub fn hex(bytes: &[u8]) -> String {
    if bytes.is_empty() {
        return "-".into();
    }
    let digit = |d: u8| char::from_digit(d as u32, 16).unwrap();
    bytes.iter().flat_map(|b| [digit(b >> 4), digit(b & 15)]).collect()
}

fn bench(entry: &str, file: &str, calls: &str) -> bool {
    let (Ok(bytes), Ok(calls)) = (std::fs::read(file), calls.parse::<u32>()) else {
        eprintln!("no file {file} or no number {calls}");
        return false;
    };
    let mut out = vec![0; notepack::LIMIT * notepack::ELEMENT_BYTES];
    let mut call: Box<dyn FnMut(&[u8]) -> Answer<u64>> = match entry {
        "read" => Box::new(|s| notepack::read(s).map(|p| p.created_at)),
        "strict" => Box::new(|s| notepack::is_strict(s).map(u64::from)),
        "id_belongs" => Box::new(|s| hash::id_belongs(s).map(u64::from)),
        "sha256" => Box::new(|s| Ok(sha256::digest(s)[0].into())),
        "pointer_read" => Box::new(|s| pointer::read(s).map(|form| form.kind)),
        "elements" => Box::new(move |s| notepack::elements(Given::bare(s), 0, &mut out)),
        _ => match (writing(entry), writing_packed(entry)) {
            (Some(f), _) => Box::new(move |s| f(s, &mut out).map(|length| length as u64)),
            (_, Some(f)) => Box::new(move |s| f(Given::bare(s), &mut out).map(|length| length as u64)),
            _ => {
                eprintln!("no entry {entry}");
                return false;
            }
        },
    };
    if let Err(r) = call(&bytes) {
        eprintln!("note: {entry} is refused {} {}", r.number, r.place);
    }
    let start = std::time::Instant::now();
    for _ in 0..calls {
        let _ = std::hint::black_box(call(std::hint::black_box(&bytes)));
    }
    println!("{:.1}", start.elapsed().as_nanos() as f64 / calls.max(1) as f64);
    true
}
