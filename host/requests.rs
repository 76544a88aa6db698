//! Requests of the line protocol, always the same for the same words: requests SEED COUNT [KIND..]; without a kind all
//! of them. `requests changes` is every change of one character of the vector's two string forms. A kind is the first
//! word of its requests; but `table` is all that is asked about a table of records, and with `table_slot` its slots are
//! viewed by the library too; and `sha` is all that is asked about a hash, and with `sha_state` its state is any bytes,
//! is looked at, and the digest may lack room. A packed event is marked: `b:` is said to be bare, `v:` to be versioned.
//!
//! Three parts: each limit of docs/RULES.md, met and passed; samples cut and changed at every place; then random
//! inputs. Where COUNT is small the first two are thinned, evenly. The encoders here can also write what no encoder
//! would.

#[path = "requests/boundaries.rs"]
mod boundaries;
#[path = "requests/damage.rs"]
mod damage;
#[path = "requests/dice.rs"]
mod dice;
#[path = "requests/event.rs"]
mod event;
#[path = "requests/hash.rs"]
mod hash;
#[path = "requests/json.rs"]
mod json;
#[path = "requests/notepack.rs"]
mod notepack;
#[path = "requests/pointer.rs"]
mod pointer;
#[allow(dead_code)]
#[path = "reference/sha256.rs"]
mod sha256;
#[path = "requests/string_form.rs"]
mod string_form;
#[path = "requests/table.rs"]
mod table;
#[path = "requests/texts.rs"]
mod texts;
#[path = "requests/versioned.rs"]
mod versioned;

use dice::Dice;
use event::Event;
use std::collections::VecDeque;
use std::io::{self, Write};
use versioned::{forms_of, word, Form};

fn main() -> io::Result<()> {
    let words: Vec<String> = std::env::args().skip(1).collect();
    if words == ["changes"] {
        return print(string_form::changes());
    }
    let number = |i: usize| words.get(i).and_then(|w| w.parse::<u64>().ok());
    let (Some(seed), Some(count)) = (number(0), number(1)) else {
        eprintln!("usage: requests SEED COUNT [KIND..] | requests changes");
        std::process::exit(2);
    };
    let kinds: Vec<String> = if words.len() > 2 { words[2..].to_vec() } else { ALL.iter().map(|kind| kind.to_string()).collect() };
    print(requests(seed, count as usize, &kinds))
}

fn print(lines: impl Iterator<Item = String>) -> io::Result<()> {
    let mut out = io::BufWriter::with_capacity(1 << 20, io::stdout().lock());
    for line in lines {
        out.write_all(line.as_bytes())?;
        out.write_all(b"\n")?;
    }
    out.flush()
}

/// COUNT requests of these kinds.
fn requests(seed: u64, count: usize, kinds: &[String]) -> impl Iterator<Item = String> {
    let both = kinds.iter().any(|kind| kind == "read_both");
    let kinds = kinds.iter().filter(|kind| *kind != "read_both").cloned().collect();
    let dice = Dice(seed);
    let mut g = Requests { dice, kinds, lines: Vec::new(), of_table: VecDeque::new(), of_hash: VecDeque::new() };
    boundaries::all(&mut g);
    let limits = thinned(std::mem::take(&mut g.lines), count / 2);
    damage::everywhere(&mut g);
    let damaged = thinned(std::mem::take(&mut g.lines), (count - limits.len()) * 2 / 3);
    let random = std::iter::from_fn(move || {
        while g.lines.is_empty() && !g.kinds.is_empty() {
            damage::random(&mut g);
        }
        g.lines.pop()
    });
    let limits = limits.into_iter().flat_map(|group| group.lines().map(str::to_string).collect::<Vec<_>>());
    let asked = limits.chain(damaged).chain(random).take(count);
    asked.enumerate().map(move |(i, line)| if both && i % 3 == 0 { to_both(line) } else { line })
}

/// A request to one of the two readers of texts, put to both.
fn to_both(line: String) -> String {
    match line.strip_prefix("nson_read ").or(line.strip_prefix("json_read ")) {
        Some(rest) => format!("read_both {rest}"),
        None => line,
    }
}

/// At most `most` of the lines, evenly. Lines that belong together stand in one string, and stay together.
fn thinned(groups: Vec<String>, most: usize) -> Vec<String> {
    let lines_in = |group: &String| group.lines().count();
    let all: usize = groups.iter().map(lines_in).sum();
    let (keep, mut due) = (most.min(all), 0);
    let mut wanted = |group: &String| {
        let lines = lines_in(group);
        due += lines * keep;
        let wanted = due >= lines * all;
        due -= if wanted { lines * all } else { 0 };
        wanted
    };
    groups.into_iter().filter(|group| wanted(group)).collect()
}

/// Every kind of request.
const ALL: [&str; 28] = [
    "read", "strict", "pack", "content", "element", "elements", "lister", "canonical", "nson_write", "nson_read",
    "json_read", "string_write", "string_read", "string1_read", "to_versioned", "to_bare", "rivals", "read_both",
    "table", "table_slot", "sha", "sha_state", "id_belongs", "pointer_read", "pointer_tag", "pointer_element",
    "pointer_convert", "pointer_write",
];

/// Kinds whose input is a packed event.
const PACKED: [&str; 14] = [
    "read", "strict", "pack", "content", "element", "elements", "lister", "canonical", "nson_write", "string_write",
    "to_versioned", "to_bare", "id_belongs", "pointer_write",
];

struct Requests {
    dice: Dice,
    kinds: Vec<String>,
    lines: Vec<String>,
    /// what is left of a run of requests about a table, whose order counts; and of one about a hash
    of_table: VecDeque<String>,
    of_hash: VecDeque<String>,
}

impl Requests {
    fn has(&self, kind: &str) -> bool {
        self.kinds.iter().any(|k| k == kind)
    }

    /// One of the forms that the kind takes.
    fn form(&mut self, kind: &str) -> Form {
        self.dice.pick(forms_of(kind))
    }

    /// The request `kind input`, with what the kind wants behind it. The input is bare bytes in either form.
    fn line(&mut self, kind: &str, bare: &[u8], rest: &str) {
        let form = self.form(kind);
        self.lines.push(format!("{kind} {}{rest}", word(kind, form, &form.of(bare))));
    }

    /// One request about a text, or about bare bytes in either form, of which now and then the other is said.
    fn one(&mut self, kind: &str, input: &[u8], e: &Event) {
        if !PACKED.contains(&kind) {
            let rest = self.rest(kind, Form::Bare, input, e);
            self.lines.push(format!("{kind} {}{rest}", hex(input)));
            return;
        }
        let form = self.form(kind);
        let said = if self.dice.percent(4) { form.other() } else { form };
        self.asked_as(kind, said, &form.of(input), e);
    }

    /// One request about these packed bytes, said to be of this form where the kind asks.
    fn asked_as(&mut self, kind: &str, said: Form, bytes: &[u8], e: &Event) {
        let rest = self.rest(kind, said, bytes, e);
        self.lines.push(format!("{kind} {}{rest}", word(kind, said, bytes)));
    }

    /// The same to one of the kinds, whichever.
    fn any_as(&mut self, said: Form, bytes: &[u8], e: &Event) {
        let kinds = self.wanted(&PACKED);
        if !kinds.is_empty() {
            let kind = self.dice.pick(&kinds);
            self.asked_as(kind, said, bytes, e);
        }
    }

    /// Some room, some element or both, where the kind wants one.
    fn rest(&mut self, kind: &str, form: Form, input: &[u8], e: &Event) -> String {
        if kind == "element" || kind == "pointer_element" {
            let (tag, element) = self.element_of(e);
            format!(" {tag} {element}")
        } else if kind == "pointer_tag" {
            let within = self.dice.below(e.tags.len() + 1) as u64;
            format!(" {}", if self.dice.percent(70) { within } else { self.dice.pick(&pointer::tags_asked(e)) })
        } else if kind == "elements" {
            let within = self.dice.below(texts_in(e) + 1) as u64;
            let first = if self.dice.percent(50) { within } else { self.dice.pick(&firsts(e)) };
            format!(" {first} {}", self.dice.pick(&rooms(e)))
        } else if writes(kind) {
            let need = needed(kind, form, input.len(), e);
            let room = match self.dice.below(16) {
                0 => 0,
                1..=3 => need.saturating_sub(1),
                4..=8 => need,
                9 => self.dice.below(need + 1),
                10 => 70_000,
                _ => need + 1 + self.dice.below(40),
            };
            format!(" {room}")
        } else {
            String::new()
        }
    }

    fn element_of(&mut self, e: &Event) -> (u64, u64) {
        let d = &mut self.dice;
        let tag = d.below(e.tags.len() + 1);
        let beyond = d.percent(20) as usize;
        let element = d.below(e.tags.get(tag).map_or(1, |t| t.len() + beyond)) as u64;
        match d.below(20) {
            0 => (u64::MAX, element),
            1 => (tag as u64, u64::MAX),
            2 => (tag as u64, 1 << 32),
            _ => (tag as u64, element),
        }
    }

    fn wanted<'a>(&self, kinds: &[&'a str]) -> Vec<&'a str> {
        kinds.iter().filter(|kind| self.has(kind)).copied().collect()
    }

    /// The input to every one of the kinds, packed bytes in every form; those that write get just enough room, one byte
    /// less, none, and more.
    fn all(&mut self, kinds: &[&str], input: &[u8], e: &Event) {
        for kind in self.wanted(kinds) {
            let packed = PACKED.contains(&kind);
            for &form in if packed { forms_of(kind) } else { &[Form::Bare] } {
                let bytes = form.of(input);
                let word = if packed { word(kind, form, &bytes) } else { hex(input) };
                for rest in self.rests(kind, form, &bytes, e) {
                    self.lines.push(format!("{kind} {word}{rest}"));
                }
            }
        }
    }

    /// All that a kind may want behind its input.
    fn rests(&mut self, kind: &str, form: Form, input: &[u8], e: &Event) -> Vec<String> {
        if kind == "pointer_tag" {
            pointer::tags_asked(e).map(|tag| format!(" {tag}")).into()
        } else if kind == "element" || kind == "pointer_element" {
            let last = e.tags.len().saturating_sub(1) as u64;
            let end = e.tags.last().map_or(0, |t| t.len()) as u64;
            let asked = [(0, 0), (last, end.saturating_sub(1)), (last, end), (last + 1, 0), (u64::MAX, u64::MAX)];
            asked.map(|(tag, element)| format!(" {tag} {element}")).into()
        } else if kind == "elements" {
            // every first and every room once; elements_boundaries has each with each
            let (turn, firsts, rooms) = (self.dice.below(7), firsts(e), rooms(e));
            (0..7).map(|i| format!(" {} {}", firsts[i], rooms[(i + turn) % 7])).collect()
        } else if writes(kind) {
            let need = needed(kind, form, input.len(), e);
            [need, need.saturating_sub(1), 0, need + 9].map(|room| format!(" {room}")).into()
        } else {
            vec![String::new()]
        }
    }

    /// The input to one of the kinds, whichever.
    fn any(&mut self, kinds: &[&str], input: &[u8], e: &Event) {
        let kinds = self.wanted(kinds);
        if !kinds.is_empty() {
            let kind = self.dice.pick(&kinds);
            self.one(kind, input, e);
        }
    }

    fn next_of_table(&mut self) {
        if self.of_table.is_empty() {
            self.of_table = table::run(self).into();
        }
        self.lines.extend(self.of_table.pop_front());
    }

    fn next_of_hash(&mut self) {
        if self.of_hash.is_empty() {
            self.of_hash = hash::run(self).into();
        }
        self.lines.extend(self.of_hash.pop_front());
    }

    /// Two bare inputs, each in either form.
    fn rivals(&mut self, first: &[u8], second: &[u8]) {
        if self.has("rivals") {
            let forms = [self.form("rivals"), self.form("rivals")];
            self.lines.push(format!("rivals {} {}", forms[0].given(first), forms[1].given(second)));
        }
    }
}

/// Does the kind write into a lent buffer?
fn writes(kind: &str) -> bool {
    let of_packed = ["pack", "canonical", "nson_write", "string_write", "to_versioned", "to_bare", "pointer_write"];
    let others = ["nson_read", "json_read", "string_read", "string1_read", "pointer_convert"];
    of_packed.contains(&kind) || others.contains(&kind)
}

/// How many texts the tags of this event have together.
fn texts_in(e: &Event) -> usize {
    e.tags.iter().map(Vec::len).sum()
}

/// Numbers of a first element to be listed: at the start, in the middle, the last, the end, past it, and far past it
/// (the first of those is 0 in 32 bits).
fn firsts(e: &Event) -> [u64; 7] {
    let all = texts_in(e) as u64;
    [0, all / 2, all.saturating_sub(1), all, all + 1, 1 << 32, u64::MAX]
}

/// Rooms for a list of elements: none, one byte less than one needs, one, one byte more, some and a half, just enough
/// for all, and more than that.
fn rooms(e: &Event) -> [usize; 7] {
    let all = texts_in(e);
    [0, 15, 16, 17, 16 * (all / 2) + 7, 16 * all, 16 * all + 47]
}

/// The length that the kind writes for this event, given in so many bytes of this form. What is moved or decoded need
/// not be strict: its length is the input's affair.
fn needed(kind: &str, form: Form, input: usize, e: &Event) -> usize {
    match kind {
        "string_write" => form.string_len(notepack::strict(e).len()),
        "string_read" => Form::Bare.decoded_len(input),
        "string1_read" => Form::Versioned.decoded_len(input),
        "to_versioned" => input + 1,
        "to_bare" => input.saturating_sub(1),
        "pointer_write" => pointer::written_len(e),
        "canonical" => texts::canonical(e).len(),
        "nson_write" => texts::Nson::of(e).spelled().len(),
        _ => notepack::strict(e).len(),
    }
}

fn hex(bytes: &[u8]) -> String {
    if bytes.is_empty() {
        return "-".into();
    }
    String::from_utf8(notepack::hex_text(bytes)).unwrap()
}
