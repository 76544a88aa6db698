//! The Rust declarations and the safe functions, linked and called: the sentences of all refusals are printed, to be
//! compared with the header's.
#[path = "kezubimoryu.rs"]
mod kezubimoryu;
use kezubimoryu::*;

fn main() {
    let record = std::fs::read("samples/record.notepack").expect("run this in the repository's root");
    let mut numbers = [7u64; 5];
    let [created_at, kind, content_at, content_len, tag_count] = &mut numbers;
    let answer = unsafe {
        let (at, len) = (record.as_ptr(), record.len());
        kez_notepack_read(at, len, KEZ_BARE, created_at, kind, content_at, content_len, tag_count)
    };
    assert_eq!(answer, kez_answer { refusal: 0, value: 0 });
    assert_eq!(numbers, [1720000000, 0, 135, 5, 2]);
    let mut out = vec![0xa5; KEZ_MOST];
    let answer = unsafe { kez_notepack_write(record.as_ptr(), record.len(), KEZ_BARE, out.as_mut_ptr(), out.len()) };
    assert_eq!(answer, kez_answer { refusal: 0, value: record.len() as u64 });
    assert!(out.starts_with(&record) && out[record.len()..].iter().all(|b| *b == 0xa5));
    for bare in [KEZ_BARE, KEZ_VERSIONED] {
        let answer = unsafe { kez_notepack_is_strict(std::ptr::null(), 0, bare) };
        assert_eq!(answer, kez_answer { refusal: 2, value: 0 });
    }
    let answer = unsafe { kez_notepack_is_strict(record.as_ptr(), record.len(), KEZ_VERSIONED) };
    assert_eq!(answer, kez_answer { refusal: 25, value: 0 });
    let answer = unsafe { kez_notepack_tag_len(record.as_ptr(), record.len(), KEZ_BARE, 0) };
    assert_eq!(answer, kez_answer { refusal: 0, value: 3 });
    let (mut at, mut len, mut is_bytes) = (0, 0, 0);
    let answer = unsafe {
        kez_notepack_element(record.as_ptr(), record.len(), KEZ_BARE, 0, 1, &mut at, &mut len, &mut is_bytes)
    };
    assert_eq!((answer.refusal, at, len, is_bytes), (0, 145, 32, 1));
    let text = std::fs::read("samples/document-003.nson").unwrap();
    let (mut alone, mut first, mut second) = (vec![0; text.len()], vec![0; text.len()], vec![0; text.len()]);
    let read = unsafe { kez_nson_read(text.as_ptr(), text.len(), alone.as_mut_ptr(), alone.len()) };
    let mut both = |len: usize| {
        let mut written = 7;
        let (first, second) = (&mut first[..], &mut second[..]);
        let answer = unsafe {
            kez_read_both(text.as_ptr(), len, first.as_mut_ptr(), first.len(), second.as_mut_ptr(), second.len(), &mut written)
        };
        (answer, written)
    };
    assert_eq!(both(text.len() - 1), (kez_answer { refusal: 14, value: text.len() as u64 - 1 }, 7));
    assert_eq!(both(text.len()), (kez_answer { refusal: 0, value: 2 }, read.value));
    assert!(read.refusal == 0 && first == alone && second == alone);
    safe_functions(&record, &text).expect("nothing here is refused");
    all_elements(&record).expect("nothing here is refused");
    string_form(&record).expect("nothing here is refused");
    versioned(&record).expect("nothing here is refused");
    pointer_forms(&record).expect("nothing here is refused");
    table(&record).expect("nothing here is refused");
    hashes(&record, &text).expect("nothing here is refused");
    print!("{KEZ_VERSION} {KEZ_MOST} {KEZ_CANONICAL_MOST} {KEZ_NOTEPACK_STRING_MOST} ");
    print!("{KEZ_ELEMENT_BYTES} {KEZ_ELEMENTS_MOST} ");
    print!("{KEZ_SLOTS} {KEZ_SLOT_BYTES} {KEZ_CELL_BYTES} {KEZ_SLOTS_BYTES} {KEZ_CELLS_BYTES} ");
    print!("{KEZ_SHA256_STATE} {KEZ_SHA256_DIGEST} ");
    print!("{KEZ_POINTER_PUBKEY_AT} {KEZ_POINTER_ID_FROM_END} {KEZ_POINTER_SIG_FROM_END} ");
    println!("{KEZ_POINTER_LEAST} {KEZ_POINTER_MOST}");
    for number in 0..40 {
        println!("{}", kez_refusal_text(number));
    }
}

/// What an entry writes, with just enough room; one byte less is refused with the length needed.
fn written(f: fn(&[u8], &mut [u8]) -> Result<usize, Refused>, from: &[u8]) -> Result<Vec<u8>, Refused> {
    let Err(Refused { number: 11, place }) = f(from, &mut []) else { panic!("no length is told") };
    let mut out = vec![0; place as usize];
    assert_eq!(f(from, &mut out[1..]), Err(Refused { number: 11, place }));
    assert_eq!(f(from, &mut out)?, out.len());
    Ok(out)
}

/// The same of one that takes a packed event.
fn written_of(
    f: fn(&[u8], Form, &mut [u8]) -> Result<usize, Refused>,
    form: Form,
    from: &[u8],
) -> Result<Vec<u8>, Refused> {
    let Err(Refused { number: 11, place }) = f(from, form, &mut []) else { panic!("no length is told") };
    let mut out = vec![0; place as usize];
    assert_eq!(f(from, form, &mut out[1..]), Err(Refused { number: 11, place }));
    assert_eq!(f(from, form, &mut out)?, out.len());
    Ok(out)
}

/// Each safe function on the two samples, and refusals; these also as an error of any kind.
fn safe_functions(record: &[u8], text: &[u8]) -> Result<(), Box<dyn std::error::Error + Send + Sync>> {
    let numbers = Numbers { created_at: 1720000000, kind: 0, content_at: 135, content_len: 5, tag_count: 2 };
    assert_eq!(notepack_read(record, Form::Bare)?, numbers);
    assert_eq!(&record[numbers.content_at..][..numbers.content_len], b"hello");
    assert!(notepack_is_strict(record, Form::Bare)?);
    assert!(!notepack_is_strict(&[&[0; 131][..], &[1, 1, 1]].concat(), Form::Bare)?);
    let padded = [&[0; 128][..], &[0x80, 0, 0, 0, 0]].concat();
    assert_eq!(notepack_is_strict(&padded, Form::Bare), Err(Refused { number: 24, place: 128 }));
    assert_eq!(notepack_write(&padded, Form::Bare, &mut []), Err(Refused { number: 24, place: 128 }));
    assert_eq!(written_of(notepack_write, Form::Bare, record)?, record);
    assert_eq!(notepack_tag_len(record, Form::Bare, 0)?, 3);
    assert_eq!(notepack_tag_len(record, Form::Bare, u64::MAX), Err(Refused { number: 19, place: 0 }));
    assert_eq!(notepack_element(record, Form::Bare, 0, 1)?, Element { tag: 0, at: 145, len: 32, is_bytes: true });
    assert_eq!(notepack_element(record, Form::Bare, 1, 2), Err(Refused { number: 19, place: 0 }));
    let mut later = record.to_vec();
    later[129] += 1;
    assert_eq!(rivals(record, Form::Bare, record, Form::Bare)?, Kept::First);
    assert_eq!(rivals(record, Form::Bare, &later, Form::Bare)?, Kept::Second);
    let form = written(json_read, text)?;
    assert_eq!(rivals(record, Form::Bare, &form, Form::Bare)?, Kept::NotRivals);
    assert!(written_of(canonical_write, Form::Bare, record)?.ends_with(b"]],\"hello\"]"));
    assert_eq!(written_of(nson_write, Form::Bare, &form)?, text);
    assert_eq!(written(nson_read, text)?, form);
    let (mut first, mut second) = (vec![0; text.len()], vec![0; text.len()]);
    let both = read_both(text, &mut first, &mut second)?;
    assert_eq!(both, Both { is_nson: true, written: form.len() });
    assert_eq!((&first[..both.written], &second[..both.written]), (&form[..], &form[..]));
    let both = read_both(&[text, b" "].concat(), &mut [], &mut second)?;
    assert_eq!(both, Both { is_nson: false, written: form.len() });
    // refusals, of nothing too
    let refused = Refused { number: 2, place: 204 };
    assert_eq!(notepack_read(&record[..record.len() - 1], Form::Bare), Err(refused));
    assert_eq!(notepack_read(&[], Form::Bare), Err(Refused { number: 2, place: 0 }));
    assert_eq!(read_both(&[], &mut [], &mut []), Err(Refused { number: 14, place: 0 }));
    let any: Box<dyn std::error::Error + Send + Sync> = refused.into();
    assert_eq!(any.to_string(), format!("refused 2 at 204: {}", kez_refusal_text(2)));
    assert_eq!(any.downcast_ref(), Some(&refused));
    Ok(())
}

/// The draft's string form, there and back; bytes that are not strict; the longest; refusals, which leave the buffer.
fn string_form(record: &[u8]) -> Result<(), Refused> {
    let text = std::fs::read("samples/record.string").expect("run this in the repository's root");
    assert_eq!(written_of(notepack_string_write, Form::Bare, record)?, text);
    assert_eq!(written(notepack_string_read, &text)?, record);
    let loose = [&[0; 131][..], &[1, 1, 1]].concat();
    let strict = [&b"notepack_"[..], &[b'A'; 175], b"BAQA"].concat();
    assert_eq!(written_of(notepack_string_write, Form::Bare, &loose)?, strict);
    let as_it_is = [&b"notepack_"[..], &[b'A'; 175], b"BAQE"].concat();
    assert_eq!(written(notepack_string_read, &as_it_is)?, loose);
    let padded = [&b"notepack_"[..], &[b'A'; 170], b"CAAAAAAA"].concat();
    let most = [&[0; 130][..], &[0xfa, 0xfe, 3], &[0; 65403]].concat();
    let longest = written_of(notepack_string_write, Form::Bare, &most)?;
    assert_eq!((most.len(), longest.len()), (KEZ_MOST, KEZ_NOTEPACK_STRING_MOST - 1));
    assert_eq!(written(notepack_string_read, &longest)?, most);
    let pasted = [&text[..], b"\n"].concat();
    let url_safe = [&text[..30], b"-", &text[31..]].concat();
    let too_much = [&longest[..], b"A"].concat();
    for (bad, number, place) in [
        (&[][..], 20, 0),
        (b"notepack", 20, 0),
        (b"notepack_", 2, 0),
        (&pasted, 21, text.len()),
        (&url_safe, 21, 30),
        (&text[..text.len() - 1], 21, text.len() - 1),
        (b"notepack_AAAAA", 21, 14),
        (&too_much, 1, 0),
        (&text[..193], 2, 134),
        (&padded, 24, 128),
    ] {
        let mut out = vec![0xa5; KEZ_MOST];
        assert_eq!(notepack_string_read(bad, &mut out), Err(Refused { number, place: place as u64 }));
        assert!(out.iter().all(|b| *b == 0xa5));
    }
    assert_eq!(notepack_string_write(&record[..200], Form::Bare, &mut []), Err(Refused { number: 2, place: 177 }));
    Ok(())
}

/// The versioned form: moves there and back, each function, places, refusals, and a word that is not true.
fn versioned(record: &[u8]) -> Result<(), Refused> {
    use Form::{Bare, Versioned};
    let loose = [&[0; 131][..], &[1, 1, 1]].concat();
    let long = [&[0; 130][..], &[0xf9, 0xfe, 3], &[0; 65402]].concat();
    for bare in [record, &loose, &long] {
        let moved = [&[1], bare].concat();
        assert_eq!(written(versioned_from_bare, bare)?, moved);
        assert_eq!(written(bare_from_versioned, &moved)?, bare);
        for f in [notepack_write, canonical_write] {
            assert_eq!(written_of(f, Versioned, &moved)?, written_of(f, Bare, bare)?);
        }
        let numbers = notepack_read(bare, Bare)?;
        assert_eq!(notepack_read(&moved, Versioned)?, Numbers { content_at: numbers.content_at + 1, ..numbers });
        assert_eq!(notepack_is_strict(&moved, Versioned), notepack_is_strict(bare, Bare));
        assert_eq!(id_belongs(&moved, Versioned), id_belongs(bare, Bare));
        let further: Vec<Element> = notepack_elements(bare, Bare)?.map(|e| Element { at: e.at + 1, ..e }).collect();
        assert_eq!(notepack_elements(&moved, Versioned)?.collect::<Vec<_>>(), further);
        let text = written_of(notepack_string_write, Versioned, &moved)?;
        assert!(text.starts_with(b"notepack1_AQ"));
        let strict = [vec![1], written_of(notepack_write, Bare, bare)?].concat();
        assert_eq!(written(notepack_string_read_versioned, &text)?, strict);
        assert_eq!(notepack_string_read(&text, &mut []), Err(Refused { number: 20, place: 0 }));
    }
    let moved = [&[1], record].concat();
    assert_eq!(written_of(nson_write, Versioned, &moved)?, written_of(nson_write, Bare, record)?);
    assert_eq!(notepack_tag_len(&moved, Versioned, 0)?, 3);
    assert_eq!(notepack_element(&moved, Versioned, 0, 1)?, Element { tag: 0, at: 146, len: 32, is_bytes: true });
    assert_eq!(notepack_element(&moved, Versioned, 9, 1), Err(Refused { number: 19, place: 0 }));
    assert_eq!(rivals(record, Bare, &moved, Versioned)?, Kept::First);
    assert_eq!(rivals(record, Bare, record, Versioned), Err(Refused { number: 25, place: 0 }));
    let (mut one, mut other) = (Table::new(), Table::new());
    assert_eq!((one.offer(&moved, Versioned)?, other.offer(record, Bare)?), (Outcome::New, Outcome::New));
    assert_eq!(one, other);
    let most = [&[0; 130][..], &[0xfa, 0xfe, 3], &[0; 65403]].concat();
    assert_eq!(versioned_from_bare(&most, &mut []), Err(Refused { number: 1, place: 0 }));
    for (bad, number, place) in [
        (&[][..], 2, 0),
        (&[1], 2, 1),
        (&[2], 25, 0),
        (record, 25, 0),
        (&moved[..130], 4, 129),
        (&[2; 65537], 1, 0),
    ] {
        assert_eq!(notepack_read(bad, Versioned), Err(Refused { number, place }));
        assert_eq!(bare_from_versioned(bad, &mut []), Err(Refused { number, place }));
    }
    // 01 and an event of kind 1, said to be bare, is an event of kind 0
    let twofold = [&[1][..], &[0; 129], &[1, 0, 0]].concat();
    assert_eq!((notepack_read(&twofold, Versioned)?.kind, notepack_read(&twofold, Bare)?.kind), (1, 0));
    Ok(())
}

/// The pointer form: there and back, what is shown of both versions, refusals, and texts that are shared.
fn pointer_forms(record: &[u8]) -> Result<(), Refused> {
    let loose = [&[0; 131][..], &[1, 1, 1]].concat();
    let largest = [&[0; 130][..], &[0xd8, 0xfe, 3], &[0; 65369]].concat();
    for packed in [record, &[0; 132], &loose, &largest] {
        let v0 = written_of(pointer_write, Form::Bare, packed)?;
        if packed.len() < KEZ_MOST {
            assert_eq!(written_of(pointer_write, Form::Versioned, &[&[1], packed].concat())?, v0);
        }
        assert_eq!(written(pointer_convert, &v0)?, written_of(notepack_write, Form::Bare, packed)?);
    }
    assert_eq!(written_of(pointer_write, Form::Bare, &[0; 132])?.len(), KEZ_POINTER_LEAST);
    assert_eq!(written_of(pointer_write, Form::Bare, &largest)?.len(), KEZ_POINTER_MOST);
    let larger = [&[0; 130][..], &[0xd9, 0xfe, 3], &[0; 65370]].concat();
    assert_eq!(pointer_write(&larger, Form::Bare, &mut []), Err(Refused { number: 29, place: 0 }));
    assert_eq!(pointer_write(record, Form::Versioned, &mut []), Err(Refused { number: 25, place: 0 }));

    let v0 = written_of(pointer_write, Form::Bare, record)?;
    for version in [0, 1] {
        let mut form = v0.clone();
        form[4] = version;
        let milliseconds = 1720000000000;
        let (version, kind, content_at, content_len, tag_count) = (version.into(), 0, 72, 5, 2);
        let numbers = PointerNumbers { version, kind, milliseconds, content_at, content_len, tag_count };
        assert_eq!(pointer_read(&form)?, numbers);
        assert_eq!(&form[numbers.content_at..][..numbers.content_len], b"hello");
        assert_eq!((pointer_tag_len(&form, 0)?, pointer_tag_len(&form, 1)?), (3, 2));
        assert_eq!(pointer_element(&form, 0, 2)?, b"wss://relay.example.com");
        assert_eq!(pointer_element(&form, 1, 1)?, [b'b'; 64]);
        for (tag, element) in [(0, 3), (2, 0), (u64::MAX, u64::MAX)] {
            assert_eq!(pointer_element(&form, tag, element), Err(Refused { number: 19, place: 0 }));
        }
        let end = form.len();
        assert_eq!(form[KEZ_POINTER_PUBKEY_AT..][..32], record[32..64]);
        assert_eq!(form[end - KEZ_POINTER_ID_FROM_END..][..32], record[..32]);
        assert_eq!(form[end - KEZ_POINTER_SIG_FROM_END..], record[64..128]);
        form[48..56].fill(0xff);
        match version {
            0 => assert_eq!(pointer_read(&form), Err(Refused { number: 28, place: 48 })),
            _ => assert_eq!(pointer_read(&form)?, PointerNumbers { milliseconds: -1, ..numbers }),
        }
        let number = if version == 0 { 28 } else { 26 };
        let place = if version == 0 { 48 } else { 0 };
        assert_eq!(pointer_convert(&form, &mut []), Err(Refused { number, place }));
    }
    for (at, byte, number, place) in
        [(0, 1, 26, 0), (4, 2, 26, 0), (42, 1, 6, 40), (60, 4, 27, 56), (72, 0xff, 5, 72)]
    {
        let mut form = v0.clone();
        form[at] = byte;
        let refused = Refused { number, place };
        assert_eq!((pointer_read(&form), pointer_convert(&form, &mut [])), (Err(refused), Err(refused)));
        assert_eq!((pointer_tag_len(&form, 9), pointer_element(&form, 9, 9)), (Err(refused), Err(refused)));
    }
    assert_eq!(pointer_read(&[]), Err(Refused { number: 26, place: 0 }));
    assert_eq!(pointer_read(&[0; 65537]), Err(Refused { number: 1, place: 0 }));
    // 1,000 tags, each the same 255 texts of 55,000 bytes
    let pointers = [vec![8000u64 << 32 | 2040; 1000], vec![10040 << 32 | 55000; 255]].concat();
    let data: Vec<u8> = pointers.iter().flat_map(|pointer| pointer.to_le_bytes()).chain([b'x'; 55000]).collect();
    let header = (72 + data.len() as u64).to_le_bytes();
    let shared = [&header[..], &[0; 56], &8000u64.to_le_bytes(), &data, &[0; 96]].concat();
    assert_eq!(pointer_read(&shared)?.tag_count, 1000);
    assert_eq!(pointer_element(&shared, 999, 254)?, [b'x'; 55000]);
    assert_eq!(pointer_convert(&shared, &mut [0; KEZ_MOST]), Err(Refused { number: 29, place: 0 }));
    Ok(())
}

/// The elements that the iterator tells are those of notepack_element, for blocks that are cut, full, and many.
fn all_elements(record: &[u8]) -> Result<(), Refused> {
    let elements: Vec<Element> = notepack_elements(record, Form::Bare)?.collect();
    let mut wanted = Vec::new();
    for tag in 0..notepack_read(record, Form::Bare)?.tag_count {
        for element in 0..notepack_tag_len(record, Form::Bare, tag)? {
            wanted.push(notepack_element(record, Form::Bare, tag, element)?);
        }
    }
    assert_eq!((elements.len(), &elements), (5, &wanted));
    let number: u64 = KEZ_VERSION.split('.').fold(0, |n, part| n * 100 + part.parse::<u64>().unwrap());
    assert_eq!((version(), KEZ_VERSION_NUMBER), (number, number));
    assert_eq!(notepack_elements(&[], Form::Bare).err(), Some(Refused { number: 2, place: 0 }));
    assert_eq!(notepack_elements(&[0; 132], Form::Bare)?.next(), None);
    for (tags, texts) in [(1, 1), (16, 64), (32, 64), (5, 255), (253, 255)] {
        let varint = |n: usize| if n < 128 { vec![n as u8] } else { vec![n as u8 | 128, (n >> 7) as u8] };
        let tag = [varint(texts), vec![0; texts]].concat();
        let many = [vec![0; 131], varint(tags), tag.repeat(tags)].concat();
        let mut elements = notepack_elements(&many, Form::Bare)?;
        let mut at = 131 + varint(tags).len();
        for number in 0..tags {
            at += varint(texts).len();
            for _ in 0..texts {
                at += 1;
                assert_eq!(elements.next(), Some(Element { tag: number as u64, at, len: 0, is_bytes: false }));
            }
        }
        assert_eq!((elements.next(), elements.next()), (None, None));
    }
    Ok(())
}

/// A table: the five outcomes, what is kept and where, refusals that change nothing, its bytes there and back.
fn table(record: &[u8]) -> Result<(), Refused> {
    let event = |id: u8, time: u8, kind: &[u8]| [&[id][..], &[0; 127], &[time], kind, &[0, 0]].concat();
    let ephemeral = event(1, 5, &[0xa1, 0x9c, 1]);
    let unlabelled = [0xb0, 0xea, 1]; // kind 30000, and no tags
    let mut table = Table::new();
    assert_eq!(table, Table::default());
    for (packed, outcome) in [
        (record, Outcome::New),
        (&event(1, 5, &[0]), Outcome::New),
        (&event(2, 6, &[0]), Outcome::Replaced),
        (&event(1, 6, &[0]), Outcome::Replaced),
        (&event(2, 6, &[0]), Outcome::Loses),
        (&event(1, 6, &[0]), Outcome::Held),
        (&event(7, 6, &[1]), Outcome::New),
        (&event(7, 9, &[2]), Outcome::Held),
        (&ephemeral, Outcome::NotKept),
        (&event(8, 5, &unlabelled), Outcome::New),
        (&event(9, 6, &unlabelled), Outcome::Replaced),
        (&event(8, 4, &unlabelled), Outcome::Loses),
    ] {
        assert_eq!(table.offer(packed, Form::Bare)?, outcome);
    }
    let kept = [(0, record), (1, &event(1, 6, &[0])), (2, &event(7, 6, &[1])), (3, &event(9, 6, &unlabelled))];
    assert_eq!(table.kept()?, kept);
    assert_eq!((table.slot(0)?, table.slot(2)?), (kept[0].1, kept[2].1));
    let before = table.clone();
    let big = [&event(9, 5, &[0])[..130], &[0x80, 8], &[0; 1025]].concat();
    let padded = event(1, 6, &[0x80, 0]);
    for (packed, number, place) in [(&big[..], 22, 0), (&[], 2, 0), (&[0; 65537], 1, 0), (&padded, 24, 129)] {
        assert_eq!(table.offer(packed, Form::Bare), Err(Refused { number, place }));
        assert_eq!(table, before);
    }
    for n in [4, 63, 64, u64::MAX] {
        assert_eq!(table.slot(n), Err(Refused { number: 19, place: 0 }));
    }
    for id in 10..70 {
        assert_eq!(table.offer(&event(id, 5, &[1]), Form::Bare)?, Outcome::New);
    }
    assert_eq!(table.offer(&event(71, 5, &[1]), Form::Bare), Err(Refused { number: 23, place: 0 }));
    assert_eq!(table.offer(&event(1, 7, &[0]), Form::Bare)?, Outcome::Replaced);
    assert_eq!(table.kept()?.len(), KEZ_SLOTS);
    let mut again = Table::from_bytes(table.bytes().to_vec()).expect("the bytes of a table");
    assert_eq!(again, table);
    assert_eq!(Table::from_bytes(vec![0; 1024]), Err(vec![0; 1024]));
    let mut bytes = table.bytes().to_vec();
    bytes[5 * KEZ_SLOT_BYTES + 9] = 5;
    let mut bad = Table::from_bytes(bytes).expect("as long as a table");
    assert_eq!(bad.offer(record, Form::Bare), Err(Refused { number: 34, place: 5 }));
    assert_eq!(bad.slot(0), Err(Refused { number: 34, place: 5 }));
    assert_eq!(bad.kept(), Err(Refused { number: 34, place: 5 }));
    for any in [&mut again, &mut bad] {
        any.empty()?;
        assert_eq!((&*any, any.kept()?.len()), (&Table::new(), 0));
    }
    Ok(())
}

/// Hashes: the standard's examples cut anywhere, a state there and back, the limit; and ids that belong or do not.
fn hashes(record: &[u8], text: &[u8]) -> Result<(), Refused> {
    let hex = |bytes: &[u8]| bytes.iter().map(|b| format!("{b:02x}")).collect::<String>();
    for (message, digest) in [
        (&b""[..], "e3b0c44298fc1c149afbf4c8996fb92427ae41e4649b934ca495991b7852b855"),
        (b"abc", "ba7816bf8f01cfea414140de5dae2223b00361a396177a9cb410ff61f20015ad"),
        (
            b"abcdbcdecdefdefgefghfghighijhijkijkljklmklmnlmnomnopnopq",
            "248d6a61d20638b8e5c026930c3e6039a33ce45964ff2167f6ecedd419db06c1",
        ),
    ] {
        let mut whole = Sha256::new();
        whole.add(message)?;
        assert_eq!(hex(&whole.finish()?), digest);
        for cut in 0..=message.len() {
            let mut hash = Sha256::default();
            hash.add(&message[..cut])?;
            let mut again = Sha256::from_state(*hash.state());
            assert_eq!(again, hash);
            again.add(&message[cut..])?;
            assert_eq!((again, hex(&again.finish()?)), (whole, digest.to_string()));
        }
        whole.start();
        assert_eq!(whole, Sha256::new());
    }
    let claiming = |length: u64| {
        let mut state = *Sha256::new().state();
        state[32..40].copy_from_slice(&length.to_le_bytes());
        Sha256::from_state(state)
    };
    let too_long = Err(Refused { number: 35, place: 0 });
    for (length, piece, wanted) in [
        ((1 << 61) - 2, &b"a"[..], Ok(())),
        ((1 << 61) - 1, b"", Ok(())),
        ((1 << 61) - 1, b"a", too_long),
        (1 << 61, b"", too_long),
        (u64::MAX, b"aa", too_long),
    ] {
        let (mut hash, before) = (claiming(length), claiming(length));
        assert_eq!(hash.add(piece), wanted);
        assert!(wanted.is_ok() || hash == before);
        assert_eq!(hash.finish().is_ok(), length < 1 << 61);
    }
    let event = written(json_read, text)?;
    assert_eq!((id_belongs(&event, Form::Bare)?, id_belongs(record, Form::Bare)?), (true, false));
    for (place, wanted) in [(0, false), (31, false), (32, false), (64, true), (127, true), (129, false)] {
        let mut other = event.clone();
        other[place] ^= 1;
        assert_eq!(id_belongs(&other, Form::Bare)?, wanted);
    }
    let mut hash = Sha256::new();
    hash.add(&written_of(canonical_write, Form::Bare, record)?)?;
    assert!(id_belongs(&[&hash.finish()?, &record[32..]].concat(), Form::Bare)?);
    assert_eq!(id_belongs(&record[..200], Form::Bare), Err(Refused { number: 2, place: 177 }));
    assert_eq!(id_belongs(&[0; 65537], Form::Bare), Err(Refused { number: 1, place: 0 }));
    Ok(())
}
