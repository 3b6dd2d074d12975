//! Good files of types.rdb that are hard on a check: much is read again, by the same place or by places that overlap.

use super::rdb::{header, map};
use crate::program::{rdb::*, MAX_FILE};
use std::iter::repeat_n;

/// A file, what is hard about it, and how many entries are visited.
pub struct Case {
    pub name: &'static str,
    pub visited: usize,
    pub bytes: Vec<u8>,
}

pub fn cases() -> Vec<Case> {
    const EMPTY: &[u8] = &[0; 4];
    const SHORT: &[u8] = b"\x04\0\0\0text";
    let notes = ENUM | ANNOTATED;
    let all = [
        ("a: 30,000 entries lead to one enum of 180,000 annotations", 30_000, to_one(notes, None)),
        (
            "b: 30,000 entries lead to one constant group of 180,000 annotations",
            30_000,
            to_one(GROUP | ANNOTATED, None),
        ),
        ("c: 30,000 constants that are one, of 190,000 annotations", 30_001, to_one_constant()),
        ("d: 125,000 annotations point to one text of 500,000 bytes", 1, notes_to_text()),
        (
            "e: 30,000 entries, 60,000 annotations, one long text",
            30_000,
            to_one(notes, Some(450_000)),
        ),
        ("f: 38,000 enums with an annotation that is one long text", 38_000, enums_to_text()),
        ("g: 70,000 texts of 470,048 bytes that overlap", 1, overlapping_texts()),
        ("h: 23,000 enums that end in the same empty annotations", ENUMS, ends(notes, EMPTY)),
        ("i: 23,000 enums that end in the same short annotations", ENUMS, ends(notes, SHORT)),
        ("j: 23,000 enums that end in the same members", ENUMS, ends(ENUM, &[0; 8])),
        ("k: 23,000 interfaces that end in the same bases", ENUMS, ends(INTERFACE, EMPTY)),
        ("l: 65,536 keys that are ends of one run of letters", MAX_ENTRIES, keys(b"a")),
        ("m: 65,536 keys that are ends of two runs", MAX_ENTRIES, keys(b"ab")),
        ("n: 65,536 keys that are ends of four runs", MAX_ENTRIES, keys(b"abcd")),
        ("o: a module of two long names, led to 21,800 times", 65_400, long_names()),
    ];
    let case = |(name, visited, bytes): (&'static str, usize, Vec<u8>)| {
        assert!(bytes.len() <= MAX_FILE, "{name}: {} bytes", bytes.len());
        Case { name, visited, bytes }
    };
    all.into_iter().map(case).collect()
}

fn word(word: usize) -> [u8; 4] {
    (word as u32).to_le_bytes()
}

/// Puts a map at the end; keys are the ends of a run of letters at `run`.
fn put_map(bytes: &mut Vec<u8>, run: usize, payloads: impl Iterator<Item = usize>) {
    bytes.extend(map(payloads.enumerate().map(|(i, at)| (run + i, at))));
}

/// Puts the root map at the end, likewise, and closes the file.
fn closed(mut bytes: Vec<u8>, run: usize, payloads: impl Iterator<Item = usize>) -> Vec<u8> {
    let root = bytes.len();
    put_map(&mut bytes, run, payloads);
    let count = (bytes.len() - root) / ENTRY;
    bytes[..HEADER].copy_from_slice(&header(root, count));
    bytes
}

fn letters(count: usize) -> Vec<u8> {
    [&header(0, 0)[..], &vec![b'k'; count], &[0]].concat()
}

/// Puts a long text, and gives what points to it.
fn put_text(bytes: &mut Vec<u8>, length: usize) -> [u8; 4] {
    let pointer = word(0x8000_0000 | bytes.len());
    bytes.extend(word(length));
    bytes.resize(bytes.len() + length, b't');
    pointer
}

/// An enum without members or a group without constants, with these annotations.
fn annotated(kind: u8, notes: usize, note: [u8; 4]) -> Vec<u8> {
    [&[kind, 0, 0, 0, 0][..], &word(notes), &note.repeat(notes)].concat()
}

/// (a), (b) and (e): empty annotations in their place, or fewer that point to a text of that length.
fn to_one(kind: u8, text: Option<usize>) -> Vec<u8> {
    let mut bytes = letters(30_000);
    let (notes, note) = match text {
        Some(length) => (60_000, put_text(&mut bytes, length)),
        None => (180_000, [0; 4]),
    };
    let at = bytes.len();
    bytes.extend(annotated(kind, notes, note));
    closed(bytes, HEADER, repeat_n(at, 30_000))
}

/// (c) A BOOLEAN, in a group of its own.
fn to_one_constant() -> Vec<u8> {
    let mut bytes = letters(30_000);
    let at = bytes.len();
    bytes.extend([CONSTANT_ANNOTATED | BOOLEAN, 0]);
    bytes.extend(word(190_000));
    bytes.resize(bytes.len() + 4 * 190_000, 0);
    let group = bytes.len();
    bytes.push(GROUP);
    bytes.extend(word(30_000));
    put_map(&mut bytes, HEADER, repeat_n(at, 30_000));
    closed(bytes, HEADER, [group].into_iter())
}

/// (d)
fn notes_to_text() -> Vec<u8> {
    let mut bytes = letters(1);
    let note = put_text(&mut bytes, 500_000);
    let at = bytes.len();
    bytes.extend(annotated(ENUM | ANNOTATED, 125_000, note));
    closed(bytes, HEADER, [at].into_iter())
}

/// (f)
fn enums_to_text() -> Vec<u8> {
    let mut bytes = letters(38_000);
    let note = put_text(&mut bytes, 200_000);
    let record = annotated(ENUM | ANNOTATED, 1, note);
    let (first, size) = (bytes.len(), record.len());
    bytes.extend(record.repeat(38_000));
    closed(bytes, HEADER, (0..38_000).map(|i| first + size * i))
}

/// (g) A run of one length, a text from each of them on.
fn overlapping_texts() -> Vec<u8> {
    const COUNT: usize = 70_000;
    const LENGTH: [u8; 4] = *b"\x20\x2c\x07\0";
    let mut bytes = letters(1);
    let first = bytes.len();
    bytes.extend(LENGTH.repeat(COUNT + u32::from_le_bytes(LENGTH) as usize / 4));
    let at = bytes.len();
    bytes.extend(annotated(ENUM | ANNOTATED, 0, [0; 4]));
    bytes[at + 5..].copy_from_slice(&word(COUNT));
    bytes.extend((0..COUNT).flat_map(|i| word(0x8000_0000 | (first + 4 * i))));
    closed(bytes, HEADER, [at].into_iter())
}

const ENUMS: usize = 23_000;

/// (h) to (k) Each record leads into the same items, some 500,000 bytes of them, by a few of its own, whose texts stand
/// in their place and reach over what is behind it. All of that is bytes of texts, so that no byte of a length may be
/// 0x80 or more: where the way to the common end is no such length, one leads to a station nearby, which is a length
/// too; and every 32,000 bytes there is one for all that is before it. A member has a number behind its text.
fn ends(kind: u8, item: &[u8]) -> Vec<u8> {
    let items = 524_288 / item.len();
    let number = if kind == ENUM { 4 } else { 0 };
    let head = &[kind, 0, 0, 0, 0][..if kind & ANNOTATED == 0 { 1 } else { 5 }];
    let size = head.len() + 8;
    // From the end: all distances are to the common end.
    let mut reversed: Vec<u8> = Vec::new();
    let (mut far, mut fars, mut near, mut places) = (0, 0, None, Vec::new());
    while places.len() < ENUMS {
        let behind = reversed.len();
        let length =
            |to: usize| behind.checked_sub(to + number).filter(|length| length & 0x80 == 0);
        let far_length = length(far);
        let near_length = near.and_then(length).filter(|length| *length < 0x80);
        let is_last = far_length.is_some_and(|length| (length + size) & 0x80 != 0);
        let mut put = |bytes: &[u8]| reversed.extend(bytes.iter().rev());
        match (far_length, near_length) {
            (Some(length), _) if length > 0x7e00 => {
                put(&word(length));
                (far, fars, near) = (behind + 4, fars + 1, None);
            }
            (Some(length), None) if is_last => {
                put(&word(length));
                near = Some(behind + 4);
            }
            (Some(length), _) | (None, Some(length)) => {
                let own = if far_length.is_some() { 1 } else { 2 };
                put(&[head, &word(items + fars + own), &word(length)].concat());
                places.push(behind + size);
            }
            (None, None) => put(&[0]),
        }
    }
    let mut bytes = letters(ENUMS);
    let end = bytes.len() + reversed.len();
    bytes.extend(reversed.iter().rev());
    bytes.extend(item.repeat(items));
    // What else an interface counts.
    bytes.extend([0; 12]);
    closed(bytes, HEADER, places.into_iter().map(|place| end - place))
}

/// (l) to (n) All of them lead to a typedef. The runs differ in their last letter.
fn keys(last: &[u8]) -> Vec<u8> {
    let each = MAX_ENTRIES / last.len();
    let mut bytes = header(0, 0);
    let typedef = bytes.len();
    bytes.push(6);
    let length = (MAX_FILE - bytes.len() - ENTRY * MAX_ENTRIES) / last.len();
    for last in last {
        bytes.resize(bytes.len() + length - 2, b'k');
        bytes.extend([*last, 0]);
    }
    let root = bytes.len();
    for run in 0..last.len() {
        put_map(&mut bytes, typedef + 1 + length * run, repeat_n(typedef, each));
    }
    bytes[..HEADER].copy_from_slice(&header(root, MAX_ENTRIES));
    bytes
}

/// (o) The names differ in their first letter alone.
fn long_names() -> Vec<u8> {
    const COUNT: usize = 21_800;
    let mut bytes = header(0, 0);
    for first in *b"ab" {
        bytes.push(first);
        bytes.resize(bytes.len() + 425_000, b'n');
        bytes.push(0);
    }
    let (second, typedef) = (HEADER + 425_002, bytes.len());
    bytes.push(6);
    let module = bytes.len();
    bytes.extend([MODULE, 2, 0, 0, 0]);
    bytes.extend(map([(HEADER, typedef), (second, typedef)]));
    closed(bytes, HEADER + 425_002 - COUNT - 1, repeat_n(module, COUNT))
}
