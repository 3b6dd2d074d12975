//! Damaged files of types.rdb, by field with the refusal that must come, and without a purpose.

use super::rdb::{deep, flat, multiplied, Built, Field, What, Writer, BAD, GOOD};
use super::rng::Rng;
use crate::program::rdb::*;
use crate::program::{refusal::*, Answer, Refusal, MAX_FILE};

/// A generated file, and the reading that it was made for.
pub struct Made<'a> {
    pub bytes: &'a [u8],
    pub reading: Reading,
    /// The answer by that reading, where it is known from how the file was made.
    pub known: Option<Answer>,
    pub how: &'static str,
    /// The number of the good file that it was made from.
    pub base: u64,
}

/// Other bytes for a field, and bytes behind the file, to which they may point.
struct Fault {
    how: &'static str,
    number: u32,
    new: Vec<u8>,
    tail: Vec<u8>,
}

fn text(length: usize, bytes: &[u8]) -> Vec<u8> {
    [&(length as u32).to_le_bytes()[..], bytes].concat()
}

/// What makes this field the only fault of a file where nothing is shared.
fn faults(built: &Built, field: &Field, rng: &mut Rng) -> Vec<Fault> {
    let length = built.bytes.len();
    let mut all = Vec::new();
    let mut add = |how, number, new: &[u8], tail: &[u8]| {
        all.push(Fault { how, number, new: new.to_vec(), tail: tail.to_vec() })
    };
    let word = |word: usize| (word as u32).to_le_bytes();
    let behind = word(length);
    match field.what {
        What::Name => {
            add("32 name past the end", RDB_OUTSIDE, &word(length + 1), b"");
            add("32 name far past the end", RDB_OUTSIDE, &word(u32::MAX as usize), b"");
            add("32 name at the end", RDB_OUTSIDE, &behind, b"");
            add("32 name unfinished", RDB_OUTSIDE, &behind, b"abc");
            add("32 name unfinished", RDB_OUTSIDE, &behind, b"a\xff");
            let bad = [b'b', rng.byte() | 0x80, 0];
            add("34 name", RDB_VALUE, &behind, &bad[rng.below(2)..]);
            // Another entry of this map, whose key the later one of both then has again.
            let mut others = built.fields.iter().filter(|other| {
                other.what == What::Name && other.at < field.at && same_map(built, other, field)
            });
            if let Some(other) = others.next() {
                add("35 name", RDB_KEY_TWICE, &built.bytes[other.at..other.at + 4], b"");
                let at = word_of(&built.bytes[other.at..]);
                let end = built.bytes[at..].iter().position(|byte| *byte == 0).unwrap_or(0);
                let copy = built.bytes[at..at + end + 1].to_vec();
                add("35 name, another copy", RDB_KEY_TWICE, &behind, &copy);
            }
        }
        What::Payload(holder) => {
            add("32 payload past the end", RDB_OUTSIDE, &word(length + 1), b"");
            add("32 payload far past the end", RDB_OUTSIDE, &word(u32::MAX as usize), b"");
            add("33 payload at the end", RDB_NOT_BELOW, &behind, b"");
            add("33 payload at its holder", RDB_NOT_BELOW, &word(holder), b"");
            add("33 payload above", RDB_NOT_BELOW, &word(rng.range(holder, length)), b"");
        }
        What::Kind => {
            let kind = rng.byte();
            add("34 kind", RDB_VALUE, &[kind & 0xe0 | rng.range(12, 31) as u8], b"");
            add("34 kind 0 with bits", RDB_VALUE, &[rng.range(1, 7) as u8 * 32], b"");
            let of = *rng.pick(&[1, 3, 5, 6, 7, 9, 10, 11]);
            add("34 flag", RDB_VALUE, &[kind & 0xc0 | FLAG | of], b"");
        }
        What::ConstantKind => {
            let kind = rng.range(10, 127) as u8 | rng.byte() & CONSTANT_ANNOTATED;
            add("34 constant kind", RDB_VALUE, &[kind], b"");
        }
        What::Ascii | What::Utf8 => {
            let long = length - field.at - 3;
            add("32 text one too long", RDB_OUTSIDE, &word(long), b"");
            add("32 text far too long", RDB_OUTSIDE, &word(0x7fff_ffff), b"");
            let top = |at: usize| word(0x8000_0000 | at);
            add("32 text past the end", RDB_OUTSIDE, &top(length + 1), b"");
            add("32 text far past the end", RDB_OUTSIDE, &top(0x7fff_ffff), b"");
            add("32 text at the end", RDB_OUTSIDE, &top(length), b"");
            add("32 text length does not fit", RDB_OUTSIDE, &top(length), &[0; 3]);
            add("32 text, top bit", RDB_OUTSIDE, &top(length), b"\0\0\0\x80");
            add("32 text pointed to, one too long", RDB_OUTSIDE, &top(length), &text(2, b"\xff"));
            let (bad, good) = (*rng.pick(&BAD), *rng.pick(&GOOD));
            let content = match (field.what, rng.below(3)) {
                (What::Ascii, 0) if !good.is_ascii() => good.to_vec(),
                (_, 1) => [bad, good].concat(),
                _ => [good, bad].concat(),
            };
            // What follows may go on with a sequence that the text cuts.
            let tail = [&text(content.len(), &content)[..], &[0x80; 3]].concat();
            let how = ["34 ASCII text", "34 UTF-8 text"][usize::from(field.what == What::Utf8)];
            add(how, RDB_VALUE, &top(length), &tail);
            if field.size > 4 {
                let mut new = built.bytes[field.at..field.at + field.size].to_vec();
                new[rng.range(4, field.size - 1)] = 0xff;
                add("34 text in its place", RDB_VALUE, &new, b"");
            }
        }
        What::Attribute => {
            let kind = rng.range(4, 255) as u8;
            add("34 attribute", RDB_VALUE, &[kind], b"");
            add("34 attribute", RDB_VALUE, &[4 | kind & 3], b"");
        }
        What::Direction => {
            add("34 direction", RDB_VALUE, &[3], b"");
            add("34 direction", RDB_VALUE, &[rng.range(3, 255) as u8], b"");
        }
        What::Boolean => {
            add("34 boolean", RDB_VALUE, &[2], b"");
            add("34 boolean", RDB_VALUE, &[rng.range(2, 255) as u8], b"");
        }
        What::Count | What::Value => {}
    }
    all
}

fn word_of(bytes: &[u8]) -> usize {
    u32::from_le_bytes([bytes[0], bytes[1], bytes[2], bytes[3]]) as usize
}

/// Whether two entries stand in one map: their payloads have one holder.
fn same_map(built: &Built, a: &Field, b: &Field) -> bool {
    let holder = |name: &Field| {
        let is_own = |field: &&Field| field.at == name.at + 4;
        built.fields.iter().find(is_own).map(|field| field.what)
    };
    holder(a) == holder(b)
}

struct Sink<'a> {
    take: &'a mut dyn FnMut(&Made),
    reading: Reading,
    base: u64,
}

impl Sink<'_> {
    fn put(&mut self, bytes: &[u8], known: Option<Answer>, how: &'static str) {
        (self.take)(&Made { bytes, reading: self.reading, known, how, base: self.base });
    }

    fn good(&mut self, bytes: &[u8], visited: usize, how: &'static str) {
        self.base += 1;
        self.put(bytes, Some(Ok(visited)), how);
    }

    fn refused(&mut self, bytes: &[u8], number: u32, place: usize, how: &'static str) {
        self.put(bytes, Some(Err(Refusal { number, place })), how);
    }
}

/// A good file and what is made of it.
fn damaged(built: &Built, rng: &mut Rng, sink: &mut Sink) {
    let good = &built.bytes;
    sink.reading = built.reading;
    let hows = ["good, all used once", "good, sharing"];
    sink.good(good, built.visited, hows[usize::from(!built.is_plain)]);
    let length = good.len();
    let mut bytes = good.clone();
    for at in 0..8 {
        bytes[at] ^= 1 << rng.below(8);
        sink.refused(&bytes, RDB_HEADER, if at == 7 { 7 } else { 0 }, "31 header");
        bytes[at] = good[at];
    }
    sink.refused(&good[..rng.below(HEADER)], RDB_HEADER, 0, "31 too short");
    for root in [length + 1, rng.range(length + 1, u32::MAX as usize)] {
        let mut bytes = good.clone();
        bytes[8..12].copy_from_slice(&(root as u32).to_le_bytes());
        sink.refused(&bytes, RDB_OUTSIDE, 8, "32 root map");
        bytes[12..16].fill(0);
        sink.refused(&bytes, RDB_OUTSIDE, 8, "32 empty root map");
        bytes[8..12].copy_from_slice(&(length as u32).to_le_bytes());
        sink.put(&bytes, Some(Ok(0)), "an empty root map at the end");
    }
    for field in &built.fields {
        for fault in faults(built, field, rng) {
            if built.fields.len() > 60 && rng.percent(60) {
                continue;
            }
            let mut bytes = [&good[..], &fault.tail].concat();
            bytes[field.at..field.at + fault.new.len()].copy_from_slice(&fault.new);
            let why = Refusal { number: fault.number, place: field.at };
            let known = built.is_plain.then_some(Err(why));
            sink.put(&bytes, known, if built.is_plain { fault.how } else { "damage where shared" });
        }
    }
    let field = |rng: &mut Rng| built.fields[rng.below(built.fields.len())];
    for round in 0..if built.fields.is_empty() { 0 } else { 60 } {
        let mut bytes = good.clone();
        for _ in 0..rng.range(1, 3) {
            let Field { at, size, .. } = field(rng);
            let other = field(rng);
            let new: Vec<u8> = match rng.below(6) {
                0 => good[other.at..other.at + other.size.min(size)].to_vec(),
                1 => vec![rng.byte(); size.min(4)],
                2 => vec![rng.below(4) as u8],
                3 => (other.at as u32).to_le_bytes()[..size.min(4)].to_vec(),
                4 => (other.at as u32 | 1 << 31).to_le_bytes()[..size.min(4)].to_vec(),
                _ => vec![1 << rng.below(8)],
            };
            let at = at + rng.below(size.saturating_sub(new.len()) + 1);
            bytes[at..at + new.len()].copy_from_slice(&new);
        }
        if round % 4 == 0 {
            bytes.truncate(rng.range(HEADER, length));
        }
        sink.put(&bytes, None, if round % 4 == 0 { "changed and cut" } else { "changed" });
    }
    for _ in 0..20 {
        let mut bytes = good.clone();
        let at = rng.below(length);
        match rng.below(3) {
            0 => bytes.truncate(at),
            1 => bytes[at] = rng.byte(),
            _ => bytes.insert(at, rng.byte()),
        }
        sink.put(&bytes, None, "a byte");
    }
}

/// A file whose last record reaches past the root map, cut wherever that leaves the map whole.
fn cut(built: &Built, sink: &mut Sink) {
    sink.reading = built.reading;
    sink.good(&built.bytes, built.visited, "good, past the root map");
    let first = built.fields.first().map_or(built.bytes.len(), |field| field.at);
    for length in first..built.bytes.len() {
        let field = built.fields.iter().find(|field| field.at + field.size > length);
        if let Some(field) = field {
            sink.refused(&built.bytes[..length], RDB_OUTSIDE, field.at, "32 field does not fit");
        }
    }
}

/// About the limits.
fn limits(rng: &mut Rng, sink: &mut Sink) {
    for others in 0..25 {
        for count in [1, 2, 15, 16] {
            sink.good(&deep(count, others).0, count * (others + 1), "modules deep");
        }
        for count in [17, 18, 40] {
            let (bytes, innermost) = deep(count, others);
            let place = if count == 17 { Some(innermost) } else { None };
            sink.base += 1;
            let known = place.map(|place| Err(Refusal { number: RDB_TOO_DEEP, place }));
            sink.put(&bytes, known, "36 too deep");
        }
    }
    let too_many = |outer: usize, inner: usize, sink: &mut Sink| {
        let (bytes, module) = multiplied(outer, inner);
        let place = module + 5 + ENTRY * ((MAX_ENTRIES - outer) % inner);
        sink.base += 1;
        sink.refused(&bytes, RDB_TOO_MANY, place, "37 too many");
    };
    for (outer, inner) in [(256, 255), (16, 4_095), (4_096, 15), (32_768, 1), (2, 32_767)] {
        sink.good(&multiplied(outer, inner).0, MAX_ENTRIES, "65,536 entries");
        too_many(outer + 1, inner, sink);
        too_many(outer, inner + 1, sink);
        too_many(60_000, inner, sink);
    }
    for _ in 0..40 {
        let inner = rng.range(1, 600);
        let outer = MAX_ENTRIES / (1 + inner);
        sink.good(&multiplied(outer, inner).0, outer * (1 + inner), "nearly 65,536 entries");
        too_many(outer + rng.range(1, 3), inner, sink);
    }
    for count in [1, 7, 100, 5_000, 30_000] {
        sink.good(&flat(rng, count), count, "a map of many entries");
    }
    // One more is refused before its bytes, which need not be there.
    let (mut bytes, _) = multiplied(MAX_ENTRIES, 0);
    let root = bytes.len() - ENTRY * MAX_ENTRIES;
    sink.good(&bytes, MAX_ENTRIES, "65,536 entries");
    bytes[12..16].fill(0xff);
    sink.refused(&bytes, RDB_TOO_MANY, root + ENTRY * MAX_ENTRIES, "37 too many");
    bytes.resize(MAX_FILE, 0);
    sink.refused(&bytes, RDB_TOO_MANY, root + ENTRY * MAX_ENTRIES, "37 too many");
    bytes[12..16].copy_from_slice(&(MAX_ENTRIES as u32).to_le_bytes());
    sink.good(&bytes, MAX_ENTRIES, "1,048,576 bytes");
    for length in [MAX_FILE + 1, MAX_FILE + 2, 2 * MAX_FILE] {
        bytes.resize(length, 0);
        sink.refused(&bytes, TOO_LONG, MAX_FILE, "2 too long");
        sink.refused(&vec![0; length], TOO_LONG, MAX_FILE, "2 too long");
    }
}

/// All files of a run, of so many good ones of each sort.
pub fn everything(seed: u64, rounds: usize, take: &mut dyn FnMut(&Made)) {
    let rng = &mut Rng::new(seed);
    let sink = &mut Sink { take, reading: Reading::Literal, base: 0 };
    limits(rng, sink);
    for round in 0..rounds {
        for reading in Reading::BOTH {
            let count = rng.below(if round % 10 > 7 { 40 } else { 5 });
            let built = Writer::new(rng, reading, round % 2 == 1).built(count);
            damaged(&built, rng, sink);
            for kind in [Some(ENUM), Some(INTERFACE), Some(GROUP), None] {
                if round % 4 == 0 {
                    cut(&Writer::new(rng, reading, false).straddling(kind), sink);
                }
            }
        }
    }
}
