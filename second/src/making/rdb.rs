//! Good files of types.rdb: every kind of record, written depth first as reg2unoidl does, with the fields that
//! can be damaged; and files about the limits.

use super::rng::Rng;
use crate::program::rdb::*;
use std::collections::HashSet;

/// What a field is.
#[derive(Clone, Copy, Debug, PartialEq, Eq)]
pub enum What {
    Name,
    /// With where the record or root map starts that holds it.
    Payload(usize),
    Kind,
    ConstantKind,
    Count,
    Ascii,
    Utf8,
    Attribute,
    Direction,
    Boolean,
    Value,
}

#[derive(Clone, Copy, Debug)]
pub struct Field {
    pub at: usize,
    /// With the bytes of a text that follows its length.
    pub size: usize,
    pub what: What,
}

/// A good file by this reading.
pub struct Built {
    pub bytes: Vec<u8>,
    pub fields: Vec<Field>,
    pub reading: Reading,
    pub visited: usize,
    /// Whether every record, name and text is used once, so that a field's damage is the file's only fault.
    pub is_plain: bool,
}

/// UTF-8 at its boundaries, and nearly so.
#[rustfmt::skip]
pub const GOOD: [&[u8]; 12] = [
    b"\0", b"\x7f", b"a=b", b"deprecated", b"\xc2\x80", b"\xdf\xbf",
    b"\xe0\xa0\x80", b"\xed\x9f\xbf", b"\xee\x80\x80", b"\xef\xbf\xbf", b"\xf0\x90\x80\x80", b"\xf4\x8f\xbf\xbf",
];
#[rustfmt::skip]
pub const BAD: [&[u8]; 13] = [
    b"\x80", b"\xc2", b"\xc0\x80", b"\xc1\xbf", b"\xe0\x9f\xbf", b"\xe1\x80", b"\xed\xa0\x80",
    b"\xed\xbf\xbf", b"\xf0\x8f\xbf\xbf", b"\xf1\x80\x80", b"\xf4\x90\x80\x80", b"\xf5\x80\x80\x80", b"\xff",
];

/// US-ASCII that is not printed as it is, and may stand in names.
const ODD: [&[u8]; 6] = [b"\x01", b"\t", b"\n", b" ", b"\\", b"\x7f"];

/// Floating-point values that are easily changed: NaNs of both kinds, infinities, zeros, the least.
const FLOATS: [u64; 7] =
    [0x7fc0_0000, 0x7f80_0001, 0xffc1_2345, 0x7f80_0000, 0xff80_0000, 0x8000_0000, 1];
#[rustfmt::skip]
const DOUBLES: [u64; 7] = [
    0x7ff8_0000_0000_0000, 0x7ff0_0000_0000_0001, 0xfff8_1234_5678_9abc, 0x7ff0_0000_0000_0000,
    0xfff0_0000_0000_0000, 0x8000_0000_0000_0000, 1,
];

const ASCII: [&str; 6] = ["long", "com.sun.star.uno.XInterface", "a", "[]string", "r", "any"];

pub fn header(root: usize, count: usize) -> Vec<u8> {
    let numbers = [root, count].map(|number| (number as u32).to_le_bytes()).concat();
    [&MAGIC[..], &[0], &numbers].concat()
}

/// A map of these entries, each with where its key and its payload stand.
pub fn map(entries: impl IntoIterator<Item = (usize, usize)>) -> Vec<u8> {
    let words = entries.into_iter().flat_map(|(name, at)| [name as u32, at as u32]);
    words.flat_map(u32::to_le_bytes).collect()
}

/// A record or map that is being written: places count from its start.
#[derive(Default)]
struct Record {
    bytes: Vec<u8>,
    fields: Vec<Field>,
}

impl Record {
    fn of(what: What, kind: u8) -> Record {
        let mut record = Record::default();
        record.put(what, &[kind]);
        record
    }

    fn put(&mut self, what: What, bytes: &[u8]) {
        self.fields.push(Field { at: self.bytes.len(), size: bytes.len(), what });
        self.bytes.extend(bytes);
    }

    fn word(&mut self, what: What, word: usize) {
        self.put(what, &(word as u32).to_le_bytes());
    }
}

/// What an entry may lead to: where, how many modules deep it is, and the entries it has visited.
#[derive(Clone, Copy)]
struct Led {
    at: usize,
    modules: usize,
    visited: usize,
}

pub struct Writer<'r> {
    rng: &'r mut Rng,
    reading: Reading,
    /// Whether names, texts and records are used again, also the ends of names.
    shares: bool,
    bytes: Vec<u8>,
    fields: Vec<Field>,
    names: Vec<usize>,
    texts: [Vec<usize>; 2],
    entities: Vec<Led>,
    constants: Vec<usize>,
    /// The next text has so many zero bytes (see `straddling`), and where it came in its record.
    cover: Option<usize>,
    covered: usize,
    /// So many names and texts may still be long (see `long`).
    long: usize,
}

impl<'r> Writer<'r> {
    pub fn new(rng: &'r mut Rng, reading: Reading, shares: bool) -> Writer<'r> {
        Writer {
            rng,
            reading,
            shares,
            bytes: header(0, 0),
            fields: Vec::new(),
            names: Vec::new(),
            texts: [Vec::new(), Vec::new()],
            entities: Vec::new(),
            constants: Vec::new(),
            cover: None,
            covered: 0,
            long: 0,
        }
    }

    /// With some names and texts that are long where they are printed: about one, two or three times 65,536 bytes.
    pub fn long(mut self) -> Writer<'r> {
        self.long = 5;
        self
    }

    /// The bytes of one, so often as long as there may be some: letters, others, or both.
    fn long_bytes(&mut self, percent: usize, others: &[&[u8]]) -> Option<Vec<u8>> {
        if self.long == 0 || !self.rng.percent(percent) {
            return None;
        }
        self.long -= 1;
        let (printed, letters) = (65_536 * self.rng.range(1, 3), *self.rng.pick(&[0, 50, 95, 100]));
        let mut left = printed - self.rng.below(60);
        let mut bytes = Vec::new();
        while left > 0 {
            let is_letter = left < 16 || self.rng.percent(letters);
            let more = if is_letter { b"x" } else { *self.rng.pick(others) };
            bytes.extend(more);
            left -= if is_letter { 1 } else { 4 * more.len() };
        }
        Some(bytes)
    }

    fn place(&mut self, record: Record) -> usize {
        let start = self.bytes.len();
        for mut field in record.fields {
            let is_inline = field.size > 4 || record.bytes[field.at..].starts_with(&[0; 4]);
            field.at += start;
            match field.what {
                What::Payload(_) => field.what = What::Payload(start),
                What::Ascii if is_inline => self.texts.iter_mut().for_each(|t| t.push(field.at)),
                What::Utf8 if is_inline => self.texts[1].push(field.at),
                _ => {}
            }
            self.fields.push(field);
        }
        self.bytes.extend(record.bytes);
        start
    }

    fn name(&mut self) -> usize {
        if self.shares && !self.names.is_empty() && self.rng.percent(40) {
            let at = *self.rng.pick(&self.names);
            let length = self.bytes[at..].iter().position(|byte| *byte == 0).unwrap_or(0);
            return at + self.rng.below(length + 1);
        }
        let at = self.bytes.len();
        let long = self.long_bytes(70, &ODD);
        self.bytes.extend(long.iter().flatten());
        for _ in 0..if long.is_some() { 0 } else { self.rng.below(6) } {
            let odd = self.rng.percent(5);
            let byte =
                if odd { self.rng.range(1, 127) as u8 } else { *self.rng.pick(b"abcdeXY_09") };
            self.bytes.push(byte);
        }
        self.bytes.push(0);
        self.names.push(at);
        at
    }

    fn text(&mut self, record: &mut Record, what: What) {
        if let Some(length) = self.cover.take() {
            self.covered = record.bytes.len() + 4;
            return record
                .put(what, &[&(length as u32).to_le_bytes()[..], &vec![0; length]].concat());
        }
        let long = self.long_bytes(15, if what == What::Utf8 { &GOOD[4..] } else { &ODD });
        let rng = &mut *self.rng;
        let content: Vec<u8> = match (long, what) {
            (Some(long), _) => long,
            (None, What::Utf8) => {
                (0..rng.below(4)).flat_map(|_| rng.pick(&GOOD).to_vec()).collect()
            }
            _ if rng.percent(15) => (0..rng.below(90)).map(|_| rng.byte() & 0x7f).collect(),
            _ => rng.pick(&ASCII).as_bytes().to_vec(),
        };
        let text = [&(content.len() as u32).to_le_bytes()[..], &content].concat();
        let before = &self.texts[usize::from(what == What::Utf8)];
        match rng.below(10) {
            0..3 if self.shares && !before.is_empty() => {
                record.word(what, 0x8000_0000 | *rng.pick(before));
            }
            0..4 => {
                record.word(what, 0x8000_0000 | self.bytes.len());
                self.texts[usize::from(what == What::Utf8)].push(self.bytes.len());
                self.bytes.extend(text);
            }
            _ => record.put(what, &text),
        }
    }

    /// How many parts come; one at least where the next text is to be a cover.
    fn count(&mut self, record: &mut Record, most: usize) -> usize {
        let count = self.rng.below(most + 1).max(usize::from(self.cover.is_some()));
        record.word(What::Count, count);
        count
    }

    fn texts(&mut self, record: &mut Record, what: What) {
        for _ in 0..self.count(record, 3) {
            self.text(record, what);
        }
    }

    fn notes(&mut self, record: &mut Record, annotated: bool) {
        if annotated {
            self.texts(record, What::Utf8);
        }
    }

    fn entries(&mut self, record: &mut Record, payloads: impl Iterator<Item = usize>) {
        let mut keys = HashSet::new();
        for payload in payloads {
            let name = loop {
                let name = self.name();
                let rest = self.bytes[name..].iter();
                if keys.insert(rest.take_while(|byte| **byte != 0).copied().collect::<Vec<_>>()) {
                    break name;
                }
            };
            record.word(What::Name, name);
            record.word(What::Payload(0), payload);
        }
    }

    /// A place among the bytes so far that can be read as a record that starts so, if some tries find one.
    fn inside(&mut self, starts: impl Fn(&[u8]) -> bool) -> Option<usize> {
        let bytes = &self.bytes[HEADER..];
        let mut tries =
            (0..if self.shares { 30 } else { 0 }).map(|_| self.rng.below(bytes.len() + 1));
        tries.find(|at| starts(&bytes[*at..])).map(|at| HEADER + at)
    }

    fn constant(&mut self) -> usize {
        if self.shares && !self.constants.is_empty() && self.rng.percent(20) {
            return *self.rng.pick(&self.constants);
        }
        let is_constant = |bytes: &[u8]| {
            let size = bytes.first().and_then(|kind| SIZES.get(usize::from(*kind)));
            size.is_some_and(|size| bytes.len() > *size) && (bytes[0] != BOOLEAN || bytes[1] < 2)
        };
        if let Some(at) = self.rng.percent(20).then(|| self.inside(is_constant)).flatten() {
            return at;
        }
        let annotated = self.cover.is_some() || self.rng.percent(30);
        let kind = self.rng.below(SIZES.len()) as u8;
        let value = match (kind, self.rng.below(3)) {
            (BOOLEAN, _) => self.rng.below(2) as u64,
            (8, 1..) => *self.rng.pick(&FLOATS),
            (9, 1..) => *self.rng.pick(&DOUBLES),
            (_, 1) => *self.rng.pick(&[0, 1, u64::MAX, 1 << 63, 0x8080_8080_8080_8080]),
            _ => self.rng.number(),
        };
        let mut record =
            Record::of(What::ConstantKind, kind | if annotated { CONSTANT_ANNOTATED } else { 0 });
        let what = if kind == BOOLEAN { What::Boolean } else { What::Value };
        record.put(what, &value.to_le_bytes()[..SIZES[usize::from(kind)]]);
        self.notes(&mut record, annotated);
        let at = self.place(record);
        self.constants.push(at);
        at
    }

    /// An entity that is no module, of a kind that is opened or of another.
    fn other(&mut self, kind: u8) -> Led {
        let annotated = self.rng.percent(40) || self.cover.is_some() && kind == GROUP;
        let flags = [(ANNOTATED, annotated), (0x80, self.rng.percent(50))];
        let flag = matches!(kind, 2 | 4 | 8) && self.rng.percent(50);
        let bits = flags.into_iter().chain([(FLAG, flag)]).filter(|(_, is)| *is);
        let cover = self.cover.take_if(|_| kind == GROUP);
        let mut record = Record::of(What::Kind, bits.fold(kind, |kind, (bit, _)| kind | bit));
        let mut visited = 0;
        match kind {
            ENUM => {
                for _ in 0..self.count(&mut record, 4) {
                    self.text(&mut record, What::Ascii);
                    let value = self.rng.number() as usize;
                    record.word(What::Value, value);
                    self.notes(&mut record, annotated);
                }
            }
            INTERFACE => self.interface(&mut record, annotated),
            GROUP => {
                let constants: Vec<_> = (0..self.rng.below(6)).map(|_| self.constant()).collect();
                visited = constants.len();
                record.word(What::Count, visited);
                self.entries(&mut record, constants.into_iter());
            }
            // Not opened: whatever follows.
            _ => record.bytes.extend((0..self.rng.below(5)).map(|_| self.rng.byte())),
        }
        self.cover = self.cover.or(cover);
        if matches!(kind, ENUM | INTERFACE | GROUP) {
            self.notes(&mut record, annotated);
        }
        Led { at: self.place(record), modules: 0, visited }
    }

    fn interface(&mut self, record: &mut Record, annotated: bool) {
        for _ in 0..2 {
            for _ in 0..self.count(record, 2) {
                self.text(record, What::Ascii);
                self.notes(record, annotated);
            }
        }
        for _ in 0..self.count(record, 3) {
            let kind = self.rng.below(4) as u8;
            record.put(What::Attribute, &[kind]);
            self.text(record, What::Ascii);
            self.text(record, What::Ascii);
            self.texts(record, What::Ascii);
            if self.reading == Reading::Literal || kind & 2 == 0 {
                self.texts(record, What::Ascii);
            }
            self.notes(record, annotated);
        }
        for _ in 0..self.count(record, 3) {
            self.text(record, What::Ascii);
            self.text(record, What::Ascii);
            for _ in 0..self.count(record, 3) {
                record.put(What::Direction, &[self.rng.below(3) as u8]);
                self.text(record, What::Ascii);
                self.text(record, What::Ascii);
            }
            self.texts(record, What::Ascii);
            self.notes(record, annotated);
        }
    }

    /// An entity with at most so many modules from it down, new or one that is there.
    fn entity(&mut self, modules: usize) -> Led {
        let before = self.entities.iter().filter(|led| led.modules <= modules && led.visited < 90);
        let before: Vec<Led> = before.copied().collect();
        if self.shares && !before.is_empty() && self.rng.percent(25) {
            return *self.rng.pick(&before);
        }
        let is_closed =
            |bytes: &[u8]| matches!(bytes.first(), Some(2 | 3 | 4 | 6 | 8..=11 | 0x22 | 0xc6));
        let is_empty = |bytes: &[u8]| bytes.starts_with(&[MODULE; 5]);
        let inside = match self.rng.below(10) {
            0 => self.inside(is_closed).map(|at| Led { at, modules: 0, visited: 0 }),
            1 if modules > 0 => self.inside(is_empty).map(|at| Led { at, modules: 1, visited: 0 }),
            _ => None,
        };
        if let Some(led) = inside {
            return led;
        }
        let led = match self.rng.below(10) {
            0..3 if modules > 0 => self.module(modules),
            0..8 => {
                let kind = *self.rng.pick(&[ENUM, INTERFACE, INTERFACE, GROUP, GROUP]);
                self.other(kind)
            }
            _ => {
                let kind = *self.rng.pick(&[2, 3, 4, 6, 8, 9, 10, 11]);
                self.other(kind)
            }
        };
        self.entities.push(led);
        led
    }

    fn module(&mut self, modules: usize) -> Led {
        let inner: Vec<Led> = (0..self.rng.below(5)).map(|_| self.entity(modules - 1)).collect();
        let mut record = Record::of(What::Kind, MODULE);
        record.word(What::Count, inner.len());
        self.entries(&mut record, inner.iter().map(|led| led.at));
        Led {
            at: self.place(record),
            modules: 1 + inner.iter().map(|led| led.modules).max().unwrap_or(0),
            visited: inner.iter().map(|led| 1 + led.visited).sum(),
        }
    }

    /// The file with a root map of so many entries.
    pub fn built(mut self, count: usize) -> Built {
        let inner: Vec<Led> = (0..count).map(|_| self.entity(6)).collect();
        if self.rng.percent(30) {
            self.bytes.extend(b"\0** Created by LibreOffice 4.1 reg2unoidl **\0");
        }
        let mut root = Record::default();
        self.entries(&mut root, inner.iter().map(|led| led.at));
        let mut at = self.place(root);
        let mut visited = inner.iter().map(|led| 1 + led.visited).sum();
        let mut count = count;
        // Now and then the root map is a module's.
        let module = self.entities.iter().rfind(|led| led.modules > 0);
        if let Some(module) = module.filter(|_| self.shares && self.rng.percent(15)) {
            count = usize::from(self.bytes[module.at + 1]);
            (at, visited) = (module.at + 5, module.visited);
        }
        self.bytes[..HEADER].copy_from_slice(&header(at, count));
        if self.rng.percent(30) {
            self.bytes.extend((0..self.rng.below(9)).map(|_| self.rng.byte()));
        }
        let Writer { bytes, fields, reading, shares, .. } = self;
        Built { bytes, fields, reading, visited, is_plain: !shares }
    }

    /// A file whose last record starts below the root map and ends behind it: the map lies inside the record's
    /// first text. Only so can fields of records not fit. `kind` is an entity's, or none for a constant's
    /// record, whose text holds its group too.
    pub fn straddling(mut self, kind: Option<u8>) -> Built {
        let name = self.bytes.len();
        self.bytes.extend(b"A\0");
        let of_group = if kind.is_none() { 5 + ENTRY } else { 0 };
        let state = (self.rng.number(), self.bytes.len());
        // The offsets in the maps are bytes of a text: below 0x80 all of them.
        for padding in 0.. {
            (*self.rng, self.cover) = (Rng::new(state.0), Some(of_group + ENTRY));
            self.bytes.truncate(state.1);
            self.bytes.resize(state.1 + padding, 0);
            (self.fields, self.names, self.texts) = Default::default();
            self.constants.clear();
            let (at, inside) = match kind {
                Some(kind) => {
                    let led = self.other(kind);
                    (led.at, led.visited)
                }
                None => (self.constant(), 1),
            };
            let (group, root) = (at + self.covered, at + self.covered + of_group);
            let led = if kind.is_none() { group } else { at };
            if [led, at].iter().any(|at| at & 0x8080 != 0) {
                continue;
            }
            if kind.is_none() {
                let record = [&[GROUP, 1, 0, 0, 0][..], &map([(name, at)])].concat();
                self.bytes[group..root].copy_from_slice(&record);
            }
            self.bytes[root..root + ENTRY].copy_from_slice(&map([(name, led)]));
            self.bytes[..HEADER].copy_from_slice(&header(root, 1));
            self.fields.retain(|field| field.at >= root + ENTRY);
            let Writer { bytes, fields, reading, .. } = self;
            return Built { bytes, fields, reading, visited: 1 + inside, is_plain: true };
        }
        unreachable!("some padding fits")
    }
}

/// Modules one inside another, so many, each in a map with other entries; and where the innermost is led to from.
pub fn deep(count: usize, others: usize) -> (Vec<u8>, usize) {
    let mut bytes = [&header(0, 0)[..], b"m\0"].concat();
    let names: Vec<usize> =
        (0..=others).map(|i| if i == others { 16 } else { 18 + 2 * i }).collect();
    (0..others).for_each(|i| bytes.extend([b'A' + i as u8, 0]));
    let typedef = bytes.len();
    bytes.push(6);
    let (mut next, mut innermost) = (bytes.len(), 0);
    bytes.extend([MODULE, 0, 0, 0, 0]);
    for i in 1..=count {
        let payloads = (0..=others).map(|k| if k == others { next } else { typedef });
        let entries = map(names.iter().copied().zip(payloads));
        let is_root = i == count;
        next = bytes.len();
        if is_root {
            bytes[..HEADER].copy_from_slice(&header(next, others + 1));
        } else {
            bytes.push(MODULE);
            bytes.extend((others as u32 + 1).to_le_bytes());
        }
        if i == 1 {
            innermost = bytes.len() + ENTRY * others;
        }
        bytes.extend(entries);
    }
    (bytes, innermost)
}

/// A root map of `outer` entries that all lead to one module of `inner` entries; and where the module is. Keys have
/// three letters.
pub fn multiplied(outer: usize, inner: usize) -> (Vec<u8>, usize) {
    let mut bytes = header(0, 0);
    for i in 0..outer.max(inner) {
        bytes.extend([i % 64, i / 64 % 64, i / 4_096].map(|digit| digit as u8 + b'0'));
        bytes.push(0);
    }
    let typedef = bytes.len();
    bytes.push(6);
    let module = bytes.len();
    let entries = |count: usize, at: usize| map((0..count).map(|i| (HEADER + 4 * i, at)));
    bytes.push(MODULE);
    bytes.extend((inner as u32).to_le_bytes());
    bytes.extend(entries(inner, typedef));
    let root = bytes.len();
    bytes.extend(entries(outer, module));
    bytes[..HEADER].copy_from_slice(&header(root, outer));
    (bytes, module)
}

/// A flat root map of so many entries that lead to a typedef, with keys in an order of their own.
pub fn flat(rng: &mut Rng, count: usize) -> Vec<u8> {
    let mut bytes = header(0, 0);
    let mut names: Vec<usize> = Vec::new();
    for i in 0..count {
        names.push(bytes.len());
        bytes.extend(format!("{}{i}\0", rng.pick(&ASCII)).bytes());
    }
    rng.shuffle(&mut names);
    let typedef = bytes.len();
    bytes.push(6);
    let root = bytes.len();
    bytes.extend(map(names.into_iter().map(|name| (name, typedef))));
    bytes[..HEADER].copy_from_slice(&header(root, count));
    bytes
}
