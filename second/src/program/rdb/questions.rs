//! Answers about an accepted types.rdb: entities and constants by path, counted parts, and the listing.

use super::record::number;
use super::*;
use std::io::{self, Write};

/// An entity: its kind byte, and where that stands.
pub type Entity = (u8, usize);

/// A constant: one of the ten kinds, and the bits of its value as stored.
#[derive(Clone, Copy, Debug, PartialEq, Eq)]
pub struct Constant {
    pub kind: u8,
    pub bits: u64,
}

#[rustfmt::skip]
pub const WORDS: [&str; 10] = [
    "boolean", "byte", "short", "unsigned-short", "long",
    "unsigned-long", "hyper", "unsigned-hyper", "float", "double",
];

impl Constant {
    pub fn word(self) -> &'static str {
        WORDS[usize::from(self.kind)]
    }

    pub fn value(self) -> String {
        let bits = self.bits;
        match self.word() {
            "boolean" => (bits == 1).to_string(),
            "byte" => (bits as i8).to_string(),
            "short" => (bits as i16).to_string(),
            "long" => (bits as i32).to_string(),
            "hyper" => (bits as i64).to_string(),
            "float" => format!("{bits:08x}"),
            "double" => format!("{bits:016x}"),
            _ => bits.to_string(),
        }
    }
}

/// The bytes of a text or a path as they are printed.
pub fn escaped(bytes: &[u8]) -> String {
    let mut shown = String::with_capacity(bytes.len());
    for byte in bytes {
        match byte {
            0x21..=0x7e if *byte != b'\\' => shown.push(char::from(*byte)),
            _ => shown += &format!(r"\x{byte:02x}"),
        }
    }
    shown
}

// Nothing of an accepted file is refused when it is read again.
const GOOD: &str = "the file is accepted";

impl<'a> Accepted<'a> {
    fn reader(&self) -> Reader<'a> {
        Reader::new(self.file, self.reading, MEMORY)
    }

    fn key(&self, entry: usize) -> &'a [u8] {
        self.reader().key(entry).expect(GOOD)
    }

    fn word(&self, at: usize) -> usize {
        number(self.file, at).expect(GOOD)
    }

    /// Where the entry of this key leads.
    fn find(&self, map: Map, key: &[u8]) -> Option<usize> {
        // No name has a zero byte.
        if key.contains(&0) {
            return None;
        }
        let is_key = |entry: &usize| {
            let name = &self.file[self.word(*entry)..];
            name.strip_prefix(key).is_some_and(|rest| rest[0] == 0)
        };
        map.entries().find(is_key).map(|entry| self.word(entry + 4))
    }

    /// The map of a module or a constant group.
    fn map_at(&self, at: usize) -> Map {
        Map { at: at + 5, count: self.word(at + 1) }
    }

    fn map_of(&self, (kind, at): Entity) -> Option<Map> {
        (kind == MODULE || kind & KIND == GROUP).then(|| self.map_at(at))
    }

    /// The entity that these parts of a path lead to, from the root.
    fn entity_of<'p>(&self, parts: impl IntoIterator<Item = &'p [u8]>) -> Option<Entity> {
        let mut map = Some(self.root);
        let mut entity = None;
        for part in parts {
            let at = self.find(map?, part)?;
            let kind = self.file[at];
            entity = Some((kind, at));
            map = (kind == MODULE).then(|| self.map_at(at));
        }
        entity
    }

    pub fn entity(&self, path: &[u8]) -> Option<Entity> {
        self.entity_of(path.split(|byte| *byte == b'.'))
    }

    pub fn constant(&self, path: &[u8]) -> Option<Constant> {
        let mut parts: Vec<_> = path.split(|byte| *byte == b'.').collect();
        let name = parts.pop()?;
        let (kind, at) = self.entity_of(parts)?;
        let at = self.find((kind & KIND == GROUP).then(|| self.map_at(at))?, name)?;
        Some(self.constant_at(at))
    }

    fn constant_at(&self, at: usize) -> Constant {
        let (kind, bits) = self.reader().constant(at, |_, _| ()).expect(GOOD);
        Constant { kind, bits }
    }

    /// A counted part by its position, and its position within that where it has two.
    pub fn part(&self, path: &[u8], which: Which, i: u64, j: u64) -> Option<Part> {
        let mut found = None;
        self.each_part(path, &mut |a, b, c, part| {
            if (a, b as u64, c as u64) == (which, i, j) {
                found = Some(part);
            }
        });
        found
    }

    /// All counted parts of an opened entity, with their positions.
    pub fn each_part(&self, path: &[u8], take: &mut impl FnMut(Which, usize, usize, Part)) {
        let Some((kind, at)) = self.entity(path) else { return };
        let mut reader = self.reader();
        reader.open(at);
        if let Some(map) = self.map_of((kind, at)) {
            for (i, entry) in map.entries().enumerate() {
                let (length, at) = (self.key(entry).len(), self.word(entry + 4));
                let key = Text { at: self.word(entry), length };
                take(Which::Entry, i, 0, Part::Entry(key, self.file[at], at));
                if kind != MODULE {
                    let take = |j, note| take(Which::EntryNote, i, j, note);
                    self.reader().constant(at, take).expect(GOOD);
                }
            }
            reader.at = map.at + ENTRY * map.count;
        }
        reader.rest(kind, take).expect(GOOD);
    }

    /// A part as it is printed.
    pub fn shown(&self, part: Part) -> String {
        let text = |Text { at, length }: Text| match length {
            0 => format!("{at} 0"),
            _ => format!("{at} {length} {}", escaped(&self.file[at..at + length])),
        };
        match part {
            Part::Text(of) => text(of),
            Part::Entry(key, kind, at) => format!("{kind} {at} {}", text(key)),
            Part::Member(name, value) => format!("{value} {}", text(name)),
            Part::Typed(kind, name, of) => format!("{kind} {} {}", text(name), text(of)),
            Part::Method(name, of) => format!("{} {}", text(name), text(of)),
        }
    }

    /// Up to so many paths of entities and constants.
    pub fn paths(&self, most: usize) -> Vec<Vec<u8>> {
        let mut paths = Vec::new();
        let mut left = vec![(self.root, true, Vec::new())];
        while let Some((map, is_module, before)) = left.pop() {
            for entry in map.entries().take(most - paths.len()) {
                let path = [&before, self.key(entry)].concat();
                let at = self.word(entry + 4);
                if let Some(map) = self.map_of((self.file[at], at)).filter(|_| is_module) {
                    left.push((map, self.file[at] == MODULE, [&path[..], b"."].concat()));
                }
                paths.push(path);
            }
        }
        paths
    }

    /// A line for each entity and each constant, depth first in map order.
    pub fn list(&self, out: &mut impl Write) -> io::Result<()> {
        self.list_map(self.root, true, "", out)
    }

    fn list_map(
        &self,
        map: Map,
        is_module: bool,
        before: &str,
        out: &mut impl Write,
    ) -> io::Result<()> {
        for entry in map.entries() {
            let path = format!("{before}{}", escaped(self.key(entry)));
            let at = self.word(entry + 4);
            if !is_module {
                let constant = self.constant_at(at);
                writeln!(out, "C {} {} {path}", constant.word(), constant.value())?;
                continue;
            }
            let kind = self.file[at];
            writeln!(out, "E {kind} {at} {path}")?;
            if let Some(map) = self.map_of((kind, at)) {
                self.list_map(map, kind == MODULE, &format!("{path}."), out)?;
            }
        }
        Ok(())
    }
}
