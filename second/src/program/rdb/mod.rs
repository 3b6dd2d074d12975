//! The check of a types.rdb, the format of source document 001: refusals 2 and 31 to 37, in the order and with
//! the places of document 02, by either reading.

pub mod questions;
mod record;
mod stops;

use super::format::{refusal, refuse_if, refused, Refusal, MAX_FILE};
pub use record::{Memory, Part, Text, Which};
use record::{Reader, MEMORY};
use std::hash::{Hash, Hasher};
use std::{collections::HashSet, ffi::CStr};

/// Whether read-only attributes have a count of set exceptions: as document 001 says, or as office suites write.
#[derive(Clone, Copy, Debug, PartialEq, Eq)]
pub enum Reading {
    Literal,
    Office,
}

impl Reading {
    pub const BOTH: [Reading; 2] = [Reading::Literal, Reading::Office];

    pub fn word(self) -> &'static str {
        ["literal", "office"][self as usize]
    }
}

pub const MAGIC: [u8; 7] = *b"UNOIDL\xff";
pub const HEADER: usize = 16;
pub const ENTRY: usize = 8;
pub const MAX_MODULES: usize = 16;
pub const MAX_ENTRIES: usize = 65_536;

// Kinds of entities; those that are not here are named but not opened.
pub const MODULE: u8 = 0;
pub const ENUM: u8 = 1;
pub const INTERFACE: u8 = 5;
pub const GROUP: u8 = 7;
pub const LAST_KIND: u8 = 11;

// What else a kind byte has.
pub const KIND: u8 = 0x1f;
pub const ANNOTATED: u8 = 0x40;
pub const FLAG: u8 = 0x20;
pub const CONSTANT_ANNOTATED: u8 = 0x80;

/// The bytes of a constant's value, by its kind: BOOLEAN to DOUBLE.
pub const SIZES: [usize; 10] = [1, 1, 2, 2, 4, 4, 8, 8, 4, 8];
pub const BOOLEAN: u8 = 0;

/// Whether no entity has this kind byte.
fn is_reserved(kind: u8) -> bool {
    match kind & KIND {
        MODULE => kind != MODULE,
        2 | 4 | 8 => false,
        number => number > LAST_KIND || kind & FLAG != 0,
    }
}

/// An accepted file.
#[derive(Clone, Copy)]
pub struct Accepted<'a> {
    pub file: &'a [u8],
    reading: Reading,
    root: Map,
    /// The entries that the check visited.
    pub visited: usize,
}

/// Where the entries of a map stand, and how many there are.
#[derive(Clone, Copy)]
struct Map {
    at: usize,
    count: usize,
}

impl Map {
    fn entries(self) -> impl Iterator<Item = usize> {
        (0..self.count).map(move |i| self.at + ENTRY * i)
    }
}

/// Checks a file: the number of entries visited, or its refusal.
pub fn check(file: &[u8], reading: Reading) -> Result<usize, Refusal> {
    Ok(accept(file, reading)?.visited)
}

pub fn accept(file: &[u8], reading: Reading) -> Result<Accepted<'_>, Refusal> {
    accept_by(file, reading, MEMORY)
}

/// Likewise; what is remembered changes no answer.
pub fn accept_by(file: &[u8], reading: Reading, memory: Memory) -> Result<Accepted<'_>, Refusal> {
    refuse_if(file.len() > MAX_FILE, refusal::TOO_LONG, MAX_FILE)?;
    refuse_if(file.len() < HEADER || file[..7] != MAGIC, refusal::RDB_HEADER, 0)?;
    refuse_if(file[7] != 0, refusal::RDB_HEADER, 7)?;
    let mut walk = Walk {
        reader: Reader::new(file, reading, memory),
        visited: 0,
        good: [Places::of(file.len()), Places::of(file.len())],
    };
    let root = Map { at: walk.reader.pointer(8)?, count: walk.reader.word_at(12)? };
    walk.entries(root, root.at, false)?;
    for entry in root.entries() {
        walk.entity(entry, 0)?;
    }
    Ok(Accepted { file, reading, root, visited: walk.visited })
}

/// Goes through everything that can be reached, depth first.
struct Walk<'a> {
    reader: Reader<'a>,
    visited: usize,
    /// Where entities and where constants stand whose own bytes, with a map's entries, were found good. They
    /// stay so wherever an entry leads there again: then only entries are counted, and modules.
    good: [Places; 2],
}

/// A set of places, a bit for each.
struct Places(Vec<u64>);

impl Places {
    fn of(length: usize) -> Places {
        Places(vec![0; length / 64 + 1])
    }

    fn has(&self, place: usize) -> bool {
        self.0[place / 64] >> (place % 64) & 1 == 1
    }

    fn add(&mut self, place: usize) {
        self.0[place / 64] |= 1 << (place % 64);
    }
}

/// A key in a set: of a long one only its length and its ends are hashed.
#[derive(PartialEq, Eq)]
struct Key<'a>(&'a [u8]);

impl Hash for Key<'_> {
    fn hash<H: Hasher>(&self, state: &mut H) {
        let length = self.0.len();
        let (first, rest) = self.0.split_at(length.min(32));
        state.write_usize(length);
        state.write(first);
        state.write(&rest[rest.len().saturating_sub(32)..]);
    }
}

impl Walk<'_> {
    /// A map's entries, whose payloads start below its holder.
    fn entries(&mut self, map: Map, holder: usize, known: bool) -> Result<(), Refusal> {
        if known {
            let left = MAX_ENTRIES - self.visited;
            self.visited += map.count;
            return refuse_if(map.count > left, refusal::RDB_TOO_MANY, map.at + ENTRY * left);
        }
        let (mut keys, mut last) = (HashSet::new(), None);
        for (i, entry) in map.entries().enumerate() {
            refuse_if(self.visited == MAX_ENTRIES, refusal::RDB_TOO_MANY, entry)?;
            self.visited += 1;
            let key = self.reader.key(entry)?;
            // As long as they rise none of them is there twice.
            if i == 0 || last.is_some_and(|last| last < key) {
                last = Some(key);
            } else {
                for entry in map.entries().take(if last.is_some() { i } else { 0 }) {
                    keys.insert(Key(self.reader.key(entry)?));
                }
                last = None;
                refuse_if(!keys.insert(Key(key)), refusal::RDB_KEY_TWICE, entry)?;
            }
            let payload = self.reader.pointer(entry + 4)?;
            refuse_if(payload >= holder, refusal::RDB_NOT_BELOW, entry + 4)?;
        }
        Ok(())
    }

    /// The record of an entity and what it leads to, inside so many modules.
    fn entity(&mut self, entry: usize, modules: usize) -> Result<(), Refusal> {
        let at = self.reader.word_at(entry + 4)?;
        let known = self.good[0].has(at);
        let kind = self.reader.open(at);
        refuse_if(is_reserved(kind), refusal::RDB_VALUE, at)?;
        let is_module = kind == MODULE;
        refuse_if(is_module && modules == MAX_MODULES, refusal::RDB_TOO_DEEP, entry)?;
        let mut map = Map { at, count: 0 };
        if is_module || kind & KIND == GROUP {
            map = Map { at: at + 5, count: self.reader.word()? };
            self.entries(map, at, known)?;
            self.reader.at = map.at + ENTRY * map.count;
        }
        if !known {
            self.reader.rest(kind, &mut |_, _, _, _| ())?;
            self.good[0].add(at);
        }
        for entry in map.entries() {
            match is_module {
                true => self.entity(entry, modules + 1)?,
                false => self.constant(entry)?,
            }
        }
        Ok(())
    }

    fn constant(&mut self, entry: usize) -> Result<(), Refusal> {
        let at = self.reader.word_at(entry + 4)?;
        if !self.good[1].has(at) {
            self.reader.constant(at, |_, _| ())?;
            self.good[1].add(at);
        }
        Ok(())
    }
}
