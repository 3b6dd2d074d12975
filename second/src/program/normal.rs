//! The normal form of a typelib, and the writer that links share.

use super::accepted::{pair, Accepted, Key};
use super::check::accept;
use super::format::{refusal, refuse_if, refused, Refusal, ENTRY, MAGIC, MAX_FILE};
use super::Answer;
use std::collections::HashMap;

/// Writes the normal form and gives its length; the rest of the buffer keeps its bytes, on a
/// refusal all of it.
pub fn normalise(file: &[u8], out: &mut [u8]) -> Result<usize, Refusal> {
    accept(file)?.normalise(out)
}

impl<'a> Accepted<'a> {
    /// Writes the normal form of a file that was checked before.
    pub fn normalise(&self, out: &mut [u8]) -> Result<usize, Refusal> {
        let mut order: Vec<u16> = (1..=self.n as u16).collect();
        // Entries stand in the order of IIDs, those of zero IID first.
        let zeros = order.partition_point(|&index| self.iid(index.into()) == 0);
        order[..zeros].sort_unstable_by_key(|&index| self.key(index.into()));
        let mut renumbered = vec![0; self.n + 1];
        for (i, &index) in order.iter().enumerate() {
            renumbered[usize::from(index)] = i as u16 + 1;
        }
        let sources = [Source { lib: self, renumbered }];
        let item = |&index: &u16| {
            let index = usize::from(index);
            let descriptor = self.descriptor(index).map(|place| (0, place));
            Item { iid: self.iid(index), key: self.key(index), descriptor }
        };
        write(&sources, &order.iter().map(item).collect::<Vec<_>>(), out)
    }
}

/// A file from which descriptors are taken.
pub(crate) struct Source<'l, 'a> {
    pub lib: &'l Accepted<'a>,
    /// The file's indexes in the normal form, by index; 0 stays 0.
    pub renumbered: Vec<u16>,
}

/// An entry of a normal form.
#[derive(Clone, Copy)]
pub(crate) struct Item<'a> {
    pub iid: u128,
    pub key: Key<'a>,
    /// The position of its source, and where it starts there.
    pub descriptor: Option<(usize, usize)>,
}

const DIRECTORY: usize = 36;

/// Writes the normal form of these entries, which come in order: 26, then 27.
pub(crate) fn write<'a>(sources: &[Source<'_, 'a>], items: &[Item<'a>], out: &mut [u8]) -> Answer {
    let head = DIRECTORY + ENTRY * items.len();
    let mut directory = Vec::with_capacity(ENTRY * items.len());
    let mut pool = Pool::default();
    for item in items {
        let (namespace, name) = item.key;
        let name = pool.name(name);
        let namespace = if namespace.is_empty() { 0 } else { pool.name(namespace) };
        let put = |(source, start): (usize, usize)| pool.descriptor(&sources[source], start);
        let descriptor = item.descriptor.map_or(0, put);
        // Descriptors are never shared: up to here little is read, however much the sources share.
        refuse_if(head + pool.bytes.len() > MAX_FILE, refusal::FORM_SIZE, 0)?;
        directory.extend(item.iid.to_be_bytes());
        directory.extend([name, namespace, descriptor].map(u32::to_be_bytes).as_flattened());
    }
    let length = head + pool.bytes.len();
    let Some(out) = out.get_mut(..length) else {
        return refused(refusal::BUFFER, length);
    };
    let count = (items.len() as u16).to_be_bytes();
    let words = [length, if items.is_empty() { 0 } else { DIRECTORY }, head];
    let words = words.map(|word| (word as u32).to_be_bytes());
    let minor = 1 + u8::from(pool.has_newer);
    let header = [&MAGIC[..], &[1, minor], &count, words.as_flattened(), &[0x80, 0, 0, 0]];
    let (before_pool, rest) = out.split_at_mut(head);
    before_pool.copy_from_slice(&[header.concat(), directory].concat());
    rest.copy_from_slice(&pool.bytes);
    Ok(length)
}

/// A pool, whose records stand one after another: descriptors, and each identifier once.
#[derive(Default)]
struct Pool<'a> {
    bytes: Vec<u8>,
    /// The pointers to the identifiers that are there, in whatever role they were used first.
    stock: HashMap<&'a [u8], u32>,
    /// Whether a tag of minor 2 is there.
    has_newer: bool,
}

impl<'a> Pool<'a> {
    /// The pointer to an identifier, which is put at the end where this is its first use.
    fn name(&mut self, name: &'a [u8]) -> u32 {
        let Pool { bytes, stock, .. } = self;
        *stock.entry(name).or_insert_with(|| {
            let pointer = bytes.len() as u32 + 1;
            bytes.extend_from_slice(name);
            bytes.push(0);
            pointer
        })
    }

    /// The pointer to a descriptor, which is put at the end; then those of its names that are new:
    /// of methods, then of constants.
    fn descriptor(&mut self, source: &Source<'_, 'a>, start: usize) -> u32 {
        let Source { lib, renumbered } = source;
        // Where names and indexes stand in the source, with the places of the names and the indexes.
        let mut names = Vec::new();
        let mut references = vec![(start, pair(lib.file, start))];
        let mut walk = lib.walk(start);
        for _ in 0..walk.pair() {
            walk.at += 1;
            names.push((walk.at, walk.pointer()));
            for _ in 0..=walk.byte() {
                walk.at += 1;
                references.extend(walk.reference());
            }
        }
        for _ in 0..walk.pair() {
            names.push((walk.at, walk.constant().0));
        }
        self.has_newer |= walk.has_newer;
        // All bytes as they are; then other indexes and pointers over them.
        let at = self.bytes.len();
        self.bytes.extend_from_slice(&lib.file[start..=walk.at]);
        for (field, index) in references {
            let index = renumbered[usize::from(index)].to_be_bytes();
            self.bytes[field - start + at..][..2].copy_from_slice(&index);
        }
        for (field, place) in names {
            let pointer = self.name(walk.identifier(place)).to_be_bytes();
            self.bytes[field - start + at..][..4].copy_from_slice(&pointer);
        }
        at as u32 + 1
    }
}
