//! An accepted file, and the walk over its records. Nothing here can fail: the check has gone
//! before.

use super::check::word;
use super::format::{ARRAY, ENTRY, INTERFACE, INTERFACE_IS, TAG, UTF8STRING};

/// Namespace (empty for the default) and name.
pub type Key<'a> = (&'a [u8], &'a [u8]);

/// A file that the check has accepted, with what the check found in it. Indexes are from 1.
#[derive(Clone, Debug)]
pub struct Accepted<'a> {
    pub(crate) file: &'a [u8],
    /// The number of interfaces.
    pub n: usize,
    pub(crate) directory: usize,
    pub(crate) pool: usize,
    pub(crate) keys: Vec<Key<'a>>,
    /// 0 for none, and for unresolved entries.
    pub(crate) parents: Vec<u16>,
}

impl<'a> Accepted<'a> {
    pub fn iid(&self, index: usize) -> u128 {
        let at = self.directory + ENTRY * (index - 1);
        let bytes = self.file[at..at + 16].try_into().expect("16 bytes");
        u128::from_be_bytes(bytes)
    }

    pub fn key(&self, index: usize) -> Key<'a> {
        self.keys[index - 1]
    }

    pub fn parent(&self, index: usize) -> usize {
        usize::from(self.parents[index - 1])
    }

    /// Where the entry's descriptor starts, if it is resolved.
    pub fn descriptor(&self, index: usize) -> Option<usize> {
        match word(self.file, self.directory + ENTRY * (index - 1) + 24) {
            0 => None,
            p => Some(self.pool + p - 1),
        }
    }

    /// A walk that starts at a method count: of the descriptor at `descriptor`.
    pub fn walk(&self, descriptor: usize) -> Walk<'a> {
        Walk { file: self.file, pool: self.pool, at: descriptor + 2, has_newer: false }
    }

    /// The number of own methods, from the descriptor's place.
    pub fn method_count(&self, descriptor: usize) -> u16 {
        pair(self.file, descriptor + 2)
    }

    /// Resolved entries from `index` upward, each with its descriptor's place. At the end, see
    /// its `unresolved`.
    pub fn chain(&self, index: usize) -> Chain<'_, 'a> {
        Chain { lib: self, next: index, unresolved: None }
    }
}

/// A way up through parents.
pub struct Chain<'l, 'a> {
    lib: &'l Accepted<'a>,
    next: usize,
    /// After the last step: the unresolved entry at which the chain ended, if it is incomplete.
    pub unresolved: Option<usize>,
}

impl Chain<'_, '_> {
    /// The number of methods of all that is left of the chain; or the unresolved entry.
    pub fn count_methods(mut self) -> Result<u64, usize> {
        let mut methods = 0;
        while let Some((_, descriptor)) = self.next() {
            methods += u64::from(self.lib.method_count(descriptor));
        }
        self.unresolved.map_or(Ok(methods), Err)
    }
}

impl Iterator for Chain<'_, '_> {
    type Item = (usize, usize);

    fn next(&mut self) -> Option<(usize, usize)> {
        let index = self.next;
        if index == 0 {
            return None;
        }
        let Some(descriptor) = self.lib.descriptor(index) else {
            (self.next, self.unresolved) = (0, Some(index));
            return None;
        };
        self.next = self.lib.parent(index);
        Some((index, descriptor))
    }
}

/// The 2-byte number at `at`.
pub(crate) fn pair(file: &[u8], at: usize) -> u16 {
    u16::from_be_bytes([file[at], file[at + 1]])
}

/// How many bytes stand before the first zero byte, eight at a time.
fn before_zero(bytes: &[u8]) -> usize {
    const LOW: u64 = 0x0101_0101_0101_0101;
    const HIGH: u64 = 0x8080_8080_8080_8080;
    let mut at = 0;
    while let Some(eight) = bytes[at..].first_chunk() {
        let eight = u64::from_le_bytes(*eight);
        // The lowest bit that is set here is that of the first zero byte.
        let zeros = eight.wrapping_sub(LOW) & !eight & HIGH;
        if zeros != 0 {
            return at + zeros.trailing_zeros() as usize / 8;
        }
        at += 8;
    }
    at + bytes[at..].iter().take_while(|b| **b != 0).count()
}

/// Walks over the records of an accepted file's pool, from left to right.
#[derive(Clone, Copy)]
pub struct Walk<'a> {
    pub(crate) file: &'a [u8],
    pub(crate) pool: usize,
    pub(crate) at: usize,
    /// Whether a tag of minor 2 was stepped over.
    pub(crate) has_newer: bool,
}

impl<'a> Walk<'a> {
    pub fn byte(&mut self) -> u8 {
        let byte = self.file[self.at];
        self.at += 1;
        byte
    }

    pub fn pair(&mut self) -> u16 {
        self.at += 2;
        pair(self.file, self.at - 2)
    }

    /// A name's pointer: the place of the name.
    pub fn pointer(&mut self) -> usize {
        let p = word(self.file, self.at);
        self.at += 4;
        self.pool + p - 1
    }

    /// The identifier at a place.
    pub fn identifier(&self, place: usize) -> &'a [u8] {
        let bytes = &self.file[place..];
        &bytes[..before_zero(bytes)]
    }

    /// Whether the identifier at a place is this one.
    pub fn is(&self, place: usize, name: &[u8]) -> bool {
        let bytes = &self.file[place..];
        bytes[0] == name[0] && bytes.starts_with(name) && bytes[name.len()] == 0
    }

    /// Steps over a type. If it ends in a reference to an interface: where the index stands, and
    /// the index.
    pub fn reference(&mut self) -> Option<(usize, u16)> {
        loop {
            // Branches, as a table's answer would have to be waited for.
            let tag = self.byte() & TAG;
            if tag < INTERFACE {
                return None;
            }
            if tag == INTERFACE {
                let place = self.at;
                return Some((place, self.pair()));
            }
            if tag == INTERFACE_IS {
                self.at += 1;
                return None;
            }
            if tag >= UTF8STRING {
                self.has_newer = true;
                return None;
            }
            self.at += 2;
            if tag != ARRAY {
                return None;
            }
        }
    }

    /// Steps over a method: its flags, the place of its name, the number of its arguments.
    pub fn method(&mut self) -> (u8, usize, u8) {
        let flags = self.byte();
        let name = self.pointer();
        let arguments = self.byte();
        for _ in 0..=arguments {
            self.at += 1;
            self.reference();
        }
        (flags, name, arguments)
    }

    /// Steps over a constant: the place of its name, its kind and the bits of its value.
    pub fn constant(&mut self) -> (usize, u8, u32) {
        let name = self.pointer();
        let kind = self.byte();
        let bits = match kind {
            1 | 5 => u32::from(self.pair()),
            _ => {
                self.at += 4;
                word(self.file, self.at - 4) as u32
            }
        };
        (name, kind, bits)
    }
}
