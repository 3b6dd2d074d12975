//! The check of a typelib: refusals 1 to 19, in the order and with the places of document 01.

use super::accepted::{Accepted, Key};
use super::format::*;
use std::collections::HashSet;

/// Checks a file: the number of its interfaces, or its refusal.
pub fn check(file: &[u8]) -> Result<usize, Refusal> {
    Ok(accept(file)?.n)
}

/// Checks a file and keeps what the check found in it.
pub fn accept(file: &[u8]) -> Result<Accepted<'_>, Refusal> {
    let lib = header(file)?;
    lib.annotations()?;
    let keys = lib.directory()?;
    let parents = lib.descriptors()?;
    lib.unique_keys(&keys)?;
    lib.parent_chains(&parents)?;
    let Typelib { n, directory, pool, .. } = lib;
    Ok(Accepted { file, n, directory, pool, keys, parents })
}

/// A file whose header is good.
pub(super) struct Typelib<'a> {
    file: &'a [u8],
    minor: u8,
    pub n: usize,
    directory: usize,
    pool: usize,
}

/// Header and positions: 1 to 8 in number order, with 29 and 30 in the position of 6.
pub(super) fn header(file: &[u8]) -> Result<Typelib<'_>, Refusal> {
    let (n, pool) = head(file)?;
    let (minor, directory) = (file[17], word(file, 24));
    let is_so = match n {
        0 => directory == 0,
        _ => directory.is_multiple_of(4) && stands(directory, n, pool),
    };
    refuse_if(!is_so, refusal::POSITION, 24)?;
    Ok(Typelib { file, minor, n, directory, pool })
}

/// All of a header but the directory: the number of interfaces and where the pool starts.
pub(crate) fn head(file: &[u8]) -> Result<(usize, usize), Refusal> {
    refuse_if(file.len() < HEADER, refusal::TOO_SHORT, file.len())?;
    refuse_if(file.len() > MAX_FILE, refusal::TOO_LONG, MAX_FILE)?;
    if let Some(at) = (0..MAGIC.len()).find(|&i| file[i] != MAGIC[i]) {
        return refused(refusal::MAGIC, at);
    }
    refuse_if(file[16] != 1, refusal::MAJOR, 16)?;
    refuse_if(file[17] > MAX_MINOR, refusal::MINOR, 17)?;
    refuse_if(file.len() < word(file, 20), refusal::CUT, 20)?;
    refuse_if(file.len() > word(file, 20), refusal::PADDED, 20)?;
    let n = usize::from(u16::from_be_bytes([file[18], file[19]]));
    refuse_if(n > MAX_INTERFACES, refusal::COUNT, 18)?;
    let pool = word(file, 28);
    refuse_if(pool <= HEADER || pool > file.len(), refusal::POSITION, 28)?;
    Ok((n, pool))
}

/// Whether a directory of n entries has room there, between the first annotation and the pool.
pub(crate) fn stands(directory: usize, n: usize, pool: usize) -> bool {
    directory > HEADER && directory + ENTRY * n <= pool
}

/// The 4-byte number at `at`, which lies inside the file.
pub(crate) fn word(file: &[u8], at: usize) -> usize {
    u32::from_be_bytes([file[at], file[at + 1], file[at + 2], file[at + 3]]) as usize
}

/// The bytes of the character with which these start, if it is well-formed UTF-8.
fn character(bytes: &[u8]) -> Option<usize> {
    let length = match *bytes.first()? {
        0..0x80 => return Some(1),
        0x80..0xe0 => 2,
        0xe0..0xf0 => 3,
        _ => 4,
    };
    std::str::from_utf8(bytes.get(..length)?).ok().map(|_| length)
}

/// The end of a text at `at`, if all its characters lie before the limit and are well-formed.
pub(crate) fn text(before_limit: &[u8], at: usize) -> Option<usize> {
    let length = before_limit.get(at..at + 2)?;
    let mut end = at + 2;
    for _ in 0..u16::from_be_bytes([length[0], length[1]]) {
        end += character(&before_limit[end..])?;
    }
    Some(end)
}

/// Whether these bytes are an identifier, given without the zero byte.
pub(crate) fn is_identifier(bytes: &[u8]) -> bool {
    (1..=MAX_IDENTIFIER).contains(&bytes.len())
        && bytes.iter().all(|b| *b > b' ' && *b != 0x7f)
        && bytes != b"-"
        && std::str::from_utf8(bytes).is_ok()
}

impl<'a> Typelib<'a> {
    pub fn entry(&self, i: usize) -> usize {
        self.directory + ENTRY * i
    }

    /// Annotations: 9 at the first byte of the one at fault.
    pub fn annotations(&self) -> Result<(), Refusal> {
        let limit = if self.n == 0 { self.pool } else { self.directory };
        let before_limit = &self.file[..limit];
        let mut at = HEADER;
        loop {
            let Some(&first) = before_limit.get(at) else {
                return refused(refusal::ANNOTATION, at);
            };
            let end = match first & 0x7f {
                0 => Some(at + 1),
                1 => text(before_limit, at + 1).and_then(|second| text(before_limit, second)),
                _ => None,
            };
            match end {
                None => return refused(refusal::ANNOTATION, at),
                Some(_) if first & 0x80 != 0 => return Ok(()),
                Some(end) => at = end,
            }
        }
    }

    /// The directory, entry by entry: 10, name, namespace, 12. Gives the keys.
    pub fn directory(&self) -> Result<Vec<Key<'a>>, Refusal> {
        let mut keys = Vec::with_capacity(self.n);
        let mut before = &[0; 16][..];
        for i in 0..self.n {
            let at = self.entry(i);
            let iid = &self.file[at..at + 16];
            let zero = iid.iter().all(|&b| b == 0);
            refuse_if(iid < before || iid == before && !zero, refusal::IID_ORDER, at)?;
            before = iid;
            let name = self.identifier(at + 16)?;
            let namespace = match word(self.file, at + 20) {
                0 => &[],
                _ => self.identifier(at + 20)?,
            };
            refuse_if(zero && word(self.file, at + 24) != 0, refusal::NO_IID, at + 24)?;
            keys.push((namespace, name));
        }
        Ok(keys)
    }

    /// Where the pool pointer in `field` leads: nothing when absent, else a place in the pool.
    pub fn target(&self, field: usize) -> Result<Option<usize>, Refusal> {
        match word(self.file, field) {
            0 => Ok(None),
            p if p <= self.file.len() - self.pool => Ok(Some(self.pool + p - 1)),
            _ => refused(refusal::OUTSIDE, field),
        }
    }

    /// The identifier to which the pointer in `field` must lead.
    fn identifier(&self, field: usize) -> Result<&'a [u8], Refusal> {
        let Some(at) = self.target(field)? else {
            return refused(refusal::IDENTIFIER, field);
        };
        let end = self.file.len().min(at + MAX_IDENTIFIER + 1);
        let bytes = &self.file[at..end];
        match bytes.iter().position(|&b| b == 0) {
            Some(length) if is_identifier(&bytes[..length]) => Ok(&bytes[..length]),
            _ => refused(refusal::IDENTIFIER, field),
        }
    }

    /// Descriptors in directory order. Gives the parents, 0 for unresolved entries.
    fn descriptors(&self) -> Result<Vec<u16>, Refusal> {
        let mut parents = Vec::with_capacity(self.n);
        let mut good = HashSet::with_capacity(self.n);
        let mut accessors = Vec::new();
        for i in 0..self.n {
            let Some(start) = self.target(self.entry(i) + 24)? else {
                parents.push(0);
                continue;
            };
            if good.insert(start) {
                self.descriptor(start, &mut accessors)?;
            }
            parents.push(u16::from_be_bytes([self.file[start], self.file[start + 1]]));
        }
        Ok(parents)
    }

    /// One descriptor; the list is for what is met in it. Gives the parent.
    pub fn descriptor(&self, at: usize, list: &mut Vec<Accessor<'a>>) -> Result<u16, Refusal> {
        Reader { lib: self, file: self.file, at }.descriptor(list)
    }

    /// 18 at the lowest entry whose key stood earlier.
    pub fn unique_keys(&self, keys: &[Key<'a>]) -> Result<(), Refusal> {
        let mut stood = HashSet::with_capacity(keys.len());
        match keys.iter().position(|key| !stood.insert(key)) {
            Some(i) => refused(refusal::KEY_TWICE, self.entry(i)),
            None => Ok(()),
        }
    }

    /// 19 at the lowest entry whose chain does not end.
    fn parent_chains(&self, parents: &[u16]) -> Result<(), Refusal> {
        // For each entry the first walk that passed it, 0 for none. Earlier walks have ended.
        let mut passed = vec![0; self.n];
        for i in 0..self.n {
            let walk = i + 1;
            let mut index = walk;
            while index != 0 && passed[index - 1] == 0 {
                passed[index - 1] = walk;
                index = usize::from(parents[index - 1]);
            }
            refuse_if(index != 0 && passed[index - 1] == walk, refusal::CYCLE, self.entry(i))?;
        }
        Ok(())
    }
}

/// A getter or a setter of the interface being read: name, whether it is a setter, position.
pub(super) type Accessor<'a> = (&'a [u8], bool, u16);

/// Whether every getter and setter of one name stand next to each other, the getter first.
fn pairs_stand(accessors: &mut [Accessor]) -> bool {
    accessors.sort_unstable();
    accessors.chunk_by(|a, b| a.0 == b.0).all(|same| {
        let ((_, a, first), (_, b, last)) = (same[0], same[same.len() - 1]);
        a == b || same.len() == 2 && last == first + 1
    })
}

/// A set of argument numbers.
#[derive(Clone, Copy, Default)]
struct Numbers([u64; 4]);

impl Numbers {
    fn insert(&mut self, number: u8) {
        self.0[usize::from(number >> 6)] |= 1 << (number & 63);
    }

    fn within(&self, other: &Numbers) -> bool {
        self.0.iter().zip(&other.0).all(|(a, b)| a & !b == 0)
    }
}

/// The argument numbers that a method's types hold, by what they must name.
#[derive(Default)]
struct Named {
    iids: Numbers,
    sizes: Numbers,
}

/// Reads records in the pool from left to right.
struct Reader<'l, 'a> {
    lib: &'l Typelib<'a>,
    file: &'a [u8],
    at: usize,
}

impl<'a> Reader<'_, 'a> {
    /// Steps over a field of `length` bytes and gives its place; 13 when it does not fit.
    fn field(&mut self, length: usize) -> Result<usize, Refusal> {
        let place = self.at;
        refuse_if(self.file.len() - place < length, refusal::OUTSIDE, place)?;
        self.at = place + length;
        Ok(place)
    }

    fn byte(&mut self) -> Result<u8, Refusal> {
        let place = self.at;
        let Some(&byte) = self.file.get(place) else {
            return refused(refusal::OUTSIDE, place);
        };
        self.at = place + 1;
        Ok(byte)
    }

    fn pair(&mut self) -> Result<u16, Refusal> {
        let place = self.field(2)?;
        Ok(u16::from_be_bytes([self.file[place], self.file[place + 1]]))
    }

    fn name(&mut self) -> Result<&'a [u8], Refusal> {
        let place = self.field(4)?;
        self.lib.identifier(place)
    }

    /// A count of methods or constants: 17 when over the limit.
    fn count(&mut self, limit: usize) -> Result<u16, Refusal> {
        let place = self.at;
        let count = self.pair()?;
        refuse_if(usize::from(count) > limit, refusal::SIZE, place)?;
        Ok(count)
    }

    fn descriptor(mut self, accessors: &mut Vec<Accessor<'a>>) -> Result<u16, Refusal> {
        let start = self.at;
        let parent = self.pair()?;
        refuse_if(usize::from(parent) > self.lib.n, refusal::INDEX, start)?;
        let mut constructors = 0;
        accessors.clear();
        for position in 0..self.count(MAX_METHODS)? {
            let (flags, name) = self.method()?;
            accessors.extend((flags & GETTER != 0).then_some((name, false, position)));
            accessors.extend((flags & SETTER != 0).then_some((name, true, position)));
            constructors += usize::from(flags & CONSTRUCTOR != 0);
        }
        for _ in 0..self.count(MAX_CONSTANTS)? {
            self.constant()?;
        }
        let place = self.at;
        let flags = self.byte()?;
        refuse_if(flags & reserved_in_interface(self.lib.minor) != 0, refusal::RESERVED, place)?;
        refuse_if(constructors > 1 || !pairs_stand(accessors), refusal::RULE, start)?;
        Ok(parent)
    }

    /// Method: its flags and name.
    fn method(&mut self) -> Result<(u8, &'a [u8]), Refusal> {
        let start = self.at;
        let flags = self.byte()?;
        refuse_if(flags & RESERVED_IN_METHOD != 0, refusal::RESERVED, start)?;
        let name = self.name()?;
        let mut named = Named::default();
        let mut iids = Numbers::default();
        let mut sizes = Numbers::default();
        for number in 0..self.byte()? {
            let retval_alone = |flags| flags & RETVAL != 0 && flags & OUT == 0;
            let (_, prefix) = self.parameter(&mut named, retval_alone)?;
            match (prefix & TAG, prefix & POINTER != 0) {
                (IID, true) => iids.insert(number),
                (UINT32, false) => sizes.insert(number),
                _ => {}
            }
        }
        let (result_flags, result) = self.parameter(&mut named, |flags| flags & (IN | OUT) != 0)?;
        let numbers_stand = named.iids.within(&iids) && named.sizes.within(&sizes);
        let free_result = flags & NOT_XPCOM != 0 || result_flags & RETVAL != 0;
        refuse_if(
            !numbers_stand || !(free_result || result == VOID || result == UINT32),
            refusal::RULE,
            start,
        )?;
        Ok((flags, name))
    }

    /// A parameter's flags, of which those that break the rule of its kind are refused, and its
    /// outermost prefix.
    fn parameter(&mut self, named: &mut Named, bad: fn(u8) -> bool) -> Result<(u8, u8), Refusal> {
        let place = self.at;
        let flags = self.byte()?;
        let reserved = flags & reserved_in_parameter(self.lib.minor) != 0;
        refuse_if(reserved, refusal::RESERVED, place)?;
        refuse_if(bad(flags), refusal::RULE, place)?;
        Ok((flags, self.type_(named)?))
    }

    /// Type, with the elements of its arrays. Gives the outermost prefix.
    fn type_(&mut self, named: &mut Named) -> Result<u8, Refusal> {
        let start = self.at;
        let mut arrays = 0;
        loop {
            let place = self.at;
            let prefix = self.byte()?;
            let tag = prefix & TAG;
            refuse_if(is_reserved(tag, self.lib.minor), refusal::RESERVED, place)?;
            refuse_if(
                prefix & POINTER == 0 && (prefix & (UNIQUE | REFERENCE) != 0 || needs_pointer(tag)),
                refusal::RULE,
                place,
            )?;
            match tag {
                INTERFACE => {
                    let place = self.at;
                    let index = usize::from(self.pair()?);
                    refuse_if(index == 0 || index > self.lib.n, refusal::INDEX, place)?;
                }
                INTERFACE_IS => named.iids.insert(self.byte()?),
                ARRAY => {
                    arrays += 1;
                    refuse_if(arrays > MAX_ARRAYS, refusal::SIZE, place)?;
                    named.sizes.insert(self.byte()?);
                    named.sizes.insert(self.byte()?);
                    continue;
                }
                SIZED_STRING | SIZED_WSTRING => {
                    named.sizes.insert(self.byte()?);
                    named.sizes.insert(self.byte()?);
                }
                _ => {}
            }
            return Ok(self.file[start]);
        }
    }

    fn constant(&mut self) -> Result<(), Refusal> {
        self.name()?;
        let place = self.at;
        match value_size(self.byte()?) {
            Some(length) => self.field(length).map(|_| ()),
            None => refused(refusal::RULE, place),
        }
    }
}
