//! The five questions. The file's refusal comes first, then 20 at 0.

use super::accepted::Accepted;
use super::check::{accept, is_identifier};
use super::format::{refusal, Refusal, GETTER, SETTER};
use std::cmp::Ordering;

/// What a question is answered.
#[derive(Clone, Copy, Debug, PartialEq, Eq)]
pub enum Lookup<T> {
    Found(T),
    None,
    /// With the index of the unresolved entry that the chain met.
    Undetermined(usize),
    Refused(Refusal),
}

impl<T> Lookup<T> {
    /// The same with another way to tell what was found.
    pub fn map<U>(self, told: impl FnOnce(T) -> U) -> Lookup<U> {
        match self {
            Lookup::Found(found) => Lookup::Found(told(found)),
            Lookup::None => Lookup::None,
            Lookup::Undetermined(index) => Lookup::Undetermined(index),
            Lookup::Refused(refusal) => Lookup::Refused(refusal),
        }
    }
}

#[derive(Clone, Copy, Debug, PartialEq, Eq)]
pub enum Kind {
    Getter,
    Setter,
    /// Neither.
    Plain,
}

impl Kind {
    pub const ALL: [Kind; 3] = [Kind::Getter, Kind::Setter, Kind::Plain];

    /// The kind of an accepted method, by its flags.
    pub fn of(flags: u8) -> Kind {
        match flags & (GETTER | SETTER) {
            GETTER => Kind::Getter,
            SETTER => Kind::Setter,
            _ => Kind::Plain,
        }
    }

    pub fn word(self) -> &'static str {
        match self {
            Kind::Getter => "getter",
            Kind::Setter => "setter",
            Kind::Plain => "plain",
        }
    }

    /// The bits to look at, and what they must be.
    fn mask(self) -> (u8, u8) {
        match self {
            Kind::Getter => (GETTER, GETTER),
            Kind::Setter => (SETTER, SETTER),
            Kind::Plain => (GETTER | SETTER, 0),
        }
    }
}

#[derive(Clone, Copy, Debug, PartialEq, Eq)]
pub enum Slot {
    Known(u64),
    /// With the index of the unresolved ancestor.
    Undetermined(usize),
}

#[derive(Clone, Copy, Debug, PartialEq, Eq)]
pub struct Method {
    /// The index of the interface whose own method it is.
    pub owner: usize,
    /// From 0, among the owner's methods.
    pub position: usize,
    pub slot: Slot,
    /// The steps up from the asked interface to the owner.
    pub distance: usize,
    /// All slots of the asked interface, known exactly when the slot is.
    pub total: Option<u64>,
}

#[derive(Clone, Copy, Debug, PartialEq, Eq)]
pub enum Constant {
    I16(i16),
    I32(i32),
    U16(u16),
    U32(u32),
}

impl Constant {
    /// From an accepted type byte and the value's bits.
    pub(crate) fn new(kind: u8, bits: u32) -> Constant {
        match kind {
            1 => Constant::I16(bits as u16 as i16),
            2 => Constant::I32(bits as i32),
            5 => Constant::U16(bits as u16),
            _ => Constant::U32(bits),
        }
    }

    pub fn value(self) -> i64 {
        match self {
            Constant::I16(value) => value.into(),
            Constant::I32(value) => value.into(),
            Constant::U16(value) => value.into(),
            Constant::U32(value) => value.into(),
        }
    }
}

/// An index, if there is one, and how many entries were looked at.
pub type Looked = Result<(Option<usize>, usize), Refusal>;

pub const MALFORMED: Refusal = Refusal { number: refusal::QUESTION, place: 0 };

/// Asks a file that is accepted.
pub fn of<'a, T>(file: &'a [u8], ask: impl FnOnce(&Accepted<'a>) -> Lookup<T>) -> Lookup<T> {
    match accept(file) {
        Ok(lib) => ask(&lib),
        Err(refusal) => Lookup::Refused(refusal),
    }
}

/// The questions to a file that was checked before.
impl Accepted<'_> {
    /// Interface by IID: its index.
    pub fn interface_by_iid(&self, iid: &[u8]) -> Lookup<usize> {
        self.looks(iid).map_or_else(Lookup::Refused, |(index, _)| found(index))
    }

    /// Interface by IID: its index, if there is one, and how many entries were looked at. Directory
    /// entries are in the order of IIDs; of what is left the middle one is looked at, the lower of two.
    pub fn looks(&self, iid: &[u8]) -> Looked {
        let asked = match <[u8; 16]>::try_from(iid).map(u128::from_be_bytes) {
            Ok(asked) if asked != 0 => asked,
            _ => return Err(MALFORMED),
        };
        let (mut low, mut high) = (1, self.n);
        let mut looked = 0;
        while low <= high {
            let middle = (low + high) / 2;
            looked += 1;
            match self.iid(middle).cmp(&asked) {
                Ordering::Less => low = middle + 1,
                Ordering::Equal => return Ok((Some(middle), looked)),
                Ordering::Greater => high = middle - 1,
            }
        }
        Ok((None, looked))
    }

    /// Interface by key: its index. An empty namespace asks for the default.
    pub fn interface_by_key(&self, namespace: &[u8], name: &[u8]) -> Lookup<usize> {
        if !(namespace.is_empty() || is_identifier(namespace)) || !is_identifier(name) {
            return Lookup::Refused(MALFORMED);
        }
        found(self.keys.iter().position(|key| *key == (namespace, name)).map(|i| i + 1))
    }

    pub fn method_by_name(&self, index: u64, name: &[u8], kind: Kind) -> Lookup<Method> {
        let Some(index) = self.index(index).filter(|_| is_identifier(name)) else {
            return Lookup::Refused(MALFORMED);
        };
        let (mask, bits) = kind.mask();
        let mut chain = self.chain(index);
        let (mut distance, mut below) = (0, 0);
        while let Some((owner, descriptor)) = chain.next() {
            let mut walk = self.walk(descriptor);
            let own = walk.pair();
            below += u64::from(own);
            for position in 0..own {
                let (flags, its_name, _) = walk.method();
                if flags & mask == bits && walk.is(its_name, name) {
                    let position = usize::from(position);
                    let (slot, total) = match chain.count_methods() {
                        Ok(above) => (Slot::Known(above + position as u64), Some(above + below)),
                        Err(unresolved) => (Slot::Undetermined(unresolved), None),
                    };
                    return Lookup::Found(Method { owner, position, slot, distance, total });
                }
            }
            distance += 1;
        }
        not_found(chain.unresolved)
    }

    pub fn method_by_slot(&self, index: u64, slot: u64) -> Lookup<Method> {
        let Some(index) = self.index(index) else {
            return Lookup::Refused(MALFORMED);
        };
        let total = match self.chain(index).count_methods() {
            Ok(total) => total,
            Err(unresolved) => return Lookup::Undetermined(unresolved),
        };
        let mut end = total;
        if slot >= end {
            return Lookup::None;
        }
        // Own methods stand after those of all ancestors.
        for (distance, (owner, descriptor)) in self.chain(index).enumerate() {
            let start = end - u64::from(self.method_count(descriptor));
            if slot >= start {
                let position = (slot - start) as usize;
                let (slot, total) = (Slot::Known(slot), Some(total));
                return Lookup::Found(Method { owner, position, slot, distance, total });
            }
            end = start;
        }
        Lookup::None
    }

    pub fn constant(&self, index: u64, name: &[u8]) -> Lookup<Constant> {
        let Some(index) = self.index(index).filter(|_| is_identifier(name)) else {
            return Lookup::Refused(MALFORMED);
        };
        let mut chain = self.chain(index);
        for (_, descriptor) in &mut chain {
            let mut walk = self.walk(descriptor);
            for _ in 0..walk.pair() {
                walk.method();
            }
            for _ in 0..walk.pair() {
                let (its_name, kind, bits) = walk.constant();
                if walk.is(its_name, name) {
                    return Lookup::Found(Constant::new(kind, bits));
                }
            }
        }
        not_found(chain.unresolved)
    }

    /// An asked index, if it is from 1 to n.
    fn index(&self, index: u64) -> Option<usize> {
        let index = usize::try_from(index).ok()?;
        (1..=self.n).contains(&index).then_some(index)
    }
}

fn found(index: Option<usize>) -> Lookup<usize> {
    index.map_or(Lookup::None, Lookup::Found)
}

fn not_found<T>(unresolved: Option<usize>) -> Lookup<T> {
    unresolved.map_or(Lookup::None, Lookup::Undetermined)
}
