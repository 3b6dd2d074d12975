//! The proved library for Rust: the calls of include/saniotka.h as safe functions, with enums for their
//! answers. Nothing else of this package is named here, so that any program that links the library
//! (build.rs) can have a copy of this folder.

pub mod lists;

use lists::ANSWERED;

/// Numbers that any answer fits in.
pub const ROOM: usize = 8;

/// Bytes that any normal form and any link fit in.
pub const BUFFER: usize = 1_048_576;

/// The number of a refusal, and its place.
#[derive(Clone, Copy, Debug, PartialEq, Eq)]
pub struct Refusal {
    pub number: u32,
    pub place: usize,
}

/// The answer to a question. Interfaces are told by their index, counted from 1.
#[derive(Clone, Copy, Debug, PartialEq, Eq)]
pub enum Answer<T> {
    Found(T),
    None,
    /// This interface, which the file only names, may have it.
    Undetermined(usize),
    /// The file's refusal, or 20 at 0 for a malformed question.
    Refused(Refusal),
}

#[derive(Clone, Copy, Debug, PartialEq, Eq)]
pub enum Kind {
    Getter,
    Setter,
    /// Neither.
    Plain,
}

#[derive(Clone, Copy, Debug, PartialEq, Eq)]
pub enum Slot {
    Known(u64),
    /// It rests on this interface, which the file only names.
    Undetermined(usize),
}

#[derive(Clone, Copy, Debug, PartialEq, Eq)]
pub struct Method {
    /// The interface whose own method it is.
    pub owner: usize,
    /// From 0, among the owner's methods.
    pub position: usize,
    pub slot: Slot,
    /// The steps up from the asked interface to the owner.
    pub distance: usize,
    /// All slots of the asked interface, known exactly when the slot is.
    pub total: Option<u64>,
}

#[derive(Clone, Copy, Debug, PartialEq, Eq)]
pub enum Constant {
    I16(i16),
    I32(i32),
    U16(u16),
    U32(u32),
}

/// What of a link is refused.
#[derive(Clone, Copy, Debug, PartialEq, Eq)]
pub enum Which {
    Link,
    First,
    Second,
}

/// How a types.rdb is read.
#[derive(Clone, Copy, Debug, PartialEq, Eq)]
pub enum Reading {
    /// Each attribute has a number of set exceptions, as document 001 says.
    Document,
    /// One that is read-only has none, as office suites write.
    Office,
}

/// An entity of a types.rdb: its kind byte, flags and all, and that byte's offset.
#[derive(Clone, Copy, Debug, PartialEq, Eq)]
pub struct Entity {
    pub kind: u8,
    pub offset: usize,
}

/// A constant of a types.rdb; a FLOAT and a DOUBLE are told by their bits.
#[derive(Clone, Copy, Debug, PartialEq, Eq)]
pub enum Value {
    Boolean(bool),
    Byte(i8),
    Short(i16),
    UnsignedShort(u16),
    Long(i32),
    UnsignedLong(u32),
    Hyper(i64),
    UnsignedHyper(u64),
    Float(u32),
    Double(u64),
}

/// Whether a file is a typelib: how many interfaces it has.
pub fn check(file: &[u8]) -> Result<usize, Refusal> {
    told(|list| lists::check(file, list), verdict)
}

/// Interface by IID: 16 bytes, not all zero.
pub fn interface_by_iid(file: &[u8], iid: &[u8]) -> Answer<usize> {
    asked(|list| lists::iid(file, iid, list), interface)
}

/// Interface by IID, if there is one, and how many entries of the directory were looked at.
pub fn interface_by_iid_counted(
    file: &[u8],
    iid: &[u8],
) -> Result<(Option<usize>, usize), Refusal> {
    told(
        |list| lists::iid_counted(file, iid, list),
        |numbers| match *numbers {
            [0, index, looked] => Some(Ok((Some(index as usize), looked as usize))),
            [1, looked] => Some(Ok((None, looked as usize))),
            [3, number, place] => Some(Err(refusal(number, place)?)),
            _ => None,
        },
    )
}

/// Interface by key; an empty namespace asks for the default.
pub fn interface_by_key(file: &[u8], space: &[u8], name: &[u8]) -> Answer<usize> {
    asked(|list| lists::key(file, space, name, list), interface)
}

/// Method by the index of an interface, name and kind.
pub fn method_by_name(file: &[u8], index: u64, name: &[u8], kind: Kind) -> Answer<Method> {
    asked(|list| lists::method(file, index, name, kind as u64, list), method)
}

/// Method by the index of an interface and slot.
pub fn method_by_slot(file: &[u8], index: u64, slot: u64) -> Answer<Method> {
    asked(|list| lists::slot(file, index, slot, list), method)
}

/// Constant by the index of an interface and name.
pub fn constant_by_name(file: &[u8], index: u64, name: &[u8]) -> Answer<Constant> {
    asked(|list| lists::constant(file, index, name, list), constant)
}

/// Writes the normal form of a file to the front of `out`: its length. Where it is refused `out` is as
/// it was; 27 has the length that is needed as its place.
pub fn normalise(file: &[u8], out: &mut [u8]) -> Result<usize, Refusal> {
    told(|list| lists::normal(file, out, list), written)
}

/// Writes a file of libxpt in the published layout to the front of `out`, likewise.
pub fn adopt(file: &[u8], out: &mut [u8]) -> Result<usize, Refusal> {
    told(|list| lists::adopt(file, out, list), written)
}

/// Writes what is left of a damaged file to the front of `out`, likewise: its length, and how many
/// interfaces were changed. Their indexes, the numbers and the places of what they are refused for stand
/// at the front of the three lists of a report, of 1,024 numbers or more each.
pub fn salvage(
    file: &[u8],
    report: [&mut [u64]; 3],
    out: &mut [u8],
) -> Result<(usize, usize), Refusal> {
    told(
        |list| lists::salvage(file, report, out, list),
        |numbers| match *numbers {
            [0, length, changed] => Some(Ok((length as usize, changed as usize))),
            [3, number, place] => Some(Err(refusal(number, place)?)),
            _ => None,
        },
    )
}

/// Writes the normal form of the union of two files to the front of `out`, likewise.
pub fn link(first: &[u8], second: &[u8], out: &mut [u8]) -> Result<usize, (Which, Refusal)> {
    told(
        |list| lists::link(first, second, out, list),
        |numbers| match *numbers {
            [0, length] => Some(Ok(length as usize)),
            [3, which, number, place] => Some(Err((file(which)?, refusal(number, place)?))),
            _ => None,
        },
    )
}

/// What files link to, one by one; a single one with the empty typelib. Of a refusal also which link it is
/// of, counted from 1. Nothing where there are more than 256.
pub fn pile(files: &[&[u8]]) -> Result<Option<Vec<u8>>, (Which, Refusal, usize)> {
    let (mut one, mut other) = (vec![0; BUFFER], vec![0; BUFFER]);
    let mut pile = (0, 0);
    let read = |numbers: &Numbers| match *numbers {
        [0, files, left] => Some(Ok(Some((files, left)))),
        [1] => Some(Ok(None)),
        [3, which, number, place, step] => {
            Some(Err((file(which)?, refusal(number, place)?, step as usize)))
        }
        _ => None,
    };
    for next in files {
        match told(|list| lists::pile_add(pile, next, [&mut one, &mut other], list), read)? {
            Some(grown) => pile = grown,
            None => return Ok(None),
        }
    }
    let ended = told(|list| lists::pile_end(pile, [&mut one, &mut other], list), read)?;
    Ok(ended.map(|(files, left)| {
        let mut bytes = if files % 2 == 0 { other } else { one };
        bytes.truncate(left as usize);
        bytes
    }))
}

/// Whether a file is a types.rdb, in that reading: how many entries were visited.
pub fn rdb_check(file: &[u8], reading: Reading) -> Result<usize, Refusal> {
    told(|list| lists::rdb_check(file, reading as u64, list), verdict)
}

/// Entity by its dotted path.
pub fn rdb_entity(file: &[u8], reading: Reading, path: &[u8]) -> Answer<Entity> {
    asked(
        |list| lists::rdb_entity(file, reading as u64, path, list),
        |numbers| match *numbers {
            [_, kind, offset] => {
                Some(Entity { kind: kind.try_into().ok()?, offset: offset as usize })
            }
            _ => None,
        },
    )
}

/// Constant by its dotted path.
pub fn rdb_constant(file: &[u8], reading: Reading, path: &[u8]) -> Answer<Value> {
    asked(|list| lists::rdb_constant(file, reading as u64, path, list), value)
}

// From numbers to enums.

/// What a list holds before a call: numbers that the answer has no use for keep it.
const KEPT: u64 = 0x5e5e_a1a1_0f0f_c3c3;

/// The numbers of an answer, without those that were kept.
type Numbers = [u64];

/// Makes a call and reads its answer. The library is proved to give one of those that are read.
fn told<T>(call: impl FnOnce(&mut Numbers) -> i32, read: impl Fn(&Numbers) -> Option<T>) -> T {
    let mut numbers = [KEPT; ROOM];
    let returned = call(&mut numbers);
    let used = numbers.iter().rposition(|number| *number != KEPT).map_or(0, |last| last + 1);
    let answer = if returned == ANSWERED { read(&numbers[..used]) } else { None };
    answer.unwrap_or_else(|| panic!("no answer of the library: {returned}, {numbers:x?}"))
}

/// Asks a question and reads what was found.
fn asked<T>(
    call: impl FnOnce(&mut Numbers) -> i32,
    found: impl Fn(&Numbers) -> Option<T>,
) -> Answer<T> {
    told(call, |numbers| match *numbers {
        [0, ..] => found(numbers).map(Answer::Found),
        [1] => Some(Answer::None),
        [2, index] => Some(Answer::Undetermined(index as usize)),
        [3, number, place] => Some(Answer::Refused(refusal(number, place)?)),
        _ => None,
    })
}

fn refusal(number: u64, place: u64) -> Option<Refusal> {
    Some(Refusal { number: number.try_into().ok()?, place: place as usize })
}

fn verdict(numbers: &Numbers) -> Option<Result<usize, Refusal>> {
    match *numbers {
        [0, n] => Some(Ok(n as usize)),
        [number, place] => Some(Err(refusal(number, place)?)),
        _ => None,
    }
}

fn written(numbers: &Numbers) -> Option<Result<usize, Refusal>> {
    match *numbers {
        [0, length] => Some(Ok(length as usize)),
        [3, number, place] => Some(Err(refusal(number, place)?)),
        _ => None,
    }
}

fn interface(numbers: &Numbers) -> Option<usize> {
    match *numbers {
        [_, index] => Some(index as usize),
        _ => None,
    }
}

fn method(numbers: &Numbers) -> Option<Method> {
    let (slot, distance, total) = match *numbers {
        [_, _, _, 0, slot, distance, 0, total] => (Slot::Known(slot), distance, Some(total)),
        [_, _, _, 1, index, distance, 1, same] if index == same => {
            (Slot::Undetermined(index as usize), distance, None)
        }
        _ => return None,
    };
    let [owner, position, distance] =
        [numbers[1], numbers[2], distance].map(|number| number as usize);
    Some(Method { owner, position, slot, distance, total })
}

fn constant(numbers: &Numbers) -> Option<Constant> {
    let [_, kind, bits] = *numbers else { return None };
    match kind {
        1 => Some(Constant::I16(u16::try_from(bits).ok()? as i16)),
        2 => Some(Constant::I32(u32::try_from(bits).ok()? as i32)),
        5 => Some(Constant::U16(bits.try_into().ok()?)),
        6 => Some(Constant::U32(bits.try_into().ok()?)),
        _ => None,
    }
}

fn value(numbers: &Numbers) -> Option<Value> {
    let [_, kind, bits] = *numbers else { return None };
    match kind {
        0 if bits < 2 => Some(Value::Boolean(bits == 1)),
        1 => Some(Value::Byte(u8::try_from(bits).ok()? as i8)),
        2 => Some(Value::Short(u16::try_from(bits).ok()? as i16)),
        3 => Some(Value::UnsignedShort(bits.try_into().ok()?)),
        4 => Some(Value::Long(u32::try_from(bits).ok()? as i32)),
        5 => Some(Value::UnsignedLong(bits.try_into().ok()?)),
        6 => Some(Value::Hyper(bits as i64)),
        7 => Some(Value::UnsignedHyper(bits)),
        8 => Some(Value::Float(bits.try_into().ok()?)),
        9 => Some(Value::Double(bits)),
        _ => None,
    }
}

fn file(which: u64) -> Option<Which> {
    [Which::Link, Which::First, Which::Second].get(usize::try_from(which).ok()?).copied()
}
