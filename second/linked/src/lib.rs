//! The checked library's calls as those of a program that is compared.

pub mod rdb;
pub mod saniotka;

use saniotka::{lists, Answer as Told, Which};
use second::library::{cases::Asked, questions::Question, Piled, Program, Salvaged};
use second::program::questions::{Constant, Kind, Looked, Lookup, Method, Slot};
use second::program::{link::LinkRefusal, Answer, Refusal};
use std::panic::{catch_unwind, AssertUnwindSafe};

/// What the library can be asked.
pub const LIBRARY: Program = Program {
    check,
    iid,
    looks,
    key,
    method,
    slot,
    constant,
    normalise,
    adopt,
    salvage,
    link,
    pile,
    on_list,
};

/// Both sides know how long a list must be.
const _: () = assert!(saniotka::ROOM == second::library::lists::ROOM);

/// Stands for an answer that the library's interface does not have: no program refuses with it,
/// so that it shows as a difference.
pub const NONSENSE: Refusal = Refusal { number: u32::MAX, place: usize::MAX };

/// What a call answers, if it is an answer of the library's interface.
fn known<T>(call: impl FnOnce() -> T) -> Option<T> {
    catch_unwind(AssertUnwindSafe(call)).ok()
}

fn refusal(why: saniotka::Refusal) -> Refusal {
    Refusal { number: why.number, place: why.place }
}

fn lookup<T, U>(call: impl FnOnce() -> Told<T>, found: impl FnOnce(T) -> U) -> Lookup<U> {
    match known(call) {
        Some(Told::Found(what)) => Lookup::Found(found(what)),
        Some(Told::None) => Lookup::None,
        Some(Told::Undetermined(index)) => Lookup::Undetermined(index),
        Some(Told::Refused(why)) => Lookup::Refused(refusal(why)),
        None => Lookup::Refused(NONSENSE),
    }
}

fn found(method: saniotka::Method) -> Method {
    let saniotka::Method { owner, position, slot, distance, total } = method;
    let slot = match slot {
        saniotka::Slot::Known(slot) => Slot::Known(slot),
        saniotka::Slot::Undetermined(index) => Slot::Undetermined(index),
    };
    Method { owner, position, slot, distance, total }
}

fn check(file: &[u8]) -> Answer {
    known(|| saniotka::check(file)).map_or(Err(NONSENSE), |told| told.map_err(refusal))
}

fn iid(file: &[u8], iid: &[u8]) -> Lookup<usize> {
    lookup(|| saniotka::interface_by_iid(file, iid), |index| index)
}

fn looks(file: &[u8], iid: &[u8]) -> Looked {
    let told = known(|| saniotka::interface_by_iid_counted(file, iid));
    told.map_or(Err(NONSENSE), |told| told.map_err(refusal))
}

fn key(file: &[u8], space: &[u8], name: &[u8]) -> Lookup<usize> {
    lookup(|| saniotka::interface_by_key(file, space, name), |index| index)
}

fn method(file: &[u8], index: u64, name: &[u8], kind: Kind) -> Lookup<Method> {
    let kind = match kind {
        Kind::Getter => saniotka::Kind::Getter,
        Kind::Setter => saniotka::Kind::Setter,
        Kind::Plain => saniotka::Kind::Plain,
    };
    lookup(|| saniotka::method_by_name(file, index, name, kind), found)
}

fn slot(file: &[u8], index: u64, slot: u64) -> Lookup<Method> {
    lookup(|| saniotka::method_by_slot(file, index, slot), found)
}

fn constant(file: &[u8], index: u64, name: &[u8]) -> Lookup<Constant> {
    lookup(
        || saniotka::constant_by_name(file, index, name),
        |value| match value {
            saniotka::Constant::I16(value) => Constant::I16(value),
            saniotka::Constant::I32(value) => Constant::I32(value),
            saniotka::Constant::U16(value) => Constant::U16(value),
            saniotka::Constant::U32(value) => Constant::U32(value),
        },
    )
}

fn normalise(file: &[u8], out: &mut [u8]) -> Result<usize, Refusal> {
    known(|| saniotka::normalise(file, out)).map_or(Err(NONSENSE), |told| told.map_err(refusal))
}

fn adopt(file: &[u8], out: &mut [u8]) -> Answer {
    known(|| saniotka::adopt(file, out)).map_or(Err(NONSENSE), |told| told.map_err(refusal))
}

fn salvage(file: &[u8], report: [&mut [u64]; 3], out: &mut [u8]) -> Salvaged {
    let told = known(|| saniotka::salvage(file, report, out));
    told.map_or(Err(NONSENSE), |told| told.map_err(refusal))
}

fn which(which: Which) -> u8 {
    match which {
        Which::Link => 0,
        Which::First => 1,
        Which::Second => 2,
    }
}

fn pile(files: &[&[u8]]) -> Piled {
    match known(|| saniotka::pile(files)) {
        Some(Err((file, why, step))) => Err(((which(file), refusal(why)), step)),
        Some(Ok(Some(bytes))) => Ok(bytes),
        Some(Ok(None)) | None => Err(((0, NONSENSE), 0)),
    }
}

fn link(first: &[u8], second: &[u8], out: &mut [u8]) -> Result<usize, LinkRefusal> {
    match known(|| saniotka::link(first, second, out)) {
        Some(told) => told.map_err(|(file, why)| (which(file), refusal(why))),
        None => Err((0, NONSENSE)),
    }
}

fn on_list(asked: &Asked, files: &[&[u8]], out: &mut [u8], list: &mut [u64]) -> i32 {
    let file = files[0];
    match asked {
        Asked::Check => lists::check(file, list),
        Asked::Looks(iid) => lists::iid_counted(file, iid, list),
        Asked::Kind(index, name, kind) => lists::method(file, *index, name, *kind, list),
        Asked::Normal(_) => lists::normal(file, out, list),
        Asked::Adopt(_) => lists::adopt(file, out, list),
        Asked::Link(_) => lists::link(file, files[1], out, list),
        Asked::Salvage(rooms, _) => {
            let [mut indexes, mut numbers, mut places] = rooms.map(|room| vec![0; room]);
            lists::salvage(file, [&mut indexes, &mut numbers, &mut places], out, list)
        }
        Asked::Question(question) => match question {
            Question::Iid(iid) => lists::iid(file, iid, list),
            Question::Key(space, name) => lists::key(file, space, name, list),
            Question::Method(index, name, kind) => {
                lists::method(file, *index, name, *kind as u64, list)
            }
            Question::Slot(index, slot) => lists::slot(file, *index, *slot, list),
            Question::Constant(index, name) => lists::constant(file, *index, name, list),
        },
        Asked::List(asked, _) => on_list(asked, files, out, list),
    }
}
