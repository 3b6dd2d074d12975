//! Answers as numbers in lists of every length, as include/saniotka.h tells them, and kinds of methods
//! that there are not: what is returned, every number of the list and every byte of the buffer.

use super::cases::{noise, Asked};
use super::links::{lent, short, wide};
use super::questions::{self, Found, Question, Reply};
use super::{salvages, Program, Session, OWN};
use crate::making::{builder::Typelib, damage, generate, model, rng::Rng};
use crate::program::questions::{of, Constant, Kind, Lookup, Method, Slot, MALFORMED};
use crate::program::{check::check, Answer};
use crate::tally::{hash, Came};
use std::fmt;

/// Numbers that any answer fits in.
pub const ROOM: usize = 8;

// This program's answers as numbers.

fn found(found: Found) -> Vec<u64> {
    match found {
        Found::Interface(index) => vec![0, index as u64],
        Found::Method(found) => method(found),
        Found::Constant(value) => {
            let (kind, bits) = match value {
                Constant::I16(value) => (1, u64::from(value as u16)),
                Constant::I32(value) => (2, u64::from(value as u32)),
                Constant::U16(value) => (5, value.into()),
                Constant::U32(value) => (6, value.into()),
            };
            vec![0, kind, bits]
        }
    }
}

/// A total that is not known is told as the slot is, by the same interface.
fn method(found: Method) -> Vec<u64> {
    let (known, slot) = match found.slot {
        Slot::Known(slot) => (0, slot),
        Slot::Undetermined(index) => (1, index as u64),
    };
    let [owner, position, distance] =
        [found.owner, found.position, found.distance].map(|number| number as u64);
    vec![0, owner, position, known, slot, distance, known, found.total.unwrap_or(slot)]
}

fn reply(reply: Reply) -> Vec<u64> {
    match reply {
        Lookup::Found(what) => found(what),
        Lookup::None => vec![1],
        Lookup::Undetermined(index) => vec![2, index as u64],
        Lookup::Refused(why) => vec![3, why.number.into(), why.place as u64],
    }
}

/// A method by the number of its kind. A kind that there is not makes the question malformed, and the
/// file's refusal comes first.
fn of_kind(file: &[u8], index: u64, name: &[u8], kind: u64) -> Reply {
    let kind = usize::try_from(kind).ok().and_then(|kind| Kind::ALL.get(kind));
    let answer = of(file, |lib| match kind {
        Some(kind) => lib.method_by_name(index, name, *kind),
        None => Lookup::Refused(MALFORMED),
    });
    answer.map(Found::Method)
}

fn written(answer: Answer) -> Vec<u64> {
    match answer {
        Ok(length) => vec![0, length as u64],
        Err(why) => vec![3, why.number.into(), why.place as u64],
    }
}

fn numbers(asked: &Asked, files: &[&[u8]], out: &mut [u8]) -> Vec<u64> {
    match asked {
        Asked::Check => match check(files[0]) {
            Ok(n) => vec![0, n as u64],
            Err(why) => vec![why.number.into(), why.place as u64],
        },
        Asked::Question(question) => reply(OWN.ask(files[0], question)),
        Asked::Looks(iid) => match (OWN.looks)(files[0], iid) {
            Ok((Some(index), looked)) => vec![0, index as u64, looked as u64],
            Ok((None, looked)) => vec![1, looked as u64],
            Err(why) => vec![3, why.number.into(), why.place as u64],
        },
        Asked::Kind(index, name, kind) => reply(of_kind(files[0], *index, name, *kind)),
        Asked::Normal(_) => written((OWN.normalise)(files[0], out)),
        Asked::Adopt(_) => written((OWN.adopt)(files[0], out)),
        Asked::Link(_) => match (OWN.link)(files[0], files[1], out) {
            Ok(length) => vec![0, length as u64],
            Err((which, why)) => vec![3, which.into(), why.number.into(), why.place as u64],
        },
        Asked::Salvage(lists, _) => {
            let [mut indexes, mut numbers, mut places] = lists.map(|room| vec![0; room]);
            match (OWN.salvage)(files[0], [&mut indexes, &mut numbers, &mut places], out) {
                Ok((length, changed)) => vec![0, length as u64, changed as u64],
                Err(why) => vec![3, why.number.into(), why.place as u64],
            }
        }
        Asked::List(asked, _) => numbers(asked, files, out),
    }
}

/// Answers in a list, if it has room for any answer.
pub fn on_list(asked: &Asked, files: &[&[u8]], out: &mut [u8], list: &mut [u64]) -> i32 {
    if list.len() < ROOM {
        return 1;
    }
    let numbers = numbers(asked, files, out);
    list[..numbers.len()].copy_from_slice(&numbers);
    0
}

// A call of any program.

/// What a call returned and left, guards included.
#[derive(PartialEq, Eq)]
pub struct Left {
    returned: i32,
    list: Vec<u64>,
    out: Vec<u8>,
}

impl fmt::Display for Left {
    fn fmt(&self, f: &mut fmt::Formatter) -> fmt::Result {
        write!(f, "returned {}, list", self.returned)?;
        for number in &self.list {
            match *number {
                KEPT => write!(f, " -")?,
                number => write!(f, " {number}")?,
            }
        }
        write!(f, ", buffer of hash {:016x}", hash(&[&self.out]))
    }
}

/// What a number of the list holds before a call.
const KEPT: u64 = 0x5e5e_a1a1_0f0f_c3c3;

/// Numbers that stand before a list and after it.
const BESIDE: usize = 4;

/// Has a program answer in a list of `room` numbers.
pub fn call(program: &Program, asked: &Asked, files: &[&[u8]], room: usize) -> Left {
    let mut list = vec![KEPT; room + 2 * BESIDE];
    let buffer = match asked {
        Asked::Normal(length) | Asked::Adopt(length) | Asked::Link(length) => *length,
        Asked::Salvage(_, length) => *length,
        _ => 0,
    };
    let (returned, out) = lent(&noise(buffer), buffer, |out| {
        (program.on_list)(asked, files, out, &mut list[BESIDE..BESIDE + room])
    });
    Left { returned, list, out }
}

// The run.

/// A kind that there is not: near those that there are, and what is one of them in fewer bits.
fn no_kind(rng: &mut Rng) -> u64 {
    let kind = rng.below(3) as u64;
    match rng.below(6) {
        0 => 3 + kind,
        1 => (1 << 8) + kind,
        2 => (1 << 16) + kind,
        3 => (1 << 32) + kind,
        4 => u64::MAX - kind,
        _ => rng.number().max(3),
    }
}

/// The row of what is asked.
fn about(asked: &Asked) -> &'static str {
    match asked {
        Asked::Check => "check",
        Asked::Question(Question::Iid(_)) => "IID",
        Asked::Looks(_) => "looks",
        Asked::Question(Question::Key(..)) => "key",
        Asked::Question(Question::Method(..)) => "method",
        Asked::Question(Question::Slot(..)) => "slot",
        Asked::Question(Question::Constant(..)) => "constant",
        Asked::Kind(..) => "no kind",
        Asked::Normal(_) => "normal form",
        Asked::Adopt(_) => "adoption",
        Asked::Salvage(..) => "salvage",
        Asked::Link(_) => "link",
        Asked::List(asked, _) => about(asked),
    }
}

/// Asks everything of a file, and links it with another: each in all lists that are too short, and in
/// one that is not.
fn ask(session: &mut Session, rng: &mut Rng, bytes: &[u8], [own, lib]: [&Typelib; 2], came: Came) {
    let second = lib.bytes();
    let mut asked = vec![Asked::Check];
    asked.extend((0..5).map(|turn| Asked::Question(questions::question(own, rng, turn).1)));
    if let (_, Question::Iid(iid)) = questions::question(own, rng, 0) {
        asked.push(Asked::Looks(iid));
    }
    let (_, method) = questions::question(own, rng, 2);
    if let Question::Method(index, name, _) = method {
        asked.push(Asked::Kind(index, name, no_kind(rng)));
    }
    let mut scratch = vec![0; 65_536];
    for files in [&[bytes][..], &[bytes, &second]] {
        let needed = OWN.write(files, &mut scratch).unwrap_or(1_000);
        let (_, room) = if rng.percent(20) { short(rng) } else { wide(rng) };
        let length = room(needed, rng);
        match files.len() {
            1 => {
                let reports = salvages::rooms(rng).1;
                asked.extend([
                    Asked::Normal(length),
                    Asked::Adopt(length),
                    Asked::Salvage(reports, length),
                ]);
            }
            _ => asked.push(Asked::Link(length)),
        }
    }
    for asked in asked {
        for room in (0..ROOM).chain([ROOM + rng.below(4)]) {
            one(session, &asked, &[bytes, &second], room, came);
        }
    }
}

/// Compares one call.
fn one(session: &mut Session, asked: &Asked, files: &[&[u8]], room: usize, came: Came) {
    let own = call(&OWN, asked, files, room);
    if call(&session.other, asked, files, room) != own {
        let files = if matches!(asked, Asked::Link(_)) { files } else { &files[..1] };
        session.found("a list", Asked::List(Box::new(asked.clone()), room), files);
    }
    let tally = &mut session.tally;
    tally.add("all", "calls");
    let told = if own.returned == 0 { "answered" } else { "too short" };
    tally.came(told, about(asked), Came { place: Some(room as u64), ..came });
    if let (Asked::Kind(.., kind), 0) = (asked, own.returned) {
        // The place is the kind, or the number of the file's refusal.
        let number = own.list[BESIDE + 1];
        let is_malformed = number == u64::from(MALFORMED.number);
        let (what, place) =
            if is_malformed { ("refused with 20", *kind) } else { ("file refused", number) };
        tally.came("no kind", what, Came { place: Some(place), ..came });
    }
}

/// Good files and damaged ones.
pub fn run(session: &mut Session) {
    let rng = &mut Rng::new(session.seed);
    for file in 0..1_000 {
        let [own, other] = [0; 2].map(|_| generate::family(rng));
        let came = Came { file: Some(file), ..Came::default() };
        ask(session, rng, &own.bytes(), [&own, &other], came);
    }
    let mut counter = rng.below(797);
    damage::everything(session.seed, &mut |made| {
        counter += 1;
        if !counter.is_multiple_of(797) || made.bytes.len() > 65_536 {
            return;
        }
        let lib = generate::family(rng);
        let read = check(made.bytes).map(|_| model::read(made.bytes));
        let own = read.as_ref().unwrap_or(&lib);
        let came = Came { file: Some(1_000 + made.base), ..Came::default() };
        ask(session, rng, made.bytes, [own, &lib], came);
    });
}
