//! Comparisons that can be made again: what is asked, the files it is asked of, and what a program
//! answers. Where two differ the case is made smaller.

use super::links::{lent, GUARD};
use super::questions::{Found, Question, Reply};
use super::{lists, salvages, Program, OWN};
use crate::program::{link::LinkRefusal, questions::Kind, Answer, Refusal};
use crate::tally::hash;
use std::fmt::Debug;
use std::time::{Duration, Instant};

/// How long a difference may be made smaller.
const PATIENCE: Duration = Duration::from_secs(20);

#[derive(Clone, Debug, PartialEq, Eq)]
pub enum Asked {
    Check,
    Question(Question),
    /// For an IID, with the number of entries looked at.
    Looks(Vec<u8>),
    /// A method by index, name and the number of its kind.
    Kind(u64, Vec<u8>, u64),
    /// With the length of the buffer.
    Normal(usize),
    Adopt(usize),
    /// With the lengths of the lists and of the buffer.
    Salvage([usize; 3], usize),
    Link(usize),
    /// Answered in a list of so many numbers.
    List(Box<Asked>, usize),
}

#[derive(Clone, Debug, PartialEq, Eq)]
pub struct Case {
    pub asked: Asked,
    pub files: Vec<Vec<u8>>,
}

impl Case {
    /// What a program answers. It must leave the files as they are.
    pub fn answer(&self, program: &Program) -> String {
        let copies = self.files.clone();
        let files: Vec<&[u8]> = copies.iter().map(|file| &file[..]).collect();
        let mut text = match &self.asked {
            Asked::Check => shown((program.check)(files[0])),
            Asked::Question(question) => format!("{:?}", program.ask(files[0], question)),
            Asked::Looks(iid) => format!("{:?}", (program.looks)(files[0], iid)),
            Asked::Normal(room) | Asked::Link(room) => {
                written(*room, |out| program.write(&files, out))
            }
            Asked::Adopt(room) => written(*room, |out| (program.adopt)(files[0], out)),
            Asked::Salvage(lists, room) => {
                salvages::call(program, files[0], *lists, *room).to_string()
            }
            Asked::Kind(..) => lists::call(program, &self.asked, &files, lists::ROOM).to_string(),
            Asked::List(asked, room) => lists::call(program, asked, &files, *room).to_string(),
        };
        if copies != self.files {
            text.push_str(", but changed a file");
        }
        text
    }

    /// Whether the other program answers otherwise.
    pub fn differs(&self, other: &Program) -> bool {
        self.answer(other) != self.answer(&OWN)
    }

    fn told(&self, other: &Program) -> String {
        let [own, other] = [&OWN, other].map(|program| self.answer(program));
        format!("{:?}\nthis program: {own}\nthe other: {other}", self.asked)
    }
}

pub fn shown(answer: Answer) -> String {
    match answer {
        Ok(n) => format!("accepted {n}"),
        Err(Refusal { number, place }) => format!("refused {number} {place}"),
    }
}

/// What a buffer of this length holds before a call, and its guards.
pub fn noise(room: usize) -> Vec<u8> {
    (0..room + 2 * GUARD).map(|i| (i * 7 + 13) as u8).collect()
}

/// What a call answers that writes into a buffer of this length, and what is in and around it.
fn written<T: Debug>(room: usize, call: impl FnOnce(&mut [u8]) -> T) -> String {
    let (answer, bytes) = lent(&noise(room), room, call);
    format!("{answer:?}, bytes of hash {:016x}", hash(&[&bytes]))
}

impl Program {
    pub fn ask(&self, file: &[u8], question: &Question) -> Reply {
        match question {
            Question::Iid(iid) => (self.iid)(file, iid).map(Found::Interface),
            Question::Key(space, name) => (self.key)(file, space, name).map(Found::Interface),
            Question::Method(index, name, kind) => {
                (self.method)(file, *index, name, *kind).map(Found::Method)
            }
            Question::Slot(index, slot) => (self.slot)(file, *index, *slot).map(Found::Method),
            Question::Constant(index, name) => {
                (self.constant)(file, *index, name).map(Found::Constant)
            }
        }
    }

    /// Normalises one file or links two.
    pub fn write(&self, files: &[&[u8]], out: &mut [u8]) -> Result<usize, LinkRefusal> {
        match files {
            [file] => (self.normalise)(file, out).map_err(|refusal| (0, refusal)),
            [first, second, ..] => (self.link)(first, second, out),
            [] => unreachable!("a file or two"),
        }
    }
}

impl Question {
    /// A question from its words, names in hexadecimal.
    pub fn parse(line: &str) -> Option<Question> {
        let words: Vec<&str> = line.split(' ').collect();
        Some(match words[..] {
            ["iid", iid] => Question::Iid(bytes(iid)?),
            ["key", space, name] => Question::Key(bytes(space)?, bytes(name)?),
            ["method", index, name, kind] => {
                let kind = Kind::ALL.into_iter().find(|k| k.word() == kind)?;
                Question::Method(index.parse().ok()?, bytes(name)?, kind)
            }
            ["slot", index, slot] => Question::Slot(index.parse().ok()?, slot.parse().ok()?),
            ["constant", index, name] => Question::Constant(index.parse().ok()?, bytes(name)?),
            _ => return None,
        })
    }
}

/// Bytes from hexadecimal digits.
pub fn bytes(hex: &str) -> Option<Vec<u8>> {
    let pairs = hex.as_bytes().chunks(2);
    pairs.map(|pair| u8::from_str_radix(std::str::from_utf8(pair).ok()?, 16).ok()).collect()
}

/// Tells of a difference, makes it smaller, and keeps its files.
pub fn found(made: &str, case: Case, other: &Program) -> Case {
    println!("DIFFERENCE ({made})\n{}", case.told(other));
    let of = |files: &Files| Case { asked: case.asked.clone(), files: files.clone() };
    let mut small = case.clone();
    // What is known from making a file says nothing of a smaller one.
    if case.differs(other) {
        small = of(&shrink(&case.files, PATIENCE, &|files| of(files).differs(other)));
        println!("made smaller:\n{}", small.told(other));
    }
    for (i, file) in (1..).zip(&small.files) {
        let path = std::env::temp_dir().join(format!("second-difference-{i}.xpt"));
        println!("kept in {}: {:?}", path.display(), std::fs::write(&path, file));
    }
    small
}

type Files = Vec<Vec<u8>>;

/// A file without a range, or with zeros in it.
type Edit = fn(&[u8], usize, usize) -> Vec<u8>;

const EDITS: [Edit; 3] = [
    |file, from, to| {
        let mut left = [&file[..from], &file[to..]].concat();
        let length = (left.len() as u32).to_be_bytes();
        if let Some(field) = left.get_mut(20..24) {
            field.copy_from_slice(&length);
        }
        left
    },
    |file, from, to| [&file[..from], &file[to..]].concat(),
    |file, from, to| [&file[..from], &vec![0; to - from], &file[to..]].concat(),
];

/// The smallest files that were found in the time given: takes bytes out, or makes them zero, while
/// the programs still differ.
pub fn shrink(files: &Files, patience: Duration, differs: &dyn Fn(&Files) -> bool) -> Files {
    let deadline = Instant::now() + patience;
    let mut best = files.clone();
    loop {
        let before = size(&best);
        for (i, edit) in (0..files.len()).flat_map(|i| EDITS.map(|edit| (i, edit))) {
            let mut part = best[i].len().div_ceil(2);
            while part > 0 {
                // From the end, where bytes are needed least.
                for from in (0..best[i].len()).step_by(part).rev() {
                    let to = (from + part).min(best[i].len());
                    let mut tried = best.clone();
                    tried[i] = edit(&best[i], from, to);
                    if size(&tried) < size(&best) && differs(&tried) {
                        best = tried;
                    }
                    if Instant::now() > deadline {
                        return best;
                    }
                }
                part /= 2;
            }
        }
        if size(&best) == before {
            return best;
        }
    }
}

/// What must fall: the bytes, then those that are not zero.
fn size(files: &Files) -> (usize, usize) {
    let bytes = files.iter().map(Vec::len).sum();
    (bytes, files.iter().flatten().filter(|byte| **byte != 0).count())
}
