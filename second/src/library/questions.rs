//! Questions to many files: generated, asked of both programs, and counted.

use super::{cases::Asked, Session, OWN};
use crate::making::{
    builder::*, damage::everything, generate, hostile, model, pairs, rng::Rng, shape,
};
use crate::program::check::check;
use crate::program::questions::{Constant as Value, Kind, Lookup, Method as Place, Slot};
use crate::tally::{hash, Came, Tally, REFUSAL};

#[derive(Clone, Debug, PartialEq, Eq)]
pub enum Question {
    Iid(Vec<u8>),
    Key(Vec<u8>, Vec<u8>),
    Method(u64, Vec<u8>, Kind),
    Slot(u64, u64),
    Constant(u64, Vec<u8>),
}

#[derive(Clone, Copy, Debug, PartialEq, Eq)]
pub enum Found {
    Interface(usize),
    Method(Place),
    Constant(Value),
}

pub type Reply = Lookup<Found>;

type What = &'static str;

/// A question, with how it was made.
type Made = (What, Question);

/// What is wrong with a name, and with a namespace.
const BAD: [[&str; 2]; 6] = [
    ["20: name empty"; 2],
    ["20: name too long", "20: namespace too long"],
    ["20: name with a zero byte", "20: namespace with a zero byte"],
    ["20: name with a bad byte", "20: namespace with a bad byte"],
    ["20: name malformed", "20: namespace malformed"],
    ["20: name a lone -", "20: namespace a lone -"],
];

/// A name that is not an identifier, and what is wrong with it.
fn bad_name(rng: &mut Rng, good: &[u8]) -> ([&'static str; 2], Vec<u8>) {
    let mut name = good.to_vec();
    let how = rng.below(6);
    match how {
        0 => name.clear(),
        1 => name.resize((MAX_IDENTIFIER + 1) * (1 + rng.below(2)), b'a'),
        2 => {
            name.truncate(MAX_IDENTIFIER - 1);
            name.insert(rng.below(name.len() + 1), 0);
        }
        3 => {
            let at = rng.below(name.len());
            name[at] = *rng.pick(b" \x01\t\x1f\x7f\xc0\xf5\xff");
        }
        4 => {
            let starts: Vec<usize> = (0..name.len()).filter(|i| name[*i] & 0xc0 != 0x80).collect();
            let at = *rng.pick(&starts);
            name.splice(at..at, rng.pick(generate::MALFORMED).iter().copied());
        }
        _ => name = b"-".to_vec(),
    }
    (BAD[how], name)
}

fn bad_index(rng: &mut Rng, n: u64) -> u64 {
    let some = rng.below(n as usize + 1) as u64;
    match rng.below(7) {
        0 => 0,
        1 => n + 1,
        2 => (1 << 16) + some,
        3 => (1 << 32) + some,
        4 => (1 << 63) + some,
        5 => u64::MAX - some,
        _ => n + 1 + rng.below(70_000) as u64,
    }
}

/// Another name that is easily taken for this one.
fn near_name(rng: &mut Rng, name: &[u8]) -> Vec<u8> {
    let mut near: Vec<char> = String::from_utf8_lossy(name).chars().collect();
    let at = rng.below(near.len());
    match rng.below(5) {
        0 if name.len() < MAX_IDENTIFIER => near.push(*rng.pick(&['a', '0', '_', 'Z', '-'])),
        1 if near.len() > 1 => _ = near.pop(),
        2 if near.len() > 1 => _ = near.remove(at),
        3 => near[at] = *rng.pick(generate::CHARACTERS),
        _ => near[at] = char::from(*rng.pick(b"abcXYZ019_")),
    }
    String::from_iter(near).into_bytes()
}

fn iid_question(lib: &Typelib, rng: &mut Rng) -> Made {
    let mut iid = match lib.entries.is_empty() {
        true => generate::iid(rng.number()).to_vec(),
        false => rng.pick(&lib.entries).iid.to_vec(),
    };
    let (made, ()) = match rng.below(10) {
        0..4 => ("an entry's IID", ()),
        4 | 5 => ("nearly an entry's IID", iid[rng.below(16)] ^= 1 << rng.below(8)),
        6 => ("20: IID zero", iid = vec![0; 16]),
        7 => ("20: IID of 15 bytes", _ = iid.pop()),
        8 => ("20: IID of 17 bytes", iid.insert(rng.below(2) * 16, 0)),
        _ => {
            let length = *rng.pick(&[0, 1, 8, 32, 272, 65_552]);
            ("20: IID of another length", iid.resize(length, 1))
        }
    };
    (made, Question::Iid(iid))
}

fn key_question(lib: &Typelib, rng: &mut Rng) -> Made {
    if lib.entries.is_empty() {
        return ("a key in an empty file", Question::Key(Vec::new(), generate::identifier(rng, 4)));
    }
    let entry = rng.pick(&lib.entries);
    let space = entry.namespace.clone().unwrap_or_default();
    let name = entry.name.clone();
    let (made, space, name) = match rng.below(10) {
        0..4 => ("an entry's key", space, name),
        4 => {
            let other = rng.pick(&lib.entries).namespace.clone().unwrap_or_default();
            ("another namespace", other, name)
        }
        5 if space.is_empty() => ("name as namespace", name.clone(), name),
        5 => ("namespace and name swapped", name, space),
        6 => ("nearly an entry's name", space, near_name(rng, &name)),
        7 if !space.is_empty() => ("nearly a namespace", near_name(rng, &space), name),
        8 => match bad_name(rng, if space.is_empty() { &name } else { &space }) {
            ([_, what], bad) if bad.is_empty() => (what, space, bad),
            ([_, what], bad) => (what, bad, name),
        },
        _ => {
            let ([what, _], bad) = bad_name(rng, &name);
            (what, space, bad)
        }
    };
    (made, Question::Key(space, name))
}

/// An index and a name for a question about methods or constants: mostly one that stands in an entry
/// which the chain passes, the farther ones no rarer than the near ones.
fn named<'l, T>(lib: &'l Typelib, rng: &mut Rng, of: Held<'l, T>) -> (u64, Option<&'l T>) {
    let index = rng.range(1, lib.entries.len());
    let from: Vec<&Descriptor> = match rng.percent(70) {
        true => model::chain(lib, index).0.iter().map(|i| model::descriptor(lib, *i)).collect(),
        false => lib.descriptors.iter().collect(),
    };
    let held = if from.is_empty() { &[] } else { of(*rng.pick(&from)) };
    (index as u64, (!held.is_empty()).then(|| rng.pick(held)))
}

type Held<'l, T> = fn(&'l Descriptor) -> &'l [T];

/// The name itself for the most part.
fn name(rng: &mut Rng, [own, near]: [What; 2], name: &[u8]) -> (What, Vec<u8>) {
    match rng.below(20) {
        0 => {
            let ([what, _], name) = bad_name(rng, name);
            (what, name)
        }
        1 | 2 => (near, near_name(rng, name)),
        _ => (own, name.to_vec()),
    }
}

fn method_question(lib: &Typelib, rng: &mut Rng) -> Made {
    let (index, method) = named(lib, rng, |d| &d.methods);
    let Some(method) = method else {
        let name = generate::identifier(rng, 3);
        return ("any name", Question::Method(index, name, *rng.pick(&Kind::ALL)));
    };
    let own = Kind::of(method.flags);
    let kind = if rng.percent(20) { *rng.pick(&Kind::ALL) } else { own };
    let (what, name) = name(rng, ["a method's name", "nearly a method's name"], &method.name);
    (what, Question::Method(index, name, kind))
}

fn slot_question(lib: &Typelib, rng: &mut Rng) -> Made {
    let index = rng.range(1, lib.entries.len());
    let total = model::total(lib, index).unwrap_or(rng.below(8) as u64);
    let below = rng.below(total.max(1) as usize) as u64;
    let (what, slot) = match rng.below(12) {
        0 => ("the total", total),
        1 => ("past the total", total + 1 + rng.below(3) as u64),
        2 => ("far past the total", *rng.pick(&[1 << 16, 1 << 32, 1 << 63]) + below),
        3 => ("the largest number", u64::MAX - rng.below(2) as u64),
        4 if total > 0 => ("the last slot", total - 1),
        _ => ("a slot", below),
    };
    (what, Question::Slot(index as u64, slot))
}

fn constant_question(lib: &Typelib, rng: &mut Rng) -> Made {
    let (index, constant) = named(lib, rng, |d| &d.constants);
    let Some(constant) = constant else {
        return ("any name", Question::Constant(index, generate::identifier(rng, 3)));
    };
    let names = ["a constant's name", "nearly a constant's name"];
    let (what, name) = name(rng, names, &constant.name);
    (what, Question::Constant(index, name))
}

/// A question of each kind in turn.
pub fn question(lib: &Typelib, rng: &mut Rng, turn: usize) -> Made {
    let n = lib.entries.len();
    let kind = turn % 5;
    if kind > 1 && (n == 0 || rng.percent(8)) {
        let index = bad_index(rng, n as u64);
        let question = match kind {
            2 => Question::Method(index, b"a".to_vec(), *rng.pick(&Kind::ALL)),
            3 => Question::Slot(index, rng.below(3) as u64),
            _ => Question::Constant(index, b"a".to_vec()),
        };
        return ("20: index", question);
    }
    match kind {
        0 => iid_question(lib, rng),
        1 => key_question(lib, rng),
        2 => method_question(lib, rng),
        3 => slot_question(lib, rng),
        _ => constant_question(lib, rng),
    }
}

/// A file to be asked.
struct File<'f> {
    bytes: &'f [u8],
    is_accepted: bool,
    /// Its model; where it is refused that of another, which questions may be about.
    lib: &'f Typelib,
    came: Came,
}

/// Asks questions of a file, a kind in turn.
fn ask(session: &mut Session, rng: &mut Rng, file: &File, count: usize) {
    let lent = file.bytes.to_vec();
    for turn in 0..count {
        let (made, question) = question(file.lib, rng, turn);
        let own = OWN.ask(file.bytes, &question);
        if session.other.ask(&lent, &question) != own || lent != file.bytes {
            session.found(made, Asked::Question(question), &[file.bytes]);
        }
        self::count(&mut session.tally, file, made, &question, own);
    }
}

/// How many steps up the owner of what was found stands.
fn steps(lib: &Typelib, question: &Question, found: Found) -> Option<usize> {
    let is_owner = |index: usize| match (found, question) {
        (Found::Method(place), _) => place.owner == index,
        (_, Question::Constant(_, name)) => {
            model::descriptor(lib, index).constants.iter().any(|constant| constant.name == *name)
        }
        _ => false,
    };
    model::chain(lib, about(question).1? as usize).0.into_iter().position(is_owner)
}

/// The row of a question, and the index that it is about.
fn about(question: &Question) -> (&'static str, Option<u64>) {
    match question {
        Question::Iid(_) => ("IID", None),
        Question::Key(..) => ("key", None),
        Question::Method(index, ..) => ("method", Some(*index)),
        Question::Slot(index, _) => ("slot", Some(*index)),
        Question::Constant(index, _) => ("constant", Some(*index)),
    }
}

const UP: [What; 4] =
    ["found in the interface itself", "found 1 up", "found 2 up", "found 3 or more up"];

fn count(tally: &mut Tally, file: &File, made: &'static str, question: &Question, reply: Reply) {
    let (about, asked) = about(question);
    tally.add("all", "questions");
    if file.is_accepted {
        tally.add("all", "questions of accepted files");
    }
    let mut row = |what: &'static str, place: Option<u64>| {
        tally.came(about, what, Came { place, ..file.came });
    };
    match reply {
        // The place is the number of the refusal here.
        Lookup::Refused(Refusal { number, .. }) if number != refusal::QUESTION => {
            return row("file refused", Some(number.into()));
        }
        Lookup::Refused(_) => {
            row("malformed", None);
            row("refused with 20", None);
        }
        Lookup::None => row("none", None),
        Lookup::Undetermined(index) => {
            let place = Some(index as u64);
            row("undetermined", place);
            let itself = asked == place;
            row(if itself { "undetermined, itself" } else { "undetermined, an ancestor" }, place);
        }
        Lookup::Found(found) => {
            count_found(&mut row, question, found);
            let up = steps(file.lib, question, found);
            up.into_iter().for_each(|up| row(UP[up.min(3)], None));
            // The model knows these too.
            if let (Found::Method(place), Some(index)) = (found, asked) {
                let total = model::total(file.lib, index as usize);
                assert_eq!((Some(place.distance), place.total), (up, total), "{question:?}");
                row(if total.is_some() { "total known" } else { "total unknown" }, total);
            }
        }
    }
    row(made, None);
    if matches!(reply, Lookup::Refused(_)) {
        let came = Came { place: Some(0), way: Some(made), ..file.came };
        tally.came(REFUSAL[refusal::QUESTION as usize], "", came);
    }
}

fn count_found(row: &mut impl FnMut(&'static str, Option<u64>), question: &Question, found: Found) {
    match found {
        Found::Interface(index) => row("found", Some(index as u64)),
        Found::Method(Place { owner, slot, .. }) => {
            row("found", Some(owner as u64));
            let (what, slot) = match slot {
                Slot::Known(slot) => ("found, slot known", slot),
                Slot::Undetermined(index) => ("found, slot undetermined", index as u64),
            };
            row(what, None);
            row(&what["found, ".len()..], Some(slot));
        }
        Found::Constant(value) => {
            let (what, high, is_high) = match value {
                Value::I16(v) => ("found, i16", "i16 negative", v < 0),
                Value::I32(v) => ("found, i32", "i32 negative", v < 0),
                Value::U16(v) => ("found, u16", "u16 of 32,768 or more", v >= 1 << 15),
                Value::U32(v) => ("found, u32", "u32 of 2,147,483,648 or more", v >= 1 << 31),
            };
            let number = Some(value.value() as u64);
            row("found", None);
            row(what, None);
            row(&what["found, ".len()..], number);
            if is_high {
                row(high, number);
            }
        }
    }
    match question {
        Question::Key(space, _) if space.is_empty() => row("found, default namespace", None),
        Question::Key(..) => row("found, a namespace", None),
        Question::Method(.., Kind::Getter) => row("a getter", None),
        Question::Method(.., Kind::Setter) => row("a setter", None),
        Question::Method(..) => row("a plain method", None),
        _ => {}
    }
}

/// Asks questions of many files.
pub fn run(session: &mut Session) {
    let rng = &mut Rng::new(session.seed);
    // Families and other good files: the model is known before the bytes are.
    for round in 0..6_000 {
        let (lib, way) = match round % 12 {
            0 => (generate::random(rng, generate::SMALL), "random"),
            1 => (generate::random(rng, generate::MEDIUM), "random"),
            2 => (pairs::view(&pairs::world(rng), rng), "view of a world"),
            _ => (generate::family(rng), "family"),
        };
        good(session, rng, way, (&lib.bytes(), &lib), 50);
    }
    damaged(session, rng);
    // Large files and files whose records overlap.
    let mut large = Vec::new();
    for n in 1..=16 {
        large.push((generate::overlapping_heads(rng, n), "overlapping heads"));
        large.push((generate::names_in_descriptors(rng, 2 * n), "names in descriptors"));
    }
    large.push((generate::wide(rng, MAX_INTERFACES).bytes(), "wide"));
    large.push((hostile::ordinary(), "an ordinary file"));
    large.extend(hostile::chains().map(|chain| (chain, "a chain of 1,024")));
    for (bytes, way) in large {
        good(session, rng, way, (&bytes, &model::read(&bytes)), 40);
    }
}

/// A good file. What it shows is counted.
fn good(
    session: &mut Session,
    rng: &mut Rng,
    way: What,
    (bytes, lib): (&[u8], &Typelib),
    n: usize,
) {
    let came = Came { place: None, file: Some(hash(&[bytes])), way: Some(way) };
    for shape in shape::shapes(bytes, lib) {
        session.tally.came("shape", shape, came);
    }
    ask(session, rng, &File { bytes, is_accepted: true, lib, came }, n);
}

/// Some of the files for the check, most of them refused: the file's refusal comes before a
/// malformed question.
fn damaged(session: &mut Session, rng: &mut Rng) {
    let mut counter = rng.below(97);
    let stranger = generate::family(rng);
    everything(session.seed, &mut |made| {
        counter += 1;
        if !counter.is_multiple_of(97) {
            return;
        }
        let read = check(made.bytes).map(|_| model::read(made.bytes));
        let came = Came { place: None, file: Some(made.base), way: Some(made.how) };
        let (is_accepted, lib) = (read.is_ok(), read.as_ref().unwrap_or(&stranger));
        ask(session, rng, &File { bytes: made.bytes, is_accepted, lib, came }, 5);
    });
}
