//! Damaged files, salvaged: answers, every byte of the buffers and every number of the lists; and that
//! what is left is accepted, is its own normal form, and comes out as it is when it is salvaged again.

use super::cases::{noise, Asked};
use super::links::{lent, short, wide};
use super::{Program, Salvaged, Session, OWN};
use crate::making::hostile::{round, sharing};
use crate::making::{builder::*, damage, generate, rng::Rng, shape};
use crate::program::{check::word, refusal, Refusal, ENTRY, MAX_FILE, MAX_INTERFACES};
use crate::tally::{hash, Came, NUMBER, REFUSAL};
use std::fmt;

/// What a number of a list holds before a call.
const KEPT: u64 = 0x3c3c_9696_0f0f_a5a5;

/// Numbers that stand before a list and after it.
const BESIDE: usize = 4;

/// What a call answered and left, guards included.
#[derive(PartialEq, Eq)]
pub struct Left {
    answer: Salvaged,
    lists: [Vec<u64>; 3],
    out: Vec<u8>,
}

impl fmt::Display for Left {
    fn fmt(&self, f: &mut fmt::Formatter) -> fmt::Result {
        write!(f, "{:?}", self.answer)?;
        for list in &self.lists {
            let changed = list.iter().enumerate().filter(|(_, number)| **number != KEPT);
            let places: Vec<_> = changed.map(|(at, number)| (at as isize - 4, number)).collect();
            write!(f, ", list {places:?}")?;
        }
        write!(f, ", buffer of hash {:016x}", hash(&[&self.out]))
    }
}

/// Has a program salvage a file, with lists and a buffer of these lengths.
pub fn call(program: &Program, file: &[u8], reports: [usize; 3], room: usize) -> Left {
    let mut lists = reports.map(|room| vec![KEPT; room + 2 * BESIDE]);
    let [indexes, numbers, places] = &mut lists;
    let lent_lists = [(indexes, 0), (numbers, 1), (places, 2)]
        .map(|(list, which): (&mut Vec<u64>, usize)| &mut list[BESIDE..BESIDE + reports[which]]);
    let (answer, out) = lent(&noise(room), room, |out| (program.salvage)(file, lent_lists, out));
    Left { answer, lists, out }
}

/// Lengths of the lists, by what they are: mostly long enough.
pub fn rooms(rng: &mut Rng) -> (&'static str, [usize; 3]) {
    let mut rooms = [0; 3].map(|_| MAX_INTERFACES + rng.pick(&[0, 0, 0, 1, 300]));
    let short = *rng.pick(&[0, 1, MAX_INTERFACES - 1, MAX_INTERFACES / 2]);
    let what = match rng.below(20) {
        0 => "indexes short",
        1 => "numbers short",
        2 => "places short",
        3 => "all short",
        _ => return ("long enough", rooms),
    };
    match what {
        "indexes short" => rooms[0] = short,
        "numbers short" => rooms[1] = short,
        "places short" => rooms[2] = short,
        _ => rooms = [short; 3],
    }
    (what, rooms)
}

struct Run<'s> {
    session: &'s mut Session,
    rng: Rng,
}

impl Run<'_> {
    /// Has both programs salvage a file and compares all that is lent, the file included.
    fn call(&mut self, how: &'static str, file: &[u8], reports: [usize; 3], room: usize) -> Left {
        let own = call(&OWN, file, reports, room);
        let lent_file = file.to_vec();
        let other = call(&self.session.other, &lent_file, reports, room);
        if other != own || lent_file != file {
            self.session.found(how, Asked::Salvage(reports, room), &[file]);
        }
        self.session.tally.add("all", "salvages");
        own
    }

    /// Counts what came of a file.
    fn count(&mut self, how: &'static str, file: &[u8], left: &Left) {
        let came = Came { file: Some(hash(&[file])), way: Some(how), ..Came::default() };
        let tally = &mut self.session.tally;
        match left.answer {
            Ok((_, changed)) => {
                let what = ["nothing", "one", "two or more"][changed.min(2)];
                tally.came("changed", what, Came { place: Some(changed as u64), ..came });
                for at in BESIDE..BESIDE + changed {
                    let [index, number, place] = [0, 1, 2].map(|list| left.lists[list][at]);
                    let number = NUMBER[number as usize];
                    tally.came("report", number, Came { place: Some(place), ..came });
                    tally.came("index", number, Came { place: Some(index), ..came });
                }
            }
            Err(why) => {
                let came = Came { place: Some(why.place as u64), ..came };
                tally.came(REFUSAL[why.number as usize], "", came);
            }
        }
    }

    /// A law of what was written.
    fn law(&mut self, what: &'static str, is_so: bool, file: &[u8]) {
        if !is_so {
            println!("not so: {what}");
            self.session.found(what, Asked::Salvage([MAX_INTERFACES; 3], MAX_FILE), &[file]);
        }
        self.session.tally.add("law", what);
    }

    /// What is left is accepted, is its own normal form and comes out as it is; an accepted file comes
    /// out as its normal form. By the other program alone.
    fn laws(&mut self, file: &[u8], left: &[u8], changed: usize) {
        let other = self.session.other;
        let mut out = vec![0; left.len()];
        self.law("what is left is accepted", (other.check)(left).is_ok(), file);
        let is_form = (other.normalise)(left, &mut out) == Ok(left.len()) && out == left;
        self.law("it is its own normal form", is_form, file);
        self.law("it has each name once", shape::uses(left).is_some(), file);
        let again = call(&other, left, [MAX_INTERFACES; 3], left.len());
        self.law("it comes out as it is", again.answer == Ok((left.len(), 0)), file);
        let is_accepted = (other.check)(file).is_ok();
        self.law("nothing is changed where it is accepted", is_accepted == (changed == 0), file);
        if is_accepted {
            let is_form = (other.normalise)(file, &mut out) == Ok(left.len()) && out == left;
            self.law("an accepted file as its normal form", is_form, file);
        }
    }

    /// A file with lists and buffers of several lengths; one of few bytes with every buffer, now and
    /// then.
    fn file(&mut self, how: &'static str, file: &[u8]) {
        let needed = match call(&OWN, file, [MAX_INTERFACES; 3], 0).answer {
            Err(Refusal { number: refusal::BUFFER, place }) => place,
            _ => file.len().max(1),
        };
        for (what, room) in [short(&mut self.rng), wide(&mut self.rng)] {
            let (lists, reports) = rooms(&mut self.rng);
            let room = room(needed, &mut self.rng);
            let left = self.call(how, file, reports, room);
            self.count(how, file, &left);
            let written = if left.answer.is_ok() { "written" } else { "not written" };
            self.session.tally.add(written, what);
            self.session.tally.add(written, lists);
            if let Ok((length, changed)) = left.answer {
                let bytes = left.out[super::links::GUARD..][..length].to_vec();
                self.laws(file, &bytes, changed);
            }
        }
        if needed < 300 && self.rng.percent(3) {
            for room in 0..needed + 4 {
                self.call(how, file, [MAX_INTERFACES; 3], room);
            }
            self.session.tally.add("all", "files with every buffer");
        }
    }

    /// A wrecked file, or one whose directory was changed too: keys that are there twice, descriptor
    /// pointers that lead out, and descriptors that are another entry's.
    fn wrecked(&mut self) {
        let rng = &mut self.rng;
        let mut bytes = generate::wrecked(rng);
        let n = usize::from(u16::from_be_bytes([bytes[18], bytes[19]]));
        let entry = |bytes: &[u8], i: usize| word(bytes, 24) + ENTRY * i;
        let mut how = "wrecked";
        if n > 1 && rng.percent(40) {
            let [from, to] = [0; 2].map(|_| entry(&bytes, rng.below(n)));
            how = *rng.pick(&["wrecked, a key twice", "wrecked, shared", "wrecked, leads out"]);
            match how {
                "wrecked, a key twice" => bytes.copy_within(from + 16..from + 24, to + 16),
                "wrecked, shared" => bytes.copy_within(from + 24..from + 28, to + 24),
                _ => {
                    let out = bytes.len() - word(&bytes, 28) + 1 + rng.below(3);
                    let out = *rng.pick(&[out as u32, u32::MAX, 1 << 24]);
                    bytes[to + 24..to + 28].copy_from_slice(&out.to_be_bytes());
                }
            }
        }
        self.file(how, &bytes);
    }

    /// Cycles of several lengths, with entries that lead into them, or to the root.
    fn cycles(&mut self, count: usize) {
        let rng = &mut self.rng;
        let mut lib = Typelib::plain(count);
        let mut at = 0;
        while at < count {
            let most = *rng.pick(&[1, 2, 5, MAX_INTERFACES]);
            let length = rng.range(1, most.min(count - at));
            let tail = rng.below(1 + (count - at - length).min(20));
            let is_open = rng.percent(20);
            for i in 0..length + tail {
                let next = at + i + 1;
                let parent = match i {
                    _ if i + 1 == length && is_open => 0,
                    _ if i + 1 == length => at + 1,
                    _ if i < length => next + 1,
                    _ => at + 1 + rng.below(i),
                };
                lib.resolve(at + i, Descriptor::below(parent));
            }
            at += length + tail;
        }
        let bytes = lib.bytes();
        self.file("cycles", &bytes);
    }
}

pub fn run(session: &mut Session) {
    let rng = Rng::new(session.seed);
    let seed = session.seed;
    let run = &mut Run { session, rng };
    for _ in 0..4_000 {
        run.wrecked();
    }
    for count in (1..200).chain([500, 1_023, 1_024]) {
        run.cycles(count);
    }
    for count in [1, 2, 3, 40, MAX_INTERFACES - 1, MAX_INTERFACES] {
        run.file("one cycle", &round(count).bytes());
    }
    // A normal form about the greatest size: descriptors of many entries, one bad, that were one's. 127
    // are not too long, 128 are.
    let d = Descriptor::of(vec![Method::plain(0, b"m"); MAX_METHODS]);
    for (bad, count) in [127, 128, 129, 130, 150].into_iter().enumerate() {
        let built = sharing(count, d.clone()).build();
        let mut bytes = built.bytes.clone();
        let field = built.entry(bad) + 24;
        bytes[field..field + 4].fill(0xff);
        run.file("about the greatest size", &bytes);
    }
    let mut counter = run.rng.below(97);
    damage::everything(seed, &mut |made| {
        counter += 1;
        if counter.is_multiple_of(97) && made.bytes.len() <= 65_536 {
            run.file(made.how, made.bytes);
        }
    });
}
