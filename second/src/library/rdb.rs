//! types.rdb through the library: checks of all that is made by both readings, entities and constants by path.

use super::cases::{shown, shrink};
use crate::in_parallel;
use crate::making::{rdb_damage::everything, rdb_damage::Made, rdb_hostile, rng::Rng};
use crate::program::questions::Lookup;
use crate::program::rdb::questions::{Constant, Entity};
use crate::program::rdb::{accept, check, Reading, KIND};
use crate::program::{Answer, Refusal};
use crate::tally::{Came, Tally, REFUSED};
use std::{panic::panic_any, time::Duration, time::Instant};

/// The calls of a program.
#[derive(Clone, Copy)]
pub struct Program {
    pub check: fn(&[u8], Reading) -> Answer,
    pub entity: fn(&[u8], Reading, &[u8]) -> Lookup<Entity>,
    pub constant: fn(&[u8], Reading, &[u8]) -> Lookup<Constant>,
}

fn lookup<T>(answer: Result<Option<T>, Refusal>) -> Lookup<T> {
    match answer {
        Ok(Some(what)) => Lookup::Found(what),
        Ok(None) => Lookup::None,
        Err(why) => Lookup::Refused(why),
    }
}

pub const OWN: Program = Program {
    check,
    entity: |file, reading, path| lookup(accept(file, reading).map(|lib| lib.entity(path))),
    constant: |file, reading, path| lookup(accept(file, reading).map(|lib| lib.constant(path))),
};

/// What is asked of a file.
#[derive(Clone, Debug)]
pub enum Asked {
    Check,
    Entity(Vec<u8>),
    Constant(Vec<u8>),
}

/// A difference, with the file made smaller.
#[derive(Clone, Debug)]
pub struct Case {
    pub asked: Asked,
    pub reading: Reading,
    pub file: Vec<u8>,
}

impl Program {
    pub fn answer(&self, asked: &Asked, reading: Reading, file: &[u8]) -> String {
        match asked {
            Asked::Check => shown((self.check)(file, reading)),
            Asked::Entity(path) => format!("{:?}", (self.entity)(file, reading, path)),
            Asked::Constant(path) => format!("{:?}", (self.constant)(file, reading, path)),
        }
    }
}

/// Tells of a difference, makes it smaller, keeps it and ends the run.
fn found(how: &str, asked: Asked, reading: Reading, file: &[u8], other: &Program) -> ! {
    let told = |file: &[u8]| [&OWN, other].map(|program| program.answer(&asked, reading, file));
    println!(
        "DIFFERENCE ({how}), {reading:?}, {asked:?}\nthis program, the other: {:?}",
        told(file)
    );
    let differs = |files: &Vec<Vec<u8>>| told(&files[0])[0] != told(&files[0])[1];
    let small = shrink(&vec![file.to_vec()], Duration::from_secs(20), &differs).remove(0);
    let path = std::env::temp_dir().join("second-difference.rdb");
    println!("made smaller: {:?}", told(&small));
    println!("kept in {}: {:?}", path.display(), std::fs::write(&path, &small));
    panic_any(Case { asked, reading, file: small })
}

/// Paths of a file's entities and constants, some of them, and others that are nearly there. Where the file is
/// refused, any.
pub fn paths(file: &[u8], reading: Reading, rng: &mut Rng, count: usize) -> Vec<Vec<u8>> {
    let mut all = vec![b"a".to_vec(), Vec::new()];
    if let Ok(lib) = accept(file, reading) {
        all.extend(lib.paths(2_000));
    }
    let mut some = Vec::new();
    for _ in 0..count {
        let mut path = rng.pick(&all).clone();
        match rng.below(12) {
            0 => path.push(b'.'),
            1 => path.extend([b'.', *rng.pick(b"abX")]),
            2 => path.insert(0, b'.'),
            3 => _ = path.pop(),
            4 => {
                let at = rng.below(path.len() + 1);
                path.insert(at, *rng.pick(b".\0\x80a"));
            }
            5 => path.truncate(path.iter().rposition(|byte| *byte == b'.').unwrap_or(0)),
            _ => {}
        }
        some.push(path);
    }
    some
}

/// What an answer counts as.
pub fn count_answer(tally: &mut Tally, about: &'static str, answer: Answer) {
    match answer {
        Ok(visited) => tally.add_at(about, "accepted", visited as u64),
        Err(why) => tally.add_at(about, REFUSED[why.number as usize], why.place as u64),
    }
}

#[rustfmt::skip]
pub const KINDS: [&str; 12] = [
    "module", "enum", "struct", "template", "exception", "interface",
    "typedef", "constant group", "service", "old service", "singleton", "old singleton",
];

/// Compares all that is made of a file.
fn compare(made: &Made, other: &Program, rng: &mut Rng, tally: &mut Tally) {
    let differ = |asked: &Asked, reading: Reading| {
        OWN.answer(asked, reading, made.bytes) != other.answer(asked, reading, made.bytes)
    };
    let own = check(made.bytes, made.reading);
    if made.known.is_some_and(|known| known != own) {
        println!("known by its making: {}", shown(made.known.unwrap()));
        found(made.how, Asked::Check, made.reading, made.bytes, other);
    }
    tally.add("made", made.how);
    for reading in Reading::BOTH {
        tally.add("all", "checks");
        if differ(&Asked::Check, reading) {
            found(made.how, Asked::Check, reading, made.bytes, other);
        }
    }
    let about = made.reading.word();
    count_answer(tally, about, own);
    if let Some(Err(why)) = made.known {
        let came =
            Came { place: Some(why.place as u64), file: Some(made.base), way: Some(made.how) };
        tally.came("known", REFUSED[why.number as usize], came);
    }
    let is_long = made.bytes.len() > 100_000;
    let count = if own.is_ok() && !is_long { 12 } else { usize::from(rng.percent(5)) };
    for path in paths(made.bytes, made.reading, rng, count) {
        for (about, asked) in
            [("entity", Asked::Entity(path.clone())), ("constant", Asked::Constant(path.clone()))]
        {
            if differ(&asked, made.reading) {
                found(made.how, asked, made.reading, made.bytes, other);
            }
            tally.add("all", "questions");
            let what = match about {
                "entity" => (OWN.entity)(made.bytes, made.reading, &path)
                    .map(|(kind, _)| KINDS[usize::from(kind & KIND)]),
                _ => (OWN.constant)(made.bytes, made.reading, &path).map(Constant::word),
            };
            tally.add(
                about,
                match what {
                    Lookup::Found(what) => what,
                    Lookup::None => "none",
                    _ => "file refused",
                },
            );
        }
    }
}

/// Runs with one seed; ends at the first difference. Whether enough came.
pub fn run(seed: u64, rounds: usize, other: Program) -> bool {
    let (rng, mut tally) = (&mut Rng::new(seed), Tally::new("rdb"));
    everything(seed, rounds, &mut |made| compare(made, &other, rng, &mut tally));
    tally.is_enough()
}

/// Times both programs on files that are hard on them, by both readings. Whether they accept them alike.
pub fn hostile(other: Program) -> bool {
    let cases = rdb_hostile::cases();
    let checks = cases.iter().flat_map(|case| Reading::BOTH.map(|reading| (case, reading)));
    let done = in_parallel(checks.collect(), |(case, reading)| {
        let [this, linked] = [OWN, other].map(|program| {
            let start = Instant::now();
            ((program.check)(&case.bytes, reading), start.elapsed().as_secs_f64() * 1e3)
        });
        let good = [this.0, linked.0] == [Ok(case.visited); 2];
        let times = format!("this {:>8.1} ms  linked {:>8.1} ms", this.1, linked.1);
        let wrong = if good { "" } else { "  WRONG" };
        (good, format!("{times}  {}, {}{wrong}", reading.word(), shown(linked.0)))
    });
    for (case, pair) in cases.iter().zip(done.chunks(2)) {
        println!("{} ({} bytes)", case.name, case.bytes.len());
        pair.iter().for_each(|(_, text)| println!("  {text}"));
    }
    done.iter().all(|(good, _)| *good)
}
