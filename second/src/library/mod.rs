//! Comparing through the library: its calls beside this program's, on all that is made.

pub mod adoptions;
pub mod cases;
pub mod checks;
pub mod links;
pub mod lists;
pub mod looks;
pub mod piles;
pub mod questions;
pub mod rdb;
pub mod salvages;

use crate::in_parallel;
use crate::program::questions::{of as asked, Constant, Kind, Looked, Lookup, Method};
use crate::program::{
    adopt::adopt, check, check::accept, link::link, link::LinkRefusal, normal::normalise,
    salvage::salvage_listed, Answer, Refusal,
};
use crate::tally::Tally;
use cases::{Asked, Case};
use std::{panic::panic_any, time::Instant};

pub type Salvaged = Result<(usize, usize), Refusal>;

/// What files link to, one by one. Of a refusal also which link it is of, counted from 1.
pub type Piled = Result<Vec<u8>, (LinkRefusal, usize)>;

/// The calls of a program.
#[derive(Clone, Copy)]
pub struct Program {
    pub check: fn(&[u8]) -> Answer,
    pub iid: fn(&[u8], &[u8]) -> Lookup<usize>,
    pub looks: fn(&[u8], &[u8]) -> Looked,
    pub key: fn(&[u8], &[u8], &[u8]) -> Lookup<usize>,
    pub method: fn(&[u8], u64, &[u8], Kind) -> Lookup<Method>,
    pub slot: fn(&[u8], u64, u64) -> Lookup<Method>,
    pub constant: fn(&[u8], u64, &[u8]) -> Lookup<Constant>,
    pub normalise: fn(&[u8], &mut [u8]) -> Result<usize, Refusal>,
    pub adopt: fn(&[u8], &mut [u8]) -> Answer,
    /// The length of what is left and the number of reports, which stand in the three lists.
    pub salvage: fn(&[u8], [&mut [u64]; 3], &mut [u8]) -> Salvaged,
    pub link: fn(&[u8], &[u8], &mut [u8]) -> Result<usize, LinkRefusal>,
    pub pile: fn(&[&[u8]]) -> Piled,
    /// Any of these, answered in a list of numbers: what is asked, of which files, the buffer for
    /// bytes and the list. What it returns is 0, or 1 where the list is too short.
    pub on_list: fn(&Asked, &[&[u8]], &mut [u8], &mut [u64]) -> i32,
}

pub const OWN: Program = Program {
    check: check::check,
    iid: |file, iid| asked(file, |lib| lib.interface_by_iid(iid)),
    looks: |file, iid| accept(file)?.looks(iid),
    key: |file, namespace, name| asked(file, |lib| lib.interface_by_key(namespace, name)),
    method: |file, index, name, kind| asked(file, |lib| lib.method_by_name(index, name, kind)),
    slot: |file, index, slot| asked(file, |lib| lib.method_by_slot(index, slot)),
    constant: |file, index, name| asked(file, |lib| lib.constant(index, name)),
    normalise,
    adopt,
    salvage: salvage_listed,
    link,
    pile: piles::piled,
    on_list: lists::on_list,
};

/// A part of a run with one seed.
pub struct Session {
    pub seed: u64,
    pub other: Program,
    pub tally: Tally,
}

impl Session {
    /// Tells of a difference, makes it smaller, and ends the part.
    pub fn found(&self, made: &str, asked: Asked, files: &[&[u8]]) -> ! {
        let files = files.iter().map(|file| file.to_vec()).collect();
        panic_any(cases::found(made, Case { asked, files }, &self.other))
    }
}

/// A part: its name, what it runs, and the rows that count comparisons.
type Part = (&'static str, fn(&mut Session), &'static [&'static str]);

pub const PARTS: [Part; 8] = [
    ("links", links::run, &["links", "normal forms"]),
    ("checks", checks::run, &["checks"]),
    ("questions", questions::run, &["questions"]),
    ("lists", lists::run, &["calls"]),
    ("looks", looks::run, &["looks"]),
    ("adoptions", adoptions::run, &["adoptions"]),
    ("piles", piles::run, &["links"]),
    ("salvages", salvages::run, &["salvages"]),
];

/// What a run is asked for: names of parts, none for all, a seed, and how many seeds from there.
pub struct Chosen {
    pub parts: Vec<String>,
    pub seed: u64,
    pub rounds: u64,
}

/// Runs the parts with each seed. Whether enough came.
pub fn run(chosen: &Chosen, other: Program) -> bool {
    let mut seeds = (0..chosen.rounds).map(|round| chosen.seed.wrapping_add(round));
    seeds.all(|seed| run_seed(chosen, seed, other))
}

/// Runs the parts side by side; each ends at its first difference.
fn run_seed(chosen: &Chosen, seed: u64, other: Program) -> bool {
    let start = Instant::now();
    let has = |name: &str| chosen.parts.is_empty() || chosen.parts.iter().any(|p| p == name);
    let parts: Vec<Part> = PARTS.into_iter().filter(|(name, ..)| has(name)).collect();
    let is_whole = parts.len() == PARTS.len();
    let done = in_parallel(parts, |(name, part, rows)| {
        let start = Instant::now();
        let mut session = Session { seed, other, tally: Tally::new(name) };
        part(&mut session);
        println!("{name}, seed {seed}: {:.1} s", start.elapsed().as_secs_f64());
        (session.tally, rows)
    });
    let mut all = Tally::new("compare");
    let mut good = true;
    for (tally, rows) in &done {
        good &= tally.is_enough();
        all.add_many("all", "comparisons", rows.iter().map(|row| tally.count("all", row)).sum());
    }
    let enough = all.is_enough() || !is_whole;
    println!("{:.1} s in all", start.elapsed().as_secs_f64());
    good && enough
}
