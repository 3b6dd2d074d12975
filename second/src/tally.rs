//! Counts of what was compared, row by row, held against the one table of floors: how often
//! everything must come at least in a run, of any seed.

use std::collections::{HashMap, HashSet};
use std::hash::{DefaultHasher, Hash, Hasher};

/// What a row is about, and what came.
pub type Row = (&'static str, &'static str);

/// Count, places, files, ways.
pub type Numbers = [usize; 4];

/// One thing that was compared, as far as it is to be counted.
#[derive(Clone, Copy, Default)]
pub struct Came {
    pub place: Option<u64>,
    /// Tells files apart: their hash, or the number of the file that they were made from.
    pub file: Option<u64>,
    /// How it was made.
    pub way: Option<&'static str>,
}

/// How often a row came, and the different places, files and ways.
#[derive(Default)]
struct Counts(usize, [HashSet<u64>; 3]);

/// The counts of one part of a run.
pub struct Tally {
    pub part: &'static str,
    rows: HashMap<Row, Counts>,
}

/// Texts with a number in them, by number: those of refusals.
macro_rules! numbered {
    ($before:literal, $after:literal) => {
        numbered!($before, $after: 0 1 2 3 4 5 6 7 8 9 10 11 12 13 14 15 16 17 18 19 20 21 22 23 24
            25 26 27 28 29 30 31 32 33 34 35 36 37 38 39 40 41 42 43 44 45)
    };
    ($before:literal, $after:literal: $($number:literal)*) => {
        &[$(concat!($before, $number, $after)),*]
    };
}
pub(crate) use numbered;

pub const NUMBER: &[&str] = numbered!("", "");
pub const REFUSED: &[&str] = numbered!("refused ", "");
pub const REFUSAL: &[&str] = numbered!("refusal ", "");
pub const LINK: &[&str] = numbered!("link ", "");

/// What depends on the seed is set well below what came with twenty of them.
const FLOORS: &str = include_str!("floors.txt");

/// The floors of a part, in the table's order.
pub fn floors(part: &str) -> Vec<(Row, Numbers)> {
    let mut floors = Vec::new();
    let mut is_part = false;
    let mut group = ("", [0; 4]);
    for line in FLOORS.lines().filter(|line| !line.starts_with('#')) {
        if let Some(named) = line.strip_prefix('[') {
            is_part = named.strip_suffix(']') == Some(part);
        } else if is_part && !line.is_empty() {
            let mut columns = line.split('|').map(str::trim).rev();
            let whats = columns.next().unwrap_or("");
            // A line without numbers goes on with the group before it.
            if let (Some(numbers), Some(about)) = (columns.next(), columns.next()) {
                group = (about, [0; 4]);
                for (least, number) in group.1.iter_mut().zip(numbers.split_whitespace()) {
                    *least = number.parse().unwrap_or_else(|_| panic!("no number: {line}"));
                }
            }
            let whats = whats.strip_suffix(';').unwrap_or(whats).split(';').map(str::trim);
            floors.extend(whats.map(|what| ((group.0, what), group.1)));
        }
    }
    floors
}

/// Tells files and rows of files apart.
pub fn hash(files: &[&[u8]]) -> u64 {
    let mut hasher = DefaultHasher::new();
    files.hash(&mut hasher);
    hasher.finish()
}

impl Tally {
    pub fn new(part: &'static str) -> Tally {
        Tally { part, rows: HashMap::new() }
    }

    /// Many at once, of which nothing else is known.
    pub fn add_many(&mut self, about: &'static str, what: &'static str, count: usize) {
        self.rows.entry((about, what)).or_default().0 += count;
    }

    pub fn add(&mut self, about: &'static str, what: &'static str) {
        self.came(about, what, Came::default());
    }

    pub fn add_at(&mut self, about: &'static str, what: &'static str, place: u64) {
        self.came(about, what, Came { place: Some(place), ..Came::default() });
    }

    pub fn came(&mut self, about: &'static str, what: &'static str, came: Came) {
        let way = came.way.map(|way| hash(&[way.as_bytes()]));
        let Counts(count, seen) = self.rows.entry((about, what)).or_default();
        *count += 1;
        seen.iter_mut().zip([came.place, came.file, way]).for_each(|(seen, new)| seen.extend(new));
    }

    pub fn count(&self, about: &'static str, what: &'static str) -> usize {
        self.numbers(&(about, what))[0]
    }

    fn numbers(&self, row: &Row) -> Numbers {
        let of = |Counts(n, [a, b, c]): &Counts| [*n, a.len(), b.len(), c.len()];
        self.rows.get(row).map_or([0; 4], of)
    }

    /// Adds what came elsewhere in the same part.
    pub fn join(&mut self, other: Tally) {
        for (row, more) in other.rows {
            let Counts(count, seen) = self.rows.entry(row).or_default();
            *count += more.0;
            seen.iter_mut().zip(more.1).for_each(|(seen, more)| seen.extend(more));
        }
    }

    /// The rows that fall short of these floors.
    pub fn short(&self, floors: &[(Row, Numbers)]) -> Vec<Row> {
        let falls = |(row, least): &&(Row, Numbers)| {
            self.numbers(row).iter().zip(least).any(|(came, least)| came < least)
        };
        floors.iter().filter(falls).map(|(row, _)| *row).collect()
    }

    /// Prints the table, and whether every floor of the part is reached.
    pub fn is_enough(&self) -> bool {
        let floors = floors(self.part);
        self.print(&floors);
        let short = self.short(&floors);
        for (about, what) in &short {
            println!("TOO FEW: {}, {about}, {what}", self.part);
        }
        short.is_empty()
    }

    /// Prints the table: rows with floors in their order, then the others.
    fn print(&self, floors: &[(Row, Numbers)]) {
        let [count, places, files, ways] = ["count", "places", "files", "ways"];
        println!("{:<20}{:<39}{count:>9}{places:>8}{files:>8}{ways:>6}   at least", self.part, "");
        let has_floor: HashSet<Row> = floors.iter().map(|(row, _)| *row).collect();
        let mut others: Vec<_> = self.rows.keys().filter(|row| !has_floor.contains(row)).collect();
        others.sort_unstable();
        let others = others.into_iter().map(|row| (*row, [0; 4]));
        for (row, least) in floors.iter().copied().chain(others) {
            let [count, places, files, ways] = self.numbers(&row).map(|number| match number {
                0 => String::new(),
                number => number.to_string(),
            });
            let names = ["", " places", " files", " ways"];
            let least = least.iter().zip(names).filter(|(least, _)| **least > 0);
            let least: Vec<_> = least.map(|(least, name)| format!("{least}{name}")).collect();
            let (about, what) = (format!("{:<20}{:<39}", row.0, row.1), least.join(", "));
            let line = format!("{about}{count:>9}{places:>8}{files:>8}{ways:>6}   {what}");
            println!("{}", line.trim_end());
        }
        println!();
    }
}
