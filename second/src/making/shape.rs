//! What an accepted file shows: how its entries inherit, how its types nest, and how its records
//! lie in the pool.

use super::{builder::*, model};
use crate::program::{accepted::pair, accepted::Accepted, check::accept, check::text, check::word};
use std::collections::{BTreeSet, HashMap, HashSet};

/// The shapes of an accepted file, whose model this is.
pub fn shapes(file: &[u8], lib: &Typelib) -> Vec<&'static str> {
    let accepted = accept(file).expect("an accepted file");
    let mut all = Shapes::default();
    all.entries(lib);
    all.inheritance(lib);
    all.descriptors(lib);
    let mut records = records(&accepted);
    all.gaps(&accepted, &mut records);
    all.records(records);
    all.add(file.len() == MAX_FILE, "1,048,576 bytes");
    all.add(file[17] == 0, "minor 0");
    all.0.into_iter().collect()
}

/// A record of the pool.
#[derive(Clone, Copy)]
struct Record {
    from: usize,
    to: usize,
    is_name: bool,
}

/// A record for each pointer of the directory and of the descriptors, each of which is read once.
fn records(lib: &Accepted) -> Vec<Record> {
    let mut all = Vec::new();
    let mut ends = HashMap::new();
    for index in 1..=lib.n {
        let entry = lib.directory + ENTRY * (index - 1);
        let pointers = [16, 20].map(|at| word(lib.file, entry + at));
        let mut names: Vec<_> =
            pointers.iter().filter(|p| **p > 0).map(|p| lib.pool + p - 1).collect();
        if let Some(from) = lib.descriptor(index) {
            let to = *ends.entry(from).or_insert_with(|| {
                let mut walk = lib.walk(from);
                names.extend((0..walk.pair()).map(|_| walk.method().1));
                names.extend((0..walk.pair()).map(|_| walk.constant().0));
                walk.at + 1
            });
            all.push(Record { from, to, is_name: false });
        }
        for from in names {
            let length = lib.file[from..].iter().take_while(|b| **b != 0).count();
            all.push(Record { from, to: from + length + 1, is_name: true });
        }
    }
    all
}

/// Where an accepted file's annotations end, and how many bytes their texts have more than
/// characters.
fn annotations_end(file: &[u8]) -> (usize, usize) {
    let (mut at, mut more) = (HEADER, 0);
    loop {
        let first = file[at];
        at += 1;
        if first & 0x7f == 1 {
            for _ in 0..2 {
                let end = text(file, at).expect("a good text");
                more += end - (at + 2 + usize::from(pair(file, at)));
                at = end;
            }
        }
        if first & 0x80 != 0 {
            return (at, more);
        }
    }
}

#[derive(Default)]
struct Shapes(BTreeSet<&'static str>);

impl Shapes {
    fn add(&mut self, is: bool, shape: &'static str) {
        self.0.extend(is.then_some(shape));
    }

    fn entries(&mut self, lib: &Typelib) {
        let n = lib.entries.len();
        self.add(n == 0, "no entries");
        self.add(n == 1, "one entry");
        self.add(n == MAX_INTERFACES, "1,024 entries");
        let unresolved = |zero: bool| {
            lib.entries.iter().any(|e| e.descriptor.is_none() && (e.iid == [0; 16]) == zero)
        };
        let (zero, with) = (unresolved(true), unresolved(false));
        self.add(zero, "unresolved with zero IID");
        self.add(with, "unresolved with an IID");
        self.add(zero && with, "unresolved of both kinds");
        let spaces: HashSet<_> = lib.entries.iter().filter_map(|e| e.namespace.as_ref()).collect();
        let names: HashSet<_> = lib.entries.iter().map(|e| &e.name).collect();
        self.add(spaces.len() > 1, "several namespaces");
        self.add(names.len() < n, "one name in two namespaces");
        self.add(names.iter().any(|name| name.len() == MAX_IDENTIFIER), "a name of 255 letters");
        self.add(names.iter().chain(&spaces).any(|name| !name.is_ascii()), "a key with accents");
    }

    fn inheritance(&mut self, lib: &Typelib) {
        let parent = |entry: &Entry| entry.descriptor.map_or(0, |d| lib.descriptors[d].parent);
        let parents: Vec<usize> = lib.entries.iter().map(|e| parent(e).into()).collect();
        // Steps up from the entry itself.
        let steps = |index: usize| {
            let (resolved, unresolved) = model::chain(lib, index);
            resolved.len() + usize::from(unresolved.is_some()) - 1
        };
        let most = (1..=parents.len()).map(steps).max().unwrap_or(0);
        self.add((1..=2).contains(&most), "inheritance over 1 or 2 levels");
        self.add(most >= 3, "inheritance over 3 or more levels");
        self.add(most >= 8, "inheritance over 8 or more levels");
        let mut seen = HashSet::new();
        for &index in parents.iter().filter(|index| **index != 0) {
            self.add(!seen.insert(index), "two entries inherit from one");
            let Entry { iid, descriptor, .. } = &lib.entries[index - 1];
            let zero = *iid == [0; 16];
            self.add(zero, "a parent unresolved with zero IID");
            self.add(!zero && descriptor.is_none(), "a parent unresolved with an IID");
        }
    }

    fn descriptors(&mut self, lib: &Typelib) {
        for d in &lib.descriptors {
            self.add(d.methods.len() == MAX_METHODS, "1,024 methods in an interface");
            self.add(d.constants.len() == MAX_CONSTANTS, "1,024 constants in an interface");
            let most = d.methods.iter().map(|method| method.arguments.len()).max();
            self.add(most == Some(255), "255 arguments");
        }
        let mut names = lib.descriptors.iter().flat_map(Descriptor::names);
        self.add(names.any(|name| !name.is_ascii()), "a method or constant with accents");
        let all = || lib.descriptors.iter().flat_map(model::parameters);
        let most = all().map(|p| p.of.arrays.len()).max().unwrap_or(0);
        self.add(most == 1, "an array");
        self.add(most > 1, "nested arrays");
        self.add(most == MAX_ARRAYS, "nested arrays to depth 8");
        // Of minor 2, whether a file has its tags, and where.
        let newer = |p: &&Parameter| is_newer(p.of.leaf & TAG);
        let most = all().filter(newer).map(|p| p.of.arrays.len()).max();
        let in_result = |m: &Method| newer(&&m.result);
        let in_result = lib.descriptors.iter().any(|d| d.methods.iter().any(in_result));
        self.add(lib.minor == 2 && most.is_none(), "minor 2, no tag of its own");
        self.add(most.is_some(), "minor 2, a tag of its own");
        self.add(most == Some(MAX_ARRAYS), "minor 2, in eight arrays");
        self.add(in_result, "minor 2, in a result");
    }

    fn records(&mut self, mut records: Vec<Record>) {
        records.sort_by_key(|record| (record.from, record.to, record.is_name));
        for pair in records.windows(2) {
            let same = pair[0].from == pair[1].from && pair[0].is_name == pair[1].is_name;
            self.add(same && pair[0].is_name, "shared names");
            self.add(same && !pair[0].is_name, "shared descriptors");
        }
        records.dedup_by_key(|record| (record.from, record.is_name));
        let (names, descriptors): (Vec<_>, Vec<_>) = records.iter().partition(|r| r.is_name);
        self.add(overlap(&names), "overlapping names");
        self.add(overlap(&descriptors), "overlapping descriptors");
        let inside = |name: &&Record| {
            let before = descriptors.partition_point(|d| d.from <= name.from);
            before > 0 && descriptors[before - 1].to > name.from
        };
        self.add(names.iter().any(inside), "a name inside a descriptor");
    }

    fn gaps(&mut self, lib: &Accepted, records: &mut [Record]) {
        records.sort_unstable_by_key(|record| record.from);
        let mut end = lib.pool;
        for record in records {
            self.add(record.from > end, "unused bytes in the pool");
            end = end.max(record.to);
        }
        self.add(lib.file.len() > end, "unused bytes in the pool");
        let after_annotations = if lib.n == 0 { lib.pool } else { lib.directory };
        // Up to three bytes come from the directory's place.
        let (end, more) = annotations_end(lib.file);
        self.add(after_annotations - end > 3, "a gap before the directory");
        self.add(more > 0, "a text with accents");
        let after_directory = lib.directory + ENTRY * lib.n;
        self.add(lib.n > 0 && lib.pool > after_directory, "a gap before the pool");
        self.add(lib.file[HEADER] & 0x80 == 0, "several annotations");
    }
}

/// Whether two of these, which come by their first bytes, have a byte in common.
fn overlap(records: &[&Record]) -> bool {
    records.windows(2).any(|pair| pair[0].to > pair[1].from)
}

/// By roles: names of interfaces, namespaces, names of methods and of constants.
const FIRST: [&str; 4] =
    ["first a name", "first a namespace", "first a method", "first a constant"];
const THEN: [&str; 4] = ["then a name", "then a namespace", "then a method", "then a constant"];

/// The roles in which identifiers of a normal form are used first and then again. Nothing where its
/// pool is not as it must be: records one after another in the order of their first use, each
/// identifier once.
pub fn uses(form: &[u8]) -> Option<BTreeSet<(&'static str, &'static str)>> {
    let lib = accept(form).ok()?;
    let mut stock = Stock { end: lib.pool, ..Stock::default() };
    for index in 1..=lib.n {
        let entry = lib.directory + ENTRY * (index - 1);
        let pointers = [16, 20].map(|at| word(form, entry + at)).into_iter().enumerate();
        let keys: Vec<_> = pointers.filter(|(_, p)| *p > 0).collect();
        let mut is_so = keys.into_iter().all(|(role, p)| stock.is_so(&lib, role, lib.pool + p - 1));
        if let Some(start) = lib.descriptor(index) {
            let mut walk = lib.walk(start);
            let mut names: Vec<_> = (0..walk.pair()).map(|_| (2, walk.method().1)).collect();
            names.extend((0..walk.pair()).map(|_| (3, walk.constant().0)));
            is_so &= start == stock.end;
            stock.end = walk.at + 1;
            is_so &= names.into_iter().all(|(role, place)| stock.is_so(&lib, role, place));
        }
        if !is_so {
            return None;
        }
    }
    (stock.end == form.len()).then_some(stock.again)
}

/// What was met of a pool.
#[derive(Default)]
struct Stock<'a> {
    /// Where the records end.
    end: usize,
    /// Where each identifier stands, and the role in which it was used first.
    met: HashMap<&'a [u8], (usize, usize)>,
    again: BTreeSet<(&'static str, &'static str)>,
}

impl<'a> Stock<'a> {
    /// Whether an identifier that is used stands where it was used first, or, if it is new, behind
    /// all before it.
    fn is_so(&mut self, lib: &Accepted<'a>, role: usize, place: usize) -> bool {
        let name = lib.walk(place).identifier(place);
        if let Some((stands, first)) = self.met.get(name) {
            self.again.insert((FIRST[*first], THEN[role]));
            return *stands == place;
        }
        self.met.insert(name, (place, role));
        self.end += name.len() + 1;
        self.end == place + name.len() + 1
    }
}

/// The names and namespaces of a file's keys.
fn in_keys(lib: &Typelib) -> HashSet<&[u8]> {
    lib.entries.iter().flat_map(Entry::names).collect()
}

/// The names of its methods and constants.
fn in_descriptors(lib: &Typelib) -> HashSet<&[u8]> {
    lib.descriptors.iter().flat_map(Descriptor::names).collect()
}

/// What two accepted files that link have to do with each other.
pub fn between(first: &Typelib, second: &Typelib) -> Vec<&'static str> {
    let mut all = Shapes::default();
    let keys: HashMap<_, _> = second.entries.iter().map(|e| (model::key(e), e)).collect();
    let mut common = 0;
    for entry in &first.entries {
        let Some(other) = keys.get(&model::key(entry)) else { continue };
        common += 1;
        let none = [0; 16];
        all.add((entry.iid == none) != (other.iid == none), "an IID from one file");
        let resolved = (entry.descriptor.is_some(), other.descriptor.is_some());
        all.add(resolved == (true, true), "a descriptor in both files");
        all.add(resolved.0 != resolved.1, "a descriptor from one file");
    }
    let (n, m) = (first.entries.len(), second.entries.len());
    let has = |lib: &Typelib| model::least_minor(lib) == 2;
    all.add(has(first) != has(second), "tags of minor 2 in one file");
    all.add(has(first) && has(second), "tags of minor 2 in both files");
    let [(a, c), (b, d)] = [first, second].map(|lib| (in_keys(lib), in_descriptors(lib)));
    all.add(!c.is_disjoint(&d), "a method or constant named alike");
    all.add(!a.is_disjoint(&d) || !b.is_disjoint(&c), "a name in other roles");
    all.add(common == 0 && n > 0 && m > 0, "no key in common");
    all.add(common > 0 && common < n && common < m, "keys in one file only, and in both");
    for index in 1..=n {
        let Some(open) = model::chain(first, index).1 else { continue };
        let there = keys.get(&model::key(&first.entries[open - 1]));
        let met = there.is_some_and(|entry| entry.descriptor.is_some());
        all.add(met && open != index, "a chain that goes on in the other file");
    }
    all.0.into_iter().collect()
}

/// The values that stand in a file's fields, by field.
pub fn values(lib: &Typelib, mut take: impl FnMut(&'static str, u64)) {
    for d in &lib.descriptors {
        take("interface flags", d.flags.into());
        for method in &d.methods {
            take("method flags", method.flags.into());
            take("numbers of arguments", method.arguments.len() as u64);
            method.arguments.iter().for_each(|a| take("argument flags", a.flags.into()));
            take("result flags", method.result.flags.into());
            for parameter in method.arguments.iter().chain([&method.result]) {
                let of = &parameter.of;
                for prefix in of.arrays.iter().map(|array| array[0]).chain([of.leaf]) {
                    take("type prefixes", prefix.into());
                }
            }
        }
        d.constants.iter().for_each(|constant| take("constant types", constant.kind.into()));
    }
}
