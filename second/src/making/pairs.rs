//! Files to be linked. Those of one world agree with one another; then conflicts are put in.

use super::generate::{self, both, index_tail};
use super::model::{descriptor, index_of, key, least_minor, references, renumbered};
use super::{builder::*, hostile::sharing, rng::Rng};
use crate::program::check::check;
use crate::tally::numbered;
use std::collections::HashMap;

/// The typelib with its entries in another order, some left out: by position from 0.
fn reordered(lib: &Typelib, order: &[usize]) -> Typelib {
    let mut new = vec![0; lib.entries.len() + 1];
    order.iter().zip(1..).for_each(|(old, index)| new[old + 1] = index);
    let mut out = Typelib { entries: Vec::new(), descriptors: Vec::new(), ..lib.clone() };
    // Descriptors that none leads to would only take room.
    let mut places = HashMap::new();
    for old in order {
        let mut entry = lib.entries[*old].clone();
        let mut place = |d: usize| out.add(renumbered(&lib.descriptors[d], &|index| new[index]));
        entry.descriptor = entry.descriptor.map(|d| *places.entry(d).or_insert_with(|| place(d)));
        out.entries.push(entry);
    }
    out
}

/// Entries by IID; those of zero IID keep their order.
pub fn sorted(lib: &Typelib) -> Typelib {
    let mut order: Vec<usize> = (0..lib.entries.len()).collect();
    order.sort_by_key(|i| lib.entries[*i].iid);
    reordered(lib, &order)
}

/// All that the files of one world may hold: every key with its IID and its descriptor. At times
/// all names are of one stock.
pub fn world(rng: &mut Rng) -> Typelib {
    let mut lib = match rng.percent(30) {
        true => generate::one_stock(rng),
        false => generate::family(rng),
    };
    let n = lib.entries.len();
    for d in &mut lib.descriptors {
        for method in &mut d.methods {
            if rng.percent(40) && method.arguments.len() < 255 {
                let of = Type::with(POINTER | INTERFACE, index_tail(rng.range(1, n)));
                method.arguments.push(Parameter::new(IN, of));
            }
        }
    }
    lib
}

/// A file of a world: some entries, resolved or not, with or without IID, in a random layout.
pub fn view(world: &Typelib, rng: &mut Rng) -> Typelib {
    view_with(world, rng, &[], &[])
}

/// Two files whose chains end, which together have a chain that does not, for the most part.
pub fn endless(rng: &mut Rng) -> Two {
    loop {
        let mut world = world(rng);
        let mut cycle = Vec::new();
        for i in 0..world.entries.len() {
            if let Some(d) = world.entries[i].descriptor {
                world.resolve(i, world.descriptors[d].clone());
                cycle.push(i);
            }
        }
        rng.shuffle(&mut cycle);
        cycle.truncate(rng.range(2, 5));
        if cycle.len() < 2 {
            continue;
        }
        for (k, i) in cycle.iter().enumerate() {
            let d = world.entries[*i].descriptor.unwrap();
            world.descriptors[d].parent = cycle[(k + 1) % cycle.len()] as u16 + 1;
        }
        // Each is resolved in one file or in both, but neither file has all of them.
        let (first, second) = cycle.split_at(rng.range(1, cycle.len() - 1));
        let (mut first, mut second) = (first.to_vec(), second.to_vec());
        if cycle.len() > 2 && rng.percent(30) {
            match first.len() < second.len() {
                true => first.push(second[0]),
                false => second.push(first[0]),
            }
        }
        if rng.percent(20) {
            first.pop();
        }
        return [first, second].map(|full| view_with(&world, rng, &full, &cycle));
    }
}

/// A view in which of some entries, by position, these are resolved and the others are not.
fn view_with(world: &Typelib, rng: &mut Rng, full: &[usize], some: &[usize]) -> Typelib {
    let n = world.entries.len();
    let density = *rng.pick(&[20, 50, 80, 100]);
    let resolving = *rng.pick(&[30, 60, 100]);
    let mut resolves = |entry: &Entry| {
        entry.descriptor.is_some() && rng.percent(density) && rng.percent(resolving)
    };
    let mut resolved: Vec<bool> = world.entries.iter().map(&mut resolves).collect();
    some.iter().for_each(|i| resolved[*i] = full.contains(i));
    let mut included: Vec<bool> = resolved.iter().map(|r| *r || rng.percent(density)).collect();
    for i in (0..n).filter(|i| resolved[*i]) {
        let references = references(descriptor(world, i + 1));
        references.into_iter().for_each(|index| included[index - 1] = true);
    }
    let mut lib = laid_out(world, rng);
    let sharing = rng.percent(70);
    for (entry, resolved) in lib.entries.iter_mut().zip(&resolved) {
        if !resolved {
            entry.descriptor = None;
            if rng.percent(40) {
                entry.iid = [0; 16];
            }
        } else if !sharing {
            lib.descriptors.push(lib.descriptors[entry.descriptor.unwrap()].clone());
            entry.descriptor = Some(lib.descriptors.len() - 1);
        }
    }
    shuffled(&lib, (0..n).filter(|i| included[*i]).collect(), rng)
}

/// The same contents in another layout.
fn laid_out(lib: &Typelib, rng: &mut Rng) -> Typelib {
    let (entries, descriptors) = (lib.entries.clone(), lib.descriptors.clone());
    Typelib { entries, descriptors, ..generate::layout(rng, lib.minor) }
}

/// These entries, by IID; those of zero IID in any order. The minor version is one that will do.
fn shuffled(lib: &Typelib, mut order: Vec<usize>, rng: &mut Rng) -> Typelib {
    rng.shuffle(&mut order);
    order.sort_by_key(|i| lib.entries[*i].iid);
    let lib = reordered(lib, &order);
    let minor = rng.range(least_minor(&lib).into(), MAX_MINOR.into()) as u8;
    Typelib { minor, ..lib }
}

/// The same meaning in another layout: entries of zero IID in another order, records elsewhere.
pub fn relaid(lib: &Typelib, rng: &mut Rng) -> Typelib {
    shuffled(&laid_out(lib, rng), (0..lib.entries.len()).collect(), rng)
}

/// An empty typelib, not only P1.
pub fn empty(rng: &mut Rng) -> Typelib {
    let minor = generate::minor(rng);
    generate::layout(rng, minor)
}

/// How a conflict was made, if it could be.
type Made = Option<&'static str>;

/// Puts a conflict between the files into the second, which stays good. How it was done, if it
/// could be.
pub fn conflict(first: &Typelib, second: &mut Typelib, rng: &mut Rng) -> Made {
    let mut changed = second.clone();
    let made = match rng.below(6) {
        0 | 1 => another_iid(first, &mut changed, rng),
        2 | 3 => taken_iid(first, &mut changed, rng),
        _ => another_descriptor(first, &mut changed, rng),
    }?;
    changed = sorted(&changed);
    if check(&changed.bytes()).is_err() {
        return None;
    }
    *second = changed;
    Some(made)
}

/// Puts a conflict of this number, 21 to 24, between two files that have entries in common. Both
/// stay good.
fn forced(number: u32, mut files: Two) -> Option<Two> {
    let [first, second] = &mut files;
    let mut both = common(first, second);
    both.retain(|(i, j)| first.entries[*i].iid == second.entries[*j].iid);
    both.retain(|(i, _)| first.entries[*i].iid != [0; 16]);
    let middle = both.len() / 2;
    let (x, y) = (*both.get(middle)?, *both.get(middle + 1)?);
    match number {
        refusal::TWO_IIDS => second.entries[x.1].iid = [0xee; 16],
        refusal::TWO_KEYS => {
            // A key that only the second has takes the IID of one that only the first has.
            let mine = (0..first.entries.len()).rfind(|i| both.iter().all(|b| b.0 != *i))?;
            let theirs = (0..second.entries.len()).find(|j| both.iter().all(|b| b.1 != *j))?;
            second.entries[theirs].iid = first.entries[mine].iid;
        }
        _ => conflict_of_descriptors(number, [x, y], &mut files),
    }
    both_good(files)
}

/// The two with their entries by IID, if both are good.
fn both_good(files: Two) -> Option<Two> {
    let files = files.map(|lib| sorted(&lib));
    files.iter().all(|lib| check(&lib.bytes()).is_ok()).then_some(files)
}

/// Puts a conflict of this number, 23 or 24, at the first of two entries that both files have, by
/// their positions in both.
fn conflict_of_descriptors(number: u32, [x, y]: [(usize, usize); 2], [first, second]: &mut Two) {
    if number == refusal::TWO_DESCRIPTORS {
        first.resolve(x.0, Descriptor { flags: SCRIPTABLE, ..Descriptor::default() });
        return second.resolve(x.1, Descriptor::default());
    }
    // In one file the first below the other, in the other file the other below the first.
    first.resolve(x.0, Descriptor::below(y.0 + 1));
    first.entries[y.0].descriptor = None;
    second.entries[x.1].descriptor = None;
    second.resolve(y.1, Descriptor::below(x.1 + 1));
}

/// The refusals of which both files are accepted.
const CONFLICTS: std::ops::RangeInclusive<u32> = refusal::TWO_IIDS..=refusal::UNION_CYCLE;

/// How conflicts at many places are made.
const SPREAD: &[&str] = numbered!("", " at many places");
const WIDE: &[&str] = numbered!("a wide union with ", "");
const LONG: &[&str] = numbered!("a long union with ", "");

/// Pairs with a conflict of each number, 21 to 24, at each of many indexes. Both hold the same
/// entries, some of them resolved in one file only.
pub fn spread(rng: &mut Rng) -> Vec<Pair> {
    const COUNT: usize = 48;
    let mut pairs = Vec::new();
    for position in 0..COUNT - 1 {
        let world = generate::wide(rng, COUNT);
        for number in CONFLICTS {
            let mut files = [0; 2].map(|_| relaid(&world, rng));
            let places = [position, position + 1].map(|i| (i, i));
            match number {
                refusal::TWO_IIDS => files[1].entries[position].iid[0] ^= 1,
                // The second has the IID under another key.
                refusal::TWO_KEYS => files[1].entries[position].name = b"another_key".to_vec(),
                _ => conflict_of_descriptors(number, places, &mut files),
            }
            files.rotate_left(position % 2);
            pairs.extend(both_good(files).map(|files| (SPREAD[number as usize], files)));
        }
    }
    pairs
}

/// Some of the plain entries.
fn part(from: usize, to: usize) -> Typelib {
    let mut lib = Typelib::plain(to);
    lib.entries.drain(..from);
    lib
}

/// Triples whose union is about the greatest sizes.
pub fn edge_triples() -> Vec<(&'static str, [Typelib; 3])> {
    let mut triples = vec![
        ("1,024 entries in the end", [part(0, 600), part(300, 1_000), part(900, 1_024)]),
        ("1,025 entries in the end", [part(0, 600), part(300, 1_000), part(900, 1_025)]),
        ("1,025 entries at once", [part(0, 1_024), part(1_000, 1_025), part(0, 10)]),
    ];
    // The headers of all but one fall away, and so does the name that the methods of all have.
    let third = MAX_FILE / 3;
    for (over, made) in [(0, "1,048,576 bytes in the end"), (1, "1,048,577 bytes in the end")] {
        let last = MAX_FILE + over + 2 * (36 + MAX_IDENTIFIER + 1) - 2 * third;
        let long = [(third, 'a'), (third, 'b'), (last, 'c')];
        triples.push((made, long.map(|(length, letter)| of_own_length(length, letter))));
    }
    let long = [(MAX_FILE - 100, 'a'), (third, 'b'), (third, 'c')];
    triples.push(("too long at once", long.map(|(length, letter)| of_own_length(length, letter))));
    triples
}

/// As `of_normal_length`, but no key or IID is another letter's.
fn of_own_length(length: usize, letter: char) -> Typelib {
    let mut lib = of_normal_length(length, letter);
    for entry in lib.entries.iter_mut().filter(|entry| entry.descriptor.is_some()) {
        entry.name[0] = letter as u8;
        entry.iid[0] = letter as u8;
    }
    sorted(&lib)
}

/// Entries of the second file whose key the first has too, by position.
fn common(first: &Typelib, second: &Typelib) -> Vec<(usize, usize)> {
    let keys: HashMap<_, _> = first.entries.iter().map(key).zip(0..).collect();
    let pair = |(j, entry)| keys.get(&key(entry)).map(|i| (*i, j));
    second.entries.iter().enumerate().filter_map(pair).collect()
}

fn another_iid(first: &Typelib, second: &mut Typelib, rng: &mut Rng) -> Made {
    let mut both = common(first, second);
    both.retain(|(i, j)| first.entries[*i].iid != [0; 16] && second.entries[*j].iid != [0; 16]);
    let count = rng.range(1, 2).min(both.len());
    rng.shuffle(&mut both);
    for (_, j) in &both[..count] {
        let iid = &mut second.entries[*j].iid;
        match rng.below(3) {
            0 => iid[rng.below(16)] ^= 1 << rng.below(8),
            1 => *iid = generate::iid(rng.number()),
            _ => iid.iter_mut().for_each(|b| *b = rng.byte()),
        }
    }
    (count > 0).then_some("another IID")
}

fn taken_iid(first: &Typelib, second: &mut Typelib, rng: &mut Rng) -> Made {
    let with_iid: Vec<&Entry> = first.entries.iter().filter(|e| e.iid != [0; 16]).collect();
    if with_iid.is_empty() || second.entries.is_empty() {
        return None;
    }
    let taken = *rng.pick(&with_iid);
    // An entry of another key, whose own IID in the first file is zero, or that is new there.
    let free = |entry: &Entry| {
        let there = first.entries.iter().find(|other| key(other) == key(entry));
        there.is_none_or(|other| other.iid == [0; 16])
    };
    let may_be: Vec<usize> = (0..second.entries.len())
        .filter(|j| key(&second.entries[*j]) != key(taken) && free(&second.entries[*j]))
        .collect();
    for entry in second.entries.iter_mut().filter(|entry| entry.iid == taken.iid) {
        if entry.descriptor.is_some() {
            return None;
        }
        entry.iid = [0; 16];
    }
    if may_be.is_empty() {
        // A new entry then.
        let name = generate::identifier(rng, 9);
        second.entries.push(Entry { iid: taken.iid, name, namespace: None, descriptor: None });
        return Some("an IID taken by a new key");
    }
    second.entries[*rng.pick(&may_be)].iid = taken.iid;
    Some("an IID taken")
}

/// Changes one thing in the descriptor of an entry, as often as possible one that both resolve.
fn another_descriptor(first: &Typelib, second: &mut Typelib, rng: &mut Rng) -> Made {
    let is_resolved = |lib: &Typelib, i: usize| lib.entries[i].descriptor.is_some();
    let mut both = common(first, second);
    both.retain(|(i, j)| is_resolved(first, *i) && is_resolved(second, *j));
    let (_, j) = if both.is_empty() { return None } else { *rng.pick(&both) };
    let n = second.entries.len();
    let mut d = descriptor(second, j + 1).clone();
    let made = change(&mut d, n, rng)?;
    second.resolve(j, d);
    second.minor = second.minor.max(least_minor(second));
    Some(made)
}

/// Another index than this one.
fn other_index(index: usize, n: usize, rng: &mut Rng) -> usize {
    1 + (index - 1 + rng.range(1, n - 1)) % n
}

/// Changes one thing that is part of a descriptor's meaning. What can't be changed there becomes
/// another reference, if it has one.
fn change(d: &mut Descriptor, n: usize, rng: &mut Rng) -> Made {
    let (methods, constants) = (d.methods.len(), d.constants.len());
    let kind = rng.below(20);
    let (made, ()) = match kind {
        0 => ("interface flags", d.flags ^= SCRIPTABLE),
        1 if n > 1 && d.parent == 0 => ("another parent", d.parent = rng.range(1, n) as u16),
        1 if n > 1 => ("another parent", d.parent = other_index(d.parent.into(), n, rng) as u16),
        2 if d.parent != 0 => ("no parent", d.parent = 0),
        3 if methods < MAX_METHODS => ("a method more", d.methods.push(Method::plain(0, b"more"))),
        4 if constants < MAX_CONSTANTS => {
            ("a constant more", d.constants.push(Constant::new(b"MORE", 5, 1)))
        }
        _ => ("", ()),
    };
    if !made.is_empty() {
        return Some(made);
    }
    if kind >= 15 && constants > 0 {
        return change_constant(&mut d.constants, kind, rng);
    }
    if methods == 0 {
        return None;
    }
    if kind == 13 || kind == 14 {
        if let Some(made) = change_strings(d, rng) {
            return Some(made);
        }
    }
    let at = rng.below(methods);
    let m = &mut d.methods[at];
    let parameters = m.arguments.len() + 1;
    let which = rng.below(parameters);
    let is_result = which + 1 == parameters;
    let p = if is_result { &mut m.result } else { &mut m.arguments[which] };
    let of_flags = if is_result { "result's flags" } else { "argument's flags" };
    let (made, ()) = match kind {
        5 => ("method's flags", m.flags ^= HIDDEN),
        6 => ("method's name", m.name = near(&m.name)),
        7 => ("a method less", _ = d.methods.remove(at)),
        8 if methods > 1 => ("order of methods", d.methods.swap(at, (at + 1) % methods)),
        9 if !is_result => (of_flags, p.flags ^= IN),
        10 => (of_flags, p.flags ^= SHARED),
        11 if p.of.prefix() & POINTER != 0 => {
            let prefix = p.of.arrays.first_mut().map_or(&mut p.of.leaf, |array| &mut array[0]);
            ("a prefix", *prefix ^= *rng.pick(&[UNIQUE, REFERENCE]))
        }
        12 => {
            ("an argument more", m.arguments.insert(parameters - 1, Parameter::simple(IN, UINT32)))
        }
        _ => {
            let all = m.arguments.iter_mut().chain([&mut m.result]);
            let mut types = all.map(|p| &mut p.of).filter(|of| of.leaf & TAG == INTERFACE);
            let first = types.next().filter(|_| n > 1)?;
            let index = other_index(index_of(first), n, rng);
            ("another reference", first.tail = index_tail(index))
        }
    };
    Some(made)
}

/// Gives the first string of a class another class.
fn change_strings(d: &mut Descriptor, rng: &mut Rng) -> Made {
    let all = d.methods.iter_mut().flat_map(|m| m.arguments.iter_mut().chain([&mut m.result]));
    let classes = [ASTRING, UTF8STRING, 24, LAST_TAG];
    let leaf = all.map(|p| &mut p.of.leaf).find(|leaf| classes.contains(&(**leaf & TAG)))?;
    let others = classes.into_iter().filter(|tag| *tag != *leaf & TAG);
    *leaf = POINTER | *rng.pick(&others.collect::<Vec<_>>());
    Some("another class of strings")
}

fn change_constant(constants: &mut Vec<Constant>, kind: usize, rng: &mut Rng) -> Made {
    let at = rng.below(constants.len());
    let c = &mut constants[at];
    let (made, ()) = match kind {
        15 => ("constant's value", c.value ^= 1 << rng.below(16)),
        16 => {
            let kind = if c.kind ^ 4 == 3 { 2 } else { c.kind ^ 4 };
            ("constant's kind", c.kind = Some(kind).filter(|k| CONSTANT_TYPES.contains(k))?)
        }
        17 => ("constant's name", c.name = near(&c.name)),
        18 => ("a constant less", _ = constants.remove(at)),
        _ => ("order of constants", constants.rotate_left(1)),
    };
    Some(made)
}

/// The name with another last letter.
fn near(name: &[u8]) -> Vec<u8> {
    let mut name = String::from_utf8_lossy(name).into_owned();
    let other = if name.pop() == Some('q') { 'r' } else { 'q' };
    name.push(other);
    name.into_bytes()
}

/// A file whose normal form has this length: entries that share a descriptor of long methods, all
/// of one name of the greatest length, then unresolved ones whose keys end in the letter.
pub fn of_normal_length(length: usize, letter: char) -> Typelib {
    // The last argument is the size of all others.
    let deep = Type::nested(MAX_ARRAYS, 9, POINTER | SIZED_STRING, [9, 9, 0]);
    let mut arguments = vec![Parameter::new(IN, deep); 9];
    arguments.push(Parameter::simple(IN, UINT32));
    let method = Method::new(0, &[b'm'; MAX_IDENTIFIER], arguments, Parameter::simple(0, VOID));
    let d = Descriptor::of(vec![method; 300]);
    let mut lib = sharing((length / d.size()).min(12), d);
    // An unresolved entry takes 29 bytes and its name.
    let mut missing = length - resolved_length(&lib);
    let mut number = u64::from(u32::from(letter)) << 32;
    while missing > 0 {
        let part = match missing {
            0..=284 => missing,
            285..568 => missing / 2,
            _ => 284,
        };
        let name = format!("{:x<width$}", format!("F{number}{letter}"), width = part - 29);
        number += 1;
        lib.entries.push(Entry::new(number, &name));
        missing -= part;
    }
    lib
}

/// The length of the normal form of such a file's resolved entries.
fn resolved_length(lib: &Typelib) -> usize {
    let size = lib.descriptors[0].size();
    let resolved = lib.entries.iter().filter(|entry| entry.descriptor.is_some());
    let each = resolved.map(|entry| 29 + entry.name.len() + size);
    36 + each.sum::<usize>() + MAX_IDENTIFIER + 1
}

type Two = [Typelib; 2];

/// A pair and how it was made.
pub type Pair = (&'static str, Two);

/// The pair with a conflict of each number.
fn conflicts(made: &'static [&'static str], files: Two) -> impl Iterator<Item = Pair> {
    let with = move |number| Some((made[number as usize], forced(number, files.clone())?));
    CONFLICTS.filter_map(with)
}

/// Pairs whose union has about 1,024 entries, some with a conflict beside.
pub fn wide(rng: &mut Rng) -> Vec<Pair> {
    let mut pairs = Vec::new();
    for (from, middle, to, made) in [
        (0, 600, 1_024, "union of 1,024"),
        (300, 1_000, 1_024, "union of 1,024"),
        (0, 1_024, 1_024, "union of 1,024"),
        (0, 600, 1_025, "union of 1,025"),
        (500, 1_024, 1_025, "union of 1,025"),
        (1_000, 1_020, 1_040, "union of 1,040"),
        (1, 1_024, 1_025, "union of 1,025"),
        (900, 1_000, 1_024, "union of 1,024"),
        (1_024, 1_024, 2_048, "union of 2,048"),
    ] {
        // Below `middle` in the first, from `from` on in the second.
        let (first, mut second) = (part(0, middle), part(from, to));
        pairs.push((made, [first.clone(), second.clone()]));
        // With references: the second resolves what the first only names.
        let n = second.entries.len();
        for i in 0..n / 2 {
            second.resolve(i, Descriptor::below(rng.range(n / 2 + 1, n)));
        }
        pairs.push((made, [first.clone(), second.clone()]));
        // IIDs only in one of them.
        let mut bare = first.clone();
        bare.entries.iter_mut().for_each(|entry| entry.iid = [0; 16]);
        rng.shuffle(&mut bare.entries);
        pairs.push((made, [bare, second.clone()]));
        pairs.extend(conflicts(WIDE, [first, second]));
    }
    pairs
}

/// Pairs whose union has a normal form of about 1,048,576 bytes.
pub fn long() -> Vec<Pair> {
    let mut pairs = Vec::new();
    // Two files that have their resolved entries in common.
    let first = of_normal_length(MAX_FILE - 70_000, 'a');
    let shared = resolved_length(&first);
    for over in [-1_000, -1, 0, 1, 2, 3, 284, 900, 40_000] {
        let made = match over {
            ..-1 => "normal form well below the limit",
            -1 => "normal form of 1,048,575",
            0 => "normal form of 1,048,576",
            1 => "normal form of 1,048,577",
            2.. => "normal form over the limit",
        };
        let length = (70_000 + shared as isize + over) as usize;
        let second = of_normal_length(length, 'b');
        pairs.push((made, [first.clone(), second.clone()]));
        if over == 2 || over == 900 {
            let second = Typelib { order: Order::Shuffled, ..second };
            pairs.extend(conflicts(LONG, [first.clone(), second]));
        }
    }
    // One file that is too long by itself.
    for more in [1, 2, 500, 90_000] {
        let over = of_normal_length(MAX_FILE + more, 'c');
        let others = [Typelib::default(), over.clone()];
        pairs.extend(others.map(|other| ("a file over the limit", [over.clone(), other])));
    }
    let most = of_normal_length(MAX_FILE, 'd');
    let others = [Typelib::default(), most.clone()];
    pairs.extend(others.map(|other| ("normal form of 1,048,576", [most.clone(), other])));
    pairs
}

/// Pairs whose union's normal form ends about the limit in a record of each kind, which the second
/// file brings. All its other names stand in the first already; in every other pair the first has
/// all.
pub fn ends() -> Vec<Pair> {
    const ENDS: [&str; 5] = [
        "a name at the limit",
        "a namespace at the limit",
        "a descriptor at the limit",
        "a method's name at the limit",
        "a constant's name at the limit",
    ];
    let first = of_normal_length(MAX_FILE - 200, 'e');
    let mut pairs = Vec::new();
    for ((end, made), over) in both(ENDS.into_iter().enumerate(), [-1, 0, 1]) {
        // Without the entry's own bytes.
        let left = (200 - ENTRY as isize + over) as usize;
        let new = |others: usize| vec![b'z'; left - others - 1];
        let mut entry = Entry::new(u64::MAX, "E0");
        entry.set_key("E1", "E0");
        let mut d = Descriptor::default();
        match end {
            0 => entry.name = new(0),
            1 => entry.namespace = Some(new(0)),
            2 => {
                // An argument takes two bytes, so that there must be a constant at times.
                let mut missing = left - d.size();
                if missing % 2 == 1 {
                    d.constants.push(Constant::new(b"E2", 1, 7));
                    missing -= 7;
                }
                d.methods.push(Method::plain(0, b"E0"));
                d.methods[0].arguments = vec![Parameter::simple(IN, UINT32); (missing - 8) / 2];
            }
            3 => d.methods.push(Method::plain(0, &new(d.size() + 8))),
            _ => d.constants.push(Constant::new(&new(d.size() + 7), 1, 7)),
        }
        let with = |mut lib: Typelib| {
            lib.entries.push(entry.clone());
            if end > 1 {
                lib.resolve(lib.entries.len() - 1, d.clone());
            }
            lib
        };
        let second = with(Typelib::default());
        pairs.push((made, [first.clone(), second.clone()]));
        pairs.push((made, [with(first.clone()), second]));
    }
    pairs
}
