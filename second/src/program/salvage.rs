//! What is left of a file with bad descriptors: its normal form without them, and which they are.

use super::check::{header, Typelib};
use super::format::{refusal, Refusal, MAX_INTERFACES};
use super::normal::normalise;
use std::collections::{BTreeMap, HashMap};

/// Entries that became unresolved, by index, with why.
pub type Changes = BTreeMap<usize, Refusal>;

/// Writes the normal form of what is left and gives its length, and the entries that were changed. The
/// rest of the buffer keeps its bytes, on a refusal all of it.
pub fn salvage(file: &[u8], out: &mut [u8]) -> Result<(usize, Changes), Refusal> {
    let (left, changes) = judged(file)?;
    Ok((normalise(&left, out)?, changes))
}

/// The length and how many entries were changed; in the three lists stand their indexes, the numbers
/// and the places. The rest of the lists keeps its numbers, on a refusal all of them.
pub fn salvage_listed(
    file: &[u8],
    lists: [&mut [u64]; 3],
    out: &mut [u8],
) -> Result<(usize, usize), Refusal> {
    let (left, changes) = judged(file)?;
    if lists.iter().any(|list| list.len() < MAX_INTERFACES) {
        return Err(Refusal { number: refusal::SHORT_LISTS, place: MAX_INTERFACES });
    }
    let length = normalise(&left, out)?;
    let [indexes, numbers, places] = lists;
    for (at, (index, why)) in changes.iter().enumerate() {
        indexes[at] = *index as u64;
        numbers[at] = why.number.into();
        places[at] = why.place as u64;
    }
    Ok((length, changes.len()))
}

/// What is left of a file, and what was changed.
fn judged(file: &[u8]) -> Result<(Vec<u8>, Changes), Refusal> {
    let lib = header(file)?;
    lib.annotations()?;
    let keys = lib.directory()?;
    lib.unique_keys(&keys)?;
    let changes = changes(&lib);
    let mut left = file.to_vec();
    for index in changes.keys() {
        let field = lib.entry(index - 1) + 24;
        left[field..field + 4].fill(0);
    }
    Ok((left, changes))
}

/// Entries whose own descriptor is refused, then those that lie on a cycle of what is left.
fn changes(lib: &Typelib) -> Changes {
    let mut changes = Changes::new();
    let mut judged = HashMap::new();
    let mut parents = vec![0];
    for i in 0..lib.n {
        let mut own =
            |start| *judged.entry(start).or_insert_with(|| lib.descriptor(start, &mut Vec::new()));
        let parent = lib.target(lib.entry(i) + 24).and_then(|start| start.map_or(Ok(0), &mut own));
        parents.push(*parent.as_ref().unwrap_or(&0));
        changes.extend(parent.err().map(|why| (i + 1, why)));
    }
    // One on a cycle is met again within as many steps as there are entries.
    for index in 1..=lib.n {
        let up = |at: &usize| Some(usize::from(parents[*at])).filter(|at| *at != 0);
        let mut chain = std::iter::successors(Some(index), up).skip(1).take(lib.n);
        if chain.any(|at| at == index) {
            let why = Refusal { number: refusal::CYCLE, place: lib.entry(index - 1) };
            changes.insert(index, why);
        }
    }
    changes
}
