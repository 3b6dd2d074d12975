//! Interfaces by IID, with the number of entries looked at: directories of many sizes, of which none,
//! some or all have an IID.

use super::{cases::Asked, Session, OWN};
use crate::making::{damage, generate, rng::Rng};
use crate::program::{check::accept, refusal, MAX_INTERFACES};
use crate::tally::{hash, numbered, Came};

pub const LOOKED: &[&str] = numbered!("", " looks");

/// An IID to ask for, and how it lies to those of the directory, which come in order.
type Sought = (&'static str, u128);

/// IIDs that are there, their neighbours, and those below and above all: about `count` of them, the
/// first and the last entries always.
pub fn sought(iids: &[u128], rng: &mut Rng, count: usize) -> Vec<Sought> {
    let nonzero = &iids[iids.partition_point(|iid| *iid == 0)..];
    let ends = [nonzero.first(), nonzero.last(), nonzero.iter().rev().nth(1)];
    let mut chosen: Vec<u128> = ends.into_iter().flatten().copied().collect();
    chosen.extend((0..count.min(nonzero.len())).map(|_| *rng.pick(nonzero)));
    let near = |iid: u128| [iid, iid.wrapping_sub(1), iid.saturating_add(1)];
    let mut all: Vec<u128> = chosen.into_iter().flat_map(near).chain([1, u128::MAX]).collect();
    all.retain(|iid| *iid != 0);
    let how = |iid: u128| match (nonzero.first(), nonzero.last()) {
        _ if nonzero.contains(&iid) => "there",
        (Some(first), _) if iid < *first => "below the first",
        (_, Some(last)) if iid > *last => "above the last",
        (None, _) => "zero IIDs alone",
        _ => "between two",
    };
    all.into_iter().map(|iid| (how(iid), iid)).collect()
}

/// Asks a file for IIDs and counts what comes.
fn ask(session: &mut Session, file: &[u8], how: &'static str, iid: &[u8]) {
    let (own, lent) = ((OWN.looks)(file, iid), file.to_vec());
    if (session.other.looks)(&lent, iid) != own || lent != file {
        session.found(how, Asked::Looks(iid.to_vec()), &[file]);
    }
    let tally = &mut session.tally;
    tally.add("all", "looks");
    let came = Came { file: Some(hash(&[file])), ..Came::default() };
    match own {
        Ok((index, looked)) => {
            let (what, place) = index.map_or(("none", None), |i| ("found", Some(i as u64)));
            tally.came(what, LOOKED[looked], Came { place, ..came });
            tally.came(how, what, came);
            // The place is the number of entries.
            let n = accept(file).map_or(0, |lib| lib.n) as u64;
            tally.came("directory", LOOKED[looked], Came { place: Some(n), ..came });
        }
        Err(why) if why.number == refusal::QUESTION => tally.came("malformed", how, came),
        Err(why) => {
            tally.came("file refused", "", Came { place: Some(why.number.into()), ..came });
        }
    }
}

/// The sizes about each power of two, and some others.
pub fn size(rng: &mut Rng) -> usize {
    let power = 1 << rng.below(11);
    let about = [power - 1, power, power, power + 1, rng.below(MAX_INTERFACES + 1)];
    (*rng.pick(&about)).min(MAX_INTERFACES)
}

/// How many of these entries have no IID.
pub fn zeros(rng: &mut Rng, n: usize) -> usize {
    let any = rng.below(n + 1);
    *rng.pick(&[0, 0, 0, n.min(1), n / 2, any, n.saturating_sub(1), n])
}

pub fn run(session: &mut Session) {
    let rng = &mut Rng::new(session.seed);
    let powers = (0..=10).flat_map(|k| [(1 << k) - 1, 1 << k, (1 << k) + 1]);
    let mut sizes: Vec<usize> = powers.chain([1_000, MAX_INTERFACES, MAX_INTERFACES]).collect();
    sizes.retain(|n| *n <= MAX_INTERFACES);
    for (n, round) in generate::both(sizes, 0..6) {
        let zeros = [0, n.min(1), n / 2, n.saturating_sub(1), n, rng.below(n + 1)][round];
        directory(session, rng, n, zeros, 12);
    }
    for _ in 0..400 {
        let n = rng.below(40);
        let zeros = zeros(rng, n);
        directory(session, rng, n, zeros, n);
    }
    // The file's refusal comes first.
    let mut counter = rng.below(397);
    damage::everything(session.seed, &mut |made| {
        counter += 1;
        if counter.is_multiple_of(397) {
            let iid = u128::from(rng.number() % [1, 2, u64::MAX][rng.below(3)]);
            ask(session, made.bytes, "a file for the check", &iid.to_be_bytes());
        }
    });
}

/// A directory of so many entries, asked for IIDs and for what is none.
fn directory(session: &mut Session, rng: &mut Rng, n: usize, zeros: usize, count: usize) {
    let lib = generate::directory(rng, n, zeros);
    let bytes = lib.bytes();
    let iids: Vec<_> = lib.entries.iter().map(|entry| u128::from_be_bytes(entry.iid)).collect();
    for (how, iid) in sought(&iids, rng, count) {
        ask(session, &bytes, how, &iid.to_be_bytes());
    }
    ask(session, &bytes, "IID zero", &[0; 16]);
    let length = *rng.pick(&[0, 1, 15, 17, 32]);
    ask(session, &bytes, "IID of another length", &vec![1; length]);
}
