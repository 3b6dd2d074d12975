//! Generated files that many scripts take from.

use super::{answers::Bytes, stories};
use crate::making::{damage, genuine, genuine::Genuine, pairs, rng::Rng};
use crate::program::{check::check, link::link, Answer, Refusal, MAX_FILE};
use std::collections::BTreeMap;

pub struct Supply {
    /// For the check, with its answer.
    pub checked: Vec<(Answer, Bytes)>,
    /// Pairs whose union is large, with the number of their refusal.
    pub pairs: Vec<(u32, [Bytes; 2])>,
    pub large: Vec<stories::Named>,
    /// Files of libxpt, of each kind.
    pub genuine: Vec<Genuine>,
}

impl Supply {
    pub fn new(seed: u64) -> Supply {
        let rng = &mut Rng::new(seed);
        let mut checked = sampled(seed);
        rng.shuffle(&mut checked);
        let mut made = [pairs::wide(rng), pairs::long(), pairs::ends()].concat();
        rng.shuffle(&mut made);
        let pair = |(_, files): pairs::Pair| {
            let files = files.map(|lib| Bytes::from(lib.bytes()));
            let linked = link(&files[0], &files[1], &mut vec![0; MAX_FILE]);
            (linked.map_or_else(|(_, refusal)| refusal.number, |_| 0), files)
        };
        let pairs = made.into_iter().map(pair).collect();
        Supply { checked, pairs, large: stories::large(rng), genuine: of_libxpt(seed, rng) }
    }

    /// A refused file of each number, for other k at other places where there are some.
    pub fn refused(&self, k: usize) -> Vec<&Bytes> {
        let mut places = BTreeMap::new();
        for (answer, bytes) in &self.checked {
            if let Err(Refusal { number, place }) = answer {
                places.entry((*number, *place)).or_insert(bytes);
            }
        }
        let all: Vec<_> = places.into_iter().map(|((number, _), bytes)| (number, bytes)).collect();
        of_each(&all, k).into_iter().copied().collect()
    }
}

/// One of each number, others for other k.
pub fn of_each<T>(all: &[(u32, T)], k: usize) -> Vec<&T> {
    let mut by_number: BTreeMap<u32, Vec<&T>> = BTreeMap::new();
    for (number, item) in all {
        by_number.entry(*number).or_default().push(item);
    }
    by_number.values().map(|items| items[k % items.len()]).collect()
}

/// The k-th of so many parts.
pub fn part<T>(all: &[T], k: usize, parts: usize) -> impl Iterator<Item = &T> {
    all.iter().skip(k % parts).step_by(parts)
}

/// Up to 40 files of libxpt of each kind, few of them long; others with other seeds.
fn of_libxpt(seed: u64, rng: &mut Rng) -> Vec<Genuine> {
    let mut kinds: BTreeMap<(&str, bool), usize> = BTreeMap::new();
    let mut kept = Vec::new();
    genuine::everything(seed, &mut |made| {
        let is_long = made.bytes.len() > 100_000;
        let count = kinds.entry((made.how, is_long)).or_default();
        if *count < if is_long { 3 } else { 40 } && (is_long || rng.percent(20)) {
            *count += 1;
            kept.push(made);
        }
    });
    kept
}

/// Up to 40 files of each kind, few of them long.
fn sampled(seed: u64) -> Vec<(Answer, Bytes)> {
    let rng = &mut Rng::new(seed);
    // How many were seen of each kind, and those kept: every one has the same chance.
    let mut kinds: BTreeMap<(&str, bool), (usize, Vec<Bytes>)> = BTreeMap::new();
    damage::everything(seed, &mut |made| {
        let is_long = made.bytes.len() > 100_000;
        let most = if is_long { 1 } else { 40 };
        let (seen, kept) = kinds.entry((made.how, is_long)).or_default();
        *seen += 1;
        if kept.len() < most {
            kept.push(made.bytes.into());
        } else if let Some(place) = kept.get_mut(rng.below(*seen)) {
            *place = made.bytes.into();
        }
    });
    let kept = kinds.into_values().flat_map(|(_, kept)| kept);
    kept.map(|file| (check(&file), file)).collect()
}
