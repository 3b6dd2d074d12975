//! Linking: the normal form of the union of two typelibs.

use super::accepted::{pair, Accepted, Walk};
use super::check::accept;
use super::format::{refusal, refuse_if, refused, Refusal, MAX_INTERFACES};
use super::normal::{write, Item, Source};
use super::Answer;
use std::collections::{HashMap, HashSet};

/// A refusal, with the file whose own it is: 1 or 2; 0 for those of the link.
pub type LinkRefusal = (u8, Refusal);

/// Writes the union's normal form and gives its length; the rest of the buffer keeps its bytes,
/// on a refusal all of it.
pub fn link(first: &[u8], second: &[u8], out: &mut [u8]) -> Result<usize, LinkRefusal> {
    let first = accept(first).map_err(|refusal| (1, refusal))?;
    let second = accept(second).map_err(|refusal| (2, refusal))?;
    link_accepted(&first, &second, out).map_err(|refusal| (0, refusal))
}

/// Links files that were checked before.
fn link_accepted(first: &Accepted, second: &Accepted, out: &mut [u8]) -> Answer {
    let union = Union::new(first, second)?;
    union.iids_stand()?;
    union.descriptors_agree()?;
    union.chains_end()?;
    refuse_if(union.items.len() > MAX_INTERFACES, refusal::UNION_SIZE, 0)?;
    union.write(out)
}

/// One entry for each key of either file. They are numbered from 1: those of the first file as
/// there, then the others of the second.
struct Union<'l, 'a> {
    files: [&'l Accepted<'a>; 2],
    items: Vec<Item<'a>>,
    /// The union's number of each index of the second file; 0 stays 0.
    second: Vec<u16>,
    /// Indexes in both files of the keys that both have, in the second's order. For entries that
    /// both resolve this is the first's order too: that of their IIDs, which are the same.
    common: Vec<(u16, u16)>,
}

impl<'l, 'a> Union<'l, 'a> {
    /// 21 where one key has two nonzero IIDs.
    fn new(first: &'l Accepted<'a>, second: &'l Accepted<'a>) -> Result<Union<'l, 'a>, Refusal> {
        let files = [first, second];
        let item = |file: usize, index: usize| Item {
            iid: files[file].iid(index),
            key: files[file].key(index),
            descriptor: files[file].descriptor(index).map(|place| (file, place)),
        };
        let mut items: Vec<Item> = Vec::with_capacity(first.n + second.n);
        items.extend((1..=first.n).map(|index| item(0, index)));
        let numbers: HashMap<_, _> = first.keys.iter().zip(1u16..).collect();
        let mut union = Union {
            files,
            items,
            second: Vec::with_capacity(second.n + 1),
            common: Vec::with_capacity(first.n.min(second.n)),
        };
        union.second.push(0);
        let mut lowest = u16::MAX;
        for index in 1..=second.n {
            let new = item(1, index);
            let Some(&number) = numbers.get(&new.key) else {
                union.items.push(new);
                union.second.push(union.items.len() as u16);
                continue;
            };
            let old = &mut union.items[usize::from(number) - 1];
            if old.iid == 0 {
                old.iid = new.iid;
            } else if new.iid != 0 && new.iid != old.iid {
                lowest = lowest.min(number);
            }
            old.descriptor = old.descriptor.or(new.descriptor);
            union.second.push(number);
            union.common.push((number, index as u16));
        }
        refuse_if(lowest < u16::MAX, refusal::TWO_IIDS, lowest.into())?;
        Ok(union)
    }

    /// 22 where one nonzero IID has two keys. One of them is always in the first file, as
    /// the second is accepted, and those have the lower numbers.
    fn iids_stand(&self) -> Result<(), Refusal> {
        let with_iid = self.items.iter().zip(1usize..).filter(|(item, _)| item.iid != 0);
        let mut sorted: Vec<(u128, usize)> =
            with_iid.map(|(item, number)| (item.iid, number)).collect();
        sorted.sort_unstable();
        let doubled = sorted.windows(2).filter(|pair| pair[0].0 == pair[1].0);
        match doubled.map(|pair| pair[0].1).min() {
            Some(number) => refused(refusal::TWO_KEYS, number),
            None => Ok(()),
        }
    }

    /// 23 where one key has two different descriptors.
    fn descriptors_agree(&self) -> Result<(), Refusal> {
        let [first, second] = self.files;
        // Places already found to agree: entries may share descriptors.
        let mut agree = HashSet::new();
        for &(a, b) in &self.common {
            let places = (first.descriptor(a.into()), second.descriptor(b.into()));
            if let (Some(in_first), Some(in_second)) = places {
                refuse_if(
                    agree.insert((in_first, in_second)) && !self.same(in_first, in_second),
                    refusal::TWO_DESCRIPTORS,
                    a.into(),
                )?;
            }
        }
        Ok(())
    }

    /// Whether a descriptor of the first file and one of the second mean the same.
    ///
    /// Only the first is walked. All between pointers and references is compared as it stands,
    /// so that what is read of the second stands at the same offsets as in the first.
    fn same(&self, in_first: usize, in_second: usize) -> bool {
        let [first, second] = self.files;
        let there = |place: usize| place - in_first + in_second;
        let same_bytes = |from: usize, to: usize| {
            second.file.get(there(from)..there(to)) == Some(&first.file[from..to])
        };
        let same_name = |field: usize, name: &[u8]| {
            let mut other = Walk { at: there(field), ..second.walk(in_second) };
            let place = other.pointer();
            other.is(place, name)
        };
        let same_interface = |field: usize| {
            let index = pair(first.file, field);
            index == self.second[usize::from(pair(second.file, there(field)))]
        };
        if !same_interface(in_first) {
            return false;
        }
        let mut walk = first.walk(in_first);
        // Up to here all is the same.
        let mut done = walk.at;
        for _ in 0..walk.pair() {
            let field = walk.at + 1;
            walk.at = field;
            let name = walk.pointer();
            if !same_bytes(done, field) || !same_name(field, walk.identifier(name)) {
                return false;
            }
            done = walk.at;
            for _ in 0..=walk.byte() {
                walk.at += 1;
                if let Some((field, _)) = walk.reference() {
                    if !same_bytes(done, field) || !same_interface(field) {
                        return false;
                    }
                    done = walk.at;
                }
            }
        }
        for _ in 0..walk.pair() {
            let field = walk.at;
            let (name, ..) = walk.constant();
            if !same_bytes(done, field) || !same_name(field, walk.identifier(name)) {
                return false;
            }
            done = field + 4;
        }
        same_bytes(done, walk.at + 1)
    }

    /// 24 at the first file's lowest entry whose chain does not end.
    fn chains_end(&self) -> Result<(), Refusal> {
        let parent = |number: usize| match self.items[number - 1].descriptor {
            None => 0,
            Some((file, place)) => {
                let index = pair(self.files[file].file, place);
                usize::from(if file == 0 { index } else { self.second[usize::from(index)] })
            }
        };
        // For each entry the first walk that passed it, 0 for none. Earlier walks have ended.
        let mut passed = vec![0; self.items.len() + 1];
        for walk in 1..=self.files[0].n {
            let mut number = walk;
            while number != 0 && passed[number] == 0 {
                passed[number] = walk;
                number = parent(number);
            }
            refuse_if(number != 0 && passed[number] == walk, refusal::UNION_CYCLE, walk)?;
        }
        Ok(())
    }

    /// The normal form: 26, then 27.
    fn write(&self, out: &mut [u8]) -> Result<usize, Refusal> {
        let [first, second] = self.files;
        let mut order: Vec<u16> = (1..=self.items.len() as u16).collect();
        let item = |number: u16| &self.items[usize::from(number) - 1];
        order.sort_unstable_by_key(|&number| (item(number).iid, item(number).key));
        let mut rank = vec![0; order.len() + 1];
        for (i, &number) in order.iter().enumerate() {
            rank[usize::from(number)] = i as u16 + 1;
        }
        let of_second = self.second.iter().map(|&number| rank[usize::from(number)]).collect();
        rank.truncate(first.n + 1);
        let sources = [
            Source { lib: first, renumbered: rank },
            Source { lib: second, renumbered: of_second },
        ];
        write(&sources, &order.iter().map(|&number| *item(number)).collect::<Vec<_>>(), out)
    }
}
