//! Piles of files, linked one by one in all orders and with repeats: all of them reach an end, with the
//! same bytes, or none; and what a file answers is answered by what they link to, in terms of keys.

use super::links::{together, File, Run};
use super::questions::{question, Found, Question, Reply};
use super::{cases::Asked, Piled, Session, OWN};
use crate::making::{builder::Typelib, pairs, rng::Rng};
use crate::program::questions::{Lookup, Slot};
use crate::program::{accepted::Accepted, check::accept, MAX_FILE};
use crate::tally::{numbered, Came};
use std::collections::HashSet;

/// What an order of a pile reached, if it did.
type End = Option<Vec<u8>>;

const PILE: &[&str] = numbered!("", " in a pile");
pub const STEP: &[&str] = numbered!("step ", "");

/// Links files one by one, in buffers of the greatest length; a file alone with an empty one.
pub fn piled(files: &[&[u8]]) -> Piled {
    let (first, others) = files.split_first().expect("a file or more");
    let empty = pairs::empty(&mut Rng::new(0)).bytes();
    let alone = [&empty[..]];
    let others = if others.is_empty() { &alone[..] } else { others };
    let mut linked = first.to_vec();
    for (step, next) in (1..).zip(others) {
        let mut out = vec![0; MAX_FILE];
        let length = (OWN.link)(&linked, next, &mut out).map_err(|why| (why, step))?;
        out.truncate(length);
        linked = out;
    }
    Ok(linked)
}

impl Run<'_> {
    /// One link of a pile, the so manieth.
    fn step(&mut self, step: usize, files: [&File; 2], room: usize) -> End {
        let linked = self.call(&files, room);
        if let Err((_, why)) = &linked {
            self.session.tally.add_at("pile refused", STEP[step], why.number.into());
        }
        linked.ok()
    }

    /// The ends of all orders of what is left, after what is linked so far.
    fn orders(&mut self, so_far: &File, left: &[&File], all: usize, room: usize) -> HashSet<End> {
        let mut ends = HashSet::new();
        if left.is_empty() {
            self.add("order", PILE[all]);
            ends.insert(Some(so_far.bytes.clone()));
        }
        for i in 0..left.len() {
            let mut rest = left.to_vec();
            let next = rest.remove(i);
            match self.step(all - left.len(), [so_far, next], room) {
                Some(linked) => ends.extend(self.orders(&File::new(linked), &rest, all, room)),
                None => _ = ends.insert(None),
            }
        }
        ends
    }

    /// These files in this order.
    fn one_by_one(&mut self, files: &[&File], room: usize) -> End {
        let mut so_far = File::new(files[0].bytes.clone());
        for (step, next) in (1..).zip(&files[1..]) {
            so_far = File::new(self.step(step, [&so_far, next], room)?);
        }
        Some(so_far.bytes)
    }

    /// A pile in all orders, a file alone with an empty one; then with repeats.
    fn pile(&mut self, made: &'static str, files: &[&File], room: usize) {
        let (all, came) = (files.len(), Came { way: Some(made), ..together(files) });
        let empty = File::new(pairs::empty(&mut self.rng).bytes());
        let mut ends = HashSet::new();
        match files {
            [alone] => _ = ends.insert(self.one_by_one(&[alone, &empty], room)),
            _ => {
                for i in 0..all {
                    let mut rest = files.to_vec();
                    let first = rest.remove(i);
                    ends.extend(self.orders(first, &rest, all, room));
                }
            }
        }
        let same = ends.len() == 1;
        let end = ends.into_iter().next().flatten();
        self.law("orders", same, "all orders", files, came);
        self.came(if end.is_some() { "reached" } else { "not reached" }, PILE[all], came);
        for _ in 0..3 {
            let more = (0..self.rng.range(1, 4)).map(|_| *self.rng.pick(files));
            let mut again = [files, &more.collect::<Vec<_>>()].concat();
            self.rng.shuffle(&mut again);
            let same = self.one_by_one(&again, room) == end;
            self.law("repeats", same, "repeats", files, came);
        }
        let bytes: Vec<&[u8]> = files.iter().map(|file| &file.bytes[..]).collect();
        let same = (self.session.other.pile)(&bytes) == (OWN.pile)(&bytes);
        self.law("piles", same, "as a pile", files, came);
        if let Some(end) = end.map(File::new) {
            files.iter().for_each(|file| self.carried(file, &end));
        }
    }

    /// That what a file answers stands in what it was linked to.
    fn carried(&mut self, file: &File, linked: &File) {
        let (Ok(own), Ok(then), Ok(model)) =
            (accept(&file.bytes), accept(&linked.bytes), &file.model)
        else {
            return;
        };
        for turn in 0..10 {
            let (_, asked) = question(model, &mut self.rng, turn);
            let Some(later) = renumbered(&asked, &own, &then) else { continue };
            let before = OWN.ask(&file.bytes, &asked);
            let after = self.session.other.ask(&linked.bytes, &later);
            let Some(what) = stays((&own, before), (&then, after)) else {
                println!("an answer was not carried over: {asked:?} was {before:?}");
                self.session.found("carried", Asked::Question(later), &[&linked.bytes]);
            };
            self.came("carried", what, together(&[file, linked]));
        }
    }
}

/// The question about the interface of the same key; nothing where its index is none.
fn renumbered(question: &Question, own: &Accepted, then: &Accepted) -> Option<Question> {
    let index = |index: u64| {
        let index = usize::try_from(index).ok().filter(|index| (1..=own.n).contains(index))?;
        let (space, name) = own.key(index);
        match then.interface_by_key(space, name) {
            Lookup::Found(index) => Some(index as u64),
            // A key that was lost is asked for as no interface, which tells of it.
            _ => Some(0),
        }
    };
    Some(match question.clone() {
        Question::Method(of, name, kind) => Question::Method(index(of)?, name, kind),
        Question::Slot(of, slot) => Question::Slot(index(of)?, slot),
        Question::Constant(of, name) => Question::Constant(index(of)?, name),
        question => question,
    })
}

/// What stays of an answer, in terms of keys, if that is so.
fn stays(before: (&Accepted, Reply), after: (&Accepted, Reply)) -> Option<&'static str> {
    let same_key = |a: usize, b: usize| before.0.key(a) == after.0.key(b);
    let (what, is_so) = match (before.1, after.1) {
        (Lookup::Refused(_), Lookup::Refused(_)) => ("malformed", true),
        (Lookup::Undetermined(_), Lookup::Found(_)) => ("undetermined, then found", true),
        (Lookup::Undetermined(_), Lookup::None) => ("undetermined, then none", true),
        (Lookup::Undetermined(_), Lookup::Undetermined(_)) => ("still undetermined", true),
        (Lookup::None, Lookup::None) => ("none", true),
        // No such interface.
        (Lookup::None, Lookup::Found(Found::Interface(_))) => ("an interface more", true),
        (Lookup::Found(before), Lookup::Found(after)) => match (before, after) {
            (Found::Interface(a), Found::Interface(b)) => ("interface", same_key(a, b)),
            (Found::Constant(a), Found::Constant(b)) => ("constant", a == b),
            (Found::Method(a), Found::Method(b)) => {
                let is_known = matches!(a.slot, Slot::Known(_));
                let place = same_key(a.owner, b.owner)
                    && (a.position, a.distance) == (b.position, b.distance);
                let slot = !is_known || (a.slot, a.total) == (b.slot, b.total);
                let whats = ["method, slot unknown", "method, slot known"];
                (whats[usize::from(is_known)], place && slot)
            }
            _ => return None,
        },
        _ => return None,
    };
    is_so.then_some(what)
}

/// Files of one world, so many; at times some that do not go with them.
pub fn pile_of(rng: &mut Rng, count: usize) -> (&'static str, Vec<Typelib>) {
    let world = pairs::world(rng);
    let mut libs: Vec<_> = (0..count).map(|_| pairs::view(&world, rng)).collect();
    let made = match rng.below(5) {
        0 if count > 1 => {
            let mut other = libs[1].clone();
            let made = pairs::conflict(&libs[0], &mut other, rng);
            libs[1] = other;
            if made.is_some() {
                "a conflict"
            } else {
                "one world"
            }
        }
        1 if count > 1 => {
            let [a, b] = pairs::endless(rng);
            (libs[0], libs[1]) = (a, b);
            "an endless chain"
        }
        _ => "one world",
    };
    rng.shuffle(&mut libs);
    (made, libs)
}

/// Piles of one to six files; then those about the greatest sizes.
pub fn run(session: &mut Session) {
    let rng = &mut Rng::new(session.seed);
    let run = &mut Run::new(session, rng);
    for (count, rounds) in [(1, 150), (2, 150), (3, 150), (4, 60), (5, 40), (6, 12)] {
        for round in 0..rounds {
            let (made, libs) = pile_of(rng, count);
            let files: Vec<File> = libs.iter().map(|lib| File::new(lib.bytes())).collect();
            let room = if round % 10 == 0 { MAX_FILE } else { 131_072 };
            run.pile(made, &files.iter().collect::<Vec<_>>(), room);
        }
    }
    for (made, libs) in pairs::edge_triples() {
        let files = libs.map(|lib| File::new(lib.bytes()));
        run.pile(made, &files.each_ref(), MAX_FILE);
    }
}
