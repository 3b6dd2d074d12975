//! Checks of every generated file, good and damaged.

use super::{cases::shown, cases::Asked, Session};
use crate::making::{damage::everything, damage::Made, model, shape};
use crate::program::{check::check, Answer, Refusal};
use crate::tally::{hash, Came, Tally, REFUSAL, REFUSED};
use std::collections::{HashMap, HashSet};

/// How many places of a refusal one good file may give, whatever is changed in it.
pub const SHARE: usize = 25;

/// What each good file, and all that was made from it, has given to the rows of refusals and
/// shapes.
#[derive(Default)]
pub struct Shares {
    /// Places by refusal and file.
    places: HashMap<(u32, u64), HashSet<usize>>,
    /// Files that have shown their shape.
    shown: HashSet<u64>,
}

/// Counts a file. Only files whose answer is known from how they were made count for the rows of
/// refusals and shapes, and of those made from one file one for its shapes.
pub fn count(tally: &mut Tally, shares: &mut Shares, made: &Made, answer: Answer) {
    tally.add("all", "checks");
    tally.add("made", made.how);
    match answer {
        Ok(n) => tally.add_at("answer", "accepted", n as u64),
        Err(why) => tally.add_at("answer", REFUSED[why.number as usize], why.place as u64),
    }
    if made.known.is_none() {
        return;
    }
    let came = Came { place: None, file: Some(made.base), way: Some(made.how) };
    tally.came("all", "files made on purpose", came);
    match answer {
        Err(Refusal { number, place }) => {
            let places = shares.places.entry((number, made.base)).or_default();
            let counts = places.contains(&place) || places.len() < SHARE && places.insert(place);
            let place = counts.then_some(place as u64);
            tally.came(REFUSAL[number as usize], "", Came { place, ..came });
        }
        Ok(n) if shares.shown.insert(made.base) => {
            let came = Came { file: Some(hash(&[made.bytes])), ..came };
            tally.came("accepted", "", Came { place: Some(n as u64), ..came });
            let lib = model::read(made.bytes);
            for shape in shape::shapes(made.bytes, &lib) {
                tally.came("shape", shape, came);
            }
            shape::values(&lib, |field, value| tally.add_at("values", field, value));
        }
        Ok(_) => {}
    }
}

/// Runs over every generated file.
pub fn run(session: &mut Session) {
    let mut shares = Shares::default();
    everything(session.seed, &mut |made: &Made| {
        let own = check(made.bytes);
        let lent = made.bytes.to_vec();
        let as_other = (session.other.check)(&lent) == own && lent == made.bytes;
        if let Some(known) = made.known.filter(|known| *known != own) {
            println!("from making the file: {}", shown(known));
        } else if as_other {
            return count(&mut session.tally, &mut shares, made, own);
        }
        session.found(made.how, Asked::Check, &[made.bytes]);
    });
}
