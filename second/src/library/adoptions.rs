//! Files in libxpt's layout, adopted: answers, every byte of the buffers, and that what is adopted
//! answers as its twin in the published layout does.

use super::cases::{noise, Asked};
use super::links::{lent, short, wide, GUARD, ROOMS};
use super::{questions::question, Session, OWN};
use crate::making::{genuine::everything, genuine::Genuine, model, rng::Rng};
use crate::program::{check::check, refusal, Refusal, MAX_FILE};
use crate::tally::{hash, Came, REFUSAL};

/// Has both programs adopt a file and compares answers and buffers, byte by byte, guards and file
/// included.
fn call(session: &mut Session, made: &Genuine, room: usize) -> Result<Vec<u8>, Refusal> {
    let (before, file) = (noise(room), &made.bytes);
    let lent_file = file.clone();
    let (own, mut out) = lent(&before, room, |out| (OWN.adopt)(file, out));
    let (other, then) = lent(&before, room, |out| (session.other.adopt)(&lent_file, out));
    if other != own || then != out || lent_file != *file {
        session.found(made.how, Asked::Adopt(room), &[file]);
    }
    session.tally.add("all", "adoptions");
    let came = Came { file: Some(hash(&[file])), way: Some(made.how), ..Came::default() };
    match own {
        Ok(length) => {
            session.tally.came("adopted", made.how, Came { place: Some(length as u64), ..came });
            out.truncate(GUARD + length);
            Ok(out.split_off(GUARD))
        }
        Err(why) => {
            let came = Came { place: Some(why.place as u64), ..came };
            session.tally.came(REFUSAL[why.number as usize], "", came);
            Err(why)
        }
    }
}

/// A file with buffers that are too short and that are not; those of few bytes with every buffer, now
/// and then.
fn file(session: &mut Session, rng: &mut Rng, made: &Genuine) {
    let needed = match (OWN.adopt)(&made.bytes, &mut []) {
        Err(Refusal { number: refusal::BUFFER, place }) => place,
        _ => made.bytes.len().max(1),
    };
    let is_long = made.bytes.len() > 100_000;
    let rooms = if is_long { ROOMS.to_vec() } else { vec![short(rng), wide(rng)] };
    for (what, room) in rooms {
        let room = room(needed, rng);
        let told = call(session, made, room);
        let outcome = if told.is_ok() { "written" } else { "not written" };
        session.tally.add(outcome, what);
        told.into_iter().for_each(|bytes| as_twin(session, rng, made, &bytes));
    }
    if needed < 400 && rng.percent(5) {
        for room in 0..needed + 4 {
            let _ = call(session, made, room);
        }
        session.tally.add("all", "files with every buffer");
    }
}

/// That what was adopted is the twin, and is answered as it is.
fn as_twin(session: &mut Session, rng: &mut Rng, made: &Genuine, adopted: &[u8]) {
    let told = check(adopted);
    let what = if told.is_ok() { "accepted" } else { "refused" };
    let place = told.map_or_else(|why| why.number.into(), |n| n as u64);
    session.tally.add_at("checked", what, place);
    let Some(twin) = &made.twin else { return };
    if twin != adopted {
        println!("what is adopted is not the twin");
        session.found(made.how, Asked::Adopt(MAX_FILE), &[&made.bytes]);
    }
    session.tally.add("twin", made.how);
    if (session.other.check)(adopted) != told {
        session.found("adopted", Asked::Check, &[adopted]);
    }
    if told.is_ok() {
        let lib = model::read(adopted);
        for turn in 0..5 {
            let (_, question) = question(&lib, rng, turn);
            if session.other.ask(adopted, &question) != OWN.ask(twin, &question) {
                session.found("adopted", Asked::Question(question), &[adopted]);
            }
            session.tally.add("all", "questions of what is adopted");
        }
    }
}

pub fn run(session: &mut Session) {
    let rng = &mut Rng::new(session.seed);
    everything(session.seed, &mut |made| file(session, rng, &made));
}
