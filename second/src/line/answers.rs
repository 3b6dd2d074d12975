//! What each command of `xpt` must answer, by this program's functions, and a question's words.

use super::iids;
use crate::library::{cases::shown, questions::Found, questions::Question, questions::Reply, OWN};
use crate::making::rng::Rng;
use crate::program::questions::{of, Constant, Lookup, Method, Slot};
use crate::program::{check::word, listing::list, refusal, salvage::salvage, Refusal, MAX_FILE};
use std::sync::Arc;

pub type Bytes = Arc<[u8]>;

pub type Words = Vec<Vec<u8>>;

/// A command's answer and what else comes of it.
#[derive(Default)]
pub struct Outcome {
    /// What stands on standard output before a newline. Nothing where any error will do. Lines
    /// of a listing, a table and a report have their newlines; in a batch they are tabs. A table may
    /// have no line.
    pub text: Option<Vec<u8>>,
    /// Whether one line that starts with `error ` will do: where it cannot be asked, and where the
    /// papers leave open whether it can.
    pub or_error: bool,
    /// The row of the table that it counts for.
    pub what: &'static str,
    /// With the file that it is about, counted from 1; 0 for a link's own.
    pub refusal: Option<(usize, Refusal)>,
    /// What the output holds from then on; nothing where it is left as it is.
    pub written: Option<Bytes>,
}

impl Outcome {
    pub fn line(what: &'static str, text: impl Into<Vec<u8>>) -> Outcome {
        Outcome { text: Some(text.into()), what, ..Outcome::default() }
    }

    /// An error whose words are known.
    pub fn mistake(what: &'static str, text: String) -> Outcome {
        Outcome::line(what, format!("error {text}"))
    }

    pub fn error(what: &'static str) -> Outcome {
        Outcome { or_error: true, what, ..Outcome::default() }
    }

    pub fn refused(what: &'static str, refusal: Refusal) -> Outcome {
        let line = Outcome::line(what, shown(Err(refusal)));
        Outcome { refusal: Some((1, refusal)), ..line }
    }

    /// The first line of what was printed, and the rest, if it is this answer.
    pub fn eat<'p>(&self, printed: &'p [u8], alone: bool) -> Option<(&'p [u8], &'p [u8])> {
        let is_error = self.or_error && printed.starts_with(b"error ");
        if alone && !is_error && self.text.as_ref().is_some_and(Vec::is_empty) {
            return Some((&[], printed));
        }
        let text = self.text.as_ref().filter(|_| !is_error).map(|text| match alone {
            true => text.strip_suffix(b"\n").unwrap_or(text).to_vec(),
            false => text.iter().map(|byte| if *byte == b'\n' { b'\t' } else { *byte }).collect(),
        });
        let end = match &text {
            Some(text) => printed.starts_with(text).then_some(text.len())?,
            None => is_error.then(|| printed.iter().position(|byte| *byte == b'\n'))??,
        };
        (printed.get(end) == Some(&b'\n')).then(|| (&printed[..end], &printed[end + 1..]))
    }
}

/// What the reason of a file's refusal must hold, and how it must end, where that is fixed: how many
/// bytes are missing or follow, and what the file is without these.
pub fn reason(file: &[u8], refusal: Refusal) -> [String; 2] {
    match refusal.number {
        refusal::CUT => [format!(" {} byte", word(file, 20) - file.len()), String::new()],
        refusal::PADDED => {
            let (own, more) = file.split_at(word(file, 20));
            let alone = match (OWN.check)(own) {
                Ok(_) => "the file is accepted".to_string(),
                Err(Refusal { number, place }) => format!("it is refused {number} at {place}"),
            };
            [format!(" {} byte", more.len()), format!("; without them {alone}")]
        }
        _ => [String::new(), String::new()],
    }
}

/// For an output that is there and is not to be written over.
pub fn there(name: &str) -> Outcome {
    let why = "is there already; with -f before the files it is written over";
    Outcome::mistake("there already", format!("{name} {why}"))
}

/// For an output that is never written over.
pub fn no_ordinary_file(name: &str) -> Outcome {
    Outcome::mistake("no ordinary file", format!("cannot write {name}: it is no ordinary file"))
}

pub fn input_in_batch() -> Outcome {
    let text = "- is standard input, which has the commands here";
    Outcome::mistake("standard input in a batch", text.to_string())
}

pub fn checked(file: &[u8]) -> Outcome {
    match (OWN.check)(file) {
        Ok(n) => Outcome::line("accepted", shown(Ok(n))),
        Err(refusal) => Outcome::refused("refused", refusal),
    }
}

pub fn listed(file: &[u8]) -> Outcome {
    if let Err(refusal) = (OWN.check)(file) {
        return Outcome::refused("refused", refusal);
    }
    let mut text = Vec::new();
    list(file, &mut text).expect("writing to memory");
    Outcome::line("accepted", text)
}

/// Writes a file's normal form.
pub fn normal(files: &[&[u8]]) -> Outcome {
    let mut room = vec![0; MAX_FILE];
    match (OWN.normalise)(files[0], &mut room) {
        Ok(length) => {
            let line = Outcome::line("written", format!("written {length}"));
            Outcome { written: Some(room[..length].into()), ..line }
        }
        Err(why) => not_written(why),
    }
}

/// Links two files, or more of them one by one.
pub fn linked(files: &[&[u8]]) -> Outcome {
    match (OWN.pile)(files) {
        Ok(linked) => {
            let line = Outcome::line("written", format!("written {}", linked.len()));
            Outcome { written: Some(linked.into()), ..line }
        }
        Err(((which, why), step)) => {
            let whats = ["refused 21 to 26", "first file refused", "second file refused"];
            let step_told = if files.len() > 2 { format!(" step {step}") } else { String::new() };
            let text = format!("refused {which} {} {}{step_told}", why.number, why.place);
            let line = Outcome::line(whats[usize::from(which)], text);
            // What was linked before is never refused.
            let about = [0, 1, step + 1][usize::from(which)];
            Outcome { refusal: Some((about, why)), ..line }
        }
    }
}

/// Adopts a file of libxpt: what is written, and what the check says of that.
pub fn adopted(files: &[&[u8]]) -> Outcome {
    let mut room = vec![0; MAX_FILE];
    match (OWN.adopt)(files[0], &mut room) {
        Ok(length) => {
            let told = (OWN.check)(&room[..length]);
            let what = if told.is_ok() { "written, accepted" } else { "written, refused" };
            let line = Outcome::line(what, format!("written {length} {}", shown(told)));
            Outcome { written: Some(room[..length].into()), ..line }
        }
        Err(why) => not_written(why),
    }
}

/// Salvages a file: what is written, and a line for each entry that was changed.
pub fn salvaged(files: &[&[u8]]) -> Outcome {
    let mut room = vec![0; MAX_FILE];
    match salvage(files[0], &mut room) {
        Ok((length, changes)) => {
            let mut text = format!("written {length} changed {}", changes.len());
            // With nothing changed it is one plain line, in a batch too.
            if !changes.is_empty() {
                text.push('\n');
            }
            for (index, Refusal { number, place }) in &changes {
                text += &format!("{index} {number} {place}\n");
            }
            let whats = ["nothing changed", "one changed", "two or more changed"];
            let line = Outcome::line(whats[changes.len().min(2)], text);
            Outcome { written: Some(room[..length].into()), ..line }
        }
        Err(why) => not_written(why),
    }
}

/// One file's refusal, where something was to be written.
fn not_written(why: Refusal) -> Outcome {
    let is_of_form = why.number == refusal::FORM_SIZE;
    Outcome::refused(if is_of_form { "refused 26" } else { "file refused" }, why)
}

/// What a question is answered by this command.
pub fn asked(command: &str, file: &[u8], question: &Question) -> Outcome {
    match (command, question) {
        ("table", Question::Key(space, name)) => tabled(file, space, name),
        ("looks", Question::Iid(iid)) => looked(file, iid),
        _ => told(OWN.ask(file, question)),
    }
}

fn tabled(file: &[u8], space: &[u8], name: &[u8]) -> Outcome {
    let (what, text) = match of(file, |lib| lib.table(space, name)) {
        Lookup::Found(lines) if !lines.starts_with(b"undetermined ") => ("complete", lines),
        Lookup::Found(lines) if lines.iter().filter(|byte| **byte == b'\n').count() > 1 => {
            ("incomplete", lines)
        }
        Lookup::Found(lines) => ("nothing known", lines),
        other => return told(other.map(|_| unreachable!("it is not found"))),
    };
    Outcome::line(what, text)
}

fn looked(file: &[u8], iid: &[u8]) -> Outcome {
    match (OWN.looks)(file, iid) {
        Ok((Some(i), looked)) => Outcome::line("found", format!("found {i} looked {looked}")),
        Ok((None, looked)) => Outcome::line("none", format!("none looked {looked}")),
        Err(why) => told(Lookup::Refused(why)),
    }
}

fn told(reply: Reply) -> Outcome {
    let (what, text) = match reply {
        Lookup::Found(Found::Interface(index)) => ("found", format!("found {index}")),
        Lookup::Found(Found::Method(Method { owner, position, slot, distance, total })) => {
            let (what, slot) = match slot {
                Slot::Known(slot) => ("found, slot known", slot.to_string()),
                Slot::Undetermined(index) => ("found, slot unknown", format!("? {index}")),
            };
            let total = total.map_or("?".to_string(), |total| total.to_string());
            let from = format!("distance {distance} total {total}");
            (what, format!("found {owner} {position} slot {slot} {from}"))
        }
        Lookup::Found(Found::Constant(value)) => {
            let what = match value {
                Constant::I16(_) => "found i16",
                Constant::I32(_) => "found i32",
                Constant::U16(_) => "found u16",
                Constant::U32(_) => "found u32",
            };
            (what, format!("{what} {}", value.value()))
        }
        Lookup::None => ("none", "none".to_string()),
        Lookup::Undetermined(index) => ("undetermined", format!("undetermined {index}")),
        Lookup::Refused(why) if why.number == refusal::QUESTION => {
            return Outcome::refused("malformed", why);
        }
        Lookup::Refused(why) => return Outcome::refused("file refused", why),
    };
    Outcome::line(what, text)
}

/// Hexadecimal digits of either case.
fn hex(bytes: &[u8], rng: &mut Rng) -> Vec<u8> {
    let text: String = bytes.iter().map(|byte| format!("{byte:02x}")).collect();
    let case = rng.below(3);
    let mut is_upper = || case == 1 || case == 2 && rng.percent(50);
    let digit = |digit: u8| if is_upper() { digit.to_ascii_uppercase() } else { digit };
    text.into_bytes().into_iter().map(digit).collect()
}

/// Decimal digits, now and then with zeros before them.
pub fn decimal(number: u64, rng: &mut Rng) -> Vec<u8> {
    let zeros = match rng.below(20) {
        0 => 1,
        1 => rng.below(30),
        _ => 0,
    };
    format!("{}{number}", "0".repeat(zeros)).into()
}

/// The command that asks.
pub fn command(question: &Question) -> &'static str {
    match question {
        Question::Iid(_) => "iid",
        Question::Key(..) => "key",
        Question::Method(..) => "method",
        Question::Slot(..) => "slot",
        Question::Constant(..) => "const",
    }
}

/// A question's words after the file's.
pub fn question_words(question: &Question, rng: &mut Rng) -> Words {
    match question {
        Question::Iid(iid) => vec![iids::spelled(hex(iid, rng), rng)],
        Question::Key(space, name) => {
            let space = if space.is_empty() { b"-" } else { &space[..] };
            vec![space.to_vec(), name.clone()]
        }
        Question::Method(index, name, kind) => {
            vec![decimal(*index, rng), name.clone(), kind.word().into()]
        }
        Question::Slot(index, slot) => vec![decimal(*index, rng), decimal(*slot, rng)],
        Question::Constant(index, name) => vec![decimal(*index, rng), name.clone()],
    }
}
