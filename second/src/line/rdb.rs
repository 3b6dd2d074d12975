//! The commands on types.rdb: what they must answer, and stories of them.

use super::answers::{decimal, Bytes, Outcome, Words};
use super::malformed::{not_decimal, too_large};
use super::script::{Count, Name, Script, INPUT, SUBFOLDER};
use crate::library::{cases::shown, rdb::paths};
use crate::making::{rdb::Writer, rdb_damage::everything, rng::Rng};
use crate::program::rdb::questions::Constant;
use crate::program::rdb::{accept, Accepted, Reading, Which};
use std::{collections::BTreeMap, io, path::Path};

/// What is asked of a file, paths as their bytes.
#[derive(Clone, Debug)]
pub enum Question {
    Check,
    List,
    Entity(Vec<u8>),
    Const(Vec<u8>),
    Part(Vec<u8>, Which, u64, u64),
}

impl Question {
    fn command(&self) -> &'static str {
        match self {
            Question::Check => "check",
            Question::List => "list",
            Question::Entity(_) => "entity",
            Question::Const(_) => "const",
            Question::Part(..) => "part",
        }
    }

    /// The command's word, and the words after the file's.
    pub fn words(&self, rng: &mut Rng) -> (&'static str, Words) {
        let words = match self {
            Question::Check | Question::List => Vec::new(),
            Question::Entity(path) | Question::Const(path) => vec![path.clone()],
            Question::Part(path, which, i, j) => {
                let positions = [i, j].into_iter().take(which.indexes());
                let start = [path.clone(), which.word().into()].into_iter();
                start.chain(positions.map(|i| decimal(*i, rng))).collect()
            }
        };
        (self.command(), words)
    }

    /// A question from its words.
    pub fn parse(words: &[&str]) -> Option<Question> {
        Some(match *words {
            ["check"] => Question::Check,
            ["list"] => Question::List,
            ["entity", path] => Question::Entity(path.into()),
            ["const", path] => Question::Const(path.into()),
            ["part", path, which, i, ref more @ ..] => {
                let which = *Which::ALL.iter().find(|w| w.word() == which)?;
                let j = more.first().map_or(Ok(0), |j| j.parse()).ok()?;
                Question::Part(path.into(), which, i.parse().ok()?, j)
            }
            _ => return None,
        })
    }

    /// What it counts as.
    pub fn row(&self) -> &'static str {
        match self {
            Question::Part(_, which, ..) => which.word(),
            other => other.command(),
        }
    }

    /// What a long answer counts as; listings also by what they have so many lines of.
    pub fn sizes(&self, outcome: &Outcome) -> Vec<Count> {
        let (Question::List | Question::Part(..), None) = (self, outcome.refusal) else {
            return Vec::new();
        };
        let text = outcome.text.as_deref().unwrap_or_default();
        let mut rows = vec![
            ("over 64 KiB", text.len() > 1 << 16, None),
            ("over 128 KiB", text.len() > 1 << 17, None),
        ];
        if let Question::List = self {
            let lines = || text.split(|byte| *byte == b'\n').filter(|line| !line.is_empty());
            let longest = lines().map(<[u8]>::len).max().unwrap_or(0);
            rows.push(("over 512 KiB", text.len() > 1 << 19, None));
            rows.push(("a line over 64 KiB", longest > 1 << 16, None));
            rows.push(("of no line", text.is_empty(), None));
            for (what, of) in [("with entities", b'E'), ("with constants", b'C')] {
                let count = lines().filter(|line| line[0] == of).count();
                rows.push((what, count > 0, Some(count as u64)));
            }
        }
        let counted = rows.into_iter().filter(|(_, is, _)| *is);
        counted.map(|(what, _, place)| (self.command(), what, place)).collect()
    }
}

/// What a question is answered.
pub fn answered(file: &[u8], reading: Reading, question: &Question) -> Outcome {
    let lib = match accept(file, reading) {
        Ok(lib) => lib,
        Err(why) => return Outcome::refused("refused", why),
    };
    let told = |what: &'static str, text: Option<String>| match text {
        Some(text) => Outcome::line(what, format!("found {text}")),
        None => Outcome::line("none", "none"),
    };
    match question {
        Question::Check => Outcome::line("accepted", shown(Ok(lib.visited))),
        Question::List => {
            let mut text = Vec::new();
            lib.list(&mut text).expect("writing to memory");
            Outcome::line("accepted", text)
        }
        Question::Entity(path) => {
            told("found", lib.entity(path).map(|(kind, at)| format!("{kind} {at}")))
        }
        Question::Const(path) => {
            let constant = lib.constant(path);
            let text = constant.map(|of| format!("{} {}", of.word(), of.value()));
            told(constant.map_or("none", Constant::word), text)
        }
        Question::Part(path, which, i, j) => {
            told("found", lib.part(path, *which, *i, *j).map(|part| lib.shown(part)))
        }
    }
}

/// A position, or one behind it: the next, or with the same bits at its end.
fn position(rng: &mut Rng, i: usize) -> u64 {
    match rng.below(16) {
        0 | 1 => i as u64 + 1,
        2 => i as u64 | 1 << 32,
        3 => i as u64 | *rng.pick(&[1 << 8, 1 << 16, 1 << 31, 1 << 63]),
        4 => *rng.pick(&[u64::MAX, u64::MAX - 1, 1 << 20]),
        _ => i as u64,
    }
}

/// Parts that are there and others, so many, and all that are long; and some constants.
fn parts(lib: &Accepted, rng: &mut Rng, count: usize) -> Vec<Question> {
    let paths = lib.paths(300);
    let constants = paths.iter().filter(|path| lib.constant(path).is_some()).cloned();
    let mut some: Vec<_> = constants.take(count / 3).map(Question::Const).collect();
    let mut all = vec![Vec::new(); Which::ALL.len()];
    for path in &paths {
        let mut is_empty = true;
        lib.each_part(path, &mut |which, i, j, part| {
            is_empty = false;
            all[which as usize].push((path, which, i, j));
            if part.length() > 10_000 {
                some.push(Question::Part(path.clone(), which, i as u64, j as u64));
            }
        });
        if is_empty {
            all[Which::Note as usize].push((path, Which::Note, 0, 0));
        }
    }
    all.retain(|parts| !parts.is_empty());
    for _ in 0..if all.is_empty() { 0 } else { count } {
        let of = rng.pick(&all);
        let &(path, which, i, j) = rng.pick(of);
        let which = if rng.percent(15) { *rng.pick(Which::ALL) } else { which };
        let path = if rng.percent(5) { rng.pick(&paths) } else { path };
        let j = if which.indexes() == 2 { position(rng, j) } else { 0 };
        some.push(Question::Part(path.clone(), which, position(rng, i), j));
    }
    some
}

/// Questions of a file by one reading, and its check and its listing by both.
fn story(script: &mut Script, file: &Name, reading: Reading, count: usize) {
    let Some(bytes) = script.content(file).cloned() else { return };
    script.story();
    for reading in Reading::BOTH {
        script.rdb(file, reading, &Question::Check);
        script.rdb(file, reading, &Question::List);
    }
    let lib = accept(&bytes, reading);
    let count = if lib.is_ok() { count } else { 1 };
    for path in paths(&bytes, reading, &mut script.rng, count) {
        script.rdb(file, reading, &Question::Entity(path.clone()));
        script.rdb(file, reading, &Question::Const(path.clone()));
        if lib.is_err() {
            let which = *script.rng.pick(Which::ALL);
            script.rdb(file, reading, &Question::Part(path, which, 0, 0));
        }
    }
    let parts = lib.map_or_else(|_| Vec::new(), |lib| parts(&lib, &mut script.rng, 3 * count));
    parts.iter().for_each(|question| script.rdb(file, reading, question));
}

/// Lines that can be asked; `F` stands for the file.
const GOOD: [&str; 6] = [
    "check F",
    "list F",
    "entity F a",
    "const F a.b",
    "part F a entry 0",
    "part F a parameter 0 0",
];

/// The kinds of lines that can't, made from a good one, and how.
type Line = fn(&mut Rng, &str) -> String;
const MISTAKES: [(&str, Line); 11] = [
    ("no question", |_, _| String::new()),
    ("unknown question", |rng, some| {
        let (_, rest) = some.split_once(' ').unwrap_or_default();
        format!("{} {rest}", rng.pick(&["chekc", "List", "lists", "parts", "slot", "0", "F"]))
    }),
    ("too few words", |rng, some| {
        let words: Vec<&str> = some.split(' ').collect();
        words[..rng.range(1, words.len() - 1)].join(" ")
    }),
    ("too many words", |rng, some| format!("{some} {}", rng.pick(&["more", "0", "-", "F"]))),
    ("unknown part", |rng, _| {
        const WORDS: [&str; 9] =
            ["Entry", "entrys", "entr", "ENTRY", "0", "-", "methods", "note-note", "base_note"];
        format!("part F a {} 0{}", rng.pick(&WORDS), rng.pick(&["", " 0"]))
    }),
    ("a position too few", |rng, _| format!("part F a {} 0", of_positions(rng, 2))),
    ("a position too many", |rng, _| format!("part F a {} 0 0", of_positions(rng, 1))),
    ("position not decimal", |rng, _| with_position(rng, not_decimal)),
    ("position over 64 bits", |rng, _| with_position(rng, too_large)),
    ("an empty word", |rng, _| {
        let lines =
            ["part F a  0", "part F a entry ", "part F a base-note  0", "part F a base-note 0 "];
        rng.pick(&lines).to_string()
    }),
    ("file absent or a folder", |rng, some| {
        some.replacen('F', if rng.percent(50) { "absent" } else { SUBFOLDER }, 1)
    }),
];

/// A part that is asked by so many positions.
fn of_positions(rng: &mut Rng, count: usize) -> &'static str {
    let all: Vec<_> = Which::ALL.iter().filter(|which| which.indexes() == count).collect();
    rng.pick(&all).word()
}

/// A part with one of its positions so.
fn with_position(rng: &mut Rng, position: fn(&mut Rng) -> String) -> String {
    let position = position(rng);
    match rng.below(3) {
        0 => format!("part F a {} {position}", of_positions(rng, 1)),
        1 => format!("part F a {} {position} 0", of_positions(rng, 2)),
        _ => format!("part F a {} 0 {position}", of_positions(rng, 2)),
    }
}

/// A line of each kind that can't be asked, of a good file or a refused one.
fn mistakes(script: &mut Script, file: &Name) {
    for (kind, line) in MISTAKES {
        let (some, reading) = (*script.rng.pick(&GOOD), *script.rng.pick(&["rdb", "office"]));
        let line = line(&mut script.rng, some);
        let word = |word: &str| if word == "F" { file.word.clone() } else { word.to_string() };
        let words = line.split(' ').filter(|_| kind != "no question").map(word);
        let words = [reading.to_string()].into_iter().chain(words).map(String::into_bytes);
        script.story();
        script.error(words.collect(), kind, None);
    }
}

/// Up to so many refused files of each kind and more good ones, few of them long; and some with long names and texts.
fn sampled(seed: u64, most: usize) -> Vec<(Reading, Bytes)> {
    let rng = &mut Rng::new(seed);
    let mut kinds: BTreeMap<(&str, bool), usize> = BTreeMap::new();
    let mut kept = Vec::new();
    everything(seed, 60, &mut |made| {
        let is_long = made.bytes.len() > 100_000;
        let count = kinds.entry((made.how, is_long)).or_default();
        let most = match made.known {
            _ if is_long => 2,
            Some(Ok(_)) => 6 * most,
            _ => most,
        };
        if *count < most && (is_long || rng.percent(30)) {
            *count += 1;
            kept.push((made.reading, made.bytes.into()));
        }
    });
    for reading in Reading::BOTH.repeat(most.clamp(3, 8)) {
        kept.push((reading, Writer::new(rng, reading, false).long().built(12).bytes.into()));
    }
    rng.shuffle(&mut kept);
    kept
}

/// Compares the commands, in batches and alone. Whether all is well.
pub fn run(program: &Path, seed: u64, rounds: u64) -> io::Result<bool> {
    let mut good = true;
    for seed in (0..rounds).map(|round| seed.wrapping_add(round)) {
        for (name, scripts, most) in [("rdb-batches", 8, 25), ("rdb-alone", 4, 1)] {
            let files = sampled(seed, most);
            let fill = |script: &mut Script, k: usize| {
                for (i, (reading, bytes)) in files.iter().enumerate().skip(k).step_by(scripts) {
                    let mut file = script.place(bytes.clone());
                    if i % 20 == 0 {
                        file.word = INPUT.to_string();
                    }
                    story(script, &file, *reading, if script.alone { 5 } else { 25 });
                    if i % 6 == 0 {
                        mistakes(script, &file);
                    }
                }
            };
            good &= super::scripts(program, &fill, (name, scripts, 0), seed)?.is_enough();
        }
    }
    Ok(good)
}
