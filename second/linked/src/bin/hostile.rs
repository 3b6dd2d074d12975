//! Times this program and the linked library on files that are hard on them: the check of each,
//! its normal form and its link with itself. Both must answer alike, and accept the file. Bad files that
//! are hard to salvage are salvaged by both, alike, and by the library within seconds.
//! usage: hostile [LETTERS], which choose among the files

use linked::LIBRARY;
use second::in_parallel;
use second::library::{cases::shown, Program, OWN};
use second::making::hostile::{cases, damaged, Case};
use second::program::{Answer, MAX_FILE, MAX_INTERFACES};
use std::{process::ExitCode, time::Instant};

type Task = fn(&Program, &[u8], &mut [u8]) -> Answer;

const TASKS: [(&str, Task); 3] = [
    ("check", |program, file, _| (program.check)(file)),
    ("normal form", |program, file, out| (program.normalise)(file, out)),
    ("link", |program, file, out| (program.link)(file, file, out).map_err(|(_, why)| why)),
];

/// How long a program takes, the best of several runs where they are short, and what it answers.
fn timed(program: &Program, task: Task, file: &[u8]) -> (f64, Answer) {
    let mut out = vec![0; MAX_FILE];
    let (mut best, mut total, mut answer) = (f64::INFINITY, 0.0, Ok(0));
    while total < 0.1 {
        let start = Instant::now();
        answer = task(program, file, &mut out);
        let time = start.elapsed().as_secs_f64();
        (best, total) = (best.min(time), total + time);
    }
    (best, answer)
}

/// How long salvaging may take, in seconds.
const PATIENCE: f64 = 30.0;

/// Salvages a file: how long that takes, the answer, and what is in the lists and the buffer.
fn salvaged(program: &Program, file: &[u8]) -> (f64, impl PartialEq, usize) {
    let mut out = vec![0; MAX_FILE];
    let [mut a, mut b, mut c] = [0; 3].map(|_| vec![0; MAX_INTERFACES]);
    let start = Instant::now();
    let answer = (program.salvage)(file, [&mut a, &mut b, &mut c], &mut out);
    let changed = answer.map_or(0, |(_, changed)| changed);
    (start.elapsed().as_secs_f64(), (answer, out, [a, b, c]), changed)
}

/// A bad file, salvaged by both.
fn salvage(case: Case) -> (bool, String) {
    let [this, linked] = [OWN, LIBRARY].map(|program| salvaged(&program, &case.bytes));
    let mut text = format!("{} ({} bytes)\n", case.name, case.bytes.len());
    for (who, (time, _, changed)) in [("this", &this), ("linked", &linked)] {
        text +=
            &format!("  {:<12} {who:<8}{:>10.2} ms  {changed} changed\n", "salvage", time * 1e3);
    }
    let good = this.1 == linked.1 && linked.2 == case.n && linked.0 < PATIENCE;
    (good, text + if good { "" } else { "  WRONG\n" })
}

fn main() -> ExitCode {
    let letters = std::env::args().nth(1).unwrap_or_default();
    let is_chosen = |case: &Case| letters.is_empty() || letters.contains(&case.name[..1]);
    let (mut cases, mut damaged) = (cases(), damaged());
    cases.retain(is_chosen);
    damaged.retain(is_chosen);
    let calls = cases.iter().flat_map(|case| TASKS.map(|(what, task)| (case, what, task)));
    let done = in_parallel(calls.collect(), |(case, what, task)| {
        let [this, linked] = [OWN, LIBRARY].map(|program| timed(&program, task, &case.bytes));
        let mut text = match what {
            "check" => format!("{} ({} bytes)\n", case.name, case.bytes.len()),
            _ => String::new(),
        };
        for (who, (best, answer)) in [("this", this), ("linked", linked)] {
            let answer = match answer {
                Ok(length) if what != "check" => format!("{length} bytes"),
                answer => shown(answer),
            };
            text += &format!("  {what:<12} {who:<8}{:>10.2} ms  {answer}\n", best * 1e3);
        }
        let good = this.1 == linked.1 && (what != "check" || this.1 == Ok(case.n));
        (good, text + if good { "" } else { "  WRONG\n" })
    });
    let done = [done, in_parallel(damaged, salvage)].concat();
    done.iter().for_each(|(_, text)| print!("{text}"));
    match done.iter().all(|(good, _)| *good) {
        true => ExitCode::SUCCESS,
        false => ExitCode::FAILURE,
    }
}
