//! A second, independent program for documents 01 and 02, and what compares it with the proved one.
//!
//! - `program`: the program itself, from the documents and the readings alone;
//! - `making`: generating and damaging typelibs;
//! - `library`: comparing through the static library (the calls themselves: `linked/`);
//! - `line`: comparing through the command line, `xpt` and the listing program;
//! - `tally`: the counts, and `floors.txt`, the one table of what must come at least.
//!
//! Where to add
//!
//! - a limit, a tag, a flag or a refusal's number: `program/format.rs`, then its rule in the
//!   module of `program` that meets it;
//! - a generator: a function in `making/generate.rs` (good files) or `making/pairs.rs` (files to be
//!   linked), and a line in `damage::everything` or `links::run`;
//! - a fault with a known refusal: `making/faults.rs`, in its field's row; damage of another kind:
//!   a function in `making/damage.rs` and a line in `damage::everything`;
//! - a floor: a row of `floors.txt`; what counts for it is the row's name in `Tally::add`;
//! - a call of the library: a field of `library::Program`, its `extern` in
//!   `linked/src/saniotka/lists.rs` and its enums beside that, a kind of `Asked` in
//!   `library/cases.rs`, its numbers in `library/lists.rs`, and a driver beside
//!   `library/questions.rs`;
//! - for types.rdb: a rule in `program/rdb`, a field or a record in `making/rdb.rs` with its faults in
//!   `making/rdb_damage.rs`, a file that is hard on a check in `making/rdb_hostile.rs`, an ordinary one for
//!   the benchmark in `making/rdb_ordinary.rs`, a call in `library::rdb::Program` and
//!   `linked/src/saniotka`, a command in `line/rdb.rs`;
//! - a command of `xpt`: its answer in `line/answers.rs`, its words in `line/malformed.rs`, a method
//!   of `Script`, and a story.

pub mod library;
pub mod line;
pub mod making;
pub mod program;
pub mod tally;

use std::{collections::BTreeMap, process::ExitCode, sync::Mutex, thread::Builder};

/// Tells how a comparison ended.
pub fn ended(good: std::io::Result<bool>) -> ExitCode {
    match good {
        Ok(true) => println!("no difference"),
        Ok(false) => println!("too little was covered, or a difference was found"),
        Err(ref error) => eprintln!("{error}"),
    }
    ExitCode::from(u8::from(!matches!(good, Ok(true))))
}

/// Gives each item to `task` on one of as many threads as there are cores; results in order.
pub fn in_parallel<T: Send, R: Send>(items: Vec<T>, task: impl Fn(T) -> R + Sync) -> Vec<R> {
    let cores = std::thread::available_parallelism().map_or(1, |cores| cores.get());
    let waiting = Mutex::new(items.into_iter().enumerate());
    let next = || waiting.lock().unwrap().next();
    let work = || std::iter::from_fn(next).map(|(i, item)| (i, task(item))).collect::<Vec<_>>();
    std::thread::scope(|scope| {
        // As much stack as a program's first thread has: a call about a types.rdb may need two of these MiB.
        let worker = || Builder::new().stack_size(8 << 20).spawn_scoped(scope, work);
        let workers: Vec<_> = (0..cores).map(|_| worker().expect("a thread")).collect();
        let done = workers.into_iter().flat_map(|worker| worker.join().expect("it ends well"));
        let in_order: BTreeMap<usize, R> = done.collect();
        in_order.into_values().collect()
    })
}
