//! Comparing through the command line: what `xpt` and the listing program take as words and input,
//! answer, write and tell on standard error.

pub mod answers;
pub mod compare;
mod iids;
pub mod listing;
mod malformed;
pub mod process;
pub mod rdb;
mod script;
mod stories;
mod supply;

use crate::in_parallel;
use crate::making::{generate, rng::Rng};
use crate::tally::Tally;
use answers::Bytes;
use script::Script;
use std::path::{Path, PathBuf};
use std::{env, fs, io, time::Instant};
use supply::{of_each, part, Supply};

/// Scripts that are run as batches, and scripts of two kinds whose commands run alone.
const BATCHES: usize = 20;
const ALONE: usize = 4;

/// A new folder: where it may be in memory where there is such a place, as outputs may be synced to
/// the device.
fn folder(name: &str, may_be_in_memory: bool) -> io::Result<PathBuf> {
    let quick = Path::new("/dev/shm").join(name);
    if may_be_in_memory && env::var_os("TMPDIR").is_none() && fs::create_dir(&quick).is_ok() {
        return Ok(quick);
    }
    let folder = env::temp_dir().join(name);
    fs::create_dir(&folder).map(|()| folder)
}

/// The k-th of all batches: all commands mixed.
fn batch(s: &mut Script, supply: &Supply, k: usize) {
    let one = stories::placed(s);
    for (_, bytes) in part(&supply.checked, k, BATCHES) {
        stories::checked(s, bytes, &one);
    }
    (0..60).for_each(|_| stories::asked(s, 36));
    for _ in 0..8 {
        stories::tabled(s);
        stories::looked(s);
        stories::piled(s);
        let (wrecked, good) = (generate::wrecked(&mut s.rng), stories::good(&mut s.rng));
        stories::salvaged(s, wrecked);
        stories::salvaged(s, good);
        stories::linked(s);
        stories::normalised(s);
    }
    let bad = supply.refused(k);
    for i in 0..4 {
        stories::rewritten(s, bad[i % bad.len()]);
        stories::piled_with(s, bad[(5 * i + k) % bad.len()]);
        stories::in_place(s);
        stories::by_other_names(s);
        stories::over_links(s);
        stories::no_ordinary_file(s, bad[i % bad.len()]);
        stories::standard_input(s, bad[i % bad.len()]);
    }
    stories::named_so(s);
    stories::among_others(s);
    stories::malformed(s, bad[0]);
    stories::malformed(s, bad[1 % bad.len()]);
    malformed::long_lines(s);
    stories::every_answer(s);
    if k == 0 {
        stories::headers(s);
    }
    stories::genuine(s, part(&supply.genuine, k, BATCHES));
    part(&supply.large, k, BATCHES).for_each(|file| stories::large_file(s, file));
    part(&supply.pairs, k, BATCHES).for_each(|(_, files)| stories::pair(s, files));
}

/// The k-th of the scripts whose commands run alone: every other one is of large files, whose folder
/// takes longer to look through.
fn alone(s: &mut Script, supply: &Supply, k: usize) {
    let (k, is_large) = (k / 2, k % 2 == 1);
    if is_large {
        part(&supply.large, k, ALONE).for_each(|file| stories::large_file(s, file));
        of_each(&supply.pairs, k).into_iter().for_each(|files| stories::pair(s, files));
        return;
    }
    let one = stories::placed(s);
    stories::asked(s, 12);
    stories::tabled(s);
    stories::looked(s);
    stories::piled(s);
    for _ in 0..3 {
        let wrecked = generate::wrecked(&mut s.rng);
        stories::salvaged(s, wrecked);
    }
    stories::every_answer(s);
    let bad = supply.refused(k);
    bad.iter().for_each(|bytes| stories::checked(s, bytes, &one));
    stories::piled_with(s, bad[(5 * k) % bad.len()]);
    stories::normalised(s);
    stories::genuine(s, part(&supply.genuine, k, 40));
    stories::linked(s);
    match k % 4 {
        0 => stories::rewritten(s, bad[0]),
        1 => stories::in_place(s),
        2 => stories::by_other_names(s),
        _ => stories::among_others(s),
    }
    stories::over_links(s);
    stories::no_ordinary_file(s, bad[0]);
    stories::named_so(s);
    let input = Bytes::from(stories::good(&mut s.rng));
    [&input, bad[0]].into_iter().for_each(|bytes| stories::standard_input(s, bytes));
    stories::malformed(s, bad[0]);
}

/// A part: its name, what its scripts hold, how many there are, and which of them runs where whole
/// paths may name outputs.
type Part = (&'static str, fn(&mut Script, &Supply, usize), usize, usize);

pub const PARTS: [Part; 2] =
    [("batches", batch, BATCHES, BATCHES - 1), ("alone", alone, 2 * ALONE, 2 * ALONE - 2)];

/// The scripts of a part with one seed, several at a time.
fn scripts(
    program: &Path,
    fill: &(dyn Fn(&mut Script, usize) + Sync),
    (name, count, usual): (&'static str, usize, usize),
    seed: u64,
) -> io::Result<Tally> {
    let rng = &mut Rng::new(seed);
    let seeds: Vec<_> = (0..count).map(|k| (k, rng.number())).collect();
    let run = |(k, seed): (usize, u64)| -> io::Result<Tally> {
        let folder = folder(&format!("compare-xpt-{}-{name}-{k}", std::process::id()), k != usual)?;
        let mut tally = Tally::new(name);
        let mut script = Script::new(folder.clone(), name.ends_with("alone"), seed);
        fill(&mut script, k);
        let compared = compare::run(program, &script, &mut tally);
        compared.inspect_err(|_| println!("{name}: the files are kept in {}", folder.display()))?;
        fs::remove_dir_all(&folder)?;
        tally.add("all", name);
        Ok(tally)
    };
    let mut whole = Tally::new(name);
    for tally in in_parallel(seeds, run) {
        whole.join(tally?);
    }
    Ok(whole)
}

/// Compares `xpt` with this program, these parts with so many seeds; stops at the first difference.
/// Whether all is well.
pub fn run(program: &Path, parts: &[Part], seed: u64, rounds: u64) -> io::Result<bool> {
    let mut good = true;
    for seed in (0..rounds).map(|round| seed.wrapping_add(round)) {
        let supply = Supply::new(seed);
        for part in parts {
            let start = Instant::now();
            let (name, fill, count, usual) = *part;
            let done = scripts(program, &|s, k| fill(s, &supply, k), (name, count, usual), seed);
            println!("{name}, seed {seed}: {:.1} s", start.elapsed().as_secs_f64());
            good &= done?.is_enough();
        }
    }
    Ok(good)
}
