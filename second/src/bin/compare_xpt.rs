//! Runs the command-line program `xpt` on many files, in batches and one command at a time: fails
//! where it answers, writes or tells anything else than this program says, and where too little
//! was covered.
//! usage: compare_xpt XPT [batches] [alone] [rdb] [long] [SEED]
//!
//! Without names of parts all are run but `rdb`, the commands on types.rdb. `long` runs with ten seeds.

use second::line::{rdb, run, PARTS};
use std::{path::absolute, process::ExitCode};

fn main() -> ExitCode {
    let mut arguments = std::env::args().skip(1);
    let path = arguments.next().unwrap_or_default();
    let (mut parts, mut rounds, mut seed, mut of_rdb) = (Vec::new(), 1, 2, false);
    for argument in arguments {
        match (PARTS.iter().find(|(name, ..)| *name == argument), argument.parse()) {
            (Some(part), _) => parts.push(*part),
            (_, Ok(number)) => seed = number,
            _ if argument == "long" => rounds = 10,
            _ if argument == "rdb" => of_rdb = true,
            _ => {
                eprintln!("usage: compare_xpt XPT [batches] [alone] [rdb] [long] [SEED]");
                return ExitCode::from(2);
            }
        }
    }
    let parts = if parts.is_empty() && !of_rdb { PARTS.to_vec() } else { parts };
    second::ended(absolute(path).and_then(|xpt| {
        let good = parts.is_empty() || run(&xpt, &parts, seed, rounds)?;
        Ok(good && (!of_rdb || rdb::run(&xpt, seed, rounds)?))
    }))
}
