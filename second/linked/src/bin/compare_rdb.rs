//! Runs this program and the linked library over generated files of types.rdb, and times both on files that are
//! hard on them: fails on any difference and where too little was covered; no time makes it fail.
//! usage: compare_rdb [files] [hostile] [long] [SEED]
//!
//! Without names of parts both are run. `long` runs with twenty seeds.

use linked::rdb::LIBRARY;
use second::library::rdb::{hostile, run};
use std::process::ExitCode;

fn main() -> ExitCode {
    let (mut parts, mut seed, mut rounds) = (Vec::new(), 2_u64, 1);
    for argument in std::env::args().skip(1) {
        match (argument.parse(), &argument[..]) {
            (Ok(number), _) => seed = number,
            (_, "long") => rounds = 20,
            (_, "files" | "hostile") => parts.push(argument),
            _ => {
                eprintln!("usage: compare_rdb [files] [hostile] [long] [SEED]");
                return ExitCode::from(2);
            }
        }
    }
    let has = |part: &str| parts.is_empty() || parts.iter().any(|named| named == part);
    let files = |round: u64| run(seed.wrapping_add(round), 400, LIBRARY);
    let good = !has("files") || (0..rounds).all(files);
    second::ended(Ok(good && (!has("hostile") || hostile(LIBRARY))))
}
