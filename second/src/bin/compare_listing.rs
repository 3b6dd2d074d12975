//! Runs a listing program on many inputs, each through a pipe: fails where it prints anything
//! else than this one, and where too little was covered.
//! usage: compare_listing PROGRAM [SEED]

use second::line::listing;
use std::{path::absolute, process::ExitCode};

fn main() -> ExitCode {
    let mut arguments = std::env::args().skip(1);
    let (path, seed) = (arguments.next(), arguments.next().unwrap_or("2".to_string()));
    let (Some(path), Ok(seed)) = (path, seed.parse()) else {
        eprintln!("usage: compare_listing PROGRAM [SEED]");
        return ExitCode::from(2);
    };
    second::ended(absolute(path).and_then(|program| listing::run(&program, seed, 2_000)))
}
