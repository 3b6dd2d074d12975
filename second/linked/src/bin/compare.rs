//! Runs this program and the linked library over everything generated: fails on any difference
//! and where too little was covered. Differences are made smaller and kept in second/cases.
//! usage: compare [checks] [questions] [links] [lists] [looks] [adoptions] [piles] [salvages] [long] [SEED]
//!
//! Without names of parts all are run. `long` runs with twenty seeds.

use linked::LIBRARY;
use second::library::{run, Chosen, PARTS};
use std::process::ExitCode;

fn main() -> ExitCode {
    let mut chosen = Chosen { parts: Vec::new(), seed: 2, rounds: 1 };
    for argument in std::env::args().skip(1) {
        match argument.parse() {
            Ok(seed) => chosen.seed = seed,
            Err(_) if argument == "long" => chosen.rounds = 20,
            Err(_) if PARTS.iter().any(|(name, ..)| *name == argument) => {
                chosen.parts.push(argument)
            }
            Err(_) => {
                eprintln!("usage: compare [PART ..] [long] [SEED]");
                return ExitCode::from(2);
            }
        }
    }
    second::ended(Ok(run(&chosen, LIBRARY)))
}
