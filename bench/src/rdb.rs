//! The calls on types.rdb.

use super::*;
use second::library::rdb::{Asked, Program, OWN};
use second::making::{rdb_hostile, rdb_ordinary};
use second::program::rdb::{accept, Reading, MODULE};

const CHECK: Aim = Aim::Ratio(1.5);
const LONGEST: Aim = Aim::Seconds(15.0);

/// The same call by this program and by the library.
fn call(asked: &Asked, reading: Reading, file: &[u8], rounds: &Rounds) -> Outcome<Measured> {
    let made = |program: Program| -> Made {
        Box::new(move |_| match asked {
            Asked::Check => Answered::Check((program.check)(file, reading)),
            Asked::Entity(path) => Answered::Entity((program.entity)(file, reading, path)),
            Asked::Constant(path) => Answered::Value((program.constant)(file, reading, path)),
        })
    };
    measure(Clock::Thread, 0, [made(OWN), made(linked::rdb::LIBRARY)], rounds)
        .map_err(|why| format!("{asked:?}: {why}").into())
}

/// The check, and questions for the last entity that is no module and the last constant.
pub fn ordinary() -> Outcome<()> {
    println!("{HEAD}");
    for shape in &rdb_ordinary::SHAPES {
        let file = rdb_ordinary::ordinary(shape);
        let lib = accept(&file, Reading::Office).expect("an accepted file");
        let paths = lib.paths(lib.visited);
        let is_entity = |path: &&Vec<u8>| lib.entity(path).is_some_and(|of| of.0 != MODULE);
        let is_constant = |path: &&Vec<u8>| lib.constant(path).is_some();
        let entity = paths.iter().rfind(is_entity).expect("an entity");
        let constant = paths.iter().rfind(is_constant).expect("a constant");
        let name = format!("{} ({} bytes)", shape.name, file.len());
        for (what, asked) in [
            ("check", Asked::Check),
            ("entity by path", Asked::Entity(entity.clone())),
            ("constant by path", Asked::Constant(constant.clone())),
        ] {
            row(&name, what, &call(&asked, Reading::Office, &file, &ORDINARY)?, CHECK);
        }
    }
    Ok(())
}

pub fn worst() -> Outcome<()> {
    println!("{HEAD}");
    for case in rdb_hostile::cases() {
        let measured = call(&Asked::Check, Reading::Literal, &case.bytes, &WORST)?;
        row(case.name, "check", &measured, LONGEST);
    }
    Ok(())
}
