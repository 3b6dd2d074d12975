//! Prints the listing of a typelib of any length: what `xpt list FILE` is timed against.
//! usage: list FILE

use std::io;

fn main() -> io::Result<()> {
    let Some(path) = std::env::args_os().nth(1) else {
        eprintln!("usage: list FILE");
        std::process::exit(2);
    };
    second::program::listing::list(&std::fs::read(path)?, &mut io::stdout().lock())
}
