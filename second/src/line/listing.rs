//! The listing program beside this one: what it prints for many inputs, each through a pipe.

use super::{process, stories::about, stories::Named};
use crate::in_parallel;
use crate::library::cases::shrink;
use crate::making::{builder::*, damage, generate, hostile, rng::Rng};
use crate::program::{check::check, listing::program as list, listing::MAX_INPUT};
use crate::tally::{Tally, NUMBER};
use std::{fs, io, path::Path, time::Duration};

const LARGE: &str = "a large listing";

pub fn listed(input: &[u8]) -> Vec<u8> {
    let mut out = Vec::new();
    list(input, &mut out).expect("writing to memory");
    out
}

/// Whether the program prints otherwise than this one, or does not end by itself.
fn differs(program: &Path, input: &[u8]) -> io::Result<bool> {
    let ran = process::run(program, Path::new("/"), &[], input)?;
    Ok(ran.stdout != listed(input) || ran.broken.is_some())
}

fn count(tally: &mut Tally, made: &'static str, input: &[u8]) {
    tally.add("input", made);
    if made == LARGE {
        return;
    }
    if input.len() > MAX_INPUT {
        return tally.add("input", "too long");
    }
    match check(input) {
        Ok(n) => tally.add_at("input", "accepted", n as u64),
        // The places are the numbers of the refusals here.
        Err(refusal) => tally.add_at("input", "refused", refusal.number.into()),
    }
    for line in listed(input).split(|b| *b == b'\n') {
        let words: Vec<&[u8]> = line.split(|b| *b == b' ').collect();
        match words[..] {
            [b"I", _, _, namespace, _, b"unresolved" | b"parent", ..] => {
                let resolved = if words.len() == 7 { "I, resolved" } else { "I, unresolved" };
                tally.add("line", resolved);
                let default = namespace == b"-";
                tally.add("line", if default { "I, default namespace" } else { "I, a namespace" });
            }
            [b"M", b"?", ..] => tally.add("line", "M, slot unknown"),
            [b"M", ..] => tally.add("line", "M, slot known"),
            [b"C", _, [b'-', ..]] => tally.add("line", "C, negative"),
            [b"C", ..] => tally.add("line", "C, zero or more"),
            _ => {}
        }
    }
}

/// The marked cases P1 to P11.
fn marked() -> Vec<Vec<u8>> {
    let [p1, p2, p3] = generate::marked();
    let mut all = vec![p1.clone(), p2, p3.clone(), p3[..81].to_vec(), p1[..31].to_vec()];
    let changes = [(17, &[3][..]), (66, &[0, 1]), (66, &[0, 2]), (76, &[3]), (79, &[0x81])];
    for (at, new) in changes.into_iter().chain([(36, &[0; 16][..])]) {
        all.push([&p3[..at], new, &p3[at + new.len()..]].concat());
    }
    all
}

/// Inputs about the greatest length, and one whose listing takes 540 KB for each of its entries.
fn edges(rng: &mut Rng) -> Vec<Named> {
    let family = generate::family(rng);
    let at_most = family.filled_to(MAX_INPUT).bytes();
    let names = ["65,536 bytes, accepted", "65,536 bytes, refused", "65,537 bytes"];
    let mut all = about(MAX_INPUT, names, &family);
    all.push(("65,536 bytes, refused", at_most[..MAX_INPUT - 1].to_vec()));
    all.push(("empty", Vec::new()));
    for length in [MAX_INPUT + 2, 131_072, MAX_FILE, MAX_FILE + 1, 3_000_000] {
        all.push(("longer", [&at_most[..], &vec![0; length - MAX_INPUT]].concat()));
    }
    all.push((LARGE, hostile::long_listing(64)));
    all
}

/// About `count` inputs and some more.
fn inputs(seed: u64, count: usize) -> Vec<Named> {
    let rng = &mut Rng::new(seed);
    let mut all: Vec<Named> = marked().into_iter().map(|input| ("marked", input)).collect();
    all.extend(edges(rng));
    // Families and other good files; then a sample of those for the check, most of them refused.
    for round in 0..count / 2 {
        let lib = match round % 8 {
            0..6 => generate::family(rng),
            6 => generate::random(rng, generate::SMALL),
            _ => generate::random(rng, generate::MEDIUM),
        };
        all.push(("good", lib.bytes()));
    }
    all.extend((1..=16).map(|n| ("overlapping heads", generate::overlapping_heads(rng, n))));
    all.extend(hostile::chains().map(|chain| ("a chain of 1,024", chain)));
    let one_in = 2_800_000 / (count / 2).max(1);
    let mut seen = vec![0; NUMBER.len()];
    damage::everything(seed, &mut |made| {
        if made.bytes.len() <= MAX_INPUT {
            let row = check(made.bytes).map_or_else(|refusal| refusal.number as usize, |_| 0);
            seen[row] += 1;
            if seen[row] == 50 || rng.below(one_in) == 0 {
                all.push(("for the check", made.bytes.to_vec()));
            }
        }
    });
    all
}

/// Compares what is printed for all inputs, at least 1,000 for the floors. Whether all is well.
pub fn run(program: &Path, seed: u64, count: usize) -> io::Result<bool> {
    let inputs = inputs(seed, count);
    let compared =
        in_parallel(inputs.iter().collect(), |(_, input): &Named| differs(program, input));
    let mut tally = Tally::new("listings");
    for ((made, input), differs) in inputs.iter().zip(compared) {
        if differs? {
            let still = |files: &Vec<Vec<u8>>| self::differs(program, &files[0]).unwrap_or(false);
            let small = shrink(&vec![input.clone()], Duration::from_secs(20), &still);
            let path = std::env::temp_dir().join("second-listing-difference");
            println!("DIFFERENCE: {made}; the input, made smaller, is in {}", path.display());
            return fs::write(path, &small[0]).map(|()| false);
        }
        self::count(&mut tally, made, input);
    }
    Ok(tally.is_enough())
}
