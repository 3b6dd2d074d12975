//! types.rdb: a file by hand and its answers, the limits, and that a planted difference is found.

use second::library::cases::bytes;
use second::library::rdb::{hostile, run, Case, Program, OWN};
use second::line::rdb::{answered, Question};
use second::making::{rdb, rdb_damage, rdb_hostile, rdb_ordinary};
use second::program::rdb::{accept_by, check, Memory, Reading, MAX_ENTRIES};
use second::program::{Refusal, MAX_FILE};
use std::panic::catch_unwind;

fn changed(file: &[u8], words: &[&str]) -> Vec<u8> {
    let mut file = file.to_vec();
    for word in words {
        let (sign, rest) = word.split_at(1);
        match (sign, rest.split_once('=')) {
            ("@", Some((at, new))) => {
                let (at, new) = (at.parse::<usize>().unwrap(), bytes(new).unwrap());
                file[at..at + new.len()].copy_from_slice(&new);
            }
            ("+", _) => file.extend(bytes(rest).unwrap()),
            _ => file.truncate(rest.parse().unwrap()),
        }
    }
    file
}

#[test]
fn by_hand() {
    let mut file = Vec::new();
    let mut count = 0;
    let lines = include_str!("types.txt").lines();
    for line in lines.filter(|line| !line.is_empty() && !line.starts_with('#')) {
        if let Some((field, _)) = line.split_once('|') {
            let (at, hex) = field.split_once(':').unwrap();
            assert_eq!(at.parse(), Ok(file.len()), "{line}");
            file.extend(bytes(&hex.split_whitespace().collect::<String>()).unwrap());
            continue;
        }
        let (asked, expected) = line.split_once(": ").expect(line);
        let mut words: Vec<&str> = asked.split(' ').collect();
        let is_office = words[0] == "office";
        words.drain(..usize::from(is_office));
        let is_change = |word: &&str| word.starts_with(['@', '+', '<']);
        let end = words.iter().position(is_change).unwrap_or(words.len());
        let question = Question::parse(&words[..end]).expect(line);
        let reading = Reading::BOTH[usize::from(is_office)];
        let outcome = answered(&changed(&file, &words[end..]), reading, &question);
        let text = String::from_utf8(outcome.text.unwrap()).unwrap();
        assert_eq!(text.replace('\n', "; ").trim_end(), expected.trim_end(), "{line}");
        count += 1;
    }
    assert!(count > 150, "{count}");
}

fn refused(number: u32, place: usize) -> Result<usize, Refusal> {
    Err(Refusal { number, place })
}

#[test]
fn limits() {
    let check = |file: &[u8]| check(file, Reading::Literal);
    assert_eq!(check(&vec![0; MAX_FILE + 1]), refused(2, MAX_FILE));
    assert_eq!(check(&vec![0; MAX_FILE]), refused(31, 0));
    // The header, a name of 2 bytes, a typedef at 18, an empty module at 19, a module at 24 whose entry is at 29.
    assert_eq!(check(&rdb::deep(16, 0).0), Ok(16));
    assert_eq!(check(&rdb::deep(17, 0).0), refused(36, 29));
    // 256 + 256 * 255 entries. With one more in the root map 65,279 = 255 * 255 + 254 are left for the module's, so
    // that the last entry is one too many when they are read the 256th time. Before its entries are the header, 257
    // names of 4 bytes, a typedef and the module's 5.
    assert_eq!(check(&rdb::multiplied(256, 255).0), Ok(MAX_ENTRIES));
    assert_eq!(check(&rdb::multiplied(257, 255).0), refused(37, 16 + 1_028 + 1 + 5 + 8 * 254));
    let file = rdb::multiplied(MAX_ENTRIES + 1, 0).0;
    assert_eq!(check(&file), refused(37, file.len() - 8));
}

#[test]
fn made_files() {
    let mut seen = [0; 46];
    let mut wrong = Vec::new();
    rdb_damage::everything(7, 60, &mut |made| {
        let answer = check(made.bytes, made.reading);
        // As with all remembered from the start.
        let memory = Memory { stretch: 2, often: 0 };
        let remembered = accept_by(made.bytes, made.reading, memory).map(|lib| lib.visited);
        assert_eq!(remembered, answer, "{}", made.how);
        seen[answer.map_or_else(|why| why.number as usize, |_| 0)] += 1;
        if made.known.is_some_and(|known| known != answer) && wrong.len() < 5 {
            wrong.push((made.how, made.reading, made.known, answer, made.bytes.len()));
        }
    });
    assert!(wrong.is_empty(), "{wrong:#?}");
    assert!([0, 2, 31, 32, 33, 34, 35, 36, 37].iter().all(|number| seen[*number] > 5), "{seen:?}");
}

#[test]
fn hostile_files() {
    for case in rdb_hostile::cases() {
        assert_eq!(check(&case.bytes, Reading::Office), Ok(case.visited), "{}", case.name);
    }
}

#[test]
fn planted_differences() {
    let planted = |wrong: Program| {
        let ended = catch_unwind(|| run(2, 30, wrong)).unwrap_err();
        let Case { asked, reading, file } = *ended.downcast::<Case>().unwrap();
        assert_ne!(OWN.answer(&asked, reading, &file), wrong.answer(&asked, reading, &file));
        assert!(file.len() < 1_000, "{asked:?} {}", file.len());
    };
    // The other reading; a module one too deep; a float that lost its sign.
    planted(Program { check: |file, _| check(file, Reading::Literal), ..OWN });
    planted(Program {
        check: |file, reading| match check(file, reading) {
            Err(Refusal { number: 36, .. }) => Ok(17),
            answer => answer,
        },
        ..OWN
    });
    planted(Program {
        constant: |file, reading, path| {
            (OWN.constant)(file, reading, path).map(|mut of| {
                of.bits &= if of.kind == 8 { 0x7fff_ffff } else { !0 };
                of
            })
        },
        ..OWN
    });
}

/// What `compare_rdb` must come to at least, with this program on both sides.
#[test]
#[ignore = "it takes a while; `compare_rdb` holds its own run against the floors"]
fn floors() {
    assert!(run(3, 400, OWN) && hostile(OWN));
}

#[test]
fn ordinary_files() {
    let sizes = rdb_ordinary::SHAPES.each_ref().map(|shape| {
        let file = rdb_ordinary::ordinary(shape);
        // Read-only attributes have no set exceptions.
        assert!(check(&file, Reading::Literal).is_err());
        (file.len(), check(&file, Reading::Office))
    });
    assert_eq!(sizes, [(58_560, Ok(491)), (332_436, Ok(9_527)), (674_149, Ok(7_523))]);
}
