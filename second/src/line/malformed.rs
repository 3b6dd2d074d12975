//! Lines that cannot be asked: each gets an error, and must not disturb its neighbours.

use super::script::{Name, Script, LONGEST_LINE, SUBFOLDER};
use super::stories::MAX_PILE;
use crate::library::questions::Question;
use crate::making::{generate, rng::Rng};
use crate::program::questions::Kind;

/// A line of each kind. `F` stands for any file, `G` for an accepted one and `O` for one that is
/// absent and stays so.
pub fn every_kind(script: &mut Script, file: &Name, good: &Name, out: &Name) {
    for (kind, line) in KINDS {
        let some = *script.rng.pick(&GOOD);
        let line = line(&mut script.rng, script.alone, some);
        let word = |word: &[u8]| match word {
            [b'F'] => file.word.clone().into_bytes(),
            [b'G'] => good.word.clone().into_bytes(),
            [b'O'] => out.word.clone().into_bytes(),
            [b'G', 0] => [good.word.as_bytes(), b"\0.xpt"].concat(),
            [b'O', 0] => [out.word.as_bytes(), b"\0"].concat(),
            word => word.to_vec(),
        };
        let words: Vec<_> = line.split(|byte| *byte == b' ').map(word).collect();
        let text = told(kind, &words);
        script.story();
        script.error(words, kind, text);
    }
}

/// The words that each command takes.
const USAGES: [&str; 13] = [
    "check FILE",
    "list FILE",
    "table FILE NAMESPACE NAME",
    "iid FILE HEX",
    "looks FILE HEX",
    "key FILE NAMESPACE NAME",
    "method FILE INDEX NAME getter|setter|plain",
    "slot FILE INDEX SLOT",
    "const FILE INDEX NAME",
    "normal [-f] FILE OUT",
    "adopt [-f] FILE OUT",
    "link [-f] A B .. OUT",
    "salvage [-f] FILE OUT",
];

const COMMANDS: &str =
    "check list table iid looks key method slot const normal adopt link salvage rdb office";

/// What the error says, of the kinds where that is fixed.
fn told(kind: &str, words: &[Vec<u8>]) -> Option<String> {
    match kind {
        "output is a folder" => Some(format!("cannot write {SUBFOLDER}: it is no ordinary file")),
        "unknown command" => Some(format!("unknown command; the commands are: {COMMANDS}")),
        "too few words" | "too many words" | "-f for a command that only reads" | "-f too late" => {
            let is_own =
                |usage: &&&str| usage.split(' ').next().map(str::as_bytes) == Some(&words[0]);
            USAGES.iter().find(is_own).map(|usage| format!("the words are: {usage}"))
        }
        _ => None,
    }
}

/// Every command, with good words.
const GOOD: [&str; 17] = [
    "check F",
    "list F",
    "normal F O",
    "link F G O",
    "normal -f F O",
    "adopt F O",
    "adopt -f F O",
    "salvage F O",
    "salvage -f F O",
    "link -f F G O",
    "iid F 00000000000000000000000000000001",
    "looks F 00000000000000000000000000000001",
    "key F - A",
    "table F - A",
    "method F 1 m plain",
    "slot F 1 0",
    "const F 1 K",
];

type Line = fn(&mut Rng, bool, &str) -> Vec<u8>;

/// The kinds of such lines, each a row of the table: how one is made from a good line, for a command
/// that may run alone.
const KINDS: [(&str, Line); 24] = [
    ("blank", |_, _, _| Vec::new()),
    ("spaces alone", |rng, _, _| vec![b' '; rng.range(1, 5)]),
    ("unknown command", unknown_command),
    ("too few words", |rng, _, some| {
        let words: Vec<&str> = some.split(' ').collect();
        words[..rng.range(1, words.len() - 1)].join(" ").into()
    }),
    ("too many words", |rng, _, some| {
        let some = if some.starts_with("link") { "normal F O" } else { some };
        format!("{some} {}", rng.pick(&["more", "0", "-", "F"])).into()
    }),
    ("over 256 files", |rng, _, _| {
        let start = *rng.pick(&["link", "link -f"]);
        format!("{start}{} O", " G".repeat(MAX_PILE + rng.range(1, 3))).into()
    }),
    ("-f for a command that only reads", |rng, _, _| {
        let readers: Vec<_> = GOOD.iter().filter(|some| !some.ends_with('O')).collect();
        rng.pick(&readers).replacen('F', "-f F", 1).into()
    }),
    ("-f too late", |rng, _, _| {
        let lines =
            ["normal F -f O", "normal F O -f", "adopt F -f O", "adopt F O -f", "salvage F -f O"];
        (*rng.pick(&lines)).into()
    }),
    ("a space too many", |rng, _, _| {
        let some = *rng.pick(&["check F", "list F", "normal F O", "adopt -f F O"]);
        let mut places: Vec<usize> = some.match_indices(' ').map(|(at, _)| at).collect();
        places.extend([0, some.len()]);
        let at = *rng.pick(&places);
        format!("{} {}", &some[..at], &some[at..]).into()
    }),
    ("IID not hexadecimal", not_hexadecimal),
    ("IID with an odd digit", |rng, _, _| {
        let command = rng.pick(&BY_IID);
        format!("{command} F {}", "1".repeat(*rng.pick(&[1, 3, 15, 31, 33, 63, 65]))).into()
    }),
    ("index not decimal", |rng, _, _| with_index(rng, not_decimal)),
    ("index over 64 bits", |rng, _, _| with_index(rng, too_large)),
    ("slot not decimal", |rng, _, _| format!("slot F 1 {}", not_decimal(rng)).into()),
    ("slot over 64 bits", |rng, _, _| format!("slot F 1 {}", too_large(rng)).into()),
    ("unknown kind", |rng, _, _| format!("method F 1 m {}", rng.pick(&NO_KINDS)).into()),
    ("file absent", |_, _, some| some.replacen('F', "O", 1).into()),
    ("file is a folder", |_, _, some| some.replacen('F', SUBFOLDER, 1).into()),
    ("file name too long", |rng, _, some| {
        some.replacen('F', &"f".repeat(*rng.pick(&[256, 5_000])), 1).into()
    }),
    ("file name with a zero byte", |rng, _, _| {
        (*rng.pick(&["check G\0", "list G\0", "slot G\0 1 0", "normal G O\0", "adopt G O\0"]))
            .into()
    }),
    ("second file absent", |rng, _, _| (*rng.pick(&["link G O O", "link -f G O O"])).into()),
    ("output in no folder", |rng, _, _| {
        let outputs =
            ["normal G none/o", "link G G none/o", "normal -f G none/o", "adopt G none/o"];
        (*rng.pick(&outputs)).into()
    }),
    ("output is a folder", |rng, _, _| {
        let starts = ["normal G", "link G G", "normal -f G", "link -f G G", "adopt G", "salvage G"];
        format!("{} {SUBFOLDER}", rng.pick(&starts)).into()
    }),
    ("output name too long", |rng, _, _| {
        let start = rng.pick(&["normal", "normal -f", "adopt", "adopt -f", "salvage"]);
        format!("{start} G {}", "o".repeat(*rng.pick(&[256, 5_000]))).into()
    }),
];

const NO_KINDS: [&str; 9] =
    ["Getter", "get", "getters", "PLAIN", "plain.", "method", "0", "-", "setter|plain"];

/// A first word that is none of the commands. The last two are for batches only.
fn unknown_command(rng: &mut Rng, alone: bool, _: &str) -> Vec<u8> {
    const WORDS: &str = "Check|CHECK|chec|checks|xpt check|lists|constant|methods|\u{e9}\u{fe}\
        |check\t|-check|normalise|batch|check\0";
    let words: Vec<&str> = WORDS.split('|').collect();
    format!("{} F", rng.pick(&words[..words.len() - if alone { 2 } else { 0 }])).into()
}

/// The commands that take an IID.
const BY_IID: [&str; 2] = ["iid", "looks"];

fn not_hexadecimal(rng: &mut Rng, _: bool, _: &str) -> Vec<u8> {
    let mut digits = b"0123456789abcdefABCDEF0123456789".to_vec();
    match rng.below(4) {
        0 => digits[1] = b'x',
        1 => digits[8] = b'-',
        2 => digits[30..].copy_from_slice("\u{b2}".as_bytes()),
        _ => digits[rng.below(32)] = *rng.pick(b"gG/:@`hzZ.+-\x7f\xb1"),
    }
    [rng.pick(&BY_IID).as_bytes(), b" F ", &digits[..]].concat()
}

fn with_index(rng: &mut Rng, index: fn(&mut Rng) -> String) -> Vec<u8> {
    let index = index(rng);
    match rng.below(3) {
        0 => format!("method F {index} m plain"),
        1 => format!("slot F {index} 0"),
        _ => format!("const F {index} K"),
    }
    .into()
}

pub fn not_decimal(rng: &mut Rng) -> String {
    const WORDS: [&str; 12] =
        ["+1", "-1", "0x1", "1.0", "1e0", "one", "1,0", "1a", "a1", "-", "\u{661}", "1_0"];
    rng.pick(&WORDS).to_string()
}

/// Numbers of which a part that fits would be good.
pub fn too_large(rng: &mut Rng) -> String {
    const NUMBERS: [&str; 7] = [
        // 2 to the 64th, and 1 more.
        "18446744073709551616",
        "18446744073709551617",
        "36893488147419103233",
        "99999999999999999999",
        "100000000000000000001",
        // 2 to the 128th, and 1 more.
        "340282366920938463463374607431768211457",
        "1000000000000000000000000000000000000000000000000000000000000000001",
    ];
    format!("{}{}", "0".repeat(rng.below(3)), rng.pick(&NUMBERS))
}

/// Words that are empty: as a name they are bad, as an IID too short. Where a line's spaces make
/// them, it may be an error too, and so for a namespace.
pub fn empty_words(script: &mut Script, file: &Name) {
    let alone = script.alone;
    let mut ask = |command, more: &[&str], strictly: bool, question: Question| {
        script.story();
        let more = more.iter().map(|word| word.as_bytes().to_vec()).collect();
        let step = script.ask_so(file, command, more, &question);
        step.counts.push(("line", "with an empty word", None));
        step.outcome.or_error = !alone || !strictly;
    };
    BY_IID.into_iter().for_each(|command| ask(command, &[""], true, Question::Iid(Vec::new())));
    for command in ["key", "table"] {
        ask(command, &["-", ""], true, Question::Key(Vec::new(), Vec::new()));
        ask(command, &["", "A"], false, Question::Key(Vec::new(), b"A".to_vec()));
    }
    ask("const", &["1", ""], true, Question::Constant(1, Vec::new()));
    ask("method", &["1", "", "plain"], true, Question::Method(1, Vec::new(), Kind::Plain));
}

/// Lines about the greatest length that must be answered.
pub fn long_lines(script: &mut Script) {
    let bytes = generate::family(&mut script.rng).bytes();
    let file = script.place(bytes);
    let taken = "const  1 ".len() + file.word.len();
    for length in [LONGEST_LINE - 1, LONGEST_LINE, LONGEST_LINE + 1, LONGEST_LINE + 2] {
        let name = vec![b'a'; length - taken];
        script.story();
        let words = vec![b"1".to_vec(), name.clone()];
        let step = script.ask_so(&file, "const", words, &Question::Constant(1, name));
        step.outcome.or_error = length > LONGEST_LINE;
        let what = if length > LONGEST_LINE { "over 65,535 bytes" } else { "about 65,535 bytes" };
        step.counts.push(("line", what, None));
    }
}
