//! Writes the typelibs of examples/ into the folder given: a console's alarm lists as two suppliers
//! compiled them (see console.txt), the first's with a broken interface, an older file of the second
//! that says otherwise, its file as a bad transfer left it, and a file in the layout of libxpt.

use second::making::{builder::*, genuine::genuine};
use std::{path::Path, process::ExitCode};

/// Types by name, and how a method is called.
const TYPES: [(&str, u8); 8] = [
    ("bool", 10),
    ("double", 9),
    ("uint32", UINT32),
    ("string", POINTER | 16),
    ("cstring", POINTER | 24),
    ("iid", POINTER | REFERENCE | IID),
    ("object", POINTER | INTERFACE),
    ("of_iid", POINTER | INTERFACE_IS),
];
const CALLS: [(&str, u8); 4] =
    [("call", 0), ("get", GETTER), ("set", SETTER), ("hidden", NOT_XPCOM | HIDDEN)];

fn of(table: &[(&str, u8)], word: &str) -> u8 {
    table.iter().find(|(name, _)| *name == word).unwrap_or_else(|| panic!("no {word}")).1
}

fn argument(word: &&str) -> Parameter {
    let (flags, word) = word.strip_prefix('>').map_or((IN, *word), |word| (OUT | RETVAL, word));
    let (name, number) = word.split_once(':').unwrap_or((word, "0"));
    let tail = [0, number.parse().expect("a number"), 0];
    Parameter::new(flags, Type::with(of(&TYPES, name), tail))
}

/// Adds what a line says.
fn add(lib: &mut Typelib, line: &str) {
    let words: Vec<&str> = line.split(' ').collect();
    let number = |word: &str| word.parse::<usize>().expect("a number");
    match words[..] {
        ["compiler", ref text @ ..] => {
            let text = text.join(" ").into_bytes();
            lib.annotations = vec![Some([b"compiler".to_vec(), text])];
        }
        ["entry", iid, namespace, name, ref parent @ ..] => {
            let iid = u128::from_str_radix(iid, 16).expect("an IID").to_be_bytes();
            let mut entry = Entry { iid, ..Entry::new(0, name) };
            entry.set_key(namespace.trim_matches('-'), name);
            let below = |parent| Descriptor { flags: SCRIPTABLE, ..Descriptor::below(parent) };
            let parent = parent.first().map(|parent| number(parent));
            entry.descriptor = parent.map(|parent| lib.add(below(parent)));
            lib.entries.push(entry);
        }
        ["minor", minor] => lib.minor = number(minor) as u8,
        [how, name, ref more @ ..] => {
            let (name, d) = (name.as_bytes(), lib.descriptors.last_mut().expect("an interface"));
            if how == "const" {
                let (kind, value) = (number(more[0]) as u8, number(more[1]) as u32);
                return d.constants.push(Constant::new(name, kind, value));
            }
            let arguments = more.iter().map(argument).collect();
            let result = Parameter::simple(0, UINT32);
            d.methods.push(Method::new(of(&CALLS, how), name, arguments, result));
        }
        _ => {}
    }
}

fn main() -> ExitCode {
    let Some(folder) = std::env::args_os().nth(1) else {
        eprintln!("usage: console FOLDER");
        return ExitCode::FAILURE;
    };
    let mut libs = Vec::new();
    for line in include_str!("console.txt").lines().filter(|line| !line.starts_with('#')) {
        match line.strip_prefix("file ") {
            Some(name) => libs.push((name, Typelib::default())),
            None => libs.last_mut().into_iter().for_each(|(_, lib)| add(lib, line)),
        }
    }
    let mut old = libs.last().expect("the second supplier's").1.clone();
    let whole = old.bytes();
    // The older analyser cannot be calibrated.
    old.descriptors[0].methods.pop();
    libs.push(("gas_old.xpt", old));
    let mut broken = libs[0].1.clone();
    // What is attached to the alarm list is interface 40 of 4.
    broken.descriptors[2].methods[6].arguments[0] = argument(&"object:40");
    libs.push(("alarms_broken.xpt", broken));
    let mut files: Vec<_> = libs.into_iter().map(|(name, lib)| (name, lib.bytes())).collect();
    files.push(("gas_torn.xpt", whole[..whole.len() * 2 / 3].to_vec()));
    files.push(("gas_mailed.xpt", [&whole[..], b"-- \nSent from the control room\n"].concat()));
    for (name, mut bytes) in files {
        if name == "pumps.xpt" {
            bytes = genuine(&bytes, 3, 0).expect("a good file").bytes;
        }
        let path = Path::new(&folder).join(name);
        if let Err(error) = std::fs::write(&path, bytes) {
            eprintln!("{}: {error}", path.display());
            return ExitCode::FAILURE;
        }
    }
    ExitCode::SUCCESS
}
