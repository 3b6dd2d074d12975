//! Prints how long this program and the linked library take for the same calls, timed in turns on
//! the same inputs, as the tables of docs/BENCHMARKS.md. Fails where the two differ, in an answer or
//! in a byte that they write; no time makes it fail.
//! usage: bench [XPT [typelibs|rdb]]
//!
//! XPT is the program whose `list FILE` is timed, target/bin/xpt if not given; then one of the two parts,
//! both if not given.

mod rdb;

use linked::LIBRARY;
use second::library::cases::Asked;
use second::library::questions::{Question, Reply};
use second::library::{Program, Salvaged, OWN};
use second::making::builder::Typelib;
use second::making::hostile::{self, interfaces};
use second::making::pairs::sorted;
use second::program::accepted::Accepted;
use second::program::check::accept;
use second::program::format::MAX_FILE;
use second::program::link::LinkRefusal;
use second::program::questions::{Kind, Lookup};
use second::program::rdb::questions::{Constant, Entity};
use second::program::Answer;
use std::error::Error;
use std::fmt;
use std::fs;
use std::hash::{DefaultHasher, Hasher};
use std::hint::black_box;
use std::io::{self, BufReader, Write};
use std::ops::Range;
use std::path::PathBuf;
use std::process::{Command, ExitCode, Stdio};

type Outcome<T> = Result<T, Box<dyn Error>>;

/// Names of sizes, with how many interfaces make a file about so large.
const SIZES: [(&str, usize); 3] = [("50 KB", 40), ("200 KB", 160), ("800 KB", 640)];

const ORDINARY: Rounds = Rounds { untimed: 1, least: 7, seconds: 1.0 };
const WORST: Rounds = Rounds { untimed: 0, least: 1, seconds: 0.2 };

const CLEARED: &str = "\
Cleared first, on both sides and not timed: the output buffer, 1,048,576 bytes, is filled with zeros
before each call. Nothing else is: caches are warm from one untimed call of each program, then the
two take turns, 7 calls each or more until all took a second. In the worst cases no untimed call goes
before, and calls that take over 0.2 s are made once. Files lie in memory; a question is a whole
call, with the check of its file; the time is the processor's for the calling thread. A listing is a
whole run of a program on a file in the page cache; what it prints goes through a pipe and is thrown
away; the time is what passes from its start to its end. Ratios are of the best times.
";

const NAMES: &str = "\
A normal form holds each name once, so that (n), (o) and (q) end with bytes; with names repeated
they were refused with 26. (a), (c), (d), (h), (i), (l), (v) and (w) are still, by their descriptors,
which are never shared, and (j) with 25 by its entries. All others were written before, too.
";

const HEAD: &str = "\
| file | call | answer | Rust, ms | (median) | Rattle, ms | (median) | ratio | aim |
|---|---|---|---:|---:|---:|---:|---:|---|";

/// What the table holds a time to.
#[derive(Clone, Copy)]
enum Aim {
    /// The best time by that of Rust.
    Ratio(f64),
    Seconds(f64),
    None,
}

const CHECK: Aim = Aim::Ratio(2.0);
const OTHERS: Aim = Aim::Ratio(3.0);
const LONGEST: Aim = Aim::Seconds(20.0);

impl Aim {
    fn shown(self, measured: &Measured) -> String {
        let (value, most, unit) = match self {
            Aim::Ratio(most) => (ratio(measured), most, ""),
            Aim::Seconds(most) => (measured.times[1].best, most, " s"),
            Aim::None => return "none".to_string(),
        };
        let over = if value > most { ", **over**" } else { "" };
        format!("{most}{unit}{over}")
    }
}

/// Rattle's best time by Rust's.
fn ratio(measured: &Measured) -> f64 {
    measured.times[1].best / measured.times[0].best
}

/// Milliseconds in three digits or more.
fn shown(seconds: f64) -> String {
    let ms = seconds * 1e3;
    let digits = if ms < 1.0 { 3 } else { 2usize.saturating_sub(ms.log10() as usize) };
    format!("{ms:.digits$}")
}

fn row(file: &str, call: &str, measured: &Measured, aim: Aim) {
    let Measured { answer, times: [rust, rattle] } = measured;
    let times = [rust.best, rust.median, rattle.best, rattle.median].map(shown).join(" | ");
    let (ratio, aim) = (ratio(measured), aim.shown(measured));
    println!("| {file} | {call} | {answer} | {times} | {ratio:.2} | {aim} |");
}

// The inputs.

/// Files of two suppliers, who between them resolve `count` ordinary interfaces: the first the
/// first four fifths, the second the last four. Each names the others'.
fn suppliers(count: usize) -> [Vec<u8>; 2] {
    let all = interfaces(count);
    let fifth = count / 5;
    [supplied(&all, 0..count - fifth), supplied(&all, fifth..count)]
}

/// The first supplier's file after a change to all interfaces.
fn changed(count: usize, change: fn(&mut Typelib)) -> Vec<u8> {
    let mut all = interfaces(count);
    change(&mut all);
    supplied(&all, 0..count - count / 5)
}

/// Minor 2 with none of its tags: the whole file is walked for them where a normal form is written.
fn newer(lib: &mut Typelib) {
    lib.minor = 2;
}

/// Names in which some letters have two bytes.
fn accented(lib: &mut Typelib) {
    let accent = |name: &mut Vec<u8>| {
        *name = String::from_utf8_lossy(name).replace('e', "é").into_bytes();
    };
    lib.entries.iter_mut().for_each(|entry| accent(&mut entry.name));
    for d in &mut lib.descriptors {
        d.methods.iter_mut().for_each(|method| accent(&mut method.name));
        d.constants.iter_mut().for_each(|constant| accent(&mut constant.name));
    }
}

/// Nearly all of the file is annotation texts of characters of four bytes.
fn long_texts() -> Vec<u8> {
    let text = "\u{1f6aa}".repeat(65_000).into_bytes();
    let annotation = Some([text.clone(), text]);
    Typelib { annotations: vec![annotation.clone(), annotation], ..Typelib::default() }.bytes()
}

/// The last resolved interface has a parent that is not there.
fn broken(file: &[u8]) -> Vec<u8> {
    let mut file = file.to_vec();
    let four = |at: usize| u32::from_be_bytes(file[at..][..4].try_into().expect("four bytes"));
    let (directory, pool) = (four(24) as usize, four(28) as usize);
    let count = usize::from(u16::from_be_bytes([file[18], file[19]]));
    let pointers = (0..count).map(|i| four(directory + 28 * i + 24) as usize);
    let descriptor = pointers.filter(|pointer| *pointer > 0).last().expect("a resolved interface");
    file[pool + descriptor - 1..][..2].fill(0xff);
    file
}

/// Of the entries that it does not resolve a file has every other IID.
fn supplied(all: &Typelib, resolved: Range<usize>) -> Vec<u8> {
    let mut lib = all.clone();
    for (i, entry) in lib.entries.iter_mut().enumerate() {
        if !resolved.contains(&i) {
            entry.descriptor = None;
            if i % 2 == 0 {
                entry.iid = [0; 16];
            }
        }
    }
    sorted(&lib).bytes()
}

/// Questions to an accepted file, each with its name: to the last entry, and to the one with the
/// longest complete chain.
fn questions(file: &[u8]) -> Vec<(&'static str, Question)> {
    let lib = accept(file).expect("an accepted file");
    let last = lib.n;
    let (space, name) = lib.key(last);
    let index = (1..=last).max_by_key(|index| steps(&lib, *index)).expect("an entry");
    let (methods, constants): (Vec<_>, Vec<_>) =
        lib.chain(index).map(|(_, descriptor)| own(&lib, descriptor)).unzip();
    let nothing = (Kind::Plain, &b"absent"[..]);
    let far = *farthest(&methods).unwrap_or(&nothing);
    let own = *methods.first().and_then(|own| own.last()).unwrap_or(&nothing);
    let constant = *farthest(&constants).unwrap_or(&nothing.1);
    let index = index as u64;
    let method = |(kind, name): (Kind, &[u8])| Question::Method(index, name.to_vec(), kind);
    let none = Question::Method(index, absent(&lib, index, far), far.0);
    vec![
        ("interface by IID", Question::Iid(lib.iid(last).to_be_bytes().to_vec())),
        ("interface by key", Question::Key(space.to_vec(), name.to_vec())),
        ("method by name, far up", method(far)),
        ("method by name, own", method(own)),
        ("method by name, none", none),
        ("method by slot", Question::Slot(index, 0)),
        ("constant by name", Question::Constant(index, constant.to_vec())),
    ]
}

/// The length of a complete chain.
fn steps(lib: &Accepted, index: usize) -> usize {
    let mut chain = lib.chain(index);
    let steps = chain.by_ref().count();
    match chain.unresolved {
        Some(_) => 0,
        None => steps,
    }
}

type Names<'a> = (Vec<(Kind, &'a [u8])>, Vec<&'a [u8]>);

/// The methods and the constants of a descriptor.
fn own<'a>(lib: &Accepted<'a>, descriptor: usize) -> Names<'a> {
    let mut walk = lib.walk(descriptor);
    let (mut methods, mut constants) = (Vec::new(), Vec::new());
    for _ in 0..walk.pair() {
        let (flags, name, _) = walk.method();
        methods.push((Kind::of(flags), walk.identifier(name)));
    }
    for _ in 0..walk.pair() {
        let (name, ..) = walk.constant();
        constants.push(walk.identifier(name));
    }
    (methods, constants)
}

/// The last in the farthest entry of a chain that no nearer entry has.
fn farthest<T: PartialEq>(chain: &[Vec<T>]) -> Option<&T> {
    let nearer = |far: usize, it: &T| chain[..far].iter().any(|own| own.contains(it));
    (0..chain.len()).rev().find_map(|far| chain[far].iter().rev().find(|it| !nearer(far, it)))
}

/// A name that is not there, and differs in its last letter alone from one that is.
fn absent(lib: &Accepted, index: u64, (kind, name): (Kind, &[u8])) -> Vec<u8> {
    let mut name = name.to_vec();
    let last = name.len() - 1;
    for letter in b'A'..=b'Z' {
        name[last] = letter;
        if lib.method_by_name(index, &name, kind) == Lookup::None {
            break;
        }
    }
    name
}

// The calls.

/// What a call answers.
#[derive(Clone, Copy, Debug, PartialEq)]
enum Answered {
    Check(Answer),
    Question(Reply),
    Entity(Lookup<Entity>),
    Value(Lookup<Constant>),
    Written(Result<usize, LinkRefusal>),
    Salvaged(Salvaged),
    /// So many bytes came through the pipe.
    Printed(usize),
}

impl fmt::Display for Answered {
    fn fmt(&self, f: &mut fmt::Formatter) -> fmt::Result {
        match self {
            Answered::Check(Ok(n)) => write!(f, "accepted {n}"),
            Answered::Written(Ok(bytes)) | Answered::Printed(bytes) => write!(f, "{bytes} bytes"),
            Answered::Check(Err(refusal)) | Answered::Written(Err((_, refusal))) => {
                write!(f, "refused {} {}", refusal.number, refusal.place)
            }
            Answered::Salvaged(Ok((bytes, changed))) => {
                write!(f, "{bytes} bytes, {changed} changed")
            }
            Answered::Salvaged(Err(refusal)) => {
                write!(f, "refused {} {}", refusal.number, refusal.place)
            }
            Answered::Question(reply) => f.write_str(looked_up(reply)),
            Answered::Entity(reply) => f.write_str(looked_up(reply)),
            Answered::Value(reply) => f.write_str(looked_up(reply)),
        }
    }
}

fn looked_up<T>(reply: &Lookup<T>) -> &'static str {
    match reply {
        Lookup::Found(_) => "found",
        Lookup::None => "none",
        Lookup::Undetermined(_) => "undetermined",
        Lookup::Refused(_) => "refused",
    }
}

/// A call by one program, with room for what it writes.
type Made<'a> = Box<dyn Fn(&mut [u8]) -> Answered + 'a>;

fn answer(program: &Program, asked: &Asked, files: &[&[u8]], out: &mut [u8]) -> Answered {
    match asked {
        Asked::Check => Answered::Check((program.check)(files[0])),
        Asked::Question(question) => Answered::Question(program.ask(files[0], question)),
        _ => Answered::Written(program.write(files, out)),
    }
}

/// The same call by this program and by the library.
fn call(asked: Asked, files: &[&[u8]], rounds: &Rounds) -> Outcome<Measured> {
    let room = match asked {
        Asked::Normal(room) | Asked::Link(room) => room,
        _ => 0,
    };
    let made = |program: &'static Program| -> Made {
        Box::new(|out: &mut [u8]| answer(program, &asked, files, out))
    };
    measure(Clock::Thread, room, [made(&OWN), made(&LIBRARY)], rounds)
        .map_err(|why| format!("{asked:?}: {why}").into())
}

/// A salvage by this program and by the library; the report is compared through the number of its entries.
fn salvage(file: &[u8], rounds: &Rounds) -> Outcome<Measured> {
    let made = |program: &'static Program| -> Made {
        Box::new(|out: &mut [u8]| {
            let [mut indexes, mut numbers, mut places] = [[0; 1_024]; 3];
            let lists = [&mut indexes[..], &mut numbers[..], &mut places[..]];
            Answered::Salvaged((program.salvage)(file, lists, out))
        })
    };
    Ok(measure(Clock::Thread, MAX_FILE, [made(&OWN), made(&LIBRARY)], rounds)?)
}

/// A pile by this program and by the library, link by link.
fn pile(files: &[&[u8]], rounds: &Rounds) -> Outcome<Measured> {
    let made = |program: &'static Program| -> Made {
        Box::new(|_| {
            let piled = (program.pile)(files).map(|bytes| bytes.len());
            Answered::Written(piled.map_err(|(why, _)| why))
        })
    };
    Ok(measure(Clock::Thread, 0, [made(&OWN), made(&LIBRARY)], rounds)?)
}

/// How often both programs make a call, in turns.
struct Rounds {
    untimed: usize,
    least: usize,
    /// How long all of them take at least.
    seconds: f64,
}

/// Times of one program in seconds.
struct Times {
    best: f64,
    median: f64,
}

impl Times {
    fn of(mut times: Vec<f64>) -> Times {
        times.sort_by(f64::total_cmp);
        Times { best: times[0], median: times[times.len() / 2] }
    }
}

struct Measured {
    answer: Answered,
    /// Of this program, then of the library.
    times: [Times; 2],
}

/// Only the calls are timed. An error where the programs differ.
fn measure(
    clock: Clock,
    room: usize,
    made: [Made; 2],
    rounds: &Rounds,
) -> Result<Measured, String> {
    let mut buffers = [vec![0; room], vec![0; room]];
    let mut round = || -> Result<(Answered, [f64; 2]), String> {
        let mut timed = |program: usize| {
            buffers[program].fill(0);
            let start = clock.seconds();
            let answer = made[program](black_box(&mut buffers[program]));
            (answer, clock.seconds() - start)
        };
        let ((this, this_time), (other, other_time)) = (timed(0), timed(1));
        match this == other && buffers[0] == buffers[1] {
            true => Ok((this, [this_time, other_time])),
            false => Err(format!("this program {this:?}, the library {other:?}, or other bytes")),
        }
    };
    for _ in 0..rounds.untimed {
        round()?;
    }
    let (mut this, mut other) = (Vec::new(), Vec::new());
    let mut total = 0.0;
    loop {
        let (answer, [this_time, other_time]) = round()?;
        this.push(this_time);
        other.push(other_time);
        total += this_time + other_time;
        if total >= rounds.seconds && this.len() >= rounds.least {
            return Ok(Measured { answer, times: [this, other].map(Times::of) });
        }
    }
}

/// Clocks by Linux's numbers.
#[derive(Clone, Copy)]
enum Clock {
    Monotonic = 1,
    /// The processor's time of this thread, without that of others that run beside it.
    Thread = 3,
}

#[repr(C)]
#[derive(Default)]
struct Timespec {
    seconds: i64,
    nanoseconds: i64,
}

extern "C" {
    fn clock_gettime(clock: i32, time: *mut Timespec) -> i32;
}

impl Clock {
    fn seconds(self) -> f64 {
        let mut time = Timespec::default();
        // SAFETY: the time is lent for the call, in the layout of 64-bit Linux.
        let status = unsafe { clock_gettime(self as i32, &mut time) };
        assert_eq!(status, 0, "a clock that Linux has");
        time.seconds as f64 + time.nanoseconds as f64 / 1e9
    }
}

/// Runs a program whose output goes through a pipe to `out`: the number of bytes.
fn printed(mut command: Command, out: &mut impl Write) -> io::Result<usize> {
    let mut child = command.stdin(Stdio::null()).stdout(Stdio::piped()).spawn()?;
    let pipe = child.stdout.take().expect("a pipe from the program");
    let bytes = io::copy(&mut BufReader::with_capacity(65_536, pipe), out)?;
    let status = child.wait()?;
    match status.success() {
        true => Ok(bytes as usize),
        false => Err(io::Error::other(format!("a program ends with {status}"))),
    }
}

/// Tells outputs apart without holding them.
#[derive(Default)]
struct Sum(DefaultHasher);

impl Write for Sum {
    fn write(&mut self, bytes: &[u8]) -> io::Result<usize> {
        // Byte by byte: how a pipe cuts them must not matter.
        bytes.iter().for_each(|byte| self.0.write_u8(*byte));
        Ok(bytes.len())
    }

    fn flush(&mut self) -> io::Result<()> {
        Ok(())
    }
}

/// The programs that list, and the file that they are given.
struct Listing {
    rust: PathBuf,
    xpt: PathBuf,
    file: PathBuf,
}

impl Listing {
    fn commands(&self) -> [Command; 2] {
        let (mut rust, mut rattle) = (Command::new(&self.rust), Command::new(&self.xpt));
        rust.arg(&self.file);
        rattle.arg("list").arg(&self.file);
        [rust, rattle]
    }

    /// Every byte of the listings is compared first.
    fn measure(&self, file: &[u8], rounds: &Rounds) -> Outcome<Measured> {
        fs::write(&self.file, file)?;
        let [rust, rattle] = self.commands().map(|command| -> io::Result<_> {
            let mut sum = Sum::default();
            Ok((printed(command, &mut sum)?, sum.0.finish()))
        });
        if rust? != rattle? {
            return Err("the listings differ".into());
        }
        let made = |i: usize| -> Made {
            Box::new(move |_| {
                let [rust, rattle] = self.commands();
                let printed = printed(if i == 0 { rust } else { rattle }, &mut io::sink());
                Answered::Printed(printed.expect("a program that ran to its end before"))
            })
        };
        Ok(measure(Clock::Monotonic, 0, [made(0), made(1)], rounds)?)
    }
}

// The tables.

fn ordinary(listing: &Listing) -> Outcome<()> {
    println!("{HEAD}");
    for (size, count) in SIZES {
        let [file, other] = suppliers(count);
        let name = format!("{size} ({} bytes)", file.len());
        let row = |what: &str, asked: Asked, files: &[&[u8]], aim| -> Outcome<()> {
            row(&name, what, &call(asked, files, &ORDINARY)?, aim);
            Ok(())
        };
        row("check", Asked::Check, &[&file], CHECK)?;
        for (kind, question) in questions(&file) {
            row(kind, Asked::Question(question), &[&file], OTHERS)?;
        }
        row("normalise", Asked::Normal(MAX_FILE), &[&file], OTHERS)?;
        let link = Asked::Link(MAX_FILE);
        row("link with another supplier's", link.clone(), &[&file, &other], OTHERS)?;
        row("link with itself", link, &[&file, &file], OTHERS)?;
        let piled = pile(&[&file, &other, &file], &ORDINARY)?;
        self::row(&name, "pile with another supplier's and itself", &piled, OTHERS);
        let salvaged = salvage(&broken(&file), &ORDINARY)?;
        self::row(&name, "salvage, one interface broken", &salvaged, OTHERS);
        self::row(&name, "list", &listing.measure(&file, &ORDINARY)?, Aim::None);
    }
    let others: [(&str, fn(&mut Typelib)); 2] =
        [("200 KB, minor 2", newer), ("200 KB, accents", accented)];
    for (name, change) in others {
        let file = changed(SIZES[1].1, change);
        let name = format!("{name} ({} bytes)", file.len());
        row(&name, "check", &call(Asked::Check, &[&file], &ORDINARY)?, CHECK);
        row(&name, "normalise", &call(Asked::Normal(MAX_FILE), &[&file], &ORDINARY)?, OTHERS);
        let link = Asked::Link(MAX_FILE);
        row(&name, "link with itself", &call(link, &[&file, &file], &ORDINARY)?, OTHERS);
    }
    Ok(())
}

/// One question of each kind: the one that takes the library longest. Methods are asked for by a
/// name that is not there, as the whole chain is walked then.
fn slowest(file: &[u8]) -> Outcome<(&'static str, Measured)> {
    let found = ["method by name, far up", "method by name, own"];
    let mut all = Vec::new();
    for (kind, question) in questions(file).into_iter().filter(|(kind, _)| !found.contains(kind)) {
        all.push((kind, call(Asked::Question(question), &[file], &WORST)?));
    }
    let time = |asked: &(&str, Measured)| asked.1.times[1].best;
    Ok(all.into_iter().max_by(|a, b| time(a).total_cmp(&time(b))).expect("a question"))
}

fn worst(listing: &Listing) -> Outcome<()> {
    println!("{HEAD}");
    let mut cases = hostile::cases();
    cases.retain(|case| !case.name.starts_with('g'));
    let long = ("l: 1,024 entries share one descriptor, long names", hostile::long_listing(1_024));
    let cases = cases.iter().map(|case| (case.name, &case.bytes)).chain([(long.0, &long.1)]);
    for (name, file) in cases {
        let row = |call: &str, measured: Measured| row(name, call, &measured, LONGEST);
        row("check", call(Asked::Check, &[file], &WORST)?);
        let (kind, measured) = slowest(file)?;
        row(&format!("slowest question: {kind}"), measured);
        row("normalise", call(Asked::Normal(MAX_FILE), &[file], &WORST)?);
        row("link with itself", call(Asked::Link(MAX_FILE), &[file, file], &WORST)?);
        row("list", listing.measure(file, &WORST)?);
    }
    let texts = call(Asked::Check, &[&long_texts()], &WORST)?;
    row("m: texts of characters of four bytes", "check", &texts, LONGEST);
    for case in &hostile::damaged() {
        row(case.name, "salvage", &salvage(&case.bytes, &WORST)?, LONGEST);
    }
    for (name, [first, second]) in &hostile::linked() {
        let measured = call(Asked::Link(MAX_FILE), &[first, second], &WORST)?;
        row(name, "link of two", &measured, LONGEST);
    }
    Ok(())
}

/// The first line that a program prints.
fn said(program: &str, arguments: &[&str]) -> Outcome<String> {
    let output = Command::new(program).args(arguments).output()?;
    let text = String::from_utf8(output.stdout)?;
    Ok(text.lines().next().unwrap_or("unknown").to_string())
}

fn processor() -> Outcome<String> {
    let all = String::from_utf8(Command::new("lscpu").env("LC_ALL", "C").output()?.stdout)?;
    let name = all.lines().find_map(|line| line.strip_prefix("Model name:"));
    Ok(name.map_or("unknown", str::trim).to_string())
}

fn run(listing: &Listing, part: Option<&str>) -> Outcome<()> {
    let (date, kit) = (said("date", &["-u", "+%F"])?, said("rt", &["--version"])?);
    println!("{date}; {kit}; {}; {}.\n", said("rustc", &["--version"])?, processor()?);
    println!("{CLEARED}");
    if part != Some("rdb") {
        println!("Ordinary files:\n");
        ordinary(listing)?;
        println!("\nThe legal worst cases:\n\n{NAMES}");
        worst(listing)?;
    }
    if part != Some("typelibs") {
        println!("\nOrdinary files of types.rdb, as office suites write them:\n");
        rdb::ordinary()?;
        println!("\nThe legal worst cases of types.rdb, as the document says:\n");
        rdb::worst()?;
    }
    Ok(())
}

fn main() -> ExitCode {
    let folder = std::env::temp_dir().join(format!("bench-{}", std::process::id()));
    let rust = std::env::current_exe().expect("this program's path").with_file_name("list");
    let xpt = std::env::args_os().nth(1).map_or("target/bin/xpt".into(), PathBuf::from);
    if let Some(absent) = [&rust, &xpt].into_iter().find(|program| !program.is_file()) {
        eprintln!("bench: no program {}", absent.display());
        return ExitCode::FAILURE;
    }
    let listing = Listing { rust, xpt, file: folder.join("file.xpt") };
    let part = std::env::args().nth(2);
    let made = fs::create_dir(&folder).map_err(Into::into);
    let done = made.and_then(|()| run(&listing, part.as_deref()));
    _ = fs::remove_dir_all(&folder);
    match done {
        Ok(()) => ExitCode::SUCCESS,
        Err(why) => {
            eprintln!("bench: {why}");
            ExitCode::FAILURE
        }
    }
}
