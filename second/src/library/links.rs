//! Normal forms and links of many files: answers, every byte of the buffers, and the laws of
//! linking.

use super::{cases::Asked, Session, OWN};
use crate::making::builder::{Sharing, Typelib};
use crate::making::{damage, generate, hostile, model, pairs, rng::Rng, shape};
use crate::program::{check::check, link::LinkRefusal, refusal, Refusal, MAX_FILE};
use crate::tally::{hash, numbered, Came, LINK, REFUSAL};
use std::collections::HashMap;

/// What a call wrote, or its refusal.
pub type Written = Result<Vec<u8>, LinkRefusal>;

type What = &'static str;

/// A file, with its model where it is accepted.
pub struct File {
    pub bytes: Vec<u8>,
    pub model: Result<Typelib, Refusal>,
}

impl File {
    pub fn new(bytes: Vec<u8>) -> File {
        let model = check(&bytes).map(|_| model::read(&bytes));
        File { bytes, model }
    }
}

pub const ORDERS: [&str; 2] = ["first with second", "second with first"];

const NORMAL: &[&str] = numbered!("normal ", "");

/// A buffer's length by what is needed, which is not 0.
pub type Room = (&'static str, fn(usize, &mut Rng) -> usize);

/// Those that are the same for all files come last.
pub const ROOMS: [Room; 9] = [
    ("buffer empty", |_, _| 0),
    ("buffer short by one", |needed, _| needed - 1),
    ("buffer short", |needed, rng| rng.below(needed)),
    ("buffer exact", |needed, _| needed),
    ("buffer longer by one", |needed, _| needed + 1),
    ("buffer longer", |needed, rng| needed + rng.range(2, 300)),
    ("buffer much longer", |needed, rng| 2 * needed + rng.range(1_000, 20_000)),
    ("buffer of 1,048,576", |_, _| MAX_FILE),
    ("buffer of over 1,048,576", |_, rng| MAX_FILE + rng.range(1, 300)),
];

/// One that is too short, except where nothing is written.
pub fn short(rng: &mut Rng) -> Room {
    *rng.pick(&ROOMS[..3])
}

/// One that does.
pub fn wide(rng: &mut Rng) -> Room {
    *rng.pick(&ROOMS[3..7])
}

/// Bytes that stand before a buffer and after it.
pub const GUARD: usize = 64;

/// Calls with a buffer of `room` bytes, guards around it. The answer, and all bytes afterwards.
pub fn lent<T>(before: &[u8], room: usize, call: impl FnOnce(&mut [u8]) -> T) -> (T, Vec<u8>) {
    let mut bytes = before.to_vec();
    let answer = call(&mut bytes[GUARD..GUARD + room]);
    (answer, bytes)
}

pub struct Run<'s> {
    pub session: &'s mut Session,
    pub rng: Rng,
    /// Buffers are filled with parts of it before each call.
    noise: Vec<u8>,
    scratch: Vec<u8>,
}

fn bytes<'f>(files: &[&'f File]) -> Vec<&'f [u8]> {
    files.iter().map(|file| &file.bytes[..]).collect()
}

/// What tells a row of files from others.
pub fn together(files: &[&File]) -> Came {
    Came { file: Some(hash(&bytes(files))), ..Came::default() }
}

/// The place of a row is the number of the refusal.
fn numbered_by(answer: &Written) -> Option<u64> {
    answer.as_ref().err().map(|(_, refusal)| refusal.number.into())
}

impl<'s> Run<'s> {
    pub fn new(session: &'s mut Session, rng: &mut Rng) -> Run<'s> {
        let noise = (0..3 * MAX_FILE).map(|_| rng.byte()).collect();
        let rng = Rng::new(rng.number());
        Run { session, rng, noise, scratch: vec![0; MAX_FILE] }
    }

    pub fn add(&mut self, about: What, what: What) {
        self.session.tally.add(about, what);
    }

    pub fn came(&mut self, about: What, what: What, came: Came) {
        self.session.tally.came(about, what, came);
    }

    /// A file made by a generator. What it shows is counted.
    fn file(&mut self, way: What, bytes: Vec<u8>) -> File {
        let file = File::new(bytes);
        if let Ok(lib) = &file.model {
            let came = Came { way: Some(way), ..together(&[&file]) };
            let shapes = shape::shapes(&file.bytes, lib);
            shapes.into_iter().for_each(|shape| self.came("shape", shape, came));
        }
        file
    }

    /// The length that is needed; where nothing can be written, one that might have been.
    fn needed(&mut self, files: &[&File]) -> usize {
        let read = files.iter().map(|file| file.bytes.len()).sum::<usize>();
        OWN.write(&bytes(files), &mut self.scratch).unwrap_or(read.clamp(1, MAX_FILE))
    }

    /// Has both programs write and compares answers and buffers, byte by byte, guards and files
    /// included.
    pub fn call(&mut self, files: &[&File], room: usize) -> Written {
        let (about, asked) = match files.len() {
            1 => ("normal forms", Asked::Normal(room)),
            _ => ("links", Asked::Link(room)),
        };
        self.add("all", about);
        let from = self.rng.below(1_000);
        let before = &self.noise[from..from + room + 2 * GUARD];
        let bytes = bytes(files);
        let copies: Vec<Vec<u8>> = bytes.iter().map(|file| file.to_vec()).collect();
        let copies: Vec<&[u8]> = copies.iter().map(|file| &file[..]).collect();
        let (own, mut out) = lent(before, room, |out| OWN.write(&bytes, out));
        let (other, out_then) = lent(before, room, |out| self.session.other.write(&copies, out));
        if other != own || out_then != out || copies != bytes {
            self.session.found(about, asked, &bytes);
        }
        let written = own.map(|length| {
            out.truncate(GUARD + length);
            out.split_off(GUARD)
        });
        if let Ok(form) = &written {
            let Some(uses) = shape::uses(form) else {
                println!("a name stands twice, or not where it is used first");
                self.session.found(about, asked, &bytes);
            };
            let came = together(files);
            uses.into_iter().for_each(|(first, then)| self.came(first, then, came));
        }
        written
    }

    /// Counts a law of linking that holds. Files of which it does not are told of: both programs
    /// have answered alike, so that there is nothing to make smaller.
    pub fn law(&mut self, law: &str, holds: bool, what: What, files: &[&File], came: Came) {
        if !holds {
            println!("the law of {law} does not hold");
            self.session.found(law, Asked::Link(MAX_FILE), &bytes(files));
        }
        self.came("law", what, came);
    }

    /// Counts a call with a buffer of this kind.
    fn count_room(&mut self, about: What, files: &[&File], room: (What, usize), answer: &Written) {
        self.add(about, room.0);
        let (whose, what) = match (files.len(), answer) {
            (1, Ok(_)) => ("normal form written", ""),
            (1, Err(_)) => ("normal form refused", "of a normal form"),
            (_, Ok(_)) => ("link written", ""),
            (_, Err(_)) => ("link refused", "of a link"),
        };
        let came = together(files);
        self.came(whose, room.0, Came { place: numbered_by(answer), ..came });
        match answer {
            Ok(bytes) if bytes.len() < room.1 => self.add(about, "bytes past the end kept"),
            Err((_, Refusal { number: refusal::BUFFER, place })) => {
                let came = Came { place: Some(*place as u64), ..came };
                self.came(REFUSAL[refusal::BUFFER as usize], what, came);
            }
            _ => {}
        }
    }

    /// One link with a buffer of this kind, which must be so long. What comes is told.
    fn link(&mut self, order: What, files: [&File; 2], needed: usize, room: Room) -> Written {
        let length = room.1(needed, &mut self.rng);
        let answer = self.call(&files, length);
        let (about, place) = match &answer {
            Ok(_) => ("linked", None),
            Err((0, why)) => (LINK[why.number as usize], Some(why.place as u64)),
            Err(_) => ("link, file", numbered_by(&answer)),
        };
        self.came(about, order, Came { place, ..Came::default() });
        if let Err((which @ 1.., _)) = answer {
            let whose = match (which, &files[1].model) {
                (1, Err(_)) => "both",
                (1, Ok(_)) => "the first",
                _ => "the second",
            };
            self.add(about, whose);
            self.came("file refused", whose, Came { place, ..together(&files) });
        }
        self.count_room(about, &files, (room.0, length), &answer);
        answer
    }

    /// A pair in both orders, each with several buffers; and that swapping changes no more than
    /// it may.
    fn pair(&mut self, made: What, a: &File, b: &File) {
        self.add("made", made);
        let came = Came { way: Some(made), ..together(&[a, b]) };
        self.came("all", "pairs of files", came);
        let [one, two] = [(ORDERS[0], [a, b]), (ORDERS[1], [b, a])].map(|(order, files)| {
            let needed = self.needed(&files);
            let room = match self.rng.below(100) {
                0 => ROOMS[7],
                1 => ROOMS[8],
                _ => wide(&mut self.rng),
            };
            let answer = self.link(order, files, needed, room);
            let room = short(&mut self.rng);
            let _ = self.link(order, files, needed, room);
            answer
        });
        let (Ok(first), Ok(second)) = (&a.model, &b.model) else { return };
        match (&one, &two) {
            (Err((which, one)), Err((other, two))) => {
                let same = which == other && one.number == two.number;
                self.law("swapping", same, "swapping: number", &[a, b], came);
                let about = REFUSAL[one.number as usize];
                self.came(about, "in both orders", came);
                for (order, place) in ORDERS.into_iter().zip([one.place, two.place]) {
                    self.came(about, order, Came { place: Some(place as u64), ..came });
                }
            }
            _ => {
                self.law("swapping", one == two, "swapping: length and bytes", &[a, b], came);
                // What a link wrote is accepted, and its own normal form.
                let file = File::new(one.unwrap_or_default());
                let alone = [a, b].map(|file| OWN.write(&[&file.bytes], &mut self.scratch));
                let grows = alone.iter().all(|own| own.is_ok_and(|own| own <= file.bytes.len()));
                self.law("growing", grows, "no shorter than either's", &[a, b], came);
                let same = self.call(&[&file], file.bytes.len()).as_ref() == Ok(&file.bytes);
                let alone = together(&[&file]);
                self.law("reading back", same, "its own normal form", &[a, b], alone);
                let between = shape::between(first, second);
                between.into_iter().for_each(|what| self.came("pair", what, came));
            }
        }
    }

    /// A pair in both orders, with every kind of buffer.
    fn all_rooms(&mut self, a: &File, b: &File) {
        for (order, files) in ORDERS.into_iter().zip([[a, b], [b, a]]) {
            let needed = self.needed(&files);
            for room in ROOMS {
                let _ = self.link(order, files, needed, room);
            }
        }
    }

    /// Both ways to group a triple end with the same bytes, or neither ends with any.
    ///
    /// The files are in one of three orders; mostly the buffers are shorter and take less time.
    fn triple(&mut self, made: What, round: usize, orders: [[&File; 3]; 3]) {
        let room = if round.is_multiple_of(10) { MAX_FILE } else { 131_072 };
        let files = orders[round % 3];
        let [a, b, c] = files;
        let left = self.call(&[a, b], room);
        let left = left.and_then(|ab| self.call(&[&File::new(ab), c], room));
        let right = self.call(&[b, c], room);
        let right = right.and_then(|bc| self.call(&[a, &File::new(bc)], room));
        let came = Came { place: numbered_by(&left), way: Some(made), ..together(&files) };
        let what = if left.is_ok() { "grouping: same bytes" } else { "grouping: neither" };
        self.law("grouping", left.ok() == right.ok(), what, &files, came);
        if room == MAX_FILE {
            self.came("law", "grouping: buffers of 1,048,576", came);
        }
    }

    /// A file with itself and with an empty one: as normalising.
    fn self_and_empty(&mut self, a: &File) {
        let room = *self.rng.pick(&[0, 36, 200, 2_000, 20_000, 20_000, MAX_FILE]);
        let normal = self.call(&[a], room);
        let empty = File::new(pairs::empty(&mut self.rng).bytes());
        let came = together(&[a]);
        let same = self.call(&[a, a], room) == normal;
        self.law("itself", same, "itself", &[a], came);
        self.add("law", "self");
        let same = [[a, &empty], [&empty, a]].map(|files| self.call(&files, room) == normal);
        self.law("empty", same == [true; 2], "with an empty file", &[a, &empty], came);
        self.add("law", "empty");
        if room == MAX_FILE {
            self.came("law", "itself, empty: buffers of 1,048,576", came);
        }
    }

    /// Two files have the same normal form exactly where they mean the same.
    fn same_form(&mut self, a: &File, b: &File) {
        let (Ok(first), Ok(second)) = (&a.model, &b.model) else { return };
        let forms = (self.call(&[a], MAX_FILE / 4), self.call(&[b], MAX_FILE / 4));
        let (Ok(one), Ok(two)) = &forms else { return };
        let same = model::same_meaning(first, second);
        let what = if same { "same meaning, same bytes" } else { "other meaning, other bytes" };
        self.law("meaning", (one == two) == same, what, &[a, b], together(&[a, b]));
        let (form, came) = (model::read(one), together(&[a]));
        let same = model::same_meaning(first, &form);
        self.law("writing", same, "a form means the same", &[a], came);
        let same = model::form(&form, Sharing::Equal) == *one;
        self.law("names", same, "as built with each name once", &[a], came);
        let before = model::form(&form, Sharing::None).len();
        let is_shorter = one.len() < before;
        let what = if is_shorter { "shorter than before" } else { "as long as before" };
        self.law("length", one.len() <= before, what, &[a], came);
    }

    /// A file's normal form, with several buffers.
    fn normal(&mut self, file: &File, rooms: &[Room]) {
        let needed = self.needed(&[file]);
        for room in rooms {
            let length = room.1(needed, &mut self.rng);
            let answer = self.call(&[file], length);
            let about = match &answer {
                Ok(bytes) => {
                    self.add("normal", "written");
                    if *bytes != file.bytes {
                        self.add("normal", "changed");
                    }
                    "normal"
                }
                Err((_, why)) if file.model.is_err() => {
                    self.session.tally.add_at("normal, file", "refused", why.number.into());
                    "normal, file"
                }
                Err((_, why)) => {
                    if why.number == refusal::FORM_SIZE {
                        let came = Came { place: Some(why.place as u64), ..together(&[file]) };
                        self.came(REFUSAL[why.number as usize], "of a normal form", came);
                    }
                    NORMAL[why.number as usize]
                }
            };
            self.count_room(about, &[file], (room.0, length), &answer);
        }
    }
}

/// Links and normalises many files.
pub fn run(session: &mut Session) {
    let seed = session.seed;
    let rng = &mut Rng::new(seed);
    let mut run = Run::new(session, rng);
    edges(&mut run, rng);
    for (made, files) in pairs::spread(rng) {
        let [a, b] = files.map(|lib| run.file(made, lib.bytes()));
        run.pair(made, &a, &b);
    }
    for round in 0..3_000 {
        small(&mut run, rng, round);
    }
    refused(&mut run, rng, seed);
}

/// Files and pairs about the greatest sizes.
fn edges(run: &mut Run, rng: &mut Rng) {
    let all = ROOMS;
    for (made, files) in [pairs::wide(rng), pairs::long()].concat() {
        let [a, b] = files.map(|lib| run.file(made, lib.bytes()));
        run.pair(made, &a, &b);
        run.all_rooms(&a, &b);
        run.normal(&a, &all);
        run.normal(&b, &all);
        run.self_and_empty(&a);
    }
    for n in 1..=16 {
        let a = run.file("overlapping heads", generate::overlapping_heads(rng, n));
        let b = run.file("names in descriptors", generate::names_in_descriptors(rng, 3 * n));
        let c = run.file("wide", generate::wide(rng, 40).bytes());
        for pair in [[&a, &b], [&a, &c], [&b, &c], [&a, &a]] {
            run.pair("records that overlap", pair[0], pair[1]);
        }
        run.normal(&a, &all);
        run.normal(&b, &all);
        run.self_and_empty(&a);
        run.self_and_empty(&b);
    }
    // Little bytes, a long normal form: 69 descriptors are too long, for all that they have one name.
    for n in [2, 5, 66, 67, 68, 69, 70, 71, 72] {
        let file = run.file("records that many share", hostile::long_listing(n));
        run.normal(&file, &all);
    }
    for (made, files) in pairs::ends() {
        let [a, b] = files.map(|lib| run.file(made, lib.bytes()));
        run.pair(made, &a, &b);
        run.normal(&a, &[short(rng), wide(rng), ROOMS[7]]);
    }
    for (made, files) in pairs::edge_triples() {
        let [a, b, c] = files.each_ref().map(|lib| File::new(lib.bytes()));
        run.triple(made, 0, [[&a, &b, &c]; 3]);
        run.triple(made, 0, [[&c, &a, &b]; 3]);
    }
}

/// Files for the check, most of them refused: some of every kind, and now and then one.
fn refused(run: &mut Run, rng: &mut Rng, seed: u64) {
    let mut kinds: HashMap<&str, usize> = HashMap::new();
    let mut numbers: HashMap<u32, usize> = HashMap::new();
    let mut last_refused = File::new(Vec::new());
    damage::everything(seed, &mut |made| {
        let counter = kinds.entry(made.how).or_default();
        *counter += 1;
        if *counter > 3 && !counter.is_multiple_of(701) {
            return;
        }
        let file = File::new(made.bytes.to_vec());
        run.normal(&file, &[short(rng), wide(rng)]);
        let partner = File::new(pairs::view(&pairs::world(rng), rng).bytes());
        run.pair("with a file for the check", &file, &partner);
        let Err(Refusal { number, .. }) = file.model else { return };
        run.pair("both refused", &file, &last_refused);
        // Every kind of buffer with every refusal.
        let met = numbers.entry(number).or_default();
        *met += 1;
        if *met <= 3 {
            run.all_rooms(&file, &partner);
            run.normal(&file, &ROOMS);
        }
        last_refused = file;
    });
}

/// Files of one small world, and conflicts between them.
fn small(run: &mut Run, rng: &mut Rng, round: usize) {
    let world = pairs::world(rng);
    let views = [0; 3].map(|_| pairs::view(&world, rng));
    let files = views.each_ref().map(|lib| run.file("view of a world", lib.bytes()));
    let [a, b, c] = &files;
    run.pair("one world", a, b);
    for file in &files {
        run.normal(file, &[short(rng), wide(rng)]);
    }
    if round.is_multiple_of(2) {
        run.triple("one world", round, [[a, b, c]; 3]);
        run.self_and_empty(a);
        let laid = run.file("laid out again", pairs::relaid(&views[0], rng).bytes());
        run.same_form(a, &laid);
    }
    conflicts(run, rng, round, &views, &files);
    chains(run, rng, round, c);
}

/// Conflicts of one kind and of several.
fn conflicts(run: &mut Run, rng: &mut Rng, round: usize, views: &[Typelib; 3], files: &[File; 3]) {
    let [a, b, c] = files;
    let mut conflicting = Vec::new();
    for _ in 0..5 {
        let mut other = views[1].clone();
        if let Some(made) = pairs::conflict(&views[0], &mut other, rng) {
            let other = run.file("a conflict put in", other.bytes());
            run.pair(made, a, &other);
            conflicting.push(other);
        }
    }
    if let Some(other) = conflicting.first() {
        run.triple("a conflict", round, [[a, other, c], [other, c, a], [c, a, other]]);
        run.same_form(b, other);
    }
    let mut other = views[1].clone();
    let put_in = (0..6).filter_map(|_| pairs::conflict(&views[0], &mut other, rng)).count();
    if put_in > 1 {
        let other = run.file("two conflicts put in", other.bytes());
        run.pair("two conflicts", a, &other);
    }
}

/// Chains that do not end in the union.
fn chains(run: &mut Run, rng: &mut Rng, round: usize, c: &File) {
    let [mut first, mut second] = pairs::endless(rng);
    let (a, b) = (run.file("endless", first.bytes()), run.file("endless", second.bytes()));
    run.pair("an endless chain", &a, &b);
    if round.is_multiple_of(4) {
        run.triple("an endless chain", round, [[&a, &b, c], [&a, c, &b], [c, &b, &a]]);
    }
    if pairs::conflict(&first, &mut second, rng).is_some()
        || pairs::conflict(&second, &mut first, rng).is_some()
    {
        let (a, b) = (run.file("endless", first.bytes()), run.file("endless", second.bytes()));
        run.pair("an endless chain and a conflict", &a, &b);
    }
    // A family resolves what the other world only names, if keys meet at all.
    let family = run.file("family", generate::family(rng).bytes());
    run.pair("two worlds", &a, &family);
}
