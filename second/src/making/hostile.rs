//! Good files that are hard on a check, and a large ordinary one; bad ones that are hard to salvage.

use super::generate::{chain, iid, index_tail, LETTERS};
use super::{builder::*, rng::Rng};

/// A file and what is hard about it.
pub struct Case {
    pub name: &'static str,
    pub n: usize,
    pub bytes: Vec<u8>,
}

pub fn cases() -> Vec<Case> {
    let [up, down] = chains();
    let all = [
        ("a: 1,024 entries share one descriptor", shared_descriptor(false).bytes),
        ("b: arrays whose numbers name the last argument", deep_arguments()),
        ("c: getters and setters of nearly one name", near_names()),
        ("d: descriptors that overlap, long methods", overlapping(Ends::Long).bytes),
        ("e: a chain of 1,024 parents, upward", up),
        ("e: a chain of 1,024 parents, downward", down),
        ("f: keys with a long common start", near_keys(0).bytes()),
        ("g: an ordinary file", ordinary()),
        ("h: descriptors that overlap, accessors", overlapping(Ends::Accessors).bytes),
        ("i: 240,000 references to a key of 510 bytes", shared_descriptor(true).bytes),
        ("n: 71,680 uses of 2,000 names with a long common start", near_stock(70, 2_000).bytes()),
        ("o: 148,480 uses of four names with a long common start", near_stock(145, 4).bytes()),
        ("p: 94,208 names, each used once", many_names()),
        ("r: 24,576 names of one sum by powers of 33", one_sum()),
        ("v: descriptors that overlap, short methods", overlapping(Ends::Short).bytes),
        ("w: descriptors that overlap, in two ways", overlapping_twice()),
    ];
    let case = |(name, bytes): (&'static str, Vec<u8>)| {
        let n = usize::from(u16::from_be_bytes([bytes[18], bytes[19]]));
        assert!(bytes.len() <= MAX_FILE);
        Case { name, n, bytes }
    };
    all.into_iter().map(case).collect()
}

/// Files with bad descriptors that are hard to salvage, and how many entries are changed.
pub fn damaged() -> Vec<Case> {
    let shared = ("s: 1,024 entries share one bad descriptor", spoilt(shared_descriptor(false)));
    let ends =
        ("t: a bad byte at the end of descriptors that overlap", spoilt(overlapping(Ends::Long)));
    let round = ("u: a cycle of 1,024", round(MAX_INTERFACES).bytes());
    // In (t) one entry has a descriptor of its own.
    let cases = [(shared, MAX_INTERFACES), (ends, MAX_INTERFACES - 1), (round, MAX_INTERFACES)];
    cases.into_iter().map(|((name, bytes), n)| Case { name, n, bytes }).collect()
}

/// Each entry is the parent of the one before it, and the first of the last.
pub fn round(count: usize) -> Typelib {
    let mut lib = Typelib::plain(count);
    (0..count).for_each(|i| lib.resolve(i, Descriptor::below(1 + (i + 1) % count)));
    lib
}

/// With a reserved bit in the flags that end the first descriptor.
fn spoilt(built: Built) -> Vec<u8> {
    let is_end = |spot: &&Spot| spot.field == Field::InterfaceFlags && spot.of == 0;
    let flags = built.spots.iter().find(is_end).expect("a descriptor ends in its flags");
    let mut bytes = built.bytes.clone();
    bytes[flags.at] |= 1;
    bytes
}

/// A name of the greatest length: many letters alike, the last two from the number.
fn long_name(number: usize) -> Vec<u8> {
    let mut name = vec![b'a'; MAX_IDENTIFIER];
    name[MAX_IDENTIFIER - 2] = LETTERS[number / 63];
    name[MAX_IDENTIFIER - 1] = LETTERS[number % 63];
    name
}

/// (a) and (i) One descriptor of nearly the whole file, for every entry. It refers to the last,
/// whose key is as long as can be in (i).
fn shared_descriptor(long_key: bool) -> Built {
    let argument = Parameter::new(IN, Type::with(POINTER | INTERFACE, [4, 0, 0]));
    let method = Method::new(0, b"m", vec![argument; 242], Parameter::simple(0, VOID));
    let d = Descriptor {
        methods: vec![method; MAX_METHODS],
        constants: vec![Constant::new(b"k", 2, 1); MAX_CONSTANTS],
        ..Descriptor::default()
    };
    let mut lib = sharing(MAX_INTERFACES, d);
    if long_key {
        lib.entries[MAX_INTERFACES - 1].name = long_name(0);
        lib.entries[MAX_INTERFACES - 1].namespace = Some(long_name(1));
    }
    lib.build()
}

/// 254 arguments of eight arrays, all of whose numbers name the last argument, a uint32.
fn deep_method(flags: u8, name: &[u8], result: Parameter) -> Method {
    let deep = Type::nested(8, 254, POINTER | SIZED_STRING, [254, 254, 0]);
    let mut arguments = vec![Parameter::new(IN, deep); 254];
    arguments.push(Parameter::simple(IN, UINT32));
    Method::new(flags, name, arguments, result)
}

/// (b) As many such methods as fit.
fn deep_arguments() -> Vec<u8> {
    let method = deep_method(0, b"m", Parameter::simple(0, VOID));
    let size = Descriptor::of(vec![method.clone()]).size() - Descriptor::default().size();
    let count = (MAX_FILE - 100) / size;
    Typelib { sharing: Sharing::Equal, ..Typelib::of(vec![method; count]) }.bytes()
}

/// (c) 512 getters of one long name and 512 setters of another in each descriptor, which differ
/// in the last letter. A descriptor takes 8,199 bytes, so that beside 1,024 entries 124 fit, not
/// 127.
fn near_names() -> Vec<u8> {
    let mut methods = vec![Method::plain(GETTER, &long_name(0)); 512];
    methods.extend(vec![Method::plain(SETTER, &long_name(1)); 512]);
    let d = Descriptor::of(methods);
    let mut lib = Typelib { sharing: Sharing::Equal, ..Typelib::plain(MAX_INTERFACES) };
    let count = (MAX_FILE - lib.bytes().len() - 2 * (MAX_IDENTIFIER + 1)) / d.size();
    for (i, entry) in lib.entries.iter_mut().enumerate() {
        entry.descriptor = Some(i % count);
    }
    lib.descriptors = vec![d; count];
    lib.bytes()
}

/// The prefix of a pointer to an interface is also the parent in a head (see below).
const ROOT: usize = (POINTER | INTERFACE) as usize;

/// What descriptors that overlap end in.
#[derive(Clone, Copy)]
enum Ends {
    Long,
    Accessors,
    Short,
}

/// (d), (h) and (v) Descriptors at 1,023 places, all of which end in the same bytes.
///
/// Each of 1,024 not-XPCOM methods has as result a pointer to interface k: `00 92`, then k as 2
/// bytes. Read as a descriptor's head this is parent 146 and k methods; k is the number of
/// methods that follow. Entry 146 is a root of its own. A head with parent 0 would have to end
/// in a result of one byte of prefix, which gives too few different counts.
///
/// Long: only the last methods have arguments, very many, so that nearly every descriptor has
/// nearly the whole file. Accessors: the methods have none, but are getters of long names. Short:
/// each is of 46 bytes, with a long name and five arguments, the first of eight arrays; the library
/// remembers methods from 48 bytes on.
fn overlapping(ends: Ends) -> Built {
    let mut methods = Vec::new();
    for following in (0..MAX_METHODS).rev() {
        let of = Type::with(POINTER | INTERFACE, index_tail(following.max(1)));
        let (result, kind) = (Parameter::new(0, of), [GETTER, SETTER][following % 2]);
        methods.push(match (ends, following) {
            (Ends::Long, 0..141) => deep_method(NOT_XPCOM, b"m", result),
            (Ends::Long, _) => Method::new(NOT_XPCOM, b"m", Vec::new(), result),
            (Ends::Accessors, _) => {
                Method::new(NOT_XPCOM | kind, &long_name(following), Vec::new(), result)
            }
            (Ends::Short, _) => {
                let deep = Type::nested(8, 1, POINTER | SIZED_STRING, [1, 1, 0]);
                let mut arguments = vec![Parameter::simple(IN, UINT32); 5];
                arguments[0] = Parameter::new(IN, deep);
                Method::new(NOT_XPCOM, &long_name(0), arguments, result)
            }
        });
    }
    let mut lib = sharing(MAX_INTERFACES, Descriptor { methods, ..Descriptor::below(ROOT) });
    lib.resolve(ROOT - 1, Descriptor::default());
    let mut built = lib.build();
    let heads = built.placed[0].methods[1..].iter().map(|end| end - 4).collect();
    point_others(&mut built, heads);
    built
}

/// Lets the entries but the first and the root have descriptors at these places.
fn point_others(built: &mut Built, places: Vec<usize>) {
    let others = (1..MAX_INTERFACES).filter(|i| *i != ROOT - 1);
    for (i, place) in others.zip(places) {
        built.point(built.entry(i) + 24, place);
    }
}

/// (w) As (d), but the same bytes are methods in two ways, and descriptors of one and of the
/// other take turns. The four first arguments of each method are, read as bytes, a result and the
/// start of a method that ends in the same place of the next one; its own start is in the same
/// way three arguments of that. So the two start in the same few bytes all over the file.
fn overlapping_twice() -> Vec<u8> {
    const COUNT: usize = MAX_METHODS / 2;
    let mut methods = Vec::new();
    for following in (0..COUNT).rev() {
        let of = Type::with(POINTER | INTERFACE, index_tail(following.max(1)));
        let result = Parameter::new(0, of);
        let deep = if following < 150 { 235 } else { 0 };
        // The other way ends at the last of these, whose bytes are no constants and no flags.
        let (flags, count) = if following == 0 { (0, 4) } else { (SETTER | NOT_XPCOM, 4 + deep) };
        let start = [(flags, 0), (0, 1), (0, count)].map(|(f, b)| Parameter::simple(f, b));
        let mut arguments = vec![result.clone()];
        arguments.extend(start);
        arguments.extend((0..deep).map(|i| match deep - i {
            // What the numbers name in the one way and in the other.
            1 | 5 => Parameter::simple(IN, UINT32),
            _ => {
                let of = Type::nested(8, deep - 1, POINTER | SIZED_STRING, [deep - 1, deep - 1, 0]);
                Parameter::new(IN, of)
            }
        }));
        methods.push(Method::new(SETTER | NOT_XPCOM, b"m", arguments, result));
    }
    let mut lib = sharing(MAX_INTERFACES, Descriptor { methods, ..Descriptor::below(ROOT) });
    lib.resolve(ROOT - 1, Descriptor::default());
    // All methods are named by the pointer 256, whose bytes can be of arguments.
    lib.entries[0].name = vec![b'a'; 200];
    lib.entries[0].namespace = Some(vec![b'a'; 200]);
    let mut built = lib.build();
    let starts = built.placed[0].methods[..COUNT].to_vec();
    for start in &starts {
        built.point(start + 1, built.pool + 255);
    }
    let pairs = starts.windows(2).flat_map(|pair| [pair[0] + 6, pair[1] - 4]);
    point_others(&mut built, pairs.collect());
    built.bytes
}

/// A file of at most 50 KB whose listing has 540 KB for each entry: the entries share a
/// descriptor, whose methods and constants share a name of the greatest length.
pub fn long_listing(count: usize) -> Vec<u8> {
    let d = Descriptor {
        methods: vec![Method::plain(0, &long_name(0)); MAX_METHODS],
        constants: vec![Constant::new(&long_name(0), 1, 0x8000); MAX_CONSTANTS],
        ..Descriptor::default()
    };
    sharing(count, d).bytes()
}

/// Entries that share a descriptor.
pub fn sharing(count: usize, d: Descriptor) -> Typelib {
    let mut lib = Typelib { sharing: Sharing::Equal, ..Typelib::plain(count) };
    lib.entries.iter_mut().for_each(|entry| entry.descriptor = Some(0));
    lib.descriptors.push(d);
    lib
}

/// (e) Chains of 1,024 parents, upward and downward.
pub fn chains() -> [Vec<u8>; 2] {
    [true, false].map(|upward| chain(MAX_INTERFACES, upward).bytes())
}

/// (f) Names of 255 letters with 253 in common and one namespace, stored anew for each. With 254
/// in common only 64 names can differ.
fn near_keys(namespace: usize) -> Typelib {
    let mut lib = Typelib::plain(MAX_INTERFACES);
    for (i, entry) in lib.entries.iter_mut().enumerate() {
        entry.name = long_name(i);
        entry.namespace = Some(long_name(namespace));
    }
    lib
}

/// Entries with as many constants as can be.
fn of_constants(count: usize, name: impl Fn(usize) -> Vec<u8>) -> Typelib {
    let mut lib = Typelib { sharing: Sharing::Equal, ..Typelib::plain(count) };
    for i in 0..count {
        let numbers = MAX_CONSTANTS * i..MAX_CONSTANTS * (i + 1);
        let constants = numbers.map(|number| Constant::new(&name(number), 1, 7)).collect();
        lib.resolve(i, Descriptor { constants, ..Descriptor::default() });
    }
    lib
}

/// (n) and (o) Names with 253 letters in common, used in turns: as many as there is room for beside
/// half of the uses, and few with as many uses as can be.
fn near_stock(count: usize, names: usize) -> Typelib {
    of_constants(count, |number| long_name(number % names))
}

/// (p) About as many different names as a normal form can have.
fn many_names() -> Vec<u8> {
    let letter = |number: usize| LETTERS[number % 63];
    of_constants(92, |number| [number / 63 / 63, number / 63, number].map(letter).to_vec()).bytes()
}

/// (r) Names that a common digest takes for one: a letter that is one more, and then one that is 33 less.
fn one_sum() -> Vec<u8> {
    let block = |number: usize, bit: usize| if number >> bit & 1 == 0 { *b"Ab" } else { *b"BA" };
    of_constants(24, |number| (0..15).flat_map(|bit| block(number, bit)).collect()).bytes()
}

/// Two good files that are hard on a link, with what is hard about them.
pub fn linked() -> [(&'static str, [Vec<u8>; 2]); 3] {
    // As many entries as can be, none in common: nothing before 25 ends the link.
    let mut others = near_keys(1);
    for (i, entry) in others.entries.iter_mut().enumerate() {
        entry.iid = iid((MAX_INTERFACES + i + 1) as u64);
    }
    // Each resolves every other entry.
    let halves = |lib: Typelib| {
        [1, 0].map(|left_out| {
            let mut lib = lib.clone();
            let others = lib.entries.iter_mut().skip(left_out).step_by(2);
            others.for_each(|entry| entry.descriptor = None);
            lib.bytes()
        })
    };
    [
        ("j: 2,048 keys with a long common start", [near_keys(0).bytes(), others.bytes()]),
        // Every step up leads from what one file resolves to what the other does.
        ("k: a chain of 1,024 parents, in turns", halves(chain(MAX_INTERFACES, true))),
        ("q: 71,680 uses of 2,000 names, in turns", halves(near_stock(70, 2_000))),
    ]
}

/// (g) Some 500 interfaces.
pub fn ordinary() -> Vec<u8> {
    interfaces(500).bytes()
}

/// Interfaces with 20 to 60 methods each, attributes and constants. Parents stand before.
pub fn interfaces(count: usize) -> Typelib {
    const PARTS: [&str; 32] = [
        "Element", "Node", "List", "Window", "Frame", "Style", "Sheet", "Event", "Target",
        "Listener", "Document", "Content", "Load", "Channel", "Stream", "Buffer", "Cookie", "Host",
        "Cache", "Entry", "Session", "Service", "Manager", "Observer", "Tree", "View", "Column",
        "Row", "Index", "Key", "Value", "State",
    ];
    const VERBS: [&str; 12] = [
        "get", "set", "create", "remove", "insert", "append", "find", "open", "close", "notify",
        "on", "update",
    ];
    let rng = &mut Rng::new(500);
    let (mut lib, n) = (Typelib::plain(count), count);
    let part = |rng: &mut Rng| *rng.pick(&PARTS);
    for i in 0..n {
        let (first, second) = (part(rng), part(rng));
        lib.entries[i].name = format!("nsI{first}{second}{i}").into_bytes();
        let high = ((i as u64 + 1) << 48) | (rng.number() >> 16);
        lib.entries[i].iid[..8].copy_from_slice(&high.to_be_bytes());
        lib.entries[i].iid[8..].copy_from_slice(&rng.number().to_be_bytes());
        if rng.percent(2) {
            // Named only by others.
            continue;
        }
        let parent = if rng.percent(20) { 0 } else { rng.below(i + 1) };
        let mut d = Descriptor { flags: 0x80, ..Descriptor::below(parent) };
        for _ in 0..rng.below(20) {
            let name = format!("{}_{}", part(rng), part(rng)).to_uppercase();
            let value = rng.below(0x8000) as u32;
            d.constants.push(Constant::new(name.as_bytes(), *rng.pick(&[5, 5, 6, 2]), value));
        }
        let count = rng.range(20, 60);
        while d.methods.len() < count {
            let (flag, position) = (if rng.percent(3) { HIDDEN } else { 0 }, d.methods.len());
            let mut call = |flags: u8, name: &str, arguments: Vec<Parameter>| {
                let result = Parameter::simple(0, UINT32);
                d.methods.push(Method::new(flags | flag, name.as_bytes(), arguments, result));
            };
            if rng.percent(45) {
                let start = part(rng).to_lowercase();
                let name = format!("{start}{}{}{position}", part(rng), part(rng));
                let of = plain_type(rng, n);
                call(GETTER, &name, vec![Parameter::new(OUT | RETVAL, of.clone())]);
                if rng.percent(50) {
                    call(SETTER, &name, vec![Parameter::new(IN, of)]);
                }
            } else {
                let third = if rng.percent(50) { part(rng) } else { "" };
                let name = format!("{}{}{}{third}", rng.pick(&VERBS), part(rng), part(rng));
                call(0, &name, ordinary_arguments(rng, n));
            }
        }
        lib.resolve(i, d);
    }
    lib
}

fn plain_type(rng: &mut Rng, n: usize) -> Type {
    let tail = index_tail(rng.range(1, n));
    match rng.below(10) {
        0..3 => Type::with(POINTER | INTERFACE, tail),
        3 | 4 => Type::simple(POINTER | REFERENCE | ASTRING),
        5 => Type::simple(10),
        6 => Type::simple(2),
        7 => Type::simple(UINT32),
        8 => Type::simple(POINTER | 16),
        _ => Type::simple(POINTER | 17),
    }
}

fn ordinary_arguments(rng: &mut Rng, n: usize) -> Vec<Parameter> {
    let plain = 0..rng.below(7);
    let mut arguments: Vec<_> = plain.map(|_| Parameter::new(IN, plain_type(rng, n))).collect();
    let next = arguments.len() as u8;
    match rng.below(12) {
        0 => {
            arguments.push(Parameter::simple(IN, POINTER | REFERENCE | IID));
            let of = Type::with(POINTER | INTERFACE_IS, [next, 0, 0]);
            arguments.push(Parameter::new(OUT | RETVAL, of));
        }
        1 => {
            arguments.push(Parameter::simple(OUT, UINT32));
            let of = Type::nested(1, next, POINTER | 17, [0; 3]);
            arguments.push(Parameter::new(OUT | RETVAL, of));
        }
        2..8 => arguments.push(Parameter::new(OUT | RETVAL, plain_type(rng, n))),
        _ => {}
    }
    arguments
}
