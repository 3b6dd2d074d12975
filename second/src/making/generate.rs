//! Good typelibs of every shape, from fixed seeds.

use super::{builder::*, faults::faults, faults::Fault, model::KeyOf, rng::Rng};
use std::collections::{HashMap, HashSet};
use std::iter::repeat_with;

/// The largest counts of a random typelib.
#[derive(Clone, Copy)]
pub struct Size {
    pub entries: usize,
    pub methods: usize,
    pub arguments: usize,
    pub constants: usize,
    pub name: usize,
}

pub const SMALL: Size = Size { entries: 3, methods: 3, arguments: 4, constants: 2, name: 4 };
pub const MEDIUM: Size = Size { entries: 12, methods: 6, arguments: 6, constants: 4, name: 12 };
pub const LARGE: Size = Size { entries: 60, methods: 12, arguments: 10, constants: 8, name: 40 };

/// What identifiers are made of.
pub const LETTERS: &[u8; 63] = b"ABCDEFGHIJKLMNOPQRSTUVWXYZabcdefghijklmnopqrstuvwxyz0123456789_";

pub fn identifier(rng: &mut Rng, longest: usize) -> Vec<u8> {
    let length = match rng.below(100) {
        0 => MAX_IDENTIFIER,
        1..=10 => 1,
        _ => rng.range(1, longest),
    };
    let plain = rng.percent(60);
    let mut name = String::new();
    while name.len() < length {
        let other = *rng.pick(CHARACTERS);
        let letter = char::from(*rng.pick(LETTERS));
        let next = if plain || rng.percent(60) { letter } else { other };
        // A lone `-` is none.
        if name.len() + next.len_utf8() <= length && (next != '-' || length > 1) {
            name.push(next);
        }
    }
    name.into_bytes()
}

/// Other characters that may stand in identifiers: marks, letters with accents, and those at the
/// edges of each length.
#[rustfmt::skip]
pub const CHARACTERS: &[char] = &[
    '-', '.', '!', '"', '/', ':', '@', '[', '`', '{', '|', '~', '\u{80}', '\u{85}', '\u{a0}', '\u{ad}',
    '\u{c4}', '\u{df}', '\u{e4}', '\u{e9}', '\u{308}', '\u{7ff}', '\u{800}', '\u{2028}', '\u{d7ff}',
    '\u{e000}', '\u{feff}', '\u{fffd}', '\u{ffff}', '\u{10000}', '\u{1f600}', '\u{10ffff}',
];

/// Bytes that no identifier and no text may have, where they stand between characters.
#[rustfmt::skip]
pub const MALFORMED: &[&[u8]] = &[
    b"\x80", b"\xbf", b"\xc0\x80", b"\xc1\xbf", b"\xc3", b"\xe0\x9f\xbf", b"\xe2\x82", b"\xed\xa0\x80",
    b"\xed\xbf\xbf", b"\xf0\x8f\xbf\xbf", b"\xf0\x9f\x98", b"\xf4\x90\x80\x80", b"\xf5\x80\x80\x80",
    b"\xfe", b"\xff",
];

/// What follows the prefix of an interface's type.
pub fn index_tail(index: usize) -> [u8; 3] {
    let [high, low] = (index as u16).to_be_bytes();
    [high, low, 0]
}

/// What follows a prefix of this tag, where these arguments are an IID and a size.
pub fn fitting(tag: u8, iid: u8, size: u8) -> [u8; 3] {
    match tag {
        INTERFACE => [0, 1, 0],
        INTERFACE_IS => [iid, 0, 0],
        _ => [size, size, 0],
    }
}

/// An IID that ends in the number.
pub fn iid(number: u64) -> [u8; 16] {
    u128::from(number).to_be_bytes()
}

fn iids(rng: &mut Rng, count: usize) -> Vec<[u8; 16]> {
    let mut set = HashSet::new();
    let style = rng.below(4);
    while set.len() < count {
        let mut id = iid(1 + rng.below(4 * count) as u64);
        match style {
            0 => id.iter_mut().for_each(|b| *b = rng.byte()),
            1 => id.reverse(),
            2 => id[..8].fill(0xff),
            _ => {}
        }
        if id != [0; 16] {
            set.insert(id);
        }
    }
    let mut sorted: Vec<_> = set.into_iter().collect();
    sorted.sort_unstable();
    sorted
}

/// What the types of one method may use.
struct Scope {
    minor: u8,
    n: usize,
    iids: Vec<u8>,
    sizes: Vec<u8>,
}

impl Scope {
    /// Pointer, unique and reference as the tag allows.
    fn prefix(&self, rng: &mut Rng, tag: u8) -> u8 {
        if !needs_pointer(tag) && rng.percent(60) {
            return tag;
        }
        let more = if rng.percent(60) { 0 } else { rng.byte() & (UNIQUE | REFERENCE) };
        tag | POINTER | more
    }

    fn allows(&self, tag: u8) -> bool {
        match tag {
            INTERFACE => self.n > 0,
            INTERFACE_IS => !self.iids.is_empty(),
            ARRAY | SIZED_STRING | SIZED_WSTRING => !self.sizes.is_empty(),
            _ => !is_reserved(tag, self.minor),
        }
    }

    fn of(&self, rng: &mut Rng) -> Type {
        let mut arrays = Vec::new();
        if self.allows(ARRAY) && rng.percent(25) {
            let depth = if rng.percent(20) { 8 } else { rng.range(1, 4) };
            for _ in 0..depth {
                let prefix = self.prefix(rng, ARRAY);
                arrays.push([prefix, *rng.pick(&self.sizes), *rng.pick(&self.sizes)]);
            }
        }
        let mut tags = repeat_with(|| rng.below(usize::from(LAST_TAG) + 1) as u8);
        let tag = tags.find(|tag| *tag != ARRAY && self.allows(*tag)).expect("void is allowed");
        let tail = match tag {
            INTERFACE => index_tail(rng.range(1, self.n)),
            INTERFACE_IS => [*rng.pick(&self.iids), 0, 0],
            SIZED_STRING | SIZED_WSTRING => [*rng.pick(&self.sizes), *rng.pick(&self.sizes), 0],
            _ => [0; 3],
        };
        Type { arrays, leaf: self.prefix(rng, tag), tail }
    }
}

fn argument_flags(rng: &mut Rng, minor: u8) -> u8 {
    let mut flags = rng.byte() & !(RETVAL | reserved_in_parameter(minor));
    if flags & OUT != 0 && rng.percent(30) {
        flags |= RETVAL;
    }
    flags
}

/// A method of a file of this minor version and so many entries.
fn method(rng: &mut Rng, (minor, n): (u8, usize), flags: u8, name: &[u8], most: usize) -> Method {
    // Some arguments are there to be named by the numbers of others, before or after them.
    let kinds: Vec<usize> = (0..rng.range(0, most)).map(|_| rng.below(5)).collect();
    let those = |kind: usize| -> Vec<u8> {
        (0..kinds.len()).filter(|i| kinds[*i] == kind).map(|i| i as u8).collect()
    };
    let scope = Scope { minor, n, iids: those(0), sizes: those(1) };
    let argument = |kind: &usize| {
        let of = match kind {
            0 => Type::simple(IID | POINTER | (rng.byte() & (UNIQUE | REFERENCE))),
            1 => Type::simple(UINT32),
            _ => scope.of(rng),
        };
        Parameter::new(argument_flags(rng, minor), of)
    };
    let list = kinds.iter().map(argument).collect();
    let some = rng.byte() & rng.byte() & !(IN | OUT | reserved_in_parameter(minor));
    let result_flags = if rng.percent(50) { 0 } else { some };
    let free = flags & NOT_XPCOM != 0 || result_flags & RETVAL != 0;
    let of = if free { scope.of(rng) } else { Type::simple(*rng.pick(&[VOID, UINT32, UINT32])) };
    Method::new(flags, name, list, Parameter::new(result_flags, of))
}

/// A descriptor for a file of this minor version and so many entries.
fn descriptor(rng: &mut Rng, of: (u8, usize), size: Size, words: &[Vec<u8>]) -> Descriptor {
    let mut d = Descriptor::default();
    // What each accessor name is used for: GETTER, SETTER or both as a pair.
    let mut used: HashMap<Vec<u8>, u8> = HashMap::new();
    let mut constructor = rng.percent(30);
    let count = rng.range(0, size.methods);
    while d.methods.len() < count {
        let name = rng.pick(words).clone();
        let flags = rng.byte() & rng.byte() & (NOT_XPCOM | HIDDEN);
        let before = used.entry(name.clone()).or_default();
        let (mut own, after) = match rng.below(6) {
            0 if *before & SETTER == 0 => (GETTER, 0),
            1 if *before & GETTER == 0 => (SETTER, 0),
            2 if *before == 0 => (GETTER, SETTER),
            _ => (0, 0),
        };
        *before |= own | after;
        if constructor && rng.percent(30) {
            own |= CONSTRUCTOR;
            constructor = false;
        }
        d.methods.push(method(rng, of, flags | own, &name, size.arguments));
        if after != 0 {
            d.methods.push(method(rng, of, after, &name, 2));
        }
    }
    for _ in 0..rng.range(0, size.constants) {
        let value = *rng.pick(&[0, 1, 0x7fff, 0x8000, 0xffff, 0x7fff_ffff, 0x8000_0000, u32::MAX]);
        let name = &words[rng.below(words.len())];
        d.constants.push(Constant::new(name, *rng.pick(&CONSTANT_TYPES), value));
    }
    d.flags = rng.byte() & !reserved_in_interface(of.0);
    d
}

pub fn annotations(rng: &mut Rng) -> Vec<Annotation> {
    let text = |rng: &mut Rng| {
        let mut text = String::new();
        for _ in 0..rng.below(6) {
            let any = char::from(rng.byte() & 0x7f);
            text.push(if rng.percent(75) { any } else { *rng.pick(CHARACTERS) });
        }
        text.into_bytes()
    };
    let count = if rng.percent(60) { 1 } else { rng.range(1, 5) };
    (0..count).map(|_| (!rng.percent(60)).then(|| [text(rng), text(rng)])).collect()
}

/// A random layout without contents.
pub fn layout(rng: &mut Rng, minor: u8) -> Typelib {
    Typelib {
        minor,
        annotations: annotations(rng),
        directory_gap: if rng.percent(80) { 0 } else { rng.below(9) },
        pool_gap: if rng.percent(80) { 0 } else { rng.below(9) },
        record_gap: if rng.percent(80) { 0 } else { rng.below(4) },
        tail: if rng.percent(80) { 0 } else { rng.below(9) },
        junk: if rng.percent(50) { 0 } else { rng.number() >> 1 },
        order: *rng.pick(&[Order::Entries, Order::NamesFirst, Order::NamesLast, Order::Shuffled]),
        sharing: *rng.pick(&[Sharing::None, Sharing::None, Sharing::Equal, Sharing::Overlap]),
        ..Typelib::default()
    }
}

/// Entries of the given number, those of zero IID first, with keys as `key` gives them. Of 100
/// with an IID so many are resolved, and of these so many with a descriptor of their own.
///
/// Gives how many descriptors there are, which have yet to be made.
fn populate(
    lib: &mut Typelib,
    rng: &mut Rng,
    [zeros, n]: [usize; 2],
    [resolved, own]: [usize; 2],
    key: impl Fn(&mut Rng) -> KeyOf,
) -> usize {
    let mut ids = vec![[0; 16]; zeros];
    ids.extend(iids(rng, n - zeros));
    let mut keys = HashSet::new();
    let mut descriptors = 0;
    for (i, iid) in ids.into_iter().enumerate() {
        let new = repeat_with(|| key(rng)).find(|key| keys.insert(key.clone()));
        let (namespace, name) = new.expect("there are keys enough");
        let descriptor = (i >= zeros && rng.percent(resolved)).then(|| {
            if descriptors > 0 && !rng.percent(own) {
                return rng.below(descriptors);
            }
            descriptors += 1;
            descriptors - 1
        });
        lib.entries.push(Entry { iid, name, namespace, descriptor });
    }
    let mut renumbered: Vec<usize> = (0..descriptors).collect();
    rng.shuffle(&mut renumbered);
    for entry in &mut lib.entries {
        entry.descriptor = entry.descriptor.map(|d| renumbered[d]);
    }
    descriptors
}

pub fn minor(rng: &mut Rng) -> u8 {
    *rng.pick(&[0, 0, 0, 1, 1, 1, 1, 2, 2, 2])
}

/// A good typelib of up to the given size, in a random layout.
pub fn random(rng: &mut Rng, size: Size) -> Typelib {
    let minor = minor(rng);
    let n = rng.range(0, size.entries);
    let zeros = if rng.percent(50) { 0 } else { rng.range(0, n) };
    let words: Vec<_> = (0..8).map(|_| identifier(rng, size.name)).collect();
    let mut lib = layout(rng, minor);
    let word = |rng: &mut Rng| match rng.percent(50) {
        true => rng.pick(&words).clone(),
        false => identifier(rng, size.name),
    };
    let key = |rng: &mut Rng| (rng.percent(40).then(|| word(rng)), word(rng));
    // A descriptor's parent is unresolved or has a lower descriptor, so that chains end.
    for d in 0..populate(&mut lib, rng, [zeros, n], [85, 85], key) {
        let may_be = |i: &usize| lib.entries[i - 1].descriptor.is_none_or(|other| other < d);
        let parents: Vec<usize> = (1..=n).filter(may_be).collect();
        let parent = if parents.is_empty() || rng.percent(40) { 0 } else { *rng.pick(&parents) };
        let d = descriptor(rng, (minor, n), size, &words);
        lib.descriptors.push(Descriptor { parent: parent as u16, ..d });
    }
    lib
}

/// Words that are easily taken for one another: prefixes, other case, long ones.
fn near_words(rng: &mut Rng) -> Vec<Vec<u8>> {
    let word = identifier(rng, 6);
    let mut words = vec![word.clone(), identifier(rng, 6), identifier(rng, 2), b"_".to_vec()];
    words.push(word.to_ascii_uppercase());
    let mut shorter: Vec<char> = String::from_utf8_lossy(&word).chars().collect();
    shorter.pop();
    let shorter = String::from_iter(shorter).into_bytes();
    words.extend((!shorter.is_empty() && shorter != b"-").then_some(shorter));
    // Nothing is folded: one letter in two ways, and its capital.
    if rng.percent(30) {
        words.extend(["\u{e4}", "a\u{308}", "\u{c4}", "A\u{308}"].map(Vec::from));
    }
    words.extend((word.len() < MAX_IDENTIFIER).then(|| [&word[..], b"0"].concat()));
    if rng.percent(20) {
        let long = vec![b'x'; MAX_IDENTIFIER];
        words.extend([long.clone(), [&long[1..], b"y"].concat()]);
    }
    words
}

/// Words of which most are tails of others.
fn tails(rng: &mut Rng) -> Vec<Vec<u8>> {
    let letter = |rng: &mut Rng| match rng.percent(85) {
        true => char::from(*rng.pick(LETTERS)),
        false => *rng.pick(CHARACTERS),
    };
    let word: Vec<char> = (0..rng.range(4, 7)).map(|_| letter(rng)).collect();
    let start = &word[..word.len() - 1];
    let parts = (0..word.len()).map(|from| &word[from..]).chain([start]);
    let mut words: Vec<_> = parts.map(|part| String::from_iter(part).into_bytes()).collect();
    words.retain(|word| word != b"-");
    if rng.percent(20) {
        let long = vec![b'x'; MAX_IDENTIFIER];
        words.extend([long[1..].to_vec(), long]);
    }
    words
}

/// Interfaces that inherit from one another over several levels, with few words for the names of
/// all methods and constants; chains that end and chains that meet an unresolved entry.
pub fn family(rng: &mut Rng) -> Typelib {
    family_of(rng, |rng| {
        let words = [near_words(rng), near_words(rng)].concat();
        [words, near_words(rng), near_words(rng)]
    })
}

/// As a family, with the same few words for names of every role, most of them tails of others.
pub fn one_stock(rng: &mut Rng) -> Typelib {
    family_of(rng, |rng| {
        let words = tails(rng);
        [words.clone(), words.clone(), words]
    })
}

/// The words are for methods and constants, for the names of interfaces and for namespaces.
fn family_of(rng: &mut Rng, words: fn(&mut Rng) -> [Vec<Vec<u8>>; 3]) -> Typelib {
    let size = Size { entries: 0, methods: 4, arguments: 2, constants: 3, name: 6 };
    let minor = minor(rng);
    let n = rng.range(1, 16);
    let zeros = if rng.percent(60) { 0 } else { rng.range(0, n / 2) };
    let incomplete = if rng.percent(40) { 0 } else { 25 };
    let mut lib = layout(rng, minor);
    let [words, names, spaces] = words(rng);

    let key = |rng: &mut Rng| {
        let namespace = rng.percent(60).then(|| rng.pick(&spaces).clone());
        (namespace, if rng.percent(10) { identifier(rng, 6) } else { rng.pick(&names).clone() })
    };
    // The parent: unresolved, the next lower descriptor or any lower one, so that chains end.
    for d in 0..populate(&mut lib, rng, [zeros, n], [90, 92], key) {
        let those = |may_be: &dyn Fn(Option<usize>) -> bool| -> Vec<usize> {
            (1..=n).filter(|i| may_be(lib.entries[i - 1].descriptor)).collect()
        };
        let candidates = match rng.below(100) {
            0..4 => Vec::new(),
            kind if kind < 4 + incomplete => those(&|other| other.is_none()),
            kind if kind < 85 => those(&|other| other.is_some_and(|other| other + 1 == d)),
            _ => those(&|other| other.is_some_and(|other| other < d)),
        };
        let parent = if candidates.is_empty() { 0 } else { *rng.pick(&candidates) };
        let d = descriptor(rng, (minor, n), size, &words);
        lib.descriptors.push(Descriptor { parent: parent as u16, ..d });
    }
    lib
}

/// Each with each, the second varying faster.
pub fn both<A, B>(a: A, b: B) -> impl Iterator<Item = (A::Item, B::Item)> + Clone
where
    A: IntoIterator<Item: Clone, IntoIter: Clone>,
    B: IntoIterator<IntoIter: Clone>,
{
    let b = b.into_iter();
    a.into_iter().flat_map(move |a| b.clone().map(move |b| (a.clone(), b)))
}

/// P1, P2 and P3 of document 01.
pub fn marked() -> [Vec<u8>; 3] {
    let p1 = Typelib { pool_gap: 3, ..Typelib::default() }.bytes();
    let p2 = Typelib { entries: vec![Entry::new(0, "Tank")], ..Typelib::default() }.bytes();
    let constants = vec![Constant::new(b"K", 1, 0xfffe)];
    let p3 = Descriptor { constants, flags: 0x80, ..Descriptor::default() };
    [p1, p2, Typelib::single(p3).bytes()]
}

/// A typelib with every kind of field in few bytes.
pub fn rich(minor: u8, order: Order) -> Typelib {
    let (argument, simple) = (Parameter::new, Parameter::simple);
    let void = || simple(0, VOID);
    let mut lib = Typelib { minor, order, ..Typelib::plain(7) };
    let texts = [["von H\u{e4}nden", "1.0"], ["", "x"]].map(|texts| Some(texts.map(Vec::from)));
    lib.annotations = [&[None][..], &texts].concat();
    for (entry, number) in lib.entries.iter_mut().zip([0, 0, 5, 6, 0x1_0000, 0x1_0001, u64::MAX]) {
        entry.iid = iid(number);
    }
    lib.entries[1].namespace = Some(b"n".to_vec());
    lib.entries[1].name = b"E0".to_vec();
    lib.entries[5].namespace = Some("n\u{df}_\u{20ac}".into());

    let constants = vec![
        Constant::new(b"SHORT", 1, 0x8000),
        Constant::new(b"LONG", 2, 0x7fff_ffff),
        Constant::new(b"USHORT", 5, 0xffff),
        Constant::new(b"ULONG", 6, 0xffff_ffff),
    ];
    let methods = vec![Method::plain(0, b"release"), Method::plain(HIDDEN, b"release")];
    let root = lib.add(Descriptor { parent: 0, methods, constants, flags: 0x80 });

    let sized = vec![
        argument(IN, Type::with(POINTER | INTERFACE_IS, [3, 0, 0])),
        argument(IN | SHARED, Type::nested(8, 2, POINTER | INTERFACE_IS, [3, 0, 0])),
        simple(IN, UINT32),
        simple(IN, IID | POINTER | REFERENCE),
        argument(OUT | RETVAL, Type::nested(2, 5, POINTER | INTERFACE, [0, 7, 0])),
        simple(IN | OUT, UINT32),
        argument(IN, Type::with(POINTER | 21, [2, 5, 0])),
        argument(OUT, Type::with(POINTER | UNIQUE | 22, [5, 5, 0])),
    ];
    let mut numbers = vec![simple(IN, UINT32), simple(IN, IID | POINTER)];
    if minor == 2 {
        numbers.push(argument(IN, Type::nested(1, 0, POINTER | UTF8STRING, [0; 3])));
        numbers.push(simple(OUT | RETVAL, POINTER | LAST_TAG));
    }
    let other = Parameter::new(0, Type::nested(8, 0, POINTER | INTERFACE_IS, [1, 0, 0]));
    let interface = Parameter::new(RETVAL, Type::with(POINTER | INTERFACE, [0, 4, 0]));
    let value = |flags: u8| vec![simple(flags, 10)];
    let methods = vec![
        Method::new(GETTER, b"size", value(OUT | RETVAL), void()),
        Method::new(SETTER, b"size", value(IN), simple(0, UINT32)),
        Method::new(0, "f\u{fc}ll".as_bytes(), sized, void()),
        Method::new(NOT_XPCOM, b"pick", numbers, other),
        Method::new(CONSTRUCTOR, b"make", Vec::new(), interface),
        Method::new(GETTER, b"kind", value(OUT), void()),
    ];
    let constants = vec![Constant::new(b"K", 5, 3)];
    let child = lib.add(Descriptor { parent: 4, methods, constants, flags: 0 });
    let above_unresolved = lib.add(Descriptor { flags: 0x80, ..Descriptor::below(3) });
    for (entry, d) in [(3, root), (4, child), (5, child), (6, above_unresolved)] {
        lib.entries[entry].descriptor = Some(d);
    }
    lib
}

/// Many entries with little in each: small random descriptors, namespaces, unresolved ones.
pub fn wide(rng: &mut Rng, count: usize) -> Typelib {
    let size = Size { entries: 0, methods: 2, arguments: 3, constants: 1, name: 6 };
    let words: Vec<_> = (0..30).map(|_| identifier(rng, 8)).collect();
    let mut lib = Typelib::plain(count);
    for i in 0..count {
        let parent = rng.below(i + 1) as u16;
        if rng.percent(80) {
            lib.resolve(i, Descriptor { parent, ..descriptor(rng, (1, count), size, &words) });
        }
        if rng.percent(50) {
            lib.entries[i].namespace = Some(rng.pick(&words).clone());
        }
    }
    lib
}

/// Methods each of which ends in a descriptor's head, so that as many descriptors as methods
/// overlap: the one that starts in method i's last four bytes has the methods after i.
///
/// The head is the last argument `00 00` and the result `00 t` of a not-XPCOM method: parent 0
/// and t methods, t being the result's tag; so there are at most 15 methods after the first.
/// The first entry leads to the outermost descriptor, the entry after it to the first head.
pub fn overlapping_heads(rng: &mut Rng, count: usize) -> Vec<u8> {
    assert!((1..=16).contains(&count));
    let mut methods = Vec::new();
    for i in 0..count {
        let before = 0..rng.below(3);
        let mut arguments: Vec<_> =
            before.map(|_| Parameter::simple(argument_flags(rng, 1), UINT32)).collect();
        arguments.push(Parameter::simple(0, 0));
        let result = Parameter::simple(0, (count - 1 - i) as u8);
        let flags = NOT_XPCOM | (rng.byte() & HIDDEN);
        methods.push(Method::new(flags, &identifier(rng, 5), arguments, result));
    }
    let constants = vec![Constant::new(b"Z", 6, rng.number() as u32); rng.below(3)];
    let mut lib = Typelib::plain(count + 1);
    lib.resolve(0, Descriptor { parent: 0, methods, constants, flags: 0xc0 });
    lib.order = *rng.pick(&[Order::Entries, Order::NamesFirst, Order::NamesLast]);
    let mut built = lib.build();
    for i in 0..count {
        built.point(built.entry(i + 1) + 24, built.placed[0].methods[i + 1] - 4);
    }
    built.bytes
}

/// Entries whose names stand inside descriptors: in the values of their constants.
pub fn names_in_descriptors(rng: &mut Rng, count: usize) -> Vec<u8> {
    assert!((1..=LETTERS.len()).contains(&count));
    let mut lib = Typelib { sharing: Sharing::None, ..layout(rng, 1) };
    lib.entries = Typelib::plain(count).entries;
    for (i, letter) in LETTERS.iter().enumerate().take(count) {
        let value = u32::from_be_bytes([*letter, *rng.pick(LETTERS), 0, rng.byte()]);
        let constants = vec![Constant::new(b"K", *rng.pick(&[2, 6]), value)];
        lib.resolve(i, Descriptor { constants, ..Descriptor::default() });
    }
    let mut built = lib.build();
    let is_value = |spot: &&Spot| spot.field == Field::ConstantValue;
    let values: Vec<usize> = built.spots.iter().filter(is_value).map(|spot| spot.at).collect();
    let shift = rng.below(count);
    for (i, value) in values.into_iter().enumerate() {
        built.point(built.entry((i + shift) % count) + 16, value);
    }
    built.bytes
}

/// Each entry is the parent of the one before it, or after it.
pub fn chain(count: usize, upward: bool) -> Typelib {
    let mut lib = Typelib::plain(count);
    for i in 0..count {
        lib.resolve(i, Descriptor::below(if upward { (i + 2) % (count + 1) } else { i }));
    }
    lib
}

/// A file of which descriptors are bad, some entries' own, and parents lead anywhere.
pub fn wrecked(rng: &mut Rng) -> Vec<u8> {
    let lib = match rng.below(4) {
        0 => random(rng, MEDIUM),
        1 => wide(rng, 40),
        2 => one_stock(rng),
        _ => family(rng),
    };
    let lib = Typelib { sharing: Sharing::None, ..lib };
    let built = lib.build();
    let mut bytes = built.bytes.clone();
    if rng.percent(60) {
        for spot in built.spots.iter().filter(|spot| spot.field == Field::Parent) {
            let parent = rng.below(lib.entries.len() + 1) as u16;
            bytes[spot.at..spot.at + 2].copy_from_slice(&parent.to_be_bytes());
        }
    }
    let mut faults = faults(&lib, &built, rng.number());
    faults.retain(Fault::is_in_descriptor);
    for _ in 0..rng.below(6).min(faults.len()) {
        rng.pick(&faults).apply(&mut bytes);
    }
    bytes
}

/// Unresolved entries, so many of them without IID.
pub fn directory(rng: &mut Rng, count: usize, zeros: usize) -> Typelib {
    let mut lib = Typelib::plain(count);
    let ids = [vec![[0; 16]; zeros], iids(rng, count - zeros)].concat();
    lib.entries.iter_mut().zip(ids).for_each(|(entry, iid)| entry.iid = iid);
    lib
}

/// A deep chain with methods of all kinds, below a top that has none. At times one is unresolved.
pub fn deep(rng: &mut Rng) -> Typelib {
    let size = Size { entries: 0, methods: 4, arguments: 3, constants: 1, name: 6 };
    let words: Vec<_> = (0..12).map(|_| identifier(rng, size.name)).collect();
    let count = rng.range(2, 40);
    let mut lib = chain(count, rng.percent(50));
    for d in &mut lib.descriptors {
        *d = Descriptor { parent: d.parent, ..descriptor(rng, (1, count), size, &words) };
        d.methods.truncate(if d.parent == 0 { 0 } else { MAX_METHODS });
    }
    for entry in &mut lib.entries {
        entry.namespace = rng.percent(50).then(|| rng.pick(&words).clone());
    }
    if rng.percent(50) {
        lib.entries[rng.below(count)].descriptor = None;
    }
    lib
}

/// Good typelibs at the edges of what is allowed.
pub fn special() -> Vec<Typelib> {
    let empty = Typelib::default();
    // 33 bytes, and no entries with gaps, annotations and an unused pool.
    let mut all = vec![empty.clone()];
    for (tail, pool_gap) in both([0, 1, 2, 3, 100], [0, 1, 5, 1000]) {
        all.push(Typelib { tail, pool_gap, junk: 5, ..empty.clone() });
    }
    for lengths in [[0, 0], [0, 1], [1, 0], [127, 128], [65_535, 0], [300, 65_535]] {
        let annotations = vec![Some(lengths.map(|length| vec![b'x'; length])), None];
        all.push(Typelib { annotations: annotations.clone(), ..empty.clone() });
        all.push(Typelib { annotations, ..Typelib::plain(2) });
    }
    for letter in ["\u{e4}", "\u{20ac}", "\u{10ffff}"] {
        let annotations = vec![Some([letter.repeat(65_535).into(), letter.into()])];
        all.push(Typelib { annotations, ..Typelib::plain(2) });
    }
    all.push(Typelib { annotations: vec![None; 1000], ..empty.clone() });
    // The directory farther on.
    let farther = |directory_gap| Typelib { directory_gap, junk: 9, ..Typelib::plain(3) };
    all.extend([1, 2, 7, 63, 64, 1000].map(farther));
    // Identifiers of 1 and 255 bytes, also as namespaces; keys that join to the same text.
    let mut names = Typelib::plain(6);
    let long = &*"x".repeat(MAX_IDENTIFIER);
    let keys = [("", long), (long, "x"), ("ab", "c"), ("a", "bc"), ("", "abc"), ("c", "ab")];
    for (entry, (namespace, name)) in names.entries.iter_mut().zip(keys) {
        entry.set_key(namespace, name);
    }
    for sharing in [Sharing::None, Sharing::Equal, Sharing::Overlap] {
        all.push(Typelib { sharing, ..names.clone() });
    }
    all.push(names.filled_to(60_000));

    // The greatest counts.
    let mut many = Typelib::plain(MAX_INTERFACES);
    all.extend([many.clone(), many.filled_to(MAX_FILE)]);
    many.entries[..500].iter_mut().for_each(|entry| entry.iid = [0; 16]);
    all.push(many.clone());
    for i in 500..MAX_INTERFACES {
        many.resolve(i, Descriptor::below(if i == 500 { 7 } else { i }));
    }
    all.extend([many.clone(), Typelib { sharing: Sharing::Equal, ..many }]);
    let methods = Typelib::of(vec![Method::plain(0, b"m"); MAX_METHODS]);
    let constants = vec![Constant::new(b"k", 2, 7); MAX_CONSTANTS];
    let constants = Typelib::single(Descriptor { constants, ..Descriptor::default() });
    for sharing in [Sharing::None, Sharing::Equal] {
        all.push(Typelib { sharing, ..methods.clone() });
        all.push(Typelib { sharing, ..constants.clone() });
    }
    let mut full = methods;
    full.descriptors[0].constants = constants.descriptors[0].constants.clone();
    all.push(full.filled_to(MAX_FILE));
    all.extend([MAX_FILE, MAX_FILE - 1].map(|length| empty.filled_to(length)));
    all.push(Typelib { pool_gap: MAX_FILE - 33, ..empty });

    // Many accessors: pairs one after another, then getters and setters without partner.
    let pairs = both((0..300).map(|i| format!("attribute{i}")), [GETTER, SETTER]);
    let mut accessors: Vec<_> =
        pairs.map(|(name, flags)| Method::plain(flags, name.as_bytes())).collect();
    accessors.extend(vec![Method::plain(GETTER, b"read"); 200]);
    accessors.extend(vec![Method::plain(SETTER, b"write"); 200]);
    all.push(Typelib::of(accessors));

    // 255 arguments, eight arrays, numbers that name the last argument.
    let of_number = |i: usize| match i % 4 {
        _ if i == 254 => Type::simple(UINT32),
        0 => Type::nested(8, 254, POINTER | SIZED_STRING, [254, 254, 0]),
        1 => Type::nested(i % 9, 254, POINTER | INTERFACE, [0, 1, 0]),
        2 => Type::with(POINTER | INTERFACE_IS, [3, 0, 0]),
        _ => Type::simple(POINTER | IID),
    };
    let arguments = (0..255).map(|i| Parameter::new(IN, of_number(i))).collect();
    let result = Parameter::new(RETVAL, Type::nested(8, 254, ASTRING, [0; 3]));
    all.push(Typelib::of(vec![Method::new(0, b"wide", arguments, result); 3]));

    // Every tag, plain and in arrays, as argument and as result.
    let tags = both(0..=MAX_MINOR, 0..=LAST_TAG);
    for (minor, tag) in tags.filter(|(minor, tag)| !is_reserved(*tag, *minor)) {
        let prefix = if needs_pointer(tag) { POINTER | tag } else { tag };
        let method = |depth: usize| {
            let of = Type::nested(depth, 2, prefix, fitting(tag, 1, 2));
            let simple = [POINTER | IID, UINT32].map(|leaf| Parameter::simple(IN, leaf));
            let arguments = [&[Parameter::new(IN | OUT, of.clone())][..], &simple].concat();
            Method::new(NOT_XPCOM, b"f", arguments, Parameter::new(0, of))
        };
        let depths = if tag == ARRAY { 0..=7 } else { 0..=8 };
        all.push(Typelib { minor, ..Typelib::of(depths.map(method).collect()) });
    }

    // A long chain of parents in both directions.
    all.extend([false, true].map(|upward| chain(200, upward)));
    let rng = &mut Rng::new(1);
    all.extend((0..6).map(|_| random(rng, LARGE)));
    all
}
