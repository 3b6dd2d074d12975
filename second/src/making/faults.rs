//! Single faults in a good file, field by field. What a fault is called starts with the number of
//! the refusal that it must give, if no other is met before.

use super::{builder::*, rng::Rng};

/// When a fault is met in reading: step, entry, place, and the order at one place.
type Rank = (u8, usize, usize, u8);

// Steps after those of the header, which have the numbers of their refusals; that of 29 and 30 has
// the number that stood there before.
pub const LENGTH: u8 = 6;
const ANNOTATIONS: u8 = 9;
const DIRECTORY: u8 = 10;
const DESCRIPTORS: u8 = 11;
const KEYS: u8 = 18;
const CHAINS: u8 = 19;

/// New bytes at a place.
type Patch = (usize, Vec<u8>);

pub struct Fault {
    pub what: &'static str,
    pub refusal: Refusal,
    patches: Vec<Patch>,
    /// Fields on which the fault rests: pointers to the damaged bytes, those copied to other
    /// places, neighbouring IIDs.
    needs: Vec<usize>,
    pub rank: Rank,
}

pub fn put(bytes: &mut [u8], at: usize, new: &[u8]) {
    bytes[at..at + new.len()].copy_from_slice(new);
}

impl Fault {
    pub fn apply(&self, bytes: &mut [u8]) {
        self.patches.iter().for_each(|(at, new)| put(bytes, *at, new));
    }

    pub fn undo(&self, bytes: &mut [u8], good: &[u8]) {
        self.patches.iter().for_each(|(at, new)| put(bytes, *at, &good[*at..at + new.len()]));
    }

    /// The ranges that another fault must leave alone.
    fn ranges(&self) -> impl Iterator<Item = (usize, usize)> + '_ {
        let patched = self.patches.iter().map(|(at, new)| (*at, at + new.len()));
        patched.chain(self.needs.iter().map(|at| (*at, at + 4)))
    }

    pub fn is_in_descriptor(&self) -> bool {
        self.rank.0 == DESCRIPTORS
    }

    pub fn is_apart(&self, other: &Fault) -> bool {
        self.ranges().all(|(a, b)| other.ranges().all(|(c, d)| b <= c || d <= a))
    }
}

/// The number that a fault's name starts with.
pub fn number(what: &str) -> u32 {
    let digits = what.split(' ').next().and_then(|word| word.parse().ok());
    digits.unwrap_or_else(|| panic!("no number: {what}"))
}

/// The bits of a mask one by one.
fn bits(mask: u8) -> impl Iterator<Item = u8> {
    (0..8).map(|i| 1 << i).filter(move |bit| mask & bit != 0)
}

/// Every single fault we know to make in this file. No two of its records may share bytes.
pub fn faults(lib: &Typelib, built: &Built, seed: u64) -> Vec<Fault> {
    assert!(lib.sharing == Sharing::None);
    let mut c = Collector { lib, built, rng: Rng::new(seed), all: Vec::new() };
    c.header();
    c.no_last_annotation();
    for i in 0..built.spots.len() {
        c.spot(i);
    }
    c.keys();
    for d in 0..lib.descriptors.len() {
        if built.placed[d].entry != usize::MAX {
            c.methods(d);
        }
    }
    c.parents();
    c.all
}

struct Collector<'a> {
    lib: &'a Typelib,
    built: &'a Built,
    rng: Rng,
    all: Vec<Fault>,
}

type What = &'static str;

/// Where a fault is refused, and when it is met.
type Where = (usize, Rank);

/// Counts over a limit.
fn over(most: usize) -> [usize; 6] {
    [most + 1, most + 2, 2048, 0x7fff, 0x8000, 0xffff]
}

impl Collector<'_> {
    fn add(&mut self, what: What, (place, rank): Where, patches: Vec<Patch>) -> &mut Fault {
        let refusal = Refusal { number: number(what), place };
        self.all.push(Fault { what, refusal, patches, needs: Vec::new(), rank });
        self.all.last_mut().expect("it was just added")
    }

    /// These values in a field of so many bytes, which is the refusal's place.
    fn field(&mut self, what: What, here: Where, length: usize, values: &[usize]) {
        for value in values {
            let bytes = (*value as u32).to_be_bytes()[4 - length..].to_vec();
            self.add(what, here, vec![(here.0, bytes)]);
        }
    }

    /// These values in a field of one byte.
    fn byte(&mut self, what: What, here: Where, values: impl IntoIterator<Item = u8>) {
        values.into_iter().for_each(|value| self.field(what, here, 1, &[value.into()]));
    }

    fn header(&mut self) {
        let b = self.built;
        for at in 0..MAGIC.len() {
            let old = b.bytes[at];
            self.byte("3 magic", (at, (3, at, 0, 0)), [old ^ 1, old ^ 0x80, old.wrapping_add(32)]);
        }
        self.byte("4 major", (16, (4, 0, 0, 0)), [0, 2, 3, 0x81, 255]);
        let minors = [MAX_MINOR + 1, MAX_MINOR + 2, 0x80, 0x81, 255];
        self.byte("5 minor", (17, (5, 0, 0, 0)), minors);
        let length = b.bytes.len();
        let more = [length + 1, length | 1 << 31, length + (1 << 16), !0];
        self.field("29 length", (20, (LENGTH, 0, 0, 0)), 4, &more);
        self.field("30 length", (20, (LENGTH, 0, 0, 0)), 4, &[0, 31, 32, length - 1]);
        self.field("7 count", (18, (7, 0, 0, 0)), 2, &over(MAX_INTERFACES));
        let pools = [0, 1, 31, 32, length + 1, length + 28, 1 << 31, 0xffff_fffc, 0xffff_ffff];
        self.field("8 pool", (28, (8, 0, 0, 0)), 4, &pools);
        let mut bad = vec![1, 2, 4, 28, 32, 33, 34, 35, 0xffff_fffc, 0xffff_ffff, 1 << 31];
        if b.n > 0 {
            let room = ENTRY * b.n;
            bad.extend([0, b.directory + 1, b.directory + 2, b.directory + 3]);
            // The first multiple of 4 from which the entries reach over the pool's start.
            bad.push((b.pool - room) / 4 * 4 + 4);
            bad.extend([b.pool.next_multiple_of(4), length.next_multiple_of(4) + 4]);
            // Sums that fit only when they wrap around.
            bad.extend([(1 << 32) - room, (1 << 32) - room + 4, (1 << 32) - 28]);
            bad.extend((room > 36).then(|| (1 << 32) - room + 36));
        } else {
            bad.extend([36, 64, b.pool, length]);
        }
        self.field("8 directory", (24, (8, 1, 0, 0)), 4, &bad);
    }

    /// No annotation is marked last up to the limit.
    fn no_last_annotation(&mut self) {
        use Field::*;
        let b = self.built;
        let annotations = [AnnotationByte, AnnotationLength, AnnotationText];
        let last = |fields: &[Field]| b.spots.iter().rfind(|spot| fields.contains(&spot.field));
        let at = last(&annotations[..1]).map_or(HEADER, |spot| spot.at);
        let end = last(&annotations).map_or(HEADER, |spot| spot.at + spot.length);
        let limit = b.limit();
        let patches = vec![(at, vec![b.bytes[at] & 0x7f]), (end, vec![0; limit - end])];
        self.add("9 none last", (limit, (ANNOTATIONS, limit, 0, 0)), patches);
    }

    fn rank_of(&self, spot: &Spot) -> Rank {
        use Field::*;
        match spot.field {
            AnnotationByte | AnnotationLength | AnnotationText => (ANNOTATIONS, spot.at, 0, 0),
            EntryIid => (DIRECTORY, spot.of, 0, 0),
            EntryName => (DIRECTORY, spot.of, 1, 0),
            EntryNamespace => (DIRECTORY, spot.of, 2, 0),
            EntryDescriptor => (DIRECTORY, spot.of, 3, 0),
            Identifier => self.rank_of(&self.built.spots[spot.of]),
            _ => (DESCRIPTORS, self.built.placed[spot.of].entry, spot.at, 1),
        }
    }

    fn spot(&mut self, i: usize) {
        use Field::*;
        let (b, n, minor) = (self.built, self.built.n, self.lib.minor);
        let spot = b.spots[i];
        let here = (spot.at, self.rank_of(&spot));
        let old = b.bytes.get(spot.at).copied().unwrap_or(0);
        match spot.field {
            AnnotationByte => {
                let tags = [2, 3, 0x40, 0x7f, self.rng.range(2, 0x7f) as u8];
                self.byte("9 tag", here, tags.map(|tag| old & 0x80 | tag));
            }
            AnnotationLength | AnnotationText => self.text(i),
            EntryIid => self.iid(spot.of),
            EntryName => self.pointer(["13 name", "11 absent name"], here),
            EntryNamespace => self.pointer(["13 namespace", ""], here),
            EntryDescriptor if b.bytes[b.entry(spot.of)..][..16] == [0; 16] => {
                let (first, length) = (self.all.len(), b.bytes.len() - b.pool);
                let pointers = [1, length, length + 1, 1 << 31, 0xffff_ffff];
                self.field("12 zero IID", here, 4, &pointers);
                self.all[first..].iter_mut().for_each(|f| f.needs.push(b.entry(spot.of)));
            }
            EntryDescriptor => {
                self.pointer(["13 descriptor", ""], (spot.at, (DESCRIPTORS, spot.of, 0, 0)))
            }
            Identifier => self.identifier(spot, here.1),
            Parent => self.field("15 parent", here, 2, &[n + 1, n + 2, 0x7fff, 0x8000, 0xffff]),
            MethodCount => self.field("17 methods", here, 2, &over(MAX_METHODS)),
            ConstantCount => self.field("17 constants", here, 2, &over(MAX_CONSTANTS)),
            MethodFlags => {
                let reserved = bits(RESERVED_IN_METHOD).chain([RESERVED_IN_METHOD]);
                self.byte("14 method flags", here, reserved.map(|bit| old | bit));
            }
            MethodName => self.pointer(["13 method name", "11 absent method name"], here),
            ConstantName => self.pointer(["13 constant name", "11 absent constant name"], here),
            ArgumentCount | ConstantValue => {}
            ArgumentFlags => {
                let names = ["14 argument flags", "16 retval without out"];
                self.parameter_flags(names, here, &[old & !OUT | RETVAL]);
            }
            ResultFlags => {
                let names = ["14 result flags", "16 result in or out"];
                self.parameter_flags(names, here, &[old | IN, old | OUT, old | IN | OUT]);
            }
            ArgumentPrefix | ResultPrefix => self.prefix(spot, here),
            Index => self.field("15 index", here, 2, &[0, n + 1, n + 2, 0x8000, 0xffff]),
            Number => self.number(spot),
            ConstantType => {
                let types = [0, 3, 4, 7, 8, 0x11, 0x21, 0x41, 0x81, 0x82, 0x85, 0x86, 255];
                self.byte("16 constant type", here, types);
            }
            InterfaceFlags => {
                let reserved = bits(reserved_in_interface(minor));
                self.byte("14 interface flags", here, reserved.map(|bit| old | bit));
            }
        }
    }

    /// Reserved bits, in flags that are good and in the first of those that break a rule.
    fn parameter_flags(&mut self, [reserved, rule]: [What; 2], here: Where, bad: &[u8]) {
        let (old, mask) = (self.built.bytes[here.0], reserved_in_parameter(self.lib.minor));
        for bit in bits(mask).chain([mask]) {
            self.byte(reserved, here, [old | bit, bad[0] | bit]);
        }
        self.byte(rule, here, bad.iter().copied());
    }

    /// The length of an annotation's text, or its bytes.
    fn text(&mut self, i: usize) {
        use Field::{AnnotationByte, AnnotationLength, AnnotationText};
        let b = self.built;
        let Spot { field, at, length, of, .. } = b.spots[i];
        let is = |s: &Spot, field: Field| s.field == field && s.of == of;
        let first = b.spots.iter().find(|s| is(s, AnnotationByte)).unwrap().at;
        let here = (first, (ANNOTATIONS, first, 0, 0));
        if field == AnnotationText {
            for at in at..at + length {
                // A byte inside a character is not the start of one, nor is another's start inside.
                let start = b.bytes[at] & 0xc0 != 0x80;
                let bad = [0xc0, 0xf5, 0xff, if start { 0x80 } else { b'a' }];
                for bad in bad {
                    self.add("9 text byte", here, vec![(at, vec![bad])]);
                }
            }
            return;
        }
        let room = b.limit() - (at + 2);
        let mut lengths = vec![0xffff, 0x8000, room + 1, room + 2];
        lengths.retain(|new| *new > room);
        // The first text fits, but not the length of the second.
        if !b.spots[..i].iter().any(|s| is(s, AnnotationLength)) {
            lengths.extend([room, room.saturating_sub(1)]);
        }
        for new in lengths.into_iter().filter(|new| *new <= 0xffff) {
            let patch = (at, (new as u16).to_be_bytes().to_vec());
            self.add("9 text length", here, vec![patch]);
        }
    }

    /// A pointer that leads out of the pool, and one that is absent where that is a fault.
    fn pointer(&mut self, [out, absent]: [What; 2], here: Where) {
        let file = self.built.bytes.len();
        let length = file - self.built.pool;
        self.field(out, here, 4, &[length + 1, length + 2, file + 1, 1 << 31, 0xffff_ffff]);
        if !absent.is_empty() {
            self.field(absent, here, 4, &[0]);
        }
    }

    fn iid(&mut self, i: usize) {
        let b = self.built;
        let at = b.entry(i);
        let own = &b.bytes[at..at + 16];
        let mut changes = Vec::new();
        let mut after_zero = true;
        if i > 0 {
            let above = at - ENTRY;
            let before = b.bytes[above..][..16].to_vec();
            after_zero = before == [0; 16];
            // One lower in the last byte that can fall.
            let mut lower = before.clone();
            lower.iter_mut().rfind(|byte| **byte > 0).into_iter().for_each(|byte| *byte -= 1);
            // Bytes compare as unsigned.
            let high = [&[0x80], &before[1..]].concat();
            changes = vec![
                ("10 equal", !after_zero, at, before.clone()),
                ("10 equal", own != [0; 16], above, own.to_vec()),
                ("10 falls", !after_zero, at, vec![0; 16]),
                ("10 falls", !after_zero, at, lower),
                ("10 falls", own[0] != 0xff, above, vec![0xff; 16]),
                ("10 falls", own[0] < 0x80 && before[0] < 0x80, above, high),
            ];
        }
        for (what, _, place, new) in changes.into_iter().filter(|change| change.1) {
            let here = (at, (DIRECTORY, i, 0, 0));
            self.add(what, here, vec![(place, new)]).needs = vec![at - ENTRY, at];
        }
        if own != [0; 16] && after_zero && self.lib.entries[i].descriptor.is_some() {
            let here = (at + 24, (DIRECTORY, i, 3, 0));
            self.add("12 IID made zero", here, vec![(at, vec![0; 16])]);
        }
    }

    fn identifier(&mut self, spot: Spot, rank: Rank) {
        let field = self.built.spots[spot.of].at;
        let bad = [b' ', 1, b'\t', b'\n', 0x1f, 0x7f, 0xc0, 0xc1, 0xf5, 0xff];
        let ends = spot.at..=spot.at + spot.length;
        let mut patches: Vec<_> = ends.map(|at| (at, *self.rng.pick(&bad))).collect();
        patches.extend(bad.map(|byte| (spot.at + self.rng.below(spot.length), byte)));
        for (at, byte) in patches {
            self.add("11 bad byte", (field, rank), vec![(at, vec![byte])]).needs = vec![field];
        }
        self.add("11 empty", (field, rank), vec![(spot.at, vec![0])]).needs = vec![field];
        // Bytes that are good elsewhere.
        let last = spot.at + spot.length - 1;
        for (what, patch) in [
            ("11 a lone -", (spot.at, vec![b'-', 0])),
            ("11 cut character", (last, vec![0xc3])),
            ("11 starts inside a character", (spot.at, vec![0xa4])),
        ] {
            self.add(what, (field, rank), vec![patch]).needs = vec![field];
        }
        for at in (spot.at..=last).filter(|at| self.built.bytes[*at] & 0xc0 == 0x80) {
            let pointer = (at - self.built.pool + 1) as u32;
            let patch = vec![(field, pointer.to_be_bytes().to_vec())];
            let what = "11 leads into a character";
            self.add(what, (field, rank), patch).needs = vec![at];
        }
    }

    fn prefix(&mut self, spot: Spot, here: Where) {
        let (old, minor) = (self.built.bytes[spot.at], self.lib.minor);
        let bits = self.rng.byte() & !TAG;
        for tag in (UTF8STRING..=TAG).filter(|tag| is_reserved(*tag, minor)) {
            let what = if is_newer(tag) { "14 tag of minor 2" } else { "14 tag" };
            self.byte(what, here, [tag | bits, tag | old & !TAG]);
        }
        if is_reserved(ASTRING, minor) {
            self.byte("14 tag 15 in minor 0", here, [0, 0x80, 0x40, 0xe0].map(|b| ASTRING | b));
        }
        let prefixes = [UNIQUE, REFERENCE, UNIQUE | REFERENCE].map(|bits| old & TAG | bits);
        self.byte("16 unique or reference", here, prefixes);
        for tag in (0..=TAG).filter(|tag| needs_pointer(*tag) && !is_reserved(*tag, minor)) {
            self.byte("16 pointer needed", here, [tag, tag | bits & !POINTER]);
        }
        if usize::from(spot.more) == MAX_ARRAYS {
            self.byte("17 ninth array", here, [0x80, 0xa0, 0xc0, 0xe0].map(|b| ARRAY | b));
        }
        // A result of another type where only void and uint32 may stand.
        let method = &self.lib.descriptors[spot.of].methods[spot.method];
        let free = method.flags & NOT_XPCOM != 0 || method.result.flags & RETVAL != 0;
        if spot.field == Field::ResultPrefix && !free {
            let types = [0, 4, 5, 7, 10, 12, 14, 0x80, 0x86, 0x8d, 0x8e, 0x90, 0x91, 0xe6, 0xcd];
            let strings = [ASTRING, 0x97, 0x98, 0x99];
            let strings = strings.into_iter().filter(|of| !is_reserved(of & TAG, minor));
            types.into_iter().chain(strings).for_each(|of| self.rule("16 result rule", spot, of));
        }
    }

    /// A byte that is 16 at the method's first, met after its result.
    fn rule(&mut self, what: What, spot: Spot, value: u8) {
        let placed = &self.built.placed[spot.of];
        let rank = (DESCRIPTORS, placed.entry, placed.methods[spot.method + 1], 0);
        self.add(what, (placed.methods[spot.method], rank), vec![(spot.at, vec![value])]);
    }

    fn number(&mut self, spot: Spot) {
        let arguments = &self.lib.descriptors[spot.of].methods[spot.method].arguments;
        let count = arguments.len();
        for new in [count, count + 1, 128, 255].into_iter().filter(|new| (count..256).contains(new))
        {
            self.rule("16 number too big", spot, new as u8);
        }
        for (number, argument) in arguments.iter().enumerate() {
            let prefix = argument.of.prefix();
            let (tag, pointer) = (prefix & TAG, prefix & POINTER != 0);
            let (what, fits) = match spot.more {
                INTERFACE_IS => ("16 number names no IID", tag == IID && pointer),
                _ => ("16 number names no size", tag == UINT32 && !pointer),
            };
            if !fits {
                self.rule(what, spot, number as u8);
            }
        }
    }

    /// One key twice.
    fn keys(&mut self) {
        let b = self.built;
        for i in 1..b.n {
            for _ in 0..3 {
                let from = b.entry(self.rng.below(i)) + 16;
                let patch = vec![(b.entry(i) + 16, b.bytes[from..][..8].to_vec())];
                let here = (b.entry(i), (KEYS, i, 0, 0));
                self.add("18 key", here, patch).needs = vec![from, from + 4];
            }
        }
    }

    /// Rules between a method's flags and its result, and between the methods of an interface.
    fn methods(&mut self, d: usize) {
        let b = self.built;
        let placed = &b.placed[d];
        let methods = &self.lib.descriptors[d].methods;
        let here = (placed.at, (DESCRIPTORS, placed.entry, placed.flags, 2));
        let count = methods.len();
        let flags = |i: usize, more: u8| (placed.methods[i], vec![methods[i].flags | more]);
        let name = |i: usize| placed.methods[i] + 1;
        let rename = |i: usize, from: usize| (name(i), b.bytes[name(from)..][..4].to_vec());
        for (i, method) in methods.iter().enumerate() {
            let result = method.result.of.prefix();
            let plain = result == VOID || result == UINT32;
            if method.flags & NOT_XPCOM != 0 && method.result.flags & RETVAL == 0 && !plain {
                let patch = vec![(placed.methods[i], vec![method.flags & !NOT_XPCOM])];
                let rank = (DESCRIPTORS, placed.entry, placed.methods[i + 1], 0);
                self.add("16 result rule, flag", (placed.methods[i], rank), patch);
            }
            self.add("16 getter and setter in one", here, vec![flags(i, GETTER | SETTER)]);
        }
        for i in 0..count {
            for j in (0..count).filter(|j| *j != i) {
                let both = vec![flags(i, CONSTRUCTOR), flags(j, CONSTRUCTOR)];
                self.add("16 two constructors", here, both);
                if j != i + 1 {
                    let pair = vec![flags(i, GETTER), flags(j, SETTER), rename(j, i)];
                    self.add("16 getter pair apart", here, pair).needs = vec![name(i)];
                } else if j + 1 < count {
                    let mut three = vec![flags(i, GETTER), flags(j, GETTER), flags(j + 1, SETTER)];
                    three.extend([rename(j, i), rename(j + 1, i)]);
                    self.add("16 getter, getter, setter", here, three).needs = vec![name(i)];
                }
            }
        }
    }

    /// Chains that do not end.
    fn parents(&mut self) {
        let b = self.built;
        let entries = &self.lib.entries;
        let used = |d: &usize| b.placed[*d].entry != usize::MAX;
        let each = (0..b.placed.len()).filter(used);
        let mut trials: Vec<_> = each.flat_map(|d| (0..b.n).map(move |i| (d, i))).collect();
        self.rng.shuffle(&mut trials);
        for (d, i) in trials.into_iter().take(500) {
            let mut changed: Vec<u16> = self.lib.descriptors.iter().map(|d| d.parent).collect();
            changed[d] = i as u16 + 1;
            let parent = |entry: &Entry| entry.descriptor.map_or(0, |d| usize::from(changed[d]));
            let parents: Vec<usize> = entries.iter().map(parent).collect();
            if let Some(lowest) = lowest_endless(&parents) {
                let own = entries[i].descriptor == Some(d);
                let what = if own { "19 own parent" } else { "19 cycle" };
                let patch = vec![(b.placed[d].at, changed[d].to_be_bytes().to_vec())];
                self.add(what, (b.entry(lowest), (CHAINS, lowest, 0, 0)), patch);
            }
        }
    }
}

/// The lowest entry whose chain is longer than there are entries.
pub fn lowest_endless(parents: &[usize]) -> Option<usize> {
    let up = |index: usize| if index == 0 { 0 } else { parents[index - 1] };
    (0..parents.len()).find(|&i| (0..=parents.len()).fold(i + 1, |index, _| up(index)) != 0)
}
