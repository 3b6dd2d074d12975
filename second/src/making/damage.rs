//! Damaged typelibs. Where the damage is made on purpose its refusal is known from how it was
//! made and handed on with the file; elsewhere only the two checks are compared.

use super::faults::{faults, lowest_endless, number, put, Fault, LENGTH};
use super::{builder::*, generate, generate::both, generate::fitting, pairs, rng::Rng};
use crate::program::{check::word, Answer};

/// A generated file.
pub struct Made<'a> {
    pub bytes: &'a [u8],
    /// The answer, where it is known from how the file was made. Files whose bytes were changed
    /// without a purpose have none.
    pub known: Option<Answer>,
    pub how: &'static str,
    /// The number of the good file that it was made from. No two that were built from models of
    /// their own have the same.
    pub base: u64,
}

/// Numbers the good files that others are made from, and hands all of them on.
struct Sink<'a> {
    take: &'a mut dyn FnMut(&Made),
    base: u64,
    each: bool,
}

impl Sink<'_> {
    /// What comes is built from models, one for each file.
    fn each(&mut self) -> &mut Self {
        self.each = true;
        self
    }

    /// What comes is made from one good file.
    fn one(&mut self) -> &mut Self {
        self.each = false;
        self.base += 1;
        self
    }

    /// A good typelib, from which what comes is made: its bytes.
    fn good(&mut self, lib: &Typelib, how: &'static str) -> Vec<u8> {
        let built = lib.build();
        self.one().built(&built, None, how);
        built.bytes
    }

    /// A file that is good but for this refusal, by number and place.
    fn built(&mut self, built: &Built, fault: Option<(u32, usize)>, how: &'static str) {
        self.put(&built.bytes, fault.map_or(Some(Ok(built.n)), |(n, at)| refused(n, at)), how);
    }

    fn put(&mut self, bytes: &[u8], known: Option<Answer>, how: &'static str) {
        self.base += u64::from(self.each);
        (self.take)(&Made { bytes, known, how, base: self.base });
    }

    /// The file with other bytes at a place, if they fit.
    fn patched(&mut self, bytes: &mut [u8], at: usize, new: &[u8], how: &'static str) {
        if let Some(old) = bytes.get(at..at + new.len()).map(<[u8]>::to_vec) {
            put(bytes, at, new);
            self.put(bytes, None, how);
            put(bytes, at, &old);
        }
    }
}

fn refused(number: u32, place: usize) -> Option<Answer> {
    Some(Err(Refusal { number, place }))
}

fn set_length(bytes: &mut [u8]) {
    put(bytes, 20, &(bytes.len() as u32).to_be_bytes());
}

/// Known faults alone, up to `singles`, and `pairs` times two at once: the one met first is given.
fn single_and_paired(lib: &Typelib, seed: u64, singles: usize, pairs: usize, sink: &mut Sink) {
    let built = lib.build();
    let good = &built.bytes;
    let mut all = faults(lib, &built, seed);
    let mut bytes = good.clone();
    let mut rng = Rng::new(seed);
    rng.shuffle(&mut all);
    let mut made = |faults: &[&Fault], how: &'static str| {
        faults.iter().for_each(|fault| fault.apply(&mut bytes));
        let first = faults.iter().min_by_key(|fault| fault.rank).expect("a fault");
        sink.put(&bytes, Some(Err(first.refusal)), how);
        faults.iter().for_each(|fault| fault.undo(&mut bytes, good));
    };
    all.iter().take(singles).for_each(|fault| made(&[fault], fault.what));
    for _ in 0..pairs {
        let (a, b) = (rng.pick(&all), rng.pick(&all));
        if a.is_apart(b) {
            made(&[a, b], "two faults");
        }
    }
    // A fault in a file that was cut or padded: it tells what the rest is without what follows.
    for fault in all.iter().filter(|fault| fault.rank.0 != LENGTH).take(pairs / 10) {
        fault.apply(&mut bytes);
        let (number, changed) = match rng.percent(30) {
            true => (refusal::CUT, bytes[..rng.range(HEADER, bytes.len() - 1)].to_vec()),
            false => (refusal::PADDED, [&bytes[..], &footer(&mut rng)].concat()),
        };
        let known = Refusal { number, place: 20 };
        let first = if fault.rank.0 < LENGTH { fault.refusal } else { known };
        if changed.len() <= MAX_FILE {
            sink.put(&changed, Some(Err(first)), "a fault on its way");
        }
        fault.undo(&mut bytes, good);
    }
}

fn field_label(field: Field) -> &'static str {
    use Field::*;
    match field {
        Parent => "13 parent does not fit",
        MethodCount => "13 method count does not fit",
        MethodFlags => "13 method flags do not fit",
        MethodName => "13 method name does not fit",
        ArgumentCount => "13 argument count does not fit",
        ArgumentFlags => "13 argument flags do not fit",
        ResultFlags => "13 result flags do not fit",
        ArgumentPrefix => "13 argument prefix does not fit",
        ResultPrefix => "13 result prefix does not fit",
        Index => "13 index does not fit",
        Number => "13 number does not fit",
        ConstantCount => "13 constant count does not fit",
        ConstantName => "13 constant name does not fit",
        ConstantType => "13 constant type does not fit",
        ConstantValue => "13 constant value does not fit",
        InterfaceFlags => "13 interface flags do not fit",
        _ => "13 other",
    }
}

/// Cuts inside the record that stands last in the pool, the length field set to the rest: every
/// descriptor in turn, then a name.
fn cut_last_record(lib: &Typelib, sink: &mut Sink) {
    let lib = Typelib { tail: 0, sharing: Sharing::None, ..lib.clone() };
    let mut cut = |good: &[u8], length: usize, place: usize, what: &'static str| {
        let mut bytes = good[..length].to_vec();
        set_length(&mut bytes);
        sink.put(&bytes, refused(number(what), place), what);
    };
    for d in 0..lib.descriptors.len() {
        let order = Order::NamesFirst;
        let built = Typelib { order, last: Some(d), ..lib.clone() }.build();
        let (good, placed) = (&built.bytes, &built.placed[d]);
        if placed.entry == usize::MAX {
            continue;
        }
        cut(good, placed.at, built.entry(placed.entry) + 24, "13 descriptor cut away");
        let inside = |s: &&Spot| s.of == d && s.at >= placed.at && s.field != Field::Identifier;
        let fields: Vec<_> = built.spots.iter().filter(inside).collect();
        for length in placed.at + 1..good.len() {
            let spot = fields.iter().find(|spot| spot.at + spot.length > length).unwrap();
            cut(good, length, spot.at, field_label(spot.field));
        }
    }
    let built = Typelib { order: Order::NamesLast, ..lib }.build();
    let end = built.bytes.len();
    let is_last = |s: &&Spot| s.field == Field::Identifier && s.at + s.length + 1 == end;
    for spot in built.spots.iter().filter(is_last) {
        let field = built.spots[spot.of].at;
        cut(&built.bytes, spot.at, field, "13 name cut away");
        (spot.at + 1..end).for_each(|length| cut(&built.bytes, length, field, "11 unfinished"));
    }
}

/// Every value of every byte.
fn all_bytes(good: &[u8], sink: &mut Sink) {
    let bytes = &mut good.to_vec();
    for (at, old) in good.iter().enumerate() {
        let others = (0..=255).filter(|new| new != old);
        others.for_each(|new| sink.patched(bytes, at, &[new], "one byte"));
    }
}

/// Some values of every byte, and edge values in every 2 and 4 bytes.
fn edges(good: &[u8], sink: &mut Sink) {
    let bytes = &mut good.to_vec();
    let (pool, length) = (word(good, 28) as u32, good.len() as u32);
    let rest = length - pool;
    let n = u16::from_be_bytes([good[18], good[19]]);
    let short = [0, 1, n, n + 1, 255, 256, 1024, 1025, 0x7fff, 0x8000, 0xffff];
    let mut long = vec![0, 1, rest.wrapping_sub(1), rest, rest + 1, pool, length, length + 1];
    long.extend([0x7fff_ffff, 0x8000_0000, 0xffff_fffc, 0xffff_ffff]);
    for (at, &old) in good.iter().enumerate() {
        let mut each = |new: &[u8], how| sink.patched(bytes, at, new, how);
        for new in [0, 0x7f, 0x80, 0xff, old.wrapping_add(1), old.wrapping_sub(1)] {
            each(&[new], "edge byte");
        }
        (0..8).for_each(|bit| each(&[old ^ 1 << bit], "one bit"));
        short.iter().for_each(|new| each(&new.to_be_bytes(), "edge of 2 bytes"));
        long.iter().for_each(|new| each(&new.to_be_bytes(), "edge of 4 bytes"));
    }
}

/// Every length, with and without the length field set to it.
fn cuts(good: &[u8], sink: &mut Sink) {
    for length in 0..good.len() {
        let expected = match length {
            0..HEADER => refused(refusal::TOO_SHORT, length),
            _ => refused(refusal::CUT, 20),
        };
        let mut bytes = good[..length].to_vec();
        sink.put(&bytes, expected, "cut");
        if length >= HEADER {
            set_length(&mut bytes);
            sink.put(&bytes, None, "cut, length set");
        }
    }
    let mut longer = good.to_vec();
    for more in [0, 0x80, 0xff] {
        longer.push(more);
        sink.put(&longer, refused(refusal::PADDED, 20), "longer");
    }
}

/// What a mail puts below a file.
fn footer(rng: &mut Rng) -> Vec<u8> {
    let lines = ["\r\n-- \r\n", "Sent from a telephone\r\n", "\n_______\n", "list@example.org\n"];
    (0..rng.range(1, 9)).flat_map(|_| rng.pick(&lines).bytes()).collect()
}

/// A good file on its way: cut in each of its parts, by one byte and by a few; with more bytes at
/// its end.
fn on_its_way(lib: &Typelib, rng: &mut Rng, sink: &mut Sink) {
    let built = lib.build();
    let (good, end) = (&built.bytes, built.bytes.len());
    for (from, to, how) in [
        (HEADER, built.limit(), "29 cut in the annotations"),
        (built.directory, built.entry(built.n), "29 cut in the directory"),
        (built.pool, end, "29 cut in the pool"),
        (end - 1, end, "29 cut by one"),
        (HEADER.max(end - 9), end, "29 cut by a few"),
    ] {
        if from < to {
            sink.put(&good[..rng.range(from, to - 1)], refused(refusal::CUT, 20), how);
        }
    }
    let some = (0..rng.range(2, 300)).map(|_| rng.byte()).collect();
    for (more, how) in [
        (vec![rng.byte()], "30 one byte more"),
        (some, "30 some bytes more"),
        (footer(rng), "30 a footer of text"),
        (good.clone(), "30 the same again"),
    ] {
        sink.put(&[&good[..], &more].concat(), refused(refusal::PADDED, 20), how);
    }
}

/// Every pointer leads to every place of the pool.
fn pointers(built: &Built, sink: &mut Sink) {
    use Field::*;
    let bytes = &mut built.bytes.clone();
    let pointers = [EntryName, EntryNamespace, EntryDescriptor, MethodName, ConstantName];
    for spot in built.spots.iter().filter(|spot| pointers.contains(&spot.field)) {
        for new in 0..=(bytes.len() - built.pool) as u32 + 1 {
            sink.patched(bytes, spot.at, &new.to_be_bytes(), "pointer");
        }
    }
}

/// Several changes at once: bytes, spans copied, bytes put in or taken out.
fn scrambled(good: &[u8], rounds: usize, rng: &mut Rng, sink: &mut Sink) {
    for _ in 0..rounds {
        let mut bytes = good.to_vec();
        for _ in 0..rng.range(1, 4) {
            if bytes.len() <= 40 {
                break;
            }
            let last = bytes.len() - 1;
            let at = rng.range(32, last);
            match rng.below(8) {
                0 => bytes.insert(at, rng.byte()),
                1 => _ = bytes.remove(at),
                2 => {
                    let from = rng.range(32, last);
                    let length = rng.range(1, 8).min(bytes.len() - at.max(from));
                    bytes.copy_within(from..from + length, at);
                }
                3 => bytes[at] = rng.byte(),
                4 => bytes[at] = bytes[at].wrapping_add(1),
                5 => bytes[at] ^= 1 << rng.below(8),
                6 => bytes[at] = rng.byte() & rng.byte() & rng.byte(),
                _ => bytes.swap(at, rng.range(32, last)),
            }
        }
        set_length(&mut bytes);
        sink.put(&bytes, None, "scrambled");
    }
}

/// Too short files: the starts of good ones, and any bytes.
fn too_short(rng: &mut Rng, sink: &mut Sink) {
    for length in 0..HEADER {
        let starts = generate::marked().map(|good| good[..length].to_vec());
        let random = [0; 8].map(|_| (0..length).map(|_| rng.byte()).collect());
        for bytes in starts.into_iter().chain(random) {
            sink.put(&bytes, refused(refusal::TOO_SHORT, length), "1 too short");
        }
    }
}

/// Good files with more unused bytes than are allowed.
fn too_long(rng: &mut Rng, sink: &mut Sink) {
    for _ in 0..25 {
        let mut bytes = generate::random(rng, generate::SMALL).bytes();
        let short = bytes.len();
        bytes.resize(MAX_FILE + 300, rng.byte());
        sink.one();
        for over in [1, 2, 3, rng.range(4, 300)] {
            let expected = refused(refusal::TOO_LONG, MAX_FILE);
            for field in [short, MAX_FILE, MAX_FILE + over] {
                put(&mut bytes, 20, &(field as u32).to_be_bytes());
                sink.put(&bytes[..MAX_FILE + over], expected, "2 too long");
            }
        }
    }
}

/// Headers of all sorts.
fn headers(rng: &mut Rng, sink: &mut Sink) {
    let [p1, p2, p3] = generate::marked();
    // A header alone cannot have a pool.
    for _ in 0..200 {
        let mut bytes = p1[..32].to_vec();
        set_length(&mut bytes);
        for byte in &mut bytes[24..32] {
            *byte = if rng.percent(50) { 0 } else { rng.byte() };
        }
        bytes[31] = *rng.pick(&[0, 31, 32, 33, 36]);
        bytes[19] = rng.below(3) as u8;
        sink.put(&bytes, refused(refusal::POSITION, 28), "8 header alone");
    }
    // One byte more than the greatest file, and more.
    let mut long = p3.clone();
    long.resize(MAX_FILE + 300, 0);
    for k in 1..=300 {
        let length = MAX_FILE + k;
        let field = *rng.pick(&[p3.len(), length, MAX_FILE, 0]);
        put(&mut long, 20, &(field as u32).to_be_bytes());
        long[0] = if k % 3 == 0 { 0 } else { b'X' };
        sink.put(&long[..length], refused(refusal::TOO_LONG, MAX_FILE), "2 too long");
    }
    // Counts, directory and pool against each other.
    for mut bytes in [p1, p2, p3] {
        let length = bytes.len() as u32;
        let directories = [0, 4, 32, 33, 34, 36, 40, 64, 0xffff_ffe4, 0xffff_fffc, length];
        let pools = [0, 31, 32, 33, 36, 37, 63, 64, 65, length - 1, length, length + 1, !0];
        for (n, (directory, pool)) in
            both([0_u16, 1, 2, 3, 1024, 1025, !0], both(directories, pools))
        {
            put(&mut bytes, 18, &n.to_be_bytes());
            put(&mut bytes, 24, &directory.to_be_bytes());
            put(&mut bytes, 28, &pool.to_be_bytes());
            sink.put(&bytes, None, "positions");
        }
    }
}

/// All words of a length over so many letters.
fn words(letters: usize, length: u32) -> impl Iterator<Item = Vec<usize>> + Clone {
    let letter = move |code: usize, i: u32| code / letters.pow(i) % letters;
    let word = move |code: usize| (0..length).map(|i| letter(code, i)).collect();
    (0..letters.pow(length)).map(word)
}

/// All short runs of annotation bytes, before a pool and before a directory.
fn short_annotations(sink: &mut Sink) {
    let alphabet = [0x00, 0x80, 0x01, 0x81, 0x02, 0x7f, 0xff];
    for n in [0, 1] {
        let built = Typelib { directory_gap: 1, pool_gap: 4, ..Typelib::plain(n) }.build();
        let mut bytes = built.bytes.clone();
        for (tail, word) in both([0x00, 0x80, 0x41], words(alphabet.len(), 5)) {
            let annotations = &mut bytes[HEADER..built.limit()];
            annotations.fill(tail);
            annotations.iter_mut().zip(word).for_each(|(byte, k)| *byte = alphabet[k]);
            sink.put(&bytes, None, "annotation bytes");
        }
    }
}

/// The number of characters, each of which is written as its number is, if there are no others.
fn characters(bytes: &[u8]) -> Option<usize> {
    let Some(first) = bytes.first() else { return Some(0) };
    let ones = first.leading_ones();
    let length = (ones as usize).max(1);
    let bits = |sum: u32, byte: &u8| sum << 6 | u32::from(byte & 0x3f);
    let start = u32::from(*first) & (0x7f >> ones);
    let number = bytes.get(1..length)?.iter().fold(start, bits);
    let mut again = [0; 4];
    let written = char::from_u32(number)?.encode_utf8(&mut again).as_bytes();
    (written == &bytes[..length]).then(|| characters(&bytes[length..]))?.map(|rest| rest + 1)
}

/// Sequences of up to four bytes, good and bad: as identifiers of each kind, alone or with a letter
/// before them, and as texts.
fn sequences(sink: &mut Sink) {
    let mut all: Vec<Vec<u8>> = (1..=255).map(|first| vec![first]).collect();
    let seconds = [b' ', b'A', 0x7f, 0x80, 0x8f, 0x90, 0x9f, 0xa0, 0xbf, 0xc0, 0xff];
    all.extend(both(0x80..=255, seconds).map(|(a, b)| vec![a, b]));
    let thirds = both(both(0xdf..=255, seconds), [b'-', 0x80, 0xbf, 0xc0]);
    all.extend(thirds.clone().map(|((a, b), c)| vec![a, b, c]));
    let fourths = both(thirds, [b'!', 0x80, 0xbf]).filter(|(((a, _), _), _)| *a >= 0xef);
    all.extend(fourths.map(|(((a, b), c), d)| vec![a, b, c, d]));
    let methods = vec![Method::plain(0, b"m")];
    let constants = vec![Constant::new(b"k", 1, 7)];
    let mut lib = Typelib::single(Descriptor { methods, constants, ..Descriptor::default() });
    lib.entries[0].namespace = Some(b"n".to_vec());
    let roles = [Field::EntryName, Field::EntryNamespace, Field::MethodName, Field::ConstantName];
    for (k, (bytes, before)) in both(&all, [&b""[..], b"a"]).enumerate() {
        let name = [before, bytes].concat();
        let has_bad = name.iter().any(|byte| *byte <= 0x20 || *byte == 0x7f);
        let is_good = characters(&name).is_some() && !has_bad && name != b"-";
        // Every sequence in another role than the one before it.
        let role = (k / 2 + k) % 4;
        let old = std::mem::replace(names(&mut lib)[role], name);
        let built = lib.build();
        let at = built.spots.iter().find(|spot| spot.field == roles[role]).unwrap().at;
        let fault = (!is_good).then_some((refusal::IDENTIFIER, at));
        sink.built(&built, fault, "a sequence in an identifier");
        *names(&mut lib)[role] = old;
    }
    for (k, (bytes, before)) in both(&all, [&b""[..], b"a\0"]).enumerate() {
        let text = [before, bytes].concat();
        let length = characters(&text);
        let bad = length.is_none().then_some((refusal::ANNOTATION, HEADER));
        let plain = Typelib::plain(k % 3);
        let mut built =
            Typelib { annotations: vec![Some([text.clone(), vec![]])], ..plain }.build();
        // If it has a bad character so many are enough to meet it.
        let length = length.unwrap_or(text.len()) as u16;
        put(&mut built.bytes, HEADER + 1, &length.to_be_bytes());
        sink.built(&built, bad, "a sequence in a text");
    }
    // The limit cuts a character, which goes on in the IID or the pool.
    for (n, character) in both([0, 1], ["\u{e4}", "\u{20ac}", "\u{1f600}"]) {
        for cut in 0..character.len() {
            let (before, after) = character.as_bytes().split_at(character.len() - cut);
            // With as many bytes before it as let the directory follow.
            let text = [&b"abcd"[..4 - (before.len() + 1) % 4], before].concat();
            let lib =
                Typelib { annotations: vec![Some([text, vec![]])], tail: 4, ..Typelib::plain(n) };
            let mut built = lib.build();
            // The texts in the other order.
            let end = built.limit();
            built.bytes[HEADER + 1..end].rotate_right(2);
            put(&mut built.bytes, end, after);
            let fault = (cut > 0).then_some((refusal::ANNOTATION, HEADER));
            sink.built(&built, fault, "a character at the limit");
        }
    }
}

/// Every prefix byte, alone and inside arrays, as argument and as result.
fn prefixes(sink: &mut Sink) {
    let methods = both(0..=MAX_MINOR, [0, NOT_XPCOM]);
    let types = both(both(0..=MAX_ARRAYS, 0..=255), [false, true]);
    both(methods, types).for_each(|(method, of)| one_prefix(method, of, sink));
}

fn one_prefix((minor, flags): (u8, u8), of: ((usize, u8), bool), sink: &mut Sink) {
    let ((depth, prefix), in_result) = of;
    let tag = prefix & TAG;
    let of = Type::nested(depth, 2, prefix, fitting(tag, 1, 2));
    let outer = of.prefix();
    let mut method = Method::plain(flags, b"f");
    method.arguments = [0, POINTER | IID, UINT32].map(|leaf| Parameter::simple(IN, leaf)).to_vec();
    let it = if in_result { &mut method.result } else { &mut method.arguments[0] };
    it.of = of;
    let built = Typelib { minor, ..Typelib::of(vec![method]) }.build();
    let field = if in_result { Field::ResultPrefix } else { Field::ArgumentPrefix };
    let it = |spot: &&Spot| spot.field == field && usize::from(spot.more) == depth;
    let at = built.spots.iter().find(it).unwrap().at;
    let fault = if is_reserved(tag, minor) {
        Some((refusal::RESERVED, at))
    } else if prefix < POINTER && (prefix != tag || needs_pointer(tag)) {
        Some((refusal::RULE, at))
    } else if tag == ARRAY && depth == MAX_ARRAYS {
        Some((refusal::SIZE, at))
    } else {
        let rule = in_result && flags == 0 && outer != VOID && outer != UINT32;
        rule.then_some((refusal::RULE, built.placed[0].methods[0]))
    };
    sink.built(&built, fault, "every prefix");
}

/// Every number in every kind of type, against arguments of every prefix.
fn numbers(sink: &mut Sink) {
    for tag in [INTERFACE_IS, ARRAY, SIZED_STRING, SIZED_WSTRING] {
        for named in 0..=255_u8 {
            let named_tag = named & TAG;
            let pointer = named & POINTER != 0;
            let is_plain = named == named_tag && !needs_pointer(named_tag);
            if is_reserved(named_tag, MAX_MINOR) || !pointer && !is_plain {
                continue;
            }
            let (good, fits) = match tag {
                INTERFACE_IS => (named_tag == IID && pointer, 2),
                _ => (named_tag == UINT32 && !pointer, 1),
            };
            let arguments = vec![
                Parameter::simple(IN | OUT, 1),
                Parameter::simple(IN, UINT32),
                Parameter::simple(IN, POINTER | IID),
                Parameter::new(OUT, Type::with(named, fitting(named_tag, 2, 1))),
            ];
            let mut tails = vec![[3, fits, 0], [fits, 3, 0], [3, 3, 0]];
            tails.retain(|tail| tag != INTERFACE_IS || tail[0] == 3);
            for (tail, (depth, flags)) in both(tails, both([0, 1, 3, 7], [0, NOT_XPCOM])) {
                let mut method = Method::plain(flags, b"f");
                method.arguments = arguments.clone();
                let it = if flags == 0 { &mut method.arguments[0] } else { &mut method.result };
                it.of = Type::nested(depth, 1, POINTER | tag, tail);
                let methods = vec![Method::plain(0, b"e"), method];
                let built = Typelib { minor: MAX_MINOR, ..Typelib::of(methods) }.build();
                let rule = (refusal::RULE, built.placed[0].methods[1]);
                sink.built(&built, (!good).then_some(rule), "numbers");
            }
        }
    }
}

/// Every number against methods of many counts of arguments, of which one can be named.
fn wide_numbers(sink: &mut Sink) {
    for count in [1, 2, 63, 64, 65, 127, 128, 129, 191, 192, 193, 254, 255] {
        for (named, number) in both([0, count / 2, count - 1], 0..=255_u8) {
            let iid_is = (count + usize::from(number)) % 2 == 0;
            let (target, of) = match iid_is {
                true => (POINTER | IID, Type::with(POINTER | INTERFACE_IS, [number, 0, 0])),
                false => (UINT32, Type::with(POINTER | 22, [named as u8, number, 0])),
            };
            let mut arguments = vec![Parameter::simple(IN, 1); count];
            arguments[named] = Parameter::simple(IN, target);
            let method = Method::new(0, b"f", arguments, Parameter::new(RETVAL, of));
            let built = Typelib::of(vec![method]).build();
            let rule = (refusal::RULE, built.placed[0].methods[0]);
            let fault = (usize::from(number) != named).then_some(rule);
            sink.built(&built, fault, "numbers among many arguments");
        }
    }
}

/// IIDs that differ in one byte first, whatever follows it.
fn iids(sink: &mut Sink) {
    let mut built = Typelib::plain(2).build();
    let bytes = [(0, 1), (1, 0), (0x7f, 0x80), (0x80, 0x7f), (0, 0xff), (0xff, 0), (5, 5)];
    let rests = [(0, 0), (0, 0xff), (0xff, 0), (7, 7)];
    for (at, (byte, rest)) in both(0..16, both(bytes, rests)) {
        let iid = |byte: u8, rest: u8| -> Vec<u8> {
            (0..16).map(|i| [0, byte, rest][usize::from(i >= at) + usize::from(i > at)]).collect()
        };
        let (first, second) = (iid(byte.0, rest.0), iid(byte.1, rest.1));
        let rises = first < second || first == [0; 16] && second == [0; 16];
        let place = built.entry(1);
        put(&mut built.bytes, place - ENTRY, &first);
        put(&mut built.bytes, place, &second);
        sink.built(&built, (!rises).then_some((refusal::IID_ORDER, place)), "two IIDs");
    }
}

/// Descriptors of entries without an IID, at many places.
fn without_iid(sink: &mut Sink) {
    for n in [1, 2, 5, 30] {
        for (position, directory_gap) in both(0..n, [0, 3]) {
            let mut lib = Typelib { directory_gap, ..Typelib::plain(n) };
            lib.entries[..=position].iter_mut().for_each(|entry| entry.iid = [0; 16]);
            lib.resolve(position, Descriptor::default());
            let built = lib.build();
            let place = built.entry(position) + 24;
            sink.built(&built, Some((refusal::NO_IID, place)), "12 zero IID");
        }
    }
}

/// Rows of up to five methods out of getters, setters, both, plain and constructors, two names.
fn accessors(rng: &mut Rng, sink: &mut Sink) {
    let kinds = [GETTER, SETTER, 0, GETTER | SETTER, CONSTRUCTOR, GETTER | CONSTRUCTOR];
    let names: [&[u8]; 2] = [b"x", b"xy"];
    for (length, kinds) in
        [(1, &kinds[..]), (2, &kinds), (3, &kinds), (4, &kinds[..4]), (5, &kinds[..2])]
    {
        for word in words(2 * kinds.len(), length) {
            let row: Vec<_> = word.into_iter().map(|k| (kinds[k / 2], names[k % 2])).collect();
            accessor_row(&row, Sharing::None, sink);
        }
    }
    // Longer rows, in which most names are used by one kind only.
    let words: Vec<String> =
        (0..40).map(|i| format!("{}{i}", "long_common_start".repeat(i % 3))).collect();
    for _ in 0..2_000 {
        let length = rng.range(6, 40);
        let mut row = Vec::new();
        while row.len() < length {
            let word = rng.below(40);
            let name = words[word].as_bytes();
            match rng.below(100) {
                0 => row.push((*rng.pick(&kinds), name)),
                1..60 => row.push(([GETTER, SETTER, 0][word % 3], name)),
                _ if row.iter().any(|&(_, other)| other == name) => {}
                _ => row.extend([(GETTER, name), (SETTER, name)]),
            }
        }
        accessor_row(&row, *rng.pick(&[Sharing::None, Sharing::Equal]), sink);
    }
}

fn accessor_row(row: &[(u8, &[u8])], sharing: Sharing, sink: &mut Sink) {
    let methods = row.iter().map(|&(flags, name)| Method::plain(flags, name)).collect();
    let built = Typelib { sharing, ..Typelib::of(methods) }.build();
    let constructors = row.iter().filter(|(flags, _)| flags & CONSTRUCTOR != 0).count();
    let is_pair = |i: usize, j: usize| {
        row[i].0 & GETTER != 0 && row[j].0 & SETTER != 0 && row[i].1 == row[j].1
    };
    let each = || 0..row.len();
    let good = constructors <= 1 && each().all(|i| each().all(|j| j == i + 1 || !is_pair(i, j)));
    sink.built(&built, (!good).then_some((refusal::RULE, built.placed[0].at)), "row of accessors");
}

/// Names of 255 bytes, and of one and more too many, also of fewer characters.
fn long_names(lib: &Typelib, sink: &mut Sink) {
    let mut lib = Typelib { sharing: Sharing::None, ..lib.clone() };
    let count = names(&mut lib).len();
    for i in 0..count {
        for length in [MAX_IDENTIFIER, MAX_IDENTIFIER + 1, MAX_IDENTIFIER + 2, 511, 512] {
            let accented = if i % 2 == 0 { 0 } else { length / 2 };
            let name = ["\u{e4}".repeat(accented), "q".repeat(length - 2 * accented)].concat();
            let old = std::mem::replace(names(&mut lib)[i], name.into());
            let built = lib.build();
            let long = |spot: &&Spot| spot.field == Field::Identifier && spot.length == length;
            let too_long = length > MAX_IDENTIFIER;
            let spot = built.spots.iter().find(long).filter(|_| too_long);
            let fault = spot.map(|spot| (refusal::IDENTIFIER, built.spots[spot.of].at));
            sink.built(&built, fault, if too_long { "11 too long" } else { "longest name" });
            *names(&mut lib)[i] = old;
        }
    }
}

fn names(lib: &mut Typelib) -> Vec<&mut Vec<u8>> {
    let mut all = Vec::new();
    for entry in &mut lib.entries {
        all.push(&mut entry.name);
        all.extend(&mut entry.namespace);
    }
    for d in &mut lib.descriptors {
        all.extend(d.methods.iter_mut().map(|method| &mut method.name));
        all.extend(d.constants.iter_mut().map(|constant| &mut constant.name));
    }
    all
}

/// Counts one too large, with as many records as they say.
fn sizes(sink: &mut Sink) {
    let too_many = Typelib::plain(MAX_INTERFACES + 1).bytes();
    sink.put(&too_many, refused(refusal::COUNT, 18), "7 count");
    for sharing in [Sharing::None, Sharing::Equal] {
        let methods = Typelib::of(vec![Method::plain(0, b"m"); MAX_METHODS + 1]);
        let constants = vec![Constant::new(b"k", 1, 7); MAX_CONSTANTS + 1];
        let constants = Typelib::single(Descriptor { constants, ..Descriptor::default() });
        // A count of methods stands behind the parent, one of constants behind that of methods.
        for (lib, at, what) in [(methods, 2, "17 methods"), (constants, 4, "17 constants")] {
            let built = Typelib { sharing, ..lib }.build();
            sink.built(&built, Some((refusal::SIZE, built.placed[0].at + at)), what);
        }
    }
    for (depth, position) in both(7..=20, 0..4) {
        let deep = |flags: u8, depth| Parameter::new(flags, Type::nested(depth, 0, 3, [0; 3]));
        let arguments = vec![Parameter::simple(IN, UINT32); 4];
        let mut method = Method::new(0, b"deep", arguments, deep(RETVAL, 8));
        match position {
            0 => method.result = deep(RETVAL, depth),
            _ => method.arguments[position] = deep(OUT, depth),
        }
        let built = Typelib::of(vec![method]).build();
        let ninth = built.spots.iter().find(|spot| {
            matches!(spot.field, Field::ArgumentPrefix | Field::ResultPrefix)
                && usize::from(spot.more) == MAX_ARRAYS
                && built.bytes[spot.at] & TAG == ARRAY
        });
        sink.built(&built, ninth.map(|spot| (refusal::SIZE, spot.at)), "nesting");
    }
}

/// Keys that return in all sorts of patterns.
fn keys(rng: &mut Rng, sink: &mut Sink) {
    let keys = [
        [("", "A"), ("", "B"), ("A", "B"), ("B", "A"), ("A", "A")],
        [("", "AB"), ("AB", "A"), ("A", "BA"), ("", "a"), ("_", "0")],
    ]
    .concat();
    let mut patterns = vec![vec![0, 1, 1, 0], vec![0, 1, 0, 1], vec![2, 3, 2], vec![0, 0, 0]];
    for _ in 0..6_000 {
        let length = rng.range(1, 12);
        let kinds = rng.range(1, 10);
        patterns.push((0..length).map(|_| rng.below(kinds)).collect());
    }
    for pattern in patterns {
        let mut lib = Typelib::plain(pattern.len());
        lib.sharing = *rng.pick(&[Sharing::None, Sharing::Equal, Sharing::Overlap]);
        lib.directory_gap = rng.below(3);
        let zeros = rng.below(pattern.len() + 1);
        lib.entries[..zeros].iter_mut().for_each(|entry| entry.iid = [0; 16]);
        for (entry, &key) in lib.entries.iter_mut().zip(&pattern) {
            entry.set_key(keys[key].0, keys[key].1);
        }
        let built = lib.build();
        let again = (0..pattern.len()).find(|&i| pattern[..i].contains(&pattern[i]));
        let fault = again.map(|i| (refusal::KEY_TWICE, built.entry(i)));
        sink.built(&built, fault, "pattern of keys");
    }
}

/// Parents in all small patterns and in larger random ones.
fn chains(rng: &mut Rng, sink: &mut Sink) {
    // n + 1 stands for an unresolved entry.
    for parents in (1..=4).flat_map(|n| words(n + 2, n as u32)) {
        chain(&parents, sink);
    }
    for round in 0..3_000 {
        let n = rng.range(5, 60);
        let mut parents: Vec<usize> = (0..n).map(|i| rng.below(i + 1)).collect();
        match round % 4 {
            0 => parents = (0..n).map(|_| rng.below(n + 2)).collect(),
            // One long cycle, or one chain into it.
            1 => parents = (0..n).map(|i| (i + 1) % n + 1).collect(),
            2 => parents[rng.below(n)] = rng.range(1, n),
            _ => parents.iter_mut().for_each(|p| *p = if *p == 0 { 0 } else { n + 1 - *p }),
        }
        if round % 4 == 3 {
            parents.reverse();
        }
        if rng.percent(30) {
            parents[rng.below(n)] = n + 1;
        }
        chain(&parents, sink);
    }
}

fn chain(parents: &[usize], sink: &mut Sink) {
    let n = parents.len();
    let mut lib = Typelib::plain(n);
    let mut ends = parents.to_vec();
    for (i, &parent) in parents.iter().enumerate() {
        match parent <= n {
            true => lib.resolve(i, Descriptor::below(parent)),
            false => ends[i] = 0,
        }
    }
    let built = lib.build();
    let fault = lowest_endless(&ends).map(|i| (refusal::CYCLE, built.entry(i)));
    sink.built(&built, fault, "pattern of parents");
}

/// Descriptors of bytes drawn at random, mostly small.
fn random_pools(rounds: usize, rng: &mut Rng, sink: &mut Sink) {
    let built = Typelib::single(Descriptor::default()).build();
    for _ in 0..rounds {
        let mut bytes = built.bytes[..built.pool].to_vec();
        bytes.extend_from_slice(b"A\0");
        bytes.extend([0, rng.below(3) as u8, 0, rng.below(3) as u8]);
        for _ in 0..rng.below(60) {
            let small =
                [0, 0, 0, 0, 1, 1, 2, 6, 13, 14, 0x80, 0x8e, 0x92, 0x93, 0x94, 0x95, 0x98, 0x40];
            bytes.push(if rng.percent(97) { *rng.pick(&small) } else { rng.byte() });
        }
        bytes[17] = generate::minor(rng);
        set_length(&mut bytes);
        sink.put(&bytes, None, "random pool");
    }
}

/// Hands on every generated file, good and damaged.
pub fn everything(seed: u64, take: &mut dyn FnMut(&Made)) {
    let rng = &mut Rng::new(seed);
    // Other numbers with every seed.
    let sink = &mut Sink { take, base: seed.wrapping_mul(1 << 32), each: false };
    marked(sink);
    generate::special().iter().for_each(|lib| _ = sink.good(lib, "special"));
    too_short(rng, sink.each());
    too_long(rng, sink);
    headers(rng, sink.one());
    short_annotations(sink.one());
    sequences(sink.each());
    prefixes(sink.each());
    numbers(sink);
    wide_numbers(sink);
    iids(sink.one());
    without_iid(sink.each());
    accessors(rng, sink);
    sizes(sink);
    keys(rng, sink);
    chains(rng, sink);
    random_pools(20_000, rng, sink.one());
    good(rng, sink);
    related(rng, sink);
    all_faults(rng, sink);
    some_faults(rng, sink);
    far_faults(rng, sink);
}

/// The marked files and every change of a byte in them.
fn marked(sink: &mut Sink) {
    for good in generate::marked() {
        sink.one().put(&good, Some(Ok(usize::from(good[19]))), "marked");
        all_bytes(&good, sink);
        edges(&good, sink);
        cuts(&good, sink);
    }
}

/// Good files of all sizes, some of them scrambled.
fn good(rng: &mut Rng, sink: &mut Sink) {
    for round in 0..12_000 {
        let size = match round % 80 {
            7 => generate::LARGE,
            k if k % 8 < 6 => generate::SMALL,
            _ => generate::MEDIUM,
        };
        let lib = generate::random(rng, size);
        let bytes = sink.good(&lib, "random");
        if round % 4 == 1 {
            on_its_way(&lib, rng, sink);
        }
        scrambled(&bytes, if round % 4 == 0 { 20 } else { 0 }, rng, sink);
    }
}

/// Good files that inherit over several levels, and files whose records overlap.
fn related(rng: &mut Rng, sink: &mut Sink) {
    for round in 0..3_000 {
        match round % 3 {
            0 => sink.good(&pairs::view(&pairs::world(rng), rng), "view of a world"),
            _ => sink.good(&generate::family(rng), "family"),
        };
    }
    for round in 0..60 {
        let bytes = generate::overlapping_heads(rng, 1 + round % 16);
        sink.one().put(&bytes, Some(Ok(2 + round % 16)), "overlapping heads");
        scrambled(&bytes, 50, rng, sink);
        if round == 3 {
            all_bytes(&bytes, sink);
        }
        let count = 1 + round % 40;
        let bytes = generate::names_in_descriptors(rng, count);
        sink.one().put(&bytes, Some(Ok(count)), "names in descriptors");
        scrambled(&bytes, 20, rng, sink);
    }
}

/// Files with every kind of field, damaged in every way.
fn all_faults(rng: &mut Rng, sink: &mut Sink) {
    for (minor, order) in [
        (1, Order::Entries),
        (2, Order::NamesFirst),
        (1, Order::NamesLast),
        (0, Order::NamesFirst),
        (0, Order::Shuffled),
    ] {
        let lib = generate::rich(minor, order);
        let bytes = sink.good(&lib, "rich");
        single_and_paired(&lib, 7, usize::MAX, 20_000, sink);
        cut_last_record(&lib, sink);
        long_names(&lib, sink);
        cuts(&bytes, sink);
        scrambled(&bytes, 5_000, rng, sink);
        edges(&bytes, sink);
        if order == Order::NamesFirst {
            all_bytes(&bytes, sink);
            pointers(&lib.build(), sink);
        }
    }
}

/// Random files, damaged in many ways.
fn some_faults(rng: &mut Rng, sink: &mut Sink) {
    for round in 0..120 {
        let size = if round % 6 == 5 { generate::MEDIUM } else { generate::SMALL };
        let mut lib = generate::random(rng, size);
        while lib.descriptors.iter().all(|d| d.methods.len() < 2) || lib.bytes().len() > 6_000 {
            lib = generate::random(rng, size);
        }
        let built = lib.build();
        sink.one();
        if built.bytes.len() < 1_000 && round % 2 == 0 {
            cuts(&built.bytes, sink);
            edges(&built.bytes, sink);
            pointers(&built, sink);
        }
        if built.bytes.len() < 600 && round % 10 == 0 {
            all_bytes(&built.bytes, sink);
        }
        if round % 4 == 0 {
            long_names(&lib, sink);
        }
        lib.sharing = Sharing::None;
        single_and_paired(&lib, round, 4_000, 3_000, sink);
        cut_last_record(&lib, sink);
    }
}

/// Far places: large files, of which a check reads much before it meets the fault.
fn far_faults(rng: &mut Rng, sink: &mut Sink) {
    for round in 0..8 {
        let lib = Typelib { sharing: Sharing::None, ..generate::random(rng, generate::LARGE) };
        single_and_paired(&lib, round, 400, 400, sink.one());
    }
    let rich = generate::rich(1, Order::NamesFirst);
    let to_the_end = MAX_FILE - rich.bytes().len();
    for lib in [
        Typelib { directory_gap: 20_000, pool_gap: 70_001, junk: 3, ..rich.clone() },
        Typelib { record_gap: 40_000, junk: 4, ..generate::rich(0, Order::Shuffled) },
        Typelib { pool_gap: to_the_end, ..rich },
    ] {
        sink.good(&lib, "far");
        single_and_paired(&lib, 5, 1_500, 500, sink);
    }
    for lengths in [[300, 65_535], [65_535, 256]] {
        let texts = lengths.map(|length| vec![b'~'; length]);
        let lib = Typelib { annotations: vec![Some(texts), None], ..Typelib::plain(2) };
        single_and_paired(&lib, 6, 300, 100, sink.one());
    }
    for count in [200, 1023, MAX_INTERFACES] {
        let lib = generate::wide(rng, count);
        sink.good(&lib, "wide");
        single_and_paired(&lib, 3, 400, 400, sink);
    }
}
