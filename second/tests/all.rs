//! The second program on document 01's marked cases and the readings, by the tables beside this
//! file; and that a planted difference is found and made smaller.

use second::library::cases::{bytes, shown, Asked, Case};
use second::library::{
    adoptions, checks, links, lists, lists::ROOM, looks, questions, questions::Question,
};
use second::library::{Program, Session, OWN};
use second::line::answers::{asked, reason, salvaged};
use second::line::{compare::is_told, compare::tells, listing};
use second::making::generate::{marked, one_stock, rich};
use second::making::{builder::*, hostile::long_listing, model, pairs, rng::Rng, shape};
use second::program::{check::check, questions::Lookup};
use second::tally::{floors, Came, Tally};
use std::cmp::Ordering;
use std::panic::{catch_unwind, AssertUnwindSafe};
use std::path::Path;

/// A table's rows, without empty lines and comments.
fn rows<'t>(table: &'t str, between: &'t str) -> impl Iterator<Item = (&'t str, &'t str)> {
    let lines = table.lines().filter(|line| !line.is_empty() && !line.starts_with('#'));
    lines.map(move |line| line.split_once(between).expect(line))
}

#[test]
fn marked_files() {
    let [p1, p2, p3] = [
        "01010000000000240000000000000024 80000000",
        "01010001000000450000002400000040 80000000 00000000000000000000000000000000
         000000010000000000000000 54616e6b00",
        "01010001000000520000002400000040 80000000 00000000000000000000000000000001
         000000010000000000000003 4100 0000 0000 0001 00000011 01 fffe 80 4b00",
    ]
    .map(with_magic);
    assert_eq!(marked(), [p1.clone(), p2.clone(), p3.clone()]);
    for (file, n) in [(&p1, 0), (&p2, 1), (&p3, 1)] {
        assert_eq!(check(file), Ok(n));
        assert_eq!(written(&[file]), Ok(file.clone()));
        // P12, in both orders, and each with itself.
        assert_eq!(written(&[file, file]), Ok(file.clone()));
        assert_eq!(written(&[&p1, file]), Ok(file.clone()));
        assert_eq!(written(&[file, &p1]), Ok(file.clone()));
    }
    // P13 and P14.
    let mut other = p3.clone();
    other[78] = 0xfd;
    assert_eq!(written(&[&p3, &other]), Err("refused 23 1".to_string()));
    assert_eq!(answer(&p3, "constant 1 4b"), "found i16 -2");
}

/// A file of the tables with other bytes at places, some put in, or cut.
fn of_recipe(recipe: &str) -> Vec<u8> {
    let [p1, p2, p3] = marked();
    let number = Parameter::new(0, Type::with(POINTER | INTERFACE_IS, [9, 0, 0]));
    let bad = Method::new(0, b"m", vec![number], Parameter::simple(0, 0));
    let two = Typelib::plain(2).bytes();
    let constructors = ["a", "b"].map(|name| Method::plain(CONSTRUCTOR, name.as_bytes()));
    let files = [
        ("p1", p1),
        ("p2", p2),
        ("p3", p3),
        ("two", two),
        ("wide", Typelib { pool_gap: 8, ..Typelib::default() }.bytes()),
        ("call", Typelib::of(vec![bad, Method::plain(0, b"n")]).bytes()),
        ("pair", Typelib::of(constructors.to_vec()).bytes()),
    ];
    let mut words = recipe.split(' ');
    let name = words.next().unwrap();
    let mut file = files.iter().find(|(file, _)| *file == name).unwrap().1.clone();
    for word in words {
        if let Some((at, new)) = word.split_once('=') {
            let place: usize = at.trim_start_matches('+').parse().unwrap();
            let new = bytes(new).unwrap();
            let old = if at.starts_with('+') { 0 } else { new.len() };
            file.splice(place..place + old, new);
        } else {
            let length: usize = word[1..].parse().unwrap();
            file.truncate(length);
            if word.starts_with('|') {
                file[20..24].copy_from_slice(&(length as u32).to_be_bytes());
            }
        }
    }
    file
}

#[test]
fn readings_of_the_check() {
    for (recipe, expected) in rows(include_str!("readings.txt"), ": ") {
        assert_eq!(shown(check(&of_recipe(recipe))), expected, "{recipe}");
    }
}

#[test]
fn adopted_files() {
    for (recipe, expected) in rows(include_str!("adoptions.txt"), ": ") {
        let (file, mut out) = (of_recipe(recipe), [7; 100]);
        let answer = (OWN.adopt)(&file, &mut out);
        if expected.starts_with("refused ") {
            assert_eq!((shown(answer), out), (expected.to_string(), [7; 100]), "{recipe}");
            continue;
        }
        let expected = of_recipe(expected);
        let length = expected.len();
        assert_eq!(answer, Ok(length), "{recipe}");
        assert_eq!((&out[..length], &out[length..]), (&expected[..], &[7; 100][length..]));
        let short = Err(Refusal { number: 27, place: length });
        assert_eq!((OWN.adopt)(&file, &mut out[..length - 1]), short);
    }
    // At the greatest size a byte more is one too many.
    let long = Typelib::plain(1).filled_to(MAX_FILE).bytes();
    assert_eq!(shown((OWN.adopt)(&long, &mut vec![0; MAX_FILE + 4])), "refused 26 0");
}

/// Entries 2 to 4 in a complete chain, 4 the lowest. 5 unresolved, 6 below it, 7 below 6. 1, 8 and
/// 9 unresolved, 1 without IID.
fn tree() -> Vec<u8> {
    let mut lib = Typelib::plain(9);
    lib.entries[0].iid = [0; 16];
    lib.entries[7].set_key("ab", "c");
    lib.entries[8].set_key("", "abc");
    let methods = |of: &[(u8, &str)]| -> Vec<Method> {
        of.iter().map(|(flags, name)| Method::plain(*flags, name.as_bytes())).collect()
    };
    let constants = |of: &[(&str, u8, u32)]| -> Vec<Constant> {
        of.iter().map(|(name, kind, v)| Constant::new(name.as_bytes(), *kind, *v)).collect()
    };
    let (g, s) = (GETTER, SETTER);
    let top = [("K", 1, 0x8000), ("L", 2, !0), ("L", 2, 7), ("S", 5, 0xffff), ("U", 6, !0)];
    let low = [(0, "c"), (g, "a"), (CONSTRUCTOR, "d"), (s | NOT_XPCOM, "e")];
    let low = [&low[..], &[(HIDDEN, "a"), (NOT_XPCOM, "a")]].concat();
    for (index, parent, methods, constants) in [
        (2, 0, methods(&[(0, "a"), (g, "b"), (s, "b"), (0, "b")]), constants(&top)),
        (3, 2, vec![], constants(&[("K", 1, 0x7fff)])),
        (4, 3, methods(&low), vec![]),
        (6, 5, methods(&[(0, "a")]), constants(&[("K", 1, 0xffff)])),
        (7, 6, methods(&[(0, "f")]), vec![]),
    ] {
        lib.resolve(index - 1, Descriptor { parent, methods, constants, flags: 0 });
    }
    lib.bytes()
}

/// The answer to a question as `xpt` gives it, without a last newline. A table is asked by a key, and
/// looks by an IID.
fn answer(file: &[u8], line: &str) -> String {
    let (command, _) = line.split_once(' ').unwrap();
    let line = line.replacen("table ", "key ", 1).replacen("looks ", "iid ", 1);
    let question = Question::parse(&line).expect(&line);
    let outcome = asked(command, file, &question);
    String::from_utf8(outcome.text.unwrap()).unwrap().trim_end_matches('\n').replace('\n', "; ")
}

#[test]
fn readings_of_the_questions() {
    for (question, expected) in rows(include_str!("answers.txt"), ": ") {
        assert_eq!(answer(&tree(), question), expected, "{question}");
        // The file's refusal comes first.
        assert_eq!(answer(&tree()[..81], question), "refused 29 20");
    }
}

/// How often the numbers from `low` to `high` are looked at until the one sought, or where it would
/// stand, is met: by the definition.
fn count(low: usize, high: usize, is_at: usize, is_there: bool) -> usize {
    let middle = (low + high) / 2;
    match is_at.cmp(&middle) {
        _ if low > high => 0,
        Ordering::Equal if is_there => 1,
        Ordering::Greater => 1 + count(middle + 1, high, is_at, is_there),
        _ => 1 + count(low, middle - 1, is_at, is_there),
    }
}

#[test]
fn looks_by_halving() {
    for n in [0, 1, 2, 3, 4, 7, 8, 9, 100, 1_023, 1_024] {
        // IIDs 2, 4, ..; those between are not there.
        let mut lib = Typelib::plain(n);
        lib.entries
            .iter_mut()
            .zip(1..)
            .for_each(|(entry, i): (_, u128)| entry.iid = (2 * i).to_be_bytes());
        let bytes = lib.bytes();
        let mut most = 0;
        for iid in 1..2 * n + 2 {
            let is_there = iid % 2 == 0;
            let is_at = iid.div_ceil(2);
            let looked = count(1, n, is_at, is_there);
            let answer = (OWN.looks)(&bytes, &(iid as u128).to_be_bytes());
            assert_eq!(answer, Ok((is_there.then_some(is_at), looked)), "{iid} of {n}");
            most = most.max(looked);
        }
        assert_eq!(most, (n + 1).next_power_of_two().ilog2() as usize, "{n}");
    }
}

fn written(files: &[&[u8]]) -> Result<Vec<u8>, String> {
    let mut out = vec![0; MAX_FILE];
    let length = OWN.write(files, &mut out).map_err(|(_, refusal)| shown(Err(refusal)))?;
    out.truncate(length);
    Ok(out)
}

/// Entries as name:IID, with :parent where they are resolved.
fn file(entries: &str) -> Vec<u8> {
    let mut lib = Typelib::default();
    for entry in entries.split(' ') {
        let words: Vec<&str> = entry.split(':').collect();
        let mut new = Entry::new(words[1].parse().unwrap(), words[0]);
        let parent = words.get(2).map(|parent| parent.parse().unwrap());
        new.descriptor = parent.map(|parent| lib.add(Descriptor::below(parent)));
        lib.entries.push(new);
    }
    lib.bytes()
}

fn piled(files: &[&[u8]]) -> Result<Vec<u8>, String> {
    let told = |((which, why), step): ((u8, Refusal), usize)| {
        format!("refused {which} {} {} step {step}", why.number, why.place)
    };
    (OWN.pile)(files).map_err(told)
}

#[test]
fn readings_of_links() {
    for (files, expected) in rows(include_str!("links.txt"), " = ") {
        let libs: Vec<_> = files.split(" + ").map(file).collect();
        let libs: Vec<_> = libs.iter().map(|lib| &lib[..]).collect();
        let expected = match expected.contains(':') {
            true => written(&[&file(expected)]),
            false => Err(format!("refused {expected}")),
        };
        let answer = if libs.len() == 2 { written(&libs) } else { piled(&libs) };
        assert_eq!(answer, expected, "{files}");
    }
}

#[test]
fn normal_forms() {
    // Layout and minor are forgotten.
    let lib = rich(0, Order::Shuffled);
    let form = written(&[&lib.bytes()]).unwrap();
    let other = Typelib { junk: 3, pool_gap: 5, tail: 9, ..rich(1, Order::NamesFirst) };
    assert_eq!(written(&[&other.bytes()]), Ok(form.clone()));
    assert_eq!((form[17], written(&[&form])), (1, Ok(form.clone())));
    let other = Typelib { minor: 2, ..rich(1, Order::NamesFirst) }.bytes();
    assert_eq!(written(&[&other]), Ok(form.clone()));
    // The tags of minor 2 are written as such, also where only one of two files has them.
    let newer = written(&[&rich(2, Order::Shuffled).bytes()]).unwrap();
    assert_eq!((newer[17], written(&[&newer])), (2, Ok(newer.clone())));
    for files in [[&newer, &marked()[1]], [&marked()[1], &newer]] {
        assert_eq!(written(&files.map(|file| &file[..])).unwrap()[17], 2);
    }
    assert_eq!(written(&[&form, &newer]), Err("refused 23 5".to_string()));
    // Zero IIDs by namespace, then name: default first, a prefix before the longer.
    let keys = [("", "A"), ("", "AA"), ("", "_"), ("", "a"), ("Z", "a"), ("a", "b"), ("aa", "A")];
    let of = |keys: &mut dyn Iterator<Item = &(&str, &str)>| {
        let mut lib = Typelib { sharing: Sharing::Equal, ..Typelib::default() };
        for (namespace, name) in keys {
            lib.entries.push(Entry::new(0, name));
            lib.entries.last_mut().unwrap().set_key(namespace, name);
        }
        lib.bytes()
    };
    assert_eq!(written(&[&of(&mut keys.iter().rev())]), Ok(of(&mut keys.iter())));
    // Names stand after the whole descriptor; buffers keep their other bytes.
    let methods = vec![Method::plain(GETTER, b"B"), Method::plain(SETTER, b"B")];
    let shared = Typelib { sharing: Sharing::Overlap, ..Typelib::of(methods) }.bytes();
    let form = written(&[&shared]).unwrap();
    assert!(form.len() == 91 && form.ends_with(b"\0B\0"));
    let mut out = vec![7; form.len() + 3];
    assert_eq!((OWN.normalise)(&shared, &mut out[..form.len() - 1]).unwrap_err().number, 27);
    assert!(out.iter().all(|byte| *byte == 7));
    assert_eq!((OWN.normalise)(&shared, &mut out), Ok(form.len()));
    assert!(out.ends_with(&[7; 3]));
}

/// The bytes of hexadecimal digits behind the magic.
fn with_magic(hex: &str) -> Vec<u8> {
    let rest = bytes(&hex.split_whitespace().collect::<String>()).unwrap();
    [&MAGIC[..], &rest].concat()
}

#[test]
fn each_name_once() {
    let named =
        |lib: &mut Typelib, i: usize, namespace, name| lib.entries[i].set_key(namespace, name);
    let methods = |names: &[&str]| -> Vec<Method> {
        names.iter().map(|name| Method::plain(0, name.as_bytes())).collect()
    };
    // A.A with a method A and a constant A.
    let constants = vec![Constant::new(b"A", 1, 7)];
    let d = Descriptor { methods: methods(&["A"]), constants, ..Descriptor::default() };
    let mut same = Typelib::single(d);
    named(&mut same, 0, "A", "A");
    let same_form = with_magic(
        "01010001000000580000002400000040 80000000 00000000000000000000000000000001
         000000010000000100000003 4100 0000 0001 00 00000001 00 000d 0001 00000001 01 0007 00",
    );
    // Methods foo, foo and bar, then bar.foo.
    let mut later = Typelib::plain(2);
    later.resolve(0, Descriptor::of(methods(&["foo", "foo", "bar"])));
    named(&mut later, 0, "", "A");
    named(&mut later, 1, "bar", "foo");
    let later_form = with_magic(
        "0101000200000085000000240000005c 80000000 00000000000000000000000000000001
         000000010000000000000003 00000000000000000000000000000002 000000220000002600000000
         4100 0000 0003 00 00000022 00 000d 00 00000022 00 000d 00 00000026 00 000d 0000 00
         666f6f00 62617200",
    );
    // x.y and y.x.
    let mut crossed = Typelib::plain(2);
    crossed.entries.iter_mut().for_each(|entry| entry.iid = [0; 16]);
    named(&mut crossed, 0, "y", "x");
    named(&mut crossed, 1, "x", "y");
    let crossed_form = with_magic(
        "0101000200000060000000240000005c 80000000 00000000000000000000000000000000
         000000010000000300000000 00000000000000000000000000000000 000000030000000100000000
         7900 7800",
    );
    let all = [(same, same_form, 88), (later, later_form, 133), (crossed, crossed_form, 96)];
    for (lib, form, length) in all {
        assert_eq!(form.len(), length);
        for sharing in [Sharing::None, Sharing::Equal, Sharing::Overlap] {
            let bytes = Typelib { sharing, ..lib.clone() }.bytes();
            assert_eq!(written(&[&bytes]), Ok(form.clone()));
            assert_eq!(written(&[&bytes, &form]), Ok(form.clone()));
        }
        let short = Err(Refusal { number: 27, place: length });
        assert_eq!((OWN.normalise)(&form, &mut vec![0; length - 1]), short);
    }
    // No tails are shared, and no descriptors.
    let mut tails = Typelib { sharing: Sharing::Overlap, ..Typelib::plain(2) };
    named(&mut tails, 0, "", "foo");
    named(&mut tails, 1, "", "oo");
    let d = Some(tails.add(Descriptor::default()));
    tails.entries.iter_mut().for_each(|entry| entry.descriptor = d);
    let form = written(&[&tails.bytes()]).unwrap();
    assert_eq!(form[92..], *b"foo\0\0\0\0\0\0\0\0oo\0\0\0\0\0\0\0\0");
    assert!(form[64..92].ends_with(&[0, 0, 0, 12, 0, 0, 0, 0, 0, 0, 0, 15]));
    // As the builder stores each name once, and never longer than with repeats.
    let rng = &mut Rng::new(109);
    let mut shorter = 0;
    for _ in 0..500 {
        let form = written(&[&one_stock(rng).bytes()]).unwrap();
        let read = model::read(&form);
        assert_eq!(model::form(&read, Sharing::Equal), form);
        assert!(shape::uses(&form).is_some());
        let before = model::form(&read, Sharing::None);
        assert!(before.len() >= form.len());
        shorter += usize::from(before.len() > form.len());
        // Another check sees where it is not so.
        assert_eq!(shape::uses(&before).is_some(), before == form);
    }
    assert!(shorter > 300);
}

#[test]
fn at_the_limit() {
    let length = |files: &[Typelib]| {
        let files: Vec<_> = files.iter().map(Typelib::bytes).collect();
        written(&files.iter().map(|file| &file[..]).collect::<Vec<_>>()).map(|form| form.len())
    };
    let over = Err("refused 26 0".to_string());
    for length_asked in [MAX_FILE - 100, MAX_FILE - 1, MAX_FILE, MAX_FILE + 1, MAX_FILE + 90_000] {
        let lib = pairs::of_normal_length(length_asked, 'a');
        let is_over = length_asked > MAX_FILE;
        assert_eq!(length(&[lib]), if is_over { over.clone() } else { Ok(length_asked) });
    }
    let ends = [Ok(MAX_FILE - 1), Ok(MAX_FILE), over.clone()];
    for (i, (made, files)) in pairs::ends().into_iter().enumerate() {
        assert_eq!(length(&files), ends[i / 2 % 3], "{made}");
        if i % 2 == 1 {
            assert_eq!(length(&files[..1]), ends[i / 2 % 3], "{made}");
        }
    }
    for (made, files) in pairs::edge_triples() {
        let files = files.map(|lib| lib.bytes());
        let piled = piled(&files.each_ref().map(|file| &file[..])).map(|form| form.len());
        match made {
            "1,048,576 bytes in the end" => assert_eq!(piled, Ok(MAX_FILE)),
            "1,048,577 bytes in the end" => assert_eq!(piled, Err("refused 0 26 0 step 2".into())),
            "too long at once" => assert_eq!(piled, Err("refused 0 26 0 step 1".into())),
            _ => {}
        }
    }
    let shared = [68, 69].map(|n| (OWN.normalise)(&long_listing(n), &mut vec![0; MAX_FILE]));
    assert_eq!(shared.map(|form| form.map_err(|why| why.number)), [Ok(1_047_414), Err(26)]);
}

#[test]
fn listings() {
    let printed = |input: &[u8]| String::from_utf8(listing::listed(input)).unwrap();
    let [p1, p2, p3] = marked();
    let zero = "0".repeat(31);
    assert_eq!(printed(&p1), "accepted 0\n");
    assert_eq!(printed(&p2), format!("accepted 1\nI 1 {zero}0 - Tank unresolved\n"));
    assert_eq!(printed(&p3), format!("accepted 1\nI 1 {zero}1 - A parent 0\nC K -2\n"));
    assert_eq!(printed(&p3[..81]), "refused 29 20\n");
    assert_eq!(printed(&[0; 65_536]), "refused 3 0\n");
    assert_eq!(printed(&[0; 65_537]), "input too long\n");
    let tree = printed(&tree());
    for part in [
        format!("accepted 9\nI 1 {zero}0 - E0 unresolved\nI 2 {zero}2 - E1 parent 0\nM 0 a 0 4\n"),
        "M 3 b 0 4\nC K -32768\nC L -1\nC L 7\nC S 65535\nC U 4294967295\nI 3".to_string(),
        format!("I 7 {zero}7 - E6 parent 6\nM ? f 0 ?\nI 8 {zero}8 ab c unresolved\n"),
    ] {
        assert!(tree.contains(&part), "{part}");
    }
}

#[test]
fn salvaged_files() {
    for (recipe, expected) in rows(include_str!("salvages.txt"), ": ") {
        let bytes = if recipe.contains(':') { file(recipe) } else { of_recipe(recipe) };
        let outcome = salvaged(&[&bytes]);
        let text = String::from_utf8(outcome.text.unwrap()).unwrap();
        assert_eq!(text.trim_end().replace('\n', "; "), expected, "{recipe}");
        // What is written is its own normal form, and that of the file where nothing changed.
        if let Some(left) = outcome.written {
            assert_eq!(written(&[&left]), Ok(left.to_vec()));
            assert_eq!(written(&[&bytes]) == Ok(left.to_vec()), expected.ends_with("changed 0"));
        }
    }
}

/// Runs a part with a program that is wrong on purpose: the case in which it ends, made smaller.
fn planted(part: &'static str, run: fn(&mut Session), wrong: Program) -> Case {
    let mut session = Session { seed: 2, other: wrong, tally: Tally::new(part) };
    let ended = catch_unwind(AssertUnwindSafe(|| run(&mut session))).unwrap_err();
    let case = *ended.downcast::<Case>().unwrap();
    assert!(case.differs(&wrong) && !case.differs(&OWN));
    case
}

#[test]
fn planted_differences() {
    fn moved(why: Refusal) -> Refusal {
        Refusal { place: why.place + usize::from(why.number == 19), ..why }
    }
    let wrong = Program { check: |file| check(file).map_err(moved), ..OWN };
    let case = planted("checks", checks::run, wrong);
    assert!(case.files[0].len() < 90, "{case:?}");
    let wrong = Program {
        slot: |file, index, slot| match (OWN.slot)(file, index, slot) {
            Lookup::Undetermined(_) => Lookup::None,
            answer => answer,
        },
        ..OWN
    };
    let case = planted("questions", questions::run, wrong);
    assert!(case.files[0].len() < 1_000, "{case:?}");
    let wrong = Program {
        normalise: |file, out| {
            let length = (OWN.normalise)(file, out)?;
            let next = out.get_mut(length).filter(|_| file.len() < 500);
            next.into_iter().for_each(|next| *next ^= 0x40);
            Ok(length)
        },
        ..OWN
    };
    planted("links", links::run, wrong);
    // An empty directory is looked at; a field is left as it was.
    let wrong = Program {
        looks: |file, iid| (OWN.looks)(file, iid).map(|(index, looked)| (index, looked.max(1))),
        ..OWN
    };
    let case = planted("looks", looks::run, wrong);
    assert!(case.files[0].len() < 40, "{case:?}");
    let wrong = Program {
        adopt: |file, out| {
            let length = (OWN.adopt)(file, out)?;
            if file[18..20] == [0; 2] {
                out[24..28].copy_from_slice(&file[24..28]);
            }
            Ok(length)
        },
        ..OWN
    };
    let case = planted("adoptions", adoptions::run, wrong);
    assert!(case.files[0].len() < 40, "{case:?}");
    // A kind that there is not is "none"; a list that is too short is told as answered.
    let wrong = Program {
        on_list: |asked, files, out, list| {
            let returned = (OWN.on_list)(asked, files, out, list);
            if matches!(asked, Asked::Kind(..)) && returned == 0 && list[1] == 20 {
                list[0] = 1;
            }
            returned
        },
        ..OWN
    };
    let case = planted("lists", lists::run, wrong);
    assert!(matches!(case.asked, Asked::List(asked, ROOM..) if matches!(*asked, Asked::Kind(..))));
    let wrong = Program {
        on_list: |asked, files, out, list| match list.len() {
            4 => 0,
            _ => (OWN.on_list)(asked, files, out, list),
        },
        ..OWN
    };
    let case = planted("lists", lists::run, wrong);
    assert!(matches!(case.asked, Asked::List(asked, 4) if matches!(*asked, Asked::Check)));
    // `env` prints no listing.
    assert!(!listing::run(Path::new("/usr/bin/env"), 2, 10).unwrap());
}

#[test]
fn what_is_told_and_counted() {
    let told = |file: &[u8]| {
        let refusal = check(file).unwrap_err();
        (Some(refusal), vec!["a 7.xpt".to_string()], reason(file, refusal))
    };
    let mut seven = marked()[0].clone();
    seven[18] = 9;
    let padded = [&seven[..], b"--\r\n"].concat();
    let rest = "7.xpt: refused 30 at byte 20: 4 bytes follow; without them";
    for (file, line, is_so) in [
        (&seven[..], "xpt: a 7.xpt: refused 7 at byte 18: the count", true),
        (&seven, "xpt: a 7.xpt: refused 7 at byte 18, in A: the count", true),
        (&seven, "a 7.xpt: refused 8 at byte 18", false),
        (&seven, "a 7.xpt: refused 7 at byte 1", false),
        (&seven, "b: 7 (18)", false),
        (&seven[..33], "a 7.xpt: refused 29 at byte 20: the file ends 3 bytes before\n", true),
        (&seven[..33], "a 7.xpt: refused 29 at byte 20: the file ends 13 bytes before\n", false),
        (&padded, &format!("a {rest} it is refused 7 at 18\n"), true),
        (&padded, &format!("a {rest} it is refused 7 at 1\n"), false),
        (&padded, &format!("a {rest} the file is accepted\n"), false),
    ] {
        assert_eq!(tells(line.as_bytes(), &told(file)), is_so, "{line}");
    }
    let hint = "xpt: `xpt help` shows the commands and their words\n";
    for (line, alone, told, is_so) in [
        ("error no command", true, format!("xpt: no command\n{hint}"), true),
        ("error no command", true, "xpt: no command\n".to_string(), false),
        ("error unknown command", false, "xpt: unknown command\n".to_string(), true),
        ("error unknown command", false, "xpt: f: unknown command\n".to_string(), false),
        ("error the slot", true, "xpt: f: the slot\n".to_string(), true),
        ("error the slot", true, "xpt: f: the index\n".to_string(), false),
        ("error o is there", false, String::new(), false),
        ("accepted 1", false, String::new(), true),
    ] {
        let lines = &mut told.as_bytes().split_inclusive(|byte| *byte == b'\n');
        assert_eq!(is_told(line.as_bytes(), &[], alone, lines), is_so, "{line}: {told}");
    }
    // Lines have tabs in a batch, and a table may have none.
    let [p1, _, p3] = marked();
    let key = Question::parse("key  41").unwrap();
    for (outcome, alone, in_batch) in [
        (asked("table", &p3, &key), "", "\n"),
        (asked("table", &p1, &key), "none\n", "none\n"),
        (
            asked("table", &tree(), &Question::parse("key  4534").unwrap()),
            "undetermined 5\n",
            "undetermined 5\t\n",
        ),
        (
            salvaged(&[&of_recipe("p3 66=0001")]),
            "written 66 changed 1\n1 19 36\n",
            "written 66 changed 1\t1 19 36\t\n",
        ),
        (salvaged(&[&p1]), "written 36 changed 0\n", "written 36 changed 0\n"),
    ] {
        for (printed, is_alone) in [(alone, true), (in_batch, false)] {
            let rest = outcome.eat(printed.as_bytes(), is_alone).map(|(_, rest)| rest);
            assert_eq!(rest, Some(&[][..]), "{printed}");
        }
    }
    let mut tally = Tally::new("checks");
    for place in 1..=3 {
        tally.came("refusal 9", "", Came { place: Some(place), file: Some(1), way: Some("hand") });
    }
    let short = |numbers| tally.short(&[(("refusal 9", ""), numbers)]).len();
    assert_eq!([[3, 3, 1, 1], [4, 3, 1, 1], [3, 4, 1, 1], [3, 3, 2, 1]].map(short), [0, 1, 1, 1]);
    let parts = [
        "compare",
        "checks",
        "questions",
        "lists",
        "looks",
        "adoptions",
        "piles",
        "links",
        "listings",
        "batches",
        "alone",
        "rdb",
        "rdb-batches",
        "rdb-alone",
    ];
    assert_eq!(parts.map(|part| floors(part).len()).iter().sum::<usize>(), 1458);
}
