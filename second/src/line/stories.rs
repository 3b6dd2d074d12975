//! Stories: commands that belong together, about generated files.

use super::script::{Name, Script, FORCED, INPUT, SUBFOLDER};
use super::{answers::Bytes, malformed};
use crate::library::{links::ORDERS, looks, piles, questions::question, questions::Question};
use crate::making::{builder::*, generate, genuine, genuine::Genuine};
use crate::making::{hostile, model, pairs, rng::Rng};
use crate::program::{check::check, listing::MAX_INPUT};

/// As many files as a link takes.
pub const MAX_PILE: usize = 256;

/// A file and how it counts.
pub type Named = (&'static str, Vec<u8>);

/// A good file of any shape.
pub fn good(rng: &mut Rng) -> Vec<u8> {
    match rng.below(24) {
        0 => {
            let count = rng.range(1, 16);
            generate::overlapping_heads(rng, count)
        }
        1 => {
            let order = *rng.pick(&[Order::Entries, Order::NamesFirst, Order::Shuffled]);
            generate::rich(generate::minor(rng), order).bytes()
        }
        2 => rng.pick(&generate::marked()).clone(),
        3..6 => generate::random(rng, generate::SMALL).bytes(),
        6..9 => generate::random(rng, generate::MEDIUM).bytes(),
        9 => generate::random(rng, generate::LARGE).bytes(),
        10 => pairs::empty(rng).bytes(),
        11..14 => generate::one_stock(rng).bytes(),
        _ => generate::family(rng).bytes(),
    }
}

pub fn placed(script: &mut Script) -> Name {
    let bytes = good(&mut script.rng);
    script.place(bytes)
}

/// Questions of a file, and now and then its check and its listing.
pub fn questions(script: &mut Script, file: &Name, count: usize) {
    let read = |bytes: &Bytes| check(bytes).is_ok().then(|| model::read(bytes));
    let model = script.content(file).and_then(read);
    // A file that is refused is asked what another could answer.
    let model = model.unwrap_or_else(|| generate::family(&mut script.rng));
    let start = script.rng.below(5);
    for turn in 0..count {
        match script.rng.below(20) {
            0 => script.check(file),
            1 => script.list(file),
            2 => {
                let (_, key) = question(&model, &mut script.rng, 1);
                script.table(file, &key);
            }
            3 => {
                let (_, iid) = question(&model, &mut script.rng, 0);
                script.looks(file, &iid);
            }
            _ => {
                let (_, question) = question(&model, &mut script.rng, start + turn);
                script.ask(file, &question);
            }
        }
    }
}

/// A good file by all commands that only read.
pub fn asked(script: &mut Script, count: usize) {
    let file = placed(script);
    script.story();
    script.check(&file);
    script.list(&file);
    questions(script, &file, count);
}

/// A file and questions that have every kind of answer.
pub fn every_answer(script: &mut Script) {
    let kinds = [(b"a", 1, 0xfffe), (b"b", 2, 0x8000_0000), (b"c", 5, 0xffff), (b"d", 6, u32::MAX)];
    let constants = kinds.map(|(name, kind, value)| Constant::new(name, kind, value)).to_vec();
    let methods =
        vec![Method::plain(0, b"m"), Method::plain(GETTER, b"g"), Method::plain(SETTER, b"g")];
    let mut lib = Typelib::plain(3);
    lib.entries[2].namespace = Some(b"N".to_vec());
    // The second is below the first, which is unresolved.
    for (i, parent) in [(1, 1), (2, 0)] {
        let (methods, constants) = (methods.clone(), constants.clone());
        lib.resolve(i, Descriptor { parent, methods, constants, flags: 0 });
    }
    let file = script.place(lib.bytes());
    for line in include_str!("every_answer.txt").lines() {
        let question = Question::parse(line).expect(line);
        script.story();
        script.ask(&file, &question);
        match question {
            Question::Key(..) => script.table(&file, &question),
            Question::Iid(_) => script.looks(&file, &question),
            _ => {}
        }
    }
}

/// The tables of a file with a deep chain, of keys that are there and of others.
pub fn tabled(script: &mut Script) {
    let lib = generate::deep(&mut script.rng);
    let file = script.place(lib.bytes());
    script.story();
    for entry in &lib.entries {
        let space = entry.namespace.clone().unwrap_or_default();
        script.table(&file, &Question::Key(space, entry.name.clone()));
    }
    for _ in 0..6 {
        let (_, key) = question(&lib, &mut script.rng, 1);
        script.table(&file, &key);
    }
}

/// A directory of any size, asked for IIDs that are there and for others.
pub fn looked(script: &mut Script) {
    let rng = &mut script.rng;
    let n = looks::size(rng);
    let zeros = looks::zeros(rng, n);
    let lib = generate::directory(rng, n, zeros);
    let iids: Vec<_> = lib.entries.iter().map(|entry| u128::from_be_bytes(entry.iid)).collect();
    let sought = looks::sought(&iids, rng, 4);
    let file = script.place(lib.bytes());
    script.story();
    for (_, iid) in sought {
        script.looks(&file, &Question::Iid(iid.to_be_bytes().into()));
    }
}

/// An output: one that is there, with some bytes, or not.
fn output(script: &mut Script) -> Name {
    let out = script.free();
    if script.rng.percent(50) {
        let bytes = match script.rng.below(3) {
            0 => Vec::new(),
            1 => (0..script.rng.below(3_000)).map(|_| script.rng.byte()).collect(),
            _ => good(&mut script.rng),
        };
        script.place_at(&out.path, bytes);
    }
    out
}

/// A file for the check, which may be refused, by all commands; `good` is accepted.
pub fn checked(script: &mut Script, bytes: &Bytes, good: &Name) {
    let file = script.place(bytes.clone());
    script.story();
    script.check(&file);
    match script.rng.below(8) {
        0 => script.list(&file),
        3 | 4 => {
            let out = output(script);
            script.salvage(&file, &out);
            script.check(&out);
        }
        1 => {
            let out = output(script);
            script.normal(&file, &out);
            script.check(&out);
        }
        2 => {
            let out = output(script);
            match script.rng.below(3) {
                0 => script.link(&file, good, &out),
                1 => script.link(good, &file, &out),
                _ => script.link(&file, &file, &out),
            }
            script.check(&out);
        }
        _ => questions(script, &file, 3),
    }
}

/// Every length under 32, and every byte of the magic.
pub fn headers(script: &mut Script) {
    let [.., p3] = generate::marked();
    let mut files: Vec<Vec<u8>> = (0..=32).map(|length| p3[..length].to_vec()).collect();
    for at in 0..16 {
        let mut file = p3.clone();
        file[at] ^= 1 << script.rng.below(8);
        files.push(file);
    }
    for bytes in files {
        let file = script.place(bytes);
        script.story();
        script.check(&file);
    }
}

/// The normal form, asked and normalised again.
pub fn normalised(script: &mut Script) {
    let file = placed(script);
    let (out, again) = (output(script), script.free());
    script.story();
    script.write(&[&file, &out], None, true);
    questions(script, &out, 4);
    script.normal(&out, &again);
    if script.content(&again).is_some() {
        script.law(["its own normal form", ""], &out, &again);
    }
}

/// A file of libxpt with what adopting it gives, where that is known; then asked.
pub fn adopted(script: &mut Script, made: &Genuine) {
    let (file, out) = (script.place(made.bytes.clone()), output(script));
    script.story();
    script.adopt(&file, &out);
    script.count("adopt", made.how);
    script.check(&out);
    questions(script, &out, 2);
    if script.rng.percent(10) {
        let copy = script.alias(&file);
        script.adopt(&copy, &file);
        script.check(&file);
    }
    // Where the output was there already it may have been left.
    let adopted = script.content(&out).cloned();
    if let Some(twin) = made.twin.as_ref().filter(|twin| adopted.as_deref() == Some(&twin[..])) {
        let twin = script.place(twin.clone());
        script.law(["adopted: its twin", ""], &out, &twin);
    }
}

/// Files of libxpt: good ones, and those of the supply.
pub fn genuine<'m>(script: &mut Script, others: impl Iterator<Item = &'m Genuine>) {
    for _ in 0..4 {
        let made = genuine::any(&mut script.rng);
        adopted(script, &made);
    }
    others.for_each(|made| adopted(script, made));
}

/// A file, of which descriptors may be bad. An accepted one comes out as its normal form, as what is
/// left does when it is salvaged again.
pub fn salvaged(script: &mut Script, bytes: Vec<u8>) {
    let is_good = check(&bytes).is_ok();
    let file = script.place(bytes);
    let (out, again, normal) = (output(script), script.free(), script.free());
    script.story();
    script.salvage(&file, &out);
    script.check(&out);
    questions(script, &out, 3);
    let good = if is_good { &file } else { &out };
    script.salvage(good, &again);
    script.normal(good, &normal);
    script.law(["salvaged: as normalised", "salvaged: neither"], &again, &normal);
}

/// A pair in both orders.
pub fn pair(script: &mut Script, files: &[Bytes; 2]) {
    let [a, b] = files.each_ref().map(|bytes| script.place(bytes.clone()));
    let [ab, ba] = [0; 2].map(|_| script.free());
    script.story();
    let forced = [0; 2].map(|_| script.forced());
    script.write(&[&a, &b, &ab], Some(ORDERS[0]), forced[0]);
    match script.content(&ab).is_some() {
        true => questions(script, &ab, 4),
        false if script.rng.percent(20) => script.check(&ab),
        false => {}
    }
    script.write(&[&b, &a, &ba], Some(ORDERS[1]), forced[1]);
    script.law(["swapping: same bytes", "swapping: neither"], &ab, &ba);
}

/// Both ways to group a triple. What a refused link did not write cannot be read.
pub fn triple(script: &mut Script, files: [&Bytes; 3]) {
    let [a, b, c] = files.map(|bytes| script.place(bytes.clone()));
    let [ab, bc, ab_c, a_bc] = [0; 4].map(|_| script.free());
    script.story();
    script.link(&a, &b, &ab);
    script.link(&ab, &c, &ab_c);
    script.link(&b, &c, &bc);
    script.link(&a, &bc, &a_bc);
    script.law(["grouping: same bytes", "grouping: neither"], &ab_c, &a_bc);
}

/// A pile in two orders, the second with a repeat; now and then as many files as can be.
pub fn piled(script: &mut Script) {
    let count = script.rng.range(3, 6);
    let (_, libs) = piles::pile_of(&mut script.rng, count);
    let mut files: Vec<Name> = libs.iter().map(|lib| script.place(lib.bytes())).collect();
    if script.rng.percent(10) {
        let more = MAX_PILE - files.len();
        files.extend((0..more).map(|i| files[i % count].clone()).collect::<Vec<_>>());
    }
    let outs = [0; 2].map(|_| script.free());
    script.story();
    for out in &outs {
        let forced = script.forced();
        let names: Vec<&Name> = files.iter().chain([out]).collect();
        script.write(&names, None, forced);
        if files.len() == MAX_PILE {
            script.count("pile", "of 256 files");
        } else {
            files.push(files[0].clone());
        }
        script.rng.shuffle(&mut files);
    }
    script.law(["pile: same bytes", "pile: neither"], &outs[0], &outs[1]);
    if script.content(&outs[0]).is_some() {
        questions(script, &outs[0], 4);
    }
}

/// A pile with a file that is refused, at any place.
pub fn piled_with(script: &mut Script, bad: &Bytes) {
    let count = script.rng.range(2, 5);
    let (_, libs) = piles::pile_of(&mut script.rng, count);
    let mut files: Vec<Name> = libs.iter().map(|lib| script.place(lib.bytes())).collect();
    let (bad, out) = (script.place(bad.clone()), output(script));
    files.insert(script.rng.below(count + 1), bad);
    script.story();
    let forced = script.forced();
    script.write(&files.iter().chain([&out]).collect::<Vec<_>>(), None, forced);
    script.check(&out);
}

/// A file with itself and with an empty one, as normalising.
pub fn self_and_empty(script: &mut Script, bytes: impl Into<Bytes>) {
    let empty = pairs::empty(&mut script.rng).bytes();
    let (a, empty) = (script.place(bytes), script.place(empty));
    let [normal, aa, ae, ea] = [0; 4].map(|_| script.free());
    script.story();
    script.normal(&a, &normal);
    script.link(&a, &a, &aa);
    script.law(["self", "self: neither"], &aa, &normal);
    script.link(&a, &empty, &ae);
    script.law(["empty", "empty: neither"], &ae, &normal);
    script.link(&empty, &a, &ea);
    script.law(["empty", "empty: neither"], &ea, &normal);
}

/// Files of one world, and conflicts between them.
pub fn linked(script: &mut Script) {
    let rng = &mut script.rng;
    let world = pairs::world(rng);
    let views = [0; 3].map(|_| pairs::view(&world, rng));
    let mut others = Vec::new();
    for _ in 0..4 {
        let mut other = views[1].clone();
        if pairs::conflict(&views[0], &mut other, rng).is_some() {
            others.push(Bytes::from(other.bytes()));
        }
    }
    let endless = pairs::endless(rng).map(|lib| Bytes::from(lib.bytes()));
    let [a, b, c] = views.map(|lib| Bytes::from(lib.bytes()));
    pair(script, &[a.clone(), b.clone()]);
    for other in &others {
        pair(script, &[a.clone(), other.clone()]);
    }
    pair(script, &endless);
    match (script.rng.below(3), others.first()) {
        (0, Some(other)) => triple(script, [&a, other, &c]),
        (1, Some(other)) => triple(script, [other, &c, &a]),
        _ => triple(script, [&a, &b, &c]),
    }
    self_and_empty(script, c);
}

/// An output that is written again and again, and asked each time; `bad` is refused.
pub fn rewritten(script: &mut Script, bad: &Bytes) {
    let files = [0; 3].map(|_| good(&mut script.rng));
    let [a, b, c] = files.map(|bytes| script.place(bytes));
    let bad = script.place(bad.clone());
    let out = script.free();
    script.story();
    script.check(&out);
    let mut before = None;
    for file in [&a, &b, &bad, &c, &a] {
        match script.rng.below(3) {
            0 => script.write(&[file, &a, &out], None, true),
            1 => script.write(&[&b, file, &out], None, true),
            _ => script.write(&[file, &out], None, true),
        }
        let now = script.content(&out).cloned();
        script.check(&out);
        if before.is_some() && before != now {
            script.count("output", "asked anew with other bytes");
        }
        before = now;
        if script.rng.percent(50) {
            script.write(&[&c, &b, &out], None, false);
        }
        script.list(&out);
        questions(script, &out, 3);
        let copy = script.free();
        script.normal(&out, &copy);
    }
}

/// A file that is its own output.
pub fn in_place(script: &mut Script) {
    let files = [0; 2].map(|_| good(&mut script.rng));
    let [a, b] = files.map(|bytes| script.place(bytes));
    script.story();
    script.check(&a);
    script.write(&[&a, &a], None, false);
    script.count("output", "also the input, left");
    script.list(&a);
    script.write(&[&a, &a], None, true);
    script.count("output", "also the input");
    questions(script, &a, 2);
    script.link(&a, &b, &a);
    questions(script, &a, 2);
    script.link(&b, &a, &b);
    questions(script, &b, 2);
    script.link(&b, &b, &b);
    script.list(&b);
    script.list(&a);
}

/// An output that is read by other names than the one that it is written by.
pub fn by_other_names(script: &mut Script) {
    let files = [0; 3].map(|_| good(&mut script.rng));
    let [a, b, c] = files.map(|bytes| script.place(bytes));
    let out = output(script);
    let others = [0; 3].map(|_| script.alias(&out));
    script.story();
    for file in [&a, &b, &c] {
        script.normal(file, &out);
        for other in &others {
            script.list(other);
            script.count("output", "asked by another name");
        }
    }
}

/// Outputs that are symbolic links, to a file and to nothing. With `-f` a file takes the link's
/// place, and what it led to is as it was.
pub fn over_links(script: &mut Script) {
    let files = [0; 3].map(|_| good(&mut script.rng));
    let [a, b, target] = files.map(|bytes| script.place(bytes));
    let nothing = script.free();
    script.story();
    for (file, target) in [(&a, &target), (&b, &nothing)] {
        let link = script.symbolic(&target.path);
        let through = Name { path: target.path.clone(), word: link.word.clone() };
        script.list(&through);
        script.write(&[file, &link], None, false);
        script.count("output", "a symbolic link, left");
        script.list(&through);
        script.write(&[file, file, &link], None, true);
        script.count("output", "a symbolic link, replaced");
        script.list(&link);
        script.list(target);
        script.normal(target, &link);
        script.list(&link);
    }
}

/// Outputs that are a folder, by its own name and by a symbolic link; `bad` is refused, which comes
/// first.
pub fn no_ordinary_file(script: &mut Script, bad: &Bytes) {
    let (a, bad) = (placed(script), script.place(bad.clone()));
    let outs = [script.subfolder(), script.symbolic(SUBFOLDER)];
    script.story();
    for out in &outs {
        script.write(&[&a, out], None, true);
        script.write(&[&a, out], None, false);
        script.link(&a, &a, out);
        script.normal(&bad, out);
        script.adopt(&a, out);
        script.salvage(&a, out);
        script.link(&a, &bad, out);
    }
}

/// A file that is named as the word before the files is.
pub fn named_so(script: &mut Script) {
    let (a, out) = (placed(script), script.free());
    let named = Name { path: FORCED.to_string(), word: FORCED.to_string() };
    script.story();
    script.check(&named);
    script.write(&[&a, &named], None, false);
    script.count("output", "named -f");
    script.check(&named);
    script.write(&[&a, &a, &named], None, false);
    script.write(&[&named, &named], None, true);
    script.write(&[&named, &named, &out], None, true);
    questions(script, &named, 2);
}

/// Standard input as the file, or as one of two.
pub fn standard_input(script: &mut Script, bytes: &Bytes) {
    let (file, other, out) = (script.place(bytes.clone()), placed(script), output(script));
    let input = Name { path: file.path, word: INPUT.to_string() };
    script.story();
    for turn in 0..9 {
        match turn {
            0 => script.check(&input),
            1 => script.list(&input),
            2 => script.normal(&input, &out),
            3 => script.link(&input, &other, &out),
            4 => script.link(&other, &input, &out),
            5 => script.adopt(&input, &out),
            6 => script.write(&[&other, &input, &other, &out], None, true),
            7 => script.salvage(&input, &out),
            _ => questions(script, &input, 2),
        }
        script.count("file", "standard input");
    }
    script.check(&out);
}

/// An output beside files with the names that a temporary one may have.
pub fn among_others(script: &mut Script) {
    let (a, out) = (placed(script), output(script));
    for ending in [".tmp", ".temp", "~", ".new", ".part", ".bak", ".0"] {
        script.place_at(&format!("{}{ending}", out.path), *b"not a typelib");
        let (folder, name) = out.path.rsplit_once('/').unwrap_or(("", &out.path));
        let slash = if folder.is_empty() { "" } else { "/" };
        script.place_at(&format!("{folder}{slash}.{name}{ending}"), *b"nor this");
    }
    script.story();
    script.normal(&a, &out);
    script.count("output", "among names like its own");
    script.link(&a, &a, &out);
    script.check(&out);
    // No name in a folder is longer.
    let path = "n".repeat(255);
    let longest = Name { path: path.clone(), word: path };
    script.normal(&a, &longest);
    script.count("output", "with the longest name");
    script.check(&longest);
}

/// Lines of every kind that cannot be asked, and some at the edge.
pub fn malformed(script: &mut Script, bad: &Bytes) {
    let bytes = generate::family(&mut script.rng).bytes();
    let (good, bad) = (script.place(bytes), script.place(bad.clone()));
    let out = script.free();
    malformed::every_kind(script, &good, &good, &out);
    malformed::every_kind(script, &bad, &good, &out);
    malformed::empty_words(script, &good);
    malformed::empty_words(script, &bad);
}

/// Files as long as a limit, accepted and refused, and longer by one, by these names.
pub fn about(limit: usize, names: [&'static str; 3], good: &Typelib) -> Vec<Named> {
    let filled = |lib: &Typelib, length: usize| lib.filled_to(length).bytes();
    let [accepted, refused, longer] = names;
    let (at_most, empty) = (filled(good, limit), Typelib::default());
    let mut short = at_most.clone();
    short[23] ^= 1;
    vec![
        (accepted, at_most.clone()),
        (accepted, filled(&empty, limit)),
        (refused, short),
        (refused, vec![0; limit]),
        (longer, filled(good, limit + 1)),
        (longer, filled(&empty, limit + 1)),
        (longer, vec![0; limit + 1]),
        (longer, [at_most, vec![0]].concat()),
    ]
}

/// Large files, with how they count.
pub fn large(rng: &mut Rng) -> Vec<Named> {
    let family = generate::family(rng);
    let filled = |lib: &Typelib, length: usize| lib.filled_to(length).bytes();
    let [upward, downward] = hostile::chains();
    let names =
        ["of 1,048,576 bytes, accepted", "of 1,048,576 bytes, refused", "of 1,048,577 bytes"];
    let mut files = about(MAX_FILE, names, &family);
    files.extend([
        ("longer", filled(&family, 3_000_000)),
        ("of 65,536 bytes", filled(&family, MAX_INPUT)),
        ("of 65,537 bytes", filled(&family, MAX_INPUT + 1)),
        ("of 65,537 bytes", filled(&Typelib::default(), MAX_INPUT + 1)),
        ("of 1,024 interfaces", generate::wide(rng, MAX_INTERFACES).bytes()),
        ("of 1,024 interfaces", upward),
        ("of 1,024 interfaces", downward),
        ("ordinary", hostile::ordinary()),
        ("of a long listing", hostile::long_listing(8)),
        ("of a normal form of 1,048,576", pairs::of_normal_length(MAX_FILE, 'd').bytes()),
        ("of a normal form of 1,048,577", pairs::of_normal_length(MAX_FILE + 1, 'c').bytes()),
        ("of a longer normal form", pairs::of_normal_length(MAX_FILE + 90_000, 'c').bytes()),
    ]);
    files
}

/// A large file by all commands.
pub fn large_file(script: &mut Script, (what, bytes): &Named) {
    let file = script.place(bytes.clone());
    let small = placed(script);
    script.story();
    script.check(&file);
    script.count("file", what);
    script.list(&file);
    questions(script, &file, 4);
    let out = output(script);
    script.normal(&file, &out);
    script.adopt(&file, &out);
    script.salvage(&file, &out);
    script.check(&out);
    script.link(&file, &small, &out);
    script.link(&small, &file, &out);
    script.check(&out);
}
