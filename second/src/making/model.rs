//! A typelib's model read back from its bytes, its chains, and what its descriptors mean.

use super::{builder::*, generate::index_tail};

/// The model of an accepted file, every entry with a descriptor of its own.
pub fn read(file: &[u8]) -> Typelib {
    let number = |at: usize, length: usize| {
        file[at..at + length].iter().fold(0, |sum, byte| sum * 256 + usize::from(*byte))
    };
    let pool = number(28, 4);
    let name = |pointer: usize| -> Vec<u8> {
        file[pool + pointer - 1..].iter().copied().take_while(|b| *b != 0).collect()
    };
    let mut lib = Typelib { minor: file[17], ..Typelib::default() };
    for i in 0..number(18, 2) {
        let at = number(24, 4) + ENTRY * i;
        let iid = file[at..at + 16].try_into().unwrap();
        let pointers = [16, 20, 24].map(|field| number(at + field, 4));
        let namespace = (pointers[1] != 0).then(|| name(pointers[1]));
        lib.entries.push(Entry { iid, name: name(pointers[0]), namespace, descriptor: None });
        if pointers[2] == 0 {
            continue;
        }
        let mut at = pool + pointers[2] - 1;
        let mut take = |length: usize| {
            at += length;
            number(at - length, length)
        };
        let mut d = Descriptor { parent: take(2) as u16, ..Descriptor::default() };
        for _ in 0..take(2) {
            let mut method = Method::plain(take(1) as u8, &name(take(4)));
            method.arguments = (0..take(1)).map(|_| parameter(&mut take)).collect();
            method.result = parameter(&mut take);
            d.methods.push(method);
        }
        for _ in 0..take(2) {
            let name = name(take(4));
            let kind = take(1) as u8;
            let value = take(value_size(kind).unwrap_or(2)) as u32;
            d.constants.push(Constant { name, kind, value });
        }
        d.flags = take(1) as u8;
        lib.entries[i].descriptor = Some(lib.add(d));
    }
    lib
}

fn parameter(take: &mut impl FnMut(usize) -> usize) -> Parameter {
    let flags = take(1) as u8;
    let mut of = Type::simple(0);
    loop {
        of.leaf = take(1) as u8;
        let tag = of.leaf & TAG;
        for byte in &mut of.tail[..tail(tag)] {
            *byte = take(1) as u8;
        }
        if tag != ARRAY {
            return Parameter::new(flags, of);
        }
        of.arrays.push([of.leaf, of.tail[0], of.tail[1]]);
        of.tail = [0; 3];
    }
}

/// The normal form of a model that was read from one, by the builder: with each name once, or, as
/// it was before, with equal names repeated.
pub fn form(lib: &Typelib, sharing: Sharing) -> Vec<u8> {
    let pool_gap = if lib.entries.is_empty() { 3 } else { 0 };
    Typelib { sharing, pool_gap, ..lib.clone() }.bytes()
}

/// A chain upward: its resolved entries by index, and the unresolved one that ends it, if any.
pub fn chain(lib: &Typelib, index: usize) -> (Vec<usize>, Option<usize>) {
    let mut resolved = Vec::new();
    let mut at = index;
    while at != 0 {
        let Some(d) = lib.entries[at - 1].descriptor else {
            return (resolved, Some(at));
        };
        resolved.push(at);
        at = usize::from(lib.descriptors[d].parent);
    }
    (resolved, None)
}

/// The methods of an entry's chain; nothing where it is incomplete.
pub fn total(lib: &Typelib, index: usize) -> Option<u64> {
    let (resolved, unresolved) = chain(lib, index);
    let methods = resolved.iter().map(|i| descriptor(lib, *i).methods.len() as u64).sum();
    unresolved.is_none().then_some(methods)
}

/// The descriptor of a resolved entry.
pub fn descriptor(lib: &Typelib, index: usize) -> &Descriptor {
    &lib.descriptors[lib.entries[index - 1].descriptor.unwrap()]
}

/// Namespace, nothing for the default, and name.
pub type KeyOf = (Option<Vec<u8>>, Vec<u8>);

pub fn key(entry: &Entry) -> KeyOf {
    (entry.namespace.clone(), entry.name.clone())
}

/// The descriptor with other indexes; 0 stays 0.
pub fn renumbered(d: &Descriptor, new: &dyn Fn(usize) -> usize) -> Descriptor {
    let mut d = d.clone();
    if d.parent != 0 {
        d.parent = new(d.parent.into()) as u16;
    }
    let parameters =
        d.methods.iter_mut().flat_map(|m| m.arguments.iter_mut().chain([&mut m.result]));
    for of in parameters.map(|p| &mut p.of).filter(|of| of.leaf & TAG == INTERFACE) {
        of.tail = index_tail(new(index_of(of)));
    }
    d
}

/// The index in the type of an interface.
pub fn index_of(of: &Type) -> usize {
    usize::from(u16::from_be_bytes([of.tail[0], of.tail[1]]))
}

/// The indexes that a descriptor holds, without a parent of 0.
pub fn references(d: &Descriptor) -> Vec<usize> {
    let mut all = Vec::from_iter((d.parent != 0).then_some(usize::from(d.parent)));
    let interfaces = parameters(d).map(|p| &p.of).filter(|of| of.leaf & TAG == INTERFACE);
    all.extend(interfaces.map(index_of));
    all
}

/// The parameters of a descriptor, results too.
pub fn parameters(d: &Descriptor) -> impl Iterator<Item = &Parameter> {
    d.methods.iter().flat_map(|method| method.arguments.iter().chain([&method.result]))
}

/// The least minor version in which these contents may stand.
pub fn least_minor(lib: &Typelib) -> u8 {
    let all = || lib.descriptors.iter().flat_map(parameters);
    let has = |minor: u8| {
        lib.descriptors.iter().all(|d| d.flags & reserved_in_interface(minor) == 0)
            && all().all(|p| p.flags & reserved_in_parameter(minor) == 0)
            && all().all(|p| !is_reserved(p.of.leaf & TAG, minor))
    };
    (0..MAX_MINOR).find(|minor| has(*minor)).unwrap_or(MAX_MINOR)
}

/// Whether two accepted files mean the same: the same entries with the same IIDs and descriptors.
/// Both are as `read` gives them.
pub fn same_meaning(first: &Typelib, second: &Typelib) -> bool {
    let meaning = |lib: &Typelib| {
        let mut order: Vec<usize> = (0..lib.entries.len()).collect();
        order.sort_by_key(|i| key(&lib.entries[*i]));
        let place = |index: usize| 1 + order.iter().position(|i| i + 1 == index).unwrap();
        let of = |d: usize| renumbered(&lib.descriptors[d], &place);
        let entry = |i: &usize| {
            let entry = &lib.entries[*i];
            (key(entry), entry.iid, entry.descriptor.map(of))
        };
        order.iter().map(entry).collect::<Vec<_>>()
    };
    meaning(first) == meaning(second)
}
