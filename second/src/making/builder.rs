//! A typelib as a model, and its layout as bytes with the place of every field.

use super::rng::Rng;
use crate::program::check::word;
pub use crate::program::format::*;
use std::collections::{HashMap, HashSet};

/// Two texts, or none.
pub type Annotation = Option<[Vec<u8>; 2]>;

#[derive(Clone)]
pub struct Entry {
    pub iid: [u8; 16],
    pub name: Vec<u8>,
    pub namespace: Option<Vec<u8>>,
    /// Position in the typelib's list of descriptors; several entries may have the same.
    pub descriptor: Option<usize>,
}

impl Entry {
    /// Unresolved and of the default namespace, with an IID that ends in the number.
    pub fn new(iid: u64, name: &str) -> Entry {
        let iid = u128::from(iid).to_be_bytes();
        Entry { iid, name: name.into(), namespace: None, descriptor: None }
    }

    pub fn names(&self) -> Vec<&[u8]> {
        [&self.name].into_iter().chain(&self.namespace).map(|name| &name[..]).collect()
    }

    /// Another key; an empty namespace is the default.
    pub fn set_key(&mut self, namespace: &str, name: &str) {
        self.namespace = (!namespace.is_empty()).then(|| namespace.into());
        self.name = name.into();
    }
}

#[derive(Clone, Default, PartialEq)]
pub struct Descriptor {
    pub parent: u16,
    pub methods: Vec<Method>,
    pub constants: Vec<Constant>,
    pub flags: u8,
}

#[derive(Clone, PartialEq)]
pub struct Method {
    pub flags: u8,
    pub name: Vec<u8>,
    pub arguments: Vec<Parameter>,
    pub result: Parameter,
}

#[derive(Clone, PartialEq)]
pub struct Parameter {
    pub flags: u8,
    pub of: Type,
}

/// Arrays from the outermost in, each with prefix, size and length, and what they are of.
#[derive(Clone, PartialEq)]
pub struct Type {
    pub arrays: Vec<[u8; 3]>,
    pub leaf: u8,
    /// What follows the leaf's prefix, as far as its tag asks for it.
    pub tail: [u8; 3],
}

#[derive(Clone, PartialEq)]
pub struct Constant {
    pub name: Vec<u8>,
    pub kind: u8,
    pub value: u32,
}

impl Type {
    pub fn simple(leaf: u8) -> Type {
        Type::with(leaf, [0; 3])
    }

    pub fn with(leaf: u8, tail: [u8; 3]) -> Type {
        Type { arrays: Vec::new(), leaf, tail }
    }

    pub fn nested(depth: usize, numbers: u8, leaf: u8, tail: [u8; 3]) -> Type {
        Type { arrays: vec![[POINTER | ARRAY, numbers, numbers]; depth], leaf, tail }
    }

    /// The outermost prefix.
    pub fn prefix(&self) -> u8 {
        self.arrays.first().map_or(self.leaf, |array| array[0])
    }

    /// A leaf of tag 20 stands for one more array, of a type without tail.
    fn tail(&self) -> &[u8] {
        let tag = self.leaf & TAG;
        &self.tail[..tail(tag) + usize::from(tag == ARRAY)]
    }
}

impl Parameter {
    pub fn new(flags: u8, of: Type) -> Parameter {
        Parameter { flags, of }
    }

    pub fn simple(flags: u8, leaf: u8) -> Parameter {
        Parameter::new(flags, Type::simple(leaf))
    }
}

impl Method {
    pub fn new(flags: u8, name: &[u8], arguments: Vec<Parameter>, result: Parameter) -> Method {
        Method { flags, name: name.to_vec(), arguments, result }
    }

    /// Without arguments, of no result.
    pub fn plain(flags: u8, name: &[u8]) -> Method {
        Method::new(flags, name, Vec::new(), Parameter::simple(0, VOID))
    }
}

impl Constant {
    pub fn new(name: &[u8], kind: u8, value: u32) -> Constant {
        Constant { name: name.to_vec(), kind, value }
    }
}

impl Descriptor {
    /// With nothing of its own.
    pub fn below(parent: usize) -> Descriptor {
        Descriptor { parent: parent as u16, ..Descriptor::default() }
    }

    pub fn of(methods: Vec<Method>) -> Descriptor {
        Descriptor { methods, ..Descriptor::default() }
    }

    /// Its bytes, without its names.
    pub fn size(&self) -> usize {
        let mut writer = Writer::new(0, 0);
        writer.descriptor(self, std::iter::repeat(0));
        writer.bytes.len()
    }

    pub fn names(&self) -> Vec<&[u8]> {
        let methods = self.methods.iter().map(|m| &m.name[..]);
        methods.chain(self.constants.iter().map(|c| &c.name[..])).collect()
    }
}

/// In which order the pool's records stand.
#[derive(Clone, Copy, PartialEq, Eq, Debug)]
pub enum Order {
    /// Entry by entry: name, namespace, descriptor, its names.
    Entries,
    NamesFirst,
    NamesLast,
    Shuffled,
}

/// Which of the pool's records share bytes.
#[derive(Clone, Copy, PartialEq, Eq, Debug)]
pub enum Sharing {
    None,
    /// Equal names.
    Equal,
    /// Every record stands on bytes that are there already, as far as it can; names first.
    Overlap,
}

#[derive(Clone)]
pub struct Typelib {
    pub minor: u8,
    pub annotations: Vec<Annotation>,
    /// Extra bytes between annotations and directory, in fours.
    pub directory_gap: usize,
    pub pool_gap: usize,
    /// Up to so many bytes stand unused before each record of the pool.
    pub record_gap: usize,
    /// Bytes unused at the pool's end.
    pub tail: usize,
    /// Seed of the bytes in gaps; 0 makes them zero.
    pub junk: u64,
    pub order: Order,
    /// A descriptor that stands last in the pool, whatever the order of the others.
    pub last: Option<usize>,
    pub sharing: Sharing,
    pub entries: Vec<Entry>,
    pub descriptors: Vec<Descriptor>,
}

impl Default for Typelib {
    fn default() -> Typelib {
        Typelib {
            minor: 1,
            annotations: vec![None],
            directory_gap: 0,
            pool_gap: 0,
            record_gap: 0,
            tail: 0,
            junk: 0,
            order: Order::Entries,
            last: None,
            sharing: Sharing::None,
            entries: Vec::new(),
            descriptors: Vec::new(),
        }
    }
}

#[derive(Clone, Copy, PartialEq, Eq, Debug)]
pub enum Field {
    AnnotationByte,
    AnnotationLength,
    AnnotationText,
    EntryIid,
    EntryName,
    EntryNamespace,
    EntryDescriptor,
    Identifier,
    Parent,
    MethodCount,
    MethodFlags,
    MethodName,
    ArgumentCount,
    ArgumentFlags,
    ResultFlags,
    ArgumentPrefix,
    ResultPrefix,
    Index,
    Number,
    ConstantCount,
    ConstantName,
    ConstantType,
    ConstantValue,
    InterfaceFlags,
}

#[derive(Clone, Copy, Debug)]
pub struct Spot {
    pub field: Field,
    pub at: usize,
    pub length: usize,
    /// Annotation, entry or descriptor, by position; for identifiers the spot of the pointer.
    pub of: usize,
    pub method: usize,
    /// Prefixes: arrays around it. Numbers: the tag that holds them.
    pub more: u8,
}

/// Where a descriptor stands.
#[derive(Clone, Debug)]
pub struct Placed {
    /// The first entry that leads to it.
    pub entry: usize,
    pub at: usize,
    /// The methods' first bytes, then the end of the last.
    pub methods: Vec<usize>,
    pub flags: usize,
}

/// The bytes of a typelib and where its fields stand.
#[derive(Clone)]
pub struct Built {
    pub bytes: Vec<u8>,
    pub spots: Vec<Spot>,
    pub n: usize,
    pub directory: usize,
    pub pool: usize,
    pub placed: Vec<Placed>,
}

impl Built {
    pub fn entry(&self, i: usize) -> usize {
        self.directory + ENTRY * i
    }

    /// Lets the pointer in a field lead to a place in the pool.
    pub fn point(&mut self, field: usize, place: usize) {
        let pointer = (place - self.pool + 1) as u32;
        self.bytes[field..field + 4].copy_from_slice(&pointer.to_be_bytes());
    }

    /// The end of the annotations' room.
    pub fn limit(&self) -> usize {
        match self.n {
            0 => self.pool,
            _ => self.directory,
        }
    }
}

/// Writes fields one after another and notes where they stand.
struct Writer {
    bytes: Vec<u8>,
    base: usize,
    spots: Vec<Spot>,
    of: usize,
    method: usize,
}

impl Writer {
    fn new(base: usize, of: usize) -> Writer {
        Writer { bytes: Vec::new(), base, spots: Vec::new(), of, method: 0 }
    }

    fn at(&self) -> usize {
        self.base + self.bytes.len()
    }

    fn put(&mut self, field: Field, bytes: &[u8], more: u8) {
        let (at, length, of, method) = (self.at(), bytes.len(), self.of, self.method);
        self.spots.push(Spot { field, at, length, of, method, more });
        self.bytes.extend_from_slice(bytes);
    }

    fn parameter(&mut self, parameter: &Parameter, flags: Field, prefix: Field) {
        self.put(flags, &[parameter.flags], 0);
        let of = &parameter.of;
        for (depth, array) in of.arrays.iter().enumerate() {
            self.put(prefix, &array[..1], depth as u8);
            self.put(Field::Number, &array[1..2], ARRAY);
            self.put(Field::Number, &array[2..], ARRAY);
        }
        self.put(prefix, &[of.leaf], of.arrays.len() as u8);
        let tag = of.leaf & TAG;
        let tail = of.tail();
        if tag == INTERFACE {
            return self.put(Field::Index, tail, 0);
        }
        tail.iter().take(2).for_each(|number| self.put(Field::Number, &[*number], tag));
        if let Some(element) = tail.get(2) {
            self.put(prefix, &[*element], of.arrays.len() as u8 + 1);
        }
    }

    /// A descriptor with the pointers of its names, which come in order.
    fn descriptor(&mut self, d: &Descriptor, mut pointers: impl Iterator<Item = u32>) -> Placed {
        let at = self.at();
        let mut methods = Vec::with_capacity(d.methods.len() + 1);
        self.put(Field::Parent, &d.parent.to_be_bytes(), 0);
        self.put(Field::MethodCount, &(d.methods.len() as u16).to_be_bytes(), 0);
        for (position, method) in d.methods.iter().enumerate() {
            self.method = position;
            methods.push(self.at());
            self.put(Field::MethodFlags, &[method.flags], 0);
            self.put(Field::MethodName, &pointers.next().unwrap().to_be_bytes(), 0);
            self.put(Field::ArgumentCount, &[method.arguments.len() as u8], 0);
            for argument in &method.arguments {
                self.parameter(argument, Field::ArgumentFlags, Field::ArgumentPrefix);
            }
            self.parameter(&method.result, Field::ResultFlags, Field::ResultPrefix);
        }
        methods.push(self.at());
        self.put(Field::ConstantCount, &(d.constants.len() as u16).to_be_bytes(), 0);
        for constant in &d.constants {
            self.put(Field::ConstantName, &pointers.next().unwrap().to_be_bytes(), 0);
            self.put(Field::ConstantType, &[constant.kind], 0);
            let value = constant.value.to_be_bytes();
            let size = value_size(constant.kind).unwrap_or(2);
            self.put(Field::ConstantValue, &value[4 - size..], 0);
        }
        let flags = self.at();
        self.put(Field::InterfaceFlags, &[d.flags], 0);
        Placed { entry: usize::MAX, at, methods, flags }
    }
}

enum Record {
    Name(usize),
    Descriptor(usize),
}

/// The pool's contents by position: names in one list, descriptors in another.
#[derive(Default)]
struct Pool<'a> {
    bytes: Vec<u8>,
    names: Vec<&'a [u8]>,
    /// The first name of each entry, then of each descriptor; then the end of all names.
    first_name: Vec<usize>,
    name_at: Vec<usize>,
    descriptor_at: Vec<usize>,
}

impl Pool<'_> {
    /// Puts a record on bytes that are there, as far as it can, or behind all of them.
    fn put(&mut self, record: &[u8], sharing: Sharing) -> usize {
        let mut common = 0;
        if sharing == Sharing::Overlap {
            if let Some(at) = self.bytes.windows(record.len()).position(|there| there == record) {
                return at;
            }
            let ends = |k: &usize| self.bytes.ends_with(&record[..*k]);
            common = (0..record.len()).rfind(ends).unwrap_or(0);
        }
        let at = self.bytes.len() - common;
        self.bytes.extend_from_slice(&record[common..]);
        at
    }

    /// A descriptor's bytes, with the names as far as they have their places.
    fn written(&self, lib: &Typelib, d: usize, pool_at: usize) -> (Writer, Placed) {
        let mut writer = Writer::new(pool_at + self.descriptor_at[d], d);
        let names = self.name_at[self.first_name[lib.entries.len() + d]..].iter();
        let placed = writer.descriptor(&lib.descriptors[d], names.map(|&at| at as u32 + 1));
        (writer, placed)
    }
}

impl Typelib {
    /// Adds a descriptor and gives its position.
    pub fn add(&mut self, descriptor: Descriptor) -> usize {
        self.descriptors.push(descriptor);
        self.descriptors.len() - 1
    }

    pub fn build(&self) -> Built {
        use Field::*;
        let mut junk = Rng::new(self.junk);
        let zero = self.junk == 0;
        let mut filler = |bytes: &mut Vec<u8>, end: usize| {
            bytes.resize_with(end, || if zero { 0 } else { junk.byte() });
        };
        let n = self.entries.len();
        let Writer { mut bytes, mut spots, .. } = self.annotations();
        bytes.splice(..0, [0; HEADER]);
        let mut directory = 0;
        if n > 0 {
            directory = bytes.len().next_multiple_of(4) + 4 * self.directory_gap;
            filler(&mut bytes, directory);
            bytes.resize(directory + ENTRY * n, 0);
        }
        let pool_at = bytes.len() + self.pool_gap;
        filler(&mut bytes, pool_at);

        let mut users = vec![usize::MAX; self.descriptors.len()];
        for (i, entry) in self.entries.iter().enumerate().rev() {
            entry.descriptor.into_iter().for_each(|d| users[d] = i);
        }
        let pool = self.place(&users, &mut filler);
        bytes.extend_from_slice(&pool.bytes);
        for (i, entry) in self.entries.iter().enumerate() {
            let mut writer = Writer::new(directory + ENTRY * i, i);
            let pointer = |at: Option<usize>| at.map_or(0, |at| at as u32 + 1).to_be_bytes();
            let names = pool.first_name[i]..pool.first_name[i + 1];
            let mut names = pool.name_at[names].iter().copied();
            let descriptor = entry.descriptor.map(|d| pool.descriptor_at[d]);
            writer.put(EntryIid, &entry.iid, 0);
            writer.put(EntryName, &pointer(names.next()), 0);
            writer.put(EntryNamespace, &pointer(names.next()), 0);
            writer.put(EntryDescriptor, &pointer(descriptor), 0);
            bytes[writer.base..][..ENTRY].copy_from_slice(&writer.bytes);
            spots.extend(writer.spots);
        }
        let mut placed = Vec::new();
        for (d, &entry) in users.iter().enumerate() {
            let (writer, place) = pool.written(self, d, pool_at);
            bytes[place.at..][..writer.bytes.len()].copy_from_slice(&writer.bytes);
            placed.push(Placed { entry, ..place });
            if entry != usize::MAX {
                spots.extend(writer.spots);
            }
        }
        // One spot for each identifier, at the first pointer that leads to it.
        let mut seen = HashSet::new();
        for id in 0..spots.len() {
            let Spot { field, at, method, .. } = spots[id];
            let is_name = [EntryName, EntryNamespace, MethodName, ConstantName].contains(&field);
            let pointer = if is_name { word(&bytes, at) } else { 0 };
            if pointer != 0 && seen.insert(pointer) {
                let at = pool_at + pointer - 1;
                let length = bytes[at..].iter().take_while(|byte| **byte != 0).count();
                spots.push(Spot { field: Identifier, at, length, of: id, method, more: 0 });
            }
        }

        let length = bytes.len() + self.tail;
        filler(&mut bytes, length);
        let count = (n as u16).to_be_bytes();
        let words = [length, directory, pool_at].map(|word| (word as u32).to_be_bytes());
        let header = [&MAGIC[..], &[1, self.minor], &count, words.as_flattened()].concat();
        bytes[..HEADER].copy_from_slice(&header);
        Built { bytes, spots, n, directory, pool: pool_at, placed }
    }

    /// Entries `E0`, `E1`, .. with IIDs from 1, unresolved.
    pub fn plain(count: usize) -> Typelib {
        let entry = |i: usize| Entry::new(i as u64 + 1, &format!("E{i}"));
        Typelib { entries: (0..count).map(entry).collect(), ..Typelib::default() }
    }

    /// One entry with IID 1 and name `A`, directory at 36, pool at 64.
    pub fn single(descriptor: Descriptor) -> Typelib {
        let entry = Entry { descriptor: Some(0), ..Entry::new(1, "A") };
        Typelib { entries: vec![entry], descriptors: vec![descriptor], ..Typelib::default() }
    }

    /// One such entry with these methods.
    pub fn of(methods: Vec<Method>) -> Typelib {
        Typelib::single(Descriptor::of(methods))
    }

    /// Resolves an entry, by position, with a descriptor of its own.
    pub fn resolve(&mut self, i: usize, descriptor: Descriptor) {
        self.entries[i].descriptor = Some(self.add(descriptor));
    }

    /// Appends unused bytes up to the given length.
    pub fn filled_to(&self, length: usize) -> Typelib {
        Typelib { tail: self.tail + length - self.bytes().len(), ..self.clone() }
    }

    pub fn bytes(&self) -> Vec<u8> {
        self.build().bytes
    }

    /// Where the annotations end.
    pub fn annotations_end(&self) -> usize {
        self.annotations().at()
    }

    fn annotations(&self) -> Writer {
        use Field::*;
        let mut writer = Writer::new(HEADER, 0);
        for (i, annotation) in self.annotations.iter().enumerate() {
            writer.of = i;
            let last = if i + 1 == self.annotations.len() { 0x80 } else { 0 };
            writer.put(AnnotationByte, &[last | u8::from(annotation.is_some())], 0);
            for text in annotation.iter().flatten() {
                // All bytes of a character but the first are from 0x80 to 0xbf.
                let characters = text.iter().filter(|byte| **byte & 0xc0 != 0x80).count();
                writer.put(AnnotationLength, &(characters as u16).to_be_bytes(), 0);
                writer.put(AnnotationText, text, 0);
            }
        }
        writer
    }

    /// The pool's records in their order, each descriptor with the first entry that leads to it.
    fn records(&self, users: &[usize], first_name: &[usize], rng: &mut Rng) -> Vec<Record> {
        let names = |of: usize| (first_name[of]..first_name[of + 1]).map(Record::Name);
        let n = self.entries.len();
        let with_names = |d: usize| std::iter::once(Record::Descriptor(d)).chain(names(n + d));
        let mut records = Vec::new();
        for (i, entry) in self.entries.iter().enumerate() {
            records.extend(names(i));
            let own = entry.descriptor.filter(|&d| users[d] == i);
            records.extend(own.into_iter().flat_map(with_names));
        }
        let unused = (0..users.len()).filter(|&d| users[d] == usize::MAX);
        records.extend(unused.flat_map(with_names));
        let is_name = |record: &Record| matches!(record, Record::Name(_));
        match self.order {
            _ if self.sharing == Sharing::Overlap => records.sort_by_key(|r| !is_name(r)),
            Order::Entries => {}
            Order::NamesFirst => records.sort_by_key(|r| !is_name(r)),
            Order::NamesLast => records.sort_by_key(is_name),
            Order::Shuffled => rng.shuffle(&mut records),
        }
        records.sort_by_key(|r| matches!(r, Record::Descriptor(d) if Some(*d) == self.last));
        records
    }

    fn place(&self, users: &[usize], filler: &mut impl FnMut(&mut Vec<u8>, usize)) -> Pool<'_> {
        let mut pool = Pool { first_name: vec![0], ..Pool::default() };
        let of_entries = self.entries.iter().map(Entry::names);
        for names in of_entries.chain(self.descriptors.iter().map(Descriptor::names)) {
            pool.names.extend(names);
            pool.first_name.push(pool.names.len());
        }
        pool.name_at = vec![0; pool.names.len()];
        pool.descriptor_at = vec![0; users.len()];
        let mut rng = Rng::new(self.junk + 77);
        let mut stands = HashMap::new();
        for record in self.records(users, &pool.first_name, &mut rng) {
            if self.record_gap > 0 {
                let end = pool.bytes.len() + rng.below(self.record_gap + 1);
                filler(&mut pool.bytes, end);
            }
            match record {
                Record::Name(id) => {
                    let name = pool.names[id];
                    let mut new = || pool.put(&[name, &[0]].concat(), self.sharing);
                    pool.name_at[id] = match self.sharing {
                        Sharing::None => new(),
                        _ => *stands.entry(name).or_insert_with(new),
                    };
                }
                Record::Descriptor(d) => {
                    let bytes = pool.written(self, d, 0).0.bytes;
                    pool.descriptor_at[d] = pool.put(&bytes, self.sharing);
                }
            }
        }
        pool
    }
}
