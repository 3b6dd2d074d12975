//! Files of types.rdb as office suites write them: depth first, the keys of a map in order, a text in its place the
//! first time and pointed to from then on, and no set exceptions for read-only attributes.

use super::rdb::{header, map};
use super::rng::Rng;
use crate::program::rdb::*;
use std::collections::{BTreeMap, HashMap};

/// A file's name, and what it has how many of. Constants are spread over the groups, all else over the modules.
pub struct Shape {
    pub name: &'static str,
    modules: usize,
    interfaces: usize,
    enums: usize,
    groups: usize,
    constants: usize,
    /// Structs, exceptions, typedefs and services.
    others: usize,
}

/// Most are interfaces; most are constants; of all something.
#[rustfmt::skip]
pub const SHAPES: [Shape; 3] = [
    Shape { name: "60 KB", modules: 14, interfaces: 130, enums: 8, groups: 12, constants: 90, others: 240 },
    Shape { name: "350 KB", modules: 4, interfaces: 230, enums: 10, groups: 430, constants: 8_600, others: 250 },
    Shape { name: "690 KB", modules: 70, interfaces: 1_450, enums: 120, groups: 260, constants: 3_120, others: 2_500 },
];

const WORDS: [&str; 24] = [
    "Table",
    "Cell",
    "Range",
    "Text",
    "Cursor",
    "Style",
    "Page",
    "Model",
    "View",
    "Frame",
    "Event",
    "Listener",
    "Name",
    "Access",
    "Container",
    "Control",
    "Form",
    "Data",
    "Source",
    "Chart",
    "Shape",
    "Draw",
    "Sheet",
    "Import",
];
const PLAIN: [&str; 8] =
    ["long", "string", "boolean", "any", "void", "double", "short", "[]string"];
const PARAMETERS: [&str; 6] = ["aName", "nIndex", "xListener", "aEvent", "bEnable", "aValue"];

/// Published, as most are.
const PUBLISHED: u8 = 0x80;

pub fn ordinary(shape: &Shape) -> Vec<u8> {
    let mut writer = Writer {
        rng: Rng::new(105),
        bytes: header(0, 0),
        texts: HashMap::new(),
        types: Vec::new(),
    };
    writer.bytes.extend(b"\0** Created by LibreOffice reg2unoidl **\0");
    let mut places = Named::new();
    for k in 0..shape.modules {
        let share = |all: usize| all * (k + 1) / shape.modules - all * k / shape.modules;
        let name = format!("{}{k:02}", writer.word().to_lowercase());
        let entities = writer.entities(&name, shape, &share);
        places.insert(name, writer.holder(MODULE, entities));
    }
    for name in ["star", "sun", "com"] {
        places = Named::from([(name.to_string(), writer.holder(MODULE, places))]);
    }
    let entries = writer.names(places);
    let root = writer.bytes.len();
    writer.bytes.extend(map(entries));
    writer.bytes[..HEADER].copy_from_slice(&header(root, 1));
    writer.bytes
}

/// What is named, in the order of the names.
type Named<T> = BTreeMap<String, T>;

struct Writer {
    rng: Rng,
    bytes: Vec<u8>,
    texts: HashMap<String, usize>,
    /// The names of types so far.
    types: Vec<String>,
}

impl Writer {
    fn word(&mut self) -> &'static str {
        WORDS[self.rng.below(WORDS.len())]
    }

    /// A name of two or three words after its start.
    fn name(&mut self, start: &str) -> String {
        let third = if self.rng.percent(60) { self.word() } else { "" };
        format!("{start}{}{}{third}", self.word(), self.word())
    }

    fn number(&mut self, number: usize) {
        self.bytes.extend((number as u32).to_le_bytes());
    }

    fn text(&mut self, text: &str) {
        let at = self.bytes.len();
        match self.texts.get(text) {
            Some(at) => self.number(0x8000_0000 | *at),
            None => {
                self.texts.insert(text.to_string(), at);
                self.number(text.len());
                self.bytes.extend(text.bytes());
            }
        }
    }

    fn some_type(&mut self) {
        let is_plain = self.types.is_empty() || self.rng.percent(50);
        let name = match is_plain {
            true => self.rng.pick(&PLAIN).to_string(),
            false => self.rng.pick(&self.types).clone(),
        };
        self.text(&name);
    }

    fn types(&mut self, most: usize) {
        let count = self.rng.below(most + 1);
        self.number(count);
        (0..count).for_each(|_| self.some_type());
    }

    /// The names of a map: its entries.
    fn names(&mut self, payloads: Named<usize>) -> Vec<(usize, usize)> {
        let name = |(name, at): (String, usize)| {
            let place = self.bytes.len();
            self.bytes.extend(name.bytes().chain([0]));
            (place, at)
        };
        payloads.into_iter().map(name).collect()
    }

    /// A module or a group, after the names of its map: where it is.
    fn holder(&mut self, kind: u8, payloads: Named<usize>) -> usize {
        let entries = self.names(payloads);
        let at = self.bytes.len();
        self.bytes.push(kind);
        self.number(entries.len());
        self.bytes.extend(map(entries));
        at
    }

    /// What is in a module, which has its share of everything.
    fn entities(
        &mut self,
        module: &str,
        shape: &Shape,
        share: &dyn Fn(usize) -> usize,
    ) -> Named<usize> {
        let kinds = [
            (INTERFACE, "X", shape.interfaces),
            (ENUM, "", shape.enums),
            (GROUP, "", shape.groups),
            (4, "", shape.others),
        ];
        let mut sorts = Named::new();
        for (kind, start, count) in kinds {
            let count = sorts.len() + share(count);
            while sorts.len() < count {
                sorts.entry(self.name(start)).or_insert(kind);
            }
        }
        let of_group = shape.constants / shape.groups;
        let write = |(name, kind): (String, u8)| {
            if kind != GROUP {
                self.types.push(format!("com.sun.star.{module}.{name}"));
            }
            let at = match kind {
                INTERFACE => self.interface(),
                ENUM => self.members(),
                GROUP => self.group(of_group),
                _ => self.other(),
            };
            (name, at)
        };
        sorts.into_iter().map(write).collect()
    }

    /// The kind byte of a record, which now and then is deprecated: where it is.
    fn record(&mut self, kind: u8) -> (usize, bool) {
        let (at, annotated) = (self.bytes.len(), self.rng.percent(3));
        self.bytes.push(kind | PUBLISHED | if annotated { ANNOTATED } else { 0 });
        (at, annotated)
    }

    /// No annotations of a part, if any are counted.
    fn notes(&mut self, annotated: bool) {
        if annotated {
            self.number(0);
        }
    }

    /// The annotation of a whole record.
    fn ended(&mut self, annotated: bool) {
        if annotated {
            self.number(1);
            self.text("deprecated");
        }
    }

    fn interface(&mut self) -> usize {
        let (at, annotated) = self.record(INTERFACE);
        for most in [1, self.rng.below(3)] {
            self.number(most);
            for _ in 0..most {
                self.some_type();
                self.notes(annotated);
            }
        }
        let attributes = self.rng.below(5);
        self.number(attributes);
        for _ in 0..attributes {
            let kind = *self.rng.pick(&[0, 1, 2, 2]);
            self.bytes.push(kind);
            let name = self.name("");
            self.text(&name);
            self.some_type();
            self.types(0);
            if kind & 2 == 0 {
                self.types(1);
            }
            self.notes(annotated);
        }
        let methods = self.rng.below(8);
        self.number(methods);
        for _ in 0..methods {
            let start = *self.rng.pick(&["get", "set", "add", "remove", "create"]);
            let name = self.name(start);
            self.text(&name);
            self.some_type();
            let parameters = self.rng.below(4);
            self.number(parameters);
            for _ in 0..parameters {
                self.bytes.push(*self.rng.pick(&[0, 0, 0, 1, 2]));
                let name = *self.rng.pick(&PARAMETERS);
                self.text(name);
                self.some_type();
            }
            self.types(1);
            self.notes(annotated);
        }
        self.ended(annotated);
        at
    }

    fn members(&mut self) -> usize {
        let (at, annotated) = self.record(ENUM);
        let count = self.rng.range(2, 8);
        self.number(count);
        for value in 0..count {
            let name = self.name("").to_uppercase();
            self.text(&name);
            self.number(value);
            self.notes(annotated);
        }
        self.ended(annotated);
        at
    }

    fn group(&mut self, count: usize) -> usize {
        let mut constants = Named::new();
        while constants.len() < count {
            let name = self.name("").to_uppercase();
            if constants.contains_key(&name) {
                continue;
            }
            let (at, value) = (self.bytes.len(), constants.len() as u32);
            // LONG, or SHORT.
            let (kind, size) = *self.rng.pick(&[(4, 4), (4, 4), (2, 2)]);
            self.bytes.push(kind);
            self.bytes.extend(&value.to_le_bytes()[..size]);
            constants.insert(name, at);
        }
        self.holder(GROUP | PUBLISHED, constants)
    }

    fn other(&mut self) -> usize {
        let kind = *self.rng.pick(&[FLAG | 2, FLAG | 4, 6, FLAG | 8]);
        let (at, annotated) = self.record(kind);
        self.some_type();
        if matches!(kind & KIND, 2 | 4) {
            self.number(0);
        }
        self.ended(annotated);
        at
    }
}
