//! Reads the records of a types.rdb from left to right, and tells their counted parts.

use super::stops::Stops;
use super::*;
use std::collections::HashMap;

/// What the bytes of a text may be.
#[derive(Clone, Copy)]
pub enum Rule {
    Ascii,
    Utf8,
}

/// What a record has runs of.
#[derive(Clone, Copy, PartialEq, Eq, Hash)]
enum Item {
    Name,
    Note,
    Member,
    Base,
    Attribute,
    Method,
    Parameter,
}

/// Where the bytes of a text or a name stand.
#[derive(Clone, Copy, Debug, PartialEq, Eq)]
pub struct Text {
    pub at: usize,
    pub length: usize,
}

/// A counted part of an entity.
#[derive(Clone, Copy, Debug, PartialEq, Eq)]
pub enum Part {
    Text(Text),
    /// Its key, the byte at its payload, and where that is.
    Entry(Text, u8, usize),
    /// A member of an enum.
    Member(Text, u32),
    /// An attribute or a parameter: kind or direction, name and type.
    Typed(u8, Text, Text),
    /// A method: name and return type.
    Method(Text, Text),
}

impl Part {
    /// The bytes of its texts.
    pub fn length(self) -> usize {
        match self {
            Part::Text(text) | Part::Entry(text, ..) | Part::Member(text, _) => text.length,
            Part::Typed(_, name, of) | Part::Method(name, of) => name.length + of.length,
        }
    }
}

macro_rules! parts {
    ($($name:ident $word:literal $indexes:literal;)*) => {
        /// Which parts there are.
        #[derive(Clone, Copy, Debug, PartialEq, Eq)]
        pub enum Which { $($name),* }

        impl Which {
            pub const ALL: &[Which] = &[$(Which::$name),*];

            pub fn word(self) -> &'static str {
                match self { $(Which::$name => $word),* }
            }

            /// How many positions it is asked by.
            pub fn indexes(self) -> usize {
                match self { $(Which::$name => $indexes),* }
            }
        }
    };
}

parts! {
    Entry "entry" 1;
    EntryNote "entry-note" 2;
    Member "member" 1;
    MemberNote "member-note" 2;
    Note "note" 1;
    Base "base" 1;
    BaseNote "base-note" 2;
    Optional "optional" 1;
    OptionalNote "optional-note" 2;
    Attribute "attribute" 1;
    AttributeNote "attribute-note" 2;
    GetException "get-exception" 2;
    SetException "set-exception" 2;
    Method "method" 1;
    MethodNote "method-note" 2;
    Parameter "parameter" 2;
    Exception "exception" 2;
}

/// When a reader starts to remember.
#[derive(Clone, Copy)]
pub struct Memory {
    /// Stretches of runs end where a place passes a multiple of 2 to this.
    pub stretch: u32,
    /// Many names and texts overlap where their bytes are more than so many times those of the file.
    pub often: usize,
}

/// So late that an ordinary file costs no more for it.
pub(super) const MEMORY: Memory = Memory { stretch: 12, often: 8 };

pub(super) struct Reader<'a> {
    file: &'a [u8],
    reading: Reading,
    memory: Memory,
    pub at: usize,
    /// The good items from a place on, annotated or not: how many, and where the next stretch starts.
    stretches: HashMap<(usize, Item, bool), (usize, usize)>,
    /// The bytes of names and texts so far; and what is known of all places once they are many.
    read: usize,
    stops: Option<Stops>,
}

/// The 4-byte number at `at`, if it fits.
pub(super) fn number(file: &[u8], at: usize) -> Option<usize> {
    let bytes = file.get(at..)?.first_chunk()?;
    Some(u32::from_le_bytes(*bytes) as usize)
}

impl<'a> Reader<'a> {
    pub fn new(file: &'a [u8], reading: Reading, memory: Memory) -> Reader<'a> {
        Reader { file, reading, memory, at: 0, stretches: HashMap::new(), read: 0, stops: None }
    }

    pub fn word_at(&self, at: usize) -> Result<usize, Refusal> {
        number(self.file, at).map_or_else(|| refused(refusal::RDB_OUTSIDE, at), Ok)
    }

    /// An Offset that does not lead past the file's end.
    pub fn pointer(&self, at: usize) -> Result<usize, Refusal> {
        let offset = self.word_at(at)?;
        refuse_if(offset > self.file.len(), refusal::RDB_OUTSIDE, at)?;
        Ok(offset)
    }

    /// The NUL-Name that an entry names.
    pub fn key(&mut self, entry: usize) -> Result<&'a [u8], Refusal> {
        let at = self.pointer(entry)?;
        let length = match &self.stops {
            Some(stops) => stops.name(at),
            None => CStr::from_bytes_until_nul(&self.file[at..]).ok().map(CStr::count_bytes),
        };
        let Some(length) = length else { return refused(refusal::RDB_OUTSIDE, entry) };
        let name = Text { at, length };
        refuse_if(!self.is_good(name, Rule::Ascii), refusal::RDB_VALUE, entry)?;
        Ok(&self.file[at..at + length])
    }

    /// Whether the bytes of a name or a text are as they must be.
    #[inline]
    fn is_good(&mut self, Text { at, length }: Text, rule: Rule) -> bool {
        self.read += length;
        if self.read > self.memory.often * self.file.len() {
            let stops = self.stops.get_or_insert_with(|| Stops::of(self.file));
            return stops.is_good(self.file, at..at + length, rule);
        }
        let bytes = &self.file[at..at + length];
        match rule {
            Rule::Ascii => bytes.is_ascii(),
            Rule::Utf8 => bytes.is_empty() || std::str::from_utf8(bytes).is_ok(),
        }
    }

    /// Goes to a record's kind byte and past it.
    pub fn open(&mut self, at: usize) -> u8 {
        self.at = at + 1;
        self.file[at]
    }

    pub fn word(&mut self) -> Result<usize, Refusal> {
        let word = self.word_at(self.at)?;
        self.at += 4;
        Ok(word)
    }

    /// A byte of which only values up to `last` are not reserved.
    fn byte(&mut self, last: u8) -> Result<u8, Refusal> {
        let place = self.at;
        let Some(&byte) = self.file.get(place) else { return refused(refusal::RDB_OUTSIDE, place) };
        refuse_if(byte > last, refusal::RDB_VALUE, place)?;
        self.at += 1;
        Ok(byte)
    }

    /// An Idx-String.
    #[inline]
    fn text(&mut self, rule: Rule) -> Result<Text, Refusal> {
        let place = self.at;
        let first = self.word()?;
        let is_pointed = first >> 31 == 1;
        let from = if is_pointed { first & 0x7fff_ffff } else { place };
        let length = number(self.file, from).filter(|length| length >> 31 == 0);
        let fits = |length: &usize| *length <= self.file.len() - from - 4;
        let Some(length) = length.filter(fits) else {
            return refused(refusal::RDB_OUTSIDE, place);
        };
        let text = Text { at: from + 4, length };
        refuse_if(!self.is_good(text, rule), refusal::RDB_VALUE, place)?;
        if !is_pointed {
            self.at += length;
        }
        Ok(text)
    }

    fn name(&mut self) -> Result<Text, Refusal> {
        self.text(Rule::Ascii)
    }

    /// A count and that many items. Where records overlap, stretches of them that were passed before are leapt over:
    /// none of the first record that a reader reads.
    fn run(
        &mut self,
        item: Item,
        annotated: bool,
        mut each: impl FnMut(&mut Self, usize) -> Result<(), Refusal>,
    ) -> Result<(), Refusal> {
        let count = self.word()?;
        let block_of = |reader: &Self| reader.at >> reader.memory.stretch;
        let (mut i, mut block, mut before) = (0, block_of(self), None);
        while i < count {
            if block_of(self) != block {
                block = block_of(self);
                let start = (self.at, item, annotated);
                if let Some((before, passed)) = before.replace((start, i)) {
                    self.stretches.insert(before, (i - passed, self.at));
                }
                if let Some(&(items, next)) = self.stretches.get(&start) {
                    if items <= count - i {
                        (i, self.at) = (i + items, next);
                        continue;
                    }
                }
            }
            each(self, i)?;
            i += 1;
        }
        Ok(())
    }

    fn names(&mut self, mut take: impl FnMut(usize, Part)) -> Result<(), Refusal> {
        self.run(Item::Name, false, |reader, i| {
            take(i, Part::Text(reader.name()?));
            Ok(())
        })
    }

    fn notes(&mut self, there: bool, mut take: impl FnMut(usize, Part)) -> Result<(), Refusal> {
        if !there {
            return Ok(());
        }
        self.run(Item::Note, false, |reader, i| {
            take(i, Part::Text(reader.text(Rule::Utf8)?));
            Ok(())
        })
    }

    /// What follows the kind byte of an entity, or a group's map: the parts of those that are opened.
    pub fn rest(
        &mut self,
        kind: u8,
        take: &mut impl FnMut(Which, usize, usize, Part),
    ) -> Result<(), Refusal> {
        let annotated = kind & ANNOTATED != 0;
        match kind & KIND {
            GROUP => {}
            ENUM => self.members(annotated, take)?,
            INTERFACE => self.interface(annotated, take)?,
            _ => return Ok(()),
        }
        self.notes(annotated, |i, note| take(Which::Note, i, 0, note))
    }

    fn members(
        &mut self,
        annotated: bool,
        take: &mut impl FnMut(Which, usize, usize, Part),
    ) -> Result<(), Refusal> {
        self.run(Item::Member, annotated, |reader, i| {
            let (name, value) = (reader.name()?, reader.word()?);
            take(Which::Member, i, 0, Part::Member(name, value as u32));
            reader.notes(annotated, |j, note| take(Which::MemberNote, i, j, note))
        })
    }

    fn interface(
        &mut self,
        annotated: bool,
        take: &mut impl FnMut(Which, usize, usize, Part),
    ) -> Result<(), Refusal> {
        use Which::*;
        for (base, note_of) in [(Base, BaseNote), (Optional, OptionalNote)] {
            self.run(Item::Base, annotated, |reader, i| {
                take(base, i, 0, Part::Text(reader.name()?));
                reader.notes(annotated, |j, note| take(note_of, i, j, note))
            })?;
        }
        self.run(Item::Attribute, annotated, |reader, i| {
            let kind = reader.byte(3)?;
            take(Attribute, i, 0, Part::Typed(kind, reader.name()?, reader.name()?));
            reader.names(|j, text| take(GetException, i, j, text))?;
            if reader.reading == Reading::Literal || kind & 2 == 0 {
                reader.names(|j, text| take(SetException, i, j, text))?;
            }
            reader.notes(annotated, |j, note| take(AttributeNote, i, j, note))
        })?;
        self.run(Item::Method, annotated, |reader, i| {
            take(Method, i, 0, Part::Method(reader.name()?, reader.name()?));
            reader.run(Item::Parameter, false, |reader, j| {
                let direction = reader.byte(2)?;
                take(Parameter, i, j, Part::Typed(direction, reader.name()?, reader.name()?));
                Ok(())
            })?;
            reader.names(|j, text| take(Exception, i, j, text))?;
            reader.notes(annotated, |j, note| take(MethodNote, i, j, note))
        })
    }

    /// A constant: its kind and the bits of its value.
    pub fn constant(
        &mut self,
        at: usize,
        take: impl FnMut(usize, Part),
    ) -> Result<(u8, u64), Refusal> {
        let first = self.open(at);
        let kind = first & !CONSTANT_ANNOTATED;
        let Some(&size) = SIZES.get(usize::from(kind)) else {
            return refused(refusal::RDB_VALUE, at);
        };
        let Some(value) = self.file.get(at + 1..at + 1 + size) else {
            return refused(refusal::RDB_OUTSIDE, at + 1);
        };
        let bits = value.iter().rev().fold(0, |bits, byte| bits << 8 | u64::from(*byte));
        refuse_if(kind == BOOLEAN && bits > 1, refusal::RDB_VALUE, at + 1)?;
        self.at += size;
        self.notes(first & CONSTANT_ANNOTATED != 0, take)?;
        Ok((kind, bits))
    }
}
