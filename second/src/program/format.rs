//! The numbers of the format: each limit, tag, flag and refusal of document 01 stands here once.

/// Why and where a file, a question or a link is refused.
#[derive(Clone, Copy, Debug, PartialEq, Eq)]
pub struct Refusal {
    pub number: u32,
    pub place: usize,
}

pub(crate) fn refused<T>(number: u32, place: usize) -> Result<T, Refusal> {
    Err(Refusal { number, place })
}

pub(crate) fn refuse_if(holds: bool, number: u32, place: usize) -> Result<(), Refusal> {
    match holds {
        true => refused(number, place),
        false => Ok(()),
    }
}

pub const MAGIC: [u8; 16] = *b"XPCOM\nTypeLib\r\n\x1a";

pub const MAX_MINOR: u8 = 2;

// Sizes. Each number itself is allowed.
pub const MAX_FILE: usize = 1_048_576;
pub const MAX_INTERFACES: usize = 1_024;
pub const MAX_METHODS: usize = 1_024;
pub const MAX_CONSTANTS: usize = 1_024;
pub const MAX_ARRAYS: usize = 8;
pub const MAX_IDENTIFIER: usize = 255;

// Lengths of records.
pub const HEADER: usize = 32;
pub const ENTRY: usize = 28;

// Flags of methods, of parameters, of types and of interfaces.
pub const GETTER: u8 = 0x80;
pub const SETTER: u8 = 0x40;
pub const NOT_XPCOM: u8 = 0x20;
pub const CONSTRUCTOR: u8 = 0x10;
pub const HIDDEN: u8 = 0x08;
pub const IN: u8 = 0x80;
pub const OUT: u8 = 0x40;
pub const RETVAL: u8 = 0x20;
pub const SHARED: u8 = 0x10;
pub const DIPPER: u8 = 0x08;
pub const POINTER: u8 = 0x80;
pub const UNIQUE: u8 = 0x40;
pub const REFERENCE: u8 = 0x20;
pub const SCRIPTABLE: u8 = 0x80;
pub const FUNCTION: u8 = 0x40;

// Tags with rules of their own, among those from 0 to the last.
pub const TAG: u8 = 0x1f;
pub const UINT32: u8 = 6;
pub const VOID: u8 = 13;
pub const IID: u8 = 14;
pub const ASTRING: u8 = 15;
pub const INTERFACE: u8 = 18;
pub const INTERFACE_IS: u8 = 19;
pub const ARRAY: u8 = 20;
pub const SIZED_STRING: u8 = 21;
pub const SIZED_WSTRING: u8 = 22;
pub const UTF8STRING: u8 = 23;
pub const LAST_TAG: u8 = 25;

/// Whether a tag came with minor version 2.
pub fn is_newer(tag: u8) -> bool {
    (UTF8STRING..=LAST_TAG).contains(&tag)
}

/// Whether a tag is reserved in files of this minor version.
pub fn is_reserved(tag: u8, minor: u8) -> bool {
    tag > LAST_TAG || is_newer(tag) && minor < 2 || tag == ASTRING && minor == 0
}

/// Whether a tag needs the pointer flag.
pub fn needs_pointer(tag: u8) -> bool {
    tag > ASTRING
}

/// How many bytes follow a type's prefix, without an array's element.
pub fn tail(tag: u8) -> usize {
    match tag {
        INTERFACE | ARRAY | SIZED_STRING | SIZED_WSTRING => 2,
        INTERFACE_IS => 1,
        _ => 0,
    }
}

// Reserved bits by minor version.
pub fn reserved_in_interface(minor: u8) -> u8 {
    !(SCRIPTABLE | if minor == 0 { 0 } else { FUNCTION })
}

pub const RESERVED_IN_METHOD: u8 = 0x07;

pub fn reserved_in_parameter(minor: u8) -> u8 {
    0x07 | if minor == 0 { DIPPER } else { 0 }
}

pub const CONSTANT_TYPES: [u8; 4] = [1, 2, 5, 6];

/// The bytes of a constant's value, by its type.
pub fn value_size(kind: u8) -> Option<usize> {
    match kind {
        1 | 5 => Some(2),
        2 | 6 => Some(4),
        _ => None,
    }
}

/// Refusals of files, of questions, of links and of outputs.
pub mod refusal {
    pub const TOO_SHORT: u32 = 1;
    pub const TOO_LONG: u32 = 2;
    pub const MAGIC: u32 = 3;
    pub const MAJOR: u32 = 4;
    pub const MINOR: u32 = 5;
    pub const COUNT: u32 = 7;
    pub const POSITION: u32 = 8;
    pub const ANNOTATION: u32 = 9;
    pub const IID_ORDER: u32 = 10;
    pub const IDENTIFIER: u32 = 11;
    pub const NO_IID: u32 = 12;
    pub const OUTSIDE: u32 = 13;
    pub const RESERVED: u32 = 14;
    pub const INDEX: u32 = 15;
    pub const RULE: u32 = 16;
    pub const SIZE: u32 = 17;
    pub const KEY_TWICE: u32 = 18;
    pub const CYCLE: u32 = 19;
    pub const QUESTION: u32 = 20;
    pub const TWO_IIDS: u32 = 21;
    pub const TWO_KEYS: u32 = 22;
    pub const TWO_DESCRIPTORS: u32 = 23;
    pub const UNION_CYCLE: u32 = 24;
    pub const UNION_SIZE: u32 = 25;
    pub const FORM_SIZE: u32 = 26;
    pub const BUFFER: u32 = 27;
    pub const CUT: u32 = 29;
    pub const PADDED: u32 = 30;
    pub const RDB_HEADER: u32 = 31;
    pub const RDB_OUTSIDE: u32 = 32;
    pub const RDB_NOT_BELOW: u32 = 33;
    pub const RDB_VALUE: u32 = 34;
    pub const RDB_KEY_TWICE: u32 = 35;
    pub const RDB_TOO_DEEP: u32 = 36;
    pub const RDB_TOO_MANY: u32 = 37;
    pub const SHORT_LISTS: u32 = 38;

    /// Whether it is a file's own, at a byte.
    pub fn is_of_file(number: u32) -> bool {
        number <= CYCLE || (CUT..=RDB_TOO_MANY).contains(&number)
    }
}
