//! The checked library's calls on types.rdb as those of a program that is compared.

use super::saniotka::{self, Value};
use super::{known, lookup, refusal, NONSENSE};
use second::library::rdb::Program;
use second::program::rdb::{questions::Constant, Reading};

fn read_as(reading: Reading) -> saniotka::Reading {
    match reading {
        Reading::Literal => saniotka::Reading::Document,
        Reading::Office => saniotka::Reading::Office,
    }
}

/// A constant as its kind, 0 to 9, and its bits as stored.
fn stored(value: Value) -> Constant {
    let (kind, bits) = match value {
        Value::Boolean(value) => (0, u64::from(value)),
        Value::Byte(value) => (1, u64::from(value as u8)),
        Value::Short(value) => (2, u64::from(value as u16)),
        Value::UnsignedShort(value) => (3, u64::from(value)),
        Value::Long(value) => (4, u64::from(value as u32)),
        Value::UnsignedLong(value) => (5, u64::from(value)),
        Value::Hyper(value) => (6, value as u64),
        Value::UnsignedHyper(value) => (7, value),
        Value::Float(bits) => (8, u64::from(bits)),
        Value::Double(bits) => (9, bits),
    };
    Constant { kind, bits }
}

pub const LIBRARY: Program = Program {
    check: |file, reading| {
        let told = known(|| saniotka::rdb_check(file, read_as(reading)));
        told.map_or(Err(NONSENSE), |told| told.map_err(refusal))
    },
    entity: |file, reading, path| {
        lookup(
            || saniotka::rdb_entity(file, read_as(reading), path),
            |entity| (entity.kind, entity.offset),
        )
    },
    constant: |file, reading, path| {
        lookup(|| saniotka::rdb_constant(file, read_as(reading), path), stored)
    },
};
