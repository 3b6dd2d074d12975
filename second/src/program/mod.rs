//! The independent program: the check of a typelib, its questions, listing, tables, normal form and
//! links, libxpt's files, what is left of bad ones, and types.rdb, written from the documents and the
//! readings alone.

pub mod accepted;
pub mod adopt;
pub mod check;
pub mod format;
pub mod link;
pub mod listing;
pub mod normal;
pub mod questions;
pub mod rdb;
pub mod salvage;
pub mod table;

pub use format::*;

/// What a check answers: the number of interfaces, or the refusal.
pub type Answer = Result<usize, Refusal>;
