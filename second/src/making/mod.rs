//! Generating and damaging: typelibs as models and as bytes, good ones of every shape, damaged ones
//! whose refusal is known, and files to be linked.

pub mod builder;
pub mod damage;
pub mod faults;
pub mod generate;
pub mod genuine;
pub mod hostile;
pub mod model;
pub mod pairs;
pub mod rdb;
pub mod rdb_damage;
pub mod rdb_hostile;
pub mod rdb_ordinary;
pub mod rng;
pub mod shape;
