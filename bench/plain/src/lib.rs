//! A plain program that lays out status tables, makes steps and lists archives, written for speed: the baseline of the benchmark.
//! The rules are those of document 01; the proved code is not used.

pub mod archive;
pub mod families;
pub mod input;
pub mod layout;
pub mod mesh;
pub mod run;
pub mod step;
pub mod table;

/// The number of a refusal, as document 01 lists them.
pub type Refusal = u8;
