//! A reference program for red/green tetrahedra, written from document 01
//! alone, to be compared with another implementation. Plain and slow: corners
//! are identified by their weights on the coarse corners, and by nothing else.

pub mod archive;
pub mod carrier;
pub mod conform;
pub mod cutting;
pub mod fingerprint;
pub mod mesh;
pub mod parts;
pub mod random;
pub mod sha256;
pub mod step;
pub mod trial;

/// The number of a refusal, as document 01 lists them.
pub type Refusal = u8;
