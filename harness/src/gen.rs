//! Seeded inputs of every kind that the documents tell apart.

pub mod certificate;
pub mod claim;
pub mod code;
pub mod codeword;
pub mod damage;
pub mod edge;
pub mod empty;
pub mod frame;
pub mod rng;
pub mod state;
