//! The published Rust functions and the library's C entries, side by side.

// refmvs, intops, env, levels and headers, at the crate root as their own paths want them.
include!(concat!(env!("OUT_DIR"), "/published.rs"));
#[allow(dead_code)]
mod tables;

pub mod answers;
pub mod antt;
pub mod args;
pub mod cases;
pub mod compare;
pub mod definitions;
pub mod entry;
pub mod expected;
pub mod fields;
pub mod frame_file;
pub mod frames;
pub mod kept;
pub mod library;
pub mod load;
pub mod loads;
pub mod passes;
pub mod reference;
pub mod rng;
pub mod shim;
pub mod shown;
pub mod unpack;
pub mod values;
