//! Tests of the flash index: document 01 as a model, the twin, makers of scripts, and the runs of the programs against both.

pub mod bench;
pub mod crash;
pub mod crc;
pub mod frame;
pub mod model;
pub mod probe;
pub mod random;
pub mod runner;
pub mod scripts;
pub mod twin;
