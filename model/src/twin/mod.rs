//! The twin: the same store with the same commit policy in plain Rust, unproved. It leaves the same image byte for byte and tells the same
//! operations, values and pages read as the proved code, on every state and image that a script can bring about.

pub mod chip;
pub mod commit;
pub mod delete;
pub mod find;
pub mod forecast;
pub mod format;
pub mod geometry;
pub mod ground;
pub mod insert;
pub mod layers;
pub mod mount;
pub mod numbers;
pub mod plan;
pub mod read;
pub mod ready;
pub mod rebuild;
pub mod report;
pub mod show;
pub mod standing;
pub mod state;
pub mod thin;
pub mod told;
pub mod tree;
pub mod unit;
pub mod update;
pub mod view;
