//! The definitions of document 01, a judge of probe scripts and makers of images.
pub mod chip;
pub mod counts;
pub mod crc;
pub mod erases;
pub mod foreign;
pub mod frame;
pub mod geometry;
pub mod image;
pub mod judge;
pub mod pays;
pub mod plain;
pub mod tree;
pub mod unit;
