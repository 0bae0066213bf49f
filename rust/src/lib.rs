//! A second source for what is checked by running: written from the documents alone, 01 and the first seven points of 02, in plain
//! Rust, and sharing no line with the proved library.
//!
//! - `format`: records and replies as bytes and as numbers; one record reader, and a writer beside it that ranges a list's numbers
//!   by itself.
//! - `detectors`: `plain`, to be believed; `fast`, to be beaten; and `exhaustive`, which has no tree.
//! - `listing`: what the programs print of a record.
//! - `inputs`: what all of these and the proved library are tested on.
//! - `comparison`: how one is held to another, and to what is expected.
//! - `command`: what the programs of `bin` have in common.

pub mod command;
pub mod comparison;
pub mod detectors;
pub mod format;
pub mod inputs;
pub mod listing;
