//! Another evaluator of the papers (document 01, with what document 02 changed), written
//! on its own from them, and the random tests of the Rattle library against
//! it.
//!
//! - `paper`: the papers read literally; plain and slow.
//! - `random`: fixed-seed generators of rules, bodies, sheets and streams.
//! - `lent`: buffers with guards around them, to be lent to the library.
//! - `guard_pages`: memory at pages that nobody may touch, and a library to which all is
//!   lent there.
//! - `library`: the boundary to the library.
//! - `ranges`: the ranges of a formula, with their pairs and places.
//! - `states`: a state's bytes, and which number a call on any of them is due.
//! - `records`: the same of a set's records.
//! - `notation`: short names, with which the tests write rules and recordings.
//! - `beside`: the boundary with a calendar at every opening and step.
//! - `compare`, `hostile`: the two suites, for any implementation of the boundary.
//! - `stand_in`: an implementation in Rust, right or wrong in a chosen way, with
//!   which the two suites are themselves tested.

pub mod beside;
pub mod compare;
pub mod guard_pages;
pub mod hostile;
pub mod lent;
pub mod library;
pub mod notation;
pub mod paper;
pub mod random;
pub mod ranges;
pub mod records;
pub mod stand_in;
pub mod states;
