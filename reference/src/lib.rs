//! An ordinary program for verdicts, costs and witnesses of recorded handovers.
//!
//! It is written from the papers alone, to be compared with the verified library and to be
//! measured beside it.

#![deny(unsafe_code)]

pub mod answer;
pub mod back;
pub mod bench;
pub mod brute;
pub mod call;
pub mod cases;
pub mod check;
pub mod compare;
pub mod counted;
pub mod desk;
pub mod devices;
pub mod edition;
pub mod frame;
pub mod generate;
pub mod guard;
pub mod lent;
pub mod limits;
#[cfg(feature = "linked")]
pub mod linked;
pub mod longer;
pub mod moves;
pub mod narrowed;
pub mod pair_tally;
pub mod papers;
pub mod parts;
pub mod reaching;
pub mod recording;
pub mod rewrite;
pub mod rule;
pub mod search;
pub mod selftest;
pub mod set;
pub mod shapes;
pub mod situation;
pub mod table;
pub mod unlikely;
pub mod validate;
pub mod witness;
pub mod writing;
