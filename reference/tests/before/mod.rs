//! Rules as they were before a request, and the request half made, to see where they differ from
//! it.

#![allow(dead_code)]

pub mod air;
pub mod counts;
pub mod devices;
pub mod editions;
pub mod guesses;
pub mod states;
