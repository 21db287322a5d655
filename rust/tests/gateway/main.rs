//! The archive, linked and called: each call by itself, runs beside the second gateway, memory that may only be read, and why packets are
//! dropped.

mod against_second;
mod calls;
mod quiet;
// Made as the captures of `compare` are. Not all of it is used here.
#[allow(dead_code)]
#[path = "../../../compare/src/random.rs"]
mod random;
mod why;
