//! A second gateway, in plain Rust, written from documents 01 and 02 alone. It shares nothing with the proved one, which it is held against.
#![forbid(unsafe_code)]

pub mod block;
pub mod capture;
pub mod cipher;
pub mod gateway;
pub mod header;
pub mod refusal;
pub mod replay;
pub mod samples;
pub mod sides;
pub mod why;
