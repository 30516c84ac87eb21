//! The Rust originals of the gutter router, compiled byte for byte by path,
//! among stand-ins for the parts of their crate that are not published or not
//! needed. The stand-ins carry only what the originals read.

#![allow(dead_code, unused_imports)]

pub mod collections;
pub mod emit;
pub mod intern;
pub mod ir;
pub mod layout;
