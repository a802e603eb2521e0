//! The given Rust as a crate: its files as they are, which build.rs lays out. They are part of a larger crate, so some of them goes
//! unused.
#![allow(dead_code, unused)]
// Stands in for the crate `rowan`, of which the given files use one type.
extern crate self as rowan;

pub struct SyntaxKind(pub u16);

include!(concat!(env!("OUT_DIR"), "/given/modules.rs"));
