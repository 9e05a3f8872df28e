//! The Rust, laid out by build.rs, with what it names.

#![allow(dead_code)]

include!(concat!(env!("OUT_DIR"), "/modules.rs"));

/// The trait's implementation stands in door.rs, below `incremental`; the private ones in probe/.
pub struct Door;
