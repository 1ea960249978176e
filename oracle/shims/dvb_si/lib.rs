//! The root of the oracle's copy of the crate: the modules that reading and writing references need, and no others.

extern crate alloc;

pub mod carousel {
    pub mod biop;
}
pub mod error;
