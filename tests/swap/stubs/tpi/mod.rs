//! Stands in for src/tpi/mod.rs of pdb 0.8.0, which is not at hand: its constants alone are used.

pub(crate) mod constants;
