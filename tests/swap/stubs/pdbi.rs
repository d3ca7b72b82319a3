//! Stands in for src/pdbi.rs of pdb 0.8.0, which is not at hand: nothing of it is called.
