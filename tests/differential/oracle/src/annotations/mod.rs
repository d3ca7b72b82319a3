//! Lists of questions about binary annotations.

mod answers;
#[cfg(feature = "ours")]
mod compare;
pub mod forms;
#[cfg(feature = "ours")]
mod large;
mod list;
#[cfg(feature = "ours")]
mod ours;
mod pdb;
pub mod programs;
mod questions;
mod rules;
mod show;

pub use answers::Refusal;
#[cfg(feature = "ours")]
pub use answers::ENTRIES_EACH;
#[cfg(feature = "ours")]
pub use compare::compare;
#[cfg(feature = "ours")]
pub use large::large;
pub use list::{write, LAYOUT};
pub use pdb::{read_front, read_whole};
#[cfg(feature = "ours")]
pub use pdb::triple;
pub use questions::{fixed, live};
pub use show::{hex, record as show};
