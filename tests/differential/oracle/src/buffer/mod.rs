//! Lists of questions about the reads of a parse buffer.

mod answers;
mod list;
mod questions;
mod rules;
mod show;

pub use list::{write, LAYOUT};
pub use questions::{fixed, live};
pub use show::record as show;
