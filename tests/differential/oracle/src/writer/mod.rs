//! Lists of questions about writing annotations.

mod answers;
#[cfg(feature = "ours")]
mod compare;
#[cfg(feature = "ours")]
mod large;
mod list;
mod lists;
#[cfg(feature = "ours")]
mod ours;
mod questions;
mod reckoning;
mod rules;
mod show;

#[cfg(feature = "ours")]
pub use compare::compare;
#[cfg(feature = "ours")]
pub use large::large;
pub use list::{write, LAYOUT};
pub use questions::{fixed, live};
pub use show::record as show;
