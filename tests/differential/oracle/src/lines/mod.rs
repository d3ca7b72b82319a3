//! Lists of questions about running line programs.

mod answers;
#[cfg(feature = "ours")]
mod compare;
#[cfg(feature = "ours")]
mod large;
mod list;
#[cfg(feature = "ours")]
mod ours;
mod programs;
mod questions;
mod reckoning;
mod rules;
mod shapes;
mod show;
mod tally;

#[cfg(feature = "ours")]
pub use compare::compare;
#[cfg(feature = "ours")]
pub use large::large;
pub use list::{write, LAYOUT};
pub use questions::{fixed, live};
pub use show::record as show;
