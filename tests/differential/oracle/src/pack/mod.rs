//! Lists of questions about writing containers.

mod answers;
#[cfg(feature = "ours")]
mod compare;
mod containers;
#[cfg(feature = "ours")]
mod large;
mod list;
#[cfg(feature = "ours")]
mod ours;
mod pages;
mod question;
mod questions;
mod reading;
mod reckoning;
mod rules;
mod show;

#[cfg(feature = "ours")]
pub use compare::compare;
#[cfg(feature = "ours")]
pub use large::large;
pub use list::{write, LAYOUT};
pub use questions::{fixed, live};
pub use show::record as show;
