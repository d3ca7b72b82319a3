//! Lists of questions about containers.

mod answers;
mod ask;
mod asked;
#[cfg(feature = "ours")]
mod compare;
mod damage;
mod file_f;
mod files;
mod fixed;
mod hostile;
mod isolation;
#[cfg(feature = "ours")]
mod large;
mod lent;
mod list;
mod listed;
mod listing;
mod listings;
mod live;
#[cfg(feature = "ours")]
mod ours;
mod pdb;
mod question;
mod rules;
mod shapes;
mod show;
mod source;
mod stages;
mod steps;
mod tally;

pub use answers::{Library, Refusal};
#[cfg(feature = "ours")]
pub use compare::compare;
pub use files::{
    need, put_word, ABSENT, BIG_MAGIC, DIRECTORY_SIZE, ENTRIES, HEADER_BLOCK, PAGES_USED, PAGE_SIZE,
};
#[cfg(feature = "ours")]
pub use files::{stream, Container};
pub use fixed::fixed;
#[cfg(feature = "ours")]
pub use isolation::judged as judged_pairs;
pub use isolation::write as write_pairs;
#[cfg(feature = "ours")]
pub use large::large;
pub use list::{altered, write};
pub use listing::whole as listed;
pub use listings::named;
pub use live::live;
#[cfg(feature = "ours")]
pub use ours::Ours;
pub use pdb::Wanted;
pub use show::record as show;
