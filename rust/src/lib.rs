//! A second machine for the claim tables beside the proved one, and what is needed to compare the two.

pub mod damages;
pub mod driver;
pub mod generate;
pub mod library;
pub mod lists;
pub mod machine;
pub mod moving;
mod nodeset;
pub mod posix;
pub mod process;
#[cfg(feature = "proved")]
pub mod proved;
pub mod random;
pub mod reading;
pub mod script;
pub mod shrink;
pub mod stores;
pub mod storing;
pub mod storing_lists;
pub mod tables;
pub mod tally;

#[cfg(test)]
mod tests;
