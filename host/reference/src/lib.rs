//! Second, independent program of the cooling card's protocol core.
//!
//! Every entry is a plain function over a lent [`card::Card`]; it allocates nothing. The modules follow the sections
//! of document 01, "Planned build and precise rules for the cooling card", and the requests of document 02.

#![forbid(unsafe_code)]
#![warn(missing_docs)]

mod blocks;
pub mod card;
pub mod console;
pub mod datalink;
pub mod figures;
pub mod image;
pub mod lecom;
pub mod love;
pub mod lucid;
pub mod master;
pub mod masters;
mod message;
pub mod numbers;
pub mod receivers;

#[cfg(test)]
mod tests;
