//! The kernel of document 01, and of document 02 as far as it stands, written a second time as plain lists and places,
//! and what is needed to compare other programs with it.

pub mod answer;
pub mod buffers;
pub mod call;
pub mod chains;
pub mod compare;
pub mod coverage;
pub mod desk;
#[cfg(test)]
mod example;
pub mod grammar;
pub mod image;
pub mod junk;
pub mod kernel;
mod kinds;
pub mod lengths;
pub mod lent;
pub mod listing;
pub mod mailboxes;
pub mod names;
mod openings;
pub mod page;
pub mod random;
pub mod scripts;
pub mod sizes;
pub mod sound;
pub mod why;
