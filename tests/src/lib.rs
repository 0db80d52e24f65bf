//! Document 01, with the requests of document 02 that have landed, worked out bit by bit, to hold the proved library against.
//! Nothing here is shared with the crates.

pub mod before;
pub mod blocks;
pub mod calendar;
pub mod call;
pub mod calls;
pub mod card;
pub mod counts;
pub mod desk;
pub mod image;
pub mod ledger;
pub mod map;
pub mod printer;
pub mod random;
pub mod roles;
pub mod rows;
pub mod summary;
pub mod worked;
