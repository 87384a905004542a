//! Checks of Bradawlet from outside: what the library and the crate over it answer is compared with an exact
//! computation that shares no code and no method with them.

pub mod comparison;
pub mod desk;
pub mod families;
pub mod meeting;
pub mod pages;
pub mod question;
pub mod random;
pub mod refusal;
pub mod tables;
pub mod tally;
pub mod wrapped;
