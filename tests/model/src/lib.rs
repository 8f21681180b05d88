//! The recorder's rules once more, in plain Rust: media, caches, the module
//! with COMMAND and RESET, and the script language of the program `recorder`.
//!
//! It is written from the documents alone and shares no code with the crates,
//! so that the two can be compared run by run.

pub mod caches;
pub mod cases;
pub mod hex;
pub mod medium;
pub mod module;
pub mod options;
pub mod pile;
pub mod reply;
pub mod script;
pub mod session;
pub mod store;
pub mod unit;
