//! The media, the caches and the module with COMMAND and RESET in plain Rust, written to be fast: what the proved
//! crates are timed against. `tests/same_as_model.rs` compares it with the model in `tests/model`.

pub mod card;
pub mod cdb;
pub mod flat;
pub mod free_pages;
pub mod medium;
pub mod module;
pub mod queue;
pub mod store;
pub mod table;
pub mod unit;
