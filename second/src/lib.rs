//! A second block store, to compare the first with. See main.rs.

pub mod code;
pub mod commands;
pub mod compare;
pub mod depot;
pub mod drill;
pub mod drill_compare;
pub mod field;
pub mod figures;
pub mod inputs;
pub mod note;
pub mod plan;
pub mod random;
pub mod scripts;
pub mod store;

#[cfg(test)]
mod worked;
