//! The proved engine for Rust programs.
//!
//! An engineer needs [`engine`] alone; the rest reads and writes what people read and write: galleys ([`text`], [`record`],
//! [`galley`]), page lists ([`list`], [`page`]), marks ([`marks`]), and says in words what an answer means ([`refusal`],
//! [`rules`], [`why`], [`explanation`], [`needs`], [`fill`]).

#![deny(unsafe_code, missing_docs, clippy::undocumented_unsafe_blocks)]

pub mod engine;
pub mod explanation;
pub mod field;
pub mod fill;
pub mod galley;
pub mod list;
pub mod marks;
pub mod needs;
pub mod page;
pub mod record;
pub mod refusal;
pub mod rules;
pub mod text;
pub mod why;
pub mod worktable;
