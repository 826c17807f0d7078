//! A second implementation of the statement archive, written from `docs/FORMAT.md` and
//! `docs/REFUSALS.md` alone.
//!
//! Bytes become records in [`carrier`], a [`reading`] judges record after record, [`read`] enters
//! them in tables of [`rows`], and [`write`] composes them again.

#![forbid(unsafe_code)]
#![warn(missing_docs)]

pub mod carrier;
pub mod charset;
pub mod check;
pub mod fields;
pub mod read;
pub mod reading;
pub mod records;
pub mod rows;
pub mod write;

pub use check::check;
pub use read::read;
pub use write::{check_tables, write};
