//! Whole tables, names, paths, the namespace and control blocks of ACPI byte code, proved: safe calls into the archive `libklem_c.a`.
//!
//! Every call takes any bytes and numbers, ends, never panics, allocates nothing, and keeps nothing between calls. What it refuses,
//! it refuses by a numbered table ([`Error`]), and a refused call leaves what it was lent as it was (but see [`Run`]). The archive's
//! functions are proved; this crate is not: it passes slices with their lengths, and turns the answers into types.
//!
//! - package lengths: [`pkg_length()`], [`raw_pkg_length`], [`PkgLength`]
//! - whole tables: [`Header`], [`write_table`]
//! - names and paths: [`Path`], [`name_string`]
//! - the namespace: [`Table`], in memory that it owns or is lent, saved as an image and loaded
//! - control blocks: [`check`], [`run`], [`Frame`], [`Width`]
//!
//! # Errors
//!
//! Where a function says `# Errors`, it lists numbers of the table in the order in which they are tested: the first that holds is given.
//! A [`Path`] always holds a path, so that 26 is given only by the functions that make one from bytes.
//!
//! # Compilers
//!
//! Rust 1.63 or later, for an x86-64 target with sizes of 64 bits and the System V convention. [`Error`] is a `core::error::Error` where
//! the compiler has that (1.81 or later; the build script asks). With the feature `std` it is a `std::error::Error` on older compilers
//! too; the feature does nothing else.
#![no_std]
#![deny(missing_docs)]
#![deny(unsafe_op_in_unsafe_fn)]
// A kernel has nobody to catch a panic.
#![deny(clippy::indexing_slicing, clippy::unwrap_used, clippy::expect_used, clippy::panic, clippy::unreachable, clippy::arithmetic_side_effects)]

#[cfg(any(test, all(feature = "std", not(klem_core_error))))]
extern crate std;

mod block;
mod error;
mod header;
mod path;
mod pkg;
mod raw;
mod table;
#[cfg(test)]
mod tests;

pub use block::{check, run, Ended, Frame, Run, Width};
pub use error::Error;
pub use header::{write_table, Header, Signature};
pub use path::{is_digit_char, is_lead_name_char, is_name_char, name_string, Component, Path, Text};
pub use pkg::{pkg_length, raw_pkg_length, PkgLength};
pub use table::{Counts, Found, FoundLevel, Handle, Level, LevelType, Levels, Table};

// The page's code is a test.
#[cfg(doctest)]
#[doc = include_str!("../README.md")]
struct Readme;
