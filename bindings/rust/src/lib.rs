//! The arithmetic of a chip that multiplies by adding rough logarithms, in five published designs, as ordinary Rust.
//!
//! The operations are Highvane's, proved in Rattle and compiled into the archive `libhighvane.a`; this package calls them. Each takes
//! any input. It gives its result, or the first [`Refusal`] that applies, and then has changed nothing that was lent to it.
//!
//! | operation | gives |
//! |---|---|
//! | [`unsigned_product`], [`signed_product`] | a design's product at width 8, 12, 16 or 32 |
//! | [`table_product`] | design 1's product of two bytes, by a table |
//! | [`row_of`] | a row, as a part of a weight store |
//! | [`score_row`] | the score of a row, its exact error, and the residue of each pair |
//! | [`score_row_mitchell`], [`score_row_nearest`], [`score_row_staged`] | the same by one design |
//! | [`score_row_truncated`], [`score_row_twice_truncated`] | the same by one design |
//! | [`score_layer`] | the scores of all rows of a weight store against one frame |
//! | [`scale`] | a score and T as binary64, divided by a power of two |
//! | [`single_product`], [`single_product_of_bits`] | Mitchell's product of two binary32 numbers |
//! | `transcript`, [`transcript_into`] | what the bench prints for a run of records |
//!
//! ```
//! use highvane::{Design, score_row};
//!
//! let (weights, frame) = ([3, -5, 0], [3, 6, 7]);
//! let mut residues = [0; 3];
//! let report = score_row(Design::Mitchell, &weights, &frame, &mut residues)?;
//! assert_eq!((report.score, report.error, residues), (-20, -1, [1, -2, 0]));
//! # Ok::<(), highvane::Refusal>(())
//! ```
//!
//! `tools/archive` makes the archive, for x86-64. The build takes it from the repository's `target`, or from the folder that the
//! environment variable `HIGHVANE_LIB` names; a relative folder starts from that of this package's manifest. The package and the
//! archive are of one version: a call panics where the archive refuses with a number that the package does not know.
//!
//! The package needs no standard library. Without its feature `alloc`, which is on by default, it needs no heap either, and has no
//! `transcript`.

#![no_std]
#![deny(missing_docs, unsafe_op_in_unsafe_fn)]

#[cfg(feature = "alloc")]
extern crate alloc;

mod design;
mod layers;
mod products;
pub mod raw;
mod records;
mod refusal;
mod rows;
mod scores;
mod singles;
mod stores;

pub use design::{Design, Width};
pub use layers::score_layer;
pub use products::{signed_product, table_product, unsigned_product};
#[cfg(feature = "alloc")]
pub use records::transcript;
pub use records::{INPUT_MAX, TRANSCRIPT_MAX, transcript_into};
pub use refusal::{NoSuchRefusal, Refusal};
pub use rows::{
    PAIRS_MAX, Report, score_row, score_row_mitchell, score_row_nearest, score_row_staged, score_row_truncated,
    score_row_twice_truncated,
};
pub use scores::{SHIFT_MAX, Scaled, scale};
pub use singles::{single_product, single_product_of_bits};
pub use stores::row_of;
