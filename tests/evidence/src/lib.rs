//! Independent evidence for the desk table of document 01, with T-01, T-04 and T-06.
//!
//! This package is a second implementation of the step machine, its schedule
//! text and its saved image, written from document 01, T-01, T-04 and T-06 of
//! document 02, the list of readings and sections 1 to 4.2 of source document 003
//! (OptP). It carries no proofs.
//! It is there to be held against a proved implementation: by comparing
//! answers byte for byte, by comparing speed, and by a checker of causal order
//! that uses no vectors at all.
//!
//! * [`table`] is the machine, in place and without heap use.
//! * [`text`] reads schedules and holds [`text::replay`].
//! * [`image`] saves and loads, and says what is wrong with an image and where.
//! * [`gen`] makes schedules and damaged images from a seed.
//! * [`causal`] checks the answers of any implementation.
//!
//! ```
//! let schedule = b"N 2 1\nW 1 1 2\nD 2 1 1\nR 2 1\n";
//! let answers = evidence::text::replay(schedule);
//! assert_eq!(answers, b"N\nW 1.1\nA 1.1\nR 2 1.1\n");
//! assert!(evidence::causal::check(schedule, &answers).is_ok());
//! ```

#![forbid(unsafe_code)]
#![warn(missing_docs)]

pub mod causal;
pub mod gen;
pub mod image;
mod refusal;
pub mod table;
pub mod text;
#[cfg(test)]
mod wrong;

pub use refusal::Refusal;
