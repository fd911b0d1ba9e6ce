//! The static library from outside: its calls over slices, and what each of
//! them must answer, bytes included, by the `reference` package.
//!
//! * [`layout`], [`answers`]: the header's constants and answers.
//! * [`calls`]: the library's calls; [`given`]: an event as its words.
//! * [`image`]: a reference model as the bytes of an image, and back (`words`).
//! * [`expected`]: the same calls, answered by the reference; `held` has what
//!   it says of a model that an image holds.
//! * [`both`]: a call made of both on equal bytes, which must agree; [`left`]:
//!   what an event leaves, by each call that takes it.
//! * [`tally`]: which answers a test has met.

#![warn(missing_docs)]

pub mod answers;
pub mod both;
pub mod calls;
pub mod expected;
pub mod given;
mod held;
pub mod image;
pub mod layout;
pub mod left;
pub mod tally;
mod words;
