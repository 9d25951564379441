//! A Rust host of libcodremif.a, and the tests that hold the library to docs/FORMAT.md.
//!
//! * [`calls`] declares the C functions and wraps them safely.
//! * [`plain`] answers the same calls by a plain search, written from the request's text alone. It shares no code and no
//!   table with the library: it evaluates every rule for every pair of states, judges every rule set, and takes the
//!   cores and cuts by their definition. It collects the reached states and finds one core as the request says it, looks at every
//!   rule between all neighbours of a log, and looks a set up by going over the lists.
//! * [`everything`] has what the library says of a text, so that it can be held to what it says of another.
//! * [`judgements`] counts the judgements of a list call, for the bench.
//! * [`program`] runs the report program.
//! * [`random`] makes models, damaged texts, lists, orders and logs from a seed.
//! * [`compare`] asks both sides the same question over equally prefilled, guarded bytes and panics where they differ.
//!   [`lent`] has the bytes that a call writes, [`handed`] the texts, orders, logs and lists that a call reads.
//!
//! [`answer`] has the types that both sides answer with.

#![deny(warnings)]

pub mod answer;
pub mod calls;
pub mod compare;
pub mod everything;
pub mod handed;
pub mod judgements;
pub mod lent;
pub mod plain;
pub mod program;
pub mod random;
