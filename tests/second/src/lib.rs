//! A second implementation of docs/RULES.md, written from that text alone. It exists to find out whether two readers
//! of the rules reckon alike.
//!
//! A caller may enter at any layer: `money::convert`, `apportion::apportion`, the calls of `book::Book`, or the whole
//! `transcript::transcript`.

pub mod apportion;
pub mod book;
pub mod inputs;
pub mod ledger;
pub mod lines;
pub mod money;
pub mod refusal;
pub mod transcript;
