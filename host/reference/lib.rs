//! An implementation of the rules (docs/RULES.md) in plain Rust, not made from the Rattle code: a yardstick for the
//! library's answers and for its speed. `entries` has the library's own C entries.

pub mod answer;
pub mod both;
pub mod bytes;
pub mod canonical;
pub mod entries;
pub mod event;
pub mod hash;
pub mod json;
pub mod notepack;
pub mod nson;
pub mod pointer;
pub mod rivals;
pub mod sha256;
pub mod string_form;
pub mod table;
pub mod versioned;
