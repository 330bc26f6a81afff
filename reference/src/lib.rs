//! A reference model of the trigger supervisor, written from documents 01 and 02 and their settled open points alone.
//!
//! Tags in square brackets, such as `[Main.4]`, name the sentence of document 01 or 02 that a line rests on;
//! `[Open: M2]` names the row of docs/DECISIONS.md that settles a point which the documents leave open.

pub mod account;
pub mod console;
pub mod machine;

#[cfg(test)]
mod tests;
