//! A second section program, written from docs/RULES.md alone, to compare the proved one with.
//! It shares no code with it, and finds the ends of an ask in other ways.

pub mod card;
pub mod generate;
pub mod job;
pub mod law;
pub mod plain;
pub mod section;
