//! A second implementation of the engine that docs/RULES.md describes, written from the rules alone.

pub mod cases;
pub mod check;
pub mod compile;
pub mod library;
pub mod lines;
pub mod make;
pub mod merge;
pub mod refusal;
pub mod run;
pub mod text;
pub mod words;
