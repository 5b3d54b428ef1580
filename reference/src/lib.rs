//! The second ring controller: written from the papers alone, so that the proved controller can be
//! compared with it on long scripts.

pub mod arguments;
pub mod circuit;
pub mod comparison;
pub mod coverage;
pub mod files;
pub mod form;
pub mod generator;
pub mod grid;
pub mod lines;
pub mod lookup;
pub mod opening;
pub mod place;
pub mod plan;
pub mod program;
pub mod random;
pub mod refusal;
pub mod report;
pub mod script;
pub mod table;
pub mod tidying;
pub mod timed;
