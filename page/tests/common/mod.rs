//! Rings and steps made by hand, a parser of well-formed XML, and what a drawing says of links.
#![allow(dead_code)] // each test program uses a part

pub mod links;
pub mod rings;
pub mod xml;
