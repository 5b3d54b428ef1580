//! A page for the training room: each line of a script, what `ringplan` answered, and the ring drawn.
//!
//! Nothing here decides where a circuit goes. `ringplan` and `day` talk to the proved program,
//! `table` and `step` hold what it answered as data, and the other modules draw and tell it.

pub mod arguments;
pub mod chart;
pub mod day;
pub mod drawing;
pub mod nodes;
pub mod opening;
pub mod page;
pub mod pair;
pub mod picture;
pub mod refusal;
pub mod ring;
pub mod ringplan;
pub mod saving;
pub mod step;
pub mod table;
pub mod tidying;
pub mod ways;
pub mod words;
