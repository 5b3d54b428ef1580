//! The two programs that are compared.

use crate::{plan, script};

#[derive(Clone, Copy, PartialEq, Eq, Debug)]
pub enum Program {
    /// The script program of document 01.
    Script,
    /// The planning program: the script program's lines and more.
    Plan,
}

impl Program {
    /// The longest line that the program takes.
    pub fn line_most(self) -> usize {
        match self {
            Program::Script => script::LINE_MOST,
            Program::Plan => plan::LINE_MOST,
        }
    }
}
