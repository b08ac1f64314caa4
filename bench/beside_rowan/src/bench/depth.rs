//! Deep trees.

use crate::{sexp, Failure};

/// What is done with a deep tree.
pub enum Operation {
    Parse,
    Compare,
    Show,
}

impl Operation {
    /// The operation of that name.
    pub fn from_word(word: &str) -> Option<Operation> {
        match word {
            "parse" => Some(Operation::Parse),
            "compare" => Some(Operation::Compare),
            "show" => Some(Operation::Show),
            _ => None,
        }
    }

    /// Does it, and answers how many bytes the tree has.
    pub fn run(self, levels: usize) -> Result<usize, Failure> {
        let text = "(".repeat(levels) + &")".repeat(levels);
        let tree = sexp::parse(&text);
        match self {
            Operation::Parse => Ok(text.len()),
            Operation::Compare if tree == sexp::parse(&text) => Ok(text.len()),
            Operation::Compare => Err("the trees differ".into()),
            Operation::Show => Ok(tree.to_string().len()),
        }
    }
}
