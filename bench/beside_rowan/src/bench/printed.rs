//! A tree as text.

use crate::sexp::SyntaxNode;
use crate::{json, Failure};
use rowan::GreenNode;
use std::time::{Duration, Instant};

/// What is printed, in each of many turns.
#[derive(Clone, Copy)]
pub enum Form {
    /// A line for each node and token.
    DebugTree,
    /// Compact JSON, which a serializer writes.
    Json,
    /// The same, of a value of the whole tree that is made first.
    Value,
}

impl Form {
    /// The form of that name.
    pub fn from_word(word: &str) -> Option<Form> {
        match word {
            "debug_tree" => Some(Form::DebugTree),
            "json" => Some(Form::Json),
            "value" => Some(Form::Value),
            _ => None,
        }
    }

    fn text(self, root: &SyntaxNode) -> Result<String, Failure> {
        match self {
            Form::DebugTree => Ok(format!("{root:#?}")),
            Form::Json => Ok(json::text(root)?),
            Form::Value => Ok(json::text_of_value(root)?),
        }
    }
}

/// Times a form of a tree whose cursor is there, and answers the time of all turns and the length of the last text. A text is
/// dropped after its time was taken.
pub fn time(tree: GreenNode, form: Form, turns: usize) -> Result<(Duration, usize), Failure> {
    let root = SyntaxNode::new_root(tree);
    let mut total = Duration::ZERO;
    let mut len = 0;
    for _ in 0..turns {
        let start = Instant::now();
        let text = form.text(&root)?;
        total += start.elapsed();
        len = text.len();
    }
    Ok((total, len))
}
