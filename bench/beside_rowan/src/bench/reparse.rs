//! A list in the middle of a text, parsed anew.

use crate::sexp::{self, List, SyntaxNode};
use rowan::ast::AstNode;
use rowan::{GreenNode, GreenNodeData, TextSize};
use std::time::{Duration, Instant};

/// How often the list is parsed anew in one turn, where the cursor at it is there.
const TIMES: usize = 1_000;

/// How many trees are made in one turn, each from the one before.
const TREES: usize = 10;

/// The list has at least so many bytes.
const LEAST: u32 = 100;

/// What is timed, in each of many turns.
#[derive(Clone, Copy)]
pub enum Operation {
    /// The list is parsed anew, by a cursor that is there.
    List,
    /// The list is found, and parsed anew, and a cursor is made at the new root.
    Table,
    /// The whole text is parsed anew.
    Whole,
}

impl Operation {
    /// The operation of that name.
    pub fn from_word(word: &str) -> Option<Operation> {
        match word {
            "list" => Some(Operation::List),
            "table" => Some(Operation::Table),
            "whole" => Some(Operation::Whole),
            _ => None,
        }
    }
}

/// The innermost list of `LEAST` bytes or more around the token at an offset, of two the right one.
fn list_at(root: &SyntaxNode, offset: TextSize) -> Option<List> {
    let token = root.token_at_offset(offset).right_biased()?;
    let nodes = std::iter::successors(token.parent(), SyntaxNode::parent);
    nodes.filter(|node| u32::from(node.text_range().len()) >= LEAST).find_map(List::cast)
}

/// The text of a list, with a mark in the place of each hyphen. It is a list, too, and as long.
fn marked(list: &List) -> String {
    list.syntax().text().to_string().replace('-', "#")
}

/// Whether a text is that of one list: it begins with `(`, and closes it with its last byte.
fn is_balanced(text: &str) -> bool {
    let bytes = text.as_bytes();
    if bytes.first() != Some(&b'(') {
        return false;
    }
    let mut depth = 0;
    for (at, byte) in bytes.iter().enumerate() {
        match byte {
            b'(' => depth += 1,
            b')' => depth -= 1,
            _ => {}
        }
        if depth == 0 {
            return at + 1 == bytes.len();
        }
    }
    false
}

/// The root of the tree in which a list is parsed anew, if the text is one list.
fn reparse_list(list: &List, text: &str) -> Option<GreenNode> {
    if !is_balanced(text) {
        return None;
    }
    let parsed = sexp::parse(text);
    let new_list = GreenNodeData::to_owned(parsed.children().next()?.into_node()?);
    Some(list.syntax().replace_with(new_list))
}

/// Parses the list anew so often, and answers the last tree.
fn parse_often(list: &List, text: &str) -> Option<GreenNode> {
    let mut tree = reparse_list(list, text)?;
    for _ in 1..TIMES {
        tree = reparse_list(list, text)?;
    }
    Some(tree)
}

/// Finds the list at an offset, parses it anew and makes a cursor at the new root, in each tree that comes of the one before.
/// Answers the last one.
fn parse_in_each(root: &SyntaxNode, offset: TextSize, text: &str) -> Option<GreenNode> {
    let mut root = root.clone();
    for _ in 0..TREES {
        root = SyntaxNode::new_root(reparse_list(&list_at(&root, offset)?, text)?);
    }
    Some(root.green().to_owned())
}

/// What a turn of an operation needs, which is made before the time is taken.
enum Turn {
    Nothing,
    List(List, String),
    Table(SyntaxNode, TextSize, String),
    Whole(String),
}

impl Turn {
    fn new(tree: GreenNode, operation: Operation) -> Turn {
        let root = SyntaxNode::new_root(tree);
        let offset = TextSize::from(u32::from(root.text_range().len()) / 2);
        let Some(list) = list_at(&root, offset) else {
            return Turn::Nothing;
        };
        let text = marked(&list);
        match operation {
            Operation::List => Turn::List(list, text),
            Operation::Table => Turn::Table(root, offset, text),
            Operation::Whole => match reparse_list(&list, &text) {
                Some(tree) => Turn::Whole(tree.to_string()),
                None => Turn::Nothing,
            },
        }
    }

    fn take(&self) -> Option<GreenNode> {
        match self {
            Turn::Nothing => None,
            Turn::List(list, text) => parse_often(list, text),
            Turn::Table(root, offset, text) => parse_in_each(root, *offset, text),
            Turn::Whole(text) => Some(sexp::parse(text)),
        }
    }
}

/// How many marks the text of a tree has.
fn count_marks(tree: &GreenNode) -> usize {
    tree.to_string().bytes().filter(|byte| *byte == b'#').count()
}

/// Times an operation over a tree, and answers the time of all turns and how many marks the last tree has. What a turn makes is
/// dropped within the time.
pub fn time(tree: GreenNode, operation: Operation, turns: usize) -> (Duration, usize) {
    let turn = Turn::new(tree, operation);
    let mut last = None;
    let start = Instant::now();
    for _ in 0..turns {
        last = turn.take();
    }
    let total = start.elapsed();
    (total, last.map_or(0, |tree| count_marks(&tree)))
}
