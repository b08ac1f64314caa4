//! Walks that read kinds, with and without a language, and pointers.

use super::walks;
use crate::sexp::{self, Lang};
use rowan::ast::SyntaxNodePtr;
use rowan::{cursor, GreenNode, SyntaxKind, WalkEvent};
use std::time::{Duration, Instant};

/// The kind of words, without a language.
const WORD: SyntaxKind = SyntaxKind(2);

/// What is timed, in each of many turns.
#[derive(Clone, Copy)]
pub enum Operation {
    /// Words are counted in a walk with tokens, by their numbers.
    Raw,
    /// Words are counted in a walk with tokens, by their kinds in the language.
    Walk,
    /// Pointers to nodes at offsets that are drawn are resolved.
    Pointers,
}

impl Operation {
    /// The operation of that name.
    pub fn from_word(word: &str) -> Option<Operation> {
        match word {
            "raw" => Some(Operation::Raw),
            "walk" => Some(Operation::Walk),
            "pointers" => Some(Operation::Pointers),
            _ => None,
        }
    }
}

/// Counts the words in a walk, by their numbers.
fn count_raw_words(root: &cursor::SyntaxNode) -> u64 {
    let mut words = 0;
    for event in root.preorder_with_tokens() {
        if let WalkEvent::Enter(element) = event {
            words += u64::from(element.kind() == WORD);
        }
    }
    words
}

/// Counts the words in a walk, by their kinds.
fn count_words(root: &sexp::SyntaxNode) -> u64 {
    let mut words = 0;
    for event in root.preorder_with_tokens() {
        if let WalkEvent::Enter(element) = event {
            words += u64::from(element.kind() == sexp::SyntaxKind::WORD);
        }
    }
    words
}

/// The pointers of a turn: to the nodes above the tokens at offsets, of two the right one.
fn drawn_pointers(root: &sexp::SyntaxNode) -> Vec<SyntaxNodePtr<Lang>> {
    let offsets = walks::drawn_offsets(root.text_range().len().into());
    let tokens = offsets.into_iter().filter_map(|it| root.token_at_offset(it).right_biased());
    tokens.filter_map(|it| Some(SyntaxNodePtr::new(&it.parent()?))).collect()
}

/// Resolves each pointer, and answers the sum of the indexes of the nodes.
fn resolve(root: &sexp::SyntaxNode, pointers: &[SyntaxNodePtr<Lang>]) -> u64 {
    pointers.iter().filter_map(|it| it.try_to_node(root)).map(|it| it.index() as u64).sum()
}

/// What a turn of an operation needs, which is made before the time is taken.
enum Turn {
    Raw(cursor::SyntaxNode),
    Walk(sexp::SyntaxNode),
    Pointers(sexp::SyntaxNode, Vec<SyntaxNodePtr<Lang>>),
}

impl Turn {
    fn new(tree: GreenNode, operation: Operation) -> Turn {
        match operation {
            Operation::Raw => Turn::Raw(cursor::SyntaxNode::new_root(tree)),
            Operation::Walk => Turn::Walk(sexp::SyntaxNode::new_root(tree)),
            Operation::Pointers => {
                let root = sexp::SyntaxNode::new_root(tree);
                let pointers = drawn_pointers(&root);
                Turn::Pointers(root, pointers)
            }
        }
    }

    fn take(&self) -> u64 {
        match self {
            Turn::Raw(root) => count_raw_words(root),
            Turn::Walk(root) => count_words(root),
            Turn::Pointers(root, pointers) => resolve(root, pointers),
        }
    }
}

/// Times an operation over a tree, and answers the time of all turns and the number of the last one.
pub fn time(tree: GreenNode, operation: Operation, turns: usize) -> (Duration, u64) {
    let turn = Turn::new(tree, operation);
    let mut number = 0;
    let start = Instant::now();
    for _ in 0..turns {
        number = turn.take();
    }
    (start.elapsed(), number)
}
