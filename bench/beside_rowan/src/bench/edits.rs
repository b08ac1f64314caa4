//! Replacements: one of them, made often, and many, one after the other.

use super::walks;
use rowan::cursor::{SyntaxElement, SyntaxNode, SyntaxToken};
use rowan::{GreenNode, GreenNodeData, GreenToken, NodeOrToken, SyntaxKind, TextSize};
use std::time::{Duration, Instant};

/// How often the token in the middle is replaced in one turn.
const TIMES: usize = 10_000;

/// How many tokens are replaced in one turn, one after the other.
const EDITS: usize = 1_000;

/// The text of a new token is the beginning of this one, as long as the old token's, which is no longer here.
const MARKS: &str = "############";

/// What is timed, in each of many turns.
#[derive(Clone, Copy)]
pub enum Operation {
    /// The token in the middle is replaced, each time in the tree that was parsed.
    Replace,
    /// A cursor at the root is made of the tree with that replacement.
    Root,
    /// Tokens are replaced, and each that was found and each new root are kept.
    Trace,
    /// Tokens are replaced, with a cursor at each new root.
    Cursors,
    /// Tokens are replaced in the green trees, with a cursor at the last root.
    Green,
}

impl Operation {
    /// The operation of that name.
    pub fn from_word(word: &str) -> Option<Operation> {
        match word {
            "replace" => Some(Operation::Replace),
            "root" => Some(Operation::Root),
            "trace" => Some(Operation::Trace),
            "cursors" => Some(Operation::Cursors),
            "green" => Some(Operation::Green),
            _ => None,
        }
    }
}

/// A token that takes the place of another one, and where that one is.
struct Edit {
    offset: TextSize,
    path: Vec<usize>,
    token: GreenToken,
}

impl Edit {
    /// The edit of a token of a text. Other tokens stay where they are, since the new one has as many bytes.
    fn new(offset: TextSize, old: &SyntaxToken) -> Edit {
        let token = marks(old.kind(), old.text().len());
        Edit { offset, path: path_of(old), token }
    }
}

/// The places that lead from the root to a token.
fn path_of(token: &SyntaxToken) -> Vec<usize> {
    let mut path = vec![token.index()];
    path.extend(token.ancestors().map(|node| node.index()));
    // The root has no place among others.
    path.pop();
    path.reverse();
    path
}

fn marks(kind: SyntaxKind, len: usize) -> GreenToken {
    GreenToken::new(kind, &MARKS[..len.min(MARKS.len())])
}

/// The token at an offset, of two the right one.
fn token_at(root: &SyntaxNode, offset: TextSize) -> Option<SyntaxToken> {
    root.token_at_offset(offset).right_biased()
}

/// The edits of a turn, at places that are drawn.
fn drawn_edits(root: &SyntaxNode) -> Vec<Edit> {
    let offsets = walks::drawn_offsets(root.text_range().len().into());
    let offsets = offsets.into_iter().take(EDITS);
    offsets.filter_map(|offset| Some(Edit::new(offset, &token_at(root, offset)?))).collect()
}

/// The token in the middle of a text, and its edit.
fn middle_edit(root: &SyntaxNode) -> Option<(SyntaxToken, Edit)> {
    let offset = TextSize::from(u32::from(root.text_range().len()) / 2);
    let token = token_at(root, offset)?;
    let edit = Edit::new(offset, &token);
    Some((token, edit))
}

fn green_of(root: &SyntaxNode) -> GreenNode {
    root.green().to_owned()
}

/// Makes the edit so often, and answers the last tree.
fn replace_often(old: &SyntaxToken, new: &GreenToken, times: usize) -> GreenNode {
    let mut tree = old.replace_with(new.clone());
    for _ in 1..times {
        tree = old.replace_with(new.clone());
    }
    tree
}

/// Makes the edits, and answers the last tree. Each token that was found and each new root are kept until then.
fn replace_by_trace(root: &SyntaxNode, edits: &[Edit]) -> GreenNode {
    let mut root = root.clone();
    let mut kept = Vec::with_capacity(2 * edits.len());
    for edit in edits {
        if let Some(old) = token_at(&root, edit.offset) {
            root = SyntaxNode::new_root(old.replace_with(edit.token.clone()));
            kept.push(SyntaxElement::from(old));
            kept.push(SyntaxElement::from(root.clone()));
        }
    }
    green_of(&root)
}

/// Makes the edits, with a cursor at each new root, and answers the last tree.
fn replace_by_cursors(root: &SyntaxNode, edits: &[Edit]) -> GreenNode {
    let mut root = root.clone();
    for edit in edits {
        if let Some(old) = token_at(&root, edit.offset) {
            root = SyntaxNode::new_root(old.replace_with(edit.token.clone()));
        }
    }
    green_of(&root)
}

/// Makes the edits in the green trees, and answers the last one, after a cursor was made at its root.
fn replace_by_green(tree: &GreenNode, edits: &[Edit]) -> GreenNode {
    let mut tree = tree.clone();
    for edit in edits {
        tree = put(&tree, &edit.path, &edit.token);
    }
    green_of(&SyntaxNode::new_root(tree))
}

/// The tree with a token in place of what the places lead to. Each node on the way is made anew.
fn put(tree: &GreenNodeData, path: &[usize], token: &GreenToken) -> GreenNode {
    let Some((place, below)) = path.split_first() else {
        return tree.to_owned();
    };
    let child = match tree.children().nth(*place) {
        Some(NodeOrToken::Node(node)) => NodeOrToken::Node(put(node, below, token)),
        _ => NodeOrToken::Token(token.clone()),
    };
    tree.replace_child(*place, child)
}

/// What a turn of an operation needs, which is made before the time is taken.
enum Turn {
    Nothing,
    Replace(SyntaxToken, Edit),
    Root(GreenNode),
    Trace(SyntaxNode, Vec<Edit>),
    Cursors(SyntaxNode, Vec<Edit>),
    Green(GreenNode, Vec<Edit>),
}

impl Turn {
    fn new(tree: GreenNode, operation: Operation) -> Turn {
        let root = SyntaxNode::new_root(tree);
        match operation {
            Operation::Replace | Operation::Root => Turn::in_the_middle(&root, operation),
            _ => Turn::in_all_places(root, operation),
        }
    }

    fn in_the_middle(root: &SyntaxNode, operation: Operation) -> Turn {
        let Some((old, edit)) = middle_edit(root) else {
            return Turn::Nothing;
        };
        match operation {
            Operation::Root => Turn::Root(replace_often(&old, &edit.token, 1)),
            _ => Turn::Replace(old, edit),
        }
    }

    fn in_all_places(root: SyntaxNode, operation: Operation) -> Turn {
        let edits = drawn_edits(&root);
        match operation {
            Operation::Trace => Turn::Trace(root, edits),
            Operation::Cursors => Turn::Cursors(root, edits),
            _ => Turn::Green(green_of(&root), edits),
        }
    }

    fn take(&self) -> Option<GreenNode> {
        match self {
            Turn::Nothing => None,
            Turn::Replace(old, edit) => Some(replace_often(old, &edit.token, TIMES)),
            Turn::Root(tree) => Some(green_of(&SyntaxNode::new_root(tree.clone()))),
            Turn::Trace(root, edits) => Some(replace_by_trace(root, edits)),
            Turn::Cursors(root, edits) => Some(replace_by_cursors(root, edits)),
            Turn::Green(tree, edits) => Some(replace_by_green(tree, edits)),
        }
    }
}

/// How many marks the text of a tree has.
fn count_marks(tree: &GreenNode) -> usize {
    tree.to_string().bytes().filter(|byte| *byte == b'#').count()
}

/// Times an operation over a tree, and answers the time of all turns and how many marks the last tree has. What a turn makes is
/// dropped within the time.
pub fn time(tree: GreenNode, operation: Operation, turns: usize) -> (Duration, usize) {
    let turn = Turn::new(tree, operation);
    let mut last = None;
    let start = Instant::now();
    for _ in 0..turns {
        last = turn.take();
    }
    let total = start.elapsed();
    (total, last.map_or(0, |tree| count_marks(&tree)))
}
