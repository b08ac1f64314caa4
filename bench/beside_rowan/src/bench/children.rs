//! Searches in nodes with many children, and edits of them.

use super::draws::Draws;
use rowan::cursor::SyntaxNode;
use rowan::{GreenNode, GreenToken, NodeOrToken, SyntaxKind, TextRange, TextSize};

pub type GreenElement = NodeOrToken<GreenNode, GreenToken>;

const ROOT: SyntaxKind = SyntaxKind(7);

const WORD: SyntaxKind = SyntaxKind(2);

/// The texts of tokens.
const TEXTS: [&str; 8] = ["a", "ab", "abc", "abcd", "abcde", "abcdef", "abcdefg", "abcdefgh"];

/// A range that is searched is shorter than this many bytes.
const RANGE_LIMIT: usize = 4;

/// Where the tokens of a node are.
#[derive(Clone, Copy)]
pub enum Memory {
    /// Equal ones are one token, as a cache makes them.
    Shared,
    /// Each has memory of its own.
    Own,
}

impl Memory {
    /// The memory of that name.
    pub fn from_word(word: &str) -> Option<Memory> {
        match word {
            "shared" => Some(Memory::Shared),
            "own" => Some(Memory::Own),
            _ => None,
        }
    }

    /// That many tokens, whose texts are drawn.
    pub fn tokens(self, count: usize) -> Vec<GreenElement> {
        let shared: Vec<GreenElement> = TEXTS.into_iter().map(token).collect();
        let mut draws = Draws::new();
        let mut tokens = Vec::with_capacity(count);
        for _ in 0..count {
            let drawn = draws.below(TEXTS.len());
            tokens.push(match self {
                Memory::Shared => shared[drawn].clone(),
                Memory::Own => token(TEXTS[drawn]),
            });
        }
        tokens
    }
}

fn token(text: &str) -> GreenElement {
    NodeOrToken::Token(GreenToken::new(WORD, text))
}

/// The node over these children.
pub fn node(children: Vec<GreenElement>) -> GreenNode {
    GreenNode::new(ROOT, children)
}

/// That many short ranges in the text of a node, which are drawn. In an empty text there are none.
pub fn ranges(node: &GreenNode, count: usize) -> Vec<TextRange> {
    let text_len = u32::from(node.text_len()) as usize;
    let mut ranges = Vec::with_capacity(count);
    if text_len == 0 {
        return ranges;
    }
    let mut draws = Draws::new();
    for _ in 0..count {
        let start = draws.below(text_len);
        let len = draws.below(RANGE_LIMIT).min(text_len - start);
        ranges.push(TextRange::at(TextSize::from(start as u32), TextSize::from(len as u32)));
    }
    ranges
}

/// Searches the child at each of these ranges, by a cursor at the node, and answers how many there are.
pub fn reach(root: &SyntaxNode, ranges: &[TextRange]) -> usize {
    ranges.iter().filter(|range| root.child_or_token_at_range(**range).is_some()).count()
}

/// An edit of a node at one of its children.
#[derive(Clone, Copy)]
pub enum Edit {
    Replace,
    Insert,
    Remove,
    /// Two tokens come in place of the child.
    Splice,
}

impl Edit {
    pub const ALL: [Edit; 4] = [Edit::Replace, Edit::Insert, Edit::Remove, Edit::Splice];

    pub fn word(self) -> &'static str {
        match self {
            Edit::Replace => "replace",
            Edit::Insert => "insert",
            Edit::Remove => "remove",
            Edit::Splice => "splice",
        }
    }

    /// Makes the edit so often, at places that are drawn, and drops each node that it made.
    pub fn make_often(self, node: &GreenNode, times: usize) {
        let new_child = token("new");
        let count = node.children().len();
        if count == 0 {
            return;
        }
        let mut draws = Draws::new();
        for _ in 0..times {
            let _edited = self.make(node, draws.below(count), &new_child);
        }
    }

    fn make(self, node: &GreenNode, place: usize, new_child: &GreenElement) -> GreenNode {
        match self {
            Edit::Replace => node.replace_child(place, new_child.clone()),
            Edit::Insert => node.insert_child(place, new_child.clone()),
            Edit::Remove => node.remove_child(place),
            Edit::Splice => {
                node.splice_children(place..place + 1, [new_child.clone(), new_child.clone()])
            }
        }
    }
}

/// Clones a list of handles so often, and drops each clone.
pub fn copy_often(handles: &[GreenElement], times: usize) {
    for _ in 0..times {
        std::hint::black_box(handles.to_vec());
    }
}
