//! A cursor at a root, a walk through all of the tree, and random moves.

use super::draws::Draws;
use rowan::cursor::{SyntaxElement, SyntaxNode};
use rowan::{GreenNode, NodeOrToken, TextSize};
use std::time::{Duration, Instant};

/// How many moves are made in one turn.
const MOVES: usize = 1_000_000;

/// What is timed, in each of many turns.
#[derive(Clone, Copy)]
pub enum Operation {
    /// A cursor at the root is made, and is dropped after its time was taken.
    Fill,
    /// A cursor at the root is made, one walk goes from it, and all is dropped.
    Whole,
    /// A walk goes from a root that is there.
    Walk,
    /// Moves are made from a root that is there, between nodes and tokens.
    Move,
    /// Moves are made from a root that is there, between nodes.
    Nodes,
}

impl Operation {
    /// The operation of that name.
    pub fn from_word(word: &str) -> Option<Operation> {
        match word {
            "fill" => Some(Operation::Fill),
            "whole" => Some(Operation::Whole),
            "walk" => Some(Operation::Walk),
            "move" => Some(Operation::Move),
            "nodes" => Some(Operation::Nodes),
            _ => None,
        }
    }
}

/// What a turn went through: how many places, and where the text of the last one starts.
#[derive(Clone, Copy)]
pub struct Visited {
    pub places: u64,
    pub last: TextSize,
}

/// One of the moves that are drawn.
#[derive(Clone, Copy)]
enum Move {
    Parent,
    FirstChild,
    LastChild,
    Next,
    Previous,
}

impl Move {
    /// The move of a draw below 5.
    fn from_draw(draw: usize) -> Move {
        match draw {
            0 => Move::Parent,
            1 => Move::FirstChild,
            2 => Move::LastChild,
            3 => Move::Next,
            _ => Move::Previous,
        }
    }

    /// Where it leads, if anywhere.
    fn leads_from(self, place: &SyntaxElement) -> Option<SyntaxElement> {
        match (self, place) {
            (Move::Parent, _) => place.parent().map(SyntaxElement::from),
            (Move::FirstChild, NodeOrToken::Node(node)) => node.first_child_or_token(),
            (Move::LastChild, NodeOrToken::Node(node)) => node.last_child_or_token(),
            (Move::FirstChild | Move::LastChild, NodeOrToken::Token(_)) => None,
            (Move::Next, _) => place.next_sibling_or_token(),
            (Move::Previous, _) => place.prev_sibling_or_token(),
        }
    }
}

/// The moves of a turn.
fn drawn_moves() -> Vec<Move> {
    let mut draws = Draws::new();
    (0..MOVES).map(|_| Move::from_draw(draws.below(5))).collect()
}

/// Makes the moves one after the other. Where one leads nowhere the cursor stays.
fn make_moves(root: &SyntaxNode, moves: &[Move]) -> Visited {
    let mut places = 1;
    let mut place = SyntaxElement::from(root.clone());
    for to in moves {
        if let Some(next) = to.leads_from(&place) {
            place = next;
            places += 1;
        }
    }
    Visited { places, last: place.text_range().start() }
}

/// One of the moves between nodes that are drawn.
#[derive(Clone, Copy)]
enum NodeMove {
    Parent,
    NextSibling,
    FirstChild,
}

impl NodeMove {
    /// The move of a draw below 3.
    fn from_draw(draw: usize) -> NodeMove {
        match draw {
            0 => NodeMove::Parent,
            1 => NodeMove::NextSibling,
            _ => NodeMove::FirstChild,
        }
    }

    /// Where it leads, if anywhere.
    fn leads_from(self, node: &SyntaxNode) -> Option<SyntaxNode> {
        match self {
            NodeMove::Parent => node.parent(),
            NodeMove::NextSibling => node.next_sibling(),
            NodeMove::FirstChild => node.first_child(),
        }
    }
}

/// The moves of a turn between nodes.
fn drawn_node_moves() -> Vec<NodeMove> {
    let mut draws = Draws::new();
    (0..MOVES).map(|_| NodeMove::from_draw(draws.below(3))).collect()
}

/// Makes the moves between nodes one after the other. Where one leads nowhere the cursor stays.
fn make_node_moves(root: &SyntaxNode, moves: &[NodeMove]) -> Visited {
    let mut places = 1;
    let mut node = root.clone();
    for to in moves {
        if let Some(next) = to.leads_from(&node) {
            node = next;
            places += 1;
        }
    }
    Visited { places, last: node.text_range().start() }
}

/// Walks from a root to each node and token, from parent to first child, and from sibling to sibling.
fn walk(root: &SyntaxNode) -> Visited {
    let mut places = 0;
    let mut place = SyntaxElement::from(root.clone());
    loop {
        places += 1;
        match next_of(&place) {
            Some(next) => place = next,
            None => break,
        }
    }
    Visited { places, last: place.text_range().start() }
}

/// The place behind another one in the order of the text, where a node stands before its children.
fn next_of(place: &SyntaxElement) -> Option<SyntaxElement> {
    if let NodeOrToken::Node(node) = place {
        if let Some(child) = node.first_child_or_token() {
            return Some(child);
        }
    }
    if let Some(next) = place.next_sibling_or_token() {
        return Some(next);
    }
    let mut above = place.parent();
    while let Some(node) = above {
        if let Some(next) = node.next_sibling_or_token() {
            return Some(next);
        }
        above = node.parent();
    }
    None
}

/// What a turn of an operation needs, which is made before the time is taken.
enum Turn {
    Fill,
    Whole,
    Walk(SyntaxNode),
    Move(SyntaxNode, Vec<Move>),
    Nodes(SyntaxNode, Vec<NodeMove>),
}

/// What a turn made.
enum Made {
    Root(#[allow(dead_code)] SyntaxNode),
    Visited(Visited),
}

impl Turn {
    fn new(green: &GreenNode, operation: Operation) -> Turn {
        match operation {
            Operation::Fill => Turn::Fill,
            Operation::Whole => Turn::Whole,
            Operation::Walk => Turn::Walk(root_of(green)),
            Operation::Move => Turn::Move(root_of(green), drawn_moves()),
            Operation::Nodes => Turn::Nodes(root_of(green), drawn_node_moves()),
        }
    }

    fn take(&self, green: &GreenNode) -> Made {
        match self {
            Turn::Fill => Made::Root(root_of(green)),
            Turn::Whole => Made::Visited(walk(&root_of(green))),
            Turn::Walk(root) => Made::Visited(walk(root)),
            Turn::Move(root, moves) => Made::Visited(make_moves(root, moves)),
            Turn::Nodes(root, moves) => Made::Visited(make_node_moves(root, moves)),
        }
    }
}

/// A cursor at the root of a tree.
fn root_of(green: &GreenNode) -> SyntaxNode {
    SyntaxNode::new_root(green.clone())
}

/// Times an operation, and answers the time of all turns and what the last one visited. What a turn makes is dropped after its
/// time was taken.
pub fn time(green: &GreenNode, operation: Operation, turns: usize) -> (Duration, Option<Visited>) {
    let turn = Turn::new(green, operation);
    let mut total = Duration::ZERO;
    let mut visited = None;
    for _ in 0..turns {
        let start = Instant::now();
        let made = turn.take(green);
        total += start.elapsed();
        if let Made::Visited(places) = made {
            visited = Some(places);
        }
    }
    (total, visited)
}
