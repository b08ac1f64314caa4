//! Walks, searches by place, and texts, over a tree that is there.

use super::draws::Draws;
use rowan::cursor::SyntaxNode;
use rowan::{TextRange, TextSize};
use std::time::{Duration, Instant};

/// How many searches are made in one turn.
const SEARCHES: usize = 10_000;

/// A range whose covering element is searched is shorter than this many bytes.
const RANGE_LIMIT: usize = 64;

/// A character that no text here has.
const ABSENT: char = '\u{1}';

/// What is timed, in each of many turns.
#[derive(Clone, Copy)]
pub enum Operation {
    /// All events of a walk with tokens are gone through.
    Events,
    /// The tokens at offsets that are drawn are searched.
    Offset,
    /// The elements that cover ranges that are drawn are searched.
    Cover,
    /// The text is copied.
    Copy,
    /// A character is searched that the text has not.
    Find,
    /// The text is compared with an equal one.
    Equal,
}

impl Operation {
    /// The operation of that name.
    pub fn from_word(word: &str) -> Option<Operation> {
        match word {
            "events" => Some(Operation::Events),
            "offset" => Some(Operation::Offset),
            "cover" => Some(Operation::Cover),
            "copy" => Some(Operation::Copy),
            "find" => Some(Operation::Find),
            "equal" => Some(Operation::Equal),
            _ => None,
        }
    }
}

/// The offsets of a turn, in a text of so many bytes.
pub fn drawn_offsets(len: u32) -> Vec<TextSize> {
    let mut draws = Draws::new();
    (0..SEARCHES).map(|_| TextSize::from(draws.below(len as usize + 1) as u32)).collect()
}

/// The ranges of a turn, in a text of so many bytes.
fn drawn_ranges(len: u32) -> Vec<TextRange> {
    let mut draws = Draws::new();
    let mut ranges = Vec::with_capacity(SEARCHES);
    for _ in 0..SEARCHES {
        let start = draws.below(len as usize + 1) as u32;
        let bytes = (draws.below(RANGE_LIMIT) as u32).min(len - start);
        ranges.push(TextRange::at(TextSize::from(start), TextSize::from(bytes)));
    }
    ranges
}

/// Searches the token at each offset, and answers the sum of their indexes. Of two tokens it takes the right one.
fn search_offsets(root: &SyntaxNode, offsets: &[TextSize]) -> u64 {
    let found = offsets.iter().filter_map(|it| root.token_at_offset(*it).right_biased());
    found.map(|token| token.index() as u64).sum()
}

/// Searches the element that covers each range, and answers the sum of their indexes.
fn search_ranges(root: &SyntaxNode, ranges: &[TextRange]) -> u64 {
    ranges.iter().map(|range| root.covering_element(*range).index() as u64).sum()
}

/// What a turn of an operation needs, which is made before the time is taken.
enum Turn<'a> {
    Events,
    Offset(Vec<TextSize>),
    Cover(Vec<TextRange>),
    Copy,
    Find,
    Equal(&'a str),
}

/// What a turn made: a number, which is the same in every implementation, or a text.
enum Made {
    Number(u64),
    Text(String),
}

impl Made {
    /// The number, or the length of the text.
    fn number(&self) -> u64 {
        match self {
            Made::Number(number) => *number,
            Made::Text(text) => text.len() as u64,
        }
    }
}

impl<'a> Turn<'a> {
    fn new(text: &'a str, len: u32, operation: Operation) -> Turn<'a> {
        match operation {
            Operation::Events => Turn::Events,
            Operation::Offset => Turn::Offset(drawn_offsets(len)),
            Operation::Cover => Turn::Cover(drawn_ranges(len)),
            Operation::Copy => Turn::Copy,
            Operation::Find => Turn::Find,
            Operation::Equal => Turn::Equal(text),
        }
    }

    fn take(&self, root: &SyntaxNode) -> Made {
        match self {
            Turn::Events => Made::Number(root.preorder_with_tokens().count() as u64),
            Turn::Offset(offsets) => Made::Number(search_offsets(root, offsets)),
            Turn::Cover(ranges) => Made::Number(search_ranges(root, ranges)),
            Turn::Copy => Made::Text(root.text().to_string()),
            Turn::Find => Made::Number(root.text().find_char(ABSENT).is_some().into()),
            Turn::Equal(text) => Made::Number((root.text() == **text).into()),
        }
    }
}

/// Times an operation over the tree of a text, and answers the time of all turns and the number of the last one. What a turn makes
/// is dropped after its time was taken.
pub fn time(root: &SyntaxNode, text: &str, operation: Operation, turns: usize) -> (Duration, u64) {
    let turn = Turn::new(text, root.text_range().len().into(), operation);
    let mut total = Duration::ZERO;
    let mut number = 0;
    for _ in 0..turns {
        let start = Instant::now();
        let made = turn.take(root);
        total += start.elapsed();
        number = made.number();
    }
    (total, number)
}
