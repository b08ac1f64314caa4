//! Building and parsing, with a new cache and with one that has seen it all.

use rowan::{GreenNode, GreenNodeBuilder, NodeCache, SyntaxKind};

const LIST: SyntaxKind = SyntaxKind(5);

const WORD: SyntaxKind = SyntaxKind(2);

const ROOT: SyntaxKind = SyntaxKind(7);

/// How many tokens of a built tree have one text.
const TOKENS_OF_TEXT: usize = 10;

/// How many tokens a node of a built tree has.
const TOKENS_IN_NODE: usize = 3;

/// The texts of that many tokens, which are made before the time is taken.
pub fn texts(tokens: usize) -> Vec<String> {
    (0..tokens / TOKENS_OF_TEXT + 1).map(|number| format!("word{number}")).collect()
}

/// Builds a root over nodes of three tokens each, with that many tokens.
pub fn build(cache: &mut NodeCache, texts: &[String], tokens: usize) -> GreenNode {
    let mut builder = GreenNodeBuilder::with_cache(cache);
    builder.start_node(ROOT);
    for node in 0..tokens / TOKENS_IN_NODE {
        builder.start_node(LIST);
        for place in 0..TOKENS_IN_NODE {
            let number = node * TOKENS_IN_NODE + place;
            builder.token(WORD, &texts[number % texts.len()]);
        }
        builder.finish_node();
    }
    builder.finish_node();
    builder.finish()
}

/// Interns that many tokens, no two equal. The builder is dropped with what it holds, and the cache stays.
pub fn intern_tokens(cache: &mut NodeCache, count: usize) {
    for number in 0..count {
        let text = format!("{number:08}");
        let mut builder = GreenNodeBuilder::with_cache(cache);
        builder.token(WORD, &text);
    }
}

/// Interns that many nodes of two tokens, no two equal, over about as many tokens as the root of that number.
pub fn intern_nodes(cache: &mut NodeCache, count: usize) {
    for number in 0..count {
        let first = (number / 1000).to_string();
        let second = (number % 1000).to_string();
        let mut builder = GreenNodeBuilder::with_cache(cache);
        builder.start_node(LIST);
        builder.token(WORD, &first);
        builder.token(WORD, &second);
        builder.finish_node();
    }
}
