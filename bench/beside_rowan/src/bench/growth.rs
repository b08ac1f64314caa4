//! The calls of rowan_growth, as far as rowan has them, at the same trees.

use crate::json::Json;
use crate::sexp::{Atom, SyntaxElement, SyntaxKind, SyntaxNode};
use rowan::ast::{support, SyntaxNodePtr};
use rowan::{
    Direction, GreenNode, GreenNodeBuilder, GreenToken, NodeCache, NodeOrToken, SyntaxText,
    TextRange, TextSize, WalkEvent,
};
use std::collections::HashMap;
use std::hash::{DefaultHasher, Hash, Hasher};
use std::iter::successors;

/// The text of a token, unless it is empty.
const TEXT: &str = "word";

type GreenElement = NodeOrToken<GreenNode, GreenToken>;

/// What a call is made at.
pub struct Tree {
    shape: String,
    size: usize,
    green: GreenNode,
    twin: GreenNode,
    root: SyntaxNode,
    twin_root: SyntaxNode,
}

impl Tree {
    /// `None` if there is no such shape.
    pub fn new(shape: &str, size: usize) -> Option<Tree> {
        let green = green(shape, size)?;
        let twin = self::green(shape, size)?;
        let root = SyntaxNode::new_root(green.clone());
        let twin_root = SyntaxNode::new_root(twin.clone());
        Some(Tree { shape: shape.to_string(), size, green, twin, root, twin_root })
    }

    /// Makes a call once. `None` if rowan has no call of that name.
    pub fn make(&self, call: &str) -> Option<u64> {
        green_call(self, call)
            .or_else(|| list_call(self, call))
            .or_else(|| move_call(self, call))
            .or_else(|| text_call(self, call))
            .or_else(|| typed_call(self, call))
    }
}

fn green(shape: &str, size: usize) -> Option<GreenNode> {
    let children: Vec<GreenElement> = match shape {
        "wide" => (0..size).map(|_| node(SyntaxKind::ATOM, vec![token(TEXT)])).collect(),
        "flat" => (0..size).map(|_| token(TEXT)).collect(),
        "deep" => (1..size).fold(vec![token(TEXT)], |children, _| {
            vec![token(TEXT), node(SyntaxKind::LIST, children)]
        }),
        "empty" => {
            let nodes = || (0..size / 3).map(|_| node(SyntaxKind::ATOM, vec![]));
            let tokens = (0..size / 3).map(|_| token(""));
            let text = || [token(TEXT)].into_iter();
            text().chain(nodes()).chain(tokens).chain(text()).chain(nodes()).collect()
        }
        "shared" => {
            let list = node(SyntaxKind::LIST, vec![token(TEXT), token(TEXT)]);
            vec![list; size / 2]
        }
        _ => return None,
    };
    Some(GreenNode::new(SyntaxKind::ROOT.into(), children))
}

fn token(text: &str) -> GreenElement {
    NodeOrToken::Token(GreenToken::new(SyntaxKind::WORD.into(), text))
}

fn node(kind: SyntaxKind, children: Vec<GreenElement>) -> GreenElement {
    NodeOrToken::Node(GreenNode::new(kind.into(), children))
}

fn green_call(tree: &Tree, call: &str) -> Option<u64> {
    let count = |green: GreenNode| green.children().len() as u64;
    let number = match call {
        "new" => count(green(&tree.shape, tree.size)?),
        "build" => place_tokens(tree, &mut NodeCache::default()),
        "build_with_cache" => {
            let mut cache = NodeCache::default();
            place_tokens(tree, &mut cache) + place_tokens(tree, &mut cache)
        }
        "wrap" => wrap(tree.size),
        "children" => tree.green.children().map(len_of_ref).sum(),
        "children_nth" => {
            indexes(tree).filter_map(|it| tree.green.children().nth(it)).map(len_of_ref).sum()
        }
        "children_nth_back" => {
            indexes(tree).filter_map(|it| tree.green.children().nth_back(it)).map(len_of_ref).sum()
        }
        "children_last" => tree.green.children().last().map_or(0, len_of_ref),
        "children_count" => tree.green.children().count() as u64,
        "replace_child" => count(tree.green.replace_child(0, token(TEXT))),
        "insert_child" => count(tree.green.insert_child(0, token(TEXT))),
        "remove_child" => count(tree.green.remove_child(0)),
        "splice_children" => count(tree.green.splice_children(0..0, vec![token(TEXT); tree.size])),
        "green_eq_clone" => u64::from(tree.green == tree.green.clone()),
        "green_eq_twin" => u64::from(tree.green == tree.twin),
        "green_hash" => {
            let mut state = DefaultHasher::new();
            tree.green.hash(&mut state);
            state.finish() & 0
        }
        "green_display" => tree.green.to_string().len() as u64,
        _ => return None,
    };
    Some(number)
}

fn place_tokens(tree: &Tree, cache: &mut NodeCache) -> u64 {
    let mut builder = GreenNodeBuilder::with_cache(cache);
    builder.start_node(SyntaxKind::ROOT.into());
    for number in 0..tree.size {
        builder.token(SyntaxKind::WORD.into(), &number.to_string());
    }
    builder.finish_node();
    len_of(builder.finish().text_len())
}

fn wrap(size: usize) -> u64 {
    let mut builder = GreenNodeBuilder::new();
    let left = builder.checkpoint();
    for _ in 0..size {
        builder.start_node_at(left, SyntaxKind::ROOT.into());
        builder.token(SyntaxKind::WORD.into(), TEXT);
        builder.finish_node();
    }
    len_of(builder.finish().text_len())
}

fn len_of(size: TextSize) -> u64 {
    u64::from(u32::from(size))
}

fn len_of_ref(child: NodeOrToken<&rowan::GreenNodeData, &rowan::GreenTokenData>) -> u64 {
    match child {
        NodeOrToken::Node(node) => len_of(node.text_len()),
        NodeOrToken::Token(token) => len_of(token.text_len()),
    }
}

fn indexes(tree: &Tree) -> std::ops::Range<usize> {
    0..tree.green.children().len()
}

fn list_call(tree: &Tree, call: &str) -> Option<u64> {
    let root = &tree.root;
    let sum = |nodes: &mut dyn Iterator<Item = SyntaxNode>| nodes.map(|it| it.index() as u64).sum();
    let sum_all = |elements: &mut dyn Iterator<Item = SyntaxElement>| {
        elements.map(|it| it.index() as u64).sum()
    };
    let number = match call {
        "new_root" => len_of(SyntaxNode::new_root(tree.green.clone()).text_range().len()),
        "clone_subtree" => len_of(root.clone_subtree().text_range().len()),
        "preorder_with_tokens" => root.preorder_with_tokens().count() as u64,
        "preorder" => root.preorder().count() as u64,
        "skip_subtree" => skip_subtree(root),
        "descendants" => sum(&mut root.descendants()),
        "descendants_with_tokens" => sum_all(&mut root.descendants_with_tokens()),
        "cursor_children" => sum(&mut root.children()),
        "children_with_tokens" => sum_all(&mut root.children_with_tokens()),
        "siblings" => root.last_child().map_or(0, |it| sum(&mut it.siblings(Direction::Prev))),
        "siblings_with_tokens" => root
            .first_token()
            .map_or(0, |it| sum_all(&mut it.siblings_with_tokens(Direction::Next))),
        "ancestors" => root
            .last_token()
            .map_or(0, |it| it.parent_ancestors().map(|node| node.index() as u64 + 1).sum()),
        "cursor_eq" => u64::from(*root == root.clone()),
        "cursor_eq_twin" => u64::from(*root == tree.twin_root),
        "parent_eq_root" => {
            let parents = root.children_with_tokens().filter_map(|it| it.parent());
            parents.filter(|parent| parent == root).count() as u64
        }
        "nodes_in_a_map" => {
            let places: HashMap<SyntaxNode, usize> =
                root.descendants().map(|node| (node.clone(), node.index())).collect();
            places.len() as u64
        }
        "replace_with" => root.last_token().map_or(0, |token| {
            let new = GreenToken::new(token.kind().into(), "other");
            len_of(token.replace_with(new).text_len())
        }),
        _ => return None,
    };
    Some(number)
}

fn skip_subtree(root: &SyntaxNode) -> u64 {
    let mut walk = root.preorder();
    let mut events = 0;
    while let Some(event) = walk.next() {
        if matches!(event, WalkEvent::Enter(node) if node.index() % 2 == 1) {
            walk.skip_subtree();
        }
        events += 1;
    }
    events
}

fn move_call(tree: &Tree, call: &str) -> Option<u64> {
    let root = &tree.root;
    let len = u32::from(tree.green.text_len());
    let middle = TextSize::from(len / 2);
    let number = match call {
        "first_token" => root.first_token().map_or(0, |it| it.index() as u64),
        "last_token" => root.last_token().map_or(0, |it| it.index() as u64),
        "next_token" => successors(root.first_token(), |it| it.next_token()).count() as u64,
        "prev_token" => successors(root.last_token(), |it| it.prev_token()).count() as u64,
        "next_sibling" => successors(root.first_child(), |it| it.next_sibling()).count() as u64,
        "prev_sibling" => successors(root.last_child(), |it| it.prev_sibling()).count() as u64,
        "next_sibling_or_token" => {
            successors(root.first_child_or_token(), |it| it.next_sibling_or_token()).count() as u64
        }
        "prev_sibling_or_token" => {
            successors(root.last_child_or_token(), |it| it.prev_sibling_or_token()).count() as u64
        }
        "first_child" => successors(root.first_child(), |it| it.first_child()).count() as u64,
        "last_child" => successors(root.last_child(), |it| it.last_child()).count() as u64,
        "tree_top" => root.last_token().map_or(0, |it| top_len(&it)),
        "child_or_token_at_range" => (0..len)
            .step_by(4)
            .filter_map(|it| root.child_or_token_at_range(TextRange::empty(it.into())))
            .map(|it| len_of(it.text_range().len()))
            .sum(),
        "token_at_offset" => {
            let found = root.token_at_offset(middle).right_biased();
            found.map_or(0, |it| len_of(it.text_range().start()))
        }
        "covering_element" => {
            len_of(root.covering_element(TextRange::empty(middle)).text_range().len())
        }
        _ => return None,
    };
    Some(number)
}

fn top_len(token: &rowan::SyntaxToken<crate::sexp::Lang>) -> u64 {
    let top = token.parent_ancestors().last();
    top.map_or(0, |it| len_of(it.text_range().len()))
}

fn text_call(tree: &Tree, call: &str) -> Option<u64> {
    let text = tree.root.text();
    let number = match call {
        "to_text" => text.to_string().len() as u64,
        "find_char" => text.find_char('?').map_or(0, len_of),
        "find_char_at_start" => text.find_char('w').map_or(0, len_of),
        "contains_char" => u64::from(text.contains_char('?')),
        "contains_char_at_start" => u64::from(text.contains_char('w')),
        "char_at" => offsets(&text).filter(|it| text.char_at(*it).is_some()).count() as u64,
        "char_at_start" => u64::from(text.char_at(0.into()).is_some()),
        "slice" => offsets(&text).map(|it| len_of(text.slice(it..).len())).sum(),
        "eq_str" => u64::from(text == tree.green.to_string().as_str()),
        "text_eq" => u64::from(text == tree.twin_root.text()),
        "for_each_chunk" => {
            let mut bytes = 0;
            text.for_each_chunk(|chunk| bytes += chunk.len() as u64);
            bytes
        }
        "first_chunk" => {
            text.try_for_each_chunk(|chunk| Err(chunk.len() as u64)).err().unwrap_or(0)
        }
        _ => return None,
    };
    Some(number)
}

fn offsets(text: &SyntaxText) -> impl Iterator<Item = TextSize> {
    (0..u32::from(text.len())).step_by(4).map(TextSize::from)
}

fn typed_call(tree: &Tree, call: &str) -> Option<u64> {
    let root = &tree.root;
    let number = match call {
        "support_child" => u64::from(support::child::<Atom>(root).is_some()),
        "support_children" => support::children::<Atom>(root).count() as u64,
        "support_token" => u64::from(support::token(root, SyntaxKind::ERROR).is_some()),
        "pointers" => {
            let found =
                root.descendants().filter_map(|it| SyntaxNodePtr::new(&it).try_to_node(root));
            found.map(|it| len_of(it.text_range().start())).sum()
        }
        "debug_tree" => format!("{root:#?}").len() as u64,
        "to_json_string" => {
            let element = NodeOrToken::Node(root.clone());
            serde_json::to_string(&Json(&element)).map_or(0, |it| it.len() as u64)
        }
        "nothing" => 0,
        _ => return None,
    };
    Some(number)
}
