//! S-expressions over rowan: their kinds, their lexer, their parser, the wrappers of their nodes, and what they read as numbers.
//! The trees are those that the port's crate rowan_tool makes.

use rowan::ast::{support, AstChildren, AstNode};
use rowan::{GreenNode, GreenNodeBuilder, NodeCache};

/// The kind of a token or a node of an s-expression.
#[allow(non_camel_case_types, clippy::upper_case_acronyms)]
#[derive(Clone, Copy, PartialEq, Eq, PartialOrd, Ord, Hash, Debug)]
#[repr(u16)]
pub enum SyntaxKind {
    L_PAREN = 0,
    R_PAREN = 1,
    WORD = 2,
    WHITESPACE = 3,
    /// A node around a `)` that closes no list.
    ERROR = 4,
    LIST = 5,
    /// A node around one word.
    ATOM = 6,
    ROOT = 7,
}

impl SyntaxKind {
    /// The kind's name, as `{:?}` prints it.
    pub fn name(self) -> &'static str {
        match self {
            SyntaxKind::L_PAREN => "L_PAREN",
            SyntaxKind::R_PAREN => "R_PAREN",
            SyntaxKind::WORD => "WORD",
            SyntaxKind::WHITESPACE => "WHITESPACE",
            SyntaxKind::ERROR => "ERROR",
            SyntaxKind::LIST => "LIST",
            SyntaxKind::ATOM => "ATOM",
            SyntaxKind::ROOT => "ROOT",
        }
    }
}

impl From<SyntaxKind> for rowan::SyntaxKind {
    fn from(kind: SyntaxKind) -> rowan::SyntaxKind {
        rowan::SyntaxKind(kind as u16)
    }
}

/// The language of s-expressions.
#[derive(Clone, Copy, PartialEq, Eq, PartialOrd, Ord, Hash, Debug)]
pub enum Lang {}

impl rowan::Language for Lang {
    type Kind = SyntaxKind;

    fn kind_from_raw(raw: rowan::SyntaxKind) -> SyntaxKind {
        match raw.0 {
            0 => SyntaxKind::L_PAREN,
            1 => SyntaxKind::R_PAREN,
            2 => SyntaxKind::WORD,
            3 => SyntaxKind::WHITESPACE,
            5 => SyntaxKind::LIST,
            6 => SyntaxKind::ATOM,
            7 => SyntaxKind::ROOT,
            _ => SyntaxKind::ERROR,
        }
    }

    fn kind_to_raw(kind: SyntaxKind) -> rowan::SyntaxKind {
        kind.into()
    }
}

pub type SyntaxNode = rowan::SyntaxNode<Lang>;
pub type SyntaxElement = rowan::SyntaxElement<Lang>;

/// The kind of a token and its text.
type Token<'a> = (SyntaxKind, &'a str);

/// Cuts the first token off a text, and gives what is behind it: a parenthesis, or the longest run of white space or of other
/// characters. As the port's parser does, so that neither has a list of tokens beside the tree.
fn split_token(text: &str) -> Option<(Token<'_>, &str)> {
    let (kind, len) = first_token(text)?;
    let (token, rest) = text.split_at(len);
    Some(((kind, token), rest))
}

/// The kind of the first token and its length in bytes, unless the text is empty.
fn first_token(text: &str) -> Option<(SyntaxKind, usize)> {
    match text.chars().next()? {
        '(' => Some((SyntaxKind::L_PAREN, 1)),
        ')' => Some((SyntaxKind::R_PAREN, 1)),
        first if first.is_whitespace() => {
            Some((SyntaxKind::WHITESPACE, len_before(text, |c| !c.is_whitespace())))
        }
        _ => Some((SyntaxKind::WORD, len_before(text, ends_word))),
    }
}

/// How many bytes stand before the first character of a sort.
fn len_before(text: &str, ends: impl Fn(char) -> bool) -> usize {
    text.find(ends).unwrap_or(text.len())
}

fn ends_word(c: char) -> bool {
    c == '(' || c == ')' || c.is_whitespace()
}

/// Parses a text. A list that is never closed runs to its end, and a parenthesis that closes no list stands in a node of its own.
pub fn parse(text: &str) -> GreenNode {
    parse_with(text, &mut NodeCache::default())
}

/// Parses a text with a cache.
pub fn parse_with(text: &str, cache: &mut NodeCache) -> GreenNode {
    let mut builder = GreenNodeBuilder::with_cache(cache);
    builder.start_node(SyntaxKind::ROOT.into());
    let mut open_lists = 0;
    let mut rest = text;
    while let Some(((kind, token), others)) = split_token(rest) {
        open_lists = place(&mut builder, open_lists, kind, token);
        rest = others;
    }
    for _list in 0..open_lists {
        builder.finish_node();
    }
    builder.finish_node();
    builder.finish()
}

/// Puts a token where it belongs, and answers how many lists are open then.
fn place(
    builder: &mut GreenNodeBuilder<'_>,
    open_lists: usize,
    kind: SyntaxKind,
    text: &str,
) -> usize {
    match kind {
        SyntaxKind::L_PAREN => {
            builder.start_node(SyntaxKind::LIST.into());
            builder.token(kind.into(), text);
            open_lists + 1
        }
        SyntaxKind::R_PAREN if open_lists > 0 => {
            builder.token(kind.into(), text);
            builder.finish_node();
            open_lists - 1
        }
        SyntaxKind::R_PAREN => place_alone(builder, open_lists, SyntaxKind::ERROR, kind, text),
        SyntaxKind::WORD => place_alone(builder, open_lists, SyntaxKind::ATOM, kind, text),
        _ => {
            builder.token(kind.into(), text);
            open_lists
        }
    }
}

/// Puts a node around one token.
fn place_alone(
    builder: &mut GreenNodeBuilder<'_>,
    open_lists: usize,
    node: SyntaxKind,
    kind: SyntaxKind,
    text: &str,
) -> usize {
    builder.start_node(node.into());
    builder.token(kind.into(), text);
    builder.finish_node();
    open_lists
}

/// The node of a whole text.
pub struct Root {
    syntax: SyntaxNode,
}

/// An expression: an atom or a list.
pub enum Sexp {
    Atom(Atom),
    List(List),
}

/// The node around one word.
pub struct Atom {
    syntax: SyntaxNode,
}

/// The node of what stands between two parentheses, and of these.
pub struct List {
    syntax: SyntaxNode,
}

macro_rules! wraps {
    ($wrapper:ident, $kind:path) => {
        impl AstNode for $wrapper {
            type Language = Lang;

            fn can_cast(kind: SyntaxKind) -> bool {
                kind == $kind
            }

            fn cast(syntax: SyntaxNode) -> Option<Self> {
                Self::can_cast(syntax.kind()).then_some($wrapper { syntax })
            }

            fn syntax(&self) -> &SyntaxNode {
                &self.syntax
            }
        }
    };
}

wraps!(Root, SyntaxKind::ROOT);
wraps!(Atom, SyntaxKind::ATOM);
wraps!(List, SyntaxKind::LIST);

impl AstNode for Sexp {
    type Language = Lang;

    fn can_cast(kind: SyntaxKind) -> bool {
        matches!(kind, SyntaxKind::ATOM | SyntaxKind::LIST)
    }

    fn cast(syntax: SyntaxNode) -> Option<Self> {
        match syntax.kind() {
            SyntaxKind::ATOM => Some(Sexp::Atom(Atom { syntax })),
            SyntaxKind::LIST => Some(Sexp::List(List { syntax })),
            _ => None,
        }
    }

    fn syntax(&self) -> &SyntaxNode {
        match self {
            Sexp::Atom(atom) => atom.syntax(),
            Sexp::List(list) => list.syntax(),
        }
    }
}

impl Root {
    pub fn sexps(&self) -> AstChildren<Sexp> {
        support::children(&self.syntax)
    }
}

impl Sexp {
    /// The number that the expression reads.
    pub fn eval(&self) -> Option<i64> {
        match self {
            Sexp::Atom(atom) => atom.text()?.parse().ok(),
            Sexp::List(list) => list.eval(),
        }
    }
}

impl Atom {
    /// The atom's word.
    fn text(&self) -> Option<String> {
        let token = self.syntax.first_child_or_token()?.into_token()?;
        Some(token.text().to_string())
    }
}

impl List {
    /// What the first expression gives for the second and the third.
    fn eval(&self) -> Option<i64> {
        let mut sexps = support::children::<Sexp>(&self.syntax);
        let Sexp::Atom(operator) = sexps.next()? else {
            return None;
        };
        let apply = match operator.text()?.as_str() {
            "+" => i64::checked_add,
            "-" => i64::checked_sub,
            "*" => i64::checked_mul,
            "/" => i64::checked_div,
            _ => return None,
        };
        let (left, right) = (sexps.next()?, sexps.next()?);
        apply(left.eval()?, right.eval()?)
    }
}
