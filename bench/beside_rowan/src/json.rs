//! Trees as JSON: a node is a map of `children`, `kind` and `text_range`, a token one of `kind`, `text` and `text_range`, in this
//! order of the keys, as the port has them. rowan's own serializer, which one of its features adds, writes the same entries in
//! another order.

use crate::sexp::{SyntaxElement, SyntaxNode};
use rowan::{NodeOrToken, TextRange};
use serde::ser::{Serialize, SerializeMap, Serializer};

/// An element of a tree, to be serialized.
pub struct Json<'a>(pub &'a SyntaxElement);

impl Serialize for Json<'_> {
    fn serialize<S: Serializer>(&self, serializer: S) -> Result<S::Ok, S::Error> {
        let mut map = serializer.serialize_map(Some(3))?;
        match self.0 {
            NodeOrToken::Node(node) => {
                map.serialize_entry("children", &Children(node))?;
                map.serialize_entry("kind", node.kind().name())?;
            }
            NodeOrToken::Token(token) => {
                map.serialize_entry("kind", token.kind().name())?;
                map.serialize_entry("text", token.text())?;
            }
        }
        map.serialize_entry("text_range", &offsets(self.0.text_range()))?;
        map.end()
    }
}

/// The children of a node, tokens too.
struct Children<'a>(&'a SyntaxNode);

impl Serialize for Children<'_> {
    fn serialize<S: Serializer>(&self, serializer: S) -> Result<S::Ok, S::Error> {
        collect(serializer, self.0)
    }
}

fn collect<S: Serializer>(serializer: S, node: &SyntaxNode) -> Result<S::Ok, S::Error> {
    use serde::ser::SerializeSeq;
    let mut list = serializer.serialize_seq(None)?;
    for child in node.children_with_tokens() {
        list.serialize_element(&Json(&child))?;
    }
    list.end()
}

fn offsets(range: TextRange) -> [u32; 2] {
    [range.start().into(), range.end().into()]
}

/// The compact text, which the serializer writes as it goes through the tree.
pub fn text(root: &SyntaxNode) -> serde_json::Result<String> {
    serde_json::to_string(&Json(&root.clone().into()))
}

/// The same text by way of a value of the whole tree, as the port makes it.
pub fn text_of_value(root: &SyntaxNode) -> serde_json::Result<String> {
    let value = serde_json::to_value(Json(&root.clone().into()))?;
    serde_json::to_string(&value)
}
