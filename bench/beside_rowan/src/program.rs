//! What the program rowan does: reads a text on standard input, and prints what its one argument asks for.

use crate::sexp::{parse, Root, SyntaxNode};
use crate::{json, Failure};
use rowan::ast::AstNode;
use std::fmt::Write as _;
use std::io::{Read, Write};

/// Prints the tree as text, as JSON on one line, or a line for each expression. All of it is made before it is written.
pub fn run(command: &str) -> Result<(), Failure> {
    let mut text = String::new();
    std::io::stdin().read_to_string(&mut text)?;
    let root = SyntaxNode::new_root(parse(&text));
    let shown = match command {
        "tree" => format!("{root:#?}"),
        "json" => json::text(&root)? + "\n",
        _ => value_lines(root)?,
    };
    let mut output = std::io::stdout().lock();
    output.write_all(shown.as_bytes())?;
    output.flush()?;
    Ok(())
}

/// A line for each expression, in order: the number that it reads, or `none`.
fn value_lines(root: SyntaxNode) -> Result<String, Failure> {
    let root = Root::cast(root).ok_or("the tree has no root")?;
    let mut lines = String::new();
    for sexp in root.sexps() {
        match sexp.eval() {
            Some(number) => writeln!(lines, "{number}")?,
            None => lines.push_str("none\n"),
        }
    }
    Ok(lines)
}
