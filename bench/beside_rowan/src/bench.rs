//! The commands of rowan_bench.

mod children;
mod cursors;
mod depth;
mod draws;
mod edits;
mod growth;
mod printed;
mod reparse;
mod timed;
mod typed;
mod walks;

use crate::{sexp, Failure};
use rowan::cursor::SyntaxNode;
use rowan::{NodeCache, TextSize};
use std::io::Read;
use std::time::Instant;

const HELP: &str = "\
usage: beside_rowan tree|json|eval
       beside_rowan depth parse|compare|show LEVELS
       beside_rowan build TOKENS
       beside_rowan parse
       beside_rowan keep
       beside_rowan intern tokens|nodes COUNT
       beside_rowan reach shared|own CHILDREN TIMES
       beside_rowan edit shared|own CHILDREN TIMES
       beside_rowan cursors fill|whole|walk|move|nodes TURNS
       beside_rowan walks events|offset|cover|copy|find|equal TURNS
       beside_rowan typed raw|walk|pointers TURNS
       beside_rowan edits replace|root|trace|cursors|green TURNS
       beside_rowan printed debug_tree|json|value TURNS
       beside_rowan reparse list|table|whole TURNS
       beside_rowan growth CALL SHAPE SIZE TIMES

The first line is what the program rowan does, and the last what rowan_growth does. The others do what rowan_bench does by the
same words, and write the same lines, but for what rowan does not tell: a cache's counts and the comparisons of a search. There
is no `search`: rowan keeps `child_at_range` of a green node to itself, and `reach` makes these searches by a cursor at the node.
Those who want the green search alone make that function public in their copy of the sources.

`edits trace` keeps each token that was found and each new root, as the port's trace does, since rowan has no such call.
`printed json` serializes the tree itself, by serde_json's `to_string`; `printed value` makes a value of the tree first, as the
port does, and then its text.";

pub fn run(words: &[&str]) -> Result<(), Failure> {
    let Some(command) = words.first() else {
        println!("{HELP}");
        return Ok(());
    };
    match *command {
        "depth" => nest(words),
        "build" => build(number_at(words, 1)?),
        "parse" => parse(),
        "keep" => keep(),
        "intern" => intern(words),
        "reach" => reach(words),
        "edit" => edit(words),
        "cursors" => move_cursors(words),
        "walks" => walk(words),
        "typed" => walk_typed(words),
        "edits" => replace(words),
        "printed" => print(words),
        "reparse" => parse_anew(words),
        "growth" => grow(words),
        _ => Err("there is no such command".into()),
    }
}

/// The word at a place; an empty one where there is none.
fn word_at<'a>(words: &[&'a str], place: usize) -> &'a str {
    words.get(place).copied().unwrap_or_default()
}

fn number_at(words: &[&str], place: usize) -> Result<usize, Failure> {
    word_at(words, place).parse().map_err(|_| "a number is missing".into())
}

/// Makes a call of rowan_growth so many times. A call that rowan has not is said by `none`.
fn grow(words: &[&str]) -> Result<(), Failure> {
    let (size, times) = (number_at(words, 3)?, number_at(words, 4)?);
    let tree = growth::Tree::new(word_at(words, 2), size).ok_or("there is no such shape")?;
    let mut sum = 0;
    for _ in 0..times {
        let Some(number) = tree.make(word_at(words, 1)) else {
            println!("none");
            return Ok(());
        };
        sum += number;
    }
    println!("{sum}");
    Ok(())
}

fn read_input() -> Result<String, Failure> {
    let mut text = String::new();
    std::io::stdin().read_to_string(&mut text)?;
    Ok(text)
}

fn nest(words: &[&str]) -> Result<(), Failure> {
    let operation = depth::Operation::from_word(word_at(words, 1))
        .ok_or("parse, compare or show is missing")?;
    let levels = number_at(words, 2)?;
    let bytes = operation.run(levels)?;
    println!("{levels} levels, {bytes} bytes");
    Ok(())
}

fn build(tokens: usize) -> Result<(), Failure> {
    let texts = timed::texts(tokens);
    let mut cache = NodeCache::default();
    for state in ["new", "warm"] {
        let start = Instant::now();
        let tree = timed::build(&mut cache, &texts, tokens);
        tell(state, start, tree.text_len());
    }
    Ok(())
}

fn parse() -> Result<(), Failure> {
    let text = read_input()?;
    let mut cache = NodeCache::default();
    for state in ["new", "warm"] {
        let start = Instant::now();
        let tree = sexp::parse_with(&text, &mut cache);
        tell(state, start, tree.text_len());
    }
    Ok(())
}

/// Parses a text once. The tree stays until its length was printed, and there is no cursor.
fn keep() -> Result<(), Failure> {
    let text = read_input()?;
    let tree = sexp::parse(&text);
    println!("{} bytes", u32::from(tree.text_len()));
    Ok(())
}

fn intern(words: &[&str]) -> Result<(), Failure> {
    let count = number_at(words, 2)?;
    let mut cache = NodeCache::default();
    let start = Instant::now();
    match word_at(words, 1) {
        "tokens" => timed::intern_tokens(&mut cache, count),
        "nodes" => timed::intern_nodes(&mut cache, count),
        _ => return Err("tokens or nodes is missing".into()),
    }
    tell("new", start, TextSize::from(0));
    Ok(())
}

/// The tokens that the words ask for, and how often something is done with them.
fn tokens(words: &[&str]) -> Result<(Vec<children::GreenElement>, usize), Failure> {
    let memory =
        children::Memory::from_word(word_at(words, 1)).ok_or("shared or own is missing")?;
    Ok((memory.tokens(number_at(words, 2)?), number_at(words, 3)?))
}

fn reach(words: &[&str]) -> Result<(), Failure> {
    let (tokens, times) = tokens(words)?;
    let node = children::node(tokens);
    let ranges = children::ranges(&node, times);
    let root = SyntaxNode::new_root(node);
    let start = Instant::now();
    let found = children::reach(&root, &ranges);
    println!("reach {} ns, {found} found", start.elapsed().as_nanos());
    Ok(())
}

fn edit(words: &[&str]) -> Result<(), Failure> {
    let (tokens, times) = tokens(words)?;
    let node = children::node(tokens.clone());
    for edit in children::Edit::ALL {
        let start = Instant::now();
        edit.make_often(&node, times);
        println!("{} {} ns", edit.word(), start.elapsed().as_nanos());
    }
    let start = Instant::now();
    children::copy_often(&tokens, times);
    println!("copy {} ns", start.elapsed().as_nanos());
    Ok(())
}

fn move_cursors(words: &[&str]) -> Result<(), Failure> {
    let operation = cursors::Operation::from_word(word_at(words, 1))
        .ok_or("fill, whole, walk, move or nodes is missing")?;
    let turns = number_at(words, 2)?;
    let tree = sexp::parse(&read_input()?);
    let (total, visited) = cursors::time(&tree, operation, turns);
    let nanos = total.as_nanos();
    match visited {
        Some(it) => println!("{nanos} ns, {} places, last at {}", it.places, u32::from(it.last)),
        None => println!("{nanos} ns"),
    }
    Ok(())
}

fn walk(words: &[&str]) -> Result<(), Failure> {
    let operation = walks::Operation::from_word(word_at(words, 1))
        .ok_or("events, offset, cover, copy, find or equal is missing")?;
    let turns = number_at(words, 2)?;
    let text = read_input()?;
    let root = SyntaxNode::new_root(sexp::parse(&text));
    let (total, number) = walks::time(&root, &text, operation, turns);
    println!("{} ns, {number}", total.as_nanos());
    Ok(())
}

fn walk_typed(words: &[&str]) -> Result<(), Failure> {
    let operation =
        typed::Operation::from_word(word_at(words, 1)).ok_or("raw, walk or pointers is missing")?;
    let turns = number_at(words, 2)?;
    let tree = sexp::parse(&read_input()?);
    let (total, number) = typed::time(tree, operation, turns);
    println!("{} ns, {number}", total.as_nanos());
    Ok(())
}

fn replace(words: &[&str]) -> Result<(), Failure> {
    let operation = edits::Operation::from_word(word_at(words, 1))
        .ok_or("replace, root, trace, cursors or green is missing")?;
    let turns = number_at(words, 2)?;
    let tree = sexp::parse(&read_input()?);
    let (total, marks) = edits::time(tree, operation, turns);
    println!("{} ns, {marks}", total.as_nanos());
    Ok(())
}

fn print(words: &[&str]) -> Result<(), Failure> {
    let form = printed::Form::from_word(word_at(words, 1))
        .ok_or("debug_tree, json or value is missing")?;
    let turns = number_at(words, 2)?;
    let tree = sexp::parse(&read_input()?);
    let (total, len) = printed::time(tree, form, turns)?;
    println!("{} ns, {len}", total.as_nanos());
    Ok(())
}

fn parse_anew(words: &[&str]) -> Result<(), Failure> {
    let operation = reparse::Operation::from_word(word_at(words, 1))
        .ok_or("list, table or whole is missing")?;
    let turns = number_at(words, 2)?;
    let tree = sexp::parse(&read_input()?);
    let (total, marks) = reparse::time(tree, operation, turns);
    println!("{} ns, {marks}", total.as_nanos());
    Ok(())
}

/// Prints what was done, and since when.
fn tell(state: &str, start: Instant, len: TextSize) {
    let micros = start.elapsed().as_micros();
    println!("{state} {micros} us, {} bytes", u32::from(len));
}
