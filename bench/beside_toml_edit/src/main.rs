//! Does with toml_edit what toml_bench measures. Without arguments it prints how it is called.

use std::hint::black_box;
use std::io::Read;
use std::process::ExitCode;
use std::time::Instant;
use toml_edit::{value, Document, TomlError};

const HELP: &str = "\
usage: beside_toml_edit parse|print|set|sets TURNS

Reads TOML from standard input, and then makes that many turns, in each of which it is parsed as a document that keeps what stands
between values. `print` makes its text again; `set` does so with another value for `key0`, and `sets` with others for `key0` to
`key999`. It prints the time of all turns, and how many keys the last document has, or how many bytes its text.";

/// Makes one turn, and gives its number.
fn turn(command: &str, text: &str) -> Result<usize, TomlError> {
    let mut document = black_box(text).parse::<Document>()?;
    let count = match command {
        "set" => 1,
        "sets" => 1_000,
        _ => 0,
    };
    for number in 0..count {
        document[&format!("key{number}")] = value("another");
    }
    match command {
        "parse" => Ok(document.as_table().len()),
        _ => Ok(document.to_string().len()),
    }
}

fn main() -> ExitCode {
    let words: Vec<String> = std::env::args().skip(1).collect();
    let [command, turns] = &words[..] else {
        println!("{HELP}");
        return ExitCode::SUCCESS;
    };
    let turns: u64 = turns.parse().unwrap_or(0);
    let is_known = ["parse", "print", "set", "sets"].contains(&command.as_str());
    let mut text = String::new();
    if !is_known || std::io::stdin().read_to_string(&mut text).is_err() {
        eprintln!("beside_toml_edit: there is no such command, or no text");
        return ExitCode::FAILURE;
    }
    let start = Instant::now();
    let mut number = 0;
    for _ in 0..turns {
        match turn(command, &text) {
            Ok(answer) => number = answer,
            Err(error) => {
                eprintln!("beside_toml_edit: {error}");
                return ExitCode::FAILURE;
            }
        }
    }
    println!("{} ns, {number}", start.elapsed().as_nanos());
    ExitCode::SUCCESS
}
