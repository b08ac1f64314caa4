//! Does with rowan itself what rowan_bench measures of the port, and what the program rowan prints. Without arguments it prints
//! how it is called.

mod bench;
mod json;
mod program;
mod sexp;

use std::process::ExitCode;

/// Why a command was not done.
type Failure = Box<dyn std::error::Error>;

fn main() -> ExitCode {
    let words: Vec<String> = std::env::args().skip(1).collect();
    let words: Vec<&str> = words.iter().map(String::as_str).collect();
    let outcome = match words[..] {
        ["tree" | "json" | "eval"] => program::run(words[0]),
        _ => bench::run(&words),
    };
    match outcome {
        Ok(()) => ExitCode::SUCCESS,
        Err(why) => {
            eprintln!("beside_rowan: {why}");
            ExitCode::FAILURE
        }
    }
}
