//! A second implementation of document 01 and of the requests C-11 and C-13 to C-15 in plain Rust, to compare the engine's
//! speed with.

mod archive;
mod graph;
mod measure;
mod names;
mod routes;
mod script;

use std::io::{self, Read, Write};
use std::path::Path;
use std::process::ExitCode;

const USAGE: &str = "usage: region-baseline script < SCRIPT
       region-baseline bench EXAMPLES";

fn main() -> ExitCode {
    let arguments: Vec<String> = std::env::args().skip(1).collect();
    let arguments: Vec<&str> = arguments.iter().map(String::as_str).collect();
    let done = match arguments[..] {
        ["script"] => run_script(),
        ["bench", examples] => measure::run(Path::new(examples)),
        _ => Err(io::Error::new(io::ErrorKind::InvalidInput, USAGE)),
    };
    match done {
        Ok(()) => ExitCode::SUCCESS,
        Err(error) => {
            eprintln!("{error}");
            ExitCode::from(2)
        }
    }
}

fn run_script() -> io::Result<()> {
    let mut script = String::new();
    io::stdin().read_to_string(&mut script)?;
    io::stdout().write_all(script::run(&script).as_bytes())
}
