//! What the programs have in common: words in, an exit status out; and files whose errors say which file it was.

use std::path::Path;
use std::process::ExitCode;
use std::{env, fs};

/// Runs a program on the words that it was called with; what goes wrong is said under the program's name.
pub fn run(program: &str, on_words: impl FnOnce(&[&str]) -> Result<(), String>) -> ExitCode {
    let arguments: Vec<String> = env::args().skip(1).collect();
    let words: Vec<&str> = arguments.iter().map(String::as_str).collect();
    match on_words(&words) {
        Ok(()) => ExitCode::SUCCESS,
        Err(said) => {
            eprintln!("{program}: {said}");
            ExitCode::FAILURE
        }
    }
}

pub fn read(file: &Path) -> Result<Vec<u8>, String> {
    fs::read(file).map_err(|error| format!("{}: {error}", file.display()))
}

pub fn write(file: &Path, bytes: &[u8]) -> Result<(), String> {
    fs::write(file, bytes).map_err(|error| format!("{}: {error}", file.display()))
}
