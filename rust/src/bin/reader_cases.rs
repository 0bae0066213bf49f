//! The record reader's test: its input, and the output that it is held to.
//!
//! `reader_cases FOLDER` writes FOLDER/stdin and FOLDER/stdout; `reader_cases --check FOLDER` compares the files there with what
//! it would write. The input has the cases one after another, each a two-byte length, low byte first, and that many bytes. The
//! output has a line for each: `refused` and the refusal's number, or `accepted`, how many numbers there are and their checksum. The
//! numbers are all that the record has, unfolded and in record order, W and owners among them where it has these.

use reference::command::{self, run};
use reference::format::record::read;
use reference::inputs::cases::{all, Case};
use std::path::Path;
use std::process::ExitCode;

/// The most bytes of input that the program under test takes.
const MOST_INPUT: usize = 262_144;

fn main() -> ExitCode {
    run("reader_cases", |words| {
        let said = match *words {
            ["--check", folder] => check(Path::new(folder)),
            [folder] if folder != "--check" => write(Path::new(folder)),
            _ => Err("usage: reader_cases [--check] FOLDER".to_string()),
        }?;
        println!("{said}");
        Ok(())
    })
}

/// A case as it stands in the input.
fn framed(case: &Case) -> Vec<u8> {
    let length = u16::try_from(case.bytes.len()).expect("a length has two bytes");
    [length.to_le_bytes().to_vec(), case.bytes.clone()].concat()
}

/// A case's line of the output.
fn line(case: &Case) -> String {
    match read(&case.bytes) {
        Ok(contents) => format!("accepted {} {}\n", contents.numbers.len(), checksum(&contents.numbers)),
        Err(refusal) => format!("refused {refusal}\n"),
    }
}

/// A polynomial in 1,000,003 over the numbers, the first highest, each moved up by 2 to the 31 so that none is negative; modulo
/// 4,294,967,291, which is prime, so that any one wrong number changes it.
fn checksum(numbers: &[i64]) -> i64 {
    let step = |sum: i64, &number: &i64| (sum * 1_000_003 + number + 2_147_483_648) % 4_294_967_291;
    numbers.iter().fold(0, step)
}

fn write(folder: &Path) -> Result<String, String> {
    let cases = all();
    let input: Vec<u8> = cases.iter().flat_map(framed).collect();
    let output: String = cases.iter().map(line).collect();
    assert!(input.len() < MOST_INPUT, "{} bytes of input are too many", input.len());
    command::write(&folder.join("stdin"), &input)?;
    command::write(&folder.join("stdout"), output.as_bytes())?;
    Ok(format!("{} cases, {} bytes of input, {} of output", cases.len(), input.len(), output.len()))
}

fn check(folder: &Path) -> Result<String, String> {
    let cases = all();
    compare(&folder.join("stdin"), &cases, framed)?;
    compare(&folder.join("stdout"), &cases, |case| line(case).into_bytes())?;
    Ok(format!("{} cases agree", cases.len()))
}

/// Goes through a stored file case by case, and names the first that is not what it should be.
fn compare(path: &Path, cases: &[Case], expected: fn(&Case) -> Vec<u8>) -> Result<(), String> {
    let stored = command::read(path)?;
    let file = path.display();
    let mut rest = stored.as_slice();
    for (index, case) in cases.iter().enumerate() {
        let wanted = expected(case);
        rest = rest
            .strip_prefix(wanted.as_slice())
            .ok_or_else(|| format!("{file} differs at case {}, {}", index + 1, case.about))?;
    }
    if rest.is_empty() {
        Ok(())
    } else {
        Err(format!("{file} goes on after case {}, the last", cases.len()))
    }
}
