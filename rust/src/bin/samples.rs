//! The sample records, and what is printed of them.
//!
//! `samples ROOT` writes, below the repository's folder ROOT, samples/NAME.rec, samples/NAME.txt (document 01's listing of it),
//! samples/NAME.numbers (its numbers as a text, where it is made of numbers) and what hosts/detect prints of the samples and of a
//! record for each refusal: hosts/expected/samples and hosts/expected/refusals. The samples that were written by hand have their
//! numbers from samples/NAME.numbers, which is read and stays as it is. Document 01's record and listing, as they stand there, are
//! the listing program's own test: crates/list/stdin and stdout. `samples --check ROOT` compares the files there with what it would
//! write. `samples --refusals FOLDER` writes the records for the refusals, 1.rec to 13.rec and 15.rec to 17.rec.

use reference::command::{self, run};
use reference::format::encoding::Contents;
use reference::format::reply::room;
use reference::format::text::{contents_of, text_of};
use reference::inputs::readings::{LISTING, LISTING_RECORD};
use reference::inputs::samples::{all, broken, refusals, WRITTEN};
use reference::listing::{host_lines, listing, reason};
use std::path::Path;
use std::process::ExitCode;

/// A file's place below the root, and its bytes.
type File = (String, Vec<u8>);

fn main() -> ExitCode {
    run("samples", |words| match *words {
        ["--check", root] => check(Path::new(root)),
        ["--refusals", folder] => write(Path::new(folder), refused_files()),
        [root] if !root.starts_with('-') => stored_files(Path::new(root)).and_then(|files| write(Path::new(root), files)),
        _ => Err("usage: samples ROOT, samples --check ROOT, samples --refusals FOLDER".to_string()),
    })
}

fn stored_files(root: &Path) -> Result<Vec<File>, String> {
    let mut files =
        vec![("crates/list/stdin".to_string(), LISTING_RECORD.to_vec()), ("crates/list/stdout".to_string(), LISTING.into())];
    let mut printed = String::new();
    for (name, contents) in all() {
        files.push((format!("samples/{name}.numbers"), text_of(&contents).into_bytes()));
    }
    let numbered = all().into_iter().chain(written(root)?).map(|(name, contents)| (name, contents.record()));
    for (name, record) in numbered.chain(broken()) {
        files.push((format!("samples/{name}.txt"), listing(&record).into_bytes()));
        printed += &host_lines(&format!("samples/{name}.rec"), &record);
        files.push((format!("samples/{name}.rec"), record));
    }
    files.push(("hosts/expected/samples".to_string(), printed.into_bytes()));
    files.push(("hosts/expected/refusals".to_string(), refusal_lines().into_bytes()));
    Ok(files)
}

/// The samples that were written by hand: their names, and the numbers of their texts.
fn written(root: &Path) -> Result<Vec<(&'static str, Contents)>, String> {
    let taken = |name: &'static str| {
        let file = format!("samples/{name}.numbers");
        let text = command::read(&root.join(&file))?;
        let contents = contents_of(&String::from_utf8_lossy(&text)).map_err(|said| format!("{file}: {said}"))?;
        Ok((name, contents))
    };
    WRITTEN.into_iter().map(taken).collect()
}

/// What the host prints of a record for each refusal; the last, 14, is the example with a buffer that is a byte short.
fn refusal_lines() -> String {
    let lines = refused_files().iter().map(|(name, record)| host_lines(name, record)).collect::<String>();
    assert_eq!(room(2, 1, 2), 41, "hosts/test.sh gives the example 40 bytes");
    lines + &format!("samples/example.rec: refused by 14: {}\n", reason(14))
}

fn refused_files() -> Vec<File> {
    refusals().into_iter().map(|(refusal, record)| (format!("{refusal}.rec"), record)).collect()
}

fn write(root: &Path, files: Vec<File>) -> Result<(), String> {
    files.into_iter().try_for_each(|(name, bytes)| command::write(&root.join(name), &bytes))
}

fn check(root: &Path) -> Result<(), String> {
    for (name, bytes) in stored_files(root)? {
        if command::read(&root.join(&name))? != bytes {
            return Err(format!("{name} is not what this program makes"));
        }
    }
    Ok(())
}
