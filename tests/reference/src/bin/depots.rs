//! Writes depots for the tests of the report: folders of stores with an `input` each.

#[path = "depots/bulk.rs"]
mod bulk;
#[path = "depots/example.rs"]
mod example;
#[path = "depots/folder.rs"]
mod folder;
#[path = "depots/sets.rs"]
mod sets;
#[path = "depots/stores.rs"]
mod stores;

use std::fs;
use std::io::{self, ErrorKind, Write};
use std::path::Path;
use std::thread::sleep;
use std::time::Duration;

const USAGE: &str = "\
depots DIR             a fixed set of depots below DIR, each a folder with an input
depots --example DIR   the stores of examples/report
depots --sums DIR      a depot whose peers come to 4294967295, and the input with one more
depots --bench DIR     stores to time a report over
depots --drip N FILE   the file on standard output, N bytes at a time";

fn main() -> io::Result<()> {
    let arguments: Vec<String> = std::env::args().skip(1).collect();
    let words: Vec<&str> = arguments.iter().map(String::as_str).collect();
    match words[..] {
        ["--example", folder] => example::write(Path::new(folder)),
        ["--sums", folder] => bulk::sums(Path::new(folder)),
        ["--bench", folder] => bulk::bench(Path::new(folder)),
        ["--drip", count, file] if count.parse::<usize>().is_ok_and(|count| count > 0) => {
            drip(count.parse().unwrap(), &fs::read(file)?)
        }
        [folder] if !folder.starts_with('-') => sets::all(Path::new(folder)),
        _ => {
            eprintln!("{USAGE}");
            std::process::exit(2);
        }
    }
}

/// Waits behind each piece, so that the reader comes to the end of it and not to the next. A reader that has heard
/// enough is no failure.
fn drip(count: usize, bytes: &[u8]) -> io::Result<()> {
    let mut output = io::stdout().lock();
    // The reader is to wait already when the first piece comes.
    sleep(Duration::from_millis(50));
    for piece in bytes.chunks(count) {
        let written = output.write_all(piece).and_then(|()| output.flush());
        match written {
            Err(error) if error.kind() == ErrorKind::BrokenPipe => return Ok(()),
            other => other?,
        }
        sleep(Duration::from_micros(100));
    }
    Ok(())
}
