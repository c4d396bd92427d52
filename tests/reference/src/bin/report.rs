//! A second depot report: reads T and file names as the proved one does, and writes what it must write. A name that is not UTF-8 can't be opened
//! (docs/DECISIONS.md).

use reference::report::{contents, report};
use std::fs::File;
use std::io::{stdin, stdout};

fn main() -> std::io::Result<()> {
    report(stdin().lock(), stdout().lock(), |name| {
        contents(File::open(std::str::from_utf8(name).ok()?).ok()?)
    })
}
