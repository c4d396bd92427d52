//! The depot report (02, change request 14): the keys of many stores, counted at one moment.
//!
//! The input is T and then one file name a line; it is read as a stream, and of a line no more is kept than
//! shows that it is too long.

use crate::store::{decode, peer_sum, Entry, EDITION_2};
use std::io::{self, BufWriter, ErrorKind, Read, Write};

/// The columns of the report in their order: held, fit, ended, early, reversed, peers.
pub type Columns = [u32; 6];

const HEADING: &str = "file held fit ended early reversed peers";

/// The longest name that is opened.
const NAME_MAX: usize = 255;

/// How much of a file is read: a byte more than the longest store has, so that a longer file shows.
pub const READ_MAX: usize = EDITION_2.length() + 1;

const MOMENT_DIGITS: usize = 8;

#[derive(Clone, Copy, PartialEq, Eq, Debug)]
pub enum Class {
    Fit,
    Ended,
    Early,
    Reversed,
}

/// The first that applies: a reversed period is in no other class, whatever T is.
pub fn class(entry: &Entry, t: u32) -> Class {
    if entry.start > entry.end {
        Class::Reversed
    } else if t < entry.start {
        Class::Early
    } else if entry.fits(t) {
        Class::Fit
    } else {
        Class::Ended
    }
}

/// What a store adds to the report; `None` where it is unsound or has the length of no edition.
pub fn counts(store: &[u8], t: u32) -> Option<Columns> {
    let entries = decode(store)?;
    let of = |wanted| {
        let in_class = entries.iter().filter(|entry| class(entry, t) == wanted);
        in_class.count() as u32
    };
    Some([
        entries.len() as u32,
        of(Class::Fit),
        of(Class::Ended),
        of(Class::Early),
        of(Class::Reversed),
        peer_sum(&entries) as u32,
    ])
}

/// The sums with a file's counts; `None` where one would pass 4,294,967,295.
pub fn added(sums: Columns, counts: Columns) -> Option<Columns> {
    let mut new = sums;
    for (sum, count) in new.iter_mut().zip(counts) {
        *sum = sum.checked_add(count)?;
    }
    Some(new)
}

/// What is read of a file that is open; `None` where a read fails, at the start or in the middle.
pub fn contents(file: impl Read) -> Option<Vec<u8>> {
    let mut bytes = Vec::with_capacity(READ_MAX);
    file.take(READ_MAX as u64).read_to_end(&mut bytes).ok()?;
    Some(bytes)
}

/// The whole report. `read_file` gives what is read of a file by its name, `None` where that cannot be done.
pub fn report(
    input: impl Read,
    output: impl Write,
    read_file: impl FnMut(&[u8]) -> Option<Vec<u8>>,
) -> io::Result<()> {
    report_from([0; 6], input, output, read_file)
}

/// The report with sums that do not start at zero: a million names would be needed to reach the limit.
pub fn report_from(
    sums: Columns,
    input: impl Read,
    output: impl Write,
    read_file: impl FnMut(&[u8]) -> Option<Vec<u8>>,
) -> io::Result<()> {
    let mut input = Input::new(input);
    let mut output = BufWriter::new(output);
    match input.moment(&mut output)? {
        Some(t) => {
            writeln!(output, "{HEADING}")?;
            rows(t, sums, &mut input, &mut output, read_file)?;
        }
        None => writeln!(output, "bad moment")?,
    }
    output.flush()
}

/// A row for each name line, and the last line.
fn rows(
    t: u32,
    mut sums: Columns,
    input: &mut Input<impl Read>,
    output: &mut impl Write,
    mut read_file: impl FnMut(&[u8]) -> Option<Vec<u8>>,
) -> io::Result<()> {
    while let Some(line) = input.line(output)? {
        if !is_name(&line) {
            output.write_all(b"bad\n")?;
            continue;
        }
        let Some(counts) = read_file(&line).and_then(|store| counts(&store, t)) else {
            row(output, &line, "bad")?;
            continue;
        };
        let Some(new) = added(sums, counts) else {
            return output.write_all(b"sum too large\n");
        };
        sums = new;
        row(output, &line, &numbers(counts))?;
    }
    row(output, b"sum", &numbers(sums))
}

/// A name is written back as its bytes stand.
fn row(output: &mut impl Write, name: &[u8], rest: &str) -> io::Result<()> {
    output.write_all(name)?;
    writeln!(output, " {rest}")
}

fn numbers(columns: Columns) -> String {
    columns.map(|number| number.to_string()).join(" ")
}

/// Of a line that is cut off, enough is kept to be too long.
fn is_name(line: &[u8]) -> bool {
    !line.is_empty() && line.len() <= NAME_MAX && !line.contains(&0)
}

/// Standard input, in pieces as they come.
struct Input<R> {
    reader: R,
    piece: Vec<u8>,
    at: usize,
    end: usize,
    over: bool,
}

impl<R: Read> Input<R> {
    fn new(reader: R) -> Input<R> {
        Input {
            reader,
            piece: vec![0; 65_536],
            at: 0,
            end: 0,
            over: false,
        }
    }

    /// The next byte, `None` at the end. What was written is handed on before the reader is asked for more,
    /// since it may wait.
    fn byte(&mut self, output: &mut impl Write) -> io::Result<Option<u8>> {
        if self.at == self.end && !self.over {
            output.flush()?;
            self.at = 0;
            self.end = self.more()?;
            self.over = self.end == 0;
        }
        if self.over {
            return Ok(None);
        }
        self.at += 1;
        Ok(Some(self.piece[self.at - 1]))
    }

    fn more(&mut self) -> io::Result<usize> {
        loop {
            match self.reader.read(&mut self.piece) {
                Err(error) if error.kind() == ErrorKind::Interrupted => {}
                other => return other,
            }
        }
    }

    /// T, where the first line is exactly eight hex digits. What spoils it ends the reading.
    fn moment(&mut self, output: &mut impl Write) -> io::Result<Option<u32>> {
        let mut t = 0;
        let mut digits = 0;
        loop {
            let byte = match self.byte(output)? {
                None | Some(b'\n') => return Ok((digits == MOMENT_DIGITS).then_some(t)),
                Some(byte) => byte,
            };
            match char::from(byte).to_digit(16) {
                Some(digit) if digits < MOMENT_DIGITS => t = t << 4 | digit,
                _ => return Ok(None),
            }
            digits += 1;
        }
    }

    /// The next line without its line end, cut off where it is too long for a name. A line end at the very end
    /// opens no line.
    fn line(&mut self, output: &mut impl Write) -> io::Result<Option<Vec<u8>>> {
        let mut line = Vec::new();
        while let Some(byte) = self.byte(output)? {
            if byte == b'\n' {
                return Ok(Some(line));
            }
            if line.len() <= NAME_MAX {
                line.push(byte);
            }
        }
        Ok((!line.is_empty()).then_some(line))
    }
}
