//! A depot as a folder: its files, and the `input` that names them.

use std::ffi::OsStr;
use std::fs;
use std::io;
use std::os::unix::ffi::OsStrExt;
use std::os::unix::fs::symlink;
use std::path::{Path, PathBuf};

pub struct Depot {
    folder: PathBuf,
    input: Vec<u8>,
}

impl Depot {
    /// A new folder. The input begins with the line of the moment.
    pub fn new(root: &Path, label: &str, moment: &str) -> io::Result<Depot> {
        let folder = root.join(label);
        fs::create_dir(&folder)?;
        let input = format!("{moment}\n").into_bytes();
        Ok(Depot { folder, input })
    }

    fn path(&self, name: impl AsRef<[u8]>) -> PathBuf {
        self.folder.join(OsStr::from_bytes(name.as_ref()))
    }

    /// A file that the input does not name.
    pub fn file(&self, name: impl AsRef<[u8]>, bytes: &[u8]) -> io::Result<()> {
        fs::write(self.path(name), bytes)
    }

    /// A file, and the line that names it.
    pub fn store(&mut self, name: impl AsRef<[u8]>, bytes: &[u8]) -> io::Result<()> {
        self.file(&name, bytes)?;
        self.line(name);
        Ok(())
    }

    pub fn folder(&self, name: &str) -> io::Result<()> {
        fs::create_dir(self.path(name))
    }

    pub fn link(&self, name: &str, to: &str) -> io::Result<()> {
        symlink(to, self.path(name))
    }

    /// A name line with its line end.
    pub fn line(&mut self, name: impl AsRef<[u8]>) {
        self.raw(name);
        self.raw("\n");
    }

    /// Bytes of the input as they are.
    pub fn raw(&mut self, bytes: impl AsRef<[u8]>) {
        self.input.extend(bytes.as_ref());
    }

    /// How much the input has.
    pub fn length(&self) -> usize {
        self.input.len()
    }

    /// Writes the input without its last line end.
    pub fn close_without_line_end(mut self) -> io::Result<()> {
        assert_eq!(self.input.pop(), Some(b'\n'));
        self.close()
    }

    pub fn close(self) -> io::Result<()> {
        self.file("input", &self.input)
    }
}
