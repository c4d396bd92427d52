//! Depots too large for the gate: one that reaches the limit of the sums, and one to be timed.

use std::fs::{self, File};
use std::io::{self, BufWriter, Write};
use std::path::Path;

use reference::store::{encode, Edition, EDITION_1, EDITION_2};

use crate::stores::{entries, entry, full};

const T: u32 = 0x2611_1812;
const MOMENT: &str = "26111812";
const FITS: [u32; 2] = [T, T];

/// An input of the moment and these names.
fn input(root: &Path, name: &str, lines: impl Iterator<Item = String>) -> io::Result<()> {
    let mut file = BufWriter::new(File::create(root.join(name))?);
    writeln!(file, "{MOMENT}")?;
    for line in lines {
        writeln!(file, "{line}")?;
    }
    file.flush()
}

/// 1,073,741 times 4,000 peers and then 3,295 are 4,294,967,295, the largest sum there is. `over` has one more.
/// All peers are of one key: the number of keys does not matter, and such a store is judged soonest.
pub fn sums(root: &Path) -> io::Result<()> {
    for peers in [4000, 3295, 3296] {
        let store = encode(EDITION_2, &entries(FITS, &[peers]));
        fs::write(root.join(peers.to_string()), store)?;
    }
    let most = || (0..1_073_741).map(|_| "4000".to_string());
    input(root, "input", most().chain(["3295".to_string()]))?;
    // Behind the file that is too many no line may follow.
    let over = ["3296", "4000", "missing"].map(String::from);
    input(root, "over", most().chain(over))
}

/// A full store in which a quarter of the keys is in each class.
fn mixed(edition: Edition, number: u32) -> Vec<u8> {
    let mut list = full(edition, FITS);
    for (i, held) in list.iter_mut().enumerate() {
        let period = [[T - 1, T + 1], [T - 9, T - 1], [T + 1, T + 9], [T, T - 1]][i % 4];
        let peers = std::mem::take(&mut held.peers);
        *held = entry(number * 1000 + i as u32, period, 0);
        held.peers = peers;
    }
    encode(edition, &list)
}

/// 10,000 stores of edition 1 and 1,000 of edition 2, all full, and inputs that name them: each file once, or the
/// first 1,000 of edition 1 again and again.
pub fn bench(root: &Path) -> io::Result<()> {
    for (edition, files) in [(EDITION_1, 10_000), (EDITION_2, 1_000)] {
        let folder = edition.number.to_string();
        fs::create_dir(root.join(&folder))?;
        let name = |i: u32| format!("{folder}/{i:05}.st");
        for i in 0..files {
            fs::write(root.join(name(i)), mixed(edition, i))?;
        }
        input(root, &format!("files-{folder}"), (0..files).map(name))?;
    }
    for names in [10_000, 100_000] {
        let again = (0..names).map(|i| format!("1/{:05}.st", i % 1000));
        input(root, &format!("names-{names}"), again)?;
    }
    Ok(())
}
