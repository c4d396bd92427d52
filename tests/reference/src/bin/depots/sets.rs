//! The fixed set of depots that both programs report on.

use std::io;
use std::path::Path;

use reference::store::{encode, Edition, EDITIONS, EDITION_1, EDITION_2};

use crate::folder::Depot;
use crate::stores::{
    any, around, entries, entry, full, one_key_too_many, one_peer_too_many, spread, Unsound,
};
use reference::random::Random;

const T: u32 = 0x2611_1812;
const MOMENT: &str = "26111812";
const FITS: [u32; 2] = [T - 1, T + 1];

/// All depots below the root.
pub fn all(root: &Path) -> io::Result<()> {
    request(root)?;
    sizes(root)?;
    classes(root)?;
    bits(root)?;
    unsound(root)?;
    lengths(root)?;
    names(root)?;
    moments(root)?;
    line_ends(root)?;
    long(root)?;
    boundaries(root)?;
    for number in 0..60 {
        random(root, number)?;
    }
    Ok(())
}

fn one_key() -> Vec<u8> {
    encode(EDITION_1, &entries(FITS, &[2]))
}

/// The example of the request: an empty store, a file of 10 bytes, and a store of one fitting key with two peers.
fn request(root: &Path) -> io::Result<()> {
    let mut depot = Depot::new(root, "request", MOMENT)?;
    depot.store("a.st", &encode(EDITION_1, &[]))?;
    depot.store("b.st", &[0; 10])?;
    depot.store("c.st", &one_key())?;
    depot.close()
}

/// Sound stores of every size, with none and with many peers, around each change of a number's digits.
fn sizes(root: &Path) -> io::Result<()> {
    for edition in EDITIONS {
        let mut depot = Depot::new(root, &format!("sizes-{}", edition.number), MOMENT)?;
        let keys = [
            0, 1, 2, 9, 10, 11, 63, 64, 65, 99, 100, 101, 255, 256, 257, 499, 500,
        ];
        let peers = [
            0, 1, 2, 9, 10, 11, 99, 100, 101, 255, 256, 257, 999, 1000, 1001, 3999, 4000,
        ];
        for keys in keys.into_iter().filter(|&n| n <= edition.keys_max) {
            for peers in peers.into_iter().filter(|&n| n <= edition.peers_max) {
                if keys == 0 && peers > 0 {
                    continue;
                }
                let list = match keys {
                    0 => Vec::new(),
                    _ => entries(FITS, &spread(keys, peers)),
                };
                depot.store(format!("{keys}-{peers}"), &encode(edition, &list))?;
            }
        }
        // All peers in the first record, in the last, and one more in each record than in the one before.
        let mut counts = vec![0; edition.keys_max];
        counts[0] = edition.peers_max;
        depot.store("first", &encode(edition, &entries(FITS, &counts)))?;
        counts.reverse();
        depot.store("last", &encode(edition, &entries(FITS, &counts)))?;
        let rising: Vec<usize> = (0..20).collect();
        depot.store("rising", &encode(edition, &entries(FITS, &rising)))?;
        // One issuer and serial apart in one bit each, and one serial under two issuers.
        let mut alike = entries(FITS, &[1; 9]);
        for (i, entry) in alike.iter_mut().enumerate() {
            entry.key.serial = [0; 4];
            entry.key.issuer = [0; 4];
            match i {
                0 => {}
                1..=4 => entry.key.serial[i - 1] = 1,
                _ => entry.key.issuer[i - 5] = 1,
            }
        }
        depot.store("alike", &encode(edition, &alike))?;
        depot.close()?;
    }
    sums(root)
}

/// Sums of more and more digits, and one name many times.
fn sums(root: &Path) -> io::Result<()> {
    let mut depot = Depot::new(root, "sums", MOMENT)?;
    depot.file("full", &encode(EDITION_2, &full(EDITION_2, FITS)))?;
    for _ in 0..1200 {
        depot.line("full");
    }
    depot.close()
}

/// All periods of moments at T and beside it, at the ends of time and where the sign would change: each alone in
/// a store, so that no two slips make up for each other, and all in one.
fn classes(root: &Path) -> io::Result<()> {
    let edges = [0, 1, 0x7fff_ffff, 0x8000_0000, u32::MAX - 1, u32::MAX];
    let moments = [T, 0, 1, 0x7fff_ffff, 0x8000_0000, u32::MAX - 1, u32::MAX];
    for t in moments {
        let mut depot = Depot::new(root, &format!("classes-{t:08x}"), &format!("{t:08X}"))?;
        let mut ends: Vec<u32> = edges.to_vec();
        ends.extend([t.wrapping_sub(1), t, t.wrapping_add(1)]);
        ends.sort();
        ends.dedup();
        let mut all = Vec::new();
        for &start in &ends {
            for &end in &ends {
                let one = entry(all.len() as u32 + 1, [start, end], 1);
                let name = format!("{start:08x}-{end:08x}");
                let edition = EDITIONS[usize::from(all.len() % 9 == 8)];
                depot.store(name, &encode(edition, std::slice::from_ref(&one)))?;
                all.push(one);
            }
        }
        depot.store("all", &encode(EDITION_2, &all))?;
        all.truncate(64);
        depot.store("most", &encode(EDITION_1, &all))?;
        depot.close()?;
    }
    Ok(())
}

/// Start and end unlike T, and unlike each other, in one bit.
fn bits(root: &Path) -> io::Result<()> {
    let mut depot = Depot::new(root, "bits", MOMENT)?;
    for bit in 0..32 {
        let near = T ^ 1 << bit;
        let periods = [[near, u32::MAX], [0, near], [near, T], [T, near]];
        for (kind, period) in periods.into_iter().enumerate() {
            let store = encode(EDITION_1, &[entry(1, period, 1)]);
            depot.store(format!("{bit}-{kind}"), &store)?;
        }
    }
    depot.close()
}

/// Each condition of soundness broken on its own, in small stores, in one of one key and in full ones. Sound stores
/// stand between them, so that a sum that took a bad file shows.
fn unsound(root: &Path) -> io::Result<()> {
    for edition in EDITIONS {
        let bases = [
            ("few", entries(FITS, &[2, 0, 3, 1])),
            ("one", entries(FITS, &[2])),
            ("none", Vec::new()),
            ("full", full(edition, FITS)),
        ];
        for (size, list) in bases {
            let label = format!("unsound-{size}-{}", edition.number);
            let mut depot = Depot::new(root, &label, MOMENT)?;
            depot.store("sound", &encode(edition, &list))?;
            for (fault, store) in Unsound::of(edition, &list).stores {
                depot.store(fault, &store)?;
            }
            depot.store("keys", &one_key_too_many(edition, FITS))?;
            depot.store("peers", &one_peer_too_many(edition, FITS))?;
            depot.line("sound");
            depot.close()?;
        }
    }
    Ok(())
}

/// Stores that are cut, or have bytes behind them.
fn lengths(root: &Path) -> io::Result<()> {
    let lengths = [
        0, 1, 10, 11, 12, 13, 56, 2828, 3851, 3852, 3853, 7704, 22_012, 38_011, 38_012, 38_013,
        38_014, 41_864, 65_536, 69_388, 76_024, 100_000, 103_548, 1_000_000,
    ];
    for edition in EDITIONS {
        let mut depot = Depot::new(root, &format!("lengths-{}", edition.number), MOMENT)?;
        for (size, list) in [("few", entries(FITS, &[1, 2])), ("empty", Vec::new())] {
            let store = encode(edition, &list);
            for length in lengths {
                let mut bytes = store.clone();
                bytes.resize(length, 0);
                depot.store(format!("{size}-{length}"), &bytes)?;
            }
            // Two stores in one file.
            let other = match edition {
                EDITION_1 => EDITION_2,
                _ => EDITION_1,
            };
            let two = [&store[..], &encode(other, &[])].concat();
            depot.store(format!("{size}-two"), &two)?;
        }
        depot.close()?;
    }
    Ok(())
}

/// Every kind of name, of files that are there and of others.
fn names(root: &Path) -> io::Result<()> {
    let mut depot = Depot::new(root, "names", MOMENT)?;
    let store = one_key();
    depot.store("a.st", &store)?;
    depot.folder("folder")?;
    depot.file("folder/in.st", &store)?;
    depot.link("link", "a.st")?;
    depot.link("link-to-link", "link")?;
    depot.link("broken", "nowhere")?;
    depot.link("loop", "loop")?;
    depot.link("link-to-folder", "folder")?;
    for name in [
        "missing",
        "folder",
        "folder/",
        "folder/in.st",
        "folder/missing",
        "missing/a.st",
        "a.st/",
        "a.st/x",
        "./a.st",
        ".//a.st",
        "folder/../a.st",
        "../names/a.st",
        "link",
        "link-to-link",
        "link/",
        "broken",
        "loop",
        "link-to-folder",
        "link-to-folder/in.st",
        ".",
        "..",
        "/",
        "/dev/null",
        "/dev/zero",
        "/dev/full",
        "input",
        "A.ST",
        "a.s",
        "a.st.",
        "*",
        "?.st",
        "~",
        "$HOME",
        "-",
        "--",
        "-h",
    ] {
        depot.line(name);
    }
    // Names that are there and look like something else.
    let odd: [&[u8]; 24] = [
        b"two words.st",
        b" leading",
        b"trailing ",
        b" ",
        b"  ",
        b"a.st\r",
        b"\r",
        b"\t",
        b"tab\there",
        b"\xff\xfe\x80",
        b"\xc3\xa4.st",
        b"\xc3",
        b"\xe2\x82",
        b"\x01\x7f\x1b[0m",
        b"back\\slash",
        b"\"quoted\"",
        b"'",
        b"%s%n",
        b"-r",
        b"bad",
        b"sum",
        b"sum too large",
        b"file held fit ended early reversed peers",
        b"26111812",
    ];
    for name in odd {
        depot.store(name, &store)?;
    }
    // Such names that are not there, and a carriage return behind names that are there without it.
    for name in [
        &b"none \xff"[..],
        b"./a.st\r",
        b"link\r",
        b"\x80",
        b" a.st",
        b"a.st ",
    ] {
        depot.line(name);
    }
    // Zero bytes: what stands before one is the name of a file.
    for name in [
        &b"\0"[..],
        b"a.st\0",
        b"a.st\0x",
        b"\0a.st",
        b"a\0.st",
        b"\0\0",
    ] {
        depot.line(name);
    }
    lengths_of_names(&mut depot, &store)?;
    depot.line("a.st");
    depot.close()
}

/// A path of any length names the same file: `./` may stand before it again and again.
fn path(length: usize) -> Vec<u8> {
    let mut path = b"./".repeat(length.saturating_sub(4) / 2);
    if length % 2 == 1 {
        path.push(b'/');
    }
    path.extend(b"a.st");
    assert_eq!(path.len(), length);
    path
}

fn lengths_of_names(depot: &mut Depot, store: &[u8]) -> io::Result<()> {
    for length in [1, 2, 254, 255] {
        depot.store(vec![b'n'; length], store)?;
    }
    // Of 256 bytes and more, each opens where it is not held back.
    for length in (6..12)
        .chain(252..262)
        .chain([511, 512, 513, 1024, 2048, 4000])
    {
        depot.line(path(length));
    }
    for length in [256, 257, 4095, 4096, 10_000, 65_536, 200_000] {
        depot.line(vec![b'n'; length]);
    }
    // The first 255 bytes are the name of a file, and so are the last.
    depot.line([path(255), b"/.".to_vec()].concat());
    depot.line([vec![b'n'; 300], path(255)].concat());
    // A zero byte at and behind the 255th.
    for place in [253, 254, 255, 256, 300, 9_999] {
        let mut line = vec![b'n'; 10_000.min(place + 2)];
        line[place] = 0;
        depot.line(line);
    }
    depot.line("a.st");
    Ok(())
}

/// An input that has no file: the whole of it is given.
fn bare(root: &Path, label: &str, input: &[u8]) -> io::Result<()> {
    let depot = Depot::new(root, label, "")?;
    depot.file("a.st", &one_key())?;
    depot.file("input", input)
}

/// First lines that are a moment and first lines that are none.
fn moments(root: &Path) -> io::Result<()> {
    let lines: [&[u8]; 34] = [
        b"",
        b"\n",
        b"\n\n",
        b"\n26111812\na.st\n",
        b"26111812",
        b"26111812\n",
        b"26111812\n\n",
        b"26111812\n\n\n",
        b"2611181\na.st\n",
        b"2611181",
        b"261118122\na.st\n",
        b"261118122",
        b"2611181226111812\na.st\n",
        b"2611181g\na.st\n",
        b"G6111812\na.st\n",
        b"26111812\r\na.st\r\n",
        b"26111812\r",
        b"\r\n",
        b"\r26111812\n",
        b" 26111812\na.st\n",
        b"26111812 \na.st\n",
        b"2611 1812\na.st\n",
        b"26111812 a.st\n",
        b"0x261118\na.st\n",
        b"+2611181\na.st\n",
        b"-2611181\na.st\n",
        b"26111812\0\na.st\n",
        b"\0\na.st\n",
        b"2611181\0\na.st\n",
        b"a.st\n26111812\n",
        b"\xef\xbb\xbf26111812\na.st\n",
        b"0\na.st\n",
        b"\xff\xff\xff\xff\xff\xff\xff\xff\na.st\n",
        b"26111812\x0ba.st\n",
    ];
    for (i, input) in lines.into_iter().enumerate() {
        bare(root, &format!("moment-{i:02}"), input)?;
    }
    for digits in [
        "00000000", "ffffffff", "FFFFFFFF", "fFfFfFfF", "abcdefAB", "ABCDEFab", "0123abCD",
        "89EFef01",
    ] {
        bare(
            root,
            &format!("digits-{digits}"),
            format!("{digits}\na.st").as_bytes(),
        )?;
    }
    // Each byte in the place of a digit, the places taken in turn.
    for byte in 0..=255u8 {
        let mut input = b"26111812\na.st\n".to_vec();
        input[usize::from(byte % 8)] = byte;
        bare(root, &format!("byte-{byte:02x}"), &input)?;
    }
    bare(root, "moment-long", &[b'0'; 100_000])?;
    let mut zeros = vec![b'0'; 70_000];
    zeros.extend(b"26111812\na.st\n");
    bare(root, "moment-long-line", &zeros)
}

/// What ends the last line, and lines without a byte.
fn line_ends(root: &Path) -> io::Result<()> {
    let rows: [&[u8]; 14] = [
        b"a.st",
        b"a.st\n",
        b"a.st\n\n",
        b"a.st\n\n\n",
        b"\na.st",
        b"\n\na.st\n",
        b"a.st\n\na.st",
        b"\n",
        b"\n\n",
        b"missing",
        b"a.st\r",
        b"a.st\n\r\n",
        b"a.st\n\0",
        b"a.st\n\0\n",
    ];
    for (i, rows) in rows.into_iter().enumerate() {
        let input = [b"26111812\n", rows].concat();
        bare(root, &format!("rows-{i:02}"), &input)?;
    }
    // The last line has a name of 255 and of 256 bytes, with and without its line end.
    for length in [255, 256, 100_000] {
        let mut input = [&b"26111812\n"[..], &path(length)].concat();
        bare(root, &format!("last-{length}"), &input)?;
        input.push(b'\n');
        bare(root, &format!("last-{length}-ended"), &input)?;
    }
    Ok(())
}

/// Some thousands of names, of lengths that have no common measure with the length of a piece that is read.
fn long(root: &Path) -> io::Result<()> {
    let mut random = Random::new(14);
    let mut depot = Depot::new(root, "long", MOMENT)?;
    depot.file("a.st", &one_key())?;
    for i in 0..4000 {
        match i % 50 {
            0 => depot.line(vec![b'n'; 256 + random.below(600)]),
            1 => depot.line(""),
            2 => depot.line(format!("missing-{i}")),
            3 => depot.line(b"a.st\0"),
            _ => depot.line(path(6 + random.below(60))),
        }
    }
    depot.close_without_line_end()?;
    // Lines of seven bytes: over seven pieces their ends come at every place.
    let mut depot = Depot::new(root, "sevens", MOMENT)?;
    depot.file("a.st", &one_key())?;
    for _ in 0..5000 {
        depot.line("./a.st");
    }
    depot.close()
}

/// Lines that begin and end at, before and behind each place where a piece may end.
fn boundaries(root: &Path) -> io::Result<()> {
    for piece in [512, 4096, 65_536] {
        let mut depot = Depot::new(root, &format!("boundaries-{piece}"), MOMENT)?;
        depot.file("a.st", &one_key())?;
        let lines = [
            path(6),
            path(255),
            path(256),
            b"a.st\0".to_vec(),
            Vec::new(),
        ];
        for line in lines {
            for behind in [
                0,
                1,
                2,
                3,
                line.len().saturating_sub(1),
                line.len(),
                line.len() + 1,
            ] {
                // The line begins `behind` bytes before the next boundary that leaves room for what fills.
                let from = depot.length() + behind + 2;
                let start = from.div_ceil(piece) * piece - behind;
                fill(&mut depot, start);
                depot.line(&line);
            }
        }
        depot.line("a.st");
        depot.close()?;
    }
    Ok(())
}

/// Lines up to a place of the input: one of a bad name where it is far, then one of a missing file.
fn fill(depot: &mut Depot, to: usize) {
    let room = to - depot.length();
    if room > 200 {
        depot.line(vec![b'f'; room - 101]);
        depot.line(vec![b'm'; 99]);
    } else {
        depot.line(vec![b'm'; room - 1]);
    }
    assert_eq!(depot.length(), to);
}

/// A depot of any files and any lines.
fn random(root: &Path, number: u64) -> io::Result<()> {
    let mut random = Random::new(1000 + number);
    let random = &mut random;
    let anywhere = random.u32();
    let t = random.pick(&[T, anywhere, 0, u32::MAX]);
    let digits = match random.below(2) {
        0 => format!("{t:08x}"),
        _ => format!("{t:08X}"),
    };
    let mut depot = Depot::new(root, &format!("random-{number:02}"), &digits)?;
    let mut held: Vec<Vec<u8>> = Vec::new();
    for i in 0..4 + random.below(12) {
        let edition: Edition = random.pick(&[EDITION_1, EDITION_1, EDITION_2]);
        let mut store = any(random, edition, t);
        match random.below(8) {
            0 => {
                let at = random.below(store.len());
                store[at] ^= 1 << random.below(8);
            }
            1 => {
                let at = random.below(12);
                store[at] = random.u8();
            }
            2 => store.truncate(random.below(edition.length())),
            3 => store.extend(vec![0; 1 + random.below(50_000)]),
            _ => {}
        }
        let name = match random.below(4) {
            0 => vec![b'a' + i as u8; 1 + random.below(255)],
            1 => vec![0x80 + i as u8; 1 + random.below(20)],
            _ => format!("tug {i}").into_bytes(),
        };
        depot.file(&name, &store)?;
        held.push(name);
    }
    depot.folder("folder")?;
    for _ in 0..random.below(60) {
        let mut name = random.pick(&held);
        match random.below(16) {
            0 => name.clear(),
            1 => name.insert(random.below(name.len() + 1), 0),
            2 => name.push(random.u8() | 0x20),
            3 => name = b"folder".to_vec(),
            4 => name.resize(name.len() + random.below(400), b'x'),
            5 => name = around(random, t).to_string().into_bytes(),
            _ => {}
        }
        depot.line(name);
    }
    match random.below(3) {
        0 => depot.close_without_line_end(),
        1 => depot.close(),
        _ => {
            depot.raw("\n");
            depot.close()
        }
    }
}
