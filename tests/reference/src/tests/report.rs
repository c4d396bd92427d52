//! The depot report: classes, sums, lines and names, and whole reports over files that are held here.

use super::{entries, entry, full, unsound, WRONG_LENGTHS};
use crate::report::{
    added, class, contents, counts, report, report_from, Class, Columns, READ_MAX,
};
use crate::store::{encode, Edition, Entry, EDITIONS, EDITION_1, EDITION_2};
use std::cell::RefCell;
use std::io::{self, Read, Write};

const HEADING: &str = "file held fit ended early reversed peers\n";
const NOTHING: &str = "file held fit ended early reversed peers\nsum 0 0 0 0 0 0\n";

fn with_period([start, end]: [u32; 2]) -> Entry {
    Entry {
        start,
        end,
        ..entry(1, 1)
    }
}

fn class_of(period: [u32; 2], t: u32) -> Class {
    class(&with_period(period), t)
}

/// The files of the tests: `a.st` is empty, `b.st` has 10 bytes, `c.st` one key for two peers that fits from
/// 1001 to 2001, `d.st` is a full store of edition 2, `r.st` has one reversed period and one peer, `u.st` is
/// unsound and `x` is missing.
fn file(name: &[u8]) -> Option<Vec<u8>> {
    match name {
        b"a.st" => Some(encode(EDITION_1, &[])),
        b"b.st" => Some(vec![0; 10]),
        b"c.st" => Some(encode(EDITION_1, &entries(&[2]))),
        b"d.st" => Some(encode(EDITION_2, &full(EDITION_2))),
        b"r.st" => Some(encode(EDITION_1, &[with_period([9, 8])])),
        b"u.st" => Some(unsound(EDITION_1)),
        _ => None,
    }
}

fn reported_from(sums: Columns, input: &[u8]) -> Vec<u8> {
    let mut output = Vec::new();
    report_from(sums, input, &mut output, file).unwrap();
    output
}

fn reported(input: &[u8]) -> Vec<u8> {
    reported_from([0; 6], input)
}

/// Asserts the whole report.
fn assert_report(input: impl AsRef<[u8]>, expected: impl AsRef<[u8]>) {
    let output = reported(input.as_ref());
    assert_eq!(
        String::from_utf8_lossy(&output),
        String::from_utf8_lossy(expected.as_ref())
    );
    assert_eq!(output, expected.as_ref());
}

/// Asserts the rows behind the heading, where all files are bad.
fn assert_rows(names: impl AsRef<[u8]>, rows: impl AsRef<[u8]>) {
    let input = [b"00001001\n", names.as_ref()].concat();
    let sum = b"sum 0 0 0 0 0 0\n";
    assert_report(input, [HEADING.as_bytes(), rows.as_ref(), sum].concat());
}

#[test]
fn the_example_of_the_request() {
    let expected = "\
file held fit ended early reversed peers
a.st 0 0 0 0 0 0
b.st bad
c.st 1 1 0 0 0 2
sum 1 1 0 0 0 2
";
    assert_report("00001001\na.st\nb.st\nc.st\n", expected);
    assert_report("00001001\na.st\nb.st\nc.st", expected);
}

#[test]
fn both_ends_belong_to_the_period() {
    assert_eq!(class_of([100, 200], 99), Class::Early);
    assert_eq!(class_of([100, 200], 100), Class::Fit);
    assert_eq!(class_of([100, 200], 200), Class::Fit);
    assert_eq!(class_of([100, 200], 201), Class::Ended);
}

#[test]
fn a_period_of_one_moment() {
    assert_eq!(class_of([100, 100], 99), Class::Early);
    assert_eq!(class_of([100, 100], 100), Class::Fit);
    assert_eq!(class_of([100, 100], 101), Class::Ended);
}

#[test]
fn a_reversed_period_is_reversed_at_every_moment() {
    for period in [[101, 100], [200, 100], [u32::MAX, 0], [1, 0]] {
        for t in [0, 1, 99, 100, 101, 150, 200, 201, u32::MAX] {
            assert_eq!(class_of(period, t), Class::Reversed, "{period:?} {t}");
        }
    }
}

#[test]
fn the_first_and_the_last_moment_of_all() {
    assert_eq!(class_of([0, 0], 0), Class::Fit);
    assert_eq!(class_of([0, u32::MAX], 0), Class::Fit);
    assert_eq!(class_of([1, u32::MAX], 0), Class::Early);
    assert_eq!(class_of([u32::MAX; 2], 0), Class::Early);
    assert_eq!(class_of([0, 0], u32::MAX), Class::Ended);
    assert_eq!(class_of([0, u32::MAX - 1], u32::MAX), Class::Ended);
    assert_eq!(class_of([0, u32::MAX], u32::MAX), Class::Fit);
    assert_eq!(class_of([u32::MAX; 2], u32::MAX), Class::Fit);
}

#[test]
fn moments_are_compared_unsigned() {
    let across = [0x7fff_ffff, 0x8000_0000];
    assert_eq!(class_of(across, 0x7fff_fffe), Class::Early);
    assert_eq!(class_of(across, 0x7fff_ffff), Class::Fit);
    assert_eq!(class_of(across, 0x8000_0000), Class::Fit);
    assert_eq!(class_of(across, 0x8000_0001), Class::Ended);
    let back = [0x8000_0000, 0x7fff_ffff];
    assert_eq!(class_of(back, 0x8000_0000), Class::Reversed);
}

/// All periods of a few moments, in one store each and all in one: the four classes add up to the keys held.
#[test]
fn the_classes_add_up() {
    let moments = [0, 1, 99, 100, 101, 0x7fff_ffff, 0x8000_0000, u32::MAX];
    let mut all = Vec::new();
    for start in moments {
        for end in moments {
            let number = all.len() as u32 + 1;
            all.push(Entry {
                start,
                end,
                ..entry(number, 2)
            });
        }
    }
    for edition in EDITIONS {
        for t in moments {
            let mut sums = [0; 6];
            for one in &all {
                let store = encode(edition, std::slice::from_ref(one));
                sums = added(sums, counts(&store, t).unwrap()).unwrap();
            }
            let [held, fit, ended, early, reversed, peers] = sums;
            assert_eq!(held, 64);
            assert_eq!(fit + ended + early + reversed, 64);
            assert_eq!(reversed, 28);
            assert_eq!(peers, 128);
            assert_eq!(counts(&encode(edition, &all), t), Some(sums));
        }
    }
}

/// `entries` numbers its keys from 1: key n fits from 1000 + n to 2000 + n.
#[test]
fn counts_of_full_stores() {
    let of = |edition: Edition, t| counts(&encode(edition, &full(edition)), t).unwrap();
    assert_eq!(of(EDITION_1, 0x1000), [64, 0, 0, 64, 0, 256]);
    assert_eq!(of(EDITION_1, 0x1003), [64, 3, 0, 61, 0, 256]);
    assert_eq!(of(EDITION_1, 0x2001), [64, 64, 0, 0, 0, 256]);
    assert_eq!(of(EDITION_1, 0x2004), [64, 61, 3, 0, 0, 256]);
    assert_eq!(of(EDITION_2, 0x1003), [500, 3, 0, 497, 0, 4000]);
    assert_eq!(of(EDITION_2, 0x2004), [500, 497, 3, 0, 0, 4000]);
    assert_eq!(of(EDITION_2, u32::MAX), [500, 0, 500, 0, 0, 4000]);
}

#[test]
fn peers_are_counted_twice_where_they_stand_twice_and_none_where_none_stand() {
    let mut list = entries(&[0, 3, 0]);
    list[1].peers = vec![[1; 4]; 3];
    for edition in EDITIONS {
        let store = encode(edition, &list);
        assert_eq!(counts(&store, 0), Some([3, 0, 0, 3, 0, 3]));
    }
}

#[test]
fn bad_stores_have_no_counts() {
    for edition in EDITIONS {
        let sound = encode(edition, &entries(&[1, 2]));
        assert!(counts(&sound, 0).is_some());
        assert_eq!(counts(&unsound(edition), 0), None);
        for length in WRONG_LENGTHS {
            let mut store = sound.clone();
            store.resize(length, 0);
            assert_eq!(counts(&store, 0), None);
        }
    }
    for [edition, other] in [[EDITION_1, EDITION_2], [EDITION_2, EDITION_1]] {
        let mut store = encode(edition, &[]);
        store[..12].copy_from_slice(&encode(other, &[])[..12]);
        assert_eq!(counts(&store, 0), None);
    }
}

#[test]
fn each_sum_goes_to_the_edge_and_not_beyond() {
    for column in 0..6 {
        let mut sums = [7; 6];
        sums[column] = u32::MAX - 4000;
        let mut counts = [3; 6];
        counts[column] = 4000;
        let mut expected = [10; 6];
        expected[column] = u32::MAX;
        assert_eq!(added(sums, counts), Some(expected));
        counts[column] = 4001;
        assert_eq!(added(sums, counts), None);
        assert_eq!(added(expected, [0; 6]), Some(expected));
        let mut one = [0; 6];
        one[column] = 1;
        assert_eq!(added(expected, one), None);
    }
    assert_eq!(added([u32::MAX; 6], [0; 6]), Some([u32::MAX; 6]));
}

/// `c.st` adds one key that fits and two peers; at 1000 it is early, at 2002 ended. `r.st` adds a reversed one.
#[test]
fn a_sum_that_would_pass_ends_the_report() {
    let most = u32::MAX;
    let edges = [
        ("00001001", "c.st", [most - 1, 0, 0, 0, 0, 0]),
        ("00001001", "c.st", [0, most - 1, 0, 0, 0, 0]),
        ("00002002", "c.st", [0, 0, most - 1, 0, 0, 0]),
        ("00001000", "c.st", [0, 0, 0, most - 1, 0, 0]),
        ("00001001", "r.st", [0, 0, 0, 0, most - 1, 0]),
        ("00001001", "c.st", [0, 0, 0, 0, 0, most - 2]),
    ];
    for (t, name, sums) in edges {
        let once = reported_from(sums, format!("{t}\n{name}").as_bytes());
        assert!(once.ends_with(b"\n"));
        let text = String::from_utf8(once).unwrap();
        let last = text.lines().last().unwrap();
        assert!(
            last.starts_with("sum ") && last.contains(" 4294967295"),
            "{last}"
        );
        // Behind `sum too large` there is nothing, and a bad file before it changes nothing.
        let input = format!("{t}\n{name}\nu.st\n\n{name}\n{name}\na.st\n");
        let twice = reported_from(sums, input.as_bytes());
        let first = text.lines().nth(1).unwrap();
        let expected = format!("{HEADING}{first}\nu.st bad\nbad\nsum too large\n");
        assert_eq!(String::from_utf8(twice).unwrap(), expected);
    }
}

/// A reader that gives one piece a call and may not be asked again behind the last.
struct Pieces<'a> {
    pieces: &'a [&'a [u8]],
    over: bool,
}

impl Read for Pieces<'_> {
    fn read(&mut self, buffer: &mut [u8]) -> io::Result<usize> {
        assert!(!self.over, "read behind the end");
        let Some((first, rest)) = self.pieces.split_first() else {
            self.over = true;
            return Ok(0);
        };
        self.pieces = rest;
        buffer[..first.len()].copy_from_slice(first);
        Ok(first.len())
    }
}

fn pieces<'a>(pieces: &'a [&'a [u8]]) -> Pieces<'a> {
    Pieces {
        pieces,
        over: false,
    }
}

/// Reads nothing more: a call fails the test.
struct Unread;

impl Read for Unread {
    fn read(&mut self, _: &mut [u8]) -> io::Result<usize> {
        panic!("more is read")
    }
}

#[test]
fn nothing_is_read_behind_a_bad_moment_or_a_sum_too_large() {
    let mut output = Vec::new();
    report(pieces(&[b"0000100g"]).chain(Unread), &mut output, file).unwrap();
    assert_eq!(output, b"bad moment\n");
    output.clear();
    report(pieces(&[b"000010011"]).chain(Unread), &mut output, file).unwrap();
    assert_eq!(output, b"bad moment\n");
    output.clear();
    let input = pieces(&[b"00001001\n", b"c.st\n"]).chain(Unread);
    report_from([u32::MAX; 6], input, &mut output, file).unwrap();
    assert_eq!(output, [HEADING.as_bytes(), b"sum too large\n"].concat());
}

#[test]
fn a_moment_is_eight_hex_digits_of_either_case() {
    for good in ["00000000", "ffffffff", "FFFFFFFF", "aBcDeF09", "26111812"] {
        assert_report(good, NOTHING);
        assert_report(format!("{good}\n"), NOTHING);
    }
    let bad: [&[u8]; 20] = [
        b"",
        b"\n",
        b"\n00001001\n",
        b"0000100",
        b"0000100\n",
        b"000010010\n",
        b"0000100g\n",
        b"0000100G\n",
        b"00001001\r\n",
        b" 00001001\n",
        b"00001001 \n",
        b"0x001001\n",
        b"+0001001\n",
        b"-0001001\n",
        b"0000 001\n",
        b"0000100\0\n",
        b"00001001\0\n",
        b"0000100\xff\n",
        b"0000100\nc.st\n",
        b"000000000000000000000000001001\n",
    ];
    for input in bad {
        assert_report(input, "bad moment\n");
    }
    for byte in 0..=255u8 {
        let input = [b"0000", &[byte][..], b"100\n"].concat();
        let good = byte.is_ascii_hexdigit();
        assert_report(input, if good { NOTHING } else { "bad moment\n" });
    }
}

/// All eight digits count, each with its weight.
#[test]
fn the_moment_is_a_big_endian_number() {
    let t = 0x89ab_cdef;
    let early = |place: usize| {
        let mut digits = *b"89ABCDEF";
        digits[place] -= 1;
        digits
    };
    let list = [Entry {
        start: t,
        end: t,
        ..entry(1, 1)
    }];
    let store = encode(EDITION_1, &list);
    let at = |digits: &[u8]| {
        let mut output = Vec::new();
        let input = [digits, b"\nk"].concat();
        report(&input[..], &mut output, |_| Some(store.clone())).unwrap();
        let rows = String::from_utf8(output).unwrap();
        rows.lines().nth(1).unwrap().to_string()
    };
    assert_eq!(at(b"89abcdef"), "k 1 1 0 0 0 1");
    assert_eq!(at(b"89abcdff"), "k 1 0 1 0 0 1");
    // 'A' less one is '@', which is no digit: that place is left out.
    for place in [0, 1, 3, 4, 5, 6, 7] {
        assert_eq!(at(&early(place)), "k 1 0 0 1 0 1", "{place}");
    }
}

#[test]
fn lines_and_their_ends() {
    assert_rows("", "");
    assert_rows("x", "x bad\n");
    assert_rows("x\n", "x bad\n");
    assert_rows("x\n\n", "x bad\nbad\n");
    assert_rows("x\n\n\n", "x bad\nbad\nbad\n");
    assert_rows("\n", "bad\n");
    assert_rows("\n\nx", "bad\nbad\nx bad\n");
    assert_rows("c.st\r\n", "c.st\r bad\n");
    assert_rows(" c.st\nc.st \n", " c.st bad\nc.st  bad\n");
}

#[test]
fn names_are_bytes() {
    assert_rows(b"\xff\xfe\x80\n", b"\xff\xfe\x80 bad\n");
    assert_rows(b"\t\\n\n", b"\t\\n bad\n");
    assert_rows("bad\nsum\n", "bad bad\nsum bad\n");
}

#[test]
fn bad_name_lines_are_not_opened() {
    let opened = RefCell::new(Vec::new());
    let run = |names: &[u8]| {
        opened.borrow_mut().clear();
        let mut output = Vec::new();
        let input = [b"00001001\n", names].concat();
        report(&input[..], &mut output, |name| {
            opened.borrow_mut().push(name.to_vec());
            file(b"c.st")
        })
        .unwrap();
        output[HEADING.len()..].to_vec()
    };
    for bad in [
        &b""[..],
        b"\0",
        b"c.st\0",
        b"\0c.st",
        &[b'n'; 256],
        &[b'n'; 257],
        &[b'n'; 100_000],
    ] {
        let names = [bad, b"\n"].concat();
        assert_eq!(run(&names), b"bad\nsum 0 0 0 0 0 0\n");
        assert!(opened.borrow().is_empty());
    }
    // A zero byte behind what is kept of a line.
    assert_eq!(
        run(&[&[b'n'; 300][..], b"\0"].concat()),
        b"bad\nsum 0 0 0 0 0 0\n"
    );
    for length in [1, 254, 255] {
        let name = vec![b'n'; length];
        let expected = [&name, &b" 1 1 0 0 0 2\nsum 1 1 0 0 0 2\n"[..]].concat();
        assert_eq!(run(&name), expected);
        assert_eq!(*opened.borrow(), [name]);
    }
}

#[test]
fn a_bad_file_adds_nothing_and_a_name_twice_counts_twice() {
    assert_report(
        "00001001\nc.st\nu.st\nx\nb.st\nd.st\nc.st\n",
        [
            HEADING,
            "c.st 1 1 0 0 0 2\nu.st bad\nx bad\nb.st bad\nd.st 500 1 0 499 0 4000\nc.st 1 1 0 0 0 2\n",
            "sum 502 3 0 499 0 4004\n",
        ]
        .concat(),
    );
}

/// Cut in two at every byte, and brought byte by byte, with an interruption before each.
#[test]
fn pieces_of_the_input_change_nothing() {
    let long = "n".repeat(255);
    let input = format!("00001001\nc.st\n\n{long}\nn{long}\nd.st\nc\0st\nu.st\n\n");
    let input = input.as_bytes();
    let expected = reported(input);
    for cut in 1..input.len() {
        let mut output = Vec::new();
        let two = [&input[..cut], &input[cut..]];
        report(pieces(&two), &mut output, file).unwrap();
        assert_eq!(output, expected);
    }
    struct Slow<'a>(&'a [u8], bool);
    impl Read for Slow<'_> {
        fn read(&mut self, buffer: &mut [u8]) -> io::Result<usize> {
            self.1 = !self.1;
            if self.1 {
                return Err(io::ErrorKind::Interrupted.into());
            }
            self.0.read(&mut buffer[..1])
        }
    }
    let mut output = Vec::new();
    report(Slow(input, false), &mut output, file).unwrap();
    assert_eq!(output, expected);
}

/// What was written before the reader is asked must be out by then.
#[test]
fn what_is_due_is_written_before_more_is_read() {
    struct Seen<'a>(&'a RefCell<Vec<u8>>);
    impl Write for Seen<'_> {
        fn write(&mut self, bytes: &[u8]) -> io::Result<usize> {
            self.0.borrow_mut().extend(bytes);
            Ok(bytes.len())
        }
        fn flush(&mut self) -> io::Result<()> {
            Ok(())
        }
    }
    struct Asks<'a> {
        seen: &'a RefCell<Vec<u8>>,
        steps: Vec<(&'a str, &'a [u8])>,
    }
    impl Read for Asks<'_> {
        fn read(&mut self, buffer: &mut [u8]) -> io::Result<usize> {
            let (due, piece) = self.steps.remove(0);
            assert_eq!(self.seen.take(), due.as_bytes());
            buffer[..piece.len()].copy_from_slice(piece);
            Ok(piece.len())
        }
    }
    let seen = RefCell::new(Vec::new());
    let steps: Vec<(&str, &[u8])> = vec![
        ("", b"0000"),
        ("", b"1001"),
        ("", b"\n"),
        (HEADING, b"c."),
        ("", b"st"),
        ("", b"\nx"),
        ("c.st 1 1 0 0 0 2\n", b"\n\na.st"),
        ("x bad\nbad\n", b""),
    ];
    let input = Asks { seen: &seen, steps };
    report(input, Seen(&seen), file).unwrap();
    assert_eq!(seen.take(), b"a.st 0 0 0 0 0 0\nsum 1 1 0 0 0 2\n");
}

#[test]
fn no_more_of_a_file_is_read_than_shows_that_it_is_too_long() {
    assert_eq!(READ_MAX, 38_013);
    let store = encode(EDITION_2, &full(EDITION_2));
    assert_eq!(contents(&store[..]), Some(store.clone()));
    let endless = contents(io::repeat(0)).unwrap();
    assert_eq!(endless.len(), READ_MAX);
    assert_eq!(counts(&endless, 0), None);
    // A store of edition 1 at the front of a longer file is no store.
    let small = encode(EDITION_1, &entries(&[1]));
    assert_eq!(
        counts(&contents(small.chain(io::repeat(0))).unwrap(), 0),
        None
    );
}

/// The first read fails, as that of a directory does, or one behind a whole store.
#[test]
fn a_read_that_fails_makes_the_file_bad() {
    struct Fails;
    impl Read for Fails {
        fn read(&mut self, _: &mut [u8]) -> io::Result<usize> {
            Err(io::ErrorKind::Other.into())
        }
    }
    assert_eq!(contents(Fails), None);
    let store = encode(EDITION_1, &entries(&[1]));
    assert_eq!(contents(store.chain(Fails)), None);
    assert_eq!(contents(store[..100].chain(Fails)), None);
}
