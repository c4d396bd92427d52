//! The depot of examples/report: twelve tugs on 18 November 2026.

use std::fs;
use std::io;
use std::path::Path;

use reference::store::{encode, Edition, Entry, KeyIdentifier, EDITION_1, EDITION_2};
use reference::Identity;

use crate::stores::CENTRE;

/// Bytes of odd parity, the same for every key: nobody takes them for a key in use.
const KMAC: [u8; 8] = [0x01, 0x02, 0x04, 0x07, 0x08, 0x0b, 0x0d, 0x0e];

/// Moments as the host brings them: year, month, day, hour, so that their numbers stand in the order of time.
const YEAR: [u32; 2] = [0x2601_0100, 0x2612_3123];
const NEXT_YEAR: [u32; 2] = [0x2701_0100, 0x2712_3123];
const OCTOBER: [u32; 2] = [0x2610_0100, 0x2610_3123];
const NOW: u32 = 0x2611_1812;
const TOMORROW: u32 = 0x2611_1912;
const ENDLESS: u32 = 0xffff_ffff;

/// From the start of the year to this moment.
const fn until(end: u32) -> [u32; 2] {
    [YEAR[0], end]
}

/// A radio block centre of the first railway, or of the second.
fn centre(railway: u8, number: u32) -> Identity {
    [0x01, railway, 0x01, number as u8]
}

const FIRST: u8 = 0x00;
const SECOND: u8 = 0x40;

fn key(serial: u32, [start, end]: [u32; 2], peers: Vec<Identity>) -> Entry {
    Entry {
        key: KeyIdentifier {
            issuer: CENTRE,
            serial: serial.to_be_bytes(),
        },
        kmac: std::array::from_fn(|i| KMAC[i % 8]),
        start,
        end,
        peers,
    }
}

/// The keys of a tug of the first railway, one for each radio block centre.
fn keys(tug: u32, periods: &[[u32; 2]]) -> Vec<Entry> {
    (1..)
        .zip(periods)
        .map(|(n, &period)| key(tug * 0x100 + n, period, vec![centre(FIRST, n)]))
        .collect()
}

/// A tug of the border depot: keys of the first railway, of the second, and for both.
fn border(tug: u32, count: u32, period: impl Fn(u32) -> [u32; 2]) -> Vec<Entry> {
    let peers = |n: u32| match n % 3 {
        0 => vec![centre(FIRST, n), centre(SECOND, n)],
        1 => vec![centre(FIRST, n)],
        _ => vec![centre(SECOND, n)],
    };
    (1..=count)
        .map(|n| key(tug * 0x1000 + n, period(n), peers(n)))
        .collect()
}

fn tugs() -> Vec<(Edition, Vec<Entry>)> {
    let small = |tug, periods: &[[u32; 2]]| (EDITION_1, keys(tug, periods));
    vec![
        // All in order.
        small(1, &[YEAR, YEAR, YEAR]),
        // One key ends this evening.
        small(2, &[YEAR, until(0x2611_1818)]),
        // The only key ends at midnight: none is left tomorrow.
        small(3, &[until(0x2611_1823)]),
        // One key ends at six in the morning, and the next one begins then: as many fit as before.
        small(4, &[until(0x2611_1906), [0x2611_1906, YEAR[1]]]),
        // One ended in October.
        small(5, &[OCTOBER, YEAR]),
        // Torn below.
        small(6, &[YEAR, YEAR]),
        // One has its start and its end exchanged: it never fits.
        small(7, &[YEAR, [YEAR[1], YEAR[0]]]),
        // A new tug that has no keys yet.
        small(8, &[]),
        // One ends this hour and one in the same hour tomorrow, which still fits then.
        small(9, &[until(NOW), until(TOMORROW), YEAR, YEAR]),
        // The keys of the next year are there already.
        small(10, &[YEAR, YEAR, NEXT_YEAR, NEXT_YEAR]),
        // Five keys of the second railway end tomorrow at eleven.
        (
            EDITION_2,
            border(11, 75, |n| match n {
                5 | 20 | 35 | 50 | 65 => until(TOMORROW - 1),
                _ => YEAR,
            }),
        ),
        // Keys without end, and a few that ended.
        (
            EDITION_2,
            border(12, 120, |n| match n % 20 {
                0 => OCTOBER,
                1 => NEXT_YEAR,
                _ => [YEAR[0], ENDLESS],
            }),
        ),
    ]
}

/// What was written of the torn file when power went.
const TORN: usize = 2048;

pub fn write(folder: &Path) -> io::Result<()> {
    for (number, (edition, entries)) in (1..).zip(tugs()) {
        let mut store = encode(edition, &entries);
        if number == 6 {
            store.truncate(TORN);
        }
        fs::write(folder.join(format!("tug-{number:02}.st")), store)?;
    }
    Ok(())
}
