//! DES blocks, session keys, and data units built and checked.

use reference::authentication::mac;

use crate::both::{Both, Step};
use crate::layout::LENGTHS;
use crate::scene::OUTPUT;
use reference::random::Random;

const DIRECTIONS: [u8; 4] = [0, 1, 2, 255];
const KEY_LENGTHS: [usize; 7] = [0, 8, 16, 23, 24, 25, 48];
/// The first byte of a DT unit without its direction flag.
const FIRST: u8 = 0b0000_1010;

pub fn all(both: &mut Both, seed: u64) -> Step {
    let mut random = Random::new(seed ^ 41);
    blocks(both, &mut random)?;
    session_keys(both, &mut random)?;
    builds(both, &mut random)?;
    units_of_every_length(both, &mut random)?;
    every_first_byte(both, &mut random)?;
    for length in [1, 2, 8, 9, 10, 114, 1023] {
        every_bit(both, &mut random, length)?;
    }
    Ok(())
}

/// One bit of key and block set, all bits alike, and random ones.
fn blocks(both: &mut Both, random: &mut Random) -> Step {
    let single = |bit: u32| (1u64 << bit).to_be_bytes();
    for key in 0..64 {
        for block in 0..64 {
            both.des(&single(key), &single(block))?;
        }
    }
    for fill in [0x00, 0xff, 0x01, 0xfe, 0x1f, 0xe0] {
        both.des(&[fill; 8], &random.array())?;
        both.des(&random.array(), &[fill; 8])?;
    }
    for _ in 0..3000 {
        both.des(&random.array(), &random.array())?;
    }
    Ok(())
}

fn session_keys(both: &mut Both, random: &mut Random) -> Step {
    for _ in 0..300 {
        for length in KEY_LENGTHS {
            let kmac = random.bytes(length);
            both.session_keys(&kmac, &random.array(), &random.array())?;
        }
    }
    Ok(())
}

/// All of a wrong key length, output length and data length, together.
fn builds(both: &mut Both, random: &mut Random) -> Step {
    for key in KEY_LENGTHS {
        for out in [0, 9, 1031, 1032, 1033] {
            for data in [0, 1, 1022, 1023, 1024, 2000] {
                let (key, user) = (random.bytes(key), random.bytes(data));
                let direction = random.pick(&DIRECTIONS);
                both.build(&key, &random.array(), direction, &user, &vec![0xee; out])?;
            }
        }
    }
    Ok(())
}

/// A unit with a right MAC of every length, 9 and 1,033 bytes among them, in each direction.
fn units_of_every_length(both: &mut Both, random: &mut Random) -> Step {
    for length in 0..=1025 {
        let key: [u8; 24] = random.array();
        let destination = random.array();
        let direction = random.pick(&DIRECTIONS);
        let user = random.bytes(length);
        both.build(&key, &destination, direction, &user, &OUTPUT)?;
        let unit = unit(&key, &destination, FIRST | u8::from(direction != 0), &user);
        let other_key = random.bytes(KEY_LENGTHS[length % KEY_LENGTHS.len()]);
        both.check(&unit, &other_key, &destination, direction)?;
        for direction in DIRECTIONS {
            both.check(&unit, &key, &destination, direction)?;
        }
        both.check(&unit[..length.min(8)], &key, &destination, direction)?;
    }
    Ok(())
}

/// A unit with any first byte and a right MAC.
fn unit(key: &[u8; 24], destination: &[u8; 3], first: u8, user: &[u8]) -> Vec<u8> {
    let message = [&[first], user].concat();
    [&message[..], &mac(key, destination, &message)].concat()
}

/// Every ETY, MTI and direction flag under a right MAC.
fn every_first_byte(both: &mut Both, random: &mut Random) -> Step {
    for length in [0, 1, 9, 1023, 1024] {
        for first in 0..=255 {
            let (key, destination) = (random.array(), random.array());
            let unit = unit(&key, &destination, first, &random.bytes(length));
            for direction in DIRECTIONS {
                both.check(&unit, &key, &destination, direction)?;
            }
        }
    }
    Ok(())
}

/// Each bit of unit, key and destination flipped in turn, and the unit cut or grown by one.
fn every_bit(both: &mut Both, random: &mut Random, length: usize) -> Step {
    let (key, destination): ([u8; 24], [u8; 3]) = (random.array(), random.array());
    let unit = unit(&key, &destination, FIRST, &random.bytes(length));
    for bit in 0..8 * unit.len() {
        both.check(&flipped(&unit, bit), &key, &destination, 0)?;
    }
    for bit in 0..8 * 24 {
        both.check(&unit, &flipped(&key, bit), &destination, 0)?;
    }
    for bit in 0..8 * 3 {
        let mut other = destination;
        other[bit / 8] ^= 1 << (bit % 8);
        both.check(&unit, &key, &other, 0)?;
    }
    both.check(&unit[1..], &key, &destination, 0)?;
    both.check(&unit[..unit.len() - 1], &key, &destination, 0)?;
    both.check(&[&unit[..], &[0]].concat(), &key, &destination, 0)?;
    Ok(())
}

fn flipped(bytes: &[u8], bit: usize) -> Vec<u8> {
    let mut other = bytes.to_vec();
    other[bit / 8] ^= 1 << (bit % 8);
    other
}

/// A few calls with random keys and data, lengths wrong now and then.
pub fn some(both: &mut Both, seed: u64) -> Step {
    let mut random = Random::new(seed);
    for _ in 0..20 {
        both.des(&random.array(), &random.array())?;
        let length = if random.one_in(8) {
            random.pick(&KEY_LENGTHS)
        } else {
            24
        };
        let key = random.bytes(length);
        both.session_keys(&key, &random.array(), &random.array())?;
        let length = random.pick(&[0, 1, 2, 3, 10, 100, 1022, 1023, 1024]) + random.below(3);
        let (user, destination) = (random.bytes(length), random.array());
        let direction = random.pick(&DIRECTIONS);
        let out = random.pick(&[1031, 1032, 1032, 1032, 1033]);
        both.build(&key, &destination, direction, &user, &vec![0xee; out])?;
        let Ok(key) = <[u8; 24]>::try_from(key) else {
            both.check(&user, &random.bytes(23), &destination, direction)?;
            continue;
        };
        let unit = unit(&key, &destination, FIRST | u8::from(direction != 0), &user);
        both.check(&unit, &key, &destination, direction)?;
        both.check(&unit, &key, &destination, random.u8() & 1)?;
        let bit = random.below(8 * unit.len());
        both.check(&flipped(&unit, bit), &key, &destination, direction)?;
    }
    both.empty_store(&random.bytes(3852))?;
    both.empty_store(&random.bytes(38012))?;
    let length = random.pick(&LENGTHS);
    both.empty_store(&random.bytes(length))
}
