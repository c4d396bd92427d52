//! Faults put into a message: one field wrong, or cut, or grown.

use reference::message::kind;

use crate::stores::other_digit;
use crate::wire::{self, HEADER, LENGTH_MAX};
use crate::wire::{RECEIVER_AT, SENDER_AT, SEQUENCE_AT, TYPE_AT, VERSION_AT};
use reference::random::Random;

const COUNTS: [u16; 12] = [0, 1, 97, 100, 101, 250, 251, 500, 501, 1000, 1001, 65535];

/// One fault, or now and then two.
pub fn damage(random: &mut Random, message: &mut Vec<u8>) {
    one(random, message);
    if random.one_in(5) {
        one(random, message);
    }
}

fn one(random: &mut Random, message: &mut Vec<u8>) {
    match random.below(4) {
        0 => in_size(random, message),
        1 if message.len() >= HEADER => in_header(random, message),
        2 if message.len() >= HEADER + 2 => in_body(random, message),
        _ => flip(random, message),
    }
}

fn flip(random: &mut Random, message: &mut [u8]) {
    if message.is_empty() {
        return;
    }
    let at = random.below(message.len());
    message[at] ^= 1 << random.below(8);
}

/// Cut or grown, with the length field as it was or made right.
fn in_size(random: &mut Random, message: &mut Vec<u8>) {
    let length = message.len();
    match random.below(6) {
        0 => message.truncate(random.between(0, length)),
        1 => message.truncate(length.saturating_sub(1)),
        2 => message.push(random.u8()),
        3 => message.truncate(random.pick(&[0, 1, 18, 19, 20, 21, 22])),
        4 => message.resize(LENGTH_MAX, 0),
        _ => message.resize(LENGTH_MAX + random.between(1, 3), 0),
    }
    if message.len() >= 4 && random.one_in(2) {
        wire::set_length(message);
    }
}

fn in_header(random: &mut Random, message: &mut [u8]) {
    let more = random.one_in(2);
    let step = |byte: u8| {
        if more {
            byte.wrapping_add(1)
        } else {
            byte.wrapping_sub(1)
        }
    };
    match random.below(6) {
        0 => message[3] = step(message[3]),
        1 => message[VERSION_AT] = random.pick(&[0, 1, 3, 0x82, 255]),
        2 => other_identity(random, message, RECEIVER_AT),
        3 => other_identity(random, message, SENDER_AT),
        4 => {
            let at = SEQUENCE_AT + random.below(2);
            message[at] = step(message[at]);
        }
        _ => message[TYPE_AT] = random.pick(&[0, 1, 2, 3, 4, 5, 9, 10, 11, 255]),
    }
}

fn other_identity(random: &mut Random, message: &mut [u8], at: usize) {
    let mut identity = [0; 4];
    identity.copy_from_slice(&message[at..at + 4]);
    message[at..at + 4].copy_from_slice(&other_digit(random, identity));
}

/// A count of requests or of peers that is wrong, or a wrong key length.
fn in_body(random: &mut Random, message: &mut [u8]) {
    if random.one_in(2) {
        return set_count(random, message, HEADER);
    }
    let places: &[usize] = match message[TYPE_AT] {
        kind::ADD_KEYS => &[22, 59],
        kind::UPDATE_KEY_ENTITIES => &[30],
        _ => &[HEADER],
    };
    let at = random.pick(places);
    if at + 2 > message.len() {
        return;
    }
    if at == 22 {
        message[at] = random.pick(&[0, 23, 25, 255]);
    } else {
        set_count(random, message, at);
    }
}

/// One more, one less, or a number at the end of a range.
fn set_count(random: &mut Random, message: &mut [u8], at: usize) {
    let count = u16::from_be_bytes([message[at], message[at + 1]]);
    let other = match random.below(3) {
        0 => count.wrapping_add(1),
        1 => count.wrapping_sub(1),
        _ => random.pick(&COUNTS),
    };
    message[at..at + 2].copy_from_slice(&other.to_be_bytes());
}
