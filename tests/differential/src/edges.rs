//! Messages with every field damaged in turn, faults together, every length, torn commands,
//! sequence numbers around the wrap, and session bytes of every kind.

use reference::message::kind;
use reference::session::{CLOSED, OPEN, WAITING};
use reference::store::{Edition, EDITIONS, EDITION_1};

use crate::both::{Both, Step, World};
use crate::layout::LENGTHS;
use crate::library::{NUMBER_AT, REMEMBERED_AT, UNUSED_AT};
use crate::scene::{Scene, OUTPUT};
use crate::stores::other_digit;
use crate::wire::{self, LENGTH_MAX};
use crate::wire::{RECEIVER_AT, SENDER_AT, SEQUENCE_AT, TRANSACTION_AT, TYPE_AT, VERSION_AT};
use reference::random::Random;

pub fn all(both: &mut Both, seed: u64) -> Step {
    for edition in EDITIONS {
        refusal_orders(both, edition, seed)?;
        every_bit(both, edition, seed)?;
        every_length(both, edition, seed)?;
        fault_orders(both, edition, seed)?;
        torn_add(both, edition, seed)?;
        sequence_numbers(both, edition, seed)?;
        session_bytes(both, edition, seed)?;
        session_inits(both, edition, seed)?;
    }
    begins(both, seed)
}

/// All of a wrong store length, output length, state and message length, together. A length of
/// the other edition has a header that does not fit it.
fn refusal_orders(both: &mut Both, edition: Edition, seed: u64) -> Step {
    let mut scene = Scene::new(edition, seed);
    let long = scene.long_delete();
    for state in [CLOSED, WAITING, OPEN, 3, 255] {
        for store in LENGTHS {
            for out in [0, 1, 1031, 1032, 1033] {
                for length in [0, 1, 4, 19, 20, 21, 22, 4999, 5000, 5001, 5002] {
                    let mut message = long.clone();
                    message.resize(length, 0);
                    if length >= 4 {
                        wire::set_length(&mut message);
                    }
                    let mut world = scene.world(state);
                    world.store.resize(store, 0);
                    both.receive(&mut world, &message, &vec![0xee; out])?;
                }
            }
        }
    }
    Ok(())
}

impl Scene {
    /// 500 requests to delete, the first of them for the held keys.
    fn long_delete(&mut self) -> Vec<u8> {
        let held = self
            .entries
            .iter()
            .map(|entry| wire::k_identifier(&entry.key));
        let mut requests: Vec<Vec<u8>> = held.collect();
        requests.resize(500, vec![0x77; 8]);
        self.message(kind::DELETE_KEYS, &wire::body(&requests))
    }

    /// An add command of 5,000 bytes: 94 keys.
    fn long_add(&mut self) -> Vec<u8> {
        let peer_count = |i: usize| if i < 46 { 2 } else { 1 };
        let requests: Vec<Vec<u8>> = (0..94).map(|i| self.k_struct(peer_count(i))).collect();
        let message = self.message(kind::ADD_KEYS, &wire::body(&requests));
        assert_eq!(message.len(), LENGTH_MAX);
        message
    }
}

/// Each bit of each message flipped, and each byte set to 0, one more and one less.
fn every_bit(both: &mut Both, edition: Edition, seed: u64) -> Step {
    let mut scene = Scene::new(edition, seed ^ 1);
    for message in scene.messages() {
        for state in [WAITING, OPEN] {
            both.receive(&mut scene.world(state), &message, &OUTPUT)?;
            for at in 0..message.len() {
                for wrong in wrong_bytes(message[at]) {
                    let mut damaged = message.clone();
                    damaged[at] = wrong;
                    both.receive(&mut scene.world(state), &damaged, &OUTPUT)?;
                }
            }
        }
    }
    Ok(())
}

fn wrong_bytes(byte: u8) -> Vec<u8> {
    let mut bytes: Vec<u8> = (0..8).map(|bit| byte ^ 1 << bit).collect();
    bytes.extend([0, 255, byte.wrapping_add(1), byte.wrapping_sub(1)]);
    bytes
}

/// Each message cut at every byte and grown by up to three, the length field as it was or right.
fn every_length(both: &mut Both, edition: Edition, seed: u64) -> Step {
    let mut scene = Scene::new(edition, seed ^ 2);
    for message in scene.messages() {
        for state in [WAITING, OPEN] {
            for length in 0..message.len() + 4 {
                cut(both, &scene.world(state), &message, length)?;
            }
        }
    }
    Ok(())
}

/// A message of another length, first with its own length field and then with a right one.
fn cut(both: &mut Both, world: &World, message: &[u8], length: usize) -> Step {
    let mut other = message.to_vec();
    other.resize(length, 0);
    both.receive(&mut world.clone(), &other, &OUTPUT)?;
    if length >= 4 {
        wire::set_length(&mut other);
        both.receive(&mut world.clone(), &other, &OUTPUT)?;
    }
    Ok(())
}

/// Every set of faults in length, version, receiver, sender, sequence, type, body and store.
fn fault_orders(both: &mut Both, edition: Edition, seed: u64) -> Step {
    let mut scene = Scene::new(edition, seed ^ 3);
    for message in scene.messages() {
        for faults in 0..256u32 {
            for state in [WAITING, OPEN] {
                let mut world = scene.world(state);
                let wrong = with_faults(&mut scene.random, &message, faults & 0x7f);
                if faults & 0x80 != 0 {
                    world.store[edition.length() - 1] ^= 1;
                }
                both.receive(&mut world, &wrong, &OUTPUT)?;
            }
        }
    }
    Ok(())
}

/// The message with a fault for each bit of `faults`.
pub fn with_faults(random: &mut Random, message: &[u8], faults: u32) -> Vec<u8> {
    let mut wrong = message.to_vec();
    let has = |bit: u32| faults >> bit & 1 == 1;
    if has(6) {
        wrong.push(0);
        wire::set_length(&mut wrong);
    }
    if has(0) {
        wrong[3] ^= 1 << random.below(8);
    }
    if has(1) {
        wrong[VERSION_AT] = random.pick(&[0, 1, 3, 255]);
    }
    for (bit, at) in [(2, RECEIVER_AT), (3, SENDER_AT)] {
        if has(bit) {
            let identity = [wrong[at], wrong[at + 1], wrong[at + 2], wrong[at + 3]];
            wrong[at..at + 4].copy_from_slice(&other_digit(random, identity));
        }
    }
    if has(4) {
        wrong[SEQUENCE_AT + random.below(2)] ^= 1 << random.below(8);
    }
    if has(5) {
        wrong[TYPE_AT] = random.pick(&[5, 6, 9, 11, 14, 255]);
    }
    wrong
}

/// A key list of 5,000 bytes torn at every byte, over a store that has room for 50 of its 94 keys.
fn torn_add(both: &mut Both, edition: Edition, seed: u64) -> Step {
    let mut scene = Scene::new(edition, seed ^ 4);
    let message = scene.long_add();
    let held = edition.keys_max - 50;
    let entries = scene.names.entries(&mut scene.random, held, 4);
    let world = scene.over(&entries);
    for length in 0..=message.len() + 1 {
        cut(both, &world, &message, length)?;
    }
    Ok(())
}

/// Numbers expected, received, own and begun with, around the wrap.
fn sequence_numbers(both: &mut Both, edition: Edition, seed: u64) -> Step {
    const NUMBERS: [u16; 8] = [0, 1, 255, 256, 32767, 32768, 65534, 65535];
    let mut scene = Scene::new(edition, seed ^ 5);
    for number in NUMBERS {
        for other in NUMBERS {
            for mut message in scene.messages() {
                message[SEQUENCE_AT..TYPE_AT].copy_from_slice(&number.to_be_bytes());
                for state in [WAITING, OPEN] {
                    let mut world = scene.world(state);
                    world.session[4..6].copy_from_slice(&other.to_be_bytes());
                    world.session[2..4].copy_from_slice(&number.to_be_bytes());
                    both.receive(&mut world, &message, &OUTPUT)?;
                }
            }
        }
    }
    Ok(())
}

/// Every state code and every byte that says whether a transaction number is remembered, with the
/// message's own number and another one, and any bytes in the unused part of the session.
fn session_bytes(both: &mut Both, edition: Edition, seed: u64) -> Step {
    let mut scene = Scene::new(edition, seed ^ 6);
    for message in scene.messages() {
        for state in 0..=255 {
            let mut world = scene.world(state);
            world.session[UNUSED_AT..].copy_from_slice(&scene.random.array::<14>());
            world.session[REMEMBERED_AT] = scene.random.u8();
            both.receive(&mut world.clone(), &message, &OUTPUT)?;
            let own = &message[TRANSACTION_AT..SEQUENCE_AT];
            world.session[NUMBER_AT..UNUSED_AT].copy_from_slice(own);
            both.receive(&mut world.clone(), &message, &OUTPUT)?;
            both.receive(&mut world, &message[..19], &OUTPUT)?;
            world.session = scene.random.array();
            world.session[0] = state;
            both.receive(&mut world, &message, &OUTPUT)?;
        }
        for flag in 0..=255 {
            let mut world = scene.world(OPEN);
            world.session[UNUSED_AT..].copy_from_slice(&scene.random.array::<14>());
            world.session[REMEMBERED_AT] = flag;
            both.receive(&mut world.clone(), &message, &OUTPUT)?;
            let own = &message[TRANSACTION_AT..SEQUENCE_AT];
            world.session[NUMBER_AT..UNUSED_AT].copy_from_slice(own);
            both.receive(&mut world, &message, &OUTPUT)?;
        }
    }
    Ok(())
}

/// Lists of every length with version 2 first, last, anywhere or nowhere, and a byte more or less.
fn session_inits(both: &mut Both, edition: Edition, seed: u64) -> Step {
    let mut scene = Scene::new(edition, seed ^ 8);
    for count in 0..=255 {
        let places = [0, count.max(1) - 1, scene.random.below(count + 1), count];
        for place in places {
            let mut versions = vec![3; count];
            if let Some(version) = versions.get_mut(place) {
                *version = 2;
            }
            let body = wire::init_body(&versions, scene.random.pick(&[0, 2, 5, 255]));
            let message = scene.message(kind::SESSION_INIT, &body);
            for length in message.len() - 1..=message.len() + 1 {
                cut(both, &scene.world(WAITING), &message, length)?;
            }
        }
    }
    Ok(())
}

/// Identities that are equal or differ in one bit, numbers around the wrap, output lengths.
fn begins(both: &mut Both, seed: u64) -> Step {
    let mut scene = Scene::new(EDITION_1, seed ^ 7);
    for number in [0, 1, 255, 256, 65534, 65535] {
        for bit in 0..=32 {
            for out in [0, 22, 23, 1031, 1032, 1033, 5000] {
                let own = scene.random.u32();
                let peer = own ^ (1u64 << bit) as u32;
                let mut world = scene.world(OPEN);
                world.session = scene.random.array();
                both.begin(&mut world, (own, peer), number, &vec![0xee; out])?;
            }
        }
    }
    Ok(())
}
