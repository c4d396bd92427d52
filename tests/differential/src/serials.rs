//! Identifiers that are alike in much of their bytes: serials with the same low bits, one serial
//! under many issuers. All of a store's differ, or one stands there twice.

use reference::message::kind;
use reference::store::{Entry, KeyIdentifier, EDITIONS};

use crate::both::{Both, Step};
use crate::scene::{Scene, OUTPUT};
use crate::wire;
use reference::random::Random;

/// How the identifiers of a store follow each other.
#[derive(Clone, Copy)]
enum Pattern {
    /// One issuer, and serials by a step; those of a large step are alike in their low bits.
    Step(u32),
    /// One issuer and any serials.
    Any,
    /// Each serial twice, under two issuers.
    TwoIssuers,
    /// One serial under issuers that follow each other.
    OneSerial,
    /// Issuers rise and serials fall, so that their sums are the same.
    OneSum,
    /// The two numbers of each second identifier are those of the one before it, exchanged.
    Exchanged,
}

const PATTERNS: [Pattern; 14] = [
    Pattern::Step(1),
    Pattern::Step(3),
    Pattern::Step(1 << 8),
    Pattern::Step(1 << 9),
    Pattern::Step(1 << 10),
    Pattern::Step(1 << 12),
    Pattern::Step(1 << 13),
    Pattern::Step(1 << 16),
    Pattern::Step(1 << 23),
    Pattern::Any,
    Pattern::TwoIssuers,
    Pattern::OneSerial,
    Pattern::OneSum,
    Pattern::Exchanged,
];

pub fn all(both: &mut Both, seed: u64) -> Step {
    for edition in EDITIONS {
        for (turn, pattern) in PATTERNS.into_iter().enumerate() {
            for keys in [
                edition.keys_max,
                edition.keys_max - 3,
                65.min(edition.keys_max / 2),
            ] {
                let mut scene = Scene::new(edition, seed ^ (600 + turn as u64));
                let mut entries = entries(&mut scene, pattern, keys);
                meet(both, &mut scene, &entries)?;
                scene.random.shuffle(&mut entries);
                meet(both, &mut scene, &entries)?;
            }
        }
    }
    Ok(())
}

/// Entries whose identifiers follow the pattern and differ.
fn entries(scene: &mut Scene, pattern: Pattern, keys: usize) -> Vec<Entry> {
    let mut entries = scene.names.entries(&mut scene.random, keys, 2);
    let (issuer, serial) = (scene.random.u32(), scene.random.u32());
    for (place, entry) in entries.iter_mut().enumerate() {
        entry.key = key(&mut scene.random, pattern, (issuer, serial), place as u32);
    }
    entries
}

/// The identifier of a place, counted from the pattern's first.
fn key(
    random: &mut Random,
    pattern: Pattern,
    (issuer, serial): (u32, u32),
    place: u32,
) -> KeyIdentifier {
    let half = place / 2;
    let is_second = place % 2 == 1;
    let (issuer, serial) = match pattern {
        Pattern::Step(step) => (issuer, serial.wrapping_add(place.wrapping_mul(step))),
        Pattern::Any => (issuer, random.u32()),
        Pattern::TwoIssuers => (issuer ^ u32::from(is_second), serial.wrapping_add(half)),
        Pattern::OneSerial => (issuer.wrapping_add(place), serial),
        Pattern::OneSum => (issuer.wrapping_add(place), serial.wrapping_sub(place)),
        Pattern::Exchanged if is_second => (serial, issuer.wrapping_add(half)),
        Pattern::Exchanged => (issuer.wrapping_add(half), serial),
    };
    KeyIdentifier {
        issuer: issuer.to_be_bytes(),
        serial: serial.to_be_bytes(),
    }
}

/// The store as it is, with one identifier twice, and with two that differ in one bit.
fn meet(both: &mut Both, scene: &mut Scene, entries: &[Entry]) -> Step {
    adds(both, scene, entries)?;
    for (first, second) in places(&mut scene.random, entries.len()) {
        let mut other = entries.to_vec();
        other[second].key = other[first].key;
        judge(both, scene, &other, first)?;
        let bit = scene.random.below(8);
        match scene.random.below(8) {
            at @ 0..=3 => other[second].key.issuer[at] ^= 1 << bit,
            at => other[second].key.serial[at - 4] ^= 1 << bit,
        }
        judge(both, scene, &other, first)?;
    }
    Ok(())
}

/// Two places: at the ends, in the middle, neighbours, and any.
fn places(random: &mut Random, keys: usize) -> Vec<(usize, usize)> {
    let (last, middle) = (keys - 1, keys / 2);
    let mut places = vec![
        (0, 1),
        (0, last),
        (last - 1, last),
        (middle - 1, middle),
        (0, middle),
        (middle, last),
    ];
    for _ in 0..6 {
        let first = random.below(last);
        places.push((first, random.between(first + 1, last)));
    }
    places
}

/// A search and an update, which ask whether the store is sound.
fn judge(both: &mut Both, scene: &Scene, entries: &[Entry], place: usize) -> Step {
    let mut world = scene.over(entries);
    let entry = &entries[place];
    let peer = entry
        .peers
        .first()
        .map_or(0, |&peer| u32::from_be_bytes(peer));
    both.find(&world.store, peer, entry.start)?;
    let request = wire::k_validity(&entry.key, 4, 6);
    let message = scene.message(kind::UPDATE_KEY_VALIDITIES, &wire::body(&[request]));
    both.receive(&mut world, &message, &OUTPUT)?;
    Ok(())
}

/// Adds of keys that are held, and of keys that are alike in serial or issuer and not held.
fn adds(both: &mut Both, scene: &mut Scene, entries: &[Entry]) -> Step {
    let last = entries.len() - 1;
    let mut requests = Vec::new();
    for place in [0, 1, last / 2, last - 1, last] {
        let KeyIdentifier { issuer, serial } = entries[place].key;
        let number = u32::from_be_bytes(serial);
        let others = [0, 1 << 8, 1 << 10, 1 << 13, 1 << 16, 1 << 31].map(|step| KeyIdentifier {
            issuer,
            serial: number.wrapping_sub(step).to_be_bytes(),
        });
        let exchanged = KeyIdentifier {
            issuer: serial,
            serial: issuer,
        };
        for key in others.into_iter().chain([exchanged]) {
            let mut entry = scene.fresh(1);
            entry.key = key;
            requests.push(wire::k_struct(&scene.names.own, &entry));
        }
    }
    let mut world = scene.over(entries);
    let message = scene.message(kind::ADD_KEYS, &wire::body(&requests));
    both.receive(&mut world, &message, &OUTPUT)?;
    Ok(())
}

#[cfg(test)]
mod tests {
    use super::{entries, PATTERNS};
    use crate::scene::Scene;
    use reference::store::{decode, EDITIONS};

    #[test]
    fn every_pattern_makes_sound_stores() {
        for edition in EDITIONS {
            for (turn, pattern) in PATTERNS.into_iter().enumerate() {
                let mut scene = Scene::new(edition, turn as u64);
                let entries = entries(&mut scene, pattern, edition.keys_max);
                assert_eq!(decode(&scene.store(&entries)), Some(entries));
            }
        }
    }
}
