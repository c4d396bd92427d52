//! Stores of each edition made ones of the other (change request 6): counts at and beside the limits
//! of edition 1, unsound sources, buffers of every length, and what searches find before and after.

use reference::refusal::H14;
use reference::store::{encode, peer_sum, Edition, Entry, EDITIONS, EDITION_1, EDITION_2};

use crate::both::{convert_call, named, Both, Step};
use crate::compare::{buffers, numbers};
use crate::faults::{unsound, FAULTS};
use crate::layout::{held, kmac, kmac_at, other, KEYS_AT, LENGTHS};
use crate::pairs::vary;
use crate::scene::Scene;
use crate::search::around;
use crate::soundness::{chosen_bytes, with_other_header};
use crate::stores::Names;
use crate::tally::Tally;
use reference::random::Random;

/// Around the limits of edition 1, and at both ends of what edition 2 takes.
const KEYS: [usize; 9] = [0, 1, 62, 63, 64, 65, 66, 499, 500];
const PEERS: [usize; 9] = [0, 1, 254, 255, 256, 257, 258, 3999, 4000];

/// Keys and peers of stores that edition 1 has room for, and of such that it has not: for their
/// keys, their peers and both.
const WITH_ROOM: [(usize, usize); 5] = [(1, 1), (5, 20), (64, 64), (1, 256), (64, 256)];
const WITH_NO_ROOM: [(usize, usize); 6] = [
    (65, 65),
    (3, 257),
    (65, 257),
    (500, 500),
    (1, 4000),
    (500, 4000),
];

pub fn all(both: &mut Both, seed: u64) -> Step {
    for source in EDITIONS {
        counts(both, source, seed)?;
        sound_stores(both, source, seed)?;
        peers_apart(both, source, seed)?;
        every_fault(both, source, seed)?;
        other_headers(both, source, seed)?;
        chosen_bits(both, source, seed)?;
        garbage(both, source, seed)?;
        lengths(both, source, seed)?;
        other_kmacs(both, source, seed)?;
    }
    Ok(())
}

/// The counts of keys and of peers that a store of this edition can have together.
fn sizes(source: Edition) -> Vec<(usize, usize)> {
    let can_hold = |keys, peers| {
        keys <= source.keys_max && peers <= source.peers_max && (keys > 0 || peers == 0)
    };
    let all = KEYS
        .into_iter()
        .flat_map(|keys| PEERS.map(|peers| (keys, peers)));
    all.filter(|&(keys, peers)| can_hold(keys, peers)).collect()
}

/// Some of them, of each kind.
fn some_sizes(source: Edition) -> Vec<(usize, usize)> {
    match source {
        EDITION_1 => WITH_ROOM.to_vec(),
        _ => [&WITH_ROOM[..], &WITH_NO_ROOM].concat(),
    }
}

/// All counts together, the peers dealt in several ways.
fn counts(both: &mut Both, source: Edition, seed: u64) -> Step {
    for turn in 0..3 {
        let mut scene = Scene::new(source, seed ^ (600 + turn));
        for (keys, peers) in sizes(source) {
            let entries = scene.names.counted(&mut scene.random, keys, peers);
            there_and_back(both, &mut scene, &entries)?;
            let ends = entries.iter().take(1).chain(entries.last());
            searched(both, &mut scene, &entries, ends)?;
        }
    }
    Ok(())
}

/// The answer that change request 6 tells for a sound store, by the list that the store was made of;
/// `Conversion::due` reads the counts from the store.
fn due(source: Edition, entries: &[Entry]) -> i32 {
    let too_many = entries.len() > EDITION_1.keys_max || peer_sum(entries) > EDITION_1.peers_max;
    match source {
        EDITION_2 if too_many => -i32::from(H14),
        _ => 0,
    }
}

/// What may stand in a target: bytes that are all alike, any bytes, a full store of its edition, the
/// empty one, and the source cut or grown.
fn targets(random: &mut Random, target: Edition, from: &[u8]) -> [Vec<u8>; 6] {
    let names = Names::new(target, random);
    let full = names.filled(random, target.keys_max, 0);
    let mut resized = from.to_vec();
    resized.resize(target.length(), 0);
    [
        vec![0xff; target.length()],
        vec![0; target.length()],
        random.bytes(target.length()),
        encode(target, &full),
        encode(target, &[]),
        resized,
    ]
}

/// Over each target the answer that is due; where it is 0, back over each target to the same bytes.
fn there_and_back(both: &mut Both, scene: &mut Scene, entries: &[Entry]) -> Step {
    let (source, from) = (scene.names.edition, scene.store(entries));
    let target = other(source);
    let there = targets(&mut scene.random, target, &from);
    let back = targets(&mut scene.random, source, &there[3]);
    for (to, back) in there.into_iter().zip(back) {
        let (answer, made) = both.convert(target, &from, &to)?;
        let call = || convert_call(target, &from, to.len());
        let due = due(source, entries).into();
        named(call, || numbers("answer of the papers", due, answer.into()))?;
        if answer == 0 {
            returned(both, source, &made, &back, &from)?;
        }
    }
    Ok(())
}

/// The way back from a store that was made of another, which comes again.
fn returned(both: &mut Both, source: Edition, made: &[u8], to: &[u8], from: &[u8]) -> Step {
    let (answer, again) = both.convert(source, made, to)?;
    named(
        || convert_call(source, made, to.len()),
        || {
            numbers("answer of the way back", 0, answer.into())?;
            buffers("store, there and back", from, &again)
        },
    )
}

/// Searches around these records, before the conversion and after it; none where there is no room.
fn searched<'a>(
    both: &mut Both,
    scene: &mut Scene,
    entries: &[Entry],
    records: impl Iterator<Item = &'a Entry>,
) -> Step {
    let from = scene.store(entries);
    let target = other(scene.names.edition);
    let (answer, made) = both.convert(target, &from, &vec![0xff; target.length()])?;
    if answer != 0 {
        return Ok(());
    }
    for entry in records {
        for (peer, t) in around(&mut scene.random, entry) {
            found_alike(both, [&from, &made], peer, t)?;
        }
    }
    Ok(())
}

/// The answer, the end and the KMAC of one search in two stores.
fn found_alike(both: &mut Both, [from, made]: [&[u8]; 2], peer: u32, t: u32) -> Step {
    let (answer, end) = both.find(from, peer, t)?;
    let (answer_after, end_after) = both.find(made, peer, t)?;
    let call = || format!("a search before a conversion and after, peer {peer:08x}, t {t:08x}");
    named(call, || {
        numbers("answer", answer.into(), answer_after.into())?;
        buffers("end", &end, &end_after)?;
        match usize::try_from(answer) {
            Ok(place) => buffers("KMAC", kmac(from, place - 1), kmac(made, place - 1)),
            Err(_) => Ok(()),
        }
    })
}

/// Stores of every size, and searches in them.
fn sound_stores(both: &mut Both, source: Edition, seed: u64) -> Step {
    for turn in 0..20 {
        let mut scene = Scene::new(source, seed ^ (610 + turn));
        let entries = scene.names.sound(&mut scene.random);
        there_and_back(both, &mut scene, &entries)?;
        searched(both, &mut scene, &entries, entries.iter())?;
    }
    Ok(())
}

/// As many records as edition 1 takes, with no peer twice: every place is found, before and after.
fn peers_apart(both: &mut Both, source: Edition, seed: u64) -> Step {
    let mut scene = Scene::new(source, seed ^ 631);
    let mut entries = scene.names.apart(&mut scene.random);
    // In edition 2 each record has eight, more altogether than edition 1 takes.
    entries.truncate(EDITION_1.keys_max);
    for entry in &mut entries {
        entry
            .peers
            .truncate(EDITION_1.peers_max / EDITION_1.keys_max);
    }
    there_and_back(both, &mut scene, &entries)?;
    searched(both, &mut scene, &entries, entries.iter())
}

/// Into a target of 0xff.
fn meet(both: &mut Both, source: Edition, from: &[u8]) -> Step {
    let target = other(source);
    let to = vec![0xff; target.length()];
    both.convert(target, from, &to).map(|_| ())
}

/// Each fault in stores of every size, with room in edition 1 and without.
fn every_fault(both: &mut Both, source: Edition, seed: u64) -> Step {
    for turn in 0..8 {
        let mut scene = Scene::new(source, seed ^ (640 + turn));
        let mut lists = vec![scene.names.sound(&mut scene.random)];
        for (keys, peers) in some_sizes(source) {
            lists.push(scene.names.counted(&mut scene.random, keys, peers));
        }
        for entries in lists {
            for fault in FAULTS {
                meet(
                    both,
                    source,
                    &unsound(&mut scene.random, source, &entries, fault),
                )?;
            }
        }
    }
    Ok(())
}

/// Sources with the header of the target's edition, and stores of it cut or grown.
fn other_headers(both: &mut Both, source: Edition, seed: u64) -> Step {
    let mut scene = Scene::new(source, seed ^ 632);
    for (keys, peers) in [(0, 0)].into_iter().chain(WITH_ROOM) {
        let entries = scene.names.counted(&mut scene.random, keys, peers);
        for store in with_other_header(source, &entries) {
            meet(both, source, &store)?;
        }
    }
    Ok(())
}

/// Bits of full stores, and of such that edition 1 has room for.
fn chosen_bits(both: &mut Both, source: Edition, seed: u64) -> Step {
    let mut sizes = vec![(source.keys_max, source.peers_max), (64, 256), (40, 200)];
    sizes.dedup();
    for (keys, peers) in sizes {
        let mut scene = Scene::new(source, seed ^ (650 + keys as u64));
        let entries = scene.names.counted(&mut scene.random, keys, peers);
        let store = scene.store(&entries);
        let chosen = chosen_bytes(source, &entries);
        let mut bits: Vec<usize> = chosen
            .into_iter()
            .flat_map(|at| 8 * at..8 * at + 8)
            .collect();
        bits.extend((0..500).map(|_| scene.random.below(8 * source.length())));
        for bit in bits {
            let mut flipped = store.clone();
            flipped[bit / 8] ^= 1 << (bit % 8);
            meet(both, source, &flipped)?;
        }
    }
    Ok(())
}

/// Sources of any bytes, with and without a right header.
fn garbage(both: &mut Both, source: Edition, seed: u64) -> Step {
    let mut scene = Scene::new(source, seed ^ 633);
    for turn in 0..50 {
        let mut from = scene.random.bytes(source.length());
        if turn % 2 == 0 {
            from[..KEYS_AT].copy_from_slice(&scene.store(&scene.entries)[..KEYS_AT]);
        }
        meet(both, source, &from)?;
    }
    Ok(())
}

/// Source and target of each two lengths: a small store, a full one and an unsound one, cut or grown.
fn lengths(both: &mut Both, source: Edition, seed: u64) -> Step {
    let mut scene = Scene::new(source, seed ^ 634);
    let full = scene.names.filled(&mut scene.random, source.keys_max, 0);
    let mut damaged = scene.store(&scene.entries);
    damaged[KEYS_AT - 1] ^= 1;
    let stores = [scene.store(&scene.entries), scene.store(&full), damaged];
    for store in stores {
        for from_length in LENGTHS {
            let mut from = store.clone();
            from.resize(from_length, 0);
            for to_length in LENGTHS {
                both.convert(other(source), &from, &vec![0xa5; to_length])?;
            }
        }
    }
    Ok(())
}

/// Two stores that differ inside KMAC fields only, byte for byte of one parity, sound and with each
/// fault: the answers are the same, and what becomes of them differs in the same KMACs only.
fn other_kmacs(both: &mut Both, source: Edition, seed: u64) -> Step {
    let target = other(source);
    for (keys, peers) in some_sizes(source) {
        let mut scene = Scene::new(source, seed ^ (700 + keys as u64));
        let entries = scene.names.counted(&mut scene.random, keys, peers);
        let mut stores = vec![scene.store(&entries); 6];
        stores.extend(FAULTS.map(|fault| unsound(&mut scene.random, source, &entries, fault)));
        for first in stores {
            let mut second = first.clone();
            let places: Vec<usize> = (0..held(&first)).map(kmac_at).collect();
            vary(&mut scene.random, &mut second, &places);
            let to = scene.random.bytes(target.length());
            alike(both, target, [&first, &second], &to)?;
        }
    }
    Ok(())
}

fn alike(both: &mut Both, target: Edition, [first, second]: [&[u8]; 2], to: &[u8]) -> Step {
    let (answer, made) = both.convert(target, first, to)?;
    let (other_answer, other_made) = both.convert(target, second, to)?;
    let call = || {
        format!(
            "with other KMACs, {}",
            convert_call(target, first, to.len())
        )
    };
    named(call, || {
        numbers("answer", answer.into(), other_answer.into())?;
        match answer {
            0 => Tally::new(first, second).holds(&made, &other_made),
            _ => Ok(()),
        }
    })
}

#[cfg(test)]
mod tests {
    use super::{sizes, some_sizes, targets};
    use crate::layout::other;
    use crate::scene::Scene;
    use crate::unsound::Verdict;
    use reference::random::Random;
    use reference::store::{EDITIONS, EDITION_1, EDITION_2};

    #[test]
    fn every_count_beside_the_limits_is_among_the_sizes() {
        let second = sizes(EDITION_2);
        // No peers without a key.
        assert_eq!(second.len(), 9 * 9 - 8);
        for size in [
            (64, 256),
            (65, 256),
            (64, 257),
            (65, 257),
            (500, 4000),
            (0, 0),
        ] {
            assert!(second.contains(&size));
        }
        let first = sizes(EDITION_1);
        assert_eq!(first.len(), 5 * 5 - 4);
        assert!(first.contains(&(64, 256)));
        assert!(first.iter().all(|size| second.contains(size)));
    }

    #[test]
    fn sizes_of_each_edition_are_sound() {
        for edition in EDITIONS {
            let mut scene = Scene::new(edition, 1);
            for (keys, peers) in [sizes(edition), some_sizes(edition)].concat() {
                let entries = scene.names.counted(&mut scene.random, keys, peers);
                assert_eq!(Verdict::of(&scene.store(&entries)), Verdict::Sound);
            }
        }
    }

    /// Of the six one is a full store, one the empty one, and the others are none.
    #[test]
    fn targets_are_sound_and_unsound() {
        for edition in EDITIONS {
            let scene = Scene::new(other(edition), 2);
            let from = scene.store(&scene.entries);
            let all = targets(&mut Random::new(1), edition, &from);
            assert!(all.iter().all(|to| to.len() == edition.length()));
            let is_sound = all.map(|to| Verdict::of(&to) == Verdict::Sound);
            assert_eq!(is_sound, [false, false, false, true, true, false]);
        }
    }
}
