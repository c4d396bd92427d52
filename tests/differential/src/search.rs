//! Searches at moments around every start and end, for every peer and for its neighbours.

use reference::store::{Edition, Entry, EDITIONS};

use crate::both::{Both, Step};
use crate::layout::LENGTHS;
use crate::scene::Scene;
use crate::stores::other_digit;
use reference::random::Random;

pub fn all(both: &mut Both, seed: u64) -> Step {
    for edition in EDITIONS {
        sound_stores(both, edition, seed)?;
        peers_apart(both, edition, seed)?;
        every_peer_bit(both, edition, seed)?;
        wrong_lengths(both, edition, seed)?;
    }
    Ok(())
}

/// Stores of every size. Of their records about as many are searched in each edition.
fn sound_stores(both: &mut Both, edition: Edition, seed: u64) -> Step {
    for turn in 0..60 {
        let mut scene = Scene::new(edition, seed ^ (300 + turn));
        let entries = scene.names.sound(&mut scene.random);
        let store = scene.store(&entries);
        for place in some_places(&mut scene.random, entries.len()) {
            search_around(both, &mut scene.random, &store, &entries[place])?;
        }
    }
    Ok(())
}

/// All places of at most 64, and the first, the last and some others of more.
fn some_places(random: &mut Random, count: usize) -> Vec<usize> {
    if count <= 64 {
        return (0..count).collect();
    }
    let others = (0..6).map(|_| random.below(count));
    [0, count - 1].into_iter().chain(others).collect()
}

/// A full store that has no peer twice: moments around the start and the end of each record, and
/// each peer at a moment that fits, so that every place is an answer.
fn peers_apart(both: &mut Both, edition: Edition, seed: u64) -> Step {
    let mut scene = Scene::new(edition, seed ^ 33);
    let entries = scene.names.apart(&mut scene.random);
    let store = scene.store(&entries);
    for entry in &entries {
        search_around(both, &mut scene.random, &store, entry)?;
        for peer in &entry.peers {
            both.find(&store, u32::from_be_bytes(*peer), entry.start)?;
        }
    }
    Ok(())
}

fn search_around(both: &mut Both, random: &mut Random, store: &[u8], entry: &Entry) -> Step {
    for (peer, t) in around(random, entry) {
        both.find(store, peer, t)?;
    }
    Ok(())
}

/// The moments at and beside the start and the end of a record, for some of its peers; none where
/// it has no peer.
pub fn around(random: &mut Random, entry: &Entry) -> Vec<(u32, u32)> {
    let Some((&first, &last)) = entry.peers.first().zip(entry.peers.last()) else {
        return Vec::new();
    };
    let mut searches = Vec::new();
    for peer in [first, last, other_digit(random, first)] {
        for edge in [entry.start, entry.end] {
            for step in [u32::MAX, 0, 1] {
                searches.push((u32::from_be_bytes(peer), edge.wrapping_add(step)));
            }
        }
    }
    searches.extend([0, u32::MAX].map(|t| (u32::from_be_bytes(first), t)));
    searches
}

/// Each bit of a peer that fits and of the moment.
fn every_peer_bit(both: &mut Both, edition: Edition, seed: u64) -> Step {
    let scene = Scene::new(edition, seed ^ 31);
    for entry in &scene.entries {
        let store = scene.store(&scene.entries);
        for peer in &entry.peers {
            let peer = u32::from_be_bytes(*peer);
            for bit in 0..32 {
                both.find(&store, peer ^ 1 << bit, entry.start)?;
                both.find(&store, peer, entry.start ^ 1 << bit)?;
                both.find(&store, peer, entry.end ^ 1 << bit)?;
            }
        }
    }
    Ok(())
}

/// A store cut or grown to other lengths, the other edition's among them.
fn wrong_lengths(both: &mut Both, edition: Edition, seed: u64) -> Step {
    let scene = Scene::new(edition, seed ^ 32);
    let entry = &scene.entries[0];
    for length in LENGTHS {
        let mut store = scene.store(&scene.entries);
        store.resize(length, 0);
        both.find(&store, u32::from_be_bytes(entry.peers[0]), entry.start)?;
    }
    Ok(())
}
