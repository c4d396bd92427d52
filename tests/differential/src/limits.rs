//! Counts at and beyond their ranges, and stores of each edition that are full of keys or of peers.

use reference::message::kind;
use reference::store::{Edition, Entry, EDITIONS};

use crate::both::{named, receive_call, Both, Step, World};
use crate::compare::buffers;
use crate::layout::{identifier, key_count, peer_count};
use crate::scene::{Scene, OUTPUT};
use crate::wire::{self, LENGTH_MAX, PEER_NUM_MAX, RESULTS_AT};
use reference::random::Random;

pub fn all(both: &mut Both, seed: u64) -> Step {
    for edition in EDITIONS {
        request_counts(both, edition, seed)?;
        peer_counts(both, edition, seed)?;
        worked_keys(both, edition, seed)?;
        worked_peers(both, edition, seed)?;
        full_of_keys(both, edition, seed)?;
        full_of_peers(both, edition, seed)?;
        filled_and_emptied(both, edition, seed)?;
    }
    Ok(())
}

/// A command with the number that is expected.
fn command(scene: &Scene, world: &World, kind: u8, body: &[u8]) -> Vec<u8> {
    let expected = u16::from_be_bytes([world.session[4], world.session[5]]);
    wire::message(&scene.header_with(expected), kind, body)
}

fn send(both: &mut Both, scene: &Scene, world: &mut World, kind: u8, requests: &[Vec<u8>]) -> Step {
    let message = command(scene, world, kind, &wire::body(requests));
    both.receive(world, &message, &OUTPUT).map(|_| ())
}

/// REQ-NUM at the ends of each range, over as many requests, one fewer and one more.
fn request_counts(both: &mut Both, edition: Edition, seed: u64) -> Step {
    let mut scene = Scene::new(edition, seed ^ 11);
    let key = scene.entries[0].key;
    let peers = scene.entries[0].peers[..1].to_vec();
    let requests = [
        (kind::ADD_KEYS, scene.k_struct(1)),
        (kind::DELETE_KEYS, wire::k_identifier(&key)),
        (kind::UPDATE_KEY_VALIDITIES, wire::k_validity(&key, 1, 2)),
        (kind::UPDATE_KEY_ENTITIES, wire::k_entities(&key, &peers)),
    ];
    const COUNTS: [u16; 20] = [
        0, 1, 2, 96, 97, 98, 99, 100, 101, 102, 249, 250, 251, 252, 499, 500, 501, 502, 1000, 65535,
    ];
    for (kind, request) in requests {
        for count in COUNTS {
            for there in [
                count.saturating_sub(1),
                count,
                count.saturating_add(1),
                1,
                0,
            ] {
                let list = vec![request.clone(); usize::from(there)];
                let body = wire::counted(count, &list);
                let mut world = scene.over(&scene.entries);
                let message = command(&scene, &world, kind, &body);
                both.receive(&mut world, &message, &OUTPUT)?;
            }
        }
    }
    Ok(())
}

/// PEER-NUM at the ends of its range, over as many peers, one fewer and one more.
fn peer_counts(both: &mut Both, edition: Edition, seed: u64) -> Step {
    let mut scene = Scene::new(edition, seed ^ 12);
    let key = scene.entries[3].key;
    for count in [0, 1, 2, 255, 256, 257, 999, 1000, 1001, 1002, 65535] {
        for there in [count - 1, count, count + 1, 1, 0] {
            let there = there.clamp(0, 1100) as usize;
            let entry = scene.fresh(there);
            let number = (count as u16).to_be_bytes();
            let mut add = wire::k_struct(&scene.names.own, &entry);
            add[37..39].copy_from_slice(&number);
            let mut entities = wire::k_entities(&key, &entry.peers);
            entities[8..10].copy_from_slice(&number);
            for (kind, request) in [(kind::ADD_KEYS, add), (kind::UPDATE_KEY_ENTITIES, entities)] {
                let mut world = scene.over(&scene.entries);
                send(both, &scene, &mut world, kind, &[request])?;
                let delete = wire::k_identifier(&key);
                send(both, &scene, &mut world, kind::DELETE_KEYS, &[delete])?;
            }
        }
    }
    Ok(())
}

/// One request whose RESULT the papers tell.
fn gives(
    both: &mut Both,
    scene: &Scene,
    world: &mut World,
    (kind, request): (u8, Vec<u8>),
    result: u8,
) -> Step {
    let before = world.clone();
    let message = command(scene, world, kind, &wire::body(&[request]));
    let reply = both.receive(world, &message, &OUTPUT)?;
    let results = reply.get(RESULTS_AT..).unwrap_or_default();
    named(
        || receive_call(&before, &message, OUTPUT.len()),
        || buffers("RESULTs of the papers", &[result], results),
    )
}

/// Document 01's numbers, at the edition's limit of keys: an add to a full store, the tenth record
/// deleted, and an add that becomes the last record.
fn worked_keys(both: &mut Both, edition: Edition, seed: u64) -> Step {
    let mut scene = Scene::new(edition, seed ^ 14);
    let entries = scene.names.entries(&mut scene.random, edition.keys_max, 4);
    let mut world = scene.over(&entries);
    let entry = scene.fresh(1);
    let add = (kind::ADD_KEYS, wire::k_struct(&scene.names.own, &entry));
    let tenth = wire::k_identifier(&entries[9].key);
    gives(both, &scene, &mut world, add.clone(), 2)?;
    gives(both, &scene, &mut world, (kind::DELETE_KEYS, tenth), 0)?;
    gives(both, &scene, &mut world, add.clone(), 0)?;
    gives(both, &scene, &mut world, add, 3)?;
    let (key, last) = (wire::k_identifier(&entry.key), edition.keys_max - 1);
    named(
        || format!("the last of {} records", edition.keys_max),
        || buffers("issuer and serial", &key, identifier(&world.store, last)),
    )
}

/// Document 01's numbers, at the edition's limit of peers: four and three added where there is
/// room for three, and ten replaced by eleven and by ten where there is none.
fn worked_peers(both: &mut Both, edition: Edition, seed: u64) -> Step {
    let mut scene = Scene::new(edition, seed ^ 15);
    let mut entries = scene.names.entries(&mut scene.random, 17, 0);
    entries[3].peers = scene.names.peers(&mut scene.random, edition.peers_max - 13);
    entries[8].peers = scene.names.peers(&mut scene.random, 10);
    let mut world = scene.over(&entries);
    let of_four = (kind::ADD_KEYS, scene.k_struct(4));
    let of_three = (kind::ADD_KEYS, scene.k_struct(3));
    gives(both, &scene, &mut world, of_four, 255)?;
    gives(both, &scene, &mut world, of_three, 0)?;
    for (count, result) in [(11, 255), (10, 0), (11, 255), (9, 0), (10, 0), (11, 255)] {
        let peers = scene.names.peers(&mut scene.random, count);
        let request = wire::k_entities(&entries[8].key, &peers);
        let update = (kind::UPDATE_KEY_ENTITIES, request);
        gives(both, &scene, &mut world, update, result)?;
    }
    Ok(())
}

/// Full stores of keys, and such with room for one and for two: adds, each place deleted in turn,
/// and an add in its room.
fn full_of_keys(both: &mut Both, edition: Edition, seed: u64) -> Step {
    for held in edition.keys_max - 2..=edition.keys_max {
        let mut scene = Scene::new(edition, seed ^ (1000 + held as u64));
        let entries = scene.names.entries(&mut scene.random, held, 4);
        for entry in &entries {
            let mut world = scene.over(&entries);
            let adds: Vec<Vec<u8>> = (0..3).map(|_| scene.k_struct(1)).collect();
            send(both, &scene, &mut world, kind::ADD_KEYS, &adds)?;
            let delete = wire::k_identifier(&entry.key);
            send(both, &scene, &mut world, kind::DELETE_KEYS, &[delete])?;
            let again = wire::k_struct(&scene.names.own, entry);
            let adds = [again, scene.k_struct(1)];
            send(both, &scene, &mut world, kind::ADD_KEYS, &adds)?;
        }
    }
    Ok(())
}

/// No room for peers: the lists of many places replaced by one of every size around the room, and
/// adds.
fn full_of_peers(both: &mut Both, edition: Edition, seed: u64) -> Step {
    for keys in [1, 2, 17, edition.keys_max] {
        let mut scene = Scene::new(edition, seed ^ (100 + keys as u64));
        let entries = scene.names.filled(&mut scene.random, keys, 0);
        for place in places(&mut scene.random, keys) {
            let old = entries[place].peers.len();
            let most = edition.peers_max;
            for count in [1, old.saturating_sub(1), old, old + 1, most, most + 1] {
                let count = count.clamp(1, PEER_NUM_MAX);
                replace(both, &mut scene, &entries, place, count)?;
            }
        }
    }
    Ok(())
}

/// All places of a short list; of a long one those at both ends and some between.
fn places(random: &mut Random, keys: usize) -> Vec<usize> {
    if keys <= 64 {
        return (0..keys).collect();
    }
    let some = (0..60).map(|_| random.below(keys));
    [0, 1, keys - 2, keys - 1].into_iter().chain(some).collect()
}

/// Replaces one list, then adds with as many peers as there is room for, and one more.
fn replace(
    both: &mut Both,
    scene: &mut Scene,
    entries: &[Entry],
    place: usize,
    count: usize,
) -> Step {
    let mut world = scene.over(entries);
    let peers = scene.names.peers(&mut scene.random, count);
    let request = wire::k_entities(&entries[place].key, &peers);
    send(
        both,
        scene,
        &mut world,
        kind::UPDATE_KEY_ENTITIES,
        &[request],
    )?;
    let edition = scene.names.edition;
    // Two lists of 500 fit one message.
    while free(edition, &world) > 500 && key_count(&world.store) < edition.keys_max {
        let add = scene.k_struct(500);
        send(both, scene, &mut world, kind::ADD_KEYS, &[add])?;
    }
    let free = free(edition, &world).min(500);
    let adds = [
        scene.k_struct(free + 1),
        scene.k_struct(free.max(1)),
        scene.k_struct(1),
    ];
    send(both, scene, &mut world, kind::ADD_KEYS, &adds)
}

fn free(edition: Edition, world: &World) -> usize {
    edition.peers_max - peer_count(&world.store)
}

/// A store filled from the empty one, each key updated, and all deleted: from the first, from the
/// last and in any order. The last adds find no room.
fn filled_and_emptied(both: &mut Both, edition: Edition, seed: u64) -> Step {
    for order in 0..3 {
        let mut scene = Scene::new(edition, seed ^ (160 + order));
        let mut world = scene.over(&[]);
        let mut entries = scene.names.entries(&mut scene.random, edition.keys_max, 0);
        entries.extend((0..5).map(|_| scene.fresh(0)));
        for entry in &mut entries {
            entry.peers = scene.names.peers(&mut scene.random, 1);
        }
        let own = scene.names.own;
        let add = |entry: &Entry| wire::k_struct(&own, entry);
        in_turn(both, &scene, &mut world, kind::ADD_KEYS, &entries, add)?;
        match order {
            0 => {}
            1 => entries.reverse(),
            _ => scene.random.shuffle(&mut entries),
        }
        let validity = |entry: &Entry| wire::k_validity(&entry.key, entry.end, entry.start);
        let entities = |entry: &Entry| wire::k_entities(&entry.key, &[own, own]);
        let delete = |entry: &Entry| wire::k_identifier(&entry.key);
        let (validities, lists) = (kind::UPDATE_KEY_VALIDITIES, kind::UPDATE_KEY_ENTITIES);
        in_turn(both, &scene, &mut world, validities, &entries, validity)?;
        in_turn(both, &scene, &mut world, lists, &entries, entities)?;
        in_turn(
            both,
            &scene,
            &mut world,
            kind::DELETE_KEYS,
            &entries,
            delete,
        )?;
    }
    Ok(())
}

/// Sends a request for each entry, all of one length, in messages that are as long as they may be.
fn in_turn(
    both: &mut Both,
    scene: &Scene,
    world: &mut World,
    kind: u8,
    entries: &[Entry],
    request: impl Fn(&Entry) -> Vec<u8>,
) -> Step {
    let requests: Vec<Vec<u8>> = entries.iter().map(request).collect();
    let room = (LENGTH_MAX - wire::HEADER - 2) / requests[0].len();
    let most = match kind {
        kind::ADD_KEYS => 100,
        kind::DELETE_KEYS => 500,
        _ => 250,
    };
    for some in requests.chunks(room.min(most)) {
        send(both, scene, world, kind, some)?;
    }
    Ok(())
}
