//! Where set-up starts (change request 1), on both sides: the search of the peer's key with its
//! refusals, types of identities, and what is asked before it.

use reference::setup::Connection;
use reference::store::{decode, encode, Edition, Entry, EDITIONS};
use reference::Identity;

use crate::both::{Both, Step};
use crate::crafted::Fields;
use crate::faults::{unsound, FAULTS};
use crate::incoming::{ConnectionBytes, Incoming, Indication, Request};
use crate::layout::{other, LENGTHS};
use crate::parties::Parties;
use crate::scene::OUTPUT;
use reference::random::Random;

pub fn all(both: &mut Both, seed: u64) -> Step {
    for edition in EDITIONS {
        for turn in 0..8 {
            let mut parties = Parties::new([edition; 2], seed ^ (800 + turn));
            lengths(both, &parties)?;
            every_fault(both, &mut parties, edition)?;
            moments(both, &parties)?;
            strangers(both, &parties)?;
        }
        let parties = Parties::new([edition; 2], seed ^ 820);
        types(both, &parties, edition)?;
        asked_before(both, &parties, edition)?;
        full_stores(both, edition, seed)?;
    }
    Ok(())
}

/// A call over this store at this moment, and an indication of the same caller.
fn start(both: &mut Both, parties: &Parties, store: &[u8], t: u32) -> Step {
    let [caller, called] = parties.identities;
    start_between(both, parties, [caller, called], store, t)
}

fn start_between(
    both: &mut Both,
    parties: &Parties,
    [caller, called]: [Identity; 2],
    store: &[u8],
    t: u32,
) -> Step {
    let mut connection = Connection::NONE.to_bytes();
    let request = Request {
        own: u32::from_be_bytes(caller),
        peer: u32::from_be_bytes(called),
        t,
        store,
        ..parties.request()
    };
    both.event(&mut connection, &Incoming::ConnectRequest(request), &OUTPUT)?;
    let mut connection = Connection::NONE.to_bytes();
    let au1 = Fields::au1(&caller, parties.rb).bytes();
    let indication = Indication {
        own: u32::from_be_bytes(called),
        t,
        store,
        ..parties.indication(&au1)
    };
    let incoming = Incoming::ConnectIndication(indication);
    both.event(&mut connection, &incoming, &OUTPUT)?;
    Ok(())
}

/// The store cut or grown to other lengths.
fn lengths(both: &mut Both, parties: &Parties) -> Step {
    for length in LENGTHS {
        let mut store = parties.stores[0].clone();
        store.resize(length, 0);
        start(both, parties, &store, parties.t)?;
    }
    Ok(())
}

/// Unsound in each way, at a moment at which a key fits and at one at which none does.
fn every_fault(both: &mut Both, parties: &mut Parties, edition: Edition) -> Step {
    let entries = decode(&parties.stores[0]).expect("it is sound");
    for fault in FAULTS {
        let store = unsound(&mut parties.random, edition, &entries, fault);
        for t in [parties.t, u32::MAX] {
            start(both, parties, &store, t)?;
        }
    }
    Ok(())
}

/// At and beside the start and the end of each record, and with each bit of the moment flipped.
fn moments(both: &mut Both, parties: &Parties) -> Step {
    let store = &parties.stores[0];
    let mut moments = vec![0, parties.t, u32::MAX];
    for entry in decode(store).expect("it is sound").iter().take(40) {
        for edge in [entry.start, entry.end] {
            moments.extend([edge.wrapping_sub(1), edge, edge.wrapping_add(1)]);
        }
    }
    moments.extend((0..32).map(|bit| parties.t ^ 1 << bit));
    moments.sort_unstable();
    moments.dedup();
    for t in moments {
        start(both, parties, store, t)?;
    }
    Ok(())
}

/// Each bit of either identity flipped; own and peer exchanged, and one of them twice.
fn strangers(both: &mut Both, parties: &Parties) -> Step {
    let [caller, called] = parties.identities;
    let mut pairs = vec![[called, caller], [caller, caller], [called, called]];
    for bit in 0..32 {
        let flip = |identity: Identity| {
            let number = u32::from_be_bytes(identity) ^ 1 << bit;
            number.to_be_bytes()
        };
        pairs.extend([[flip(caller), called], [caller, flip(called)]]);
    }
    for pair in pairs {
        start_between(both, parties, pair, &parties.stores[0], parties.t)?;
    }
    Ok(())
}

/// All 256 types of own and of peer, where the store has a key of each: it is sound, unsound, of
/// another length, and of a key that does not fit.
fn types(both: &mut Both, parties: &Parties, edition: Edition) -> Step {
    let of_type = |kind: u8| [kind, 0x12, 0x34, 0x56];
    let mut entry = entry_of(parties);
    entry.peers = (0..=255).map(of_type).collect();
    let sound = encode(edition, &[entry]);
    let mut with_fault = sound.clone();
    with_fault[edition.length() - 1] ^= 1;
    let stores = [&sound[..], &with_fault, &sound[1..]];
    for store in stores {
        for kind in 0..=255 {
            for fixed in [0, 7, 8, 9, 255] {
                let pair = [of_type(kind), of_type(fixed)];
                start_between(both, parties, pair, store, parties.t)?;
                let pair = [of_type(fixed), of_type(kind)];
                start_between(both, parties, pair, store, parties.t)?;
            }
        }
    }
    let ended = parties.t.wrapping_add(100);
    start_between(both, parties, [of_type(7), of_type(8)], &sound, ended)
}

/// A record of the store that fits.
fn entry_of(parties: &Parties) -> Entry {
    let entries = decode(&parties.stores[0]).expect("it is sound");
    let fits = |entry: &Entry| (entry.start..=entry.end).contains(&parties.t);
    let mut fitting = entries.into_iter().filter(fits);
    fitting.next().expect("a key fits")
}

/// The output, the state, the application type and the AU1 are asked before the search.
fn asked_before(both: &mut Both, parties: &Parties, edition: Edition) -> Step {
    let mut with_fault = parties.stores[0].clone();
    with_fault[edition.length() - 1] ^= 1;
    let empty = encode(other(edition), &[]);
    let au1 = Fields::au1(&parties.identities[0], parties.rb).bytes();
    let mut other_flag = au1.clone();
    other_flag[0] ^= 1;
    for store in [&parties.stores[0], &with_fault, &empty, &Vec::new()] {
        for acceptable in [0, 1] {
            for unit in [&au1, &other_flag, &au1[1..].to_vec()] {
                let request = Request {
                    acceptable,
                    store,
                    ..parties.request()
                };
                let indication = Indication {
                    acceptable,
                    store,
                    ..parties.indication(unit)
                };
                in_every_state(both, parties, Incoming::ConnectRequest(request))?;
                in_every_state(both, parties, Incoming::ConnectIndication(indication))?;
            }
        }
    }
    Ok(())
}

fn in_every_state(both: &mut Both, parties: &Parties, incoming: Incoming) -> Step {
    for connection in parties.connections() {
        for length in [1031, 1032] {
            let mut connection: ConnectionBytes = connection;
            both.event(&mut connection, &incoming, &vec![0x3c; length])?;
        }
    }
    Ok(())
}

/// In a full store with no peer twice, records anywhere.
fn full_stores(both: &mut Both, edition: Edition, seed: u64) -> Step {
    let parties = Parties::new([edition; 2], seed ^ 821);
    let mut random = Random::new(seed ^ 822);
    let names = crate::stores::Names::new(edition, &mut random);
    let mut entries = names.apart(&mut random);
    for entry in &mut entries {
        entry.peers.iter_mut().for_each(|peer| peer[0] &= 7);
    }
    let store = encode(edition, &entries);
    let last = entries.len() - 1;
    let places = (0..24).map(|_| random.below(last)).chain([0, last]);
    for place in places.collect::<Vec<_>>() {
        let entry = &entries[place];
        for t in [entry.start, entry.end] {
            let pair = [entry.peers[0], entry.peers[1]];
            start_between(both, &parties, pair, &store, t)?;
        }
    }
    Ok(())
}
