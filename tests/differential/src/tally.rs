//! The tally of document 01, "Demand 3's runs": which held keys two runs were given unlike.

use reference::message::kind;

use crate::compare::{buffers, numbers, Compared};
use crate::layout::{held, identifier, key_count, kmac, kmac_at, IDENTIFIER};
use crate::wire::{structs_at, HEADER, KMAC_IN_STRUCT, KMAC_LENGTH};
use crate::wire::{RESPONSE_AT, RESULTS_AT, TYPE_AT};

const IDENTIFIER_IN_STRUCT: usize = 1;

#[derive(Clone, PartialEq, Eq, Debug)]
struct Tag {
    /// Issuer and serial.
    key: [u8; IDENTIFIER],
    unlike: bool,
}

#[derive(Clone, PartialEq, Eq, Debug)]
pub struct Tally(Vec<Tag>);

impl Tally {
    /// One tag for each record of two sound stores.
    pub fn new(first: &[u8], second: &[u8]) -> Tally {
        let tag = |place| Tag {
            key: key(identifier(first, place)),
            unlike: kmac(first, place) != kmac(second, place),
        };
        Tally((0..key_count(first)).map(tag).collect())
    }

    /// Takes in the messages of both runs and the reply of the first.
    pub fn take(&mut self, first: &[u8], second: &[u8], reply: &[u8]) {
        if reply.get(RESPONSE_AT) != Some(&0) {
            return;
        }
        let results = reply.get(RESULTS_AT..).unwrap_or_default();
        match first[TYPE_AT] {
            kind::ADD_KEYS => self.added(first, second, results),
            kind::DELETE_KEYS => self.deleted(&first[HEADER + 2..], results),
            kind::DELETE_ALL_KEYS => self.0.clear(),
            _ => {}
        }
    }

    fn added(&mut self, first: &[u8], second: &[u8], results: &[u8]) {
        for (at, &result) in structs_at(first).into_iter().zip(results) {
            if result == 0 {
                let key_at = at + IDENTIFIER_IN_STRUCT;
                let kmac = at + KMAC_IN_STRUCT..at + KMAC_IN_STRUCT + KMAC_LENGTH;
                self.0.push(Tag {
                    key: key(&first[key_at..key_at + IDENTIFIER]),
                    unlike: first[kmac.clone()] != second[kmac],
                });
            }
        }
    }

    fn deleted(&mut self, requests: &[u8], results: &[u8]) {
        for (key, &result) in requests.chunks(IDENTIFIER).zip(results) {
            if result == 0 {
                self.0.retain(|tag| tag.key != key);
            }
        }
    }

    pub fn has_unlike(&self) -> bool {
        self.0.iter().any(|tag| tag.unlike)
    }

    /// Both stores have the tally's keys in its order; they differ only inside KMAC fields, and
    /// two KMACs of one place exactly where the tag says unlike.
    pub fn holds(&self, first: &[u8], second: &[u8]) -> Compared {
        let (tags, count) = (self.0.len() as i64, key_count(first) as i64);
        numbers("key count, by the tally", tags, count)?;
        for (place, tag) in self.0.iter().enumerate().take(held(first)) {
            let got = identifier(first, place);
            buffers("issuer and serial, by the tally", &tag.key, got)?;
            let unlike = kmac(first, place) != kmac(second, place);
            numbers(
                "KMACs unlike, by the tally",
                tag.unlike.into(),
                unlike.into(),
            )?;
        }
        let (mask, other_mask) = (masked(first), masked(second));
        buffers("store outside KMAC fields", &mask, &other_mask)
    }
}

fn key(bytes: &[u8]) -> [u8; IDENTIFIER] {
    std::array::from_fn(|i| bytes[i])
}

/// The store with its held KMACs blanked.
fn masked(store: &[u8]) -> Vec<u8> {
    let mut masked = store.to_vec();
    for place in 0..held(store) {
        masked[kmac_at(place)..kmac_at(place) + KMAC_LENGTH].fill(0);
    }
    masked
}

#[cfg(test)]
mod tests {
    use super::{kmac_at, Tally};
    use crate::stores::Names;
    use reference::random::Random;
    use reference::store::{encode, Edition, EDITIONS, EDITION_1};

    /// Two stores of as many records, with other KMACs in the second place and in the last.
    fn two_stores(edition: Edition, keys: usize) -> (Vec<u8>, Vec<u8>) {
        let mut random = Random::new(5);
        let names = Names::new(edition, &mut random);
        let first = encode(edition, &names.entries(&mut random, keys, 3));
        let mut second = first.clone();
        second[kmac_at(1)] ^= 3;
        second[kmac_at(keys - 1) + 23] ^= 0x60;
        (first, second)
    }

    #[test]
    fn a_tally_holds_of_its_own_stores() {
        for edition in EDITIONS {
            let (first, second) = two_stores(edition, edition.keys_max);
            assert_eq!(Tally::new(&first, &second).holds(&first, &second), Ok(()));
        }
    }

    #[test]
    fn any_other_byte_of_the_second_store_breaks_it() {
        for edition in EDITIONS {
            for keys in [4, edition.keys_max] {
                let (first, second) = two_stores(edition, keys);
                let tally = Tally::new(&first, &second);
                let unlike = [1, keys - 1].map(|place| kmac_at(place)..kmac_at(place) + 24);
                let step = if edition == EDITION_1 { 1 } else { 19 };
                for at in (0..second.len()).step_by(step) {
                    let mut wrong = second.clone();
                    wrong[at] ^= 0x10;
                    let inside = unlike.iter().any(|field| field.contains(&at));
                    assert_eq!(tally.holds(&first, &wrong).is_ok(), inside, "byte {at}");
                }
            }
        }
    }

    #[test]
    fn an_unlike_key_that_became_the_same_breaks_it() {
        for edition in EDITIONS {
            let (first, second) = two_stores(edition, edition.keys_max);
            let tally = Tally::new(&first, &second);
            assert!(tally.holds(&first, &first).is_err());
        }
    }

    #[test]
    fn a_missing_record_breaks_it() {
        for edition in EDITIONS {
            let (first, second) = two_stores(edition, edition.keys_max);
            let mut tally = Tally::new(&first, &second);
            tally.0.pop();
            assert!(tally.holds(&first, &second).is_err());
        }
    }
}
