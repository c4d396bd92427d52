//! Change request 9 by the papers alone: which stores are sound, which calls tell that one is not,
//! and that no message makes a sound one unsound. The second program has no part in this.
//!
//! Each call is asked for itself. So over a run from a sound store nothing is answered 6 or H12
//! until somebody else changes the store: each call leaves the next one a sound store. That a search
//! writes to no store is asked in `library.rs`.

use reference::message::kind;
use reference::message::response::{DONE, UNRECOVERABLE_DATABASE};
use reference::refusal::H12;
use reference::session::OPEN;

use crate::compare::{buffers, numbers, Compared};
use crate::coverage::{Call, Mark};
use crate::layout::{u16_at, COUNT_IN_RECORD, FIRST_IN_RECORD, IDENTIFIER, KEYS_AT, PEER, RECORD};
use crate::library::Library;
use crate::repeated::Exchange;
use crate::wire::{KMAC_LENGTH, TYPE_AT};

/// The commands with a list of requests, which ask the store test.
pub const WITH_REQUESTS: [u8; 4] = [
    kind::ADD_KEYS,
    kind::DELETE_KEYS,
    kind::UPDATE_KEY_VALIDITIES,
    kind::UPDATE_KEY_ENTITIES,
];

const LOWEST_BITS: u64 = 0x0101_0101_0101_0101;

/// An edition, with its numbers as document 01 and change request 5 print them.
pub struct Edition {
    pub number: usize,
    pub keys_max: usize,
    pub peers_max: usize,
    pub peers_at: usize,
    pub length: usize,
}

pub const EDITIONS: [Edition; 2] = [
    Edition {
        number: 1,
        keys_max: 64,
        peers_max: 256,
        peers_at: 2828,
        length: 3852,
    },
    Edition {
        number: 2,
        keys_max: 500,
        peers_max: 4000,
        peers_at: 22012,
        length: 38012,
    },
];

impl Edition {
    fn of(store: &[u8]) -> Option<&'static Edition> {
        EDITIONS
            .iter()
            .find(|edition| edition.length == store.len())
    }

    /// The six numbers of the header, with these counts.
    fn header(&self, keys: usize, peers: usize) -> [usize; 6] {
        let (number, peers_at, length) = (self.number, self.peers_at, self.length);
        [number, keys, KEYS_AT, peers, peers_at, length]
    }
}

/// What document 01 asks of a sound store, in its order.
#[derive(Clone, Copy, PartialEq, Eq, PartialOrd, Ord, Debug)]
pub enum Condition {
    /// The four numbers of the header that are no counts.
    FixedNumbers,
    KeyCount,
    PeerCount,
    /// Each first index is the sum of the counts before it.
    RunningSums,
    /// The sums end at the peer count.
    LastSum,
    /// No two records share issuer and serial.
    Identifiers,
    Parity,
    UnusedBytes,
}

pub const CONDITIONS: [Condition; 8] = [
    Condition::FixedNumbers,
    Condition::KeyCount,
    Condition::PeerCount,
    Condition::RunningSums,
    Condition::LastSum,
    Condition::Identifiers,
    Condition::Parity,
    Condition::UnusedBytes,
];

#[derive(Clone, Copy, PartialEq, Eq, Debug)]
pub enum Verdict {
    /// The length is that of neither edition.
    OtherLength,
    Sound,
    /// With the condition that is broken, where it is one alone.
    Unsound(Option<Condition>),
}

impl Verdict {
    fn is_unsound(self) -> bool {
        matches!(self, Verdict::Unsound(_))
    }

    /// By the papers, from the bytes alone.
    pub fn of(store: &[u8]) -> Verdict {
        let Some(edition) = Edition::of(store) else {
            return Verdict::OtherLength;
        };
        let holds = conditions(edition, store);
        let mut broken = CONDITIONS
            .into_iter()
            .zip(holds)
            .filter(|(_, holds)| !holds);
        match (broken.next(), broken.next()) {
            (None, _) => Verdict::Sound,
            (Some((only, _)), None) => Verdict::Unsound(Some(only)),
            _ => Verdict::Unsound(None),
        }
    }
}

/// Whether each condition holds, asked for itself. Where a count is over its limit, the records are
/// those that end in the buffer, and peers behind it are not asked.
fn conditions(edition: &Edition, store: &[u8]) -> [bool; CONDITIONS.len()] {
    let header: [usize; 6] = std::array::from_fn(|place| u16_at(store, 2 * place));
    let (keys, peers) = (header[1], header[3]);
    let (mut sum, mut sums_hold, mut odd) = (0, true, true);
    let mut identifiers = Vec::with_capacity(keys.min(edition.keys_max));
    for record in store[KEYS_AT..].chunks_exact(RECORD).take(keys) {
        sums_hold &= u16_at(record, FIRST_IN_RECORD) == sum;
        sum += u16_at(record, COUNT_IN_RECORD);
        let kmac = &record[IDENTIFIER..IDENTIFIER + KMAC_LENGTH];
        odd &= kmac.chunks_exact(8).all(|eight| is_odd(u64_at(eight)));
        identifiers.push(u64_at(record));
    }
    identifiers.sort_unstable();
    let unused_keys = store.get(KEYS_AT + RECORD * keys..edition.peers_at);
    let unused_peers = store.get(edition.peers_at + PEER * peers..);
    [
        header == edition.header(keys, peers),
        keys <= edition.keys_max,
        peers <= edition.peers_max,
        sums_hold,
        sum == peers,
        identifiers.windows(2).all(|two| two[0] != two[1]),
        odd,
        [unused_keys, unused_peers]
            .into_iter()
            .flatten()
            .all(is_zero),
    ]
}

/// Eight bytes at once, since all KMACs of a store are judged: the lowest bit of each byte becomes
/// the sum of its eight.
fn is_odd(eight: u64) -> bool {
    let four = eight ^ eight >> 4;
    let two = four ^ four >> 2;
    (two ^ two >> 1) & LOWEST_BITS == LOWEST_BITS
}

fn is_zero(bytes: &[u8]) -> bool {
    bytes.iter().fold(0, |all, byte| all | byte) == 0
}

fn u64_at(bytes: &[u8]) -> u64 {
    bytes[..8]
        .iter()
        .fold(0, |number, &byte| number << 8 | u64::from(byte))
}

/// The empty store of the edition that has this store's length; as it is where none has.
fn emptied(store: &[u8]) -> Vec<u8> {
    let Some(edition) = Edition::of(store) else {
        return store.to_vec();
    };
    let numbers = edition.header(0, 0).map(|number| number as u16);
    let mut empty = numbers.map(u16::to_be_bytes).concat();
    empty.resize(edition.length, 0);
    empty
}

/// Gives verdicts and keeps the last two with their stores: most calls lend a store that the call
/// before them had, or left.
#[derive(Default)]
pub struct Judge([(Vec<u8>, Option<Verdict>); 2]);

impl Judge {
    pub fn verdict(&mut self, store: &[u8]) -> Verdict {
        let [last, other] = &mut self.0;
        if last.0 != store {
            std::mem::swap(last, other);
        }
        if last.0 != store {
            // The buffer is used again: a store has up to 38,012 bytes.
            last.0.clear();
            last.0.extend_from_slice(store);
            last.1 = None;
        }
        *last.1.get_or_insert_with(|| Verdict::of(store))
    }

    pub fn message<'a>(&mut self, exchange: Exchange<'a>, stores: [&'a [u8]; 2]) -> Judged<'a> {
        let verdicts = stores.map(|store| self.verdict(store));
        Judged {
            exchange,
            stores,
            verdicts,
        }
    }
}

/// One message, with the store before and after it.
pub struct Judged<'a> {
    pub exchange: Exchange<'a>,
    stores: [&'a [u8]; 2],
    verdicts: [Verdict; 2],
}

impl Judged<'_> {
    fn is_over_unsound(&self) -> bool {
        self.verdicts[0].is_unsound()
    }

    fn has_requests(&self) -> bool {
        let kind = self.exchange.message.get(TYPE_AT);
        kind.is_some_and(|kind| WITH_REQUESTS.contains(kind))
    }

    /// What the answer says of the store before, and what it must leave.
    pub fn keeps_the_rule(&self) -> Compared {
        let refused = self.exchange.answer == -i32::from(H12);
        numbers("H12 to a message", 0, refused.into())?;
        let [before, after] = self.verdicts.map(|verdict| verdict == Verdict::Sound);
        let response = self.exchange.response();
        if response == Some(UNRECOVERABLE_DATABASE) {
            self.is_untouched()?;
        }
        if response == Some(DONE) && self.has_requests() {
            numbers("sound store before RESPONSE 0", 1, before.into())?;
        }
        if response == Some(DONE) || before {
            numbers("sound store afterwards", 1, after.into())?;
        }
        Ok(())
    }

    /// RESPONSE 6. That the tests up to the transaction number held is asked in `repeated.rs`, and
    /// that the body test did by `asks_store_last`.
    fn is_untouched(&self) -> Compared {
        let is_unsound = self.is_over_unsound().into();
        numbers("unsound store before RESPONSE 6", 1, is_unsound)?;
        let has_requests = self.has_requests().into();
        numbers("command with requests before RESPONSE 6", 1, has_requests)?;
        let state = self.exchange.before[0].into();
        numbers("state before RESPONSE 6", OPEN.into(), state)?;
        let [before, after] = self.stores;
        buffers("store with RESPONSE 6", before, after)?;
        self.exchange.fails_with(UNRECOVERABLE_DATABASE, OPEN)
    }

    /// Over an unsound store the library takes the message once more, in the same session over the
    /// empty store: the store test is the last, so exactly what asks it and passes all before it is
    /// answered 6, and nothing else sees a difference.
    pub fn asks_store_last(&self, library: &mut Library, out: &[u8]) -> Compared {
        if !self.is_over_unsound() {
            return Ok(());
        }
        let Exchange {
            before, message, ..
        } = self.exchange;
        let (mut after, mut store, mut out) = (*before, emptied(self.stores[0]), out.to_vec());
        let answer = library.receive(&mut after, message, &mut store, &mut out)?;
        self.is_alike(&Exchange {
            before,
            message,
            answer,
            out: &out,
            after: &after,
        })
    }

    fn is_alike(&self, over_empty: &Exchange) -> Compared {
        let (got, empty) = (&self.exchange, over_empty);
        buffers("session over an unsound store", empty.after, got.after)?;
        if empty.response() == Some(DONE) && self.has_requests() {
            let told = got.response().map_or(-1, i64::from);
            let due = UNRECOVERABLE_DATABASE.into();
            return numbers("RESPONSE over an unsound store", due, told);
        }
        let (due, told) = (empty.answer.into(), got.answer.into());
        numbers("answer over an unsound store", due, told)?;
        buffers("output over an unsound store", empty.out, got.out)
    }

    /// What an unsound store was met with.
    pub fn marks(&self) -> Vec<Mark> {
        let Verdict::Unsound(broken) = self.verdicts[0] else {
            return Vec::new();
        };
        match self.exchange.response() {
            Some(UNRECOVERABLE_DATABASE) => {
                let told = Mark::Unsound(self.exchange.kind());
                let broken = broken.map(|only| Mark::Broken(Call::Receive, only));
                [told].into_iter().chain(broken).collect()
            }
            Some(response) => vec![Mark::OverUnsound(response)],
            None if self.exchange.answer == 0 && self.exchange.before[0] == OPEN => {
                vec![Mark::EndedOverUnsound]
            }
            None => Vec::new(),
        }
    }
}

/// H12 is given exactly for an unsound store of an edition's length.
pub fn search_keeps_the_rule(verdict: Verdict, answer: i32) -> Compared {
    let refused = answer == -i32::from(H12);
    numbers(
        "H12, by the papers",
        verdict.is_unsound().into(),
        refused.into(),
    )
}

#[cfg(test)]
mod tests {
    use super::{emptied, search_keeps_the_rule, Condition, Judge, Judged, Verdict};
    use super::{CONDITIONS, COUNT_IN_RECORD, FIRST_IN_RECORD, IDENTIFIER, KEYS_AT, WITH_REQUESTS};
    use crate::faults::{unsound, Fault};
    use crate::layout::{kmac_at, record_at, LENGTHS};
    use crate::made::Made;
    use crate::scene::Scene;
    use crate::wire::{self, HEADER, RESPONSE_AT, TYPE_AT};
    use reference::session::{CLOSED, OPEN, WAITING};
    use reference::store::{encode, EDITIONS};

    /// Breaks one condition of a store of five records and no other.
    fn broken(scene: &mut Scene, store: &[u8], condition: Condition) -> Vec<u8> {
        let mut store = store.to_vec();
        let (edition, last) = (scene.names.edition, store.len() - 1);
        match condition {
            Condition::FixedNumbers => store[5] ^= 1,
            Condition::KeyCount | Condition::PeerCount => {
                let full = scene.names.filled(&mut scene.random, edition.keys_max, 0);
                let fault = match condition {
                    Condition::KeyCount => Fault::TooManyKeys,
                    _ => Fault::TooManyPeers,
                };
                return unsound(&mut scene.random, edition, &full, fault);
            }
            Condition::RunningSums => store[record_at(1) + FIRST_IN_RECORD + 1] ^= 1,
            Condition::LastSum => store[record_at(4) + COUNT_IN_RECORD + 1] ^= 1,
            Condition::Identifiers => {
                store.copy_within(KEYS_AT..KEYS_AT + IDENTIFIER, record_at(4))
            }
            Condition::Parity => store[kmac_at(4) + 23] ^= 0x80,
            Condition::UnusedBytes => store[last] = 1,
        }
        store
    }

    #[test]
    fn each_condition_is_told_alone() {
        for edition in EDITIONS {
            let mut scene = Scene::new(edition, 1);
            let sound = scene.store(&scene.entries);
            assert_eq!(Verdict::of(&sound), Verdict::Sound);
            for condition in CONDITIONS {
                let store = broken(&mut scene, &sound, condition);
                assert_eq!(Verdict::of(&store), Verdict::Unsound(Some(condition)));
            }
            let mut store = broken(&mut scene, &sound, Condition::Parity);
            store[0] ^= 1;
            assert_eq!(Verdict::of(&store), Verdict::Unsound(None));
        }
    }

    #[test]
    fn stores_of_every_size_are_sound_in_their_edition_alone() {
        for edition in EDITIONS {
            let mut scene = Scene::new(edition, 2);
            for _ in 0..50 {
                let entries = scene.names.sound(&mut scene.random);
                let mut store = encode(edition, &entries);
                assert_eq!(Verdict::of(&store), Verdict::Sound);
                assert_eq!(emptied(&store), encode(edition, &[]));
                for length in LENGTHS.into_iter().filter(|&n| n != edition.length()) {
                    store.resize(length, 0);
                    assert_ne!(Verdict::of(&store), Verdict::Sound);
                }
            }
        }
    }

    #[test]
    fn a_kept_verdict_is_that_of_its_store() {
        let mut judge = Judge::default();
        let mut scene = Scene::new(EDITIONS[0], 3);
        let sound = scene.store(&scene.entries);
        let mut stores = CONDITIONS
            .map(|condition| broken(&mut scene, &sound, condition))
            .to_vec();
        stores.push(sound);
        stores.push(vec![0; 12]);
        for _ in 0..1000 {
            let store = scene.random.pick(&[0, 1, 2, 3, 4, 5, 6, 7, 8, 9, 8, 8]);
            assert_eq!(judge.verdict(&stores[store]), Verdict::of(&stores[store]));
        }
    }

    impl Made {
        fn over(scene: &Scene, store: &[u8], message: &[u8]) -> Made {
            let mut before = scene.world(OPEN);
            before.store = store.to_vec();
            Made::new(before, message)
        }

        fn judged(&self) -> Judged<'_> {
            let stores = [&self.before.store[..], &self.after.store];
            Judge::default().message(self.exchange(), stores)
        }

        fn told(&self) -> Option<&'static str> {
            let compared = self.judged().keeps_the_rule();
            compared.err().map(|difference| difference.of)
        }

        fn response(&self) -> u8 {
            self.out[RESPONSE_AT]
        }

        /// RESPONSE 6 in the place of what was answered.
        fn with_six(mut self) -> Made {
            self.answer = 23;
            self.out[RESPONSE_AT] = 6;
            self
        }
    }

    #[test]
    fn a_store_that_is_left_unsound_is_told_after_every_message() {
        for edition in EDITIONS {
            let mut scene = Scene::new(edition, 4);
            for state in [CLOSED, WAITING, OPEN] {
                for message in scene.messages() {
                    let made = Made::new(scene.world(state), &message);
                    assert_eq!(made.told(), None);
                    for condition in CONDITIONS {
                        let mut made = Made::new(scene.world(state), &message);
                        let sound = scene.store(&scene.entries);
                        made.after.store = broken(&mut scene, &sound, condition);
                        assert_eq!(made.told(), Some("sound store afterwards"));
                    }
                }
            }
        }
    }

    #[test]
    fn a_wrong_six_is_told() {
        for edition in EDITIONS {
            let mut scene = Scene::new(edition, 5);
            let sound = scene.store(&scene.entries);
            for message in scene.messages() {
                // In the middle: some requests are worked, or none.
                let made = Made::over(&scene, &sound, &message).with_six();
                assert_eq!(made.told(), Some("unsound store before RESPONSE 6"));
                let mut made = Made::over(&scene, &sound, &message).with_six();
                made.after.store.clone_from(&sound);
                assert_eq!(made.told(), Some("unsound store before RESPONSE 6"));
                let store = broken(&mut scene, &sound, Condition::Parity);
                let made = Made::over(&scene, &store, &message);
                assert_eq!(made.told(), None);
                if !WITH_REQUESTS.contains(&message[TYPE_AT]) {
                    let made = made.with_six();
                    assert_eq!(made.told(), Some("command with requests before RESPONSE 6"));
                    continue;
                }
                assert_eq!(made.response(), 6);
                tells_what_six_leaves(made);
                let mut made = Made::over(&scene, &store, &message);
                made.before.session[0] = WAITING;
                assert_eq!(made.told(), Some("state before RESPONSE 6"));
            }
        }
    }

    /// Every wrong bit of the reply and of the session up to the number is told, and a store that
    /// changed.
    fn tells_what_six_leaves(mut made: Made) {
        for bit in 0..8 * 23 {
            made.out[bit / 8] ^= 1 << (bit % 8);
            let is_other = made.response() != 6;
            assert!(is_other || made.told().is_some(), "bit {bit} of the reply");
            made.out[bit / 8] ^= 1 << (bit % 8);
        }
        for bit in (0..8).chain(16..8 * 14) {
            made.after.session[bit / 8] ^= 1 << (bit % 8);
            assert!(made.told().is_some(), "bit {bit} of the session");
            made.after.session[bit / 8] ^= 1 << (bit % 8);
        }
        let length = made.after.store.len();
        for at in (0..KEYS_AT).chain([record_at(4), length - 1]) {
            made.after.store[at] ^= 1;
            assert_eq!(made.told(), Some("store with RESPONSE 6"));
            made.after.store[at] ^= 1;
        }
    }

    #[test]
    fn an_unsound_store_that_is_worked_is_told() {
        for edition in EDITIONS {
            let mut scene = Scene::new(edition, 6);
            let sound = scene.store(&scene.entries);
            for message in scene.commands() {
                for condition in CONDITIONS {
                    let mut made = Made::over(&scene, &sound, &message);
                    made.before.store = broken(&mut scene, &sound, condition);
                    let told = WITH_REQUESTS
                        .contains(&message[TYPE_AT])
                        .then_some("sound store before RESPONSE 0");
                    assert_eq!(made.told(), told);
                }
            }
        }
    }

    #[test]
    fn delete_all_that_leaves_an_unsound_store_is_told() {
        for edition in EDITIONS {
            let mut scene = Scene::new(edition, 7);
            let sound = scene.store(&scene.entries);
            let store = broken(&mut scene, &sound, Condition::UnusedBytes);
            let mut made = Made::over(&scene, &store, &scene.message(2, &[]));
            assert_eq!(made.told(), None);
            made.after.store = store;
            assert_eq!(made.told(), Some("sound store afterwards"));
        }
    }

    /// The same message over the empty store tells whether a test before the store test failed.
    #[test]
    fn six_before_another_test_is_told() {
        for edition in EDITIONS {
            let mut scene = Scene::new(edition, 8);
            let sound = scene.store(&scene.entries);
            let store = broken(&mut scene, &sound, Condition::UnusedBytes);
            let empty = emptied(&store);
            for message in scene.messages() {
                let over_empty = Made::over(&scene, &empty, &message);
                let made = Made::over(&scene, &store, &message);
                assert_eq!(made.judged().is_alike(&over_empty.exchange()), Ok(()));
                let mut torn = message[..message.len() - 1].to_vec();
                if torn.len() < HEADER {
                    continue;
                }
                wire::set_length(&mut torn);
                let over_empty = Made::over(&scene, &empty, &torn);
                let mut six = made;
                six.message = torn;
                let compared = six.judged().is_alike(&over_empty.exchange());
                let is_six = WITH_REQUESTS.contains(&message[TYPE_AT]);
                assert_eq!(compared.is_err(), is_six);
            }
        }
    }

    #[test]
    fn a_wrong_h12_is_told() {
        let mut made = Made::new(Scene::new(EDITIONS[0], 9).world(CLOSED), &[]);
        assert_eq!(made.told(), None);
        made.answer = -12;
        assert_eq!(made.told(), Some("H12 to a message"));
        let unsound = Verdict::Unsound(None);
        for answer in [-11, -1, 0, 1, 500] {
            assert!(search_keeps_the_rule(Verdict::Sound, answer).is_ok());
            assert!(search_keeps_the_rule(Verdict::OtherLength, answer).is_ok());
            assert!(search_keeps_the_rule(unsound, answer).is_err());
        }
        assert!(search_keeps_the_rule(unsound, -12).is_ok());
        assert!(search_keeps_the_rule(Verdict::Sound, -12).is_err());
        assert!(search_keeps_the_rule(Verdict::OtherLength, -12).is_err());
    }
}
