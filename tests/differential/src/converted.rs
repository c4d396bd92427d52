//! Change request 6 by the papers alone: which conversions are refused, and what one that is done
//! leaves. The second program has no part in this. That the source is not written to is asked in
//! `library.rs`.

use reference::refusal::{H1, H12, H14};
use reference::store::{Edition, EDITION_1};

use crate::compare::{buffers, numbers, Compared};
use crate::coverage::{Call, Mark};
use crate::layout::{key_count, peer_count, record_at, KEYS_AT, PEER};
use crate::unsound::{self, Judge, Verdict};

/// Limits of edition 1.
#[derive(Clone, Copy, PartialEq, Eq, PartialOrd, Ord, Debug)]
pub enum Limit {
    Keys,
    Peers,
    Both,
}

pub const LIMITS: [Limit; 3] = [Limit::Keys, Limit::Peers, Limit::Both];

/// In what way a conversion is done or refused.
#[derive(Clone, Copy, PartialEq, Eq, PartialOrd, Ord, Debug)]
pub enum Way {
    /// Done with a store that holds exactly as many as edition 1 takes.
    DoneAtLimit(Limit),
    /// H14 for a store that holds more.
    NoRoom(Limit),
    /// H12 where the header says that more are held: H14 would come too.
    UnsoundWithNoRoom(Limit),
    /// H1 where the source alone has a wrong length.
    SourceLength,
    /// H1 where the target alone has.
    TargetLength,
    /// H1 where source and target have each other's.
    Exchanged,
}

/// One call, with what stood in the target before it and after.
pub struct Conversion<'a> {
    pub target: Edition,
    pub from: &'a [u8],
    pub before: &'a [u8],
    pub after: &'a [u8],
    pub answer: i32,
}

impl Conversion<'_> {
    pub fn call(&self) -> Call {
        match self.target {
            EDITION_1 => Call::ToEdition1,
            _ => Call::ToEdition2,
        }
    }

    /// The editions of source and target, with the numbers that the papers print.
    fn sides(&self) -> [&'static unsound::Edition; 2] {
        let [first, second] = &unsound::EDITIONS;
        match self.target {
            EDITION_1 => [second, first],
            _ => [first, second],
        }
    }

    /// A refusal writes nowhere.
    pub fn demand_1(&self) -> Compared {
        match self.answer {
            0 => Ok(()),
            _ => buffers("target of a refusal", self.before, self.after),
        }
    }

    /// The answer is the one of the papers. A target that is done is a sound store with the same
    /// records and peers in the same order.
    pub fn keeps_the_rule(&self, judge: &mut Judge) -> Compared {
        let due = self.due(judge.verdict(self.from));
        numbers("answer, by the papers", due.into(), self.answer.into())?;
        if self.answer != 0 {
            return self.demand_1();
        }
        let is_sound = judge.verdict(self.after) == Verdict::Sound;
        numbers("sound target", 1, is_sound.into())?;
        let [source, target] = self.sides();
        let (keys, peers) = (key_count(self.from), peer_count(self.from));
        let counts = (key_count(self.after), peer_count(self.after));
        numbers("keys of the target", keys as i64, counts.0 as i64)?;
        numbers("peers of the target", peers as i64, counts.1 as i64)?;
        let records = KEYS_AT..record_at(keys);
        buffers(
            "records of the target",
            &self.from[records.clone()],
            &self.after[records],
        )?;
        buffers(
            "peers of the target",
            &self.from[source.peers_at..][..PEER * peers],
            &self.after[target.peers_at..][..PEER * peers],
        )
    }

    /// H1, H12 and H14 in this order, H14 on the way to edition 1 alone.
    fn due(&self, verdict: Verdict) -> i32 {
        let has_lengths = self.has_lengths() == [true, true];
        let house = match verdict {
            _ if !has_lengths => H1,
            Verdict::Sound if self.target == EDITION_1 && no_room(self.from).is_some() => H14,
            Verdict::Sound => return 0,
            _ => H12,
        };
        -i32::from(house)
    }

    /// Whether source and target have the lengths of their sides.
    fn has_lengths(&self) -> [bool; 2] {
        let [source, target] = self.sides();
        [
            self.from.len() == source.length,
            self.before.len() == target.length,
        ]
    }

    /// In what way it was done or refused, and the condition of soundness that alone is broken.
    pub fn marks(&self, verdict: Verdict) -> Vec<Mark> {
        let way = self.way().map(|way| Mark::Conversion(self.call(), way));
        let broken = match verdict {
            Verdict::Unsound(only) if self.answer == -i32::from(H12) => only,
            _ => None,
        };
        let broken = broken.map(|only| Mark::Broken(self.call(), only));
        way.into_iter().chain(broken).collect()
    }

    fn way(&self) -> Option<Way> {
        match u8::try_from(-self.answer) {
            Ok(H1) => self.wrong_length(),
            Ok(H12) if self.target != EDITION_1 => None,
            Ok(H12) => no_room(self.from).map(Way::UnsoundWithNoRoom),
            Ok(H14) => no_room(self.from).map(Way::NoRoom),
            _ => at_limit(self.from).map(Way::DoneAtLimit),
        }
    }

    fn wrong_length(&self) -> Option<Way> {
        let [source, target] = self.sides();
        let exchanged = [target.length, source.length];
        match self.has_lengths() {
            [true, false] => Some(Way::TargetLength),
            [false, true] => Some(Way::SourceLength),
            _ => ([self.from.len(), self.before.len()] == exchanged).then_some(Way::Exchanged),
        }
    }
}

/// Which limits of edition 1 the counts of a store's header pass, though edition 2 takes them.
fn no_room(store: &[u8]) -> Option<Limit> {
    let [first, second] = &unsound::EDITIONS;
    let (keys, peers) = (key_count(store), peer_count(store));
    limit(
        (first.keys_max + 1..=second.keys_max).contains(&keys),
        (first.peers_max + 1..=second.peers_max).contains(&peers),
    )
}

/// Which of them they meet exactly.
fn at_limit(store: &[u8]) -> Option<Limit> {
    let [first, _] = &unsound::EDITIONS;
    limit(
        key_count(store) == first.keys_max,
        peer_count(store) == first.peers_max,
    )
}

fn limit(keys: bool, peers: bool) -> Option<Limit> {
    match (keys, peers) {
        (true, true) => Some(Limit::Both),
        (true, false) => Some(Limit::Keys),
        (false, true) => Some(Limit::Peers),
        (false, false) => None,
    }
}

#[cfg(test)]
mod tests {
    use super::{Conversion, Limit, Way};
    use crate::coverage::{Call, Mark};
    use crate::layout::{kmac_at, other};
    use crate::model;
    use crate::scene::Scene;
    use crate::unsound::{Condition, Judge, Verdict};
    use reference::store::{encode, Edition, EDITIONS, EDITION_1, EDITION_2};

    /// What the second program makes of a store, as the library's answer would be.
    struct Made {
        target: Edition,
        from: Vec<u8>,
        before: Vec<u8>,
        after: Vec<u8>,
        answer: i32,
    }

    impl Made {
        fn new(target: Edition, from: &[u8], length: usize) -> Made {
            let before = vec![0xee; length];
            let mut after = before.clone();
            let answer = model::convert(target, from, &mut after);
            Made {
                target,
                from: from.to_vec(),
                before,
                after,
                answer,
            }
        }

        fn conversion(&self) -> Conversion<'_> {
            Conversion {
                target: self.target,
                from: &self.from,
                before: &self.before,
                after: &self.after,
                answer: self.answer,
            }
        }

        fn keeps_the_rule(&self) -> bool {
            let kept = self.conversion().keeps_the_rule(&mut Judge::default());
            kept.is_ok()
        }

        fn marks(&self) -> Vec<Mark> {
            self.conversion().marks(Verdict::of(&self.from))
        }
    }

    /// A store of the source's edition, converted to the target's.
    fn made(target: Edition, keys: usize, peers: usize) -> Made {
        let mut scene = Scene::new(other(target), 1);
        let entries = scene.names.counted(&mut scene.random, keys, peers);
        Made::new(target, &scene.store(&entries), target.length())
    }

    #[test]
    fn what_the_second_program_makes_keeps_the_rule() {
        for target in EDITIONS {
            for (keys, peers) in [(0, 0), (1, 256), (64, 0), (64, 256)] {
                let made = made(target, keys, peers);
                assert_eq!(made.answer, 0);
                assert!(made.keeps_the_rule());
                for length in [0, 3851, 38011, made.from.len()] {
                    let refused = Made::new(target, &made.from, length);
                    assert_eq!(refused.answer, -1);
                    assert!(refused.keeps_the_rule());
                }
            }
        }
        for (keys, peers) in [(65, 0), (1, 257), (500, 4000)] {
            let made = made(EDITION_1, keys, peers);
            assert_eq!(made.answer, -14);
            assert!(made.keeps_the_rule());
        }
    }

    #[test]
    fn another_answer_is_told() {
        let refused = [made(EDITION_1, 65, 65), made(EDITION_2, 3, 3)].map(|mut made| {
            made.from[5] ^= 1;
            Made::new(made.target, &made.from, made.before.len())
        });
        let done = [made(EDITION_1, 64, 256), made(EDITION_2, 64, 256)];
        let no_room = [made(EDITION_1, 65, 65), made(EDITION_1, 3, 257)];
        for mut made in refused.into_iter().chain(done).chain(no_room) {
            assert!(made.keeps_the_rule());
            let right = made.answer;
            for wrong in [0, 1, -1, -2, -11, -12, -13, -14] {
                made.answer = wrong;
                assert_eq!(made.keeps_the_rule(), wrong == right);
            }
        }
    }

    #[test]
    fn a_refusal_that_writes_is_told() {
        for at in [0, 100, 3851] {
            let mut made = made(EDITION_1, 65, 65);
            made.after[at] ^= 1;
            assert!(!made.keeps_the_rule());
            assert!(made.conversion().demand_1().is_err());
        }
    }

    /// Each leaves a target that is not the one store of the entries.
    #[test]
    fn another_target_is_told() {
        for target in EDITIONS {
            let right = made(target, 5, 20);
            let bytes = [1, 3, 7, kmac_at(2), target.peers_at(), target.length() - 1];
            for at in bytes {
                let mut made = made(target, 5, 20);
                made.after[at] ^= 3;
                assert!(!made.keeps_the_rule(), "byte {at}");
            }
            let mut entries: Vec<_> = reference::store::decode(&right.from).expect("it is sound");
            let mut stores = vec![right.before.clone(), encode(target, &[])];
            entries.swap(1, 2);
            stores.push(encode(target, &entries));
            entries.swap(1, 2);
            stores.push(encode(target, &entries[..4]));
            for after in stores {
                let made = Made {
                    after,
                    ..made(target, 5, 20)
                };
                assert!(!made.keeps_the_rule());
            }
        }
    }

    #[test]
    fn limits_are_told() {
        for (keys, peers, way) in [
            (64, 0, Way::DoneAtLimit(Limit::Keys)),
            (63, 256, Way::DoneAtLimit(Limit::Peers)),
            (64, 256, Way::DoneAtLimit(Limit::Both)),
            (65, 256, Way::NoRoom(Limit::Keys)),
            (64, 257, Way::NoRoom(Limit::Peers)),
            (65, 257, Way::NoRoom(Limit::Both)),
        ] {
            let mark = Mark::Conversion(Call::ToEdition1, way);
            assert_eq!(made(EDITION_1, keys, peers).marks(), [mark]);
        }
        assert_eq!(made(EDITION_1, 63, 255).marks(), []);
        assert_eq!(made(EDITION_2, 63, 255).marks(), []);
        let full = Mark::Conversion(Call::ToEdition2, Way::DoneAtLimit(Limit::Both));
        assert_eq!(made(EDITION_2, 64, 256).marks(), [full]);
    }

    #[test]
    fn unsound_sources_are_told() {
        let call = Call::ToEdition1;
        let mut from = made(EDITION_1, 65, 65).from;
        from[kmac_at(64)] ^= 1;
        let with_no_room = Mark::Conversion(call, Way::UnsoundWithNoRoom(Limit::Keys));
        let broken = Mark::Broken(call, Condition::Parity);
        let made = Made::new(EDITION_1, &from, 3852);
        assert_eq!(made.marks(), [with_no_room, broken]);
        let mut from = of_edition_1();
        from[kmac_at(0)] ^= 1;
        let broken = Mark::Broken(Call::ToEdition2, Condition::Parity);
        assert_eq!(Made::new(EDITION_2, &from, 38012).marks(), [broken]);
    }

    #[test]
    fn wrong_lengths_are_told() {
        let from = of_edition_1();
        for (target, length, call, way) in [
            (EDITION_2, 3852, Call::ToEdition2, Way::TargetLength),
            (EDITION_1, 3852, Call::ToEdition1, Way::SourceLength),
            (EDITION_1, 38012, Call::ToEdition1, Way::Exchanged),
        ] {
            let mark = Mark::Conversion(call, way);
            assert_eq!(Made::new(target, &from, length).marks(), [mark]);
        }
        assert_eq!(Made::new(EDITION_2, &from[1..], 38011).marks(), []);
    }

    fn of_edition_1() -> Vec<u8> {
        made(EDITION_2, 3, 3).from
    }
}
