//! Which answers were seen over stores of each edition, and which of those that the papers can
//! give were not.

use std::collections::BTreeMap;
use std::fmt;

use reference::message::kind;
use reference::message::response::UNRECOVERABLE_DATABASE;
use reference::refusal::{H1, H10, H11, H12, H14, H2};
use reference::store::{Edition, EDITIONS, EDITION_1, EDITION_2};

use crate::converted::{Way, LIMITS};
use crate::layout::{fits, has_other_header, held, period};
use crate::repeated::BEFORE_REPEATED;
use crate::squares::{self, Met};
use crate::unsound::{Condition, CONDITIONS, WITH_REQUESTS};
use crate::wire::{RESPONSE_AT, RESULTS_AT, TYPE_AT};

/// The RESULTs of a request that leaves the store.
const NOT_DONE: [u8; 6] = [1, 2, 3, 4, 5, 255];

#[derive(Clone, Copy, PartialEq, Eq, PartialOrd, Ord, Debug)]
pub enum Call {
    Begin,
    Receive,
    Find,
    SessionKeys,
    Build,
    Check,
    EmptyStore,
    ToEdition1,
    ToEdition2,
    /// An event of a connection.
    Event,
}

/// One answer that can be told from the others.
#[derive(Clone, Copy, PartialEq, Eq, PartialOrd, Ord, Debug)]
pub enum Mark {
    /// An answer of 0 or more.
    Given(Call),
    /// A refusal of the house.
    Refused(Call, u8),
    Opened,
    Ended,
    Response(u8),
    /// A message type and a RESULT.
    Result(u8, u8),
    /// RESPONSE 6 or H12 for a store with the header of the edition that its length is not of.
    HeaderOfOther(Call),
    /// RESPONSE 6 or H12 for a store in which this condition alone is broken.
    Broken(Call, Condition),
    /// RESPONSE 6 to a message of this type.
    Unsound(u8),
    /// This RESPONSE, which is not 6, over an unsound store.
    OverUnsound(u8),
    /// End of update over an unsound store.
    EndedOverUnsound,
    /// This RESULT, which is not 0, behind a RESULT 0 of the same reply.
    BehindDone(u8),
    /// It before a RESULT 0 of the same reply.
    BeforeDone(u8),
    /// A search that found a record at its end, which is after its start.
    FoundAtEnd,
    /// A search that found a record at its one moment, start and end.
    FoundAtOneMoment,
    /// A search that took a record with others before it that fit and end earlier.
    FoundBehindEarlier,
    /// A search that took the first of several that have the latest end.
    FoundFirstOfEqual,
    /// RESPONSE 10 to the number of a message that had this RESPONSE.
    RepeatedAfter(u8),
    /// RESPONSE 10 where, had the number been another, this RESPONSE were due.
    RepeatedThen(u8),
    /// This RESPONSE to a message whose number was the remembered one.
    BeforeRepeated(u8),
    RepeatedWithOtherType,
    RepeatedWithOtherBody,
    RepeatedZero,
    RepeatedByEnd,
    /// RESPONSE 10 with the expected number beside the wrap: 65,535 or 0.
    RepeatedAtWrap,
    /// RESPONSE 10 in a reply with the own number 65,535.
    RepeatedAtOwnWrap,
    /// RESPONSE 10 where the byte that says that a number is remembered is neither 0 nor 1.
    RepeatedByOtherFlag,
    /// A first message with the number 0, where none is remembered and the number is 0.
    TakenZeroFirst,
    /// A message with the number that stands in a session that remembers none; it is not 0.
    TakenBesideNoFlag,
    /// A first message with the number that the session remembered before it was begun or opened.
    TakenAfterForgotten,
    /// A first message with the number of one that was answered 9 in the session before.
    TakenAfter9,
    /// A session init that opened a session that remembered a number.
    OpenedOverNumber,
    /// A conversion that was done or refused in this way.
    Conversion(Call, Way),
    /// What an event of a connection showed.
    Connection(Met),
    /// A message with other KMACs in the second of two runs.
    OtherKmacs,
    /// A call after which two runs held a key unlike.
    HeldUnlike,
}

impl fmt::Display for Mark {
    fn fmt(&self, f: &mut fmt::Formatter) -> fmt::Result {
        match self {
            Mark::Given(call) => write!(f, "{call:?} done"),
            Mark::Refused(call, house) => write!(f, "{call:?} H{house}"),
            Mark::Opened => write!(f, "session opened"),
            Mark::Ended => write!(f, "session ended"),
            Mark::Response(response) => write!(f, "RESPONSE {response}"),
            Mark::Result(kind, result) => write!(f, "RESULT {result} of type {kind}"),
            Mark::HeaderOfOther(call) => write!(f, "{call:?} with the other header"),
            Mark::Broken(call, condition) => write!(f, "{call:?} with {condition:?} broken"),
            Mark::Unsound(kind) => write!(f, "RESPONSE 6 to type {kind}"),
            Mark::OverUnsound(response) => write!(f, "RESPONSE {response} over an unsound store"),
            Mark::EndedOverUnsound => write!(f, "session ended over an unsound store"),
            Mark::BehindDone(result) => write!(f, "RESULT {result} behind 0"),
            Mark::BeforeDone(result) => write!(f, "RESULT {result} before 0"),
            Mark::FoundAtEnd => write!(f, "record found at its end"),
            Mark::FoundAtOneMoment => write!(f, "record found at its one moment"),
            Mark::FoundBehindEarlier => write!(f, "record found behind one that ends earlier"),
            Mark::FoundFirstOfEqual => write!(f, "record found as the first of equal ends"),
            Mark::RepeatedAfter(response) => write!(f, "RESPONSE 10 after {response}"),
            Mark::RepeatedThen(response) => write!(f, "RESPONSE 10 before {response}"),
            Mark::BeforeRepeated(response) => write!(f, "RESPONSE {response} before 10"),
            Mark::RepeatedWithOtherType => write!(f, "number repeated with another type"),
            Mark::RepeatedWithOtherBody => write!(f, "number repeated with another body"),
            Mark::RepeatedZero => write!(f, "number 0 repeated"),
            Mark::RepeatedByEnd => write!(f, "number repeated by end of update"),
            Mark::RepeatedAtWrap => write!(f, "number repeated beside the wrap"),
            Mark::RepeatedAtOwnWrap => write!(f, "number repeated at the own wrap"),
            Mark::RepeatedByOtherFlag => write!(f, "number repeated by a flag over 1"),
            Mark::TakenZeroFirst => write!(f, "number 0 taken first"),
            Mark::TakenBesideNoFlag => write!(f, "number taken where none is remembered"),
            Mark::TakenAfterForgotten => write!(f, "number taken that was forgotten"),
            Mark::TakenAfter9 => write!(f, "number taken after RESPONSE 9"),
            Mark::OpenedOverNumber => write!(f, "session opened over a number"),
            Mark::Conversion(call, way) => write!(f, "{call:?} with {way:?}"),
            Mark::Connection(met) => write!(f, "{met}"),
            Mark::OtherKmacs => write!(f, "message with other KMACs"),
            Mark::HeldUnlike => write!(f, "key held unlike"),
        }
    }
}

/// An answer, and the number of the edition that has stores of the lent length; none where no
/// store is lent, or one whose length fits neither.
#[derive(Clone, Copy, PartialEq, Eq, PartialOrd, Ord, Debug)]
pub struct Seen {
    edition: Option<u16>,
    mark: Mark,
}

impl fmt::Display for Seen {
    fn fmt(&self, f: &mut fmt::Formatter) -> fmt::Result {
        match self.edition {
            Some(number) => write!(f, "{} in edition {number}", self.mark),
            None => write!(f, "{}", self.mark),
        }
    }
}

#[derive(Default)]
pub struct Coverage(BTreeMap<Seen, u64>);

impl Coverage {
    /// A mark of a call that lends this store.
    pub fn see(&mut self, store: &[u8], mark: Mark) {
        let edition = Edition::of_length(store.len()).map(|edition| edition.number);
        self.count(Seen { edition, mark });
    }

    fn count(&mut self, seen: Seen) {
        *self.0.entry(seen).or_insert(0) += 1;
    }

    /// The answer of a call that lends no store.
    pub fn answer(&mut self, call: Call, answer: i32) {
        self.answer_over(&[], call, answer);
    }

    /// A C answer: a negative one is a refusal.
    pub fn answer_over(&mut self, store: &[u8], call: Call, answer: i32) {
        let mark = match u8::try_from(-answer) {
            Ok(house) if answer < 0 => Mark::Refused(call, house),
            _ => Mark::Given(call),
        };
        self.see(store, mark);
        if mark == Mark::Refused(call, H12) && has_other_header(store) {
            self.see(store, Mark::HeaderOfOther(call));
        }
    }

    /// What `find` answered. A record that is found because T = end fits is told, and one that is
    /// taken by its end.
    pub fn found(&mut self, store: &[u8], peer: u32, t: u32, answer: i32) {
        self.answer_over(store, Call::Find, answer);
        let place = usize::try_from(answer).unwrap_or(0);
        if !(1..=held(store)).contains(&place) {
            return;
        }
        match period(store, place - 1) {
            [start, end] if start == t && end == t => self.see(store, Mark::FoundAtOneMoment),
            [_, end] if end == t => self.see(store, Mark::FoundAtEnd),
            _ => {}
        }
        self.taken_by_end(store, peer, t, place - 1);
    }

    /// A record that is taken, its place counted from 0; one that should not be shows nothing.
    fn taken_by_end(&mut self, store: &[u8], peer: u32, t: u32, taken: usize) {
        let end = |&place: &usize| period(store, place)[1];
        let all = 0..held(store);
        let fitting: Vec<usize> = all.filter(|&i| fits(store, i, peer, t)).collect();
        let latest = fitting.iter().map(end).max();
        let mut holders = fitting.iter().filter(|place| Some(end(place)) == latest);
        if holders.next() != Some(&taken) {
            return;
        }
        if fitting.first() != Some(&taken) {
            self.see(store, Mark::FoundBehindEarlier);
        }
        if holders.next().is_some() {
            self.see(store, Mark::FoundFirstOfEqual);
        }
    }

    /// What `receive` answered over the store as it was before, and the RESPONSE and RESULTs of
    /// the reply that it wrote.
    pub fn received(&mut self, store: &[u8], message: &[u8], answer: i32, out: &[u8]) {
        self.answer_over(store, Call::Receive, answer);
        let Some((&kind, length)) = message.get(TYPE_AT).zip(usize::try_from(answer).ok()) else {
            return;
        };
        if length == 0 {
            let opened = kind == kind::SESSION_INIT;
            return self.see(store, if opened { Mark::Opened } else { Mark::Ended });
        }
        let Some(&response) = out.get(RESPONSE_AT) else {
            return;
        };
        self.see(store, Mark::Response(response));
        if response == UNRECOVERABLE_DATABASE && has_other_header(store) {
            self.see(store, Mark::HeaderOfOther(Call::Receive));
        }
        let results = out.get(RESULTS_AT..length).unwrap_or_default();
        for &result in results {
            self.see(store, Mark::Result(kind, result));
        }
        for mark in mixed(results) {
            self.see(store, mark);
        }
    }

    /// What an event of a connection showed; the store is told where set-up started or was refused.
    pub fn connection(&mut self, store: &[u8], met: Met) {
        let store = if met.is_of_store() { store } else { &[] };
        self.see(store, Mark::Connection(met));
    }

    /// How many calls lent a store of this edition.
    pub fn calls_over(&self, edition: Edition) -> u64 {
        let is_call = |mark| matches!(mark, Mark::Given(_) | Mark::Refused(..));
        let counts = self
            .0
            .iter()
            .filter(|(seen, _)| seen.edition == Some(edition.number) && is_call(seen.mark));
        counts.map(|(_, count)| count).sum()
    }

    pub fn missing(&self, required: &[Seen]) -> Vec<Seen> {
        let unseen = |seen: &Seen| !self.0.contains_key(seen);
        required.iter().copied().filter(unseen).collect()
    }

    /// How many answers were required, and how often the rarest of them was seen.
    pub fn summary(&self, required: &[Seen]) -> String {
        let count = |seen: &Seen| self.0.get(seen).copied().unwrap_or(0);
        let rarest = required.iter().min_by_key(|&seen| count(seen));
        let rarest = rarest.map_or(String::new(), |seen| {
            format!("{seen}, {} times", count(seen))
        });
        format!("all {} answers seen, the rarest {rarest}", required.len())
    }
}

/// Which RESULTs stand behind a RESULT 0, and which before one.
fn mixed(results: &[u8]) -> Vec<Mark> {
    let first = |result| results.iter().position(|&other| other == result);
    let last = |result| results.iter().rposition(|&other| other == result);
    let (Some(first_done), Some(last_done)) = (first(0), last(0)) else {
        return Vec::new();
    };
    let behind = NOT_DONE
        .into_iter()
        .filter(|&result| last(result) > Some(first_done));
    let is_before = |&result: &u8| first(result).is_some_and(|place| place < last_done);
    let before = NOT_DONE.into_iter().filter(is_before);
    behind
        .map(Mark::BehindDone)
        .chain(before.map(Mark::BeforeDone))
        .collect()
}

fn without_store(marks: Vec<Mark>) -> Vec<Seen> {
    let edition = None;
    let seen = |mark| Seen { edition, mark };
    marks.into_iter().map(seen).collect()
}

fn in_edition(edition: Edition, marks: Vec<Mark>) -> Vec<Seen> {
    let edition = Some(edition.number);
    let seen = |mark| Seen { edition, mark };
    marks.into_iter().map(seen).collect()
}

fn in_each_edition(marks: Vec<Mark>) -> Vec<Seen> {
    let numbers = EDITIONS.map(|edition| Some(edition.number));
    let seen = |mark| numbers.map(|edition| Seen { edition, mark });
    marks.into_iter().flat_map(seen).collect()
}

/// An answer of 0 or more, and the refusals.
fn answers(call: Call, houses: &[u8]) -> Vec<Mark> {
    [vec![Mark::Given(call)], refusals(call, houses)].concat()
}

fn refusals(call: Call, houses: &[u8]) -> Vec<Mark> {
    let mark = |&house| Mark::Refused(call, house);
    houses.iter().map(mark).collect()
}

fn results(kind: u8, results: &[u8]) -> Vec<Mark> {
    let mark = |&result| Mark::Result(kind, result);
    results.iter().map(mark).collect()
}

/// What begin, receive and find can answer from sound stores.
fn of_sound_stores() -> Vec<Seen> {
    let responses = [0, 1, 2, 3, 4, 5, 9, 10, 11].map(Mark::Response);
    let over_stores = [
        answers(Call::Receive, &[2, 3, 4, 5]),
        answers(Call::Find, &[11]),
        vec![Mark::FoundAtEnd, Mark::FoundAtOneMoment],
        vec![Mark::FoundBehindEarlier, Mark::FoundFirstOfEqual],
        vec![Mark::Opened, Mark::Ended],
        responses.to_vec(),
        repeated_numbers(),
        results(kind::ADD_KEYS, &[0, 2, 3, 4, 5, 255]),
        results(kind::DELETE_KEYS, &[0, 1]),
        results(kind::UPDATE_KEY_VALIDITIES, &[0, 1]),
        results(kind::UPDATE_KEY_ENTITIES, &[0, 1, 255]),
        NOT_DONE.map(Mark::BehindDone).to_vec(),
        // No add of one message makes room for another key: there 2 comes before no 0.
        [1, 3, 4, 5, 255].map(Mark::BeforeDone).to_vec(),
    ];
    [
        without_store(answers(Call::Begin, &[2, 6])),
        in_each_edition(over_stores.concat()),
    ]
    .concat()
}

/// In what ways a transaction number comes again over a sound store.
fn repeated_numbers() -> Vec<Mark> {
    let others = vec![
        Mark::RepeatedWithOtherType,
        Mark::RepeatedWithOtherBody,
        Mark::RepeatedZero,
        Mark::RepeatedByEnd,
        Mark::RepeatedAtWrap,
        Mark::RepeatedAtOwnWrap,
        Mark::RepeatedByOtherFlag,
        Mark::TakenZeroFirst,
        Mark::TakenBesideNoFlag,
        Mark::TakenAfterForgotten,
        Mark::TakenAfter9,
        Mark::OpenedOverNumber,
    ];
    [
        BEFORE_REPEATED.map(Mark::BeforeRepeated).to_vec(),
        [0, 1].map(Mark::RepeatedAfter).to_vec(),
        [1, 11].map(Mark::RepeatedThen).to_vec(),
        others,
    ]
    .concat()
}

pub fn of_pairs() -> Vec<Seen> {
    let unlike = vec![Mark::OtherKmacs, Mark::HeldUnlike];
    [of_sound_stores(), in_each_edition(unlike)].concat()
}

/// What they can answer from any store.
pub fn of_sessions() -> Vec<Seen> {
    let other_header = [Call::Receive, Call::Find].map(Mark::HeaderOfOther);
    let of_unsound_stores = [
        vec![Mark::Response(UNRECOVERABLE_DATABASE)],
        vec![Mark::RepeatedAfter(UNRECOVERABLE_DATABASE)],
        vec![Mark::RepeatedThen(UNRECOVERABLE_DATABASE)],
        refusals(Call::Find, &[H12]),
        other_header.to_vec(),
        WITH_REQUESTS.map(Mark::Unsound).to_vec(),
        CONDITIONS
            .map(|only| Mark::Broken(Call::Receive, only))
            .to_vec(),
        CONDITIONS
            .map(|only| Mark::Broken(Call::Find, only))
            .to_vec(),
        [0, 1, 2, 3, 4, 5, 9, 10, 11]
            .map(Mark::OverUnsound)
            .to_vec(),
        vec![Mark::EndedOverUnsound],
    ];
    let of_other_lengths = [refusals(Call::Receive, &[H1]), refusals(Call::Find, &[H1])];
    [
        of_sound_stores(),
        in_each_edition(of_unsound_stores.concat()),
        without_store(of_other_lengths.concat()),
    ]
    .concat()
}

/// What the ciphers' and units' calls, and the empty store, can answer.
pub fn of_units() -> Vec<Seen> {
    let without = [
        answers(Call::SessionKeys, &[13]),
        answers(Call::Build, &[2, 10, 13]),
        answers(Call::Check, &[7, 8, 9, 13]),
        refusals(Call::EmptyStore, &[H1]),
    ];
    [
        without_store(without.concat()),
        in_each_edition(vec![Mark::Given(Call::EmptyStore)]),
    ]
    .concat()
}

/// What the two conversions can answer. The edition is that of the source's length.
pub fn of_conversions() -> Vec<Seen> {
    let to_edition_1 = [
        refusals(Call::ToEdition1, &[H14]),
        ways(Call::ToEdition1, LIMITS.map(Way::NoRoom)),
        ways(Call::ToEdition1, LIMITS.map(Way::UnsoundWithNoRoom)),
    ];
    [
        of_conversion(EDITION_1, Call::ToEdition2, EDITION_2),
        of_conversion(EDITION_2, Call::ToEdition1, EDITION_1),
        in_edition(EDITION_2, to_edition_1.concat()),
    ]
    .concat()
}

/// What either can answer: done, H1 by either side or both, and H12 by each condition.
fn of_conversion(source: Edition, call: Call, target: Edition) -> Vec<Seen> {
    let over_source = [
        answers(call, &[H1, H12]),
        ways(call, LIMITS.map(Way::DoneAtLimit)),
        ways(call, [Way::TargetLength]),
        vec![Mark::HeaderOfOther(call)],
        CONDITIONS.map(|only| Mark::Broken(call, only)).to_vec(),
    ];
    [
        in_edition(source, over_source.concat()),
        in_edition(target, ways(call, [Way::SourceLength, Way::Exchanged])),
        without_store(ways(call, [Way::SourceLength])),
    ]
    .concat()
}

/// What the events of connections can answer and show.
pub fn of_connections() -> Vec<Seen> {
    let marks = |met: Vec<Met>| met.into_iter().map(Mark::Connection).collect();
    let over_stores = [
        answers(Call::Event, &[H2, H11, H12]),
        vec![Mark::HeaderOfOther(Call::Event)],
        marks(squares::required_of_stores()),
    ];
    [
        without_store(answers(Call::Event, &[H1, H2, H10])),
        without_store(marks(squares::required())),
        in_each_edition(over_stores.concat()),
    ]
    .concat()
}

fn ways<const N: usize>(call: Call, ways: [Way; N]) -> Vec<Mark> {
    ways.map(|way| Mark::Conversion(call, way)).to_vec()
}

#[cfg(test)]
mod tests {
    use super::{of_connections, of_conversions, of_pairs, of_sessions, of_units};
    use super::{Call, Coverage, Mark};
    use crate::stores::Names;
    use reference::random::Random;
    use reference::store::{encode, Entry, EDITIONS, EDITION_1, EDITION_2};

    #[test]
    fn nothing_seen_is_all_missing() {
        let seen = Coverage::default();
        let all = [
            of_sessions(),
            of_units(),
            of_conversions(),
            of_connections(),
        ];
        for required in all.into_iter().chain([of_pairs()]) {
            assert_eq!(seen.missing(&required), required);
        }
    }

    #[test]
    fn one_unseen_answer_is_missing() {
        for unseen in of_sessions() {
            let mut seen = Coverage::default();
            let others = of_sessions().into_iter().filter(|&other| other != unseen);
            others.for_each(|other| seen.count(other));
            assert_eq!(seen.missing(&of_sessions()), [unseen]);
        }
    }

    #[test]
    fn an_answer_in_one_edition_is_missing_in_the_other() {
        let mut seen = Coverage::default();
        let store = encode(EDITION_2, &[]);
        for response in 0..=11 {
            seen.see(&store, Mark::Response(response));
        }
        let missing = seen.missing(&of_sessions());
        let is_response = |mark| matches!(mark, Mark::Response(_));
        let responses: Vec<_> = missing
            .into_iter()
            .filter(|seen| is_response(seen.mark))
            .collect();
        assert_eq!(responses.len(), 10);
        assert!(responses.iter().all(|seen| seen.edition == Some(1)));
    }

    #[test]
    fn a_reply_shows_its_response_and_results() {
        let message = [0; 20];
        let mut out = [0; 1032];
        out[23..26].copy_from_slice(&[0, 3, 255]);
        for edition in EDITIONS {
            let mut seen = Coverage::default();
            seen.received(&encode(edition, &[]), &message, 26, &out);
            let marks = [
                Mark::Given(Call::Receive),
                Mark::Response(0),
                Mark::Result(0, 0),
                Mark::Result(0, 3),
                Mark::Result(0, 255),
                Mark::BehindDone(3),
                Mark::BehindDone(255),
            ];
            let number = Some(edition.number);
            assert!(seen.0.keys().all(|seen| seen.edition == number));
            assert_eq!(
                seen.0.keys().map(|seen| seen.mark).collect::<Vec<_>>(),
                marks
            );
            assert_eq!(seen.calls_over(edition), 1);
        }
    }

    #[test]
    fn refusals_are_told_apart() {
        let mut seen = Coverage::default();
        let store = encode(EDITION_1, &[]);
        seen.answer_over(&store, Call::Find, -12);
        seen.answer_over(&store, Call::Find, 3);
        seen.answer_over(&store[1..], Call::Find, -1);
        let marks: Vec<_> = seen
            .0
            .keys()
            .map(|seen| (seen.edition, seen.mark))
            .collect();
        let expected = [
            (None, Mark::Refused(Call::Find, 1)),
            (Some(1), Mark::Given(Call::Find)),
            (Some(1), Mark::Refused(Call::Find, 12)),
        ];
        assert_eq!(marks, expected);
    }

    #[test]
    fn a_record_found_at_its_end_is_told() {
        let mut random = Random::new(1);
        let names = Names::new(EDITION_2, &mut random);
        let mut entries = names.entries(&mut random, 2, 1);
        (entries[0].start, entries[0].end) = (3, 5);
        (entries[1].start, entries[1].end) = (5, 5);
        let found = |t, answer| marks_of(&entries, t, answer);
        let given = Mark::Given(Call::Find);
        assert_eq!(found(3, 1), [given]);
        assert_eq!(found(4, 1), [given]);
        assert_eq!(found(5, 1), [given, Mark::FoundAtEnd]);
        assert_eq!(found(5, 2), [given, Mark::FoundAtOneMoment]);
        assert_eq!(found(5, -11), [Mark::Refused(Call::Find, 11)]);
    }

    /// The marks of a search for the peer 0.
    fn marks_of(entries: &[Entry], t: u32, answer: i32) -> Vec<Mark> {
        let mut seen = Coverage::default();
        seen.found(&encode(EDITION_2, entries), 0, t, answer);
        seen.0.keys().map(|seen| seen.mark).collect()
    }

    #[test]
    fn a_record_taken_by_its_end_is_told() {
        let mut random = Random::new(2);
        let names = Names::new(EDITION_2, &mut random);
        let mut entries = names.entries(&mut random, 5, 0);
        // The fourth is of another peer, the fifth not begun.
        for (entry, end) in entries.iter_mut().zip([7, 8, 8, 9, 9]) {
            (entry.start, entry.end, entry.peers) = (0, end, vec![[1; 4], [0; 4]]);
        }
        entries[3].peers.pop();
        entries[4].start = 9;
        let given = Mark::Given(Call::Find);
        let (behind, first) = (Mark::FoundBehindEarlier, Mark::FoundFirstOfEqual);
        assert_eq!(marks_of(&entries, 3, 2), [given, behind, first]);
        assert_eq!(marks_of(&entries[1..], 3, 1), [given, first]);
        assert_eq!(marks_of(&entries[..2], 3, 2), [given, behind]);
        assert_eq!(marks_of(&entries[2..], 3, 1), [given]);
        for wrong in [1, 3, 4, 5] {
            assert_eq!(marks_of(&entries, 3, wrong), [given]);
        }
    }

    #[test]
    fn a_header_of_the_other_edition_is_told() {
        let editions = [(EDITION_1, EDITION_2), (EDITION_2, EDITION_1)];
        for ((edition, other), to_other) in editions
            .into_iter()
            .zip([Call::ToEdition2, Call::ToEdition1])
        {
            let mut store = encode(edition, &[]);
            store[..12].copy_from_slice(&encode(other, &[])[..12]);
            for call in [Call::Find, to_other] {
                let mut seen = Coverage::default();
                seen.answer_over(&store, call, -12);
                let marks: Vec<_> = seen.0.keys().map(|seen| seen.mark).collect();
                let refused = Mark::Refused(call, 12);
                assert_eq!(marks, [refused, Mark::HeaderOfOther(call)]);
            }
        }
    }
}
