//! Follows the messages of a session, to tell in what way a transaction number came again.

use reference::message::{body, is_supported, kind};
use reference::store::decode;

use crate::coverage::Mark;
use crate::library::{SessionBytes, NUMBER_AT, REMEMBERED_AT, UNUSED_AT};
use crate::repeated::{Exchange, Outcome, REPEATED};
use crate::wire::HEADER;

/// What the calls before left. A session that comes with other bytes than the last call left starts
/// a chain of its own.
#[derive(Default)]
pub struct Chain {
    session: SessionBytes,
    /// The message that is remembered: its type, its body and its RESPONSE.
    heard: Option<(u8, Vec<u8>, Option<u8>)>,
    /// The number that the session had remembered when it was begun anew, or opened.
    forgotten: Option<[u8; 4]>,
    /// The number of the message that was answered 9.
    not_heard: Option<[u8; 4]>,
}

impl Chain {
    fn follow(&mut self, before: &SessionBytes, after: &SessionBytes) {
        if self.session != *before {
            *self = Chain::default();
        }
        self.session = *after;
    }

    /// A begin that was not refused.
    pub fn begun(&mut self, before: &SessionBytes, after: &SessionBytes) {
        self.follow(before, after);
        self.forget(before);
    }

    fn forget(&mut self, before: &SessionBytes) {
        self.heard = None;
        if before[REMEMBERED_AT] != 0 {
            self.forgotten = before[NUMBER_AT..UNUSED_AT].try_into().ok();
        }
    }

    /// What one message over a store, as it was before, shows of repeated numbers.
    pub fn received(&mut self, exchange: &Exchange, store: &[u8]) -> Vec<Mark> {
        self.follow(exchange.before, exchange.after);
        match exchange.outcome() {
            Outcome::Refused | Outcome::NotOpened => Vec::new(),
            Outcome::Opened => {
                self.forget(exchange.before);
                let had_number = exchange.before[REMEMBERED_AT] != 0;
                had_number
                    .then_some(Mark::OpenedOverNumber)
                    .into_iter()
                    .collect()
            }
            Outcome::NotHeard(response) => {
                self.not_heard = (response == 9).then(|| exchange.transaction());
                let repeated = exchange.is_repeated();
                repeated
                    .then_some(Mark::BeforeRepeated(response))
                    .into_iter()
                    .collect()
            }
            Outcome::Heard(response) => {
                let marks = match response {
                    Some(REPEATED) => self.repeated(exchange, store),
                    _ => self.taken(exchange),
                };
                let body = exchange.message[HEADER..].to_vec();
                self.heard = Some((exchange.kind(), body, response));
                (self.forgotten, self.not_heard) = (None, None);
                marks
            }
        }
    }

    /// A message that was answered 10.
    fn repeated(&self, exchange: &Exchange, store: &[u8]) -> Vec<Mark> {
        let (kind, content) = (exchange.kind(), &exchange.message[HEADER..]);
        let mut marks = Vec::new();
        if let Some((heard_kind, heard_content, response)) = &self.heard {
            marks.extend(response.map(Mark::RepeatedAfter));
            if *heard_kind != kind {
                marks.push(Mark::RepeatedWithOtherType);
            } else if heard_content != content {
                marks.push(Mark::RepeatedWithOtherBody);
            }
        }
        let before = exchange.before;
        let worked = is_supported(kind) && body(kind, content).is_some();
        let asks_store = worked && ![kind::DELETE_ALL_KEYS, kind::END_OF_UPDATE].contains(&kind);
        let shown = [
            (exchange.transaction() == [0; 4], Mark::RepeatedZero),
            (kind == kind::END_OF_UPDATE, Mark::RepeatedByEnd),
            (before[REMEMBERED_AT] > 1, Mark::RepeatedByOtherFlag),
            (
                matches!(before[4..6], [0, 0] | [255, 255]),
                Mark::RepeatedAtWrap,
            ),
            (before[2..4] == [255, 255], Mark::RepeatedAtOwnWrap),
            (!is_supported(kind), Mark::RepeatedThen(1)),
            (is_supported(kind) && !worked, Mark::RepeatedThen(11)),
            (asks_store && decode(store).is_none(), Mark::RepeatedThen(6)),
        ];
        marks.extend(
            shown
                .into_iter()
                .filter(|shown| shown.0)
                .map(|shown| shown.1),
        );
        marks
    }

    /// A message that passed the sequence test and was not answered 10.
    fn taken(&self, exchange: &Exchange) -> Vec<Mark> {
        let number = exchange.transaction();
        let is_first = exchange.before[REMEMBERED_AT] == 0;
        let is_zero = number == [0; 4];
        let has_number = is_first && exchange.has_number();
        let shown = [
            (has_number && is_zero, Mark::TakenZeroFirst),
            (has_number && !is_zero, Mark::TakenBesideNoFlag),
            (
                is_first && self.forgotten == Some(number),
                Mark::TakenAfterForgotten,
            ),
            (
                is_first && self.not_heard == Some(number),
                Mark::TakenAfter9,
            ),
        ];
        let seen = shown.into_iter().filter(|shown| shown.0);
        seen.map(|shown| shown.1).collect()
    }
}

#[cfg(test)]
mod tests {
    use super::Chain;
    use crate::coverage::Mark;
    use crate::library::{NUMBER_AT, REMEMBERED_AT, UNUSED_AT};
    use crate::model;
    use crate::repeated::Exchange;
    use crate::scene::{Scene, OUTPUT};
    use crate::wire::{SEQUENCE_AT, TRANSACTION_AT, TYPE_AT};
    use crate::{both::World, wire};
    use reference::message::kind;
    use reference::session::{CLOSED, OPEN, WAITING};
    use reference::store::EDITION_1;

    struct Run {
        scene: Scene,
        world: World,
        chain: Chain,
    }

    impl Run {
        fn new(state: u8) -> Run {
            let scene = Scene::new(EDITION_1, 1);
            let world = scene.world(state);
            Run {
                scene,
                world,
                chain: Chain::default(),
            }
        }

        /// The marks of a message with this transaction number and the number that is expected.
        fn marks(&mut self, transaction: u32, kind: u8, body: &[u8]) -> Vec<Mark> {
            let mut message = self.scene.message(kind, body);
            message[TRANSACTION_AT..SEQUENCE_AT].copy_from_slice(&transaction.to_be_bytes());
            message[SEQUENCE_AT..TYPE_AT].copy_from_slice(&self.world.session[4..6]);
            self.marks_of(&message)
        }

        fn marks_of(&mut self, message: &[u8]) -> Vec<Mark> {
            let before = self.world.clone();
            let World { session, store } = &mut self.world;
            let mut out = OUTPUT;
            let answer = model::receive(session, message, store, &mut out);
            let exchange = Exchange {
                before: &before.session,
                message,
                answer,
                out: &out,
                after: session,
            };
            self.chain.received(&exchange, &before.store)
        }

        fn begin_and_open(&mut self) {
            let before = self.world.session;
            let identities = [self.scene.names.own, self.scene.names.centre];
            let [own, peer] = identities.map(u32::from_be_bytes);
            let mut out = OUTPUT;
            model::begin((own, peer), 1, &mut self.world.session, &mut out);
            self.chain.begun(&before, &self.world.session);
            let marks = self.marks(5, kind::SESSION_INIT, &wire::init_body(&[2], 255));
            assert_eq!(marks, []);
        }
    }

    fn delete(serial: u8) -> Vec<u8> {
        wire::body(&[vec![serial; 8]])
    }

    #[test]
    fn what_was_answered_before_is_told() {
        let mut run = Run::new(OPEN);
        assert_eq!(run.marks(7, kind::DELETE_KEYS, &delete(1)), []);
        let marks = [Mark::RepeatedAfter(0), Mark::RepeatedWithOtherBody];
        assert_eq!(run.marks(7, kind::DELETE_KEYS, &delete(2)), marks);
        let mut run = Run::new(OPEN);
        assert_eq!(run.marks(0, 255, &[]), []);
        let marks = [
            Mark::RepeatedAfter(1),
            Mark::RepeatedWithOtherType,
            Mark::RepeatedZero,
            Mark::RepeatedByEnd,
        ];
        assert_eq!(run.marks(0, kind::END_OF_UPDATE, &[]), marks);
        let mut run = Run::new(OPEN);
        run.world.store[3851] = 1;
        assert_eq!(run.marks(7, kind::DELETE_KEYS, &delete(1)), []);
        let marks = [Mark::RepeatedAfter(6), Mark::RepeatedThen(6)];
        assert_eq!(run.marks(7, kind::DELETE_KEYS, &delete(1)), marks);
    }

    #[test]
    fn a_session_that_was_changed_between_has_no_message_before() {
        let mut run = Run::new(OPEN);
        assert_eq!(run.marks(7, kind::DELETE_KEYS, &delete(1)), []);
        run.world.session[REMEMBERED_AT] = 9;
        run.world.session[2..6].fill(255);
        let marks = [
            Mark::RepeatedByOtherFlag,
            Mark::RepeatedAtWrap,
            Mark::RepeatedAtOwnWrap,
        ];
        assert_eq!(run.marks(7, kind::DELETE_KEYS, &delete(1)), marks);
    }

    #[test]
    fn the_order_of_tests_is_told() {
        for (kind, body, then) in [(5, &[][..], 1), (0, &[], 11), (10, &[0], 11)] {
            let mut run = Run::new(OPEN);
            assert_eq!(run.marks(7, kind::DELETE_ALL_KEYS, &[]), []);
            let marks = run.marks(7, kind, body);
            assert!(marks.contains(&Mark::RepeatedThen(then)));
        }
        let mut run = Run::new(OPEN);
        let mut message = run.scene.message(kind::DELETE_ALL_KEYS, &[]);
        run.world.session[NUMBER_AT..UNUSED_AT].copy_from_slice(&message[13..17]);
        message[SEQUENCE_AT] ^= 1;
        assert_eq!(run.marks_of(&message), [Mark::BeforeRepeated(9)]);
    }

    #[test]
    fn a_number_taken_again_in_the_next_session_is_told() {
        let mut run = Run::new(OPEN);
        assert_eq!(run.marks(7, kind::END_OF_UPDATE, &[]), []);
        assert_eq!(run.world.session[0], CLOSED);
        run.begin_and_open();
        let marks = [Mark::TakenAfterForgotten];
        assert_eq!(run.marks(7, kind::DELETE_ALL_KEYS, &[]), marks);
        let mut message = run.scene.message(kind::DELETE_ALL_KEYS, &[]);
        message[SEQUENCE_AT] ^= 1;
        assert_eq!(run.marks_of(&message), []);
        run.begin_and_open();
        let number = u32::from_be_bytes([message[13], message[14], message[15], message[16]]);
        let marks = [Mark::TakenAfter9];
        assert_eq!(run.marks(number, kind::DELETE_ALL_KEYS, &[]), marks);
    }

    #[test]
    fn a_first_message_with_the_number_that_stands_there_is_told() {
        let mut run = Run::new(WAITING);
        let init = wire::init_body(&[2], 255);
        let marks = [Mark::OpenedOverNumber];
        assert_eq!(run.marks(7, kind::SESSION_INIT, &init), marks);
        let marks = [Mark::TakenZeroFirst];
        assert_eq!(run.marks(0, kind::DELETE_ALL_KEYS, &[]), marks);
        run.world.session[REMEMBERED_AT] = 0;
        run.world.session[UNUSED_AT - 1] = 7;
        let marks = [Mark::TakenBesideNoFlag];
        assert_eq!(run.marks(7, kind::DELETE_ALL_KEYS, &[]), marks);
    }
}
