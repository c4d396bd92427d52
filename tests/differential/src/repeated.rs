//! Change request 3 by the papers alone: which messages are answered 10, what that leaves, and which
//! transaction number a session remembers. The second program has no part in this.

use reference::message::kind;
use reference::refusal::H5;
use reference::session::{CLOSED, OPEN, WAITING};
use reference::Identity;

use crate::compare::{buffers, numbers, Compared};
use crate::library::{SessionBytes, NUMBER_AT, REMEMBERED_AT, UNUSED_AT};
use crate::wire::{self, Header, HEADER, LENGTH_MAX, RESPONSE_AT};
use crate::wire::{RECEIVER_AT, SENDER_AT, SEQUENCE_AT, TRANSACTION_AT, TYPE_AT, VERSION_AT};

pub const REPEATED: u8 = 10;

/// The RESPONSEs of the tests up to the sequence test, in their order.
pub const BEFORE_REPEATED: [u8; 5] = [2, 5, 4, 3, 9];

/// One message, the session before and after it, the answer and what stands in the output then.
pub struct Exchange<'a> {
    pub before: &'a SessionBytes,
    pub message: &'a [u8],
    pub answer: i32,
    pub out: &'a [u8],
    pub after: &'a SessionBytes,
}

#[derive(Clone, Copy, PartialEq, Eq, Debug)]
pub enum Outcome {
    /// A refusal that leaves the session.
    Refused,
    /// H5.
    NotOpened,
    Opened,
    /// One of the tests up to the sequence test failed.
    NotHeard(u8),
    /// They all held; none where end of update closed the session.
    Heard(Option<u8>),
}

impl Exchange<'_> {
    pub fn outcome(&self) -> Outcome {
        match self.answer {
            answer if answer == -i32::from(H5) => Outcome::NotOpened,
            _ if self.answer < 0 || self.message.len() < HEADER => Outcome::Refused,
            0 if self.before[0] == WAITING => Outcome::Opened,
            _ => match self.first_fault() {
                Some(response) => Outcome::NotHeard(response),
                None => Outcome::Heard(self.response()),
            },
        }
    }

    /// The RESPONSE of the reply; none where there is no reply.
    pub fn response(&self) -> Option<u8> {
        (self.answer > 0).then(|| self.out[RESPONSE_AT])
    }

    /// The first test up to the sequence test that fails, by its RESPONSE.
    fn first_fault(&self) -> Option<u8> {
        let (session, message) = (self.before, self.message);
        let length = u32::from_be_bytes(four(message, 0)) as usize;
        let held = [
            length == message.len() && length <= LENGTH_MAX,
            message[VERSION_AT] == 2,
            message[RECEIVER_AT..SENDER_AT] == session[6..10],
            message[SENDER_AT..TRANSACTION_AT] == session[10..14],
            message[SEQUENCE_AT..TYPE_AT] == session[4..6],
        ];
        let failed = held.iter().position(|holds| !holds);
        failed.map(|place| BEFORE_REPEATED[place])
    }

    /// The message's transaction number. It has a header, as any that is not refused has.
    pub fn transaction(&self) -> [u8; 4] {
        four(self.message, TRANSACTION_AT)
    }

    pub fn kind(&self) -> u8 {
        self.message[TYPE_AT]
    }

    /// Whether the session remembered this number.
    pub fn is_repeated(&self) -> bool {
        self.before[REMEMBERED_AT] != 0 && self.has_number()
    }

    /// Whether the number stands in the session, remembered or not.
    pub fn has_number(&self) -> bool {
        self.before[NUMBER_AT..UNUSED_AT] == self.transaction()
    }

    /// What the session must remember then, and what a repeated number must leave.
    pub fn keeps_the_rule(&self) -> Compared {
        let kept = (
            u8::from(self.before[REMEMBERED_AT] != 0),
            four(self.before, NUMBER_AT),
        );
        let (flag, number) = match self.outcome() {
            Outcome::Refused => return Ok(()),
            Outcome::NotOpened => kept,
            Outcome::NotHeard(response) => {
                let told = self.response().map_or(-1, i64::from);
                numbers("RESPONSE, by the papers", response.into(), told)?;
                kept
            }
            Outcome::Opened => (0, [0; 4]),
            Outcome::Heard(response) => {
                let (repeated, told) = (self.is_repeated(), response == Some(REPEATED));
                numbers("RESPONSE 10, by the papers", repeated.into(), told.into())?;
                (1, self.transaction())
            }
        };
        let got = self.after[REMEMBERED_AT].into();
        numbers(
            "whether a number is remembered, by the papers",
            flag.into(),
            got,
        )?;
        let got = &self.after[NUMBER_AT..UNUSED_AT];
        buffers("number remembered, by the papers", &number, got)?;
        buffers(
            "unused part of the session",
            &[0; 14],
            &self.after[UNUSED_AT..],
        )?;
        if self.outcome() == Outcome::Heard(Some(REPEATED)) {
            self.fails_with(REPEATED, CLOSED)?;
        }
        Ok(())
    }

    /// The reply has no RESULT and the own number, which rises; the expected one rises where the
    /// session stays open.
    pub fn fails_with(&self, response: u8, state: u8) -> Compared {
        let (own, peer): (Identity, Identity) = (four(self.before, 6), four(self.before, 10));
        let number = |at: usize| u16::from_be_bytes([self.before[at], self.before[at + 1]]);
        let (next, expected) = (number(2), number(4));
        let header = Header {
            receiver: peer,
            sender: own,
            transaction: u32::from_be_bytes(self.transaction()),
            sequence: next,
        };
        let reply = wire::message(&header, kind::RESPONSE, &[response, 0, 0]);
        let length = reply.len() as i64;
        numbers(
            "length of a reply without RESULTs",
            length,
            self.answer.into(),
        )?;
        buffers("reply without RESULTs", &reply, &self.out[..reply.len()])?;
        let mut session = *self.before;
        session[2..4].copy_from_slice(&next.wrapping_add(1).to_be_bytes());
        let rises = u16::from(state == OPEN);
        session[4..6].copy_from_slice(&expected.wrapping_add(rises).to_be_bytes());
        let (fields, got) = (2..NUMBER_AT, self.after);
        numbers(
            "state after a reply without RESULTs",
            state.into(),
            got[0].into(),
        )?;
        buffers(
            "session after a reply without RESULTs",
            &session[fields.clone()],
            &got[fields],
        )
    }
}

/// A session that was begun remembers nothing, and the number is 0.
pub fn begun_keeps_the_rule(session: &SessionBytes) -> Compared {
    let flag = session[REMEMBERED_AT].into();
    numbers("whether a begun session remembers a number", 0, flag)?;
    buffers("number of a begun session", &[0; 18], &session[NUMBER_AT..])
}

fn four(bytes: &[u8], at: usize) -> [u8; 4] {
    [bytes[at], bytes[at + 1], bytes[at + 2], bytes[at + 3]]
}

#[cfg(test)]
mod tests {
    use super::{begun_keeps_the_rule, Outcome, REPEATED};
    use crate::both::World;
    use crate::library::{SessionBytes, NUMBER_AT, REMEMBERED_AT};
    use crate::made::Made;
    use crate::model;
    use crate::scene::{Scene, OUTPUT};
    use crate::wire::{SEQUENCE_AT, TRANSACTION_AT};
    use reference::session::{OPEN, WAITING};
    use reference::store::EDITION_1;

    impl Made {
        fn is_right(&self) -> bool {
            self.exchange().keeps_the_rule().is_ok()
        }

        /// Every other byte that says whether a number is remembered, and every wrong bit of the
        /// number and of the unused part, is told.
        fn tells_what_is_remembered(&mut self) {
            assert!(self.is_right());
            for wrong in 1..=255 {
                self.after.session[REMEMBERED_AT] ^= wrong;
                assert!(!self.is_right());
                self.after.session[REMEMBERED_AT] ^= wrong;
            }
            for bit in 8 * NUMBER_AT..8 * 32 {
                self.after.session[bit / 8] ^= 1 << (bit % 8);
                assert!(!self.is_right(), "bit {bit}");
                self.after.session[bit / 8] ^= 1 << (bit % 8);
            }
        }
    }

    fn answered(session: SessionBytes, message: &[u8]) -> Made {
        let store = Scene::new(EDITION_1, 1).world(OPEN).store;
        Made::new(World { session, store }, message)
    }

    fn remember(session: &mut SessionBytes, flag: u8, message: &[u8]) {
        session[REMEMBERED_AT] = flag;
        session[NUMBER_AT..NUMBER_AT + 4].copy_from_slice(&message[TRANSACTION_AT..SEQUENCE_AT]);
    }

    #[test]
    fn a_wrong_bit_after_a_repeated_number_is_told() {
        let mut scene = Scene::new(EDITION_1, 1);
        for message in scene.messages() {
            let mut session = scene.world(OPEN).session;
            remember(&mut session, 2, &message);
            let mut made = answered(session, &message);
            assert_eq!(made.exchange().outcome(), Outcome::Heard(Some(REPEATED)));
            made.tells_what_is_remembered();
            for bit in 0..8 * NUMBER_AT {
                made.after.session[bit / 8] ^= 1 << (bit % 8);
                assert!(!made.is_right(), "bit {bit} of the session");
                made.after.session[bit / 8] ^= 1 << (bit % 8);
            }
            for bit in 0..8 * 23 {
                made.out[bit / 8] ^= 1 << (bit % 8);
                assert!(!made.is_right(), "bit {bit} of the reply");
                made.out[bit / 8] ^= 1 << (bit % 8);
            }
        }
    }

    #[test]
    fn a_wrong_memory_is_told_after_every_message() {
        let mut scene = Scene::new(EDITION_1, 1);
        for message in scene.messages() {
            for state in [WAITING, OPEN] {
                for flag in [0, 1, 255] {
                    let mut session = scene.world(state).session;
                    session[REMEMBERED_AT] = flag;
                    answered(session, &message).tells_what_is_remembered();
                    session[4] ^= 1;
                    answered(session, &message).tells_what_is_remembered();
                }
            }
        }
    }

    #[test]
    fn ten_where_it_is_not_due_and_another_where_it_is_are_told() {
        let mut scene = Scene::new(EDITION_1, 1);
        let message = scene.add();
        let session = scene.world(OPEN).session;
        let mut repeating = session;
        remember(&mut repeating, 1, &message);
        let mut made = answered(session, &message);
        made.before.session = repeating;
        assert!(!made.is_right());
        let mut made = answered(repeating, &message);
        made.before.session = session;
        assert!(!made.is_right());
        remember(&mut made.before.session, 0, &message);
        assert!(!made.is_right());
    }

    #[test]
    fn a_begun_session_that_remembers_is_told() {
        let (mut session, mut out) = ([0xff; 32], OUTPUT);
        assert_eq!(model::begin((1, 2), 3, &mut session, &mut out), 23);
        assert_eq!(begun_keeps_the_rule(&session), Ok(()));
        for at in [1, 14, 17, 18, 31] {
            session[at] = 1;
            assert!(begun_keeps_the_rule(&session).is_err());
            session[at] = 0;
        }
    }
}
