//! Change request 1 by the papers alone: which event is refused, which square of Table 20 is worked,
//! which key a connection holds then, and what stays in IDLE. Of the second program only the check of
//! a data unit and the session key have a part in this, which other tests compare with the library.

use std::ops::Range;

use reference::authentication::{check, session_keys};
use reference::refusal::{H1, H10, H11, H12, H2, H8};
use reference::setup::{DATA, IDLE};

use crate::compare::{buffers, numbers, Compared};
use crate::incoming::{ConnectionBytes, EventsBytes, Incoming, Row};
use crate::incoming::{KEY_AT, OWN_AT, RA_AT, RB_AT, ROLE_AT, UNUSED_AT};
use crate::layout::{fits, held, kmac, period};
use crate::table::{column, square, Actions, SA_DATA_IND, SA_DISC_IND, SA_REPORT_IND};
use crate::table::{SEND_AR, SEND_AU3, SEND_DT, T_CONN_REQ, T_CONN_RESP, T_DISC_REQ_DI};
use crate::unsound::{Judge, Verdict};

const OUTPUT_LENGTH: usize = 1032;
const USER_MAX: usize = 1023;
const TYPE_MAX: u32 = 7;

/// One event on the library: what was lent, before and after.
pub struct Happened<'a> {
    pub incoming: &'a Incoming<'a>,
    pub answer: i32,
    pub connection: [&'a ConnectionBytes; 2],
    pub events: [&'a EventsBytes; 2],
    pub out: [&'a [u8]; 2],
}

/// A search that starts set-up: own identity, peer, moment and store.
pub struct Search<'a> {
    pub own: u32,
    pub peer: u32,
    pub t: u32,
    pub store: &'a [u8],
}

impl Search<'_> {
    /// Whether the type of an identity is over 7: own, peer.
    pub fn has_large_type(&self) -> [bool; 2] {
        [self.own, self.peer].map(|identity| identity >> 24 > TYPE_MAX)
    }

    /// The place of the record that is taken, counted from 0: of those that fit the first with the
    /// latest end.
    pub fn taken(&self) -> Option<usize> {
        let all = 0..held(self.store);
        let fitting = all.filter(|&place| fits(self.store, place, self.peer, self.t));
        // Of several that are largest `max_by_key` gives the last.
        fitting
            .rev()
            .max_by_key(|&place| period(self.store, place)[1])
    }

    pub fn has_type_7(&self) -> bool {
        [self.own, self.peer]
            .iter()
            .any(|identity| identity >> 24 == TYPE_MAX)
    }

    pub fn is_at_end(&self) -> bool {
        let end = self.taken().map(|place| period(self.store, place)[1]);
        end == Some(self.t)
    }

    /// Whether a record before the one that is taken fits too.
    pub fn is_behind_earlier(&self) -> bool {
        let before = 0..self.taken().unwrap_or(0);
        before
            .into_iter()
            .any(|place| fits(self.store, place, self.peer, self.t))
    }

    fn refusal(&self, judge: &mut Judge) -> Option<u8> {
        match judge.verdict(self.store) {
            Verdict::OtherLength => Some(H1),
            Verdict::Unsound(_) => Some(H12),
            Verdict::Sound if self.taken().is_none() => Some(H11),
            Verdict::Sound => self.has_large_type().contains(&true).then_some(H11),
        }
    }
}

impl<'a> Happened<'a> {
    fn before(&self) -> &ConnectionBytes {
        self.connection[0]
    }

    fn after(&self) -> &ConnectionBytes {
        self.connection[1]
    }

    pub fn state(&self) -> u8 {
        self.before()[0]
    }

    pub fn is_responder(&self) -> bool {
        self.before()[ROLE_AT] != 0
    }

    pub fn actions(&self) -> Actions {
        let [user, transport, timer, state, ..] = *self.events[1];
        [user, transport, timer, state]
    }

    /// Reason and sub-reason, where the user is told some, or else of the DI.
    pub fn told(&self) -> Option<[u8; 2]> {
        let [user, transport, _, _] = self.actions();
        if user == SA_DISC_IND || user == SA_REPORT_IND {
            return Some([self.events[1][4], self.events[1][5]]);
        }
        (transport == T_DISC_REQ_DI).then(|| [self.out[1][1], self.out[1][2]])
    }

    /// The search, where the event starts set-up unless it is refused.
    pub fn search(&self) -> Option<Search<'a>> {
        if column(self.state()) != IDLE {
            return None;
        }
        match *self.incoming {
            Incoming::ConnectRequest(request) if request.acceptable != 0 => Some(Search {
                own: request.own,
                peer: request.peer,
                t: request.t,
                store: request.store,
            }),
            Incoming::ConnectIndication(indication) if indication.acceptable != 0 => Some(Search {
                own: indication.own,
                peer: caller(indication.unit)?,
                t: indication.t,
                store: indication.store,
            }),
            _ => None,
        }
    }

    fn due_refusal(&self, judge: &mut Judge) -> Option<u8> {
        if self.out[0].len() < OUTPUT_LENGTH {
            return Some(H2);
        }
        match *self.incoming {
            Incoming::DataRequest(user) if !(1..=USER_MAX).contains(&user.len()) => Some(H10),
            _ => self.search()?.refusal(judge),
        }
    }

    pub fn keeps_the_rule(&self, judge: &mut Judge) -> Compared {
        let refused = (self.answer < 0).then_some(-self.answer);
        let due = self.due_refusal(judge).map(i32::from);
        numbers("refusal, by the papers", number(due), number(refused))?;
        if refused.is_some() {
            return self.writes_nowhere();
        }
        self.is_laid_out()?;
        self.is_a_line()?;
        self.gives_only_checked_data()?;
        self.holds_the_key()
    }

    fn writes_nowhere(&self) -> Compared {
        buffers("connection of a refusal", self.before(), self.after())?;
        buffers("events of a refusal", self.events[0], self.events[1])?;
        buffers("output of a refusal", self.out[0], self.out[1])
    }

    /// The unused bytes, and lengths and reasons where there are some.
    fn is_laid_out(&self) -> Compared {
        let (after, events) = (self.after(), self.events[1]);
        numbers("role", (after[ROLE_AT] != 0).into(), after[ROLE_AT].into())?;
        buffers("unused part of the connection", &[0; 2], &after[2..OWN_AT])?;
        buffers(
            "unused part of the connection",
            &[0; 12],
            &after[UNUSED_AT..],
        )?;
        numbers("state in events", after[0].into(), events[3].into())?;
        let [user, transport, ..] = self.actions();
        if user != SA_DISC_IND && user != SA_REPORT_IND {
            buffers("reason in events", &[0; 2], &events[4..6])?;
        }
        if user != SA_DATA_IND {
            buffers("length in events", &[0; 2], &events[6..])?;
        }
        let length = match transport {
            T_CONN_REQ => 13,
            T_CONN_RESP => 21,
            T_DISC_REQ_DI => 3,
            SEND_AU3 | SEND_AR => 9,
            SEND_DT => self.incoming.bytes().len() + 9,
            _ => 0,
        };
        numbers("length of the unit", length as i64, self.answer.into())?;
        let [out, got_out] = self.out.map(|out| out.get(length..).unwrap_or_default());
        buffers("output behind the unit", out, got_out)
    }

    /// What goes out is a line of the square. Where nothing does, the fields are as they came; else in
    /// IDLE nothing is left.
    fn is_a_line(&self) -> Compared {
        let actions = self.actions();
        let lines = square(self.incoming.row(), self.state());
        let is_line = lines.contains(&actions);
        numbers("line of Table 20", 1, is_line.into())?;
        let (before, after) = (self.before(), self.after());
        if actions[..3] == [0; 3] {
            let fields = OWN_AT..UNUSED_AT;
            let got = &after[fields.clone()];
            buffers("connection where nothing is done", &before[fields], got)?;
            let role = self.is_responder().into();
            return numbers("role where nothing is done", role, after[ROLE_AT].into());
        }
        match actions[3] {
            IDLE => buffers("connection in IDLE", &[0; 64], after),
            _ => Ok(()),
        }
    }

    /// User data goes up exactly in DATA, of a DT that the check accepts under the connection's key.
    /// There H8 is reported, and H7 and H9 end the connection.
    fn gives_only_checked_data(&self) -> Compared {
        let [user, ..] = self.actions();
        let given = u16::from_be_bytes([self.events[1][6], self.events[1][7]]);
        if (self.incoming.row(), self.state()) != (Row::Dt, DATA) {
            return numbers("user data", 0, (user == SA_DATA_IND).into());
        }
        let before = self.before();
        let own = [before[OWN_AT + 1], before[OWN_AT + 2], before[OWN_AT + 3]];
        let key = &before[KEY_AT..UNUSED_AT];
        let checked = check(self.incoming.bytes(), key, &own, !self.is_responder());
        let due = match checked {
            Ok(_) => SA_DATA_IND,
            Err(H8) => SA_REPORT_IND,
            Err(_) => SA_DISC_IND,
        };
        numbers("to the user, by the check", due.into(), user.into())?;
        let length = checked.unwrap_or(0) as i64;
        numbers("user data, by the check", length, given.into())
    }

    /// The KMAC of the search in WFTC, the session key from then on; the other fields as they came.
    fn holds_the_key(&self) -> Compared {
        let (before, after) = (self.before(), self.after());
        let [_, transport, _, state] = self.actions();
        let key = &after[KEY_AT..UNUSED_AT];
        let (ra, rb) = (eight(after, RA_AT), eight(after, RB_AT));
        match (transport, *self.incoming) {
            (T_CONN_REQ, Incoming::ConnectRequest(request)) => {
                let identities = [request.own.to_be_bytes(), request.peer.to_be_bytes()];
                self.starts(false, identities, [[0; 8], request.rb])?;
                buffers("key in WFTC", &self.searched(), key)
            }
            (T_CONN_RESP, Incoming::ConnectIndication(indication)) => {
                let peer = caller(indication.unit).unwrap_or_default();
                let identities = [indication.own.to_be_bytes(), peer.to_be_bytes()];
                let rb = eight(indication.unit, 5);
                self.starts(true, identities, [indication.ra, rb])?;
                let due = session_key(&self.searched(), &ra, &rb);
                buffers("key in WFAU3", &due, key)
            }
            (SEND_AU3, _) => {
                let due = session_key(&before[KEY_AT..UNUSED_AT], &ra, &rb);
                buffers("key in WFAR", &due, key)?;
                let sent = self.incoming.bytes().get(5..13).unwrap_or_default();
                buffers("RA in WFAR", sent, &after[RA_AT..RB_AT])?;
                self.keeps([OWN_AT..RA_AT, RB_AT..KEY_AT])
            }
            _ if state != IDLE => self.keeps([OWN_AT..RA_AT, RA_AT..UNUSED_AT]),
            _ => Ok(()),
        }
    }

    /// The role and these parts are as they came.
    fn keeps(&self, parts: [Range<usize>; 2]) -> Compared {
        let (before, after) = (self.before(), self.after());
        let role = self.is_responder().into();
        numbers("role that stays", role, after[ROLE_AT].into())?;
        for part in parts {
            let got = &after[part.clone()];
            buffers("fields that stay", &before[part], got)?;
        }
        Ok(())
    }

    fn starts(&self, role: bool, identities: [[u8; 4]; 2], numbers_due: [[u8; 8]; 2]) -> Compared {
        let after = self.after();
        numbers("role", role.into(), after[ROLE_AT].into())?;
        buffers("identities", &identities.concat(), &after[OWN_AT..RA_AT])?;
        buffers(
            "random numbers",
            &numbers_due.concat(),
            &after[RA_AT..KEY_AT],
        )
    }

    /// The KMAC that the search takes; none where it takes no record.
    fn searched(&self) -> Vec<u8> {
        let kmac_of = |search: Search| {
            let place = search.taken()?;
            Some(kmac(search.store, place).to_vec())
        };
        self.search().and_then(kmac_of).unwrap_or_default()
    }
}

/// The identity that a unit names, where it is an AU1 with a right length, MTI, flag and SaF.
fn caller(unit: &[u8]) -> Option<u32> {
    let is_au1 = unit.len() == 13 && unit[0] & 0x1f == 0x02 && unit[4] == 1;
    is_au1.then(|| u32::from_be_bytes([unit[0] >> 5, unit[1], unit[2], unit[3]]))
}

fn session_key(kmac: &[u8], ra: &[u8; 8], rb: &[u8; 8]) -> Vec<u8> {
    session_keys(kmac, ra, rb).map_or(Vec::new(), |key| key.to_vec())
}

/// Zeros where so many are not there.
fn eight(bytes: &[u8], at: usize) -> [u8; 8] {
    std::array::from_fn(|i| bytes.get(at + i).copied().unwrap_or_default())
}

/// -1 where there is none.
fn number(value: Option<i32>) -> i64 {
    value.map_or(-1, i64::from)
}

#[cfg(test)]
mod tests {
    use super::Happened;
    use crate::crafted::{ar, dt, dt_first, of_each_kind, AR_FIRST};
    use crate::incoming::{model, ConnectionBytes, EventsBytes, Incoming, Request};
    use crate::incoming::{KEY_AT, KIND_AR, KIND_AU3, KIND_DT, ROLE_AT};
    use crate::parties::Parties;
    use crate::scene::OUTPUT;
    use crate::unsound::Judge;
    use reference::setup::{Connection, DATA, IDLE, WFAR, WFTC};
    use reference::store::{EDITION_1, EDITION_2};

    /// What the second program makes of an event, as the library's answer would be.
    struct Made<'a> {
        incoming: Incoming<'a>,
        answer: i32,
        connection: [ConnectionBytes; 2],
        events: [EventsBytes; 2],
        out: [Vec<u8>; 2],
    }

    impl<'a> Made<'a> {
        fn new(connection: &Connection, incoming: Incoming<'a>, out: &[u8]) -> Made<'a> {
            let before = connection.to_bytes();
            let (mut after, mut written) = (before, out.to_vec());
            let (answer, events) = model(&mut after, &incoming, &mut written);
            Made {
                incoming,
                answer,
                connection: [before, after],
                events: [[0xee; 8], events.unwrap_or([0xee; 8])],
                out: [out.to_vec(), written],
            }
        }

        fn keeps_the_rule(&self) -> bool {
            let happened = Happened {
                incoming: &self.incoming,
                answer: self.answer,
                connection: [&self.connection[0], &self.connection[1]],
                events: [&self.events[0], &self.events[1]],
                out: [&self.out[0], &self.out[1]],
            };
            happened.keeps_the_rule(&mut Judge::default()).is_ok()
        }
    }

    fn parties() -> Parties {
        Parties::new([EDITION_1, EDITION_2], 3)
    }

    /// Every event in every state, with an output that is long enough and one that is not.
    fn all(asked: impl Fn(Made)) {
        let parties = parties();
        for connection in parties.connections() {
            let held = Connection::from_bytes(&connection);
            for unit in of_each_kind(&held, parties.ra) {
                let events = [
                    Incoming::ConnectRequest(parties.request()),
                    Incoming::ConnectResponse,
                    Incoming::DataRequest(&unit),
                    Incoming::DisconnectRequest(3, 4),
                    Incoming::ConnectIndication(parties.indication(&unit)),
                    Incoming::ConnectConfirmation(&unit),
                    Incoming::DisconnectIndication(6, &unit),
                    Incoming::Unit(KIND_AU3, &unit),
                    Incoming::Unit(KIND_AR, &unit),
                    Incoming::Unit(KIND_DT, &unit),
                    Incoming::TimeOut,
                ];
                for event in events {
                    asked(Made::new(&held, event, &OUTPUT));
                    asked(Made::new(&held, event, &OUTPUT[1..]));
                }
            }
        }
    }

    #[test]
    fn what_the_second_program_makes_keeps_the_rule() {
        all(|made| assert!(made.keeps_the_rule(), "{}", made.incoming));
    }

    #[test]
    fn another_answer_is_told() {
        all(|mut made| {
            let right = made.answer;
            for wrong in [-13, -12, -11, -10, -2, -1, 0, 3, 9, 13, 21] {
                made.answer = wrong;
                assert_eq!(made.keeps_the_rule(), wrong == right, "{}", made.incoming);
            }
        });
    }

    /// Every bit of the four bytes that say what goes out, and of the state.
    #[test]
    fn another_action_is_told() {
        all(|mut made| {
            for bit in 0..8 * 4 {
                made.events[1][bit / 8] ^= 1 << (bit % 8);
                assert!(!made.keeps_the_rule(), "{}, bit {bit}", made.incoming);
                made.events[1][bit / 8] ^= 1 << (bit % 8);
            }
            made.connection[1][0] ^= 1;
            assert!(!made.keeps_the_rule());
        });
    }

    /// Whatever the event, each byte of the connection afterwards is told.
    #[test]
    fn another_connection_is_told() {
        all(|mut made| {
            for at in 0..64 {
                made.connection[1][at] ^= 1;
                assert!(!made.keeps_the_rule(), "{}, byte {at}", made.incoming);
                made.connection[1][at] ^= 1;
            }
        });
    }

    #[test]
    fn a_refusal_that_writes_is_told() {
        let connection = parties().connection(DATA, true);
        let refused = || Made::new(&connection, Incoming::DataRequest(&[]), &OUTPUT);
        assert_eq!(refused().answer, -10);
        let mut made = refused();
        made.events[1][5] ^= 1;
        assert!(!made.keeps_the_rule());
        let mut made = refused();
        made.out[1][0] ^= 1;
        assert!(!made.keeps_the_rule());
    }

    #[test]
    fn a_byte_behind_the_unit_is_told() {
        let connection = parties().connection(DATA, true);
        let mut made = Made::new(&connection, Incoming::DataRequest(b"tug"), &OUTPUT);
        made.out[1][11] ^= 1;
        assert!(made.keeps_the_rule());
        made.out[1][12] ^= 1;
        assert!(!made.keeps_the_rule());
    }

    /// User data that is given in another state, or where the check refuses the unit.
    #[test]
    fn unchecked_user_data_is_told() {
        let parties = parties();
        let open = parties.connection(DATA, false);
        let unit = dt(&open, dt_first(&open), b"tug");
        let mut other = unit.clone();
        other[2] ^= 1;
        for (state, unit, kept) in [
            (DATA, &unit, true),
            (DATA, &other, false),
            (WFAR, &unit, false),
        ] {
            let connection = Connection { state, ..open };
            let mut made = Made::new(&connection, Incoming::Unit(KIND_DT, unit), &OUTPUT);
            made.answer = 0;
            made.connection[1] = made.connection[0];
            made.events[1] = [3, 0, 0, state, 0, 0, 0, 3];
            made.out[1] = made.out[0].clone();
            assert_eq!(made.keeps_the_rule(), kept);
        }
    }

    #[test]
    fn a_key_byte_that_stays_in_idle_is_told() {
        let connection = parties().connection(WFAR, false);
        let unit = ar(&connection, AR_FIRST ^ 1);
        let mut made = Made::new(&connection, Incoming::Unit(KIND_AR, &unit), &OUTPUT);
        assert_eq!(made.connection[1], [0; 64]);
        made.connection[1][KEY_AT + 23] = 1;
        assert!(!made.keeps_the_rule());
    }

    /// A search where none is due, and none where one is.
    #[test]
    fn the_search_is_asked_in_idle_alone() {
        let parties = parties();
        let request = Request {
            store: &[],
            ..parties.request()
        };
        for state in [IDLE, WFTC, DATA, 6, 255] {
            let connection = parties.connection(state, false);
            let made = Made::new(&connection, Incoming::ConnectRequest(request), &OUTPUT);
            let refused = [WFTC, DATA].contains(&state);
            assert_eq!(made.answer, if refused { 0 } else { -1 });
            let mut other = made;
            other.answer = -1 - other.answer;
            assert!(!other.keeps_the_rule());
        }
    }

    #[test]
    fn a_role_over_1_is_told() {
        let connection = parties().connection(DATA, true);
        let mut made = Made::new(&connection, Incoming::TimeOut, &OUTPUT);
        made.connection[1][ROLE_AT] = 2;
        assert!(!made.keeps_the_rule());
    }
}
