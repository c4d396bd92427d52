//! What was met of change request 1: squares and lines of Table 20, reasons, refusals, and how units
//! came.

use std::fmt;

use reference::refusal::{H1, H10, H11, H12, H2};
use reference::setup::{DATA, IDLE, WFAR, WFAU3, WFRESP, WFTC};

use crate::connected::Happened;
use crate::incoming::{Row, ROWS};
use crate::table::{column, Actions, LINES, SA_DATA_IND, SEND_DT, STATES};

/// How a unit came to a side of a connection.
#[derive(Clone, Copy, PartialEq, Eq, PartialOrd, Ord, Debug)]
pub enum Delivery {
    Right,
    /// With bits flipped, cut or grown.
    Damaged,
    /// Once more, from this connection or one before.
    Replayed,
    /// Back to its sender.
    Reflected,
    /// As another event than its own.
    Misnamed,
}

const DELIVERIES: [Delivery; 5] = [
    Delivery::Right,
    Delivery::Damaged,
    Delivery::Replayed,
    Delivery::Reflected,
    Delivery::Misnamed,
];

/// One thing that can be told from the others.
#[derive(Clone, Copy, PartialEq, Eq, PartialOrd, Ord, Debug)]
pub enum Met {
    /// An event in a state, in the role of the responder or of the initiator.
    Square(Row, u8, bool),
    /// A line of a filled square.
    Line(Row, u8, Actions),
    /// A reason and sub-reason that an event gave in a state.
    Told(Row, u8, [u8; 2]),
    Refused(Row, u8),
    /// H10 in a state.
    NotSent(u8),
    /// H11 to an event though a record fits, for the type of the own identity or of the peer's.
    LargeType(Row, Side),
    /// Set-up started with an identity of type 7.
    Type7(Row),
    /// Set-up started at the end of a record, or with one that others fit before.
    AtEnd(Row),
    BehindEarlier(Row),
    /// So much user data sent, and given.
    Sent(usize),
    Given(usize),
    /// A code over 5 that counts as IDLE.
    OtherCode(Row),
    /// A unit that came in this way.
    Came(Delivery),
    /// User data that went up of a unit that came in this way.
    Up(Delivery),
    /// The kind that `kmac_unit_kind` told.
    Kind(i32),
}

#[derive(Clone, Copy, PartialEq, Eq, PartialOrd, Ord, Debug)]
pub enum Side {
    Own,
    Peer,
}

impl Met {
    /// Whether it is counted for each edition.
    pub fn is_of_store(self) -> bool {
        match self {
            Met::Refused(_, house) => house == H11 || house == H12,
            Met::Type7(_) | Met::AtEnd(_) | Met::BehindEarlier(_) => true,
            _ => false,
        }
    }
}

impl fmt::Display for Met {
    fn fmt(&self, f: &mut fmt::Formatter) -> fmt::Result {
        match self {
            Met::Square(row, state, responder) => {
                let role = if *responder { "responder" } else { "initiator" };
                write!(f, "{row:?} in state {state} as {role}")
            }
            Met::Line(row, state, actions) => write!(f, "{row:?} in state {state}: {actions:?}"),
            Met::Told(row, state, [reason, sub]) => {
                write!(f, "{row:?} in state {state} with {reason}/{sub}")
            }
            Met::Refused(row, house) => write!(f, "{row:?} H{house}"),
            Met::NotSent(state) => write!(f, "H10 in state {state}"),
            Met::LargeType(row, side) => write!(f, "{row:?} with {side:?} type over 7"),
            Met::Type7(row) => write!(f, "{row:?} with type 7"),
            Met::AtEnd(row) => write!(f, "{row:?} at a record's end"),
            Met::BehindEarlier(row) => write!(f, "{row:?} with a record behind others"),
            Met::Sent(length) => write!(f, "{length} bytes sent"),
            Met::Given(length) => write!(f, "{length} bytes given"),
            Met::OtherCode(row) => write!(f, "{row:?} in a state over 5"),
            Met::Came(delivery) => write!(f, "unit {delivery:?}"),
            Met::Up(delivery) => write!(f, "user data of a unit {delivery:?}"),
            Met::Kind(kind) => write!(f, "kind {kind}"),
        }
    }
}

impl Happened<'_> {
    /// What the event showed.
    pub fn met(&self) -> Vec<Met> {
        let (row, state) = (self.incoming.row(), column(self.state()));
        let mut met = match u8::try_from(-self.answer) {
            Ok(house) if self.answer < 0 => self.refused(house),
            _ => self.worked(),
        };
        met.push(Met::Square(row, state, self.is_responder()));
        if state != self.state() {
            met.push(Met::OtherCode(row));
        }
        met
    }

    fn refused(&self, house: u8) -> Vec<Met> {
        let row = self.incoming.row();
        let mut met = vec![Met::Refused(row, house)];
        if house == H10 {
            met.push(Met::NotSent(column(self.state())));
        }
        if let Some(search) = self.search().filter(|_| house == H11) {
            let sides = [Side::Own, Side::Peer].into_iter();
            let large = sides.zip(search.has_large_type()).filter(|side| side.1);
            if search.taken().is_some() {
                met.extend(large.map(|(side, _)| Met::LargeType(row, side)));
            }
        }
        met
    }

    fn worked(&self) -> Vec<Met> {
        let (row, state, actions) = (self.incoming.row(), column(self.state()), self.actions());
        let told = self.told().map(|reason| Met::Told(row, state, reason));
        let length = self.incoming.bytes().len();
        let mut met: Vec<Met> = told.into_iter().collect();
        if LINES.contains(&(row, state, actions)) {
            met.push(Met::Line(row, state, actions));
        }
        if actions[1] == SEND_DT {
            met.push(Met::Sent(length));
        }
        if actions[0] == SA_DATA_IND {
            met.push(Met::Given(length - 9));
        }
        if self.has_started() {
            met.extend(self.started());
        }
        met
    }

    /// Whether an AU1 or AU2 went out.
    fn has_started(&self) -> bool {
        [WFTC, WFAU3].contains(&self.actions()[3]) && self.search().is_some()
    }

    fn started(&self) -> Vec<Met> {
        let row = self.incoming.row();
        let Some(search) = self.search() else {
            return Vec::new();
        };
        let shown = [
            (search.has_type_7(), Met::Type7(row)),
            (search.is_at_end(), Met::AtEnd(row)),
            (search.is_behind_earlier(), Met::BehindEarlier(row)),
        ];
        let is_shown = shown.into_iter().filter(|(is, _)| *is);
        is_shown.map(|(_, met)| met).collect()
    }
}

/// What is to be met, with whatever stores.
pub fn required() -> Vec<Met> {
    let mut all = Vec::new();
    for row in ROWS {
        for state in STATES {
            all.extend([false, true].map(|role| Met::Square(row, state, role)));
        }
        all.extend([Met::Refused(row, H2), Met::OtherCode(row)]);
    }
    all.extend(LINES.map(|(row, state, actions)| Met::Line(row, state, actions)));
    all.extend(STATES.map(Met::NotSent));
    all.extend(reasons().map(|(row, state, reason)| Met::Told(row, state, reason)));
    all.extend([1, 1023].map(Met::Sent));
    all.extend([1, 1023].map(Met::Given));
    all.extend([1, 2, 3].map(Met::Kind));
    for row in STARTING {
        all.extend([Met::Refused(row, H1), Met::LargeType(row, Side::Own)]);
    }
    // An ETY has three bits: no caller has a type over 7.
    all.push(Met::LargeType(Row::ConnectRequest, Side::Peer));
    // A unit that comes again is the application's matter; one that is damaged, reflected or misnamed
    // does not go up.
    all.extend(DELIVERIES.map(Met::Came));
    all.extend([Met::Up(Delivery::Right), Met::Up(Delivery::Replayed)]);
    all
}

/// The events that start set-up, and what is to be met of them over stores of each edition.
pub const STARTING: [Row; 2] = [Row::ConnectRequest, Row::ConnectIndication];

pub fn required_of_stores() -> Vec<Met> {
    let of = |row| {
        [
            Met::Refused(row, H11),
            Met::Refused(row, H12),
            Met::Type7(row),
            Met::AtEnd(row),
            Met::BehindEarlier(row),
        ]
    };
    STARTING.into_iter().flat_map(of).collect()
}

/// Reasons and sub-reasons of the predicates (Table 17) and of protocol errors.
fn reasons() -> impl Iterator<Item = (Row, u8, [u8; 2])> {
    let of = |row, state, reasons: &[[u8; 2]]| {
        let of_one = |&reason: &[u8; 2]| (row, state, reason);
        reasons.iter().map(of_one).collect::<Vec<_>>()
    };
    let au1 = [[3, 127], [10, 1], [8, 1], [6, 2], [3, 29]];
    let au2 = [[10, 2], [9, 1], [8, 4], [3, 29], [4, 2], [6, 1]];
    let au3 = [[10, 3], [4, 3], [9, 2], [8, 1], [6, 2]];
    let ar = [[10, 8], [4, 4], [9, 3], [8, 1], [6, 1]];
    let dt = [[4, 1], [10, 5], [8, 1], [6, 1], [6, 2]];
    let mut all = [
        of(Row::ConnectRequest, IDLE, &[[3, 127]]),
        of(Row::ConnectIndication, IDLE, &au1),
        of(Row::ConnectConfirmation, WFTC, &au2),
        of(Row::Au3, WFAU3, &au3),
        of(Row::Ar, WFAR, &ar),
        of(Row::Dt, DATA, &dt),
        of(Row::TimeOut, WFTC, &[[7, 3]]),
        of(Row::TimeOut, WFAR, &[[7, 3]]),
        of(Row::Dt, WFRESP, &[[127, 127]]),
    ]
    .concat();
    for state in [WFTC, WFAR, DATA, WFRESP] {
        all.extend(of(Row::DisconnectIndication, state, &[[1, 6], [127, 127]]));
    }
    for row in [Row::Au3, Row::Ar, Row::Dt] {
        all.extend(of(row, WFTC, &[[9, 1]]));
        all.extend(of(row, WFAR, &[[9, 3]]));
        all.extend(of(row, WFAU3, &[[9, 2]]));
    }
    for row in [Row::Au3, Row::Ar] {
        all.extend(of(row, DATA, &[[5, 1]]));
        all.extend(of(row, WFRESP, &[[5, 1]]));
    }
    all.into_iter()
}
