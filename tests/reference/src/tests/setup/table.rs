//! Every square of Table 20 of 002, the filled ones in the table's own words.

use super::*;
use crate::setup::Reason;

const STATES: [u8; 6] = [IDLE, WFTC, WFAR, DATA, WFAU3, WFRESP];
const STATE_WORDS: [&str; 6] = ["IDLE", "WFTC", "WFAR", "DATA", "WFAU3", "WFRESP"];

const EVENTS: [&str; 11] = [
    "Sa-CONN.req",
    "Sa-CONN.resp",
    "Sa-DATA.req",
    "Sa-DISC.req",
    "T-CONN.ind",
    "T-CONN.conf",
    "T-DISC.ind",
    "AU3 SaPDU",
    "AR SaPDU",
    "DT SaPDU",
    "time-out",
];

/// Event, state, predicate and actions; a line for each predicate of a square.
const TABLE_20: &str = "
Sa-CONN.req | IDLE | Pre0 | Sa-DISC.ind, IDLE
Sa-CONN.req | IDLE | not Pre0 | T-CONN.req (AU1 SaPDU), a5, WFTC
Sa-CONN.resp | WFRESP | | AR SaPDU, DATA
Sa-DATA.req | DATA | | DT SaPDU, DATA
Sa-DISC.req | WFTC | | T-DISC.req, a19, IDLE
Sa-DISC.req | WFAR | | T-DISC.req (+DI SaPDU), a19, IDLE
Sa-DISC.req | DATA | | T-DISC.req (+DI SaPDU), a19, IDLE
Sa-DISC.req | WFRESP | | T-DISC.req (+DI SaPDU), a19, IDLE
T-CONN.ind | IDLE | Pre1 | T-DISC.req (+DI SaPDU), IDLE
T-CONN.ind | IDLE | not Pre1 | T-CONN.resp (+AU2 SaPDU), WFAU3
T-CONN.conf | WFTC | Pre2 | Sa-DISC.ind, T-DISC.req, a19, IDLE
T-CONN.conf | WFTC | not Pre2 | AU3 SaPDU, WFAR
T-DISC.ind | WFTC | | Sa-DISC.ind, a19, IDLE
T-DISC.ind | WFAR | | Sa-DISC.ind, a19, IDLE
T-DISC.ind | DATA | | Sa-DISC.ind, a19, IDLE
T-DISC.ind | WFAU3 | | a19, IDLE
T-DISC.ind | WFRESP | | Sa-DISC.ind, a19, IDLE
AU3 SaPDU | WFAU3 | Pre3 | T-DISC.req (+DI SaPDU), a19, IDLE
AU3 SaPDU | WFAU3 | not Pre3 | Sa-CONN.ind, WFRESP
AR SaPDU | WFAR | not Pre4 | Sa-CONN.conf, a6, DATA
AR SaPDU | WFAR | Pre4 | Sa-DISC.ind, T-DISC.req (+DI SaPDU), a19, IDLE
DT SaPDU | DATA | not Pre5 and not Pre6 | Sa-DATA.ind, DATA
DT SaPDU | DATA | Pre5 | Sa-REPORT.ind, DATA
DT SaPDU | DATA | Pre6 | Sa-DISC.ind, T-DISC.req (+DI SaPDU), a19, IDLE
time-out | WFTC | | Sa-DISC.ind, T-DISC.req, a19, IDLE
time-out | WFAR | | Sa-DISC.ind, T-DISC.req (+DI SaPDU), a19, IDLE
";

/// One line of the table.
#[derive(Clone, Copy)]
struct Line {
    event: &'static str,
    state: u8,
    predicate: &'static str,
    actions: &'static str,
}

fn lines() -> Vec<Line> {
    let read = |line: &'static str| {
        let fields: Vec<&str> = line.split('|').map(str::trim).collect();
        let [event, state, predicate, actions] = fields[..] else {
            panic!("{line} has four fields");
        };
        assert!(EVENTS.contains(&event));
        Line {
            event,
            state: state_of(state),
            predicate,
            actions,
        }
    };
    TABLE_20.trim().lines().map(read).collect()
}

fn state_of(word: &str) -> u8 {
    let place = STATE_WORDS.iter().position(|&state| state == word);
    STATES[place.unwrap_or_else(|| panic!("{word} is no state"))]
}

/// Every event with every state, and the lines of that square, none where it is blank.
fn squares() -> Vec<(&'static str, u8, Vec<Line>)> {
    let square = |event, state| {
        let is_here = |line: &Line| line.event == event && line.state == state;
        (event, state, lines().into_iter().filter(is_here).collect())
    };
    let row = |event| STATES.map(|state| square(event, state));
    EVENTS.into_iter().flat_map(row).collect()
}

/// To the user, to the transport, timer and state, by their numbers in the C interface.
fn numbers(actions: &str) -> [u8; 4] {
    let mut numbers = [0; 4];
    for word in actions.split(',').map(str::trim) {
        let (at, number) = match word {
            "Sa-CONN.ind" => (0, 1),
            "Sa-CONN.conf" => (0, 2),
            "Sa-DATA.ind" => (0, 3),
            "Sa-DISC.ind" => (0, 4),
            "Sa-REPORT.ind" => (0, 5),
            "T-CONN.req (AU1 SaPDU)" => (1, 1),
            "T-CONN.resp (+AU2 SaPDU)" => (1, 2),
            "T-DISC.req" => (1, 3),
            "T-DISC.req (+DI SaPDU)" => (1, 4),
            "AU3 SaPDU" => (1, 5),
            "AR SaPDU" => (1, 6),
            "DT SaPDU" => (1, 7),
            "a5" => (2, 1),
            "a6" => (2, 2),
            "a19" => (2, 3),
            state => (3, state_of(state)),
        };
        numbers[at] = number;
    }
    numbers
}

/// What an event brings. Nothing of it is wrong but what the predicate asks.
struct Brought {
    acceptable: bool,
    unit: Vec<u8>,
    store: Vec<u8>,
}

impl Brought {
    /// Events of a row to a connection under which the predicate holds.
    fn all(row: &str, predicate: &str, connection: &Connection) -> Vec<Brought> {
        let dt = |user: &[u8]| dt_to(connection, user);
        let other_flag = match connection.responder {
            true => dt_of(CALLED, 0x0b, b"x"),
            false => dt_of(CALLER, 0x0a, b"x"),
        };
        let (acceptable, units) = match (row, predicate) {
            (_, "Pre0") => (vec![false], vec![Vec::new()]),
            ("T-CONN.ind", "Pre1") => (
                vec![true, false],
                vec![
                    last_wrong(vec![0x42; 14]),
                    vec![],
                    named(0x43, CALLER, 1, RB),
                ],
            ),
            (_, "Pre2") => (vec![true], vec![last_wrong(au2()), vec![], au1()]),
            (_, "Pre3") => (vec![true], vec![last_wrong(au3()), vec![], au3_of(0x26)]),
            (_, "Pre4") => (vec![true], vec![last_wrong(ar()), vec![], ar_of(0x12)]),
            (_, "Pre5") => (vec![true], vec![last_wrong(dt(b"x")), last_wrong(dt(b""))]),
            (_, "Pre6") => (
                vec![true],
                vec![vec![], dt(b""), other_flag, dt(&[7; 1024])],
            ),
            ("T-CONN.ind", _) => (vec![true], vec![au1()]),
            ("T-CONN.conf", _) => (vec![true], vec![au2()]),
            ("T-DISC.ind", _) => (vec![true], vec![vec![], vec![0x11, 0, 3], vec![7; 5]]),
            ("AU3 SaPDU", _) => (vec![true], vec![au3()]),
            ("AR SaPDU", _) => (vec![true], vec![ar()]),
            ("DT SaPDU", _) => (vec![true], vec![dt(b"x"), dt(&[9; 1023])]),
            _ => (vec![true], vec![vec![]]),
        };
        let of = |acceptable| {
            let brought = move |unit| Brought {
                acceptable,
                unit,
                store: store(),
            };
            units.clone().into_iter().map(brought)
        };
        acceptable.into_iter().flat_map(of).collect()
    }

    fn event(&self, row: &str) -> Event<'_> {
        let Brought {
            acceptable,
            ref unit,
            ref store,
        } = *self;
        match row {
            "Sa-CONN.req" => Event::ConnectRequest(Request {
                acceptable,
                ..request(store)
            }),
            "Sa-CONN.resp" => Event::ConnectResponse,
            "Sa-DATA.req" => Event::DataRequest(b"hi"),
            "Sa-DISC.req" => Event::DisconnectRequest(Reason(0, 77)),
            "T-CONN.ind" => Event::ConnectIndication(Indication {
                acceptable,
                ..indication(unit, store)
            }),
            "T-CONN.conf" => Event::ConnectConfirmation(unit),
            "T-DISC.ind" => Event::DisconnectIndication(6, unit),
            "AU3 SaPDU" => Event::Au3(unit),
            "AR SaPDU" => Event::Ar(unit),
            "DT SaPDU" => Event::Dt(unit),
            _ => Event::TimeOut,
        }
    }
}

fn connections_in(state: u8) -> Vec<Connection> {
    let all = connections().into_iter();
    all.filter(|connection| connection.state == state).collect()
}

#[test]
fn nineteen_squares_are_filled_and_47_blank() {
    let filled = squares()
        .iter()
        .filter(|square| !square.2.is_empty())
        .count();
    assert_eq!((filled, squares().len() - filled), (19, 47));
    assert_eq!(lines().len(), 26);
}

#[test]
fn filled_squares() {
    for line in lines() {
        for connection in connections_in(line.state) {
            for brought in Brought::all(line.event, line.predicate, &connection) {
                assert_done(line.event, &connection, &brought, numbers(line.actions));
            }
        }
    }
}

/// The numbers go out with a unit where the transport takes one, and IDLE has no byte left.
fn assert_done(row: &str, before: &Connection, brought: &Brought, numbers: [u8; 4]) {
    let mut connection = *before;
    let (bytes, unit) = events(&mut connection, brought.event(row));
    assert_eq!(bytes[..4], numbers, "{row} in state {}", before.state);
    let [user, transport, _, state] = numbers;
    let lengths = [0, 13, 21, 0, 3, 9, 9, 11];
    assert_eq!(unit.len(), lengths[usize::from(transport)]);
    assert_eq!(connection.state, state);
    if state == IDLE {
        assert_eq!(connection, Connection::NONE);
    }
    let has_reason = user == 4 || user == 5;
    assert_eq!(bytes[4..6] != [0, 0], has_reason);
    assert_eq!(bytes[6..] != [0, 0], user == 3);
    if transport == 4 && user == 4 {
        assert_eq!(unit[1..], bytes[4..6]);
    }
    if transport == 4 {
        let flag = u8::from(before.responder || before.state == IDLE);
        assert_eq!(unit[0], 0x10 | flag);
    }
}

#[test]
fn blank_squares() {
    for (event, state, _) in squares().into_iter().filter(|square| square.2.is_empty()) {
        for connection in connections_in(state) {
            for brought in Brought::all(event, "", &connection) {
                assert_blank(event, &connection, &brought);
            }
        }
    }
}

/// A received unit is a protocol error where a transport connection stands (002, 6.2.6.3.2, Tables 27
/// and 31); any other event does nothing.
fn assert_blank(row: &str, before: &Connection, brought: &Brought) {
    let is_unit = row.ends_with("SaPDU");
    let (events_due, di): ([u8; 8], &[u8]) = match (is_unit, before.state) {
        (true, WFTC) => ([4, 3, 3, 0, 9, 1, 0, 0], &[]),
        (true, WFAR) => ([4, 4, 3, 0, 9, 3, 0, 0], &[0x10, 9, 3]),
        (true, WFAU3) => ([0, 4, 3, 0, 0, 0, 0, 0], &[0x11, 9, 2]),
        (true, DATA) if before.responder => ([4, 4, 3, 0, 5, 1, 0, 0], &[0x11, 5, 1]),
        (true, DATA) => ([4, 4, 3, 0, 5, 1, 0, 0], &[0x10, 5, 1]),
        (true, WFRESP) if row == "DT SaPDU" => ([4, 4, 3, 0, 127, 127, 0, 0], &[0x11, 127, 127]),
        (true, WFRESP) => ([4, 4, 3, 0, 5, 1, 0, 0], &[0x11, 5, 1]),
        _ => ([0, 0, 0, before.state, 0, 0, 0, 0], &[]),
    };
    let mut connection = *before;
    let (bytes, unit) = events(&mut connection, brought.event(row));
    assert_eq!(bytes, events_due, "{row} in state {}", before.state);
    assert_eq!(unit, di);
    let after = if bytes[2] == 0 {
        *before
    } else {
        Connection::NONE
    };
    assert_eq!(connection, after);
}

/// In IDLE and in the codes over 5, which count as it: an event that does nothing hands every field
/// back, and one that is worked leaves nothing of what stood there.
#[test]
fn dirty_buffers() {
    let dirt: [u8; 64] = super::super::pattern(91);
    let clean = |state: u8| {
        let mut bytes = dirt;
        bytes[..4].copy_from_slice(&[state, 1, 0, 0]);
        bytes[52..].fill(0);
        bytes
    };
    for state in [IDLE, 6, 7, 128, 255] {
        let mut dirty = dirt;
        dirty[0] = state;
        let dirty = Connection::from_bytes(&dirty);
        for (event, _, lines) in squares().into_iter().filter(|square| square.1 == IDLE) {
            for line in &lines {
                for brought in Brought::all(event, line.predicate, &in_state(IDLE)) {
                    let (mut connection, mut fresh) = (dirty, Connection::NONE);
                    let (bytes, _) = events(&mut connection, brought.event(event));
                    assert_eq!(bytes[..4], numbers(line.actions));
                    take(&mut fresh, brought.event(event));
                    assert_eq!(connection, fresh);
                }
            }
            for brought in Brought::all(event, "", &in_state(IDLE)) {
                if lines.is_empty() {
                    let mut connection = dirty;
                    let (bytes, unit) = events(&mut connection, brought.event(event));
                    assert_eq!((bytes, unit), ([0, 0, 0, state, 0, 0, 0, 0], vec![]));
                    assert_eq!(connection.to_bytes(), clean(state));
                }
            }
        }
    }
}
