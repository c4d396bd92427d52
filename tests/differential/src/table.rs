//! Table 20 of SUBSET-037-2 in the numbers of the C interface. The second program has no part in
//! this: there the table is a match over state and event.

use reference::setup::{DATA, IDLE, WFAR, WFAU3, WFRESP, WFTC};

use crate::incoming::Row;

pub const STATES: [u8; 6] = [IDLE, WFTC, WFAR, DATA, WFAU3, WFRESP];

/// To the user, to the transport, the timer and the next state: the first four bytes of events.
pub type Actions = [u8; 4];

/// To the user.
const SA_CONN_IND: u8 = 1;
const SA_CONN_CONF: u8 = 2;
pub const SA_DATA_IND: u8 = 3;
pub const SA_DISC_IND: u8 = 4;
pub const SA_REPORT_IND: u8 = 5;
/// To the transport.
pub const T_CONN_REQ: u8 = 1;
pub const T_CONN_RESP: u8 = 2;
const T_DISC_REQ: u8 = 3;
pub const T_DISC_REQ_DI: u8 = 4;
pub const SEND_AU3: u8 = 5;
pub const SEND_AR: u8 = 6;
pub const SEND_DT: u8 = 7;
/// The timer.
const A5: u8 = 1;
const A6: u8 = 2;
const A19: u8 = 3;

const RELEASED: Actions = [0, T_DISC_REQ_DI, A19, IDLE];
const LOST: Actions = [SA_DISC_IND, 0, A19, IDLE];
const FAILED_EARLY: Actions = [SA_DISC_IND, T_DISC_REQ, A19, IDLE];
const FAILED: Actions = [SA_DISC_IND, T_DISC_REQ_DI, A19, IDLE];

/// The filled squares, a line for each predicate.
#[rustfmt::skip]
pub const LINES: [(Row, u8, Actions); 26] = [
    (Row::ConnectRequest, IDLE, [SA_DISC_IND, 0, 0, IDLE]),
    (Row::ConnectRequest, IDLE, [0, T_CONN_REQ, A5, WFTC]),
    (Row::ConnectResponse, WFRESP, [0, SEND_AR, 0, DATA]),
    (Row::DataRequest, DATA, [0, SEND_DT, 0, DATA]),
    (Row::DisconnectRequest, WFTC, [0, T_DISC_REQ, A19, IDLE]),
    (Row::DisconnectRequest, WFAR, RELEASED),
    (Row::DisconnectRequest, DATA, RELEASED),
    (Row::DisconnectRequest, WFRESP, RELEASED),
    (Row::ConnectIndication, IDLE, [0, T_DISC_REQ_DI, 0, IDLE]),
    (Row::ConnectIndication, IDLE, [0, T_CONN_RESP, 0, WFAU3]),
    (Row::ConnectConfirmation, WFTC, FAILED_EARLY),
    (Row::ConnectConfirmation, WFTC, [0, SEND_AU3, 0, WFAR]),
    (Row::DisconnectIndication, WFTC, LOST),
    (Row::DisconnectIndication, WFAR, LOST),
    (Row::DisconnectIndication, DATA, LOST),
    (Row::DisconnectIndication, WFAU3, [0, 0, A19, IDLE]),
    (Row::DisconnectIndication, WFRESP, LOST),
    (Row::Au3, WFAU3, RELEASED),
    (Row::Au3, WFAU3, [SA_CONN_IND, 0, 0, WFRESP]),
    (Row::Ar, WFAR, [SA_CONN_CONF, 0, A6, DATA]),
    (Row::Ar, WFAR, FAILED),
    (Row::Dt, DATA, [SA_DATA_IND, 0, 0, DATA]),
    (Row::Dt, DATA, [SA_REPORT_IND, 0, 0, DATA]),
    (Row::Dt, DATA, FAILED),
    (Row::TimeOut, WFTC, FAILED_EARLY),
    (Row::TimeOut, WFAR, FAILED),
];

/// The column of a state code: a code over 5 counts as IDLE.
pub fn column(state: u8) -> u8 {
    if STATES.contains(&state) {
        state
    } else {
        IDLE
    }
}

/// What an event can do in a state: the lines of its square, or what 6.2.6.3.2 asks where the square
/// is blank. Nothing is done in the state as it was read.
pub fn square(row: Row, state: u8) -> Vec<Actions> {
    let here = |line: &&(Row, u8, Actions)| line.0 == row && line.1 == column(state);
    let lines: Vec<Actions> = LINES.iter().filter(here).map(|line| line.2).collect();
    if lines.is_empty() {
        vec![blank(row, state)]
    } else {
        lines
    }
}

/// The event by which the other side gets what goes to the transport; none where nothing does.
pub fn arrives_by(transport: u8) -> Option<Row> {
    match transport {
        T_CONN_REQ => Some(Row::ConnectIndication),
        T_CONN_RESP => Some(Row::ConnectConfirmation),
        SEND_AU3 => Some(Row::Au3),
        SEND_AR => Some(Row::Ar),
        SEND_DT => Some(Row::Dt),
        T_DISC_REQ | T_DISC_REQ_DI => Some(Row::DisconnectIndication),
        _ => None,
    }
}

/// A received unit is a protocol error where a transport connection stands; else there is no action.
fn blank(row: Row, state: u8) -> Actions {
    match (row, column(state)) {
        (Row::Au3 | Row::Ar | Row::Dt, WFTC) => FAILED_EARLY,
        (Row::Au3 | Row::Ar | Row::Dt, WFAU3) => RELEASED,
        (Row::Au3 | Row::Ar | Row::Dt, WFAR | DATA | WFRESP) => FAILED,
        _ => [0, 0, 0, state],
    }
}

#[cfg(test)]
mod tests {
    use super::{column, square, Row, LINES, STATES};
    use crate::incoming::ROWS;

    fn is_filled(row: Row, state: u8) -> bool {
        LINES.iter().any(|line| (line.0, line.1) == (row, state))
    }

    #[test]
    fn nineteen_squares_are_filled_and_47_blank() {
        let all = ROWS
            .into_iter()
            .flat_map(|row| STATES.map(|state| (row, state)));
        let (filled, blank): (Vec<_>, Vec<_>) =
            all.partition(|&(row, state)| is_filled(row, state));
        assert_eq!((filled.len(), blank.len()), (19, 47));
        let lines = filled.iter().map(|&(row, state)| square(row, state).len());
        assert_eq!(lines.sum::<usize>(), LINES.len());
        assert!(blank
            .iter()
            .all(|&(row, state)| square(row, state).len() == 1));
    }

    /// So many squares of each row, and of each column, are filled.
    #[test]
    fn rows_and_columns_are_filled_as_printed() {
        let in_row = |row| {
            STATES
                .iter()
                .filter(|&&state| is_filled(row, state))
                .count()
        };
        assert_eq!(ROWS.map(in_row), [1, 1, 1, 4, 1, 1, 5, 1, 1, 1, 2]);
        let in_column = |state| ROWS.iter().filter(|&&row| is_filled(row, state)).count();
        assert_eq!(STATES.map(in_column), [2, 4, 4, 4, 2, 3]);
    }

    #[test]
    fn codes_over_5_are_idle_and_stay() {
        for state in 6..=255 {
            assert_eq!(column(state), 0);
            assert_eq!(square(Row::TimeOut, state), [[0, 0, 0, state]]);
            assert_eq!(
                square(Row::ConnectRequest, state),
                square(Row::ConnectRequest, 0)
            );
        }
    }
}
