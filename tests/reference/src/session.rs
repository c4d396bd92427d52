//! Sessions (01, "Sessions"; 02, CR 3; 000, 5.4).

use crate::message::{body, is_supported, kind, notif_response, offers_version, response};
use crate::message::{session_init, Body, Header, HEADER_LENGTH, VERSION};
use crate::refusal::{H1, H2, H3, H4, H5, H6};
use crate::store::{self, Edition};
use crate::{Identity, OUTPUT_LENGTH};

pub const CLOSED: u8 = 0;
pub const WAITING: u8 = 1;
pub const OPEN: u8 = 2;

/// Any state but waiting and open counts as closed.
#[derive(Clone, Copy, PartialEq, Eq, Debug)]
pub struct Session {
    pub state: u8,
    pub own: Identity,
    pub peer: Identity,
    /// Own next sequence number.
    pub next: u16,
    /// The sequence number expected next.
    pub expected: u16,
    /// Whether a message has passed the sequence test since the session opened.
    pub remembered: bool,
    /// The transaction number of the last such message. Without one it means nothing: zero is a
    /// number like another.
    pub transaction: u32,
}

#[derive(Clone, Copy, PartialEq, Eq, Debug)]
pub enum Answer {
    /// A reply of this length was written.
    Reply(usize),
    /// A session init opened the session.
    Opened,
    /// End of update closed the session.
    Ended,
    /// A refusal of the house.
    Refused(u8),
}

/// What an open session makes of a message.
enum Outcome {
    Ended,
    Response(u8, Vec<u8>),
}

/// A waiting session. Writes its session init to `out` and gives the length.
pub fn begin(
    own: Identity,
    peer: Identity,
    number: u16,
    out: &mut [u8],
) -> Result<(Session, usize), u8> {
    if out.len() < OUTPUT_LENGTH {
        return Err(H2);
    }
    if own == peer {
        return Err(H6);
    }
    let session = Session {
        state: WAITING,
        own,
        peer,
        next: number.wrapping_add(1),
        expected: 0,
        remembered: false,
        transaction: 0,
    };
    let length = write(out, &session_init(peer, own, number));
    Ok((session, length))
}

/// Takes one message. Gives the session afterwards and the answer.
pub fn receive(
    session: Session,
    message: &[u8],
    store: &mut [u8],
    out: &mut [u8],
) -> (Session, Answer) {
    let Some(edition) = Edition::of_length(store.len()) else {
        return (session, Answer::Refused(H1));
    };
    if out.len() < OUTPUT_LENGTH {
        return (session, Answer::Refused(H2));
    }
    if session.state != WAITING && session.state != OPEN {
        return (session, Answer::Refused(H3));
    }
    let Some(header) = Header::read(message) else {
        return (session, Answer::Refused(H4));
    };
    if session.state == WAITING {
        return open(session, &header, message);
    }
    let (session, outcome) = match connection_fault(&session, &header, message.len()) {
        Some(fault) => (session, Outcome::Response(fault, Vec::new())),
        None => (
            remembering(session, header.transaction),
            judge(&session, &header, message, edition, store),
        ),
    };
    match outcome {
        Outcome::Ended => (closed(session), Answer::Ended),
        Outcome::Response(response, results) => {
            let Session {
                own, peer, next, ..
            } = session;
            let reply = notif_response(peer, own, header.transaction, next, response, &results);
            let answer = Answer::Reply(write(out, &reply));
            (after_reply(session, response), answer)
        }
    }
}

/// A waiting session opens with a valid session init and closes with anything else.
fn open(session: Session, header: &Header, message: &[u8]) -> (Session, Answer) {
    let valid = header_fault(&session, header, message.len()).is_none()
        && header.kind == kind::SESSION_INIT
        && offers_version(&message[HEADER_LENGTH..]);
    if !valid {
        return (closed(session), Answer::Refused(H5));
    }
    let opened = Session {
        state: OPEN,
        expected: header.sequence.wrapping_add(1),
        remembered: false,
        transaction: 0,
        ..session
    };
    (opened, Answer::Opened)
}

/// The tests of an open session up to the sequence test, in 01's order: the first that fails.
fn connection_fault(session: &Session, header: &Header, delivered: usize) -> Option<u8> {
    header_fault(session, header, delivered)
        .or_else(|| (header.sequence != session.expected).then_some(response::SEQUENCE_MISMATCH))
}

/// The tests behind the sequence test, then the work. The first failure is the RESPONSE.
fn judge(
    session: &Session,
    header: &Header,
    message: &[u8],
    edition: Edition,
    store: &mut [u8],
) -> Outcome {
    let failed = |response| Outcome::Response(response, Vec::new());
    if session.remembered && header.transaction == session.transaction {
        return failed(response::TRANSACTION_MISMATCH);
    }
    if !is_supported(header.kind) {
        return failed(response::NOT_SUPPORTED);
    }
    match body(header.kind, &message[HEADER_LENGTH..]) {
        None => failed(response::FORMAT_ERROR),
        Some(Body::EndOfUpdate) => Outcome::Ended,
        Some(Body::DeleteAll) => {
            store.copy_from_slice(&store::encode(edition, &[]));
            Outcome::Response(response::DONE, Vec::new())
        }
        Some(Body::Requests(requests)) => match work(&session.own, requests, edition, store) {
            None => failed(response::UNRECOVERABLE_DATABASE),
            Some(results) => Outcome::Response(response::DONE, results),
        },
    }
}

/// The first of length, version, receiver and sender that is wrong.
fn header_fault(session: &Session, header: &Header, delivered: usize) -> Option<u8> {
    if !header.has_length(delivered) {
        return Some(response::LENGTH_ERROR);
    }
    if header.version != VERSION {
        return Some(response::UNSUPPORTED_VERSION);
    }
    if header.receiver != session.own {
        return Some(response::RECEIVER_MISMATCH);
    }
    if header.sender != session.peer {
        return Some(response::SENDER_MISMATCH);
    }
    None
}

/// Works the requests in order on a sound store. Gives their RESULTs; `None` if unsound.
fn work(
    own: &Identity,
    requests: Vec<store::Request>,
    edition: Edition,
    store: &mut [u8],
) -> Option<Vec<u8>> {
    let mut entries = store::decode(store)?;
    let results = requests
        .into_iter()
        .map(|request| store::work(edition, &mut entries, own, request))
        .collect();
    store.copy_from_slice(&store::encode(edition, &entries));
    Some(results)
}

/// The own number rises with every reply, the expected one where the session stays open.
fn after_reply(session: Session, response: u8) -> Session {
    let session = Session {
        next: session.next.wrapping_add(1),
        ..session
    };
    match response {
        response::DONE | response::NOT_SUPPORTED | response::UNRECOVERABLE_DATABASE => Session {
            expected: session.expected.wrapping_add(1),
            ..session
        },
        _ => closed(session),
    }
}

/// Every message that passes the sequence test is remembered, whatever becomes of it.
fn remembering(session: Session, transaction: u32) -> Session {
    Session {
        remembered: true,
        transaction,
        ..session
    }
}

fn closed(session: Session) -> Session {
    Session {
        state: CLOSED,
        ..session
    }
}

/// Writes a message to the front of `out` and gives its length.
fn write(out: &mut [u8], message: &[u8]) -> usize {
    out[..message.len()].copy_from_slice(message);
    message.len()
}
