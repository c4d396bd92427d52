//! Beginning, opening, the table of tests, the bodies, and the refusals in their order.

use super::store::{with_a_count_over, with_a_fault};
use super::{entries, entry, found, full, k_entities, k_identifier, k_struct, k_validity, message};
use super::{
    number_of, numbered, open_session, peer_list, peers, remembering, reply, requests, transaction,
    unsound,
};
use super::{Bench, CENTRE, OWN};
use super::{RECEIVER_AT, SENDER_AT, SEQUENCE_AT, TRANSACTION_AT, TYPE_AT, VERSION_AT};
use crate::message::kind;
use crate::session::{begin, receive, Answer, Session, CLOSED, OPEN, WAITING};
use crate::store::{encode, find, Edition, Entry, EDITIONS, EDITION_1, EDITION_2};

const COMMANDS_WITH_REQUESTS: [u8; 4] = [
    kind::ADD_KEYS,
    kind::DELETE_KEYS,
    kind::UPDATE_KEY_VALIDITIES,
    kind::UPDATE_KEY_ENTITIES,
];

fn waiting() -> Session {
    Session {
        state: WAITING,
        expected: 0,
        ..open_session()
    }
}

/// The session as it is, with none remembered beside the number of a message with the sequence number 300,
/// and remembering two other numbers.
fn remembering_others(session: Session) -> [Session; 4] {
    let meaningless = Session {
        remembered: false,
        transaction: transaction(300),
        ..session
    };
    [
        session,
        meaningless,
        remembering(0, session),
        remembering(!transaction(300), session),
    ]
}

fn session_init(sequence: u16, body: &[u8]) -> Vec<u8> {
    message(kind::SESSION_INIT, sequence, body)
}

/// One request of a command that has requests, on key 1.
fn structure(command: u8) -> Vec<u8> {
    match command {
        kind::ADD_KEYS => k_struct(&entry(1, 1)),
        kind::DELETE_KEYS => k_identifier(1),
        kind::UPDATE_KEY_VALIDITIES => k_validity(1, 5, 6),
        _ => k_entities(1, &peers(1, 1)),
    }
}

/// A sound store of the other edition, cut or filled up with zeros to the length of this one.
fn of_the_other(edition: Edition) -> Vec<u8> {
    let other = if edition == EDITION_1 {
        EDITION_2
    } else {
        EDITION_1
    };
    let mut store = encode(other, &entries(&[1]));
    store.resize(edition.length(), 0);
    store
}

/// Asserts the RESPONSE over a store of each edition that holds key 1.
fn assert_response(message: &[u8], response: u8, state: u8) {
    for edition in EDITIONS {
        assert_response_over(encode(edition, &entries(&[1])), message, response, state);
    }
}

/// Asserts the RESPONSE, whatever other number is remembered.
fn assert_response_over(store: Vec<u8>, message: &[u8], response: u8, state: u8) {
    for session in remembering_others(open_session()) {
        assert_response_from(session, store.clone(), message, response, state);
    }
}

/// Asserts one reply with a RESPONSE other than 0, that the store stays, and the session.
fn assert_response_from(session: Session, store: Vec<u8>, message: &[u8], response: u8, state: u8) {
    let mut bench = Bench::new(EDITION_1, &[]);
    bench.session = session;
    bench.store = store.clone();
    bench.assert_reply(message, &reply(message, 700, response, &[]));
    assert_eq!(bench.store, store);
    let heard = if [2, 5, 4, 3, 9].contains(&response) {
        session
    } else {
        remembering(number_of(message), session)
    };
    let expected = Session {
        state,
        next: 701,
        expected: if state == OPEN { 301 } else { 300 },
        ..heard
    };
    assert_eq!(bench.session, expected);
}

/// Asserts RESPONSE 11 for a body.
fn assert_format_error(kind: u8, body: &[u8]) {
    assert_response(&message(kind, 300, body), 11, CLOSED);
}

/// Asserts RESPONSE 0 for a body.
fn assert_accepted(kind: u8, body: &[u8]) {
    for edition in EDITIONS {
        let mut bench = Bench::new(edition, &entries(&[1]));
        bench.receive(&message(kind, 300, body));
        assert_eq!(bench.out[20], 0);
        assert_eq!(bench.session.state, OPEN);
    }
}

#[test]
fn begin_writes_a_session_init() {
    let mut out = [0xee; 1032];
    let (session, length) = begin(OWN, CENTRE, 0x1234, &mut out).unwrap();
    let header = [0, 0, 0, 23, 2];
    let tail = [0, 0, 0, 0, 0x12, 0x34, 9, 1, 2, 255];
    assert_eq!(length, 23);
    assert_eq!(out[..23], [&header[..], &CENTRE, &OWN, &tail].concat());
    assert_eq!(out[23..], [0xee; 1009]);
    let expected = Session {
        state: WAITING,
        own: OWN,
        peer: CENTRE,
        next: 0x1235,
        expected: 0,
        remembered: false,
        transaction: 0,
    };
    assert_eq!(session, expected);
}

#[test]
fn begin_number_wraps() {
    let (session, _) = begin(OWN, CENTRE, 65535, &mut [0; 1032]).unwrap();
    assert_eq!(session.next, 0);
}

#[test]
fn begin_refusals_in_order() {
    for (peer, room, refusal) in [
        (CENTRE, 1031, 2),
        (OWN, 1031, 2),
        (OWN, 0, 2),
        (OWN, 1032, 6),
    ] {
        let mut out = vec![0xee; room];
        assert_eq!(begin(OWN, peer, 1, &mut out), Err(refusal));
        assert!(out.iter().all(|&byte| byte == 0xee));
    }
}

#[test]
fn a_session_init_opens() {
    let all: Vec<u8> = (0..255).collect();
    let bodies = [
        vec![1, 2, 255],
        vec![1, 2, 0],
        vec![1, 2, 30],
        vec![3, 1, 2, 3, 5],
        vec![2, 2, 2, 5],
        [&[255], &all[..], &[9]].concat(),
    ];
    for body in bodies {
        for sequence in [0, 41, 65535] {
            for edition in EDITIONS {
                assert_opened(edition, sequence, &body);
            }
        }
    }
}

fn assert_opened(edition: Edition, sequence: u16, body: &[u8]) {
    for session in remembering_others(waiting()) {
        let mut bench = Bench::new(edition, &entries(&[1]));
        bench.session = session;
        let answer = bench.receive(&session_init(sequence, body));
        assert_eq!(answer, Answer::Opened);
        let opened = Session {
            state: OPEN,
            expected: sequence.wrapping_add(1),
            ..waiting()
        };
        assert_eq!(bench.session, opened);
        assert_eq!(bench.out, [0xee; 1032]);
        assert_eq!(bench.store, encode(edition, &entries(&[1])));
    }
}

#[test]
fn a_session_init_opens_over_an_unsound_store() {
    for edition in EDITIONS {
        for store in [unsound(edition), of_the_other(edition)] {
            let mut bench = Bench::new(edition, &[]);
            bench.session = waiting();
            bench.store = store.clone();
            assert_eq!(
                bench.receive(&session_init(5, &[1, 2, 255])),
                Answer::Opened
            );
            assert_eq!(bench.store, store);
        }
    }
}

#[test]
fn anything_else_closes_a_waiting_session() {
    let changed = |at: usize| {
        let mut message = session_init(5, &[1, 2, 255]);
        message[at] ^= 1;
        message
    };
    let mut messages = vec![
        changed(0),
        changed(3),
        changed(VERSION_AT),
        changed(RECEIVER_AT),
        changed(RECEIVER_AT + 3),
        changed(SENDER_AT),
        changed(SENDER_AT + 3),
        changed(TYPE_AT),
        message(kind::DELETE_ALL_KEYS, 5, &[]),
        message(kind::END_OF_UPDATE, 5, &[]),
        [session_init(5, &[1, 2, 255]), vec![0]].concat(),
    ];
    let bodies: [&[u8]; 10] = [
        &[],
        &[0],
        &[2],
        &[0, 255],
        &[0, 2],
        &[1, 2],
        &[1, 3, 2],
        &[2, 2, 255],
        &[1, 2, 255, 0],
        &[0, 2, 2],
    ];
    messages.extend(bodies.map(|body| session_init(5, body)));
    for message in messages {
        for edition in EDITIONS {
            assert_not_opened(edition, &message);
        }
    }
}

fn assert_not_opened(edition: Edition, message: &[u8]) {
    for session in remembering_others(waiting()) {
        let mut bench = Bench::new(edition, &entries(&[1]));
        bench.session = session;
        assert_eq!(bench.receive(message), Answer::Refused(5));
        let closed = Session {
            state: CLOSED,
            ..session
        };
        assert_eq!(bench.session, closed);
        assert_eq!(bench.out, [0xee; 1032]);
        assert_eq!(bench.store, encode(edition, &entries(&[1])));
    }
}

#[test]
fn row_length() {
    for at in 0..4 {
        let mut wrong = message(kind::DELETE_ALL_KEYS, 300, &[]);
        wrong[at] ^= 1;
        assert_response(&wrong, 2, CLOSED);
    }
}

#[test]
fn row_length_over_5000() {
    let long = message(kind::DELETE_KEYS, 300, &[0; 4981]);
    assert_eq!(long.len(), 5001);
    assert_response(&long, 2, CLOSED);
    let allowed = message(kind::DELETE_KEYS, 300, &[0; 4980]);
    assert_response(&allowed, 11, CLOSED);
}

#[test]
fn row_version() {
    for version in [0, 1, 3, 255] {
        let mut wrong = message(kind::DELETE_ALL_KEYS, 300, &[]);
        wrong[VERSION_AT] = version;
        assert_response(&wrong, 5, CLOSED);
    }
}

#[test]
fn row_receiver() {
    let mut wrong = message(kind::DELETE_ALL_KEYS, 300, &[]);
    wrong[RECEIVER_AT..RECEIVER_AT + 4].copy_from_slice(&CENTRE);
    assert_response(&wrong, 4, CLOSED);
}

#[test]
fn row_sender() {
    let mut wrong = message(kind::DELETE_ALL_KEYS, 300, &[]);
    wrong[SENDER_AT..SENDER_AT + 4].copy_from_slice(&OWN);
    assert_response(&wrong, 3, CLOSED);
}

#[test]
fn row_sequence() {
    for sequence in [0, 299, 301, 300 ^ 0x0100, 65535] {
        let wrong = message(kind::DELETE_ALL_KEYS, sequence, &[]);
        assert_response(&wrong, 9, CLOSED);
    }
}

#[test]
fn row_type() {
    for kind in (5..=9).chain(11..=255) {
        let other = message(kind, 300, &[1, 2, 255]);
        assert_response(&other, 1, OPEN);
    }
}

#[test]
fn row_body() {
    for command in COMMANDS_WITH_REQUESTS {
        let body = requests(&[structure(command)]);
        assert_accepted(command, &body);
        for length in 0..body.len() {
            assert_format_error(command, &body[..length]);
        }
        assert_format_error(command, &[&body[..], &[0]].concat());
        assert_format_error(command, &[&[0, 2], &body[2..]].concat());
    }
    for command in [kind::DELETE_ALL_KEYS, kind::END_OF_UPDATE] {
        assert_format_error(command, &[0]);
        assert_format_error(command, &[0, 0]);
    }
}

#[test]
fn row_body_request_counts() {
    for command in COMMANDS_WITH_REQUESTS {
        assert_format_error(command, &requests(&[]));
    }
    for (command, most) in [(kind::DELETE_KEYS, 500), (kind::UPDATE_KEY_VALIDITIES, 250)] {
        assert_accepted(command, &requests(&vec![structure(command); most]));
        assert_format_error(command, &requests(&vec![structure(command); most + 1]));
    }
    let command = kind::UPDATE_KEY_ENTITIES;
    assert_accepted(command, &requests(&vec![structure(command); 250]));
    assert_format_error(command, &requests(&vec![structure(command); 251]));
}

/// 97 requests are the most that 5,000 bytes hold, so the limit of 100 is never met.
#[test]
fn row_body_most_adds() {
    let command = kind::ADD_KEYS;
    assert_accepted(command, &requests(&vec![structure(command); 97]));
    let one_more = requests(&vec![structure(command); 98]);
    let long = message(command, 300, &one_more);
    assert_response(&long, 2, CLOSED);
}

#[test]
fn row_body_peer_counts() {
    let add = |count| requests(&[k_struct(&entry(2, count))]);
    let update = |count| requests(&[k_entities(1, &peers(1, count))]);
    for count in [1, 1000] {
        assert_accepted(kind::ADD_KEYS, &add(count));
        assert_accepted(kind::UPDATE_KEY_ENTITIES, &update(count));
    }
    for count in [0, 1001] {
        assert_format_error(kind::ADD_KEYS, &add(count));
        assert_format_error(kind::UPDATE_KEY_ENTITIES, &update(count));
    }
}

#[test]
fn row_body_each_structure_has_its_own_peer_count() {
    let two = [k_entities(1, &peers(1, 3)), k_entities(1, &peers(1, 2))];
    assert_accepted(kind::UPDATE_KEY_ENTITIES, &requests(&two));
}

#[test]
fn row_body_key_length() {
    for length in [0, 8, 16, 23, 25, 255] {
        let mut structure = k_struct(&entry(2, 1));
        structure[0] = length;
        assert_format_error(kind::ADD_KEYS, &requests(&[structure]));
    }
    let short = [&[23][..], &k_struct(&entry(2, 1))[2..]].concat();
    assert_format_error(kind::ADD_KEYS, &requests(&[short]));
}

#[test]
fn row_body_fault_in_the_last_request_works_none() {
    let mut last = k_struct(&entry(3, 1));
    last[0] = 23;
    let body = requests(&[k_struct(&entry(2, 1)), last]);
    assert_format_error(kind::ADD_KEYS, &body);
}

#[test]
fn row_store() {
    for command in COMMANDS_WITH_REQUESTS {
        let command = message(command, 300, &requests(&[structure(command)]));
        for edition in EDITIONS {
            assert_response_over(unsound(edition), &command, 6, OPEN);
            assert_response_over(vec![0; edition.length()], &command, 6, OPEN);
            let with_a_fault = with_a_fault(edition).into_iter().map(|(store, _)| store);
            for store in with_a_fault.chain(with_a_count_over(edition)) {
                assert_response_from(open_session(), store, &command, 6, OPEN);
            }
        }
    }
}

/// Header and length disagree: either way the store is judged unsound, and stays.
#[test]
fn row_store_of_the_other_edition() {
    for command in COMMANDS_WITH_REQUESTS {
        let command = message(command, 300, &requests(&[structure(command)]));
        for edition in EDITIONS {
            assert_response_over(of_the_other(edition), &command, 6, OPEN);
        }
    }
}

/// The empty store is that of the length, whatever the header said.
#[test]
fn delete_all_takes_any_store() {
    for edition in EDITIONS {
        let stores = [
            unsound(edition),
            of_the_other(edition),
            vec![0xff; edition.length()],
            encode(edition, &full(edition)),
        ];
        for store in stores {
            let mut bench = Bench::new(edition, &[]);
            bench.store = store;
            let command = message(kind::DELETE_ALL_KEYS, 300, &[]);
            bench.assert_reply(&command, &reply(&command, 700, 0, &[]));
            assert_eq!(bench.store, encode(edition, &[]));
            assert_eq!((bench.session.state, bench.session.expected), (OPEN, 301));
        }
    }
}

#[test]
fn end_of_update_closes_and_writes_nothing() {
    for edition in EDITIONS {
        let sound = encode(edition, &entries(&[1]));
        for store in [sound, unsound(edition), of_the_other(edition)] {
            let mut bench = Bench::new(edition, &[]);
            bench.store = store.clone();
            let end = message(kind::END_OF_UPDATE, 300, &[]);
            assert_eq!(bench.receive(&end), Answer::Ended);
            let closed = Session {
                state: CLOSED,
                ..remembering(transaction(300), open_session())
            };
            assert_eq!(bench.session, closed);
            assert_eq!(bench.out, [0xee; 1032]);
            assert_eq!(bench.store, store);
        }
    }
}

#[test]
fn rows_are_tested_in_order() {
    for edition in EDITIONS {
        assert_rows_in_order(unsound(edition));
        assert_rows_in_order(of_the_other(edition));
    }
}

/// All faults at once; the first is mended after each reply.
fn assert_rows_in_order(store: Vec<u8>) {
    let right = message(kind::DELETE_KEYS, 300, &requests(&[k_identifier(1)]));
    let mut faulty = right.clone();
    for at in [
        0,
        VERSION_AT,
        RECEIVER_AT,
        SENDER_AT,
        SEQUENCE_AT,
        TRANSACTION_AT,
    ] {
        faulty[at] ^= 1;
    }
    let session = remembering(number_of(&faulty), open_session());
    faulty[TYPE_AT] = 200;
    faulty[20] = 1;
    let mend = [
        (2, 0, CLOSED),
        (5, VERSION_AT, CLOSED),
        (4, RECEIVER_AT, CLOSED),
        (3, SENDER_AT, CLOSED),
        (9, SEQUENCE_AT, CLOSED),
        (10, TRANSACTION_AT, CLOSED),
        (1, TYPE_AT, OPEN),
        (11, 20, CLOSED),
    ];
    for (response, at, state) in mend {
        assert_response_from(session, store.clone(), &faulty, response, state);
        faulty[at] = right[at];
    }
    assert_eq!(faulty, right);
    assert_response_from(session, store, &faulty, 6, OPEN);
}

#[test]
fn a_reply_has_the_received_transaction_number() {
    for number in [0, 1, 0x0102_0304, u32::MAX] {
        let last = remembering(number, open_session());
        let cases = [
            (open_session(), 300, 0),
            (open_session(), 301, 9),
            (last, 301, 9),
            (last, 300, 10),
        ];
        for (session, sequence, response) in cases {
            let mut bench = Bench::new(EDITION_1, &[]);
            bench.session = session;
            let command = numbered(number, kind::DELETE_ALL_KEYS, sequence, &[]);
            bench.receive(&command);
            assert_eq!(bench.out[13..17], number.to_be_bytes());
            assert_eq!(bench.out[..23], reply(&command, 700, response, &[]));
        }
    }
}

#[test]
fn the_longest_reply_has_523_bytes() {
    for edition in EDITIONS {
        let mut bench = Bench::new(edition, &entries(&[1]));
        let results = bench.delete(&[1; 500]);
        assert_eq!(results[0], 0);
        assert!(results[1..].iter().all(|&result| result == 1));
        assert_eq!(bench.out[523..], [0xee; 509]);
    }
}

/// A full store of edition 2 is emptied by the longest delete.
#[test]
fn one_message_deletes_500_keys() {
    let mut bench = Bench::new(EDITION_2, &full(EDITION_2));
    let all: Vec<u32> = (1..=500).rev().collect();
    assert_eq!(bench.delete(&all), [0; 500]);
    assert_eq!(bench.store, encode(EDITION_2, &[]));
}

#[test]
fn an_update_of_validities_reaches_the_store() {
    for edition in EDITIONS {
        let mut bench = Bench::new(edition, &entries(&[2, 3]));
        let structures = [k_validity(2, 77, 88), k_validity(3, 1, 2)];
        assert_eq!(bench.work(kind::UPDATE_KEY_VALIDITIES, &structures), [0, 1]);
        let mut expected = entries(&[2, 3]);
        (expected[1].start, expected[1].end) = (77, 88);
        assert_eq!(bench.store, encode(edition, &expected));
    }
}

#[test]
fn a_whole_session() {
    for edition in EDITIONS {
        whole_session(edition);
    }
}

fn whole_session(edition: Edition) {
    let mut bench = Bench::new(edition, &[]);
    (bench.session, _) = begin(OWN, CENTRE, 699, &mut bench.out).unwrap();
    assert_eq!(
        bench.receive(&session_init(299, &[1, 2, 60])),
        Answer::Opened
    );
    assert_eq!(bench.session, open_session());
    assert_eq!(
        bench.add(&[entry(1, 2), entry(2, 1), entry(3, 3)]),
        [0, 0, 0]
    );
    assert_eq!(bench.delete(&[1]), [0]);
    assert_eq!(bench.replace_peers(3, &peers(3, 1)), [0]);
    assert_eq!(bench.entries(), [entry(2, 1), entry(3, 1)]);
    let end = message(kind::END_OF_UPDATE, 303, &[]);
    assert_eq!(bench.receive(&end), Answer::Ended);
    assert_eq!(bench.receive(&end), Answer::Refused(3));
    assert_eq!(
        find(&bench.store, &peers(3, 1)[0], 0x1003),
        found(2, 0x2003)
    );
}

/// Commands alone fill the store, 50 keys a message.
#[test]
fn a_whole_session_that_fills_the_store() {
    for edition in EDITIONS {
        let mut bench = Bench::new(edition, &[]);
        let list = full(edition);
        for keys in list.chunks(50) {
            assert_eq!(bench.add(keys), vec![0; keys.len()]);
        }
        assert_eq!(bench.store, encode(edition, &list));
        let last = list.last().unwrap();
        let next = entry(list.len() as u32 + 1, 1);
        assert_eq!(bench.add(&[next.clone(), last.clone()]), [2, 3]);
        assert_eq!(bench.store, encode(edition, &list));
        assert_eq!(bench.delete(&[1]), [0]);
        let Entry { start, end, .. } = next;
        let peer = next.peers[0];
        assert_eq!(bench.add(&[next]), [0]);
        assert_eq!(find(&bench.store, &peer, start), found(list.len(), end));
        let end = message(kind::END_OF_UPDATE, bench.session.expected, &[]);
        assert_eq!(bench.receive(&end), Answer::Ended);
        assert_eq!(bench.entries()[..list.len() - 1], list[1..]);
    }
}

#[test]
fn the_update_of_entities_has_its_fields_in_order() {
    let body = [&[0, 1][..], &k_identifier(1), &peer_list(&[[9, 8, 7, 6]])].concat();
    for edition in EDITIONS {
        let mut bench = Bench::new(edition, &entries(&[2]));
        bench.receive(&message(kind::UPDATE_KEY_ENTITIES, 300, &body));
        assert_eq!(bench.entries()[0].peers, [[9, 8, 7, 6]]);
    }
}

/// Room, state and message length at either length of store, each fault with all later ones.
#[test]
fn message_refusals_in_order() {
    let cases = [
        (1031, CLOSED, 19, 2),
        (0, OPEN, 20, 2),
        (1032, CLOSED, 19, 3),
        (1032, CLOSED, 20, 3),
        (1032, 3, 20, 3),
        (1032, 255, 0, 3),
        (1032, OPEN, 19, 4),
        (1032, OPEN, 0, 4),
        (1032, WAITING, 19, 4),
    ];
    for store_length in [3852, 38012] {
        for (room, state, length, refusal) in cases {
            assert_refused(store_length, room, state, length, refusal);
        }
    }
}

#[test]
fn a_store_of_neither_length_is_refused_first() {
    for store_length in [0, 12, 3851, 3853, 38011, 38013] {
        assert_refused(store_length, 1031, CLOSED, 19, 1);
        assert_refused(store_length, 0, OPEN, 20, 1);
        assert_refused(store_length, 1032, OPEN, 20, 1);
        assert_refused(store_length, 1032, WAITING, 20, 1);
    }
}

/// Asserts a refusal that leaves session, store and output.
fn assert_refused(store_length: usize, room: usize, state: u8, length: usize, refusal: u8) {
    let session = Session {
        state,
        ..open_session()
    };
    let repeated = remembering(transaction(300), session);
    for session in remembering_others(session).into_iter().chain([repeated]) {
        let mut store = vec![0xdd; store_length];
        let mut out = vec![0xee; room];
        let message = &message(kind::DELETE_ALL_KEYS, 300, &[])[..length];
        let (after, answer) = receive(session, message, &mut store, &mut out);
        assert_eq!(answer, Answer::Refused(refusal));
        assert_eq!(after, session);
        assert_eq!(store, vec![0xdd; store_length]);
        assert_eq!(out, vec![0xee; room]);
    }
}

#[test]
fn a_session_with_itself_is_nothing_special() {
    let mut bench = Bench::new(EDITION_1, &[]);
    bench.session.peer = OWN;
    let mut command = message(kind::DELETE_ALL_KEYS, 300, &[]);
    command[SENDER_AT..SENDER_AT + 4].copy_from_slice(&OWN);
    assert_eq!(bench.receive(&command), Answer::Reply(23));
    assert_eq!(bench.out[20], 0);
}
