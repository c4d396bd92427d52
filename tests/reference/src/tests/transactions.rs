//! Transaction numbers: two messages in a row of a session have different ones (02, CR 3).

use super::{entries, entry, k_entities, k_identifier, k_struct, k_validity, message, number_of};
use super::{numbered, open_session, peers, remembering, reply, requests, unsound};
use super::{Bench, CENTRE, OWN, RECEIVER_AT, SENDER_AT, SEQUENCE_AT, VERSION_AT};
use crate::message::kind;
use crate::session::{begin, Answer, Session, CLOSED, OPEN, WAITING};
use crate::store::{encode, EDITIONS, EDITION_1};

/// Two numbers that differ in every bit.
const A: u32 = 0x0102_0384;
const B: u32 = !A;

/// A bench that holds key 1, with this session.
fn bench(session: Session) -> Bench {
    let mut bench = Bench::new(EDITION_1, &entries(&[1]));
    bench.session = session;
    bench
}

/// An open session with a number that means nothing.
fn none_beside(transaction: u32) -> Session {
    Session {
        transaction,
        ..open_session()
    }
}

/// A delete of key 1 with the number that the bench's session expects.
fn delete(bench: &Bench, number: u32) -> Vec<u8> {
    let body = requests(&[k_identifier(1)]);
    numbered(number, kind::DELETE_KEYS, bench.session.expected, &body)
}

fn session_init(number: u32, sequence: u16) -> Vec<u8> {
    numbered(number, kind::SESSION_INIT, sequence, &[1, 2, 255])
}

/// One message of each kind that passes the sequence test, and its RESPONSE over a sound store where no
/// number is repeated; `None` is end of update.
fn each_kind(number: u32, sequence: u16) -> Vec<(Vec<u8>, Option<u8>)> {
    let one = |kind, structure| (kind, requests(&[structure]), Some(0));
    [
        one(kind::ADD_KEYS, k_struct(&entry(2, 1))),
        one(kind::DELETE_KEYS, k_identifier(1)),
        (kind::DELETE_ALL_KEYS, vec![], Some(0)),
        one(kind::UPDATE_KEY_VALIDITIES, k_validity(1, 5, 6)),
        one(kind::UPDATE_KEY_ENTITIES, k_entities(1, &peers(1, 2))),
        (200, vec![], Some(1)),
        (kind::SESSION_INIT, vec![1, 2, 255], Some(1)),
        (kind::RESPONSE, vec![0, 0, 0], Some(1)),
        (kind::DELETE_KEYS, requests(&[]), Some(11)),
        (kind::DELETE_ALL_KEYS, vec![0], Some(11)),
        (kind::END_OF_UPDATE, vec![0], Some(11)),
        (kind::END_OF_UPDATE, vec![], None),
    ]
    .map(|(kind, body, response)| (numbered(number, kind, sequence, &body), response))
    .to_vec()
}

/// Asserts this RESPONSE, or the end of update, and what the session is then.
fn assert_taken(bench: &mut Bench, message: &[u8], response: Option<u8>) {
    let before = bench.session;
    let answer = bench.receive(message);
    let is_reply = matches!(answer, Answer::Reply(_));
    let told = is_reply.then(|| bench.out[20]);
    assert_eq!(told, response);
    assert!(is_reply || answer == Answer::Ended);
    let stays_open = matches!(response, Some(0 | 1 | 6));
    let expected = Session {
        state: if stays_open { OPEN } else { CLOSED },
        next: before.next.wrapping_add(is_reply.into()),
        expected: before.expected.wrapping_add(stays_open.into()),
        ..remembering(number_of(message), before)
    };
    assert_eq!(bench.session, expected);
}

/// Asserts RESPONSE 10: the session is closed, its own number one higher, and the number as remembered before.
fn assert_repeated(bench: &mut Bench, message: &[u8]) {
    let (before, store) = (bench.session, bench.store.clone());
    bench.assert_reply(message, &reply(message, before.next, 10, &[]));
    assert_eq!(bench.store, store);
    let closed = Session {
        state: CLOSED,
        next: before.next.wrapping_add(1),
        ..remembering(number_of(message), before)
    };
    assert_eq!(bench.session, closed);
}

/// Deletes with these numbers, the first in a session that remembers none: all worked.
fn assert_all_taken(numbers: &[u32]) {
    let mut bench = bench(open_session());
    for &number in numbers {
        let command = delete(&bench, number);
        assert_taken(&mut bench, &command, Some(0));
    }
}

/// The same, but the last number is repeated.
fn assert_last_repeated(numbers: &[u32]) {
    let mut bench = bench(open_session());
    let (&last, first) = numbers.split_last().unwrap();
    for &number in first {
        let command = delete(&bench, number);
        assert_taken(&mut bench, &command, Some(0));
    }
    let command = delete(&bench, last);
    assert_repeated(&mut bench, &command);
    assert_eq!(bench.receive(&command), Answer::Refused(3));
}

#[test]
fn one_number_twice() {
    for number in [0, 1, A, B, u32::MAX] {
        assert_last_repeated(&[number, number]);
        assert_last_repeated(&[A ^ 1, number, number]);
    }
}

#[test]
fn two_numbers() {
    assert_all_taken(&[A, B]);
    assert_all_taken(&[A, A + 1]);
    assert_all_taken(&[A, A - 1]);
    assert_all_taken(&[u32::MAX, 0]);
    assert_all_taken(&[0, u32::MAX]);
}

/// Zero is a number like another.
#[test]
fn zero() {
    assert_all_taken(&[0]);
    assert_all_taken(&[0, A]);
    assert_all_taken(&[A, 0]);
    assert_all_taken(&[0, A, 0]);
    assert_last_repeated(&[A, 0, 0]);
}

#[test]
fn only_the_last_is_looked_at() {
    assert_all_taken(&[A, B, A]);
    assert_all_taken(&[A, B, A, B, A + 1, A]);
    assert_last_repeated(&[A, B, A, A]);
}

#[test]
fn all_bits_and_bytes_are_compared() {
    let unlike = (0..32)
        .map(|bit| 1 << bit)
        .chain([0xff, 0xff00, 0xff_0000, 0xff00_0000]);
    for change in unlike {
        for number in [0, A, u32::MAX] {
            assert_all_taken(&[number, number ^ change, number]);
            assert_last_repeated(&[number, number ^ change, number ^ change]);
        }
    }
}

/// The bytes in another order are another number.
#[test]
fn the_order_of_bytes_counts() {
    assert_all_taken(&[A, A.swap_bytes(), A]);
    assert_all_taken(&[A, A.rotate_left(8), A.rotate_left(16), A.rotate_left(24)]);
}

#[test]
fn the_reply_in_full() {
    for edition in EDITIONS {
        let mut bench = Bench::new(edition, &entries(&[2, 1]));
        bench.session = remembering(0x0506_0708, open_session());
        let command = delete(&bench, 0x0506_0708);
        assert_eq!(bench.receive(&command), Answer::Reply(23));
        let tail = [5, 6, 7, 8, 0x02, 0xbc, 11, 10, 0, 0];
        let expected = [&[0, 0, 0, 23, 2][..], &CENTRE, &OWN, &tail].concat();
        assert_eq!(bench.out[..23], expected);
        assert_eq!(bench.out[23..], [0xee; 1009]);
        assert_eq!(bench.store, encode(edition, &entries(&[2, 1])));
    }
}

/// Whatever passes the sequence test is remembered, and whatever comes next with its number is answered
/// 10. A session that the first closes is handed in as an open one.
#[test]
fn each_kind_after_each_kind() {
    for (first, response) in each_kind(A, 300) {
        for next in 0..each_kind(A, 300).len() {
            let after_first = |number| {
                let mut bench = bench(open_session());
                assert_taken(&mut bench, &first, response);
                bench.session.state = OPEN;
                bench.store = encode(EDITION_1, &entries(&[1]));
                let sequence = bench.session.expected;
                (bench, each_kind(number, sequence).swap_remove(next))
            };
            let (mut bench, (repeated, _)) = after_first(A);
            assert_repeated(&mut bench, &repeated);
            let (mut bench, (other, response)) = after_first(B);
            assert_taken(&mut bench, &other, response);
        }
    }
}

/// An unsound store is no matter for a repeated number, and what is answered 6 is remembered.
#[test]
fn an_unsound_store() {
    for edition in EDITIONS {
        let after_six = || {
            let mut bench = bench(open_session());
            bench.store = unsound(edition);
            let first = delete(&bench, A);
            assert_taken(&mut bench, &first, Some(6));
            bench
        };
        let mut bench = after_six();
        let repeated = delete(&bench, A);
        assert_repeated(&mut bench, &repeated);
        let mut bench = after_six();
        let other = delete(&bench, B);
        assert_taken(&mut bench, &other, Some(6));
        let all = numbered(B, kind::DELETE_ALL_KEYS, bench.session.expected, &[]);
        assert_repeated(&mut bench, &all);
        assert_eq!(bench.store, unsound(edition));
    }
}

/// What is answered 10 is remembered as any other: its number is the last one still.
#[test]
fn after_a_repeated_number() {
    for (number, is_repeated) in [(A, true), (B, false)] {
        let mut bench = bench(remembering(A, open_session()));
        let repeated = delete(&bench, A);
        assert_repeated(&mut bench, &repeated);
        bench.session.state = OPEN;
        let next = delete(&bench, number);
        if is_repeated {
            assert_repeated(&mut bench, &next);
        } else {
            assert_taken(&mut bench, &next, Some(0));
        }
    }
}

/// A message answered 2, 5, 4, 3 or 9 is not remembered, and what was remembered stays.
#[test]
fn a_message_that_fails_an_earlier_test() {
    for at in [3, VERSION_AT, RECEIVER_AT, SENDER_AT, SEQUENCE_AT] {
        let after_fault = |session, number| {
            let mut bench = bench(session);
            let mut faulty = delete(&bench, number);
            faulty[at] ^= 1;
            bench.receive(&faulty);
            assert!([2, 5, 4, 3, 9].contains(&bench.out[20]));
            let kept = (session.remembered, session.transaction);
            assert_eq!((bench.session.remembered, bench.session.transaction), kept);
            assert_eq!(bench.session.state, CLOSED);
            bench.session.state = OPEN;
            bench
        };
        // Whatever number the faulty message had: A is the last one, B is not.
        for number in [A, B] {
            let mut bench = after_fault(remembering(A, open_session()), number);
            let repeated = delete(&bench, A);
            assert_repeated(&mut bench, &repeated);
            let mut bench = after_fault(remembering(A, open_session()), number);
            let other = delete(&bench, B);
            assert_taken(&mut bench, &other, Some(0));
        }
        for number in [0, A, B] {
            let mut bench = after_fault(none_beside(A), number);
            let next = delete(&bench, number);
            assert_taken(&mut bench, &next, Some(0));
        }
    }
}

/// Both faults: the sequence number is tested before, and type, body and store behind.
#[test]
fn the_place_of_the_test() {
    for (wrong_sequence, _) in each_kind(A, 301) {
        let mut bench = bench(remembering(A, open_session()));
        bench.assert_reply(&wrong_sequence, &reply(&wrong_sequence, 700, 9, &[]));
    }
    for (repeated, response) in each_kind(A, 300) {
        for store in [encode(EDITION_1, &entries(&[1])), unsound(EDITION_1)] {
            let mut bench = bench(remembering(A, open_session()));
            bench.store = store;
            assert_repeated(&mut bench, &repeated);
        }
        let mut bench = bench(remembering(B, open_session()));
        assert_taken(&mut bench, &repeated, response);
    }
}

/// A number that is handed in with none remembered is no number to differ from.
#[test]
fn none_with_any_number() {
    for number in [0, A, u32::MAX] {
        for (message, response) in each_kind(number, 300) {
            let mut bench = bench(none_beside(number));
            assert_taken(&mut bench, &message, response);
        }
    }
}

#[test]
fn end_of_update() {
    for (number, session) in [
        (0, open_session()),
        (A, open_session()),
        (A, none_beside(A)),
        (B, remembering(A, open_session())),
    ] {
        let mut bench = bench(session);
        assert_taken(
            &mut bench,
            &numbered(number, kind::END_OF_UPDATE, 300, &[]),
            None,
        );
        assert_eq!(bench.out, [0xee; 1032]);
    }
    for number in [0, A] {
        let mut bench = bench(remembering(number, open_session()));
        assert_repeated(&mut bench, &numbered(number, kind::END_OF_UPDATE, 300, &[]));
    }
    // The first message after the session init that opened, with the number that this had.
    for number in [0, A] {
        let mut bench = bench(open_session());
        (bench.session, _) = begin(OWN, CENTRE, 699, &mut [0; 1032]).unwrap();
        assert_eq!(bench.receive(&session_init(number, 299)), Answer::Opened);
        let end = numbered(number, kind::END_OF_UPDATE, 300, &[]);
        assert_taken(&mut bench, &end, None);
        assert_eq!(bench.out, [0xee; 1032]);
    }
}

/// In an open session a session init is a message like another.
#[test]
fn a_session_init_while_open() {
    let mut bench = bench(remembering(A, open_session()));
    assert_taken(&mut bench, &session_init(B, 300), Some(1));
    assert_repeated(&mut bench, &session_init(B, 301));
}

/// The number of the session init that opens is neither looked at nor remembered, and what the session
/// was handed in with is forgotten.
#[test]
fn opening_forgets() {
    for handed_in in [
        open_session(),
        none_beside(A),
        remembering(A, open_session()),
    ] {
        for number in [0, A, B] {
            for first in [0, A, B] {
                let mut bench = bench(Session {
                    state: WAITING,
                    ..handed_in
                });
                assert_eq!(bench.receive(&session_init(number, 299)), Answer::Opened);
                assert_eq!(bench.session, open_session());
                let command = delete(&bench, first);
                assert_taken(&mut bench, &command, Some(0));
                let again = delete(&bench, first);
                assert_repeated(&mut bench, &again);
            }
        }
    }
}

/// The last number of a session, however that closed, is the first of the one begun after it.
#[test]
fn a_session_begun_after_another() {
    let out_of_sequence = numbered(A, kind::DELETE_ALL_KEYS, 300, &[]);
    let format_error = numbered(A, kind::DELETE_ALL_KEYS, 301, &[0]);
    let end = numbered(A, kind::END_OF_UPDATE, 301, &[]);
    let repeated = numbered(B, kind::DELETE_ALL_KEYS, 301, &[]);
    for closing in [out_of_sequence, format_error, end, repeated] {
        for number in [A, B] {
            let mut bench = bench(open_session());
            assert_taken(&mut bench, &numbered(B, 200, 300, &[]), Some(1));
            bench.receive(&closing);
            assert_eq!(bench.session.state, CLOSED);
            (bench.session, _) = begin(OWN, CENTRE, 699, &mut bench.out).unwrap();
            assert_eq!(
                bench.receive(&message(kind::SESSION_INIT, 299, &[1, 2, 5])),
                Answer::Opened
            );
            let first = delete(&bench, number);
            assert_taken(&mut bench, &first, Some(0));
        }
    }
}

/// The sequence numbers wrap beside it.
#[test]
fn around_the_last_sequence_number() {
    for (number, is_repeated) in [(A, true), (B, false)] {
        let mut bench = bench(Session {
            next: 65534,
            expected: 65535,
            ..open_session()
        });
        let first = delete(&bench, A);
        assert_taken(&mut bench, &first, Some(0));
        let second = delete(&bench, number);
        assert_eq!(second[SEQUENCE_AT..SEQUENCE_AT + 2], [0, 0]);
        if is_repeated {
            assert_repeated(&mut bench, &second);
            assert_eq!((bench.session.next, bench.session.expected), (0, 0));
        } else {
            assert_taken(&mut bench, &second, Some(0));
            assert_eq!((bench.session.next, bench.session.expected), (0, 1));
        }
    }
}

/// What comes to the module in the lists that are tried out below.
#[derive(Clone, Copy, Debug)]
enum Step {
    /// A session is begun and opened.
    Begin,
    Delete(u32),
    UnknownType(u32),
    FormatError(u32),
    EndOfUpdate(u32),
    OutOfSequence(u32),
    ForAnother(u32),
    /// Shorter than a header.
    Torn,
}

/// What is told of a step, and the last number of the session then.
type Told = (Result<u8, Answer>, Option<u32>);

/// Change request 3 in its own words, over the numbers of all messages that passed the sequence test
/// since the session was opened. The RESPONSE of a delete is given.
fn by_the_words(steps: &[Step], of_delete: u8) -> Vec<Told> {
    let mut passed: Vec<u32> = Vec::new();
    let mut is_open = true;
    let mut told = Vec::new();
    for &step in steps {
        let (number, response) = match step {
            Step::Begin => {
                (passed, is_open) = (Vec::new(), true);
                told.push((Err(Answer::Opened), None));
                continue;
            }
            _ if !is_open => (None, Err(Answer::Refused(3))),
            Step::Torn => (None, Err(Answer::Refused(4))),
            Step::OutOfSequence(_) => (None, Ok(9)),
            Step::ForAnother(_) => (None, Ok(4)),
            Step::Delete(number) => (Some(number), Ok(of_delete)),
            Step::UnknownType(number) => (Some(number), Ok(1)),
            Step::FormatError(number) => (Some(number), Ok(11)),
            Step::EndOfUpdate(number) => (Some(number), Err(Answer::Ended)),
        };
        let is_repeated = number.is_some() && passed.last() == number.as_ref();
        let response = if is_repeated { Ok(10) } else { response };
        passed.extend(number);
        if matches!(response, Ok(4 | 9 | 10 | 11) | Err(Answer::Ended)) {
            is_open = false;
        }
        told.push((response, passed.last().copied()));
    }
    told
}

/// Takes one step and gives what is told of it.
fn take(bench: &mut Bench, step: Step) -> Told {
    let sequence = bench.session.expected;
    let gone = requests(&[k_identifier(9)]);
    let message = match step {
        Step::Begin => {
            (bench.session, _) = begin(OWN, CENTRE, 699, &mut bench.out).unwrap();
            session_init(A, 299)
        }
        Step::Delete(number) => numbered(number, kind::DELETE_KEYS, sequence, &gone),
        Step::UnknownType(number) => numbered(number, 200, sequence, &[]),
        Step::FormatError(number) => numbered(number, kind::DELETE_KEYS, sequence, &[]),
        Step::EndOfUpdate(number) => numbered(number, kind::END_OF_UPDATE, sequence, &[]),
        Step::OutOfSequence(number) => {
            numbered(number, kind::DELETE_KEYS, sequence.wrapping_add(1), &gone)
        }
        Step::ForAnother(number) => {
            let mut message = numbered(number, kind::DELETE_KEYS, sequence, &gone);
            message[RECEIVER_AT] ^= 1;
            message
        }
        Step::Torn => message(kind::DELETE_KEYS, sequence, &[])[..19].to_vec(),
    };
    let told = match bench.receive(&message) {
        Answer::Reply(_) => Ok(bench.out[20]),
        other => Err(other),
    };
    let Session {
        remembered,
        transaction,
        ..
    } = bench.session;
    (told, remembered.then_some(transaction))
}

/// All lists of up to four steps with two numbers, zero among them, over a sound and an unsound store.
#[test]
fn all_short_lists() {
    let mut alphabet = vec![Step::Begin, Step::Torn];
    for number in [0, A] {
        alphabet.extend([
            Step::Delete(number),
            Step::UnknownType(number),
            Step::FormatError(number),
            Step::EndOfUpdate(number),
            Step::OutOfSequence(number),
            Step::ForAnother(number),
        ]);
    }
    for (store, of_delete) in [(encode(EDITION_1, &[]), 0), (unsound(EDITION_1), 6)] {
        let mut bench = bench(open_session());
        bench.store = store;
        let mut lists = 0;
        assert_lists(
            &mut bench,
            &alphabet,
            of_delete,
            &mut Vec::new(),
            &mut lists,
        );
        assert_eq!(lists, 14 + 14 * 14 + 14 * 14 * 14 + 14 * 14 * 14 * 14);
    }
}

/// Asserts all lists that go on from these steps, after which the bench stands.
fn assert_lists(
    bench: &mut Bench,
    alphabet: &[Step],
    of_delete: u8,
    steps: &mut Vec<Step>,
    lists: &mut usize,
) {
    if steps.len() == 4 {
        return;
    }
    let session = bench.session;
    for &step in alphabet {
        steps.push(step);
        bench.session = session;
        let told = take(bench, step);
        assert_eq!(
            Some(&told),
            by_the_words(steps, of_delete).last(),
            "{steps:?}"
        );
        *lists += 1;
        assert_lists(bench, alphabet, of_delete, steps, lists);
        steps.pop();
    }
}
