//! Transaction numbers that are repeated, or nearly (change request 3). Each call is compared with
//! the second program and asked by `repeated.rs`, as everywhere; here the papers tell its answer too.

use reference::message::kind;
use reference::refusal::{H3, H5};
use reference::session::{CLOSED, OPEN, WAITING};
use reference::store::{Edition, EDITIONS};

use crate::both::{named, receive_call, Both, Step, World};
use crate::compare::numbers;
use crate::edges::with_faults;
use crate::library::{NUMBER_AT, REMEMBERED_AT, UNUSED_AT};
use crate::repeated::{BEFORE_REPEATED, REPEATED};
use crate::scene::{Scene, OUTPUT};
use crate::wire::{self, Header, HEADER, RESPONSE_AT, SEQUENCE_AT, TRANSACTION_AT, TYPE_AT};

/// Bytes that say whether a number is remembered.
const FLAGS: [u8; 4] = [0, 1, 2, 255];

/// Places in a scene's cases.
const DELETE: usize = 1;
const VALIDITIES: usize = 3;
const END: usize = 5;
const INIT: usize = 6;
const OTHER: usize = 7;

pub fn all(both: &mut Both, seed: u64) -> Step {
    for edition in EDITIONS {
        every_number(both, edition, seed)?;
        every_message(both, edition, seed)?;
        fault_orders(both, edition, seed)?;
        openings(both, edition, seed)?;
        two_messages(both, edition, seed)?;
        three_messages(both, edition, seed)?;
        sessions_in_turn(both, edition, seed)?;
        beside_the_wrap(both, edition, seed)?;
    }
    Ok(())
}

/// What the papers say of a message.
#[derive(Clone, Copy, PartialEq, Eq, Debug)]
enum Due {
    Response(u8),
    /// The session opens or ends.
    NoReply,
    Refusal(u8),
}

fn gives(both: &mut Both, world: &mut World, message: &[u8], due: Due) -> Step {
    let before = world.clone();
    let (answer, reply) = both.answered(world, message, &OUTPUT)?;
    let call = || receive_call(&before, message, OUTPUT.len());
    named(call, || match due {
        Due::Response(response) => {
            let told = reply.get(RESPONSE_AT).map_or(-1, |&byte| byte.into());
            numbers("RESPONSE of the papers", response.into(), told)
        }
        Due::NoReply => numbers("answer of the papers", 0, answer.into()),
        Due::Refusal(house) => numbers("refusal of the papers", -i64::from(house), answer.into()),
    })
}

/// A message and what is due where its number is not repeated.
#[derive(Clone)]
struct Case {
    message: Vec<u8>,
    over_sound: Due,
    over_unsound: Due,
    opens: bool,
}

impl Case {
    /// A message of this type whose body is right.
    fn new(message: Vec<u8>) -> Case {
        let (over_sound, over_unsound) = match message[TYPE_AT] {
            kind::END_OF_UPDATE => (Due::NoReply, Due::NoReply),
            kind::DELETE_ALL_KEYS => (Due::Response(0), Due::Response(0)),
            0..=4 => (Due::Response(0), Due::Response(6)),
            _ => (Due::Response(1), Due::Response(1)),
        };
        Case {
            opens: message[TYPE_AT] == kind::SESSION_INIT,
            message,
            over_sound,
            over_unsound,
        }
    }

    /// The message with another body, which is wrong for its type.
    fn with_wrong_body(&self, body: &[u8]) -> Case {
        let mut message = [&self.message[..HEADER], body].concat();
        wire::set_length(&mut message);
        let due = match message[TYPE_AT] {
            0..=4 | kind::END_OF_UPDATE => Due::Response(11),
            _ => Due::Response(1),
        };
        Case {
            message,
            over_sound: due,
            over_unsound: due,
            opens: false,
        }
    }

    fn numbered(&self, transaction: u32) -> Case {
        let mut case = self.clone();
        let field = &mut case.message[TRANSACTION_AT..SEQUENCE_AT];
        field.copy_from_slice(&transaction.to_be_bytes());
        case
    }

    /// The message with the number that the session expects.
    fn expected_by(&self, world: &World) -> Vec<u8> {
        let mut message = self.message.clone();
        message[SEQUENCE_AT..TYPE_AT].copy_from_slice(&world.session[4..6]);
        message
    }
}

impl Scene {
    /// A right message of each command, end of update, a session init and other types.
    fn right_cases(&mut self) -> Vec<Case> {
        let mut messages = self.commands();
        messages.push(self.message(kind::SESSION_INIT, &wire::init_body(&[2], 255)));
        for other in [5, 8, 14, 255] {
            messages.push(self.message(other, &[]));
        }
        messages.push(self.message(kind::RESPONSE, &[0, 0, 0]));
        messages.into_iter().map(Case::new).collect()
    }

    /// Those, with a body that is too long by a byte, and one that is wrong otherwise.
    fn cases(&mut self) -> Vec<Case> {
        let mut cases = self.right_cases();
        for case in cases.clone() {
            let body = &case.message[HEADER..];
            cases.push(case.with_wrong_body(&[body, &[0]].concat()));
            let other = match body {
                [] => vec![0, 0],
                [_, rest @ ..] => [&[0x80], rest].concat(),
            };
            cases.push(case.with_wrong_body(&other));
        }
        cases
    }

    fn remembering(&self, state: u8, flag: u8, number: u32) -> World {
        let mut world = self.world(state);
        world.session[REMEMBERED_AT] = flag;
        world.session[NUMBER_AT..UNUSED_AT].copy_from_slice(&number.to_be_bytes());
        world
    }
}

/// Flips a bit of the last byte, which a sound store of few peers has zero; again, and it is sound.
fn spoil_store(world: &mut World) {
    let last = world.store.len() - 1;
    world.store[last] ^= 1;
}

/// The number, those unlike it in one bit, its bytes in the other order, 0 and FFFFFFFF.
fn around(number: u32) -> Vec<u32> {
    let bits = (0..32).map(|bit| number ^ 1 << bit);
    let others = [number, number.swap_bytes(), 0, u32::MAX];
    others.into_iter().chain(bits).collect()
}

/// A message's number against each that stands in the session, remembered or not.
fn every_number(both: &mut Both, edition: Edition, seed: u64) -> Step {
    let mut scene = Scene::new(edition, seed ^ 61);
    let any = scene.random.u32();
    for case in scene.right_cases() {
        for number in [any, 0, u32::MAX] {
            let case = case.numbered(number);
            for held in around(number) {
                for flag in FLAGS {
                    let due = match flag != 0 && held == number {
                        true => Due::Response(REPEATED),
                        false => case.over_sound,
                    };
                    let mut world = scene.remembering(OPEN, flag, held);
                    gives(both, &mut world, &case.message, due)?;
                }
            }
        }
    }
    Ok(())
}

/// Each of twelve types with each body in each state, over a sound store and an unsound one: the
/// number repeated, unlike in one bit, and not remembered.
fn every_message(both: &mut Both, edition: Edition, seed: u64) -> Step {
    let mut scene = Scene::new(edition, seed ^ 62);
    let number = scene.random.u32();
    for case in scene.cases() {
        let case = case.numbered(number);
        for state in [CLOSED, WAITING, OPEN, 3, 255] {
            for flag in FLAGS {
                for held in [number, number ^ 1 << scene.random.below(32)] {
                    let repeated = flag != 0 && held == number;
                    for (is_sound, worked) in [(true, case.over_sound), (false, case.over_unsound)]
                    {
                        let due = match state {
                            WAITING if case.opens => Due::NoReply,
                            WAITING => Due::Refusal(H5),
                            OPEN if repeated => Due::Response(REPEATED),
                            OPEN => worked,
                            _ => Due::Refusal(H3),
                        };
                        let mut world = scene.remembering(state, flag, held);
                        if !is_sound {
                            spoil_store(&mut world);
                        }
                        gives(both, &mut world, &case.message, due)?;
                    }
                }
            }
        }
    }
    Ok(())
}

/// A repeated number with every set of faults in length, version, receiver, sender, sequence, type,
/// body and store: the first five come before it, the others behind it.
fn fault_orders(both: &mut Both, edition: Edition, seed: u64) -> Step {
    let mut scene = Scene::new(edition, seed ^ 63);
    let number = scene.random.u32();
    for case in scene.right_cases() {
        let message = case.numbered(number).message;
        for faults in 0..256u32 {
            let flag = scene.random.pick(&FLAGS[1..]);
            let mut world = scene.remembering(OPEN, flag, number);
            let wrong = with_faults(&mut scene.random, &message, faults & 0x7f);
            if faults & 0x80 != 0 {
                spoil_store(&mut world);
            }
            let first = (0..BEFORE_REPEATED.len()).find(|bit| faults >> bit & 1 == 1);
            let due = first.map_or(REPEATED, |bit| BEFORE_REPEATED[bit]);
            gives(both, &mut world, &wrong, Due::Response(due))?;
        }
    }
    Ok(())
}

/// A waiting session that comes with a number, the init's own among them, is opened: its first
/// message is taken whatever its number is, and the second is not with the same one.
fn openings(both: &mut Both, edition: Edition, seed: u64) -> Step {
    let mut scene = Scene::new(edition, seed ^ 64);
    let (held, other) = (scene.random.u32(), scene.random.u32());
    let cases = scene.right_cases();
    for flag in FLAGS {
        for stands in [held, 0, u32::MAX] {
            for of_init in [held, 0, other] {
                for number in [stands, of_init, 0, !stands] {
                    let mut world = scene.remembering(WAITING, flag, stands);
                    let message = cases[INIT].numbered(of_init).message;
                    gives(both, &mut world, &message, Due::NoReply)?;
                    let first = cases[DELETE].numbered(number);
                    let message = first.expected_by(&world);
                    gives(both, &mut world, &message, first.over_sound)?;
                    let message = first.expected_by(&world);
                    gives(both, &mut world, &message, Due::Response(REPEATED))?;
                }
            }
        }
    }
    Ok(())
}

/// Each command and a session init, where it leaves the session open, before each message: with
/// one number, with two, and with the number 0.
fn two_messages(both: &mut Both, edition: Edition, seed: u64) -> Step {
    let mut scene = Scene::new(edition, seed ^ 65);
    let any = scene.random.u32();
    let numbers = [(any, any), (any, !any), (0, 0), (0, any), (any, 0)];
    let cases = scene.cases();
    for is_sound in [true, false] {
        let due = |case: &Case| match is_sound {
            true => case.over_sound,
            false => case.over_unsound,
        };
        let is_open = |case: &&Case| matches!(due(case), Due::Response(0 | 1 | 6));
        for first in cases[..=INIT].iter().filter(is_open) {
            for second in &cases {
                for (number, next) in numbers {
                    let mut world = scene.remembering(OPEN, 0, number);
                    if !is_sound {
                        spoil_store(&mut world);
                    }
                    let message = first.numbered(number).expected_by(&world);
                    gives(both, &mut world, &message, due(first))?;
                    let emptied = message[TYPE_AT] == kind::DELETE_ALL_KEYS;
                    let due = match number == next {
                        true => Due::Response(REPEATED),
                        false if emptied => second.over_sound,
                        false => due(second),
                    };
                    let message = second.numbered(next).expected_by(&world);
                    gives(both, &mut world, &message, due)?;
                }
            }
        }
    }
    Ok(())
}

/// Begins a session and opens it, with the first number of its own and the centre's.
fn opened(both: &mut Both, scene: &mut Scene, world: &mut World, first: (u16, u16)) -> Step {
    let (own, centre) = (scene.names.own, scene.names.centre);
    let identities = (u32::from_be_bytes(own), u32::from_be_bytes(centre));
    both.begin(world, identities, first.0, &OUTPUT)?;
    let transaction = scene.random.pick(&[0, 1, u32::MAX]);
    let header = Header {
        transaction,
        ..scene.header_with(first.1)
    };
    let init = wire::message(&header, kind::SESSION_INIT, &wire::init_body(&[2], 255));
    gives(both, world, &init, Due::NoReply)
}

/// All orders of three numbers, each message answered 0, 1 or 6 where it is not repeated: a number
/// is compared with the one before it and with no other.
fn three_messages(both: &mut Both, edition: Edition, seed: u64) -> Step {
    let mut scene = Scene::new(edition, seed ^ 66);
    let any = scene.random.u32();
    let numbers = [any, !any, 0];
    let cases = scene.right_cases();
    let (delete, other) = (&cases[DELETE], &cases[OTHER]);
    for chain in 0..27 * 27 {
        let mut world = scene.world(CLOSED);
        opened(both, &mut scene, &mut world, (9, 99))?;
        let mut before = None;
        for place in 0..3 {
            let digit = |base: usize| base / 3usize.pow(place) % 3;
            let number = numbers[digit(chain % 27)];
            let (case, is_sound) =
                [(delete, true), (other, true), (delete, false)][digit(chain / 27)];
            let due = match (before == Some(number), is_sound) {
                (true, _) => Due::Response(REPEATED),
                (false, true) => case.over_sound,
                (false, false) => case.over_unsound,
            };
            let message = case.numbered(number).expected_by(&world);
            if !is_sound {
                spoil_store(&mut world);
            }
            gives(both, &mut world, &message, due)?;
            if !is_sound {
                spoil_store(&mut world);
            }
            if due == Due::Response(REPEATED) {
                break;
            }
            before = Some(number);
        }
    }
    Ok(())
}

/// Each way to close a session: the closed one takes nothing more, and in the next the number of
/// the message that closed it, and the one that was remembered, are taken, each as the first.
fn sessions_in_turn(both: &mut Both, edition: Edition, seed: u64) -> Step {
    let mut scene = Scene::new(edition, seed ^ 67);
    let cases = scene.cases();
    let (delete, end) = (&cases[DELETE], &cases[END]);
    let wrong = delete.with_wrong_body(&[0, 0]);
    for (closing, fault, due) in [
        (delete, None, Due::Response(REPEATED)),
        (end, None, Due::Response(REPEATED)),
        (end, None, Due::NoReply),
        (&wrong, None, Due::Response(11)),
        (delete, Some(0), Due::Response(2)),
        (delete, Some(1), Due::Response(5)),
        (delete, Some(2), Due::Response(4)),
        (delete, Some(3), Due::Response(3)),
        (delete, Some(4), Due::Response(9)),
    ] {
        for held in [scene.random.u32(), 0] {
            let repeats = due == Due::Response(REPEATED);
            let of_closing = if repeats { held } else { held ^ 1 << 31 };
            for number in [held, of_closing, !held] {
                for is_begun in [true, false] {
                    let mut world = scene.world(CLOSED);
                    opened(both, &mut scene, &mut world, (1, 1))?;
                    let message = delete.numbered(held).expected_by(&world);
                    gives(both, &mut world, &message, Due::Response(0))?;
                    let message = closing.numbered(of_closing).expected_by(&world);
                    let faults = fault.map_or(0, |bit| 1 << bit);
                    let message = with_faults(&mut scene.random, &message, faults);
                    gives(both, &mut world, &message, due)?;
                    let message = delete.numbered(number).expected_by(&world);
                    gives(both, &mut world, &message, Due::Refusal(H3))?;
                    if is_begun {
                        opened(both, &mut scene, &mut world, (1, 1))?;
                    } else {
                        // A host that keeps the bytes of a closed session: opening forgets too.
                        world.session[0] = WAITING;
                        gives(both, &mut world, &cases[INIT].message, Due::NoReply)?;
                    }
                    let message = delete.numbered(number).expected_by(&world);
                    gives(both, &mut world, &message, Due::Response(0))?;
                    let message = delete.numbered(number).expected_by(&world);
                    gives(both, &mut world, &message, Due::Response(REPEATED))?;
                }
            }
        }
    }
    Ok(())
}

/// Three messages, the third with the number of the second, from sequence numbers beside the wrap.
fn beside_the_wrap(both: &mut Both, edition: Edition, seed: u64) -> Step {
    const NUMBERS: [u16; 6] = [65532, 65533, 65534, 65535, 0, 1];
    let mut scene = Scene::new(edition, seed ^ 68);
    let cases = scene.right_cases();
    for own in NUMBERS {
        for centre in NUMBERS {
            for last in &cases[..=INIT] {
                let number = scene
                    .random
                    .pick(&[0, 1, 65535, u32::from(centre), u32::MAX]);
                let mut world = scene.world(CLOSED);
                opened(both, &mut scene, &mut world, (own, centre))?;
                for (case, number, due) in [
                    (&cases[DELETE], !number, Due::Response(0)),
                    (&cases[VALIDITIES], number, Due::Response(0)),
                    (last, number, Due::Response(REPEATED)),
                ] {
                    let message = case.numbered(number).expected_by(&world);
                    gives(both, &mut world, &message, due)?;
                }
            }
        }
    }
    Ok(())
}
