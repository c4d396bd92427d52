//! The second part of `yards`: connections are set up, used and released, and refused.

use crate::side::{Side, AR, AU3, DT};
use crate::{entities, held, identifier, number, requests, Session};
use crate::{NEXT_RBC, NEXT_TUG, RBC, TUG};
use reference::message::kind;
use reference::store::{self, EDITION_1};

pub fn connections() {
    println!("# Connections, both sides at the bench: a is the tug here, b this yard's radio block centre 01000101. What one sends is brought to the other.");
    println!("# The states are those of SUBSET-037-2: WFTC waits for the transport connection, WFAU3 for the unit AU3, WFRESP for the user, WFAR for the unit AR.");
    println!("# Both sides look into the one store, so key 1 is now for the tug too; and it serves the radio block centres of both yards.");
    let list = [RBC, NEXT_RBC, TUG];
    let mut session = Session::open(TUG, 1, 600);
    session.send(kind::UPDATE_KEY_ENTITIES, &requests(&[entities(1, &list)]));
    let store = store::encode(EDITION_1, &[held(1, &list)]);
    let mut tug = Side::new('a', TUG, &store);
    let mut centre = Side::new('b', RBC, &store);
    let last = set_up(&mut tug, &mut centre);
    talk(&mut tug, &mut centre);
    replayed(&mut tug, &mut centre, &last);
    not_set_up(&mut tug);
    let mut next = next_yard(&mut tug, &store);
    key_deleted(&mut tug, &mut next, session);
}

/// Gives the unit that ended it, AR.
fn set_up(tug: &mut Side, centre: &mut Side) -> Vec<u8> {
    println!("# The tug calls. Its first unit, AU1, says who it is and brings a random number. The host runs a timer until the connection stands.");
    let first = tug.call(RBC, number(0xb));
    println!("# The radio block centre answers with a random number of its own. Of key 1 and the two numbers it makes the session key, and the MAC of its unit, AU2, is made with that.");
    let second = centre.indicate(number(0xa), &first);
    println!("# The tug makes the same session key and finds the MAC right. Its own MAC, in AU3, shows that it has the session key too.");
    let third = tug.confirm(&second);
    println!("# Only now is the user of the radio block centre told who calls. It accepts, and the answer is AR.");
    centre.bring(AU3, &third);
    let last = centre.respond();
    println!("# With AR the connection stands on both sides, and the timer is stopped.");
    tug.bring(AR, &last);
    last
}

fn talk(tug: &mut Side, centre: &mut Side) {
    println!("# User data in both directions: \"ready\" and \"clear the siding\".");
    let ready = tug.say(b"ready");
    centre.bring(DT, &ready);
    let order = centre.say(b"clear the siding");
    tug.bring(DT, &order);
    println!("# One bit of the order is changed: its MAC is wrong (4/1). That is reported, no data go up, and the connection stays.");
    let mut damaged = order.clone();
    damaged[3] ^= 1;
    tug.bring(DT, &damaged);
    println!("# The tug's own unit comes back to it: its MAC is for the radio block centre, and wrong here.");
    tug.bring(DT, &ready);
}

fn replayed(tug: &mut Side, centre: &mut Side, last: &[u8]) {
    println!("# AR once more, though its MAC is right: a replay (5/1). The tug closes and says why in a unit DI, and the radio block centre's user is told.");
    let why = tug.bring(AR, last);
    centre.end(&why);
}

fn not_set_up(tug: &mut Side) {
    println!("# The tug calls the tug of the next yard, for which it has no key: refused, and nothing is sent.");
    tug.call(NEXT_TUG, number(0xd));
    println!("# It calls its radio block centre and no answer comes: the timer ends (7/3).");
    tug.call(RBC, number(0xd));
    tug.late();
}

/// Gives the side of the next yard.
fn next_yard<'s>(tug: &mut Side<'s>, store: &'s [u8]) -> Side<'s> {
    println!("# The tug calls its radio block centre 01000101 again, and the next yard's, 01000102, answers. b is now that one.");
    let mut next = Side::new('b', NEXT_RBC, store);
    let first = tug.call(RBC, number(0xf));
    let second = next.indicate(number(0xe), &first);
    println!("# Key 1 serves both, so the MAC of this answer is right. But it is not from the one that was called: 8/4, for the last digit of the identity.");
    tug.confirm(&second);
    println!("# That its MAC is right is seen here: the tug calls 01000102 itself, with the same random number, and the same unit is the right answer. b still waits, and set-up ends as before.");
    tug.call(NEXT_RBC, number(0xf));
    let third = tug.confirm(&second);
    next.bring(AU3, &third);
    let last = next.respond();
    tug.bring(AR, &last);
    next
}

fn key_deleted(tug: &mut Side, next: &mut Side, mut session: Session) {
    println!("# The key centre deletes key 1. The connection that stands goes on: \"proceed\".");
    session.send(kind::DELETE_KEYS, &requests(&[identifier(1)]));
    session.end();
    let order = next.say(b"proceed");
    tug.bring(DT, &order);
    println!("# The tug's user releases it. Reason 0 is the normal one, and sub-reason 7 the user's own; the other user is told both.");
    let why = tug.release(0, 7);
    next.end(&why);
    println!("# For the next call there is no key.");
    let store = store::encode(EDITION_1, &[]);
    tug.over(&store).call(NEXT_RBC, number(0xc));
}
