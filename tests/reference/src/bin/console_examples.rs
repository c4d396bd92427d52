//! Prints the input of an example for the console: `console_examples update`, `torn`, `yards`, `depot`, `repeated`, `convert` or `lines`.

#[path = "console_examples/connection_lines.rs"]
mod connection_lines;
#[path = "console_examples/side.rs"]
mod side;
#[path = "console_examples/two_yards.rs"]
mod two_yards;

use reference::authentication::{build, session_keys};
use reference::hex::encode;
use reference::message::{self, kind};
use reference::store::{self, Entry, KeyIdentifier, EDITION_1, EDITION_2};
use reference::{Identity, OUTPUT_LENGTH};

const TUG: Identity = [0x02, 0xe6, 0xa5, 0x41];
/// The tug of the next yard: the last digit differs.
const NEXT_TUG: Identity = [0x02, 0xe6, 0xa5, 0x42];
const CENTRE: Identity = [0x05, 0x00, 0x00, 0x17];
const RBC: Identity = [0x01, 0x00, 0x01, 0x01];
const NEXT_RBC: Identity = [0x01, 0x00, 0x01, 0x02];

/// Moments as the host brings them: year, month, day, hour, so that their numbers stand in the order of time.
const START: [u8; 4] = [0x26, 0x01, 0x01, 0x00];
const END: [u8; 4] = [0x26, 0x12, 0x31, 0x23];
const NOON: [u8; 4] = [0x26, 0x11, 0x15, 0x12];
const HOUR_LATER: [u8; 4] = [0x26, 0x11, 0x15, 0x13];

/// The longest line that the console reads.
const LINE: usize = 76_100;

const RA: [u8; 8] = [0x11, 0x22, 0x33, 0x44, 0x55, 0x66, 0x77, 0x88];
const RB: [u8; 8] = [0x99, 0xaa, 0xbb, 0xcc, 0xdd, 0xee, 0xff, 0x00];

fn main() {
    let name = std::env::args().nth(1).unwrap_or_default();
    match name.as_str() {
        "update" => update(),
        "torn" => torn(),
        "yards" => yards(),
        "depot" => depot(),
        "repeated" => repeated(),
        "convert" => convert(),
        "lines" => lines(),
        _ => {
            eprintln!("console_examples update|torn|yards|depot|repeated|convert|lines");
            std::process::exit(2);
        }
    }
}

// ---- what a key centre sends

/// The centre's side of a session: the numbers of its next message.
struct Session {
    tug: Identity,
    number: u16,
    transaction: u32,
}

impl Session {
    /// Begins on both sides, and opens.
    fn open(tug: Identity, own: u16, number: u16) -> Session {
        println!("begin {} {} {own}", encode(&tug), encode(&CENTRE));
        say(&message::session_init(tug, CENTRE, number));
        Session {
            tug,
            number: number.wrapping_add(1),
            transaction: 1,
        }
    }

    /// The next message of a type.
    fn message(&mut self, kind: u8, body: &[u8]) -> Vec<u8> {
        let bytes = message::assemble(self.tug, CENTRE, self.transaction, self.number, kind, body);
        self.number = self.number.wrapping_add(1);
        self.transaction = self.transaction.wrapping_add(1);
        bytes
    }

    fn send(&mut self, kind: u8, body: &[u8]) {
        say(&self.message(kind, body));
    }

    /// The next message with a transaction number out of turn.
    fn send_numbered(&mut self, transaction: u32, kind: u8, body: &[u8]) {
        let in_turn = self.transaction;
        self.transaction = transaction;
        let message = self.message(kind, body);
        self.transaction = in_turn;
        say(&message);
    }

    fn end(mut self) {
        self.send(kind::END_OF_UPDATE, &[]);
    }
}

fn say(message: &[u8]) {
    println!("message {}", encode(message));
}

/// The KMAC of a key, every byte of odd parity.
fn kmac(serial: u32) -> [u8; 24] {
    std::array::from_fn(|i| {
        let byte = (serial as usize * 83 + i * 37 + 5) as u8;
        byte ^ u8::from(byte.count_ones() % 2 == 0)
    })
}

fn identifier(serial: u32) -> Vec<u8> {
    [&CENTRE[..], &serial.to_be_bytes()].concat()
}

fn peers(list: &[Identity]) -> Vec<u8> {
    let mut bytes = (list.len() as u16).to_be_bytes().to_vec();
    bytes.extend(list.concat());
    bytes
}

/// K-STRUCT (000, 5.3.4.1).
fn key(serial: u32, recipient: Identity, kmac: &[u8; 24], list: &[Identity]) -> Vec<u8> {
    let mut bytes = vec![24];
    bytes.extend(identifier(serial));
    bytes.extend(recipient);
    bytes.extend(kmac);
    bytes.extend(peers(list));
    bytes.extend(START);
    bytes.extend(END);
    bytes
}

fn requests(list: &[Vec<u8>]) -> Vec<u8> {
    let mut bytes = (list.len() as u16).to_be_bytes().to_vec();
    bytes.extend(list.concat());
    bytes
}

/// K-VALIDITY (000, 5.3.7.1): ends at noon.
fn until_noon(serial: u32) -> Vec<u8> {
    [&identifier(serial)[..], &START, &NOON].concat()
}

/// K-ENTITIES (000, 5.3.8.1).
fn entities(serial: u32, list: &[Identity]) -> Vec<u8> {
    [identifier(serial), peers(list)].concat()
}

// ---- what the bench asks

fn search(peer: Identity, t: [u8; 4]) {
    println!("search {} {}", encode(&peer), encode(&t));
}

/// A random number that is easily seen in a unit.
fn number(digit: u8) -> [u8; 8] {
    std::array::from_fn(|i| digit << 4 | i as u8)
}

fn keys(place: usize) {
    println!("keys {place} {} {}", encode(&RA), encode(&RB));
}

/// The three bytes of an identity behind its type.
fn destination(identity: Identity) -> [u8; 3] {
    [identity[1], identity[2], identity[3]]
}

fn build_line(to: Identity, direction: u8, user: &[u8]) {
    println!(
        "build {} {direction} {}",
        encode(&destination(to)),
        encode(user)
    );
}

fn check_line(to: Identity, direction: u8, unit: &[u8]) {
    println!(
        "check {} {direction} {}",
        encode(&destination(to)),
        encode(unit)
    );
}

/// The unit that the second program builds under the session keys of a KMAC.
fn unit(kmac: &[u8; 24], to: Identity, direction: bool, user: &[u8]) -> Vec<u8> {
    let keys = session_keys(kmac, &RA, &RB).expect("a KMAC has 24 bytes");
    let mut out = [0; OUTPUT_LENGTH];
    let n = build(&keys, &destination(to), direction, user, &mut out).expect("user data fit");
    out[..n].to_vec()
}

// ---- the examples

fn update() {
    println!("# A key centre brings a tug its keys. The tug is 02e6a541, the centre 05000017.");
    println!("# Its host turns moments round to year, month, day, hour: their numbers stand in the order of time.");
    println!(
        "# The tug begins with the number 7 and the centre answers with its own session init."
    );
    let mut session = Session::open(TUG, 7, 100);
    additions(&mut session);
    updates(&mut session);
    unit_to_the_tug();
    println!("# End of update: the session closes, and what comes after it is refused.");
    let late = Session {
        number: session.number.wrapping_add(1),
        transaction: session.transaction + 1,
        ..session
    };
    session.end();
    late.end();
    println!("show");
}

fn additions(session: &mut Session) {
    println!("# Three keys. The second names another recipient (RESULT 5), the third is the first again (RESULT 3).");
    let first = key(1, TUG, &kmac(1), &[RBC, NEXT_RBC]);
    let other = key(2, NEXT_TUG, &kmac(2), &[RBC]);
    session.send(kind::ADD_KEYS, &requests(&[first.clone(), other, first]));
    println!("# Two more keys; a byte of the second has even parity (RESULT 4).");
    let mut even = kmac(4);
    even[23] ^= 1;
    let list = [key(3, TUG, &kmac(3), &[RBC]), key(4, TUG, &even, &[RBC])];
    session.send(kind::ADD_KEYS, &requests(&list));
    println!("show");
}

fn updates(session: &mut Session) {
    println!("# At noon on 15 November both keys fit for the radio block centre 01000101. They end alike, so the first is taken.");
    search(RBC, NOON);
    println!("# For the centre 01000102 the first key alone fits.");
    search(NEXT_RBC, NOON);
    println!(
        "# The first key now ends at that moment, its last hour; a key 9 is not held (RESULT 1)."
    );
    session.send(
        kind::UPDATE_KEY_VALIDITIES,
        &requests(&[until_noon(1), until_noon(9)]),
    );
    println!("# For the one centre the third key is now taken: it ends later.");
    search(RBC, NOON);
    println!("# For the other the first key still fits. Its end is the driver's warning: after this hour it fits no longer.");
    search(NEXT_RBC, NOON);
    println!("# An hour later the third key is still taken for the one centre, and none fits for the other.");
    search(RBC, HOUR_LATER);
    search(NEXT_RBC, HOUR_LATER);
    println!("# The third key is now for the other centre alone.");
    session.send(
        kind::UPDATE_KEY_ENTITIES,
        &requests(&[entities(3, &[NEXT_RBC])]),
    );
    search(RBC, HOUR_LATER);
    search(NEXT_RBC, HOUR_LATER);
    println!("# The first key is deleted: the third moves up to place 1.");
    session.send(kind::DELETE_KEYS, &requests(&[identifier(1)]));
    println!("show");
}

fn unit_to_the_tug() {
    println!(
        "# Session keys from it, and a unit to the tug, built here and by the second program."
    );
    keys(1);
    build_line(TUG, 0, b"proceed");
    check_line(TUG, 0, &unit(&kmac(3), TUG, false, b"proceed"));
    println!("# The same unit with the direction of an answer, and with one bit changed.");
    check_line(TUG, 1, &unit(&kmac(3), TUG, false, b"proceed"));
    let mut damaged = unit(&kmac(3), TUG, false, b"proceed");
    damaged[3] ^= 1;
    check_line(TUG, 0, &damaged);
}

fn torn() {
    println!("# A key list arrives torn. What does the module hold afterwards?");
    println!("# It holds one key. The list that follows has a second, in a message of 73 bytes.");
    let mut session = Session::open(TUG, 1, 10);
    session.send(kind::ADD_KEYS, &requests(&[key(1, TUG, &kmac(1), &[RBC])]));
    session.end();
    println!("show");
    let second = requests(&[key(2, TUG, &kmac(2), &[NEXT_RBC])]);
    for n in 1..message::HEADER_LENGTH + second.len() {
        println!("# Torn after byte {n}.");
        let whole = Session::open(TUG, 1, 10).message(kind::ADD_KEYS, &second);
        say(&whole[..n]);
        println!("show");
    }
    println!("# The whole message.");
    Session::open(TUG, 1, 10).send(kind::ADD_KEYS, &second);
    println!("show");
}

fn yards() {
    println!("# A day at two yards. The tug here is 02e6a541, that of the next yard is 02e6a542.");
    let mut session = Session::open(TUG, 1, 500);
    session.send(kind::ADD_KEYS, &requests(&[key(1, TUG, &kmac(1), &[RBC])]));
    println!("# A key for the tug of the next yard, in a message to this one: RESULT 5, and it is not held.");
    session.send(
        kind::ADD_KEYS,
        &requests(&[key(2, NEXT_TUG, &kmac(2), &[RBC])]),
    );
    println!("show");
    println!("# A message for the tug of the next yard: RESPONSE 4, and the session closes.");
    let mut next = Session {
        tug: NEXT_TUG,
        ..session
    };
    next.send(kind::DELETE_KEYS, &requests(&[identifier(1)]));
    println!("show");
    println!("# A session init for the tug of the next yard does not open a session here.");
    println!("begin {} {} 1", encode(&TUG), encode(&CENTRE));
    say(&message::session_init(NEXT_TUG, CENTRE, 500));
    println!("# The search finds the key for this yard's radio block centre, and none for the next yard's.");
    search(RBC, NOON);
    search(NEXT_RBC, NOON);
    println!("# A unit for the tug of the next yard, under the same keys, is not for this one.");
    keys(1);
    let order = unit(&kmac(1), NEXT_TUG, false, b"clear the siding");
    check_line(NEXT_TUG, 0, &order);
    check_line(TUG, 0, &order);
    println!("# The same order for this tug.");
    build_line(TUG, 0, b"clear the siding");
    check_line(TUG, 0, &unit(&kmac(1), TUG, false, b"clear the siding"));
    two_yards::connections();
}

/// The railways of the border depot: the second byte of their radio block centres.
const FIRST_RAILWAY: u8 = 0x00;
const SECOND_RAILWAY: u8 = 0x40;

/// The radio block centre of a railway whose last two digits are those of the decimal number.
fn centre_of(railway: u8, number: u32) -> Identity {
    let digits = number / 10 * 16 + number % 10;
    [0x01, railway, 0x01, digits as u8]
}

/// Keys with these serials for the tug, each for the radio block centre of its number in each railway.
fn keys_for(railways: &[u8], serials: std::ops::RangeInclusive<u32>) -> Vec<u8> {
    let of = |serial| {
        let list: Vec<Identity> = railways.iter().map(|&r| centre_of(r, serial)).collect();
        key(serial, TUG, &kmac(serial), &list)
    };
    requests(&serials.map(of).collect::<Vec<_>>())
}

fn depot() {
    println!("# A border depot. Its tug 02e6a541 runs on the lines of two railways, and 64 keys are too few.");
    println!("# The radio block centres of the first are 010001nn, those of the second 014001nn, nn being the number of their key in decimal; show prints serials in hex.");
    println!(
        "# Edition 1 of the store takes 64 keys. The centre 05000017 brings them in one message."
    );
    let mut session = Session::open(TUG, 1, 200);
    session.send(kind::ADD_KEYS, &keys_for(&[FIRST_RAILWAY], 1..=64));
    println!("# For key 65 there is no room (RESULT 2), and a search for its radio block centre finds no key.");
    session.send(kind::ADD_KEYS, &keys_for(&[SECOND_RAILWAY], 65..=65));
    search(centre_of(SECOND_RAILWAY, 65), NOON);
    session.end();
    println!("# Edition 2 takes 500 keys and 4000 peers. Its store is empty at first, so the centre brings all keys anew.");
    println!("edition 2");
    more_keys(Session::open(TUG, 1, 300));
}

fn more_keys(mut session: Session) {
    println!(
        "# Keys 1 to 40 are for the first railway, keys 41 to 75 now for both: 75 keys and 110 peers."
    );
    session.send(kind::ADD_KEYS, &keys_for(&[FIRST_RAILWAY], 1..=40));
    let both = [FIRST_RAILWAY, SECOND_RAILWAY];
    session.send(kind::ADD_KEYS, &keys_for(&both, 41..=75));
    println!("# Key 65 and the last one fit for the second railway; key 40 is not for it.");
    search(centre_of(SECOND_RAILWAY, 65), NOON);
    search(centre_of(SECOND_RAILWAY, 75), NOON);
    search(centre_of(SECOND_RAILWAY, 40), NOON);
    println!("# Session keys from the last key, and a unit to the tug, built here and by the second program.");
    keys(75);
    build_line(TUG, 0, b"cross the border");
    check_line(TUG, 0, &unit(&kmac(75), TUG, false, b"cross the border"));
    println!("# Key 10 is deleted: those behind it move up, and the last one is now at place 74.");
    session.send(kind::DELETE_KEYS, &requests(&[identifier(10)]));
    search(centre_of(SECOND_RAILWAY, 75), NOON);
    println!("show");
    println!("# End of update: the session closes, and the store keeps its keys.");
    session.end();
    search(centre_of(SECOND_RAILWAY, 65), NOON);
}

fn repeated() {
    println!(
        "# A key centre repeats a transaction number. The tug is 02e6a541, the centre 05000017."
    );
    println!("# Two transactions in a row must have different numbers. The first of a session has nothing to differ from.");
    let mut session = Session::open(TUG, 1, 100);
    println!("show");
    println!("# Transaction 1: two keys.");
    let list = [
        key(1, TUG, &kmac(1), &[RBC]),
        key(2, TUG, &kmac(2), &[NEXT_RBC]),
    ];
    session.send(kind::ADD_KEYS, &requests(&list));
    println!("# Transaction 2: the first key is deleted.");
    session.send(kind::DELETE_KEYS, &requests(&[identifier(1)]));
    println!("show");
    println!("# The centre has missed the reply and sends the command again, with the next sequence number but the number 2 once more: RESPONSE 10.");
    session.send_numbered(2, kind::DELETE_KEYS, &requests(&[identifier(1)]));
    println!("# The session is closed, and the store is as it was. Whatever comes now is refused.");
    println!("show");
    session.send(kind::DELETE_KEYS, &requests(&[identifier(2)]));
    let session = in_a_new_session();
    second_session_init(session);
    repeated_end();
}

fn in_a_new_session() -> Session {
    println!("# A new session remembers no number: transaction 2 is taken as its first. The first key was deleted before (RESULT 1).");
    let mut session = Session::open(TUG, 1, 200);
    println!("show");
    session.send_numbered(2, kind::DELETE_KEYS, &requests(&[identifier(1)]));
    println!("# Transaction 3, and 2 again: only the last number is looked at.");
    let third = requests(&[key(3, TUG, &kmac(3), &[RBC])]);
    session.send_numbered(3, kind::ADD_KEYS, &third);
    session.send_numbered(2, kind::DELETE_KEYS, &requests(&[identifier(2)]));
    println!("show");
    session
}

fn second_session_init(mut session: Session) {
    println!("# A second session init in the open session is no command (RESPONSE 1). Its number 0 is remembered like any other.");
    session.send_numbered(0, kind::SESSION_INIT, &[1, 2, 255]);
    println!("show");
    println!("# A third one repeats the number 0: RESPONSE 10.");
    session.send_numbered(0, kind::SESSION_INIT, &[1, 2, 255]);
    println!("show");
}

fn repeated_end() {
    println!("# Transaction 1: the third key ends at noon. The end of update repeats its number: RESPONSE 10. The update is kept, and the session closed.");
    let mut session = Session::open(TUG, 1, 300);
    let until = requests(&[until_noon(3)]);
    session.send(kind::UPDATE_KEY_VALIDITIES, &until);
    session.send_numbered(1, kind::END_OF_UPDATE, &[]);
    println!("show");
    println!("# With the number 0, which SUBSET-137 gives it, the end of update closes the session and has no reply.");
    let mut session = Session::open(TUG, 1, 400);
    session.send(kind::UPDATE_KEY_VALIDITIES, &until);
    session.send_numbered(0, kind::END_OF_UPDATE, &[]);
    println!("show");
}

fn convert() {
    println!("# A depot changes over to edition 2 of the store, and back, and its keys go with it. Its tug is 02e6a541, the centre 05000017.");
    println!("# The radio block centre of key nn is 010001nn at first, nn being the number in decimal; show prints serials in hex.");
    println!("# The store is of edition 1. The centre brings three keys.");
    let mut session = Session::open(TUG, 1, 100);
    session.send(kind::ADD_KEYS, &keys_for(&[FIRST_RAILWAY], 1..=3));
    println!("# Until when does key 2 fit?");
    search(centre_of(FIRST_RAILWAY, 2), NOON);
    println!("# The store becomes one of edition 2, with the same records in the same order.");
    println!("convert\nshow");
    println!("# The same search has the same answer, and under session keys from there a unit of the radio block centre is accepted.");
    search(centre_of(FIRST_RAILWAY, 2), NOON);
    keys(2);
    check_line(TUG, 0, &unit(&kmac(2), TUG, false, b"proceed"));
    println!("# Back in edition 1 the search has the same answer too.");
    println!("convert");
    search(centre_of(FIRST_RAILWAY, 2), NOON);
    println!("show");
    too_many_keys(&mut session);
    too_many_peers(&mut session);
    session.end();
    unsound_source();
}

fn too_many_keys(session: &mut Session) {
    println!("# In edition 2 there is room for keys 4 to 65. The session is the one begun before, and takes the next message.");
    println!("convert");
    session.send(kind::ADD_KEYS, &keys_for(&[FIRST_RAILWAY], 4..=65));
    println!("# Edition 1 takes 64 keys, and 65 are held: H14. The store is still of edition 2, and holds key 65 at place 65.");
    println!("convert");
    search(centre_of(FIRST_RAILWAY, 65), NOON);
    println!("# Key 1 is deleted: 64 are left, and the last one is at place 64 in either edition.");
    session.send(kind::DELETE_KEYS, &requests(&[identifier(1)]));
    search(centre_of(FIRST_RAILWAY, 65), NOON);
    println!("convert");
    search(centre_of(FIRST_RAILWAY, 65), NOON);
}

/// From 64 keys with one peer each.
fn too_many_peers(session: &mut Session) {
    println!("# Edition 1 takes 256 peers. Key 2 shall be for 194 radio block centres; with those of the other keys that would be 257: RESULT 255.");
    let list: Vec<Identity> = (1..=194).map(|n| [0x01, SECOND_RAILWAY, 0x01, n]).collect();
    let of_many = requests(&[entities(2, &list)]);
    session.send(kind::UPDATE_KEY_ENTITIES, &of_many);
    println!("# In edition 2 the same request has RESULT 0, and then there is no way back: H14.");
    println!("convert");
    session.send(kind::UPDATE_KEY_ENTITIES, &of_many);
    println!("convert");
    println!("# Key 3 with its one peer is deleted: 63 keys and 256 peers. The last radio block centre of key 2 is found before and after.");
    session.send(kind::DELETE_KEYS, &requests(&[identifier(3)]));
    search(list[193], NOON);
    println!("convert");
    search(list[193], NOON);
}

fn unsound_source() {
    println!("# A store that says it holds one key and has none is unsound: H12. It stays as it is, and of edition 1.");
    let mut bytes = store::encode(EDITION_1, &[]);
    bytes[3] = 1;
    store_line(&bytes);
    println!("convert\nshow");
    println!("# The empty store is sound.");
    println!("empty\nconvert\nshow");
}

/// Every command and every answer of the console, in few lines.
fn lines() {
    println!("# Every command, and what is said of a line that is not read.\n");
    println!("help\n \t \r\nhelp me\nHelp\nbegin 02e6a541 05000017");
    println!("begin 02e6a541 05000017 1 2\nbegin 02e6a54 05000017 1\nbegin 02e6a54g 05000017 1");
    println!("begin 02e6a541 05000017 1x\nbegin 02e6a541 05000017 65536");
    println!("begin 02e6a541 05000017 00000000000000001\nbegin 02e6a541 02E6A541 1");
    println!("message 00\nmessage\nmessage 0\nmessage 0x\nsearch 01000101 26111512\nsearch 01000101 2611151");
    println!(
        "keys 1 1122334455667788 99aabbccddeeff00\nkeys 1 11223344 99aabbccddeeff00\nkeys -1 0 0"
    );
    println!(
        "build e6a541 0 00\ncheck e6a541 0 00\nbuild e6a541 2 00\ncheck e6a5 0 00\nshow\nshow all"
    );
    connection_lines::faults();
    waiting();
    commands();
    responses();
    units();
    connection_lines::events();
    editions();
    conversions();
    unsound();
    println!("{}", "x".repeat(LINE + 1));
    print!("# the end, with no line end");
}

/// A session that waits, and the longest message.
fn waiting() {
    println!("begin\t02e6a541  05000017 65535 \nshow\nmessage 00");
    say(&Session {
        tug: TUG,
        number: 1,
        transaction: 1,
    }
    .message(kind::END_OF_UPDATE, &[]));
    let mut session = Session::open(TUG, 65_535, 65_535);
    session.send(kind::SESSION_INIT, &[1, 2, 255]);
    session.send(kind::ADD_KEYS, &vec![0; 5_001 - message::HEADER_LENGTH]);
    println!("show");
}

/// The five commands and the end.
fn commands() {
    let mut session = Session::open(TUG, 1, 1);
    let list = [
        key(1, TUG, &kmac(1), &[RBC]),
        key(2, TUG, &kmac(2), &[RBC, NEXT_RBC]),
    ];
    session.send(kind::ADD_KEYS, &requests(&list));
    // Both keys fit and end alike.
    search(RBC, NOON);
    session.send(kind::UPDATE_KEY_VALIDITIES, &requests(&[until_noon(1)]));
    session.send(
        kind::UPDATE_KEY_ENTITIES,
        &requests(&[entities(1, &[NEXT_RBC, TUG])]),
    );
    println!("show");
    search(RBC, NOON);
    // Both fit, and the second ends later.
    search(NEXT_RBC, NOON);
    // The first key is in its last hour, then past it.
    search(TUG, NOON);
    search(TUG, HOUR_LATER);
    keys(3);
    keys(0);
    keys(2);
    session.send(
        kind::DELETE_KEYS,
        &requests(&[identifier(1), identifier(1)]),
    );
    session.send(kind::DELETE_ALL_KEYS, &[]);
    println!("show");
    session.end();
}

/// Each RESPONSE that closes the session, over the empty store. The length is wrong elsewhere.
fn responses() {
    // The last bytes of version, receiver, sender and sequence number.
    for at in [4, 8, 12, 18] {
        let mut session = Session::open(TUG, 1, 1);
        session.send(kind::DELETE_ALL_KEYS, &[]);
        let mut faulty = session.message(kind::DELETE_ALL_KEYS, &[]);
        faulty[at] ^= 1;
        say(&faulty);
        println!("show");
    }
    let mut session = Session::open(TUG, 1, 1);
    session.send(kind::DELETE_ALL_KEYS, &[0]);
    println!("show");
    for transaction in [0, u32::MAX] {
        let mut session = Session::open(TUG, 1, 1);
        println!("show");
        session.send_numbered(transaction, kind::DELETE_ALL_KEYS, &[]);
        println!("show");
        session.send_numbered(transaction, kind::DELETE_ALL_KEYS, &[]);
        println!("show");
    }
}

/// Units under the session keys that are held, the store being empty.
fn units() {
    build_line(TUG, 1, &[0xab; 1_023]);
    build_line(TUG, 1, &[0xab; 1_024]);
    check_line(TUG, 1, &[0; 8]);
    let mut right = unit(&kmac(2), TUG, true, &[1, 2, 3]);
    check_line(TUG, 1, &right);
    check_line(TUG, 0, &right);
    right[0] ^= 0x80;
    check_line(TUG, 1, &right);
}

/// The edition chosen: the session and the session keys held stay.
fn editions() {
    let mut session = Session::open(TUG, 1, 1);
    let one = requests(&[key(1, TUG, &kmac(1), &[RBC])]);
    session.send(kind::ADD_KEYS, &one);
    println!("edition 2\nshow");
    check_line(TUG, 1, &unit(&kmac(2), TUG, true, &[1, 2, 3]));
    session.send(kind::ADD_KEYS, &one);
    println!("show\nempty\nshow\nedition 1\nshow");
    println!("edition 0\nedition 3\nedition x\nedition -1\nedition\nedition 1 2");
    println!("edition 00000000000000002\nedition 0000000000000002");
    large_stores(session);
}

/// Stores of 38,012 bytes and near it, and the longest line.
fn large_stores(mut session: Session) {
    let list = [
        held(2, &[RBC, NEXT_RBC]),
        held_until(10, 3, &[TUG]),
        held_until(u32::MAX, 4, &[NEXT_RBC]),
    ];
    let mut bytes = store::encode(EDITION_2, &list);
    store_line(&bytes);
    println!("show");
    search(NEXT_RBC, NOON);
    // An end of one digit that is not zero.
    search(TUG, [0, 0, 0, 10]);
    keys(1);
    connection_lines::over_edition_2(&bytes);
    put_header(&mut bytes, &store::encode(EDITION_1, &[]));
    store_line(&bytes);
    println!("show\nconvert");
    search(NEXT_RBC, NOON);
    keys(1);
    session.send(kind::DELETE_KEYS, &requests(&[identifier(2)]));
    session.send(kind::DELETE_ALL_KEYS, &[]);
    println!("show");
    store_line(&bytes[1..]);
    let longest = (LINE - "message ".len()) / 2;
    session.send(kind::ADD_KEYS, &vec![0; longest - message::HEADER_LENGTH]);
    println!("show");
}

/// The store made one of the other edition, and back: the session and the session keys held stay.
fn conversions() {
    println!("convert x\nconvert 1 2\nConvert\nedition 1\nconvert\nshow\n convert \nshow");
    let mut session = Session::open(TUG, 1, 1);
    let list = [
        key(1, TUG, &kmac(1), &[RBC]),
        key(2, TUG, &kmac(2), &[RBC, NEXT_RBC]),
    ];
    session.send(kind::ADD_KEYS, &requests(&list));
    println!("show\nconvert\nshow");
    search(NEXT_RBC, NOON);
    check_line(TUG, 1, &unit(&kmac(2), TUG, true, &[1, 2, 3]));
    keys(1);
    no_room(&mut session);
    println!("show");
    check_line(TUG, 1, &unit(&kmac(1), TUG, true, &[1, 2, 3]));
    session.end();
}

/// Two keys are held in edition 2: 65 keys, 257 peers, and both, are too many for edition 1.
fn no_room(session: &mut Session) {
    session.send(kind::ADD_KEYS, &keys_for(&[FIRST_RAILWAY], 3..=65));
    println!("convert");
    search(NEXT_RBC, NOON);
    session.send(
        kind::UPDATE_KEY_ENTITIES,
        &requests(&[entities(2, &[TUG; 193])]),
    );
    println!("convert");
    let added: Vec<Vec<u8>> = (3..=65).map(identifier).collect();
    session.send(kind::DELETE_KEYS, &requests(&added));
    session.send(
        kind::UPDATE_KEY_ENTITIES,
        &requests(&[entities(2, &[TUG; 256])]),
    );
    println!("convert");
    session.send(
        kind::UPDATE_KEY_ENTITIES,
        &requests(&[entities(2, &[NEXT_RBC])]),
    );
    println!("convert");
    search(NEXT_RBC, NOON);
}

/// An entry as the centre would add it.
fn held(serial: u32, list: &[Identity]) -> Entry {
    Entry {
        key: KeyIdentifier {
            issuer: CENTRE,
            serial: serial.to_be_bytes(),
        },
        kmac: kmac(serial),
        start: u32::from_be_bytes(START),
        end: u32::from_be_bytes(END),
        peers: list.to_vec(),
    }
}

/// An entry that fits from the first moment of all to this end.
fn held_until(end: u32, serial: u32, list: &[Identity]) -> Entry {
    let start = 0;
    Entry {
        start,
        end,
        ..held(serial, list)
    }
}

fn store_line(bytes: &[u8]) {
    println!("store {}", encode(bytes));
}

/// Edition, offset of peers and length of another store; the counts stay.
fn put_header(bytes: &mut [u8], other: &[u8]) {
    for part in [0..2, 8..12] {
        bytes[part.clone()].copy_from_slice(&other[part]);
    }
}

/// Stores of 3,852 bytes that are not sound: key count 1 and the first record zero, then the header of edition 2.
fn unsound() {
    let mut bytes = store::encode(EDITION_1, &[]);
    store_line(&bytes);
    println!("show");
    bytes[3] = 1;
    store_line(&bytes);
    println!("show\nconvert\nshow");
    search(RBC, NOON);
    keys(1);
    connection_lines::over_unsound(&bytes);
    let mut session = Session::open(TUG, 1, 1);
    session.send(kind::DELETE_KEYS, &requests(&[identifier(1)]));
    println!("store 00\nempty\nshow");
    let mut bytes = store::encode(EDITION_1, &[]);
    put_header(&mut bytes, &store::encode(EDITION_2, &[]));
    store_line(&bytes);
    println!("show\nconvert");
    search(RBC, NOON);
    session.send(kind::DELETE_KEYS, &requests(&[identifier(1)]));
    session.send(kind::DELETE_ALL_KEYS, &[]);
    println!("show");
}
