//! A second console: reads the lines that crates/console reads, and prints what it must print.

#[path = "console/connections.rs"]
mod connections;

use connections::Connections;
use reference::authentication::{build, check, session_keys};
use reference::conversion::{to_edition_1, to_edition_2};
use reference::hex::encode;
use reference::message::response;
use reference::session::{begin, receive, Answer, Session, CLOSED, OPEN, WAITING};
use reference::store::{self, decode, find, Edition, Found, EDITIONS, EDITION_1, EDITION_2};
use reference::{Identity, OUTPUT_LENGTH};
use std::io::Read;
use std::ops::RangeInclusive;

/// The longest line.
const LINE: usize = 76_100;

const USAGE: [(&str, &str); 23] = [
    (
        "begin",
        "begin OWN PEER NUMBER (identities of 8 hex digits, NUMBER 0 to 65535)",
    ),
    ("message", "message HEX (two hex digits a byte)"),
    ("search", "search PEER T (8 hex digits each)"),
    (
        "keys",
        "keys PLACE RA RB (PLACE 0 to 65535, the first being 1; random numbers of 16 hex digits)",
    ),
    (
        "build",
        "build DESTINATION DIRECTION DATA (6 hex digits, 0 or 1, two hex digits a byte)",
    ),
    (
        "check",
        "check DESTINATION DIRECTION UNIT (6 hex digits, 0 or 1, two hex digits a byte)",
    ),
    (
        "connection",
        "connection NAME IDENTITY (a or b, 8 hex digits: makes it idle)",
    ),
    (
        "call",
        "call NAME PEER T RB (a or b, 8 hex digits each, random number of 16)",
    ),
    (
        "indicate",
        "indicate NAME T RA UNIT (a or b, 8 and 16 hex digits, two hex digits a byte)",
    ),
    (
        "confirm",
        "confirm NAME UNIT (a or b, two hex digits a byte)",
    ),
    (
        "bring",
        "bring NAME KIND UNIT (a or b; 1 is AU3, 2 AR, 3 DT; two hex digits a byte)",
    ),
    ("respond", "respond NAME (a or b)"),
    ("say", "say NAME DATA (a or b, two hex digits a byte)"),
    ("release", "release NAME REASON SUB (a or b, 0 to 255 each)"),
    ("lost", "lost NAME REASON (a or b, 0 to 255)"),
    ("end", "end NAME UNIT (a or b, two hex digits a byte)"),
    ("late", "late NAME (a or b)"),
    (
        "store",
        "store HEX (3852 or 38012 bytes, two hex digits a byte)",
    ),
    ("edition", "edition N (1 or 2: makes the empty store of it)"),
    (
        "convert",
        "convert (makes the store one of the other edition)",
    ),
    ("show", "show"),
    ("empty", "empty"),
    ("help", "help"),
];

/// The reason of each refusal, H1 first.
const REASONS: [&str; 14] = [
    "store has the length of no edition",
    "output under 1032 bytes",
    "session is closed",
    "message shorter than a header",
    "no valid session init",
    "own identity is the peer's",
    "unit is not 9 to 1032 bytes",
    "MAC differs",
    "no user data, or ETY, MTI or direction wrong",
    "user data not 1 to 1023 bytes",
    "no key fits",
    "store is unsound",
    "key is not 24 bytes",
    "more than 64 keys or 256 peers held",
];

/// The meaning of each RESPONSE other than 0 that the module answers.
const MEANINGS: [(u8, &str); 9] = [
    (response::NOT_SUPPORTED, "request not supported"),
    (response::LENGTH_ERROR, "message length error"),
    (response::SENDER_MISMATCH, "sender is not the peer"),
    (
        response::RECEIVER_MISMATCH,
        "receiver is not the own identity",
    ),
    (
        response::UNSUPPORTED_VERSION,
        "unsupported interface version",
    ),
    (response::UNRECOVERABLE_DATABASE, "store is unsound"),
    (
        response::SEQUENCE_MISMATCH,
        "sequence number is not the expected one",
    ),
    (
        response::TRANSACTION_MISMATCH,
        "transaction number repeated",
    ),
    (response::FORMAT_ERROR, "format error"),
];

/// What a line prints, or why it is not read.
type Said = Result<(), &'static str>;

struct Bench {
    session: Session,
    store: Vec<u8>,
    keys: Option<[u8; 24]>,
    connections: Connections,
}

fn main() {
    let mut input = Vec::new();
    std::io::stdin()
        .read_to_end(&mut input)
        .expect("standard input can be read");
    let mut lines: Vec<&[u8]> = input.split(|&byte| byte == b'\n').collect();
    if lines.last().is_some_and(|line| line.is_empty()) {
        lines.pop();
    }
    let mut bench = Bench {
        session: Session {
            state: CLOSED,
            own: [0; 4],
            peer: [0; 4],
            next: 0,
            expected: 0,
            remembered: false,
            transaction: 0,
        },
        store: store::encode(EDITION_1, &[]),
        keys: None,
        connections: Connections::NONE,
    };
    for (number, line) in lines.iter().enumerate() {
        bench.line(number + 1, line);
    }
}

fn refused(h: u8) {
    println!("refused H{h} {}", REASONS[usize::from(h) - 1]);
}

/// A number of so many hex digits, as bytes.
fn digits<const N: usize>(word: &str) -> Result<[u8; N], &'static str> {
    if !word.bytes().all(|byte| byte.is_ascii_hexdigit()) {
        return Err("not hex digits");
    }
    if word.len() != 2 * N {
        return Err("wrong number of hex digits");
    }
    Ok(reference::hex::decode(word))
}

fn bytes(word: &str) -> Result<Vec<u8>, &'static str> {
    if !word.bytes().all(|byte| byte.is_ascii_hexdigit()) {
        return Err("not hex digits");
    }
    if word.len() % 2 != 0 {
        return Err("odd number of hex digits");
    }
    let pair = |i| u8::from_str_radix(&word[i..i + 2], 16).expect("two hex digits");
    Ok((0..word.len()).step_by(2).map(pair).collect())
}

fn decimal(word: &str, range: RangeInclusive<u64>) -> Result<u64, &'static str> {
    if !word.bytes().all(|byte| byte.is_ascii_digit()) {
        return Err("not a decimal number");
    }
    if word.len() > 16 {
        return Err("number out of range");
    }
    let number: u64 = word.parse().expect("at most 16 digits");
    if !range.contains(&number) {
        return Err("number out of range");
    }
    Ok(number)
}

impl Bench {
    fn line(&mut self, number: usize, line: &[u8]) {
        if line.len() > LINE {
            println!("line {number}: line too long: expected at most {LINE} characters");
            return;
        }
        let text = String::from_utf8_lossy(line);
        if text.starts_with('#') {
            println!("{text}");
            return;
        }
        let words: Vec<&str> = text
            .split([' ', '\t', '\r'])
            .filter(|w| !w.is_empty())
            .collect();
        let Some((name, fields)) = words.split_first() else {
            return;
        };
        let Some((_, usage)) = USAGE.iter().find(|(command, _)| command == name) else {
            println!("line {number}: no such command: help lists them");
            return;
        };
        if let Err(fault) = self.command(name, fields) {
            println!("line {number}: {fault}: expected {usage}");
        }
    }

    fn command(&mut self, name: &str, fields: &[&str]) -> Said {
        let count = match name {
            "begin" | "keys" | "build" | "check" => 3,
            "search" => 2,
            "message" | "store" | "edition" => 1,
            _ => connections::fields_of(name).unwrap_or(0),
        };
        if fields.len() < count {
            return Err("too few words");
        }
        if fields.len() > count {
            return Err("too many words");
        }
        match name {
            "begin" => self.begin(fields)?,
            "message" => self.message(&bytes(fields[0])?),
            "search" => self.search(digits(fields[0])?, digits(fields[1])?),
            "keys" => self.hold(fields)?,
            "build" => self.build(
                digits(fields[0])?,
                decimal(fields[1], 0..=1)?,
                &bytes(fields[2])?,
            ),
            "check" => self.check(
                digits(fields[0])?,
                decimal(fields[1], 0..=1)?,
                &bytes(fields[2])?,
            ),
            "store" => self.take(bytes(fields[0])?),
            "edition" => self.choose(decimal(fields[0], 1..=2)?),
            "convert" => self.convert(),
            "show" => self.show(),
            "empty" => self.take_empty(),
            "help" => help(),
            _ => self.connections.line(name, fields, &self.store)?,
        }
        Ok(())
    }

    fn begin(&mut self, fields: &[&str]) -> Said {
        let own: Identity = digits(fields[0])?;
        let peer: Identity = digits(fields[1])?;
        let number = decimal(fields[2], 0..=65_535)? as u16;
        let mut out = [0; OUTPUT_LENGTH];
        match begin(own, peer, number, &mut out) {
            Ok((session, n)) => {
                self.session = session;
                println!("session init {}", encode(&out[..n]));
            }
            Err(h) => refused(h),
        }
        Ok(())
    }

    fn message(&mut self, message: &[u8]) {
        let mut out = [0; OUTPUT_LENGTH];
        let (session, answer) = receive(self.session, message, &mut self.store, &mut out);
        self.session = session;
        match answer {
            Answer::Reply(n) => reply(&out[..n]),
            Answer::Opened => println!("opened"),
            Answer::Ended => println!("ended"),
            Answer::Refused(h) => refused(h),
        }
    }

    fn search(&self, peer: Identity, t: [u8; 4]) {
        match find(&self.store, &peer, u32::from_be_bytes(t)) {
            Ok(Found { place, end }) => println!("place {place} until {end:08x}"),
            Err(h) => refused(h),
        }
    }

    fn hold(&mut self, fields: &[&str]) -> Said {
        let place = decimal(fields[0], 0..=65_535)? as usize;
        let (ra, rb) = (digits(fields[1])?, digits(fields[2])?);
        let Some(entries) = decode(&self.store) else {
            println!("store unsound");
            return Ok(());
        };
        if place == 0 || place > entries.len() {
            println!("no record at this place");
            return Ok(());
        }
        let keys = session_keys(&entries[place - 1].kmac, &ra, &rb);
        self.keys = Some(keys.expect("a KMAC has 24 bytes"));
        println!("session keys held");
        Ok(())
    }

    fn build(&self, destination: [u8; 3], direction: u64, user: &[u8]) {
        let Some(keys) = self.keys else {
            println!("no session keys held");
            return;
        };
        let mut out = [0; OUTPUT_LENGTH];
        match build(&keys, &destination, direction == 1, user, &mut out) {
            Ok(n) => println!("unit {}", encode(&out[..n])),
            Err(h) => refused(h),
        }
    }

    fn check(&self, destination: [u8; 3], direction: u64, unit: &[u8]) {
        let Some(keys) = self.keys else {
            println!("no session keys held");
            return;
        };
        match check(unit, &keys, &destination, direction == 1) {
            Ok(n) => println!("accepted {}", encode(&unit[1..1 + n])),
            Err(h) => refused(h),
        }
    }

    fn take(&mut self, bytes: Vec<u8>) {
        if Edition::of_length(bytes.len()).is_none() {
            println!("store not taken: expected 3852 or 38012 bytes");
            return;
        }
        self.store = bytes;
        println!("store taken");
    }

    fn choose(&mut self, number: u64) {
        self.store = store::encode(EDITIONS[number as usize - 1], &[]);
        println!("store empty, edition {number}");
    }

    /// A refusal leaves the store held.
    fn convert(&mut self) {
        let (target, convert): (_, fn(&[u8], &mut [u8]) -> _) = match self.edition() {
            EDITION_1 => (EDITION_2, to_edition_2),
            _ => (EDITION_1, to_edition_1),
        };
        let mut converted = vec![0; target.length()];
        match convert(&self.store, &mut converted) {
            Ok(()) => {
                self.store = converted;
                println!("store converted, edition {}", target.number);
            }
            Err(h) => refused(h),
        }
    }

    fn take_empty(&mut self) {
        self.store = store::encode(self.edition(), &[]);
        println!("store empty");
    }

    /// The edition whose length the store held has.
    fn edition(&self) -> Edition {
        Edition::of_length(self.store.len()).expect("no other store is taken")
    }

    fn show(&self) {
        // Edition 1, the one at the start, is not said.
        if self.edition() != EDITION_1 {
            println!("edition {}", self.edition().number);
        }
        match decode(&self.store) {
            None => println!("store unsound"),
            Some(entries) => records(&entries),
        }
        let session = &self.session;
        let state = match session.state {
            WAITING => "waiting",
            OPEN => "open",
            _ => "closed",
        };
        let (own, peer) = (encode(&session.own), encode(&session.peer));
        let (next, expected) = (session.next, session.expected);
        print!("session {state}, own {own}, peer {peer}, next {next}, expected {expected}");
        if session.remembered {
            println!(", last transaction {}", session.transaction);
        } else {
            println!(", last transaction none");
        }
    }
}

/// A reply, RESPONSE with its meaning, and each RESULT.
fn reply(bytes: &[u8]) {
    println!("reply {}", encode(bytes));
    print!("  RESPONSE {}", bytes[20]);
    if let Some((_, meaning)) = MEANINGS.iter().find(|(number, _)| *number == bytes[20]) {
        print!(" {meaning}");
    }
    if bytes.len() > 23 {
        print!(", RESULT");
    }
    for result in &bytes[23..] {
        print!(" {result}");
    }
    println!();
}

fn records(entries: &[store::Entry]) {
    let peers: usize = entries.iter().map(|entry| entry.peers.len()).sum();
    println!("records {}, peers {peers}", entries.len());
    for (i, entry) in entries.iter().enumerate() {
        let (issuer, serial) = (encode(&entry.key.issuer), encode(&entry.key.serial));
        print!("place {}: issuer {issuer} serial {serial}", i + 1);
        print!(" start {:08x} end {:08x} peers", entry.start, entry.end);
        for peer in &entry.peers {
            print!(" {}", encode(peer));
        }
        println!();
    }
}

fn help() {
    println!("# and any text: copied to the output");
    for (_, usage) in USAGE {
        println!("{usage}");
    }
}
