//! The second program behind functions of C, so that one process can time it beside the library.
//! Answers are those of the library's C interface: -n for refusal Hn, else a length or a place.

use reference::session::{self, Answer, Session, OPEN};
use reference::setup::{Connection, Event, Indication, Request};
use reference::{authentication, conversion, store, OUTPUT_LENGTH};
use std::slice;

/// # Safety
/// `bytes` points to `length` bytes that nobody writes while the slice lives.
unsafe fn lent<'a>(bytes: *const u8, length: usize) -> &'a [u8] {
    slice::from_raw_parts(bytes, length)
}

/// # Safety
/// `bytes` points to `length` bytes that nobody else uses while the slice lives.
unsafe fn lent_mut<'a>(bytes: *mut u8, length: usize) -> &'a mut [u8] {
    slice::from_raw_parts_mut(bytes, length)
}

fn code(answer: Result<usize, u8>) -> i32 {
    answer.map_or_else(|house| -i32::from(house), |n| n as i32)
}

/// One message to an open session with these identities and numbers.
///
/// # Safety
/// Each pointer points to as many bytes as the length behind it says, and no two overlap.
#[no_mangle]
pub unsafe extern "C" fn reference_receive(
    own: u32,
    peer: u32,
    next: u16,
    expected: u16,
    message: *const u8,
    message_len: usize,
    store: *mut u8,
    store_len: usize,
    out: *mut u8,
    out_len: usize,
) -> i32 {
    let open = Session {
        state: OPEN,
        own: own.to_be_bytes(),
        peer: peer.to_be_bytes(),
        next,
        expected,
        remembered: false,
        transaction: 0,
    };
    let message = lent(message, message_len);
    let (_, answer) = session::receive(
        open,
        message,
        lent_mut(store, store_len),
        lent_mut(out, out_len),
    );
    match answer {
        Answer::Reply(length) => code(Ok(length)),
        Answer::Opened | Answer::Ended => 0,
        Answer::Refused(house) => code(Err(house)),
    }
}

/// The end is written only with a place.
///
/// # Safety
/// `store` points to `store_len` bytes.
#[no_mangle]
pub unsafe extern "C" fn reference_find(
    store: *const u8,
    store_len: usize,
    peer: u32,
    t: u32,
    end: &mut u32,
) -> i32 {
    let found = store::find(lent(store, store_len), &peer.to_be_bytes(), t);
    if let Ok(found) = found {
        *end = found.end;
    }
    code(found.map(|found| found.place))
}

/// # Safety
/// `kmac` and `keys` point to 24 bytes each.
#[no_mangle]
pub unsafe extern "C" fn reference_session_keys(
    kmac: *const u8,
    ra: &[u8; 8],
    rb: &[u8; 8],
    keys: *mut u8,
) -> i32 {
    match authentication::session_keys(lent(kmac, authentication::KEY_LENGTH), ra, rb) {
        Ok(made) => {
            lent_mut(keys, made.len()).copy_from_slice(&made);
            0
        }
        Err(house) => code(Err(house)),
    }
}

/// # Safety
/// `key` points to 24 bytes, `user` and `out` to as many as the length behind each says; `out` overlaps nothing.
#[no_mangle]
pub unsafe extern "C" fn reference_build(
    key: *const u8,
    destination: &[u8; 3],
    direction: u8,
    user: *const u8,
    user_len: usize,
    out: *mut u8,
    out_len: usize,
) -> i32 {
    let key = lent(key, authentication::KEY_LENGTH);
    let user = lent(user, user_len);
    let out = lent_mut(out, out_len);
    code(authentication::build(
        key,
        destination,
        direction != 0,
        user,
        out,
    ))
}

/// # Safety
/// `unit` points to `unit_len` bytes and `key` to 24.
#[no_mangle]
pub unsafe extern "C" fn reference_check(
    unit: *const u8,
    unit_len: usize,
    key: *const u8,
    destination: &[u8; 3],
    direction: u8,
) -> i32 {
    let key = lent(key, authentication::KEY_LENGTH);
    code(authentication::check(
        lent(unit, unit_len),
        key,
        destination,
        direction != 0,
    ))
}

/// A conversion of the second program, as the library answers it.
///
/// # Safety
/// `from` and `to` point to as many bytes as the length behind each says, and do not overlap.
unsafe fn converted(
    convert: fn(&[u8], &mut [u8]) -> Result<(), u8>,
    (from, from_len): (*const u8, usize),
    (to, to_len): (*mut u8, usize),
) -> i32 {
    code(convert(lent(from, from_len), lent_mut(to, to_len)).map(|()| 0))
}

/// # Safety
/// As `converted` has it.
#[no_mangle]
pub unsafe extern "C" fn reference_to_edition1(
    from: *const u8,
    from_len: usize,
    to: *mut u8,
    to_len: usize,
) -> i32 {
    converted(conversion::to_edition_1, (from, from_len), (to, to_len))
}

/// # Safety
/// As `converted` has it.
#[no_mangle]
pub unsafe extern "C" fn reference_to_edition2(
    from: *const u8,
    from_len: usize,
    to: *mut u8,
    to_len: usize,
) -> i32 {
    converted(conversion::to_edition_2, (from, from_len), (to, to_len))
}

/// A connection set up from idle: the four units one behind the other, then the session keys of the
/// caller and of the called side.
fn exchange(request: Request, own: [u8; 4], ra: [u8; 8]) -> Result<Vec<u8>, u8> {
    let Request {
        acceptable,
        t,
        store,
        ..
    } = request;
    let (mut caller, mut called) = (Connection::NONE, Connection::NONE);
    let mut out = [0; OUTPUT_LENGTH];
    let mut take = |side: &mut Connection, event: Event| side.take(event, &mut out).map(|o| o.unit);
    let au1 = take(&mut caller, Event::ConnectRequest(request))?;
    let indication = Indication {
        acceptable,
        own,
        t,
        ra,
        unit: &au1,
        store,
    };
    let au2 = take(&mut called, Event::ConnectIndication(indication))?;
    let au3 = take(&mut caller, Event::ConnectConfirmation(&au2))?;
    take(&mut called, Event::Au3(&au3))?;
    let ar = take(&mut called, Event::ConnectResponse)?;
    take(&mut caller, Event::Ar(&ar))?;
    Ok([&au1[..], &au2, &au3, &ar, &caller.key, &called.key].concat())
}

/// # Safety
/// `store` points to `store_len` bytes and `made` to 100 that nobody else uses.
#[no_mangle]
pub unsafe extern "C" fn reference_set_up(
    store: *const u8,
    store_len: usize,
    caller: u32,
    called: u32,
    t: u32,
    ra: &[u8; 8],
    rb: &[u8; 8],
    made: *mut u8,
) -> i32 {
    let request = Request {
        acceptable: true,
        own: caller.to_be_bytes(),
        peer: called.to_be_bytes(),
        t,
        rb: *rb,
        store: lent(store, store_len),
    };
    code(exchange(request, called.to_be_bytes(), *ra).map(|bytes| {
        lent_mut(made, bytes.len()).copy_from_slice(&bytes);
        0
    }))
}
