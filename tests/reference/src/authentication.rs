//! Session keys, the MAC and data units (002, 6.2.2, 6.2.3.2 and 6.2.5).

use crate::des::Des;
use crate::refusal::{H10, H13, H2, H7, H8, H9};
use crate::OUTPUT_LENGTH;

pub const KEY_LENGTH: usize = 24;
pub const MAC_LENGTH: usize = 8;
/// The octet with ETY, MTI and direction flag.
pub const FIRST_LENGTH: usize = 1;
pub const USER_MAX: usize = 1023;

/// The message type identifier of a DT unit (002, Table 7).
const MTI_DT: u8 = 0b0101;
/// The ETY of a DT unit (002, Table 12).
const ETY_DT: u8 = 0b000;

type TripleKey = [u8; KEY_LENGTH];

/// The session key for a KMAC, the responder's number `ra` and the initiator's `rb`
/// (002, 6.2.3.2.3.15 and .16).
pub fn session_keys(kmac: &[u8], ra: &[u8; 8], rb: &[u8; 8]) -> Result<TripleKey, u8> {
    let [k1, k2, k3] = split(triple_key(kmac)?);
    let left = block(&[&ra[..4], &rb[..4]].concat());
    let right = block(&[&ra[4..], &rb[4..]].concat());
    let ks1 = encipher_triple([k1, k2, k3], &left);
    let ks2 = encipher_triple([k1, k2, k3], &right);
    let ks3 = encipher_triple([k3, k2, k1], &left);
    let mut keys = [0; KEY_LENGTH];
    for (key, octet) in keys.iter_mut().zip([ks1, ks2, ks3].concat()) {
        *key = with_odd_parity(octet);
    }
    Ok(keys)
}

/// Writes the data unit of `user` to `out`. Gives its length.
pub fn build(
    key: &[u8],
    destination: &[u8; 3],
    direction: bool,
    user: &[u8],
    out: &mut [u8],
) -> Result<usize, u8> {
    let key = triple_key(key)?;
    if out.len() < OUTPUT_LENGTH {
        return Err(H2);
    }
    if user.is_empty() || user.len() > USER_MAX {
        return Err(H10);
    }
    let message = [&[first_octet(direction)], user].concat();
    let unit = [&message[..], &mac(key, destination, &message)].concat();
    out[..unit.len()].copy_from_slice(&unit);
    Ok(unit.len())
}

/// Gives the length of the user data, which starts at the unit's second octet.
/// `direction` is the flag the unit should carry.
pub fn check(unit: &[u8], key: &[u8], destination: &[u8; 3], direction: bool) -> Result<usize, u8> {
    let key = triple_key(key)?;
    let shortest = FIRST_LENGTH + MAC_LENGTH;
    if unit.len() < shortest || unit.len() > shortest + USER_MAX {
        return Err(H7);
    }
    let (message, received) = unit.split_at(unit.len() - MAC_LENGTH);
    if received != mac(key, destination, message) {
        return Err(H8);
    }
    let user = message.len() - FIRST_LENGTH;
    if user == 0 || message[0] != first_octet(direction) {
        return Err(H9);
    }
    Ok(user)
}

/// The MAC of a unit's octets before it, over l | DA | m (002, 6.2.3.2.1.1).
pub fn mac(key: &TripleKey, destination: &[u8; 3], message: &[u8]) -> [u8; MAC_LENGTH] {
    let length = (destination.len() + message.len()) as u16;
    let string = [&length.to_be_bytes()[..], destination, message].concat();
    cbc_mac(key, &string)
}

/// CBC-MAC of a string that is not empty (002, 6.2.2.7): every block but the last is
/// enciphered under K1 alone.
pub fn cbc_mac(key: &TripleKey, string: &[u8]) -> [u8; MAC_LENGTH] {
    let keys = split(key);
    let padded = pad(string);
    let (last, before) = padded.split_last().expect("the string is not empty");
    let k1 = Des::new(&keys[0]);
    let chained = before.iter().fold([0; 8], |h, x| k1.encipher(&xor(&h, x)));
    encipher_triple(keys, &xor(&chained, last))
}

/// Whole blocks, with as few zero octets at the end as needed (002, 6.2.2.3).
fn pad(string: &[u8]) -> Vec<[u8; 8]> {
    let mut octets = string.to_vec();
    while octets.len() % 8 != 0 {
        octets.push(0);
    }
    octets.chunks(8).map(block).collect()
}

/// Encipher under the first key, decipher under the second, encipher under the third.
fn encipher_triple(keys: [[u8; 8]; 3], input: &[u8; 8]) -> [u8; 8] {
    let [first, second, third] = keys.map(|key| Des::new(&key));
    third.encipher(&second.decipher(&first.encipher(input)))
}

/// ETY in bits 8 to 6, MTI in 5 to 2, the direction flag in 1 (002, Table 12).
fn first_octet(direction: bool) -> u8 {
    ETY_DT << 5 | MTI_DT << 1 | u8::from(direction)
}

fn with_odd_parity(octet: u8) -> u8 {
    if octet.count_ones() % 2 == 1 {
        octet
    } else {
        octet ^ 1
    }
}

fn triple_key(key: &[u8]) -> Result<&TripleKey, u8> {
    key.try_into().map_err(|_| H13)
}

/// The three DES keys K1 | K2 | K3.
fn split(key: &TripleKey) -> [[u8; 8]; 3] {
    [block(&key[..8]), block(&key[8..16]), block(&key[16..])]
}

fn block(octets: &[u8]) -> [u8; 8] {
    octets.try_into().expect("a block has eight octets")
}

fn xor(a: &[u8; 8], b: &[u8; 8]) -> [u8; 8] {
    std::array::from_fn(|i| a[i] ^ b[i])
}
