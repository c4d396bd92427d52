//! A store of one edition made one of the other (02, change request 6).
//!
//! The entries are decoded from the one lent buffer and encoded anew into the other.

use crate::refusal::{H1, H12, H14};
use crate::store::{decode, encode, peer_sum, Edition, EDITION_1, EDITION_2};

/// Makes the store of edition 1 at `from` one of edition 2 at `to`. A refusal leaves `to`.
pub fn to_edition_2(from: &[u8], to: &mut [u8]) -> Result<(), u8> {
    convert(EDITION_1, EDITION_2, from, to)
}

/// Makes the store of edition 2 at `from` one of edition 1 at `to`. A refusal leaves `to`.
pub fn to_edition_1(from: &[u8], to: &mut [u8]) -> Result<(), u8> {
    convert(EDITION_2, EDITION_1, from, to)
}

/// H1, H12 and H14 in this order. What stood in `to` is not looked at. Edition 2 has room for all
/// that a sound store of edition 1 holds, so that only the way back meets H14.
fn convert(source: Edition, target: Edition, from: &[u8], to: &mut [u8]) -> Result<(), u8> {
    if from.len() != source.length() || to.len() != target.length() {
        return Err(H1);
    }
    let entries = decode(from).ok_or(H12)?;
    if entries.len() > target.keys_max || peer_sum(&entries) > target.peers_max {
        return Err(H14);
    }
    to.copy_from_slice(&encode(target, &entries));
    Ok(())
}
