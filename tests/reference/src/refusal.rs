//! Refusals of the house (01, and H14 of 02). Each constant has the number of its name.

/// The store buffer has the length of neither edition: 3,852 or 38,012 bytes. Of the two that a
/// conversion is lent, one has not the length of its side's edition.
pub const H1: u8 = 1;
/// The output buffer is under 1,032 bytes.
pub const H2: u8 = 2;
/// A message came to a closed session.
pub const H3: u8 = 3;
/// The message is shorter than its header.
pub const H4: u8 = 4;
/// The session is waiting, and this is no valid session init.
pub const H5: u8 = 5;
/// Begin has own identity equal to the peer's.
pub const H6: u8 = 6;
/// The unit is under 9 or over 1,032 bytes.
pub const H7: u8 = 7;
/// The MAC differs.
pub const H8: u8 = 8;
/// The MAC is right; user data empty, or ETY, MTI or direction wrong.
pub const H9: u8 = 9;
/// The user data to protect is not 1 to 1,023 bytes.
pub const H10: u8 = 10;
/// No key fits.
pub const H11: u8 = 11;
/// The search is in an unsound store, or the store to convert is unsound.
pub const H12: u8 = 12;
/// The lent key is not 24 bytes.
pub const H13: u8 = 13;
/// The store to convert holds more than the 64 keys or the 256 peers of edition 1 (02, change request 6).
pub const H14: u8 = 14;
