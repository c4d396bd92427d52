//! The independent second program, written from the papers alone.
//!
//! 01 is the governing paper of the build, 000 is SUBSET-137 1.0.0 and 002 is
//! SUBSET-037-2 4.0.0. A refusal of the house is the number alone: H13 is `Err(13)`.

pub mod authentication;
pub mod conversion;
pub mod des;
pub mod hex;
pub mod message;
pub mod published;
pub mod random;
pub mod reader;
pub mod refusal;
pub mod report;
pub mod session;
pub mod setup;
pub mod store;

#[cfg(test)]
mod tests;

/// An expanded ETCS identity: type and ETCS-ID (000, 5.3.3.1).
pub type Identity = [u8; 4];

/// The shortest output buffer a call takes (01, H2).
pub const OUTPUT_LENGTH: usize = 1032;
