//! DES and its inverse (FIPS 46-3), on arrays of single bits.
//!
//! Bit 0 is the leftmost bit, so a position here is the standard's number less one.
//! The permutations with a rule (IP, E, PC-1) are computed by it. The registers C and
//! D are never rotated: a round reads them at an offset.

use std::array::from_fn;

pub(crate) type Half = [bool; 32];
pub(crate) type RoundKey = [bool; 48];

/// The sixteen round keys of one key.
pub struct Des {
    pub(crate) round_keys: [RoundKey; 16],
}

impl Des {
    /// The key schedule.
    pub fn new(key: &[u8; 8]) -> Des {
        let key = to_bits(key);
        let c: [bool; 28] = from_fn(|i| key[choice_c(i)]);
        let d: [bool; 28] = from_fn(|i| key[choice_d(i)]);
        let round_key = |round: usize| {
            from_fn(|i| {
                let register = if i < 24 { &c } else { &d };
                register[(PC2[i / 6][i % 6] + OFFSETS[round]) % 28]
            })
        };
        Des {
            round_keys: from_fn(round_key),
        }
    }

    pub fn encipher(&self, block: &[u8; 8]) -> [u8; 8] {
        rounds(block, self.round_keys.iter())
    }

    /// The same rounds with the keys in reverse order.
    pub fn decipher(&self, block: &[u8; 8]) -> [u8; 8] {
        rounds(block, self.round_keys.iter().rev())
    }
}

/// IP, the rounds, the exchange of the halves and the inverse of IP.
fn rounds<'a>(block: &[u8; 8], round_keys: impl Iterator<Item = &'a RoundKey>) -> [u8; 8] {
    let bits = to_bits(block);
    let mut left: Half = from_fn(|i| bits[initial(i)]);
    let mut right: Half = from_fn(|i| bits[initial(32 + i)]);
    for round_key in round_keys {
        let mixed = f(&right, round_key);
        (left, right) = (right, from_fn(|i| left[i] ^ mixed[i]));
    }
    let mut out = [false; 64];
    for i in 0..32 {
        out[initial(i)] = right[i];
        out[initial(32 + i)] = left[i];
    }
    to_octets(&out)
}

/// The cipher function f(R, K). The outer bits of six select the row, the inner the column.
pub(crate) fn f(right: &Half, round_key: &RoundKey) -> Half {
    let mut out = [false; 32];
    for (s, s_box) in S_BOXES.iter().enumerate() {
        let bit = |i: usize| usize::from(right[expansion(6 * s + i)] ^ round_key[6 * s + i]);
        let row = 2 * bit(0) + bit(5);
        let column = 8 * bit(1) + 4 * bit(2) + 2 * bit(3) + bit(4);
        for (i, &place) in P[s].iter().enumerate() {
            out[place] = s_box[row][column] >> (3 - i) & 1 == 1;
        }
    }
    out
}

pub(crate) fn to_bits(octets: &[u8; 8]) -> [bool; 64] {
    from_fn(|i| octets[i / 8] >> (7 - i % 8) & 1 == 1)
}

fn to_octets(bits: &[bool; 64]) -> [u8; 8] {
    from_fn(|i| (0..8).fold(0, |octet, j| octet << 1 | u8::from(bits[8 * i + j])))
}

/// IP: each row of eight is one bit of every byte, the last byte first.
/// The bits come in the order 1 3 5 7 0 2 4 6.
pub(crate) fn initial(i: usize) -> usize {
    8 * (7 - i % 8) + (2 * (i / 8) + 1) % 9
}

/// E: groups of four with the neighbour on either side, in a ring of 32.
pub(crate) fn expansion(i: usize) -> usize {
    (4 * (i / 6) + i % 6 + 31) % 32
}

/// PC-1, register C: bits 0, 1, 2 of every byte and bit 3 of the last four, the last byte first.
pub(crate) fn choice_c(i: usize) -> usize {
    8 * (7 - i % 8) + i / 8
}

/// PC-1, register D: bits 6, 5, 4 of every byte and bit 3 of the first four, the last byte first.
pub(crate) fn choice_d(i: usize) -> usize {
    let last_byte = if i < 24 { 7 } else { 3 };
    8 * (last_byte - i % 8) + 6 - i / 8
}

/// The sum of the left shifts up to each round.
pub(crate) const OFFSETS: [usize; 16] = [1, 2, 4, 6, 8, 10, 12, 14, 15, 17, 19, 21, 23, 25, 27, 28];

/// PC-2: where each S-box's six key bits stand, in C for boxes 1 to 4, in D for 5 to 8.
const PC2: [[usize; 6]; 8] = [
    [13, 16, 10, 23, 0, 4],
    [2, 27, 14, 5, 20, 9],
    [22, 18, 11, 3, 25, 7],
    [15, 6, 26, 19, 12, 1],
    [12, 23, 2, 8, 18, 26],
    [1, 11, 22, 16, 4, 19],
    [15, 20, 10, 27, 5, 24],
    [17, 13, 21, 7, 0, 3],
];

/// P: where the four output bits of each S-box go.
const P: [[usize; 4]; 8] = [
    [8, 16, 22, 30],
    [12, 27, 1, 17],
    [23, 15, 29, 5],
    [25, 19, 9, 0],
    [7, 13, 24, 2],
    [3, 28, 10, 18],
    [31, 11, 21, 6],
    [4, 26, 14, 20],
];

pub(crate) type SBox = [[u8; 16]; 4];

pub(crate) const S_BOXES: [&SBox; 8] = [&S1, &S2, &S3, &S4, &S5, &S6, &S7, &S8];

const S1: SBox = [
    [14, 4, 13, 1, 2, 15, 11, 8, 3, 10, 6, 12, 5, 9, 0, 7],
    [0, 15, 7, 4, 14, 2, 13, 1, 10, 6, 12, 11, 9, 5, 3, 8],
    [4, 1, 14, 8, 13, 6, 2, 11, 15, 12, 9, 7, 3, 10, 5, 0],
    [15, 12, 8, 2, 4, 9, 1, 7, 5, 11, 3, 14, 10, 0, 6, 13],
];

const S2: SBox = [
    [15, 1, 8, 14, 6, 11, 3, 4, 9, 7, 2, 13, 12, 0, 5, 10],
    [3, 13, 4, 7, 15, 2, 8, 14, 12, 0, 1, 10, 6, 9, 11, 5],
    [0, 14, 7, 11, 10, 4, 13, 1, 5, 8, 12, 6, 9, 3, 2, 15],
    [13, 8, 10, 1, 3, 15, 4, 2, 11, 6, 7, 12, 0, 5, 14, 9],
];

const S3: SBox = [
    [10, 0, 9, 14, 6, 3, 15, 5, 1, 13, 12, 7, 11, 4, 2, 8],
    [13, 7, 0, 9, 3, 4, 6, 10, 2, 8, 5, 14, 12, 11, 15, 1],
    [13, 6, 4, 9, 8, 15, 3, 0, 11, 1, 2, 12, 5, 10, 14, 7],
    [1, 10, 13, 0, 6, 9, 8, 7, 4, 15, 14, 3, 11, 5, 2, 12],
];

const S4: SBox = [
    [7, 13, 14, 3, 0, 6, 9, 10, 1, 2, 8, 5, 11, 12, 4, 15],
    [13, 8, 11, 5, 6, 15, 0, 3, 4, 7, 2, 12, 1, 10, 14, 9],
    [10, 6, 9, 0, 12, 11, 7, 13, 15, 1, 3, 14, 5, 2, 8, 4],
    [3, 15, 0, 6, 10, 1, 13, 8, 9, 4, 5, 11, 12, 7, 2, 14],
];

const S5: SBox = [
    [2, 12, 4, 1, 7, 10, 11, 6, 8, 5, 3, 15, 13, 0, 14, 9],
    [14, 11, 2, 12, 4, 7, 13, 1, 5, 0, 15, 10, 3, 9, 8, 6],
    [4, 2, 1, 11, 10, 13, 7, 8, 15, 9, 12, 5, 6, 3, 0, 14],
    [11, 8, 12, 7, 1, 14, 2, 13, 6, 15, 0, 9, 10, 4, 5, 3],
];

const S6: SBox = [
    [12, 1, 10, 15, 9, 2, 6, 8, 0, 13, 3, 4, 14, 7, 5, 11],
    [10, 15, 4, 2, 7, 12, 9, 5, 6, 1, 13, 14, 0, 11, 3, 8],
    [9, 14, 15, 5, 2, 8, 12, 3, 7, 0, 4, 10, 1, 13, 11, 6],
    [4, 3, 2, 12, 9, 5, 15, 10, 11, 14, 1, 7, 6, 0, 8, 13],
];

const S7: SBox = [
    [4, 11, 2, 14, 15, 0, 8, 13, 3, 12, 9, 7, 5, 10, 6, 1],
    [13, 0, 11, 7, 4, 9, 1, 10, 14, 3, 5, 12, 2, 15, 8, 6],
    [1, 4, 11, 13, 12, 3, 7, 14, 10, 15, 6, 8, 0, 5, 9, 2],
    [6, 11, 13, 8, 1, 4, 10, 7, 9, 5, 0, 15, 14, 2, 3, 12],
];

const S8: SBox = [
    [13, 2, 8, 4, 6, 15, 11, 1, 10, 9, 3, 14, 5, 0, 12, 7],
    [1, 15, 13, 8, 10, 3, 7, 4, 12, 5, 6, 11, 0, 14, 9, 2],
    [7, 11, 4, 1, 9, 12, 14, 2, 0, 6, 10, 13, 15, 3, 5, 8],
    [2, 1, 14, 7, 4, 10, 8, 13, 15, 12, 9, 0, 3, 5, 6, 11],
];
