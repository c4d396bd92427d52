//! Where two answers or two buffers first differ.

use std::fmt;

use crate::lent::Lent;

/// The first difference of one call.
#[derive(Clone, PartialEq, Eq, Debug)]
pub struct Difference {
    /// What differs: the answer, or the name of a buffer.
    pub of: &'static str,
    /// The first byte that differs, counted from the buffer's start; none for an answer.
    pub at: Option<isize>,
    pub expected: i64,
    pub got: i64,
}

impl fmt::Display for Difference {
    fn fmt(&self, f: &mut fmt::Formatter) -> fmt::Result {
        write!(f, "{}", self.of)?;
        if let Some(at) = self.at {
            write!(f, ", byte {at}")?;
        }
        write!(f, ": expected {}, got {}", self.expected, self.got)
    }
}

pub type Compared = Result<(), Difference>;

pub fn numbers(of: &'static str, expected: i64, got: i64) -> Compared {
    if expected == got {
        return Ok(());
    }
    Err(Difference {
        of,
        at: None,
        expected,
        got,
    })
}

/// Two buffers of one length.
pub fn buffers(of: &'static str, expected: &[u8], got: &[u8]) -> Compared {
    numbers(of, expected.len() as i64, got.len() as i64)?;
    // A store has 38,012 bytes: equal buffers, which are nearly all, are compared at once.
    if expected == got {
        return Ok(());
    }
    match (0..expected.len()).find(|&i| expected[i] != got[i]) {
        None => Ok(()),
        Some(i) => Err(Difference {
            of,
            at: Some(i as isize),
            expected: expected[i].into(),
            got: got[i].into(),
        }),
    }
}

/// Nothing beside a lent buffer was written.
pub fn guards(of: &'static str, lent: &Lent) -> Compared {
    match lent.broken_guard() {
        None => Ok(()),
        Some((at, was, is)) => Err(Difference {
            of,
            at: Some(at),
            expected: was.into(),
            got: is.into(),
        }),
    }
}

/// Nothing in a buffer that is lent to be read was written, nor beside it.
pub fn unchanged(of: &'static str, content: &[u8], lent: &Lent) -> Compared {
    guards(of, lent)?;
    buffers(of, content, lent.content())
}

#[cfg(test)]
mod tests {
    use super::{buffers, numbers, unchanged};
    use crate::lent::Lent;

    #[test]
    fn equal_is_equal() {
        assert_eq!(numbers("answer", -5, -5), Ok(()));
        assert_eq!(buffers("store", &[], &[]), Ok(()));
        assert_eq!(buffers("store", &[1, 2, 3], &[1, 2, 3]), Ok(()));
    }

    #[test]
    fn a_wrong_answer_is_seen() {
        let seen = numbers("answer", 23, -3).unwrap_err();
        assert_eq!(seen.to_string(), "answer: expected 23, got -3");
    }

    #[test]
    fn a_wrong_byte_is_seen_wherever_it_stands() {
        let expected: Vec<u8> = (0..=255).collect();
        for at in 0..256 {
            for bit in 0..8 {
                let mut got = expected.clone();
                got[at] ^= 1 << bit;
                let seen = buffers("store", &expected, &got).unwrap_err();
                assert_eq!(seen.at, Some(at as isize));
                assert_eq!(seen.got, i64::from(got[at]));
            }
        }
    }

    #[test]
    fn the_first_of_two_wrong_bytes_is_told() {
        let seen = buffers("output", &[1, 2, 3, 4], &[1, 9, 3, 9]).unwrap_err();
        assert_eq!(seen.to_string(), "output, byte 1: expected 2, got 9");
    }

    #[test]
    fn buffers_of_two_lengths_differ() {
        assert!(buffers("output", &[1, 2], &[1, 2, 3]).is_err());
        assert!(buffers("output", &[1, 2, 3], &[1, 2]).is_err());
    }

    #[test]
    fn a_write_to_a_lent_buffer_or_beside_it_is_seen() {
        for at in [-1, 0, 3, 4] {
            let mut lent = Lent::new(&[1, 2, 3, 4], 9);
            // SAFETY: the guards stand on both sides, so each place is in the same allocation.
            unsafe { *lent.as_mut_ptr().offset(at) ^= 0x80 };
            let seen = unchanged("message", &[1, 2, 3, 4], &lent).unwrap_err();
            assert_eq!(seen.at, Some(at));
        }
    }
}
