//! A buffer that is lent to the library, with guard bytes before and after it.

const GUARD: usize = 64;

pub struct Lent {
    bytes: Vec<u8>,
    start: usize,
    end: usize,
}

impl Lent {
    /// A copy of `content`. `shift` moves it, so that every alignment is met.
    pub fn new(content: &[u8], shift: u64) -> Lent {
        let start = GUARD + (shift % 16) as usize;
        let end = start + content.len();
        let mut bytes: Vec<u8> = (0..start).map(guard).collect();
        bytes.extend(content);
        bytes.extend((end..end + GUARD).map(guard));
        Lent { bytes, start, end }
    }

    pub fn content(&self) -> &[u8] {
        &self.bytes[self.start..self.end]
    }

    pub fn len(&self) -> usize {
        self.end - self.start
    }

    pub fn as_ptr(&self) -> *const u8 {
        self.bytes[self.start..].as_ptr()
    }

    pub fn as_mut_ptr(&mut self) -> *mut u8 {
        self.bytes[self.start..].as_mut_ptr()
    }

    /// The first guard byte that was changed: where it lies from the buffer's start, what it
    /// was and what it is.
    pub fn broken_guard(&self) -> Option<(isize, u8, u8)> {
        let guards = (0..self.start).chain(self.end..self.bytes.len());
        guards
            .map(|i| (i as isize - self.start as isize, guard(i), self.bytes[i]))
            .find(|(_, was, is)| was != is)
    }
}

/// Neighbours differ, so that guard bytes moved by a few places are seen too.
fn guard(i: usize) -> u8 {
    (i as u8).wrapping_mul(29) ^ 0xa5
}

#[cfg(test)]
mod tests {
    use super::{Lent, GUARD};

    const LENGTHS: [usize; 5] = [0, 1, 32, 3852, 38012];

    #[test]
    fn untouched_guards_are_whole() {
        for length in LENGTHS {
            for shift in 0..16 {
                let content = vec![7; length];
                let lent = Lent::new(&content, shift);
                assert_eq!(lent.content(), content);
                assert_eq!(lent.broken_guard(), None);
            }
        }
    }

    #[test]
    fn writes_inside_break_no_guard() {
        let mut lent = Lent::new(&[7; 32], 3);
        let start = lent.start;
        lent.bytes[start] = 8;
        lent.bytes[start + 31] = 8;
        assert_eq!(lent.broken_guard(), None);
    }

    #[test]
    fn a_wrong_byte_on_either_side_is_seen() {
        for length in LENGTHS {
            let ends = [
                -1,
                -(GUARD as isize),
                length as isize,
                (length + GUARD - 1) as isize,
            ];
            for at in ends {
                let mut lent = Lent::new(&vec![7; length], 5);
                let i = (lent.start as isize + at) as usize;
                lent.bytes[i] ^= 1;
                let seen = lent.broken_guard().expect("the byte is seen");
                assert_eq!(seen.0, at);
                assert_eq!(seen.1 ^ seen.2, 1);
            }
        }
    }
}
