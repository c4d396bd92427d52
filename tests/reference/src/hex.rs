//! Hexadecimal digits, lower case and without separators.

/// Two digits for each byte.
pub fn encode(bytes: &[u8]) -> String {
    bytes.iter().map(|byte| format!("{byte:02x}")).collect()
}

/// The N bytes that 2 N digits stand for. Panics on any other text.
pub fn decode<const N: usize>(digits: &str) -> [u8; N] {
    assert_eq!(digits.len(), 2 * N, "{digits} does not have {N} bytes");
    std::array::from_fn(|i| {
        let pair = &digits[2 * i..2 * i + 2];
        u8::from_str_radix(pair, 16).unwrap_or_else(|_| panic!("{pair} is not hexadecimal"))
    })
}
