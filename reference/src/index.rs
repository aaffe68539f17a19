//! Document 01: an index is "0" or digits without a leading zero, at most 4,294,967,295.

use crate::refusal::Refusal;

/// The index that the whole text writes; 5 if it writes none.
pub fn read(text: &[u8]) -> Result<u32, Refusal> {
    match text {
        b"0" => Ok(0),
        [b'1'..=b'9', ..] => digits(text).ok_or(Refusal::BadIndex),
        _ => Err(Refusal::BadIndex),
    }
}

/// The value of a text of digits; none if another byte occurs or a u32 can't hold the value.
fn digits(text: &[u8]) -> Option<u32> {
    text.iter().try_fold(0u32, |value, &byte| {
        let digit = byte.is_ascii_digit().then(|| u32::from(byte - b'0'))?;
        value.checked_mul(10)?.checked_add(digit)
    })
}

#[cfg(test)]
mod tests {
    use super::*;

    #[test]
    fn worked_examples() {
        assert_eq!(read(b"0"), Ok(0));
        assert_eq!(read(b"01"), Err(Refusal::BadIndex));
        assert_eq!(read(b"4294967295"), Ok(u32::MAX));
        assert_eq!(read(b"4294967296"), Err(Refusal::BadIndex));
    }

    #[test]
    fn good_indices_are_those_that_print_so() {
        for index in [1, 9, 10, 99, 100, 65_535, 4_294_967_289, u32::MAX] {
            assert_eq!(read(index.to_string().as_bytes()), Ok(index));
        }
    }

    #[test]
    fn anything_else_is_refused() {
        let bad: [&[u8]; 14] = [
            b"", b"00", b"+1", b"-1", b" 1", b"1 ", b"1\n", b"1a", b"a", b"0x1", b"1/", b"1:",
            b"42949672950", b"18446744073709551621",
        ];
        for text in bad {
            assert_eq!(read(text), Err(Refusal::BadIndex), "{text:?}");
        }
        assert_eq!(read(&[b'9'; 300]), Err(Refusal::BadIndex));
    }
}
