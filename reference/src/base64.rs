//! Strict base64: the standard alphabet, no padding, unused last bits zero (document 01, "Stanza text").
//!
//! A text that is no base64 gets a fault of its own here; callers choose the number (DESIGN, section 5).

use crate::refusal::Refusal;

const ALPHABET: &[u8; 64] = b"ABCDEFGHIJKLMNOPQRSTUVWXYZabcdefghijklmnopqrstuvwxyz0123456789+/";

/// Stands in `VALUES` for a byte outside the alphabet.
const NONE: u8 = 0xff;

/// The value of each byte, made once at compile time.
static VALUES: [u8; 256] = values();

const fn values() -> [u8; 256] {
    let mut values = [NONE; 256];
    let mut value = 0;
    while value < ALPHABET.len() {
        values[ALPHABET[value] as usize] = value as u8;
        value += 1;
    }
    values
}

/// Why nothing was decoded.
#[derive(Clone, Copy, Debug, PartialEq, Eq)]
pub enum Fault {
    /// The text is no base64; "=" and a line break are such faults.
    NotBase64,
    /// The text is good but the lent buffer is too short (15).
    OutputTooShort,
}

/// Whether the byte stands in the alphabet.
#[inline]
#[must_use]
pub fn is_character(byte: u8) -> bool {
    VALUES[usize::from(byte)] != NONE
}

/// How many characters write so many bytes.
#[must_use]
pub fn encoded_len(bytes: usize) -> usize {
    bytes / 3 * 4 + [0, 2, 3][bytes % 3]
}

/// How many bytes the text decodes to; none if it is no base64.
#[must_use]
pub fn decoded_len(text: &[u8]) -> Option<usize> {
    if !text.iter().all(|&byte| is_character(byte)) {
        return None;
    }
    ended_len(text)
}

/// How many bytes characters of the alphabet decode to if the text ends here; none if it can't end here:
/// 1 mod 4 characters, or an unused last bit that is not zero.
#[must_use]
pub(crate) fn ended_len(characters: &[u8]) -> Option<usize> {
    let whole = characters.len() / 4 * 3;
    match characters[characters.len() / 4 * 4..] {
        [] => Some(whole),
        [_, last] if value(last) & 0b1111 == 0 => Some(whole + 1),
        [_, _, last] if value(last) & 0b11 == 0 => Some(whole + 2),
        _ => None,
    }
}

/// Decodes the whole text to the front of `out` and gives the length; a fault leaves `out` as it was.
pub fn decode(text: &[u8], out: &mut [u8]) -> Result<usize, Fault> {
    let len = decoded_len(text).ok_or(Fault::NotBase64)?;
    let out = out.get_mut(..len).ok_or(Fault::OutputTooShort)?;
    fill_decoded(text, out);
    Ok(len)
}

/// Encodes the bytes to the front of `out` and gives the length; 15 leaves `out` as it was.
pub fn encode(bytes: &[u8], out: &mut [u8]) -> Result<usize, Refusal> {
    let len = encoded_len(bytes.len());
    let out = out.get_mut(..len).ok_or(Refusal::OutputTooShort)?;
    fill_encoded(bytes, out);
    Ok(len)
}

/// Decodes good base64 into a buffer of exactly its decoded length.
pub(crate) fn fill_decoded(text: &[u8], out: &mut [u8]) {
    for (characters, bytes) in text.chunks(4).zip(out.chunks_mut(3)) {
        let group = characters.iter().fold(0, |group, &byte| group << 6 | u32::from(value(byte)));
        // A short last group is moved up to where a whole one would have it.
        let group = group << (6 * (4 - characters.len()));
        bytes.copy_from_slice(&group.to_be_bytes()[1..=bytes.len()]);
    }
}

/// Encodes the bytes into a buffer of exactly their encoded length.
pub(crate) fn fill_encoded(bytes: &[u8], out: &mut [u8]) {
    for (bytes, characters) in bytes.chunks(3).zip(out.chunks_mut(4)) {
        let mut group = [0; 4];
        group[1..=bytes.len()].copy_from_slice(bytes);
        let group = u32::from_be_bytes(group);
        for (place, character) in characters.iter_mut().enumerate() {
            *character = ALPHABET[(group >> (18 - 6 * place)) as usize & 63];
        }
    }
}

#[inline]
fn value(byte: u8) -> u8 {
    VALUES[usize::from(byte)]
}

#[cfg(test)]
mod tests {
    use super::*;

    fn encoded(bytes: &[u8]) -> Vec<u8> {
        let mut out = vec![0; encoded_len(bytes.len())];
        assert_eq!(encode(bytes, &mut out), Ok(out.len()));
        out
    }

    #[test]
    fn published_vectors_without_padding() {
        let vectors: [(&[u8], &[u8]); 7] = [
            (b"", b""),
            (b"f", b"Zg"),
            (b"fo", b"Zm8"),
            (b"foo", b"Zm9v"),
            (b"foob", b"Zm9vYg"),
            (b"fooba", b"Zm9vYmE"),
            (b"foobar", b"Zm9vYmFy"),
        ];
        for (bytes, text) in vectors {
            assert_eq!(encoded(bytes), text);
            let mut out = vec![0; bytes.len()];
            assert_eq!(decode(text, &mut out), Ok(bytes.len()));
            assert_eq!(out, bytes);
        }
    }

    #[test]
    fn what_is_encoded_decodes() {
        for len in 0..200usize {
            let bytes: Vec<u8> = (0..len).map(|at| (at * 151 + len * 7) as u8).collect();
            let text = encoded(&bytes);
            assert_eq!(decoded_len(&text), Some(len));
            let mut out = vec![0; len];
            assert_eq!(decode(&text, &mut out), Ok(len));
            assert_eq!(out, bytes);
        }
    }

    #[test]
    fn every_character_has_its_value() {
        for (value, &character) in ALPHABET.iter().enumerate() {
            let mut out = [0; 3];
            assert_eq!(decode(&[b'A', b'A', b'A', character], &mut out), Ok(3));
            assert_eq!(out, [0, 0, value as u8]);
        }
        assert_eq!((0..=255).filter(|&byte| is_character(byte)).count(), 64);
    }

    #[test]
    fn unused_bits_are_zero() {
        let good = |text: &[u8]| decoded_len(text).is_some();
        let ends = |stem: &[u8]| {
            let text = |&&last: &&u8| good(&[stem, &[last]].concat());
            ALPHABET.iter().filter(text).copied().collect::<Vec<u8>>()
        };
        assert_eq!(ends(b"A"), b"AQgw");
        assert_eq!(ends(b"AA"), b"AEIMQUYcgkosw048".map(|byte| byte));
        assert_eq!(ends(b"AAA").len(), 64);
        assert_eq!(ends(b"").len(), 0);
        assert_eq!(ends(b"AAAA").len(), 0);
    }

    #[test]
    fn other_texts_are_no_base64() {
        let bad: [&[u8]; 9] = [b"A", b"AB", b"AAB", b"AA==", b"AAA=", b"A A", b"AAAA\n", b"AA-A", b"AA_A"];
        for text in bad {
            assert_eq!(decode(text, &mut [0; 9]), Err(Fault::NotBase64), "{text:?}");
        }
    }

    #[test]
    fn a_short_buffer_is_left_alone() {
        let mut out = [7; 2];
        assert_eq!(decode(b"Zm9v", &mut out), Err(Fault::OutputTooShort));
        assert_eq!(decode(b"Zm9=", &mut out), Err(Fault::NotBase64));
        assert_eq!(encode(b"foo", &mut out), Err(Refusal::OutputTooShort));
        assert_eq!(out, [7; 2]);
    }

    #[test]
    fn a_long_buffer_keeps_its_rest() {
        let mut out = [7; 5];
        assert_eq!(decode(b"Zm9v", &mut out), Ok(3));
        assert_eq!(&out, b"foo\x07\x07");
    }
}
