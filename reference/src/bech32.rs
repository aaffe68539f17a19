//! Bech32: recipients and identities read and written, and the checksum alone (document 01, "Recipients
//! and identities", and BIP 173).
//!
//! What a payload means is not judged here.

use crate::refusal::Refusal;

/// A whole text has at most so many characters.
pub const LIMIT: usize = 1_024;

/// A name has 1 to so many characters.
pub const NAME_LIMIT: usize = 32;

/// The value that a good checksum ends in; Bech32m has another.
pub const FINAL_VALUE: u32 = 1;

/// So many symbols behind the payload's are the checksum.
pub const CHECKSUM_SYMBOLS: usize = 6;

pub(crate) const ALPHABET: &[u8; 32] = b"qpzry9x8gf2tvdw0s3jn54khce6mua7l";

const GENERATORS: [u32; 5] = [0x3b6a_57b2, 0x2650_8e6d, 0x1ea1_19fa, 0x3d42_33dd, 0x2a14_62b3];

const SEPARATOR: u8 = b'1';

/// What a text names: its human part and its case go by it.
#[derive(Clone, Copy, Debug, PartialEq, Eq)]
pub enum Kind {
    /// age1NAME, all lower case.
    Recipient,
    /// AGE-PLUGIN-NAME-, all upper case.
    Identity,
}

impl Kind {
    /// What stands before and behind the name in the human part's lower-case form.
    fn around_name(self) -> (&'static [u8], &'static [u8]) {
        match self {
            Kind::Recipient => (b"age1", b""),
            Kind::Identity => (b"age-plugin-", b"-"),
        }
    }

    /// The human part of a name, in lower case.
    pub(crate) fn human_part(self, name: &[u8]) -> Vec<u8> {
        let (before, behind) = self.around_name();
        [before, name, behind].concat()
    }

    /// The name in a human part that is in lower case; none if it has none.
    fn name(self, human: &[u8]) -> Option<&[u8]> {
        let (before, behind) = self.around_name();
        human.strip_prefix(before)?.strip_suffix(behind).filter(|name| is_name(name))
    }

    /// Whether no letter of the other case occurs.
    fn has_case(self, text: &[u8]) -> bool {
        match self {
            Kind::Recipient => !text.iter().any(u8::is_ascii_uppercase),
            Kind::Identity => !text.iter().any(u8::is_ascii_lowercase),
        }
    }

    /// The text in the kind's case.
    pub(crate) fn cased(self, text: &[u8]) -> Vec<u8> {
        match self {
            Kind::Recipient => text.to_ascii_lowercase(),
            Kind::Identity => text.to_ascii_uppercase(),
        }
    }
}

/// What was read: the name in lower case, and how many bytes of the buffer are the payload.
#[derive(Clone, Debug, PartialEq, Eq)]
pub struct Reading {
    pub name: Vec<u8>,
    pub payload_len: usize,
}

/// Whether the text has a good checksum, whatever its human part and its length.
#[must_use]
pub fn holds(text: &[u8]) -> bool {
    Parts::split(text).is_some_and(|parts| parts.final_value() == FINAL_VALUE)
}

/// Reads a text of the kind and writes its payload to the front of `out`.
///
/// 16 if the text has not the form of one, 21 if its checksum fails, 22 for leftover bits; then 15. A refusal
/// leaves `out` as it was; with 16 comes `place_of_fault`.
pub fn read(kind: Kind, text: &[u8], out: &mut [u8]) -> Result<Reading, Refusal> {
    let parts = Parts::of(kind, text).ok_or(Refusal::NotAnEntry)?;
    let (name, payload) = (parts.name(kind).to_vec(), parts.payload()?);
    let out = out.get_mut(..payload.len()).ok_or(Refusal::OutputTooShort)?;
    out.copy_from_slice(&payload);
    Ok(Reading { name, payload_len: payload.len() })
}

/// Why the text is not one of the kind and of the plugin; none if it is. Another name, which is compared
/// without case, is 16, whatever else is wrong.
#[must_use]
pub fn fault(kind: Kind, text: &[u8], plugin: &[u8]) -> Option<Refusal> {
    match Parts::of(kind, text) {
        Some(parts) if parts.name(kind).eq_ignore_ascii_case(plugin) => parts.payload().err(),
        _ => Some(Refusal::NotAnEntry),
    }
}

/// The place that comes with 16, whatever made it so: of the first byte that is outside 33 to 126, or stands
/// behind the last "1" and is not in the alphabet in either case; else the text's length.
#[must_use]
pub fn place_of_fault(text: &[u8]) -> usize {
    let tail = text.iter().rposition(|&byte| byte == SEPARATOR).map_or(text.len(), |at| at + 1);
    let is_bad = |(at, byte): (usize, &u8)| {
        !(33..=126).contains(byte) || at >= tail && symbol(byte.to_ascii_lowercase()).is_none()
    };
    text.iter().enumerate().position(is_bad).unwrap_or(text.len())
}

/// Writes the text of a name and a payload to the front of `out` and gives its length.
///
/// 17 for a bad name, one with an upper-case letter too, or a text of more than 1,024 characters; then 15.
/// A refusal leaves `out` as it was.
pub fn write(kind: Kind, name: &[u8], payload: &[u8], out: &mut [u8]) -> Result<usize, Refusal> {
    if !is_name(name) {
        return Err(Refusal::Unwritable);
    }
    let text = kind.cased(&encode(&kind.human_part(name), &symbols(payload), FINAL_VALUE));
    if text.len() > LIMIT {
        return Err(Refusal::Unwritable);
    }
    let out = out.get_mut(..text.len()).ok_or(Refusal::OutputTooShort)?;
    out.copy_from_slice(&text);
    Ok(text.len())
}

/// Whether this is a name as writers and openings take it.
pub(crate) fn is_name(name: &[u8]) -> bool {
    let is_good = |byte: &u8| matches!(byte, b'a'..=b'z' | b'0'..=b'9' | b'+' | b'-' | b'.' | b'_');
    (1..=NAME_LIMIT).contains(&name.len()) && name.iter().all(is_good)
}

/// A text taken apart at its separator.
struct Parts {
    /// In lower case.
    human: Vec<u8>,
    /// The checksum's six are the last.
    symbols: Vec<u8>,
}

impl Parts {
    /// None if letters of both cases occur, there is no separator, or something other than at least six
    /// characters of the alphabet stands behind it.
    fn split(text: &[u8]) -> Option<Self> {
        if text.iter().any(u8::is_ascii_uppercase) && text.iter().any(u8::is_ascii_lowercase) {
            return None;
        }
        let text = text.to_ascii_lowercase();
        let at = text.iter().rposition(|&byte| byte == SEPARATOR)?;
        let symbols: Vec<u8> =
            text[at + 1..].iter().map(|&character| symbol(character)).collect::<Option<_>>()?;
        (symbols.len() >= CHECKSUM_SYMBOLS).then(|| Parts { human: text[..at].to_vec(), symbols })
    }

    /// The parts of a text that has the kind's form: its length, its case and its human part.
    fn of(kind: Kind, text: &[u8]) -> Option<Self> {
        if text.len() > LIMIT || !kind.has_case(text) {
            return None;
        }
        Self::split(text).filter(|parts| kind.name(&parts.human).is_some())
    }

    fn final_value(&self) -> u32 {
        polymod(&self.human, &self.symbols)
    }

    /// The name in the human part, which is the kind's.
    fn name(&self, kind: Kind) -> &[u8] {
        kind.name(&self.human).unwrap_or_default()
    }

    /// 21, then 22.
    fn payload(&self) -> Result<Vec<u8>, Refusal> {
        if self.final_value() != FINAL_VALUE {
            return Err(Refusal::BadChecksum);
        }
        bytes(&self.symbols[..self.symbols.len() - CHECKSUM_SYMBOLS]).ok_or(Refusal::LeftoverBits)
    }
}

/// The value of a lower-case character.
fn symbol(character: u8) -> Option<u8> {
    let value = ALPHABET.iter().position(|&other| other == character)?;
    u8::try_from(value).ok()
}

/// The text of a human part and symbols, with the checksum that ends in the value. All is lower case, and
/// nothing is judged.
pub(crate) fn encode(human: &[u8], symbols: &[u8], final_value: u32) -> Vec<u8> {
    let unsigned = [symbols, &[0; CHECKSUM_SYMBOLS]].concat();
    let checksum = polymod(human, &unsigned) ^ final_value;
    let checksum = (0..CHECKSUM_SYMBOLS).rev().map(|place| (checksum >> (5 * place) & 31) as u8);
    let characters = symbols.iter().copied().chain(checksum).map(|symbol| ALPHABET[usize::from(symbol)]);
    human.iter().copied().chain([SEPARATOR]).chain(characters).collect()
}

/// BIP 173's remainder over a human part and symbols: the high bits of each byte of the human part, a zero,
/// their low bits, then the symbols.
fn polymod(human: &[u8], symbols: &[u8]) -> u32 {
    let high = human.iter().map(|byte| byte >> 5);
    let low = human.iter().map(|byte| byte & 31);
    high.chain([0]).chain(low).chain(symbols.iter().copied()).fold(1, step)
}

fn step(value: u32, symbol: u8) -> u32 {
    let top = value >> 25;
    let shifted = (value & 0x01ff_ffff) << 5 ^ u32::from(symbol);
    let chosen = (0..5).filter(|bit| top >> bit & 1 == 1).map(|bit| GENERATORS[bit]);
    chosen.fold(shifted, |value, generator| value ^ generator)
}

/// The symbols that carry the bytes; unused last bits are zero.
pub(crate) fn symbols(bytes: &[u8]) -> Vec<u8> {
    let (mut symbols, rest) = regroup(bytes, 8, 5);
    if rest.count > 0 {
        symbols.push(rest.bits << (5 - rest.count));
    }
    symbols
}

/// The bytes that the symbols carry; none if 5 or more bits remain, or one that is not zero.
fn bytes(symbols: &[u8]) -> Option<Vec<u8>> {
    let (bytes, rest) = regroup(symbols, 5, 8);
    (rest.count < 5 && rest.bits == 0).then_some(bytes)
}

/// The bits that don't fill a group.
struct Rest {
    bits: u8,
    count: u32,
}

/// The values' bits, highest first, in groups of another width of at most 8.
fn regroup(values: &[u8], from: u32, to: u32) -> (Vec<u8>, Rest) {
    let mut groups = Vec::new();
    let (mut bits, mut count) = (0u32, 0);
    for &value in values {
        bits = bits << from | u32::from(value);
        count += from;
        while count >= to {
            count -= to;
            groups.push((bits >> count) as u8);
            bits &= (1 << count) - 1;
        }
    }
    (groups, Rest { bits: bits as u8, count })
}

#[cfg(test)]
mod tests {
    use super::Kind::{Identity, Recipient};
    use super::Refusal::{BadChecksum, LeftoverBits, NotAnEntry, OutputTooShort, Unwritable};
    use super::*;
    use crate::generate::vectors;

    const BECH32M: u32 = 0x2bc8_30a3;

    /// The identity of document 000.
    const IDENTITY: &[u8] = b"AGE-PLUGIN-FIDO2-HMAC-1QYQXV6TYDUEZ66RDV93SQUSDAT";

    fn written(kind: Kind, name: &[u8], payload: &[u8]) -> Vec<u8> {
        let mut out = vec![0; LIMIT];
        let len = write(kind, name, payload, &mut out).expect("writable");
        out.truncate(len);
        out
    }

    /// The name and the payload of a text that is read into a buffer of just enough bytes.
    fn name_and_payload(kind: Kind, text: &[u8]) -> Option<(Vec<u8>, Vec<u8>)> {
        let mut out = vec![0; LIMIT];
        match read(kind, text, &mut out) {
            Ok(reading) => {
                out.truncate(reading.payload_len);
                assert_eq!(read(kind, text, &mut out), Ok(reading.clone()));
                Some((reading.name, out))
            }
            Err(refusal) => {
                assert!([NotAnEntry, BadChecksum, LeftoverBits].contains(&refusal));
                assert_eq!(read(kind, text, &mut []), Err(refusal));
                None
            }
        }
    }

    fn is_read(kind: Kind, text: &[u8]) -> bool {
        name_and_payload(kind, text).is_some()
    }

    /// A text of the kind with a right checksum, whatever the name and the symbols.
    fn signed(kind: Kind, name: &[u8], symbols: &[u8], final_value: u32) -> Vec<u8> {
        kind.cased(&encode(&kind.human_part(name), symbols, final_value))
    }

    #[test]
    fn published_vectors() {
        let vectors = vectors::all();
        assert_eq!(vectors.len(), 19);
        for vector in vectors {
            assert_eq!(holds(&vector.text), vector.holds, "{:?}", vector.text);
        }
    }

    #[test]
    fn worked_example_identity_of_document_000() {
        let payload = b"\x01\x00fido2-hmac";
        assert_eq!(name_and_payload(Identity, IDENTITY), Some((b"fido2-hmac".to_vec(), payload.to_vec())));
        assert_eq!(written(Identity, b"fido2-hmac", payload), IDENTITY);
        assert_eq!(read(Identity, IDENTITY, &mut [0; 11]), Err(OutputTooShort));
        assert!(!is_read(Recipient, IDENTITY));
        assert!(!is_read(Identity, &IDENTITY.to_ascii_lowercase()));
        assert!(holds(&IDENTITY.to_ascii_lowercase()));
    }

    #[test]
    fn what_is_written_reads_back() {
        let names: [&[u8]; 8] = [b"a", b"1", b"-", b"1-1", b"yubikey", b"+-._09az", &[b'z'; 32], &[b'1'; 32]];
        for kind in [Recipient, Identity] {
            for name in names {
                for len in 0..=120usize {
                    let payload: Vec<u8> = (0..len).map(|at| (at * 151 + len * 7) as u8).collect();
                    let text = written(kind, name, &payload);
                    assert!(holds(&text));
                    assert_eq!(name_and_payload(kind, &text), Some((name.to_vec(), payload)));
                }
            }
        }
    }

    #[test]
    fn a_change_or_an_exchange_is_seen() {
        for kind in [Recipient, Identity] {
            let text = written(kind, b"se", b"0123456789");
            for at in 0..text.len() {
                for byte in (0..=255).filter(|&byte| byte != text[at]) {
                    let mut text = text.clone();
                    text[at] = byte;
                    assert!(!is_read(kind, &text), "{text:?}");
                }
                if at > 0 && text[at - 1] != text[at] {
                    let mut text = text.clone();
                    text.swap(at - 1, at);
                    assert!(!is_read(kind, &text), "{text:?}");
                }
                assert!(!is_read(kind, &text[..at]));
            }
        }
    }

    #[test]
    fn at_most_1024_characters() {
        // 12 characters around a recipient's symbols with a name of one character, 20 around an identity's.
        for (kind, name) in [(Recipient, b"a".as_slice()), (Identity, b"a")] {
            let around = signed(kind, name, &[], FINAL_VALUE).len();
            let longest = (LIMIT - around) * 5 / 8;
            let text = written(kind, name, &vec![7; longest]);
            assert_eq!(text.len(), LIMIT);
            assert!(is_read(kind, &text));
            assert_eq!(write(kind, name, &vec![7; longest], &mut [0; LIMIT - 1]), Err(OutputTooShort));
            assert_eq!(write(kind, name, &vec![7; longest + 1], &mut []), Err(Unwritable));

            let text = signed(kind, name, &symbols(&vec![7; longest + 1]), FINAL_VALUE);
            assert_eq!(text.len(), LIMIT + 1);
            assert!(!is_read(kind, &text));
            assert!(holds(&text));
        }
    }

    #[test]
    fn names_of_1_to_32_characters() {
        for kind in [Recipient, Identity] {
            for len in 0..=40 {
                let name = vec![b'n'; len];
                let good = (1..=NAME_LIMIT).contains(&len);
                assert_eq!(is_read(kind, &signed(kind, &name, &[], FINAL_VALUE)), good, "{len}");
                assert_eq!(write(kind, &name, b"", &mut []).unwrap_err() == OutputTooShort, good, "{len}");
            }
        }
    }

    #[test]
    fn characters_of_a_name() {
        let good: Vec<u8> = (0..=255).filter(|&byte| is_name(&[byte])).collect();
        assert_eq!(good, b"+-.0123456789_abcdefghijklmnopqrstuvwxyz");
        for kind in [Recipient, Identity] {
            for byte in 0..=255u8 {
                let lower = byte.to_ascii_lowercase();
                let text = signed(kind, &[lower], &[], FINAL_VALUE);
                assert_eq!(is_read(kind, &text), good.contains(&lower), "{byte}");
                assert_eq!(write(kind, &[byte], b"", &mut [0; 99]).is_ok(), good.contains(&byte), "{byte}");
            }
        }
    }

    #[test]
    fn other_human_parts() {
        for human in ["", "1", "age", "age1", "ag1a", "aage1a", "age1a/", "age-plugin-a", "age-plugin-a-"] {
            assert!(!is_read(Recipient, &encode(human.as_bytes(), &[], FINAL_VALUE)), "{human}");
        }
        for human in [
            "", "-", "age1a", "age-plugin-", "age-plugin--", "age-plugin-a", "age-plugin-a-x", "age-plugina-",
        ] {
            let text = encode(human.as_bytes(), &[], FINAL_VALUE).to_ascii_uppercase();
            assert!(!is_read(Identity, &text), "{human}");
        }
        assert!(is_read(Recipient, &encode(b"age1age-plugin-", &[], FINAL_VALUE)));
        assert!(is_read(Identity, &encode(b"age-plugin---", &[], FINAL_VALUE).to_ascii_uppercase()));
    }

    #[test]
    fn leftover_bits_are_few_and_zero() {
        for kind in [Recipient, Identity] {
            for len in 1..=16 {
                for last in 0..32u8 {
                    let mut symbols = vec![21; len];
                    symbols[len - 1] = last;
                    let left = len * 5 % 8;
                    let good = left < 5 && last % (1 << left) == 0;
                    assert_eq!(
                        is_read(kind, &signed(kind, b"a", &symbols, FINAL_VALUE)),
                        good,
                        "{len} {last}"
                    );
                }
            }
        }
    }

    #[test]
    fn one_case_only() {
        for kind in [Recipient, Identity] {
            let text = written(kind, b"yubikey", b"payload");
            for at in (0..text.len()).filter(|&at| text[at].is_ascii_alphabetic()) {
                let mut mixed = text.clone();
                mixed[at] ^= 0x20;
                assert!(!holds(&mixed) && !is_read(kind, &mixed), "{mixed:?}");
            }
            let other = if kind == Recipient { text.to_ascii_uppercase() } else { text.to_ascii_lowercase() };
            assert!(holds(&other) && !is_read(kind, &other));
        }
    }

    #[test]
    fn another_final_value_is_refused() {
        for kind in [Recipient, Identity] {
            for final_value in [0, 2, BECH32M, 0x3fff_ffff] {
                let text = signed(kind, b"yubikey", &symbols(b"payload"), final_value);
                assert!(!holds(&text) && !is_read(kind, &text), "{text:?}");
            }
        }
        // BIP 350's first vector.
        assert!(!holds(b"A1LQFN3A"));
    }

    #[test]
    fn the_checksum_alone() {
        for len in [0, 1, 33, 1_024, 5_000] {
            assert!(holds(&encode(&vec![b'\xff'; len], &vec![17; len], FINAL_VALUE)));
        }
        let bad: [&[u8]; 7] = [b"", b"1", b"a", b"a1", b"a12uel5", b"a12uel5lb", b"A12uel5l"];
        for text in bad {
            assert!(!holds(text), "{text:?}");
        }
    }

    #[test]
    fn a_refusal_leaves_the_buffer_alone() {
        let mut out = [7; 11];
        assert_eq!(read(Identity, IDENTITY, &mut out), Err(OutputTooShort));
        assert_eq!(read(Recipient, IDENTITY, &mut out), Err(NotAnEntry));
        assert_eq!(write(Recipient, b"a", b"", &mut out), Err(OutputTooShort));
        assert_eq!(write(Recipient, b"A", b"", &mut out), Err(Unwritable));
        assert_eq!(out, [7; 11]);
    }

    #[test]
    fn a_long_buffer_keeps_its_rest() {
        let mut out = [7; 14];
        assert_eq!(read(Identity, IDENTITY, &mut out).unwrap().payload_len, 12);
        assert_eq!(&out, b"\x01\x00fido2-hmac\x07\x07");
        let mut out = [7; 13];
        assert_eq!(write(Recipient, b"a", b"", &mut out), Ok(12));
        assert_eq!(out[12], 7);
    }

    #[test]
    fn texts_of_a_plugin() {
        let recipient = b"age1interop1qyqszqg83syvs";
        let identity = b"AGE-PLUGIN-INTEROP-1QYQSZQG5Z25TP";
        for name in [b"interop".as_slice(), b"Interop", b"INTEROP"] {
            assert_eq!(fault(Recipient, recipient, name), None);
            assert_eq!(fault(Identity, identity, name), None);
        }
        for name in [b"".as_slice(), b"intero", b"interop-", b"interop "] {
            assert_eq!(fault(Recipient, recipient, name), Some(NotAnEntry));
            assert_eq!(fault(Identity, identity, name), Some(NotAnEntry));
        }
        assert_eq!(fault(Identity, recipient, b"interop"), Some(NotAnEntry));
        assert_eq!(fault(Recipient, &recipient[1..], b"interop"), Some(NotAnEntry));
    }

    /// Another plugin's name is 16, whatever the reader says of the text.
    #[test]
    fn faults_of_a_plugins_texts() {
        for kind in [Recipient, Identity] {
            let wrong_sum = signed(kind, b"se", &symbols(b"payload"), BECH32M);
            let leftover = signed(kind, b"se", &[0; 3], FINAL_VALUE);
            let both = signed(kind, b"se", &[0; 3], BECH32M);
            for (text, refusal) in [(wrong_sum, BadChecksum), (leftover, LeftoverBits), (both, BadChecksum)] {
                assert_eq!(read(kind, &text, &mut []), Err(refusal));
                assert_eq!(fault(kind, &text, b"SE"), Some(refusal));
                assert_eq!(fault(kind, &text, b"tpm"), Some(NotAnEntry));
            }
        }
    }

    /// The form before the checksum, the checksum before the leftover bits, all of them before the buffer.
    #[test]
    fn faults_in_order() {
        for kind in [Recipient, Identity] {
            let text = |name: &[u8], symbols: &[u8], value| signed(kind, name, symbols, value);
            let refused = |text: &[u8]| read(kind, text, &mut []).unwrap_err();
            assert_eq!(refused(&text(b"a", &[0; 2], FINAL_VALUE)), OutputTooShort);
            assert_eq!(refused(&text(b"a", &[0; 3], FINAL_VALUE)), LeftoverBits);
            assert_eq!(refused(&text(b"a", &[1; 2], FINAL_VALUE)), LeftoverBits);
            assert_eq!(refused(&text(b"a", &[1; 2], 0)), BadChecksum);
            assert_eq!(refused(&text(b"a", &[0; 2], 0)), BadChecksum);
            for (symbols, value) in [(&[0; 2], 0), (&[1; 2], 0), (&[1; 2], FINAL_VALUE)] {
                assert_eq!(refused(&text(b"", symbols, value)), NotAnEntry);
                assert_eq!(refused(&text(b"a$", symbols, value)), NotAnEntry);
                let other_case =
                    text(b"a", symbols, value).iter().map(|byte| byte ^ 0x20).collect::<Vec<_>>();
                assert_eq!(refused(&other_case), NotAnEntry);
            }
        }
        // A text in front makes another good name, or none.
        let recipient = b"age1interop1qyqszqg83syvs".as_slice();
        assert_eq!(read(Recipient, &[b"age1", recipient].concat(), &mut [0; 9]), Err(BadChecksum));
        assert_eq!(read(Recipient, b"age2interop1qyqszqg83syvq", &mut [0; 9]), Err(NotAnEntry));
    }

    #[test]
    fn places_of_faults() {
        for (text, place) in [
            ("", 0),
            ("a", 1),
            ("1", 1),
            ("b", 1),
            ("1b", 1),
            ("1B", 1),
            ("1bb1b", 4),
            ("1qQ$", 3),
            ("a$1q", 4),
            ("a 1b", 1),
            ("a1b ", 2),
            ("b\x7f", 1),
            ("age1x1QQQQQQ", 12),
            ("age1x1qqqqqQ", 12),
            ("age1x1qqqqq", 11),
            ("age1x1qqqqqqi", 12),
            ("AGE-PLUGIN-A-1qqqqqqO", 20),
            ("\n1qqqqqq", 0),
        ] {
            assert_eq!(place_of_fault(text.as_bytes()), place, "{text:?}");
        }
        for len in [1_024, 1_025, 3_000] {
            let good = [b"age1".as_slice(), &vec![b'q'; len - 4]].concat();
            assert_eq!(place_of_fault(&good), len);
            for bad in [5, 1_023, len - 1] {
                let mut text = good.clone();
                text[bad] = b'b';
                assert_eq!(place_of_fault(&text), bad);
            }
            let mut text = good.clone();
            text[20] = b'b';
            text[len - 1] = b'1';
            assert_eq!(place_of_fault(&text), len);
        }
    }
}
