//! Lines for Bech32: the checksum alone, recipients and identities.

use super::text::{exchanged, replaced};
use super::{vectors, Script};
use crate::bech32::Kind::{self, Identity, Recipient};
use crate::bech32::{encode, symbols, ALPHABET, FINAL_VALUE, LIMIT, NAME_LIMIT};

const KINDS: [Kind; 2] = [Recipient, Identity];

/// The final value of Bech32m.
const BECH32M: u32 = 0x2bc8_30a3;

/// The identity of document 000.
const IDENTITY: &[u8] = b"AGE-PLUGIN-FIDO2-HMAC-1QYQXV6TYDUEZ66RDV93SQUSDAT";

/// Names that could be taken for something else, among them one with each sort of character.
const NAMES: [&[u8]; 20] = [
    b"a", b"x", b"se", b"tpm", b"yubikey", b"fido2-hmac", b"1", b"11", b"a1", b"1a", b"a1b1c", b"age1", b"-",
    b"--", b"a-", b"-1-", b"age-plugin-", b"q1qqqqqq", b"+-._", b"a.b_c+d-e0z9",
];

/// Bytes that no text of either kind has, or not in its case.
const FOREIGN: &[u8] = b"bio1 /BIO\n\x00\x7f\x80\xb1\xf1\xff";

pub(super) fn sections(script: &mut Script) {
    published_vectors(script);
    worked_example(script);
    payload_lengths(script);
    names(script);
    name_lengths(script);
    every_byte(script);
    human_parts(script);
    cases(script);
    leftover_bits(script);
    final_values(script);
    short_texts(script);
    lengthened_texts(script);
    near_limit(script);
    buffer_lengths(script);
    long_payloads(script);
    checksums(script);
    random_texts(script);
}

/// The text of a name and a payload; no limit plays a part.
pub(super) fn text_of(kind: Kind, name: &[u8], payload: &[u8]) -> Vec<u8> {
    signed(kind, name, &symbols(payload))
}

/// The text of a name and any symbols, with a right checksum.
pub(super) fn signed(kind: Kind, name: &[u8], symbols: &[u8]) -> Vec<u8> {
    kind.cased(&encode(&kind.human_part(name), symbols, FINAL_VALUE))
}

/// The text with its letters in the other case.
pub(super) fn other_case(text: &[u8]) -> Vec<u8> {
    text.iter().map(|&byte| other_case_of(byte)).collect()
}

pub(super) fn other_case_of(byte: u8) -> u8 {
    if byte.is_ascii_alphabetic() {
        byte ^ 0x20
    } else {
        byte
    }
}

/// A name of the length, with characters of each sort.
fn some_name(script: &mut Script, len: usize) -> Vec<u8> {
    (0..len).map(|_| script.random.one_of(b"abcdefghijklmnopqrstuvwxyz0123456789+-._1-")).collect()
}

fn some_symbols(script: &mut Script, len: usize) -> Vec<u8> {
    (0..len).map(|_| script.random.below(32) as u8).collect()
}

fn published_vectors(script: &mut Script) {
    script.heading("BIP 173's vectors, the checksum alone");
    for vector in vectors::all() {
        script.checksum(&vector.text);
    }
    script.heading("BIP 173's vectors are no recipients and no identities");
    for vector in vectors::all() {
        script.read(Recipient, &vector.text, 100);
        script.read(Identity, &vector.text, 100);
    }
}

fn worked_example(script: &mut Script) {
    script.heading("The identity of document 000");
    for out in [12, 11, 13, 0, 65_536] {
        script.read(Identity, IDENTITY, out);
    }
    script.read(Recipient, IDENTITY, 12);
    script.read(Identity, &other_case(IDENTITY), 12);
    script.checksum(IDENTITY);
    script.checksum(&other_case(IDENTITY));
    for out in [49, 48] {
        script.write_text(Identity, b"fido2-hmac", b"\x01\x00fido2-hmac", out);
    }
    script.heading("The same with the plain name as its payload");
    script.write_text(Identity, b"fido2-hmac", b"fido2-hmac", 100);
    script.write_text(Recipient, b"fido2-hmac", b"fido2-hmac", 100);
}

/// A payload of each length: read and written, each with a buffer of exactly the length and one too short.
fn payload_lengths(script: &mut Script) {
    script.heading("Payloads of 0 to 64 bytes");
    for len in 0..=64 {
        for kind in KINDS {
            let name_len = 1 + script.random.below(12);
            let name = some_name(script, name_len);
            let payload = if len < 24 { script.random.bytes(len) } else { script.random.letters(len) };
            let text = text_of(kind, &name, &payload);
            script.read(kind, &text, len);
            script.write_text(kind, &name, &payload, text.len());
            if len > 0 {
                script.read(kind, &text, len - 1);
            }
            script.write_text(kind, &name, &payload, text.len() - 1);
        }
    }
}

/// Each of the odd names, with its text in the right and the wrong call.
fn names(script: &mut Script) {
    script.heading("Names");
    for name in NAMES {
        for kind in KINDS {
            script.write_text(kind, name, b"key", 100);
            script.write_text(kind, &other_case(name), b"key", 100);
            let text = text_of(kind, name, b"key");
            script.read(Recipient, &text, 3);
            script.read(Identity, &text, 3);
            script.checksum(&text);
        }
    }
}

fn name_lengths(script: &mut Script) {
    script.heading("Names of 0 to 40 characters");
    for len in 0..=40 {
        let name = some_name(script, len);
        for kind in KINDS {
            script.read(kind, &text_of(kind, &name, b"\x00"), 1);
            script.write_text(kind, &name, b"\x00", 100);
        }
    }
    script.heading("Names of 32 and 33, with the buffer too short");
    for len in [NAME_LIMIT, NAME_LIMIT + 1, 1_000, 1_024] {
        let name = script.random.letters(len);
        for kind in KINDS {
            script.read(kind, &text_of(kind, &name, b"k"), 0);
            script.write_text(kind, &name, b"k", 0);
        }
    }
}

/// Each of the 256 bytes at the places where it matters which one it is.
fn every_byte(script: &mut Script) {
    for kind in KINDS {
        script.heading(&format!("Every byte: a name, {kind:?}"));
        for byte in 0..=255 {
            script.read(kind, &text_of(kind, &[byte], b""), 0);
            script.write_text(kind, &[byte], b"", 30);
        }
        script.heading(&format!("Every byte: last of a name that is written, {kind:?}"));
        for byte in 0..=255 {
            script.write_text(kind, &[b'a', byte], b"", 30);
        }
        script.heading(&format!("Every byte: in place of a symbol, {kind:?}"));
        let text = text_of(kind, b"a", b"\xa5");
        for byte in 0..=255 {
            script.read(kind, &replaced(&text, text.len() - 7, byte), 1);
        }
        script.heading(&format!("Every byte: a payload, {kind:?}"));
        for byte in 0..=255 {
            script.read(kind, &text_of(kind, b"a", &[byte]), 1);
        }
    }
    script.heading("Every byte: the human part, the checksum alone");
    for byte in 0..=255u8 {
        let text = encode(&[byte.to_ascii_lowercase()], &[], FINAL_VALUE);
        script.checksum(&replaced(&text, 0, byte));
        script.checksum(&replaced(&text.to_ascii_uppercase(), 0, byte));
    }
    script.heading("Every byte: last of the checksum");
    for byte in 0..=255 {
        script.checksum(&[b"A12UEL5".as_slice(), &[byte]].concat());
    }
}

/// Human parts that are no kind's, and separators elsewhere, each with a right checksum.
fn human_parts(script: &mut Script) {
    script.heading("Other human parts, with a right checksum");
    let parts: [&[u8]; 34] = [
        b"", b"1", b"a", b"age", b"age1", b"age11", b"age-", b"agea", b"ag1a", b"aage1a", b"1age1a",
        b" age1a", b"age 1a", b"age1a ", b"age1 a", b"age1a/b", b"age1a,", b"age1a\x7f", b"age1\xe9",
        b"age1a\n", b"age1a", b"age1a-", b"age-plugin", b"age-plugin-", b"age-plugin--", b"age-plugin---",
        b"age-plugin-a", b"age-plugin-a-", b"age-plugin-a-b", b"age-plugina-", b"ageplugin-a-",
        b"age_plugin-a-", b"age-plugin-a_", b"xage-plugin-a-",
    ];
    for human in parts {
        let text = encode(human, &symbols(b"\x01"), FINAL_VALUE);
        script.checksum(&text);
        script.read(Recipient, &text, 1);
        script.read(Identity, &text.to_ascii_uppercase(), 1);
    }
    script.heading("A native age key, and other separators");
    script.read(Recipient, &encode(b"age", &symbols(&[7; 32]), FINAL_VALUE), 32);
    script.read(
        Identity,
        &encode(b"age-secret-key-", &symbols(&[7; 32]), FINAL_VALUE).to_ascii_uppercase(),
        32,
    );
    for kind in KINDS {
        let text = text_of(kind, b"yubikey", b"0123456789");
        let at = text.iter().rposition(|&byte| byte == b'1').expect("a separator");
        script.read(kind, &[&text[..at], &text[at + 1..]].concat(), 10);
        for other in (0..=text.len()).filter(|&other| other != at) {
            let mut text = text.clone();
            text.remove(at);
            text.insert(other.min(text.len()), b'1');
            script.read(kind, &text, 10);
            script.checksum(&text);
        }
    }
}

/// Both calls on texts of both cases, and on texts with one letter in the other case.
fn cases(script: &mut Script) {
    script.heading("Cases");
    for kind in KINDS {
        for name in [b"yubikey".as_slice(), b"1", b"-2-"] {
            let text = text_of(kind, name, b"case");
            for text in [text.to_ascii_lowercase(), text.to_ascii_uppercase()] {
                script.read(Recipient, &text, 4);
                script.read(Identity, &text, 4);
                script.checksum(&text);
            }
            for at in (0..text.len()).filter(|&at| text[at].is_ascii_alphabetic()) {
                let mixed = replaced(&text, at, other_case_of(text[at]));
                script.read(kind, &mixed, 4);
                script.checksum(&mixed);
            }
        }
    }
}

/// Each last symbol behind each number of symbols: 5 and more bits left, fewer and not zero, and good ones.
fn leftover_bits(script: &mut Script) {
    for kind in KINDS {
        script.heading(&format!("Leftover bits, with a right checksum, {kind:?}"));
        for len in 1..=8 {
            for last in 0..32 {
                let mut symbols = some_symbols(script, len);
                symbols[len - 1] = last;
                script.read(kind, &signed(kind, b"a", &symbols), 5);
            }
        }
        script.heading(&format!("Leftover bits and the buffer too short, {kind:?}"));
        for len in 1..=24 {
            script.read(kind, &signed(kind, b"a", &vec![0; len]), 0);
            script.read(kind, &signed(kind, b"a", &vec![31; len]), 0);
        }
    }
}

fn final_values(script: &mut Script) {
    script.heading("Other final values: Bech32m and others");
    for kind in KINDS {
        for name in NAMES {
            let text = kind.cased(&encode(&kind.human_part(name), &symbols(b"final"), BECH32M));
            script.read(kind, &text, 5);
            script.checksum(&text);
        }
        for bit in 0..30 {
            let text =
                kind.cased(&encode(&kind.human_part(b"tpm"), &symbols(b"bit"), FINAL_VALUE ^ 1 << bit));
            script.read(kind, &text, 3);
            script.checksum(&text);
        }
    }
    script.checksum(b"A1LQFN3A");
    script.checksum(b"a1lqfn3a");
}

/// Short texts with every change, exchange, cut and addition.
fn short_texts(script: &mut Script) {
    for kind in KINDS {
        let texts = [
            text_of(kind, b"a", b""),
            text_of(kind, b"se", b"\x00\x01\x02"),
            text_of(kind, b"1-", b"0123456789"),
            text_of(kind, b"yubikey", &script.random.bytes(16)),
        ];
        for text in texts {
            script.heading(&format!("A short text and its variants, {kind:?}"));
            script.read(kind, &text, 16);
            script.checksum(&text);
            changes(script, kind, &text);
            moved_characters(script, kind, &text);
            cuts_and_additions(script, kind, &text);
        }
    }
}

/// Each character replaced by another of the alphabet, in the text's case, by a foreign byte and by a random one.
fn changes(script: &mut Script, kind: Kind, text: &[u8]) {
    for at in 0..text.len() {
        let character = kind.cased(&[script.random.one_of(ALPHABET)])[0];
        script.read(kind, &replaced(text, at, character), 16);
        script.checksum(&replaced(text, at, character));
        let foreign = script.random.one_of(FOREIGN);
        script.read(kind, &replaced(text, at, foreign), 16);
        let byte = script.random.byte();
        script.read(kind, &replaced(text, at, byte), 16);
    }
}

/// Neighbours exchanged, a character dropped, a character doubled, at every place; then exchanges from afar.
fn moved_characters(script: &mut Script, kind: Kind, text: &[u8]) {
    for at in 1..text.len() {
        script.read(kind, &exchanged(text, at - 1, at), 16);
        script.read(kind, &[&text[..at - 1], &text[at..]].concat(), 16);
        script.read(kind, &[&text[..at], &text[at - 1..]].concat(), 16);
    }
    for _ in 0..10 {
        let (one, other) = (script.random.below(text.len()), script.random.below(text.len()));
        script.read(kind, &exchanged(text, one, other), 16);
        script.checksum(&exchanged(text, one, other));
    }
}

/// The text cut on the right and on the left at every place, and with characters at its ends.
fn cuts_and_additions(script: &mut Script, kind: Kind, text: &[u8]) {
    for at in 0..text.len() {
        script.read(kind, &text[..at], 16);
        script.read(kind, &text[at + 1..], 16);
    }
    let ends: [&[u8]; 10] = [b"q", b"Q", b"p", b"P", b"1", b" ", b"\n", b"\x00", b"\xff", b"1QQQQQQ"];
    for end in ends {
        script.read(kind, &[text, end].concat(), 16);
        script.read(kind, &[end, text].concat(), 16);
        script.checksum(&[text, end].concat());
    }
}

/// Texts that end in "p", with any number of "q" in front of it: the checksum holds all the same, as BIP 173
/// warns, and the payload decides.
fn lengthened_texts(script: &mut Script) {
    script.heading("A last \"p\" and any number of \"q\" in front of it");
    for kind in KINDS {
        let text = ending_in_p(kind);
        for zeros in 0..=16 {
            script.read(kind, &lengthened(&text, zeros), 16);
            script.checksum(&lengthened(&text, zeros));
        }
    }
}

/// A text whose last symbol is 1.
fn ending_in_p(kind: Kind) -> Vec<u8> {
    let mut texts = (0..=255).map(|byte| text_of(kind, b"a", &[byte]));
    texts.find(|text| text.to_ascii_lowercase().ends_with(b"p")).expect("one of them ends so")
}

/// The text with so many symbols 0 in front of its last character.
fn lengthened(text: &[u8], zeros: usize) -> Vec<u8> {
    let (last, rest) = text.split_last().expect("a text");
    let zero = if text.iter().any(u8::is_ascii_uppercase) { b'Q' } else { b'q' };
    [rest, &vec![zero; zeros], &[*last]].concat()
}

/// A name and a payload whose text has exactly the length, and the text.
pub(super) fn sized(script: &mut Script, kind: Kind, len: usize) -> (Vec<u8>, Vec<u8>, Vec<u8>) {
    let mut name = some_name(script, 1);
    loop {
        let left = len - text_of(kind, &name, b"").len();
        // No payload makes 1, 3 or 6 symbols behind a multiple of 8: the name then takes a character more.
        let payload = script.random.letters(left * 5 / 8);
        let text = text_of(kind, &name, &payload);
        if text.len() == len {
            return (name, payload, text);
        }
        name.push(b'n');
    }
}

fn near_limit(script: &mut Script) {
    script.heading("Texts of 1,023 to 1,026 characters");
    for len in LIMIT - 1..=LIMIT + 2 {
        for kind in KINDS {
            let (name, payload, text) = sized(script, kind, len);
            script.read(kind, &text, payload.len());
            script.write_text(kind, &name, &payload, 65_536);
            script.checksum(&text);
        }
    }
    script.heading("Texts of 1,024 and of 1,025 characters, and buffers one too short");
    for len in [LIMIT, LIMIT + 1] {
        for kind in KINDS {
            let (name, payload, text) = sized(script, kind, len);
            script.read(kind, &text, payload.len() - 1);
            script.write_text(kind, &name, &payload, len);
            script.write_text(kind, &name, &payload, len - 1);
        }
    }
    script.heading("A text of 1,024 characters with one changed, one dropped and one added");
    for kind in KINDS {
        let (_, _, text) = sized(script, kind, LIMIT);
        let at = 100 + script.random.below(900);
        let character = kind.cased(&[script.random.one_of(ALPHABET)])[0];
        script.read(kind, &replaced(&text, at, character), 1_024);
        script.read(kind, &text[..LIMIT - 1], 1_024);
        script.read(kind, &lengthened(&text, 1), 1_024);
    }
    script.heading("A name of 32 characters in a text of 1,024");
    for kind in KINDS {
        for more in 0..6 {
            let payload_len = (LIMIT - text_of(kind, &[b'n'; NAME_LIMIT], b"").len()) * 5 / 8 - 3 + more;
            let payload = script.random.letters(payload_len);
            script.write_text(kind, &[b'n'; NAME_LIMIT], &payload, 2_000);
        }
    }
}

/// Buffers of many lengths; 16 and 17 come before 15.
fn buffer_lengths(script: &mut Script) {
    script.heading("Buffers exactly long enough, longer and shorter");
    for kind in KINDS {
        for len in [1, 4, 5, 6, 20, 31, 32, 33] {
            let name_len = 1 + script.random.below(6);
            let name = script.random.letters(name_len);
            let payload = script.random.letters(len);
            let text = text_of(kind, &name, &payload);
            for out in [len, len - 1, len + 1, 0, 65_536] {
                script.read(kind, &text, out);
            }
            for out in [text.len(), text.len() - 1, text.len() + 1, 0, 65_536] {
                script.write_text(kind, &name, &payload, out);
            }
        }
    }
    script.heading("A bad text, or a bad name, and a buffer too short");
    for kind in KINDS {
        let text = text_of(kind, b"yubikey", b"0123456789");
        script.read(kind, &other_case(&text), 0);
        script.read(kind, &exchanged(&text, text.len() - 2, text.len() - 1), 0);
        script.read(kind, &text_of(kind, b"yubi key", b"0123456789"), 0);
        for name in [b"".as_slice(), b"A", b"yubi key", b"yubikey\x00", b"\xff"] {
            script.write_text(kind, name, b"0123456789", 0);
        }
    }
}

fn long_payloads(script: &mut Script) {
    script.heading("Payloads far too long");
    for kind in KINDS {
        script.write_text(kind, b"a", &[b'x'; 1_024], 0);
        script.write_text(kind, b"a", &[b'x'; 4_096], 65_536);
        script.read(kind, &text_of(kind, b"a", &[b'x'; 1_024]), 65_536);
    }
}

fn checksums(script: &mut Script) {
    script.heading("The checksum alone: corner cases");
    let texts: [&[u8]; 24] = [
        b"", b"1", b"11", b"q", b"qqqqqq", b"qqqqqqq", b"1qqqqqq", b"1QQQQQQ", b"a1qqqqqq", b"a1", b"a12",
        b"a12uel5", b"a12uel5lq", b"a12uel5l1", b"a12uel5l ", b" a12uel5l", b"A12uel5l", b"a12UEL5L",
        b"a12uel5L", b"A12UEL5l", b"a1a2uel5l", b"a1b2uel5l", b"2uel5l", b"12uel5l",
    ];
    for text in texts {
        script.checksum(text);
    }
    script.heading("The checksum alone: every number of symbols, and any human part");
    for len in 0..=60 {
        let human_len = script.random.below(12);
        let human = script.random.bytes(human_len).to_ascii_lowercase();
        let text = encode(&human, &some_symbols(script, len), FINAL_VALUE);
        script.checksum(&text);
        script.checksum(&text.to_ascii_uppercase());
        let at = script.random.below(text.len());
        script.checksum(&replaced(&text, at, b'q'));
        script.checksum(&text[..text.len() - 1]);
    }
    script.heading("The checksum alone has no limit");
    for len in [1_016, 1_017, 5_000] {
        let text = encode(b"a", &some_symbols(script, len), FINAL_VALUE);
        script.checksum(&text);
        script.checksum(&replaced(&text, len / 2, b'b'));
    }
    let text = encode(&[b'h'; 2_000], &[], FINAL_VALUE);
    script.checksum(&text);
    script.checksum(&exchanged(&text, 1_999, 2_000));
}

/// Any name, payload, damage and buffer.
fn random_texts(script: &mut Script) {
    script.heading("Random texts, with none, one or two characters changed");
    for _ in 0..400 {
        let kind = KINDS[script.random.below(2)];
        let name_len = 1 + script.random.below(10);
        let name = some_name(script, name_len);
        let payload_len = script.random.below(34);
        let payload = script.random.bytes(payload_len);
        let mut text = text_of(kind, &name, &payload);
        for _ in 0..script.random.below(3) {
            let (at, character) = (script.random.below(text.len()), script.random.one_of(ALPHABET));
            text[at] = kind.cased(&[character])[0];
        }
        let out = (payload_len + 2).saturating_sub(script.random.below(4));
        match script.random.below(4) {
            0 => script.checksum(&text),
            1 => script.write_text(kind, &name, &payload, text.len()),
            _ => script.read(kind, &text, out),
        }
    }
}

#[cfg(test)]
mod tests {
    use super::*;
    use crate::bech32::{holds, write};

    #[test]
    fn text_of_is_what_would_be_written() {
        for kind in KINDS {
            for name in NAMES {
                let mut out = vec![0; LIMIT];
                let len = write(kind, name, b"payload", &mut out).unwrap();
                assert_eq!(text_of(kind, name, b"payload"), out[..len]);
            }
        }
    }

    #[test]
    fn sized_texts_have_their_length() {
        let mut script = Script::new();
        for len in 1_000..1_050 {
            for kind in KINDS {
                let (name, payload, text) = sized(&mut script, kind, len);
                assert_eq!(text.len(), len);
                assert_eq!(text_of(kind, &name, &payload), text);
            }
        }
    }

    #[test]
    fn a_lengthened_text_has_a_good_checksum() {
        for kind in KINDS {
            for zeros in 0..=16 {
                assert!(holds(&lengthened(&ending_in_p(kind), zeros)));
            }
        }
    }
}
