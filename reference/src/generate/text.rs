//! Lines for stanza text and indices.

use super::Script;
use crate::base64;
use crate::stanza::{LIMIT, LINE_BYTES, LINE_CHARACTERS};

/// Every damaged place is given each of these, and a random byte.
const DAMAGE: &[u8] = b"\n \r=A\x00\x7f\xff";

/// What is put behind whole stanzas.
const TAILS: [&[u8]; 8] = [b"\n", b" ", b"A", b"=", b"\r", b"\xff", b"\n\n", b"-> done\n\n"];

pub(super) fn sections(script: &mut Script) {
    worked_examples(script);
    corner_cases(script);
    every_byte(script);
    short_stanzas(script);
    line_boundaries(script);
    body_lengths(script);
    large_bodies(script);
    whole_near_limit(script);
    unended_near_limit(script);
    bad_near_limit(script);
    writes(script);
    write_lengths(script);
    write_near_limit(script);
    indices(script);
}

/// The text of a stanza of any length; the paper's limit plays no part.
pub(super) fn stanza_text(arguments: &[u8], body: &[u8]) -> Vec<u8> {
    let mut characters = vec![0; base64::encoded_len(body.len())];
    base64::fill_encoded(body, &mut characters);
    let mut text = [b"-> ", arguments, b"\n"].concat();
    for line in characters.chunks(LINE_CHARACTERS) {
        text.extend(line);
        text.push(b'\n');
    }
    if characters.len().is_multiple_of(LINE_CHARACTERS) {
        text.push(b'\n');
    }
    text
}

fn worked_examples(script: &mut Script) {
    script.heading("Worked examples of document 01");
    script.stanza(b"-> done\n\n");
    script.stanza(b"-> done\n");
    script.stanza(b"-> add-recipient  age1foo\n\n");
    script.stanza(&stanza_text(b"wrap-file-key", &[0; 16]));
    script.write(b"wrap-file-key", &[0; 16], 40);
    script.write(b"wrap-file-key", &[0; 16], 39);
    for len in [47, 48] {
        script.stanza(&stanza_text(b"msg", &vec![b'm'; len]));
        script.write(b"msg", &vec![b'm'; len], 100);
    }
    script.stanza(b"-> ok no\n\n");
    for text in ["0", "01", "4294967295", "4294967296"] {
        script.index(text.as_bytes());
    }
    script.heading("An empty body without its empty line");
    script.stanza(b"-> done\n-> done\n\n");
}

fn corner_cases(script: &mut Script) {
    script.heading("Corner cases of stanza text");
    let texts: [&[u8]; 30] = [
        b"", b"-", b"->", b"-> ", b"-> a", b"-> a ", b"-> a\n", b"x", b"--", b"->\n", b"->\t", b"->  a\n\n",
        b"-> \n\n", b"-> a \n\n", b"-> a\r\n\r\n", b" -> a\n\n", b"\n-> a\n\n", b"-> a\nAB", b"-> a\nAB\n",
        b"-> a\nAAB", b"-> a\nAAB\n", b"-> a\nA", b"-> a\nA\n", b"-> a\nAAAAA\n", b"-> a\nAA==\n",
        b"-> a\nAA=", b"-> a\n=", b"-> a\nAA\r\n", b"-> a\n\n\r", b"-> ! ~ !~\n+/8\n",
    ];
    for text in texts {
        script.stanza(text);
    }
    let line = [b'A'; LINE_CHARACTERS];
    let tails: [&[u8]; 12] = [
        b"", b"A", b"=", b"\r", b"\n", b"\n\n", b"\nA", b"\nAA\n", b"\nAB\n", b"\n-> done\n\n", b"A\n\n",
        b"\n\n\n",
    ];
    for tail in tails {
        script.stanza(&[b"-> a\n", line.as_slice(), tail].concat());
        script.stanza(&[b"-> a\n", line.as_slice(), b"\n", line.as_slice(), tail].concat());
        script.stanza(&[b"-> a\n", &line[1..], tail].concat());
    }
}

/// Each of the 256 bytes at the places where it matters which one it is.
fn every_byte(script: &mut Script) {
    let places: [(&str, &[u8], &[u8]); 6] = [
        ("first of a text", b"", b"-> a\n\n"),
        ("inside an argument", b"-> a", b"b\n\n"),
        ("first of an argument", b"-> a ", b"\n\n"),
        ("last of two characters", b"-> a\nA", b"\n"),
        ("last of three characters", b"-> a\nAA", b"\n"),
        ("among four characters", b"-> a\nA", b"AA\n"),
    ];
    for (place, before, behind) in places {
        script.heading(&format!("Every byte: {place}"));
        for byte in 0..=255 {
            script.stanza(&[before, &[byte], behind].concat());
        }
    }
    script.heading("Every byte: written in an argument");
    for byte in 0..=255 {
        script.write(&[b'a', byte, b'b'], b"", 8);
    }
    script.heading("Every byte: written as a body");
    for byte in 0..=255 {
        script.write(b"a", &[byte], 8);
    }
    script.heading("Every byte: last of an index");
    for byte in 0..=255 {
        script.index(&[b'1', byte]);
    }
}

/// Short stanzas with every cut, every damage, every exchange of neighbours, and tails.
fn short_stanzas(script: &mut Script) {
    let mut texts = vec![
        stanza_text(b"done", b""),
        stanza_text(b"ok yes", b"1"),
        stanza_text(b"a", b"\xff\xff"),
        stanza_text(b"file-key 0", &[0; 16]),
        stanza_text(b"confirm eWVz bm8", b"go?"),
        stanza_text(b"error stanza 0 12", b"\x00\x01\x02\x03"),
    ];
    for len in 1..5 {
        let arguments = script.random.argument(3 * len);
        let body = script.random.bytes(5 * len);
        texts.push(stanza_text(&arguments, &body));
    }
    for text in &texts {
        script.heading("A short stanza and its variants");
        script.stanza(text);
        cuts(script, text);
        damages(script, text);
        moved_bytes(script, text);
        for tail in TAILS {
            script.stanza(&[text, tail].concat());
        }
    }
}

/// The text cut at every place.
fn cuts(script: &mut Script, text: &[u8]) {
    for len in 0..text.len() {
        script.stanza(&text[..len]);
    }
}

/// Each byte replaced by each other byte of `DAMAGE` and by a random one.
fn damages(script: &mut Script, text: &[u8]) {
    for at in 0..text.len() {
        for &byte in DAMAGE.iter().filter(|&&byte| byte != text[at]) {
            script.stanza(&replaced(text, at, byte));
        }
        let byte = script.random.byte();
        script.stanza(&replaced(text, at, byte));
    }
}

/// Neighbours exchanged, a byte dropped, a byte doubled, at every place; then some exchanges from afar.
fn moved_bytes(script: &mut Script, text: &[u8]) {
    for at in 1..text.len() {
        script.stanza(&exchanged(text, at - 1, at));
        script.stanza(&[&text[..at - 1], &text[at..]].concat());
        script.stanza(&[&text[..at], &text[at - 1..]].concat());
    }
    for _ in 0..10 {
        let (one, other) = (script.random.below(text.len()), script.random.below(text.len()));
        script.stanza(&exchanged(text, one, other));
    }
}

pub(super) fn replaced(text: &[u8], at: usize, byte: u8) -> Vec<u8> {
    let mut text = text.to_vec();
    text[at] = byte;
    text
}

pub(super) fn exchanged(text: &[u8], one: usize, other: usize) -> Vec<u8> {
    let mut text = text.to_vec();
    text.swap(one, other);
    text
}

/// Bodies around a whole number of lines, with every cut and two damages at every place.
fn line_boundaries(script: &mut Script) {
    for len in [47, 48, 49, 96] {
        script.heading(&format!("A body of {len} bytes and its variants"));
        let body = script.random.letters(len);
        let text = stanza_text(b"m", &body);
        script.stanza(&text);
        cuts(script, &text);
        for at in 0..text.len() {
            let chosen = script.random.one_of(DAMAGE);
            script.stanza(&replaced(&text, at, chosen));
            let character = script.random.one_of(b"ABgw+/\n");
            script.stanza(&replaced(&text, at, character));
        }
    }
}

/// A body of each length up to 200, each with a cut, a damage, an exchange and a tail.
fn body_lengths(script: &mut Script) {
    script.heading("Bodies of 0 to 200 bytes");
    for len in 0..=200 {
        let words = 1 + script.random.below(3);
        let arguments = some_arguments(script, words);
        let body = script.random.bytes(len);
        let text = stanza_text(&arguments, &body);
        script.stanza(&text);
        let cut = script.random.below(text.len());
        script.stanza(&text[..cut]);
        let (at, byte) = (script.random.below(text.len()), script.random.one_of(DAMAGE));
        script.stanza(&replaced(&text, at, byte));
        let (one, other) = (script.random.below(text.len()), script.random.below(text.len()));
        script.stanza(&exchanged(&text, one, other));
        let tail_len = 1 + script.random.below(6);
        let tail = script.random.bytes(tail_len);
        script.stanza(&[text, tail].concat());
    }
}

/// So many arguments of 1 to 8 bytes.
fn some_arguments(script: &mut Script, words: usize) -> Vec<u8> {
    let mut arguments: Vec<Vec<u8>> = Vec::new();
    for _ in 0..words {
        let len = 1 + script.random.below(8);
        arguments.push(script.random.argument(len));
    }
    arguments.join(&b' ')
}

fn large_bodies(script: &mut Script) {
    script.heading("Large bodies");
    for len in [480, 959, 1_440, 2_000, 3_001, 4_799, 6_000] {
        let body = script.random.letters(len);
        let text = stanza_text(b"msg large", &body);
        script.stanza(&text);
        script.stanza(&text[..text.len() / 2]);
    }
}

/// A whole stanza of exactly `len` bytes with this body: the argument takes up the rest.
fn whole(len: usize, body: &[u8]) -> Vec<u8> {
    let rest = len - stanza_text(b"", body).len();
    stanza_text(&vec![b'a'; rest], body)
}

fn whole_near_limit(script: &mut Script) {
    script.heading("Whole stanzas of 8,190 to 8,194 bytes");
    // An empty body; one whose last line has characters; one whose last line is empty.
    for body_len in [0, 6_001, 125 * LINE_BYTES] {
        let body = script.random.letters(body_len);
        for len in LIMIT - 2..=LIMIT + 2 {
            script.stanza(&whole(len, &body));
        }
    }
    script.heading("A whole stanza of 8,192 bytes and more behind it");
    script.stanza(&[whole(LIMIT, b"end"), b"\r".to_vec()].concat());
}

/// A text of `offset` bytes that is alive; its next byte has so many characters before it on a body line.
fn body_until(offset: usize, characters: usize) -> Vec<u8> {
    let line = LINE_CHARACTERS + 1;
    let argument = (offset - b"-> \n".len() - characters - 1) % line + 1;
    let mut text = [b"-> ", vec![b'b'; argument].as_slice(), b"\n"].concat();
    while text.len() < offset {
        text.extend([b'C'; LINE_CHARACTERS]);
        text.push(b'\n');
    }
    text.truncate(offset);
    text
}

/// A text of `offset` bytes that is alive, inside its first line.
fn arguments_until(offset: usize) -> Vec<u8> {
    let mut text = b"-> ".to_vec();
    text.resize(offset, b'c');
    text
}

fn unended_near_limit(script: &mut Script) {
    script.heading("Unended texts near 8,192 bytes");
    for len in LIMIT - 2..=LIMIT + 1 {
        script.stanza(&arguments_until(len));
    }
    for len in LIMIT - 1..=LIMIT {
        script.stanza(&body_until(len, 30));
        script.stanza(&body_until(len, 0));
        script.stanza(&body_until(len, LINE_CHARACTERS));
    }
}

fn bad_near_limit(script: &mut Script) {
    script.heading("Bad bytes at 8,190, 8,191 and 8,192");
    for offset in LIMIT - 2..=LIMIT {
        let mut text = arguments_until(offset);
        text.extend(b"\x7f\n\n");
        script.stanza(&text);
        let mut text = body_until(offset, 20);
        text.extend(b"=\n");
        script.stanza(&text);
    }
    script.heading("A 65th character, or an LF, at 8,191 and 8,192");
    for offset in LIMIT - 1..=LIMIT {
        script.stanza(&[body_until(offset, LINE_CHARACTERS), b"A\n".to_vec()].concat());
        // 61 characters are 1 mod 4; 62 C's have unused bits that are not zero; 60 may stand last.
        for characters in [61, 62, 60] {
            script.stanza(&[body_until(offset, characters), b"\n".to_vec()].concat());
        }
    }
}

fn writes(script: &mut Script) {
    script.heading("Arguments that can and can't be written");
    let arguments: [&[u8]; 16] = [
        b"", b" ", b"  ", b" a", b"a ", b"a  b", b"a b  c d", b"a\nb", b"a\r", b"\x00", b"a b\x7f", b"\x80",
        b"a", b"! ~", b"-> done", b"\\ \\e",
    ];
    for arguments in arguments {
        for out in [0, 30, 65_536] {
            script.write(arguments, b"body", out);
        }
    }
    script.heading("Arguments of random bytes");
    for _ in 0..60 {
        let words = 1 + script.random.below(4);
        let mut arguments = some_arguments(script, words);
        script.write(&arguments, b"", 64);
        let (at, byte) = (script.random.below(arguments.len()), script.random.one_of(DAMAGE));
        arguments[at] = byte;
        script.write(&arguments, b"", 64);
    }
}

/// A body of each length up to 200, with a buffer of exactly the length and of another.
fn write_lengths(script: &mut Script) {
    script.heading("Bodies of 0 to 200 bytes, written");
    for len in 0..=200 {
        let body = if len < 100 { script.random.bytes(len) } else { script.random.letters(len) };
        let exact = stanza_text(b"msg", &body).len();
        script.write(b"msg", &body, exact);
        let other = [exact - 1, 0, exact + 1, 65_536][script.random.below(4)];
        script.write(b"msg", &body, other);
    }
    script.heading("Bodies around whole lines, written");
    for len in [0, 1, 2, 3, 46, 47, 48, 49, 50, 95, 96, 97, 143, 144, 145] {
        let body = vec![b'z'; len];
        let exact = stanza_text(b"request-public", &body).len();
        for out in [exact, exact - 1, 0, 65_536] {
            script.write(b"request-public", &body, out);
        }
    }
}

fn write_near_limit(script: &mut Script) {
    script.heading("Written stanzas of 8,192 bytes and of 8,193");
    for body_len in [0, 48, 5_952, 6_045] {
        let body = script.random.letters(body_len);
        let rest = LIMIT - stanza_text(b"", &body).len();
        script.write(&vec![b'w'; rest], &body, LIMIT);
        script.write(&vec![b'w'; rest], &body, LIMIT - 1);
        script.write(&vec![b'w'; rest + 1], &body, 65_536);
    }
    script.heading("Longer by far");
    for body_len in [6_046, 6_048, 6_144, 8_192, 8_193, 20_000] {
        script.write(b"a", &vec![b'x'; body_len], 65_536);
    }
    script.write(b"a", &[b'x'; 6_144], 0);
    script.write(&[b'w'; 8_193], b"", 0);
}

fn indices(script: &mut Script) {
    script.heading("Indices at the bounds, and texts that are none");
    let texts = [
        "", "0", "1", "9", "10", "00", "01", "001", "000000000000", "07", "4294967289", "4294967290",
        "4294967294", "4294967295", "4294967296", "4294967297", "4294967300", "4294967305", "4300000000",
        "5000000000", "9999999999", "10000000000", "42949672950", "04294967295", "8589934592",
        "18446744073709551615", "18446744073709551616", "18446744073709551621",
        "340282366920938463463374607431768211457", "+1", "-1", "-0", "1-", " 1", "1 ", "1 2", "1\n", "\n",
        "1.0", "1e3", "1_000", "1,000", "0x10", "a", "1a", "a1", "/", ":", "1/2", "1:2", "\u{661}", "\u{b2}",
    ];
    for text in texts {
        script.index(text.as_bytes());
    }
    script.heading("Long indices");
    for len in [11, 19, 20, 21, 38, 39, 40, 100, 1_000] {
        script.index(&vec![b'1'; len]);
        script.index(&vec![b'9'; len]);
        script.index(&vec![b'0'; len]);
        script.index(&[b"1", vec![b'0'; len].as_slice()].concat());
    }
    script.heading("Random indices, good, too large, and damaged");
    for _ in 0..150 {
        let bits = 1 + script.random.below(32);
        let good = script.random.next() >> (64 - bits);
        script.index(good.to_string().as_bytes());
        let bits = 30 + script.random.below(6);
        let large = script.random.next() >> (64 - bits);
        script.index(large.to_string().as_bytes());
        let mut text = good.to_string().into_bytes();
        let (at, byte) = (script.random.below(text.len()), script.random.byte());
        text[at] = byte;
        script.index(&text);
    }
}

#[cfg(test)]
mod tests {
    use super::*;
    use crate::stanza;

    #[test]
    fn stanza_text_is_what_would_be_written() {
        for len in 0..300 {
            let mut out = vec![0; LIMIT];
            let written = stanza::write(b"a b", &vec![b'x'; len], &mut out).unwrap();
            assert_eq!(stanza_text(b"a b", &vec![b'x'; len]), out[..written]);
        }
    }

    #[test]
    fn texts_near_the_limit_have_their_length() {
        assert_eq!(whole(LIMIT, b"body").len(), LIMIT);
        assert_eq!(arguments_until(LIMIT).len(), LIMIT);
        for characters in 0..=LINE_CHARACTERS {
            let text = body_until(LIMIT, characters);
            assert_eq!(text.len(), LIMIT);
            let line = text.iter().rev().take_while(|&&byte| byte == b'C').count();
            assert_eq!(line, characters);
        }
    }
}
