//! Lines for the stanza check of fido2-hmac.

use super::text::replaced;
use super::Script;
use crate::base64;

const NAME: &[u8] = b"fido2-hmac";

/// Plugin names and tags that are fido2-hmac, nearly so, or not at all.
const NAMES: [&[u8]; 18] = [
    b"fido2-hmac", b"FIDO2-HMAC", b"Fido2-Hmac", b"fido2-hmaC", b"", b"fido2-hma", b"ido2-hmac",
    b"fido2-hmacs", b"fido2_hmac", b"fido2", b"hmac", b"yubikey", b"piv-p256", b"X25519", b"fido2-hmac\x00",
    b"\x00fido2-hmac", b"\xe6ido2-hmac", b"\x46IDO2\x0dHMAC",
];

/// What damages an argument.
const DAMAGE: &[u8] = b"=-_ \n\rB9/\x00\x7f\xff";

pub(super) fn sections(script: &mut Script) {
    names(script);
    argument_counts(script);
    lengths(script);
    unused_bits(script);
    damaged_arguments(script);
    empty_words(script);
    random_stanzas(script);
}

/// Characters that decode to so many zero bytes.
fn zeros(len: usize) -> Vec<u8> {
    vec![b'A'; base64::encoded_len(len)]
}

/// The base64 of the bytes.
pub(super) fn base64_of(bytes: &[u8]) -> Vec<u8> {
    let mut text = vec![0; base64::encoded_len(bytes.len())];
    base64::fill_encoded(bytes, &mut text);
    text
}

/// A line with arguments of these lengths; all of them decode.
fn line(lens: &[usize]) -> Vec<u8> {
    let arguments = lens.iter().map(|&len| zeros(len));
    [NAME.to_vec()].into_iter().chain(arguments).collect::<Vec<_>>().join(&b' ')
}

fn names(script: &mut Script) {
    script.heading("Profile: plugin names, and tags");
    for name in NAMES {
        script.profile(name, &line(&[32, 12]), &[b'k'; 32]);
    }
    for tag in NAMES {
        let arguments = [b" ", zeros(32).as_slice(), b" ", &zeros(12)].concat();
        script.profile(NAME, &[tag, &arguments].concat(), &[b'k'; 32]);
        script.profile(NAME, tag, &[b'k'; 32]);
        script.profile(tag, &[tag, &arguments].concat(), &[b'k'; 32]);
        script.profile(tag, &[tag, &arguments].concat(), b"k");
    }
}

fn argument_counts(script: &mut Script) {
    script.heading("Profile: 0 to 6 arguments");
    let lens = [32, 12, 1, 1, 1, 1];
    for count in 0..=6 {
        for body in [32, 0] {
            script.profile(NAME, &line(&lens[..count]), &vec![b'k'; body]);
            script.profile(b"yubikey", &line(&lens[..count]), &vec![b'k'; body]);
        }
    }
    script.heading("Profile: arguments in another order");
    for lens in
        [[12, 32].as_slice(), &[32, 1, 12], &[1, 32, 12], &[12, 32, 1], &[12, 1, 32], &[32, 32], &[12, 12]]
    {
        script.profile(NAME, &line(lens), &[b'k'; 32]);
    }
}

fn lengths(script: &mut Script) {
    script.heading("Profile: a salt of each length");
    for len in (0..=36).chain([48, 64, 96]) {
        script.profile(NAME, &line(&[len, 12]), &[b'k'; 32]);
    }
    script.heading("Profile: a nonce of each length");
    for len in (0..=16).chain([24, 32]) {
        script.profile(NAME, &line(&[32, len]), &[b'k'; 32]);
        script.profile(NAME, &line(&[32, len, 7]), &[b'k'; 32]);
    }
    script.heading("Profile: a credential of each length");
    for len in (0..=10).chain([31, 32, 33, 48, 64, 6_000]) {
        script.profile(NAME, &line(&[32, 12, len]), &[b'k'; 32]);
    }
    script.heading("Profile: a body of each length");
    for len in (0..=34).chain([48, 64, 1_000]) {
        script.profile(NAME, &line(&[32, 12]), &vec![b'k'; len]);
    }
}

/// A credential of one byte has four unused bits, of two bytes two; a salt has two.
fn unused_bits(script: &mut Script) {
    script.heading("Profile: every byte as a credential's last character");
    let good = line(&[32, 12]);
    for byte in 0..=255 {
        script.profile(NAME, &[&good, b" A".as_slice(), &[byte]].concat(), &[b'k'; 32]);
    }
    script.heading("Profile: some bytes as the last of two, three and four characters, and of a salt");
    for &byte in b"AQgwEMUYBCP/" {
        for stem in [b" AA".as_slice(), b" AAA", b" AAAAA"] {
            script.profile(NAME, &[&good, stem, &[byte]].concat(), &[b'k'; 32]);
        }
        script.profile(NAME, &replaced(&good, NAME.len() + 43, byte), &[b'k'; 32]);
    }
}

/// Each place of a stanza with three arguments damaged.
fn damaged_arguments(script: &mut Script) {
    script.heading("Profile: each character of a line damaged");
    let good = line(&[32, 12, 3]);
    script.profile(NAME, &good, &[b'k'; 32]);
    for at in 0..good.len() {
        let byte = script.random.one_of(DAMAGE);
        script.profile(NAME, &replaced(&good, at, byte), &[b'k'; 32]);
    }
    script.heading("Profile: a line cut at each place");
    for len in 0..good.len() {
        script.profile(NAME, &good[..len], &[b'k'; 32]);
    }
    script.heading("Profile: padding and other endings");
    for end in [b"=".as_slice(), b"==", b"A", b"AA", b"\n", b"\r", b"\x00", b"=A"] {
        script.profile(NAME, &[&line(&[32, 12]), end].concat(), &[b'k'; 32]);
        script.profile(NAME, &[&good, end].concat(), &[b'k'; 32]);
    }
}

/// A line is split at each space: an empty argument is 0 bytes, and an empty tag is another tag.
fn empty_words(script: &mut Script) {
    script.heading("Profile: empty words");
    let (salt, nonce) = (zeros(32), zeros(12));
    let words: [&[&[u8]]; 12] = [
        &[b""],
        &[b"", b""],
        &[NAME, b""],
        &[NAME, b"", b""],
        &[NAME, b"", b"", b""],
        &[b"", NAME, &salt, &nonce],
        &[NAME, b"", &salt, &nonce],
        &[NAME, &salt, b"", &nonce],
        &[NAME, &salt, &nonce, b""],
        &[NAME, &salt, &nonce, b"", b""],
        &[NAME, &salt, &nonce, b"AA", b""],
        &[NAME, &salt, &nonce, b"", b"AA"],
    ];
    for words in words {
        script.profile(NAME, &words.join(&b' '), &[b'k'; 32]);
    }
}

/// Lengths at or near the right ones, and one character changed now and then.
fn random_stanzas(script: &mut Script) {
    script.heading("Profile: random stanzas");
    for _ in 0..80 {
        let (line, body) = some_stanza(script);
        let line = match script.random.below(4) {
            0 => {
                let (at, byte) = (script.random.below(line.len()), script.random.one_of(DAMAGE));
                replaced(&line, at, byte)
            }
            _ => line,
        };
        script.profile(NAME, &line, &body);
    }
}

/// A fido2-hmac stanza without empty arguments; its lengths are right more often than not.
pub(super) fn some_stanza(script: &mut Script) -> (Vec<u8>, Vec<u8>) {
    let mut line = NAME.to_vec();
    let salt = near(script, 32);
    let nonce = near(script, 12);
    let credential = 1 + script.random.below(4);
    let lens = [salt, nonce, credential];
    for &len in &lens[..2 + script.random.below(2)] {
        line.push(b' ');
        line.extend(base64_of(&script.random.bytes(len)));
    }
    let body = near(script, 32);
    (line, script.random.letters(body))
}

/// The length, or rarely one more or one less.
fn near(script: &mut Script, len: usize) -> usize {
    [len, len, len, len, len, len, len, len, len, len, len - 1, len + 1][script.random.below(12)]
}

#[cfg(test)]
mod tests {
    use super::*;
    use crate::profile::{check, Finding};

    #[test]
    fn some_stanzas_conform_and_some_do_not() {
        let mut script = Script::new();
        let stanzas: Vec<_> = (0..100).map(|_| some_stanza(&mut script)).collect();
        let found =
            |finding| stanzas.iter().filter(|(line, body)| check(NAME, line, body) == finding).count();
        assert!(found(Finding::Conforming) > 20 && found(Finding::Nonconforming) > 20);
    }
}
