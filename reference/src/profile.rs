//! The stanza check of one plugin, fido2-hmac (document 01, "Phase two", and source document 000).
//!
//! What the salt, the nonce and the credential mean is not judged here.

use crate::base64;

/// The plugin whose stanzas are checked; its stanzas bear its name as their tag.
const FIDO2_HMAC: &[u8] = b"fido2-hmac";

const SALT_BYTES: usize = 32;
const NONCE_BYTES: usize = 12;
const BODY_BYTES: usize = 32;

/// What the check finds.
#[derive(Clone, Copy, Debug, PartialEq, Eq)]
pub enum Finding {
    /// A fido2-hmac stanza as the plugin writes it.
    Conforming,
    /// The paper's "faulty": the tag is fido2-hmac, and the arguments or the body are not as they should be.
    Nonconforming,
    /// Another tag, or any tag under another plugin name.
    Unknown,
}

/// Checks a stanza for the plugin. `line` is the tag and its arguments, split at each space.
///
/// The name is compared without case, the tag byte for byte.
#[must_use]
pub fn check(plugin: &[u8], line: &[u8], body: &[u8]) -> Finding {
    let words: Vec<&[u8]> = line.split(|&byte| byte == b' ').collect();
    if !plugin.eq_ignore_ascii_case(FIDO2_HMAC) || words[0] != FIDO2_HMAC {
        Finding::Unknown
    } else if are_arguments(&words[1..]) && body.len() == BODY_BYTES {
        Finding::Conforming
    } else {
        Finding::Nonconforming
    }
}

/// Whether these are salt and nonce, and where present a credential of at least one byte.
fn are_arguments(arguments: &[&[u8]]) -> bool {
    match *arguments {
        [salt, nonce] => are_salt_and_nonce(salt, nonce),
        [salt, nonce, credential] => {
            are_salt_and_nonce(salt, nonce) && base64::decoded_len(credential).is_some_and(|len| len > 0)
        }
        _ => false,
    }
}

fn are_salt_and_nonce(salt: &[u8], nonce: &[u8]) -> bool {
    base64::decoded_len(salt) == Some(SALT_BYTES) && base64::decoded_len(nonce) == Some(NONCE_BYTES)
}

#[cfg(test)]
mod tests {
    use super::Finding::{Conforming, Nonconforming, Unknown};
    use super::*;

    fn base64_of(len: usize) -> String {
        "A".repeat(base64::encoded_len(len))
    }

    fn line(salt: usize, nonce: usize) -> String {
        format!("fido2-hmac {} {}", base64_of(salt), base64_of(nonce))
    }

    fn found(line: &str, body: usize) -> Finding {
        check(b"fido2-hmac", line.as_bytes(), &vec![0; body])
    }

    #[test]
    fn two_or_three_arguments() {
        assert_eq!(found("fido2-hmac", 32), Nonconforming);
        assert_eq!(found(&format!("fido2-hmac {}", base64_of(32)), 32), Nonconforming);
        assert_eq!(found(&line(32, 12), 32), Conforming);
        assert_eq!(found(&(line(32, 12) + " AA"), 32), Conforming);
        assert_eq!(found(&(line(32, 12) + " AA AA"), 32), Nonconforming);
    }

    #[test]
    fn each_length_counts() {
        for len in 0..80 {
            let expected = |right| if len == right { Conforming } else { Nonconforming };
            assert_eq!(found(&line(len, 12), 32), expected(32), "salt {len}");
            assert_eq!(found(&line(32, len), 32), expected(12), "nonce {len}");
            assert_eq!(found(&line(32, 12), len), expected(32), "body {len}");
            let credential = format!("{} {}", line(32, 12), base64_of(len));
            let expected = if len == 0 { Nonconforming } else { Conforming };
            assert_eq!(found(&credential, 32), expected, "credential {len}");
        }
    }

    #[test]
    fn arguments_are_strict_base64() {
        let good = line(32, 12);
        assert_eq!(found(&(good.clone() + " AB"), 32), Nonconforming);
        assert_eq!(found(&(good.clone() + " A"), 32), Nonconforming);
        assert_eq!(found(&(good.clone() + " AA=="), 32), Nonconforming);
        assert_eq!(found(&good.replacen("A ", "B ", 1), 32), Nonconforming);
        assert_eq!(found(&(good + "\n"), 32), Nonconforming);
    }

    #[test]
    fn an_empty_argument_is_of_0_bytes() {
        let good = line(32, 12);
        assert_eq!(found(&(good.clone() + " "), 32), Nonconforming);
        assert_eq!(found(&good.replacen(' ', "  ", 1), 32), Nonconforming);
        assert_eq!(found(&format!(" {good}"), 32), Unknown);
    }

    #[test]
    fn other_tags_and_other_plugins_are_unknown() {
        let good = line(32, 12);
        for tag in ["Fido2-hmac", "fido2-hmacs", "fido2", "X25519", ""] {
            assert_eq!(found(&good.replace("fido2-hmac", tag), 32), Unknown, "{tag}");
        }
        for plugin in ["yubikey", "fido2", "fido2-hmac ", ""] {
            assert_eq!(check(plugin.as_bytes(), good.as_bytes(), &[0; 32]), Unknown, "{plugin}");
        }
        assert_eq!(check(b"FIDO2-Hmac", good.as_bytes(), &[0; 32]), Conforming);
        assert_eq!(found("", 32), Unknown);
    }
}
