//! The library and the second program give the same results, before anything is measured: on texts long and short, good and damaged.
//! A refused call leaves what it was lent as it was.

use crate::library::{self, Name, Parts};
use crate::plain;
use crate::texts::{self, ARGUMENTS, LIMIT, NAME};
use crate::work::Task;
use reference::bech32::{self, Kind};
use reference::refusal::Refusal;
use reference::{index, stanza};

/// What the lent numbers and buffers hold before each call.
const PARTS: Parts = Parts { line: 1_001, body: 1_002, taken: 1_003 };
const LENGTH: usize = 1_004;
const VALUE: u32 = 1_005;
const BYTE: u8 = 0xa5;
const KEPT: Name = Name { bytes: [BYTE; 32], length: 1_006 };

/// Bytes that a text may have in one place or another, and some that it never has.
const DAMAGE: [u8; 16] = *b"\0\n\r !+-/1=Abqz~\x7f";

/// Panics at the first difference; gives how many calls were compared.
pub fn check() -> usize {
    plain::make_tables();
    let mut calls = Calls::default();
    for on in texts::measured() {
        for &task in &on.tasks {
            match task {
                Task::Read => damaged(&on.text, |text| calls.read(text)),
                Task::Write => calls.write(ARGUMENTS, &on.content),
                Task::ReadText(kind) => damaged(&on.text, |text| calls.read_text(kind, text)),
                Task::WriteText(kind) => calls.write_text(kind, on.plugin, &on.content),
                Task::Decode | Task::ReadAndDecode | Task::ReadFile => {}
            }
        }
    }
    calls.stanzas();
    calls.bech32_texts();
    calls.count
}

/// The text, each beginning of it, and the text with one byte damaged; of a long text a part of these.
fn damaged(text: &[u8], mut read: impl FnMut(&[u8])) {
    let step = 1 + text.len() / 1_000;
    read(text);
    for at in (0..text.len()).step_by(step) {
        read(&text[..at]);
        for byte in DAMAGE {
            let mut damaged = text.to_vec();
            damaged[at] = byte;
            read(&damaged);
        }
    }
}

#[derive(Default)]
struct Calls {
    count: usize,
}

impl Calls {
    /// Stanzas and indices, at their limits too.
    fn stanzas(&mut self) {
        for len in (0..=300).chain([1_000, 5_962, 5_963, 5_964, 6_100, 8_192, 8_193]) {
            self.write(b"ok ! ~~ x", &texts::bytes(len));
        }
        for arguments in
            [b"".as_slice(), b" ", b"a ", b" a", b"a  b", b"a\n", b"a\x7f", b"a\x80", b"a b", &[b'a'; 8_200]]
        {
            self.write(arguments, b"body");
        }
        for len in [8_190, 8_191, 8_192, 8_193] {
            let text = [b"-> ".as_slice(), &[b'a'; 8_192]].concat();
            self.read(&text[..len]);
            self.read(&[&text[..len - 2], b"\n\n"].concat());
        }
        for text in
            ["", "0", "00", "01", "7", "10", "/", ":", "1a", "-1", "4294967295", "4294967296", "42949672950"]
        {
            self.index(text.as_bytes());
        }
    }

    /// Recipients and identities, at their limits too.
    fn bech32_texts(&mut self) {
        for kind in [Kind::Recipient, Kind::Identity] {
            for len in (0..=120).chain(600..=640).chain([1_024, 1_025, 8_192]) {
                self.write_text(kind, NAME, &texts::bytes(len));
            }
            for name in [
                b"".as_slice(),
                b"a",
                b"1",
                b"-",
                b"+-._09az",
                b"Yubikey",
                b"a b",
                b"\x80",
                &[b'z'; 32],
                &[b'z'; 33],
            ] {
                self.write_text(kind, name, b"payload");
            }
        }
    }

    /// Reading, and decoding the body into a buffer that is too short, just long enough, and longer.
    fn read(&mut self, text: &[u8]) {
        self.count += 1;
        let mut parts = PARTS;
        let number = library::read(text, &mut parts);
        let read = match stanza::read(text) {
            Ok(read) => read,
            Err(refusal) => {
                assert_eq!((number, parts), (refusal.number(), PARTS), "reading {text:?}");
                return;
            }
        };
        let Parts { line, body, taken } = parts;
        let expected = (0, read.argument_range().end, read.body_len(), read.taken());
        assert_eq!((number, line, body, taken), expected, "reading {text:?}");
        for room in [body.saturating_sub(1), body, body + 5] {
            self.count += 1;
            let mut ours = vec![BYTE; room];
            let mut theirs = ours.clone();
            let mut length = LENGTH;
            let number = library::body(text, line, taken, &mut ours, &mut length);
            let expected = answer(read.decode_body(&mut theirs));
            assert_eq!((number, length, ours), (expected.0, expected.1, theirs), "the body of {text:?}");
        }
    }

    /// Writing to a buffer that is too short, just long enough, and longer; what was written is read.
    fn write(&mut self, arguments: &[u8], body: &[u8]) {
        let mut text = vec![BYTE; LIMIT + 5];
        let len = stanza::write(arguments, body, &mut text).unwrap_or(LIMIT);
        for room in [0, len - 1, len, len + 5] {
            self.count += 1;
            let mut ours = vec![BYTE; room];
            let mut theirs = ours.clone();
            let mut length = LENGTH;
            let number = library::write(arguments, body, &mut ours, &mut length);
            let expected = answer(stanza::write(arguments, body, &mut theirs));
            assert_eq!(
                (number, length, ours),
                (expected.0, expected.1, theirs),
                "writing {arguments:?} {body:?}"
            );
        }
        self.read(&text);
    }

    /// Reading into a buffer that is too short, just long enough, and longer.
    fn read_text(&mut self, kind: Kind, text: &[u8]) {
        let len = bech32::read(kind, text, &mut [0; LIMIT]).map_or(0, |read| read.payload_len);
        for room in [len.saturating_sub(1), len, len + 5] {
            self.count += 1;
            let mut ours = vec![BYTE; room];
            let mut theirs = ours.clone();
            let (mut name, mut length) = (KEPT, LENGTH);
            let number = library::read_text(kind, text, &mut name, &mut ours, &mut length);
            let expected = match bech32::read(kind, text, &mut theirs) {
                Ok(read) => (0, padded(&read.name), read.payload_len),
                Err(refusal) => (refusal.number(), KEPT, LENGTH),
            };
            assert_eq!((number, name, length), expected, "reading {kind:?} {text:?}");
            assert_eq!(ours, theirs, "reading {kind:?} {text:?}");
            let mut plain_name = Name { bytes: [0; 32], length: 0 };
            let plain = plain::read_text(kind, text, &mut plain_name, &mut ours);
            assert_eq!(plain, (number == 0).then_some(length), "plain C, reading {kind:?} {text:?}");
            if number == 0 {
                assert_eq!((plain_name, ours), (name, theirs), "plain C, reading {kind:?} {text:?}");
            }
        }
    }

    /// Writing to a buffer that is too short, just long enough, and longer; what was written is read as both kinds, in both cases.
    fn write_text(&mut self, kind: Kind, name: &[u8], payload: &[u8]) {
        let mut text = vec![BYTE; LIMIT];
        let len = bech32::write(kind, name, payload, &mut text).unwrap_or(bech32::LIMIT);
        for room in [0, len - 1, len, len + 5] {
            self.count += 1;
            let mut ours = vec![BYTE; room];
            let mut theirs = ours.clone();
            let mut length = LENGTH;
            let number = library::write_text(kind, name, payload, &mut ours, &mut length);
            let expected = answer(bech32::write(kind, name, payload, &mut theirs));
            assert_eq!((number, length), expected, "writing {kind:?} {name:?} {payload:?}");
            assert_eq!(ours, theirs, "writing {kind:?} {name:?} {payload:?}");
            let plain = plain::write_text(kind, name, payload, &mut ours);
            assert_eq!(plain, if number == 0 { length } else { 0 }, "plain C, writing {kind:?} {name:?}");
            if number == 0 {
                assert_eq!(ours, theirs, "plain C, writing {kind:?} {name:?} {payload:?}");
            }
        }
        for kind in [Kind::Recipient, Kind::Identity] {
            self.read_text(kind, &text[..len]);
            self.read_text(kind, &text[..len].to_ascii_lowercase());
            self.read_text(kind, &text[..len].to_ascii_uppercase());
        }
    }

    fn index(&mut self, text: &[u8]) {
        self.count += 1;
        let mut value = VALUE;
        let number = library::index(text, &mut value);
        let expected = match index::read(text) {
            Ok(index) => (0, index),
            Err(refusal) => (refusal.number(), VALUE),
        };
        assert_eq!((number, value), expected, "the index {text:?}");
    }
}

/// The number and the length that the library should give.
fn answer(written: Result<usize, Refusal>) -> (u8, usize) {
    match written {
        Ok(len) => (0, len),
        Err(refusal) => (refusal.number(), LENGTH),
    }
}

/// The name as the library gives it: zeros behind it.
fn padded(name: &[u8]) -> Name {
    let mut bytes = [0; 32];
    bytes[..name.len()].copy_from_slice(name);
    Name { bytes, length: name.len() }
}
