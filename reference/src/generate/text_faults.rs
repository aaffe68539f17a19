//! Lines for what is wrong with a text (document 02, No. 4): 16 with its place, 21 and 22, in this order; the
//! numbers that entries keep, and what those hold back.

use super::bech32::{other_case, other_case_of, sized, text_of};
use super::commands::{Command, End, ENDS, IDENTITY, PLUGIN, RECIPIENT};
use super::identity_file::joined;
use super::phase_two::exchanges::{file_key, unknown, Exchange, Start, AMPLE};
use super::text::replaced;
use super::Script;
use crate::bech32::Kind::{self, Identity, Recipient};
use crate::bech32::{encode, symbols, ALPHABET, FINAL_VALUE, LIMIT};
use crate::session::KINDS;

const BECH32_KINDS: [Kind; 2] = [Recipient, Identity];

/// Bytes that may be a place: outside 33 to 126, or outside the alphabet.
const BAD: &[u8] = b"bB$iO~- \x00\n\x1f\x7f\x80\xff";

pub(super) fn sections(script: &mut Script) {
    places(script);
    two_places(script);
    separators(script);
    long_texts(script);
    orders(script);
    marks(script);
    held_back(script);
    identity_files(script);
    random_texts(script);
}

/// A text of the kind with symbols of any sort, and a checksum that holds or does not.
fn made(kind: Kind, name: &[u8], symbols: &[u8], holds: bool) -> Vec<u8> {
    let value = if holds { FINAL_VALUE } else { FINAL_VALUE ^ 2 };
    kind.cased(&encode(&kind.human_part(name), symbols, value))
}

/// Each byte of a text replaced by each that may be a place, and by letters of both cases.
fn places(script: &mut Script) {
    for kind in BECH32_KINDS {
        script.heading(&format!("Places: each byte replaced, {kind:?}"));
        let text = text_of(kind, b"a1-", b"\xa5");
        for at in 0..text.len() {
            for &byte in BAD.iter().chain(b"1qQ") {
                script.read(kind, &replaced(&text, at, byte), 1);
            }
            script.read(kind, &replaced(&text, at, other_case_of(text[at])), 1);
        }
    }
}

/// Two bytes at once: the first from the left is the place.
fn two_places(script: &mut Script) {
    for kind in BECH32_KINDS {
        script.heading(&format!("Places: two bytes replaced, {kind:?}"));
        for _ in 0..120 {
            let mut text = text_of(kind, b"tpm", b"place");
            for _ in 0..2 {
                let at = script.random.below(text.len());
                text[at] = script.random.one_of(BAD);
            }
            script.read(kind, &text, 5);
        }
    }
}

/// The separator is the last "1", be it a good one or not; without one only 33 to 126 counts.
fn separators(script: &mut Script) {
    script.heading("Places: separators of all sorts");
    let texts: [&[u8]; 40] = [
        b"", b"1", b"11", b"q", b"b", b"B", b" ", b"\n", b"1b", b"b1", b"b1b", b"1b1", b"age", b"age1",
        b"age1a", b"age1b", b"age1a1", b"age1a1q", b"age1a1qqqqq", b"age1a1qqqqqq", b"age1a1qqqqqb",
        b"age1a1bqqqqq", b"age1a1qqqqq1", b"age1a1qqqqqqq1", b"age11qqqqqq", b"age1$1qqqqqq",
        b"age2a1qqqqqq", b"age2a1lelu8n", b"1age1a", b"age1bio", b"ageabio", b"ageabi\x7f", b"age1a1lelu8n",
        b"age1a1lelu8n1", b"age1a1lelu8n1b", b"age1a1lelu8n1qqqqqq", b"age1age1a1lelu8n",
        b"age-plugin-a-1qqqqqq", b"age-plugin--1qqqqqq", b"age-plugin-1a-1qqqq",
    ];
    for text in texts {
        for text in [text.to_vec(), text.to_ascii_uppercase()] {
            script.read(Recipient, &text, 0);
            script.read(Identity, &text, 0);
        }
    }
    for kind in BECH32_KINDS {
        script.heading(&format!(
            "Places: the separator put elsewhere, and bad bytes before and behind it, {kind:?}"
        ));
        let text = text_of(kind, b"tpm", b"sep");
        for at in 0..text.len() {
            let moved = replaced(&text, at, b'1');
            script.read(kind, &moved, 3);
            for byte in [b'b', b'B', b'\x7f'] {
                script.read(kind, &replaced(&moved, text.len() - 1, byte), 3);
                script.read(kind, &replaced(&moved, 12, byte), 3);
            }
        }
    }
}

/// The whole text is looked through, past 1,024 too.
fn long_texts(script: &mut Script) {
    for kind in BECH32_KINDS {
        script.heading(&format!("Places: in and behind the first 1,024 bytes, {kind:?}"));
        for len in [LIMIT, LIMIT + 1, LIMIT + 80] {
            let text = sized(script, kind, len).2;
            script.read(kind, &text, LIMIT);
            script.read(kind, &other_case(&text), LIMIT);
            let wrong_sum = if text[len - 1].eq_ignore_ascii_case(&b'q') { b"pP" } else { b"qQ" };
            script.read(kind, &replaced(&text, len - 1, wrong_sum[kind as usize]), LIMIT);
            for at in [2, LIMIT / 2, LIMIT - 2, LIMIT - 1, LIMIT, LIMIT + 1, LIMIT + 79] {
                if at < len {
                    script.read(kind, &replaced(&text, at, b'b'), LIMIT);
                    script.read(kind, &replaced(&replaced(&text, at, b'1'), 900, b'b'), LIMIT);
                    script.read(kind, &replaced(&replaced(&text, at, b'\t'), len - 1, b'b'), LIMIT);
                }
            }
        }
        script.heading(&format!("Places: far too long, {kind:?}"));
        for byte in [b'q', b'b', b'1', b' '] {
            script.read(kind, &[byte; 3_000], 0);
            script.read(kind, &replaced(&[b'q'; 3_000], 2_999, byte), 0);
        }
    }
}

/// Faults of a text's form, each with a fault of the checksum, of the leftover bits and of the output buffer.
fn orders(script: &mut Script) {
    // No bits left; four that are zero; seven; one that is set.
    let symbols: [&[u8]; 5] = [&[], &[9; 8], &[0, 16, 0, 0], &[0; 3], &[0, 1]];
    let names: [&[u8]; 5] = [b"tpm", b"", b"t$m", b"t m", &[b'n'; 33]];
    for kind in BECH32_KINDS {
        script.heading(&format!("Faults of a text in their order, {kind:?}"));
        for name in names {
            for symbols in symbols {
                for holds in [true, false] {
                    let text = made(kind, name, symbols, holds);
                    for out in [5, 0] {
                        script.read(kind, &text, out);
                    }
                    script.read(kind, &other_case(&text), 5);
                    script.read(kind, &replaced(&text, text.len() - 1, b'b'), 5);
                }
            }
        }
        script.heading(&format!("Leftover bits with right and wrong checksums, {kind:?}"));
        for len in 1..=9 {
            for last in [0, 1, 2, 4, 8, 16, 31] {
                let mut symbols = vec![0; len];
                symbols[len - 1] = last;
                for holds in [true, false] {
                    script.read(kind, &made(kind, b"a", &symbols, holds), 0);
                }
            }
        }
    }
}

/// Texts of the session's plugin and of others, with each fault and with two: the first two are valid, the next
/// eight are 21 and 22 by turns, and all others are 16.
fn texts_to_mark(kind: Kind) -> Vec<Vec<u8>> {
    let mut texts = vec![text_of(kind, PLUGIN, b""), text_of(kind, PLUGIN, b"key")];
    for leftover in [[0; 3], [31; 3], [1; 3], [4; 3]] {
        texts.push(made(kind, PLUGIN, &leftover, false));
        texts.push(made(kind, PLUGIN, &leftover, true));
    }
    for name in [b"other".as_slice(), b"intero", b"interop-", b""] {
        texts.push(made(kind, name, &symbols(b"key"), true));
        texts.push(made(kind, name, &symbols(b"key"), false));
        texts.push(made(kind, name, &[0; 3], true));
        texts.push(made(kind, name, &[0; 3], false));
    }
    let good = text_of(kind, PLUGIN, b"key");
    texts.push(other_case(&good));
    texts.push(replaced(&good, good.len() - 1, b'b'));
    texts.push(replaced(&good, good.len() - 8, b'1'));
    texts.push(good[..good.len() - 6].to_vec());
    texts.push(made(kind, PLUGIN, &[9; 1_016], false));
    texts
}

/// Entries keep the number, at both ends and in both machines.
fn marks(script: &mut Script) {
    for end in ENDS {
        for machine in [RECIPIENT, IDENTITY] {
            script.heading(&format!("The numbers that entries keep, {machine}, {end:?}"));
            let add_recipient: fn(&[u8]) -> Command = Command::add_recipient;
            for (kind, add) in [(Recipient, add_recipient), (Identity, Command::add_identity)] {
                let phase: Vec<Command> = texts_to_mark(kind).iter().map(|text| add(text)).collect();
                script.conversation(end, machine, [4_000; KINDS], &phase);
                // The other kind's texts are none.
                let phase: Vec<Command> = texts_to_mark(kind).iter().map(|text| other(kind, text)).collect();
                script.conversation(end, machine, [4_000; KINDS], &phase);
            }
        }
    }
}

/// A command that adds the text as one of the other kind.
fn other(kind: Kind, text: &[u8]) -> Command {
    match kind {
        Recipient => Command::add_identity(text),
        Identity => Command::add_recipient(text),
    }
}

/// An entry with any number but 0 holds back work, and done until it has had its error.
fn held_back(script: &mut Script) {
    script.heading("Held back by an entry with each number");
    let wrong = |kind| made(kind, PLUGIN, &symbols(b"key"), false);
    let leftover = |kind| made(kind, PLUGIN, &[0; 3], true);
    let foreign = |kind| made(kind, b"other", &symbols(b"key"), false);
    let good = |kind| text_of(kind, PLUGIN, b"key");
    for text in [wrong(Identity), leftover(Identity), foreign(Identity), good(Identity)] {
        for machine in [RECIPIENT, IDENTITY] {
            let work = if machine == RECIPIENT { Exchange::stanza(0, "s") } else { Exchange::file_key(0) };
            let phase = [Command::add_identity(&text), file_key(), unknown(0)];
            work_and_error(script, &Start::new(machine, PLUGIN, &phase), &work, "identity 0");
        }
    }
    for text in [wrong(Recipient), leftover(Recipient), foreign(Recipient), good(Recipient)] {
        let phase = [Command::add_recipient(&text), file_key()];
        work_and_error(
            script,
            &Start::new(RECIPIENT, PLUGIN, &phase),
            &Exchange::stanza(0, "s"),
            "recipient 0",
        );
    }
}

fn work_and_error(script: &mut Script, start: &Start, work: &Exchange, cause: &str) {
    script.enter(End::Plugin, start, AMPLE);
    script.send(&work.command, 99);
    script.show();
    script.enter(End::Plugin, start, AMPLE);
    script.send(&Command::done(), 9);
    script.enter(End::Plugin, start, AMPLE);
    script.exchange(End::Plugin, &Exchange::error(cause, b"why"));
    script.send(&work.command, 0);
    script.send(&Command::done(), 9);
    script.show();
}

/// A faulty line has the reader's number.
fn identity_files(script: &mut Script) {
    script.heading("Identity files: the numbers of faulty lines");
    let kinds = [(true, [0; 3]), (false, [0; 3]), (true, [1; 3]), (false, [1; 3])];
    for _ in 0..60 {
        let mut lines = Vec::new();
        for _ in 0..1 + script.random.below(6) {
            let (holds, leftover) = kinds[script.random.below(kinds.len())];
            let name: &[u8] = [b"a".as_slice(), b"", b"yubikey"][script.random.below(3)];
            let line = match script.random.below(6) {
                0 => made(Identity, name, &symbols(b"k"), holds),
                1 => other_case(&made(Identity, name, &leftover, holds)),
                2 => made(Identity, name, &[9; 1_010], holds),
                _ => made(Identity, name, &leftover, holds),
            };
            lines.push(line);
        }
        script.identity_file_near(&joined(&lines));
    }
}

/// Any text with up to three bytes changed to one of the alphabet, a bad one, or the other case.
fn random_texts(script: &mut Script) {
    script.heading("Random texts and what is wrong with them");
    for _ in 0..500 {
        let kind = BECH32_KINDS[script.random.below(2)];
        let len = script.random.below(8);
        let symbols: Vec<u8> =
            (0..len).map(|_| script.random.one_of(b"\x00\x00\x00\x01\x10\x1f\x08")).collect();
        let holds = script.random.below(3) > 0;
        let mut text = made(kind, b"se", &symbols, holds);
        for _ in 0..script.random.below(3) {
            let at = script.random.below(text.len());
            text[at] = match script.random.below(4) {
                0 => script.random.one_of(BAD),
                1 => other_case_of(text[at]),
                2 => b'1',
                _ => kind.cased(&[script.random.one_of(ALPHABET)])[0],
            };
        }
        let out = script.random.below(6);
        script.read(kind, &text, out);
    }
}

#[cfg(test)]
mod tests {
    use super::*;
    use crate::bech32::fault;
    use crate::refusal::Refusal;

    #[test]
    fn marks_are_those_stated() {
        for kind in BECH32_KINDS {
            let marks: Vec<u8> = texts_to_mark(kind)
                .iter()
                .map(|text| fault(kind, text, PLUGIN).map_or(0, Refusal::number))
                .collect();
            assert_eq!(marks[..10], [0, 0, 21, 22, 21, 22, 21, 22, 21, 22]);
            assert!(marks[10..].iter().all(|&mark| mark == 16));
            let mut texts = texts_to_mark(kind);
            texts.sort();
            texts.dedup();
            assert_eq!(texts.len(), marks.len());
        }
    }
}
