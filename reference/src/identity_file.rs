//! Old identity files (document 02, No. 8): the lines of a text file, judged one by one, and the commands of a
//! phase one that pass its identities on.

use crate::bech32::{self, Kind};
use crate::refusal::Refusal;
use crate::stanza;

/// A longer line, without its LF, is faulty, whatever it holds.
pub const LINE_LIMIT: usize = 1_024;

/// A file has at most so many valid lines.
pub const MOST_VALID: usize = 64;

/// So many faulty lines are listed; all of them are counted.
pub const MOST_LISTED: usize = 64;

/// What a line begins with that holds a native age key.
const SECRET_KEY: &[u8] = b"AGE-SECRET-KEY-1";

/// What was found in a file that is accepted.
#[derive(Clone, Debug, Default, PartialEq, Eq)]
pub struct Reading {
    /// How many lines hold a secret key.
    pub secret_keys: usize,
    /// How many lines are faulty, and the first of them.
    pub faulty: usize,
    pub listed: Vec<Fault>,
    /// How many bytes of the output buffer are the commands.
    pub written: usize,
}

/// A faulty line: why, and its number, all lines counted from 0.
#[derive(Clone, Copy, Debug, PartialEq, Eq)]
pub struct Fault {
    pub refusal: Refusal,
    pub line: usize,
}

/// What a line is.
#[derive(Clone, Copy, Debug, PartialEq, Eq)]
enum Line {
    Skipped,
    SecretKey,
    Faulty(Refusal),
    Valid,
}

impl Line {
    /// Nothing is trimmed: CR, spaces and tabs are bytes of the line.
    fn of(line: &[u8]) -> Self {
        if line.len() > LINE_LIMIT {
            Line::Faulty(Refusal::NotAnEntry)
        } else if matches!(line, [] | [b'#', ..]) {
            Line::Skipped
        } else if line.starts_with(SECRET_KEY) {
            Line::SecretKey
        } else {
            // No payload is longer than its text.
            match bech32::read(Kind::Identity, line, &mut [0; LINE_LIMIT]) {
                Ok(_) => Line::Valid,
                Err(refusal) => Line::Faulty(refusal),
            }
        }
    }
}

/// Reads a file and writes its identities, of any plugin, to the front of `out` as commands of a phase one, in
/// the file's order, with done behind them.
///
/// 8 for more than 64 valid lines; then 15. A refusal leaves `out` as it was.
pub fn read(text: &[u8], out: &mut [u8]) -> Result<Reading, Refusal> {
    let mut reading = Reading::default();
    let mut valid = Vec::new();
    for (number, line) in lines(text).enumerate() {
        match Line::of(line) {
            Line::Skipped => {}
            Line::SecretKey => reading.secret_keys += 1,
            Line::Faulty(refusal) => reading.note(Fault { refusal, line: number }),
            Line::Valid => valid.push(line),
        }
    }
    if valid.len() > MOST_VALID {
        return Err(Refusal::NoSpace);
    }
    let commands = commands(&valid);
    let out = out.get_mut(..commands.len()).ok_or(Refusal::OutputTooShort)?;
    out.copy_from_slice(&commands);
    reading.written = commands.len();
    Ok(reading)
}

impl Reading {
    fn note(&mut self, fault: Fault) {
        self.faulty += 1;
        if self.listed.len() < MOST_LISTED {
            self.listed.push(fault);
        }
    }
}

/// The lines without their LFs; the last may lack its own, and behind a last LF there is none.
fn lines(text: &[u8]) -> impl Iterator<Item = &[u8]> {
    text.split_inclusive(|&byte| byte == b'\n').map(|line| line.strip_suffix(b"\n").unwrap_or(line))
}

/// The text of a phase one that adds the identities.
fn commands(identities: &[&[u8]]) -> Vec<u8> {
    let mut text = Vec::new();
    for identity in identities {
        text.extend(command(&[b"add-identity ", *identity].concat()));
    }
    text.extend(command(b"done"));
    text
}

/// The stanza of a command without a body. An identity has at most 1,024 bytes, so it can be written.
fn command(arguments: &[u8]) -> Vec<u8> {
    let mut text = vec![0; stanza::LIMIT];
    let len = stanza::write(arguments, b"", &mut text).expect("a short stanza");
    text.truncate(len);
    text
}

#[cfg(test)]
mod tests {
    use super::*;
    use crate::session::{Buffers, Plugin, KINDS};

    /// Identities of two plugins.
    const ONE: &str = "AGE-PLUGIN-INTEROP-1QYQSZQG5Z25TP";
    const OTHER: &str = "AGE-PLUGIN-FIDO2-HMAC-1QYQXV6TYDUEZ66RDV93SQUSDAT";

    /// Secret keys, faulty lines, the lines listed, and what is written.
    fn found(text: &str) -> (usize, usize, Vec<usize>, String) {
        let mut out = vec![0; 70_000];
        let reading = read(text.as_bytes(), &mut out).unwrap();
        let listed = reading.listed.iter().map(|fault| fault.line);
        let written = String::from_utf8(out[..reading.written].to_vec()).unwrap();
        (reading.secret_keys, reading.faulty, listed.collect(), written)
    }

    fn written(identities: &[&str]) -> String {
        let adds: String = identities.iter().map(|text| format!("-> add-identity {text}\n\n")).collect();
        adds + "-> done\n\n"
    }

    #[test]
    fn every_sort_of_line() {
        let text = format!("# created\n{ONE}\n\nAGE-SECRET-KEY-1x\nx\n{OTHER}\n {ONE}\n{ONE}");
        assert_eq!(found(&text), (1, 2, vec![4, 6], written(&[ONE, OTHER, ONE])));
    }

    #[test]
    fn an_empty_file_is_done_alone() {
        for text in ["", "\n", "\n\n", "#", "#\n#"] {
            assert_eq!(found(text), (0, 0, vec![], written(&[])), "{text:?}");
        }
    }

    #[test]
    fn a_last_line_may_lack_its_lf() {
        for end in ["", "\n"] {
            assert_eq!(found(&format!("x\n{ONE}{end}")), (0, 1, vec![0], written(&[ONE])));
            assert_eq!(found(&format!("{ONE}\nx{end}")), (0, 1, vec![1], written(&[ONE])));
            assert_eq!(found(&format!("AGE-SECRET-KEY-1{end}")), (1, 0, vec![], written(&[])));
        }
    }

    #[test]
    fn nothing_is_trimmed() {
        for line in [
            "\r", " ", "\t", " #", "\t#", "\r#", " AGE-SECRET-KEY-1", "AGE-SECRET-KEY-", "age-secret-key-1",
            "AGE-SECRET-KEY-", "AGE-SECRET-KEY", "Age-secret-key-1",
        ] {
            assert_eq!(found(line), (0, 1, vec![0], written(&[])), "{line:?}");
        }
        for line in [format!("{ONE}\r"), format!("{ONE} "), format!("\t{ONE}"), ONE.to_lowercase()] {
            assert_eq!(found(&line), (0, 1, vec![0], written(&[])), "{line:?}");
        }
        assert_eq!(found("#\r\nAGE-SECRET-KEY-1\r\n"), (1, 0, vec![], written(&[])));
    }

    #[test]
    fn lines_of_1024_bytes_and_longer_ones() {
        for start in ["#", "AGE-SECRET-KEY-1"] {
            let line = start.to_string() + &"a".repeat(LINE_LIMIT - start.len());
            let keys = usize::from(start != "#");
            assert_eq!(found(&format!("{line}\n{ONE}")), (keys, 0, vec![], written(&[ONE])));
            assert_eq!(found(&format!("{line}a\n{ONE}")), (0, 1, vec![0], written(&[ONE])));
        }
        // A payload of 627 bytes makes 1,004 symbols.
        let mut longest = vec![0; LINE_LIMIT];
        assert_eq!(bech32::write(Kind::Identity, b"a", &[7; 627], &mut longest), Ok(LINE_LIMIT));
        let longest = String::from_utf8(longest).unwrap();
        assert_eq!(found(&longest), (0, 0, vec![], written(&[&longest])));
        let most = [longest.as_str(); MOST_VALID];
        assert_eq!(found(&most.join("\n")).3.len(), 66_697);
    }

    #[test]
    fn sixty_four_valid_lines_and_not_one_more() {
        let text = format!("{ONE}\n").repeat(MOST_VALID);
        assert_eq!(found(&text), (0, 0, vec![], written(&[ONE; MOST_VALID])));
        let mut out = [7; 100];
        for text in [format!("{text}{OTHER}"), format!("x\n{ONE}\n#\n{text}"), text.repeat(3)] {
            assert_eq!(read(text.as_bytes(), &mut out), Err(Refusal::NoSpace));
        }
        assert_eq!(read(text.as_bytes(), &mut out), Err(Refusal::OutputTooShort));
        assert_eq!(out, [7; 100]);
    }

    #[test]
    fn the_first_64_faulty_lines_are_listed() {
        for faulty in [63, 64, 65, 200] {
            let text = format!("#\n{}{ONE}", "x\n".repeat(faulty));
            let listed = (1..=faulty.min(MOST_LISTED)).collect();
            assert_eq!(found(&text), (0, faulty, listed, written(&[ONE])));
        }
    }

    /// The line's number is the reader's; a line that is too long is 16.
    #[test]
    fn numbers_of_faulty_lines() {
        let wrong_sum = "AGE-PLUGIN-INTEROP-1QYQSZQG5Z25PT";
        let leftover = bech32::encode(b"age-plugin-a-", &[0; 3], bech32::FINAL_VALUE).to_ascii_uppercase();
        let leftover = String::from_utf8(leftover).unwrap();
        let text = format!("x\n{wrong_sum}\n{ONE}\n{leftover}\n{wrong_sum}{}\n{ONE} ", "Q".repeat(1_000));
        let reading = read(text.as_bytes(), &mut [0; 200]).unwrap();
        let faults: Vec<_> =
            reading.listed.iter().map(|fault| (fault.refusal.number(), fault.line)).collect();
        assert_eq!(faults, [(16, 0), (21, 1), (22, 3), (16, 4), (16, 5)]);
    }

    #[test]
    fn the_output_buffer() {
        let len = written(&[ONE]).len();
        let mut out = vec![7; len + 1];
        assert_eq!(read(ONE.as_bytes(), &mut out).unwrap().written, len);
        assert_eq!(out[len], 7);
        assert!(read(ONE.as_bytes(), &mut out[..len]).is_ok());
        assert_eq!(read(ONE.as_bytes(), &mut out[..len - 1]), Err(Refusal::OutputTooShort));
        assert_eq!(read(b"x", &mut [0; 8]), Err(Refusal::OutputTooShort));
    }

    /// The transcript gives exactly the identities back, in any cut.
    #[test]
    fn what_is_written_is_a_phase_one() {
        let text = format!("{OTHER}\nx\n{ONE}\n{ONE}");
        let written = found(&text).3;
        for machine in [b"recipient-v1".as_slice(), b"identity-v1"] {
            for cut in [1, 7, written.len()] {
                let mut plugin = Plugin::open(machine, b"interop").unwrap();
                let mut buffers = Buffers::zeros([OTHER.len() + 2 * ONE.len(); KINDS]);
                for chunk in written.as_bytes().chunks(cut) {
                    plugin.chunk(chunk, &mut buffers, &mut []).accepted().unwrap();
                }
                for (number, text) in [OTHER, ONE, ONE, ""].into_iter().enumerate() {
                    let entry = plugin.session().entry(Kind::Identity, number as u64, &buffers);
                    assert_eq!(entry, text.as_bytes());
                }
            }
        }
    }
}
