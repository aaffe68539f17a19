//! The replay of a script (REPLAY.md): the calls of its table, and the answers printed.

mod session;
mod show;

use std::io::{self, BufRead, Write};

use crate::bech32::{self, Kind};
use crate::identity_file::{self, Fault};
use crate::index;
use crate::judge;
use crate::profile;
use crate::refusal::Refusal;
use crate::script;
use crate::stanza;
use session::Sessions;
use show::finding_word;

/// OUT, the length of the output buffer lent, is at most this.
const OUT_LIMIT: u64 = 65_536;

/// Answers every line of the input, in order.
pub fn run(mut input: impl BufRead, mut output: impl Write) -> io::Result<()> {
    let mut replay = Replay::default();
    let mut line = Vec::new();
    while script::next_line(&mut input, &mut line)? {
        if let Some(answer) = replay.answer(&line) {
            output.write_all(&answer)?;
        }
    }
    Ok(())
}

/// What is carried from line to line.
#[derive(Default)]
pub struct Replay {
    /// How many lines were read, skipped ones too.
    lines: u64,
    sessions: Sessions,
}

impl Replay {
    /// The answer to the next line, with its LF; none for a line that is skipped.
    pub fn answer(&mut self, line: &[u8]) -> Option<Vec<u8>> {
        self.lines += 1;
        if script::is_skipped(line) {
            return None;
        }
        let answer = match self.call(line) {
            None => Answer::words("bad line").number(self.lines),
            Some(Err(refusal)) => Answer::refused(refusal),
            Some(Ok(answer)) => answer,
        };
        Some(answer.ended())
    }

    /// Makes the call that the line asks for; none for a bad line.
    fn call(&mut self, line: &[u8]) -> Option<Result<Answer, Refusal>> {
        let words = script::words(line)?;
        let words: Vec<&[u8]> = words.iter().map(Vec::as_slice).collect();
        match session::Line::parse(&words) {
            Some(line) => Some(self.sessions.answer(&line)),
            None => Some(Call::parse(&words)?.make()),
        }
    }
}

/// A line of REPLAY.md's table that needs no session.
#[derive(Debug, PartialEq, Eq)]
enum Call<'a> {
    Stanza { text: &'a [u8] },
    Write { arguments: &'a [u8], body: &'a [u8], out: usize },
    Index { text: &'a [u8] },
    Checksum { text: &'a [u8] },
    Read { kind: Kind, text: &'a [u8], out: usize },
    WriteText { kind: Kind, name: &'a [u8], payload: &'a [u8], out: usize },
    Profile { name: &'a [u8], line: &'a [u8], body: &'a [u8] },
    IdentityFile { text: &'a [u8], out: usize },
    Judge { text: &'a [u8] },
}

impl<'a> Call<'a> {
    /// The call that the words make. Escapes are resolved before: each word, the first and numbers too,
    /// is the byte string it stands for.
    fn parse(words: &[&'a [u8]]) -> Option<Self> {
        match *words {
            [b"stanza", text] => Some(Call::Stanza { text }),
            [b"write", arguments, body, out] => {
                let out = length(out)?;
                Some(Call::Write { arguments, body, out })
            }
            [b"index", text] => Some(Call::Index { text }),
            [b"checksum", text] => Some(Call::Checksum { text }),
            [b"recipient", text, out] => Self::read(Kind::Recipient, text, out),
            [b"identity", text, out] => Self::read(Kind::Identity, text, out),
            [b"write-recipient", name, payload, out] => Self::write(Kind::Recipient, name, payload, out),
            [b"write-identity", name, payload, out] => Self::write(Kind::Identity, name, payload, out),
            [b"profile", name, line, body] => Some(Call::Profile { name, line, body }),
            [b"identity-file", text, out] => Some(Call::IdentityFile { text, out: length(out)? }),
            [b"judge", text] => Some(Call::Judge { text }),
            _ => None,
        }
    }

    fn read(kind: Kind, text: &'a [u8], out: &[u8]) -> Option<Self> {
        Some(Call::Read { kind, text, out: length(out)? })
    }

    fn write(kind: Kind, name: &'a [u8], payload: &'a [u8], out: &[u8]) -> Option<Self> {
        Some(Call::WriteText { kind, name, payload, out: length(out)? })
    }

    fn make(&self) -> Result<Answer, Refusal> {
        match *self {
            Call::Stanza { text } => read_stanza(text),
            Call::Write { arguments, body, out } => write_stanza(arguments, body, out),
            Call::Index { text } => Ok(Answer::words("ok").number(index::read(text)?.into())),
            Call::Checksum { text } => {
                Ok(Answer::words(if bech32::holds(text) { "ok holds" } else { "ok fails" }))
            }
            Call::Read { kind, text, out } => Ok(read_bech32(kind, text, out)),
            Call::WriteText { kind, name, payload, out } => write_bech32(kind, name, payload, out),
            Call::Profile { name, line, body } => {
                Ok(Answer::words("ok").word(finding_word(profile::check(name, line, body))))
            }
            Call::IdentityFile { text, out } => read_identity_file(text, out),
            Call::Judge { text } => Ok(judged(text)),
        }
    }
}

/// A buffer's length.
fn length(word: &[u8]) -> Option<usize> {
    usize::try_from(script::number(word, OUT_LIMIT)?).ok()
}

/// `ok TAKEN ARGS BODY`.
fn read_stanza(text: &[u8]) -> Result<Answer, Refusal> {
    let stanza = stanza::read(text)?;
    let mut body = vec![0; stanza.body_len()];
    stanza.decode_body(&mut body)?;
    Ok(Answer::words("ok").number(stanza.taken() as u64).bytes(stanza.arguments()).bytes(&body))
}

/// `ok TEXT`.
fn write_stanza(arguments: &[u8], body: &[u8], out: usize) -> Result<Answer, Refusal> {
    let mut out = vec![0; out];
    let len = stanza::write(arguments, body, &mut out)?;
    Ok(Answer::words("ok").bytes(&out[..len]))
}

/// `ok NAME PAYLOAD`; `refused 16 PLACE`.
fn read_bech32(kind: Kind, text: &[u8], out: usize) -> Answer {
    let mut out = vec![0; out];
    match bech32::read(kind, text, &mut out) {
        Ok(reading) => Answer::words("ok").bytes(&reading.name).bytes(&out[..reading.payload_len]),
        Err(refusal @ Refusal::NotAnEntry) => {
            Answer::refused(refusal).number(bech32::place_of_fault(text) as u64)
        }
        Err(refusal) => Answer::refused(refusal),
    }
}

/// `ok TEXT`.
fn write_bech32(kind: Kind, name: &[u8], payload: &[u8], out: usize) -> Result<Answer, Refusal> {
    let mut out = vec![0; out];
    let len = bech32::write(kind, name, payload, &mut out)?;
    Ok(Answer::words("ok").bytes(&out[..len]))
}

/// `ok KEYS FAULTY LIST TEXT`.
fn read_identity_file(text: &[u8], out: usize) -> Result<Answer, Refusal> {
    let mut out = vec![0; out];
    let reading = identity_file::read(text, &mut out)?;
    let answer = Answer::words("ok").number(reading.secret_keys as u64).number(reading.faulty as u64);
    Ok(answer.word(&fault_list(&reading.listed)).bytes(&out[..reading.written]))
}

/// Faulty lines as `NUMBER@LINE`, joined by commas.
fn fault_list(faults: &[Fault]) -> String {
    if faults.is_empty() {
        return "-".to_string();
    }
    let words = faults.iter().map(|fault| format!("{}@{}", fault.refusal.number(), fault.line));
    words.collect::<Vec<_>>().join(",")
}

/// `ok R I K H ANSWER`.
fn judged(text: &[u8]) -> Answer {
    let verdict = judge::judge(text);
    let counts = [verdict.recipients, verdict.identities, verdict.file_keys, verdict.header_stanzas];
    let answer = counts.iter().fold(Answer::words("ok"), |answer, &count| answer.number(count as u64));
    answer.number(verdict.answer.into())
}

/// A line to be printed, built word by word; for `show`, several lines.
struct Answer(Vec<u8>);

impl Answer {
    /// Begins a line with plain words.
    fn words(words: &str) -> Self {
        Answer(words.as_bytes().to_vec())
    }

    /// Begins the line of a refused call.
    fn refused(refusal: Refusal) -> Self {
        Answer::words("refused").number(refusal.number().into())
    }

    /// Goes on with another line, which begins with plain words.
    fn line(mut self, words: &str) -> Self {
        self.0.push(b'\n');
        self.0.extend(words.as_bytes());
        self
    }

    /// One plain word.
    fn word(self, word: &str) -> Self {
        self.bytes(word.as_bytes())
    }

    fn number(mut self, number: u64) -> Self {
        self.0.extend(format!(" {number}").as_bytes());
        self
    }

    /// One word that stands for the bytes.
    fn bytes(mut self, bytes: &[u8]) -> Self {
        self.0.push(b' ');
        script::escape(bytes, &mut self.0);
        self
    }

    fn ended(mut self) -> Vec<u8> {
        self.0.push(b'\n');
        self.0
    }
}

#[cfg(test)]
mod tests {
    use super::*;

    fn answers(script: &str) -> String {
        let mut output = Vec::new();
        run(script.as_bytes(), &mut output).unwrap();
        String::from_utf8(output).unwrap()
    }

    #[test]
    fn worked_examples() {
        assert_eq!(answers("stanza ->\\sdone\\n\\n"), "ok 9 done \\e\n");
        assert_eq!(answers("stanza ->\\sdone\\n"), "refused 2\n");
        assert_eq!(answers("stanza ->\\sa\\s\\sb\\n\\n"), "refused 1\n");
        assert_eq!(
            answers("write wrap-file-key \\x00\\x00\\x00\\x00\\x00\\x00\\x00\\x00\\x00\\x00\\x00\\x00\\x00\\x00\\x00\\x00 40"),
            "ok ->\\swrap-file-key\\nAAAAAAAAAAAAAAAAAAAAAA\\n\n"
        );
        assert_eq!(
            answers("index 0\nindex 01\nindex 4294967295\nindex 4294967296\n"),
            "ok 0\nrefused 5\nok 4294967295\nrefused 5\n"
        );
    }

    #[test]
    fn stanza_prints_arguments_as_one_word() {
        assert_eq!(answers("stanza ->\\sok\\sb\\\\\\nAGEgCg\\nrest"), "ok 16 ok\\sb\\\\ \\x00a\\s\\n\n");
    }

    #[test]
    fn write_lends_a_buffer_of_the_length() {
        assert_eq!(answers("write done \\e 9"), "ok ->\\sdone\\n\\n\n");
        assert_eq!(answers("write done \\e 0009"), "ok ->\\sdone\\n\\n\n");
        assert_eq!(answers("write done \\e 8"), "refused 15\n");
        assert_eq!(answers("write \\e \\e 0"), "refused 17\n");
        assert_eq!(answers("write done \\e 65536"), "ok ->\\sdone\\n\\n\n");
        assert_eq!(answers("write done \\e 65537"), "bad line 1\n");
    }

    #[test]
    fn the_checksum_alone() {
        assert_eq!(
            answers("checksum A12UEL5L\nchecksum A12uEL5L\nchecksum \\e\n"),
            "ok holds\nok fails\nok fails\n"
        );
        assert_eq!(answers("checksum \\x801eym55h"), "ok holds\n");
    }

    #[test]
    fn recipients_and_identities() {
        let identity = "AGE-PLUGIN-FIDO2-HMAC-1QYQXV6TYDUEZ66RDV93SQUSDAT";
        assert_eq!(answers(&format!("identity {identity} 12")), "ok fido2-hmac \\x01\\x00fido2-hmac\n");
        assert_eq!(answers(&format!("identity {identity} 11")), "refused 15\n");
        assert_eq!(answers(&format!("recipient {identity} 12")), "refused 16 49\n");
        assert_eq!(answers("recipient age1a1lelu8b 0"), "refused 16 11\n");
        assert_eq!(answers("recipient age1a1lelu8m 0"), "refused 21\n");
        assert_eq!(answers("recipient \\e 0"), "refused 16 0\n");
        let written = format!("ok {identity}\n");
        assert_eq!(answers("write-identity fido2-hmac \\x01\\x00fido2-hmac 49"), written);
        assert_eq!(answers("write-identity fido2-hmac \\x01\\x00fido2-hmac 48"), "refused 15\n");
        assert_eq!(answers("write-recipient Fido2-hmac \\e 0"), "refused 17\n");
        assert_eq!(answers("write-recipient a \\e 12"), "ok age1a1lelu8n\n");
        assert_eq!(answers("recipient age1a1lelu8n 0"), "ok a \\e\n");
    }

    #[test]
    fn the_stanza_check() {
        let line = format!("fido2-hmac\\s{}\\s{}", "A".repeat(43), "A".repeat(16));
        let body = "b".repeat(32);
        assert_eq!(answers(&format!("profile FIDO2-HMAC {line} {body}")), "ok conforming\n");
        assert_eq!(answers(&format!("profile fido2-hmac {line} \\e")), "ok nonconforming\n");
        assert_eq!(answers(&format!("profile yubikey {line} {body}")), "ok unknown\n");
        assert_eq!(answers("profile \\e \\e \\e"), "ok unknown\n");
    }

    #[test]
    fn identity_files() {
        let identity = "AGE-PLUGIN-INTEROP-1QYQSZQG5Z25TP";
        let written = format!("->\\sadd-identity\\s{identity}\\n\\n->\\sdone\\n\\n");
        let file = format!("#\\n{identity}\\nx\\nAGE-SECRET-KEY-1\\n\\n\\x0d");
        assert_eq!(answers(&format!("identity-file {file} 60")), format!("ok 1 2 16@2,16@5 {written}\n"));
        assert_eq!(answers(&format!("identity-file {file} 59")), "refused 15\n");
        assert_eq!(answers("identity-file \\e 9"), "ok 0 0 - ->\\sdone\\n\\n\n");
        let file = format!("{identity}\\n").repeat(65);
        assert_eq!(answers(&format!("identity-file {file} 0")), "refused 8\n");
    }

    #[test]
    fn the_judging_program() {
        assert_eq!(answers("judge \\e"), "ok 0 0 0 0 2\n");
        assert_eq!(answers("judge ->\\sadd-identity\\sa\\n\\n->\\sdone\\n\\nrest"), "ok 0 1 0 0 0\n");
    }

    #[test]
    fn all_lines_are_counted() {
        assert_eq!(
            answers("# one\n\nindex 3\nnothing\n#\nindex\nindex 4"),
            "ok 3\nbad line 4\nbad line 6\nok 4\n"
        );
    }

    #[test]
    fn bad_lines() {
        for line in [
            "stanza", "stanza a b", "write a b", "write a b 1 2", "write a b c", "write a b \\e", "index",
            "index 1 2", "INDEX 1", "index 1 ", " index 1", "index  1", "index \\q", "\\e", "open", "shows",
            "checksum", "checksum a b", "recipient a", "recipient a 1 2", "recipient a b", "Recipient a 1",
            "identity a", "identity a 65537", "write-recipient a b", "write-recipient a b 1 2",
            "write-identity a b -1", "write_identity a b 1", "profile a b", "profile a b c d", "judge",
            "judge a b", "identity-file", "identity-file a", "identity-file a 65537", "identity-file a 1 2",
            "identity-file a \\e", "index\t1", "index 1\r", "index \u{e9}",
        ] {
            assert_eq!(answers(line), "bad line 1\n", "{line}");
        }
    }

    #[test]
    fn first_words_and_numbers_may_be_escaped() {
        assert_eq!(answers("ind\\x65x 7"), "ok 7\n");
        assert_eq!(answers("write done \\e \\x39"), "ok ->\\sdone\\n\\n\n");
    }

    #[test]
    fn line_lengths() {
        let line = |len: usize| "index ".to_string() + &"1".repeat(len - 6);
        assert_eq!(answers(&line(65_536)), "refused 5\n");
        assert_eq!(answers(&line(65_537)), "bad line 1\n");
        assert_eq!(answers(&("#".repeat(70_000) + "\nx")), "bad line 2\n");
    }
}
