//! The judging program (document 01): a recorded phase one of recipient-v1, received in chunks.

use std::io::{self, ErrorKind, Read};

use crate::session::{Buffers, Kind, Phase, Plugin, KINDS};

/// The machine whose recordings are judged.
const MACHINE: &[u8] = b"recipient-v1";

/// The papers give no plugin name, and it can't show: it decides marks alone, and they are not reported.
const PLUGIN: &[u8] = b"judge";

/// The lengths of the buffers for recipients, identities and file keys; header stanzas, and all that
/// belongs to phase two, have none.
const LENGTHS: [usize; KINDS] = [16_384, 16_384, 1_024, 0, 0, 0, 0];

/// How much of the input is read at once. It can't show: however it is cut, the verdict is the same.
const CHUNK: usize = 4_096;

/// How many entries of each kind were kept, and the number of the refusal that ended it, or 0.
#[derive(Clone, Copy, Debug, PartialEq, Eq)]
pub struct Verdict {
    pub recipients: usize,
    pub identities: usize,
    pub file_keys: usize,
    pub header_stanzas: usize,
    pub answer: u8,
}

impl Verdict {
    /// The five lines that the program writes.
    #[must_use]
    pub fn report(&self) -> String {
        format!(
            "recipients {}\nidentities {}\nfile keys {}\nheader stanzas {}\nanswer {}\n",
            self.recipients, self.identities, self.file_keys, self.header_stanzas, self.answer
        )
    }
}

/// Judges a text.
#[must_use]
pub fn judge(text: &[u8]) -> Verdict {
    let mut judge = Judge::new();
    let decided = judge.chunk(text);
    judge.verdict(decided)
}

/// Judges what the input has, up to done or the first refusal.
pub fn judge_input(mut input: impl Read) -> io::Result<Verdict> {
    let mut judge = Judge::new();
    let mut chunk = [0; CHUNK];
    loop {
        let len = match input.read(&mut chunk) {
            Ok(len) => len,
            Err(error) if error.kind() == ErrorKind::Interrupted => continue,
            Err(error) => return Err(error),
        };
        let decided = judge.chunk(&chunk[..len]);
        if len == 0 || decided.is_some() {
            return Ok(judge.verdict(decided));
        }
    }
}

/// A session that receives a recording.
struct Judge {
    plugin: Plugin,
    buffers: Buffers,
}

impl Judge {
    fn new() -> Self {
        let plugin = Plugin::open(MACHINE, PLUGIN).expect("a machine's name and a plugin's");
        Judge { plugin, buffers: Buffers::zeros(LENGTHS) }
    }

    /// The answer, if this chunk decides it: 0 once done was taken, whatever follows it (the session says 14
    /// to that), else the number of the refusal.
    fn chunk(&mut self, chunk: &[u8]) -> Option<u8> {
        let received = self.plugin.chunk(chunk, &mut self.buffers, &mut []);
        match self.plugin.session().phase() {
            Phase::Two => Some(0),
            _ => received.refusal.map(|refusal| refusal.number()),
        }
    }

    /// What was kept, and the answer; input that ends before anything is decided has not ended (2).
    fn verdict(&self, decided: Option<u8>) -> Verdict {
        let session = self.plugin.session();
        let at_the_end = || session.finish().map_or_else(|refusal| refusal.number(), |()| 0);
        let count = |kind| session.tables().of(kind).len();
        Verdict {
            recipients: count(Kind::Recipient),
            identities: count(Kind::Identity),
            file_keys: count(Kind::FileKey),
            header_stanzas: count(Kind::Header),
            answer: decided.unwrap_or_else(at_the_end),
        }
    }
}

#[cfg(test)]
mod tests {
    use super::*;

    /// The example of document 004, as document 01 fills it in.
    const EXAMPLE: &str = "-> add-recipient foo\n\n-> add-identity bar\n\n\
        -> wrap-file-key\nAAAAAAAAAAAAAAAAAAAAAA\n-> add-recipient baz\n\n\
        -> wrap-file-key\nAAAAAAAAAAAAAAAAAAAAAA\n-> done\n\n";

    /// Recipients, identities, file keys, header stanzas, answer.
    fn numbers(text: &str) -> [usize; 5] {
        let Verdict { recipients, identities, file_keys, header_stanzas, answer } = judge(text.as_bytes());
        [recipients, identities, file_keys, header_stanzas, answer.into()]
    }

    #[test]
    fn worked_example() {
        let report = "recipients 2\nidentities 1\nfile keys 2\nheader stanzas 0\nanswer 0\n";
        assert_eq!(judge(EXAMPLE.as_bytes()).report(), report);
    }

    #[test]
    fn empty_input() {
        assert_eq!(numbers(""), [0, 0, 0, 0, 2]);
    }

    #[test]
    fn counts_at_a_refusal_are_those_before_it() {
        assert_eq!(numbers(&EXAMPLE[..EXAMPLE.len() - 1]), [2, 1, 2, 0, 2]);
        assert_eq!(numbers(&EXAMPLE.replace("add-identity bar", "add-identity bar baz")), [1, 0, 0, 0, 4]);
        assert_eq!(
            numbers(&EXAMPLE.replace("-> add-recipient baz", "-> add-recipient baz ")),
            [1, 1, 1, 0, 1]
        );
    }

    /// Whole, in single bytes, and with bytes behind done in a chunk of their own or in done's.
    #[test]
    fn however_the_input_comes() {
        let good = format!("{EXAMPLE}\rrest");
        let bad = EXAMPLE.replace("add-identity bar", "add-identity bar baz");
        for text in [&good, &bad, &EXAMPLE[..90], "", &"-> grease\n\n".repeat(2_000)] {
            let verdict = judge(text.as_bytes());
            assert_eq!(judge_input(text.as_bytes()).unwrap(), verdict);
            let mut bytes = Judge::new();
            let decided = text.bytes().find_map(|byte| bytes.chunk(&[byte]));
            assert_eq!(bytes.verdict(decided), verdict);
        }
    }

    #[test]
    fn unknown_commands_and_what_follows_done_do_not_count() {
        assert_eq!(numbers(&format!("-> recipient-stanza 01\n\n{EXAMPLE}\r")), [2, 1, 2, 0, 0]);
    }

    #[test]
    fn sixty_four_recipients_pass_and_the_next_gives_8() {
        let recipients: String = (0..64).map(|number| format!("-> add-recipient {number}\n\n")).collect();
        assert_eq!(numbers(&format!("{recipients}-> done\n\n")), [64, 0, 0, 0, 0]);
        assert_eq!(numbers(&format!("{recipients}-> add-recipient 64\n\n")), [64, 0, 0, 0, 8]);
    }

    #[test]
    fn a_second_recipient_of_the_same_text_gives_20() {
        assert_eq!(numbers(&EXAMPLE.replace("baz", "foo")), [1, 1, 1, 0, 20]);
        assert_eq!(numbers(&EXAMPLE.replace("baz", "bar")), [2, 1, 2, 0, 0]);
        let recipients: String = (0..64).map(|number| format!("-> add-recipient {number}\n\n")).collect();
        assert_eq!(numbers(&format!("{recipients}-> add-recipient 40\n\n")), [64, 0, 0, 0, 20]);
    }

    #[test]
    fn buffers_of_16384_bytes() {
        let add = |command: &str, len| format!("-> {command} {}\n\n", "x".repeat(len));
        for command in ["add-recipient", "add-identity"] {
            let exact = add(command, 8_001) + &add(command, 7_999) + &add(command, 384);
            let counts = numbers(&format!("{exact}-> done\n\n"));
            assert_eq!((counts[0] + counts[1], counts[4]), (3, 0));
            let counts = numbers(&(exact + &add(command, 1)));
            assert_eq!((counts[0] + counts[1], counts[4]), (3, 8));
        }
    }

    #[test]
    fn sixty_four_file_keys_fill_their_buffer() {
        let keys = "-> wrap-file-key\nAAAAAAAAAAAAAAAAAAAAAA\n".repeat(64);
        assert_eq!(numbers(&format!("{keys}-> done\n\n")), [0, 0, 64, 0, 0]);
        assert_eq!(numbers(&format!("{keys}{keys}")), [0, 0, 64, 0, 8]);
    }
}
