//! The stored test script: worked examples, corner cases, and thousands of generated lines.
//!
//! The same script comes out every time: the seed is fixed and nothing else decides.

mod bech32;
mod chunks;
mod class;
mod commands;
mod file_numbers;
mod identity_file;
mod judge;
mod lines;
mod no_screen;
mod phase_one;
mod phase_two;
mod profile;
mod random;
mod recordings;
mod refusals;
mod repeats;
mod session;
mod text;
mod text_faults;
pub mod vectors;

use crate::bech32::Kind;
use crate::script;
use random::Random;

const SEED: u64 = 0x466c_7567_7265_6d69;

/// The whole script. Its last line lacks its LF.
#[must_use]
pub fn script() -> Vec<u8> {
    let mut script = Script::new();
    text::sections(&mut script);
    bech32::sections(&mut script);
    profile::sections(&mut script);
    judge::sections(&mut script);
    session::sections(&mut script);
    lines::sections(&mut script);
    phase_two::sections(&mut script);
    chunks::sections(&mut script);
    identity_file::sections(&mut script);
    no_screen::sections(&mut script);
    file_numbers::sections(&mut script);
    text_faults::sections(&mut script);
    repeats::sections(&mut script);
    class::sections(&mut script);
    script.heading("The last line lacks its LF");
    script.index(b"7");
    script.text.pop();
    script.text
}

/// A script that grows by lines, and the numbers that choose them.
struct Script {
    text: Vec<u8>,
    random: Random,
}

impl Script {
    fn new() -> Self {
        Script { text: Vec::new(), random: Random::new(SEED) }
    }

    /// A comment behind an empty line.
    fn heading(&mut self, heading: &str) {
        self.text.extend(format!("\n# {heading}\n").as_bytes());
    }

    /// A line as it stands, good or bad.
    fn raw(&mut self, line: &[u8]) {
        self.text.extend(line);
        self.text.push(b'\n');
    }

    /// A call and its words, which are escaped here.
    fn call(&mut self, call: &str, words: &[&[u8]]) {
        self.text.extend(call.as_bytes());
        for word in words {
            self.text.push(b' ');
            script::escape(word, &mut self.text);
        }
        self.text.push(b'\n');
    }

    fn stanza(&mut self, text: &[u8]) {
        self.call("stanza", &[text]);
    }

    fn write(&mut self, arguments: &[u8], body: &[u8], out: usize) {
        self.call("write", &[arguments, body, out.to_string().as_bytes()]);
    }

    fn index(&mut self, text: &[u8]) {
        self.call("index", &[text]);
    }

    fn checksum(&mut self, text: &[u8]) {
        self.call("checksum", &[text]);
    }

    fn read(&mut self, kind: Kind, text: &[u8], out: usize) {
        let call = match kind {
            Kind::Recipient => "recipient",
            Kind::Identity => "identity",
        };
        self.call(call, &[text, out.to_string().as_bytes()]);
    }

    fn write_text(&mut self, kind: Kind, name: &[u8], payload: &[u8], out: usize) {
        let call = match kind {
            Kind::Recipient => "write-recipient",
            Kind::Identity => "write-identity",
        };
        self.call(call, &[name, payload, out.to_string().as_bytes()]);
    }
}

#[cfg(test)]
mod tests {
    use super::{phase_two, script, session, Script};
    use crate::replay::Replay;
    use crate::script::is_skipped;
    use std::collections::{BTreeMap, BTreeSet};

    /// Each line that is not skipped, and its answer without the last LF.
    fn answered(script: &[u8]) -> Vec<(String, String)> {
        let mut replay = Replay::default();
        let mut answered = Vec::new();
        for line in script.split(|&byte| byte == b'\n') {
            let answer = replay.answer(line);
            assert_eq!(answer.is_none(), is_skipped(line));
            if let Some(answer) = answer {
                let answer = String::from_utf8(answer).unwrap().trim_end_matches('\n').to_string();
                answered.push((String::from_utf8_lossy(line).into_owned(), answer));
            }
        }
        answered
    }

    #[test]
    fn the_script_is_always_the_same_and_not_too_long() {
        let first = script();
        assert_eq!(first, script());
        assert!(first.len() < 9_000_000);
        assert_ne!(first.last(), Some(&b'\n'));
        let answers: usize = answered(&first).iter().map(|(_, answer)| answer.len() + 1).sum();
        assert!(answers < 6_000_000);
    }

    fn first_word(text: &str) -> &str {
        text.split([' ', '\n']).next().unwrap_or_default()
    }

    /// What an answer says, without its values.
    fn sort(call: &str, answer: &str) -> String {
        let words: Vec<&str> = answer.split([' ', '\n']).collect();
        match (call, words[0]) {
            (_, "refused") | ("checksum" | "profile", "ok") | ("show", "phase") => words[..2].join(" "),
            ("judge", "ok") => format!("ok {}", words[5]),
            _ => words[0].to_string(),
        }
    }

    #[test]
    fn every_answer_to_every_call_occurs() {
        let expected = [
            ("stanza", "bad, ok, refused 1, refused 2, refused 3"),
            ("write", "bad, ok, refused 15, refused 17"),
            ("index", "bad, ok, refused 5"),
            ("checksum", "bad, ok fails, ok holds"),
            ("recipient", "bad, ok, refused 15, refused 16, refused 21, refused 22"),
            ("identity", "bad, ok, refused 15, refused 16, refused 21, refused 22"),
            ("write-recipient", "bad, ok, refused 15, refused 17"),
            ("write-identity", "bad, ok, refused 15, refused 17"),
            ("profile", "bad, ok conforming, ok nonconforming, ok unknown"),
            ("identity-file", "bad, ok, refused 15, refused 8"),
            ("judge", "bad, ok 0, ok 1, ok 2, ok 20, ok 3, ok 4, ok 8"),
            ("open", "bad, ok, refused 17, refused 18"),
            ("buffers", "bad, none, ok"),
            ("entry", "bad, none, ok"),
            ("awaited", "bad, none, ok"),
            ("finish", "bad, none, ok, refused 13, refused 2"),
            ("receive", "bad"),
            ("response", "bad"),
            ("show", "bad, none, phase closed, phase ended, phase one, phase two"),
        ];
        let answered = answered(&script());
        for (call, sorts) in expected {
            let of_call = answered.iter().filter(|(line, _)| first_word(line) == call);
            let found: BTreeSet<String> = of_call.map(|(_, answer)| sort(call, answer)).collect();
            assert_eq!(found.into_iter().collect::<Vec<_>>().join(", "), sorts, "{call}");
        }
        for call in ["send", "chunk", "reply"] {
            for sort in ["bad", "none", "ok"] {
                let occurs = |(line, answer): &(String, String)| {
                    first_word(line) == call && first_word(answer) == sort
                };
                assert!(answered.iter().any(occurs), "{call} {sort}");
            }
        }
    }

    /// The number of an answer that refuses.
    fn number(answer: &str) -> Option<u8> {
        answer.strip_prefix("refused ")?.split(' ').next()?.parse().ok()
    }

    /// How many commands or responses a refused call has taken; a line without a count has none to take.
    fn count(answer: &str) -> usize {
        answer.split(' ').nth(2).and_then(|count| count.parse().ok()).unwrap_or(0)
    }

    /// A line's call, and the end whose session is open; at the plugin end a chunk is a response where one is
    /// due.
    #[derive(Default)]
    struct Caller {
        end: &'static str,
        is_due: bool,
    }

    impl Caller {
        fn name(&self, line: &str) -> String {
            match (self.end, first_word(line), self.is_due) {
                ("plugin", "chunk", true) => "plugin response".to_string(),
                (end, call, _) => format!("{end} {call}"),
            }
        }

        fn note(&mut self, line: &str, answer: &str) {
            let accepted = answer.starts_with("ok");
            match (first_word(line), line.split(' ').nth(1)) {
                ("open", Some("client")) if accepted => *self = Caller { end: "client", is_due: false },
                ("open", Some("plugin")) if accepted => *self = Caller { end: "plugin", is_due: false },
                ("send", word) if accepted => self.is_due = word != Some("done"),
                ("chunk", _) => self.is_due &= answer.starts_with("ok 0 ") || number(answer) == Some(15),
                _ => {}
            }
        }
    }

    /// How often each number is given by each call, to one that has taken something or nothing.
    fn refusals(answered: &[(String, String)]) -> BTreeMap<(String, bool), BTreeMap<u8, usize>> {
        let mut refusals = BTreeMap::<(String, bool), BTreeMap<u8, usize>>::new();
        let mut caller = Caller::default();
        for (line, answer) in answered {
            if let Some(number) = number(answer) {
                let call = (caller.name(line), count(answer) > 0);
                *refusals.entry(call).or_default().entry(number).or_default() += 1;
            }
            caller.note(line, answer);
        }
        refusals
    }

    /// Each call of a session gives exactly the numbers that the papers list for it, each of them often.
    #[test]
    fn every_refusal_of_every_call_occurs() {
        let expected: [(&str, &[u8]); 8] = [
            ("client send", &[4, 5, 7, 8, 13, 14, 15, 17, 20]),
            ("client chunk", &[1, 3, 4, 5, 6, 8, 9, 10, 11, 13, 14, 15]),
            ("client reply", &[1, 3, 4, 5, 6, 8, 9, 10, 11, 12, 13, 14, 15, 17]),
            ("client finish", &[2, 13]),
            ("plugin chunk", &[1, 3, 4, 5, 7, 8, 13, 14, 20]),
            ("plugin send", &[4, 5, 6, 8, 9, 10, 11, 13, 14, 15, 17, 19]),
            ("plugin response", &[1, 3, 12, 15]),
            ("plugin finish", &[2, 13]),
        ];
        let refusals = refusals(&answered(&script()));
        for (call, numbers) in expected {
            let counts = &refusals[&(call.to_string(), false)];
            assert_eq!(counts.keys().copied().collect::<Vec<_>>(), numbers, "{call}");
            for (number, &count) in counts {
                let least = match (call, number) {
                    // Stanzas of more than 8,192 bytes take much of the script.
                    (_, 3 | 17) => 2,
                    // Most often something stands before the fault.
                    ("client reply", 1..=11) => 1,
                    _ => 15,
                };
                assert!(count >= least, "{call} refused {number}: {count}");
            }
        }
        let all: BTreeSet<u8> = refusals.values().flat_map(|counts| counts.keys().copied()).collect();
        assert_eq!(all.into_iter().collect::<Vec<_>>(), (1..=22).collect::<Vec<_>>());
    }

    /// So it is with calls that have taken something before the fault: all numbers but those that are for the
    /// call, and 15, which undoes it.
    #[test]
    fn every_refusal_in_mid_chunk_occurs() {
        let expected: [(&str, &[u8]); 4] = [
            ("client chunk", &[1, 3, 4, 5, 6, 8, 9, 10, 11, 13]),
            // What is kept back is at most 8,192 bytes, so 3 comes for its first stanza only.
            ("client reply", &[1, 4, 5, 6, 8, 9, 10, 11, 13]),
            ("plugin chunk", &[1, 3, 4, 5, 7, 8, 14, 20]),
            ("plugin response", &[14]),
        ];
        let refusals = refusals(&answered(&script()));
        for (call, numbers) in expected {
            let counts = &refusals[&(call.to_string(), true)];
            assert_eq!(counts.keys().copied().collect::<Vec<_>>(), numbers, "{call}");
            assert!(counts.values().all(|&count| count >= 2), "{call} {counts:?}");
        }
    }

    fn session_answers() -> Vec<(String, String)> {
        let mut script = Script::new();
        session::sections(&mut script);
        answered(&script.text)
    }

    /// 13 is the plugin's alone: nothing closes a client session in phase one.
    #[test]
    fn every_refusal_of_phase_one_occurs() {
        let found: BTreeSet<u8> = session_answers().iter().filter_map(|(_, answer)| number(answer)).collect();
        assert_eq!(found.into_iter().collect::<Vec<_>>(), [1, 2, 3, 4, 5, 7, 8, 13, 14, 15, 17, 18, 20]);
    }

    #[test]
    fn every_line_of_show_in_phase_one_occurs() {
        let answers = session_answers();
        let shown = answers.iter().filter(|(line, _)| line == "show").flat_map(|(_, answer)| answer.lines());
        let ends =
            |line: &str| format!("{} {}", first_word(line), line.rsplit(' ').next().unwrap_or_default());
        let found: BTreeSet<String> = shown.filter(|line| !line.starts_with("file-key ")).map(ends).collect();
        let expected = [
            "awaits -", "end end", "header conforming", "header nonconforming", "header unknown",
            "identity invalid-16", "identity invalid-21", "identity invalid-22", "identity valid",
            "none none", "phase closed", "phase one", "phase two", "recipient invalid-16",
            "recipient invalid-21", "recipient invalid-22", "recipient valid",
        ];
        assert_eq!(found.into_iter().collect::<Vec<_>>(), expected);
    }

    /// Each command that may be awaited, each sort of entry, and payloads that a buffer is too short for.
    #[test]
    fn every_line_of_show_in_phase_two_occurs() {
        let mut script = Script::new();
        phase_two::sections(&mut script);
        let mut shown = BTreeSet::new();
        for (line, answer) in answered(&script.text) {
            if line == "show" {
                shown.extend(answer.lines().map(|line| line.to_string()));
            }
        }
        let words =
            ["-", "msg", "confirm", "request-public", "request-secret", "recipient-stanza", "file-key"];
        for word in words.into_iter().chain(["error", "other"]) {
            assert!(shown.contains(&format!("awaits {word}")), "{word}");
        }
        for phase in ["one", "two", "ended", "closed"] {
            assert!(shown.contains(&format!("phase {phase}")), "{phase}");
        }
        let causes = ["internal", "identity\\s0", "identity\\s1", "recipient\\s0", "stanza\\s1\\s0"];
        for cause in causes {
            let is_cause =
                |line: &String| line.starts_with("error ") && line.split(' ').nth(2) == Some(cause);
            assert!(shown.iter().any(is_cause), "{cause}");
        }
        let starts = ["error 383 ", "stanza 0 0 ", "stanza 4 50 ", "key 510 "];
        for start in starts.into_iter().chain(["stanza 1 0 \\e", "key 5 \\e", "error 0 internal \\e"]) {
            assert!(shown.iter().any(|line| line.starts_with(start)), "{start}");
        }
    }
}
