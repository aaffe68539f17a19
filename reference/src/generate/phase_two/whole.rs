//! Whole conversations of our client with our plugin: each text that one end writes is what the other receives.
//! Only one session is open at a time, so first the client's calls stand, then the plugin's.

use super::exchanges::{Exchange, Start, AMPLE};
use super::good::{some_exchanges, some_start};
use crate::generate::commands::ENDS;
use crate::generate::Script;

pub(super) fn sections(script: &mut Script) {
    document_004(script);
    for _ in 0..230 {
        let start = some_start(script);
        let exchanges = some_exchanges(script, &start);
        conversation(script, &start, &exchanges);
    }
}

fn conversation(script: &mut Script, start: &Start, exchanges: &[Exchange]) {
    script.heading(&format!("A whole conversation, {}", start.machine));
    for end in ENDS {
        script.enter(end, start, AMPLE);
        script.exchange_all(end, exchanges);
        script.show();
    }
}

/// The example interactions of document 004.
fn document_004(script: &mut Script) {
    let wrapping = [
        Exchange::of_line("request-secret", b"PIN?", "fail"),
        Exchange::of_line("msg", b"Touch the token", "ok"),
        Exchange::stanza(0, "some-tag CJM36AHmTbdHSuOQL+NESqyVQE75f2e610iRdLPEN20"),
        Exchange::stanza(1, "some-tag"),
        Exchange::stanza(0, "another-tag 42 ytazqsbmUnPwVWMVx0c1X9iUtGdY4yAB08UQTY2hNCI"),
        Exchange::stanza(1, "another-tag"),
        Exchange::done(),
    ];
    conversation(script, &Start::recipient(), &wrapping);
    let unwrapping = [
        Exchange::of_line("msg", b"Please insert YubiKey with serial 65227134", "ok"),
        Exchange::file_key(3),
        Exchange::of_line("request-secret", b"Please enter PIN for YubiKey with serial 65227134", "ok"),
        Exchange::file_key(7),
        Exchange::done(),
    ];
    conversation(script, &Start::identity(), &unwrapping);
}

#[cfg(test)]
mod tests {
    use super::*;
    use crate::replay::Replay;

    /// What an end received and wrote, each with its escapes, in the order of the calls.
    #[derive(Default)]
    struct Traffic {
        received: Vec<String>,
        written: Vec<String>,
    }

    impl Traffic {
        /// Texts are words, so what an end writes can be compared with the other's lines as it stands.
        fn add(&mut self, line: &str, answer: &str) {
            let words: Vec<&str> = line.split(' ').collect();
            let answered: Vec<&str> = answer.split(' ').collect();
            assert_eq!(answered[0], "ok", "{line}");
            match (words[0], answered[answered.len() - 1]) {
                ("send" | "reply", text) => self.written.push(text.to_string()),
                ("chunk", text) => {
                    self.received.push(words[1].to_string());
                    // At the plugin end it is the body of a response, and no text of a stanza.
                    if text.starts_with("->") {
                        self.written.push(text.to_string());
                    }
                }
                _ => {}
            }
        }
    }

    #[test]
    fn what_one_end_writes_the_other_receives() {
        let mut script = Script::new();
        sections(&mut script);
        let text = String::from_utf8(script.text).unwrap();
        let (mut replay, mut traffics) = (Replay::default(), Vec::new());
        for line in text.lines().filter(|line| !line.is_empty() && !line.starts_with('#')) {
            let answer = String::from_utf8(replay.answer(line.as_bytes()).unwrap()).unwrap();
            if line.starts_with("open ") {
                traffics.push(Traffic::default());
            } else if line == "show" {
                assert!(answer.starts_with("phase ended\nawaits -\n"));
            } else {
                traffics.last_mut().unwrap().add(line, answer.trim_end());
            }
        }
        assert_eq!(traffics.len(), 2 * 232);
        for ends in traffics.chunks(2) {
            assert_eq!(ends[0].written, ends[1].received);
            assert_eq!(ends[1].written, ends[0].received);
        }
    }
}
