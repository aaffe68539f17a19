//! The lines that open a session and call it (REPLAY.md); `show` has a file of its own.

use super::show::{phase_two_word, response_word, show, what_word};
use super::{length, Answer};
use crate::bech32;
use crate::refusal::Refusal;
use crate::script;
use crate::session::{Buffers, Client, Plugin, Received, Response, Session, KINDS};

/// A line of REPLAY.md's table that opens a session or calls the open one.
#[derive(Debug, PartialEq, Eq)]
pub(super) enum Line<'a> {
    Open(Opening<'a>),
    Call(Call<'a>),
}

/// What an `open` line asks for.
#[derive(Debug, PartialEq, Eq)]
pub(super) struct Opening<'a> {
    end: EndWord,
    machine: &'a [u8],
    name: &'a [u8],
    lens: [usize; KINDS],
}

/// Which end is opened.
#[derive(Clone, Copy, Debug, PartialEq, Eq)]
enum EndWord {
    Client(Screen),
    Plugin,
}

/// What an `open client` line says of the screen.
#[derive(Clone, Copy, Debug, PartialEq, Eq)]
enum Screen {
    Default,
    Given(bool),
}

/// A call of the open session.
#[derive(Debug, PartialEq, Eq)]
pub(super) enum Call<'a> {
    Buffers { lens: [usize; KINDS] },
    Send { arguments: Vec<u8>, body: &'a [u8], out: usize },
    Chunk { bytes: &'a [u8], out: usize },
    Reply { reply: Response, body: &'a [u8], out: usize },
    Awaited,
    Finish,
    Entry { kind: bech32::Kind, number: u64 },
    Show,
}

impl<'a> Line<'a> {
    /// The line that the words make; words, numbers and choices are judged here, before any session is
    /// looked at.
    pub(super) fn parse(words: &[&'a [u8]]) -> Option<Self> {
        match *words {
            [b"open", b"client", machine, name, screen_word, ref lens @ ..] => {
                let end = EndWord::Client(screen(screen_word)?);
                Some(Line::Open(Opening { end, machine, name, lens: lengths(lens)? }))
            }
            [b"open", b"plugin", machine, name, ref lens @ ..] => {
                let end = EndWord::Plugin;
                Some(Line::Open(Opening { end, machine, name, lens: lengths(lens)? }))
            }
            _ => Call::parse(words).map(Line::Call),
        }
    }
}

impl<'a> Call<'a> {
    fn parse(words: &[&'a [u8]]) -> Option<Self> {
        match *words {
            [b"buffers", ref lens @ ..] => Some(Call::Buffers { lens: lengths(lens)? }),
            [b"send", command, arguments, body, out] => {
                Some(Call::Send { arguments: joined(command, arguments), body, out: length(out)? })
            }
            [b"chunk", bytes, out] => Some(Call::Chunk { bytes, out: length(out)? }),
            [b"reply", reply, body, out] => {
                Some(Call::Reply { reply: answer(reply)?, body, out: length(out)? })
            }
            [b"awaited"] => Some(Call::Awaited),
            [b"finish"] => Some(Call::Finish),
            [b"entry", kind_word, number] => {
                Some(Call::Entry { kind: kind(kind_word)?, number: script::number(number, u64::MAX)? })
            }
            [b"show"] => Some(Call::Show),
            _ => None,
        }
    }
}

fn screen(word: &[u8]) -> Option<Screen> {
    match word {
        b"screen" => Some(Screen::Given(true)),
        b"no-screen" => Some(Screen::Given(false)),
        b"default" => Some(Screen::Default),
        _ => None,
    }
}

/// What a host replies, by its one word.
fn answer(word: &[u8]) -> Option<Response> {
    Response::ALL.into_iter().find(|&response| response_word(response).as_bytes() == word)
}

fn kind(word: &[u8]) -> Option<bech32::Kind> {
    match word {
        b"recipient" => Some(bech32::Kind::Recipient),
        b"identity" => Some(bech32::Kind::Identity),
        _ => None,
    }
}

/// The lengths of the seven buffers.
fn lengths(words: &[&[u8]]) -> Option<[usize; KINDS]> {
    let lens: Vec<usize> = words.iter().map(|word| length(word)).collect::<Option<_>>()?;
    lens.try_into().ok()
}

/// COMMAND, a space and ARGS, or COMMAND alone where ARGS is empty.
fn joined(command: &[u8], arguments: &[u8]) -> Vec<u8> {
    if arguments.is_empty() {
        command.to_vec()
    } else {
        [command, b" ", arguments].concat()
    }
}

/// The session that is open, if one is.
#[derive(Default)]
pub(super) struct Sessions(Option<Open>);

/// An open session, and the buffers that each of its calls is lent.
struct Open {
    end: End,
    buffers: Buffers,
}

enum End {
    Client(Client),
    Plugin(Plugin),
}

impl Sessions {
    pub(super) fn answer(&mut self, line: &Line) -> Result<Answer, Refusal> {
        match (line, &mut self.0) {
            (Line::Open(opening), _) => self.open(opening),
            (Line::Call(_), None) => Ok(Answer::words("none")),
            (Line::Call(call), Some(open)) => open.make(call),
        }
    }

    /// A refused open leaves the earlier session and its buffers as they were.
    fn open(&mut self, opening: &Opening) -> Result<Answer, Refusal> {
        let end = End::open(opening)?;
        self.0 = Some(Open { end, buffers: Buffers::zeros(opening.lens) });
        Ok(Answer::words("ok"))
    }
}

impl End {
    fn open(opening: &Opening) -> Result<Self, Refusal> {
        let Opening { end, machine, name, .. } = *opening;
        match end {
            EndWord::Client(Screen::Default) => Client::open(machine, name).map(End::Client),
            EndWord::Client(Screen::Given(screen)) => {
                Client::open_with(machine, name, screen).map(End::Client)
            }
            EndWord::Plugin => Plugin::open(machine, name).map(End::Plugin),
        }
    }

    fn session(&self) -> &Session {
        match self {
            End::Client(client) => client.session(),
            End::Plugin(plugin) => plugin.session(),
        }
    }
}

impl Open {
    /// Makes a call of the open session; none for a call that this end does not have.
    fn make(&mut self, call: &Call) -> Result<Answer, Refusal> {
        match call {
            Call::Buffers { lens } => {
                self.buffers.resize(*lens);
                Ok(Answer::words("ok"))
            }
            Call::Send { arguments, body, out } => self.send(arguments, body, *out),
            Call::Chunk { bytes, out } => Ok(self.chunk(bytes, *out)),
            Call::Reply { reply, body, out } => Ok(self.reply(*reply, body, *out)),
            Call::Awaited => Ok(self.awaited()),
            Call::Finish => self.end.session().finish().map(|()| Answer::words("ok")),
            Call::Entry { kind, number } => {
                Ok(Answer::words("ok").bytes(self.end.session().entry(*kind, *number, &self.buffers)))
            }
            Call::Show => Ok(show(self.end.session(), &self.buffers)),
        }
    }

    /// `ok TEXT`.
    fn send(&mut self, arguments: &[u8], body: &[u8], out: usize) -> Result<Answer, Refusal> {
        let mut out = vec![0; out];
        let len = match &mut self.end {
            End::Client(client) => client.send(arguments, body, &mut self.buffers, &mut out)?,
            End::Plugin(plugin) => plugin.send(arguments, body, &mut self.buffers, &mut out)?,
        };
        Ok(Answer::words("ok").bytes(&out[..len]))
    }

    fn chunk(&mut self, bytes: &[u8], out: usize) -> Answer {
        let mut out = vec![0; out];
        match &mut self.end {
            End::Client(client) => {
                received(client.chunk(bytes, &mut self.buffers, &mut out), phase_two_word, &out)
            }
            End::Plugin(plugin) => {
                received(plugin.chunk(bytes, &mut self.buffers, &mut out), what_word, &out)
            }
        }
    }

    fn reply(&mut self, reply: Response, body: &[u8], out: usize) -> Answer {
        let End::Client(client) = &mut self.end else {
            return Answer::words("none");
        };
        let mut out = vec![0; out];
        received(client.reply(reply, body, &mut self.buffers, &mut out), phase_two_word, &out)
    }

    /// `ok TEXT`.
    fn awaited(&self) -> Answer {
        match &self.end {
            End::Client(client) => Answer::words("ok").bytes(client.awaited()),
            End::Plugin(_) => Answer::words("none"),
        }
    }
}

/// `ok COUNT LAST TEXT` or `refused N COUNT LAST TEXT`.
fn received<T>(received: Received<T>, word: impl Fn(T) -> &'static str, out: &[u8]) -> Answer {
    let answer = match received.refusal {
        Some(refusal) => Answer::refused(refusal),
        None => Answer::words("ok"),
    };
    let last = received.last.map_or("-", word);
    answer.number(received.count as u64).word(last).bytes(&out[..received.written])
}

#[cfg(test)]
mod tests {
    use crate::replay::run;

    fn answers(script: &[&str]) -> Vec<String> {
        let mut output = Vec::new();
        run(script.join("\n").as_bytes(), &mut output).unwrap();
        String::from_utf8(output).unwrap().lines().map(str::to_string).collect()
    }

    const PLUGIN: &str = "open plugin recipient-v1 interop 99 99 99 99 0 0 0";
    const CLIENT: &str = "open client identity-v1 interop default 99 99 99 99 0 0 0";

    #[test]
    fn with_no_session_open() {
        for line in [
            "buffers 0 0 0 0 0 0 0", "send a b c 1", "chunk a 0", "chunk \\e 65536", "entry recipient 0",
            "entry identity 18446744073709551615", "show", "reply no \\e 0", "awaited", "finish",
        ] {
            assert_eq!(answers(&[line]), ["none"], "{line}");
        }
    }

    #[test]
    fn bad_lines_with_and_without_a_session() {
        for line in [
            "buffers 0 0 0 0 0 0",
            "buffers 0 0 0 0 0 0 0 0",
            "buffers 0 0 0 0 0 0 65537",
            "send a b c",
            "send a b c 65537",
            "send a b c 1 2",
            "chunk a",
            "chunk a 65537",
            "chunk a \\e",
            "chunk a 1 2",
            "entry recipient",
            "entry recipient -1",
            "entry file-key 0",
            "entry Recipient 0",
            "entry recipient 18446744073709551616",
            "entry",
            "show 1",
            "show \\e",
            "open",
            "open plugin recipient-v1 a 0 0 0 0 0 0",
            "open plugin recipient-v1 a 0 0 0 0 0 0 0 0",
            "open plugin recipient-v1 a screen 0 0 0 0 0 0 0",
            "open client recipient-v1 a 0 0 0 0 0 0 0",
            "open client recipient-v1 a Screen 0 0 0 0 0 0 0",
            "open host recipient-v1 a 0 0 0 0 0 0 0",
            "open client recipient-v1 a screen 0 0 0 0 0 0 65537",
            "chunk",
            "chunk  1",
            "receive ->\\sdone\\n\\n 0",
            "response ->\\sok\\n\\n 0",
            "awaited 1",
            "awaited \\e",
            "finish 1",
            "finish \\e",
            "reply ok \\e",
            "reply ok \\e x",
            "reply ok \\e 65537",
            "reply ok \\e 1 2",
            "reply maybe \\e 1",
            "reply OK \\e 1",
            "reply ok\\syes \\e 1",
            "reply \\e \\e 1",
        ] {
            assert_eq!(answers(&[line]), ["bad line 1"], "{line}");
            assert_eq!(answers(&[PLUGIN, line])[1..], ["bad line 2"], "{line}");
            assert_eq!(answers(&[CLIENT, line])[1..], ["bad line 2"], "{line}");
        }
    }

    #[test]
    fn calls_that_an_end_does_not_have() {
        assert_eq!(answers(&[PLUGIN, "reply ok \\e 9", "reply yes a 0", "awaited"])[1..], ["none"; 3]);
    }

    #[test]
    fn a_phase_one_received() {
        let answers = answers(&[
            PLUGIN,
            "chunk ->\\sadd-recipient\\sage1interop1qyqszqg83syvs\\n\\n->\\sadd-id 0",
            "chunk entity\\sx\\\\y\\n\\n->\\srecipient-stanza\\s01\\n\\n 0",
            "chunk ->\\swrap-file-key\\nMDEyMzQ1Njc4OWFiY2RlZg 0",
            "chunk \\n->\\sdone\\n 0",
            "finish",
            "chunk \\nrest 0",
            "chunk \\e 0",
            "chunk rest 0",
            "entry recipient 0",
            "entry recipient 1",
            "show",
        ]);
        let expected = [
            "ok", "ok 1 add-recipient \\e", "ok 2 other \\e", "ok 0 - \\e", "ok 1 wrap-file-key \\e",
            "refused 2", "refused 14 1 done \\e", "ok 0 - \\e", "refused 14 0 - \\e",
            "ok age1interop1qyqszqg83syvs", "ok \\e", "phase two", "awaits -",
            "recipient 0 age1interop1qyqszqg83syvs valid", "identity 0 x\\\\y invalid-16",
            "file-key 0 0123456789abcdef", "end",
        ];
        assert_eq!(answers, expected);
    }

    #[test]
    fn a_phase_one_sent() {
        let answers = answers(&[
            CLIENT, "send recipient-stanza 4\\stag\\sa \\x00 99",
            "send recipient-stanza\\s4\\stag \\e \\e 99", "send recipient-stanza 3\\stag \\e 99",
            "send grease \\e \\e 10", "send grease \\e \\e 11", "send \\e grease \\e 99", "show",
        ]);
        let expected = [
            "ok",
            "ok ->\\srecipient-stanza\\s4\\stag\\sa\\nAA\\n",
            "ok ->\\srecipient-stanza\\s4\\stag\\n\\n",
            "refused 7",
            "refused 15",
            "ok ->\\sgrease\\n\\n",
            "refused 17",
            "phase one",
            "awaits -",
            "header 0 4 tag\\sa\\n\\x00 unknown",
            "header 1 4 tag\\n unknown",
            "end",
        ];
        assert_eq!(answers, expected);
    }

    #[test]
    fn buffers_that_change() {
        let answers = answers(&[
            "open plugin recipient-v1 interop 5 0 0 0 0 0 0",
            "chunk ->\\sadd-recipient\\sabc\\n\\n 0",
            "chunk ->\\sadd-recipient\\sde\\n\\n 0",
            "buffers 4 0 0 0 0 0 0",
            "entry recipient 0",
            "entry recipient 1",
            "buffers 9 0 0 0 0 0 0",
            "entry recipient 1",
            "chunk ->\\sadd-recipient\\sfghij\\n\\n 0",
            "show",
        ]);
        let expected = [
            "ok", "ok 1 add-recipient \\e", "ok 1 add-recipient \\e", "ok", "ok abc", "ok \\e", "ok",
            "ok d\\x00", "refused 8 0 - \\e", "phase closed", "awaits -", "recipient 0 abc invalid-16",
            "recipient 1 d\\x00 invalid-16", "end",
        ];
        assert_eq!(answers, expected);
    }

    #[test]
    fn a_refused_open_leaves_the_earlier_session() {
        let answers = answers(&[
            CLIENT,
            "send add-identity abc \\e 99",
            "open client identity-v2 A screen 0 0 0 0 0 0 0",
            "open client identity-v1 A no-screen 0 0 0 0 0 0 0",
            "entry identity 0",
            "open client identity-v1 a no-screen 0 0 0 0 0 0 0",
            "show",
        ]);
        let expected = [
            "ok", "ok ->\\sadd-identity\\sabc\\n\\n", "refused 18", "refused 17", "ok abc", "ok",
            "phase one", "awaits -", "end",
        ];
        assert_eq!(answers, expected);
    }

    #[test]
    fn a_phase_two_received() {
        let answers = answers(&[
            "open client identity-v1 interop screen 0 99 0 99 99 0 99",
            "send add-identity a \\e 99",
            "send recipient-stanza 7\\stag \\e 99",
            "chunk ->\\smsg\\n\\n 9",
            "send done \\e \\e 9",
            "chunk ->\\sgrease\\n\\n->\\sconfirm\\seWVz\\n\\n->\\serror\\sidentity\\s0\\nYQ 16",
            "awaited",
            "show",
            "chunk ->\\smsg\\n\\n 9",
            "reply ok \\e 9",
            "reply no \\e 9",
            "reply no \\e 10",
            "awaited",
            "chunk \\n 7",
            "chunk ->\\sfile-key\\s7\\nMDEyMzQ1Njc4OWFiY2RlZg\\n 6",
            "chunk ->\\sfile-key\\s7\\nMDEyMzQ1Njc4OWFiY2RlZg\\n 7",
            "chunk ->\\srecipient-stanza\\n\\n 99",
            "chunk ->\\sdone\\n\\n 0",
            "show",
            "chunk \\e 0",
            "finish",
        ]);
        let expected = [
            "ok", "ok ->\\sadd-identity\\sa\\n\\n", "ok ->\\srecipient-stanza\\s7\\stag\\n\\n",
            "refused 14 0 - \\e", "ok ->\\sdone\\n\\n", "ok 2 confirm ->\\sunsupported\\n\\n",
            "ok ->\\sconfirm\\seWVz\\n\\n", "phase two", "awaits confirm", "identity 0 a invalid-16",
            "header 0 7 tag\\n unknown", "end", "refused 14 0 - \\e", "refused 12 0 - \\e",
            "refused 15 0 - \\e", "ok 0 - ->\\sok\\sno\\n\\n", "ok \\e", "ok 1 error ->\\sok\\n\\n",
            "refused 15 0 - \\e", "ok 1 file-key ->\\sok\\n\\n", "ok 1 other ->\\sunsupported\\n\\n",
            "ok 1 done \\e", "phase ended", "awaits -", "identity 0 a invalid-16",
            "header 0 7 tag\\n unknown", "error 0 identity\\s0 a", "key 7 0123456789abcdef", "end",
            "refused 13 0 - \\e", "ok",
        ];
        assert_eq!(answers, expected);
    }

    #[test]
    fn a_phase_two_sent() {
        let answers = answers(&[
            "open plugin recipient-v1 interop 99 0 99 0 9 99 0",
            "chunk ->\\sadd-recipient\\sage1interop1qyqszqg83syvs\\n\\n 0",
            "chunk ->\\swrap-file-key\\nMDEyMzQ1Njc4OWFiY2RlZg\\n 0",
            "send msg \\e \\e 9",
            "chunk ->\\sdone\\n\\n 0",
            "send request-secret \\e PIN 99",
            "show",
            "chunk ->\\so 0",
            "chunk k\\nMTIzNA\\nrest 3",
            "chunk k\\nMTIzNA\\nrest 4",
            "send grease a b 99",
            "chunk ->\\sunsupported\\n\\n 0",
            "send recipient-stanza 0\\stag body 99",
            "chunk ->\\sok\\n\\n 0",
            "send error internal \\e 99",
            "send done \\e \\e 9",
            "show",
        ]);
        let expected = [
            "ok",
            "ok 1 add-recipient \\e",
            "ok 1 wrap-file-key \\e",
            "refused 14",
            "ok 1 done \\e",
            "ok ->\\srequest-secret\\nUElO\\n",
            "phase two",
            "awaits request-secret",
            "recipient 0 age1interop1qyqszqg83syvs valid",
            "file-key 0 0123456789abcdef",
            "end",
            "ok 0 - \\e",
            "refused 15 0 - \\e",
            "refused 14 1 ok 1234",
            "ok ->\\sgrease\\sa\\nYg\\n",
            "ok 1 unsupported \\e",
            "ok ->\\srecipient-stanza\\s0\\stag\\nYm9keQ\\n",
            "ok 1 ok \\e",
            "refused 11",
            "ok ->\\sdone\\n\\n",
            "phase ended",
            "awaits -",
            "recipient 0 age1interop1qyqszqg83syvs valid",
            "file-key 0 0123456789abcdef",
            "stanza 0 0 tag\\nbody",
            "end",
        ];
        assert_eq!(answers, expected);
    }

    /// Stanzas are numbered within their file, and shown file by file; so are keys.
    #[test]
    fn files_are_shown_in_rising_order() {
        let mut script = vec!["open client recipient-v1 a default 9 0 32 0 0 20 0"];
        script.extend(["send add-recipient a \\e 99", "send add-recipient b \\e 99"]);
        script.extend(["send wrap-file-key \\e 0123456789abcdef 99"; 2]);
        script.push("send done \\e \\e 9");
        for line in [
            "chunk ->\\srecipient-stanza\\s1\\sabcd\\n\\n 9",
            "chunk ->\\srecipient-stanza\\s0\\sefgh\\n\\n 9",
            "chunk ->\\srecipient-stanza\\s1\\sijkl\\n\\n 9",
            "chunk ->\\srecipient-stanza\\s0\\smnop\\n\\n 9",
            "buffers 0 0 0 0 0 12 0",
            "show",
        ] {
            script.push(line);
        }
        let shown = answers(&script);
        let stanzas: Vec<&String> = shown.iter().filter(|line| line.starts_with("stanza ")).collect();
        assert_eq!(stanzas, ["stanza 0 0 efgh\\n", "stanza 0 1 \\e", "stanza 1 0 abcd\\n", "stanza 1 1 \\e"]);
    }

    #[test]
    fn a_closed_session_awaits_nothing() {
        let answers = answers(&[
            PLUGIN, "chunk ->\\sdone\\n\\n 0", "send error internal \\e 99", "send msg \\e \\e 99",
            "chunk ->\\sok\\n\\n 0", "send grease \\e \\e 99", "show", "chunk ->\\sok\\n\\n 0", "show",
            "chunk ->\\sok\\n\\n 0", "finish",
        ]);
        let expected = [
            "ok", "ok 1 done \\e", "ok ->\\serror\\sinternal\\n\\n", "refused 14", "ok 1 ok \\e",
            "ok ->\\sgrease\\n\\n", "phase two", "awaits other", "error 0 internal \\e", "end",
            "refused 12 0 - \\e", "phase closed", "awaits -", "error 0 internal \\e", "end",
            "refused 13 0 - \\e", "refused 13",
        ];
        assert_eq!(answers, expected);
    }

    /// What was taken before a fault is printed, in a chunk and behind a reply.
    #[test]
    fn faults_in_mid_chunk() {
        let answers = answers(&[
            "open client identity-v1 interop screen 0 99 0 99 99 0 99",
            "send done \\e \\e 9",
            "chunk ->\\smsg\\n\\n->\\sa\\n\\n->\\sconfirm\\sAA\\n\\n->\\sa\\n\\n->\\smsg\\sa\\n\\n 0",
            "reply ok \\e 22",
            "reply ok \\e 23",
            "awaited",
            "reply yes \\e 99",
            "awaited",
            "finish",
            "show",
        ]);
        let expected = [
            "ok",
            "ok ->\\sdone\\n\\n",
            "ok 1 msg \\e",
            "refused 15 0 - \\e",
            "ok 2 confirm ->\\sok\\n\\n->\\sunsupported\\n\\n",
            "ok ->\\sconfirm\\sAA\\n\\n",
            "refused 4 1 other ->\\sok\\syes\\n\\n->\\sunsupported\\n\\n",
            "ok \\e",
            "refused 13",
            "phase closed",
            "awaits -",
            "end",
        ];
        assert_eq!(answers, expected);
    }
}
